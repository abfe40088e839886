"""QGIS' actions that save several layers: those of one store are saved as a whole."""

from __future__ import annotations

from collections.abc import Callable
from typing import Any

from qgis.core import QgsVectorLayer
from qgis.PyQt.QtCore import QMetaObject, Qt

__all__ = ["Saving"]

# The actions by their names in QGIS' interface, and what they call of its window.
_ACTIONS = {"actionSaveAllEdits": b"saveAllEdits", "actionSaveEdits": b"saveEdits"}


class Saving:
    """QGIS' actions to save all layers, and those that are selected.

    QGIS saves one layer behind the other. So the actions lead here first, and it is known which
    layers will follow when the first of them is saved.
    """

    def __init__(self, iface: Any) -> None:
        self._iface = iface
        self._together: Callable[[QgsVectorLayer], bool] = lambda layer: False
        self._actions = {slot: getattr(iface, name)() for name, slot in _ACTIONS.items() if hasattr(iface, name)}
        for slot, action in self._actions.items():
            # QGIS' own slot goes, and is called from here.
            action.triggered.disconnect()
            action.triggered.connect(self._saving(slot))

    def leave(self) -> None:
        """Gives the actions back to QGIS."""
        for slot, action in self._actions.items():
            action.triggered.disconnect()
            action.triggered.connect(self._calling(slot))

    def is_together(self, layer: QgsVectorLayer) -> bool:
        """Whether a layer is among those that are being saved now."""
        return self._together(layer)

    def _saving(self, slot: bytes) -> Callable[..., None]:
        call = self._calling(slot)

        def save(*_: object) -> None:
            if slot == b"saveAllEdits":
                self._together = lambda layer: True
            else:
                selected = [layer.id() for layer in self._iface.layerTreeView().selectedLayers()]
                self._together = lambda layer: layer.id() in selected
            try:
                call()
            finally:
                self._together = lambda layer: False

        return save

    def _calling(self, slot: bytes) -> Callable[..., None]:
        window = self._iface.mainWindow()

        def call(*_: object) -> None:
            QMetaObject.invokeMethod(window, slot.decode(), Qt.DirectConnection)

        return call
