"""The plugin's actions: in a toolbar of their own, and in QGIS' menu of plugins, which the keyboard reaches too."""

from __future__ import annotations

from collections.abc import Callable, Sequence
from pathlib import Path
from typing import Any

from qgis.PyQt.QtGui import QIcon
from qgis.PyQt.QtWidgets import QAction, QMenu, QToolButton

__all__ = ["ICONS", "Bar"]

ICONS = Path(__file__).resolve().parent / "icons"

_TITLE = "sfstore"


class Bar:
    """What the plugin adds to QGIS' window. An icon is the name of a file of `ICONS`, without its ending."""

    def __init__(self, iface: Any) -> None:
        self._iface = iface
        self._bar = iface.addToolBar(_TITLE)
        self._bar.setObjectName(_TITLE)
        self.actions: list[QAction] = []
        """All of them, in their order."""

    def add(self, icon: str, text: str, act: Callable[[], object]) -> QAction:
        """Adds an action."""
        action = self._made(icon, text, act)
        self._bar.addAction(action)
        return action

    def add_several(self, icon: str, text: str, acts: Sequence[tuple[str, Callable[[], object]]]) -> None:
        """Adds a button whose menu has several actions."""
        menu = QMenu(text, self._bar)
        menu.setIcon(_icon(icon))
        for each in acts:
            menu.addAction(self._made(icon, *each))
        button = QToolButton(self._bar)
        button.setDefaultAction(menu.menuAction())
        button.setPopupMode(QToolButton.InstantPopup)
        self._bar.addWidget(button)

    def add_switch(self, icon: str, text: str, is_on: bool, turn: Callable[[bool], object]) -> QAction:
        """Adds an action that is on or off."""
        action = QAction(_icon(icon), text, self._bar, checkable=True, checked=is_on)
        action.toggled.connect(turn)
        self._bar.addAction(self._listed(action))
        return action

    def leave(self) -> None:
        """Takes all of it away."""
        for action in self.actions:
            self._iface.removePluginMenu(_TITLE, action)
        self._bar.deleteLater()

    def _made(self, icon: str, text: str, act: Callable[[], object]) -> QAction:
        action = QAction(_icon(icon), text, self._bar)
        action.triggered.connect(lambda _=False: act())
        return self._listed(action)

    def _listed(self, action: QAction) -> QAction:
        self._iface.addPluginToMenu(_TITLE, action)
        self.actions.append(action)
        return action


def _icon(name: str) -> QIcon:
    return QIcon(str(ICONS / f"{name}.svg"))
