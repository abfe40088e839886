"""The store's undo and redo behind QGIS' own actions."""

from __future__ import annotations

from typing import TYPE_CHECKING, Any

from qgis.PyQt.QtWidgets import QAction

if TYPE_CHECKING:
    from .plugin import Plugin

__all__ = ["History"]

_NAMES = {"undo": "mActionUndo", "redo": "mActionRedo"}


class History:
    """QGIS' actions, which move a step of the store where the active layer has none of its own.

    With each edit sent at once QGIS has no steps, and would show its actions as if there were none.
    """

    def __init__(self, window: Any, plugin: Plugin) -> None:
        self._plugin = plugin
        found = {verb: window.findChild(QAction, name) for verb, name in _NAMES.items()}
        self._actions = {verb: action for verb, action in found.items() if action is not None}
        self._slots: list[tuple[Any, Any]] = []
        for verb, action in self._actions.items():
            self._connect(action.changed, self.look)
            self._connect(action.triggered, self._moving(verb))

    def leave(self) -> None:
        """Leaves QGIS' actions alone again."""
        for signal, slot in self._slots:
            signal.disconnect(slot)
        self._slots.clear()

    def look(self, *_: object) -> None:
        """Lets an action be used where the store has a step for it that is this editor's."""
        for verb, action in self._actions.items():
            if not action.isEnabled() and self._is_stores(verb):
                action.setEnabled(True)

    def _is_stores(self, verb: str) -> bool:
        """Whether the active layer is a store's, has nothing that was not sent, and the next step is one's own."""
        editing = self._plugin.active()
        if editing is None or editing.layer.isModified() or not editing.session.is_connected:
            return False
        step = editing.session.steps[verb]
        return bool(step and step["number"] == editing.session.editor) and not editing.layer.undoStack().count()

    def _moving(self, verb: str) -> Any:
        def move(*_: object) -> None:
            # Where QGIS has steps of its own it has moved one.
            if self._is_stores(verb):
                self._plugin.tried(lambda: self._plugin.move(verb))
            self.look()

        return move

    def _connect(self, signal: Any, slot: Any) -> None:
        signal.connect(slot)
        self._slots.append((signal, slot))
