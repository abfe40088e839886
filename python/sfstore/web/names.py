"""Which layer has which name, so that nothing is drawn into a layer that has taken another one's name."""

from __future__ import annotations

import itertools
from collections.abc import Iterable, Sequence
from typing import NamedTuple

from sfstore.web.changes import Change, is_from
from sfstore.web.steps import LayerChange

__all__ = ["Names"]

# So many changes are remembered. Beyond them all is forgotten, and whoever saw the store before has to look again once.
_REMEMBERED_MAX = 100_000

_NONE = 0
"""What stands for no layer."""


class _Taken(NamedTuple):
    """A change by which another layer, or none, has a name."""

    change: Change
    before: int
    """The layer that had the name before."""


class Names:
    """The layers by their names, each with a number that it keeps under other names, and where it is dropped and brought back."""

    def __init__(self, changes: Iterable[LayerChange] = (), known_from: int = 0) -> None:
        """``changes`` are those of the history, which an undo may move, up to a version of the store."""
        self._layers: dict[str, int] = {}
        self._taken: dict[str, list[_Taken]] = {}
        self._count = 0
        self._known_from = known_from
        self._numbers = itertools.count(1)
        # The layers of the steps that are done, and of those that are undone: the last ones stand at the end.
        self._done: list[int] = []
        self._undone: list[int] = []
        for change in changes:
            self._move(change)

    def take(self, made: Sequence[LayerChange], change: Change) -> None:
        """Follows what an edit, an undo or a redo has made of layers."""
        for each in made:
            if self._count >= _REMEMBERED_MAX:
                self._taken.clear()
                self._count, self._known_from = 0, change.version
            before = {name: self._layer(name) if name == each.before else _NONE for name in (each.before, each.after) if name}
            self._move(each)
            for name, layer in before.items():
                self._taken.setdefault(name, []).append(_Taken(change, layer))
                self._count += 1

    def is_known_since(self, version: int) -> bool:
        """Whether it is known which names were taken after a version."""
        return version >= self._known_from

    def since(self, name: str, version: int, editor: int, page: str) -> Change | None:
        """The last change by another page than one, where another layer has a name than at a version; none where it is the same layer.

        What a page has done itself it knows.
        """
        later = list(itertools.takewhile(lambda taken: taken.change.version > version, reversed(self._taken.get(name, []))))
        if not later or later[-1].before == self._layer(name):
            return None
        return next((taken.change for taken in later if not is_from(taken.change, editor, page)), None)

    def _layer(self, name: str) -> int:
        """The layer that has a name. One that was there before anything was followed has it since ever."""
        if name not in self._layers:
            self._layers[name] = next(self._numbers)
        return self._layers[name]

    def _move(self, change: LayerChange) -> None:
        if change.verb:
            # The history moves its last step alone.
            from_, to = (self._done, self._undone) if change.verb == "undo" else (self._undone, self._done)
            layer = from_.pop()
        else:
            self._undone.clear()
            layer, to = self._layer(change.before) if change.before else next(self._numbers), self._done
        to.append(layer)
        for name, found in ((change.before, _NONE), (change.after, layer)):
            if name:
                self._layers[name] = found
