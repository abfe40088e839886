"""Features that get other geometries, as one step or as few as there is room for."""

from __future__ import annotations

from collections.abc import Mapping

from sfstore.editor import Editor
from sfstore.geometry import Shape, write_wkt
from sfstore.language import GROUP_MAX
from sfstore.results import Refused
from sfstore.tools.notdone import NotDone
from sfstore.tools.pins import shape_of
from sfstore.tools.trial import trial_of

__all__ = ["Which", "check_as_seen", "send", "steps_of", "take_back"]

Which = tuple[str, int]
"""A feature, by its layer and its identifier."""


def check_as_seen(store: Editor, seen: Mapping[Which, Shape]) -> None:
    """`NotDone` where one of some features is not as it was seen: somebody has changed it."""
    for (layer, feature), shape in seen.items():
        try:
            now = shape_of(store, layer, feature)
        except Refused:
            raise NotDone(f"{layer} {feature} is not there any more") from None
        if write_wkt(now) != write_wkt(shape):
            raise NotDone(f"{layer} {feature} was changed since it was looked at")


def steps_of(count: int) -> int:
    """How many groups so many members take."""
    return -(-count // GROUP_MAX)


def send(store: Editor, changed: Mapping[Which, Shape]) -> int:
    """Gives features other geometries, and gives how many groups that took. `Refused` where one is: then nothing has changed.

    Where it takes several they are tried in a copy of the store first, so that one that is refused leaves no trace in the history.
    """
    count = steps_of(len(changed))
    if count > 1:
        with trial_of(store) as scratch:
            _sent(scratch, changed)
    _sent(store, changed)
    return count


def _sent(store: Editor, changed: Mapping[Which, Shape]) -> None:
    """Has groups carried out. `Refused` where one is, and then those before it are taken back."""
    whole = list(changed.items())
    for step in range(steps_of(len(whole))):
        try:
            with store.together() as group:
                for (layer, feature), shape in whole[step * GROUP_MAX : (step + 1) * GROUP_MAX]:
                    group.replace(layer, feature, write_wkt(shape))
        except Refused:
            take_back(store, step)
            raise


def take_back(store: Editor, steps: int) -> None:
    """Undoes the last steps, which have edited features, and leaves a step that changes nothing as the one to redo."""
    for _ in range(steps):
        store.undo()
    if steps:
        store.move_layer(store.layers()[0].name, 0)
        store.undo()
