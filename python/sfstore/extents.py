"""How far a map reaches, by questions of the store."""

from __future__ import annotations

from collections.abc import Iterable, Sequence

from sfstore.editor import Editor
from sfstore.language import GRID_MAX, GRID_MIN
from sfstore.results import Refused

__all__ = ["Box", "extent_of", "rectangle"]

Box = tuple[int, int, int, int]
"""Least x and y, greatest x and y."""

# How many features of a layer are looked at in one go to find how far it reaches.
_SAMPLE = 256
# How many features are looked at to begin with, over all layers.
_SAMPLES = 3_200


def extent_of(store: Editor) -> Box | None:
    """The least box with all features, or none where there is no feature."""
    layers = [layer.name for layer in store.layers()]
    # Some features of each, to begin with: those that there are of these.
    count = max(1, min(32, _SAMPLES // max(1, len(layers))))
    found = _with_boxes(store, ((layer, 1 << power) for layer in layers for power in range(count)), None)
    # One question for all layers, as there may be very many: those that reach no further are done with it.
    for layer in layers if found is None else _reaching_out(store, layers, found):
        found = _layer_extent(store, layer, found)
    return found


def _layer_extent(store: Editor, layer: str, found: Box | None) -> Box | None:
    """The least box with another box and all features of a layer.

    The box grows by some of the features that reach out of it, until there is none: so few are
    looked at one by one.
    """
    found = _with_boxes(store, ((layer, 1 << power) for power in range(32)), found)
    while outside := _outside(store, layer, found):
        step = max(1, len(outside) // _SAMPLE)
        found = _with_boxes(store, ((layer, feature) for feature in [*outside[::step], outside[-1]]), found)
    return found


def _with_boxes(store: Editor, features: Iterable[tuple[str, int]], found: Box | None) -> Box | None:
    """The least box with another box and those of some features, each of a layer."""
    for answer in store.run_all(f"box {layer} {feature}" for layer, feature in features):
        if not isinstance(answer, Refused):
            left, bottom, right, top = map(int, str(answer).split(" "))
            if found is not None:
                left, bottom = min(left, found[0]), min(bottom, found[1])
                right, top = max(right, found[2]), max(top, found[3])
            found = left, bottom, right, top
    return found


def _reaching_out(store: Editor, layers: Sequence[str], box: Box) -> list[str]:
    """The layers that have features which reach out of a box."""
    sides = _sides(box)
    answers = iter(store.run_all(f"query {layer} intersects {side}" for layer in layers for side in sides))
    return [layer for layer in layers if any([next(answers) for _ in sides])]


def _outside(store: Editor, layer: str, box: Box | None) -> list[int]:
    """The features of a layer that reach out of a box on some side."""
    if box is None:
        return store.query(layer, "intersects", rectangle((GRID_MIN, GRID_MIN, GRID_MAX, GRID_MAX)))
    return sorted({feature for side in _sides(box) for feature in store.query(layer, "intersects", side)})


def _sides(box: Box) -> list[str]:
    """What of the grid lies on the sides of a box, as well-known text."""
    left, bottom, right, top = box
    sides = [
        (GRID_MIN, GRID_MIN, left - 1, GRID_MAX),
        (right + 1, GRID_MIN, GRID_MAX, GRID_MAX),
        (GRID_MIN, GRID_MIN, GRID_MAX, bottom - 1),
        (GRID_MIN, top + 1, GRID_MAX, GRID_MAX),
    ]
    return [rectangle(side) for side in sides if side[0] <= side[2] and side[1] <= side[3]]


def rectangle(box: Box) -> str:
    """A box as well-known text: a polygon, or where it has no area a line or a point."""
    left, bottom, right, top = box
    if left < right and bottom < top:
        corners = f"{left} {bottom}, {right} {bottom}, {right} {top}, {left} {top}, {left} {bottom}"
        return f"POLYGON (({corners}))"
    if (left, bottom) == (right, top):
        return f"POINT ({left} {bottom})"
    return f"LINESTRING ({left} {bottom}, {right} {top})"
