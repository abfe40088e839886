"""What a window of the map shows, by questions of the store.

The store's index finds what meets a window, and gives each geometry as it is: nothing is
simplified, and where there is more than a page can show, it is counted.
"""

from __future__ import annotations

from collections.abc import Iterator, Sequence
from typing import Any, cast

from sfstore.extents import Box, rectangle
from sfstore.geometry import read_wkb
from sfstore.language import POINTS_MAX
from sfstore.store import Answer, Editor, Refused

__all__ = ["ELEMENTS_MAX", "hexes_of", "rows_asked", "shapes_of", "window_of"]

ELEMENTS_MAX = 20_000
"""How many features a page draws at most."""

# How many hexadecimal digits of geometries a page is sent at most: some 2,000,000 points.
_DIGITS_MAX = 64_000_000
# A hexadecimal point has so many digits.
_DIGITS_OF_A_POINT = 32
# How many geometries are asked for at first, as nobody knows how large they are: as many of the largest as can be sent.
_FIRST_PART = _DIGITS_MAX // (_DIGITS_OF_A_POINT * POINTS_MAX)
# How many are asked for at a time where those before were small: a question costs time, and larger ones may follow.
_PART_MAX = 8 * _FIRST_PART


def window_of(store: Editor, layers: Sequence[str], box: Box, inner: Box | None = None) -> list[dict[str, Any]]:
    """What the layers have in a box: features with their geometries, or how many there are.

    Where there are too many, the layers with the fewest are drawn as long as there is room. Of the others it is counted
    too what they have in a part of the box, which a page sees of it.
    """
    found = _in_box(store, layers, box)
    room = ELEMENTS_MAX
    wanted: list[tuple[str, int]] = []
    for layer in sorted(layers, key=lambda name: len(found[name])):
        room -= len(found[layer])
        if room < 0:
            break
        wanted += ((layer, feature) for feature in found[layer])
    drawn = _drawn(store, wanted, found)
    answer: list[dict[str, Any]] = [
        {"name": layer, "count": len(found[layer]), "features": drawn.get(layer)} for layer in layers
    ]
    if inner is not None:
        counted = [told for told in answer if told["features"] is None]
        inside = _in_box(store, [told["name"] for told in counted], inner)
        for told in counted:
            told["inside"] = len(inside[told["name"]])
    return answer


def _in_box(store: Editor, layers: Sequence[str], box: Box) -> dict[str, list[int]]:
    """The features of layers that meet a box, asked in one go: there may be very many layers."""
    answers = store.run_all(f"query {layer} intersects {rectangle(box)}" for layer in layers)
    return {layer: list(map(int, rows_asked(answer))) for layer, answer in zip(layers, answers)}


def rows_asked(answer: Answer | Refused) -> list[str]:
    """The rows of an answer. `Refused` where it is none."""
    if isinstance(answer, list):
        return answer
    raise answer if isinstance(answer, Refused) else TypeError(answer)


def shapes_of(store: Editor, layer: str, features: Sequence[int]) -> list[list[Any]]:
    """Features of a layer as a window has them, of those that are there."""
    answers = store.run_all(f"hex {layer} {feature}" for feature in features)
    return [
        _feature(feature, answer)
        for feature, answer in zip(features, answers)
        if isinstance(answer, str)
    ]


def hexes_of(store: Editor, features: Sequence[tuple[str, int]]) -> Iterator[str]:
    """The geometries of features in hexadecimal, each of a layer, as many in memory at a time as those before have room for.

    `Refused` where one is not there.
    """
    begin, count = 0, _FIRST_PART
    while begin < len(features):
        part = features[begin : begin + count]
        answers = store.run_all([f"hex {layer} {feature}" for layer, feature in part])
        for answer in answers:
            if isinstance(answer, Refused):
                raise answer
        hexes = cast("list[str]", answers)
        yield from hexes
        longest = max(map(len, hexes))
        begin += len(part)
        count = min(2 * count, _PART_MAX, max(_FIRST_PART, _DIGITS_MAX // longest))


def _drawn(store: Editor, wanted: Sequence[tuple[str, int]], found: dict[str, list[int]]) -> dict[str, list[Any]]:
    """The features of layers as a page gets them: whole layers, one behind the other, as long as their digits can be sent."""
    room = _DIGITS_MAX
    drawn: dict[str, list[Any]] = {}
    for (layer, feature), digits in zip(wanted, hexes_of(store, wanted)):
        room -= len(digits)
        if room < 0:
            break
        drawn.setdefault(layer, []).append(_feature(feature, digits))
    # One that has come in part is not drawn; one without features in the box is.
    whole = {layer: features for layer, features in drawn.items() if len(features) == len(found[layer])}
    return {**{layer: [] for layer, features in found.items() if not features}, **whole}


def _feature(feature: int, digits: str) -> list[Any]:
    """A feature as a page gets it: its identifier, the code of its kind, and its coordinates."""
    code, members = read_wkb(bytes.fromhex(digits))
    return [feature, code, [[list(map(int, line)) for line in member] for member in members]]
