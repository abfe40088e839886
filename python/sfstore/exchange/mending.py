"""Geometries that the store does not take, mended where somebody asks for it, on the grid.

What rounding has collapsed is dropped: a ring without an area, a line of one place. What is still invalid is made
valid by GEOS. Its corners go to the nearest steps, and where that makes it invalid again, once more.
"""

from __future__ import annotations

from collections.abc import Callable, Iterator
from typing import Any, NamedTuple

from sfstore.exchange import ogr
from sfstore.geometry import Flat, NotTaken, Shape, read_wkb, write_wkb

__all__ = ["Mended", "mended"]

_ROUNDS = 8
_POINTS = (1, 4)
_LINES = (2, 5)
_POLYGONS = (3, 6)


class Mended(NamedTuple):
    """A geometry that was changed so that the store takes it."""

    shape: Shape
    words: str
    """What was changed."""


def mended(shape: Shape, is_taken: Callable[[Shape], bool]) -> Mended | None:
    """A geometry near to one that is not taken, or none where nothing is left of it, or nothing helps."""
    words = []
    kept, dropped = _without_collapsed(shape)
    if kept is None:
        return None
    if dropped:
        words.append(dropped)
    if not is_taken(kept):
        valid = _made_valid(kept, is_taken)
        if valid is None:
            return None
        words.append(f"made valid, {_counts(kept)} became {_counts(valid)}")
        kept = valid
    return Mended(kept, "; ".join(words) or "taken at a second look")


def _without_collapsed(shape: Shape) -> tuple[Shape | None, str]:
    """A shape without what has collapsed, none where nothing is left, and what was dropped in words."""
    if shape.code in _POINTS:
        return shape, ""
    what = "line" if shape.code in _LINES else "ring"
    members: list[list[Flat]] = []
    count = 0
    for member in shape.members:
        first, *others = member
        if _is_collapsed(first, what):
            # What lies in a shell that has collapsed has gone with it.
            count += len(member)
            continue
        kept = [line for line in others if not _is_collapsed(line, what)]
        count += len(others) - len(kept)
        members.append([first, *kept])
    if not members:
        return None, ""
    told = f"{count} {what}{'' if count == 1 else 's'} that collapsed {'was' if count == 1 else 'were'} dropped"
    return Shape(shape.code, members), told if count else ""


def _is_collapsed(line: Flat, what: str) -> bool:
    """Whether a line is one place, or a ring is on one straight line."""
    points = list(zip(line[::2], line[1::2]))
    (x, y), *others = points
    far = next(((a - x, b - y) for a, b in others if (a, b) != (x, y)), None)
    if far is None:
        return True
    if what == "line":
        return False
    return len(points) < 4 or all(far[0] * (b - y) == far[1] * (a - x) for a, b in others)


def _made_valid(shape: Shape, is_taken: Callable[[Shape], bool]) -> Shape | None:
    """A shape that GEOS has made valid, on the grid; none where it does not become valid there."""
    if shape.code not in _POLYGONS:
        return None
    _, module, _ = ogr.gdal()
    for _ in range(_ROUNDS):
        try:
            geometry = module.CreateGeometryFromWkb(write_wkb(shape)).MakeValid()
        except RuntimeError:
            return None
        rounded: list[list[Flat]] = [[_rounded(line) for line in member] for member in _members(geometry)]
        code = 6 if shape.code == 6 or len(rounded) > 1 else 3
        found = _without_collapsed(Shape(code, rounded))[0] if rounded else None
        if found is None:
            return None
        if is_taken(found):
            return found
        shape = found
    return None


def _members(geometry: Any) -> Iterator[list[Flat]]:
    """The polygons of a geometry and of what it is a collection of; lines and points that have become of it are none."""
    try:
        shape = read_wkb(bytes(geometry.ExportToIsoWkb()))
    except NotTaken:
        for at in range(geometry.GetGeometryCount()):
            yield from _members(geometry.GetGeometryRef(at))
        return
    if shape.code in _POLYGONS:
        yield from shape.members


def _rounded(line: Flat) -> list[int]:
    return [round(place) for place in line]


def _counts(shape: Shape) -> str:
    members, points = len(shape.members), sum(len(line) // 2 for member in shape.members for line in member)
    return f"{members} {'member' if members == 1 else 'members'} of {points} points"
