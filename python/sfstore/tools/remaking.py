"""Geometries made again of points that were moved."""

from __future__ import annotations

from collections.abc import Iterator, Sequence

from sfstore.geometry import Flat, Shape
from sfstore.tools.pins import pairs
from sfstore.tools.rings import Edge, Point, doubled, polygons_of, written

__all__ = ["inside_left", "remade"]

_AREAS = (3, 6)


def remade(before: Shape, members: Sequence[Sequence[list[Point]]]) -> Shape | None:
    """A geometry with other points. Of an area what has collapsed is gone; None where nothing is left.

    `ValueError` where the points are those of no area.
    """
    if before.code not in _AREAS:
        return Shape(before.code, [[_flat(line) for line in member] for member in members])
    if all(_is_plain(line) for member in members for line in member):
        return Shape(before.code, [[_flat(line) for line in member] for member in members])
    edges: set[Edge] = set()
    for member, old in zip(members, before.members):
        for place, (line, old_line) in enumerate(zip(member, old)):
            for edge in inside_left(line, old_line, place):
                if edge in edges:
                    raise ValueError("two borders run along one another")
                edges.add(edge)
    left = [edge for edge in edges if edge[::-1] not in edges]
    if not left:
        return None
    whole = written(polygons_of(left))
    return Shape(6, whole.members) if before.code == 6 else whole


def _is_plain(line: Sequence[Point]) -> bool:
    """Whether a ring has an area, and no point twice."""
    return len(line) > 3 and len(set(line)) == len(line) - 1 and doubled(line[:-1]) != 0


def inside_left(line: Sequence[Point], before: Flat, place: int) -> Iterator[Edge]:
    """The edges of a ring with the inside on their left, as it was before its points were moved: a shell's, or a hole's."""
    old = [(int(x), int(y)) for x, y in zip(before[::2], before[1::2])]
    edges = [(a, b) for a, b in pairs(line) if a != b]
    is_left = (doubled(old[:-1]) > 0) == (place == 0)
    return iter(edges) if is_left else ((b, a) for a, b in edges)


def _flat(line: Sequence[Point]) -> Flat:
    return [number for point in line for number in point]
