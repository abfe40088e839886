"""Areas as directed edges with the inside on their left, and rings made of such edges again. All in whole numbers."""

from __future__ import annotations

from bisect import bisect_left, bisect_right
from collections import defaultdict
from collections.abc import Iterable, Iterator, Sequence
from typing import NamedTuple

from sfstore.geometry import Flat, Shape

__all__ = ["Edge", "Point", "Polygon", "doubled", "edges_of", "polygons_of", "split_at", "whole_turn", "written"]

Point = tuple[int, int]
Edge = tuple[Point, Point]
Ring = list[Point]
"""The points of a ring, the first one not repeated."""


class Polygon(NamedTuple):
    """A shell with its holes."""

    shell: Ring
    holes: list[Ring]


def edges_of(shape: Shape) -> Iterator[Edge]:
    """The edges of an area's rings, with the inside on their left."""
    for member in shape.members:
        for place, line in enumerate(member):
            ring = _ring(line)
            # A shell goes round to the left, and a hole to the right.
            if (doubled(ring) > 0) == (place > 0):
                ring.reverse()
            yield from zip(ring, [*ring[1:], ring[0]])


def split_at(edges: Iterable[Edge], points: Iterable[Point]) -> Iterator[Edge]:
    """The edges, each parted at those of the points that lie within it."""
    by_x = sorted(set(points))
    columns = [x for x, _ in by_x]
    for a, b in edges:
        within = [point for point in _between(by_x, columns, a, b) if _lies_within(point, a, b)]
        within.sort(key=lambda point: (abs(point[0] - a[0]), abs(point[1] - a[1])))
        stops = [a, *within, b]
        yield from zip(stops, stops[1:])


def polygons_of(edges: Iterable[Edge]) -> list[Polygon]:
    """The polygons whose rings these edges are: each has the inside on its left, and no two cross or are the same.

    `ValueError` where they are the edges of no area.
    """
    rings = [ring for walk in _walks(edges) for ring in _simple(walk)]
    shells = [Polygon(ring, []) for ring in rings if doubled(ring) > 0]
    for hole in (ring for ring in rings if doubled(ring) < 0):
        around = [shell for shell in shells if _is_in(hole, shell.shell)]
        if not around:
            raise ValueError("a hole lies in no shell")
        min(around, key=lambda polygon: doubled(polygon.shell)).holes.append(hole)
    return shells


def written(polygons: Sequence[Polygon]) -> Shape:
    """Polygons as a geometry: a POLYGON where it is one, else a MULTIPOLYGON."""
    members: list[list[Flat]] = [[_line(ring) for ring in (polygon.shell, *polygon.holes)] for polygon in polygons]
    return Shape(3 if len(members) == 1 else 6, members)


def _ring(line: Flat) -> Ring:
    """The points of a ring as the store has it, those dropped that repeat the one before."""
    points = [(int(x), int(y)) for x, y in zip(line[::2], line[1::2])]
    return [point for point, before in zip(points[1:], points) if point != before]


def _line(ring: Ring) -> Flat:
    """A ring as the store has it, its first point at its end again."""
    return [number for point in (*ring, ring[0]) for number in point]


def doubled(ring: Sequence[Point]) -> int:
    """Twice the area of a ring: positive where it goes round to the left."""
    return sum(x * d - y * c for (x, y), (c, d) in zip(ring, [*ring[1:], ring[0]]))


def whole_turn(a: Point, b: Point, c: Point) -> int:
    """Positive where c is left of the line from a to b, and 0 where it is on it."""
    return (b[0] - a[0]) * (c[1] - a[1]) - (b[1] - a[1]) * (c[0] - a[0])


def _between(by_x: list[Point], columns: list[int], a: Point, b: Point) -> list[Point]:
    """The points whose x is between those of two points."""
    low, high = sorted((a[0], b[0]))
    return by_x[bisect_left(columns, low) : bisect_right(columns, high)]


def _lies_within(point: Point, a: Point, b: Point) -> bool:
    """Whether a point lies on an edge, and is none of its ends."""
    low, high = sorted((a[1], b[1]))
    return low <= point[1] <= high and point not in (a, b) and whole_turn(a, b, point) == 0


def _walks(edges: Iterable[Edge]) -> Iterator[Ring]:
    """Walks along the edges, each back to its begin. At a point with several ways on, the one furthest to the left is taken.

    So a walk goes round one corner of the inside at a time. Where it begins it is cut in any case, whichever way it comes back.
    """
    ways: dict[Point, list[Point]] = defaultdict(list)
    for a, b in edges:
        ways[a].append(b)
    for start in sorted(ways):
        while ways[start]:
            walk, before, at = [start], start, ways[start].pop()
            while at != start:
                walk.append(at)
                before, at = at, _next(before, at, ways[at])
            yield walk


def _next(before: Point, at: Point, ways: list[Point]) -> Point:
    """Takes the way furthest to the left. The way back, along an edge that has an inside on both sides, is the last one."""
    if not ways:
        raise ValueError(f"a border ends at {at[0]} {at[1]}")
    found = _leftmost(before, at, [way for way in ways if way != before] or ways)
    ways.remove(found)
    return found


def _leftmost(before: Point, at: Point, ways: Sequence[Point]) -> Point:
    """Of the ways on the one furthest to the left, seen from where one comes."""
    best = ways[0]
    for way in ways[1:]:
        if _is_further_left(before, at, way, best):
            best = way
    return best


def _is_further_left(before: Point, at: Point, way: Point, other: Point) -> bool:
    """Whether a way on turns further to the left than another one. None of them goes back."""
    side, other_side = whole_turn(before, at, way), whole_turn(before, at, other)
    if (side > 0) != (other_side > 0):
        return side > 0
    if side > 0 or (side < 0 and other_side < 0):
        return whole_turn(at, other, way) > 0
    # One of them goes straight on, and the other one to the right.
    return other_side < 0


def _simple(walk: Ring) -> Iterator[Ring]:
    """The rings that a walk goes round: where it comes by a point again, what lies between is a ring of its own."""
    path: Ring = []
    places: dict[Point, int] = {}
    for point in walk:
        if point in places:
            cut = places[point]
            yield path[cut:]
            for passed in path[cut:]:
                del places[passed]
            del path[cut:]
        places[point] = len(path)
        path.append(point)
    yield path


def _is_in(ring: Ring, shell: Ring) -> bool:
    """Whether a ring that crosses no edge of a shell lies in it: the middle of its first edge that is none of the shell's.

    Twice each coordinate is taken, so that the middle is a whole one.
    """
    (ax, ay), (bx, by) = ring[0], ring[1]
    x, y = ax + bx, ay + by
    inside = False
    for (cx, cy), (dx, dy) in zip(shell, [*shell[1:], shell[0]]):
        cx, cy, dx, dy = 2 * cx, 2 * cy, 2 * dx, 2 * dy
        if (cy > y) != (dy > y):
            # On which side of the edge the point is, with the edge going upwards.
            side = (dx - cx) * (y - cy) - (dy - cy) * (x - cx)
            inside ^= (side > 0) == (dy > cy)
    return inside
