"""Where a geometry breaks the rules 10 to 17, in words and points.

The program says which part, ring and edges are wrong (`check` of docs/use/CONSOLE.md), and that is
proved. What these edges share is worked out here, in whole numbers and exact fractions.
"""

from __future__ import annotations

import itertools
import threading
from collections.abc import Callable
from fractions import Fraction
from typing import NamedTuple, Union

from sfstore.geometry import Flat, Shape, write_wkt
from sfstore.results import Place, Refused
from sfstore.store import Editor, ProgramEnded, Store

__all__ = ["SECONDS", "Fault", "fault_at", "fault_in", "fault_of"]

SECONDS = 5.0
"""How long a program may take that is started for a place, where nothing else is asked."""

Number = Union[int, Fraction]
Point = tuple[Number, Number]
Edge = tuple[Point, Point]


class Fault(NamedTuple):
    """A place where a rule is broken."""

    words: str
    """What is there, with ``{0}``, ``{1}`` .. where points are named."""
    points: list[Point]
    """The points, in steps of the grid."""

    def __str__(self) -> str:
        return self.words.format(*map(point_text, self.points))


def point_text(point: Point) -> str:
    """A point with its coordinates as fractions, such as ``(5/2 7)``."""
    return f"({point[0]} {point[1]})"


def fault_of(shape: Shape, program: str = "sfstore", seconds: float = SECONDS) -> Fault | None:
    """Where a geometry is wrong, as a program says that is started for it.

    None where it is valid, and where the program takes longer, as it may for a shape made so by hand.
    """
    store = Store(program=program)
    limit = threading.Timer(seconds, store.stop)
    limit.start()
    try:
        store.add_layer("any")
        return fault_in(store, "any", shape)
    except ProgramEnded:
        return None
    finally:
        limit.cancel()
        store.close(save=False)


def fault_in(store: Editor, layer: str, shape: Shape) -> Fault | None:
    """Where a geometry is wrong, as a store says that has a layer which takes its kind."""
    refused = store.check(layer, write_wkt(shape))
    return fault_at(shape, refused) if refused else None


def fault_at(shape: Shape, refused: Refused) -> Fault | None:
    """What is at the places that a refusal names of a geometry. None where it names none."""
    told = _TOLD.get(refused.number)
    return told(_Told(shape), *refused.places) if told and refused.places else None


class _Told:
    """A geometry, of which places are put into words."""

    def __init__(self, shape: Shape) -> None:
        self._shape = shape

    def short_line(self, place: Place) -> Fault:
        return Fault(f"{self._name(place)} has the point {{0}} alone", self._points(place)[:1])

    def open_ring(self, place: Place) -> Fault:
        points = self._points(place)
        return Fault(f"{self._name(place)} begins at {{0}} and ends at {{1}}", [points[0], points[-1]])

    def short_ring(self, place: Place) -> Fault:
        points = self._points(place)
        words = f"{self._name(place)}, which begins at {{0}}, has {len(points)} points"
        return Fault(f"{words}, repeats dropped and the closing one counted", points[:1])

    def meets_itself(self, place: Place) -> Fault:
        first, second = place.edges
        names = f"edges {first} and {second} of {self._name(place)}"
        return _meeting(names, _shared(self._edge(place, first), self._edge(place, second)))

    def rings_meet(self, one: Place, other: Place) -> Fault:
        first, second = one.edges[0], other.edges[0]
        names = f"edge {first} of {self._name(one)} and edge {second} of {self._name(other)}"
        return _meeting(names, _shared(self._edge(one, first), self._edge(other, second)))

    def hole_outside(self, place: Place) -> Fault:
        shell = self._name(place._replace(ring=0))
        if not place.edges:
            return Fault(f"{self._name(place)} is not in {shell}", [])
        edge = self._edge(place, place.edges[0])
        words = f"edge {place.edges[0]} of {self._name(place)}, from {{0}} to {{1}}"
        return Fault(f"{words}, is not all in {shell}", list(edge))

    def holes_nested(self, one: Place, other: Place) -> Fault:
        names = f"{self._name(one)}, which begins at {{0}}, and {self._name(other)}, which begins at {{1}}"
        return Fault(f"{names}, have points inside both", self._begins(one, other))

    def polygons_overlap(self, one: Place, other: Place) -> Fault:
        names = f"members {one.part}, which begins at {{0}}, and {other.part}, which begins at {{1}}"
        return Fault(f"{names}, have points inside both", self._begins(one, other))

    def _begins(self, *places: Place) -> list[Point]:
        return [self._points(place)[0] for place in places]

    def _name(self, place: Place) -> str:
        name = f"ring {place.ring or 0}" if self._shape.code in (3, 6) else "line"
        return f"{name} of member {place.part}" if len(self._shape.members) > 1 else name

    def _points(self, place: Place) -> list[Point]:
        """The points of a ring or line, repeats in a row once."""
        return _once(self._shape.members[place.part][place.ring or 0])

    def _edge(self, place: Place, number: int) -> Edge:
        line = self._shape.members[place.part][place.ring or 0]
        return _point(line, number), _point(line, number + 1)


_TOLD: dict[int, Callable[..., Fault]] = {
    10: _Told.short_line,
    11: _Told.open_ring,
    12: _Told.short_ring,
    13: _Told.meets_itself,
    14: _Told.rings_meet,
    15: _Told.hole_outside,
    16: _Told.holes_nested,
    17: _Told.polygons_overlap,
}


def _point(line: Flat, number: int) -> Point:
    return int(line[2 * number]), int(line[2 * number + 1])


def _once(line: Flat) -> list[Point]:
    """The points of a list, repeats in a row once."""
    return [point for point, _ in itertools.groupby(_point(line, at) for at in range(len(line) // 2))]


def _meeting(names: str, shared: list[Point]) -> Fault:
    """How two edges meet, by what they share."""
    words = "run along each other from {0} to {1}" if len(shared) == 2 else "meet at {0}"
    return Fault(f"{names} {words}", shared)


def _turn(a: Point, b: Point, c: Point) -> Number:
    """Above 0 where the way from a over b to c turns left, below 0 where right."""
    return (b[0] - a[0]) * (c[1] - a[1]) - (b[1] - a[1]) * (c[0] - a[0])


def _shared(one: Edge, other: Edge) -> list[Point]:
    """What two edges share that meet: a point, or the two ends of a piece."""
    (a, b), (c, d) = one, other
    from_c, from_d = _turn(a, b, c), _turn(a, b, d)
    if from_c == 0 and from_d == 0:
        low, high = max(min(one), min(other)), min(max(one), max(other))
        return [low] if low == high else [low, high]
    part = Fraction(from_c, from_c - from_d)
    return [(c[0] + part * (d[0] - c[0]), c[1] + part * (d[1] - c[1]))]
