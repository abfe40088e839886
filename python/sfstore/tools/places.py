"""Places of the plane, exactly: fractions, and what edges of the grid have in common."""

from __future__ import annotations

from collections.abc import Iterable, Iterator, Sequence
from fractions import Fraction

from sfstore.tools.rings import Edge, Point

__all__ = ["Place", "exact", "in_order", "is_inside", "lies_on", "middle", "rounded", "shared", "turn"]

Place = tuple[Fraction, Fraction]
"""A point of the plane, exactly."""


def exact(point: Point) -> Place:
    return Fraction(point[0]), Fraction(point[1])


def rounded(at: Place) -> Point:
    """The point of the grid for a place."""
    return round(at[0]), round(at[1])


def turn(a: Place, b: Place, c: Place) -> Fraction:
    """Positive where c is left of the line from a to b, and 0 where it is on it."""
    return (b[0] - a[0]) * (c[1] - a[1]) - (b[1] - a[1]) * (c[0] - a[0])


def lies_on(at: Place, edge: Edge) -> bool:
    """Whether a place lies on an edge, its ends among it."""
    (ax, ay), (bx, by) = edge
    if not (min(ax, bx) <= at[0] <= max(ax, bx) and min(ay, by) <= at[1] <= max(ay, by)):
        return False
    return turn(exact(edge[0]), exact(edge[1]), at) == 0


def shared(one: Edge, other: Edge) -> list[Place]:
    """The places where two edges meet; where they run along one another the ends of what they share."""
    ends = [exact(end) for end in one if lies_on(exact(end), other)] + [exact(end) for end in other if lies_on(exact(end), one)]
    if ends:
        return ends
    (a, b), (c, d) = map(exact, one), map(exact, other)
    first, second = turn(c, d, a), turn(c, d, b)
    if (first > 0) == (second > 0) or (turn(a, b, c) > 0) == (turn(a, b, d) > 0):
        return []
    part = first / (first - second)
    return [(a[0] + part * (b[0] - a[0]), a[1] + part * (b[1] - a[1]))]


def in_order(edge: Edge, stops: Iterable[Place]) -> Iterator[tuple[Place, Place]]:
    """The pieces of an edge between places on it."""
    start = exact(edge[0])
    order = sorted(set(stops), key=lambda at: (abs(at[0] - start[0]), abs(at[1] - start[1])))
    return zip(order, order[1:])


def middle(a: Place, b: Place) -> Place:
    return (a[0] + b[0]) / 2, (a[1] + b[1]) / 2


def is_inside(at: Place, border: Sequence[Edge]) -> bool:
    """Whether a place lies inside of a border, and not on it."""
    x, y = at
    # A whole number is above y where it is above the whole part of y.
    below = y.numerator // y.denominator
    inside = False
    for edge in border:
        (ax, ay), (bx, by) = edge
        if (ay > below) != (by > below):
            side = turn(exact(edge[0]), exact(edge[1]), at)
            if side == 0:
                return False
            inside ^= (side > 0) == (by > ay)
        elif ay == by == y and min(ax, bx) <= x <= max(ax, bx):
            return False
    return inside
