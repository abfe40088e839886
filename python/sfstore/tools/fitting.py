"""Corners that another program has put on shared borders: rounded once, and put into each border that passes there."""

from __future__ import annotations

from collections import defaultdict
from collections.abc import Collection, Iterable, Iterator, Sequence
from fractions import Fraction
from functools import partial
from typing import NamedTuple

from sfstore.editor import Editor
from sfstore.geometry import Flat, Shape, read_wkt, write_wkt
from sfstore.language import GRID_MAX, GRID_MIN, words_of_line
from sfstore.results import Refused
from sfstore.tools.cutting import Cut, bent_by, with_corners
from sfstore.tools.nearby import Nearby, foot
from sfstore.tools.pins import pairs, pins_of, points_of, shape_of
from sfstore.tools.places import Place, exact, lies_on
from sfstore.tools.rings import Edge, Point
from sfstore.tools.sending import Which

__all__ = ["Corner", "Fitted", "fitted"]

# The square of how far from an edge a corner lies at most that was put on it and then rounded: half a step in each direction.
# Who draws may have rounded it before.
_ROUNDED_SQUARE = Fraction(1, 2)
# How many words stand before the geometry of a line.
_FRONTS = {"add": 2, "replace": 3}


class Corner(NamedTuple):
    """A corner that was drawn."""

    at: Place
    """Where, in steps: on the grid or between its points."""
    to: Point
    """The point of the grid that it was rounded to."""


class Fitted(NamedTuple):
    """Lines of edits that fit what is beside them."""

    lines: list[str]
    """Those that were given, with further corners where an edge is bent; and behind them those of features beside."""
    beside: list[Which]
    """The features beside that are changed."""


def fitted(store: Editor, lines: Sequence[str], corners: Sequence[Corner]) -> Fitted:
    """Lines that add features or replace their geometries, with new corners put into each border of the same layers that they are on.

    A corner that lies on an edge, or as near to it as rounding moves a point, goes into it where it was rounded to; and so do the corners of others
    on an edge that is bent by that. So the features fit as before.

    >>> from sfstore import Store
    >>> with Store() as store:
    ...     store.add_layer("parcels", "polygon")
    ...     for text in "POLYGON ((0 0, 7 30, -20 30, 0 0))", "POLYGON ((0 0, 30 0, 7 30, 0 0))":
    ...         added = store.add("parcels", text)
    ...     lines = ["replace parcels 1 POLYGON ((0 0, 2 10, -20 30, 0 0))", "add parcels POLYGON ((2 10, 7 30, -20 30, 2 10))"]
    ...     fitted(store, lines, [Corner((Fraction(7, 3), Fraction(10)), (2, 10))]).lines[2:]
    ['replace parcels 2 POLYGON ((0 0, 30 0, 7 30, 2 10, 0 0))']
    """
    drawn = {place: read_wkt(_wkt(line)) for place, line in enumerate(lines) if words_of_line(line)[0] in _FRONTS}
    layers = list(dict.fromkeys(words_of_line(lines[place])[1] for place in drawn))
    before = _near(store, layers, corners)
    cut = Cut(corners=dict(_feet(before.values(), corners)))
    bent = bent_by(before.values(), cut)
    if not bent:
        return Fitted(list(lines), [])
    points = {point for shape in drawn.values() for member in shape.members for line in member for point in points_of(line)}
    near = _index(bent, points)
    cut.pins = pins_of(store, layers, bent) | {point for edge in bent for point in near.around(*edge, 0) if lies_on(exact(point), edge)}
    found = list(lines)
    chains = _Chains(cut.stops(edge) for edge in bent)
    for place, shape in drawn.items():
        found[place] = lines[place][: -len(_wkt(lines[place]))] + write_wkt(shape.mapped(chains.through))
    named = set(_named(lines))
    beside = {which: shape.mapped(partial(with_corners, cut=cut)) for which, shape in before.items() if which not in named}
    changed = {which: shape for which, shape in beside.items() if shape != before[which]}
    found += (f"replace {layer} {feature} {write_wkt(shape)}" for (layer, feature), shape in changed.items())
    return Fitted(found, list(changed))


class _Chains:
    """The points of edges that were bent."""

    def __init__(self, chains: Iterable[list[Point]]) -> None:
        self._chains = list(chains)
        self._at: dict[Point, dict[int, int]] = defaultdict(dict)
        for number, chain in enumerate(self._chains):
            for place, point in enumerate(chain):
                self._at[point][number] = place

    def through(self, line: Flat) -> Flat:
        """A line with the points of a chain between two that follow one another in it."""
        points = points_of(line)
        found = points[:1]
        for edge in pairs(points):
            found += [*self._between(edge), edge[1]]
        return [number for point in found for number in point]

    def _between(self, edge: Edge) -> list[Point]:
        """The points of a chain between two of its points."""
        begins, ends = (self._at.get(end, {}) for end in edge)
        for number in begins.keys() & ends.keys():
            begin, end = begins[number], ends[number]
            chain = self._chains[number]
            return chain[begin + 1 : end] if begin <= end else chain[end + 1 : begin][::-1]
        return []


def _near(store: Editor, layers: Sequence[str], corners: Sequence[Corner]) -> dict[Which, Shape]:
    """The features of layers that have something near a corner, as they are; points aside, which have no edge."""
    found: dict[Which, Shape] = {}
    for x, y in sorted({corner.to for corner in corners}):
        left, bottom, right, top = max(x - 1, GRID_MIN), max(y - 1, GRID_MIN), min(x + 1, GRID_MAX), min(y + 1, GRID_MAX)
        box = f"POLYGON (({left} {bottom}, {right} {bottom}, {right} {top}, {left} {top}, {left} {bottom}))"
        for layer in layers:
            for feature in _found(store, layer, box):
                if (layer, feature) not in found:
                    found[layer, feature] = shape_of(store, layer, feature)
    return {which: shape for which, shape in found.items() if shape.code not in (1, 4)}


def _found(store: Editor, layer: str, box: str) -> list[int]:
    """The features that meet a box; none where the layer comes by a line of the same batch."""
    try:
        return store.query(layer, "intersects", box)
    except Refused:
        return []


def _feet(shapes: Iterable[Shape], corners: Sequence[Corner]) -> Iterator[tuple[Place, Point]]:
    """Where corners lie on edges, each with the point of the grid that is taken for it."""
    edges = {(min(edge), max(edge)) for shape in shapes for member in shape.members for line in member for edge in pairs(points_of(line))}
    near = _index(edges, {corner.to for corner in corners})
    drawn: dict[Point, list[Place]] = defaultdict(list)
    for corner in corners:
        drawn[corner.to].append(corner.at)
    for edge in sorted(edges):
        for point in near.around(*edge, 1):
            if point in edge:
                continue
            if lies_on(exact(point), edge):
                # One that is on the edge where it was rounded to bends nothing.
                yield exact(point), point
            else:
                yield from ((foot(at, edge), point) for at in drawn[point] if _is_beside(at, edge))


def _index(edges: Collection[Edge], points: Iterable[Point]) -> Nearby:
    """Points in squares about as large as edges are."""
    spans = [b[0] - a[0] + abs(b[1] - a[1]) for a, b in edges]
    return Nearby(sum(spans) // max(len(spans), 1), points)


def _is_beside(at: Place, edge: Edge) -> bool:
    """Whether a place lies on an edge between its ends, or as near to it as rounding moves a point."""
    (ax, ay), (bx, by) = edge
    if not (min(ax, bx) - 1 <= at[0] <= max(ax, bx) + 1 and min(ay, by) - 1 <= at[1] <= max(ay, by) + 1):
        return False
    along, across = bx - ax, by - ay
    part, square = (at[0] - ax) * along + (at[1] - ay) * across, along * along + across * across
    side = along * (at[1] - ay) - across * (at[0] - ax)
    return 0 < part < square and side * side <= _ROUNDED_SQUARE * square


def _wkt(line: str) -> str:
    """The geometry of a line that has one."""
    count = _FRONTS[words_of_line(line)[0]]
    return line.split(None, count)[count]


def _named(lines: Sequence[str]) -> Iterator[Which]:
    """The features that lines replace or delete."""
    for line in lines:
        word, *words = words_of_line(line)
        if word in ("replace", "delete") and words[1].isdecimal():
            yield words[0], int(words[1])
