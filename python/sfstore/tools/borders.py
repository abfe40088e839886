"""The border that two areas share, moved for both."""

from __future__ import annotations

from collections import Counter
from collections.abc import Iterator, Sequence
from functools import partial
from typing import NamedTuple

from sfstore.editor import Editor
from sfstore.geometry import Shape, read_wkt, write_wkt
from sfstore.tools.cutting import Cut, bent_by, check_parted, cut_of, loose_end, neighbours_of, with_corners
from sfstore.tools.merging import area_of, check_apart
from sfstore.tools.notdone import NotDone
from sfstore.tools.pins import pairs, pins_of, points_of
from sfstore.tools.rings import Edge, Point, Polygon, doubled, edges_of, polygons_of, split_at, written

__all__ = ["border"]

Which = tuple[str, int]
"""A feature, by its layer and its identifier."""


def border(store: Editor, layer: str, first: int, second: int, line: str, *, beside: Sequence[str] = ()) -> list[Which]:
    """Gives two areas of a layer another border between them, as one step. The features that are changed.

    The line takes the place of the stretch that they share. It begins and ends anywhere on the border around the two, or
    outside of them: what lies outside is left out. Where it meets their border off the grid, the corner is rounded once, and
    goes into each feature whose border passes there, of the layer and of the layers ``beside``. If they share several
    stretches, it takes the place of the one whose ends it has, and the others stay.

    `NotDone` where they share no border or overlap, or where the line does not part what they cover. `Refused` where the
    program refuses the line or the group. In both cases nothing has changed.

    >>> from sfstore import Store
    >>> with Store() as store:
    ...     store.add_layer("parcels", "polygon")
    ...     for left, right in (0, 10), (10, 20):
    ...         added = store.add("parcels", f"POLYGON (({left} 0, {right} 0, {right} 9, {left} 9, {left} 0))")
    ...     border(store, "parcels", 1, 2, "LINESTRING (10 0, 12 4, 10 9)")
    ...     [feature.wkt for feature in store.show("parcels")]
    [('parcels', 1), ('parcels', 2)]
    ['POLYGON ((0 0, 10 0, 12 4, 10 9, 0 9, 0 0))', 'POLYGON ((10 0, 20 0, 20 9, 10 9, 12 4, 10 0))']
    """
    if first == second:
        raise NotDone("a border is one of two features")
    # The program reads the line first: what it does not take it refuses by name.
    store.relate(layer, first, line)
    given = read_wkt(line)
    if given.code != 2:
        raise NotDone("the line is no LINESTRING")
    shapes = {feature: area_of(store, layer, feature) for feature in (first, second)}
    check_apart(store, layer, list(shapes), list(shapes.values()))
    pair = _pair_of(shapes[first], shapes[second])
    if not pair.stretches:
        raise NotDone(f"{layer} {first} and {second} share no border")
    points = points_of(given.members[0][0])
    stretch = _replaced(pair.stretches, points)
    points = _along(points, stretch)
    owners = pair.without(stretch, first, second)
    cut = cut_of(list(owners), points)
    layers = list(dict.fromkeys((layer, *beside)))
    others: dict[Which, Shape] = {}
    for shape in shapes.values() if cut.corners else ():
        others.update(neighbours_of(store, layers, shape))
    for feature in shapes:
        others.pop((layer, feature), None)
    cut.pins = pins_of(store, layers, bent_by([*shapes.values(), *others.values()], cut))
    parts = _parts(cut, points, owners, {first: f"{layer} {first}", second: f"{layer} {second}"})
    changed = {(layer, feature): _like(shapes[feature], parts[feature]) for feature in shapes}
    changed.update((which, shape.mapped(partial(with_corners, cut=cut))) for which, shape in others.items())
    changed = {which: shape for which, shape in changed.items() if which[1] in shapes and which[0] == layer or shape != others[which]}
    with store.together() as group:
        for (its_layer, feature), shape in changed.items():
            group.replace(its_layer, feature, write_wkt(shape))
    return list(changed)


class _Pair(NamedTuple):
    """The edges of two areas, with the inside on their left, parted where the other one has a corner."""

    first: set[Edge]
    second: set[Edge]
    stretches: list[list[Point]]
    """What they share: the points of each stretch, with the first area on its left."""

    def without(self, stretch: Sequence[Point], first: int, second: int) -> dict[Edge, int]:
        """All edges but those of a stretch, by the area that they are of."""
        gone = set(pairs(stretch))
        gone |= {(b, a) for a, b in gone}
        owners = dict.fromkeys(self.first - gone, first)
        return {**owners, **dict.fromkeys(self.second - gone, second)}


def _pair_of(one: Shape, other: Shape) -> _Pair:
    """The edges of two areas, and what they share."""
    edges = list(edges_of(one)), list(edges_of(other))
    corners = {a for each in edges for a, _ in each}
    first, second = (set(split_at(each, corners)) for each in edges)
    common = {(a, b) for a, b in first if (b, a) in second}
    around = (first | second) - common - {(b, a) for a, b in common}
    return _Pair(first, second, list(_chains(common, {end for edge in around for end in edge})))


def _chains(edges: set[Edge], stops: set[Point]) -> Iterator[list[Point]]:
    """Edges as lines, each as long as it may be: it ends at a stop, where edges part, or where it begins."""
    ahead = dict(sorted(edges))
    count = Counter(end for edge in edges for end in edge)
    ends = stops | {point for point, times in count.items() if times != 2}
    left = set(edges)
    for edge in [*sorted(edge for edge in edges if edge[0] in ends), *sorted(edges)]:
        if edge not in left:
            continue
        chain = [*edge]
        left.discard(edge)
        while chain[-1] not in ends and chain[-1] != chain[0]:
            step = chain[-1], ahead[chain[-1]]
            left.discard(step)
            chain.append(step[1])
        yield chain


def _replaced(stretches: Sequence[list[Point]], line: Sequence[Point]) -> list[Point]:
    """The stretch whose place a line takes. `NotDone` where that may be several."""
    if len(stretches) == 1:
        return stretches[0]
    ends = {line[0], line[-1]}
    found = [stretch for stretch in stretches if {stretch[0], stretch[-1]} == ends]
    if len(found) != 1:
        words = ", ".join("from {} to {}" for _ in stretches)
        raise NotDone(
            f"they share {len(stretches)} stretches: {words}. The line has to begin and end where one of them does",
            *(end for stretch in stretches for end in (stretch[0], stretch[-1])),
        )
    return found[0]


def _along(line: list[Point], stretch: Sequence[Point]) -> list[Point]:
    """A line in the direction of a stretch: its ends nearer to those of that, or round to the same side."""
    if line[0] == line[-1]:
        is_along = (doubled(line[:-1]) > 0) == (doubled(stretch[:-1]) > 0)
    else:
        begin, end = stretch[0], stretch[-1]
        is_along = _square(line[0], begin) + _square(line[-1], end) <= _square(line[0], end) + _square(line[-1], begin)
    return line if is_along else line[::-1]


def _square(a: Point, b: Point) -> int:
    """The square of a distance."""
    return (a[0] - b[0]) ** 2 + (a[1] - b[1]) ** 2


def _parts(cut: Cut, line: Sequence[Point], owners: dict[Edge, int], names: dict[int, str]) -> dict[int, list[Polygon]]:
    """What each of two areas has, once a line has parted what they cover: the first one what lies left of it."""
    first, second = names
    between = f"between {names[first]} and {second}"
    edges = list(cut.edges(list(owners)))
    check_parted(cut, edges, line, list(owners), f"{names[first]} and {second}")
    whose = {piece: owner for edge, owner in owners.items() for piece in pairs(cut.stops(edge))}
    left = set(cut.across)
    whose.update({edge: first for edge in left} | {(b, a): second for a, b in left})
    parts: dict[int, list[Polygon]] = {first: [], second: []}
    for part in polygons_of(edges):
        around = list(_edges(part))
        beside = [edge for edge in around if edge in left or edge[::-1] in left]
        found = {whose[edge] for edge in beside or around}
        if len(found) > 1:
            corners = {a for a, _ in around}
            raise NotDone(f"the line does not part what lies {between}: it leads to no border at {{}}", loose_end(cut, corners) or min(corners))
        parts[found.pop()].append(part)
    for feature, polygons in parts.items():
        if not polygons:
            raise NotDone(f"nothing would be left of {names[feature]}")
    return parts


def _edges(part: Polygon) -> Iterator[Edge]:
    """The edges of a polygon."""
    for ring in (part.shell, *part.holes):
        yield from zip(ring, [*ring[1:], ring[0]])


def _like(before: Shape, polygons: Sequence[Polygon]) -> Shape:
    """Polygons as a geometry of the kind that a feature had, if they can be of that."""
    whole = written(polygons)
    return Shape(6, whole.members) if before.code == 6 else whole
