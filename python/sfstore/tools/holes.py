"""Holes of areas: cut, and filled."""

from __future__ import annotations

from collections.abc import Iterator, Sequence
from typing import Optional

from sfstore.editor import Editor
from sfstore.geometry import Flat, Shape, read_wkt, write_wkt
from sfstore.tools.merging import area_of
from sfstore.tools.notdone import NotDone
from sfstore.tools.pins import points_of
from sfstore.tools.places import exact, is_inside, middle
from sfstore.tools.rings import Edge, Point, doubled, edges_of, polygons_of, split_at, written

__all__ = ["fill", "hole"]

# Where in a matrix stands what the other one's inside, and its border, have in common with what is around the first one.
_AROUND_INSIDE, _AROUND_BORDER = 6, 7

_Place = tuple[int, int]
"""A ring of an area: its part, and its place there; 0 is the shell."""


def hole(store: Editor, layer: str, feature_id: int, polygon: str) -> None:
    """Cuts a hole into an area, as one step: what the POLYGON covers is no part of it any more.

    The polygon lies in the area. Along its border it may run, and takes a piece of its edge then; where it has holes itself, these stay
    as islands. The corners of the area stay all, so that neighbours fit as before.

    `NotDone` where the polygon lies not wholly in the area, or is all of it. `Refused` where the program refuses the polygon or
    the group. In both cases nothing has changed.

    >>> from sfstore import Store
    >>> with Store() as store:
    ...     store.add_layer("parcels", "polygon")
    ...     first = store.add("parcels", "POLYGON ((0 0, 9 0, 9 9, 0 9, 0 0))")
    ...     hole(store, "parcels", first, "POLYGON ((3 3, 6 3, 6 6, 3 6, 3 3))")
    ...     store.show("parcels")[0].wkt
    'POLYGON ((0 0, 9 0, 9 9, 0 9, 0 0), (3 3, 3 6, 6 6, 6 3, 3 3))'
    """
    # The program reads the polygon: what it does not take it refuses by name.
    matrix = store.relate(layer, feature_id, polygon)
    given = read_wkt(polygon)
    if given.code not in (3, 6):
        raise NotDone("the hole is no POLYGON")
    shape = area_of(store, layer, feature_id)
    if matrix[_AROUND_INSIDE] != "F" or matrix[_AROUND_BORDER] != "F":
        raise NotDone(f"the hole does not lie in {layer} {feature_id}: {{}} is outside of it", _outside(shape, given))
    edges = _less(list(edges_of(shape)), list(edges_of(given)))
    if not edges:
        raise NotDone(f"nothing would be left of {layer} {feature_id}")
    _replace(store, layer, feature_id, shape, written(polygons_of(edges)))


def fill(store: Editor, layer: str, feature_id: int, at: Optional[Point] = None) -> int:
    """Fills the hole of an area in which a point lies, or all of its holes, as one step. How many were filled.

    An island of the same feature in a hole becomes part of the whole. What lies there of other features is for the rules of the
    store to judge. `NotDone` where there is no hole; `Refused` where the program refuses the group. In both cases nothing has
    changed.

    >>> from sfstore import Store
    >>> with Store() as store:
    ...     store.add_layer("parcels", "polygon")
    ...     first = store.add("parcels", "POLYGON ((0 0, 9 0, 9 9, 0 9, 0 0), (3 3, 3 6, 6 6, 6 3, 3 3), (7 7, 7 8, 8 7, 7 7))")
    ...     fill(store, "parcels", first, (4, 5))
    ...     store.show("parcels")[0].wkt
    1
    'POLYGON ((0 0, 9 0, 9 9, 0 9, 0 0), (7 7, 7 8, 8 7, 7 7))'
    """
    shape = area_of(store, layer, feature_id)
    holes = [(part, ring) for part, member in enumerate(shape.members) for ring in range(1, len(member))]
    if not holes:
        raise NotDone(f"{layer} {feature_id} has no hole")
    if at is not None:
        holes = [_hole_at(shape, holes, at, f"{layer} {feature_id}")]
    rings = [_open(shape.members[part][ring]) for part, ring in holes]
    members = [
        [line for ring, line in enumerate(member) if (part, ring) not in holes]
        for part, member in enumerate(shape.members)
        # An island in what is filled is a part of the whole.
        if not any(_lies_in(_open(member[0]), ring) for ring in rings)
    ]
    _replace(store, layer, feature_id, shape, Shape(shape.code, members))
    return len(holes)


def _replace(store: Editor, layer: str, feature_id: int, before: Shape, after: Shape) -> None:
    """Gives an area another geometry, as one step; one of several parts stays so."""
    with store.together() as group:
        group.replace(layer, feature_id, write_wkt(Shape(6, after.members) if before.code == 6 else after))


def _less(edges: Sequence[Edge], other: Sequence[Edge]) -> list[Edge]:
    """The edges of an area without another one that lies in it. What they have in common of their borders is gone."""
    corners = {a for a, _ in (*edges, *other)}
    whole, taken = (set(split_at(each, corners)) for each in (edges, other))
    return [*(whole - taken), *((b, a) for a, b in taken - whole)]


def _outside(shape: Shape, other: Shape) -> Point:
    """A corner of another area that lies outside of one; or one of its own, where only edges do."""
    border = list(edges_of(shape))
    corners = sorted({a for a, _ in edges_of(other)})
    loose = [corner for corner in corners if not is_inside(exact(corner), border) and not _is_on(corner, border)]
    return next(iter(loose or corners))


def _is_on(corner: Point, border: Sequence[Edge]) -> bool:
    """Whether a corner lies on a border."""
    return any(corner in edge for edge in border) or len(list(split_at(border, [corner]))) > len(border)


def _hole_at(shape: Shape, holes: Sequence[_Place], at: Point, name: str) -> _Place:
    """The hole in which a point lies: of nested ones the innermost, with no island of the feature between."""
    rings = [(abs(doubled(ring)), part, place) for part, place, ring in _rings(shape) if _has(ring, at)]
    innermost = min(rings, default=None)
    if innermost is None or innermost[1:] not in holes:
        raise NotDone(f"{{}} lies in no hole of {name}", at)
    return innermost[1], innermost[2]


def _rings(shape: Shape) -> Iterator[tuple[int, int, list[Point]]]:
    """The rings of an area with their places."""
    for part, member in enumerate(shape.members):
        for place, line in enumerate(member):
            yield part, place, _open(line)


def _open(line: Flat) -> list[Point]:
    """The points of a ring, the first one not repeated; nor one that repeats the one before."""
    points = points_of(line)
    return [point for point, before in zip(points[1:], points) if point != before]


def _lies_in(ring: Sequence[Point], around: Sequence[Point]) -> bool:
    """Whether a ring that crosses no edge of another one lies in it: corners, and middles of edges, may touch it."""
    border = list(zip(around, [*around[1:], around[0]]))
    places = [*map(exact, ring), *(middle(exact(a), exact(b)) for a, b in zip(ring, ring[1:]))]
    return any(is_inside(place, border) for place in places)


def _has(ring: Sequence[Point], at: Point) -> bool:
    """Whether a point lies inside of a ring."""
    return is_inside(exact(at), list(zip(ring, [*ring[1:], ring[0]])))
