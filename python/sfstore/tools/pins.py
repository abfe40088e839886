"""Corners of features on the edges of others, which have to stay on them when an edge is bent."""

from __future__ import annotations

from collections.abc import Iterable, Iterator, Sequence

from sfstore.editor import Editor
from sfstore.geometry import Flat, Shape, read_wkb, write_wkt
from sfstore.tools.rings import Edge, Point, split_at

__all__ = ["pairs", "pins_of", "points_of", "shape_of"]


def pins_of(store: Editor, layers: Sequence[str], edges: Iterable[Edge]) -> set[Point]:
    """The corners of features of some layers that lie within one of these edges."""
    pins: set[Point] = set()
    for edge in edges:
        wkt = write_wkt(Shape(2, [[[*edge[0], *edge[1]]]]))
        for layer in layers:
            for feature in store.query(layer, "intersects", wkt):
                shape = shape_of(store, layer, feature)
                points = [point for member in shape.members for line in member for point in points_of(line)]
                pins.update(a for a, _ in split_at([edge], points))
    return pins


def shape_of(store: Editor, layer: str, feature: int) -> Shape:
    """The geometry of a feature."""
    return read_wkb(bytes.fromhex(store.hex(layer, feature)))


def points_of(line: Flat) -> list[Point]:
    """The points of a list of coordinates."""
    return [(int(x), int(y)) for x, y in zip(line[::2], line[1::2])]


def pairs(points: Sequence[Point]) -> Iterator[Edge]:
    """The edges between points."""
    return zip(points, points[1:])
