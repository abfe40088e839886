"""A coverage of parcels without gaps, with corners that lie anywhere, and what is to stay so of it."""

from __future__ import annotations

import random
from collections.abc import Iterable

from support import PROGRAM

from sfstore import Store
from sfstore.geometry import read_wkt
from sfstore.tools.rings import Point, Polygon, edges_of, polygons_of, split_at

RULE = "rule add alone never parcels T******** parcels"


def opened() -> Store:
    """A store without layers, of the program under test."""
    return Store(program=PROGRAM)


def make(store: Store, side: int, chance: random.Random, wide: int = 100) -> None:
    """Makes the layer `parcels` with so many parcels in each direction, under the rule that no two overlap."""
    store.add_layer("parcels", "any")
    store.add_column("parcels", "number", "int")
    most = wide * 3 // 10
    corners = {
        (x, y): (wide * x + chance.randint(-most, most), wide * y + chance.randint(-most, most))
        for x in range(side + 1)
        for y in range(side + 1)
    }
    for x in range(side):
        for y in range(side):
            ring = [corners[at] for at in ((x, y), (x + 1, y), (x + 1, y + 1), (x, y + 1), (x, y))]
            number = store.add("parcels", f"POLYGON (({', '.join(f'{a} {b}' for a, b in ring)}))")
            store.set("parcels", number, "number", number)
    store.run(RULE)


def doubled(wkt: str) -> int:
    """Twice the area of a text."""
    return sum(a[0] * b[1] - a[1] * b[0] for a, b in edges_of(read_wkt(wkt)))


def outline(texts: Iterable[str]) -> list[Polygon]:
    """What a coverage covers: one polygon without a hole, as long as no gap is in it."""
    edges = [edge for text in texts for edge in edges_of(read_wkt(text))]
    parted = set(split_at(edges, [a for a, _ in edges]))
    return polygons_of((a, b) for a, b in parted if (b, a) not in parted)


def far_from(point: Point, border: list[Point]) -> float:
    """The distance of a point from a ring."""
    return min(_distance(point, a, b) for a, b in zip(border, [*border[1:], border[0]]))


def _distance(p: Point, a: Point, b: Point) -> float:
    (x, y), (c, d) = (p[0] - a[0], p[1] - a[1]), (b[0] - a[0], b[1] - a[1])
    part = min(1.0, max(0.0, (x * c + y * d) / (c * c + d * d)))
    return ((x - part * c) ** 2 + (y - part * d) ** 2) ** 0.5
