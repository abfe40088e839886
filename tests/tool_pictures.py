#!/usr/bin/env python3
"""Makes the pictures of the pages on tools: what a few features are before one is used, and behind it.

    tests/tool_pictures.py            says which pictures are out of date; status 1 where one is
    tests/tool_pictures.py --write    writes them

The tools are used over the program itself. A new corner is marked in both halves of the borders that have it.
"""

from __future__ import annotations

import sys
from collections.abc import Callable, Sequence
from pathlib import Path
from typing import NamedTuple

TOP = Path(__file__).resolve().parent.parent
sys.path[:0] = [str(TOP / "python"), str(TOP / "tools"), str(TOP / "tests")]

from made_pages import settle  # noqa: E402
from programs import path_of  # noqa: E402
from sfstore import Store  # noqa: E402
from sfstore.geometry import read_wkt  # noqa: E402
from sfstore.results import Feature  # noqa: E402
from sfstore.tools import border, clean, fill, hole, merge, move_node, snap, split  # noqa: E402

USE = TOP / "docs" / "use"
WIDE, HIGH, MARGIN, GAP = 300, 200, 12, 60
COLOURS = ("#cfe3f5", "#f8dfc4", "#d7ecd0", "#eadcf0", "#f5d3d8")
STYLE = "path{stroke:#334;stroke-width:1.5;fill-rule:evenodd}text{font:13px sans-serif;fill:#223;text-anchor:middle}circle{fill:#c22}"

LEFT = "POLYGON ((0 0, 100 0, 118 130, 0 130, 0 0))"
RIGHT = "POLYGON ((100 0, 230 0, 230 130, 118 130, 100 0))"
ABOVE = "POLYGON ((0 130, 118 130, 230 130, 230 180, 0 180, 0 130))"
DRAWN_ALONE = (
    "POLYGON ((0 0, 100 0, 118 130, 0 130, 0 0))",
    "POLYGON ((108 3, 230 0, 230 130, 112 124, 108 3))",
    "POLYGON ((3 136, 123 136, 230 134, 230 180, 0 180, 3 136))",
)
OVERLAPPING = (
    "POLYGON ((0 0, 100 0, 112 60, 118 130, 0 130, 0 0))",
    "POLYGON ((100 0, 230 0, 230 130, 118 130, 104 80, 100 0))",
    "POLYGON ((0 130, 60 136, 118 130, 230 130, 230 180, 0 180, 0 130))",
)


class Picture(NamedTuple):
    """A picture of a tool."""

    name: str
    title: str
    parcels: Sequence[str]
    use: Callable[[Store], object]


PICTURES = [
    Picture("split", "Parcel 1 before and behind a split: parcel 2 has the new corner too", (LEFT, RIGHT, ABOVE), lambda store: split(store, "parcels", 1, "LINESTRING (-5 50, 112 71)")),
    Picture("merge", "Parcels 1 and 2 before and behind a merge", (LEFT, RIGHT, ABOVE), lambda store: merge(store, "parcels", 1, 2)),
    Picture("border", "The border of parcels 1 and 2 before and behind a move: parcel 3 has the new corner too", (LEFT, RIGHT, ABOVE), lambda store: border(store, "parcels", 1, 2, "LINESTRING (100 0, 90 70, 150 130)")),
    Picture("corner", "A corner of three parcels before and behind a move", (LEFT, RIGHT, ABOVE), lambda store: move_node(store, ["parcels"], (118, 130), (140, 115))),
    Picture("hole", "Parcel 2 before and behind a hole", (LEFT, RIGHT, ABOVE), lambda store: hole(store, "parcels", 2, "POLYGON ((140 40, 190 40, 190 90, 150 90, 140 40))")),
    Picture("fill", "Parcel 2 with a hole, and behind its filling", (LEFT, RIGHT[:-1] + ", (140 40, 150 90, 190 90, 190 40, 140 40))", ABOVE), lambda store: fill(store, "parcels", 2)),
    Picture("snap", "Three parcels drawn one by one, and behind a snap", DRAWN_ALONE, lambda store: snap(store, ["parcels"], 10)),
    Picture("clean", "An overlap and a gap, and what is left of them behind a clean", OVERLAPPING, lambda store: clean(store, "parcels", 15)),
]


def drawn(picture: Picture) -> str:
    """A picture as SVG: both halves side by side."""
    with Store(program=str(path_of("sfstore"))) as store:
        store.add_layer("parcels")
        for text in picture.parcels:
            store.add("parcels", text)
        before = store.show("parcels")
        picture.use(store)
        behind = store.show("parcels")
    corners = _corners(behind) - _corners(before)
    whole = 2 * WIDE + GAP
    arrow = f'<path d="M{WIDE + 14} {HIGH // 2}h{GAP - 32}m-8 -6l8 6l-8 6" fill="none"/>'
    halves = [_half(before, 0, set()), arrow, _half(behind, WIDE + GAP, corners)]
    head = f'<svg xmlns="http://www.w3.org/2000/svg" viewBox="0 0 {whole} {HIGH}" width="{whole}" height="{HIGH}" role="img">'
    return "\n".join([head, f"<title>{picture.title}</title>", f"<style>{STYLE}</style>", '<rect width="100%" height="100%" fill="#fff"/>', *halves, "</svg>", ""])


def _half(features: Sequence[Feature], left: int, corners: set[tuple[int, int]]) -> str:
    """Features with their numbers, and new corners."""
    def place(x: float, y: float) -> tuple[float, float]:
        return left + MARGIN + x * 1.2, HIGH - MARGIN - 1 - y * 0.97

    parts = []
    for feature in features:
        lines = [line for member in read_wkt(feature.wkt).members for line in member]
        rings = [[place(x, y) for x, y in zip(line[::2], line[1::2])] for line in lines]
        path = "".join("M" + "L".join(f"{x:.1f} {y:.1f}" for x, y in ring[:-1]) + "Z" for ring in rings)
        parts.append(f'<path d="{path}" fill="{COLOURS[(feature.id - 1) % len(COLOURS)]}" fill-opacity="0.75"/>')
        xs, ys = zip(*rings[0][:-1])
        parts.append(f'<text x="{(min(xs) + sum(xs) / len(xs)) / 2:.1f}" y="{(min(ys) + max(ys)) / 2 + 5:.1f}">{feature.id}</text>')
    parts += (f'<circle cx="{place(*at)[0]:.1f}" cy="{place(*at)[1]:.1f}" r="4"/>' for at in sorted(corners))
    return "\n".join(parts)


def _corners(features: Sequence[Feature]) -> set[tuple[int, int]]:
    lines = [line for feature in features for member in read_wkt(feature.wkt).members for line in member]
    return {(int(x), int(y)) for line in lines for x, y in zip(line[::2], line[1::2])}


def main(words: list[str]) -> int:
    """Carries out the command, and gives its status."""
    return max(settle(words, USE / f"tool-{picture.name}.svg", drawn(picture)) for picture in PICTURES)


if __name__ == "__main__":
    sys.exit(main(sys.argv[1:]))
