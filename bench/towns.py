#!/usr/bin/env python3
"""Times one large geometry that many small features are asked about: parcels in a town.

A layer of squares in rows is asked about a town of four thousand edges, whose border is smooth or has spikes, and which
has most of the squares inside. Printed is processor time for each feature of the layer, with the line, the difference of
runs with and without the questions.

    rt run is needed once in crates/sfstore (it builds the program); then: bench/towns.py [FEATURES]
"""

from __future__ import annotations

import math
import sys

from questions import cost

EDGES = 4_000
SPACE = 20
SIDE = 10


def square(x: int, y: int) -> str:
    """A line that adds a square with its first corner there."""
    return f"add a POLYGON (({x} {y}, {x + SIDE} {y}, {x + SIDE} {y + SIDE}, {x} {y + SIDE}, {x} {y}))"


def squares(count: int) -> list[str]:
    """Lines that add so many squares, in rows round the origin."""
    row = math.isqrt(count)
    half = row * SPACE // 2
    found = []
    for k in range(row * row):
        found.append(square((k % row) * SPACE - half, (k // row) * SPACE - half))
    return found


def border(count: int, spikes: bool) -> list[tuple[int, int]]:
    """The corners of a town that has some four in five of so many squares inside."""
    radius = math.isqrt(count) * SPACE / 2 * 1.02
    angles = [2 * math.pi * k / EDGES for k in range(EDGES)]
    radii = [radius * (0.99 if spikes and k % 2 else 1.0) for k in range(EDGES)]
    return [(round(r * math.cos(a)), round(r * math.sin(a))) for r, a in zip(radii, angles)]


def town(count: int, spikes: bool) -> str:
    """The town as a polygon."""
    corners = border(count, spikes)
    return "POLYGON ((" + ", ".join(f"{x} {y}" for x, y in [*corners, corners[0]]) + "))"


def points(count: int) -> list[str]:
    """Lines that add so many points, in rows round the origin."""
    row = math.isqrt(count)
    half = row * SPACE // 2
    return [f"add a POINT ({(k % row) * SPACE - half} {(k // row) * SPACE - half})" for k in range(row * row)]


def street(count: int) -> str:
    """A line of 4,096 points that winds through the middle of so many squares, from one side to the other."""
    half = math.isqrt(count) * SPACE / 2
    corners = [(round(half * (k / 2_047.5 - 1)), round(half / 4 * math.sin(k / 150))) for k in range(4_096)]
    return "LINESTRING (" + ", ".join(f"{x} {y}" for x, y in corners) + ")"


def rows(what: str, before: list[str], asks: list[str], given: str, times: int = 1) -> None:
    """Prints what each question costs for each feature."""
    count = len(before) - 1
    for asked in asks:
        each = cost(before, [f"{asked} {given}"] * times) / count / times
        print(f"{count} {what}: {asked} {each:.2f} us for each feature", flush=True)


def main() -> None:
    count = int(sys.argv[1]) if len(sys.argv) > 1 else 100_000
    of_squares = ["layer add a polygon", *squares(count)]
    of_points = ["layer add a point", *points(count)]
    predicates = ("within", "intersects", "disjoint", "overlaps", "touches", "contains")
    asks = [*(f"query a {predicate}" for predicate in predicates), "match a T*F**F***"]
    for spikes in (False, True):
        where = f", town of {EDGES} edges{' with spikes' if spikes else ''}"
        given = town(count, spikes)
        rows("squares" + where, of_squares, asks, given)
        rows("points" + where, of_points, asks[:3], given)
        # Each of these has a vertex of the town inside.
        on_border = ["layer add a polygon", *(square(x - 3, y - 4) for x, y in border(count, spikes)[::5])]
        rows("squares on the border" + where, on_border, asks, given, 5)
    rows("squares, a street of 4096 points", of_squares, ["query a crosses", "query a intersects"], street(count))


if __name__ == "__main__":
    main()
