#!/usr/bin/env python3
"""Measures geometries of as many points as there may be, and prints a row for each: what a line takes until its answer.

    bench/large.py [POINTS]        65,536 where nothing is said

The shapes are made here: a smooth ring, a star, coasts by midpoint displacement, combs, spirals, many lines, many triangles. The
program is the one that SFSTORE names, else that of out/programs.
"""

from __future__ import annotations

import math
import random
import subprocess
import sys
import time
from collections.abc import Sequence
from pathlib import Path

sys.path.insert(0, str(Path(__file__).resolve().parent.parent / "tools"))

from programs import path_of  # noqa: E402

POINTS = 65_536
REACH = 2**29

Point = tuple[int, int]


def text(points: Sequence[Point]) -> str:
    """Points as a list of well-known text."""
    return ", ".join(f"{x} {y}" for x, y in points)


def turned(count: int, radii: tuple[int, int]) -> list[Point]:
    """A closed ring of so many points round the origin, out and in by turns."""
    angles = [2 * math.pi * k / (count - 1) for k in range(count - 1)]
    ring = [(round(radii[k % 2] * math.cos(a)), round(radii[k % 2] * math.sin(a))) for k, a in enumerate(angles)]
    return [*ring, ring[0]]


def coast(count: int, seed: int) -> list[Point]:
    """A closed ring of at most so many points, bent at random between any two, again and again."""
    chance = random.Random(seed)
    ring = [(REACH, 0), (0, REACH), (-REACH, 0), (0, -REACH)]
    while 2 * len(ring) < count:
        bent: list[Point] = []
        for (ax, ay), (bx, by) in zip(ring, [*ring[1:], ring[0]]):
            aside = chance.uniform(-0.18, 0.18)
            middle = ((ax + bx) // 2 - round((by - ay) * aside), (ay + by) // 2 + round((bx - ax) * aside))
            bent += [(ax, ay), middle]
        ring = bent
    return [*ring, ring[0]]


def moved(points: Sequence[Point], x: int, y: int) -> list[Point]:
    """Points, all of them moved."""
    return [(px + x, py + y) for px, py in points]


def comb(count: int) -> list[Point]:
    """A ring with teeth."""
    teeth = [corner for k in range(count // 2 - 2) for corner in ((4 * k, 0), (4 * k + 2, 1_000_000))]
    return [(0, -1_000_000), *teeth, (4 * count, -1_000_000), (0, -1_000_000)]


def shapes(count: int) -> dict[str, str]:
    """A text of each shape."""
    spiral = [(round(k * 8_000 * math.cos(k / 50)), round(k * 8_000 * math.sin(k / 50))) for k in range(count)]
    lines = ", ".join(f"({k} 0, {k} 1)" for k in range(count // 2))
    triangles = ", ".join(f"(({k} 0, {k + 1} 0, {k + 1} 1, {k} 0))" for k in range(0, 2 * (count // 4), 2))
    return {
        "a smooth ring": f"POLYGON (({text(turned(count, (2 * REACH - 2, 2 * REACH - 2)))}))",
        "a star": f"POLYGON (({text(turned(count - 1, (REACH, REACH // 2)))}))",
        "a coast": f"POLYGON (({text(coast(count, 1))}))",
        "a comb": f"POLYGON (({text(comb(count))}))",
        "a spiral": f"LINESTRING ({text(spiral)})",
        "a zigzag": f"LINESTRING ({text([(3 * k, k % 2 * REACH) for k in range(count)])})",
        "points": f"MULTIPOINT ({text([(k, -k) for k in range(count)])})",
        "lines side by side": f"MULTILINESTRING ({lines})",
        "triangles in a row": f"MULTIPOLYGON ({triangles})",
    }


class Store:
    """A program that is asked line by line."""

    def __init__(self) -> None:
        self._process = subprocess.Popen([path_of("sfstore")], stdin=subprocess.PIPE, stdout=subprocess.PIPE)

    def ask(self, line: str) -> tuple[str, float]:
        """The first line of the answer, and the seconds until all of it has come."""
        assert self._process.stdin and self._process.stdout
        begun = time.perf_counter()
        self._process.stdin.write(line.encode() + b"\n")
        self._process.stdin.flush()
        first = self._process.stdout.readline().decode().rstrip()
        for _ in range(int(first[5:]) if first.startswith("rows ") else 0):
            self._process.stdout.readline()
        return first, time.perf_counter() - begun


def row(name: str, figures: Sequence[tuple[str, float]]) -> str:
    """A row of the table, in milliseconds."""
    return f"{name}: " + ", ".join(f"{what} {1_000 * seconds:.1f}" for what, seconds in figures) + " ms"


def main(words: Sequence[str]) -> int:
    """Measures, and gives the status."""
    count = int(words[0]) if words else POINTS
    store = Store()
    triangle = "POLYGON ((0 0, 1000000 5, 500000 900000, 0 0))"
    for name, shape in shapes(count).items():
        store.ask("layer add a any")
        asked = {
            "added": f"add a {shape}",
            "a point": "query a contains POINT (17 3)",
            "a triangle": f"relate a 1 {triangle}",
            "a vertex moved": "vertex move a 1 0 0 5 1234 567",
            "undone": "undo",
            "simple": "simple a 1",
        }
        print(row(name, [(what, store.ask(line)[1]) for what, line in asked.items()]), flush=True)
        store.ask("layer drop a")
    store.ask("layer add a any")
    shore = coast(count, 1)
    store.ask(f"add a POLYGON (({text(shore)}))")
    beside = f"POLYGON (({text(moved(shore, 7, 3))}))"
    print(row("a coast and the same moved by some steps", [(what, store.ask(f"{what} {beside}")[1]) for what in ("relate a 1", "query a overlaps")]))
    return 0


if __name__ == "__main__":
    sys.exit(main(sys.argv[1:]))
