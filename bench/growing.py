#!/usr/bin/env python3
"""Counts how questions grow with the points that they are about, and prints their exponents.

    bench/growing.py [WORDS]        the rows with these words in their names, or all, which takes some ten minutes

A question is asked at 64, 512 and 4,096 points. Its exponent is 1 where eight times the points take eight times the
instructions, and 2 where they take 64 times. Two geometries are asked for their matrix, for all predicates, and for what is said of
their distance; one is read, asked for what is said of it alone, and edited; a layer of as many features is asked as a whole.
Where lines cross at more and more places the answer itself grows. Printed are both exponents, up to 512 and up to 4,096 points, and
the instructions at 4,096, with what a row may have at most: `tests/tools/test_growing.py` holds the program to it by time.

The program is the one that SFSTORE names, else that of out/programs. `valgrind` counts.
"""

from __future__ import annotations

import math
import sys
from collections.abc import Callable, Iterator
from concurrent.futures import ThreadPoolExecutor
from dataclasses import dataclass

from counted import instructions
from questions import PROGRAM, comb, ring, text_of
from towns import square

SIZES = (64, 512, 4_096)
MOST = 1.2
REACH = 400_000
PREDICATES = ("equals", "disjoint", "intersects", "touches", "within", "contains", "crosses", "overlaps")

# What may be above it. Of two combs whose teeth cross, the crossings grow with the square of the points.
BY_CROSSINGS = 1.3
# Parts of a MultiPolygon, and holes, are told apart by a pass over all of them for each.
BY_PARTS = 1.4
# The box of a long slanted edge meets those of many others: each is looked at by a search, and all pairs for the least distance.
BY_LONG_EDGES = 1.6
BY_PAIRS = 2.7
LINES_APART, LINES_IN_RING = "lines side by side, none of which meets another", "lines side by side, and a ring across them"
COMBS, HOLES = "two combs, each across the teeth of the other", "a polygon with holes, and squares in these"
SQUARES_ACROSS, SQUARES_BESIDE = "squares in rows, and others across them", "squares in rows, and others beside them"
ALL_OF_PAIRS = ("relate", "predicates", "distances")
ABOVE = {
    f"{name}: {asked}": most
    for name, kinds, most in (
        (COMBS, ALL_OF_PAIRS[1:], BY_CROSSINGS),
        (SQUARES_ACROSS, ALL_OF_PAIRS[1:], BY_PARTS),
        (SQUARES_BESIDE, ALL_OF_PAIRS[1:], BY_PARTS),
        (HOLES, ALL_OF_PAIRS[1:], BY_PARTS),
        ("squares in rows", ("read", "edited"), BY_PARTS),
        ("a polygon with holes", ("read", "edited"), BY_PARTS),
        (LINES_APART, ("distances",), BY_PAIRS),
        (LINES_APART, ("relate", "predicates"), BY_LONG_EDGES),
        (LINES_IN_RING, ("relate", "predicates"), BY_LONG_EDGES),
    )
    for asked in kinds
}

Place = tuple[int, int]
Shape = Callable[[int], str]


@dataclass(frozen=True)
class Asked:
    """Lines that ask, and those before them."""

    before: list[str]
    lines: list[str]


@dataclass(frozen=True)
class Row:
    """A kind of question: what is asked at so many points."""

    name: str
    asked: Callable[[int], Asked]

    @property
    def most(self) -> float:
        """The most that its exponent may be."""
        return ABOVE.get(self.name, MOST)


def smooth(points: int, x: int = 0, y: int = 0, radius: int = REACH) -> str:
    """A smooth ring round a place."""
    return ring(points, x, y, (radius, radius))


def star(points: int, x: int = 0) -> str:
    """A star round a place on the axis."""
    return ring(points, x, 7, (REACH, REACH // 2))


def polygon(corners: list[Place]) -> str:
    """A polygon with these corners."""
    return f"POLYGON (({', '.join(f'{x} {y}' for x, y in [*corners, corners[0]])}))"


def comb_of(points: int, is_turned: bool = False) -> str:
    """A comb; turned by a quarter, each of its teeth lies across all of one that is not."""
    corners = comb(points)
    return polygon([(corners[-2][0] - y, x) for x, y in corners] if is_turned else corners)


def zigzag(points: int, height: int, up: int = 0) -> str:
    """A line from left to right, up and down by turns."""
    return text_of("LINESTRING", [(200 * k, up + height * (-1) ** k) for k in range(points)])


def to_and_fro(points: int, is_turned: bool = False) -> str:
    """A line as high as it is wide; turned by a quarter, each of its edges crosses all of one that is not."""
    top = 100 * points
    places = [(100 * k, k % 2 * top) for k in range(points)]
    return text_of("LINESTRING", [(top - y, x + 7) for x, y in places] if is_turned else places)


def spiral(points: int) -> str:
    """A line that winds outwards."""
    turns = [(math.tau * k / 32, 1_000 + 97 * k) for k in range(points)]
    return text_of("LINESTRING", [(round(r * math.cos(a)), round(r * math.sin(a))) for a, r in turns])


def border(points: int, part: float = 1.0) -> str:
    """A part of the border of the smooth ring, as a line."""
    corners = smooth(points).removeprefix("POLYGON ((").removesuffix("))").split(", ")
    return f"LINESTRING ({', '.join(corners[: round(part * points)])})"


def scattered(points: int, step: int = 1) -> str:
    """Points round the origin; every one of so many is moved a little."""
    angles = [math.tau * k / points + 0.1 for k in range(points)]
    places = [(round(REACH * math.cos(a)), round(REACH / 2 * math.sin(a))) for a in angles]
    return text_of("MULTIPOINT", [(x + (k % step == 1), y) for k, (x, y) in enumerate(places)])


def side_by_side(points: int, up: int = 0) -> str:
    """Slanted lines above one another, each with two ends."""
    lines = [f"(-500000 {97 * k + up - 200_000}, 500000 {97 * k + up})" for k in range(points // 2)]
    return f"MULTILINESTRING ({', '.join(lines)})"


def squares(points: int, x: int = 0, side: int = 80) -> str:
    """Squares in rows, each by itself."""
    across = math.isqrt(points // 4)
    corners = [(100 * (k % across) + x, 100 * (k // across)) for k in range(points // 4)]
    rings = [polygon([(x, y), (x + side, y), (x + side, y + side), (x, y + side)]) for x, y in corners]
    return f"MULTIPOLYGON ({', '.join(each.removeprefix('POLYGON ') for each in rings)})"


def with_holes(points: int) -> str:
    """A square with square holes in rows."""
    count = points // 4
    holes = squares(points).removeprefix("MULTIPOLYGON (((").removesuffix(")))").split(")), ((")
    low, high = -50, 100 * (count // math.isqrt(count)) + 150
    return f"POLYGON (({low} {low}, {high} {low}, {high} {high}, {low} {high}, {low} {low}), {', '.join(f'({hole})' for hole in holes)})"


# Pairs of shapes of so many points each.
PAIRS: dict[str, tuple[Shape, Shape]] = {
    "two smooth rings across one another": (smooth, lambda n: smooth(n, 30_011, 7)),
    "a smooth ring within another": (smooth, lambda n: smooth(n, 0, 0, REACH * 3 // 4)),
    "two smooth rings beside one another": (smooth, lambda n: smooth(n, 600_000, 600_000)),
    "a smooth ring and itself": (smooth, smooth),
    "two stars across one another": (star, lambda n: star(n, 30_011)),
    "a ring and a line across it": (smooth, lambda n: zigzag(n, REACH * 2)),
    "a ring and half of its border": (smooth, lambda n: border(n, 0.5)),
    "two lines that cross at each edge": (lambda n: zigzag(n, 90), lambda n: zigzag(n, -90)),
    "two lines beside one another": (lambda n: zigzag(n, 90), lambda n: zigzag(n, 90, 40)),
    "a line and half of it": (border, lambda n: border(n, 0.5)),
    "two spirals, one of which is the half of the other": (spiral, lambda n: spiral(n // 2)),
    "two sets of points, half in both": (scattered, lambda n: scattered(n, 2)),
    "points on a line": (scattered, lambda n: scattered(n).replace("MULTIPOINT", "LINESTRING")),
    "points in a ring": (smooth, scattered),
    LINES_IN_RING: (side_by_side, smooth),
    LINES_APART: (side_by_side, lambda n: side_by_side(n, 40)),
    SQUARES_ACROSS: (squares, lambda n: squares(n, 40)),
    SQUARES_BESIDE: (squares, lambda n: squares(n, 80, 20)),
    HOLES: (with_holes, squares),
    COMBS: (comb_of, lambda n: comb_of(n, True)),
    "two lines, each across all edges of the other": (to_and_fro, lambda n: to_and_fro(n, True)),
}

# Shapes of so many points that are asked about alone.
ALONE: dict[str, Shape] = {
    "a smooth ring": smooth,
    "a star": star,
    "a comb": comb_of,
    "a zigzag": lambda n: zigzag(n, 90),
    "a spiral": spiral,
    "points": scattered,
    "lines side by side": side_by_side,
    "squares in rows": squares,
    "a polygon with holes": with_holes,
}


def of_pair(first: Shape, second: Shape, lines: Callable[[str], list[str]]) -> Callable[[int], Asked]:
    """What is asked of a feature by lines that a geometry is given to."""
    return lambda points: Asked(["layer add a any", f"add a {first(points)}"], lines(second(points)))


def of_one(shape: Shape, lines: Callable[[str], list[str]]) -> Callable[[int], Asked]:
    """What is asked of a feature by lines that may be given its geometry."""
    return lambda points: Asked(["layer add a any", f"add a {shape(points)}"], lines(shape(points)))


def predicates(given: str) -> list[str]:
    """All predicates, and a pattern that none of them is."""
    return [*(f"query a {predicate} {given}" for predicate in PREDICATES), f"match a T*F**F**1 {given}"]


def distances(given: str) -> list[str]:
    """What is said of a distance."""
    return [f"distance a 1 {given}", f"query a near 1000 {given}", f"nearest a 1 {given}"]


def pairs() -> Iterator[Row]:
    """The rows of two geometries."""
    for name, (first, second) in PAIRS.items():
        yield Row(f"{name}: relate", of_pair(first, second, lambda given: [f"relate a 1 {given}"]))
        yield Row(f"{name}: predicates", of_pair(first, second, predicates))
        yield Row(f"{name}: distances", of_pair(first, second, distances))


def read_again(given: str) -> list[str]:
    """The geometry read and found valid, as a feature and without adding one."""
    return [f"check a {given}", f"replace a 1 {given}"]


def told(_: str) -> list[str]:
    """What is said of a geometry alone."""
    return ["simple a 1", "hex a 1", "box a 1", "area a 1", "length a 1", "get a 1"]


def edited(given: str) -> list[str]:
    """The geometry put in its own place, and that undone and redone."""
    return [f"replace a 1 {given}", "undo", "redo", "undo"]


def alone() -> Iterator[Row]:
    """The rows of one geometry."""
    for name, shape in ALONE.items():
        yield Row(f"{name}: read", of_one(shape, read_again))
        yield Row(f"{name}: told", of_one(shape, told))
        yield Row(f"{name}: edited", of_one(shape, edited))


def parcels(features: int) -> list[str]:
    """A layer of squares that share their sides, each with a number."""
    across = math.isqrt(features)
    made = [square(10 * (k % across), 10 * (k // across)) for k in range(features)]
    numbers = [f"set a {k} number {k % 97}" for k in range(1, features + 1)]
    return ["layer add a polygon", "column add a number int", *made, *numbers]


# What is asked of as many parcels as a whole.
OF_LAYERS = {
    "joined by `touches`": ["join a touches a"],
    "joined by `near`": ["join a near 3 a"],
    "reached by `touches` from the first": ["reach a touches 1"],
    "shown": ["show a"],
    "found by a value": ["find a number 7"],
    "found by a window over all": ["query a intersects POLYGON ((-9 -9, 1000 -9, 1000 1000, -9 1000, -9 -9))"],
    "in order of their distance": ["nearest a 10 POINT (7 7)"],
    "under a rule between them, added and dropped": ["rule add r never a T******** a", "rule drop r"],
    "under a rule on their values, added and dropped": ["rule add r range a number 0 to 97", "rule drop r"],
}


def of_layer(lines: list[str]) -> Callable[[int], Asked]:
    """What is asked of a layer of parcels."""
    return lambda features: Asked(parcels(features), lines)


def layers() -> Iterator[Row]:
    """The rows of a layer."""
    for name, lines in OF_LAYERS.items():
        yield Row(f"parcels {name}", of_layer(lines))


def rows() -> list[Row]:
    """All rows."""
    return [*pairs(), *alone(), *layers()]


def exponent(less: float, more: float) -> float:
    """The exponent by what so many points take, and eight times as many."""
    return math.log(more / less, 8)


def taken(asked: Asked) -> float:
    """The instructions of the lines that ask."""
    start = "\n".join(asked.before)
    with_lines, before = (instructions([PROGRAM], text.encode())[0] for text in ("\n".join([start, *asked.lines]), start))
    return with_lines - before


def main() -> None:
    wanted = [row for row in rows() if " ".join(sys.argv[1:]) in row.name]
    with ThreadPoolExecutor(2) as pool:
        for row, figures in zip(wanted, pool.map(lambda row: [taken(row.asked(size)) for size in SIZES], wanted)):
            grown = " ".join(f"{exponent(a, b):5.2f}" for a, b in zip(figures, figures[1:]))
            mark = " above" if exponent(*figures[-2:]) > row.most else ""
            print(f"{grown}  {figures[-1]:14,.0f}  {row.name}, at most {row.most}{mark}", flush=True)


if __name__ == "__main__":
    main()
