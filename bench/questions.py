#!/usr/bin/env python3
"""Times questions that need not the whole matrix, beside `relate`, which does.

Rings of several sizes that cross the border of a window of four edges are asked for by each predicate, and by a window
that has them all inside, and rings round one place with a window in the corner of their box, which share no point with
it; two stars that overlap are asked about each other, and two combs of which one is turned by a quarter and lies across
the other; lines along a star and sets of points of which the matrix is told early are related, beside such as are not.
Lines to and fro are asked about such lines across them, and many short lines about a longer one.
Printed is processor time for each feature or question, with its line: the difference of runs with and without the
questions, the least of some.

    rt run is needed once in crates/sfstore (it builds the program); then: bench/questions.py
"""

from __future__ import annotations

import math
import random
import resource
import subprocess
import sys
from pathlib import Path

sys.path.insert(0, str(Path(__file__).resolve().parent.parent / "tools"))

from programs import path_of  # noqa: E402

PROGRAM = path_of("sfstore")
FEATURES = 400
RUNS = 3
WINDOW = "POLYGON ((-1000 -10, 500000 -10, 500000 10, -1000 10, -1000 -10))"
ROUND = "POLYGON ((-1000 -1000, 500000 -1000, 500000 1000, -1000 1000, -1000 -1000))"
CORNER = "POLYGON ((330 330, 395 330, 395 395, 330 395, 330 330))"


def ring(count: int, x: int, y: int, radii: tuple[int, int]) -> str:
    """A polygon with so many corners round a place, in turn so far from it."""
    angles = [2 * math.pi * k / count + 0.1 for k in range(count)]
    corners = [(round(x + radii[k % 2] * math.cos(a)), round(y + radii[k % 2] * math.sin(a))) for k, a in enumerate(angles)]
    return "POLYGON ((" + ", ".join(f"{x} {y}" for x, y in [*corners, corners[0]]) + "))"


def seconds(lines: list[str]) -> float:
    """The least processor time of some runs over the lines."""
    text = "\n".join(lines).encode()
    found = []
    for _ in range(RUNS):
        before = resource.getrusage(resource.RUSAGE_CHILDREN).ru_utime
        subprocess.run([PROGRAM], input=text, check=True, stdout=subprocess.DEVNULL)
        found.append(resource.getrusage(resource.RUSAGE_CHILDREN).ru_utime - before)
    return min(found)


def cost(before: list[str], asked: list[str]) -> float:
    """The processor time of the lines that ask, in microseconds."""
    return (seconds(before + asked) - seconds(before)) * 1e6


def asked_of_each(before: list[str], window: str, count: int, where: str) -> None:
    """Each predicate by a window, of the rings of so many edges that the lines before have added."""
    times = max(40, 8_000 // count)
    for predicate in ("intersects", "disjoint", "within", "overlaps", "touches"):
        each = cost(before, [f"query a {predicate} {window}"] * times) / times / FEATURES
        print(f"window {where} rings of {count}: {predicate} {each:.2f} us for each feature")


def corners(count: int) -> None:
    """A window in the corner of the box of rings of so many edges, which share no point with it."""
    before = ["layer add a polygon", *[f"add a {ring(count, 0, 0, (400, 400))}"] * FEATURES]
    asked_of_each(before, CORNER, count, "in the corner of")


def windows(count: int) -> None:
    """A window over rings of so many edges, each of which crosses its border."""
    before = ["layer add a polygon", *(f"add a {ring(count, k * 1000, 0, (400, 400))}" for k in range(FEATURES))]
    asked_of_each(before, WINDOW, count, "over")
    asked_of_each(before, ROUND, count, "round")
    asked = [f"relate a {k + 1} {WINDOW}" for k in range(FEATURES)]
    each = cost(before, asked * 5) / 5 / FEATURES
    print(f"window over rings of {count}: relate {each:.2f} us for each line")


def related(before: list[str], given: str, count: int) -> float:
    """The time of a line that asks for the matrix of the first feature, of so many edges, with a geometry."""
    times = max(20, 50_000 // count)
    return cost(before, [f"relate a 1 {given}"] * times) / times


def stars(count: int) -> None:
    """Two stars of so many edges that overlap; the given one is read and found valid with each question."""
    before = ["layer add a polygon", f"add a {ring(count, 0, 0, (500_000, 250_000))}"]
    given = ring(count, 30_011, 7, (500_000, 250_000))
    for predicate in ("intersects", "disjoint", "within", "overlaps"):
        times = max(10, 20_000 // count)
        each = cost(before, [f"query a {predicate} {given}"] * times) / times
        print(f"stars of {count}: {predicate} {each:.0f} us")
    print(f"stars of {count}: relate {related(before, given, count):.0f} us")


def comb(count: int) -> list[tuple[int, int]]:
    """The corners of a comb of so many edges: slanted teeth on one edge, 100 steps wide and as high as all together."""
    teeth = (count - 2) // 4
    rising = [(100 * tooth, 100 * tooth + 30, 100 * tooth + 50, 100 * tooth + 80) for tooth in range(teeth)]
    top = 100 * teeth
    corners = [corner for a, b, c, d in rising for corner in ((a, 0), (b, top), (c, top), (d, 0))]
    return [*corners, (top, -100), (0, -100)]


def combs(count: int) -> None:
    """Two combs of so many edges, one turned by a quarter, so that the teeth of each lie across those of the other."""
    upright = comb(count)
    across = [(upright[-2][0] - y, x) for x, y in upright]
    texts = ["POLYGON ((" + ", ".join(f"{x} {y}" for x, y in [*c, c[0]]) + "))" for c in (upright, across)]
    before = ["layer add a polygon", f"add a {texts[0]}"]
    for predicate in ("intersects", "within", "overlaps"):
        times = max(10, 20_000 // count)
        each = cost(before, [f"query a {predicate} {texts[1]}"] * times) / times
        print(f"combs across of {count}: {predicate} {each:.0f} us")
    print(f"combs across of {count}: relate {related(before, texts[1], count):.0f} us")


def text_of(kind: str, places: list[tuple[int, int]]) -> str:
    """A line or a set of points at these places."""
    return f"{kind} (" + ", ".join(f"{x} {y}" for x, y in places) + ")"


def lines_along(count: int) -> None:
    """A line along the ring of a star of so many edges but for some spikes, in and out: closed, so that it is told before
    the end of the walk, and without its last edge, so that it has ends and is walked to the end."""
    angles = [2 * math.pi * k / count + 0.1 for k in range(count)]
    radii = [(500_000, 250_000)[k % 2] + {0: 40_000, 8: -40_000}.get(k % 16, 0) for k in range(count)]
    line = [(round(r * math.cos(a)), round(r * math.sin(a))) for r, a in zip(radii, angles)]
    before = ["layer add a polygon", f"add a {ring(count, 0, 0, (500_000, 250_000))}"]
    for name, places in (("closed", [*line, line[0]]), ("with ends", line)):
        each = related(before, text_of("LINESTRING", places), count)
        print(f"line along a star of {count}, {name}: relate {each:.0f} us")


def lines_across(count: int) -> None:
    """A line to and fro of so many edges, and one turned by a quarter, which cross again and again; twenty features for a
    question, since the given line is read with each; and an area round the turned one."""
    upright = [(200 * k - 100 * count, 300 * (-1) ** k) for k in range(count + 1)]
    turned = [(y, x) for x, y in upright]
    before = ["layer add a any", *[f"add a {text_of('LINESTRING', upright)}"] * 20]
    line = text_of("LINESTRING", turned)
    area = "POLYGON ((" + ", ".join(f"{x} {y}" for x, y in [*turned, (1_000, turned[-1][1]), (1_000, turned[0][1]), turned[0]]) + "))"
    for name, given in (("a line", line), ("an area", area)):
        for predicate in ("crosses", "touches", "overlaps"):
            times = max(3, 2_000 // count)
            each = cost(before, [f"query a {predicate} {given}"] * times) / times / 20
            print(f"lines of {count} across {name}: {predicate} {each:.1f} us for each feature")
        print(f"lines of {count} across {name}: relate {related(before, given, count):.0f} us")


def short_lines() -> None:
    """Ten thousand lines of 16 points in rows, a hundred and more of them near a line of 100 points across them."""
    dice = random.Random(5)
    starts = [(600 * (k % 100), 600 * (k // 100)) for k in range(10_000)]
    lines = [[(x + 30 * k + dice.randint(-200, 200), y + dice.randint(-200, 200)) for k in range(16)] for x, y in starts]
    before = ["layer add a linestring", *(f"add a {text_of('LINESTRING', line)}" for line in lines)]
    given = text_of("LINESTRING", [(30_000 + dice.randint(-300, 300), 600 * k) for k in range(100)])
    for predicate in ("intersects", "crosses", "touches", "overlaps", "within", "equals"):
        each = cost(before, [f"query a {predicate} {given}"] * 50) / 50
        print(f"10,000 lines of 16 points: {predicate} {each:.0f} us")


def points_shared(count: int) -> None:
    """Two sets of so many points, of which one half are in both, so that they are told after some columns, or none."""
    angles = [2 * math.pi * k / count + 0.1 for k in range(count)]
    first = [(round(400_000 * math.cos(a)), round(400_000 * math.sin(a))) for a in angles]
    before = ["layer add a any", f"add a {text_of('MULTIPOINT', first)}"]
    for name, moved in (("half shared", 2), ("none shared", 1)):
        second = [(x + 1, y) if k % moved == 0 else (x, y) for k, (x, y) in enumerate(first)]
        each = related(before, text_of("MULTIPOINT", second), count)
        print(f"sets of {count} points, {name}: relate {each:.0f} us")


def main() -> None:
    for count in (8, 64, 512):
        windows(count)
        corners(count)
    for count in (64, 512, 4_095):
        stars(count)
        combs(count)
        lines_along(count)
        lines_across(count)
        points_shared(count)
    short_lines()


if __name__ == "__main__":
    main()
