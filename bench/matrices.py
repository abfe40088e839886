#!/usr/bin/env python3
"""Works out matrices of pairs of geometries from the definitions, another way than the program does.

    bench/matrices.py [PROGRAM]

The edges of both geometries are cut at each other in exact fractions. A place is tried on each of the
vertices, in the middle of each of the pieces, and at either side of these: so one in each part of the
plane. Where it lies in either geometry is told by the definitions of interior, boundary and exterior.
The matrices of all pairs of `GEOMETRIES` are printed as the rows of the tests' table; with a program
they are compared with what its `relate` answers, and so are those of random pairs, and of dense ones:
many edges over each place, so that they are swept.
"""
import math
import random
import re
import subprocess
import sys
from fractions import Fraction

GEOMETRIES = [
    "POINT (5 5)",
    "POINT (0 0)",
    "MULTIPOINT ((0 0), (5 5), (20 20))",
    "MULTIPOINT ((5 5), (15 5))",
    "LINESTRING (0 0, 10 10)",
    "LINESTRING (-5 5, 15 5)",
    "LINESTRING (0 0, 10 0, 10 10, 0 0)",
    "LINESTRING (0 0, 10 10, 10 0, 0 10)",
    "MULTILINESTRING ((0 0, 5 5), (5 5, 10 0))",
    "MULTILINESTRING ((0 0, 5 5), (5 5, 10 0), (5 5, 5 10))",
    "MULTILINESTRING ((0 0, 10 0), (10 10, 0 10))",
    "POLYGON ((0 0, 10 0, 10 10, 0 10, 0 0))",
    "POLYGON ((5 5, 15 5, 15 15, 5 15, 5 5))",
    "POLYGON ((10 0, 20 0, 20 10, 10 10, 10 0))",
    "POLYGON ((0 0, 30 0, 30 30, 0 30, 0 0), (10 10, 20 10, 20 20, 10 20, 10 10))",
    "POLYGON ((10 10, 20 10, 20 20, 10 20, 10 10))",
    "POLYGON ((0 0, 10 0, 10 10, 0 0))",
    "POLYGON ((1 2, 8 3, 4 9, 1 2))",
    "MULTIPOLYGON (((0 0, 10 0, 10 10, 0 10, 0 0)), ((10 10, 20 10, 20 20, 10 10)))",
    "MULTIPOLYGON (((0 0, 30 0, 30 30, 0 30, 0 0), (5 5, 25 5, 25 25, 5 25, 5 5)),"
    " ((10 10, 20 10, 20 20, 10 20, 10 10)))",
]

# Less than any distance between things apart in geometries on the grid, times an edge's length.
ASIDE = Fraction(1, 2**200)
# Further than any coordinate of the grid.
FAR = Fraction(2**40)

GRID_MIN, GRID_MAX = -(2**30), 2**30 - 1

INTERIOR, BOUNDARY, EXTERIOR = range(3)


def read(text):
    """The kind of a text, and its parts: lists of lists of points (rings of polygons, else one list)."""
    kind, body = re.match(r"([A-Z]+) (.*)", text).groups()
    body = re.sub(r"(-?\d+) (-?\d+)", r"(\1,\2)", body.replace(", ", ","))
    body = re.sub(r"\(\((-?\d+,-?\d+)\)\)", r"((\1))", body)
    value = eval(re.sub(r"\)(?=\))", "),", body.replace("),)", "),)")))  # noqa: S307, our own texts
    if kind == "POINT":
        return "points", [[value]] if isinstance(value[0], int) else [[value[0]]]
    if kind == "MULTIPOINT":
        return "points", [[p if isinstance(p[0], int) else p[0] for p in value]]
    if kind == "LINESTRING":
        return "lines", [list(value)]
    if kind == "MULTILINESTRING":
        return "lines", [list(line) for line in value]
    if kind == "POLYGON":
        return "polygons", [[list(ring) for ring in value]]
    return "polygons", [[list(ring) for ring in polygon] for polygon in value]


def chains(geometry):
    kind, parts = geometry
    if kind == "lines":
        return parts
    return [ring for polygon in parts for ring in polygon] if kind == "polygons" else []


def edges(geometry):
    return [(a, b) for chain in chains(geometry) for a, b in zip(chain, chain[1:]) if a != b]


def dots(geometry):
    return [p for part in geometry[1] for p in part] if geometry[0] == "points" else []


def turn(a, b, p):
    return (b[0] - a[0]) * (p[1] - a[1]) - (b[1] - a[1]) * (p[0] - a[0])


def is_on(p, edge):
    a, b = edge
    return (
        turn(a, b, p) == 0
        and min(a[0], b[0]) <= p[0] <= max(a[0], b[0])
        and min(a[1], b[1]) <= p[1] <= max(a[1], b[1])
    )


def is_inside(p, ring):
    """Whether an odd number of the ring's edges is above the place, which is on none of them."""
    inside = False
    for a, b in zip(ring, ring[1:]):
        if (a[0] <= p[0]) != (b[0] <= p[0]):
            height = a[1] + Fraction(b[1] - a[1]) * (p[0] - a[0]) / (b[0] - a[0])
            inside ^= height > p[1]
    return inside


def place(p, geometry):
    kind, parts = geometry
    if kind == "points":
        return INTERIOR if p in parts[0] else EXTERIOR
    on = any(is_on(p, edge) for edge in edges(geometry))
    if kind == "lines":
        ends = [end for line in parts if line[0] != line[-1] for end in (line[0], line[-1])]
        if ends.count(p) % 2 == 1:
            return BOUNDARY
        return INTERIOR if on else EXTERIOR
    if on:
        return BOUNDARY
    inside = any(
        is_inside(p, polygon[0]) and not any(is_inside(p, hole) for hole in polygon[1:])
        for polygon in parts
    )
    return INTERIOR if inside else EXTERIOR


def cuts(edge, others, points):
    """The places on an edge where something else begins, ends or crosses, along it."""
    a, b = edge
    found = {a, b} | {p for p in points if is_on(p, edge)}
    for c, d in others:
        found |= {p for p in (c, d) if is_on(p, edge)}
        across = (b[0] - a[0]) * (d[1] - c[1]) - (b[1] - a[1]) * (d[0] - c[0])
        if across:
            t = Fraction((c[0] - a[0]) * (d[1] - c[1]) - (c[1] - a[1]) * (d[0] - c[0]), across)
            p = (a[0] + t * (b[0] - a[0]), a[1] + t * (b[1] - a[1]))
            if 0 <= t <= 1 and is_on(p, (c, d)):
                found.add(p)
    return sorted(found)


def samples(a, b):
    """A place in each part of the plane, with the part's dimension."""
    every = edges(a) + edges(b)
    points = set(dots(a) + dots(b))
    yield 2, (FAR, FAR)
    for p in points:
        yield 0, p
    for edge in every:
        along = cuts(edge, every, points)
        for p in along:
            yield 0, p
        for p, q in zip(along, along[1:]):
            middle = (Fraction(p[0] + q[0]) / 2, Fraction(p[1] + q[1]) / 2)
            yield 1, middle
            for side in (ASIDE, -ASIDE):
                yield 2, (middle[0] - side * (q[1] - p[1]), middle[1] + side * (q[0] - p[0]))


def matrix(a, b):
    entries = [-1] * 9
    for dimension, p in samples(a, b):
        at = 3 * place(p, a) + place(p, b)
        entries[at] = max(entries[at], dimension)
    return "".join("F" if entry < 0 else str(entry) for entry in entries)


def random_text(rng):
    """A text of any kind with small coordinates; some are not valid."""

    def point():
        return f"{rng.randint(0, 6)} {rng.randint(0, 6)}"

    def chain(count):
        return "(" + ", ".join(point() for _ in range(count)) + ")"

    def ring():
        first = point()
        return "(" + ", ".join([first] + [point() for _ in range(rng.randint(2, 4))] + [first]) + ")"

    kind = rng.randrange(6)
    if kind == 0:
        return f"POINT ({point()})"
    if kind == 1:
        return "MULTIPOINT (" + ", ".join(f"({point()})" for _ in range(rng.randint(2, 4))) + ")"
    if kind == 2:
        return "LINESTRING " + chain(rng.randint(2, 6))
    if kind == 3:
        return "MULTILINESTRING (" + ", ".join(chain(rng.randint(2, 4)) for _ in range(rng.randint(2, 3))) + ")"
    if kind == 4:
        return f"POLYGON ({ring()})"
    return f"MULTIPOLYGON (({ring()}), ({ring()}))"


def star_ring(rng, turns, center, radii):
    """A ring that goes out and in by turns, closed."""
    corners = [
        (
            center[0] + round(radii[k % 2] * math.cos(math.pi * k / turns)),
            center[1] + round(radii[k % 2] * math.sin(math.pi * k / turns)),
        )
        for k in range(2 * turns)
    ]
    first = rng.randrange(len(corners))
    corners = corners[first:] + corners[: first + 1]
    return "(" + ", ".join(f"{x} {y}" for x, y in corners) + ")"


def dense_text(rng):
    """A text of many edges over one place; some are not valid."""

    def chain(count):
        return "(" + ", ".join(f"{rng.randint(-9, 9)} {rng.randint(-9, 9)}" for _ in range(count)) + ")"

    center = (rng.randint(-6, 6), rng.randint(-6, 6))
    turns = rng.randint(5, 9)
    kind = rng.randrange(5)
    if kind == 0:
        return "LINESTRING " + chain(rng.randint(9, 16))
    if kind == 1:
        return "MULTILINESTRING (" + ", ".join(chain(rng.randint(4, 7)) for _ in range(3)) + ")"
    if kind == 2:
        return f"POLYGON ({star_ring(rng, turns, center, (20, 9))})"
    if kind == 3:
        return f"POLYGON ({star_ring(rng, turns, center, (20, 11))}, {star_ring(rng, turns, center, (8, 4))})"
    aside = (center[0] + rng.randint(18, 30), center[1])
    return f"MULTIPOLYGON (({star_ring(rng, turns, center, (16, 7))}), ({star_ring(rng, turns, aside, (16, 6))}))"


def wide_points(rng):
    """Some places across the whole grid: its corners, others a step beside them, on one line, and anywhere."""
    corners = [(x, y) for x in (GRID_MIN, GRID_MAX) for y in (GRID_MIN, GRID_MAX)]
    beside = [(min(GRID_MAX, max(GRID_MIN, x + rng.randint(-2, 2))), min(GRID_MAX, max(GRID_MIN, y + rng.randint(-2, 2)))) for x, y in corners]
    anywhere = [(rng.randint(GRID_MIN, GRID_MAX), rng.randint(GRID_MIN, GRID_MAX)) for _ in range(4)]
    step = (rng.randint(1, 2**26), rng.randint(-(2**26), 2**26))
    on_line = [(k * step[0], k * step[1]) for k in rng.sample(range(-15, 16), 4)]
    return [*rng.sample(corners, 2), *rng.sample(beside, 2), *anywhere, *on_line]


def wide_text(rng, places):
    """A text of edges between some of these places; some are not valid."""

    def text(chosen):
        return ", ".join(f"{x} {y}" for x, y in chosen)

    def ring():
        corners = rng.sample(places, rng.randint(3, 5))
        return f"({text([*corners, corners[0]])})"

    kind = rng.randrange(6)
    if kind == 0:
        return f"POINT ({text(rng.sample(places, 1))})"
    if kind == 1:
        return f"MULTIPOINT ({', '.join(f'({text([place])})' for place in rng.sample(places, 3))})"
    if kind == 2:
        return f"LINESTRING ({text(rng.sample(places, rng.randint(2, 5)))})"
    if kind == 3:
        return f"MULTILINESTRING ({', '.join(f'({text(rng.sample(places, rng.randint(2, 3)))})' for _ in range(3))})"
    if kind == 4:
        return f"POLYGON ({ring()})"
    return f"MULTIPOLYGON (({ring()}), ({ring()}))"


def wide_pairs(rng, count):
    """Pairs of geometries with edges across the whole grid, which often have places and pieces of lines in common."""
    for _ in range(count):
        places = wide_points(rng)
        yield wide_text(rng, places), wide_text(rng, places)


def answers(program, lines):
    done = subprocess.run([program], input="\n".join(lines) + "\n", capture_output=True, text=True, check=True)
    return done.stdout.splitlines()


def compare(program, pairs):
    """How many of the pairs the program relates, the first stored and the second given, and how many wrongly."""
    lines = [
        line
        for a, b in pairs
        for line in ("layer add w any", f"add w {a}", f"relate w 1 {b}", "layer drop w")
    ]
    compared = wrong = 0
    for (a, b), answer in zip(pairs, answers(program, lines)[2::4]):
        # One that isn't valid is refused.
        if answer.startswith("refused"):
            continue
        compared += 1
        expected = matrix(read(a), read(b))
        if answer != expected:
            wrong += 1
            print(f"{a} | {b} | {answer} | {expected}")
    return compared, wrong


def main():
    made = [read(text) for text in GEOMETRIES]
    for text, a in zip(GEOMETRIES, made):
        print(text)
        print("    " + " ".join(matrix(a, b) for b in made))
    if len(sys.argv) > 1:
        program = sys.argv[1]
        table = [(a, b) for a in GEOMETRIES for b in GEOMETRIES]
        print("%d compared, %d wrong" % compare(program, table))
        rng = random.Random(1)
        pairs = [(random_text(rng), random_text(rng)) for _ in range(34_000)]
        print("%d compared, %d wrong" % compare(program, pairs))
        dense = [(dense_text(rng), dense_text(rng)) for _ in range(600)]
        print("dense: %d compared, %d wrong" % compare(program, dense))
        print("across the grid: %d compared, %d wrong" % compare(program, list(wide_pairs(rng, 34_000))))


if __name__ == "__main__":
    main()
