#!/usr/bin/env python3
"""Times queries of a layer by windows, and edits of a layer whose points are indexed.

Layers of 1,000 to 1,000,000 points in rows, and one of 100,000 squares, are asked for what meets a small
window (25 points or 9 squares), at places all over the layer; one of 100,000 for what is apart from it;
the layers of points for what is within a distance of one (21 points).
Then 1,000,000 points at places all over the grid are added, moved and deleted. Each line of the result has
the microseconds of a question or an edit, with reading its line and writing its answer: the difference of
the least times of sessions with and without them. A program whose answers are others than the expected
ones ends the script with an error.

    rt run is needed once in crates/sfstore (it builds the program); then: bench/queries.py
"""
import random
import sys
import tempfile
from itertools import accumulate

from sessions import GRID, PROGRAM, measure, point

STEP = 4
QUESTIONS = 100_000
SIZES = [1_000, 10_000, 100_000, 1_000_000]


def rows_of(n):
    """How many things stand in a row of a layer of n."""
    return round(n**0.5)


def points(n):
    """The lines that add n points in rows, each with its answer."""
    across = rows_of(n)
    yield "layer add w point\n", "ok\n"
    for k in range(n):
        yield f"add w POINT ({k % across * STEP} {k // across * STEP})\n", f"ok {k + 1}\n"


def squares(n):
    """The lines that add n squares in rows, which touch no other, each with its answer."""
    across = rows_of(n)
    yield "layer add w polygon\n", "ok\n"
    for k in range(n):
        x, y = k % across * STEP, k // across * STEP
        ring = ", ".join(f"{x + dx} {y + dy}" for dx, dy in ((0, 0), (2, 0), (2, 2), (0, 2), (0, 0)))
        yield f"add w POLYGON (({ring}))\n", f"ok {k + 1}\n"


def window(left, bottom, size):
    """The text of a square of so many things a side, from one in a column and row on."""
    x, y, far = left * STEP - 1, bottom * STEP - 1, (size - 1) * STEP + 2
    ring = ", ".join(f"{x + dx} {y + dy}" for dx, dy in ((0, 0), (far, 0), (far, far), (0, far), (0, 0)))
    return f"POLYGON (({ring}))"


def questions(n, size, count, predicate):
    """Lines that ask of windows all over a layer of n, each with its answer, line by line."""
    rng = random.Random(n)
    across = rows_of(n)
    for _ in range(count):
        left, bottom = rng.randrange(across - size), rng.randrange(n // across - size)
        met = [row * across + column + 1
               for row in range(bottom, bottom + size) for column in range(left, left + size)]
        if predicate == "disjoint":
            inside = set(met)
            met = [k for k in range(1, n + 1) if k not in inside]
        yield f"query w {predicate} {window(left, bottom, size)}\n", f"rows {len(met)}\n"
        for k in met:
            yield "", f"{k}\n"


def distances(n, reach, count):
    """Lines that ask which of n points in rows are within a distance of one of them, each with its answer, line by line."""
    rng = random.Random(n)
    across, far = rows_of(n), reach // STEP
    beside = [(row, column) for row in range(-far, far + 1) for column in range(-far, far + 1)
              if (row * STEP) ** 2 + (column * STEP) ** 2 <= reach**2]
    for _ in range(count):
        column, row = rng.randrange(far, across - far), rng.randrange(far, n // across - far)
        near = sorted((row + down) * across + column + right + 1 for down, right in beside)
        yield f"query w near {reach} POINT ({column * STEP} {row * STEP})\n", f"rows {len(near)}\n"
        for k in near:
            yield "", f"{k}\n"


def moves(order):
    """The lines that move points, each with its answer."""
    for k in order:
        yield f"vertex move w {k + 1} 0 0 0 {k * 31 % GRID} {-(k * 57 % GRID)}\n", "ok\n"


def deletions(order):
    """The lines that delete points, each with its answer."""
    for k in order:
        yield f"delete w {k + 1}\n", "ok\n"


def additions(n):
    """The lines that add n points all over the grid, each with its answer."""
    yield "layer add w point\n", "ok\n"
    for k in range(n):
        yield f"add w {point(k)}\n", f"ok {k + 1}\n"


def time_parts(folder, parts):
    """The seconds of each part of a session: the differences of the sessions up to one and up to the next."""
    whole = list(accumulate([list(part) for part in parts]))
    seconds = [measure(folder, lambda: iter(session), runs=3)[0] for session in whole]
    return [b - a for a, b in zip([0, *seconds], seconds)]


def time_questions(folder, name, added, n, size, count, predicate):
    _, seconds = time_parts(folder, [added(n), questions(n, size, count, predicate)])
    print(f"{predicate} of {n:9} {name:8} {seconds / count * 1e6:10.2f} us")


def time_distances(folder, n, reach, count):
    _, seconds = time_parts(folder, [points(n), distances(n, reach, count)])
    print(f"near {reach} of {n:9} points {seconds / count * 1e6:10.2f} us")


def time_edits(folder, n):
    """Points added, moved and deleted, at places and in an order all over."""
    order = random.Random(n).sample(range(n), n)
    times = time_parts(folder, [additions(n), moves(order), deletions(order)])
    for name, seconds in zip(("added", "moved", "deleted"), times):
        print(f"{n} points {name:8} {seconds:8.2f} s {seconds / n * 1e6:8.2f} us for each")


def main():
    if not PROGRAM.is_file():
        sys.exit(f"{PROGRAM} is missing: run `rt run` in crates/sfstore first")
    with tempfile.TemporaryDirectory() as folder:
        for n in SIZES:
            time_questions(folder, "points", points, n, 5, QUESTIONS, "intersects")
        time_questions(folder, "squares", squares, 100_000, 3, QUESTIONS, "intersects")
        time_questions(folder, "points", points, 100_000, 5, 20, "disjoint")
        for n in SIZES:
            time_distances(folder, n, 11, QUESTIONS)
        time_edits(folder, 1_000_000)


if __name__ == "__main__":
    main()
