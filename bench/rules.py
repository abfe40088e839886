#!/usr/bin/env python3
"""Measures rules between features: one added, a vertex moved under it, and a file loaded with two of them.

    bench/rules.py [PROGRAM]     takes the program of the checkout, if none is named

The layer has 100,000 squares that touch, and another one a point within each. Each figure is the least processor time of
three runs, with what comes before it taken off.

    rt run is needed once in crates/sfstore (it builds the program).
"""

from __future__ import annotations

import os
import subprocess
import sys
import tempfile
from collections.abc import Iterator, Sequence

from agreement import PROGRAM

RUNS = 3
SQUARES = 316
MOVES = 20_000
APART = "rule add apart never parcels T******** parcels"
MARKED = "rule add marked each marks within some parcels"


def square(x: int, y: int) -> str:
    """A square of ten steps."""
    corners = [(x, y), (x + 10, y), (x + 10, y + 10), (x, y + 10), (x, y)]
    return f"POLYGON (({', '.join(f'{a} {b}' for a, b in corners)}))"


def map_of_squares() -> Iterator[str]:
    """Two layers: squares side by side, and a point in each."""
    places = [(10 * x, 10 * y) for x in range(SQUARES) for y in range(SQUARES)]
    yield "layer add parcels polygon"
    yield "layer add marks point"
    yield from (f"add parcels {square(x, y)}" for x, y in places)
    yield from (f"add marks POINT ({x + 5} {y + 5})" for x, y in places)


def moves() -> Iterator[str]:
    """Squares at the border of the map get a vertex beyond it, and lose it again."""
    for number in range(MOVES):
        row = number % SQUARES
        feature = (SQUARES - 1) * SQUARES + row + 1
        if number // SQUARES % 2 == 0:
            yield f"vertex insert parcels {feature} 0 0 2 {10 * SQUARES + 3} {10 * row + 5}"
        else:
            yield f"vertex remove parcels {feature} 0 0 2"


def seconds(program: str, words: Sequence[str], lines: Sequence[str]) -> float:
    """The least processor time of some runs over lines, of which the last is accepted."""
    return min(one_run(program, words, lines) for _ in range(RUNS))


def one_run(program: str, words: Sequence[str], lines: Sequence[str]) -> float:
    """The processor time of a run."""
    with tempfile.TemporaryFile() as source, tempfile.TemporaryFile() as sink:
        source.write("".join(f"{line}\n" for line in lines).encode())
        source.seek(0)
        child = subprocess.Popen([program, *words], stdin=source, stdout=sink)
        _, status, usage = os.wait4(child.pid, 0)
        child.returncode = os.waitstatus_to_exitcode(status)
        sink.seek(0)
        answers = sink.read().splitlines()
        if child.returncode != 0 or (answers and not answers[-1].startswith(b"ok")):
            raise RuntimeError(f"status {child.returncode}, last answer {answers[-1:]}")
        return float(usage.ru_utime + usage.ru_stime)


def main() -> None:
    program = os.path.abspath(sys.argv[1] if len(sys.argv) > 1 else str(PROGRAM))
    known, moved = list(map_of_squares()), list(moves())
    made, ruled = seconds(program, [], known), seconds(program, [], [*known, APART])
    print(f"rule add over {SQUARES**2} squares: {ruled - made:.2f} s")
    free, held = seconds(program, [], [*known, *moved]) - made, seconds(program, [], [*known, APART, *moved]) - ruled
    print(f"a vertex under no rule: {free / MOVES * 1e6:.1f} µs; under a rule: {held / MOVES * 1e6:.1f} µs")
    with tempfile.TemporaryDirectory() as folder:
        for number in range(3):
            file = os.path.join(folder, str(number))
            rules = [APART, MARKED][:number]
            one_run(program, ["--save", file], [*known, *rules])
            print(f"loading {2 * SQUARES**2} features with {number} rules: {seconds(program, ['--load', file], []):.2f} s")


if __name__ == "__main__":
    main()
