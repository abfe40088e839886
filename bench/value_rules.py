#!/usr/bin/env python3
"""Measures `unique`: a file loaded under it, and features added and given their values under it, beside the same without.

    bench/value_rules.py [PROGRAM] [COUNT]     takes the program of the checkout, and 200,000 features, if none are named

Values are whole numbers, and texts of twelve bytes, each in the order of the features and in another one. Each figure is the
least processor time of three runs. Runs with the rule and without it take turns, so that other work slows both alike.

    rt run is needed once in crates/sfstore (it builds the program).
"""

from __future__ import annotations

import os
import random
import sys
import tempfile
from collections.abc import Sequence

from agreement import PROGRAM
from rules import RUNS, one_run

RULE = "rule add one unique marks nr"


def values(kind: str, count: int, shuffled: bool) -> list[str]:
    """Values of a kind as lines spell them, no two of them one."""
    numbers = list(range(count))
    if shuffled:
        random.Random(1).shuffle(numbers)
    return [str(number) if kind == "int" else f"'nr {number:09}'" for number in numbers]


def layer(kind: str) -> list[str]:
    """Lines that make the layer with its column."""
    return ["layer add marks point", f"column add marks nr {kind}"]


def features(named: Sequence[str]) -> list[str]:
    """Lines that add a feature and set its value, for each of these."""
    return [
        line
        for place, value in enumerate(named)
        for line in (f"add marks POINT ({place % 1000} {place // 1000})", f"set marks {place + 1} nr {value}")
    ]


def in_turn(program: str, first: tuple[list[str], list[str]], second: tuple[list[str], list[str]]) -> tuple[float, float]:
    """The least times of two runs, each of its arguments and lines, in turn."""
    pairs = [(one_run(program, *first), one_run(program, *second)) for _ in range(RUNS)]
    return min(a for a, _ in pairs), min(b for _, b in pairs)


def told(what: str, plain: float, ruled: float, count: int) -> None:
    """Prints a row."""
    print(f"{what}: {plain:.2f} s, under the rule {ruled:.2f} s, {ruled / plain:.2f} times; {(ruled - plain) / count * 1e6:.1f} µs a feature", flush=True)


def measured(program: str, kind: str, shuffled: bool, count: int) -> None:
    """The rows of one kind of values in one order."""
    named = values(kind, count, shuffled)
    what = f"{count:,} values, {kind}, {'shuffled' if shuffled else 'in order'}"
    made, lines = layer(kind), features(named)
    told(f"lines of {what}", *in_turn(program, ([], [*made, *lines]), ([], [*made, RULE, *lines])), count)
    with tempfile.TemporaryDirectory() as folder:
        plain, ruled = os.path.join(folder, "plain"), os.path.join(folder, "ruled")
        one_run(program, ["--save", plain], [*made, *lines])
        one_run(program, ["--save", ruled], [*made, *lines, RULE])
        told(f"a file of {what}", *in_turn(program, (["--load", plain], []), (["--load", ruled], [])), count)


def main() -> None:
    program = os.path.abspath(sys.argv[1] if len(sys.argv) > 1 else str(PROGRAM))
    count = int(sys.argv[2]) if len(sys.argv) > 2 else 200_000
    for kind in ("int", "text"):
        for shuffled in (False, True):
            measured(program, kind, shuffled, count)


if __name__ == "__main__":
    main()
