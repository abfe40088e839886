#!/usr/bin/env python3
"""Times groups of edits beside the same edits one by one, and a large group in a layer of a million features.

Each line has the seconds of the program for all edits alone and as groups, the loading left out. Answers are counted.

    rt run is needed once in crates/sfstore (it builds the program); then: bench/groups.py
"""

from __future__ import annotations

import random
import subprocess
import sys
import tempfile
import time
from collections.abc import Sequence
from pathlib import Path

sys.path.insert(0, str(Path(__file__).resolve().parent.parent / "tools"))

from programs import path_of  # noqa: E402

PROGRAM = path_of("sfstore")
RUNS = 5
SQUARES, SIZES = 100_000, (1, 2, 3, 10, 100, 10_000)
MILLION, LARGE = 1_000_000, 10_000
GRID = 8_000_000


def seconds(lines: Sequence[str], answers: int, *words: str) -> float:
    """The least seconds of some runs over the lines, which have so many lines of answers."""
    text = "".join(f"{line}\n" for line in lines).encode()
    found = []
    for _ in range(RUNS):
        begun = time.perf_counter()
        ended = subprocess.run([PROGRAM, *words], input=text, capture_output=True, check=True)
        found.append(time.perf_counter() - begun)
        if ended.stdout.count(b"\n") != answers or b"refused" in ended.stdout:
            sys.exit(f"{PROGRAM} has answered {ended.stdout[-200:]!r}")
    return min(found)


def together(members: Sequence[str]) -> list[str]:
    """A group as lines."""
    return [f"together {len(members)}", *members]


def squares() -> list[str]:
    """Additions of squares in rows."""
    found = []
    for place in range(SQUARES):
        x, y = place % 1000 * 10, place // 1000 * 10
        found.append(f"add p POLYGON (({x} {y}, {x + 9} {y}, {x + 9} {y + 9}, {x} {y + 9}, {x} {y}))")
    return found


def of_sizes() -> None:
    """Squares added one by one, and in groups of each size."""
    head, alone = ["layer add p polygon"], squares()
    singly = seconds([*head, *alone], 1 + SQUARES)
    for size in SIZES:
        groups = [line for first in range(0, SQUARES, size) for line in together(alone[first : first + size])]
        grouped = seconds([*head, *groups], 1 + -(-SQUARES // size))
        print(f"{SQUARES} squares in groups of {size}: {grouped:.3f} s, one by one {singly:.3f} s, {grouped / singly:.2f} times")


def points(count: int, dice: random.Random) -> list[str]:
    """Additions of points anywhere."""
    return [f"add w POINT ({dice.randrange(-GRID, GRID)} {dice.randrange(-GRID, GRID)})" for _ in range(count)]


def of_a_million(file: str) -> None:
    """A large group in a layer of very many points, its undo, and the same edits one by one."""
    dice = random.Random(1)
    seconds_made = seconds(["layer add w point", *points(MILLION, dice)], 1 + MILLION, "--save", file)
    added = points(LARGE, dice)
    loaded = seconds(["layers"], 2, "--load", file)
    singly = seconds(added, LARGE, "--load", file) - loaded
    grouped = seconds(together(added), 1, "--load", file) - loaded
    undone = seconds([*together(added), "undo"], 2, "--load", file) - loaded - grouped
    print(f"{MILLION} points made in {seconds_made:.1f} s; {LARGE} more: one by one {singly:.3f} s, as a group {grouped:.3f} s, its undo {undone:.3f} s")


def main() -> None:
    of_sizes()
    with tempfile.TemporaryDirectory() as folder:
        of_a_million(str(Path(folder) / "million.sfs"))


if __name__ == "__main__":
    main()
