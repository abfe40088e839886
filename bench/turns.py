#!/usr/bin/env python3
"""Tries some wrong bodies of bench/plants behind the gate: those of the crates that a commit changed, and others in turn.

    bench/turns.py           tries them, over the libraries that the gate has just left
    bench/turns.py --list    says which those are

Of the crates that differ from the commit's first parent at most CHANGED are tried, and at most OTHERS of the rest. The commit
chooses: from one to the next they are others, and for one they are always the same. So each run costs the same, whatever
there is to try. It is what ./test runs once the gate has passed; the last line counts.
"""

from __future__ import annotations

import argparse
import hashlib
import sys
import tempfile
from collections.abc import Sequence
from concurrent.futures import ThreadPoolExecutor
from functools import partial
from pathlib import Path

import kept
from plants import TOP, Plant, plants, row

sys.path.insert(0, str(TOP / "tools"))

import programs  # noqa: E402

# How many are tried at most: most take thirty seconds of a processor, some two minutes.
CHANGED, OTHERS = 8, 4
# How many at once: a check takes a processor, and up to two GB.
JOBS = 2


def crates_in(paths: Sequence[str]) -> set[str]:
    """The crates of whose code, definitions or proofs some paths are."""
    return {crate for top, crate, part, *_ in (Path(path).parts for path in paths if path.count("/") > 2) if top == "crates" and part in kept.PARTS}


def changed() -> set[str]:
    """The crates that differ from what they were in the commit's first parent; none where there is none."""
    return crates_in(programs.said_by_git("diff", "--name-only", "HEAD^1", "--", "crates").splitlines())


def chosen(wanted: Sequence[Plant], crates: set[str], commit: str) -> list[Plant]:
    """The plants whose turn it is."""

    def turn(plant: Plant) -> str:
        return hashlib.sha256(f"{commit} {plant.name}".encode()).hexdigest()

    rest = sorted(wanted, key=turn)
    first = [plant for plant in rest if plant.crate in crates][:CHANGED]
    return first + [plant for plant in rest if plant not in first and plant.crate not in crates][:OTHERS]


def libraries(folder: Path) -> None:
    """Puts the libraries of the crates into a folder: those that the gate has left here, and else those that it has kept."""
    kept.gather(TOP, folder)
    kept.unpack(folder)


def main(words: Sequence[str]) -> int:
    """Tries them. The status is 1 where something else came than is expected."""
    parser = argparse.ArgumentParser(description="tries some wrong bodies of bench/plants, as the commit chooses")
    parser.add_argument("--list", action="store_true", help="tries none")
    asked = parser.parse_args(words)
    wanted = [plant for plant in plants() if not plant.test]
    mine = chosen(wanted, changed(), programs.said_by_git("rev-parse", "HEAD"))
    if asked.list:
        print("\n".join(row(plant, "") for plant in mine))
        return 0
    good = 0
    with tempfile.TemporaryDirectory(prefix="sfstore-libraries-") as name, ThreadPoolExecutor(JOBS) as pool:
        libraries(Path(name))
        for outcome in pool.map(partial(kept.tried, Path(name)), mine):
            line = row(outcome.plant, outcome.found)
            good += not line.startswith("!")
            print(f"{line}\n    {outcome.said[:200]}", flush=True)
    print(f"{good} passed, {len(mine) - good} failed")
    return int(good < len(mine))


if __name__ == "__main__":
    sys.exit(main(sys.argv[1:]))
