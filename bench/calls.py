#!/usr/bin/env python3
"""Measures calls of the crates by themselves, and prints to standard error how long each takes.

    bench/calls.py grid 20000            the calls of sf_grid, so many rounds
    bench/calls.py cells 1               walks over the cells of large rings and combs
    bench/calls.py classes 1             sweeps over their classes
    bench/calls.py validity 1            the checks of validity and simplicity
    bench/calls.py matrices 1            matrices
    bench/calls.py texts 1               reading and writing text and binary
    bench/calls.py --copy FOLDER --of CHECKOUT     leaves the program, over the crates of a checkout, for bench/unproved.py

The program stands in bench/calls, and is not proved: to prove it costs as much as a large crate, and it promises nothing.
Together with the files of the crate sf_bench of tests/crates, which has the shapes, its files make that crate in a copy of
the checkout in a temporary folder, where `rt run` proves and runs it: it begins with what `rt check` has kept here.
"""

from __future__ import annotations

import argparse
import subprocess
import sys
import tempfile
from collections.abc import Sequence
from pathlib import Path

TOP = Path(__file__).resolve().parent.parent
sys.path.insert(0, str(TOP / "tools"))

import checkouts  # noqa: E402

CALLS = TOP / "bench" / "calls"
CRATE = "sf_bench"
CHOICES = ["grid", "cells", "classes", "validity", "matrices", "texts"]
# What the program calls, as crates.txt has it.
BELOW = (
    "sf_refusals sf_grid sf_strips sf_cells sf_slabs sf_plane sf_classes sf_sweep sf_geometry sf_valid_rules sf_pieces"
    " sf_strands sf_polygons sf_validity sf_relate sf_wkt sf_wkb"
)


def copied(folder: Path, checkout: Path = TOP) -> Path:
    """Puts a copy of a checkout's crates into a folder, with the program in it, and gives the program's folder."""
    checkouts.copied(folder, checkout)
    return checkouts.joined(folder, CRATE, BELOW.split(), checkouts.CRATES / CRATE, CALLS)


def main(words: Sequence[str]) -> int:
    """Runs the program, and gives its status."""
    parser = argparse.ArgumentParser(description="measures calls of the crates by themselves")
    parser.add_argument("choice", choices=CHOICES, nargs="?", default="cells")
    parser.add_argument("rounds", type=int, nargs="?", default=1)
    parser.add_argument("--copy", type=Path, help="a new folder, in which the program is left")
    parser.add_argument("--of", type=Path, default=TOP, help="the checkout whose crates it is to call; none for this one")
    asked = parser.parse_args(words)
    if asked.copy:
        print(copied(asked.copy, asked.of))
        return 0
    with tempfile.TemporaryDirectory(prefix="sfstore-calls-") as name:
        program = copied(Path(name))
        return subprocess.run(["rt", "run", "--", asked.choice, str(asked.rounds)], cwd=program, check=False).returncode


if __name__ == "__main__":
    sys.exit(main(sys.argv[1:]))
