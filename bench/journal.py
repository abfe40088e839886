#!/usr/bin/env python3
"""Measures what a journal costs: edits a second without one and with one, one by one, and in groups; openings and saves.

    bench/journal.py PROGRAM [FOLDER]

The store's file and its journal are made in FOLDER (else in one for temporary files): its disk is what is measured.
A store without a journal and one with it do the same edits in turn, five times, so that other work on the machine
slows both.
"""

from __future__ import annotations

import os
import sys
import tempfile
import time
from pathlib import Path

TOP = Path(__file__).resolve().parent.parent
sys.path.insert(0, str(TOP / "python"))

from sfstore import Store  # noqa: E402


def edits(count: int) -> list[str]:
    """So many additions of points."""
    return [f"add w POINT ({k % 4000} {k // 4000})" for k in range(count)]


def seconds_of(store: Store, lines: list[str], group: int) -> float:
    """How long some edits take in groups; a group of one is a single command."""
    begun = time.perf_counter()
    for at in range(0, len(lines), group):
        if group == 1:
            store.run(lines[at])
        else:
            store.run_all(lines[at : at + group])
    return time.perf_counter() - begun


def measure(program: str, folder: str, count: int, group: int) -> str:
    """Prints a row, of the medians of five runs each. The path of the store with a journal."""
    path = f"{folder}/of_{group}.sfs"
    lines = edits(count)
    times: list[list[float]] = [[], []]
    stores = [Store(program), Store(path, journal=True, program=program)]
    for store in stores:
        store.run("layer add w point")
    for _ in range(5):
        for store, taken in zip(stores, times):
            taken.append(seconds_of(store, lines, group))
    for store in stores:
        store.close(save=False)
    without, with_one = (sorted(taken)[2] for taken in times)
    name = "one by one" if group == 1 else f"`run_all` of {group:,}"
    print(
        f"| {name} | {count / without:,.0f} | {count / with_one:,.0f} | {with_one / count * 1e6:.1f} "
        f"| {with_one / without:.2f} |"
    )
    return path


def main() -> None:
    program = os.path.abspath(sys.argv[1])
    with tempfile.TemporaryDirectory(dir=sys.argv[2] if len(sys.argv) > 2 else None) as folder:
        print("| | Without a journal, edits a second | With one | µs for each edit | Times as long |")
        print("|---|---|---|---|---|")
        for count, group in ((1_000, 1), (5_000, 10), (20_000, 100), (100_000, 10_000)):
            path = measure(program, folder, count, group)
        begun = time.perf_counter()
        store = Store(path, journal=True, program=program)
        print(f"opening over {store.recovered.edits:,} edits: {time.perf_counter() - begun:.2f} s")
        begun = time.perf_counter()
        store.save()
        print(f"saving them: {time.perf_counter() - begun:.2f} s")
        store.close()


if __name__ == "__main__":
    main()
