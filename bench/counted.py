#!/usr/bin/env python3
"""Counts the instructions of two programs for the rows of a measurement, and prints what the second takes of the first.

    bench/counted.py OLD NEW questions              rows of bench/questions.py
    bench/counted.py OLD NEW towns [FEATURES]       rows of bench/towns.py
    bench/counted.py OLD NEW edits                  rows of bench/single_edits.py, for each line
    bench/counted.py OLD NEW matrices               matrices of bench/calls.py, whose programs these are

Time hides a factor of 1.2 on a shared machine, instructions don't. `valgrind` counts them, whatever else runs. Make the programs
of two versions with bench/unproved.py; those of bench/calls.py of copies that `bench/calls.py --copy FOLDER` leaves.
"""

from __future__ import annotations

import argparse
import contextlib
import io
import os
import re
import subprocess
import sys
from collections.abc import Callable, Sequence
from concurrent.futures import ProcessPoolExecutor
from functools import lru_cache
from pathlib import Path

import questions
import single_edits
import towns

COUNTED = re.compile(rb"Collected : (\d+)")
FIGURE = re.compile(r" ([\d.]+) us")
# Of a long copy valgrind counts each byte as an instruction, if the C library does it by one instruction: here it does none so.
SHORT_COPIES = {"GLIBC_TUNABLES": f"glibc.cpu.x86_rep_movsb_threshold={2**40}"}
# As many rows as bench/calls.py has of matrices.
MATRICES = 24


def instructions(words: Sequence[str | Path], text: bytes = b"") -> tuple[int, bytes]:
    """How many instructions a program takes, and what it writes to standard error among the lines of valgrind."""
    ended = subprocess.run(
        ["valgrind", "--tool=callgrind", "--callgrind-out-file=/dev/null", *words],
        input=text,
        env={**os.environ, **SHORT_COPIES},
        stdout=subprocess.DEVNULL,
        stderr=subprocess.PIPE,
        check=True,
    )
    found = COUNTED.search(ended.stderr)
    if not found:
        raise RuntimeError("valgrind has counted nothing")
    return int(found[1]), ended.stderr


def period(lines: list[str]) -> int:
    """Of how many lines a list is a repetition."""
    return next(n for n in range(1, len(lines) + 1) if len(lines) % n == 0 and lines == lines[:n] * (len(lines) // n))


def printed_rows(program: Path, measure: Callable[[], None]) -> dict[str, float]:
    """The rows that a measurement prints, in instructions of a program. What is repeated is counted once."""

    @lru_cache(maxsize=4)
    def count(text: str) -> int:
        return instructions([program], text.encode())[0]

    def cost(before: list[str], asked: list[str]) -> float:
        once = asked[: period(asked)]
        return (count("\n".join([*before, *once])) - count("\n".join(before))) * (len(asked) // len(once))

    # `towns` has brought the function in by its name.
    for module in (questions, towns):
        setattr(module, "cost", cost)
    printed = io.StringIO()
    with contextlib.redirect_stdout(printed):
        measure()
    found = ((FIGURE.split(line)[0], FIGURE.search(line)) for line in printed.getvalue().splitlines())
    return {name: float(figure[1]) for name, figure in found if figure}


def carried_out(program: Path, text: bytes) -> bytes:
    """These lines, if the program refuses none of them: a line that is refused takes less than an edit."""
    answers = subprocess.run([program], input=text, stdout=subprocess.PIPE, check=True).stdout
    if b"refused" in answers:
        raise RuntimeError(f"{program} refuses an edit")
    return text


def edits(program: Path) -> dict[str, float]:
    """What a line of each kind of edit takes. None is counted once for all: each meets what those before it have left."""

    @lru_cache(maxsize=1)
    def count(text: str) -> int:
        return instructions([program], text.encode())[0]

    def line(row: single_edits.Row) -> float:
        start = "\n".join(row.before)
        whole = carried_out(program, "\n".join([start, *row.lines]).encode())
        return (instructions([program], whole)[0] - count(start)) / row.edits

    return {row.name: line(row) for size in single_edits.SIZES for row in single_edits.rows_of(size)}


def matrix(program: Path, row: int) -> tuple[str, float]:
    """What a matrix of bench/calls.py takes, with its name."""
    once, said = instructions([program, "matrices", "1", str(row)])
    thrice, _ = instructions([program, "matrices", "3", str(row)])
    name = next(line for line in said.decode().splitlines() if ": relate " in line).partition(": relate ")[0]
    return name, (thrice - once) / 2


def counted(program: Path, rows: str) -> dict[str, float]:
    """What each row of a measurement takes, in instructions of a program."""
    if rows == "matrices":
        return dict(matrix(program, row) for row in range(MATRICES))
    if rows == "edits":
        return edits(program)
    return printed_rows(program, questions.main if rows == "questions" else towns.main)


def main(words: Sequence[str]) -> int:
    """Prints a line for each row: what the second program takes of the first, and what both take."""
    parser = argparse.ArgumentParser(description="counts instructions of two programs")
    parser.add_argument("old", type=Path)
    parser.add_argument("new", type=Path)
    parser.add_argument("rows", choices=["questions", "towns", "edits", "matrices"])
    parser.add_argument("features", nargs="?", default="100000")
    asked = parser.parse_args(words)
    sys.argv = ["towns.py", asked.features]
    with ProcessPoolExecutor(2) as pool:
        old, new = pool.map(counted, [asked.old, asked.new], [asked.rows] * 2)
    for name, before in old.items():
        print(f"{new[name] / max(before, 1):.2f}  {name}: {before:,.0f}, {new[name]:,.0f}", flush=True)
    return 0


if __name__ == "__main__":
    sys.exit(main(sys.argv[1:]))
