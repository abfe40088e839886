"""How questions grow with the points that they are about, by time, beside what `bench/growing.py` counts.

Each row of that is asked at 512 and at 4,096 points, at the latter an eighth as often, so that lines of as many points are read.
What takes as long for each point takes as long then, and what takes the square eight times as long. A row may take what its
exponent may be there, and half an exponent more: what is refused grows by a whole one more. A row that takes too long is tried
again, and the least times count. With SPEEDS set each tells its figures. The program is the one that SFSTORE names, else that of
the checkout.
"""

from __future__ import annotations

import math
import os
import resource
import subprocess
import sys
import unittest
from collections.abc import Iterable
from pathlib import Path
from unittest import mock

TOP = Path(__file__).resolve().parents[2]
sys.path[:0] = [str(TOP / "bench"), str(TOP / "tools")]

import growing  # noqa: E402
from programs import path_of  # noqa: E402

STORE = path_of("sfstore")
FEWER, MORE = growing.SIZES[-2:]
# How many points the lines of a row have together, at either size.
POINTS = 4 * MORE
BEYOND = 0.5
TRIES = 5
# Seconds that can't be told from none, beside the program's start.
UNSEEN = 0.003


def seconds(lines: list[str]) -> float:
    """Processor seconds of a run over the lines."""
    before = resource.getrusage(resource.RUSAGE_CHILDREN)
    subprocess.run([STORE], input="\n".join(lines).encode(), check=True, stdout=subprocess.DEVNULL)
    after = resource.getrusage(resource.RUSAGE_CHILDREN)
    return after.ru_utime + after.ru_stime - before.ru_utime - before.ru_stime


class Least:
    """The least times of what is asked at so many points."""

    def __init__(self, asked: growing.Asked, points: int) -> None:
        self._times = POINTS // points
        self._start = asked.before
        self._whole = [*asked.before, *asked.lines * self._times]
        self._seconds = [math.inf, math.inf]

    def again(self) -> float:
        """Processor seconds of the question by the least times of the runs so far, beyond those of the lines before it."""
        self._seconds = [min(least, seconds(lines)) for least, lines in zip(self._seconds, (self._start, self._whole))]
        start, whole = self._seconds
        return max(whole - start, UNSEEN) / self._times


def exponents(row: growing.Row) -> list[float]:
    """The exponents of a row by the least times of one run, and of more runs where they were above what it may be."""
    fewer, more = (Least(row.asked(points), points) for points in (FEWER, MORE))
    found = [growing.exponent(fewer.again(), more.again())]
    while found[-1] >= row.most + BEYOND and len(found) < TRIES:
        found.append(growing.exponent(fewer.again(), more.again()))
    return found


class Growing(unittest.TestCase):
    def check(self, rows: Iterable[growing.Row]) -> None:
        for row in rows:
            # Of these it is known that they take the square, and they take long.
            if row.most >= growing.BY_PAIRS:
                continue
            with self.subTest(row.name):
                found = exponents(row)
                if os.environ.get("SPEEDS"):
                    print(f"{row.name}: {found[-1]:.2f} of {len(found)}, at most {row.most + BEYOND:.1f}", file=sys.stderr)
                self.assertLess(found[-1], row.most + BEYOND)

    def test_the_square_is_told(self) -> None:
        """Refuses a measurement that lets rows through whose lines take the square of their bytes, and none whose lines take as many."""
        for power, is_let_through in ((1, True), (2, False)):
            with mock.patch(f"{__name__}.seconds", lambda lines: sum(len(line) ** power for line in lines) / 1e5):
                let_through = [exponents(row)[-1] < row.most + BEYOND for row in growing.pairs() if row.most == growing.MOST]
            self.assertEqual(let_through.count(is_let_through), len(let_through))

    def test_pairs(self) -> None:
        """Refuses two geometries whose matrix, predicates or distance take the square of their points."""
        self.check(growing.pairs())

    def test_one_geometry(self) -> None:
        """Refuses a geometry that is read, told or edited by the square of its points."""
        self.check(growing.alone())

    def test_layers(self) -> None:
        """Refuses a layer that is joined, shown or ruled by the square of its features."""
        self.check(growing.layers())


if __name__ == "__main__":
    unittest.main()
