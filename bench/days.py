#!/usr/bin/env python3
"""Has the program read and write all days of the calendar, and all texts near them that are none.

    bench/days.py [PROGRAM]

Each of the 3,652,059 days from 0001-01-01 to 9999-12-31 is set and shown, and compared with Python's calendar. So is each
year with days 0 to 32 of months 0 to 13 that the calendar has not. The tests have the ends of all years and months of
February, and a sample.
"""

from __future__ import annotations

import subprocess
import sys
import time
from collections.abc import Iterator
from datetime import date
from pathlib import Path

sys.path.insert(0, str(Path(__file__).resolve().parent.parent / "tools"))

from programs import path_of  # noqa: E402

BEGIN = "layer add w point\ncolumn add w d date\nadd w POINT (1 1)\n"
DAYS = date.max.toordinal()


def all_texts(years: range) -> Iterator[str]:
    """Each text of a year, a month and a day of two digits, near those of the calendar."""
    return (f"{year:04}-{month:02}-{day:02}" for year in years for month in range(14) for day in range(33))


def answered(program: str, texts: list[str]) -> list[str]:
    """Which of the texts are days to the program, as it shows them."""
    lines = BEGIN + "".join(f"unset w 1 d\nset w 1 d {text}\nget w 1\n" for text in texts)
    ended = subprocess.run([program], input=lines, capture_output=True, text=True, check=True)
    marked = (line.partition(" d=") for line in ended.stdout.splitlines())
    return [shown for _, mark, shown in marked if mark]


def main() -> int:
    """Compares all. The status is 1 where a text has another answer."""
    program = sys.argv[1] if len(sys.argv) > 1 else str(path_of("sfstore"))
    begun, count = time.monotonic(), 0
    wanted = map(date.fromordinal, range(1, DAYS + 1))
    for first in range(0, 10_000, 500):
        for shown in answered(program, list(all_texts(range(first, first + 500)))):
            day = next(wanted).isoformat()
            if shown != day:
                print(f"{shown} where {day} comes next")
                return 1
            count += 1
    left = sum(1 for _ in wanted)
    print(f"{count} days, {left} missing, {10_000 * 14 * 33 - count} texts refused: {time.monotonic() - begun:.0f} s")
    return 1 if left else 0


if __name__ == "__main__":
    sys.exit(main())
