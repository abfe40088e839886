#!/usr/bin/env python3
"""Has the program read and write random decimals and doubles, beside Python's own decimals.

    bench/decimals.py [--count N] [PROGRAM]     1,000,000 of each without N: some two minutes

Texts of up to 24 digits before and behind a point, a tenth of them with a byte too many or too few; and doubles of any bits,
each as the shortest text that Python gives it, written without an exponent. What the program shows is compared with what
Python's decimals make of the text, and so is what it refuses. The tests have 33,000 of the first.
"""

from __future__ import annotations

import argparse
import decimal
import math
import random
import re
import struct
import subprocess
import sys
import time
from collections.abc import Callable, Sequence
from decimal import Decimal
from pathlib import Path

sys.path.insert(0, str(Path(__file__).resolve().parent.parent / "tools"))

from programs import path_of  # noqa: E402

BEGIN = "layer add w point\ncolumn add w d decimal\nadd w POINT (1 1)\n"
AT_ONCE = 50_000
# Enough digits for the longest text of a double.
EXACT = decimal.Context(prec=1_200)


def shown(text: str) -> str | None:
    """How a decimal is shown, by Python's decimals; None where the text spells none."""
    if not re.fullmatch(r"[+-]?[0-9]+(\.[0-9]+)?", text):
        return None
    number = Decimal(text).normalize(EXACT)
    places = max(0, -int(number.as_tuple().exponent))
    if places > 18 or number.adjusted() > 18 or not -(2**63) <= int(number.scaleb(places, EXACT)) < 2**63:
        return None
    return format(number, "f") if number else "0"


def random_text(chance: random.Random) -> str:
    """A text near those of decimals."""
    whole = "".join(chance.choices("0123456789", k=chance.randrange(1, chance.choice((3, 12, 24)))))
    fraction = "".join(chance.choices("0123456789", (6, *[1] * 9), k=chance.randrange(chance.choice((2, 12, 24)))))
    text = chance.choice(("", "", "-", "+")) + whole + ("." + fraction if fraction else "")
    if chance.random() < 0.1:
        at = chance.randrange(len(text) + 1)
        text = text[:at] + chance.choice("+-.e0") + text[at + chance.randrange(2) :]
    return text or "0"


def random_double(chance: random.Random) -> str:
    """The text of a double: of any bits, or of a size that values have."""
    if chance.random() < 0.5:
        [number] = struct.unpack("<d", chance.randbytes(8))
    else:
        number = chance.uniform(-1, 1) * 10.0 ** chance.randrange(-18, 19)
    return format(Decimal(repr(number)), "f") if math.isfinite(number) else "0.5"


def answered(program: str, texts: Sequence[str]) -> list[str | None]:
    """How the program shows the value of each text; None where it refuses it."""
    lines = BEGIN + "".join(f"set w 1 d {text}\nget w 1\nunset w 1 d\n" for text in texts)
    ended = subprocess.run([program], input=lines, capture_output=True, text=True, check=True)
    rows = ended.stdout.splitlines()[3:]
    return [row.partition(" d=")[2] or None for row in rows[2::4]]


def differences(program: str, count: int, make: Callable[[random.Random], str], name: str) -> int:
    """How many of so many texts have another answer than Python's."""
    chance, begun, refused, wrong = random.Random(name), time.monotonic(), 0, 0
    for first in range(0, count, AT_ONCE):
        texts = [make(chance) for _ in range(min(AT_ONCE, count - first))]
        found = answered(program, texts)
        if len(found) != len(texts):
            raise SystemExit(f"{len(found)} answers to {len(texts)} texts")
        for text, is_shown in zip(texts, found):
            wanted = shown(text)
            refused += wanted is None
            if is_shown != wanted:
                wrong += 1
                print(f"{text}: {is_shown}, and Python has {wanted}")
    print(f"{count} {name}, {refused} of them refused, {wrong} differences: {time.monotonic() - begun:.0f} s")
    return wrong


def main() -> int:
    """Compares all. The status is 1 where a text has another answer."""
    parser = argparse.ArgumentParser(description="Random decimals and doubles, beside Python's own.")
    parser.add_argument("program", nargs="?", default=str(path_of("sfstore")))
    parser.add_argument("--count", type=int, default=1_000_000, help="how many of each (1000000)")
    asked = parser.parse_args()
    wrong = differences(asked.program, asked.count, random_text, "decimals")
    return 1 if wrong + differences(asked.program, asked.count, random_double, "doubles") else 0


if __name__ == "__main__":
    sys.exit(main())
