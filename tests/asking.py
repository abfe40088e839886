"""Lines asked of the built program, and its answers."""

from __future__ import annotations

import re
import subprocess
import sys
from collections.abc import Sequence
from pathlib import Path

sys.path.insert(0, str(Path(__file__).resolve().parent.parent / "tools"))

from programs import path_of  # noqa: E402

STORE = path_of("sfstore")

# Seconds in which a session ends on a busy machine.
SECONDS = 300


def answers(text: str) -> str:
    """What the program answers to a session."""
    ended = subprocess.run([STORE], input=text, capture_output=True, text=True, check=True, timeout=SECONDS)
    return ended.stdout


def answered(lines: Sequence[str]) -> list[str]:
    """The answer of each line, with its rows as one text."""
    found: list[str] = []
    told = iter(answers("\n".join([*lines, ""])).splitlines())
    for line in told:
        rows = re.fullmatch("rows ([0-9]+)", line)
        found.append("\n".join([line, *(next(told) for _ in range(int(rows[1])))]) if rows else line)
    return found
