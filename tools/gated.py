#!/usr/bin/env python3
"""Puts the programs that the gate has built into out/programs.

    tools/gated.py                prints a sum over the crates as they stand: to be asked before the gate
    tools/gated.py SUM GATE       puts them there; GATE has what the gate printed. The status is 1 if the gate failed

They count as proved if the gate passed, and the crates are those from before it.
"""

from __future__ import annotations

import re
import sys
from pathlib import Path

import programs


def last_line(text: str) -> str:
    """The last line of what the gate printed."""
    return text.rstrip("\n").rpartition("\n")[2]


def counts(text: str) -> tuple[int, int]:
    """How many tests of the gate passed and failed, as its last line says. Without one, one failed."""
    found = re.fullmatch("(?:.* )?([0-9]+) passed, ([0-9]+) failed", last_line(text))
    return (int(found[1]), int(found[2])) if found else (0, 1)


def keep(before: str, gate: str) -> bool:
    """Puts them there, as far as they are built; whether they are proved. Those of a gate that failed are of no crates that anybody knows."""
    built = {name: programs.TOP / "crates" / name / "out" / name for name in programs.NAMES}
    has_passed = counts(gate)[1] == 0 and before == programs.crates_sum(proved=True)
    crates = before if has_passed else "unknown, since the gate failed or files changed meanwhile"
    made = programs.Made(programs.commit(), crates, programs.kit(), has_passed, last_line(gate))
    programs.keep(made, {name: path for name, path in built.items() if path.is_file()})
    return has_passed


def main() -> int:
    """Prints the sum, or puts the programs there."""
    if len(sys.argv) == 1:
        print(programs.crates_sum(proved=True))
        return 0
    return int(not keep(sys.argv[1], Path(sys.argv[2]).read_text(encoding="utf-8", errors="replace")))


if __name__ == "__main__":
    sys.exit(main())
