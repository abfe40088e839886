#!/usr/bin/env python3
"""Runs the gate, and writes how many processor seconds each crate took.

    tests/costs.py FILE COMMAND ..     runs the command, `rt ci` with its words; the table goes into FILE

While the command runs the processes of the prover are looked at, and what each has used is kept until it is gone.
What a crate's proof, its tests and its wrong bodies took are apart. The status is that of the command.
"""

from __future__ import annotations

import os
import resource
import subprocess
import sys
import threading
from dataclasses import dataclass
from pathlib import Path

# How often the processes are looked at, in seconds: what is gone within that is not seen.
PERIOD = 1.0
TICKS = os.sysconf("SC_CLK_TCK")
PARTS = ["proof", "tests", "wrong bodies"]


@dataclass(frozen=True)
class Process:
    """A process of the prover, and what it does for which crate."""

    number: int
    started: str
    crate: str
    part: str


def part_of(words: list[str], folder: str) -> str:
    """What a process with this command line, run in this folder, does."""
    if "/rt-edit-" in folder + "/":
        return "wrong bodies"
    return "tests" if "--test" in words else "proof"


def parent_of(number: int) -> int:
    """The number of a process' parent; 0 where it has none or is gone."""
    try:
        return int((Path("/proc") / str(number) / "stat").read_text().rpartition(")")[2].split()[1])
    except (OSError, IndexError):
        return 0


def is_ours(number: int) -> bool:
    """Whether a process was begun by this one, or by what it began."""
    while number > 1:
        if number == os.getpid():
            return True
        number = parent_of(number)
    return False


def look(number: int) -> tuple[Process, float] | None:
    """The process with a number and the processor seconds that it has used, if it is one of the command's prover."""
    place = Path("/proc") / str(number)
    try:
        words = place.joinpath("cmdline").read_bytes().decode(errors="replace").split("\0")
        if Path(words[0]).name != "rattle" or "--crate-name" not in words or not is_ours(number):
            return None
        fields = place.joinpath("stat").read_text().rpartition(")")[2].split()
        folder = os.readlink(place / "cwd")
    except (OSError, IndexError):
        return None
    crate = words[words.index("--crate-name") + 1]
    used = (int(fields[11]) + int(fields[12])) / TICKS
    return Process(number, fields[19], crate, part_of(words, folder)), used


def watch(used: dict[Process, float], ended: threading.Event) -> None:
    """Looks at the processes until the command has ended."""
    while not ended.wait(PERIOD):
        for name in os.listdir("/proc"):
            found = look(int(name)) if name.isdigit() else None
            if found is not None:
                used[found[0]] = found[1]


def table(used: dict[Process, float], total: float) -> str:
    """The table: the crates, the dearest first, and all together."""
    sums: dict[str, dict[str, float]] = {}
    for process, seconds in used.items():
        parts = sums.setdefault(process.crate, dict.fromkeys(PARTS, 0.0))
        parts[process.part] += seconds
    rows = sorted(sums.items(), key=lambda row: -sum(row[1].values()))
    lines = ["| Crate | Proof | Tests | Wrong bodies | Together |", "|---|---|---|---|---|"]
    for crate, parts in rows:
        numbers = [*parts.values(), sum(parts.values())]
        lines.append(f"| `{crate}` | " + " | ".join(f"{number:.0f}" for number in numbers) + " |")
    columns = [sum(parts[part] for _, parts in rows) for part in PARTS]
    lines.append("| all | " + " | ".join(f"{number:.0f}" for number in [*columns, sum(columns)]) + " |")
    return "\n".join(lines) + f"\n\nThe whole run: {total:.0f} processor seconds.\n"


def main() -> int:
    """Runs the command and writes the table."""
    file, *command = sys.argv[1:]
    used: dict[Process, float] = {}
    ended = threading.Event()
    watcher = threading.Thread(target=watch, args=(used, ended))
    watcher.start()
    try:
        status = subprocess.run(command, check=False).returncode
    finally:
        ended.set()
        watcher.join()
    children = resource.getrusage(resource.RUSAGE_CHILDREN)
    Path(file).write_text(table(used, children.ru_utime + children.ru_stime), encoding="utf-8")
    return status


if __name__ == "__main__":
    sys.exit(main())
