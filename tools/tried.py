"""Programs of the crates of tests/crates, with the toolchain's checks in them, made once for each state of the crates."""

from __future__ import annotations

import tempfile
from pathlib import Path

import checkouts
import compiling
import programs

PLACE = programs.TOP / "out" / "tried"


def is_code(crate: str) -> bool:
    """Whether a crate is tests in code, and no program."""
    return (checkouts.CRATES / crate / "src" / f"lib.rt{checkouts.ENDING}").is_file()


def state(crate: str) -> str:
    """What a program of a crate is made of."""
    own = programs.sum_of(checkouts.CRATES / crate / "src", checkouts.CRATES / f"crates.txt{checkouts.ENDING}")
    return f"{programs.crates_sum(proved=False)} {own} {programs.kit()}\n"


def program(crate: str) -> Path:
    """The program of a crate of tests/crates, or that of its tests: made first, a minute or two, where it isn't there yet."""
    made, record, now = PLACE / crate, PLACE / f"{crate}.of", state(crate)
    if not (made.is_file() and record.is_file() and record.read_text(encoding="utf-8") == now):
        record.unlink(missing_ok=True)
        with tempfile.TemporaryDirectory(prefix="sfstore-tried-") as name:
            folder = checkouts.with_tests(Path(name), crate)
            compiling.with_checks(folder, made, is_code(crate))
        record.write_text(now, encoding="utf-8")
    return made
