"""Puts crates that are tests alone together with the crates that they call, in a copy of a checkout.

tests/crates has these crates. They promise nothing, so the gate does not prove them: `tests/program/test_crate_rows.py` runs them
with the toolchain's checks. Their files of Rattle end in `.in`, since the gate takes none outside of the crates that it
proves; `tests/crates/crates.txt.in` is their part of crates.txt.
"""

from __future__ import annotations

import shutil
from pathlib import Path

TOP = Path(__file__).resolve().parent.parent
CRATES = TOP / "tests" / "crates"
ENDING = ".in"


def listed(text: str) -> dict[str, list[str]]:
    """The crates of a text like crates.txt, each with those that it stands on."""
    lines = [line for line in text.splitlines() if line and not line.startswith("#")]
    return {name: below.split() for name, _, below in (line.partition(":") for line in lines)}


def names() -> dict[str, list[str]]:
    """The crates of tests/crates, each with those that it stands on."""
    return listed((CRATES / f"crates.txt{ENDING}").read_text(encoding="utf-8"))


def with_crate(text: str, crate: str, below: list[str], repository: set[str]) -> str:
    """A text like crates.txt with a crate at its end. An older version lacks some of the crates that it stands on."""
    lines = [line for line in text.splitlines() if line.partition(":")[0] != crate]
    there = set(listed(text))
    return "\n".join([*lines, f"{crate}: {' '.join(name for name in below if name in there or name not in repository)}", ""])


def put(source: Path, target: Path) -> None:
    """Puts the files of a crate into a folder, with the names that the toolchain wants."""
    for file in source.rglob("*"):
        if file.is_file():
            place = target / file.relative_to(source)
            place = place.with_suffix("") if place.suffix == ENDING else place
            place.parent.mkdir(parents=True, exist_ok=True)
            shutil.copy(file, place)


def copied(folder: Path, checkout: Path = TOP) -> None:
    """Puts a copy of a checkout's crates into a folder, without wrong bodies and what earlier runs made."""
    shutil.copytree(checkout / "crates", folder / "crates", ignore=shutil.ignore_patterns("must-fail", "out"))
    for name in ("crates.txt", "HANDLES"):
        shutil.copy(checkout / name, folder)


def joined(folder: Path, crate: str, below: list[str], *sources: Path) -> Path:
    """Adds a crate that is made of the files of some folders to a copy, and gives its folder."""
    target = folder / "crates" / crate
    shutil.rmtree(target, ignore_errors=True)
    for source in sources:
        put(source, target)
    text = (folder / "crates.txt").read_text(encoding="utf-8")
    repository = set(listed((TOP / "crates.txt").read_text(encoding="utf-8")))
    (folder / "crates.txt").write_text(with_crate(text, crate, below, repository), encoding="utf-8")
    return target


def with_tests(folder: Path, crate: str, checkout: Path = TOP) -> Path:
    """Puts a copy of a checkout's crates into a folder with one of tests/crates, and gives that one's folder."""
    copied(folder, checkout)
    return joined(folder, crate, names()[crate], CRATES / crate)
