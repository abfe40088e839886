#!/usr/bin/env python3
"""Tries wrong bodies that stand in bench/plants: which of them the contracts refuse, and which a test has to see.

    bench/plants.py                       tries all, some hours of proofs
    bench/plants.py sf_query sf_edits     those of these crates
    bench/plants.py sf_query-index_is_never_used
    bench/plants.py --list                prints what they are and what is expected of them, and tries none

Each file is one plant, in the form of a wrong body of must-fail/ behind two lines of its own:

    CRATE: what breaks with it
    expected: refused                     its contract refuses it
    expected: proved, refused by TEST     its contract lets it through, and this test does not
    file: src/FILE.rt
    old: a text that stands in that file once
    new: the text in its place

Where it changes several files, each has its line `file:` with its pairs of `old:` and `new:` behind it.

The chosen ones stand alone in must-fail/ of their crates in a copy of the checkout in a temporary folder, where
`rt must-fail` tries them: it begins with what `rt check` has kept here. A row of the table is marked where something
else came than is expected. A plant that is refused because proofs name what it took away, or by a limit of the prover,
says nothing of the contract.
"""

from __future__ import annotations

import argparse
import re
import shutil
import subprocess
import sys
import tempfile
from collections.abc import Sequence
from dataclasses import dataclass
from pathlib import Path

TOP = Path(__file__).resolve().parent.parent
PLANTS = TOP / "bench" / "plants"
EXPECTED = re.compile("refused|proved, refused by (.+)")
TOLD = re.compile(r"must-fail \w+/(\S+)\.edit: (refused, as it must be|NOT REFUSED|BAD EDIT|NOT TRIED)(.*)")
VERDICTS = {"refused, as it must be": "refused", "NOT REFUSED": "proved", "BAD EDIT": "bad", "NOT TRIED": "not tried"}
# What a refusal says that is none of the contract's.
BESIDE = {"only because a proof file names": "refused by names", "only by a limit": "refused by a limit"}


# The texts that a plant exchanges in a file, each with the one in its place.
Pairs = list[tuple[str, str]]


@dataclass(frozen=True)
class Plant:
    """A wrong body: its crate, what breaks with it, what is expected, and the texts that it exchanges in each file."""

    name: str
    crate: str
    breaks: str
    expected: str
    changes: dict[str, Pairs]

    @property
    def test(self) -> str:
        """The test that has to see it, or nothing."""
        found = EXPECTED.fullmatch(self.expected)
        return found[1] or "" if found else ""

    def edit(self) -> str:
        """The text of it as a wrong body."""
        return "".join(
            line
            for file, pairs in self.changes.items()
            for line in [f"file: {file}\n", *(f"old: {old}\nnew: {new}\n" for old, new in pairs)]
        )


def changes_of(fields: Sequence[tuple[str, str]]) -> dict[str, Pairs]:
    """The texts that are exchanged in each file, from the fields `file`, `old` and `new`."""
    changes: dict[str, Pairs] = {}
    rest = list(fields)
    while rest:
        name, value = rest.pop(0)
        if name == "file":
            pairs = changes.setdefault(value, [])
        elif name == "old" and changes and rest and rest[0][0] == "new":
            pairs.append((value, rest.pop(0)[1]))
        else:
            raise ValueError(f"a field {name} out of its place")
    if not all(changes.values()) or not changes:
        raise ValueError("no file with a pair of old and new")
    return changes


def read(path: Path) -> Plant:
    """The plant of a file."""
    lines = path.read_text(encoding="utf-8").splitlines()
    crate, _, breaks = lines[0].partition(": ")
    (expected, said), *fields = [(name, value) for name, _, value in (line.partition(": ") for line in lines[1:])]
    if expected != "expected":
        raise ValueError(f"{path.name}: its second line doesn't say what is expected")
    try:
        return Plant(path.stem, crate, breaks, said, changes_of(fields))
    except ValueError as fault:
        raise ValueError(f"{path.name}: {fault}") from fault


def plants() -> list[Plant]:
    """All of them, by their names."""
    return [read(path) for path in sorted(PLANTS.glob("*.edit"))]


def planted(plant: Plant, file: str, text: str) -> str:
    """The text of one of its files with the plant in it."""
    for old, new in plant.changes[file]:
        if text.count(old) != 1:
            raise ValueError(f"{plant.name}: {text.count(old)} times in {file}: {old}")
        text = text.replace(old, new)
    return text


def copied(chosen: Sequence[Plant], folder: Path) -> None:
    """Puts a copy of the checkout into a folder, with the chosen ones as its only wrong bodies."""
    shutil.copytree(TOP / "crates", folder / "crates", ignore=shutil.ignore_patterns("must-fail"))
    for name in ("crates.txt", "HANDLES"):
        shutil.copy(TOP / name, folder)
    for plant in chosen:
        place = folder / "crates" / plant.crate / "must-fail"
        place.mkdir(exist_ok=True)
        (place / f"{plant.name}.edit").write_text(plant.edit(), encoding="utf-8")


def verdict(word: str, rest: str) -> str:
    """What came of a plant, by what `rt must-fail` says of it."""
    return next((said for front, said in BESIDE.items() if front in rest), VERDICTS[word])


def verdicts(output: str) -> dict[str, str]:
    """What came of each plant."""
    return {found[1]: verdict(found[2], found[3]) for found in TOLD.finditer(output)}


def tried(chosen: Sequence[Plant]) -> dict[str, str]:
    """Tries them."""
    with tempfile.TemporaryDirectory(prefix="sfstore-plants-") as name:
        copied(chosen, Path(name))
        words = ["rt", "must-fail", *sorted({plant.crate for plant in chosen})]
        ended = subprocess.run(words, cwd=name, stdout=subprocess.PIPE, stderr=subprocess.STDOUT, text=True, check=False)
    return verdicts(ended.stdout)


def row(plant: Plant, found: str) -> str:
    """A row of the table."""
    mark = " " if found in ("", plant.expected.partition(",")[0]) else "!"
    return f"{mark} {found or '-':18} {plant.name}: {plant.breaks}; expected: {plant.expected}"


def main(words: Sequence[str]) -> int:
    """Prints the table. The status is 1 where something else came than is expected."""
    parser = argparse.ArgumentParser(description="tries wrong bodies of bench/plants")
    parser.add_argument("names", nargs="*", help="crates, or names of plants; none for all")
    parser.add_argument("--list", action="store_true", help="tries none")
    asked = parser.parse_args(words)
    chosen = [plant for plant in plants() if not asked.names or {plant.crate, plant.name} & set(asked.names)]
    if not chosen:
        parser.error("no such plant")
    found = {} if asked.list else tried(chosen)
    rows = [row(plant, found.get(plant.name, "" if asked.list else "not tried")) for plant in chosen]
    print("\n".join(rows))
    return int(any(line.startswith("!") for line in rows))


if __name__ == "__main__":
    sys.exit(main(sys.argv[1:]))
