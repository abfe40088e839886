#!/usr/bin/env python3
"""Tries wrong bodies of bench/plants that a contract has to refuse, over the libraries that `rt ci` has kept on this machine.

    bench/kept.py                        tries all of them, some thirty seconds of a processor for each
    bench/kept.py sf_query sf_edits      those of these crates
    bench/kept.py --jobs 4 NAME ..       so many at once
    bench/kept.py --checked FOLDER       over the libraries of a checkout whose crates `rt check` or `rt ci` has proved there
    bench/kept.py --crate sf_console     looks at a crate as it is, with holes: `rt check`, which begins with all crates below
    bench/kept.py --crate NAME MODULE .. the functions of these modules alone, as `answering` or `answering::near`

`bench/plants.py` does the same by `rt must-fail`, which proves each crate first. Here the prover looks at the functions of
the files alone that a plant changes, and at the whole crate where these are proved with it. The libraries of the crates
below are those of the last `rt ci` that has passed them: run it first. A kit whose `rt ci` keeps nothing leaves them in the
checkout: name that. The rows and the status are those of `bench/plants.py`; behind a row stands what the prover said first.
"""

from __future__ import annotations

import argparse
import json
import re
import shutil
import subprocess
import sys
import tempfile
from collections.abc import Iterator, Sequence
from concurrent.futures import ThreadPoolExecutor
from dataclasses import dataclass
from functools import partial
from pathlib import Path

from plants import TOP, Plant, planted, plants, row

KIT = Path("/opt/rattle")
KEPT = Path("/opt/rattle-kept")
PARTS = ("src", "specs", "proofs")
# What the prover says of a place, and what says nothing of a contract: a proof that names what the plant took away.
SAID = re.compile(r"(note: )?\S+:\d+:\d+:.*")
NAMES = re.compile(r"(note: )?(\./)?proofs/.*(has no field|is not in scope|has no `|was not admitted)")
# What it says of a text of the crate that it cannot read, as `rt` tells that.
ERROR = re.compile(r"(?:\./)?(?:src|specs)/\S+:\d+:\d+: error: (`[^`]*`: )?(.*)")
UNREAD = re.compile(r"is not in scope|has no field|is no name|operand is missing|expected the end|cannot continue")
LIMITS = re.compile(r"antt ran out of|outgrew the memory limit|stopped at the step limit|stopped after \d+ seconds")
# Seconds in which a check ends, on a machine that has other work too: most take thirty.
SECONDS = 1_800


@dataclass(frozen=True)
class Tried:
    """What came of a plant, in the words of `bench/plants.py`, and what the prover said first."""

    plant: Plant
    found: str
    said: str


def newest() -> dict[str, Path]:
    """The record of the proof that was kept last of each crate."""
    made = sorted(KEPT.glob("proof-*/made.json"), key=lambda path: path.stat().st_mtime)
    return {path.parent.name.removeprefix("proof-").rpartition("-")[0]: path for path in made}


def unpack(folder: Path) -> None:
    """Puts the libraries that were kept into a folder, of the crates that it has none of yet."""
    there = {library.stem for library in folder.iterdir()}
    for crate, record in newest().items():
        if crate in there:
            continue
        for number, (path, _) in enumerate(json.loads(record.read_text(encoding="utf-8"))["files"]):
            if path.startswith(f"rlib/{crate}.rlib/"):
                place = folder / path.removeprefix("rlib/")
                place.parent.mkdir(parents=True, exist_ok=True)
                shutil.copyfile(record.parent / str(number), place)


def gather(checkout: Path, folder: Path) -> None:
    """Puts the libraries that checks left in a checkout into a folder."""
    for library in checkout.glob("crates/*/out/rlib/*.rlib"):
        shutil.copytree(library, folder / library.name)


def libraries_into(folder: Path, checkout: Path | None) -> None:
    """Puts the libraries of a checkout into a folder, or those that were kept."""
    if checkout:
        gather(checkout, folder)
    else:
        unpack(folder)


def below(crate: str) -> list[str]:
    """The crates that a crate lists."""
    lines = (TOP / "crates.txt").read_text(encoding="utf-8").splitlines()
    return next(line for line in lines if line.startswith(f"{crate}:")).partition(":")[2].split()


def modules(plant: Plant) -> list[str]:
    """The modules that a plant changes; none where its crate has to be looked at as a whole."""
    found = [file.removeprefix("src/").removesuffix(".rt").replace("/", "::") for file in plant.changes]
    return found if all(file.startswith("src/") for file in plant.changes) and not {"lib", "main"} & set(found) else []


def words(crate: str, root: str, libraries: Path, only: Sequence[str]) -> Iterator[str]:
    """The command line of the prover."""
    yield from (str(KIT / "bin/rattle"), "check", "--crate-name", crate, root, "--extern", f"std={KIT}/rlibs/std.rlib")
    yield from ("-L", f"dependency={libraries}", "-L", f"dependency={KIT}/rlibs")
    for name in below(crate):
        own = libraries / f"{name}.rlib"
        yield from ("--extern", f"{name}={own if own.exists() else KIT / 'rlibs' / f'{name}.rlib'}")
    yield from ("--antt-project", str(KIT / "rattle/logic/antt-project.json"), "--logic-built", str(KIT / "logic_built"))
    yield from ("--links", f"{crate}=", "--jobs", "1")
    for module in only:
        yield from ("--only", module)


def ended(command: list[str], room: Path) -> subprocess.CompletedProcess[str]:
    """A command run in a folder. One that does not end is stopped."""
    nothing = subprocess.DEVNULL
    try:
        return subprocess.run(
            command, cwd=room, stdin=nothing, capture_output=True, text=True, errors="replace", timeout=SECONDS, check=False
        )
    except subprocess.TimeoutExpired:
        return subprocess.CompletedProcess(command, 3, "", f"the check was stopped after {SECONDS} seconds")


def checked(plant: Plant, libraries: Path, only: Sequence[str]) -> subprocess.CompletedProcess[str]:
    """A check of a copy of the crate with a plant in it."""
    with tempfile.TemporaryDirectory(prefix="sfstore-kept-") as name:
        crate, room = TOP / "crates" / plant.crate, Path(name)
        for part in PARTS:
            if (crate / part).is_dir():
                shutil.copytree(crate / part, room / part)
        for file in plant.changes:
            text = (room / file).read_text(encoding="utf-8")
            (room / file).write_text(planted(plant, file, text), encoding="utf-8")
        root = "src/lib.rt" if (room / "src/lib.rt").exists() else "src/main.rt"
        return ended(list(words(plant.crate, root, libraries, only)), room)


def is_unread(line: str) -> bool:
    """Whether the prover says that it cannot read a text of the crate."""
    found = ERROR.match(line)
    return found is not None and (not found[1] or bool(UNREAD.search(re.sub("`[^`]*`", "", found[2]))))


def judged(status: int, output: str) -> tuple[str, str]:
    """What a check came to, and the line that says so."""
    lines = output.splitlines()
    if status == 0:
        return "proved", ""
    unread = next(filter(is_unread, lines), "")
    if unread:
        return "bad", unread
    said = [line for line in lines if SAID.match(line) and (": error" in line or line.startswith("note: "))]
    meant = next((line for line in said if not NAMES.match(line)), "")
    if status == 1 and said:
        return ("refused", meant) if meant else ("refused by names", said[0])
    limit = next((line for line in lines if LIMITS.search(line)), "")
    return ("refused by a limit", limit) if limit else ("not tried", lines[0] if lines else "")


def tried(libraries: Path, plant: Plant) -> Tried:
    """Tries a plant: the functions of its files, and the crate where these don't refuse it."""
    whole: list[str] = []
    for only in (modules(plant), whole):
        check = checked(plant, libraries, only)
        found, said = judged(check.returncode, check.stdout + check.stderr)
        if found not in ("proved", "not tried"):
            break
    return Tried(plant, found, said)


def look(libraries: Path, crate: str, only: Sequence[str]) -> int:
    """Has the prover look at a crate as it is, and say what it finds. The status is the prover's."""
    folder = TOP / "crates" / crate
    root = "src/lib.rt" if (folder / "src/lib.rt").exists() else "src/main.rt"
    return subprocess.run([*words(crate, root, libraries, only), "--allow-holes"], cwd=folder, check=False).returncode


def main(arguments: Sequence[str]) -> int:
    """Prints a row for each plant. The status is 1 where something else came than is expected."""
    parser = argparse.ArgumentParser(description="tries wrong bodies of bench/plants over kept libraries")
    parser.add_argument("names", nargs="*", help="crates, or names of plants; none for all")
    parser.add_argument("--jobs", type=int, default=2, help="how many are tried at once")
    parser.add_argument("--checked", type=Path, help="a checkout that has the libraries; none for those that were kept")
    parser.add_argument("--crate", help="looks at this crate as it is, in place of plants; the names are modules of it then")
    asked = parser.parse_args(arguments)
    if asked.crate:
        with tempfile.TemporaryDirectory(prefix="sfstore-libraries-") as name:
            libraries_into(Path(name), asked.checked)
            return look(Path(name), asked.crate, asked.names)
    wanted = [plant for plant in plants() if not plant.test]
    chosen = [plant for plant in wanted if not asked.names or {plant.crate, plant.name} & set(asked.names)]
    if not chosen:
        parser.error("no such plant that a contract has to refuse")
    status = 0
    with tempfile.TemporaryDirectory(prefix="sfstore-libraries-") as name, ThreadPoolExecutor(asked.jobs) as pool:
        libraries_into(Path(name), asked.checked)
        for outcome in pool.map(partial(tried, Path(name)), chosen):
            line = row(outcome.plant, outcome.found)
            status |= line.startswith("!")
            print(f"{line}\n    {outcome.said[:200]}", flush=True)
    return status


if __name__ == "__main__":
    sys.exit(main(sys.argv[1:]))
