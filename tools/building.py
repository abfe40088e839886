"""Makes the programs of this checkout, and puts them into out/programs: proved ones, or such as only serve to try."""

from __future__ import annotations

import shutil
import subprocess
import tempfile
from concurrent.futures import ThreadPoolExecutor
from pathlib import Path

import checkouts
import compiling
import programs


def needed(listed: dict[str, list[str]]) -> set[str]:
    """The programs, and all crates of the repository below them."""
    found: set[str] = set()
    left = list(programs.NAMES)
    while left:
        name = left.pop()
        if name in listed and name not in found:
            found.add(name)
            left += listed[name]
    return found


def pruned(folder: Path) -> None:
    """Leaves in a copy of the crates what the programs stand on alone."""
    file = folder / "crates.txt"
    lines = file.read_text(encoding="utf-8").splitlines(keepends=True)
    names = needed(checkouts.listed("".join(lines)))
    file.write_text("".join(line for line in lines if line.partition(":")[0] in names), encoding="utf-8")
    for crate in (folder / "crates").iterdir():
        if crate.name not in names:
            shutil.rmtree(crate)


def proved() -> int:
    """Proves and builds the programs by the gate, without wrong bodies. The status is that of `rt ci`."""
    with tempfile.TemporaryDirectory(prefix="sfstore-build-") as name:
        folder = Path(name)
        checkouts.copied(folder)
        made = programs.of(folder, True, "the crates of the programs alone, by ./build-programs")
        pruned(folder)
        status = subprocess.run(["rt", "ci"], cwd=folder, check=False).returncode
        if status == 0:
            programs.keep(made, {program: folder / "crates" / program / "out" / program for program in programs.NAMES})
    return status


def unproved() -> None:
    """Builds the programs side by side as the proved ones would be, without a proof."""
    with tempfile.TemporaryDirectory(prefix="sfstore-build-") as name:
        folder, built = Path(name) / "checkout", Path(name) / "built"
        folder.mkdir()
        checkouts.copied(folder)
        made = programs.of(folder, False, "none")

        def build(program: str) -> Path:
            compiling.without_checks(folder / "crates" / program, built / program)
            return built / program

        with ThreadPoolExecutor(len(programs.NAMES)) as pool:
            programs.keep(made, dict(zip(programs.NAMES, pool.map(build, programs.NAMES))))


def ensured() -> programs.Made:
    """What the programs are, which are made without a proof where they aren't those of the crates as they stand."""
    made = programs.current()
    if made is None:
        print("Making sfstore and sfmap without proofs: some three minutes.", flush=True)
        unproved()
        made = programs.read()
    assert made is not None
    return made
