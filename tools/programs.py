"""Where the programs lie, and what they are of: out/programs, with a file beside them that says so.

`./test`, `./build-programs` and `./start` put them there. Tests, measurements and `package/build` take them from there, or
those that the environment names (SFSTORE, SFMAP).
"""

from __future__ import annotations

import hashlib
import os
import shutil
import subprocess
from collections.abc import Collection, Iterator, Mapping
from dataclasses import dataclass
from pathlib import Path

TOP = Path(__file__).resolve().parent.parent
PLACE = TOP / "out" / "programs"
RECORD = "MADE"
NAMES = ("sfstore", "sfmap")
KIT = Path("/opt/rattle/KIT-ID")
# Folders of a crate that no program depends on, and besides those that none depends on before its proof.
BESIDE = {"out", "must-fail"}
PROOFS = {"specs", "proofs"}


def path_of(name: str) -> Path:
    """Where a program is taken from."""
    named = os.environ.get(name.upper())
    return Path(os.path.abspath(named)) if named else PLACE / name


def files_of(folder: Path, beside: Collection[str]) -> Iterator[Path]:
    """The files of a folder, in order, without those of some folders."""
    for at, folders, names in os.walk(folder):
        folders[:] = sorted(name for name in folders if name not in beside)
        yield from (Path(at) / name for name in sorted(names))


def sum_of(*places: Path, beside: Collection[str] = ()) -> str:
    """A SHA-256 over the names and the bytes of files, and of all files of folders."""
    total = hashlib.sha256()
    for top in places:
        for file in files_of(top, beside) if top.is_dir() else [top]:
            content = file.read_bytes()
            total.update(f"{file.relative_to(top.parent)}\0{len(content)}\0".encode())
            total.update(content)
    return total.hexdigest()


def kit() -> str:
    """The toolchain, as its own file names it."""
    return KIT.read_text(encoding="utf-8").strip() if KIT.is_file() else "none"


def crates_sum(proved: bool, copy: Path | None = None) -> str:
    """What says whether programs are of the crates as they stand, or of a copy: of their proofs too, if the programs are proved."""
    top = copy or TOP
    return sum_of(top / "crates", top / "crates.txt", top / "HANDLES", beside=BESIDE if proved else BESIDE | PROOFS)


def said_by_git(*words: str) -> str:
    """What git says of the checkout; nothing where there is no git, or no checkout."""
    try:
        ended = subprocess.run(["git", *words], cwd=TOP, capture_output=True, text=True, check=False)
    except OSError:
        return ""
    return ended.stdout.strip() if ended.returncode == 0 else ""


def commit() -> str:
    """The commit of the checkout, and whether files differ from it."""
    changed = said_by_git("status", "--porcelain", "--untracked-files=no")
    return (said_by_git("rev-parse", "HEAD") or "none") + (" with changes" if changed else "")


@dataclass(frozen=True)
class Made:
    """What programs are of: the commit, the sum over its crates, the toolchain, whether they are proved, and by what."""

    commit: str
    crates: str
    toolchain: str
    proved: bool
    gate: str

    def text(self) -> str:
        """The file beside the programs."""
        said = "yes" if self.proved else "no, for trying alone"
        return f"commit: {self.commit}\ncrates: {self.crates}\ntoolchain: {self.toolchain}\nproved: {said}\ngate: {self.gate}\n"

    def is_of_now(self) -> bool:
        """Whether they are of the crates and the toolchain as they stand."""
        return (self.crates, self.toolchain) == (crates_sum(self.proved), kit())


def of(copy: Path, proved: bool, gate: str) -> Made:
    """What is to be said of programs that are made of a copy of the checkout's crates."""
    return Made(commit(), crates_sum(proved, copy), kit(), proved, gate)


def read() -> Made | None:
    """What is said of the programs that are there; nothing where one is missing, or nothing is said."""
    try:
        lines = (PLACE / RECORD).read_text(encoding="utf-8").splitlines()
        said = dict(line.split(": ", 1) for line in lines)
        made = Made(said["commit"], said["crates"], said["toolchain"], said["proved"] == "yes", said["gate"])
    except (OSError, KeyError, ValueError):
        return None
    return made if all((PLACE / name).is_file() for name in NAMES) else None


def current() -> Made | None:
    """What is said of the programs, where they are of the crates as they stand."""
    made = read()
    return made if made and made.is_of_now() else None


def keep(made: Made, programs: Mapping[str, Path]) -> None:
    """Puts programs there. Whoever is interrupted leaves no record, so that nothing is said of what is there."""
    PLACE.mkdir(parents=True, exist_ok=True)
    (PLACE / RECORD).unlink(missing_ok=True)
    for name, program in programs.items():
        # A program that runs can't be written to: the new one takes its place.
        beside = PLACE / f".{name}.{os.getpid()}"
        shutil.copy(program, beside)
        beside.replace(PLACE / name)
    beside = PLACE / f".{RECORD}.{os.getpid()}"
    beside.write_text(made.text(), encoding="utf-8")
    beside.replace(PLACE / RECORD)
