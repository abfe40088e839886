"""What the commands of the module have in common: their version, and how they count."""

from __future__ import annotations

import argparse
import os
import subprocess  # nosec B404: git is asked for the commit of a checkout, without a shell.
from importlib import metadata
from pathlib import Path
from typing import Any

__all__ = ["add_version", "counted", "reason_of", "recovered_words", "unsaved_question", "version_lines"]

_MODULE = Path(__file__).resolve().parent
# The lines of BUILT, which the package has among its documents, that say what it is and what it was made of.
_NAME = "sfstore "
_TOLD = ("NOT PROVED: ", "commit: ", "toolchain: ")


def counted(count: int, one: str, several: str) -> str:
    """A number with the words for it: one of them for 1.

    >>> counted(1, "edit is", "edits are"), counted(12000, "edit is", "edits are")
    ('1 edit is', '12,000 edits are')
    """
    return f"{count:,} {one if count == 1 else several}"


def reason_of(error: BaseException) -> str:
    """Why something was not done, in words: of a file its name and what is the matter, without a number of the system's.

    >>> reason_of(FileNotFoundError(2, "No such file or directory", "town.sfs"))
    'town.sfs: No such file or directory'
    """
    # Some of our own errors are the system's too, and have words of their own.
    if not isinstance(error, OSError) or type(error).__str__ is not OSError.__str__ or not error.strerror:
        return str(error)
    path = error.filename
    return f"{os.fsdecode(path)}: {error.strerror}" if isinstance(path, (str, bytes)) else error.strerror


def recovered_words(edits: int) -> str:
    """What is said of edits that a journal had.

    >>> recovered_words(1)
    '1 edit from the journal was not saved yet: it is there, to undo too.'
    """
    rest = "it is" if edits == 1 else "they are"
    return f"{counted(edits, 'edit from the journal was', 'edits from the journal were')} not saved yet: {rest} there, to undo too."


def unsaved_question(edits: int) -> str:
    """What is asked before edits are left in the journal.

    >>> unsaved_question(2)
    '2 edits are not saved. Save them now?'
    """
    return f"{counted(edits, 'edit is', 'edits are')} not saved. Save {'it' if edits == 1 else 'them'} now?"


def add_version(parser: argparse._ActionsContainer) -> None:
    """Has a command say its version by ``--version``."""
    parser.add_argument("--version", action=_Version, nargs=0, help="say the version")


class _Version(argparse.Action):
    def __call__(self, parser: argparse.ArgumentParser, *_: Any) -> None:
        first, *further = version_lines()
        print("\n".join([f"{parser.prog} {first.partition(' ')[2]}", *further]))
        parser.exit()


def version_lines(module: Path = _MODULE) -> list[str]:
    """The version of the module, and below it commit and toolchain as far as they are known; of programs that were
    not proved, that too.

    Of a package its file BUILT says them, and of a checkout git.
    """
    built = module.parents[3] / "share" / "doc" / "sfstore" / "BUILT" if len(module.parents) > 3 else module
    if module.parent.name == "dist-packages" and built.is_file():
        lines = built.read_text(encoding="utf-8").splitlines()
        return [*(line for line in lines if line.startswith(_NAME)), *(line for line in lines if line.startswith(_TOLD))]
    checkout = module.parents[1]
    number = checkout / "package" / "VERSION"
    if number.is_file() and (checkout / "python" / "sfstore") == module:
        return [f"sfstore {number.read_text(encoding='utf-8').strip()}", *_commit_of(checkout)]
    try:
        return [f"sfstore {metadata.version('sfstore')}"]
    except metadata.PackageNotFoundError:
        return ["sfstore (of no known version)"]


def _commit_of(checkout: Path) -> list[str]:
    """The commit of a checkout, where git says it."""
    words = ["git", "-C", os.fspath(checkout), "rev-parse", "HEAD"]
    try:
        said = subprocess.run(words, capture_output=True, text=True, timeout=10)  # nosec B603: a list of words.
    except (OSError, subprocess.TimeoutExpired):
        return []
    return [f"commit: {said.stdout.strip()}"] if said.returncode == 0 else []
