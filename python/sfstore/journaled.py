"""A program that keeps the store of a file: each accepted edit is in its journal before it is answered."""

from __future__ import annotations

import contextlib
import os
import sys
import tempfile
import time
import warnings
from collections.abc import Callable, Sequence
from typing import IO

from sfstore import journal, sidecar
from sfstore.kept import Kept, OpenFile
from sfstore.language import QUESTIONS
from sfstore.program import is_edit, started
from sfstore.results import Answer, JournalError, PathName, ProgramEnded, Recovered, Refused

__all__ = ["Journaled"]

_SAVE = b"save\n"
# As a line of `Store.run` it is refused: `Store.save` looks after the file and its side-car. The program takes the word
# alone, without a blank behind it.
_REFUSED = {_SAVE: b"save \n", b"save\r\n": b"save \n"}

_CUT_SHORT = b"warning: a record of the journal was not written to its end, and is dropped\n"

# Why a store can't be opened that can be in a moment.
_PASSING_FAULTS = {
    "fault load Taken": "is open in another session",
    "fault load Changed": "is written by another program at the same time",
}
# Why a journal can't be opened, by the program's word for it.
_JOURNAL_FAULTS = {
    "Damaged": "the record at place {place} is damaged",
    "NotAccepted": "the edit of the record at place {place} is not accepted there",
    "Memory": "there is not enough memory for it",
    "Read": "it can't be read, or a link stands in its place",
    "Write": "it can't be written anew: the disk may be full, or fail",
}
# Why a save has failed, by the program's last line.
_SAVE_FAULTS = {
    "fault save Memory": "there is not enough memory",
    "fault save Write": "it can't be written: the disk may be full, or fail",
    "fault save Changed": "it was changed or taken away by another program while it was open",
}


class Journaled:
    """A program that keeps the store of a file: each accepted edit is in its journal before it is answered.

    Opening it waits some time for the lock. `JournalError` where another session has it, where the
    journal is damaged, and where the file is another one than the journal goes on from;
    `ProgramEnded` where the file does not load; `OSError` where the lock can't be opened.
    """

    def __init__(self, program: str, path: PathName) -> None:
        self.name = program
        self._kept = Kept(os.fsdecode(path))
        # Whether the program may have done something that is not noted here.
        self._in_doubt = False
        self.has_group = False
        torn = self._open()
        self.recovered = Recovered(self.unsaved, torn)
        if torn:
            warnings.warn(
                f"{self._kept.journal} ended with {torn} bytes of an edit that was not "
                "written to its end, nor answered: they are dropped",
                RuntimeWarning,
                stacklevel=3,
            )

    @property
    def closed(self) -> bool:
        """Whether the store can't be used any more."""
        return self._in_doubt or self._program.closed

    @property
    def unsaved(self) -> int:
        return self._kept.unsaved

    @property
    def unsaved_lines(self) -> list[str]:
        """`JournalError` where the file is not the one that the lines go on from."""
        return self.reading()()

    def open_file(self) -> OpenFile | None:
        """As `Kept.open_file` has it."""
        return self._kept.open_file()

    def reading(self) -> Callable[[], list[str]]:
        """What reads the lines that there are now, as `Kept.reading` has it."""
        read = self._kept.reading()
        return lambda: [line[:-1].decode("utf-8") for line in read()]

    def stop(self) -> None:
        self._program.stop()

    def check_user(self) -> None:
        self._program.check_user()

    def exchange(self, lines: Sequence[bytes]) -> list[Answer | Refused]:
        self._check_open()
        if not all(map(_is_question, lines)):
            # No file would go with the journal that has the edits.
            self._kept.check()
        self._in_doubt = True
        try:
            outcomes = self._program.exchange([_REFUSED.get(line, line) for line in lines])
            self._kept.unsaved += sum(map(is_edit, lines, outcomes))
            self._in_doubt = False
        except ProgramEnded as ended:
            self.abort()
            raise self._serving_fault(ended) from None
        except BaseException:
            # How many edits the journal has is not known.
            self.abort()
            raise
        return outcomes

    def save(self) -> None:
        """Saves the store, and goes on from the file."""
        self._check_open()
        if not self._kept.is_saved:
            self._save()

    def copy(self, path: str) -> None:
        self._check_open()
        self._kept.copy(path, self.name)

    def close(self) -> None:
        """Saves the store, and ends the program. What can't be saved stays in the journal."""
        self._program.check_user()
        try:
            if not self.closed:
                self.save()
        finally:
            self.abort()

    def abort(self) -> None:
        """Ends the program. The journal has all that was answered."""
        self._program.abort()
        _pass_on(self._said)

    def _check_open(self) -> None:
        self._program.check_user()
        if self.closed:
            # Where an interrupt came at the wrong moment the program runs still: the journal decides.
            self.abort()
            raise RuntimeError("the store is closed")

    def _open(self) -> int:
        """Starts the program. Tells how many bytes of an edit were dropped that was not written to its end."""
        until = time.monotonic() + journal.LOCK_SECONDS
        while True:
            torn = self._kept.prepare()
            try:
                self._start()
                return torn
            except ProgramEnded as ended:
                if ended.last_line not in _PASSING_FAULTS:
                    raise self._opening_fault(ended) from None
                if time.monotonic() > until:
                    raise JournalError(f"{self._kept.path} {_PASSING_FAULTS[ended.last_line]}") from None
            time.sleep(0.02)

    def _start(self) -> None:
        """Has the program load the file, and do the edits of its journal again."""
        self._said = _said_file()
        try:
            self._program = started([self.name, f"--store={self._kept.path}", "--keep"], self._said)
        except BaseException:
            _pass_on(self._said)
            raise
        try:
            self._kept.opened()
        except BaseException:
            self.abort()
            raise

    def _opening_fault(self, ended: ProgramEnded) -> Exception:
        """What is raised where the program could not open the store."""
        path, words = self._kept.journal, ended.last_line.split(" ")
        if words[:2] != ["fault", "journal"]:
            return ended
        if words[2] in _JOURNAL_FAULTS:
            return JournalError(f"{path}: {_JOURNAL_FAULTS[words[2]].format(place=words[-1])}")
        if not journal.is_journal(journal.bytes_of(path) or b""):
            return JournalError(f"{path}: no journal begins at place 0")
        return journal.other_file(self._kept.path, path)

    def _serving_fault(self, ended: ProgramEnded) -> Exception:
        """What is raised where the program has ended in a command."""
        if ended.last_line != "fault serve Journal":
            return ended
        for path in (f"{self._kept.path}.lock", self._kept.journal):
            if not os.path.lexists(path):
                return JournalError(
                    f"{path} was taken away while {self._kept.path} was open: the session has ended, "
                    "since another one may have begun"
                )
        return JournalError(
            f"{self._kept.journal} could not be written, or another file was put in its place or in "
            "that of the lock: the disk may be full, or fail"
        )

    def _save(self) -> None:
        self._kept.check()
        old = self._kept.digest
        try:
            awaited = sidecar.follow(self._kept.path, old, lambda: self._kept.next_digest(self.name))
        except OSError as error:
            raise self._kept.unsavable(self._kept.path, f"its side-car: {error.strerror}") from error
        self._in_doubt = True
        try:
            self._program.exchange([_SAVE])
            self._kept.saved()
            self._in_doubt = False
        except ProgramEnded as ended:
            self.abort()
            raise self._saving_fault(ended) from None
        except BaseException:
            self.abort()
            raise
        if awaited not in (None, self._kept.digest):
            # The program was replaced by one that writes another format since this one was started.
            sidecar.follow(self._kept.path, old, lambda: self._kept.digest)

    def _saving_fault(self, ended: ProgramEnded) -> Exception:
        """What is raised where a save has ended the program. It is started again, where that can be done."""
        if ended.last_line not in _SAVE_FAULTS:
            return ended
        with contextlib.suppress(JournalError, ProgramEnded, OSError):
            self._open()
            self._in_doubt = False
        return self._kept.unsavable(self._kept.path, _SAVE_FAULTS[ended.last_line])


def _is_question(line: bytes) -> bool:
    """Whether a line edits nothing, by its first words."""
    words = line.split(None, 2)
    if words and words[0].startswith(b"@"):
        words = words[1:]
    return not words or words[0].decode("ascii", "replace") in QUESTIONS


def _said_file() -> IO[bytes] | None:
    """Where the program says what is no answer. None is where Python says it, if no such file can be had."""
    try:
        return tempfile.TemporaryFile()
    except OSError:
        return None


def _pass_on(said: IO[bytes] | None) -> None:
    """Passes on what a program has said, but for what is told in other words."""
    if said is not None and not said.closed:
        said.seek(0)
        text = said.read().replace(_CUT_SHORT, b"").decode("utf-8", "replace")
        said.close()
        print(text, end="", file=sys.stderr)
