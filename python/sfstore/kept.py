"""The file of a store that a program keeps, and its journal, as they are seen beside the program."""

from __future__ import annotations

import contextlib
import errno
import os
import subprocess  # nosec B404: the store's own program is started, without a shell.
import tempfile
from collections.abc import Callable, Iterator
from pathlib import Path
from typing import IO, BinaryIO, NamedTuple

from sfstore import files, journal, sidecar
from sfstore.program import checked_path
from sfstore.results import JournalError
from sfstore.storefile import is_store

__all__ = ["Kept", "OpenFile"]


class OpenFile(NamedTuple):
    """The file of a store, open to be read by somebody else, as it was when the store's program had read it."""

    file: BinaryIO
    size: int
    written: int
    """When it was written last, in nanoseconds."""

    def is_as_seen(self) -> bool:
        """Whether nobody has written to the file since, be another one put in its place or not."""
        found = os.fstat(self.file.fileno())
        return (found.st_size, found.st_mtime_ns) == (self.size, self.written)


class Kept:
    """The file of a store that a program keeps, and its journal, as they are seen beside the program.

    Other programs may write the file at any time. It is the right one while it is the one that was
    seen last, or has the bytes that the head of the journal names.
    """

    path: str
    """The store's file, links followed."""
    journal: str
    """The path of its journal."""
    unsaved: int
    """How many edits the file does not have."""

    def __init__(self, path: str) -> None:
        self.path = checked_path(os.path.realpath(path))
        self.journal = journal.path_of(self.path)
        self.unsaved = 0
        self._seen: tuple[int, ...] = ()
        self._head = b""

    def prepare(self) -> int:
        """Does what the program leaves to this module, while no session has the store.

        Tells how many bytes the journal has of an edit that was not written to its end: they will be
        dropped. `JournalError` and `OSError` as `journal.locked` and `journal.renew_old` have them, and `OSError` where a
        pipe stands in the place of the file, or the path is that of a file which is kept beside another store.
        """
        if Path(self.path).is_fifo():
            # The program would wait for it, with the lock.
            raise OSError(errno.EINVAL, "it is no file", self.path)
        sidecar.check_no_own_file(self.path)
        with journal.locked_shortly(self.path):
            for path in (self.path, self.journal, sidecar.path_of(self.path)):
                files.remove_leftovers(path)
            # What a save that has failed has left of a new file takes room that the journal may need.
            with contextlib.suppress(OSError):
                os.unlink(journal.new_file_of(self.path))
            torn = journal.renew_old(self.path)
            self._seen = _state(self.path)
            return torn + journal.torn_bytes(self.path)

    def opened(self) -> None:
        """Notes what the program has loaded, and replayed. `JournalError` where the file is another one now."""
        data = journal.bytes_of(self.journal) or b""
        self._head = data[: data.find(b"\n") + 1]
        self.unsaved = max(data.count(b"\n") - 1, 0)
        self.check()

    def saved(self) -> None:
        """Notes what the program has saved."""
        self._seen = _state(self.path)
        data = journal.bytes_of(self.journal) or b""
        self._head = data[: data.find(b"\n") + 1]
        self.unsaved = 0

    @property
    def is_saved(self) -> bool:
        """Whether the file is there, and has all edits."""
        return not self.unsaved and os.path.exists(self.path)

    @property
    def digest(self) -> str:
        """The SHA-256 of the file that the edits go on from."""
        return self._head.rstrip(b"\n").rpartition(b" ")[2].decode("ascii", "replace")

    def check(self) -> None:
        """`JournalError` where the store's file is another one than the edits go on from."""
        now = _state(self.path)
        if now != self._seen:
            # A file with other rights, or put back, is the same one.
            if journal.head_of(self.path) != self._head:
                raise self._changed()
            self._seen = now

    def lines(self) -> list[bytes]:
        """The edits that the file does not have, each as the text of its record, with its line feed.

        `JournalError` where the file is another one than they go on from, and where the journal is
        not the one that the program keeps.
        """
        return self.reading()()

    def reading(self) -> Callable[[], list[bytes]]:
        """What reads the edits that there are now, as `lines` has them, whatever comes behind them.

        It takes its time, and any thread may call it. After a save it raises `JournalError`: they are in the file then.
        """
        self.check()
        head, count = self._head, self.unsaved
        size = os.stat(self.journal).st_size if os.path.exists(self.journal) else 0

        def read() -> list[bytes]:
            records = journal.read_kept((journal.bytes_of(self.journal) or b"")[:size], self.journal)
            if records.head != head or len(records.lines) != count:
                raise JournalError(f"{self.journal} was changed by another program while {self.path} was open")
            return records.lines

        return read

    def open_file(self) -> OpenFile | None:
        """The file that the edits go on from, open; none where a store is new. `JournalError` where another one is there."""
        self.check()
        if not self._seen:
            return None
        file = open(self.path, "rb", opener=files.opened)
        if _state(file.fileno()) != self._seen:
            file.close()
            raise self._changed()
        _, _, size, written, _ = self._seen
        return OpenFile(file, size, written)

    def copy(self, path: str, program: str) -> None:
        """Has a second program make another file of the store's file and the edits.

        It takes the place of a store that is there. `JournalError` where it can't be made, and where the path is one of
        the own files of this store or another one, or of a file that is no store. The same where another session has the store there, or its
        journal has edits. What is there is then as it was.
        """
        target = os.path.realpath(path)
        if any(_is_same(target, own) for own in self._own_files()):
            raise JournalError(f"{path} is one of the files of {self.path}: no copy takes its place")
        other = sidecar.store_beside(target)
        if other is not None:
            raise JournalError(f"{path} is one of the files of {other}: no copy takes its place")
        try:
            with _given_way(target), files.whole_file(target, None if os.path.exists(target) else self.path) as made:
                self._have_made(made, path, program)
        except OSError as error:
            raise self.unsavable(path, str(error.strerror)) from error

    def next_digest(self, program: str) -> str:
        """The SHA-256 of the file that a save would make now, by a second program. `JournalError` as for `copy`."""
        try:
            # It has no name, so that nothing is left of it.
            with tempfile.TemporaryFile(dir=os.path.dirname(self.path)) as made:
                self._have_made(made, self.path, program)
                return files.digest_of(made)
        except OSError as error:
            raise self.unsavable(self.path, str(error.strerror)) from error

    def unsavable(self, path: str, reason: str) -> JournalError:
        """What is raised where a file can't be saved to a path."""
        return JournalError(f"{path} could not be saved: {reason}; all edits are in {self.journal}")

    def _have_made(self, made: IO[bytes], wanted: str, program: str) -> None:
        """Has a second program save the store's file with the edits to an open file."""
        lines = self.lines()
        with self._loading() as loaded:
            handed = [file.fileno() for file in (made, *loaded)]
            # By these names the open files themselves are meant.
            words = [f"--{option}=/dev/fd/{number}" for option, number in zip(("save", "load"), handed)]
            ended = subprocess.run(  # nosec B603: a list of words, of which one is a path.
                [program, *words],
                input=b"".join(map(journal.sent, lines)),
                stdout=subprocess.PIPE,
                pass_fds=handed,
                start_new_session=True,
            )
        self.check()
        if ended.returncode or b"refused" in ended.stdout:
            last = ended.stdout.rstrip(b"\n").rpartition(b"\n")[2].decode("utf-8", "replace")
            raise self.unsavable(wanted, last or f"status {ended.returncode}")

    @contextlib.contextmanager
    def _loading(self) -> Iterator[list[IO[bytes]]]:
        """The file that the edits go on from, open, so that no other one is loaded; none where a store is new.

        `JournalError` before and behind the body where it has other bytes.
        """
        if not self._seen:
            yield []
            return
        with open(self.path, "rb") as file:
            self._check_digest(file)
            yield [file]
            self._check_digest(file)

    def _check_digest(self, file: IO[bytes]) -> None:
        if files.digest_of(file) != self.digest:
            raise self._changed()

    def _changed(self) -> JournalError:
        return JournalError(
            f"{self.path} was changed or taken away by another program while it was open: nothing "
            f"is saved over it; all edits since it was saved are in {self.journal}"
        )

    def _own_files(self) -> Iterator[str]:
        """The paths of all files of the store."""
        yield self.path
        yield from sidecar.beside(self.path)
        yield from (journal.new_file_of(self.path), journal.new_journal_of(self.path))


@contextlib.contextmanager
def _given_way(target: str) -> Iterator[None]:
    """Has a store's file give way to a copy in the body, while no session has it. `JournalError` where more than the file would be lost."""
    if not any(map(os.path.lexists, (target, journal.path_of(target), target + ".lock"))):
        # No lock is left where a copy is made for the first time.
        yield
        return
    if os.path.exists(target) and not (os.path.isfile(target) and is_store(target)):
        raise JournalError(f"{target} is no store: no copy takes its place")
    with journal.locked_shortly(target):
        edits = journal.edits_left(target)
        if edits:
            raise JournalError(f"{target} has {edits} edits in its journal that are not saved: no copy takes its place")
        yield


def _state(path: str | int) -> tuple[int, ...]:
    """What, of a path or an open file, is another one after any writing to a file, or putting another one in its place. Empty where none is there."""
    try:
        found = os.stat(path)
    except FileNotFoundError:
        return ()
    return found.st_dev, found.st_ino, found.st_size, found.st_mtime_ns, found.st_ctime_ns


def _is_same(path: str, other: str) -> bool:
    """Whether two paths name one file, be it there or not."""
    try:
        return os.path.samefile(path, other)
    except FileNotFoundError:
        return path == other
