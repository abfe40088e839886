"""The journal of a store's file, as it is read, and the lock of the file.

The program ``sfstore --store FILE`` keeps the journal, and holds the lock while it runs: nothing here
writes a record. docs/use/FORMAT.md of the project says what stands in a journal.
"""

from __future__ import annotations

import contextlib
import fcntl
import hashlib
import os
import re
import time
from collections.abc import Iterable, Iterator
from dataclasses import dataclass
from io import FileIO
from typing import Any

from sfstore import files, oldjournal
from sfstore.results import JournalError

__all__ = [
    "LOCK_SECONDS",
    "JournalError",
    "Records",
    "bytes_of",
    "edits_left",
    "head_of",
    "is_journal",
    "locked",
    "locked_shortly",
    "new_file_of",
    "new_journal_of",
    "other_file",
    "path_of",
    "read_kept",
    "read_records",
    "renew_old",
    "sent",
    "torn_bytes",
]

lzma: Any
try:
    import lzma
except ImportError:
    # Python can be built without it: sums take longer then.
    lzma = None

LOCK_SECONDS = 2.0
"""How long a session waits for the lock: a program that saves may outlive the process that began it."""

_TITLE = b"sfstore-journal 3 "
# How many bytes stand before a text: the digits of its sum and a blank.
_MARK = 17
# What begins so is accepted as a group alone.
_GROUP = re.compile(rb"[ \t]*(?:@[0-9]{1,3}[ \t]+)?together[ \t]")


def _row(bits: int) -> int:
    """What eight bits make of a register that has nothing above them."""
    for _ in range(8):
        bits = bits >> 1 ^ 0xC96C5795D7870F42 * (bits & 1)
    return bits


_ROWS = [_row(bits) for bits in range(256)]
_ONES = 2**64 - 1
# From so many bytes on lzma's sum is the quicker one.
_LARGE = 1 << 12
# Of what xz packs the sum alone is wanted: the less it tries to pack, the better.
_HARDLY = {"preset": 0, "dict_size": 1 << 12, "nice_len": 2, "depth": 1}


@dataclass(frozen=True)
class Records:
    """What stands in a journal's bytes."""

    head: bytes
    """The first line, which names the file that the edits go on from."""
    lines: list[bytes]
    """The texts of the records, each with a line feed. A group is one, with carriage returns between its lines."""


def path_of(store: str) -> str:
    """Where the journal of a store's file is."""
    return store + ".journal"


def new_journal_of(store: str) -> str:
    """Where the program makes a journal that is to take the place of the old one."""
    folder, name = os.path.split(store)
    return os.path.join(folder, f".{name}.sfstore-journal")


def new_file_of(store: str) -> str:
    """Where the program makes a file that is to take the place of the old one."""
    folder, name = os.path.split(store)
    return os.path.join(folder, f".{name}.sfstore-store")


def head_of(store: str) -> bytes:
    """The head of a journal that goes on from a store's file; one that is not there has no bytes."""
    try:
        with open(store, "rb", opener=files.opened) as file:
            digest = files.digest_of(file)
            return _head(os.fstat(file.fileno()).st_size, digest)
    except FileNotFoundError:
        return _head(0, hashlib.sha256().hexdigest())


def bytes_of(path: str) -> bytes | None:
    """The bytes of a journal, or none where it is not there. `OSError` where a link stands in its place."""
    try:
        with open(path, "rb", opener=files.opened_here) as file:
            return file.read()
    except FileNotFoundError:
        return None


def is_journal(data: bytes) -> bool:
    """Whether bytes begin as a journal does that the program reads."""
    return data.startswith(_TITLE) and b"\n" in data


def read_records(data: bytes, path: str) -> Records:
    """Reads a journal; a last record that was not written to its end is none.

    `JournalError` with the place where a whole line of it is not right.
    """
    if not is_journal(data):
        raise JournalError(f"{path}: no journal begins at place 0")
    at = data.index(b"\n") + 1
    head = data[:at]
    lines: list[bytes] = []
    total = _crc(head)
    while (feed := data.find(b"\n", at)) >= 0:
        total = _crc(data[at + _MARK : feed + 1], total)
        if data[at : at + _MARK] != _mark(total):
            raise JournalError(f"{path}: the record at place {at} is damaged")
        lines.append(data[at + _MARK : feed + 1])
        at = feed + 1
    return Records(head, lines)


def read_kept(data: bytes, path: str) -> Records:
    """Reads a journal that a program keeps, which has looked at the sum of each record.

    The sum of the last one is of all texts: the others are looked at where it is wrong. `JournalError` as
    `read_records` has it.
    """
    whole = data[: data.rfind(b"\n") + 1]
    head, *records = _lines(whole) or [b""]
    texts = [record[_MARK:] for record in records]
    if not is_journal(whole) or not texts or records[-1][:_MARK] != _mark(_crc(b"".join([head, *texts]))):
        return read_records(data, path)
    return Records(head, texts)


def sent(record: bytes) -> bytes:
    """The text of a record as the lines that a program is given: of a group its head and its members.

    A record may be longer than a line. The carriage returns of a group part it; another line may have some in a text.
    """
    return record.replace(b"\r", b"\n") if _GROUP.match(record) else record


def torn_bytes(store: str) -> int:
    """How many bytes the journal of a store's file has of a record that was not written to its end."""
    data = bytes_of(path_of(store)) or b""
    return len(data) - data.rfind(b"\n") - 1 if is_journal(data) else 0


def other_file(store: str, path: str) -> JournalError:
    """What is raised where a store's file is another one than its journal goes on from."""
    if not os.path.exists(store):
        return JournalError(
            f"{store} was taken away, from which {path} goes on: bring it "
            "back, or take the journal away too to begin a new store"
        )
    return JournalError(
        f"{store} is not the file that {path} goes on from: it was taken away, or changed "
        "without the journal"
    )


def edits_left(store: str) -> int:
    """How many edits a store's journal has that its file has not. `JournalError` for a damaged one.

    The journal counts that the program would take: the one under its name where it goes on from the
    file, else one beside that does, which a save has left.
    """
    path, data = path_of(store), bytes_of(path_of(store))
    old = _old_records(store)
    if old is not None:
        return 0 if old.are_saved else len(old.edits)
    head = head_of(store)
    if data is None or not data.startswith(head):
        beside = bytes_of(new_journal_of(store))
        if beside is not None and beside.startswith(head):
            path, data = new_journal_of(store), beside
    return 0 if data is None else len(read_records(data, path).lines)


def renew_old(store: str) -> int:
    """Writes a journal of an older version anew as one of today's, where one stands there. It needs the lock.

    Tells how many bytes of an edit are dropped that was not written to its end, nor answered. A crash
    leaves the one or the other. `JournalError` where it is damaged, and where it goes on from another
    file than the one that is there; it is then as it was.
    """
    path = path_of(store)
    old = _old_records(store)
    if old is None:
        return 0
    edits = old.edits_over_file
    if edits is None:
        raise other_file(store, path)
    with files.whole_file(path, store) as new:
        new.write(_journal(head_of(store), edits))
    return len(old.torn)


def _old_records(store: str) -> oldjournal.OldRecords | None:
    """What the journal of a store has, where it is one of an older version. `JournalError` for a damaged one.

    A save of version 2 that was ended has left the one that counts beside.
    """
    path, data = path_of(store), bytes_of(path_of(store))
    if data is None or not oldjournal.is_old(data):
        return None
    if data.startswith(oldjournal.SECOND) and not oldjournal.goes_on(data, store):
        beside = bytes_of(new_journal_of(store))
        if beside is not None and oldjournal.goes_on(beside, store):
            path, data = new_journal_of(store), beside
    return oldjournal.read(data, path, store)


def locked(path: str) -> FileIO:
    """The lock of a store's file, taken until it is closed.

    `JournalError` where another session has it, `OSError` where it can't be made or opened.
    """
    until = time.monotonic() + LOCK_SECONDS
    while True:
        lock = FileIO(path + ".lock", "ab+", opener=files.opened_here)
        try:
            fcntl.flock(lock, fcntl.LOCK_EX | fcntl.LOCK_NB)
            # Another session may have found it taken away, and made the one that counts.
            if files.is_at(lock.fileno(), path + ".lock"):
                _keep_to_writers(lock, path)
                return lock
            lock.close()
        except BlockingIOError:
            lock.close()
            if time.monotonic() > until:
                raise JournalError(f"{path} is open in another session") from None
            time.sleep(0.02)
        except BaseException:
            lock.close()
            raise


@contextlib.contextmanager
def locked_shortly(path: str) -> Iterator[None]:
    """Has the lock for the body. `JournalError` and `OSError` as `locked` has them."""
    with locked(path) as lock:
        try:
            yield
        finally:
            # A process that another thread has forked meanwhile would hold it else, by its copy.
            fcntl.flock(lock, fcntl.LOCK_UN)


def _head(size: int, digest: str) -> bytes:
    return _TITLE + b"%d %s\n" % (size, digest.encode("ascii"))


def _lines(data: bytes) -> list[bytes]:
    """The lines of some bytes, each with its line feed; what stands behind the last one is none."""
    return [line + b"\n" for line in data.split(b"\n")[:-1]]


def _crc(data: bytes, known: int = 0) -> int:
    """The CRC-64 of bytes that follow others, whose CRC-64 is known (CRC-64/XZ)."""
    if lzma is not None and not known and len(data) >= _LARGE:
        return _crc_of_xz(data)
    register, rows = known ^ _ONES, _ROWS
    for byte in data:
        register = rows[register & 255 ^ byte] ^ register >> 8
    return register ^ _ONES


def _crc_of_xz(data: bytes) -> int:
    """The CRC-64 of some bytes, which xz writes behind them: its own sum is this one, and no byte of it is Python's."""
    packed = lzma.compress(data, check=lzma.CHECK_CRC64, filters=[{"id": lzma.FILTER_LZMA2, **_HARDLY}])
    # The sum stands before the index, whose size in fours, less one, stands in the last 12 bytes.
    at = len(packed) - 12 - 4 * (1 + int.from_bytes(packed[-8:-4], "little"))
    return int.from_bytes(packed[at - 8 : at], "little")


def _mark(total: int) -> bytes:
    """What stands before a text of this sum."""
    return b"%016x " % total


def _journal(head: bytes, lines: Iterable[bytes]) -> bytes:
    """A journal of these lines, each with its line feed."""
    written = bytearray(head)
    total = _crc(head)
    for line in lines:
        # The program drops a carriage return right before the line feed.
        text = line[:-1].removesuffix(b"\r") + b"\n"
        total = _crc(text, total)
        written += _mark(total) + text
    return bytes(written)


def _keep_to_writers(lock: FileIO, path: str) -> None:
    """Has only those open the lock who may write the store's file: others could keep all out."""
    with contextlib.suppress(PermissionError):
        try:
            found = os.stat(path)
        except FileNotFoundError:
            os.fchmod(lock.fileno(), 0o600)
            return
        writers = found.st_mode & 0o222
        files.give(lock.fileno(), found, 0o600 | writers | writers << 1)
