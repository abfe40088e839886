"""Journals of the versions before today's. They are read once: `sfstore.journal.renew_old` writes them anew.

Version 1 was written by the module itself, before the program kept one. The head is ``sfstore-journal 1
DIGEST``, where ``DIGEST`` is the SHA-256 of the file that the edits begin from, or ``new`` where there
is none. A record is eight hexadecimal digits, a blank, the line as the program took it, and a line feed.
The digits are the CRC-32 of all lines up to it: the head, then the lines of the records, each with its
line feed. A line ``#saved DIGEST``, which is no command, says that the edits before it are in a file of
that digest, which was about to take the file's place.

Version 2 was written by the program. It is as today's but for the head's ``2`` and for the digits
before a text: the first 8 bytes of the SHA-256 of the sum before it, 32 bytes, and of the text. The sum
before the first record is the SHA-256 of the head.

No program that wrote these versions knew of groups: each record is one line.
"""

from __future__ import annotations

import hashlib
import os
import zlib
from dataclasses import dataclass

from sfstore import files
from sfstore.results import JournalError

__all__ = ["SECOND", "OldRecords", "goes_on", "is_old", "read"]

_FIRST = b"sfstore-journal 1 "
SECOND = b"sfstore-journal 2 "
"""How a journal of version 2 begins."""
_NEW = "new"


@dataclass(frozen=True)
class OldRecords:
    """What stands in a journal of an older version, and how it lies to the store's file that is there."""

    edits: list[bytes]
    """The lines of the edits, each with its line feed."""
    torn: bytes
    """What stands behind the last line feed: a record that was not written to its end."""
    goes_on: bool
    """Whether it goes on from the file that is there."""
    are_saved: bool
    """Whether the file that is there was about to have all edits."""
    can_go: bool
    """Whether nothing is lost without it, though it goes on from another file."""

    @property
    def edits_over_file(self) -> list[bytes] | None:
        """The edits that the file that is there has not.

        None where it is another one than the journal goes on from, and edits could be lost.
        """
        if self.goes_on:
            return self.edits
        if self.are_saved and not self.torn:
            return []
        return [] if self.can_go else None


def is_old(data: bytes) -> bool:
    """Whether bytes begin as a journal of an older version does, with its whole head."""
    return data.startswith((_FIRST, SECOND)) and b"\n" in data


def goes_on(data: bytes, store: str) -> bool:
    """Whether bytes begin with the head of version 2 that names a store's file; one that is not there has no bytes."""
    try:
        with open(store, "rb", opener=files.opened) as file:
            digest = files.digest_of(file)
            size = os.fstat(file.fileno()).st_size
    except FileNotFoundError:
        size, digest = 0, hashlib.sha256().hexdigest()
    return data.startswith(SECOND + b"%d %s\n" % (size, digest.encode("ascii")))


def read(data: bytes, path: str, store: str) -> OldRecords:
    """Reads a journal. `JournalError` with the place where a whole line of it is not right."""
    return _first(data, path, store) if data.startswith(_FIRST) else _second(data, path, store)


def _first(data: bytes, path: str, store: str) -> OldRecords:
    """Reads a journal of version 1."""
    end = data.index(b"\n") + 1
    lines: list[bytes] = []
    chain, at = zlib.crc32(data[:end]), end
    while (feed := data.find(b"\n", at)) >= 0:
        line = data[at + 9 : feed + 1]
        chain = zlib.crc32(line, chain)
        if data[at : at + 9] != b"%08x " % chain:
            raise _damaged(path, at)
        lines.append(line)
        at = feed + 1
    found = _base_of(store)
    edits = [line for line in lines if not line.startswith(b"#")]
    return OldRecords(
        edits,
        data[at:],
        goes_on=data[len(_FIRST) : end - 1].decode("ascii", "replace") == found,
        are_saved=lines[-1:] == [b"#saved %s\n" % found.encode("ascii")],
        can_go=not edits and found != _NEW,
    )


def _second(data: bytes, path: str, store: str) -> OldRecords:
    """Reads a journal of version 2."""
    end = data.index(b"\n") + 1
    edits: list[bytes] = []
    total, at = hashlib.sha256(data[:end]).digest(), end
    while (feed := data.find(b"\n", at)) >= 0:
        total = hashlib.sha256(total + data[at + 17 : feed]).digest()
        if data[at : at + 17] != total[:8].hex().encode("ascii") + b" ":
            raise _damaged(path, at)
        edits.append(data[at + 17 : feed + 1])
        at = feed + 1
    return OldRecords(edits, data[at:], goes_on=goes_on(data, store), are_saved=False, can_go=len(data) == end)


def _base_of(store: str) -> str:
    """The digest of a store's file, or ``new`` where there is none."""
    try:
        return files.digest(store)
    except FileNotFoundError:
        return _NEW


def _damaged(path: str, place: int) -> JournalError:
    return JournalError(f"{path}: the record at place {place} is damaged")
