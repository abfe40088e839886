"""Which lines of a journal belong together, recorded beside it: so a crash leaves all of a batch, or nothing.

A batch of edits of features needs none of this: it is a group, and one record of the journal. An entry is on the disk
before the first line of its batch is sent. The next opening finds by it what a crash has left of a batch that was not
carried out to its end, and which steps are one.

No entry of a batch that was not carried out stays: lines that somebody sends later could be taken for its own. Where the
server is killed before it can take an entry away, somebody may send its first line to the program alone. So the lines of a
batch end in blanks that are its mark: nobody else sends them, and their records are no others.
"""

from __future__ import annotations

import contextlib
import json
import os
import re
import secrets
from collections.abc import Sequence
from typing import NamedTuple

from sfstore import files, journal
from sfstore.web.changes import LAST

__all__ = ["BatchLog", "Entry", "Found", "new_mark"]

# How many blanks a mark has.
_LEAST_BLANKS, _MOST_BLANKS = 8, 63


class Entry(NamedTuple):
    """A batch that was begun."""

    head: str
    """The first line of the journal, which names the file that the edits go on from."""
    at: int
    """How many lines the journal had before."""
    editor: int
    lines: list[str]
    """Its lines, in the order in which they were sent."""


class Found(NamedTuple):
    """What a journal has of batches."""

    groups: list[range]
    """The places of lines that are one step."""
    left: int
    """How many steps are left of a batch, or of its undo or redo, that was not carried out to its end."""
    editor: int
    """Whose they are."""
    back: str = "undo"
    """What takes them back."""
    is_move: bool = False
    """Whether they are of an undo or a redo: a batch that was answered is whole again without them."""


def new_mark() -> str:
    """What the lines of a batch end in, and those of nobody else. To the program such blanks say nothing."""
    return " " * (_LEAST_BLANKS + secrets.randbelow(_MOST_BLANKS - _LEAST_BLANKS + 1))


class BatchLog:
    """The batches of a store's journal, in a file beside it, whose name ends in `.batches`."""

    def __init__(self, store: str) -> None:
        self._store = os.path.realpath(store)
        self._path = self._store + ".batches"
        # How long the file was before the entry of a batch of which it is not known yet that it was carried out.
        self._before: int | None = None

    def begin(self, at: int, editor: int, lines: Sequence[str]) -> None:
        """Records a batch, or the steps that undo or redo one, that is sent next. `OSError` where that can't be done."""
        self.give_up()
        entry = Entry(self.head(), at, editor, [line.removesuffix("\r") for line in lines])
        file = files.opened_here(self._path, os.O_WRONLY | os.O_APPEND | os.O_CREAT)
        try:
            self._before = os.fstat(file).st_size
            with contextlib.suppress(FileNotFoundError):
                found = os.stat(self._store)
                files.give(file, found, found.st_mode & 0o777)
            _write(file, json.dumps(entry).encode() + b"\n")
            os.fsync(file)
            if not self._before:
                files.sync(os.path.dirname(self._path))
        finally:
            os.close(file)

    def end(self) -> None:
        """Notes that the batch was carried out which was begun last."""
        self._before = None

    def give_up(self) -> None:
        """Removes the entry of a batch that was begun, and has not ended. `OSError` where that can't be done.

        No edit may be answered before. It takes no room on the disk.
        """
        if self._before is not None:
            with contextlib.suppress(FileNotFoundError):
                self._cut(self._before)
            self._before = None

    def keep_whole(self, records: Sequence[str]) -> None:
        """Removes the entries of all batches that the journal has not whole, whatever was taken back of them."""
        self._before = None
        with contextlib.suppress(FileNotFoundError):
            lines, head = self._lines(), self.head()
            kept = [line for line in lines if _is_kept(_entry(line), head, records)]
            if kept == lines[: len(kept)]:
                self._cut(sum(map(len, kept)))
            else:
                with files.whole_file(self._path) as new:
                    new.writelines(kept)

    def found(self, records: Sequence[str]) -> Found:
        """What the lines of the journal have of the batches that were recorded."""
        groups: list[range] = []
        found = Found(groups, 0, 0)
        for entry in self._entries():
            if not _is_whole(entry, records):
                found = Found(groups, _left(entry, records), entry.editor, _back(entry), _is_move(entry))
            elif not _is_move(entry):
                groups.append(range(entry.at, entry.at + len(entry.lines)))
        return found

    def forget(self) -> None:
        """Begins anew: another file has the edits."""
        self._before = None
        with contextlib.suppress(FileNotFoundError):
            os.unlink(self._path)

    def _entries(self) -> list[Entry]:
        """The batches of this journal."""
        try:
            lines = self._lines()
        except FileNotFoundError:
            return []
        head = self.head()
        return [entry for entry in map(_entry, lines) if entry is not None and entry.head == head]

    def _lines(self) -> list[bytes]:
        """The lines of the file. A batch whose line was not written to its end was not begun."""
        with open(self._path, "rb", opener=files.opened_here) as file:
            data = file.read()
        return data[: data.rfind(b"\n") + 1].splitlines(keepends=True)

    def _cut(self, size: int) -> None:
        """Cuts the file off behind some bytes, on the disk too."""
        file = files.opened_here(self._path, os.O_WRONLY)
        try:
            if os.fstat(file).st_size > size:
                os.ftruncate(file, size)
                os.fsync(file)
        finally:
            os.close(file)

    def head(self) -> str:
        """The first line of the journal, empty where there is none."""
        try:
            with open(journal.path_of(self._store), "rb", opener=files.opened_here) as file:
                return file.readline().decode("ascii", "replace")
        except FileNotFoundError:
            return ""


def _entry(line: bytes) -> Entry | None:
    """The entry of a line, or none: such a file may be anybody's."""
    try:
        head, at, editor, lines = json.loads(line)
    except (RecursionError, TypeError, ValueError):
        return None
    are_right = isinstance(head, str) and type(at) is int and at >= 0 and type(editor) is int
    if not are_right or not isinstance(lines, list) or not all(isinstance(each, str) for each in lines):
        return None
    return Entry(head, at, editor, lines)


def _is_kept(entry: Entry | None, head: str, records: Sequence[str]) -> bool:
    return entry is not None and entry.head == head and _is_whole(entry, records)


def _is_whole(entry: Entry, records: Sequence[str]) -> bool:
    """Whether all of its lines stand where they have to, one behind the other."""
    found = records[entry.at : entry.at + len(entry.lines)]
    return len(found) == len(entry.lines) and all(
        _is_of(record, entry.editor, line) for record, line in zip(found, entry.lines)
    )


def _left(entry: Entry, records: Sequence[str]) -> int:
    """How many steps are left of its lines, where the journal ends in the middle of them or of their undoing."""
    place = entry.at
    for line in entry.lines:
        # One that is not there was refused.
        if place < len(records) and _is_of(records[place], entry.editor, line):
            place += 1
    undone, back = len(records) - place, _back(entry)
    if undone < 0 or not all(_is_of(records[at], entry.editor, back) for at in range(place, len(records))):
        return 0
    return max(0, place - entry.at - undone)


def _is_move(entry: Entry) -> bool:
    """Whether an entry is of an undo or a redo of a batch, and not of a batch."""
    return entry.lines[:1] != [] and entry.lines[0].strip() in ("undo", "redo")


def _back(entry: Entry) -> str:
    """The line that takes back a line of an entry."""
    return "redo" if _is_move(entry) and entry.lines[0].strip() == "undo" else "undo"


def _is_of(record: str, editor: int, line: str) -> bool:
    """Whether a record is a line of an editor, whatever identifier ``last`` stands for."""
    front = f"@{editor} " if editor else ""
    late = LAST.match(line)
    if late is None:
        return record == front + line
    rest = line[late.end() :]
    found = record[len(front) + len(late[1]) : len(record) - len(rest)]
    return record == f"{front}{late[1]}{found}{rest}" and re.fullmatch("[0-9]+", found) is not None


def _write(file: int, data: bytes) -> None:
    rest = memoryview(data)
    while rest:
        rest = rest[os.write(file, rest) :]
