"""Which store is open: the server gives it a number, and a later server says whether it still is that store.

    known = Known()
    known.take(client.call("map", **known.named))      # True: nothing is known yet
    ..                                                 # the server ends, and another one begins
    known.take(client.call("map", **known.named))      # whether its store goes on from what was known

A number is drawn by lot and never comes again, so it says one thing alone: this server has had this store open since. What
outlives a server is a point, which is a place in the journal: the file that the edits go on from, how far they had come, and
the sum of all of them up to there. A store goes on from a point if its journal has these edits, and any others behind them. A
backup from before the point does not, and neither does a copy that was edited otherwise.
"""

from __future__ import annotations

import hashlib
import os
import re
import secrets
from typing import Any, BinaryIO, NamedTuple

from sfstore import files, journal

__all__ = ["At", "Known", "Lineage", "goes_on", "point_of"]

# A page counts exactly up to 2**53.
_NUMBERS = 2**52
# The place in bytes, the sum of the last record, and so many digits of the SHA-256 of the journal's head.
_POINT = re.compile("([0-9]{1,18}) [0-9a-f]{0,16} [0-9a-f]{32}")
_HEAD_DIGITS = 32
_SUM_DIGITS = 16
_READ_BYTES = 1 << 16


class At(NamedTuple):
    """Which store is open, and how far it has come."""

    store: int
    """Another number whenever another store is open than before. No two are the same, not even those of two servers."""
    point: str
    """Empty where the journal of the store can't be read."""


class Lineage:
    """The store of a file as a server has it open, by number and point.

    One thread notes openings and edits; any may ask for the number and the point.
    """

    def __init__(self, store: str) -> None:
        self._store = os.path.realpath(store)
        self.at = At(0, "")
        """Both, as they were at one moment."""

    @property
    def number(self) -> int:
        """The number of the store that is open."""
        return self.at.store

    @property
    def point(self) -> str:
        """How far it has come."""
        return self.at.point

    def opened(self) -> None:
        """Notes that the store was opened. It is another one where it does not go on from what was known."""
        number = self.number if self.goes_on(self.point) else 1 + secrets.randbelow(_NUMBERS)
        self.at = At(number, point_of(self._store))

    def moved(self) -> None:
        """Notes how far the store has come, behind edits or a save of this server."""
        self.at = self.at._replace(point=point_of(self._store))

    def goes_on(self, point: str) -> bool:
        """Whether the store has all that it had at a point, as `goes_on` says it."""
        return goes_on(self._store, point)

    def kept_words(self) -> str:
        """Whether the journal has all edits that were answered, in a sentence: it is looked at."""
        if self.goes_on(self.point):
            return "Every edit that was answered is in the journal."
        return "Look at the last edits: the journal is not as it was behind them, or can't be read."


class Known:
    """What a program knows of a store on which it works, whichever servers of it come and go."""

    def __init__(self) -> None:
        self._numbers: set[int] = set()
        self._newest = 0
        self._point = ""

    @property
    def named(self) -> dict[str, Any]:
        """What a call of ``map`` says, so that its answer says whether the store is still the one that is known."""
        return {"known": self._point}

    def take(self, told: dict[str, Any]) -> bool:
        """Takes what ``map`` says. Whether that is the store that is known, or none was; else it is the known one from now on."""
        is_same = not self._numbers or self.is_same(told["store"]) or told["goes_on"] is True
        if not is_same:
            self._numbers.clear()
        self._newest = told["store"]
        self._numbers.add(self._newest)
        self.hear(told)
        return is_same

    def hear(self, told: dict[str, Any]) -> None:
        """Takes how far the store has come, where an event or an answer of it says so. One of another number says nothing of it."""
        if "point" in told and told["store"] == self._newest:
            self._point = told["point"]

    def is_same(self, number: int) -> bool:
        """Whether a number is one that a server has given to the store that is known."""
        return number in self._numbers


def point_of(store: str) -> str:
    """How far the store of a file has come, by its journal; empty where that can't be read.

    It is the store of whoever has it open: nobody else writes it meanwhile.
    """
    try:
        with _opened(store) as file:
            return _point_at(file, os.fstat(file.fileno()).st_size)
    except OSError:
        return ""


def goes_on(store: str, point: str) -> bool:
    """Whether a store has all that it had at a point, with the same history, and perhaps more. False for a text that is no point."""
    found = _POINT.fullmatch(point)
    if found is None:
        return False
    try:
        with _opened(store) as file:
            return _point_at(file, int(found[1])) == point
    except OSError:
        return False


def _opened(store: str) -> BinaryIO:
    return open(journal.path_of(store), "rb", opener=files.opened_here)


def _point_at(file: BinaryIO, place: int) -> str:
    """The point at a place of a journal; empty where no record ends there."""
    head = file.readline()
    size = os.fstat(file.fileno()).st_size
    if not journal.is_journal(head) or not len(head) <= place <= size or os.pread(file.fileno(), 1, place - 1) != b"\n":
        return ""
    digits = os.pread(file.fileno(), _SUM_DIGITS, _begin_of(file, place)) if place > len(head) else b""
    return f"{place} {digits.decode('ascii', 'replace')} {hashlib.sha256(head).hexdigest()[:_HEAD_DIGITS]}"


def _begin_of(file: BinaryIO, end: int) -> int:
    """Where the line begins that ends before a place. Nobody knows how long it is: a group may be large."""
    at = end - 1
    while at > 0:
        begin = max(0, at - _READ_BYTES)
        feed = os.pread(file.fileno(), at - begin, begin).rfind(b"\n")
        if feed >= 0:
            return begin + feed + 1
        at = begin
    return 0
