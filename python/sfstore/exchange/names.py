"""Names of a source as names of the store."""

from __future__ import annotations

import re
import unicodedata
from collections.abc import Iterable

from sfstore.language import NAME

__all__ = ["FreeNames", "Names", "kept_name"]

_LENGTH = 32


class Names:
    """The names that are given of one kind, such as those of a layer's columns."""

    def __init__(self, taken: Iterable[str] = ()) -> None:
        self._taken = set(taken)
        # The least number that may be free behind a name. Without it, alike names would cost the square of their count.
        self._next: dict[str, int] = {}

    def new(self, name: str) -> str:
        """The name that the store can have, of a layer or column, other than those that are taken; it is taken then.

        >>> Names().new("Flurstücke"), Names({"x7"}).new("7")
        ('Flurstucke', 'x7_2')
        """
        plain = _plain(name)
        found, number = plain, self._next.get(plain, 2)
        while found in self._taken:
            tail = f"_{number}"
            found, number = plain[: _LENGTH - len(tail)] + tail, number + 1
        self._next[plain] = number
        self._taken.add(found)
        return found


class FreeNames:
    """The names that are given of one kind in a format of maps, each other than those before."""

    def __init__(self, is_folded: bool, longest: int = 0, taken: Iterable[str] = ()) -> None:
        """``longest`` is the most bytes that a name has, 0 where that has no end.

        Where it is folded names are told apart without regard to case.
        """
        self._is_folded = is_folded
        self._longest = longest
        self._taken = set(map(self._key, taken))
        # As `Names` has it: of names that begin alike.
        self._next: dict[str, int] = {}

    def new(self, wanted: str) -> str:
        """A name like the wanted one, and other than those that are taken; it is taken then.

        >>> names = FreeNames(is_folded=True, longest=10)
        >>> names.new("population_1990"), names.new("Population_2000")
        ('population', 'Populati_2')
        """
        front = self._key(_cut(wanted, self._longest))
        number = self._next.get(front, 1)
        while True:
            name = self._numbered(wanted, number)
            number += 1
            if name and self._key(name) not in self._taken:
                break
        self._next[front] = number
        self._taken.add(self._key(name))
        return name

    def _numbered(self, wanted: str, number: int) -> str:
        tail = "" if number == 1 else f"_{number}"
        return _cut(wanted, self._longest - len(tail) if self._longest else 0) + tail

    def _key(self, name: str) -> str:
        return name.casefold() if self._is_folded else name


def _cut(name: str, longest: int) -> str:
    """The most letters that have no more bytes than are given, where any number is."""
    return name.encode("utf-8", "replace")[: longest or None].decode("utf-8", "ignore")


def _plain(name: str) -> str:
    """A name of the store like another one."""
    if NAME.fullmatch(name):
        return name
    plain = unicodedata.normalize("NFKD", name)
    plain = "".join(letter for letter in plain if not unicodedata.combining(letter))
    plain = re.sub(r"[^A-Za-z0-9_]", "_", plain)
    if not plain[:1].isalpha():
        plain = "x" + plain
    return plain[:_LENGTH]


def kept_name(name: str, otherwise: str) -> str:
    """A name of the source, or another one where it is not UTF-8."""
    try:
        name.encode("utf-8")
    except UnicodeError:
        return otherwise
    return name
