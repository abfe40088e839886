"""What OGR does not say of a FlatGeobuf: values that it changes, or leaves out.

It makes doubles of whole numbers of 64 bits without a sign, and cuts texts off at a zero byte. It cuts moments off behind the
milliseconds, passes over zones that are no quarters of an hour, and leaves out what it does not know as a moment. The format
is https://flatgeobuf.org: a head, an index, and then the features, each a table of https://flatbuffers.dev behind its size.
"""

from __future__ import annotations

import re
import struct
from collections.abc import Callable, Iterator
from typing import NamedTuple

from sfstore.exchange.moments import day_of, moment_of
from sfstore.exchange.vsi import VsiFile

__all__ = ["Odd", "odd_values"]

_MAGIC, _VERSION = b"fgb", 3
_LONGEST = 1 << 28
# The types of columns by their numbers: how many bytes a value has, or that it says so itself.
_SIZES = {0: 1, 1: 1, 2: 1, 3: 2, 4: 2, 5: 4, 6: 4, 7: 8, 8: 8, 9: 4, 10: 8}
_UNSIGNED, _TEXT, _JSON, _MOMENT = 8, 11, 12, 13
# The places of fields in tables.
_COLUMNS, _COUNT, _NODE = 7, 8, 9
_TYPE, _PROPERTIES = 1, 1
# How many bytes a node of the index has.
_NODE_BYTES = 40
# A moment with more digits than OGR reads: those behind the sixth have to be zeros.
_FINE = re.compile(r"(.*:[0-9]{2}\.[0-9]{6})([0-9]+)(.*)")


class Odd(NamedTuple):
    """A value that OGR changes."""

    feature: int
    column: int
    """Its place among the columns."""
    shown: str
    value: str | None
    """What it is; none where it is no value of the column's type."""


def odd_values(path: str) -> Iterator[Odd]:
    """The values of a file that OGR changes, in the order of its features. It ends where the file is no FlatGeobuf."""
    with VsiFile(path) as file:
        try:
            yield from _odd_values(file)
        except (IndexError, struct.error, UnicodeError):
            # OGR says what is wrong with it.
            return


def _odd_values(file: VsiFile) -> Iterator[Odd]:
    magic = file.read(8)
    if magic[:3] != _MAGIC or magic[3] != _VERSION:
        return
    head = _Table.root(_sized(file))
    kinds = [column.byte(_TYPE) for column in head.tables(_COLUMNS)]
    looks = {place: _LOOKS[kind] for place, kind in enumerate(kinds) if kind in _LOOKS}
    if not looks:
        return
    file.skip(_index_bytes(head.number(_COUNT, "<Q", 0), head.number(_NODE, "<H", 16)))
    feature = 0
    while data := _sized(file):
        for place, value in _values(_Table.root(data).bytes(_PROPERTIES), kinds):
            odd = looks[place](value) if place in looks else None
            if odd is not None:
                yield Odd(feature, place, *odd)
        feature += 1


def _sized(file: VsiFile) -> bytes:
    """Some bytes behind their number; none at the end of the file."""
    size = file.read(4)
    if len(size) < 4:
        return b""
    (count,) = struct.unpack("<I", size)
    data = file.read(count) if count <= _LONGEST else b""
    return data if len(data) == count else b""


def _index_bytes(features: int, node: int) -> int:
    """How many bytes the index has: a tree whose nodes have so many below them."""
    if not features or not node:
        return 0
    count = total = features
    while count > 1:
        count = -(-count // max(node, 2))
        total += count
    return _NODE_BYTES * max(total, 2)


def _values(properties: bytes, kinds: list[int]) -> Iterator[tuple[int, bytes]]:
    """The values of a feature, each with the place of its column."""
    at = 0
    while at < len(properties):
        (place,) = struct.unpack_from("<H", properties, at)
        size, at = _SIZES.get(kinds[place]), at + 2
        if size is None:
            (size,) = struct.unpack_from("<I", properties, at)
            at += 4
        yield place, properties[at : at + size]
        at += size


def _odd_whole(value: bytes) -> tuple[str, str] | None:
    (number,) = struct.unpack("<Q", value)
    return None if int(float(number)) == number else (str(number), str(number))


def _odd_moment(value: bytes) -> tuple[str, str | None] | None:
    """A moment that has not the form in which OGR keeps all of it."""
    text = value.decode("utf-8")
    if day_of(text):
        # OGR takes the midnight with which it begins.
        return None
    fine = _FINE.fullmatch(text)
    whole = fine[1] + fine[3] if fine else text
    moment = moment_of(whole)
    if moment is None:
        return repr(text), None
    if fine and fine[2].strip("0"):
        return repr(text), text
    is_read = moment.is_in_milliseconds and moment.ogr_zone is not None and whole[10] == "T"
    return None if is_read else (repr(text), whole)


def _odd_text(value: bytes) -> tuple[str, None] | None:
    """A text that OGR cuts off."""
    return (repr(value.decode("utf-8", "replace")), None) if b"\0" in value else None


_LOOKS: dict[int, Callable[[bytes], tuple[str, str | None] | None]] = {
    _UNSIGNED: _odd_whole,
    _TEXT: _odd_text,
    _JSON: _odd_text,
    _MOMENT: _odd_moment,
}
"""What looks at the values of a type of columns: an odd one is shown, with its text where it is one of the type."""


class _Table:
    """A table of FlatBuffers: a list of places says where its fields stand. `struct.error` or `IndexError` for none."""

    def __init__(self, data: bytes, at: int) -> None:
        self._data = data
        self._at = at
        self._list = at - struct.unpack_from("<i", data, at)[0]
        self._bytes = struct.unpack_from("<H", data, self._list)[0]

    @classmethod
    def root(cls, data: bytes) -> _Table:
        """The table that some bytes have as a whole."""
        return cls(data, struct.unpack_from("<I", data)[0])

    def number(self, field: int, form: str, otherwise: int) -> int:
        """A number, or another one where there is none."""
        at = self._place(field)
        return int(struct.unpack_from(form, self._data, at)[0]) if at else otherwise

    def byte(self, field: int) -> int:
        return self.number(field, "<B", 0)

    def bytes(self, field: int) -> bytes:
        """A list of bytes."""
        at, count = self._list_at(field)
        return self._data[at : at + count]

    def tables(self, field: int) -> list[_Table]:
        """A list of tables."""
        begin, count = self._list_at(field)
        places = range(begin, begin + 4 * count, 4)
        return [_Table(self._data, at + struct.unpack_from("<I", self._data, at)[0]) for at in places]

    def _list_at(self, field: int) -> tuple[int, int]:
        """Where a list begins, and how many it has."""
        at = self._place(field)
        if not at:
            return 0, 0
        begin = at + struct.unpack_from("<I", self._data, at)[0]
        return begin + 4, struct.unpack_from("<I", self._data, begin)[0]

    def _place(self, field: int) -> int:
        """Where a field stands, or 0 where there is none."""
        entry = 4 + 2 * field
        if entry + 2 > self._bytes:
            return 0
        (offset,) = struct.unpack_from("<H", self._data, self._list + entry)
        return self._at + int(offset) if offset else 0
