"""What OGR does not say of a Shapefile: values that are none of their column's type, and shapes that its index does not name.

OGR makes a number of the beginning of any text, and 0 of one that begins with none; of a text a day in the same way; and
of each number with a fraction the nearest double. It ends a text at a byte 0, whatever stands behind that.
"""

from __future__ import annotations

import os
import re
from collections.abc import Iterator, Mapping
from decimal import ROUND_DOWN, ROUND_HALF_EVEN, Context, Decimal
from typing import Any, NamedTuple

from sfstore.exchange import ogr
from sfstore.exchange.archives import NAMED
from sfstore.exchange.columns import DATE, INTEGER, INTEGER_64, REAL, STRING
from sfstore.exchange.moments import day_of
from sfstore.exchange.vsi import VsiFile

__all__ = ["Odd", "beside", "deleted_records", "foreign_columns", "index_fault", "odd_values", "set_faults", "table_fault"]

# How much of a table is read at a time.
_CHUNK = 1 << 20
# The sizes of the headers of a table, of one of its columns, and of shapes and their index.
_TABLE, _COLUMN, _SHAPES = 32, 32, 100
_END_OF_COLUMNS, _DELETED = 0x0D, b"*"
# The types of columns whose values stand in a record as letters. Those of others are binaries, or the places of memos.
_OF_LETTERS, _MEMO = "CNFDL", "M"
# Blanks and zeros fill a place, and asterisks say that there is no value.
_WHOLE = re.compile(rb"[ \0]*(?:[+-]?[0-9]+(?:\.0*)?[ \0]*)?|\*.*", re.DOTALL)
_REAL = re.compile(rb"[ \0]*(?:[+-]?(?:[0-9]+\.?[0-9]*|\.[0-9]+)(?:[eE][+-]?[0-9]+)?[ \0]*)?|\*.*", re.DOTALL)
# OGR writes a day as a number, so that years before 1000 have no zeros before them.
_DAY = re.compile(rb"[ \0]*(?:[0-9]{1,8}[ \0]*)?|[0-9]{2}/[0-9]{2}/[0-9]{4}")
_TEXT = re.compile(rb"[^\0]*[ \0]*", re.DOTALL)
_FORMS = {INTEGER: _WHOLE, INTEGER_64: _WHOLE, REAL: _REAL, DATE: _DAY, STRING: _TEXT}
_NO_DAY = "00000000"
# How many records are shown.
_SHOWN = 3
# So many digits each double has, and more than a number of a table.
_DIGITS, _MANY = 15, Context(prec=1_000)


class Odd(NamedTuple):
    """A value that OGR would change."""

    record: int
    column: int
    text: str
    number: str | None = None
    """The text of a number that has other digits than its double; none where it is no value of the column's type."""


def odd_values(source: Any, name: str, columns: Mapping[int, str]) -> Iterator[Odd]:
    """The values that OGR would change, of those columns of a Shapefile, which have their types by their places."""
    path = beside(source, name, ".dbf")
    forms = {column: _FORMS[kind] for column, kind in columns.items() if kind in _FORMS}
    if not path or not forms:
        return
    with VsiFile(path) as file:
        head = file.read(_TABLE)
        size = int.from_bytes(head[10:12], "little")
        places = list(_places(_columns(file, head)))
        wanted = [(column, places[column], form) for column, form in forms.items() if column < len(places)]
        for at, record in enumerate(_records(file, size)):
            for column, place, form in wanted:
                if form is _TEXT and b"\0" not in record:
                    continue
                text = record[place].decode("latin-1").strip(" \0")
                if not form.fullmatch(record[place]) or (form is _DAY and not _is_day(text)):
                    yield Odd(at, column, text)
                elif form is _REAL and not _is_double(text):
                    yield Odd(at, column, text, text.lstrip("+"))


def _is_day(text: str) -> bool:
    """Whether a text is a day, as its digits or as `month/day/year`, or says that there is none."""
    month, slash, rest = text.partition("/")
    digits = rest[3:] + month + rest[:2] if slash else text.rjust(len(_NO_DAY), "0")
    return text in ("", _NO_DAY) or day_of(f"{digits[:4]}-{digits[4:6]}-{digits[6:]}") is not None


def _is_double(text: str) -> bool:
    """Whether a number is its double, or was written as one: with as many places as there is room for."""
    if len(text) <= _DIGITS or not text.lstrip("+-").replace(".", "", 1).isdigit():
        return True
    number, double = Decimal(text), Decimal(float(text))
    place = Decimal(1).scaleb(-len(text.partition(".")[2]))
    # Where the room has ended, what is further behind was cut off.
    return number in (double.quantize(place, rounding, _MANY) for rounding in (ROUND_HALF_EVEN, ROUND_DOWN))


def foreign_columns(source: Any, name: str) -> dict[int, str]:
    """The columns of a Shapefile that OGR takes for texts and that are none, by their places, with their types in words."""
    path = beside(source, name, ".dbf")
    if not path:
        return {}
    with VsiFile(path) as file:
        columns = _columns(file, file.read(_TABLE))
    kinds = [chr(columns[_COLUMN * at + 11]) for at, _ in enumerate(_places(columns))]
    return {at: "memo" if kind == _MEMO else f"{kind!r} of dBase" for at, kind in enumerate(kinds) if kind not in _OF_LETTERS}


def table_fault(source: Any, name: str) -> str:
    """Why a Shapefile has no columns though it may have values, in words, or nothing."""
    path = beside(source, name, ".dbf")
    if not path:
        return "its .dbf is missing"
    with VsiFile(path) as file:
        is_empty = file.read(_TABLE + 1)[_TABLE:] == bytes([_END_OF_COLUMNS])
    return "" if is_empty else "its .dbf can't be read"


def deleted_records(source: Any, name: str) -> int:
    """How many records of a Shapefile's table are marked as deleted, whose features OGR passes over."""
    path = beside(source, name, ".dbf")
    if not path:
        return 0
    with VsiFile(path) as file:
        head = file.read(_TABLE)
        _columns(file, head)
        return sum(record.startswith(_DELETED) for record in _records(file, int.from_bytes(head[10:12], "little")))


def index_fault(source: Any, name: str) -> str:
    """How much of a Shapefile its index does not name, in words, or nothing."""
    shapes, index = (beside(source, name, ending) for ending in (".shp", ".shx"))
    if not shapes or not index:
        return ""
    module, _, _ = ogr.gdal()
    size = int(module.VSIStatL(shapes).size)
    named = _SHAPES + sum(8 + entry.length for entry in _entries(index))
    return "" if named == size else f"{named:,} of {size:,} bytes"


class _Entry(NamedTuple):
    """Where the index of a Shapefile finds a shape: behind so many bytes, and behind 8 more, so many."""

    place: int
    length: int


def _entries(index: str) -> list[_Entry]:
    with VsiFile(index) as file:
        head = file.read(_SHAPES)
        # OGR reads as much as the header says.
        found = file.read(max(int.from_bytes(head[24:28], "big") * 2 - _SHAPES, 0))
    starts = range(0, len(found) - 7, 8)
    return [_Entry(*(int.from_bytes(found[at + part : at + part + 4], "big") * 2 for part in (0, 4))) for at in starts]


def set_faults(source: Any, name: str) -> Iterator[tuple[str, str]]:
    """What shows that the files of a Shapefile are not of one another, each with a detail: values are at other shapes then."""
    shapes, index, table = (beside(source, name, ending) for ending in (".shp", ".shx", ".dbf"))
    entries = _entries(index) if shapes and index else []
    if entries and (others := _other_shapes(shapes, entries)):
        yield "its .shx finds other shapes in its .shp than those of its records", others
    if entries and table:
        with VsiFile(table) as file:
            count = int.from_bytes(file.read(_TABLE)[4:8], "little")
        if count > len(entries):
            yield "its .dbf has more records than there are shapes, and values may be at others than their own", f"{count:,} records, {len(entries):,} shapes"


def _other_shapes(shapes: str, entries: list[_Entry]) -> str:
    """The first records to which an index finds a shape of another number, or length, in words; or nothing.

    A shape has its number from 1 on. Some programs write it from 0 on, or the same for all, which says nothing.
    """
    numbers: dict[int, tuple[int, int]] = {}
    with VsiFile(shapes) as file:
        at = 0
        for place in sorted({entry.place for entry in entries}):
            numbers[place] = 0, 0
            if place < at:
                # It begins within another one.
                continue
            file.skip(place - at)
            head = file.read(8)
            numbers[place] = int.from_bytes(head[:4], "big"), int.from_bytes(head[4:], "big") * 2
            at = place + len(head)
    found = [numbers[entry.place][0] for entry in entries]
    says_nothing = len(set(found)) == 1 or all(number == at for at, number in enumerate(found))
    others = [
        f"record {at} has shape {number}"
        for at, (number, entry) in enumerate(zip(found, entries), 1)
        if (number != at and not says_nothing) or numbers[entry.place][1] != entry.length
    ]
    more = f" and {len(others) - _SHOWN:,} more" if len(others) > _SHOWN else ""
    return ", ".join(others[:_SHOWN]) + more


def beside(source: Any, name: str, ending: str) -> str:
    """The file of a layer that has an ending, in small or large letters; nothing where there is none."""
    module, _, _ = ogr.gdal()
    folder, wanted = _folder(source), f"{name}{ending}"
    found = module.ReadDir(folder)
    if found is None:
        # Where no names can be asked for, as in the network.
        path = os.path.join(folder, wanted)
        return path if module.VSIStatL(path) is not None else ""
    there = next((each for each in found if each.casefold() == wanted.casefold()), "")
    return os.path.join(folder, there) if there else ""


def _folder(source: Any) -> str:
    """The folder that the files of a source are in, which may be one of an archive."""
    module, _, _ = ogr.gdal()
    path: str = source.GetDescription()
    known = module.VSIStatL(path)
    if known is not None and known.IsDirectory():
        return path
    return f"/vsizip/{{{path}}}" if path.lower().endswith(NAMED) else os.path.dirname(path) or "."


def _columns(file: VsiFile, head: bytes) -> bytes:
    """What says the columns of a table, behind its head."""
    return file.read(max(int.from_bytes(head[8:10], "little") - _TABLE, 0))


def _places(columns: bytes) -> Iterator[slice]:
    """Where the values of columns stand in a record, behind the mark of a deleted one."""
    begin = 1
    for at in range(0, len(columns) - _COLUMN + 1, _COLUMN):
        if columns[at] == _END_OF_COLUMNS:
            return
        yield slice(begin, begin + columns[at + 16])
        begin += columns[at + 16]


def _records(file: VsiFile, size: int) -> Iterator[bytes]:
    rest = b""
    while size and (more := file.read(_CHUNK)):
        rest += more
        whole = len(rest) // size * size
        yield from (rest[at : at + size] for at in range(0, whole, size))
        rest = rest[whole:]
