"""How the columns of a layer go out: their types and widths, by what they were in the source and by their values.

Maps are made of whole numbers and texts here. A decimal, a day or a moment stands as its text, and a truth value as 0 or
1, of a column whose type says so. A column that was of another type in the source goes back as that type, where each
of its values still is one of it.
"""

from __future__ import annotations

import math
import struct
from collections.abc import Callable
from dataclasses import dataclass, field
from decimal import Decimal
from typing import NamedTuple, Union

from sfstore import values
from sfstore.exchange.moments import day_of, moment_of
from sfstore.exchange.stored import decimal_of
from sfstore.results import Value as StoreValue
from sfstore.sidecar import ColumnOrigin
from sfstore.storefile import BOOL, DATETIME, DECIMAL, INT, FileColumn, FileFeature, FileLayer
from sfstore.storefile import DATE as FILE_DATE

__all__ = ["DATE", "DATE_TIME", "INTEGER", "INTEGER_64", "REAL", "STRING", "Sort", "Survey", "origin_of", "real_of", "sort_of", "surveyed", "values_of"]

INTEGER, INTEGER_64, REAL, STRING = "Integer", "Integer64", "Real", "String"
DATE, DATE_TIME = "Date", "DateTime"

_INT_32 = range(-(2**31), 2**31)
_SUBTYPES = {"Boolean": range(2), "Int16": range(-(2**15), 2**15)}
# A number of a Shapefile with more than 18 characters is read as a real one.
_LONGEST_NUMBER = 18

Value = Union[int, str]


class Sort(NamedTuple):
    """The type of a column in a format, in OGR's words."""

    type: str
    subtype: str = "None"
    width: int = 0
    """The most characters of a text, 0 where it says none."""
    is_zoned: bool = False
    """Whether each date with a time has its zone."""
    is_exact: bool = False
    """Whether real numbers are decimals of the store, which some formats keep with all their digits."""


@dataclass
class _Numbers:
    """The values of a column of whole numbers."""

    count: int = 0
    least: int = 0
    most: int = 0
    are_doubles: bool = True
    """Whether each is a double."""

    def add(self, value: int) -> None:
        self.least = value if not self.count else min(self.least, value)
        self.most = value if not self.count else max(self.most, value)
        self.count += 1
        self.are_doubles = self.are_doubles and int(float(value)) == value

    def are_in(self, wanted: range) -> bool:
        return not self.count or (self.least in wanted and self.most in wanted)

    @property
    def are_wide(self) -> bool:
        """Whether one has more than 18 characters, so that a Shapefile has all of them as doubles."""
        return max(len(str(self.least)), len(str(self.most))) > _LONGEST_NUMBER


@dataclass
class _Texts:
    """The values of a column of texts."""

    is_one: Callable[[str], bool]
    """Whether a text is a value of the source's type."""
    are_decimals: bool = False
    """Whether the texts are those of decimals."""
    count: int = 0
    longest: int = 0
    """The most characters."""
    most_bytes: int = 0
    has_empty: bool = False
    has_blank_end: bool = False
    other: tuple[int, str] | None = None
    """A feature whose text is none of the source's type, and the text."""
    other_form: str | None = None
    """A text that comes back in another form."""
    most_real: float = 0.0
    """The number that is furthest from 0."""
    has_long_real: bool = False
    """Whether a number has more than 15 decimals."""
    zoned: int = 0
    """How many are dates with a time and a zone."""
    are_short: bool = True
    """Whether each date with a time is one that OGR can write."""

    def add(self, feature: int, value: str) -> None:
        self.count += 1
        self.longest = max(self.longest, len(value))
        self.most_bytes = max(self.most_bytes, len(value.encode("utf-8")))
        self.has_empty = self.has_empty or not value
        self.has_blank_end = self.has_blank_end or value != value.strip(" ")
        if self.other is None and not self.is_one(value):
            self.other = feature, value
        if self.other_form is None and not self._is_in_form(value):
            self.other_form = value
        number = real_of(value) if self.is_one is _is_real else None
        if number is not None:
            self.most_real = max(self.most_real, abs(number))
            self.has_long_real = self.has_long_real or float(f"{number:.15f}") != number
        moment = moment_of(value) if self.is_one is _is_moment else None
        if moment is not None:
            self.zoned += moment.offset is not None
            self.are_short = self.are_short and moment.is_in_milliseconds and moment.ogr_zone is not None


    def _is_in_form(self, value: str) -> bool:
        """Whether a text comes back as it is, where it is one of the source's type."""
        if self.is_one is _is_real:
            number = real_of(value)
            if number is not None and self.are_decimals:
                return decimal_of(number).value == Decimal(value)
            return number is None or repr(number) == value
        moment = moment_of(value) if self.is_one is _is_moment else None
        return moment is None or moment.text == value


@dataclass
class Survey:
    """What a layer has, as far as formats differ in it."""

    codes: set[int] = field(default_factory=set)
    """The codes of the kinds of its geometries."""
    last: int = 0
    """The greatest identifier."""
    count: int = 0
    numbers: dict[int, _Numbers] = field(default_factory=dict)
    texts: dict[int, _Texts] = field(default_factory=dict)

    @property
    def used(self) -> set[int]:
        """The columns that have values, by their numbers."""
        numbers = {number for number, values in self.numbers.items() if values.count}
        return numbers | {number for number, values in self.texts.items() if values.count}


def surveyed(layer: FileLayer, origins: dict[int, ColumnOrigin]) -> Survey:
    """One pass over the features of a layer."""
    found = Survey()
    for column in layer.columns:
        if column.type in (INT, BOOL):
            found.numbers[column.number] = _Numbers()
        else:
            type_name = origins[column.number].type if column.number in origins else STRING
            found.texts[column.number] = _Texts(_TESTS.get(type_name, _is_text), column.type == DECIMAL)
    for feature in layer.features:
        found.codes.add(_code(feature.geometry))
        found.count += 1
        found.last = max(found.last, feature.id)
        for number, value in values_of(feature).items():
            if isinstance(value, int):
                found.numbers[number].add(value)
            else:
                found.texts[number].add(feature.id, value)
    return found


def values_of(feature: FileFeature) -> dict[int, Value]:
    """The values of a feature as whole numbers and texts, by the numbers of their columns.

    >>> from datetime import date
    >>> values_of(FileFeature(1, b"", {1: True, 2: Decimal("812.50"), 3: date(2024, 2, 29), 4: "it's"}))
    {1: 1, 2: '812.5', 3: '2024-02-29', 4: "it's"}
    """
    return {number: _plain(value) for number, value in feature.values.items()}


def _plain(value: StoreValue) -> Value:
    if isinstance(value, str):
        return value
    if isinstance(value, int):
        return int(value)
    # A moment with no part of a second has none in its text.
    return values.spelled(value).replace(".000Z", "Z")


def origin_of(column: FileColumn, known: ColumnOrigin | None) -> ColumnOrigin | None:
    """What a column was in the source, where its values still are of that type; else what is nearest to its own type."""
    if column.type not in _NEAREST:
        return known
    type_name, subtype = _NEAREST[column.type]
    if known is not None and known.type == type_name and (subtype == "None" or known.subtype == subtype):
        return known
    return ColumnOrigin(column.name, known.source_name if known else column.name, type_name, subtype, 0)


def _code(binary: bytes) -> int:
    """The code of the kind of a geometry of the store."""
    (code,) = struct.unpack_from("<I" if binary[0] else ">I", binary, 1)
    return int(code)


def sort_of(
    column: FileColumn, origin: ColumnOrigin | None, survey: Survey, kept: frozenset[str], largest: float = math.inf
) -> Sort:
    """How a column goes out to a format that keeps some types beside whole numbers and texts, and reals below the largest."""
    if column.type in (INT, BOOL):
        return _number_sort(origin, survey.numbers[column.number], kept)
    texts = survey.texts[column.number]
    sort = _text_sort(origin, texts, kept if texts.most_real < largest else kept - {REAL})
    return sort._replace(is_exact=column.type == DECIMAL)


def _number_sort(origin: ColumnOrigin | None, values: _Numbers, kept: frozenset[str]) -> Sort:
    if origin and origin.type == REAL and REAL in kept and values.are_doubles:
        return Sort(REAL)
    if origin is None or origin.type != INTEGER or not values.are_in(_INT_32):
        return Sort(INTEGER_64)
    if origin.subtype in _SUBTYPES and values.are_in(_SUBTYPES[origin.subtype]):
        return Sort(INTEGER, origin.subtype)
    return Sort(INTEGER)


def _text_sort(origin: ColumnOrigin | None, values: _Texts, kept: frozenset[str]) -> Sort:
    if origin and origin.type in _TESTS:
        if origin.type in kept and values.other is None and _is_writable(origin.type, values, kept):
            return Sort(origin.type, is_zoned=values.zoned > 0)
        return Sort(STRING)
    if origin and origin.width >= values.longest:
        return Sort(STRING, width=origin.width)
    return Sort(STRING)


def _is_writable(type_name: str, values: _Texts, kept: frozenset[str]) -> bool:
    """Whether dates with times go out as such: with their zones, or where zones may lack without any."""
    if type_name != DATE_TIME:
        return True
    if "DateTime without zone" in kept:
        return values.zoned in (0, values.count)
    return values.zoned == values.count and values.are_short


def real_of(text: str) -> float | None:
    """The number that a text names, or none. It is no text that begins or ends with blanks.

    >>> real_of("0.5"), real_of("abc"), real_of("nan")
    (0.5, None, None)
    """
    try:
        number = float(text) if text.isascii() and text == text.strip() and "_" not in text else math.nan
    except ValueError:
        return None
    return number if math.isfinite(number) else None


def _is_real(text: str) -> bool:
    return real_of(text) is not None


def _is_day(text: str) -> bool:
    return day_of(text) is not None


def _is_moment(text: str) -> bool:
    return moment_of(text) is not None


def _is_text(text: str) -> bool:
    return True


_NEAREST = {DECIMAL: (REAL, "None"), BOOL: (INTEGER, "Boolean"), FILE_DATE: (DATE, "None"), DATETIME: (DATE_TIME, "None")}
"""The types of maps, with their subtypes, that are nearest to those of columns of the store."""

_TESTS: dict[str, Callable[[str], bool]] = {REAL: _is_real, DATE: _is_day, DATE_TIME: _is_moment}
"""Whether a text is a value of a type that the store has not."""
