"""A file of JSON texts, a member at a time: of a collection of features one feature, whatever the file's size.

JSON has numbers without a limit, and names that stand twice. Numbers keep their own digits here, and an object in
which a name stands twice says so. The file is one text, or several with line feeds or RS between, as GeoJSONSeq has
them.
"""

from __future__ import annotations

import io
import json
import os
import re
from collections import Counter
from collections.abc import Iterator
from decimal import Decimal, InvalidOperation
from json import JSONDecodeError
from typing import IO, Any, Dict, NamedTuple

from sfstore.exchange.ogr import ExchangeError, gdal, printable

__all__ = ["Member", "Repeated", "is_json", "members", "object_of", "text_of"]

# How many characters are read at first, and how many a feature has at most.
_CHUNK, _LONGEST = 1 << 20, 1 << 28
# What may stand between two texts, and at the beginning.
_BETWEEN = re.compile(r"[ \t\n\r\x1e]*")
# What OGR passes over before a text, calls in which it finds one, and how many bytes are read to see them.
_BLANKS, _CALLS, _BEGIN = b" \t\n\r\x1e\v\f", (b"jsonp(", b"loadGeoJSON("), 1 << 12
_CALL_LONGEST = max(map(len, _CALLS))
_UTF_8_MARK, _UTF_16_MARKS = b"\xef\xbb\xbf", (b"\xff\xfe", b"\xfe\xff")
# A whole number of more digits is none of the store, and Python takes long for very long ones.
_DIGITS_MAX = 20
# So near to the end of what was read a fault may come of the cut.
_NEAR_END = 16
# How Python says that the end of a text is missing.
_UNTERMINATED = "Unterminated string"
_BREAKS_OFF = "it breaks off"


class Repeated(Dict[str, Any]):
    """An object in which a name stands more than once. As a dictionary it has the last value of each."""

    def __init__(self, pairs: list[tuple[str, Any]]) -> None:
        super().__init__(pairs)
        self.pairs = pairs

    @property
    def names(self) -> list[str]:
        """The names that stand more than once."""
        counts = Counter(name for name, _ in self.pairs)
        return [name for name in self if counts[name] > 1]


class Member(NamedTuple):
    """A member of the object that a text is, or an element of its array ``features``."""

    text: int
    """Which text of the file it is of, from 0."""
    name: str
    """Its name; nothing at the end of the object."""
    value: Any
    is_element: bool = False


def is_json(path: str) -> bool:
    """Whether a file begins as JSON that OGR would read. `ExchangeError` where it does in UTF-16, which no JSON is in.

    OGR looks behind blanks that JSON has not, and into a call of JavaScript. `members` refuses these.
    """
    if not (os.path.isfile(path) or path.startswith("/vsi")):
        return False
    try:
        with _bytes(path) as file:
            begin = _begin(file)
    except (OSError, RuntimeError):
        return False
    if begin.startswith(_UTF_16_MARKS) and begin[2:].strip(b"\0 \r\n\t").startswith(b"{"):
        raise ExchangeError(f"{printable(path)} is UTF-16: GeoJSON is UTF-8")
    return begin.startswith((b"{", *_CALLS))


def _begin(file: IO[bytes]) -> bytes:
    """Some bytes of a file from the first one on that is no blank."""
    found = file.read(_BEGIN).removeprefix(_UTF_8_MARK).lstrip(_BLANKS)
    while not found:
        more = file.read(_BEGIN)
        if not more:
            break
        found = more.lstrip(_BLANKS)
    return found if len(found) > _CALL_LONGEST else found + file.read(_BEGIN)


def members(path: str) -> Iterator[Member]:
    """The members of all objects of a file. `ExchangeError` where it is no JSON, or breaks off."""
    with _bytes(path) as file:
        # Bytes that are no UTF-8 are told of the value that has them.
        text = _Text(path, io.TextIOWrapper(file, "utf-8-sig", "surrogateescape", newline=""))
        number = 0
        while text.next():
            yield from _object(text, number)
            number += 1


def text_of(value: Any) -> str:
    """A value as JSON, with the digits that it has. `RecursionError` where it is nested too deeply."""
    if isinstance(value, dict):
        pairs = value.pairs if isinstance(value, Repeated) else value.items()
        return "{" + ", ".join(f"{text_of(name)}: {text_of(known)}" for name, known in pairs) + "}"
    if isinstance(value, list):
        return "[" + ", ".join(map(text_of, value)) + "]"
    return str(value) if isinstance(value, Decimal) else json.dumps(value, ensure_ascii=False)


class _NoJson(Exception):
    """Something that Python's reader takes, and JSON has not."""


class _Text:
    """The characters of a file, from a place on."""

    def __init__(self, path: str, file: IO[str]) -> None:
        self._path = path
        self._file = file
        self._read, self._at, self._lines = "", 0, 1
        self._is_ended = False
        self._decoder = json.JSONDecoder(
            parse_float=_decimal, parse_int=_whole, parse_constant=_constant, object_pairs_hook=object_of
        )

    def next(self) -> str:
        """The next character that is no blank; nothing at the end."""
        while True:
            found = _BETWEEN.match(self._read, self._at)
            self._at = found.end() if found else self._at
            if self._at < len(self._read):
                return self._read[self._at]
            if self._is_ended:
                return ""
            self._read_more(_CHUNK)

    def take(self, wanted: str) -> None:
        """Goes on behind a character. `ExchangeError` where another one stands there."""
        if self.next() != wanted:
            raise self._fault(f"a {wanted!r} is missing", self._at)
        self._at += 1

    def value(self) -> Any:
        """The value that stands next. `ExchangeError` where it is no JSON."""
        self.next()
        size = _CHUNK
        while True:
            try:
                found, end = self._decoder.raw_decode(self._read, self._at)
            except JSONDecodeError as error:
                if self._is_ended and error.msg.startswith(_UNTERMINATED):
                    raise self._fault(_BREAKS_OFF, error.pos) from None
                if self._is_ended or not self._is_cut(error):
                    raise self._fault(error.msg, error.pos) from None
            except RecursionError:
                raise self._fault("it is nested too deeply", self._at) from None
            except _NoJson as error:
                raise self._fault(str(error), self._at) from None
            else:
                # A number may go on behind what was read.
                if end < len(self._read) or self._is_ended:
                    self._at = end
                    return found
            if size > _LONGEST:
                raise self._fault(f"a value has more than {_LONGEST:,} characters", self._at)
            self._read_more(size)
            size *= 2

    def _is_cut(self, error: JSONDecodeError) -> bool:
        """Whether a fault may come of the end of what was read."""
        return error.pos >= len(self._read) - _NEAR_END or error.msg.startswith(_UNTERMINATED)

    def _read_more(self, size: int) -> None:
        more = self._file.read(size)
        self._is_ended = not more
        self._lines += self._read.count("\n", 0, self._at)
        self._read, self._at = self._read[self._at :] + more, 0

    def _fault(self, what: str, at: int) -> ExchangeError:
        line = self._lines + self._read.count("\n", 0, at)
        where = _BREAKS_OFF if self._is_ended and at >= len(self._read.rstrip()) else what
        return ExchangeError(f"{printable(self._path)} is no JSON, in line {line}: {where}")


def _object(text: _Text, number: int) -> Iterator[Member]:
    text.take("{")
    while text.next() != "}":
        name = text.value()
        if not isinstance(name, str):
            raise ExchangeError(f"{name!r:.60} stands where a member of an object has its name")
        text.take(":")
        if name == "features" and text.next() == "[":
            yield Member(number, name, [])
            yield from _elements(text, number, name)
        else:
            yield Member(number, name, text.value())
        if text.next() != "}":
            text.take(",")
            if text.next() == "}":
                # A comma has a member behind it.
                text.value()
    text.take("}")
    yield Member(number, "", None)


def _elements(text: _Text, number: int, name: str) -> Iterator[Member]:
    text.take("[")
    if text.next() != "]":
        yield Member(number, name, text.value(), is_element=True)
        while text.next() != "]":
            text.take(",")
            yield Member(number, name, text.value(), is_element=True)
    text.take("]")


def object_of(pairs: list[tuple[str, Any]]) -> dict[str, Any]:
    """The object that has some members."""
    found = dict(pairs)
    return found if len(found) == len(pairs) else Repeated(pairs)


def _whole(digits: str) -> int | Decimal:
    return int(digits) if len(digits) <= _DIGITS_MAX else _decimal(digits)


def _decimal(digits: str) -> Decimal:
    try:
        return Decimal(digits)
    except InvalidOperation:
        raise _NoJson(f"the number {digits:.60} is out of all bounds") from None


def _constant(word: str) -> Any:
    raise _NoJson(f"{word} is no number of JSON")


def _bytes(path: str) -> Any:
    """A file to be read, of an archive by GDAL."""
    return io.BufferedReader(_Archived(path)) if path.startswith("/vsi") else open(path, "rb")


class _Archived(io.RawIOBase):
    """A file that GDAL finds, as one of an archive."""

    def __init__(self, path: str) -> None:
        super().__init__()
        self._module, _, _ = gdal()
        self._file = self._module.VSIFOpenL(path, "rb")
        if self._file is None:
            raise OSError(f"{path} is not there")

    def readable(self) -> bool:
        return True

    def readinto(self, buffer: Any) -> int:
        found = bytes(self._module.VSIFReadL(1, len(buffer), self._file) or b"")
        buffer[: len(found)] = found
        return len(found)

    def close(self) -> None:
        if not self.closed:
            self._module.VSIFCloseL(self._file)
        super().close()
