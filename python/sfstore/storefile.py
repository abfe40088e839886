"""The file of a store, as docs/use/FORMAT.md of the project has it: read, and written as version 4, without rules.

What is written here is for the program to load: it decides whether it is a file of a store.
"""

from __future__ import annotations

import struct
from abc import abstractmethod
from array import array
from collections.abc import Callable, Iterator, Mapping, Sequence
from dataclasses import dataclass, field
from datetime import date, datetime, time, timedelta, timezone
from decimal import Decimal
from typing import BinaryIO, NamedTuple, cast, overload

from sfstore import files, values
from sfstore.language import DISTANCE_LIMIT, DISTANCE_PLACES, PREDICATES
from sfstore.refusals import bad_field
from sfstore.results import RULE_BROKEN, Value
from sfstore.rules import AnyRule, Demand, Rule, RuleForm, ValueRule, near_asked

__all__ = [
    "BOOL",
    "DATE",
    "DATETIME",
    "DECIMAL",
    "INT",
    "TEXT",
    "FileColumn",
    "FileFeature",
    "FileLayer",
    "Recorded",
    "fault_words",
    "feature_of",
    "field_at",
    "is_store",
    "read",
    "read_with_rules",
    "record_of",
    "write",
]

INT, TEXT, DECIMAL, BOOL, DATE, DATETIME = range(1, 7)
"""The types of columns in a file."""

_MAGIC = b"SFSTORE4\x1f"
_NO_RULES = struct.pack(">H", 0)
_VERSIONS = {b"SFSTORE1": 1, b"SFSTORE2": 2, b"SFSTORE3": 3, b"SFSTORE4": 4}
# What the file of each version begins with.
_ANY_MAGIC = b"SFSTORE"
_FORMS: dict[int, RuleForm] = {1: "never", 2: "each"}
_NEAR_FORMS: dict[int, RuleForm] = {7: "never", 8: "each"}
_DEMANDS: dict[int, Demand] = {3: "unique", 4: "required", 5: "one-of", 6: "range"}


def is_store(path: str) -> bool:
    """Whether a file begins as a store's does, of whatever version, or is empty. `OSError` where it can't be read."""
    with open(path, "rb", opener=files.opened) as file:
        return file.read(len(_ANY_MAGIC)) in (_ANY_MAGIC, b"")


class FileColumn(NamedTuple):
    """A column of a layer."""

    number: int
    type: int
    name: str


class FileFeature(NamedTuple):
    """A feature of a layer."""

    id: int
    geometry: bytes
    """Well-known binary."""
    values: dict[int, Value]
    """The values by the numbers of their columns."""


class Recorded(Sequence[FileFeature]):
    """Features that have their bytes already."""

    @abstractmethod
    def records(self) -> Iterator[bytes]:
        """What a file has of each."""


@dataclass
class FileLayer:
    """A layer, with all that the file has of it."""

    name: str
    kind: int
    next_id: int
    next_column: int
    columns: list[FileColumn] = field(default_factory=list)
    features: Sequence[FileFeature] = field(default_factory=list)
    """Those that were read stand in the file's bytes, and are made anew whenever they are asked for."""


def write(file: BinaryIO, layers: list[FileLayer]) -> None:
    """Writes a file of version 4. `struct.error` where a number has no place in its field."""
    file.write(_MAGIC + struct.pack(">I", len(layers)))
    for layer in layers:
        numbers = layer.kind, layer.next_id, layer.next_column, len(layer.columns)
        file.write(_name(layer.name) + struct.pack(">BIHH", *numbers))
        for column in layer.columns:
            file.write(struct.pack(">HB", column.number, column.type) + _name(column.name))
        file.write(struct.pack(">I", len(layer.features)))
        types = {column.number: column.type for column in layer.columns}
        features = layer.features
        file.writelines(features.records() if isinstance(features, Recorded) else (record_of(feature, types) for feature in features))
    file.write(_NO_RULES)


def _name(name: str) -> bytes:
    return struct.pack(">B", len(name)) + name.encode("ascii")


def record_of(feature: FileFeature, types: Mapping[int, int]) -> bytes:
    """What a file has of a feature, by the types of the columns. `struct.error` where a number has no place in its field."""
    identifier, geometry, known = feature
    parts = [_HEAD.pack(identifier, len(geometry)), geometry, _SHORT.pack(len(known))]
    parts += [_PACKED[types[number]](number, value) for number, value in sorted(known.items())]
    return b"".join(parts)


def _whole_bytes(number: int, value: Value) -> bytes:
    return _SHORT_LONG.pack(number, value)


def _text_bytes(number: int, value: Value) -> bytes:
    text = cast(str, value).encode("utf-8")
    return _SHORT_SHORT.pack(number, len(text)) + text


def _decimal_bytes(number: int, value: Value) -> bytes:
    exact = value if isinstance(value, Decimal) else Decimal(cast(int, value))
    return _SHORT_DECIMAL.pack(number, *values.mantissa_and_places(exact))


def _truth_bytes(number: int, value: Value) -> bytes:
    return _SHORT_BYTE.pack(number, value)


def _day_bytes(number: int, value: Value) -> bytes:
    return _SHORT.pack(number) + _date_bytes(cast(date, value))


def _moment_bytes(number: int, value: Value) -> bytes:
    moment = values.in_utc(cast(datetime, value))
    return _SHORT.pack(number) + _date_bytes(moment) + _MILLISECONDS.pack((moment - _midnight(moment)) // _MILLISECOND)


# What a column of each type has of a value, behind its number.
_PACKED: dict[int, Callable[[int, Value], bytes]] = {
    INT: _whole_bytes,
    TEXT: _text_bytes,
    DECIMAL: _decimal_bytes,
    BOOL: _truth_bytes,
    DATE: _day_bytes,
    DATETIME: _moment_bytes,
}


def _date_bytes(day: date) -> bytes:
    return _DATE.pack(day.year, day.month, day.day)


def _midnight(day: date) -> datetime:
    return datetime.combine(day, time(), timezone.utc)


def read(data: bytes) -> list[FileLayer]:
    """The layers of a file that the program loads. `ValueError` or `struct.error` for others."""
    return _Reader(data).layers()


def read_with_rules(data: bytes) -> tuple[list[FileLayer], list[AnyRule]]:
    """The layers and the rules of a file that the program loads. `ValueError` or `struct.error` for others."""
    reader = _Reader(data)
    return reader.layers(), reader.rules


def field_at(data: bytes, place: int) -> str:
    """The name of the field that begins at a place, such as ``name of a layer``.

    It is that of the last field before where none begins there, as at the end of a file.
    """
    reader = _Reader(data, place)
    try:
        reader.layers()
    except (ValueError, struct.error, _Found):
        pass
    return reader.last


def fault_words(path: str, last: str) -> str:
    """The last line of a program that could not load a file, in words: place, field and reason."""
    words = last.split(" ")
    if words[:3] != ["fault", "load", "BadFile"]:
        plain = {
            "fault load Open": "it can't be opened",
            "fault load Read": "it can't be read",
            "fault load Memory": "it does not fit into memory",
        }
        return plain.get(last, last)
    place, number = map(int, words[3:])
    with open(path, "rb") as file:
        # A rule that does not hold is wrong as a whole, and begins with its name.
        name = "rule" if number == RULE_BROKEN else field_at(file.read(), place)
    return f"place {place}, {name}: {bad_field(name, number)} ({number})"


_HEAD, _SHORT, _LONG = struct.Struct(">II"), struct.Struct(">H"), struct.Struct(">q")
_DECIMAL, _DATE, _MILLISECONDS = struct.Struct(">qB"), struct.Struct(">HBB"), struct.Struct(">I")
_SHORT_SHORT, _SHORT_LONG = struct.Struct(">HH"), struct.Struct(">Hq")
_SHORT_DECIMAL, _SHORT_BYTE = struct.Struct(">HqB"), struct.Struct(">HB")
_MILLISECOND = timedelta(milliseconds=1)
_WIDTHS = {INT: 8, DECIMAL: 9, BOOL: 1, DATE: 4, DATETIME: 8}
"""How many bytes a value of each type has; a text says itself how many."""


def _behind_value(data: bytes, at: int, kind: int) -> int:
    """The place behind a value of a type."""
    if kind == TEXT:
        (length,) = _SHORT.unpack_from(data, at)
        return at + 2 + int(length)
    return at + _WIDTHS[kind]


def _value_at(data: bytes, at: int, kind: int) -> Value:
    """The value of a type that stands at a place."""
    if kind == TEXT:
        (length,) = _SHORT.unpack_from(data, at)
        return str(data[at + 2 : at + 2 + length], "utf-8")
    if kind == DECIMAL:
        return values.of_mantissa(*_DECIMAL.unpack_from(data, at))
    if kind == BOOL:
        return bool(data[at])
    if kind == DATE:
        return date(*_DATE.unpack_from(data, at))
    if kind == DATETIME:
        milliseconds: int = _MILLISECONDS.unpack_from(data, at + 4)[0]
        return _midnight(date(*_DATE.unpack_from(data, at))) + milliseconds * _MILLISECOND
    (number,) = _LONG.unpack_from(data, at)
    return int(number)


def _behind_feature(data: bytes, at: int, types: dict[int, int]) -> int:
    """The place behind a feature, of which no field is asked for."""
    _, length = _HEAD.unpack_from(data, at)
    at += 8 + length
    (count,) = _SHORT.unpack_from(data, at)
    at += 2
    for _ in range(count):
        (column,) = _SHORT.unpack_from(data, at)
        at = _behind_value(data, at + 2, types.get(column, INT))
    return at


class _Features(Sequence[FileFeature]):
    """Features in the bytes of a file that was read: memory holds the bytes, and a place for each."""

    def __init__(self, data: bytes, places: array[int], types: dict[int, int]) -> None:
        self._data = data
        self._places = places
        self._types = types

    def __eq__(self, other: object) -> bool:
        return isinstance(other, Sequence) and len(self) == len(other) and all(map(FileFeature.__eq__, self, other))

    def __len__(self) -> int:
        return len(self._places)

    def __iter__(self) -> Iterator[FileFeature]:
        return map(self._at, self._places)

    @overload
    def __getitem__(self, index: int) -> FileFeature: ...

    @overload
    def __getitem__(self, index: slice) -> list[FileFeature]: ...

    def __getitem__(self, index: int | slice) -> FileFeature | list[FileFeature]:
        if isinstance(index, slice):
            return list(map(self._at, self._places[index]))
        return self._at(self._places[index])

    def _at(self, at: int) -> FileFeature:
        """The feature at a place."""
        return feature_of(self._data, at, self._types)


def feature_of(data: bytes, at: int, types: Mapping[int, int]) -> FileFeature:
    """The feature that begins at a place, by the types of the columns."""
    identifier, length = _HEAD.unpack_from(data, at)
    geometry, at = data[at + 8 : at + 8 + length], at + 8 + length
    (count,) = _SHORT.unpack_from(data, at)
    at += 2
    found: dict[int, Value] = {}
    for _ in range(count):
        (column,) = _SHORT.unpack_from(data, at)
        kind = types[column]
        found[column] = _value_at(data, at + 2, kind)
        at = _behind_value(data, at + 2, kind)
    return FileFeature(identifier, geometry, found)


_VALUE_NAMES = {
    INT: "whole number of a value",
    TEXT: "text of a value",
    DECIMAL: "decimal of a value",
    BOOL: "bool of a value",
    DATE: "date of a value",
    DATETIME: "date and time of a value",
}


class _Found(Exception):
    """The field that was looked for is reached."""


class _Reader:
    """Reads a file from its front to its end."""

    def __init__(self, data: bytes, wanted: int | None = None) -> None:
        self._data = data
        self._at = 0
        self._wanted = wanted
        self.last = ""
        self.rules: list[AnyRule] = []

    def layers(self) -> list[FileLayer]:
        self._begin("first eight bytes")
        version = _VERSIONS.get(self._data[:8])
        if version is None:
            raise ValueError("no file of a store")
        self._at = 8
        if version > 1:
            self._begin("byte of the grid")
            self._at = 9
        layers = [self._layer() for _ in range(self._number("I", "number of layers"))]
        if version > 2:
            self.rules = [self._rule(version) for _ in range(self._number("H", "number of rules"))]
        self._begin("end")
        return layers

    def _layer(self) -> FileLayer:
        layer = FileLayer(
            self._text("B", "name of a layer"),
            self._number("B", "kind of a layer"),
            self._number("I", "next identifier of a layer"),
            self._number("H", "next column number of a layer"),
        )
        columns = range(self._number("H", "number of columns"))
        layer.columns = [self._column() for _ in columns]
        types = {column.number: column.type for column in layer.columns}
        places = array("Q")
        for _ in range(self._number("I", "number of features")):
            places.append(self._at)
            if self._wanted is None:
                self._at = _behind_feature(self._data, self._at, types)
            else:
                self._feature(types)
        if self._at > len(self._data):
            raise ValueError("the file ends in a feature")
        layer.features = _Features(self._data, places, types)
        return layer

    def _column(self) -> FileColumn:
        return FileColumn(
            self._number("H", "number of a column"),
            self._number("B", "type of a column"),
            self._text("B", "name of a column"),
        )

    def _feature(self, types: dict[int, int]) -> None:
        """Reads beyond a feature, whose fields are looked at."""
        self._number("I", "identifier of a feature")
        self._bytes(self._number("I", "length of a geometry"), "geometry")
        for _ in range(self._number("H", "number of values")):
            self._skip_value(types[self._number("H", "column number of a value")])

    def _skip_value(self, kind: int) -> None:
        """Reads beyond a value of a type."""
        if kind == TEXT:
            self._text("H", _VALUE_NAMES[kind])
        else:
            self._bytes(_WIDTHS[kind], _VALUE_NAMES[kind])

    def _rule(self, version: int) -> AnyRule:
        name = self._text("B", "name of a rule")
        byte = self._number("B", "form of a rule")
        if byte in _DEMANDS and version > 3:
            return self._value_rule(name, _DEMANDS[byte])
        forms, asked = (_NEAR_FORMS, self._near) if byte in _NEAR_FORMS and version > 3 else (_FORMS, self._ask)
        form = forms.get(byte)
        if form is None:
            raise ValueError("the form of a rule is none")
        layer = self._text("B", "layer of a rule")
        return Rule(name, form, layer, asked(), self._text("B", "layer of a rule"))

    def _value_rule(self, name: str, demand: Demand) -> ValueRule:
        layer, column = self._text("B", "layer of a rule"), self._text("B", "column of a rule")
        if demand == "one-of":
            count = self._number("H", "number of values of a rule")
            return ValueRule(name, demand, layer, column, tuple(self._named_value() for _ in range(count)))
        if demand == "range":
            ends = self._number("B", "ends of a rule")
            if not 0 < ends < 4:
                raise ValueError("the ends of a rule are none")
            least, greatest = (self._named_value() if ends & bit else None for bit in (1, 2))
            return ValueRule(name, demand, layer, column, (), least, greatest)
        return ValueRule(name, demand, layer, column)

    def _named_value(self) -> Value:
        """A value that a rule names, behind the byte of its type."""
        kind = self._number("B", "type of a value of a rule")
        if kind not in _VALUE_NAMES:
            raise ValueError("the type of a value of a rule is none")
        at = self._at
        self._skip_value(kind)
        return _value_at(self._data, at, kind)

    def _ask(self) -> str:
        """What a rule asks: the number of a predicate, or 0 and a pattern."""
        number = self._number("B", "what a rule asks")
        if number == 0:
            return self._bytes(9, "what a rule asks").decode("ascii")
        if number > len(PREDICATES):
            raise ValueError("a rule asks what is no predicate")
        return PREDICATES[number - 1]

    def _near(self) -> str:
        """What a rule by a distance asks, as rows of ``rules`` have it."""
        thousandths = self._number("Q", "distance of a rule")
        if thousandths >= DISTANCE_LIMIT * 10**DISTANCE_PLACES:
            raise ValueError("the distance of a rule is none")
        return near_asked(Decimal(thousandths).scaleb(-DISTANCE_PLACES))

    def _begin(self, name: str) -> None:
        self.last = name
        if self._at == self._wanted:
            raise _Found

    def _number(self, form: str, name: str) -> int:
        self._begin(name)
        (number,) = struct.unpack_from(">" + form, self._data, self._at)
        self._at += struct.calcsize(">" + form)
        return int(number)

    def _text(self, form: str, name: str) -> str:
        length = self._number(form, name)
        return self._bytes(length, name).decode("utf-8")

    def _bytes(self, length: int, name: str) -> bytes:
        self._begin(name)
        taken = self._data[self._at : self._at + length]
        if len(taken) != length:
            raise ValueError(f"the file ends in the field {name}")
        self._at += length
        return taken
