"""The columns of a layer of OGR as columns of a store: which are taken, and the values of a feature.

Real numbers are decimals of the store. A value that the store can't have is left out and reported; where texts are
wanted for those, its column becomes one of texts, which is known behind the last feature. OGR reads a value as the type
of its column says, whatever it is. So a GeoPackage and a database are asked for those that are of another type.
"""

from __future__ import annotations

import json
import re
from collections import Counter
from collections.abc import Callable, Mapping
from decimal import Decimal
from functools import partial
from typing import Any, NamedTuple, cast

from sfstore.exchange import flatgeobuf, ogr
from sfstore.exchange.asking import asked, quoted, tells_apart
from sfstore.exchange.columns import DATE, DATE_TIME, INTEGER, INTEGER_64, REAL, STRING
from sfstore.exchange.constraints import Demanded, demands_of, left_aside
from sfstore.exchange.jsontext import text_of
from sfstore.exchange.layers import Fault, Feature, Left, SourceColumns
from sfstore.exchange.moments import day_of, moment_of, text_of_day, text_of_moment, text_of_time
from sfstore.exchange.names import Names, kept_name
from sfstore.exchange.shapefiles import foreign_columns, odd_values
from sfstore.exchange.spool import Features
from sfstore.exchange.stored import MAKERS, Made, whole_of
from sfstore.exchange.tables import columns_of, confused, table_of
from sfstore.language import TEXT_MAX
from sfstore.results import Value
from sfstore.sidecar import ColumnOrigin
from sfstore.storefile import BOOL, DATETIME, DECIMAL, INT, TEXT, FileColumn
from sfstore.storefile import DATE as FILE_DATE

__all__ = ["Fields", "text_fault"]

# The types of the store that are those of OGR.
_TYPES = {REAL: DECIMAL, DATE: FILE_DATE, DATE_TIME: DATETIME}
_NUMBERS = (INTEGER, INTEGER_64, REAL)
_WHOLE = re.compile(r"-?[0-9]{1,19}", re.ASCII)
_DECIMAL = re.compile(r"-?[0-9]+(\.[0-9]+)?", re.ASCII)
_TIME = re.compile(r"[0-9]{2}:[0-9]{2}:[0-9]{2}(\.[0-9]{1,6})?([+-][0-9]{2}(:?[0-9]{2})*)?", re.ASCII)
# Days and moments of PostgreSQL before the year 1 and behind the year 9999.
_FAR_DAY = re.compile(r"([0-9]{4,7}-[0-9]{2}-[0-9]{2} BC|[0-9]{5,7}-[0-9]{2}-[0-9]{2})", re.ASCII)
_FAR_MOMENT = re.compile(r"[0-9]{4,7}-[0-9]{2}-[0-9]{2}T[0-9]{2}:[0-9]{2}:[0-9]{2}\.[0-9]{6}Z?( BC)?", re.ASCII)
_INFINITE = ("infinity", "-infinity")

_DAY_FORM = "[0-9][0-9][0-9][0-9]-[0-9][0-9]-[0-9][0-9]"
_TIME_FORM = "[0-9][0-9]:[0-9][0-9]:[0-9][0-9]"

_BINARY = "Binary"
# A text of so many characters has room, whatever these are.
_SURELY_SHORT = TEXT_MAX // 4

# SQLite keeps a value of any kind in a column of any type. These say which are of the column's type.
_FITTING = {
    INTEGER: "typeof({0}) = 'integer' AND {0} BETWEEN -2147483648 AND 2147483647",
    INTEGER_64: "typeof({0}) = 'integer'",
    # OGR makes a double of a whole number, which further ones are not.
    REAL: f"typeof({{0}}) = 'real' OR typeof({{0}}) = 'integer' AND {{0}} BETWEEN -{2**53} AND {2**53}",
    _BINARY: "typeof({0}) = 'blob'",
    STRING: "typeof({0}) = 'text' AND instr({0}, char(0)) = 0",
    DATE: f"typeof({{0}}) = 'text' AND {{0}} GLOB '{_DAY_FORM}' AND date({{0}}, '+0 days') IS {{0}}",
    DATE_TIME: f"typeof({{0}}) = 'text' AND ({{0}} GLOB '{_DAY_FORM}T{_TIME_FORM}Z' "
    f"OR {{0}} GLOB '{_DAY_FORM}T{_TIME_FORM}.[0-9][0-9][0-9]Z') "
    "AND strftime('%Y-%m-%dT%H:%M:%S', {0}, '+0 days') IS substr({0}, 1, 19)",
}

# Without a type that is its own a column has numbers too, of which OGR makes their texts.
_FITTING_OF_SQLITE = {**_FITTING, STRING: "typeof({0}) <> 'blob' AND instr({0}, char(0)) = 0"}
# What keeps values in SQLite.
_OF_SQLITE = {"GPKG": _FITTING, "SQLite": _FITTING_OF_SQLITE}

# The types of PostgreSQL that OGR reads as whole numbers and that are some. It takes an interval for one.
_WHOLE_TYPES = {"smallint", "integer", "bigint", "boolean", "numeric", "oid"}
# A number of PostgreSQL that is other than its double, in the shortest text of it.
_NO_DOUBLE = (
    "CASE WHEN {0} IS NULL OR {0}::text IN ('NaN', 'Infinity', '-Infinity') OR {0} = 0 THEN false "
    "WHEN abs({0}) BETWEEN 1e-300 AND 1e300 THEN {0}::float8::text::numeric <> {0} ELSE true END"
)
# A time that OGR would change: one with parts of a millisecond, and the end of a day, which it drops.
_ODD_TIME = "({0}::text LIKE '%.____%' OR {0}::text LIKE '24:%')"
# Days of which OGR drops those before the year 1.
_ODD_DAY = "(NOT isfinite({0}) OR {0} NOT BETWEEN '0001-01-01' AND '9999-12-31')"
_ODD_MOMENT = "(NOT isfinite({0}) OR {0} < '0001-01-02' OR {0} >= '9999-12-31' OR date_trunc('milliseconds', {0}) <> {0})"
# OGR takes a list apart by its text, and reads it as it is where nothing in that is quoted, no list stands in it, and
# its places begin with 1: else it drops signs and members, or makes others. No member may be none of JSON.
_ODD_LIST = """({0}::text !~ '^[{{][^"{{}}]+[}}]$' OR {0}::text ~ '[{{,](NULL|NaN|-?Infinity)[,}}]')"""


def _dated(value: str, form: str) -> str:
    """The text of a day or moment of PostgreSQL in a form, as SQL."""
    before = f"WHEN {value} < '0001-01-01' THEN to_char({value}, '{form} BC')"
    return f"CASE WHEN NOT isfinite({value}) THEN {value}::text {before} ELSE to_char({value}, '{form}') END"


_MOMENT_FORM = 'YYYY-MM-DD"T"HH24:MI:SS.US'
# Of a type of PostgreSQL, the values that OGR would change, with their texts.
_ODD_OF_POSTGRESQL = {
    "numeric": ("{0} NOT BETWEEN -9223372036854775808 AND 9223372036854775807", "{0}::text"),
    "date": (_ODD_DAY, _dated("{0}", "YYYY-MM-DD")),
    "timestamp without time zone": (_ODD_MOMENT, _dated("{0}", _MOMENT_FORM)),
    "timestamp with time zone": (_ODD_MOMENT, _dated("({0} AT TIME ZONE 'UTC')", _MOMENT_FORM + '"Z"')),
    "time without time zone": (_ODD_TIME, "{0}::text"),
    "time with time zone": (_ODD_TIME, "{0}::text"),
    # Of these OGR makes doubles.
    "numeric[]": ("{0} IS NOT NULL", "to_json({0})::text"),
}
_OF_LISTS = (_ODD_LIST, "to_json({0})::text")


class _Field(NamedTuple):
    """A column that is taken."""

    number: int
    place: int
    """Its place among the source's."""
    name: str
    type: int
    """The type in the store; at the end it may be that of texts in its place."""
    source_name: str
    source_type: str

    @property
    def is_list(self) -> bool:
        return self.source_type.endswith("List")

    @property
    def maker(self) -> Callable[[Any], Made] | None:
        """What makes values of the store of the source's, where these are others."""
        if self.source_type == REAL and self.type == INT:
            return whole_of
        return MAKERS.get(self.type)


class _Reading(NamedTuple):
    """How the values of a column are read."""

    number: int
    place: int
    read: Callable[[Any, int], Any]
    """A value of a feature, at a place, as OGR has it: a number, or a text; none where that is not UTF-8."""
    maker: Callable[[Any], Made] | None
    is_text: bool
    """Whether the column becomes one of texts where a value is none of its type."""
    field: _Field

    @property
    def is_kept_as_text(self) -> bool:
        """Whether nobody knows before the last value what each becomes."""
        return self.is_text and self.maker is not None


class Fields(SourceColumns):
    """The columns of one layer."""

    def __init__(
        self,
        source: Any,
        layer: Any,
        as_text: bool,
        names: Mapping[str, str],
        wanted: Mapping[str, str] | None = None,
        file: str = "",
    ) -> None:
        """``names`` are those of the store by those of the source, and ``wanted`` the types that a store's layer has.

        ``file`` is that of a FlatGeobuf, which has one layer.
        """
        super().__init__()
        self._file = file
        self._source = source
        self._layer = layer
        self._as_text = as_text
        self._wanted = wanted or {}
        self._driver: str = source.GetDriver().ShortName
        self._database_types = columns_of(source, layer) if self._driver == "PostgreSQL" else {}
        self._broken: set[int] = set()
        self._changed: Counter[tuple[str, str]] = Counter()
        self._fields: list[_Field] = []
        self._known_readings: list[_Reading] = []
        self._origins: dict[int, ColumnOrigin] = {}
        self._take(names)
        self._odd: dict[tuple[int, int], tuple[str, str | None]] = {}

    def values(self, read: Feature) -> tuple[dict[int, Any], list[Fault]]:
        """The values of a feature by the numbers of their columns, and what is left out of them.

        Where a column may become one of texts, they are texts that say what the source has, until `finished`.
        """
        values: dict[int, Any] = {}
        faults: list[Fault] = []
        identifier, feature = read.identifier, read.content
        for reading in self._readings():
            number, place, read_at, maker, _, field = reading
            odd = self._odd.get((identifier, place)) if self._odd else None
            if odd is None and not feature.IsFieldSetAndNotNull(place):
                continue
            if odd is not None and odd[1] is None:
                reason = f"a value that is none of the column's type {field.source_type}"
                faults.append(Fault(reason, f"the value {odd[0]} of column {field.name} is left out"))
                continue
            value = read_at(feature, place) if odd is None else odd[1]
            fault = ""
            if maker is not None:
                value, fault = self._made(reading, maker, value)
            elif not isinstance(value, int):
                fault = _text_fault(value)
            if fault:
                faults.append(Fault(fault, f"the value of column {field.name} is left out"))
                continue
            values[number] = value
        return values, faults

    def _readings(self) -> list[_Reading]:
        """How the columns are read. That stands when the first feature is read: `find_odd` may leave some out."""
        if not self._known_readings:
            self._known_readings = [
                _Reading(field.number, field.place, _reader_of(field), field.maker, self._is_text(field.name), field)
                for field in self._fields
            ]
        return self._known_readings

    def _made(self, reading: _Reading, maker: Callable[[Any], Made], value: Any) -> tuple[Any, str]:
        """A value as it is kept, and why the store can't have it, or nothing.

        Where its column may become one of texts, those are the measure.
        """
        if reading.number not in self._broken:
            found, fault, change = maker(value)
            if change:
                self._changed[reading.field.name, change] += 1
            if not reading.is_text:
                return found, fault
            if not fault:
                return _kept(value), ""
            self._broken.add(reading.number)
        return _kept(value), _text_fault(_text_of(value))

    def types(self) -> dict[int, int]:
        return {reading.number: TEXT if reading.is_kept_as_text else reading.field.type for reading in self._readings()}

    def finished(self, features: Features) -> tuple[list[FileColumn], Features, list[ColumnOrigin]]:
        """The columns at the end, the features with them, and what the columns were in the source."""
        # Those that were left out have no number.
        new = {field.number: number for number, field in enumerate(self._fields, 1)}
        columns = [FileColumn(new[field.number], self._final_type(field), field.name) for field in self._fields]
        makers = {reading.number: self._finisher(reading) for reading in self._readings() if reading.is_kept_as_text}
        if makers or any(number != old for old, number in new.items()):
            types = {column.number: column.type for column in columns}
            features = features.changed(lambda each: each._replace(values=_settled(each.values, makers, new)), types)
        self.notes += [
            f"column {name}: {count:,} {'value is' if count == 1 else 'values are'} {change}"
            for (name, change), count in self._changed.items()
        ]
        return columns, features, [self._origins[field.number] for field in self._fields]

    def _finisher(self, reading: _Reading) -> Callable[[str], Value]:
        """What makes a value of the store of the text that a value of the source was kept as."""
        maker = reading.maker
        if maker is None or reading.number in self._broken:
            return lambda text: _text_of(_said(text))
        made = maker
        return lambda text: cast(Value, made(_said(text)).value)

    def demands(self) -> dict[str, frozenset[Demanded]]:
        """What the source demands of the columns that are taken, by their names; of those of which it demands something."""
        definition = self._layer.GetLayerDefn()
        found = {field.name: demands_of(definition.GetFieldDefn(field.place), self._source) for field in self._fields}
        return {name: demands for name, demands in found.items() if demands}

    def _final_type(self, field: _Field) -> int:
        """The type of a column in the store."""
        return TEXT if field.number in self._broken else field.type

    def _is_text(self, name: str) -> bool:
        """Whether a column of another type than the store's is to be one of texts."""
        return self._as_text or self._wanted.get(name) == "text"

    def _take(self, names: Mapping[str, str]) -> None:
        """Finds the columns that the store can have, and those that are left out."""
        _, module, _ = ogr.gdal()
        definition = self._layer.GetLayerDefn()
        left: dict[str, list[str]] = {}
        taken = Names()
        confused, foreign = self._confused(), self._foreign_types()
        for place in range(definition.GetFieldCount()):
            field = definition.GetFieldDefn(place)
            source_name, type_name = field.GetName(), field.GetTypeName()
            if source_name in confused:
                continue
            if place in foreign:
                left.setdefault(foreign[place], []).append(source_name)
                continue
            subtype = module.GetFieldSubTypeName(field.GetSubType())
            known = names.get(source_name, source_name)
            kind = self._type(known, type_name, subtype)
            if kind is None:
                left.setdefault(type_name, []).append(source_name)
                continue
            name = taken.new(known)
            if name != source_name:
                self.renamed.append((source_name, name))
            number = len(self._fields) + 1
            self._fields.append(_Field(number, place, name, kind, source_name, type_name))
            kept = kept_name(source_name, name)
            self._origins[number] = ColumnOrigin(name, kept, type_name, subtype, field.GetWidth())
        are_kept = {type_name: not self._as_text and type_name not in foreign.values() for type_name in left}
        self.left += [self._left(type_name, several, are_kept[type_name]) for type_name, several in left.items()]
        self._tell_domains()

    def _tell_domains(self) -> None:
        """Reports what columns say of their values that a store has no place for."""
        definition = self._layer.GetLayerDefn()
        fields = [definition.GetFieldDefn(field.place) for field in self._fields]
        names = [f"{field.GetName()} ({known})" for field in fields if (known := left_aside(field, self._source))]
        if names:
            self.left.append(Left("domains of columns, which say what their values mean or what no rule says, are left out", names, False))

    def _type(self, name: str, type_name: str, subtype: str) -> int | None:
        """The type that a column has in the store, or none where the store has none for it."""
        wanted = self._wanted.get(name, "")
        if type_name in (INTEGER, INTEGER_64):
            # A store that knows no truth values yet has them as whole numbers.
            own = BOOL if subtype == "Boolean" else INT
            return {"int": INT, "decimal": DECIMAL}.get(wanted, own)
        own_type = _TYPES.get(type_name)
        if own_type is None:
            return TEXT if type_name == STRING or self._is_text(name) else None
        if type_name == REAL and wanted == "int":
            return INT
        return TEXT if wanted == "text" else own_type

    def _left(self, type_name: str, names: list[str], are_kept: bool) -> Left:
        """That columns of a type are left out, in words, and whether they would be kept as texts."""
        one = len(names) == 1
        keeps = f" (--as-text keeps {'it' if one else 'them'})" if are_kept else ""
        words = "1 column" if one else f"{len(names)} columns"
        return Left(f"{words} of type {type_name} {'is' if one else 'are'} left out{keeps}", names)

    def _confused(self) -> set[str]:
        """The columns of a database whose names differ in case alone: OGR gives one the values of the other."""
        definition = self._layer.GetLayerDefn()
        # Those of geometries are among the database's, and not among these.
        fields = {definition.GetFieldDefn(place).GetName() for place in range(definition.GetFieldCount())}
        names = [name for name in confused(self._database_types) if name in fields]
        if names:
            reason = "columns whose names differ in case alone, which OGR does not tell apart, are left out"
            self.left.append(Left(reason, names))
        return set(names)

    def find_odd(self) -> None:
        """Asks the source itself for the values that OGR would change."""
        if self._driver in _OF_SQLITE:
            self._find_odd_of_sqlite(_OF_SQLITE[self._driver])
        elif self._driver == "PostgreSQL":
            self._find_odd_of_postgresql()
        elif self._driver == "ESRI Shapefile":
            self._find_odd_of_shapefile()
        elif self._file:
            self._find_odd_of_flatgeobuf()

    def forget_odd(self) -> None:
        """Lets go of what `find_odd` has found."""
        self._odd.clear()

    def _find_odd_of_sqlite(self, fitting: Mapping[str, str]) -> None:
        for field in list(self._fields):
            if field.source_type not in fitting:
                continue
            name = quoted(field.source_name)
            condition = f"{name} IS NOT NULL AND NOT ({fitting[field.source_type].format(name)})"
            shown = f"substr(quote({name}), 1, 60)"
            self._note_odd(field, condition, shown)

    def _find_odd_of_shapefile(self) -> None:
        fields = {field.place: field for field in self._fields}
        types = {place: field.source_type for place, field in fields.items()}
        for record, place, text, number in odd_values(self._source, self._layer.GetName(), types):
            if types[place] == STRING:
                # There every program ends a text: behind it stands what a writer has left in its buffer.
                self._changed[fields[place].name, "cut off at a byte 0"] += 1
            else:
                self._odd[record, place] = repr(text), number

    def _find_odd_of_flatgeobuf(self) -> None:
        taken = {field.place for field in self._fields}
        for feature, place, shown, value in flatgeobuf.odd_values(self._file):
            if place in taken:
                self._odd[feature, place] = shown, value

    def _find_odd_of_postgresql(self) -> None:
        for field in list(self._fields):
            type_name = self._database_types.get(field.source_name, "")
            known = _ODD_OF_POSTGRESQL.get(type_name, _OF_LISTS if field.is_list else None)
            if known is not None:
                condition, shown = known
                if field.source_type == REAL:
                    condition = _NO_DOUBLE
                name = quoted(field.source_name)
                self._note_odd(field, condition.format(name), f"quote_literal({shown.format(name)})")

    def _note_odd(self, field: _Field, condition: str, shown: str) -> None:
        """Notes the odd values of a column, or leaves it out where no identifiers say of which features they are."""
        table = table_of(self._source, self._layer)
        where = f"FROM {table} WHERE {condition}"
        identifier = self._layer.GetFIDColumn()
        if not identifier:
            [(count, _)] = asked(self._source, self._layer, f"SELECT CAST(count(*) AS text) AS place, '' AS value {where}")
            if count != "0":
                self._leave_out(field, int(count))
            return
        query = f"SELECT CAST({quoted(identifier)} AS text) AS place, {shown} AS value {where}"
        found = asked(self._source, self._layer, query)
        if found and not tells_apart(self._source, self._layer, table):
            self._leave_out(field, len(found))
            return
        for place, value in found:
            if _WHOLE.fullmatch(place):
                self._odd[int(place), field.place] = value, self._odd_text(field, value)

    def _leave_out(self, field: _Field, count: int) -> None:
        """Leaves out a column with so many odd values, of which nobody knows the features."""
        reason = f"a column with {count} values that are none of its type {field.source_type} is left out"
        self.left.append(Left(f"{reason}, since no identifiers say of which features", [field.source_name]))
        self._fields.remove(field)
        self._known_readings.clear()

    def _odd_text(self, field: _Field, shown: str) -> str | None:
        """The text of a value that OGR would change, as SQL writes it; none where it is no value of the column's type."""
        if field.source_type == REAL and self._driver in _OF_SQLITE and _WHOLE.fullmatch(shown):
            return shown
        text = _unquoted(shown)
        if text is None or field.source_type in (INTEGER, INTEGER_64):
            return None
        if field.is_list:
            return text_of(json.loads(text, parse_float=Decimal, parse_int=Decimal))
        if field.source_type == REAL:
            return text if self._driver == "PostgreSQL" and _DECIMAL.fullmatch(text) else None
        if field.source_type == DATE:
            return text if day_of(text) or _FAR_DAY.fullmatch(text) or text in _INFINITE else None
        if field.source_type == DATE_TIME:
            moment = moment_of(text)
            if moment is not None:
                return moment.text
            return text if _FAR_MOMENT.fullmatch(text) or text in _INFINITE else None
        if field.source_type == "Time":
            return text if _TIME.fullmatch(text) else None
        return None

    def _foreign_types(self) -> dict[int, str]:
        """The columns that OGR takes for whole numbers or texts and that are none, by their places, with their types."""
        if self._driver == "ESRI Shapefile":
            return foreign_columns(self._source, self._layer.GetName())
        if self._driver != "PostgreSQL":
            return {}
        _, module, _ = ogr.gdal()
        definition = self._layer.GetLayerDefn()
        types = self._database_types
        return {
            place: types[field.GetName()]
            for place, field in enumerate(map(definition.GetFieldDefn, range(definition.GetFieldCount())))
            if field.GetType() in (module.OFTInteger, module.OFTInteger64)
            and types.get(field.GetName(), "integer") not in _WHOLE_TYPES
        }


def _unquoted(shown: str) -> str | None:
    """The text that stands quoted, as SQL writes it; none where it is none."""
    if shown.startswith("E'") and shown.endswith("'"):
        # PostgreSQL's own form of a text with a backslash.
        return shown[2:-1].replace("''", "'").replace("\\\\", "\\")
    return shown[1:-1].replace("''", "'") if shown.startswith("'") and shown.endswith("'") else None


def _reader_of(field: _Field) -> Callable[[Any, int], Any]:
    """What reads a value of a column, of a feature and at a place."""
    if field.source_type in (INTEGER, INTEGER_64):
        return lambda feature, place: feature.GetFieldAsInteger64(place)
    if field.source_type == REAL and field.type == TEXT:
        return lambda feature, place: _text_of(feature.GetFieldAsDouble(place))
    if field.source_type == REAL:
        return lambda feature, place: feature.GetFieldAsDouble(place)
    return partial(_text, _texts_of(field))


def _text_of(value: float | int | str) -> str:
    """The text of a value of another type: of a double the shortest one."""
    return repr(value) if isinstance(value, float) else str(value)


def _text_fault(text: Any) -> str:
    """Why a text that was read is none of the store, or nothing."""
    if text is None:
        return "a text that is not UTF-8"
    return text_fault(text if isinstance(text, str) else _text_of(text))


def _settled(values: Mapping[int, Any], makers: Mapping[int, Callable[[Any], Value]], new: Mapping[int, int]) -> dict[int, Value]:
    """Values as the store has them, by the columns' new numbers."""
    return {new[number]: makers[number](value) if number in makers else value for number, value in values.items()}


def _kept(value: float | int | str) -> str:
    """A value of a source as a text, until it is known what it becomes. No text of a source has a byte 0."""
    if isinstance(value, str):
        return value
    return f"\0{value!r}" if isinstance(value, float) else f"\0\0{value}"


def _said(text: str) -> float | int | str:
    """The value of a source that `_kept` has made a text of."""
    if text.startswith("\0\0"):
        return int(text[2:])
    return float(text[1:]) if text.startswith("\0") else text


def _text(read: Callable[[Any, int], str], feature: Any, place: int) -> str | None:
    """The value of a feature as text, or none where it is not UTF-8."""
    try:
        text = read(feature, place)
        if not text.isascii():
            text.encode("utf-8")
    except UnicodeError:
        return None
    return text


def _texts_of(field: _Field) -> Callable[[Any, int], str]:
    """What reads a value of a column as text. `UnicodeError` where it is not UTF-8."""
    if field.source_type == DATE:
        return lambda feature, place: text_of_day(feature.GetFieldAsDateTime(place))
    if field.source_type == DATE_TIME:
        return lambda feature, place: text_of_moment(feature.GetFieldAsDateTime(place))
    if field.source_type == "Time":
        return lambda feature, place: text_of_time(feature.GetFieldAsDateTime(place))
    if field.is_list:
        return lambda feature, place: json.dumps(feature.GetField(place), ensure_ascii=False)
    if field.source_type == _BINARY:
        return lambda feature, place: bytes(feature.GetFieldAsBinary(place)).hex()
    return lambda feature, place: str(feature.GetFieldAsString(place))


def text_fault(text: str) -> str:
    """Why a text is none of the store, or nothing."""
    if "\0" in text:
        return "a text with a byte 0"
    if len(text) > _SURELY_SHORT and len(text.encode("utf-8")) > TEXT_MAX:
        return f"a text of more than {TEXT_MAX} bytes"
    return ""
