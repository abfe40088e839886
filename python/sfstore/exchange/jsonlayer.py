"""GeoJSON and GeoJSONSeq as a layer. A file is read twice: for what it has as a whole, and for its features.

All that a feature has is taken or reported: members beside its properties, names that stand twice, identifiers that
the store has no place for, and values of several kinds in one column.
"""

from __future__ import annotations

import os
import re
from array import array
from collections import Counter
from collections.abc import Iterator, Mapping
from dataclasses import dataclass, field
from decimal import Decimal
from functools import cached_property
from typing import Any, NamedTuple

from sfstore.exchange import ogr
from sfstore.exchange.columns import INTEGER, INTEGER_64, REAL, STRING
from sfstore.exchange.fields import text_fault
from sfstore.exchange.jsongeometry import KINDS, binary
from sfstore.exchange.jsontext import Repeated, members, object_of, text_of
from sfstore.exchange.layers import STRANGER, Fault, Feature, Layer, Lost, SourceColumns
from sfstore.exchange.names import Names, kept_name
from sfstore.exchange.spool import Features, are_distinct
from sfstore.exchange.stored import MAKERS, decimal_of
from sfstore.language import IDENTIFIER_MAX, INT_MAX, INT_MIN
from sfstore.results import Value
from sfstore.sidecar import ColumnOrigin, Crs
from sfstore.storefile import BOOL, DECIMAL, INT, TEXT, FileColumn

__all__ = ["JsonLayer"]

_OF_A_COLLECTION = {"type", "features", "name", "crs", "bbox"}
_OF_A_FEATURE = {"type", "id", "geometry", "properties", "bbox"}
_OF_A_GEOMETRY, _OF_SEVERAL = {"type", "coordinates", "bbox"}, {"type", "geometries", "bbox"}
_SHORT_MIN, _SHORT_MAX = -(2**31), 2**31 - 1
# How many faults are told.
_SHOWN = 8
# Names of reference systems that OGR looks up in its own tables. Others could be those of files, or of the network.
_CRS_NAME = re.compile(r"(urn:|https?://(www\.)?opengis\.net/def/crs/)[A-Za-z0-9:/._-]+|[A-Z]+:[A-Za-z0-9]+")
_EPSG_CODE = re.compile("[1-9][0-9]{0,8}", re.ASCII)
# In both longitude comes first in a GeoJSON.
_DEGREES = {"EPSG:4326", "OGC:CRS84"}
# The column of identifiers that the store can't have.
_IDENTIFIER = "id"
# In which order the kinds of values are told.
_KINDS_OF_VALUES = ["whole numbers", "real numbers", "booleans", "texts", "objects", "lists"]
_WHOLE, _REAL, _BOOLEAN, _TEXT, _OBJECT, _LIST = _KINDS_OF_VALUES
_KINDS_BY_TYPE = {bool: _BOOLEAN, int: _WHOLE, str: _TEXT, dict: _OBJECT, Repeated: _OBJECT, list: _LIST}
_NUMBERS, _NESTED = {_WHOLE, _REAL}, {_OBJECT, _LIST}


class _Properties(NamedTuple):
    """A feature as it stands in the file."""

    identifier: Any
    """Its member ``id``, or none."""
    geometry: Any
    known: dict[str, Any]
    further: list[str]
    """Members that are none of GeoJSON."""
    system: Mapping[str, Any] = {}
    """The member ``crs`` that it has of its own, or its geometry; as some programs write it."""
    fault: str = ""


@dataclass
class _Column:
    """What the values of a column are."""

    kinds: set[str] = field(default_factory=set)
    is_short: bool = True
    """Whether each whole number has 32 bits."""
    fits: bool = True
    """Whether each number is one of the store."""

    def add(self, value: Any) -> None:
        kind = _kind_of(value)
        self.kinds.add(kind)
        if kind in _NUMBERS:
            is_one = INT_MIN <= value <= INT_MAX if type(value) is int else not decimal_of(value).fault
            self.fits = self.fits and is_one
            self.is_short = self.is_short and _SHORT_MIN <= value <= _SHORT_MAX

    @property
    def type(self) -> tuple[str, str]:
        """Its type and the type's kind, in OGR's words."""
        if self.kinds == {_WHOLE}:
            return INTEGER if self.is_short else INTEGER_64, "None"
        if self.kinds == {_BOOLEAN}:
            return INTEGER, "Boolean"
        if self.kinds and self.kinds <= _NUMBERS:
            return REAL, "None"
        return STRING, "JSON" if self.kinds and self.kinds <= _NESTED else "None"

    @property
    def is_mixed(self) -> bool:
        """Whether its values are texts because they are of several kinds."""
        return len(self.kinds) > 1 and not self.kinds <= _NUMBERS and not self.kinds <= _NESTED


@dataclass
class _Survey:
    """What a file has as a whole."""

    head: dict[str, Any] = field(default_factory=dict)
    """The members of its collection, but for the features."""
    count: int = 0
    columns: dict[str, _Column] = field(default_factory=dict)
    identifiers: array[int] = field(default_factory=lambda: array("q"))
    """The identifiers that the store can have."""
    identifier: _Column = field(default_factory=_Column)
    """What all identifiers are."""
    kinds: set[int] = field(default_factory=set)
    """The codes of the kinds of geometries."""
    further: Counter[str] = field(default_factory=Counter)
    """How many features have members that are none of GeoJSON, by the members."""
    systems: dict[str, Mapping[str, Any]] = field(default_factory=dict)
    """The members ``crs`` of features, or that they have none, by their texts."""
    elements: int = 0
    faults: list[str] = field(default_factory=list)
    """Why some elements are no features."""

    def add(self, feature: _Properties) -> None:
        self.elements += 1
        if feature.fault:
            self.faults.append(f"element {self.elements} ({feature.fault})")
            return
        self.count += 1
        self.further.update(feature.further)
        self.systems.setdefault(_text_of_system(feature.system), feature.system)
        if feature.identifier is not None:
            self.identifier.add(feature.identifier)
            if type(feature.identifier) is int and 0 <= feature.identifier < IDENTIFIER_MAX:
                self.identifiers.append(feature.identifier)
        kind = feature.geometry.get("type") if isinstance(feature.geometry, dict) else None
        if kind in KINDS:
            self.kinds.add(KINDS.index(kind))
        for name, value in feature.known.items():
            column = self.columns.setdefault(name, _Column())
            if value is not None:
                column.add(value)

    @cached_property
    def keeps_identifiers(self) -> bool:
        """Whether each feature has an identifier of its own that the store can have. It is asked once all are added."""
        return len(self.identifiers) == self.count and are_distinct(self.identifiers)

    @property
    def system(self) -> Mapping[str, Any]:
        """The member ``crs`` of the collection, or else the one that all features have."""
        if "crs" in self.head:
            return {"crs": self.head["crs"]}
        return next(iter(self.systems.values())) if len(self.systems) == 1 else {}

    @property
    def has_column_of_identifiers(self) -> bool:
        return not self.keeps_identifiers and bool(self.identifier.kinds)


class JsonLayer(Layer):
    """The layer of a file. `ogr.ExchangeError` where it is no GeoJSON."""

    format = "GeoJSON"

    def __init__(self, path: str) -> None:
        self._path = path
        self._survey = _surveyed(path)
        name = self._survey.head.get("name")
        self.name = name if isinstance(name, str) and name else os.path.splitext(os.path.basename(path))[0]
        self._names = _columns_of_names(self._survey.columns)
        self._crs = _crs(self._survey.system)
        own = _text_of_system(self._survey.system)
        # What has none has that of the collection.
        systems = {text: system for text, system in self._survey.systems.items() if system and text != own}
        self._strangers = {text for text, system in systems.items() if not _is_same(_crs(system), self._crs)}

    def crs(self) -> Crs | None:
        return self._crs

    def count(self) -> int:
        return self._survey.count

    def features(self) -> Iterator[Feature]:
        _, module, _ = ogr.gdal()
        for at, found in enumerate(feature for feature in _features(self._path, {}) if not feature.fault):
            # One that is none was written since the survey, and the source is refused at the end.
            is_kept = self._survey.keeps_identifiers and type(found.identifier) is int
            identifier = found.identifier if is_kept else at
            system = _text_of_system(found.system)
            if system in self._strangers:
                yield Feature(identifier, None, found, f"its crs is {system:.100}", STRANGER)
                continue
            geometry, fault = None, ""
            try:
                if found.geometry is not None:
                    geometry = module.CreateGeometryFromWkb(binary(found.geometry))
            except (ValueError, RuntimeError) as error:
                # One that is nested too deeply is among these.
                fault = str(error)
            yield Feature(identifier, geometry, found, fault)

    def names(self) -> list[str]:
        """The names of the properties, those without a value too."""
        return list(self._survey.columns)

    def identifiers(self) -> list[int] | None:
        """The identifiers of the features; none where they are not those that the store has."""
        survey = self._survey
        return list(survey.identifiers) if survey.keeps_identifiers and 0 not in survey.identifiers else None

    def kind(self) -> int:
        return min(self._survey.kinds) if len(self._survey.kinds) == 1 else 0

    def name_of(self, feature: Feature) -> str:
        found = next((feature.content.known.get(name) for name in self._names), None)
        if not isinstance(found, str):
            return ""
        return kept_name(found, "")

    def columns(self, as_text: bool, names: Mapping[str, str], wanted: Mapping[str, str]) -> SourceColumns:
        return _Columns(self._survey, as_text, names, wanted)

    def lost(self, read: int) -> Iterator[Lost]:
        if self._survey.faults:
            faults = self._survey.faults
            more = f" and {len(faults) - _SHOWN} more" if len(faults) > _SHOWN else ""
            yield Lost("elements that are no features are left out", ", ".join(faults[:_SHOWN]) + more)
        if self._survey.further:
            shown = ", ".join(f"{name} of {count}" for name, count in self._survey.further.items())
            yield Lost("members of features that are no properties are left out", shown)
        head = self._survey.head
        further = [name for name in head if name not in _OF_A_COLLECTION]
        if further:
            yield Lost("members of the file beside its features are left out", ", ".join(further))
        system = self._survey.system
        if system and system["crs"] is None:
            yield Lost("it says that its reference system is unknown", "crs: null")
        elif system and not _is_known(system["crs"]):
            yield Lost("a reference system that is unknown is left out", f"{_text_of_system(system):.100}")


def _surveyed(path: str) -> _Survey:
    survey = _Survey()
    for feature in _features(path, survey.head):
        survey.add(feature)
    return survey


def _features(path: str, head: dict[str, Any]) -> Iterator[_Properties]:
    """The features of a file. The members of its collection beside them go to ``head``.

    `ogr.ExchangeError` where it is no GeoJSON.
    """
    known: list[tuple[str, Any]] = []
    collections: list[int] = []
    for text, name, value, is_element in members(path):
        if is_element:
            yield _parted(value)
        elif name == "features" and isinstance(value, list):
            collections.append(text)
        elif name:
            known.append((name, value))
        else:
            found = object_of(known)
            if text in collections:
                _check_collection(path, found)
                head.update(found)
            else:
                yield _single(path, found)
            known = []
        if collections not in ([], [0]) or (collections and text > 0):
            raise _no_geojson(path, "it has features twice, or beside other objects")


def _no_geojson(path: str, why: str) -> ogr.ExchangeError:
    return ogr.ExchangeError(f"{ogr.printable(path)} is no GeoJSON: {ogr.printable(why)}")


def _check_collection(path: str, found: dict[str, Any]) -> None:
    """`ogr.ExchangeError` where an object that has features is no collection, or has a member twice."""
    if found.get("type") != "FeatureCollection":
        raise _no_geojson(path, f"it has features, and the type {found.get('type')!r:.60}")
    if isinstance(found, Repeated):
        raise _no_geojson(path, f"{', '.join(found.names)} stands more than once in it")


def _single(path: str, found: dict[str, Any]) -> _Properties:
    """The feature that an object is, or that has it as its geometry."""
    kind = found.get("type")
    if kind == "Feature":
        return _parted(found)
    if kind in KINDS[1:]:
        return _parted({"type": "Feature", "properties": {}, "geometry": found})
    raise _no_geojson(path, "it has no features" if kind == "FeatureCollection" else f"its type is {kind!r:.60}")


def _parted(feature: Any) -> _Properties:
    """The parts of a feature, or why it is none."""
    fault = _fault_of(feature)
    if fault:
        return _Properties(None, None, {}, [], fault=fault)
    further = [name for name in feature if name not in _OF_A_FEATURE and name != "crs"]
    known = feature.get("properties")
    if "properties" not in feature:
        # Some programs write them so, and OGR reads them.
        known, further = {name: feature[name] for name in further}, []
    geometry = feature.get("geometry")
    system: dict[str, Any] = {}
    for each in (feature, geometry):
        if isinstance(each, dict) and "crs" in each:
            system = {"crs": each["crs"]}
    for each in _geometries(geometry):
        own = _OF_SEVERAL if each.get("type") == KINDS[-1] else _OF_A_GEOMETRY
        further += [f"geometry.{name}" for name in each if name not in own and (name != "crs" or each is not geometry)]
    return _Properties(feature.get("id"), geometry, known or {}, list(dict.fromkeys(further)), system)


def _geometries(geometry: Any) -> Iterator[dict[str, Any]]:
    """A geometry, and all that it is a collection of: a stranger's may be deep, so that no function calls itself."""
    left = [geometry]
    while left:
        found = left.pop()
        if isinstance(found, dict):
            yield found
            members = found.get("geometries") if found.get("type") == KINDS[-1] else None
            left += reversed(members) if isinstance(members, list) else []


def _fault_of(feature: Any) -> str:
    """Why something is no feature, or nothing."""
    if not isinstance(feature, dict):
        return "an element that is no object"
    if feature.get("type") != "Feature":
        return ogr.printable(f"an element of the type {feature.get('type')!r:.60}")
    for each in (feature, *_geometries(feature.get("geometry"))):
        if isinstance(each, Repeated):
            return f"{', '.join(each.names)} stands more than once in it"
    if not isinstance(feature.get("properties"), (dict, type(None))):
        return "its properties are no object"
    return ""


def _columns_of_names(columns: Mapping[str, _Column]) -> list[str]:
    """The column that has the features' names, or none: one of texts that is called so."""
    texts = [name for name, column in columns.items() if column.kinds == {_TEXT}]
    exact = [name for name in texts if name.casefold() == "name"]
    return (exact or [name for name in texts if "name" in name.casefold()])[:1]


def _named_crs(member: Any) -> str:
    """The name of the reference system that a member says; nothing where it says none without doubt."""
    properties = member.get("properties") if isinstance(member, dict) else None
    if not isinstance(properties, dict) or isinstance(member, Repeated) or isinstance(properties, Repeated):
        return ""
    name, code = properties.get("name"), properties.get("code")
    if member.get("type") == "name" and isinstance(name, str):
        return name if _CRS_NAME.fullmatch(name) else ""
    if member.get("type") == "EPSG" and type(code) in (int, str):
        return f"EPSG:{code}" if _EPSG_CODE.fullmatch(str(code)) else ""
    return ""


def _is_known(member: Any) -> bool:
    """Whether OGR knows the reference system that a member names, without a look into the network."""
    name = _named_crs(member)
    try:
        return bool(name) and bool(ogr.crs_named(name))
    except ogr.ExchangeError:
        return False


def _text_of_system(system: Mapping[str, Any]) -> str:
    """A member ``crs`` as JSON; nothing where there is none."""
    try:
        return text_of(system["crs"]) if system else ""
    except RecursionError:
        return "nested too deeply"


def _is_same(crs: Crs | None, other: Crs | None) -> bool:
    """Whether two reference systems are one that is known: longitude and latitude have two codes."""
    if crs is None or other is None:
        return False
    return crs == other or {f"{crs}", f"{other}"} == _DEGREES


def _crs(head: Mapping[str, Any]) -> Crs | None:
    """The reference system of a collection, as OGR reads the member that names it: degrees where there is none.

    OGR takes degrees for one that it does not know, and for ``null``, which says that it is unknown.
    """
    if "crs" in head and not _is_known(head["crs"]):
        return None
    crs = {"crs": head["crs"]} if "crs" in head else {}
    try:
        empty = ogr.open_data(text_of({"type": "FeatureCollection", **crs, "features": []}), ["GeoJSON"])
        return ogr.crs_of(empty.GetLayer(0))
    except (RuntimeError, UnicodeError):
        return None


def _kind_of(value: Any) -> str:
    kind = _KINDS_BY_TYPE.get(type(value))
    if kind is not None:
        return kind
    # A whole number of many digits is no real one.
    return _WHOLE if isinstance(value, Decimal) and value.as_tuple().exponent == 0 else _REAL


def _is_whole(number: int | Decimal) -> bool:
    """Whether a number is a whole one of the store."""
    return INT_MIN <= number <= INT_MAX and number == int(number)


class _Taken(NamedTuple):
    """A column that is taken."""

    number: int
    type: int
    name: str
    source_name: str
    column: _Column


class _Columns(SourceColumns):
    """The columns of a file's features."""

    def __init__(self, survey: _Survey, as_text: bool, names: Mapping[str, str], wanted: Mapping[str, str]) -> None:
        super().__init__()
        self._taken: dict[str, _Taken] = {}
        self._origins: list[ColumnOrigin] = []
        self._identifiers: _Taken | None = None
        used = Names()
        for source_name, column in survey.columns.items():
            name = names.get(source_name, source_name)
            kind = _type(column, as_text, wanted.get(name, ""))
            self._taken[source_name] = self._take(source_name, used.new(name), column, kind)
        name = names.get(_IDENTIFIER, _IDENTIFIER)
        # A layer that it is added to may have such a column, of the features before.
        is_wanted = name in wanted and _IDENTIFIER not in survey.columns and bool(survey.identifier.kinds)
        if survey.has_column_of_identifiers or is_wanted:
            name = used.new(name)
            kind = _type(survey.identifier, as_text, wanted.get(name, ""))
            self._identifiers = self._take(_IDENTIFIER, name, survey.identifier, kind)
            which = "that the store can't have" if survey.has_column_of_identifiers else "of the source"
            self.notes.append(f"identifiers {which} are in the column {name}")

    def _take(self, source_name: str, name: str, column: _Column, kind: int) -> _Taken:
        type_name, subtype = column.type
        if name != source_name:
            self.renamed.append((source_name, name))
        if column.is_mixed:
            kinds = ", ".join(kind for kind in _KINDS_OF_VALUES if kind in column.kinds)
            self.notes.append(f"column {name} has {kinds}: all are texts")
        elif column.kinds & _NESTED:
            kinds = " and ".join(kind for kind in (_OBJECT, _LIST) if kind in column.kinds)
            self.notes.append(f"column {name} has {kinds}: each is the text of its JSON")
        self._origins.append(ColumnOrigin(name, kept_name(source_name, name), type_name, subtype, 0))
        return _Taken(len(self._origins), kind, name, source_name, column)

    def values(self, feature: Feature) -> tuple[dict[int, Any], list[Fault]]:
        values: dict[int, Any] = {}
        faults: list[Fault] = []
        found: _Properties = feature.content
        if isinstance(found.known, Repeated):
            detail = f"the last value of {', '.join(found.known.names)} is taken"
            faults.append(Fault("a name that stands more than once among the properties", detail))
        rows = [(self._taken.get(name), value) for name, value in found.known.items()]
        for taken, value in (*rows, (self._identifiers, found.identifier)):
            if taken is None or value is None:
                continue
            stored, fault = _stored(taken, value)
            if fault:
                faults.append(Fault(fault, f"the value of column {taken.name} is left out"))
            else:
                values[taken.number] = stored
        return values, faults

    def types(self) -> dict[int, int]:
        return {each.number: each.type for each in self._all_taken}

    def finished(self, features: Features) -> tuple[list[FileColumn], Features, list[ColumnOrigin]]:
        return [FileColumn(each.number, each.type, each.name) for each in self._all_taken], features, self._origins

    @property
    def _all_taken(self) -> list[_Taken]:
        return [*self._taken.values(), *([self._identifiers] if self._identifiers else [])]


def _type(column: _Column, as_text: bool, wanted: str) -> int:
    """The type of a column in the store. ``wanted`` is that of the store's layer that it is added to, if there is one."""
    type_name, subtype = column.type
    if type_name == STRING or wanted == "text" or (type_name == REAL and as_text and not column.fits):
        return TEXT
    if (type_name == REAL and wanted != "int") or wanted == "decimal":
        return DECIMAL
    return BOOL if subtype == "Boolean" and wanted != "int" else INT


def _stored(taken: _Taken, value: Any) -> tuple[Value, str]:
    """A value as the store has it, and why it can't have it, or nothing."""
    if taken.type != TEXT and not isinstance(value, (int, Decimal)):
        return 0, "a value that was written since the survey"
    if taken.type == INT and _is_whole(value):
        return int(value), ""
    if taken.type == INT:
        is_whole = value == Decimal(value).to_integral_value()
        return 0, "a whole number of more than 64 bits" if is_whole else "a number that is no whole one"
    if taken.type in MAKERS:
        made = MAKERS[taken.type](value)
        return (0 if made.value is None else made.value), made.fault
    try:
        text = value if isinstance(value, str) else text_of(value)
    except RecursionError:
        return "", "a value that is nested too deeply"
    try:
        text.encode("utf-8")
    except UnicodeError:
        return "", "a text that is not UTF-8"
    return text, text_fault(text)
