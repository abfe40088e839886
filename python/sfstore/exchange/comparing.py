"""A file that was written is read back, and compared with the store, before it takes its place.

The store is the measure: what a format does not keep is left aside, and all else has to be there.
"""

from __future__ import annotations

import os
from collections.abc import Sequence
from typing import Any

from sfstore.exchange import geojson, ogr, wayback
from sfstore.exchange.columns import DATE, DATE_TIME, INTEGER, INTEGER_64, REAL, Sort, values_of
from sfstore.exchange.constraints import demands_of
from sfstore.exchange.formats import FORMATS, Part
from sfstore.exchange.grid import Grid
from sfstore.exchange.moments import day_of, moment_of, text_of_day, text_of_moment
from sfstore.geometry import Flat, NotTaken, Shape, read_wkb, write_wkb
from sfstore.sidecar import Crs, Sidecar
from sfstore.storefile import FileFeature

__all__ = ["compare"]

_SHAPEFILE = "ESRI Shapefile"
# A column of a Shapefile has room for so many bytes of a text.
_TEXT_BYTES = 254
# How much a real number of a Shapefile may differ: it has 15 decimals, as far as 24 characters go.
_ABSOLUTE, _RELATIVE = 1e-15, 1e-15
_WHOLE = {INTEGER, INTEGER_64}
# OGR's number of the order of bytes that the store's binaries have.
_LEAST_FIRST = 1


def compare(path: str, name: str, parts: Sequence[Part], found: Sidecar, metadata: str) -> None:
    """`ogr.ExchangeError` where a file has anything else than layers, but for what its format does not keep."""
    try:
        # What OGR warns of here it has warned of before, or it is found by the comparison.
        with ogr.hearing():
            _compare(path, name, parts, found, metadata)
    except (RuntimeError, ogr.ExchangeError) as error:
        raise ogr.ExchangeError(
            f"{os.path.basename(path)} was not written as the store has it: {error}. A full disk is one reason"
        ) from None


def _compare(path: str, name: str, parts: Sequence[Part], found: Sidecar, metadata: str) -> None:
    data = ogr.open_data(path, [name])
    if data.GetLayerCount() != len(parts):
        raise ogr.ExchangeError(f"it has {data.GetLayerCount()} layers in place of {len(parts)}")
    if metadata and data.GetMetadataItem(wayback.ITEM) != metadata:
        raise ogr.ExchangeError("it has other metadata")
    for at, part in enumerate(parts):
        _LayerCheck(data, data.GetLayer(at), name, part, found).check()


class _LayerCheck:
    """Compares one layer."""

    def __init__(self, data: Any, layer: Any, name: str, part: Part, found: Sidecar) -> None:
        self._data = data
        self._layer = layer
        self._format = name
        self._part = part
        self._crs = found.crs
        self._grid = Grid(*found.grid)
        self._shown = ogr.printable(part.name)
        self._fields = self._places()

    def check(self) -> None:
        """`ogr.ExchangeError` where it differs."""
        self._check_head()
        read = ogr.features(self._layer)
        with ogr.progress(f"{self._part.name} is read back", self._part.survey.count) as show:
            for feature in self._part.layer.features:
                there, fault = next(read, (None, "it is missing"))
                if there is None or fault:
                    raise self._other(f"feature {feature.id} can't be read: {fault}")
                self._check_feature(feature, there)
                show(1)
        if next(read, None) is not None:
            raise self._other("there are more features than were written")

    def _other(self, what: str) -> ogr.ExchangeError:
        return ogr.ExchangeError(f"layer {self._shown}: {what}")

    def _places(self) -> dict[int, int]:
        """The places of the columns that are there, by their numbers."""
        definition = self._layer.GetLayerDefn()
        there = {definition.GetFieldDefn(at).GetName(): at for at in range(definition.GetFieldCount())}
        return {number: there[name] for number, name in self._part.columns.items() if name in there}

    def _check_head(self) -> None:
        part, layer = self._part, self._layer
        # A Shapefile has the name of its file, which somebody may have chosen.
        if layer.GetName() != part.name and self._format != _SHAPEFILE:
            raise self._other(f"it has the name {ogr.printable(layer.GetName())}")
        own = FORMATS[self._format].own_columns
        if own and (layer.GetFIDColumn(), layer.GetGeometryColumn()) != (part.identifier_column, part.geometry_column):
            raise self._other("the columns of identifiers and geometries have other names")
        _, module, _ = ogr.gdal()
        if self._format in ("GPKG", "FlatGeobuf") and int(module.GT_Flatten(layer.GetGeomType())) != part.layer.kind:
            raise self._other("it has another kind")
        self._check_crs()
        self._check_columns()

    def _check_crs(self) -> None:
        """A Shapefile has the reference system in words of its own, and GeoJSON by its code alone."""
        if self._format == _SHAPEFILE or (self._format == "GeoJSON" and geojson.crs_member(self._crs) is None):
            return
        found = ogr.crs_of(self._layer)
        if _code(found) not in (_code(self._crs), self._given_code()):
            raise self._other(f"it has the reference system {found or 'none'} in place of {self._crs or 'none'}")

    def _given_code(self) -> tuple[str, str] | None:
        """The code that OGR gives a reference system without one."""
        return ogr.given_code(self._crs) if self._crs is not None and not self._crs.code else _code(self._crs)

    def _check_columns(self) -> None:
        definition = self._layer.GetLayerDefn()
        lost = set(self._part.columns) - self._fields.keys()
        if self._format == "GeoJSON":
            lost &= self._part.survey.used
        if lost:
            raise self._other(f"the column {ogr.printable(self._part.columns[min(lost)])} is missing")
        # A Shapefile with features has a column.
        own = 1 if self._format == _SHAPEFILE and not self._part.columns and self._part.survey.count else 0
        if definition.GetFieldCount() != len(self._fields) + own:
            raise self._other("it has more columns than were written")
        for number, place in self._fields.items():
            field = definition.GetFieldDefn(place)
            if not self._is_type(self._part.sorts[number], field.GetTypeName(), number):
                raise self._other(
                    f"the column {ogr.printable(field.GetName())} has the type {field.GetTypeName()} "
                    f"in place of {self._part.sorts[number].type}"
                )
            if demands_of(field, self._data) != self._part.demands.get(number, frozenset()):
                raise self._other(f"the column {ogr.printable(field.GetName())} has other constraints")

    def _is_type(self, sort: Sort, there: str, number: int) -> bool:
        """Whether a column has its type: the very one, or in text formats one that the values show."""
        if self._format in ("GPKG", "FlatGeobuf"):
            return there == sort.type
        if sort.type not in _WHOLE:
            return there == sort.type
        is_wide = self._format == _SHAPEFILE and self._part.survey.numbers[number].are_wide
        return there in _WHOLE or (is_wide and there == REAL)

    def _check_feature(self, feature: FileFeature, there: Any) -> None:
        if FORMATS[self._format].keeps_identifiers and there.GetFID() != feature.id:
            raise self._other(f"feature {there.GetFID()} stands in the place of {feature.id}")
        geometry = there.GetGeometryRef()
        shape = read_wkb(feature.geometry)
        if geometry is None or not self._is_same_shape(bytes(geometry.ExportToIsoWkb(_LEAST_FIRST)), shape):
            raise self._other(f"feature {feature.id} has another geometry")
        values = values_of(feature)
        for number, place in self._fields.items():
            value = values.get(number)
            sort = self._part.sorts[number]
            if not self._is_same_value(value, sort, there, place):
                known = there.GetFieldAsString(place) if there.IsFieldSetAndNotNull(place) else "none"
                raise self._other(
                    f"feature {feature.id} has the value {ogr.printable(known[:60])!r} "
                    f"in column {ogr.printable(self._part.columns[number])} in place of {value!r:.60}"
                )

    def _is_same_shape(self, binary: bytes, shape: Shape) -> bool:
        """Whether a geometry has the doubles of a shape of steps."""
        wanted = shape.mapped(self._grid.places)
        if binary == write_wkb(wanted):
            return True
        try:
            found = read_wkb(binary)
        except NotTaken:
            return False
        if self._format == _SHAPEFILE:
            return _as_shapefile(found) == _as_shapefile(wanted)
        return _plain(found) == _plain(wanted)

    def _is_same_value(self, value: int | str | None, sort: Sort, there: Any, place: int) -> bool:
        if self._format == _SHAPEFILE:
            value = _kept_by_shapefile(value)
        if value is None or not there.IsFieldSetAndNotNull(place):
            return value is None and not there.IsFieldSetAndNotNull(place)
        if sort.type == REAL:
            return self._is_same_real(float(value), there.GetFieldAsDouble(place))
        if isinstance(value, int):
            if self._format == _SHAPEFILE and there.GetFieldDefnRef(place).GetTypeName() == REAL:
                return bool(there.GetFieldAsDouble(place) == float(value))
            return bool(there.GetFieldAsInteger64(place) == value)
        if sort.type == DATE:
            return text_of_day(there.GetFieldAsDateTime(place)) == str(day_of(value))
        if sort.type == DATE_TIME:
            return moment_of(text_of_moment(there.GetFieldAsDateTime(place))) == moment_of(value)
        return bool(there.GetFieldAsString(place) == value)

    def _is_same_real(self, value: float, there: float) -> bool:
        if self._format != _SHAPEFILE:
            return value == there
        return abs(value - there) <= max(_ABSOLUTE, _RELATIVE * abs(value))


def _code(crs: Crs | None) -> tuple[str, str] | None:
    """The code of a reference system, the same for both names of degrees in a GeoJSON; none where it has none."""
    if crs is None or not crs.code:
        return None
    return ("EPSG", "4326") if (crs.authority, crs.code) == ("OGC", "CRS84") else (crs.authority, crs.code)


def _plain(shape: Shape) -> tuple[int, list[list[tuple[float, ...]]]]:
    return shape.code, [[tuple(line) for line in member] for member in shape.members]


def _kept_by_shapefile(value: int | str | None) -> int | str | None:
    """What a Shapefile keeps of a value: no blanks at its ends, and at most 254 bytes."""
    if not isinstance(value, str):
        return value
    kept = value.encode("utf-8")[:_TEXT_BYTES].decode("utf-8", "ignore").strip(" ")
    return kept or None


def _as_shapefile(shape: Shape) -> tuple[int, list[list[tuple[float, ...]]]]:
    """A shape, the same for all that a Shapefile does not tell apart: Multi forms of one member, directions of rings."""
    code = shape.code - 3 if shape.code > 4 else shape.code
    if code != 3:
        return code, [[tuple(line) for line in member] for member in shape.members]
    return code, sorted([_turned(shell), *sorted(map(_turned, holes))] for shell, *holes in shape.members)


def _turned(ring: Flat) -> tuple[float, ...]:
    """A ring in the one of its two directions that is less."""
    forward = tuple(ring)
    backward = tuple(number for at in range(len(forward) - 2, -1, -2) for number in forward[at : at + 2])
    return min(forward, backward)
