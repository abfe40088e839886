"""Rows of a store as features: many at a time, since a layer is read whole."""

from __future__ import annotations

import re
import struct
from collections.abc import Iterable, Sequence
from typing import Any, NamedTuple

import numpy
from qgis.core import QgsGeometry
from qgis.PyQt.QtCore import NULL

from sfstore.exchange.grid import Grid
from sfstore.geometry import read_wkt, write_wkb
from sfstore.language import GRID_MIN

from .fields import Places
from .values import shown

__all__ = ["Row", "geometry_of", "geometry_of_row", "rows_of"]

_ROW = re.compile(r"([0-9]+) ([A-Z]+) (\([-0-9 ,()]*\))(.*)")
_VALUE = re.compile(r" ([A-Za-z][A-Za-z0-9_]*)=([-0-9.:TZa-z]+|E?'[^']*(?:''[^']*)*')")
_BLANKS = str.maketrans("(),", "   ")
# How many parentheses a text has whose geometry is one list of points.
_FLAT = {"POINT": 1, "LINESTRING": 1, "POLYGON": 2}
_POINT_HEAD = struct.pack("<BI", 1, 1)
_LINE, _POLYGON = struct.Struct("<BII").pack, struct.Struct("<BIII").pack
# Up to here whole numbers are doubles.
_EXACT = 1 << 53


class Row(NamedTuple):
    """A feature of the store."""

    number: int
    """Its identifier."""
    kind: str
    geometry: QgsGeometry
    values: list[Any]
    """A value for each field, or NULL; the identifier comes first."""


def rows_of(rows: Iterable[str], places: Places, grid: Grid) -> list[Row]:
    """The features of rows, with the geometries in the units of the map."""
    found = [_parted(row) for row in rows]
    geometries = _geometries(found, grid)
    nothing = [NULL] * (places.width - 1)
    return [
        Row(int(number), kind.lower(), geometry, _values(int(number), nothing, rest, places))
        for (number, kind, _, rest), geometry in zip(found, geometries)
    ]


def geometry_of(wkt: str, grid: Grid) -> QgsGeometry:
    """The geometry of a text in steps of the grid."""
    geometry = QgsGeometry()
    geometry.fromWkb(write_wkb(read_wkt(wkt).mapped(grid.places)))
    return geometry


def geometry_of_row(row: str, grid: Grid) -> QgsGeometry:
    """The geometry of a row."""
    _, kind, text, _ = _parted(row)
    return geometry_of(f"{kind} {text}", grid)


def _parted(row: str) -> tuple[str, str, str, str]:
    """The identifier, the kind, the coordinates in parentheses, and the values of a row."""
    found = _ROW.fullmatch(row)
    if found is None:
        raise ValueError(f"no feature: {row!r}")
    number, kind, text, rest = found.groups()
    return number, kind, text, rest


def _values(number: int, nothing: list[Any], rest: str, places: Places) -> list[Any]:
    """The identifier, and then a value for each further field."""
    values = [number, *nothing]
    for name, text in _VALUE.findall(rest):
        at, column_type = places.columns.get(name, (0, "int"))
        found = shown(text, column_type)
        if at and found is not None:
            values[at] = found
    return values


def _geometries(parted: Sequence[tuple[str, str, str, str]], grid: Grid) -> list[QgsGeometry]:
    """The geometries of rows: those of one list of points together, the others one by one."""
    are_flat = [text.count("(") == _FLAT.get(kind) for _, kind, text, _ in parted]
    flat = " ".join(text for (_, _, text, _), is_flat in zip(parted, are_flat) if is_flat)
    places, at = _places(flat.translate(_BLANKS), grid) if flat else b"", 0
    made = []
    for (_, kind, text, _), is_flat in zip(parted, are_flat):
        if not is_flat:
            made.append(geometry_of(f"{kind} {text}", grid))
            continue
        count = text.count(",") + 1
        geometry = QgsGeometry()
        geometry.fromWkb(_head(kind, count) + places[at : at + 16 * count])
        made.append(geometry)
        at += 16 * count
    return made


def _places(text: str, grid: Grid) -> bytes:
    """The doubles of steps, x and y in turn, as bytes: of each the nearest to its place, as `Grid.places` gives it."""
    steps = numpy.fromstring(text, dtype=numpy.int64, sep=" ")
    x, y, step, denominator = grid.fractions
    if max(abs(x), abs(y)) - GRID_MIN * step >= _EXACT or denominator >= _EXACT:
        return bytes(numpy.array(grid.places(steps.tolist())).tobytes())
    steps *= step
    steps[0::2] += x
    steps[1::2] += y
    # A quotient of doubles is the double that is nearest to the quotient.
    return bytes((steps / denominator).tobytes())


def _head(kind: str, count: int) -> bytes:
    """What stands before the points of a well-known binary."""
    if kind == "POLYGON":
        return _POLYGON(1, 3, 1, count)
    return _LINE(1, 2, count) if kind == "LINESTRING" else _POINT_HEAD
