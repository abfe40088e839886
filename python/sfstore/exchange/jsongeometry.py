"""Geometries of GeoJSON as well-known binaries, with all numbers that their positions have."""

from __future__ import annotations

import math
import struct
from decimal import Decimal
from itertools import chain
from typing import Any

from sfstore.exchange.ogr import printable

__all__ = ["KINDS", "binary"]

KINDS = ["", "Point", "LineString", "Polygon", "MultiPoint", "MultiLineString", "MultiPolygon", "GeometryCollection"]
"""The types of geometries, by the codes of well-known binary."""

_COLLECTION = 7
_NUMBERS = {int, Decimal}
# What a code is greater by, by how many numbers a position has.
_WIDTHS = {2: 0, 3: 1000, 4: 3000}


def binary(geometry: Any) -> bytes:
    """The binary of a geometry. `ValueError` with words where it is none, `RecursionError` where it is nested deeply."""
    plain = _plain(geometry)
    if plain is not None:
        return plain
    width = max(_width_of(geometry), 2)
    if width not in _WIDTHS:
        raise ValueError(f"a position of {width} numbers")
    return _binary(geometry, width)


def _plain(geometry: Any) -> bytes | None:
    """The binary of a line or an area whose positions have two numbers each, as most geometries are; none of others."""
    kind, coordinates = (geometry.get("type"), geometry.get("coordinates")) if isinstance(geometry, dict) else ("", None)
    if type(coordinates) is not list:
        return None
    if kind == "LineString":
        line = _plain_line(coordinates)
        return None if line is None else struct.pack("<BI", 1, 2) + line
    if kind != "Polygon":
        return None
    rings = [found for ring in coordinates if (found := _plain_line(ring)) is not None]
    return _written(3, rings) if len(rings) == len(coordinates) else None


def _plain_line(line: Any) -> bytes | None:
    """A list of positions of two numbers each; none where it is another one."""
    if type(line) is not list or not all(type(position) is list for position in line):
        return None
    numbers = list(chain.from_iterable(line))
    if not set(map(len, line)) <= {2} or not set(map(type, numbers)) <= _NUMBERS:
        return None
    return struct.pack(f"<I{len(numbers)}d", len(line), *numbers)


def _width_of(geometry: Any) -> int:
    """How many numbers the longest position of a geometry has."""
    code = _code(geometry)
    if code == _COLLECTION:
        return max(map(_width_of, _list(geometry.get("geometries"), "geometries")), default=0)
    return _width(geometry.get("coordinates"))


def _binary(geometry: Any, width: int) -> bytes:
    code = _code(geometry)
    if code == _COLLECTION:
        return _written(code + _WIDTHS[width], [_binary(member, width) for member in geometry["geometries"]])
    return _single(code, geometry.get("coordinates"), width)


def _code(geometry: Any) -> int:
    kind = geometry.get("type") if isinstance(geometry, dict) else None
    if not isinstance(kind, str) or kind not in KINDS[1:]:
        raise ValueError(f"a geometry of the type {_shown(kind)}" if isinstance(geometry, dict) else "its geometry is no object")
    return KINDS.index(kind)


def _width(coordinates: Any) -> int:
    """How many numbers the longest position has."""
    if not isinstance(coordinates, list) or not coordinates:
        return 0
    if isinstance(coordinates[0], list):
        return max(map(_width, coordinates))
    return len(coordinates)


def _single(code: int, coordinates: Any, width: int) -> bytes:
    """The binary of a geometry that is no collection."""
    found = _list(coordinates, "coordinates")
    if code == 1:
        position = _position(found, width) if found else [math.nan] * width
        return struct.pack(f"<BI{width}d", 1, code + _WIDTHS[width], *position)
    if code == 2:
        return struct.pack("<BI", 1, code + _WIDTHS[width]) + _line(found, width)
    if code == 3:
        return _written(code + _WIDTHS[width], [_line(line, width) for line in found])
    return _written(code + _WIDTHS[width], [_single(code - 3, member, width) for member in found])


def _written(code: int, parts: list[bytes]) -> bytes:
    return struct.pack("<BII", 1, code, len(parts)) + b"".join(parts)


def _line(coordinates: Any, width: int) -> bytes:
    found = _list(coordinates, "coordinates")
    numbers = [number for position in found for number in _position(position, width)]
    return struct.pack(f"<I{len(numbers)}d", len(found), *numbers)


def _position(position: Any, width: int) -> list[float]:
    """The numbers of a position. Where another one has more, they are 0."""
    if not isinstance(position, list) or len(position) < 2 or not all(map(_is_number, position)):
        raise ValueError(f"a position that is no list of two numbers or more: {_shown(position)}")
    return [float(number) for number in position] + [0.0] * (width - len(position))


def _is_number(value: Any) -> bool:
    return type(value) is int or isinstance(value, Decimal)


def _list(value: Any, what: str) -> list[Any]:
    if not isinstance(value, list):
        raise ValueError(f"{what} that are no list: {_shown(value)}")
    return value


def _shown(value: Any) -> str:
    return printable(f"{value!r:.60}")
