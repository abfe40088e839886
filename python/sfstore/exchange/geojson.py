"""GeoJSON by Python's own JSON: doubles as their shortest texts, texts as they are, and a full disk is an error.

A feature is written at a time, so that memory does not grow with the layer.
"""

from __future__ import annotations

import json
from collections.abc import Iterable, Iterator
from decimal import Decimal
from typing import Any

from sfstore.exchange import ogr
from sfstore.exchange.columns import REAL, Sort, values_of
from sfstore.exchange.formats import Part
from sfstore.exchange.grid import Grid
from sfstore.exchange.jsontext import text_of
from sfstore.geometry import Flat, Shape, read_wkb
from sfstore.sidecar import Crs, Sidecar
from sfstore.storefile import FileFeature

__all__ = ["crs_member", "write", "write_collection"]

_NAMES = ["", "Point", "LineString", "Polygon", "MultiPoint", "MultiLineString", "MultiPolygon"]
# In these degrees longitude comes first, as in each GeoJSON.
_DEGREES = {("EPSG", "4326"), ("OGC", "CRS84")}


def write(path: str, part: Part, found: Sidecar) -> None:
    """Writes a layer to a new file. `OSError` where it can't be written."""
    grid = Grid(*found.grid)
    count = len(part.layer.features)
    with ogr.progress(part.name, count) as show:

        def features() -> Iterator[str]:
            for feature in part.layer.features:
                yield _feature(feature, part, grid)
                show(1)

        _write_texts(path, part.name, found.crs, features())


def write_collection(path: str, name: str, crs: Crs | None, features: Iterable[dict[str, Any]]) -> None:
    """Writes features as a collection with a name and a reference system. `OSError` where it can't be written."""
    _write_texts(path, name, crs, map(_text, features))


def _write_texts(path: str, name: str, crs: Crs | None, features: Iterable[str]) -> None:
    head: dict[str, Any] = {"type": "FeatureCollection", "name": name}
    member = crs_member(crs)
    if member is not None:
        head["crs"] = member
    with open(path, "x", encoding="utf-8") as file:
        file.write(_text(head)[:-1] + ', "features": [\n')
        between = ""
        for feature in features:
            file.write(between + feature)
            between = ",\n"
        file.write("\n]}\n")


def crs_member(crs: Crs | None) -> dict[str, Any] | None:
    """The member ``crs``, as GDAL writes and reads it; none where the reference system has no code."""
    if crs is None or not crs.code:
        return None
    is_degrees = (crs.authority, crs.code) in _DEGREES
    urn = "OGC:1.3:CRS84" if is_degrees else f"{crs.authority}::{crs.code}"
    return {"type": "name", "properties": {"name": f"urn:ogc:def:crs:{urn}"}}


def _text(content: object) -> str:
    return json.dumps(content, ensure_ascii=False, allow_nan=False)


def _feature(feature: FileFeature, part: Part, grid: Grid) -> str:
    values = values_of(feature)
    known = {
        part.columns[number]: _value(values[number], sort) for number, sort in part.sorts.items() if number in values
    }
    shape = read_wkb(feature.geometry).mapped(grid.places)
    # Decimals keep their own digits, of which JSON has any number.
    geometry = _text(_geometry(shape))
    return f'{{"type": "Feature", "id": {feature.id}, "properties": {text_of(known)}, "geometry": {geometry}}}'


def _value(value: int | str, sort: Sort) -> int | float | bool | Decimal | str:
    if sort.subtype == "Boolean":
        return bool(value)
    if sort.type != REAL:
        return value
    # With a place behind its point a whole number is known as a real one.
    return Decimal(f"{value}.0" if str(value).lstrip("-").isdigit() else value) if sort.is_exact else float(value)


def _geometry(shape: Shape) -> dict[str, Any]:
    members: list[Any] = [[_points(line) for line in member] for member in shape.members]
    coordinates: Any
    if shape.code == 1:
        coordinates = members[0][0][0]
    elif shape.code == 2:
        coordinates = members[0][0]
    elif shape.code == 3:
        coordinates = members[0]
    elif shape.code == 4:
        coordinates = [points for [[points]] in members]
    elif shape.code == 5:
        coordinates = [points for [points] in members]
    else:
        coordinates = members
    return {"type": _NAMES[shape.code], "coordinates": coordinates}


def _points(line: Flat) -> list[tuple[float, float]]:
    return list(zip(line[::2], line[1::2]))
