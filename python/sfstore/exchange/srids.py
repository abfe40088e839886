"""Geometries of another reference system than their layer's, which OGR gives as if they were of that one.

A column of geometries in a database need not say a reference system: each geometry has its own then. In a GeoPackage
each one names that of its layer, and nobody looks whether it does.
"""

from __future__ import annotations

import re
from typing import Any, NamedTuple

from sfstore.exchange import ogr
from sfstore.exchange.asking import asked, literal, quoted, tells_apart
from sfstore.exchange.tables import table_of

__all__ = ["Strangers", "strangers"]

# What says that a geometry is of no reference system, or of none that is known.
_UNNAMED = ("0", "-1")
_WHOLE = re.compile(r"-?[0-9]{1,19}", re.ASCII)
# The schema of PostGIS.
_OF_POSTGIS = """
    SELECT nspname::text AS place, '' AS value
    FROM pg_catalog.pg_extension JOIN pg_catalog.pg_namespace AS n ON n.oid = extnamespace WHERE extname = 'postgis'
"""
# Whether a geometry of a GeoPackage has its numbers with the lowest byte first.
_IS_LITTLE = "substr(hex(substr({0}, 4, 1)), 2) IN ('1', '3', '5', '7', '9', 'B', 'D', 'F')"


class Strangers(NamedTuple):
    """Features whose geometries name another reference system than their layer does, by their identifiers."""

    others: dict[int, str]
    """What they name."""
    unnamed: list[int]
    """Those that name none."""


def strangers(source: Any, layer: Any) -> Strangers:
    """The features of a layer whose geometries are of another reference system than it.

    `ogr.ExchangeError` where some are and no identifiers say which.
    """
    find = {"GPKG": _of_geopackage, "PostgreSQL": _of_postgresql}.get(source.GetDriver().ShortName)
    if find is None or not layer.GetGeometryColumn():
        return Strangers({}, [])
    table = table_of(source, layer)
    condition, shown = find(source, layer, table)
    if not condition:
        return Strangers({}, [])
    count = f"SELECT CAST(count(*) AS text) AS place, '' AS value FROM {table} WHERE {condition}"
    if asked(source, layer, count) == [("0", "")]:
        return Strangers({}, [])
    if not layer.GetFIDColumn() or not tells_apart(source, layer, table):
        why = "has geometries of other reference systems than its own, and no identifiers say which"
        raise ogr.ExchangeError(f"layer {ogr.printable(layer.GetName())} {why}")
    query = f"SELECT CAST({quoted(layer.GetFIDColumn())} AS text) AS place, {shown} AS value FROM {table} WHERE {condition}"
    found = {int(place): value for place, value in asked(source, layer, query) if _WHOLE.fullmatch(place)}
    named = {place: _named(value) for place, value in found.items()}
    others = {place: value for place, value in named.items() if value not in _UNNAMED}
    return Strangers(others, [place for place in named if place not in others])


def _of_geopackage(source: Any, layer: Any, table: str) -> tuple[str, str]:
    """Which rows of a GeoPackage have such geometries, and what these name, in SQL; nothing where no row can."""
    query = "SELECT CAST(srs_id AS text) AS place, '' AS value FROM gpkg_geometry_columns WHERE lower(table_name) = lower({})"
    own = asked(source, layer, query.format(literal(layer.GetName())))
    if len(own) != 1 or not _WHOLE.fullmatch(own[0][0]):
        return "", ""
    number = int(own[0][0])
    # OGR reads a text as if it were a blob.
    geometry = f"CAST({quoted(layer.GetGeometryColumn())} AS BLOB)"
    unsigned = number & 0xFFFF_FFFF
    little, big = unsigned.to_bytes(4, "little").hex(), unsigned.to_bytes(4, "big").hex()
    wanted = f"CASE WHEN {_IS_LITTLE.format(geometry)} THEN x'{little}' ELSE x'{big}' END"
    is_one = f"length({geometry}) >= 8 AND substr({geometry}, 1, 2) = x'4750'"
    return f"{is_one} AND substr({geometry}, 5, 4) <> {wanted}", f"'x' || hex(substr({geometry}, 4, 5))"


def _of_postgresql(source: Any, layer: Any, table: str) -> tuple[str, str]:
    """Which rows of a database have such geometries, and what these name, in SQL; nothing where no row has."""
    srid = f"ST_SRID({quoted(layer.GetGeometryColumn())}::geometry)"
    # A schema of the search path before that of PostGIS may have a table of this name.
    place = "".join(f"{quoted(schema)}." for schema, _ in asked(source, layer, _OF_POSTGIS))
    name = f"(SELECT auth_name || ':' || auth_srid FROM {place}spatial_ref_sys AS s WHERE s.srid = found.srid)"
    query = f"SELECT srid::text AS place, COALESCE({name}, '') AS value FROM (SELECT DISTINCT {srid} AS srid FROM {table}) AS found"
    known = [(number, code) for number, code in asked(source, layer, f"{query} WHERE srid IS NOT NULL")]
    crs = ogr.crs_of(layer)
    if not known or (crs is not None and len(known) == 1 and known[0][0] not in _UNNAMED):
        return "", ""
    own = "0" if crs is None else next((number for number, code in known if code == f"{crs.authority}:{crs.code}"), "")
    if not own:
        why = f"has geometries of the SRIDs {', '.join(number for number, _ in known)}, and does not say which is its own"
        raise ogr.ExchangeError(f"layer {ogr.printable(layer.GetName())} {why}")
    return ("" if [own] == [number for number, _ in known] else f"{srid} <> {own}"), f"{srid}::text"


def _named(shown: str) -> str:
    """The number of a reference system, of the bytes of a GeoPackage or as a database says it."""
    if not shown.startswith("x"):
        return shown
    header = bytes.fromhex(shown[1:])
    return str(int.from_bytes(header[1:], "little" if header[0] & 1 else "big", signed=True))
