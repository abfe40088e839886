"""Questions in SQL to a source that has a language for them: a GeoPackage, or a database."""

from __future__ import annotations

from typing import Any

from sfstore.exchange import ogr

__all__ = ["asked", "literal", "quoted", "rows_of", "tables_of", "tells_apart"]

# How tables begin that a GeoPackage has for itself.
_OWN = ("gpkg_", "sqlite_", "rtree_")


def asked(source: Any, layer: Any, query: str) -> list[tuple[str, str]]:
    """The two columns of a query's rows. `ogr.ExchangeError` where there is no answer."""
    try:
        return [(row[0], row[1]) for row in rows_of(source, query)]
    except RuntimeError as error:
        raise ogr.ExchangeError(f"layer {ogr.printable(layer.GetName())} can't be read: {error}") from None


def tables_of(geopackage: Any) -> list[str]:
    """The tables and views of a GeoPackage but for its own, also those that are no layers to OGR, as those of pictures."""
    names = rows_of(geopackage, "SELECT name FROM sqlite_master WHERE type IN ('table', 'view') ORDER BY 1")
    return [name for (name,) in names if not name.lower().startswith(_OWN)]


def tells_apart(source: Any, layer: Any, table: str) -> bool:
    """Whether the column of identifiers has one for each row, and another one. In a view it need not."""
    count = f"count(*) - count(DISTINCT {quoted(layer.GetFIDColumn())})"
    return asked(source, layer, f"SELECT CAST({count} AS text) AS place, '' AS value FROM {table}") == [("0", "")]


def quoted(name: str) -> str:
    """A name in SQL."""
    return '"' + name.replace('"', '""') + '"'


def literal(text: str) -> str:
    """A text in SQL, of PostgreSQL's standard."""
    return "'" + text.replace("'", "''") + "'"


def rows_of(source: Any, query: str) -> list[tuple[str, ...]]:
    """The rows of a query, whatever its columns. `RuntimeError` where there is no answer."""
    result = source.ExecuteSQL(query)
    if result is None:
        return []
    rows = [tuple(str(row.GetField(at)) for at in range(row.GetFieldCount())) for row, _ in ogr.features(result)]
    source.ReleaseResultSet(result)
    return rows
