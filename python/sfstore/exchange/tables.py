"""Which table of a database a layer of OGR is, and where OGR takes that table, or a column of it, for another one.

OGR names a table by its name where it stands in the schema that the search path begins with, and else with its schema
and a point before it: two tables may have one such name. It finds columns by their names without regard to case, though
in a database those are different ones.
"""

from __future__ import annotations

from collections import Counter
from collections.abc import Iterable
from typing import Any

from sfstore.exchange import ogr
from sfstore.exchange.asking import asked, literal, quoted

__all__ = ["columns_of", "confused", "fault_of", "table_of"]

_DATABASE, _SQLITE = "PostgreSQL", "SQLite"
# The tables and views that a name of OGR may stand for, with their schemas.
_TABLES = """
    SELECT nspname::text AS place, relname::text AS value
    FROM pg_catalog.pg_class JOIN pg_catalog.pg_namespace AS n ON n.oid = relnamespace
    WHERE relkind IN ('r', 'p', 'v', 'm', 'f')
    AND (nspname = current_schema() AND relname IN ({0}) OR nspname || '.' || relname IN ({0}))
    ORDER BY 1, 2
"""
# The first one that is found by a name alone, which may be one of the system's.
_FOUND = """
    SELECT nspname::text AS place, relname::text AS value
    FROM pg_catalog.pg_class AS c JOIN pg_catalog.pg_namespace AS n ON n.oid = relnamespace
    WHERE c.oid = to_regclass({0})
"""
_COLUMNS = """
    SELECT attname::text AS place, format_type(atttypid, NULL)::text AS value FROM pg_catalog.pg_attribute
    WHERE attrelid = to_regclass({0}) AND attnum > 0 AND NOT attisdropped ORDER BY attnum
"""


def table_of(source: Any, layer: Any) -> str:
    """The table of a layer in SQL. `ogr.ExchangeError` where a database has none of its name, or two."""
    if source.GetDriver().ShortName == _SQLITE:
        # Of a table with several geometries each is a layer.
        return quoted(layer.GetName().removesuffix(f"({layer.GetGeometryColumn()})"))
    if source.GetDriver().ShortName != _DATABASE:
        return quoted(layer.GetName())
    found = _tables(source, layer)
    if len(found) != 1:
        why = "two tables" if found else "no table"
        raise ogr.ExchangeError(f"layer {ogr.printable(layer.GetName())} can't be read: the database has {why} of this name")
    return _qualified(found[0])


def columns_of(source: Any, layer: Any) -> dict[str, str]:
    """The columns of a layer's table in a database, with their types in PostgreSQL's words."""
    return dict(asked(source, layer, _COLUMNS.format(literal(table_of(source, layer)))))


def fault_of(source: Any, layer: Any) -> str:
    """Why OGR would give the rows of another table, keys or geometries of another column, or nothing."""
    if source.GetDriver().ShortName != _DATABASE:
        return ""
    found = _tables(source, layer)
    if len(found) > 1:
        return f"OGR does not tell {' from '.join(map(_qualified, found))}: rename one of them"
    if asked(source, layer, _FOUND.format(literal(quoted(layer.GetName())))) == [("pg_catalog", layer.GetName())]:
        return "OGR finds the table of the system that has its name: rename it"
    alike = confused(columns_of(source, layer))
    own = {name.casefold() for name in (layer.GetFIDColumn(), layer.GetGeometryColumn()) if name}
    taken = [name for name in alike if name.casefold() in own]
    return f"OGR does not tell its columns {' from '.join(map(quoted, taken))}: rename one of them" if taken else ""


def confused(names: Iterable[str]) -> list[str]:
    """The names that differ in case alone."""
    known = list(names)
    counts = Counter(name.casefold() for name in known)
    return [name for name in known if counts[name.casefold()] > 1]


def _tables(source: Any, layer: Any) -> list[tuple[str, str]]:
    """The tables that the name of a layer may stand for, with their schemas."""
    return asked(source, layer, _TABLES.format(literal(layer.GetName())))


def _qualified(table: tuple[str, str]) -> str:
    """A table with its schema in SQL."""
    return ".".join(map(quoted, table))
