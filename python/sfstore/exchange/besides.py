"""What a GeoPackage has beside its features and their values, for which a store has no place: it is lost where the file is replaced."""

from __future__ import annotations

import re
from collections.abc import Iterable, Iterator, Sequence
from typing import Any

from sfstore.exchange import wayback
from sfstore.exchange.asking import literal, rows_of
from sfstore.exchange.constraints import demands_of
from sfstore.exchange.formats import Part

__all__ = ["besides", "constraints_lost"]

# Domains of metadata that OGR makes by itself.
_OWN_DOMAINS = {"", "DERIVED_SUBDATASETS", "SUBDATASETS", "IMAGE_STRUCTURE"}
# Tables of the format and of OGR, by which they know what a file has. They are made anew, or looked into here.
_OWN_TABLES = (
    "gpkg_contents gpkg_spatial_ref_sys gpkg_geometry_columns gpkg_extensions gpkg_ogr_contents gpkg_tile_matrix "
    "gpkg_tile_matrix_set gpkg_data_columns gpkg_data_column_constraints gpkg_metadata gpkg_metadata_reference"
).split()
# Triggers, indexes and views that a program has made, and neither OGR nor the format; so of tables that bear their names.
_MADE = rf"""
    SELECT type, name FROM sqlite_master WHERE
    type IN ('trigger', 'index') AND sql IS NOT NULL AND tbl_name NOT LIKE 'gpkg\_%' ESCAPE '\' AND name NOT LIKE 'rtree\_%' ESCAPE '\'
    AND name NOT LIKE 'trigger\_insert\_feature\_count\_%' ESCAPE '\' AND name NOT LIKE 'trigger\_delete\_feature\_count\_%' ESCAPE '\'
    AND name NOT LIKE 'idx\_layer\_styles%' ESCAPE '\'
    OR type = 'view'
    OR type = 'table' AND name LIKE 'gpkg\_%' ESCAPE '\' AND lower(name) NOT IN ({", ".join(map(literal, _OWN_TABLES))})
    OR type = 'table' AND name LIKE 'rtree\_%' ESCAPE '\' AND sql NOT LIKE 'CREATE VIRTUAL TABLE%' AND NOT EXISTS (
        SELECT 1 FROM sqlite_master AS tree WHERE tree.sql LIKE 'CREATE VIRTUAL TABLE%'
        AND sqlite_master.name IN (tree.name || '_node', tree.name || '_rowid', tree.name || '_parent'))
    ORDER BY 1, 2
"""
# What OGR does not tell, by the table that has it.
_NAMED_COLUMNS = """
    SELECT column_name FROM gpkg_data_columns WHERE lower(table_name) = lower({}) AND (coalesce(name, column_name) <> column_name
    OR coalesce(title, '') || coalesce(description, '') || coalesce(mime_type, '') <> '') ORDER BY 1
"""
_LOOSE_METADATA = "SELECT 'number ' || id FROM gpkg_metadata WHERE id NOT IN (SELECT md_file_id FROM gpkg_metadata_reference) ORDER BY id"
_LOOSE_DOMAINS = """
    SELECT DISTINCT constraint_name FROM gpkg_data_column_constraints WHERE lower(constraint_name) NOT IN
    (SELECT lower(constraint_name) FROM gpkg_data_columns WHERE constraint_name IS NOT NULL) ORDER BY 1
"""
_TABLE = "SELECT sql FROM sqlite_master WHERE type = 'table' AND lower(name) = lower({})"
# What the definition of a table demands in words of SQL, and what in it are names, texts and remarks.
_DEMANDS = re.compile(r"\b(CHECK|REFERENCES|COLLATE|GENERATED|UNIQUE(?= *\([^)]*,))", re.IGNORECASE)
_NO_WORDS = re.compile(r"""'[^']*'|"[^"]*"|`[^`]*`|\[[^\]]*\]|--[^\n]*|/\*.*?\*/""", re.DOTALL)
# How many names are told of each kind.
_SHOWN = 8


def besides(data: Any) -> list[str]:
    """What a GeoPackage has besides, in words. An import reports constraints of columns by itself."""
    found: list[str] = []
    for kind in _metadata(data, ""), _loose(data), _of_layers(data), _made(data):
        try:
            found += kind
        except RuntimeError:
            # Whoever takes the features needs none of it.
            found.append("what can't be read")
    return found


def constraints_lost(data: Any, parts: Iterable[Part]) -> list[str]:
    """The columns of a GeoPackage that demand what those do not which take their places, in words."""
    known = {(part.name, part.columns[number]): demands for part in parts for number, demands in part.demands.items()}
    lost = [
        f"{layer.GetName()}.{field.GetName()}"
        for layer in _layers(data)
        for field in _fields(layer)
        if demands_of(field, data) - known.get((layer.GetName(), field.GetName()), frozenset())
    ]
    return _listed("constraints of columns", lost)


def _made(data: Any) -> Iterator[str]:
    made = [f"{kind} {name}" for kind, name in rows_of(data, _MADE)]
    yield from _listed("tables, triggers and the like", made)


def _loose(data: Any) -> Iterator[str]:
    """What belongs to no table."""
    if _has(data, "gpkg_metadata", "gpkg_metadata_reference"):
        yield from _listed("metadata of no table", [number for (number,) in rows_of(data, _LOOSE_METADATA)])
    if _has(data, "gpkg_data_column_constraints", "gpkg_data_columns"):
        yield from _listed("domains of no column", [name for (name,) in rows_of(data, _LOOSE_DOMAINS)])


def _of_layers(data: Any) -> Iterator[str]:
    has_names = _has(data, "gpkg_data_columns")
    for layer in _layers(data):
        name, fields = layer.GetName(), list(_fields(layer))
        yield from _metadata(layer, f" of {name}")
        yield from _listed(f"default values of {name}", [field.GetName() for field in fields if field.GetDefault()])
        named = [column for (column,) in rows_of(data, _NAMED_COLUMNS.format(literal(name)))] if has_names else []
        yield from _listed(f"other names and descriptions of columns of {name}", named)
        demanded = [_DEMANDS.findall(_NO_WORDS.sub("x", sql)) for (sql,) in rows_of(data, _TABLE.format(literal(name)))]
        yield from _listed(f"what SQL demands of {name}", sorted({word.upper() for words in demanded for word in words}))


def _has(data: Any, *tables: str) -> bool:
    query = f"SELECT name FROM sqlite_master WHERE lower(name) IN ({', '.join(map(literal, tables))})"
    return len(rows_of(data, query)) == len(tables)


def _metadata(of: Any, whose: str) -> Iterator[str]:
    domains = [domain for domain in of.GetMetadataDomainList() or [] if domain not in _OWN_DOMAINS]
    yield from _listed(f"metadata{whose}", [name for name in of.GetMetadata() or {} if name != wayback.ITEM] + domains)


def _layers(data: Any) -> Iterator[Any]:
    return map(data.GetLayer, range(data.GetLayerCount()))


def _fields(layer: Any) -> Iterator[Any]:
    definition = layer.GetLayerDefn()
    return map(definition.GetFieldDefn, range(definition.GetFieldCount()))


def _listed(what: str, names: Sequence[Any]) -> list[str]:
    """A kind of things with the first names of them, or nothing where there are none."""
    more = f" and {len(names) - _SHOWN} more" if len(names) > _SHOWN else ""
    return [f"{what} ({', '.join(map(str, names[:_SHOWN]))}{more})"] if names else []
