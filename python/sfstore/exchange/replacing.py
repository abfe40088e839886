"""What would be lost of a GeoPackage that an export replaces, and how it is said of one and of a table of a database."""

from __future__ import annotations

from collections.abc import Callable, Iterator, Sequence
from typing import Any

from sfstore.exchange import ogr
from sfstore.exchange.asking import literal, quoted, rows_of, tables_of
from sfstore.exchange.besides import besides, constraints_lost
from sfstore.exchange.columns import values_of
from sfstore.exchange.formats import Part
from sfstore.exchange.views import check_end

__all__ = ["check_none", "check_none_lost", "gone_words", "keyed", "several"]

# How a file of SQLite begins.
_SQLITE = b"SQLite format 3\0"
# How many names are said.
_SHOWN = 8
# The columns of a table that have values of its own, and the one that has its keys.
_COLUMNS = """
    SELECT name FROM pragma_table_info({0}) WHERE pk = 0 AND lower(name) NOT IN
    (SELECT lower(column_name) FROM gpkg_geometry_columns WHERE lower(table_name) = lower({0})) ORDER BY cid
"""
_KEYS = "SELECT name FROM pragma_table_info({}) WHERE pk > 0"


def check_none_lost(path: str, parts: Sequence[Part], say: Callable[[str], object]) -> None:
    """`ogr.ExchangeError` where a GeoPackage has tables or columns that the new one has not: they would go with it.

    ``say`` hears which rows go, and what else.
    """
    module, _, _ = ogr.gdal()
    check_end(path)
    try:
        # One that has pictures alone is no map of layers.
        old = module.OpenEx(path, module.OF_VECTOR | module.OF_RASTER, allowed_drivers=["GPKG"])
        names = tables_of(old)
    except RuntimeError as error:
        if _is_database(path):
            raise _unread(path, error) from None
        # It is none, or not there.
        return
    ours = {part.name.casefold(): part for part in parts}
    check_none(path, "tables", [name for name in names if name.casefold() not in ours])
    kept = [(name, ours[name.casefold()]) for name in names]
    try:
        columns = [f"{name}.{column}" for name, part in kept for column in _columns_lost(old, name, part)]
        rows = [(name, _rows_gone(old, name, part)) for name, part in kept]
        unnamed = [name for name, _ in kept if _has_unnamed_rows(old, name)]
    except RuntimeError as error:
        raise _unread(path, error) from None
    check_none(path, "columns", columns)
    for name, gone in rows:
        if gone:
            say(f"the layer {ogr.printable(name)} of {path} {gone_words(gone)}")
    for name in unnamed:
        say(f"the layer {ogr.printable(name)} of {path} has no key of one column: rows that the store has not are removed, and can't be named")
    further = [*besides(old), *constraints_lost(old, parts)]
    if further:
        say(f"{path} has what the new one has not, and it is gone then: {ogr.printable('; '.join(further))}")


def _is_database(path: str) -> bool:
    """Whether a file is one of SQLite, or may be: one that can't be read may."""
    try:
        with open(path, "rb") as file:
            return file.read(len(_SQLITE)) == _SQLITE
    except FileNotFoundError:
        return False
    except OSError:
        return True


def _unread(path: str, error: RuntimeError) -> ogr.ExchangeError:
    """That nobody knows what would be lost."""
    return ogr.ExchangeError(f"{path} can't be read, and may have what would be lost: {error}. Take it away, or name another file")


def check_none(path: str, what: str, lost: list[str]) -> None:
    """`ogr.ExchangeError` where a file has something that would be lost."""
    if lost:
        raise ogr.ExchangeError(
            f"{path} has {what} that the new one has not, and they would be lost: {ogr.printable(', '.join(lost))}. "
            "Name another file, or take that one away"
        )


def _columns_lost(old: Any, name: str, part: Part) -> list[str]:
    """The columns of a table that the layer in its place has not."""
    wanted = {each.casefold() for each in (part.identifier_column, part.geometry_column, *part.columns.values())}
    return [column for (column,) in rows_of(old, _COLUMNS.format(literal(name))) if column.casefold() not in wanted]


def _rows_gone(old: Any, name: str, part: Part) -> list[str]:
    """The keys of the rows of a table that the layer in its place has not."""
    keys = [key for (key,) in rows_of(old, _KEYS.format(literal(name)))]
    if len(keys) != 1:
        return []
    known = {key for key, _ in keyed(part, keys[0])}
    query = f"SELECT CAST({quoted(keys[0])} AS text) FROM {quoted(name)} ORDER BY {quoted(keys[0])}"
    return [key for (key,) in rows_of(old, query) if key not in known]


def _has_unnamed_rows(old: Any, name: str) -> bool:
    """Whether a table has rows, and no key of one column that names each."""
    if len(rows_of(old, _KEYS.format(literal(name)))) == 1:
        return False
    return bool(rows_of(old, f"SELECT 1 FROM {quoted(name)} LIMIT 1"))


def gone_words(keys: Sequence[str]) -> str:
    """That rows of some keys are removed."""
    count = f"{len(keys):,} rows" if len(keys) > 1 else "1 row"
    return f"has {count} that the store has not, and they are removed: {ogr.printable(several(keys))}"


def keyed(part: Part, key: str) -> Iterator[tuple[str, dict[int, Any]]]:
    """The values of the features by their keys in the source, which may stand in a column of theirs."""
    numbers = [number for number, name in part.columns.items() if name == key]
    for feature in part.layer.features:
        values = dict(values_of(feature))
        yield str(values.get(numbers[0]) if numbers else feature.id), values


def several(names: Sequence[str]) -> str:
    """The first ones of some names, and how many more there are."""
    more = len(names) - _SHOWN
    return ", ".join(names[:_SHOWN]) + (f" and {more:,} more" if more > 0 else "")
