"""Rows of answers as values."""

from __future__ import annotations

import re
from collections.abc import Mapping

from sfstore import values
from sfstore.results import ColumnType, Feature, Value

__all__ = ["feature_of", "row_values"]

_ROW = re.compile(r"([0-9]+) ([A-Z]+ \([-0-9 ,()]*\))")
_ROW_VALUE = re.compile(r" ([A-Za-z][A-Za-z0-9_]*)=([-0-9.:TZa-z]+|E?'[^']*(?:''[^']*)*')")


def feature_of(row: str, types: Mapping[str, ColumnType]) -> Feature:
    """The feature of a row of ``show``, whose layer has columns of these names and types."""
    found = _ROW.match(row)
    if found is None:
        raise ValueError(f"no feature: {row!r}")
    return Feature(int(found[1]), found[2], row_values(row, found.end(), types))


def row_values(row: str, at: int, types: Mapping[str, ColumnType]) -> dict[str, Value]:
    """The values that stand in a row of ``show`` from a place on, by their names; the columns have these types."""
    found_values: dict[str, Value] = {}
    while at < len(row):
        found = _ROW_VALUE.match(row, at)
        if found is None:
            raise ValueError(f"no value at {at}: {row!r}")
        name, text = found.groups()
        found_values[name] = values.read(text, types[name])
        at = found.end()
    return found_values
