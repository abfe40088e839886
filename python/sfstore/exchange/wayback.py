"""What an export leaves in a GeoPackage for the way back: grid, drawing order, names, counters and rules.

It is metadata of a file that anyone may have written, so nothing of it is taken unseen.
"""

from __future__ import annotations

import json
from collections.abc import Iterable, Sequence
from dataclasses import dataclass, field
from typing import Any

from sfstore.exchange.formats import RULES_MAX, Part
from sfstore.exchange.grid import Grid
from sfstore.exchange.ruling import rule_said
from sfstore.exchange.spool import changed
from sfstore.language import COLUMN_TYPES, NAME
from sfstore.rules import AnyRule
from sfstore.sidecar import LayerOrigin
from sfstore.storefile import FileLayer

__all__ = ["ITEM", "LeftLayer", "WayBack", "left", "left_of", "read", "take_counters"]

ITEM = "SFSTORE"
"""The name of the item of metadata."""

_IDENTIFIERS = range(1, 2**32)
_COLUMNS = range(1, 2**16)

# More than any decimal of a grid has.
_LONGEST_WORD = 400


@dataclass(frozen=True)
class LeftLayer:
    """What is left of a layer."""

    name: str
    """Its name in the file."""
    store_name: str
    next_id: int
    next_column: int
    columns: dict[str, int]
    """The numbers of its columns, by their names in the store."""
    names: dict[str, str]
    """The names of its columns in the store, by those in the file."""
    types: dict[str, str] = field(default_factory=dict)
    """The types of its columns in the store, by their names there."""


@dataclass(frozen=True)
class WayBack:
    """What is left in a file."""

    grid: Grid | None = None
    layers: dict[str, LeftLayer] = field(default_factory=dict)
    """By their names in the file, in drawing order."""
    rules: list[AnyRule] = field(default_factory=list)


def left(parts: Iterable[Part], grid: tuple[str, str, str], rules: Sequence[AnyRule]) -> str:
    """The metadata of layers, and of rules between them."""
    layers = [
        {
            "name": part.name,
            "store_name": part.layer.name,
            "next_id": part.layer.next_id,
            "next_column": part.layer.next_column,
            "columns": {column.name: column.number for column in part.layer.columns},
            "names": {part.columns[column.number]: column.name for column in part.layer.columns},
            "types": {column.name: COLUMN_TYPES[column.type - 1] for column in part.layer.columns},
        }
        for part in parts
    ]
    content: dict[str, Any] = {"grid": grid, "layers": layers}
    if rules:
        content["rules"] = [rule.line for rule in rules]
    return json.dumps(content)


def left_of(origin: LayerOrigin) -> LeftLayer:
    """A layer's names in the store, as a side-car has them."""
    names = {column.source_name: column.name for column in origin.columns}
    return LeftLayer(origin.source_name, origin.name, 1, 1, {}, names)


def read(text: str) -> WayBack:
    """What is left. `ValueError` where it is nothing that an export leaves."""
    try:
        content = json.loads(text)
        grid = content.get("grid")
        layers = {layer.name: layer for layer in map(_layer, content["layers"])}
        # Files of former versions have no rules.
        return WayBack(None if grid is None else _grid(grid), layers, _rules(content.get("rules", [])))
    except (AttributeError, KeyError, TypeError, RecursionError) as error:
        raise ValueError(f"{type(error).__name__}: {error}") from None


def _grid(words: Any) -> Grid:
    if not isinstance(words, list) or len(words) != 3:
        raise ValueError("a grid has three words")
    return Grid(*(_text(word)[:_LONGEST_WORD] for word in words))


def _layer(item: Any) -> LeftLayer:
    columns = {_name(name): _number(number, _COLUMNS) for name, number in item["columns"].items()}
    # Files of former versions have no other names than those of the store.
    names = item.get("names", {name: name for name in columns})
    found = LeftLayer(
        _text(item["name"]),
        _name(item.get("store_name", item["name"]), item["name"]),
        _number(item["next_id"], _IDENTIFIERS),
        _number(item["next_column"], _COLUMNS),
        columns,
        {_text(name): _name(known) for name, known in names.items()},
        # Files of former versions have whole numbers and texts alone.
        {_name(name): _type(known) for name, known in item.get("types", {}).items()},
    )
    if len(set(columns.values())) < len(columns):
        raise ValueError("two columns have one number")
    return found


def _rules(lines: Any) -> list[AnyRule]:
    if not isinstance(lines, list):
        raise ValueError("the rules are no list")
    if len(lines) > RULES_MAX:
        raise ValueError(f"{len(lines)} rules, where at most {RULES_MAX} are left")
    return [rule_said(_text(line)) for line in lines]


def _text(word: Any) -> str:
    if not isinstance(word, str):
        raise ValueError(f"{word!r} is no text")
    return word


def _name(word: Any, otherwise: Any = None) -> str:
    """A name of the store. A layer of a former version's file has that of the file, whatever it is."""
    if word is not otherwise and not NAME.fullmatch(_text(word)):
        raise ValueError(f"{word!r} is no name of the store")
    return _text(word)


def _type(word: Any) -> str:
    if word not in COLUMN_TYPES:
        raise ValueError(f"{word!r} is no type of a column")
    return _text(word)


def _number(number: Any, wanted: range) -> int:
    if type(number) is not int or number not in wanted:
        raise ValueError(f"{number!r} is no number from {wanted[0]} to {wanted[-1]}")
    return number


def take_counters(layer: FileLayer, told: LeftLayer) -> None:
    """Takes up the counters of a layer, where they fit its columns."""
    numbers = [told.columns.get(column.name, 0) for column in layer.columns]
    if 0 not in numbers and told.next_column > max(numbers, default=0):
        renumbered = dict(enumerate(numbers, 1))
        layer.columns = [
            column._replace(number=renumbered[column.number]) for column in layer.columns
        ]
        if any(old != new for old, new in renumbered.items()):
            types = {column.number: column.type for column in layer.columns}
            layer.features = changed(layer.features, lambda each: each._replace(values={renumbered[key]: each.values[key] for key in each.values}), types)
        layer.next_column = told.next_column
    layer.next_id = max(layer.next_id, told.next_id)
