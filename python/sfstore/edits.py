"""The lines of edits of features. `ValueError` for what has no place in a line.

``which`` is the word for a feature: its identifier, or ``last`` in a group.
"""

from __future__ import annotations

from sfstore import spelling, values
from sfstore.results import Value

__all__ = ["add", "delete", "replace", "set_value", "unset", "vertex_insert", "vertex_move", "vertex_remove"]


def add(layer: str, geometry: str | bytes) -> str:
    """Adds a feature of a well-known text, or of the bytes of a well-known binary."""
    if isinstance(geometry, str):
        return f"add {spelling.name(layer)} {geometry}"
    return f"addhex {spelling.name(layer)} {memoryview(geometry).hex()}"


def delete(layer: str, which: str) -> str:
    """Removes a feature."""
    return f"delete {spelling.name(layer)} {which}"


def replace(layer: str, which: str, wkt: str) -> str:
    """Gives a feature another geometry."""
    return f"replace {spelling.name(layer)} {which} {spelling.geometry(wkt)}"


def vertex_insert(layer: str, which: str, part: int, ring: int, index: int, x: int, y: int) -> str:
    """Inserts a vertex."""
    return f"vertex insert {spelling.vertex(layer, which, part, ring, index)} {_place(x, y)}"


def vertex_move(layer: str, which: str, part: int, ring: int, index: int, x: int, y: int) -> str:
    """Moves a vertex."""
    return f"vertex move {spelling.vertex(layer, which, part, ring, index)} {_place(x, y)}"


def vertex_remove(layer: str, which: str, part: int, ring: int, index: int) -> str:
    """Removes a vertex."""
    return f"vertex remove {spelling.vertex(layer, which, part, ring, index)}"


def set_value(layer: str, which: str, column: str, value: Value) -> str:
    """Sets a value."""
    return f"set {spelling.name(layer)} {which} {spelling.name(column)} {values.spelled(value)}"


def unset(layer: str, which: str, column: str) -> str:
    """Clears a value."""
    return f"unset {spelling.name(layer)} {which} {spelling.name(column)}"


def _place(x: int, y: int) -> str:
    return f"{spelling.integer(x)} {spelling.integer(y)}"
