"""The features of whole layers, for programs that keep a layer of their own."""

from __future__ import annotations

from collections.abc import Sequence

from sfstore.extents import Box, rectangle
from sfstore.language import GRID_MAX, GRID_MIN, IDENTIFIER_MAX, IDENTIFIERS_MAX
from sfstore.store import Editor, Refused

__all__ = ["ROWS_MAX", "identifiers_of", "ids_of", "rows_of"]

ROWS_MAX = 10_000
"""How many features a call gives at most."""

_GRID: Box = (GRID_MIN, GRID_MIN, GRID_MAX, GRID_MAX)


def identifiers_of(store: Editor, layer: str, box: Box | None) -> list[int]:
    """The features of a layer, or those that meet a box, rising. `Refused` where there is no such layer."""
    return store.query(layer, "intersects", rectangle(box or _GRID))


def rows_of(store: Editor, layer: str, features: Sequence[int]) -> list[str]:
    """The rows of features as `show` has them, of those that are there. `Refused` where there is no such layer."""
    store.columns(layer)
    parts = [features[begin : begin + IDENTIFIERS_MAX] for begin in range(0, len(features), IDENTIFIERS_MAX)]
    rows: list[str] = []
    for part, answer in zip(parts, store.run_all(_getting(layer, part) for part in parts)):
        rows += _ones_there(store, layer, part) if isinstance(answer, Refused) else answer
    return rows


def _ones_there(store: Editor, layer: str, features: Sequence[int]) -> list[str]:
    """The rows of some features, asked for one by one, as one that is not there refuses all."""
    answers = store.run_all(_getting(layer, [feature]) for feature in features)
    return [row for answer in answers if isinstance(answer, list) for row in answer]


def _getting(layer: str, features: Sequence[int]) -> str:
    return f"get {layer} {' '.join(map(str, features))}"


def ids_of(ids: object) -> list[int]:
    """The identifiers that a call brings. `ValueError` where they are none."""
    if not isinstance(ids, list) or len(ids) > ROWS_MAX:
        raise ValueError(f"ids has to be a list of {ROWS_MAX} identifiers at most")
    if not all(type(each) is int and 0 <= each <= IDENTIFIER_MAX for each in ids):
        raise ValueError(f"ids has to have whole numbers from 0 to {IDENTIFIER_MAX}")
    return ids
