"""How layers look on the page: colours, widths, symbols, labels, and at which scales they are shown.

They stand in a file beside the store, which is written whole. Each field of a style has values of its own kind, and
nothing else is read from the file or taken from a page. So all that a style can hold is colours, numbers, words of a
list, and the name of a column.
"""

from __future__ import annotations

import re
from collections.abc import Callable
from typing import Union

from sfstore.language import NAME
from sfstore.web.stylefile import StyleError, StyleFile

__all__ = ["SYMBOLS", "Style", "StyleError", "Styles", "style_of"]

Style = dict[str, Union[str, float, bool]]
"""The fields of a style that differ from what is there without one."""

SYMBOLS = ["circle", "square", "triangle", "diamond", "cross", "star"]
"""What points may be drawn as."""

# A file of so many bytes holds more styles than a store has layers.
_BYTES_MAX = 1 << 24
_COLOUR = re.compile(r"#[0-9a-f]{6}")


def _is_colour(value: object) -> bool:
    return isinstance(value, str) and _COLOUR.fullmatch(value) is not None


def _is_column(value: object) -> bool:
    return isinstance(value, str) and NAME.fullmatch(value) is not None


def _is_symbol(value: object) -> bool:
    return isinstance(value, str) and value in SYMBOLS


def _is_bool(value: object) -> bool:
    return isinstance(value, bool)


def _between(least: float, most: float) -> Callable[[object], bool]:
    def is_met(value: object) -> bool:
        # What is no number compares with nothing.
        return isinstance(value, (int, float)) and not isinstance(value, bool) and least <= value <= most

    return is_met


_FIELDS: dict[str, tuple[Callable[[object], bool], str]] = {
    "colour": (_is_colour, "a colour such as #0b5fa5"),
    "width": (_between(0, 30), "a number of pixels from 0 to 30"),
    "fillColour": (_is_colour, "a colour such as #0b5fa5"),
    "fill": (_between(0, 100), "a percentage from 0 to 100"),
    "symbol": (_is_symbol, f"one of {', '.join(SYMBOLS)}"),
    "size": (_between(1, 60), "a number of pixels from 1 to 60"),
    "shrinks": (_is_bool, "true or false"),
    "isShown": (_is_bool, "true or false"),
    "scaleFrom": (_between(1, 1e12), "a number from 1 on: 500 for 1:500"),
    "scaleTo": (_between(1, 1e12), "a number from 1 on: 500 for 1:500"),
    "label": (_is_column, "the name of a column"),
    "labelSize": (_between(6, 40), "a number of pixels from 6 to 40"),
    "labelColour": (_is_colour, "a colour such as #0b5fa5"),
}


def style_of(given: object) -> Style:
    """A style of what a page or a file gives. `StyleError` where it is none."""
    if not isinstance(given, dict):
        raise StyleError("a style has to be an object")
    for name, value in given.items():
        if name not in _FIELDS:
            raise StyleError(f"a style has no {str(name)[:40]!r}")
        is_met, words = _FIELDS[name]
        if not is_met(value):
            raise StyleError(f"{name} has to be {words}")
    if given.get("scaleFrom", 1) > given.get("scaleTo", 1e12):
        raise StyleError("a layer is shown from the larger scale to the smaller one: from 1:500 to 1:5000")
    return dict(given)


class Styles(StyleFile[Style]):
    """How the layers of a store look on the page, kept in a file beside it."""

    def __init__(self, store: str) -> None:
        super().__init__(store, ".styles", "sfstore styles 1", style_of, _BYTES_MAX)

    def change(self, layer: str, fields: object) -> list[str]:
        """Changes some fields of a layer's style, and takes those away that are None. What others change meanwhile stays.

        `StyleError` where that is no style, else as `set`, whose answer it gives.
        """
        if not isinstance(fields, dict):
            raise StyleError("fields has to be an object")
        with self.lock:
            whole = {**self.all().get(layer, {}), **fields}
            return self.set(layer, style_of({name: value for name, value in whole.items() if value is not None}))
