"""Coordinates of the map for people: lines in map units become lines in steps of the grid, and answers the other way round.

The program counts in steps. A store that was imported has a grid, and with it each step stands for one decimal number of the
map. Both ways are exact: a coordinate that is no step is refused with the two nearest that are.
"""

from __future__ import annotations

import re
from collections.abc import Callable, Sequence
from decimal import Context, Decimal, InvalidOperation
from fractions import Fraction
from functools import reduce
from typing import NamedTuple

from sfstore.groups import lines_of
from sfstore.language import DISTANCE_PLACES, GRID_MAX, GRID_MIN, place_of_distance, words_before_geometry, words_of_line

__all__ = ["MapUnits", "NoPlace", "grid_decimal"]

# The text of a coordinate made of another one, by its axis and as it is written.
_Change = Callable[[int, str], str]

# A vertex is the last two of so many words.
_WORDS_OF_VERTEX = 9
# A row of rules is what stands behind these words where one is added.
_RULE_ADD = "rule add "
_ADDRESS = re.compile(r"[ \t]*@[0-9]{1,3}(?=[ \t])")
_WORD = re.compile(r"[ \t]*[^ \t]+")
_WKT_TOKEN = re.compile(r"[(),]|[^ \t(),]+")
_NUMBER = re.compile(r"[-+]?(?:[0-9]+(?:\.[0-9]*)?|\.[0-9]+)(?:[eE][-+]?[0-9]{1,4})?")
_PAIR = re.compile(r"(-?[0-9]+) (-?[0-9]+)")
_SHAPE_OF_ROW = re.compile(r"([0-9]+ [A-Z]+ )(\([-0-9 ,()]*\))")
_DISTANCE_ROW = re.compile(r"([0-9]+\.[0-9]+) ([0-9]+(?:/[0-9]+)?)")
_MEASURE_OF_ROW = re.compile(r"([0-9]+) (-?[0-9]+(?:\.[0-9]+)?)")
# How many more digits than those of a step a place has that stands between two steps.
_MORE_DIGITS = 3
# A number with a larger exponent is on no map, and neither is one with more letters: it would take the square of their count.
_EXPONENT_MAX, _LETTERS_MAX = 400, 1_000
# How much of one is shown.
_SHOWN = 40
# Digits enough for the product of three numbers of a grid: nothing is rounded.
_EXACT = Context(prec=4_000)


class NoPlace(ValueError):
    """A coordinate of the map that is no place of the grid. The text says which are near, or where the grid ends."""


class _Axis(NamedTuple):
    """The coordinates of a map along one axis: ``origin + k * step`` for whole numbers k, over one denominator."""

    name: str
    origin: int
    step: int
    digits: int
    """The denominator is 10 to the power of this, and so many digits are shown behind the point."""

    def step_of(self, text: str) -> int:
        """The step of a coordinate as it is written. `NoPlace` where there is none."""
        if len(text) > _LETTERS_MAX:
            raise NoPlace(f"{self.name} {text[:_SHOWN]}.. has {len(text):,} letters, and a coordinate at most {_LETTERS_MAX:,}")
        number = Decimal(text)
        if number and number.adjusted() > _EXPONENT_MAX:
            raise NoPlace(f"{self.name} {text} lies {self._outside()}")
        steps = (Fraction(number) * 10**self.digits - self.origin) / self.step
        if not GRID_MIN <= steps <= GRID_MAX:
            raise NoPlace(f"{self.name} {text} lies {self._outside()}")
        if steps.denominator != 1:
            below = steps.numerator // steps.denominator
            raise NoPlace(
                f"{self.name} {text} lies between two places of the grid, {self.place_of(below)} and {self.place_of(below + 1)}: take one of them"
            )
        return int(steps)

    def place_of(self, step: int) -> str:
        """The coordinate of a step, with all of its digits."""
        return _with_point(self.origin + step * self.step, self.digits)

    def near_place_of(self, step: int | Fraction) -> str:
        """The coordinate of a place that may stand between two steps: exact, or rounded behind further digits."""
        if step == int(step):
            return self.place_of(int(step))
        scaled = (self.origin + step * self.step) * 10**_MORE_DIGITS
        rounded = round(scaled)
        return ("" if rounded == scaled else "~") + _with_point(rounded, self.digits + _MORE_DIGITS)

    def _outside(self) -> str:
        return f"outside of the grid, which goes from {self.place_of(GRID_MIN)} to {self.place_of(GRID_MAX)}"


class MapUnits:
    """The coordinates of a map that a store was imported from: x and y of the origin and the step of its grid.

    >>> grid = MapUnits("500000", "5600000", "0.01")
    >>> grid.steps("POINT (500045 5600015.5)")
    'POINT (4500 1550)'
    >>> grid.places("LINESTRING (4500 1550, 0 -1)")
    'LINESTRING (500045.00 5600015.50, 500000.00 5599999.99)'
    """

    def __init__(self, x: str, y: str, step: str) -> None:
        exact = [grid_decimal(word) for word in (x, y, step)]
        if exact[2] <= 0:
            raise ValueError(f"the step of a grid is above 0, not {step}")
        digits = max(0, *(-int(number.as_tuple().exponent) for number in exact))
        whole = [int(Fraction(number) * 10**digits) for number in exact]
        self._axes = _Axis("x", whole[0], whole[2], digits), _Axis("y", whole[1], whole[2], digits)
        self.step = exact[2]
        """How long a step is, in map units."""

    def steps(self, wkt: str) -> str:
        """A well-known text in map units, in steps. `NoPlace`, a `ValueError`, where a coordinate is none of the grid.

        What is no number, and what stands behind x and y, is left as it is: the store says what is wrong with it.
        """
        return _numbers_changed(wkt, self._step_text)

    def places(self, wkt: str) -> str:
        """A well-known text in steps, as the store gives it, in map units: exact, with the digits of a step."""
        return _PAIR.sub(self._pair, wkt)

    def area(self, squared_steps: Decimal) -> Decimal:
        """An area in squared map units. Exact.

        >>> MapUnits("0", "0", "0.01").area(Decimal("275376"))
        Decimal('27.5376')
        """
        return _product(squared_steps, self.step, self.step)

    def length(self, steps: Decimal) -> Decimal:
        """A length in map units. Exact.

        >>> MapUnits("0", "0", "0.01").length(Decimal("15000.000"))
        Decimal('150')
        """
        return _product(steps, self.step)

    def reach(self, distance: Decimal) -> Decimal:
        """A distance in map units, in grid steps. `NoPlace` where it is none that a line may have: three places behind the point.

        >>> MapUnits("0", "0", "0.01").reach(Decimal("2.5"))
        Decimal('250')
        """
        scaled = Fraction(distance) / Fraction(self.step) * 10**DISTANCE_PLACES
        if scaled.denominator == 1:
            return _shortest(Decimal(scaled.numerator).scaleb(-DISTANCE_PLACES, _EXACT))
        below = scaled.numerator // scaled.denominator
        near = " and ".join(format(self.length(Decimal(each).scaleb(-DISTANCE_PLACES, _EXACT)), "f") for each in (below, below + 1))
        raise NoPlace(f"the distance {distance:f} is no whole number of thousandths of a grid step; {near} are")

    def coordinate(self, axis: int, step: int) -> str:
        """The coordinate of a step along x (0) or y (1), with all of its digits.

        >>> MapUnits("500000", "5600000", "0.01").coordinate(1, 1550)
        '5600015.50'
        """
        return self._axes[axis].place_of(step)

    def point_text(self, point: tuple[int | Fraction, int | Fraction]) -> str:
        """A place in map units, as ``(500045.00 5600015.50)``. One that has no end as a decimal is rounded, behind a ``~``."""
        x, y = (axis.near_place_of(step) for axis, step in zip(self._axes, point))
        return f"({x} {y})"

    def line(self, line: str) -> str:
        """A line of the console whose coordinates are in map units, or the text of a group, as the program takes it.

        `NoPlace` where a coordinate is none of the grid. Bytes in hexadecimal stay in steps.

        >>> MapUnits("500000", "5600000", "0.01").line("@7 vertex move parcels 3 0 0 1 500045.5 5600015")
        '@7 vertex move parcels 3 0 0 1 4550 1500'
        """
        return "\r".join(_coordinates_changed(_distance_changed(each, self._reach), self._step_text) for each in lines_of(line))

    def shown_line(self, line: str) -> str:
        """A line of steps, as it would be written in map units: what `line` makes steps of again.

        >>> MapUnits("500000", "5600000", "0.01").shown_line("add wells POINT (4550 1500)")
        'add wells POINT (500045.50 5600015.00)'
        """
        return "\r".join(_coordinates_changed(_distance_changed(each, self._shown_reach), self._place_text) for each in lines_of(line))

    def rows(self, line: str, rows: Sequence[str]) -> list[str]:
        """The rows of the answer to a line, in map units."""
        words = words_of_line(line)
        shown = _ROWS.get(words[0]) if words else None
        return [shown(self, row) for row in rows] if shown else list(rows)

    def _step_text(self, axis: int, text: str) -> str:
        return str(self._axes[axis].step_of(text))

    def _place_text(self, axis: int, text: str) -> str:
        """The coordinate of a step; what is none of the grid is left as it is written."""
        number = Decimal(text)
        if number.adjusted() > _EXPONENT_MAX or number != number.to_integral_value():
            return text
        return self._axes[axis].place_of(int(number))

    def _reach(self, text: str) -> str:
        if len(text) > _LETTERS_MAX:
            raise NoPlace(f"the distance {text[:_SHOWN]}.. has {len(text):,} letters, and may have {_LETTERS_MAX:,} at most")
        number = Decimal(text)
        return text if abs(number.adjusted()) > _EXPONENT_MAX else format(self.reach(number), "f")

    def _shown_reach(self, text: str) -> str:
        if len(text) > _LETTERS_MAX or abs(Decimal(text).adjusted()) > _EXPONENT_MAX:
            return text
        return format(self.length(Decimal(text)), "f")

    def _distance_row(self, row: str) -> str:
        """A distance and its square, in map units: the square as a decimal where it ends as one."""
        return _DISTANCE_ROW.sub(lambda found: f"{self.length(Decimal(found[1]))} {self._square(Fraction(found[2]))}", row, count=1)

    def _square(self, square: Fraction) -> str:
        scaled = square * Fraction(self.step) ** 2
        rest = scaled.denominator
        for factor in (2, 5):
            while rest % factor == 0:
                rest //= factor
        exact = _EXACT.divide(Decimal(scaled.numerator), Decimal(scaled.denominator)) if rest == 1 else None
        return str(scaled) if exact is None else format(_shortest(exact), "f")

    def _rule_row(self, row: str) -> str:
        return self.shown_line(f"{_RULE_ADD}{row}").removeprefix(_RULE_ADD)

    def _shape_row(self, row: str) -> str:
        return _SHAPE_OF_ROW.sub(lambda found: found[1] + self.places(found[2]), row, count=1)

    def _area_row(self, row: str) -> str:
        return _measured(row, self.area)

    def _length_row(self, row: str) -> str:
        return _measured(row, self.length)

    def _pair(self, found: re.Match[str]) -> str:
        x, y = self._axes
        return f"{x.place_of(int(found[1]))} {y.place_of(int(found[2]))}"


_ROWS: dict[str, Callable[[MapUnits, str], str]] = {
    "show": MapUnits._shape_row,
    "get": MapUnits._shape_row,
    "box": MapUnits.places,
    "area": MapUnits._area_row,
    "length": MapUnits._length_row,
    "distance": MapUnits._distance_row,
    "nearest": MapUnits._length_row,
    "rules": MapUnits._rule_row,
}


def grid_decimal(word: str) -> Decimal:
    """A decimal in its shortest form. `ValueError` where a word is none that a grid can have."""
    try:
        number = Decimal(word)
    except InvalidOperation:
        raise ValueError(f"{word[:_SHOWN]!r} is no decimal number") from None
    # Python takes other digits too, and parts them.
    if not word.isascii() or "_" in word:
        raise ValueError(f"{word[:_SHOWN]!r} is no decimal number")
    if not number.is_finite() or abs(number.adjusted()) > 300 or len(word) > _LETTERS_MAX:
        raise ValueError(f"{word[:_SHOWN]!r} is no decimal number that a grid can have")
    return _shortest(number)


def _shortest(number: Decimal) -> Decimal:
    """The same number without an exponent, and without zeros behind its point."""
    return Decimal(format(_EXACT.normalize(number), "f"))


def _with_point(scaled: int, digits: int) -> str:
    """A whole number of which some digits stand behind the point."""
    text = str(abs(scaled)).rjust(digits + 1, "0")
    sign = "-" if scaled < 0 else ""
    return f"{sign}{text[:-digits]}.{text[-digits:]}" if digits else sign + text


def _product(*numbers: Decimal) -> Decimal:
    """The exact product."""
    return _shortest(reduce(_EXACT.multiply, numbers))


def _measured(row: str, scale: Callable[[Decimal], Decimal]) -> str:
    """The row of a measure, scaled."""
    return _MEASURE_OF_ROW.sub(lambda found: f"{found[1]} {scale(Decimal(found[2]))}", row, count=1)


def _end_of_words(line: str, count: int) -> int:
    """Where so many words end, the editor's not counted."""
    address = _ADDRESS.match(line)
    at = address.end() if address else 0
    for _ in range(count):
        word = _WORD.match(line, at)
        at = word.end() if word else len(line)
    return at


def _coordinates_changed(line: str, change: _Change) -> str:
    """A line with its coordinates changed: those of a geometry, or of a vertex."""
    words = words_of_line(line)
    count = words_before_geometry(words)
    if words[:1] == ["vertex"] and len(words) == _WORDS_OF_VERTEX:
        count = _WORDS_OF_VERTEX - 2
    if count is None:
        return line
    at = _end_of_words(line, count)
    return line[:at] + _numbers_changed(line[at:], change)


def _distance_changed(line: str, change: Callable[[str], str]) -> str:
    """A line with the distance changed that it asks for, where it is one that can be read."""
    place = place_of_distance(words_of_line(line))
    if place is None:
        return line
    start, end = _end_of_words(line, place), _end_of_words(line, place + 1)
    word = line[start:end].strip(" \t")
    return line[:start] + " " + change(word) + line[end:] if _NUMBER.fullmatch(word) else line


def _numbers_changed(text: str, change: _Change) -> str:
    """A text with the first two numbers of each point changed: those behind a bracket, a comma, or the text's beginning."""
    axis, pieces, at = 0, [], 0
    for found in _WKT_TOKEN.finditer(text):
        token = found[0]
        if token in "(),":
            axis = 0
        elif _NUMBER.fullmatch(token):
            if axis < 2:
                pieces += [text[at : found.start()], change(axis, token)]
                at = found.end()
            axis += 1
    return "".join([*pieces, text[at:]])
