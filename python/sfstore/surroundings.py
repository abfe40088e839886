"""The surroundings of a map: what an edit brings that lies far outside of them is a mistake, mostly.

A digit was left out, x and y were exchanged, or degrees stand in the place of metres.
"""

from __future__ import annotations

import contextlib
import itertools
import re
import sys
from collections.abc import Callable, Iterable, Iterator, Sequence
from typing import NamedTuple

from sfstore.extents import Box
from sfstore.geometry import NotTaken, Shape, read_wkb, read_wkt
from sfstore.groups import lines_of
from sfstore.language import words_before_geometry, words_of_line

__all__ = ["FarOffTheMap", "Surroundings", "far_question", "level_of_caller", "points_far_off"]

# How far off a map something lies that is far off it: so many times what the map is wide or high, and so many steps besides.
_FAR_SIDES, _FAR_STEPS = 10, 100_000

# The first word of an edit that brings coordinates, or of a group. Coordinates of a binary are no numbers of a text.
_BRINGING = re.compile(r"[ \t]*(?:@[0-9]{1,3}[ \t]+)?(?:add|addhex|replace|vertex|together)[ \t]")
_BINARY = "addhex"
# How many words stand before the coordinates of a vertex.
_WORDS_TO_VERTEX = 7

Point = tuple[int, int]


class FarOffTheMap(UserWarning):
    """An edit brings a point that lies far off the map: more than ten times what the map is wide or high, and 100,000 steps besides.

    A `Store` warns of it before the line is sent, where the store's file has a grid beside it, as an import leaves it. Mostly x and y
    were exchanged, or metres were not made steps. As an error it stops the edit:

    >>> import tempfile, warnings
    >>> from sfstore.sidecar import Sidecar, write
    >>> warnings.simplefilter("error", FarOffTheMap)
    >>> with tempfile.TemporaryDirectory() as folder:
    ...     write(folder + "/town.sfs", Sidecar(("500000", "5600000", "0.01"), None, []), [])
    ...     with Store(folder + "/town.sfs", journal=True) as store:
    ...         store.add_layer("wells", "point")
    ...         store.add("wells", "POINT (4500 1500)")
    ...         try:
    ...             store.add("wells", "POINT (500045 5600015)")
    ...         except FarOffTheMap as far:
    ...             print(far)
    ...         store.show("wells")
    1
    (500045 5600015) lies far off the map, in steps of its grid
    [Feature(id=1, wkt='POINT (4500 1500)', values={})]
    >>> warnings.simplefilter("default", FarOffTheMap)
    """


class _Bounds(NamedTuple):
    """Where the surroundings of a map end."""

    left: int
    bottom: int
    right: int
    top: int

    def has(self, point: Point) -> bool:
        x, y = point
        return self.left <= x <= self.right and self.bottom <= y <= self.top

    @property
    def digits(self) -> int:
        """How many digits each coordinate outside has at least."""
        least = min(-self.left, -self.bottom, self.right, self.top)
        return len(str(least)) if least > 0 else 1


class Surroundings:
    """The surroundings of a map. How far it reaches is asked for where something lies outside of what was known."""

    def __init__(self) -> None:
        self._take(None)

    def point_beyond(self, line: str, extent: Callable[[], Box | None]) -> Point | None:
        """The first point that lies far off the map, of those that a line or a group brings as an edit, in steps; None where there is none.

        ``extent`` gives how far the map reaches now. Around an empty map all is near.
        """
        # Most lines have no number that is long enough: these cost next to nothing.
        if not _BRINGING.match(line) or not self._may_be_outside.search(line):
            return None
        brought = list(_points(line))
        if not brought or (self._bounds and all(map(self._bounds.has, brought))):
            return None
        # Others may have come since.
        self._take(extent())
        bounds = self._bounds
        return next((point for point in brought if not bounds.has(point)), None) if bounds else None

    def _take(self, extent: Box | None) -> None:
        """Takes how far the map reaches."""
        self._bounds = _bounds_of(extent) if extent else None
        digits = self._bounds.digits if self._bounds else 1
        self._may_be_outside = re.compile(f"{_BINARY}|[0-9]{{{digits}}}")


def _bounds_of(extent: Box) -> _Bounds:
    left, bottom, right, top = extent
    far = _FAR_SIDES * max(right - left, top - bottom) + _FAR_STEPS
    return _Bounds(left - far, bottom - far, right + far, top + far)


def points_far_off(extent: Box, shapes: Iterable[Shape]) -> list[Point]:
    """Of each shape that lies far off a map the first point that does, in steps. ``extent`` is how far the map reaches."""
    bounds = _bounds_of(extent)
    far = (next((point for point in _points_of_shape(shape) if not bounds.has(point)), None) for shape in shapes)
    return [point for point in far if point is not None]


def _points(line: str) -> Iterator[Point]:
    """The points that a line or a group brings as an edit. Of what can't be read the store says what is wrong."""
    for each in lines_of(line):
        if _BRINGING.match(each):
            with contextlib.suppress(NotTaken, ValueError, IndexError):
                yield from _points_of(words_of_line(each))


def _points_of(words: Sequence[str]) -> Iterator[Point]:
    """The points that an edit of these words brings."""
    if words[0] == "vertex":
        x, y = (int(word.partition(".")[0]) for word in words[_WORDS_TO_VERTEX:])
        yield x, y
    elif words[0] != "together":
        yield from _points_of_shape(_shape(words))


def _points_of_shape(shape: Shape) -> Iterator[Point]:
    for member in shape.members:
        for line in member:
            yield from ((int(x), int(y)) for x, y in zip(line[::2], line[1::2]))


def _shape(words: Sequence[str]) -> Shape:
    if words[0] == _BINARY:
        return read_wkb(bytes.fromhex(words[2]))
    return read_wkt(" ".join(words[words_before_geometry(words) :]))


def far_question(place: str) -> str:
    """What a person is asked before an edit is made that leads so far."""
    return f"{place} lies far off the map. Is it meant?"


def level_of_caller() -> int:
    """How many calls lead from whoever asks up to the first one outside of this package, whose line a warning names."""
    package = __name__.partition(".")[0]
    return next(level for level in itertools.count(1) if sys._getframe(level).f_globals["__name__"].partition(".")[0] != package)
