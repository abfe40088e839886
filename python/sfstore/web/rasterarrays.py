"""Geometries as cells by numpy: the same pictures as those of `raster`, cell by cell, of many geometries at a time.

Each number is computed as there, by the same operations on doubles in the same order.
"""

from __future__ import annotations

import struct
from collections.abc import Iterable, Iterator, Sequence
from typing import Any, NamedTuple

import numpy as np

from sfstore.web.raster import EDGE, INSIDE, SIDE, WIDE

__all__ = ["coarsened", "draw_all"]

# How many hexadecimal digits of geometries are drawn at a time, but for those of the last one: some 125,000 points.
_DIGITS = 4_000_000
# How many places along edges are marked at a time, but for those of the last edge.
_PLACES = 50000
# A double, and the numbers of a point.
_DOUBLE, _POINT = 8, 16
_COUNT = struct.Struct("<I")
# As an integer of so many bits each coordinate and each cell has room.
_INT = np.int64


class _Lines(NamedTuple):
    """The lines and rings of several geometries, those of a member behind one another."""

    x: Any
    y: Any
    """The coordinates of all of their points."""
    begins: Any
    """Where the points of each begin."""
    members: Any
    """The member that each is of, by its number."""
    are_first: Any
    """Whether each is the first of its member."""
    are_rings: Any
    """Whether each is a ring of an area."""

    def of(self, taken: Any) -> _Lines:
        """Some of the lines."""
        counts = self.counts[taken]
        points = np.repeat(taken, self.counts)
        parts = self.members[taken], self.are_first[taken], self.are_rings[taken]
        return _Lines(self.x[points], self.y[points], _begins(counts), *parts)

    @property
    def counts(self) -> Any:
        """How many points each has."""
        return np.diff(self.begins, append=len(self.x))

    @property
    def edges(self) -> Any:
        """The points at which an edge begins: all but the last of each line."""
        are_last = np.zeros(len(self.x), bool)
        are_last[self.begins[1:] - 1] = True
        are_last[-1:] = True
        return np.nonzero(~are_last)[0]


def draw_all(cells: bytearray, geometries: Iterable[str], left: int, bottom: int, size: int) -> None:
    """Draws geometries into a picture, as `raster.draw_all` does."""
    seen = np.frombuffer(cells, np.uint8)
    filled = np.zeros((SIDE, SIDE + 1), _INT)
    for part in _parts(geometries):
        _draw(seen, filled, _lines_of(part), left, bottom, size)
    inside = np.cumsum(filled, axis=1)[::-1, :SIDE].ravel()
    # What is within an area hides no edge of another one.
    seen[(inside > 0) & (seen == 0)] = INSIDE


def coarsened(quarters: Sequence[bytes]) -> bytearray:
    """The picture of twice the size, as `raster.coarsened` has it."""
    cells = np.zeros((SIDE, SIDE), np.uint8)
    half = SIDE // 2
    for place, quarter in enumerate(quarters):
        if quarter:
            down, right = half * (1 - place // 2), half * (place % 2)
            fine = np.frombuffer(quarter, np.uint8).reshape(half, 2, half, 2)
            cells[down : down + half, right : right + half] = fine.max(axis=(1, 3))
    return bytearray(cells.tobytes())


def _parts(geometries: Iterable[str]) -> Iterator[list[str]]:
    part: list[str] = []
    digits = 0
    for geometry in geometries:
        part.append(geometry)
        digits += len(geometry)
        if digits >= _DIGITS:
            yield part
            part, digits = [], 0
    if part:
        yield part


def _begins(counts: Any) -> Any:
    """Where parts of so many begin that stand behind one another."""
    return np.cumsum(counts) - counts


def _lines_of(part: Sequence[str]) -> _Lines:
    """The lines of geometries in hexadecimal, as the store has them: with the least significant byte first."""
    # Where all are of one kind the doubles of all stand alike, with such a gap between.
    gap = -len(part[0]) // 2 % _DOUBLE
    data = bytes.fromhex(("00" * gap).join(part))
    at = _begins(np.fromiter(map(len, part), _INT, len(part)) // 2 + gap)
    starts, counts, are_rings, are_single = _single_lines(data, at)
    found = [starts[are_single], counts[are_single], are_rings[are_single], np.nonzero(are_single)[0], np.ones(are_single.sum(), bool)]
    if not are_single.all():
        # Numbers of members that no geometry of one line has.
        further = list(_walked(data, at[~are_single].tolist(), len(part)))
        found = [np.concatenate((known, more)) for known, more in zip(found, map(np.array, zip(*further)))]
    starts, counts, are_rings, members, are_first = found
    x, y = _points(data, starts, counts)
    return _Lines(x, y, _begins(counts), members, are_first, are_rings)


def _single_lines(data: bytes, at: Any) -> tuple[Any, Any, Any, Any]:
    """Of the geometries at some places: where the points of their first line stand, and how many, whether it is a ring.

    The last answer says which have no other line: what the others say of others is nothing.
    """
    # Behind the end stand bytes that are read of geometries too short to have them, and never used.
    known = np.frombuffer(data + bytes(2 * _POINT), np.uint8)
    codes = _numbers(known, at + 1)
    are_multi = codes > 3
    inner = np.where(are_multi, at + 9, at)
    kinds = np.where(are_multi, codes - 3, codes)
    second, third = _numbers(known, inner + 5), _numbers(known, inner + 9)
    are_single = (~are_multi | (_numbers(known, at + 5) == 1)) & ((kinds < 3) | (second == 1))
    starts = inner + np.choose(kinds - 1, (5, 9, 13))
    return starts, np.choose(kinds - 1, (1, second, third)), kinds == 3, are_single


def _numbers(data: Any, at: Any) -> Any:
    """The whole numbers of four bytes at some places."""
    found = data[at[:, None] + np.arange(4)].view("<u4")[:, 0]
    return found.astype(_INT)


def _walked(data: bytes, places: Iterable[int], member: int) -> Iterator[tuple[int, int, bool, int, bool]]:
    """Each line of the geometries at some places: where its points stand, how many, whether it is a ring, its member, whether it is the first."""
    for at in places:
        (code,) = _COUNT.unpack_from(data, at + 1)
        several = 1
        if code > 3:
            (several,) = _COUNT.unpack_from(data, at + 5)
            code, at = code - 3, at + 9
        for _ in range(several):
            rings, at = 1, at + 5
            if code == 3:
                (rings,) = _COUNT.unpack_from(data, at)
                at += 4
            for ring in range(rings):
                count = 1
                if code > 1:
                    (count,) = _COUNT.unpack_from(data, at)
                    at += 4
                yield at, count, code == 3, member, ring == 0
                at += _POINT * count
            member += 1


def _points(data: bytes, starts: Any, counts: Any) -> tuple[Any, Any]:
    """The coordinates of lines whose points stand at places that may be no multiples of eight."""
    total = int(counts.sum())
    places = np.repeat(starts // _DOUBLE - 2 * _begins(counts), counts) + np.arange(0, 2 * total, 2)
    shifts = starts % _DOUBLE
    several = np.unique(shifts).tolist()
    numbers = {shift: np.frombuffer(data, "<f8", (len(data) - shift) // _DOUBLE, shift) for shift in several}
    if len(several) == 1:
        [known] = numbers.values()
        return known[places], known[places + 1]
    x, y = np.empty(total), np.empty(total)
    for shift, known in numbers.items():
        here = np.repeat(shifts == shift, counts)
        x[here], y[here] = known[places[here]], known[places[here] + 1]
    return x, y


def _draw(seen: Any, filled: Any, lines: _Lines, left: int, bottom: int, size: int) -> None:
    """Marks the cells of lines, and where areas begin and end in rows of cells."""
    # Of whole numbers of 33 bits the quotient is never rounded up to a whole one.
    columns, rows = np.floor((lines.x - left) / size), np.floor((lines.y - bottom) / size)
    are_dots = lines.are_first & (_spread(columns, lines.begins) <= 1) & (_spread(rows, lines.begins) <= 1)
    points = np.repeat(are_dots, lines.counts)
    _mark(seen, columns[points], rows[points])
    dots = np.zeros(lines.members.max() + 1, bool)
    dots[lines.members[are_dots]] = True
    rest = ~dots[lines.members]
    if not rest.any():
        return
    others = lines if rest.all() else lines.of(rest)
    right, up = 0.5 - left, 0.5 - bottom
    others = others._replace(x=(others.x + right) / size, y=(others.y + up) / size)
    _fill(filled, others)
    _trace(seen, others)


def _spread(places: Any, begins: Any) -> Any:
    """How far the greatest of each part is from the least."""
    return np.maximum.reduceat(places, begins) - np.minimum.reduceat(places, begins)


def _mark(seen: Any, x: Any, y: Any) -> None:
    """Marks the cells that have points."""
    here = (x >= 0) & (x < SIDE) & (y >= 0) & (y < SIDE)
    columns, rows = x[here].astype(np.int32), y[here].astype(np.int32)
    seen[(SIDE - 1 - rows) * SIDE + columns] = EDGE


def _trace(seen: Any, lines: _Lines) -> None:
    """Marks the cells along lines."""
    _mark(seen, lines.x[lines.begins], lines.y[lines.begins])
    edges = lines.edges
    x, y = lines.x[edges], lines.y[edges]
    dx, dy = lines.x[edges + 1] - x, lines.y[edges + 1] - y
    first, last, are_inside = _parts_inside(((x, dx), (y, dy)))
    x, y, dx, dy, first, last = (each[are_inside] for each in (x, y, dx, dy, first, last))
    # An edge has no more of them in a picture than it has cells, and few more.
    steps = (np.ceil(np.maximum(np.abs(dx), np.abs(dy)) * (last - first)) + 1).astype(np.int16)
    order = np.argsort(steps, kind="stable")
    x, y, dx, dy, first, last, steps = (each[order] for each in (x, y, dx, dy, first, last, steps))
    for count in np.unique(steps).tolist():
        begin, end = steps.searchsorted(count), steps.searchsorted(count, "right")
        several = _PLACES // count
        for at in range(begin, end, several):
            here = slice(at, min(at + several, end))
            _step(seen, count, *(each[here, None] for each in (x, y, dx, dy, first, last)))


def _parts_inside(axes: Iterable[tuple[Any, Any]]) -> tuple[Any, Any, Any]:
    """The parts of edges that are in the picture, from 0 at their beginnings to 1, and whether there is any."""
    first, last, are_inside = np.float64(0.0), np.float64(1.0), np.True_
    for place, step in axes:
        with np.errstate(divide="ignore", invalid="ignore"):
            one, other = -place / step, (SIDE - place) / step
        moves = step != 0
        are_inside = are_inside & (moves | ((place >= 0) & (place < SIDE)))
        first = np.where(moves, np.maximum(first, np.minimum(one, other)), first)
        last = np.where(moves, np.minimum(last, np.maximum(one, other)), last)
    return first, last, are_inside & (first <= last)


def _step(seen: Any, steps: int, x: Any, y: Any, dx: Any, dy: Any, first: Any, last: Any) -> None:
    """Marks the cells along parts of edges, by so many steps of less than a cell each."""
    at = first + (last - first) * np.arange(steps + 1) / steps
    _mark(seen, x + dx * at, y + dy * at)


def _fill(filled: Any, lines: _Lines) -> None:
    """Notes where the rows of cells whose middles are within areas begin and end, by the even-odd rule."""
    are_wide = lines.are_first & (_spread(lines.x, lines.begins) >= WIDE) & (_spread(lines.y, lines.begins) >= WIDE)
    wide = np.zeros(lines.members.max() + 1, bool)
    wide[lines.members[are_wide]] = True
    taken = lines.are_rings & wide[lines.members]
    if not taken.any():
        return
    rings = lines.of(taken)
    at = rings.edges
    ay, by = rings.y[at], rings.y[at + 1]
    begins = np.maximum(0, np.ceil(np.minimum(ay, by) - 0.5)).astype(_INT)
    ends = np.minimum(SIDE, np.ceil(np.maximum(ay, by) - 0.5)).astype(_INT)
    cross = begins < ends
    members = np.repeat(rings.members, rings.counts)[at]
    edges = _Edges(*(each[cross] for each in (rings.x[at], ay, rings.x[at + 1], by, members, begins, ends)))
    counts = np.cumsum(np.bincount(edges.begins, minlength=SIDE + 1) - np.bincount(edges.ends, minlength=SIDE + 1))
    turns = np.cumsum(counts[:SIDE]) // _PLACES
    for turn in np.unique(turns):
        [rows] = np.nonzero(turns == turn)
        _fill_rows(filled, edges, rows[0], rows[-1] + 1)


class _Edges(NamedTuple):
    """Edges of rings of areas that cross rows of cells."""

    ax: Any
    ay: Any
    bx: Any
    by: Any
    members: Any
    begins: Any
    """The first row that each crosses the middle of."""
    ends: Any
    """The one behind the last."""


def _fill_rows(filled: Any, edges: _Edges, low: int, high: int) -> None:
    """As `_fill`, for some rows alone."""
    begins = np.clip(edges.begins, low, high)
    counts = np.clip(edges.ends, low, high) - begins
    edge = np.repeat(np.arange(len(counts)), counts)
    row = np.arange(len(edge)) - _begins(counts)[edge] + begins[edge]
    ax, ay, bx, by = edges.ax[edge], edges.ay[edge], edges.bx[edge], edges.by[edge]
    place = ax + (row + 0.5 - ay) * (bx - ax) / (by - ay)
    # Those of a row of an area come to stand behind one another, from the left: there are two of them, or four, ..
    key = edges.members[edge] * SIDE + row
    order = np.lexsort((place, key))
    row, place = row[order], place[order]
    first, last = np.maximum(0, np.ceil(place[::2] - 0.5)), np.minimum(SIDE, np.ceil(place[1::2] - 0.5))
    shown = first < last
    rows = row[::2][shown]
    np.add.at(filled, (rows, first[shown].astype(_INT)), 1)
    np.add.at(filled, (rows, last[shown].astype(_INT)), -1)
