"""Geometries as cells: which squares of the plane they touch, and how a picture of them is coarsened.

A picture has `SIDE` cells to a side, row by row from the north, a byte for each: 0 where nothing is,
`EDGE` where an edge or a point is, `INSIDE` within an area.
"""

from __future__ import annotations

import struct
import zlib
from collections.abc import Iterable, Sequence
from math import ceil, floor

from sfstore.geometry import Shape, read_wkb

__all__ = ["EDGE", "INSIDE", "SIDE", "WIDE", "blank", "coarsened", "draw", "draw_all", "png"]

SIDE = 256
"""Cells to a side of a picture."""

EDGE, INSIDE = 255, 90
# What is within an area hides no edge of another one.
_FILLED = bytes([INSIDE, *range(1, 256)])

WIDE = 4
"""Areas of fewer cells to a side are all edge."""

Line = Sequence[float]


def blank() -> bytearray:
    """A picture with nothing in it."""
    return bytearray(SIDE * SIDE)


def draw_all(cells: bytearray, geometries: Iterable[str], left: int, bottom: int, size: int) -> None:
    """Draws geometries, as the store has them in hexadecimal, into the picture whose least corner this is.

    Its cells have so many grid steps to a side.
    """
    for digits in geometries:
        draw(cells, read_wkb(bytes.fromhex(digits)), left, bottom, size)


def draw(cells: bytearray, shape: Shape, left: int, bottom: int, size: int) -> None:
    """Draws one geometry, as `draw_all` does."""
    for member in shape.members:
        if _is_dot(cells, member[0], left, bottom, size):
            continue
        lines = [_in_cells(line, left, bottom, size) for line in member]
        if shape.code in (3, 6) and _is_wide(lines[0]):
            _fill(cells, lines)
        for line in lines:
            _trace(cells, line)


def _is_dot(cells: bytearray, line: Line, left: int, bottom: int, size: int) -> bool:
    """Marks the cells of a line's points, where these are neighbours: of most features nothing is between them."""
    columns = [int(x - left) // size for x in line[::2]]
    rows = [int(y - bottom) // size for y in line[1::2]]
    if max(columns) - min(columns) > 1 or max(rows) - min(rows) > 1:
        return False
    for column, row in set(zip(columns, rows)):
        if 0 <= column < SIDE and 0 <= row < SIDE:
            cells[(SIDE - 1 - row) * SIDE + column] = EDGE
    return True


def _in_cells(line: Line, left: int, bottom: int, size: int) -> list[tuple[float, float]]:
    """The points of a line, counted in cells from the least corner, in the middles of their grid steps."""
    right, up = 0.5 - left, 0.5 - bottom
    return [((x + right) / size, (y + up) / size) for x, y in zip(line[::2], line[1::2])]


def _is_wide(ring: list[tuple[float, float]]) -> bool:
    xs, ys = zip(*ring)
    return bool(max(xs) - min(xs) >= WIDE and max(ys) - min(ys) >= WIDE)


def _trace(cells: bytearray, line: list[tuple[float, float]]) -> None:
    """Marks the cells along a line."""
    _mark(cells, *line[0])
    for (ax, ay), (bx, by) in zip(line, line[1:]):
        part = _part_inside(ax, ay, bx - ax, by - ay)
        if part is not None:
            _step(cells, ax, ay, bx - ax, by - ay, *part)


def _part_inside(x: float, y: float, dx: float, dy: float) -> tuple[float, float] | None:
    """The part of an edge that is in the picture, from 0 at its beginning to 1; none where it misses it."""
    first, last = 0.0, 1.0
    for place, step in ((x, dx), (y, dy)):
        if step == 0:
            if not 0 <= place < SIDE:
                return None
            continue
        enters, leaves = sorted((-place / step, (SIDE - place) / step))
        first, last = max(first, enters), min(last, leaves)
    return (first, last) if first <= last else None


def _step(cells: bytearray, x: float, y: float, dx: float, dy: float, first: float, last: float) -> None:
    """Marks the cells along a part of an edge, by steps of less than a cell."""
    steps = ceil(max(abs(dx), abs(dy)) * (last - first)) + 1
    for k in range(steps + 1):
        at = first + (last - first) * k / steps
        _mark(cells, x + dx * at, y + dy * at)


def _mark(cells: bytearray, x: float, y: float) -> None:
    column, row = floor(x), floor(y)
    if 0 <= column < SIDE and 0 <= row < SIDE:
        cells[(SIDE - 1 - row) * SIDE + column] = EDGE


def _fill(cells: bytearray, rings: list[list[tuple[float, float]]]) -> None:
    """Fills the cells whose middles are within rings, by the even-odd rule."""
    crossed: dict[int, list[float]] = {}
    for ring in rings:
        for (ax, ay), (bx, by) in zip(ring, ring[1:]):
            low, high = min(ay, by), max(ay, by)
            for row in range(max(0, ceil(low - 0.5)), min(SIDE, ceil(high - 0.5))):
                crossed.setdefault(row, []).append(ax + (row + 0.5 - ay) * (bx - ax) / (by - ay))
    for row, places in crossed.items():
        places.sort()
        for begin, end in zip(places[::2], places[1::2]):
            first, last = max(0, ceil(begin - 0.5)), min(SIDE, ceil(end - 0.5))
            if first < last:
                at = (SIDE - 1 - row) * SIDE
                cells[at + first : at + last] = cells[at + first : at + last].translate(_FILLED)


def coarsened(quarters: Sequence[bytes]) -> bytearray:
    """The picture of twice the size, of the quarters south-west, south-east, north-west and north-east.

    A quarter without cells has nothing in it.
    """
    cells = blank()
    half = SIDE // 2
    for place, quarter in enumerate(quarters):
        if not any(quarter):
            continue
        down, right = half * (1 - place // 2), half * (place % 2)
        for row in range(half):
            upper = quarter[2 * row * SIDE : (2 * row + 1) * SIDE]
            lower = quarter[(2 * row + 1) * SIDE : (2 * row + 2) * SIDE]
            at = (down + row) * SIDE + right
            cells[at : at + half] = _merged(upper, lower)
    return cells


def _merged(upper: bytes, lower: bytes) -> bytes:
    """Two rows as one of half as many cells, as if it were drawn so: an edge in one of four is an edge."""
    if not any(upper) and not any(lower):
        return bytes(SIDE // 2)
    return bytes(max(cells) for cells in zip(upper[::2], upper[1::2], lower[::2], lower[1::2]))


def png(cells: bytes) -> bytes:
    """A picture as a portable network graphic, black, as opaque as its cells say."""
    rows = bytearray()
    for row in range(SIDE):
        opaque = bytearray(2 * SIDE)
        opaque[1::2] = cells[row * SIDE : (row + 1) * SIDE]
        rows += b"\0" + opaque
    head = struct.pack(">IIBBBBB", SIDE, SIDE, 8, 4, 0, 0, 0)
    parts = [(b"IHDR", head), (b"IDAT", zlib.compress(bytes(rows), 1)), (b"IEND", b"")]
    return b"\x89PNG\r\n\x1a\n" + b"".join(_chunk(kind, data) for kind, data in parts)


def _chunk(kind: bytes, data: bytes) -> bytes:
    return struct.pack(">I", len(data)) + kind + data + struct.pack(">I", zlib.crc32(kind + data))
