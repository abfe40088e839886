"""Geometries as lists of coordinates, and their well-known texts and binaries.

All six kinds have one form: members of rings or lines of coordinates. A point is one member of one
list of one pair, a polygon one member with its rings, a multi form one member for each element.
"""

from __future__ import annotations

import re
import struct
from collections.abc import Callable, Sequence
from typing import NamedTuple

from sfstore.language import KINDS

__all__ = ["KINDS", "NotTaken", "Shape", "read_wkb", "read_wkt", "write_wkb", "write_wkt"]

Flat = Sequence[float]
"""Coordinates of points in their order: x, y, x, y, .."""


class NotTaken(ValueError):
    """The store takes no such geometry. The text says what it is."""


class Shape(NamedTuple):
    """A geometry of one of the six kinds."""

    code: int
    """From 1 for a point to 6 for a multi polygon."""
    members: list[list[Flat]]

    def mapped(self, change: Callable[[Flat], Flat]) -> Shape:
        """The shape whose lists of coordinates are changed, one after the other."""
        return Shape(self.code, [[change(line) for line in member] for member in self.members])


def read_wkb(data: bytes) -> Shape:
    """The geometry of a well-known binary of either order. `NotTaken` for any but the six kinds."""
    try:
        return _read(data, 0, None)[0]
    except (struct.error, IndexError) as fault:
        raise NotTaken("a binary that ends too early") from fault


def _read(data: bytes, at: int, wanted: int | None) -> tuple[Shape, int]:
    """The geometry at a place, of the wanted kind where one is, and the place behind it."""
    order = "<" if data[at] else ">"
    (code,) = struct.unpack_from(order + "I", data, at + 1)
    _check_code(code)
    if wanted not in (None, code):
        raise NotTaken("a geometry with members of another kind")
    at += 5
    if code == 1:
        point = struct.unpack_from(order + "2d", data, at)
        if point[0] != point[0]:
            raise NotTaken("empty")
        return Shape(1, [[point]]), at + 16
    if code == 2:
        line, at = _read_line(data, at, order)
        return Shape(2, [[line]]), at
    (count,) = struct.unpack_from(order + "I", data, at)
    at += 4
    if count == 0:
        raise NotTaken("empty")
    if code == 3:
        rings = []
        for _ in range(count):
            ring, at = _read_line(data, at, order)
            rings.append(ring)
        return Shape(3, [rings]), at
    members = []
    for _ in range(count):
        member, at = _read(data, at, code - 3)
        members += member.members
    return Shape(code, members), at


def _read_line(data: bytes, at: int, order: str) -> tuple[Flat, int]:
    (count,) = struct.unpack_from(order + "I", data, at)
    if count == 0:
        raise NotTaken("empty")
    return struct.unpack_from(f"{order}{2 * count}d", data, at + 4), at + 4 + 16 * count


def _check_code(code: int) -> None:
    base = code % 1000
    if code >= 1000:
        raise NotTaken("Z or M")
    if base == 7:
        raise NotTaken("a geometry collection")
    if not 1 <= base <= 6:
        raise NotTaken("a curve or surface")


def write_wkb(shape: Shape) -> bytes:
    """The well-known binary, the least significant byte first."""
    code, members = shape
    if code <= 3:
        return _write(code, members[0])
    head = struct.pack("<BII", 1, code, len(members))
    return head + b"".join(_write(code - 3, member) for member in members)


def _write(code: int, lines: list[Flat]) -> bytes:
    head = struct.pack("<BI", 1, code)
    if code == 1:
        return head + struct.pack("<2d", *lines[0])
    packed = [struct.pack(f"<I{len(line)}d", len(line) // 2, *line) for line in lines]
    if code == 2:
        return head + packed[0]
    return head + struct.pack("<I", len(lines)) + b"".join(packed)


def write_wkt(shape: Shape) -> str:
    """The canonical well-known text of a geometry of whole numbers."""
    code, members = shape
    texts = [[_points(line) for line in member] for member in members]
    word = KINDS[code].upper()
    if code in (1, 2):
        return f"{word} {texts[0][0]}"
    if code == 3:
        return f"{word} ({', '.join(texts[0])})"
    if code == 6:
        return f"{word} ({', '.join('(' + ', '.join(rings) + ')' for rings in texts)})"
    return f"{word} ({', '.join(text for [text] in texts)})"


def _points(line: Flat) -> str:
    return "(" + ", ".join(map("%d %d".__mod__, zip(line[::2], line[1::2]))) + ")"


def read_wkt(text: str) -> Shape:
    """The geometry of a well-known text that the program has found to be one.

    `NotTaken` for any other text.
    """
    word, _, rest = text.strip().partition("(")
    code = KINDS.index(word.strip().lower()) if word.strip().lower() in KINDS[1:] else 0
    if not code or not rest:
        raise NotTaken("no well-known text")
    lines: list[Flat] = [_numbers(line) for line in _innermost(rest)]
    if code <= 3:
        return Shape(code, [lines])
    if code == 4:
        # Points may stand with or without brackets of their own.
        flat = [number for line in lines for number in line]
        return Shape(code, [[flat[at : at + 2]] for at in range(0, len(flat), 2)])
    if code == 5:
        return Shape(code, [[line] for line in lines])
    polygons = re.split(r"\)\s*\)\s*,\s*\(\s*\(", text)
    return Shape(code, [[_numbers(line) for line in _innermost(part)] for part in polygons])


def _innermost(text: str) -> list[str]:
    """The lists of points in a text, without brackets."""
    return [part for part in re.split(r"[()]", text) if re.search(r"[0-9]", part)]


def _numbers(text: str) -> list[float]:
    """The coordinates in a list of points. Fractions of zeros are dropped."""
    return [int(word.split(".")[0]) for word in re.findall(r"[-+]?[0-9]+(?:\.[0-9]*)?", text)]
