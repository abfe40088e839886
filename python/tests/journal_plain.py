"""What a store has to have after some lines, worked out plainly: points of one layer, their files and journals."""

from __future__ import annotations

import io
import struct
import zlib
from collections.abc import Iterable
from typing import List, Optional

from sfstore import storefile
from sfstore.groups import lines_of

# The points of the one layer, as text; None where there is no layer.
Points = Optional[List[str]]


class Violation(AssertionError):
    """What has to be there is not, or something else is."""


class Console:
    """One layer of points, and its history."""

    def __init__(self, points: Points = None) -> None:
        self.points = points
        self.done: list[Points] = []
        self.undone: list[Points] = []

    def accepts(self, line: str) -> bool:
        """Carries out a line, or a group. Whether it is an edit that is accepted."""
        _, *members = lines_of(line)
        if members:
            return self._accepts_group(members)
        words = line.split()
        if words == ["undo"]:
            return self._move(self.done, self.undone)
        if words == ["redo"]:
            return self._move(self.undone, self.done)
        if line == "layer add w point" and self.points is None:
            return self._become([])
        if words[:2] == ["add", "w"] and self.points is not None:
            return self._become([*self.points, line[6:]])
        if words[:2] == ["replace", "w"] and self.points is not None and int(words[2]) <= len(self.points):
            changed = list(self.points)
            changed[int(words[2]) - 1] = " ".join(words[3:])
            return self._become(changed)
        return False

    def _accepts_group(self, members: list[str]) -> bool:
        """Carries out all members, or none."""
        if self.points is None:
            return False
        points, last = list(self.points), 0
        for member in members:
            words = member.split()
            at = last if words[2:3] == ["last"] else int(words[2]) if words[0] == "replace" else 0
            if words[0] == "add":
                points.append(member[6:])
                last = len(points)
            elif words[0] == "replace" and 1 <= at <= len(points):
                points[at - 1] = " ".join(words[3:])
            else:
                return False
        return self._become(points)

    def _become(self, points: Points) -> bool:
        self.done.append(self.points)
        self.undone.clear()
        self.points = points
        return True

    def _move(self, source: list[Points], target: list[Points]) -> bool:
        if not source:
            return False
        target.append(self.points)
        self.points = source.pop()
        return True


def after(points: Points, lines: Iterable[str]) -> Points:
    """The points after some lines, of a store that has begun with these."""
    console = Console(points)
    for line in lines:
        console.accepts(line)
    return console.points


def file_of(points: Points) -> bytes:
    """The bytes of a file with some points, as the program writes them."""
    made = io.BytesIO()
    features = []
    for at, point in enumerate(points or [], 1):
        x, y = map(float, point[7:-1].split())
        features.append(storefile.FileFeature(at, struct.pack("<BIdd", 1, 1, x, y), {}))
    layers = [] if points is None else [storefile.FileLayer("w", 1, len(features) + 1, 1, [], features)]
    storefile.write(made, layers)
    return made.getvalue()


def points_of(data: bytes | None) -> Points:
    """The points of a file's bytes; none where there is no layer, or no file."""
    layers = storefile.read(data) if data is not None else []
    if not layers:
        return None
    places = (struct.unpack("<BIdd", feature.geometry)[2:] for feature in layers[0].features)
    return [f"POINT ({x:.0f} {y:.0f})" for x, y in places]


def old_journal(base: str, lines: Iterable[bytes]) -> bytes:
    """A journal of version 1, as the module wrote it."""
    data = b"sfstore-journal 1 %s\n" % base.encode()
    chain = zlib.crc32(data)
    for line in lines:
        chain = zlib.crc32(line, chain)
        data += b"%08x %s" % (chain, line)
    return data
