"""What a line of the console would have brought, where the program refused it."""

from __future__ import annotations

from sfstore.editor import Editor
from sfstore.geometry import NotTaken, Shape, read_wkb, read_wkt
from sfstore.language import words_before_geometry, words_of_line
from sfstore.results import Refused

__all__ = ["geometry_of", "geometry_refused"]


def geometry_refused(refused: Refused, line: str, store: Editor) -> Shape | None:
    """The geometry that a line would have brought, or a member of a group; none where that is not known.

    The members before it may have changed the feature whose vertex it names.
    """
    if (refused.member or 1) > 1 and words_of_line(line)[:1] == ["vertex"]:
        return None
    return geometry_of(line, store)


def geometry_of(line: str, store: Editor) -> Shape | None:
    """The geometry that a refused line would have brought, or none where that is not known."""
    words = words_of_line(line)
    before = words_before_geometry(words)
    try:
        if words[0] == "addhex":
            return read_wkb(bytes.fromhex(words[2]))
        if before is not None:
            return read_wkt(" ".join(words[before:]))
        if words[0] == "vertex":
            shape = read_wkb(bytes.fromhex(store.hex(words[2], int(words[3]))))
            return _with_vertex(shape, words[1], [int(word.split(".")[0]) for word in words[4:]])
    except (NotTaken, Refused, ValueError, IndexError):
        pass
    return None


def _with_vertex(shape: Shape, change: str, numbers: list[int]) -> Shape:
    """A geometry with a vertex inserted, moved or removed. `IndexError` where it has no such one."""
    part, ring, index, *place = numbers
    members = [[list(line) for line in member] for member in shape.members]
    line = members[part][ring]
    closes = shape.code in (3, 6)
    if closes:
        del line[-2:]
    until = 2 * index + (0 if change == "insert" else 2)
    line[2 * index : until] = place
    if closes:
        line += line[:2]
    return Shape(shape.code, [list(member) for member in members])
