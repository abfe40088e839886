"""The tools of those who draw maps, for pages: what one of them makes of the store as it is, and nothing of it is done."""

from __future__ import annotations

from typing import NamedTuple

from sfstore.commands import OWN, TOOLS
from sfstore.drawing import Drawing
from sfstore.editor import Editor
from sfstore.faults import point_text
from sfstore.mapunits import MapUnits
from sfstore.tools import NotDone
from sfstore.tools.drafting import Drafting

__all__ = ["PAGE_COMMANDS", "PAGE_TOOLS", "Drawn", "Undone", "Undrawn", "drawn_in"]

_OF_LAYERS = {"snap", "clean"}

PAGE_TOOLS = frozenset(TOOLS) - _OF_LAYERS
"""The tools that make one group, and ask nothing."""

PAGE_COMMANDS = [command for command in OWN if command.word in PAGE_TOOLS]


class Drawn(NamedTuple):
    """What a tool makes."""

    lines: list[str]
    """The members of its group; none of a preview."""
    said: str
    """What it says besides."""
    version: int
    """The version of the store that it was made for."""


class Undone(NamedTuple):
    """Why a tool makes nothing."""

    words: str
    points: list[list[float]]
    """Where, in steps."""


class Undrawn(Exception):
    """A tool makes nothing of what it was given."""

    def __init__(self, told: Undone) -> None:
        super().__init__(told.words)
        self.told = told


def drawn_in(store: Editor, version: int, given: str, units: MapUnits | None) -> Drawn:
    """What a tool makes of a store. `Undrawn` where it makes nothing, and `ValueError` where its words are wrong."""
    word, *words = given.split()
    if word == "preview" and words and words[0] in _OF_LAYERS:
        # No limit of time ends such a look at each feature, and the questions of others would wait for it.
        raise ValueError(f"preview {words[0]} is for the console: it looks at whole layers")
    tried = Drafting(store)
    said: list[str] = []
    drawing = Drawing(tried, units, said.append, lambda _: False)
    try:
        drawing.run(word, words)
    except NotDone as fault:
        points = [[float(x), float(y)] for x, y in fault.points]
        raise Undrawn(Undone(fault.told(units.point_text if units else point_text), points)) from None
    return Drawn([line for group in tried.groups for line in group], "\n".join(said), version)
