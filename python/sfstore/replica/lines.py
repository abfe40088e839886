"""Whose a line is, and whether it goes to the log, to the store here, or nowhere."""

from __future__ import annotations

import re
from typing import NamedTuple

from sfstore.groups import lines_of

# The edits go to the log, and `sfstore.is_edit` of log.sql has them too; the questions are answered here.
from sfstore.language import EDITS, MEMBERS, QUESTIONS

__all__ = ["EDITS", "GROUP_BYTES", "LINE_MAX", "QUESTIONS", "Asked", "asked"]

LINE_MAX = 4_194_299
"""How many bytes a line of the log may have: the console's most, without ``@255`` and a blank."""

GROUP_BYTES = 16_000_000
"""How many bytes a group may have as an entry of the log, as one text."""

_FRONT = re.compile("[ \t]*(?:@([0-9]{1,3})[ \t]+)?([^ \t]*)")
_MEMBER = re.compile(rf"[ \t]*(?:{'|'.join(sorted(MEMBERS))})(?![^ \t])")


class Asked(NamedTuple):
    """A line as it was given, or a group as one text, taken apart."""

    editor: int | None
    """The editor that it names."""
    word: str
    """Its first word behind that; empty where what it names is no editor."""
    line: str
    """The line without its editor."""

    @property
    def is_edit(self) -> bool:
        """Whether it goes to the log: of groups those whose members may all be some."""
        members = self._members
        if members is not None:
            return all(map(_MEMBER.match, members))
        return self.word in EDITS and self.word != "together"

    @property
    def is_question(self) -> bool:
        """Whether the store here answers it. A group with a line that is no member it refuses, whatever it has."""
        return self.word in QUESTIONS or (self._members is not None and not self.is_edit)

    @property
    def most_bytes(self) -> int:
        """How many bytes it may have as an entry of the log."""
        return LINE_MAX if self._members is None else GROUP_BYTES

    @property
    def _members(self) -> list[str] | None:
        """The members of a group; none where it is no whole group."""
        return lines_of(self.line)[1:] or None if self.word == "together" else None


def asked(line: str) -> Asked:
    """Takes a line apart, by the console's rules of words.

    >>> asked(" @7 undo")
    Asked(editor=7, word='undo', line='undo')
    """
    line = line.removesuffix("\r")
    front = _FRONT.match(line)
    if front is None:
        raise AssertionError("each part of the pattern may be empty")
    named, word = front.groups()
    editor = None if named is None else int(named)
    if editor is not None and not 1 <= editor <= 255:
        word = ""
    return Asked(editor, word, line[front.start(2) :])
