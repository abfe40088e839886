"""How a group of edits is written: as lines, a head and its members, or as one text with carriage returns between them.

The text is what a journal's record has, and an entry of the log of replicas. No member has a carriage return inside;
another line has one only within a text in quotes, and is no group.
"""

from __future__ import annotations

import re
from collections.abc import Sequence

from sfstore.language import EDITOR_MAX, GROUP_MAX

__all__ = ["lines_of", "member_of", "size_of", "text_of"]

_HEAD = re.compile(r"[ \t]*(?:@([0-9]{1,3})[ \t]+)?together[ \t]+([0-9]{1,10})[ \t]*")
_MEMBER = re.compile("member ([0-9]+)")


def size_of(line: str) -> int | None:
    """How many members come behind a line that begins a group; None for each other line.

    >>> size_of("@2 together 3"), size_of("together 0"), size_of("undo")
    (3, None, None)
    """
    found = _HEAD.fullmatch(line.removesuffix("\r"))
    if found is None or not 1 <= int(found[2]) <= GROUP_MAX:
        return None
    if found[1] is not None and not 1 <= int(found[1]) <= EDITOR_MAX:
        return None
    return int(found[2])


def lines_of(text: str) -> list[str]:
    """The lines of a text: of a group its head and its members, of each other text the one line.

    >>> lines_of("together 2\\rdelete wells 1\\rdelete wells 2")
    ['together 2', 'delete wells 1', 'delete wells 2']
    """
    head, *members = text.removesuffix("\r").split("\r")
    return [head, *members] if members and size_of(head) == len(members) else [text]


def text_of(members: Sequence[str]) -> str:
    """The text of a group of some members. `ValueError` for none, for more than a group has, and for a blank one.

    >>> text_of(["delete wells 1", "delete wells 2"])
    'together 2\\rdelete wells 1\\rdelete wells 2'
    """
    if not 1 <= len(members) <= GROUP_MAX:
        raise ValueError(f"a group has from 1 to {GROUP_MAX} members, not {len(members)}")
    bare = [member.removesuffix("\r") for member in members]
    if not all(member.strip(" \t") for member in bare):
        raise ValueError("a member of the group is blank")
    return "\r".join([f"together {len(bare)}", *bare])


def member_of(detail: str) -> int | None:
    """The number of the member that a refusal names behind its name, from 1 on; None where it names none.

    >>> member_of("member 2"), member_of("line 0")
    (2, None)
    """
    found = _MEMBER.fullmatch(detail)
    return int(found[1]) if found else None
