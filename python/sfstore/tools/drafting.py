"""A tool tried: what it would send, and nothing of it is done."""

from __future__ import annotations

from typing import NamedTuple

from sfstore.editor import Editor
from sfstore.geometry import Shape, read_wkb, read_wkt
from sfstore.group import Group
from sfstore.language import words_of_line

__all__ = ["Drafting", "Planned", "planned"]


class Drafting(Editor):
    """An editor that answers questions, and keeps the groups that a tool makes, as lines.

    >>> from sfstore import Store
    >>> from sfstore.tools import split
    >>> with Store() as store:
    ...     store.add_layer("parcels", "polygon")
    ...     store.add("parcels", "POLYGON ((0 0, 10 0, 10 9, 0 9, 0 0))")
    ...     tried = Drafting(store)
    ...     parts = split(tried, "parcels", 1, "LINESTRING (4 -1, 5 10)")
    ...     tried.groups
    ...     store.show("parcels")[0].wkt
    1
    [['replace parcels 1 POLYGON ((4 0, 10 0, 10 9, 5 9, 4 0))', 'add parcels POLYGON ((0 0, 4 0, 5 9, 0 9, 0 0))']]
    'POLYGON ((0 0, 10 0, 10 9, 0 9, 0 0))'
    """

    def __init__(self, store: Editor) -> None:
        super().__init__(store._program, store._address)
        self.groups: list[list[str]] = []
        """The members of each group."""

    def together(self) -> Group:
        """A group that is kept in `groups` at its end, and not sent: what it adds has the identifier 0."""
        return _Draft(self)


class _Draft(Group):
    """A group that is kept, and not sent."""

    def __init__(self, drafting: Drafting) -> None:
        super().__init__(drafting._program, drafting._address)
        self._drafting = drafting

    def _carried_out(self) -> list[int]:
        """Keeps the lines. What would be added has no number yet."""
        self._drafting.groups.append([member.decode().removesuffix("\n") for member in self._members])
        return [0] * len(self._added)


class Planned(NamedTuple):
    """What a tool would do to a feature."""

    layer: str
    feature_id: int | None
    """None for one that it adds."""
    before: Shape | None
    """None where it adds it."""
    after: Shape | None
    """None where it deletes it."""


def planned(store: Editor, members: list[str]) -> list[Planned]:
    """What the members of a group that a tool has made would do to geometries, feature by feature."""
    found = []
    for member in members:
        word, layer, *rest = words_of_line(member)
        if word == "add":
            found.append(Planned(layer, None, None, read_wkt(member.split(" ", 2)[2])))
        elif word in ("delete", "replace"):
            before = read_wkb(bytes.fromhex(store.hex(layer, int(rest[0]))))
            after = read_wkt(member.split(" ", 3)[3]) if word == "replace" else None
            found.append(Planned(layer, int(rest[0]), before, after))
    return found
