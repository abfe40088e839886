"""The steps that undo and redo would move, and whose they are.

The program refuses an undo of another editor's step, and does not say whose it is. This follows
the accepted lines, as the program's history does, so that the page can say it.
"""

from __future__ import annotations

import itertools
import re
from collections.abc import Iterable
from typing import NamedTuple

from sfstore.groups import lines_of
from sfstore.web.changes import Target, targets_of, targets_of_members

__all__ = ["Did", "LayerChange", "Step", "Steps"]

_ADDRESS = re.compile(r"[ \t]*@([0-9]{1,3})[ \t]+")

# As much of a line as is kept: enough to tell which edit it was.
_SHOWN_LETTERS = 200


class Did(NamedTuple):
    """An edit of a step."""

    line: str
    """The beginning of its line."""
    targets: tuple[Target, ...]
    """What it changes, and so does its undoing."""


class Step(NamedTuple):
    """An edit that can be undone, or redone; or a group of them."""

    editor: int
    """The number of the editor who made it."""
    line: str
    """The beginning of its line, without the editor; of a group how many edits they are, and the first of them."""
    targets: tuple[Target, ...] = ()
    """What it changes, and so does its undoing."""
    group: int = 0
    """A number that the steps of a batch have in common; 0 for one that stands alone."""
    members: tuple[Did, ...] = ()
    """The edits of a group, in their order."""

    @property
    def edits(self) -> tuple[Did, ...]:
        """Its edits, in their order: one, but for a group."""
        return self.members or (Did(self.line, self.targets),)


class LayerChange(NamedTuple):
    """What an edit, an undo or a redo has made of a layer."""

    before: str
    """Its name before; empty where it was not there."""
    after: str
    """Its name from then on; empty where it is gone."""
    verb: str = ""
    """``undo`` or ``redo``, by which a layer comes that was there before; empty where it is of an edit."""

    def undone(self) -> LayerChange:
        """What its undo makes of the layer."""
        return LayerChange(self.after, self.before, "undo")


class Steps:
    """What was done and what was undone, as far as the history of the program goes."""

    def __init__(self, lines: Iterable[str] = (), groups: Iterable[range] = ()) -> None:
        """The steps of accepted lines, each with the number of its editor or without.

        ``groups`` are the places of those that are one step.
        """
        self._done: list[Step] = []
        self._undone: list[Step] = []
        self.layer_changes: list[LayerChange] = []
        """All that was made of layers, in its order."""
        # Those of a session are counted from 1 on.
        group_at = {at: -number for number, group in enumerate(groups, 1) for at in group}
        for at, line in enumerate(lines):
            found = _ADDRESS.match(line)
            editor, rest = (0, line) if found is None else (int(found[1]), line[found.end() :])
            # Lines of batches end in blanks.
            self.take(editor, rest.rstrip(" "), "", group_at.get(at, 0))

    def take(self, editor: int, line: str, answer: str = "", group: int = 0) -> Step:
        """Follows an accepted line, or a group, and gives the step that it made or moved.

        Of additions the answer names the features that they made.
        """
        words = line.split()
        if words == ["undo"]:
            self._undone.append(self._done.pop())
            self.layer_changes += [change.undone() for change in _layer_changes(self._undone[-1])]
            return self._undone[-1]
        if words == ["redo"]:
            self._done.append(self._undone.pop())
            self.layer_changes += [change._replace(verb="redo") for change in _layer_changes(self._done[-1])]
            return self._done[-1]
        self._undone.clear()
        self._done.append(_step(editor, line, answer, group))
        self.layer_changes += _layer_changes(self._done[-1])
        return self._done[-1]

    def moved_by(self, line: str) -> int:
        """How many steps an undo or a redo moves: those of a batch go together. Any other line moves none."""
        source = {"undo": self._done, "redo": self._undone}.get(line.strip(), [])
        if not source or not source[-1].group:
            return min(len(source), 1)
        return sum(1 for _ in itertools.takewhile(lambda step: step.group == source[-1].group, reversed(source)))

    @property
    def done(self) -> list[Step]:
        """What was done and is not undone, in its order."""
        return list(self._done)

    @property
    def editors(self) -> set[int]:
        """The numbers of those whose steps can be undone or redone. It may be asked by any thread."""
        return {step.editor for step in [*self._done, *self._undone]}

    @property
    def to_undo(self) -> Step | None:
        """The step that an undo would take back, whoever asks."""
        return self._done[-1] if self._done else None

    @property
    def to_redo(self) -> Step | None:
        """The step that a redo would move, whoever asks."""
        return self._undone[-1] if self._undone else None


def _step(editor: int, line: str, answer: str, group: int) -> Step:
    """The step of an accepted line."""
    _, *members = lines_of(line)
    if not members:
        return Step(editor, _shown(line), targets_of(line, answer), group)
    did = tuple(Did(_shown(member), targets) for member, targets in zip(members, targets_of_members(members, answer)))
    targets = dict.fromkeys(target for each in did for target in each.targets)
    return Step(editor, _shown(f"together {len(did)}: {did[0].line}"), tuple(targets), group, did)


def _layer_changes(step: Step) -> list[LayerChange]:
    """What a step makes of a layer: one edit at most, as a group has no lines of layers."""
    words = [] if step.members else step.line.split()
    names = {"add": ["", *words[2:3]], "drop": [*words[2:3], ""], "rename": words[2:4]}
    found = names.get(words[1], []) if words[:1] == ["layer"] and len(words) > 2 else []
    return [LayerChange(found[0], found[1])] if len(found) == 2 else []


def _shown(line: str) -> str:
    return line.strip()[:_SHOWN_LETTERS]
