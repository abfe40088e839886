"""What was changed last, when and by whom, so that nobody edits what they have not seen.

An edit of a feature says which version of the store its page has seen of it. Where another page has
changed the feature since, the edit would meet something else than was meant: a vertex of another
number, a value that somebody has just written.
"""

from __future__ import annotations

import re
from collections.abc import Sequence
from typing import NamedTuple

from sfstore.groups import lines_of
from sfstore.language import COMMANDS, words_of_line

__all__ = [
    "LAST",
    "Change",
    "Changes",
    "Target",
    "column_of",
    "feature_of",
    "features_of",
    "is_from",
    "layers_made_by",
    "renamed_by",
    "seen_of",
    "targets_of",
    "targets_of_members",
]

# The program parts words by spaces and tabs alone, and drops a carriage return at the end.
_BLANK = "[ \t]+"
_WORD = "([^ \t\r]+)"
# The words of edits before the layer and the identifier of a feature.
_FRONTS = {
    front.replace(" ", _BLANK)
    for front, place, _ in (each.usage.partition(" LAYER ID") for each in COMMANDS if each.touches)
    if place
}
_OF_FEATURE = re.compile(
    f"[ \t]*(?:{'|'.join(sorted(_FRONTS))}){_BLANK}{_WORD}{_BLANK}([0-9]{{1,10}})(?![^ \t\r])"
)
_ADDITION = re.compile(f"[ \t]*(?:add|addhex){_BLANK}{_WORD}")
LAST = re.compile(f"([ \t]*(?:{'|'.join(sorted(_FRONTS))}){_BLANK}{_WORD}{_BLANK})last(?![^ \t\r])")
"""The front of a line that names the feature of the nearest addition before it to the same layer."""
_OF_LAYER = re.compile(f"[ \t]*layer{_BLANK}(?:add|drop|rename){_BLANK}{_WORD}")
_OF_COLUMN = re.compile(f"[ \t]*column{_BLANK}(?:add|drop){_BLANK}{_WORD}{_BLANK}{_WORD}")
_SETTING_LAST = re.compile(f"[ \t]*(?:set|unset){_BLANK}{_WORD}{_BLANK}last{_BLANK}{_WORD}")
_DROP = re.compile(f"[ \t]*column{_BLANK}drop{_BLANK}{_WORD}{_BLANK}{_WORD}")
# What else means a layer by its name: of a rule also the one that comes behind.
_OF_NAME = re.compile(f"[ \t]*(?:layer{_BLANK}(?:drop|rename|move)|column{_BLANK}add){_BLANK}{_WORD}")
_RENAMING = re.compile(f"[ \t]*layer{_BLANK}rename{_BLANK}{_WORD}{_BLANK}{_WORD}")

_MADE = re.compile(f"[ \t]*layer{_BLANK}(?:add{_BLANK}{_WORD}|rename{_BLANK}[^ \t\r]+{_BLANK}{_WORD})")

# So many features are remembered. Beyond them all is forgotten, and pages have to look again once.
_REMEMBERED_MAX = 100_000


# What stands for any column of a layer: no column has this name.
_ANY = "*"


class Target(NamedTuple):
    """What an edit changes: a feature, a column, or where none is named whatever a layer has."""

    layer: str
    feature: int | None
    column: str | None = None


class Change(NamedTuple):
    """An edit of something."""

    version: int
    """The version of the store that it made."""
    editor: int
    page: str
    """The page that it came from, among those of its editor."""
    line: str
    """The beginning of its line."""
    targets: tuple[Target, ...]
    """What it has changed."""


def feature_of(line: str) -> Target | None:
    """The feature that a line edits, or none where it is no edit of a feature that is there."""
    found = _OF_FEATURE.match(line)
    return Target(found[1], int(found[2])) if found else None


def features_of(text: str) -> list[Target]:
    """The features that a line edits, or a group, of those that may have been there before."""
    return [target for line in lines_of(text) if (target := feature_of(line)) is not None]


def column_of(line: str) -> Target | None:
    """The column that a line drops, or in which it gives a value to the feature that was added last; none else."""
    found = _SETTING_LAST.match(line) or _DROP.match(line)
    return Target(found[1], None, found[2]) if found else None


def seen_of(text: str) -> list[Target]:
    """What whoever sends a line, or a group, may say that they have seen: features, columns that it names, and layers.

    A layer stands without a feature and a column: it is what an addition goes into, or what is dropped or renamed, has a column added,
    or has a rule.
    """
    return [target for line in lines_of(text) for target in _seen_of_line(line)]


def _seen_of_line(line: str) -> list[Target]:
    target = feature_of(line) or column_of(line)
    if target is not None:
        return [target]
    found = _ADDITION.match(line) or _OF_NAME.match(line)
    return [Target(name, None) for name in ([found[1]] if found else _layers_of_rule(words_of_line(line)))]


def _layers_of_rule(words: Sequence[str]) -> list[str]:
    """The layers that a line gives a rule; none where it gives none.

    >>> _layers_of_rule("rule add near each wells near 4 some roads".split()), _layers_of_rule("rule add u unique wells label".split())
    (['wells', 'roads'], ['wells'])
    """
    if words[:2] != ["rule", "add"]:
        return []
    return [*words[4:5], *(words[-1:] if words[3:4] in (["never"], ["each"]) and len(words) > 5 else [])]


def layers_made_by(line: str) -> list[str]:
    """The name that a line gives a layer; none where it gives none.

    >>> layers_made_by("layer add wells point"), layers_made_by("layer rename wells springs"), layers_made_by("layer drop wells")
    (['wells'], ['springs'], [])
    """
    found = _MADE.match(line)
    return [found[1] or found[2]] if found else []


def targets_of_members(members: Sequence[str], answer: str = "") -> list[tuple[Target, ...]]:
    """What each member of a group that was accepted has changed; ``answer`` has the identifiers of additions."""
    numbers = iter(answer.split(" ")[1:])
    last: dict[str, tuple[Target, ...]] = {}
    found = []
    for member in members:
        addition, late = _ADDITION.match(member), LAST.match(member)
        if addition is not None:
            last[addition[1]] = targets_of(member, f"ok {next(numbers, '')}")
            found.append(last[addition[1]])
        else:
            found.append(last.get(late[2], ()) if late else targets_of(member))
    return found


def targets_of(line: str, answer: str = "") -> tuple[Target, ...]:
    """What a line that was accepted has changed; ``answer`` has the identifier of an addition.

    Without the answer an addition may have been any feature of its layer.
    """
    feature = feature_of(line)
    if feature is not None:
        return (feature,)
    addition = _ADDITION.match(line)
    if addition is not None:
        identifier = answer.partition(" ")[2]
        return (Target(addition[1], int(identifier) if identifier else None),)
    column = _OF_COLUMN.match(line)
    if column is not None:
        return (Target(column[1], None, column[2]),)
    found = _RENAMING.match(line) or _OF_LAYER.match(line)
    return tuple(Target(name, None) for name in found.groups()) if found else ()


def renamed_by(line: str, step: str) -> tuple[str, str] | None:
    """The names of a layer before and after an accepted line, by the step that it made or moved; None where it renamed none.

    >>> renamed_by("layer rename wells springs", "layer rename wells springs"), renamed_by("undo", "layer rename wells springs")
    (('wells', 'springs'), ('springs', 'wells'))
    """
    found = _RENAMING.match(step)
    if found is None:
        return None
    return (found[2], found[1]) if line.strip() == "undo" else (found[1], found[2])


class _Last(NamedTuple):
    """The last change of something, and the last one that came from another page than that."""

    change: Change
    other: Change | None


class Changes:
    """The last changes of what was changed. It belongs to one thread; `last` may be asked by all."""

    def __init__(self) -> None:
        self._last: dict[Target, _Last] = {}
        self._known_from = 0

    def take(self, change: Change) -> None:
        """Remembers a change."""
        if len(self._last) >= _REMEMBERED_MAX:
            self.forget(change.version)
        for target in [place for target in change.targets for place in _places(target)]:
            before = self._last.get(target)
            if before is None:
                other = None
            elif is_from(before.change, change.editor, change.page):
                other = before.other
            else:
                other = before.change
            self._last[target] = _Last(change, other)

    def forget(self, version: int) -> None:
        """Forgets all: whoever has seen no more than what was before a version has to look again."""
        self._last.clear()
        self._known_from = version

    def is_known_since(self, version: int) -> bool:
        """Whether it is known what was changed after a version."""
        return version >= self._known_from

    def since(self, target: Target, version: int, editor: int, page: str) -> Change | None:
        """The change of a feature after a version by another page than one, if there is one: of its layer or columns too.

        Of a column it is a change of that one alone. What a page has done itself it knows.
        """
        for place in _beside(target):
            last = self._last.get(place)
            if last is None:
                continue
            change = last.other if is_from(last.change, editor, page) else last.change
            if change is not None and change.version > version:
                return change
        return None

    def last(self, target: Target) -> Change | None:
        """The last change of a feature, or of its layer as a whole."""
        found = [last.change for place in _beside(target) if (last := self._last.get(place))]
        return max(found, default=None)


def _places(target: Target) -> list[Target]:
    """Under what a change of something is remembered."""
    return [target] if target.column is None else [target, Target(target.layer, None, _ANY)]


def _beside(target: Target) -> list[Target]:
    """What a change may be remembered under that changes something."""
    if target.column is not None:
        return [target]
    return [target, Target(target.layer, None), Target(target.layer, None, _ANY)]


def is_from(change: Change, editor: int, page: str) -> bool:
    """Whether a page has made a change. One that takes the name of another editor's is none of that editor's."""
    return (change.editor, change.page) == (editor, page)
