"""A map that is added to a store which is there: as one step of its history, or not at all.

The features go as groups of edits, which the program carries out whole. A map that is larger than a group goes as
several, each with whole features. They are tried in a copy of the store first: one that is refused leaves no trace in
the history.
"""

from __future__ import annotations

import contextlib
from collections.abc import Iterator, Sequence
from typing import NamedTuple

from sfstore.exchange.ogr import ExchangeError
from sfstore.exchange.placing import room_beside
from sfstore.exchange.ruling import Breaks, breaks_of, converse
from sfstore.geometry import read_wkb, write_wkt
from sfstore.language import GROUP_MAX
from sfstore.results import RULE_BROKEN, JournalError, ProgramEnded, Refused, Value
from sfstore.rules import AnyRule, Rule
from sfstore.store import Editor, Store
from sfstore.storefile import FileFeature, FileLayer
from sfstore.tools.sending import take_back

__all__ = ["Broken", "Outcome", "add"]


class Broken(NamedTuple):
    """A rule that a map would break, and by which of its features."""

    rule: AnyRule
    layer: str
    """The layer of these, which is one of the rule's."""
    breaks: Breaks


class Outcome(NamedTuple):
    """What became of a map."""

    identifiers: dict[str, list[int]]
    """The identifiers in the store, or those that they would have had, of the features of each layer in their order."""
    steps: int
    """How many steps of the history it is."""
    refused: Refused | None
    """Why it was not added."""
    broken: list[Broken]
    """The rules that it would break."""


class _Piece(NamedTuple):
    """A feature that is to be added."""

    layer: FileLayer
    feature: FileFeature

    @property
    def size(self) -> int:
        """How many members of a group it takes."""
        return 1 + len(self.values)

    @property
    def values(self) -> dict[str, Value]:
        """The values by the names of their columns."""
        known = self.feature.values
        return {column.name: known[column.number] for column in self.layer.columns if column.number in known}


def add(store: Store, path: str, program: str, layers: Sequence[FileLayer]) -> Outcome:
    """Adds the features of layers to those of the same names, with the values of columns of the same names.

    `ExchangeError` where it breaks off, so that a part may be there.
    """
    groups = list(_groups(layers))
    refused = _refusal(store, path, program, groups) if len(groups) > 1 else None
    try:
        if refused is None:
            return _sent(store, groups)
    except Refused as error:
        refused = error
    except (KeyboardInterrupt, JournalError, ProgramEnded) as error:
        why = "it was interrupted" if isinstance(error, KeyboardInterrupt) else str(error)
        raise ExchangeError(f"{why}. Steps of it, of {len(groups)}, may be in the journal: `undo` takes each back") from None
    if refused.number != RULE_BROKEN:
        return Outcome({}, 0, refused, [])
    return _broken(store, path, program, groups, refused)


def _refusal(store: Store, path: str, program: str, groups: Sequence[Sequence[_Piece]]) -> Refused | None:
    """Why one of several groups is refused, tried in a copy of the store; none where all are carried out there."""
    with _copied(store, path, program) as scratch:
        try:
            _sent(scratch, groups)
        except Refused as refused:
            return refused
    return None


@contextlib.contextmanager
def _copied(store: Store, path: str, program: str) -> Iterator[Store]:
    """A copy of a store, which is not saved."""
    with room_beside(path) as room:
        copy = f"{room}/copy"
        store.copy(copy)
        scratch = Store(program, load=copy, warn_far_off=False)
        try:
            yield scratch
        finally:
            scratch.close(save=False)


def _groups(layers: Sequence[FileLayer]) -> Iterator[list[_Piece]]:
    """The features in groups that have as many as can be."""
    group: list[_Piece] = []
    members = 0
    for layer in layers:
        for feature in layer.features:
            piece = _Piece(layer, feature)
            if members + piece.size > GROUP_MAX:
                yield group
                group, members = [], 0
            group.append(piece)
            members += piece.size
    if group:
        yield group


def _sent(store: Editor, groups: Sequence[Sequence[_Piece]]) -> Outcome:
    """Has groups carried out. `Refused` where one is, and then nothing of them is there."""
    identifiers: dict[str, list[int]] = {}
    sent = 0
    try:
        for group in groups:
            for piece, identifier in zip(group, _carried_out(store, group)):
                identifiers.setdefault(piece.layer.name, []).append(identifier)
            sent += 1
    except Refused:
        take_back(store, sent)
        raise
    return Outcome(identifiers, sent, None, [])


def _carried_out(store: Editor, pieces: Sequence[_Piece]) -> list[int]:
    """Has a group carried out, and gives the identifiers of its features."""
    with store.together() as group:
        for piece in pieces:
            name = piece.layer.name
            added = group.add(name, write_wkt(read_wkb(piece.feature.geometry)))
            for column, value in piece.values.items():
                group.set(name, added, column, value)
    return group.ids


def _broken(store: Store, path: str, program: str, groups: Sequence[Sequence[_Piece]], refused: Refused) -> Outcome:
    """What a map would break that a rule has kept out, searched in a copy of the store without its rules."""
    with _copied(store, path, program) as scratch:
        rules = scratch.rules()
        for rule in rules:
            scratch.drop_rule(rule.name)
        try:
            added = _sent(scratch, groups).identifiers
        except Refused:
            # Memory ran out, which the breaks need too.
            return Outcome({}, 0, refused, [])
        broken = [each for rule in rules for each in _broken_by(scratch, rule, added)]
    return Outcome(added, 0, refused, broken)


def _broken_by(scratch: Editor, rule: AnyRule, added: dict[str, list[int]]) -> list[Broken]:
    """Which of the features that were added break a rule. What was there before keeps it."""
    found = [Broken(rule, rule.layer, breaks_of(scratch, rule, added.get(rule.layer, [])))]
    # A feature of the second layer takes no other one away from those of the first.
    if isinstance(rule, Rule) and rule.form == "never":
        turned = Rule(rule.name, rule.form, rule.other, converse(rule.ask), rule.layer)
        if turned != rule:
            found.append(Broken(rule, rule.other, breaks_of(scratch, turned, added.get(rule.other, []))))
    return [each for each in found if each.breaks.found]
