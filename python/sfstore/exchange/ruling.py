"""Rules that a map is to have: those that hold in it, and which features break the others."""

from __future__ import annotations

import contextlib
import re
from collections.abc import Iterable
from typing import NamedTuple

from sfstore.editor import Editor
from sfstore.exchange.grid import Grid
from sfstore.language import NAME, NEAR, PATTERN, PREDICATES, distance_asked
from sfstore.mapunits import MapUnits
from sfstore.results import RULE_BROKEN, Refused, Value
from sfstore.rules import AnyRule, Rule, ValueRule, rule_of

__all__ = ["BREAKS_MAX", "Break", "Breaks", "Ruling", "breaks_of", "converse", "rule_said", "rule_shown", "ruled"]

BREAKS_MAX = 1_000
"""How many features that break a rule are named at most."""

# How many identifiers are read at most while these are searched: a rule of features that are apart has many.
_READ_MAX = 5_000_000
# How many others are named of a feature.
_OTHERS = 8
_ASK = f"(?:{PATTERN.pattern}|{'|'.join(PREDICATES)}|{NEAR.pattern})"
_RULE = re.compile("{0} (?:never {0} {1} {0}|each {0} {1} some {0}|(?:unique|required) {0} {0}|(?:one-of|range) {0} {0} .+)".format(NAME.pattern, _ASK))
# How much of a text that says no rule is shown.
_SHOWN = 200


class Break(NamedTuple):
    """A feature that breaks a rule."""

    feature: int
    others: list[int]
    """The features of the other layer with which it is so, or those of the same one that have its value, some of them; none of a
    rule that a feature breaks by itself."""
    total: int
    """How many these are."""


class Breaks(NamedTuple):
    """The features that break a rule."""

    found: list[Break]
    is_whole: bool
    """Whether these are all."""


class Ruling(NamedTuple):
    """What became of a rule."""

    rule: AnyRule
    refused: Refused | None
    """Why it was not added; None where it was."""
    breaks: Breaks
    """What breaks it."""


def ruled(store: Editor, rule: AnyRule, features: Iterable[int]) -> Ruling:
    """Adds a rule where it holds. Else the features of its first layer that break it are listed."""
    try:
        if isinstance(rule, ValueRule):
            store.add_value_rule(*rule)
        else:
            store.add_rule(*rule)
    except Refused as refused:
        breaks = breaks_of(store, rule, features) if refused.number == RULE_BROKEN else Breaks([], True)
        return Ruling(rule, refused, breaks)
    return Ruling(rule, None, Breaks([], True))


def breaks_of(store: Editor, rule: AnyRule, features: Iterable[int]) -> Breaks:
    """Those of some features of the rule's first layer that break it, in a store that has not the rule."""
    found: list[Break] = []
    read = 0
    for feature in features:
        if len(found) == BREAKS_MAX or read > _READ_MAX:
            return Breaks(found, False)
        try:
            others = _others(store, rule, feature)
        except Refused:
            # Memory ran out, which the others need too.
            return Breaks(found, False)
        if others is not None:
            read += len(others)
            found.append(Break(feature, others[:_OTHERS], len(others)))
    return Breaks(found, True)


def _others(store: Editor, rule: AnyRule, feature: int) -> list[int] | None:
    """With which others a feature breaks a rule; none, where it needs none for that; None where it does not break it."""
    if isinstance(rule, Rule):
        beside = store.join_one(rule.other, converse(rule.ask), rule.layer, feature)
        return beside if bool(beside) == (rule.form == "never") else None
    value = store.get(rule.layer, feature)[0].values.get(rule.column)
    if rule.demand != "unique":
        return [] if rule.is_wrong(value) else None
    return None if value is None else _doubles(store, rule, feature, value)


def _doubles(store: Editor, rule: ValueRule, feature: int, value: Value) -> list[int] | None:
    """The other features that have the same value, where there are some."""
    return [other for other in store.find(rule.layer, rule.column, value) if other != feature] or None


def rule_said(line: str) -> AnyRule:
    """The rule that a stranger's line says, as it stands behind `rule add`. `ValueError` where it says none."""
    if _RULE.fullmatch(line):
        with contextlib.suppress(ValueError):
            return rule_of(line)
    raise ValueError(f"{line[:_SHOWN]!r} is no rule")


def rule_shown(rule: AnyRule, grid: Grid) -> str:
    """A rule as the console has it over a map of a grid: a distance is in the units of the map.

    >>> rule_shown(rule_of("apart never wells near 250 wells"), Grid("0", "0", "0.01"))
    'apart never wells near 2.5 wells'
    """
    return MapUnits(*grid.words).rows("rules", [rule.line])[0]


def converse(ask: str) -> str:
    """What a second geometry is asked with a first one, where the first is asked ``ask`` with the second.

    >>> converse("within"), converse("touches"), converse("near 2.5"), converse("T*F**F***")
    ('contains', 'touches', 'near 2.5', 'T*****FF*')
    """
    if ask in PREDICATES or distance_asked(ask) is not None:
        return {"within": "contains", "contains": "within"}.get(ask, ask)
    return ask[0::3] + ask[1::3] + ask[2::3]
