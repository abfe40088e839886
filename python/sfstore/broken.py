"""Which rule a refused line would have broken, and the features that would, as far as they are there."""

from __future__ import annotations

import contextlib
import re
from collections.abc import Sequence
from typing import NamedTuple

from sfstore.editor import Editor
from sfstore.geometry import Shape, read_wkb
from sfstore.language import distance_asked
from sfstore.mapunits import MapUnits
from sfstore.results import Refused
from sfstore.rules import AnyRule, ValueRule, range_words, rule_of, tidied
from sfstore.values import spelled

__all__ = ["Breaking", "Broken", "broken_by", "remedy_of", "sentence_of"]

# What two features would be that are as asked. A first one would be so to a second; of others both would.
_BOTH = {
    "overlaps": "overlap",
    "T********": "overlap",
    "touches": "touch",
    "crosses": "cross",
    "intersects": "meet",
    "disjoint": "be apart",
    "equals": "have the same shape",
}
_ONE = {"contains": "contain", "within": "lie within"}
# What a feature would be to none of the others.
_NONE = {**_BOTH, **_ONE, "disjoint": "be apart from", "equals": "have the shape of"}
# What helps, by the word of a rule.
_REMEDIES = {
    "never": "Draw one of them elsewhere.",
    "each": "Draw it so that it does, or draw what it needs first.",
    "unique": "Give one of them another value.",
    "required": "Type a value before you save.",
    "one-of": "Choose one of these.",
    "range": "Type a value within it.",
}
# So many of the values that are allowed are named.
_NAMED = 5
_ADDITION = re.compile("[ \t]*(?:@[0-9]{1,3}[ \t]+)?rule[ \t]+add[ \t]+")


class Breaking(NamedTuple):
    """A feature that would break a rule."""

    layer: str
    feature: int
    shape: Shape | None
    """Its geometry now; none where the line would have added it."""


class Broken(NamedTuple):
    """A rule that would be broken, and by what."""

    rule: AnyRule
    features: tuple[Breaking, ...]
    """Of a rule with ``never`` one of its first layer and one of its second, of one with ``unique`` two of its layer; else one
    of its first layer."""


def broken_by(refused: Refused, line: str, store: Editor) -> Broken | None:
    """What a refused line would have broken; None where the refusal is of another kind, or the rule is not known any more."""
    rule = next((rule for rule in _rules(line, store) if rule.name == refused.rule), None)
    if rule is None:
        return None
    places = zip(rule.layers, refused.ids)
    return Broken(rule, tuple(Breaking(layer, feature, _shape_of(store, layer, feature)) for layer, feature in places))


def sentence_of(rule: AnyRule, features: Sequence[tuple[str, int]], units: MapUnits | None = None) -> str:
    """What would be if an edit were made by which these features break a rule, in a surveyor's words.

    A distance is in the units of the map where these are given, else in steps of the grid.

    >>> sentence_of(rule_of("apart never parcels T******** parcels"), [("parcels", 4), ("parcels", 7)])
    'parcels 4 and parcels 7 would overlap'
    >>> sentence_of(rule_of("placed each wells within some parcels"), [("wells", 3)])
    'wells 3 would lie within none of parcels'
    >>> sentence_of(rule_of("uses one-of parcels use 'field', 'road'"), [("parcels", 3)])
    "parcels 3 would have another use than 'field', 'road'"
    >>> sentence_of(rule_of("spaced never wells near 250 wells"), [("wells", 3), ("wells", 5)], MapUnits("0", "0", "0.01"))
    'wells 3 and wells 5 would lie within 2.5 of one another'
    >>> sentence_of(rule_of("served each houses near 150.500 some hydrants"), [("houses", 3)])
    'houses 3 would lie within 150.5 of none of hydrants'
    """
    named = [f"{layer} {feature}" for layer, feature in features]
    if isinstance(rule, ValueRule):
        return _value_sentence(rule, named)
    steps = distance_asked(rule.ask)
    if steps is not None:
        far = format(units.length(steps) if units else steps.normalize(), "f")
        return f"{named[0]} would lie within {far} of none of {rule.other}" if rule.form == "each" else f"{' and '.join(named)} would lie within {far} of one another"
    if rule.form == "each":
        return f"{named[0]} would {_NONE.get(rule.ask, f'be as {rule.ask} to')} none of {rule.other}"
    if rule.ask in _ONE:
        return f"{named[0]} would {_ONE[rule.ask]} {named[-1]}"
    return f"{' and '.join(named)} would {_BOTH.get(rule.ask, f'be as {rule.ask} says')}"


def remedy_of(rule: AnyRule) -> str:
    """What helps where a rule would be broken, in a surveyor's words.

    >>> remedy_of(rule_of("once unique parcels number"))
    'Give one of them another value.'
    """
    return _REMEDIES[rule.demand if isinstance(rule, ValueRule) else rule.form]


def _value_sentence(rule: ValueRule, named: Sequence[str]) -> str:
    """The same of a rule on values."""
    if rule.demand == "unique":
        return f"{' and '.join(named)} would have the same {rule.column}"
    if rule.demand == "required":
        return f"{named[0]} would have no {rule.column}"
    if rule.demand == "range":
        return f"the {rule.column} of {named[0]} would be outside of {' '.join(range_words(rule.least, rule.greatest))}"
    more = [".."] if len(rule.allowed) > _NAMED else []
    return f"{named[0]} would have another {rule.column} than {', '.join([*map(spelled, rule.allowed[:_NAMED]), *more])}"


def _rules(line: str, store: Editor) -> list[AnyRule]:
    """The rules that stand, and the one that a line would have added, as far as it is written as rows are."""
    added: list[AnyRule] = []
    found = _ADDITION.match(line)
    if found is not None:
        with contextlib.suppress(ValueError):
            added.append(rule_of(tidied(line[found.end() :])))
    return [*added, *store.rules()]


def _shape_of(store: Editor, layer: str, feature: int) -> Shape | None:
    """The geometry of a feature, where it is there."""
    try:
        return read_wkb(bytes.fromhex(store.hex(layer, feature)))
    except Refused:
        return None
