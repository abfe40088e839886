"""Rules: what they say, and the lines that say so."""

from __future__ import annotations

import re
from collections.abc import Callable, Sequence
from decimal import Decimal
from typing import Literal, NamedTuple, Union, cast, get_args

from sfstore import values
from sfstore.language import DISTANCE_PLACES, distance_asked
from sfstore.results import Value

__all__ = ["AnyRule", "Demand", "Rule", "RuleForm", "ValueRule", "near_asked", "range_words", "rule_of", "tidied", "with_distance", "within"]

RuleForm = Literal["never", "each"]
"""What a rule says: that no two features are so, or that each is so with some other one."""
Demand = Literal["unique", "required", "one-of", "range"]
"""What a rule demands of the values in a column: that no two features have the same one, that each feature has one, that each
value is one of several, or that each lies in a range."""

# A value as a row has it, several, and a range with both of its ends or with one.
_VALUE = r"(?:E?'[^']*(?:''[^']*)*'|[-+0-9A-Za-z.:]+)"
_ONE_VALUE = re.compile(_VALUE)
_VALUES = re.compile(f"{_VALUE}(?:, {_VALUE})*")
_RANGE = re.compile(f"(?:({_VALUE}) )?to(?: ({_VALUE}))?")
_QUOTED, _BLANKS, _COMMA = re.compile("('[^']*')"), re.compile("[ \t]+"), re.compile(" ?, ?")


class Rule(NamedTuple):
    """A rule between the features of two layers, or of one.

    >>> Rule("placed", "each", "wells", "within", "parcels").line
    'placed each wells within some parcels'
    """

    name: str
    form: RuleForm
    layer: str
    """The first layer. The feature of it is the first geometry of what is asked."""
    ask: str
    """A predicate, a pattern of nine letters of ``TF*012``, or ``near`` with a distance in grid steps. Of `Editor.rules` a distance
    that is no whole number has three digits behind its point."""
    other: str
    """The second layer, which may be the first."""

    @property
    def line(self) -> str:
        """Its row of ``rules``, and what stands behind ``rule add``."""
        some = ["some"] if self.form == "each" else []
        return " ".join([self.name, self.form, self.layer, self.ask, *some, self.other])

    @property
    def layers(self) -> tuple[str, str]:
        """The layers of the features that may break it: of the first, and of the second."""
        return self.layer, self.other


class ValueRule(NamedTuple):
    """A rule on the values in a column of a layer.

    >>> ValueRule("numbers", "unique", "parcels", "number").line
    'numbers unique parcels number'
    >>> ValueRule("uses", "one-of", "parcels", "use", ("field", "road")).line
    "uses one-of parcels use 'field', 'road'"
    >>> from decimal import Decimal
    >>> ValueRule("areas", "range", "parcels", "area", least=Decimal("0.01")).line
    'areas range parcels area 0.01 to'
    """

    name: str
    demand: Demand
    layer: str
    column: str
    allowed: tuple[Value, ...] = ()
    """The values that ``one-of`` allows, 1 to 1,000."""
    least: Value | None = None
    """Of a ``range`` the first end, which is in it; None where there is none."""
    greatest: Value | None = None
    """Of a ``range`` the last end, which is in it; None where there is none."""

    @property
    def line(self) -> str:
        """Its row of ``rules``, and what stands behind ``rule add``."""
        return " ".join([self.name, self.demand, self.layer, self.column, *self._named()])

    def _named(self) -> list[str]:
        """The words for the values that it names."""
        if self.demand == "one-of":
            return [", ".join(map(values.spelled, self.allowed))]
        return range_words(self.least, self.greatest) if self.demand == "range" else []

    @property
    def layers(self) -> tuple[str, str]:
        """The layers of the features that may break it: both are its own."""
        return self.layer, self.layer

    def is_wrong(self, value: Value | None) -> bool:
        """Whether a feature that has this value breaks it, or one that has none does: by itself, whatever others have.

        >>> rule = ValueRule("areas", "range", "parcels", "area", 1, None, 9)
        >>> rule.is_wrong(10), rule.is_wrong(9), rule.is_wrong(None)
        (True, False, False)
        """
        if value is None:
            return self.demand == "required"
        if self.demand == "one-of":
            return value not in self.allowed
        return self.demand == "range" and not _is_within(value, self.least, self.greatest)


AnyRule = Union[Rule, ValueRule]
"""A rule, of whichever kind."""


def range_words(least: Value | None, greatest: Value | None) -> list[str]:
    """A range of values as words of a line."""
    first = [] if least is None else [values.spelled(least)]
    return [*first, "to", *([] if greatest is None else [values.spelled(greatest)])]


def within(ranges: Sequence[ValueRule]) -> tuple[Value | None, Value | None]:
    """The ends between which several ranges of one column allow values together. One that is None bounds nothing.

    >>> within([ValueRule("a", "range", "w", "depth", (), 1, 9), ValueRule("b", "range", "w", "depth", (), 3, None)])
    (3, 9)
    """
    leasts = [rule.least for rule in ranges if rule.least is not None]
    greatests = [rule.greatest for rule in ranges if rule.greatest is not None]
    # They are of one type.
    return max(leasts, default=None), min(greatests, default=None)


def _is_within(value: Value, least: Value | None, greatest: Value | None) -> bool:
    """Whether a value lies between two ends of its type, or at one of them. An end that is None bounds nothing."""
    # Values of one column can be compared: texts by their letters, which stand as their bytes do.
    above = least is None or least <= value  # type: ignore[operator]
    return above and (greatest is None or value <= greatest)  # type: ignore[operator]


def rule_of(row: str) -> AnyRule:
    """The rule of a row of ``rules``. A whole number that it names is an `int`, in a column of decimals too.

    >>> rule_of("placed each wells within some parcels")
    Rule(name='placed', form='each', layer='wells', ask='within', other='parcels')
    >>> rule_of("uses one-of parcels use 'field', 'road'").allowed
    ('field', 'road')
    >>> rule_of("apart never wells near 2.5 wells").ask
    'near 2.5'
    """
    name, form, layer, rest = row.split(" ", 3)
    if form in get_args(Demand):
        return _value_rule(name, cast(Demand, form), layer, *rest.split(" ", 1))
    *asked, other = rest.split(" ")
    ask = " ".join(asked[:-1] if form == "each" else asked)
    return Rule(name, cast(RuleForm, form), layer, ask, other)


def near_asked(steps: Decimal) -> str:
    """What a row of ``rules`` asks by a distance: whole steps, or three digits behind the point.

    >>> near_asked(Decimal("20.0")), near_asked(Decimal("150.5"))
    ('near 20', 'near 150.500')
    """
    digits = 0 if steps == steps.to_integral_value() else DISTANCE_PLACES
    return f"near {steps:.{digits}f}"


def with_distance(rule: AnyRule, change: Callable[[Decimal], Decimal]) -> AnyRule:
    """A rule with another distance, where it asks for one; any other rule as it is.

    >>> with_distance(rule_of("apart never wells near 2.5 wells"), lambda steps: 10 * steps).line
    'apart never wells near 25.0 wells'
    """
    steps = distance_asked(rule.ask) if isinstance(rule, Rule) else None
    return rule._replace(ask=f"near {change(steps):f}") if isinstance(rule, Rule) and steps is not None else rule


def tidied(line: str) -> str:
    """A line that somebody has typed with its blanks as rows have them: one between words, one behind a comma. Texts in quotes stay.

    >>> tidied(" uses  one-of parcels use 'field','road,  paved'")
    "uses one-of parcels use 'field', 'road,  paved'"
    """
    pieces = _QUOTED.split(line)
    pieces[::2] = [_COMMA.sub(", ", _BLANKS.sub(" ", piece)) for piece in pieces[::2]]
    return "".join(pieces).strip(" ")


def _value_rule(name: str, demand: Demand, layer: str, column: str, named: str = "") -> ValueRule:
    """The rule on values that names these. `ValueError` where the demand names none so."""
    if demand == "one-of" and _VALUES.fullmatch(named):
        allowed = tuple(map(values.of_text, _ONE_VALUE.findall(named)))
        return ValueRule(name, demand, layer, column, allowed)
    ends = _RANGE.fullmatch(named) if demand == "range" else None
    if ends and (ends[1] or ends[2]):
        least, greatest = (values.of_text(end) if end else None for end in ends.groups())
        return ValueRule(name, demand, layer, column, (), least, greatest)
    if named or demand in ("one-of", "range"):
        raise ValueError(f"{named!r} is not what {demand} names")
    return ValueRule(name, demand, layer, column)
