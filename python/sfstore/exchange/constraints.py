"""Constraints of the columns of other formats, and rules on values: each says what the other does.

UNIQUE and NOT NULL are what `unique` and `required` say. A GeoPackage has lists of values and ranges besides (OGR's domains of
fields), which QGIS offers as a list to choose from and as the ends of a number; they are what `one-of` and `range` say.
"""

from __future__ import annotations

import contextlib
from collections.abc import Iterable, Sequence
from decimal import Decimal
from typing import Any, NamedTuple

from sfstore import values
from sfstore.exchange import ogr
from sfstore.exchange.asking import asked, literal
from sfstore.exchange.columns import INTEGER, INTEGER_64, REAL, STRING, Sort
from sfstore.exchange.names import Names
from sfstore.language import ALLOWED_MAX, INT_MAX, INT_MIN
from sfstore.results import Value
from sfstore.rules import AnyRule, Demand, ValueRule

__all__ = [
    "Constraint",
    "Demanded",
    "constrain",
    "demanded_by",
    "demands_of",
    "domains_of",
    "ends_set",
    "left_aside",
    "rules_of",
    "rules_said",
    "writable",
]

# The table of a GeoPackage that has lists and ranges.
_TABLE = "gpkg_data_column_constraints"
# The least and the greatest number of a column of a type: an end there bounds nothing.
_LIMITS = {
    INTEGER: (Decimal(-(2**31)), Decimal(2**31 - 1)),
    INTEGER_64: (Decimal(INT_MIN), Decimal(INT_MAX)),
    REAL: (Decimal("-Infinity"), Decimal("Infinity")),
}


class Demanded(NamedTuple):
    """What is demanded of the values in a column: what a rule on them says."""

    demand: Demand
    allowed: tuple[Value, ...] = ()
    """In the order of their spellings, each once: a list says of a value that it is in it, and no more."""
    least: Value | None = None
    greatest: Value | None = None

    def rule(self, name: str, layer: str, column: str) -> ValueRule:
        """The rule that demands this."""
        return ValueRule(name, self.demand, layer, column, self.allowed, self.least, self.greatest)


class Constraint(NamedTuple):
    """What a table demands of a column that became one of a store's layer."""

    layer: str
    column: str
    demanded: Demanded


def demanded_by(rule: ValueRule) -> Demanded:
    """What a rule on values demands."""
    allowed = {values.spelled(value): value for value in rule.allowed}
    return Demanded(rule.demand, tuple(allowed[text] for text in sorted(allowed)), rule.least, rule.greatest)


# ---- read


def demands_of(field: Any, data: Any) -> frozenset[Demanded]:
    """What the definition of a field of OGR demands, in a set of data: UNIQUE, NOT NULL, and what its domain says."""
    found: set[Demanded] = set()
    if field.IsUnique():
        found.add(Demanded("unique"))
    if not field.IsNullable():
        found.add(Demanded("required"))
    with contextlib.suppress(_Unread):
        said = _said_by(_domain_of(field, data), field, data)
        found |= {said} if said else set()
    return frozenset(found)


def left_aside(field: Any, data: Any) -> str:
    """The name of the domain of a field, where it says what no rule does: a pattern, an end that is not in the range, too many values.

    Or what its values mean, or nothing that can be read.
    """
    try:
        domain = _domain_of(field, data)
    except _Unread:
        return str(field.GetDomainName())
    return "" if domain is None or (_said_by(domain, field, data) and not _has_meanings(domain)) else str(field.GetDomainName())


class _Unread(Exception):
    """OGR can't read the domain of a field."""


def _domain_of(field: Any, data: Any) -> Any:
    """The domain of a field; None where it has none, or where none of this name is there. `_Unread` where it can't be read."""
    name = field.GetDomainName()
    try:
        return data.GetFieldDomain(name) if name else None
    except (RuntimeError, TypeError):
        # Its type is none that OGR knows, a value is none, or its name is not UTF-8.
        raise _Unread from None


def _said_by(domain: Any, field: Any, data: Any) -> Demanded | None:
    """What a domain says of the values of a field; None where it is none, or where no rule says it."""
    _, module, _ = ogr.gdal()
    if domain is None:
        return None
    with contextlib.suppress(ArithmeticError, ValueError):
        if domain.GetDomainType() == module.OFDT_CODED:
            return _listed(domain, field.GetTypeName())
        if domain.GetDomainType() == module.OFDT_RANGE:
            return _ranged(domain, field, data)
    return None


def _has_meanings(domain: Any) -> bool:
    """Whether a domain has words for its values."""
    _, module, _ = ogr.gdal()
    codes = (domain.GetEnumeration() or {}) if domain.GetDomainType() == module.OFDT_CODED else {}
    return any(meant and meant != code for code, meant in codes.items())


def _listed(domain: Any, kind: str) -> Demanded | None:
    codes = list(domain.GetEnumeration() or ())
    if not 0 < len(codes) <= ALLOWED_MAX:
        return None
    return demanded_by(ValueRule("", "one-of", "", "", tuple(_value_of(code, kind) for code in codes)))


def _ranged(domain: Any, field: Any, data: Any) -> Demanded | None:
    kind = field.GetTypeName()
    if kind not in _LIMITS:
        return None
    (first, last), (least, greatest) = _LIMITS[kind], _ends_of(domain, field, data)
    # An end beyond which no number of the column lies bounds nothing.
    ends = [(None if least <= first else least, domain.IsMinInclusive()), (None if greatest >= last else greatest, domain.IsMaxInclusive())]
    if any(end is not None and not is_within for end, is_within in ends) or all(end is None for end, _ in ends):
        return None
    return Demanded("range", (), *(None if end is None else _value_of(str(end), kind) for end, _ in ends))


def _ends_of(domain: Any, field: Any, data: Any) -> list[Decimal]:
    """The ends of a range. OGR has those of whole numbers as doubles, and of one with an exponent the first digits."""
    if field.GetTypeName() == REAL or data.GetDriver().ShortName != "GPKG":
        return [Decimal(repr(end)) for end in (domain.GetMinAsDouble(), domain.GetMaxAsDouble())]
    query = f"SELECT quote(min) AS place, quote(max) AS value FROM {_TABLE} WHERE constraint_name = {literal(field.GetDomainName())}"
    [ends] = asked(data, data.GetLayer(0), query)
    # A real number is the double that its text is of.
    return [Decimal(end if end.lstrip("-").isdigit() else float(end)) for end in ends]


def _value_of(text: str, kind: str) -> Value:
    """A value of a field of a type. `ValueError` or `ArithmeticError` where a column has none such."""
    if kind == STRING:
        return text
    if kind not in (INTEGER, INTEGER_64, REAL):
        raise ValueError(f"no rule has values of a field of the type {kind}")
    number = Decimal(text)
    mantissa, places = values.mantissa_and_places(number)
    if kind == REAL:
        return values.of_mantissa(mantissa, places)
    if places:
        raise ValueError(f"{text} is no whole number")
    return mantissa


# ---- written


def writable(demanded: Demanded, sort: Sort, held: Iterable[Value]) -> bool:
    """Whether a constraint of a GeoPackage says what is demanded, of a column of this type that has these values."""
    if demanded.demand == "required":
        return True
    if demanded.demand == "unique":
        # Several values would be one real number.
        return sort.type != REAL or all(map(_is_double, held))
    if sort.subtype != "None":
        return False
    if demanded.demand == "range":
        ends = [end for end in (demanded.least, demanded.greatest) if end is not None]
        return sort.type in _LIMITS and all(_is_end(end, sort.type) for end in ends)
    if sort.type == REAL:
        return all(map(_is_double, demanded.allowed))
    kind = {INTEGER: int, INTEGER_64: int, STRING: str}.get(sort.type)
    return kind is not None and all(isinstance(value, kind) for value in demanded.allowed)


def _is_end(end: Value, kind: str) -> bool:
    """Whether a range of a column has an end: a double of real numbers, and within all numbers of the column."""
    first, last = _LIMITS[kind]
    return isinstance(end, (int, Decimal)) and first < end < last and (kind != REAL or _is_double(end))


def _is_double(value: Value) -> bool:
    """Whether a value is a number that a double has, with the digits that it has there."""
    return isinstance(value, (int, Decimal)) and Decimal(repr(float(value))) == value


def constrain(field: Any, domain: str, demands: frozenset[Demanded]) -> None:
    """Has the definition of a field of OGR demand this; what is said by a domain, by that of a name."""
    kinds = {demanded.demand for demanded in demands}
    field.SetUnique("unique" in kinds)
    field.SetNullable("required" not in kinds)
    if kinds - {"unique", "required"}:
        field.SetDomainName(domain)


def domains_of(domain: str, sort: Sort, demands: frozenset[Demanded]) -> list[Any]:
    """The domain of a name that says what is demanded of a column of a type, where one has to."""
    _, module, _ = ogr.gdal()
    kind = domain, "", getattr(module, f"OFT{sort.type}"), module.OFSTNone
    found = []
    for demanded in demands:
        if demanded.demand == "one-of":
            codes = [value if isinstance(value, str) else values.spelled(value) for value in demanded.allowed]
            found.append(module.CreateCodedFieldDomain(*kind, dict.fromkeys(codes)))
        if demanded.demand == "range":
            # Those of whole numbers are set behind it: OGR takes doubles, and makes the least number of what has no end.
            least, greatest = map(float, _ends_in(demanded, sort.type)) if sort.type == REAL else (0.0, 0.0)
            found.append(module.CreateRangeFieldDomain(*kind, least, True, greatest, True))
    return found


def ends_set(domain: str, sort: Sort, demands: frozenset[Demanded]) -> list[str]:
    """What sets the ends of a range of whole numbers in a GeoPackage, as SQL. An open one is the last number of the column."""
    ranges = [_ends_in(demanded, sort.type) for demanded in demands if demanded.demand == "range" and sort.type != REAL]
    return [
        f"UPDATE {_TABLE} SET min = CAST('{least}' AS INTEGER), max = CAST('{greatest}' AS INTEGER) WHERE constraint_name = {literal(domain)}"
        for least, greatest in ranges
    ]


def _ends_in(demanded: Demanded, kind: str) -> list[Any]:
    """The ends of a range in a column; those of the column where they are open."""
    given = demanded.least, demanded.greatest
    return [last if end is None else end for end, last in zip(given, _LIMITS[kind])]


# ---- rules


def rules_said(layer: str, rules: Iterable[AnyRule]) -> dict[str, list[ValueRule]]:
    """The rules on the columns of a layer, by the columns' names."""
    found: dict[str, list[ValueRule]] = {}
    for rule in rules:
        if isinstance(rule, ValueRule) and rule.layer == layer:
            found.setdefault(rule.column, []).append(rule)
    return found


def rules_of(constraints: Iterable[Constraint], said: Sequence[AnyRule]) -> list[ValueRule]:
    """A rule for each constraint that no other rule says. Its name is made of the layer, the column and the demand.

    >>> [rule.line for rule in rules_of([Constraint("parcels", "number", Demanded("unique"))], [])]
    ['parcels_number_unique unique parcels number']
    """
    known = {Constraint(rule.layer, rule.column, demanded_by(rule)) for rule in said if isinstance(rule, ValueRule)}
    names = Names(rule.name for rule in said)
    return [
        each.demanded.rule(names.new("_".join([each.layer, each.column, each.demanded.demand])), each.layer, each.column)
        for each in dict.fromkeys(constraints)
        if each not in known
    ]
