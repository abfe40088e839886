"""The values of layers as tables: sorted, filtered, searched, and given a page at a time.

The program lists features by their identifiers, and finds equal values; it neither sorts nor searches texts. So the
values of a layer are read once, without geometries, and kept as rows spell them. A question looks at these texts, and
what an edit has changed is read anew before the next one. The identifiers of an answered question are kept, so that
its further pages are read off.
"""

from __future__ import annotations

import re
from array import array
from collections.abc import Callable, Iterable, Sequence
from decimal import Decimal, InvalidOperation
from operator import itemgetter
from time import monotonic
from typing import Any, Literal, NamedTuple, cast, get_args

from sfstore import values
from sfstore.extents import Box, rectangle
from sfstore.language import GRID_MAX, GRID_MIN, IDENTIFIERS_MAX
from sfstore.results import Column, ColumnType
from sfstore.store import Editor
from sfstore.web.keeper import Edit
from sfstore.web.rows import rows_of

__all__ = ["PAGE_MAX", "Condition", "How", "Reading", "Tables", "Wanted", "conditions_of", "labels_of"]

How = Literal["has", "is", "not", "less", "most", "least", "more", "filled", "empty"]
"""What is asked of a value: that it has a part, is another one, is less than one, at most, at least, or more, is there, or not."""

PAGE_MAX = 200
"""How many rows a page of a table has at most."""

CONDITIONS_MAX = 10
"""How many conditions a question has at most."""

# How many letters of a value are given in a table, and beside a feature on the map.
_LETTERS_MAX = 300
_LABEL_MAX = 80
# How many letters the rows of all tables have together, beyond which the one that was asked least lately goes.
_KEPT_MAX = 400_000_000
# How many answers are kept in their order.
_ORDERS_MAX = 12
# How many features are read at a time, and for how long until what is read is told.
_PART = 10 * IDENTIFIERS_MAX
_SECONDS = 2.0
# So many features may be changed before all is read anew.
_CHANGED_MAX = 20_000
_GRID: Box = (GRID_MIN, GRID_MIN, GRID_MAX, GRID_MAX)

_FRONT = re.compile(r"([0-9]+) [A-Z]+ \([-0-9 ,()]*\)")
_VALUE = r"(?:E?'[^']*(?:''[^']*)*'|[^' ]+)"
_NAMED = re.compile(f" ([A-Za-z0-9_]+)=({_VALUE})")
# What a row spells in another way than it is.
_ESCAPED = re.compile(r"[\x00-\x1f\x7f\\']")


class Condition(NamedTuple):
    """What a value has to be, of one column or of any."""

    column: str | None
    how: How
    value: str


class Wanted(NamedTuple):
    """What a page of a table is to show."""

    layer: str
    sort: str | None
    """The column by which it is sorted; by identifiers where there is none."""
    is_falling: bool
    conditions: tuple[Condition, ...]
    box: Box | None
    """What the features have to meet, where something is given."""
    begin: int
    """The place of its first row among all that are found."""
    size: int
    """How many rows it has at most."""
    around: int | None = None
    """A feature that the page has to have, if it is found at all: then it begins elsewhere."""


class Reading(Exception):
    """A table is not read to its end yet: how many of its features are."""

    def __init__(self, read: int, total: int) -> None:
        super().__init__(read, total)
        self.read, self.total = read, total


class _Table:
    """The values of a layer, as its rows spell them behind the geometry."""

    def __init__(self, columns: Sequence[Column], features: Sequence[int]) -> None:
        self.columns = columns
        self.rows: dict[int, str] = {}
        self.letters = 0
        self.changed: set[int] = set()
        self._unread = array("Q", features)

    def read(self, store: Editor, layer: str, until: float) -> None:
        """Reads what is not read yet. `Reading` where that takes too long."""
        while self._unread:
            part = self._unread[:_PART]
            self._take(store, layer, part)
            del self._unread[:_PART]
            if self._unread and monotonic() > until:
                raise Reading(len(self.rows), len(self.rows) + len(self._unread))
        for feature in self.changed:
            self.letters -= len(self.rows.pop(feature, ""))
        self._take(store, layer, sorted(self.changed))
        self.changed.clear()

    def _take(self, store: Editor, layer: str, features: Sequence[int]) -> None:
        for row in rows_of(store, layer, features):
            found = _FRONT.match(row)
            if found is None:
                raise ValueError(f"no feature: {row[:100]!r}")
            self.rows[int(found[1])] = rest = row[found.end() :]
            self.letters += len(rest)


class Tables:
    """The tables of layers that were asked for, beside a program whose edits they follow."""

    def __init__(self) -> None:
        self._tables: dict[str, _Table] = {}
        self._orders: dict[tuple[Any, ...], array[int]] = {}

    def before(self, store: Editor, edits: Sequence[Edit]) -> None:
        """Hears of edits that are about to be done."""

    def after(self, store: Editor, edits: Sequence[Edit]) -> None:
        """Has what they have changed read anew."""
        # What is found by a box may be another one whatever is moved.
        self._orders.clear()
        for target in (target for edit in edits for target in edit.step.targets):
            table = self._tables.get(target.layer)
            if table is None:
                continue
            if target.feature is None or len(table.changed) >= _CHANGED_MAX:
                del self._tables[target.layer]
            else:
                table.changed.add(target.feature)

    def forget(self) -> None:
        """Has everything read anew."""
        self._tables.clear()
        self._orders.clear()

    def page(self, store: Editor, wanted: Wanted) -> dict[str, Any]:
        """A page of a table, with how many rows there are, and were found. `Reading` where it has to be asked for again.

        `Refused` where there is no such layer, and `ValueError` where a condition can't be asked.
        """
        table = self._read(store, wanted.layer, monotonic() + _SECONDS)
        order = self._order(store, table, wanted)
        begin = min(_begin(order, wanted), max(len(order) - 1, 0) // wanted.size * wanted.size)
        features = order[begin : begin + wanted.size]
        return {
            "columns": [column._asdict() for column in table.columns],
            "total": len(table.rows),
            "count": len(order),
            "from": begin,
            "rows": [[feature, _told(table, table.rows[feature])] for feature in features],
        }

    def _read(self, store: Editor, layer: str, until: float) -> _Table:
        """The table of a layer, as it is now."""
        # It is the last one to go.
        table = self._tables.pop(layer, None)
        if table is None:
            table = _Table(store.columns(layer), store.query(layer, "intersects", rectangle(_GRID)))
        self._tables[layer] = table
        table.read(store, layer, until)
        while len(self._tables) > 1 and sum(each.letters for each in self._tables.values()) > _KEPT_MAX:
            del self._tables[next(iter(self._tables))]
        return table

    def _order(self, store: Editor, table: _Table, wanted: Wanted) -> array[int]:
        """The features that are found, in their order."""
        key = wanted.layer, wanted.sort, wanted.is_falling, wanted.conditions, wanted.box
        order = self._orders.pop(key, None)
        if order is None:
            order = array("Q", _sorted(table, _found(store, table, wanted), wanted))
        self._orders[key] = order
        while len(self._orders) > _ORDERS_MAX:
            del self._orders[next(iter(self._orders))]
        return order


def _begin(order: array[int], wanted: Wanted) -> int:
    """Where a page begins."""
    try:
        return wanted.begin if wanted.around is None else order.index(wanted.around) // wanted.size * wanted.size
    except ValueError:
        return wanted.begin


def _found(store: Editor, table: _Table, wanted: Wanted) -> Iterable[int]:
    """The features that are as wanted."""
    found: Iterable[int] = table.rows
    if wanted.box is not None:
        met = store.query(wanted.layer, "intersects", rectangle(wanted.box))
        found = [feature for feature in met if feature in table.rows]
    for condition in wanted.conditions:
        is_met = _test(table, condition)
        found = [feature for feature in found if is_met(table.rows[feature])]
    return found


def _sorted(table: _Table, found: Iterable[int], wanted: Wanted) -> list[int]:
    """Features in their order: those without a value last, and equal ones by their identifiers."""
    if wanted.sort is None:
        return sorted(found, reverse=wanted.is_falling)
    value_in = _finder(table, wanted.sort)
    key = _key(_type_of(table, wanted.sort))
    filled: list[tuple[Any, int]] = []
    empty: list[int] = []
    for feature in sorted(found):
        value = value_in(table.rows[feature])
        if value is None:
            empty.append(feature)
        else:
            filled.append((key(value), feature))
    # A sort keeps what is equal as it stands: by rising identifiers, however it is sorted.
    filled.sort(key=itemgetter(0), reverse=wanted.is_falling)
    return [feature for _, feature in filled] + empty


def _key(kind: ColumnType) -> Callable[[str], Any]:
    """By what the values of a type are sorted, from how a row spells them. Days and times are spelled in their order."""
    if kind == "text":
        return lambda spelled: (text := str(values.read(spelled, "text"))).casefold() + "\0" + text
    if kind == "decimal":
        return Decimal
    return int if kind == "int" else str


def _test(table: _Table, condition: Condition) -> Callable[[str], bool]:
    """Whether a row meets a condition."""
    if condition.column is None:
        return _part_test(table, condition.value)
    value_in = _finder(table, condition.column)
    if condition.how in ("filled", "empty"):
        return lambda row: (value_in(row) is None) == (condition.how == "empty")
    kind = _type_of(table, condition.column)
    is_met = _value_test(kind, condition)
    return lambda row: (value := value_in(row)) is not None and is_met(value)


def _part_test(table: _Table, part: str) -> Callable[[str], bool]:
    """Whether a value of a row has a part, large or small."""
    kinds = {column.name: column.type for column in table.columns}
    folded = part.casefold()
    is_plain = _ESCAPED.search(part) is None

    def is_met(row: str) -> bool:
        # The row has the names of columns too: so this says no alone.
        if is_plain and folded not in row.casefold():
            return False
        return any(folded in _shown(value, kinds[name]).casefold() for name, value in _NAMED.findall(row))

    return is_met


def _value_test(kind: ColumnType, condition: Condition) -> Callable[[str], bool]:
    """Whether a value, as a row spells it, meets a condition."""
    if condition.how == "has":
        folded = condition.value.casefold()
        return lambda spelled: folded in _shown(spelled, kind).casefold()
    if kind in ("int", "decimal"):
        key: Callable[[str], Any] = Decimal
        other: Any = _number(condition)
    elif kind == "text" and condition.how not in ("is", "not"):
        key = lambda spelled: _shown(spelled, "text").casefold()
        other = condition.value.casefold()
    else:
        key = lambda spelled: _shown(spelled, kind)
        other = condition.value
    compared = _COMPARED[condition.how]
    return lambda spelled: compared(key(spelled), other)


_COMPARED: dict[str, Callable[[Any, Any], bool]] = {
    "is": lambda one, other: bool(one == other),
    "not": lambda one, other: bool(one != other),
    "less": lambda one, other: bool(one < other),
    "most": lambda one, other: bool(one <= other),
    "least": lambda one, other: bool(one >= other),
    "more": lambda one, other: bool(one > other),
}


def _number(condition: Condition) -> Decimal:
    try:
        number = Decimal(condition.value.strip())
    except InvalidOperation:
        number = Decimal("nan")
    if not number.is_finite():
        raise ValueError(f"{condition.column} has numbers: {condition.value[:40]!r} is none")
    return number


def _finder(table: _Table, column: str) -> Callable[[str], str | None]:
    """Finds the value of a column in a row, as the row spells it. `ValueError` where there is no such column."""
    _type_of(table, column)
    # Those of other columns are passed over as a whole: a text may look like a value.
    pattern = re.compile(f"(?: (?!{column}=)[A-Za-z0-9_]+={_VALUE})* {column}=({_VALUE})")
    return lambda row: found[1] if (found := pattern.match(row)) else None


def _type_of(table: _Table, column: str) -> ColumnType:
    for each in table.columns:
        if each.name == column:
            return each.type
    raise ValueError(f"there is no column {column[:40]}")


def _told(table: _Table, row: str) -> list[str | None]:
    """The values of a row as a page shows them, none where there is no value; what is too long is cut."""
    found = dict(_NAMED.findall(row))
    return [
        _cut(_shown(found[column.name], column.type), _LETTERS_MAX) if column.name in found else None
        for column in table.columns
    ]


def _shown(spelled: str, kind: ColumnType) -> str:
    """A value as a page shows it: a text without quotes, all else as rows spell it."""
    return str(values.read(spelled, "text")) if kind == "text" else spelled


def _cut(text: str, most: int) -> str:
    return text if len(text) <= most else text[:most] + " .."


def labels_of(store: Editor, layer: str, column: str, features: Sequence[int]) -> list[list[Any]]:
    """What stands beside features on the map: each with its value in a column, of those that have one."""
    table = _Table(store.columns(layer), ())
    value_in, kind = _finder(table, column), _type_of(table, column)
    labels: list[list[Any]] = []
    for row in rows_of(store, layer, features):
        found = _FRONT.match(row)
        value = found and value_in(row[found.end() :])
        if found and value:
            labels.append([int(found[1]), _cut(" ".join(_shown(value, kind).split()), _LABEL_MAX)])
    return labels


def conditions_of(conditions: object) -> tuple[Condition, ...]:
    """The conditions that a call brings. `ValueError` where they are none."""
    if not isinstance(conditions, list) or len(conditions) > CONDITIONS_MAX:
        raise ValueError(f"conditions has to be a list of {CONDITIONS_MAX} at most")
    return tuple(map(_condition, conditions))


def _condition(condition: object) -> Condition:
    if not isinstance(condition, list) or len(condition) != 3:
        raise ValueError("a condition has to be a column, or null, with how it is compared and with what")
    column, how, value = condition
    if column is not None and not isinstance(column, str):
        raise ValueError("the column of a condition has to be a text or null")
    if how not in get_args(How) or not isinstance(value, str):
        raise ValueError(f"a condition has to have one of {', '.join(get_args(How))}, and a text")
    if column is None and how != "has":
        raise ValueError("all columns can be searched for a part alone: has")
    return Condition(column, cast(How, how), value)
