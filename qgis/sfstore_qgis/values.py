"""Values of a store's columns as values of QGIS' fields, and back: each way exactly, or not at all.

A decimal is a text in QGIS, whose real numbers are doubles. A time is one in UTC: QGIS' form for times gives a time without
a zone, and so does `now()`, the one with the digits of UTC and the other with those of the machine's zone. Which of the
two is meant can't be seen, so neither is taken.

A form gives all of its values back, whichever of them somebody has typed. So no field may show another value than there
is: QGIS' tick box makes false of no value, and its box of numbers has the nearest number of its range.
"""

from __future__ import annotations

import re
from collections.abc import Mapping
from datetime import datetime, timezone
from decimal import Decimal
from typing import Any, NamedTuple

from qgis.core import QgsApplication, QgsEditorWidgetSetup, QgsField, QgsFieldConstraints
from qgis.PyQt.QtCore import QDate, QDateTime, Qt, QTime, QVariant

from sfstore.language import INT_MAX, INT_MIN, TEXT_MAX
from sfstore.results import Column, ColumnType
from sfstore.values import read, spelled

__all__ = ["FORMS", "Choice", "Form", "choice_of", "column_type_of", "dressed", "field_of", "is_read", "is_widget_of_rules", "shown", "spelling_of", "told", "why_not_meant"]


class Form(NamedTuple):
    """How QGIS has a type of columns."""

    label: str
    """What the list says in which a person chooses the type of a new field."""
    type: Any
    length: int
    written: re.Pattern[str]
    """How a row has a value."""


FORMS = {
    "int": Form("Whole number (64 bit)", QVariant.LongLong, 0, re.compile(r"-?[0-9]+")),
    "text": Form(f"Text ({TEXT_MAX:,} bytes)", QVariant.String, TEXT_MAX, re.compile(r"E?'.*'")),
    "decimal": Form("Decimal (exact, shown as a text)", QVariant.String, 0, re.compile(r"-?[0-9]+(?:\.[0-9]+)?")),
    "bool": Form("Boolean", QVariant.Bool, 0, re.compile("true|false")),
    "date": Form("Date", QVariant.Date, 0, re.compile("[0-9]{4}-[0-9]{2}-[0-9]{2}")),
    "datetime": Form("Date and time (UTC)", QVariant.DateTime, 0, re.compile("[-0-9]{10}T[0-9:.]{12}Z")),
}
"""The types of columns."""

_TYPES: dict[Any, ColumnType] = {
    QVariant.Int: "int",
    QVariant.LongLong: "int",
    QVariant.String: "text",
    QVariant.Bool: "bool",
    QVariant.Date: "date",
    QVariant.DateTime: "datetime",
}
_RANGE = re.compile("(?:(-?[0-9]+) )?to(?: (-?[0-9]+))?")
_NO_VALUE = "no value"
# What QGIS' lists of values have for none.
_NULL_VALUE = "{2839923C-8B7D-419E-B84B-CA2FE9B80EC7}"
_LIST, _LINE = "ValueMap", "TextEdit"
# How much of a text QGIS' field of one line keeps, and how much of that end is looked at.
_LINE_UNITS, _END_UNITS = 32_767, 8
# What former versions of the plugin made of a range: a box of numbers, which a project may have kept.
_FORMER = {"Step": "1", "AllowNull": "true", "Style": "SpinBox"}
_WHOLE = re.compile("[+-]?[0-9]{1,40}")
_DECIMAL = re.compile(r"[+-]?[0-9]+(?:\.[0-9]+)?")


def column_type_of(field: QgsField) -> ColumnType | None:
    """What a column is that a field shows; None where none is."""
    found = _TYPES.get(field.type())
    return "decimal" if found == "text" and field.typeName() == "decimal" else found


class Choice(NamedTuple):
    """What the rules on a column say of its values, for whoever chooses one."""

    allowed: tuple[str, ...] = ()
    """The values of which each is one; none where others are allowed too."""
    least: int | None = None
    greatest: int | None = None
    """The ends of a range of whole numbers."""


def choice_of(demanded: Mapping[str, Any]) -> Choice:
    """What a server tells of a column's rules."""
    ends = _RANGE.fullmatch(demanded.get("range", ""))
    least, greatest = (int(end) if end else None for end in ends.groups()) if ends else (None, None)
    return Choice(tuple(demanded.get("allowed", ())), least, greatest)


def field_of(column: Column) -> QgsField:
    """The field that shows a column."""
    form = FORMS[column.type]
    # A memory layer has whole numbers by this name, and makes a field of another name anew.
    name = "int8" if column.type == "int" else column.type
    return QgsField(column.name, form.type, name, form.length)


def dressed(field: QgsField, column: Column, choice: Choice) -> QgsField:
    """A field with what its values are typed or chosen in, and with what a rule says of them."""
    found = QgsField(field)
    found.setEditorWidgetSetup(_widget(column, choice))
    if column.type == "int" and choice[1:] != (None, None):
        found.setConstraints(_range_of(column, choice))
    return found


def _widget(column: Column, choice: Choice) -> QgsEditorWidgetSetup:
    """What a value is typed or chosen in; an empty one where QGIS has a good one of its own.

    A time is typed with its zone, and a whole number in a field that takes 64 bits, whichever field another QGIS would choose.
    """
    allowed = choice.allowed if column.type in ("int", "text", "decimal", "bool") else ()
    if column.type == "bool":
        allowed = allowed or ("true", "false")
    if not allowed:
        return QgsEditorWidgetSetup(_LINE, {}) if column.type in ("int", "datetime") else QgsEditorWidgetSetup()
    return QgsEditorWidgetSetup(_LIST, {"map": [{_NO_VALUE: _NULL_VALUE}, *({value: value} for value in allowed)]})


def _range_of(column: Column, choice: Choice) -> QgsFieldConstraints:
    """What a form says of a value outside of a range. It is a word alone, and changes none: the store judges."""
    ends = [("from", ">=", choice.least), ("to", "<=", choice.greatest)]
    words = " ".join(f"{word} {end}" for word, _, end in ends if end is not None)
    tests = " AND ".join(f'"{column.name}" {sign} {end}' for _, sign, end in ends if end is not None)
    found = QgsFieldConstraints()
    found.setConstraintExpression(f'"{column.name}" IS NULL OR ({tests})', f"a rule wants {words}")
    # Its origin comes first: without one a constraint has no strength.
    found.setConstraint(QgsFieldConstraints.ConstraintExpression, QgsFieldConstraints.ConstraintOriginProvider)
    found.setConstraintStrength(QgsFieldConstraints.ConstraintExpression, QgsFieldConstraints.ConstraintStrengthSoft)
    return found


def is_widget_of_rules(setup: QgsEditorWidgetSetup) -> bool:
    """Whether a widget is one that this plugin makes of rules, or has made: a project may keep it when they are others."""
    config = setup.config()
    if setup.type() == _LIST:
        values = config.get("map")
        return isinstance(values, list) and values[:1] == [{_NO_VALUE: _NULL_VALUE}]
    if setup.type() == _LINE:
        # Where somebody has chosen it, it has words.
        return not config
    told = {name: str(value).lower() if isinstance(value, bool) else str(value) for name, value in config.items()}
    return setup.type() == "Range" and {name: value for name, value in told.items() if name not in ("Min", "Max")} == _FORMER


def shown(text: str, column_type: ColumnType) -> Any:
    """The value of a row as a field has it; None where it is of another type."""
    if not FORMS[column_type].written.fullmatch(text):
        return None
    if column_type == "int":
        return int(text)
    if column_type == "text":
        return read(text, "text")
    if column_type == "bool":
        return text == "true"
    if column_type == "decimal":
        return text
    day = QDate(int(text[:4]), int(text[5:7]), int(text[8:10]))
    if column_type == "date":
        return day
    time = QTime(int(text[11:13]), int(text[14:16]), int(text[17:19]), int(text[20:23]))
    return QDateTime(day, time, Qt.UTC)


def spelling_of(found: Any, column_type: ColumnType) -> str:
    """A value of a field as a line has it. `ValueError` or `TypeError` where the column has no such value."""
    if column_type in ("int", "bool") and isinstance(found, str) and FORMS[column_type].written.fullmatch(found):
        # A list of values gives texts.
        return spelled(int(found) if column_type == "int" else found == "true")
    if column_type == "decimal" and isinstance(found, str):
        if not _DECIMAL.fullmatch(found.strip()):
            raise ValueError("a decimal is digits, with a point before its fraction, such as 812.5")
        return spelled(Decimal(found.strip()))
    if isinstance(found, QDateTime):
        return spelled(_time_of(found))
    if isinstance(found, QDate):
        if not found.isValid():
            raise ValueError("that is no day")
        return spelled(found.toPyDate())
    return spelled(found)


def _time_of(found: QDateTime) -> datetime:
    if found.timeSpec() == Qt.LocalTime:
        raise ValueError("it has no zone: type it with one, such as 2024-02-29T12:30:00Z")
    if not found.isValid():
        raise ValueError("that is no time")
    time: datetime = found.toUTC().toPyDateTime()
    return time.replace(tzinfo=timezone.utc)


def why_not_meant(found: Any, stored: str) -> str:
    """Why a text is not given another value, or none: by itself QGIS' field of one line makes that of it. Empty where somebody may have typed it."""
    word = QgsApplication.nullRepresentation()
    if found is None:
        return f"is the text {word!r}, which QGIS takes for no value" if stored == word else ""
    # It counts letters as Qt does. Where the end of what it shows stands still, nobody has looked at what is behind.
    units = stored.encode("utf-16-le")
    end = units[2 * (_LINE_UNITS - _END_UNITS) : 2 * _LINE_UNITS]
    is_cut = len(units) > 2 * _LINE_UNITS and isinstance(found, str) and found != stored
    if is_cut and found.encode("utf-16-le", "surrogatepass").endswith(end) and len(found) <= _LINE_UNITS:
        return f"has {len(stored):,} letters, of which QGIS' field keeps {_LINE_UNITS:,}"
    return ""


def is_read(text: str, column_type: ColumnType) -> bool:
    """Whether QGIS' field of one line makes a value of a text: what it can't read it takes for none."""
    if column_type == "int":
        return _WHOLE.fullmatch(text) is not None and INT_MIN <= int(text) <= INT_MAX
    return column_type != "datetime" or bool(QDateTime.fromString(text, Qt.ISODate).isValid())


def told(found: Any) -> str:
    """A value in words, for a person."""
    return str(found.toString(Qt.ISODateWithMs)) if isinstance(found, (QDate, QDateTime)) else repr(found)
