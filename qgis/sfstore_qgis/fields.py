"""The columns of a store's layer as fields of QGIS: which field is which column is decided here alone, by names.

QGIS counts fields by their places, in a provider and in each layer over it. No place is kept elsewhere: behind each
change of fields it is asked here whether all of them have the same fields still.
"""

from __future__ import annotations

from collections.abc import Iterable, Mapping, Sequence
from typing import Any, NamedTuple

from qgis.core import QgsField, QgsFields, QgsVectorLayer
from qgis.PyQt.QtCore import NULL, QVariant

from sfstore.results import Column, ColumnType

from .values import Choice, column_type_of, dressed, field_of, shown, spelling_of

__all__ = ["IDENTIFIER", "Fields", "FieldsDiffer", "Places", "as_columns", "check_layer", "columns_of", "mark_of", "names_of"]

IDENTIFIER = "_id"
"""The field of a feature's identifier. No column has this name: those of a store begin with a letter."""

class FieldsDiffer(Exception):
    """A provider or a layer of QGIS has other fields than it has to have. The text says which ones."""


class Places(NamedTuple):
    """At which places values stand among the fields of a feature, by the names and the types of columns.

    A value of another type than its column has no place.
    """

    width: int
    """How many fields there are, that of the identifier counted, which is the first one."""
    columns: dict[str, tuple[int, ColumnType]]

    def row(self, number: int, values: Mapping[str, Any]) -> list[Any]:
        """The values of a feature in the order of the fields, the identifier first; NULL where there is none."""
        placed = self.placed(values)
        return [number, *(placed.get(at, NULL) for at in range(1, self.width))]

    def placed(self, values: Mapping[str, Any]) -> dict[int, Any]:
        """Values of columns by their places, be they there or NULL: each as the store has it now."""
        placed = {}
        for name, value in values.items():
            at, column_type = self.columns.get(name, (0, "int"))
            stored = value if value is None or value == NULL else _stored(value, column_type)
            if at and (stored is not None or value is None):
                placed[at] = stored
        return placed


def _stored(value: Any, column_type: ColumnType) -> Any:
    """What the store has made of a value of a field; None where it is of another type."""
    try:
        return shown(spelling_of(value, column_type), column_type)
    except (TypeError, ValueError):
        return None


class Fields:
    """The fields of a memory layer that shows a store's layer: the identifier, and a field for each column."""

    columns: list[Column]
    """The columns, in the order of their fields."""
    shown: QgsFields
    """The fields as a provider gives them: a memory layer's own remember the places that they had before one went."""

    def __init__(self, memory: Any, columns: Sequence[Column], choices: Mapping[str, Choice], mark: str) -> None:
        """Gives a memory layer, which has no fields yet, those of some columns. `FieldsDiffer` where it takes them not.

        ``choices`` are what rules say of values, by the names of columns, and ``mark`` what the field of the identifier says
        of where its features are from.
        """
        self._memory = memory
        self._choices = choices
        self._asked: dict[str, QgsField] = {}
        # The memory layer's own, as they were when they were looked at last.
        self._agreed = QgsFields()
        self.columns = list(columns)
        memory.addAttributes([QgsField(IDENTIFIER, QVariant.LongLong, "int", 0, 0, mark), *map(field_of, columns)])
        self._show()

    def add(self, columns: Sequence[Column], asked: Iterable[QgsField] = ()) -> None:
        """Adds columns behind the others. `FieldsDiffer` where the memory layer has others then.

        ``asked`` are the fields for which QGIS has asked: a commit ends with what it asked for, or it has failed.
        """
        self.check()
        self._asked.update({field.name(): field for field in asked})
        self._memory.addAttributes(list(map(field_of, columns)))
        self.columns += columns
        self._show()

    def drop(self, names: Iterable[str]) -> None:
        """Removes columns. `FieldsDiffer` as for `add`."""
        self.check()
        gone, fields = set(names), self._memory.fields()
        self._memory.deleteAttributes([fields.indexOf(name) for name in sorted(gone)])
        self.columns = [column for column in self.columns if column.name not in gone]
        self._show()

    def check(self) -> None:
        """`FieldsDiffer` where the memory layer has other fields than these: a value would end QGIS, or be another's."""
        fields = self._memory.fields()
        if fields == self._agreed:
            return
        found = [(field.name(), column_type_of(field)) for field in fields]
        if found != [(IDENTIFIER, "int"), *self.columns]:
            raise FieldsDiffer(f"it has the fields {_listed(found)}, and the columns are {_listed(self.columns)}")

    def choose(self, choices: Mapping[str, Choice]) -> bool:
        """Shows fields by what rules say now of values. Whether they say something else than before."""
        are_others = choices != self._choices
        if are_others:
            self._choices = choices
            self._show()
        return are_others

    def settle(self) -> None:
        """Shows each field as its column is: a commit has ended."""
        self._asked.clear()
        self._show()

    def _show(self) -> None:
        self._agreed = QgsFields()
        self.check()
        self._agreed, self.shown = self._memory.fields(), QgsFields()
        known = {column.name: column for column in self.columns}
        for at, field in enumerate(self._agreed):
            self.shown.append(self._asked.get(field.name()) or self._dressed(field, known), QgsFields.OriginProvider, at)
        places = {column.name: (place, column.type) for place, column in enumerate(self.columns, 1)}
        self._places = Places(1 + len(self.columns), places)

    def _dressed(self, field: QgsField, columns: Mapping[str, Column]) -> QgsField:
        """A field of the memory layer as forms have it; that of the identifier as it is."""
        column = columns.get(field.name())
        return field if column is None else dressed(field, column, self._choices.get(column.name, Choice()))

    def places(self) -> Places:
        """Where values stand. `FieldsDiffer` where the memory layer has other fields."""
        self.check()
        return self._places


def mark_of(fields: QgsFields) -> str:
    """What fields of a feature say of where it is from: empty where it is from no store. A copy may say the same."""
    at = fields.indexOf(IDENTIFIER)
    return str(fields.at(at).comment()) if at >= 0 and fields.fieldOrigin(at) == QgsFields.OriginProvider else ""


def names_of(fields: QgsFields) -> list[str | None]:
    """The names of fields in their order; none for those that are joined or computed, which the store has not."""
    others = (QgsFields.OriginJoin, QgsFields.OriginExpression)
    return [None if fields.fieldOrigin(at) in others else field.name() for at, field in enumerate(fields)]


def columns_of(fields: QgsFields) -> list[Column | None]:
    """The columns that fields show, in their order; none for those that are joined or computed."""
    columns = as_columns(fields)
    return [None if name is None else column for name, column in zip(names_of(fields), columns)]


def as_columns(fields: Iterable[QgsField]) -> list[Column]:
    """The columns that fields become which the store has taken."""
    return [Column(field.name(), column_type_of(field) or "text") for field in fields]


def check_layer(layer: QgsVectorLayer) -> None:
    """`FieldsDiffer` where a layer has other fields than its provider, but for those that were not sent."""
    buffer = layer.editBuffer()
    dropped = set(buffer.deletedAttributeIds()) if buffer else set()
    added = [field.name() for field in buffer.addedAttributes()] if buffer else []
    theirs = names_of(layer.dataProvider().fields())
    wanted = [name for at, name in enumerate(theirs) if at not in dropped] + added
    found = [name for name in names_of(layer.fields()) if name is not None]
    if found != wanted:
        raise FieldsDiffer(f"it has the fields {', '.join(found)}, and ought to have {', '.join(map(str, wanted))}")


def _listed(columns: Iterable[Sequence[Any]]) -> str:
    return ", ".join(f"{name} ({kind})" for name, kind in columns)
