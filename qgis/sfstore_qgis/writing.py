"""Edits of QGIS as lines of the console."""

from __future__ import annotations

import struct
from collections.abc import Container, Iterable, Iterator, Mapping, Sequence
from fractions import Fraction
from typing import Any, NamedTuple

from qgis.core import QgsFeature, QgsField, QgsGeometry
from qgis.PyQt.QtCore import NULL

from sfstore import spelling
from sfstore.exchange.grid import Grid, OffGrid, Outside, Rounding
from sfstore.geometry import NotTaken, read_wkb, write_wkt
from sfstore.results import Column

from .fields import IDENTIFIER
from .values import column_type_of, spelling_of, told

__all__ = ["NOT_GIVEN", "Edits", "Layer", "Line", "NotSent", "added_numbers", "checked_name", "corners_of", "is_emptied", "is_none", "lines_of", "wkt_of"]

NOT_GIVEN = "Autogenerate"
"""What QGIS shows in the field of an identifier that is not given yet."""


class NotSent(Exception):
    """An edit has no form that the store takes. The text says why."""


class Edits(NamedTuple):
    """What has become of a layer, by QGIS' numbers of its features."""

    dropped: Sequence[str] = ()
    """Names of columns."""
    columns: Sequence[QgsField] = ()
    geometries: Mapping[int, QgsGeometry] = {}
    values: Mapping[int, Mapping[int, Any]] = {}
    deleted: Iterable[int] = ()
    added: Sequence[QgsFeature] = ()


class Line(NamedTuple):
    """A line, and the feature that it is about, by QGIS' number."""

    text: str
    feature: int | None = None
    """The one that it changes; none where it changes none that is there."""
    added: int | None = None
    """The one that it adds."""
    column: str | None = None
    """The column that it drops, or in which it gives an added feature a value; none where its own commit adds that."""


class Layer(NamedTuple):
    """What has to be known of a layer to write its edits."""

    name: str
    kind: str
    grid: Grid
    numbers: Mapping[int, int]
    """The store's identifiers by QGIS' numbers."""
    known: Container[int]
    """The identifiers of the features that are there."""
    fields: Sequence[Column | None]
    """What QGIS' fields show, in their order, the identifier among them; none for what is joined or computed."""


def lines_of(layer: Layer, edits: Edits, rounding: Rounding) -> list[Line]:
    """The lines of edits, in an order that the store can carry out. `NotSent` where one has none."""
    name = layer.name
    lines = [Line(f"column drop {name} {spelling.name(column)}", column=column) for column in edits.dropped]
    lines += [Line(f"column add {name} {_column(field)}") for field in edits.columns]
    for feature, geometry in edits.geometries.items():
        text = f"replace {name} {layer.numbers[feature]} {wkt_of(geometry, layer, rounding)}"
        lines.append(Line(text, feature))
    for feature, values in edits.values.items():
        number = layer.numbers[feature]
        lines += [Line(text, feature) for _, text in _settings(layer, str(number), values, (number,))]
    lines += [Line(f"delete {name} {layer.numbers[feature]}", feature) for feature in edits.deleted]
    own = {field.name() for field in edits.columns}
    for added in edits.added:
        lines.append(Line(f"add {name} {wkt_of(added.geometry(), layer, rounding)}", None, added.id()))
        # A new feature has no values that had to be cleared.
        values = {at: value for at, value in enumerate(added.attributes()) if not is_none(value)}
        settings = _settings(layer, "last", values, layer.known)
        lines += [Line(text, column=None if column in own else column) for column, text in settings]
    return lines


def added_numbers(lines: Sequence[Line], answers: Sequence[str]) -> list[tuple[int, int]]:
    """QGIS' numbers of the added features with those of the store, by the answers of the lines."""
    return [(line.added, int(answer[3:])) for line, answer in zip(lines, answers) if line.added is not None]


def wkt_of(geometry: QgsGeometry, layer: Layer, rounding: Rounding) -> str:
    """The text of a geometry in steps of the grid: each coordinate is moved to the nearest one."""
    if geometry.isNull() or geometry.isEmpty():
        raise NotSent("Draw one: a feature without a geometry has no place in the store")
    try:
        shape = read_wkb(bytes(_fitted(geometry, layer.kind).asWkb()))
        steps = shape.mapped(lambda line: layer.grid.steps(line, rounding))
    except NotTaken as error:
        raise NotSent(f"Draw it with straight sides, in x and y alone: the store takes no other geometry, and this is {error}") from None
    except (Outside, OffGrid) as error:
        raise NotSent(f"Draw it nearer to the map: {error} is further from the origin of the grid than the store reaches") from None
    except struct.error as error:
        raise NotSent(f"Draw it anew: its geometry can't be read, {error}") from None
    if not all(layer.grid.tells_apart(line) for member in shape.members for line in member):
        raise NotSent("Edit it on the page: the step of the grid is finer than QGIS' numbers are there, and points would move")
    return write_wkt(steps)


def corners_of(layer: Layer, drawn: Iterable[QgsGeometry], before: Iterable[QgsGeometry]) -> list[list[Any]]:
    """The corners of geometries that others had not before, as a call of the server takes them: where they are, and what they are rounded to."""
    known = {point for geometry in before for _, point in _points_of(geometry, layer)}
    found = {point: place for geometry in drawn for place, point in _points_of(geometry, layer) if point not in known}
    return [[str(place[0]), str(place[1]), *point] for point, place in found.items()]


def _points_of(geometry: QgsGeometry, layer: Layer) -> Iterator[tuple[tuple[Fraction, Fraction], tuple[int, int]]]:
    """The points of a geometry in steps, exactly and as they are rounded. None of one that is not sent."""
    try:
        shape = read_wkb(bytes(_fitted(geometry, layer.kind).asWkb()))
        for member in shape.members:
            for line in member:
                places, steps = layer.grid.in_steps(line), layer.grid.steps(line, Rounding())
                yield from zip(zip(places[::2], places[1::2]), zip(steps[::2], steps[1::2]))
    except (NotTaken, Outside, OffGrid, ValueError, OverflowError, struct.error):
        return


def _fitted(geometry: QgsGeometry, kind: str) -> QgsGeometry:
    """A geometry as a multi form where the layer has these, and as a single one where it has one part."""
    fitted = QgsGeometry(geometry)
    if kind.startswith("multi"):
        fitted.convertToMultiType()
    elif fitted.isMultipart() and fitted.constGet().partCount() == 1:
        # Of several parts it would keep the first one: those are sent as they are, and refused.
        fitted.convertToSingleType()
    return fitted


def _column(field: QgsField) -> str:
    """A column as a line has it."""
    column_type = column_type_of(field)
    if column_type is None:
        raise NotSent(
            f"Take another type for {field.name()}: the store has no columns of this one. For numbers with a fraction there is Decimal, which is exact"
        )
    return f"{checked_name(field.name())} {column_type}"


def checked_name(name: str) -> str:
    """A name that a layer or a column can have. `NotSent` where it is none."""
    try:
        return spelling.name(name)
    except ValueError:
        raise NotSent(f"Take another name than {name!r}: it has 1 to 32 letters from A to Z, digits and underscores, a letter first") from None


def _settings(
    layer: Layer, feature: str, values: Mapping[int, Any], numbers: Container[int]
) -> list[tuple[str, str]]:
    """The lines that give a feature values, each with its column: one that is NULL is cleared.

    The identifier's field may have one of some numbers: what it has already, or that of what was copied.
    """
    lines = []
    for index, found in values.items():
        column = layer.fields[index] if index < len(layer.fields) else None
        if column is None:
            continue
        if column.name == IDENTIFIER:
            _check_number(found, numbers)
        elif is_emptied(found, column):
            lines.append((column.name, f"unset {layer.name} {feature} {column.name}"))
        else:
            lines.append((column.name, f"set {layer.name} {feature} {column.name} {_value(found, column)}"))
    return lines


def _check_number(found: Any, numbers: Container[int]) -> None:
    if found != NOT_GIVEN and found not in numbers:
        raise NotSent(f"Leave {IDENTIFIER} as it is: the store numbers features, and it can't be set to {found}")


def is_none(found: Any) -> bool:
    """Whether QGIS has no value there."""
    return found is None or bool(found == NULL)


def is_emptied(found: Any, column: Column) -> bool:
    """Whether there is no value for a column: of times and numbers an emptied field of one line has an empty text."""
    return is_none(found) or (found == "" and column.type not in ("text", "decimal"))


def _value(found: Any, column: Column) -> str:
    try:
        return spelling_of(found, column.type)
    except (TypeError, ValueError) as error:
        raise NotSent(f"Type another value: {column.name} can't be {told(found)}, {error}") from None
