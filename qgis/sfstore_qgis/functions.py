"""The functions of QGIS' expressions that a store answers: exact areas, lengths and distances, and what is near.

Labels, symbols and algorithms ask them in threads of their own, so nothing here asks a layer of QGIS: all is known by
the plugin's editings, the mirrors and the store.

QGIS says of which layer an expression is, and in an aggregate that is not the one of the feature. So a feature is taken
for one of the store by what it brings along itself, and where that may be a copy's, by its geometry. There QGIS leaves out
what has an error, too. So an aggregate that can't be answered is ended before it begins where that is known. Else a sum
has no number; and the person is told.
"""

from __future__ import annotations

import math
import time
from collections.abc import Callable, Mapping, Sequence
from functools import partial
from typing import Any, NamedTuple

from qgis.core import (
    QgsCoordinateReferenceSystem,
    QgsExpression,
    QgsExpressionFunction,
    QgsExpressionNodeLiteral,
    QgsFeature,
    QgsGeometry,
    QgsMapLayer,
)
from qgis.PyQt.QtCore import QObject, pyqtSignal

from sfstore.exchange.grid import Grid, Rounding
from sfstore.language import IDENTIFIER_MAX, IDENTIFIERS_MAX
from sfstore.web.client import CallFailed, ServerGone

from .asking import nearest_of, reach_of, steps_of
from .editing import Editing
from .fields import IDENTIFIER, mark_of
from .measures import Measure, Measures
from .mirror import Mirror
from .reading import geometry_of
from .session import LayerRefused, Refusal, Session
from .words import words_of
from .writing import NotSent, is_none

__all__ = ["PAGES", "Functions"]

_GROUP = "sfstore"
_FAULTS = (CallFailed, LayerRefused, NotSent, Refusal, ServerGone)
_Values = Sequence[Any]
_Parameter = QgsExpressionFunction.Parameter


class _Page(NamedTuple):
    """What QGIS' expression builder says of a function."""

    said: str
    arguments: Mapping[str, str]
    example: str

    def html(self, name: str) -> str:
        """The page, as QGIS shows it."""
        listed = "".join(f"<tr><td><i>{argument}</i></td><td>{said}</td></tr>" for argument, said in self.arguments.items())
        return f"<h3>function {name}</h3><p>{self.said}</p><h4>Arguments</h4><table>{listed}</table><h4>Example</h4><p><code>{self.example}</code></p>"


_LAYER = "the name of a layer of a store in the project, or its id"
_GEOMETRY = "a geometry in the reference system of the store, on its grid; Z and M play no part"
_OWN = {"layer, id": f"{_LAYER}, and the number of a feature, as <code>_id</code> has it; without them it is the current feature"}
_UNSENT = "A feature whose geometry was changed here and not saved gives an error: the store does not have it yet."
# The variable that QGIS sets where an expression is evaluated for features of another layer than its own.
_WITHIN = "parent"
# So long nothing more is told of what QGIS leaves out: each of many features may have an error.
_TOLD_SECONDS = 10.0

PAGES = {
    "sfstore_area": _Page(f"The area of a feature in squared map units, exact, as the store answers it. {_UNSENT}", _OWN, "sfstore_area() > 500"),
    "sfstore_length": _Page(
        f"The length of a feature in map units, of an area that of all its rings. It is rounded down to a thousandth of a grid step. {_UNSENT}",
        _OWN,
        "sfstore_length('streets', 7)",
    ),
    "sfstore_distance": _Page(
        f"How far a feature is from a geometry in map units, over all points of both. It is rounded down to a thousandth of a grid step. {_UNSENT}",
        {"layer": _LAYER, "id": "the number of a feature, as <code>_id</code> has it", "geometry": _GEOMETRY},
        "sfstore_distance('wells', 1, $geometry)",
    ),
    "sfstore_near": _Page(
        "The numbers of the features that are no farther from a geometry than a distance in map units, rising, as an array. "
        "Geometries of the layer that were not saved give an error.",
        {"layer": _LAYER, "distance": "how far, in map units", "geometry": _GEOMETRY},
        "array_length(sfstore_near('wells', 2.5, $geometry))",
    ),
    "sfstore_nearest": _Page(
        "The numbers of the features that are nearest to a geometry, the nearest first, as an array. "
        "Geometries of the layer that were not saved give an error.",
        {"layer": _LAYER, "count": f"how many, up to {IDENTIFIERS_MAX:,}", "geometry": _GEOMETRY},
        "sfstore_nearest('wells', 1, $geometry)[0]",
    ),
    "sfstore_on_grid": _Page(
        "A geometry with each of its coordinates moved to the nearest one of the grid of a store, without Z and M: so the other functions take it.",
        {"layer": _LAYER, "geometry": "a geometry in the reference system of the store"},
        "sfstore_distance('wells', 1, sfstore_on_grid('wells', centroid($geometry)))",
    ),
}
"""The functions by their names."""


class _Of(NamedTuple):
    """A feature of a store."""

    editing: Editing
    number: int
    """Its identifier."""

    @property
    def mirror(self) -> Mirror:
        found: Mirror = self.editing.provider.mirror
        return found


class _Asked(NamedTuple):
    """Where a function stands."""

    context: Any
    """What QGIS evaluates its expression for."""
    node: Any
    """Its place in the expression."""

    @property
    def is_within(self) -> bool:
        """Whether the feature may be of another layer than the expression."""
        return self.context is not None and bool(self.context.hasVariable(_WITHIN))

    @property
    def layer(self) -> str:
        """The key of the layer whose expression it is; empty where it is of none."""
        return str(self.context.variable("layer_id") or "") if self.context is not None else ""

    @property
    def mark(self) -> str:
        """What the current feature says of where it is from."""
        return mark_of(self.context.feature().fields()) if self.context is not None else ""


class _Function(QgsExpressionFunction):
    """A function of expressions. What can't be answered is an evaluation error in words, and never another answer."""

    def __init__(self, name: str, parameters: Sequence[Any], answer: Callable[[_Values, _Asked], Any], functions: Functions) -> None:
        super().__init__(name, list(parameters), _GROUP, PAGES[name].html(name), isContextual=True)
        self._answer, self._functions = answer, functions
        # Without a geometry among its arguments it is about the current feature, where none is named.
        self._is_own = all(each.name() != "geometry" for each in parameters)

    def prepare(self, node: Any, parent: Any, context: Any) -> bool:
        asked = _Asked(context, node)
        try:
            if asked.is_within:
                self._functions.check(asked, self._is_own)
        except _FAULTS as error:
            parent.setEvalErrorString(words_of(error))
            return False
        return True

    def func(self, values: _Values, context: Any, parent: Any, node: Any) -> Any:
        asked = _Asked(context, node)
        try:
            return self._answer(values, asked)
        except _FAULTS as error:
            words = words_of(error)
            self._functions.tell(asked, words)
            if asked.is_within:
                # Behind an error QGIS would go on with the others: a sum with this is no number.
                return math.nan
            parent.setEvalErrorString(words)
            return None

    def usesGeometry(self, node: Any) -> bool:
        # Whether the current feature is the store's can be seen by that.
        return self._is_own

    def referencedColumns(self, node: Any) -> set[str]:
        return {IDENTIFIER} if self._is_own else set()


class Functions(QObject):
    """The functions over the layers that the plugin follows."""

    unheard = pyqtSignal(str)
    """An error that QGIS tells nobody, in words: in an aggregate or a filter it leaves the feature out, and gives a number nevertheless."""

    def __init__(self, editings: Mapping[str, Editing]) -> None:
        super().__init__()
        self._editings = editings
        self._measures: dict[str, Measures] = {}
        self._told_until = 0.0
        layer, number, geometry = _Parameter("layer"), _Parameter("id"), _Parameter("geometry")
        # Where they are left out: no layer has an empty name, and no feature a number below 0.
        own = [_Parameter("layer", True, ""), _Parameter("id", True, -1)]
        self._functions = [
            _Function("sfstore_area", own, partial(self._measure, "area"), self),
            _Function("sfstore_length", own, partial(self._measure, "length"), self),
            _Function("sfstore_distance", [layer, number, geometry], self._distance, self),
            _Function("sfstore_near", [layer, _Parameter("distance"), geometry], self._near, self),
            _Function("sfstore_nearest", [layer, _Parameter("count"), geometry], self._nearest, self),
            _Function("sfstore_on_grid", [layer, geometry], self._on_grid, self),
        ]

    def register(self) -> None:
        """Has QGIS know the functions."""
        for each in self._functions:
            QgsExpression.registerFunction(each)

    def unregister(self) -> None:
        """Has QGIS know them no more, and leaves all stores."""
        for each in self._functions:
            QgsExpression.unregisterFunction(each.name())
        for path in list(self._measures):
            self.leave(path)

    def leave(self, path: str) -> None:
        """Leaves a store that is open no more."""
        measures = self._measures.pop(path, None)
        if measures is not None:
            measures.close()

    def check(self, asked: _Asked, is_own: bool) -> None:
        """Says of an aggregate, before it begins, what is known not to be answered for some feature of it."""
        first = next(iter(asked.node.args().list()), None)
        name = first.value() if isinstance(first, QgsExpressionNodeLiteral) else None
        if is_own and name == "":
            those = self._over(mark_of(asked.context.fields()))
            if not those:
                raise _unknown()
        else:
            # What another expression names is known with the feature.
            those = [] if is_none(name) else [self._layer(name)]
        for each in those:
            _all_sent(each)
            if not each.session.is_connected:
                raise ServerGone(f"Wait a moment: the server of {each.name} does not answer")

    def tell(self, asked: _Asked, words: str) -> None:
        """Tells of an error where QGIS itself tells nobody: it does where an expression of a layer is about a feature of it."""
        shown, mark = self._editings.get(asked.layer), asked.mark
        is_of_layer = asked.layer and mark == (shown.provider.mirror.mark if shown is not None else "")
        now = time.monotonic()
        if now > self._told_until and (asked.is_within or not is_of_layer):
            self._told_until = now + _TOLD_SECONDS
            self.unheard.emit(words)

    # What the functions answer.

    def _measure(self, measure: Measure, values: _Values, asked: _Asked) -> float:
        name, number = values
        of = self._current(asked) if name == "" and number == -1 else self._named(name, number)
        return float(self._of(of.editing.session).of(measure, of.mirror, of.number))

    def _distance(self, values: _Values, asked: _Asked) -> float:
        name, number, geometry = values
        of = self._named(name, number)
        placing, measures = of.editing.session.placing, self._of(of.editing.session)
        wkt = self._steps(geometry, of.editing, placing.grid, asked)
        found = measures.ask(lambda store: store.distance(of.mirror.name, of.number, wkt), placing)
        return float(placing.units.length(found.steps))

    def _near(self, values: _Values, asked: _Asked) -> list[int]:
        name, distance, geometry = values
        editing = _all_sent(self._layer(name))
        placing, measures = editing.session.placing, self._of(editing.session)
        wkt = self._steps(geometry, editing, placing.grid, asked)
        reach = reach_of(_number(distance, "distance"), placing.units)
        found, shown = measures.ask(lambda store: store.near(editing.provider.source.layer, reach, wkt), placing), editing.provider.shown
        return found if shown is None else [number for number in found if number in shown]

    def _nearest(self, values: _Values, asked: _Asked) -> list[int]:
        name, count, geometry = values
        editing = _all_sent(self._layer(name))
        placing, measures = editing.session.placing, self._of(editing.session)
        wkt = self._steps(geometry, editing, placing.grid, asked)
        wanted = _whole(count, "count", 1, IDENTIFIERS_MAX)
        provider = editing.provider
        found = measures.ask(lambda store: nearest_of(store, provider.source.layer, wanted, wkt, provider.shown), placing)
        return [each.feature_id for each in found]

    def _on_grid(self, values: _Values, asked: _Asked) -> QgsGeometry:
        name, geometry = values
        editing = self._layer(name)
        grid = editing.session.grid
        return geometry_of(self._steps(geometry, editing, grid, asked, Rounding()), grid)

    def _steps(self, found: Any, editing: Editing, grid: Grid, asked: _Asked, rounding: Rounding | None = None) -> str:
        """A geometry as the store is asked about it. `NotSent` where it is none, or lies off the grid, unless it is moved there."""
        geometry = _geometry(found)
        self._check_system(editing, asked)
        return steps_of(geometry, grid, rounding or Rounding(is_asked=False))

    # What they are asked about.

    def _of(self, session: Session) -> Measures:
        return self._measures.get(session.path) or self._measures.setdefault(session.path, Measures(session))

    def _over(self, mark: str) -> list[Editing]:
        """The layers whose features say that of where they are from."""
        return [each for each in list(self._editings.values()) if each.provider.mirror.mark == mark] if mark else []

    def _current(self, asked: _Asked) -> _Of:
        """The feature that QGIS asks about, of whichever layer. `LayerRefused` where it is not known to be of a store's."""
        feature = asked.context.feature() if asked.context is not None else QgsFeature()
        shown = self._editings.get(asked.layer)
        if shown is not None and not feature.isValid():
            raise LayerRefused("Ask of a feature: there is none here.")
        mark = mark_of(feature.fields())
        if shown is not None and mark == shown.provider.mirror.mark and not asked.is_within:
            return _sent(_Of(shown, _number_of(feature, shown)))
        those = self._over(mark)
        if not those:
            raise _unknown()
        of = _Of(those[0], _number_of(feature, those[0]))
        for each in those:
            _sent(of._replace(editing=each))
        # It may be of a copy, which says of itself what its original does.
        if not self._of(of.editing.session).has_shape(of.mirror, of.number, feature.geometry()):
            raise _unknown()
        return of

    def _check_system(self, editing: Editing, asked: _Asked) -> None:
        """`NotSent` where the geometry of the current feature is asked about in another reference system than that of the layer."""
        if asked.node is None:
            # A question of SQL has no current feature.
            return
        argument = asked.node.args().list()[-1]
        functions = argument.referencedFunctions()
        if "transform" in functions or not ("$geometry" in functions or "geometry" in argument.referencedVariables()):
            return
        theirs, ours = self._system_of(asked), editing.crs
        if theirs.isValid() and ours.isValid() and theirs != ours:
            names = theirs.authid() or theirs.description(), ours.authid() or ours.description()
            how = "transform($geometry, '{}', '{}')".format(*names)
            raise NotSent(f"Ask in the reference system of {editing.name}, as sfstore_on_grid('{editing.name}', {how}) has it: this geometry is in {names[0]}")
        if theirs.isValid() and not ours.isValid() and theirs.isGeographic():
            raise NotSent(f"Give {editing.name} its reference system first: it has none, and this geometry is in degrees, of {theirs.authid()}")

    def _system_of(self, asked: _Asked) -> Any:
        """The reference system of the current feature; an invalid one where that is not known."""
        those = self._over(asked.mark)
        if those:
            return those[0].crs
        return QgsCoordinateReferenceSystem("" if asked.is_within else str(asked.context.variable("layer_crs") or ""))

    def _named(self, name: Any, number: Any) -> _Of:
        """A feature that is named by its layer and its identifier."""
        return _sent(_Of(self._layer(name), _whole(number, "id", 0, IDENTIFIER_MAX)))

    def _layer(self, name: Any) -> Editing:
        """A layer by its key or its name in the project, or as such."""
        key = name.id() if isinstance(name, QgsMapLayer) else str(name)
        if key in self._editings:
            return self._editings[key]
        found = [each for each in list(self._editings.values()) if each.name == key]
        if len(found) != 1:
            are = "several layers of stores have this name" if found else "the project has no layer of a store with this name"
            raise LayerRefused(f"Take another name than {key!r}: {are}.")
        return found[0]


def _unknown() -> LayerRefused:
    return LayerRefused("Ask of a layer of a store, or name it, as sfstore_area('parcels', \"_id\") does: of which layer this feature is, is not known here.")


def _number_of(feature: QgsFeature, editing: Editing) -> int:
    """The store's number of a feature that QGIS has of a layer. `NotSent` where it has none yet."""
    number: int | None = editing.provider.mirror.numbers.get(feature.id())
    if number is None:
        raise NotSent(f"Save it first: the store of {editing.name} does not have this feature yet")
    told = feature.attribute(IDENTIFIER)
    if not is_none(told) and told != number:
        # QGIS numbers the features of a copy anew.
        raise _unknown()
    return number


def _sent(of: _Of) -> _Of:
    """A feature that is as the store has it. `NotSent` for one that was changed here since."""
    if of.mirror.fids.get(of.number) in of.editing.reshaped:
        raise NotSent(f"Save your edits first: {of.editing.name} {of.number} has another geometry here than in the store, or was deleted")
    return of


def _all_sent(editing: Editing) -> Editing:
    """A layer whose geometries are those of the store. `NotSent` where some were drawn here since."""
    if editing.reshaped:
        raise NotSent(f"Save your edits first: {editing.name} has other geometries here than in the store")
    return editing


def _geometry(found: Any) -> QgsGeometry:
    if not isinstance(found, QgsGeometry) or found.isNull():
        raise NotSent("Take a geometry, such as $geometry")
    return found


def _number(found: Any, name: str) -> float:
    try:
        return float(found)
    except (TypeError, ValueError):
        raise NotSent(f"Take a number for {name}: {found!r} is none") from None


def _whole(found: Any, name: str, least: int, most: int) -> int:
    number = _number(found, name)
    if not (number.is_integer() and least <= number <= most):
        raise NotSent(f"Take a whole number from {least} to {most:,} for {name}: {found!r} is none")
    return int(number)
