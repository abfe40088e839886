"""What algorithms of QGIS' toolbox have in common that ask a store: the layer, what is given, and what becomes of what is found.

QGIS prepares an algorithm in its own thread, and has another one carry it out: what has to be known of a layer is taken first.
"""

from __future__ import annotations

import os
from collections.abc import Callable, Iterator, Sequence
from contextlib import contextmanager
from typing import Any, NamedTuple, TypeVar

from qgis.core import (
    QgsCoordinateTransform,
    QgsCsException,
    QgsFeature,
    QgsFeatureRequest,
    QgsFeatureSink,
    QgsField,
    QgsFields,
    QgsGeometry,
    QgsProcessing,
    QgsProcessingAlgorithm,
    QgsProcessingContext,
    QgsProcessingException,
    QgsProcessingOutputNumber,
    QgsProcessingParameterBoolean,
    QgsProcessingParameterFeatureSink,
    QgsProcessingParameterFeatureSource,
    QgsProcessingParameterPoint,
    QgsProcessingParameterVectorLayer,
    QgsProperty,
    QgsUnitTypes,
)
from qgis.PyQt import sip
from qgis.PyQt.QtCore import NULL
from qgis.PyQt.QtGui import QIcon

from sfstore.editor import Editor
from sfstore.exchange.grid import Grid, Rounding
from sfstore.mapunits import MapUnits
from sfstore.web.client import CallFailed, ServerGone

from .asking import OutOfReach, asked, steps_of
from .bar import ICONS
from .fields import IDENTIFIER
from .provider import KEY, Provider
from .session import LayerRefused, Placing, Refusal, Session
from .words import words_of
from .writing import NotSent

__all__ = ["VECTOR", "Finding", "FindingNear", "Found", "Given", "Place", "icon"]

VECTOR = [QgsProcessing.TypeVectorAnyGeometry]
"""Layers with geometries."""

# How long the server may take for a question. It gives up by itself before.
_SECONDS = 60.0
# So many features that are left out are named; all are counted.
_NAMED_MAX = 20
# Whoever is in degrees goes no farther.
_DEGREES_MAX = 360, 90

_T = TypeVar("_T")


class Place(NamedTuple):
    """A layer of a store, as far as another thread has to know it."""

    layer: Any
    path: str
    name: str
    """Its name in the store."""
    placing: Placing
    crs: Any
    """Its reference system: the store's, or where that has none the one that its user has given it."""
    fields: QgsFields
    kind: Any
    """QGIS' kind of its geometries."""
    fids: dict[int, int]
    """QGIS' numbers of its features, by their identifiers."""
    numbers: dict[int, int]
    """The other way round."""
    source: Any
    """Its features, as they were then."""
    is_part: bool
    """Whether it shows one kind of several that the layer of the store has."""

    @property
    def grid(self) -> Grid:
        return self.placing.grid

    @property
    def units(self) -> MapUnits:
        """The coordinates of the map."""
        return self.placing.units

    @property
    def words(self) -> str:
        """In which units it is asked, and answers, in a sentence."""
        x, y, step = self.grid.words
        of = f"{QgsUnitTypes.toString(self.crs.mapUnits())} of {_named(self.crs)}" if self.crs.isValid() else "map units, of no reference system that is known"
        return f"Distances and coordinates of {os.path.basename(self.path)} are {of}: its grid has steps of {step}, from {x} {y} on."


class Found(NamedTuple):
    """A feature that was found, by its identifier, with values for the fields that the algorithm adds."""

    number: int
    values: Sequence[Any] = ()


class Given(NamedTuple):
    """A geometry in steps that a question is about."""

    feature: Any
    """The number of the feature that has it; NULL for a point."""
    name: str
    """Which one that is, in words; empty for a point."""
    wkt: str


def icon() -> QIcon:
    """The icon of the algorithms."""
    return QIcon(str(ICONS / "sfstore.svg"))


class Finding(QgsProcessingAlgorithm):
    """An algorithm that finds features of a layer of a store, selects them, and makes a layer of them."""

    LAYER, SELECT, OUTPUT, COUNT = "LAYER", "SELECT", "OUTPUT", "COUNT"
    NAME, TITLE, HELP, LAYER_TITLE = "", "", "", "Layer of a store"
    FIELDS: Sequence[QgsField] = ()
    """What it adds to the fields of the layer. No column has such a name: those begin with a letter."""

    place: Place
    """The layer."""

    def add_asked(self) -> None:
        """Adds the parameters that are this algorithm's own."""
        raise NotImplementedError

    def prepare_asked(self, parameters: Any, context: Any) -> None:
        """Takes what has to be known beside the layer, in QGIS' own thread."""

    def found(self, store: Editor, parameters: Any, context: Any, feedback: Any) -> list[Found]:
        """What a store answers, in any thread."""
        raise NotImplementedError

    def place_of(self, parameters: Any, name: str, context: Any) -> Place:
        """What has to be known of a layer. `LayerRefused` where it is no store's, or has edits that the store has not."""
        layer = self.parameterAsVectorLayer(parameters, name, context)
        if layer is None or layer.providerType() != KEY or not layer.isValid():
            raise LayerRefused("Choose a layer of a store: no other one can be asked.")
        if layer.isModified():
            raise LayerRefused(f"Save your edits of {layer.name()} first, or take them back: the store does not have them yet.")
        provider: Provider = layer.dataProvider()
        session, mirror = provider.session, provider.mirror
        asked_in = layer, session.path, provider.source.layer, session.placing, layer.crs()
        return Place(*asked_in, QgsFields(provider.fields()), provider.wkbType(), dict(mirror.fids), dict(mirror.numbers), provider.featureSource(), provider.shown is not None)

    # What QGIS calls.

    def name(self) -> str:
        return self.NAME

    def displayName(self) -> str:
        return self.TITLE

    def shortHelpString(self) -> str:
        return self.HELP

    def icon(self) -> QIcon:
        return icon()

    def createInstance(self) -> QgsProcessingAlgorithm:
        return type(self)()

    def initAlgorithm(self, configuration: Any = None) -> None:
        self.addParameter(QgsProcessingParameterVectorLayer(self.LAYER, self.LAYER_TITLE, VECTOR))
        self.add_asked()
        self.addParameter(QgsProcessingParameterBoolean(self.SELECT, "Select what is found", True))
        is_made = bool(self.FIELDS)
        self.addParameter(QgsProcessingParameterFeatureSink(self.OUTPUT, "Found features", optional=True, createByDefault=is_made))
        self.addOutput(QgsProcessingOutputNumber(self.COUNT, "How many were found"))

    def prepareAlgorithm(self, parameters: Any, context: Any, feedback: Any) -> bool:
        with _in_words():
            self.place = self.place_of(parameters, self.LAYER, context)
            self.prepare_asked(parameters, context)
        self._user = Session.user()
        self._is_selecting = self.parameterAsBool(parameters, self.SELECT, context)
        self._found: list[int] = []
        return True

    def processAlgorithm(self, parameters: Any, context: Any, feedback: Any) -> dict[str, Any]:
        place = self.place
        with _in_words(place.grid), asked(place.path, self._user, _SECONDS, place.placing) as store:
            found = self.found(store, parameters, context, feedback)
        if feedback.isCanceled():
            # What was found until then is not all.
            self._is_selecting = False
            return {}
        shown = [each for each in found if each.number in self.place.fids]
        if len(shown) < len(found):
            feedback.pushWarning(f"{len(found) - len(shown)} more are of a kind that this layer does not show, or have come just now.")
        self._found = [each.number for each in shown]
        return {self.COUNT: len(shown), **self._written(shown, parameters, context)}

    def postProcessAlgorithm(self, context: Any, feedback: Any) -> dict[str, Any]:
        layer = self.place.layer
        if self._is_selecting and not sip.isdeleted(layer):
            # QGIS may have numbered them anew since.
            fids = layer.dataProvider().mirror.fids
            layer.selectByIds([fids[number] for number in self._found if number in fids])
        return {}

    def _written(self, found: Sequence[Found], parameters: Any, context: Any) -> dict[str, Any]:
        """Makes a layer of what was found, where one is asked for."""
        if not parameters.get(self.OUTPUT):
            return {}
        place, fields = self.place, QgsFields(self.place.fields)
        for field in self.FIELDS:
            fields.append(field)
        sink, name = self.parameterAsSink(parameters, self.OUTPUT, context, fields, place.kind, place.crs)
        if sink is None:
            raise QgsProcessingException(self.invalidSinkError(parameters, self.OUTPUT))
        wanted = QgsFeatureRequest().setFilterFids([place.fids[number] for number, _ in found])
        there = {feature.id(): feature for feature in place.source.getFeatures(wanted)}
        for number, values in found:
            if not sink.addFeature(_with_values(there[place.fids[number]], values), QgsFeatureSink.FastInsert):
                raise QgsProcessingException(self.writeFeatureError(sink, parameters, self.OUTPUT))
        return {self.OUTPUT: name}


class FindingNear(Finding):
    """An algorithm that finds what is near the features of another layer, or a point."""

    FROM, POINT = "FROM", "POINT"

    def add_asked(self) -> None:
        self.addParameter(QgsProcessingParameterFeatureSource(self.FROM, "From the features of this layer", VECTOR, optional=True))
        self.addParameter(QgsProcessingParameterPoint(self.POINT, "From this point, where no layer is chosen", optional=True))

    def answers(self, parameters: Any, context: Any, feedback: Any, question: Callable[[str], _T]) -> Iterator[tuple[Given, _T]]:
        """What is given, with what a store answers about each. Which one can't be asked about is told by its number."""
        feedback.pushInfo(self.place.words)
        for given in self._given(parameters, context, feedback):
            with _in_words(self.place.grid, given.name):
                found = question(given.wkt)
            yield given, found

    def _given(self, parameters: Any, context: Any, feedback: Any) -> Iterator[Given]:
        """The geometries that are given, in steps of the grid. How far they were moved to it is told behind the last one."""
        rounding = Rounding()
        source = self.parameterAsSource(parameters, self.FROM, context)
        if source is not None:
            yield from self._of_source(source, context, feedback, rounding)
        elif parameters.get(self.POINT):
            yield Given(NULL, "", self._of_point(parameters, context, feedback, rounding))
        else:
            raise NotSent("Choose a layer, or a point on the map")
        if rounding.moved:
            feedback.pushInfo(f"{rounding.moved} coordinates were moved to the grid, by {rounding.most:.3g} at most.")

    def _of_point(self, parameters: Any, context: Any, feedback: Any, rounding: Rounding) -> str:
        """The point that is given. By itself QGIS takes one that it can't transform as it is."""
        value = parameters[self.POINT]
        if isinstance(value, QgsProperty):
            value = value.valueAsString(context.expressionContext())[0]
        given = {self.POINT: value}
        # Where it names no reference system it is in that of the layer, and not in that of a project.
        system = self.parameterAsPointCrs(given, self.POINT, QgsProcessingContext())
        point = self.parameterAsPoint(given, self.POINT, context)
        if not self.place.crs.isValid() and (abs(point.x()) > _DEGREES_MAX[0] or abs(point.y()) > _DEGREES_MAX[1]):
            # A map shows a layer without a reference system by its own coordinates: what is clicked on is no degrees.
            return steps_of(QgsGeometry.fromPointXY(point), self.place.grid, rounding)
        to_store = self._to_store("the point", system, context, feedback) if system.isValid() else QgsCoordinateTransform()
        try:
            return steps_of(QgsGeometry.fromPointXY(to_store.transform(point)), self.place.grid, rounding)
        except QgsCsException:
            raise NotSent(f"Choose another point: it lies where {_named(self.place.crs)} has no coordinates") from None

    def _of_source(self, source: Any, context: Any, feedback: Any, rounding: Rounding) -> Iterator[Given]:
        """The geometries of features, in the order in which their layer has them. Those that lie nowhere are left out, and counted."""
        name = source.sourceName()
        to_store = self._to_store(name, source.sourceCrs(), context, feedback)
        count, at, left_out = max(1, source.featureCount()), source.fields().indexOf(IDENTIFIER), 0
        for done, feature in enumerate(source.getFeatures(), 1):
            if feedback.isCanceled():
                return
            number = _number_of(feature, at)
            try:
                with _in_words(self.place.grid, f"{name} {number}", but=OutOfReach):
                    wkt = self._steps_of(feature.geometry(), to_store, rounding)
            except OutOfReach as why:
                left_out += 1
                if left_out <= _NAMED_MAX:
                    feedback.pushWarning(f"{name} {number} is left out. {words_of(why)}")
            else:
                yield Given(number, f"{name} {number}", wkt)
            feedback.setProgress(100 * done / count)
        if left_out:
            feedback.pushWarning(f"{left_out} features of {name} were left out, since nothing can be asked about them.")

    def _steps_of(self, geometry: QgsGeometry, to_store: QgsCoordinateTransform, rounding: Rounding) -> str:
        """A geometry in steps of the grid. `OutOfReach` where it lies nowhere."""
        try:
            geometry.transform(to_store)
        except QgsCsException:
            raise OutOfReach(f"Ask nearer to the map: it lies where {_named(self.place.crs)} has no coordinates") from None
        return steps_of(geometry, self.place.grid, rounding)

    def _to_store(self, name: str, system: Any, context: Any, feedback: Any) -> QgsCoordinateTransform:
        """How coordinates become those of the store. Of whom one reference system is not known QGIS takes coordinates as they are."""
        layer, crs = self.place.name, self.place.crs
        if system.isValid() and not crs.isValid():
            if system.isGeographic():
                why = f"{name} is in degrees, of {_named(system)}, and of {layer} it is not known where on the earth it lies"
                raise LayerRefused(f"Give {layer} its reference system first, by Set Layer CRS: {why}.")
            feedback.pushWarning(f"{layer} has no reference system: the coordinates of {name}, of {_named(system)}, are taken as they are.")
        if crs.isValid() and not system.isValid():
            feedback.pushWarning(f"{name} has no reference system: its coordinates are taken for those of {_named(crs)}.")
        return QgsCoordinateTransform(system, crs, context.transformContext())


@contextmanager
def _in_words(grid: Grid | None = None, front: str = "", but: tuple[type[Exception], ...] | type[Exception] = ()) -> Iterator[None]:
    """Has an algorithm end with why it can't be answered, in words; ``front`` is what it is about, and ``but`` goes through."""
    try:
        yield
    except but:
        raise
    except (CallFailed, LayerRefused, NotSent, Refusal, ServerGone) as error:
        raise QgsProcessingException(words_of(error, grid, front)) from error


def _named(crs: Any) -> str:
    """A reference system by its code, or by its name."""
    return str(crs.authid() or crs.description() or "a reference system without a name")


def _number_of(feature: QgsFeature, at: int) -> int:
    """The number of a feature: a store's own, else QGIS'."""
    number = feature.attributes()[at] if at >= 0 else None
    return number if isinstance(number, int) else int(feature.id())


def _with_values(there: QgsFeature, values: Sequence[Any]) -> QgsFeature:
    """A feature with further values behind its own."""
    feature = QgsFeature()
    feature.setGeometry(there.geometry())
    feature.setAttributes([*there.attributes(), *values])
    return feature
