"""The algorithms of QGIS' toolbox: what is near, what is nearest, and what a network reaches, exactly as the store answers."""

from __future__ import annotations

import re
from typing import Any

from qgis.core import (
    QgsField,
    QgsProcessingParameterDistance,
    QgsProcessingParameterEnum,
    QgsProcessingParameterNumber,
    QgsProcessingParameterString,
    QgsProcessingParameterVectorLayer,
    QgsProcessingProvider,
)
from qgis.PyQt.QtCore import QVariant
from qgis.PyQt.QtGui import QIcon

from sfstore.editor import Editor
from sfstore.language import IDENTIFIER_MAX, IDENTIFIERS_MAX, PREDICATES

from .asking import nearest_of, reach_of
from .finding import VECTOR, Finding, FindingNear, Found, icon
from .session import LayerRefused
from .writing import NotSent

__all__ = ["Near", "Nearest", "Reach", "Toolbox"]

_GIVEN = (
    "Tick <i>Selected features only</i> to ask from these. What is given is brought into the reference system of the store, "
    "and moved to its grid; the log says how far, and in which units distances are. Z and M play no part. What has no geometry, "
    "or lies where the store has no coordinates, is left out; the log names it. Degrees are refused where the layer has no reference system."
)
_KINDS = "Edits of the layer that are not saved have to be saved first."


class Near(FindingNear):
    """Features within a distance."""

    DISTANCE = "DISTANCE"
    NAME, TITLE = "near", "Features within a distance"
    HELP = (
        "Finds the features of a layer of a store that have a point no farther than a distance from one of what is given: "
        f"all points count, and nothing is rounded.\n\n{_GIVEN}\n\n{_KINDS}"
    )

    def add_asked(self) -> None:
        super().add_asked()
        self.addParameter(QgsProcessingParameterDistance(self.DISTANCE, "Distance, in map units of the layer", 1.0, self.LAYER, minValue=0.0))

    def found(self, store: Editor, parameters: Any, context: Any, feedback: Any) -> list[Found]:
        distance = reach_of(self.parameterAsDouble(parameters, self.DISTANCE, context), self.place.units)
        answers = self.answers(parameters, context, feedback, lambda wkt: store.near(self.place.name, distance, wkt))
        return [Found(number) for number in sorted({number for _, numbers in answers for number in numbers})]


class Nearest(FindingNear):
    """Nearest features."""

    NUMBER = "NUMBER"
    NAME, TITLE = "nearest", "Nearest features"
    HELP = (
        "Finds the features of a layer of a store that are nearest to each feature that is given, the nearest first. The layer that "
        "is made has the distance in map units in <i>_distance</i>, rounded down to a thousandth of a grid step, and in <i>_from</i> "
        "the number of the feature that was given. A feature of the same layer is found itself too, at the distance 0."
        f"\n\n{_GIVEN}\n\n{_KINDS}"
    )
    FIELDS = (QgsField("_distance", QVariant.Double), QgsField("_from", QVariant.LongLong))

    def add_asked(self) -> None:
        super().add_asked()
        number = QgsProcessingParameterNumber(self.NUMBER, "How many", QgsProcessingParameterNumber.Integer, 1, False, 1, IDENTIFIERS_MAX)
        self.addParameter(number)

    def found(self, store: Editor, parameters: Any, context: Any, feedback: Any) -> list[Found]:
        count, units = self.parameterAsInt(parameters, self.NUMBER, context), self.place.units
        shown = self.place.fids if self.place.is_part else None
        return [
            Found(near.feature_id, (float(units.length(near.steps)), given.feature))
            for given, nearest in self.answers(parameters, context, feedback, lambda wkt: nearest_of(store, self.place.name, count, wkt, shown))
            for near in nearest
        ]


class Reach(Finding):
    """What a network reaches."""

    ASK, IDS, UNTIL, UNTIL_ASK = "ASK", "IDS", "UNTIL", "UNTIL_ASK"
    NAME, TITLE, LAYER_TITLE = "reach", "What a network reaches", "Network, a layer of a store"
    HELP = (
        "Finds what chains lead to from the selected features of a layer of a store: each feature of a chain is as is asked with "
        "the next one, as a pipe that touches another pipe. With a further layer of the store chains end at features that are as "
        f"is asked with one of it, as pipes at a valve; these are found too.\n\n{_KINDS}"
    )

    def add_asked(self) -> None:
        numbers = "Numbers of the features where it begins; the selected ones where none stand here"
        self.addParameter(QgsProcessingParameterEnum(self.ASK, "Each with the next", PREDICATES, False, "touches", False, True))
        self.addParameter(QgsProcessingParameterString(self.IDS, numbers, optional=True))
        self.addParameter(QgsProcessingParameterVectorLayer(self.UNTIL, "Until the features of this layer", VECTOR, optional=True))
        self.addParameter(QgsProcessingParameterEnum(self.UNTIL_ASK, "Each with these", PREDICATES, False, "intersects", False, True))

    def prepare_asked(self, parameters: Any, context: Any) -> None:
        self._numbers = self._begin(parameters, context)
        self._until: tuple[str, str] | None = None
        if parameters.get(self.UNTIL):
            until = self.place_of(parameters, self.UNTIL, context)
            if until.path != self.place.path:
                raise LayerRefused("Choose a layer of the same store: no other one can be asked with it.")
            self._until = until.name, self.parameterAsEnumString(parameters, self.UNTIL_ASK, context)

    def found(self, store: Editor, parameters: Any, context: Any, feedback: Any) -> list[Found]:
        ask = self.parameterAsEnumString(parameters, self.ASK, context)
        return [Found(number) for number in store.reach(self.place.name, ask, *self._numbers, until=self._until)]

    def _begin(self, parameters: Any, context: Any) -> list[int]:
        """The identifiers of the features where chains begin."""
        words = list(filter(None, re.split("[ ,;]+", self.parameterAsString(parameters, self.IDS, context))))
        if not all(word.isdecimal() and int(word) <= IDENTIFIER_MAX for word in words):
            raise NotSent(f"Take whole numbers up to {IDENTIFIER_MAX:,}, with commas between them, for where it begins")
        selected = self.place.layer.selectedFeatureIds()
        numbers = list(map(int, words)) or [self.place.numbers[fid] for fid in selected if fid in self.place.numbers]
        if not 1 <= len(numbers) <= IDENTIFIERS_MAX:
            raise NotSent(f"Select from 1 to {IDENTIFIERS_MAX:,} features where it begins: {len(numbers):,} are selected")
        return numbers


class Toolbox(QgsProcessingProvider):
    """The algorithms in the toolbox."""

    def id(self) -> str:
        return "sfstore"

    def name(self) -> str:
        return "sfstore"

    def icon(self) -> QIcon:
        return icon()

    def loadAlgorithms(self) -> None:
        for algorithm in (Near, Nearest, Reach):
            self.addAlgorithm(algorithm())
