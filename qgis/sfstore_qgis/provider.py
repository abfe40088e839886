"""The vector data provider `sfstore`: QgsVectorLayer("town.sfs|layername=parcels", "parcels", "sfstore").

Edits are Python and go to the store's server. Reading is not: each layer is mirrored in a memory layer
of QGIS, and the provider hands out that one's feature source. So threads which draw run no Python.
"""

from __future__ import annotations

import traceback
from collections.abc import Callable, Container, Iterable, Mapping, Sequence
from typing import Any, NamedTuple

from qgis.core import (
    QgsDataProvider,
    QgsFeature,
    QgsFeatureRequest,
    QgsField,
    QgsFields,
    QgsGeometry,
    QgsMessageLog,
    QgsProviderMetadata,
    QgsProviderRegistry,
    QgsVectorDataProvider,
)
from qgis.PyQt.QtCore import NULL

from sfstore.exchange.grid import Rounding
from sfstore.results import Column
from sfstore.web.client import CallFailed, ServerGone

from .fields import IDENTIFIER, columns_of
from .session import LayerRefused, Session
from .told import as_shown
from .values import FORMS, why_not_meant
from .words import words_of
from .writing import NOT_GIVEN, Edits, Line, NotSent, added_numbers, is_emptied, is_none, lines_of, wkt_of

__all__ = ["KEY", "Outcome", "Provider", "Source", "register", "source_of"]

KEY = "sfstore"


class Source(NamedTuple):
    """Where a layer comes from."""

    path: str
    layer: str
    kind: str
    """The kind of geometries; empty where the layer of the store has one."""

    def __str__(self) -> str:
        kind = f"|geometrytype={self.kind}" if self.kind else ""
        return f"{self.path}|layername={self.layer}{kind}"


class Outcome(NamedTuple):
    """What the store has said of all edits of a layer, before QGIS gives them piece by piece."""

    numbers: Sequence[tuple[int, int]] = ()
    """QGIS' numbers of the added features, each with that of the store."""
    fault: Exception | None = None
    """Why nothing was done."""


def source_of(uri: str) -> Source:
    """The source that an address names."""
    path, *parts = uri.split("|")
    named = dict(part.partition("=")[::2] for part in parts)
    return Source(path, named.get("layername", ""), named.get("geometrytype", "").lower())


class Provider(QgsVectorDataProvider):
    """A layer of a store, or one kind of geometries of it."""

    def __init__(self, uri: str, options: Any = None, flags: Any = None) -> None:
        super().__init__(
            uri, options or QgsDataProvider.ProviderOptions(), flags or QgsDataProvider.ReadFlags()
        )
        native = QgsVectorDataProvider.NativeType
        # The lengths that a text may be given stand behind its least one; numbers and days have none.
        self.setNativeTypes([native(form.label, name, form.type, 0, form.length) for name, form in FORMS.items()])
        self.outcome: Outcome | None = None
        self.source = source_of(uri)
        self.mirror: Any = None
        try:
            self.session = Session.of(self.source.path)
            self.mirror = self.session.mirror(self.source.layer, self.source.kind)
            self.mirror.changed.connect(self._changed)
        except (CallFailed, LayerRefused, OSError, ServerGone) as error:
            self.pushError(as_shown(words_of(error)))

    def _changed(self) -> None:
        self.updateExtents()
        self.clearMinMaxCache()
        self.dataChanged.emit()

    # Reading: all of it is C++, over the mirror.

    @property
    def shown(self) -> Container[int] | None:
        """The store's numbers of its features, where it shows one kind of several that the layer of the store has; else None."""
        found: Container[int] | None = self.mirror.fids if self.source.kind else None
        return found

    def isValid(self) -> bool:
        return self.mirror is not None

    def name(self) -> str:
        return KEY

    def description(self) -> str:
        return "A store of sfstore"

    def storageType(self) -> str:
        return KEY

    def fields(self) -> QgsFields:
        return self.mirror.fields.shown if self.mirror else QgsFields()

    def wkbType(self) -> Any:
        return self.mirror.wkb_type if self.mirror else super().wkbType()

    def featureCount(self) -> int:
        return len(self.mirror.fids) if self.mirror else 0

    def extent(self) -> Any:
        return self.mirror.memory.extent() if self.mirror else super().extent()

    def updateExtents(self) -> None:
        self.mirror.memory.updateExtents()

    def crs(self) -> Any:
        return self.session.crs if self.mirror else super().crs()

    def featureSource(self) -> Any:
        return self.mirror.memory.featureSource()

    def getFeatures(self, request: Any = None) -> Any:
        return self.mirror.memory.getFeatures(request or QgsFeatureRequest())

    def pkAttributeIndexes(self) -> list[int]:
        # The identifier's field is the first one, whatever columns there are.
        return [0]

    def defaultValueClause(self, index: int) -> str:
        return NOT_GIVEN if index == 0 else ""

    def hasSpatialIndex(self) -> Any:
        return QgsVectorDataProvider.SpatialIndexPresent

    def doesStrictFeatureTypeCheck(self) -> bool:
        return True

    def capabilities(self) -> Any:
        if self.mirror is None:
            return QgsVectorDataProvider.NoCapabilities
        can = QgsVectorDataProvider
        features = can.AddFeatures | can.DeleteFeatures | can.ChangeFeatures | can.SelectAtId
        values = can.ChangeGeometries | can.ChangeAttributeValues
        return features | values | can.AddAttributes | can.DeleteAttributes

    # Editing: what the store has not done yet is asked of it, and then the mirror follows.

    def addFeatures(self, features: Sequence[QgsFeature], flags: Any = None) -> tuple[bool, Sequence[QgsFeature]]:
        def follow(numbers: Sequence[tuple[int, int]]) -> None:
            # QGIS may give them in another order than they were sent in; those around its buffer have one number.
            by_fid = dict(numbers)
            is_whole = len(by_fid) == len(features) and all(feature.id() in by_fid for feature in features)
            for feature, (_, given) in zip(features, numbers):
                number = by_fid[feature.id()] if is_whole else given
                values = self._named(dict(enumerate(feature.attributes())))
                stored = self.mirror.add(number, values, self.wkt(feature.geometry()))
                feature.setId(stored.id())
                feature.setAttributes(stored.attributes())
                feature.setGeometry(stored.geometry())

        return self._done(Edits(added=features), follow), features

    def deleteFeatures(self, fids: Iterable[int]) -> bool:
        wanted = list(fids)
        return self._done(Edits(deleted=wanted), lambda _: self.mirror.drop(wanted))

    def changeGeometryValues(self, geometries: Mapping[int, QgsGeometry]) -> bool:
        return self.changeFeatures({}, geometries)

    def changeAttributeValues(self, values: Mapping[int, Mapping[int, Any]]) -> bool:
        return self.changeFeatures(values, {})

    def changeFeatures(
        self, values: Mapping[int, Mapping[int, Any]], geometries: Mapping[int, QgsGeometry]
    ) -> bool:
        def follow(_: object) -> None:
            for fid, geometry in geometries.items():
                self.mirror.change(fid, self.wkt(geometry))
            self.mirror.change_values({fid: self._named(each) for fid, each in values.items()})

        return self._done(Edits(values=values, geometries=geometries), follow)

    def addAttributes(self, fields: Sequence[QgsField]) -> bool:
        return self._done(Edits(columns=fields), lambda _: self.mirror.add_columns(fields))

    def deleteAttributes(self, indexes: Iterable[int]) -> bool:
        fields = self.fields()
        names = [fields[at].name() for at in sorted(set(indexes)) if 0 <= at < len(fields)]
        if IDENTIFIER in names:
            self.pushError(f"Leave {IDENTIFIER} there: it has the numbers that the store gives to features.")
            return False
        return self._done(Edits(dropped=names), lambda _: self.mirror.drop_columns(names))

    def _named(self, values: Mapping[int, Any]) -> dict[str, Any]:
        """Values by the names of their fields, of places in the provider."""
        columns = columns_of(self.fields())
        return {
            column.name: NULL if is_emptied(value, column) else value
            for at, value in values.items()
            if at < len(columns) and (column := columns[at]) is not None
        }

    def wkt(self, geometry: QgsGeometry) -> str:
        """The text of a geometry in steps of the grid."""
        return wkt_of(geometry, self.mirror.written([]), Rounding())

    def lines(self, edits: Edits, fields: QgsFields, rounding: Rounding) -> list[Line]:
        """The lines of edits of a layer with these fields. `NotSent` where an edit has none."""
        self.mirror.fields.check()
        columns = columns_of(fields)
        self._check_meant(edits, columns)
        return lines_of(self.mirror.written(columns), edits, rounding)

    def _check_meant(self, edits: Edits, columns: Sequence[Column | None]) -> None:
        """`NotSent` where QGIS' own fields would change a text that nobody has typed in: forms and tables give back what these keep."""
        texts = {at: column.name for at, column in enumerate(columns) if column is not None and column.type == "text"}
        for fid, values in edits.values.items():
            for at, found in values.items():
                stored = self._stored(fid, texts[at]) if at in texts else None
                why = why_not_meant(None if is_none(found) else found, stored) if isinstance(stored, str) else ""
                if why:
                    name = f"{texts[at]} of {self.source.layer} {self.mirror.numbers[fid]}"
                    raise NotSent(f"Change this feature at the console or on the page: {name} {why}, so its forms and tables change it")

    def _stored(self, fid: int, name: str) -> Any:
        """The value that a feature has in the store, by QGIS' number of it; none in a column that is not sent yet."""
        feature = self.mirror.memory_feature(self.mirror.numbers[fid])
        return feature.attribute(name) if feature.isValid() and feature.fieldNameIndex(name) >= 0 else None

    def check_fields_may_change(self, layer: str = "") -> None:
        """`NotSent` where other layers over this one's features have edits that were not sent: they count its fields.

        ``layer`` is the one whose fields change, by its key.
        """
        if self.mirror.has_steps(but=layer):
            raise NotSent(
                f"Save the other layer of {self.source.layer} first, or give its edits up: "
                "the fields of one that is edited in another layer of the project too can't change"
            )

    def _done(self, edits: Edits, follow: Callable[[Sequence[tuple[int, int]]], object]) -> bool:
        """Has the store carry edits out, where it has not yet, and then the mirror. No error leaves it: that ends QGIS."""
        try:
            numbers = self._numbers(edits)
        except Exception as error:
            # QGIS shows it in its message bar too.
            self.pushError(as_shown(words_of(error, self.session.grid)))
            return False
        try:
            follow(numbers)
        except Exception:
            # The store has it: it is shown as it is there.
            QgsMessageLog.logMessage(traceback.format_exc(), KEY)
            self.session.reload_soon(self.mirror)
        self.clearMinMaxCache()
        return True

    def _numbers(self, edits: Edits) -> Sequence[tuple[int, int]]:
        """The numbers of added features, once the store has carried edits out."""
        if self.outcome is not None:
            if self.outcome.fault is not None:
                raise self.outcome.fault
            return self.outcome.numbers
        if edits.dropped or edits.columns:
            self.check_fields_may_change()
        lines = self.lines(edits, self.fields(), Rounding())
        if not lines:
            return []
        version = self.session.version
        answers = self.session.batch([line.text for line in lines], [version] * len(lines))
        return added_numbers(lines, answers)


class Metadata(QgsProviderMetadata):
    """By which QGIS makes the provider."""

    def __init__(self) -> None:
        super().__init__(KEY, "Stores of sfstore")

    def createProvider(self, uri: str, options: Any, flags: Any = None) -> Provider:
        return Provider(uri, options, flags)

    def decodeUri(self, uri: str) -> dict[str, str]:
        source = source_of(uri)
        kind = {"geometryType": source.kind} if source.kind else {}
        return {"path": source.path, "layerName": source.layer, **kind}

    def encodeUri(self, parts: Mapping[str, str]) -> str:
        return str(Source(parts["path"], parts["layerName"], parts.get("geometryType", "")))


_metadata: list[Metadata] = []


def register() -> None:
    """Has QGIS know the provider. It stays: there is no safe way to take it away while layers live."""
    if not _metadata:
        _metadata.append(Metadata())
        QgsProviderRegistry.instance().registerProvider(_metadata[0])
