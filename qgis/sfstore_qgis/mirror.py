"""A layer of a store as a memory layer of QGIS, which is read and drawn without any Python."""

from __future__ import annotations

import contextlib
import gc
import hashlib
import os
from collections.abc import Callable, Iterable, Iterator, Mapping, Sequence
from typing import TYPE_CHECKING, Any

from qgis.core import QgsFeature, QgsFeatureRequest, QgsField, QgsGeometry, QgsVectorLayer, QgsWkbTypes
from qgis.PyQt.QtCore import QObject, pyqtSignal

from sfstore.results import Column

from .fields import Fields, FieldsDiffer, as_columns
from .reading import Row, geometry_of, rows_of
from .writing import Layer

if TYPE_CHECKING:
    from .session import Session

__all__ = ["WKB_NAMES", "Mirror"]

WKB_NAMES = {
    "point": "Point",
    "linestring": "LineString",
    "polygon": "Polygon",
    "multipoint": "MultiPoint",
    "multilinestring": "MultiLineString",
    "multipolygon": "MultiPolygon",
}
"""QGIS' names of the kinds of geometries."""

_MARK_DIGITS = 12

# From so many features on the index, which takes its time, is made when there is some.
INDEX_AT_ONCE_MAX = 20_000


class Mirror(QObject):
    """The features of one kind of a layer. QGIS' numbers of them stay as long as it lives."""

    changing = pyqtSignal()
    """Comes before `changed`, upon which QGIS selects nothing any more in each layer."""
    changed = pyqtSignal()
    columns_changed = pyqtSignal()
    given_up = pyqtSignal(str)
    """All was read anew, under other numbers of QGIS: why, in words. What layers over it have not sent is lost."""

    def __init__(self, session: Session, name: str, kind: str, columns: Sequence[Column]) -> None:
        """A mirror that has all; ``kind`` is that of the geometries which it shows."""
        super().__init__()
        self.session, self.name, self.kind = session, name, kind
        # Whoever exports the layer may give that away: no folder stands in it.
        folder = hashlib.sha256(os.fsencode(session.path)).hexdigest()[:_MARK_DIGITS]
        self.mark = f"numbered by {os.path.basename(session.path)}, {folder}: {name}, {kind}"
        """What its features say of where they are from. Those of another mirror, of this store or another one, say something else."""
        # Layers that are being edited, and whether they have steps that were not sent. Their buffers count fields by
        # places, so that none may go; and behind a step that counts a new one none may come.
        self.held: dict[str, Callable[[], bool]] = {}
        self.is_behind = False
        """Whether the store has other columns, which wait until nothing is edited."""
        self._is_beginning_anew = False
        self.placed = ""
        """The mark of the grid on which all lies that it has."""
        self._begin(columns)

    def _begin(self, columns: Sequence[Column]) -> None:
        """Begins with an empty memory layer, and takes over all features."""
        self.fids: dict[int, int] = {}
        self.numbers: dict[int, int] = {}
        self.layer = QgsVectorLayer(f"{WKB_NAMES[self.kind]}?crs={self.session.crs.authid()}", self.name, "memory")
        self.memory = self.layer.dataProvider()
        self.fields = Fields(self.memory, columns, self.session.choices(self.name), self.mark)
        placed = self.session.placing.mark
        self.load()
        self.placed = placed
        if len(self.fids) <= INDEX_AT_ONCE_MAX:
            self.memory.createSpatialIndex()

    @property
    def columns(self) -> list[Column]:
        """The columns that are shown."""
        return self.fields.columns

    @property
    def wkb_type(self) -> Any:
        return getattr(QgsWkbTypes, WKB_NAMES[self.kind])

    def written(self, columns: Sequence[Column | None]) -> Layer:
        """What has to be known to write its edits, of a layer whose fields show these columns."""
        return Layer(self.name, self.kind, self.session.grid, self.numbers, self.fids, columns)

    def load(self) -> None:
        """Takes over all features as they are now."""
        numbers = self.session.identifiers(self.name)
        self._drop(self.fids.keys() - set(numbers))
        with _uncollected():
            self._take(numbers)

    def follow(self, numbers: Iterable[int]) -> None:
        """Takes over what has become of some features."""
        with self._agreeing():
            for kind in self._take(sorted(set(numbers))):
                self.session.note_kind(self.name, kind)
        self._tell_changed()

    def load_anew(self) -> None:
        """Takes over columns and features as they are now, and what rules say of values."""
        with self._agreeing():
            self._follow_columns()
            self.load()
        self.follow_rules()
        self._tell_changed()

    def follow_rules(self) -> None:
        """Has forms offer what rules say now of values."""
        with self._agreeing():
            if self.fields.choose(self.session.choices(self.name)):
                self.columns_changed.emit()

    def follow_columns(self) -> None:
        """Takes over the columns, as far as layers that are edited let it."""
        with self._agreeing():
            self._follow_columns()

    def settle_columns(self) -> None:
        """Shows the columns as they are, behind a commit, and takes over those that had to wait for it."""
        with self._agreeing():
            self.fields.settle()
            if self.is_behind and self.session.is_connected:
                self._follow_columns()

    def _follow_columns(self) -> None:
        columns = self.session.columns(self.name)
        gone, new = self._due(columns)
        if gone:
            self.fields.drop(gone)
        if new:
            self.fields.add(new)
        self.is_behind = sorted(self.columns) != sorted(columns)
        if gone or new:
            # A column that came has values which no event names.
            self.load()
            self.columns_changed.emit()

    def _due(self, columns: Sequence[Column]) -> tuple[list[str], list[Column]]:
        """The columns that go now, and those that come. While a layer is edited none takes another one's place."""
        gone = [column.name for column in self.columns if column not in columns]
        new = [column for column in columns if column not in self.columns]
        if not self.held:
            return gone, new
        if self.has_steps():
            return [], []
        shown = {column.name for column in self.columns}
        return [], [column for column in new if column.name not in shown]

    def has_steps(self, but: str = "") -> bool:
        """Whether a layer over it has steps that were not sent; ``but`` is one that does not count."""
        return any(has_steps() for key, has_steps in self.held.items() if key != but)

    def add_columns(self, fields: Sequence[QgsField]) -> None:
        """Adds the columns that the store has taken for fields of QGIS."""
        self.fields.add(as_columns(fields), fields)

    def drop_columns(self, names: Sequence[str]) -> None:
        self.fields.drop(names)

    @contextlib.contextmanager
    def _agreeing(self) -> Iterator[None]:
        """Reads all anew where in the body the fields are found to be others than those of the columns."""
        try:
            yield
        except FieldsDiffer as error:
            self.begin_anew(f"{error}.")

    def check(self) -> None:
        """Reads all anew where the fields are others than those of the columns."""
        with self._agreeing():
            self.fields.check()

    def _tell_changed(self) -> None:
        self.changing.emit()
        self.changed.emit()

    def has(self, fid: int) -> bool:
        """Whether a feature is here, by QGIS' number."""
        return self.fids.get(self.numbers.get(fid, -1)) == fid

    def begin_anew(self, why: str) -> None:
        """Reads all anew, and says why: what layers over it have not sent is lost."""
        if self._is_beginning_anew:
            return
        self._is_beginning_anew = True
        try:
            # First of all: QGIS' numbers of features become others.
            self.given_up.emit(why)
            try:
                self._begin(self.session.columns(self.name))
            except FieldsDiffer as error:
                # Without columns it is at least no wrong ones.
                self._begin([])
                self.given_up.emit(f"{error}. It is shown without columns.")
        finally:
            self._is_beginning_anew = False
        self.columns_changed.emit()

    def add(self, number: int, values: Mapping[str, Any], wkt: str) -> QgsFeature:
        """Puts an added feature in, with the number that the store gave it, and gives it as it stands here."""
        # Another's of this number may be here, if that addition was undone and this is not heard yet.
        self._drop([number])
        self._add([Row(number, self.kind, self.shown(wkt), self.fields.places().row(number, values))])
        return self.memory_feature(number)

    def change_values(self, values: Mapping[int, Mapping[str, Any]]) -> None:
        """Gives features, by QGIS' numbers, other values in some columns."""
        places = self.fields.places()
        self.memory.changeAttributeValues({fid: places.placed(each) for fid, each in values.items()})

    def memory_feature(self, number: int) -> QgsFeature:
        """A feature as it stands here; an invalid one where it is not here."""
        if number not in self.fids:
            return QgsFeature()
        # The provider's, since the layer itself does not hear of columns.
        return next(self.memory.getFeatures(QgsFeatureRequest(self.fids[number])), QgsFeature())

    def change(self, fid: int, wkt: str) -> None:
        """Gives a feature another geometry."""
        self.memory.changeGeometryValues({fid: self.shown(wkt)})

    def drop(self, fids: Iterable[int]) -> None:
        """Removes features, by QGIS' numbers."""
        self._drop([self.numbers[fid] for fid in fids])

    def shown(self, wkt: str) -> QgsGeometry:
        """The geometry of a text, in the units of the map."""
        return geometry_of(wkt, self.session.grid)

    def _take(self, numbers: Sequence[int]) -> set[str]:
        """Takes over some features: those that are not there any more go. Gives the kinds that others of them have."""
        places = self.fields.places()
        gone, others = self.fids.keys() & set(numbers), set()
        for part in self.session.parts(self.name, numbers):
            found = rows_of(part, places, self.session.grid)
            rows = [row for row in found if row.kind == self.kind]
            others |= {row.kind for row in found} - {self.kind}
            gone -= {row.number for row in rows}
            self._put(rows)
        self._drop(gone)
        return others

    def _put(self, rows: Sequence[Row]) -> None:
        """Adds features, or gives those that are here the geometry and the values that they have now."""
        known = [row for row in rows if row.number in self.fids]
        self.memory.changeGeometryValues({self.fids[row.number]: row.geometry for row in known})
        self.memory.changeAttributeValues({self.fids[row.number]: dict(enumerate(row.values)) for row in known})
        self._add([row for row in rows if row.number not in self.fids])

    def _add(self, rows: Sequence[Row]) -> None:
        features = []
        for _, _, geometry, values in rows:
            feature = QgsFeature()
            feature.setGeometry(geometry)
            feature.setAttributes(values)
            features.append(feature)
        added = self.memory.addFeatures(features)[1]
        for row, feature in zip(rows, added):
            self.fids[row.number] = fid = feature.id()
            self.numbers[fid] = row.number

    def _drop(self, numbers: Iterable[int]) -> None:
        # What `numbers` has of them stays: an edit buffer may name a feature that another editor has deleted.
        fids = [self.fids.pop(number) for number in numbers if number in self.fids]
        if fids:
            self.memory.deleteFeatures(fids)


@contextlib.contextmanager
def _uncollected() -> Iterator[None]:
    """Has Python look for no cycles in the body, which makes many objects and none of these."""
    was_so = gc.isenabled()
    gc.disable()
    try:
        yield
    finally:
        if was_so:
            gc.enable()
