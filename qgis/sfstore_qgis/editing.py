"""The edits of a layer that is shown: what its user has seen and touched, and what it has not sent yet."""

from __future__ import annotations

import time
from collections.abc import Iterable, Sequence
from typing import Any, NamedTuple

from qgis.core import QgsFeature, QgsVectorLayer

from sfstore.exchange.grid import Rounding
from sfstore.results import Column
from sfstore.web.client import ServerGone

from .fields import IDENTIFIER, FieldsDiffer, check_layer, columns_of, names_of
from .forms import is_form_of_several_open, shown_in_forms, unread_in, unread_text
from .provider import Outcome, Provider
from .writing import Edits, Line, NotSent, added_numbers, corners_of, is_none

__all__ = ["Editing", "commit", "prepare", "unread_words"]

# So long after others have changed a feature an edit of it may have been begun before: a vertex was on its way.
UNSEEN_SECONDS = 3.0


class _Seen(NamedTuple):
    """What the user saw of a feature when they began to edit it."""

    version: int
    """The version of the store."""
    content: tuple[Any, ...]


class _News(NamedTuple):
    """What others have changed of a feature lately."""

    at: float
    """When it was heard."""
    before: int
    """The version of the store before."""


class _Begun(NamedTuple):
    """What the user saw of the store when they began to edit: of its columns, and which one it was."""

    version: int
    columns: list[Column]
    store: int


class Editing:
    """A layer of a store in QGIS."""

    def __init__(self, layer: QgsVectorLayer) -> None:
        self.layer = layer
        self.key: str = layer.id()
        self.name: str = layer.name()
        """The name of the layer in the project, for threads too which may not ask the layer."""
        self.crs = layer.crs()
        """Its reference system: the store's, or where that has none the one that its user has given it."""
        self.provider: Provider = layer.dataProvider()
        self.rounding = Rounding()
        self.is_in_doubt = False
        """Whether it is not known what has become of what was sent."""
        self.is_sending = False
        self.is_prepared = False
        """Whether the store was asked for a commit that comes next, with that of another layer."""
        self.differs = False
        """Whether it was found to count its fields otherwise than its provider: nothing that it has not sent is right."""
        # The commands of QGIS' undo stack from here on were not sent.
        self.base = 0
        self.reshaped: set[int] = set()
        """QGIS' numbers of the features that were drawn, reshaped or deleted here, which was not sent yet."""
        self._index = 0
        self._selected: list[int] = []
        self._seen: dict[int, _Seen] = {}
        self._news: dict[int, _News] = {}
        # Features that others have changed while a form of several ones was open, which may show what was there before: the
        # version of the store before.
        self._unread: dict[int, int] = {}
        # What was typed in a field, and is no value: QGIS has none there instead. By QGIS' number of the feature and the column.
        self._unread_texts: dict[tuple[int, str], str] = {}
        # The version and the columns that were seen when the first of what was not sent was done.
        self._begun: _Begun | None = None

    @property
    def session(self) -> Any:
        return self.provider.session

    @property
    def is_pending(self) -> bool:
        """Whether it has edits that can be sent now."""
        layer = self.layer
        return bool(layer.isEditable() and layer.isModified() and not layer.isEditCommandActive())

    @property
    def has_steps(self) -> bool:
        """Whether QGIS has steps of it, done or undone, that were not sent: they count its fields by their places."""
        try:
            return bool(self.layer.isEditable() and self.layer.undoStack().count())
        except RuntimeError:
            # QGIS has deleted it.
            return False

    def begin(self) -> None:
        """Begins anew, with nothing that was not sent."""
        self._seen.clear()
        self._unread_texts.clear()
        self.reshaped = set()
        self._begun = None
        self.differs = False
        self.is_in_doubt = False
        self.base = 0

    def take_name(self) -> None:
        self.name = self.layer.name()

    def take_crs(self) -> None:
        self.crs = self.layer.crs()

    def note_selection(self) -> None:
        """Notes what is selected: QGIS forgets it where the provider has other features."""
        self._selected = self.layer.selectedFeatureIds()

    def select_again(self) -> None:
        """Selects what was selected, of what is there still."""
        added = self.layer.editBuffer().addedFeatures() if self.layer.isEditable() else {}
        there = [fid for fid in self._selected if fid in added or self.provider.mirror.has(fid)]
        if there and not self.layer.selectedFeatureCount():
            self.layer.selectByIds(there)

    def reshape(self, fid: int, *_: object) -> None:
        """Notes that a feature was drawn, reshaped or deleted."""
        self.reshaped.add(fid)

    def follow_stack(self, index: int) -> None:
        """Notes behind an undo of QGIS' own which features are not as the store has them still."""
        if index < self._index:
            buffer = self.layer.editBuffer()
            self.reshaped = {*buffer.changedGeometries(), *buffer.deletedFeatureIds(), *buffer.addedFeatures()} if buffer else set()
        self._index = index

    def touch(self, fid: int) -> None:
        """Notes what the user sees of a feature that they edit, and of the columns."""
        self.touch_columns()
        number = self.provider.mirror.numbers.get(fid)
        if number is not None and number not in self._seen:
            self._seen[number] = self._seen_now(fid, number)

    def touch_value(self, fid: int, at: int, found: Any) -> None:
        """Notes what the user sees of a feature of which they edit a value, and what they have typed where QGIS has made none of it."""
        self.touch(fid)
        # A step of QGIS may name a field that is not there any more.
        column = next(iter(columns_of(self.layer.fields())[at : at + 1]), None)
        if column is not None and column.name != IDENTIFIER:
            self._unread_texts.pop((fid, column.name), None)
            text = unread_text(column, self.provider.mirror.mark) if is_none(found) else ""
            if text:
                self._unread_texts[fid, column.name] = text

    def touch_new(self, fid: int) -> None:
        """Notes so what was typed for a feature that is added."""
        added = self.layer.editBuffer().addedFeatures().get(fid) if self.layer.isEditable() else None
        for at, found in enumerate(added.attributes() if added is not None else []):
            self.touch_value(fid, at, found)

    def unread_at(self, line: Any) -> str:
        """What is said of a field of one line that is left, where it has a text of which QGIS makes no value; else nothing."""
        columns, mark = columns_of(self.layer.fields()) if self.layer.isEditable() else [], self.provider.mirror.mark
        found = ((column.name, unread_in(line, column, mark)) for column in columns if column is not None and column.name != IDENTIFIER)
        return next((unread_words(name, text) for name, text in found if text), "")

    def _check_read(self) -> None:
        """`NotSent` where something was typed of which QGIS has made no value."""
        buffer = self.layer.editBuffer()
        there = {*buffer.changedAttributeValues(), *buffer.addedFeatures()}
        for (fid, name), text in self._unread_texts.items():
            if fid in there:
                raise NotSent(unread_words(name, text))

    def _seen_now(self, fid: int, number: int) -> _Seen:
        """What the user sees of a feature: not what has come a moment ago, nor what an open form does not show."""
        news = self._news.get(number)
        if news is not None and time.monotonic() < news.at + UNSEEN_SECONDS:
            return _Seen(news.before, ())
        if any(not self._is_as_stored(number, shown) for shown in shown_in_forms(fid, self.provider.mirror.mark)):
            return _Seen(0, ())
        if self._unread and not is_form_of_several_open():
            self._unread.clear()
        if number in self._unread:
            return _Seen(self._unread[number], ())
        return _Seen(self.session.version, self._content(number))

    def _is_as_stored(self, number: int, shown: QgsFeature) -> bool:
        """Whether a form shows the values that the store has. One with other fields is that of another layer."""
        if shown.fields().names() != self.layer.fields().names():
            return True
        stored = self.provider.mirror.memory_feature(number)
        names = [field.name() for field in stored.fields()]
        return all(shown.attribute(name) == stored.attribute(name) for name in names if shown.fields().indexOf(name) >= 0)

    def hear(self, numbers: Iterable[int], before: int) -> None:
        """Notes features that others have changed, behind a version of the store."""
        now = time.monotonic()
        self._news = {number: news for number, news in self._news.items() if now < news.at + UNSEEN_SECONDS}
        changed = list(numbers)
        self._news.update({number: self._news.get(number, _News(now, before))._replace(at=now) for number in changed})
        if is_form_of_several_open():
            self._unread = {**dict.fromkeys(changed, before), **self._unread}

    def forget_refused(self) -> None:
        """Notes that it was told why what was edited is refused."""
        self._unread = {number: before for number, before in self._unread.items() if number not in self._seen}

    def forget_taken_back(self) -> None:
        """Forgets what was seen of what was refused and taken back: who edits it again has looked at it again."""
        self.forget_refused()
        touched = self.touched()
        self._seen = {number: seen for number, seen in self._seen.items() if number in touched}
        if not self.layer.isModified():
            self._begun = None

    def touch_columns(self) -> None:
        """Notes which columns the user sees, where it is their first edit."""
        if self._begun is None:
            self._begun = _Begun(self.session.version, list(self.provider.mirror.columns), self.session.placing.store)

    def renew(self) -> None:
        """Compares with a store that was lost meanwhile: what is as the user saw it they have seen."""
        if self._begun is not None:
            are_there = set(self._begun.columns) <= set(self.session.columns(self.provider.source.layer))
            self._begun = self._begun._replace(version=self.session.version if are_there else 0)
        for number, seen in self._seen.items():
            version = self.session.version if self._content(number) == seen.content else 0
            self._seen[number] = _Seen(version, seen.content)

    def touched(self) -> set[int]:
        """The identifiers of what has edits that were not sent."""
        buffer = self.layer.editBuffer()
        if buffer is None:
            return set()
        fids = [*buffer.changedGeometries(), *buffer.changedAttributeValues(), *buffer.deletedFeatureIds()]
        return {self.provider.mirror.numbers[fid] for fid in fids if fid in self.provider.mirror.numbers}

    def lines(self) -> list[Line]:
        """What was not sent, as lines. `NotSent` where it has no such form."""
        self.rounding = Rounding()
        try:
            check_layer(self.layer)
        except FieldsDiffer:
            self.differs = True
            raise
        if self._begun is not None and not self.session.is_same(self._begun.store):
            raise NotSent("Copy what you need of your edits, and give them up: another store is here than the one over which they were made")
        self._check_read()
        edits = self._edits()
        if edits.dropped or edits.columns:
            self.provider.check_fields_may_change(self.key)
        return self.provider.lines(edits, self.layer.fields(), self.rounding)

    def corners(self) -> list[list[Any]]:
        """The new corners of what was not sent: they go into each border that passes there."""
        mirror, edits = self.provider.mirror, self._edits()
        if mirror.kind.endswith("point"):
            return []
        fids = [*edits.geometries, *edits.deleted]
        before = [mirror.memory_feature(mirror.numbers[fid]).geometry() for fid in fids if fid in mirror.numbers]
        drawn = [*edits.geometries.values(), *(feature.geometry() for feature in edits.added)]
        return corners_of(mirror.written([]), drawn, before)

    def version_of(self, line: Line) -> int | None:
        """The version of the store that the user has seen of what a line edits: a feature, a column, or the layer that it goes into."""
        if line.feature is None:
            # A value in a column that the same commit adds: nobody can have seen that.
            is_of_own = line.column is None and line.text.startswith("set ")
            return None if is_of_own else self._begun.version if self._begun else int(self.session.version)
        seen = self._seen.get(self.provider.mirror.numbers[line.feature])
        return seen.version if seen else int(self.session.version)

    def settle(self) -> None:
        """Shows the layer as the store has it, which has taken the edits, where QGIS could not take them over."""
        self.layer.rollBack(False)
        # What was sent is no step of QGIS any more: redone it would be sent again.
        self.layer.undoStack().clear()
        self.layer.updateFields()
        self.session.reload_soon(self.provider.mirror)

    def _edits(self) -> Edits:
        buffer, names = self.layer.editBuffer(), names_of(self.provider.fields())
        return Edits(
            dropped=[name for at in buffer.deletedAttributeIds() if (name := names[at]) is not None],
            columns=buffer.addedAttributes(),
            geometries=buffer.changedGeometries(),
            values=buffer.changedAttributeValues(),
            deleted=buffer.deletedFeatureIds(),
            # The one that was drawn last has the least number.
            added=[added for _, added in sorted(buffer.addedFeatures().items(), reverse=True)],
        )

    def _content(self, number: int) -> tuple[Any, ...]:
        feature = self.provider.mirror.memory_feature(number)
        return bytes(feature.geometry().asWkb()), feature.attributes()


def unread_words(name: str, text: str) -> str:
    """What is said of a text in a column of which QGIS makes no value."""
    return f"Type it once more: QGIS can't read {text!r} in {name}, and takes it for no value. A time is such as 2024-02-29T12:30:00Z"


def prepare(editings: Sequence[Editing]) -> None:
    """Has the store carry out what some layers of it have not sent, as a whole: each layer knows the outcome then."""
    try:
        parts = [each.lines() for each in editings]
        lines = [line.text for part in parts for line in part]
        seen = [each.version_of(line) for each, part in zip(editings, parts) for line in part]
        corners = [corner for each in editings for corner in each.corners()]
        answers = editings[0].session.batch(lines, seen, corners) if lines else []
    except Exception as error:
        for each in editings:
            # Where it was sent, and not answered.
            each.is_in_doubt |= isinstance(error, ServerGone) and bool(error.__cause__)
            each.provider.outcome = Outcome(fault=error)
        return
    for each, part in zip(editings, parts):
        given, answers = answers[: len(part)], answers[len(part) :]
        each.provider.outcome = Outcome(added_numbers(part, given))
        each.is_in_doubt = False


def commit(editings: Sequence[Editing]) -> Exception | None:
    """Commits layers of one store as a whole, and leaves them editable. Gives why nothing was done."""
    for each in editings:
        each.is_sending = True
    try:
        prepare(editings)
        fault = editings[0].provider.outcome.fault if editings[0].provider.outcome else None
        for each in editings if fault is None else ():
            if not each.layer.commitChanges(False):
                each.settle()
        return fault
    finally:
        for each in editings:
            each.is_sending = False
            each.provider.outcome = None
