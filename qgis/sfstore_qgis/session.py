"""A store's file in this QGIS: the link to its server, grid and reference system, and the mirrors of its layers."""

from __future__ import annotations

import contextlib
import os
import secrets
from collections.abc import Iterator, Sequence
from typing import Any, ClassVar, NamedTuple

from qgis.core import QgsCoordinateReferenceSystem, QgsMessageLog, QgsSettings
from qgis.PyQt.QtCore import QObject, QSocketNotifier, QThread, QTimer, pyqtSignal

from sfstore import journal, sidecar
from sfstore.exchange.grid import Grid
from sfstore.mapgrid import MapGrid
from sfstore.mapunits import MapUnits
from sfstore.results import Column
from sfstore.web.batches import is_group
from sfstore.web.changes import renamed_by
from sfstore.web.client import CallFailed, Client, Events, ServerGone, start_server
from sfstore.web.lineage import Known

from .following import Followed, followed
from .mirror import WKB_NAMES, Mirror
from .values import Choice, choice_of

__all__ = ["LayerRefused", "Placing", "Refusal", "Session", "Style"]

# How long QGIS waits for a call at most, and for a server that is asked again whether it is there.
CALL_SECONDS = 5.0
# A line of a batch takes some 0.1 milliseconds. A step may be a large batch, a save writes the whole store, and for a batch that is no
# group the server has another program load it.
_LINE_SECONDS = 0.005
_CORNER_SECONDS = 0.02
_LONG_SECONDS = 30.0
# So many new corners are put into the borders of others.
CORNERS_MAX = 500
_AGAIN_SECONDS = 0.2
_STARTING_SECONDS = 30.0
# How long after a loss the server is tried again at first, and at most: each time it takes twice as long.
_AGAIN_MILLISECONDS = 500
_AGAIN_MILLISECONDS_MAX = 16_000
# How many features are asked for in one call at first, and at most; and how many letters an answer shall have: one that
# takes longer than a call may is never had.
_ROWS_FIRST, _ROWS_MAX, _ROWS_LETTERS = 20, 5_000, 4_000_000


class Refusal(Exception):
    """The store has refused something, and nothing was changed."""

    def __init__(self, told: dict[str, Any]) -> None:
        super().__init__(told["reason"])
        self.told = told
        """What the server says of it: number, name, reason, help, and where it is known the place."""


class LayerRefused(Exception):
    """A layer can't be shown. The text says why."""


class Style(NamedTuple):
    """How a layer looks in QGIS, as the store has it: nothing where it says nothing."""

    qml: str | None
    by: str | None
    """Who has saved it."""
    mark: str | None
    """A short text that another style does not have."""


class Placing(NamedTuple):
    """Where the steps of a store lie on the map."""

    fault: str
    """Why that is not known, in a sentence; empty where it is, and where coordinates are steps."""
    grid: Grid
    crs: Any
    mark: str
    """That of its grid, by which the server knows it: what is asked or sent by another grid is refused."""
    store: int = 0
    """The server's number of the store that lies so: what is asked of another one, or sent to it, is refused."""

    @property
    def units(self) -> MapUnits:
        """The coordinates of the map."""
        return MapUnits(*self.grid.words)

    @property
    def named(self) -> dict[str, Any]:
        """What a call says of that for which it was made."""
        return {"grid": self.mark, "store": self.store}


class Session(QObject):
    """A store's file in this QGIS. `ServerGone` where no server of it can be had."""

    edited = pyqtSignal(dict)
    """An edit, or an undo, of whomever: as the server tells it, with the version ``before``, and whether it ``is_own``."""
    layers_changed = pyqtSignal(object, str)
    """There are other layers than before: the two names of one that was renamed, or None, and who did it."""
    placed_anew = pyqtSignal()
    """The grid or the reference system is another one: another map was put in the place of the store."""
    replaced = pyqtSignal()
    """Another store was put in the place of this one."""
    kind_hidden = pyqtSignal(str, str)
    """A layer of any kind has a geometry of a kind that is not shown."""
    styled = pyqtSignal(str, str, str, str)
    """Somebody has saved another style for a layer, or for a kind of its geometries, or taken it away: layer, kind, mark or nothing, and who."""
    lost = pyqtSignal()
    """The server does not answer any more. It is tried again."""
    renewed = pyqtSignal()
    """It answers again; all mirrors are as the store is now."""

    open: ClassVar[dict[str, Session]] = {}
    program: ClassVar[str] = os.environ.get("SFSTORE", "sfstore")

    @staticmethod
    def of(path: str) -> Session:
        """The session of a store's file, one for each. `LayerRefused` where no store is there: a server would begin one."""
        path = os.path.realpath(path)
        if path not in Session.open:
            if not os.path.isfile(path) and not os.path.isfile(journal.path_of(path)):
                raise LayerRefused(f"Choose a store that is there: there is none at {path}.")
            Session.open[path] = Session(path)
        return Session.open[path]

    @staticmethod
    def user() -> str:
        """The name under which this QGIS edits."""
        name = QgsSettings().value("sfstore/name", "") or os.environ.get("USER", "")
        return str(name).strip()[:40] or "somebody"

    def __init__(self, path: str) -> None:
        super().__init__()
        self.path = path
        self.placing = _placed(path)
        """Where it lies now. Other threads take it as a whole: another map may come in the store's place."""
        self.mirrors: dict[tuple[str, str], Mirror] = {}
        self.steps: dict[str, dict[str, Any] | None] = {"undo": None, "redo": None}
        self._known = Known()
        self._hidden: set[tuple[str, str]] = set()
        self.version = 0
        self.changes = 0
        """Rises with whatever is changed from here, or heard of: what the store said before may not be so any more."""
        # The versions that this session's own batches have made: the mirrors have them.
        self._own: set[int] = set()
        self._client: Client | None = None
        self._events: Events | None = None
        self._notifier: Any = None
        self._wait = _AGAIN_MILLISECONDS
        self._again = QTimer(self)
        self._again.setSingleShot(True)
        self._again.timeout.connect(self._try_again)
        # A large store takes its time until it is loaded.
        start_server(path, Session.program, _STARTING_SECONDS)
        self._take(self._connect(_STARTING_SECONDS))

    @property
    def grid(self) -> Grid:
        """The grid of the store: steps of 1 where its side-car says nothing."""
        return self.placing.grid

    @property
    def crs(self) -> Any:
        """The reference system of the store, as QGIS has it."""
        return self.placing.crs

    @property
    def placing_fault(self) -> str:
        """Why grid and reference system are not known, in sentences; empty where they are, and where there are none."""
        return self.placing.fault

    @property
    def editor(self) -> int:
        """The number under which this QGIS edits."""
        return self._connected().editor

    @property
    def is_connected(self) -> bool:
        return self._client is not None

    def close(self) -> None:
        """Leaves the server."""
        self._again.stop()
        self._disconnect()
        Session.open.pop(self.path, None)

    def layers(self) -> list[dict[str, Any]]:
        """The layers in drawing order: name, kind and columns of each."""
        found: list[dict[str, Any]] = self._asked("map")["layers"]
        return found

    def columns(self, layer: str) -> list[Column]:
        """The columns of a layer; none where it is not there any more."""
        for each in self.layers():
            if each["name"] == layer:
                return [Column(column["name"], column["type"]) for column in each["columns"]]
        return []

    def choices(self, layer: str) -> dict[str, Choice]:
        """What rules say of the values in the columns of a layer, by their names."""
        columns = [column for each in self.layers() if each["name"] == layer for column in each["columns"]]
        return {column["name"]: choice_of(column) for column in columns}

    def kinds(self, layer: str) -> list[str]:
        """The kinds of geometries that a layer of any kind is shown by: those of one part, and others that it has."""
        rows = self.rows(layer, self.identifiers(layer))
        found = {row.split(" ", 2)[1].lower() for row in rows}
        return ["point", "linestring", "polygon", *sorted(kind for kind in found if kind.startswith("multi"))]

    def identifiers(self, layer: str) -> list[int]:
        """The features of a layer; none where it is not there any more."""
        found: list[int] = _checked(self._asked("ids", layer=layer)).get("ids", [])
        return found

    def rows(self, layer: str, numbers: Sequence[int]) -> list[str]:
        """The rows of features, of those that are there."""
        return [row for part in self.parts(layer, numbers) for row in part]

    def parts(self, layer: str, numbers: Sequence[int]) -> Iterator[list[str]]:
        """The rows of features, up to some thousands at a time: the next ones are on their way meanwhile."""
        count, store = _ROWS_FIRST, self.placing.store

        def bodies() -> Iterator[dict[str, Any]]:
            begin = 0
            while begin < len(numbers):
                part = list(numbers[begin : begin + count])
                yield {"layer": layer, "ids": part, "store": store}
                begin += len(part)

        try:
            for answer in self._connected().calls("rows", bodies()):
                rows: list[str] = _checked(answer).get("rows", [])
                longest = max(map(len, rows), default=1)
                count = max(1, min(_ROWS_MAX, 8 * count, _ROWS_LETTERS // longest))
                yield rows
        except ServerGone:
            self._lose()
            raise

    def mirror(self, layer: str, kind: str = "") -> Mirror:
        """The mirror of a layer, or of one kind of a layer that takes any. `LayerRefused` where there is none."""
        if (layer, kind) not in self.mirrors:
            if QThread.currentThread() != self.thread():
                raise LayerRefused(f"Open the store first: {layer} is not open yet, and nothing that runs in the background can open it.")
            self.mirrors[layer, kind] = self._made(layer, kind)
        return self.mirrors[layer, kind]

    def _made(self, layer: str, kind: str) -> Mirror:
        found = next((each for each in self.layers() if each["name"] == layer), None)
        if found is None:
            raise LayerRefused(f"Open the store again: {self.path} has no layer {layer}.")
        shown = kind or found["kind"]
        if shown not in WKB_NAMES:
            raise LayerRefused(f"Open the store again: {layer} has geometries of any kind, and is shown as a layer for each. An address names one by |geometrytype=polygon.")
        return Mirror(self, layer, shown, [Column(column["name"], column["type"]) for column in found["columns"]])

    def batch(self, lines: Sequence[str], seen: Sequence[int | None], corners: Sequence[list[Any]] = ()) -> list[str]:
        """Has lines carried out as a whole, and gives their answers. `Refusal` where one is refused.

        ``corners`` are new ones, which go into each border of others that passes there. Where there are very many, a map was
        brought in, and none is.
        """
        is_short = len(lines) == 1 or is_group(lines)
        seconds = (CALL_SECONDS if is_short else _LONG_SECONDS) + len(lines) * _LINE_SECONDS + len(corners) * _CORNER_SECONDS
        fitting = {"corners": list(corners), "shown": self.version} if 0 < len(corners) <= CORNERS_MAX else {}
        body = {"lines": list(lines), "seen": list(seen), **self.placing.named, **fitting}
        answer = self.call("batch", seconds, page=self._token, **body)
        if "refused" in answer:
            raise Refusal(answer["refused"])
        self.changes += 1
        self._known.hear(answer)
        self._own.add(answer["version"])
        self._follow_soon(answer.get("beside", []))
        found: list[str] = answer["answers"]
        return found

    def is_same(self, store: int) -> bool:
        """Whether a number is that of the store that is shown, which another server may have given another one."""
        return self._known.is_same(store)

    def line(self, line: str) -> dict[str, Any]:
        """The answer of a line of the console. `Refusal` where it is refused."""
        seconds = _LONG_SECONDS if line in ("undo", "redo", "save") else CALL_SECONDS
        answer = self.call("line", seconds, page=self._token, line=line, seen=self.version, **self.placing.named)
        if "refused" in answer:
            raise Refusal(answer["refused"])
        return answer

    def has_layer(self, layer: str) -> bool:
        """Whether the store has a layer of this name now."""
        return any(each["name"] == layer for each in self.layers())

    def style(self, layer: str, kind: str) -> Style:
        """How a layer, or one kind of its geometries, looks in QGIS as the store has it. `LayerRefused` where the file of the styles is damaged."""
        told = self._asked("qml", layer=layer, kind=kind)
        if told["fault"]:
            raise LayerRefused(told["fault"])
        return Style(told["qml"], told["by"], told["mark"])

    def save_style(self, layer: str, kind: str, qml: str | None, seen: str | None) -> tuple[str | None, list[str]]:
        """Has the store keep a style in the place of the one whose mark was seen, or none.

        Gives its mark, and the layers that were dropped and have lost their styles, as there was no room for them.
        """
        answer = self._asked("save-qml", layer=layer, kind=kind, qml=qml, seen=seen)
        if "refused" in answer:
            raise Refusal(answer["refused"])
        return answer["mark"], answer.get("gave_way", [])

    def note_kind(self, layer: str, kind: str) -> None:
        """Notes a geometry of a layer of any kind, which may be of one that is not shown yet."""
        if (layer, kind) not in self.mirrors and (layer, kind) not in self._hidden:
            self._hidden.add((layer, kind))
            self.kind_hidden.emit(layer, kind)

    def _follow_soon(self, beside: Sequence[tuple[str, int]]) -> None:
        """Has mirrors take over features that a batch has changed besides, once what goes on now has ended."""

        def follow() -> None:
            for (name, _), mirror in list(self.mirrors.items()):
                with contextlib.suppress(CallFailed, Refusal, ServerGone):
                    mirror.follow(number for layer, number in beside if layer == name)

        if beside:
            QTimer.singleShot(0, follow)

    def reload_soon(self, mirror: Mirror) -> None:
        """Has a mirror read all anew, once what goes on now has ended."""

        def reload() -> None:
            with contextlib.suppress(CallFailed, Refusal, ServerGone):
                mirror.load_anew()

        QTimer.singleShot(0, reload)

    def _asked(self, name: str, **body: Any) -> dict[str, Any]:
        """The answer of a call, which the server refuses where the store is another one than is shown here."""
        return self.call(name, store=self.placing.store, **body)

    def call(self, name: str, seconds: float = CALL_SECONDS, /, **body: Any) -> dict[str, Any]:
        """The answer of a call. `ServerGone` where there is none within some seconds, or none is waited for."""
        client = self._connected()
        client.seconds = seconds
        try:
            return client.call(name, **body)
        except ServerGone:
            self._lose()
            raise

    def _connected(self) -> Client:
        if self._client is None:
            raise ServerGone(f"Wait a moment: the server of {os.path.basename(self.path)} does not answer, and is tried again.")
        return self._client

    def _connect(self, seconds: float) -> dict[str, Any]:
        """Connects to the server that is there, and gives what it says of the map. `ServerGone` where it does not answer.

        One that hangs does not greet. One that does may take some seconds for its first question.
        """
        client = Client(self.path, Session.user(), min(seconds, CALL_SECONDS))
        try:
            events = client.events()
            # From its first line on nothing is missed: what the store is now is asked behind it.
            if not events.wait(min(seconds, CALL_SECONDS)):
                raise ServerGone(f"Open the store again in a moment: the server of {os.path.basename(self.path)} does not answer.")
            client.seconds = seconds
            told = client.call("map", **self._known.named)
        except BaseException:
            client.close()
            raise
        # Of edits under another token it is not known here that they were this QGIS' own.
        self._token = secrets.token_urlsafe(12)
        self._client, self._events = client, events
        self._own.clear()
        self.changes += 1
        self.version = told["version"]
        self.steps = {"undo": told["undo"], "redo": told["redo"]}
        self._notifier = QSocketNotifier(events.fileno(), QSocketNotifier.Read)
        self._notifier.activated.connect(self._hear)
        return told

    def _disconnect(self) -> None:
        if self._notifier is not None:
            self._notifier.setEnabled(False)
            self._notifier = None
        for connection in (self._client, self._events):
            if connection is not None:
                connection.close()
        self._client = self._events = None

    def _lose(self) -> None:
        """Gives a server up that does not answer, and tries it again later."""
        if self._client is not None:
            self._disconnect()
            self._wait = _AGAIN_MILLISECONDS
            self._again.start(self._wait)
            self.lost.emit()

    def _try_again(self) -> None:
        """Connects again, to another server where the last one has ended: all that was answered is there."""
        try:
            start_server(self.path, Session.program, 0.0)
            self._load_anew(self._connect(_AGAIN_SECONDS))
        except (CallFailed, Refusal, ServerGone):
            self._disconnect()
            self._wait = min(2 * self._wait, _AGAIN_MILLISECONDS_MAX)
            self._again.start(self._wait)
        else:
            self.renewed.emit()

    def _load_anew(self, told: dict[str, Any]) -> None:
        """Has all mirrors read anew what the store is now, be it on another grid, or another store. ``told`` is what the server says of the map."""
        is_moved = self._place_anew()
        is_other = not self._take(told)
        if is_other and not is_moved:
            # Before anything is read, which may fail: it is tried again then as of this store.
            self.replaced.emit()
        for mirror in self.mirrors.values():
            if mirror.placed != self.placing.mark:
                mirror.begin_anew("the store has another grid or reference system than before.")
            else:
                mirror.load_anew()

    def _take(self, told: dict[str, Any]) -> bool:
        """Takes the number of the store that the server has. Whether it is the store that was open before."""
        self.placing = self.placing._replace(store=told["store"])
        return self._known.take(told)

    def _place_anew(self) -> bool:
        """Takes the grid and the reference system that the store has now. Whether they are others than before."""
        placing = _placed(self.path)
        if placing.mark == self.placing.mark:
            return False
        self.placing = placing._replace(store=self.placing.store)
        self.placed_anew.emit()
        return True

    def _hear(self, *_: object) -> None:
        """Takes over what others have changed, and undo and redo."""
        if self._events is None:
            return
        try:
            news = self._events.take()
            self.changes += len(news)
            # Before another store is asked for, in whose place these have nothing to say.
            for event in news:
                self._known.hear(event)
            self._follow(followed(news, self._own))
            for event in news:
                self._note(event)
        except (CallFailed, Refusal, ServerGone) as error:
            QgsMessageLog.logMessage(str(error), "sfstore")
            self._lose()

    def _follow(self, news: Followed) -> None:
        if news.is_anew:
            self._load_anew(self.call("map", **self._known.named))
            return
        for (layer, _), mirror in self.mirrors.items():
            if layer in news.whole:
                mirror.load_anew()
            elif layer in news.features:
                mirror.follow(news.features[layer])
        for mirror in self.mirrors.values() if news.are_ruled else ():
            mirror.follow_rules()

    def _note(self, event: dict[str, Any]) -> None:
        """Notes what an event says of the history, and passes it on."""
        if event.get("anew"):
            told = self.call("map")
            self.version, event = told["version"], {**event, **told}
            self.renewed.emit()
        for verb in self.steps:
            if verb in event:
                self.steps[verb] = event[verb]
        if "qgis_styled" in event:
            self.styled.emit(event["qgis_styled"], event["kind"], event["mark"] or "", event["editor"])
        if "changed" in event:
            before, self.version = self.version, event["version"]
            self._own.discard(self.version)
            self.edited.emit({**event, "before": before, "is_own": event["page"] == self._token})
            if any(change["what"] == "layers" for change in event["changed"]):
                self.layers_changed.emit(renamed_by(event["line"], event["step"]), event["editor"])


def _checked(answer: dict[str, Any]) -> dict[str, Any]:
    """The answer of a question about a layer; an empty one where the layer is not there any more."""
    if "refused" not in answer:
        return answer
    if answer["refused"]["name"] == "NoLayer":
        return {}
    raise Refusal(answer["refused"])


def _placed(path: str) -> Placing:
    """The grid and the reference system of a store, as its side-car says: steps of 1 where it says nothing, and why."""
    known = MapGrid(path)
    fault = f"{known.fault}." if known.fault else ""
    if known.found is None:
        return Placing(fault, Grid("0", "0", "1"), QgsCoordinateReferenceSystem(), known.mark)
    told, crs = known.found.crs, _system(known.found.crs)
    if told is not None and not crs.isValid():
        named = f"{told.authority}:{told.code}" if told.authority else "which has no code"
        fault = f"Give its layers one by Set Layer CRS: QGIS does not know the reference system of {os.path.basename(path)}, {named}."
    return Placing(fault, Grid(*known.found.grid), crs, known.mark)


def _system(crs: sidecar.Crs | None) -> Any:
    """QGIS' reference system, by its authority's code where QGIS knows it, else by its text."""
    known = QgsCoordinateReferenceSystem()
    if crs is not None and crs.authority:
        known = QgsCoordinateReferenceSystem(f"{crs.authority}:{crs.code}")
    if crs is not None and crs.wkt and not known.isValid():
        known.createFromWkt(crs.wkt)
    return known
