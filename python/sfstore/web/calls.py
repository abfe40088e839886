"""What a page can ask for and do: each call takes a JSON object and gives one."""

from __future__ import annotations

import contextlib
import os
import re
import time
from base64 import b64encode
from collections.abc import Callable, Iterable, Iterator, Mapping, Sequence
from fractions import Fraction
from typing import Any, TypeVar

from sfstore import spelling
from sfstore.broken import Broken, broken_by, remedy_of, sentence_of
from sfstore.commands import Command, help_text, near_words
from sfstore.editor import column_of
from sfstore.extents import Box, extent_of
from sfstore.faults import fault_at, fault_of
from sfstore.geometry import Shape, read_wkb, write_wkt
from sfstore.groups import text_of
from sfstore.language import GRID_MAX, GRID_MIN, QUESTIONS, parted, words_of_line
from sfstore.lines import geometry_refused
from sfstore.mapgrid import GridChanged, MapGrid
from sfstore.mapunits import MapUnits, NoPlace
from sfstore.refusals import words_of
from sfstore.rules import AnyRule, ValueRule, range_words, within
from sfstore.store import Answer, Column, Layer, Refused, Store, Value
from sfstore.surroundings import Surroundings, far_question
from sfstore.tools.fitting import Corner, fitted
from sfstore.values import spelled
from sfstore.web.background import Background
from sfstore.web.batches import Batch, LineRefused, batch_of
from sfstore.web.changed import changed_by, merged
from sfstore.web.changes import Change, Target, feature_of, features_of, seen_of
from sfstore.web.drawn import PAGE_COMMANDS, PAGE_TOOLS, Drawn, Undrawn, drawn_in
from sfstore.web.editors import Editors
from sfstore.web.events import Events
from sfstore.web.history import ENTRIES_MAX, History
from sfstore.web.keeper import Asked, ChangedMeanwhile, Edit, Keeper, Overtaken, StoreChanged, Unavailable
from sfstore.web.logins import Logins
from sfstore.web.mirror import Mirror
from sfstore.web.pictures import LEVEL_MAX, Picture, Pictures, Tile
from sfstore.web.qgisstyles import QgisStyle, QgisStyles, SavedMeanwhile, kind_of
from sfstore.web.raster import png
from sfstore.web.rows import identifiers_of, ids_of, rows_of
from sfstore.web.scales import metres_of, symbol_of
from sfstore.web.steps import LayerChange, Step
from sfstore.web.stylefile import StyleError, StyleFile
from sfstore.web.styles import Styles, style_of
from sfstore.web.tables import PAGE_MAX, Reading, Tables, Wanted, conditions_of, labels_of
from sfstore.web.windows import ELEMENTS_MAX, rows_asked, shapes_of, window_of

__all__ = ["BadCall", "Calls", "Outdated"]

Body = dict[str, Any]
"""A JSON object."""

_T = TypeVar("_T")

OWN = [
    Command("help COMMAND", "tells the commands, or one with an example", "help add"),
    Command("save", "saves the store; the history begins anew", "save"),
    *PAGE_COMMANDS,
]
"""The commands of the page beside those of the program."""

# How many tiles of an overview are given at a time, and how long it is drawn on before what there is is given.
_TILES_MAX = 64
_DRAWING_SECONDS = 0.5

# How much of a long answer is sent.
_ROWS_MAX = ELEMENTS_MAX
_LETTERS_MAX = 4_000_000

_PAGE_LETTERS_MAX = 64

# How often a tool is tried that others' edits have overtaken.
_DRAWINGS_MAX = 5
# How many features are named that a tool has changed.
_CHANGED_SHOWN = 20

_OVERTAKEN = "Others edit all the time just now: try it again. Nothing was done."

# How many corners are put into borders beside, and how long the text of a coordinate is.
_CORNERS_MAX, _CORNER_LETTERS_MAX = 500, 200

# How much of a line others are told.
_LINE_SHOWN = 1_000


class BadCall(Exception):
    """A call has not the form that it must have. The text says what is wrong."""


class Outdated(Exception):
    """An edit is not carried out, as its page has not seen what it edits. The text says why."""


class Calls:
    """The calls of pages over one store. Each is given the number of the editor who has logged in.

    Lines that change something go to the keeper, all else to second programs: what windows show and
    single features to one, pictures of large layers to another, and what people ask to a third. So a
    question that takes long delays no map.
    """

    def __init__(self, path: str, keeper: Keeper, program: str, seconds: float, background: Background | None = None) -> None:
        self.events = Events()
        self._background = background
        self._title = os.path.basename(path)
        self._surroundings = Surroundings()
        self._keeper = keeper
        self._program = program
        self._editors = Editors(path, keeper.editors)
        self.logins = Logins(self._editors)
        self.styles = Styles(path)
        self.qgis_styles = QgisStyles(path)
        keeper.ask_layer_changes(self._follow_layers)
        self._history = History()
        self._looks = Mirror(keeper, program, seconds, self._history)
        self._pictures = Pictures()
        self._drawer = Mirror(keeper, program, seconds, self._pictures)
        self._tables = Tables()
        self._questions = Mirror(keeper, program, seconds, self._tables)
        for step in keeper.done():
            changes = merged(changed_by(step.line, step))
            line = self._shown_line(step.line)
            self._history.take(self._editors.name_of(step.editor), line, line, changes, is_now=False)
        keeper.follow.append(self._tell_edits)
        keeper.anew.append(lambda: self.events.tell({"anew": True}))
        self.by_path: dict[str, Callable[[int, Body], Body]] = {
            "/me": self._me,
            "/map": self._map,
            "/window": self._window,
            "/pictures": self._pictures_of,
            "/shapes": self._shapes,
            "/feature": self._feature,
            "/line": self._line,
            "/batch": self._batch,
            "/ids": self._ids,
            "/rows": self._rows,
            "/table": self._table,
            "/labels": self._labels,
            "/history": self._history_of,
            "/styles": self._styles_of,
            "/style": self._style,
            "/qml": self._qml,
            "/save-qml": self._save_qml,
        }

    @property
    def grid_fault(self) -> str:
        """Why coordinates are steps, where the store has a side-car; else empty."""
        return self._keeper.last_grid.fault

    def close(self) -> None:
        """Ends the second programs."""
        for mirror in (self._looks, self._drawer, self._questions):
            mirror.close()

    def log_in(self, body: Body) -> Body:
        """Lets somebody in by a link, who has not logged in yet."""
        return self.logins.log_in(_text(body, "link"), _text(body, "name"))._asdict()

    def _me(self, editor: int, body: Body) -> Body:
        """Who has logged in."""
        return {"editor": editor, "name": self._editors.name_of(editor)}

    def _map(self, editor: int, body: Body) -> Body:
        """The layers with their columns, whose step is next, and how far the map reaches.

        They are those of a version of a store, which ``content`` and ``store`` name. ``point`` is how far it has come: a later
        server that is told so as ``known`` says whether its store goes on from there.
        """
        number, point, goes_on = self._keeper.going_on(_known(body))

        def question(store: Store) -> Body:
            self._check_over(body, self._looks)
            layers, rules = store.layers(), _by_column(store.rules())
            told_layers = [
                {
                    "name": layer.name,
                    "kind": layer.kind,
                    "columns": [column._asdict() | _demanded(rules, layer.name, column.name) for column in columns],
                }
                for layer, columns in zip(layers, _columns_of(store, layers))
            ]
            grid = self._looks.grid
            told = {"grid": _told_grid(grid), "grid_mark": grid.mark, "grid_fault": grid.fault or None}
            now = self._looks.number
            # Where another one has taken its place in between, nothing is said of it.
            lineage: Body = {"point": point, "goes_on": goes_on} if now == number else {"point": "", "goes_on": False}
            shown = {"store": now, **lineage, "content": self._looks.version}
            return {**told, **shown, "layers": told_layers}

        version, to_undo, to_redo = self._keeper.steps()
        steps = {"undo": self._step(to_undo), "redo": self._step(to_redo)}
        told = {"title": self._title, "version": version, "background": self._background and self._background._asdict()}
        answer = {**told, **steps, **self._looks.ask(editor, question)}
        # A question of its own: of very many layers each takes its time.
        return {**answer, "extent": self._looks.ask(editor, extent_of) if body.get("extent") else None}

    def _window(self, editor: int, body: Body) -> Body:
        """What a box has of the layers that are named."""
        box, wanted = _box(body), _names(body)
        inner = None if body.get("window") is None else _box(body, "window")

        def question(store: Store) -> Body:
            self._check_over(body, self._looks)
            layers = [layer.name for layer in store.layers() if layer.name in wanted]
            return {"layers": window_of(store, layers, box, inner), "most": ELEMENTS_MAX}

        return self._looks.ask(editor, question)

    def _pictures_of(self, editor: int, body: Body) -> Body:
        """Tiles of a layer, as far as they are drawn; those that the page has are not sent again."""
        layer, tiles = spelling.name(_text(body, "layer")), _tiles(body)
        pictures = self._pictures

        def question(store: Store) -> list[Body]:
            self._check_over(body, self._drawer)
            until = time.monotonic() + _DRAWING_SECONDS
            return [
                _told_tile(tile, pictures.of(store, layer, tile, until), seen) for tile, seen in tiles.items()
            ]

        return {"tiles": self._drawer.ask(editor, question)}

    def _shapes(self, editor: int, body: Body) -> Body:
        """Features of a layer as windows have them, of those that are there."""
        layer, features = spelling.name(_text(body, "layer")), ids_of(body.get("ids"))

        def question(store: Store) -> list[list[Any]]:
            self._check_over(body, self._looks)
            return shapes_of(store, layer, features)

        return {"features": self._looks.ask(editor, question)}

    def _feature(self, editor: int, body: Body) -> Body:
        """A feature with its text, its coordinates and its values, and who has changed it last.

        It is that of a version of the store, which edits of it have to name. Values are texts, as a
        browser's numbers have 53 bits.
        """
        layer, feature = spelling.name(_text(body, "layer")), _number(body, "id", 0, 2**32 - 1)

        def look(store: Store) -> Body:
            self._check_over(body, self._looks)
            shape = read_wkb(bytes.fromhex(store.hex(layer, feature)))
            values, rules = store.get(layer, feature)[0].values, _by_column(store.rules())
            told = [
                {**column._asdict(), **_demanded(rules, layer, name), "value": _shown(values[name]) if name in values else None}
                for column in store.columns(layer)
                for name in [column.name]
            ]
            measures = self._measures(store, layer, feature)
            text, units = write_wkt(shape), self._looks.grid.units
            wkt = units.places(text) if units and _is_in_units(body) else text
            return {"wkt": wkt, **_shape(shape), **measures, "values": told, "version": self._looks.version}

        try:
            told = {"layer": layer, "id": feature, **self._looks.ask(editor, look)}
        except Refused as refused:
            told = {"refused": self._refusal(refused, f"hex {layer} {feature}")}
        change = self._keeper.last_change(Target(layer, feature))
        return {**told, "by": change and self._editors.name_of(change.editor)}

    def _measures(self, store: Store, layer: str, feature: int) -> Body:
        """The area and the length of a feature as texts, in map units where there is a grid; nothing of what it has not."""
        [area], [length] = store.area(layer, feature), store.length(layer, feature)
        units = self._looks.grid.units
        told = {"area": units.area(area) if units else area, "length": units.length(length) if units else length}
        return {name: format(number, "f") for name, number in told.items() if number}

    def _line(self, editor: int, body: Body) -> Body:
        """Carries out a line of the console, or a group as one, as the editor who has logged in."""
        given, page = _text(body, "line"), _page(body)
        grid = self._grid_for(body)
        units = grid.units if _is_in_units(body) else None
        if next(iter(parted(given)), "") in PAGE_TOOLS:
            return self._draw(editor, body, given)
        try:
            line = units.line(given) if units else given
        except NoPlace as fault:
            raise BadCall(str(fault)) from None
        words = parted(line)
        if not words:
            return {"text": ""}
        if words[0] == "help":
            return {"text": help_text(words[1] if len(words) > 1 else "", OWN)}
        # Who edits no feature that was there may say of which version they know a column, or a layer.
        is_seen = features_of(line) or (body.get("seen") is not None and seen_of(line))
        seen = _number(body, "seen", 0, 2**53) if is_seen else None
        question = self._question(editor, body, line, units)
        if question:
            return {"question": question}
        try:
            if words == ["save"]:
                return self._save(editor, _store(body))
            if words[0] in QUESTIONS:
                answer = self._asked(editor, body, line, grid)
                return _answered(_in_units(units, line, answer) if units else answer)
            return self._edit(Asked(editor, page, line, seen, grid.mark, _store(body)))
        except Refused as refused:
            return {"refused": self._refusal(refused, line if refused.member is None else refused.line)}
        except ValueError as error:
            raise BadCall(str(error)) from None

    def _grid_for(self, body: Body) -> MapGrid:
        """The grid of the store as it is open now. `Outdated` where who calls has another one before them."""
        seen = body.get("grid")
        if seen is not None and not isinstance(seen, str):
            raise BadCall("grid has to be a text")
        try:
            grid = self._keeper.grid()
        except GridChanged as changed:
            raise Outdated(str(changed)) from None
        if seen not in (None, grid.mark):
            raise Outdated(str(GridChanged(self._title)))
        return grid

    def _check_over(self, body: Body, mirror: Mirror) -> None:
        """`Outdated` where who asks has another store before them than the one that would answer."""
        if _store(body) not in (None, mirror.number):
            raise Outdated(str(StoreChanged(self._title)))

    def _asked(self, editor: int, body: Body, line: str, grid: MapGrid) -> Answer:
        """The answer of a question that was made for a grid. `Outdated` where the store has another one meanwhile, or is another store."""

        def question(store: Store) -> Answer:
            if self._questions.grid.mark != grid.mark:
                raise Outdated(str(GridChanged(self._title)))
            self._check_over(body, self._questions)
            return store.run(line)

        return self._questions.ask(editor, question)

    def _question(self, editor: int, body: Body, line: str, units: MapUnits | None) -> str:
        """What is to be asked before a line or a group is carried out, of whoever can be asked; empty where nothing is."""
        if units is None or not _can_be_asked(body):
            return ""
        point = self._surroundings.point_beyond(line, lambda: self._looks.ask(editor, extent_of))
        return far_question(units.point_text(point)) if point else ""

    def _edit(self, asked: Asked) -> Body:
        """Has a line carried out that changes something."""
        return _answered(self._changing(asked.editor, lambda: self._keeper.carry_out(asked)))

    def _draw(self, editor: int, body: Body, given: str) -> Body:
        """Carries out a tool of those who draw maps: the group that it makes of the store as it is, or nothing of it.

        The page says which version it has seen: who has changed since then what the tool changes was there before.
        """
        seen, over = _number(body, "seen", 0, 2**53), _store(body)
        lines: list[str] = []
        for _ in range(_DRAWINGS_MAX):
            grid = self._grid_for(body)
            units = grid.units if _is_in_units(body) else None
            try:
                drawn = self._questions.ask(editor, lambda store: self._drawn_over(body, store, given, units))
                if not drawn.lines:
                    return {"text": drawn.said}
                lines = drawn.lines
                question = next(filter(None, (self._question(editor, body, line, units) for line in lines)), "")
                if question:
                    return {"question": question}
                batch = batch_of(editor, _page(body), lines, [seen if seen_of(line) else None for line in lines])
                done = self._changing(editor, lambda: self._keeper.carry_out_all(batch, drawn.version, grid.mark, over))
                answer = " ".join(["ok", *(answer[3:] for answer in done.answers if answer != "ok")])
                return {"answer": answer, "changed": _changed(lines)}
            except Overtaken:
                continue
            except Undrawn as fault:
                return {"undone": fault.told._asdict()}
            except LineRefused as refused:
                return {"refused": self._refusal(refused.refused, lines[refused.at])}
            except Refused as refused:
                # Of a group no line is at fault where a rule is broken. Before it is made, a question of the tool is refused.
                return {"refused": self._refusal(refused, text_of(lines) if refused.rule else refused.line)}
        raise Unavailable(_OVERTAKEN)

    def _drawn_over(self, body: Body, store: Store, given: str, units: MapUnits | None) -> Drawn:
        """What a tool makes of the store that who calls has before them."""
        self._check_over(body, self._questions)
        return drawn_in(store, self._questions.version, given, units)

    def _batch(self, editor: int, body: Body) -> Body:
        """Carries out lines as a whole: all of them, or none.

        With ``corners`` these go into each border that passes there, too: the answers are those of the given lines, and
        ``beside`` has the features that were changed besides, or otherwise than was given.
        """
        if _is_in_units(body):
            raise BadCall("a batch counts in steps: only line and feature take units of the map")
        batch = batch_of(editor, _page(body), body.get("lines"), body.get("seen"))
        lines, grid, over = batch.lines, self._grid_for(body).mark, _store(body)
        if body.get("corners") and any(words_of_line(line)[0] == "vertex" for line in lines):
            # What goes in counts them anew, and what it takes the place of would be lost.
            raise BadCall("a batch with corners has no lines that edit single vertices: replace the feature in their place")
        try:
            if body.get("corners"):
                return self._fitting(batch, _corners(body["corners"]), _number(body, "shown", 0, 2**53), grid, over)
            done = self._changing(editor, lambda: self._keeper.carry_out_all(batch, grid=grid, over=over))
            return {**done._asdict(), **self._keeper.last_at._asdict()}
        except LineRefused as refused:
            # One beside was sent by nobody: the last line is named, and the words are those of what is beside.
            line = lines[refused.at] if refused.at < len(lines) else refused.refused.line
            return {"refused": {**self._refusal(refused.refused, line), "line": min(refused.at, len(lines) - 1)}}
        except Refused as refused:
            if not refused.rule:
                raise
            # Of a group no line is at fault: a rule is looked at behind the last one.
            return {"refused": self._refusal(refused, text_of(lines))}

    def _fitting(self, batch: Batch, corners: Sequence[Corner], shown: int, grid: str, over: int | None) -> Body:
        """Carries out lines with corners put into the borders beside, as these are just then; ``shown`` is what the asker has seen of them."""
        editor, page, lines, seen = batch
        for _ in range(_DRAWINGS_MAX):
            found, version = self._questions.ask(editor, lambda store: (fitted(store, lines, corners), self._questions.version))
            whole = batch_of(editor, page, found.lines, [*seen, *[shown] * len(found.beside)])
            try:
                done = self._changing(editor, lambda: self._keeper.carry_out_all(whole, version, grid, over))
            except Overtaken:
                continue
            own = [_edited(*each) for each, fit in zip(zip(lines, done.answers), found.lines) if fit != each[0]]
            told = {"answers": done.answers[: len(lines)], "version": done.version, **self._keeper.last_at._asdict()}
            return {**told, "beside": [*own, *found.beside]}
        raise Unavailable(_OVERTAKEN)

    def _changing(self, editor: int, change: Callable[[], _T]) -> _T:
        """What a change of an editor gives, whose name is kept before it is carried out."""
        try:
            self._editors.keep(editor)
        except OSError as error:
            raise Unavailable(
                f"Your name can't be written beside the store: {error.strerror}. Nothing was done."
            ) from error
        try:
            return change()
        except ChangedMeanwhile as meanwhile:
            raise Outdated(self._meanwhile(meanwhile.target, meanwhile.change)) from None
        except GridChanged as changed:
            raise Outdated(str(changed)) from None

    def _ids(self, editor: int, body: Body) -> Body:
        """The features of a layer, or those that meet a box."""
        layer = spelling.name(_text(body, "layer"))
        box = None if body.get("box") is None else _box(body)
        return self._looked(editor, body, layer, lambda store: {"ids": identifiers_of(store, layer, box)})

    def _rows(self, editor: int, body: Body) -> Body:
        """Features with their geometries and values, of those that are there."""
        layer, features = spelling.name(_text(body, "layer")), ids_of(body.get("ids"))
        return self._looked(editor, body, layer, lambda store: {"rows": rows_of(store, layer, features)})

    def _table(self, editor: int, body: Body) -> Body:
        """A page of a layer's table; or how much of the table is read, so that the page asks again."""
        wanted, questions = _wanted(body), self._questions

        def question(store: Store) -> Body:
            self._check_over(body, questions)
            return {**self._tables.page(store, wanted), "version": questions.version}

        try:
            return questions.ask(editor, question)
        except Reading as reading:
            return {"read": reading.read, "total": reading.total}
        except Refused as refused:
            return {"refused": self._refusal(refused, f"columns {wanted.layer}")}

    def _labels(self, editor: int, body: Body) -> Body:
        """The values of features in a column, of those that have one."""
        layer, column, features = spelling.name(_text(body, "layer")), _text(body, "column"), ids_of(body.get("ids"))
        return self._looked(editor, body, layer, lambda store: {"labels": labels_of(store, layer, column, features)})

    def _history_of(self, editor: int, body: Body) -> Body:
        """What was done, the newest first; or what was done before something of it."""
        before = None if body.get("before") is None else _number(body, "before", 0, 2**53)
        if _store(body) is not None:
            self._looks.ask(editor, lambda store: self._check_over(body, self._looks))
        return self._history.page(before, _number(body, "count", 1, ENTRIES_MAX))

    def _styles_of(self, editor: int, body: Body) -> Body:
        """How layers look, by their names, and what is wrong with the file that says it, if anything is."""
        return {"styles": self.styles.all(), "fault": " ".join(self.styles.faults())}

    def _style(self, editor: int, body: Body) -> Body:
        """Has a layer look otherwise, for all: a whole style, some fields of it, or as it does by itself where none is given."""
        layer = spelling.name(_text(body, "layer"))
        told = self._looked(editor, body, layer, lambda store: {"columns": len(store.columns(layer))})
        if "refused" in told:
            return told
        with _kept_beside(self.styles):
            if "fields" in body:
                gave_way = self.styles.change(layer, body["fields"])
            else:
                gave_way = self.styles.set(layer, None if body.get("style") is None else style_of(body["style"]))
        self.events.tell({"styled": layer})
        return _given_way(gave_way)

    def _follow_layers(self, head: str, changes: Sequence[LayerChange]) -> bool:
        """Has all styles go with their layers. Whether a layer looks otherwise on the page now."""
        self.qgis_styles.catch_up(head, changes)
        return self.styles.catch_up(head, changes)

    def _qml(self, editor: int, body: Body) -> Body:
        """How a layer looks in QGIS, who has saved that, and its mark; and what is wrong with the file that says it, if anything is."""
        with _kept_beside(self.qgis_styles):
            layer, kind = spelling.name(_text(body, "layer")), kind_of(body.get("kind", ""))
        if _store(body) is not None:
            self._looks.ask(editor, lambda store: self._check_over(body, self._looks))
        found = self.qgis_styles.style(layer, kind)
        told: Body = {"qml": None, "by": None, "mark": None}
        if found is not None:
            told = {**found._asdict(), "mark": found.mark}
        return {**told, "fault": self.qgis_styles.fault_at(layer, kind)}

    def _save_qml(self, editor: int, body: Body) -> Body:
        """Has a layer look otherwise in QGIS, for all who open it there; as QGIS has it by itself where no style is given."""
        layer, qml, seen = spelling.name(_text(body, "layer")), body.get("qml"), body.get("seen")
        for name, given in (("qml", qml), ("seen", seen)):
            if given is not None and not isinstance(given, str):
                raise BadCall(f"{name} has to be a text or null")
        told = self._looked(editor, body, layer, lambda store: {"columns": len(store.columns(layer))})
        if "refused" in told:
            return told
        style = None if qml is None else QgisStyle(qml, self._editors.name_of(editor))
        with _kept_beside(self.qgis_styles):
            kind = kind_of(body.get("kind", ""))
            try:
                gave_way = self.qgis_styles.save(layer, kind, style, seen)
            except SavedMeanwhile as meanwhile:
                who = f"{meanwhile.style.by} has saved another style of {layer}" if meanwhile.style else f"The style of {layer} was taken away"
                raise Outdated(f"{who} meanwhile: look at it first. Nothing was changed.") from None
        mark = style.mark if style else None
        self.events.tell({"qgis_styled": layer, "kind": kind, "mark": mark, "editor": self._editors.name_of(editor)})
        return {"mark": mark, **_given_way(gave_way)}

    def _looked(self, editor: int, body: Body, layer: str, question: Callable[[Store], Body]) -> Body:
        """What a question about a layer gives, with the version that it is of; or that there is no such layer.

        `Outdated` where who asks has another store before them.
        """
        looks = self._looks

        def asked(store: Store) -> Body:
            self._check_over(body, looks)
            return {**question(store), "version": looks.version}

        try:
            return looks.ask(editor, asked)
        except Refused as refused:
            return {"refused": self._refusal(refused, f"show {layer}")}

    def _meanwhile(self, target: Target, change: Change | None) -> str:
        """Who changed what before an edit, in a sentence."""
        feature = f"the layer {target.layer}" if target.feature is None else f"{target.layer} {target.feature}"
        if target.column is not None:
            feature = f"the column {target.column} of {target.layer}"
        if change is None:
            return f"It is not known any more whether {feature} was changed meanwhile: look again."
        who = self._editors.name_of(change.editor)
        if target in change.targets and target.feature is not None:
            did = "deleted" if change.line.startswith("delete") else "changed"
            return f"{who} {did} {feature} meanwhile: look again."
        return f"{who} changed {feature} meanwhile, by `{self._shown_line(change.line)}`: look again."

    def _save(self, editor: int, over: int | None) -> Body:
        name = self._editors.name_of(editor)

        def told() -> None:
            # The store is saved, whether the head of its journal can be read now or not.
            with contextlib.suppress(OSError):
                self._keeper.with_layer_changes(self._follow_layers)
            self._history.take(name, "save", "save")
            self.events.tell({"saved": name, **self._keeper.last_at._asdict(), "undo": None, "redo": None})

        try:
            self._keeper.save(told, over)
        except GridChanged as changed:
            raise Outdated(str(changed)) from None
        return {"text": f"{self._title} is saved. The history begins anew."}

    def _refusal(self, refused: Refused, line: str) -> Body:
        """A refusal in words: what is wrong, where, and what helps."""
        words = words_of(refused.number)
        told: Body = {"number": refused.number, "name": refused.name}
        told.update(reason=words.reason, help=words.help)
        if refused.member is not None:
            told["member"] = refused.member
        if refused.number == 31:
            told["help"] = near_words(line, OWN, in_group=refused.member is not None) or words.help
        elif refused.number == 36:
            _, to_undo, to_redo = self._keeper.steps()
            told["whose"] = self._step(to_undo if line.split() == ["undo"] else to_redo)
        else:
            shape = self._keeper.ask(lambda store: geometry_refused(refused, line, store))
            if shape is not None:
                told.update(_shape(shape))
                told["place"] = self._place(refused, shape)
        broken = self._keeper.ask(lambda store: broken_by(refused, line, store)) if refused.rule else None
        if broken is not None:
            told["broken"] = _broken(broken, self._keeper.last_grid.units)
        return told

    def _place(self, refused: Refused, shape: Shape) -> Body | None:
        """Where a geometry is wrong, in words and points. An edit's refusal says it is; `check` says where."""
        if not 10 <= refused.number <= 17:
            return None
        fault = fault_at(shape, refused) or fault_of(shape, self._program)
        if fault is None:
            return None
        # In steps, and as pages show it.
        words, units = str(fault), self._keeper.last_grid.units
        shown = fault.words.format(*map(units.point_text, fault.points)) if units else words
        return {"words": words, "shown": shown, "points": [[float(x), float(y)] for x, y in fault.points]}

    def _tell_edits(self, edits: Sequence[Edit]) -> None:
        """Tells all pages of an edit, or of a batch of them."""
        last = edits[-1]
        line, did = last.line[:_LINE_SHOWN], last.step.line
        members = last.step.members
        if members and line.strip() not in ("undo", "redo"):
            line, did = f"together {len(members)}", members[0].line
        elif len({edit.line for edit in edits}) > 1:
            line, did = f"together {len(edits)}", edits[0].step.line if last.stays else "refused, and taken back"
        changes = [change for edit in edits if edit.stays for change in changed_by(edit.line, edit.step)]
        # The edit is carried out, whether the head of the journal can be read now or not.
        with contextlib.suppress(OSError):
            if self._keeper.with_layer_changes(self._follow_layers):
                self.events.tell({"styled": None})
        told: Body = {
            "version": last.version,
            "number": last.editor,
            "page": last.page,
            "editor": self._editors.name_of(last.editor),
            "line": line,
            "step": did,
            "shown": self._shown_line(line),
            "shown_step": self._shown_line(did),
            "undo": self._step(last.to_undo),
            "redo": self._step(last.to_redo),
            "changed": merged(changes),
            **self._keeper.last_at._asdict(),
        }
        self._history.take(told["editor"], told["shown"], told["shown_step"], told["changed"], last.version)
        self.events.tell(told)

    def _step(self, step: Step | None) -> Body | None:
        if step is None:
            return None
        return {
            "number": step.editor,
            "editor": self._editors.name_of(step.editor),
            "line": step.line,
            "shown": self._shown_line(step.line),
        }

    def _shown_line(self, line: str) -> str:
        """A line as pages show it: in map units where there is a grid. One that is long is cut between two points."""
        front = line
        if len(line) > _LINE_SHOWN:
            cut = line[:_LINE_SHOWN]
            front = (cut.rpartition(",")[0] or cut) + ", .."
        units = self._keeper.last_grid.units
        return units.shown_line(front) if units else front


@contextlib.contextmanager
def _kept_beside(styles: StyleFile[Any]) -> Iterator[None]:
    """Says of what goes wrong with styles in the body that nothing was changed."""
    try:
        yield
    except StyleError as error:
        raise BadCall(f"{error}" if error.args[0] == styles.fault else f"{error}: nothing was changed") from None
    except OSError as error:
        raise Unavailable(f"The styles can't be written beside the store: {error.strerror}. Nothing was changed.") from error


def _given_way(layers: list[str]) -> Body:
    """What is said of layers that are gone and have lost their styles, for want of room; nothing where there are none."""
    return {"gave_way": layers} if layers else {}


def _shown(value: Value) -> str:
    """A value as a field of the page has it: texts without quotes, others as lines spell them."""
    return value if isinstance(value, str) else spelled(value)


def _columns_of(store: Store, layers: Sequence[Layer]) -> Iterator[list[Column]]:
    """The columns of layers, asked in one go: there may be very many."""
    for answer in store.run_all(f"columns {layer.name}" for layer in layers):
        yield list(map(column_of, rows_asked(answer)))


def _by_column(rules: Iterable[AnyRule]) -> dict[tuple[str, str], list[ValueRule]]:
    """The rules on values, by their layers and columns."""
    found: dict[tuple[str, str], list[ValueRule]] = {}
    for rule in rules:
        if isinstance(rule, ValueRule):
            found.setdefault((rule.layer, rule.column), []).append(rule)
    return found


def _demanded(rules: Mapping[tuple[str, str], list[ValueRule]], layer: str, column: str) -> Body:
    """What the rules on a column say of its values, for whoever is to choose one: those that all allow, and a range in words."""
    said = rules.get((layer, column), [])
    lists = [rule.allowed for rule in said if rule.demand == "one-of"]
    ranges = [rule for rule in said if rule.demand == "range"]
    told: Body = {}
    if lists:
        allowed = [value for value in lists[0] if not any(rule.is_wrong(value) for rule in said)]
        told["allowed"] = list(dict.fromkeys(map(_shown, allowed)))
    if ranges:
        told["range"] = " ".join(range_words(*within(ranges)))
    return told


def _changed(lines: Sequence[str]) -> str:
    """Which features lines change or delete, as a text: some of them, where they are many."""
    found = list(dict.fromkeys(f"{target.layer} {target.feature}" for line in lines for target in features_of(line)))
    more = f", and {len(found) - _CHANGED_SHOWN:,} more" if len(found) > _CHANGED_SHOWN else ""
    return ", ".join(found[:_CHANGED_SHOWN]) + more


def _broken(broken: Broken, units: MapUnits | None) -> Body:
    """A rule that would be broken: its words, and the features that would break it, of which one may be new."""
    features = [
        {"layer": found.layer, "id": found.feature, **(_shape(found.shape) if found.shape else {})} for found in broken.features
    ]
    sentence = sentence_of(broken.rule, [(found.layer, found.feature) for found in broken.features], units)
    row = broken.rule.line
    shown = units.rows("rules", [row])[0] if units else row
    return {"rule": shown, "sentence": sentence, "remedy": remedy_of(broken.rule), "features": features}


def _shape(shape: Shape) -> Body:
    return {"code": shape.code, "members": [[list(line) for line in member] for member in shape.members]}


def _is_in_units(body: Body) -> bool:
    """Whether who calls has coordinates in the units of the map, as pages do; programs count in steps."""
    units = body.get("units", "steps")
    if units not in ("map", "steps"):
        raise BadCall("units has to be map or steps")
    return bool(units == "map")


def _can_be_asked(body: Body) -> bool:
    """Whether who calls has a person who answers a question before an edit is made, and calls again without this."""
    asks = body.get("asks", False)
    if not isinstance(asks, bool):
        raise BadCall("asks has to be true or false")
    return asks


def _in_units(units: MapUnits, line: str, answer: Answer) -> Answer:
    """An answer in map units, of as many rows as can be sent."""
    if isinstance(answer, str):
        return units.rows(line, [answer])[0]
    return [*units.rows(line, answer[:_ROWS_MAX]), *answer[_ROWS_MAX:]]


def _answered(answer: Answer) -> Body:
    """An answer, and of many rows those that can be sent."""
    if isinstance(answer, str):
        return {"answer": answer}
    rows, room = [], _LETTERS_MAX
    for row in answer[:_ROWS_MAX]:
        room -= len(row)
        if room < 0:
            break
        rows.append(row)
    return {"rows": rows, "count": len(answer)}


def _page(body: Body) -> str:
    """Which page it is that calls, among those of its editor."""
    page = _text(body, "page")
    if not 1 <= len(page) <= _PAGE_LETTERS_MAX:
        raise BadCall(f"page has to be a text of 1 to {_PAGE_LETTERS_MAX} letters")
    return page


def _text(body: Body, name: str) -> str:
    text = body.get(name)
    if not isinstance(text, str):
        raise BadCall(f"{name} has to be a text")
    return text


def _edited(line: str, answer: str) -> tuple[str, int]:
    """The feature that a line adds, by its answer, or changes."""
    target = feature_of(line)
    return (line.split()[1], int(answer[3:])) if target is None else (target.layer, target.feature or 0)


def _corners(given: object) -> list[Corner]:
    """Corners as a call has them: of each x and y in steps, as texts of fractions, and the two whole numbers that they were rounded to."""
    if not isinstance(given, list) or len(given) > _CORNERS_MAX:
        raise BadCall(f"corners has to be a list of {_CORNERS_MAX} at most")
    return [Corner((_fraction(x), _fraction(y)), (_step(a), _step(b))) for x, y, a, b in map(_four, given)]


def _four(given: object) -> tuple[object, object, object, object]:
    if not isinstance(given, list) or len(given) != 4:
        raise BadCall("a corner has x and y, and those that they were rounded to")
    x, y, a, b = given
    return x, y, a, b


def _fraction(given: object) -> Fraction:
    if not isinstance(given, str) or len(given) > _CORNER_LETTERS_MAX or not re.fullmatch("-?[0-9]+(/[1-9][0-9]*)?", given):
        raise BadCall("a place of a corner has to be a text, a whole number or a fraction of two")
    return Fraction(given)


def _step(given: object) -> int:
    if type(given) is not int or not GRID_MIN <= given <= GRID_MAX:
        raise BadCall(f"a corner lies on the grid, from {GRID_MIN} to {GRID_MAX}")
    return given


def _number(body: Body, name: str, least: int, most: int) -> int:
    number = body.get(name)
    if type(number) is not int or not least <= number <= most:
        raise BadCall(f"{name} has to be a whole number from {least} to {most}")
    return number


def _store(body: Body) -> int | None:
    """The number of the store that who calls has before them, where they say it."""
    return None if body.get("store") is None else _number(body, "store", 0, 2**53)


def _known(body: Body) -> str:
    """The point of the store that who calls knows; no point where they know none."""
    return "" if body.get("known") is None else _text(body, "known")


def _tiles(body: Body) -> dict[Tile, int]:
    """The tiles of a level that a call names, each with the version of it that the page has."""
    level = _number(body, "level", 0, LEVEL_MAX)
    tiles = body.get("tiles")
    if not isinstance(tiles, list) or len(tiles) > _TILES_MAX:
        raise BadCall(f"tiles has to be a list of {_TILES_MAX} at most")
    return {Tile(level, x, y): seen for x, y, seen in map(_tile, tiles)}


def _tile(tile: object) -> tuple[int, int, int]:
    """Where a tile stands, and the version of it that the page has."""
    if not isinstance(tile, list) or len(tile) != 3 or not all(type(part) is int for part in tile):
        raise BadCall("a tile has to be three whole numbers")
    x, y, seen = tile
    if max(abs(x), abs(y)) > GRID_MAX:
        raise BadCall("a tile has to be near the grid")
    return x, y, seen


def _told_tile(tile: Tile, picture: Picture, seen: int) -> Body:
    """A tile for a page that has seen a version of it."""
    told = {"x": tile.x, "y": tile.y, "count": picture.features, "whole": picture.is_whole, "version": picture.version}
    if picture.version == seen:
        return told
    return {**told, "png": b64encode(png(picture.cells)).decode() if picture.packed else None}


def _told_grid(grid: MapGrid) -> Body | None:
    """The grid of the map that a store was imported from, as pages have it; none where coordinates are steps."""
    if grid.found is None:
        return None
    (x, y, step), crs = grid.found.grid, grid.found.crs
    metres, unit = (metres_of(crs.wkt), symbol_of(crs.wkt)) if crs else (None, "")
    return {"x": x, "y": y, "step": step, "crs": str(crs) if crs else None, "metres": metres, "unit": unit}


def _wanted(body: Body) -> Wanted:
    """Which page of which table is asked for."""
    sort, falling, around = body.get("sort"), body.get("falling", False), body.get("around")
    if sort is not None and not isinstance(sort, str):
        raise BadCall("sort has to be a column or null")
    if not isinstance(falling, bool):
        raise BadCall("falling has to be true or false")
    return Wanted(
        spelling.name(_text(body, "layer")),
        sort,
        falling,
        conditions_of(body.get("conditions", [])),
        None if body.get("box") is None else _box(body),
        _number({"from": 0, **body}, "from", 0, 2**32),
        _number(body, "count", 1, PAGE_MAX),
        None if around is None else _number(body, "around", 0, 2**32 - 1),
    )


def _names(body: Body) -> set[str]:
    names = body.get("layers")
    if not isinstance(names, list) or not all(isinstance(name, str) for name in names):
        raise BadCall("layers has to be a list of names")
    return set(names)


def _box(body: Body, name: str = "box") -> Box:
    box = body.get(name)
    if not isinstance(box, list) or len(box) != 4 or not all(type(side) is int for side in box):
        raise BadCall(f"{name} has to be four whole numbers")
    left, bottom, right, top = box
    if not (GRID_MIN <= left <= right <= GRID_MAX and GRID_MIN <= bottom <= top <= GRID_MAX):
        raise BadCall(f"{name} has to be on the grid, its least corner first")
    return left, bottom, right, top
