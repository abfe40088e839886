"""The plugin: layers of a store are opened, and what their users do becomes edits of the store."""

from __future__ import annotations

import contextlib
import os
from collections.abc import Callable, Iterable, Iterator
from functools import partial
from typing import Any

from qgis.core import Qgis, QgsApplication, QgsMapLayer, QgsProject, QgsSettings, QgsVectorLayer
from qgis.PyQt import sip
from qgis.PyQt.QtCore import Qt, QTimer
from qgis.PyQt.QtWidgets import QApplication, QFileDialog, QInputDialog, QLineEdit, QMessageBox

from sfstore.language import KINDS
from sfstore.web.client import CallFailed, ServerGone

from . import provider
from .bar import Bar
from .editing import Editing, commit, prepare
from .fields import IDENTIFIER, FieldsDiffer, check_layer
from .functions import Functions
from .history import History
from .saving import Saving
from .session import LayerRefused, Refusal, Session
from .styles import Styles
from .told import Breaking, Teller
from .toolbox import Toolbox
from .values import is_widget_of_rules
from .words import words_of
from .writing import NotSent, checked_name

__all__ = ["Plugin"]

# So many geometries are asked about at a time, while they are drawn and not sent.
_ASKED_MAX = 20
# A coordinate that was moved by a smaller part of a step was on the grid.
_LEAST_PART = 1e-6


class Plugin:
    """What QGIS makes of the plugin."""

    def __init__(self, iface: Any) -> None:
        self._iface = iface
        self.teller = Teller(iface, self.select)
        self.editings: dict[str, Editing] = {}
        self.styles = Styles(self.teller, self.editings)
        self.functions = Functions(self.editings)
        self._sessions: set[str] = set()
        # The store that was opened last, which may have no layer yet.
        self._opened: Session | None = None
        self._is_loaded = True
        self._is_waiting = False
        self._drawn: list[tuple[str, int]] = []
        self.at_once = QgsSettings().value("sfstore/at_once", True, type=bool)
        provider.register()

    # What QGIS calls.

    def initProcessing(self) -> None:
        """Puts the algorithms into the toolbox. Without a window QGIS calls this alone."""
        self.toolbox = Toolbox()
        QgsApplication.processingRegistry().addProvider(self.toolbox)

    def initGui(self) -> None:
        """Shows the actions, and follows the layers of the project."""
        self.initProcessing()
        self.bar = bar = Bar(self._iface)
        bar.add("open", "Open a store ..", self._trying(self.choose))
        self.undo = bar.add("undo", "Undo in the store", self._trying(partial(self.move, "undo")))
        self.redo = bar.add("redo", "Redo in the store", self._trying(partial(self.move, "redo")))
        bar.add("save", "Save the store", self._trying(self.choose_save))
        bar.add("add-layer", "Add a layer ..", self._trying(self.choose_layer))
        bar.add("drop-layer", "Drop the layer ..", self._trying(self.drop_chosen))
        styling = [
            ("Keep the style with the store", self.keep_style),
            ("Show the store's style", self.show_style),
            ("Drop the store's style", self.drop_style),
        ]
        bar.add_several("style", "Style of the layer", [(text, self._trying(act)) for text, act in styling])
        bar.add("link", "Link to the page ..", self._trying(self.choose_link))
        bar.add("name", "My name ..", self._trying(self.choose_name))
        self.switch = bar.add_switch("at-once", "Each edit at once", self.at_once, self.set_at_once)
        self.functions.register()
        self._connect(self.functions.unheard, self._tell_left_out)
        self.history = History(self._iface.mainWindow(), self)
        self.saving = Saving(self._iface)
        self._connect(self._iface.currentLayerChanged, self.history.look)
        QApplication.instance().focusChanged.connect(self._left)
        self._connect(QgsProject.instance().layersAdded, self.watch)
        self._connect(QgsProject.instance().layersWillBeRemoved, self.forget)
        self.watch(QgsProject.instance().mapLayers().values())

    def unload(self) -> None:
        """Takes the actions away. The provider stays."""
        self._is_loaded = False
        # QGIS outlives the plugin, and tells of its last widgets when Python is gone.
        with contextlib.suppress(TypeError):
            QApplication.instance().focusChanged.disconnect(self._left)
        self.functions.unregister()
        QgsApplication.processingRegistry().removeProvider(self.toolbox)
        self.editings.clear()
        self._sessions.clear()
        self.history.leave()
        self.saving.leave()
        self.teller.clear()
        self.bar.leave()

    def _trying(self, act: Callable[[], object]) -> Callable[[], None]:
        return partial(self.tried, act)

    def tried(self, act: Callable[[], object]) -> None:
        """Does something, and says why where it can't be done."""
        try:
            act()
        except (CallFailed, LayerRefused, NotSent, OSError, Refusal, ServerGone) as error:
            self.teller.tell(words_of(error), Qgis.Warning)

    # Stores and layers.

    def choose(self) -> None:
        path = QFileDialog.getOpenFileName(self._iface.mainWindow(), "Open a store", "", "Stores (*.sfs)")[0]
        if path:
            self.open(path)

    def open(self, path: str) -> None:
        """Adds the layers of a store to the project that are not in it, in drawing order."""
        with _wait_cursor():
            session = self._opened = Session.of(path)
            self._follow_session(session)
            known = {str(each.provider.source) for each in self.editings.values()}
            sources = [each for each in self._sources(session) if str(each) not in known]
            layers = [QgsVectorLayer(str(each), _title(each), provider.KEY) for each in sources]
        if session.placing_fault:
            self.teller.tell(session.placing_fault, Qgis.Warning)
        self.styles.begin(session, list(zip(sources, layers)))
        QgsProject.instance().addMapLayers(layers[::-1])

    def _sources(self, session: Session) -> list[provider.Source]:
        """The layers as QGIS shows them: one of any kind as one for each kind."""
        found = []
        for layer in session.layers():
            name = layer["name"]
            kinds = session.kinds(name) if layer["kind"] == "any" else [""]
            found += [provider.Source(session.path, name, kind) for kind in kinds]
        return found

    def choose_layer(self) -> None:
        window = self._iface.mainWindow()
        name, is_given = QInputDialog.getText(window, "Add a layer", f"Name, in {_file_of(self._for_new_layer())}", QLineEdit.Normal, "")
        if is_given:
            kind, is_given = QInputDialog.getItem(window, "Add a layer", "Kind", KINDS, 0, False)
        if is_given:
            self.add_layer(name, kind)

    def add_layer(self, name: str, kind: str) -> None:
        """Adds a layer to the store of the active layer, else to the one that was opened last: it may have no layer yet."""
        session = self._for_new_layer()
        session.line(f"layer add {checked_name(name)} {kind}")
        self.open(session.path)

    def _for_new_layer(self) -> Session:
        return (None if self.active() else self._opened_last()) or self._session()

    def drop_chosen(self) -> None:
        editing = self.editings[self._iface.activeLayer().id()] if self.active() else None
        if editing is not None:
            self.drop_layer(editing)

    def drop_layer(self, editing: Editing) -> None:
        """Removes a layer from the store and from the project, once all of its edits are sent. Undo brings it back."""
        name = editing.provider.source.layer
        # A layer of any kind is in the project as several.
        those = [each for each in self._of(editing.session) if each.provider.source.layer == name]
        if self._are_sent(those):
            editing.session.line(f"layer drop {name}")
            QgsProject.instance().removeMapLayers([each.key for each in those])

    def keep_style(self) -> None:
        """Keeps how the active layer looks with its store."""
        self.styles.save(self._chosen())

    def show_style(self) -> None:
        """Has the active layer look as its store says."""
        self.styles.show(self._chosen())

    def drop_style(self) -> None:
        """Takes the style of the active layer out of its store."""
        self.styles.drop(self._chosen())

    def _chosen(self) -> Editing:
        active = self.active()
        if active is None:
            raise LayerRefused("Choose a layer of a store first.")
        return active

    def choose_link(self) -> None:
        window = self._iface.mainWindow()
        name, is_given = QInputDialog.getText(window, "Link to the page", "For", QLineEdit.Normal, Session.user())
        if is_given:
            self.link(name)

    def link(self, name: str) -> None:
        """Puts a link into the clipboard that lets somebody edit in the browser."""
        session = self._session()
        QApplication.clipboard().setText(session.call("link", name=name)["address"])
        self.teller.tell(f"A link to {_file_of(session)} for {name} is in the clipboard. It lets one person in, once, within ten minutes.")

    def choose_name(self) -> None:
        window = self._iface.mainWindow()
        name, is_given = QInputDialog.getText(window, "My name", "Others see it", QLineEdit.Normal, Session.user())
        if is_given:
            QgsSettings().setValue("sfstore/name", name)

    def watch(self, layers: Iterable[QgsMapLayer]) -> None:
        """Follows those layers that are a store's."""
        come = []
        for layer in layers:
            if layer.isValid() and layer.type() == QgsMapLayer.VectorLayer and layer.providerType() == provider.KEY:
                if layer.id() not in self.editings:
                    self.editings[layer.id()] = editing = Editing(layer)
                    self._follow_layer(editing)
                    self._follow_session(editing.session)
                    come.append(editing)
        self.tried(partial(self.styles.check, come))

    def forget(self, ids: Iterable[str]) -> None:
        """Follows layers no more that leave the project."""
        for each in ids:
            editing = self.editings.pop(each, None)
            self.styles.forget(each)
            if editing is not None:
                editing.provider.mirror.held.pop(each, None)
                self.tried(editing.provider.mirror.settle_columns)
                # Once the layer is gone.
                QTimer.singleShot(0, partial(self._leave, editing.session))

    def _leave(self, session: Session) -> None:
        """Leaves a store of which no layer is left in the project: other programs may have it then."""
        if not self._of(session) and session.path in self._sessions:
            self._sessions.discard(session.path)
            self.functions.leave(session.path)
            self.teller.clear(session)
            session.close()

    def _follow_layer(self, editing: Editing) -> None:
        layer, mirror = editing.layer, editing.provider.mirror
        self._place(editing)
        _keep_identifiers(layer)
        _follow_widgets(layer)
        self._connect(layer.editingStarted, partial(self._begin, editing))
        self._connect(layer.editingStopped, partial(self._end, editing))
        self._connect(layer.beforeCommitChanges, partial(self._prepare, editing))
        self._connect(layer.afterCommitChanges, partial(self._committed, editing))
        self._connect(layer.featureAdded, partial(self._drew, editing))
        self._connect(layer.featureAdded, editing.touch_new)
        self._connect(layer.geometryChanged, partial(self._drew, editing))
        self._connect(layer.attributeValueChanged, editing.touch_value)
        self._connect(layer.featureDeleted, editing.touch)
        for signal in (layer.featureAdded, layer.geometryChanged, layer.featureDeleted):
            self._connect(signal, editing.reshape)
        self._connect_while_shown(editing, layer.undoStack().indexChanged, editing.follow_stack)
        self._connect(layer.nameChanged, editing.take_name)
        self._connect(layer.crsChanged, partial(self._place, editing))
        self._connect(layer.attributeAdded, lambda *_: editing.touch_columns())
        self._connect(layer.attributeDeleted, lambda *_: editing.touch_columns())
        self._connect(layer.undoStack().indexChanged, partial(self._send_soon, editing))
        self._connect_while_shown(editing, mirror.changing, editing.note_selection)
        self._connect_while_shown(editing, mirror.changed, editing.select_again)
        mirror.changed.connect(layer.triggerRepaint)
        mirror.columns_changed.connect(partial(_update_fields, layer))
        self._connect_while_shown(editing, mirror.columns_changed, partial(self._check, editing))
        self._connect_while_shown(editing, mirror.given_up, partial(self._give_up, editing))

    def _follow_session(self, session: Session) -> None:
        if session.path not in self._sessions:
            self._sessions.add(session.path)
            self._connect(session.edited, partial(self._heard, session))
            self._connect(session.kind_hidden, self._tell_kind)
            self._connect(session.styled, lambda *told: self.tried(partial(self.styles.hear, session, *told)))
            self._connect(session.lost, partial(self._lost, session))
            self._connect(session.renewed, partial(self._renewed, session))
            self._connect(session.placed_anew, partial(self._placed_anew, session))
            self._connect(session.replaced, partial(self._replaced, session))
            self._connect(session.layers_changed, lambda *told: self.tried(partial(self._tell_layers, session, *told)))

    def _place(self, editing: Editing) -> None:
        """Has a layer lie where the store says: a project may have been written before the store had this grid."""
        _set_precision(editing)
        layer, crs = editing.layer, editing.session.crs
        if crs.isValid() and layer.crs() != crs:
            was = layer.crs().authid() or "none"
            layer.setCrs(crs)
            words = f"{layer.name()} is shown in the store's reference system, {crs.authid() or 'one without a code'}, and not in {was}."
            self.teller.tell(words, Qgis.Warning)
        editing.take_crs()

    def _tell_left_out(self, words: str) -> None:
        """Tells of an error of a function where QGIS itself tells nobody."""
        self.teller.tell(f"Mend this, and compute it anew: in an aggregate or a filter QGIS leaves out what has an error. {words}", Qgis.Warning)

    def _placed_anew(self, session: Session) -> None:
        """Has the layers of a store lie where it says now."""
        if session.placing_fault:
            self.teller.tell(session.placing_fault, Qgis.Warning)
        for editing in self._of(session):
            self._place(editing)

    def _replaced(self, session: Session) -> None:
        """Says that another store is shown now, and has nobody work on with what was chosen of the one before."""
        unsent = []
        for editing in self._of(session):
            editing.layer.removeSelection()
            if editing.layer.isModified():
                unsent.append(editing.layer.name())
        kept = f"What was not sent of {', '.join(unsent)} stays until you give it up, and is not sent to this store: copy what you need of it. " if unsent else ""
        self.teller.tell(f"{kept}Another store is in the place of {_file_of(session)} now, and is shown.", Qgis.Critical)
        self.tried(partial(self._tell_layers, session, None, ""))

    def _connect(self, signal: Any, slot: Callable[..., object]) -> None:
        """Has a slot follow a signal until the plugin is unloaded.

        It stays connected: whether what signals is still there, so that it could be disconnected, is not known then.
        """

        def follow(*words: object) -> None:
            if self._is_loaded:
                slot(*words)

        signal.connect(follow)

    def _connect_while_shown(self, editing: Editing, signal: Any, slot: Callable[..., object]) -> None:
        """Has a slot follow a signal that may outlive a layer, as long as the layer is in the project."""

        def follow(*words: object) -> None:
            if self.editings.get(editing.key) is editing:
                slot(*words)

        self._connect(signal, follow)

    def _of(self, session: Session) -> list[Editing]:
        return [each for each in self.editings.values() if each.session is session]

    # Editing.

    def _begin(self, editing: Editing) -> None:
        editing.begin()
        editing.provider.mirror.held[editing.key] = lambda: editing.has_steps

    def _end(self, editing: Editing) -> None:
        editing.begin()
        # Edits may be given up, and the layer be edited on.
        if not editing.layer.isEditable():
            editing.provider.mirror.held.pop(editing.key, None)
        self.tried(editing.provider.mirror.settle_columns)

    def _check(self, editing: Editing) -> None:
        """Gives a layer up that counts its fields otherwise than its provider, or whose provider does so."""
        self.tried(editing.provider.mirror.check)
        try:
            check_layer(editing.layer)
        except FieldsDiffer as error:
            self._give_up(editing, f"{error}.")

    def _look_at(self, editing: Editing) -> None:
        """Gives a layer up, behind a refusal, whose fields were found to be others. QGIS may have read them since."""
        if editing.differs:
            self._give_up(editing, "its fields were others than it ought to have.")
        else:
            self._check(editing)

    def _give_up(self, editing: Editing, why: str) -> None:
        """Shows a layer as it is in the store, without what was not sent of it: its values could be others' by now."""
        layer = editing.layer
        editing.is_sending = True
        try:
            if layer.isEditable():
                layer.rollBack()
            # QGIS' numbers may be those of other features from now on.
            layer.removeSelection()
            layer.updateFields()
        finally:
            editing.is_sending = False
        editing.provider.outcome = None
        editing.session.reload_soon(editing.provider.mirror)
        layer.triggerRepaint()
        self.teller.tell(f"Look at {layer.name()} again, and do anew what was not sent, which is given up: {why}", Qgis.Critical)

    def _prepare(self, editing: Editing, *_: object) -> None:
        """Asks the store for a whole commit, before QGIS hands its pieces to the provider."""
        if editing.is_sending:
            return
        if editing.is_prepared:
            # With one that was saved before it.
            editing.is_prepared = False
            return
        together = [each for each in self._of(editing.session) if each is editing or self._is_saved_with(each)]
        prepare(together)
        for each in together:
            each.is_prepared = each is not editing
            # Behind the commit, and above what QGIS itself says of it.
            QTimer.singleShot(0, partial(self._prepared, each))

    def _is_saved_with(self, editing: Editing) -> bool:
        return editing.is_pending and self.saving.is_together(editing.layer)

    def _prepared(self, editing: Editing) -> None:
        """Ends a commit, of whatever outcome. The layer may be gone with it."""
        if editing.key not in self.editings:
            return
        outcome, editing.provider.outcome = editing.provider.outcome, None
        editing.is_prepared = False
        if outcome is not None and outcome.fault is not None:
            self.teller.refuse(editing.layer.name(), outcome.fault, editing.session)
            editing.forget_refused()
            self._look_at(editing)
        elif outcome is not None and editing.layer.isEditable() and editing.layer.isModified():
            editing.settle()

    def _committed(self, editing: Editing) -> None:
        if not editing.is_sending:
            editing.provider.outcome = None
        editing.begin()
        for other in self.editings.values():
            if other.provider.mirror is editing.provider.mirror and other is not editing:
                other.layer.updateFields()
                other.layer.triggerRepaint()
        self.tried(editing.provider.mirror.settle_columns)
        self.teller.clear(editing.session)
        self._tell_moved(editing)

    def _tell_moved(self, editing: Editing) -> None:
        rounding, grid = editing.rounding, editing.session.grid
        step = grid.fractions[2] / grid.fractions[3]
        if rounding.most > step * _LEAST_PART:
            moved = f"{rounding.moved} coordinates were moved to the grid, by {rounding.most:.3g} at most"
            self.teller.tell(f"{editing.layer.name()}: {moved}.")

    # Each edit at once: what was done in one turn of QGIS is sent together.

    def set_at_once(self, is_so: bool) -> None:
        """Whether each edit is sent as it is made. What was not sent before waits for a save."""
        self.at_once = is_so
        QgsSettings().setValue("sfstore/at_once", is_so)
        for editing in self.editings.values():
            editing.base = editing.layer.undoStack().index() if editing.layer.isEditable() else 0

    def _send_soon(self, editing: Editing, *_: object) -> None:
        if self.at_once and not editing.is_sending and not self._is_waiting:
            self._is_waiting = True
            QTimer.singleShot(0, self.send)

    def send(self) -> None:
        """Sends what all layers have not sent, those of one store together."""
        self._is_waiting = False
        pending = [each for each in self.editings.values() if each.is_pending and not each.is_in_doubt]
        for session in {each.session for each in pending}:
            self._send([each for each in pending if each.session is session])

    def _send(self, editings: list[Editing]) -> None:
        fault = commit(editings)
        if fault is None:
            return
        self.teller.refuse(" and ".join(each.layer.name() for each in editings), fault, editings[0].session)
        if not isinstance(fault, ServerGone):
            for each in editings:
                _take_back(each)
                each.forget_taken_back()
                self._look_at(each)

    def _left(self, before: Any, now: Any) -> None:
        """Tells of a text that was typed and is no value: where there was none before, QGIS has no edit of it."""
        # One that is being deleted inherits nothing of it any more.
        if isinstance(before, QLineEdit) and before.inherits("QLineEdit") and before.text().strip():
            for words in {editing.unread_at(before) for editing in self.editings.values()} - {""}:
                self.teller.tell(f"{words}.", Qgis.Warning)

    # What is drawn and not sent yet is asked about.

    def _drew(self, editing: Editing, fid: int, *_: object) -> None:
        editing.touch(fid)
        if not self.at_once and not editing.is_sending and editing.layer.isEditable():
            self._drawn.append((editing.key, fid))
            if len(self._drawn) == 1:
                QTimer.singleShot(0, self._ask)

    def _ask(self) -> None:
        drawn, self._drawn = self._drawn[:_ASKED_MAX], []
        for layer, fid in drawn:
            editing = self.editings.get(layer)
            if editing is not None and editing.layer.isEditable() and not self._is_taken(editing, fid):
                return

    def _is_taken(self, editing: Editing, fid: int) -> bool:
        """Whether the store would take a geometry. Why it would not is told, with its place."""
        feature = editing.layer.getFeature(fid)
        try:
            if feature.isValid():
                wkt = editing.provider.wkt(feature.geometry())
                editing.session.line(f"check {editing.provider.source.layer} {wkt}")
            self.teller.clear(editing.session)
        except (NotSent, Refusal) as error:
            self.teller.refuse(f"{editing.layer.name()}, not sent yet", error, editing.session)
            return False
        except (CallFailed, ServerGone):
            # It is asked again when it is sent.
            pass
        return True

    def select(self, session: Session, features: Iterable[Breaking]) -> None:
        """Selects features of a store in its layers, and nothing else of these."""
        wanted = set(features)
        for editing in self._of(session):
            numbers = editing.provider.mirror.fids
            layer = editing.provider.source.layer
            editing.layer.selectByIds([numbers[number] for name, number in wanted if name == layer and number in numbers])

    # The store's history.

    def active(self) -> Editing | None:
        layer = self._iface.activeLayer()
        return self.editings.get(layer.id()) if layer is not None else None

    def _session(self) -> Session:
        active = self.active()
        if active is not None:
            return active.session  # type: ignore[no-any-return]
        sessions: dict[str, Session] = {each.session.path: each.session for each in self.editings.values()}
        if (opened := self._opened_last()) is not None:
            sessions[opened.path] = opened
        if not sessions:
            raise LayerRefused("Open a store first: none is open.")
        if len(sessions) > 1:
            raise LayerRefused("Choose a layer of the store that you mean: several are open.")
        return next(iter(sessions.values()))

    def _opened_last(self) -> Session | None:
        """The store that was opened last, where it is open still. Its file may have been opened anew since."""
        is_open = self._opened is not None and Session.open.get(self._opened.path) is self._opened and self._opened.path in self._sessions
        return self._opened if is_open else None

    def move(self, verb: str) -> None:
        """Undo or redo in the store."""
        session = self._session()
        if self._are_sent(self._of(session)):
            session.line(verb)

    def _are_sent(self, editings: Iterable[Editing]) -> bool:
        """Whether layers have no edits that the store has not. The first one that has some is told."""
        for each in editings:
            if each.layer.isModified():
                words = f"Save your edits of {each.layer.name()}, or take them back first: the store does not have them yet."
                self.teller.tell(words, Qgis.Warning)
                return False
        return True

    def choose_save(self) -> None:
        """Asks, and saves the store: QGIS has actions of that word that end no history."""
        words = f"Save {_file_of(self._session())} for all? The history begins anew: nobody can undo what was done before."
        if QMessageBox.question(self._iface.mainWindow(), "Save the store", words) == QMessageBox.Yes:
            self.save()

    def save(self) -> None:
        """Saves the store: the history begins anew, for all."""
        self.teller.tell(self._session().line("save")["text"])

    # Others.

    def _heard(self, session: Session, event: dict[str, Any]) -> None:
        """Says where somebody else has changed what is being edited here."""
        self.history.look()
        if not session.is_connected or event["is_own"]:
            return
        for editing in self._of(session):
            layer = editing.provider.source.layer
            changed = {change["id"] for change in event["changed"] if change["layer"] == layer} - {None}
            editing.hear(changed, event["before"])
            both = sorted(changed & editing.touched()) if event["number"] != session.editor else []
            if both:
                what = f"{event['editor']} has changed what you are changing too, {layer} {', '.join(map(str, both))}"
                self.teller.tell(f"Give your change up, look, and do it again: {what}.", Qgis.Warning)

    def _tell_layers(self, session: Session, renamed: tuple[str, str] | None, who: str) -> None:
        """Says which layers of the store are not in the project, and which ones of the project not in the store."""
        names = {layer["name"] for layer in session.layers()}
        shown = {each.provider.source.layer for each in self._of(session)}
        before, after = renamed or ("", "")
        if before in shown - names and after in names - shown:
            words = f"Open the store again to show it under its new name, and remove the old one: {who} has renamed {before} to {after}."
            self.teller.tell(words, Qgis.Warning)
            names, shown = names - {after}, shown - {before}
        if names - shown:
            self.teller.tell(f"Open the store again to show what is new: {', '.join(sorted(names - shown))}.")
        if shown - names:
            self.teller.tell(f"Leave it alone, or remove it from the project: the store has no {', '.join(sorted(shown - names))} any more.", Qgis.Warning)

    def _tell_kind(self, layer: str, kind: str) -> None:
        self.teller.tell(f"Open the store again to show it: {layer} has a {kind} now.", Qgis.Warning)

    def _lost(self, session: Session) -> None:
        self.teller.tell(f"Wait, or draw on: the server of {_file_of(session)} does not answer, and is tried again. Your edits stay.", Qgis.Warning)

    def _renewed(self, session: Session) -> None:
        in_doubt = []
        for editing in self._of(session):
            editing.renew()
            if editing.is_in_doubt and editing.layer.isModified():
                in_doubt.append(editing.layer.name())
        doubt = f"Look at {', '.join(in_doubt)}: save your last edit, or give it up if it is there. " if in_doubt else ""
        self.teller.tell(f"{doubt}The server of {_file_of(session)} answers again.", Qgis.Warning if in_doubt else Qgis.Info)


@contextlib.contextmanager
def _wait_cursor() -> Iterator[None]:
    """Shows that QGIS is at work, while it is: a large layer takes its time."""
    QgsApplication.setOverrideCursor(Qt.WaitCursor)
    try:
        yield
    finally:
        QgsApplication.restoreOverrideCursor()


def _file_of(session: Session) -> str:
    """The name of a store's file: several may be open."""
    return os.path.basename(session.path)


def _title(source: provider.Source) -> str:
    return f"{source.layer} ({source.kind})" if source.kind else source.layer


def _update_fields(layer: QgsVectorLayer) -> None:
    """Has a layer that is there still, with the plugin or without, take over the fields of its provider, and what forms offer."""
    if not sip.isdeleted(layer):
        layer.updateFields()
        _follow_widgets(layer)


def _set_precision(editing: Editing) -> None:
    """Has QGIS draw on the grid, where the grid is one that QGIS can have: a step from 0 on. A project may have that of before."""
    x, y, step, denominator = editing.session.grid.fractions
    is_from_0 = x % step == 0 and y % step == 0
    editing.layer.geometryOptions().setGeometryPrecision(step / denominator if is_from_0 else 0.0)


def _keep_identifiers(layer: QgsVectorLayer) -> None:
    """Has forms and tables show identifiers, and let nobody change them."""
    forms = layer.editFormConfig()
    forms.setReadOnly(layer.fields().indexOf(IDENTIFIER), True)
    layer.setEditFormConfig(forms)


def _follow_widgets(layer: QgsVectorLayer) -> None:
    """Has forms offer what rules say now: a layer keeps the lists that there were, and a project those when it was saved."""
    theirs = layer.dataProvider().fields()
    for at, field in enumerate(layer.fields()):
        place = theirs.indexOf(field.name())
        if place < 0:
            continue
        mine, wanted = layer.editorWidgetSetup(at), theirs[place].editorWidgetSetup()
        is_other = (mine.type(), mine.config()) != (wanted.type(), wanted.config())
        # What somebody has chosen for a field stays.
        if is_other and (mine.isNull() or is_widget_of_rules(mine)):
            layer.setEditorWidgetSetup(at, wanted)


def _take_back(editing: Editing) -> None:
    """Takes those edits of a layer back that were made since all before them was sent."""
    editing.is_sending = True
    try:
        stack = editing.layer.undoStack()
        while stack.index() > editing.base:
            stack.undo()
        if not editing.base:
            # Nothing of it can be redone. The store's steps are behind QGIS' undo where QGIS has none of its own.
            stack.clear()
    finally:
        editing.is_sending = False
