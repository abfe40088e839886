"""How layers look: styles that are kept with a store, for each QGIS that opens it."""

from __future__ import annotations

from collections.abc import Iterable, Mapping
from xml.etree.ElementTree import canonicalize  # nosec B405: it reads what QGIS itself has written.

from qgis.core import Qgis, QgsMapLayer, QgsReadWriteContext, QgsVectorLayer
from qgis.PyQt.QtXml import QDomDocument

from sfstore.web.client import CallFailed, ServerGone
from sfstore.web.qml import PARTS

from .editing import Editing
from .provider import Source
from .session import LayerRefused, Session, Style
from .told import Teller

__all__ = ["Styles"]

# What of a layer's style is kept: no forms, no actions, and nothing else that could be code.
_KEPT = QgsMapLayer.Symbology | QgsMapLayer.Labeling | QgsMapLayer.Rendering
# The property of a layer that has the mark of the store's style which its user has seen last. A project keeps it.
_MARK = "sfstore/style"


class Styles:
    """Saves the styles of layers with their store, and shows what others have saved."""

    def __init__(self, teller: Teller, editings: Mapping[str, Editing]) -> None:
        self._teller, self._editings = teller, editings
        # How layers looked when they looked as the store says: whoever has changed that since keeps it.
        self._shown: dict[str, str] = {}
        # The layers that were opened, and not read with a project.
        self._opened: set[str] = set()

    def begin(self, session: Session, opened: Iterable[tuple[Source, QgsVectorLayer]]) -> None:
        """Has layers that were opened look as their store says. What is wrong with a style is told, and keeps no layer away."""
        faults = {}
        for source, layer in opened:
            self._opened.add(layer.id())
            try:
                if layer.isValid():
                    self._show(layer, session.style(source.layer, source.kind))
            except (CallFailed, LayerRefused, ServerGone) as error:
                faults[str(error)] = error
        for fault in faults:
            self._teller.tell(fault, Qgis.Warning)

    def check(self, editings: list[Editing]) -> None:
        """Says which layers look otherwise than the store says: those of a project that was read have the project's own style."""
        read = [each for each in editings if each.key not in self._opened]
        differ, faults = [], {}
        for each in read:
            try:
                differ += [each.layer.name()] if _differs(each) else []
            except (CallFailed, LayerRefused, ServerGone) as error:
                faults[str(error)] = error
        for fault in faults:
            self._teller.tell(fault, Qgis.Warning)
        if differ:
            names = ", ".join(sorted(differ))
            self._teller.tell(f"Show the store's style, if you want that: {names} looks as your project has it, and the store has another style.")

    def forget(self, key: str) -> None:
        self._shown.pop(key, None)
        self._opened.discard(key)

    def save(self, editing: Editing) -> None:
        """Keeps how a layer looks with its store, for all."""
        layer, source = editing.layer, editing.provider.source
        qml = _text_of(layer)
        try:
            mark, gave_way = editing.session.save_style(source.layer, source.kind, qml, _seen(layer))
        except CallFailed as error:
            self._refuse(editing, error)
            return
        self._note(layer, mark)
        self._teller.tell(f"The style of {layer.name()} is kept with the store: who opens it in QGIS sees it so.")
        if gave_way:
            words = f"Keep a style anew if an undo brings {', '.join(gave_way)} back: there was no room for styles of layers that were dropped."
            self._teller.tell(words, Qgis.Warning)

    def show(self, editing: Editing) -> None:
        """Has a layer look as the store says."""
        style = _kept(editing)
        if style.qml is None:
            raise LayerRefused(f"Save one first: the store has no style for {editing.layer.name()}.")
        self._show(editing.layer, style)
        self._teller.tell(f"{editing.layer.name()} looks as {style.by} has saved it.")

    def drop(self, editing: Editing) -> None:
        """Takes the style of a layer out of its store. The layer looks as it did."""
        source = editing.provider.source
        try:
            editing.session.save_style(source.layer, source.kind, None, _seen(editing.layer))
        except CallFailed as error:
            self._refuse(editing, error)
            return
        self._note(editing.layer, None)
        self._teller.tell(f"The store has no style for {editing.layer.name()} any more.")

    def hear(self, session: Session, layer: str, kind: str, mark: str, editor: str) -> None:
        """Shows a style that somebody else has saved, where this QGIS has shown the store's until now. Else it is told.

        What has become of the style since is heard of by itself: nothing is said where the layer has another name now.
        """
        for editing in list(self._editings.values()):
            source = editing.provider.source
            if editing.session is not session or (source.layer, source.kind) != (layer, kind):
                continue
            style = session.style(layer, kind)
            if style.mark == _seen(editing.layer) or (style.qml is None and (mark or not session.has_layer(layer))):
                continue
            name = editing.layer.name()
            if style.qml is not None and self._shown.get(editing.key) == _look_of(editing.layer):
                self._show(editing.layer, style)
                self._teller.tell(f"{name} looks as {style.by} has saved it just now.")
            elif style.qml is not None:
                self._teller.tell(f"Show the store's style to see it: {style.by} has saved another style for {name}. Yours stays until then.")
            else:
                self._note(editing.layer, None)
                self._teller.tell(f"{editor} has taken the style for {name} out of the store. It stays here.")

    def _refuse(self, editing: Editing, error: CallFailed) -> None:
        """Says why a style was not saved. One that somebody else has saved meanwhile counts as seen from then on."""
        if error.status != 409:
            raise error
        style, name = _kept(editing), editing.layer.name()
        editing.layer.setCustomProperty(_MARK, style.mark or "")
        if style.qml is None:
            words = f"Save it once more: the style of {name} was taken out of the store meanwhile."
        else:
            words = f"Show the store's style first, or do it once more to put yours in its place: {style.by} has saved another style for {name}."
        self._teller.tell(words, Qgis.Warning)

    def _show(self, layer: QgsVectorLayer, style: Style) -> None:
        """Has a layer look as a style says. `LayerRefused` where QGIS can't read it."""
        if style.qml is not None:
            document = QDomDocument()
            document.setContent(style.qml)
            is_shown, why = layer.importNamedStyle(document, _KEPT)
            if not is_shown:
                raise LayerRefused(f"Save another style for {layer.name()}: QGIS can't read the store's. {why}")
            layer.triggerRepaint()
            layer.emitStyleChanged()
        self._note(layer, style.mark)

    def _note(self, layer: QgsVectorLayer, mark: str | None) -> None:
        """Notes that a layer looks as the store says."""
        layer.setCustomProperty(_MARK, mark or "")
        self._shown[layer.id()] = _look_of(layer)


def _kept(editing: Editing) -> Style:
    """What the store has for a layer. `LayerRefused` where it has no layer of this name: a style goes with its layer to another one."""
    source = editing.provider.source
    found: Style = editing.session.style(source.layer, source.kind)
    if found.qml is None and not editing.session.has_layer(source.layer):
        raise LayerRefused(f"Open the store again: it has no {source.layer} any more.")
    return found


def _differs(editing: Editing) -> bool:
    """Whether a layer that the store has looks otherwise than the store says."""
    source = editing.provider.source
    style = editing.session.style(source.layer, source.kind)
    return _seen(editing.layer) != style.mark and (style.qml is not None or editing.session.has_layer(source.layer))


def _seen(layer: QgsVectorLayer) -> str | None:
    """The mark of the style that the user of a layer has seen."""
    return str(layer.customProperty(_MARK, "") or "") or None


def _text_of(layer: QgsVectorLayer) -> str:
    """How a layer looks, as QGIS writes it. `LayerRefused` where it can't."""
    document = QDomDocument()
    why = layer.exportNamedStyle(document, QgsReadWriteContext(), QgsMapLayer.StyleCategories(_KEPT))
    if why:
        raise LayerRefused(f"QGIS can't write the style of {layer.name()}: {why}")
    root = document.documentElement()
    child = root.firstChildElement()
    while not child.isNull():
        following = child.nextSiblingElement()
        if child.tagName() not in PARTS:
            root.removeChild(child)
        child = following
    return str(document.toString(-1))


def _look_of(layer: QgsVectorLayer) -> str:
    """How a layer looks, as a text that is the same as long as it does: QGIS' own has its attributes in any order."""
    return canonicalize(_text_of(layer))
