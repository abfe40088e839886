"""Forms of features that are open: QGIS fills them once, and what others change meanwhile is not shown in them.

A field of one line that has a text which is no value of its column gives none, as if it had been cleared.
"""

from __future__ import annotations

from collections.abc import Iterator
from typing import Any

from qgis.core import QgsApplication, QgsFeature
from qgis.gui import QgsAttributeEditorContext, QgsAttributeForm
from qgis.PyQt import sip
from qgis.PyQt.QtCore import QObject, Qt, pyqtSignal
from qgis.PyQt.QtWidgets import QApplication, QLineEdit

from sfstore.results import Column

from .fields import mark_of
from .values import is_read

__all__ = ["is_form_of_several_open", "shown_in_forms", "unread_in", "unread_text"]


class _Known(QObject):
    """The forms that are open, until QGIS goes on: many features may be edited in one go.

    QGIS deletes forms that were closed once it goes on, and Python does not hear of it.
    """

    _found = pyqtSignal()

    def __init__(self) -> None:
        super().__init__()
        self._forms: list[Any] | None = None
        self._lines: list[Any] = []
        # Behind what waits already, and before the deletion of a form that is closed from now on.
        self._found.connect(self._forget, Qt.QueuedConnection)

    def forms(self) -> list[Any]:
        if self._forms is None:
            # Those that QGIS has made are widgets to Python, of no class of QGIS.
            widgets = [each for each in QApplication.allWidgets() if each.inherits(_FORM) and each.isVisible()]
            self._forms = [sip.cast(each, QgsAttributeForm) for each in widgets]
            self._lines = [each for each in QApplication.allWidgets() if isinstance(each, QLineEdit) and each.isVisible()]
            self._found.emit()
        return self._forms

    def lines(self) -> list[Any]:
        """The fields of one line that are seen."""
        self.forms()
        return self._lines

    def _forget(self) -> None:
        self._forms, self._lines = None, []


_FORM = "QgsAttributeForm"
_known = _Known()


def shown_in_forms(fid: int, mark: str) -> Iterator[QgsFeature]:
    """What each open form shows as the feature with a number of QGIS', of those that are from where a mark says.

    It may be another feature of the store, where QGIS' numbers have become others since. Which layer a form is of can't be
    asked: it may be gone, and QGIS would end.
    """
    for form in _known.forms():
        shown = form.feature()
        if shown.id() == fid and mark_of(shown.fields()) == mark:
            yield shown


def is_form_of_several_open() -> bool:
    """Whether a form is open that edits several features at once. Which ones it shows can't be asked."""
    return any(form.mode() == QgsAttributeEditorContext.MultiEditMode for form in _known.forms())


def unread_text(column: Column, mark: str) -> str:
    """What stands in an open field of a column and is none of its values, so that QGIS has none there; empty where nothing does.

    ``mark`` says of which layer of which store the column is: others may have one of its name.
    """
    return next(filter(None, (unread_in(line, column, mark) for line in _known.lines())), "")


def unread_in(line: Any, column: Column, mark: str) -> str:
    """The same of one field of one line."""
    text = str(line.text())
    is_unread = text.strip() and text != QgsApplication.nullRepresentation() and not is_read(text, column.type)
    return text if is_unread and _is_field_of(line, column.name, mark) else ""


def _is_field_of(line: Any, name: str, mark: str) -> bool:
    """Whether a field of one line is that of a column in a form, or in a table, which has one open at a time."""
    widget, is_named = line, False
    while widget is not None:
        if widget.inherits(_FORM):
            # That of several features has none.
            return is_named and mark_of(sip.cast(widget, QgsAttributeForm).feature().fields()) in ("", mark)
        if widget.inherits("QAbstractItemView") and not is_named:
            at = widget.currentIndex().column()
            return at >= 0 and bool(widget.model().headerData(at, Qt.Horizontal) == name)
        is_named = is_named or widget.objectName() == name
        widget = widget.parent()
    return is_named
