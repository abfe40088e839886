"""How it is told to the person who edits: in the message bar, with marks on the map."""

from __future__ import annotations

import contextlib
import html
import math
from collections.abc import Callable, Iterable
from functools import partial
from typing import Any

from qgis.core import Qgis, QgsCoordinateTransform, QgsCsException, QgsGeometry, QgsPointXY, QgsProject, QgsRectangle
from qgis.gui import QgsRubberBand, QgsVertexMarker
from qgis.PyQt.QtCore import QEvent, QObject
from qgis.PyQt.QtGui import QColor
from qgis.PyQt.QtWidgets import QPushButton, QTextBrowser

from sfstore.exchange.grid import Grid
from sfstore.geometry import Shape, write_wkb

from .session import Refusal, Session
from .words import points_of, words_of

__all__ = ["Breaking", "Teller", "as_shown", "breaking_of", "geometry_of"]

Breaking = tuple[str, int]
"""A feature that would break a rule: its layer and its identifier in the store."""

_MARKER_PIXELS, _PEN_PIXELS = 18, 3
_SHOWN_SECONDS = 10
_REFUSED, _REFUSED_FILL = QColor(220, 0, 0), QColor(220, 0, 0, 40)


def as_shown(text: str) -> str:
    """A text as QGIS' message bar has to have it, to show it as it is: names and values in it are anybody's."""
    return html.escape(text, quote=False)


def breaking_of(error: Exception) -> list[Breaking]:
    """The features that would break a rule, of those that are there."""
    found = error.told.get("broken") if isinstance(error, Refusal) else None
    return [(each["layer"], each["id"]) for each in found["features"] if "members" in each] if found else []


def geometry_of(error: Exception, grid: Grid) -> QgsGeometry | None:
    """The geometry that was refused, in the units of the map; none where it has no form that can be shown."""
    if not isinstance(error, Refusal) or not error.told.get("members"):
        return None
    return _in_map(error.told, grid)


def _breaking_geometries(error: Exception, grid: Grid) -> list[QgsGeometry]:
    """The geometries of the features that would break a rule, in the units of the map."""
    found = error.told.get("broken") if isinstance(error, Refusal) else None
    return [_in_map(each, grid) for each in found["features"] if "members" in each] if found else []


def _in_map(told: dict[str, Any], grid: Grid) -> QgsGeometry:
    """A geometry that the server has sent, in the units of the map."""
    geometry = QgsGeometry()
    geometry.fromWkb(write_wkb(Shape(told["code"], told["members"]).mapped(grid.places)))
    return geometry


class _Whole(QObject):
    """Has the text of a message be as high as it is, in a window of any width: QGIS shows a line and a half of it."""

    def __init__(self, browser: QTextBrowser) -> None:
        super().__init__(browser)
        self._browser = browser
        self._sheet = browser.styleSheet()
        self._height = 0
        # What the text stands in: it has its width when it hears of it.
        browser.viewport().installEventFilter(self)
        self._fit()

    def eventFilter(self, watched: QObject, event: QEvent) -> bool:
        if event.type() == QEvent.Resize:
            self._fit()
        return False

    def _fit(self) -> None:
        text = self._browser.document().clone()
        text.setTextWidth(self._browser.viewport().width())
        height = math.ceil(text.size().height())
        if height != self._height:
            self._height = height
            self._browser.setStyleSheet(f"{self._sheet} QTextEdit {{ min-height: {height}px; max-height: {height}px; }}")


class Teller:
    """The message bar, and marks on the map."""

    def __init__(self, iface: Any, select: Callable[[Session, list[Breaking]], object]) -> None:
        self._iface = iface
        self._select = select
        # What was said of the last refusal of each store, and its marks, until something is done there that is not refused.
        self._refusals: dict[str, tuple[Any, list[Any]]] = {}

    @property
    def markers(self) -> list[Any]:
        """What is marked on the map."""
        return [marker for _, markers in self._refusals.values() for marker in markers]

    def tell(self, text: str, level: Any = Qgis.Info) -> Any:
        """Says something for some seconds; what is critical until it is closed."""
        item = self._iface.messageBar().createMessage("sfstore", as_shown(text))
        return self._push(item, level, 0 if level == Qgis.Critical else _SHOWN_SECONDS)

    def refuse(self, layer: str, error: Exception, session: Session) -> None:
        """Says why an edit was not taken, shows what was refused, and marks the place."""
        self.clear(session)
        text = words_of(error, session.grid, layer)
        refused = geometry_of(error, session.grid)
        breaking = _breaking_geometries(error, session.grid)
        if breaking:
            item = self._tell_with_button(text, partial(self._visit, session, breaking_of(error), breaking))
        else:
            item = self.tell(text, Qgis.Critical)
        shown = [self._shown(geometry, session.crs) for geometry in [*breaking, *([] if refused is None else [refused])]]
        self._refusals[session.path] = item, [*shown, *self._marks(points_of(error, session.grid), session.crs)]

    def clear(self, session: Session | None = None) -> None:
        """Takes the last refusal of a store away, or those of all, with the marks: what another store has refused is refused still."""
        bar = self._iface.messageBar()
        for path in list(self._refusals) if session is None else [session.path]:
            item, markers = self._refusals.pop(path, (None, []))
            if item is not None and item in bar.items():
                bar.popWidget(item)
            for marker in markers:
                self._iface.mapCanvas().scene().removeItem(marker)

    def _tell_with_button(self, text: str, act: Callable[[], object]) -> Any:
        """Says something that is critical, with a button that shows what it is about."""
        item = self._iface.messageBar().createMessage("sfstore", as_shown(text))
        button = QPushButton("Show them", item)
        button.clicked.connect(lambda *_: act())
        item.layout().addWidget(button)
        return self._push(item, Qgis.Critical, 0)

    def _push(self, item: Any, level: Any, seconds: int) -> Any:
        """Shows a message, all of it."""
        self._iface.messageBar().pushWidget(item, level, seconds)
        for browser in item.findChildren(QTextBrowser):
            _Whole(browser)
        return item

    def _visit(self, session: Session, features: list[Breaking], geometries: list[QgsGeometry]) -> None:
        """Selects features, and moves the map to them."""
        self._select(session, features)
        canvas = self._iface.mapCanvas()
        shown = self._transform(session.crs)
        box = QgsRectangle()
        for geometry in geometries:
            # Where the map's reference system has no such place it stays where it is.
            with contextlib.suppress(QgsCsException):
                box.combineExtentWith(shown.transformBoundingBox(geometry.boundingBox()))
        if not box.isNull():
            canvas.zoomToFeatureExtent(box)
        canvas.refresh()

    def _transform(self, crs: Any) -> QgsCoordinateTransform:
        """How the coordinates of a store become those of the map that is shown."""
        return QgsCoordinateTransform(crs, self._iface.mapCanvas().mapSettings().destinationCrs(), QgsProject.instance())

    def _shown(self, geometry: QgsGeometry, crs: Any) -> Any:
        """What shows a geometry on the map."""
        band = QgsRubberBand(self._iface.mapCanvas(), geometry.type())
        band.setToGeometry(geometry, crs)
        band.setStrokeColor(_REFUSED)
        band.setFillColor(_REFUSED_FILL)
        return band

    def _marks(self, points: Iterable[tuple[float, float]], crs: Any) -> list[Any]:
        """Crosses at points, of those that the map can show."""
        canvas, shown, found = self._iface.mapCanvas(), self._transform(crs), []
        for point in points:
            try:
                place = shown.transform(QgsPointXY(*point))
            except QgsCsException:
                continue
            marker = QgsVertexMarker(canvas)
            marker.setCenter(place)
            marker.setIconSize(_MARKER_PIXELS)
            marker.setPenWidth(_PEN_PIXELS)
            found.append(marker)
        return found
