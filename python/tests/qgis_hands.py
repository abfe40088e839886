"""Mouse and keyboard in the whole QGIS, for tours: `test_qgis_whole` has QGIS carry them out.

A tour writes what was seen as JSON to a file, and pictures beside it.
"""

from __future__ import annotations

import json
import os
import time
import traceback
from pathlib import Path

import qgis.utils
from qgis.core import QgsApplication, QgsPointXY, QgsProject, QgsRectangle
from qgis.PyQt.QtCore import QEvent, QPoint, Qt, QTimer
from qgis.PyQt.QtTest import QTest
from qgis.PyQt.QtWidgets import QApplication, QDockWidget, QToolButton
from qgis.utils import iface

STORE, TOLD = Path(os.environ["TOUR_STORE"]), Path(os.environ["TOUR_TOLD"])
SECONDS = 60.0
WIDTH, HEIGHT = 1280, 720
LONGEST_MILLISECONDS = 400_000


def wait(seconds=0.2):
    until = time.monotonic() + seconds
    while time.monotonic() < until:
        QgsApplication.processEvents()
        # What is to go once this turn of the loop has ended: the tour is one turn.
        QgsApplication.sendPostedEvents(None, QEvent.DeferredDelete)
        time.sleep(0.005)


def wait_for(is_so, what="it"):
    until = time.monotonic() + SECONDS
    while not is_so():
        if time.monotonic() > until:
            raise TimeoutError(f"{what} does not come")
        wait(0.02)


class Hands:
    """What somebody does in QGIS."""

    def __init__(self):
        self.plugin = qgis.utils.plugins["sfstore_qgis"]
        self.window, self.canvas = iface.mainWindow(), iface.mapCanvas()
        self.told = {}

    def take(self):
        """Takes the store that is open, with its parcels."""
        from sfstore_qgis.session import Session

        self.session = Session.of(str(STORE))
        [self.parcels] = QgsProject.instance().mapLayersByName("parcels")

    def see(self, *box):
        """Moves the map to a box, in its own units."""
        self.window.findChild(QDockWidget, "Browser").hide()
        # QGIS shows the whole of what is opened first.
        wait(1.5)
        self.canvas.setDestinationCrs(self.parcels.crs())
        self.canvas.setExtent(QgsRectangle(*box))
        self.canvas.refresh()
        wait(1.5)

    def draw(self, points):
        iface.actionAddFeature().trigger()
        wait()
        self.click_along(points)

    def click_along(self, points):
        """Clicks points, and ends with a right click."""
        for point in points:
            self.click(point)
        self.click(points[-1], Qt.RightButton)
        wait(0.6)

    def click(self, point, button=Qt.LeftButton):
        place = self.canvas.getCoordinateTransform().transform(QgsPointXY(*point))
        pixel = QPoint(int(place.x()), int(place.y()))
        QTest.mouseMove(self.canvas.viewport(), pixel)
        wait(0.05)
        QTest.mouseClick(self.canvas.viewport(), button, Qt.NoModifier, pixel)
        wait(0.1)

    def press(self, action):
        """Presses the button of an action in a toolbar."""
        buttons = self.window.findChildren(QToolButton)
        [button] = [each for each in buttons if each.defaultAction() is action and each.isVisible()]
        QTest.mouseClick(button, Qt.LeftButton)
        wait(0.3)

    def key(self, key, modifiers=Qt.NoModifier, widget=None):
        """Presses a key in a widget, or in the map."""
        widget = widget or self.canvas
        # Nobody manages windows on this screen, and keys are for the active one.
        QApplication.setActiveWindow(widget.window())
        widget.setFocus()
        wait(0.1)
        QTest.keyClick(widget, key, modifiers)
        wait(0.3)

    def action(self, text):
        """One of the plugin's actions."""
        [found] = [each for each in self.plugin.bar.actions if each.text() == text]
        return found

    def answering(self, act):
        """Has a dialog or a menu answered as soon as it is open, and again where it stays: what opens it waits for that."""
        tried = []

        def look():
            box = QApplication.activeModalWidget() or QApplication.activePopupWidget()
            if box is not None:
                tried.append(box)
                act(box)
            if box is not None or not tried:
                QTimer.singleShot(500, look)

        QTimer.singleShot(300, look)

    def count(self):
        return len(self.session.identifiers("parcels"))

    def fid(self, number):
        return self.plugin.editings[self.parcels.id()].provider.mirror.fids[number]

    def owner(self, number):
        return self.parcels.getFeature(self.fid(number))["owner"]

    def bars(self):
        found = [item.text() for item in iface.messageBar().items() if item.title() == "sfstore"]
        iface.messageBar().clearWidgets()
        return found

    def said(self, picture=""):
        """What the message bar says, once it says something of the plugin's; with a picture of it where that has a name."""
        wait_for(lambda: any(item.title() == "sfstore" for item in iface.messageBar().items()), "a message")
        if picture:
            self.picture(picture)
        return self.bars()

    def picture(self, name):
        """A picture of the window, with what stands before it."""
        wait(0.5)
        box = self.window.geometry()
        width, height = min(box.width(), WIDTH), min(box.height(), HEIGHT)
        screen = QApplication.primaryScreen().grabWindow(0, box.x(), box.y(), width, height)
        screen.save(str(TOLD.with_name(f"{name}.png")))

    def note(self, what, seen):
        self.told[what] = seen


def carried_out(tour):
    """Has a tour carried out once QGIS is ready, and ends QGIS."""

    told = {}

    def end():
        iface.mainWindow().grab().save(str(TOLD.with_name("fault.png")))
        TOLD.write_text(json.dumps(told))
        os._exit(0)

    def give_up():
        told["fault"] = f"it takes too long, in {QApplication.activeModalWidget()}: {''.join(traceback.format_stack())}"
        end()

    def main():
        nonlocal told
        try:
            begun = tour()
            told = begun.told
            begun.run()
        except BaseException:
            told["fault"] = traceback.format_exc()
            end()
        TOLD.write_text(json.dumps(told))
        os._exit(0)

    # A dialog that nobody answers waits for ever.
    QTimer.singleShot(LONGEST_MILLISECONDS, give_up)
    QTimer.singleShot(2_000, main)
