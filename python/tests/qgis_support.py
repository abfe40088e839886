"""What the tests inside of QGIS have in common: an application without a screen, a window, and the plugin in it.

Only `test_qgis` starts them, in processes of their own: QGIS may end a process.
"""

from __future__ import annotations

import contextlib
import datetime
import html
import json
import os
import signal
import sys
import time
from decimal import Decimal
from unittest import mock

from support import FOLDER, PROGRAM
from web_support import TOWN, WebCase

os.environ.setdefault("QT_QPA_PLATFORM", "offscreen")
os.environ["SFSTORE"] = PROGRAM
sys.path.insert(0, str(FOLDER.parent / "qgis"))

from qgis.core import Qgis, QgsApplication, QgsFeature, QgsGeometry, QgsProject, QgsSettings  # noqa: E402
from qgis.gui import QgsMapCanvas, QgsMessageBar  # noqa: E402
from qgis.PyQt.QtCore import NULL, QCoreApplication, QDate, QDateTime, Qt, pyqtSignal  # noqa: E402
from qgis.PyQt.QtWidgets import QAction, QMainWindow, QVBoxLayout, QWidget  # noqa: E402

QCoreApplication.setOrganizationName("sfstore-tests")
APP = QgsApplication([], True)
APP.initQgis()


def _told(*error):
    """What a slot raises ends the process: no test may pass beside it."""
    sys.__excepthook__(*error)
    sys.stderr.flush()
    os._exit(1)


sys.excepthook = _told

from sfstore_qgis import editing as at_work  # noqa: E402
from sfstore_qgis import session  # noqa: E402
from sfstore_qgis.plugin import Plugin  # noqa: E402
from sfstore_qgis.session import Session  # noqa: E402

from sfstore import files  # noqa: E402
from sfstore.rows import feature_of  # noqa: E402
from sfstore.values import spelled  # noqa: E402
from sfstore.web import client  # noqa: E402
from sfstore.web.client import Client  # noqa: E402

SIDECAR = {
    "format": "sfstore side-car 1",
    "grid": ["500000", "5600000", "0.1"],
    "crs": {"authority": "EPSG", "code": "25832", "wkt": ""},
    "layers": [],
}
CROSSED = "POLYGON((500510 5600040, 500540 5600070, 500540 5600040, 500510 5600064, 500510 5600040))"
SQUARE = "POLYGON((500510 5600000, 500540 5600000, 500540 5600030, 500510 5600030, 500510 5600000))"


class Window(QMainWindow):
    """As much of QGIS' window as the plugin needs."""

    currentLayerChanged = pyqtSignal(object)

    def __init__(self):
        super().__init__()
        self.canvas, self.messages, box = QgsMapCanvas(), QgsMessageBar(), QWidget()
        layout = QVBoxLayout(box)
        layout.addWidget(self.messages)
        layout.addWidget(self.canvas)
        self.setCentralWidget(box)
        self.resize(1000, 700)
        self.active = None
        for name in ("mActionUndo", "mActionRedo"):
            action = QAction(name, self)
            action.setObjectName(name)
            action.setEnabled(False)
        self.listed = []

    def addPluginToMenu(self, name, action):
        self.listed.append(action.text())

    def removePluginMenu(self, name, action):
        self.listed.remove(action.text())

    def mapCanvas(self):
        return self.canvas

    def messageBar(self):
        return self.messages

    def mainWindow(self):
        return self

    def activeLayer(self):
        return self.active

    def make_active(self, layer):
        self.active = layer
        self.currentLayerChanged.emit(layer)

    def action(self, name):
        return self.findChild(QAction, name)


class QgisCase(WebCase):
    """A test with the town open in QGIS, as Ann."""

    SECONDS = 300
    lines = TOWN.read_bytes()
    grid = SIDECAR["grid"]
    at_once = False
    unseen_seconds = 0.0

    def setUp(self):
        super().setUp()
        self.make(self.lines)
        self.place(self.path)
        # A test has seen what it waited for. Those of what it has not seen say so.
        unseen = mock.patch.object(at_work, "UNSEEN_SECONDS", self.unseen_seconds)
        unseen.start()
        self.addCleanup(unseen.stop)
        QgsSettings().setValue("sfstore/name", "Ann")
        QgsSettings().setValue("sfstore/at_once", self.at_once)
        Session.program = PROGRAM
        self.window = Window()
        self.plugin = Plugin(self.window)
        self.plugin.initGui()
        self.addCleanup(self.end)
        self.plugin.open(str(self.path))
        self.session = Session.of(str(self.path))

    def place(self, path, grid=None, crs="25832"):
        """Writes the side-car of a store's file."""
        system = {**SIDECAR["crs"], "code": crs}
        told = {**SIDECAR, "grid": grid or self.grid, "crs": system, "digests": [files.digest(str(path))]}
        path.with_name(path.name + ".json").write_text(json.dumps(told))

    def end(self):
        """Leaves the project and the store, and ends the server."""
        QgsProject.instance().clear()
        self.plugin.unload()
        for each in list(Session.open.values()):
            each.close()
        for server in client._servers.values():
            server.process.kill()
            server.process.wait()
            server.said.close()
        client._servers.clear()
        QgsApplication.processEvents()

    def server(self):
        """The process of the server."""
        return client._servers[os.path.realpath(self.path)].process

    def replace(self, lines):
        """Has another store, on the same grid, in the place of this one, whose programs have ended; the server goes on."""
        for child in os.popen(f"pgrep -P {self.server().pid}").read().split():
            os.kill(int(child), signal.SIGKILL)
        other = self.folder / "other.sfs"
        self.make(lines, other)
        os.replace(other, self.path)
        self.place(self.path)
        self.path.with_name("town.sfs.journal").unlink(missing_ok=True)
        # The first one who asks finds them ended.
        with Client(str(self.path), "Ben", 30) as ben, contextlib.suppress(client.CallFailed):
            ben.call("line", page="ben", line="undo")

    def layer(self, name="parcels"):
        [found] = QgsProject.instance().mapLayersByName(name)
        return found

    def ben(self):
        """Another editor of the same store, at the socket."""
        made = Client(str(self.path), "Ben", 30)
        self.addCleanup(made.close)
        return made

    def bens(self, ben, *lines):
        """Has Ben edit, who has seen all, and waits until it is seen here."""
        version = ben.call("map")["version"]
        ben.call("batch", page="ben", lines=list(lines), seen=[version] * len(lines))
        self.settle()

    def settle(self, seconds=30.0):
        """Waits until all that the store has is seen here."""
        version = self.session.call("map")["version"]
        self.wait_for(lambda: self.session.version >= version, seconds)
        self.turn()

    def turn(self, seconds=0.05):
        """Lets QGIS do what waits."""
        until = time.monotonic() + seconds
        while time.monotonic() < until:
            QgsApplication.processEvents()
            time.sleep(0.002)

    def wait_for(self, is_so, seconds=30.0):
        until = time.monotonic() + seconds
        while not is_so():
            if time.monotonic() > until:
                self.fail("it does not come")
            self.turn(0.01)

    def fid(self, number, layer=None):
        """QGIS' number of a feature of the store."""
        return self.plugin.editings[(layer or self.layer()).id()].provider.mirror.fids[number]

    def feature(self, number, layer=None):
        return (layer or self.layer()).getFeature(self.fid(number, layer))

    def draw(self, wkt, layer=None, **values):
        """Draws a feature as a tool does, and gives it."""
        layer = layer or self.layer()
        feature = QgsFeature(layer.fields())
        feature.setGeometry(QgsGeometry.fromWkt(wkt))
        for name, value in values.items():
            feature[name] = value
        layer.beginEditCommand("draw")
        self.assertTrue(layer.addFeature(feature))
        layer.endEditCommand()
        return feature

    def set(self, number, column, value, layer=None):
        layer = layer or self.layer()
        self.assertTrue(layer.changeAttributeValue(self.fid(number, layer), layer.fields().indexOf(column), value))

    def stored(self, layer="parcels"):
        """The rows of a layer in the store, by their identifiers."""
        rows = self.session.rows(layer, self.session.identifiers(layer))
        return {int(row.split(" ")[0]): row for row in rows}

    def said(self):
        """What stands in the message bar, and takes it away."""
        found = [html.unescape(item.text()) for item in self.window.messages.items()]
        self.window.messages.clearWidgets()
        return found

    def assert_alike(self):
        """What QGIS shows is what the store has, each value under the name of its column."""
        for editing in self.plugin.editings.values():
            mirror = editing.provider.mirror
            rows = self.stored(mirror.name)
            names = editing.layer.fields().names()
            if not mirror.held:
                columns = [column.name for column in self.session.columns(mirror.name)]
                self.assertEqual(sorted(names), sorted(["_id", *columns]))
            shown = {}
            for feature in editing.layer.getFeatures():
                values = dict(zip(names, feature.attributes()))
                number = values.pop("_id")
                told = {name: known(value) for name, value in values.items() if value is not None and value != NULL}
                shown[number] = (editing.provider.wkt(feature.geometry()), told)
            types = dict(self.session.columns(mirror.name))
            expected = {number: parts_of(row, types) for number, row in rows.items() if kind_of(row) == mirror.kind}
            self.assertEqual(shown, expected)


def known(value):
    """A value of QGIS as Python has it; decimals are texts there."""
    if isinstance(value, QDateTime):
        assert value.timeSpec() == Qt.UTC
        return value.toPyDateTime().replace(tzinfo=datetime.timezone.utc)
    return value.toPyDate() if isinstance(value, QDate) else value


def parts_of(row, types):
    found = feature_of(row, types)
    return found.wkt, {name: spelled(value) if isinstance(value, Decimal) else value for name, value in found.values.items()}


def kind_of(row):
    return row.split(" ")[1].lower()


__all__ = ["APP", "CROSSED", "SQUARE", "Client", "Qgis", "QgisCase", "session"]
