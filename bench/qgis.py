#!/usr/bin/python3
"""Times QGIS over a store, beside a memory layer and a GeoPackage of the same parcels.

    bench/qgis.py PROGRAM [FEATURES]

makes a store of so many parcels of six points with two values (100,000 if not given), opens it by the plugin's
provider in PyQGIS without a screen, and measures opening, drawing, questions, expressions, edits, commits and undo. It
needs the Python that has QGIS.
"""

from __future__ import annotations

import itertools
import json
import os
import random
import resource
import statistics
import sys
import tempfile
import time
from pathlib import Path

TOP = Path(__file__).resolve().parent.parent
# In the place of this script's folder, in which the name of QGIS' own module would lead to it.
sys.path[:1] = [str(TOP / "python"), str(TOP / "qgis")]
os.environ.setdefault("QT_QPA_PLATFORM", "offscreen")

from qgis.core import (  # noqa: E402
    Qgis,
    QgsApplication,
    QgsCoordinateTransformContext,
    QgsExpression,
    QgsExpressionContext,
    QgsExpressionContextUtils,
    QgsFeature,
    QgsFeatureRequest,
    QgsGeometry,
    QgsMapRendererParallelJob,
    QgsMapSettings,
    QgsRectangle,
    QgsVectorFileWriter,
    QgsVectorLayer,
)
from qgis.PyQt.QtCore import QEventLoop, QSize  # noqa: E402

APP = QgsApplication([], True)
APP.initQgis()

from sfstore_qgis import provider  # noqa: E402
from sfstore_qgis.editing import Editing, commit  # noqa: E402
from sfstore_qgis.functions import Functions  # noqa: E402
from sfstore_qgis.session import Session  # noqa: E402

from sfstore import files, storefile  # noqa: E402
from sfstore.geometry import Shape, write_wkb  # noqa: E402
from sfstore.web import client  # noqa: E402

GRID = ["500000", "5600000", "0.01"]
WIDTH, HEIGHT = 2_000, 3_000


def make(path: Path, count: int) -> None:
    """Writes a store's file of parcels in rows, and its side-car."""
    columns = [storefile.FileColumn(1, storefile.INT, "number"), storefile.FileColumn(2, storefile.TEXT, "owner")]
    layer = storefile.FileLayer("parcels", 3, count + 1, 3, columns)
    row = int(count**0.5) + 1
    for k in range(count):
        x, y = (k % row - row // 2) * WIDTH, (k // row - row // 2) * HEIGHT
        ring = [x, y, x + 1800, y, x + 1800, y + 2800, x + 900, y + 2900, x, y + 2800, x, y]
        values = {1: k, 2: f"owner {k % 99}"}
        layer.features.append(storefile.FileFeature(k + 1, write_wkb(Shape(3, [[ring]])), values))
    with open(path, "wb") as file:
        storefile.write(file, [layer])
    crs = {"authority": "EPSG", "code": "25832", "wkt": ""}
    told = {"format": "sfstore side-car 1", "grid": GRID, "crs": crs, "layers": [], "digests": [files.digest(str(path))]}
    path.with_name(path.name + ".json").write_text(json.dumps(told))


def timed(what: str, work, times: int = 1):
    """What some work gives, and prints how long it took: the middle of some times, the least and the most."""
    took = []
    for _ in range(times):
        begun = time.monotonic()
        found = work()
        took.append(1000 * (time.monotonic() - begun))
    spread = f" ({min(took):.1f} to {max(took):.1f}, {times} times)" if times > 1 else ""
    print(f"{what}: {statistics.median(took):.1f} ms{spread}", flush=True)
    return found


def memory() -> int:
    """How many MB this process has taken at its most."""
    return resource.getrusage(resource.RUSAGE_SELF).ru_maxrss // 1024


def draw(layer, extent) -> None:
    settings = QgsMapSettings()
    settings.setLayers([layer])
    settings.setDestinationCrs(layer.crs())
    settings.setOutputSize(QSize(1000, 800))
    settings.setExtent(extent)
    job, loop = QgsMapRendererParallelJob(settings), QEventLoop()
    job.finished.connect(loop.quit)
    job.start()
    loop.exec_()


def read_all(layer) -> int:
    return sum(1 for feature in layer.getFeatures() if feature.geometry())


def opened(uri: str, kind: str):
    """A layer of which each feature was read."""
    layer = QgsVectorLayer(uri, "parcels", kind)
    assert layer.isValid(), uri
    read_all(layer)
    return layer


class Bench:
    """Figures of one layer of a store, and of others beside it."""

    def __init__(self, folder: Path, count: int) -> None:
        self.rng = random.Random(3)
        self.count = count
        self.path = folder / "big.sfs"
        make(self.path, count)
        self.gpkg = folder / "big.gpkg"

    def run(self) -> None:
        before = memory()
        provider.register()
        timed("the server begun and connected", lambda: Session.of(str(self.path)))
        self.session = Session.of(str(self.path))
        self.layer = timed("store: opened, all read", lambda: opened(f"{self.path}|layername=parcels", "sfstore"))
        print(f"memory of QGIS for the layer: {memory() - before} MB")
        self.beside()
        self.shown()
        self.asked()
        self.edits()
        timed("saved", lambda: self.session.line("save"))
        print(f"memory of QGIS at its most: {memory()} MB; features {self.layer.featureCount()}")

    def beside(self) -> None:
        """A memory layer and a GeoPackage of the same parcels."""
        self.plain = QgsVectorLayer("Polygon?crs=EPSG:25832&field=id:int8&field=number:int8&field=owner:string(255)", "plain", "memory")
        self.plain.dataProvider().addFeatures(list(self.layer.getFeatures()))
        options = QgsVectorFileWriter.SaveVectorOptions()
        QgsVectorFileWriter.writeAsVectorFormatV2(self.layer, str(self.gpkg), QgsCoordinateTransformContext(), options)
        self.package = timed("GeoPackage: opened, all read", lambda: opened(str(self.gpkg), "ogr"), 3)
        timed("memory layer: all read", lambda: read_all(self.plain), 3)
        timed("store: all read again", lambda: read_all(self.layer), 3)

    def shown(self) -> None:
        extent = self.layer.extent()
        for name, layer in (("store", self.layer), ("memory layer", self.plain), ("GeoPackage", self.package)):
            timed(f"{name}: all drawn", lambda: draw(layer, extent), 5)
            timed(f"{name}: a window of some 140 parcels drawn", lambda: draw(layer, self.window(300)), 15)
            timed(f"{name}: what is at a point", lambda: self.at_point(layer), 15)

    def window(self, metres: float) -> QgsRectangle:
        extent = self.layer.extent()
        x = self.rng.uniform(extent.xMinimum(), extent.xMaximum() - metres)
        y = self.rng.uniform(extent.yMinimum(), extent.yMaximum() - metres)
        return QgsRectangle(x, y, x + metres, y + metres)

    def at_point(self, layer) -> None:
        request = QgsFeatureRequest(self.window(0.1)).setFlags(QgsFeatureRequest.ExactIntersect)
        list(layer.getFeatures(request))

    def asked(self) -> None:
        """Expressions that the store answers, beside one of QGIS' own."""
        functions = Functions({self.layer.id(): Editing(self.layer)})
        functions.register()
        timed("$area of all parcels", lambda: self.evaluated("$area", self.count))
        timed("sfstore_area() of all parcels", lambda: self.evaluated("sfstore_area()", self.count))
        timed("that again, as long as nothing is changed", lambda: self.evaluated("sfstore_area()", self.count))
        timed("1,000 distances from a parcel", lambda: self.evaluated("sfstore_distance('parcels', 1, $geometry)", 1_000))
        functions.unregister()

    def evaluated(self, text: str, count: int) -> None:
        """Has an expression evaluated of so many parcels."""
        context = QgsExpressionContext(QgsExpressionContextUtils.globalProjectLayerScopes(self.layer))
        expression = QgsExpression(text)
        expression.prepare(context)
        for feature in itertools.islice(self.layer.getFeatures(), count):
            context.setFeature(feature)
            assert expression.evaluate(context) is not None, expression.evalErrorString()

    def edits(self) -> None:
        editing = Editing(self.layer)
        self.layer.startEditing()
        self.editing = editing
        timed("a value set and saved", self.value, 25)
        timed("a vertex moved and saved", self.vertex, 25)
        timed("a vertex moved wrongly, refused and taken back", self.bad, 25)
        timed("1,000 parcels with values added and saved", self.many)
        timed("that undone, and seen", lambda: self.moved("undo"))
        timed("1,000 vertices moved and saved", self.vertices)
        timed("that undone, and seen", lambda: self.moved("undo"))
        with client.Client(str(self.path), "Ben") as ben:
            timed("another editor's value, sent and seen", lambda: self.of_another(ben), 15)

    def saved(self) -> None:
        fault = commit([self.editing])
        if fault is not None:
            raise fault
        self.layer.undoStack().clear()

    def any_fid(self) -> int:
        return self.editing.provider.mirror.fids[self.rng.randrange(1, self.count + 1)]

    def value(self) -> None:
        self.layer.changeAttributeValue(self.any_fid(), 2, f"new {self.rng.random()}")
        self.saved()

    def move(self) -> None:
        fid = self.any_fid()
        box = self.layer.getFeature(fid).geometry().boundingBox()
        self.layer.moveVertex(box.xMaximum() - 0.5 - self.rng.random(), box.yMinimum(), fid, 1)

    def vertex(self) -> None:
        self.move()
        self.saved()

    def vertices(self) -> None:
        for _ in range(1_000):
            self.move()
        timed("  the saving alone", self.saved)

    def bad(self) -> None:
        fid = self.any_fid()
        box = self.layer.getFeature(fid).geometry().boundingBox()
        self.layer.moveVertex(box.xMinimum() - 5, box.center().y(), fid, 1)
        assert commit([self.editing]) is not None
        self.layer.rollBack(False)

    def many(self) -> None:
        extent = self.layer.extent()
        for k in range(1_000):
            feature = QgsFeature(self.layer.fields())
            x = extent.xMaximum() + 10 + k * 3
            feature.setGeometry(QgsGeometry.fromRect(QgsRectangle(x, 5600000, x + 2, 5600002)))
            feature["number"], feature["owner"] = k, "new"
            self.layer.addFeature(feature)
        timed("  the saving alone", self.saved)

    def moved(self, verb: str) -> None:
        self.session.line(verb)
        self.settle()

    def settle(self) -> None:
        version = self.session.call("map")["version"]
        while self.session.version < version:
            APP.processEvents()

    def of_another(self, ben: client.Client) -> None:
        version = ben.call("map")["version"]
        line = f"set parcels {self.rng.randrange(1, self.count)} number {self.rng.randrange(999)}"
        ben.call("batch", page="ben", lines=[line], seen=[version])
        self.settle()


def main() -> None:
    Session.program = sys.argv[1]
    count = int(sys.argv[2]) if len(sys.argv) > 2 else 100_000
    print(f"QGIS {Qgis.QGIS_VERSION}, {count} parcels, load {os.getloadavg()[0]:.1f}")
    with tempfile.TemporaryDirectory() as folder:
        Bench(Path(folder), count).run()
    for server in client._servers.values():
        server.process.terminate()
    sys.stdout.flush()
    os._exit(0)


if __name__ == "__main__":
    main()
