"""A QGIS that edits a store at random, each edit at once: `test_qgis` starts several, and kills some.

    qgis_session.py STORE NAME SEED STEPS

prints a line for each value that the store has answered. Behind the last step it waits for a line on its standard
input, and prints ALIKE if it shows what the store has.
"""

from __future__ import annotations

import random
import sys

from qgis_support import Plugin, QgisCase, QgsSettings, Session, Window


class Edits(QgisCase):
    """Uses what the tests have, for a store that is there."""

    def setUp(self):
        QgsSettings().setValue("sfstore/name", sys.argv[2])
        QgsSettings().setValue("sfstore/at_once", True)
        self.window = Window()
        self.plugin = Plugin(self.window)
        self.plugin.initGui()
        self.plugin.open(sys.argv[1])
        self.session = Session.of(sys.argv[1])

    def runTest(self):
        rng = random.Random(int(sys.argv[3]))
        parcels = self.layer()
        parcels.startEditing()
        print("ready", flush=True)
        for step in range(int(sys.argv[4])):
            self.step(rng, parcels, f"{sys.argv[2]} {step}")
        print("done", flush=True)
        sys.stdin.readline()
        self.settle()
        self.assert_alike()
        print("ALIKE", flush=True)

    def step(self, rng, parcels, value):
        mirror = self.plugin.editings[parcels.id()].provider.mirror
        what = rng.choice(["value", "value", "vertex", "bad", "add", "delete", "undo", "redo"])
        number = rng.choice(list(mirror.fids))
        fid = mirror.fids[number]
        box = parcels.getGeometry(fid).boundingBox()
        if what == "value":
            parcels.changeAttributeValue(fid, 2, value)
        elif what == "vertex":
            parcels.moveVertex(box.xMaximum() - rng.random(), box.yMinimum() + rng.random(), fid, 1)
        elif what == "bad":
            parcels.moveVertex(box.xMinimum() - 5, box.center().y(), fid, 1)
        elif what == "add":
            x = 500000 + rng.randrange(900)
            self.draw(f"POLYGON(({x} 5600400, {x + 9} 5600400, {x + 9} 5600409, {x} 5600400))")
        elif what == "delete" and rng.random() < 0.5:
            parcels.deleteFeature(fid)
        elif what in ("undo", "redo"):
            self.plugin.tried(lambda: self.plugin.move(what))
        self.plugin.send()
        if what == "value" and not parcels.isModified() and parcels.getFeature(fid)["owner"] == value:
            print(f"value {number} {value}", flush=True)
        self.turn(0.005)


if __name__ == "__main__":
    edits = Edits()
    edits.setUp()
    edits.runTest()
