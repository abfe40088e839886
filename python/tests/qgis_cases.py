"""Tests inside of QGIS, which `test_qgis` starts."""

from __future__ import annotations

import base64
import html
import json
import os
import random
import re
import signal
import time
import unittest
from functools import partial
from pathlib import Path
from unittest import mock

from qgis.core import (
    Qgis,
    QgsCategorizedSymbolRenderer,
    QgsCoordinateReferenceSystem,
    QgsCoordinateTransform,
    QgsEditFormConfig,
    QgsEditorWidgetSetup,
    QgsFeature,
    QgsFeatureRequest,
    QgsField,
    QgsFieldConstraints,
    QgsFillSymbol,
    QgsGeometry,
    QgsGraduatedSymbolRenderer,
    QgsInvertedPolygonRenderer,
    QgsLineString,
    QgsPalLayerSettings,
    QgsPoint,
    QgsPointXY,
    QgsProject,
    QgsRectangle,
    QgsRendererCategory,
    QgsRendererRange,
    QgsRuleBasedLabeling,
    QgsSingleSymbolRenderer,
    QgsSvgMarkerSymbolLayer,
    QgsVectorLayer,
    QgsVectorLayerSimpleLabeling,
    QgsVectorLayerUtils,
)
from qgis.gui import QgsAttributeDialog, QgsAttributeEditorContext, QgsAttributeForm, QgsGui
from qgis.PyQt.QtCore import NULL, QDate, QDateTime, Qt, QTime, QVariant
from qgis.PyQt.QtGui import QColor
from qgis.PyQt.QtWidgets import QApplication, QComboBox, QLineEdit, QMessageBox, QPushButton, QTextBrowser, QWidget
from qgis_support import CROSSED, SQUARE, Plugin, QgisCase, Session, at_work

from support import PROGRAM

from sfstore_qgis import styles
from sfstore_qgis.bar import ICONS
from sfstore_qgis.fields import Places
from sfstore_qgis.reading import rows_of
from sfstore_qgis.session import Refusal, Style
from sfstore_qgis.words import SAID, words_of

from sfstore import Store
from sfstore.exchange.grid import Grid
from sfstore.language import COLUMN_TYPES, GRID_MAX, GRID_MIN, TEXT_MAX
from sfstore.refusals import REFUSALS
from sfstore.rows import feature_of
from sfstore.web.client import CallFailed, Client, ServerGone


FINE = "POLYGON ((0 0, 1000 0, 1000 1001, 3 1003, 0 0))"


class Reading(unittest.TestCase):
    """Rows as features."""

    def test_an_answer_is_not_much_longer_than_it_shall_be(self):
        for letters, most in ((50, 5_000), (1_000_000, 20), (4_500_000, 20)):
            asked = []

            def calls(name, bodies, row="x" * letters, asked=asked):
                # As a client does it: each call is sent before the answer of the one before it is given.
                waiting = []
                for body in bodies:
                    asked.append(body["ids"])
                    waiting.append({"rows": [row for _ in body["ids"]]})
                    if len(waiting) > 1:
                        yield waiting.pop(0)
                yield from waiting

            session = mock.Mock()
            session._connected().calls = calls
            numbers = list(range(20_000 if letters == 50 else 100))
            rows = [row for part in Session.parts(session, "w", numbers) for row in part]
            self.assertEqual(len(rows), len(numbers))
            self.assertEqual([number for part in asked for number in part], numbers)
            self.assertLessEqual(max(map(len, asked)), most)
            # Two are on their way before the first answer tells how long they are.
            self.assertLessEqual(max(len(part) for part in asked[2:]), max(1, 4_000_000 // letters))

    def test_each_coordinate_is_the_double_that_is_nearest_to_its_place(self):
        seeded = random.Random(1)
        steps = [GRID_MIN, GRID_MAX, *(seeded.randint(GRID_MIN, GRID_MAX) for _ in range(2_000))]
        for words in (("0", "0", "0.1"), ("0", "0", "0.30480061"), ("0.123456789", "1", "0.01"), ("500000", "5600000", "1")):
            grid = Grid(*words)
            points = list(zip(steps, steps[::-1]))
            rows = [f"{number} POINT ({x} {y})" for number, (x, y) in enumerate(points)]
            found = [row.geometry.asPoint() for row in rows_of(rows, Places(1, {}), grid)]
            self.assertEqual([(point.x(), point.y()) for point in found], [tuple(grid.places(point)) for point in points])


class Opening(QgisCase):
    """What is shown of a store."""

    def test_layers_in_drawing_order_with_their_reference_system(self):
        names = [layer.name() for layer in QgsProject.instance().layerTreeRoot().layerOrder()]
        self.assertEqual(names, ["wells", "streets", "parcels"])
        parcels = self.layer()
        self.assertEqual((parcels.featureCount(), parcels.crs().authid()), (200, "EPSG:25832"))
        self.assertEqual(parcels.fields().names(), ["_id", "number", "owner"])
        self.assert_alike()

    def test_a_window_and_an_expression(self):
        parcels = self.layer()
        box = QgsRectangle(500000, 5600000, 500020, 5600020)
        found = {feature["_id"] for feature in parcels.getFeatures(QgsFeatureRequest(box))}
        self.assertEqual(found, {feature["_id"] for feature in parcels.getFeatures() if feature.geometry().intersects(box)})
        self.assertTrue(found)
        owners = [feature["owner"] for feature in parcels.getFeatures("owner = 'Dunn'")]
        self.assertEqual(set(owners), {"Dunn"})

    def test_a_layer_that_is_there_twice_shows_the_same(self):
        parcels = self.layer()
        twice = parcels.clone()
        QgsProject.instance().addMapLayer(twice)
        self.assertEqual(len(self.plugin.editings), 4)
        twice.startEditing()
        twice.changeAttributeValue(self.fid(1, parcels), 2, "twice")
        self.assertTrue(twice.commitChanges(), twice.commitErrors())
        self.assertEqual(self.feature(1, parcels)["owner"], "twice")
        self.settle()
        self.assert_alike()

    def test_a_second_opening_adds_nothing(self):
        self.plugin.open(str(self.path))
        self.assertEqual(len(QgsProject.instance().mapLayers()), 3)

    def test_what_is_no_layer_of_a_store(self):
        for uri in (f"{self.path}|layername=nix", f"{self.path}", str(self.folder / "nix" / "town.sfs|layername=x")):
            layer = QgsVectorLayer(uri, "nix", "sfstore")
            self.assertFalse(layer.isValid())

    def test_a_project_is_read_again(self):
        file = str(self.folder / "town.qgs")
        self.assertTrue(QgsProject.instance().write(file))
        QgsProject.instance().clear()
        self.assertEqual(len(self.plugin.editings), 0)
        self.assertTrue(QgsProject.instance().read(file))
        self.assertEqual(self.layer().featureCount(), 200)
        self.assertEqual(len(self.plugin.editings), 3)

    def test_a_project_of_before_lies_where_the_store_says_now(self):
        file = str(self.folder / "town.qgs")
        self.assertTrue(QgsProject.instance().write(file))
        QgsProject.instance().clear()
        self.turn(0.1)
        self.place(self.path, grid=["2600000", "1200000", "1"], crs="2056")
        self.said()
        self.assertTrue(QgsProject.instance().read(file))
        self.assertEqual(self.layer().crs().authid(), "EPSG:2056")
        self.assertEqual(self.layer().geometryOptions().geometryPrecision(), 1)
        self.assertIn("parcels is shown in the store's reference system, EPSG:2056, and not in EPSG:25832.", self.said())
        self.session = Session.of(str(self.path))
        self.assert_alike()

    def test_a_project_whose_store_is_not_there_makes_none(self):
        project = str(self.folder / "town.qgs")
        QgsProject.instance().write(project)
        before = {path.name for path in self.folder.iterdir()}
        missing = self.folder / "missing"
        missing.mkdir()
        text = (self.folder / "town.qgs").read_text().replace("./town.sfs|", "./missing/town.sfs|")
        (self.folder / "other.qgs").write_text(text.replace(f"{self.path}|", f"{missing}/town.sfs|"))
        QgsProject.instance().read(str(self.folder / "other.qgs"))
        self.turn(0.3)
        self.assertEqual({layer.isValid() for layer in QgsProject.instance().mapLayers().values()}, {False})
        self.assertEqual((list(missing.iterdir()), {path.name for path in self.folder.iterdir()} - before), ([], {"missing", "other.qgs"}))

    def test_a_side_car_of_another_file_is_told(self):
        path = self.folder / "other.sfs"
        self.make(b"layer add w point\nadd w POINT (1 1)\n", path)
        self.place(path)
        self.make(b"layer add w point\nadd w POINT (2 2)\n", path)
        self.said()
        self.plugin.open(str(path))
        self.assertIn("belongs to another file", " ".join(self.said()))
        [feature] = self.layer("w").getFeatures()
        self.assertEqual(feature.geometry().asWkt(), "Point (2 2)")


class Shown(QgisCase):
    """The plugin's actions in QGIS' window."""

    def test_each_action_has_an_icon_that_can_be_drawn_and_each_icon_is_used(self):
        drawn = {}
        for action in self.plugin.bar.actions:
            picture = action.icon().pixmap(24, 24).toImage()
            self.assertFalse(picture.isNull(), action.text())
            drawn[action.text()] = bytes(picture.constBits().asarray(picture.byteCount()))
        styling = {drawn.pop(text) for text in ("Keep the style with the store", "Show the store's style", "Drop the store's style")}
        self.assertEqual(len(styling), 1)
        # No two actions beside one another look alike. The plugin itself has one more.
        self.assertEqual(len(set(drawn.values()) | styling), len(drawn) + 1)
        self.assertEqual(len(list(ICONS.glob("*.svg"))), len(drawn) + 2)

    def test_actions_stand_in_the_menu_of_plugins_too_until_the_plugin_goes(self):
        self.assertEqual(self.window.listed, [action.text() for action in self.plugin.bar.actions])
        self.assertEqual((len(self.window.listed), self.window.listed[0]), (12, "Open a store .."))
        self.plugin.unload()
        self.assertEqual(self.window.listed, [])
        self.plugin = Plugin(self.window)
        self.plugin.initGui()


class Commits(QgisCase):
    """Edits in QGIS' buffer, and commits of it."""

    def test_a_commit_is_one_step_of_the_store(self):
        parcels = self.layer()
        parcels.startEditing()
        self.draw(SQUARE, number=9001, owner="O'New")
        self.set(1, "owner", "Changed")
        parcels.deleteFeature(self.fid(3))
        self.assertTrue(parcels.commitChanges(), parcels.commitErrors())
        self.assertIn("number=9001 owner='O''New'", self.stored()[201])
        self.assertNotIn(3, self.stored())
        self.settle()
        self.assert_alike()
        self.plugin.move("undo")
        self.settle()
        self.assertEqual((parcels.featureCount(), self.feature(1)["owner"]), (200, "Dunn"))
        self.assert_alike()
        self.plugin.move("redo")
        self.settle()
        self.assertEqual((parcels.featureCount(), self.feature(1)["owner"]), (200, "Changed"))
        self.assert_alike()

    def test_a_refused_commit_leaves_all_in_the_buffer(self):
        parcels = self.layer()
        parcels.startEditing()
        drawn = self.draw(CROSSED, number=9002)
        parcels.deleteFeature(self.fid(3))
        self.assertFalse(parcels.commitChanges())
        self.turn()
        said = " ".join(self.said())
        words = "Move or remove a corner: the border meets itself at (500523.33 5600053.33). (parcels, 13 RingNotSimple)"
        self.assertIn(words, said)
        self.assertEqual(len(self.plugin.teller.markers), 2)
        self.assertEqual(len(parcels.editBuffer().addedFeatures()), 1)
        self.assertEqual(parcels.editBuffer().deletedFeatureIds(), [self.fid(3)])
        self.assertIn(3, self.stored())
        parcels.changeGeometry(drawn.id(), QgsGeometry.fromWkt(SQUARE))
        self.assertTrue(parcels.commitChanges(), parcels.commitErrors())
        self.assertEqual(len(self.plugin.teller.markers), 0)
        self.settle()
        self.assert_alike()

    def test_the_place_is_marked_in_the_reference_system_of_the_map(self):
        system = QgsCoordinateReferenceSystem("EPSG:3857")
        self.window.canvas.setDestinationCrs(system)
        self.layer().startEditing()
        self.draw(CROSSED)
        self.layer().commitChanges()
        self.turn()
        band, marker = self.plugin.teller.markers
        shown = QgsCoordinateTransform(self.layer().crs(), system, QgsProject.instance())
        place = shown.transform(QgsPointXY(500523.0 + 1 / 3, 5600053.0 + 1 / 3))
        self.assertLess(marker.center().distance(place), 0.1)
        self.assertTrue(band.asGeometry().boundingBox().contains(place))

    def test_what_is_drawn_wrongly_is_told_before_it_is_sent(self):
        self.layer().startEditing()
        self.draw(CROSSED)
        self.turn()
        self.assertIn("(parcels, not sent yet, 13 RingNotSimple)", " ".join(self.said()))
        self.assertEqual(len(self.plugin.teller.markers), 2)
        self.assertEqual(len(self.stored()), 200)

    def test_features_get_numbers_in_the_order_in_which_they_were_drawn(self):
        self.layer().startEditing()
        for k in range(5):
            self.draw(SQUARE, number=k)
        self.assertTrue(self.layer().commitChanges())
        stored = self.stored()
        self.assertEqual([f"number={k}" in stored[201 + k] for k in range(5)], [True] * 5)
        self.settle()
        self.assert_alike()

    def test_what_is_moved_by_the_grid_is_told(self):
        parcels = self.layer()
        # QGIS draws on the grid by itself.
        self.assertAlmostEqual(parcels.geometryOptions().geometryPrecision(), 0.1)
        parcels.geometryOptions().setGeometryPrecision(0)
        parcels.startEditing()
        self.draw("POLYGON((500510.013 5600000.02, 500540 5600000, 500540 5600030, 500510.013 5600000.02))")
        self.assertTrue(parcels.commitChanges())
        self.assertIn("4 coordinates were moved to the grid, by 0.02 at most.", " ".join(self.said()))
        self.assertEqual(self.feature(201).geometry().asWkt(4)[:24], "Polygon ((500510 5600000")
        parcels.startEditing()
        self.draw(SQUARE)
        parcels.commitChanges()
        self.assertNotIn("moved to the grid", " ".join(self.said()))
        self.settle()
        self.assert_alike()

    def test_what_the_store_can_not_take_is_told_in_words(self):
        parcels = self.layer()
        for wkt, words in (
            ("POLYGON((9e9 0, 9e9 1, 8e9 1, 9e9 0))", "Draw it nearer to the map: "),
            ("CURVEPOLYGON(CIRCULARSTRING(0 0, 1 1, 2 0, 1 -1, 0 0))", "Draw it with straight sides, in x and y alone: the store takes no other geometry, and this is a curve"),
            ("MULTIPOLYGON(((500510 5600000, 500540 5600000, 500540 5600030, 500510 5600000)), "
             "((500610 5600000, 500640 5600000, 500640 5600030, 500610 5600000)))", "take its parts apart: this layer takes no geometry of this kind. (parcels, 26 WrongKind)"),
            ("", "Draw one: a feature without a geometry has no place in the store. (parcels)"),
        ):
            with self.subTest(wkt=wkt[:20]):
                parcels.startEditing()
                self.said()
                feature = QgsFeature(parcels.fields())
                if wkt:
                    feature.setGeometry(QgsGeometry.fromWkt(wkt))
                parcels.addFeature(feature)
                self.assertFalse(parcels.commitChanges())
                self.turn()
                self.assertIn(words, " ".join(self.said()))
                parcels.rollBack()
        self.assertEqual(len(self.stored()), 200)

    def test_a_multi_polygon_of_one_part_is_a_polygon(self):
        parcels = self.layer()
        parcels.startEditing()
        self.draw("MULTIPOLYGON(((500510 5600000, 500540 5600000, 500540 5600030, 500510 5600000)))")
        self.assertTrue(parcels.commitChanges(), parcels.commitErrors())
        self.assertIn("POLYGON ((100 0", self.stored()[201].replace("5100 0", "100 0"))

    def test_texts_and_numbers(self):
        parcels = self.layer()
        parcels.startEditing()
        values = ["it's $1 last", "ä" * (TEXT_MAX // 2), "", NULL, "two\nlines", "a\r\nb\rc\t'\x1b\\\x7f"]
        for number, owner in enumerate(values, 1):
            self.set(number, "owner", owner)
        self.set(5, "number", -(2**63))
        self.set(6, "number", 2**63 - 1)
        self.assertTrue(parcels.commitChanges(), parcels.commitErrors())
        self.settle()
        self.assert_alike()
        self.assertIn("owner='it''s $1 last'", self.stored()[1])
        self.assertNotIn("owner", self.stored()[4])
        self.assertIn(r"owner=E'two\nlines'", self.stored()[5])
        self.assertEqual([self.feature(number)["owner"] for number in (5, 6)], values[4:])
        for owner in ("ä" * (TEXT_MAX // 2 + 1), "a\0b"):
            parcels.startEditing()
            self.set(1, "owner", owner)
            self.assertFalse(parcels.commitChanges())
            parcels.rollBack()

    def test_edits_around_the_buffer_are_batches_of_their_own(self):
        data = self.layer().dataProvider()
        feature = QgsFeature(self.layer().fields())
        feature.setGeometry(QgsGeometry.fromWkt(SQUARE))
        feature["number"] = 5
        self.assertTrue(data.addFeatures([feature])[0])
        self.assertFalse(data.deleteFeatures([self.fid(1)]) and 1 in self.stored())
        self.assertTrue(data.changeAttributeValues({self.fid(2): {2: "x"}}))
        feature.setGeometry(QgsGeometry.fromWkt(CROSSED))
        self.assertFalse(data.addFeatures([feature])[0])
        self.assertIn("RingNotSimple", " ".join(data.errors()))
        self.settle()
        self.assert_alike()

    def test_splitting_merging_and_duplicating(self):
        parcels = self.layer()
        parcels.startEditing()
        box = self.feature(3).geometry().boundingBox()
        parcels.selectByExpression("_id = 3")
        parcels.beginEditCommand("split")
        y = box.center().y()
        parcels.splitFeatures([QgsPointXY(box.xMinimum() - 1, y), QgsPointXY(box.xMaximum() + 1, y)], False)
        parcels.endEditCommand()
        self.assertTrue(parcels.commitChanges(), parcels.commitErrors())
        self.assertEqual(len(self.stored()), 201)
        parcels.startEditing()
        whole = self.feature(3).geometry().combine(self.feature(201).geometry())
        parcels.beginEditCommand("merge")
        parcels.changeGeometry(self.fid(3), whole)
        parcels.deleteFeature(self.fid(201))
        parcels.endEditCommand()
        self.assertTrue(parcels.commitChanges(), parcels.commitErrors())
        self.assertEqual(len(self.stored()), 200)
        parcels.startEditing()
        QgsVectorLayerUtils.duplicateFeature(parcels, self.feature(1), QgsProject.instance())
        self.assertTrue(parcels.commitChanges(), parcels.commitErrors())
        self.settle()
        self.assert_alike()


class Shared(QgisCase):
    """What QGIS' own tools make of a border that is shared, and is slanted, so that new corners lie off the grid."""

    LOWER = "POLYGON ((20000 0, 20137 0, 20211 101, 20000 101, 20000 0))"
    UPPER = "POLYGON ((20137 0, 20300 0, 20300 101, 20211 101, 20137 0))"
    ABOVE = "POLYGON ((20000 101, 20211 101, 20300 101, 20300 200, 20000 200, 20000 101))"

    def setUp(self):
        super().setUp()
        lines = [f"add parcels {text}" for text in (self.LOWER, self.UPPER, self.ABOVE)]
        self.bens(self.ben(), *lines, "rule add apart never parcels T******** parcels")
        self.settle()
        self.parcels = self.layer()
        self.before = self.stored()

    def tearDown(self):
        QgsProject.instance().setTopologicalEditing(False)
        super().tearDown()

    def spot(self, x, y):
        """A place of the map, by steps."""
        return QgsPointXY(500_000 + x / 10, 5_600_000 + y / 10)

    def halve(self, parcel, line, topological=False):
        """Has QGIS part a parcel by a line."""
        QgsProject.instance().setTopologicalEditing(topological)
        self.parcels.startEditing()
        self.parcels.selectByExpression(f"_id = {parcel}")
        self.parcels.beginEditCommand("split")
        self.parcels.splitFeatures([self.spot(*point) for point in line], topological)
        self.parcels.endEditCommand()

    def committed(self):
        """Commits, and gives the texts of the store's parcels that are not as before."""
        self.assertTrue(self.parcels.commitChanges(), self.parcels.commitErrors())
        self.settle()
        self.assert_alike()
        found = self.stored()
        return {number: row for number, row in found.items() if row != self.before.get(number)}

    def test_a_split_puts_its_corner_into_the_neighbour(self):
        for topological in (False, True):
            self.halve(201, [(19_990, 50), (20_180, 51)], topological)
            found = self.committed()
            self.assertEqual(set(found), {201, 202, 204}, topological)
            corner = next(pair for pair in re.findall(r"20\d+ \d+", found[202]) if pair not in self.before[202])
            self.assertTrue(all(corner in row for row in found.values()), (topological, found))
            self.plugin.move("undo")
            self.settle()
            self.assertEqual(self.stored(), self.before)
            self.assert_alike()

    def test_a_border_that_is_reshaped(self):
        self.parcels.startEditing()
        geometry = self.feature(201).geometry()
        bent = QgsLineString([QgsPoint(self.spot(*point)) for point in ((20_160, 20), (20_150, 60), (20_190, 62))])
        self.assertEqual(geometry.reshapeGeometry(bent), Qgis.GeometryOperationResult.Success)
        self.parcels.changeGeometry(self.fid(201), geometry)
        found = self.committed()
        self.assertEqual(set(found), {201, 202})
        # What is given away is no parcel's now: the rule keeps overlaps off, and corners are in both.
        new = set(re.findall(r"20\d+ \d+", found[202])) - set(re.findall(r"20\d+ \d+", self.before[202]))
        self.assertEqual(len(new), 2)
        self.assertTrue(all(corner in found[201] for corner in new))

    def test_parts_are_merged_again(self):
        self.halve(201, [(19_990, 50), (20_180, 51)])
        self.committed()
        self.parcels.startEditing()
        whole = self.feature(201).geometry().combine(self.feature(204).geometry())
        self.parcels.beginEditCommand("merge")
        self.parcels.changeGeometry(self.fid(201), whole)
        self.parcels.deleteFeature(self.fid(204))
        self.parcels.endEditCommand()
        found = self.committed()
        self.assertEqual(set(found), {201, 202})

    def test_a_parcel_that_is_drawn_along_a_border(self):
        self.bens(self.ben(), "delete parcels 202")
        self.settle()
        self.before = self.stored()
        # Two corners that snapping has put on the slanted border of parcel 201.
        on_it = [(20_137 + 74 * part, 101 * part) for part in (0.31, 0.77)]
        points = [self.spot(*point) for point in (*on_it, (20_280, 80), (20_280, 20))]
        self.parcels.startEditing()
        self.draw(QgsGeometry.fromPolygonXY([[*points, points[0]]]).asWkt(17))
        found = self.committed()
        self.assertEqual(set(found), {201, 204})
        for x, y in on_it:
            self.assertTrue(all(f"{round(x)} {round(y)}" in row for row in found.values()), found)


class FineGrids(QgisCase):
    """A grid whose step is finer than doubles are where the map lies: QGIS does not tell its points apart."""

    lines = f"layer add parcels polygon\ncolumn add parcels owner text\nadd parcels {FINE}\n".encode()
    grid = ("5600000", "5600000", "0.0000000001")

    def test_a_geometry_is_not_sent_and_values_are(self):
        parcels = self.layer()
        parcels.startEditing()
        corner = self.feature(1).geometry().vertexAt(2)
        parcels.moveVertex(corner.x() + 1e-7, corner.y(), self.fid(1), 2)
        self.assertFalse(parcels.commitChanges())
        self.assertIn("Edit it on the page: the step of the grid is finer than QGIS' numbers are there", " ".join([*self.said(), *parcels.commitErrors()]))
        parcels.rollBack()
        parcels.startEditing()
        self.set(1, "owner", "Ann's")
        self.assertTrue(parcels.commitChanges(), parcels.commitErrors())
        self.assertEqual(self.stored(), {1: f"1 {FINE} owner='Ann''s'"})


class Columns(QgisCase):
    """Columns and layers."""

    def test_columns_are_added_with_values_and_dropped(self):
        parcels = self.layer()
        parcels.startEditing()
        self.assertTrue(parcels.addAttribute(QgsField("area", QVariant.LongLong)))
        self.assertTrue(parcels.deleteAttribute(parcels.fields().indexOf("number")))
        self.set(1, "area", 77)
        self.set(1, "owner", "x")
        self.assertTrue(parcels.commitChanges(), parcels.commitErrors())
        self.assertTrue(self.stored()[1].endswith("owner='x' area=77"), self.stored()[1])
        self.assertEqual(parcels.fields().names(), ["_id", "owner", "area"])
        self.settle()
        self.assert_alike()
        self.plugin.move("undo")
        self.settle()
        self.assertEqual(sorted(parcels.fields().names()), ["_id", "number", "owner"])
        self.assert_alike()

    def test_columns_that_the_store_does_not_have(self):
        parcels = self.layer()
        for field in (QgsField("x", QVariant.Double), QgsField("no name", QVariant.String)):
            parcels.startEditing()
            self.assertFalse(parcels.addAttribute(field) and parcels.commitChanges())
            parcels.rollBack()
        self.assertEqual(len(self.session.columns("parcels")), 2)
        self.assertFalse(parcels.dataProvider().deleteAttributes([0]))

    def test_a_column_that_another_one_drops_leaves_no_value_in_another_column(self):
        ben, parcels = self.ben(), self.layer()
        parcels.startEditing()
        self.set(100, "owner", "Ann 100")
        self.bens(ben, "column drop parcels number")
        self.assertFalse(parcels.commitChanges())
        self.assertNotIn("Ann", self.stored()[100])
        parcels.rollBack()
        self.turn()
        self.assertEqual(parcels.fields().names(), ["_id", "owner"])
        self.assert_alike()

    def test_a_column_that_another_one_adds(self):
        ben, parcels = self.ben(), self.layer()
        parcels.startEditing()
        self.bens(ben, "column add parcels area int", "set parcels 5 area 7")
        self.assertEqual(parcels.fields().names(), ["_id", "number", "owner", "area"])
        self.set(6, "area", 8)
        self.assertTrue(parcels.commitChanges(), parcels.commitErrors())
        self.settle()
        self.assert_alike()

    def test_layers_are_added_and_dropped(self):
        self.plugin.add_layer("trees", "point")
        trees = self.layer("trees")
        trees.startEditing()
        self.draw("POINT(500010 5600010)", trees)
        self.assertTrue(trees.commitChanges(), trees.commitErrors())
        self.assertEqual(len(self.stored("trees")), 1)
        self.plugin.drop_layer(self.plugin.editings[trees.id()])
        self.assertEqual(len(self.session.layers()), 3)
        self.assertEqual(len(QgsProject.instance().mapLayers()), 3)
        self.plugin.move("undo")
        self.settle()
        self.assertIn("Open the store again to show what is new: trees.", self.said())
        self.plugin.open(str(self.path))
        self.assertEqual(self.layer("trees").featureCount(), 1)
        self.assert_alike()

    def test_a_layer_with_edits_that_were_not_sent_is_not_dropped(self):
        parcels = self.layer()
        parcels.startEditing()
        self.set(2, "owner", "not sent")
        self.plugin.drop_layer(self.plugin.editings[parcels.id()])
        self.assertIn("Save your edits of parcels, or take them back first: the store does not have them yet.", self.said())
        self.assertEqual((len(self.session.layers()), self.feature(2)["owner"]), (3, "not sent"))
        self.assertTrue(parcels.commitChanges(), parcels.commitErrors())
        self.plugin.drop_layer(self.plugin.editings[parcels.id()])
        self.settle()
        self.assertEqual(len(QgsProject.instance().mapLayers()), 2)
        self.plugin.move("undo")
        self.settle()
        self.assertIn("owner='not sent'", self.stored()[2])

    def test_columns_of_a_layer_that_has_left_the_project(self):
        ben = self.ben()
        QgsProject.instance().removeMapLayer(self.layer("wells").id())
        self.turn()
        # What a slot raises ends this process.
        self.bens(ben, "column add wells extra int", "column drop wells depth", "set wells 1 extra 7")
        self.assertEqual(self.said(), [])
        self.plugin.open(str(self.path))
        self.assertEqual(self.feature(1, self.layer("wells"))["extra"], 7)
        self.assert_alike()

    def test_a_layer_that_another_one_drops_and_brings_back(self):
        ben = self.ben()
        self.bens(ben, "layer drop wells")
        self.assertIn("the store has no wells any more.", " ".join(self.said()))
        wells = self.layer("wells")
        self.assertEqual(wells.featureCount(), 0)
        wells.startEditing()
        self.draw("POINT(500010 5600010)", wells)
        self.assertFalse(wells.commitChanges())
        wells.rollBack()
        ben.call("line", page="ben", line="undo")
        self.settle()
        self.assertEqual(wells.featureCount(), 4)
        self.assert_alike()


    def test_nothing_goes_into_a_layer_that_has_taken_the_name(self):
        """Neither what is drawn, with a value or without, nor a field."""
        parcels, ben = self.layer(), self.ben()
        self.bens(ben, "layer add plans polygon", "column add plans owner text")
        edits = (lambda: self.draw(SQUARE), lambda: self.draw(SQUARE, owner="Ann"), lambda: parcels.addAttribute(QgsField("mine", QVariant.String, "text", 255)))
        for edit in edits:
            self.said()
            parcels.startEditing()
            edit()
            self.bens(ben, "layer rename parcels old", "layer rename plans parcels")
            self.assertFalse(parcels.commitChanges())
            self.turn()
            self.assertIn("Look again: Ben changed the layer parcels meanwhile, by `layer rename plans parcels`.", " ".join(self.said()))
            parcels.rollBack()
            self.assertEqual(ben.call("ids", layer="parcels")["ids"], [])
            self.bens(ben, "layer rename parcels plans", "layer rename old parcels")
        # A layer that has its name again is the same one.
        parcels.startEditing()
        self.draw(SQUARE)
        self.bens(ben, "layer rename parcels old")
        self.bens(ben, "layer rename old parcels")
        self.assertTrue(parcels.commitChanges(), self.said())
        self.assertEqual(len(ben.call("ids", layer="parcels")["ids"]), 201)

    def test_a_layer_that_another_one_renames(self):
        ben = self.ben()
        for line, names in (("layer rename wells springs", "wells to springs"), ("layer rename springs wells", ""), ("undo", "wells to springs"), ("undo", "")):
            ben.call("line", page="ben", line=line)
            self.settle()
            said = " ".join(self.said())
            self.assertEqual("renamed" in said, bool(names), said)
            self.assertNotIn("any more", said)
            if names:
                self.assertIn(f"Open the store again to show it under its new name, and remove the old one: Ben has renamed {names}.", said)
        self.assert_alike()


PARCELS = [f"POLYGON (({x} 0, {x + 90} 0, {x + 90} 90, {x} 90, {x} 0))" for x in range(0, 600, 100)]
FEW = "".join(
    [
        "layer add parcels polygon\ncolumn add parcels number int\ncolumn add parcels owner text\n",
        *(f"add parcels {wkt}\n" for wkt in PARCELS),
        *(f"set parcels {at} number {at}\nset parcels {at} owner 'owner {at}'\n" for at in range(1, 7)),
    ]
).encode()
TEXT, NUMBER = QgsField("mine", QVariant.String, "text", TEXT_MAX), QgsField("mine", QVariant.LongLong, "int")


class Types(QgisCase):
    """Columns of each type."""

    lines = FEW + "".join(f"column add parcels c_{kind} {kind}\n" for kind in COLUMN_TYPES).encode()
    MOST = {
        "int": (str(2**63 - 1), str(-(2**63))),
        "text": (f"'{'日' * (TEXT_MAX // 3)}'", "''", r"E'two\nlines, it''s\t\\\r\x1b\x7f'", r"'a\b'"),
        "decimal": ("-922337203685477580.8", "0.000000000000000001", "9007199254740993", "0.1"),
        "bool": ("true", "false"),
        "date": ("0001-01-01", "9999-12-31", "2024-02-29"),
        "datetime": ("0001-01-01T00:00:00.000Z", "9999-12-31T23:59:59.999Z", "2026-10-25T01:30:11.005Z"),
    }

    def saved(self, column, value, answer=""):
        """The row of a feature once a value was set and saved; where it is refused, by its field, as it was."""
        parcels, before = self.layer(), self.stored()[2]
        parcels.startEditing()
        self.set(2, column, value)
        is_taken = parcels.commitChanges()
        said = " ".join([*self.said(), *parcels.commitErrors()])
        self.assertEqual(is_taken, not answer, said)
        if answer:
            self.assertIn(f"{column} can't be ", said)
            self.assertIn(answer, said)
            parcels.rollBack()
            self.assertEqual(self.stored()[2], before)
        self.settle()
        self.assert_alike()
        return self.stored()[2]

    def test_each_value_is_shown_and_saved_as_it_is(self):
        ben, parcels = self.ben(), self.layer()
        kinds = [field.type() for field in parcels.fields()][3:]
        self.assertEqual(kinds, [QVariant.LongLong, *[QVariant.String] * 2, QVariant.Bool, QVariant.Date, QVariant.DateTime])
        for kind, words in self.MOST.items():
            for word in words:
                self.bens(ben, f"set parcels 1 c_{kind} {word}")
                self.assert_alike()
                # What QGIS shows of one feature is saved in another one.
                shown = self.feature(1)[f"c_{kind}"]
                self.assertIn(f" c_{kind}={word}", self.saved(f"c_{kind}", shown))
                self.bens(ben, f"unset parcels 2 c_{kind}")

    def test_what_is_written_otherwise_is_shown_as_the_store_has_it(self):
        for typed, word in ((" +0812.50", "812.5"), ("12.0", "12"), (7, "7"), ("-0.0", "0")):
            self.assertIn(f" c_decimal={word}", self.saved("c_decimal", typed))
            self.assertEqual(self.feature(2)["c_decimal"], word)
        berlin = QDateTime(QDate(2026, 11, 29), QTime(20, 28, 11, 5), Qt.OffsetFromUTC, 3600)
        self.assertIn(" c_datetime=2026-11-29T19:28:11.005Z", self.saved("c_datetime", berlin))
        self.assertEqual(self.feature(2)["c_datetime"].time(), QTime(19, 28, 11, 5))

    def test_what_would_be_changed_is_refused_by_its_field(self):
        a_decimal = "a decimal is digits"
        for value in ("1,5", "1e3", ".5", "", "NaN", "1 000"):
            self.saved("c_decimal", value, a_decimal)
        self.saved("c_decimal", "0.0000000000000000001", "more than 18 places")
        self.saved("c_decimal", "9223372036854775808", "more than 64 bits")
        # Whoever made it meant other digits than a double has.
        self.saved("c_decimal", 0.1, "not float")
        # The form's have the digits of UTC, and those of `now()` the ones of this machine's zone.
        self.saved("c_datetime", QDateTime(QDate(2026, 11, 29), QTime(19, 28, 11)), "it has no zone")
        self.saved("c_date", QDate(10_000, 1, 1), "year 10000 is out of range")

    def test_fields_of_each_type_are_added(self):
        parcels = self.layer()
        natives = {native.mTypeName: native for native in parcels.dataProvider().nativeTypes()}
        self.assertEqual(list(natives), COLUMN_TYPES)
        parcels.startEditing()
        for kind, native in natives.items():
            self.assertTrue(parcels.addAttribute(QgsField(f"n_{kind}", native.mType, native.mTypeName)), kind)
        values = {"int": 7, "text": "x", "decimal": "8.50", "bool": True, "date": QDate(2024, 2, 29)}
        values["datetime"] = QDateTime(QDate(2024, 2, 29), QTime(1, 2, 3), Qt.UTC)
        for kind, value in values.items():
            self.set(2, f"n_{kind}", NULL)
            self.set(2, f"n_{kind}", value)
        self.set(3, "n_text", NULL)
        self.draw(SQUARE, number=9001, **{f"n_{kind}": value for kind, value in values.items()})
        self.assertTrue(parcels.commitChanges(), parcels.commitErrors())
        told = " n_int=7 n_text='x' n_decimal=8.5 n_bool=true n_date=2024-02-29 n_datetime=2024-02-29T01:02:03.000Z"
        for number in (2, 7):
            self.assertTrue(self.stored()[number].endswith(told), self.stored()[number])
        columns = [(column.name, column.type) for column in self.session.columns("parcels")]
        self.assertEqual(columns[-6:], [(f"n_{kind}", kind) for kind in COLUMN_TYPES])
        self.settle()
        self.assert_alike()

    def test_a_field_of_doubles_is_refused(self):
        parcels = self.layer()
        parcels.startEditing()
        # QGIS asks the provider for what it takes; a script can do without.
        is_added = parcels.addAttribute(QgsField("size", QVariant.Double, "double"))
        self.assertFalse(is_added and parcels.commitChanges())
        parcels.rollBack()
        self.assertFalse(parcels.dataProvider().addAttributes([QgsField("size", QVariant.Double, "double")]))
        self.assertIn("Take another type for size: the store has no columns of this one", " ".join(parcels.dataProvider().errors()))

    def test_forms_have_a_widget_that_keeps_the_value(self):
        widgets = QgsGui.editorWidgetRegistry()
        widgets.initEditors()
        parcels = self.layer()
        best = [widgets.findBest(parcels, f"c_{kind}").type() for kind in COLUMN_TYPES]
        self.assertEqual(best[1:], ["TextEdit", "TextEdit", "ValueMap", "DateTime", "TextEdit"])
        text, field = "a\r\nb\rc\n\t\x1b", QLineEdit()
        wrapper = widgets.create("TextEdit", parcels, parcels.fields().indexOf("c_text"), {}, field, None)
        self.assertIn(r" c_text=E'a\r\nb\rc\n\t\x1b'", self.saved("c_text", text))
        wrapper.setFeature(self.feature(2))
        self.assertEqual(wrapper.value(), text)
        self.bens(self.ben(), "set parcels 2 c_datetime 2026-10-25T01:30:11.005Z")
        at, line = parcels.fields().indexOf("c_datetime"), QLineEdit()
        wrapper = widgets.create("TextEdit", parcels, at, {}, line, None)
        wrapper.setFeature(self.feature(2))
        self.assertEqual(wrapper.value(), self.feature(2)["c_datetime"])
        line.setText("2026-11-29T19:28:11Z")
        self.assertIn(" c_datetime=2026-11-29T19:28:11.000Z", self.saved("c_datetime", wrapper.value()))
        line.setText("2026-11-29T19:28:11")
        self.saved("c_datetime", wrapper.value(), "it has no zone")


class Identifiers(QgisCase):
    """The field of the identifier, and columns that are called so elsewhere."""

    lines = FEW

    def test_columns_of_any_name_show_their_own_values(self):
        names = ["id", "ID", "Id", "fid", "_", "x_id", "ogc_fid", "Owner", "OWNER", "NULL", "id_1"]
        taken = [name for name in names if name[0] != "_"]
        lines = [f"column add parcels {name} text" for name in taken]
        lines += [f"set parcels {at} {name} '{name} of {at}'" for at in (1, 2) for name in taken]
        self.bens(self.ben(), *lines)
        parcels = self.layer()
        self.assertEqual(parcels.fields().names(), ["_id", "number", "owner", *taken])
        self.assert_alike()
        parcels.startEditing()
        for name in taken:
            self.assertEqual(self.feature(2)[name], f"{name} of 2")
            self.set(2, name, f"Ann's {name}")
        self.assertTrue(parcels.commitChanges(), parcels.commitErrors())
        told = " ".join(f"{name}='Ann''s {name}'" for name in taken)
        self.assertEqual(self.stored()[2], f"2 {PARCELS[1]} number=2 owner='owner 2' {told}")
        self.assertTrue(self.stored()[1].endswith("id_1='id_1 of 1'"))
        self.settle()
        self.assert_alike()

    def test_a_store_that_has_a_column_id_is_opened(self):
        path = self.folder / "ids.sfs"
        made = "layer add w point\ncolumn add w id int\ncolumn add w t text\ncolumn add w u text\nadd w POINT (1 1)\n"
        self.make(f"{made}set w 1 id 701\nset w 1 t 'owner 1'\nset w 1 u 'note 1'\n".encode(), path)
        self.place(path)
        self.plugin.open(str(path))
        w = self.layer("w")
        [shown] = w.getFeatures()
        self.assertEqual(dict(zip(w.fields().names(), shown.attributes())), {"_id": 1, "id": 701, "t": "owner 1", "u": "note 1"})
        w.startEditing()
        w.changeAttributeValue(shown.id(), w.fields().indexOf("t"), "OWNER 1")
        self.assertTrue(w.commitChanges(), w.commitErrors())
        [row] = Session.of(str(path)).rows("w", [1])
        self.assertEqual(row, "1 POINT (1 1) id=701 t='OWNER 1' u='note 1'")

    def test_another_editor_adds_a_column_id(self):
        ben, parcels = self.ben(), self.layer()
        self.bens(ben, "column add parcels id int")
        self.bens(ben, "set parcels 5 id 55")
        self.bens(ben, "column add parcels note text", "set parcels 5 note 'N'")
        shown = dict(zip(parcels.fields().names(), self.feature(5).attributes()))
        self.assertEqual(shown, {"_id": 5, "number": 5, "owner": "owner 5", "id": 55, "note": "N"})

    def test_it_can_not_be_changed(self):
        parcels, before = self.layer(), self.stored()
        self.assertTrue(parcels.editFormConfig().readOnly(0))
        for value in (9999, 4, NULL, "3"):
            parcels.startEditing()
            self.set(3, "_id", value)
            self.set(2, "owner", "x")
            self.assertFalse(parcels.commitChanges(), value)
            self.turn()
            self.assertIn(f"Leave _id as it is: the store numbers features, and it can't be set to {value}", " ".join(self.said()))
            parcels.rollBack()
        self.assertFalse(parcels.dataProvider().changeAttributeValues({self.fid(3): {0: 9999}}))
        self.assertEqual(self.stored(), before)
        parcels.startEditing()
        self.set(3, "_id", 3)
        self.set(3, "owner", "same")
        self.assertTrue(parcels.commitChanges(), parcels.commitErrors())
        self.assertIn("owner='same'", self.stored()[3])
        self.assert_alike()

    def test_a_new_feature_can_not_bring_one_but_a_copy_gets_its_own(self):
        parcels = self.layer()
        parcels.startEditing()
        self.draw(SQUARE, _id=4242)
        self.assertFalse(parcels.commitChanges())
        self.turn()
        self.assertIn("it can't be set to 4242", " ".join(self.said()))
        parcels.rollBack()
        self.assertEqual(len(self.stored()), 6)
        parcels.startEditing()
        self.assertTrue(parcels.addFeature(QgsFeature(self.feature(3))))
        self.assertTrue(parcels.commitChanges(), parcels.commitErrors())
        self.assertEqual(self.stored()[7], self.stored()[3].replace("3 POLYGON", "7 POLYGON"))
        self.settle()
        self.assert_alike()


class FieldsOfTwo(QgisCase):
    """Ben changes columns while Ann edits: each value is under its own name, or nothing of hers is there."""

    BENS = {
        "adds": ["column add {} theirs text", "set {} 3 theirs 'Ben''s'"],
        "adds_id": ["column add {} id int", "set {} 3 id 55"],
        "adds_mine": ["column add {} mine text", "set {} 3 mine 'Ben''s'"],
        "drops_number": ["column drop {} number"],
        "drops_owner": ["column drop {} owner"],
        "renames_owner": ["column drop {} owner", "column add {} holder text", "set {} 3 holder 'Ben''s'"],
        "retypes_owner": ["column drop {} owner", "column add {} owner int", "set {} 3 owner 77"],
        "retypes_number": ["column drop {} number", "column add {} number text", "set {} 3 number 'no. 3'"],
        "replaces_owner": ["column drop {} owner", "column add {} owner text", "set {} 3 owner 'Ben''s'"],
        "replaces_layer": [
            "layer rename {0} {0}_old", "layer add {} polygon", "column add {} number int", "column add {} owner text",
            *(f"add {{}} {wkt}" for wkt in PARCELS), "set {} 1 owner 'Ben''s'",
        ],
    }
    """What Ben does to a layer. Each has one of its own, of his deed's name."""
    ANNS = {
        "edits_values": ("number owner", [(2, "owner", "Ann's"), (4, "number", 4000)], "", ""),
        "draws": ("number owner", [(7, "number", 9001), (7, "owner", "Ann's")], "", ""),
        "draws_without_an_owner": ("number", [(7, "number", 9001)], "", ""),
        "adds_a_field": ("number mine", [(7, "number", 9001), (7, "mine", "Ann's")], "mine", ""),
        "adds_a_field_with_values": (
            "number mine", [(7, "number", 9001), (7, "mine", "Ann's"), (2, "mine", "Ann's")], "mine", "",
        ),
        "drops_a_field": ("number owner", [(7, "owner", "Ann's")], "", "number"),
        "retypes_a_field": (
            "number owner mine size", [(7, "owner", "Ann's"), (7, "mine", "mine"), (7, "size", 7)], "mine size", "number",
        ),
        "deletes": ("", [], "", ""),
    }
    """What Ann does: the columns that she names, the values that are there then, the columns that she adds and drops."""
    OF_FEATURES = ("edits_values", "adds_a_field_with_values", "deletes")
    """What of that edits features that were there: they are seen with all columns."""
    lines = "".join(FEW.decode().replace("parcels", how) for how in BENS).encode()
    SECONDS = 500

    def edits_values(self, layer):
        self.set(2, "owner", "Ann's", layer)
        self.set(4, "number", 4000, layer)

    def draws(self, layer):
        self.draw(SQUARE, layer, number=9001, owner="Ann's")

    def draws_without_an_owner(self, layer):
        self.draw(SQUARE, layer, number=9001)

    def adds_a_field(self, layer):
        self.assertTrue(layer.addAttribute(TEXT))
        self.draw(SQUARE, layer, number=9001, mine="Ann's")

    def adds_a_field_with_values(self, layer):
        self.adds_a_field(layer)
        self.set(2, "mine", "Ann's", layer)

    def drops_a_field(self, layer):
        self.assertTrue(layer.deleteAttribute(layer.fields().indexOf("number")))
        self.draw(SQUARE, layer, owner="Ann's")

    def retypes_a_field(self, layer):
        self.assertTrue(layer.deleteAttribute(layer.fields().indexOf("number")))
        self.assertTrue(layer.addAttribute(TEXT))
        self.assertTrue(layer.addAttribute(QgsField("size", QVariant.LongLong, "int")))
        self.draw(SQUARE, layer, owner="Ann's", mine="mine", size=7)

    def deletes(self, layer):
        layer.deleteFeature(self.fid(6, layer))

    def content(self, name):
        """The columns of a layer of the store, and the values of each feature."""
        columns = dict(self.session.columns(name))
        return columns, {number: feature_of(row, columns).values for number, row in self.stored(name).items()}

    def expected(self, before, ann):
        """What the store has once it has taken what Ann did."""
        columns, values = before
        _, given, added, dropped = self.ANNS[ann]
        kept = {name: kind for name, kind in columns.items() if name not in dropped.split()}
        kept.update({name: {"mine": "text", "size": "int"}[name] for name in added.split()})
        after = {number: {name: value for name, value in each.items() if name in kept} for number, each in values.items()}
        for number, name, value in given:
            after.setdefault(number, {})[name] = value
        if ann == "deletes":
            del after[6]
        return kept, after

    def go_on(self, ann, name, is_taken):
        """Saves what Ann did: it is all there, each value under its name, or nothing of it."""
        layer, before = self.layer(name), self.content(name)
        self.said()
        self.assertEqual(layer.commitChanges(), is_taken, layer.commitErrors())
        self.assertEqual(self.content(name), self.expected(before, ann) if is_taken else before)
        self.turn()
        self.assertEqual(bool(self.said()), not is_taken)
        if not is_taken:
            layer.rollBack()
        self.settle()
        self.assert_alike()

    def ben_does(self, how, is_heard=True):
        ben = self.ben()
        for line in self.BENS[how]:
            answer = ben.call("line", page="ben", line=line.format(how), seen=ben.call("map")["version"])
            self.assertNotIn("refused", answer, line)
        ben.close()
        if is_heard:
            self.settle()

    def under(self, ann, is_heard):
        """Ann edits, Ben changes columns, and Ann saves: before she has heard of it, or once she has."""
        for how in self.BENS:
            with self.subTest(how=how):
                layer = self.layer(how)
                layer.startEditing()
                getattr(self, ann)(layer)
                names = layer.fields().names()
                self.ben_does(how, is_heard)
                # What she sees stays while she edits.
                self.assertEqual(layer.fields().names(), names)
                his = {line.split()[3] for line in self.BENS[how] if line.startswith("column")}
                self.go_on(ann, how, ann not in self.OF_FEATURES and not his & set(self.ANNS[ann][0].split()))

    def before(self, ann):
        """Ann has begun to edit, and hears of what Ben changes before her first edit."""
        _, given, added, dropped = self.ANNS[ann]
        used = {name for _, name, _ in given} - set(added.split())
        for how in self.BENS:
            with self.subTest(how=how):
                layer = self.layer(how)
                layer.startEditing()
                self.ben_does(how)
                columns = self.content(how)[0]
                if "mine" in columns and "mine" in added:
                    # QGIS knows that there is such a field.
                    self.assertFalse(layer.addAttribute(TEXT))
                    continue
                getattr(self, ann)(layer)
                are_there = all(columns.get(name) == {"number": "int", "owner": "text"}[name] for name in used)
                self.go_on(ann, how, are_there and (not dropped or dropped in columns))


for _ann in FieldsOfTwo.ANNS:
    setattr(FieldsOfTwo, f"test_{_ann}", lambda self, ann=_ann: self.under(ann, False))
    setattr(FieldsOfTwo, f"test_{_ann}_and_hears", lambda self, ann=_ann: self.under(ann, True))
    setattr(FieldsOfTwo, f"test_{_ann}_behind_it", lambda self, ann=_ann: self.before(ann))


class FieldsOfOne(QgisCase):
    """Fields of layers that have to agree, and what becomes of one that does not."""

    lines = FEW

    def test_what_another_one_adds_comes_once_all_is_sent(self):
        ben, parcels = self.ben(), self.layer()
        parcels.startEditing()
        self.assertTrue(parcels.addAttribute(TEXT))
        self.draw(SQUARE, owner="Ann", mine="Ann's value")
        self.bens(ben, "column add parcels theirs text", "set parcels 3 theirs 'Ben''s'")
        self.assertEqual(parcels.fields().names(), ["_id", "number", "owner", "mine"])
        self.assertTrue(parcels.commitChanges(), parcels.commitErrors())
        self.assertTrue(self.stored()[7].endswith("owner='Ann' mine='Ann''s value'"), self.stored()[7])
        self.assertEqual(parcels.fields().names(), ["_id", "number", "owner", "mine", "theirs"])
        self.settle()
        self.assert_alike()

    def test_a_text_that_was_to_be_shorter_is_a_column_as_any_other(self):
        parcels = self.layer()
        for name, length in (("none", 0), ("ten", 10), ("most", TEXT_MAX)):
            parcels.startEditing()
            self.assertTrue(parcels.addAttribute(QgsField(name, QVariant.String, "text", length)))
            self.set(2, name, "x")
            self.assertTrue(parcels.commitChanges(), parcels.commitErrors())
            self.assertIn(f"{name}='x'", self.stored()[2])
        self.assertEqual([field.length() for field in parcels.fields()][-3:], [TEXT_MAX] * 3)
        self.bens(self.ben(), f"set parcels 2 ten '{'y' * TEXT_MAX}'")
        self.assertEqual(self.feature(2)["ten"], "y" * TEXT_MAX)
        self.assert_alike()

    def test_of_fields_behind_one_that_went_the_right_one_is_dropped(self):
        parcels = self.layer()
        self.bens(self.ben(), "column drop parcels number", "column add parcels more text", "set parcels 2 more 'more'")
        parcels.startEditing()
        self.assertTrue(parcels.deleteAttribute(parcels.fields().indexOf("owner")))
        self.assertEqual(parcels.fields().names(), ["_id", "more"])
        self.assertTrue(parcels.commitChanges(), parcels.commitErrors())
        self.assertTrue(self.stored()[2].endswith(")) more='more'"), self.stored()[2])
        self.settle()
        self.assert_alike()

    def test_steps_that_were_undone_find_their_own_field_again(self):
        ben, parcels = self.ben(), self.layer()
        parcels.startEditing()
        self.assertTrue(parcels.addAttribute(TEXT))
        self.set(2, "mine", "Ann's")
        parcels.undoStack().setIndex(0)
        self.bens(ben, "column add parcels theirs text")
        parcels.undoStack().redo()
        parcels.undoStack().redo()
        self.assertEqual(self.feature(2)["mine"], "Ann's")
        before = self.stored()
        self.assertFalse(parcels.commitChanges())
        self.assertEqual(self.stored(), before)
        parcels.rollBack()
        self.turn()
        self.assert_alike()

    def test_each_edit_at_once_with_a_field_while_another_one_adds_one(self):
        ben, parcels = self.ben(), self.layer()
        self.plugin.set_at_once(True)
        parcels.startEditing()
        self.assertTrue(parcels.addAttribute(TEXT))
        self.draw(SQUARE, owner="Ann", mine="M")
        seen = [None, ben.call("map")["version"]]
        ben.call("batch", page="ben", lines=["column add parcels theirs text", "set parcels 3 theirs 'B'"], seen=seen)
        self.turn(0.3)
        self.assertTrue(self.stored()[7].endswith("owner='Ann' mine='M'"), self.stored()[7])
        self.assertEqual(parcels.fields().names(), ["_id", "number", "owner", "mine", "theirs"])
        self.set(3, "theirs", "Ann's too")
        self.turn(0.1)
        self.assertIn("theirs='Ann''s too'", self.stored()[3])
        parcels.rollBack()
        self.settle()
        self.assert_alike()

    def test_fields_of_a_layer_that_is_edited_twice_are_changed_in_one_of_them(self):
        parcels = self.layer()
        twice = parcels.clone()
        twice.setName("twice")
        QgsProject.instance().addMapLayer(twice)
        for layer in (parcels, twice):
            layer.startEditing()
        self.assertTrue(twice.addAttribute(QgsField("extra", QVariant.String, "text", TEXT_MAX)))
        self.draw(SQUARE, twice, owner="Ann", extra="E")
        self.assertTrue(parcels.addAttribute(QgsField("other", QVariant.String, "text", TEXT_MAX)))
        self.draw(SQUARE, parcels, owner="Ann 2", other="O")
        for layer in (parcels, twice):
            self.assertFalse(layer.commitChanges())
            self.turn()
            self.assertIn("Save the other layer of parcels first, or give its edits up: the fields of one that is edited in another layer", " ".join(self.said()))
            self.assertFalse(layer.dataProvider().addAttributes([TEXT]))
        self.assertEqual((len(self.stored()), len(self.session.columns("parcels"))), (6, 2))
        parcels.rollBack()
        parcels.startEditing()
        self.assertTrue(twice.commitChanges(), twice.commitErrors())
        self.assertTrue(self.stored()[7].endswith("owner='Ann' extra='E'"), self.stored()[7])
        self.assertEqual(parcels.fields().names(), twice.fields().names())
        self.set(7, "extra", "by the other", parcels)
        self.assertTrue(parcels.commitChanges(), parcels.commitErrors())
        self.assertTrue(self.stored()[7].endswith("owner='Ann' extra='by the other'"), self.stored()[7])
        self.assertEqual(len(self.stored()), 7)
        self.settle()
        self.assert_alike()

    def test_a_provider_with_other_fields_is_read_anew_and_that_is_told(self):
        ben, parcels = self.ben(), self.layer()
        parcels.startEditing()
        self.set(5, "owner", "not sent")
        self.plugin.editings[parcels.id()].provider.mirror.memory.deleteAttributes([1])
        self.bens(ben, "set parcels 3 owner 'Ben''s'")
        said = " ".join(self.said())
        self.assertIn("Look at parcels again, and do anew what was not sent, which is given up: it has the fields _id (int), owner (text), and the columns are number", said)
        self.assertFalse(parcels.isEditable())
        self.assertEqual(self.feature(3)["owner"], "Ben's")
        self.assert_alike()
        parcels.startEditing()
        self.set(5, "owner", "again")
        self.assertTrue(parcels.commitChanges(), parcels.commitErrors())
        self.assertIn("number=5 owner='again'", self.stored()[5])
        self.settle()
        self.assert_alike()

    def test_a_layer_that_counts_its_fields_otherwise_sends_nothing(self):
        parcels, before = self.layer(), self.stored()
        parcels.startEditing()
        self.set(5, "owner", "not sent")
        self.draw(SQUARE, number=7, owner="Ann")
        self.plugin.editings[parcels.id()].provider.mirror.drop_columns(["number"])
        self.assertFalse(parcels.commitChanges())
        self.turn()
        said = " ".join(self.said())
        self.assertIn("Look again: it has the fields _id, number, owner, and ought to have _id, owner. (parcels)", said)
        self.assertIn("Look at parcels again, and do anew what was not sent, which is given up: its fields were others", said)
        self.assertEqual(self.stored(), before)
        self.settle()
        self.assertEqual(sorted(parcels.fields().names()), ["_id", "number", "owner"])
        self.assert_alike()


class AnyKind(QgisCase):
    """A layer that takes any kind of geometry."""

    lines = (
        b"layer add m any\ncolumn add m n int\nadd m POINT (1 1)\nadd m LINESTRING (0 0, 5 5)\n"
        b"add m MULTIPOINT ((1 1), (2 2))\nset m 3 n 7\n"
    )

    def test_it_is_one_layer_for_each_kind(self):
        names = sorted(layer.name() for layer in QgsProject.instance().mapLayers().values())
        self.assertEqual(names, ["m (linestring)", "m (multipoint)", "m (point)", "m (polygon)"])
        self.assertEqual([self.layer(name).featureCount() for name in names], [1, 1, 1, 0])
        self.assert_alike()

    def test_each_takes_its_own(self):
        polygons, points = self.layer("m (polygon)"), self.layer("m (point)")
        polygons.startEditing()
        self.draw(SQUARE, polygons, n=5)
        self.assertTrue(polygons.commitChanges(), polygons.commitErrors())
        self.assertTrue(self.stored("m")[4].startswith("4 POLYGON"))
        ben = self.ben()
        self.said()
        self.bens(ben, "add m MULTILINESTRING ((0 0, 1 1), (2 2, 3 3))")
        self.assertEqual(self.said(), ["Open the store again to show it: m has a multilinestring now."])
        self.plugin.open(str(self.path))
        self.assertEqual(self.layer("m (multilinestring)").featureCount(), 1)
        self.bens(ben, "add m POINT (7 7)", "replace m 1 LINESTRING (0 0, 1 1)")
        self.assertEqual(self.said(), [])
        self.assertEqual((points.featureCount(), self.layer("m (linestring)").featureCount()), (1, 2))
        self.assert_alike()


def labels_by_rule():
    """Labels by an expression, of some features alone."""
    settings = QgsPalLayerSettings()
    settings.fieldName, settings.isExpression = "\"owner\" || ' <' || \"number\"", True
    rules = QgsRuleBasedLabeling.Rule(None)
    rules.appendChild(QgsRuleBasedLabeling.Rule(settings, 0, 0, '"number" < 1100'))
    return QgsRuleBasedLabeling(rules)


class StylesKept(QgisCase):
    """How layers look, kept with the store."""

    def style(self, color="#12ab34", label="owner"):
        """Gives the parcels a colour, labels, an opacity and scales, as their properties do."""
        parcels = self.layer()
        parcels.renderer().symbol().setColor(QColor(color))
        settings = QgsPalLayerSettings()
        settings.fieldName = label
        parcels.setLabeling(QgsVectorLayerSimpleLabeling(settings))
        parcels.setLabelsEnabled(True)
        parcels.setOpacity(0.5)
        parcels.setScaleBasedVisibility(True)
        parcels.setMinimumScale(5_000)
        return parcels

    def look(self, layer=None):
        """Colour, labels, opacity and the smallest scale of a layer."""
        layer = layer or self.layer()
        label = layer.labeling().settings().fieldName if layer.labelsEnabled() else ""
        return layer.renderer().symbol().color().name(), label, layer.opacity(), layer.minimumScale()

    def open_again(self):
        """Opens the store as another QGIS does."""
        QgsProject.instance().clear()
        self.turn(0.1)
        self.said()
        self.plugin.open(str(self.path))
        self.session = Session.of(str(self.path))

    def kept(self, layer="parcels", kind=""):
        return self.session.call("qml", layer=layer, kind=kind)

    def use(self, text):
        """Uses an action of the plugin on the parcels, and gives what is said."""
        self.window.make_active(self.layer())
        self.said()
        [action] = [each for each in self.plugin.bar.actions if each.text() == text]
        action.trigger()
        return " ".join(self.said())

    def bens(self, color):
        """Has Ben save a style of another colour."""
        ben, seen = self.ben(), self.kept()
        qml = re.sub(r'"[0-9]+,[0-9]+,[0-9]+,255"', f'"{color},255"', seen["qml"])
        self.assertNotEqual(qml, seen["qml"])
        ben.call("save-qml", layer="parcels", qml=qml, seen=seen["mark"])
        self.wait_for(lambda: self.session.style("parcels", "").by == "Ben")
        self.turn(0.2)

    def test_who_opens_the_store_sees_it(self):
        parcels = self.style()
        forms = parcels.editFormConfig()
        forms.setInitCodeSource(QgsEditFormConfig.CodeSourceDialog)
        forms.setInitCode("import os")
        parcels.setEditFormConfig(forms)
        before = self.look()
        self.assertIn("The style of parcels is kept with the store", self.use("Keep the style with the store"))
        self.assertEqual(self.kept()["by"], "Ann")
        self.assertNotIn("import os", self.kept()["qml"])
        self.open_again()
        self.assertEqual(self.look(), before)
        self.assertEqual(before, ("#12ab34", "owner", 0.5, 5_000))
        self.assertEqual(self.layer().editFormConfig().initCode(), "")
        self.assertNotIn("style", " ".join(self.said()))
        # The page has its own.
        self.assertEqual(self.session.call("styles")["styles"], {})
        self.assertIn("any more", self.use("Drop the store's style"))
        self.assertEqual((self.kept()["qml"], self.look()), (None, before))
        self.open_again()
        self.assertNotEqual(self.look(), before)
        self.assertIn("Save one first: the store has no style for parcels.", self.use("Show the store's style"))

    def test_of_a_layer_of_any_kind_each_kind_has_its_own(self):
        self.session.line("layer add sketches any")
        self.plugin.open(str(self.path))
        points = self.layer("sketches (point)")
        points.renderer().symbol().setColor(QColor("#aa0000"))
        self.window.make_active(points)
        self.plugin.keep_style()
        self.assertIsNone(self.kept("sketches", "polygon")["qml"])
        self.open_again()
        self.assertEqual(self.layer("sketches (point)").renderer().symbol().color().name(), "#aa0000")

    def test_anothers_style_is_shown_where_ones_own_was_not_changed(self):
        self.style()
        self.use("Keep the style with the store")
        self.bens("1,2,3")
        self.assertEqual(self.look()[0], "#010203")
        self.assertIn("parcels looks as Ben has saved it just now.", self.said())
        self.layer().renderer().symbol().setColor(QColor("#ffff00"))
        self.bens("7,8,9")
        self.assertEqual(self.look()[0], "#ffff00")
        self.assertIn("Show the store's style to see it: Ben has saved another style for parcels. Yours stays until then.", self.said())
        self.assertIn("parcels looks as Ben has saved it.", self.use("Show the store's style"))
        self.assertEqual(self.look()[0], "#070809")
        self.ben().call("save-qml", layer="parcels", qml=None, seen=self.kept()["mark"])
        self.wait_for(lambda: "Ben has taken the style for parcels out of the store. It stays here." in self.said())
        self.assertEqual(self.look()[0], "#070809")

    def test_a_style_whose_layer_gets_another_name_is_not_said_to_be_gone(self):
        """It goes with its layer. What is heard of it here is heard behind the renaming."""
        self.style()
        self.use("Keep the style with the store")
        ben, seen = self.ben(), self.kept()
        ben.call("save-qml", layer="parcels", qml=seen["qml"].replace("owner", "number"), seen=seen["mark"])
        ben.call("line", page="ben", line="layer rename parcels plots")
        self.wait_for(lambda: self.session.style("plots", "").by == "Ben")
        self.settle()
        said = " ".join(self.said())
        self.assertIn("Ben has renamed parcels to plots.", said)
        self.assertNotIn("style", said)
        self.assertIn("Open the store again: it has no parcels any more.", self.use("Show the store's style"))

    def test_whose_styles_gave_way_is_said(self):
        with mock.patch.object(type(self.session), "save_style", lambda *_: ("mark", ["wells", "streets"])):
            said = self.use("Keep the style with the store")
        words = "Keep a style anew if an undo brings wells, streets back: there was no room for styles of layers that were dropped."
        self.assertIn(words, said)

    def test_nobody_saves_over_what_they_have_not_seen(self):
        self.style()
        self.use("Keep the style with the store")
        self.style("#ffff00")
        self.bens("1,2,3")
        said = self.use("Keep the style with the store")
        self.assertIn("Show the store's style first, or do it once more to put yours in its place: Ben has saved another", said)
        self.assertEqual(self.kept()["by"], "Ben")
        self.assertIn("is kept with the store", self.use("Keep the style with the store"))
        self.assertEqual(self.kept()["by"], "Ann")
        self.assertEqual(self.look()[0], "#ffff00")

    def test_a_project_keeps_its_own_and_that_is_told(self):
        self.style()
        self.use("Keep the style with the store")
        file = str(self.folder / "town.qgs")
        for color, words in (("", ""), ("1,2,3", "parcels looks as your project has it, and the store has another style.")):
            self.layer().renderer().symbol().setColor(QColor("#00ff00"))
            self.assertTrue(QgsProject.instance().write(file))
            if color:
                self.bens(color)
            QgsProject.instance().clear()
            self.turn(0.1)
            self.said()
            self.assertTrue(QgsProject.instance().read(file))
            self.session = Session.of(str(self.path))
            self.assertEqual(self.look()[0], "#00ff00")
            said = " ".join(each for each in self.said() if "style" in each)
            self.assertTrue(said.endswith(words) and bool(said) == bool(words), said)

    def test_what_leads_out_of_the_store_is_not_kept(self):
        wells = self.layer("wells")
        self.window.make_active(wells)
        for path, words in (("http://evil.example/x.svg", "a file of yours"), ("/home/ann/well.svg", "embed it in the symbol")):
            wells.renderer().symbol().changeSymbolLayer(0, QgsSvgMarkerSymbolLayer(path))
            self.said()
            self.plugin.tried(self.plugin.keep_style)
            self.assertIn(words, " ".join(self.said()))
        self.assertIsNone(self.kept("wells")["qml"])
        drawn = base64.b64encode(b'<svg xmlns="http://www.w3.org/2000/svg" viewBox="0 0 9 9"><rect width="9" height="9"/></svg>').decode()
        wells.renderer().symbol().changeSymbolLayer(0, QgsSvgMarkerSymbolLayer(f"base64:{drawn}"))
        self.plugin.keep_style()
        self.open_again()
        self.assertEqual(self.layer("wells").renderer().symbol().symbolLayer(0).path(), f"base64:{drawn}")

    def test_each_form_of_a_style_comes_back_as_it_was(self):
        parcels = self.layer()
        fill = QgsFillSymbol.createSimple
        for renderer in (
            QgsCategorizedSymbolRenderer("owner", [QgsRendererCategory("Dunn", fill({"color": "red"}), "D & <D>")]),
            QgsGraduatedSymbolRenderer("number", [QgsRendererRange(0, 1100, fill({"color": "blue"}), "< 1100")]),
            QgsInvertedPolygonRenderer(QgsSingleSymbolRenderer(fill({"color": "green"}))),
        ):
            kind = type(renderer)
            parcels.setRenderer(renderer)
            parcels.setLabeling(labels_by_rule())
            parcels.setLabelsEnabled(True)
            before = styles._look_of(parcels)
            self.window.make_active(parcels)
            self.plugin.keep_style()
            self.open_again()
            parcels = self.layer()
            self.assertEqual(styles._look_of(parcels), before)
            self.assertEqual(type(parcels.renderer()), kind)

    def test_a_style_is_no_code_whoever_wrote_it(self):
        code = "<editforminitcodesource>2</editforminitcodesource><editforminitcode>import os</editforminitcode>"
        action = '<attributeactions><actionsetting id="{a}" type="1" name="x" action="import os" capture="0"/></attributeactions>'
        hostile = f"<qgis><layerOpacity>0.25</layerOpacity>{code}{action}<mapTip>x</mapTip></qgis>"
        with self.assertRaises(CallFailed):
            self.ben().call("save-qml", layer="parcels", qml=hostile, seen=None)
        # Where it came nevertheless.
        self.plugin.styles._show(self.layer(), Style(hostile, "Eve", "x"))
        parcels = self.layer()
        self.assertEqual((parcels.opacity(), parcels.editFormConfig().initCode(), parcels.mapTipTemplate()), (0.25, "", ""))
        self.assertEqual(parcels.actions().actions(), [])

    def test_a_damaged_file_keeps_no_layer_away(self):
        self.style()
        self.use("Keep the style with the store")
        self.server().kill()
        self.server().wait()
        Path(f"{self.path}.qgis").write_text("{")
        self.wait_for(lambda: self.session.is_connected is False)
        self.wait_for(lambda: self.session.is_connected)
        self.open_again()
        self.assertEqual(len(self.plugin.editings), 3)
        self.assertEqual(len([each for each in self.said() if "town.sfs.qgis can't be read" in each]), 1)
        self.assertIn("can't be read", self.use("Keep the style with the store"))
        self.assertEqual(Path(f"{self.path}.qgis").read_text(), "{")


    def test_one_style_that_can_not_be_read_keeps_no_other_one_away(self):
        self.style()
        self.use("Keep the style with the store")
        before, kept = self.look(), self.kept()["qml"]
        self.server().kill()
        self.server().wait()
        file = Path(f"{self.path}.qgis")
        content = json.loads(file.read_text())
        content["layers"]["wells"] = {"": {"qml": "<qgis><mapTip>x</mapTip></qgis>", "by": "Eve"}}
        file.write_text(json.dumps(content))
        self.wait_for(lambda: self.session.is_connected is False)
        self.wait_for(lambda: self.session.is_connected)
        self.open_again()
        self.assertEqual(self.look(), before)
        [said] = [each for each in self.said() if "can't be read" in each]
        self.assertIn("The style of wells in ", said)
        self.style("#ffff00")
        self.assertIn("is kept with the store", self.use("Keep the style with the store"))
        self.assertEqual(json.loads(file.read_text())["layers"]["wells"], content["layers"]["wells"])
        # A project of before is told of both: whose style is another one, and whose can't be read.
        ben = self.ben()
        project = str(self.folder / "town.qgs")
        self.assertTrue(QgsProject.instance().write(project))
        ben.call("save-qml", layer="parcels", qml=kept, seen=self.kept()["mark"])
        QgsProject.instance().clear()
        self.turn(0.1)
        self.said()
        self.assertTrue(QgsProject.instance().read(project))
        self.session = Session.of(str(self.path))
        said = " ".join(self.said())
        self.assertIn("parcels looks as your project has it, and the store has another style.", said)
        self.assertIn("The style of wells in ", said)


class ValuesRuled(QgisCase):
    """Rules on values: what a form offers, and what is said of an edit that would break one."""

    lines = (
        b"layer add w point\ncolumn add w use text\ncolumn add w depth int\ncolumn add w size decimal\ncolumn add w free int\n"
        b"rule add uses one-of w use 'garden', 'it''s'\nrule add depths range w depth 0 to 900\n"
        b"rule add sizes one-of w size 0.5, 2\nrule add deep range w free 5000000000 to\nadd w POINT (1 1)\nset w 1 use 'garden'\n"
    )

    def setups(self):
        """What the fields of the layer are typed or chosen in: the type, and of a list its values."""
        layer = self.layer("w")
        setups = {field.name(): layer.editorWidgetSetup(at) for at, field in enumerate(layer.fields())}
        return {name: (setup.type(), [next(iter(each)) for each in setup.config().get("map", [])]) for name, setup in setups.items()}

    def test_a_form_offers_what_rules_allow(self):
        setups = self.setups()
        self.assertEqual(setups["use"], ("ValueMap", ["no value", "garden", "it's"]))
        self.assertEqual(setups["size"], ("ValueMap", ["no value", "0.5", "2"]))
        # A box of numbers would give the nearest one of its range back, whatever is there.
        self.assertEqual((setups["depth"], setups["free"]), (("TextEdit", []), ("TextEdit", [])))
        said = {field.name(): field.constraints() for field in self.layer("w").fields()}
        self.assertEqual(said["depth"].constraintDescription(), "a rule wants from 0 to 900")
        self.assertEqual(said["depth"].constraintExpression(), '"depth" IS NULL OR ("depth" >= 0 AND "depth" <= 900)')
        self.assertEqual(said["free"].constraintDescription(), "a rule wants from 5000000000")
        strengths = {each.constraintStrength(QgsFieldConstraints.ConstraintExpression) for each in (said["depth"], said["free"])}
        self.assertEqual(strengths, {QgsFieldConstraints.ConstraintStrengthSoft})

    def test_forms_follow_the_rules(self):
        """Those of a layer that is open, and of a project that was saved with other ones."""
        ben, project = self.ben(), str(self.folder / "town.qgs")
        self.assertTrue(QgsProject.instance().write(project))
        self.bens(ben, "rule drop uses", "rule add more one-of w use 'garden', 'road'", "rule drop depths")
        wanted = ("ValueMap", ["no value", "garden", "road"])
        self.assertEqual((self.setups()["use"], self.layer("w").fields().field("depth").constraints().constraintExpression()), (wanted, ""))
        QgsProject.instance().clear()
        self.turn()
        self.assertTrue(QgsProject.instance().read(project))
        self.turn()
        self.session = Session.of(str(self.path))
        self.assertEqual(self.setups()["use"], wanted)
        self.bens(ben, "rule drop more", "rule add few one-of w depth 3, 4")
        self.assertEqual((self.setups()["use"], self.setups()["depth"]), (("", []), ("ValueMap", ["no value", "3", "4"])))
        self.bens(ben, "rule drop few")
        self.assertEqual(self.setups()["depth"], ("TextEdit", []))

    def test_what_somebody_has_chosen_for_a_field_stays(self):
        layer = self.layer("w")
        at = layer.fields().indexOf("use")
        layer.setEditorWidgetSetup(at, QgsEditorWidgetSetup("TextEdit", {"IsMultiline": True}))
        self.bens(self.ben(), "rule drop uses", "rule add more one-of w use 'garden', 'road'")
        self.assertEqual((layer.editorWidgetSetup(at).type(), layer.editorWidgetSetup(at).config()), ("TextEdit", {"IsMultiline": True}))

    def test_a_box_of_numbers_of_a_former_version_goes(self):
        """It would give the nearest number of its range back. One that somebody has chosen has other words."""
        layer = self.layer("w")
        at = layer.fields().indexOf("depth")
        former = {"Min": 0, "Max": 900, "Step": 1, "AllowNull": True, "Style": "SpinBox"}
        for config, is_kept in ((former, False), ({**former, "Suffix": " m"}, True)):
            layer.setEditorWidgetSetup(at, QgsEditorWidgetSetup("Range", config))
            self.plugin.forget([layer.id()])
            self.plugin.watch([layer])
            self.assertEqual(layer.editorWidgetSetup(at).type() == "Range", is_kept)

    def test_a_number_is_chosen_from_a_list(self):
        ben, layer = self.ben(), self.layer("w")
        self.bens(ben, "rule drop depths", "rule add depths one-of w depth 3, 12, 900")
        form = self.form(1)
        [chooser] = [each for each in form.findChildren(QComboBox) if each.isVisible() and each.findText("900") >= 0]
        chooser.setCurrentIndex(chooser.findText("900"))
        self.assertTrue(form.save())
        self.assertTrue(layer.commitChanges(), layer.commitErrors())
        self.assertEqual(self.stored("w")[1], "1 POINT (1 1) use='garden' depth=900")
        self.assert_alike()

    def form(self, number):
        """The form of a feature, which is edited."""
        QgsGui.editorWidgetRegistry().initEditors()
        layer = self.layer("w")
        layer.startEditing()
        form = QgsAttributeForm(layer, self.feature(number, layer), QgsAttributeEditorContext())
        form.show()
        self.addCleanup(form.close)
        self.turn()
        return form

    def test_a_form_changes_no_value_that_was_not_typed(self):
        """Also where a value lies outside of the range that there was when the layer was opened."""
        ben, layer = self.ben(), self.layer("w")
        self.bens(ben, "rule drop depths", "set w 1 depth 5000")
        form = self.form(1)
        form.changeAttribute("use", "it's")
        self.assertTrue(form.save())
        self.assertTrue(layer.commitChanges(), layer.commitErrors())
        self.assertEqual(self.stored("w")[1], "1 POINT (1 1) use='it''s' depth=5000")

    def test_another_value_is_refused_in_words(self):
        layer = self.layer("w")
        layer.startEditing()
        self.set(1, "use", "sea", layer)
        self.assertFalse(layer.commitChanges())
        self.turn()
        wanted = "Choose one of the values that are allowed: w 1 would have another use than 'garden', 'it''s'. (w, rule uses, 37 RuleBroken)"
        self.assertIn(wanted, " ".join(self.said()))
        self.set(1, "use", "it's", layer)
        self.set(1, "depth", 900, layer)
        self.assertTrue(layer.commitChanges(), layer.commitErrors())
        self.assertEqual(self.stored("w")[1], "1 POINT (1 1) use='it''s' depth=900")


class Forms(QgisCase):
    """A form gives all of its values back: those that nobody has typed stay as they are."""

    lines = (
        b"layer add w point\ncolumn add w owner text\ncolumn add w label text\ncolumn add w number int\ncolumn add w size decimal\n"
        b"column add w day date\ncolumn add w time datetime\ncolumn add w open bool\nadd w POINT (1 1)\nadd w POINT (2 2)\n"
        b"set w 2 label ''\nset w 2 number -9223372036854775808\nset w 2 size 0.000000000000000001\nset w 2 day 0001-01-01\n"
        b"set w 2 time 9999-12-31T23:59:59.999Z\nset w 2 open false\nadd w POINT (3 3)\nset w 3 label 'NULL'\nset w 3 open true\n"
    )

    def form(self, feature, mode=QgsAttributeEditorContext.SingleEditMode):
        """The form of a feature, which is edited."""
        QgsGui.editorWidgetRegistry().initEditors()
        form = QgsAttributeForm(self.layer("w"), feature, QgsAttributeEditorContext())
        form.setMode(mode)
        form.show()
        self.addCleanup(form.close)
        self.turn()
        return form

    def edited(self, number, **values):
        """Types values in the form of a feature, and saves the layer. Whether that is done."""
        layer = self.layer("w")
        layer.startEditing()
        form = self.form(self.feature(number, layer))
        for name, value in values.items():
            form.changeAttribute(name, value)
        self.turn()
        self.assertTrue(form.save())
        form.close()
        is_done = layer.commitChanges()
        self.turn()
        return is_done

    def test_another_value_alone_is_changed(self):
        before = self.stored("w")
        for number in 1, 2:
            self.assertTrue(self.edited(number, owner="Ann"))
        wanted = {number: row.replace(")", ") owner='Ann'", 1) if number < 3 else row for number, row in before.items()}
        self.assertEqual(self.stored("w"), wanted)
        self.assert_alike()

    def test_a_new_feature_has_what_was_typed(self):
        layer = self.layer("w")
        layer.startEditing()
        drawn = QgsVectorLayerUtils.createFeature(layer, QgsGeometry.fromWkt("POINT (500000.5 5600000)"))
        form = self.form(drawn, QgsAttributeEditorContext.AddFeatureMode)
        form.changeAttribute("owner", "Ann")
        self.assertTrue(form.save())
        self.assertTrue(layer.commitChanges(), layer.commitErrors())
        self.assertEqual(self.stored("w")[4], "4 POINT (5 0) owner='Ann'")

    def test_a_truth_value_is_chosen(self):
        for value, row in ((True, "open=true"), (False, "open=false"), (None, "")):
            self.assertTrue(self.edited(1, open=value))
            self.assertEqual(self.stored("w")[1], " ".join(filter(None, ["1 POINT (1 1)", row])))
        self.assert_alike()

    def typed(self, form, name, text):
        """Types a text in the field of one line of a column."""
        lines = [line for each in form.findChildren(QWidget, name) for line in (each, *each.findChildren(QLineEdit))]
        [line] = {line for line in lines if isinstance(line, QLineEdit) and line.isVisible()}
        form.activateWindow()
        line.setFocus()
        line.setText(text)
        self.turn()

    def test_what_qgis_can_t_read_clears_no_value(self):
        """Its field of one line has no value for such a text: it is told, and not taken for a clearing."""
        layer, before = self.layer("w"), self.stored("w")
        for name, text in (("time", "29.02.2024"), ("time", "2024-13-45"), ("time", " 2024-02-29T12:30:00Z"), ("number", "-")):
            layer.startEditing()
            form = self.form(self.feature(2, layer))
            self.typed(form, name, text)
            self.assertTrue(form.save())
            form.close()
            self.turn()
            self.assertFalse(layer.commitChanges(), text)
            self.assertIn(f"can't read {text!r} in {name}", " ".join(layer.commitErrors()))
            layer.rollBack()
            self.turn()
        self.assertEqual(self.stored("w"), before)
        drawn = QgsVectorLayerUtils.createFeature(layer, QgsGeometry.fromWkt("POINT (500000.5 5600000)"))
        layer.startEditing()
        form = self.form(drawn, QgsAttributeEditorContext.AddFeatureMode)
        self.typed(form, "time", "29.02.2024")
        self.assertTrue(form.save())
        form.close()
        self.assertFalse(layer.commitChanges())
        layer.rollBack()
        self.assertEqual(self.stored("w"), before)
        # Where there was no value, QGIS has no edit of it: it is told once the field is left.
        layer.startEditing()
        form = self.form(self.feature(1, layer))
        self.typed(form, "time", "29.02.2024")
        self.said()
        form.close()
        self.turn()
        self.assertIn("Type it once more: QGIS can't read '29.02.2024' in time", " ".join(self.said()))
        layer.rollBack()
        # What is typed once more is taken, and so is a clearing.
        for text, row in (("2024-02-29T12:30:00Z", "1 POINT (1 1) time=2024-02-29T12:30:00.000Z"), ("", "1 POINT (1 1)")):
            layer.startEditing()
            form = self.form(self.feature(1, layer))
            for each in ("yesterday", text):
                self.typed(form, "time", each)
                self.assertTrue(form.save())
            form.close()
            self.assertTrue(layer.commitChanges(), layer.commitErrors())
            self.turn()
            self.assertEqual(self.stored("w")[1], row)
        self.assert_alike()

    def test_columns_that_came_since_are_typed_so_too(self):
        """One's own, and somebody else's."""
        layer = self.layer("w")
        layer.startEditing()
        layer.addAttribute(QgsField("mine", QVariant.Bool, "bool"))
        self.assertTrue(layer.commitChanges(), layer.commitErrors())
        self.bens(self.ben(), "column add w theirs bool")
        widgets = [layer.editorWidgetSetup(layer.fields().indexOf(name)).type() for name in ("mine", "theirs")]
        self.assertEqual(widgets, ["ValueMap", "ValueMap"])
        before = self.stored("w")[1]
        self.assertTrue(self.edited(1, owner="Ann"))
        self.assertEqual(self.stored("w")[1], f"{before} owner='Ann'")

    def test_a_text_that_reads_as_no_value_is_not_cleared(self):
        """QGIS gives none back where it shows its word for none."""
        self.assertFalse(self.edited(3, owner="Ann"))
        self.assertEqual(self.stored("w")[3], "3 POINT (3 3) label='NULL' open=true")
        wanted = "Change this feature at the console or on the page: label of w 3 is the text 'NULL', which QGIS takes for no value"
        self.assertIn(wanted, " ".join(self.said()))
        self.layer("w").rollBack()
        self.assertTrue(self.edited(3, label="a"))
        self.assertEqual(self.stored("w")[3], "3 POINT (3 3) label='a' open=true")

    def test_a_long_text_is_not_cut_off(self):
        """QGIS' field of one line keeps 32,767 units of UTF-16."""
        ben = self.ben()
        for text in "a" * 32_766 + "\U0001f600b", "\U0001f600" * 16_383 + "ab", "ab" * 32_767:
            self.bens(ben, f"set w 1 label '{text}'")
            before = self.stored("w")[1]
            self.assertFalse(self.edited(1, owner="Ann"))
            self.assertEqual(self.stored("w")[1], before)
            self.assertIn(f"label of w 1 has {len(text):,} letters, of which QGIS' field keeps 32,767, so its forms", " ".join(self.said()))
            self.layer("w").rollBack()
        # What has room there is kept, and another text is one that was meant.
        for text in "a" * 32_767, "\U0001f600" * 16_383:
            self.bens(ben, f"set w 2 label '{text}'")
            self.assertTrue(self.edited(2, owner=text[:1]))
            self.assertIn(f" owner='{text[:1]}' label='{text}' ", self.stored("w")[2])
        self.assertTrue(self.edited(1, label="short"))
        self.assertEqual(self.stored("w")[1], "1 POINT (1 1) label='short'")


class Ruled(QgisCase):
    """Rules between features, which an edit would break."""

    APART = (
        "Switch on Avoid Overlap on Active Layer, or draw it beside the others: parcels 10 and 201 would overlap; "
        "parcels 201 is the new one. (parcels, rule apart, 37 RuleBroken)"
    )

    def setUp(self):
        super().setUp()
        self.bens(self.ben(), "rule add apart never parcels T******** parcels")

    def shown(self):
        """What the bar shows of a refusal: its text, and the buttons behind it."""
        self.turn()
        [item] = self.window.messages.items()
        return item.text(), item.findChildren(QPushButton)

    def test_the_rule_and_the_features_are_named_and_shown(self):
        parcels, wells = self.layer(), self.layer("wells")
        wells.selectAll()
        parcels.selectByIds([self.fid(1), self.fid(2)])
        parcels.startEditing()
        self.draw(self.feature(10).geometry().asWkt())
        self.assertFalse(parcels.commitChanges())
        text, [button] = self.shown()
        self.assertIn(self.APART, text)
        # The feature that is there, and the one that was drawn.
        self.assertEqual(len(self.plugin.teller.markers), 2)
        button.click()
        self.assertEqual([feature["_id"] for feature in parcels.selectedFeatures()], [10])
        self.assertEqual(wells.selectedFeatureCount(), 0)
        extent, box = self.window.canvas.extent(), self.feature(10).geometry().boundingBox()
        self.assertTrue(extent.contains(box), extent.asWktPolygon())
        self.assertLess(extent.width(), 20 * box.width())
        parcels.rollBack()

    def test_the_map_goes_there_in_its_own_reference_system(self):
        system = QgsCoordinateReferenceSystem("EPSG:3857")
        self.window.canvas.setDestinationCrs(system)
        parcels = self.layer()
        parcels.startEditing()
        self.draw(self.feature(10).geometry().asWkt())
        self.assertFalse(parcels.commitChanges())
        self.shown()[1][0].click()
        change = QgsCoordinateTransform(parcels.crs(), system, QgsProject.instance())
        box = change.transformBoundingBox(self.feature(10).geometry().boundingBox())
        self.assertTrue(self.window.canvas.extent().contains(box))
        parcels.rollBack()

    def test_of_several_edits_no_line_is_at_fault(self):
        parcels = self.layer()
        parcels.startEditing()
        self.draw(self.feature(10).geometry().asWkt(), number=9001, owner="O'New")
        self.set(1, "owner", "Changed")
        self.assertFalse(parcels.commitChanges())
        text, [button] = self.shown()
        self.assertIn(self.APART, text)
        self.assertEqual(len(parcels.editBuffer().addedFeatures()), 1)
        self.assertNotIn("Changed", self.stored()[1])
        # The feature may be gone when its button is pressed.
        self.bens(self.ben(), "delete parcels 10")
        button.click()
        self.assertEqual(parcels.selectedFeatureCount(), 0)
        self.assertTrue(parcels.commitChanges(), parcels.commitErrors())
        self.assertEqual(len(self.plugin.teller.markers), 0)
        self.settle()
        self.assert_alike()

    def test_a_border_that_is_moved_for_one_neighbour_alone(self):
        parcels = self.layer()
        parcels.startEditing()
        # The corner of parcels 1 and 2 on the street, for parcel 1.
        [at] = [at for at, point in enumerate(self.feature(1).geometry().vertices()) if (point.x(), point.y()) == (500018, 5600000)]
        parcels.moveVertex(500020, 5600000, self.fid(1), at)
        self.assertFalse(parcels.commitChanges())
        wanted = "Switch on Topological Editing, so that a border moves for both neighbours: parcels 1 and 2 would overlap. (parcels, rule apart"
        self.assertIn(wanted, self.shown()[0])
        parcels.rollBack()

    def test_features_of_two_layers(self):
        self.bens(self.ben(), "delete wells 3", "rule add placed each wells within some parcels")
        wells = self.layer("wells")
        wells.startEditing()
        self.draw("POINT(500300 5600210)", wells)
        self.assertFalse(wells.commitChanges())
        text, buttons = self.shown()
        wanted = "Draw it elsewhere, or first what it needs: wells 5 would lie within none of parcels; wells 5 is the new one."
        self.assertIn(f"{wanted} (wells, rule placed, 37 RuleBroken)", text)
        # What was drawn is shown in red, and there is nothing else to see.
        self.assertEqual((buttons, len(self.plugin.teller.markers)), ([], 1))
        wells.rollBack()

    def test_a_rule_by_a_distance_is_told_in_metres(self):
        self.bens(self.ben(), "rule add spaced never wells near 25 wells", "rule add served each wells near 10000 some parcels")
        wells = self.layer("wells")
        for wkt, wanted, shown in (
            (
                "POINT(500046.5 5600017)",
                "Draw one of them elsewhere: wells 1 and 5 would lie within 2.5 of one another; wells 5 is the new one. (wells, rule spaced, 37 RuleBroken)",
                2,
            ),
            (
                "POINT(510000 5600000)",
                "Draw it elsewhere, or first what it needs: wells 5 would lie within 1000 of none of parcels; wells 5 is the new one. (wells, rule served",
                1,
            ),
        ):
            wells.startEditing()
            self.draw(wkt, wells)
            self.assertFalse(wells.commitChanges())
            text, buttons = self.shown()
            self.assertIn(wanted, text)
            # A well that is there can be shown.
            self.assertEqual((len(buttons), len(self.plugin.teller.markers)), (shown - 1, shown))
            wells.rollBack()
            self.window.messages.clearWidgets()

    def test_a_rule_of_what_is_there_alone(self):
        self.bens(self.ben(), "delete wells 3", "rule add placed each wells within some parcels")
        parcels, wells = self.layer(), self.layer("wells")
        [within] = [each["_id"] for each in parcels.getFeatures() if each.geometry().contains(self.feature(1, wells).geometry())]
        parcels.startEditing()
        parcels.deleteFeature(self.fid(within))
        self.assertFalse(parcels.commitChanges())
        text, [button] = self.shown()
        self.assertIn("wells 1 would lie within none of parcels. (parcels, rule placed, 37 RuleBroken)", text)
        button.click()
        self.assertEqual([feature["_id"] for feature in wells.selectedFeatures()], [1])
        parcels.rollBack()


class Told(QgisCase):
    """What is said of a refusal: what helps comes first, all of it in a surveyor's words, and all of it can be read."""

    def refused(self, number, points=(), **told):
        """A refusal as the server has it."""
        words = REFUSALS[number]
        place = {"words": "edges 0 and 2 of ring 0", "points": list(points)} if points else None
        return Refusal({"number": number, "name": "Name", "reason": words.reason, "help": words.help, "place": place, **told})

    def test_each_refusal_has_words_of_its_own_and_none_is_of_the_program(self):
        self.assertEqual(sorted(SAID), sorted({*REFUSALS, 34}))
        grid = Grid("500000", "5600000", "0.1")
        for number, said in SAID.items():
            for count in (0, *said.places):
                points = [(1 / 3, 2 / 3), (100, 200.5)][:count]
                error = self.refused(number, points) if number != 34 else Refusal({"number": 34, "name": "Name", "reason": ""})
                words = words_of(error, grid, "parcels")
                self.assertTrue(words.startswith(f"{said.remedy}: "), words)
                self.assertTrue(words.endswith(f". (parcels, {number} Name)"), words)
                self.assertLess(len(words), 200, words)
                self.assertNotRegex(words, "`|vertex|vertices|ring|edge |shell|feature of that|column|[A-Z]{4}|{|}")
                self.assertEqual(words.count("(500"), count, words)
        self.assertIn("at (500000.03 5600000.07).", words_of(self.refused(13, [(1 / 3, 2 / 3)]), grid))
        self.assertIn("itself. (13", words_of(self.refused(13)))
        self.assertIn("at (0.3 0.7).", words_of(self.refused(13, [(1 / 3, 2 / 3)]), Grid("0", "0", "1")))
        self.assertIn("at (7.12345667 46).", words_of(self.refused(13, [(2 / 3, 0)]), Grid("7.1234566", "46", "0.0000001")))

    def test_a_step_of_others_names_who_can_take_it_back(self):
        whose = {"editor": "Ben", "line": "set parcels 7 owner '" + "x" * 200}
        words = words_of(self.refused(36, whose=whose))
        self.assertTrue(words.startswith("Ask Ben: the step is theirs, set parcels 7 owner 'xx"), words)
        self.assertLess(len(words), 150)

    def test_what_is_no_refusal_ends_as_a_sentence_does(self):
        self.assertEqual(words_of(CallFailed(409, "Ben changed parcels 7 meanwhile: look again.")), "Look again: Ben changed parcels 7 meanwhile.")
        self.assertEqual(words_of(CallFailed(503, "It is full"), None, "parcels"), "It is full. (parcels)")
        self.assertEqual(words_of(OSError(28, "No space left on device", "/x")), "/x: No space left on device.")
        gone = ServerGone("The server of town.sfs does not answer: timed out.")
        gone.__cause__ = TimeoutError("timed out")
        self.assertEqual(words_of(gone), f"Wait a moment: {gone}")
        self.assertEqual(words_of(ServerGone("sfstore-web: /x is no store")), "/x is no store.")

    def test_a_refusal_gives_way_to_the_next_one_and_goes_with_an_edit_that_is_taken(self):
        parcels = self.layer()
        parcels.startEditing()
        drawn = self.draw(CROSSED)
        for _ in range(2):
            self.turn()
            self.assertFalse(parcels.commitChanges())
            self.turn()
            told = [item.text() for item in self.window.messages.items() if "RingNotSimple" in item.text()]
            self.assertEqual(len(told), 1, told)
        self.plugin.teller.tell("something else")
        parcels.changeGeometry(drawn.id(), QgsGeometry.fromWkt(SQUARE))
        self.assertTrue(parcels.commitChanges(), parcels.commitErrors())
        self.turn()
        self.assertEqual(self.said(), ["something else"])
        # One that somebody has closed is gone already.
        parcels.startEditing()
        drawn = self.draw(CROSSED)
        self.turn()
        self.window.messages.clearWidgets()
        self.turn()
        parcels.changeGeometry(drawn.id(), QgsGeometry.fromWkt(CROSSED.replace("540 56", "560 56")))
        self.turn()
        self.assertIn("RingNotSimple", " ".join(self.said()))

    def test_a_message_is_whole_in_a_window_of_any_width(self):
        self.window.show()
        error = self.refused(14, [(0, 0), (100, 200.5)])
        heights = []
        for width in (1_200, 640, 400):
            self.window.resize(width, 600)
            self.plugin.teller.refuse("parcels", error, self.session)
            self.turn(0.2)
            heights.append(self.assert_whole())
            self.window.resize(width - 60, 600)
            self.turn(0.2)
            self.assert_whole()
            self.said()
        self.assertLess(heights[0], heights[-1])

    def assert_whole(self):
        """Nothing of the message has to be scrolled to. Gives how high it is."""
        [item] = self.window.messages.items()
        [browser] = item.findChildren(QTextBrowser)
        self.assertEqual((browser.verticalScrollBar().maximum(), browser.horizontalScrollBar().maximum()), (0, 0))
        self.assertGreaterEqual(item.height(), browser.height())
        return browser.height()

    def test_a_layer_is_given_a_name_that_it_can_have(self):
        for name in ("my layer", "5th", "", "x polygon\nlayer drop parcels", "Straße"):
            self.said()
            self.plugin.tried(partial(self.plugin.add_layer, name, "point"))
            self.assertIn("Take another name than ", " ".join(self.said()))
        self.assertEqual(len(self.session.layers()), 3)

    def test_a_store_that_another_program_has_open(self):
        self.end()
        self.plugin = Plugin(self.window)
        self.plugin.initGui()
        with Store(str(self.path), journal=True, program=PROGRAM):
            self.plugin.tried(partial(self.plugin.open, str(self.path)))
            [said] = self.said()
        self.assertEqual(said, f"End the other program first, such as the console: {self.path} is open in another session.")


class AtOnce(QgisCase):
    """Each edit is sent as it is made."""

    at_once = True

    def test_each_edit_is_in_the_store_as_it_is_made(self):
        parcels = self.layer()
        parcels.startEditing()
        self.set(10, "owner", "At once")
        self.turn()
        self.assertIn("owner='At once'", self.stored()[10])
        self.assertFalse(parcels.isModified())
        self.assertTrue(parcels.isEditable())
        self.draw(SQUARE, number=7)
        self.turn()
        self.assertIn("number=7", self.stored()[201])
        parcels.deleteFeature(self.fid(201))
        self.turn()
        self.assertNotIn(201, self.stored())
        self.settle()
        self.assert_alike()

    def test_a_plugin_that_is_loaded_again_sends_each_edit_once(self):
        self.plugin.unload()
        self.plugin = Plugin(self.window)
        self.plugin.initGui()
        self.assertEqual(len(self.plugin.editings), 3)
        version = self.session.call("map")["version"]
        self.layer().startEditing()
        self.set(10, "owner", "once")
        self.wait_for(lambda: "once" in self.stored()[10])
        self.settle()
        self.assertEqual(self.session.call("map")["version"], version + 1)

    def test_a_store_that_leaves_the_project_is_free_again(self):
        self.set_free()
        self.wait_for(lambda: str(self.path) not in Session.open)
        self.plugin.open(str(self.path))
        self.assertEqual(self.layer().featureCount(), 200)
        self.session = Session.of(str(self.path))
        self.assert_alike()

    def set_free(self):
        QgsProject.instance().clear()
        self.turn()

    def test_one_that_is_refused_is_taken_back_and_told(self):
        parcels = self.layer()
        parcels.startEditing()
        was = self.feature(10).geometry()
        box = was.boundingBox()
        corner = was.closestVertex(QgsPointXY(box.xMaximum(), box.yMinimum()))[1]
        parcels.beginEditCommand("move a vertex")
        parcels.moveVertex(box.xMinimum() - 5, box.center().y(), self.fid(10), corner)
        parcels.endEditCommand()
        self.turn()
        self.assertIn("(parcels, 13 RingNotSimple)", " ".join(self.said()))
        self.assertEqual(self.feature(10).geometry().asWkt(), was.asWkt())
        self.assertFalse(parcels.isModified())
        self.assertTrue(parcels.isEditable())
        self.set(10, "owner", "still going")
        self.turn()
        self.assertIn("still going", self.stored()[10])
        self.assertEqual(len(self.plugin.teller.markers), 0)

    def test_one_that_breaks_a_rule_is_taken_back_and_told(self):
        self.bens(self.ben(), "rule add apart never parcels T******** parcels")
        parcels = self.layer()
        parcels.startEditing()
        self.draw(self.feature(10).geometry().asWkt(), number=9001)
        self.turn()
        said = " ".join(self.said())
        self.assertIn(Ruled.APART, said)
        self.assertFalse(parcels.isModified())
        self.assertEqual(len(self.stored()), 200)

    def test_what_somebody_has_changed_a_moment_before_is_not_overwritten(self):
        ben, parcels = self.ben(), self.layer()
        parcels.startEditing()
        version = ben.call("map")["version"]
        lines = ["set parcels 7 owner 'Ben''s'", "delete parcels 8"]
        ben.call("batch", page="ben", lines=lines, seen=[version] * 2)
        # Nothing of that was heard here yet.
        self.set(7, "owner", "Ann's")
        self.plugin.send()
        self.assertIn("Look again: Ben changed parcels 7 meanwhile.", " ".join(self.said()))
        parcels.deleteFeature(self.fid(8))
        self.plugin.send()
        self.assertIn("Look again: Ben deleted parcels 8 meanwhile.", " ".join(self.said()))
        self.assertFalse(parcels.isModified())
        self.settle()
        self.assertEqual(self.feature(7)["owner"], "Ben's")
        self.assert_alike()

    def test_what_was_refused_is_done_again_once_it_was_looked_at(self):
        ben, parcels = self.ben(), self.layer()
        parcels.startEditing()
        version = ben.call("map")["version"]
        ben.call("batch", page="ben", lines=["set parcels 7 owner 'Ben''s'"], seen=[version])
        self.set(7, "owner", "Ann's")
        self.plugin.send()
        self.assertIn("Look again: Ben changed parcels 7 meanwhile.", " ".join(self.said()))
        self.settle()
        self.set(7, "owner", "Ann's")
        self.turn()
        self.assertEqual(self.said(), [])
        self.assertIn("owner='Ann''s'", self.stored()[7])

    def test_layers_that_are_edited_in_one_turn_are_one_step(self):
        parcels, wells = self.layer(), self.layer("wells")
        parcels.startEditing()
        wells.startEditing()
        self.set(10, "owner", "both")
        wells.deleteFeature(self.fid(1, wells))
        self.turn()
        self.assertNotIn(1, self.stored("wells"))
        self.plugin.move("undo")
        self.settle()
        self.assertIn(1, self.stored("wells"))
        self.assertNotIn("both", self.stored()[10])
        self.assert_alike()

    def test_of_layers_that_are_edited_in_one_turn_both_are_taken_back(self):
        parcels, wells = self.layer(), self.layer("wells")
        parcels.startEditing()
        wells.startEditing()
        wells.deleteFeature(self.fid(1, wells))
        self.draw(CROSSED)
        self.turn()
        self.assertIn(1, self.stored("wells"))
        self.assertFalse(parcels.isModified() or wells.isModified())
        self.assert_alike()

    def test_the_form_of_several_features_is_one_step_or_nothing(self):
        parcels, ben = self.layer(), self.ben()
        parcels.startEditing()
        before = self.stored()
        self.set_in_form([11, 12, 13], "owner", "Ann's three")
        self.turn(0.2)
        self.assertEqual([number for number, row in self.stored().items() if "Ann''s three" in row], [11, 12, 13])
        self.plugin.move("undo")
        self.settle()
        self.assertEqual(self.stored(), before)
        # Of one of them somebody has changed what the form shows.
        with mock.patch.object(at_work, "UNSEEN_SECONDS", 30.0):
            self.bens(ben, "set parcels 12 owner 'Ben'")
            before = self.stored()
            self.said()
            self.set_in_form([11, 12, 13], "owner", "Ann's three")
            self.turn(0.2)
        self.assertEqual(self.stored(), before)
        self.assertIn("Ben changed parcels 12 meanwhile", " ".join(self.said()))
        self.assertFalse(parcels.isModified())
        self.assertEqual([self.feature(number)["owner"] for number in (11, 12, 13)].count("Ann's three"), 0)
        self.assert_alike()

    def test_the_form_of_several_features_does_not_overwrite_what_has_changed_since(self):
        parcels, ben = self.layer(), self.ben()
        parcels.startEditing()
        form = self.form_of([11, 12, 13])
        self.bens(ben, "set parcels 12 owner 'Ben'")
        before = self.stored()
        form.changeAttribute("owner", "Ann's three")
        self.assertTrue(form.save())
        self.turn(0.2)
        self.assertEqual(self.stored(), before)
        self.assertIn("Ben changed parcels 12 meanwhile", " ".join(self.said()))
        # Who was told of it has looked again.
        form.changeAttribute("owner", "Ann's own")
        self.assertTrue(form.save())
        self.turn(0.2)
        self.assertEqual([number for number, row in self.stored().items() if "Ann''s own" in row], [11, 12, 13])
        self.bens(ben, "set parcels 11 owner 'Ben'")
        form.close()
        self.set(11, "owner", "Ann")
        self.turn(0.2)
        self.assertIn("Ann", self.stored()[11])
        self.assert_alike()

    def set_in_form(self, numbers, column, text):
        """Types a text for several features in the form that QGIS has for them, and saves it."""
        form = self.form_of(numbers)
        form.changeAttribute(column, text)
        self.assertTrue(form.save())
        form.close()

    def form_of(self, numbers):
        """The form that QGIS has for several features."""
        QgsGui.editorWidgetRegistry().initEditors()
        context = QgsAttributeEditorContext()
        context.setAttributeFormMode(QgsAttributeEditorContext.MultiEditMode)
        form = QgsAttributeForm(self.layer(), QgsFeature(), context)
        self.addCleanup(form.deleteLater)
        form.setMode(QgsAttributeEditorContext.MultiEditMode)
        form.setMultiEditFeatureIds([self.fid(number) for number in numbers])
        form.show()
        self.turn(0.1)
        return form

    def test_qgis_own_actions_move_the_stores_steps(self):
        parcels = self.window.active = self.layer()
        undo, redo = self.window.action("mActionUndo"), self.window.action("mActionRedo")
        parcels.startEditing()
        self.assertFalse(undo.isEnabled())
        self.set(10, "owner", "At once")
        self.turn()
        self.settle()
        self.assertTrue(undo.isEnabled())
        undo.trigger()
        self.settle()
        self.assertNotIn("At once", self.stored()[10])
        self.assertEqual(self.feature(10)["owner"] == "At once", False)
        self.assertTrue(redo.isEnabled())
        # QGIS has its actions off for a layer without steps.
        redo.setEnabled(False)
        self.assertTrue(redo.isEnabled())
        self.window.make_active(None)
        redo.setEnabled(False)
        self.assertFalse(redo.isEnabled())
        self.window.make_active(parcels)
        self.assertTrue(redo.isEnabled())
        redo.trigger()
        self.settle()
        self.assertIn("At once", self.stored()[10])
        self.assert_alike()

    def test_behind_a_refused_edit_they_move_the_stores_steps_too(self):
        parcels = self.window.active = self.layer()
        undo = self.window.action("mActionUndo")
        parcels.startEditing()
        self.set(10, "owner", "At once")
        self.turn()
        self.draw(CROSSED)
        self.turn()
        self.assertIn("RingNotSimple", " ".join(self.said()))
        self.settle()
        # What was refused is no step that QGIS could redo.
        self.assertEqual((parcels.undoStack().count(), parcels.isModified()), (0, False))
        undo.setEnabled(False)
        self.assertTrue(undo.isEnabled())
        undo.trigger()
        self.settle()
        self.assertNotIn("At once", self.stored()[10])
        self.assert_alike()

    def test_what_was_not_sent_before_the_switch_is_not_taken_back(self):
        self.plugin.switch.setChecked(False)
        parcels = self.layer()
        parcels.startEditing()
        self.set(10, "owner", "before")
        self.turn()
        self.assertNotIn("before", self.stored()[10])
        self.plugin.switch.setChecked(True)
        self.draw(CROSSED)
        self.turn()
        self.assertEqual(self.feature(10)["owner"], "before")
        self.assertNotIn("before", self.stored()[10])
        self.set(11, "owner", "after")
        self.turn()
        self.assertIn("before", self.stored()[10])
        self.assertIn("after", self.stored()[11])


class Others(QgisCase):
    """Edits of others."""

    def test_a_link_to_the_page(self):
        self.plugin.link("Eve")
        self.assertRegex(QApplication.clipboard().text(), "http://127.0.0.1:[0-9]+/#link=.*&name=Eve")
        self.plugin.tried(lambda: self.plugin.link(""))
        self.assertIn("A name has 1 to 40 letters.", self.said())

    def test_they_are_seen_as_they_happen(self):
        ben = self.ben()
        self.bens(ben, "set parcels 7 owner 'Ben''s'", "add wells POINT (2000 2000)", "delete parcels 8")
        self.assertEqual(self.feature(7)["owner"], "Ben's")
        self.assertEqual(self.layer("wells").featureCount(), 5)
        self.assertFalse(self.feature(9).id() == self.layer().getFeature(0).id())
        self.assert_alike()
        ben.call("line", page="ben", line="undo")
        self.settle()
        self.assert_alike()

    def test_what_is_selected_stays_so(self):
        """By itself QGIS selects nothing any more whenever others change something of the layer."""
        parcels, ben = self.layer(), self.ben()
        parcels.startEditing()
        drawn = self.draw(SQUARE)
        [added] = parcels.editBuffer().addedFeatures()
        for is_at_first in (True, False):
            parcels.selectByIds([self.fid(2), self.fid(3), added])
            self.bens(ben, "set parcels 3 owner 'Ben'" if is_at_first else "delete parcels 3")
            names = sorted(parcels.selectedFeatureIds())
            self.assertEqual(names, sorted([self.fid(2), added, *([self.fid(3)] if is_at_first else [])]))
        self.assertTrue(drawn.isValid())
        parcels.rollBack()

    def test_a_conflict_is_told_and_nothing_is_overwritten(self):
        ben, parcels = self.ben(), self.layer()
        parcels.startEditing()
        self.set(7, "owner", "Ann's")
        self.bens(ben, "set parcels 7 owner 'Ben''s'")
        self.assertIn("Give your change up, look, and do it again: Ben has changed what you are changing too, parcels 7.", " ".join(self.said()))
        self.assertFalse(parcels.commitChanges())
        self.turn()
        self.assertIn("Ben changed parcels 7 meanwhile", " ".join(self.said()))
        self.assertIn("Ben''s", self.stored()[7])
        parcels.rollBack()
        parcels.startEditing()
        self.set(7, "owner", "Ann's")
        self.assertTrue(parcels.commitChanges())
        self.assertIn("Ann''s", self.stored()[7])

    def test_what_another_one_deletes_while_it_is_changed(self):
        ben, parcels = self.ben(), self.layer()
        parcels.startEditing()
        self.set(50, "owner", "Ann 50")
        self.bens(ben, "delete parcels 50")
        self.assertFalse(parcels.commitChanges())
        ben.call("line", page="ben", line="undo")
        self.settle()
        self.assertFalse(parcels.commitChanges())
        parcels.rollBack()
        parcels.startEditing()
        self.set(50, "owner", "Ann 50")
        self.assertTrue(parcels.commitChanges(), parcels.commitErrors())
        self.settle()
        self.assert_alike()

    def test_names_and_values_of_others_are_no_markup(self):
        name, value = "<h1>Eve</h1>", "<img src=\"/etc/passwd\"><b>All & is saved.</b><!--"
        with Client(str(self.path), name, 30) as eve:
            version = eve.call("map")["version"]
            eve.call("batch", page="e", lines=[f"set parcels 7 owner '{value}'"], seen=[version])
            self.settle()
            parcels = self.layer()
            parcels.startEditing()
            self.set(7, "number", 5)
            eve.call("batch", page="e", lines=["set parcels 7 number 6"], seen=[version + 1])
            self.assertFalse(parcels.commitChanges())
            self.turn()
            self.plugin.tried(lambda: self.plugin.move("undo"))
            parcels.rollBack()
            self.plugin.tried(lambda: self.plugin.move("undo"))
            eve.call("line", page="e", line="undo")
            self.settle()
            self.plugin.tried(lambda: self.plugin.move("undo"))
        items = self.window.messages.items()
        shown = [item.findChild(QTextBrowser).toPlainText() for item in items]
        self.assertEqual(shown, [f"sfstore: {html.unescape(item.text())}" for item in items])
        self.assertIn(f"Ask {name}: the step is theirs, set parcels 7 owner '{value}'. (36 NotYours)", " ".join(shown))
        self.assertIn(f"{name} changed parcels 7 meanwhile", " ".join(shown))

    def test_nobody_undoes_anothers_step(self):
        ben = self.ben()
        self.bens(ben, "set parcels 7 owner 'Ben''s'")
        self.plugin.tried(lambda: self.plugin.move("undo"))
        self.assertIn("Ask Ben: the step is theirs, set parcels 7 owner 'Ben''s'. (36 NotYours)", " ".join(self.said()))
        self.assertIn("Ben''s", self.stored()[7])

    def test_of_several_stores_one_has_to_be_chosen(self):
        other = self.folder / "trees.sfs"
        self.make(b"layer add trees point\nadd trees POINT (1 1)\n", other)
        self.plugin.open(str(other))
        parcels = self.layer()
        parcels.startEditing()
        self.set(7, "owner", "Ann's")
        self.assertTrue(parcels.commitChanges())
        self.settle()
        for act in (partial(self.plugin.move, "undo"), self.plugin.save):
            self.plugin.tried(act)
            self.assertIn("Choose a layer of the store that you mean: several are open.", self.said())
            self.assertIn("owner='Ann''s'", self.stored()[7])
        self.plugin.add_layer("bushes", "point")
        self.assertEqual([layer["name"] for layer in Session.of(str(other)).layers()], ["trees", "bushes"])
        self.window.make_active(parcels)
        self.plugin.move("undo")
        self.settle()
        self.assertNotIn("owner='Ann''s'", self.stored()[7])

    def test_a_save_is_asked_about_as_it_ends_the_history_of_all(self):
        ben = self.ben()
        self.bens(ben, "set parcels 7 owner 'Ben'")
        [action] = [each for each in self.plugin.bar.actions if each.text() == "Save the store"]
        for answer, is_saved in ((QMessageBox.No, False), (QMessageBox.Yes, True)):
            with mock.patch.object(QMessageBox, "question", return_value=answer) as asked:
                action.trigger()
            self.assertIn("Save town.sfs for all? The history begins anew", asked.call_args[0][2])
            self.assertEqual(ben.call("map")["undo"] is None, is_saved)

    def test_the_stores_undo_waits_for_what_was_not_sent(self):
        self.layer().startEditing()
        self.set(7, "owner", "x")
        self.layer().commitChanges(False)
        self.set(7, "owner", "y")
        self.plugin.move("undo")
        self.assertIn("Save your edits of parcels, or take them back first", " ".join(self.said()))
        self.assertIn("owner='x'", self.stored()[7])

    def test_a_number_that_comes_again(self):
        ben, parcels = self.ben(), self.layer()
        version = ben.call("map")["version"]
        ben.call("batch", page="ben", lines=["add parcels POLYGON ((0 9000, 9 9000, 9 9009, 0 9000))"], seen=[version])
        self.settle()
        ben.call("line", page="ben", line="undo")
        # Ann's addition gets the number of Ben's, before she hears that his was undone.
        parcels.startEditing()
        self.draw(SQUARE, number=5)
        self.assertTrue(parcels.commitChanges(), parcels.commitErrors())
        self.settle()
        self.assert_alike()
        self.assertEqual(parcels.featureCount(), 201)


class Unseen(QgisCase):
    """What others change while somebody is at work on it."""

    unseen_seconds = 1.0

    def test_an_edit_a_moment_behind_a_change_was_begun_before(self):
        ben, parcels = self.ben(), self.layer()
        parcels.startEditing()
        self.bens(ben, "vertex insert parcels 7 0 0 1 1090 -20", "set parcels 8 owner 'Ben''s'")
        # A vertex that was on its way when Ben's came has another number now.
        parcels.moveVertex(500130, 5600001, self.fid(7), 2)
        self.assertFalse(parcels.commitChanges())
        self.assertIn("Look again: Ben changed parcels 7 meanwhile.", " ".join([*self.said(), *parcels.commitErrors()]))
        parcels.rollBack()
        self.turn(1.1)
        parcels.startEditing()
        self.set(8, "owner", "Ann's")
        self.assertTrue(parcels.commitChanges(), parcels.commitErrors())

    def test_a_form_that_was_open_before_does_not_overwrite_what_has_changed(self):
        QgsGui.editorWidgetRegistry().initEditors()
        ben, parcels = self.ben(), self.layer()
        parcels.startEditing()
        form = QgsAttributeForm(parcels, self.feature(7), QgsAttributeEditorContext())
        form.show()
        self.addCleanup(form.close)
        self.bens(ben, "set parcels 7 owner 'Ben''s'")
        self.turn(1.1)
        form.changeAttribute("number", 77)
        self.assertTrue(form.save())
        self.assertFalse(parcels.commitChanges())
        self.assertIn("Look again: Ben changed parcels 7 meanwhile.", " ".join([*self.said(), *parcels.commitErrors()]))
        parcels.rollBack()
        parcels.startEditing()
        form.setFeature(self.feature(7))
        form.changeAttribute("number", 78)
        self.assertTrue(form.save())
        self.assertTrue(parcels.commitChanges(), parcels.commitErrors())
        self.assertTrue(self.stored()[7].endswith("number=78 owner='Ben''s'"))

    def test_a_form_that_qgis_has_made_counts_as_one_of_pythons_own(self):
        QgsGui.editorWidgetRegistry().initEditors()
        ben, parcels = self.ben(), self.layer()
        parcels.startEditing()
        # The form within it is no form to Python.
        dialog = QgsAttributeDialog(parcels, self.feature(7), False)
        dialog.show()
        self.addCleanup(dialog.deleteLater)
        self.bens(ben, "set parcels 7 owner 'Ben''s'")
        self.turn(1.1)
        self.set(7, "number", 77)
        self.assertFalse(parcels.commitChanges())
        self.assertIn("Look again: Ben changed parcels 7 meanwhile.", " ".join([*self.said(), *parcels.commitErrors()]))
        parcels.rollBack()
        dialog.close()
        self.turn(0.1)
        parcels.startEditing()
        self.set(7, "number", 78)
        self.assertTrue(parcels.commitChanges(), parcels.commitErrors())

    def test_ones_own_edits_are_no_news(self):
        parcels = self.layer()
        for owner in ("first", "second"):
            parcels.startEditing()
            self.set(7, "owner", owner)
            self.assertTrue(parcels.commitChanges(), parcels.commitErrors())
            self.settle()
        self.plugin.move("undo")
        self.settle()
        parcels.startEditing()
        self.set(7, "owner", "third")
        self.assertTrue(parcels.commitChanges(), parcels.commitErrors())


class TwoStores(QgisCase):
    """A day with two stores on two grids, both open at once."""

    at_once = True

    def setUp(self):
        super().setUp()
        self.east = self.folder / "east.sfs"
        self.make(b"layer add fields polygon\nadd fields POLYGON ((0 0, 300 0, 300 400, 0 0))\n", self.east)
        self.place(self.east, grid=["400000.05", "5600000", "0.1"], crs="25833")
        self.plugin.open(str(self.east))
        self.fields = self.layer("fields")

    def test_what_one_has_refused_is_told_beside_what_the_other_one_takes_or_refuses(self):
        parcels = self.layer()
        parcels.startEditing()
        self.fields.startEditing()
        crossed = "POLYGON((400100.05 5600000, 400130.05 5600030, 400130.05 5600000, 400100.05 5600024, 400100.05 5600000))"
        right = "POLYGON((400100.05 5600000, 400130.05 5600000, 400130.05 5600030, 400100.05 5600000))"
        for theirs, words in ((right, ["parcels"]), (crossed, ["fields", "parcels"])):
            # In one turn, so that both are sent in one go.
            self.draw(CROSSED)
            self.draw(theirs, self.fields)
            self.turn(0.3)
            told = [each for each in self.said() if "RingNotSimple" in each]
            self.assertEqual(sorted(re.findall(r"\((\w+), 13 RingNotSimple\)", " ".join(told))), words)
        self.draw(SQUARE)
        self.turn(0.3)
        # What the other one has refused is marked still.
        self.assertEqual(len(self.plugin.teller.markers), 2)

    def test_a_form_of_one_is_no_form_of_the_other(self):
        """Both have a column of this name: texts the one, and numbers the other."""
        Session.of(str(self.east)).line("column add fields number text")
        self.turn(0.3)
        QgsGui.editorWidgetRegistry().initEditors()
        parcels = self.layer()
        for layer in (parcels, self.fields):
            layer.startEditing()
        form = QgsAttributeForm(self.fields, self.feature(1, self.fields), QgsAttributeEditorContext())
        form.setMode(QgsAttributeEditorContext.SingleEditMode)
        form.show()
        self.turn()
        [line] = {line for each in form.findChildren(QWidget, "number") for line in (each, *each.findChildren(QLineEdit)) if isinstance(line, QLineEdit) and line.isVisible()}
        line.setFocus()
        line.setText("12a")
        self.turn()
        self.said()
        self.set(1, "number", NULL)
        self.turn(0.3)
        form.close()
        self.turn()
        self.assertNotIn("can't read", " ".join(self.said()))
        self.assertNotIn("number=", self.stored()[1])

    def test_each_is_drawn_on_its_own_grid(self):
        precision = [layer.geometryOptions().geometryPrecision() for layer in (self.layer(), self.fields)]
        # QGIS can have grids from 0 on.
        self.assertEqual(precision, [0.1, 0.0])
        self.place(self.path, grid=["500000.05", "5600000", "0.1"])
        self.server().kill()
        self.server().wait()
        self.wait_for(lambda: not self.session.is_connected)
        self.wait_for(lambda: self.session.is_connected)
        self.wait_for(lambda: self.layer().geometryOptions().geometryPrecision() == 0.0)

    def test_a_reference_system_that_somebody_sets_does_not_move_what_is_drawn(self):
        """Drawn in another one, coordinates would go to the store as if they were its own."""
        self.said()
        self.fields.setCrs(QgsCoordinateReferenceSystem("EPSG:25832"))
        self.assertEqual(self.fields.crs().authid(), "EPSG:25833")
        self.assertEqual(self.said(), ["fields is shown in the store's reference system, EPSG:25833, and not in EPSG:25832."])

    def test_of_a_file_that_was_opened_anew_the_new_session_counts(self):
        file = str(self.folder / "town.qgs")
        self.plugin.open(str(self.east))
        self.assertTrue(QgsProject.instance().write(file))
        QgsProject.instance().clear()
        self.turn(0.2)
        self.assertTrue(QgsProject.instance().read(file))
        self.window.make_active(None)
        QgsProject.instance().removeMapLayers([layer.id() for layer in QgsProject.instance().mapLayers().values() if layer.name() != "fields"])
        self.turn(0.2)
        self.plugin.add_layer("trees", "point")
        self.assertEqual([layer["name"] for layer in Session.of(str(self.east)).layers()], ["fields", "trees"])

    def test_a_reference_system_that_qgis_does_not_know_is_told(self):
        odd = self.folder / "odd.sfs"
        self.make(b"layer add rocks point\nadd rocks POINT (3 5)\n", odd)
        self.place(odd, crs="99999")
        self.said()
        self.plugin.open(str(odd))
        said = "Give its layers one by Set Layer CRS: QGIS does not know the reference system of odd.sfs, EPSG:99999."
        self.assertIn(said, self.said())
        self.layer("rocks").setCrs(QgsCoordinateReferenceSystem("EPSG:25833"))
        self.assertEqual(self.layer("rocks").crs().authid(), "EPSG:25833")

    def test_a_place_that_the_map_can_not_show_is_told_without_a_mark(self):
        """The map is shown in a projection that has no such place."""
        self.window.canvas.setDestinationCrs(QgsCoordinateReferenceSystem("PROJ:+proj=tmerc +lon_0=-81 +datum=WGS84"))
        self.fields.startEditing()
        far = self.folder / "far.sfs"
        self.make(b"layer add plots polygon\n", far)
        self.place(far, grid=["0", "0", "0.1"], crs="3857")
        self.plugin.open(str(far))
        plots = self.layer("plots")
        plots.startEditing()
        self.said()
        self.draw("POLYGON((1000000 0, 1000030 30, 1000030 0, 1000000 24, 1000000 0))", plots)
        self.turn(0.3)
        self.assertIn("RingNotSimple", " ".join(self.said()))

    def test_an_empty_geometry_is_told_in_words(self):
        parcels, wells = self.layer(), self.layer("wells")
        wells.startEditing()
        self.draw("POINT EMPTY", wells)
        self.turn(0.3)
        self.assertIn("Draw one: a feature without a geometry has no place in the store. (wells)", self.said())
        self.assertEqual(parcels.featureCount(), len(self.stored()))


class Lost(QgisCase):
    """A server that hangs or ends."""

    def test_one_that_was_killed_is_begun_again_with_all_that_was_answered(self):
        parcels = self.layer()
        parcels.startEditing()
        self.set(51, "owner", "Ann 51")
        self.assertTrue(parcels.commitChanges())
        parcels.startEditing()
        self.set(52, "owner", "waits")
        self.server().kill()
        self.wait_for(lambda: not self.session.is_connected)
        self.assertFalse(parcels.commitChanges())
        self.assertTrue(parcels.isModified())
        self.wait_for(lambda: self.session.is_connected)
        self.turn(0.3)
        self.assertIn("answers again", " ".join(self.said()))
        self.assertTrue(parcels.commitChanges(), parcels.commitErrors())
        self.assertIn("Ann 51", self.stored()[51])
        self.assertIn("waits", self.stored()[52])
        self.settle()
        self.assert_alike()

    def test_what_was_changed_meanwhile_is_not_overwritten(self):
        parcels = self.layer()
        parcels.startEditing()
        self.set(52, "owner", "Ann's")
        self.session._again.setInterval(10**6)
        ben = self.ben()
        self.session._lose()
        self.session._again.stop()
        version = ben.call("map")["version"]
        ben.call("batch", page="ben", lines=["set parcels 52 owner 'Ben''s'"], seen=[version])
        self.session._try_again()
        self.assertTrue(self.session.is_connected)
        self.assertFalse(parcels.commitChanges())
        self.assertIn("Ben''s", self.stored()[52])

    def test_another_map_in_its_place_lies_where_it_says(self):
        parcels = self.layer()
        parcels.startEditing()
        self.set(52, "owner", "waits")
        self.server().kill()
        self.wait_for(lambda: not self.session.is_connected)
        self.session._again.stop()
        self.make(self.lines)
        self.place(self.path, grid=["2600000", "1200000", "1"], crs="2056")
        self.session._try_again()
        self.wait_for(lambda: self.session.is_connected)
        said = " ".join(self.said())
        self.assertIn("given up: the store has another grid or reference system than before.", said)
        self.assertIn("parcels is shown in the store's reference system, EPSG:2056, and not in EPSG:25832.", said)
        self.assertFalse(parcels.isModified())
        self.turn(0.3)
        for layer in self.plugin.editings.values():
            self.assertEqual(layer.layer.crs().authid(), "EPSG:2056")
            self.assertGreater(layer.layer.extent().xMinimum(), 2_590_000)
        self.assertEqual(parcels.geometryOptions().geometryPrecision(), 1)
        parcels.startEditing()
        self.draw("POLYGON((2600000 1209000, 2600009 1209000, 2600009 1209009, 2600000 1209000))", owner="there")
        self.assertTrue(parcels.commitChanges(), parcels.commitErrors())
        self.assertIn("201 POLYGON ((0 9000, 9 9000, 9 9009, 0 9000)) owner='there'", self.stored()[201])
        self.settle()
        self.assert_alike()

    def test_what_is_selected_is_no_other_feature_behind_another_grid(self):
        """QGIS' numbers of features become others: who deletes what is selected would delete others."""
        parcels = self.layer()
        self.bens(self.ben(), "delete parcels 1")
        parcels.selectByIds([self.fid(2)])
        self.place(self.path, grid=["500000", "5600000", "0.01"])
        self.server().kill()
        self.server().wait()
        self.wait_for(lambda: not self.session.is_connected)
        self.wait_for(lambda: self.session.is_connected)
        self.turn(0.3)
        self.assertEqual([feature["_id"] for feature in parcels.selectedFeatures() if feature["_id"] != 2], [])

    def test_a_form_of_before_changes_no_other_feature(self):
        """Another map came in the store's place meanwhile, and QGIS' numbers of features are others."""
        parcels = self.layer()
        self.bens(self.ben(), "delete parcels 1")
        QgsGui.editorWidgetRegistry().initEditors()
        form = QgsAttributeForm(parcels, self.feature(2), QgsAttributeEditorContext())
        form.show()
        self.place(self.path, grid=["500000", "5600000", "0.01"])
        self.server().kill()
        self.server().wait()
        self.wait_for(lambda: not self.session.is_connected)
        self.wait_for(lambda: self.session.is_connected)
        self.turn(0.3)
        before = self.stored()
        parcels.startEditing()
        form.setMode(QgsAttributeEditorContext.SingleEditMode)
        form.changeAttribute("owner", "Ann's own")
        self.turn()
        self.assertTrue(form.save())
        self.assertFalse(parcels.commitChanges())
        form.close()
        parcels.rollBack()
        self.assertEqual(self.stored(), before)

    def test_a_side_car_that_is_changed_under_the_server(self):
        """What was drawn by the old grid is not sent, and the layers lie by the new one."""
        parcels = self.layer()
        parcels.startEditing()
        self.set(52, "owner", "waits")
        self.place(self.path, grid=["2600000", "1200000", "1"], crs="2056")
        self.assertFalse(parcels.commitChanges())
        self.assertNotIn("waits", self.stored()[52])
        self.wait_for(lambda: parcels.crs().authid() == "EPSG:2056")
        self.turn(0.3)
        self.assertGreater(parcels.extent().xMinimum(), 2_590_000)
        parcels.startEditing()
        self.draw("POLYGON((2600000 1209000, 2600009 1209000, 2600009 1209009, 2600000 1209000))", owner="there")
        self.assertTrue(parcels.commitChanges(), parcels.commitErrors())
        self.assertIn("201 POLYGON ((0 9000, 9 9000, 9 9009, 0 9000)) owner='there'", self.stored()[201])
        self.settle()
        self.assert_alike()

    def test_the_program_behind_the_server_is_killed(self):
        parcels = self.layer()
        parcels.startEditing()
        self.set(51, "owner", "Ann 51")
        self.assertTrue(parcels.commitChanges())
        self.settle()
        parcels.startEditing()
        self.set(52, "owner", "waits")
        for child in os.popen(f"pgrep -P {self.server().pid}").read().split():
            os.kill(int(child), signal.SIGKILL)
        parcels.commitChanges()
        self.turn(0.5)
        self.settle()
        self.turn(0.5)
        self.assertTrue(parcels.commitChanges() or not parcels.isModified(), parcels.commitErrors())
        self.assertIn("Ann 51", self.stored()[51])
        self.assertIn("waits", self.stored()[52])
        self.assert_alike()

    def test_a_store_whose_server_hangs_is_not_opened(self):
        other = self.folder / "other.sfs"
        self.make(self.lines, other)
        serving = self.serve(path=other)
        serving.process.send_signal(signal.SIGSTOP)
        begun = time.monotonic()
        self.plugin.tried(lambda: self.plugin.open(str(other)))
        self.assertLess(time.monotonic() - begun, 8)
        self.assertIn("does not answer", " ".join(self.said()))
        serving.process.send_signal(signal.SIGCONT)
        self.plugin.open(str(other))
        self.assertEqual(len(self.plugin.editings), 6)

    def test_what_the_server_loads_the_store_for_has_the_time_for_it(self):
        lines = [["column add parcels more int"], ["set parcels 1 number 5", "delete parcels 2"], ["column add parcels more int", "set parcels 1 more 5"]]
        with mock.patch.object(self.session, "call", side_effect=ServerGone("a test wants it so")) as called:
            for each in lines:
                self.assertRaises(ServerGone, self.session.batch, each, [None] * len(each))
        self.assertEqual([int(call.args[1]) for call in called.call_args_list], [5, 5, 30])

    def test_one_that_hangs_does_not_hang_qgis(self):
        parcels = self.layer()
        parcels.startEditing()
        self.set(53, "owner", "in doubt")
        os.killpg(self.server().pid, signal.SIGSTOP)
        try:
            begun = time.monotonic()
            self.assertFalse(parcels.commitChanges())
            self.assertLess(time.monotonic() - begun, 8)
            self.turn()
            self.assertIn("does not answer", " ".join(self.said()))
            for _ in range(5):
                begun = time.monotonic()
                self.assertFalse(parcels.commitChanges())
                self.assertLess(time.monotonic() - begun, 0.5)
        finally:
            os.killpg(self.server().pid, signal.SIGCONT)
        self.wait_for(lambda: self.session.is_connected)
        self.turn(0.2)
        self.assertIn("save your last edit, or give it up", " ".join(self.said()))
        parcels.rollBack()
        self.settle()
        self.assert_alike()


class Replaced(QgisCase):
    """Another store on the same grid comes in the place of the one that is shown."""

    OTHER = b"""layer add parcels polygon
column add parcels number int
column add parcels owner text
layer add trees point
add parcels POLYGON ((0 0, 300 0, 300 400, 0 0))
set parcels 1 owner 'another'
add parcels POLYGON ((1000 0, 1100 0, 1100 100, 1000 0))
"""

    def edited(self):
        """Edits of each kind that are not sent."""
        parcels = self.layer()
        parcels.startEditing()
        self.draw(SQUARE, owner="Ann's")
        self.set(2, "owner", "Ann's")
        self.turn()
        self.said()
        return parcels

    def kept_out(self, parcels):
        """The other store is shown, and gets nothing of what was edited before, which stays until it is given up."""
        before = self.stored()
        self.assertEqual(len(before), 2)
        for _ in range(2):
            self.assertFalse(parcels.commitChanges())
            self.turn()
            self.assertIn("Copy what you need of your edits, and give them up: another store is here than the one over which they were made. (parcels)", self.said())
            self.assertEqual(len(parcels.editBuffer().addedFeatures()), 1)
        self.assertEqual(self.stored(), before)
        parcels.rollBack()
        self.settle()
        self.assert_alike()
        self.assertEqual(self.feature(1)["owner"], "another")
        parcels.startEditing()
        self.draw(SQUARE, owner="Ann's")
        self.assertTrue(parcels.commitChanges(), parcels.commitErrors())
        self.assertTrue(self.stored()[3].endswith("owner='Ann''s'"))
        self.settle()
        self.assert_alike()

    def test_it_gets_nothing_of_what_was_edited_before(self):
        parcels = self.edited()
        self.replace(self.OTHER)
        # It is not heard yet.
        self.assertFalse(parcels.commitChanges())
        self.assertIn("town.sfs is another store than before", " ".join(parcels.commitErrors()))
        self.turn(0.5)
        said = " ".join(self.said())
        self.assertIn("What was not sent of parcels stays until you give it up, and is not sent to this store: copy what you need of it. Another store is in the place of town.sfs now", said)
        self.assertIn("the store has no streets, wells any more", said)
        self.assertIn("Open the store again to show what is new: trees.", said)
        self.kept_out(parcels)

    def test_nor_behind_another_server(self):
        parcels = self.edited()
        self.server().kill()
        self.server().wait()
        self.wait_for(lambda: not self.session.is_connected)
        self.session._again.stop()
        self.make(self.OTHER)
        self.place(self.path)
        self.path.with_name("town.sfs.journal").unlink(missing_ok=True)
        self.session._try_again()
        self.wait_for(lambda: self.session.is_connected)
        self.assertIn("Another store is in the place of town.sfs now", " ".join(self.said()))
        self.kept_out(parcels)

    def test_it_is_told_where_its_first_reading_fails(self):
        parcels = self.edited()
        self.replace(self.OTHER)
        gone = mock.patch.object(Session, "identifiers", side_effect=ServerGone("a test wants it so"))
        with gone as asked:
            self.wait_for(lambda: asked.called)
        self.wait_for(lambda: self.session.is_connected and parcels.getFeature(self.fid(1))["owner"] == "another")
        self.assertEqual(len([each for each in self.said() if "Another store is in the place of town.sfs now" in each]), 1)
        self.kept_out(parcels)

    def test_what_was_selected_is_nothing_of_it(self):
        parcels = self.layer()
        parcels.selectByIds([self.fid(1), self.fid(2)])
        self.replace(self.OTHER)
        self.wait_for(lambda: parcels.featureCount() == 2)
        self.turn(0.3)
        self.assertEqual(parcels.selectedFeatureCount(), 0)

    def test_neither_what_is_sent_at_once_nor_a_step_or_a_save_is_meant_for_it(self):
        self.plugin.set_at_once(True)
        parcels = self.layer()
        parcels.startEditing()
        self.replace(self.OTHER)
        self.draw(SQUARE, owner="Ann's")
        self.plugin.send()
        for act in (partial(self.session.line, "undo"), partial(self.session.line, "save"), partial(self.session.save_style, "parcels", "", None, None)):
            with self.assertRaisesRegex(CallFailed, "is another store than before"):
                act()
        self.turn(0.5)
        self.assertIn("town.sfs is another store than before", " ".join(self.said()))
        self.assertEqual(len(self.stored()), 2)
        self.assertFalse(parcels.isModified())
        self.settle()
        self.assert_alike()

    def behind_another_server(self, act):
        """Another server, which finds what was done to the files while there was none."""
        self.server().kill()
        self.server().wait()
        self.wait_for(lambda: not self.session.is_connected)
        self.session._again.stop()
        act()
        self.session._try_again()
        self.wait_for(lambda: self.session.is_connected)

    def restored(self, contents):
        """Has files as they were."""
        for path, content in contents.items():
            path.unlink(missing_ok=True)
            if content is not None:
                path.write_bytes(content)

    def backup(self):
        """The store's file, and its journal."""
        paths = [self.path, self.path.with_name("town.sfs.journal")]
        return {path: path.read_bytes() if path.exists() else None for path in paths}

    def test_a_backup_from_before_a_save_gets_nothing(self):
        before = self.backup()
        self.session.line("delete parcels 200")
        self.session.line("save")
        self.turn(0.3)
        self.behind_another_server(lambda: None)
        self.assertNotIn("Another store", " ".join(self.said()))
        parcels = self.edited()
        for _ in range(2):
            self.behind_another_server(lambda: self.restored(before))
            self.assertFalse(parcels.commitChanges())
        self.assertIn("Another store is in the place of town.sfs now", " ".join(self.said()))
        self.assertNotIn("owner='Ann''s'", " ".join(self.stored().values()))

    def test_nor_does_one_without_the_last_edits(self):
        before = self.backup()
        self.session.line("delete parcels 200")
        self.turn(0.3)
        parcels = self.edited()
        self.behind_another_server(lambda: self.restored(before))
        self.assertIn("Another store is in the place of town.sfs now", " ".join(self.said()))
        self.assertFalse(parcels.commitChanges())
        self.assertNotIn("owner='Ann''s'", " ".join(self.stored().values()))

    def test_nor_does_one_whose_next_edit_is_heard_with_it(self):
        """The server has the backup, and an edit of it, before QGIS hears of either."""
        ben, before = self.ben(), self.backup()
        self.session.line("delete parcels 200")
        self.turn(0.3)
        parcels = self.edited()
        self.restored(before)
        # The first one finds that another file is there.
        with self.assertRaises(CallFailed):
            ben.call("line", page="ben", line="add wells POINT (24 24)")
        ben.call("line", page="ben", line="add wells POINT (25 25)")
        self.turn(0.5)
        self.assertIn("Another store is in the place of town.sfs now", " ".join(self.said()))
        self.assertFalse(parcels.commitChanges())
        self.assertNotIn("owner='Ann''s'", " ".join(self.stored().values()))

    def test_a_store_that_was_saved_is_the_same_behind_another_server(self):
        parcels = self.edited()
        ben = self.ben()
        ben.call("line", page="ben", line="save")
        self.turn(0.3)
        ben.close()
        self.server().kill()
        self.server().wait()
        self.wait_for(lambda: not self.session.is_connected)
        self.wait_for(lambda: self.session.is_connected)
        self.assertNotIn("Another store", " ".join(self.said()))
        self.assertTrue(parcels.commitChanges(), parcels.commitErrors())
        self.assertIn("owner='Ann''s'", self.stored()[2])
        self.assertIn(201, self.stored())


class AtRandom(QgisCase):
    """Edits at random, of this QGIS and of another editor, and the store's content at the end."""

    def test_two_editors_by_a_seed(self):
        rng = random.Random(53)
        ben, parcels = self.ben(), self.layer()
        for step in range(150):
            self.bens_move(rng, ben)
            if rng.random() < 0.3:
                self.turn(0.01)
            if rng.random() < 0.2:
                self.plugin.tried(lambda: self.plugin.move(rng.choice(["undo", "redo"])))
                continue
            parcels.startEditing()
            for _ in range(rng.randrange(1, 4)):
                self.edit(rng, parcels)
            if rng.random() < 0.5:
                self.bens_move(rng, ben)
            if rng.random() < 0.5:
                self.turn(0.01)
            if not parcels.commitChanges():
                parcels.rollBack()
        self.settle()
        self.assert_alike()

    def test_columns_of_two_editors_by_a_seed(self):
        for seed in range(2):
            rng = random.Random(seed)
            ben, parcels, taken = self.ben(), self.layer(), 0
            for step in range(60):
                parcels.startEditing()
                self.bens_columns(rng, ben)
                if rng.random() < 0.5:
                    self.settle()
                model = self.edit_columns(rng, parcels, f"{seed} {step}")
                if rng.random() < 0.5:
                    self.bens_columns(rng, ben)
                    if rng.random() < 0.5:
                        self.settle()
                before = self.content()
                if parcels.commitChanges():
                    self.assertEqual(self.content(), model(before), (seed, step))
                    taken += 1
                else:
                    self.assertEqual(self.content(), before, (seed, step))
                    parcels.rollBack()
                self.turn(0.02)
            self.settle()
            self.assert_alike()
            self.assertGreater(taken, 10)
            ben.close()

    def content(self):
        """The columns of the parcels, and the values of each."""
        columns = dict(self.session.columns("parcels"))
        return columns, {number: feature_of(row, columns).values for number, row in self.stored().items()}

    def edit_columns(self, rng, parcels, value):
        """Some edits by names, and what they make of the store's content."""
        dropped, added, given, drawn = set(), {}, [], []
        for _ in range(rng.randrange(1, 4)):
            names = parcels.fields().names()
            name = rng.choice(names[1:] or ["_id"])
            what = rng.choice(["value", "draw", "draw", "add", "drop"])
            typed = value if parcels.fields().field(name).type() == QVariant.String else rng.randrange(99)
            if what == "value" and name != "_id":
                number = rng.choice(list(self.plugin.editings[parcels.id()].provider.mirror.fids))
                self.set(number, name, typed)
                given.append((number, name, typed))
            elif what == "draw":
                self.draw(SQUARE, **({} if name == "_id" else {name: typed}))
                drawn.append({} if name == "_id" else {name: typed})
            elif what == "add" and (new := rng.choice(["a", "b", "c", "number", "owner"])) not in names:
                kind = rng.choice(["int", "text"])
                field = QgsField(new, QVariant.LongLong if kind == "int" else QVariant.String, kind)
                self.assertTrue(parcels.addAttribute(field))
                added[new] = kind
            elif what == "drop" and name != "_id" and name not in added:
                self.assertTrue(parcels.deleteAttribute(parcels.fields().indexOf(name)))
                dropped.add(name)
                given = [each for each in given if each[1] != name]
                drawn = [{key: each[key] for key in each if key != name} for each in drawn]

        def model(before):
            columns, values = before
            columns = {**{name: kind for name, kind in columns.items() if name not in dropped}, **added}
            kept = set(before[0]) - dropped
            values = {at: {name: each[name] for name in each if name in kept} for at, each in values.items()}
            for number, name, typed in given:
                values[number][name] = typed
            last = self.last_number()
            values.update({last - len(drawn) + at: each for at, each in enumerate(drawn, 1)})
            return columns, values

        return model

    def last_number(self):
        return max(self.session.identifiers("parcels"))

    def bens_columns(self, rng, ben):
        name, number = rng.choice(["number", "owner", "a", "b", "c", "id"]), rng.choice(self.session.identifiers("parcels"))
        line = rng.choice(
            [
                f"column add parcels {name} {rng.choice(['int', 'text'])}",
                f"column drop parcels {name}",
                f"set parcels {number} {name} {rng.choice(['5', chr(39) + 'Ben' + chr(39)])}",
                "undo",
            ]
        )
        ben.call("line", page="ben", line=line, seen=ben.call("map")["version"])

    def edit(self, rng, parcels):
        mirror = self.plugin.editings[parcels.id()].provider.mirror
        fid = rng.choice(list(mirror.fids.values()))
        box = parcels.getGeometry(fid).boundingBox()
        what = rng.choice(["value", "vertex", "bad", "delete", "add"])
        if what == "value":
            parcels.changeAttributeValue(fid, 2, f"Ann {rng.random():.4f} it's last")
        elif what == "vertex":
            parcels.moveVertex(box.xMaximum() - rng.random(), box.yMinimum() + rng.random(), fid, 1)
        elif what == "bad" and rng.random() < 0.3:
            parcels.moveVertex(box.xMinimum() - 5, box.center().y(), fid, 1)
        elif what == "delete":
            parcels.deleteFeature(fid)
        elif what == "add":
            x, y = 500000 + rng.random() * 900, 5600400 + rng.random() * 300
            feature = QgsFeature(parcels.fields())
            feature.setGeometry(QgsGeometry.fromRect(QgsRectangle(x, y, x + 9, y + 9)))
            feature["number"] = rng.randrange(10**9)
            parcels.addFeature(feature)

    def bens_move(self, rng, ben):
        number = rng.randrange(1, 205)
        line = rng.choice(
            [
                f"set parcels {number} owner 'Ben {rng.random():.4f}'",
                f"delete parcels {number}",
                f"add parcels POLYGON ((0 {number}, 9 {number}, 9 {number + 9}, 0 {number}))",
                "undo",
                "redo",
            ]
        )
        version = ben.call("map")["version"]
        try:
            if line in ("undo", "redo"):
                ben.call("line", page="ben", line=line)
            else:
                ben.call("batch", page="ben", lines=[line], seen=[version])
        except CallFailed:
            pass


if __name__ == "__main__":
    unittest.main()
