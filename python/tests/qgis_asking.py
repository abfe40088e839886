"""Tests inside of QGIS of what it asks a store, which `test_qgis` starts: expressions, and algorithms of the toolbox."""

from __future__ import annotations

import json
import os
import re
import signal
import threading
import time
import unittest
from decimal import Decimal
from unittest import mock

from qgis.core import (
    QgsApplication,
    QgsCoordinateReferenceSystem,
    QgsCoordinateTransform,
    QgsCsException,
    QgsExpression,
    QgsExpressionContext,
    QgsExpressionContextUtils,
    QgsFeature,
    QgsField,
    QgsGeometry,
    QgsLayoutItemLabel,
    QgsMapRendererParallelJob,
    QgsMapSettings,
    QgsPalLayerSettings,
    QgsPointXY,
    QgsPrintLayout,
    QgsProcessingAlgRunnerTask,
    QgsProcessingContext,
    QgsProcessingException,
    QgsProcessingFeatureSourceDefinition,
    QgsProcessingFeedback,
    QgsProject,
    QgsRectangle,
    QgsRelation,
    QgsVectorLayer,
    QgsVectorLayerJoinInfo,
    QgsVectorLayerSimpleLabeling,
)
from qgis.PyQt.QtCore import NULL, QSize, QVariant
from qgis_support import CROSSED, SIDECAR, SQUARE, Plugin, QgisCase, Window

from support import FOLDER

from sfstore import files
from sfstore.web.client import ServerGone
from sfstore_qgis import measures
from sfstore_qgis.asking import Asking
from sfstore_qgis.functions import PAGES

# On a grid of 0.1 from 500000, 5600000: a right triangle, a square, and the least triangle there is.
LINES = b"""layer add parcels polygon
column add parcels number int
layer add wells point
layer add pipes linestring
layer add valves point
add parcels POLYGON ((0 0, 300 0, 300 400, 0 0))
add parcels POLYGON ((1000 0, 1100 0, 1100 100, 1000 100, 1000 0))
add parcels POLYGON ((2000 0, 2001 0, 2000 1, 2000 0))
set parcels 1 number 7
add wells POINT (300 500)
add wells POINT (1050 50)
add wells POINT (1050 170)
add pipes LINESTRING (0 1000, 100 1000)
add pipes LINESTRING (100 1000, 200 1000)
add pipes LINESTRING (200 1000, 300 1000)
add pipes LINESTRING (500 1000, 600 1000)
add valves POINT (200 1000)
"""
# The triangle with its top 10 m higher: 300 by 500 steps.
TALLER = "POLYGON((500000 5600000, 500030 5600000, 500030 5600050, 500000 5600000))"


UNKNOWN = "Ask of a layer of a store, or name it, as sfstore_area('parcels', \"_id\") does: of which layer this feature is, is not known here."


class Asked(QgisCase):
    """What an expression gives."""

    def asked(self, text, number=None, layer=None):
        """What an expression gives of a feature, or the error in its place."""
        layer = layer or self.layer()
        context = QgsExpressionContext(QgsExpressionContextUtils.globalProjectLayerScopes(layer))
        if number is not None:
            context.setFeature(layer.getFeature(self.fid(number, layer)))
        expression = QgsExpression(text)
        expression.prepare(context)
        found = expression.evaluate(context)
        return expression.evalErrorString() or expression.parserErrorString() or found


class Expressions(Asked):
    """What expressions ask."""

    lines = LINES

    def test_areas_and_lengths_are_the_stores(self):
        self.assertEqual([self.asked("sfstore_area()", number) for number in (1, 2, 3)], [600.0, 100.0, 0.005])
        # 2 and the root of 2 is 3.41421, rounded down to a thousandth of a step.
        self.assertEqual([self.asked("sfstore_length()", number) for number in (1, 2, 3)], [120.0, 40.0, 0.3414])
        self.assertEqual(self.asked("sfstore_length()", 1, self.layer("pipes")), 10.0)
        self.assertEqual(self.asked("sfstore_area('parcels', 2)", 1, self.layer("wells")), 100.0)
        key = self.layer().id()
        self.assertEqual(self.asked(f"sfstore_area(layer:='{key}', id:=\"_id\")", 2), 100.0)

    def test_many_are_asked_at_a_time(self):
        wells = self.layer("wells")
        with mock.patch("sfstore_qgis.asking.Asking.exchange", autospec=True, side_effect=Asking.exchange) as exchanged:
            for _ in range(2):
                self.assertEqual([self.asked("sfstore_area()", number) for number in (1, 2, 3)], [600.0, 100.0, 0.005])
            self.assertEqual(exchanged.call_count, 1)
            self.assertEqual(self.asked("sfstore_area()", 1, wells), 0.0)
            self.assertEqual(exchanged.call_count, 2)

    def test_distances_and_what_is_near(self):
        wells = self.layer("wells")
        distances = [self.asked("sfstore_distance('parcels', 1, $geometry)", number, wells) for number in (1, 2)]
        # The second one is 75 m to the right.
        self.assertEqual(distances, [10.0, 75.0])
        self.assertEqual(self.asked("sfstore_distance('parcels', 2, $geometry)", 2, wells), 0.0)
        # The side from (0 0) to (300 400) goes by (0 100) at 3/5 of it.
        self.assertEqual(self.asked("sfstore_distance('parcels', 1, make_point(500000, 5600010))"), 6.0)
        near = "sfstore_near('wells', {}, $geometry)"
        self.assertEqual([self.asked(near.format(far), 2) for far in ("0", "6.9999", "7")], [[2], [2], [2, 3]])
        nearest = "sfstore_nearest('wells', {}, $geometry)"
        self.assertEqual([self.asked(nearest.format(count), 2) for count in (1, 3)], [[2], [2, 3, 1]])

    def test_a_geometry_is_moved_to_the_grid(self):
        moved = self.asked("sfstore_on_grid('wells', geom_from_wkt('LineStringZ(500000.04 5600000.06 3, 500010 5600010 4)'))")
        self.assertEqual(moved.asWkt(1), "LineString (500000 5600000.1, 500010 5600010)")
        self.assertEqual(self.asked("sfstore_distance('wells', 1, sfstore_on_grid('wells', make_point(500030.04, 5600047.96)))"), 2.0)
        self.assertEqual(self.asked("sfstore_on_grid('wells', 5)"), "Take a geometry, such as $geometry.")

    def test_what_is_not_there_is_no_value(self):
        for text in ("sfstore_area('parcels', NULL)", "sfstore_area(NULL, 1)", "sfstore_area(\"number\", \"number\")", "sfstore_distance('parcels', 1, NULL)"):
            self.assertIn(self.asked(text, 2), (None, NULL), text)

    def test_what_can_not_be_answered_is_an_error_in_words(self):
        other = QgsVectorLayer("Point?field=a:int", "other", "memory")
        QgsProject.instance().addMapLayer(other)
        self.assertEqual(self.asked("sfstore_area()", layer=other), UNKNOWN)
        self.assertEqual(self.asked("sfstore_area()"), "Ask of a feature: there is none here.")
        for text, said in (
            ("sfstore_area('nix', 1)", "Take another name than 'nix': the project has no layer of a store with this name."),
            ("sfstore_area('other', 1)", "Take another name than 'other': the project has no layer of a store with this name."),
            ("sfstore_area('parcels', 9)", "Look again: the feature is not there any more. (21 NoFeature)"),
            ("sfstore_area('parcels', 1.5)", "Take a whole number from 0 to 4,294,967,295 for id: 1.5 is none."),
            ("sfstore_area('parcels', 'one')", "Take a number for id: 'one' is none."),
            ("sfstore_nearest('wells', 0, $geometry)", "Take a whole number from 1 to 1,000 for count: 0 is none."),
            ("sfstore_distance('wells', 1, 'POINT (1 2)')", "Take a geometry, such as $geometry."),
            (
                "sfstore_distance('wells', 1, make_point(500000.05, 5600000))",
                "Move it to the grid first, as sfstore_on_grid does it: x 500000.05 of point 0, between 500000.0 and 500000.1.",
            ),
            (
                "sfstore_distance('wells', 1, make_point(1000000000, 0))",
                "Ask nearer to the map: x 1000000000.0 of point 0 is further from the origin of the grid than the store reaches.",
            ),
            (
                "sfstore_near('wells', 0.00001, $geometry)",
                "Take another distance: the distance 0.00001 is no whole number of thousandths of a grid step; 0 and 0.0001 are.",
            ),
            (
                "sfstore_distance('wells', 1, geom_from_wkt('POLYGON((500000 5600000, 500001 5600001, 500001 5600000, 500000 5600001, 500000 5600000))'))",
                "Move or remove a corner: the border meets itself. (13 RingNotSimple)",
            ),
        ):
            self.assertEqual(self.asked(text, 1), said)

    def test_of_layers_with_one_name_none_is_taken(self):
        twice = self.layer("wells").clone()
        QgsProject.instance().addMapLayer(twice)
        self.assertEqual(self.asked("sfstore_area('wells', 1)"), "Take another name than 'wells': several layers of stores have this name.")
        twice.setName("again")
        self.assertEqual(self.asked("sfstore_area('wells', 1)"), 0.0)
        self.assertEqual(self.asked("sfstore_area('again', 1)"), 0.0)

    def test_what_was_not_saved_is_no_number(self):
        parcels, fid = self.layer(), self.fid(1)
        self.assertEqual(self.asked("sfstore_area()", 1), 600.0)
        parcels.startEditing()
        self.set(1, "number", 8)
        self.assertEqual(self.asked("sfstore_area()", 1), 600.0)
        parcels.changeGeometry(fid, QgsGeometry.fromWkt(TALLER))
        said = "Save your edits first: parcels 1 has another geometry here than in the store, or was deleted."
        wells = self.layer("wells")
        self.assertEqual(self.asked("sfstore_area()", 1), said)
        self.assertEqual(self.asked("sfstore_distance('parcels', 1, $geometry)", 1, wells), said)
        self.assertEqual(self.asked("sfstore_near('parcels', 1, $geometry)", 1, wells), "Save your edits first: parcels has other geometries here than in the store.")
        self.assertEqual(self.asked("sfstore_area()", 2), 100.0)
        parcels.undoStack().undo()
        self.assertEqual(self.asked("sfstore_area()", 1), 600.0)
        parcels.undoStack().redo()
        self.assertEqual(self.asked("sfstore_area()", 1), said)
        self.assertTrue(parcels.commitChanges(), parcels.commitErrors())
        self.assertEqual(self.asked("sfstore_area()", 1), 750.0)
        parcels.startEditing()
        parcels.deleteFeature(fid)
        self.assertEqual(self.asked("sfstore_area('parcels', 1)", 2), said)
        parcels.rollBack()
        self.assertEqual(self.asked("sfstore_area('parcels', 1)", 2), 750.0)

    def test_a_new_feature_has_no_number_before_it_is_saved(self):
        parcels = self.layer()
        parcels.startEditing()
        self.draw(TALLER)
        [fid] = parcels.editBuffer().addedFeatures()
        context = QgsExpressionContext(QgsExpressionContextUtils.globalProjectLayerScopes(parcels))
        context.setFeature(parcels.getFeature(fid))
        asked = QgsExpression("sfstore_area()")
        asked.evaluate(context)
        self.assertEqual(asked.evalErrorString(), "Save it first: the store of parcels does not have this feature yet.")
        self.assertTrue(parcels.commitChanges(), parcels.commitErrors())
        self.assertEqual(self.asked("sfstore_area()", 4), 750.0)

    def test_what_others_change_is_seen(self):
        ben = self.ben()
        self.assertEqual(self.asked("sfstore_area()", 1), 600.0)
        self.bens(ben, "replace parcels 1 POLYGON ((0 0, 300 0, 300 500, 0 0))")
        self.assertEqual(self.asked("sfstore_area()", 1), 750.0)
        self.plugin.tried(lambda: self.session.line("undo"))
        self.bens(ben, "delete parcels 2")
        self.assertEqual(self.asked("sfstore_area()", 1), 750.0)

    def test_one_that_was_deleted_beside_it_is_no_matter(self):
        ben = self.ben()
        with mock.patch.object(self.session, "_hear"):
            ben.call("batch", page="ben", lines=["delete parcels 2"], seen=[ben.call("map")["version"]])
            self.assertEqual(self.asked("sfstore_area()", 1), 600.0)
            self.assertEqual(self.asked("sfstore_area()", 2), "Look again: the feature is not there any more. (21 NoFeature)")

    def test_a_server_that_was_killed_is_asked_again(self):
        self.assertEqual(self.asked("sfstore_area()", 1), 600.0)
        for is_asked_meanwhile in (True, False):
            self.server().kill()
            self.server().wait()
            if is_asked_meanwhile:
                self.assertRegex(self.asked("sfstore_length()", 1), "^Wait a moment: ")
            self.wait_for(lambda: not self.session.is_connected)
            self.wait_for(lambda: self.session.is_connected)
            self.assertEqual(self.asked("sfstore_length()", 1), 120.0)

    def test_one_that_hangs_is_not_asked_for_each_feature(self):
        self.assertEqual(self.asked("sfstore_area()", 1), 600.0)
        server = self.server().pid
        with mock.patch.object(measures, "_SECONDS", 0.5):
            os.kill(server, signal.SIGSTOP)
            self.addCleanup(os.kill, server, signal.SIGCONT)
            self.plugin.functions.leave(self.session.path)
            begun = time.monotonic()
            for _ in range(20):
                self.assertRegex(self.asked("sfstore_length()", 1), "^Wait a moment: ")
            self.assertLess(time.monotonic() - begun, 5)
            os.kill(server, signal.SIGCONT)
            self.plugin.functions._of(self.session)._silent_until = 0.0
            self.wait_for(lambda: self.asked("sfstore_length()", 1) == 120.0)

    def test_features_are_selected_and_labelled_by_them(self):
        parcels = self.layer()
        parcels.selectByExpression("sfstore_area() > 50")
        self.assertEqual(sorted(feature["_id"] for feature in parcels.selectedFeatures()), [1, 2])
        settings = QgsPalLayerSettings()
        settings.fieldName, settings.isExpression = "sfstore_area()", True
        parcels.setLabeling(QgsVectorLayerSimpleLabeling(settings))
        parcels.setLabelsEnabled(True)
        threads = set()
        answer = self.plugin.functions._measure

        def measured(*words):
            threads.add(threading.current_thread())
            return answer(*words)

        with mock.patch.object(self.plugin.functions._functions[0], "_answer", lambda *words: measured("area", *words)):
            labels = self.drawn(parcels)
        self.assertEqual(labels, ["0.005", "100", "600"])
        self.assertNotIn(threading.main_thread(), threads)

    def test_a_field_is_computed_by_them(self):
        parcels = self.layer()
        parcels.addExpressionField("sfstore_area()", QgsField("exact", QVariant.Double))
        self.assertEqual([self.feature(number)["exact"] for number in (1, 2, 3)], [600.0, 100.0, 0.005])
        parcels.startEditing()
        parcels.changeGeometry(self.fid(1), QgsGeometry.fromWkt(TALLER))
        self.assertEqual([self.feature(number)["exact"] for number in (1, 2, 3)], [NULL, 100.0, 0.005])
        self.assertTrue(parcels.commitChanges(), parcels.commitErrors())
        self.assertEqual([self.feature(number)["exact"] for number in (1, 2, 3)], [750.0, 100.0, 0.005])

    def drawn(self, layer):
        """The labels of a layer, as a map has them that threads draw."""
        settings = QgsMapSettings()
        settings.setLayers([layer])
        settings.setOutputSize(QSize(800, 600))
        settings.setDestinationCrs(layer.crs())
        settings.setExtent(QgsRectangle(499990, 5599960, 500220, 5600080))
        job = QgsMapRendererParallelJob(settings)
        job.start()
        self.wait_for(lambda: not job.isActive())
        results = job.takeLabelingResults()
        return sorted(label.labelText for label in results.labelsWithinRect(settings.visibleExtent()))

    def test_functions_go_with_the_plugin(self):
        for name in PAGES:
            self.assertTrue(QgsExpression.isFunctionName(name))
            function = QgsExpression.Functions()[QgsExpression.functionIndex(name)]
            self.assertEqual(function.group(), "sfstore")
            self.assertIn(f"function {name}", function.helpText())
            for parameter in function.parameters():
                self.assertIn(parameter.name(), function.helpText())
        self.plugin.unload()
        for name in PAGES:
            self.assertFalse(QgsExpression.isFunctionName(name))
        self.plugin = Plugin(Window())
        self.plugin.initGui()
        self.assertEqual(self.asked("sfstore_area()", 1), 600.0)


class Elsewhere(Asked):
    """Expressions about features of other layers than their own, about which QGIS itself tells nobody an error."""

    lines = LINES

    def other(self, geometries, crs="EPSG:25832", fields=()):
        """A layer of no store."""
        made = QgsVectorLayer(f"Polygon?crs={crs}", "other", "memory")
        made.dataProvider().addAttributes(list(fields))
        made.updateFields()
        features = []
        for number, geometry in enumerate(geometries, 1):
            feature = QgsFeature(made.fields())
            feature.setGeometry(geometry)
            feature.setAttributes([number] * len(fields))
            features.append(feature)
        made.dataProvider().addFeatures(features)
        QgsProject.instance().addMapLayer(made)
        return made

    def asked_of(self, text, layer, feature=None):
        """What an expression gives of the first feature of any layer, with its error in the place of none."""
        context = QgsExpressionContext(QgsExpressionContextUtils.globalProjectLayerScopes(layer))
        context.setFeature(feature or next(layer.getFeatures()))
        expression = QgsExpression(text)
        expression.prepare(context)
        found = expression.evaluate(context)
        return expression.evalErrorString() or expression.parserErrorString() or found

    def test_a_sum_over_another_layer_is_that_of_its_features(self):
        other = self.other([QgsGeometry.fromWkt(SQUARE)])
        for text, found in (
            ("aggregate('parcels', 'sum', sfstore_area())", 700.005),
            ("aggregate('parcels', 'max', sfstore_length())", 120.0),
            ("aggregate('parcels', 'sum', sfstore_area('parcels', \"_id\"))", 700.005),
            ("aggregate('parcels', 'sum', sfstore_area(), filter:=\"_id\" > 1)", 100.005),
            ("aggregate('parcels', 'count', \"_id\", filter:=sfstore_area() > 50)", 2),
            ("aggregate('parcels', 'sum', sfstore_distance('wells', 1, $geometry), filter:=\"_id\" = 1)", 10.0),
        ):
            for layer in (self.layer("wells"), other):
                self.assertEqual(self.asked_of(text, layer), found, text)
        self.assertEqual(self.asked("sum(sfstore_area())", 1), 700.005)
        self.assertEqual(self.said(), [])

    def test_a_sum_by_a_relation(self):
        owners = self.other([QgsGeometry.fromWkt(SQUARE)], fields=[QgsField("number", QVariant.Int)])
        owners.dataProvider().changeAttributeValues({1: {0: 7}})
        relation = QgsRelation()
        relation.setId("owned")
        relation.setReferencingLayer(self.layer().id())
        relation.setReferencedLayer(owners.id())
        relation.addFieldPair("number", "number")
        QgsProject.instance().relationManager().addRelation(relation)
        self.assertEqual(self.asked_of("relation_aggregate('owned', 'sum', sfstore_area())", owners), 600.0)
        self.assertEqual(self.asked_of("relation_aggregate('owned', 'max', sfstore_length())", owners), 120.0)

    def test_a_sum_of_which_a_part_is_not_known_is_none(self):
        parcels, wells = self.layer(), self.layer("wells")
        parcels.startEditing()
        parcels.changeGeometry(self.fid(1), QgsGeometry.fromWkt(TALLER))
        said = "Save your edits first: parcels has other geometries here than in the store."
        for each in ("sfstore_area()", "sfstore_area('parcels', \"_id\")", "sfstore_distance('parcels', \"_id\", $geometry)"):
            for what in ("sum", "max"):
                self.assertIn(said, self.asked_of(f"aggregate('parcels', '{what}', {each})", wells))
        self.assertEqual(self.said(), [])
        # What is named by an expression is known with each feature: the sum is none, and it is told why.
        self.assertIn(self.asked_of("aggregate('parcels', 'sum', sfstore_area(lower('PARCELS'), \"_id\"))", wells), (None, NULL))
        self.turn()
        told = "Mend this, and compute it anew: in an aggregate or a filter QGIS leaves out what has an error. Save your edits first: parcels 1 has"
        self.assertIn(told, " ".join(self.said()))
        parcels.rollBack()
        self.assertEqual(self.asked_of("aggregate('parcels', 'sum', sfstore_area(lower('PARCELS'), \"_id\"))", wells), 700.005)
        with mock.patch.object(measures.Measures, "of", side_effect=[Decimal(1), Decimal(1), ServerGone("Wait a moment"), Decimal(1)]):
            self.assertIn(self.asked_of("aggregate('parcels', 'sum', sfstore_area())", wells), (None, NULL))
        with mock.patch.object(type(self.session), "is_connected", False):
            self.assertIn("Wait a moment: ", self.asked_of("aggregate('parcels', 'max', sfstore_area())", wells))

    def test_of_an_overlay_no_feature_is_taken_for_another_one(self):
        self.ben().call("batch", page="ben", lines=["delete parcels 1"], seen=[self.session.version])
        self.settle()
        parcels, wells = self.layer(), self.layer("wells")
        other = self.other([QgsGeometry.fromWkt(SQUARE)])
        for layer, feature, overlay in (
            (wells, self.feature(2, wells), "overlay_intersects"),
            (parcels, self.feature(2), "overlay_nearest"),
            (other, None, "overlay_disjoint"),
        ):
            found = [{2: 100.0, 3: 0.005}[number] for number in self.asked_of(f"{overlay}('parcels', \"_id\")", layer, feature)]
            self.assertTrue(found)
            for text in ("sfstore_area('parcels', \"_id\")", "sfstore_area('parcels', \"_id\"), filter:=sfstore_area() > 0.001"):
                self.assertEqual(self.asked_of(f"{overlay}('parcels', {text})", layer, feature), found, text)
            self.turn()
            self.assertEqual(self.said(), [])
            # QGIS may make a copy of the layer, which brings nothing along.
            self.assertIn(self.asked_of(f"{overlay}('parcels', sfstore_area())", layer, feature), (found, [None], [NULL]))
            self.turn()
            self.said()
        self.assertIn(self.asked_of("overlay_nearest('other', sfstore_area())", parcels, self.feature(2)), ([None], [NULL]))

    def test_a_copy_is_not_taken_for_its_original(self):
        parcels = self.layer()
        mark = parcels.fields()[0].comment()
        fields = [QgsField("_id", QVariant.LongLong, "int8", 0, 0, mark)]
        shapes = [feature.geometry() for feature in parcels.getFeatures()]
        same = self.other(shapes, fields=fields)
        same.setName("same")
        changed = self.other([QgsGeometry.fromWkt(TALLER), *shapes[1:]], fields=fields)
        self.assertEqual([layer.fields()[0].comment() for layer in (same, changed)], [mark, mark])
        wells = self.layer("wells")
        self.assertEqual(self.asked_of("aggregate('same', 'sum', sfstore_area())", wells), 700.005)
        self.assertIn(self.asked_of("aggregate('other', 'sum', sfstore_area())", wells), (None, NULL))
        self.assertEqual(self.asked_of("sfstore_area()", changed), UNKNOWN)
        self.assertEqual(self.asked_of("sfstore_area()", same), 600.0)
        # Numbers of QGIS that are others'.
        same.dataProvider().changeAttributeValues({1: {0: 2}})
        self.assertEqual(self.asked_of("sfstore_area()", same), UNKNOWN)

    def test_a_layer_with_the_parcels_joined_to_it_has_none_of_their_areas(self):
        other = self.other([QgsGeometry.fromWkt(SQUARE)], fields=[QgsField("key", QVariant.Int)])
        join = QgsVectorLayerJoinInfo()
        join.setJoinLayer(self.layer())
        join.setJoinFieldName("_id")
        join.setTargetFieldName("key")
        join.setPrefix("")
        self.assertTrue(other.addJoin(join))
        # QGIS joins no field by which it joins, so that the number stands there by another field.
        self.layer().addExpressionField("sfstore_area()", QgsField("exact", QVariant.Double))
        other.updateFields()
        feature = next(other.getFeatures())
        self.assertEqual(feature["exact"], 600.0)
        self.assertEqual(self.asked_of("sfstore_area()", other), UNKNOWN)
        self.assertEqual(self.asked_of("sfstore_area('parcels', \"key\")", other), 600.0)
        self.assertEqual(self.asked_of("aggregate('parcels', 'sum', \"exact\")", other), 700.005)

    def test_a_print_layout_has_the_feature_of_its_atlas(self):
        layout = QgsPrintLayout(QgsProject.instance())
        layout.initializeDefaults()
        atlas = layout.atlas()
        atlas.setEnabled(True)
        atlas.setCoverageLayer(self.layer())
        label = QgsLayoutItemLabel(layout)
        layout.addLayoutItem(label)
        label.setText("[% sfstore_area() %]/[% aggregate('parcels', 'sum', sfstore_area()) %]")
        atlas.beginRender()
        self.assertTrue(atlas.first())
        self.assertEqual(label.currentText(), "600/700.005")
        self.assertTrue(atlas.next())
        self.assertEqual(label.currentText(), "100/700.005")
        atlas.endRender()

    def test_a_geometry_of_another_reference_system_is_refused(self):
        """Two stores on one grid of numbers, whose zones are others."""
        there = self.folder / "east.sfs"
        self.make(b"layer add trees point\nadd trees POINT (300 500)\n", there)
        self.place(there, crs="25833")
        self.plugin.open(str(there))
        trees = self.layer("trees")
        how = "transform($geometry, 'EPSG:25833', 'EPSG:25832')"
        said = f"Ask in the reference system of wells, as sfstore_on_grid('wells', {how}) has it: this geometry is in EPSG:25833."
        for text in (
            "sfstore_distance('wells', 1, $geometry)",
            "sfstore_near('wells', 2, buffer($geometry, 0))",
            "sfstore_nearest('wells', 1, $geometry)",
            "sfstore_on_grid('wells', $geometry)",
        ):
            self.assertEqual(self.asked(text, 1, trees), said, text)
        # It lies some 420 km to the east.
        far = self.asked(f"sfstore_distance('wells', 1, sfstore_on_grid('wells', {how}))", 1, trees)
        self.assertTrue(400_000 < far < 450_000, far)
        self.assertEqual(self.asked("sfstore_distance('wells', 1, make_point(500030, 5600050))", 1, trees), 0.0)
        self.assertEqual(self.asked("sfstore_distance('trees', 1, $geometry)", 1, trees), 0.0)
        # Of a layer of no store.
        other = self.other([QgsGeometry.fromWkt("POLYGON((1 1, 2 2, 2 1, 1 1))")], "EPSG:4326")
        self.assertIn("this geometry is in EPSG:4326.", self.asked_of("sfstore_distance('wells', 1, $geometry)", other))
        self.assertEqual(self.asked_of("aggregate('trees', 'array_agg', to_string(sfstore_distance('wells', 1, $geometry)))", other), ["nan"])
        self.turn()
        self.assertIn("this geometry is in EPSG:25833.", " ".join(self.said()))


class OtherStore(Asked):
    """Another store on the same grid has come in the place of the one that is shown, of which this QGIS has not heard."""

    lines = LINES
    OTHER = LINES.replace(b"1100 100", b"1100 200")

    def test_an_answer_of_another_store_is_none(self):
        wells = self.layer("wells")
        asked = ["sfstore_area()", "sfstore_length()", "sfstore_distance('parcels', 2, make_point(500000, 5600000))", "sfstore_near('parcels', 9, make_point(500000, 5600000))"]
        self.assertEqual(self.asked("sfstore_area()", 2), 100.0)
        self.session.changes += 1
        self.replace(self.OTHER)
        for each in asked:
            self.assertIn("town.sfs is another store than before", str(self.asked(each, 2)))
        self.wait_for(lambda: self.asked("sfstore_area()", 2) == 150.0)
        self.assertEqual(self.asked("sfstore_area('parcels', 2)", 1, wells), 150.0)


class Examples(QgisCase):
    """What the page and the help of the functions say, in the town."""

    def test_each_can_be_asked(self):
        page = (FOLDER.parent / "docs" / "use" / "QGIS.md").read_text(encoding="utf-8")
        texts = re.findall(r"`([^`\n]*sfstore_[a-z_]+\([^`\n]*)`", page)
        self.assertEqual(set(PAGES), {name for text in texts for name in re.findall(r"sfstore_[a-z_]+", text)})
        parcels = self.layer()
        context = QgsExpressionContext(QgsExpressionContextUtils.globalProjectLayerScopes(parcels))
        context.setFeature(parcels.getFeature(self.fid(1)))
        for text in [*texts, *(page.example for page in PAGES.values())]:
            expression = QgsExpression(text)
            self.assertNotIn(expression.evaluate(context), (None, NULL), text)
            self.assertEqual(expression.evalErrorString() + expression.parserErrorString(), "", text)


def _unwritable(there, values):
    """A feature that no file of points takes."""
    made = QgsFeature()
    made.setGeometry(QgsGeometry.fromWkt(SQUARE))
    made.setAttributes([*there.attributes(), *values])
    return made


class Toolbox(QgisCase):
    """An algorithm of the toolbox is asked."""

    def setUp(self):
        super().setUp()
        self.context, self.feedback = QgsProcessingContext(), QgsProcessingFeedback()
        self.context.setProject(QgsProject.instance())

    def begun(self, name, **parameters):
        """An algorithm with what it is asked, checked as its dialog does it."""
        algorithm = QgsApplication.processingRegistry().createAlgorithmById(f"sfstore:{name}")
        is_fit, why = algorithm.checkParameterValues(parameters, self.context)
        self.assertTrue(is_fit, why)
        return algorithm

    def results(self, name, **parameters):
        """What an algorithm gives."""
        results, is_done = self.begun(name, **parameters).run(parameters, self.context, self.feedback, {}, False)
        self.assertTrue(is_done)
        return results

    def refused(self, name, **parameters):
        """Why an algorithm gives nothing: what it raises in the thread that carries it out, or reports before."""
        feedback = QgsProcessingFeedback()
        try:
            results, is_done = self.begun(name, **parameters).run(parameters, self.context, feedback, {}, False)
        except QgsProcessingException as refused:
            return str(refused)
        self.assertEqual((results, is_done), ({}, False))
        return feedback.textLog().strip()

    def selected(self, name):
        return sorted(feature["_id"] for feature in self.layer(name).selectedFeatures())


class Algorithms(Toolbox):
    """What the toolbox asks."""

    lines = LINES

    def rows(self, results):
        """The features of the layer that an algorithm has made, as lists of their values."""
        layer = self.context.takeResultLayer(results["OUTPUT"])
        self.assertEqual(layer.crs(), self.session.crs)
        return layer.fields().names(), [(feature.geometry().asWkt(), *feature.attributes()) for feature in layer.getFeatures()]

    def test_features_within_a_distance_of_a_selected_one(self):
        parcels, wells = self.layer(), self.layer("wells")
        parcels.selectByIds([self.fid(2)])
        chosen = QgsProcessingFeatureSourceDefinition(parcels.id(), True)
        for far, found in ((6.9999, [2]), (7.0, [2, 3])):
            results = self.results("near", LAYER=wells.id(), FROM=chosen, DISTANCE=far)
            self.assertEqual((results, self.selected("wells")), ({"COUNT": len(found)}, found))
        # All parcels: the first one is 10 m from its well.
        results = self.results("near", LAYER=wells.id(), FROM=parcels.id(), DISTANCE=10, SELECT=False, OUTPUT="TEMPORARY_OUTPUT")
        self.assertEqual(results["COUNT"], 3)
        names, rows = self.rows(results)
        self.assertEqual(names, ["_id"])
        self.assertEqual(rows[0], ("Point (500030 5600050)", 1))
        self.assertEqual(self.selected("wells"), [2, 3])

    def test_what_is_near_a_point_of_another_reference_system_is_moved_to_the_grid(self):
        here = QgsCoordinateReferenceSystem("EPSG:25832")
        there = QgsCoordinateTransform(here, QgsCoordinateReferenceSystem("EPSG:4326"), QgsProject.instance()).transform(QgsPointXY(500030.04, 5600050.02))
        point = f"{there.x()!r},{there.y()!r} [EPSG:4326]"
        self.results("near", LAYER=self.layer("wells").id(), POINT=point, DISTANCE=0)
        self.assertEqual(self.selected("wells"), [1])
        self.assertIn("2 coordinates were moved to the grid, by 0.04 at most.", self.feedback.textLog())

    def test_nearest_features_with_their_distances(self):
        parcels, wells = self.layer(), self.layer("wells")
        results = self.results("nearest", LAYER=parcels.id(), FROM=wells.id(), NUMBER=2, OUTPUT="TEMPORARY_OUTPUT")
        names, rows = self.rows(results)
        self.assertEqual(names, ["_id", "number", "_distance", "_from"])
        self.assertEqual(rows[0], ("Polygon ((500000 5600000, 500030 5600000, 500030 5600040, 500000 5600000))", 1, 7, 10.0, 1))
        # From the first well the square is 700 steps to the right and 400 down, from the third one the triangle 750 to the left.
        found = [(number, distance, of) for _, number, _, distance, of in rows]
        self.assertEqual(found, [(1, 10.0, 1), (2, 80.6225, 1), (2, 0.0, 2), (1, 75.0, 2), (2, 7.0, 3), (1, 75.0, 3)])
        self.assertEqual(self.selected("parcels"), [1, 2])
        results = self.results("nearest", LAYER=wells.id(), POINT="500100,5600000", OUTPUT="TEMPORARY_OUTPUT")
        self.assertEqual([row[1:] for row in self.rows(results)[1]], [(2, 7.071, NULL)])

    def test_what_a_network_reaches(self):
        pipes, valves = self.layer("pipes"), self.layer("valves")
        pipes.selectByIds([self.fid(1, pipes)])
        results = self.results("reach", LAYER=pipes.id(), OUTPUT="TEMPORARY_OUTPUT")
        self.assertEqual((results["COUNT"], self.selected("pipes")), (3, [1, 2, 3]))
        self.assertEqual(len(self.rows(results)[1]), 3)
        self.results("reach", LAYER=pipes.id(), IDS="1", UNTIL=valves.id())
        self.assertEqual(self.selected("pipes"), [1, 2])
        self.results("reach", LAYER=pipes.id(), IDS="4, 3", ASK="crosses")
        self.assertEqual(self.selected("pipes"), [3, 4])

    def test_what_is_canceled_selects_nothing(self):
        wells = self.layer("wells")
        wells.selectByIds([self.fid(1, wells)])
        self.feedback.cancel()
        self.assertEqual(self.results("near", LAYER=wells.id(), FROM=self.layer().id(), DISTANCE=10), {})
        self.assertEqual(self.selected("wells"), [1])

    def test_of_a_layer_of_any_kind_the_others_are_told(self):
        self.session.line("layer add map any")
        self.session.line("add map POINT (0 0)")
        self.session.line("add map LINESTRING (0 0, 9 9)")
        self.plugin.open(str(self.path))
        results = self.results("near", LAYER=self.layer("map (point)").id(), POINT="500000,5600000", DISTANCE=1)
        self.assertEqual(results, {"COUNT": 1})
        self.assertIn("1 more are of a kind that this layer does not show, or have come just now.", self.feedback.textLog())

    def test_of_a_layer_of_any_kind_those_that_are_shown_are_the_nearest(self):
        self.session.line("layer add map any")
        for wkt in ("LINESTRING (0 0, 9 9)", "LINESTRING (0 1, 9 9)", "LINESTRING (0 2, 9 9)", "POINT (0 30)", "POINT (0 40)"):
            self.session.line(f"add map {wkt}")
        self.plugin.open(str(self.path))
        points = self.layer("map (point)")
        results = self.results("nearest", LAYER=points.id(), POINT="500000,5600000", NUMBER=1, OUTPUT="TEMPORARY_OUTPUT")
        self.assertEqual([row[1:] for row in self.rows(results)[1]], [(4, 3.0, NULL)])
        for text, found in (("nearest('map (point)', 2,", [4, 5]), ("nearest('map (point)', 9,", [4, 5]), ("near('map (point)', 3,", [4]), ("nearest('map (linestring)', 1,", [1])):
            asked = QgsExpression(f"sfstore_{text} make_point(500000, 5600000))")
            self.assertEqual(asked.evaluate(), found, asked.evalErrorString())

    def test_what_can_not_be_asked_is_told_in_words(self):
        parcels, pipes = self.layer(), self.layer("pipes")
        other = QgsVectorLayer("Polygon?crs=EPSG:25832", "other", "memory")
        crossed = QgsFeature()
        crossed.setGeometry(QgsGeometry.fromWkt(CROSSED))
        other.dataProvider().addFeature(crossed)
        QgsProject.instance().addMapLayer(other)
        near = {"LAYER": parcels.id(), "DISTANCE": 1}
        for said, name, asked in (
            ("Choose a layer of a store: no other one can be asked.", "near", {**near, "LAYER": other.id()}),
            ("Choose a layer, or a point on the map.", "near", near),
            ("Move or remove a corner: the border meets itself at (500523.33 5600053.33). (other 1, 13 RingNotSimple)", "near", {**near, "FROM": other.id()}),
            ("Ask nearer to the map: x 1000000000.0 of point 0 is further from the origin of the grid than the store reaches.", "near", {**near, "POINT": "1000000000,0"}),
            (
                "Take another distance: the distance 0.00001 is no whole number of thousandths of a grid step; 0 and 0.0001 are.",
                "near",
                {"LAYER": parcels.id(), "DISTANCE": 0.00001, "POINT": "500000,5600000"},
            ),
            ("Select from 1 to 1,000 features where it begins: 0 are selected.", "reach", {"LAYER": pipes.id()}),
            ("Take whole numbers up to 4,294,967,295, with commas between them, for where it begins.", "reach", {"LAYER": pipes.id(), "IDS": "1, -2"}),
            ("Look again: the feature is not there any more. (21 NoFeature)", "reach", {"LAYER": pipes.id(), "IDS": "9"}),
            ("Take whole numbers up to 4,294,967,295, with commas between them, for where it begins.", "reach", {"LAYER": pipes.id(), "IDS": "99999999999"}),
            ("Choose a layer of a store: no other one can be asked.", "reach", {"LAYER": pipes.id(), "IDS": "1", "UNTIL": other.id()}),
        ):
            self.assertEqual(self.refused(name, **asked), said)
        parcels.startEditing()
        self.draw(SQUARE)
        self.assertEqual(
            self.refused("near", **near), "Save your edits of parcels first, or take them back: the store does not have them yet."
        )

    def layer_of(self, *geometries, crs="EPSG:25832", kind="Point"):
        """A layer of no store with these geometries; None is none."""
        made = QgsVectorLayer(f"{kind}?crs={crs}", "other", "memory")
        for wkt in geometries:
            feature = QgsFeature()
            if wkt is not None:
                feature.setGeometry(QgsGeometry.fromWkt(wkt))
            made.dataProvider().addFeature(feature)
        QgsProject.instance().addMapLayer(made)
        return made

    def test_what_has_no_place_is_left_out_named_and_counted(self):
        """So far from its middle the projection has no coordinates, and QGIS raises an error."""
        parcels = self.layer()
        system = QgsCoordinateReferenceSystem("EPSG:4326")
        place = QgsCoordinateTransform(parcels.crs(), system, QgsProject.instance()).transform(QgsPointXY(500000, 5600000))
        with self.assertRaises(QgsCsException):
            QgsCoordinateTransform(system, parcels.crs(), QgsProject.instance()).transform(QgsPointXY(98.9, 0))
        for crs, there, nowhere in (("EPSG:25832", "POINT (500000 5600000)", "POINT (1e9 0)"), ("EPSG:4326", place.asWkt(), "POINT (98.9 0)")):
            other = self.layer_of("POINT EMPTY", None, there, nowhere, "MULTIPOINT EMPTY", crs=crs)
            for name, asked in (("near", {"DISTANCE": 1}), ("nearest", {"NUMBER": 1, "OUTPUT": "TEMPORARY_OUTPUT"})):
                self.feedback = QgsProcessingFeedback()
                results = self.results(name, LAYER=parcels.id(), FROM=other.id(), **asked)
                self.assertEqual((results["COUNT"], self.selected("parcels")), (1, [1]))
                log = self.feedback.textLog()
                for number in (1, 2, 4, 5):
                    self.assertIn(f"other {number} is left out. ", log)
                self.assertIn("4 features of other were left out, since nothing can be asked about them.", log)
            QgsProject.instance().removeMapLayer(other.id())

    def test_a_point_that_can_not_be_transformed_is_no_point_of_the_map(self):
        parcels = self.layer()
        said = self.refused("near", LAYER=parcels.id(), POINT="98.9,0 [EPSG:4326]", DISTANCE=1)
        self.assertRegex(said, "^(Choose another point: it lies where EPSG:25832 has no coordinates|Ask nearer to the map: )")
        self.assertRegex(self.refused("near", LAYER=parcels.id(), POINT="500,100 [EPSG:4326]", DISTANCE=1), "^(Choose another point|Ask nearer to the map)")

    def test_which_units_are_meant_is_told(self):
        for name, asked in (("near", {"DISTANCE": 1}), ("nearest", {"NUMBER": 1})):
            self.feedback = QgsProcessingFeedback()
            self.results(name, LAYER=self.layer().id(), POINT="500000,5600000", **asked)
            words = "Distances and coordinates of town.sfs are meters of EPSG:25832: its grid has steps of 0.1, from 500000 5600000 on."
            self.assertIn(words, self.feedback.textLog())

    def test_what_is_found_is_selected_though_qgis_numbers_it_anew_meanwhile(self):
        wells = self.layer("wells")
        self.bens(self.ben(), "delete wells 1")
        asked = {"LAYER": wells.id(), "POINT": "500105,5600005", "DISTANCE": 1}
        algorithm = self.begun("near", **asked)
        self.assertTrue(algorithm.prepare(asked, self.context, self.feedback))
        self.assertEqual(algorithm.runPrepared(asked, self.context, self.feedback), {"COUNT": 1})
        self.plugin.editings[wells.id()].provider.mirror.begin_anew("a test wants it so")
        algorithm.postProcess(self.context, self.feedback)
        self.assertEqual(self.selected("wells"), [2])

    def test_a_question_by_another_grid_is_not_answered(self):
        """Another program gives the store a side-car with another grid, of which this QGIS has not heard."""
        wells = self.layer("wells")
        near = {"LAYER": wells.id(), "POINT": "500030,5600050", "DISTANCE": 1}
        algorithm = self.begun("near", **near)
        self.assertTrue(algorithm.prepare(near, self.context, self.feedback))
        self.assertEqual(self.asked_near(), [1])
        self.place(self.path, grid=["500000", "5600000", "0.01"])
        said = "town.sfs has another grid, or another reference system, than when it was opened"
        with self.assertRaisesRegex(QgsProcessingException, said):
            algorithm.runPrepared(near, self.context, self.feedback)
        self.assertIn(said, self.asked_near())

    def test_a_question_about_another_store_is_not_answered(self):
        wells = self.layer("wells")
        near = {"LAYER": wells.id(), "POINT": "500030,5600050", "DISTANCE": 1}
        algorithm = self.begun("near", **near)
        self.assertTrue(algorithm.prepare(near, self.context, self.feedback))
        self.assertEqual(self.asked_near(), [1])
        self.replace(LINES.replace(b"add wells POINT (300 500)", b"add wells POINT (299 500)"))
        said = "town.sfs is another store than before"
        with self.assertRaisesRegex(QgsProcessingException, said):
            algorithm.runPrepared(near, self.context, self.feedback)
        self.assertIn(said, self.asked_near())

    def asked_near(self):
        """What an expression gives of the first well, or its error."""
        wells = self.layer("wells")
        context = QgsExpressionContext(QgsExpressionContextUtils.globalProjectLayerScopes(wells))
        context.setFeature(self.feature(1, wells))
        asked = QgsExpression("sfstore_near('wells', 1, $geometry)")
        found = asked.evaluate(context)
        return asked.evalErrorString() or found

    def test_which_feature_can_not_be_asked_about_is_told(self):
        other = self.layer_of("CIRCULARSTRING (500000 5600000, 500001 5600001, 500002 5600000)", kind="CircularString")
        said = self.refused("near", LAYER=self.layer().id(), FROM=other.id(), DISTANCE=1)
        self.assertRegex(said, r"^Ask with straight sides: .* \(other 1\)$")

    def test_of_another_layer_the_number_is_qgis_own(self):
        """A column of the same name that has no whole numbers lost the whole row."""
        other = QgsVectorLayer("Point?crs=EPSG:25832&field=_id:string", "other", "memory")
        feature = QgsFeature(other.fields())
        feature.setGeometry(QgsGeometry.fromWkt("POINT (500030 5600050)"))
        feature["_id"] = "A-7"
        other.dataProvider().addFeature(feature)
        QgsProject.instance().addMapLayer(other)
        results = self.results("nearest", LAYER=self.layer("wells").id(), FROM=other.id(), NUMBER=1, OUTPUT="TEMPORARY_OUTPUT")
        self.assertEqual([row[1:] for row in self.rows(results)[1]], [(1, 0.0, 1)])

    def test_what_can_not_be_written_is_told(self):
        wells = self.layer("wells")
        target = str(self.folder / "full.shp")
        with mock.patch("sfstore_qgis.finding._with_values", side_effect=_unwritable):
            said = self.refused("near", LAYER=wells.id(), POINT="500030,5600050", DISTANCE=1, OUTPUT=target)
        self.assertIn("Could not write feature", said)

    def test_layers_of_two_stores_make_no_network(self):
        other = self.folder / "other.sfs"
        self.make(b"layer add taps point\nadd taps POINT (200 1000)\n", other)
        self.place(other)
        self.plugin.open(str(other))
        said = self.refused("reach", LAYER=self.layer("pipes").id(), IDS="1", UNTIL=self.layer("taps").id())
        self.assertEqual(said, "Choose a layer of the same store: no other one can be asked with it.")

    def test_qgis_goes_on_while_a_question_takes_its_time(self):
        wells = self.layer("wells")
        parameters = {"LAYER": wells.id(), "POINT": "500105,5600005", "NUMBER": 2, "OUTPUT": "TEMPORARY_OUTPUT"}
        algorithm = self.begun("nearest", **parameters)
        may_answer, threads, results = threading.Event(), [], []

        def slow(link, lines, exchange=Asking.exchange):
            threads.append(threading.current_thread())
            may_answer.wait(30)
            return exchange(link, lines)

        with mock.patch("sfstore_qgis.asking.Asking.exchange", slow):
            task = QgsProcessingAlgRunnerTask(algorithm, parameters, self.context, self.feedback)
            task.executed.connect(lambda *told: results.append(told))
            QgsApplication.taskManager().addTask(task)
            self.wait_for(lambda: threads)
            wells.startEditing()
            wells.changeGeometry(self.fid(2, wells), QgsGeometry.fromWkt("POINT(500106 5600006)"))
            self.assertTrue(wells.commitChanges(), wells.commitErrors())
            may_answer.set()
            self.wait_for(lambda: results)
        self.assertNotIn(threading.main_thread(), threads)
        [[is_done, told]] = results
        self.assertTrue(is_done)
        self.assertEqual(told["COUNT"], 2)
        self.assertEqual(self.selected("wells"), [2, 3])

    def test_the_toolbox_goes_with_the_plugin(self):
        registry = QgsApplication.processingRegistry()
        toolbox = registry.providerById("sfstore")
        self.assertFalse(toolbox.icon().isNull())
        self.assertEqual([each.name() for each in toolbox.algorithms()], ["near", "nearest", "reach"])
        for each in toolbox.algorithms():
            self.assertTrue(each.shortHelpString())
            self.assertFalse(each.icon().isNull())
        self.plugin.unload()
        self.assertIsNone(registry.providerById("sfstore"))
        self.plugin = Plugin(Window())
        self.plugin.initGui()


class Unplaced(Toolbox):
    """The toolbox over a store of which no reference system is known."""

    lines = LINES
    grid = ("0", "0", "1")

    def place(self, path, grid=None, crs=""):
        told = {**SIDECAR, "grid": list(grid or self.grid), "crs": None, "digests": [files.digest(str(path))]}
        path.with_name(path.name + ".json").write_text(json.dumps(told))

    def other(self, crs):
        made = QgsVectorLayer(f"Point?crs={crs}", "other", "memory")
        feature = QgsFeature()
        feature.setGeometry(QgsGeometry.fromWkt("POINT (9 50)"))
        made.dataProvider().addFeature(feature)
        QgsProject.instance().addMapLayer(made)
        return made

    def test_degrees_are_no_map_units(self):
        parcels = self.layer()
        self.assertFalse(parcels.crs().isValid())
        said = "Give parcels its reference system first, by Set Layer CRS: {} is in degrees, of EPSG:4326, and of parcels it is not known where on the earth it lies."
        for name, asked in (("near", {"DISTANCE": 9}), ("nearest", {"NUMBER": 1})):
            self.assertEqual(self.refused(name, LAYER=parcels.id(), FROM=self.other("EPSG:4326").id(), **asked), said.format("other"))
            self.assertEqual(self.refused(name, LAYER=parcels.id(), POINT="9,50 [EPSG:4326]", **asked), said.format("the point"))
        context = QgsExpressionContext(QgsExpressionContextUtils.globalProjectLayerScopes(self.other("EPSG:4326")))
        context.setFeature(next(self.other("EPSG:4326").getFeatures()))
        asked = QgsExpression("sfstore_distance('parcels', 1, $geometry)")
        asked.evaluate(context)
        self.assertEqual(asked.evalErrorString(), "Give parcels its reference system first: it has none, and this geometry is in degrees, of EPSG:4326.")

    def test_others_are_taken_as_they_are_and_that_is_told(self):
        self.results("near", LAYER=self.layer("wells").id(), FROM=self.other("EPSG:25832").id(), DISTANCE=600)
        self.assertIn("wells has no reference system: the coordinates of other, of EPSG:25832, are taken as they are.", self.feedback.textLog())
        self.assertIn("are map units, of no reference system that is known: its grid has steps of 1, from 0 0 on.", self.feedback.textLog())
        # A map shows the layer by its own coordinates, in whichever reference system the map is.
        self.results("near", LAYER=self.layer("wells").id(), POINT="1050,50 [EPSG:4326]", DISTANCE=0)
        self.assertEqual(self.selected("wells"), [2])

    def test_a_reference_system_that_the_user_gives_counts(self):
        wells = self.layer("wells")
        wells.setCrs(QgsCoordinateReferenceSystem("EPSG:3857"))
        place = QgsCoordinateTransform(wells.crs(), QgsCoordinateReferenceSystem("EPSG:4326"), QgsProject.instance()).transform(QgsPointXY(1050, 50))
        self.results("near", LAYER=wells.id(), POINT=f"{place.x()!r},{place.y()!r} [EPSG:4326]", DISTANCE=0)
        self.assertEqual(self.selected("wells"), [2])
        self.assertIn("are meters of EPSG:3857", self.feedback.textLog())


if __name__ == "__main__":
    unittest.main()
