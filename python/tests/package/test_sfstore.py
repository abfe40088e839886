"""Tests of the module against the real program.

`./test test_sfstore` runs them.
"""

from __future__ import annotations

import doctest
import importlib
import os
import pickle
import random
import signal
import subprocess
import sys
import threading
import time
import unittest
import warnings
from importlib.util import find_spec
from pathlib import Path
from unittest import mock

from support import FOLDER, PROGRAM, TestCase, child_of

import sfstore
import sfstore.editor
import sfstore.group
import sfstore.groups
import sfstore.language
import sfstore.program
import sfstore.results
import sfstore.wkt
from sfstore import Column, Feature, Layer, ProgramEnded, Refused, Store, spelling

SQUARE = "POLYGON ((0 0, 10 0, 10 10, 0 10, 0 0))"
LINE_MAX = 4_194_304

class Commands(TestCase):
    def setUp(self):
        super().setUp()
        self.store = Store()
        self.addCleanup(self.store.close)

    def wkts(self, layer):
        return [feature.wkt for feature in self.store.show(layer)]

    def test_layers_are_added_moved_renamed_and_dropped(self):
        store = self.store
        store.add_layer("roads", "linestring")
        store.add_layer("wells", "point")
        store.add_layer("rest")
        store.move_layer("wells", 0)
        store.rename_layer("roads", "streets")
        self.assertEqual(
            store.layers(),
            [Layer("wells", "point"), Layer("streets", "linestring"), Layer("rest", "any")],
        )
        store.drop_layer("streets")
        self.assertEqual([layer.name for layer in store.layers()], ["wells", "rest"])

    def test_every_kind_of_layer(self):
        kinds = ["any", "point", "linestring", "polygon"]
        kinds += ["multipoint", "multilinestring", "multipolygon"]
        for kind in kinds:
            self.store.add_layer(f"of_{kind}", kind)
        self.assertEqual([layer.kind for layer in self.store.layers()], kinds)

    def test_columns_are_added_and_dropped(self):
        self.store.add_layer("wells")
        self.store.add_column("wells", "depth", "int")
        self.store.add_column("wells", "label", "text")
        self.assertEqual(
            self.store.columns("wells"), [Column("depth", "int"), Column("label", "text")]
        )
        self.store.drop_column("wells", "depth")
        self.assertEqual(self.store.columns("wells"), [Column("label", "text")])

    def test_features_are_added_replaced_and_deleted(self):
        self.store.add_layer("w")
        self.assertEqual(self.store.add("w", "POINT (1 2)"), 1)
        self.assertEqual(self.store.add("w", "  linestring(0 0,\t5.0 5)  "), 2)
        self.store.replace("w", 1, "POINT (-3 4)")
        self.assertEqual(self.wkts("w"), ["POINT (-3 4)", "LINESTRING (0 0, 5 5)"])
        self.store.delete("w", 1)
        self.assertEqual(
            self.store.show("w"), [Feature(id=2, wkt="LINESTRING (0 0, 5 5)", values={})]
        )

    def test_binaries_are_added_and_shown(self):
        self.store.add_layer("w")
        binary = bytes.fromhex("00000000013FF00000000000004000000000000000")
        for geometry in (binary, bytearray(binary), memoryview(binary)):
            self.store.add("w", geometry)
        self.assertEqual(self.wkts("w"), ["POINT (1 2)"] * 3)
        shown = self.store.hex("w", 1)
        self.assertEqual(shown, "0101000000000000000000f03f0000000000000040")
        self.store.add("w", bytes.fromhex(shown))
        self.assertEqual(self.store.hex("w", 4), shown)

    def test_vertices_are_inserted_moved_and_removed(self):
        self.store.add_layer("w")
        self.store.add("w", SQUARE)
        self.store.vertex_insert("w", 1, 0, 0, 4, -5, 5)
        self.store.vertex_move("w", 1, 0, 0, 2, 20, 20)
        self.store.vertex_remove("w", 1, 0, 0, 1)
        self.assertEqual(self.wkts("w"), ["POLYGON ((0 0, 20 20, 0 10, -5 5, 0 0))"])
        self.store.add("w", "MULTILINESTRING ((0 0, 1 1), (5 5, 6 6))")
        self.store.vertex_move("w", 2, 1, 0, 0, 7, -7)
        self.assertEqual(self.wkts("w")[1], "MULTILINESTRING ((0 0, 1 1), (7 -7, 6 6))")

    def test_values_are_set_and_cleared(self):
        store = self.store
        store.add_layer("w")
        store.add_column("w", "n", "int")
        store.add_column("w", "t", "text")
        store.add("w", "POINT (1 1)")
        for number in (0, 7, -7, 2**63 - 1, -(2**63)):
            store.set("w", 1, "n", number)
            self.assertEqual(store.show("w")[0].values, {"n": number})
        store.set("w", 1, "t", "12")
        self.assertEqual(list(store.show("w")[0].values), ["n", "t"])
        store.unset("w", 1, "n")
        self.assertEqual(store.show("w")[0].values, {"t": "12"})
        store.unset("w", 1, "n")

    def test_texts_come_back_as_they_were(self):
        texts = [
            "",
            " ",
            "  two blanks at each end  ",
            "it's old",
            "'",
            "''",
            "' x='y",
            "a') b=1 c='",
            "' depth=3",
            "POINT (1 1)",
            "refused 18 NoLayer",
            "fault serve Write",
            "größer, 北京, \U0001f30d",
            "next line \x85, line separator \u2028, paragraph separator \u2029",
            "no break\xa0space, mark \ufeff, \ufffd",
            "\x80\x9f",
            "\\n \\ \" % {}",
            "é" * 127,
            "'" * 255,
        ]
        store = self.store
        store.add_layer("w")
        store.add_column("w", "a", "text")
        store.add_column("w", "b", "int")
        store.add_column("w", "c", "text")
        for text in texts:
            feature = store.add("w", "POINT (1 1)")
            store.set("w", feature, "a", text)
            store.set("w", feature, "b", feature)
            store.set("w", feature, "c", text[::-1])
        shown = store.show("w")
        self.assertEqual([feature.values["a"] for feature in shown], texts)
        self.assertEqual([feature.values["c"] for feature in shown], [t[::-1] for t in texts])
        self.assertEqual([feature.values["b"] for feature in shown], [f.id for f in shown])

    def test_questions(self):
        store = self.store
        store.add_layer("w")
        store.add("w", SQUARE)
        store.add("w", "LINESTRING (0 0, 4 4, 4 0, 0 4)")
        self.assertEqual(store.box("w", 1), (0, 0, 10, 10))
        self.assertIs(store.simple("w", 1), True)
        self.assertIs(store.simple("w", 2), False)
        self.assertEqual(store.relate("w", 1, "POINT (5 5)"), "0F2FF1FF2")
        self.assertEqual(store.match("w", "T*F**FFF*", SQUARE), [1])
        self.assertEqual(store.match("w", "tt**tf012", SQUARE), [])

    def test_features_by_their_identifiers(self):
        store = self.store
        store.add_layer("w")
        store.add_column("w", "label", "text")
        for place in range(1, 4):
            store.add("w", f"POINT ({place} {place})")
        store.set("w", 2, "label", "it's old")
        first, second, third = store.show("w")
        self.assertEqual(second, Feature(2, "POINT (2 2)", {"label": "it's old"}))
        self.assertEqual(store.get("w", 2), [second])
        self.assertEqual(store.get("w", 3, 1, 3), [third, first, third])
        self.assertEqual(store.get("w", *[2] * 1000), [second] * 1000)
        self.assert_refused(21, "NoFeature", store.get, "w", 1, 4)
        self.assert_refused(21, "NoFeature", store.get, "w", 0)
        self.assert_refused(18, "NoLayer", store.get, "v", 1)
        self.assertEqual(store.run("get w 1"), ["1 POINT (1 1)"])
        self.assert_refused(31, "BadCommand", store.run, "get w")
        self.assert_refused(31, "BadCommand", store.run, "get w" + " 1" * 1001)

    def test_features_by_a_value(self):
        store = self.store
        store.add_layer("w")
        store.add_column("w", "depth", "int")
        store.add_column("w", "label", "text")
        for depth in (12, -12, 12, None):
            feature = store.add("w", "POINT (1 1)")
            if depth is not None:
                store.set("w", feature, "depth", depth)
        store.set("w", 4, "label", "it's old")
        store.set("w", 1, "label", "")
        self.assertEqual(store.find("w", "depth", 12), [1, 3])
        self.assertEqual(store.find("w", "depth", -12), [2])
        self.assertEqual(store.find("w", "depth", 0), [])
        self.assertEqual(store.find("w", "depth"), [1, 2, 3])
        self.assertEqual(store.find("w", "label", "it's old"), [4])
        self.assertEqual(store.find("w", "label", ""), [1])
        self.assertEqual(store.find("w", "label", value="it"), [])
        self.assertEqual(store.find("w", "label"), [1, 4])
        self.assert_refused(18, "NoLayer", store.find, "v", "depth")
        self.assert_refused(22, "NoColumn", store.find, "w", "name", 1)
        self.assert_refused(24, "WrongValue", store.find, "w", "depth", "12")
        self.assert_refused(24, "WrongValue", store.find, "w", "label", "x" * 65_536)
        self.assert_refused(31, "BadCommand", store.run, "find w depth x")
        store.undo()
        self.assertEqual(store.find("w", "label"), [4])

    def test_every_predicate(self):
        store = self.store
        store.add_layer("w")
        store.add("w", SQUARE)
        store.add("w", "LINESTRING (-5 5, 5 5)")
        asked = {
            "equals": [1],
            "disjoint": [],
            "intersects": [1, 2],
            "touches": [],
            "within": [1],
            "contains": [1],
            "crosses": [2],
            "overlaps": [],
        }
        for predicate, found in asked.items():
            self.assertEqual(store.query("w", predicate, SQUARE), found, predicate)

    def test_undo_and_redo(self):
        store = self.store
        store.add_layer("w")
        store.add("w", "POINT (1 1)")
        store.undo()
        self.assertEqual(store.show("w"), [])
        store.redo()
        self.assertEqual(self.wkts("w"), ["POINT (1 1)"])
        store.undo()
        store.undo()
        self.assertEqual(store.layers(), [])
        self.assert_refused(29, "NothingToUndo", store.undo)

    def test_editors_move_their_own_steps(self):
        store = self.store
        ann, ben = store.editor(1), store.editor(2)
        ann.add_layer("w", "point")
        self.assertEqual(ann.add("w", "POINT (1 1)"), 1)
        self.assertEqual(ben.add("w", "POINT (2 2)"), 2)
        for other in (store, ann, store.editor(255)):
            self.assert_refused(36, "NotYours", other.undo)
        ben.undo()
        self.assert_refused(36, "NotYours", ben.undo)
        self.assert_refused(36, "NotYours", ann.redo)
        ann.undo()
        self.assert_refused(36, "NotYours", ben.redo)
        ann.redo()
        ben.redo()
        self.assertEqual(self.wkts("w"), ["POINT (1 1)", "POINT (2 2)"])
        ben.undo()
        store.editor(3).delete("w", 1)
        self.assert_refused(30, "NothingToRedo", ben.redo)
        self.assertEqual(ann.show("w"), [])

    def test_lines_of_an_editor(self):
        editor = self.store.editor(20)
        self.assertEqual(editor.run("layer add w any"), "ok")
        self.assertEqual(
            editor.run_all(["layers", "@1 layers", "undo"])[0::2], [["w any"], "ok"]
        )
        with self.assertRaises(Refused) as caught:
            editor.run("redo now")
        self.assertEqual(caught.exception.line, "@20 redo now")
        for line in ("", " \t", "\r", "undo\nundo"):
            with self.assertRaises(ValueError):
                editor.run(line)

    def test_numbers_of_editors(self):
        for number in (0, 256, -1):
            with self.assertRaises(ValueError):
                self.store.editor(number)
        with self.assertRaises(TypeError):
            self.store.editor("1")

    def test_an_editor_ends_with_its_store(self):
        with Store(PROGRAM) as store:
            editor = store.editor(1)
        with self.assertRaises(RuntimeError):
            editor.layers()

    def test_run_answers_a_line_or_rows(self):
        run = self.store.run
        self.assertEqual(run("layers"), [])
        self.assertEqual(run("layer add w any"), "ok")
        self.assertEqual(run(f"add w {SQUARE}"), "ok 1")
        self.assertEqual(run("\tadd  w POINT (3 4) \r"), "ok 2")
        self.assertEqual(run("layers"), ["w any"])
        self.assertEqual(run("show w"), [f"1 {SQUARE}", "2 POINT (3 4)"])
        self.assertEqual(run("box w 1"), "0 0 10 10")
        self.assertEqual(run("simple w 1"), "true")
        self.assertEqual(run("match w ********* POINT (9 9)"), ["1", "2"])
        self.assertEqual(run("addhex w 00000000013FF00000000000004000000000000000"), "ok 3")

    def test_names_that_look_like_answers(self):
        for name in ("fault", "rows", "refused", "ok", "error", "serve"):
            self.store.add_layer(name)
            self.store.add_column(name, "fault", "int")
            self.assertEqual(self.store.columns(name), [Column("fault", "int")])
        self.assertEqual(self.store.layers()[0], Layer("fault", "any"))

    def test_a_refused_line_changes_nothing(self):
        self.store.add_layer("w", "point")
        self.assert_refused(26, "WrongKind", self.store.add, "w", SQUARE)
        self.assertEqual(self.store.show("w"), [])
        self.assertEqual(self.store.add("w", "POINT (1 1)"), 1)


class Unsayable(TestCase):
    """What no line can say is refused by the module, and nothing is sent."""

    def setUp(self):
        super().setUp()
        self.store = Store()
        self.addCleanup(self.store.close)
        self.store.add_layer("w")
        self.store.add_column("w", "t", "text")
        self.store.add("w", "POINT (1 1)")

    def assert_unsayable(self, call, *arguments):
        with self.assertRaises(ValueError, msg=arguments):
            call(*arguments)

    def tearDown(self):
        self.assertEqual(self.store.layers(), [Layer("w", "any")])
        self.assertEqual(self.store.show("w"), [Feature(1, "POINT (1 1)", {})])
        self.store.undo()
        self.store.undo()
        self.store.undo()
        self.assert_refused(29, "NothingToUndo", self.store.undo)

    def test_blank_lines(self):
        for line in ("", " ", "\t", " \t ", "\r", " \t\r", " " * (LINE_MAX + 1)):
            self.assert_unsayable(self.store.run, line)
            self.assert_unsayable(self.store.run_all, ["layer drop w", line])

    def test_what_looks_blank_and_is_not(self):
        blanks = ("\r\r", "\x0b", "\x0c", "\xa0", "\u2028", "\x85", "\x00", "\ufeff")
        for line in (*blanks, "\ufeffundo"):
            self.assert_refused(31, "BadCommand", self.store.run, line)

    def test_line_feeds(self):
        for line in ("\n", "layers\n", "layers\nlayer drop w", "\nlayers"):
            self.assert_unsayable(self.store.run, line)
            self.assert_unsayable(self.store.run_all, ["layer drop w", line])
        self.assert_unsayable(self.store.add, "w", "POINT (1 1)\nlayer drop w")
        self.assert_unsayable(self.store.replace, "w", 1, "POINT (1 1)\n")
        self.assert_unsayable(self.store.relate, "w", 1, "POINT (1 1)\n")
        self.assert_unsayable(self.store.match, "w", "*********", "POINT (1 1)\n")
        self.assert_unsayable(self.store.query, "w", "within", "POINT (1 1)\n")

    def test_line_feeds_of_texts_are_no_ends_of_lines(self):
        for text in ("x\nlayer drop w", "'\n", "\n", "a\rundo", "\r\n", "\x1c\x1d\x1e\x85\u2028", "\t\x0b\x0c\x7f\\'"):
            self.store.set("w", 1, "t", text)
            self.assertEqual([feature.values for feature in self.store.show("w")], [{"t": text}])
            self.assertEqual(self.store.find("w", "t", text), [1])
            self.assertNotIn("\n", self.store.run("get w 1")[0])
            self.store.undo()
        self.assert_refused(24, "WrongValue", self.store.set, "w", 1, "t", "a\0b")

    def test_other_ends_of_lines_are_sent(self):
        self.assert_refused(2, "Syntax", self.store.add, "w", "POINT (1\u2028 1)")
        self.assert_refused(2, "Syntax", self.store.add, "w", "POINT (1 1)\rundo")

    def test_lone_surrogates(self):
        self.assert_unsayable(self.store.run, "layer drop w\ud800")
        self.assert_unsayable(self.store.set, "w", 1, "t", "\udcff")
        self.assert_unsayable(self.store.run_all, ["layer drop w", "\udcff"])

    def test_names(self):
        store = self.store
        names = ["", " ", "a b", "w ", "1a", "_a", "a-b", "ä", "٣", "a" * 33]
        names += ["a\n", "a\r", "w\nundo"]
        for name in names:
            self.assert_unsayable(store.add_layer, name)
            self.assert_unsayable(store.drop_layer, name)
            self.assert_unsayable(store.rename_layer, "w", name)
            self.assert_unsayable(store.rename_layer, name, "v")
            self.assert_unsayable(store.move_layer, name, 0)
            self.assert_unsayable(store.add_column, "w", name, "int")
            self.assert_unsayable(store.add_column, name, "c", "int")
            self.assert_unsayable(store.drop_column, "w", name)
            self.assert_unsayable(store.drop_column, name, "t")
            self.assert_unsayable(store.columns, name)
            self.assert_unsayable(store.show, name)
            self.assert_unsayable(store.add, name, "POINT (1 1)")
            self.assert_unsayable(store.add, name, b"\x01")
            self.assert_unsayable(store.delete, name, 1)
            self.assert_unsayable(store.replace, name, 1, "POINT (1 1)")
            self.assert_unsayable(store.vertex_insert, name, 1, 0, 0, 0, 1, 1)
            self.assert_unsayable(store.vertex_move, name, 1, 0, 0, 0, 1, 1)
            self.assert_unsayable(store.vertex_remove, name, 1, 0, 0, 0)
            self.assert_unsayable(store.set, name, 1, "t", 1)
            self.assert_unsayable(store.set, "w", 1, name, 1)
            self.assert_unsayable(store.unset, name, 1, "t")
            self.assert_unsayable(store.unset, "w", 1, name)
            self.assert_unsayable(store.hex, name, 1)
            self.assert_unsayable(store.box, name, 1)
            self.assert_unsayable(store.simple, name, 1)
            self.assert_unsayable(store.relate, name, 1, "POINT (1 1)")
            self.assert_unsayable(store.match, name, "*********", "POINT (1 1)")
            self.assert_unsayable(store.query, name, "within", "POINT (1 1)")

    def test_words(self):
        for kind in ("", "Point", "circle", "point ", "any\nundo", None):
            self.assert_unsayable(self.store.add_layer, "v", kind)
        for column_type in ("", "Int", "real", None):
            self.assert_unsayable(self.store.add_column, "w", "c", column_type)
        for predicate in ("", "Within", "near", "within w", None):
            self.assert_unsayable(self.store.query, "w", predicate, "POINT (1 1)")
        for pattern in ("", "T", "T" * 10, "T********\n", "******** ", "3********", "T*F* *FFF*"):
            self.assert_unsayable(self.store.match, "w", pattern, "POINT (1 1)")

    def test_numbers(self):
        for number in (-1, 2**32, 10**30):
            self.assert_unsayable(self.store.delete, "w", number)
            self.assert_unsayable(self.store.move_layer, "w", number)
            self.assert_unsayable(self.store.vertex_move, "w", 1, 0, 0, number, 1, 1)
        for number in (2**63, -(2**63) - 1):
            self.assert_unsayable(self.store.set, "w", 1, "t", number)

    def test_wrong_types(self):
        store = self.store
        with self.assertRaises(TypeError):
            store.run(b"undo")
        with self.assertRaises(TypeError):
            store.delete("w", "1")
        with self.assertRaises(TypeError):
            store.delete("w", 1.0)
        for value in (1.5, None, b"x", ["x"]):
            with self.assertRaises(TypeError):
                store.set("w", 1, "t", value)
        for geometry in (5, None, 1.5, ["POINT (1 1)"]):
            with self.assertRaises(TypeError):
                store.add("w", geometry)
            with self.assertRaises(TypeError):
                store.relate("w", 1, geometry)
        with self.assertRaises(TypeError):
            store.vertex_move("w", 1, 0, 0, 0, 1.0, 1)


class Refusals(TestCase):
    """Each refusal that a line can bring about."""

    PREPARED = [
        "layer add w any",
        "layer add p polygon",
        "column add w n int",
        "column add w t text",
        "add w POINT (1 1)",
        "add w MULTIPOINT (1 1)",
    ]
    LONG = ", ".join(["1 1"] * 65_537)
    SHELL = "(0 0, 30 0, 30 30, 0 30, 0 0)"
    NESTED = "(5 5, 25 5, 25 25, 5 25, 5 5), (10 10, 20 10, 20 20, 10 10)"
    EXPECTED = [
        (2, "Syntax", "add w POINT (1 2"),
        (2, "Syntax", "addhex w 0"),
        (3, "OffGrid", "add w POINT (1.5 2)"),
        (4, "OutOfRange", "add w POINT (1073741824 0)"),
        (5, "Empty", "add w POINT EMPTY"),
        (6, "UnsupportedType", "add w CIRCLE (1 2)"),
        (7, "Truncated", "addhex w 0101000000"),
        (8, "Trailing", "addhex w 00000000013FF0000000000000400000000000000000"),
        (9, "TooManyVertices", f"add w MULTIPOINT ({LONG})"),
        (10, "ShortLine", "add w LINESTRING (1 1, 1 1)"),
        (11, "OpenRing", "add w POLYGON ((0 0, 10 0, 10 10, 0 10))"),
        (12, "ShortRing", "add w POLYGON ((0 0, 10 0, 0 0))"),
        (13, "RingNotSimple", "add w POLYGON ((0 0, 10 10, 10 0, 0 10, 0 0))"),
        (14, "RingsMeet", f"add w POLYGON ({SHELL}, (0 10, 10 10, 0 20, 0 10))"),
        (15, "HoleOutside", f"add w POLYGON ({SHELL}, (40 40, 45 40, 45 45, 40 40))"),
        (16, "HolesNested", f"add w POLYGON ({SHELL}, {NESTED})"),
        (17, "PolygonsOverlap", f"add w MULTIPOLYGON (({SHELL}), ((2 2, 4 2, 4 4, 2 2)))"),
        (18, "NoLayer", "show v"),
        (19, "LayerExists", "layer add w any"),
        (20, "BadName", "layer add 1w any"),
        (21, "NoFeature", "delete w 3"),
        (22, "NoColumn", "unset w 1 c"),
        (23, "ColumnExists", "column add w n text"),
        (24, "WrongValue", "set w 1 n 'x'"),
        (24, "WrongValue", f"set w 1 t '{'x' * 65_536}'"),
        (25, "NoVertex", "vertex move w 1 0 0 1 2 2"),
        (26, "WrongKind", "add p POINT (1 1)"),
        (30, "NothingToRedo", "redo"),
        (31, "BadCommand", "hello"),
        (31, "BadCommand", "set w 1 n 9223372036854775808"),
        (32, "BadPattern", "match w T*F*3 POINT (1 1)"),
        (33, "LineTooLong", "add w POINT (1 1)".ljust(LINE_MAX + 1)),
        (35, "BadPlace", "layer move w 2"),
    ]

    def test_by_run(self):
        with Store() as store:
            store.run_all(self.PREPARED)
            for number, name, line in self.EXPECTED:
                with self.assertRaises(Refused) as caught:
                    store.run(line)
                refused = caught.exception
                self.assertEqual((refused.number, refused.name, refused.line), (number, name, line))

    def test_by_run_all(self):
        with Store() as store:
            store.run_all(self.PREPARED)
            answers = store.run_all(line for _, _, line in self.EXPECTED)
        self.assertEqual([(a.number, a.name, a.line) for a in answers], self.EXPECTED)

    def test_nothing_to_undo(self):
        with Store() as store:
            self.assert_refused(29, "NothingToUndo", store.undo)

    def test_of_stores_that_are_used_up(self):
        path = self.folder / "used_up.sfs"
        no_identifier, no_column = b"\xff\xff\xff\xff", b"\xff\xff"
        path.write_bytes(
            b"SFSTORE1\0\0\0\1" + b"\1w\1" + no_identifier + no_column + b"\0\0" + b"\0\0\0\0"
        )
        with Store(load=path) as store:
            self.assert_refused(27, "IdsExhausted", store.add, "w", "POINT (1 1)")
            self.assert_refused(28, "ColumnsExhausted", store.add_column, "w", "c", "int")

    @unittest.skipUnless(sys.platform == "linux", "needs a limit of memory")
    def test_for_want_of_memory(self):
        path = self.script(f"#!/bin/sh\nulimit -v 30000\nexec '{PROGRAM}'\n")
        wkt = "MULTIPOINT (" + ", ".join(["1 1"] * 4_096) + ")"
        with Store(path) as store:
            store.add_layer("w")
            answers = store.run_all([f"add w {wkt}"] * 2_000)
            self.assertEqual(answers[0], "ok 1")
            self.assertEqual((answers[-1].number, answers[-1].name), (1, "Memory"))
            self.assert_refused(1, "Memory", store.show, "w")
            self.assertEqual(store.box("w", 1), (1, 1, 1, 1))

    def test_as_exceptions(self):
        refused = Refused(18, "NoLayer", "show w")
        self.assertEqual(str(refused), "18 NoLayer: show w")
        self.assertEqual(repr(pickle.loads(pickle.dumps(refused))), repr(refused))
        self.assertLess(len(str(Refused(33, "LineTooLong", "x" * 200_000))), 300)


class LinesAsTheyAreSent(unittest.TestCase):
    """Many lines are sent as each by itself would be."""

    LINES = ["add w POINT (1 2)", "", " ", "\t", "q ", "q\t", "x\r", "\r", "a\nb", "together 2\rundo\rundo", "together 1", "\ufeff\xe4 \xdf", "set w 1 n 'together'"]
    LINES += ["x\x0b", "x\x85y", "x\u2028y", "a\x1cb", "x\x0c"]

    def sent(self, lines, address):
        try:
            return [spelling.encoded(line, address) for line in lines]
        except ValueError as error:
            return str(error)

    def sent_together(self, lines, address):
        try:
            return spelling.all_encoded(lines, address)
        except ValueError as error:
            return str(error)

    def test_any_lines(self):
        chance = random.Random(3)
        for _ in range(3_000):
            lines = chance.choices(self.LINES[:1] * 9 + self.LINES, k=chance.randrange(6))
            for address in ("", "@2 "):
                self.assertEqual(self.sent_together(lines, address), self.sent(lines, address), lines)

    def test_more_lines_than_are_looked_at_together(self):
        lines = [f"add w POINT ({at} 0)" for at in range(10_000)]
        self.assertEqual(self.sent_together(lines, "@1 "), self.sent(lines, "@1 "))
        self.assertEqual(self.sent_together([*lines, " "], ""), "the line is blank")


class Batches(TestCase):
    def test_a_hundred_thousand_commands(self):
        lines = ["layer add w point"]
        lines += [f"add w POINT ({n} {-n})" for n in range(100_000)]
        calls = []
        with Store() as store:
            answers = store.run_all(lines, lambda done, total: calls.append((done, total)))
            self.assertEqual(answers, ["ok"] + [f"ok {n + 1}" for n in range(100_000)])
            shown = store.show("w")
        self.assertEqual(len(shown), 100_000)
        self.assertEqual(shown[-1], Feature(100_000, "POINT (99999 -99999)", {}))
        self.assertEqual(calls, sorted(set(calls)))
        self.assertEqual(calls[-1], (100_001, 100_001))

    def test_answers_of_every_form_in_their_order(self):
        with Store() as store:
            lines = ["layer add w any", "add w POINT (1 1)", "show w", "hello", "layers", "undo"]
            answers = store.run_all(iter(lines))
        self.assertEqual(answers[:3], ["ok", "ok 1", ["1 POINT (1 1)"]])
        self.assertEqual((answers[3].number, answers[3].line), (31, "hello"))
        self.assertEqual(answers[4:], [["w any"], "ok"])

    def test_no_lines(self):
        with Store() as store:
            self.assertEqual(store.run_all([]), [])
            self.assertEqual(store.run_all([], self.fail), [])

    def test_answers_far_longer_than_their_lines(self):
        line = "add w MULTIPOINT (" + ", ".join(f"{n} {n}" for n in range(4_096)) + ")"
        with Store() as store:
            store.run_all(["layer add w any"] + [line] * 20)
            answers = store.run_all(["show w", "hex w 1"] * 100)
        self.assertEqual([len(answer) for answer in answers[::2]], [20] * 100)
        self.assertEqual(len(set(answers[1::2])), 1)

    def test_the_longest_lines(self):
        points = (f"{-n - 100_000} {n + 100_000}" for n in range(4_096))
        text = f"LINESTRING ({', '.join(points)})"
        with Store() as store:
            store.add_layer("w")
            for wkt in (text, text.ljust(LINE_MAX - len("add w "))):
                identifier = store.add("w", wkt)
                self.assertEqual(store.show("w")[identifier - 1].wkt, text)
            self.assert_refused(33, "LineTooLong", store.add, "w", text.ljust(LINE_MAX))
            self.assert_refused(33, "LineTooLong", store.run, "x" * 10_000_000)
            answers = store.run_all(["layers", "x" * 5_000_000] * 10)
            self.assertEqual(answers[::2], [["w any"]] * 10)
            self.assertEqual([answer.number for answer in answers[1::2]], [33] * 10)

    def test_lines_about_as_long_as_a_batch(self):
        with Store() as store:
            for length in range(sfstore.program.BATCH_BYTES - 3, sfstore.program.BATCH_BYTES + 4):
                lines = ["layers".ljust(length), "redo", "layers".ljust(length)]
                first, second, third = store.run_all(lines)
                self.assertEqual((first, second.number, third), ([], 30, []))

    def test_a_long_answer(self):
        with Store() as store:
            store.run_all(["layer add w point"] + ["add w POINT (-1073741824 -1073741824)"] * 300_000)
            rows = store.run("show w")
        self.assertEqual(len(rows), 300_000)
        self.assertEqual(set(row.split(" ", 1)[1] for row in rows), {"POINT (-1073741824 -1073741824)"})

    def test_what_progress_raises_leaves_the_store_in_step(self):
        def progress(done, total):
            raise KeyError(done)

        with Store() as store:
            with self.assertRaises(KeyError):
                store.run_all(["layer add w any"] * 10, progress)
            self.assertEqual(store.layers(), [Layer("w", "any")])


class Files(TestCase):
    def test_saved_and_loaded(self):
        path = self.folder / "größe 北.sfs"
        with Store(save=path) as store:
            store.run_all(["layer add wells point", "column add wells depth int"])
            store.add_column("wells", "label", "text")
            store.add("wells", "POINT (3 4)")
            store.set("wells", 1, "depth", -7)
            store.set("wells", 1, "label", "old")
            self.assertFalse(path.exists())
        # The bytes are those of docs/use/FORMAT.md.
        self.assertEqual(
            path.read_bytes(),
            bytes.fromhex(
                "5346 5354 4f52 4534 1f 0000 0001 0577 656c 6c73 0100 0000 0200 0300 0200 0101 0564"
                "6570 7468 0002 0205 6c61 6265 6c00 0000 0100 0000 0100 0000 1501 0100 0000 0000"
                "0000 0000 0840 0000 0000 0000 1040 0002 0001 ffff ffff ffff fff9 0002 0003 6f6c"
                "64 0000"
            ),
        )
        with Store(load=str(path), save=path) as store:
            self.assertEqual(
                store.show("wells"), [Feature(1, "POINT (3 4)", {"depth": -7, "label": "old"})]
            )
            self.assert_refused(29, "NothingToUndo", store.undo)
            store.add("wells", "POINT (5 6)")
        with Store(load=path) as store:
            self.assertEqual(len(store.show("wells")), 2)

    def test_paths_that_look_like_options(self):
        before = os.getcwd()
        os.chdir(self.folder)
        self.addCleanup(os.chdir, before)
        with Store(save="--load") as store:
            store.add_layer("w")
        with Store(load="--load", save="-h=") as store:
            self.assertEqual(store.layers(), [Layer("w", "any")])
        self.assertEqual(Path("-h=").read_bytes(), Path("--load").read_bytes())

    def test_an_exception_in_the_body_saves_nothing(self):
        path = self.folder / "kept.sfs"
        with Store(save=path) as store:
            store.add_layer("w")
        before = path.read_bytes()
        for error in (Refused, KeyError, SystemExit, KeyboardInterrupt):
            with self.assertRaises(error):
                with Store(load=path, save=path) as store:
                    store.drop_layer("w")
                    if error is not Refused:
                        raise error
                    store.drop_layer("w")
            self.assertEqual(path.read_bytes(), before)
            with self.assertRaises(RuntimeError):
                store.layers()

    def test_a_store_that_is_dropped_saves_nothing(self):
        path = self.folder / "none.sfs"
        store = Store(save=path)
        store.add_layer("w")
        with self.assertWarns(ResourceWarning):
            del store
        self.assertFalse(path.exists())

    def test_an_interpreter_that_ends_saves_nothing(self):
        path = self.folder / "none.sfs"
        code = f"import sfstore; s = sfstore.Store(save={str(path)!r}); s.add_layer('w')"
        subprocess.run([sys.executable, "-c", code], cwd=FOLDER, check=True)
        time.sleep(0.2)
        self.assertFalse(path.exists())

    def test_an_interpreter_that_is_killed_between_two_commands_saves(self):
        path = self.folder / "saved.sfs"
        code = f"import sfstore; s = sfstore.Store(save={str(path)!r}); s.add_layer('w')"
        interpreter = subprocess.Popen(
            [sys.executable, "-c", f"{code}; print(flush=True); input()"],
            cwd=FOLDER,
            stdin=subprocess.PIPE,
            stdout=subprocess.PIPE,
        )
        with interpreter:
            interpreter.stdout.readline()
            interpreter.kill()
        while not path.exists() or path.stat().st_size < 27:
            time.sleep(0.01)
        with Store(load=path) as store:
            self.assertEqual(store.layers(), [Layer("w", "any")])

    def test_closed_stores(self):
        path = self.folder / "closed.sfs"
        store = Store(save=path)
        store.add_layer("w")
        store.close()
        self.assertTrue(path.exists())
        store.close()
        for call in (store.layers, store.undo, lambda: store.run_all(["undo"])):
            with self.assertRaisesRegex(RuntimeError, "closed"):
                call()
        with store:
            pass

    def test_files_that_are_none(self):
        path = self.folder / "bad.sfs"
        faults = {
            b"": "0 7",
            b"SFSTORE5": "0 34",
            b"SFSTORE4": "8 7",
            b"SFSTORE4\x18\0\0\0\0": "8 34",
            b"SFSTORE4\x1f\0\0\0\0": "13 7",
            b"SFSTORE3": "8 7",
            b"SFSTORE2": "8 7",
            b"SFSTORE2\x14\0\0\0\0": "8 34",
            b"SFSTORE2\x18\0\0\0\1": "13 7",
            b"SFSTORE1\0\0\0\1": "12 7",
            b"SFSTORE1\0\0\0\0x": "12 8",
        }
        for content, fault in faults.items():
            path.write_bytes(content)
            self.assert_ended(3, f"fault load BadFile {fault}", Store, PROGRAM, path, path)
            self.assertEqual(path.read_bytes(), content)

    def test_files_that_cannot_be_opened(self):
        for path in (self.folder / "missing", ""):
            self.assert_ended(3, "fault load Open", Store, PROGRAM, path)
        store = Store(save=self.folder / "missing" / "file")
        store.add_layer("w")
        self.assert_ended(4, "fault save Open", store.close)
        store.close()
        with self.assertRaises(ProgramEnded):
            with Store(save=self.folder / "missing" / "file"):
                pass

    def test_a_path_that_is_not_utf_8_is_told(self):
        folder = os.fsencode(self.folder) + b"/caf\xe9"
        os.mkdir(folder)
        path = folder + b"/town.sfs"
        for open_it in (
            lambda: Store(path, journal=True, program=PROGRAM),
            lambda: Store(load=path, program=PROGRAM),
            lambda: Store(save=path, program=PROGRAM),
        ):
            with self.assertRaisesRegex(OSError, "the program sfstore takes paths in UTF-8 alone: .*caf"):
                open_it()
        self.assertEqual(os.listdir(folder), [])

    @unittest.skipUnless(os.path.exists("/dev/full"), "needs /dev/full")
    def test_files_that_cannot_be_written(self):
        self.assert_ended(4, "fault save Write", Store(save="/dev/full").close)

    def test_files_that_cannot_be_read(self):
        self.assert_ended(3, "fault load Read", Store, PROGRAM, self.folder)

    def test_paths_that_are_no_text(self):
        with self.assertRaisesRegex(OSError, "takes paths in UTF-8 alone"):
            Store(load=self.folder / "\udcff")
        with self.assertRaises(ValueError):
            Store(load="a\0b")


class Programs(TestCase):
    def test_where_the_program_is_looked_for(self):
        Store(PROGRAM).close()
        Store(program=Path(PROGRAM)).close()
        Store().close()
        with mock.patch.dict(os.environ, PATH=str(self.folder)):
            Store(program=PROGRAM).close()
            for name in ("sfstore", "nix/sfstore"):
                words = f"^{name}: the program was not found. It comes with the Debian package sfstore, and"
                with self.assertRaisesRegex(FileNotFoundError, words):
                    Store(program=name)
                with self.assertRaisesRegex(FileNotFoundError, words):
                    Store(self.folder / "town.sfs", journal=True, program=name)

    def test_another_program(self):
        with self.assertRaisesRegex(RuntimeError, "cat is another program"):
            Store(program="cat")
        self.assert_ended(0, "", Store, "true")
        self.assert_ended(1, "", Store, "false")

    def test_killed_between_two_commands(self):
        store = Store(save=self.folder / "file")
        store.add_layer("w")
        os.kill(child_of(store), signal.SIGKILL)
        calls = (store.layers, store.layers, lambda: store.run_all(["undo"] * 1000), store.close)
        for call in calls:
            self.assert_ended(-9, "", call)
        store.close()
        self.assertFalse((self.folder / "file").exists())

    def test_killed_and_left(self):
        with self.assertRaises(ProgramEnded) as caught:
            with Store() as store:
                os.kill(child_of(store), signal.SIGTERM)
        self.assertEqual(str(caught.exception), "the program was killed by signal 15")

    def test_killed_in_a_batch(self):
        calls = []

        def progress(done, total):
            calls.append(done)
            if done > 5_000:
                os.kill(child_of(store), signal.SIGKILL)

        store = Store()
        store.add_layer("w")
        self.assert_ended(-9, "", store.run_all, ["add w POINT (1 1)"] * 10_000, progress)
        self.assertLess(calls[-1], 10_000)

    def test_killed_while_it_answers(self):
        store = Store()
        store.run_all(["layer add w any"] + ["add w POINT (1 1)"] * 200_000)
        killing = threading.Timer(0.02, os.kill, (child_of(store), signal.SIGKILL))
        killing.start()
        with self.assertRaises(ProgramEnded) as caught:
            for _ in range(1_000):
                store.run("show w")
        self.assertEqual(caught.exception.status, -9)
        killing.join()

    def test_a_fault_in_place_of_an_answer(self):
        store = Store(self.program("line(); say('fault serve Read\\n'); sys.exit(1)"))
        self.assert_ended(1, "fault serve Read", store.layers)
        self.assert_ended(1, "fault serve Read", store.layers)
        self.assert_ended(1, "fault serve Read", store.close)

    def test_a_fault_in_the_middle_of_an_answer(self):
        text = "rows 3\n1 POINT (1 1)\nfault serve Write\n"
        store = Store(self.program(f"line(); say({text!r}); sys.exit(1)"))
        self.assert_ended(1, "fault serve Write", store.show, "w")

    def test_a_fault_in_the_middle_of_a_row(self):
        text = "rows 3\n1 POINT (1 1)\n2 POIfault serve Write\n"
        store = Store(self.program(f"line(); say({text!r}); sys.exit(1)"))
        self.assert_ended(1, "2 POIfault serve Write", store.show, "w")

    def test_a_fault_in_place_of_the_last_row(self):
        store = Store(self.program("line(); say('rows 1\\nfault serve Write\\n'); sys.exit(1)"))
        self.assert_ended(1, "fault serve Write", store.show, "w")

    def test_an_answer_that_breaks_off(self):
        for text in ("rows 2\n1 POINT (1 1)\n2 POI", "ok 12", "ro"):
            store = Store(self.program(f"line(); say({text!r}); sys.exit(1)"))
            self.assert_ended(1, text.split("\n")[-1], store.show, "w")

    def test_an_end_between_two_commands(self):
        store = Store(self.program("line(); say('ok\\nfault serve Read\\n'); sys.exit(1)"))
        store.undo()
        time.sleep(0.2)
        self.assert_ended(1, "fault serve Read", store.undo)

    def test_an_end_in_a_batch(self):
        body = """
            for _ in range(3):
                line()
                say("ok\\n")
            say("fault serve Write\\n")
            sys.exit(1)
            """
        store = Store(self.program(body))
        self.assert_ended(1, "fault serve Write", store.run_all, ["undo"] * 100)

    def test_an_end_while_a_long_line_is_sent(self):
        store = Store(self.program("os.read(0, 1); say('fault serve Memory\\n'); sys.exit(1)"))
        self.assert_ended(1, "fault serve Memory", store.run, "x" * 1_000_000)

    def test_a_status_without_a_line(self):
        with self.assertRaises(ProgramEnded) as caught:
            with Store(self.program("line(); sys.exit(1)")):
                pass
        self.assertEqual(str(caught.exception), "the program ended with status 1: no last line")

    def test_an_interrupt_in_the_middle_of_a_command_ends_the_program(self):
        def interrupt(*_):
            raise KeyboardInterrupt

        signal.signal(signal.SIGALRM, interrupt)
        store = Store(self.program("line(); say('rows 2\\n1\\n'); time.sleep(100); say('2\\n')"))
        signal.setitimer(signal.ITIMER_REAL, 0.2)
        with self.assertRaises(KeyboardInterrupt):
            store.run("layers")
        self.limit_time()
        self.assert_ended(-9, "1", store.run, "layers")

    def test_the_terminals_interrupt_does_not_reach_the_program(self):
        with Store() as store:
            self.assertNotEqual(os.getpgid(child_of(store)), os.getpgid(0))

    def test_no_process_and_no_pipe_is_left(self):
        def open_files():
            return len(os.listdir("/dev/fd"))

        before = open_files()
        with warnings.catch_warnings(record=True) as warned:
            warnings.simplefilter("always")
            for _ in range(5):
                Store().close()
                with self.assertRaises(KeyError):
                    with Store():
                        raise KeyError
                with self.assertRaises(ProgramEnded):
                    Store(load=self.folder / "missing")
                with self.assertRaises(RuntimeError):
                    Store("cat")
        self.assertEqual(open_files(), before)
        self.assertEqual([str(warning.message) for warning in warned], [])
        with self.assertRaises(ChildProcessError):
            os.waitpid(-1, os.WNOHANG)

    def test_as_exceptions(self):
        ended = ProgramEnded(3, "fault load Open")
        self.assertEqual(str(ended), "the program ended with status 3: fault load Open")
        self.assertEqual(repr(pickle.loads(pickle.dumps(ended))), repr(ended))


class Users(TestCase):
    def in_thread(self, call):
        raised = []

        def body():
            try:
                call()
            except BaseException as error:
                raised.append(error)

        thread = threading.Thread(target=body)
        thread.start()
        thread.join()
        return raised

    def test_another_thread_is_refused(self):
        with Store() as store:
            for call in (store.layers, store.undo, store.close, lambda: store.run_all(["undo"])):
                [error] = self.in_thread(call)
                self.assertIs(type(error), RuntimeError)
                self.assertIn("thread", str(error))
            self.assertEqual(store.layers(), [])

    def test_another_thread_stops_a_command_that_takes_too_long(self):
        store = Store(self.program("line()\ntime.sleep(100)"))
        stopping = threading.Timer(0.2, store.stop)
        stopping.start()
        self.assert_ended(-9, "", store.layers)
        self.assert_ended(-9, "", store.layers)
        stopping.join()
        store.close(save=False)

    def test_a_thread_of_its_own(self):
        def body():
            with Store() as store:
                store.add_layer("w")

        self.assertEqual(self.in_thread(body), [])

    def forked(self, body):
        """The status of a forked process that leaves a body."""
        child = os.fork()
        if child == 0:
            status = 1
            try:
                body()
                status = 0
            finally:
                os._exit(status)
        return os.waitstatus_to_exitcode(os.waitpid(child, 0)[1])

    def test_a_forked_process_is_refused(self):
        path = self.folder / "file"
        with Store(save=path) as store:
            store.add_layer("w")

            def body():
                for call in (store.layers, store.close):
                    with self.assertRaisesRegex(RuntimeError, "fork"):
                        call()

            self.assertEqual(self.forked(body), 0)
            self.assertEqual(store.layers(), [Layer("w", "any")])
        self.assertTrue(path.exists())

    def test_a_forked_process_kills_no_program(self):
        with Store() as store:
            inner = store

            def raising():
                with self.assertRaises(KeyError):
                    with inner:
                        raise KeyError

            def ending():
                inner._program._finalizer()

            self.assertEqual(self.forked(raising), 0)
            self.assertEqual(self.forked(ending), 0)
            self.assertEqual(store.layers(), [])

    def test_a_forked_process_does_not_keep_the_input_open(self):
        store = Store()
        child = os.fork()
        if child == 0:
            time.sleep(60)
            os._exit(0)
        begun = time.monotonic()
        store.close()
        self.assertLess(time.monotonic() - begun, 30)
        os.kill(child, signal.SIGKILL)
        os.waitpid(child, 0)

    def test_two_stores_at_once(self):
        with Store() as first, Store() as second:
            first.add_layer("a")
            second.add_layer("b")
            self.assertEqual(first.layers(), [Layer("a", "any")])
            self.assertEqual(second.layers(), [Layer("b", "any")])


class GeoInterfaces(TestCase):
    GEOMETRIES = {
        "POINT (3 -4)": ("Point", (3, -4)),
        "LINESTRING (0 0, -1073741824 1073741823)": ("LineString", ((0, 0), (-1073741824, 1073741823))),
        "POLYGON ((0 0, 30 0, 30 30, 0 0), (20 10, 25 10, 25 15, 20 10))": (
            "Polygon",
            (((0, 0), (30, 0), (30, 30), (0, 0)), ((20, 10), (25, 10), (25, 15), (20, 10))),
        ),
        "MULTIPOINT ((1 1), (2 2))": ("MultiPoint", ((1, 1), (2, 2))),
        "MULTILINESTRING ((0 0, 1 1), (2 2, 3 3))": (
            "MultiLineString",
            (((0, 0), (1, 1)), ((2, 2), (3, 3))),
        ),
        "MULTIPOLYGON (((0 0, 9 0, 0 9, 0 0), (1 1, 2 1, 1 2, 1 1)), ((15 5, 16 5, 15 6, 15 5)))": (
            "MultiPolygon",
            (
                (((0, 0), (9, 0), (0, 9), (0, 0)), ((1, 1), (2, 1), (1, 2), (1, 1))),
                (((15, 5), (16, 5), (15, 6), (15, 5)),),
            ),
        ),
    }

    def test_of_all_six_kinds(self):
        with Store() as store:
            store.add_layer("w")
            store.add_column("w", "n", "int")
            store.add_column("w", "t", "text")
            for wkt in self.GEOMETRIES:
                feature = store.add("w", wkt)
                store.set("w", feature, "n", feature * 10)
                store.set("w", feature, "t", "it's (1 2), 'x'")
            shown = store.show("w")
        self.assertEqual([feature.wkt for feature in shown], list(self.GEOMETRIES))
        for feature, (name, coordinates) in zip(shown, self.GEOMETRIES.values()):
            self.assertEqual(
                feature.__geo_interface__,
                {
                    "type": "Feature",
                    "id": feature.id,
                    "geometry": {"type": name, "coordinates": coordinates},
                    "properties": {"n": feature.id * 10, "t": "it's (1 2), 'x'"},
                },
            )

    @unittest.skipUnless(find_spec("shapely"), "no shapely")
    def test_shapely_takes_all_kinds_and_tells_the_same_matrices(self):
        from shapely import wkt
        from shapely.geometry import shape

        with Store() as store:
            store.add_layer("w")
            for text in self.GEOMETRIES:
                store.add("w", text)
            for feature in store.show("w"):
                theirs = wkt.loads(feature.wkt)
                taken = shape(feature.__geo_interface__["geometry"])
                self.assertTrue(taken.equals_exact(theirs, 0), feature.wkt)
                for other in self.GEOMETRIES:
                    matrix = store.relate("w", feature.id, other)
                    self.assertEqual(matrix, theirs.relate(wkt.loads(other)), (feature.wkt, other))

    @unittest.skipUnless(find_spec("geopandas"), "no geopandas")
    def test_geopandas_takes_a_layer(self):
        import geopandas

        with Store() as store:
            store.add_layer("w")
            store.add_column("w", "n", "int")
            for text in self.GEOMETRIES:
                store.set("w", store.add("w", text), "n", 7)
            frame = geopandas.GeoDataFrame.from_features(store.show("w"))
        kinds = [name for name, _ in self.GEOMETRIES.values()]
        self.assertEqual(list(frame.geom_type), kinds)
        self.assertEqual(list(frame["n"]), [7] * len(kinds))

    def test_texts_that_are_not_canonical(self):
        texts = [
            "",
            "POINT",
            "POINT (1 2",
            "POINT (1 2) ",
            "POINT(1 2)",
            "POINT (1  2)",
            "POINT (01 2)",
            "POINT (-0 2)",
            "POINT (+1 2)",
            "POINT (1.0 2)",
            "POINT (1 2 3)",
            "POINT (1 2, 3 4)",
            "POINT ((1 2))",
            "POINT (١ 2)",
            "Point (1 2)",
            "CIRCLE (1 2)",
            "LINESTRING ()",
            "LINESTRING (1 2,3 4)",
            "LINESTRING ((1 2, 3 4))",
            "POLYGON (1 2, 3 4)",
            "POLYGON ()",
            "MULTIPOINT (1 2, 3 4)",
            "MULTIPOINT ((1 2, 3 4))",
            "MULTIPOLYGON ((1 2, 3 4))",
            "MULTIPOLYGON (((1 2, 3 4))",
            "POINT (1 2)POINT (1 2)",
        ]
        for text in texts:
            with self.assertRaises(ValueError, msg=text):
                Feature(1, text, {}).__geo_interface__


def modules_with_examples():
    """The modules of the package whose docstrings have examples."""
    top = Path(sfstore.__file__).parent
    for path in sorted(top.rglob("*.py")):
        parts = path.relative_to(top).with_suffix("").parts
        if path.name != "__init__.py" and ">>> " in path.read_text(encoding="utf-8"):
            yield importlib.import_module(".".join(("sfstore", *parts)))


def load_tests(loader, tests, pattern):
    for module in modules_with_examples():
        tests.addTests(doctest.DocTestSuite(module, extraglobs=vars(sfstore)))
    return tests


if __name__ == "__main__":
    unittest.main()
