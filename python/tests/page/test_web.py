"""Tests of the server of the page without a browser: its calls, and what it does not answer."""

from __future__ import annotations

import http.client
import json
import os
import random
import signal
import socket
import subprocess
import sys
import threading
import time
import unittest
from decimal import Decimal

import test_sfstore
from support import PROGRAM
from web_support import WebCase, link_of

from sfstore import JournalError, Refused, Store, files, sidecar, storefile
from sfstore.extents import extent_of, rectangle
from sfstore.language import GRID_MAX, GRID_MIN
from sfstore.refusals import words_of
from sfstore.web.steps import Steps
from sfstore.web.windows import ELEMENTS_MAX

CROSSED = "POLYGON ((0 0, 10 10, 10 0, 0 10, 0 0))"
WHOLE = [-1073741824, -1073741824, 1073741823, 1073741823]

# A program that does as the real one, but is slow to tell whether a geometry is simple.
SLOW = """\
#!{python}
import select, subprocess, sys
# The store's file is handed on as an open one.
child = subprocess.Popen(
    [{program!r}, *sys.argv[1:]], stdin=subprocess.PIPE, stdout=subprocess.PIPE, close_fds=False
)
for line in sys.stdin.buffer:
    if line.startswith(b"simple"):
        # Until its reader is gone.
        select.select([sys.stdin], [], [], 60)
    child.stdin.write(line)
    child.stdin.flush()
    told = child.stdout.readline()
    count = int(told[5:]) if told.startswith(b"rows ") else 0
    sys.stdout.buffer.write(told + b"".join(child.stdout.readline() for _ in range(count)))
    sys.stdout.buffer.flush()
child.stdin.close()
sys.exit(child.wait())
"""


class Listening:
    """A page that hears what happens."""

    def __init__(self, serving):
        self.connection = http.client.HTTPConnection("127.0.0.1", serving.port, timeout=30)
        self.connection.request("GET", "/events", headers={"Authorization": f"Bearer {serving.key}"})
        self.answer = self.connection.getresponse()

    def next(self):
        """The next thing that is told."""
        while True:
            line = self.answer.readline()
            if line.startswith(b"data: "):
                return json.loads(line[6:])
            if not line:
                return None

    def close(self):
        self.answer.close()
        self.connection.close()


class Lines(WebCase):
    """Lines of the console, with their answers and refusals."""

    def test_units_that_are_not_known_are_refused(self):
        """Whoever means the map is never understood in steps."""
        ann = self.serve().log_in("Ann")
        ann.answer("layer add w any")
        for path, body in (
            ("/line", {"line": "add w POINT (1 2)", "units": "metres"}),
            ("/line", {"line": "add w POINT (1 2)", "units": ["map"]}),
            ("/batch", {"lines": ["add w POINT (1 2)"], "units": "map"}),
        ):
            status, told = ann.serving.posted(path, ann.key, page="p", seen=1, **body)
            self.assertEqual((status, "units" in told["error"]), (400, True), told)
        self.assertEqual(ann.line("show w")["count"], 0)

    def test_ten_thousand_coordinates_of_the_map_there_and_back(self):
        """As they are written, and in the store as steps; each that is beside a place of the grid is refused."""
        self.make(b"layer add w multipoint\n")
        grid = sidecar.Sidecar(("2600000", "1200000", "0.001"), sidecar.Crs("EPSG", "2056", ""), [])
        sidecar.write(str(self.path), grid, [files.digest(str(self.path))])
        chance = random.Random(89)
        steps = [(chance.randint(GRID_MIN, GRID_MAX), chance.randint(GRID_MIN, GRID_MAX)) for _ in range(10_000)]
        places = [tuple(f"{Decimal(origin) + k * Decimal('0.001')}" for origin, k in zip((2_600_000, 1_200_000), step)) for step in steps]
        wkt, in_steps = (f"MULTIPOINT ({', '.join(f'({x} {y})' for x, y in points)})" for points in (places, steps))
        ann = self.serve().log_in("Ann")
        said = [ann.serving.posted("/line", ann.key, page="p", units="map", line=line) for line in (f"add w {wkt}", "get w 1")]
        self.assertEqual(said[0], (200, {"answer": "ok 1"}))
        self.assertEqual(ann.serving.call("/feature", key=ann.key, layer="w", id=1, units="map")["wkt"], wkt)
        self.assertEqual(ann.serving.call("/feature", key=ann.key, layer="w", id=1)["wkt"], in_steps)
        for x, y in places[:100]:
            _, told = ann.serving.posted("/line", ann.key, page="p", units="map", line=f"add w MULTIPOINT (({x}5 {y}))")
            self.assertIn("lies between two places of the grid", json.dumps(told))

    def test_what_lies_far_off_the_map_is_asked_about(self):
        """Of a page, which has a person who answers; a program that does not say so is not asked."""
        self.make(b"layer add w point\nlayer add p polygon\nadd w POINT (4500 1500)\nadd p POLYGON ((0 0, 900 0, 900 900, 0 0))\n")
        sidecar.write(str(self.path), sidecar.Sidecar(("500000", "5600000", "0.01"), None, []), [files.digest(str(self.path))])
        ann = self.serve().log_in("Ann")

        def told(line, **body):
            return ann.serving.posted("/line", ann.key, page="p", seen=ann.version(), line=line, **body)[1]

        far = "add w POINT (600045 5600015)"
        question = {"question": "(600045.00 5600015.00) lies far off the map. Is it meant?"}
        self.assertEqual(told(far, units="map", asks=True), question)
        self.assertEqual(told(f"together 2\rdelete w 1\r{far}", units="map", asks=True), question)
        self.assertEqual(told("vertex move w 1 0 0 0 600045 5600015", units="map", asks=True), question)
        self.assertEqual(told("node 500009 5600009 to 600045 5600015", units="map", asks=True), question)
        # Nothing was done.
        self.assertEqual(ann.line("show w")["rows"], ["1 POINT (4500 1500)"])
        self.assertIsNone(ann.serving.call("/map", key=ann.key)["undo"])
        self.assertEqual(told("add w POINT (500945 5600015)", units="map", asks=True), {"answer": "ok 2"})
        self.assertEqual(told("query w within POLYGON ((0 0, 9000000 0, 9000000 9000000, 0 9000000, 0 0))", units="map", asks=True)["count"], 2)
        # Once it is meant the map is larger.
        self.assertEqual(told(far, units="map"), {"answer": "ok 3"})
        self.assertEqual(told(far, units="map", asks=True), {"answer": "ok 4"})
        self.assertEqual(told("add w POINT (900000000 0)", asks=True), {"answer": "ok 5"})
        self.assertEqual(ann.serving.posted("/line", ann.key, page="p", line=far, asks=1, units="map")[0], 400)

    def test_every_command(self):
        expected = [
            ("layer add w any", {"answer": "ok"}),
            ("layer add p polygon", {"answer": "ok"}),
            ("layer move p 0", {"answer": "ok"}),
            ("layer rename p plots", {"answer": "ok"}),
            ("layers", {"rows": ["plots polygon", "w any"], "count": 2}),
            ("column add w n int", {"answer": "ok"}),
            ("column add w t text", {"answer": "ok"}),
            ("column drop w n", {"answer": "ok"}),
            ("columns w", {"rows": ["t text"], "count": 1}),
            ("add w LINESTRING (0 0, 4 4)", {"answer": "ok 1"}),
            ("addhex w 0101000000000000000000f03f0000000000000040", {"answer": "ok 2"}),
            ("replace w 1 LINESTRING (0 0, 5 7)", {"answer": "ok"}),
            ("vertex insert w 1 0 0 1 9 9", {"answer": "ok"}),
            ("vertex move w 1 0 0 1 8 9", {"answer": "ok"}),
            ("vertex remove w 1 0 0 1", {"answer": "ok"}),
            ("set w 1 t 'it''s'", {"answer": "ok"}),
            ("show w", {"rows": ["1 LINESTRING (0 0, 5 7) t='it''s'", "2 POINT (1 2)"], "count": 2}),
            ("unset w 1 t", {"answer": "ok"}),
            ("hex w 2", {"answer": "0101000000000000000000f03f0000000000000040"}),
            ("box w 1", {"answer": "0 0 5 7"}),
            ("simple w 1", {"answer": "true"}),
            ("relate w 2 POINT (1 2)", {"answer": "0FFFFFFF2"}),
            ("match w T******** POINT (1 2)", {"rows": ["2"], "count": 1}),
            ("query w intersects POINT (5 7)", {"rows": ["1"], "count": 1}),
            ("delete w 1", {"answer": "ok"}),
            ("undo", {"answer": "ok"}),
            ("redo", {"answer": "ok"}),
            ("layer drop plots", {"answer": "ok"}),
            (" \t", {"text": ""}),
            ("save", {"text": "town.sfs is saved. The history begins anew."}),
        ]
        ann = self.serve().log_in("Ann")
        for line, answer in expected:
            with self.subTest(line=line):
                self.assertEqual(ann.line(line), answer)
        self.assertIn("adds a feature", ann.line("help add")["text"])
        self.assertIn("save", ann.line("help")["text"])
        self.assertNotIn("quit", ann.line("help")["text"])

    def test_each_refusal_in_words(self):
        ann = self.serve().log_in("Ann")
        for line in test_sfstore.Refusals.PREPARED:
            self.assertIn("ok", ann.answer(line))
        for number, name, line in test_sfstore.Refusals.EXPECTED:
            with self.subTest(number=number, line=line[:60]):
                refused = ann.refused(line)
                self.assertEqual((refused["number"], refused["name"]), (number, name))
                self.assertEqual(refused["reason"], words_of(number).reason)
                self.assertTrue(refused["help"])
                if 10 <= number <= 17:
                    self.assertTrue(refused["place"]["points"], refused)

    def test_refusals_of_the_history_and_of_what_is_used_up(self):
        layer = storefile.FileLayer("w", 1, 4294967295, 65535)
        with open(self.path, "wb") as file:
            storefile.write(file, [layer])
        ann = self.serve().log_in("Ann")
        for line, number in (("undo", 29), ("add w POINT (1 1)", 27), ("column add w c int", 28)):
            self.assertEqual(ann.refused(line)["number"], number)

    def test_the_geometry_and_the_place_of_a_refused_edit(self):
        ann = self.serve().log_in("Ann")
        ann.line("layer add p polygon")
        refused = ann.refused(f"add p {CROSSED}")
        self.assertEqual(refused["members"], [[[0, 0, 10, 10, 10, 0, 0, 10, 0, 0]]])
        self.assertEqual(refused["place"]["points"], [[5, 5]])
        self.assertIn("edges 0 and 2 of ring 0 meet at (5 5)", refused["place"]["words"])
        ann.line("add p POLYGON ((0 0, 10 0, 10 10, 0 10, 0 0))")
        refused = ann.refused("vertex move p 1 0 0 2 5 -5")
        self.assertEqual(refused["members"], [[[0, 0, 10, 0, 5, -5, 0, 10, 0, 0]]])
        self.assertEqual(len(refused["place"]["points"]), 1)

    def test_what_may_have_been_meant(self):
        ann = self.serve().log_in("Ann")
        self.assertEqual(ann.refused("qery w")["help"], "Is `query` meant?")
        self.assertIn("layer add NAME KIND", ann.refused("layer add")["help"])

    def test_nobody_speaks_for_another_by_a_line(self):
        serving = self.serve()
        ann, ben = serving.log_in("Ann"), serving.log_in("Ben")
        ann.line("layer add w point")
        self.assertEqual(ben.refused("@1 undo")["number"], 31)

    def test_long_answers_are_cut_and_counted(self):
        count = ELEMENTS_MAX + 5
        points = (f"add w POINT ({k} 0)\n" for k in range(count))
        self.make("".join(["layer add w point\n", *points]).encode())
        answer = self.serve().log_in("Ann").line("show w")
        self.assertEqual((len(answer["rows"]), answer["count"]), (ELEMENTS_MAX, count))


class Grids(WebCase):
    """The grid of the map is that of the opening: where it is another one, nothing is shown or edited by the old one."""

    def placed(self, step, lines=b"layer add w point\nadd w POINT (10 10)\n"):
        """Has a store's file of lines, on a grid of this step."""
        self.make(lines)
        self.place(step)

    def place(self, step):
        """Has the side-car of the file say this step."""
        grid = sidecar.Sidecar(("0", "0", step), sidecar.Crs("EPSG", "25832", ""), [])
        sidecar.write(str(self.path), grid, [files.digest(str(self.path))])

    def in_units(self, ann, line, **body):
        return ann.serving.posted("/line", ann.key, page="p", seen=ann.version(), line=line, units="map", **body)

    @unittest.skipUnless(sys.platform == "linux", "looks at processes")
    def test_another_map_that_took_the_place_meanwhile(self):
        self.placed("1")
        serving = self.serve()
        ann = serving.log_in("Ann")
        before = serving.call("/map")["grid_mark"]
        self.assertEqual(self.in_units(ann, "show w")[1]["rows"], ["1 POINT (10 10)"])
        page = Listening(serving)
        self.addCleanup(page.close)
        page.next()
        for child in self.programs(serving):
            os.kill(child, signal.SIGKILL)
        # Nobody has the store now, as its pages are told behind the first edit.
        self.assertEqual(ann.posted("undo", 0)[0], 503)
        self.assertEqual(page.next(), {"anew": True})
        self.placed("0.1", b"layer add w point\nadd w POINT (100 100)\n")
        self.assertEqual(self.in_units(ann, "show w")[1]["rows"], ["1 POINT (10.0 10.0)"])
        told = serving.call("/map")
        self.assertEqual((told["grid"]["step"], told["grid_fault"]), ("0.1", None))
        # A page that has not looked again counts by the old one.
        for line in ("add w POINT (5 5)", "show w", "undo", "save"):
            status, answer = self.in_units(ann, line, grid=before)
            self.assertEqual((status, "another grid" in answer["error"]), (409, True), line)
        steps = {"page": "p", "lines": ["add w POINT (5 5)"], "seen": [None]}
        self.assertEqual(serving.posted("/batch", ann.key, **steps, grid=before)[0], 409)
        self.assertEqual(serving.posted("/batch", ann.key, **steps, grid=told["grid_mark"])[0], 200)
        self.assertEqual(self.in_units(ann, "add w POINT (5 5)", grid=told["grid_mark"]), (200, {"answer": "ok 3"}))
        self.assertEqual(ann.line("show w")["rows"], ["1 POINT (100 100)", "2 POINT (5 5)", "3 POINT (50 50)"])
        self.assertEqual(serving.call("/feature", layer="w", id=3, units="map")["wkt"], "POINT (5.0 5.0)")

    def test_a_side_car_that_is_changed(self):
        """Once it is seen, all pages look again, and count by what it says."""
        self.placed("1")
        serving = self.serve()
        ann = serving.log_in("Ann")
        page = Listening(serving)
        self.addCleanup(page.close)
        page.next()
        self.assertEqual(self.in_units(ann, "add w POINT (5 5)")[1], {"answer": "ok 2"})
        page.next()
        for step, line in (("0.1", "add w POINT (7 7)"), ("1", "save"), ("0.1", "show w")):
            self.place(step)
            status, answer = self.in_units(ann, line)
            self.assertEqual((status, "another grid" in answer["error"]), (409, True), line)
            self.assertEqual(page.next(), {"anew": True})
            self.assertEqual(serving.call("/map")["grid"]["step"], step)
        self.assertEqual(self.in_units(ann, "show w")[1]["rows"], ["1 POINT (1.0 1.0)", "2 POINT (0.5 0.5)"])
        # Of a batch in steps, too: it may have been made by the old one.
        self.place("1")
        self.assertEqual(serving.posted("/batch", ann.key, page="p", lines=["add w POINT (5 5)"], seen=[None])[0], 409)
        self.assertEqual(len(ann.line("show w")["rows"]), 2)

    def test_a_save_changes_no_grid(self):
        self.placed("0.1")
        ann = self.serve().log_in("Ann")
        for number in (2, 3):
            self.assertEqual(self.in_units(ann, "add w POINT (5 5)")[1], {"answer": f"ok {number}"})
            self.assertEqual(self.in_units(ann, "save")[0], 200)
        self.assertEqual(ann.serving.call("/map")["grid"]["step"], "0.1")
        self.assertEqual(ann.serving.posted("/line", ann.key, page="p", line="show w", grid=1)[0], 400)

    def test_a_side_car_whose_import_broke_off(self):
        """It takes its place with the opening, and is not passed over."""
        self.placed("0.1")
        os.rename(sidecar.path_of(str(self.path)), sidecar.next_of(str(self.path)))
        self.assertEqual(self.in_units(self.serve().log_in("Ann"), "show w")[1]["rows"], ["1 POINT (1.0 1.0)"])


class People(WebCase):
    """Several people, each with their own steps."""

    def test_each_undoes_their_own_and_is_told_whose_step_is_next(self):
        serving = self.serve()
        ann, ben = serving.log_in("Ann"), serving.log_in("Ben")
        ann.line("layer add w point")
        ann.line("add w POINT (1 1)")
        ben.line("add w POINT (2 2)")
        refused = ann.refused("undo")
        self.assertEqual((refused["number"], refused["name"]), (36, "NotYours"))
        whose = {"number": ben.editor, "editor": "Ben", "line": "add w POINT (2 2)", "shown": "add w POINT (2 2)"}
        self.assertEqual(refused["whose"], whose)
        self.assertEqual(ben.answer("undo"), "ok")
        self.assertEqual(ann.refused("redo")["whose"], whose)
        self.assertEqual(ann.answer("undo"), "ok")

    def test_a_name_is_a_number_for_good(self):
        serving = self.serve()
        ann, ben = serving.log_in("Ann"), serving.log_in(" Ben  Ito ")
        self.assertEqual(serving.log_in("Ben Ito").editor, ben.editor)
        ben.line("layer add w point")
        serving.end(signal.SIGKILL)
        serving = self.serve()
        self.assertIn("1 edit from the journal was not saved yet: it is there, to undo too.", serving.said)
        ben, ann = serving.log_in("Ben Ito"), serving.log_in("Ann")
        self.assertEqual(ann.refused("undo")["whose"]["editor"], "Ben Ito")
        self.assertEqual(ben.answer("undo"), "ok")

    def test_a_number_whose_steps_can_be_undone_is_nobody_elses(self):
        with Store(self.path, journal=True, program=PROGRAM) as store:
            store.add_layer("w", "point")
            store.editor(1).add("w", "POINT (1 1)")
            store.editor(3).add("w", "POINT (2 2)")
            store.editor(3).undo()
            store.close(save=False)
        serving = self.serve()
        ann, ben = serving.log_in("Ann"), serving.log_in("Ben")
        self.assertEqual((ann.editor, ben.editor), (2, 4))
        self.assertEqual(ann.refused("undo")["whose"]["editor"], "editor 1")
        self.assertEqual(ben.refused("redo")["whose"]["editor"], "editor 3")
        ben.line("save")
        # Nobody can undo what is saved.
        self.assertEqual(serving.log_in("Cid").editor, 1)

    def test_who_comes_once_the_names_are_gone_gets_nobodys_steps(self):
        serving = self.serve()
        serving.log_in("Ann").line("layer add w point")
        serving.end(signal.SIGKILL)
        self.path.with_name("town.sfs.editors").unlink()
        ben = self.serve().log_in("Ben")
        self.assertEqual((ben.editor, ben.refused("undo")["whose"]["editor"]), (2, "editor 1"))

    def test_what_is_no_name(self):
        serving = self.serve()
        link = link_of(serving.owners_address)
        for name in ("", "  ", "x" * 41, "a\0b", "\ud800", 5, None, ["Ann"]):
            body = json.dumps({"link": link, "name": name}).encode()
            self.assertEqual(serving.request("POST", "/login", body)[0], 400, name)
        serving.type("link " + "x" * 41)
        self.assertEqual(serving.read_line(), "A name has 1 to 40 letters.\n")
        self.assertEqual(serving.come_in(serving.owners_address, " Ann ").editor, 1)

    def test_there_is_room_for_255(self):
        serving = self.serve()
        for number in range(1, 256):
            self.assertEqual(serving.log_in(f"person {number}").editor, number)
        status, answer = serving.posted("/login", link=link_of(serving.address("one more")), name="one more")
        self.assertEqual((status, answer["error"]), (400, "There are 255 editors already."))

    def test_all_hear_of_an_edit_within_a_second(self):
        serving = self.serve()
        ann = serving.log_in("Ann")
        pages = [Listening(serving), Listening(serving)]
        for page in pages:
            self.addCleanup(page.close)
            self.assertEqual(page.next(), {"hello": True})
        began = time.monotonic()
        ann.line("layer add w point")
        for page in pages:
            told = page.next()
            self.assertEqual((told["editor"], told["line"]), ("Ann", "layer add w point"))
        self.assertLess(time.monotonic() - began, 1)
        ann.line("undo")
        told = pages[0].next()
        self.assertEqual((told["line"], told["step"]), ("undo", "layer add w point"))
        self.assertEqual((told["undo"], told["redo"]["line"]), (None, "layer add w point"))
        ann.line("save")
        self.assertEqual(pages[0].next()["saved"], "Ann")

    def test_someone_at_the_console(self):
        with Store(self.path, journal=True, program=PROGRAM) as store:
            store.add_layer("w", "point")
            store.close(save=False)
        serving = self.serve()
        refused = serving.log_in("Ann").refused("undo")
        self.assertEqual(refused["whose"]["editor"], "someone at the console")


class Maps(WebCase):
    """What windows show, and what is told of features."""

    def window(self, serving, box, *layers):
        return serving.call("/window", box=box, layers=list(layers))["layers"]

    def test_a_window_has_what_meets_it_in_drawing_order(self):
        self.make(
            b"layer add p polygon\nlayer add w any\nlayer move w 0\n"
            b"add p POLYGON ((0 0, 10 0, 10 10, 0 10, 0 0), (2 2, 2 4, 4 4, 2 2))\n"
            b"add w POINT (10 10)\nadd w POINT (11 11)\n"
            b"add w MULTILINESTRING ((-5 5, 20 5), (30 30, 31 31))\n"
        )
        serving = self.serve()
        shown = self.window(serving, [0, 0, 10, 10], "p", "w", "gone")
        square = [[0, 0, 10, 0, 10, 10, 0, 10, 0, 0], [2, 2, 2, 4, 4, 4, 2, 2]]
        points, lines = [1, 1, [[[10, 10]]]], [3, 5, [[[-5, 5, 20, 5]], [[30, 30, 31, 31]]]]
        self.assertEqual(shown[0], {"name": "w", "count": 2, "features": [points, lines]})
        self.assertEqual(shown[1], {"name": "p", "count": 1, "features": [[1, 3, [square]]]})
        self.assertEqual(self.window(serving, [10, 10, 10, 10], "w")[0]["features"], [points])
        self.assertEqual(self.window(serving, [-5, 5, -3, 5], "w")[0]["features"], [lines])

    def test_only_so_much_is_drawn_and_the_rest_counted(self):
        points = (f"add w POINT ({k} 0)\n" for k in range(ELEMENTS_MAX))
        self.make("".join(["layer add w point\nlayer add v point\nadd v POINT (5 5)\n", *points]).encode())
        serving = self.serve()
        w, v = self.window(serving, WHOLE, "w", "v")
        self.assertEqual((w["count"], w["features"]), (ELEMENTS_MAX, None))
        self.assertEqual(v["features"], [[1, 1, [[[5, 5]]]]])
        [w] = self.window(serving, WHOLE, "w")
        self.assertEqual(len(w["features"]), ELEMENTS_MAX)
        w, _ = self.window(serving, [0, 0, 9, 9], "w", "v")
        self.assertEqual(w["count"], len(w["features"]), 10)

    def test_boxes_that_are_none(self):
        serving = self.serve()
        serving.log_in("Ann")
        for box in ([0, 0, 1], [1, 0, 0, 0], [0, 0, 1, 1073741824], [0, 0, 1, 1.0], "0 0 1 1", None, [0, 0, True, 1]):
            body = json.dumps({"box": box, "layers": []}).encode()
            self.assertEqual(serving.request("POST", "/window", body)[0], 400, box)

    def test_how_far_a_map_reaches(self):
        serving = self.serve()
        ann = serving.log_in("Ann")
        self.assertIsNone(serving.call("/map", extent=True)["extent"])
        for line, extent in (
            ("layer add w any", None),
            ("add w POINT (-1073741824 3)", [-1073741824, 3, -1073741824, 3]),
            ("add w LINESTRING (5 1073741823, 6 0)", [-1073741824, 0, 6, 1073741823]),
            ("delete w 1", [5, 0, 6, 1073741823]),
            ("layer add v any", [5, 0, 6, 1073741823]),
            ("add v POINT (0 -1073741824)", [0, -1073741824, 6, 1073741823]),
        ):
            ann.line(line)
            self.assertEqual(serving.call("/map", extent=True)["extent"], extent, line)

    def test_how_far_reaches_what_is_scattered(self):
        rng = random.Random(37)
        with Store(program=PROGRAM) as store:
            store.add_layer("w", "point")
            places = [(int(rng.gauss(0, 90_000)), int(rng.gauss(9, 90_000))) for _ in range(3_000)]
            store.run_all(f"add w POINT ({x} {y})" for x, y in places)
            xs, ys = zip(*places)
            self.assertEqual(extent_of(store), (min(xs), min(ys), max(xs), max(ys)))
            store.run_all(f"delete w {1 << power}" for power in range(12))
            kept = [place for k, place in enumerate(places, 1) if k & (k - 1)]
            xs, ys = zip(*kept)
            self.assertEqual(extent_of(store), (min(xs), min(ys), max(xs), max(ys)))

    def test_rectangles_without_an_area(self):
        self.assertEqual(rectangle((1, 2, 1, 2)), "POINT (1 2)")
        self.assertEqual(rectangle((1, 2, 1, 5)), "LINESTRING (1 2, 1 5)")
        self.assertEqual(rectangle((1, 2, 3, 4)), "POLYGON ((1 2, 3 2, 3 4, 1 4, 1 2))")


class Values(WebCase):
    """The values of a feature, through whatever changes them."""

    def setUp(self):
        super().setUp()
        self.make(
            b"layer add w point\ncolumn add w n int\ncolumn add w t text\nadd w POINT (1 1)\nadd w POINT (2 2)\n"
            b"set w 1 n 12\nset w 1 t 'a=b ''c'' d=''e'\n"
        )
        self.serving = self.serve()
        self.ann = self.serving.log_in("Ann")

    def values(self, feature=1, layer="w"):
        told = self.serving.call("/feature", layer=layer, id=feature)["values"]
        return {column["name"]: column["value"] for column in told}

    def test_a_feature(self):
        told = self.serving.call("/feature", layer="w", id=1)
        self.assertEqual((told["wkt"], told["code"], told["members"]), ("POINT (1 1)", 1, [[[1, 1]]]))
        values = [{"name": "n", "type": "int", "value": "12"}, {"name": "t", "type": "text", "value": "a=b 'c' d='e"}]
        self.assertEqual(told["values"], values)
        self.assertEqual(self.values(2), {"n": None, "t": None})

    def test_values_of_each_type_are_texts_as_the_store_writes_them(self):
        given = {"decimal": "9007199254740993.5", "bool": "false", "date": "0001-01-01", "datetime": "2026-11-29T19:28:11.000Z"}
        for kind, word in given.items():
            self.assertEqual(self.ann.answer(f"column add w c_{kind} {kind}"), "ok")
            self.assertEqual(self.ann.answer(f"set w 1 c_{kind} {word}"), "ok")
        wanted = [{"name": f"c_{kind}", "type": kind, "value": word} for kind, word in given.items()]
        self.assertEqual(self.serving.call("/feature", layer="w", id=1)["values"][2:], wanted)
        self.assertEqual(self.ann.answer("set w 1 c_decimal 12.0"), "ok")
        self.assertEqual(self.values()["c_decimal"], "12")

    def test_what_changes_them(self):
        text = "a=b 'c' d='e"
        for line, values in (
            ("set w 1 n +013", {"n": "13", "t": text}),
            ("set w 1 n  -9223372036854775808 ", {"n": "-9223372036854775808", "t": text}),
            ("undo", {"n": "13", "t": text}),
            ("unset w 1 n", {"n": None, "t": text}),
            ("set w 1 t ''", {"n": None, "t": ""}),
            ("vertex move w 1 0 0 0 7 7", {"n": None, "t": ""}),
            ("column drop w n", {"t": ""}),
            ("column add w n text", {"t": "", "n": None}),
            ("set w 1 n 'né'", {"t": "", "n": "né"}),
            ("delete w 2", {"t": "", "n": "né"}),
            ("save", {"t": "", "n": "né"}),
        ):
            self.ann.line(line)
            self.assertEqual(self.values(), values, line)
        self.ann.line("layer rename w v")
        self.ann.line("layer add w point")
        self.ann.line("add w POINT (1 1)")
        self.assertEqual(self.values(), {})
        self.assertEqual(self.values(layer="v"), {"t": "", "n": "né"})

    def test_a_feature_that_is_deleted_and_comes_back(self):
        self.values()
        self.ann.line("delete w 1")
        self.assertEqual(self.serving.call("/feature", layer="w", id=1)["refused"]["number"], 21)
        self.ann.line("undo")
        self.assertEqual(self.values()["n"], "12")

    def test_what_is_no_feature(self):
        self.assertEqual(self.serving.call("/feature", layer="v", id=1)["refused"]["number"], 18)
        for layer, feature in (("w 1\nundo", 1), ("\ud800", 1), (None, 1), ("w", "1"), ("w", -1), ("w", 2**32)):
            body = json.dumps({"layer": layer, "id": feature}).encode()
            self.assertEqual(self.serving.request("POST", "/feature", body)[0], 400, (layer, feature))


class Programs(WebCase):
    """The programs behind: one with the store, and others that are only asked."""

    def slow_program(self):
        return self.script(SLOW.format(python=sys.executable, program=PROGRAM))

    def test_a_question_that_takes_long_stops_neither_the_store_nor_the_map(self):
        serving = self.serve("--seconds", "3", program=self.slow_program())
        ann, ben = serving.log_in("Ann"), serving.log_in("Ben")
        ann.line("layer add w point")
        ann.line("add w POINT (1 1)")
        ended = []

        def ask():
            ended.append(ben.posted("simple w 1", 0))

        asking = threading.Thread(target=ask)
        began = time.monotonic()
        asking.start()
        time.sleep(0.5)
        self.assertEqual(ann.answer("add w POINT (2 2)"), "ok 2")
        shown = serving.call("/window", box=[0, 0, 9, 9], layers=["w"])["layers"]
        self.assertEqual(shown[0]["count"], 2)
        self.assertLess(time.monotonic() - began, 3)
        asking.join()
        [(status, answer)] = ended
        self.assertEqual(status, 503)
        self.assertIn("more than 3 seconds", answer["error"])
        self.assertEqual(ben.line("query w intersects POINT (2 2)")["rows"], ["2"])
        self.assertEqual(ann.answer("undo"), "ok")
        self.assertEqual(ben.line("show w")["rows"], ["1 POINT (1 1)"])

    @unittest.skipUnless(sys.platform == "linux", "looks at processes")
    def test_programs_that_are_killed_are_begun_anew(self):
        serving = self.serve()
        ann = serving.log_in("Ann")
        ann.line("layer add w point")
        ann.line("add w POINT (1 1)")
        ann.line("show w")
        page = Listening(serving)
        self.addCleanup(page.close)
        page.next()
        children = self.programs(serving)
        # The store, and the second programs of the map and of the one question that was asked.
        self.assertEqual(len(children), 3)
        for child in children:
            os.kill(child, signal.SIGKILL)
        self.assertEqual(ann.serving.posted("/line", ann.key, page="p", line="add w POINT (2 2)")[0], 503)
        self.assertEqual(page.next(), {"anew": True})
        self.assertEqual(ann.line("show w")["rows"], ["1 POINT (1 1)"])
        self.assertEqual(ann.answer("add w POINT (2 2)"), "ok 2")
        self.assertEqual(ann.line("show w")["count"], 2)
        self.assertEqual([ann.answer("undo") for _ in range(3)], ["ok"] * 3)

    def test_second_programs_follow_through_saves_and_undoing(self):
        serving = self.serve()
        ann = serving.log_in("Ann")
        ann.line("layer add w point")
        rng = random.Random(5)
        for k in range(60):
            line = rng.choice(["add w POINT (1 1)", "undo", "redo", "save" if k % 7 == 0 else "undo"])
            ann.line(line)
            rows = ann.line("show w")
            shown = serving.call("/window", box=WHOLE, layers=["w"])["layers"]
            count = shown[0]["count"] if shown else None
            self.assertEqual(rows.get("count"), count)
        serving.end()
        with Store(self.path, journal=True, program=PROGRAM) as store:
            kept = [len(store.show(layer.name)) for layer in store.layers()]
        self.assertEqual(kept, [] if count is None else [count])

    def test_the_steps_are_those_of_the_program(self):
        rng = random.Random(36)
        with Store(program=PROGRAM) as store:
            steps = Steps(["@9 layer add w point"])
            store.editor(9).add_layer("w", "point")
            for k in range(600):
                editor = rng.randrange(3)
                line = rng.choice(["undo", "redo", f"add w POINT ({k} 0)"])
                next_step = {"undo": steps.to_undo, "redo": steps.to_redo}.get(line)
                try:
                    (store.editor(editor) if editor else store).run(line)
                except Refused as refused:
                    wanted = 36 if next_step else {"undo": 29, "redo": 30}[line]
                    self.assertEqual(refused.number, wanted)
                    self.assertNotEqual(next_step and next_step.editor, editor)
                    continue
                moved = steps.take(editor, line)
                self.assertEqual(moved.editor, editor)
                self.assertIn(next_step, (None, moved))

    def test_steps_of_a_journal(self):
        steps = Steps(["layer add w point", "@2 add w POINT (1 1)", " @03\tadd w POINT (2 2)", "@3 undo"])
        self.assertEqual(steps.to_undo[:2], (2, "add w POINT (1 1)"))
        self.assertEqual(steps.to_redo[:2], (3, "add w POINT (2 2)"))


class Ending(WebCase):
    """How it begins and ends, and what is kept."""

    def test_ctrl_c_ends_it_and_everything_is_in_the_journal(self):
        for number, count in ((signal.SIGINT, "1 edit is"), (signal.SIGTERM, "2 edits are")):
            serving = self.serve()
            page = Listening(serving)
            page.next()
            ann = serving.log_in("Ann")
            ann.line(f"layer add w{number} point")
            ann.line("show w")
            self.assertEqual((serving.end(number), serving.errors), (0, ""))
            self.assertIn(f"{count} in {self.path}.journal, and there", serving.said)
            page.close()
        with Store(self.path, journal=True, program=PROGRAM) as store:
            self.assertEqual([layer.name for layer in store.layers()], ["w2", "w15"])

    def test_nothing_answered_is_lost_by_a_kill(self):
        for k in range(5):
            serving = self.serve()
            ann = serving.log_in("Ann")
            if k == 0:
                ann.line("layer add w point")
            self.assertEqual(ann.answer(f"add w POINT ({k} {k})"), f"ok {k + 1}")
            serving.end(signal.SIGKILL)
        serving = self.serve()
        self.assertIn("6 edits from the journal", serving.said)
        self.assertEqual(serving.log_in("Ann").line("show w")["count"], 5)

    def failed(self, path, *words):
        words = [sys.executable, "-m", "sfstore.web.command", str(path), f"--program={PROGRAM}", "--no-browser", *words]
        ended = subprocess.run(words, env=self.environment(), capture_output=True, text=True, timeout=60)
        self.assertEqual((ended.returncode, ended.stdout), (3, ""))
        return ended.stderr

    def environment(self):
        return {**os.environ, "PYTHONPATH": str(test_sfstore.FOLDER)}

    def test_what_does_not_open(self):
        self.path.write_bytes(b"nothing of the kind")
        self.assertIn("does not load: place 0", self.failed(self.path))
        self.assertIn("No such file", self.failed(self.folder / "no" / "such.sfs"))
        other = self.folder / "other.sfs"
        serving = self.serve(path=other)
        self.assertIn("is open in another session", self.failed(other))
        third = self.folder / "third.sfs"
        self.assertIn("Address already in use", self.failed(third, f"--port={serving.port}"))
        (self.folder / "third.sfs.editors").write_text("{")
        self.assertIn("third.sfs.editors can't be read", self.failed(third))
        with self.assertRaises(JournalError):
            Store(other, journal=True, program=PROGRAM)

    def test_a_missing_part_of_python_is_told_in_a_sentence(self):
        self.make(b"layer add w point\n")
        code = f"import sys; sys.modules['h11'] = None\nfrom sfstore.web.command import main\nsys.exit(main([{str(self.path)!r}]))"
        ended = subprocess.run([sys.executable, "-c", code], env=self.environment(), capture_output=True, text=True, timeout=60)
        self.assertEqual((ended.returncode, ended.stdout), (3, ""))
        self.assertEqual(ended.stderr, "sfstore-web: the page needs h11 for Python (Debian's package python3-h11)\n")

    def test_what_stands_beside_and_can_not_be_read_is_told_in_words(self):
        self.make(b"layer add w point\n")
        for ending, data, why in (
            (".editors", b"{", " can't be read: Expecting"),
            (".editors", b"[1]", " has no list of names"),
            (".editors", None, " can't be read: Is a directory"),
            (".batches", None, ": Is a directory"),
        ):
            with self.subTest(ending=ending, data=data):
                beside = self.path.with_name(self.path.name + ending)
                if data is None:
                    beside.mkdir()
                else:
                    beside.write_bytes(data)
                self.assertIn(f"sfstore-web: {beside}{why}", self.failed(self.path))
                beside.rmdir() if data is None else beside.unlink()

    def test_help(self):
        words = [sys.executable, "-m", "sfstore.web.command", "--help"]
        said = subprocess.run(words, env=self.environment(), capture_output=True, text=True, check=True)
        self.assertIn("usage: sfstore-web", said.stdout)


class Guards(WebCase):
    """What is not answered, or not carried out, whoever asks."""

    def setUp(self):
        super().setUp()
        self.serving = self.serve()
        self.ann = self.serving.log_in("Ann")
        self.body = json.dumps(self.ann.body("layer add w point")).encode()

    def tearDown(self):
        self.assertEqual(self.serving.call("/map")["layers"], [])

    def status(self, method, path, body=None, **changed):
        status, headers, data = self.serving.request(method, path, body, **changed)
        self.assertIn("default-src 'none'", headers["Content-Security-Policy"])
        self.assertIsNone(headers["Set-Cookie"])
        self.assertNotIn(self.serving.key.encode(), data)
        return status

    def test_without_the_key(self):
        key = self.serving.key
        for given in (None, "", "x", "Bearer", "Bearer ", "Bearer x", f"Bearer {key}x", f"Basic {key}", key, "é=ü"):
            for method, path, body in (("GET", "/events", None), ("POST", "/line", self.body), ("POST", "/map", b"{}")):
                status = self.status(method, path, body, Authorization=given)
                self.assertEqual(status, 403, (given, path))
        self.assertEqual(self.status("POST", "/line?key=" + key, self.body, Authorization=None), 403)
        self.assertEqual(self.status("POST", "/line", self.body, Authorization=None, Cookie=f"key={key}"), 403)

    def test_the_files_of_the_page_are_for_all(self):
        for path in ("/", "/page.js", "/icon.svg"):
            self.assertEqual(self.status("GET", path, Authorization=None, Origin=None), 200)

    def test_of_another_host_or_page(self):
        port = self.serving.port
        for host in ("evil.example", f"evil.example:{port}", "127.0.0.1", f"127.0.0.1:{port}.evil.example", "", None):
            for method, path in (("GET", "/"), ("POST", "/line"), ("POST", "/login"), ("GET", "/events")):
                body = self.body if method == "POST" else None
                # A request without a host is none.
                self.assertEqual(self.status(method, path, body, Host=host), 400 if host is None else 403, (host, path))
        for origin in ("http://evil.example", "null", f"https://127.0.0.1:{port}", f"http://localhost:{port}", ""):
            self.assertEqual(self.status("POST", "/line", self.body, Origin=origin), 403, origin)
            self.assertEqual(self.status("GET", "/page.js", Origin=origin), 403, origin)
        self.assertEqual(self.status("POST", "/line", self.body, Origin=None), 403)
        host = f"localhost:{port}"
        self.assertEqual(self.status("GET", "/", Host=host, Origin=f"http://{host}"), 200)

    def test_it_listens_on_the_loopback_alone(self):
        addresses = {found[4][0] for found in socket.getaddrinfo(socket.gethostname(), None, socket.AF_INET)}
        for address in addresses - {"127.0.0.1"}:
            if address.startswith("127."):
                continue
            with self.assertRaises(OSError):
                socket.create_connection((address, self.serving.port), timeout=5).close()

    def test_no_path_names_a_file(self):
        paths = ("/../town.sfs", "/town.sfs", "/%2e%2e/town.sfs", "//etc/passwd", "/page.html", "/server.py", "/.", "*")
        for path in paths:
            self.assertEqual(self.status("GET", path), 404, path)
            self.assertEqual(self.status("POST", path, b"{}"), 404, path)
        for path in ("/page.js?x", "/page.js/", "http://evil.example/page.js", "/line", "/static/page.js"):
            self.assertEqual(self.status("GET", path), 404, path)

    def test_other_methods(self):
        for method in ("PUT", "DELETE", "OPTIONS", "TRACE", "CONNECT", "PATCH", "HEAD"):
            self.assertEqual(self.status(method, "/line"), 501, method)

    def test_calls_that_are_none(self):
        bodies = [b"", b"{", b"[]", b'"x"', b"\xff", b"1" * 5_000, b"[" * 100_000, b"{}", b'{"page": "x"}']
        for body in [*bodies, b'{"page": "x", "line": 5}']:
            self.assertEqual(self.status("POST", "/line", body), 400, body[:20])
        lines = ["layer add w point\nlayer add v point", "\ud800", "layer add w point\n"]
        for line in lines:
            body = json.dumps(self.ann.body(line)).encode()
            self.assertEqual(self.status("POST", "/line", body), 400, line)
        for page in ("", "x" * 65, 5, None):
            body = json.dumps({"page": page, "line": "layer add w point", "seen": 0}).encode()
            self.assertEqual(self.status("POST", "/line", body), 400, page)
        for seen in (None, -1, "1", 1.0, True):
            body = json.dumps({"page": "x", "line": " set\tw 007 n 5", "seen": seen}).encode()
            self.assertEqual(self.status("POST", "/line", body), 400, seen)
        for kind in (None, "text/plain", "application/x-www-form-urlencoded", "multipart/form-data"):
            self.assertEqual(self.status("POST", "/line", self.body, Content_Type=kind), 415, kind)

    def test_words_are_parted_as_the_program_parts_them(self):
        self.ann.answer("layer add w point")
        for line in ("save\u00a0", "\u00a0save", "save\u2003", "save\x1f", "help\u00a0add", "\u00a0"):
            self.assertEqual(self.ann.refused(line)["number"], 31, ascii(line))
        # Nothing was saved: there is a history.
        self.assertEqual(self.ann.answer("undo"), "ok")
        self.assertIn("is saved", self.ann.line(" save\t\r")["text"])
        self.assertEqual(self.ann.refused("undo")["number"], 29)

    def test_the_size_of_a_call(self):
        too_long = b" " * (1 << 23) + self.body
        self.assertEqual(self.status("POST", "/line", b"", Content_Length=str(len(too_long))), 413)
        self.assertEqual(self.status("POST", "/line", b"", Content_Length="9" * 5_000), 413)
        body = json.dumps(self.ann.body("layer add two point")).encode()
        for second, status in ((0, b"400"), (len(body) + 1, b"400"), (len(body), b"200")):
            # One length that stands twice is one.
            head = (
                f"POST /line HTTP/1.1\r\nHost: {self.serving.host}\r\nOrigin: http://{self.serving.host}\r\n"
                f"Authorization: Bearer {self.serving.key}\r\nContent-Type: application/json\r\n"
                f"Content-Length: {len(body)}\r\nContent-Length: {second}\r\n\r\n"
            )
            with socket.create_connection(("127.0.0.1", self.serving.port), 10) as connection:
                connection.sendall(head.encode() + body)
                self.assertTrue(connection.recv(4096).startswith(b"HTTP/1.1 " + status))
            self.assertEqual("two" in str(self.ann.line("layers")), status == b"200")
        self.ann.answer("undo")
        for length in ("-1", "x", "", "１", "0x10", "1 1", "1,2"):
            self.assertEqual(self.raw(length), b"400", length)
        self.assertEqual(self.status("POST", "/line", b"", Transfer_Encoding="chunked", Content_Length="1"), 411)

    def raw(self, length):
        """The status of a call with a length that no client would send."""
        head = (
            f"POST /line HTTP/1.1\r\nHost: {self.serving.host}\r\nOrigin: http://{self.serving.host}\r\n"
            f"Authorization: Bearer {self.serving.key}\r\n"
            f"Content-Type: application/json\r\nContent-Length: {length}\r\n\r\n"
        )
        return self.sent(head.encode() + self.body).split(b" ")[1]

    def sent(self, data):
        """What is answered to bytes."""
        with socket.create_connection(("127.0.0.1", self.serving.port), timeout=30) as connection:
            connection.sendall(data)
            connection.shutdown(socket.SHUT_WR)
            found = b""
            while part := connection.recv(65536):
                found += part
        return found

    def test_bytes_that_are_no_request(self):
        host = self.serving.host.encode()
        for data in (
            b"\0\1\2\3\r\n\r\n",
            b"\x16\x03\x01\x02\x00\x01\x00\x01\xfc\x03\x03" + bytes(200),
            b"GET\r\n\r\n",
            b"GET / HTTP/9.9\r\n\r\n",
            b"GET / HTTP/1.1\r\n" + b"X: y\r\n" * 200 + b"\r\n",
            b"GET /" + b"x" * 70_000 + b" HTTP/1.1\r\n\r\n",
            b"GET / HTTP/1.1\r\nHost: " + host + b"\r\nHost: " + host + b"\r\n\r\n",
            b"GET / HTTP/1.1\r\nHost: " + host + b"\r\nOrigin: http://" + host + b"\r\nOrigin: x\r\n\r\n",
            b"GET <script>alert(1)</script> HTTP/1.1\r\n\r\n",
        ):
            found = self.sent(data)
            self.assertNotIn(b" 200 ", found.partition(b"\n")[0], data[:40])
            self.assertNotIn(b"text/html", found)
        self.assertEqual(self.sent(b""), b"")

    def test_heads_that_are_none(self):
        host = f"Host: {self.serving.host}\r\n".encode()
        lines = [b"X", b"X : y", b": y", b"X y", b"X(: y", b"X\x01: y", b"X: a\0b", b"X: a\rb", b"X: \x0b", b"\xc3\xa9: y"]
        lines += [b"Content-Length: 5\r\nContent-Length: 6", b"Content-Length: x", b"Transfer-Encoding: gzip, chunked"]
        lines += [b"Transfer-Encoding: chunked\r\nTransfer-Encoding: chunked", b"X: " + b"y" * 200_000]
        heads = [b"GET / HTTP/1.1\r\n" + host + line + b"\r\n\r\n" for line in lines]
        firsts = (b"GET  / HTTP/1.1", b"GET / HTTP/1.1 ", b" GET / HTTP/1.1", b"GET / HTTP/1", b"GET /\0 HTTP/1.1", b"G(T / HTTP/1.1", b"GET /")
        heads += [first + b"\r\n" + host + b"\r\n" for first in firsts]
        for head in heads:
            found = self.sent(head)
            self.assertRegex(found, rb"^HTTP/1\.1 (400|431|501) ", head[:80])
            self.assertIn(b"\r\nConnection: close\r\n", found)

    def test_several_requests_on_one_connection(self):
        host = self.serving.host
        get = f"GET /icon.svg HTTP/1.1\r\nHost: {host}\r\n\r\n".encode()
        call = f"POST /me HTTP/1.1\r\nHost: {host}\r\nOrigin: http://{host}\r\nAuthorization: Bearer {self.serving.key}\r\n"
        call += "Content-Type: application/json\r\nContent-Length: 2\r\nExpect: 100-continue\r\n\r\n{}"
        found = self.sent(get + call.encode() + get)
        self.assertEqual([found.count(b"HTTP/1.1 200 OK\r\n"), found.count(b"</svg>"), found.count(b'"name":"Ann"')], [3, 2, 1])
        # A client that waits for it is told to go on.
        with socket.create_connection(("127.0.0.1", self.serving.port), timeout=30) as connection:
            connection.sendall(call.encode()[:-2])
            self.assertEqual(connection.recv(4096), b"HTTP/1.1 100 \r\n\r\n")
            connection.sendall(b"{}")
            self.assertTrue(connection.recv(4096).startswith(b"HTTP/1.1 200 OK\r\n"))
        # A body of a GET is not read as another request.
        found = self.sent(get.replace(b"\r\n\r\n", f"\r\nContent-Length: {len(get)}\r\n\r\n".encode()) + get)
        self.assertEqual((found[:13], found.count(b"HTTP/1.1 ")), (b"HTTP/1.1 400 ", 1))
        # An older client has its answer and is left.
        found = self.sent(get.replace(b"HTTP/1.1", b"HTTP/1.0") + get)
        self.assertEqual(found.count(b"</svg>"), 1)

    def test_two_requests_in_one(self):
        # What is behind a request that is refused is not read as another one.
        inner = f"POST /line HTTP/1.1\r\nHost: {self.serving.host}\r\n\r\n".encode()
        head = f"POST /line HTTP/1.1\r\nHost: evil.example\r\nContent-Length: {len(inner)}\r\n\r\n".encode()
        found = self.sent(head + inner)
        self.assertEqual(found.count(b"HTTP/1.1 "), 1)
        self.assertIn(b" 403 ", found)

    def test_many_connections_that_say_nothing_or_little(self):
        for k in range(300):
            connection = socket.create_connection(("127.0.0.1", self.serving.port), timeout=30)
            self.addCleanup(connection.close)
            if k % 2:
                connection.sendall(b"GET / HTTP/1.1\r\nX: ")
        # While they are all held.
        for _ in range(5):
            self.assertEqual(self.status("GET", "/"), 200)

    def test_nothing_of_the_page_is_inline_or_from_elsewhere(self):
        _, headers, page = self.serving.request("GET", "/")
        policy = headers["Content-Security-Policy"]
        self.assertNotIn("unsafe", policy)
        self.assertNotIn("http", policy)
        for text in (b"<style", b"style=", b"onclick", b"http://", b"https://", b"javascript:"):
            self.assertNotIn(text, page)
        folder = test_sfstore.FOLDER / "sfstore" / "web" / "static"
        for script in folder.glob("*.js"):
            text = script.read_text()
            for word in ("innerHTML", "outerHTML", "insertAdjacentHTML", "document.write", "eval(", "Function("):
                self.assertNotIn(word, text, script)


if __name__ == "__main__":
    unittest.main()
