"""Tests of the tools of those who draw maps at the page's calls: with others who edit meanwhile."""

from __future__ import annotations

import json
import shutil
import subprocess
import threading
import unittest
from pathlib import Path

from support import PROGRAM, TestCase
from web_support import WebCase

import sfstore.web
from sfstore import Store
from sfstore.web.batches import Batch
from sfstore.web.keeper import Keeper, Overtaken

LEFT, RIGHT = "POLYGON ((0 0, 10 0, 10 10, 0 10, 0 0))", "POLYGON ((10 0, 20 0, 20 10, 10 10, 10 0))"
MOVED = "border p 1 2 LINESTRING (10 0, 12 5, 10 10)"

# What is begun with a tool while one version of the store is shown, and ended while another one is: the word of each line,
# and what it says was seen.
BEGUN = """
globalThis.document = { querySelectorAll: () => [], getElementById: () => ({}) };
const { Drawing } = await import("./drawing.js");
const { Hand } = await import("./hand.js");
const sent = [];
const app = {
  version: 1, selection: { place: { layer: "p", id: 1 } }, tell() {}, overlay: { show() {} },
  place: { units: { point: (point) => point.join(" ") } }, view: { svg: { dataset: {} }, scale: 1, toPlane: (x, y) => [x, y] },
  map: { snap: (x, y) => [x, y], pick: () => ({ layer: "p", id: 2 }) },
  run: (line, { seen = app.version } = {}) => sent.push([line.split(" ")[0], seen]),
};
app.drawing = new Drawing(app);
app.hand = new Hand(app);
const click = (...place) => app.hand.click({}, place);
for (const [tool, clicks] of [["split", 2], ["hole", 3], ["node", 1], ["border", 3]]) {
  app.version = 10;
  app.hand.setTool(tool);
  for (let at = 0; at < clicks; at += 1) {
    click(at, at * at);
    app.version += 1;
  }
  if (tool === "node") click(7, 7);
  else app.hand.finish();
}
// What was given up is begun anew.
app.hand.setTool("split");
click(0, 0);
app.hand.giveUp();
app.version = 20;
click(0, 0);
click(1, 0);
app.hand.finish();
app.version = 30;
app.hand.setTool("merge");
click(0, 0);
console.log(JSON.stringify(sent));
"""


@unittest.skipUnless(shutil.which("node"), "no node")
class Begun(TestCase):
    def test_what_is_changed_while_something_is_drawn_was_not_seen(self):
        for script in (Path(sfstore.web.__file__).parent / "static").glob("*.js"):
            shutil.copy(script, self.folder)
        (self.folder / "package.json").write_text('{"type": "module"}')
        (self.folder / "begun.js").write_text(BEGUN)
        ended = subprocess.run(["node", self.folder / "begun.js"], stdout=subprocess.PIPE, check=True)
        begun = [["split", 10], ["hole", 10], ["node", 10], ["border", 10], ["split", 20], ["merge", 30]]
        self.assertEqual(json.loads(ended.stdout), begun)


class Drawn(WebCase):
    def setUp(self):
        super().setUp()
        self.make(f"layer add p polygon\ncolumn add p owner text\nadd p {LEFT}\nadd p {RIGHT}\nset p 1 owner 'Dunn'\n".encode())
        self.serving = self.serve()
        self.ann, self.ben = self.serving.log_in("Ann"), self.serving.log_in("Ben")

    def shown(self):
        return self.ann.line("show p")["rows"]

    def test_each_tool_is_one_step(self):
        before = self.shown()
        for line, answer, changed, count in (
            ("split p 1 LINESTRING (4 -1, 5 11)", "ok 3", "p 1", 3),
            ("merge p 1 2", "ok", "p 1, p 2", 1),
            ("node 10 10 to 11 12", "ok", "p 1, p 2", 2),
            (MOVED, "ok", "p 1, p 2", 2),
            ("hole p 1 POLYGON ((2 2, 4 2, 4 4, 2 2))", "ok", "p 1", 2),
        ):
            self.assertEqual(self.ann.line(line), {"answer": answer, "changed": changed}, line)
            self.assertEqual(len(self.shown()), count, line)
            self.assertNotEqual(self.shown(), before)
            self.ann.line("undo")
            self.assertEqual(self.shown(), before, line)
        self.ann.line("hole p 1 POLYGON ((2 2, 8 2, 8 8, 2 2))")
        self.assertEqual(self.ann.line("fill p 1 5 4"), {"answer": "ok", "changed": "p 1"})

    def test_values_go_along(self):
        self.ann.line("split p 1 LINESTRING (4 -1, 5 11)")
        self.assertEqual([row.partition(")) ")[2] for row in self.shown()], ["owner='Dunn'", "", "owner='Dunn'"])

    def test_a_preview_does_nothing(self):
        before = self.shown()
        told = self.ann.line(f"preview {MOVED}")["text"]
        self.assertIn("p 1: area 100 of 5 points before, area 110 of 6 points after", told)
        self.assertEqual(self.shown(), before)

    def test_what_makes_nothing_says_where(self):
        told = self.ann.line("border p 1 2 LINESTRING (10 0, 12 5)")["undone"]
        self.assertEqual(told["points"], [[12.0, 5.0]])
        self.assertIn("leads to no border at (12 5)", told["words"])
        self.assertEqual(self.ann.line("merge p 1 9")["refused"]["name"], "NoFeature")
        self.assertEqual(self.ann.line("split p 1 LINESTRING (4 4, 4 4)")["refused"]["name"], "ShortLine")
        looks = "preview snap", "preview snap p within 3", "preview  clean p within 3"
        for line in ("split p", "node 1 2", "merge p 1 x", *looks, "preview save"):
            status, answer = self.ann.posted(line, 2**53 - 1)
            self.assertEqual(status, 400, line)

    def test_a_rule_that_would_be_broken_is_named(self):
        self.ann.line("layer add b polygon")
        self.ann.line("add b POLYGON ((3 3, 6 3, 6 6, 3 6, 3 3))")
        self.ann.line("rule add housed each b within some p")
        before = self.shown()
        refused = self.ann.line("split p 1 LINESTRING (4 -1, 5 11)")["refused"]
        self.assertEqual((refused["name"], refused["broken"]["features"][0]["id"]), ("RuleBroken", 1))
        self.assertEqual(self.shown(), before)

    def test_who_was_there_before(self):
        """Of a feature that a tool changes, and of one beside it that its user has not named."""
        seen = self.ben.feature("p", 1)["version"]
        self.ann.line("vertex insert p 2 0 0 1 15 -2")
        status, answer = self.ben.posted(MOVED, seen)
        self.assertEqual((status, answer), (409, {"error": "Ann changed p 2 meanwhile: look again."}))
        self.ann.line("undo")
        status, _ = self.ben.posted("split p 1 LINESTRING (4 -1, 5 11)", seen)
        self.assertEqual(status, 200)
        status, answer = self.ann.posted("node 10 10 to 11 12", seen)
        self.assertEqual((status, answer), (409, {"error": "Ben changed p 1 meanwhile: look again."}))
        status, answer = self.serving.posted("/line", self.ben.key, page="page", line=MOVED)
        self.assertEqual(status, 400)

    def test_coordinates_in_units_of_the_map_without_a_grid_are_steps(self):
        status, answer = self.serving.posted("/line", self.ann.key, page="page", line=MOVED, seen=self.ann.feature("p", 1)["version"], units="map")
        self.assertEqual((status, answer), (200, {"answer": "ok", "changed": "p 1, p 2"}))

    def test_features_of_other_layers_are_named(self):
        """A layer may be turned off on the page of whoever moves the corner."""
        for line in "layer add hid linestring", "add hid LINESTRING (10 10, 30 30)":
            self.ann.line(line)
        self.assertEqual(self.ann.line("node 10 10 to 11 11"), {"answer": "ok", "changed": "p 1, p 2, hid 1"})

    def test_of_many_some_are_named(self):
        self.ann.line("layer add l linestring")
        self.ann.line("\r".join(["together 40", *(f"add l LINESTRING (100 100, {100 + at} 200)" for at in range(40))]))
        changed = ", ".join(f"l {at}" for at in range(1, 21))
        self.assertEqual(self.ann.line("node 100 100 to 101 99"), {"answer": "ok", "changed": f"{changed}, and 20 more"})

    def test_help_has_them(self):
        self.assertIn("border LAYER ID ID WKT", self.ann.line("help border")["text"])
        self.assertIn("split LAYER ID WKT", self.ann.line("help")["text"])

    def test_many_at_once_leave_no_gap(self):
        """Both move the same corners: each of them in all parcels, or in none."""
        def moving(person, far):
            for at in range(10):
                person.posted(f"node {10 + at % 2 * far} {10 + at % 2} to {10 + (at + 1) % 2 * far} {10 + (at + 1) % 2}", person.feature("p", 1)["version"])

        threads = [threading.Thread(target=moving, args=(person, 1)) for person in (self.ann, self.ben)]
        for thread in threads:
            thread.start()
        for thread in threads:
            thread.join()
        corners = {row.split("(10 0, 20 0, 20 10, ")[-1].split(",")[0] for row in self.shown()[1:]}
        self.assertEqual(len(corners), 1)
        self.assertIn(f" {corners.pop()}, 0 10", self.shown()[0])


class Fitting(WebCase):
    """Corners that a program names with its batch."""

    LOWER, UPPER = "POLYGON ((0 0, 7 30, -20 30, 0 0))", "POLYGON ((0 0, 30 0, 7 30, 0 0))"
    LINES = ("replace p 1 POLYGON ((0 0, 2 10, -20 30, 0 0))", "add p POLYGON ((2 10, 7 30, -20 30, 2 10))")
    CORNER = ("7/3", "10", 2, 10)

    def setUp(self):
        super().setUp()
        self.make(f"layer add p polygon\nadd p {self.LOWER}\nadd p {self.UPPER}\nrule add apart never p T******** p\n".encode())
        self.serving = self.serve()
        self.ann, self.ben = self.serving.log_in("Ann"), self.serving.log_in("Ben")

    def batch(self, person, lines=LINES, corners=(CORNER,), shown=None, **more):
        version = person.version()
        body = {"page": "page", "lines": list(lines), "seen": [version, None][: len(lines)], "corners": list(map(list, corners))}
        return self.serving.posted("/batch", person.key, **body, shown=version if shown is None else shown, **more)

    def test_they_go_into_what_is_beside(self):
        status, answer = self.batch(self.ann)
        self.assertEqual((status, answer["answers"], answer["beside"]), (200, ["ok", "ok 3"], [["p", 2]]))
        self.assertEqual(self.ann.line("get p 2")["rows"], ["2 POLYGON ((0 0, 30 0, 7 30, 2 10, 0 0))"])
        self.ann.line("undo")
        self.assertEqual(self.ann.line("show p")["rows"], [f"1 {self.LOWER}", f"2 {self.UPPER}"])
        # Without them the half and the neighbour do not fit.
        self.assertEqual(self.batch(self.ann, corners=())[0], 200)

    def test_who_has_changed_what_is_beside_was_there_before(self):
        shown = self.ann.version()
        self.ben.line("vertex insert p 2 0 0 1 15 -3")
        self.assertEqual(self.batch(self.ann, shown=shown), (409, {"error": "Ben changed p 2 meanwhile: look again."}))
        self.assertEqual(self.batch(self.ann)[0], 200)

    def test_what_is_refused_names_its_line(self):
        status, answer = self.batch(self.ann, [self.LINES[0], "add p POLYGON ((2 10, 7 30, 2 10))"])
        self.assertEqual((answer["refused"]["name"], answer["refused"]["line"]), ("ShortRing", 1))
        status, answer = self.batch(self.ann, [self.LINES[0], "add p POLYGON ((2 10, 29 1, -20 30, 2 10))"])
        self.assertEqual(answer["refused"]["name"], "RuleBroken")

    def test_no_edit_of_a_vertex_is_lost(self):
        version = self.ann.version()
        body = {"page": "page", "corners": [list(self.CORNER)], "shown": version}
        for line in ("vertex move p 2 0 0 1 40 0", " vertex\tremove p 2 0 0 1", "vertex insert p 2 0 0 1 15 -3"):
            lines, seen = [line, *self.LINES], [version, version, None]
            status, answer = self.serving.posted("/batch", self.ann.key, **body, lines=lines, seen=seen)
            self.assertEqual((status, answer["error"][:43]), (400, "a batch with corners has no lines that edit"), line)
        self.assertEqual(self.ann.line("show p")["rows"], [f"1 {self.LOWER}", f"2 {self.UPPER}"])

    def test_corners_that_are_none(self):
        for corner in (["7/3", "10", 2], ["x", "10", 2, 10], ["7/0", "10", 2, 10], [2.5, "10", 2, 10], ["7/3", "10", 2.5, 10], ["7/3", "10", 2**40, 10], 7):
            body = {"page": "page", "lines": list(self.LINES), "seen": [self.ann.version(), None], "corners": [corner], "shown": self.ann.version()}
            self.assertEqual(self.serving.posted("/batch", self.ann.key, **body)[0], 400, corner)
        body["corners"] = [list(self.CORNER)] * 501
        self.assertEqual(self.serving.posted("/batch", self.ann.key, **body)[0], 400)


class Overtaking(TestCase):
    def test_what_was_made_for_another_version_is_not_carried_out(self):
        with Store(save=self.folder / "w.sfs", program=PROGRAM) as store:
            store.add_layer("w")
        keeper = Keeper(str(self.folder / "w.sfs"), PROGRAM)
        self.addCleanup(keeper.close)
        version = keeper.steps()[0]
        batch = Batch(1, "page", ["add w POINT (1 1)", "add w POINT (2 2)"], [None, None])
        keeper.carry_out_all(batch, version)
        self.assertRaises(Overtaken, keeper.carry_out_all, batch, version)
        self.assertEqual(keeper.ask(lambda store: len(store.show("w"))), 2)
