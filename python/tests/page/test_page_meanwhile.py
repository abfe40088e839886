"""Tests of the page in a browser: what others do meanwhile, and who somebody is."""

from __future__ import annotations

import http.server
import os
import signal
import subprocess
import threading
import time
import unittest
from concurrent.futures import ThreadPoolExecutor
from functools import partial

from support import PROGRAM
from test_page import PageCase

from sfstore import Store, files, sidecar
from sfstore.values import spelled
from sfstore.web.client import Client

# Does a line as somebody else, and lets go of what is held by a key, before anything of it can be heard.
BEHIND = """
const [key, line, seen] = arguments, request = new XMLHttpRequest();
request.open("POST", "line", false);
request.setRequestHeader("Authorization", `Bearer ${key}`);
request.setRequestHeader("Content-Type", "application/json");
request.send(JSON.stringify({ page: "other", line, seen }));
document.activeElement.dispatchEvent(new KeyboardEvent("keydown", { key: "Enter", bubbles: true }));
return request.status;
"""
# Does lines so.
ALL_BEHIND = BEHIND.replace('"line"', '"batch"').replace("line, seen })", "lines: line, seen: line.map(() => null) })")
# Notes what the page asks of the server from now on.
NOTING = """
const whole = window.fetch;
window.asked = [];
window.fetch = (path, words) => (window.asked.push(path), whole(path, words));
"""
# Notes the store that each call names.
NAMING = """
const whole = window.fetch;
window.named = [];
window.fetch = (path, words) => (words.body && window.named.push([path, JSON.parse(words.body).store]), whole(path, words));
"""
KEPT = "return [Object.keys(JSON.parse(localStorage['sfstore-keys'])), document.cookie, location.href]"


class Meanwhile(PageCase):
    """Two people at one feature."""

    def two(self):
        """A page with a parcel that is large on it, and somebody else."""
        page = self.open("Ben")
        self.ann = self.serving.log_in("Ann")
        page.choose((270, 150), "parcels 2, a polygon")
        page.use("#go")
        page.until(lambda: page.script("return document.getElementById('world').getCTM().a") > 1)
        return page

    def told(self, page, words):
        page.until(lambda: page.text("#refusal h2") == words and not page.one("#refusal").get_property("hidden"))

    def wkt(self):
        return self.ann.feature("parcels", 2)["wkt"]

    def test_a_drag_is_given_up_when_its_feature_changes(self):
        page = self.two()
        mouse = page.mouse()
        pointer = mouse.pointer_action
        pointer.move_to_location(*page.place((360, 300))).pointer_down()
        for point in ((365, 305), (370, 310)):
            pointer.move_to_location(*page.place(point))
        mouse.perform()
        page.until(lambda: page.one("#overlay .sketch").get_attribute("d"))
        self.ann.line("vertex insert parcels 2 0 0 1 270 -20")
        self.told(page, "Ann changed parcels 2 meanwhile: look again.")
        self.assertFalse(page.one("#overlay .sketch").get_attribute("d"))
        mouse = page.mouse()
        mouse.pointer_action.move_to_location(*page.place((380, 320))).pointer_up()
        mouse.perform()
        # A further edit is answered after whatever the drag may have sent.
        page.type("set parcels 2 owner 'Ito'", "ok")
        self.assertEqual(self.wkt(), "POLYGON ((180 0, 270 -20, 360 0, 360 300, 180 300, 180 0))")
        self.assertIn("vertex move parcels 2 0 0 2 3", "".join(line for line, _ in page.log()))
        page.drag((360, 300), (370, 310))
        page.until(lambda: page.last().startswith("vertex move parcels 2 0 0 3 3"))

    def test_what_a_program_does_as_a_whole_is_drawn(self):
        page = self.open("Ben")
        with Client(str(self.path), "Ann") as ann:
            lines = ["layer add trees point", "column add parcels height int", "add parcels POLYGON ((0 900, 9 900, 9 999, 0 900))"]
            ann.call("batch", page="script", lines=[*lines, "set parcels last height 7"], seen=[None] * 4)
        page.logged("together 4", "layer add trees point")
        page.until(lambda: "trees" in page.text("#layers"))
        page.until(lambda: "201" in page.text("#layers"))

    def test_a_drag_goes_on_when_something_else_changes(self):
        page = self.two()
        page.press("v")
        page.send(page.keys.ARROW_DOWN)
        self.ann.line("set parcels 2 owner 'Ito'")
        self.ann.line("delete parcels 3")
        page.logged("delete parcels 3", "ok")
        page.until(lambda: page.one("#value-owner").get_property("value") == "Ito")
        page.send(page.keys.ENTER)
        page.logged("vertex move parcels 2 0 0 0 180 -1", "ok")

    def test_a_vertex_is_not_moved_where_the_change_was_not_heard_yet(self):
        page = self.two()
        page.press("v")
        page.send(page.keys.TAB, page.keys.ARROW_DOWN)
        page.until(lambda: page.one("#overlay .sketch").get_attribute("d"))
        line = "vertex insert parcels 2 0 0 1 270 -20"
        self.assertEqual(page.script(BEHIND, self.ann.key, line, self.ann.version()), 200)
        self.told(page, "Ann changed parcels 2 meanwhile: look again.")
        self.assertIn("vertex move parcels 2 0 0 1 360 -1", [line for line, _ in page.log()])
        self.assertEqual(self.wkt(), "POLYGON ((180 0, 270 -20, 360 0, 360 300, 180 300, 180 0))")

    def test_two_drags_in_a_row(self):
        page = self.two()
        page.drag((270, 0), (270, -10))
        page.drag((360, 0), (370, -10))
        page.until(lambda: page.last().startswith("vertex move parcels 2 0 0"))
        # The second one is of the numbers that are there, or is not sent.
        self.assertIn("POLYGON ((180 0, 270 -10, 3", page.until(self.wkt))

    def test_a_value_that_is_typed_is_given_up_when_it_changes(self):
        page = self.two()
        field = page.one("#value-owner")
        before = field.get_property("value")
        field.send_keys(page.keys.CONTROL + "a" + page.keys.NULL, "it's Ben's")
        self.ann.line("set parcels 2 number 77")
        page.until(lambda: page.one("#value-number").get_property("value") == "77")
        self.assertEqual(field.get_property("value"), "it's Ben's")
        self.ann.line("set parcels 2 owner 'Ito'")
        self.told(page, "Ann changed parcels 2 meanwhile: look again.")
        self.assertEqual(field.get_property("value"), "Ito")
        self.assertNotEqual(before, "Ito")
        line = "set parcels 2 owner 'it''s Ben''s'"
        self.assertIn((line, "Ann changed parcels 2 meanwhile: look again."), page.log())
        field.send_keys(page.keys.ENTER)
        page.type("show streets")
        self.assertEqual(self.ann.feature("parcels", 2)["values"][1]["value"], "Ito")

    def test_a_value_that_is_typed_stays_where_columns_and_rules_come(self):
        """Its field is taken out by neither: a browser would send what is half typed, or drop it."""
        page = self.two()
        field = page.one("#value-owner")
        before = field.get_property("value")
        field.send_keys(page.keys.CONTROL + page.keys.END + page.keys.NULL, " and")
        for line in ("column add parcels use text", "rule add n range parcels number 0 to 9999", "rule add o range parcels owner to 'zz'"):
            self.ann.line(line)
            page.logged(line, "ok")
        page.until(lambda: page.all("#value-use") and page.one("#value-number").get_property("title") == "The rule allows 0 to 9999")
        field.send_keys(" more")
        self.assertEqual(field.get_property("value"), before + " and more")
        self.assertEqual([line for line, _ in page.log() if line.startswith("set")], [])
        field.send_keys(page.keys.ENTER)
        page.logged(f"set parcels 2 owner {spelled(f'{before} and more')}", "ok")

    def test_a_value_that_is_typed_is_given_up_where_a_list_takes_its_place(self):
        page = self.two()
        field = page.one("#value-owner")
        before = field.get_property("value")
        field.send_keys(page.keys.CONTROL + page.keys.END + page.keys.NULL, " and")
        with Store(PROGRAM, load=self.path) as store:
            owners = sorted({feature.values["owner"] for feature in store.show("parcels") if "owner" in feature.values})
        self.ann.line(f"rule add owners one-of parcels owner {', '.join(map(spelled, owners))}")
        self.told(page, "A rule allows other values of owner now: look again.")
        self.assertIn(f"set parcels 2 owner {spelled(f'{before} and')}", [line for line, _ in page.log()])
        page.until(lambda: page.one("#value-owner").tag_name == "select")
        self.assertEqual(page.one("#value-owner").get_property("value"), before)
        page.type("show streets")
        self.assertEqual(self.ann.feature("parcels", 2)["values"][1]["value"], before)

    def test_what_is_typed_while_its_feature_is_deleted_is_told(self):
        page = self.two()
        page.script(NOTING)
        geometry = "POLYGON ((0 0, 9 0, 9 9, 0 0))"
        page.script("document.getElementById('wkt').value = arguments[0]", geometry)
        page.one("#value-owner").send_keys(page.keys.CONTROL + "a" + page.keys.NULL, "a long text")
        self.ann.line("delete parcels 2")
        words = "Ann deleted parcels 2 meanwhile: look again."
        self.told(page, words)
        self.assertEqual(page.text("#chosen-title"), "Nothing selected")
        for line in ("set parcels 2 owner 'a long text'", f"replace parcels 2 {geometry}"):
            self.assertIn((line, words), page.log())
        # Nothing of it is sent: the server has no such feature, and an undo of Ann's would bring another one.
        self.ann.line("undo")
        page.type("show streets")
        self.assertEqual(page.script("return window.asked").count("line"), 1)

    def test_a_geometry_that_is_typed_is_given_up_when_it_changes(self):
        page = self.two()
        page.script("document.getElementById('wkt').value = 'POLYGON ((0 0, 9 0, 9 9, 0 0))'")
        self.ann.line("set parcels 2 number 77")
        page.until(lambda: page.one("#value-number").get_property("value") == "77")
        self.assertEqual(page.one("#wkt").get_property("value"), "POLYGON ((0 0, 9 0, 9 9, 0 0))")
        self.ann.line("vertex move parcels 2 0 0 0 181 1")
        self.told(page, "Ann changed parcels 2 meanwhile: look again.")
        self.assertIn("(181 1, ", page.one("#wkt").get_property("value"))
        page.script("document.getElementById('wkt').value = 'POLYGON ((180 0, 360 0, 360 300, 180 0))'")
        page.use("#replace")
        page.logged("replace parcels 2 POLYGON ((180 0, 360 0, 360 300, 180 0))", "ok")
        page.until(lambda: page.one("#wkt").get_property("value") == "POLYGON ((180 0, 360 0, 360 300, 180 0))")
        self.assertTrue(page.one("#refusal").get_property("hidden"))

    def test_a_line_that_was_begun_before(self):
        page = self.two()
        page.one("#line-text").send_keys("vertex move parcels 2 0 0 1 ")
        self.ann.line("vertex insert parcels 2 0 0 1 270 -20")
        page.logged("vertex insert parcels 2 0 0 1 270 -20", "ok")
        page.until(lambda: "270 -20" in page.one("#wkt").get_property("value"))
        page.one("#line-text").send_keys("270 -30", page.keys.ENTER)
        self.told(page, "Ann changed parcels 2 meanwhile: look again.")
        page.one("#line-text").send_keys(page.keys.ARROW_UP, page.keys.ENTER)
        page.until(lambda: page.log()[-1] == ("vertex move parcels 2 0 0 1 270 -30", "ok"))

    def test_an_edit_that_waits_for_one_before_has_seen_what_was_there_when_it_was_made(self):
        page = self.two()
        page.choose((90, 150), "parcels 1, a polygon")
        seen = self.ann.version()
        hold = self.keeper()
        hold(signal.SIGSTOP)
        self.addCleanup(hold, signal.SIGCONT)
        self.retype(page, "number", "77")
        page.choose((270, 150), "parcels 2, a polygon")
        self.retype(page, "owner", "Ben's")
        # It comes behind the first one of Ben's, and is shown before his second one is sent.
        with ThreadPoolExecutor(1) as thread:
            answer = thread.submit(self.ann.posted, "set parcels 2 owner 'Ito'", seen)
            time.sleep(0.3)
            hold(signal.SIGCONT)
            self.assertEqual(answer.result()[0], 200)
        self.told(page, "Ann changed parcels 2 meanwhile: look again.")
        self.assertIn(("set parcels 1 number 77", "ok"), page.log())
        self.assertEqual(self.ann.feature("parcels", 2)["values"][1]["value"], "Ito")
        page.until(lambda: page.one("#value-owner").get_property("value") == "Ito")

    def test_edits_of_ones_own_in_a_row_hold_one_another_up_in_nothing(self):
        page = self.two()
        hold = self.keeper()
        hold(signal.SIGSTOP)
        self.addCleanup(hold, signal.SIGCONT)
        for column, value in (("number", "77"), ("owner", "Ito"), ("number", "78")):
            self.retype(page, column, value)
        hold(signal.SIGCONT)
        page.logged("set parcels 2 number 78", "ok")
        self.assertIn(("set parcels 2 owner 'Ito'", "ok"), page.log())

    def retype(self, page, column, value):
        """Types another value, and sends it."""
        page.one(f"#value-{column}").send_keys(page.keys.CONTROL + "a" + page.keys.NULL, value, page.keys.ENTER)

    def keeper(self):
        """The program that carries edits out: the first one that the server has begun."""
        told = subprocess.run(["pgrep", "-P", str(self.serving.process.pid)], capture_output=True, text=True, check=True)
        return partial(os.kill, int(told.stdout.split()[0]))

    def test_what_is_drawn_for_a_layer_that_has_gone_is_put_into_no_other_one(self):
        page = self.open("Ben")
        ann = self.serving.log_in("Ann")
        ann.line("layer add plots polygon")
        page.until(lambda: "plots" in page.text("#layers"))
        page.pick("#target", "plots")
        page.tool("polygon")
        for point in ((1300, 600), (1380, 600), (1380, 700)):
            page.click(point)
        ann.line("layer drop plots")
        page.until(lambda: "plots" not in page.text("#layers"))
        page.send(page.keys.ENTER)
        page.until(lambda: page.text("#status") == "The layer that was chosen is not there any more: choose one.")
        self.assertTrue(page.last().startswith("POLYGON (("), page.log())
        page.pick("#target", "streets")
        page.type("layer add trees point", "ok")
        self.assertEqual(page.one("#target").get_property("value"), "streets")
        self.assertEqual(len(ann.line("show parcels")["rows"]), 200)

    def test_a_layer_that_another_one_renames_is_followed(self):
        """Whoever works on it goes on: what is typed, drawn, asked and shown is of the layer under its new name."""
        page = self.two()
        page.use("#layers li:nth-child(1) button.quiet")
        page.use("#tab-table")
        page.pick("#table-layer", "parcels")
        page.pick("#ask-layer", "parcels")
        page.pick("#target", "parcels")
        page.one("#value-owner").send_keys(page.keys.CONTROL + "a" + page.keys.NULL, "typed")

        def is_followed(name):
            page.until(lambda: page.text("#chosen-title") == f"{name} 2, a polygon")
            page.until(lambda: page.text("#layer-title") == f"Layer {name}" and page.text("#table-caption") == f"Values of {name}")
            lists = [page.one(f"#{each}").get_property("value") for each in ("table-layer", "ask-layer", "target")]
            self.assertEqual(lists, [name] * 3)
            self.assertEqual(page.one("#value-owner").get_property("value"), "typed")
            self.assertEqual(page.script("return document.activeElement.id"), "value-owner")
            self.assertTrue(page.one("#refusal").get_property("hidden"))

        for line, before, after in (("layer rename parcels plots", "parcels", "plots"), ("undo", "plots", "parcels"), ("redo", "parcels", "plots")):
            self.ann.line(line)
            page.until(lambda before=before, after=after: page.text("#status") == f"Ann renamed {before} to {after}.")
            is_followed(after)
        page.send(page.keys.ENTER)
        page.logged("set plots 2 owner 'typed'", "ok")
        # So it is with one's own.
        page.use("#tab-console")
        for line, name in (("undo", "plots"), ("layer rename plots fields", "fields"), ("undo", "plots"), ("redo", "fields")):
            page.type(line, "ok")
            page.until(lambda name=name: page.text("#chosen-title") == f"{name} 2, a polygon")
        self.assertTrue(page.drawn("fields") and not page.drawn("parcels"))

    def test_what_is_drawn_goes_into_no_layer_that_has_taken_the_name(self):
        """Not where that is heard while it is drawn, nor where it was not heard yet; it stays in the console."""
        page, swap = self.plots(), ["layer rename parcels old", "layer rename plots parcels"]
        self.sketch(page)
        self.assertEqual(page.script(ALL_BEHIND, self.ann.key, swap), 200)
        self.told(page, f"Ann changed the layer parcels meanwhile, by `{swap[1]}`: look again.")
        self.assertTrue(page.log()[-1][0].startswith("add parcels POLYGON (("), page.log())
        page.until(lambda: "old" in page.text("#layers"))
        page.pick("#target", "parcels")
        self.sketch(page)
        body = {"page": "script", "lines": ["layer drop parcels", "layer add parcels polygon"], "seen": [None] * 2}
        self.assertEqual(self.serving.posted("/batch", self.ann.key, **body)[0], 200)
        page.until(lambda: page.one("#target").get_property("value") == "")
        page.send(page.keys.ENTER)
        page.until(lambda: page.text("#status") == "The layer that was chosen is not there any more: choose one.")
        self.assertEqual(self.ann.line("show parcels")["rows"], [])
        # One that is renamed alone is followed, and others may add to it meanwhile.
        page.pick("#target", "parcels")
        self.sketch(page)
        self.ann.line("add parcels POLYGON ((0 0, 9 0, 9 9, 0 0))")
        self.ann.line("layer rename parcels plots")
        page.until(lambda: page.one("#target").get_property("value") == "plots")
        page.send(page.keys.ENTER)
        page.until(lambda: page.log()[-1][1] == "ok 2")

    def test_a_layer_or_a_column_is_dropped_that_was_meant_at_the_question(self):
        page, swap = self.plots(), ["layer rename parcels old", "layer rename plots parcels", "column add parcels owner text"]
        page.use("#layers li:nth-child(1) button.quiet")
        page.use("#layer-editor details:nth-of-type(2) summary")
        page.use("#layer-drop")
        page.until(lambda: page.one("#sure").get_property("open"))
        for line in swap:
            self.ann.line(line)
        page.until(lambda: page.text("#layer-title") == "Layer old")
        page.use("#sure-yes")
        self.told(page, f"Ann changed the layer parcels meanwhile, by `{swap[1]}`: look again.")
        self.assertEqual(len(self.ann.line("layers")["rows"]), 4)

    def plots(self):
        """A page that draws parcels, beside another layer, and somebody else."""
        page = self.open("Ben")
        page.known = ("streets-1", (960, -60))
        self.ann = self.serving.log_in("Ann")
        self.ann.line("layer add plots polygon")
        page.until(lambda: "plots" in page.text("#layers"))
        page.pick("#target", "parcels")
        return page

    def sketch(self, page):
        """Draws three corners."""
        page.tool("polygon")
        for point in ((1300, 600), (1380, 600), (1380, 700)):
            page.click(point)

    def test_a_value_that_is_not_set_is_not_shown(self):
        page = self.two()
        field = page.one("#value-owner")
        before = field.get_property("value")
        self.serving.end(signal.SIGKILL)
        field.send_keys(page.keys.CONTROL + "a" + page.keys.NULL, "New", page.keys.ENTER)
        page.until(lambda: "does not answer" in page.text("#status"))
        page.until(lambda: field.get_property("value") == before)
        self.assertIn("set parcels 2 owner 'New'", [line for line, _ in page.log()])

    def test_questions_before_what_can_not_be_taken_back(self):
        page = self.two()
        for button in ("#delete", "#save"):
            page.use(button)
            page.until(lambda: page.one("#sure").get_property("open"))
            self.assertTrue(page.text("#sure-words"))
            page.use("#sure-no")
        page.type("layers")
        self.assertEqual([line for line, _ in page.log()], ["layers"])
        page.use("#save")
        page.sure()
        # What all pages are told of a save comes before the answer or behind it.
        page.until(lambda: ("save", "town.sfs is saved. The history begins anew.") in page.log())

    def test_a_deletion_is_of_what_was_seen_at_the_question(self):
        page = self.two()
        page.use("#delete")
        page.until(lambda: page.one("#sure").get_property("open"))
        self.ann.line("set parcels 2 owner 'Ito'")
        page.until(lambda: page.one("#value-owner").get_property("value") == "Ito")
        page.use("#sure-yes")
        self.told(page, "Ann changed parcels 2 meanwhile: look again.")
        self.assertIn("POLYGON", self.wkt())

    def test_two_tabs_of_one_name(self):
        one = self.open("Ann")
        other = self.page(self.serving, "Ann")
        other.choose((270, 150), "parcels 2, a polygon")
        one.here().type("set parcels 2 owner 'Ito'", "ok")
        one.type("add wells POINT (1290 450)", "ok 5")
        other.here().until(lambda: other.drawn("wells") == 5)
        other.until(lambda: other.one("#value-owner").get_property("value") == "Ito")
        self.assertEqual([line for line, _ in other.log()], ["set parcels 2 owner 'Ito'", "add wells POINT (1290 450)"])
        other.type("undo", "ok")
        one.here().until(lambda: one.drawn("wells") == 4)
        self.assertEqual([line for line, _ in one.log()].count("add wells POINT (1290 450)"), 1)



class OtherStore(PageCase):
    """What was begun over a store, or a grid of it, that is another one then."""

    GIVEN_UP = "Another store, or another grid of it, is behind this page now. What was begun before is given up: look again."

    def placed(self, step, origin="500000"):
        """Has the side-car say this grid."""
        grid = sidecar.Sidecar((origin, "0", step), sidecar.Crs("EPSG", "25832", ""), [])
        sidecar.write(str(self.path), grid, [files.digest(str(self.path))])

    def opened(self):
        page = self.open("Ben")
        self.ann = self.serving.log_in("Ann")
        return page

    def lines(self):
        return [row["line"] for row in self.serving.call("/history", before=None, count=100)["entries"]]

    def test_what_is_half_drawn_is_given_up_on_another_grid(self):
        self.placed("1")
        page = self.opened()
        page.pick("#target", "streets")
        page.tool("line")
        page.click((360, 0))
        page.click((540, 0))
        page.until(lambda: page.one("#overlay .sketch").get_attribute("d"))
        self.placed("0.1")
        self.ann.posted("undo", 0)
        self.given_up(page)
        self.assertIn(("line 500360 0, 500540 0", self.GIVEN_UP), page.log())
        self.assertFalse(page.one("#overlay .sketch").get_attribute("d"))
        page.press(page.keys.ENTER)
        # The whole map is shown, with its own coordinates; what is drawn from now on has its place there.
        page.until(lambda: page.drawn("parcels") == 200)
        page.click((360, 0))
        page.click((540, 0))
        page.press(page.keys.ENTER)
        page.until(lambda: page.last().startswith("add streets"))
        page.logged("add streets LINESTRING (500036.0 0.0, 500054.0 0.0)", "ok 8")
        self.assertEqual(self.lines(), [page.last()])

    def given_up(self, page):
        page.until(lambda: page.text("#refusal h2") == self.GIVEN_UP and not page.one("#refusal").get_property("hidden"))

    def test_a_corner_that_is_moved_is_given_up_on_another_grid(self):
        self.placed("1")
        page = self.opened()
        page.press("k")
        page.click((360, 0))
        page.until(lambda: page.one("#overlay .sketch").get_attribute("d"))
        self.placed("0.1")
        self.ann.posted("undo", 0)
        self.given_up(page)
        page.until(lambda: page.drawn("parcels") == 200)
        self.assertIn(("node 500360 0", self.GIVEN_UP), page.log())
        # A click is the first one again.
        page.click((360, 0))
        page.press(page.keys.ESCAPE)
        self.assertEqual(self.lines(), [])

    def test_a_line_that_was_typed_for_another_grid_is_not_done(self):
        self.placed("1")
        page = self.opened()
        page.one("#line-text").send_keys("add wells POINT (500100 100)")
        self.placed("0.1", "500050")
        self.ann.posted("undo", 0)
        page.until(lambda: page.text("#status").startswith("Another store") or page.text("#system"))
        page.until(lambda: self.serving.call("/map")["grid"]["step"] == "0.1")
        page.until(lambda: page.script("return window.performance.getEntriesByName('window').length") > 1)
        page.one("#line-text").send_keys(page.keys.ENTER)
        page.until(lambda: page.last() == "add wells POINT (500100 100)")
        self.assertIn("look at the map again", page.log()[-1][1])
        self.assertEqual(self.lines(), [])
        # Typed again it is for the map that is shown.
        page.type("add wells POINT (500100 100)", "ok 5")

    def other_store(self):
        """Has another store in the place of the file, and every program that had the one before ended."""
        for child in self.programs(self.serving):
            os.kill(child, signal.SIGKILL)
        other = self.folder / "other.sfs"
        self.make(b"layer add parcels polygon\nadd parcels POLYGON ((180 0, 360 0, 360 300, 180 300, 180 0))\n" * 2, other)
        self.ann.posted("undo", 0)
        os.replace(other, self.path)
        self.path.with_name("town.sfs.journal").unlink(missing_ok=True)

    def test_what_is_begun_over_another_store_of_the_same_grid(self):
        page = self.opened()
        page.choose((270, 150), "parcels 2, a polygon")
        page.pick("#target", "parcels")
        page.tool("polygon")
        for point in ((360, 0), (540, 0), (540, 300)):
            page.click(point)
        page.one("#value-owner").send_keys("Ito")
        self.other_store()
        self.given_up(page)
        log = page.log()
        self.assertIn(("polygon 360 0, 540 0, 540 300", self.GIVEN_UP), log)
        self.assertIn(("set parcels 2 owner 'O''HaraIto'", self.GIVEN_UP), log)
        self.assertEqual([words for line, words in log if line.startswith("set")], [self.GIVEN_UP])
        self.assertEqual(page.text("#chosen-title"), "Nothing selected")
        page.press(page.keys.ENTER)
        page.until(lambda: page.drawn() == 2)
        self.assertEqual(self.lines(), [])

    def test_what_was_made_over_another_store_is_not_done(self):
        serving = self.serving = self.serve()
        self.ann = serving.log_in("Ann")
        before = serving.call("/map")["store"]
        body = {"page": "p", "line": "add parcels POLYGON ((0 0, 9 0, 9 9, 0 0))", "seen": 0}
        self.other_store()
        self.assertNotEqual(serving.call("/map")["store"], before)
        status, answer = serving.posted("/line", self.ann.key, **body, store=before)
        self.assertEqual((status, answer["error"]), (409, "town.sfs is another store than before: look at the map again. Nothing was done."))
        body["line"] = "split parcels 1 LINESTRING (270 -10, 270 400)"
        self.assertEqual(serving.posted("/line", self.ann.key, **body, store=before)[0], 409)
        self.assertEqual(serving.call("/history", before=None, count=9)["entries"], [])

    def test_a_map_that_can_not_be_had_is_tried_again(self):
        page = self.opened()
        away = self.path.with_name("away.sfs")
        for child in self.programs(self.serving):
            os.kill(child, signal.SIGKILL)
        os.rename(self.path, away)
        self.path.write_bytes(b"no store")
        self.ann.posted("undo", 0)
        page.until(lambda: "is tried again in 2 s" in page.text("#status"))
        self.path.unlink()
        os.rename(away, self.path)
        page.until(lambda: "is tried again" not in page.text("#status"))
        page.until(lambda: page.drawn("parcels") == 200)
        # Nobody else has it looked at: the page has what is edited then.
        self.ann.line("delete parcels 200")
        page.until(lambda: page.drawn("parcels") == 199)

    def test_a_batch_or_a_question_for_another_store_is_refused(self):
        serving = self.serving = self.serve()
        self.ann = serving.log_in("Ann")
        before = serving.call("/map")["store"]
        seen = self.ann.version()
        self.other_store()
        now = serving.call("/map")["store"]
        said = "town.sfs is another store than before: look at the map again. Nothing was done."
        addition = "add parcels POLYGON ((0 900, 9 900, 9 909, 0 900))"
        corner = [["0", "900", 0, 900]]
        for path, body in (
            ("/batch", {"page": "p", "lines": [addition], "seen": [None]}),
            ("/batch", {"page": "p", "lines": [addition, addition], "seen": [None, None], "corners": corner, "shown": seen}),
            ("/line", {"page": "p", "line": "save", "seen": 0}),
            ("/line", {"page": "p", "line": "show parcels", "seen": 0}),
            ("/ids", {"layer": "parcels"}),
            ("/rows", {"layer": "parcels", "ids": [1]}),
            ("/map", {}),
            ("/qml", {"layer": "parcels", "kind": ""}),
            ("/save-qml", {"layer": "parcels", "kind": "", "qml": None, "seen": None}),
            ("/feature", {"layer": "parcels", "id": 1}),
            ("/window", {"box": [0, 0, 900, 900], "layers": ["parcels"]}),
            ("/shapes", {"layer": "parcels", "ids": [1]}),
            ("/pictures", {"layer": "parcels", "level": 0, "tiles": [[0, 0, 0]]}),
            ("/table", {"layer": "parcels", "sort": None, "falling": False, "conditions": [], "box": None, "from": 0, "count": 9}),
            ("/labels", {"layer": "parcels", "column": "owner", "ids": [1]}),
            ("/style", {"layer": "parcels", "style": None}),
            ("/history", {"before": None, "count": 9}),
            # This one does nothing, and says why.
            ("/line", {"page": "p", "line": "fill parcels 1 POINT (1 1)", "seen": 0}),
        ):
            with self.subTest(path=path, body=body):
                status, answer = serving.posted(path, self.ann.key, **body, store=before)
                self.assertEqual((status, answer.get("error")), (409, said))
                self.assertEqual(serving.call("/map")["layers"], serving.posted("/map", self.ann.key, store=now)[1]["layers"])
        self.assertEqual(serving.call("/history", before=None, count=9)["entries"], [])
        self.assertEqual(len(self.ann.line("show parcels")["rows"]), 2)
        status, answer = serving.posted("/batch", self.ann.key, page="p", lines=[addition], seen=[None], store=now)
        self.assertEqual((status, answer["answers"]), (200, ["ok 3"]))

    def test_all_that_a_page_asks_names_its_store(self):
        page = self.opened()
        page.script(NAMING)
        page.choose((270, 150), "parcels 2, a polygon")
        for name in ("table", "history"):
            page.use(f"#tab-{name}")
        self.ann.line("set parcels 2 owner 'Ann'")
        page.until(lambda: {"feature", "table", "history", "shapes"} <= {path for path, _ in page.script("return window.named")})
        store = self.serving.call("/map")["store"]
        self.assertEqual([each for each in page.script("return window.named") if each[1] != store], [])

    def test_a_later_server_knows_the_store_by_how_far_it_had_come(self):
        serving = self.serve()
        ann, numbers, points = serving.log_in("Ann"), set(), []
        for lines in (["delete parcels 1"], ["save"], ["undo", "delete parcels 2"], []):
            for line in lines:
                ann.line(line)
            told = serving.call("/map")
            self.assertNotIn(told["store"], numbers)
            numbers.add(told["store"])
            points.append(told["point"])
            serving.end(signal.SIGKILL)
            serving = self.serve()
            ann = serving.log_in("Ann")
            found = [serving.call("/map", known=point)["goes_on"] for point in ["", "no point", *points]]
            # What was known before a save is known by no journal any more.
            self.assertEqual(found, [False] * 2 + [point[-32:] == points[-1][-32:] for point in points])
        self.assertEqual(len(numbers), 4)

    def test_a_store_that_is_opened_again_or_saved_is_the_same(self):
        page = self.opened()
        page.pick("#target", "streets")
        page.tool("line")
        page.click((360, 0))
        for line in ("set wells 1 depth 5", "save"):
            self.ann.line(line)
        for child in self.programs(self.serving):
            os.kill(child, signal.SIGKILL)
        self.assertEqual(self.ann.posted("undo", 0)[0], 503)
        self.ann.line("set wells 1 depth 6")
        page.until(lambda: ("set wells 1 depth 6", "ok") in page.log())
        page.click((540, 0))
        page.press(page.keys.ENTER)
        page.until(lambda: page.last().startswith("add streets"))
        page.logged("add streets LINESTRING (360 0, 540 0)", "ok 8")


class Coming(PageCase):
    """Who somebody is, in the browser."""

    def open_again(self, address):
        self.driver.switch_to.new_window("tab")
        self.driver.get(address)

    def test_the_link_of_the_terminal_and_what_comes_of_it(self):
        self.serving = self.serve()
        page = self.page(self.serving, "Ann", address=self.serving.owners_address)
        names, cookie, address = page.script(KEPT)
        plain = f"http://{self.serving.host}/"
        self.assertEqual((names, cookie, address), (["Ann"], "", plain))
        page.type("add wells POINT (1290 450)", "ok 5")
        # Another tab of the browser, and the link once more.
        self.open_again(plain)
        page.until(lambda: page.text("#person") == "Ann" and page.drawn("wells") == 5)
        self.open_again(self.serving.owners_address)
        page.until(lambda: page.one("#login").get_property("open"))
        page.one("#login-name").send_keys("Mallory", page.keys.ENTER)
        page.until(lambda: "not good any more" in page.text("#login-error"))
        page.use("#login-names button")
        page.until(lambda: page.text("#person") == "Ann" and page.drawn("wells") == 5)

    def test_a_browser_of_two_people(self):
        ann = self.open("Ann")
        self.page(self.serving, "Ben")
        ann.here().use("#person")
        self.assertEqual([button.text for button in ann.all("#login-names button")], ["Go on as Ann", "Go on as Ben"])
        ann.use("#login-leave")
        ann.type("add wells POINT (1290 450)", "ok 5")
        ann.use("#person")
        ann.use("#login-names li:last-child button")
        ann.until(lambda: ann.text("#person") == "Ben" and ann.drawn("wells") == 5)
        ann.type("undo", "refused 36 NotYours")

    def test_a_server_that_was_started_again(self):
        page = self.open("Ann")
        self.serving.end()
        serving = self.serve(f"--port={self.serving.port}")
        self.open_again(f"http://{serving.host}/")
        page.until(lambda: page.one("#login").get_property("open"))
        self.assertEqual(page.text("#login-error"), "Ann is logged in no more.")
        self.assertIn("types `link`", page.text("#login-how"))
        # A link that is opened in this tab.
        page.script("location.href = arguments[0]", serving.address("Ann"))
        page.come_in("Ann")

    def test_another_server_of_this_machine_is_sent_nothing(self):
        page = self.open("Ann")
        sent = []

        class Other(http.server.BaseHTTPRequestHandler):
            def do_GET(self):
                sent.append((self.path, str(self.headers)))
                self.send_response(200)
                self.end_headers()

            def log_message(self, *_):
                pass

        other = http.server.HTTPServer(("127.0.0.1", 0), Other)
        self.addCleanup(other.server_close)
        threading.Thread(target=other.serve_forever, daemon=True).start()
        self.addCleanup(other.shutdown)
        key = page.script("return JSON.parse(localStorage['sfstore-keys']).Ann")
        self.open_again(f"http://127.0.0.1:{other.server_port}/")
        self.assertIsNone(page.script("return localStorage['sfstore-keys'] ?? null"))
        self.assertTrue(sent)
        for path, headers in sent:
            self.assertNotIn("Cookie", headers)
            self.assertNotIn(key, path + headers)

    def test_a_link_for_a_name_asks_before_it_is_used(self):
        ann = self.open("Ann")
        self.open_again(self.serving.address("Ben"))
        ann.until(lambda: ann.one("#login").get_property("open"))
        self.assertEqual(ann.one("#login-name").get_property("value"), "Ben")
        self.assertEqual(ann.text("#person"), "nobody")
        self.assertNotIn("Ben", ann.script(KEPT)[0])

    def test_the_first_picture_is_asked_for_once(self):
        windows = "return performance.getEntriesByType('resource').filter(e => e.name.endsWith('/window')).length"
        page = self.open("Ann")
        time.sleep(0.5)
        self.assertEqual(page.script(windows), 1)
        points = "".join(f"add w POINT ({k % 200 * 10} {k // 200 * 10})\n" for k in range(20_001))
        path = self.folder / "large.sfs"
        self.make(f"layer add w point\n{points}layer add v point\nadd v POINT (5 5)\n".encode(), path)
        page = self.page(self.serve(path=path), "Ann", known=("v-1", (5, 5)))
        time.sleep(0.5)
        self.assertEqual(page.script(windows), 1)


class Aids(PageCase):
    """What is read out, and how large what is clicked is."""

    def test_what_is_selected_is_read_out(self):
        page = self.open()
        live = "return !!document.getElementById('chosen-title').closest('[aria-live=polite]')"
        self.assertTrue(page.script(live))

    def test_everything_that_is_clicked_has_24_pixels(self):
        page = self.open()
        page.choose((270, 150), "parcels 2, a polygon")
        page.use("#go")
        page.until(lambda: len(page.all(".handle.middle:not(.crowded)")) == 4)
        page.type("query parcels intersects POINT (270 150)")
        page.until(lambda: page.all("#hits button"))
        small = """
            return [...document.querySelectorAll("button, input, select, textarea, .handle")].filter((element) => {
              const { width, height } = element.getBoundingClientRect();
              return width && Math.min(width, height) < 23.9;
            }).map((element) => element.outerHTML.slice(0, 80));
            """
        self.assertEqual(page.script(small), [])


if __name__ == "__main__":
    unittest.main()
