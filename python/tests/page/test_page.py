"""Tests of the page in a browser: what a user does by mouse, touch and keys."""

from __future__ import annotations

import re
import signal
import subprocess
import time
import unittest

import browser
from support import FOLDER, PROGRAM, TestCase
from web_support import TOWN, WebCase

from sfstore import Store, files, sidecar

DAY = TOWN.parent / "day.txt"
# Whether the middle of an element is within another one.
IS_SEEN = """
const [inner, outer] = [...arguments].map((element) => element.getBoundingClientRect());
const [x, y] = [(inner.left + inner.right) / 2, (inner.top + inner.bottom) / 2];
return x > outer.left && x < outer.right && y > outer.top && y < outer.bottom;
"""
METRES = 'PROJCS["x",GEOGCS["y",UNIT["degree",0.0174532925199433]],UNIT["metre",1]]'

# From now on what is told of a feature comes late.
LATE = """
const told = window.fetch;
window.fetch = async (path, words) => {
  const answer = await told(path, words);
  if (path === "feature") await new Promise((done) => setTimeout(done, 3000));
  return answer;
};
"""
SHOWN_WELLS = """\
rows 4
1 POINT (450 150) depth=12 label='the old one' inspected='2026-11-23'
2 POINT (1550 1000) depth=3 label='dry in August'
3 POINT (3000 2100) depth=31 label='town well'
4 POINT (4500 150) depth=8"""


# How opaque the overview is at places of the window, or a pixel beside them.
OPACITIES = """
const canvas = document.getElementById("overview"), frame = canvas.getBoundingClientRect();
const pen = new OffscreenCanvas(canvas.width, canvas.height).getContext("2d", { willReadFrequently: true });
pen.drawImage(canvas, 0, 0);
const near = ([left, top]) => [...pen.getImageData(left - frame.left - 1, top - frame.top - 1, 3, 3).data].filter((_, at) => at % 4 === 3);
return arguments[0].map((place) => Math.max(...near(place)));
"""


@unittest.skipIf(browser.IS_MISSING, browser.MISSING)
class PageCase(WebCase):
    SECONDS = 300

    @classmethod
    def setUpClass(cls):
        cls.driver = browser.start()
        cls.addClassCleanup(cls.driver.quit)
        cls.first_tab = cls.driver.current_window_handle

    def setUp(self):
        super().setUp()
        self.addCleanup(self.leave)
        self.make_town()

    def leave(self):
        """Closes all tabs, and looks whether one of them had an error."""
        told = [entry for entry in self.driver.get_log("browser") if "ERR_" not in entry["message"]]
        for tab in self.driver.window_handles:
            if tab != self.first_tab:
                self.driver.switch_to.window(tab)
                self.driver.close()
        self.driver.switch_to.window(self.first_tab)
        faults = [entry["message"] for entry in told if not re.search(" (400|403|409|503) ", entry["message"])]
        self.assertEqual(faults, [])

    def page(self, serving, name="Ann", **known):
        return browser.Page(self.driver, serving, name, **known)

    def open(self, name="Ann"):
        self.serving = self.serve()
        return self.page(self.serving, name)


class Day(PageCase):
    """The day of the example."""

    def test_the_morning_by_mouse_and_keys(self):
        page = self.open()
        self.look(page)
        self.split(page)
        self.think_again(page)
        self.inspect(page)
        self.assertEqual(self.serving.end(), 0)
        day = self.folder / "day.sfs"
        words = [PROGRAM, f"--load={self.path}", f"--save={day}"]
        subprocess.run(words, input=DAY.read_bytes(), check=True, stdout=subprocess.DEVNULL)
        with Store(self.path, journal=True, program=PROGRAM):
            pass
        self.assertEqual(self.path.read_bytes(), day.read_bytes())

    def ask(self, page, layer, predicate):
        page.pick("#ask-layer", layer)
        page.pick("#ask-predicate", predicate)

    def look(self, page):
        page.type("layer move streets 0", "ok")
        names = "return [...document.querySelectorAll('#layers label')].map(e => e.textContent)"
        page.until(lambda: page.script(names) == ["streetslinestring", "parcelspolygon", "wellspoint"])
        page.type("layers", "rows 3\nstreets linestring\nparcels polygon\nwells point")
        page.type("columns parcels", "rows 2\nnumber int\nowner text")
        self.ask(page, "parcels", "contains")
        page.tool("ask-box")
        page.click((450, 150))
        page.until(lambda: page.hits() == ["parcels-3"])
        self.ask(page, "parcels", "within")
        page.drag((990, -30), (2010, 630))
        page.until(lambda: page.hits() == sorted(f"parcels-{k}" for k in range(11, 21)))
        self.assertEqual(page.text("#hits-title"), "10 found")
        page.press(page.keys.ESCAPE)
        page.choose((270, 150), "parcels 2, a polygon")
        self.ask(page, "parcels", "")
        page.script("document.getElementById('ask-pattern').value = '****1****'")
        page.use("#ask-chosen")
        page.use("#ask [type=submit]")
        page.until(lambda: page.hits() == ["parcels-1", "parcels-2", "parcels-3", "parcels-7"])
        self.assertTrue(page.last().startswith("match parcels ****1**** POLYGON ((180 0, "))
        self.ask(page, "parcels", "near")
        for distance, found in (("0", "123678"), ("179.999", "123678"), ("180", "12346789")):
            page.script(f"document.getElementById('ask-distance').value = '{distance}'")
            page.use("#ask [type=submit]")
            page.until(lambda found=found: page.hits() == [f"parcels-{k}" for k in found])
        self.assertTrue(page.last().startswith("query parcels near 180 POLYGON ((180 0, "))
        self.ask(page, "parcels", "nearest")
        page.script("document.getElementById('ask-count').value = '2'")
        page.script("document.getElementById('ask-wkt').value = 'POINT (1 1)'")
        page.use("#ask [type=submit]")
        page.until(lambda: page.hits() == ["parcels-1", "parcels-2"])
        self.assertTrue(page.last().startswith("nearest parcels 2 POINT (1 1)"))
        page.type("reach parcels FF**1**** 1", "rows 10\n" + "\n".join(map(str, range(1, 11))))
        page.until(lambda: page.hits() == sorted(f"parcels-{k}" for k in range(1, 11)))

    def split(self, page):
        page.choose((450, 100), "parcels 3, a polygon")
        page.use("#go")
        page.until(lambda: page.script("return document.getElementById('world').getCTM().a") > 1)
        page.press(page.keys.DELETE)
        page.sure()
        page.logged("delete parcels 3", "ok")
        page.tool("polygon")
        page.pick("#target", "parcels")
        for point in ((360, 0), (450, 0), (450, 300), (360, 300), (360, 0)):
            page.click(point)
        page.logged("add parcels POLYGON ((360 0, 450 0, 450 300, 360 300, 360 0))", "ok 201")
        page.until(lambda: page.text("#chosen-title") == "parcels 201, a polygon")
        self.fill(page, "parcels 201", number="1201", owner="Dunn")
        page.tool("polygon")
        for point in ((450, 0), (540, 0), (540, 300), (450, 300)):
            page.click(point)
        page.press(page.keys.ENTER)
        page.logged("add parcels POLYGON ((450 0, 540 0, 540 300, 450 300, 450 0))", "ok 202")
        page.until(lambda: page.text("#chosen-title") == "parcels 202, a polygon")
        self.fill(page, "parcels 202", number="1202", owner="O'Hara")

    def fill(self, page, feature, **values):
        for name, value in values.items():
            self.type_into(page, name, value)
            shown = value if value.isdigit() else "'" + value.replace("'", "''") + "'"
            page.logged(f"set {feature} {name} {shown}", "ok")
            page.until(lambda: page.one(f"#value-{name}").get_property("value") == value)

    def type_into(self, page, name, value):
        page.one(f"#value-{name}").send_keys(page.keys.CONTROL + "a" + page.keys.NULL, value, page.keys.ENTER)

    def think_again(self, page):
        self.ask(page, "parcels", "contains")
        page.tool("ask-box")
        page.click((400, 150))
        page.until(lambda: page.hits() == ["parcels-201"])
        page.type("relate parcels 201 POLYGON ((450 0, 540 0, 540 300, 450 300, 450 0))", "FF2F11212")
        page.tool("select")
        page.choose((500, 150), "parcels 202, a polygon")
        page.press("-", page.keys.ARROW_UP)
        page.drag((540, 0), (540, 400))
        page.logged("vertex move parcels 202 0 0 1 540 400", "refused 13 RingNotSimple")
        page.until(lambda: "a ring meets itself" in page.text("#refusal h2"))
        self.assertEqual(len(page.all(".fault-mark")), 1)
        page.use("#undo")
        page.logged("undo", "ok")
        page.until(lambda: page.one("#value-owner").get_property("value") == "")
        page.press(page.keys.CONTROL + "z")
        page.until(lambda: page.one("#value-number").get_property("value") == "")
        page.press(page.keys.CONTROL + "y")
        page.until(lambda: page.one("#value-number").get_property("value") == "1202")
        page.choose((630, 150), "parcels 4, a polygon")
        page.drag((540, 0), (560, 0))
        page.logged("vertex move parcels 4 0 0 0 560 0", "ok")
        page.use("#undo")
        page.logged("undo", "ok")

    def inspect(self, page):
        page.type("column add wells inspected text", "ok")
        page.press("0")
        page.until(lambda: page.drawn() == 212)
        page.choose((450, 150), "wells 1, a point")
        self.fill(page, "wells 1", inspected="2026-11-23")
        page.type("column drop wells inspected", "ok")
        page.until(lambda: len(page.all("#values tr")) == 2)
        page.use("#undo")
        page.until(lambda: len(page.all("#values tr")) == 3)
        page.type("show wells", SHOWN_WELLS)
        self.ask(page, "streets", "crosses")
        page.one("#ask-wkt").clear()
        page.one("#ask-wkt").send_keys("LINESTRING (0 660, 5100 660)")
        page.use("#ask [type=submit]")
        page.until(lambda: page.hits() == [f"streets-{k}" for k in range(1, 5)])
        self.ask(page, "streets", "intersects")
        page.tool("ask-box")
        page.drag((906, 606), (1194, 696))
        page.until(lambda: page.hits() == ["streets-1", "streets-5"])
        page.type("simple streets 1", "true")
        page.type("box parcels 202", "450 0 540 300")

    def test_a_new_user(self):
        """Splits a parcel, undoes it, asks for what touches a street, and finds all after a kill."""
        page = self.open()
        page.choose((450, 100), "parcels 3, a polygon")
        page.use("#delete")
        page.sure()
        page.logged("delete parcels 3", "ok")
        page.type("add parcels POLYGON ((360 0, 450 0, 450 300, 360 300, 360 0))", "ok 201")
        page.type("add parcels POLYGON ((450 0, 540 0, 540 300, 450 300, 450 0))", "ok 202")
        page.until(lambda: page.drawn("parcels") == 201)
        for count in (200, 199, 200):
            page.use("#undo")
            page.until(lambda: page.drawn("parcels") == count)
        page.type("add wells POINT (960 300)", "ok 5")
        page.type("query wells intersects LINESTRING (960 -60, 960 2820)")
        page.until(lambda: page.hits() == ["wells-5"])
        page.choose((960, 500), "streets 1, a linestring")
        page.pick("#ask-layer", "")
        page.pick("#ask-predicate", "intersects")
        page.use("#ask-chosen")
        page.use("#ask [type=submit]")
        page.until(lambda: page.hits() == ["streets-1", "streets-5", "streets-6", "streets-7", "wells-5"])
        self.serving.end(signal.SIGKILL)
        page = self.page(self.serve(), "Ann")
        self.assertEqual((page.drawn("parcels"), page.drawn("wells")), (200, 5))
        page.use("#undo")
        page.until(lambda: page.drawn("wells") == 4)


class Several(PageCase):
    """Two pages at once, and what ends in the middle."""

    def test_two_people(self):
        ann = self.open("Ann")
        ben = self.page(self.serving, "Ben")
        ben.type("query parcels within POLYGON ((1000 -20, 2000 -20, 2000 620, 1000 620, 1000 -20))")
        ben.until(lambda: len(ben.hits()) == 10)
        ann.here().tool("point")
        ann.pick("#target", "wells")
        ann.click((1290, 450))
        ann.until(lambda: ann.last().startswith("add wells POINT ("))
        added = time.monotonic()
        line = ann.last()
        ben.here()
        ben.until(lambda: ben.drawn("wells") == 5, 5)
        self.assertLess(time.monotonic() - added, 1.5)
        self.assertEqual(len(ben.hits()), 10)
        ben.logged(line)
        self.assertIn("Ann", ben.text("#log li:last-child"))
        ben.use("#undo")
        ben.logged("undo", "refused 36 NotYours")
        ben.until(lambda: ben.text("#refusal .reason") == f"The next step is Ann's: {line}")
        ann.here().press(ann.keys.CONTROL + "z")
        ann.until(lambda: ann.drawn("wells") == 4)
        ben.here().until(lambda: ben.drawn("wells") == 4)
        ben.type("layer add trees point", "ok")
        ann.here().until(lambda: len(ann.all("#layers li")) == 4)
        ann.tool("select")
        ann.choose((270, 150), "parcels 2, a polygon")
        ben.here().type("set parcels 2 owner 'Ito'", "ok")
        ann.here().until(lambda: ann.one("#value-owner").get_property("value") == "Ito")
        ben.here().type("delete parcels 2", "ok")
        ann.here().until(lambda: ann.text("#chosen-title") == "Nothing selected")

    def test_a_group_that_is_typed_is_one_line_and_one_undo(self):
        ann = self.open("Ann")
        ben = self.page(self.serving, "Ben")
        ann.here().type("together 3", "1 of 3 comes next; Escape leaves the group")
        ann.type("add wells POINT (1290 450)", "2 of 3 comes next; Escape leaves the group")
        ann.send(ann.keys.ESCAPE)
        ann.logged("together 3", "The group is left: nothing of it was done.")
        for head, member, answer in (
            ("together 2", "delete wells 77", "refused 21 NoFeature"),
            ("together 2", "set wells last label 'new'", "ok 5"),
        ):
            ann.type(head, "1 of 2 comes next; Escape leaves the group")
            ann.type("add wells POINT (1290 450)", "2 of 2 comes next; Escape leaves the group")
            ann.one("#line-text").send_keys(member, ann.keys.ENTER)
            ann.logged(head, answer)
        ann.until(lambda: ann.drawn("wells") == 5)
        ben.here().logged("together 2", "add wells POINT (1290 450)")
        ben.until(lambda: ben.drawn("wells") == 5)
        self.assertTrue(ben.one("#undo").get_attribute("title").startswith("together 2: add wells POINT (1290 450) (Ann's)"))
        ann.here().use("#undo")
        ann.logged("undo", "ok")
        ann.until(lambda: ann.drawn("wells") == 4)
        ben.here().logged("undo", "together 2: add wells POINT (1290 450)")
        ben.until(lambda: ben.drawn("wells") == 4)

    def test_what_helps_where_a_group_is_refused(self):
        page = self.open()
        page.type("together 2")
        page.type("add parcels POLYGON ((0 0, 10 10, 10 0, 0 10, 0 0))")
        page.one("#line-text").send_keys("delete wells 1", page.keys.ENTER)
        page.logged("together 2", "refused 13 RingNotSimple")
        page.until(lambda: "line 1 of the group" in page.text("#refusal"))
        self.assertIn("(5 5)", page.text("#refusal .place"))

    def test_an_edit_by_another_takes_no_selection_back(self):
        ann = self.open("Ann")
        ann.choose((270, 150), "parcels 2, a polygon")
        ann.script(LATE)
        ann.press("n")
        self.serving.log_in("Ben").answer("set parcels 2 owner 'Ito'")
        ann.logged("set parcels 2 owner 'Ito'")
        ann.until(lambda: ann.text("#chosen-title") == "parcels 3, a polygon")

    def test_a_reload_keeps_the_name_and_the_steps(self):
        page = self.open()
        page.type("add wells POINT (1290 450)", "ok 5")
        self.driver.refresh()
        page.until(lambda: page.text("#person") == "Ann" and page.drawn("wells") == 5)
        page.use("#undo")
        page.until(lambda: page.drawn("wells") == 4)

    def test_a_crash_is_told_and_nothing_is_lost(self):
        page = self.open()
        page.type("add wells POINT (1290 450)", "ok 5")
        self.serving.end(signal.SIGKILL)
        page.one("#line-text").send_keys("add wells POINT (1 1)", page.keys.ENTER)
        page.until(lambda: "does not answer" in page.text("#status"))
        page = self.page(self.serve(f"--port={self.serving.port}"), "Ann")
        self.assertEqual(page.drawn("wells"), 5)

    def test_the_program_is_killed_and_the_page_goes_on(self):
        page = self.open()
        page.type("add wells POINT (1290 450)", "ok 5")
        subprocess.run(["pkill", "-KILL", "-P", str(self.serving.process.pid)], check=True)
        page.one("#line-text").send_keys("add wells POINT (1 1)", page.keys.ENTER)
        page.until(lambda: "Every edit that was answered is in the journal" in page.log()[-1][1])
        page.type("undo", "ok")
        page.until(lambda: page.drawn("wells") == 4)


class Editing(PageCase):
    """Shapes, vertices and values, by mouse, touch and keys."""

    def test_a_refused_polygon_is_shown_with_its_crossing(self):
        page = self.open()
        page.tool("polygon")
        page.pick("#target", "parcels")
        # A bow tie of the corners of a parcel.
        for point in ((180, 0), (360, 300), (360, 0), (180, 300)):
            page.click(point)
        page.press(page.keys.ENTER)
        page.logged("add parcels POLYGON ((180 0, 360 300, 360 0, 180 300, 180 0))", "refused 13 RingNotSimple")
        page.until(lambda: "Refused (13 RingNotSimple): a ring meets itself." == page.text("#refusal h2"))
        [mark] = page.all(".fault-mark")
        frame = page.one("#map").rect
        moved = map(float, re.findall("[-0-9.]+", mark.get_attribute("transform")))
        at = [distance + frame[side] for distance, side in zip(moved, "xy")]
        for found, meant in zip(at, page.place((270, 150))):
            self.assertAlmostEqual(found, meant, delta=2)
        self.assertTrue(page.one("#overlay .refused").get_attribute("d"))
        self.assertIn("edges 0 and 2 of ring 0 meet at (270 150)", page.text("#refusal .place"))
        page.use("#refusal button")
        self.assertFalse(page.one("#overlay .refused").get_attribute("d"))
        self.assertEqual(page.drawn("parcels"), 200)

    def test_what_would_break_a_rule_is_shown(self):
        page = self.open()
        page.type("rule add apart never parcels T******** parcels")
        page.logged("rule add apart never parcels T******** parcels", "ok")
        line = "add parcels POLYGON ((10 10, 90 10, 90 20, 10 20, 10 10))"
        page.type(line)
        page.logged(line, "refused 37 RuleBroken")
        page.until(lambda: re.fullmatch("Refused: parcels [0-9]+ and parcels 201 would overlap; parcels 201 is the new one.", page.text("#refusal h2")))
        self.assertEqual(page.text("#refusal .reason"), "Draw one of them elsewhere.")
        self.assertEqual(page.text("#refusal .help"), "The rule is apart never parcels T******** parcels (37 RuleBroken).")
        [broken] = page.all("#overlay .breaks .refused")
        self.assertTrue(broken.get_attribute("d"))
        self.assertTrue(page.one("#overlay > .refused").get_attribute("d"))
        page.use("#refusal button")
        self.assertEqual(page.all("#overlay .breaks .refused"), [])

    def test_a_vertex_is_inserted_and_taken_out(self):
        page = self.open()
        page.choose((270, 150), "parcels 2, a polygon")
        page.use("#go")
        page.until(lambda: page.script("return document.getElementById('world').getCTM().a") > 1)
        page.drag((270, 0), (270, -10))
        page.logged("vertex insert parcels 2 0 0 1 270 -10", "ok")
        page.until(lambda: "270 -10" in page.one("#wkt").get_property("value"))
        page.click((270, -10))
        held = "return document.activeElement.getAttribute('aria-label')"
        page.until(lambda: page.script(held) == "Vertex 1 of part 0, ring 0 at 270 -10")
        page.driver.switch_to.active_element.send_keys(page.keys.DELETE)
        page.logged("vertex remove parcels 2 0 0 1", "ok")
        page.until(lambda: "270 -10" not in page.one("#wkt").get_property("value"))

    def test_lines_and_multi_kinds_are_drawn(self):
        page = self.open()
        page.type("layer add fences multilinestring", "ok")
        page.until(lambda: page.script("return [...document.getElementById('target').options].length") == 4)
        page.tool("line")
        page.pick("#target", "fences")
        page.click((360, 0))
        page.click((900, 300))
        page.click((1020, 300))
        page.press(page.keys.BACKSPACE)
        page.press(page.keys.ENTER)
        page.logged("add fences MULTILINESTRING ((360 0, 900 300))", "ok 1")
        page.until(lambda: page.drawn("fences") == 1)

    def test_values_are_edited_and_cleared(self):
        page = self.open()
        page.choose((450, 150), "wells 1, a point")
        keys = page.keys
        page.one("#value-label").send_keys(keys.CONTROL + "a" + keys.NULL, "<b onclick='x()'>it's</b>", keys.ENTER)
        page.logged("set wells 1 label '<b onclick=''x()''>it''s</b>'", "ok")
        page.until(lambda: page.one("#value-label").get_property("value") == "<b onclick='x()'>it's</b>")
        self.assertEqual(page.all("b"), [])
        page.use("[aria-label='Clear label']")
        page.logged("unset wells 1 label", "ok")
        page.until(lambda: page.one("#value-label").get_property("value") == "")
        page.one("#value-depth").send_keys(keys.CONTROL + "a" + keys.NULL, "deep", keys.ENTER)
        page.until(lambda: not page.one("#refusal").get_property("hidden"))
        page.until(lambda: page.one("#value-depth").get_property("value") == "12")
        page.script("document.getElementById('wkt').value = 'POINT (460 150)'")
        page.use("#replace")
        page.logged("replace wells 1 POINT (460 150)", "ok")

    def test_a_text_has_as_many_lines_as_are_typed(self):
        page = self.open()
        page.choose((450, 150), "wells 1, a point")
        keys = page.keys
        field = page.one("#value-label")
        field.send_keys(keys.CONTROL + "a" + keys.NULL, "it's\\", keys.SHIFT + keys.ENTER + keys.NULL, "two")
        self.assertEqual(field.get_property("rows"), 2)
        field.send_keys(keys.ENTER, "three", keys.TAB)
        page.logged(r"set wells 1 label E'it''s\\\ntwo\nthree'", "ok")
        self.shows_text(page, "it's\\\ntwo\nthree", 3)
        page.type(r"set wells 1 label E'a\tb\x1b'", "ok")
        self.shows_text(page, "a\tb\x1b", 1)
        field.send_keys(keys.CONTROL + keys.END + keys.NULL, "c", keys.ENTER)
        page.logged(r"set wells 1 label E'a\tb\x1bc'", "ok")

    def test_the_ends_of_lines_stay_as_they_are(self):
        page = self.open()
        page.choose((450, 150), "wells 1, a point")
        keys = page.keys
        page.type(r"set wells 1 label E'a\r\nb'", "ok")
        self.shows_text(page, "a\nb", 2)
        page.one("#value-label").send_keys(keys.CONTROL + keys.END + keys.NULL, "c", keys.TAB)
        page.logged(r"set wells 1 label E'a\r\nbc'", "ok")
        page.type(r"set wells 1 label E'a\rb\nc'", "ok")
        # What a browser would not give back can't be typed over.
        page.until(lambda: page.one("#value-label").get_property("readOnly"))
        page.one("#value-label").send_keys("x", keys.TAB)
        page.type("set wells 1 label 'one'", "ok")
        self.shows_text(page, "one", 1)
        self.assertFalse(page.one("#value-label").get_property("readOnly"))
        self.assertNotIn("set wells 1 label 'x", str(page.log()))

    def shows_text(self, page, text, rows):
        field = page.one("#value-label")
        page.until(lambda: field.get_property("value") == text)
        self.assertEqual(field.get_property("rows"), rows)

    def test_values_of_each_type(self):
        page = self.open()
        for column_type in ("decimal", "bool", "date", "datetime"):
            page.type(f"column add wells c_{column_type} {column_type}", "ok")
        page.choose((450, 150), "wells 1, a point")
        page.until(lambda: page.all("#value-c_datetime"))
        labels = page.script("return [...document.querySelectorAll('#values label')].map((label) => label.textContent)")
        self.assertEqual(labels[-4:], ["c_decimal (decimal)", "c_bool (bool)", "c_date (date)", "c_datetime (datetime, UTC)"])
        kinds = page.script("return [...document.querySelectorAll('[id^=value-c_]')].map((field) => field.type)")
        self.assertEqual(kinds, ["text", "select-one", "date", "datetime-local"])
        keys = page.keys
        for typed, shown in (("0.1000000000000000050", "0.100000000000000005"), ("+9007199254740993.0", "9007199254740993")):
            page.one("#value-c_decimal").send_keys(keys.CONTROL + "a" + keys.NULL, typed, keys.ENTER)
            page.logged(f"set wells 1 c_decimal {typed}", "ok")
            self.shows(page, "decimal", shown)
        page.pick("#value-c_bool", "true")
        page.logged("set wells 1 c_bool true", "ok")
        page.pick("#value-c_bool", "false")
        page.logged("set wells 1 c_bool false", "ok")
        page.pick("#value-c_bool", "")
        page.logged("unset wells 1 c_bool", "ok")
        self.put(page, "date", "2024-02-29")
        page.logged("set wells 1 c_date 2024-02-29", "ok")
        self.put(page, "datetime", "2026-11-29T19:28")
        page.logged("set wells 1 c_datetime 2026-11-29T19:28:00.000Z", "ok")
        self.put(page, "datetime", "2026-11-29T19:28:11.05")
        page.logged("set wells 1 c_datetime 2026-11-29T19:28:11.050Z", "ok")
        page.type("set wells 1 c_datetime 0001-01-01T00:00:00Z", "ok")
        self.shows(page, "datetime", "0001-01-01T00:00")
        page.type("set wells 1 c_datetime 9999-12-31T23:59:59.999Z", "ok")
        self.shows(page, "datetime", "9999-12-31T23:59:59.999")
        # A field that is left as it was sends nothing, and one that is emptied clears the value.
        count = len(page.log())
        self.put(page, "datetime", "9999-12-31T23:59:59.999")
        self.put(page, "date", "2024-02-29")
        self.assertEqual(len(page.log()), count)
        self.put(page, "date", "")
        page.logged("unset wells 1 c_date", "ok")
        # A day that is typed in part is none: it is said, and nothing is sent.
        page.one("#value-c_date").send_keys("02")
        page.one("#value-c_decimal").click()
        page.logged("set wells 1 c_date", "The date in c_date is not whole: nothing was sent.")
        self.assertFalse(page.script("return document.getElementById('value-c_date').validity.badInput"))
        row = str(self.serving.log_in("Ben").line("get wells 1"))
        self.assertIn(" c_decimal=9007199254740993 c_datetime=9999-12-31T23:59:59.999Z", row)

    def test_what_is_no_number_is_said_before_it_is_sent(self):
        page = self.open()
        page.type("column add wells c_decimal decimal", "ok")
        page.choose((450, 150), "wells 1, a point")
        page.until(lambda: page.all("#value-c_decimal"))
        keys, version = page.keys, self.serving.log_in("Ben").version()
        whole = "depth takes whole numbers, from -9223372036854775808 to 9223372036854775807: nothing was sent."
        parts = "c_decimal takes numbers, such as 812.50, with 18 digits behind the point at most: nothing was sent."
        for column, shown, words, wrong in (
            ("depth", "12", whole, ("12abc", "1.5", "9223372036854775808", "-9223372036854775809", "1 2", "9" * 400)),
            ("c_decimal", "", parts, (".5", "1.", "1,5", "1e5", "abc", "0.0000000000000000001", "9223372036854775808", "922337203685477580.81")),
        ):
            field = page.one(f"#value-{column}")
            for typed in wrong:
                field.send_keys(keys.CONTROL + "a" + keys.NULL, typed, keys.ENTER)
                page.logged(f"set wells 1 {column} {typed}", words)
                self.assertEqual((page.text("#refusal h2"), field.get_property("value")), (words, shown))
        self.assertEqual(self.serving.log_in("Ben").version(), version)
        for column, right in (("depth", ("-9223372036854775808", "+9223372036854775807", "007", "-0")), ("c_decimal", ("-922337203685477580.8", "+1.50", "0.1000000000000000000000", "00012"))):
            for typed in right:
                page.one(f"#value-{column}").send_keys(keys.CONTROL + "a" + keys.NULL, typed, keys.ENTER)
                page.logged(f"set wells 1 {column} {typed}", "ok")

    def test_keys_on_a_closed_list_send_the_value_where_they_end(self):
        page = self.open()
        page.type("rule add labels one-of wells label 'the old one', 'dry in August', 'town well'", "ok")
        page.choose((450, 150), "wells 1, a point")
        page.until(lambda: page.one("#value-label").tag_name == "select")
        keys, count = page.keys, len(page.log())

        def sent():
            return [line for line, _ in page.log()[count:]]

        # Passed over, and back where it was: nothing.
        page.one("#value-label").send_keys(keys.ARROW_DOWN, keys.ARROW_DOWN, keys.ARROW_UP, keys.ARROW_UP, keys.TAB)
        page.one("#value-label").send_keys(keys.ARROW_DOWN, keys.ARROW_DOWN)
        self.assertEqual((sent(), page.one("#value-label").get_property("value")), ([], "town well"))
        page.send(keys.ENTER)
        page.logged("set wells 1 label 'town well'", "ok")
        page.one("#value-label").send_keys(keys.HOME, keys.ARROW_DOWN, keys.ARROW_DOWN, keys.TAB)
        page.logged("set wells 1 label 'dry in August'", "ok")
        # By the mouse at once.
        page.script("document.getElementById('value-label').dispatchEvent(new PointerEvent('pointerdown'))")
        page.pick("#value-label", "the old one")
        page.logged("set wells 1 label 'the old one'", "ok")
        self.assertEqual(len(sent()), 3)
        # So it is with the style of a layer, which all see.
        page.use("#layers li:nth-child(3) button.quiet")
        page.one("#style-symbol").send_keys(keys.ARROW_DOWN, keys.ARROW_DOWN)
        self.assertEqual(self.serving.call("/styles")["styles"], {})
        page.send(keys.TAB)
        page.until(lambda: self.serving.call("/styles")["styles"].get("wells", {}).get("symbol") == "triangle")

    def test_the_browser_asks_before_what_is_typed_is_gone(self):
        page = self.open()
        page.choose((450, 150), "wells 1, a point")
        asks = "const leaving = new Event('beforeunload', { cancelable: true }); dispatchEvent(leaving); return leaving.defaultPrevented"
        self.assertFalse(page.script(asks))
        keys = page.keys
        for field, rest in (("#value-depth", "3"), ("#value-label", "x"), ("#wkt", " "), ("#line-text", "undo")):
            before = page.one(field).get_property("value")
            page.one(field).send_keys(rest)
            self.assertTrue(page.script(asks), field)
            page.script("const [field, value] = arguments; field.value = value", page.one(field), before)
            self.assertFalse(page.script(asks), field)
        page.one("#value-depth").send_keys(keys.CONTROL + "a" + keys.NULL, "77", keys.ENTER)
        page.logged("set wells 1 depth 77", "ok")
        self.assertFalse(page.script(asks))
        page.one("#line-text").send_keys("together 2", keys.ENTER)
        self.assertTrue(page.script(asks))
        page.one("#line-text").send_keys(keys.ESCAPE)
        self.assertFalse(page.script(asks))
        page.use("#layers li:nth-child(3) button.quiet")
        for summary in page.all("#layer-editor summary, #layer-making summary"):
            page.script("arguments[0].parentElement.open = true", summary)
        self.assertFalse(page.script(asks))
        for field in ("#layer-name", "#column-name", "#layer-new-name"):
            page.one(field).send_keys("x")
            self.assertTrue(page.script(asks), field)
            page.one(field).send_keys(keys.BACKSPACE)
            self.assertFalse(page.script(asks), field)
        for tool, is_asked in (("line", True), ("polygon", True), ("measure", False)):
            page.tool(tool)
            page.click((700, 400))
            self.assertEqual(page.script(asks), is_asked, tool)
            page.press(keys.ESCAPE)
            self.assertFalse(page.script(asks), tool)

    def test_values_that_rules_allow_are_chosen(self):
        page = self.open()
        page.type("rule add labels one-of wells label 'the old one', 'dry in August', 'town well'", "ok")
        page.type("rule add depths one-of wells depth 12, 3, 31, 8", "ok")
        page.type("rule add more one-of wells depth 8, 12, 31, 3, 9", "ok")
        page.type("rule add wide range wells depth 2 to", "ok")
        page.choose((450, 150), "wells 1, a point")
        chosen = "const list = document.getElementById(arguments[0]); return [list.value, ...[...list.options].map((each) => each.value)]"
        self.assertEqual(page.script(chosen, "value-label"), ["the old one", "", "the old one", "dry in August", "town well"])
        # Those that all rules allow.
        self.assertEqual(page.script(chosen, "value-depth"), ["12", "", "12", "3", "31", "8"])
        self.assertEqual(page.one("#value-depth").get_property("title"), "The rule allows 2 to")
        for value, line in (("town well", "set wells 1 label 'town well'"), ("", "unset wells 1 label")):
            page.pick("#value-label", value)
            page.logged(line, "ok")
        page.pick("#value-depth", "31")
        page.logged("set wells 1 depth 31", "ok")
        page.type("get wells 1", "rows 1\n1 POINT (450 150) depth=31")

    def shows(self, page, column_type, value):
        page.until(lambda: page.one(f"#value-c_{column_type}").get_property("value") == value)

    def put(self, page, column_type, value):
        """What a person types into a field of a day, in whatever order the browser's language has its parts."""
        script = "const field = document.getElementById(arguments[0]); field.focus(); field.value = arguments[1]; field.blur();"
        page.script(script, f"value-c_{column_type}", value)

    def test_all_by_keys(self):
        page = self.open()
        keys = page.keys
        page.press("n", "n")
        page.until(lambda: page.text("#chosen-title") == "parcels 2, a polygon")
        page.press("p", "p")
        page.until(lambda: page.text("#chosen-title") == "wells 4, a point")
        page.press("v")
        held = lambda: page.driver.switch_to.active_element
        page.until(lambda: held().get_attribute("aria-label") == "Vertex 0 of part 0, ring 0 at 4500 150")
        held().send_keys(keys.ARROW_RIGHT, keys.ARROW_UP, keys.SHIFT + keys.ARROW_UP, keys.ENTER)
        page.logged("vertex move wells 4 0 0 0 4501 161", "ok")
        page.until(lambda: held().get_attribute("aria-label") == "Vertex 0 of part 0, ring 0 at 4501 161")
        page.press(keys.DELETE)
        page.driver.switch_to.active_element.send_keys(keys.ENTER)
        page.logged("delete wells 4", "ok")
        page.press(keys.CONTROL + "z")
        page.until(lambda: page.drawn("wells") == 4)
        self.draw_by_keys(page)

    def draw_by_keys(self, page):
        keys = page.keys
        page.one("[data-tool=line]").send_keys(keys.ENTER)
        page.one("#target").send_keys("streets")
        page.press("0", " ", keys.ARROW_RIGHT * 3, " ", keys.ENTER)
        page.until(lambda: page.last().startswith("add streets LINESTRING ("))
        page.until(lambda: page.drawn("streets") == 8)
        page.press(keys.ESCAPE, "+", "+", "-", keys.ARROW_LEFT, keys.SHIFT + keys.ARROW_DOWN)
        page.one("[data-tool=point]").send_keys(keys.SPACE)
        page.one("#target").send_keys("wells")
        page.press(" ")
        page.until(lambda: page.last().startswith("add wells POINT ("))

    def test_touch_moves_and_zooms(self):
        page = self.open()
        matrix = lambda: [page.script(f"return document.getElementById('world').getCTM().{part}") for part in "aef"]
        before = matrix()
        self.touch([[(400, 300)], [(420, 310)], [(450, 330)]])
        after = page.until(lambda: (found := matrix()) != before and found)
        self.assertEqual([round(b - a) for a, b in zip(before, after)], [0, 50, 30])
        self.touch([[page.place((270, 150))]])
        page.until(lambda: page.text("#chosen-title") == "parcels 2, a polygon")
        self.touch([[(400, 300), (500, 300)], [(380, 300), (520, 300)], [(350, 300), (550, 300)]])
        page.until(lambda: abs(matrix()[0] / after[0] - 2) < 0.01)

    def touch(self, moves):
        for kind, points in (("touchStart", moves[0]), *(("touchMove", move) for move in moves[1:]), ("touchEnd", [])):
            touches = [{"x": x, "y": y, "id": finger} for finger, (x, y) in enumerate(points)]
            self.driver.execute_cdp_cmd("Input.dispatchTouchEvent", {"type": kind, "touchPoints": touches})

    def test_layers_are_turned_off_and_on(self):
        page = self.open()
        page.use("#layers li:nth-child(1) input")
        page.until(lambda: page.drawn("parcels") == 0)
        self.assertEqual(page.drawn(), 11)
        page.use("#layers li:nth-child(1) input")
        page.until(lambda: page.drawn("parcels") == 200)
        order = page.script("return [...document.querySelectorAll('#world > g')].map(g => g.firstChild.id)")
        self.assertEqual(order, ["parcels-1", "streets-1", "wells-1"])


class Places(PageCase):
    """Where on the map one is: coordinates, a place to go to, the scale, and what is measured."""

    def bring_grid(self, wkt=""):
        grid = sidecar.Sidecar(("500000", "5600000", "0.1"), sidecar.Crs("EPSG", "25832", wkt), [])
        sidecar.write(str(self.path), grid, [files.digest(str(self.path))])

    def test_in_steps(self):
        page = self.open()
        self.assertEqual(page.text("#system"), "grid steps")
        self.assertRegex(page.text("#pointer"), "^-?[0-9]+ -?[0-9]+$")
        self.go(page, "450 150")
        self.assertEqual(page.text("#pointer"), "450 150")
        page.choose((450, 150), "wells 1, a point")
        self.assertEqual(page.text("#measures"), "")

    def test_in_steps_since_the_side_car_is_of_another_file(self):
        self.bring_grid()
        self.make(b"layer add parcels polygon\nadd parcels POLYGON ((180 0, 360 0, 360 300, 180 300, 180 0))\n" * 2)
        self.serving = self.serve()
        page = self.page(self.serving, "Ann", known=("parcels-2", (180, 0)), is_there=lambda page: page.drawn())
        self.assertEqual(page.text("#system"), "grid steps")
        self.assertEqual(page.text("#refusal h2"), "Coordinates are no longer those of the map.")
        self.assertIn("town.sfs.json belongs to another file", page.text("#refusal .reason"))
        self.assertFalse(page.one("#refusal").get_property("hidden"))
        self.serving.end()
        self.assertIn("Coordinates are steps of the grid: ", self.serving.errors)

    def test_of_a_link(self):
        self.bring_grid()
        link = self.folder / "link.sfs"
        link.symlink_to(self.path)
        told = self.serve(path=link).call("/map")
        self.assertEqual((told["grid"]["step"], told["grid_fault"]), ("0.1", None))

    def go(self, page, text):
        field = page.one("#goto-text")
        field.clear()
        field.send_keys(text, page.keys.ENTER)

    def test_on_the_map(self):
        self.bring_grid()
        page = self.open()
        self.assertEqual(page.text("#system"), "EPSG:25832")
        self.go(page, "500045.0, 5600015")
        self.assertEqual(page.text("#pointer"), "500045.0 5600015.0")
        # What is said of the window that comes then would take the place of what is said of a wrong place.
        page.until(lambda: "drawn" in page.text("#status"))
        for wrong, said in (("500045", "Two numbers are a place: x and y."), ("7 5600000000", "7 5600000000 lies outside of the grid.")):
            self.go(page, wrong)
            page.until(lambda: page.text("#status") == said)
            self.assertEqual(page.text("#pointer"), "500045.0 5600015.0")
        # As long as the bar says, in pixels.
        length, width = float(page.text("#bar").replace(",", "")), page.one("#bar").size["width"]
        [scale] = page.script("return [document.querySelector('#world').getCTM().a]")
        self.assertAlmostEqual(width, length / 0.1 * scale, delta=2)
        self.assertTrue(30 < width < 150, width)

    def test_what_is_measured(self):
        self.bring_grid(METRES)
        page = self.open()
        page.use("#fit")
        page.choose((450, 150), "wells 1, a point")
        page.choose((400, 100), "parcels 3, a polygon")
        self.assertEqual(page.text("#measures"), "Area 540 m², Length 96 m")
        page.tool("measure")
        page.click((360, 0))
        page.click((540, 0))
        page.until(lambda: page.text("#status") == "Length 18 m")
        page.click((540, 300))
        page.until(lambda: page.text("#status") == "Length 48 m, area inside 270 m²")
        page.press(page.keys.ENTER)
        self.assertEqual(page.text("#status"), "Length 48 m, area inside 270 m²")
        self.assertRegex(page.text("#bar"), "^[0-9,.]+ m$")

    def test_in_feet_and_in_degrees(self):
        self.bring_grid('PROJCS["x",GEOGCS["y",UNIT["degree",0.0174532925199433]],UNIT["US survey foot",0.304800609601219]]')
        page = self.open()
        page.use("#fit")
        page.choose((400, 100), "parcels 3, a polygon")
        self.assertEqual(page.text("#measures"), "Area 540 US ft², Length 96 US ft")
        self.serving.end()
        self.bring_grid('GEOGCS["y",UNIT["degree",0.0174532925199433]]')
        page = self.open("Ben")
        page.use("#fit")
        page.choose((400, 100), "parcels 3, a polygon")
        self.assertEqual(page.text("#measures"), "Area 540, Length 96 °")

    def test_a_sheet_has_the_coordinates_of_its_corners(self):
        self.bring_grid(METRES)
        page = self.open()
        page.script("dispatchEvent(new Event('beforeprint'))")
        corners = page.script("return [...document.querySelectorAll('#furniture .corner')].map(e => e.textContent)")
        self.assertEqual(len(corners), 2)
        # The town goes from (500000 5600000) to (500504 5600279).
        (left, top), (right, bottom) = (map(float, words.split(" ")) for words in corners)
        self.assertTrue(left < 500000 < 500504 < right and bottom < 5600000 < 5600279 < top, corners)
        self.assertRegex(page.text("#furniture"), "^[0-9,.]+ mN")
        page.script("dispatchEvent(new Event('afterprint'))")

    def test_lines_and_texts_are_those_of_the_map(self):
        self.bring_grid()
        page = self.open()
        page.choose((450, 150), "wells 1, a point")
        self.assertEqual(page.one("#wkt").get_property("value"), "POINT (500045.0 5600015.0)")
        page.type("get wells 1")
        page.logged("get wells 1", "rows 1\n1 POINT (500045.0 5600015.0) depth=12 label='the old one'")
        page.type("add wells POINT (500001.05 5600001)")
        self.assertIn("lies between two places of the grid, 500001.0 and 500001.1", page.log()[-1][1])
        page.type("add wells POINT (500001 5600001)", "ok 5")
        page.pick("#target", "wells")
        page.tool("point")
        page.click((20, 10))
        page.until(lambda: re.fullmatch(r"add wells POINT \([0-9]+\.[0-9] [0-9]+\.[0-9]\)", page.last()))
        self.assertEqual(page.one("#undo").get_property("title"), page.last())
        # Others are told so too, and the store counts in steps.
        other = self.page(self.serving, "Ben")
        other.type("get wells 5")
        other.logged("get wells 5", "rows 1\n5 POINT (500001.0 5600001.0)")

    def test_what_lies_far_off_the_map_is_asked_about(self):
        self.bring_grid()
        page = self.open()
        far, question = "add wells POINT (5000010 5600001)", "(5000010.0 5600001.0) lies far off the map. Is it meant?"

        def asked(deed):
            page.until(lambda: page.one("#sure").get_property("open"))
            self.assertEqual((page.text("#sure-words"), page.text("#sure-yes")), (question, "It is meant"))
            deed()
            page.until(lambda: not page.one("#sure").get_property("open"))

        # By keys alone: Escape is no.
        page.press(far, page.keys.ENTER, at="#line-text")
        asked(lambda: page.send(page.keys.ESCAPE))
        page.logged(far, "Nothing was done: it was not meant.")
        page.type("get wells 4", "rows 1\n4 POINT (500450.0 5600015.0) depth=8")
        # What was typed is not lost, and the field has the focus.
        page.send(page.keys.ARROW_UP, page.keys.ARROW_UP)
        self.assertEqual(page.one("#line-text").get_property("value"), far)
        page.send(page.keys.ENTER)
        asked(lambda: page.send(page.keys.ENTER))
        page.logged(far, "ok 5")
        page.use("#undo")
        page.logged("undo", "ok")
        page.choose((450, 150), "wells 1, a point")
        text = page.one("#wkt")
        text.clear()
        text.send_keys("POINT (5000010 5600001)")
        page.use("#replace")
        asked(lambda: page.use("#sure-no"))
        page.logged("replace wells 1 POINT (5000010 5600001)", "Nothing was done: it was not meant.")
        self.assertEqual(page.one("#wkt").get_property("value"), "POINT (5000010 5600001)")

    def test_a_vertex_is_moved_and_inserted_by_keys(self):
        self.bring_grid()
        page = self.open()
        page.choose((270, 150), "parcels 2, a polygon")
        page.use("#go")
        page.press("v")
        page.send("i")
        page.logged("vertex insert parcels 2 0 0 1 500027.0 5600000.0", "ok")
        page.until(lambda: "POLYGON ((500018.0 5600000.0, 500027.0 5600000.0, " in page.one("#wkt").get_property("value"))
        page.send(page.keys.ARROW_DOWN, page.keys.ENTER)
        page.until(lambda: re.fullmatch(r"vertex move parcels 2 0 0 [01] 5000[0-9.]+ 5599999.9", page.last()))

    def test_a_point_is_shown_with_what_is_around_it(self):
        self.bring_grid(METRES)
        page = self.open()
        page.choose((450, 150), "wells 1, a point")
        page.use("#go")
        self.assertEqual(page.text("#scale"), "1:500")
        # Who has looked more closely goes on so.
        page.press("+")
        page.until(lambda: page.text("#scale") == "1:333")
        page.use("#go")
        self.assertEqual(page.text("#scale"), "1:333")

    def test_what_is_refused_out_of_sight_is_shown(self):
        page = self.open()
        page.type("rule add apart never parcels T******** parcels", "ok")
        for line, shown in (
            ("add parcels POLYGON ((0 0, 30 30, 30 0, 0 30, 0 0))", ".fault-mark"),
            ("add parcels POLYGON ((10 10, 90 10, 90 20, 10 20, 10 10))", "#overlay .breaks .refused"),
        ):
            self.go(page, "1000000 1000000")
            page.until(lambda: page.text("#status") == "0 features in the window, all drawn.")
            page.type(line)
            page.until(lambda: page.all(shown) and page.script(IS_SEEN, page.one(shown), page.one("#map")))
            page.use("#refusal button")

    def test_a_rule_by_a_distance_is_told_in_units_of_the_map(self):
        self.bring_grid()
        page = self.open()
        page.type("rule add spaced never wells near 2.5 wells", "ok")
        # 3 metres and 4 metres are 5, and 1.5 and 2 are 2.5.
        page.type("add wells POINT (500042 5600011)", "ok 5")
        line = "add wells POINT (500043.5 5600013)"
        page.type(line)
        page.logged(line, "refused 37 RuleBroken")
        said = "Refused: wells 1 and wells 6 would lie within 2.5 of one another; wells 6 is the new one."
        page.until(lambda: page.text("#refusal h2") == said)
        self.assertEqual(page.text("#refusal .reason"), "Draw one of them elsewhere.")
        self.assertEqual(page.text("#refusal .help"), "The rule is spaced never wells near 2.5 wells (37 RuleBroken).")
        [broken] = page.all("#overlay .breaks .refused")
        self.assertTrue(broken.get_attribute("d"))
        self.assertTrue(page.one("#overlay > .refused").get_attribute("d"))
        page.use("#refusal button")
        self.assertEqual(page.all("#overlay .breaks .refused"), [])

    def test_what_has_nothing_near_it_is_told(self):
        page = self.open()
        page.type("rule add served each wells near 500.25 some parcels", "ok")
        line = "add wells POINT (100000 100000)"
        page.type(line)
        page.logged(line, "refused 37 RuleBroken")
        page.until(lambda: page.text("#refusal h2") == "Refused: wells 5 would lie within 500.25 of none of parcels; wells 5 is the new one.")
        self.assertEqual(page.text("#refusal .reason"), "Draw it so that it does, or draw what it needs first.")
        self.assertEqual(page.text("#refusal .help"), "The rule is served each wells near 500.250 some parcels (37 RuleBroken).")
        self.assertEqual(page.all("#overlay .breaks .refused"), [])
        self.assertTrue(page.one("#overlay > .refused").get_attribute("d"))

    def test_what_was_found_is_seen(self):
        page = self.open()
        self.addCleanup(self.driver.set_window_size, 1300, 900)
        page.choose((270, 150), "parcels 2, a polygon")
        self.driver.set_window_size(1280, 720)
        page.use("#ask-chosen")
        page.use("#ask [type=submit]")
        page.until(lambda: page.text("#hits-title") == "6 found")
        self.assertTrue(page.script(IS_SEEN, page.one("#hits"), page.one("aside")))

    def test_a_refusal_names_its_place_on_the_map(self):
        self.bring_grid()
        page = self.open()
        page.type("add parcels POLYGON ((500000 5599900, 500030 5599930, 500030 5599900, 500000 5599930, 500000 5599900))")
        page.until(lambda: "(500015.0 5599915.0)" in page.text("#refusal .place"))


class Large(PageCase):
    def test_a_map_that_is_too_large_is_counted_and_drawn_where_it_is_zoomed(self):
        points = "".join(f"add w POINT ({k % 200 * 10} {k // 200 * 10})\n" for k in range(30_000))
        self.make(f"layer add w point\n{points}layer add v point\nadd v POINT (5 5)\n".encode())
        self.serving = self.serve()
        page = self.page(self.serving, "Ann", known=("v-1", (5, 5)))
        self.assertIn("w has 30,000 here: zoom in to see them.", page.text("#status"))
        self.assertEqual(page.drawn(), 1)
        self.look_at_the_overview(page)
        page.choose((5, 5), "v 1, a point")
        page.use("#go")
        page.until(lambda: page.drawn("w") > 0)
        for _ in range(5):
            page.use("#zoom-out")
        page.until(lambda: 1_000 < page.drawn("w") < 20_000)
        spans = page.script("return performance.getEntriesByName('window').map(e => e.duration)")
        self.assertLess(min(spans), 2_000)

    def look_at_the_overview(self, page):
        """Points of a layer that is counted are seen, nothing is beside them, and what is changed is seen."""
        points = [(k % 200 * 10, k // 200 * 10) for k in range(0, 30_000, 997)]
        beside = [(x, -40) for x, _ in points]
        page.until(lambda: all(self.opacities(page, points)))
        self.assertEqual(set(self.opacities(page, beside)), {0})
        ben = self.serving.log_in("Ben")
        ben.line(f"add w POINT ({beside[7][0]} {beside[7][1]})")
        page.until(lambda: self.opacities(page, beside)[7])
        self.assertEqual(self.opacities(page, beside).count(0), len(beside) - 1)
        ben.line("undo")
        page.until(lambda: set(self.opacities(page, beside)) == {0})

    def opacities(self, page, points):
        """How opaque the overview is at points of the plane."""
        return page.script(OPACITIES, [page.place(point) for point in points])


class Reading(TestCase):
    """That all can be read, and all has a name."""

    def colours(self):
        """The colours of the light and of the dark page, by their names."""
        text = (FOLDER / "sfstore" / "web" / "static" / "page.css").read_text()
        light, dark = text.split("@media screen and (prefers-color-scheme: dark)")
        return [dict(re.findall(r"--([a-z0-9-]+): #([0-9a-f]{6});", part)) for part in (light, dark)]

    def brightness(self, colour):
        parts = [int(colour[at : at + 2], 16) / 255 for at in (0, 2, 4)]
        parts = [part / 12.92 if part <= 0.04045 else ((part + 0.055) / 1.055) ** 2.4 for part in parts]
        return sum(weight * part for weight, part in zip((0.2126, 0.7152, 0.0722), parts))

    def contrast(self, one, other):
        low, high = sorted((self.brightness(one), self.brightness(other)))
        return (high + 0.05) / (low + 0.05)

    def test_contrast(self):
        for colours in self.colours():
            self.assertEqual(len(colours), 20)
            pairs = [(ink, page) for ink in ("ink", "faint", "accent", "bad") for page in ("page", "panel")]
            pairs += [("bad", "bad-page"), ("ink", "bad-page"), ("page", "accent")]
            for ink, page in pairs:
                self.assertGreaterEqual(self.contrast(colours[ink], colours[page]), 4.5, (ink, page))
            for ink in ("hit", "chosen", *(f"tint-{k}" for k in range(8))):
                self.assertGreaterEqual(self.contrast(colours[ink], colours["map"]), 3, ink)


class Names(PageCase):
    def test_everything_that_takes_keys_has_a_name(self):
        page = self.open()
        page.choose((450, 150), "wells 1, a point")
        self.driver.execute_cdp_cmd("Accessibility.enable", {})
        nodes = self.driver.execute_cdp_cmd("Accessibility.getFullAXTree", {})["nodes"]
        found = []
        for node in nodes:
            properties = {entry["name"]: entry["value"].get("value") for entry in node.get("properties", [])}
            role = node.get("role", {}).get("value")
            if properties.get("focusable") and not node.get("ignored") and role != "RootWebArea":
                found.append((role, node.get("name", {}).get("value", "")))
        self.assertGreater(len(found), 30)
        self.assertEqual([entry for entry in found if not entry[1]], [])


if __name__ == "__main__":
    unittest.main()
