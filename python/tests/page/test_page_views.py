"""Tests of the page in a browser: what it counts, folds, lists and prints."""

from __future__ import annotations

import base64
import re
import unittest

from test_page import PageCase

# The box of an element in the window: left, top, right, bottom.
FRAME = "const box = document.querySelector(arguments[0]).getBoundingClientRect(); return [box.left, box.top, box.right, box.bottom]"


class Values(PageCase):
    """A feature with many columns."""

    def bring(self, filled):
        lines = ["layer add assets point", "add assets POINT (450 150)"]
        lines += [f"column add assets field_{k:02d} text" for k in range(40)]
        lines += [f"set assets 1 field_{k:02d} 'value {k}'" for k in filled]
        self.make("\n".join([*lines, ""]).encode())
        page = self.page(self.serve_here(), known=("assets-1", (450, 150)))
        self.driver.set_window_size(1280, 720)
        page.choose((450, 150), "assets 1, a point")
        return page

    def serve_here(self):
        self.serving = self.serve()
        return self.serving

    def is_open(self, page, selector):
        """Whether an element is not folded away."""
        return page.script("return document.querySelector(arguments[0]).checkVisibility()", selector)

    def is_seen(self, page, selector):
        """Whether an element is in the window, and not scrolled away."""
        _, top, _, bottom = page.script(FRAME, selector)
        return top >= 0 and bottom <= page.script("return innerHeight") and page.one(selector).is_displayed()

    def test_empty_values_are_folded_and_the_buttons_stay_in_sight(self):
        page = self.bring(range(12))
        self.assertEqual(page.text("#empty-count"), "28 empty values")
        self.assertFalse(self.is_open(page, "#value-field_30"))
        for selector in ("#wkt", "#replace", "#delete", "#go"):
            self.assertTrue(self.is_seen(page, selector), selector)
        page.use("#empty summary")
        self.assertTrue(self.is_open(page, "#value-field_30"))
        self.assertTrue(self.is_seen(page, "#go"))
        page.one("#value-field_30").send_keys("new", page.keys.ENTER)
        page.logged("set assets 1 field_30 'new'", "ok")
        page.until(lambda: page.text("#empty-count") == "27 empty values, and 1 just filled in")
        # The field stays where it is while somebody fills in the next ones, and is among the others afterwards.
        self.assertTrue(self.is_open(page, "#value-field_30"))
        page.click((455, 153))
        page.until(lambda: page.text("#chosen-title") == "Nothing selected")
        page.choose((450, 150), "assets 1, a point")
        page.until(lambda: len(page.all("#filled-values tr")) == 13)
        self.assertEqual(page.text("#empty-count"), "27 empty values")

    def test_a_feature_without_any_value_shows_all_fields(self):
        page = self.bring([])
        self.assertEqual(page.text("#empty-count"), "40 empty values")
        self.assertTrue(self.is_open(page, "#value-field_00"))
        self.assertTrue(self.is_seen(page, "#go"))

    def test_few_columns_are_not_folded(self):
        page = self.open()
        page.choose((450, 150), "wells 1, a point")
        self.assertFalse(page.one("#empty").is_displayed())
        self.assertEqual(len(page.all("#filled-values tr")), 2)


class Room(PageCase):
    """What has the room that it needs in a window of 1,280 by 720."""

    # Whether an element shows all that it has.
    WHOLE = "const e = document.querySelector(arguments[0]); return e.scrollHeight <= e.clientHeight && e.scrollWidth <= e.clientWidth"

    def bring(self):
        lines = ["layer add municipalities multipolygon", "layer add w point", "add w POINT (450 150)", "column add w label text", "column add w note text"]
        lines += ["set w 1 label 'Radovljica, in the north of Slovenia'", "set w 1 note 'short'"]
        self.make("\n".join([*lines, ""]).encode())
        self.serving = self.serve()
        page = self.page(self.serving, "Ann", known=("w-1", (450, 150)))
        self.addCleanup(self.driver.set_window_size, 1300, 900)
        self.driver.set_window_size(1280, 720)
        page.choose((450, 150), "w 1, a point")
        return page

    def test_the_name_of_a_layer_is_not_broken(self):
        page = self.bring()
        name, kind = page.all("#layers li:first-child span:is(.name, .kind)")
        self.assertEqual((name.text, kind.get_attribute("title")), ("municipalities", "multipolygon"))
        self.assertLess(max(name.size["height"], kind.size["height"]), 24)
        # Its list has room for the whole name too.
        page.use("#tab-table")
        page.pick("#table-layer", "municipalities")
        wide = page.script("const pen = document.createElement('canvas').getContext('2d'); pen.font = '14px system-ui'; return pen.measureText('municipalities').width")
        self.assertGreater(page.one("#table-layer").size["width"], wide + 30)

    def test_a_long_value_is_seen_whole(self):
        page = self.bring()
        self.assertEqual([page.one(f"#value-{name}").get_property("rows") for name in ("label", "note")], [2, 1])
        self.assertTrue(page.script(self.WHOLE, "#value-label"))

    def test_a_large_area_has_its_thousands_apart(self):
        self.make(b"layer add p polygon\nadd p POLYGON ((0 0, 40000 0, 40000 30001, 0 0))\n")
        self.serving = self.serve()
        page = self.page(self.serving, known=("p-1", (0, 0)))
        page.choose((30000, 3000), "p 1, a polygon")
        # The third side is 50000.600006 long.
        self.assertEqual(page.text("#measures"), "Area 600,020,000, Length 120,001.600")

    def test_a_title_of_a_sheet_is_seen_whole(self):
        page = self.bring()
        page.use("#print")
        page.one("#sheet-name").send_keys(page.keys.CONTROL + "a" + page.keys.NULL, "Slovenia, its municipalities")
        self.assertTrue(page.script(self.WHOLE, "#sheet-name"))

    def test_what_a_field_is_for_is_seen_whole(self):
        page = self.bring()
        page.script("const e = document.getElementById('ask-wkt'); e.value = e.placeholder; e.style.width = '280px'")
        self.assertTrue(page.script(self.WHOLE, "#ask-wkt"))

    def test_the_form_of_a_layer_says_the_scale_of_now(self):
        page = self.bring()
        page.use("#layers li:nth-child(2) button.quiet")
        for _ in range(2):
            page.use("#zoom-in")
            page.until(lambda: page.text("#style-now") == f"now {page.text('#scale')}")


class Counts(PageCase):
    """How many features are in the window, and how many are drawn."""

    def test_what_is_outside_of_the_window_is_not_counted(self):
        page = self.open()
        page.until(lambda: page.text("#status") == "211 features in the window, all drawn.")
        page.one("#goto-text").send_keys("9000 9000", page.keys.ENTER)
        page.until(lambda: page.text("#status") == "0 features in the window, all drawn.")
        self.assertEqual(self.counts(page), ["0", "0", "0"])
        page.press("0")
        page.until(lambda: self.counts(page) == ["200", "7", "4"])

    def counts(self, page):
        return page.script("return [...document.querySelectorAll('#layers [data-count]')].map(e => e.textContent)")

    def test_what_only_reaches_into_the_window_is_counted(self):
        lines = ["layer add w any", "add w LINESTRING (-9000 5, 9000 5)", "add w LINESTRING (-9000 0, 0 9000)"]
        lines += ["add w POLYGON ((-9000 -9000, 9000 -9000, 9000 9000, -9000 9000, -9000 -9000))", "add w POINT (0 0)"]
        self.make("\n".join([*lines, ""]).encode())
        self.serving = self.serve()
        page = self.page(self.serving, known=("w-4", (0, 0)))
        page.click((0, 0))
        page.until(lambda: page.text("#chosen-title") == "w 4, a point")
        page.use("#go")
        # The slanted line is there no more, though its box still is; the area has no edge in the window.
        page.until(lambda: page.text("#status") == "3 features in the window, all drawn.")

    def test_a_layer_that_is_drawn_as_a_picture_is_counted_in_the_window_alone(self):
        points = "".join(f"add w POINT ({k % 200 * 10} {k // 200 * 10})\n" for k in range(30_000))
        self.make(f"layer add w point\n{points}layer add v point\nadd v POINT (5 5)\n".encode())
        self.serving = self.serve()
        page = self.page(self.serving, known=("v-1", (5, 5)))
        words = "30,001 features in the window, 1 drawn one by one. w has 30,000 here: zoom in to see them."
        page.until(lambda: page.text("#status") == words)
        self.assertEqual(self.counts(page), ["30,000", "1"])
        page.press(page.keys.ARROW_RIGHT, page.keys.ARROW_RIGHT, page.keys.ARROW_RIGHT, page.keys.ARROW_RIGHT)
        page.until(lambda: 20_000 < int(self.counts(page)[0].replace(",", "") or 0) < 30_000)


HISTORY = "return [...document.querySelectorAll('#history-rows tr')].map(row => [...row.cells].slice(1).map(cell => cell.textContent))"


class History(PageCase):
    """The list of what was done."""

    def test_what_was_done_by_whom_and_a_click_goes_there(self):
        page = self.open()
        ben = self.serving.log_in("Ben")
        page.use("#tab-history")
        ben.answer("set wells 1 depth 15")
        page.until(lambda: page.script(HISTORY) == [["Ben", "set wells 1 depth 15", "wells 1"]])
        ben.answer("add parcels POLYGON ((6000 0, 6100 0, 6100 100, 6000 100, 6000 0))")
        ben.answer("delete parcels 2")
        page.use("#undo")
        page.until(lambda: "36 NotYours" in page.text("#refusal h2"))
        page.until(lambda: len(page.script(HISTORY)) == 3)
        self.assertEqual(page.script(HISTORY)[0], ["Ben", "delete parcels 2", "parcels 2"])
        self.assertRegex(page.text("#history-rows td"), r"^\d\d:\d\d:\d\d$")
        page.use("#history-rows tr:nth-child(2) button")
        page.until(lambda: page.text("#chosen-title") == "parcels 201, a polygon")
        page.until(lambda: page.text("#pointer") == "6050 50")
        # Where something was is shown of what is there no more.
        page.use("#history-rows tr:nth-child(1) button")
        page.until(lambda: page.text("#pointer") == "270 150")
        self.assertEqual(page.text("#chosen-title"), "Nothing selected")

    def test_what_another_wrote_stays_text(self):
        page = self.open()
        line = "set wells 1 label '</td><script>alert(1)</script><img src=x>\u202e'"
        self.serving.log_in("Ben").answer(line)
        page.use("#tab-history")
        page.until(lambda: page.script(HISTORY) == [["Ben", line, "wells 1"]])
        self.assertEqual(page.all("#history img, #history script"), [])

    def test_older_ones_come_when_they_are_asked_for(self):
        page = self.open()
        ben = self.serving.log_in("Ben")
        version = ben.version()
        for depth in range(110):
            ben.line(f"set wells 1 depth {depth}", version + depth)
        page.use("#tab-history")
        page.until(lambda: len(page.script(HISTORY)) == 100)
        page.use("#history-more")
        page.until(lambda: len(page.script(HISTORY)) == 110)
        self.assertFalse(page.one("#history-more").is_displayed())


class Print(PageCase):
    """The sheet that the browser prints."""

    def emulate(self, media, scheme="light"):
        features = [{"name": "prefers-color-scheme", "value": scheme}]
        self.driver.execute_cdp_cmd("Emulation.setEmulatedMedia", {"media": media, "features": features})

    def shown(self, page, *selectors):
        return [page.one(selector).is_displayed() for selector in selectors]

    def test_a_sheet_has_map_title_legend_bar_and_north_and_nothing_else(self):
        page = self.open()
        self.serving.call("/style", layer="wells", style={"symbol": "star"})
        page.use("#layers li:nth-child(2) input")
        page.until(lambda: page.text("#status") == "204 features in the window, all drawn.")
        page.choose((270, 150), "parcels 2, a polygon")
        page.use("#print")
        self.assertEqual(page.one("#sheet-name").get_property("value"), "town.sfs")
        page.one("#sheet-name").send_keys(page.keys.CONTROL + "a" + page.keys.NULL, "Wells <b>&amp; parcels")
        page.use("#printing-leave")
        self.emulate("print")
        page.script("dispatchEvent(new Event('beforeprint'))")
        self.assertEqual(self.shown(page, "#map", "#sheet-title", "#sheet-legend", "#furniture .north"), [True] * 4)
        self.assertEqual(self.shown(page, "header", "aside", "#below", "#zoom", "#status", "#overlay"), [False] * 6)
        self.assertEqual(page.text("#sheet-title"), "Wells <b>&amp; parcels")
        legend = page.script("return [...document.querySelectorAll('#sheet-legend li')].map(e => e.textContent)")
        self.assertEqual(legend, ["wells", "parcels"])
        self.assertTrue(page.all("#sheet-legend .form"))
        self.assertRegex(page.text("#furniture"), "^[0-9,]+ stepsN$")
        self.bar_is_right(page)
        page.script("dispatchEvent(new Event('afterprint'))")
        self.emulate("")
        self.assertEqual(self.shown(page, "header", "aside", "#sheet"), [True, True, False])
        self.assertIsNone(page.one("#map").get_attribute("viewBox"))

    def test_the_map_fills_the_sheet(self):
        page = self.open()
        page.use("#tab-table")
        page.until(lambda: "window" in page.text("#status"))
        page.script("window.print = () => { window.printed = document.getElementById('map').getAttribute('viewBox'); dispatchEvent(new Event('afterprint')); }")
        page.use("#print")
        page.use("#printing-form [type=submit]")
        printed = page.until(lambda: page.script("return window.printed"))
        width, height = map(float, printed.split(" ")[2:])
        self.assertAlmostEqual(width / height, 1.45, delta=0.01)
        self.assertIsNone(page.one("#map").get_attribute("viewBox"))
        page.choose((450, 450), "parcels 8, a polygon")

    def bar_is_right(self, page):
        """Whether the bar is as long on the sheet as what it stands for: the side of a parcel has 180 steps."""
        wide = "return document.querySelector(arguments[0]).getBoundingClientRect().width"
        steps = int(page.text("#furniture text").split(" ")[0].replace(",", ""))
        one, other = page.script(wide, "#furniture path"), page.script(wide, "#parcels-2")
        self.assertAlmostEqual(one / steps, other / 180, delta=0.005)

    def test_it_is_one_page_and_light(self):
        page = self.open()
        self.addCleanup(self.emulate, "")
        self.emulate("print", "dark")
        self.assertEqual(page.script("return getComputedStyle(document.documentElement).getPropertyValue('--map').trim()"), "#ffffff")
        data = self.driver.execute_cdp_cmd("Page.printToPDF", {"printBackground": True, "preferCSSPageSize": True})["data"]
        pdf = base64.b64decode(data)
        self.assertTrue(pdf.startswith(b"%PDF-"))
        self.assertEqual(re.findall(rb"/Count (\d+)", pdf), [b"1"])


SMALL = """
return [...document.querySelectorAll("button, input, select, textarea, summary")].filter((element) => {
  const { width, height } = element.getBoundingClientRect();
  return element.checkVisibility() && width && Math.min(width, height) < 23.9;
}).map((element) => element.outerHTML.slice(0, 90));
"""
# What lies out of the window to the right, or stands over its neighbour in a row.
WIDE = "return document.documentElement.scrollWidth - innerWidth"


class Aids(PageCase):
    """What is read out, and how large what is clicked is, in each view."""

    def each_view(self, page):
        """Opens one view after another."""
        page.press("0")
        page.until(lambda: page.text("#status") == "211 features in the window, all drawn.")
        page.choose((450, 150), "wells 1, a point")
        page.use("#layers li:nth-child(3) button.quiet")
        page.pick("#style-label", "label")
        for summary in page.all("summary"):
            page.script("arguments[0].parentElement.open = true", summary)
        yield "the form of a layer"
        page.use("#tab-table")
        page.until(lambda: page.all("#table-rows tr"))
        page.pick("#table-column", "number")
        yield "the table"
        self.serving.log_in("Ben").answer("set wells 1 depth 15")
        page.use("#tab-history")
        page.until(lambda: page.all("#history-rows tr"))
        yield "the history"
        page.use("#print")
        yield "the question before a print"

    def test_all_that_takes_keys_has_a_name_and_24_pixels(self):
        page = self.open()
        self.driver.set_window_size(1280, 720)
        # The map is laid out anew, or a click goes beside what it was meant for.
        page.until(lambda: page.script("return innerWidth") == 1280)
        self.driver.execute_async_script("requestAnimationFrame(() => requestAnimationFrame(() => arguments[0]()))")
        self.driver.execute_cdp_cmd("Accessibility.enable", {})
        for view in self.each_view(page):
            nodes = self.driver.execute_cdp_cmd("Accessibility.getFullAXTree", {})["nodes"]
            self.assertEqual([node for node in map(self.named, nodes) if node and not node[1]], [], view)
            self.assertEqual(page.script(SMALL), [], view)
            self.assertLessEqual(page.script(WIDE), 0, view)

    def named(self, node):
        """The role and the name of what takes keys."""
        properties = {entry["name"]: entry["value"].get("value") for entry in node.get("properties", [])}
        role = node.get("role", {}).get("value")
        takes_keys = properties.get("focusable") and not node.get("ignored") and role not in ("RootWebArea", "row")
        return (role, node.get("name", {}).get("value", "")) if takes_keys else None

    def test_a_narrow_window_has_all_below_one_another(self):
        page = self.open()
        self.addCleanup(self.driver.set_window_size, 1300, 900)
        self.driver.set_window_size(520, 900)
        page.until(lambda: page.script("return innerWidth") < 800)
        for tab in ("#tab-table", "#tab-history", "#tab-console"):
            page.use(tab)
            self.assertLessEqual(page.script(WIDE), 0, tab)


class ManyLayers(PageCase):
    """Far more layers than anybody makes: nothing takes the square of their count, or a question of its own for each."""

    SECONDS = 900
    LAYERS = 30_000

    def test_the_page_opens(self):
        # On a machine where all else takes the processors its list takes longer than a script may.
        self.driver.set_script_timeout(300)
        self.addCleanup(self.driver.set_script_timeout, 30)
        lines = (f"layer add l{k} point\ncolumn add l{k} name text\nadd l{k} POINT ({k % 200 * 10} {k // 200 * 10})\n" for k in range(self.LAYERS))
        self.make("".join(lines).encode())
        serving = self.serve("--seconds=120")
        self.assertEqual(serving.call("/map", extent=True)["extent"], [0, 0, 1990, 1490])
        page = self.page(serving, known=("l1-1", (10, 0)), is_there=lambda page: True)
        page.until(page.drawn, 400)
        self.assertEqual(page.script("return document.querySelectorAll('#layers li').length"), self.LAYERS)
        status = page.text("#status")
        self.assertTrue(status.startswith("30,000 features in the window, 20,000 drawn one by one."), status)
        self.assertIn("So do 9,995 layers more.", status)
        page.type("add l7 POINT (35 35)", "ok 2")
        page.until(lambda: page.drawn("l7-2"), 100)


if __name__ == "__main__":
    unittest.main()
