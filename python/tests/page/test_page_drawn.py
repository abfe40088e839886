"""Tests of the tools that change several features at once, in a browser: by mouse and by keys."""

from __future__ import annotations

import re
import time

from test_page import PageCase



class Drawn(PageCase):
    def setUp(self):
        super().setUp()
        self.page_of_ann = self.open()
        self.near()

    def near(self):
        """Zooms to the first parcels, so that a pixel is about a step."""
        page = self.page_of_ann
        page.choose((450, 100), "parcels 3, a polygon")
        page.use("#go")
        page.until(lambda: self.is_still(page))

    def is_still(self, page):
        """Whether the map has come to rest."""
        before = page.place((450, 150))
        time.sleep(0.3)
        return page.place((450, 150)) == before

    def shown(self, *parcels):
        """The texts of parcels."""
        page = self.page_of_ann
        line = f"get parcels {' '.join(map(str, parcels))}"
        page.type(line)
        return re.findall(r"^\d+ (POLYGON \(.*\))", page.log()[-1][1], re.MULTILINE)

    def drawn(self, line, answer="ok"):
        """Waits until a line was carried out that begins so."""
        page = self.page_of_ann
        page.until(lambda: page.last().startswith(line))
        first, *told = page.log()[-1][1].split("\n")
        self.assertEqual(first, answer)
        self.assertRegex("\n".join(told), "^changed: parcels [0-9]+")

    def test_a_border_by_mouse(self):
        page = self.page_of_ann
        before = self.shown(3, 4)
        page.tool("border")
        page.until(lambda: page.text("#status").startswith("Click the neighbour"))
        page.click((450, 100))
        page.until(lambda: page.text("#status").startswith("That is no other area of parcels"))
        page.click((560, 150))
        page.until(lambda: page.text("#status").startswith("Draw the border between parcels 3 and 4"))
        for point in ((540, 0), (520, 150), (540, 300)):
            page.click(point)
        page.press(page.keys.ENTER)
        self.drawn("border parcels 3 4 LINESTRING (540 0, 52")
        after = self.shown(3, 4)
        self.assertNotEqual(before, after)
        self.assertTrue(all(re.search("52[0-9] 1[0-9]{2}", text) for text in after), after)
        page.type("undo", "ok")
        self.assertEqual(self.shown(3, 4), before)

    def test_a_corner_by_mouse(self):
        page = self.page_of_ann
        before = self.shown(2, 3, 7, 8)
        page.tool("node")
        page.click((360, 300))
        page.click((380, 280))
        self.drawn("node 360 300 to 3")
        self.assertTrue(all("360 300" not in text for text in self.shown(2, 3, 7, 8)))
        page.type("undo", "ok")
        self.assertEqual(self.shown(2, 3, 7, 8), before)

    def test_split_hole_fill_and_merge_by_mouse(self):
        page = self.page_of_ann
        before = self.shown(3, 4)
        page.tool("hole")
        for point in ((400, 100), (440, 100), (440, 200)):
            page.click(point)
        page.press(page.keys.ENTER)
        self.drawn("hole parcels 3 POLYGON ((")
        page.tool("fill")
        page.click((433, 133))
        self.drawn("fill parcels 3 43")
        self.assertEqual(self.shown(3, 4), before)
        page.tool("merge")
        page.click((560, 150))
        self.drawn("merge parcels 3 4")
        page.tool("split")
        page.click((540, 0))
        page.click((540, 300))
        page.press(page.keys.ENTER)
        page.until(lambda: page.last().startswith("split parcels 3 LINESTRING (540 0, 540 300)"))
        self.assertRegex(page.log()[-1][1], "^ok [0-9]+\nchanged: parcels [0-9]+")

    def test_what_is_not_done_is_shown_with_its_place(self):
        page = self.page_of_ann
        page.tool("split")
        page.click((400, 100))
        page.click((440, 200))
        page.press(page.keys.ENTER)
        page.until(lambda: "Not done" in page.text("#refusal"))
        self.assertIn("the line does not part parcels 3", page.text("#refusal"))
        self.assertTrue(page.all("#overlay .cross, #overlay .fault, #overlay path"))

    def test_by_keys_alone(self):
        """The cross in the middle of the map stands for the mouse."""
        page = self.page_of_ann
        before = self.shown(3)
        page.press("k")
        self.assertEqual(page.script("return document.getElementById('map').dataset.tool"), "node")
        page.press("s")
        page.until(lambda: page.text("#status").startswith("Draw a line across"))
        # The middle of the window is that of the parcel, (450 150).
        for _ in range(12):
            page.press(page.keys.ARROW_UP)
        page.press(page.keys.SPACE)
        for _ in range(24):
            page.press(page.keys.ARROW_DOWN)
        page.press(page.keys.SPACE, page.keys.ENTER)
        page.until(lambda: page.last().startswith("split parcels 3 LINESTRING (4"))
        self.assertRegex(page.log()[-1][1], "^ok [0-9]+\nchanged: parcels [0-9]+")
        page.type("undo", "ok")
        self.assertEqual(self.shown(3), before)
        page.press(page.keys.ESCAPE)
        self.assertEqual(page.script("return document.getElementById('map').dataset.tool"), "select")

    def test_nothing_is_selected(self):
        page = self.page(self.serving, "Ben")
        page.press("m")
        page.until(lambda: page.text("#status").startswith("Select an area first"))
        page.click((450, 100))
        page.until(lambda: page.text("#status").startswith("Select an area first"))
        self.assertEqual(page.log(), [])
