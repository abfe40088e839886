"""Tests of the page in a browser: the table of a layer's values."""

from __future__ import annotations

import unittest

from test_page import PageCase

HOSTILE = "<img src=x onerror=alert(1)></script><b>b</b>"
TURNED = "\u202eabc \u05e9\u05dc\u05d5\u05dd"
ROWS = "return [...document.querySelectorAll('#table-rows tr')].map(row => [...row.cells].map(cell => cell.textContent))"


class Table(PageCase):
    def table(self, layer="parcels", total="1 to 50 of 200"):
        page = self.open()
        page.use("#tab-table")
        page.pick("#table-layer", layer)
        page.until(lambda: page.text("#table-count") == total)
        return page

    def rows(self, page):
        return page.script(ROWS)

    def first(self, page):
        """The first cell of each row."""
        return [int(row[0]) for row in self.rows(page)]

    def marked(self, page):
        return page.script("return [...document.querySelectorAll('#table-rows [aria-selected=true]')].map(e => Number(e.dataset.id))")

    def test_rows_in_pages_are_sorted_and_searched(self):
        page = self.table()
        self.assertEqual(self.rows(page)[1], ["2", "1002", "O'Hara"])
        page.use("#table-next")
        page.until(lambda: self.first(page) == list(range(51, 101)))
        page.use("#table-head th:nth-child(3) button")
        page.until(lambda: page.one("#table-head th:nth-child(3)").get_attribute("aria-sort") == "ascending")
        page.until(lambda: page.text("#table-count") == "1 to 50 of 200")
        names = [row[2] for row in self.rows(page)]
        self.assertEqual(names, sorted(names))
        page.use("#table-head th:nth-child(3) button")
        page.until(lambda: page.one("#table-head th:nth-child(3)").get_attribute("aria-sort") == "descending")
        self.assertEqual(page.one("#table-head th:nth-child(1)").get_attribute("aria-sort"), "none")
        page.one("#table-part").send_keys("o'hara")
        page.until(lambda: "found, of 200" in page.text("#table-count"))
        self.assertEqual({row[2] for row in self.rows(page)}, {"O'Hara"})
        page.pick("#table-column", "number")
        page.pick("#table-how", "most")
        page.one("#table-value").send_keys("1025")
        page.until(lambda: page.text("#table-count").startswith("1 to 2 of 2 found"))
        page.use("#table-clear")
        page.until(lambda: page.text("#table-count") == "1 to 50 of 200")

    def test_a_row_selects_and_the_map_marks_a_row(self):
        page = self.table()
        page.use("#table-rows tr:nth-child(3)")
        page.until(lambda: page.text("#chosen-title") == "parcels 3, a polygon")
        self.assertEqual(self.marked(page), [3])
        page.choose((270, 150), "parcels 2, a polygon")
        page.until(lambda: self.marked(page) == [2])
        page.press("p")
        page.until(lambda: self.marked(page) == [1])
        # What is on another page has the table turn there.
        page.use("#table-next")
        page.until(lambda: self.first(page)[0] == 51)
        page.press("n")
        page.until(lambda: self.marked(page) == [2] and self.first(page)[0] == 1)

    def test_by_keys_alone(self):
        page = self.table()
        page.press(page.keys.ARROW_DOWN, at="#table-rows tr:nth-child(1)")
        page.send(page.keys.ARROW_DOWN, page.keys.ENTER)
        page.until(lambda: page.text("#chosen-title") == "parcels 3, a polygon")
        page.send(page.keys.END, page.keys.ARROW_DOWN)
        page.until(lambda: self.first(page)[0] == 51)
        page.until(lambda: page.script("return document.activeElement.dataset.id") == "51")
        page.send(page.keys.ARROW_UP)
        page.until(lambda: page.script("return document.activeElement.dataset.id") == "50")
        page.one("#tab-table").send_keys(page.keys.ARROW_LEFT)
        page.until(lambda: page.one("#line-text").is_displayed())
        page.type("layers", "rows 3\nparcels polygon\nstreets linestring\nwells point")

    def test_a_column_without_values_is_narrow(self):
        page = self.table()
        self.serving.log_in("Ben").answer("column add parcels what_it_is_used_for text")
        page.until(lambda: len(page.all("#table-head th")) == 4)
        page.until(lambda: len(page.all("#table-rows td.bare")) == 50)
        self.assertLess(page.one("#table-head th:nth-child(4)").size["width"], 80)
        self.serving.log_in("Cleo").answer("set parcels 7 what_it_is_used_for 'a garden'")
        page.until(lambda: not page.all("#table-rows td.bare"))
        self.assertGreater(page.one("#table-head th:nth-child(4)").size["width"], 100)

    def test_keys_go_on_where_an_edit_of_another_shows_the_table_anew(self):
        page = self.table()
        page.press(page.keys.ARROW_DOWN, at="#table-rows tr:nth-child(4)")
        self.serving.log_in("Ben").answer("set parcels 5 owner 'Ito'")
        page.until(lambda: self.rows(page)[4] == ["5", "1005", "Ito"])
        page.send(page.keys.ARROW_DOWN, page.keys.ENTER)
        page.until(lambda: page.text("#chosen-title") == "parcels 6, a polygon")

    def test_screen_readers_know_a_grid_its_rows_and_how_it_is_sorted(self):
        page = self.table()
        page.use("#table-next")
        page.until(lambda: self.first(page)[0] == 51)
        grid = page.one("#table-grid")
        told = [grid.get_attribute(name) for name in ("role", "aria-rowcount", "aria-colcount")]
        self.assertEqual(told, ["grid", "201", "3"])
        self.assertEqual(page.one("#table-rows tr").get_attribute("aria-rowindex"), "52")
        self.assertEqual(page.text("#table-caption"), "Values of parcels")
        self.assertEqual(len(page.all("#table-rows [role=gridcell]")), 150)
        self.assertEqual(len(page.all("#table-rows tr[tabindex='0']")), 1)
        self.assertEqual(page.one("#tab-table").get_attribute("aria-selected"), "true")

    def test_edits_of_others_are_shown_and_hostile_texts_stay_texts(self):
        page = self.table("wells", "1 to 4 of 4")
        ben = self.serving.log_in("Ben")
        ben.answer(f"set wells 1 label '{HOSTILE}'")
        ben.answer(f"set wells 2 label '{TURNED}'")
        ben.answer(f"set wells 3 label '{'w' * 60_000}'")
        page.until(lambda: [row[2] for row in self.rows(page)][:2] == [HOSTILE, TURNED])
        page.until(lambda: self.rows(page)[2][2].startswith("www"))
        cell = page.one("#table-rows tr:nth-child(3) td:nth-child(3)")
        self.assertLess(cell.size["width"], 400)
        self.assertEqual(cell.value_of_css_property("unicode-bidi"), "plaintext")
        self.assertEqual(page.all("#table img, #table b"), [])
        ben.answer("delete wells 1")
        page.until(lambda: self.first(page) == [2, 3, 4])
        ben.answer("column drop wells label")
        page.until(lambda: len(self.rows(page)[0]) == 2)
        ben.answer("layer drop wells")
        page.until(lambda: page.one("#table-layer").get_property("value") == "parcels" and len(self.rows(page)) == 50)

    def test_what_the_window_has(self):
        page = self.table()
        page.use("#table-here")
        page.until(lambda: page.text("#table-count") == "1 to 50 of 200")
        page.choose((270, 150), "parcels 2, a polygon")
        page.use("#go")
        page.until(lambda: "found, of 200" in page.text("#table-count"))
        self.assertIn(2, self.first(page))
        self.assertLess(len(self.first(page)), 12)


if __name__ == "__main__":
    unittest.main()
