"""Tests of the page in Firefox: that each view comes, and does what it does in Chromium."""

from __future__ import annotations

import base64
import unittest

import firefox
from web_support import WebCase

HOSTILE = "<img src=x onerror=alert(1)></script>"
ROWS = "[...document.querySelectorAll('#table-rows tr')].map(row => [...row.cells].map(cell => cell.textContent))"
LABELS = "[...document.querySelectorAll('#labels text')].map(e => e.textContent).sort().join()"


@unittest.skipIf(firefox.IS_MISSING, firefox.MISSING)
class Views(WebCase):
    SECONDS = 300

    def setUp(self):
        super().setUp()
        self.make_town()
        self.serving = self.serve()
        self.page = firefox.Firefox()
        self.addCleanup(self.page.close)
        self.page.open(self.serving.address("Ann"))
        self.page.until("document.getElementById('login').open")
        self.page.click("#login-form button")
        self.page.until("document.querySelectorAll('.feature').length === 211")

    def test_each_view(self):
        page = self.page
        page.until("document.getElementById('status').textContent === '211 features in the window, all drawn.'")
        self.type_a_line()
        self.look_at_the_table()
        self.style_a_layer()
        self.look_at_the_history()
        self.print_a_sheet()

    def test_what_is_typed_stays_where_columns_and_rules_come(self):
        """Firefox tells nothing of a field that goes while somebody types in it."""
        page, ben = self.page, self.serving.log_in("Ben")
        self.choose(1)
        page.click("#value-label")
        page.type("#value-label", " more")
        typed = page.script("return document.getElementById('value-label').value")
        self.assertIn(" more", typed)
        for line in "column add wells extra int", "rule add n range wells depth 0 to 100":
            ben.line(line)
            page.until("document.querySelector('#log li:last-child code')?.textContent === arguments[0]", line)
        page.until("document.getElementById('value-extra') && document.getElementById('value-depth').title === 'The rule allows 0 to 100'")
        self.assertEqual(page.script("return document.getElementById('value-label').value"), typed)
        page.type("#value-label", "\ue007")
        page.until("document.querySelector('#log li:last-child')?.textContent === arguments[0]", f"set wells 1 label '{typed}'ok")
        self.assertEqual(ben.feature("wells", 1)["values"][1]["value"], typed)

    def choose(self, identifier):
        """Selects a well, at the table."""
        page = self.page
        page.until("document.getElementById('status').textContent === '211 features in the window, all drawn.'")
        page.click("#tab-table")
        page.script("const list = document.getElementById('table-layer'); list.value = 'wells'; list.dispatchEvent(new Event('change'));")
        page.until("document.querySelectorAll('#table-rows tr').length === 4")
        page.click(f"#table-rows tr:nth-child({identifier}) td")
        page.until(f"document.getElementById('chosen-title').textContent === 'wells {identifier}, a point'")

    def test_keys_on_a_closed_list_send_the_value_where_they_end(self):
        page, ben = self.page, self.serving.log_in("Ben")
        ben.line("rule add labels one-of wells label 'the old one', 'dry in August', 'town well'")
        self.choose(1)
        page.until("document.getElementById('value-label').tagName === 'SELECT'")
        version = ben.version()
        down, tab, enter = "\ue015", "\ue004", "\ue007"
        page.type("#value-label", down)
        page.type("#value-label", down)
        self.assertEqual((page.script("return document.getElementById('value-label').value"), ben.version()), ("town well", version))
        page.type("#value-label", enter)
        page.until("document.querySelector('#log li:last-child')?.textContent === arguments[0]", "set wells 1 label 'town well'ok")
        page.type("#value-label", "\ue013")
        page.type("#value-label", tab)
        page.until("document.querySelector('#log li:last-child')?.textContent === arguments[0]", "set wells 1 label 'dry in August'ok")
        sent = page.script("return [...document.querySelectorAll('#log code')].filter(e => e.textContent.startsWith('set')).length")
        self.assertEqual(sent, 2)

    def test_the_browser_asks_before_what_is_typed_is_gone(self):
        self.choose(1)
        asks = "const leaving = new Event('beforeunload', { cancelable: true }); dispatchEvent(leaving); return leaving.defaultPrevented"
        self.assertFalse(self.page.script(asks))
        self.page.type("#value-depth", "3")
        self.assertTrue(self.page.script(asks))
        self.page.type("#value-depth", "\ue007")
        self.page.until("document.querySelector('#log li:last-child pre')?.textContent === 'ok'")
        self.assertFalse(self.page.script(asks))

    def type_a_line(self):
        self.page.type("#line-text", f"set wells 1 label '{HOSTILE}'\ue007")
        self.page.until("document.querySelector('#log li:last-child pre')?.textContent === 'ok'")

    def look_at_the_table(self):
        page = self.page
        page.click("#tab-table")
        page.until("document.querySelectorAll('#table-rows tr').length === 50")
        page.click("#table-head th:nth-child(2) button")
        page.click("#table-head th:nth-child(2) button")
        page.until(f"{ROWS}[0][1] === '1200'")
        page.click("#table-rows tr:nth-child(2) td")
        page.until("document.getElementById('chosen-title').textContent === 'parcels 199, a polygon'")
        page.until("document.querySelector('#table-rows [aria-selected=true]').dataset.id === '199'")
        page.type("#table-part", "fane")
        page.until(f"{ROWS}.length === 13")

    def style_a_layer(self):
        page = self.page
        page.click("#fit")
        page.click("#layers li:nth-child(3) button")
        for field, value in (("style-symbol", "star"), ("style-size", "20"), ("style-label", "label"), ("style-colour", "#aa0000")):
            page.script("const f = document.getElementById(arguments[0]); f.value = arguments[1]; f.dispatchEvent(new Event('change'));", field, value)
        page.until("(star => star && getComputedStyle(star).fill === 'rgb(170, 0, 0)')(document.querySelector('#wells-1.form'))")
        page.until(f"{LABELS} === arguments[0]", f"{HOSTILE},dry in August,town well")
        page.script("for (const id of ['style-symbol']) { const f = document.getElementById(id); f.value = 'square'; f.dispatchEvent(new Event('change')); }")
        page.until("getComputedStyle(document.getElementById('wells-1')).strokeWidth === '20px'")

    def look_at_the_history(self):
        page = self.page
        page.click("#tab-history")
        page.until("document.querySelectorAll('#history-rows tr').length === 1")
        page.click("#history-rows button")
        page.until("document.getElementById('chosen-title').textContent === 'wells 1, a point'")
        self.assertEqual(page.script("return document.querySelectorAll('main img, #below img, #labels script').length"), 0)

    def print_a_sheet(self):
        data = base64.b64decode(self.page.command("WebDriver:Print", orientation="landscape"))
        self.assertTrue(data.startswith(b"%PDF-"))
        self.assertIsNone(self.page.script("return document.getElementById('map').getAttribute('viewBox')"))


if __name__ == "__main__":
    unittest.main()
