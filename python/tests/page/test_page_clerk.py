"""Tests of the page: a clerk's day by mouse and keyboard, in Chromium and in Firefox (docs/use/A_DAY_ON_THE_PAGE.md)."""

from __future__ import annotations

import base64
import unittest

import browser
import firefox
from clerk import GRID, METRES, Chromium, Day
from support import PROGRAM
from web_support import WebCase

from sfstore import Store, files, sidecar


class DayCase(WebCase):
    """The day over the town, in whichever browser."""

    SECONDS = 300

    def live(self, driven):
        self.addCleanup(driven.close)
        self.make_town()
        beside = sidecar.Sidecar(GRID, sidecar.Crs("EPSG", "25832", METRES), [])
        sidecar.write(str(self.path), beside, [files.digest(str(self.path))])
        with Store(self.path, journal=True, program=PROGRAM) as store:
            [parcel] = store.get("parcels", 5)
        serving = self.serve()
        day = Day(driven)
        day.come_in(serving.address())
        for step in (day.type_lines, day.go_to_a_place, day.search, day.choose_a_value, day.split, day.be_refused, day.undo, day.measure):
            step()
        self.assertTrue(base64.b64decode(day.print()).startswith(b"%PDF-"))
        self.assertEqual(serving.end(), 0)
        self.look_at_the_store(parcel)

    def look_at_the_store(self, parcel):
        """All that was done stands in the journal, and nothing that was undone."""
        with Store(self.path, journal=True, program=PROGRAM) as store:
            [found] = store.get("parcels", 5)
            self.assertEqual((found.wkt, found.values), (parcel.wkt, {**parcel.values, "use": "house"}))
            self.assertEqual(len(store.show("parcels")), 200)
            self.assertEqual([rule.name for rule in store.rules()], ["uses", "apart"])


@unittest.skipIf(browser.IS_MISSING, browser.MISSING)
class InChromium(DayCase):
    def test_the_day(self):
        self.live(Chromium())


@unittest.skipIf(firefox.IS_MISSING, firefox.MISSING)
class InFirefox(DayCase):
    def test_the_day(self):
        self.live(firefox.Firefox())


if __name__ == "__main__":
    unittest.main()
