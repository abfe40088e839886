"""Tests of an import that takes away overlaps and gaps: of made ones, and of the counties of North Carolina."""

from __future__ import annotations

import random
import re
import unittest
from fractions import Fraction
from pathlib import Path

import parcels_model as coverage
from support import PROGRAM

from test_exchange import HAS_GDAL, ExchangeCase, Source, bring_in

from sfstore import Refused, Store
from sfstore.tools import NotDone, border, cleaning, merge, split

if HAS_GDAL:
    from osgeo import ogr

COUNTIES = Path("/usr/lib/R/site-library/sf/shape/nc.shp")
PLAIN = ["--grid", "0", "0", "1"]
DEGREES = ["--grid", "-80", "35", "0.000001", "--round", "--as-text"]
LEFT, RIGHT = "POLYGON ((0 0, 50 0, 50 50, 0 50, 0 0))", "POLYGON ((50 0, 90 0, 90 60, 50 60, 50 50, 48 25, 50 0))"
RULE = "rule add alone never p T******** p\n"


class Clean(ExchangeCase):
    def cleaned(self, features, *words, status=0, kind=None):
        """What is said of an import of areas, the rows of its report, and the store's texts."""
        Source(self.source).layer("p", {number: (text, {}) for number, text in features.items()}, kind).close()
        report = self.folder / "report.txt"
        found, out, err = bring_in(self.source, self.store, *PLAIN, "--report", report, "--overwrite", *words)
        self.assertEqual(found, status, err)
        rows = [line.split("\t")[1:] for line in report.read_text().splitlines()] if status < 2 else []
        return out + err, rows, [feature.wkt for feature in self.shown("p")] if status < 2 else []

    def test_each_overlap_and_each_feature_is_reported(self):
        rules = self.folder / "rules.txt"
        rules.write_text(RULE)
        out, rows, shown = self.cleaned({7: LEFT, 9: RIGHT}, "--clean", "2", "--rules", rules)
        self.assertIn(["7", "overlap taken away", "at (48 25), of 7, 9, area 50"], rows)
        self.assertIn(["9", "cleaned", "at (48 25): area 2450 before, 2400 after"], rows)
        self.assertIn("1 overlap taken away: 7 (at (48 25), of 7, 9, area 50)\n", out)
        self.assertIn("the rule alone never p T******** p was added", out)
        self.assertEqual(sum(map(coverage.doubled, shown)), 2 * (2500 + 2400))

    def test_without_it_all_stays(self):
        out, rows, shown = self.cleaned({7: LEFT, 9: RIGHT})
        self.assertEqual((rows, shown), ([], [LEFT, RIGHT]))

    def test_what_is_wider_stays_and_is_reported(self):
        ring = "POLYGON ((0 0, 90 0, 90 90, 0 90, 0 0), (10 10, 10 80, 80 80, 80 10, 10 10))"
        out, rows, shown = self.cleaned({1: ring, 2: "POLYGON ((0 0, 5 0, 5 5, 0 5, 0 0))"}, "--clean", "0.5")
        self.assertIn(["1", "overlap that is wider, and stays", "at (0 0), of 1, 2, area 25"], rows)
        self.assertIn(["1", "gap that is wider, and stays", "at (10 10), between 1, area 4900"], rows)
        self.assertEqual(shown, [ring, "POLYGON ((0 0, 5 0, 5 5, 0 5, 0 0))"])

    def test_a_polygon_that_becomes_several_is_told(self):
        parted = {at + 1: f"POLYGON (({left} 0, {right} 0, {right} 99, {left} 99, {left} 0))" for at, (left, right) in enumerate([(0, 100), (49, 51), (100, 200)])}
        out, _, shown = self.cleaned(parted, "--clean", "3", kind=ogr.wkbPolygon)
        self.assertIn("the layer is one of any kind: a polygon became several\n", out)
        self.assertEqual(sum(text.startswith("MULTIPOLYGON") for text in shown), 1)
        with Store(PROGRAM, load=self.store) as store:
            self.assertEqual(store.layers()[0].kind, "any")

    def test_wrong_widths(self):
        for word, said in (("0", "0 is not above 0"), ("x", "'x' is no decimal"), ("-1", "-1 is not above 0"), ("nan", "no decimal number that")):
            out, _, _ = self.cleaned({1: LEFT}, "--clean", word, status=2)
            self.assertIn(said, out)
        self.cleaned({1: LEFT})
        self.assertEqual(bring_in(self.source, self.store, "--add", "--clean", "1")[0], 2)

    def test_nothing_is_written_where_a_feature_would_vanish(self):
        thin = {1: "POLYGON ((0 0, 50 0, 50 1, 0 0))", 2: "POLYGON ((0 0, 50 1, 50 2, 0 0))", 3: "POLYGON ((0 0, 50 2, 50 3, 0 0))"}
        out, _, _ = self.cleaned(thin, "--clean", "1000", status=3)
        self.assertIn("--clean: nothing would be left of p 1, near (0 0): the distance is too large for it", out)
        self.assertFalse(self.store.exists())


@unittest.skipUnless(HAS_GDAL and COUNTIES.is_file(), "no counties of North Carolina (r-cran-sf)")
class Counties(ExchangeCase):
    """A real coverage: as it is, and with each county made simpler by itself, as maps often are."""

    def simpler(self, far):
        """A copy of the counties, each made simpler by itself, which leaves overlaps and gaps."""
        # A layer is one of a data set that is held.
        data = ogr.Open(str(COUNTIES))
        features = {
            feature.GetFID() + 1: (feature.GetGeometryRef().Simplify(far).ExportToWkt(), {"NAME": feature["NAME"]})
            for feature in data.GetLayer(0)
        }
        Source(self.source).layer("nc", features, columns=[("NAME", ogr.OFTString)], crs=4326).close()

    def brought(self, source, *words):
        """What is said of an import under the rule that no two counties overlap."""
        rules = self.folder / "rules.txt"
        rules.write_text("rule add alone never nc T******** nc\n")
        report = self.folder / "report.txt"
        _, out, err = bring_in(source, self.store, *DEGREES, "--layer", "nc", "--rules", rules, "--report", report, "--overwrite", *words)
        self.assertEqual(err, "")
        return out, report.read_text()

    def test_as_they_are(self):
        """They fit: nothing is changed."""
        out, told = self.brought(COUNTIES, "--clean", "0.001")
        self.assertIn("nc: 100 features read, 100 taken", out)
        self.assertIn("the rule alone never nc T******** nc was added", out)
        self.assertNotIn("cleaned", told)

    def test_cleaned_split_and_merged(self):
        self.simpler(0.005)
        out, _ = self.brought(self.source)
        self.assertIn("the rule alone", out)
        self.assertNotIn("was added", out)
        out, told = self.brought(self.source, "--clean", "0.01")
        self.assertIn("nc: 100 features read, 100 taken", out)
        self.assertIn("the rule alone never nc T******** nc was added", out)
        self.assertGreater(len(re.findall("\toverlap taken away\t", told)), 30)
        self.assertGreater(len(re.findall("\tgap taken away\t", told)), 30)
        self.assertNotIn("stays", told)
        with Store(self.store, journal=True, program=PROGRAM) as store:
            first = store.show("nc")
            before = coverage.outline(feature.wkt for feature in first)
            # The sounds and the sea are outside; inside of the state is no gap.
            self.assertEqual([polygon.holes for polygon in before], [[]] * len(before))
            self.assertEqual(cleaning(store, "nc", 10_000).cleaning.changed, {})
            steps = self.drawn(store, random.Random(37))
            self.assertGreater(steps, 60)
            after = coverage.outline(feature.wkt for feature in store.show("nc"))
            self.assertEqual([polygon.holes for polygon in after], [[]] * len(after))
            self.assertEqual(list(store.join("nc", "T********", "nc")), [])
            self.assertEqual({feature.values["NAME"] for feature in store.show("nc")} - {feature.values["NAME"] for feature in first}, set())
            for _ in range(steps):
                store.undo()
            self.assertEqual(store.show("nc"), first)

    def drawn(self, store, chance):
        """Splits, merges and moves borders of counties, and gives how many steps that made."""
        steps = 0
        for county in range(1, 101):
            left, bottom, right, top = store.box("nc", county)
            middle = (bottom + top) // 2
            try:
                parts = split(store, "nc", county, f"LINESTRING ({left - 9} {middle}, {right + 9} {middle + chance.randint(-999, 999)})")
                steps += 1
                if county % 3 == 0:
                    merge(store, "nc", *parts)
                    steps += 1
                elif county % 3 == 1:
                    border(store, "nc", parts[0], parts[1], f"LINESTRING ({left - 9} {middle + 500}, {right + 9} {middle + 700})")
                    steps += 1
            except (NotDone, Refused) as fault:
                self.assertTrue(str(fault))
        return steps

    def test_areas_of_the_report_are_those_of_the_store(self):
        self.simpler(0.02)
        _, told = self.brought(self.source, "--clean", "0.02")
        rows = re.findall(r"nc\t(\d+)\tcleaned\tat .*: area (\S+) before, (\S+) after", told)
        self.assertGreater(len(rows), 50)
        with Store(load=self.store, program=PROGRAM) as store:
            for number, _, after in rows:
                self.assertEqual(Fraction(after), Fraction(store.area("nc", int(number))[0]) / 10**12)
