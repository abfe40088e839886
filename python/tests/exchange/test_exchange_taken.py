"""Tests of what an import takes and how it says so: noise of doubles, large geometries, collections, mending, files that are cut."""

from __future__ import annotations

import math
import struct
import unittest
from pathlib import Path

from support import PROGRAM

from test_exchange import GRID, HAS_GDAL, ExchangeCase, Source, bring_in, give_back
from test_exchange_sets import PLAIN, SetCase

from sfstore import Store, sidecar
from sfstore.exchange.grid import Grid, OffGrid, Rounding
from sfstore.language import POINTS_MAX

if HAS_GDAL:
    from osgeo import ogr

POINT = "POINT (500000 5600000)"
PLAIN_GRID = PLAIN[:4]


def ring(points, x=0):
    """A ring of so many points, the last of which is the first: teeth along a line."""
    count = points - 3
    corners = [(x, 0), (x + count, 0)] + [(x + count - 1 - at, 1 + at % 2) for at in range(count)]
    return ", ".join(f"{a} {b}" for a, b in [*corners, corners[0]])


class Noise(ExchangeCase):
    def test_a_double_some_units_off_is_the_coordinate(self):
        """As degrees are that were computed from others."""
        grid = Grid("9", "47", "0.0000001")
        for place in (9.5, 9.5212345, 9.4999999):
            for units in (-8, -4, -1, 1, 4, 8):
                noisy = place + units * math.ulp(place)
                rounding = Rounding()
                self.assertEqual(grid.steps([noisy, 47.0], rounding), grid.steps([place, 47.0]), (place, units))
                self.assertEqual((rounding.noisy, rounding.moved), (1, 0))
            with self.assertRaises(OffGrid):
                grid.steps([place + 20 * math.ulp(place), 47.0])

    def test_near_zero_the_units_are_those_of_what_was_computed_with(self):
        self.assertEqual(Grid("0", "0", "0.1").steps([0.1 + 0.2 - 0.3, 0.0]), [0, 0])
        self.assertEqual(Grid("-60", "0", "0.001").steps([-60 + 60.001 - 0.001, 0.0]), [60000, 0])
        with self.assertRaises(OffGrid):
            Grid("0", "0", "0.1").steps([1e-12, 0.0])

    def test_where_a_step_is_no_longer_than_noise_nothing_is_noise(self):
        """A grid as fine as doubles are themselves keeps each of them."""
        step = math.ulp(1.0)
        grid = Grid("1", "1", format(step, ".60f").rstrip("0"))
        self.assertEqual(grid.steps([1.0 + 3 * step, 1.0]), [3, 0])
        coarse = Grid("1", "1", format(16 * step, ".60f").rstrip("0"))
        with self.assertRaises(OffGrid):
            coarse.steps([1.0 + 3 * step, 1.0])

    def test_it_is_counted_and_said_once_and_goes_back_as_the_grid_s(self):
        noisy = 500000.07 + math.ulp(500000.0)
        self.points({1: (f"LINESTRING ({noisy!r} 5600000, 500001 5600000.04)", {}), 2: (POINT, {})})
        status, out, err = bring_in(self.source, self.store, *GRID)
        self.assertEqual((status, err), (0, ""))
        self.assertIn("1 coordinates are taken for those of the grid, from which they differ as doubles do, by 5.82e-11", out)
        self.assertEqual(self.shown("wells")[0].wkt, "LINESTRING (7 0, 100 4)")
        self.assertEqual(give_back(self.store, self.target), (0, "", ""))
        layer = (data := ogr.Open(str(self.target))).GetLayer(0)
        feature = layer.GetFeature(1)
        self.assertEqual(feature.GetGeometryRef().GetX(0), 500000.07)
        del feature, layer, data

    def test_a_proposal_sees_through_it(self):
        places = [9.5 + at / 10_000_000 for at in range(100)]
        noisy = {at: (f"POINT ({place + 4 * math.ulp(place)!r} 47.1234567)", {}) for at, place in enumerate(places, 1)}
        self.points(noisy, crs=4326)
        status, out, _ = bring_in("--suggest", self.source)
        self.assertEqual(status, 0)
        self.assertRegex(out, "--grid [0-9.]+ [0-9.]+ 0.0000001\n")
        self.assertIn("101 of 101 different coordinates are on it", out)


class Large(ExchangeCase):
    def test_as_many_points_as_a_geometry_has_are_taken_and_more_are_counted(self):
        columns = [("NAME", ogr.OFTString)]
        features = {
            7: (f"POLYGON (({ring(POINTS_MAX)}))", {"NAME": "Sudan"}),
            14: (f"POLYGON (({ring(POINTS_MAX + 1)}))", {"NAME": "Russia"}),
            15: (f"MULTIPOINT ({', '.join(f'({at} 0)' for at in range(POINTS_MAX + 907))})", {}),
        }
        self.points(features, columns=columns)
        status, out, _ = bring_in(self.source, self.store, *PLAIN_GRID)
        self.assertEqual(status, 1)
        self.assertIn(
            f"2 too many points: 14 (Russia: {POINTS_MAX + 1:,} points, at most {POINTS_MAX:,}), "
            f"15 ({POINTS_MAX + 907:,} points, at most {POINTS_MAX:,})\n",
            out,
        )
        self.assertEqual([feature.id for feature in self.shown("wells")], [7])

    def test_a_fault_names_its_feature(self):
        columns = [("n", ogr.OFTInteger), ("name", ogr.OFTString), ("surname", ogr.OFTString)]
        bow = "POLYGON ((500000 5600000, 500003 5600003, 500003 5600000, 500000 5600002, 500000 5600000))"
        features = {1: (bow, {"name": "Mill", "surname": "x"}), 2: ("POINT (500000.001 5600000)", {"name": "Well"}),
                    3: (None, {"name": "Nowhere"})}
        self.points(features, columns=columns)
        _, out, _ = bring_in(self.source, self.store, *GRID)
        self.assertIn("1 (Mill: edges 0 and 2 of ring 0 meet at (500001.20 5600001.20))", out)
        self.assertIn("2 (Well: x 500000.001 of point 0, between 500000.00 and 500000.01)", out)
        self.assertIn("3 (Nowhere)", out)

    def test_z_is_said_to_be_dropped_on_demand_and_a_proposal_drops_it(self):
        self.points({1: ("POINT Z (500000 5600000 7)", {}), 2: ("POINT M (500000.5 5600000 7)", {})})
        _, out, _ = bring_in(self.source, self.store, *GRID)
        self.assertIn("2 Z or M (--drop-zm drops them): 1, 2\n", out)
        self.assertEqual(bring_in("--suggest", self.source)[1], "2 features: Z or M (--drop-zm drops them)\nno coordinates were found\n")
        self.assertRegex(bring_in("--suggest", self.source, "--drop-zm")[1], "^--grid 500000 5600000 0.1\n")


SQUARE = "((0 0, 9 0, 9 9, 0 9, 0 0))"
FAR = "((20 0, 29 0, 29 9, 20 9, 20 0))"


class Multi(SetCase):
    def shapefile(self, texts, kind):
        self.source = self.folder / "w.shp"
        source = Source(self.source, "ESRI Shapefile")
        source.layer("w", {at: (text, {"n": at}) for at, text in enumerate(texts)}, kind, [("n", ogr.OFTInteger)])
        source.close()
        return self.source

    def layer(self, store=None):
        with Store(PROGRAM, load=store or self.store) as opened:
            [layer] = opened.layers()
            return layer.kind, [feature.wkt for feature in opened.show(layer.name)]

    def test_polygons_of_one_part_and_of_several_are_one_layer(self):
        self.shapefile([f"POLYGON {SQUARE}", f"MULTIPOLYGON ({SQUARE}, {FAR})"], ogr.wkbPolygon)
        status, out, _ = bring_in(self.source, self.store, *PLAIN_GRID)
        self.assertEqual(status, 0)
        self.assertIn("the layer is one of multipolygons: 1 of its features have one member", out)
        kind, texts = self.layer()
        self.assertEqual(kind, "multipolygon")
        self.assertEqual([text.split(" ")[0] for text in texts], ["MULTIPOLYGON"] * 2)
        # Back in a Shapefile it is what it was.
        target = self.folder / "back.shp"
        self.assertEqual(give_back(self.store, target)[0], 0)
        self.assertEqual(
            [text for text, _ in self.shown_features(target)], [text for text, _ in self.shown_features(self.source)]
        )

    def test_lines_too(self):
        lines = ["LINESTRING (0 0, 1 1)", "MULTILINESTRING ((0 0, 1 1), (2 2, 3 3))"]
        self.shapefile(lines, ogr.wkbLineString)
        self.assertEqual(bring_in(self.source, self.store, *PLAIN_GRID)[0], 0)
        self.assertEqual(self.layer(), ("multilinestring", ["MULTILINESTRING ((0 0, 1 1))", lines[1]]))

    def test_those_of_one_part_alone_stay(self):
        self.shapefile([f"POLYGON {SQUARE}"], ogr.wkbPolygon)
        bring_in(self.source, self.store, *PLAIN_GRID)
        self.assertEqual(self.layer()[0], "polygon")
        self.shapefile([f"MULTIPOLYGON ({SQUARE}, {FAR})"], ogr.wkbPolygon)
        bring_in(self.source, self.store, *PLAIN_GRID, "--overwrite")
        self.assertEqual(self.layer()[0], "multipolygon")

    def test_one_part_is_added_to_a_layer_of_multi_forms(self):
        store = self.made("t.sfs", ["layer add w multipolygon", "column add w n int", f"add w MULTIPOLYGON ({SQUARE})"])
        self.shapefile([f"POLYGON {FAR}"], ogr.wkbPolygon)
        status, out, err = bring_in(self.source, store, "--add", "--grid", "0", "0", "1")
        self.assertEqual((status, err), (0, ""), out)
        with Store(store, journal=True, program=PROGRAM) as opened:
            self.assertEqual(len(opened.show("w")), 2)


class Collections(ExchangeCase):
    WORDS = (*PLAIN_GRID, "--part-collections")

    def test_members_become_features(self):
        nested = f"GEOMETRYCOLLECTION (POINT (1 1), GEOMETRYCOLLECTION (POLYGON {SQUARE}, LINESTRING (0 0, 1 1)))"
        features = {3: (nested, {"n": 7}), 5: ("POINT (2 2)", {"n": 8}), 9: ("GEOMETRYCOLLECTION (POINT (4 4))", {})}
        self.points(features, columns=[("n", ogr.OFTInteger)])
        status, out, _ = bring_in(self.source, self.store, *PLAIN_GRID)
        self.assertEqual(status, 1)
        self.assertIn("2 a geometry collection (--part-collections parts it): 3, 9\n", out)
        report = self.folder / "report.txt"
        status, out, _ = bring_in(self.source, self.store, *self.WORDS, "--overwrite", "--report", report)
        self.assertEqual(status, 0, out)
        self.assertIn("wells: 3 features read, 5 taken\n", out)
        self.assertIn("1 collections were parted: 2 features more than in the source\n", out)
        self.assertIn("wells\t3\tparted\t\n", report.read_text())
        self.assertEqual(
            [(feature.id, feature.wkt, feature.values) for feature in self.shown("wells")],
            [
                (3, "POINT (1 1)", {"n": 7}),
                (5, "POINT (2 2)", {"n": 8}),
                (9, "POINT (4 4)", {}),
                (10, f"POLYGON {SQUARE}", {"n": 7}),
                (11, "LINESTRING (0 0, 1 1)", {"n": 7}),
            ],
        )

    def test_a_member_that_is_not_taken_is_reported_by_its_feature(self):
        collection = "GEOMETRYCOLLECTION (POINT (1 1), POINT (0.5 1), LINESTRING (2 2, 2 2), CIRCULARSTRING (0 0, 1 1, 2 0))"
        self.points({3: (collection, {}), 4: ("GEOMETRYCOLLECTION EMPTY", {})})
        status, out, _ = bring_in(self.source, self.store, *self.WORDS)
        self.assertEqual(status, 1)
        for said in ("1 off the grid: 3 (x 0.5 of point 0, between 0 and 1)", "1 refused 10 ShortLine", "1 a curve or surface: 3"):
            self.assertIn(said, out)
        self.assertEqual([(feature.id, feature.wkt) for feature in self.shown("wells")], [(3, "POINT (1 1)")])

    def test_identifiers_that_begin_with_zero(self):
        self.source = self.folder / "s.geojson"
        source = Source(self.source, "GeoJSON")
        texts = ["GEOMETRYCOLLECTION (POINT (1 1), POINT (2 2))", "POINT (3 3)"]
        source.layer("s", {at: (text, {}) for at, text in enumerate(texts)}, crs=4326)
        source.close()
        self.assertEqual(bring_in(self.source, self.store, *self.WORDS)[0], 0)
        shown = [(feature.id, feature.wkt) for feature in self.shown("s")]
        self.assertEqual(shown, [(1, "POINT (1 1)"), (2, "POINT (3 3)"), (3, "POINT (2 2)")])

    def test_a_proposal_parts_them_too(self):
        self.points({1: ("GEOMETRYCOLLECTION (POINT (1.5 1), GEOMETRYCOLLECTION (POINT (2 2)))", {})})
        self.assertIn("1 features: a geometry collection (--part-collections parts it)\n", bring_in("--suggest", self.source)[1])
        out = bring_in("--suggest", self.source, "--part-collections")[1]
        self.assertIn("--grid 0 0 0.1\n", out)
        self.assertIn("4 of 4 different coordinates are on it\n", out)

    def test_they_are_added_to_a_store(self):
        self.points({1: ("POINT (9 9)", {})})
        self.assertEqual(bring_in(self.source, self.store, *PLAIN_GRID)[0], 0)
        self.source.unlink()
        self.points({1: ("GEOMETRYCOLLECTION (POINT (1 1), POINT (2 2))", {})})
        status, out, err = bring_in(self.source, self.store, "--add", "--part-collections")
        self.assertEqual((status, err), (0, ""), out)
        with Store(self.store, journal=True, program=PROGRAM) as store:
            self.assertEqual([f.wkt for f in store.show("wells")], ["POINT (9 9)", "POINT (1 1)", "POINT (2 2)"])


class Mend(ExchangeCase):
    def mended(self, features, *words, status=0, grid=PLAIN_GRID):
        if self.source.exists():
            self.source.unlink()
        self.points(features, columns=[("name", ogr.OFTString)])
        report = self.folder / "report.txt"
        found, out, err = bring_in(
            self.source, self.store, *grid, "--mend", "--overwrite", "--report", report, *words
        )
        self.assertEqual((found, err), (status, ""), out)
        rows = [line.split("\t") for line in report.read_text().splitlines()]
        told = {row[1]: row[3] for row in rows if row[2] == "mended"}
        return out, told, {feature.id: feature.wkt for feature in self.shown("wells")}

    def test_rings_that_rounding_has_collapsed_are_dropped(self):
        tiny = "(3 3, 3.1 3, 3.1 3.1, 3 3)"
        islands = f"MULTIPOLYGON ({SQUARE}, ((20 20, 20.2 20, 20.2 20.2, 20 20)), {FAR})"
        features = {
            1: (f"POLYGON ({SQUARE[1:-1]}, {tiny})", {"name": "Sudan"}),
            2: (islands, {}),
            3: (f"POLYGON ({tiny})", {}),
            4: ("MULTILINESTRING ((0 0, 5 5), (1 1, 1.1 1.1))", {}),
            5: ("LINESTRING (1 1, 1.1 1.1)", {}),
            6: (f"POLYGON {FAR}", {}),
        }
        out, told, shown = self.mended(features, "--round", status=1)
        self.assertEqual(told, {"1": "Sudan: 1 ring that collapsed was dropped", "2": "1 ring that collapsed was dropped",
                                "4": "1 line that collapsed was dropped"})
        self.assertIn("3 mended: 1 (Sudan: 1 ring that collapsed was dropped), 2 (", out)
        self.assertEqual(shown, {1: f"POLYGON {SQUARE}", 2: f"MULTIPOLYGON ({SQUARE}, {FAR})",
                                 4: "MULTILINESTRING ((0 0, 5 5))", 6: f"POLYGON {FAR}"})
        self.assertIn("1 refused 12 ShortRing, ", out)

    def area(self, text):
        return ogr.CreateGeometryFromWkt(text).GetArea()

    def test_what_is_invalid_is_made_valid_on_the_grid(self):
        features = {
            1: ("POLYGON ((0 0, 10 10, 10 0, 0 10, 0 0))", {"name": "bow"}),
            2: ("POLYGON ((0 0, 10 0, 10 10, 5 10, 5 20, 5 10, 0 10, 0 0))", {"name": "spike"}),
            3: ("POLYGON ((0 0, 7 5, 7 0, 0 3, 0 0))", {"name": "off the steps"}),
            4: (f"MULTIPOLYGON ({SQUARE}, ((5 0, 14 0, 14 9, 5 9, 5 0)))", {"name": "overlap"}),
            5: (f"POLYGON ({SQUARE[1:-1]}, (2 2, 12 2, 12 4, 2 4, 2 2))", {"name": "hole outside"}),
        }
        out, told, shown = self.mended(features)
        self.assertEqual(sorted(told), ["1", "2", "3", "4", "5"])
        self.assertEqual(told["1"], "bow: made valid, 1 member of 5 points became 2 members of 8 points")
        self.assertIn("5 mended: 1 (bow: made valid", out)
        self.assertEqual(self.area(shown[1]), 50)
        self.assertEqual(self.area(shown[2]), 100)
        for text in shown.values():
            self.assertTrue(ogr.CreateGeometryFromWkt(text).IsValid(), text)
        # The crossing at (2.625 1.875) has gone to (3 2): triangles of 4.5 and 10.
        self.assertEqual(self.area(shown[3]), 14.5)

    def test_without_the_word_all_is_as_it_was(self):
        self.points({1: ("POLYGON ((0 0, 10 10, 10 0, 0 10, 0 0))", {}), 2: ("POINT (1 1)", {})})
        status, out, _ = bring_in(self.source, self.store, *PLAIN_GRID)
        self.assertEqual(status, 1)
        self.assertIn("1 refused 13 RingNotSimple", out)
        self.assertNotIn("mended", out)

    def test_a_layer_of_polygons_takes_what_has_become_of_one(self):
        """Of one polygon two have become: the layer is no longer one of polygons alone."""
        source = Source(self.source)
        source.layer("w", {1: ("POLYGON ((0 0, 10 10, 10 0, 0 10, 0 0))", {})}, ogr.wkbPolygon)
        source.close()
        self.assertEqual(bring_in(self.source, self.store, *PLAIN_GRID, "--mend")[0], 0)
        with Store(PROGRAM, load=self.store) as store:
            self.assertEqual(store.run("layers"), ["w any"])
        # A store's layer of polygons does not take it.
        with Store(PROGRAM, save=self.store) as store:
            store.add_layer("w", "polygon")
        Path(f"{self.store}.json").unlink()
        status, out, _ = bring_in(self.source, self.store, *PLAIN_GRID, "--mend", "--add")
        self.assertEqual(status, 1)
        self.assertIn("1 refused 13 RingNotSimple", out)


class Cut(SetCase):
    def exported(self, name):
        lines = [line for at in range(1, 301) for line in (f"add w POINT ({at} {at})", f"set w {at} t 'v{at}'")]
        store = self.made("t.sfs", ["layer add w point", "column add w t text", *lines])
        target = self.folder / name
        self.assertEqual(give_back(store, target, *PLAIN)[0], 0)
        return target

    def test_a_flatgeobuf_that_is_cut_behind_a_feature(self):
        data = self.exported("o.fgb").read_bytes()
        at = 12 + struct.unpack("<I", data[8:12])[0]
        for _ in range(100):
            at += 4 + struct.unpack("<I", data[at : at + 4])[0]
        (self.folder / "cut.fgb").write_bytes(data[:at])
        status, out, _ = bring_in(self.folder / "cut.fgb", self.store, *PLAIN_GRID)
        self.assertEqual(status, 1)
        self.assertIn("it is cut off: 100 of the 300 features that the file counts\n", out)

    def test_a_shapefile_without_its_values(self):
        target = self.exported("o.shp")
        self.assertEqual(bring_in(target, self.store, *PLAIN_GRID)[0], 0)
        (self.folder / "o.dbf").unlink()
        status, out, _ = bring_in(target, self.store, *PLAIN_GRID, "--overwrite")
        self.assertEqual(status, 1)
        self.assertIn("it has no values: its .dbf is missing\n", out)

    def test_two_layers_of_one_name_are_counted_apart(self):
        folder = self.folder / "maps"
        folder.mkdir()
        for name, count in (("a.geojson", 2), ("b.geojson", 3)):
            source = Source(folder / name, "GeoJSON")
            source.layer("w", {at: (f"POINT ({at} 1)", {}) for at in range(1, count + 1)}, crs=4326)
            source.close()
        status, out, _ = bring_in(folder, self.store, *PLAIN_GRID)
        self.assertEqual(status, 0)
        self.assertIn("w (a.geojson): 2 features read, 2 taken\n", out)
        self.assertIn("w (b.geojson): 3 features read, 3 taken\n", out)


class SameMap(SetCase):
    """A store that was imported, and then saved by the program alone."""

    def setUp(self):
        super().setUp()
        self.points({1: (POINT, {"Größe": 7})}, name="Brunnen", columns=[("Größe", ogr.OFTReal)])
        self.assertEqual(bring_in(self.source, self.store, *GRID)[0], 0)
        with Store(PROGRAM, load=self.store, save=self.store) as store:
            store.add("Brunnen", "POINT (5 5)")
        self.side_car = Path(f"{self.store}.json")

    def test_a_word_takes_the_side_car_and_it_belongs_from_then_on(self):
        before = self.side_car.read_bytes()
        status, _, err = give_back(self.store, self.target)
        self.assertEqual(status, 3)
        self.assertIn("belongs to another file than", err)
        self.assertIn("If it is the same map on the same grid, sfstore-export and sfstore-import --add take it with --same-map.", err)
        self.assertEqual((self.side_car.read_bytes(), self.target.exists()), (before, False))
        self.assertEqual(give_back(self.store, self.target, "--same-map"), (0, "", ""))
        self.assertEqual(self.shown_features(self.target)[0], ("POINT (500000 5600000)", {"Größe": 7.0}))
        self.assertEqual(give_back(self.store, self.target, "--overwrite"), (0, "", ""))

    def test_an_addition_takes_it_too(self):
        status, _, err = bring_in(self.source, self.store, "--add")
        self.assertEqual(status, 3)
        self.assertIn("take it with --same-map", err)
        self.assertEqual(bring_in(self.source, self.store, "--add", "--same-map")[0], 0)

    def test_an_addition_that_leaves_something_out_takes_it_too(self):
        self.points({1: (POINT, {}), 2: ("POINT (500000.5 5600000.001)", {})}, name="Brunnen", columns=[("Größe", ogr.OFTReal)])
        self.assertEqual(bring_in(self.source, self.store, "--add", "--same-map")[0], 1)
        found = sidecar.read(str(self.store))
        self.assertEqual([each.left_out for each in found.additions], [[2]])
        Store(self.store, journal=True, program=PROGRAM).close()
        self.assertEqual(give_back(self.store, self.target), (0, "", ""))

    def test_a_grid_of_ones_own_is_not_taken_beside_it(self):
        status, _, err = give_back(self.store, self.target, *GRID)
        self.assertEqual(status, 3)
        self.assertIn("with --same-map. For another grid take", err)
        self.assertEqual(give_back(self.store, self.target, *GRID, "--same-map")[0], 2)
        self.assertEqual(bring_in(self.source, self.store, *GRID, "--same-map")[0], 2)
        self.side_car.unlink()
        self.assertEqual(give_back(self.store, self.target, "--same-map")[0], 3)
        self.assertEqual(give_back(self.store, self.target, *GRID)[0], 0)


del ExchangeCase, SetCase

if __name__ == "__main__":
    unittest.main()
