"""Tests of coordinates in the units of a map: read and written exactly, refused with what is near."""

from __future__ import annotations

import random
import time
import unittest
from decimal import Decimal
from fractions import Fraction
from importlib.util import find_spec

from support import PROGRAM, TestCase

from sfstore import Store
from sfstore.language import COMMANDS, GRID_MAX, GRID_MIN
from sfstore.mapunits import MapUnits, NoPlace
from sfstore.sidecar import Crs, LayerOrigin, Sidecar, SidecarError, write
from sfstore import files

CENTIMETRES = MapUnits("500000", "5600000", "0.01")
GRIDS = [
    ("0", "0", "1"),
    ("500000", "5600000", "0.01"),
    ("-180", "-90", "0.0000001"),
    ("0.5", "-12.25", "0.05"),
    ("2600000", "1200000", "1000"),
    ("1e3", "-1e-9", "7e-9"),
    ("123456789012345678901234567890.5", "0", "0.000000000000000000000000000003"),
]


class Coordinates(unittest.TestCase):
    def test_a_grid_has_digits_of_ascii_alone(self) -> None:
        for word in ("1_0", "\u0661", "1\uff10", "x"):
            with self.assertRaisesRegex(ValueError, f"'{word}' is no decimal number$"):
                MapUnits(word, "0", "1")
        self.assertEqual(MapUnits("1e3", "-0.50", "+1").steps("(1000 0.5)"), "(0 1)")

    def test_each_step_there_and_back(self) -> None:
        chance = random.Random(89)
        for words in GRIDS:
            units, (x, y, step) = MapUnits(*words), map(Fraction, map(Decimal, words))
            steps = [GRID_MIN, GRID_MAX, 0, -1, *(chance.randint(GRID_MIN, GRID_MAX) for _ in range(10_000))]
            for first, second in zip(steps, reversed(steps)):
                place = units.places(f"POINT ({first} {second})")
                self.assertEqual(units.steps(place), f"POINT ({first} {second})")
                written = place.removeprefix("POINT (").removesuffix(")").split(" ")
                self.assertEqual([Fraction(Decimal(text)) for text in written], [x + first * step, y + second * step])

    def test_texts_of_one_place(self) -> None:
        for text in ("500045.5 5600015", "500045.50 5600015.00", "+500045.5 5600015.", "5.000455e5 56000150e-1"):
            self.assertEqual(CENTIMETRES.steps(f"POINT({text})"), "POINT(4550 1500)")

    def test_coordinates_that_are_no_place(self) -> None:
        for text, said in {
            "POINT (500045.005 5600000)": "x 500045.005 lies between two places of the grid, 500045.00 and 500045.01: take one of them",
            "POINT (500000 5599999.999)": "y 5599999.999 lies between two places of the grid, 5599999.99 and 5600000.00: take one of them",
            "POINT (4500 5600000000)": "y 5600000000 lies outside of the grid, which goes from -5137418.24 to 16337418.23",
            "LINESTRING (500000 5600000, 1e400 5600000)": "x 1e400 lies outside of the grid, which goes from -10237418.24 to 11237418.23",
        }.items():
            with self.assertRaises(NoPlace) as caught:
                CENTIMETRES.steps(text)
            self.assertEqual(str(caught.exception), said)

    def test_a_coordinate_of_very_many_digits_is_refused_at_once(self) -> None:
        begin = time.process_time()
        with self.assertRaises(NoPlace) as caught:
            CENTIMETRES.steps(f"POINT (500000.{'3' * 300_000} 5600000)")
        self.assertEqual(str(caught.exception), f"x 500000.{'3' * 33}.. has 300,007 letters, and a coordinate at most 1,000")
        with self.assertRaises(ValueError):
            MapUnits(f"0.{'3' * 300_000}", "0", "1")
        self.assertLess(time.process_time() - begin, 1)
        self.assertEqual(CENTIMETRES.steps(f"POINT (500000.{'0' * 900} 5600000)"), "POINT (0 0)")

    def test_what_is_no_coordinate_stays(self) -> None:
        for text in ("POINT (a b)", "POINT EMPTY", "POINT (nan inf)", "", "((", "POINT (1_0 0x1)"):
            self.assertEqual(CENTIMETRES.steps(text), text)
        self.assertEqual(CENTIMETRES.steps("POINT Z (500000 5600000 7.25)"), "POINT Z (0 0 7.25)")

    def test_grids_that_are_none(self) -> None:
        for words in (("0", "0", "0"), ("0", "0", "-1"), ("x", "0", "1"), ("0", "nan", "1"), ("0", "0", "1e301")):
            self.assertRaises(ValueError, MapUnits, *words)

    def test_places_between_steps(self) -> None:
        self.assertEqual(CENTIMETRES.point_text((4500, Fraction(3001, 2))), "(500045.00 5600015.00500)")
        self.assertEqual(CENTIMETRES.point_text((Fraction(5, 3), -1)), "(~500000.01667 5599999.99)")

    def test_measures(self) -> None:
        self.assertEqual(str(CENTIMETRES.area(Decimal("275376.5"))), "27.53765")
        self.assertEqual(str(CENTIMETRES.length(Decimal("15000.000"))), "150")
        self.assertEqual(str(MapUnits("0", "0", "1000").area(Decimal("4611686014132420609"))), "4611686014132420609000000")


class Lines(unittest.TestCase):
    def test_each_command_with_coordinates(self) -> None:
        for line, wanted in {
            "add wells POINT (500045 5600015)": "add wells POINT (4500 1500)",
            " @7\tadd  wells\tPOINT (500045 5600015) ": " @7\tadd  wells\tPOINT (4500 1500) ",
            "check w LINESTRING(500000 5600000,500000.01 5600000)": "check w LINESTRING(0 0,1 0)",
            "replace w 7 POINT (500000.07 5600000)": "replace w 7 POINT (7 0)",
            "relate w 500000 POINT (500000 5600000)": "relate w 500000 POINT (0 0)",
            "match w T*F**F*** POINT (500000 5600000)": "match w T*F**F*** POINT (0 0)",
            "query w intersects POINT (500000 5600000)": "query w intersects POINT (0 0)",
            "vertex move w 1 0 0 2 500000.01 5600000.02": "vertex move w 1 0 0 2 1 2",
            "vertex insert w last 0 0 2 500000.01 5600000.02": "vertex insert w last 0 0 2 1 2",
            "together 2\radd w POINT (500000 5600000)\rset w last a 500000": "together 2\radd w POINT (0 0)\rset w last a 500000",
        }.items():
            self.assertEqual(CENTIMETRES.line(line), wanted)

    def test_lines_of_steps_are_shown_and_read_again(self) -> None:
        for line, shown in {
            "add wells POINT (4500 -1)": "add wells POINT (500045.00 5599999.99)",
            "@7 replace  w 7 LINESTRING(0 0,1.0 2e1)": "@7 replace  w 7 LINESTRING(500000.00 5600000.00,500000.01 5600000.20)",
            "vertex insert w last 0 0 2 1 2": "vertex insert w last 0 0 2 500000.01 5600000.02",
            "together 2\radd w POINT (0 0)\rset w last a 5": "together 2\radd w POINT (500000.00 5600000.00)\rset w last a 5",
        }.items():
            self.assertEqual(CENTIMETRES.shown_line(line), shown)
            again = CENTIMETRES.shown_line(CENTIMETRES.line(shown))
            self.assertEqual(again, shown)
        for line in ("", "undo", "set w 1 a 'POINT (1 1)'", "add w POINT (1.5 x)", "add w POINT (1e999 y)"):
            self.assertEqual(CENTIMETRES.shown_line(line), line)

    def test_distances(self) -> None:
        asked, steps = "query w near 2.5 POINT (500000 5600000)", "query w near 250 POINT (0 0)"
        self.assertEqual(CENTIMETRES.line(asked), steps)
        self.assertEqual(CENTIMETRES.shown_line(steps), "query w near 2.5 POINT (500000.00 5600000.00)")
        self.assertEqual(CENTIMETRES.line("@7 query  w\tnear 0.00001\tPOINT (500000 5600000)"), "@7 query  w\tnear 0.001\tPOINT (0 0)")
        with self.assertRaisesRegex(NoPlace, "0.000015 is no whole number of thousandths of a grid step; 0.00001 and 0.00002 are"):
            CENTIMETRES.line("query w near 0.000015 POINT (500000 5600000)")
        with self.assertRaisesRegex(NoPlace, "has 1,000,002 letters"):
            CENTIMETRES.line(f"query w near 0.{'1' * 1_000_000} POINT (500000 5600000)")
        long = f"query w near 0.{'1' * 1_000_000} x"
        self.assertEqual(CENTIMETRES.shown_line(long), long)
        for line, wanted in {"query w near": "query w near", "query w near x POINT (500000 5600000)": "query w near x POINT (0 0)"}.items():
            self.assertEqual(CENTIMETRES.line(line), wanted)

    def test_distances_of_two_layers(self) -> None:
        for asked, steps in {
            "join w near 2.5 p": "join w near 250 p",
            "join near near 2.5 near 7": "join near near 250 near 7",
            "@7 rule add  far never w\tnear 2.5 w": "@7 rule add  far never w\tnear 250 w",
            "rule add fed each w near 0.01 some p": "rule add fed each w near 1 some p",
        }.items():
            self.assertEqual(CENTIMETRES.line(asked), steps)
            self.assertEqual(CENTIMETRES.line(CENTIMETRES.shown_line(steps)), steps)
        with self.assertRaisesRegex(NoPlace, "^the distance 0.000015 is no whole number of thousandths"):
            CENTIMETRES.line("join w near 0.000015 p")
        # A layer, a column or a rule may have this name.
        for line in ("join w touches near", "rule add near unique near near", "rule add near never near within near", "join w near", "reach w near 250"):
            self.assertEqual(CENTIMETRES.line(line), line)

    def test_lines_without(self) -> None:
        others = ["", "add", "add w", "vertex move w 1 0 0", "vertex remove w 500000 0 0 2", "set w 1 a 'POINT (500000 5600000)'", "addhex w 0101"]
        given = {"add", "check", "replace", "distance", "nearest", "relate", "match", "query"}
        words = [command.usage.split(" ") for command in COMMANDS]
        examples = [command.example for command, usage in zip(COMMANDS, words) if usage[0] not in {*given, "vertex"} and "near" not in usage]
        for line in [*others, *examples]:
            self.assertEqual(CENTIMETRES.line(line), line)

    def test_rows(self) -> None:
        for line, row, wanted in [
            ("rules", "far never w near 250 w", "far never w near 2.5 w"),
            ("rules", "fed each w near 1.5 some p", "fed each w near 0.015 some p"),
            ("rules", "uses one-of near near 'near 250'", "uses one-of near near 'near 250'"),
            ("show w", "3 POINT (4500 -1) a=7 t='(1 2)'", "3 POINT (500045.00 5599999.99) a=7 t='(1 2)'"),
            ("@2 get w 1", "1 MULTIPOLYGON (((0 0, 9 0, 9 9, 0 0)))", "1 MULTIPOLYGON (((500000.00 5600000.00, 500000.09 5600000.00, 500000.09 5600000.09, 500000.00 5600000.00)))"),
            ("box w 1", "0 -3 10 7", "500000.00 5599999.97 500000.10 5600000.07"),
            ("area w 1", "1 95.5", "1 0.00955"),
            ("length w 1", "1 15000.000", "1 150"),
            ("distance w 1 POINT (1 1)", "7.071 50", "0.07071 0.005"),
            ("nearest w 2 POINT (1 1)", "7 7.071", "7 0.07071"),
            ("distance w 1 POINT (1 1)", "0.577 1/3", "0.00577 1/30000"),
            ("layers", "w point", "w point"),
            ("find w a 7", "7", "7"),
            ("relate w 1 POINT (1 1)", "0FFFFF102", "0FFFFF102"),
        ]:
            self.assertEqual(CENTIMETRES.rows(line, [row]), [wanted])

    def test_many_rows_of_a_long_line(self) -> None:
        """The line is not read again for each row of its answer."""
        line = f"query w intersects POLYGON (({', '.join(f'{x} {x}' for x in range(20_000))}))"
        start = time.process_time()
        self.assertEqual(CENTIMETRES.rows(line, ["7"] * 10_000), ["7"] * 10_000)
        self.assertLess(time.process_time() - start, 20)


class Stores(TestCase):
    """Stores with a grid beside their file, and without."""

    def setUp(self) -> None:
        super().setUp()
        self.path = self.folder / "town.sfs"
        with Store(self.path, journal=True, program=PROGRAM) as store:
            store.add_layer("wells")
            store.add_column("wells", "depth", "int")
            store.set("wells", store.add("wells", "POINT (4500 1500)"), "depth", 12)
            store.add("wells", "POINT (15500 10000)")

    def bring_grid(self) -> None:
        origin = LayerOrigin("wells", "wells", "", "", [])
        grid = Sidecar(("500000", "5600000", "0.01"), Crs("EPSG", "25832", ""), [origin])
        write(str(self.path), grid, [files.digest(str(self.path))])

    def test_the_grid_of_a_store(self) -> None:
        for named in ({"load": self.path}, {}):
            with Store(program=PROGRAM, **named) as store:
                self.assertIsNone(store.grid)
        self.bring_grid()
        with Store(program=PROGRAM, load=self.path) as store:
            assert store.grid is not None
            self.assertEqual([store.grid.places(feature.wkt) for feature in store.get("wells", 1)], ["POINT (500045.00 5600015.00)"])
        with Store(self.path, journal=True, program=PROGRAM) as store:
            assert store.grid is not None
            added = store.add("wells", store.grid.steps("POINT (500000.01 5600000)"))
            self.assertEqual(store.get("wells", added)[0].wkt, "POINT (1 0)")
            store.save()
            self.assertIsNotNone(store.grid)
        with Store(program=PROGRAM, load=self.path, save=self.path) as store:
            store.delete("wells", 1)
        with Store(program=PROGRAM, load=self.path) as store:
            self.assertRaisesRegex(SidecarError, "belongs to another file", lambda: store.grid)

    def test_the_grid_of_a_store_to_which_a_link_leads(self) -> None:
        self.bring_grid()
        link = self.folder / "elsewhere" / "link.sfs"
        link.parent.mkdir()
        link.symlink_to(self.path)
        for named in ({"load": link}, {"path": link, "journal": True}):
            with Store(program=PROGRAM, **named) as store:
                assert store.grid is not None
                self.assertEqual(store.grid.steps("POINT (500000.01 5600000)"), "POINT (1 0)")

    @unittest.skipUnless(find_spec("geopandas"), "geopandas is not here")
    def test_a_frame(self) -> None:
        for expected in ([(4500.0, 1500.0), (15500.0, 10000.0)], [(500045.0, 5600015.0), (500155.0, 5600100.0)]):
            with Store(program=PROGRAM, load=self.path) as store:
                frame = store.to_geodataframe("wells")
            self.assertEqual([(point.x, point.y) for point in frame.geometry], expected)
            self.assertEqual(list(frame.index), [1, 2])
            self.assertEqual(list(frame["depth"])[0], 12)
            self.bring_grid()

    @unittest.skipUnless(find_spec("geopandas"), "geopandas is not here")
    def test_a_frame_in_a_system_whose_code_is_unknown(self) -> None:
        for authority, code in (("TOWN", "1"), ("EPSG", "999999"), ("", "")):
            crs = Crs(authority, code, 'LOCAL_CS["site",UNIT["metre",1]]')
            write(str(self.path), Sidecar(("0", "0", "1"), crs, []), [files.digest(str(self.path))])
            with Store(program=PROGRAM, load=self.path) as store:
                self.assertEqual(store.to_geodataframe("wells").crs.name, "site")

    @unittest.skipUnless(find_spec("geopandas"), "geopandas is not here")
    def test_a_frame_has_each_value(self) -> None:
        with Store(program=PROGRAM) as store:
            store.add_layer("w")
            for name, kind in (("number", "int"), ("geometry", "text")):
                store.add_column("w", name, kind)
            for _ in range(2):
                store.add("w", "POINT (1 2)")
            store.set("w", 1, "number", 2**53 + 1)
            store.set("w", 1, "geometry", "by hand")
            frame = store.to_geodataframe("w")
            self.assertEqual((frame["number"][1], frame["geometry"][1]), (2**53 + 1, "by hand"))
            self.assertEqual([(point.x, point.y) for point in frame.geometry], [(1.0, 2.0)] * 2)
            self.assertTrue(frame["number"].isna()[2])
            store.add_layer("empty")
            self.assertEqual(len(store.to_geodataframe("empty")), 0)


if __name__ == "__main__":
    unittest.main()
