"""Tests of grids, geometries, faults in fractions, and files of stores, against the program."""

from __future__ import annotations

import io
import itertools
import random
import struct
import unittest
from fractions import Fraction

from support import PROGRAM, TestCase

from sfstore import ProgramEnded, Refused, Store, storefile
from sfstore.exchange.grid import Grid, OffGrid, Outside, Rounding
from sfstore.faults import fault_at, fault_in
from sfstore.geometry import NotTaken, Shape, read_wkb, read_wkt, write_wkb, write_wkt
from sfstore.refusals import REFUSALS, words_of

TEXTS = [
    "POINT (3 -4)",
    "LINESTRING (0 0, -1073741824 1073741823)",
    "POLYGON ((0 0, 30 0, 30 30, 0 0), (20 10, 25 10, 25 15, 20 10))",
    "MULTIPOINT ((1 1), (2 2))",
    "MULTIPOINT ((1 1))",
    "MULTILINESTRING ((0 0, 1 1), (2 2, 3 3))",
    "MULTIPOLYGON (((0 0, 9 0, 0 9, 0 0), (1 1, 2 1, 1 2, 1 1)), ((15 5, 16 5, 15 6, 15 5)))",
    "MULTIPOLYGON (((0 0, 9 0, 0 9, 0 0)))",
]


class Grids(unittest.TestCase):
    def test_steps_are_the_nearest_doubles(self):
        dice = random.Random(1)
        for words in (("500000", "5600000.5", "0.01"), ("-0.3", "47.1", "0.0000001"), ("0", "7", "25")):
            grid = Grid(*words)
            exact = [Fraction(word) for word in words]
            for _ in range(2000):
                steps = [dice.randrange(-1073741824, 1073741824) for _ in range(2)]
                places = grid.places(steps)
                for axis in (0, 1):
                    self.assertEqual(places[axis], float(exact[axis] + steps[axis] * exact[2]))
                self.assertEqual(grid.steps(places), steps)

    def test_off_the_grid_and_outside(self):
        grid = Grid("0", "0", "0.01")
        for place in (0.001, 0.015, 83886.071, float("nan"), float("inf"), 0.01000000000000007):
            with self.assertRaises(OffGrid, msg=place):
                grid.steps([place, 0.0])
        # A unit in the last place is what computing leaves.
        self.assertEqual(grid.steps([0.010000000000000002, 0.0]), [1, 0])
        self.assertEqual(grid.steps([10737418.23, -10737418.24]), [1073741823, -1073741824])
        for pair in ([10737418.24, 0.0], [0.0, -10737418.25]):
            with self.assertRaises(Outside):
                grid.steps(pair)
        with self.assertRaisesRegex(OffGrid, "y 0.001 of point 1"):
            grid.steps([0.0, 0.0, 0.0, 0.001])

    def test_rounding_takes_the_nearest_step_and_counts(self):
        grid, rounding = Grid("0", "0", "0.5"), Rounding(is_asked=True)
        steps = grid.steps([0.2, 0.3, 0.25, -0.25, 1.5, -1.5], rounding)
        self.assertEqual(steps, [0, 1, 1, 0, 3, -3])
        self.assertEqual(rounding.moved, 4)
        self.assertEqual(rounding.most, 0.25)
        self.assertAlmostEqual(rounding.total, 0.9)

    def test_words_that_make_no_grid(self):
        for words in (("0", "0", "0"), ("0", "0", "-1"), ("x", "0", "1"), ("0", "nan", "1")):
            with self.assertRaises(ValueError):
                Grid(*words)
        for words in (("0", "0", "inf"), ("0", "0", "1e-400"), ("0", "0", "1/3"), ("", "0", "1")):
            with self.assertRaises(ValueError):
                Grid(*words)


class Geometries(TestCase):
    def test_texts_and_binaries_are_the_programs(self):
        with Store(PROGRAM) as store:
            store.add_layer("w")
            for text in TEXTS:
                number = store.add("w", text)
                shape = read_wkt(text)
                binary = write_wkb(shape)
                self.assertEqual(binary.hex(), store.hex("w", number))
                self.assertEqual(write_wkt(read_wkb(binary)), text)
                self.assertEqual(write_wkt(shape), text)

    def test_texts_as_people_write_them(self):
        for text, canonical in (
            ("  point(+1.00   -2.)", "POINT (1 -2)"),
            ("MultiPoint (1 1, (2 2),3 3)", "MULTIPOINT ((1 1), (2 2), (3 3))"),
            ("polygon((0 0,3 0,\t0 3,0 0) )", "POLYGON ((0 0, 3 0, 0 3, 0 0))"),
            (
                "MULTIPOLYGON(((0 0,3 0,0 3,0 0),(1 1,2 1,1 2,1 1)) , ((9 9,9 8,8 8,9 9)))",
                "MULTIPOLYGON (((0 0, 3 0, 0 3, 0 0), (1 1, 2 1, 1 2, 1 1)), ((9 9, 9 8, 8 8, 9 9)))",
            ),
        ):
            self.assertEqual(write_wkt(read_wkt(text)), canonical)
        for text in ("", "POINT", "CIRCLE (1 2)", "any (1 2)"):
            with self.assertRaises(NotTaken):
                read_wkt(text)

    def test_binaries_that_are_not_taken(self):
        nan = float("nan")
        for binary, reason in (
            (struct.pack("<BI3d", 1, 1001, 1, 2, 3), "Z or M"),
            (struct.pack("<BI3d", 1, 0x80000001, 1, 2, 3), "Z or M"),
            (struct.pack("<BII", 1, 7, 0), "a geometry collection"),
            (struct.pack("<BII", 1, 8, 0), "a curve or surface"),
            (struct.pack("<BI2d", 1, 1, nan, nan), "empty"),
            (struct.pack("<BII", 1, 2, 0), "empty"),
            (struct.pack("<BII", 1, 3, 0), "empty"),
            (struct.pack("<BIII", 1, 3, 1, 0), "empty"),
            (struct.pack(">BII", 0, 6, 0), "empty"),
            (b"", "ends too early"),
            (struct.pack("<BI", 1, 1), "ends too early"),
            (struct.pack("<BII", 1, 2, 0xFFFFFFFF), "ends too early"),
            (struct.pack("<BII", 1, 4, 1) * 9999, "members of another kind"),
        ):
            with self.assertRaisesRegex(NotTaken, reason):
                read_wkb(binary)

    def test_the_other_order_of_bytes(self):
        self.assertEqual(
            read_wkb(struct.pack(">BII4d", 0, 2, 2, 1, 2, 3, 4)), Shape(2, [[(1, 2, 3, 4)]])
        )


class Faults(TestCase):
    """Each broken rule is refused by the program, and its place is found."""

    CASES = [
        (10, "LINESTRING (5 5, 5 5)", "line has the point (5 5) alone"),
        (10, "MULTILINESTRING ((0 0, 1 1), (5 5, 5 5))", "line of member 1 has the point (5 5) alone"),
        (11, "POLYGON ((0 0, 9 0, 9 9, 0 1))", "ring 0 begins at (0 0) and ends at (0 1)"),
        (
            12,
            "POLYGON ((0 0, 9 0, 9 9, 0 0), (1 1, 2 2, 2 2, 1 1))",
            "ring 1, which begins at (1 1), has 3 points, "
            "repeats dropped and the closing one counted",
        ),
        (13, "POLYGON ((0 0, 3 3, 3 0, 0 2, 0 0))", "edges 0 and 2 of ring 0 meet at (6/5 6/5)"),
        (
            13,
            "POLYGON ((0 0, 9 0, 9 0, 4 0, 4 5, 0 0))",
            "edges 0 and 2 of ring 0 run along each other from (4 0) to (9 0)",
        ),
        (13, "POLYGON ((0 0, 4 0, 4 4, 2 0, 0 4, 0 0))", "edges 0 and 2 of ring 0 meet at (2 0)"),
        (
            14,
            "POLYGON ((0 0, 9 0, 9 9, 0 9, 0 0), (0 1, 5 5, 0 7, 0 1))",
            "edge 3 of ring 0 and edge 2 of ring 1 run along each other from (0 1) to (0 7)",
        ),
        (
            15,
            "POLYGON ((0 0, 9 0, 9 9, 0 9, 0 0), (1 1, 12 5, 1 7, 1 1))",
            "edge 0 of ring 1, from (1 1) to (12 5), is not all in ring 0",
        ),
        (
            15,
            "POLYGON ((0 0, 10 0, 10 10, 5 2, 0 10, 0 0), (1 1, 1 4, 9 4, 9 1, 1 1))",
            "edge 1 of ring 1, from (1 4) to (9 4), is not all in ring 0",
        ),
        (
            16,
            "POLYGON ((0 0, 99 0, 99 99, 0 99, 0 0), (5 5, 50 5, 50 50, 5 5), (20 10, 40 10, 40 20, 20 10))",
            "ring 1, which begins at (5 5), and ring 2, which begins at (20 10), have points inside both",
        ),
        (
            17,
            "MULTIPOLYGON (((0 0, 9 0, 9 9, 0 0)), ((5 1, 20 1, 20 2, 5 1)))",
            "members 0, which begins at (0 0), and 1, which begins at (5 1), have points inside both",
        ),
        (
            17,
            "MULTIPOLYGON (((0 0, 9 0, 9 9, 0 9, 0 0)), ((-1 4, 10 4, 10 5, -1 5, -1 4)))",
            "members 0, which begins at (0 0), and 1, which begins at (-1 4), have points inside both",
        ),
    ]

    def test_the_place_of_each(self):
        with Store(PROGRAM) as store:
            store.add_layer("w")
            for number, text, place in self.CASES:
                with self.assertRaises(Refused, msg=text) as caught:
                    store.add("w", text)
                self.assertEqual(caught.exception.number, number, text)
                self.assertEqual(str(fault_in(store, "w", read_wkt(text))), place)

    def test_no_place_of_other_refusals(self):
        self.assertIsNone(fault_at(read_wkt("POINT (1 1)"), Refused(2, "OffGrid", "")))
        self.assertIsNone(fault_at(read_wkt(TEXTS[2]), Refused(13, "RingNotSimple", "")))

    def test_every_refusal_has_words(self):
        for number in itertools.chain(range(1, 34), (35, 36)):
            self.assertIn(number, REFUSALS)
        self.assertEqual(words_of(99).reason, "it was refused")


class StoreFiles(TestCase):
    LINES = [
        "layer add wells point",
        "column add wells depth int",
        "column add wells label text",
        "add wells POINT (3 4)",
        "set wells 1 depth -7",
        "set wells 1 label 'old'",
        "layer add shapes any",
        "column add shapes a int",
        "column add shapes b text",
        "column drop shapes a",
        *(f"add shapes {text}" for text in TEXTS),
        "delete shapes 2",
        f"delete shapes {len(TEXTS)}",
        "set shapes 3 b 'größer'",
    ]

    def setUp(self):
        super().setUp()
        self.path = self.folder / "file.sfs"
        with Store(PROGRAM, save=self.path) as store:
            self.assertFalse([a for a in store.run_all(self.LINES) if isinstance(a, Refused)])
        self.data = self.path.read_bytes()

    def test_what_is_read_is_written_as_the_same_bytes(self):
        layers = storefile.read(self.data)
        self.assertEqual([layer.name for layer in layers], ["wells", "shapes"])
        self.assertEqual(layers[0].features[0].values, {1: -7, 2: "old"})
        written = io.BytesIO()
        storefile.write(written, layers)
        self.assertEqual(written.getvalue(), self.data)

    def test_earlier_versions_are_read(self):
        layers = self.data[9:-2]
        for front in (b"SFSTORE1", b"SFSTORE2\x18", b"SFSTORE3\x18"):
            behind = b"\0\0" if front == b"SFSTORE3\x18" else b""
            self.assertEqual(storefile.read(front + layers + behind), storefile.read(self.data))
        with self.assertRaises(ValueError):
            storefile.read(b"SFSTORE5" + self.data[8:])

    def test_fields_have_names(self):
        for place, name in (
            (0, "first eight bytes"),
            (8, "byte of the grid"),
            (9, "number of layers"),
            (13, "name of a layer"),
            (19, "kind of a layer"),
            (20, "next identifier of a layer"),
            (24, "next column number of a layer"),
            (26, "number of columns"),
            (28, "number of a column"),
            (30, "type of a column"),
            (31, "name of a column"),
            (46, "number of features"),
            (50, "identifier of a feature"),
            (54, "length of a geometry"),
            (58, "geometry"),
            (79, "number of values"),
            (81, "column number of a value"),
            (83, "whole number of a value"),
            (93, "text of a value"),
            (len(self.data), "end"),
        ):
            self.assertEqual(storefile.field_at(self.data, place), name)

    def test_each_cut_names_a_field_as_the_program_does(self):
        for cut in range(0, len(self.data), 7):
            self.path.write_bytes(self.data[:cut])
            with self.assertRaises(ProgramEnded) as caught:
                Store(PROGRAM, load=self.path)
            self.assertIn(f"BadFile {cut} 7", caught.exception.last_line)
            self.assertTrue(storefile.field_at(self.data[:cut], cut))


if __name__ == "__main__":
    unittest.main()
