"""Tests of areas parted by a line: over the real program, which judges each, in a coverage under a rule."""

from __future__ import annotations

import random
import time

import parcels_model as coverage
from support import TestCase

from sfstore import Refused
from sfstore.drawing import Drawing
from sfstore.tools import NotDone, merge, split

SPLITS = 300


class Areas(TestCase):
    """Single splits, worked out by hand."""

    def setUp(self) -> None:
        super().setUp()
        self.store = coverage.opened()
        self.addCleanup(self.store.close, save=False)
        self.store.add_layer("p")
        self.store.add_column("p", "owner", "text")

    def parts(self, area: str, line: str) -> list[str]:
        """The texts of the parts, the largest first."""
        feature = self.store.add("p", area)
        self.store.set("p", feature, "owner", "Ann")
        ids = split(self.store, "p", feature, line)
        self.assertEqual(ids[0], feature)
        found = self.store.get("p", *ids)
        self.assertEqual([part.values for part in found], [{"owner": "Ann"}] * len(ids))
        self.store.undo()
        self.assertEqual([part.wkt for part in self.store.get("p", feature)], [area])
        return [part.wkt for part in found]

    def test_from_border_to_border(self) -> None:
        found = self.parts("POLYGON ((0 0, 10 0, 10 10, 0 10, 0 0))", "LINESTRING (4 -5, 4 15)")
        self.assertEqual(list(map(coverage.doubled, found)), [120, 80])

    def test_the_console_names_the_neighbours_that_got_a_corner(self) -> None:
        """Not those whose borders stay as they are: the line crosses one border at a corner, and a slanted one between two."""
        for area in (
            "POLYGON ((0 0, 30 0, 31 30, 0 30, 0 0))", "POLYGON ((30 0, 60 0, 60 30, 31 30, 30 0))", "POLYGON ((0 0, 0 30, -9 30, 0 0))",
        ):  # fmt: skip
            self.store.add("p", area)
        said: list[str] = []
        drawing = Drawing(self.store, None, said.append, lambda _: False)
        drawing.run("split", "p 1 LINESTRING (0 0, 32 20)".split())
        drawing.run("split", "p 3 LINESTRING (0 0, -3 31)".split())
        self.assertEqual(said, ["ok: p 1, 4; new corners in p 2", "ok: p 3, 5"])
        [area] = self.store.get("p", 2)
        self.assertEqual(len(area.wkt.split(",")), 6)

    def test_from_corner_to_corner(self) -> None:
        found = self.parts("POLYGON ((0 0, 10 0, 10 10, 0 10, 0 0))", "LINESTRING (0 0, 10 10)")
        self.assertEqual(list(map(coverage.doubled, found)), [100, 100])

    def test_a_line_with_corners_and_loose_ends(self) -> None:
        found = self.parts("POLYGON ((0 0, 20 0, 20 20, 0 20, 0 0))", "LINESTRING (5 -5, 5 5, 15 5, 15 25, 10 25, 10 12)")
        # It comes in again and ends inside: nothing is parted there.
        self.assertEqual(sum(map(coverage.doubled, found)), 800)
        self.assertEqual(len(found), 2)

    def test_through_a_hole(self) -> None:
        area = "POLYGON ((0 0, 20 0, 20 20, 0 20, 0 0), (8 8, 8 12, 12 12, 12 8, 8 8))"
        found = self.parts(area, "LINESTRING (10 -1, 10 21)")
        self.assertEqual([coverage.doubled(text) for text in found], [384, 384])
        # From the border to the hole alone nothing is parted.
        with self.assertRaisesRegex(ValueError, "does not part"):
            self.parts(area, "LINESTRING (10 -1, 10 10)")

    def test_into_many_parts(self) -> None:
        comb = "POLYGON ((0 0, 90 0, 90 20, 80 20, 80 10, 60 10, 60 20, 40 20, 40 10, 20 10, 20 20, 0 20, 0 0))"
        self.assertEqual(len(self.parts(comb, "LINESTRING (-1 15, 91 15)")), 4)

    def test_along_the_border(self) -> None:
        for line in ("LINESTRING (0 0, 10 0)", "LINESTRING (-5 0, 15 0)", "LINESTRING (20 20, 30 30)", "LINESTRING (2 2, 5 5)"):
            with self.assertRaisesRegex(ValueError, "does not part p "):
                self.parts("POLYGON ((0 0, 10 0, 10 10, 0 10, 0 0))", line)

    def test_what_is_no_split(self) -> None:
        line = self.store.add("p", "LINESTRING (0 0, 5 5)")
        self.assertRaisesRegex(ValueError, "is no POLYGON", split, self.store, "p", line, "LINESTRING (0 0, 1 1)")
        area = self.store.add("p", "POLYGON ((0 0, 10 0, 10 10, 0 0))")
        self.assertRaisesRegex(ValueError, "no LINESTRING", split, self.store, "p", area, "POINT (0 0)")
        self.assertRaises(Refused, split, self.store, "p", 77, "LINESTRING (0 0, 1 1)")

    def test_a_corner_off_the_grid_goes_into_the_neighbours(self) -> None:
        left = self.store.add("p", "POLYGON ((0 0, 7 30, -20 30, -20 0, 0 0))")
        self.store.add("p", "POLYGON ((0 0, 30 0, 30 30, 7 30, 0 0))")
        self.store.add_layer("fences", "linestring")
        self.store.add("fences", "LINESTRING (-1 -1, 0 0, 7 30, 7 40)")
        self.store.run("rule add alone never p T******** p")
        split(self.store, "p", 2, "LINESTRING (-30 10, 40 11)", beside=["fences"])
        self.assertEqual([feature.wkt for feature in self.store.get("p", left)], ["POLYGON ((0 0, 2 10, 7 30, -20 30, -20 0, 0 0))"])
        self.assertEqual([feature.wkt for feature in self.store.show("fences")], ["LINESTRING (-1 -1, 0 0, 2 10, 7 30, 7 40)"])
        self.store.undo()
        self.assertEqual(self.store.show("fences")[0].wkt, "LINESTRING (-1 -1, 0 0, 7 30, 7 40)")


    def test_corners_of_others_on_an_edge_that_is_bent_stay_on_it(self) -> None:
        """One feature has a corner in the middle of an edge of another one: both fit still, whichever is parted."""
        texts = (
            "POLYGON ((12 0, 18 0, 21 20, 12 30, 12 0))",
            "POLYGON ((12 30, 21 20, 24 40, 12 40, 12 30))",
            "POLYGON ((18 0, 30 0, 30 40, 24 40, 18 0))",
        )
        ids = [self.store.add("p", text) for text in texts]
        for parcel, line in ((ids[0], "LINESTRING (28 26, 15 -1)"), (ids[2], "LINESTRING (40 13, 10 6)")):
            split(self.store, "p", parcel, line)
            whole = self.store.show("p")
            self.assertEqual(len(whole), 4)
            self.assertEqual(list(self.store.join("p", "T********", "p")), [])
            self.assertEqual(sum(coverage.doubled(feature.wkt) for feature in whole), sum(map(coverage.doubled, texts)))
            self.store.undo()

    def test_a_line_that_is_none_is_refused(self) -> None:
        area = self.store.add("p", "POLYGON ((0 0, 10 0, 10 10, 0 10, 0 0))")
        for line in ("LINESTRING (4.7 -1, 4.7 11)", "LINESTRING (4e0 -1, 4 11)", "LINESTRING (4 -1 7, 4 11 7)", "LINESTRING (4 4, 4 4)"):
            self.assertRaises(Refused, split, self.store, "p", area, line)
        self.assertEqual(len(self.store.show("p")), 1)

    def test_parts_do_not_overlap(self) -> None:
        star = "POLYGON ((1 12, 4 6, 1 8, 10 1, 12 6, 1 12), (6 8, 4 10, 7 6, 6 8))"
        square = "POLYGON ((0 0, 10 0, 10 10, 0 10, 0 0))"
        crosses, narrow = "the line crosses itself in p", "the line parts p . too narrowly for the grid"
        for area, line, why, place in (
            (square, "LINESTRING (2 -1, 8 5, 2 5, 8 -1)", crosses, "(5 2)"),
            (square, "LINESTRING (2 -1, 9 5, 2 5, 8 -1)", crosses, "(68/13 23/13)"),
            # Along itself.
            (square, "LINESTRING (2 -1, 2 5, 2 2, 12 2)", crosses, "(2 2)"),
        ):
            with self.subTest(line=line):
                with self.assertRaisesRegex(NotDone, f"^{why}") as raised:
                    self.parts(area, line)
                self.assertTrue(str(raised.exception).endswith(f" at {place}"), raised.exception)
        with self.assertRaisesRegex(NotDone, f"^{narrow}") as raised:
            self.parts(star, "LINESTRING (4 -1, 3 13, 10 1)")
        [(x, y)] = raised.exception.points
        self.assertTrue(1 <= x <= 12 and 1 <= y <= 12, raised.exception)

    def test_a_line_that_crosses_itself_outside_parts(self) -> None:
        square = "POLYGON ((0 0, 10 0, 10 10, 0 10, 0 0))"
        self.assertEqual(len(self.parts(square, "LINESTRING (20 5, 30 0, 30 5, 20 0, 5 -5, 5 15)")), 2)
        # So do one that goes back its own way, and one that comes back to a corner of its own.
        self.assertEqual(len(self.parts(square, "LINESTRING (2 -1, 2 5, 8 5, 2 5, 2 11)")), 2)
        found = self.parts(square, "LINESTRING (2 -1, 5 5, 8 8, 2 8, 5 5, 11 5)")
        self.assertEqual((len(found), sum(map(coverage.doubled, found))), (3, 200))

    def test_the_polygons_of_a_shapefile(self) -> None:
        """Its layer takes MULTIPOLYGON alone."""
        self.store.add_layer("m", "multipolygon")
        square = "MULTIPOLYGON (((0 0, 10 0, 10 10, 0 10, 0 0)))"
        parcel = self.store.add("m", square)
        ids = split(self.store, "m", parcel, "LINESTRING (4 -1, 4 11)")
        self.assertEqual([feature.wkt[:14] for feature in self.store.get("m", *ids)], ["MULTIPOLYGON ("] * 2)
        merge(self.store, "m", *ids)
        self.assertEqual(coverage.doubled(self.store.get("m", parcel)[0].wkt), 200)
        self.assertTrue(self.store.get("m", parcel)[0].wkt.startswith("MULTIPOLYGON"))

    def test_many_corners(self) -> None:
        """A parcel and a line as a river makes them take no time for each pair of their corners."""
        side = range(0, 20_000, 10)
        ring = [(x, x // 10 % 2) for x in side] + [(x + 5, 3_000 + x // 10 % 3) for x in reversed(side)]
        area = f"POLYGON (({', '.join(f'{x} {y}' for x, y in [*ring, ring[0]])}))"
        line = f"LINESTRING ({', '.join(f'{x} {1_500 + x * 7 % 90}' for x in range(-50, 20_050, 40))})"
        loose = f"LINESTRING ({', '.join(f'{x} {1_500 + x * 7 % 90}' for x in range(-50, 19_000, 40))})"
        parcel = self.store.add("p", area)
        start = time.process_time()
        self.assertEqual(len(split(self.store, "p", parcel, line)), 2)
        self.store.undo()
        self.assertRaisesRegex(ValueError, "does not part", split, self.store, "p", parcel, loose)
        self.assertLess(time.process_time() - start, 20)


class Coverage(TestCase):
    """Random splits and merges of a coverage without gaps, under the rule that no two parcels overlap."""

    def test_no_gap_and_no_overlap(self) -> None:
        chance = random.Random(68)
        with coverage.opened() as store:
            coverage.make(store, 10, chance, 1_000)
            [before] = coverage.outline(feature.wkt for feature in store.show("parcels"))
            first = {feature.id: feature for feature in store.show("parcels")}
            steps = refused = 0
            for _ in range(SPLITS):
                at, to = ((chance.randint(-500, 10_500), chance.randint(-500, 10_500)) for _ in range(2))
                line = f"LINESTRING ({at[0]} {at[1]}, {to[0]} {to[1]})"
                crossed = store.query("parcels", "crosses", line) or store.query("parcels", "intersects", line)
                for parcel in crossed[:2]:
                    try:
                        split(store, "parcels", parcel, line)
                        steps += 1
                    except ValueError as fault:
                        self.assertIn("does not part", str(fault))
                    except Refused:
                        refused += 1
            shown = store.show("parcels")
            self.assertGreater(steps, 100)
            self.assertLessEqual(refused, steps // 100)
            [after] = coverage.outline(feature.wkt for feature in shown)
            self.assertEqual((before.holes, after.holes), ([], []))
            self.assertLess(max(coverage.far_from(point, before.shell) for point in after.shell), 0.7072)
            self.assertEqual({feature.values["number"] for feature in shown}, set(range(1, 101)))
            for _ in range(steps):
                store.undo()
            self.assertEqual({feature.id: feature for feature in store.show("parcels")}, first)

    def test_what_was_parted_is_merged_again(self) -> None:
        chance = random.Random(7)
        with coverage.opened() as store:
            coverage.make(store, 4, chance)
            for parcel in range(1, 17):
                [feature] = store.get("parcels", parcel)
                left, bottom, right, top = store.box("parcels", parcel)
                ids = split(store, "parcels", parcel, f"LINESTRING ({left - 5} {(bottom + top) // 2}, {right + 5} {(bottom + top) // 2 + 3})")
                whole = sum(coverage.doubled(part.wkt) for part in store.get("parcels", *ids))
                merge(store, "parcels", *ids)
                [again] = store.get("parcels", parcel)
                self.assertEqual(coverage.doubled(again.wkt), whole)
                self.assertEqual(again.values, feature.values)
