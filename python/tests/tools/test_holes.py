"""Tests of holes that are cut and filled: over the real program, which judges each."""

from __future__ import annotations

import random

import parcels_model as coverage
from support import TestCase

from sfstore import Refused
from sfstore.geometry import read_wkt
from sfstore.tools import NotDone, fill, hole
from sfstore.tools.rings import Edge, edges_of

SQUARE = "POLYGON ((0 0, 20 0, 20 20, 0 20, 0 0))"
RING = "POLYGON ((0 0, 20 0, 20 20, 0 20, 0 0), (5 5, 5 15, 15 15, 15 5, 5 5))"


def outline(wkt: str) -> set[Edge]:
    """The edges of a text, with the inside on their left."""
    return set(edges_of(read_wkt(wkt)))


class Holes(TestCase):
    def setUp(self) -> None:
        super().setUp()
        self.store = coverage.opened()
        self.addCleanup(self.store.close, save=False)
        self.store.add_layer("p")

    def cut(self, area: str, polygon: str) -> str:
        """An area without a polygon. One undo brings it back as it was."""
        feature = self.store.add("p", area)
        hole(self.store, "p", feature, polygon)
        [found] = self.store.get("p", feature)
        self.assertEqual(coverage.doubled(found.wkt), coverage.doubled(area) - coverage.doubled(polygon))
        self.store.undo()
        self.assertEqual(self.store.get("p", feature)[0].wkt, area)
        return found.wkt

    def filled(self, area: str, *at: tuple[int, int]) -> str:
        """An area with the hole at a point filled, or all of them."""
        feature = self.store.add("p", area)
        fill(self.store, "p", feature, *at)
        [found] = self.store.get("p", feature)
        self.store.undo()
        self.assertEqual(self.store.get("p", feature)[0].wkt, area)
        return found.wkt

    def test_a_hole(self) -> None:
        self.assertEqual(self.cut(SQUARE, "POLYGON ((5 5, 15 5, 15 15, 5 15, 5 5))"), RING)
        self.assertEqual(self.cut(SQUARE, "POLYGON ((5 5, 5 15, 15 15, 15 5, 5 5))"), RING)

    def test_along_the_border(self) -> None:
        self.assertEqual(outline(self.cut(SQUARE, "POLYGON ((5 0, 9 0, 9 4, 5 4, 5 0))")), outline("POLYGON ((0 0, 5 0, 5 4, 9 4, 9 0, 20 0, 20 20, 0 20, 0 0))"))
        # What touches the border in two points parts the area.
        self.assertTrue(self.cut(SQUARE, "POLYGON ((0 10, 10 0, 20 10, 10 20, 0 10))").startswith("MULTIPOLYGON"))
        # In one point the hole stays a hole.
        self.assertEqual(len(read_wkt(self.cut(SQUARE, "POLYGON ((10 0, 15 5, 10 10, 10 0))")).members[0]), 2)

    def test_beside_a_hole_and_with_an_island(self) -> None:
        self.assertEqual(len(read_wkt(self.cut(RING, "POLYGON ((15 5, 18 5, 18 15, 15 15, 15 5))")).members[0]), 2)
        found = self.cut(SQUARE, "POLYGON ((2 2, 18 2, 18 18, 2 18, 2 2), (5 5, 5 15, 15 15, 15 5, 5 5))")
        self.assertEqual(len(read_wkt(found).members), 2)
        self.assertEqual(len(read_wkt(self.cut(SQUARE, "MULTIPOLYGON (((1 1, 2 1, 2 2, 1 1)), ((5 5, 6 5, 6 6, 5 5)))")).members[0]), 3)

    def test_what_is_no_hole(self) -> None:
        area = self.store.add("p", RING)
        line = self.store.add("p", "LINESTRING (0 0, 5 5)")
        for polygon, said in (
            ("POLYGON ((1 1, 30 1, 30 4, 1 1))", r"\(30 1\) is outside of it"),
            ("POLYGON ((6 6, 9 6, 9 9, 6 6))", r"\(6 6\) is outside"),
            ("POLYGON ((1 1, 19 1, 19 19, 1 19, 1 1))", "does not lie in p 1"),
            (RING, "nothing would be left of p 1"),
            ("LINESTRING (1 1, 2 2)", "no POLYGON"),
        ):
            with self.assertRaisesRegex(NotDone, said):
                hole(self.store, "p", area, polygon)
        self.assertRaisesRegex(NotDone, "p 2 is no area", hole, self.store, "p", line, "POLYGON ((1 1, 2 1, 2 2, 1 1))")
        self.assertRaises(Refused, hole, self.store, "p", area, "POLYGON ((1 1, 2 1, 1 1))")
        self.assertRaises(Refused, hole, self.store, "p", 77, SQUARE)
        self.assertEqual(self.store.get("p", area)[0].wkt, RING)

    def test_filled(self) -> None:
        self.assertEqual(self.filled(RING), SQUARE)
        self.assertEqual(self.filled(RING, (10, 10)), SQUARE)
        two = "POLYGON ((0 0, 20 0, 20 20, 0 20, 0 0), (1 1, 1 5, 5 5, 1 1), (5 5, 5 15, 15 15, 15 5, 5 5))"
        self.assertEqual(self.filled(two, (2, 4)), RING)
        self.assertEqual(self.filled(two), SQUARE)

    def test_an_island_in_what_is_filled(self) -> None:
        land = f"MULTIPOLYGON ((({RING[10:-2]})), ((7 7, 13 7, 13 13, 7 13, 7 7), (9 9, 9 11, 11 11, 11 9, 9 9)))"
        self.assertEqual(coverage.doubled(self.filled(land, (6, 6))), 800)
        self.assertEqual(coverage.doubled(self.filled(land)), 800)
        found = self.filled(land, (10, 10))
        self.assertEqual(coverage.doubled(found), coverage.doubled(land) + 8)
        self.assertEqual(len(read_wkt(found).members), 2)
        area = self.store.add("p", land)
        self.assertRaisesRegex(NotDone, r"\(8 8\) lies in no hole", fill, self.store, "p", area, (8, 8))

    def test_nothing_to_fill(self) -> None:
        area, ring = self.store.add("p", SQUARE), self.store.add("p", RING)
        self.assertRaisesRegex(NotDone, "p 1 has no hole", fill, self.store, "p", area)
        for at in ((1, 1), (5, 5), (5, 9), (30, 30)):
            self.assertRaisesRegex(NotDone, "lies in no hole", fill, self.store, "p", ring, at)

    def test_the_rules_judge_what_lies_there(self) -> None:
        ring = self.store.add("p", RING)
        self.store.add("p", "POLYGON ((6 6, 9 6, 9 9, 6 6))")
        self.store.run("rule add alone never p T******** p")
        with self.assertRaises(Refused) as refused:
            fill(self.store, "p", ring)
        self.assertEqual((refused.exception.rule, refused.exception.ids), ("alone", [1, 2]))
        self.assertEqual(self.store.get("p", ring)[0].wkt, RING)

    def test_random_holes_are_filled_again(self) -> None:
        chance = random.Random(23)
        done = 0
        for _ in range(300):
            points = [(chance.randint(0, 20), chance.randint(0, 20)) for _ in range(3)]
            polygon = f"POLYGON (({', '.join(f'{x} {y}' for x, y in [*points, points[0]])}))"
            if self.store.check("p", polygon) is not None:
                continue
            found = self.cut(SQUARE, polygon)
            done += 1
            if len(read_wkt(found).members[0]) == 2 and found.startswith("POLYGON"):
                self.assertEqual(coverage.doubled(self.filled(found)), coverage.doubled(SQUARE))
        self.assertGreater(done, 200)
