"""Tests of merged areas: over the real program, which judges each, in a coverage under a rule."""

from __future__ import annotations

import random
from fractions import Fraction

import parcels_model as coverage
from parcels_model import doubled
from support import TestCase

from sfstore import Refused
from sfstore.geometry import read_wkt
from sfstore.tools import merge
from sfstore.tools.rings import edges_of, polygons_of, written

SIDE = 20
"""How many parcels stand in a row of the coverage."""


def outline(wkt: str) -> set[tuple[tuple[int, int], tuple[int, int]]]:
    """The edges of a text, with the inside on their left."""
    return set(edges_of(read_wkt(wkt)))


class Areas(TestCase):
    """Single merges, worked out by hand."""

    def setUp(self) -> None:
        super().setUp()
        self.store = coverage.opened()
        self.addCleanup(self.store.close, save=False)
        self.store.add_layer("p")

    def merged(self, *texts: str) -> str:
        """What some areas are together."""
        ids = [self.store.add("p", text) for text in texts]
        before = [feature.wkt for feature in self.store.show("p")]
        merge(self.store, "p", *ids)
        [whole] = self.store.get("p", ids[0])
        self.assertEqual(len(self.store.show("p")), len(before) - len(ids) + 1)
        self.assertEqual(doubled(whole.wkt), sum(map(doubled, texts)))
        self.store.undo()
        self.assertEqual([feature.wkt for feature in self.store.show("p")], before)
        return whole.wkt

    def test_two_squares(self) -> None:
        found = self.merged("POLYGON ((0 0, 10 0, 10 10, 0 10, 0 0))", "POLYGON ((10 0, 10 10, 20 10, 20 0, 10 0))")
        self.assertEqual(outline(found), outline("POLYGON ((0 0, 10 0, 20 0, 20 10, 10 10, 0 10, 0 0))"))

    def test_a_vertex_on_an_edge_of_the_other_one(self) -> None:
        found = self.merged("POLYGON ((0 0, 10 0, 10 10, 0 10, 0 0))", "POLYGON ((10 2, 20 2, 20 5, 10 5, 10 2))")
        self.assertEqual(outline(found), outline("POLYGON ((0 0, 10 0, 10 2, 20 2, 20 5, 10 5, 10 10, 0 10, 0 0))"))

    def test_a_hole_is_filled(self) -> None:
        ring = "POLYGON ((0 0, 9 0, 9 9, 0 9, 0 0), (3 3, 3 6, 6 6, 6 3, 3 3))"
        self.assertEqual(outline(self.merged(ring, "POLYGON ((3 3, 6 3, 6 6, 3 6, 3 3))")), outline("POLYGON ((0 0, 9 0, 9 9, 0 9, 0 0))"))
        found = self.merged(ring, "POLYGON ((3 3, 6 3, 3 6, 3 3))")
        self.assertEqual(outline(found), outline("POLYGON ((0 0, 9 0, 9 9, 0 9, 0 0), (6 3, 3 6, 6 6, 6 3))"))

    def test_a_court_between_two(self) -> None:
        found = self.merged("POLYGON ((0 0, 9 0, 9 3, 3 3, 3 6, 0 6, 0 0))", "POLYGON ((9 3, 9 9, 0 9, 0 6, 6 6, 6 3, 9 3))")
        self.assertEqual(outline(found), outline("POLYGON ((0 0, 9 0, 9 3, 9 9, 0 9, 0 6, 0 0), (3 3, 3 6, 6 6, 6 3, 3 3))"))

    def test_areas_that_touch_in_a_point_or_nowhere(self) -> None:
        found = self.merged("POLYGON ((0 0, 5 0, 5 5, 0 5, 0 0))", "POLYGON ((5 5, 9 5, 9 9, 5 9, 5 5))")
        self.assertTrue(found.startswith("MULTIPOLYGON"))
        self.assertTrue(self.merged("POLYGON ((0 0, 5 0, 5 5, 0 0))", "POLYGON ((50 5, 90 5, 90 9, 50 5))").startswith("MULTIPOLYGON"))

    def test_an_island_and_its_lake(self) -> None:
        land = "MULTIPOLYGON (((0 0, 20 0, 20 20, 0 20, 0 0), (5 5, 5 15, 15 15, 15 5, 5 5)), ((8 8, 12 8, 12 12, 8 12, 8 8)))"
        found = self.merged(land, "POLYGON ((5 5, 15 5, 15 15, 5 15, 5 5), (8 8, 8 12, 12 12, 12 8, 8 8))")
        self.assertEqual(outline(found), outline("POLYGON ((0 0, 20 0, 20 20, 0 20, 0 0))"))

    def test_what_is_no_merge(self) -> None:
        first = self.store.add("p", "POLYGON ((0 0, 9 0, 9 9, 0 9, 0 0))")
        other = self.store.add("p", "POLYGON ((5 5, 15 5, 15 15, 5 15, 5 5))")
        line = self.store.add("p", "LINESTRING (0 0, 5 5)")
        for ids, said in ([first], "two or more"), ([first, first], "each once"), ([first, other], "p 1 and 2 overlap"), ([first, line], "p 3 is no area"):
            with self.assertRaisesRegex(ValueError, said):
                merge(self.store, "p", *ids)
        self.assertRaises(Refused, merge, self.store, "p", first, 77)
        self.store.add_layer("q", "polygon")
        ids = [self.store.add("q", text) for text in ("POLYGON ((0 0, 5 0, 5 5, 0 0))", "POLYGON ((50 5, 90 5, 90 9, 50 5))")]
        self.assertRaises(Refused, merge, self.store, "q", *ids)
        self.assertEqual(len(self.store.show("q")), 2)

    def test_edges_of_no_area(self) -> None:
        self.assertRaises(ValueError, polygons_of, [((0, 0), (5, 0)), ((5, 0), (5, 5))])
        with self.assertRaisesRegex(ValueError, "in no shell"):
            polygons_of([((0, 0), (0, 5)), ((0, 5), (5, 5)), ((5, 5), (0, 0))])


class Coverage(TestCase):
    """Random merges of a coverage without gaps, under the rule that no two parcels overlap."""

    def test_random_merges(self) -> None:
        chance = random.Random(90)
        with coverage.opened() as store:
            coverage.make(store, SIDE, chance)
            whole = sum(doubled(feature.wkt) for feature in store.show("parcels"))
            left = {feature.id for feature in store.show("parcels")}
            joined = 0
            while len(left) > SIDE:
                first = chance.choice(sorted(left))
                [feature] = store.get("parcels", first)
                beside = [other for other in store.match("parcels", "F***1****", feature.wkt) if other != first]
                chosen = [first, *chance.sample(beside, min(len(beside), chance.randrange(1, 4)))]
                if len(chosen) < 2:
                    break
                wanted = sum(doubled(found.wkt) for found in store.get("parcels", *chosen))
                merge(store, "parcels", *chosen)
                [found] = store.get("parcels", first)
                self.assertEqual(doubled(found.wkt), wanted)
                self.assertEqual([Fraction(area) * 2 for area in store.area("parcels", first)], [wanted])
                left -= set(chosen[1:])
                joined += 1
            self.assertGreater(joined, 100)
            self.assertEqual({feature.id for feature in store.show("parcels")}, left)
            self.assertEqual(sum(doubled(feature.wkt) for feature in store.show("parcels")), whole)
            for _ in range(joined):
                store.undo()
            self.assertEqual(len(store.show("parcels")), SIDE * SIDE)

    def test_written_is_what_was_read(self) -> None:
        for text in (
            "POLYGON ((0 0, 9 0, 9 9, 0 9, 0 0), (0 0, 3 6, 6 3, 0 0))",
            "MULTIPOLYGON (((0 0, 5 0, 5 5, 0 5, 0 0)), ((5 5, 9 5, 9 9, 5 9, 5 5)))",
            "POLYGON ((0 0, 9 0, 9 9, 0 9, 0 0), (1 1, 1 4, 4 4, 1 1), (4 4, 8 4, 8 8, 4 4))",
        ):
            shape = read_wkt(text)
            again = written(polygons_of(edges_of(shape)))
            self.assertEqual((again.code, set(edges_of(again))), (shape.code, set(edges_of(shape))))

