"""Tests of borders that are moved for both: over the real program, which judges each, in a coverage under a rule."""

from __future__ import annotations

import random

import parcels_model as coverage
from support import TestCase

from sfstore import Refused, Store
from sfstore.geometry import read_wkt
from sfstore.tools import NotDone, border, merge, split
from sfstore.tools.rings import Point, edges_of, polygons_of, split_at

LEFT, RIGHT = "POLYGON ((0 0, 10 0, 10 10, 0 10, 0 0))", "POLYGON ((10 0, 20 0, 20 10, 10 10, 10 0))"


class Borders(TestCase):
    """Single borders, worked out by hand."""

    def setUp(self) -> None:
        super().setUp()
        self.store = coverage.opened()
        self.addCleanup(self.store.close, save=False)
        self.store.add_layer("p")

    def moved(self, texts: list[str], line: str) -> list[str]:
        """What the first two areas are behind a move; the others may follow."""
        ids = [self.store.add("p", text) for text in texts]
        before = [feature.wkt for feature in self.store.show("p")]
        border(self.store, "p", ids[0], ids[1], line)
        found = [feature.wkt for feature in self.store.get("p", *ids)]
        self.assertEqual(sum(map(coverage.doubled, found)), sum(map(coverage.doubled, texts)))
        self.assertEqual(list(self.store.join("p", "T********", "p")), [])
        self.store.undo()
        self.assertEqual([feature.wkt for feature in self.store.show("p")], before)
        for feature in ids:
            self.store.delete("p", feature)
        return found

    def refused(self, texts: list[str], line: str, said: str) -> None:
        """A border that is not moved, with what is said of it. Nothing has changed."""
        ids = [self.store.add("p", text) for text in texts]
        before = self.store.show("p")
        with self.assertRaisesRegex(NotDone, said):
            border(self.store, "p", ids[0], ids[1], line)
        self.assertEqual(self.store.show("p"), before)
        for feature in ids:
            self.store.delete("p", feature)

    def doubled(self, texts: list[str], line: str) -> list[int]:
        """Twice the areas behind a move, the same whichever way the line and the areas go."""
        found = list(map(coverage.doubled, self.moved(texts, line)))
        points = line.removeprefix("LINESTRING (").removesuffix(")").split(", ")
        back = f"LINESTRING ({', '.join(reversed(points))})"
        self.assertEqual(list(map(coverage.doubled, self.moved(texts, back))), found)
        other = [texts[1], texts[0], *texts[2:]]
        self.assertEqual(list(map(coverage.doubled, self.moved(other, line))), [found[1], found[0], *found[2:]])
        return found

    def test_between_the_same_ends(self) -> None:
        self.assertEqual(self.doubled([LEFT, RIGHT], "LINESTRING (10 0, 12 5, 10 10)"), [220, 180])

    def test_ends_that_move_along_the_border(self) -> None:
        self.assertEqual(self.doubled([LEFT, RIGHT], "LINESTRING (12 -5, 12 15)"), [240, 160])
        self.assertEqual(self.doubled([LEFT, RIGHT], "LINESTRING (8 0, 14 10)"), [220, 180])

    def test_a_third_one_gets_the_corner(self) -> None:
        third = "POLYGON ((0 10, 10 10, 20 10, 22 30, 0 30, 0 10))"
        slanted = ["POLYGON ((0 0, 10 0, 10 10, 0 13, 0 0))", "POLYGON ((10 0, 20 0, 20 10, 10 10, 10 0))", "POLYGON ((0 13, 10 10, 20 10, 22 30, 0 30, 0 13))"]
        self.assertEqual(self.doubled([LEFT, RIGHT, third], "LINESTRING (12 0, 13 10)")[2], coverage.doubled(third))
        # (8 11) is not on the edge from (0 13) to (10 10), at which the line ends in (8 53/5).
        found = self.moved(slanted, "LINESTRING (10 0, 8 12)")
        self.assertIn("8 11", found[0])
        self.assertIn("8 11", found[2])

    def test_a_corner_of_a_third_one_on_a_bent_edge(self) -> None:
        """The third one has a corner in the middle of the edge that is bent, and the two have none there."""
        texts = ["POLYGON ((0 0, 10 0, 10 10, 0 14, 0 0))", "POLYGON ((10 0, 20 0, 20 6, 10 10, 10 0))"]
        above = ["POLYGON ((0 14, 5 12, 5 30, 0 30, 0 14))", "POLYGON ((5 12, 20 6, 20 30, 5 30, 5 12))"]
        found = self.moved([*texts, *above], "LINESTRING (10 0, 3 14)")
        whole = [edge for text in found for edge in edges_of(read_wkt(text))]
        parted = set(split_at(whole, [a for a, _ in whole]))
        self.assertEqual([polygon.holes for polygon in polygons_of((a, b) for a, b in parted if (b, a) not in parted)], [[]])

    def test_a_fence_beside_gets_the_corner(self) -> None:
        """The line ends on the slanted border above the two, along which a fence of another layer stands."""
        ids = [self.store.add("p", text) for text in ("POLYGON ((0 0, 10 0, 10 10, 0 13, 0 0))", RIGHT)]
        self.store.add_layer("fences")
        self.store.add("fences", "LINESTRING (-5 20, 0 13, 10 10, 20 10)")
        self.assertEqual(border(self.store, "p", *ids, "LINESTRING (10 0, 8 12)", beside=["fences"]), [("p", 1), ("p", 2), ("fences", 1)])
        self.assertEqual(self.store.show("fences")[0].wkt, "LINESTRING (-5 20, 0 13, 8 11, 10 10, 20 10)")
        self.store.undo()
        self.assertEqual(self.store.show("fences")[0].wkt, "LINESTRING (-5 20, 0 13, 10 10, 20 10)")

    def test_an_island(self) -> None:
        lake = "POLYGON ((0 0, 20 0, 20 20, 0 20, 0 0), (5 5, 5 9, 9 9, 9 5, 5 5))"
        found = self.doubled([lake, "POLYGON ((5 5, 9 5, 9 9, 5 9, 5 5))"], "LINESTRING (4 4, 12 4, 12 12, 4 12, 4 4)")
        self.assertEqual(found, [800 - 128, 128])

    def test_two_stretches(self) -> None:
        around = ["POLYGON ((0 0, 9 0, 9 3, 3 3, 3 6, 0 6, 0 0))", "POLYGON ((9 3, 9 9, 0 9, 0 6, 3 6, 6 6, 6 3, 9 3))"]
        court = "POLYGON ((3 3, 6 3, 6 6, 3 6, 3 3))"
        self.assertEqual(self.doubled([*around, court], "LINESTRING (9 3, 8 4, 6 3)")[2], 18)
        self.refused([*around, court], "LINESTRING (9 2, 6 3)", r"they share 2 stretches: from \(\d \d\) to \(\d \d\), from")

    def test_a_point_in_common_parts_a_stretch(self) -> None:
        """A third one touches the border between the two in a point: there it stays."""
        hole = ["POLYGON ((0 0, 10 0, 10 5, 10 10, 0 10, 0 0))", "POLYGON ((10 0, 20 0, 20 10, 10 10, 10 5, 10 0), (10 5, 14 7, 14 3, 10 5))", "POLYGON ((10 5, 14 3, 14 7, 10 5))"]
        self.refused(hole, "LINESTRING (10 0, 9 4, 10 10)", "share 2 stretches")
        self.assertEqual(self.doubled(hole, "LINESTRING (10 0, 9 2, 10 5)")[2], 16)

    def test_several_parts(self) -> None:
        several = "MULTIPOLYGON (((0 0, 10 0, 10 10, 0 10, 0 0)), ((50 50, 60 50, 60 60, 50 50)))"
        found = self.moved([several, RIGHT], "LINESTRING (10 0, 13 5, 10 10)")
        self.assertTrue(found[0].startswith("MULTIPOLYGON"))
        self.assertEqual(list(map(coverage.doubled, found)), [330, 170])

    def test_at_the_corners_of_the_grid(self) -> None:
        low, high = -(2**30), 2**30 - 1
        left, right = f"POLYGON (({low} {low}, 0 {low}, 1 {high}, {low} {high}, {low} {low}))", f"POLYGON ((0 {low}, {high} {low}, {high} {high}, 1 {high}, 0 {low}))"
        self.assertEqual(len(self.moved([left, right], f"LINESTRING (-7 {low}, 8 0, 3 {high})")), 2)

    def test_what_is_no_border(self) -> None:
        self.refused([LEFT, RIGHT], "LINESTRING (10 0, 12 5)", r"it leads to no border at \(12 5\)")
        self.refused([LEFT, RIGHT], "LINESTRING (30 0, 30 10)", "leads to no border at")
        self.refused([LEFT, "POLYGON ((30 0, 40 0, 40 10, 30 0))"], "LINESTRING (10 0, 12 5, 10 10)", "share no border")
        self.refused([LEFT, "POLYGON ((10 10, 20 10, 20 20, 10 10))"], "LINESTRING (10 0, 12 5, 10 10)", "share no border")
        self.refused([LEFT, "POLYGON ((5 0, 20 0, 20 10, 10 10, 5 0))"], "LINESTRING (10 0, 12 5, 10 10)", "overlap")
        self.refused([LEFT, "LINESTRING (10 0, 10 10)"], "LINESTRING (10 0, 12 5, 10 10)", "is no area")
        self.refused([LEFT, RIGHT], "POINT (10 0)", "no LINESTRING")
        self.refused([LEFT, RIGHT], "LINESTRING (10 0, 14 6, 14 3, 10 7, 10 10)", "crosses itself")
        # All is left of it.
        self.refused([LEFT, RIGHT], "LINESTRING (20 0, 20 10)", "leads to no border at")
        self.assertRaises(NotDone, border, self.store, "p", 1, 1, "LINESTRING (10 0, 12 5, 10 10)")
        self.assertRaises(Refused, border, self.store, "p", 1, 999, "LINESTRING (10 0, 12 5, 10 10)")
        self.assertRaises(Refused, border, self.store, "p", 1, 2, "LINESTRING (10 0)")

    def test_a_layer_that_takes_no_several_parts(self) -> None:
        """The program refuses what the tool has made, and nothing has changed."""
        self.store.add_layer("q", "polygon")
        ids = [self.store.add("q", text) for text in (LEFT, RIGHT)]
        self.assertRaises(Refused, border, self.store, "q", *ids, "LINESTRING (10 0, -5 5, 10 10)")
        self.assertEqual([feature.wkt for feature in self.store.show("q")], [LEFT, RIGHT])


class Coverage(TestCase):
    """Random borders of a coverage without gaps, under the rule that no two parcels overlap."""

    def test_no_gap_and_no_overlap(self) -> None:
        chance = random.Random(41)
        with coverage.opened() as store:
            coverage.make(store, 8, chance, 1_000)
            first = store.show("parcels")
            [before] = coverage.outline(feature.wkt for feature in first)
            pairs = [pair for pair in store.join("parcels", "F***1****", "parcels") if pair[0] < pair[1]]
            moved = refused = 0
            for one, other in chance.sample(pairs, len(pairs)):
                shared = [a for a, _ in edges_of(read_wkt(store.get("parcels", one)[0].wkt))]
                ends: list[Point] = [point for point in shared if point in {a for a, _ in edges_of(read_wkt(store.get("parcels", other)[0].wkt))}]
                a, b = ends[0], ends[-1]
                middle = (a[0] + b[0]) // 2 + chance.randint(-90, 90), (a[1] + b[1]) // 2 + chance.randint(-90, 90)
                begin = [a[at] + (a[at] - b[at]) // 4 + chance.randint(-90, 90) for at in range(2)]
                try:
                    border(store, "parcels", one, other, f"LINESTRING ({begin[0]} {begin[1]}, {middle[0]} {middle[1]}, {b[0]} {b[1]})")
                    moved += 1
                except NotDone:
                    refused += 1
            shown = store.show("parcels")
            [after] = coverage.outline(feature.wkt for feature in shown)
            self.assertGreater(moved, 5 * refused)
            self.assertEqual((before.holes, after.holes), ([], []))
            self.assertLess(max(coverage.far_from(point, before.shell) for point in after.shell), 0.7072)
            self.assertEqual([feature.values for feature in shown], [feature.values for feature in first])
            for _ in range(moved):
                store.undo()
            self.assertEqual(store.show("parcels"), first)


class Coarse(TestCase):
    """Coverages on a grid so coarse that each corner is moved by much: merged, parted, and with borders and corners moved, at random."""

    def test_no_gap_whatever_is_drawn(self) -> None:
        done = 0
        for seed in range(12):
            chance = random.Random(seed)
            with coverage.opened() as store:
                coverage.make(store, 4, chance, chance.choice([12, 30, 100]))
                first = store.show("parcels")
                steps = 0
                for _ in range(40):
                    try:
                        steps += chance.choice([self.merge, self.split, self.border, self.border, self.border])(store, chance)
                    except NotDone as fault:
                        self.assertTrue(str(fault))
                    except Refused as refused:
                        self.assertIn(refused.number, (*range(10, 18), 37))
                    whole = coverage.outline(feature.wkt for feature in store.show("parcels"))
                    self.assertEqual([polygon.holes for polygon in whole], [[]], seed)
                for _ in range(steps):
                    store.undo()
                self.assertEqual(store.show("parcels"), first)
                done += steps
        self.assertGreater(done, 200)

    def pair(self, store: Store, chance: random.Random) -> tuple[int, int]:
        """Two parcels that share a border."""
        return chance.choice([pair for pair in store.join("parcels", "F***1****", "parcels")])

    def merge(self, store: Store, chance: random.Random) -> int:
        merge(store, "parcels", *self.pair(store, chance))
        return 1

    def split(self, store: Store, chance: random.Random) -> int:
        parcel = self.pair(store, chance)[0]
        left, bottom, right, top = store.box("parcels", parcel)
        split(store, "parcels", parcel, f"LINESTRING ({left - 3} {chance.randint(bottom, top)}, {chance.randint(left, right)} {chance.randint(bottom, top)}, {right + 3} {chance.randint(bottom, top)})")
        return 1

    def border(self, store: Store, chance: random.Random) -> int:
        """A border between ends of a stretch, or near them, by a corner that lies somewhere beside it."""
        one, other = self.pair(store, chance)
        corners = [[a for a, _ in edges_of(read_wkt(store.get("parcels", each)[0].wkt))] for each in (one, other)]
        shared = [corner for corner in corners[0] if corner in corners[1]]
        if len(shared) < 2:
            return 0
        begin, end = chance.sample(shared, 2)
        far = 3 if chance.random() < 0.5 else 0
        points = [(x + chance.randint(-wide, wide), y + chance.randint(-wide, wide)) for (x, y), wide in ((begin, far), (chance.choice(shared), 9), (end, far))]
        border(store, "parcels", one, other, f"LINESTRING ({', '.join(f'{x} {y}' for x, y in points)})")
        return 1
