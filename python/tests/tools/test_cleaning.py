"""Tests of coverages whose overlaps and gaps are taken away: over the real program, which judges each."""

from __future__ import annotations

import random
from fractions import Fraction

import parcels_model as coverage
from support import TestCase
from test_snapping import jittered

from sfstore import Refused
from sfstore.geometry import read_wkt
from sfstore.tools import NotDone, clean, cleaning
from sfstore.tools.arrangement import faces_of, noded
from sfstore.tools.rings import edges_of

LEFT = "POLYGON ((0 0, 50 0, 50 50, 0 50, 0 0))"


class Small(TestCase):
    """Coverages of a few areas, worked out by hand."""

    def setUp(self) -> None:
        super().setUp()
        self.store = coverage.opened()
        self.addCleanup(self.store.close, save=False)
        self.store.add_layer("p")

    def cleaned(self, texts: list[str], within: int | Fraction) -> tuple[list[str], list[tuple[bool, Fraction, object]]]:
        """Areas behind a clean, which is one step, and what was told of it."""
        ids = [self.store.add("p", text) for text in texts]
        plan = cleaning(self.store, "p", within)
        self.assertEqual([feature.wkt for feature in self.store.get("p", *ids)], texts)
        steps = plan.carry_out(self.store)
        found = [feature.wkt for feature in self.store.get("p", *ids)]
        for each in plan.cleaning.changed.values():
            self.assertEqual(each.area_after, Fraction(sum(a[0] * b[1] - a[1] * b[0] for a, b in edges_of(each.after)), 2))
        if steps:
            self.store.undo()
        self.assertEqual([feature.wkt for feature in self.store.get("p", *ids)], texts)
        for feature in ids:
            self.store.delete("p", feature)
        return found, [(each.is_gap, each.area, each.to and each.to[1] - ids[0] + 1) for each in plan.cleaning.defects]

    def test_an_overlap(self) -> None:
        texts = [LEFT, "POLYGON ((50 0, 90 0, 90 60, 50 60, 50 50, 48 25, 50 0))"]
        found, told = self.cleaned(texts, 2)
        self.assertEqual(told, [(False, Fraction(50), 1)])
        self.assertEqual(sum(map(coverage.doubled, found)), sum(map(coverage.doubled, texts)) - 100)
        self.assertEqual(self.cleaned(texts, Fraction(9, 10)), (texts, [(False, Fraction(50), None)]))

    def test_a_gap(self) -> None:
        texts = [LEFT, "POLYGON ((50 0, 90 0, 90 60, 50 60, 50 50, 52 25, 50 0))"]
        found, told = self.cleaned(texts, 2)
        self.assertEqual(told, [(True, Fraction(50), 2)])
        self.assertEqual(sum(map(coverage.doubled, found)), sum(map(coverage.doubled, texts)) + 100)
        self.assertEqual(self.cleaned(texts, Fraction(9, 10)), (texts, [(True, Fraction(50), None)]))

    def test_a_gap_that_is_open(self) -> None:
        texts = [LEFT, "POLYGON ((51 0, 90 0, 90 60, 51 60, 51 0))"]
        found, told = self.cleaned(texts, 1)
        self.assertEqual(coverage.outline(found)[0].holes, [])
        self.assertEqual(len(coverage.outline(found)), 1)

    def test_corners_of_one_area_stay(self) -> None:
        """What is near one another in one area alone, and in borders that fit, is as it was."""
        comb = "POLYGON ((0 0, 50 0, 50 10, 51 11, 51 12, 50 13, 50 50, 0 50, 0 0))"
        other = "POLYGON ((90 0, 90 50, 50 50, 50 13, 51 12, 51 11, 50 10, 50 0, 90 0))"
        self.assertEqual(self.cleaned([comb, other], 5), ([comb, other], []))
        lane = "POLYGON ((0 50, 50 50, 90 50, 90 52, 0 52, 0 50))"
        above = "POLYGON ((0 52, 40 52, 90 52, 90 90, 0 90, 0 52))"
        self.assertEqual(self.cleaned([comb, other, lane, above], 5), ([comb, other, lane, above], []))

    def test_a_corner_on_an_edge_is_no_fault(self) -> None:
        texts = [LEFT, "POLYGON ((50 0, 90 0, 90 25, 50 25, 50 0))", "POLYGON ((50 25, 90 25, 90 50, 50 50, 50 25))"]
        self.assertEqual(self.cleaned(texts, 3), (texts, []))

    def test_borders_that_cross_off_the_grid(self) -> None:
        texts = ["POLYGON ((0 0, 50 0, 53 50, 0 50, 0 0))", "POLYGON ((52 0, 90 0, 90 50, 51 50, 52 0))"]
        found, _ = self.cleaned(texts, 3)
        [whole] = coverage.outline(found)
        self.assertEqual(whole.holes, [])

    def test_an_area_in_another_one(self) -> None:
        found, told = self.cleaned([LEFT, "POLYGON ((20 0, 21 0, 21 40, 20 40, 20 0))"], 2)
        self.assertEqual([coverage.doubled(text) for text in found], [4920, 80])
        self.assertEqual(told, [(False, Fraction(40), 2)])
        # Of two that are the same none is preferred.
        narrow = "POLYGON ((20 0, 21 0, 21 40, 20 40, 20 0))"
        self.assertEqual(self.cleaned([narrow, narrow], 2), ([narrow, narrow], [(False, Fraction(40), None)]))

    def test_three_at_one_place(self) -> None:
        texts = [LEFT, "POLYGON ((49 0, 90 0, 90 50, 49 50, 49 0))", "POLYGON ((0 49, 90 49, 90 90, 0 90, 0 49))"]
        found, told = self.cleaned(texts, 3)
        self.assertEqual(coverage.outline(found)[0].holes, [])
        self.assertEqual(sum(map(coverage.doubled, found)), 2 * 90 * 90)

    def test_an_island_in_a_lake_is_none(self) -> None:
        texts = ["POLYGON ((0 0, 90 0, 90 90, 0 90, 0 0), (30 30, 30 60, 60 60, 60 30, 30 30))", "POLYGON ((40 40, 50 40, 50 50, 40 50, 40 40))"]
        found, told = self.cleaned(texts, 2)
        self.assertEqual((found, told), (texts, [(True, Fraction(800), None)]))

    def test_what_is_none(self) -> None:
        self.store.add("p", "LINESTRING (0 0, 5 5)")
        self.assertEqual(cleaning(self.store, "p", 9).carry_out(self.store), 0)
        self.assertRaisesRegex(NotDone, "not above 0", clean, self.store, "p", 0)
        self.assertRaises(Refused, clean, self.store, "nowhere", 1)


class Coverage(TestCase):
    """A coverage whose parcels were drawn one by one, each corner a little beside."""

    def check(self, far: int, within: int, seed: int) -> None:
        chance = random.Random(seed)
        with coverage.opened() as store:
            coverage.make(store, 8, chance, 1_000)
            store.run("rule drop alone")
            for feature in store.show("parcels"):
                store.replace("parcels", feature.id, jittered(feature.wkt, chance, far))
            before = store.show("parcels")
            self.assertGreater(len(list(store.join("parcels", "T********", "parcels"))), 50)
            done = clean(store, "parcels", within)
            self.assertEqual([each for each in done.defects if each.to is None], [])
            store.run(coverage.RULE)
            shown = store.show("parcels")
            whole = coverage.outline(feature.wkt for feature in shown)
            self.assertEqual([each.holes for each in whole], [[]])
            areas = dict(zip((each.id for each in shown), store.area("parcels", *(each.id for each in shown))))
            for (_, feature), each in done.changed.items():
                self.assertEqual(each.area_after, Fraction(areas[feature]))
            self.assertEqual(cleaning(store, "parcels", within).cleaning.changed, {})
            store.undo()
            store.undo()
            self.assertEqual(store.show("parcels"), before)

    def test_borders_become_one(self) -> None:
        for seed in range(4):
            with self.subTest(seed=seed):
                self.check(3, 12, seed)

    def test_fine_ones(self) -> None:
        for seed in range(4):
            with self.subTest(seed=seed):
                self.check(1, 4, seed)

    def test_faces_have_the_areas_of_what_they_are_of(self) -> None:
        """Random triangles: each covers just as much as its faces have together."""
        chance = random.Random(12)
        for _ in range(60):
            borders = {}
            for key in range(chance.randint(1, 6)):
                x, y = chance.randint(0, 40), chance.randint(0, 40)
                points = [(x + chance.randint(0, 30), y + chance.randint(0, 30)) for _ in range(3)]
                text = f"POLYGON (({', '.join(f'{4 * a} {4 * b}' for a, b in [*points, points[0]])}))"
                borders[key] = list(edges_of(read_wkt(text)))
            whole = noded(borders)
            faces = faces_of(whole)
            for key, edges in whole.items():
                area = sum((a[0] * b[1] - a[1] * b[0]) * times for (a, b), times in edges.items())
                self.assertEqual(sum(face.doubled * face.covers.get(key, 0) for face in faces), area)
            again = noded({key: list(edges) for key, edges in whole.items()})
            self.assertEqual(again, whole)
