"""Tests of shared corners: moved in all features that have them, under a rule."""

from __future__ import annotations

import random

import parcels_model as coverage
from support import TestCase

from sfstore import Refused
from sfstore.geometry import read_wkt
from sfstore.tools import move_node
from sfstore.tools.rings import edges_of


class Corners(TestCase):
    def test_random_moves_leave_no_gap(self) -> None:
        chance = random.Random(11)
        with coverage.opened() as store:
            coverage.make(store, 8, chance, 1_000)
            first = store.show("parcels")
            corners = sorted({a for feature in first for a, _ in edges_of(read_wkt(feature.wkt))})
            moved = refused = 0
            for at in chance.sample(corners, len(corners)):
                to = at[0] + chance.randint(-300, 300), at[1] + chance.randint(-300, 300)
                try:
                    features = move_node(store, ["parcels"], at, to)
                except Refused:
                    refused += 1
                    continue
                moved += 1
                self.assertIn(len(features), (1, 2, 4))
            self.assertGreater(moved, 2 * refused)
            [after] = coverage.outline(feature.wkt for feature in store.show("parcels"))
            self.assertEqual(after.holes, [])
            for _ in range(moved):
                store.undo()
            self.assertEqual(store.show("parcels"), first)

    def test_corners_of_others_on_a_border(self) -> None:
        """A neighbour that has no vertex there follows, and corners of neighbours on a bent edge stay on it."""
        texts = "POLYGON ((0 0, 5 0, 5 5, 0 5, 0 0))", "POLYGON ((5 0, 10 0, 10 5, 5 5, 5 0))", "POLYGON ((0 5, 10 5, 10 9, 0 9, 0 5))"
        for at, to in (((5, 5), (5, 7)), ((10, 5), (12, 6)), ((0, 5), (0, 3))):
            with coverage.opened() as store:
                store.add_layer("p")
                for text in texts:
                    store.add("p", text)
                store.add_layer("marks")
                store.add("marks", "POINT (1 1)")
                moved = move_node(store, ["p", "marks"], at, to)
                self.assertIn(("p", 3), moved)
                whole = store.show("p")
                self.assertEqual(list(store.join("p", "T********", "p")), [])
                self.assertEqual(len(coverage.outline(feature.wkt for feature in whole)), 1)
                self.assertEqual(coverage.outline(feature.wkt for feature in whole)[0].holes, [])
                store.undo()
                self.assertEqual([feature.wkt for feature in store.show("p")], list(texts))

    def test_several_layers_and_none(self) -> None:
        with coverage.opened() as store:
            for layer, text in ("a", "LINESTRING (0 0, 5 5, 9 9)"), ("b", "POINT (5 5)"), ("c", "POLYGON ((0 0, 9 0, 9 9, 5 5, 0 0))"):
                store.add_layer(layer)
                store.add(layer, text)
            # On an edge alone nothing stands to be moved.
            store.add("a", "LINESTRING (0 10, 10 0)")
            self.assertEqual(move_node(store, ["a", "b", "c", "a"], (5, 5), (6, 4)), [("a", 1), ("b", 1), ("c", 1)])
            self.assertEqual([store.show(layer)[0].wkt for layer in "abc"], ["LINESTRING (0 0, 6 4, 9 9)", "POINT (6 4)", "POLYGON ((0 0, 9 0, 9 9, 6 4, 0 0))"])
            self.assertRaisesRegex(ValueError, "no feature has a vertex at .5 5.", move_node, store, ["a", "b", "c"], (5, 5), (6, 4))
            self.assertRaises(Refused, move_node, store, ["c"], (0, 0), (9, 9))
            store.undo()
            self.assertEqual(store.show("b")[0].wkt, "POINT (5 5)")
