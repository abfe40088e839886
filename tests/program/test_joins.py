"""Joins beside a plain double loop, on random layers of the built program: bench/joins.py with fewer rounds."""

from __future__ import annotations

import sys
import unittest

from preloaded import STORE, TOP

sys.path.insert(0, str(TOP / "bench"))

import joins  # noqa: E402

ROUNDS = 300


class Joins(unittest.TestCase):
    def test_joins_are_those_of_a_double_loop(self) -> None:
        """Layers of a few features and of those of which an index is searched, with themselves and each other."""
        for seed in range(ROUNDS):
            self.assertEqual(joins.differences(STORE, seed), [])

    def test_a_difference_is_told(self) -> None:
        """A double loop of another predicate than the one that is asked differs from the answer."""
        chance = joins.random.Random(3)
        layers = {"a": [joins.near(chance) for _ in range(8)], "b": [joins.near(chance) for _ in range(8)]}
        known = joins.matrices(STORE, layers)
        asked = joins.Join("a", "intersects", "b", None)
        other = joins.Join("a", "disjoint", "b", None)
        self.assertNotEqual(joins.expected(asked, layers, known), joins.expected(other, layers, known))


if __name__ == "__main__":
    unittest.main()
