"""Matrices of geometries whose edges go across the whole grid, beside those that are worked out in exact fractions."""

from __future__ import annotations

import random
import sys
import unittest
from pathlib import Path

TOP = Path(__file__).resolve().parents[2]
sys.path[:0] = [str(TOP / "bench"), str(TOP / "tools")]

import matrices  # noqa: E402
from programs import path_of  # noqa: E402

PAIRS = 600
SEED = 20_261_129


class Wide(unittest.TestCase):
    def test_matrices_are_those_of_exact_fractions(self) -> None:
        pairs = list(matrices.wide_pairs(random.Random(SEED), PAIRS))
        compared, wrong = matrices.compare(path_of("sfstore"), pairs)
        self.assertEqual(wrong, 0)
        # Rings that meet themselves are refused, and no others.
        self.assertGreater(compared, PAIRS // 2)


if __name__ == "__main__":
    unittest.main()
