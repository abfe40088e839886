"""Tests of what the tests have in common."""

from __future__ import annotations

import time
import unittest
from unittest import mock

import support


class Slow(support.TestCase):
    """A test that takes longer than it may."""

    SECONDS = 1

    def waits(self, crowd: float, seconds: float) -> float:
        """How many seconds a call went on that takes so many, where the machine is so crowded."""
        begun = time.monotonic()
        with mock.patch.object(support, "crowd", return_value=crowd):
            try:
                time.sleep(seconds)
            except TimeoutError:
                pass
        return time.monotonic() - begun

    def test_a_call_that_hangs_ends(self):
        self.assertLess(self.waits(1.0, 30), 20)

    def test_a_call_on_a_crowded_machine_has_longer(self):
        self.assertGreater(self.waits(100.0, 2.5), 2.4)


class Crowd(unittest.TestCase):
    def test_it_is_what_waits_for_each_processor(self):
        for load, factor in ((0.1, 1.0), (4.0, 1.0), (20.0, 5.0), (4000.0, 10.0)):
            with mock.patch("os.getloadavg", return_value=(load, 0.0, 0.0)), mock.patch("os.cpu_count", return_value=4):
                self.assertEqual(support.crowd(), factor)


if __name__ == "__main__":
    unittest.main()
