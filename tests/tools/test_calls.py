"""Tests of bench/calls: its program is made of the crate sf_bench of tests/crates, and each of its files has a place there."""

from __future__ import annotations

import sys
import tempfile
import unittest
from pathlib import Path

TOP = Path(__file__).resolve().parents[2]
sys.path[:0] = [str(TOP / "bench"), str(TOP / "tools")]

import calls  # noqa: E402
import checkouts  # noqa: E402


class Calls(unittest.TestCase):
    def test_its_crate_stands_above_crates_that_are_there(self) -> None:
        text = (TOP / "crates.txt").read_text(encoding="utf-8")
        names = set(checkouts.listed(text))
        self.assertLessEqual(set(calls.BELOW.split()), names)
        lines = checkouts.with_crate(text, calls.CRATE, calls.BELOW.split(), names).splitlines()
        self.assertEqual([line for line in lines if line.startswith(calls.CRATE)], [f"{calls.CRATE}: {calls.BELOW}"])

    def test_crates_that_an_older_version_lacks_are_left_out(self) -> None:
        """Those of the toolchain are listed nowhere, and stay."""
        older = "# lowest first\nsf_grid:\nsf_bench: sf_grid\n"
        joined = checkouts.with_crate(older, "sf_bench", ["sf_grid", "sf_slabs", "hex"], {"sf_grid", "sf_slabs"})
        self.assertEqual(joined, "# lowest first\nsf_grid:\nsf_bench: sf_grid hex\n")

    def test_its_files_join_those_of_the_crate(self) -> None:
        with tempfile.TemporaryDirectory() as name:
            source = calls.copied(Path(name)) / "src"
            modules = {line[4:-1] for line in (source / "main.rt").read_text(encoding="utf-8").splitlines() if line.startswith("mod ")}
            self.assertEqual(modules, {path.stem for path in source.glob("*.rt")} - {"main"})
            self.assertEqual(list(Path(name).rglob("*.in")), [])


if __name__ == "__main__":
    unittest.main()
