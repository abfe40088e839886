"""Tests of bench/turns.py: which wrong bodies are tried behind the gate, and how they are counted."""

from __future__ import annotations

import contextlib
import io
import sys
import unittest
from pathlib import Path
from unittest import mock

TOP = Path(__file__).resolve().parents[2]
sys.path[:0] = [str(TOP / "bench"), str(TOP / "tools")]

import kept  # noqa: E402
import turns  # noqa: E402
from plants import Plant, plants  # noqa: E402


def plant(crate: str, number: int) -> Plant:
    """A plant that a contract has to refuse."""
    return Plant(f"{crate}-{number}", crate, "something breaks", "refused", {"src/lib.rt": [("1", "2")]})


MANY = [plant(crate, number) for crate in ("sf_grid", "sf_query", "sf_edits") for number in range(30)]


class Turns(unittest.TestCase):
    def test_crates_are_those_whose_code_or_proofs_changed(self) -> None:
        paths = ["crates/sf_grid/src/edges.rt", "crates/sf_query/proofs/a/Answers.antt", "crates.txt", "crates/sf_edits/must-fail/a.edit", "tests/crates/sf_bench/src/main.rt.in"]
        self.assertEqual(turns.crates_in(paths), {"sf_grid", "sf_query"})

    def test_those_of_changed_crates_come_first_and_some_others_behind(self) -> None:
        few = [plant("sf_grid", 1), plant("sf_grid", 2), *(one for one in MANY if one.crate != "sf_grid")]
        found = turns.chosen(few, {"sf_grid"}, "abc")
        self.assertEqual({one.name for one in found[:2]}, {"sf_grid-1", "sf_grid-2"})
        self.assertEqual(len(found), 2 + turns.OTHERS)
        self.assertFalse([one for one in found[2:] if one.crate == "sf_grid"])

    def test_a_run_never_tries_more_than_so_many(self) -> None:
        for crates in (set(), {"sf_grid"}, {"sf_grid", "sf_query", "sf_edits"}):
            with self.subTest(crates):
                found = turns.chosen(MANY, crates, "abc")
                self.assertLessEqual(len(found), turns.CHANGED + turns.OTHERS)
                self.assertEqual(len({one.name for one in found}), len(found))

    def test_one_commit_chooses_the_same_and_many_choose_all(self) -> None:
        self.assertEqual(turns.chosen(MANY, {"sf_grid"}, "abc"), turns.chosen(MANY, {"sf_grid"}, "abc"))
        seen = {one.name for commit in range(200) for one in turns.chosen(MANY, set(), str(commit))}
        self.assertEqual(seen, {one.name for one in MANY})

    def test_enough_are_there_to_choose_from(self) -> None:
        self.assertGreater(len([one for one in plants() if not one.test]), 100)

    def test_one_that_is_proved_fails_the_run(self) -> None:
        for found, last, status in (("refused", "1 passed, 0 failed", 0), ("proved", "0 passed, 1 failed", 1), ("not tried", "0 passed, 1 failed", 1)):
            outcome = kept.Tried(plant("sf_grid", 1), found, "said")
            printed = io.StringIO()
            with (
                self.subTest(found),
                mock.patch.object(turns, "chosen", return_value=[outcome.plant]),
                mock.patch.object(turns, "libraries"),
                mock.patch.object(kept, "tried", return_value=outcome),
                contextlib.redirect_stdout(printed),
            ):
                self.assertEqual(turns.main([]), status)
                self.assertEqual(printed.getvalue().splitlines()[-1], last)


if __name__ == "__main__":
    unittest.main()
