"""What only the library says: each growth within a line refused in turn, and readers that never end.

Each growth of one line of the program `sf_refusing` is refused, alone and with all behind it to the end of the line.
Before and behind it, where memory is ample, the program asks what only the library says.

- The lines are additions, deletions, replacements and changed vertices that move the boxes of a layer of up to 31
  features, each done, undone and redone.
- A line that was refused has left rows, columns, depths and index as they were.
- A line that was accepted stands. If its index was given up, queries find what the rows have, and search exactly the
  features whose boxes meet the given geometry's, or all if no contact is asked for. A look, a refused edit, an edit of a
  value and one of another layer leave the layer without an index. The next other edit, undo or redo that names it builds the index anew,
  with exactly the boxes of the features.
- A growth refused alone never leaves a layer without: the line that loses the index builds it anew itself.
- A tree of 30 boxes from which some are removed one after another is gone or whole after a growth that was refused,
  and one built anew has the boxes left.
- A column of 30 values is dropped, taken back and dropped again: an undo refused leaves rows, columns and depths, and
  the next one gives the rows from before.

Memory is scarce in one line of a run alone. Where it is ample all the time, queries look at just the features that they have to, and
an index of thousands is kept.
"""

from __future__ import annotations

import shutil
import subprocess
import unittest

from preloaded import Preloaded

from growths import REFUSED, answers, sent
from refusing import (
    COLUMNS,
    MARKED,
    ROWS,
    Trial,
    Wanted,
    dropping_trials,
    growing_trials,
    is_accepted,
    moving_trials,
    naming_trials,
    program,
    removal_ends,
    removals,
    scarce_runs,
    shrinking_trials,
    tried,
)


@unittest.skipUnless(shutil.which("rt"), "no toolchain")
class Refusing(Preloaded):
    """Runs in which growths within one line are refused, one or all from one on."""

    source = MARKED

    def check(self, trials: list[Trial]) -> None:
        """Tries each; among them have to be lines that were refused, and accepted ones that lost the index."""
        alone = [end for trial in trials for end in tried(self.library, trial, False)]
        self.assertEqual(set(alone), {"refused", "kept"})
        with_rest = [end for trial in trials for end in tried(self.library, trial, True)]
        self.assertLessEqual({"refused", "lost"}, set(with_rest))

    def test_an_index_given_up_is_built_anew_by_the_next_step(self) -> None:
        self.check(moving_trials())

    def test_each_edit_that_names_a_layer_builds_its_index_anew(self) -> None:
        for trial in naming_trials():
            with self.subTest(trial.follower):
                self.check([trial])

    def test_an_index_that_grows_is_whole_or_given_up(self) -> None:
        self.check(growing_trials())

    def test_an_index_that_shrinks_is_whole_or_given_up(self) -> None:
        self.check(shrinking_trials())

    def test_a_removal_leaves_a_whole_tree_or_none(self) -> None:
        for has_rest in (False, True):
            ends = [end for numbers in removals() for end in removal_ends(self.library, numbers, has_rest)]
            self.assertIn("gone", ends)

    def test_a_dropped_column_is_taken_back_whole_or_not_at_all(self) -> None:
        trials = dropping_trials()
        for has_rest in (False, True):
            for trial in trials:
                self.assertEqual(set(tried(self.library, trial, has_rest)), {"refused"})
            self.check_taken_back(trials[1], has_rest)

    def check_taken_back(self, trial: Trial, has_rest: bool) -> None:
        """Refuses a layer without its values behind an undo that was refused and another that found memory."""
        wanted = Wanted.of(trial)
        dropped, whole = wanted.left_out.looks[0], wanted.carried_out.looks[1]
        self.assertEqual((dropped.told[COLUMNS], whole.told[COLUMNS]), (["rows 0"], ["rows 1", "depth int"]))
        self.assertIn("30 POINT (5 4) depth=-30", whole.told[ROWS])
        for growth, ended in scarce_runs(self.library, trial.lines(trial.line), has_rest):
            told = trial.told(ended)
            with self.subTest(growth=growth, has_rest=has_rest):
                self.assertEqual((told.answer, told.looks[1]), (REFUSED, dropped))
                for line in (COLUMNS, ROWS):
                    self.assertEqual(told.looks[2].told[line], dropped.told[line])
                    self.assertEqual(told.looks[3].told[line], whole.told[line])


SQUARE = "POLYGON ((0 0, 10 0, 10 10, 0 10, 0 0))"
# Seven shapes whose boxes meet that of the square, one of them beside it and around two of its sides, and one far away.
SHAPES = (
    SQUARE,
    "POLYGON ((10 0, 20 0, 20 10, 10 10, 10 0))",
    "POLYGON ((5 5, 15 5, 15 15, 5 15, 5 5))",
    "POLYGON ((2 2, 4 2, 4 4, 2 4, 2 2))",
    "POLYGON ((-10 -10, 20 -10, 20 20, -10 20, -10 -10))",
    "POLYGON ((30 30, 40 30, 40 40, 30 40, 30 30))",
    "POLYGON ((-20 -20, 40 -20, 40 -15, -15 -15, -15 40, -20 40, -20 -20))",
    "LINESTRING (-5 5, 15 5)",
)
# What each predicate finds there, behind how many features it looks at.
LOOKED = {
    "equals": "7 of 1",
    "disjoint": "8 of 6 7",
    "intersects": "7 of 1 2 3 4 5 8",
    "touches": "7 of 2",
    "within": "7 of 1 4",
    "contains": "7 of 1 5",
    "crosses": "7 of 8",
    "overlaps": "7 of 3",
}
AMONG_POINTS = "POLYGON ((5 5, 9 5, 9 9, 5 9, 5 5))"
# A window over two points of each of two rows of 100, and what it has behind edits, undo and redo.
WINDOW = "POLYGON ((98 10, 101 10, 101 11, 98 11, 98 10))"
THOUSANDS = {
    "delete w 1100": "3 of 1099 1199 1200",
    "undo": "4 of 1099 1100 1199 1200",
    "redo": "3 of 1099 1199 1200",
    "add w POINT (100 10)": "4 of 1099 1199 1200 5001",
    "undo ": "3 of 1099 1199 1200",
}


def asked(lines: list[str]) -> list[list[str]]:
    """What the program answers to each line."""
    ended = subprocess.run([program()], input=sent(lines), capture_output=True, timeout=600, check=True)
    return answers(ended.stdout)


def rows_of_points(count: int, across: int) -> list[str]:
    """A layer of so many points, in rows."""
    return ["layer add w point", *(f"add w POINT ({number % across} {number // across})" for number in range(count))]


@unittest.skipUnless(shutil.which("rt"), "no toolchain")
class Indexed(unittest.TestCase):
    """How many features queries look at, and what the index of a layer finds, where memory is ample."""

    def test_predicates_look_at_what_is_near(self) -> None:
        lines = ["layer add s any", *(f"add s {shape}" for shape in SHAPES)]
        told = asked([*lines, *(f"looked query s {predicate} {SQUARE}" for predicate in LOOKED)])
        self.assertEqual(told[len(lines) :], [[wanted] for wanted in LOOKED.values()])

    def test_a_thousand_points(self) -> None:
        lines = rows_of_points(1_000, 40)
        near, apart = (answer[0].split() for answer in asked([*lines, *(f"looked query w {word} {AMONG_POINTS}" for word in ("intersects", "disjoint"))])[-2:])
        inside = [str(40 * y + x + 1) for y in range(5, 10) for x in range(5, 10)]
        self.assertEqual(near, ["25", "of", *inside])
        self.assertEqual(apart, ["1000", "of", *(str(number) for number in range(1, 1_001) if str(number) not in inside)])

    def test_an_index_of_thousands_is_kept(self) -> None:
        """Each line leaves an index with just the boxes of the features."""
        lines = rows_of_points(5_000, 100)
        looks = ["boxes w", f"looked query w intersects {WINDOW}"]
        told = asked([*lines, *looks, *(line for edit in THOUSANDS for line in (edit, *looks))])[len(lines) :]
        self.assertEqual(told[:2], [["true"], ["4 of 1099 1100 1199 1200"]])
        for (edit, wanted), (answer, boxes, looked) in zip(THOUSANDS.items(), zip(*[iter(told[2:])] * 3), strict=True):
            with self.subTest(edit):
                self.assertTrue(is_accepted(answer))
                self.assertEqual((boxes, looked), (["true"], [wanted]))


READS_MAX = 1_000_000_000
"""How often a reader is asked at most, by the documents."""


@unittest.skipUnless(shutil.which("rt"), "no toolchain")
class Endless(unittest.TestCase):
    """Readers that give one byte at each call, for ever: some twenty seconds of a calm processor for each way."""

    def check(self, line: str) -> None:
        """Asks for the count of calls after which reading is given up."""
        told = subprocess.run([program()], input=f"{line}\n", capture_output=True, text=True, timeout=600, check=True)
        self.assertEqual(told.stdout, f"calls {READS_MAX}\n")

    def test_serving_gives_up_a_reader_that_never_ends(self) -> None:
        self.check("served")

    def test_loading_gives_up_a_reader_that_never_ends(self) -> None:
        self.check("ahead")


if __name__ == "__main__":
    unittest.main()
