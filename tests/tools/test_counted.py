"""Tests of what counts instructions of two versions: checks that are taken out of a program, and lines that are counted once."""

from __future__ import annotations

import sys
import unittest
from pathlib import Path
from unittest import mock

TOP = Path(__file__).resolve().parents[2]
sys.path[:0] = [str(TOP / "bench"), str(TOP / "tools")]

import compiling  # noqa: E402
import counted  # noqa: E402
import questions  # noqa: E402
import single_edits  # noqa: E402
from programs import path_of  # noqa: E402

STORE = path_of("sfstore")

CHECKED = """\
define internal void @"rattle-llvm-checks::Overflow"(i8 %a0) #7 {
start:
  %r0 = icmp ne i8 %a0, 0
  br i1 %r0, label %true, label %false
}

define internal void @"rattle-llvm-checks::Unreachable"(i8 %a0) #7 {
start:
  call void @llvm.trap()
  unreachable
}

define void @main() {
  ret void
}
"""

UNCHECKED = """\
define internal void @"rattle-llvm-checks::Overflow"(i8 %a0) #7 {
  ret void
}

define internal void @"rattle-llvm-checks::Unreachable"(i8 %a0) #7 {
  unreachable
}

define void @main() {
  ret void
}
"""


class Counted(unittest.TestCase):
    def test_checks_pass_at_once(self) -> None:
        self.assertEqual(compiling.stripped(CHECKED), UNCHECKED)

    def test_what_is_repeated_is_found(self) -> None:
        for lines, wanted in ((["a"], 1), (["a"] * 6, 1), (["a", "b"] * 3, 2), (["a", "b", "a"], 3)):
            self.assertEqual(counted.period(lines), wanted)

    def test_a_row_has_what_its_lines_take_beyond_those_before(self) -> None:
        def measure() -> None:
            print(f"a row: {questions.cost(['before'], ['ask'] * 5):.2f} us for each")

        with (
            mock.patch.object(counted, "instructions", lambda words, text: (len(text), b"")),
            mock.patch.object(questions, "cost"),
            mock.patch.object(counted.towns, "cost"),
        ):
            rows = counted.printed_rows(Path("program"), measure)
        self.assertEqual(rows, {"a row:": 5.0 * len("\nask")})

    def test_an_edit_has_what_its_line_takes_beyond_those_before(self) -> None:
        """No line is counted once for all, as a repeated question is: each meets what those before it have left."""
        row = single_edits.Row("a row", ["before"], ["undo"] * 6, edits=3)
        with (
            mock.patch.object(counted, "instructions", lambda words, text: (len(text), b"")),
            mock.patch.object(counted, "carried_out", lambda program, text: text),
            mock.patch.object(single_edits, "SIZES", (1,)),
            mock.patch.object(single_edits, "rows_of", lambda size: [row]),
        ):
            rows = counted.edits(Path("program"))
        self.assertEqual(rows, {"a row": 2.0 * len("\nundo")})

    def test_edits_are_carried_out(self) -> None:
        """No line of a row is refused. A program that refuses one is not counted."""
        for row in single_edits.rows_of(single_edits.SIZES[0]):
            with self.subTest(row.name):
                counted.carried_out(STORE, "\n".join([*row.before, *row.lines]).encode())
        with self.assertRaisesRegex(RuntimeError, "refuses an edit"):
            counted.carried_out(STORE, b"layer add a point\ndelete a 1")


if __name__ == "__main__":
    unittest.main()
