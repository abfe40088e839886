"""Each read and each write of the built programs failed in turn: once or for good, by an error or as one that was interrupted.
Bytes are given and taken one, seven or many at a time. Behind a read that failed there is no other, and behind a write no answer."""

from __future__ import annotations

import math
import struct
import unittest
from pathlib import Path

from preloaded import FAILING, PICTURE, STORE, Preloaded

from growths import Call, Ended, met_runs, sent

# Each line with its answer.
DIALOG = {
    "layer add wells point": "ok\n",
    "add wells POINT (3 4)": "ok 1\n",
    "show wells": "rows 1\n1 POINT (3 4)\n",
    "undo": "ok\n",
    "columns wells": "rows 0\n",
    "redo": "ok\n",
}
LINES = list(DIALOG)
ANSWERS = "".join(DIALOG.values()).encode()
# How many bytes are given and taken at most in one call, with the variables that say so.
MANY = 100_000
STEPS: dict[int, dict[str, str]] = {1: {"STEP": "1"}, 7: {"STEP": "7"}, MANY: {}}
# How a read fails, and what a write does that fails: what is counted, and the variables beside it.
CAUSES: list[dict[str, str]] = [{}, {"INTERRUPTS": "1"}]
ONCE: list[tuple[str, dict[str, str]]] = [("WRITE_FAILS", {}), ("WRITE_FAILS", {"INTERRUPTS": "1"}), ("WRITE_TAKES_NONE", {})]
FOR_GOOD = [(counted, {**others, "FOR_GOOD": "1"}) for counted, others in ONCE]


def answered(read: bytes) -> bytes:
    """The answers to the lines that are whole in what was read."""
    return "".join(DIALOG[LINES[place]] for place in range(read.count(b"\n"))).encode()


def fronts(step: int) -> list[int]:
    """How many bytes of answers were written before each write, where one takes so many bytes of an answer at most."""
    counts = [min(step, len(answer) - begin) for answer in DIALOG.values() for begin in range(0, len(answer), step)]
    return [sum(counts[:place]) for place in range(len(counts))]


# A line of points, longer than what is written or read at once, between short ones.
BIG = [(place % 1_000, -place) for place in range(4_096)]
SMALL = [(1, 2)]


def multi_point(points: list[tuple[int, int]]) -> bytes:
    """Well-known binary, the least significant byte first."""
    return struct.pack("<BII", 1, 4, len(points)) + b"".join(struct.pack("<BIdd", 1, 1, x, y) for x, y in points)


def long_lines() -> list[str]:
    """A layer with long and short geometries after one another, each with a value."""
    lines = ["layer add m multipoint", "column add m n int"]
    for number, points in enumerate((SMALL, BIG, SMALL, BIG), 1):
        lines += [f"add m MULTIPOINT ({', '.join(f'{x} {y}' for x, y in points)})", f"set m {number} n {-number}"]
    return lines


def long_file() -> bytes:
    """The file of that layer, by docs/use/FORMAT.md."""
    file = b"SFSTORE4\x1f" + struct.pack(">IB1sBIHHHB", 1, 1, b"m", 4, 5, 2, 1, 1, 1) + b"\x01n" + struct.pack(">I", 4)
    for number, points in enumerate((SMALL, BIG, SMALL, BIG), 1):
        geometry = multi_point(points)
        file += struct.pack(">II", number, len(geometry)) + geometry + struct.pack(">HHq", 1, 1, -number)
    # No rules.
    return file + bytes(2)


class Failed(Preloaded):
    """Runs in which one call of the system fails."""

    source = FAILING
    stored = LINES

    def runs(self, call: Call, text: bytes, counted: str, others: dict[str, str]) -> list[Ended]:
        """The runs in which each call fails in turn."""
        ended = [ended for _, ended in met_runs(self.library, call, text, counted, others)]
        self.assertTrue(ended)
        return ended

    def test_few_bytes_a_call_make_no_difference(self) -> None:
        for call, text in (
            (Call(STORE, ("--load", str(self.file)), saves=True), b"show wells\nundo\nlayer add v any\n"),
            (Call(PICTURE), self.file.read_bytes()),
        ):
            for others in STEPS.values():
                self.assertEqual(call.run(text, {"LD_PRELOAD": str(self.library), **others}), call.run(text, {}))

    def test_long_and_short_parts_of_a_file(self) -> None:
        """Parts stand in their order, however many bytes a call gives or takes, and places count on from piece to piece."""
        file, name = long_file(), Path(self.folder.name) / "long.sfs"
        for others in STEPS.values():
            variables = {"LD_PRELOAD": str(self.library), **others}
            saved = Call(STORE, saves=True).run(sent(long_lines()), variables)
            self.assertEqual((saved.status, saved.saved), (0, file))
            name.write_bytes(file)
            loaded = Call(STORE, ("--load", str(name)), saves=True).run(b"find m n\nget m 3\n", variables)
            self.assertEqual((loaded.output, loaded.saved), (b"rows 4\n1\n2\n3\n4\nrows 1\n3 MULTIPOINT ((1 2)) n=-3\n", file))
            name.write_bytes(file + b"x")
            self.assertEqual(Call(STORE, ("--load", str(name))).run(b"", variables).output, b"fault load BadFile %d 8\n" % len(file))

    def test_lines_before_a_failed_read_are_answered(self) -> None:
        text = sent(LINES)
        for step, others in STEPS.items():
            for cause in CAUSES:
                ends = self.runs(Call(STORE), text, "READ_FAILS", {**others, **cause})
                # The last read finds the end.
                self.assertEqual(len(ends), math.ceil(len(text) / step) + 1)
                for place, ended in enumerate(ends):
                    self.assertEqual((ended.status, ended.output), (1, answered(text[: step * place]) + b"fault serve Read\n"))

    def test_a_front_of_the_answers_is_written_before_a_failed_write(self) -> None:
        for step, others in STEPS.items():
            wanted = [(1, ANSWERS[:count]) for count in fronts(step)]
            for counted, way in ONCE:
                ends = self.runs(Call(STORE), sent(LINES), counted, {**others, **way})
                told = [(ended.status, ended.output) for ended in ends]
                self.assertEqual(told, [(status, front + b"fault serve Write\n") for status, front in wanted], (step, counted, way))
            for counted, way in FOR_GOOD:
                ends = self.runs(Call(STORE), sent(LINES), counted, {**others, **way})
                self.assertEqual([(ended.status, ended.output) for ended in ends], wanted, (step, counted, way))

    def test_a_file_that_cannot_be_read_is_told(self) -> None:
        call, count = Call(STORE, ("--load", str(self.file))), len(self.file.read_bytes())
        for step, others in STEPS.items():
            for cause in CAUSES:
                runs = self.runs(call, b"", "READ_FAILS", {**others, **cause})
                ends = [(ended.status, ended.output) for ended in runs]
                # The reads of the file, its end too, and then those of standard input.
                of_file = ends.count((3, b"fault load Read\n"))
                self.assertGreaterEqual(of_file, math.ceil(count / step) + 1)
                self.assertEqual(ends[of_file:], [(1, b"fault serve Read\n")])

    def test_a_file_that_cannot_be_written_whole_is_not_there(self) -> None:
        count = len(self.file.read_bytes())
        call = Call(STORE, ("--load", str(self.file)), saves=True)
        for step, others in STEPS.items():
            for counted, way in ONCE + FOR_GOOD:
                ends = self.runs(call, b"", counted, {**others, **way})
                self.assertGreaterEqual(len(ends), math.ceil(count / step))
                for ended in ends:
                    self.assertEqual((ended.status, ended.output, ended.saved), (4, b"fault save Write\n", b""))

    def test_a_picture_of_a_file_that_cannot_be_read_is_a_fault(self) -> None:
        for others in STEPS.values():
            for cause in CAUSES:
                for ended in self.runs(Call(PICTURE), self.file.read_bytes(), "READ_FAILS", {**others, **cause}):
                    self.assertEqual((ended.status, ended.output, ended.told), (3, b"", b"fault load Read\n"))

    def test_a_front_of_the_picture_is_drawn_before_a_failed_write(self) -> None:
        file = self.file.read_bytes()
        whole = Call(PICTURE).run(file, {}).output
        for step, ways in ((1, [ONCE[0], ONCE[2]]), (7, ONCE + FOR_GOOD), (MANY, ONCE + FOR_GOOD)):
            for counted, way in ways:
                ends = self.runs(Call(PICTURE), file, counted, {**STEPS[step], **way})
                self.assertGreaterEqual(len(ends), math.ceil(len(whole) / step))
                self.assertEqual([ended.output for ended in ends], sorted({ended.output for ended in ends}, key=len))
                for place, ended in enumerate(ends):
                    self.assertEqual((ended.status, ended.told), (1, b"fault draw Write\n"))
                    self.assertTrue(whole.startswith(ended.output))
                    self.assertLessEqual(len(ended.output), step * place)


if __name__ == "__main__":
    unittest.main()
