"""Long lines, long sessions, long answers and full stores over the built program, in one piece and a byte at a time; every kind
of edit undone and redone."""

from __future__ import annotations

import unittest

from asking import answered, answers
from preloaded import STORE, Preloaded

from growths import Call

# Reads give one byte at a time where STEP says so.
SINGLE_BYTES = r"""
static long step;

__attribute__((constructor)) static void begin(void) {
    step = number("STEP");
}

ssize_t read(int file, void *bytes, size_t count) {
    return syscall(SYS_read, file, bytes, step && count > (size_t)step ? (size_t)step : count);
}

ssize_t __read(int file, void *bytes, size_t count) { return read(file, bytes, count); }
"""

LAYERS_MAX = 65_535
LINE_MAX = 4_194_304
POINTS_MAX = 65_536
NO_VERTEX = "refused 25 NoVertex"
FEATURES = 40_000
POINTS = 1_000


def lines_of(*lines: str) -> str:
    return "".join(f"{line}\n" for line in lines)


def multi_point(points: int) -> str:
    return f"add w MULTIPOINT ({', '.join(['1 2'] * points)})"


def long_session() -> tuple[str, str]:
    """A session whose input and answers have more than a million bytes each, with its answers."""
    added = [f"ok {number}" for number in range(1, FEATURES + 1)]
    shown = [f"{number} POINT (-1073741824 -1073741824)" for number in range(1, FEATURES + 1)]
    asked = lines_of("layer add w point", *["add w POINT (-1073741824 -1073741824)"] * FEATURES, "show w")
    return asked, lines_of("ok", *added, f"rows {FEATURES}", *shown)


# Sessions with their answers.
SESSIONS = {
    "a line as long as one may be, without a line feed": ("a" * LINE_MAX, "refused 31 BadCommand\n"),
    "the same with one": ("a" * LINE_MAX + "\n", "refused 31 BadCommand\n"),
    "a carriage return is a byte of the line": ("a" * LINE_MAX + "\r\n", "refused 33 LineTooLong\n"),
    "a longer line": ("a" * (LINE_MAX + 1), "refused 33 LineTooLong\n"),
    "a line behind a longer one": ("a" * 5_000_000 + "\nundo\n", lines_of("refused 33 LineTooLong", "refused 29 NothingToUndo")),
    "the longest line that adds a point": (
        lines_of("layer add w any", f"add w POINT (1 {'0' * 4_194_287}2)", "show w"),
        lines_of("ok", "ok 1", "rows 1", "1 POINT (1 2)"),
    ),
    "as many points as a geometry may have, and more": (
        lines_of(
            "layer add w any",
            multi_point(POINTS_MAX),
            multi_point(POINTS_MAX + 1),
            "vertex insert w 1 0 0 0 7 7",
            "vertex insert w 1 1 0 0 7 7",
            "box w 1",
            "simple w 1",
        ),
        lines_of("ok", "ok 1", "refused 9 TooManyVertices", "refused 9 TooManyVertices", NO_VERTEX, "1 2 1 2", "false"),
    ),
    "a session of a million bytes": long_session(),
}


class Sizes(Preloaded):
    source = SINGLE_BYTES

    def test_sessions_in_one_piece_and_a_byte_at_a_time(self) -> None:
        for name, (text, wanted) in SESSIONS.items():
            # A long text a byte at a time would take a minute.
            few = {"LD_PRELOAD": str(self.library), "STEP": "1" if len(text) < 1_000_000 else "97"}
            for variables in ({}, few):
                with self.subTest(name, few=bool(variables)):
                    self.assertEqual(Call(STORE).run(text.encode(), variables).output.decode(), wanted)

    def test_the_longest_texts(self) -> None:
        # What stands between the quotes, and whether it is a value: one of at most 65,535 bytes, a doubled quote counted once.
        texts = {
            "a" * 65_535: True,
            "a" * 65_536: False,
            "''" * 65_535: True,
            "''" * 65_536: False,
            "a" * 65_531 + "\U0001f600": True,
            "a" * 65_532 + "\U0001f600": False,
        }
        head = ["layer add w point", "column add w t text", "add w POINT (1 1)"]
        found = answers(lines_of(*head, *(f"set w 1 t '{text}'" for text in texts))).splitlines()[len(head) :]
        self.assertEqual(found, ["ok" if is_value else "refused 24 WrongValue" for is_value in texts.values()])

    def test_the_most_layers(self) -> None:
        added = [f"layer add l{number} point" for number in range(1, LAYERS_MAX + 2)]
        full = "refused 27 IdsExhausted"
        # A dropped layer leaves room, and so does an addition that is taken back.
        rest = {
            0: ("layer drop l7", "ok"),
            1: ("layer add m any", "ok"),
            2: ("layer add n any", full),
            3: ("undo", "ok"),
            4: ("layer add n any", "ok"),
            5: ("undo", "ok"),
            6: ("undo", "ok"),
            7: ("layer add m any", full),
        }
        asked = lines_of(*added, *(line for line, _ in rest.values()))
        self.assertEqual(answers(asked), lines_of(*["ok"] * LAYERS_MAX, full, *(answer for _, answer in rest.values())))


class Points(unittest.TestCase):
    def test_points_are_found_deleted_and_back(self) -> None:
        places = [(number % 40, number // 40) for number in range(POINTS)]
        inside = [str(place + 1) for place, (x, y) in enumerate(places) if 5 <= x <= 9 and 5 <= y <= 9]
        others = [str(place + 1) for place in range(POINTS) if str(place + 1) not in inside]
        square = "POLYGON ((5 5, 9 5, 9 9, 5 9, 5 5))"
        asked = [f"query w intersects {square}", f"query w disjoint {square}"]
        found = [f"rows {len(inside)}", *inside, f"rows {len(others)}", *others]
        added = [f"add w POINT ({x} {y})" for x, y in places]
        deleted = [f"delete w {place + 1}" for place in range(POINTS)]
        text = lines_of("layer add w point", *added, *asked, *deleted, *asked, *["undo"] * POINTS, *asked)
        ids = [f"ok {place + 1}" for place in range(POINTS)]
        wanted = lines_of("ok", *ids, *found, *["ok"] * POINTS, "rows 0", "rows 0", *["ok"] * POINTS, *found)
        self.assertEqual(answers(text), wanted)


# Every kind of edit, some of them in several forms. Each changes what the store shows.
EDITS = [
    "layer add a any",
    "layer add b point",
    "layer rename b c",
    "layer move c 0",
    "column add a depth int",
    "column add a label text",
    "add a POINT (1 1)",
    "add a LINESTRING (0 0, 5 5)",
    "addhex a 010100000000000000000008400000000000001040",
    "add a POLYGON ((0 0, 9 0, 9 9, 0 9, 0 0), (1 1, 2 1, 2 2, 1 1))",
    "add a MULTIPOLYGON (((0 0, 5 0, 5 5, 0 0)), ((6 6, 9 6, 9 9, 6 6)))",
    "set a 1 depth 12",
    "set a 1 label 'it''s'",
    "set a 2 depth -7",
    "set a 1 depth 13",
    "replace a 1 MULTIPOINT (1 1, 2 2)",
    "vertex insert a 2 0 0 1 3 4",
    "vertex move a 2 0 0 0 -1 0",
    "vertex remove a 2 0 0 1",
    "unset a 1 label",
    "delete a 3",
    "column drop a depth",
    "layer move c 1",
    "layer drop a",
]
# Questions whose answers tell all that the store shows.
QUESTIONS = ["layers", *(f"{verb} {layer}" for layer in "abc" for verb in ("columns", "show"))]


class Edits(unittest.TestCase):
    def shown_after(self, lines: list[str]) -> list[list[str]]:
        """What the store shows before lines, each of which has to be accepted, and after each of them."""
        found = answered([*QUESTIONS, *(asked for line in lines for asked in [line, *QUESTIONS])])
        step = 1 + len(QUESTIONS)
        for answer in found[len(QUESTIONS) :: step]:
            self.assertTrue(answer.startswith("ok"), answer)
        return [found[: len(QUESTIONS)], *(found[at + 1 : at + step] for at in range(len(QUESTIONS), len(found), step))]

    def test_every_edit_undone_and_redone(self) -> None:
        """After each number of edits the store shows the same, whether it was reached by the edits, by undos from the end, or by
        redos from the start."""
        undos, redos = ["undo"] * len(EDITS), ["redo"] * len(EDITS)
        shown = self.shown_after([*EDITS, *undos, *redos])
        by_edits, by_undos, by_redos = shown[: len(EDITS) + 1], shown[len(EDITS) : 2 * len(EDITS) + 1], shown[2 * len(EDITS) :]
        self.assertEqual(by_undos[::-1], by_edits)
        self.assertEqual(by_redos, by_edits)
        for before, after in zip(by_edits, by_edits[1:]):
            self.assertNotEqual(before, after)


if __name__ == "__main__":
    unittest.main()
