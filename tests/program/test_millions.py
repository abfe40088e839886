"""A million features and a million steps over the built program, with answers of 500,000 rows and more.

An answer "out of memory" meets each contract. So nothing but a test sees it where memory is ample, and a program that
answers so from some number of features, rows or steps on is refused here, up to these numbers.
"""

from __future__ import annotations

import subprocess
import sys
import tempfile
import unittest
from collections.abc import Iterable, Iterator
from pathlib import Path

TOP = Path(__file__).resolve().parents[2]
sys.path.insert(0, str(TOP / "tools"))

from programs import path_of  # noqa: E402

STORE = path_of("sfstore")
COUNT = 1_000_000
ACROSS = 1_000
SECONDS = 300

# The lower half of the rows of points, and nothing else, lies in the window.
BELOW = COUNT // ACROSS // 2
WINDOW = f"POLYGON ((-1 -1, {ACROSS} -1, {ACROSS} {BELOW - 1}, -1 {BELOW - 1}, -1 -1))"
HALF = COUNT // 2

Dialog = Iterator[tuple[str, str]]


def place(number: int) -> str:
    """Where a point stands, counted from 0."""
    return f"POINT ({number % ACROSS} {number // ACROSS})"


def rows(lines: Iterable[str]) -> str:
    """An answer with these rows."""
    found = list(lines)
    return "".join([f"rows {len(found)}\n", *(f"{line}\n" for line in found)])


def made() -> Dialog:
    """The layer and its features, each line with its answer."""
    yield "layer add w point", "ok\n"
    yield "column add w depth int", "ok\n"
    for number in range(COUNT):
        yield f"add w {place(number)}", f"ok {number + 1}\n"
    yield f"set w {COUNT} depth -7", "ok\n"


STEPS = COUNT + 3


def asked() -> Dialog:
    """Questions with large answers."""
    below, above = range(1, HALF + 1), range(HALF + 1, COUNT + 1)
    yield f"query w intersects {WINDOW}", rows(map(str, below))
    yield f"query w disjoint {WINDOW}", rows(map(str, above))
    yield f"match w T******** {WINDOW}", rows(str(number) for number in below if (number - 1) // ACROSS < BELOW - 1)
    yield "find w depth -7", rows([str(COUNT)])
    yield "show w", rows([*(f"{number + 1} {place(number)}" for number in range(COUNT - 1)), f"{COUNT} {place(COUNT - 1)} depth=-7"])


def moved(verb: str) -> Dialog:
    """All steps undone or done again."""
    for _ in range(STEPS):
        yield verb, "ok\n"


class Millions(unittest.TestCase):
    def setUp(self) -> None:
        folder = tempfile.TemporaryDirectory()
        self.addCleanup(folder.cleanup)
        self.folder = Path(folder.name)

    def check(self, dialog: Dialog, *words: str) -> None:
        """Refuses answers of the program that are others than those beside the lines."""
        lines, wanted = self.folder / "lines", self.folder / "wanted"
        with lines.open("w") as asking, wanted.open("w") as answering:
            for line, answer in dialog:
                asking.write(f"{line}\n")
                answering.write(answer)
        given = self.folder / "given"
        with lines.open("rb") as source, given.open("wb") as sink:
            ended = subprocess.run([STORE, *words], stdin=source, stdout=sink, check=False, timeout=SECONDS)
        self.assert_same(given, wanted)
        self.assertEqual(ended.returncode, 0)

    def assert_same(self, given: Path, wanted: Path) -> None:
        """Refuses another file, with its first line that is another one."""
        if given.read_bytes() == wanted.read_bytes():
            return
        with given.open() as found, wanted.open() as looked_for:
            for number, (line, other) in enumerate(zip(found, looked_for), 1):
                self.assertEqual(line[:200], other[:200], f"line {number}")
        self.assertEqual(given.stat().st_size, wanted.stat().st_size)

    def test_a_million_steps_undone_and_done_again(self) -> None:
        def dialog() -> Dialog:
            yield from made()
            yield from asked()
            yield from moved("undo")
            yield "undo", "refused 29 NothingToUndo\n"
            yield "layers", "rows 0\n"
            yield from moved("redo")
            yield "redo", "refused 30 NothingToRedo\n"
            yield from asked()

        self.check(dialog())

    def test_a_million_features_saved_loaded_and_asked(self) -> None:
        first, second = self.folder / "first.sfs", self.folder / "second.sfs"
        self.check(made(), "--save", str(first))
        self.check(asked(), "--load", str(first), "--save", str(second))
        self.assertEqual(first.read_bytes(), second.read_bytes())


if __name__ == "__main__":
    unittest.main()
