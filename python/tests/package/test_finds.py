"""Tests of `find` over an index by value that edits keep: a long session by chance, beside a plain model."""

from __future__ import annotations

import random
import subprocess
import unittest
from collections.abc import Iterator

from support import PROGRAM, TestCase

EDITS = 1_000_000
FEATURES = 400
VALUES = 300
# How many edits stand between two questions, on the mean.
BETWEEN = 3
# How many lines are sent at once.
CHUNK = 50_000


class Numbers:
    """The numbers that features have in a column, and what takes the last edits back."""

    def __init__(self, chance: random.Random) -> None:
        self._chance = chance
        self._values: dict[int, int | None] = {}
        self._next = 1
        self._past: list[tuple[int, dict[int, int | None]]] = []

    def edit(self) -> tuple[str, str]:
        """An edit by chance, and its answer."""
        if not self._values or (len(self._values) < FEATURES and self._chance.random() < 0.3):
            return self._add()
        feature = self._chance.choice(list(self._values)) if self._chance.random() < 0.02 else self._some()
        what = self._chance.random()
        if what < 0.80:
            return self._put(f"set p {feature} n {{}}", feature, self._chance.randrange(VALUES))
        if what < 0.90:
            return self._put(f"unset p {feature} n", feature, None)
        if what < 0.92:
            return self._delete(feature)
        return self._undo()

    def _some(self) -> int:
        """A feature; those that were added last are as likely as others."""
        feature = self._chance.randrange(1, self._next)
        while feature not in self._values:
            feature = self._chance.randrange(1, self._next)
        return feature

    def _did(self, *features: int) -> None:
        """Keeps what some features have, before an edit."""
        self._past.append((self._next, {feature: self._values.get(feature, -1) for feature in features}))

    def _add(self) -> tuple[str, str]:
        feature = self._next
        self._did(feature)
        self._next += 1
        self._values[feature] = None
        return "add p POINT (1 1)", f"ok {feature}"

    def _put(self, line: str, feature: int, value: int | None) -> tuple[str, str]:
        self._did(feature)
        self._values[feature] = value
        return line.format(value), "ok"

    def _delete(self, feature: int) -> tuple[str, str]:
        self._did(feature)
        del self._values[feature]
        return f"delete p {feature}", "ok"

    def _undo(self) -> tuple[str, str]:
        if not self._past:
            return "undo", "refused 29 NothingToUndo"
        self._next, before = self._past.pop()
        for feature, value in before.items():
            # A feature that was not there had -1.
            if value == -1:
                del self._values[feature]
            else:
                self._values[feature] = value
        return "undo", "ok"

    def question(self) -> tuple[str, str]:
        """A question by chance, and its answer, by a pass over all."""
        least = self._chance.randrange(VALUES)
        if self._chance.random() < 0.6:
            return f"find p n {least}", self._rows(least, least)
        greatest = least + self._chance.randrange(-2, 12)
        which = self._chance.random()
        if which < 0.8:
            return f"find p n {least} to {greatest}", self._rows(least, greatest)
        if which < 0.9:
            return f"find p n {VALUES - 5} to", self._rows(VALUES - 5, VALUES)
        return "find p n to 5", self._rows(0, 5)

    def _rows(self, least: int, greatest: int) -> str:
        found = sorted(feature for feature, value in self._values.items() if value is not None and least <= value <= greatest)
        return "\n".join([f"rows {len(found)}", *map(str, found)])


def session(edits: int, seed: int) -> Iterator[tuple[str, str]]:
    """Lines and their answers."""
    chance = random.Random(seed)
    numbers = Numbers(chance)
    yield from (("layer add p point", "ok"), ("column add p n int", "ok"))
    for _ in range(edits):
        yield numbers.edit()
        if chance.randrange(BETWEEN) == 0:
            yield numbers.question()


class Finds(TestCase):
    SECONDS = 1_200

    def test_a_long_session_beside_a_pass_over_all(self):
        process = subprocess.Popen([PROGRAM], stdin=subprocess.PIPE, stdout=subprocess.PIPE, text=True)
        assert process.stdin and process.stdout
        sent: list[tuple[str, str]] = []
        asked = 0
        for row in session(EDITS, 11):
            sent.append(row)
            if len(sent) == CHUNK:
                asked += self.check_answers(process, sent)
                sent = []
        asked += self.check_answers(process, sent)
        process.stdin.close()
        self.assertEqual((process.wait(60), process.stdout.read()), (0, ""))
        process.stdout.close()
        self.assertGreater(asked, EDITS // BETWEEN // 2)

    def check_answers(self, process: subprocess.Popen[str], sent: list[tuple[str, str]]) -> int:
        """Sends lines, compares their answers, and counts the questions among them."""
        assert process.stdin and process.stdout
        # The answers of so few lines find room in the pipe, while others are sent.
        for at in range(0, len(sent), 100):
            part = sent[at : at + 100]
            process.stdin.write("".join(f"{line}\n" for line, _ in part))
            process.stdin.flush()
            for line, wanted in part:
                for row in wanted.split("\n"):
                    self.assertEqual(process.stdout.readline(), f"{row}\n", (at, line))
        return sum(line.startswith("find") for line, _ in sent)


if __name__ == "__main__":
    unittest.main()
