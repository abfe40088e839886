"""Rules by a distance, beside a store without them: what is refused would break one, and what is accepted breaks none."""

from __future__ import annotations

import random
import subprocess
import sys
import unittest
from collections.abc import Iterator
from types import TracebackType

from preloaded import STORE, TOP

sys.path.insert(0, str(TOP / "bench"))

import joins  # noqa: E402

ROUNDS = 60
EDITS = 25


class Session:
    """A program that answers line by line."""

    def __init__(self) -> None:
        self._program = subprocess.Popen([STORE], stdin=subprocess.PIPE, stdout=subprocess.PIPE, text=True)

    def __enter__(self) -> Session:
        return self

    def __exit__(self, kind: type[BaseException] | None, error: BaseException | None, trace: TracebackType | None) -> None:
        self._program.communicate()

    def _lines(self) -> Iterator[str]:
        assert self._program.stdout is not None
        for line in self._program.stdout:
            yield line.rstrip("\n")

    def ask(self, line: str) -> list[str]:
        """The rows of an answer, or its only line."""
        assert self._program.stdin is not None
        self._program.stdin.write(line + "\n")
        self._program.stdin.flush()
        return joins.rows_of(self._lines())


def edits(chance: random.Random) -> Iterator[str]:
    """Edits of two layers; some name no feature."""
    for _ in range(EDITS):
        layer, number = chance.choice("ab"), chance.randint(1, 12)
        geometry = joins.near(chance)[1]
        x, y = chance.randint(-5, 55), chance.randint(-5, 55)
        yield chance.choice(
            (
                f"add {layer} {geometry}",
                f"add {layer} POINT ({x} {y})",
                f"add {layer} LINESTRING ({x} {y}, {y} {x + 1})",
                f"replace {layer} {number} {geometry}",
                f"vertex move {layer} {number} 0 0 0 {x} {y}",
                f"vertex insert {layer} {number} 0 0 1 {x} {y}",
                f"vertex remove {layer} {number} 0 0 1",
                f"delete {layer} {number}",
            )
        )


class NearRules(unittest.TestCase):
    def begun(self, session: Session) -> None:
        self.assertEqual(session.ask("layer add a any") + session.ask("layer add b any"), ["ok", "ok"])

    def test_no_two_are_near(self) -> None:
        """Between two layers, and of a layer with itself: the least pair is named."""
        for seed in range(ROUNDS):
            chance = random.Random(seed)
            ask, second = f"near {chance.choice(joins.DISTANCES[:-1])}", chance.choice("ab")
            with Session() as ruled, Session() as plain:
                self.begun(ruled)
                self.begun(plain)
                self.assertEqual(ruled.ask(f"rule add r never a {ask} {second}"), ["ok"])
                for line in edits(chance):
                    self.check_never(seed, ruled, plain, line, f"join a {ask} {second}")

    def check_never(self, seed: int, ruled: Session, plain: Session, line: str, join: str) -> None:
        told, wanted = ruled.ask(line)[0], plain.ask(line)[0]
        pairs = plain.ask(join)
        if told.startswith("refused 37 "):
            self.assertNotRegex(wanted, "^refused", (seed, line))
            self.assertEqual(told, f"refused 37 RuleBroken r {pairs[0]}", (seed, line))
            self.assertEqual(plain.ask("undo"), ["ok"])
        else:
            self.assertEqual((told, pairs), (wanted, []), (seed, line))
        self.assertEqual(ruled.ask("show a") + ruled.ask("show b"), plain.ask("show a") + plain.ask("show b"), (seed, line))

    def test_each_has_one_that_is_near(self) -> None:
        """What stands alone is named, the least first."""
        for seed in range(ROUNDS):
            chance = random.Random(seed)
            ask, second = f"near {chance.choice(joins.DISTANCES[2:])}", chance.choice("ab")
            with Session() as ruled, Session() as plain:
                for session in (ruled, plain):
                    self.begun(session)
                    for layer in "ab":
                        for _ in range(4):
                            session.ask(f"add {layer} POLYGON ((0 0, 50 0, 50 50, 0 50, 0 0))")
                self.assertEqual(ruled.ask(f"rule add r each a {ask} some {second}"), ["ok"])
                for line in edits(chance):
                    self.check_each(seed, ruled, plain, line, f"join a {ask} {second}")

    def check_each(self, seed: int, ruled: Session, plain: Session, line: str, join: str) -> None:
        told, wanted = ruled.ask(line)[0], plain.ask(line)[0]
        having = {pair.split()[0] for pair in plain.ask(join)}
        lonely = [row.split()[0] for row in plain.ask("show a") if row.split()[0] not in having]
        if told.startswith("refused 37 "):
            self.assertNotRegex(wanted, "^refused", (seed, line))
            self.assertEqual(told, f"refused 37 RuleBroken r {lonely[0]}", (seed, line))
            self.assertEqual(plain.ask("undo"), ["ok"])
        else:
            self.assertEqual((told, lonely), (wanted, []), (seed, line))
        self.assertEqual(ruled.ask("show a") + ruled.ask("show b"), plain.ask("show a") + plain.ask("show b"), (seed, line))

    def test_what_is_listed_is_added_again(self) -> None:
        """Each distance that may be asked about is written so that it is read as the same."""
        chance = random.Random(29)
        thousandths = [0, 1, 10, 999, 1000, 1001, 1999, 2_000_000, 4_294_967_295_999]
        thousandths += [chance.randrange(10 ** chance.randint(1, 12)) for _ in range(1000)]
        with Session() as session:
            self.begun(session)
            for number in thousandths:
                written = f"{number // 1000}.{number % 1000:03}"
                self.assertEqual(session.ask(f"rule add r never a near {written} b"), ["ok"])
                row = session.ask("rules")[0]
                self.assertEqual(row, f"r never a near {written.removesuffix('.000')} b")
                self.assertEqual(session.ask("rule drop r") + session.ask(f"rule add {row}"), ["ok", "ok"])
                self.assertEqual(session.ask("rules") + session.ask("rule drop r"), [row, "ok"])


if __name__ == "__main__":
    unittest.main()
