"""What tests of rules share: sessions by chance beside a model, and a session in a file of text."""

from __future__ import annotations

import subprocess
from collections import Counter
from collections.abc import Callable, Iterable, Sequence
from pathlib import Path

from support import PROGRAM, TestCase

from rules_model import Model, Program  # isort: skip


class RulesCase(TestCase):
    def check_beside_a_model(self, sessions: int, lines_of: Callable[[int], Iterable[str]], often: Sequence[str]) -> None:
        """Has the program and a model answer sessions by chance alike. ``often`` begins answers that have to come often enough to be tested."""
        said: Counter[str] = Counter()
        for seed in range(sessions):
            programs = Program(PROGRAM), Program(PROGRAM)
            store, model = programs[0], Model(programs[1])
            done = []
            for line in lines_of(seed):
                done.append(line)
                answer = store.ask(line)
                self.assertEqual(answer, model.ask(line), (seed, done))
                said[" ".join(answer[0].split(" ")[:3])] += 1
            for layer in ("p", "q", "r"):
                self.assertEqual(store.ask(f"show {layer}"), programs[1].ask(f"show {layer}"), (seed, done))
            for program in programs:
                program.close()
        for wanted in often:
            self.assertGreater(said[wanted], sessions // 40, (wanted, said))

    def check_lived(self, path: Path, least: int) -> None:
        """A session in a file: lines behind `> `, at least so many, and what answers them."""
        rows = [line for line in path.read_text(encoding="utf-8").splitlines() if line and not line.startswith("#")]
        sent = [row[2:] for row in rows if row.startswith(">")]
        self.assertGreater(len(sent), least)
        self.assertEqual(self.answers(sent), [row for row in rows if not row.startswith(">")])

    def answers(self, lines: Iterable[str]) -> list[str]:
        """What the program answers lines, in one run."""
        ended = subprocess.run([PROGRAM], input="".join(f"{line}\n" for line in lines), capture_output=True, text=True, timeout=60)
        self.assertEqual(ended.returncode, 0, ended.stderr)
        return ended.stdout.splitlines()
