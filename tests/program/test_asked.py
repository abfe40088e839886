"""Sessions of the console (asked.txt), asked of the built program: rules between features, and queries of shapes."""

from __future__ import annotations

import unittest
from dataclasses import dataclass
from pathlib import Path

from asking import answers

ASKED = Path(__file__).resolve().parents[1] / "asked.txt"


@dataclass(frozen=True)
class Session:
    """The first lines of a session, its cases, each with its title, and what stands behind each case."""

    title: str
    first: str
    cases: dict[str, str]
    behind: str

    def whole(self) -> dict[str, str]:
        """The text of each case with what stands before and behind it; without a case, that of the session."""
        return {title: self.first + case + self.behind for title, case in self.cases.items()} or {self.title: self.first}


def session_of(text: str) -> Session:
    """The session of a part of the file."""
    title, _, rest = text.partition("\n")
    rest, _, behind = rest.partition("\n++ ")
    first, *cases = rest.split("\n-- ")
    parted = [case.partition("\n") for case in cases]
    return Session(title, f"{first}\n", {name: f"{case}\n" for name, _, case in parted}, behind.partition("\n")[2])


def sessions() -> list[Session]:
    """The sessions of the file, in their order."""
    return [session_of(text) for text in ASKED.read_text(encoding="utf-8").split("\n== ")[1:]]


class Asked(unittest.TestCase):
    def test_each_line_has_its_answer(self) -> None:
        found = sessions()
        self.assertEqual(len(found), ASKED.read_text(encoding="utf-8").count("\n== "))
        for session in found:
            for title, text in session.whole().items():
                with self.subTest(session.title, case=title):
                    self.ask([line for line in text.splitlines() if line and not line.startswith("#")])

    def ask(self, lines: list[str]) -> None:
        """Compares what the program answers to the lines behind `> ` with the others."""
        asked = "".join(f"{line[2:]}\n" for line in lines if line.startswith("> "))
        wanted = [line for line in lines if not line.startswith("> ")]
        self.assertTrue(asked and wanted)
        self.assertEqual(answers(asked).splitlines(), wanted)


if __name__ == "__main__":
    unittest.main()
