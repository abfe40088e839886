r"""Sessions of the console with answers that were worked out by hand, carried out by the built program.

`sessions/asked.txt` has the lines, and `sessions/answered.txt` the answers. A session stands behind a line `== NAME`,
and begins with a new store. In its lines `\x0d` is a byte, and a last `\` says that no line feed follows. Before a line
that begins with `:` the run of the program ends, and saves its store. The next run goes on over that file, with neither
past nor future:

- `:reload` says whether what is loaded from the file is saved as the same bytes;
- `:file` has the file as hexadecimal;
- `:load HEX` goes on over another file, or has the fault by which that one is refused;
- `:change PLACE BYTE HEX` loads a file with another byte at a place;
- `:fronts HEX` loads each front of a file: how many there are, and how those were loaded that don't end within a field.
"""

from __future__ import annotations

import difflib
import re
import tempfile
import unittest
from collections.abc import Sequence
from concurrent.futures import ThreadPoolExecutor
from dataclasses import dataclass
from pathlib import Path

from preloaded import FAILING, MANY_BYTES, ONE_BYTE, STORE, Preloaded

from growths import WORKERS, Call, Ended
from test_growths import COMMANDS

TOP = Path(__file__).resolve().parents[2]
FOLDER = TOP / "tests" / "sessions"
ASKED, ANSWERED = "asked.txt", "answered.txt"
# What the gate asks of the program, as each of its two compilers makes it: these sessions among other lines.
STORED_RUN = TOP / "crates" / "sfstore"
STORED = """\
Where a geometry is wrong
Edits in a row, each taken back after those behind it, done again and taken back
The example of docs/use/CONSOLE.md
The example of docs/use/CONSOLE.md (2)
Features by their identifiers: the rows of `show`, in the order asked, repeats too
Features by a value: numbers, texts, any value; each is found as it is then
Pairs of features of two layers
Several edits as one step (26)
Rules: an edit that breaks one is refused until it is dropped
Areas and lengths
Distances
""".splitlines()
PAIRS = "Matrices of all pairs of twenty geometries, by bench/matrices.py"
GEOMETRIES = 20
# The number of a field within which a file ends.
CUT = 7
LOAD_FAULT = re.compile(rb"fault load (.+)\n")


def sessions(file: str) -> dict[str, list[str]]:
    """The sessions of a file by their names, in their order."""
    found: dict[str, list[str]] = {}
    name = ""
    # A value may have a letter at which `splitlines` would part it.
    for line in (FOLDER / file).read_text(encoding="utf-8").removesuffix("\n").split("\n"):
        if line.startswith("== "):
            name = line
            if name in found:
                raise ValueError(f"two sessions are called {name}")
            found[name] = []
        else:
            found[name].append(line)
    return found


def bytes_of(line: str) -> bytes:
    """The bytes that a line of a session stands for."""
    whole = line.removesuffix("\\") if line.endswith("\\") else f"{line}\n"
    return re.sub(rb"\\x([0-9a-f]{2})", lambda found: bytes.fromhex(found[1].decode()), whole.encode())


def text_of(answers: Sequence[str]) -> bytes:
    """The answers as a program writes them."""
    return "".join(f"{line}\n" for line in answers).encode()


@dataclass
class Session:
    """A session that is carried out. Its next run loads the file, if there is one, and is asked what was kept."""

    variables: dict[str, str]
    file: bytes | None = None
    asked: bytes = b""
    answers: bytes = b""

    def carry_out(self, lines: Sequence[str]) -> bytes:
        """The answers to all lines."""
        for line in lines:
            if line.startswith(":"):
                saved = self.end_run()
                self.answers += f"{self.answer(saved, *line.split(' '))}\n".encode()
            else:
                self.asked += bytes_of(line)
        self.end_run()
        return self.answers

    def end_run(self) -> bytes:
        """The file that a run saves behind the lines that were kept: the next one goes on over it."""
        ended = self.run(self.file, self.asked)
        self.answers += ended.output
        if (ended.status, ended.told) != (0, b""):
            self.answers += f"status {ended.status}, standard error {ended.told!r}\n".encode()
        self.file, self.asked = ended.saved, b""
        return ended.saved

    def run(self, file: bytes | None, text: bytes = b"") -> Ended:
        """A run over the store of a file, or over a new one, that saves it."""
        with tempfile.NamedTemporaryFile() as place:
            place.write(file or b"")
            place.flush()
            words = () if file is None else ("--load", place.name)
            return Call(STORE, words, saves=True).run(text, self.variables)

    def answer(self, saved: bytes, verb: str, *words: str) -> str:
        """The answer to a line that is for this test, behind a run that has saved a file."""
        if verb == ":reload":
            return "reloaded" if self.run(saved) == Ended(0, b"", b"", saved) else "saved otherwise"
        if verb == ":file":
            return saved.hex()
        file = bytes.fromhex(words[-1])
        if verb == ":load":
            return self.load(file)
        if verb == ":change":
            place = int(words[0])
            return self.outcome(file[:place] + bytes.fromhex(words[1]) + file[place + 1 :])
        if verb == ":fronts":
            return self.fronts(file)
        raise ValueError(verb)

    def load(self, file: bytes) -> str:
        """How a file is loaded: the next run goes on over one that is not refused."""
        outcome = self.outcome(file)
        if outcome == "loaded":
            self.file = file
        return outcome

    def outcome(self, file: bytes) -> str:
        """How a file is loaded: the fault by which it is refused, if it is."""
        ended = self.run(file)
        fault = LOAD_FAULT.fullmatch(ended.output)
        if fault and ended == Ended(3, ended.output, b"", b""):
            return fault[1].decode()
        is_loaded = ended == Ended(0, b"", b"", ended.saved) and ended.saved != b""
        return "loaded" if is_loaded else str(ended)

    def fronts(self, file: bytes) -> str:
        """How the fronts of a file are loaded."""
        outcomes = {size: self.outcome(file[:size]) for size in range(len(file))}
        others = [f"of {size} bytes: {told}" for size, told in outcomes.items() if told != f"BadFile {size} {CUT}"]
        return "\n".join([*others, f"{len(file)} fronts"])


def difference(name: str, wanted: bytes, given: bytes) -> str:
    """The lines in which the answers to a session are others than those wanted."""
    left, right = (answers.decode(errors="backslashreplace").split("\n") for answers in (wanted, given))
    return "\n".join(difflib.unified_diff(left, right, f"{name} in {ANSWERED}", f"{name} by the program", lineterm=""))


def check(variables: dict[str, str]) -> None:
    """Carries out all sessions, and refuses other answers than those wanted."""
    asked, answered = sessions(ASKED), sessions(ANSWERED)
    with ThreadPoolExecutor(WORKERS) as pool:
        given = dict(zip(asked, pool.map(lambda lines: Session(variables).carry_out(lines), asked.values())))
    wanted = {name: text_of(lines) for name, lines in answered.items()}
    others = [difference(name, wanted[name], given[name]) for name in asked if given[name] != wanted[name]]
    if others:
        raise AssertionError("\n".join([f"{len(others)} of {len(asked)} sessions have other answers:", *others]))


class Sessions(unittest.TestCase):
    def test_each_session_has_its_answers(self) -> None:
        asked, answered = sessions(ASKED), sessions(ANSWERED)
        self.assertGreater(len(asked), 100)
        self.assertEqual(list(asked), list(answered))

    def test_no_answer_is_that_of_a_file_that_comes_back_otherwise(self) -> None:
        asked, answered = sessions(ASKED), sessions(ANSWERED)
        for name, lines in answered.items():
            self.assertEqual(lines.count("reloaded"), asked[name].count(":reload"), name)

    def test_pairs_the_other_way_round_have_transposed_matrices(self) -> None:
        letters = sessions(ANSWERED)[f"== {PAIRS}"][-(GEOMETRIES**2) :]
        for first in range(GEOMETRIES):
            for second in range(GEOMETRIES):
                matrix = letters[GEOMETRIES * first + second]
                other = letters[GEOMETRIES * second + first]
                transposed = "".join(matrix[place % 3 * 3 + place // 3] for place in range(9))
                self.assertEqual(other, transposed, (first, second))

    def test_the_stored_run_of_the_program_has_every_command(self) -> None:
        asked, answered = sessions(ASKED), sessions(ANSWERED)
        lines, answers = ((STORED_RUN / name).read_bytes() for name in ("stdin", "stdout"))
        for name in STORED:
            self.assertIn(b"".join(map(bytes_of, asked[f"== {name}"])), lines)
            self.assertIn(text_of(answered[f"== {name}"]), answers)
        for command in COMMANDS:
            self.assertRegex(lines, rf"(?m)^{command}\b".encode())

    def test_the_program_gives_the_answers(self) -> None:
        check(MANY_BYTES)


class ByteByByte(Preloaded):
    """The sessions, carried out with reads and writes of one byte each."""

    source = FAILING

    def test_the_program_gives_the_answers(self) -> None:
        check({"LD_PRELOAD": str(self.library), **ONE_BYTE})


if __name__ == "__main__":
    unittest.main()
