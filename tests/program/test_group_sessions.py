"""Seeded sessions of groups and edits of three editors, against a plain machine that keeps whole contents.

The machine knows points with values in two layers, and what is refused there. A session is also run over a file, ended
somewhere and begun again, so that groups are replayed from the journal.
"""

from __future__ import annotations

import copy
import random
import subprocess
import sys
import tempfile
import unittest
from collections.abc import Sequence
from dataclasses import dataclass, field
from pathlib import Path

TOP = Path(__file__).resolve().parents[2]
sys.path.insert(0, str(TOP / "tools"))

from programs import path_of  # noqa: E402

STORE = path_of("sfstore")
SESSIONS, REOPENED, STEPS = 2_000, 200, 30
# Editor 9 makes the layers, and takes nothing back.
MAKER = 9
HEAD = [f"@{MAKER} {line}" for line in ("layer add a point", "layer add b any", "column add a n int")]


class Refused(Exception):
    """An edit is refused: its number and name."""


@dataclass
class Layer:
    """The features of a layer, each a point with its number, if it has one; whether the layer has the column `n`."""

    has_column: bool
    next_id: int = 1
    features: dict[int, tuple[int, int, int | None]] = field(default_factory=dict)

    def feature(self, number: int) -> tuple[int, int, int | None]:
        if number not in self.features:
            raise Refused("21 NoFeature")
        return self.features[number]

    def rows(self) -> list[str]:
        values = [(x, y, "" if n is None else f" n={n}") for _, (x, y, n) in sorted(self.features.items())]
        return [f"{number} POINT ({x} {y}){n}" for number, (x, y, n) in zip(sorted(self.features), values)]


Content = dict[str, Layer]


def carried_out(content: Content, words: Sequence[str]) -> list[int]:
    """Carries out an edit; gives the identifier that it gave, if it did."""
    verb, name, *rest = words
    if name not in content:
        raise Refused("18 NoLayer")
    layer = content[name]
    number = layer.next_id - 1 if rest[0] == "last" else int(rest[0])
    if verb == "add":
        layer.features[layer.next_id] = (int(rest[0]), int(rest[1]), None)
        layer.next_id += 1
        return [layer.next_id - 1]
    x, y, n = layer.feature(number)
    if verb == "delete":
        del layer.features[number]
    elif verb == "move":
        layer.features[number] = (int(rest[1]), int(rest[2]), n)
    elif not layer.has_column:
        raise Refused("22 NoColumn")
    else:
        layer.features[number] = (x, y, int(rest[1]) if verb == "set" else None)
    return []


def line_of(words: Sequence[str]) -> str:
    """The line of an edit."""
    verb, name, *rest = words
    if verb == "add":
        return f"add {name} POINT ({rest[0]} {rest[1]})"
    if verb == "move":
        return f"vertex move {name} {rest[0]} 0 0 0 {rest[1]} {rest[2]}"
    if verb == "set":
        return f"set {name} {rest[0]} n {rest[1]}"
    return f"unset {name} {rest[0]} n" if verb == "unset" else f"delete {name} {rest[0]}"


@dataclass
class Machine:
    """The content, and whole contents before and after it with the editor of each step."""

    now: Content = field(default_factory=lambda: {"a": Layer(True), "b": Layer(False)})
    past: list[tuple[Content, int]] = field(default_factory=lambda: [({}, MAKER)])
    future: list[tuple[Content, int]] = field(default_factory=list)

    def step(self, editor: int, members: Sequence[Sequence[str]], is_group: bool) -> str:
        content, given = copy.deepcopy(self.now), []
        for place, words in enumerate(members, 1):
            try:
                given += carried_out(content, words)
            except Refused as refusal:
                return f"refused {refusal}" + (f" member {place}" if is_group else "")
        self.past.append((self.now, editor))
        self.now, self.future = content, []
        return " ".join(["ok", *map(str, given)])

    def moved(self, editor: int, here: list[tuple[Content, int]], there: list[tuple[Content, int]], none: str) -> str:
        if not here:
            return f"refused {none}"
        if here[-1][1] != editor:
            return "refused 36 NotYours"
        content, _ = here.pop()
        there.append((self.now, editor))
        self.now = content
        return "ok"

    def undo(self, editor: int) -> str:
        return self.moved(editor, self.past, self.future, "29 NothingToUndo")

    def redo(self, editor: int) -> str:
        return self.moved(editor, self.future, self.past, "30 NothingToRedo")

    def shown(self, name: str) -> list[str]:
        rows = self.now[name].rows()
        return [f"rows {len(rows)}", *rows]


def some_edit(dice: random.Random, name: str, names_last: bool) -> list[str]:
    """An edit of a feature of a layer, that is mostly there."""
    number = "last" if names_last and dice.random() < 0.5 else str(dice.randint(1, 6))
    verb = dice.choice(["add", "add", "delete", "move", "set", "unset"])
    point = [str(dice.randint(-9, 9)), str(dice.randint(-9, 9))]
    return {"add": ["add", name, *point], "move": ["move", name, number, *point], "set": ["set", name, number, str(dice.randint(-9, 9))]}.get(
        verb, [verb, name, number]
    )


def some_group(dice: random.Random) -> list[list[str]]:
    """Members of which each may stand behind those before it."""
    members: list[list[str]] = []
    for _ in range(dice.choice([1, 2, 3, 5, 9])):
        name = dice.choice("aab") if dice.random() < 0.97 else "c"
        members.append(some_edit(dice, name, any(words[:2] == ["add", name] for words in members)))
    return members


def some_session(seed: int) -> tuple[list[str], list[list[str]]]:
    """Lines, each with its answer: a group's stand together, or on one line."""
    dice, machine = random.Random(seed), Machine()
    asked, answered = list(HEAD), [["ok"]] * len(HEAD)
    for _ in range(STEPS):
        editor = dice.choice([0, 0, 1, 7])
        at = f"@{editor} " if editor else ""
        what = dice.random()
        if what < 0.4:
            members = some_group(dice)
            parted = dice.choice(["\n", "\n", "\r", "\r\n", "\n\n \t\n"])
            asked.append(parted.join([f"{at}together {len(members)}", *map(line_of, members)]))
            answered.append([machine.step(editor, members, True)])
        elif what < 0.6:
            words = some_edit(dice, dice.choice("ab"), False)
            asked.append(at + line_of(words))
            answered.append([machine.step(editor, [words], False)])
        else:
            verb = "undo" if what < 0.8 else "redo"
            asked.append(at + verb)
            answered.append([machine.undo(editor) if verb == "undo" else machine.redo(editor)])
        for name in "ab":
            asked.append(f"show {name}")
            answered.append(machine.shown(name))
    return asked, answered


def run(lines: Sequence[str], *words: str) -> list[str]:
    """What the program answers to lines."""
    text = "".join(f"{line}\n" for line in lines).encode()
    ended = subprocess.run([STORE, *words], input=text, capture_output=True, check=True, timeout=60)
    return ended.stdout.decode().splitlines()


def flat(answers: Sequence[Sequence[str]]) -> list[str]:
    return [line for answer in answers for line in answer]


@unittest.skipUnless(STORE.is_file(), "sfstore is not built")
class Groups(unittest.TestCase):
    def test_seeded_sessions_are_those_of_the_plain_machine(self) -> None:
        accepted = refused = 0
        for seed in range(SESSIONS):
            asked, answered = some_session(seed)
            self.assertEqual(run(asked), flat(answered), f"seed {seed}")
            groups = [answer[0] for line, answer in zip(asked, answered) if "together" in line]
            refused += sum(" member " in answer for answer in groups)
            accepted += sum(answer.startswith("ok") for answer in groups)
        self.assertGreater(accepted, SESSIONS)
        self.assertGreater(refused, SESSIONS)

    def test_groups_come_back_from_the_journal(self) -> None:
        for seed in range(REOPENED):
            asked, answered = some_session(seed)
            cut = random.Random(-seed - 1).randrange(1, len(asked))
            with tempfile.TemporaryDirectory() as folder, self.subTest(seed=seed):
                words = ("--store", str(Path(folder) / "map.sfs"), "--keep")
                self.assertEqual(run(asked[:cut], *words) + run(asked[cut:], *words), flat(answered))

    def test_a_long_group_has_a_record_of_its_own(self) -> None:
        count = 20_000
        group = "\n".join([f"together {count}", *(f"add a POINT ({place} {-place})" for place in range(count))])
        given = " ".join(["ok", *map(str, range(1, count + 1))])
        with tempfile.TemporaryDirectory() as folder:
            words = ("--store", str(Path(folder) / "map.sfs"), "--keep")
            self.assertEqual(run([*HEAD, "add b POINT (1 1)", group, "undo", "redo"], *words), [*["ok"] * 3, "ok 1", given, "ok", "ok"])
            self.assertEqual(run(["undo", "show a", "redo", f"get a {count}"], *words)[:3], ["ok", "rows 0", "ok"])
            self.assertEqual((Path(folder) / "map.sfs.journal").read_bytes().count(b"\n"), 10)

    def test_a_line_too_long_is_a_member_refused(self) -> None:
        long = "x" * 4_194_305
        lines = [*HEAD, "together 2\nadd a POINT (1 1)\n" + long, f"together 1\n{long}", f"together 2\nfoo\n{long}", "show a"]
        wanted = ["refused 33 LineTooLong member 2", "refused 33 LineTooLong member 1", "refused 31 BadCommand member 1", "rows 0"]
        self.assertEqual(run(lines), [*["ok"] * 3, *wanted])

    def test_the_largest_group(self) -> None:
        count = 65_535
        group = "\n".join([f"together {count}", *["add a POINT (0 0)"] * count])
        self.assertEqual(run([*HEAD, group, "undo", "show a"])[3:], [" ".join(["ok", *map(str, range(1, count + 1))]), "ok", "rows 0"])


if __name__ == "__main__":
    unittest.main()
