"""Tests of `sfstore --store FILE` through kills, full disks and calls that fail: what was answered is kept.

After each, the next opening is compared with the plain program, to which some first lines were sent, all that were
answered among them.
"""

from __future__ import annotations

import contextlib
import itertools
import os
import random
import shutil
import signal
import subprocess
import tempfile
import time
import unittest
from collections.abc import Sequence
from dataclasses import dataclass
from pathlib import Path
from typing import ClassVar

from store_support import (
    BEGINNING,
    FAULTS,
    MEMORY,
    SECONDS,
    DiskCase,
    Ended,
    Running,
    StoreCase,
    Town,
    journal_behind,
    growths,
    library,
    pieces,
    plain,
    ran,
    sent,
    session,
    shortened,
    side_by_side,
)
from support import PROGRAM

# Seeded moments of a kill: so many sessions are killed so often each in edits, and so many in openings and in saves.
EDITING = (140, 5)
OPENING = (10, 10)
SAVING = (10, 4)
# How many of the calls at which a session is killed are within its saves.
WITHIN_SAVES = 200


class Kills(StoreCase):
    """Kill -9 at seeded moments of time."""

    SECONDS = 600

    def test_killed_while_it_edits(self) -> None:
        def edited(town: Town, seed: int) -> int:
            dice = random.Random(seed)
            history: list[str] = []
            for place in range(EDITING[1]):
                lines = [*([] if place else BEGINNING), *session(dice, dice.randrange(5, 60))]
                if dice.random() < 0.5:
                    lines.insert(dice.randrange(4, len(lines)), "save")
                history = killed(town, history, lines, dice)
            return EDITING[1]

        self.assertEqual(side_by_side(edited, range(EDITING[0])), EDITING[0] * EDITING[1])

    def test_killed_while_it_opens(self) -> None:
        def opened(town: Town, seed: int) -> int:
            dice = random.Random(seed)
            lines = [*BEGINNING, *session(dice, 300)]
            town.left(lines)
            history = shortened(lines)
            for _ in range(OPENING[1]):
                running = town.running()
                time.sleep(dice.random() * 0.02)
                answered = running.kill()
                if answered:
                    raise AssertionError(answered)
                history = shortened(town.agreed(history, [], b""))
            return OPENING[1]

        self.assertEqual(side_by_side(opened, range(OPENING[0])), OPENING[0] * OPENING[1])

    def test_killed_while_it_saves(self) -> None:
        """Some time after a file of the save is seen; the kills at each call of a save are below."""
        many = [*BEGINNING, *(f"add a POINT ({k} {k})" for k in range(3_000))]

        def saved(town: Town, seed: int) -> int:
            dice = random.Random(seed)
            town.left(many)
            history = [*many]
            for moment in range(SAVING[1]):
                lines = [*session(dice, 5), "add a POINT (7 7)"]
                size = sum(map(len, plain([*history, *lines]).answers[len(history) :]))
                running = town.running()
                running.send(lines)
                running.wait_for(size)
                running.send(["save", "undo", "add a POINT (8 8)"])
                wait_for_a_save(running, town.beside(["store", "journal"][moment % 2]), size)
                time.sleep(dice.random() * 0.002)
                history = town.agreed(history, [*lines, "save", "undo", "add a POINT (8 8)"], running.kill())
                history = shortened(history)
            return SAVING[1]

        self.assertEqual(side_by_side(saved, range(SAVING[0])), SAVING[0] * SAVING[1])


def killed(town: Town, history: Sequence[str], lines: Sequence[str], dice: random.Random) -> list[str]:
    """A session that is killed while it has been sent all lines; the history behind the next opening."""
    told = plain([*history, *lines]).answers[len(history) :]
    running = town.running()
    done = 0
    for piece in pieces(dice, lines):
        running.send(piece)
        done += len(piece)
        if dice.random() < 0.3 and done < len(lines):
            running.wait_for(sum(map(len, told[:done])))
    # All is waited for but the last lines, some of which may be under way.
    running.wait_for(sum(map(len, told[: dice.randrange(len(lines))])))
    time.sleep(dice.random() * 0.003)
    return town.agreed(history, lines, running.kill())


def wait_for_a_save(running: Running, beside: Path, size: int) -> None:
    """Waits until a save has begun that file beside, or is answered."""
    while not beside.exists() and running.answers.stat().st_size == size:
        if running.process.poll() is not None:
            raise AssertionError("the program has ended")


class FullDisks(DiskCase):
    """A disk on which no room is left."""

    def assert_all_answered_is_there(self, lines: Sequence[str], output: bytes) -> None:
        """After the disk has grown the store has a front of the lines with all that were answered."""
        fault = b"fault serve Journal\n"
        self.assertTrue(output.endswith(fault), output[-200:])
        self.assertLess(output.count(b"\n"), len(lines))
        self.grow()
        self.town.agreed([], lines, output[: -len(fault)])

    def test_a_journal_that_finds_no_room(self) -> None:
        self.mounted("64k")
        lines = [*BEGINNING, *(f"add a POINT ({k} {k})" for k in range(6_000))]
        ended = self.stored(lines)
        self.assertEqual(ended.status, 1)
        self.assert_all_answered_is_there(lines, ended.output)

    def test_line_by_line_until_there_is_no_room(self) -> None:
        self.mounted("64k")
        lines = [*BEGINNING, *(f"add a POINT ({k} {k})" for k in range(3_000))]
        running = self.running()
        size = 0
        with contextlib.suppress(AssertionError, BrokenPipeError):
            for line, answer in zip(lines, plain(lines).answers):
                running.send([line])
                size += len(answer)
                running.wait_for(size)
        self.assertEqual(running.process.wait(SECONDS), 1)
        output = running.kill()
        self.assertGreater(output.count(b"\n"), 1_000)
        self.assert_all_answered_is_there(lines, output)

    def test_a_save_that_finds_no_room_leaves_the_old_file(self) -> None:
        self.mounted("256k")
        history = [*BEGINNING, "save"]
        self.left(history)
        old = self.path.read_bytes()
        lines = [f"add a POINT ({k} {k})" for k in range(300)]
        lasts: list[list[str]] = [["save", "layers"], []]
        for last in lasts:
            told = plain([*history, *lines]).output[len(plain(history).output) :]
            running = self.running()
            running.send(lines)
            running.wait_for(len(told))
            filler = self.filled()
            running.send(last)
            self.assertEqual(running.end(), 4)
            self.assertEqual(running.kill(), told + b"fault save Write\n")
            self.assertEqual(self.path.read_bytes(), old)
            filler.unlink()
            history = self.town.agreed(history, lines, told)


@dataclass(frozen=True)
class Called:
    """A call of a session that changes the disk: what it does, to which file, and whether a save is under way."""

    call: str
    name: str
    is_within_save: bool


def calls_of(text: str) -> list[Called]:
    """The calls that a library has told. A save begins with the new store beside, and ends with the name of its
    journal and the sync of the folder behind that."""
    found: list[Called] = []
    is_within = False
    ends = 0
    for line in text.splitlines():
        call, _, name = line.partition(" ")
        is_within = is_within or name == ".town.sfs.sfstore-store"
        found.append(Called(call, name, is_within))
        if is_within and (call, name) == ("rename", "town.sfs.journal"):
            ends = 1
        elif ends:
            is_within, ends = False, 0
    return found


@unittest.skipIf(shutil.which("cc") is None, "cc is missing")
class FailingCalls(StoreCase):
    """Each write, sync and rename of a session fails in turn, or is the last thing that the process does."""

    SECONDS = 600
    HISTORY: ClassVar[list[str]] = [*BEGINNING, "add a POINT (1 1)", "save", "add a POINT (2 2)"]
    LINES: ClassVar[list[str]] = ["add a POINT (3 3)", "@1 add b POINT (4 4)", "undo", "save", "add a POINT (5 5)", "undo", "show a"]
    # A session of saves, one of them of nothing new.
    SAVES: ClassVar[list[str]] = [
        *("add a POINT (3 3)", "@1 add b POINT (4 4)", "save", "save", "undo", "delete a 1", "save", "layer drop b", "undo"),
        *("save", "set a 3 k 7", "save", "@1 layer move b 0", "save", "redo", "column add a n int", "save"),
        *("layer add c any", "save", "layer rename c d", "add d POINT (0 0)", "save", "add a POINT (6 6)", "show a"),
    ]

    def setUp(self) -> None:
        super().setUp()
        self.before = library(self.place, FAULTS)
        town = Town(self.place)
        town.left(self.HISTORY)
        self.begun = town.path.read_bytes(), town.journal.read_bytes()

    def met(self, town: Town, lines: Sequence[str], variables: dict[str, str]) -> Ended:
        """A run over the store that each begins with, in which the library is told what to do."""
        self.begin_again(town)
        return self.read_from(town, sent(lines), variables)

    def begin_again(self, town: Town) -> None:
        """Puts down the store that each run begins with."""
        town.bare()
        for path, data in zip((town.path, town.journal), self.begun):
            path.write_bytes(data)

    def read_from(self, town: Town, text: bytes, variables: dict[str, str]) -> Ended:
        """A run that is told by the library what to do. Lines in a file are read at once, so that each makes the same calls."""
        (town.place / "lines").write_bytes(text)
        told = {**os.environ, **variables, "LD_PRELOAD": str(self.before)}
        with (town.place / "lines").open("rb") as source, (town.place / "calls").open("wb") as calls:
            told = {**told, "CALLS": str(calls.fileno())}
            ended = subprocess.run(
                [PROGRAM, "--store", str(town.path)],
                stdin=source,
                env=told,
                pass_fds=[calls.fileno()],
                capture_output=True,
                check=False,
                timeout=SECONDS,
            )
        return Ended(ended.returncode, ended.stdout, ended.stderr)

    def calls(self, lines: Sequence[str]) -> list[Called]:
        """The calls of a run in which nothing fails."""
        with tempfile.TemporaryDirectory(dir=MEMORY) as name:
            town = Town(Path(name) / "folder")
            town.place.mkdir()
            self.assertEqual(self.met(town, lines, {}).status, 0)
            return calls_of((town.place / "calls").read_text())

    def test_the_order_of_the_calls_of_a_save(self) -> None:
        """File and journal are synced before either takes its name, the file first, and each name is synced."""
        save = [call for call in self.calls(["save", "add a POINT (3 3)"]) if call.is_within_save]
        found = [f"{call.call} {call.name}" for call in save]
        store, journal = ".town.sfs.sfstore-store", ".town.sfs.sfstore-journal"
        wanted = [f"write {store}", f"sync {store}", f"write {journal}", f"sync {journal}", "sync folder"]
        wanted += ["rename town.sfs", "sync folder", "rename town.sfs.journal", "sync folder"]
        # One save at the line, and one at the end.
        self.assertEqual(found, wanted * 2)

    def failed(self, variables: dict[str, str], counted: str, many: int) -> None:
        """Runs in which each call of so many fails in turn: the fault is told, and the next opening is as it has to be."""
        faults = {b"fault serve Journal\n": 1, b"fault save Write\n": 4, b"fault journal Write\n": 3}

        def fails(town: Town, number: int) -> int:
            ended = self.met(town, self.LINES, {**variables, counted: str(number)})
            if ended.status != faults.get(ended.last):
                raise AssertionError(ended)
            town.agreed(self.HISTORY, [*self.LINES, "save"], ended.output[: -len(ended.last)])
            return 1

        self.assertEqual(side_by_side(fails, range(1, many + 1)), many)

    def test_each_call_fails(self) -> None:
        calls = self.calls(self.LINES)
        self.assertGreater(len(calls), 20)
        self.failed({}, "FAILS", len(calls))

    def test_the_disk_is_full_from_each_call_on(self) -> None:
        self.failed({"STAYS_FULL": "1"}, "FAILS", len(self.calls(self.LINES)))

    def test_each_sync_fails(self) -> None:
        syncs = [call for call in self.calls(self.LINES) if call.call == "sync"]
        self.assertGreater(len(syncs), 10)
        self.failed({}, "SYNC_FAILS", len(syncs))

    def test_killed_at_each_call(self) -> None:
        """Before each call, behind it, and when a writing is half done."""
        calls = self.calls(self.SAVES)
        moments = [(counted, number) for counted in ("KILLS", "KILLS_BEHIND", "KILLS_WITHIN") for number in range(1, len(calls) + 1)]
        # A call is cut short where it is a writing.
        moments = [one for one in moments if one[0] != "KILLS_WITHIN" or calls[one[1] - 1].call == "write"]

        def dies(town: Town, moment: int) -> int:
            counted, number = moments[moment]
            ended = self.met(town, self.SAVES, {counted: str(number)})
            if ended.status != -signal.SIGKILL:
                raise AssertionError(ended)
            town.agreed(self.HISTORY, [*self.SAVES, "save"], ended.output)
            return calls[number - 1].is_within_save

        self.assertGreaterEqual(side_by_side(dies, range(len(moments))), WITHIN_SAVES)

    def journal_anew(self, town: Town, variables: dict[str, str]) -> tuple[Running, int]:
        """A session whose journal is taken away behind its first line, and how many bytes of calls were told by then. The second
        line, which is sent here too, has it write the journal anew."""
        town.place.mkdir()
        told = town.place / "calls"
        with told.open("wb") as calls:
            variables = {**variables, "LD_PRELOAD": str(self.before), "CALLS": str(calls.fileno())}
            running = Running(town.path, town.place / "answers", variables, [calls.fileno()])
        running.send([BEGINNING[0]])
        running.wait_for(len(b"ok\n"))
        size = told.stat().st_size
        town.journal.unlink()
        running.send(["add a POINT (1 1)"])
        return running, size

    def test_a_journal_that_was_taken_away_is_synced_before_the_answer(self) -> None:
        """Its bytes are written to a new one under its name. The first byte, without which it is none, comes last."""
        town = Town(self.place / "folder")
        running, size = self.journal_anew(town, {})
        running.wait_for(len(b"ok\nok 1\n"))
        running.kill()
        journal = "town.sfs.journal"
        anew = [f"write {journal}", f"write {journal}", f"sync {journal}", "sync folder", f"write {journal}", f"sync {journal}"]
        # Before that the record was written to the file that has no name any more, and behind it comes the answer.
        self.assertEqual((town.place / "calls").read_text()[size:].splitlines()[2:-1], anew)
        town.agreed([], [BEGINNING[0], "add a POINT (1 1)"], b"ok\nok 1\n")

    def test_killed_while_a_journal_that_was_taken_away_is_written_anew(self) -> None:
        """The next opening has all, or it refuses the journal; no part of it is taken for the whole."""
        counted = Town(self.place / "counted")
        running, size = self.journal_anew(counted, {})
        running.wait_for(len(b"ok\nok 1\n"))
        running.kill()
        calls = (counted.place / "calls").read_text()
        first, last = calls[:size].count("\n") + 3, calls.count("\n")
        found: list[bytes] = []
        for variable, number in itertools.product(("KILLS", "KILLS_BEHIND", "KILLS_WITHIN"), range(first, last)):
            with self.subTest(variable, number=number):
                town = Town(self.place / f"{variable}-{number}")
                running, _ = self.journal_anew(town, {variable: str(number)})
                running.process.wait(SECONDS)
                answered = running.kill()
                self.assertEqual(answered, b"ok\n")
                ended = town.stored([], "--keep")
                found.append(ended.last)
                if ended.last != b"fault journal OtherFile\n":
                    town.agreed([], [BEGINNING[0], "add a POINT (1 1)"], b"ok\nok 1\n")
        self.assertEqual(set(found), {b"fault journal OtherFile\n", b""})

    def test_nothing_is_answered_that_was_not_synced(self) -> None:
        """The first sync of a session's edits fails: none of them is answered."""
        opening = [(call.call, call.name) for call in self.calls([])]
        calls = [(call.call, call.name) for call in self.calls(["add a POINT (3 3)", "save"])]
        place = next(place for place, (one, other) in enumerate(zip(calls, opening)) if one != other)
        self.assertEqual(calls[place : place + 2], [("write", "town.sfs.journal"), ("sync", "town.sfs.journal")])
        syncs = sum(call == "sync" for call, _ in calls[:place])
        ended = self.met(self.town, ["add a POINT (3 3)", "save"], {"SYNC_FAILS": str(syncs + 1)})
        self.assertEqual((ended.status, ended.output), (1, b"fault serve Journal\n"))

    def test_a_read_of_the_input_that_fails(self) -> None:
        """What had no line feed by then may be the front of another line: nothing of it is carried out, nor of a group."""
        for last in (b"delete a 1", b"save", b"together 2\nadd a POINT (3 3)\n", b"together 1\ndelete a 1"):
            with self.subTest(last):
                self.begin_again(self.town)
                ended = self.read_from(self.town, b"add a POINT (3 3)\n" + last, {"READ_FAILS": "2"})
                self.assertEqual((ended.status, ended.output), (1, b"ok 3\nfault serve Read\n"))
                self.assertEqual(self.path.read_bytes(), self.begun[0])
                self.town.agreed(self.HISTORY, ["add a POINT (3 3)"], b"ok 3\n")


@unittest.skipIf(shutil.which("cc") is None, "cc is missing")
class Growths(StoreCase):
    """Each growth of memory of an opening is refused in turn."""

    def test_each_growth_of_an_opening_refused(self) -> None:
        """Where the journal or the file needs memory that is told, and no fault of the disk; what was kept stays."""
        self.left([*BEGINNING, "add a POINT (1 1)", "save", "add a POINT (2 2)"])
        kept = self.path.read_bytes(), self.journal.read_bytes()
        before, met = library(self.place, growths.REFUSING), self.place / "met"
        lasts: list[bytes] = []
        for number in itertools.count(1):
            with met.open("wb") as told:
                variables = {"GROWTH": str(number), "LD_PRELOAD": str(before), "MET": str(told.fileno())}
                ended = ran(["--store", str(self.path), "--keep"], ["show a"], variables, [told.fileno()])
            if not met.stat().st_size:
                break
            self.assertEqual((self.path.read_bytes(), self.journal.read_bytes()), kept)
            lasts.append(ended.last)
        # The places of the files are made before anything else is: for want of memory there no file can be opened.
        faults = {b"fault words Memory\n", b"fault load Open\n", b"fault load Memory\n", b"fault journal Memory\n", b"fault serve Memory\n"}
        self.assertEqual(set(lasts), faults | {b"refused 1 Memory\n", b"2 POINT (2 2)\n"})


class FullOutputs(StoreCase):
    """An output that can't be written: the run ends there and saves nothing. What was carried out by then is in the journal."""

    def assert_ends_there(self, lines: Sequence[str]) -> None:
        file = self.path.read_bytes()
        with open("/dev/full", "wb") as full:
            words = [PROGRAM, "--store", str(self.path)]
            ended = subprocess.run(words, input=sent([*lines, "save"]), stdout=full, check=False, timeout=SECONDS)
        self.assertEqual(ended.returncode, 1)
        self.assertEqual(self.path.read_bytes(), file)

    def test_the_answer_of_an_edit(self) -> None:
        history = [*BEGINNING, "save", "add a POINT (7 7)"]
        self.left(history)
        self.assert_ends_there(["add a POINT (1 1)"])
        self.town.agreed(history, ["add a POINT (1 1)"], b"ok 2\n")

    def test_an_answer_longer_than_all_room(self) -> None:
        places = ", ".join(f"{k} {k}" for k in range(10_000))
        history = [*BEGINNING, *(f"add b MULTIPOINT ({places}, -{k} 0)" for k in range(1, 91)), "save"]
        self.left(history)
        self.assertGreater(len(plain([*history[:-1], "show b"]).answers[-1]), 8_388_608)
        self.assert_ends_there(["show b", "add a POINT (1 1)"])
        self.assertEqual(self.journal.read_bytes(), journal_behind(history))

    def test_the_answer_of_a_group_longer_than_a_line(self) -> None:
        self.left([*BEGINNING, "save"])
        places = ", ".join(f"{1_000 + k} {1_000 + k}" for k in range(100))
        members = [f"add b MULTIPOINT ({places}, {k} 0)" for k in range(4_000)]
        self.assert_ends_there([f"together {len(members)}", *members])
        self.assertEqual(self.stored(["show b"], "--keep").output.partition(b"\n")[0], b"rows 4000")


if __name__ == "__main__":
    unittest.main()
