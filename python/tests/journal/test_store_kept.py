"""Tests of `sfstore --store FILE`: sessions, options, journals cut, flipped and exchanged, locks and modes.

test_store_faults.py has kills, full disks and calls that fail. What has to be there is told by the plain program,
which keeps no journal.
"""

from __future__ import annotations

import os
import random
import shutil
import stat
import subprocess
import unittest
from collections.abc import Sequence
from pathlib import Path
from typing import ClassVar

from store_support import (
    BEGINNING,
    DUMP,
    NOBODY,
    PROBE,
    SECONDS,
    WARNING,
    Ended,
    Running,
    StoreCase,
    Town,
    head_of,
    journal_behind,
    journal_of,
    plain,
    ran,
    second_journal_of,
    session,
    side_by_side,
)
from support import PROGRAM

# How many lines come behind 50,000 additions, and how often several sessions begin at once.
MANY_LINES = 50_000
RACES = 50


class Sessions(StoreCase):
    SECONDS = 600
    LINES: ClassVar[list[str]] = [*BEGINNING, "add a POINT (1 1)", "@1 add b POINT (2 2)", "set a 1 k 5", "undo", "show a", "nonsense", "", "layers"]

    def test_a_session_is_answered_and_saved_at_its_end(self) -> None:
        told = plain(self.LINES)
        ended = self.stored(self.LINES)
        self.assertEqual(ended, Ended(0, told.output, b""))
        self.assertEqual(self.path.read_bytes(), told.file)
        self.assertEqual(self.journal.read_bytes(), head_of(told.file))
        self.assertEqual(sorted(os.listdir(self.folder)), ["town.sfs", "town.sfs.journal", "town.sfs.lock"])

    def test_no_line_saves_a_new_store(self) -> None:
        self.assertEqual(self.stored(), Ended(0, b"", b""))
        self.assertEqual(self.path.read_bytes(), plain([]).file)

    def test_the_next_session_goes_on_from_the_file(self) -> None:
        self.stored(self.LINES)
        told = plain([*self.LINES, "save", *PROBE])
        ended = self.stored(PROBE)
        self.assertEqual(ended.output, b"".join(told.answers[len(self.LINES) + 1 :]))
        self.assertEqual(self.path.read_bytes(), told.file)

    def test_keep_leaves_all_in_the_journal(self) -> None:
        ended = self.stored(self.LINES, "--keep")
        self.assertEqual(ended, Ended(0, plain(self.LINES).output, b""))
        self.assertFalse(self.path.exists())
        self.assertEqual(self.journal.read_bytes(), journal_behind(self.LINES))

    def test_the_next_opening_has_what_was_kept_and_its_history(self) -> None:
        self.left(self.LINES)
        told = plain([*self.LINES, *PROBE])
        self.assertEqual(self.stored(PROBE, "--keep").output, b"".join(told.answers[len(self.LINES) :]))
        self.assertEqual(self.journal.read_bytes(), journal_behind([*self.LINES, *PROBE]))
        self.assertEqual(self.stored().status, 0)
        self.assertEqual(self.path.read_bytes(), told.file)

    def test_all_can_be_undone_and_done_again_after_an_opening(self) -> None:
        self.left(["layer add w point", "add w POINT (1 1)", "add w POINT (2 2)", "undo"])
        lines = ["redo", "undo", "undo", "undo", "undo", "layers", "redo", "redo", "redo", "redo", "show w"]
        told = plain(["layer add w point", "add w POINT (1 1)", "add w POINT (2 2)", "undo", *lines])
        self.assertEqual(self.stored(lines, "--keep").output, b"".join(told.answers[4:]))

    def test_a_save_in_the_middle_ends_the_history(self) -> None:
        lines = [*self.LINES, "save", "undo", "redo", "add a POINT (5 5)", "show a"]
        told = plain(lines)
        ended = self.stored(lines, "--keep")
        self.assertEqual(ended, Ended(0, told.output, b""))
        self.assertIn(b"ok\nrefused 29 NothingToUndo\n", ended.output)
        self.assertEqual(self.path.read_bytes(), told.saves[0])
        self.assertEqual(self.journal.read_bytes(), journal_of(told.saves[0], ["add a POINT (5 5)"]))

    def test_saves_one_after_another(self) -> None:
        for lines in (["save"], ["save", "save", "undo"], ["layer add w any", "save", "save\r", "undo", "save"]):
            told = plain([line.rstrip("\r") for line in lines])
            self.path.unlink(missing_ok=True)
            self.journal.unlink(missing_ok=True)
            self.assertEqual(self.stored(lines, "--keep"), Ended(0, told.output, b""))
            self.assertEqual(self.path.read_bytes(), told.saves[-1])
            self.assertEqual(self.journal.read_bytes(), head_of(told.saves[-1]))

    def test_last_lines_without_a_line_feed(self) -> None:
        words = [PROGRAM, "--store", str(self.path), "--keep"]
        for text, saves in ((b"layer add w any", False), (b"layer add v any\nsave", True), (b"layer add u any\r\n\n", False)):
            ended = subprocess.run(words, input=text, capture_output=True, check=True)
            self.assertEqual(ended.stdout, b"ok\nok\n" if saves else b"ok\n")
            self.assertEqual(self.path.exists(), self.path.exists() or saves)
        told = plain(["layer add w any", "layer add v any", "save"])
        self.assertEqual(self.path.read_bytes(), told.saves[0])
        self.assertEqual(self.journal.read_bytes(), journal_of(told.saves[0], ["layer add u any"]))

    def test_the_plain_program_knows_no_save(self) -> None:
        self.assertEqual(ran([], ["save"]).output, b"refused 31 BadCommand\n")

    def test_a_link_leads_to_one_store(self) -> None:
        self.left(["save", "layer add w any"])
        link = Path(self.folder) / "link.sfs"
        link.symlink_to(self.path)
        self.assertEqual(ran(["--store", str(link)], ["layers"]).output, b"rows 1\nw any\n")
        self.assertTrue(link.is_symlink())
        self.assertEqual(self.path.read_bytes(), plain(["layer add w any"]).file)

    def test_a_path_in_the_folder_itself(self) -> None:
        words = [PROGRAM, "--store", "town.sfs"]
        subprocess.run(words, input=b"layer add w any\n", cwd=self.folder, capture_output=True, check=True)
        self.assertEqual(self.path.read_bytes(), plain(["layer add w any"]).file)

    def test_a_hundred_thousand_lines(self) -> None:
        """Edits, undos and refused lines of two editors: answers, journal, what the next opening has, and the file."""
        dice = random.Random(100_000)
        # A short layer b for lines of all kinds, and a long one a.
        lines = [*BEGINNING, *(f"add a POINT ({dice.randint(-999, 999)} {k})" for k in range(50_000)), *session(dice, MANY_LINES)]
        lines = [line for line in lines if not line.startswith(("show", "@1 show", "find", "@1 find"))]
        self.assertGreater(len(lines), 0.97 * (50_000 + MANY_LINES))
        told = plain([*lines, *PROBE])
        self.assertEqual(self.stored(lines, "--keep").output, b"".join(told.answers[: len(lines)]))
        self.assertEqual(self.journal.read_bytes(), journal_behind(lines))
        self.assertEqual(self.stored(PROBE, "--keep"), Ended(0, b"".join(told.answers[len(lines) :]), b""))
        self.assertEqual(self.stored().status, 0)
        self.assertEqual(self.path.read_bytes(), told.file)

    def test_answers_longer_than_all_room(self) -> None:
        lines = [*BEGINNING, *(f"add a POINT ({k} {k})" for k in range(20_000)), "show a", "add a POINT (0 7)", "show a", "undo"]
        self.assertEqual(self.stored(lines, "--keep").output, plain(lines).output)
        self.assertEqual(self.journal.read_bytes(), journal_behind(lines))

    def test_long_lines(self) -> None:
        wkt = "add b MULTIPOINT (" + ", ".join(f"{k} {-k}" for k in range(4_096)) + ")"
        lines = [*BEGINNING, *[wkt, "x" * 4_194_304, "x" * 131_073, "undo", "redo", wkt + " " * (4_194_304 - len(wkt))] * 3]
        self.assertEqual(self.stored(lines, "--keep").output, plain(lines).output)
        self.assertEqual(self.journal.read_bytes(), journal_behind(lines))
        self.assertEqual(self.stored().status, 0)
        self.assertEqual(self.path.read_bytes(), plain(lines).file)


class Options(StoreCase):
    def test_words_that_do_not_go_together(self) -> None:
        for words in (["--store", "a", "--load", "b"], ["--store", "a", "--save", "b"], ["--keep"], ["--keep", "--save", "b"], ["--store"]):
            with self.subTest(words):
                ended = subprocess.run([PROGRAM, *words], input=b"layers\n", cwd=self.folder, capture_output=True, check=False)
                self.assertEqual(ended.returncode, 2)
                self.assertTrue(ended.stdout.startswith(b"error: "), ended.stdout)
                self.assertEqual(os.listdir(self.folder), [])

    def test_a_folder_that_is_missing(self) -> None:
        self.assert_ends(ran(["--store", str(Path(self.folder) / "missing" / "town.sfs")]), 3, "fault load Open")

    def test_a_link_that_leads_nowhere(self) -> None:
        self.path.symlink_to(Path(self.folder) / "nowhere")
        self.assert_ends(self.stored(), 3, "fault load Open")
        self.assertEqual(os.listdir(self.folder), ["town.sfs"])


class Cuts(StoreCase):
    SECONDS = 600
    SAVED: ClassVar[list[str]] = ["layer add a point", "add a POINT (1 1)", "save"]
    LINES: ClassVar[list[str]] = ["@1 layer add b any", "add a POINT (2 2)", "undo", "@1 add b POINT (3 3)"]

    def begun(self) -> tuple[bytes, list[int]]:
        """A file with a journal: its bytes, and where each record begins, the end too."""
        self.left([*self.SAVED, *self.LINES])
        data = self.journal.read_bytes()
        self.assertEqual(data, journal_behind([*self.SAVED, *self.LINES]))
        places = [place + 1 for place, byte in enumerate(data) if byte == 10]
        return data, places

    def expected(self, records: int) -> bytes:
        """What a look at the store tells when it has so many of the records."""
        lines = [*self.SAVED, *self.LINES[:records]]
        return b"".join(plain([*lines, *DUMP]).answers[len(lines) :])

    def has_front(self, town: Town, data: bytes, places: Sequence[int], size: int) -> None:
        """The opening over a front of the journal gives its whole records, tells whether one was cut, and drops that."""
        records = sum(place <= size for place in places) - 1
        ended = town.stored(DUMP, "--keep")
        if ended != Ended(0, self.expected(records), b"" if size in places else WARNING):
            raise AssertionError(ended)
        if town.journal.read_bytes() != data[: places[records]]:
            raise AssertionError("another journal is left than that of the whole records")

    def test_cut_at_each_byte(self) -> None:
        data, places = self.begun()
        file = self.path.read_bytes()

        def cut(town: Town, size: int) -> int:
            town.path.write_bytes(file)
            town.journal.write_bytes(data[:size])
            if size < places[0]:
                town.refused_untouched(3, "fault journal OtherFile")
            else:
                self.has_front(town, data, places, size)
            return 1

        self.assertEqual(side_by_side(cut, range(len(data) + 1)), len(data) + 1)

    def test_each_bit_flipped(self) -> None:
        data, places = self.begun()
        file = self.path.read_bytes()

        def flipped(town: Town, place: int) -> int:
            town.path.write_bytes(file)
            begin = max((begin for begin in places if begin <= place), default=0)
            for bit in range(8):
                town.journal.write_bytes(data[:place] + bytes([data[place] ^ 1 << bit]) + data[place + 1 :])
                if place == len(data) - 1:
                    # Without its line feed the last record was not written to its end.
                    self.has_front(town, data, places, places[-2] + 1)
                else:
                    town.refused_untouched(3, f"fault journal Damaged {begin}" if begin else "fault journal OtherFile")
            return 8

        self.assertEqual(side_by_side(flipped, range(len(data))), 8 * len(data))

    def test_records_that_are_missing_swapped_or_twice(self) -> None:
        data, places = self.begun()
        records = [data[begin:end] for begin, end in zip(places, places[1:])]
        for order, at in (([1, 2, 3], 0), ([0, 2, 3], 1), ([1, 0, 2, 3], 0), ([0, 0, 1], 1), ([0, 1, 3], 2)):
            with self.subTest(order):
                self.journal.write_bytes(data[: places[0]] + b"".join(records[place] for place in order))
                begin = places[0] + sum(len(records[place]) for place in order[:at])
                self.assert_refused_untouched(3, f"fault journal Damaged {begin}")

    def test_records_that_are_no_accepted_edit(self) -> None:
        data, _ = self.begun()
        file = self.path.read_bytes()
        for text in ("show a", "add a POINT", "", "redo", "save", "@1 undo", "layer add a any"):
            with self.subTest(text):
                self.journal.write_bytes(journal_of(file, ["add a POINT (2 2)", text, "undo"]))
                begin = len(journal_of(file, ["add a POINT (2 2)"]))
                self.assert_refused_untouched(3, f"fault journal NotAccepted {begin}")


class OtherFiles(StoreCase):
    LINES: ClassVar[list[str]] = ["layer add w point", "add w POINT (1 1)"]

    def test_a_journal_beside_another_file(self) -> None:
        self.left(self.LINES)
        self.path.write_bytes(plain(["layer add v any"]).file)
        self.assert_refused_untouched(3, "fault journal OtherFile")

    def test_a_file_that_another_program_changed(self) -> None:
        self.left([*self.LINES, "save", "add w POINT (2 2)"])
        ran(["--load", str(self.path), "--save", str(self.path)], ["add w POINT (3 3)"])
        self.assert_refused_untouched(3, "fault journal OtherFile")

    def test_a_file_exchanged_for_any_that_is_nearly_the_same(self) -> None:
        """Each byte of the file in turn is another one, or is missing: no journal is taken beside such a file."""
        self.left([*self.LINES, "save", "add w POINT (2 2)"])
        file, journal = self.path.read_bytes(), self.journal.read_bytes()

        def exchanged(town: Town, place: int) -> int:
            town.journal.write_bytes(journal)
            found = 0
            for other in (file[:place] + bytes([file[place] ^ 1]) + file[place + 1 :], file[:place] + file[place + 1 :]):
                town.path.write_bytes(other)
                plain_end = ran(["--load", str(town.path)])
                last = "fault journal OtherFile" if plain_end.status == 0 else plain_end.last.decode().rstrip("\n")
                town.refused_untouched(3, last)
                found += plain_end.status == 0
            return found

        loads = side_by_side(exchanged, range(len(file)))
        # Some of these files load: their coordinates, counters or names are others.
        self.assertGreater(loads, 5)

    def test_journals_of_two_stores_exchanged(self) -> None:
        """Where either has the other's journal each is refused, also where the two began with the same lines."""
        towns = []
        for name in ("one", "two"):
            (self.place / name).mkdir()
            towns.append(Town(self.place / name))
            towns[-1].left([*self.LINES, f"add w POINT ({len(towns)} 2)", "save", "add w POINT (2 2)"])
        journals = [town.journal.read_bytes() for town in towns]
        for town, journal in zip(towns, reversed(journals)):
            town.journal.write_bytes(journal)
            town.refused_untouched(3, "fault journal OtherFile")

    def test_a_journal_without_edits_is_in_no_files_way(self) -> None:
        self.stored(self.LINES)
        ran(["--load", str(self.path), "--save", str(self.path)], ["add w POINT (3 3)"])
        told = plain([*self.LINES, "add w POINT (3 3)", "save", *PROBE])
        self.assertEqual(self.stored(PROBE, "--keep").output, b"".join(told.answers[len(self.LINES) + 2 :]))
        self.assertEqual(self.journal.read_bytes().splitlines(keepends=True)[0], head_of(told.saves[0]))

    def test_a_file_that_was_taken_away(self) -> None:
        self.left([*self.LINES, "save", "add w POINT (2 2)"])
        self.path.unlink()
        self.assert_refused_untouched(3, "fault journal OtherFile")

    def test_journals_of_older_versions(self) -> None:
        """The Python module writes them anew; the program alone takes none."""
        for data in (b"sfstore-journal 1 new\n", second_journal_of(b"", []), second_journal_of(b"", self.LINES)):
            self.journal.write_bytes(data)
            self.assert_refused_untouched(3, "fault journal OtherFile")

    @unittest.skipUnless(os.geteuid() == 0, "takes another user's place")
    def test_a_file_that_may_not_be_read_is_no_new_store(self) -> None:
        self.stored(self.LINES)
        self.place.chmod(0o777)
        self.path.chmod(0)
        self.journal.unlink()
        self.lock.unlink()
        before = self.all_there()
        words = [PROGRAM, "--store", str(self.path), "--keep"]
        ended = subprocess.run(words, input=b"layer add v any\n", capture_output=True, user=NOBODY, check=False, timeout=SECONDS)
        self.assert_ends(Ended(ended.returncode, ended.stdout, ended.stderr), 3, "fault load Open")
        self.assertEqual(self.all_there(), before)

    @unittest.skipIf(shutil.which("cc") is None, "cc is missing")
    def test_a_file_that_is_written_while_it_is_loaded_is_refused(self) -> None:
        """Another program writes it between the sum of its bytes and the load."""
        self.stored(self.LINES)
        theirs = plain(["layer add theirs any"]).file
        (self.place / "theirs").write_bytes(theirs)
        ended = self.met("before seek town.sfs", "cat theirs > town.sfs", ["--store", str(self.path)], ["layers"])
        self.assertEqual((ended.status, ended.output), (3, b"fault load Changed\n"))
        self.assertEqual(self.path.read_bytes(), theirs)

    def test_a_file_that_is_no_store(self) -> None:
        self.path.write_bytes(b"no store")
        before = self.all_there()
        ended = self.stored(["layer add w any"])
        told = ran(["--load", str(self.path)])
        self.assertEqual((ended.status, ended.last), (3, told.last))
        self.assertEqual(self.all_there(), before)

    def test_a_journal_beside_that_a_save_has_left(self) -> None:
        """The file has taken its place and the journal has not: what was saved is not done again."""
        self.left([*self.LINES, "save", "add w POINT (2 2)"])
        saved = plain([*self.LINES, "save", "add w POINT (2 2)"]).file
        self.path.write_bytes(saved)
        self.beside("journal").write_bytes(head_of(saved))
        ended = self.stored(["undo", "show w"], "--keep")
        self.assertEqual(ended.output, b"refused 29 NothingToUndo\nrows 2\n1 POINT (1 1)\n2 POINT (2 2)\n")
        self.assertEqual(self.journal.read_bytes(), head_of(saved))
        self.assertFalse(self.beside("journal").exists())

    def test_leftovers_of_a_save_that_did_not_come_so_far(self) -> None:
        self.left([*self.LINES, "save", "add w POINT (2 2)"])
        self.beside("store").write_bytes(b"half a sto")
        self.beside("journal").write_bytes(b"sfstore-jour")
        ended = self.stored(["undo", "redo", "show w"])
        self.assertEqual(ended.output, b"ok\nok\nrows 2\n1 POINT (1 1)\n2 POINT (2 2)\n")
        self.assertEqual(sorted(os.listdir(self.folder)), ["town.sfs", "town.sfs.journal", "town.sfs.lock"])


class Locks(StoreCase):
    def running(self) -> Running:
        """A session that has answered."""
        running = Running(self.path, Path(self.folder) / "answers")
        self.addCleanup(running.kill)
        running.send(["layer add w any"])
        running.wait_for(3)
        return running

    def test_the_second_of_two_is_refused(self) -> None:
        running = self.running()
        before = self.all_there()
        ended = self.stored(["layer add v any"])
        self.assertEqual((ended.status, ended.output), (3, b"fault load Taken\n"))
        self.assertEqual(self.all_there(), before)
        running.send(["layer add u any", "save", "layer add t any"])
        running.wait_for(12)
        self.assert_ends(self.stored(), 3, "fault load Taken")
        self.assertEqual(running.end(), 0)
        self.assertEqual(self.path.read_bytes(), plain(["layer add w any", "layer add u any", "layer add t any"]).file)

    @unittest.skipIf(shutil.which("cc") is None, "cc is missing")
    def test_a_session_that_saves_while_another_begins(self) -> None:
        """It ends before the other one has the lock, which then goes on from what it saved."""
        self.stored(["layer add a point"])
        other = f"echo 'add a POINT (1 1)' | {PROGRAM} --store town.sfs"
        lines = ["add a POINT (2 2)", "show a"]
        ended = self.met("before flock town.sfs.lock", other, ["--store", str(self.path), "--keep"], lines)
        # The first line is the other's.
        self.assertEqual((ended.status, ended.output), (0, b"ok 1\nok 2\nrows 2\n1 POINT (1 1)\n2 POINT (2 2)\n"))
        self.assertEqual(self.stored(["show a"], "--keep").output, b"rows 2\n1 POINT (1 1)\n2 POINT (2 2)\n")

    def test_of_several_that_begin_at_once_one_at_a_time_has_the_store(self) -> None:
        """Each that got it has its point kept; each that did not is told so, and has changed nothing."""

        def raced(town: Town, number: int) -> int:
            town.left(["layer add a point"])
            words = [PROGRAM, "--store", str(town.path), "--keep"]
            begun = [subprocess.Popen(words, stdin=subprocess.PIPE, stdout=subprocess.PIPE) for _ in range(4)]
            answers = [process.communicate(f"add a POINT ({place} {number})\n".encode())[0] for place, process in enumerate(begun)]
            ended = [(process.returncode, answer) for process, answer in zip(begun, answers)]
            kept = [place for place, (status, _) in enumerate(ended) if status == 0]
            # They were served in an order that their identifiers tell.
            kept.sort(key=lambda place: answers[place])
            lines = [f"add a POINT ({place} {number})" for place in kept]
            told = dict(zip(kept, plain(["layer add a point", *lines]).answers[1:]))
            if not kept or ended != [(0, told[place]) if place in told else (3, b"fault load Taken\n") for place in range(4)]:
                raise AssertionError(ended)
            town.agreed(["layer add a point"], lines, b"".join(told.values()))
            return len(begun) - len(kept)

        self.assertGreater(side_by_side(raced, range(RACES)), 0)

    def test_the_end_of_a_process_frees_the_lock(self) -> None:
        self.running().kill()
        self.assertEqual(self.stored(["layers"]).output, b"rows 1\nw any\n")

    def test_a_link_to_the_store_leads_to_the_same_lock(self) -> None:
        running = self.running()
        running.send(["save"])
        running.wait_for(6)
        link = Path(self.folder) / "link.sfs"
        link.symlink_to(self.path)
        self.assert_ends(ran(["--store", str(link)]), 3, "fault load Taken")


class Modes(StoreCase):
    LINES: ClassVar[list[str]] = ["layer add w point", "save", "add w POINT (1 1)"]

    def mode(self, path: Path) -> int:
        return stat.S_IMODE(path.stat().st_mode)

    def test_journal_and_file_have_the_mode_of_the_file(self) -> None:
        # The lock may be opened by those alone who may write the file.
        for mode, lock in ((0o600, 0o600), (0o640, 0o600), (0o644, 0o600), (0o660, 0o660), (0o664, 0o660)):
            with self.subTest(oct(mode)):
                self.journal.unlink(missing_ok=True)
                self.path.write_bytes(plain([]).file)
                self.path.chmod(mode)
                self.assertEqual(self.stored(["layer add v any"], "--keep").status, 0)
                self.assertEqual([self.mode(path) for path in (self.path, self.journal, self.lock)], [mode, mode, lock])
                self.assertEqual(self.stored(self.LINES, "--keep").status, 0)
                self.assertEqual([self.mode(path) for path in (self.path, self.journal, self.lock)], [mode, mode, lock])
                self.assertEqual(self.stored().status, 0)
                self.assertEqual([self.mode(path) for path in (self.path, self.journal, self.lock)], [mode, mode, lock])

    def test_the_mode_of_a_new_store(self) -> None:
        before = os.umask(0o027)
        try:
            self.assertEqual(self.stored(self.LINES).status, 0)
        finally:
            os.umask(before)
        self.assertEqual([self.mode(path) for path in (self.path, self.journal, self.lock)], [0o640, 0o640, 0o600])

    @unittest.skipUnless(os.geteuid() == 0, "only root can be another user")
    def test_a_file_that_may_not_be_written_is_replaced_where_the_folder_may_be(self) -> None:
        self.path.write_bytes(plain([]).file)
        self.path.chmod(0o444)
        for path in (Path(self.folder), self.path):
            os.chown(path, NOBODY, NOBODY)
        for words in (["--store", self.path], ["--load", self.path, "--save", self.path]):
            before = self.path.read_bytes()
            line = b"layer add l%d point\n" % len(before)
            said = subprocess.run([PROGRAM, *words], input=line, capture_output=True, user=NOBODY, group=NOBODY, extra_groups=[])
            self.assertEqual((said.returncode, said.stdout), (0, b"ok\n"))
            self.assertEqual(self.mode(self.path), 0o444)
            self.assertGreater(len(self.path.read_bytes()), len(before))

    def precious(self) -> Path:
        """A file of the user's, which must stay as it is."""
        path = Path(self.folder) / "precious"
        path.write_bytes(b"precious")
        return path

    def test_a_link_beside_is_not_followed(self) -> None:
        """It is refused, or another file takes its place."""
        for name in ("store", "journal"):
            with self.subTest(name):
                precious = self.precious()
                self.beside(name).symlink_to(precious)
                before = self.all_there()
                ended = self.stored(self.LINES)
                self.assertEqual((precious.read_bytes(), precious.is_symlink()), (b"precious", False))
                if ended.status == 0:
                    self.assertEqual(ended.output, plain(self.LINES).output)
                    self.assertFalse(self.beside(name).is_symlink())
                    self.assertFalse(self.path.is_symlink() or self.journal.is_symlink())
                else:
                    self.assert_ends(ended, 3, "fault journal Read")
                    self.assertEqual(self.all_there(), before)
                    self.beside(name).unlink()
                self.path.unlink(missing_ok=True)
                self.journal.unlink(missing_ok=True)

    def test_links_in_the_place_of_journal_and_lock_are_refused(self) -> None:
        for path, last in ((self.journal, "fault journal Read"), (self.lock, "fault load Open")):
            with self.subTest(path.name):
                precious = self.precious()
                self.lock.unlink(missing_ok=True)
                path.symlink_to(precious)
                self.assert_ends(self.stored(self.LINES), 3, last)
                self.assertEqual(precious.read_bytes(), b"precious")
                self.assertFalse(self.path.exists())
                path.unlink()


if __name__ == "__main__":
    unittest.main()
