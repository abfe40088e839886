"""Tests of stores with a journal, which the program keeps: what was answered is there after kills, faults and cuts."""

from __future__ import annotations

import contextlib
import errno
import itertools
import os
import pkgutil
import random
import resource
import signal
import stat
import subprocess
import sys
import threading
import unittest
import warnings
import zlib
from unittest import mock

from support import FOLDER, PROGRAM, TestCase

from sfstore import JournalError, ProgramEnded, Recovered, Refused, Store, files, journal, oldjournal, sidecar
from sfstore.journal import edits_left, read_records
from sfstore.kept import Kept
from store_support import crc_of, head_of, journal_of, second_journal_of

POINT = "add w POINT ({} {})"


def journaled(path):
    return Store(path, journal=True, program=PROGRAM)


def program_of(store):
    """The process of the program of a store with a journal."""
    return store._program._program._process


def content(store):
    """All that a store has."""
    return [
        (layer, store.columns(layer.name), store.show(layer.name)) for layer in store.layers()
    ]


class JournalCase(TestCase):
    def setUp(self):
        super().setUp()
        self.path = self.folder / "town.sfs"
        self.journal = self.folder / "town.sfs.journal"

    def left(self, lines=()):
        """Has a session do these lines on the file, and end with all in the journal."""
        store = journaled(self.path)
        store.run_all(lines)
        store.close(save=False)

    def wkts(self):
        """The points that the next session finds."""
        store = journaled(self.path)
        try:
            return [feature.wkt for feature in store.show("w")]
        finally:
            store.close(save=False)


class Sessions(JournalCase):
    def test_a_new_store_is_saved_when_it_is_closed(self):
        with journaled(self.path) as store:
            store.add_layer("w", "point")
            self.assertFalse(self.path.exists())
            self.assertEqual(store.unsaved, 1)
        with Store(PROGRAM, load=self.path) as plain:
            self.assertEqual(plain.run("layers"), ["w point"])
        with journaled(self.path) as store:
            self.assertEqual((store.unsaved, store.recovered), (0, Recovered(0, 0)))

    def test_an_exception_leaves_the_edits_in_the_journal(self):
        with self.assertRaises(KeyError):
            with journaled(self.path) as store:
                store.add_layer("w", "point")
                raise KeyError
        self.assertFalse(self.path.exists())
        with journaled(self.path) as store:
            self.assertEqual(store.recovered, Recovered(1, 0))
            self.assertEqual(store.run("layers"), ["w point"])

    def test_what_was_recovered_can_be_undone_and_done_again(self):
        self.left(["layer add w point", POINT.format(1, 1), POINT.format(2, 2), "undo"])
        with journaled(self.path) as store:
            store.redo()
            store.undo()
            store.undo()
            store.undo()
            self.assertEqual(store.layers(), [])
            with self.assertRaises(Refused):
                store.undo()
            store.redo()
            store.redo()
        self.assertEqual(self.wkts(), ["POINT (1 1)"])

    def test_a_question_that_is_answered_as_an_edit_is_leaves_nothing_unsaved(self):
        store = journaled(self.path)
        store.add_layer("w", "point")
        store.save()
        self.assertIsNone(store.check("w", "POINT (1 1)"))
        self.assertIsNone(store.editor(7).check("w", "POINT (1 1)"))
        self.assertEqual(store.run_all(["check w POINT (1 1)", " @7\tcheck\tw POINT (1 1)"]), ["ok", "ok"])
        self.assertEqual((store.unsaved, store.unsaved_lines), (0, []))
        store.add("w", "POINT (2 2)")
        self.assertEqual(store.unsaved, 1)
        store.close()

    def test_unsaved_lines_make_the_same_store_with_its_history(self):
        with self.assertRaises(RuntimeError), Store(PROGRAM) as plain:
            self.assertIsNone(plain.unsaved_lines)
        with journaled(self.path) as store:
            store.editor(2).add_layer("w", "point")
            store.run_all([POINT.format(1, 1), "show w", "add w POINT", "undo"])
            lines = ["@2 layer add w point", POINT.format(1, 1), "undo"]
            self.assertEqual(store.unsaved_lines, lines)
            with Store(PROGRAM) as other:
                other.run_all(store.unsaved_lines)
                other.redo()
                self.assertEqual(other.show("w")[0].wkt, "POINT (1 1)")
            store.save()
            self.assertEqual(store.unsaved_lines, [])

    def test_ends_of_lines_within_texts(self):
        """A record has the line as it was given, with a carriage return of a text too: no group is one."""
        with Store(self.path, journal=True) as store:
            store.run_all(["layer add w point", "column add w t text", "add w POINT (1 1)", "add w POINT (2 2)"])
            store.run("@2 set w 1 t 'a\rdelete w 2'")
            with store.together() as group:
                group.set("w", 2, "t", "a\r\nb")
                group.set("w", 1, "t", "\r")
            store.undo()
            shown = store.show("w")
            self.assertEqual([feature.values for feature in shown], [{"t": "a\rdelete w 2"}, {}])
            store.copy(self.folder / "copy.sfs")
            lines = store.unsaved_lines
            store.close(save=False)
        with Store(self.path, journal=True) as store:
            self.assertEqual((store.unsaved_lines, store.show("w")), (lines, shown))
            store.redo()
            self.assertEqual([feature.values for feature in store.show("w")], [{"t": "\r"}, {"t": "a\r\nb"}])
        with Store(load=self.folder / "copy.sfs") as copy:
            self.assertEqual(copy.show("w"), shown)

    def test_a_stopped_store_has_all_that_was_answered(self):
        store = journaled(self.path)
        store.add_layer("w", "point")
        store.stop()
        with self.assertRaises(ProgramEnded):
            store.layers()
        store.close(save=False)
        with journaled(self.path) as store:
            self.assertEqual([layer.name for layer in store.layers()], ["w"])

    def test_edits_of_all_editors_are_recovered_as_theirs(self):
        store = journaled(self.path)
        ann, ben = store.editor(1), store.editor(2)
        ann.add_layer("w", "point")
        ann.add("w", "POINT (1 1)")
        ben.add("w", "POINT (2 2)")
        store.close(save=False)
        with journaled(self.path) as store:
            with self.assertRaises(Refused) as caught:
                store.editor(1).undo()
            self.assertEqual(caught.exception.name, "NotYours")
            store.editor(2).undo()
        self.assertEqual(self.wkts(), ["POINT (1 1)"])

    def test_questions_and_refused_lines_are_not_written_down(self):
        with journaled(self.path) as store:
            store.run_all(["layer add ok any", "add ok POINT (1 1)"])
            before = self.journal.read_bytes()
            lines = ["show ok", "layers", "box ok 1", "hex ok 1", "simple ok 1", "columns ok"]
            lines += ["relate ok 1 POINT (1 1)", "query ok equals POINT (1 1)", "redo", "nothing"]
            store.run_all(lines)
            self.assertEqual(self.journal.read_bytes(), before)

    def test_a_save_begins_a_new_journal_and_a_new_history(self):
        with journaled(self.path) as store:
            store.run_all(["layer add w point", POINT.format(1, 1), "undo", "redo", "undo", "redo"])
            size = self.journal.stat().st_size
            store.save()
            self.assertEqual(store.unsaved, 0)
            self.assertLess(self.journal.stat().st_size, size)
            with self.assertRaises(Refused):
                store.undo()
            saved = self.path.read_bytes()
            store.add("w", "POINT (2 2)")
            self.assertEqual(self.path.read_bytes(), saved)
            store.editor(9).add("w", "POINT (3 3)")
        self.assertEqual(self.wkts(), ["POINT (1 1)", "POINT (2 2)", "POINT (3 3)"])

    def test_a_new_store_without_edits_is_saved_too(self):
        with journaled(self.path):
            pass
        self.assertTrue(self.path.exists())
        with journaled(self.path) as store:
            self.path.unlink()
            with self.assertRaisesRegex(JournalError, "changed or taken away by another program"):
                store.save()
            store.close(save=False)

    def test_what_a_save_has_left_of_a_file_is_taken_away(self):
        left = [self.folder / f".town.sfs{name}" for name in (".sfstore-store", ".sfstore-0123456789ab")]
        for path in left:
            path.write_bytes(b"half a store")
        journaled(self.path).close(save=False)
        self.assertFalse(any(path.exists() for path in left))

    def test_a_line_save_is_refused_and_saves_nothing(self):
        with journaled(self.path) as store:
            store.add_layer("w", "point")
            for line in ("save", "save\r", "@2 save"):
                with self.assertRaises(Refused) as caught:
                    store.run(line)
                self.assertEqual(caught.exception.name, "BadCommand")
            self.assertEqual([str(answer) for answer in store.run_all(["save", POINT.format(1, 1)])][1], "ok 1")
            self.assertFalse(self.path.exists())
            self.assertEqual(store.unsaved, 2)

    def test_many_lines_at_once(self):
        lines = ["layer add w point", *(POINT.format(k, 1) for k in range(300)), "show w", "nothing", "undo"]
        with journaled(self.path) as store:
            outcomes = store.run_all(lines)
            self.assertEqual(outcomes[:2] + outcomes[-1:], ["ok", "ok 1", "ok"])
            self.assertEqual((len(outcomes[-3]), outcomes[-2].name), (300, "BadCommand"))
            self.assertEqual(store.unsaved, 302)
            # More than both pipes hold: neither side waits for the other for ever.
            told = store.run_all(["show w".ljust(40_000)] * 20)
            self.assertEqual([len(rows) for rows in told], [299] * 20)

    def test_a_save_without_edits_keeps_the_history(self):
        with journaled(self.path) as store:
            store.add_layer("w")
            store.save()
            inode = self.path.stat().st_ino
            store.save()
            self.assertEqual(self.path.stat().st_ino, inode)

    def test_nothing_is_left_beside(self):
        with journaled(self.path) as store:
            store.add_layer("w")
            store.save()
            store.add_layer("v")
        names = ["town.sfs", "town.sfs.journal", "town.sfs.lock"]
        self.assertEqual(sorted(os.listdir(self.folder)), names)

    def test_a_copy(self):
        copy = self.folder / "copy.sfs"
        with journaled(self.path) as store:
            store.run_all(["layer add w point", POINT.format(1, 1)])
            store.copy(copy)
            self.assertEqual(store.unsaved, 2)
            store.undo()
            with self.assertRaisesRegex(JournalError, "could not be saved"):
                store.copy(self.folder / "missing" / "copy.sfs")
            store.save()
            store.add("w", "POINT (2 2)")
            store.copy(copy)
        with Store(PROGRAM, load=copy) as plain:
            self.assertEqual([feature.wkt for feature in plain.show("w")], ["POINT (2 2)"])
        with self.assertRaisesRegex(RuntimeError, "closed"):
            store.copy(copy)

    def test_a_link_leads_to_one_journal(self):
        self.left(["layer add w point"])
        link = self.folder / "link.sfs"
        link.symlink_to(self.path)
        with journaled(link) as store:
            self.assertEqual(store.recovered.edits, 1)
        self.assertTrue(link.is_symlink())
        self.assertTrue(self.path.exists())

    def test_a_closed_store(self):
        store = journaled(self.path)
        store.close()
        store.close()
        for call in (store.layers, store.save):
            with self.assertRaisesRegex(RuntimeError, "closed"):
                call()

    def test_stores_without_a_journal(self):
        with Store(PROGRAM) as store:
            for call in (store.save, lambda: store.unsaved, lambda: store.recovered):
                with self.assertRaisesRegex(RuntimeError, "no journal"):
                    call()
        for words in ({}, {"path": "a", "load": "b"}, {"path": "a", "save": "b"}):
            with self.assertRaises(TypeError):
                Store(journal=True, **words)
        with self.assertRaises(TypeError):
            Store("a", program="b")

    def test_a_store_that_is_closed_without_saving(self):
        store = Store(PROGRAM, save=self.path)
        store.add_layer("w")
        store.close(save=False)
        self.assertFalse(self.path.exists())


class Locks(JournalCase):
    def test_a_second_session_is_refused(self):
        with journaled(self.path):
            with self.assertRaisesRegex(JournalError, "open in another session"):
                journaled(self.path)
        journaled(self.path).close()

    def test_a_session_that_was_killed_frees_the_lock(self):
        child = Child(self.path, 0)
        child.acknowledged(3)
        with self.assertRaisesRegex(JournalError, "another session"):
            journaled(self.path)
        child.kill()
        journaled(self.path).close(save=False)

    def test_a_session_of_the_program_alone_keeps_it_too(self):
        with subprocess.Popen(
            [PROGRAM, "--store", str(self.path)], stdin=subprocess.PIPE, stdout=subprocess.PIPE
        ) as running:
            running.stdin.write(b"layers\n")
            running.stdin.flush()
            running.stdout.readline()
            with self.assertRaisesRegex(JournalError, "open in another session"):
                journaled(self.path)
            # The lock is waited for: a session may be about to end.
            threading.Timer(0.5, running.stdin.close).start()
            journaled(self.path).close()

    def test_another_session_between_a_look_at_the_lock_and_the_program(self):
        real, began = Kept.prepare, []

        def prepare(kept):
            torn = real(kept)
            if not began:
                began.append(subprocess.Popen([PROGRAM, "--store", self.path, "--keep"], stdin=subprocess.PIPE))
                began[0].stdin.write(b"layer add w point\n")
                began[0].stdin.flush()
                while not edits_left(str(self.path)):
                    pass
                threading.Timer(0.3, began[0].stdin.close).start()
            return torn

        with mock.patch.object(Kept, "prepare", prepare):
            store = journaled(self.path)
        began[0].wait()
        self.assertEqual(store.recovered.edits, 1)
        store.close(save=False)

    def test_a_process_forked_while_the_lock_is_looked_at_does_not_keep_it(self):
        real, children = files.remove_leftovers, []

        def removed(path):
            if not children:
                children.append(os.fork())
                if children[0] == 0:
                    signal.pause()
                self.addCleanup(os.waitpid, children[0], 0)
                self.addCleanup(os.kill, children[0], signal.SIGKILL)
            real(path)

        with mock.patch("sfstore.files.remove_leftovers", removed):
            journaled(self.path).close()

    def test_a_forked_process_does_not_keep_the_lock(self):
        store = journaled(self.path)
        child = os.fork()
        if child == 0:
            signal.pause()
        store.close()
        journaled(self.path).close()
        os.kill(child, signal.SIGKILL)
        os.waitpid(child, 0)

    def test_another_thread_leaves_the_session_alone(self):
        raised = []

        def body():
            for call in (store.layers, store.save, store.close):
                try:
                    call()
                except RuntimeError as error:
                    raised.append(error)

        with journaled(self.path) as store:
            store.add_layer("w")
            thread = threading.Thread(target=body)
            thread.start()
            thread.join()
            self.assertEqual(len(raised), 3)
            store.add_layer("v")


class Files(JournalCase):
    LINES = ["layer add w point", POINT.format(1, 1), "@7 " + POINT.format(2, 2), "undo \r"]

    def setUp(self):
        super().setUp()
        self.left(self.LINES[:3])
        self.data = self.journal.read_bytes()

    def refused(self, words):
        before = sorted(os.listdir(self.folder)), self.journal.read_bytes()
        with self.assertRaisesRegex(JournalError, words):
            journaled(self.path)
        self.assertEqual((sorted(os.listdir(self.folder)), self.journal.read_bytes()), before)

    def test_the_bytes_are_those_of_the_format(self):
        self.assertEqual(self.data, journal_of(b"", self.LINES[:3]))

    def test_cut_at_each_byte(self):
        head = self.data.index(b"\n") + 1
        whole = [at + 1 for at, byte in enumerate(self.data) if byte == 10]
        for cut in range(head, len(self.data)):
            edits = sum(end <= cut for end in whole) - 1
            torn = cut - max(end for end in whole if end <= cut)
            records = read_records(self.data[:cut], "x")
            self.assertEqual([line.decode() for line in records.lines], [f"{line}\n" for line in self.LINES[:edits]])
            if cut % 9 and torn > 1:
                continue
            self.journal.write_bytes(self.data[:cut])
            with warnings.catch_warnings(record=True) as warned:
                warnings.simplefilter("always")
                store = journaled(self.path)
            self.assertEqual(store.recovered, Recovered(edits, torn))
            self.assertEqual(len(warned), torn > 0)
            store.close(save=False)
            self.assertEqual(self.journal.read_bytes(), self.data[: cut - torn])

    def test_cut_in_its_head(self):
        for cut in (0, 5, self.data.index(b"\n")):
            self.journal.write_bytes(self.data[:cut])
            self.refused("no journal begins at place 0")

    def test_every_flipped_bit_is_found(self):
        at = self.data.index(b"\n") + 1
        for place, bit in itertools.product(range(at, len(self.data) - 1), range(8)):
            flipped = bytearray(self.data)
            flipped[place] ^= 1 << bit
            with self.assertRaisesRegex(JournalError, "at place [0-9]+ is damaged"):
                read_records(bytes(flipped), "x")

    def test_sums_of_many_bytes_are_those_of_the_format(self):
        rng = random.Random(64)
        self.assertEqual(journal._crc(b"123456789"), 0x995DC9BBDF1939FA)
        for size in (1, journal._LARGE - 1, journal._LARGE, journal._LARGE + 1, 3 * journal._LARGE):
            for data in (rng.randbytes(size), b"add w POINT (1 1)\n" * (size // 18) + b"x" * (size % 18), bytes(size)):
                self.assertEqual(journal._crc(data), crc_of(data), size)

    def test_what_a_program_keeps_is_read_without_a_sum_for_each_record(self):
        path = self.folder / "large.sfs"
        lines = [f"add w POINT ({k} {k})" for k in range(5_000)]
        with Store(path, journal=True, program=PROGRAM) as store:
            store.run("layer add w point")
            store.run_all(lines)
            data = path.with_name("large.sfs.journal").read_bytes()
            looked = 0

            class Counted(list):
                def __getitem__(self, at):
                    nonlocal looked
                    looked += 1
                    return super().__getitem__(at)

            with mock.patch("sfstore.journal._ROWS", Counted(journal._ROWS)):
                self.assertEqual(store.unsaved_lines, ["layer add w point", *lines])
                store.copy(self.folder / "copy.sfs")
            self.assertLess(looked, 1_000)
            store.close(save=False)
        self.assertEqual(journal.read_kept(data, "x"), read_records(data, "x"))
        self.assertEqual(journal.read_kept(data + b"0123 torn", "x"), read_records(data, "x"))
        for place in (data.index(b"w point"), data.index(b"(7 7)"), data.index(b"(4999 4999)"), len(data) - 2, len(data) - 30):
            flipped = bytearray(data)
            flipped[place] ^= 1
            with self.assertRaisesRegex(JournalError, "at place [0-9]+ is damaged"):
                journal.read_kept(bytes(flipped), "x")
        for other in (b"", b"nonsense", b"sfstore-journal 3 0", data[: data.index(b"\n") + 1]):
            try:
                expected = read_records(other, "x")
            except JournalError as error:
                with self.assertRaisesRegex(JournalError, str(error)):
                    journal.read_kept(other, "x")
            else:
                self.assertEqual(journal.read_kept(other, "x"), expected)

    def test_records_that_are_taken_out_or_change_places(self):
        head, first, second, third = self.data.splitlines(keepends=True)
        for records in ((second, third), (first, third), (second, first, third), (first, first)):
            self.journal.write_bytes(head + b"".join(records))
            self.refused("the record at place [0-9]+ is damaged")

    def test_an_edit_that_is_not_accepted(self):
        self.journal.write_bytes(journal_of(b"", ["layer add w point", "layer add w point"]))
        self.refused("the edit of the record at place [0-9]+ is not accepted there")

    def test_a_file_that_was_changed_or_taken_away(self):
        with Store(PROGRAM, save=self.path) as plain:
            plain.add_layer("other")
        self.refused("is not the file that .* goes on from")
        self.path.unlink()
        with journaled(self.path):
            pass
        self.left([POINT.format(9, 9)])
        self.path.unlink()
        self.refused("was taken away.*bring it back")

    def test_no_journal(self):
        for data in (b"\n", b"something else\n", self.data[1:]):
            self.journal.write_bytes(data)
            self.refused("no journal begins at place 0")

    def test_edits_that_are_left(self):
        path = str(self.path)
        self.assertEqual(edits_left(path), 3)
        # A save that was ended between the two renames.
        with Store(PROGRAM, save=self.path) as plain:
            plain.add_layer("w", "point")
        self.assertEqual(edits_left(path), 3)
        (self.folder / ".town.sfs.sfstore-journal").write_bytes(head_of(self.path.read_bytes()))
        self.assertEqual(edits_left(path), 0)
        store = journaled(self.path)
        self.assertEqual((store.unsaved, store.layers()[0].name), (0, "w"))
        store.close(save=False)
        self.journal.unlink()
        self.assertEqual(edits_left(path), 0)

    def test_a_store_that_does_not_load(self):
        self.path.write_bytes(b"no store")
        self.journal.unlink()
        with self.assertRaises(ProgramEnded) as caught:
            journaled(self.path)
        self.assertTrue(caught.exception.last_line.startswith("fault load BadFile"))
        self.assertFalse(self.journal.exists())

    def test_a_folder_that_is_missing(self):
        with self.assertRaises(FileNotFoundError):
            journaled(self.folder / "missing" / "town.sfs")


def old_journal(base, lines):
    """A journal of version 1, which the module wrote."""
    data = b"sfstore-journal 1 %s\n" % base.encode()
    chain = zlib.crc32(data)
    for line in lines:
        chain = zlib.crc32(f"{line}\n".encode(), chain)
        data += b"%08x %s\n" % (chain, line.encode())
    return data


class OldCase(JournalCase):
    """A journal of an older version is written anew, once; what it refused is refused."""

    LINES = ["layer add w point", POINT.format(1, 1), "@7 " + POINT.format(2, 2), "@7 undo", "@7 redo"]

    def begun(self, lines=None, saved=False):
        """A journal of the version, over a file or over none."""
        if saved:
            with Store(PROGRAM, save=self.path) as plain:
                plain.add_layer("w", "point")
        self.journal.write_bytes(self.old(self.LINES if lines is None else lines))

    def old(self, lines):
        """The bytes of a journal of the version that goes on from the file that is there."""
        raise NotImplementedError

    def refused(self, words):
        before = sorted(os.listdir(self.folder)), self.journal.read_bytes()
        with self.assertRaisesRegex(JournalError, words):
            journaled(self.path)
        names = sorted(name for name in os.listdir(self.folder) if not name.endswith(".lock"))
        self.assertEqual((names, self.journal.read_bytes()), before)
        (self.folder / "town.sfs.lock").unlink()


class OldConversions:
    """What holds of each older version."""

    def test_its_edits_are_there_with_their_history(self):
        self.begun()
        self.assertEqual(edits_left(str(self.path)), 5)
        store = journaled(self.path)
        self.assertEqual(store.recovered, Recovered(5, 0))
        self.assertEqual(self.journal.read_bytes(), journal_of(b"", [line.removesuffix("\r") for line in self.LINES]))
        with self.assertRaises(Refused) as caught:
            store.undo()
        self.assertEqual(caught.exception.name, "NotYours")
        store.editor(7).undo()
        store.close(save=False)
        self.assertEqual(self.wkts(), ["POINT (1 1)"])

    def test_over_a_file(self):
        self.begun(self.LINES[1:3], saved=True)
        self.path.chmod(0o600)
        store = journaled(self.path)
        self.assertEqual(store.recovered, Recovered(2, 0))
        self.assertEqual(stat.S_IMODE(self.journal.stat().st_mode), 0o600)
        store.close()
        self.assertEqual(self.wkts(), ["POINT (1 1)", "POINT (2 2)"])

    def test_a_record_that_was_not_written_to_its_end_is_dropped_and_told(self):
        self.begun()
        with self.journal.open("ab") as file:
            file.write(b"0123 add")
        with self.assertWarnsRegex(RuntimeWarning, "8 bytes of an edit"):
            store = journaled(self.path)
        self.assertEqual(store.recovered, Recovered(5, 8))
        store.close(save=False)

    def test_what_is_damaged_is_refused(self):
        self.begun()
        data = self.journal.read_bytes()
        for place in (data.index(b"\n") + 1, len(data) - 3):
            changed = bytearray(data)
            changed[place] ^= 1
            self.journal.write_bytes(bytes(changed))
            self.refused("the record at place [0-9]+ is damaged")

    def test_another_file_is_refused(self):
        self.begun(self.LINES[1:3], saved=True)
        self.path.unlink()
        self.refused("was taken away.*bring it back")
        with Store(PROGRAM, save=self.path) as plain:
            plain.add_layer("other")
        self.refused("is not the file that .* goes on from")
        # Without edits nothing is lost.
        self.begun([])
        with Store(PROGRAM, save=self.path) as plain:
            plain.add_layer("third")
        journaled(self.path).close(save=False)
        self.assertEqual(self.journal.read_bytes(), head_of(self.path.read_bytes()))

    CALLS = ("os.open", "os.fsync", "os.replace", "os.fchmod", "os.unlink", "os.close")

    def test_an_end_at_each_call(self):
        """Before and behind each call; what is there then opens with all edits."""
        for call, behind in itertools.product(self.CALLS, (False, True)):
            for skipped in range(12):
                self.begun()
                child = os.fork()
                if child == 0:
                    with contextlib.suppress(BaseException), broken(call, skipped, None, behind):
                        Kept(str(self.path)).prepare()
                    os._exit(0)
                _, status = os.waitpid(child, 0)
                data = self.journal.read_bytes()
                texts = [line.removesuffix("\r") for line in self.LINES]
                self.assertIn(data, (self.old(self.LINES), journal_of(b"", texts)), (call, skipped))
                if os.waitstatus_to_exitcode(status) == 0:
                    break
            self.assertEqual(os.waitstatus_to_exitcode(status), 0)
        self.assertEqual(len(self.wkts()), 2)

    def test_a_call_that_fails_leaves_the_old_one(self):
        for call in ("os.fsync", "os.replace", "os.fchmod"):
            self.begun(self.LINES[1:3], saved=True)
            self.path.chmod(0o640)
            before = self.journal.read_bytes()
            with broken(call, 0, OSError(errno.ENOSPC, "No space left on device")):
                with contextlib.suppress(OSError):
                    journaled(self.path)
            self.assertEqual(self.journal.read_bytes(), before, call)
            self.assertEqual(len(self.wkts()), 2)

    def test_its_bytes_are_on_the_disk_before_it_takes_its_place(self):
        self.begun()
        calls = []
        with mock.patch("os.fsync", lambda file: calls.append("sync")):
            with mock.patch("os.replace", lambda *paths: calls.append("replace")):
                Kept(str(self.path)).prepare()
        self.assertEqual(calls, ["sync", "replace", "sync"])


class FirstVersion(OldConversions, OldCase):
    LINES = ["layer add w point", POINT.format(1, 1), "@7 " + POINT.format(2, 2), "@7 undo \r", "@7 redo"]

    def old(self, lines):
        return old_journal(self.base(), lines)

    def base(self):
        return files.digest(self.path) if self.path.exists() else "new"

    def test_a_save_that_was_under_way(self):
        # Before the file took its place all edits count, behind it none does.
        self.begun([*self.LINES[1:3], f"#saved {'0' * 64}"], saved=True)
        self.assertEqual(len(self.wkts()), 2)
        self.journal.write_bytes(old_journal("0" * 64, [*self.LINES[1:3], f"#saved {self.base()}"]))
        self.assertEqual((edits_left(str(self.path)), self.wkts()), (0, []))


class SecondVersion(OldConversions, OldCase):
    def old(self, lines):
        return second_journal_of(self.path.read_bytes() if self.path.exists() else b"", lines)

    def test_a_save_that_was_ended_between_its_renames(self):
        """The file has taken its place, and the journal that goes on from it is beside."""
        self.begun()
        beside = self.folder / ".town.sfs.sfstore-journal"
        beside.write_bytes(second_journal_of(b"another file", []))
        self.assertEqual(edits_left(str(self.path)), 5)
        with Store(PROGRAM, save=self.path) as plain:
            plain.run_all(["layer add w point", POINT.format(1, 1)])
        with self.assertRaisesRegex(JournalError, "is not the file that .* goes on from"):
            journaled(self.path)
        beside.write_bytes(self.old([]))
        self.assertEqual((edits_left(str(self.path)), self.wkts()), (0, ["POINT (1 1)"]))
        self.assertFalse(beside.exists())

    def test_without_edits_a_missing_file_is_no_loss(self):
        self.begun([], saved=True)
        self.path.unlink()
        journaled(self.path).close(save=False)
        self.assertEqual(self.journal.read_bytes(), head_of(b""))

    def test_every_flipped_bit_and_every_cut_is_found(self):
        path, data = str(self.path), self.old(self.LINES[:3])
        at = data.index(b"\n") + 1
        for place, bit in itertools.product(range(at, len(data) - 1), range(8)):
            flipped = bytearray(data)
            flipped[place] ^= 1 << bit
            with self.assertRaisesRegex(JournalError, "at place [0-9]+ is damaged"):
                oldjournal.read(bytes(flipped), "x", path)
        for cut in range(at, len(data)):
            records = oldjournal.read(data[:cut], "x", path)
            self.assertEqual(b"".join(records.edits), b"".join(line[17:] for line in data[at:cut].splitlines(True) if line.endswith(b"\n")))
            self.assertEqual(len(records.torn), cut - data[:cut].rindex(b"\n") - 1)


@contextlib.contextmanager
def broken(step, skipped, error, behind=False):
    """Has a step raise an error, or end the process, after some times that it did not."""
    owner, _, name = step.rpartition(".")
    real = getattr(pkgutil.resolve_name(owner), name)
    left = itertools.count(skipped, -1)

    def failing(*arguments, **named):
        breaks = next(left) == 0
        if breaks and behind:
            real(*arguments, **named)
        if breaks and error is None:
            os._exit(1)
        if breaks:
            raise error
        return real(*arguments, **named)

    with mock.patch(step, failing):
        yield


class Failures(JournalCase):
    def setUp(self):
        super().setUp()
        self.left(["layer add w point", POINT.format(0, 0)])

    def test_a_progress_that_raises(self):
        def progress(done, total):
            raise KeyError

        store = journaled(self.path)
        with self.assertRaises(KeyError):
            store.run_all([POINT.format(k, 5) for k in range(500)], progress)
        here = content(store)
        store.close(save=False)
        store = journaled(self.path)
        self.assertEqual(content(store), here)
        store.close()

    def test_an_interrupt_behind_the_answer(self):
        """The program has the edit and its journal too; how many it has is not known here."""
        store = journaled(self.path)
        with mock.patch("sfstore.journaled.is_edit", side_effect=KeyboardInterrupt):
            with self.assertRaises(KeyboardInterrupt):
                store.add("w", "POINT (1 1)")
        for call in (store.layers, store.save):
            with self.assertRaisesRegex(RuntimeError, "closed"):
                call()
        store.close()
        self.assertEqual(self.wkts(), ["POINT (0 0)", "POINT (1 1)"])

    def test_interrupts_at_any_moment(self):
        """Ctrl-C in a loop of edits: what the next session has is all that was answered, or one more."""
        dice = random.Random(36)

        def interrupt(*_):
            raise KeyboardInterrupt

        signal.signal(signal.SIGALRM, interrupt)
        done = 1
        for _ in range(15):
            store = journaled(self.path)
            try:
                signal.setitimer(signal.ITIMER_REAL, 0.001 + dice.random() * 0.05)
                while True:
                    store.add("w", f"POINT ({done} 1)")
                    done += 1
            except KeyboardInterrupt:
                signal.setitimer(signal.ITIMER_REAL, 0)
            store.close(save=False)
            found = len(self.wkts())
            self.assertIn(found - done, (0, 1))
            done = found
        self.limit_time()

    def full(self, store):
        """Adds points until one fails, and gives how many were answered."""
        for done in itertools.count():
            try:
                store.add("w", f"POINT ({done} 1)")
            except (JournalError, ProgramEnded) as error:
                return done, str(error)

    def test_a_limit_of_size(self):
        size = self.journal.stat().st_size + 1000
        before = resource.getrlimit(resource.RLIMIT_FSIZE)
        resource.setrlimit(resource.RLIMIT_FSIZE, (size, before[1]))
        try:
            store = journaled(self.path)
            done, said = self.full(store)
        finally:
            resource.setrlimit(resource.RLIMIT_FSIZE, before)
        # The system kills who goes beyond such a limit.
        self.assertIn(f"killed by signal {signal.SIGXFSZ.value}", said)
        for call in (store.layers, store.save):
            with self.assertRaisesRegex(RuntimeError, "closed"):
                call()
        store.close()
        with warnings.catch_warnings():
            warnings.simplefilter("ignore")
            self.assertIn(len(self.wkts()) - done, (1, 2))

    def test_a_full_disk(self):
        disk = self.folder / "disk"
        disk.mkdir()
        mounted = subprocess.run(
            ["mount", "-t", "tmpfs", "-o", "size=48k", "sfstore-test", disk], capture_output=True
        )
        if mounted.returncode:
            self.skipTest("a small disk can't be mounted here")
        self.addCleanup(subprocess.run, ["umount", disk], check=True)
        self.path = disk / "town.sfs"
        store = journaled(self.path)
        store.add_layer("w", "point")
        store.run_all(POINT.format(k, 1) for k in range(200))
        filler = disk / "filler"
        with contextlib.suppress(OSError), filler.open("wb", buffering=0) as file:
            while file.write(bytes(4096)):
                pass
        # The file that is to be saved finds no room: all stays in the journal, and so does its history.
        with self.assertRaisesRegex(JournalError, "could not be saved.* all edits are in "):
            store.save()
        with contextlib.suppress(JournalError):
            store.close(save=False)
        # An opening writes the journal anew, which takes room.
        with self.assertRaisesRegex(JournalError, "can't be written anew: the disk may be full"):
            journaled(self.path)
        filler.unlink()
        store = journaled(self.path)
        done, said = self.full(store)
        self.assertIn("could not be written", said)
        store.close(save=False)
        subprocess.run(["mount", "-o", "remount,size=1m", disk], check=True)
        with warnings.catch_warnings():
            warnings.simplefilter("ignore")
            store = journaled(self.path)
        self.assertIn(len(store.show("w")) - done, (200, 201))
        store.close()
        self.assertTrue(self.path.exists())

    def test_a_save_that_fails_leaves_the_store_usable(self):
        """As far as the journal can be written anew: here something stands in the way of the new file alone."""
        store = journaled(self.path)
        store.add("w", "POINT (1 1)")
        store.undo()
        in_the_way = self.folder / ".town.sfs.sfstore-store"
        in_the_way.mkdir()
        with self.assertRaisesRegex(JournalError, "could not be saved: it can't be written.*all edits are in"):
            store.save()
        in_the_way.rmdir()
        self.assertEqual(store.unsaved, 4)
        store.redo()
        self.assertEqual(len(store.show("w")), 2)
        store.save()
        self.assertEqual((store.unsaved, len(self.plain_wkts())), (0, 2))
        store.close()

    def plain_wkts(self):
        with Store(PROGRAM, load=self.path) as plain:
            return [feature.wkt for feature in plain.show("w")]

    STEPS = ["os.fsync", "os.replace", "os.open", "sfstore.sidecar.follow", "sfstore.kept.Kept.saved"]
    STEPS += ["sfstore.program.Program.exchange", "sfstore.kept._state", "sfstore.kept.subprocess.run"]

    def with_side_car(self):
        """The store, saved, with a side-car."""
        with journaled(self.path):
            pass
        sidecar.write(str(self.path), sidecar.Sidecar(("0", "0", "1"), None, []), [files.digest(str(self.path))])

    def test_a_save_that_breaks_off_anywhere(self):
        """An error or an interrupt at each step of a save leaves a store with all edits, open or closed."""
        self.with_side_car()
        errors = (OSError(errno.EIO, "broken"), KeyboardInterrupt())
        count = 1
        for step, error, skipped in itertools.product(self.STEPS, errors, range(2)):
            store = journaled(self.path)
            store.add("w", "POINT (7 7)")
            count += 1
            try:
                with broken(step, skipped, error):
                    store.save()
            except (OSError, JournalError, KeyboardInterrupt):
                if store._program.closed:
                    with self.assertRaisesRegex(RuntimeError, "closed"):
                        store.layers()
                else:
                    self.assertEqual(len(store.show("w")), count)
            store.close(save=False)
            self.assertEqual(len(self.wkts()), count, (step, skipped))
            self.assertEqual(sidecar.read(str(self.path)).grid, ("0", "0", "1"))

    def test_a_process_that_ends_at_each_step_of_a_save(self):
        """Without any clearing up, before and behind the step: no edit is lost, none is there twice, and the
        side-car is the file's."""
        self.with_side_car()
        count = 1
        for step, skipped, behind in itertools.product(self.STEPS, range(2), (False, True)):
            child = os.fork()
            if child == 0:
                with contextlib.suppress(BaseException):
                    store = journaled(self.path)
                    store.add("w", "POINT (7 7)")
                    with broken(step, skipped, None, behind):
                        store.save()
                os._exit(0)
            os.waitpid(child, 0)
            count += 1
            self.assertEqual(len(self.wkts()), count, (step, skipped, behind))
            self.assertEqual(sidecar.read(str(self.path)).grid, ("0", "0", "1"), (step, skipped, behind))


CHILD = """
import itertools, os, sys
sys.path[:0] = [{folder!r}, {tests!r}, {here!r}]
from test_journal import moves, journaled
from sfstore import Refused
store = journaled({path!r})
os.write(1, b"%d\\n" % store._program._program._process.pid)
for move in itertools.islice(moves({seed}), {begin}, None):
    if move == ["save"]:
        store.save()
    else:
        store.run_all(move)
    os.write(1, b"a")
"""


def moves(seed):
    """A session without end: single edits, batches of several, and saves."""
    dice = random.Random(seed)
    yield ["layer add w point", "column add w k int"]
    yield [POINT.format(0, 0)]
    for k in itertools.count(1):
        chance = dice.random()
        if chance < 0.5:
            yield [POINT.format(k, 1)]
        elif chance < 0.7:
            yield [f"set w 1 k {k}"]
        elif chance < 0.8:
            yield ["@3 " + POINT.format(k, 2)]
        elif chance < 0.85:
            yield ["undo"]
        elif chance < 0.88:
            yield ["redo"]
        elif chance < 0.96:
            yield [POINT.format(k, n) for n in range(dice.randrange(3, 60))]
        else:
            yield ["save"]


class Child:
    """A process that edits a store, and tells each acknowledged move."""

    def __init__(self, path, seed, begin=0):
        code = CHILD.format(
            folder=str(FOLDER), tests=str(FOLDER / "tests"), here=os.path.dirname(os.path.realpath(__file__)), path=str(path), seed=seed, begin=begin
        )
        self.process = subprocess.Popen(
            [sys.executable, "-c", code], stdout=subprocess.PIPE, stderr=subprocess.DEVNULL
        )
        # By this no other process is killed, whatever numbers are given anew.
        self.program = os.pidfd_open(int(self.process.stdout.readline()))
        self.seen = 0

    def acknowledged(self, count):
        """Waits until so many moves are acknowledged."""
        while self.seen < count and self.process.stdout.read(1):
            self.seen += 1

    def kill(self):
        """Kills it, and gives how many moves it acknowledged in all."""
        self.process.kill()
        return self.ended()

    def kill_program(self):
        """Kills the program, and gives how many moves were acknowledged."""
        with contextlib.suppress(ProcessLookupError):
            signal.pidfd_send_signal(self.program, signal.SIGKILL)
        return self.ended()

    def ended(self):
        os.close(self.program)
        rest = self.process.stdout.read()
        self.process.stdout.close()
        self.process.wait()
        return self.seen + rest.count(b"a")


class Oracle:
    """What a store has after moves, by a store without a journal."""

    def __init__(self, folder):
        self.file = folder / "oracle.sfs"
        self.store = Store(PROGRAM, save=self.file)

    def do(self, lines):
        if lines == ["save"]:
            self.store.close()
            self.store = Store(PROGRAM, load=self.file, save=self.file)
        else:
            self.store.run_all(lines)

    def agree(self, store, move):
        """Does as much of the move that was not acknowledged as the store has; tells how much."""
        if move == ["save"]:
            if store.unsaved == 0:
                self.do(move)
            return content(self.store) == content(store)
        for line in [None, *move]:
            if line is not None:
                self.do([line])
            if content(self.store) == content(store):
                return True
        return False


class Kills(JournalCase):
    """60 seeded moments: kill -9 of Python at 40 of them, of the program at 20. test_store_faults has more of the program."""

    SECONDS = 900

    def killed(self, seed, rounds, kill):
        dice = random.Random(seed)
        path = self.folder / f"{seed}.sfs"
        oracle = Oracle(self.folder)
        self.addCleanup(lambda: oracle.store.close(save=False))
        done = 0
        for _ in range(rounds):
            child = Child(path, seed, done)
            child.acknowledged(dice.randrange(1, 40))
            threading.Event().wait(dice.random() * 0.01)
            acknowledged = kill(child)
            walk = moves(seed)
            for move in itertools.islice(walk, done, done + acknowledged):
                oracle.do(move)
            done += acknowledged
            with warnings.catch_warnings():
                warnings.simplefilter("ignore")
                store = journaled(path)
            more = next(walk)
            self.assertTrue(oracle.agree(store, more), (seed, done, more))
            store.close(save=False)
            # The move under way is not done again: the child goes on with the next one.
            done += 1

    def test_python_is_killed(self):
        for seed in range(4):
            self.killed(seed, 10, Child.kill)

    def test_the_program_is_killed(self):
        for seed in range(4, 6):
            self.killed(seed, 10, Child.kill_program)

    def test_the_program_is_killed_and_told(self):
        store = journaled(self.path)
        store.add_layer("w", "point")
        program_of(store).kill()
        program_of(store).wait()
        with self.assertRaises(ProgramEnded):
            store.add("w", "POINT (1 1)")
        store.close()
        self.assertEqual(self.wkts(), [])


if __name__ == "__main__":
    unittest.main()
