"""Tests of a store with a journal near other programs, other users and files that are not what they seem."""

from __future__ import annotations

import contextlib
import errno
import os
import stat
import subprocess
import sys
import unittest
from pathlib import Path
from unittest import mock

from programs import path_of as program_path
from support import FOLDER, PROGRAM, TestCase

from sfstore import JournalError, Store, console, files, sidecar
from sfstore.journal import locked, path_of
from sfstore.kept import Kept
from sfstore.replica.log import Fence
from sfstore.web.batchlog import BatchLog
from sfstore.web.editors import Editors
from sfstore.web.styles import Styles


class JournalThreats(TestCase):
    def setUp(self):
        super().setUp()
        self.path = self.folder / "town.sfs"
        with self.opened() as store:
            store.add_layer("w", "point")
            store.add("w", "POINT (0 0)")

    def opened(self):
        return Store(self.path, journal=True, program=PROGRAM)

    def points(self, path=None):
        with Store(load=path or self.path, program=PROGRAM) as store:
            return [feature.wkt for feature in store.show("w")]

    def other_program_adds(self, point):
        """What a script does that knows of no journal."""
        words = [PROGRAM, f"--load={self.path}", f"--save={self.path}"]
        subprocess.run(words, input=f"add w {point}\n".encode(), check=True, stdout=subprocess.DEVNULL)

    def mode(self, ending=""):
        return stat.S_IMODE(os.stat(f"{self.path}{ending}").st_mode)

    def test_nothing_is_saved_over_what_another_program_wrote(self):
        store = self.opened()
        store.add("w", "POINT (1 1)")
        self.other_program_adds("POINT (9 9)")
        # By the lines that are not saved a second program would be given what the page shows.
        for call in (store.save, lambda: store.copy(self.folder / "copy.sfs"), lambda: store.unsaved_lines):
            with self.assertRaisesRegex(JournalError, "changed or taken away by another program"):
                call()
        self.assertEqual(self.points(), ["POINT (0 0)", "POINT (9 9)"])
        self.assertFalse((self.folder / "copy.sfs").exists())
        store.close(save=False)
        self.assertIn(b"add w POINT (1 1)", (self.folder / "town.sfs.journal").read_bytes())
        with self.assertRaisesRegex(JournalError, "is not the file that .* goes on from"):
            self.opened()

    def test_a_journal_without_edits_keeps_nobody_out(self):
        with self.opened():
            pass
        self.other_program_adds("POINT (9 9)")
        with self.opened() as store:
            self.assertEqual([feature.wkt for feature in store.show("w")], ["POINT (0 0)", "POINT (9 9)"])

    def test_a_session_without_its_lock_answers_nothing(self):
        stale = self.opened()
        stale.add("w", "POINT (1 1)")
        os.unlink(f"{self.path}.lock")
        with self.opened() as store:
            with self.assertRaisesRegex(JournalError, "another file was put in its place or in that of the lock"):
                stale.add("w", "POINT (2 2)")
            with self.assertRaisesRegex(RuntimeError, "closed"):
                stale.layers()
            stale.close(save=False)
            store.add("w", "POINT (3 3)")
        self.assertEqual(self.points()[:2], ["POINT (0 0)", "POINT (1 1)"])
        self.assertEqual(self.points()[-1], "POINT (3 3)")

    def test_a_session_whose_lock_was_taken_away_ends(self):
        store = self.opened()
        store.add("w", "POINT (1 1)")
        os.unlink(f"{self.path}.lock")
        with self.assertRaisesRegex(JournalError, "lock was taken away while .* was open: the session has ended"):
            store.add("w", "POINT (2 2)")
        store.close()
        with self.opened() as store:
            self.assertIn(len(store.show("w")), (2, 3))

    def test_a_journal_that_is_taken_away_is_written_anew(self):
        store = self.opened()
        store.add("w", "POINT (1 1)")
        os.unlink(f"{self.path}.journal")
        store.add("w", "POINT (2 2)")
        self.assertEqual(len(store.unsaved_lines), 2)
        store.close(save=False)
        with self.opened() as store:
            self.assertEqual(len(store.show("w")), 3)

    def test_what_was_changed_back_is_no_change(self):
        with self.opened() as store:
            store.add("w", "POINT (1 1)")
            data = self.path.read_bytes()
            self.path.write_bytes(b"something else")
            with self.assertRaisesRegex(JournalError, "changed or taken away by another program"):
                store.save()
            self.path.write_bytes(data)
            os.chmod(self.path, 0o600)
            self.assertEqual(store.unsaved_lines, ["add w POINT (1 1)"])
            # The program looks by itself: the store goes on in any case, with all edits.
            with contextlib.suppress(JournalError):
                store.save()
        self.assertEqual(self.points(), ["POINT (0 0)", "POINT (1 1)"])

    def test_a_journal_that_another_program_changed_is_no_base_of_a_copy(self):
        with self.opened() as store:
            store.add("w", "POINT (1 1)")
            journal = self.folder / "town.sfs.journal"
            data = journal.read_bytes()
            journal.write_bytes(data[: data.index(b"\n") + 1])
            for call in (lambda: store.copy(self.folder / "copy.sfs"), lambda: store.unsaved_lines):
                with self.assertRaisesRegex(JournalError, "was changed by another program"):
                    call()
            journal.write_bytes(data.replace(b"1 1", b"1 2"))
            with self.assertRaisesRegex(JournalError, "at place [0-9]+ is damaged"):
                store.copy(self.folder / "copy.sfs")
            journal.write_bytes(data)
        self.assertFalse((self.folder / "copy.sfs").exists())

    def test_nothing_gives_more_than_the_file(self):
        for mode in (0o600, 0o640, 0o644):
            os.chmod(self.path, mode)
            with self.opened() as store:
                store.add("w", "POINT (1 1)")
                self.assertEqual(self.mode(".journal"), mode)
                store.save()
                self.assertEqual((self.mode(), self.mode(".journal")), (mode, mode))
                store.copy(self.folder / "copy.sfs")
                self.assertEqual(stat.S_IMODE((self.folder / "copy.sfs").stat().st_mode), mode)
            (self.folder / "copy.sfs").unlink()

    def test_only_writers_can_hold_the_lock(self):
        os.chmod(self.path, 0o644)
        with self.opened():
            self.assertEqual(self.mode(".lock"), 0o600)
        # An import takes it by itself.
        for mode, most in ((0o644, 0o600), (0o664, 0o660)):
            os.chmod(self.path, mode)
            with locked(str(self.path)):
                self.assertEqual(self.mode(".lock"), most)

    def test_files_of_the_user_are_left_alone(self):
        precious = self.folder / "precious.txt"
        precious.write_text("precious")
        names = [".new", ".part", ".journal.new", ".journal.part", ".json.part"]
        for name in names:
            os.symlink(precious, f"{self.path}{name}")
        with self.opened() as store:
            store.add("w", "POINT (1 1)")
            store.save()
        self.assertEqual(precious.read_text(), "precious")
        for name in names:
            self.assertEqual(os.readlink(f"{self.path}{name}"), str(precious))

    def test_a_journal_that_is_a_link_is_not_followed(self):
        # One that could be appended to, which is somebody else's.
        other = self.folder / "other"
        os.rename(f"{self.path}.journal", other)
        before = other.read_bytes()
        os.symlink(other, f"{self.path}.journal")
        with self.assertRaises(OSError):
            self.opened()
        self.assertEqual(other.read_bytes(), before)

    def test_a_lock_that_is_a_link_is_not_followed(self):
        other = self.folder / "other"
        os.unlink(f"{self.path}.lock")
        os.symlink(other, f"{self.path}.lock")
        with self.assertRaises(OSError):
            self.opened()
        self.assertFalse(other.exists())

    def test_a_pipe_in_the_place_of_a_file_is_not_waited_for(self):
        for ending, code in (
            (".journal", "from sfstore import journal; journal.edits_left(path)"),
            (".lock", "from sfstore import journal; journal.locked(path)"),
            (".editors", "from sfstore.web.editors import Editors; Editors(path)"),
            (".json", "from sfstore import sidecar; sidecar.read(path)"),
            ("", "import sfstore; sfstore.Store(path, journal=True, program=program)"),
        ):
            with self.subTest(ending=ending):
                place = f"{self.path}{ending}"
                if os.path.exists(place):
                    os.unlink(place)
                os.mkfifo(place)
                said = subprocess.run(
                    [sys.executable, "-c", f"path, program = {str(self.path)!r}, {PROGRAM!r}; {code}"],
                    env={**os.environ, "PYTHONPATH": str(FOLDER)},
                    stderr=subprocess.PIPE,
                    text=True,
                    timeout=60,
                )
                os.unlink(place)
                self.assertRegex(said.stderr, f"it is no file: '{place}'|{place} can't be read: it is no file")

    def test_the_program_alone_waits_for_no_pipe(self):
        os.unlink(self.path)
        os.mkfifo(self.path)
        ended = subprocess.run([PROGRAM, "--store", self.path], input=b"layers\n", stdout=subprocess.PIPE, timeout=60)
        self.assertEqual((ended.returncode, ended.stdout), (3, b"fault load Open\n"))
        os.unlink(self.path)
        self.assertEqual(subprocess.run([PROGRAM, "--store", self.path], input=b"layers\n", stdout=subprocess.PIPE, timeout=60).stdout, b"rows 0\n")

    def test_a_side_car_that_is_none_stops_no_save(self):
        for content in ("[" * 100_000, '{"format": "sfstore side-car 1", "layers": ["x"]}', "5", ""):
            (self.folder / "town.sfs.json").write_text(content)
            with self.opened() as store:
                store.add("w", "POINT (1 1)")
                store.save()
            self.assertEqual((self.folder / "town.sfs.json").read_text(), content)
        self.assertEqual(len(self.points()), 5)

    def test_a_copy_takes_the_place_of_none_of_the_stores_files(self):
        with self.opened() as store:
            store.add("w", "POINT (1 1)")
            os.link(f"{self.path}.journal", self.folder / "journal")
            for name in (self.path, *(f"{self.path}{end}" for end in (".journal", ".lock", ".json", ".json.next")),
                         self.folder / "journal", self.folder / ".town.sfs.sfstore-journal"):
                with self.assertRaisesRegex(JournalError, "no copy takes its place"):
                    store.copy(name)
        self.assertEqual(len(self.points()), 2)

    def test_no_store_takes_the_place_of_what_is_kept_beside_another_one(self):
        """Be the other one open, saved or new, and whatever its name is."""
        other, new = self.folder / "other.sfs", self.folder / "map.of.the.town"
        with Store(save=other, program=PROGRAM) as theirs:
            theirs.add_layer("theirs")
        endings = (".lock", ".journal", ".journal.lock", ".json", ".json.next", ".editors", ".batches", ".styles", ".qgis", ".socket")
        open_one = Store(new, journal=True, program=PROGRAM)
        self.addCleanup(open_one.close, save=False)
        with self.opened() as store:
            for end in endings:
                for path in (f"{self.path}{end}", f"{other}{end}", f"{new}{end}"):
                    was = os.path.exists(path) and Path(path).read_bytes()
                    with self.assertRaisesRegex(JournalError, "is one of the files of .*: no copy takes its place", msg=path):
                        store.copy(path)
                    for opening in (lambda: Store(path, journal=True, program=PROGRAM), lambda: Store(save=path, program=PROGRAM)):
                        with self.assertRaisesRegex(OSError, "is kept beside .*, and no store takes its place", msg=path):
                            opening()
                    self.assertEqual(os.path.exists(path) and Path(path).read_bytes(), was)
            for name in (".other.sfs.sfstore-store", ".other.sfs.sfstore-journal", ".other.sfs.sfstore-0123456789ab"):
                with self.assertRaisesRegex(JournalError, "no copy takes its place"):
                    store.copy(self.folder / name)
            # Names of nobody's.
            for name in ("notes.json", "the.lock", ".styles"):
                store.copy(self.folder / name)

    def test_no_edit_goes_into_a_journal_that_no_file_goes_with(self):
        other = self.folder / "other.sfs"
        with Store(save=other, program=PROGRAM) as theirs:
            theirs.add_layer("theirs")
        store, before = self.opened(), self.path.read_bytes()
        self.addCleanup(store.close, save=False)
        store.add("w", "POINT (1 1)")
        journal = self.folder / "town.sfs.journal"
        kept = journal.read_bytes()
        edits = ("add w POINT (2 2)", "@7 add w POINT (2 2)", "undo", "@7\tundo", "together 1\radd w POINT (2 2)", "layer add x")
        for change in (lambda: self.path.write_bytes(other.read_bytes()), self.path.unlink):
            change()
            for line in edits:
                with self.assertRaisesRegex(JournalError, "was changed or taken away by another program"):
                    store.run(line)
            self.assertEqual(len(store.show("w")), 2)
            self.assertEqual((journal.read_bytes(), store.unsaved), (kept, 1))
            self.path.write_bytes(before)
        self.assertEqual(store.add("w", "POINT (2 2)"), 3)
        store.save()
        self.assertEqual(len(self.points()), 3)

    def test_a_copy_takes_no_edits_of_others_away(self):
        """Those of a session that is open, those in a journal, and what is no store."""
        other = self.folder / "other.sfs"
        with Store(other, journal=True, program=PROGRAM) as theirs:
            theirs.add_layer("theirs")
        text = self.folder / "thesis.txt"
        text.write_text("ten years of work")
        with self.opened() as store:
            store.add("w", "POINT (1 1)")
            with self.assertRaisesRegex(JournalError, "thesis.txt is no store: no copy takes its place"):
                store.copy(text)
            theirs = Store(other, journal=True, program=PROGRAM)
            theirs.add("theirs", "POINT (1 1)")
            with self.assertRaisesRegex(JournalError, "other.sfs is open in another session"):
                store.copy(other)
            theirs.close(save=False)
            with self.assertRaisesRegex(JournalError, "other.sfs has 1 edits in its journal that are not saved"):
                store.copy(other)
            with Store(other, journal=True, program=PROGRAM) as theirs:
                self.assertEqual(len(theirs.show("theirs")), 1)
            # A new store that was never saved is nothing but its journal.
            new = Store(self.folder / "new.sfs", journal=True, program=PROGRAM)
            new.add_layer("theirs")
            with self.assertRaisesRegex(JournalError, "new.sfs is open in another session"):
                store.copy(self.folder / "new.sfs")
            new.close()
            # All is saved: a copy may take its place, as it does that of an older copy.
            for name in (other, other, self.folder / "third.sfs"):
                store.copy(name)
        self.assertEqual(text.read_text(), "ten years of work")
        self.assertEqual(len(self.points(other)), 2)
        self.assertFalse((self.folder / "thesis.txt.lock").exists() or (self.folder / "third.sfs.lock").exists())

    def test_a_copy_is_made_of_the_very_file(self):
        """Another file stands in the place of the store's while the second program runs, and no longer."""
        aside, copy, other = (self.folder / name for name in ("aside", "copy.sfs", "other.sfs"))
        with Store(load=self.path, save=other, program=PROGRAM) as store:
            store.add("w", "POINT (9 9)")
        real_lines, real_run = Kept.lines, subprocess.run

        def lines(kept):
            found = real_lines(kept)
            os.rename(self.path, aside)
            os.rename(other, self.path)
            return found

        def run(*arguments, **named):
            os.rename(aside, self.path)
            return real_run(*arguments, **named)

        with self.opened() as store:
            store.add("w", "POINT (1 1)")
            with mock.patch.object(Kept, "lines", lines), mock.patch("sfstore.kept.subprocess.run", run):
                with self.assertRaisesRegex(JournalError, "changed or taken away by another program"):
                    store.copy(copy)
            with contextlib.suppress(FileNotFoundError):
                os.rename(aside, self.path)
            self.assertFalse(copy.exists())

    def test_a_copy_that_fails_leaves_the_older_one(self):
        copy = self.folder / "copy.sfs"
        with Store(save=copy, program=PROGRAM) as yesterday:
            yesterday.add_layer("yesterday")
        before = copy.read_bytes()
        with self.opened() as store:
            store.add("w", "POINT (1 1)")
            script = self.script("#!/bin/sh\ncat > /dev/null\necho 'fault save Write'\nexit 4\n")
            with self.assertRaisesRegex(JournalError, "could not be saved: fault save Write"):
                store._program._kept.copy(str(copy), str(script))
            self.assertEqual(store.unsaved, 1)
            store.undo()
        self.assertEqual(copy.read_bytes(), before)
        self.assertEqual([name for name in os.listdir(self.folder) if name.startswith(".")], [])

    def test_a_side_car_goes_with_its_file_and_no_other(self):
        path = str(self.path)
        sidecar.write(path, sidecar.Sidecar(("1", "2", "3"), None, []), [files.digest(path)])
        with self.opened() as store:
            store.add("w", "POINT (1 1)")
            store.save()
            self.assertEqual(sidecar.read(path).grid, ("1", "2", "3"))
            store.add("w", "POINT (2 2)")
            self.other_program_adds("POINT (9 9)")
            with self.assertRaises(JournalError):
                store.save()
            store.close(save=False)
        with self.assertRaisesRegex(sidecar.SidecarError, "belongs to another file"):
            sidecar.read(path)

    def test_a_side_car_follows_a_program_that_writes_another_format(self):
        """The second program may be a newer one than the session's."""
        path = str(self.path)
        sidecar.write(path, sidecar.Sidecar(("1", "2", "3"), None, []), [files.digest(path)])
        with self.opened() as store, mock.patch.object(Kept, "next_digest", lambda kept, program: "0" * 64):
            store.add("w", "POINT (1 1)")
            store.save()
        self.assertEqual(sidecar.read(path).grid, ("1", "2", "3"))

    def test_a_side_car_that_can_not_be_written_stops_a_save(self):
        path = str(self.path)
        sidecar.write(path, sidecar.Sidecar(("1", "2", "3"), None, []), [files.digest(path)])
        with self.opened() as store:
            store.add("w", "POINT (1 1)")
            with mock.patch("os.replace", side_effect=OSError(errno.ENOSPC, "No space left on device")):
                with self.assertRaisesRegex(JournalError, "could not be saved: its side-car: No space left"):
                    store.save()
            self.assertEqual(store.unsaved, 1)
        self.assertEqual(sidecar.read(path).grid, ("1", "2", "3"))


class Exchanged(TestCase):
    """Somebody who may write in the folder puts a link in the place of a file as soon as that is made."""

    def setUp(self):
        super().setUp()
        self.path = self.folder / "town.sfs"
        with Store(self.path, journal=True, program=PROGRAM) as store:
            store.add_layer("w", "point")
        # What the user alone may read and write, elsewhere.
        self.diary = self.folder.parent / f"{self.folder.name}.diary"
        self.diary.write_text("the user's own")
        self.addCleanup(self.diary.unlink)

    @contextlib.contextmanager
    def exchanged(self):
        """Exchanges each file that is made beside in the body, and says how many they were."""
        made_beside, exchanged = files.made_beside, []

        def made(path, like=None):
            before = set(os.listdir(self.folder))
            made = made_beside(path, like)
            for name in {*os.listdir(self.folder)} - before:
                os.symlink(self.diary, self.folder / "link")
                os.rename(self.folder / "link", self.folder / name)
                exchanged.append(name)
            return made

        with mock.patch.object(files, "made_beside", made):
            yield exchanged

    def write_sidecar(self):
        sidecar.write(str(self.path), sidecar.Sidecar(("1", "2", "3"), None, []), [files.digest(str(self.path))])

    def write_timeline(self):
        Fence(self.folder / "timeline").admit(7)

    def renew_journal(self):
        with open(path_of(str(self.path)), "wb") as journal:
            journal.write(b"sfstore-journal 1 %s\n" % files.digest(str(self.path)).encode())
        Store(self.path, journal=True, program=PROGRAM).close()

    def shorten_batches(self):
        (self.folder / "town.sfs.batches").write_text("[1]\n[2]\n")
        with mock.patch("sfstore.web.batchlog._is_kept", side_effect=[False, True]):
            BatchLog(str(self.path)).keep_whole([])

    def copy(self):
        with Store(self.path, journal=True, program=PROGRAM) as store:
            store.copy(self.folder / "copy.sfs")

    def test_nothing_is_written_to_what_the_link_leads_to(self):
        makers = [
            self.write_sidecar, self.write_timeline, self.renew_journal, self.shorten_batches, self.copy,
            lambda: Styles(str(self.path)).set("w", {"width": 3}),
            lambda: (editors := Editors(str(self.path))).keep(editors.number_of("Ann")),
        ]  # fmt: skip
        for number, make in enumerate(makers):
            with self.subTest(number), self.exchanged() as exchanged:
                with self.assertRaises((OSError, JournalError)):
                    make()
                self.assertEqual(len(exchanged), 1)
            self.assertEqual(self.diary.read_text(), "the user's own")
            self.assertEqual([name for name in os.listdir(self.folder) if ".sfstore-" in name], [])

    def test_no_picture_is_drawn_over_it(self):
        shown = console.Console(str(self.path), PROGRAM, mock.Mock())
        self.addCleanup(shown._store.close, save=False)
        with mock.patch("builtins.print") as printed, mock.patch("shutil.which", program_path), self.exchanged() as exchanged:
            shown._carry_out(f"picture {self.folder}/town.svg")
        self.assertEqual(len(exchanged), 1)
        self.assertIn("something else stands in its place", str(printed.call_args_list))
        self.assertEqual(self.diary.read_text(), "the user's own")


if __name__ == "__main__":
    unittest.main()
