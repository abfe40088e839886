"""Tests of `sfstore --save FILE`, which replaces a file when the new one is whole, and of what a session with `--store`
looks at again: its lock, its journal, its file."""

from __future__ import annotations

import fcntl
import itertools
import os
import shutil
import signal
import stat
import subprocess
import threading
import unittest
from collections.abc import Iterator
from pathlib import Path

from store_support import FAULTS, NOBODY, SECONDS, DiskCase, Ended, Running, StoreCase, library, plain, ran
from support import PROGRAM

OLD = ["layer add old any"]
NEW = ["layer add new any", "add new POINT (1 2)"]


class SaveCase(StoreCase):
    """Tests over a file of an earlier save."""

    def save(self, lines: list[str], path: str | Path | None = None) -> Ended:
        """A run that saves to a path."""
        return ran(["--save", str(path or self.path)], lines)

    @property
    def beside_save(self) -> Path:
        """Where the new file is before it takes its place."""
        return self.beside("save")

    def names(self) -> list[str]:
        """What stands in the folder."""
        return sorted(os.listdir(self.place))

    def put_old(self) -> bytes:
        """A file of an earlier save, and its bytes."""
        self.assertEqual(self.save(OLD).status, 0)
        return self.path.read_bytes()


class Replaced(SaveCase):
    """The new file takes the place of the old one."""

    def test_nothing_is_left_beside(self) -> None:
        self.put_old()
        number = self.path.stat().st_ino
        self.assertEqual(self.save(NEW).status, 0)
        self.assertEqual(self.path.read_bytes(), plain(NEW).file)
        self.assertNotEqual(self.path.stat().st_ino, number)
        self.assertEqual(self.names(), ["town.sfs"])

    def test_a_shorter_store_leaves_nothing_of_a_longer_one(self) -> None:
        self.save([*NEW, *(f"add new POINT ({k} {k})" for k in range(5_000))])
        self.assertEqual(self.save(OLD).status, 0)
        self.assertEqual(self.path.read_bytes(), plain(OLD).file)

    def test_mode_and_group_stay(self) -> None:
        self.put_old()
        for mode in (0o600, 0o640, 0o664, 0o444):
            self.path.chmod(mode)
            self.assertEqual(self.save(NEW).status, 0)
            self.assertEqual(stat.S_IMODE(self.path.stat().st_mode), mode)
        if os.geteuid() == 0:
            os.chown(self.path, NOBODY, NOBODY)
            self.assertEqual(self.save(OLD).status, 0)
            found = self.path.stat()
            self.assertEqual((found.st_uid, found.st_gid), (NOBODY, NOBODY))

    def test_the_mode_of_a_new_file(self) -> None:
        before = os.umask(0o027)
        try:
            self.save(NEW)
        finally:
            os.umask(before)
        self.assertEqual(stat.S_IMODE(self.path.stat().st_mode), 0o640)

    def test_a_link_leads_to_the_file_that_is_replaced(self) -> None:
        self.put_old()
        folder = self.place / "elsewhere"
        folder.mkdir()
        link = folder / "link.sfs"
        link.symlink_to(self.path)
        self.assertEqual(self.save(NEW, link).status, 0)
        self.assertTrue(link.is_symlink())
        self.assertEqual(self.path.read_bytes(), plain(NEW).file)
        self.assertEqual(os.listdir(folder), ["link.sfs"])

    def test_another_name_keeps_the_old_file(self) -> None:
        old = self.put_old()
        other = self.place / "other.sfs"
        other.hardlink_to(self.path)
        self.save(NEW)
        self.assertEqual(other.read_bytes(), old)

    def test_a_name_alone_is_in_the_folder_of_the_process(self) -> None:
        ended = subprocess.run([PROGRAM, "--save", "town.sfs"], input=b"layer add new any\n", cwd=self.place, check=False, timeout=SECONDS)
        self.assertEqual(ended.returncode, 0)
        self.assertEqual(self.names(), ["town.sfs"])


class InPlace(SaveCase):
    """What no file can take the place of is written as it stands."""

    def test_a_pipe(self) -> None:
        pipe = self.place / "pipe"
        os.mkfifo(pipe)
        got: list[bytes] = []
        reader = threading.Thread(target=lambda: got.append(pipe.read_bytes()))
        reader.start()
        self.assertEqual(self.save(NEW, pipe).status, 0)
        reader.join(SECONDS)
        self.assertEqual(got, [plain(NEW).file])
        self.assertTrue(stat.S_ISFIFO(pipe.stat().st_mode))

    def test_a_device(self) -> None:
        self.assertEqual(self.save(NEW, "/dev/null").status, 0)
        self.assertTrue(stat.S_ISCHR(os.stat("/dev/null").st_mode))

    def test_an_open_file_of_the_caller(self) -> None:
        for name in ("/dev/fd/{}", "/proc/self/fd/{}"):
            with self.path.open("w+b") as file:
                words = ["--save", name.format(file.fileno())]
                self.assertEqual(ran(words, NEW, kept=[file.fileno()]).status, 0)
                file.seek(0)
                self.assertEqual(file.read(), plain(NEW).file)
                self.assertEqual(self.names(), ["town.sfs"])

    def test_a_link_that_leads_nowhere(self) -> None:
        link = self.place / "link"
        link.symlink_to(self.path)
        self.assertEqual(self.save(NEW, link).status, 0)
        self.assertEqual(self.path.read_bytes(), plain(NEW).file)
        self.assertEqual(self.names(), ["link", "town.sfs"])


class Refused(SaveCase):
    """Where the new file can't be made the old one stands."""

    def assert_old(self, ended: Ended, last: str, old: bytes) -> None:
        self.assert_ends(ended, 4, last)
        self.assertEqual(self.path.read_bytes(), old)

    def test_a_folder_is_no_file(self) -> None:
        self.assert_ends(self.save(NEW, self.place), 4, "fault save Open")

    def test_a_folder_that_is_missing(self) -> None:
        self.assert_ends(self.save(NEW, self.place / "no" / "town.sfs"), 4, "fault save Open")

    @unittest.skipUnless(os.geteuid() == 0, "takes another user's place")
    def test_a_folder_in_which_no_file_can_be_made(self) -> None:
        old = self.put_old()
        self.path.chmod(0o666)
        self.place.chmod(0o755)
        words = [PROGRAM, "--save", str(self.path)]
        ended = subprocess.run(words, input=b"layer add new any\n", capture_output=True, user=NOBODY, check=False, timeout=SECONDS)
        self.assert_old(Ended(ended.returncode, ended.stdout, ended.stderr), "fault save Open", old)

    def test_another_run_is_at_it(self) -> None:
        old = self.put_old()
        with self.beside_save.open("wb") as file:
            fcntl.flock(file, fcntl.LOCK_EX)
            self.assert_old(self.save(NEW), "fault save Open", old)
            self.assertEqual(self.names(), [".town.sfs.sfstore-save", "town.sfs"])

    def test_what_a_crash_has_left_goes(self) -> None:
        self.put_old()
        self.beside_save.write_bytes(b"a part" * 1_000)
        self.assertEqual(self.save(NEW).status, 0)
        self.assertEqual(self.path.read_bytes(), plain(NEW).file)
        self.assertEqual(self.names(), ["town.sfs"])

    def test_a_link_beside_is_not_followed(self) -> None:
        old = self.put_old()
        precious = self.place / "precious"
        precious.write_bytes(b"precious")
        self.beside_save.symlink_to(precious)
        self.assert_old(self.save(NEW), "fault save Open", old)
        self.assertEqual(precious.read_bytes(), b"precious")

    def test_a_pipe_beside_is_not_waited_for(self) -> None:
        old = self.put_old()
        os.mkfifo(self.beside_save)
        self.assert_old(self.save(NEW), "fault save Open", old)

    def test_after_a_fault_of_serving_nothing_is_saved(self) -> None:
        old = self.put_old()
        with open("/dev/full", "wb") as full:
            words = [PROGRAM, "--save", str(self.path)]
            ended = subprocess.run(words, input=b"layers\n", stdout=full, check=False, timeout=SECONDS)
        self.assertEqual(ended.returncode, 1)
        self.assertEqual(self.path.read_bytes(), old)


class FullDisk(DiskCase):
    """A disk on which there is no room for the new file."""

    def test_the_old_file_stands(self) -> None:
        self.mounted("256k")
        lines = [*NEW, *(f"add new POINT ({k} {k})" for k in range(3_000))]
        self.assertEqual(ran(["--save", str(self.path)], lines).status, 0)
        old = self.path.read_bytes()
        self.filled()
        words = ["--load", str(self.path), "--save", str(self.path)]
        self.assert_ends(ran(words, ["add new POINT (7 7)"]), 4, "fault save Write")
        self.assertEqual(self.path.read_bytes(), old)
        self.assertEqual(sorted(os.listdir(self.place)), ["filler", "town.sfs"])


@unittest.skipIf(shutil.which("cc") is None, "cc is missing")
class FailingSaves(SaveCase):
    """Each write, sync and rename of a save fails in turn, or is the last thing that the process does."""

    def runs(self, variable: str) -> Iterator[tuple[int, Ended, bytes]]:
        """The runs in which each call is met in turn, and the old file's bytes."""
        before = library(Path(self.folder), FAULTS)
        for number in itertools.count(1):
            self.beside_save.unlink(missing_ok=True)
            old = self.put_old()
            told = Path(self.folder) / "met"
            with told.open("wb") as file:
                variables = {variable: str(number), "LD_PRELOAD": str(before), "MET": str(file.fileno())}
                ended = ran(["--save", str(self.path)], NEW, variables, [file.fileno()])
            if not told.stat().st_size:
                self.assertGreater(number, 4)
                return
            yield number, ended, old

    def test_each_call_fails(self) -> None:
        for number, ended, old in self.runs("FAILS"):
            with self.subTest(call=number):
                self.assert_ends(ended, 4, "fault save Write")
                self.assertIn(self.path.read_bytes(), (old, plain(NEW).file))
                self.assertFalse(self.beside_save.exists())

    def test_the_order_of_the_calls_of_a_save_to_a_path(self) -> None:
        """The new file is synced before it takes its place, and its name behind that."""
        self.put_old()
        told = self.place / "calls"
        with told.open("wb") as calls:
            variables = {"LD_PRELOAD": str(library(self.place, FAULTS)), "CALLS": str(calls.fileno())}
            self.assertEqual(ran(["--save", str(self.path)], NEW, variables, [calls.fileno()]).status, 0)
        beside = self.beside_save.name
        wanted = [f"write {beside}", f"sync {beside}", "rename town.sfs", f"sync {self.place.name}"]
        self.assertEqual(told.read_text().splitlines(), wanted)

    def test_a_file_beside_that_is_taken_away_is_begun_again(self) -> None:
        """Another run takes it for what a crash has left, before it is locked."""
        self.put_old()
        name = self.beside_save.name
        self.assertEqual(self.met(f"before flock {name}", f"rm {name}", ["--save", str(self.path)], NEW).status, 0)
        self.assertEqual(self.path.read_bytes(), plain(NEW).file)
        self.assertFalse(self.beside_save.exists())

    def test_a_file_beside_of_another_run_does_not_take_the_place(self) -> None:
        """It stands there in the place of the run's own, half written."""
        old = self.put_old()
        name = self.beside_save.name
        ended = self.met(f"before sync {name}", f"rm {name} && echo half > {name}", ["--save", str(self.path)], NEW)
        self.assert_ends(ended, 4, "fault save Write")
        self.assertEqual((self.path.read_bytes(), self.beside_save.read_bytes()), (old, b"half\n"))

    def test_killed_before_and_behind_each_call(self) -> None:
        for variable in ("KILLS", "KILLS_BEHIND"):
            for number, ended, old in self.runs(variable):
                with self.subTest(call=number, variable=variable):
                    self.assertEqual(ended.status, -signal.SIGKILL)
                    self.assertIn(self.path.read_bytes(), (old, plain(NEW).file))
                    # The next run saves, whatever this one has left.
                    self.assertEqual(self.save(NEW).status, 0)
                    self.assertEqual(self.path.read_bytes(), plain(NEW).file)


class Looks(StoreCase):
    """What another program does to the files of a session while it is under way."""

    LINES = ["layer add a any", "add a POINT (1 1)"]

    def begun(self) -> Running:
        """A session that has answered edits, which are in its journal alone."""
        self.left([*self.LINES, "save"])
        running = Running(self.path, self.place / "answers")
        self.edit(running, 1)
        return running

    def edit(self, running: Running, count: int) -> None:
        """One more edit, as the first ones or a later one, and its answer."""
        running.send([f"add a POINT ({count} {count})"])
        running.wait_for(running.answers.stat().st_size + 1)

    def assert_ended(self, running: Running, status: int, last: str) -> None:
        self.assertEqual(running.process.wait(SECONDS), status)
        self.assertEqual(running.kill().splitlines()[-1], last.encode())

    def points(self) -> int:
        """How many points the next opening has."""
        return self.stored(["show a"], "--keep").output.count(b"POINT")

    def test_a_lock_that_was_taken_away_ends_it_before_an_answer(self) -> None:
        running = self.begun()
        self.lock.unlink()
        running.send(["layers", "add a POINT (5 5)"])
        self.assert_ended(running, 1, "fault serve Journal")
        self.assertIn(self.points(), (2, 3))

    def test_another_lock_in_its_place_ends_it_too(self) -> None:
        running = self.begun()
        self.lock.unlink()
        self.lock.touch()
        running.send(["add a POINT (5 5)"])
        self.assert_ended(running, 1, "fault serve Journal")

    def test_a_pipe_in_the_place_of_the_journal_is_not_waited_for(self) -> None:
        self.left([*self.LINES, "save"])
        for name, journal in (("journal", self.journal), ("beside", self.beside("journal"))):
            journal.unlink(missing_ok=True)
            os.mkfifo(journal)
            with self.subTest(name):
                self.assert_ends(self.stored(["layers"]), 3, "fault journal Read")
            journal.unlink()

    def test_a_journal_that_was_taken_away_is_written_anew(self) -> None:
        running = self.begun()
        mode = self.journal.stat().st_mode
        self.journal.unlink()
        self.edit(running, 5)
        self.assertEqual(self.journal.stat().st_mode, mode)
        self.edit(running, 6)
        running.kill()
        self.assertEqual(self.points(), 4)

    def test_another_file_in_the_place_of_the_journal_ends_it(self) -> None:
        running = self.begun()
        data = self.journal.read_bytes()
        self.journal.unlink()
        self.journal.write_bytes(data)
        running.send(["add a POINT (5 5)"])
        self.assert_ended(running, 1, "fault serve Journal")
        self.assertEqual(self.points(), 2)

    def test_a_file_that_another_program_has_changed_is_not_saved_over(self) -> None:
        def replaced() -> None:
            ran(["--load", str(self.path), "--save", str(self.path)], ["layer add theirs any"])

        def written() -> None:
            found = self.path.stat()
            other = self.path.read_bytes()
            self.path.write_bytes(other[:-1] + bytes([other[-1] ^ 1]))
            os.utime(self.path, ns=(found.st_atime_ns, found.st_mtime_ns))

        for change in (replaced, written, self.path.unlink):
            for lines in (["save"], []):
                for name in (self.path, self.journal):
                    name.unlink(missing_ok=True)
                running = self.begun()
                change()
                theirs = self.path.read_bytes() if self.path.exists() else None
                journal = self.journal.read_bytes()
                running.send(lines)
                running.input.close()
                self.assert_ended(running, 4, "fault save Changed")
                self.assertEqual(self.path.read_bytes() if self.path.exists() else None, theirs)
                self.assertEqual(self.journal.read_bytes(), journal)
                self.assertFalse(self.beside("store").exists())

    def test_a_file_that_appears_where_there_was_none_is_not_saved_over(self) -> None:
        running = Running(self.path, self.place / "answers")
        running.send(self.LINES)
        running.wait_for(len(b"ok\nok 1\n"))
        self.path.write_bytes(b"another's")
        running.input.close()
        self.assert_ended(running, 4, "fault save Changed")
        self.assertEqual(self.path.read_bytes(), b"another's")

    def assert_not_saved_over(self, comes: str, answers: bytes) -> None:
        """What another program does to the file right behind the rename of a save is not saved over, behind these answers."""
        theirs = plain(["layer add theirs any"]).file
        self.path.with_name("theirs").write_bytes(theirs)
        lines = [*self.LINES, "save", "add a POINT (5 5)", "save", "layers"]
        ended = self.met("behind rename town.sfs", comes, ["--store", str(self.path)], lines)
        self.assertEqual((ended.status, ended.output), (4, answers + b"fault save Changed\n"))
        self.assertEqual(self.path.read_bytes(), theirs)

    @unittest.skipIf(shutil.which("cc") is None, "cc is missing")
    def test_what_is_put_there_right_behind_a_save_is_another_programs(self) -> None:
        """Another file takes its place. The next save sees that."""
        self.assert_not_saved_over("mv -T theirs town.sfs", b"ok\nok 1\nok\nok 2\n")

    @unittest.skipIf(shutil.which("cc") is None, "cc is missing")
    def test_what_is_written_right_behind_a_save_is_another_programs(self) -> None:
        """It is written in its place. The save itself sees that."""
        self.assert_not_saved_over("cat theirs > town.sfs", b"ok\nok 1\n")

    def test_a_change_of_the_mode_alone_is_none(self) -> None:
        running = self.begun()
        self.path.chmod(0o640)
        os.utime(self.path)
        running.send(["save", "add a POINT (5 5)", "save"])
        running.input.close()
        self.assertEqual(running.process.wait(SECONDS), 0)
        self.assertEqual(stat.S_IMODE(self.path.stat().st_mode), 0o640)
        self.assertEqual(self.points(), 3)

    def test_the_mode_may_change_between_two_saves(self) -> None:
        running = self.begun()
        size = running.answers.stat().st_size
        running.send(["save"])
        running.wait_for(size + len(b"ok\n"))
        self.path.chmod(0o640)
        running.send(["add a POINT (5 5)", "save"])
        running.input.close()
        self.assertEqual(running.process.wait(SECONDS), 0)
        self.assertEqual(self.points(), 3)

    def test_saves_one_after_another_know_what_they_saved(self) -> None:
        running = self.begun()
        for count in range(5):
            running.send([f"add a POINT ({count} 9)", "save"])
        running.input.close()
        self.assertEqual(running.process.wait(SECONDS), 0)
        self.assertEqual(self.points(), 7)


if __name__ == "__main__":
    unittest.main()
