"""Tests of how new files take the place of old ones: every call is made to fail, and to be the last one."""

from __future__ import annotations

import contextlib
import os
import signal
import stat
import time
import unittest
from pathlib import Path
from unittest import mock

from support import TestCase

from sfstore.exchange import placing
from sfstore.exchange.ogr import ExchangeError
from sfstore.exchange.placing import Place, placed

CALLS = ("rename", "replace", "unlink", "rmdir", "mkdir", "chmod", "fsync", "open")
SHAPEFILE = ["out.shp", "out.shx", "out.dbf", "out.prj"]


class Stop(Exception):
    pass


@contextlib.contextmanager
def at_call(number, act):
    """Has the call of a number, of those that change files, act in its own way.

    What is given has something where the call was reached.
    """
    calls = {name: getattr(os, name) for name in CALLS}
    count, reached = 0, []

    def counted(name):
        def call(*words, **named):
            nonlocal count
            count += 1
            if count == number + 1:
                reached.append(name)
                act()
            return calls[name](*words, **named)

        return call

    with contextlib.ExitStack() as patched:
        for name in CALLS:
            patched.enter_context(mock.patch.object(os, name, counted(name)))
        yield reached


def fail():
    raise OSError(28, "No space left on device")


def interrupt():
    """As a person does."""
    signal.raise_signal(signal.SIGINT)


def killed_at(number, work):
    """Whether a process of its own that does a work was ended at a call."""
    child = os.fork()
    if child == 0:
        try:
            with at_call(number, lambda: os._exit(9)):
                work()
        finally:
            os._exit(0)
    return os.waitstatus_to_exitcode(os.waitpid(child, 0)[1]) == 9


class PlacingCase(TestCase):
    def setUp(self):
        super().setUp()
        self.said = []
        # That bytes are on the disk can't be seen here, and takes long.
        synced = mock.patch.object(os, "fsync", lambda file: None)
        synced.start()
        self.addCleanup(synced.stop)

    def place(self, **named):
        return Place(str(self.folder), SHAPEFILE, **named)

    def put(self, content, place, names):
        """Puts files of one content in place."""
        with placed(place, self.said.append) as new:
            if place.contents is not None:
                new = os.path.join(new, place.leading)
                os.mkdir(new)
            for name in names:
                Path(new, name).write_text(content)

    def there(self):
        """The files that can be seen, with their contents."""
        return {
            str(path.relative_to(self.folder)): path.read_text()
            for path in self.folder.rglob("*")
            if path.is_file() and not path.relative_to(self.folder).parts[0].startswith(".")
        }

    def hidden(self):
        return [name for name in os.listdir(self.folder) if name.startswith(".")]

    def afresh(self):
        for path in sorted(self.folder.rglob("*"), reverse=True):
            path.rmdir() if path.is_dir() else path.unlink()


KINDS = {
    "a file": (
        lambda folder: Place(folder, ["out.gpkg"], overwrite=True),
        (["out.gpkg"], ["out.gpkg"]),
    ),
    "a set": (
        lambda folder: Place(folder, SHAPEFILE, overwrite=True),
        # The new one has no reference system, the old one had.
        (SHAPEFILE, SHAPEFILE[:3]),
    ),
    "a folder": (
        lambda folder: Place(folder, ["out"], frozenset("abc"), overwrite=True),
        ("ab", "bc"),
    ),
}


class Steps(PlacingCase):
    """Either set is to be had, wherever it broke off, and never a part of each."""

    def sets(self, place, names):
        head = f"{place.leading}/" if place.is_folder else ""
        old, new = names
        return [{head + name: word for name in several} for word, several in (("old", old), ("new", new))]

    def each_call(self, broken_off):
        """Breaks the work off at each of its calls; ``broken_off`` does it, and says whether it was."""
        for kind, (made, names) in KINDS.items():
            place = made(str(self.folder))
            old, new = self.sets(place, names)
            for number in range(1000):
                self.afresh()
                self.put("old", place, names[0])
                was_broken_off = broken_off(number, lambda: self.put("new", place, names[1]))
                seen = self.there()
                if any(Path(name).name == place.leading or place.is_folder for name in seen):
                    self.assertIn(seen, (old, new), (kind, number))
                # The next one says what it mends before it does anything else.
                self.said.clear()
                with contextlib.suppress(Stop), placed(place, self.said.append):
                    raise Stop
                self.assertIn(self.there(), (old, new), (kind, number))
                if seen != self.there():
                    self.assertTrue(self.said, (kind, number))
                self.put("new", place, names[1])
                self.assertEqual(self.there(), new, (kind, number))
                self.assertEqual(self.hidden(), [], (kind, number))
                if not was_broken_off:
                    break
            self.assertGreater(number, 5, kind)

    def test_a_kill_at_each_call(self):
        self.each_call(killed_at)

    def test_a_failure_of_each_call(self):
        def broken_off(number, work):
            with at_call(number, fail) as reached:
                # A room that can't be taken away is no reason to fail.
                with contextlib.suppress(ExchangeError, OSError):
                    work()
            return bool(reached)

        self.each_call(broken_off)

    def test_an_interrupt_at_each_call(self):
        """It ends the work with the old set, or comes too late, and then all of the new one is there."""
        for kind, (made, names) in KINDS.items():
            place = made(str(self.folder))
            old, new = self.sets(place, names)
            ends = []
            for number in range(1000):
                self.afresh()
                self.put("old", place, names[0])
                with at_call(number, interrupt) as reached:
                    try:
                        self.put("new", place, names[1])
                        ends.append(new)
                    except KeyboardInterrupt:
                        ends.append(old)
                self.assertEqual(self.there(), ends[-1], (kind, number))
                if not reached:
                    break
            self.assertIn(old, ends, kind)
            self.assertGreater(ends.count(new), 3, kind)

    def test_a_body_that_raises_leaves_what_was_there(self):
        for made, names in KINDS.values():
            place = made(str(self.folder))
            self.afresh()
            self.put("old", place, names[0])
            before = self.there()
            with self.assertRaises(Stop), placed(place, self.said.append) as new:
                Path(new, place.leading).write_text("new")
                raise Stop
            self.assertEqual((self.there(), self.hidden()), (before, []))


class InTheWay(PlacingCase):
    def refused(self, words, place, names=("out.shp",)):
        before = self.there(), self.hidden()
        with self.assertRaisesRegex(ExchangeError, words):
            self.put("new", place, names)
        self.assertEqual((self.there(), self.hidden()), before)

    def test_what_is_there(self):
        self.put("old", self.place(), SHAPEFILE)
        self.refused("out.shp is there already: --overwrite replaces it", self.place())

    def test_a_lone_part_of_a_set_is_of_something_else(self):
        (self.folder / "out.dbf").write_text("a table of somebody")
        self.refused("out.dbf is there without out.shp", self.place(overwrite=True))

    def test_a_link_is_not_followed_nor_replaced(self):
        other = self.folder / "other"
        other.write_text("precious")
        (self.folder / "out.shp").symlink_to(other)
        self.refused("out.shp is a link: name what it leads to", self.place(overwrite=True))
        self.assertTrue((self.folder / "out.shp").is_symlink())
        other.unlink()
        self.refused("out.shp is a link", self.place(overwrite=True))

    def test_a_folder_with_anything_else(self):
        folder = self.folder / "maps"
        place = Place(str(self.folder), ["maps"], frozenset("a"), overwrite=True)
        for name, made in (
            ("notes.txt", lambda path: path.write_text("x")),
            ("thesis", lambda path: path.mkdir()),
            ("a", lambda path: path.symlink_to("/etc/passwd")),
            ("a", lambda path: path.mkdir()),
        ):
            self.afresh()
            folder.mkdir()
            made(folder / name)
            self.refused(f"{name} is there, and no file of this export", place, "a")

    def test_what_comes_meanwhile_is_kept(self):
        place = Place(str(self.folder), ["maps"], frozenset("a"), overwrite=True)
        self.put("old", place, "a")
        with self.assertRaisesRegex(ExchangeError, "notes.txt is there"):
            with placed(place, self.said.append) as new:
                os.mkdir(os.path.join(new, "maps"))
                (self.folder / "maps" / "notes.txt").write_text("x")
        self.assertEqual(self.there(), {"maps/a": "old", "maps/notes.txt": "x"})

    def test_two_at_once(self):
        with placed(self.place(), self.said.append):
            self.refused("another export to .*out.shp is under way", self.place())

    @staticmethod
    def room(folder):
        room = folder / ".out.shp.sfstore-abc"
        (room / "old").mkdir(parents=True)
        (room / "new").mkdir()
        (room / "new" / "out.shp").write_text("of somebody else")
        return room

    def test_a_room_of_another_user_is_left_alone(self):
        room = self.room(self.folder)
        with mock.patch.object(os, "geteuid", lambda: os.getuid() + 1):
            self.put("new", self.place(), ["out.shp"])
        self.assertTrue(room.is_dir())
        self.assertEqual(self.there(), {"out.shp": "new"})

    def test_a_room_that_is_a_link_is_left_alone(self):
        other = self.folder / "other"
        other.mkdir()
        self.room(other).rename(other / "room")
        (self.folder / ".out.shp.sfstore-abc").symlink_to(other / "room")
        self.put("new", self.place(), ["out.shp"])
        self.assertEqual(self.there()["out.shp"], "new")
        self.assertEqual(self.there()["other/room/new/out.shp"], "of somebody else")


class Modes(PlacingCase):
    def mode(self, name):
        return stat.S_IMODE((self.folder / name).stat().st_mode)

    def test_no_more_than_the_store_gives(self):
        self.put("new", self.place(mode=0o600), ["out.shp"])
        self.assertEqual(self.mode("out.shp"), 0o600)

    def test_that_of_the_old_file_is_kept(self):
        self.put("old", self.place(), ["out.shp"])
        (self.folder / "out.shp").chmod(0o640)
        self.put("new", self.place(overwrite=True), ["out.shp"])
        self.assertEqual(self.mode("out.shp"), 0o640)

    def test_others_can_not_look_into_the_room(self):
        with placed(self.place(), self.said.append) as new:
            self.assertEqual(stat.S_IMODE(os.stat(os.path.dirname(new)).st_mode), 0o700)


class Rooms(PlacingCase):
    def test_a_room_that_a_killed_process_left_is_taken_away(self):
        path = str(self.folder / "town.sfs")
        child = os.fork()
        if child == 0:
            with placing.room_beside(path) as room:
                Path(room, "draft").write_text("x")
                os._exit(9)
        os.waitpid(child, 0)
        self.assertEqual(len(self.hidden()), 1)
        with placing.room_beside(path) as room:
            self.assertEqual(self.hidden(), [os.path.basename(room)])
        self.assertEqual(self.hidden(), [])

    def test_a_room_has_a_name_that_nobody_can_take_before(self):
        path, rooms = str(self.folder / "town.sfs"), set()
        for _ in range(3):
            with placing.room_beside(path) as room:
                rooms.add(room)
            # What a stranger puts there is neither entered nor taken away.
            os.symlink("/etc", room)
        self.assertEqual((len(rooms), len(self.hidden())), (3, 3))

    def test_an_interrupt_waits_for_nothing_and_breaks_nothing(self):
        with placing.uninterrupted():
            os.kill(os.getpid(), signal.SIGINT)
        with self.assertRaises(KeyboardInterrupt):
            os.kill(os.getpid(), signal.SIGINT)
            time.sleep(10)


if __name__ == "__main__":
    unittest.main()
