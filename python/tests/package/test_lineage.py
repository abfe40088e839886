"""Which store is open: what goes on from a point, and what is another store."""

from __future__ import annotations

import shutil
import tempfile
import unittest
from pathlib import Path

from support import PROGRAM

from sfstore import Store
from sfstore.web.lineage import Known, Lineage, goes_on, point_of


class LineageCase(unittest.TestCase):
    """A store in a folder of its own."""

    def setUp(self) -> None:
        folder = tempfile.TemporaryDirectory()
        self.addCleanup(folder.cleanup)
        self.path = Path(folder.name) / "town.sfs"
        self.journal = Path(f"{self.path}.journal")

    def edit(self, *lines: str, is_saved: bool = False) -> str:
        """Edits the store in a session of its own. The point behind it."""
        store = Store(self.path, journal=True, program=PROGRAM)
        for line in lines:
            store.run(line)
        store.close(save=is_saved)
        return point_of(str(self.path))

    def goes_on(self, point: str) -> bool:
        return goes_on(str(self.path), point)


class Points(LineageCase):
    """What a journal goes on from."""

    def test_a_store_goes_on_from_all_that_it_had(self) -> None:
        points = [self.edit(), self.edit("layer add wells point"), self.edit("add wells POINT (3 4)", "undo")]
        self.assertEqual([*map(self.goes_on, points)], [True] * 3)
        self.assertEqual(len(set(points)), 3)

    def test_not_behind_a_save_nor_a_backup_from_before(self) -> None:
        first = self.edit("layer add wells point", is_saved=True)
        backup = self.path.read_bytes()
        second = self.edit("add wells POINT (3 4)", is_saved=True)
        self.assertEqual([self.goes_on(first), self.goes_on(second)], [False, True])
        self.path.write_bytes(backup)
        self.journal.unlink()
        self.edit()
        self.assertEqual([self.goes_on(first), self.goes_on(second)], [True, False])

    def test_a_backup_of_the_journal_has_not_what_came_behind_it(self) -> None:
        first = self.edit("layer add wells point")
        backup = self.journal.read_bytes()
        second = self.edit("add wells POINT (3 4)")
        self.journal.write_bytes(backup)
        self.assertEqual([self.goes_on(first), self.goes_on(second)], [True, False])
        # As long as it was, with another feature.
        self.edit("add wells POINT (5 6)")
        self.assertEqual([self.goes_on(first), self.goes_on(second)], [True, False])
        self.edit("add wells POINT (7 8)")
        self.assertFalse(self.goes_on(second))

    def test_copies_of_one_file_are_others_once_they_are_edited(self) -> None:
        self.edit("layer add wells point", is_saved=True)
        template = self.path.with_name("template.sfs")
        shutil.copy(self.path, template)
        edited = self.edit("add wells POINT (3 4)")
        shutil.copy(template, self.path)
        self.journal.unlink()
        self.edit("add wells POINT (5 6)", "add wells POINT (7 8)")
        self.assertFalse(self.goes_on(edited))

    def test_stores_that_were_never_saved(self) -> None:
        point = self.edit("layer add wells point")
        self.journal.unlink()
        self.edit("layer add trees point", "layer add roads linestring")
        self.assertFalse(self.goes_on(point))

    def test_records_that_are_longer_than_what_is_read_at_once(self) -> None:
        self.edit("layer add wells point")
        point = self.edit("\r".join(["together 20000", *["add wells POINT (3 4)"] * 20000]))
        self.assertGreater(self.journal.stat().st_size, 300_000)
        self.edit("undo")
        self.assertTrue(self.goes_on(point))

    def test_what_is_no_point_of_a_journal(self) -> None:
        point = self.edit("layer add wells point")
        place, digits, head = point.split()
        wrong = ["", " ", f"{int(place) - 1} {digits} {head}", f"{int(place) + 1} {digits} {head}", f"0 {digits} {head}", f"{place} {digits}", f"{place}  {head}", point + "\n", "9" * 400]
        self.assertEqual([*map(self.goes_on, wrong)], [False] * len(wrong))
        self.journal.unlink()
        self.assertFalse(self.goes_on(point))
        self.assertEqual(point_of(str(self.path)), "")

    def test_a_journal_without_records_may_come_anew(self) -> None:
        point = self.edit("layer add wells point", is_saved=True)
        self.journal.unlink()
        self.edit()
        self.assertTrue(self.goes_on(point))


class Numbers(LineageCase):
    """What is told of a store by its numbers."""

    def test_a_number_is_kept_as_long_as_the_store_goes_on(self) -> None:
        self.edit("layer add wells point")
        lineage = Lineage(str(self.path))
        lineage.opened()
        numbers = [lineage.number]
        self.edit("add wells POINT (3 4)")
        lineage.opened()
        self.assertEqual([lineage.number], numbers)
        backup = self.path.with_name("backup")
        shutil.copy(self.journal, backup)
        self.edit("add wells POINT (5 6)")
        lineage.moved()
        # There and back: no number comes again.
        newest = self.journal.read_bytes()
        for content in (backup.read_bytes(), newest, backup.read_bytes()):
            self.journal.write_bytes(content)
            lineage.opened()
            numbers.append(lineage.number)
        # The newest one has all that the backup had.
        self.assertEqual([*map(numbers.index, numbers)], [0, 1, 1, 3])

    def test_servers_give_numbers_of_their_own(self) -> None:
        self.edit("layer add wells point")
        one, other = Lineage(str(self.path)), Lineage(str(self.path))
        one.opened()
        other.opened()
        self.assertNotEqual(one.number, other.number)

    def test_who_asks_goes_on_with_the_same_store_alone(self) -> None:
        known = Known()
        self.assertTrue(known.take({"store": 1, "point": "a", "goes_on": False}))
        self.assertTrue(known.take({"store": 2, "point": "b", "goes_on": True}))
        known.hear({"store": 2, "point": "c"})
        known.hear({"styled": None})
        # Of a store that took its place, and of an earlier server.
        known.hear({"store": 3, "point": "d"})
        known.hear({"store": 1, "point": "a"})
        self.assertEqual(known.named, {"known": "c"})
        self.assertEqual([known.is_same(number) for number in (1, 2, 3)], [True, True, False])
        self.assertFalse(known.take({"store": 3, "point": "d", "goes_on": False}))
        self.assertEqual([known.is_same(number) for number in (1, 2, 3)], [False, False, True])
        # The first one again: what was meant for it meanwhile was given up.
        self.assertFalse(known.take({"store": 1, "point": "a", "goes_on": False}))


if __name__ == "__main__":
    unittest.main()
