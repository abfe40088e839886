"""Tests of what lies far off the map: where the surroundings of a map end, and of what a store warns."""

from __future__ import annotations

import random
import struct
import unittest
import warnings
from unittest import mock

from support import PROGRAM, TestCase

from sfstore import FarOffTheMap, Store, files, sidecar
from sfstore.extents import extent_of
from sfstore.language import GRID_MAX, GRID_MIN
from sfstore.surroundings import Surroundings

# A map of 1,000 by 200 steps: its surroundings are ten times as wide, and 100,000 steps besides.
EXTENT = (0, 0, 1_000, 200)
LEFT, RIGHT, BOTTOM, TOP = -110_000, 111_000, -110_000, 110_200


def beyond(line, extent=EXTENT):
    """The first point of a line that lies far off a map, by surroundings that know of nothing yet."""
    return Surroundings().point_beyond(line, lambda: extent)


class Ends(unittest.TestCase):
    def test_where_they_end(self):
        for x, y in ((LEFT, BOTTOM), (RIGHT, TOP), (LEFT, TOP), (0, 0)):
            self.assertIsNone(beyond(f"add w POINT ({x} {y})"))
        for x, y in ((LEFT - 1, 0), (RIGHT + 1, 0), (0, BOTTOM - 1), (0, TOP + 1), (GRID_MAX, GRID_MIN)):
            self.assertEqual(beyond(f"add w POINT ({x} {y})"), (x, y))

    def test_each_edit_that_brings_coordinates(self):
        binary = struct.pack("<BI2d", 1, 1, 999_999.0, 5.0).hex()
        for line in (
            "add p POLYGON ((0 0, 9 0, 999999 5, 0 0))",
            "add p MULTIPOLYGON (((0 0, 9 0, 9 9, 0 0)), ((5 5, 999999 5, 6 6, 5 5)))",
            "add p MULTIPOINT (1 1, 999999 5)",
            "@7  replace p 3 LINESTRING (0 0, 999999.00 +5)",
            "vertex insert p 3 0 0 1 999999 5",
            "vertex move p 3 0 0 1 999999.0 5.",
            f"addhex p {binary}",
            "together 2\rset p 1 name '1234567'\radd p POINT (999999 5)",
            f"@2 together 2\rdelete p 1\raddhex p {binary}",
        ):
            self.assertEqual(beyond(line), (999_999, 5), line)

    def test_what_brings_none(self):
        for line in (
            "query p within POLYGON ((0 0, 999999 0, 999999 999999, 0 0))",
            "set p 1 number 999999",
            "vertex remove p 3 0 0 999999",
            "delete p 999999",
            "check p POINT (999999 5)",
            "undo",
            "",
        ):
            self.assertIsNone(beyond(line), line)

    def test_of_what_can_not_be_read_the_store_says_what_is_wrong(self):
        for line in ("add p POINT (999999)", "add p", "add p POINT (999999 x)", "addhex p 99zz", "vertex move p 1 0 0 999999", "add p POINT ()"):
            self.assertIsNone(beyond(line), line)

    def test_around_an_empty_map_all_is_near(self):
        self.assertIsNone(beyond(f"add w POINT ({GRID_MAX} {GRID_MAX})", None))

    def test_a_map_that_has_grown_or_gone_is_asked_about_anew(self):
        asked, far = [], "add w POINT (999999 5)"
        surroundings = Surroundings()

        def extent():
            asked.append(known[0])
            return known[0]

        for box, point in ((EXTENT, (999_999, 5)), ((0, 0, 999_999, 200), None), (None, None)):
            known = [box]
            self.assertEqual(surroundings.point_beyond(far, extent), point)
        # What lies near is not asked about.
        surroundings = Surroundings()
        known, asked = [EXTENT], []
        for _ in range(3):
            surroundings.point_beyond("add w POINT (1 1)", extent)
        self.assertEqual(asked, [EXTENT])

    def test_wherever_the_map_lies(self):
        """Numbers are not read where their digits say that they are near."""
        chance = random.Random(5)
        for _ in range(3_000):
            left, bottom = (chance.choice((-1, 1)) * chance.randrange(10 ** chance.randrange(1, 8)) for _ in "xy")
            extent = left, bottom, left + chance.randrange(1, 3_000), bottom + chance.randrange(1, 3_000)
            surroundings = Surroundings()
            surroundings.point_beyond("add w POINT (0 0)", lambda extent=extent: extent)
            far = 10 * max(extent[2] - left, extent[3] - bottom) + 100_000
            x, y = (chance.choice((-1, 1)) * chance.randrange(10 ** chance.randrange(1, 9)) for _ in "xy")
            is_near = left - far <= x <= extent[2] + far and bottom - far <= y <= extent[3] + far
            found = surroundings.point_beyond(f"add w POINT ({x} {y})", lambda extent=extent: extent)
            self.assertEqual(found, None if is_near else (x, y), (extent, x, y))


class Warned(TestCase):
    """A store whose file has a grid beside it."""

    def setUp(self):
        super().setUp()
        self.path = self.folder / "town.sfs"
        with Store(PROGRAM, save=self.path) as store:
            store.run_all(["layer add w any", "add w POINT (4500 1500)", "add w POINT (15500 10000)"])

    def bring_grid(self):
        sidecar.write(str(self.path), sidecar.Sidecar(("500000", "5600000", "0.01"), None, []), [files.digest(str(self.path))])

    def told(self, job, **words):
        """Of what a store warns while something is done with it."""
        with warnings.catch_warnings(record=True) as told, Store(self.path, journal=True, program=PROGRAM, **words) as store:
            warnings.simplefilter("always")
            job(store)
        return [(each.category, str(each.message), each.filename) for each in told]

    def test_each_call_that_brings_coordinates(self):
        self.bring_grid()
        far = "POINT (500045 5600015)"

        def grouped(store):
            with store.together() as group:
                group.add("w", far)

        for job in (
            lambda store: store.add("w", far),
            lambda store: store.add("w", struct.pack("<BI2d", 1, 1, 500045.0, 5600015.0)),
            lambda store: store.replace("w", 1, far),
            lambda store: store.vertex_move("w", 1, 0, 0, 0, 500045, 5600015),
            lambda store: store.editor(2).add("w", far),
            lambda store: store.run(f"add w {far}"),
            lambda store: store.run_all([f"add w {far}"]),
            grouped,
        ):
            before = self.path.read_bytes()
            self.assertEqual(self.told(job), [(FarOffTheMap, "(500045 5600015) lies far off the map, in steps of its grid", __file__)])
            # It is a warning, and the edit is made.
            self.assertNotEqual(self.path.read_bytes(), before)
            self.path.write_bytes(before)
            self.bring_grid()

    def test_what_lies_near_is_not_warned_of(self):
        self.bring_grid()
        self.assertEqual(self.told(lambda store: store.add("w", store.grid.steps("POINT (500945 5600015)"))), [])
        self.assertEqual(self.told(lambda store: store.query("w", "within", "POLYGON ((-9 0, 9999999 0, 9999999 9999999, -9 0))")), [])

    def test_who_wants_no_warning(self):
        self.bring_grid()
        self.assertEqual(self.told(lambda store: store.add("w", "POINT (0 9999999)"), warn_far_off=False), [])

    def test_a_store_without_a_grid_counts_in_steps_of_its_own(self):
        self.assertEqual(self.told(lambda store: store.add("w", "POINT (0 9999999)")), [])

    def test_as_an_error_it_stops_the_edit(self):
        self.bring_grid()
        with warnings.catch_warnings(), Store(load=self.path, program=PROGRAM) as store:
            warnings.simplefilter("error", FarOffTheMap)
            before = store.show("w")
            with self.assertRaises(FarOffTheMap):
                store.add("w", "POINT (0 9999999)")
            with self.assertRaises(FarOffTheMap):
                store.run_all(["delete w 1", "add w POINT (0 9999999)"])
            with self.assertRaises(FarOffTheMap), store.together() as group:
                group.delete("w", 1)
                group.add("w", "POINT (0 9999999)")
            self.assertEqual(store.show("w"), before)

    def test_in_a_group_the_map_is_what_it_was_before(self):
        self.bring_grid()

        def grouped(store):
            with store.together() as group:
                group.add("w", "POINT (100000 0)")
                group.add("w", "POINT (900000 0)")

        self.assertEqual([words for _, words, _ in self.told(grouped)], ["(900000 0) lies far off the map, in steps of its grid"])

    def test_of_very_many_layers_the_first_one_is_looked_at_with_few_questions(self):
        layers = 3_000
        with Store(PROGRAM, save=self.path) as store:
            store.run_all(line for k in range(layers) for line in (f"layer add l{k} point", f"add l{k} POINT ({k} {-k})"))
        self.bring_grid()
        with Store(self.path, journal=True, program=PROGRAM) as store:
            counts, whole = [], store._program.exchange
            with mock.patch.object(store._program, "exchange", lambda lines: counts.append(len(lines)) or whole(lines)):
                store.add("l7", "POINT (5 5)")
            # All layers at a time, and a few lines of each.
            self.assertLess(len(counts), 100)
            self.assertLess(sum(counts), 10 * layers)
            self.assertEqual(extent_of(store), (0, 1 - layers, layers - 1, 5))


class Extents(unittest.TestCase):
    def test_they_are_those_of_all_features(self):
        draw = random.Random(7)
        for _ in range(20):
            with Store(PROGRAM) as store:
                points = []
                for layer in range(draw.choice((0, 1, 3, 200))):
                    store.add_layer(f"l{layer}")
                    reach = draw.choice((1, 1_000, GRID_MAX))
                    made = [(draw.randint(-reach, reach), draw.randint(-reach, reach)) for _ in range(draw.choice((0, 1, 5, 40)))]
                    store.run_all(f"add l{layer} POINT ({x} {y})" for x, y in made)
                    gone = {k for k in range(len(made)) if draw.random() < 0.5}
                    store.run_all(f"delete l{layer} {k + 1}" for k in gone)
                    points += [point for k, point in enumerate(made) if k not in gone]
                box = (*map(min, zip(*points)), *map(max, zip(*points))) if points else None
                self.assertEqual(extent_of(store), box)


if __name__ == "__main__":
    unittest.main()
