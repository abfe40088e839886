"""Tests of features on their way from a source to a store, which stand in a file, and of what an import of many holds in memory."""

from __future__ import annotations

import contextlib
import datetime
import errno
import gc
import io
import os
import random
import tempfile
import tracemalloc
import unittest
import unittest.mock
from decimal import Decimal
from pathlib import Path

from support import PROGRAM

from sfstore import storefile
from sfstore.exchange.spool import Features, are_distinct, changed
from sfstore.geometry import Shape, write_wkb
from sfstore.storefile import FileColumn, FileFeature, FileLayer
from test_exchange import HAS_GDAL

TYPES = {1: storefile.INT, 2: storefile.TEXT, 3: storefile.DECIMAL, 4: storefile.BOOL, 5: storefile.DATE, 6: storefile.DATETIME}


def value(chance, kind):
    """A value of a type."""
    if kind == storefile.INT:
        return chance.randrange(-(2**63), 2**63)
    if kind == storefile.TEXT:
        return "".join(chance.choices("a'ß\n\N{GREEK SMALL LETTER ALPHA}", k=chance.choice([0, 1, 5, 300])))
    if kind == storefile.DECIMAL:
        return Decimal(chance.randrange(-(10**9), 10**9)).scaleb(-chance.randrange(9))
    if kind == storefile.BOOL:
        return chance.random() < 0.5
    moment = datetime.datetime(chance.randrange(1, 9999), chance.randrange(1, 13), 3, 4, 5, 6, 7_000, datetime.timezone.utc)
    return moment.date() if kind == storefile.DATE else moment


def feature(chance, identifier):
    ring = [chance.randrange(-(2**30), 2**30) for _ in range(2 * chance.choice([3, 4, 400]))]
    known = {number: value(chance, kind) for number, kind in TYPES.items() if chance.random() < 0.7}
    return FileFeature(identifier, write_wkb(Shape(3, [[ring + ring[:2]]])), known)


class OnTheirWay(unittest.TestCase):
    """Features are those that were added, whatever is done with them."""

    def setUp(self):
        chance = random.Random(1)
        numbers = [-5, 2**40, 0, *range(1, 300), 7]
        self.wanted = [feature(chance, number) for number in numbers]
        self.found = Features("", TYPES)
        for each in self.wanted:
            self.found.append(each)

    def test_all_are_there_in_their_order(self):
        self.assertEqual(list(self.found), self.wanted)
        self.assertEqual(len(self.found), len(self.wanted))
        self.assertEqual(list(self.found.ids), [each.id for each in self.wanted])
        for at in (0, 3, -1, 299):
            self.assertEqual(self.found[at], self.wanted[at])
        self.assertEqual(self.found[5:100:7], self.wanted[5:100:7])

    def test_some_are_added_behind_a_look(self):
        chance = random.Random(2)
        for number in range(1_000, 1_050):
            self.wanted.append(feature(chance, number))
            self.found.append(self.wanted[-1])
            at = chance.randrange(len(self.wanted))
            self.assertEqual(self.found[at], self.wanted[at])
        self.assertEqual(list(self.found), self.wanted)

    def test_other_numbers_put_them_into_their_order(self):
        numbers = list(range(1, len(self.wanted) + 1))
        random.Random(3).shuffle(numbers)
        for each in (numbers, sorted(numbers)):
            pairs = sorted(zip(each, self.wanted), key=lambda pair: pair[0])
            self.assertEqual(list(self.found.numbered(each)), [one._replace(id=number) for number, one in pairs])
        self.assertEqual(list(self.found), self.wanted)

    def test_a_change_of_each(self):
        types = {**TYPES, 7: storefile.INT}
        change = lambda each: each._replace(values={**each.values, 7: each.id})
        wanted = list(map(change, self.wanted))
        self.assertEqual(list(self.found.changed(change, types)), wanted)
        self.assertEqual(list(changed(self.found, change, types)), wanted)
        self.assertEqual(changed(self.wanted, change, types), wanted)

    def test_a_file_has_the_same_bytes(self):
        numbers = list(range(1, len(self.wanted) + 1))
        random.Random(4).shuffle(numbers)
        columns = [FileColumn(number, kind, f"c{number}") for number, kind in TYPES.items()]
        files = []
        renumbered = sorted((one._replace(id=number) for number, one in zip(numbers, self.wanted)), key=lambda one: one.id)
        for features in (self.found.numbered(numbers), renumbered):
            file = io.BytesIO()
            storefile.write(file, [FileLayer("w", 0, 1_000, 7, columns, features), FileLayer("v", 1, 1, 1)])
            files.append(file.getvalue())
        self.assertEqual(*files)
        self.assertEqual(storefile.read(files[0])[0].features, renumbered)

    def test_an_identifier_that_no_store_has_is_not_written(self):
        with self.assertRaises(OverflowError):
            list(self.found.records())

    def test_the_folder_is_as_it_was(self):
        with tempfile.TemporaryDirectory() as folder:
            there = Features(folder, TYPES)
            there.append(self.wanted[0])
            self.assertEqual(os.listdir(folder), [])
        with self.assertRaises(OSError):
            Features(os.path.join(folder, "gone"), TYPES)

    def test_a_fault_names_the_folder(self):
        with self.assertRaises(FileNotFoundError) as raised:
            Features("/nowhere/at/all", TYPES)
        self.assertEqual(raised.exception.filename, "/nowhere/at/all")
        features = Features("", TYPES)
        full = OSError(errno.ENOSPC, os.strerror(errno.ENOSPC))
        with unittest.mock.patch.object(features._file, "bytes") as file:
            file.write.side_effect = full
            with self.assertRaises(OSError) as raised:
                features.append(self.wanted[0])
        self.assertEqual((raised.exception.errno, raised.exception.filename), (errno.ENOSPC, "."))

    def test_numbers_that_stand_twice(self):
        self.assertTrue(are_distinct([]))
        self.assertTrue(are_distinct([1, 2, 5]))
        self.assertTrue(are_distinct([5, 2, 1]))
        self.assertFalse(are_distinct([1, 2, 2]))
        self.assertFalse(are_distinct([2, 1, 2]))


@unittest.skipUnless(HAS_GDAL, "GDAL for Python is missing")
class Memory(unittest.TestCase):
    """What an import holds does not grow with the features of its source."""

    # How many bytes each feature may take: it was some thousand. A file's own buffer is not counted with them.
    EACH = 120
    COUNTS = (1_000, 4_000)

    def source(self, folder, count):
        """A GeoJSON of parcels with three columns."""
        path = Path(folder) / f"{count}.geojson"
        with path.open("w") as file:
            file.write('{"type": "FeatureCollection", "features": [')
            for at in range(count):
                ring = [[at, 0], [at + 1, 0.25], [at + 1, 9], [at, 9], [at, 0]]
                properties = f'{{"number": {at}, "owner": "owner {at}", "area": {at}.25}}'
                geometry = f'{{"type": "Polygon", "coordinates": [{ring}]}}'
                file.write(f'{"," if at else ""}\n{{"type": "Feature", "id": {at + 1}, "properties": {properties}, "geometry": {geometry}}}')
            file.write("]}")
        return path

    def held(self, folder, count):
        """How many bytes stand in memory when all features are read."""
        from sfstore.exchange import importing, ogr

        found = []

        def publish(*given):
            gc.collect()
            found.append(tracemalloc.get_traced_memory()[0])
            raise ogr.ExchangeError("enough")

        words = [str(self.source(folder, count)), f"{folder}/{count}.sfs", "--grid", "0", "0", "0.01", "--program", PROGRAM]
        told = io.StringIO()
        tracemalloc.start()
        try:
            with unittest.mock.patch.object(importing, "publish", publish), contextlib.redirect_stderr(told):
                importing.main(words)
        finally:
            tracemalloc.stop()
        self.assertIn("enough", told.getvalue())
        return found[0]

    def test_many_parcels(self):
        with tempfile.TemporaryDirectory() as folder:
            # Modules are there, and what they keep for later, before anything is counted.
            self.held(folder, 10)
            few, many = (self.held(folder, count) for count in self.COUNTS)
        self.assertLess((many - few) / (self.COUNTS[1] - self.COUNTS[0]), self.EACH)


if __name__ == "__main__":
    unittest.main()
