"""Values of each type of column go through each format and come back as they were, or it was said what is lost."""

from __future__ import annotations

import datetime
import random
import unittest
from decimal import Decimal

from support import PROGRAM
from test_exchange import GRID, HAS_GDAL, ExchangeCase, bring_in, give_back
from test_exchange_postgis import HAS_SERVER, DatabaseCase

from sfstore import Store

FILES = {"GPKG": "back.gpkg", "GeoJSON": "back.geojson", "FlatGeobuf": "back.fgb", "ESRI Shapefile": "back.shp"}
COLUMNS = {"n": "int", "s": "text", "a": "decimal", "b": "bool", "d": "date", "t": "datetime"}
UTC = datetime.timezone.utc
FIRST, LAST = datetime.date(1, 1, 1), datetime.date(9999, 12, 31)
# What a format has in the place of a type, where it has none of its own.
AS_TEXT = {"GPKG": "", "GeoJSON": "dt", "FlatGeobuf": "d", "ESRI Shapefile": "t", "PostgreSQL": ""}


def decimal(chosen, digits):
    """A number with so many digits at most, as a double has them, and 9 of them behind the point at most."""
    return Decimal(chosen.randrange(-(10**digits), 10**digits)).scaleb(-chosen.randrange(10))


def row(chosen, digits=15):
    """Values of a feature, some of them missing."""
    days = (LAST - FIRST).days
    day = FIRST + datetime.timedelta(days=chosen.randrange(days))
    moment = datetime.datetime(1800, 1, 1, tzinfo=UTC) + datetime.timedelta(milliseconds=chosen.randrange(10**13))
    known = {
        "n": chosen.randrange(-(10**9), 10**9),
        "s": "".join(chosen.choice("aé'\\ \"ß,;") for _ in range(chosen.randrange(1, 40))).strip() or "x",
        "a": decimal(chosen, digits),
        "b": chosen.random() < 0.5,
        "d": day,
        "t": moment,
    }
    return {name: value for name, value in known.items() if chosen.random() < 0.9}


class KindsCase(ExchangeCase):
    def make(self, rows):
        with Store(PROGRAM, save=self.store) as store:
            store.add_layer("w", "point")
            for name, kind in COLUMNS.items():
                store.add_column("w", name, kind)
            for number, known in enumerate(rows, 1):
                store.add("w", f"POINT ({number} {number})")
                for name, value in known.items():
                    store.set("w", number, name, value)

    def given(self, target):
        """Gives the store back, and what was said."""
        self.store.with_name(self.store.name + ".json").unlink(missing_ok=True)
        status, out, err = give_back(self.store, target, *GRID, "--crs", "EPSG:25832", "--overwrite")
        self.assertEqual((status, out), (0, ""), err)
        return err

    def compare(self, name, rows, again):
        """Compares what came back with rows. A column in which no feature had a value need not be there."""
        with Store(PROGRAM, load=again) as store:
            [layer] = store.layers()
            found = [feature.values for feature in store.show(layer.name)]
        for known, there in zip(rows, found):
            wanted = {column: self.text_of(value) if column in AS_TEXT[name] else value for column, value in known.items()}
            self.assertEqual(there, wanted, name)
        self.assertEqual(len(found), len(rows))

    @staticmethod
    def text_of(value):
        if isinstance(value, datetime.datetime):
            return value.isoformat(timespec="milliseconds").replace("+00:00", "Z").replace(".000Z", "Z")
        return value.isoformat()


@unittest.skipUnless(HAS_GDAL, "no GDAL")
class Files(KindsCase):
    def test_random_values_come_back(self):
        for seed in range(4):
            chosen = random.Random(seed)
            rows = [row(chosen) for _ in range(60)]
            self.make(rows)
            for name, file in FILES.items():
                with self.subTest(name, seed=seed):
                    target, again = self.folder / file, self.folder / "again.sfs"
                    self.assertNotIn("digits", self.given(target))
                    status, out, err = bring_in(target, again, *GRID, "--overwrite")
                    self.assertEqual((status, err), (0, ""), out)
                    self.compare(name, rows, again)

    def test_each_limit_comes_back_byte_for_byte(self):
        """A GeoPackage has doubles for decimals, so the limits of digits are not among these."""
        limits = [
            {"n": 2**63 - 1, "s": "x" * 65_535, "a": Decimal("0.000000000000000001"), "b": True, "d": FIRST},
            {"n": -(2**63), "s": "", "a": Decimal(-(2**63)), "b": False, "d": LAST},
            {"a": Decimal("-0.1"), "t": datetime.datetime(1, 1, 1, tzinfo=UTC)},
            {"a": Decimal(0), "t": datetime.datetime(9999, 12, 31, 23, 59, 59, 999000, tzinfo=UTC)},
        ]
        self.make(limits)
        target, again = self.folder / "back.gpkg", self.folder / "again.sfs"
        self.assertEqual(self.given(target), "")
        self.assertEqual(bring_in(target, again), (0, "w: 4 features read, 4 taken\n", ""))
        self.assertEqual(again.read_bytes(), self.store.read_bytes())

    def test_digits_that_no_double_has(self):
        digits = Decimal("922337203685477580.7")
        self.make([{"a": digits}])
        for name, file in FILES.items():
            target, again = self.folder / file, self.folder / "again.sfs"
            err = self.given(target)
            if name == "GeoJSON":
                self.assertNotIn("digits", err)
                self.assertIn('"a": 922337203685477580.7', target.read_text())
                self.assertEqual(bring_in(target, again, *GRID)[0], 0)
                self.compare(name, [{"a": digits}], again)
            elif name == "ESRI Shapefile":
                # It has no room for such a number, and gets its text.
                self.assertIn("does not keep the type Real of column a of w", err)
            else:
                self.assertIn(f"{name} does not keep digits of column a of w that no double has, as those of {digits}", err)


@unittest.skipUnless(HAS_GDAL and HAS_SERVER, "no GDAL, or no PostgreSQL with psycopg2")
class OfPostGis(DatabaseCase, KindsCase):
    def test_random_values_come_back_with_all_their_digits(self):
        chosen = random.Random(9)
        rows = [row(chosen, 18) for _ in range(60)]
        rows[0]["a"], rows[1]["a"] = Decimal("922337203685477580.7"), Decimal("-0.000000000000000001")
        self.make(rows)
        self.given(self.target)
        types = dict(self.ask("SELECT column_name, data_type FROM information_schema.columns WHERE table_name = 'w'"))
        self.assertEqual(
            [types[name] for name in "abdt"], ["numeric", "boolean", "date", "timestamp with time zone"]
        )
        again = self.folder / "again.sfs"
        status, out, err = bring_in(self.target, again, *GRID)
        self.assertEqual((status, err), (0, ""), out)
        self.compare("PostgreSQL", rows, again)


del DatabaseCase, ExchangeCase, KindsCase

if __name__ == "__main__":
    unittest.main()
