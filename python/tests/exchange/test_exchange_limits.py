"""A GeoPackage with each type of value at each of its limits: in, out, and in again, byte for byte."""

from __future__ import annotations

import os
import sqlite3
import unittest
from pathlib import Path
from typing import Any

from support import PROGRAM

from test_exchange import GRID, HAS_GDAL, ExchangeCase, bring_in, give_back

from sfstore import Store, files
from sfstore.language import INT_MAX, INT_MIN, TEXT_MAX

# Of each type of a GeoPackage: the type of the store's column, what a row of the GeoPackage has, and how the store shows it.
LIMITS: dict[str, tuple[str, list[tuple[Any, str]]]] = {
    "MEDIUMINT": ("int", [(-(2**31), "-2147483648"), (2**31 - 1, "2147483647"), (0, "0")]),
    "INTEGER": ("int", [(INT_MIN, str(INT_MIN)), (INT_MAX, str(INT_MAX)), (-1, "-1")]),
    "REAL": (
        "decimal",
        [
            (-(2.0**63), "-9223372036854775808"),
            (2.0**63 - 1024, "9223372036854774784"),
            (1e-18, "0.000000000000000001"),
            (-9.5e-17, "-0.000000000000000095"),
            (0.1 + 0.2, "0.30000000000000004"),
            (812.5, "812.5"),
            (2.0**53, "9007199254740992"),
            (0.0, "0"),
        ],
    ),
    "TEXT": (
        "text",
        [("", "''"), ("it's", "'it''s'"), ("日" * (TEXT_MAX // 3), f"'{'日' * (TEXT_MAX // 3)}'"), ("'" * TEXT_MAX, "'" * (2 * TEXT_MAX + 2))],
    ),
    "BOOLEAN": ("bool", [(0, "false"), (1, "true")]),
    "DATE": ("date", [(day, day) for day in ("0001-01-01", "9999-12-31", "2024-02-29", "1900-02-28")]),
    "DATETIME": (
        "datetime",
        [(time, time) for time in ("0001-01-01T00:00:00.000Z", "9999-12-31T23:59:59.999Z", "2024-02-29T12:30:00.005Z")],
    ),
}
ROWS = max(len(values) for _, values in LIMITS.values())


def rows_of(path: Path) -> list[tuple[Any, ...]]:
    """The rows of the table `w`, as SQLite has them."""
    with sqlite3.connect(path) as database:
        return database.execute(f"SELECT {', '.join(LIMITS)} FROM w ORDER BY fid").fetchall()


@unittest.skipUnless(HAS_GDAL, "GDAL's module for Python is not here")
class Limits(ExchangeCase):
    def setUp(self) -> None:
        super().setUp()
        # Columns of these names, with a NULL where a type has fewer values than others.
        self.points({number: ("POINT (500000 5600000)", {}) for number in range(1, ROWS + 1)}, name="w", columns=[])
        with sqlite3.connect(self.source) as database:
            # The triggers of a GeoPackage call functions that this library lacks.
            for [name] in database.execute("SELECT name FROM sqlite_master WHERE type = 'trigger'").fetchall():
                database.execute(f'DROP TRIGGER "{name}"')
            for kind, (_, values) in LIMITS.items():
                database.execute(f"ALTER TABLE w ADD COLUMN {kind} {kind}")
                for number, (given, _) in enumerate(values, 1):
                    database.execute(f"UPDATE w SET {kind} = ? WHERE fid = ?", (given, number))

    def test_each_value_comes_in_goes_out_and_comes_in_again(self) -> None:
        self.assertEqual(bring_in(self.source, self.store, *GRID)[::2], (0, ""))
        with Store(PROGRAM, load=self.store) as store:
            self.assertEqual(store.run("columns w"), [f"{kind} {column_type}" for kind, (column_type, _) in LIMITS.items()])
            for number, row in enumerate(store.run("show w")):
                texts = [f"{kind}={values[number][1]}" for kind, (_, values) in LIMITS.items() if number < len(values)]
                self.assertTrue(row.endswith("".join(f" {text}" for text in texts)), row[:300])
        given = rows_of(self.source)
        kept = self.store.read_bytes()
        for target in (self.folder / "first.gpkg", self.folder / "second.gpkg"):
            self.assertEqual(give_back(self.store, target)[::2], (0, ""))
            self.assertEqual(rows_of(target), given)
            self.assertEqual(bring_in(target, self.store, *GRID, "--overwrite")[::2], (0, ""))
            self.assertEqual(self.store.read_bytes(), kept)

    def test_a_layer_of_more_columns_than_a_format_has_is_refused_before_anything_is_written(self) -> None:
        for target, columns, value, words in (
            ("o.gpkg", 1_999, "", "1,999 columns, and the format has at most 1,998"),
            ("PG:dbname=none host=/none", 1_599, "", "1,599 columns, and the format has at most 1,598"),
            ("o.shp", 2_047, "", "2,047 columns, and the format has at most 2,046"),
            ("o.shp", 820, "x", "820 columns with 65,600 bytes of values for each feature, and the format has at most 65,534"),
            ("o.shp", 259, "x" * 300, "259 columns with 65,786 bytes of values for each feature, and the format has at most 65,534"),
        ):
            with self.subTest(target, columns=columns):
                self.store.unlink(missing_ok=True)
                with Store(PROGRAM, save=self.store) as store:
                    store.run_all(["layer add w point", *(f"column add w c{at} text" for at in range(columns)), "add w POINT (1 2)"])
                    store.run_all([f"set w 1 c{at} '{value}'" for at in range(columns) if value])
                place = target if target.startswith("PG:") else self.folder / target
                status, out, err = give_back(self.store, place, "--grid", "0", "0", "1")
                self.assertEqual((status, out), (3, ""))
                self.assertEqual(err, f"sfstore-export: w has {words}: drop columns in a copy of the store, or choose another format\n")

    def test_an_empty_layer_of_any_kind_is_no_shapefile(self) -> None:
        with Store(PROGRAM, save=self.store) as store:
            store.run_all(["layer add w any"])
        err = give_back(self.store, self.folder / "w.shp", "--grid", "0", "0", "1")[2]
        self.assertIn("sfstore-export: w is empty and takes features of any kind: a Shapefile has one of points, lines or areas\n", err)

    def test_a_store_of_whatever_name_that_comes_in_is_saved_and_goes_out(self) -> None:
        taken = []
        for count in range(108, 122):
            path = self.folder / f"{'Ж' * count}.sfs"
            if bring_in(self.source, path, *GRID, "--layer", "w")[0] == 0:
                taken.append(count)
                with Store(path, journal=True, program=PROGRAM) as store:
                    store.add("w", "POINT (5 5)")
                self.assertEqual(give_back(path, self.folder / f"{count}.gpkg")[::2], (0, ""))
        self.assertEqual(taken, list(range(108, 118)))

    def test_what_is_made_beside_files_of_long_names_is_told_apart(self) -> None:
        first, second = (str(self.folder / ("w" * 240 + end)) for end in ("a", "b"))
        made = [files.made_beside(path) for path in (first, second)]
        for _, file in made:
            os.close(file)
        files.remove_leftovers(first)
        self.assertEqual([os.path.exists(path) for path, _ in made], [False, True])


if __name__ == "__main__":
    unittest.main()
