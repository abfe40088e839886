"""Tests of constraints of columns: rules on values as UNIQUE and NOT NULL of a GeoPackage, and those as rules."""

from __future__ import annotations

import shutil
import sqlite3
import unittest
from decimal import Decimal
from unittest import mock

from support import PROGRAM

from test_exchange import GRID, HAS_GDAL, ExchangeCase, bring_in, give_back  # isort: skip
from sfstore import Store, ValueRule
from sfstore.exchange import writing

if HAS_GDAL:
    from osgeo import gdal, ogr

RULES = [
    ValueRule("numbers", "unique", "wells", "number"),
    ValueRule("numbered", "required", "wells", "number"),
    ValueRule("labels", "unique", "wells", "label"),
]
TABLE = """\
CREATE TABLE "plots" ("fid" INTEGER PRIMARY KEY AUTOINCREMENT NOT NULL, "geom" POINT, "number" MEDIUMINT NOT NULL UNIQUE,
 "label" TEXT UNIQUE, "owner" TEXT NOT NULL)"""


class ConstraintsCase(ExchangeCase):
    def made(self, rules=RULES):
        """A store of two wells with rules on their values."""
        with Store(PROGRAM, save=self.store) as store:
            store.add_layer("wells", "point")
            for column, kind in (("number", "int"), ("label", "text"), ("depth", "decimal")):
                store.add_column("wells", column, kind)
            for number, label in ((7, "the old one"), (8, None)):
                feature = store.add("wells", f"POINT ({number} 5)")
                store.set("wells", feature, "number", number)
                if label:
                    store.set("wells", feature, "label", label)
            for rule in rules:
                store.add_value_rule(*rule)

    def rules(self, path):
        with Store(PROGRAM, load=path) as store:
            return store.rules()

    def asked(self, *statements):
        """Has statements carried out in the map, and gives the rows of the last one."""
        data = sqlite3.connect(self.target)
        # The triggers of the index by place name them, which no update here needs.
        for name in "ST_IsEmpty", "ST_MinX", "ST_MaxX", "ST_MinY", "ST_MaxY":
            data.create_function(name, 1, lambda geometry: 0)
        try:
            for statement in statements:
                rows = data.execute(statement).fetchall()
            data.commit()
            return rows
        finally:
            data.close()


class Out(ConstraintsCase):
    def test_columns_demand_what_rules_do(self):
        self.made()
        self.assertEqual(give_back(self.store, self.target, *GRID, "--crs", "EPSG:25832", "--constraints"), (0, "", ""))
        with self.assertRaisesRegex(sqlite3.IntegrityError, "UNIQUE constraint failed: wells.number"):
            self.asked("UPDATE wells SET number = 7")
        with self.assertRaisesRegex(sqlite3.IntegrityError, "NOT NULL constraint failed: wells.number"):
            self.asked("UPDATE wells SET number = NULL WHERE fid = 1")
        self.assertEqual(self.asked("SELECT fid, number, label FROM wells ORDER BY fid"), [(1, 7, "the old one"), (2, 8, None)])

    def test_the_same_store_comes_back(self):
        """The map has the rules beside its constraints, which say nothing else."""
        self.made()
        given = give_back(self.store, self.target, *GRID, "--crs", "EPSG:25832", "--constraints")
        self.assertEqual(given[0], 0)
        again = self.folder / "again.sfs"
        for words in [], ["--constraints"]:
            status, out, err = bring_in(self.target, again, *words, "--overwrite")
            self.assertEqual((status, err), (0, ""))
            self.assertNotIn("constraints of columns", out)
            self.assertEqual(again.read_bytes(), self.store.read_bytes())

    def test_none_where_they_are_not_asked_for(self):
        self.made()
        self.assertEqual(give_back(self.store, self.target, *GRID, "--crs", "EPSG:25832"), (0, "", ""))
        self.asked("UPDATE wells SET number = 7")

    def test_of_no_other_format(self):
        self.made()
        for name in "wells.fgb", "wells.geojson", "folder":
            words = ["--format", "GeoJSON"] if name == "folder" else []
            status, _, err = give_back(self.store, self.folder / name, *GRID, *words, "--constraints")
            self.assertEqual(status, 2)
            self.assertIn("--constraints goes with a .gpkg", err)

    def test_constraints_that_are_not_there_are_found(self):
        self.made()
        with mock.patch.object(writing, "constrain", lambda field, domain, demands: None):
            status, _, err = give_back(self.store, self.target, *GRID, "--constraints")
        self.assertEqual(status, 3)
        self.assertIn("layer wells: the column number has other constraints", err)
        self.assertFalse(self.target.exists())

    def test_of_decimals_that_are_no_doubles_none_are_told_apart(self):
        """They are two values here, and one there."""
        self.made([ValueRule("depths", "unique", "wells", "depth")])
        for second, said in (Decimal("0.100000000000000001"), "no constraint says the rule depths unique wells depth"), (Decimal("0.2"), ""):
            with Store(PROGRAM, load=self.store, save=self.store) as store:
                store.set("wells", 1, "depth", Decimal("0.1"))
                store.set("wells", 2, "depth", second)
            status, _, err = give_back(self.store, self.target, *GRID, "--crs", "EPSG:25832", "--constraints", "--overwrite")
            self.store.with_name(self.store.name + ".json").unlink()
            self.assertEqual((status, "UNIQUE" in self.asked("SELECT sql FROM sqlite_master WHERE name = 'wells'")[0][0]), (0, not said), err)
            self.assertIn(said, err)
            self.assertEqual([row[0] for row in self.asked("SELECT depth FROM wells ORDER BY fid")][:2], [0.1, float(second)])


class Domains(ConstraintsCase):
    """Lists of values and ranges: `one-of` and `range` in a GeoPackage, and back."""

    RULES = [
        ValueRule("labels", "one-of", "wells", "label", ("the old one", "it's", "")),
        ValueRule("numbers", "range", "wells", "number", (), 1, 900),
        ValueRule("depths", "range", "wells", "depth", (), Decimal("0.1"), None),
    ]

    def stripped(self):
        """Has the map forget what the store left in it."""
        self.asked("DELETE FROM gpkg_metadata_reference", "DELETE FROM gpkg_metadata")

    def test_they_stand_in_the_map(self):
        self.made(self.RULES)
        self.assertEqual(give_back(self.store, self.target, *GRID, "--crs", "EPSG:25832", "--constraints"), (0, "", ""))
        columns = self.asked("SELECT column_name, constraint_name FROM gpkg_data_columns ORDER BY column_name")
        self.assertEqual(columns, [("depth", "wells_depth"), ("label", "wells_label"), ("number", "wells_number")])
        found = self.asked("SELECT constraint_name, constraint_type, value, min, max FROM gpkg_data_column_constraints ORDER BY 1, 3")
        labels = [("wells_label", "enum", value, None, None) for value in ("", "it's", "the old one")]
        ranges = [("wells_depth", "range", None, 0.1, float("inf")), ("wells_number", "range", None, 1, 900)]
        self.assertEqual(found, [ranges[0], *labels, ranges[1]])

    def test_the_same_rules_come_back(self):
        self.made(self.RULES)
        self.assertEqual(give_back(self.store, self.target, *GRID, "--crs", "EPSG:25832", "--constraints")[0], 0)
        self.stripped()
        again = self.folder / "again.sfs"
        status, out, err = bring_in(self.target, again, *GRID, "--constraints")
        self.assertEqual((status, err), (0, ""), out)
        found = {(rule.column, rule.demand): rule for rule in self.rules(again)}
        self.assertEqual(set(found), {("label", "one-of"), ("number", "range"), ("depth", "range")})
        self.assertEqual(set(found["label", "one-of"].allowed), {"the old one", "it's", ""})
        self.assertEqual(found["number", "range"][-2:], (1, 900))
        self.assertEqual(found["depth", "range"][-2:], (Decimal("0.1"), None))

    def test_a_range_of_whole_numbers_may_be_open_at_one_end(self):
        """OGR takes its ends as doubles, of which none is infinite there, and not each a whole number."""
        for least, greatest in ((0, None), (None, 900), (2**53 + 1, 2**53 + 3), (-(2**63) + 1, None), (-1, -1)):
            rule = ValueRule("r", "range", "wells", "number", (), least, greatest)
            with Store(PROGRAM, save=self.store) as store:
                store.run_all(["layer add wells point", "column add wells number int", "add wells POINT (1 1)"])
                store.add_value_rule(*rule)
            # Else the export would tell that the constraints of the one before are gone.
            self.target.unlink(missing_ok=True)
            given = give_back(self.store, self.target, *GRID, "--crs", "EPSG:25832", "--constraints")
            self.assertEqual(given, (0, "", ""))
            self.stripped()
            status, out, err = bring_in(self.target, self.folder / "again.sfs", *GRID, "--constraints", "--overwrite")
            self.assertEqual((status, err), (0, ""), out)
            self.assertEqual(self.rules(self.folder / "again.sfs"), [rule._replace(name="wells_number_range")])
            self.store.with_suffix(".sfs.json").unlink()

    def test_an_end_of_the_column_bounds_nothing(self):
        """As other programs write a range that is open. OGR reads the second one as -9."""
        self.made(self.RULES[1:2])
        self.assertEqual(give_back(self.store, self.target, *GRID, "--crs", "EPSG:25832", "--constraints")[0], 0)
        self.stripped()
        for least in ("-9223372036854775808", "-9.2233720368547758e+18", "-9.0e+999"):
            self.asked(f"UPDATE gpkg_data_column_constraints SET min = {least}")
            status, out, err = bring_in(self.target, self.folder / "again.sfs", *GRID, "--constraints", "--overwrite")
            self.assertEqual((status, err), (0, ""), out)
            self.assertEqual([rule.line for rule in self.rules(self.folder / "again.sfs")], ["wells_number_range range wells number to 900"])

    def test_columns_whose_names_make_one_have_a_domain_each(self):
        ruled = [ValueRule("r1", "one-of", "a_b", "c", ("x", "y")), ValueRule("r2", "one-of", "a", "b_c", ("p", "q"))]
        with Store(PROGRAM, save=self.store) as store:
            for rule in ruled:
                store.run_all([f"layer add {rule.layer} point", f"column add {rule.layer} {rule.column} text", f"add {rule.layer} POINT (1 1)"])
                store.add_value_rule(*rule)
        self.assertEqual(give_back(self.store, self.target, *GRID, "--crs", "EPSG:25832", "--constraints"), (0, "", ""))
        self.stripped()
        status, out, err = bring_in(self.target, self.folder / "again.sfs", *GRID, "--constraints")
        self.assertEqual((status, err), (0, ""), out)
        self.assertEqual([rule[1:] for rule in self.rules(self.folder / "again.sfs")], [rule[1:] for rule in ruled])

    def test_a_domain_that_can_not_be_read_is_told(self):
        """The map comes in without it, whether constraints are wanted or not."""
        columns, constraints = "gpkg_data_columns", "gpkg_data_column_constraints"
        not_utf_8 = "CAST(x'77ff' AS TEXT)"
        broken = [
            [f"UPDATE {constraints} SET value = NULL WHERE value = ''"],
            [f"UPDATE {constraints} SET constraint_type = 'something'"],
            [f"UPDATE {table} SET constraint_name = {not_utf_8}" for table in (columns, constraints)],
        ]
        for statements in broken:
            self.made(self.RULES[:1])
            self.assertEqual(give_back(self.store, self.target, *GRID, "--crs", "EPSG:25832", "--constraints", "--overwrite")[0], 0)
            self.stripped()
            self.asked(*statements)
            for words in [], ["--constraints"]:
                status, out, err = bring_in(self.target, self.folder / "again.sfs", *GRID, *words, "--overwrite")
                self.assertEqual((status, err), (1, ""), out)
                self.assertIn("wells: 2 features read, 2 taken\n", out)
                self.assertRegex(out, r"what no rule says, are left out: label \((wells_label|w\\udcff)\)")
                self.assertEqual(self.rules(self.folder / "again.sfs"), [])
            self.store.with_suffix(".sfs.json").unlink()

    def test_a_range_of_texts_is_no_rule(self):
        """Its ends are numbers, and a rule would compare letters: '12' stands between '1.0' and '5.0'."""
        self.made(self.RULES[:1])
        self.assertEqual(give_back(self.store, self.target, *GRID, "--crs", "EPSG:25832", "--constraints")[0], 0)
        self.stripped()
        self.asked(
            "DELETE FROM gpkg_data_column_constraints",
            "INSERT INTO gpkg_data_column_constraints (constraint_name, constraint_type, min, min_is_inclusive, max, max_is_inclusive) "
            "VALUES ('wells_label', 'range', 1, 1, 5, 1)",
        )
        status, out, err = bring_in(self.target, self.folder / "again.sfs", *GRID, "--constraints")
        self.assertEqual((status, err), (1, ""), out)
        self.assertIn("are left out: label (wells_label)", out)
        self.assertEqual(self.rules(self.folder / "again.sfs"), [])

    def test_what_no_constraint_says_is_told(self):
        """Of an end that no double is, and of a second rule on the values of one column."""
        rules = [
            ValueRule("fine", "range", "wells", "depth", (), Decimal("0.100000000000000001"), None),
            ValueRule("labels", "one-of", "wells", "label", ("the old one",)),
            ValueRule("letters", "range", "wells", "label", (), "a", None),
            ValueRule("more", "one-of", "wells", "label", ("the old one", "b")),
        ]
        self.made(rules)
        status, out, err = give_back(self.store, self.target, *GRID, "--constraints")
        self.assertEqual(status, 0, err)
        told = {f"no constraint says the rule {rule.line}" for rule in (rules[0], rules[2], rules[3])}
        self.assertEqual({line for line in (out + err).splitlines() if "no constraint" in line}, told)

    def test_what_no_rule_says_is_told(self):
        """A pattern, and an end that is not in the range."""
        self.made(self.RULES)
        self.assertEqual(give_back(self.store, self.target, *GRID, "--crs", "EPSG:25832", "--constraints")[0], 0)
        self.stripped()
        self.asked(
            "UPDATE gpkg_data_column_constraints SET max_is_inclusive = 0 WHERE constraint_name = 'wells_number'",
            "DELETE FROM gpkg_data_column_constraints WHERE constraint_name = 'wells_label'",
            "INSERT INTO gpkg_data_column_constraints (constraint_name, constraint_type, value) VALUES ('wells_label', 'glob', 'a*')",
        )
        status, out, err = bring_in(self.target, self.folder / "again.sfs", *GRID, "--constraints")
        self.assertEqual((status, err), (1, ""), out)
        left = "number (wells_number), label (wells_label)\n"
        self.assertIn(f"domains of columns, which say what their values mean or what no rule says, are left out: {left}", out)
        self.assertEqual([rule.column for rule in self.rules(self.folder / "again.sfs")], ["depth"])
        # The values of these columns are there.
        _, _, err = give_back(self.folder / "again.sfs", self.target, "--overwrite")
        words = "all of the domain of number (wells_number), the domain of label (wells_label). What is replaced may have them"
        self.assertIn(f"wells is without what its import has left out: {words}\n", err)


class In(ConstraintsCase):
    def plots(self, *rows):
        """A map that a store has never written."""
        self.made([])
        self.assertEqual(give_back(self.store, self.target, *GRID, "--crs", "EPSG:25832")[0], 0)
        self.asked(
            TABLE.replace("plots", "new"),
            *(
                f"INSERT INTO new (geom, number, label, owner) SELECT geom, {number}, {label}, {owner} FROM wells WHERE fid = 1"
                for number, label, owner in rows
            ),
            "DROP TABLE IF EXISTS rtree_wells_geom",
            "DROP TABLE wells",
            "ALTER TABLE new RENAME TO wells",
            "DELETE FROM gpkg_extensions WHERE table_name = 'wells'",
            "DELETE FROM gpkg_metadata_reference",
            "DELETE FROM gpkg_metadata",
        )
        self.store.unlink()

    def test_they_become_rules(self):
        self.plots((1, "'a'", "'x'"), (2, "NULL", "'x'"))
        status, out, err = bring_in(self.target, self.store, *GRID, "--constraints")
        self.assertEqual((status, err), (0, ""), out)
        wanted = [
            ValueRule("wells_number_required", "required", "wells", "number"),
            ValueRule("wells_number_unique", "unique", "wells", "number"),
            ValueRule("wells_label_unique", "unique", "wells", "label"),
            ValueRule("wells_owner_required", "required", "wells", "owner"),
        ]
        self.assertEqual(self.rules(self.store), wanted)
        for rule in wanted:
            self.assertIn(f"  the rule {rule.line} was added\n", out)

    def test_else_it_is_told_that_they_are_left(self):
        self.plots((1, "'a'", "'x'"))
        status, out, err = bring_in(self.target, self.store, *GRID)
        self.assertEqual((status, err), (0, ""), out)
        self.assertIn(
            "constraints of columns are left aside: required wells number, unique wells number, unique wells label, "
            "required wells owner (--constraints makes rules of them)\n",
            out,
        )
        self.assertEqual(self.rules(self.store), [])

    def test_one_that_does_not_hold_is_reported(self):
        """A value that the store can't have is left out, and then it is missing."""
        self.plots((1, "'a'", "'x'"), (2, "'b'", "x'00ff'"))
        status, out, err = bring_in(self.target, self.store, *GRID, "--constraints")
        self.assertEqual((status, err), (1, ""), out)
        self.assertIn("breaks the rule wells_owner_required required wells owner, which is left out: 2 (at (500000.07 5600000.05))\n", out)
        self.assertNotIn("wells_owner_required", [rule.name for rule in self.rules(self.store)])

    def test_names_that_rules_have_are_not_taken_twice(self):
        self.plots((1, "'a'", "'x'"))
        rules = self.folder / "rules.txt"
        rules.write_text("rule add wells_label_unique never wells equals wells\nrule add mine unique wells number\n")
        status, out, err = bring_in(self.target, self.store, *GRID, "--constraints", "--rules", rules)
        self.assertEqual((status, err), (0, ""), out)
        found = [rule.name for rule in self.rules(self.store)]
        self.assertEqual(found, ["wells_label_unique", "mine", "wells_number_required", "wells_label_unique_2", "wells_owner_required"])

    def test_what_a_map_has_besides_is_told(self):
        """By the import, and by an export in the map's place, which has none of it."""
        self.plots((1, "'a'", "'x'"))
        self.asked("CREATE INDEX mine ON wells (label)", "CREATE TRIGGER tr AFTER DELETE ON wells BEGIN SELECT 1; END")
        data = gdal.OpenEx(str(self.target), gdal.OF_VECTOR | gdal.OF_UPDATE)
        data.SetMetadataItem("LICENCE", "Ann's")
        data.SetMetadata(["<a>b</a>"], "xml:ISO")
        layer = data.GetLayer(0)
        layer.SetMetadataItem("DESCRIPTION", "Measured in 1999")
        field = ogr.FieldDefn("use", ogr.OFTString)
        field.SetDefault("'none'")
        layer.CreateField(field)
        data.FlushCache()
        del layer, data
        besides = (
            "metadata (LICENCE, xml:ISO); metadata of wells (DESCRIPTION); default values of wells (use); "
            "tables, triggers and the like (index mine, trigger tr)"
        )
        status, out, err = bring_in(self.target, self.store, *GRID, "--constraints")
        self.assertEqual((status, err), (0, ""), out)
        self.assertIn(f"{self.target.name}:\n  a store has no place for what it has besides: {besides}\n", out)
        for words, more in ([], "; constraints of columns (wells.number, wells.label, wells.owner)"), (["--constraints"], ""):
            copy = self.folder / f"{len(words)}.gpkg"
            shutil.copy(self.target, copy)
            status, _, err = give_back(self.store, copy, "--overwrite", *words)
            self.assertEqual((status, err), (0, f"{copy} has what the new one has not, and it is gone then: {besides}{more}\n"))
            # One that an export has written has nothing besides.
            self.assertEqual(give_back(self.store, copy, "--overwrite", *words), (0, "", ""))

    def test_what_ogr_does_not_show_is_told(self):
        """Names of columns, demands in SQL, what belongs to no table, views, and tables of others by names like the format's own."""
        self.plots((1, "'a'", "'x'"))
        self.asked(
            "CREATE TABLE IF NOT EXISTS gpkg_data_columns (table_name TEXT, column_name TEXT, name TEXT, title TEXT, description TEXT, "
            "mime_type TEXT, constraint_name TEXT)",
            "INSERT INTO gpkg_data_columns VALUES ('wells', 'label', 'Name', NULL, NULL, NULL, NULL)",
            "INSERT INTO gpkg_data_columns VALUES ('wells', 'number', NULL, NULL, 'Of the town', NULL, NULL)",
            "INSERT INTO gpkg_data_columns VALUES ('wells', 'owner', NULL, NULL, NULL, NULL, NULL)",
            "CREATE TABLE IF NOT EXISTS gpkg_data_column_constraints (constraint_name TEXT, constraint_type TEXT, value TEXT, min NUMERIC, "
            "min_is_inclusive BOOLEAN, max NUMERIC, max_is_inclusive BOOLEAN, description TEXT)",
            "INSERT INTO gpkg_data_column_constraints VALUES ('uses', 'enum', 'a', NULL, NULL, NULL, NULL, NULL)",
            "INSERT INTO gpkg_metadata VALUES (33, 'dataset', 'http://example.org', 'text/plain', 'By Ann')",
            "CREATE TABLE gpkg_diary (day TEXT)",
            "CREATE TABLE rtree_heights (tree TEXT)",
            "ALTER TABLE wells ADD COLUMN street TEXT COLLATE NOCASE REFERENCES gpkg_diary (day) CHECK (street <> 'UNIQUE (a, b)')",
            "CREATE VIEW deep AS SELECT fid AS OGC_FID, geom, label FROM wells",
            "INSERT INTO gpkg_contents (table_name, identifier, data_type, srs_id) SELECT 'deep', 'deep', data_type, srs_id FROM gpkg_contents",
            "INSERT INTO gpkg_geometry_columns SELECT 'deep', column_name, geometry_type_name, srs_id, z, m FROM gpkg_geometry_columns",
        )
        status, out, _ = bring_in(self.target, self.store, *GRID)
        besides = (
            "metadata of no table (number 33); domains of no column (uses); other names and descriptions of columns of wells "
            "(label, number); what SQL demands of wells (CHECK, COLLATE, REFERENCES); tables, triggers and the like "
            "(table gpkg_diary, table rtree_heights, view deep)"
        )
        self.assertEqual(status, 0, out)
        self.assertIn(f"a store has no place for what it has besides: {besides}\n", out)
        status, _, err = give_back(self.store, self.target, "--overwrite")
        self.assertEqual(status, 0, err)
        self.assertIn(f"{besides}; constraints of columns", err)
        self.assertEqual(give_back(self.store, self.target, "--overwrite"), (0, "", ""))

    def test_they_go_with_a_new_store(self):
        self.plots((1, "'a'", "'x'"))
        status, _, err = bring_in(self.target, self.store, "--add", "--constraints")
        self.assertEqual(status, 2)
        self.assertIn("--constraints goes with a new store", err)


if __name__ == "__main__":
    unittest.main()
