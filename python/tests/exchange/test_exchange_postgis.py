"""Tests of exports to PostGIS beside what others have in the database, over a server of the test's own."""

from __future__ import annotations

import contextlib
import json
import os
import shutil
import subprocess
import sys
import tempfile
import unittest
from dataclasses import replace
from decimal import Decimal
from importlib.util import find_spec
from pathlib import Path
from unittest import mock

from support import FOLDER, PROGRAM

from test_exchange import HAS_GDAL, ExchangeCase, Source, bring_in, give_back
from test_exchange_sets import PLAIN

from sfstore import Store, sidecar
from sfstore.exchange import sources
from sfstore.exchange.sources import OgrLayer
from sfstore.replica.servers import Server, binaries

HAS_SERVER = binaries() is not None and find_spec("psycopg2") is not None
if HAS_GDAL:
    from osgeo import ogr
if HAS_SERVER:
    import psycopg2

GRID = PLAIN[:4]


@unittest.skipUnless(HAS_GDAL and HAS_SERVER, "no GDAL, or no PostgreSQL with psycopg2")
class DatabaseCase(ExchangeCase):
    """A server for all tests of a class, and a database for each."""

    @classmethod
    def setUpClass(cls):
        super().setUpClass()
        cls.place = Path(tempfile.mkdtemp(prefix="sfstore-pg", dir="/var/tmp"))
        cls.place.chmod(0o755)
        cls.addClassCleanup(shutil.rmtree, cls.place, ignore_errors=True)
        cls.server = Server(cls.place, "one")
        cls.server.make()
        cls.server.start("")
        cls.addClassCleanup(cls.server.kill)
        with cls.asking("postgres") as ask:
            try:
                ask("CREATE DATABASE fresh")
                with cls.asking("fresh") as inner:
                    inner("CREATE EXTENSION postgis")
            except psycopg2.Error as error:
                raise unittest.SkipTest(f"no PostGIS: {error}") from None

    def setUp(self):
        super().setUp()
        with self.asking("postgres") as ask:
            ask("DROP DATABASE IF EXISTS town")
            ask("CREATE DATABASE town TEMPLATE fresh")
        self.dsn = self.server.dsn(database="town")
        self.target = f"PG:{self.dsn}"

    @classmethod
    @contextlib.contextmanager
    def asking(cls, database="town"):
        """What carries out a statement, and gives its rows."""
        connection = psycopg2.connect(cls.server.dsn(database=database))
        connection.autocommit = True

        def ask(statement):
            cursor = connection.cursor()
            cursor.execute(statement)
            return cursor.fetchall() if cursor.description else None

        try:
            yield ask
        finally:
            connection.close()

    def ask(self, statement):
        with self.asking() as ask:
            return ask(statement)

    def made(self, lines, name="t.sfs"):
        """A store of lines with a grid."""
        path = self.folder / name
        for old in (path, Path(f"{path}.json")):
            old.unlink(missing_ok=True)
        with Store(PROGRAM, save=path) as store:
            store.run_all(lines)
        return path

    def wells(self, *more):
        return self.made(["layer add wells point", "column add wells depth int", "add wells POINT (3 4)",
                          "set wells 1 depth 7", *more])

    def refused(self, *words):
        status, out, err = give_back(*words)
        self.assertEqual((status, out), (3, ""), err)
        return err

    def written(self, *words):
        status, out, err = give_back(*words)
        self.assertEqual((status, out), (0, ""), err)
        return err


class Others(DatabaseCase):
    """What stands in the database stays as it is."""

    def test_a_table_without_geometries_stays(self):
        self.ask("CREATE TABLE wells (id int PRIMARY KEY, owner text); "
                 "INSERT INTO wells SELECT i, 'owner ' || i FROM generate_series(1, 1000) i")
        store = self.wells()
        self.assertIn("has a table wells already: --overwrite replaces it", self.refused(store, self.target, *PLAIN))
        self.assertEqual(self.ask("SELECT count(owner) FROM wells"), [(1000,)])
        err = self.refused(store, self.target, *PLAIN, "--overwrite")
        self.assertIn("the table wells has no column wkb_geometry for the geometries", err)
        self.assertEqual(self.ask("SELECT count(owner) FROM wells"), [(1000,)])

    def test_a_table_whose_name_differs_in_case_stays(self):
        self.ask("CREATE TABLE \"Wells\" (id int, geom geometry(Point)); INSERT INTO \"Wells\" VALUES (1, 'POINT(9 9)')")
        for words in ([], ["--overwrite"]):
            err = self.refused(self.wells(), self.target, *PLAIN, *words)
            self.assertIn("has a table Wells, which OGR does not tell from wells: rename one of them", err)
            self.assertEqual(self.ask('SELECT count(*) FROM "Wells"'), [(1,)])

    def test_other_relations_of_the_name_stay(self):
        for kind, made in (
            ("view", "CREATE VIEW wells AS SELECT 1 AS x"),
            ("materialized view", "CREATE MATERIALIZED VIEW wells AS SELECT 1 AS x"),
            ("sequence", "CREATE SEQUENCE wells"),
            ("type", "CREATE TYPE wells AS (x int)"),
            ("partitioned table", "CREATE TABLE wells (x int) PARTITION BY RANGE (x)"),
        ):
            with self.subTest(kind):
                self.ask(made)
                for words in ([], ["--overwrite"]):
                    err = self.refused(self.wells(), self.target, *PLAIN, *words)
                    self.assertIn(f"the database has a {kind} wells, which no export replaces", err)
                self.ask(f"DROP {kind.removeprefix('partitioned ')} wells")

    def test_a_table_of_another_schema_is_no_matter(self):
        self.ask("CREATE SCHEMA other; CREATE TABLE other.wells (x int); INSERT INTO other.wells VALUES (5)")
        self.written(self.wells(), self.target, *PLAIN)
        self.assertEqual(self.ask("SELECT x FROM other.wells"), [(5,)])
        self.assertEqual(self.ask("SELECT depth FROM wells"), [(7,)])

    def test_layers_that_differ_in_case_are_two_tables(self):
        store = self.made(["layer add Wells point", "add Wells POINT (1 1)", "add Wells POINT (2 2)",
                           "layer add wells point", "add wells POINT (3 4)"])
        err = self.written(store, self.target, *PLAIN)
        self.assertIn("the name wells of a layer: it is wells_2 there", err)
        self.assertEqual(self.ask('SELECT count(*) FROM "Wells"'), [(2,)])
        self.assertEqual(self.ask("SELECT count(*) FROM wells_2"), [(1,)])

    def test_views_rights_and_triggers_stay(self):
        self.written(self.wells(), self.target, *PLAIN)
        self.ask("CREATE VIEW deep AS SELECT * FROM wells; CREATE ROLE ann; GRANT SELECT ON wells TO ann; "
                 "CREATE TABLE log (n int); CREATE FUNCTION noted() RETURNS trigger LANGUAGE plpgsql AS "
                 "'BEGIN INSERT INTO log VALUES (1); RETURN NEW; END'; "
                 "CREATE TRIGGER noted AFTER INSERT ON wells FOR EACH ROW EXECUTE FUNCTION noted()")
        self.addCleanup(self.drop_role)
        store = self.wells("add wells POINT (5 5)", "column add wells label text", "set wells 2 label 'new'")
        self.written(store, self.target, *PLAIN, "--overwrite")
        self.assertEqual(self.ask("SELECT depth FROM deep ORDER BY 1"), [(7,), (None,)])
        self.assertEqual(self.ask("SELECT label FROM wells ORDER BY ogc_fid"), [(None,), ("new",)])
        self.assertEqual(self.ask("SELECT has_table_privilege('ann', 'wells', 'SELECT')"), [(True,)])
        self.assertEqual(self.ask("SELECT count(*) FROM log"), [(2,)])

    def drop_role(self):
        self.ask("DROP OWNED BY ann; DROP ROLE ann")

    def test_a_foreign_key_on_the_table_is_in_the_way(self):
        self.written(self.wells(), self.target, *PLAIN)
        self.ask("CREATE TABLE probes (well int REFERENCES wells ON DELETE CASCADE); INSERT INTO probes VALUES (1)")
        err = self.refused(self.wells(), self.target, *PLAIN, "--overwrite")
        self.assertIn("the foreign key probes_well_fkey of probes needs the rows of wells", err)
        self.assertEqual(self.ask("SELECT well FROM probes"), [(1,)])

    def test_a_table_that_inherits_is_in_the_way(self):
        self.written(self.wells(), self.target, *PLAIN)
        self.ask("CREATE TABLE deep () INHERITS (wells); INSERT INTO deep (ogc_fid) VALUES (5)")
        err = self.refused(self.wells(), self.target, *PLAIN, "--overwrite")
        self.assertIn("deep inherits from wells", err)
        self.assertEqual(self.ask("SELECT count(*) FROM wells"), [(2,)])

    def test_rows_that_a_table_has_of_those_that_inherit_from_it_are_reported(self):
        self.ask("CREATE SCHEMA maps; CREATE TABLE maps.roads (gid serial PRIMARY KEY, geom geometry(Point)); CREATE TABLE highways (lanes int) INHERITS (maps.roads); "
                 "INSERT INTO maps.roads (geom) VALUES ('POINT(1 2)'); INSERT INTO highways (geom) VALUES ('POINT(3 4)')")
        status, out, err = bring_in(self.target, self.store, *GRID)
        self.assertEqual((status, err), (1, ""), out)
        self.assertIn("maps.roads: 2 features read, 2 taken\n", out)
        self.assertEqual(out.count("  rows of tables that inherit from it are among its own, and again in the layers of these: highways\n"), 1)

    def test_columns_of_others_are_not_lost(self):
        self.written(self.wells(), self.target, *PLAIN)
        self.ask("ALTER TABLE wells ADD price numeric; UPDATE wells SET price = 9.5")
        err = self.refused(self.wells(), self.target, *PLAIN, "--overwrite")
        self.assertIn("has columns that the store has not, and their values would be lost: price", err)
        self.assertEqual(self.ask("SELECT price::text FROM wells"), [("9.5",)])
        self.ask("ALTER TABLE wells DROP price; ALTER TABLE wells ADD twice int GENERATED ALWAYS AS (depth * 2) STORED")
        self.written(self.wells("set wells 1 depth 8"), self.target, *PLAIN, "--overwrite")
        self.assertEqual(self.ask("SELECT depth, twice FROM wells"), [(8, 16)])

    def test_what_the_database_computes_is_not_written_and_told_where_it_is_another(self):
        self.ask("CREATE TABLE w (id int PRIMARY KEY, n int, twice int GENERATED ALWAYS AS (n * 2) STORED, "
                 "part numeric GENERATED ALWAYS AS (n * 1e-30) STORED, geom geometry(Point)); "
                 "INSERT INTO w (id, n, geom) VALUES (1, 5, 'POINT(1 1)'), (2, 6, 'POINT(2 2)')")
        status, out, _ = bring_in(self.target, self.store, *GRID)
        self.assertEqual(status, 1, out)
        self.assertEqual(self.written(self.store, self.target, "--overwrite"), "")
        with Store(self.store, journal=True, program=PROGRAM) as store:
            store.set("w", 1, "n", 7)
            store.add("w", "POINT (3 3)")
            store.set("w", 3, "n", 8)
        err = self.written(self.store, self.target, "--overwrite")
        self.assertEqual(err, "the database computes twice of w, and has other values than the store in these rows: 1\n")
        self.assertEqual(self.ask("SELECT id, n, twice FROM w ORDER BY id"), [(1, 7, 14), (2, 6, 12), (3, 8, 16)])

    def test_a_geometry_that_the_database_computes_stays_as_it_is(self):
        self.ask("CREATE TABLE w (id int PRIMARY KEY, x int, geom geometry(Point) GENERATED ALWAYS AS (ST_Point(x, 1)) STORED); "
                 "INSERT INTO w VALUES (1, 5)")
        self.assertEqual(bring_in(self.target, self.store, *GRID)[0], 0)
        self.assertEqual(self.written(self.store, self.target, "--overwrite"), "")
        with Store(self.store, journal=True, program=PROGRAM) as store:
            store.set("w", 1, "x", 6)
        self.assertIn("read back, the table w has another geometry of feature 1", self.refused(self.store, self.target, "--overwrite"))
        self.assertEqual(self.ask("SELECT x, ST_AsText(geom) FROM w"), [(5, "POINT(5 1)")])

    def test_geographies_go_back(self):
        self.ask("CREATE TABLE w (id int PRIMARY KEY, n int, geog geography(Point)); INSERT INTO w VALUES (1, 5, 'POINT(11 48)')")
        self.assertEqual(bring_in(self.target, self.store, *GRID)[0], 0)
        with Store(self.store, journal=True, program=PROGRAM) as store:
            store.add("w", "POINT (12 49)")
        self.written(self.store, self.target, "--overwrite")
        self.assertEqual(self.ask("SELECT id, n, ST_AsText(geog) FROM w ORDER BY id"), [(1, 5, "POINT(11 48)"), (2, None, "POINT(12 49)")])
        with Store(self.store, journal=True, program=PROGRAM) as store:
            store.add("w", "POINT (200 49)")
        self.assertIn("has another geometry of feature 3", self.refused(self.store, self.target, "--overwrite"))

    def test_amounts_of_money_are_no_numbers(self):
        for kind in ("int", "decimal"):
            store = self.made(["layer add w point", f"column add w price {kind}", "add w POINT (1 1)", "set w 1 price 7"])
            self.ask("DROP TABLE IF EXISTS w; CREATE TABLE w (ogc_fid int PRIMARY KEY, price money, wkb_geometry geometry(Point))")
            self.assertIn("read back, the table w has '$7.00' for ", self.refused(store, self.target, *PLAIN, "--overwrite"))

    def test_what_a_trigger_changes_is_seen(self):
        self.written(self.wells(), self.target, *PLAIN)
        for what, body in (
            ("has '14' for 7 in column depth of feature 1", "NEW.depth = NEW.depth * 2; RETURN NEW;"),
            ("has no feature 1", "RETURN NULL;"),
            ("has another geometry of feature 1", "NEW.wkb_geometry = 'SRID=25832;POINT(9 9)'; RETURN NEW;"),
        ):
            doubled = body.replace("'", "''")
            self.ask(f"CREATE OR REPLACE FUNCTION other() RETURNS trigger LANGUAGE plpgsql AS 'BEGIN {doubled} END'")
            self.ask("DROP TRIGGER IF EXISTS other ON wells; "
                     "CREATE TRIGGER other BEFORE INSERT ON wells FOR EACH ROW EXECUTE FUNCTION other()")
            err = self.refused(self.wells(), self.target, *PLAIN, "--overwrite")
            self.assertIn(f"read back, the table wells {what}", err)
            self.assertEqual(self.ask("SELECT depth, ST_AsText(wkb_geometry) FROM wells"), [(7, "POINT(3 4)")])

    def test_what_triggers_change_at_the_end_is_seen(self):
        store = self.wells("layer add posts point", "add posts POINT (5 6)")
        self.written(store, self.target, *PLAIN)
        self.ask("CREATE FUNCTION other() RETURNS trigger LANGUAGE plpgsql AS "
                 "'BEGIN UPDATE wells SET depth = -1 WHERE depth = 7; RETURN NULL; END'")
        for table, kind, when in (
            ("wells", "CONSTRAINT TRIGGER", "DEFERRABLE INITIALLY DEFERRED FOR EACH ROW"),
            # A table that comes later.
            ("posts", "TRIGGER", "FOR EACH STATEMENT"),
        ):
            self.ask(f"CREATE {kind} other AFTER INSERT ON {table} {when} EXECUTE FUNCTION other()")
            err = self.refused(store, self.target, "--overwrite")
            self.assertIn("read back, the table wells has '-1' for 7 in column depth of feature 1: nothing was written", err)
            self.assertEqual(self.ask("SELECT depth FROM wells"), [(7,)])
            self.ask(f"DROP TRIGGER other ON {table}")

    def test_moments_without_a_zone_go_back_into_the_same_table(self):
        self.ask("CREATE TABLE w (gid serial PRIMARY KEY, t timestamp, n int, geom geometry(Point)); "
                 "INSERT INTO w (t, geom) VALUES ('2020-01-31 10:00:00.5', 'POINT(1 2)'), (NULL, 'POINT(1 3)')")
        before = self.ask("SELECT t::text FROM w")
        status, out, _ = bring_in(self.target, self.store, *PLAIN[:4])
        self.assertEqual(status, 0, out)
        with Store(self.store, journal=True, program=PROGRAM) as store:
            store.set("w", 1, "n", 5)
        self.written(self.store, self.target, "--overwrite")
        self.assertEqual(self.ask("SELECT t::text FROM w"), before)
        self.assertEqual(self.ask("SELECT n FROM w WHERE gid = 1"), [(5,)])

    def test_who_may_read_some_tables_alone(self):
        self.ask("CREATE TABLE a (id serial PRIMARY KEY, geom geometry(Point)); INSERT INTO a (geom) VALUES ('POINT(1 2)'); "
                 "CREATE TABLE b (LIKE a INCLUDING ALL); INSERT INTO b SELECT * FROM a; CREATE ROLE few LOGIN; GRANT SELECT ON a TO few")
        self.addCleanup(lambda: self.ask("DROP OWNED BY few; DROP ROLE few"))
        source = f"{self.target} user=few"
        status, out, err = bring_in(source, self.store, *PLAIN[:4])
        self.assertEqual((status, out), (3, ""), err)
        self.assertIn("sfstore-import: layer b can't be read: ERROR:  permission denied for table b", err)
        status, out, err = bring_in(source, self.store, *PLAIN[:4], "--layer", "a")
        self.assertEqual((status, out, err), (0, "a: 1 features read, 1 taken\n", ""))

    def test_a_connection_that_is_lost_before_a_layer_is_read(self):
        self.ask("CREATE TABLE w (id serial PRIMARY KEY, geom geometry(Point)); INSERT INTO w (geom) VALUES ('POINT(1 2)')")
        for patched, named, what in ((sources, "_transaction", "the database"), (OgrLayer, "columns", "layer w")):
            going_on = getattr(patched, named)

            def lost(*words, going_on=going_on):
                self.ask("SELECT pg_terminate_backend(pid) FROM pg_stat_activity WHERE datname = 'town' AND pid <> pg_backend_pid()")
                return going_on(*words)

            with mock.patch.object(patched, named, lost):
                status, out, err = bring_in(self.target, self.store, *PLAIN[:4])
            self.assertEqual((status, out), (3, ""), err)
            self.assertIn(f"sfstore-import: {what} can't be read: ", err)

    def test_what_a_transaction_takes_from_one_table_to_another_is_in_one_of_them(self):
        for first, second in (("a", "b"), ("b", "a")):
            self.ask("DROP TABLE IF EXISTS a, b; CREATE TABLE a (id int PRIMARY KEY, geom geometry(Point)); CREATE TABLE b (LIKE a INCLUDING ALL); "
                     f"INSERT INTO {second} VALUES (7, 'POINT(1 2)')")
            columns = OgrLayer.columns

            def moved(layer, *words, columns=columns, first=first, second=second):
                if layer.name == second:
                    # The first one is read by now.
                    self.ask(f"WITH gone AS (DELETE FROM {second} RETURNING *) INSERT INTO {first} SELECT * FROM gone")
                return columns(layer, *words)

            with mock.patch.object(OgrLayer, "columns", moved):
                status, out, err = bring_in(self.target, self.store, *GRID, "--overwrite", "--layer", first, "--layer", second)
            self.assertEqual((status, err), (0, ""), out)
            self.assertEqual([len(self.shown(name)) for name in (first, second)], [0, 1])
            self.assertEqual(self.ask(f"SELECT id FROM {first}"), [(7,)])

    def test_keys_that_no_store_has_stay_those_of_their_rows(self):
        for first, second in ((5_000_000_000, -4), (0, 1)):
            self.ask("DROP TABLE IF EXISTS w; CREATE TABLE w (osm bigint PRIMARY KEY, n int, geom geometry(Point)); "
                     f"INSERT INTO w VALUES ({first}, 1, 'POINT(1 2)'), ({second}, 2, 'POINT(1 3)')")
            before = self.ask("SELECT osm, n, geom FROM w ORDER BY n")
            status, out, _ = bring_in(self.target, self.store, *PLAIN[:4], "--overwrite")
            self.assertEqual(status, 0, out)
            self.assertIn("identifiers that the store can't have are in the column osm\n", out)
            for _ in range(2):
                err = self.written(self.store, self.target, "--overwrite")
                self.assertIn("the name osm of a column that OGR makes: it is osm_2 there", err)
                self.assertEqual(self.ask("SELECT osm, n, geom FROM w ORDER BY n"), before)

    def test_rows_and_values_that_the_import_has_left_out_stay(self):
        for first, second, third in ((1, 2, 3), (5_000_000_000, -4, 7)):
            self.ask("DROP TABLE IF EXISTS w; CREATE TABLE w (osm bigint PRIMARY KEY, n int, t text, x numeric, geom geometry(Point)); "
                     f"INSERT INTO w VALUES ({first}, 1, 'a', 1e-30, 'POINT(1 2)'), ({second}, 2, 'b', 2, 'POINT(1.5 3)'), "
                     f"({third}, 3, 'c', NULL, 'POINT(1 4)')")
            before = self.ask("SELECT * FROM w ORDER BY n")
            status, out, _ = bring_in(self.target, self.store, *PLAIN[:4], "--overwrite")
            self.assertEqual(status, 1, out)
            err = self.refused(self.store, self.target, "--overwrite")
            self.assertIn(f"the table w has features that its import has left out: {second}. They would be lost: ", err)
            self.assertEqual(self.ask("SELECT * FROM w ORDER BY n"), before)
            self.ask(f"DELETE FROM w WHERE osm = {second}")
            err = self.refused(self.store, self.target, "--overwrite")
            self.assertIn(f"the table w has a value of x that its import has left out, of {first}. They would be lost: ", err)
            self.assertEqual(self.ask("SELECT count(x) FROM w"), [(1,)])
            with Store(self.store, journal=True, program=PROGRAM) as store:
                [feature] = [each for each in store.show("w") if each.values["n"] == 1]
                store.set("w", feature.id, "x", Decimal(5))
            self.written(self.store, self.target, "--overwrite")
            self.assertEqual(self.ask("SELECT osm, n, x FROM w ORDER BY n"), [(first, 1, 5), (third, 3, None)])

    def test_rows_that_an_addition_has_left_out_stay(self):
        self.ask("CREATE TABLE w (id int PRIMARY KEY, geom geometry(Point)); INSERT INTO w VALUES (1, 'POINT(1 2)')")
        self.assertEqual(bring_in(self.target, self.store, *PLAIN[:4])[0], 0)
        self.ask("INSERT INTO w VALUES (2, 'POINT(1.5 3)'), (3, 'POINT(4 4)')")
        before = self.ask("SELECT * FROM w ORDER BY id")
        self.assertEqual(bring_in(self.target, self.store, "--add")[0], 1)
        Store(self.store, journal=True, program=PROGRAM).close()
        err = self.refused(self.store, self.target, "--overwrite")
        self.assertIn("the table w has features that an addition has left out, as a whole or in part: 2. They would be lost", err)
        self.assertEqual(self.ask("SELECT * FROM w ORDER BY id"), before)
        self.ask("DELETE FROM w WHERE id = 2")
        self.written(self.store, self.target, "--overwrite")

    def test_members_of_collections_that_an_import_has_left_out_stay(self):
        rows = ("INSERT INTO w (n, geom) VALUES (1, 'GEOMETRYCOLLECTION(POINT(1 1), POINT(1.5 2))'), (2, 'POINT(2 2)'), "
                "(3, 'GEOMETRYCOLLECTION(POINT(1 1), LINESTRING(3 3, 3 3))')")
        for key, words in (("id serial PRIMARY KEY, ", "has features of whose collections its import has left out members: 1, 3. "),
                           ("", "has 2 rows that are not in the store as in the table, and may be what an import has left out"),
                           ("id text UNIQUE NOT NULL DEFAULT gen_random_uuid(), ", "has 2 collections, and an import has left out members of some. ")):
            with self.subTest(key):
                self.ask(f"DROP TABLE IF EXISTS w; CREATE TABLE w ({key}n int, geom geometry); {rows}")
                status, out, _ = bring_in(self.target, self.store, *PLAIN[:4], "--part-collections", "--overwrite")
                self.assertEqual(status, 1, out)
                before = self.ask("SELECT n, ST_AsText(geom) FROM w ORDER BY n")
                self.assertIn(words, self.refused(self.store, self.target, "--overwrite"))
                self.assertEqual(self.ask("SELECT n, ST_AsText(geom) FROM w ORDER BY n"), before)
        # An addition leaves members out too.
        self.ask("DROP TABLE w; CREATE TABLE w (id serial PRIMARY KEY, n int, geom geometry); INSERT INTO w (n, geom) VALUES (7, 'POINT(7 7)')")
        self.assertEqual(bring_in(self.target, self.store, *PLAIN[:4], "--overwrite")[0], 0)
        self.ask(f"DELETE FROM w; {rows}")
        self.assertEqual(bring_in(self.target, self.store, "--add", "--part-collections")[0], 1)
        Store(self.store, journal=True, program=PROGRAM).close()
        self.assertIn("has features that an addition has left out, as a whole or in part: 2, 4. ", self.refused(self.store, self.target, "--overwrite"))
        said = "w is without what its import has left out: parts of 2 features. What is replaced may have them"
        self.ask(f"DELETE FROM w; {rows}")
        bring_in(self.target, self.store, *PLAIN[:4], "--part-collections", "--overwrite")
        self.written(self.store, self.folder / "w.gpkg")
        self.assertIn(said, self.written(self.store, self.folder / "w.gpkg", "--overwrite"))

    def added(self, store, status=1):
        """A store with a grid, to which the database was added."""
        self.written(store, self.folder / "one.gpkg", *PLAIN, *(["--overwrite"] if (self.folder / "one.gpkg").exists() else []))
        self.assertEqual(bring_in(self.target, store, "--add")[0], status)
        Store(store, journal=True, program=PROGRAM).close()
        return store

    def test_rows_that_an_addition_to_a_layer_made_by_hand_has_left_out_stay(self):
        for name, key in (("ogc_fid", "ogc_fid serial PRIMARY KEY, "), ("none", "")):
            self.ask(f"DROP TABLE IF EXISTS wells; CREATE TABLE wells ({key}depth int, wkb_geometry geometry); "
                     "INSERT INTO wells (depth, wkb_geometry) VALUES (1, 'SRID=25832;POINT(1 2)'), (2, 'SRID=25832;POINT(1.5 3)')")
            before = self.ask("SELECT wells::text FROM wells ORDER BY depth")
            # The store has a well 1 of its own, and the row 1 is 2 there.
            store = self.added(self.wells())
            err = self.refused(store, self.target, "--overwrite")
            self.assertIn("has features that an addition has left out, as a whole or in part: 2. " if key else
                          "has 1 row that is not in the store as in the table, and may be what an import has left out. ", err)
            self.assertEqual(self.ask("SELECT wells::text FROM wells ORDER BY depth"), before, name)
            self.ask("DELETE FROM wells WHERE depth = 2; INSERT INTO wells (depth, wkb_geometry) VALUES (9, 'SRID=25832;POINT(9 9)')")
            if key:
                # It has the number of another one of the store.
                self.ask("DELETE FROM wells WHERE depth = 1; UPDATE wells SET ogc_fid = 1 WHERE depth = 9")
                err = self.written(store, self.target, "--overwrite")
                self.assertIn("the table wells has 1 row that is not in the store as in the table, of others or edited in the store: removed\n", err)
            else:
                self.refused(store, self.target, "--overwrite")
                self.ask("DELETE FROM wells WHERE depth = 9")
                self.written(store, self.target, "--overwrite")
                # From now on it has keys.
                self.ask("DELETE FROM wells WHERE ogc_fid = 2")
                with Store(store, journal=True, program=PROGRAM) as opened:
                    opened.set("wells", 1, "depth", 8)
                self.assertNotIn("wells has", self.written(store, self.target, "--overwrite"))
            self.assertEqual(self.ask("SELECT count(*) FROM wells"), [(2,)])

    def keyless(self, key, rows="(1, 'a', 'POINT(1 2)'), (2, 'b', 'POINT(3 4)')"):
        """A table that no whole numbers name the rows of, in a store."""
        self.ask(f"DROP TABLE IF EXISTS w; CREATE TABLE w ({key}n int, t text, geom geometry); INSERT INTO w (n, t, geom) VALUES {rows}")
        return bring_in(self.target, self.store, *PLAIN[:4], "--overwrite")

    def test_rows_of_a_table_without_a_key_of_whole_numbers_that_its_import_has_left_out_stay(self):
        rows = "(1, 'a', 'POINT(1 2)'), (2, 'b', 'POINT(1.5 2)'), (3, 'c', 'CIRCULARSTRING(0 0, 1 1, 2 0)'), (4, 'd', NULL)"
        for key in ("", "id uuid PRIMARY KEY DEFAULT gen_random_uuid(), ", "id text UNIQUE NOT NULL DEFAULT gen_random_uuid(), ", "x int, y int, UNIQUE (x, y), "):
            with self.subTest(key):
                status, out, _ = self.keyless(key, rows)
                self.assertIn("w: 4 features read, 1 taken", out)
                before = self.ask("SELECT w::text FROM w ORDER BY n")
                err = self.refused(self.store, self.target, "--overwrite")
                self.assertIn("the table w has 3 rows that are not in the store as in the table" if "id" not in key else "may be those that an import has left out: ", err)
                self.assertEqual(self.ask("SELECT w::text FROM w ORDER BY n"), before)
                self.ask("DELETE FROM w WHERE n > 1")
                self.assertNotIn("removed", self.written(self.store, self.target, "--overwrite"))
                with Store(self.store, journal=True, program=PROGRAM) as store:
                    store.set("w", 1, "n", 7)
                self.written(self.store, self.target, "--overwrite")
                self.assertEqual(self.ask("SELECT n, t FROM w"), [(7, "a")])

    def test_values_of_a_table_without_a_key_of_whole_numbers_that_its_import_has_left_out_stay(self):
        for key in ("", "id uuid PRIMARY KEY DEFAULT gen_random_uuid(), "):
            self.ask(f"DROP TABLE IF EXISTS w; CREATE TABLE w ({key}x numeric, geom geometry(Point)); INSERT INTO w (x, geom) VALUES (1e-30, 'POINT(1 2)'), (2, 'POINT(1 3)')")
            self.assertEqual(bring_in(self.target, self.store, *PLAIN[:4], "--overwrite")[0], 1)
            err = self.refused(self.store, self.target, "--overwrite")
            self.assertIn("has values where the store has none, and an import has left out some: x of " if key else "has 1 row that is not in the store as in the table", err)
            self.assertEqual(self.ask("SELECT count(x) FROM w"), [(2,)])

    def test_rows_of_a_table_without_a_key_of_whole_numbers_that_others_have_added_are_told(self):
        for key in ("", "id uuid PRIMARY KEY DEFAULT gen_random_uuid(), "):
            self.assertEqual(self.keyless(key)[0], 0)
            # Two rows may be equal.
            self.ask("INSERT INTO w (n, t, geom) VALUES (1, 'a', 'POINT(1 2)'), (9, 'new', 'POINT(9 9)')")
            err = self.written(self.store, self.target, "--overwrite")
            self.assertIn("has 2 rows that the store has not, and they are removed: " if key else "has 2 rows that are not in the store as in the table, of others or edited in the store: removed\n", err)
            self.assertEqual(self.ask("SELECT n FROM w ORDER BY n"), [(1,), (2,)])
            self.assertNotIn("removed", self.written(self.store, self.target, "--overwrite"))

    def test_a_table_is_not_replaced_where_what_was_left_out_has_no_room_in_the_side_car(self):
        self.ask("CREATE TABLE w (id int PRIMARY KEY, geom geometry(Point)); "
                 "INSERT INTO w VALUES (1, 'POINT(1 2)'), (2, 'POINT(1.5 2)'), (3, 'POINT(1.5 3)')")
        before = self.ask("SELECT * FROM w ORDER BY id")
        with mock.patch.object(sidecar, "_NAMED_MAX", 1):
            self.assertEqual(bring_in(self.target, self.store, *PLAIN[:4])[0], 1)
        self.ask("DELETE FROM w WHERE id = 2")
        err = self.refused(self.store, self.target, "--overwrite")
        self.assertIn("the table w may have features, or values of them, that an import has left out: they are more than the side-car", err)
        self.assertEqual(self.ask("SELECT * FROM w ORDER BY id"), [before[0], before[2]])
        self.ask("DELETE FROM w")
        self.written(self.store, self.target, "--overwrite")

    def test_a_table_is_not_replaced_where_a_side_car_has_no_room_for_all_that_was_added(self):
        self.ask("CREATE TABLE w (id int PRIMARY KEY, geom geometry(Point)); INSERT INTO w VALUES (1, 'POINT(1 2)')")
        self.assertEqual(bring_in(self.target, self.store, *PLAIN[:4])[0], 0)
        self.ask("INSERT INTO w VALUES (2, 'POINT(1.5 3)'), (3, 'POINT(4 4)')")
        before = self.ask("SELECT * FROM w ORDER BY id")
        self.assertEqual(bring_in(self.target, self.store, "--add")[0], 1)
        Store(self.store, journal=True, program=PROGRAM).close()
        found = sidecar.read(str(self.store))
        first = found.additions[0]
        for others, words in (
            # Those of files go first.
            ([replace(first, source=f"{number}.gpkg") for number in range(1_000)], "has features that an addition has left out, as a whole or in part: 2. "),
            ([replace(first, source_name=f"w{number}") for number in range(1_000)], "may have features, or values of them, that an import has left out"),
        ):
            many = found
            for number in range(0, 1_000, 100):
                many = many.with_additions(others[number : number + 100])
            sidecar.write(str(self.store), many, found.digests)
            self.assertEqual(len(sidecar.read(str(self.store)).additions), 1_000)
            self.assertIn(words, self.refused(self.store, self.target, "--overwrite"))
            self.assertEqual(self.ask("SELECT * FROM w ORDER BY id"), before)
        self.ask("DELETE FROM w")
        self.written(self.store, self.target, "--overwrite")

    def test_rows_that_a_policy_hides_are_not_removed(self):
        with self.asking("postgres") as ask:
            ask("CREATE ROLE clerk LOGIN")
        self.addCleanup(lambda: self.ask("DROP OWNED BY clerk; DROP ROLE clerk"))
        self.ask("CREATE TABLE w (id int PRIMARY KEY, n int, geom geometry(Point)); "
                 "INSERT INTO w VALUES (1, 1, 'POINT(1 1)'), (2, 2, 'POINT(2 2)'); GRANT ALL ON w TO clerk; "
                 "GRANT SELECT ON spatial_ref_sys TO clerk; "
                 "ALTER TABLE w ENABLE ROW LEVEL SECURITY; CREATE POLICY own ON w TO clerk USING (n = 1)")
        target = f"PG:{self.server.dsn('clerk', 'town')}"
        status, out, _ = bring_in(target, self.store, *PLAIN[:4])
        self.assertEqual((status, out), (0, "w: 1 features read, 1 taken\n"))
        err = self.refused(self.store, target, "--overwrite")
        self.assertIn("not supported with row-level security", err)
        self.assertEqual(self.ask("SELECT count(*) FROM w"), [(2,)])

    def test_geometries_with_z_or_m_are_not_replaced(self):
        for kind, wkt in (("geometry", "POINT Z (1 2 3)"), ("geometry(PointM)", "POINT M (1 2 3)")):
            self.ask(f"DROP TABLE IF EXISTS w; CREATE TABLE w (id int PRIMARY KEY, geom {kind}); INSERT INTO w VALUES (1, '{wkt}')")
            self.assertEqual(bring_in(self.target, self.store, *PLAIN[:4], "--drop-zm", "--overwrite")[0], 0)
            err = self.refused(self.store, self.target, "--overwrite")
            self.assertIn("the table w has Z or M in 1 geometries, which no store has. They would be lost: ", err)
            self.assertEqual(self.ask("SELECT ST_CoordDim(geom) FROM w"), [(3,)])

    def test_rows_that_the_store_has_not_are_told_before_they_go(self):
        self.ask("CREATE TABLE w (id bigint PRIMARY KEY, n int, geom geometry(Point)); "
                 "INSERT INTO w SELECT i, i, ST_Point(i, 0) FROM generate_series(1, 5) i")
        self.assertEqual(bring_in(self.target, self.store, *PLAIN[:4])[0], 0)
        self.assertNotIn("removed", self.written(self.store, self.target, "--overwrite"))
        with Store(self.store, journal=True, program=PROGRAM) as store:
            store.delete("w", 3)
        self.ask("INSERT INTO w VALUES (40, 7, 'POINT(7 7)')")
        err = self.written(self.store, self.target, "--overwrite")
        self.assertIn("the table w has 2 rows that the store has not, and they are removed: 3, 40\n", err)
        self.ask("INSERT INTO w SELECT i, i, ST_Point(i, 0) FROM generate_series(100, 1200) i")
        err = self.written(self.store, self.target, "--overwrite")
        self.assertIn("has 1,101 rows that the store has not, and they are removed: 100, 101, ", err)
        self.assertIn(", 107 and 1,093 more\n", err)
        self.assertEqual(self.ask("SELECT count(*) FROM w"), [(4,)])

    def test_a_sequence_that_the_table_does_not_own_goes_on_too(self):
        self.ask("CREATE SEQUENCE numbers; CREATE TABLE w (id int PRIMARY KEY DEFAULT nextval('numbers'), geom geometry(Point)); "
                 "INSERT INTO w (geom) VALUES ('POINT(1 1)')")
        self.assertEqual(bring_in(self.target, self.store, *PLAIN[:4])[0], 0)
        with Store(self.store, journal=True, program=PROGRAM) as store:
            for _ in range(5):
                store.add("w", "POINT (2 2)")
        err = self.written(self.store, self.target, "--overwrite")
        self.assertNotIn("sequence", err)
        self.assertEqual(self.ask("INSERT INTO w (geom) VALUES ('POINT(3 3)') RETURNING id"), [(7,)])
        self.ask("ALTER SEQUENCE numbers MAXVALUE 7")
        with Store(self.store, journal=True, program=PROGRAM) as store:
            for _ in range(5):
                store.add("w", "POINT (2 2)")
        self.assertIn("the sequence numbers can't be set to 12: the database may give w ", self.written(self.store, self.target, "--overwrite"))

    def test_an_export_that_breaks_off_leaves_all_as_it_was(self):
        lines = ["layer add a point", "add a POINT (1 1)", "layer add b point", "column add b n int",
                 "add b POINT (1 1)", "set b 1 n 5"]
        self.written(self.made(lines), self.target, *PLAIN)
        self.ask("ALTER TABLE b ALTER n TYPE smallint")
        store = self.made([*lines, "add a POINT (2 2)", "set b 1 n 99999"])
        err = self.refused(store, self.target, *PLAIN, "--overwrite")
        self.assertIn("the database refused it: value \"99999\" is out of range for type smallint", err)
        self.assertEqual(self.ask("SELECT count(*) FROM a"), [(1,)])
        with mock.patch("sfstore.exchange.postgis.read_wkb", side_effect=KeyboardInterrupt):
            self.assertIn("interrupted; nothing was written", self.refused(store, self.target, *PLAIN, "--overwrite"))
        self.assertEqual(self.ask("SELECT count(*) FROM a"), [(1,)])

    def test_who_holds_a_table_is_not_waited_for_for_ever(self):
        self.written(self.wells(), self.target, *PLAIN)
        holder = psycopg2.connect(self.dsn)
        self.addCleanup(holder.close)
        holder.cursor().execute("SELECT * FROM wells")
        with mock.patch("sfstore.exchange.postgis._LOCK_SECONDS", 1):
            err = self.refused(self.wells(), self.target, *PLAIN, "--overwrite")
        self.assertIn("canceling statement due to lock timeout", err)


class Written(DatabaseCase):
    """What is written comes back."""

    def test_names_that_ogr_makes(self):
        for name in ("wkb_geometry", "Wkb_Geometry", "ogc_fid", "OGC_FID", "ctid", "tableOID", "geom", "id"):
            with self.subTest(name):
                self.ask("DROP TABLE IF EXISTS w")
                store = self.made(["layer add w point", f"column add w {name} text", "add w POINT (1 1)",
                                   f"set w 1 {name} 'value'"])
                err = self.written(store, self.target, *PLAIN)
                there = name if name in ("geom", "id") else f"{name}_2"
                if there != name:
                    self.assertIn(f"the name {name} of a column of w: it is {there} there", err)
                self.assertEqual(bring_in(self.target, self.store, *GRID, "--overwrite")[0], 0)
                self.assertEqual([feature.values for feature in self.shown("w")], [{there: "value"}])

    def test_names_of_any_letters(self):
        names = ['w"; DROP TABLE x; --', "100%", "x%s", "Fluß", "a\\b", "a'b", "w" * 70, "a b.c d", "select", "1"]
        source = Source(self.folder / "odd.gpkg")
        for name in names:
            odd = f"{name[:50]} %(x)s $1"
            source.layer(name, {1: ("POINT (1 2)", {odd: 7})}, columns=[(odd, ogr.OFTInteger)])
        source.close()
        self.ask("CREATE TABLE x (n int)")
        self.assertEqual(bring_in(self.folder / "odd.gpkg", self.store, *GRID)[0], 0)
        err = self.written(self.store, self.target)
        self.assertIn(f"the name {'w' * 70} of a layer: it is {'w' * 63} there", err)
        there = dict(self.ask("SELECT relname, oid FROM pg_class WHERE relkind = 'r' AND relnamespace = 'public'::regnamespace"))
        for name in names:
            self.assertIn(name[:63], there)
        self.assertIn("x", there)
        self.written(self.store, self.target, "--overwrite")
        self.assertEqual(bring_in(self.target, self.folder / "again.sfs", *GRID, "--layer", names[0])[0], 0)
        with Store(PROGRAM, load=self.folder / "again.sfs") as store:
            [layer] = store.layers()
            self.assertEqual([list(feature.values.values()) for feature in store.show(layer.name)], [[7]])

    def test_columns_that_differ_in_case_go_out_as_two(self):
        store = self.made(["layer add w point", "column add w Name text", "column add w name text",
                           "add w POINT (1 1)", "set w 1 Name 'a'", "set w 1 name 'b'"])
        err = self.written(store, self.target, *PLAIN)
        self.assertIn("the name name of a column of w: it is name_2 there", err)
        self.assertEqual(bring_in(self.target, self.store, *GRID)[0], 0)
        self.assertEqual(self.shown("w")[0].values, {"Name": "a", "name_2": "b"})

    def test_columns_of_others_that_differ_in_case_are_not_confused(self):
        self.ask("CREATE TABLE w (gid serial PRIMARY KEY, \"Name\" text, name text, n int, geom geometry(Point)); "
                 "INSERT INTO w VALUES (1, 'a', 'b', 5, 'POINT(1 1)')")
        status, out, _ = bring_in(self.target, self.store, *GRID)
        self.assertEqual(status, 1)
        self.assertIn("columns whose names differ in case alone", out)
        self.assertEqual(self.shown("w")[0].values, {"n": 5})

    def test_tables_with_a_column_that_differs_from_the_key_or_the_geometry_in_case_alone_are_left_out(self):
        self.ask("CREATE TABLE plain (id int PRIMARY KEY, geom geometry(Point)); INSERT INTO plain VALUES (5, 'POINT(5 5)')")
        for columns, values, shown in (
            ('"ID" int PRIMARY KEY, id text, geom geometry(Point)', "1, '7', 'POINT(1 1)'", '"ID" from "id"'),
            ('id int, "ID" int PRIMARY KEY, geom geometry(Point)', "7, 1, 'POINT(1 1)'", '"id" from "ID"'),
            ('gid int PRIMARY KEY, "Geom" geometry(Point), geom geometry(Point)', "1, 'POINT(9 9)', 'POINT(1 1)'", '"Geom" from "geom"'),
            ('gid int PRIMARY KEY, geom geometry(Point), "GEOM" int', "1, 'POINT(1 1)', 5", '"geom" from "GEOM"'),
        ):
            with self.subTest(columns):
                self.ask(f"DROP TABLE IF EXISTS w; CREATE TABLE w ({columns}); INSERT INTO w VALUES ({values})")
                status, out, err = bring_in(self.target, self.store, *GRID, "--overwrite")
                self.assertEqual((status, err), (1, ""), out)
                self.assertIn(f"w: 0 features read, 0 taken\n  the layer is left out: OGR does not tell its columns {shown}: rename one of them\n", out)
                with Store(PROGRAM, load=self.store) as store:
                    self.assertEqual([layer.name for layer in store.layers()], ["plain"])
                # Whoever names it wants it.
                before = self.store.read_bytes()
                err = f"sfstore-import: layer w can't be read: OGR does not tell its columns {shown}: rename one of them\n"
                self.assertEqual(bring_in(self.target, self.store, *GRID, "--overwrite", "--layer", "w"), (3, "", err))
                self.assertEqual(self.store.read_bytes(), before)
                status, out, err = bring_in("--suggest", self.target)
                self.assertEqual((status, err), (0, f"w is left out: OGR does not tell its columns {shown}: rename one of them\n"))
                self.assertIn("x goes from 5.0 to 5.0\n", out)

    def test_columns_that_differ_from_a_second_geometry_in_case_alone_are_left_out(self):
        self.ask("CREATE TABLE w (gid serial PRIMARY KEY, geom geometry(Point), \"Other\" geometry(Point), other text, n int); "
                 "INSERT INTO w VALUES (1, 'POINT(1 1)', 'POINT(9 9)', 'a', 5)")
        status, out, _ = bring_in(self.target, self.store, *GRID)
        self.assertEqual(status, 1)
        self.assertIn("differ in case alone, which OGR does not tell apart, are left out: other\n", out)
        self.assertEqual([(feature.wkt, feature.values) for feature in self.shown("w")], [("POINT (1 1)", {"n": 5})])

    def test_layers_that_would_go_to_one_table_are_refused(self):
        source = Source(self.source)
        source.layer("public.wells", {1: ("POINT (500001 5600001)", {})}, ogr.wkbPoint)
        source.layer("wells", {1: ("POINT (500002 5600002)", {})}, ogr.wkbPoint)
        source.close()
        self.assertEqual(bring_in(self.source, self.store, "--grid", "500000", "5600000", "1")[0], 0)
        self.ask("CREATE TABLE wells (fid serial PRIMARY KEY, geom geometry(Point, 25832)); "
                 "INSERT INTO wells VALUES (7, 'SRID=25832;POINT(7 7)')")
        self.assertIn("public.wells and wells would go to one table", self.refused(self.store, self.target, "--overwrite"))
        self.assertEqual(self.ask("SELECT fid FROM wells"), [(7,)])

    def test_numbers_that_are_no_doubles_come_in_as_they_are(self):
        self.ask("CREATE TABLE wells (gid serial PRIMARY KEY, whole numeric, part numeric, long numeric, geom geometry(Point)); "
                 "INSERT INTO wells VALUES (1, 9007199254740993, 0.12345678901234567891, 1e300, 'POINT(1 2)'), "
                 "(2, 7, 0.5, 0.1, 'POINT(1 2)'), (3, -9223372036854775808, 1e-200, repeat('7', 400)::numeric, 'POINT(1 2)')")
        status, out, err = bring_in(self.target, self.store, *GRID, "--layer", "wells", "--as-text")
        self.assertEqual((status, err), (0, ""), out)
        with Store(PROGRAM, load=self.store) as store:
            rows = [feature.values for feature in store.show("wells")]
        self.assertEqual([row.get("whole") for row in rows], [9007199254740993, 7, -(2**63)])
        self.assertEqual([row.get("part") for row in rows], ["0.12345678901234567891", "0.5", "1e-200"])
        self.assertEqual([row.get("long") for row in rows], ["1e+300", "0.1", "7" * 400])
        status, out, _ = bring_in(self.target, self.store, *GRID, "--layer", "wells", "--overwrite")
        self.assertEqual(status, 1)
        self.assertIn("2 a number with more than 18 places: 1 (the value of column part is left out), 3 (", out)
        self.assertIn("2 a number of more than 64 bits: 1 (the value of column long is left out), 3 (", out)
        with Store(PROGRAM, load=self.store) as store:
            self.assertEqual([feature.values for feature in store.show("wells")][1], {"whole": 7, "part": Decimal("0.5"), "long": Decimal("0.1")})

    def test_lists_come_in_as_the_database_has_them(self):
        self.ask("CREATE TABLE w (gid serial PRIMARY KEY, i int[], s smallint[], l bigint[], r real[], d double precision[], "
                 "n numeric[], b boolean[], t text[], v varchar[], c char(3)[], geom geometry(Point)); "
                 "INSERT INTO w (i, s, l, r, d, n, b, t, v, c, geom) VALUES "
                 "('{1,-2}', '{3}', '{9223372036854775807}', '{0.5,-1e+30}', '{0.1,1e-300}', '{1.10}', '{t,f}', '{a,ä}', '{a b}', '{ab}', 'POINT(1 1)'), "
                 "('[0:1]={1,2}', '[2:3]={7,8}', '[-1:0]={1,2}', '[0:0]={0.5}', '[5:5]={0.1}', '[0:1]={1,2}', '[0:1]={t,f}', '[0:1]={a,b}', '[0:0]={a}', '[3:3]={a}', 'POINT(1 1)'), "
                 "('{}', '{}', '{}', '{}', '{}', '{}', '{}', '{}', '{}', '{}', 'POINT(1 1)'), "
                 "('{1,NULL}', '{{1,2},{3,4}}', NULL, '{NaN,1}', '{-Infinity}', '{NULL}', '{NULL,t}', '{NULL}', '{NULL,a}', NULL, 'POINT(1 1)'), "
                 "(NULL, NULL, NULL, NULL, NULL, NULL, NULL, ARRAY['a\\\\x', '{y}', '', 'NULL', 'a\"b', 'c,d', ' e ', '[f'], '{\"\"}', NULL, 'POINT(1 1)'); "
                 "CREATE VIEW plain AS SELECT i, t, geom FROM w WHERE gid = 1; CREATE VIEW odd AS SELECT i, t, geom FROM w WHERE gid IN (1, 5)")
        status, out, err = bring_in(self.target, self.store, *GRID, "--as-text", "--layer", "w", "--layer", "plain", "--layer", "odd")
        self.assertEqual((status, err), (1, ""), out)
        self.assertEqual(out.count("left out"), 1, out)
        self.assertIn("a column with 1 values that are none of its type StringList is left out, since no identifiers say of which features: t\n", out)
        for column in "islrdnbtvc":
            wanted = [known for (known,) in self.ask(f"SELECT to_json({column}) FROM w ORDER BY gid")]
            found = [feature.values.get(column) for feature in self.shown("w")]
            self.assertEqual([text and json.loads(text) for text in found], wanted, column)
        self.assertEqual([feature.values for feature in self.shown("plain")], [{"i": "[1, -2]", "t": '["a", "ä"]'}])
        self.assertEqual([feature.values for feature in self.shown("odd")], [{"i": "[1, -2]"}, {}])

    def test_geometries_of_other_reference_systems_are_told(self):
        def made(*srids):
            with self.asking() as ask:
                ask("DROP TABLE IF EXISTS wells")
                ask("CREATE TABLE wells (id serial PRIMARY KEY, g geometry)")
                for srid in srids:
                    ask(f"INSERT INTO wells (g) VALUES (ST_SetSRID(ST_MakePoint(1, 1), {srid}))")
            status, out, _ = bring_in(self.target, self.store, *GRID, "--overwrite")
            code = json.loads((self.folder / f"{self.store.name}.json").read_text())["crs"]
            return status, code and code["code"], [feature.id for feature in self.shown("wells")], out

        reason = "a geometry of another reference system than the layer's: "
        status, code, taken, out = made(25832, 4326, 25832, 2056)
        self.assertEqual((status, code, taken), (1, "25832", [1, 3]))
        self.assertIn(f"2 {reason}2 (its SRID is 4326), 4 (its SRID is 2056)\n", out)
        self.assertEqual(made(4326, 4326)[:3], (0, "4326", [1, 2]))
        status, code, taken, out = made(0, 4326)
        self.assertEqual((status, code, taken), (1, None, [1]))
        self.assertIn(f"1 {reason}2 (its SRID is 4326)\n", out)
        status, code, taken, out = made(4326, 0)
        self.assertEqual((status, code, taken), (1, "4326", [1, 2]))
        self.assertIn("geometries that name no reference system are taken as of the layer's: 1 of them\n", out)
        with self.asking() as ask:
            ask("INSERT INTO wells (g) VALUES (ST_SetSRID(ST_MakePoint(1, 1), 25832))")
            ask("CREATE VIEW seen AS SELECT g FROM wells")
        before = self.store.read_bytes()
        status, _, err = bring_in(self.target, self.store, *GRID, "--overwrite", "--layer", "seen")
        self.assertEqual((status, self.store.read_bytes()), (3, before))
        self.assertIn("layer seen has geometries of other reference systems than its own, and no identifiers say which\n", err)

    def test_tables_without_geometries_are_told(self):
        self.ask("CREATE SCHEMA maps; CREATE TABLE maps.owners (x int); CREATE TABLE prices (x int); CREATE VIEW all_prices AS SELECT * FROM prices; "
                 "CREATE TABLE w (gid serial PRIMARY KEY, geom geometry(Point)); INSERT INTO w (geom) VALUES ('POINT(1 1)')")
        status, out, err = bring_in(self.target, self.store, *GRID)
        self.assertEqual((status, err), (1, ""), out)
        for name in ("all_prices", "maps.owners", "prices"):
            self.assertIn(f"{name}: 0 features read, 0 taken\n  a table without geometries: its rows are left out\n", out)
        self.assertNotIn("spatial_ref_sys", out)
        self.assertEqual(bring_in(self.target, self.store, *GRID, "--layer", "w", "--overwrite")[0], 0)

    def test_the_database_never_counts_back(self):
        store = self.wells()
        self.written(store, self.target, *PLAIN)
        [[sequence]] = self.ask("SELECT pg_get_serial_sequence('wells', 'ogc_fid')")
        for given, following in ((f"setval('{sequence}', 5000)", 5001), (f"setval('{sequence}', 6000, false)", 6000)):
            self.ask(f"SELECT {given}")
            self.written(store, self.target, "--overwrite")
            self.assertEqual(self.ask(f"SELECT nextval('{sequence}')"), [(following,)])

    def test_the_database_counts_on(self):
        store = self.wells("add wells POINT (5 5)", "delete wells 2")
        self.written(store, self.target, *PLAIN)
        self.ask("INSERT INTO wells (depth) VALUES (1)")
        self.assertEqual(self.ask("SELECT max(ogc_fid) FROM wells"), [(3,)])

    def test_forms_of_a_target(self):
        self.ask("CREATE SCHEMA maps; CREATE SCHEMA others")
        host = self.server.dsn().split()[0].removeprefix("host=")
        plain = f"dbname=town host={host} user=postgres port=5432"
        for number, (words, table) in enumerate((
            (f"PG:{plain}", "public.w"),
            (f"PG:dbname='town' host='{host}' user='postgres'", "public.w"),
            (f'PG:"dbname=town host={host} user=postgres"', "public.w"),
            (f"PG:{plain} active_schema=maps", "maps.w"),
            (f"PG:{plain} schemas=maps", "maps.w"),
            (f"PG:{plain} active_schema='others' schemas='others,maps'", "others.w"),
            (f"PG:{plain} tables=public.none", "public.w"),
        )):
            with self.subTest(words):
                self.ask("DROP TABLE IF EXISTS w, maps.w, others.w")
                store = self.made(["layer add w point", f"add w POINT ({number} 1)"])
                self.written(store, words, *PLAIN)
                self.assertEqual(self.ask(f"SELECT ST_X(wkb_geometry)::int FROM {table}"), [(number,)])
        with mock.patch.dict(os.environ, {"PGHOST": host, "PGUSER": "postgres"}):
            self.ask("DROP TABLE w")
            self.written(store, "PG:dbname=town", *PLAIN[:0])
            self.assertEqual(self.ask("SELECT count(*) FROM w"), [(1,)])
        err = self.refused(store, f"PG:{plain} active_schema=none")
        self.assertIn("the database has no schema none", err)

    def test_a_table_of_another_schema_goes_back_to_it(self):
        self.ask("CREATE SCHEMA maps; CREATE TABLE maps.w (gid serial PRIMARY KEY, geom geometry(Point)); "
                 "INSERT INTO maps.w (geom) VALUES ('POINT(1 1)')")
        self.assertEqual(bring_in(self.target, self.store, *GRID)[0], 0)
        with Store(self.store, journal=True, program=PROGRAM) as store:
            [layer] = store.layers()
            store.add(layer.name, "POINT (2 2)")
        self.written(self.store, self.target, "--overwrite")
        self.assertEqual(self.ask("SELECT gid, ST_X(geom)::int FROM maps.w ORDER BY 1"), [(1, 1), (2, 2)])

    def test_a_name_with_a_point_is_that_of_one_table(self):
        self.ask("CREATE SCHEMA maps; CREATE TABLE \"maps.w\" (id int PRIMARY KEY, n int, geom geometry(Point)); "
                 "INSERT INTO \"maps.w\" VALUES (1, 5, 'POINT(1 1)')")
        status, out, err = bring_in(self.target, self.store, *GRID)
        self.assertEqual((status, err), (0, ""), out)
        with Store(self.store, journal=True, program=PROGRAM) as store:
            [layer] = store.layers()
            store.set(layer.name, 1, "n", 6)
        self.written(self.store, self.target, "--overwrite")
        self.assertEqual(self.ask('SELECT n FROM "maps.w"'), [(6,)])
        self.assertEqual(self.ask("SELECT to_regclass('maps.w')::text"), [(None,)])

    def test_tables_of_one_name_of_ogr_are_left_out_and_not_replaced(self):
        self.ask("CREATE SCHEMA maps; CREATE TABLE \"maps.w\" (id int PRIMARY KEY, geom geometry(Point)); "
                 "INSERT INTO \"maps.w\" VALUES (1, 'POINT(1 1)')")
        self.assertEqual(bring_in(self.target, self.store, *GRID)[0], 0)
        self.ask("CREATE TABLE maps.w (LIKE \"maps.w\" INCLUDING ALL); INSERT INTO maps.w VALUES (1, 'POINT(2 2)'), (2, 'POINT(3 3)')")
        err = self.refused(self.store, self.target, "--overwrite")
        self.assertIn('OGR does not tell the tables "maps"."w" from "public"."maps.w": rename one of them\n', err)
        self.assertEqual(self.ask("SELECT count(*) FROM maps.w"), [(2,)])
        before = self.store.read_bytes()
        err = 'sfstore-import: layer maps.w can\'t be read: OGR does not tell "maps"."w" from "public"."maps.w": rename one of them\n'
        self.assertEqual(bring_in(self.target, self.store, *GRID, "--overwrite"), (3, "", err))
        self.assertEqual(self.store.read_bytes(), before)

    def test_names_of_the_system_are_no_names_of_tables(self):
        self.ask("CREATE SCHEMA maps")
        target = f"{self.target} active_schema=maps"
        for name in ("pg_class", "spatial_ref_sys", "geometry_columns"):
            store = self.made([f"layer add {name} point", f"add {name} POINT (1 2)"])
            err = self.refused(store, target, *PLAIN)
            self.assertIn(f"OGR would not tell a table {name} from the one that the database has for itself: rename the layer\n", err)
        for name in ("pg_class", "spatial_ref_sys", "pg_wells"):
            self.ask(f"CREATE TABLE maps.{name} (id int PRIMARY KEY, geom geometry(Point)); INSERT INTO maps.{name} VALUES (1, 'POINT(1 2)')")
        status, out, err = bring_in(f"{target} schemas=maps", self.store, *GRID, "--overwrite")
        self.assertEqual((status, err), (1, ""), out)
        self.assertIn("pg_class: 0 features read, 0 taken\n  the layer is left out: OGR finds the table of the system that has its name: rename it\n", out)
        for name in ("spatial_ref_sys", "pg_wells"):
            self.assertIn(f"{name}: 1 features read, 1 taken\n", out)
        # By the name of its schema it is another one.
        status, out, err = bring_in(f"{self.target} tables=maps.pg_class", self.store, *GRID, "--overwrite")
        self.assertEqual((status, out, err), (0, "maps.pg_class: 1 features read, 1 taken\n  the layer has the name maps_pg_class\n", ""))
        self.written(self.store, self.target, "--overwrite")

    def test_words_that_are_wrong(self):
        store = self.wells()
        self.assertIn("the database does not open: ", self.refused(store, "PG:nonsense", *PLAIN))
        with mock.patch.dict(sys.modules, {"psycopg2": None}):
            err = self.refused(store, self.target, *PLAIN)
        self.assertIn("needs psycopg2, in Debian the package python3-psycopg2", err)
        with self.asking("postgres") as ask:
            ask("DROP DATABASE IF EXISTS bare")
            ask("CREATE DATABASE bare")
        err = self.refused(store, f"PG:{self.server.dsn(database='bare')}", *PLAIN)
        self.assertIn("the database has no PostGIS: say CREATE EXTENSION postgis in it", err)

    def test_a_password_is_not_shown(self):
        place = "PG:host=/missing dbname=x password=secret"
        for status, out, err in (give_back(self.wells(), place, *PLAIN), bring_in(place, self.store, *GRID)):
            self.assertEqual(status, 3)
            self.assertIn("the database does not open: ", err)
            self.assertNotIn("secret", out + err)

    def test_reference_systems(self):
        for name, code in (("EPSG:4326", ("EPSG", "4326")), ("ESRI:102017", ("ESRI", "102017")), (None, None),
                           ("+proj=tmerc +lat_0=1 +lon_0=2 +ellps=bessel", ("", ""))):
            with self.subTest(name):
                self.ask("DROP TABLE IF EXISTS w")
                store = self.made(["layer add w point", "add w POINT (10 50)"])
                self.written(store, self.target, *GRID, *(["--crs", name] if name else []))
                self.assertEqual(bring_in(self.target, self.store, *GRID, "--overwrite")[0], 0)
                self.assertEqual(self.shown("w")[0].wkt, "POINT (10 50)")
                found = self.side_car()["crs"]
                self.assertEqual(found and (found["authority"], found["code"]), code)

    def side_car(self):
        return json.loads(Path(f"{self.store}.json").read_text())

    def test_two_exports_at_once(self):
        """One of them makes the table, and the other one says so."""
        store = self.wells()
        self.written(store, self.folder / "first.gpkg", *PLAIN)
        words = [sys.executable, "-m", "sfstore.exchange.exporting", str(store), self.target, "--program", PROGRAM]
        both = [subprocess.Popen(words, cwd=FOLDER, stderr=subprocess.DEVNULL) for _ in range(2)]
        ended = [process.wait() for process in both]
        self.assertEqual(sorted(ended), [0, 3])
        self.assertEqual(self.ask("SELECT depth FROM wells"), [(7,)])


if __name__ == "__main__":
    unittest.main()
