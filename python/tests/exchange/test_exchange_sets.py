"""Tests of exports as sets of files, of the names in them, and of imports that break off, over real GDAL."""

from __future__ import annotations

import contextlib
import os
import signal
import sqlite3
import stat
import subprocess
import sys
import unittest
from pathlib import Path
from unittest import mock

from support import FOLDER, PROGRAM

from journal_plain import old_journal
from test_exchange import GRID, HAS_GDAL, KINDS, ExchangeCase, Source, bring_in, give_back
from test_placing import at_call, fail, interrupt

from sfstore import Store, files, sidecar
from sfstore.exchange import exporting, placing, publishing, rulesfile, telling

if HAS_GDAL:
    from osgeo import gdal, ogr

PLAIN = ["--grid", "0", "0", "1", "--crs", "EPSG:25832"]

WELLS = [
    "layer add wells point",
    "column add wells depth int",
    "column add wells label text",
    "add wells POINT (3 4)",
    "set wells 1 depth 12",
    "set wells 1 label 'old'",
]
OTHERS = ["layer add wells point", "column add wells depth int", "column add wells label text", "add wells POINT (100 100)"]


def parts(folder, stem):
    return sorted(path.name for path in folder.iterdir() if path.name.startswith(stem))


class SetCase(ExchangeCase):
    def made(self, name, lines):
        """A store of lines that was not imported."""
        path = self.folder / name
        with Store(PROGRAM, save=path) as store:
            store.run_all(lines)
        return path

    def shown_features(self, path):
        layer = (data := ogr.Open(str(path))).GetLayer(0)
        found = [(f.GetGeometryRef().ExportToWkt(), f.items()) for f in layer]
        del layer, data
        return found

    def hidden(self):
        names = (path.name for path in self.folder.rglob(".*"))
        return [name for name in names if not name.endswith(".lock")]


class Tables(SetCase):
    def test_a_geopackage_with_tables_of_others_is_not_replaced(self):
        store, target = self.made("t.sfs", WELLS), self.folder / "out.gpkg"
        self.assertEqual(give_back(store, target, *PLAIN)[0], 0)
        with contextlib.closing(sqlite3.connect(target)) as opened:
            opened.executescript("CREATE TABLE layer_styles (id integer PRIMARY KEY, style text); INSERT INTO layer_styles VALUES (1, 'red')")
        before = target.read_bytes()
        status, _, err = give_back(store, target, "--overwrite")
        self.assertEqual(status, 3)
        self.assertIn(f"{target} has tables that the new one has not, and they would be lost: layer_styles. Name another file", err)
        self.assertEqual(target.read_bytes(), before)

    def test_nor_is_one_with_pictures_or_with_tables_that_ogr_does_not_list(self):
        store, target = self.made("t.sfs", WELLS), self.folder / "out.gpkg"
        picture = gdal.GetDriverByName("MEM").Create("", 64, 64, 3)
        picture.SetGeoTransform([0, 1, 0, 64, 0, -1])

        def add_picture(*options):
            gdal.Translate(str(target), picture, format="GPKG", creationOptions=["RASTER_TABLE=photo", *options])

        def add_table():
            with contextlib.closing(sqlite3.connect(target)) as opened:
                # OGR lists no such table where this extension is.
                opened.executescript("CREATE TABLE notes (note text); INSERT INTO gpkg_extensions (extension_name, definition, scope) "
                                     "VALUES ('gdal_aspatial', '', 'read-write')")

        for name, begin, add in (
            ("photo", True, lambda: add_picture("APPEND_SUBDATASET=YES")), ("photo", False, add_picture), ("notes", True, add_table)
        ):
            with self.subTest(name, begin=begin):
                target.unlink(missing_ok=True)
                if begin:
                    self.assertEqual(give_back(store, target, *PLAIN)[0], 0)
                    (self.folder / "t.sfs.json").unlink()
                add()
                before = target.read_bytes()
                status, _, err = give_back(store, target, *PLAIN, "--overwrite")
                self.assertEqual(status, 3)
                self.assertIn(f"tables that the new one has not, and they would be lost: {name}. Name another file", err)
                self.assertEqual(target.read_bytes(), before)
                if begin:
                    status, out, _ = bring_in(target, self.store, "--overwrite")
                    self.assertEqual(status, 1)
                    self.assertIn(f"{name}: 0 features read, 0 taken\n  a table without geometries: its rows are left out\n", out)

    def test_what_the_import_has_left_out_is_told_before_its_file_is_replaced(self):
        path = self.folder / "own.gpkg"
        source = Source(path)
        columns = [("n", ogr.OFTReal), ("photo", ogr.OFTBinary)]
        features = {1: ("POINT (500001 5600001)", {"n": 1e-30}), 2: ("POINT (500001.001 5600001)", {}), 3: ("POINT Z (500002 5600001 7)", {})}
        source.layer("wells", features, ogr.wkbPoint, columns).close()
        self.assertEqual(bring_in(path, self.store, *GRID, "--overwrite", "--drop-zm")[0], 1)
        words = "wells is without what its import has left out: 1 features; values of 1 features; all of photo, Z or M. "
        self.assertNotIn(words, give_back(self.store, self.folder / "new.gpkg")[2])
        # Also once a session has saved the store.
        with Store(self.store, journal=True, program=PROGRAM) as store:
            store.delete("wells", 3)
        self.assertIn(words, give_back(self.store, path, "--overwrite")[2])

    def test_nor_is_one_with_layers_or_columns_that_are_not_written(self):
        store, target = self.made("t.sfs", [*WELLS, "layer add roads linestring", "add roads LINESTRING (0 0, 5 5)"]), self.folder / "out.gpkg"
        self.assertEqual(give_back(store, target, *PLAIN)[0], 0)

        def refused(store, what, *words):
            before = target.read_bytes()
            status, _, err = give_back(store, target, "--overwrite", *words)
            self.assertEqual(status, 3)
            self.assertIn(f"{target} has {what}. Name another file, or take that one away\n", err)
            self.assertEqual(target.read_bytes(), before)

        def edited(*lines):
            with Store(store, journal=True, program=PROGRAM) as opened:
                opened.run_all(lines)

        refused(store, "tables that the new one has not, and they would be lost: roads", "--layer", "wells")
        refused(self.made("u.sfs", OTHERS), "tables that the new one has not, and they would be lost: roads", *PLAIN)
        edited("layer rename roads streets")
        refused(store, "tables that the new one has not, and they would be lost: roads")
        edited("layer rename streets roads", "column drop wells label")
        refused(store, "columns that the new one has not, and they would be lost: wells.label")
        edited("column add wells label text")
        with contextlib.closing(sqlite3.connect(target)) as opened:
            opened.executescript("ALTER TABLE wells ADD COLUMN photo text; ALTER TABLE roads ADD COLUMN Lanes int")
        refused(store, "columns that the new one has not, and they would be lost: roads.Lanes, wells.photo")
        edited("column add wells photo text", "column add roads lanes int")
        self.assertEqual(give_back(store, target, "--overwrite"), (0, "", ""))

    def test_rows_of_others_are_told_before_they_go(self):
        store, target = self.made("t.sfs", WELLS), self.folder / "out.gpkg"
        self.assertEqual(give_back(store, target, *PLAIN)[0], 0)
        self.assertEqual(give_back(store, target, "--overwrite"), (0, "", ""))
        data = gdal.OpenEx(str(target), gdal.OF_UPDATE)
        layer = data.GetLayer(0)
        for number in (7, 40):
            feature = ogr.Feature(layer.GetLayerDefn())
            feature.SetFID(number)
            feature.SetGeometry(ogr.CreateGeometryFromWkt("POINT (9 9)"))
            layer.CreateFeature(feature)
        del feature, layer, data
        words = f"the layer wells of {target} has 2 rows that the store has not, and they are removed: 7, 40\n"
        self.assertEqual(give_back(store, target, "--overwrite"), (0, "", words))

    def test_rows_without_a_key_are_told_too(self):
        store, target = self.made("t.sfs", WELLS), self.folder / "out.gpkg"
        self.assertEqual(give_back(store, target, *PLAIN)[0], 0)
        with contextlib.closing(sqlite3.connect(target)) as opened:
            opened.executescript(
                "CREATE TABLE loose AS SELECT * FROM wells; DROP TABLE wells; ALTER TABLE loose RENAME TO wells; "
                "INSERT INTO wells SELECT * FROM wells; DELETE FROM gpkg_extensions WHERE table_name = 'wells'"
            )
        status, _, err = give_back(store, target, "--overwrite")
        self.assertEqual(status, 0, err)
        words = f"the layer wells of {target} has no key of one column: rows that the store has not are removed, and can't be named\n"
        self.assertIn(words, err)

    def test_one_that_can_not_be_read_is_not_replaced(self):
        store, target = self.made("t.sfs", WELLS), self.folder / "out.gpkg"
        self.assertEqual(give_back(store, target, *PLAIN)[0], 0)
        good = target.read_bytes()
        for data in (good[:100] + bytes(len(good) - 100), good[:50]):
            target.write_bytes(data)
            status, _, err = give_back(store, target, "--overwrite")
            self.assertEqual(status, 3)
            self.assertIn(f"{target} can't be read, and may have what would be lost", err)
            self.assertEqual(target.read_bytes(), data)

    def test_nor_is_one_that_another_program_has_locked(self):
        store, target = self.made("t.sfs", WELLS), self.folder / "out.gpkg"
        self.assertEqual(give_back(store, target, *PLAIN)[0], 0)
        before = target.read_bytes()
        with contextlib.closing(sqlite3.connect(target, isolation_level=None)) as locking:
            locking.execute("PRAGMA locking_mode = exclusive")
            locking.execute("BEGIN EXCLUSIVE")
            status, _, err = give_back(store, target, "--overwrite")
        self.assertEqual(status, 3)
        self.assertIn(str(target), err)
        self.assertEqual(target.read_bytes(), before)

    def test_one_that_is_written_meanwhile_is_not_replaced(self):
        store, target = self.made("t.sfs", WELLS), self.folder / "out.gpkg"
        self.assertEqual(give_back(store, target, *PLAIN)[0], 0)
        write = exporting.write_data

        def written(*words):
            with contextlib.closing(sqlite3.connect(target)) as opened:
                opened.executescript("CREATE TABLE notes (note text)")
            write(*words)

        with mock.patch.object(exporting, "write_data", written):
            status, _, err = give_back(store, target, "--overwrite")
        self.assertEqual((status, err), (3, f"sfstore-export: {target} was written by another program meanwhile: try again\n"))
        with contextlib.closing(sqlite3.connect(target)) as opened:
            self.assertEqual(opened.execute("SELECT count(*) FROM notes").fetchone(), (0,))

    def test_keys_that_no_store_has_are_those_of_its_rows(self):
        features = {5_000_000_000: ("POINT (500001 5600001)", {}), 7: ("POINT (500002 5600001)", {})}
        self.points(features, options=["FID=osm"])
        self.assertEqual(bring_in(self.source, self.store, *GRID)[0], 0)
        with Store(self.store, journal=True, program=PROGRAM) as store:
            [gone] = [feature.id for feature in store.show("wells") if feature.values["osm"] == 7]
            store.delete("wells", gone)
        status, _, err = give_back(self.store, self.source, "--overwrite")
        self.assertEqual(status, 0)
        self.assertIn(f"the layer wells of {self.source} has 1 row that the store has not, and they are removed: 7\n", err)


class Sets(SetCase):
    def test_a_shapefile_is_written_with_all_of_its_files(self):
        store, target = self.made("t.sfs", WELLS), self.folder / "out.shp"
        self.assertEqual(give_back(store, target, *PLAIN)[0], 0)
        names = [f"out.{ending}" for ending in ("cpg", "dbf", "prj", "shp", "shx")]
        self.assertEqual(parts(self.folder, "out"), names)
        self.assertEqual(
            self.shown_features(target), [("POINT (3 4)", {"depth": 12, "label": "old"})]
        )

    def test_a_shapefile_that_is_replaced_has_nothing_of_the_old_one(self):
        target = self.folder / "out.shp"
        self.assertEqual(give_back(self.made("t.sfs", WELLS), target, *PLAIN)[0], 0)
        store = self.made("u.sfs", OTHERS)
        self.assertEqual(give_back(store, target, *PLAIN[:4])[0], 3)
        self.assertEqual(give_back(store, target, *PLAIN[:4], "--overwrite")[0], 0)
        self.assertEqual(self.shown_features(target), [("POINT (100 100)", {"depth": None, "label": None})])
        # The new one has no reference system, and doesn't get the old one's.
        self.assertNotIn("out.prj", parts(self.folder, "out"))
        self.assertEqual(self.hidden(), [])

    def test_an_index_of_the_old_shapefile_is_in_the_way(self):
        target = self.folder / "out.shp"
        store = self.made("t.sfs", WELLS)
        for name in ("out.qix", "out.DBF", "out.shp.xml"):
            path = self.folder / name
            path.write_text("of QGIS")
            status, _, err = give_back(store, target, *PLAIN, "--overwrite")
            self.assertEqual(status, 3)
            self.assertIn(f"{name} would be read with the new out.shp", err)
            self.assertEqual(path.read_text(), "of QGIS")
            path.unlink()
        for name in ("out.txt", "out2.dbf", "out.gpkg"):
            (self.folder / name).write_text("of others")
        self.assertEqual(give_back(store, target, *PLAIN)[0], 0)
        self.assertEqual((self.folder / "out2.dbf").read_text(), "of others")

    def test_a_geopackage_that_another_program_writes_is_in_the_way(self):
        store, target = self.made("t.sfs", WELLS), self.folder / "out.gpkg"
        self.assertEqual(give_back(store, target, *PLAIN)[0], 0)
        writer = sqlite3.connect(target)
        self.addCleanup(writer.close)
        writer.execute("PRAGMA journal_mode = WAL")
        writer.execute("CREATE TABLE mine (x)")
        status, _, err = give_back(store, target, "--overwrite")
        self.assertEqual(status, 3)
        self.assertIn("would be read with the new out.gpkg", err)
        writer.execute("DROP TABLE mine")
        writer.close()
        self.assertEqual(give_back(store, target, "--overwrite")[0], 0)

    def test_a_folder_with_anything_else_is_refused(self):
        store, folder = self.made("t.sfs", WELLS), self.folder / "maps"
        (folder / "thesis").mkdir(parents=True)
        (folder / "thesis" / "chapter1.txt").write_text("years")
        words = [store, folder, *PLAIN, "--format", "GeoJSON", "--overwrite"]
        status, _, err = give_back(*words)
        self.assertEqual(status, 3)
        self.assertIn("thesis is there, and no file of this export", err)
        self.assertEqual((folder / "thesis" / "chapter1.txt").read_text(), "years")
        (folder / "thesis").rename(self.folder / "thesis")
        (folder / "roads.geojson").write_text("drawn by hand")
        self.assertEqual(give_back(*words)[0], 3)
        self.assertEqual((folder / "roads.geojson").read_text(), "drawn by hand")
        (folder / "roads.geojson").unlink()
        self.assertEqual(give_back(*words)[0], 0)
        words = [word for word in words if word not in PLAIN]
        self.assertEqual(give_back(*words)[0], 0)
        self.assertEqual(os.listdir(folder), ["wells.geojson"])
        self.assertEqual(self.hidden(), [])

    def test_an_export_that_was_killed_is_mended_by_the_next_one(self):
        target = self.folder / "out.shp"
        store, other = self.made("t.sfs", WELLS), self.made("u.sfs", OTHERS)
        self.assertEqual(give_back(store, target, *PLAIN)[0], 0)
        rename = os.rename
        # The first call moves the .shp aside, and the process ends before the second one.
        calls = []

        def last(*words):
            calls.append(words)
            if len(calls) == 2:
                os._exit(9)
            rename(*words)

        child = os.fork()
        if child == 0:
            with mock.patch.object(os, "rename", last):
                give_back(other, target, *PLAIN, "--overwrite")
            os._exit(0)
        self.assertEqual(os.waitstatus_to_exitcode(os.waitpid(child, 0)[1]), 9)
        self.assertNotIn("out.shp", parts(self.folder, "out"))
        status, _, err = give_back(store, target)
        self.assertIn("out.shp broke off: what stood there before stands there again", err)
        self.assertIn("out.shp is there already", err)
        self.assertEqual(self.shown_features(target)[0][0], "POINT (3 4)")
        self.assertEqual(self.hidden(), [])

    def test_nothing_takes_the_place_of_what_is_kept_beside_another_store(self):
        source, other = self.made("town.sfs", WELLS), self.made("other.sfs", OTHERS)
        for end in (".lock", ".journal", ".json", ".styles", ".socket"):
            for words in (["--format", "GeoJSON", str(source), f"{other}{end}"], ["--rules", f"{other}{end}", str(source), str(self.folder / "out.gpkg")]):
                status, _, err = give_back(*words, *PLAIN, "--overwrite")
                self.assertEqual((status, "is kept beside" in err), (3, True), (words, err))
        map_ = self.folder / "map.geojson"
        self.assertEqual(give_back(str(source), str(map_), *PLAIN)[0], 0)
        for end in (".lock", ".journal", ".json", ".styles", ".socket"):
            status, _, err = bring_in(str(map_), f"{other}{end}", "--grid", "0", "0", "1")
            self.assertEqual((status, "is kept beside" in err), (3, True), err)
            status, _, err = bring_in(str(map_), str(self.folder / "new.sfs"), "--grid", "0", "0", "1", "--overwrite", "--report", f"{other}{end}")
            self.assertEqual((status in (1, 3), "is kept beside" in err), (True, True), err)
        self.assertEqual(parts(self.folder, "other"), ["other.sfs"])

    def test_a_file_that_comes_meanwhile_stays(self):
        store = self.made("t.sfs", WELLS)
        sync = placing._sync_all

        def synced(folder):
            sync(folder)
            self.target.write_text("of somebody else")

        with mock.patch.object(placing, "_sync_all", synced):
            status, _, err = give_back(store, self.target, *PLAIN)
        self.assertEqual((status, err), (3, f"sfstore-export: {self.target} was made meanwhile\n"))
        self.assertEqual(self.target.read_text(), "of somebody else")

    def test_a_link_is_no_target(self):
        store, other = self.made("t.sfs", WELLS), self.folder / "other"
        other.write_text("precious")
        self.target.symlink_to(other)
        status, _, err = give_back(store, self.target, *PLAIN, "--overwrite")
        self.assertEqual(status, 3)
        self.assertIn("is a link: name what it leads to", err)
        self.assertEqual(other.read_text(), "precious")

    def test_the_store_is_no_target(self):
        store = self.made("t.sfs", WELLS)
        before = store.read_bytes()
        words = [store, store, *PLAIN, "--format", "GPKG", "--overwrite"]
        self.assertEqual(give_back(*words)[0], 2)
        self.assertEqual(store.read_bytes(), before)

    def test_a_map_of_a_closed_store_is_closed_too(self):
        store = self.made("t.sfs", WELLS)
        store.chmod(0o600)
        self.assertEqual(give_back(store, self.target, *PLAIN)[0], 0)
        self.assertEqual(stat.S_IMODE(self.target.stat().st_mode), 0o600)

    def test_a_store_that_is_saved_meanwhile(self):
        store, other = self.made("t.sfs", WELLS), self.made("u.sfs", OTHERS)
        loads = subprocess.run

        def saved(*words, **named):
            ended = loads(*words, **named)
            os.replace(other, store)
            return ended

        with mock.patch("sfstore.exchange.exporting.subprocess.run", saved):
            status, _, err = give_back(store, self.target, *PLAIN)
        self.assertEqual(status, 3)
        self.assertIn("is being written by another program", err)


class OtherFormats(SetCase):
    """What others have put into a map that is no GeoPackage is looked at before it is replaced."""

    LINES = ["layer add w point", "column add w a text", "add w POINT (1 1)", "set w 1 a 'x'", "add w POINT (2 2)"]

    def files(self):
        """The targets of each format with the words of the export, and the file that has the layer then."""
        for name, ending in (("GeoJSON", ".geojson"), ("FlatGeobuf", ".fgb"), ("ESRI Shapefile", ".shp")):
            yield [self.folder / f"w{ending}"], self.folder / f"w{ending}"
            yield [self.folder / f"maps{ending}x", "--format", name], self.folder / f"maps{ending}x" / f"w{ending}"

    def made_with_grid(self):
        store = self.made("t.sfs", self.LINES)
        self.assertEqual(give_back(store, self.folder / "first.gpkg", *PLAIN)[0], 0)
        return store

    def put(self, path, features, columns):
        """Puts a file of others in the place of one."""
        made = self.folder / "of_others"
        made.mkdir(exist_ok=True)
        driver = {".geojson": "GeoJSON", ".fgb": "FlatGeobuf", ".shp": "ESRI Shapefile"}[path.suffix]
        Source(made / path.name, driver).layer("w", features, ogr.wkbPoint, [(name, ogr.OFTString) for name in columns], options=["ID_GENERATE=YES"] if driver == "GeoJSON" else []).close()
        for each in made.iterdir():
            each.replace(path.with_name(each.name))

    def test_columns_of_others_are_not_lost(self):
        store = self.made_with_grid()
        for words, path in self.files():
            self.assertEqual(give_back(store, *words)[0], 0)
            self.put(path, {1: ("POINT (1 1)", {"a": "x", "owner": "Eve"})}, ["a", "owner"])
            before = path.read_bytes()
            status, _, err = give_back(store, *words, "--overwrite")
            self.assertEqual((status, path.read_bytes()), (3, before), err)
            self.assertIn(f"{path} has columns that the new one has not, and they would be lost: owner. Name another file", err)

    def test_rows_of_others_are_said(self):
        store = self.made_with_grid()
        for words, path in self.files():
            self.assertEqual(give_back(store, *words)[0], 0)
            self.assertNotIn("removed", give_back(store, *words, "--overwrite")[2])
            self.put(path, {1: ("POINT (1 1)", {"a": "x"}), 2: ("POINT (2 2)", {}), 9: ("POINT (9 9)", {"a": "y"}), 10: ("POINT (9 9)", {"a": "y"})}, ["a"])
            status, _, err = give_back(store, *words, "--overwrite")
            named = "2 rows that the store has not, and they are removed: 9, 10\n"
            self.assertIn(f"{path} has {named}" if path.suffix == ".geojson" else f"{path} has 2 rows that are not in the new one as in the old, of others or edited in the store: removed\n", err)
            self.assertEqual((status, len(self.shown_features(path))), (0, 2))

    def test_rows_of_a_geojson_without_identifiers_and_what_stands_beside_its_features_are_said(self):
        store, target = self.made("t.sfs", self.LINES), self.folder / "w.geojson"
        point = '{"type": "Feature", "style": "red", "properties": {"a": "y"}, "geometry": {"type": "Point", "coordinates": [9, 9]}}'
        target.write_text(f'{{"type": "FeatureCollection", "licence": "free", "features": [{point}, {point}]}}')
        status, _, err = give_back(store, target, *PLAIN, "--overwrite")
        self.assertEqual(status, 0)
        self.assertIn(f"{target} has 2 rows that are not in the new one as in the old, of others or edited in the store: removed\n", err)
        self.assertIn(f"{target} has what the new one has not, and it is gone then: members of features that are no properties are left out: style of 2; "
                      "members of the file beside its features are left out: licence\n", err)
        target.write_text("[1, 2")
        self.assertIn(f"{target} can't be read, and nobody knows what goes with it: ", give_back(store, target, "--overwrite")[2])

    def test_a_file_of_a_folder_that_is_written_meanwhile_stays(self):
        store, folder = self.made_with_grid(), self.folder / "maps"
        words = [store, folder, "--format", "GeoJSON"]
        self.assertEqual(give_back(*words)[0], 0)

        def written(*words):
            write_data(*words)
            (folder / "w.geojson").write_text("of others")

        write_data = exporting.write_data
        with mock.patch.object(exporting, "write_data", written):
            status, _, err = give_back(*words, "--overwrite")
        self.assertEqual((status, (folder / "w.geojson").read_text()), (3, "of others"), err)
        self.assertIn("w.geojson was written by another program meanwhile: try again\n", err)


class Names(SetCase):
    CASES = {
        "columns that differ in case": (
            ["layer add w point", "column add w Name text", "column add w name text"]
            + ["add w POINT (1 1)", "set w 1 Name 'a'", "set w 1 name 'b'"],
            "the name name of a column of w: it is name_2 there",
        ),
        "layers that differ in case": (
            ["layer add Wells point", "layer add wells point", "add Wells POINT (1 1)"]
            + ["add wells POINT (2 2)"],
            "the name wells of a layer: it is wells_2 there",
        ),
        "a text named as the identifiers": (
            ["layer add w point", "column add w fid text", "add w POINT (1 1)", "set w 1 fid 'x'"],
            "the name fid of a column that OGR makes: it is fid_2 there",
        ),
        "a number named as the identifiers": (
            ["layer add w point", "column add w fid int", "add w POINT (1 1)", "set w 1 fid 7"],
            "the name fid of a column that OGR makes: it is fid_2 there",
        ),
        "a column named as the geometries": (
            ["layer add w point", "column add w Geom text", "add w POINT (1 1)"],
            "the name geom of a column that OGR makes: it is geom_2 there",
        ),
        "a layer that GeoPackages have themselves": (
            ["layer add gpkg_contents point", "add gpkg_contents POINT (1 1)"],
            "the name gpkg_contents of a layer: it is x_gpkg_contents there",
        ),
        "a layer that SQLite has itself": (
            ["layer add sqlite_x point", "add sqlite_x POINT (1 1)"],
            "the name sqlite_x of a layer: it is x_sqlite_x there",
        ),
        "an index that GeoPackages have themselves": (
            ["layer add rtree_w_geom point", "layer add w point", "add w POINT (1 1)"],
            "the name rtree_w_geom of a layer: it is x_rtree_w_geom there",
        ),
        "words of SQL": (
            ["layer add select point", "column add select order int", "add select POINT (1 1)"]
            + ["column add select rowid int", "column add select oid int", "set select 1 rowid 9"],
            "",
        ),
    }

    def test_names_that_a_geopackage_can_not_have_come_back(self):
        for what, (lines, said) in self.CASES.items():
            with self.subTest(what):
                for path in self.folder.iterdir():
                    path.unlink()
                store, again = self.made("t.sfs", lines), self.folder / "again.sfs"
                status, _, err = give_back(store, self.target, *PLAIN)
                self.assertEqual(status, 0, err)
                self.assertEqual(err, f"GPKG does not keep {said}\n" if said else "")
                self.assertEqual(bring_in(self.target, again)[0], 0)
                self.assertEqual(again.read_bytes(), store.read_bytes())
                # What was imported goes out and in again too.
                self.assertEqual(give_back(again, self.target, "--overwrite")[0], 0)
                self.assertEqual(bring_in(self.target, again, "--overwrite")[0], 0)
                self.assertEqual(again.read_bytes(), store.read_bytes())

    def test_a_shapefile_of_qgis_goes_out_as_a_geopackage(self):
        """It has a column of the name of a GeoPackage's identifiers."""
        self.source = self.folder / "s.shp"
        source = Source(self.source, "ESRI Shapefile")
        features = {k: (KINDS["point"], {"fid": k + 7}) for k in range(2)}
        source.layer("s", features, ogr.wkbPoint, [("fid", ogr.OFTInteger64)])
        source.close()
        self.assertEqual(bring_in(self.source, self.store, *GRID)[0], 0)
        self.assertEqual(give_back(self.store, self.target)[0], 0)
        self.assertEqual([values for _, values in self.shown_features(self.target)], [{"fid": 7}, {"fid": 8}])

    def test_files_of_a_folder_do_not_fall_together(self):
        store, folder = self.made("t.sfs", self.CASES["layers that differ in case"][0]), self.folder / "out"
        status, _, err = give_back(store, folder, *PLAIN, "--format", "FlatGeobuf")
        self.assertEqual(status, 0)
        self.assertIn("the name wells of a layer: it is wells_2 there", err)
        self.assertEqual(sorted(os.listdir(folder)), ["Wells.fgb", "wells_2.fgb"])

    def test_long_names_of_a_shapefile(self):
        lines = ["layer add w point", "column add w measured_depth int", "column add w measured_depot int"]
        store, target = self.made("t.sfs", [*lines, "add w POINT (1 1)"]), self.folder / "out.shp"
        status, _, err = give_back(store, target, *PLAIN)
        self.assertIn("the name measured_depth of a column of w: it is measured_d there", err)
        self.assertIn("the name measured_depot of a column of w: it is measured_2 there", err)
        self.assertEqual(list(self.shown_features(target)[0][1]), ["measured_d", "measured_2"])


class Renames(SetCase):
    def setUp(self):
        super().setUp()
        definition = ogr.FieldDefn("offen", ogr.OFTInteger)
        definition.SetSubType(ogr.OFSTBoolean)
        source = Source(self.source)
        source.layer("Straßen", {})
        layer = source.data.GetLayerByName("Straßen")
        layer.CreateField(definition)
        feature = ogr.Feature(layer.GetLayerDefn())
        feature.SetGeometry(ogr.CreateGeometryFromWkt(KINDS["point"]))
        layer.CreateFeature(feature)
        del layer
        source.close()
        bring_in(self.source, self.store, *GRID)

    def test_a_new_layer_of_an_old_name_is_not_taken_for_the_old_one(self):
        with Store(self.store, journal=True, program=PROGRAM) as store:
            [layer] = store.layers()
            store.rename_layer(layer.name, "roads")
            store.add_layer(layer.name, "polygon")
        status, _, err = give_back(self.store, self.target)
        self.assertEqual(status, 0)
        self.assertIn(f"{layer.name} is not the layer that came from Straßen: it is a new one", err)
        self.assertIn("roads goes back by this name, with columns of the store's types", err)
        data = ogr.Open(str(self.target))
        self.assertEqual([data.GetLayer(at).GetName() for at in range(2)], ["roads", layer.name])

    def test_a_layer_that_was_only_added_is_no_matter(self):
        with Store(self.store, journal=True, program=PROGRAM) as store:
            store.add_layer("neu", "point")
        self.assertEqual(give_back(self.store, self.target), (0, "", ""))


class BreakingOff(SetCase):
    """An import over an older store that breaks off leaves the one or the other, with its side-car."""

    def setUp(self):
        super().setUp()
        self.points({1: ("POINT (500001 5600001)", {})})
        self.assertEqual(bring_in(self.source, self.store, *GRID)[0], 0)
        # One with a journal of edits that are saved.
        with Store(self.store, journal=True, program=PROGRAM) as store:
            store.add("wells", "POINT (1 1)")
        self.old = self.store.read_bytes()
        self.points_again({7: ("POINT (500007 5600007)", {})})

    def points_again(self, features):
        self.source.unlink()
        self.points(features)

    NEW_GRID = ["--grid", "500000", "5600000", "1", "--overwrite"]

    def check(self):
        """The store opens, and its side-car is of it."""
        found = sidecar.read(str(self.store))
        is_old = self.store.read_bytes() == self.old
        self.assertEqual(found.grid[2], "0.01" if is_old else "1")
        with Store(self.store, journal=True, program=PROGRAM) as store:
            self.assertEqual([f.id for f in store.show("wells")], [1, 2] if is_old else [7])
            store.close(save=False)
        return is_old

    def restore(self):
        for path in self.folder.iterdir():
            if path.name not in (self.source.name, "kept") and not path.name.startswith(".town.sfs."):
                path.unlink()
        for path in (self.folder / "kept").iterdir():
            (self.folder / path.name).write_bytes(path.read_bytes())

    def keep(self):
        (self.folder / "kept").mkdir()
        for path in self.folder.glob("town.sfs*"):
            (self.folder / "kept" / path.name).write_bytes(path.read_bytes())

    def bring_in(self):
        status, _, err = bring_in(self.source, self.store, *self.NEW_GRID)
        return status, err

    def each_call(self, broken_off):
        self.keep()
        ends = set()
        for number in range(200):
            self.restore()
            was_broken_off = broken_off(number)
            ends.add(self.check())
            self.assertEqual(self.bring_in()[0], 0, number)
            self.assertFalse(self.check())
            self.assertEqual([name for name in self.hidden() if "sfstore" in name], [])
            self.assertEqual(parts(self.folder, "town.sfs.json"), ["town.sfs.json"])
            if not was_broken_off:
                break
        self.assertEqual(ends, {True, False})

    def killed(self, number):
        """Whether an import in a process of its own was ended at a call."""
        put = publishing._put
        child = os.fork()
        if child == 0:

            def killed(*words):
                with at_call(number, lambda: os._exit(9)):
                    put(*words)

            with mock.patch.object(publishing, "_put", killed):
                self.bring_in()
            os._exit(0)
        return os.waitstatus_to_exitcode(os.waitpid(child, 0)[1]) == 9

    def test_a_kill_at_each_call(self):
        self.each_call(self.killed)

    def test_a_kill_at_each_call_beside_a_journal_of_version_1(self):
        """Its edits are saved. Beside the new file it would be refused, as that of another one."""
        saved = b"#saved %s\n" % files.digest(str(self.store)).encode()
        data = old_journal("0" * 64, [b"add wells POINT (1 1)\n", saved])
        Path(f"{self.store}.journal").write_bytes(data)
        self.each_call(self.killed)

    def test_a_full_disk_at_each_call(self):
        put = publishing._put

        def broken_off(number):
            seen = []

            def failing(*words):
                with at_call(number, fail) as reached:
                    try:
                        put(*words)
                    finally:
                        seen.extend(reached)

            with mock.patch.object(publishing, "_put", failing):
                status, err = self.bring_in()
            if status:
                is_old = self.store.read_bytes() == self.old
                self.assertEqual("is written, but may not be on the disk" in err, not is_old, err)
            return bool(seen)

        self.each_call(broken_off)

    def test_an_interrupt_at_each_call(self):
        """While files change their place it comes too late: the new store is there, and its side-car with it."""
        self.keep()
        put = publishing._put
        for number in range(200):
            self.restore()
            seen = []

            def interrupted(*words):
                with at_call(number, interrupt) as reached:
                    put(*words)
                seen.extend(reached)

            with mock.patch.object(publishing, "_put", interrupted):
                self.assertEqual(self.bring_in()[0], 0, number)
            self.assertFalse(self.check(), number)
            if not seen:
                break
        self.assertGreater(number, 3)

    def test_names_that_stand_in_the_way_are_not_touched(self):
        for name in ("town.sfs.draft", "town.sfs.new", "town.sfs.json.part"):
            (self.folder / name).symlink_to(self.folder / "precious")
        (self.folder / "precious").write_text("x")
        self.assertEqual(self.bring_in()[0], 0)
        self.assertEqual((self.folder / "precious").read_text(), "x")
        self.assertTrue((self.folder / "town.sfs.draft").is_symlink())

    def test_the_mode_is_kept(self):
        self.store.chmod(0o600)
        self.assertEqual(self.bring_in()[0], 0)
        for path in (self.store, Path(f"{self.store}.json")):
            self.assertEqual(stat.S_IMODE(path.stat().st_mode), 0o600)

    def test_an_interrupt_behind_the_writing_says_that_it_is_written(self):
        with mock.patch.object(telling.Telling, "tell", side_effect=KeyboardInterrupt):
            status, err = self.bring_in()
        self.assertEqual((status, err), (3, f"sfstore-import: interrupted; {self.store} is written\n"))
        self.assertFalse(self.check())
        Path(f"{self.store}.json").unlink()
        for target in (self.folder / "back.gpkg", self.folder / "maps"):
            with mock.patch.object(exporting, "_keep_grid", side_effect=KeyboardInterrupt):
                status, _, err = give_back(self.store, target, "--format", "GPKG" if target.suffix else "GeoJSON", *PLAIN)
            self.assertEqual((status, err.splitlines()[-1]), (3, f"sfstore-export: interrupted; {target} is written"))
        with mock.patch.object(rulesfile, "write", side_effect=KeyboardInterrupt):
            status, _, err = give_back(self.store, self.folder / "two.gpkg", *PLAIN, "--rules", self.folder / "rules")
        self.assertEqual((status, err), (3, "sfstore-export: the map is written, but not its rules: interrupted\n"))

    def test_reports_let_others_do_no_more_than_the_store(self):
        self.store.chmod(0o640)
        self.points_again({1: ("POINT (500001.5 5600001)", {})})
        reports = [self.folder / name for name in ("report.txt", "faulty.gpkg", "faulty.geojson")]
        for words in (self.NEW_GRID, ["--add", "--overwrite"]):
            for faulty in reports[1:]:
                status, _, err = bring_in(self.source, self.store, *words, "--report", reports[0], "--faulty", faulty)
                self.assertEqual((status, err), (1, ""))
            for path in reports:
                self.assertEqual(stat.S_IMODE(path.stat().st_mode), 0o640, path)
                path.unlink()

    def test_what_stands_beside_a_store_is_no_report_or_map(self):
        for ending in (".journal", ".journal.lock", ".json.next", ".batches"):
            path = f"{self.store}{ending}"
            for words in (["--report", path], ["--rules", path]):
                self.assertEqual(bring_in(self.source, self.store, *self.NEW_GRID, *words)[0], 2)
            self.assertEqual(give_back(self.store, path, "--format", "GPKG", "--overwrite")[0], 2)
            self.assertEqual(give_back(self.store, self.target, "--rules", path, "--overwrite")[0], 2)

    def test_a_side_car_of_a_stranger_under_the_second_name(self):
        for content in ("{", "[]", '{"digests": 5}', "[" * 100_000):
            Path(f"{self.store}.json.next").write_text(content)
            status, _, err = give_back(self.store, self.target)
            self.assertEqual(status, 3)
            self.assertRegex(err, r"town\.sfs\.json\.next (is no side-car of a store|can't be read)")

    def test_a_session_that_saves_first_keeps_the_new_side_car(self):
        """The import was ended before its last rename, and nobody has read the side-car since."""
        self.assertEqual(self.bring_in()[0], 0)
        side_car = Path(f"{self.store}.json")
        side_car.rename(f"{side_car}.next")
        with Store(self.store, journal=True, program=PROGRAM) as store:
            store.delete("wells", 7)
        self.assertEqual(sidecar.read(str(self.store)).grid[2], "1")
        self.assertFalse(Path(f"{side_car}.next").exists())

    def test_an_interrupt_while_a_place_is_looked_for(self):
        """A real program with a real signal: nothing is half, and it is said."""
        ring = "500000 5600000, 500009 5600009, 500009 5600000, 500000 5600009, 500000 5600000"
        self.points_again({1: (f"POLYGON (({ring}))", {})})
        script = (
            "import sys, time; from sfstore.exchange import importing, reading\n"
            "def looking(*words):\n"
            "    print('looking', flush=True)\n"
            "    time.sleep(100)\n"
            "reading.fault_at = looking\n"
            "sys.exit(importing.main())"
        )
        words = [sys.executable, "-c", script, str(self.source), str(self.store), *self.NEW_GRID]
        running = subprocess.Popen(
            [*words, "--program", PROGRAM],
            env={**os.environ, "PYTHONPATH": str(FOLDER)},
            stdout=subprocess.PIPE,
            stderr=subprocess.PIPE,
            text=True,
        )
        self.addCleanup(running.kill)
        self.assertEqual(running.stdout.readline(), "looking\n", running.poll() and running.stderr.read())
        running.send_signal(signal.SIGINT)
        _, err = running.communicate()
        self.assertEqual(running.returncode, 3, err)
        self.assertIn("interrupted; nothing was written", err)
        self.assertTrue(self.check())
        self.assertEqual([name for name in self.hidden() if "sfstore" in name], [])


if __name__ == "__main__":
    unittest.main()
