"""Tests of what an import owes the files of its source: their rights, and that nobody writes them meanwhile."""

from __future__ import annotations

import gzip
import os
import shutil
import sqlite3
import tarfile
import unittest
import zipfile
from unittest import mock

from support import PROGRAM
from test_exchange import ExchangeCase, bring_in, give_back

from sfstore import Store
from sfstore.exchange import archives
from sfstore.exchange.jsonlayer import JsonLayer
from sfstore.exchange.reading import LayerImport

WORDS = ["--grid", "0", "0", "1"]
POINTS = {number: (f"POINT ({number} 1)", {}) for number in range(1, 40)}


class SourceCase(ExchangeCase):
    def mode(self, path):
        return os.stat(path).st_mode & 0o777

    def brought(self, source, *words):
        return bring_in(source, self.store, *WORDS, *words)

    def shapefile(self):
        """A Shapefile of the points."""
        self.points(POINTS)
        self.assertEqual(self.brought(self.source)[0], 0)
        target = self.folder / "wells.shp"
        self.assertEqual(give_back(self.store, target)[0], 0)
        self.remove_store()
        return target

    def remove_store(self):
        for path in self.folder.glob("town.sfs*"):
            path.unlink()


class Rights(SourceCase):
    def test_a_new_store_lets_others_do_no_more_than_its_source(self):
        self.points(POINTS)
        for mode, wanted in ((0o600, 0o600), (0o640, 0o640), (0o444, 0o644), (0o644, 0o644)):
            with self.subTest(oct(mode)):
                self.remove_store()
                self.source.chmod(mode)
                self.assertEqual(self.brought(self.source)[0], 0)
                self.assertEqual(self.mode(self.store), wanted)
                self.assertEqual(self.mode(f"{self.store}.json"), wanted)

    def test_so_it_does_where_one_file_of_a_set_is_closed(self):
        target = self.shapefile()
        (self.folder / "wells.dbf").chmod(0o600)
        self.assertEqual(self.brought(target)[0], 0)
        self.assertEqual(self.mode(self.store), 0o600)

    def test_one_of_a_folder_as_its_files(self):
        folder = self.folder / "maps"
        folder.mkdir()
        self.points(POINTS)
        shutil.copy(self.source, folder / "a.gpkg")
        (folder / "a.gpkg").chmod(0o640)
        self.assertEqual(self.brought(folder)[0], 0)
        self.assertEqual(self.mode(self.store), 0o640)

    def test_one_of_an_archive_as_the_archive_by_any_path_to_it(self):
        self.points(POINTS)
        archive, outer = self.folder / "a.zip", self.folder / "outer.zip"
        with zipfile.ZipFile(archive, "w") as made:
            made.write(self.source, "inner.gpkg")
        with zipfile.ZipFile(outer, "w") as made:
            made.write(archive, "a.zip")
        self.addCleanup(os.chdir, os.getcwd())
        os.chdir(self.folder)
        inner = ("/inner.gpkg", "")
        paths = [f"/vsizip/{begin}{tail}" for begin in ("a.zip", archive, f"{{{archive}}}", "{a.zip}") for tail in inner]
        paths += ["/vsizip/{/vsizip/outer.zip/a.zip}/inner.gpkg", f"/vsizip/{{/vsizip/{{{outer}}}/a.zip}}/inner.gpkg"]
        for mode in (0o600, 0o640):
            archive.chmod(mode)
            outer.chmod(mode)
            for path in paths:
                with self.subTest(path):
                    self.remove_store()
                    # OGR warns of some of these paths.
                    self.assertIn(self.brought(path)[0], (0, 1))
                    self.assertEqual((self.mode(self.store), self.mode(f"{self.store}.json")), (mode, mode))

    def test_one_of_files_that_can_not_be_told_is_closed(self):
        self.points(POINTS)
        self.source.chmod(0o600)
        leading = self.folder / "leading.vrt"
        leading.write_text(f'<OGRVRTDataSource><OGRVRTLayer name="wells"><SrcDataSource>{self.source}</SrcDataSource></OGRVRTLayer></OGRVRTDataSource>')
        leading.chmod(0o644)
        self.brought(leading, "--any-format")
        self.assertEqual((self.mode(self.store), self.mode(f"{self.store}.json")), (0o600, 0o600))

    def test_one_in_the_place_of_another_has_its_rights(self):
        self.points(POINTS)
        self.assertEqual(self.brought(self.source)[0], 0)
        self.store.chmod(0o600)
        self.assertEqual(self.brought(self.source, "--overwrite")[0], 0)
        self.assertEqual(self.mode(self.store), 0o600)


class Archives(SourceCase):
    """Archives of a limit that is small: 1,000 bytes, and 10 times their own size."""

    def setUp(self):
        super().setUp()
        for name, value in (("LEAST", 1_000), ("TIMES", 10)):
            patch = mock.patch.object(archives, name, value)
            patch.start()
            self.addCleanup(patch.stop)

    def zipped(self, name, path, inner):
        target = self.folder / name
        with zipfile.ZipFile(target, "w", zipfile.ZIP_DEFLATED) as made:
            made.write(path, inner)
        return target

    def check_refused(self, source, archive):
        status, out, err = self.brought(source)
        most = max(1_000, 10 * os.path.getsize(archive))
        why = f"unpacks to more than {most:,} bytes, which is over 10 times its own size: unpack it first, if it is meant to"
        self.assertEqual((status, out, err), (3, "", f"sfstore-import: {archive} {why}\n"))
        self.assertFalse(self.store.exists())

    def test_one_that_unpacks_to_far_more_than_it_has_is_refused(self):
        large = self.folder / "large.geojson"
        large.write_text(" " * 200_000 + '{"type": "FeatureCollection", "features": []}')
        archive = self.zipped("a.zip", large, "w.geojson")
        outer = self.zipped("outer.zip", archive, "a.zip")
        packed = self.folder / "w.geojson.gz"
        packed.write_bytes(gzip.compress(large.read_bytes()))
        tar = self.folder / "a.tar.gz"
        with tarfile.open(tar, "w:gz") as made:
            made.add(large, "w.geojson")
        for source, named in (
            *((f"/vsizip/{archive}", archive), (f"/vsizip/{archive}/w.geojson", archive), (f"/vsigzip/{packed}", packed)),
            *((f"/vsitar/{tar}", tar), (f"/vsitar/{tar}/w.geojson", tar)),
            (f"/vsizip/{{/vsizip/{outer}/a.zip}}/w.geojson", outer),
        ):
            with self.subTest(source):
                self.check_refused(source, named)

    def test_so_is_one_that_ogr_opens_by_its_name_or_a_part_of_a_set(self):
        target = self.shapefile()
        table = self.folder / "wells.dbf"
        table.write_bytes(table.read_bytes() + b"\0" * 200_000)
        archive = self.folder / "a.shz"
        with zipfile.ZipFile(archive, "w", zipfile.ZIP_DEFLATED) as made:
            for path in self.folder.glob("wells.*"):
                made.write(path, path.name)
        shutil.copy(archive, self.folder / "a.zip")
        self.check_refused(archive, archive)
        self.check_refused(f"/vsizip/{self.folder / 'a.zip'}/{target.name}", self.folder / "a.zip")

    def test_so_is_one_of_many_files_that_are_too_large_together(self):
        archive = self.folder / "a.zip"
        with zipfile.ZipFile(archive, "w", zipfile.ZIP_DEFLATED) as made:
            for at in range(50):
                made.writestr(f"{at}.geojson", " " * 2_000 + '{"type": "FeatureCollection", "features": []}')
        self.assertGreater(10 * os.path.getsize(archive), 2_100)
        self.check_refused(f"/vsizip/{archive}", archive)

    def test_its_files_are_not_measured_one_by_one_too(self):
        archive = self.folder / "a.zip"
        with zipfile.ZipFile(archive, "w") as made:
            for at in range(3):
                made.writestr(f"{at}.geojson", '{"type": "FeatureCollection", "features": []}')
        with mock.patch("sfstore.exchange.sources.check_size") as measured:
            status, out, _ = self.brought(f"/vsizip/{archive}")
        self.assertEqual(status, 0, out)
        measured.assert_called_once_with(f"/vsizip/{archive}")

    def test_others_are_read(self):
        self.points(POINTS)
        archive = self.zipped("a.zip", self.source, "wells.gpkg")
        with mock.patch.object(archives, "TIMES", 1_000):
            self.assertEqual(self.brought(f"/vsizip/{archive}/wells.gpkg")[0], 0)


class Names(SourceCase):
    def test_no_report_takes_the_place_of_a_file_that_is_read(self):
        target = self.shapefile()
        before = {path: path.read_bytes() for path in self.folder.glob("wells.*")}
        self.assertIn(self.folder / "wells.dbf", before)
        for word in ("--report", "--rules"):
            for ending in (".dbf", ".DBF", ".prj", ".shp"):
                status, _, err = self.brought(target, word, self.folder / f"wells{ending}", "--overwrite")
                self.assertEqual(status, 2, err)
                self.assertIn("source, store, rules, report and faulty features are different files", err)
        self.assertEqual({path: path.read_bytes() for path in self.folder.glob("wells.*")}, before)

    def test_an_encoding_that_nobody_knows_is_told(self):
        target = self.shapefile()
        for encoding, status in (("UTF-8", 0), ("1252", 0), ("nonsense", 1)):
            (self.folder / "wells.cpg").write_text(encoding)
            found, out, err = self.brought(target, "--overwrite")
            self.assertEqual((found, err), (status, ""), out)
            told = "its texts are read as UTF-8, as their encoding is unknown: its .cpg says nonsense\n"
            self.assertEqual(told in out, status == 1)

    def test_a_store_without_layers_is_no_map(self):
        with Store(PROGRAM, save=self.store):
            pass
        for target, words in ((self.target, []), (self.folder / "map", ["--format", "GeoJSON"])):
            status, _, err = give_back(self.store, target, *words, *WORDS)
            self.assertEqual(status, 3)
            self.assertIn(f"{self.store} has no layers: there is nothing to write\n", err)
            self.assertFalse(target.exists())


class Meanwhile(SourceCase):
    def while_read(self, change, source, *words):
        """What is said of an import while something changes a file behind the first layer."""
        finished = LayerImport.read

        def read(reading):
            found = finished(reading)
            change()
            return found

        with mock.patch.object(LayerImport, "read", read):
            return self.brought(source, *words)

    def appended(self, path):
        def change():
            with open(path, "ab") as file:
                file.write(b"\n")

        return change

    def assert_refused(self, answer, name):
        self.assertEqual(answer[0], 3, answer)
        self.assertIn(f"{self.folder}/{name} was written while it was read: try again\n", answer[2])

    def test_a_file_that_is_written(self):
        self.points(POINTS)
        self.assert_refused(self.while_read(self.appended(self.source), self.source), "town.gpkg")
        self.assertFalse(self.store.exists())
        self.assertEqual(self.brought(self.source)[0], 0)
        before = self.store.read_bytes()
        self.assert_refused(self.while_read(self.appended(self.source), self.source, "--overwrite"), "town.gpkg")
        self.assertEqual(self.store.read_bytes(), before)
        self.assertEqual(len(list(self.folder.glob(".*sfstore*"))), 0)

    def test_a_file_in_the_place_of_another(self):
        self.source = self.folder / "a.geojson"
        self.source.write_text('{"type": "Point", "coordinates": [1, 2]}')

        def exchange():
            found = os.stat(self.source)
            shutil.copy(self.source, self.folder / "new")
            os.utime(self.folder / "new", ns=(found.st_atime_ns, found.st_mtime_ns))
            os.replace(self.folder / "new", self.source)

        self.assert_refused(self.while_read(exchange, self.source), "a.geojson")

    def test_a_geojson_that_is_written_between_its_two_readings(self):
        self.source = self.folder / "a.geojson"
        one = '{"type": "Feature", "id": %s, "properties": {"n": %s, "m": 1}, "geometry": {"type": "Point", "coordinates": [1, 2]}}'
        columns = JsonLayer.columns

        for identifier, value in (("2", '"x"'), ('"a"', "5"), ("null", "[1]"), ("2", "null")):
            self.source.write_text(one % (1, 5))

            def written(layer, *words, identifier=identifier, value=value):
                self.source.write_text(one % (identifier, value))
                return columns(layer, *words)

            with mock.patch.object(JsonLayer, "columns", written):
                self.assert_refused(self.brought(self.source), "a.geojson")

    def test_a_file_beside_a_shapefile(self):
        target = self.shapefile()
        self.assert_refused(self.while_read(self.appended(self.folder / "wells.dbf"), target), "wells.dbf")
        (self.folder / "wells.prj").unlink(missing_ok=True)
        self.assert_refused(self.while_read(self.appended(self.folder / "wells.prj"), target), "wells.prj")

    def test_what_another_program_has_of_a_geopackage(self):
        self.points(POINTS)
        database = sqlite3.connect(self.source)
        self.addCleanup(database.close)
        database.execute("PRAGMA journal_mode = wal")
        database.execute("PRAGMA wal_autocheckpoint = 0")
        database.commit()

        def change():
            database.execute("CREATE TABLE other (a)")
            database.commit()

        self.assert_refused(self.while_read(change, self.source), "town.gpkg-wal")
        # The other table is told: it has no geometries.
        self.assertEqual(self.brought(self.source)[0], 1)

    def test_nothing_is_added_either(self):
        self.points(POINTS)
        self.assertEqual(self.brought(self.source)[0], 0)
        finished = LayerImport.read

        def read(reading):
            found = finished(reading)
            self.appended(self.source)()
            return found

        with mock.patch.object(LayerImport, "read", read):
            self.assert_refused(bring_in(self.source, self.store, "--add"), "town.gpkg")
        with Store(self.store, journal=True, program=PROGRAM) as store:
            self.assertEqual((store.unsaved, len(store.show("wells"))), (0, len(POINTS)))


del ExchangeCase, SourceCase

if __name__ == "__main__":
    unittest.main()
