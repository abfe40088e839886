"""Tests of imports of files that a stranger made, damaged, or meant to do harm, over real GDAL."""

from __future__ import annotations

import contextlib
import json
import os
import shutil
import socket
import sqlite3
import unittest
from dataclasses import replace
from decimal import Decimal
from pathlib import Path
from unittest import mock

from support import PROGRAM
from test_exchange import GRID, HAS_GDAL, KINDS, ExchangeCase, Source, bring_in, give_back

from sfstore import Store, files, sidecar
from sfstore.exchange import importing, reading, views, wayback
from sfstore.sidecar import Addition, Crs, LayerOrigin, Sidecar

if HAS_GDAL:
    from osgeo import ogr

POINT = KINDS["point"]
ZERO = "x'00'"


def quoted(name):
    return '"' + name.replace('"', '""') + '"'


class Formats(ExchangeCase):
    def secret(self):
        """A file that has the ending of a GeoPackage, and leads to another file of the user."""
        (self.folder / "private.csv").write_text("id,WKT,secret\n1,POINT (1 2),password123\n")
        self.source.write_text(
            f'<OGRVRTDataSource><OGRVRTLayer name="w"><SrcDataSource>{self.folder}/private.csv'
            '</SrcDataSource><SrcLayer>private</SrcLayer><GeometryType>wkbPoint</GeometryType>'
            '<GeometryField encoding="WKT" field="WKT"/></OGRVRTLayer></OGRVRTDataSource>'
        )
        return ["--grid", "0", "0", "1"]

    def test_a_file_leads_to_no_other_one(self):
        words = [self.source, self.store, *self.secret()]
        status, _, err = bring_in(*words)
        self.assertEqual(status, 3)
        self.assertIn("--any-format reads it", err)
        self.assertFalse(self.store.exists())
        self.assertEqual(bring_in("--suggest", self.source)[0], 3)
        self.assertEqual(bring_in(*words, "--any-format")[0], 0)
        self.assertIn(b"password123", self.store.read_bytes())

    def test_a_side_car_leads_to_no_file_and_not_into_the_network(self):
        with Store(PROGRAM, save=self.store) as store:
            store.run_all(["layer add w point", "add w POINT (1 2)"])
        with socket.create_server(("127.0.0.1", 0)) as server:
            server.settimeout(0.2)
            address = f"127.0.0.1:{server.getsockname()[1]}/x"
            for crs in (Crs("", "", f"http://{address}"), Crs("http", f"//{address}", ""), Crs("", "", "/etc/passwd"), Crs("EPSG", "999999", "")):
                sidecar.write(str(self.store), Sidecar(("0", "0", "1"), crs, []), [files.digest(str(self.store))])
                status, _, err = give_back(self.store, self.target)
                self.assertEqual((status, self.target.exists()), (3, False), err)
                self.assertIn(f"the reference system {crs} can't be read: ", err)
            with self.assertRaises(TimeoutError):
                server.accept()

    def test_a_side_car_names_no_more_features_than_an_import(self):
        with Store(PROGRAM, save=self.store) as store:
            store.run_all(["layer add w point", "add w POINT (1 2)"])
        for numbers in ([], [4], [1, 2, 3, 9], [-4, 5_000_000_000], list(range(sidecar.LEFT_MAX))):
            layer = LayerOrigin("w", "w", "", "", [], numbers, numbers[:1], ["photo"])
            told = Sidecar(("0", "0", "1"), None, [layer], [files.digest(str(self.store))])
            sidecar.write(str(self.store), told, told.digests)
            self.assertEqual(sidecar.read(str(self.store)), told)
        path = self.store.with_name(self.store.name + ".json")
        right = path.read_text()
        for wrong in ("0-100000", "1-4000000000", "1-2 x", "one", "1--"):
            path.write_text(right.replace("0-99999", wrong))
            with self.assertRaisesRegex(sidecar.SidecarError, "is no side-car of a store: ValueError"):
                sidecar.read(str(self.store))

    def test_of_a_side_car_that_names_many_features_in_all_the_first_are_unfolded_and_the_rest_is_marked(self):
        with Store(PROGRAM, save=self.store) as store:
            store.run_all(["layer add w point", "add w POINT (1 2)"])
        many = list(range(sidecar.LEFT_MAX))
        additions = [Addition("w", str(number), "w", many) for number in range(21)]
        layer = LayerOrigin("w", "w", "", "", [], [4])
        told = Sidecar(("0", "0", "1"), None, [layer], [files.digest(str(self.store))], additions)
        # What is written is read: of the first ones that were added some have no room.
        sidecar.write(str(self.store), told, told.digests)
        found = sidecar.read(str(self.store))
        self.assertEqual((found.layers, found.additions[2:]), ([layer], additions[2:]))
        self.assertEqual([len(each.left_out) for each in found.additions[:2]], [0, sidecar.LEFT_MAX - 1])
        self.assertEqual([each.cut for each in found.additions[:3]], [True, True, False])
        # The mark stays, whatever has room later.
        sidecar.write(str(self.store), replace(found, additions=found.additions[:2]), found.digests)
        self.assertEqual(sidecar.read(str(self.store)).additions, found.additions[:2])
        path = self.store.with_name(self.store.name + ".json")
        content = json.loads(path.read_text())
        # As a former version has written it, or a stranger.
        content["additions"] = [{"name": "w", "source": str(number), "source_name": "w", "left_out": "1-100000"} for number in range(999)]
        path.write_text(json.dumps(content))
        found = sidecar.read(str(self.store))
        named = [len(each.left_out) for each in found.additions]
        self.assertEqual(sum(named) + 1, 20 * sidecar.LEFT_MAX)
        self.assertEqual([each.cut for each in found.additions], [length < sidecar.LEFT_MAX for length in named])
        for wrong in (0, "true", None, []):
            content["additions"][0]["cut"] = wrong
            path.write_text(json.dumps(content))
            with self.assertRaisesRegex(sidecar.SidecarError, "is no side-car of a store: TypeError"):
                sidecar.read(str(self.store))

    def test_what_can_be_read_once_alone_is_refused(self):
        for name in ("/vsistdin/", "/vsigzip//vsistdin/"):
            status, _, err = bring_in(name, self.store, *GRID)
            self.assertEqual((status, self.store.exists()), (3, False))
            self.assertIn(f"{name} can be read once alone, and a source is read twice: name a file\n", err)

    def test_files_of_a_folder_that_do_not_open_are_told(self):
        folder = self.folder / "maps"
        folder.mkdir()
        self.source = folder / "good.geojson"
        source = Source(self.source, "GeoJSON")
        source.layer("good", {1: (POINT, {})})
        source.close()
        (folder / "bad.geojson").write_text("{")
        (folder / "notes.txt").write_text("x")
        status, out, _ = bring_in(folder, self.store, *GRID)
        self.assertEqual(status, 1)
        self.assertIn("bad.geojson: 0 features read, 0 taken\n  does not open: ", out)
        self.assertNotIn("notes.txt", out)

    def folder_of(self, **drivers):
        """A folder with a map of each name, of its format."""
        folder = self.folder / "maps"
        shutil.rmtree(folder, ignore_errors=True)
        folder.mkdir()
        endings = {"GeoJSON": "geojson", "FlatGeobuf": "fgb", "ESRI Shapefile": "shp", "GPKG": "gpkg"}
        for name, driver in drivers.items():
            Source(folder / f"{name}.{endings[driver]}", driver).layer(name, {1: (POINT, {"n": 1})}, columns=[("n", ogr.OFTInteger)]).close()
        return folder

    def test_files_of_all_formats_of_a_folder_are_read(self):
        folder = self.folder_of(a="ESRI Shapefile", b="GeoJSON", c="FlatGeobuf", d="GPKG")
        shutil.make_archive(self.folder / "maps", "zip", folder)
        for source in (folder, f"/vsizip/{self.folder}/maps.zip"):
            status, out, _ = bring_in(source, self.store, *GRID, "--overwrite")
            self.assertEqual(status, 0, out)
            with Store(PROGRAM, load=self.store) as store:
                self.assertEqual([layer.name for layer in store.layers()], ["a", "b", "c", "d"])
                self.assertEqual(store.show("a")[0].values, {"n": 1})

    def test_so_is_each_that_does_not_open_though_others_of_its_format_do(self):
        for driver, name, break_it in (
            ("ESRI Shapefile", "b.shp", lambda folder: (folder / "b.shp").write_bytes(b"")),
            ("ESRI Shapefile", "b.shp", lambda folder: (folder / "b.shx").unlink()),
            ("FlatGeobuf", "b.fgb", lambda folder: (folder / "b.fgb").write_bytes((folder / "b.fgb").read_bytes()[:60])),
        ):
            folder = self.folder_of(a=driver, b=driver)
            break_it(folder)
            status, out, _ = bring_in(folder, self.store, *GRID, "--overwrite")
            self.assertEqual(status, 1, out)
            self.assertIn(f"{name}: 0 features read, 0 taken\n  does not open: ", out)
            with Store(PROGRAM, load=self.store) as store:
                self.assertEqual([layer.name for layer in store.layers()], ["a"])

    def test_a_folder_in_a_folder_is_told(self):
        folder = self.folder_of(a="ESRI Shapefile")
        shutil.copytree(folder, folder / "old")
        status, out, _ = bring_in(folder, self.store, *GRID)
        self.assertEqual(status, 1, out)
        self.assertIn("old: 0 features read, 0 taken\n  does not open: it is a folder in a folder: name it alone\n", out)

    def test_so_is_one_whose_maps_stand_further_below(self):
        folder = self.folder_of(a="GeoJSON")
        shutil.copytree(folder, folder / "old" / "older")
        status, out, _ = bring_in(folder, self.store, *GRID)
        self.assertEqual(status, 1, out)
        self.assertIn("old: 0 features read, 0 taken\n  does not open: it is a folder in a folder: name it alone\n", out)

    def test_a_file_whose_name_is_not_utf_8_is_told(self):
        folder = self.folder_of(a="GeoJSON")
        for name in (b"b\xff.geojson", b"notes\xff.txt"):
            shutil.copy(folder / "a.geojson", os.fsencode(folder) + b"/" + name)
        status, out, err = bring_in(folder, self.store, *GRID)
        self.assertEqual((status, err), (1, ""), out)
        self.assertIn("b\\udcff.geojson: 0 features read, 0 taken\n  does not open: its name is not UTF-8\n", out)
        self.assertNotIn("notes", out)

    def test_layers_are_of_one_reference_system_whatever_words_their_formats_have_for_it(self):
        folder = self.folder_of()
        feature = '{"type": "Feature", "properties": {}, "geometry": {"type": "Point", "coordinates": [500001, 5600001]}}'
        (folder / "b.geojson").write_text(f'{{"type": "FeatureCollection", "features": [{feature}]}}')
        Source(folder / "a.shp", "ESRI Shapefile").layer("a", {1: (POINT, {})}, crs=4326).close()
        status, out, _ = bring_in(folder, self.store, *GRID)
        self.assertEqual(status, 0, out)
        self.assertIn("b: 1 features read, 1 taken\n", out)


class Metadata(ExchangeCase):
    GOOD = {"name": "w", "next_id": 9, "next_column": 1, "columns": {}}

    def with_metadata(self, content):
        if self.source.exists():
            self.source.unlink()
        source = Source(self.source)
        source.layer("w", {1: (POINT, {})})
        text = content if isinstance(content, str) else json.dumps(content)
        source.data.SetMetadataItem(wayback.ITEM, text)
        source.close()

    def test_what_no_export_leaves_is_left_aside_and_told(self):
        layers = [
            {**self.GOOD, **changed}
            for changed in (
                *({"name": 5}, {"next_id": "x"}, {"next_id": 2**40}, {"next_id": 0}),
                *({"next_id": True}, {"next_id": 1.5}, {"next_column": 65536}, {"columns": []}),
                *({"columns": {"a": 0}}, {"columns": {"a": 1, "b": 1}}, {"columns": {"a b": 1}}),
                *({"columns": {"x" * 33: 1}}, {"store_name": "a b"}, {"names": {"x": "y z"}}),
                *({"names": 5}, {"store_name": None}, {"next_id": None}),
            )
        ]
        contents = [{"grid": ["500000", "5600000", "0.01"], "layers": [layer]} for layer in layers]
        contents += [{"layers": 5}, {"layers": [{}]}, {"layers": [self.GOOD, 5]}, 5, [], "{", "[" * 99_999]
        contents += [{"grid": grid, "layers": []} for grid in (["a", "b", "c"], [0, 0, 0], ["0"], "abc", 5)]
        contents += [{"grid": ["0", "0", "0"], "layers": []}, {"grid": ["0", "0", "9" * 999], "layers": []}]
        for content in contents:
            self.with_metadata(content)
            words = [self.source, self.store, *GRID, "--overwrite"]
            status, out, err = bring_in(*words)
            self.assertEqual((status, err), (1, ""), str(content)[:200])
            self.assertIn("left aside: metadata SFSTORE that no export leaves: ", out)
            self.assertEqual([feature.id for feature in self.shown("w")], [1])

    def test_what_an_export_leaves_is_taken(self):
        self.with_metadata({"grid": GRID[1:], "layers": [{**self.GOOD, "store_name": "wells"}]})
        self.assertEqual(bring_in(self.source, self.store)[0], 0)
        with Store(PROGRAM, load=self.store) as store:
            self.assertEqual(store.add("wells", "POINT (1 1)"), 9)

    def test_the_greatest_counters(self):
        last = {**self.GOOD, "next_id": 2**32 - 1, "next_column": 65535}
        self.with_metadata({"grid": GRID[1:], "layers": [last]})
        self.assertEqual(bring_in(self.source, self.store)[0], 0)
        self.assertEqual(len(self.shown("w")), 1)


class Shapefiles(ExchangeCase):
    """Shapefiles whose bytes were changed."""

    def made(self):
        folder = self.folder / "maps"
        shutil.rmtree(folder, ignore_errors=True)
        folder.mkdir()
        self.source = folder / "w.shp"
        source = Source(self.source, "ESRI Shapefile")
        columns = [("n", ogr.OFTInteger64), ("r", ogr.OFTReal), ("t", ogr.OFTString)]
        source.layer("w", {k: (POINT, {"n": k, "r": k + 0.5, "t": "x"}) for k in range(4)}, columns=columns).close()

    def put(self, record, column, text):
        """Writes a text into a column of a record."""
        path = self.source.with_suffix(".dbf")
        table = bytearray(path.read_bytes())
        begin, size = int.from_bytes(table[8:10], "little"), int.from_bytes(table[10:12], "little")
        widths = [table[at + 16] for at in range(32, begin - 1, 32)]
        at = begin + record * size + 1 + sum(widths[:column])
        table[at : at + widths[column]] = text.rjust(widths[column]).encode()
        path.write_bytes(table)

    def brought_in(self, source=None):
        words = [source or self.source, self.store, *GRID, "--overwrite"]
        status, out, err = bring_in(*words)
        self.assertEqual(err, "")
        return status, out, [feature.values for feature in self.shown("w")]

    def test_texts_among_numbers_are_told(self):
        self.made()
        self.assertEqual(self.brought_in()[0], 0)
        odd = [(0, 0, "abc"), (1, 0, "12.7"), (2, 0, "1e05"), (3, 0, "1-5"), (0, 1, "12,75"), (1, 1, "12abc"), (2, 1, "1.5E+2"), (3, 1, "")]
        for record, column, text in odd:
            self.put(record, column, text)
        zipped = shutil.make_archive(str(self.folder / "a"), "zip", self.source.parent)
        for source in (self.source, self.source.parent, f"/vsizip/{zipped}/w.shp", f"/vsizip/{zipped}"):
            status, out, values = self.brought_in(source)
            self.assertEqual((status, values), (1, [{"t": "x"}, {"t": "x"}, {"r": 150, "t": "x"}, {"t": "x"}]), source)
            self.assertIn("4 a value that is none of the column's type Integer64: 0 (the value 'abc' of column n is left out), 1 (the value '12.7' of", out)
            self.assertIn("2 a value that is none of the column's type Real: 0 (the value '12,75' of column r is left out), 1 (the value '12abc' of", out)

    def test_a_record_that_is_marked_as_deleted_is_told_as_one(self):
        self.made()
        path = self.source.with_suffix(".dbf")
        table = bytearray(path.read_bytes())
        begin, size = int.from_bytes(table[8:10], "little"), int.from_bytes(table[10:12], "little")
        table[begin + size] = ord("*")
        path.write_bytes(table)
        status, out, values = self.brought_in()
        self.assertEqual((status, [row["n"] for row in values]), (1, [0, 2, 3]))
        self.assertIn("records of its .dbf that are marked as deleted are left out: 1 of 4\n", out)
        self.assertNotIn("cut off", out)

    def test_an_index_unlike_the_shapes_is_told(self):
        self.made()
        index = self.source.with_suffix(".shx")
        whole = bytearray(index.read_bytes())
        whole[24:28] = ((100 + 2 * 8) // 2).to_bytes(4, "big")
        for content in (whole, whole[:116]):
            index.write_bytes(content)
            status, out, values = self.brought_in()
            self.assertEqual((status, len(values)), (1, 2))
            self.assertIn("its .shx does not name all of its .shp, and no more: 156 of 212 bytes\n", out)

    def test_files_of_a_shapefile_that_are_not_of_one_another_are_told(self):
        self.made()
        shapes, index, table = (self.source.with_suffix(ending) for ending in (".shp", ".shx", ".dbf"))
        kept = {path: path.read_bytes() for path in (shapes, index, table)}
        entries = [kept[index][at : at + 8] for at in range(100, 132, 8)]
        begin, size = (int.from_bytes(kept[table][at : at + 2], "little") for at in (8, 10))
        more = kept[table][:4] + (5).to_bytes(4, "little") + kept[table][8:begin] + kept[table][begin : begin + size] + kept[table][begin:]
        within = entries[1][:3] + bytes([entries[1][3] + 2]) + entries[1][4:]
        first = "its .shx finds other shapes in its .shp than those of its records: record "
        for path, content, words in (
            (table, more, "its .dbf has more records than there are shapes, and values may be at others than their own: 5 records, 4 shapes\n"),
            (index, kept[index][:100] + b"".join(entries[::-1]), f"{first}1 has shape 4, record 2 has shape 3, record 3 has shape 2 and 1 more\n"),
            (index, kept[index][:100] + entries[0] + within + entries[2] + entries[3], first + "2 has shape 10\n"),
        ):
            with self.subTest(words):
                path.write_bytes(content)
                status, out, _ = self.brought_in()
                self.assertEqual(status, 1)
                self.assertIn(words, out)
                path.write_bytes(kept[path])
        # Some programs count from 0, or write no numbers.
        for numbers in ((0, 1, 2, 3), (0, 0, 0, 0)):
            other = bytearray(kept[shapes])
            for entry, number in zip(entries, numbers):
                place = int.from_bytes(entry[:4], "big") * 2
                other[place : place + 4] = number.to_bytes(4, "big")
            shapes.write_bytes(other)
            status, out, _ = self.brought_in()
            self.assertNotIn("its .shx", out)


class Stored(ExchangeCase):
    """GeoPackages that were changed by SQL."""

    NAME = 'w"; DROP TABLE x; --'
    COLUMNS = (("n", "OFTInteger"), ("big", "OFTInteger64"), ("t", "OFTString"), ("r", "OFTReal"))

    def changed(self, *changes):
        if self.source.exists():
            self.source.unlink()
        columns = [(name, getattr(ogr, kind)) for name, kind in self.COLUMNS]
        columns.append(('a"b', ogr.OFTInteger))
        values = {"n": 5, "big": 6, "t": "x", "r": 0.5, 'a"b': 7}
        source = Source(self.source)
        name = self.NAME
        source.layer(name, {k: (POINT, values) for k in range(1, 7)}, columns=columns)
        source.close()
        database = sqlite3.connect(self.source)
        for (trigger,) in database.execute("SELECT name FROM sqlite_master WHERE type = 'trigger'").fetchall():
            database.execute(f"DROP TRIGGER {quoted(trigger)}")
        for change in changes:
            database.execute(f"UPDATE {quoted(name)} SET {change}")
        database.commit()
        database.close()

    def brought_in(self, *words):
        report = self.folder / "report.txt"
        words = [self.source, self.store, *GRID, "--overwrite", "--report", report, *words]
        status, out, err = bring_in(*words)
        self.assertEqual(err, "")
        rows = [line.split("\t") for line in report.read_text().splitlines()]
        told = {(row[1], row[2], row[3]) for row in rows if row[1]}
        with Store(PROGRAM, load=self.store) as store:
            [layer] = store.layers()
            return status, out, told, {feature.id: feature.values for feature in store.show(layer.name)}

    def with_columns(self, **columns):
        """Has columns of types that a stranger may give them, each with values by identifiers, as SQL writes them."""
        self.changed()
        with contextlib.closing(sqlite3.connect(self.source)) as database:
            table = quoted(self.NAME)
            for name, (kind, values) in columns.items():
                database.execute(f"ALTER TABLE {table} ADD COLUMN {name} {kind}")
                for identifier, value in values.items():
                    database.execute(f"UPDATE {table} SET {name} = {value} WHERE fid = {identifier}")
            database.commit()

    def test_whole_numbers_among_reals_come_in_as_they_are(self):
        numbers = {1: 2**53 + 1, 2: 2**63 - 1, 3: -(2**63), 4: 2**53, 5: -(2**53) - 1}
        self.with_columns(many=("NUMERIC", numbers))
        for words in ([], ["--as-text"]):
            status, out, told, shown = self.brought_in(*words)
            self.assertEqual((status, told), (0, set()), out)
            self.assertEqual({k: row["many"] for k, row in shown.items() if "many" in row}, numbers)
        numbers[6] = "12.5"
        self.with_columns(many=("NUMERIC", {**numbers, 4: "'12,5'"}))
        status, out, told, shown = self.brought_in("--as-text")
        self.assertEqual(told, {("4", "a value that is none of the column's type Real", "the value '12,5' of column many is left out")})
        self.assertEqual([shown[k]["many"] for k in (1, 2, 3, 5, 6)], [2**53 + 1, 2**63 - 1, -(2**63), -(2**53) - 1, Decimal("12.5")])

    def test_a_warning_of_a_strangers_words_is_a_line(self):
        self.with_columns(odd=('"A\x1b[2J\n' + "B" * 999 + '"', {}))
        status, _, err = bring_in("--suggest", self.source)
        self.assertEqual(status, 0)
        self.assertIn("OGR warns: Field format 'A\\x1b[2J\\nBBB", err)
        self.assertTrue(all(len(line) <= 200 and line.isprintable() for line in err.splitlines()), err)

    def test_what_is_no_blob_among_blobs_is_told(self):
        self.with_columns(b=("BLOB", {1: "x'00ff'", 2: "'text'", 3: "12345", 4: "1.5"}))
        status, _, told, shown = self.brought_in("--as-text")
        reason = "a value that is none of the column's type Binary"
        values = {"2": "'text'", "3": "12345", "4": "1.5"}
        self.assertEqual(told, {(k, reason, f"the value {value} of column b is left out") for k, value in values.items()})
        self.assertEqual((status, {k: row["b"] for k, row in shown.items() if "b" in row}), (1, {1: "00ff"}))

    def test_a_geometry_of_another_reference_system_is_told_and_the_others_are_taken(self):
        def naming(number, order="little", flags="substr(geom, 4, 1)"):
            # In SQLite this is a text, which OGR reads nevertheless.
            return f"geom = substr(geom, 1, 3) || {flags} || x'{number.to_bytes(4, order).hex()}' || substr(geom, 9)"

        self.changed(f"{naming(4326)} WHERE fid = 2", f"{naming(2056)} WHERE fid = 5", "geom = CAST(geom AS BLOB)", f"{naming(0)} WHERE fid IN (3, 4)")
        status, out, told, shown = self.brought_in()
        self.assertEqual((status, sorted(shown)), (1, [1, 3, 4, 6]))
        reason = "a geometry of another reference system than the layer's"
        self.assertEqual({row for row in told if row[1] == reason}, {("2", reason, "its SRID is 4326"), ("5", reason, "its SRID is 2056")})
        self.assertIn("geometries that name no reference system are taken as of the layer's: 2 of them\n", out)
        self.assertIn(reason, bring_in("--suggest", self.source)[1])
        # The other order of bytes says the same.
        self.changed(f"{naming(25832, 'big', ZERO)} WHERE fid = 1")
        self.assertNotIn(reason, self.brought_in()[1])
        self.changed()
        self.assertEqual(self.brought_in()[0], 0)

    def test_a_geometry_that_can_not_be_read_is_told_and_the_others_are_taken(self):
        for wrong in ("x'0102'", "'not a blob'", "x''", "5", "zeroblob(3)"):
            self.changed(f"geom = {wrong} WHERE fid IN (2, 6)")
            status, out, told, shown = self.brought_in("--drop-zm")
            self.assertEqual((status, sorted(shown)), (1, [1, 3, 4, 5]), (wrong, out))
            self.assertEqual(sorted(row[0] for row in told if "read" in row[1] or "without" in row[1]), ["2", "6"])
            self.assertIn("6 features read, 4 taken", out)

    def test_values_that_ogr_changes_are_told_and_left_out(self):
        cases = (
            ("n", "99999999999", "Integer"),
            ("n", "'abc'", "Integer"),
            ("n", "2.5", "Integer"),
            ("n", "x'41'", "Integer"),
            ('"a""b"', "-2147483649", "Integer"),
            ("big", "'x'", "Integer64"),
            ("big", "1e30", "Integer64"),
            ("big", "9.5", "Integer64"),
            ("t", "x'414200'", "String"),
            ("t", "'a' || char(0) || 'b'", "String"),
        )
        for column, value, kind in cases:
            self.changed(f"{column} = {value} WHERE fid = 3")
            status, _, told, shown = self.brought_in()
            self.assertEqual(status, 1, (column, value))
            [(identifier, reason, detail)] = told
            self.assertEqual((identifier, reason), ("3", f"a value that is none of the column's type {kind}"))
            self.assertIn("is left out", detail)
            self.assertEqual((len(shown[3]), len(shown[2])), (4, 5), (column, value))

    def test_so_are_those_of_sqlite(self):
        columns = [("i", ogr.OFTInteger64), ("r", ogr.OFTReal), ("d", ogr.OFTDate), ("m", ogr.OFTDateTime), ("t", ogr.OFTString), ("b", ogr.OFTBinary)]
        values = {"i": 5, "r": 0.5, "d": "2020/01/31", "m": "2020/01/31 10:00:00", "t": "x"}
        path = self.folder / "town.sqlite"
        source = Source(path, "SQLite")
        source.layer("w", {k: (POINT, values) for k in range(1, 5)}, ogr.wkbPoint, columns)
        source.close()
        words = [path, self.store, *GRID, "--any-format", "--overwrite", "--as-text"]
        self.assertEqual(bring_in(*words), (0, "w: 4 features read, 4 taken\n  column m: 4 values are without a zone: taken as of UTC\n", ""))
        whole = self.shown("w")[0].values
        with contextlib.closing(sqlite3.connect(path)) as database:
            database.execute("UPDATE w SET i = 'abc', r = '7.5xyz', d = 'nonsense', m = 'soon', t = x'00ff', b = 'text' WHERE ogc_fid = 2")
            database.execute("UPDATE w SET i = 2.75 WHERE ogc_fid = 3")
            database.commit()
        status, out, err = bring_in(*words)
        self.assertEqual((status, err), (1, ""))
        for kind, shown in (("Integer64", "'abc'"), ("Real", "'7.5xyz'"), ("Date", "'nonsense'"), ("DateTime", "'soon'"), ("String", "X'00FF'"), ("Binary", "'text'")):
            self.assertIn(f" a value that is none of the column's type {kind}: 2 (the value {shown} of column ", out)
        self.assertIn(", 3 (the value 2.75 of column i is left out)\n", out)
        rows = [feature.values for feature in self.shown("w")]
        self.assertEqual(rows, [whole, {}, {name: value for name, value in whole.items() if name != "i"}, whole])

    def test_values_of_other_formats_are_said_to_be_those_of_ogr(self):
        path = self.folder / "town.kml"
        path.write_text('<kml xmlns="http://www.opengis.net/kml/2.2"><Document><Placemark><name>a</name><Point><coordinates>1,1</coordinates>'
                        "</Point></Placemark></Document></kml>")
        status, out, err = bring_in(path, self.store, "--grid", "0", "0", "1", "--any-format", "--drop-zm")
        self.assertEqual(err, "")
        self.assertIn("town.kml:\n  its values are those that OGR reads, which may be others than the source's\n", out)

    def test_values_of_the_type_are_kept(self):
        self.changed("n = -2147483648, big = -9223372036854775808 WHERE fid = 1", "n = NULL WHERE fid = 2")
        status, _, told, shown = self.brought_in("--as-text")
        self.assertEqual((status, told), (0, set()))
        self.assertEqual((shown[1]["n"], shown[1]["big"], shown[1]["r"]), (-(2**31), -(2**63), Decimal("0.5")))
        self.assertNotIn("n", shown[2])
        self.changed("r = 'abc' WHERE fid = 1", "r = 7 WHERE fid = 2")
        status, _, told, shown = self.brought_in("--as-text")
        self.assertEqual([row[0] for row in told], ["1"])
        self.assertEqual((shown[2]["r"], "r" in shown[1]), (7, False))

    def test_identifiers_that_no_store_has(self):
        self.changed("fid = 5000000000 WHERE fid = 5", "fid = -3 WHERE fid = 1", "n = 'abc' WHERE fid = -3")
        status, out, told, shown = self.brought_in()
        self.assertIn("numbered anew from 1", out)
        self.assertEqual([row[0] for row in told], ["-3"])
        self.assertEqual(sorted(shown), [1, 2, 3, 4, 5, 6])

    def test_a_database_that_breaks_off(self):
        self.changed()
        data = bytearray(self.source.read_bytes())
        place = data.rindex(b"GP\0")
        page = place - place % 4096
        data[page : page + 4096] = b"\xff" * 4096
        self.source.write_bytes(data)
        status, _, err = bring_in(self.source, self.store, *GRID)
        self.assertEqual(status, 3)
        self.assertRegex(err, "breaks off: .+|does not open: .+|can't be read: .+")
        self.assertFalse(self.store.exists())


class Views(ExchangeCase):
    """Views of a GeoPackage: what is in them is computed as it is read."""

    ENDLESS = "WITH RECURSIVE t(n) AS (SELECT 1 UNION ALL SELECT n + 1 FROM t)"

    def viewed(self, definition):
        """A GeoPackage of a layer and a view."""
        self.source.unlink(missing_ok=True)
        Source(self.source).layer("wells", {1: (POINT, {"n": 7})}, columns=[("n", ogr.OFTInteger)]).close()
        with contextlib.closing(sqlite3.connect(self.source)) as base, base:
            base.execute(f"CREATE VIEW seen AS {definition}")
            base.execute("INSERT INTO gpkg_contents (table_name, data_type, srs_id) VALUES ('seen', 'features', 25832)")
            base.execute("INSERT INTO gpkg_geometry_columns VALUES ('seen', 'geom', 'POINT', 25832, 0, 0)")

    def test_one_without_an_end_is_refused(self):
        for definition in (
            f"{self.ENDLESS} SELECT t.n AS fid, geom, wells.n AS n FROM t, wells",
            f"{self.ENDLESS} SELECT max(t.n) AS fid, geom, 1 AS n FROM t, wells",
            # Its rows are counted at once.
            f"SELECT fid, geom, ({self.ENDLESS} SELECT max(n) FROM t) AS n FROM wells",
        ):
            self.viewed(definition)
            with mock.patch.object(views, "_SECONDS", 1.0):
                for words in ([self.source, self.store, *GRID], ["--suggest", self.source]):
                    status, out, err = bring_in(*words)
                    self.assertEqual((status, out, self.store.exists()), (3, "", False), err)
                    self.assertIn("has views, and nothing of them came within 1 seconds: they may have no end.", err)

    def test_one_without_an_end_in_the_place_of_a_table_of_geopackage(self):
        """Neither an import nor an export in the file's place waits for its metadata."""
        Source(self.source).layer("wells", {1: (POINT, {"n": 7})}, columns=[("n", ogr.OFTInteger)]).close()
        with contextlib.closing(sqlite3.connect(self.source)) as base, base:
            base.execute(
                "CREATE VIEW gpkg_metadata AS SELECT 1 AS id, '' AS md_scope, '' AS md_standard_uri, '' AS mime_type, '' AS metadata"
            )
            base.execute(
                f"CREATE VIEW gpkg_metadata_reference AS {self.ENDLESS} SELECT 'geopackage' AS reference_scope, '' AS table_name, "
                "'' AS column_name, 0 AS row_id_value, '' AS timestamp, n AS md_file_id, 0 AS md_parent_id FROM t"
            )
        before = self.source.read_bytes()
        made = self.folder / "t.sfs"
        with Store(PROGRAM, save=made) as store:
            store.run_all(["layer add wells point", "add wells POINT (3 4)"])
        with mock.patch.object(views, "_SECONDS", 2.0):
            for said in (bring_in(self.source, self.store, *GRID), give_back(made, self.source, "--overwrite", *GRID)):
                self.assertEqual((said[0], said[1], self.store.exists(), self.source.read_bytes()), (3, "", False, before), said[2])
                self.assertIn("has views, and nothing of them came within 2 seconds: they may have no end.", said[2])

    def test_one_without_an_end_in_the_place_of_what_values_mean(self):
        Source(self.source).layer("wells", {1: (POINT, {"n": "a"})}, columns=[("n", ogr.OFTString)]).close()
        with contextlib.closing(sqlite3.connect(self.source)) as base, base:
            base.execute("CREATE TABLE gpkg_data_columns (table_name, column_name, name, title, description, mime_type, constraint_name)")
            base.execute("INSERT INTO gpkg_data_columns VALUES ('wells', 'n', 'n', NULL, NULL, NULL, 'domain')")
            base.execute(
                f"CREATE VIEW gpkg_data_column_constraints AS {self.ENDLESS} SELECT 'd' || n AS constraint_name, 'enum' AS constraint_type, "
                "n AS value, NULL AS min, 1 AS min_is_inclusive, NULL AS max, 1 AS max_is_inclusive, '' AS description FROM t"
            )
        with mock.patch.object(views, "_SECONDS", 2.0):
            status, out, err = bring_in(self.source, self.store, *GRID)
        self.assertEqual((status, out, self.store.exists()), (3, "", False), err)
        self.assertIn("has views, and nothing of them came within 2 seconds: they may have no end.", err)

    def test_one_with_an_end_is_read(self):
        self.viewed("SELECT fid, geom, n FROM wells")
        status, out, err = bring_in(self.source, self.store, *GRID)
        self.assertEqual((status, err), (0, ""), out)
        self.assertIn("seen: 1 features read, 1 taken\n", out)


class Odd(ExchangeCase):
    def test_reference_systems_without_a_code_are_told_by_their_names(self):
        source = Source(self.source)
        for name in ("wells", "zones"):
            source.layer(name, {1: (POINT, {})}, ogr.wkbPoint)
        source.close()
        with contextlib.closing(sqlite3.connect(self.source)) as data:
            for table in ("gpkg_geometry_columns", "gpkg_contents"):
                data.execute(f"UPDATE {table} SET srs_id = CASE table_name WHEN 'wells' THEN 0 ELSE -1 END")
            data.commit()
        status, out, _ = bring_in(self.source, self.store, *GRID, "--overwrite")
        self.assertEqual(status, 1)
        systems = "one without a code (Undefined Cartesian SRS) in place of one without a code (Undefined geographic SRS)"
        self.assertIn(f"another reference system: {systems}: the layer is left out", out)

    def test_names_that_are_not_utf_8(self):
        """A Shapefile whose names and texts are Latin-1, while it says UTF-8."""
        self.source = self.folder / "s.shp"
        source = Source(self.source, "ESRI Shapefile")
        options = ["ENCODING=ISO-8859-1"]
        source.layer("s", {0: (POINT, {"Straße": "Müller"})}, ogr.wkbPoint, [("Straße", ogr.OFTString)], options=options)
        source.close()
        (self.folder / "s.cpg").write_text("UTF-8")
        status, out, _ = bring_in(self.source, self.store, *GRID)
        self.assertEqual(status, 1)
        self.assertIn("a text that is not UTF-8", out)
        out.encode("utf-8")
        self.assertEqual(give_back(self.store, self.target)[0], 0)

    def test_names_that_move_a_terminal(self):
        self.points({1: (None, {})}, name="\x1b[2J\u202ew\n\tx", columns=[("\x1b[31m", ogr.OFTReal)])
        report = self.folder / "report.txt"
        status, out, _ = bring_in(self.source, self.store, *GRID, "--report", report)
        self.assertEqual(status, 1)
        for text in (out, report.read_text()):
            self.assertFalse(set(text) & {"\x1b", "\u202e"})
        self.assertIn("\\x1b[2J\\u202ew\\n\\tx: 1 features read, 0 taken\n", out)
        self.assertEqual({line.count("\t") for line in report.read_text().splitlines()}, {3})

    def test_coordinates_that_go_far(self):
        far = ("1e300", "1.797e308", "-1.797e308")
        for grid in (["0", "0", "3"], ["0", "0", "7"], ["1e300", "0", "1e-300"], GRID[1:]):
            if self.source.exists():
                self.source.unlink()
            self.points({k: (f"POINT ({place} 5600000)", {}) for k, place in enumerate(far, 1)})
            for words in ([], ["--round"]):
                status, out, err = bring_in(self.source, self.store, "--grid", *grid, "--overwrite", *words)
                self.assertEqual((status, err), (1, ""), grid)
                self.assertIn("wells: 3 features read, 0 taken", out)
        self.assertEqual(bring_in("--suggest", self.source)[0], 0)
        self.source.unlink()
        self.points({1: ("POINT (1.797e308 1.797e308)", {})})
        self.assertEqual(bring_in("--suggest", self.source), (0, "the coordinates go too far for any grid\n", ""))

    def test_something_unexpected_has_a_status_of_its_own(self):
        self.points({1: (POINT, {})})
        with mock.patch.object(reading, "write_wkb", side_effect=ZeroDivisionError("by zero")):
            status, out, err = bring_in(self.source, self.store, *GRID)
        self.assertEqual((status, out), (4, ""))
        self.assertRegex(err, "something unexpected ended it, ZeroDivisionError: by zero \\(line [0-9]+ of ")
        self.assertFalse(self.store.exists())
        self.assertEqual(bring_in(self.source, self.store, *GRID)[0], 0)
        with mock.patch("sfstore.exchange.exporting.parts_of", side_effect=ZeroDivisionError):
            self.assertEqual(give_back(self.store, self.target)[0], 4)

    def test_the_place_of_each_fault_is_reported(self):
        bow = "500000 5600000, 500009 5600009, 500009 5600000, 500000 5600009, 500000 5600000"
        self.points({k: (f"POLYGON (({bow}))", {}) for k in range(1, 4)})
        out = bring_in(self.source, self.store, *GRID)[1]
        for k in range(1, 4):
            self.assertIn(f"{k} (edges 0 and 2 of ring 0 meet at (500004.50 5600004.50))", out)


class Reports(ExchangeCase):
    def setUp(self):
        super().setUp()
        self.points({1: ("POINT (500000.001 5600000)", {}), 2: (POINT, {})})

    def test_reports_replace_nothing_unasked(self):
        notes = self.folder / "notes.geojson"
        notes.write_text("mine")
        for word in ("--report", "--faulty"):
            words = [self.source, self.store, *GRID, word, notes]
            status, _, err = bring_in(*words)
            self.assertEqual(status, 3)
            self.assertIn("notes.geojson is there already: --overwrite replaces it", err)
            self.assertEqual(notes.read_text(), "mine")
            self.assertFalse(self.store.exists())
        self.assertEqual(bring_in(*words, "--overwrite")[0], 1)
        self.assertNotEqual(notes.read_text(), "mine")

    def test_overwrite_replaces_a_store_by_a_store_and_no_map_by_a_report(self):
        map_of_json = self.folder / "map.geojson"
        map_of_json.write_text('{"type": "FeatureCollection", "features": []}')
        others = [self.folder / "map.gpkg", map_of_json, self.folder / "t.dbf"]
        shutil.copy(self.source, others[0])
        others[2].write_bytes(b"\x03\0\0\0")
        before = [path.read_bytes() for path in others]
        for path in others:
            self.assertIn("is no store, and --overwrite replaces", bring_in(self.source, path, *GRID, "--overwrite")[2])
            words = ["--report", "--faulty"] if path.suffix in (".gpkg", ".geojson") else ["--report"]
            for word in words:
                status, _, err = bring_in(self.source, self.store, *GRID, "--overwrite", word, path)
                self.assertEqual(status, 3)
                self.assertIn(f"{path} is a map or no text, and --overwrite replaces none by a report", err)
        self.assertEqual([path.read_bytes() for path in others], before)
        self.assertFalse(self.store.exists())
        # What an import has written gives way to the next one, and so does a store of an older version.
        for word, name in (("--report", "r.txt"), ("--faulty", "f.geojson"), ("--faulty", "f.gpkg")):
            for _ in range(2):
                self.assertEqual(bring_in(self.source, self.store, *GRID, "--overwrite", word, self.folder / name)[0], 1)
        Path(f"{self.store}.json").unlink()
        self.store.write_bytes(b"SFSTORE1 of long ago")
        self.assertEqual(bring_in(self.source, self.store, *GRID, "--overwrite")[0], 1)

    def test_a_report_that_comes_in_the_way_meanwhile(self):
        notes = self.folder / "notes.txt"
        publish = importing.publish

        def published(*words):
            rulings = publish(*words)
            notes.write_text("mine")
            return rulings

        with mock.patch.object(importing, "publish", published):
            status, _, err = bring_in(self.source, self.store, *GRID, "--report", notes)
        self.assertEqual(status, 1)
        self.assertIn("the store's file is written, but: ", err)
        self.assertEqual(notes.read_text(), "mine")

    def test_files_that_are_one(self):
        before = self.source.read_bytes()
        (self.folder / "link.gpkg").symlink_to(self.source)
        for words in (
            [self.source, self.source],
            [self.source, self.folder / "link.gpkg"],
            [self.source, self.store, "--faulty", self.source],
            [self.source, self.store, "--report", self.folder / "link.gpkg"],
            [self.source, self.store, "--report", self.store],
            [self.source, self.store, "--report", f"{self.store}.json"],
            [self.source, self.store, "--report", "a.gpkg", "--faulty", "./a.gpkg"],
        ):
            self.assertEqual(bring_in(*words, *GRID, "--overwrite")[0], 2, words)
        self.assertEqual(self.source.read_bytes(), before)

    def test_every_geometry_has_a_place_among_the_faulty(self):
        self.source.unlink()
        texts = [
            "TIN (((0 0 0, 0 0 1, 0 1 0, 0 0 0)))",
            "POLYHEDRALSURFACE (((0 0 0, 0 0 1, 0 1 1, 0 0 0)))",
            "CIRCULARSTRING (0 0, 1 1, 2 0)",
            "CURVEPOLYGON (CIRCULARSTRING (0 0, 2 0, 2 1, 2 3, 0 0))",
            "POINT (1e300 1)",
            "GEOMETRYCOLLECTION (POINT (1 2), TIN (((0 0 0, 0 0 1, 0 1 0, 0 0 0))))",
        ]
        source = Source(self.source)
        source.layer("w", {number: (text, {}) for number, text in enumerate(texts, 1)})
        layer = source.data.GetLayerByName("w")
        for x in (float("nan"), float("inf")):
            line = ogr.Geometry(ogr.wkbLineString)
            line.AddPoint_2D(0, 0)
            line.AddPoint_2D(x, 1)
            feature = ogr.Feature(layer.GetLayerDefn())
            feature.SetGeometry(line)
            layer.CreateFeature(feature)
        del layer
        with contextlib.suppress(RuntimeError):
            # The extent is no number that SQL knows.
            source.close()
        for name in ("faulty.geojson", "faulty.gpkg"):
            path = self.folder / name
            status, _, err = bring_in(self.source, self.store, *GRID, "--overwrite", "--faulty", path)
            self.assertEqual(status, 1)
            self.assertNotIn("but: ", err)
            layer = (data := ogr.Open(str(path))).GetLayer(0)
            told = [feature.GetField("identifier") for feature in layer]
            del layer, data
            self.assertEqual(sorted(told), list(range(1, 9)), (name, err))


if __name__ == "__main__":
    unittest.main()
