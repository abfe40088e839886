"""Tests of import and export against the real program and a real GDAL, and a PostGIS where one is."""

from __future__ import annotations

import contextlib
import datetime
import io
import json
import os
import shutil
import sqlite3
import subprocess
import sys
import unittest
from decimal import Decimal
from importlib.util import find_spec
from pathlib import Path
from unittest import mock

from support import FOLDER, PROGRAM, TestCase

from sfstore import Store
from sfstore.exchange import exporting, importing
from sfstore.language import GRID_MAX, GRID_MIN

HAS_GDAL = find_spec("osgeo") is not None
if HAS_GDAL:
    from osgeo import gdal, ogr, osr

GRID = ["--grid", "500000", "5600000", "0.01"]

KINDS = {
    "point": "POINT (500003.25 5599999.99)",
    "linestring": "LINESTRING (500000 5600000, 500001.01 5600000.07, 500000 5600000)",
    "polygon": "POLYGON ((500000 5600000, 500009 5600000, 500009 5600009, 500000 5600000), "
    "(500005 5600001, 500006.5 5600001, 500006.5 5600002, 500005 5600001))",
    "multipoint": "MULTIPOINT ((500001 5600001), (500002.02 5600002))",
    "multilinestring": "MULTILINESTRING ((500000 5600000, 500001 5600001), (499999.99 5600000, 500007 5600007))",
    "multipolygon": "MULTIPOLYGON (((500000 5600000, 500009 5600000, 500009 5600009, 500000 5600000)), "
    "((500020 5600000, 500029 5600000, 500029 5600009, 500020 5600000)))",
}


def run(main, *words):
    """Runs a command, and gives its status with what it wrote on both outputs."""
    out, err = io.StringIO(), io.StringIO()
    with contextlib.redirect_stdout(out), contextlib.redirect_stderr(err):
        try:
            status = main(["--program", PROGRAM, *map(str, words)])
        except SystemExit as end:
            status = end.code
    return status, out.getvalue(), err.getvalue()


def bring_in(*words):
    return run(importing.main, *words)


def give_back(*words):
    return run(exporting.main, *words)


def reference(code=25832):
    found = osr.SpatialReference()
    found.ImportFromEPSG(code)
    found.SetAxisMappingStrategy(osr.OAMS_TRADITIONAL_GIS_ORDER)
    return found


class Source:
    """A file of a format, made layer by layer."""

    def __init__(self, path, driver="GPKG"):
        gdal.UseExceptions()
        ogr.UseExceptions()
        self.data = gdal.GetDriverByName(driver).Create(str(path), 0, 0, 0, 0)

    def layer(self, name, features, kind=None, columns=(), crs=25832, options=()):
        """Adds a layer; features are a WKT or none, with a dictionary of values, by identifier."""
        kind = ogr.wkbUnknown if kind is None else kind
        layer = self.data.CreateLayer(name, crs and reference(crs), kind, list(options))
        for column, column_type in columns:
            layer.CreateField(ogr.FieldDefn(column, column_type))
        for number, (text, values) in features.items():
            feature = ogr.Feature(layer.GetLayerDefn())
            feature.SetFID(number)
            for column, value in values.items():
                feature.SetField(column, value)
            if text is not None:
                feature.SetGeometry(ogr.CreateGeometryFromWkt(text))
            layer.CreateFeature(feature)
        return self

    def close(self):
        self.data.FlushCache()
        self.data = None


def parcels(count):
    """So many parcels of six points in rows, with identifiers that have gaps."""
    for place in range(count):
        x, y = place % 100 * 2537, place // 100 * 3141
        corners = [(0, 0), (1200, 3), (2500, 0), (2500, 3100), (3, 3100), (0, 0)]
        points = ", ".join(
            f"{(50_000_000 + x + a) / 100!r} {(560_000_000 + y + b) / 100!r}" for a, b in corners
        )
        values = {"number": 1000 + place}
        if place % 3:
            values["Besitzer"] = f"O'Hara {place}, größer"
        yield place + 1 + place // 50 * 3, (f"POLYGON (({points}))", values)


@unittest.skipUnless(HAS_GDAL, "no GDAL for Python (python3-gdal)")
class ExchangeCase(TestCase):
    SECONDS = 300

    def setUp(self):
        super().setUp()
        self.source = self.folder / "town.gpkg"
        self.store = self.folder / "town.sfs"
        self.target = self.folder / "back.gpkg"

    def town(self, count=300):
        """A GeoPackage of parcels, and of a layer of every kind."""
        source = Source(self.source)
        columns = [("number", ogr.OFTInteger64), ("Besitzer", ogr.OFTString)]
        options = ["FID=objectid", "GEOMETRY_NAME=shape"]
        source.layer("Flurstücke", dict(parcels(count)), ogr.wkbPolygon, columns, options=options)
        everything = dict(enumerate(((text, {"a": 2**40, "t": ""}) for text in KINDS.values()), 5))
        columns = [("a", ogr.OFTInteger64), ("t", ogr.OFTString)]
        source.layer("alles", everything, columns=columns)
        for kind, text in KINDS.items():
            code = list(KINDS).index(kind) + 1
            source.layer(f"of_{kind}", {3: (text, {})}, code)
        source.layer("leer", {}, ogr.wkbLineString)
        source.close()

    def points(self, features, name="wells", **named):
        source = Source(self.source)
        source.layer(name, features, **named)
        source.close()

    def shown(self, layer):
        with Store(PROGRAM, load=self.store) as store:
            return store.show(layer)

    def left_alone(self):
        """Nothing but the source stands in the folder."""
        names = [name for name in os.listdir(self.folder) if not name.endswith(".lock")]
        self.assertEqual(names, [self.source.name])


class Import(ExchangeCase):
    def test_all_fits(self):
        self.town()
        status, out, err = bring_in(self.source, self.store, *GRID)
        self.assertEqual((status, err), (0, ""))
        self.assertIn("Flurstücke: 300 features read, 300 taken\n", out)
        self.assertIn("the layer has the name Flurstucke\n", out)
        with Store(PROGRAM, load=self.store) as store:
            self.assertEqual(
                store.run("layers"),
                ["Flurstucke polygon", "alles any", *(f"of_{kind} {kind}" for kind in KINDS)]
                + ["leer linestring"],
            )
            self.assertEqual(store.run("columns Flurstucke"), ["number int", "Besitzer text"])
            first, second = store.show("Flurstucke")[:2]
            self.assertEqual(first.wkt, "POLYGON ((0 0, 1200 3, 2500 0, 2500 3100, 3 3100, 0 0))")
            self.assertEqual(second.values, {"number": 1001, "Besitzer": "O'Hara 1, größer"})
            self.assertEqual(store.show("Flurstucke")[-1].id, 300 + 5 * 3)
            self.assertEqual(store.show("of_point")[0].wkt, "POINT (325 -1)")
            self.assertEqual([feature.id for feature in store.show("alles")], [5, 6, 7, 8, 9, 10])
            self.assertEqual(store.show("alles")[0].values, {"a": 2**40, "t": ""})

    def test_the_side_car(self):
        self.town()
        bring_in(self.source, self.store, *GRID)
        found = json.loads(Path(f"{self.store}.json").read_text())
        self.assertEqual(found["grid"], ["500000", "5600000", "0.01"])
        self.assertEqual((found["crs"]["authority"], found["crs"]["code"]), ("EPSG", "25832"))
        self.assertEqual(found["layers"][0]["source_name"], "Flurstücke")

    AWKWARD = {
        1: ("POINT (500000.001 5600000)", "off the grid"),
        2: (f"POINT ({500_000 + GRID_MAX // 100 + 9} 5600000)", "too far from the grid's origin"),
        3: ("POINT Z (500000 5600000 7)", "Z or M"),
        4: ("POINT M (500000 5600000 7)", "Z or M"),
        5: ("GEOMETRYCOLLECTION (POINT (500000 5600000))", "a geometry collection"),
        6: ("CIRCULARSTRING (500000 5600000, 500001 5600001, 500002 5600000)", "a curve or surface"),
        7: ("POINT EMPTY", "empty"),
        8: ("MULTIPOLYGON EMPTY", "empty"),
        9: (None, "without a geometry"),
        10: ("LINESTRING (500000 5600000, 500000 5600000)", "refused 10 ShortLine"),
        13: (
            "POLYGON ((500000 5600000, 500003 5600003, 500003 5600000, 500000 5600002, 500000 5600000))",
            "refused 13 RingNotSimple",
        ),
        14: ("POINT (500000 5600000)", ""),
    }

    def awkward(self):
        values = {"t": "x" * 65_536, "u": "two\nlines"}
        features = {
            number: (text, {**values, "area": 0.5} if number == 14 else {})
            for number, (text, _) in self.AWKWARD.items()
        }
        columns = [("t", ogr.OFTString), ("u", ogr.OFTString), ("area", ogr.OFTReal)]
        columns += [("day", ogr.OFTDate), ("a b", ogr.OFTInteger), ("a-b", ogr.OFTInteger)]
        source = Source(self.source)
        source.layer("awkward", features, columns=columns)
        source.layer("degrees", {1: ("POINT (9 51)", {})}, crs=4326)
        table = source.data.CreateLayer("table", None, ogr.wkbNone, [])
        table.CreateFeature(ogr.Feature(table.GetLayerDefn()))
        source.close()

    def test_nothing_is_left_out_in_silence(self):
        self.awkward()
        report = self.folder / "report.txt"
        status, out, err = bring_in(self.source, self.store, *GRID, "--report", report)
        self.assertEqual((status, err), (1, ""))
        self.assertIn("awkward: 12 features read, 1 taken\n", out)
        self.assertIn("13 (edges 0 and 2 of ring 0 meet at (500001.20 5600001.20))", out)
        self.assertIn("1 off the grid: 1 (x 500000.001 of point 0, between 500000.00 and 500000.01)", out)
        self.assertIn("table: 0 features read, 0 taken\n  a layer without geometries", out)
        self.assertIn("another reference system: EPSG:4326 in place of EPSG:25832", out)
        lines = [line.split("\t") for line in report.read_text().splitlines()]
        told = {line[1]: line[2] for line in lines if line[0] == "awkward" and line[1]}
        for number, (_, reason) in self.AWKWARD.items():
            self.assertTrue(told[str(number)].startswith(reason), (number, told[str(number)]))
        texts = [line[2] for line in lines if line[1] == "14"]
        self.assertEqual(texts, ["a text of more than 65535 bytes"])
        details = [line[3] for line in lines if line[0] == "awkward" and not line[1]]
        self.assertIn("column 'a b' has the name a_b", details)
        self.assertIn("column 'a-b' has the name a_b_2", details)
        taken = {"u": "two\nlines", "area": Decimal("0.5")}
        self.assertEqual([(f.id, f.values) for f in self.shown("awkward")], [(14, taken)])

    def test_faulty_features_as_a_map(self):
        self.awkward()
        for name in ("faulty.gpkg", "faulty.geojson"):
            path = self.folder / name
            words = [self.source, self.store, *GRID, "--overwrite", "--faulty", path]
            self.assertEqual(bring_in(*words)[0], 1)
            layer = (data := ogr.Open(str(path))).GetLayer(0)
            told = {feature.GetField("identifier"): feature.GetField("reason") for feature in layer}
            # The one without a geometry has no place on a map.
            self.assertEqual(sorted(told), [1, 2, 3, 4, 5, 6, 7, 8, 10, 13, 14])
            self.assertEqual(told[1], "off the grid")
            self.assertEqual(layer.GetSpatialRef().GetAuthorityCode(None), "25832")
            del layer, data
        self.assertEqual(bring_in(*words[:-1], self.folder / "faulty.txt")[0], 2)
        for word in ("--faulty", "--report"):
            words[-2:] = word, self.folder / "missing" / "faulty.gpkg"
            status, out, err = bring_in(*words)
            self.assertEqual(status, 1)
            self.assertIn("awkward: 12 features read, 1 taken\n", out)
            self.assertIn("the store's file is written, but: ", err)

    def test_other_types_as_texts(self):
        values = {"area": 0.1 + 0.2, "day": "2026/11/24", "one": "x"}
        columns = [("area", ogr.OFTReal), ("day", ogr.OFTDate), ("one", ogr.OFTString)]
        self.points({1: (KINDS["point"], values)}, columns=columns)
        self.assertEqual(bring_in(self.source, self.store, *GRID, "--as-text")[0], 0)
        shown = self.shown("wells")[0].values
        self.assertEqual(shown, {"area": Decimal("0.30000000000000004"), "day": datetime.date(2026, 11, 24), "one": "x"})

    def test_rounding(self):
        self.points({1: ("POINT (500000.004 5600000.006)", {}), 2: (KINDS["point"], {})})
        status, out, _ = bring_in(self.source, self.store, *GRID, "--round")
        self.assertEqual(status, 0)
        self.assertIn(
            "2 coordinates were moved to the nearest step, by 0.004 at most, by 0.004 on average", out
        )
        self.assertEqual(self.shown("wells")[0].wkt, "POINT (0 1)")

    def test_rounding_that_breaks_a_ring_is_told(self):
        tiny = "POLYGON ((500000 5600000, 500000.001 5600000, 500000.001 5600000.001, 500000 5600000))"
        self.points({4: (tiny, {})})
        status, out, _ = bring_in(self.source, self.store, *GRID, "--round")
        self.assertEqual(status, 1)
        self.assertIn("1 refused 12 ShortRing", out)

    def test_z_and_m_are_dropped_where_that_is_asked(self):
        self.points({1: ("POINT Z (500000 5600000 7)", {}), 2: ("POINT (500000 5600001)", {})})
        status, out, _ = bring_in(self.source, self.store, *GRID, "--drop-zm")
        self.assertEqual(status, 0)
        self.assertIn("Z or M was dropped of 1 features", out)
        self.assertEqual(len(self.shown("wells")), 2)

    def test_layers_in_the_order_that_is_asked(self):
        self.town(3)
        words = ["--layer", "of_point", "--layer", "alles"]
        self.assertEqual(bring_in(self.source, self.store, *GRID, *words)[0], 0)
        with Store(PROGRAM, load=self.store) as store:
            self.assertEqual([layer.name for layer in store.layers()], ["of_point", "alles"])
        status, _, err = bring_in(self.source, self.store, *GRID, "--overwrite", "--layer", "x")
        self.assertEqual(status, 3)
        self.assertIn("has no layer 'x': it has Flurstücke, alles", err)

    def test_identifiers_that_begin_with_zero(self):
        self.source = self.folder / "wells.shp"
        source = Source(self.source, "ESRI Shapefile")
        source.layer("wells", {k: (f"POINT (50000{k} 5600000)", {}) for k in range(3)}, ogr.wkbPoint)
        source.close()
        status, out, _ = bring_in(self.source, self.store, *GRID)
        self.assertEqual(status, 0)
        self.assertIn("each is greater by 1", out)
        self.assertEqual([feature.id for feature in self.shown("wells")], [1, 2, 3])

    def test_identifiers_that_no_store_has(self):
        self.points({2**33: ("POINT (500000 5600000)", {}), 7: ("POINT (500001 5600000)", {})})
        status, out, _ = bring_in(self.source, self.store, *GRID)
        self.assertEqual(status, 0)
        self.assertIn("numbered anew from 1", out)
        self.assertIn("identifiers that the store can't have are in the column fid\n", out)
        shown = [(feature.id, feature.wkt, feature.values) for feature in self.shown("wells")]
        self.assertEqual(shown, [(1, "POINT (100 0)", {"fid": 7}), (2, "POINT (0 0)", {"fid": 2**33})])
        # They stay those of the features.
        self.assertEqual(give_back(self.store, self.target)[0], 0)
        self.assertEqual(bring_in(self.target, self.folder / "again.sfs")[0], 0)
        self.assertEqual((self.folder / "again.sfs").read_bytes(), self.store.read_bytes())

    def test_words_that_are_wrong(self):
        self.points({})
        for words, said in (
            (["--grid", "0", "0", "0"], "the step of a grid is above 0, not 0"),
            (["--grid", "0", "x", "1"], "'x' is no decimal number"),
            (["--grid", "0", "0"], "expected 3 arguments"),
            (["--nothing"], "unrecognized arguments"),
        ):
            status, out, err = bring_in(self.source, self.store, *words)
            self.assertEqual((status, out), (2, ""))
            self.assertIn(said, err)
        self.assertEqual(bring_in(self.source)[0], 2)
        self.left_alone()

    def test_what_can_not_be_brought_in(self):
        self.points({})
        self.assertIn("--suggest", bring_in(self.source, self.store)[2])
        status, _, err = bring_in(self.folder / "missing.gpkg", self.store, *GRID)
        self.assertEqual(status, 3)
        self.assertRegex(err, "^sfstore-import: .*missing.gpkg does not open: ")
        status, _, err = bring_in(self.source, self.folder / "missing" / "town.sfs", *GRID)
        self.assertEqual(status, 3)
        status, _, err = bring_in(self.source, self.store, *GRID, "--program", "/missing/sfstore")
        self.assertEqual(status, 3)
        self.assertIn("/missing/sfstore", err)
        self.left_alone()

    def test_a_file_that_is_there(self):
        self.points({1: (KINDS["point"], {})})
        self.store.write_bytes(b"precious")
        for words, why in (([], "is there already: --overwrite replaces it"), (["--overwrite"], "is no store, and --overwrite replaces")):
            status, _, err = bring_in(self.source, self.store, *GRID, *words)
            self.assertEqual(status, 3)
            self.assertIn(why, err)
            self.assertEqual(self.store.read_bytes(), b"precious")
        self.store.write_bytes(b"")
        self.assertEqual(bring_in(self.source, self.store, *GRID, "--overwrite")[0], 0)
        with Store(self.store, journal=True, program=PROGRAM) as store:
            status, _, err = bring_in(self.source, self.store, *GRID, "--overwrite")
            self.assertEqual(status, 3)
            self.assertIn("open in another session", err)
            store.delete("wells", 1)
            store.close(save=False)
        status, _, err = bring_in(self.source, self.store, *GRID, "--overwrite")
        self.assertEqual(status, 3)
        self.assertIn("has 1 edits in its journal that are not saved", err)
        with Store(self.store, journal=True, program=PROGRAM):
            pass
        self.assertEqual(bring_in(self.source, self.store, *GRID, "--overwrite")[0], 0)
        with Store(self.store, journal=True, program=PROGRAM) as store:
            self.assertEqual(len(store.show("wells")), 1)

    def test_a_program_that_refuses_the_file(self):
        self.points({1: (KINDS["point"], {})})
        with mock.patch("sfstore.exchange.reading.write_wkb", lambda shape: b"nothing"):
            status, _, err = bring_in(self.source, self.store, *GRID)
        self.assertEqual(status, 3)
        self.assertIn("could not be made: fault load BadFile", err)
        self.left_alone()

    def test_an_interrupt(self):
        self.points({1: (KINDS["point"], {})})
        for where in ("sfstore.exchange.publishing.write_store", "sfstore.exchange.reading.read_wkb"):
            with mock.patch(where, side_effect=KeyboardInterrupt):
                status, _, err = bring_in(self.source, self.store, *GRID)
            self.assertEqual(status, 3)
            self.assertIn("interrupted; nothing was written", err)
        self.left_alone()

    def test_without_gdal(self):
        with mock.patch.dict(sys.modules, {"osgeo": None}):
            status, _, err = bring_in(self.source, self.store, *GRID)
        self.assertEqual(status, 3)
        self.assertIn("this needs GDAL for Python, in Debian the package python3-gdal", err)


class Suggest(ExchangeCase):
    def suggested(self):
        status, out, _ = bring_in("--suggest", self.source)
        self.assertEqual(status, 0)
        return out

    def grid_of(self, out):
        [line] = [line for line in out.splitlines() if line.startswith("--grid ")]
        return line.split(" ")

    def test_all_fits_what_is_proposed(self):
        self.town()
        out = self.suggested()
        self.assertEqual(self.grid_of(out)[-1], "0.01")
        self.assertRegex(out, "([0-9]+) of \\1 different coordinates are on it")
        self.assertEqual(bring_in(self.source, self.store, *self.grid_of(out))[0], 0)

    def test_the_origin_is_in_the_middle(self):
        features = {1: ("POINT (300000.01 5600000)", {}), 2: ("POINT (440000 5700000.5)", {})}
        self.points(features)
        out = self.suggested()
        self.assertEqual(self.grid_of(out), ["--grid", "370000", "5650000", "0.01"])
        self.assertEqual(bring_in(self.source, self.store, *self.grid_of(out))[0], 0)

    def test_what_would_not_fit(self):
        self.points({k: (f"POINT (500000.{k:03} 5600000)", {}) for k in range(1, 20)})
        out = self.suggested()
        self.assertEqual(self.grid_of(out)[-1], "0.001")
        self.points_again({1: ("POINT (9.123456789123 51.987654321987)", {}), 2: ("POINT (10 52)", {})})
        out = self.suggested()
        self.assertIn("2 of 4 different coordinates are on it", out)
        self.assertRegex(out, "2 are off it: with --round they move by 0.[0-9]+ at most")
        words = [*self.grid_of(out), "--round"]
        self.assertEqual(bring_in(self.source, self.store, *words)[0], 0)

    def test_the_finest_step_of_all_where_all_is_rounded(self):
        """360 degrees in nine tenths of 16,777,215 steps are 0.00002385 for each, rounded up. More steps have more room."""
        x = 180 * (GRID_MAX - GRID_MIN) / 16_777_215
        texts = [f"POINT ({-x!r} -89.87654321)", f"POINT ({x!r} 89.87654321)", "POINT (9.1234567 1.1234567)"]
        self.points({number: (text, {}) for number, text in enumerate(texts, 1)})
        out = self.suggested()
        self.assertEqual(self.grid_of(out)[-1], "0.0001")
        self.assertIn("0.000024 is the finest step with room for all: half of it is 0.000012\n", out)
        self.assertEqual(bring_in(self.source, self.store, "--grid", "0", "0", "0.000024", "--round")[0], 0)

    def points_again(self, features):
        self.source.unlink()
        self.points(features, crs=4326)

    def test_an_origin_of_zero_has_no_sign(self):
        self.points({1: ("POINT (-3 -2)", {}), 2: ("POINT (2 1)", {})})
        self.assertIn("--grid 0 0 1\n", self.suggested())

    def test_an_empty_source(self):
        self.points({1: (None, {})})
        self.assertIn("1 features: without a geometry\nno coordinates were found", self.suggested())


class Export(ExchangeCase):
    def stored(self, count=300):
        self.town(count)
        self.assertEqual(bring_in(self.source, self.store, *GRID)[0], 0)

    def back(self, *words):
        """The store's file of what was given back."""
        again = self.folder / "again.sfs"
        status, _, err = bring_in(*words, again, "--overwrite")
        self.assertEqual((status, err), (0, ""))
        return again.read_bytes()

    def test_a_geopackage_of_ten_thousand_parcels_and_every_kind(self):
        self.stored(10_000)
        status, out, err = give_back(self.store, self.target)
        self.assertEqual((status, out, err), (0, "", ""))
        self.assertEqual(self.back(self.target), self.store.read_bytes())
        self.assertEqual(self.geometries(self.target), self.geometries(self.source))

    def geometries(self, path):
        data = ogr.Open(str(path))
        return [
            (
                layer.GetName(),
                layer.GetFIDColumn(),
                layer.GetGeometryColumn(),
                layer.GetSpatialRef().GetAuthorityCode(None),
                layer.GetGeomType(),
                [(f.GetFID(), bytes(f.GetGeometryRef().ExportToIsoWkb()), f.items()) for f in layer],
            )
            for layer in (data.GetLayer(place) for place in range(data.GetLayerCount()))
        ]

    def test_files_of_a_folder_whose_layers_have_one_name_are_all_meant(self):
        folder = self.folder / "several"
        folder.mkdir()
        for name, place in (("a", 1), ("b", 2)):
            point = {"type": "Point", "coordinates": [place, place]}
            feature = {"type": "Feature", "id": 1, "properties": {}, "geometry": point}
            text = json.dumps({"type": "FeatureCollection", "name": "wells", "features": [feature]})
            (folder / f"{name}.geojson").write_text(text)
        words = ["--grid", "0", "0", "1", "--layer", "wells", "--layer", "wells"]
        status, out, err = bring_in(folder, self.store, *words)
        self.assertEqual((status, err), (0, ""), out)
        self.assertEqual([self.shown(layer)[0].wkt for layer in ("wells", "wells_2")], ["POINT (1 1)", "POINT (2 2)"])

    def test_a_folder_of_geojson(self):
        self.stored()
        folder = self.folder / "out"
        status, _, err = give_back(self.store, folder, "--format", "GeoJSON")
        self.assertEqual(status, 0)
        self.assertIn("GeoJSON does not keep the drawing order of the layers\n", err)
        self.assertIn("GeoJSON does not keep the kind of leer, which is empty\n", err)
        order = ["Flurstücke", "alles", *(f"of_{kind}" for kind in KINDS), "leer"]
        words = [word for name in order for word in ("--layer", name)]
        self.assertEqual(
            self.back(folder, *GRID, *words).replace(b"leer\0", b"leer\2"), self.store.read_bytes()
        )

    def test_what_other_formats_do_not_keep_is_said(self):
        self.stored()
        for name, ending, said in (
            ("FlatGeobuf", ".fgb", "identifiers"),
            ("ESRI Shapefile", ".shp", "the direction of rings"),
        ):
            folder = self.folder / name
            words = [self.store, folder, "--format", name, "--layer", "Flurstucke"]
            status, _, err = give_back(*words)
            self.assertEqual(status, 0)
            self.assertIn(f"{name} does not keep {said}\n", err)
            self.assertTrue((folder / f"Flurstücke{ending}").exists())
            status, out, _ = bring_in(folder, self.folder / "again.sfs", *GRID, "--overwrite")
            self.assertEqual(status, 0)
            self.assertIn("300 features read, 300 taken", out)

    def test_flatgeobuf_keeps_the_geometries(self):
        self.stored()
        target = self.folder / "parcels.fgb"
        self.assertEqual(give_back(self.store, target, "--layer", "Flurstucke")[0], 0)
        there = [feature[1:] for feature in self.geometries(target)[0][-1]]
        here = [feature[1:] for feature in self.geometries(self.source)[0][-1]]
        self.assertEqual(there, here)

    def test_files_of_one_layer(self):
        self.stored()
        target = self.folder / "parcels.geojson"
        status, _, err = give_back(self.store, target)
        self.assertEqual(status, 3)
        self.assertIn("name a folder, or one with --layer", err)
        self.assertEqual(give_back(self.store, target, "--layer", "of_line")[0], 3)
        self.assertEqual(give_back(self.store, target, "--layer", "of_linestring")[0], 0)
        self.assertTrue(target.exists())

    def test_a_shapefile_of_several_kinds_is_refused_whole(self):
        self.stored()
        folder = self.folder / "out"
        before = sorted(os.listdir(self.folder))
        status, _, err = give_back(self.store, folder, "--format", "ESRI Shapefile")
        self.assertEqual(status, 3)
        self.assertIn("alles has features of several kinds", err)
        self.assertEqual(sorted(os.listdir(self.folder)), before)

    def test_what_is_there_is_kept(self):
        self.stored(3)
        self.target.write_bytes(b"precious")
        folder = self.folder / "out"
        folder.mkdir()
        (folder / "leer.geojson").write_text("old")
        for words in ([self.target], [folder, "--format", "GeoJSON"]):
            status, _, err = give_back(self.store, *words)
            self.assertEqual(status, 3)
            self.assertIn("is there already: --overwrite replaces it", err)
            self.assertEqual(give_back(self.store, *words, "--overwrite")[0], 0)
        self.assertEqual(self.back(self.target), self.store.read_bytes())
        self.assertEqual(len(os.listdir(folder)), 9)

    def test_edits_and_counters_come_back(self):
        """A day: edits with a journal, a save, and the GeoPackage of it."""
        self.stored(20)
        with Store(self.store, journal=True, program=PROGRAM) as store:
            store.delete("Flurstucke", 20)
            store.add("of_point", "POINT (5 5)")
            store.delete("of_point", 4)
            store.add_column("of_point", "x", "int")
            store.drop_column("of_point", "x")
            store.add_column("of_point", "y", "int")
            store.set("of_point", 3, "y", 9)
            store.move_layer("leer", 0)
            store.add_layer("neu", "point")
            store.save()
            store.rename_layer("leer", "void")
        status, _, err = give_back(self.store, self.target)
        self.assertEqual(status, 0)
        self.assertIn("void goes back by this name, with columns of the store's types", err)
        self.assertEqual(self.back(self.target), self.store.read_bytes())
        data = ogr.Open(str(self.target))
        names = [data.GetLayer(place).GetName() for place in range(data.GetLayerCount())]
        self.assertEqual(names[0], "void")

    def test_a_truth_value_that_is_none_makes_texts_where_these_are_taken(self):
        definition = ogr.FieldDefn("yes", ogr.OFTInteger)
        definition.SetSubType(ogr.OFSTBoolean)
        source = Source(self.source)
        source.layer("w", {}, options=["SPATIAL_INDEX=NO"])
        layer = source.data.GetLayerByName("w")
        layer.CreateField(definition)
        for number in (1, 2):
            feature = ogr.Feature(layer.GetLayerDefn())
            feature.SetField("yes", number)
            feature.SetGeometry(ogr.CreateGeometryFromWkt(KINDS["point"]))
            layer.CreateFeature(feature)
        del layer
        source.close()
        with contextlib.closing(sqlite3.connect(self.source)) as opened:
            opened.execute("UPDATE w SET yes = fid")
            opened.commit()
        status, _, err = bring_in(self.source, self.store, *GRID, "--as-text")
        self.assertEqual((status, err), (0, ""))
        self.assertEqual([feature.values for feature in self.shown("w")], [{"yes": "1"}, {"yes": "2"}])

    def test_types_of_columns_come_back(self):
        definition = ogr.FieldDefn("yes", ogr.OFTInteger)
        definition.SetSubType(ogr.OFSTBoolean)
        source = Source(self.source)
        columns = [("small", ogr.OFTInteger), ("large", ogr.OFTInteger64), ("text", ogr.OFTString)]
        source.layer("w", {}, columns=columns)
        layer = source.data.GetLayerByName("w")
        layer.CreateField(definition)
        feature = ogr.Feature(layer.GetLayerDefn())
        for name, value in (("small", 1), ("large", 2), ("text", "x"), ("yes", 1)):
            feature.SetField(name, value)
        feature.SetGeometry(ogr.CreateGeometryFromWkt(KINDS["point"]))
        layer.CreateFeature(feature)
        del layer
        source.close()
        self.assertEqual(bring_in(self.source, self.store, *GRID)[0], 0)
        self.assertEqual(give_back(self.store, self.target)[0], 0)
        self.assertEqual(
            self.types(self.target),
            [("small", "Integer"), ("large", "Integer64"), ("text", "String"), ("yes", "Integer(Boolean)")],
        )
        self.assertEqual(self.shown("w")[0].values, {"small": 1, "large": 2, "text": "x", "yes": True})
        with Store(self.store, journal=True, program=PROGRAM) as store:
            store.set("w", 1, "small", 2**31)
            store.set("w", 1, "yes", False)
        self.assertEqual(give_back(self.store, self.target, "--overwrite")[0], 0)
        types = dict(self.types(self.target))
        self.assertEqual((types["small"], types["yes"]), ("Integer64", "Integer(Boolean)"))

    def types(self, path):
        definition = (data := ogr.Open(str(path))).GetLayer(0).GetLayerDefn()
        fields = [definition.GetFieldDefn(place) for place in range(definition.GetFieldCount())]
        found = []
        for field in fields:
            subtype = ogr.GetFieldSubTypeName(field.GetSubType())
            tail = "" if subtype == "None" else f"({subtype})"
            found.append((field.GetName(), field.GetTypeName() + tail))
        del data
        return found

    def refused(self, words):
        before = sorted(os.listdir(self.folder))
        status, out, err = give_back(self.store, self.target)
        self.assertEqual((status, out), (3, ""))
        self.assertRegex(err, words)
        self.assertEqual(sorted(os.listdir(self.folder)), before)

    def test_a_side_car_that_is_missing_or_wrong(self):
        self.stored(3)
        path = Path(f"{self.store}.json")
        good = path.read_text()
        path.write_text(good.replace("0.01", "0.0", 1))
        self.refused("town.sfs.json has no grid: the step of a grid is above 0")
        for content in ("{", "[]", "{}", good.replace("side-car 1", "side-car 9"), '{"format": 1}'):
            path.write_text(content)
            self.refused("town.sfs.json (can't be read|is no side-car of a store)")
        path.unlink()
        self.refused("town.sfs.json is missing: it has the grid and the reference system")
        path.write_text(good)
        with Store(PROGRAM, load=self.store, save=self.store) as store:
            store.drop_layer("alles")
        self.refused("town.sfs.json belongs to another file than .*town.sfs")

    def test_a_store_that_was_not_imported(self):
        with Store(PROGRAM, save=self.store) as store:
            store.add_layer("w", "point")
            store.add("w", "POINT (1 2)")
        words = [self.store, self.target]
        self.assertEqual(give_back(*words)[0], 3)
        grid = ["--grid", "500000", "5600000", "0.1"]
        self.assertEqual(give_back(*words, "--crs", "EPSG:25832")[0], 2)
        self.assertEqual(give_back(*words, "--grid", "0", "0", "0")[0], 2)
        status, _, err = give_back(*words, *grid, "--crs", "nothing")
        self.assertEqual(status, 3)
        self.assertIn("'nothing' is no reference system", err)
        self.assertFalse(Path(f"{self.store}.json").exists())
        self.assertEqual(give_back(*words, *grid, "--crs", "EPSG:25832"), (0, "", ""))
        self.assertEqual(self.geometries(self.target)[0][3], "25832")
        self.assertEqual(self.back(self.target), self.store.read_bytes())
        self.assertIn("has the grid already", give_back(*words, *grid)[2])
        self.assertEqual(give_back(*words, "--overwrite")[0], 0)

    def test_edits_that_are_not_saved(self):
        self.stored(3)
        store = Store(self.store, journal=True, program=PROGRAM)
        store.drop_layer("alles")
        self.refused("has 1 edits in its journal that are not saved: save them first")
        store.close()
        self.assertEqual(give_back(self.store, self.target)[0], 0)

    def test_a_file_that_does_not_load(self):
        self.stored(3)
        data = self.store.read_bytes()
        place = data.index(b"Flurstucke") - 1
        self.store.write_bytes(data[:place] + b"\0" + data[place + 1 :])
        self.refused("town.sfs does not load: place 13, name of a layer: that is no name \\(20\\)")
        self.store.write_bytes(b"something else")
        self.refused("place 0, first eight bytes: the file is none of a store")
        self.store.unlink()
        self.refused("does not load: it can't be opened")

    def test_a_target_that_can_not_be_written(self):
        self.stored(3)
        self.target = self.folder / "missing" / "back.gpkg"
        self.refused("No such file or directory")
        status, _, err = give_back(self.store, self.folder / "back.xyz")
        self.assertEqual(status, 2)
        self.assertIn("the target names no format", err)
        status, _, err = give_back(self.store, "PG:host=/missing dbname=x")
        self.assertEqual(status, 3)
        self.assertIn("does not open", err)

    def test_a_write_that_breaks_off_leaves_nothing(self):
        self.stored(3)
        failing = RuntimeError("disk full")
        with mock.patch.object(ogr.Layer, "CreateFeature", side_effect=failing):
            self.refused("can't be written: disk full")
        with mock.patch.object(ogr.Layer, "CreateFeature", side_effect=KeyboardInterrupt):
            self.refused("interrupted; nothing was written")


SAMPLE = Path("/usr/share/qgis/resources/data/world_map.gpkg")


@unittest.skipUnless(SAMPLE.exists(), "no sample of QGIS (qgis-common)")
class RealSample(ExchangeCase):
    def test_the_world_map_of_qgis_in_and_out_and_in(self):
        """Its degrees have all digits of doubles: they are rounded once, and exact from then on."""
        words = ["--grid", "0", "0", "0.0001", "--round"]
        report = self.folder / "report.txt"
        status, out, _ = bring_in(SAMPLE, self.store, *words, "--report", report)
        self.assertEqual(status, 1)
        self.assertIn("layer_styles: 0 features read, 0 taken\n  a layer without geometries", out)
        for layer, count in (("states_provinces", 4556), ("countries", 240), ("disputed_borders", 46)):
            [line] = [line for line in out.splitlines() if line.startswith(f"{layer}: ")]
            taken = int(line.split(" ")[-2])
            self.assertTrue(line.startswith(f"{layer}: {count} features read, "))
            lines = [line.split("\t") for line in report.read_text().splitlines()]
            told = {row[1] for row in lines if row[0] == layer and row[1]}
            self.assertEqual(taken, count - len(told))
        self.assertEqual(give_back(self.store, self.target), (0, "", ""))
        again = self.folder / "again.sfs"
        self.assertEqual(bring_in(self.target, again)[0], 0)
        self.assertEqual(again.read_bytes(), self.store.read_bytes())


POSTGIS = """
import sys
sys.path[:0] = [{folder!r}, {tests!r}, {here!r}]
import test_exchange
from test_exchange import *
from osgeo import ogr
path, again = {path!r}, {again!r}
grid = test_exchange.GRID
first = give_back(path, "PG:dbname=postgres")
second = give_back(path, "PG:dbname=postgres")
third = give_back(path, "PG:dbname=postgres", "--overwrite")
order = ["Flurst\\u00fccke", "alles", *("of_" + kind for kind in KINDS), "leer"]
words = [word for name in order for word in ("--layer", name)]
fourth = bring_in("PG:dbname=postgres", again, *grid, *words)
with unittest.mock.patch("sfstore.exchange.postgis._field", side_effect=OSError("broken")):
    fifth = give_back(path, "PG:dbname=postgres", "--overwrite")
sixth = bring_in("PG:dbname=postgres", again + "2", *grid, *words)
import json
print("told", json.dumps([first, second, third, fourth, fifth, sixth]))
"""


class PostGis(ExchangeCase):
    """A database server of its own is made for the test, by Debian's `pg_virtualenv`."""

    def setUp(self):
        super().setUp()
        if not shutil.which("pg_virtualenv"):
            self.skipTest("no PostgreSQL (postgresql, postgresql-15-postgis-3)")

    def test_tables_come_back_as_the_same_file(self):
        self.town(10_000)
        self.assertEqual(bring_in(self.source, self.store, *GRID)[0], 0)
        again = self.folder / "again.sfs"
        script = self.folder / "script.py"
        names = {"folder": str(FOLDER), "tests": str(FOLDER / "tests"), "here": str(Path(__file__).resolve().parent)}
        script.write_text(POSTGIS.format(path=str(self.store), again=str(again), **names))
        shell = f"psql -qc 'create extension postgis' postgres && {sys.executable} {script}"
        ended = subprocess.run(
            ["pg_virtualenv", "-t", "sh", "-c", shell], capture_output=True, text=True
        )
        if "postgis" in ended.stderr and "not available" in ended.stderr:
            self.skipTest("no PostGIS (postgresql-15-postgis-3)")
        self.assertEqual(ended.returncode, 0, ended.stderr)
        [told] = [line[5:] for line in ended.stdout.splitlines() if line.startswith("told ")]
        first, second, third, fourth, fifth, sixth = json.loads(told)
        self.assertEqual(first[0], 0, first)
        self.assertIn("PostgreSQL does not keep the drawing order", first[2])
        self.assertEqual(second[0], 3)
        self.assertIn("has a table Flurstücke already: --overwrite replaces it", second[2])
        self.assertEqual((third[0], fourth[0], sixth[0]), (0, 0, 0), (third, fourth, sixth))
        self.assertEqual(again.read_bytes(), self.store.read_bytes())
        # One that broke off has left the tables as they were.
        self.assertEqual(fifth[0], 3)
        self.assertIn("broken", fifth[2])
        self.assertEqual(Path(f"{again}2").read_bytes(), self.store.read_bytes())


if __name__ == "__main__":
    unittest.main()
