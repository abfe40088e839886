"""Tests of odd values and names by each format and back: what differs was said by the export."""

from __future__ import annotations

import contextlib
import json
import math
import re
import unittest
from pathlib import Path
from unittest import mock

from support import PROGRAM

from test_exchange import HAS_GDAL, bring_in, give_back
from test_exchange_postgis import HAS_SERVER, DatabaseCase
from test_exchange_sets import SetCase

from sfstore import Store
from sfstore.exchange import geojson, writing
from sfstore.exchange import ogr as exchange_ogr
from sfstore.values import spelled

if HAS_GDAL:
    from osgeo import ogr, osr

TEXTS = [
    *("", " ", "  lead", "trail  ", "a\u00a0", "\u3000x\u3000", "NULL", "null", "''", '"q"', "a;b,c", "2020-01-31"),
    *("12", "1e5", "true", "ä" * 127, "x" * 255, "x" * 254, "日" * 85, "😀" * 63, "e\u0301", "\u00e9", "\ufeffbom"),
    *("\u2028", "\u0085nel", "\\n", "\\N", "\\", "%s%d", "\u202eabc", '{"a": 1}', '{"a":1,"a":2,"b":1.10}', "[1,2]"),
    *("\u200b", "\ufffe", "<b>", "&amp;", "****", "?", "T", "0x41", "2020-01-31T10:00:00Z", "Größe", "A", "a"),
    *("two\nlines", "\n", "end\n", "\tlead", "a\r\nb\rc", "12\n", "2020-01-31\n", "\x1b[0m", "a\x1ab", "\x7f", "\x1f", "\\.\n", "\\N\t"),
    *map(chr, range(1, 32)),
]
INTS = [
    *(0, -1, 2**31 - 1, -(2**31), 2**31, 2**53, 2**53 + 1, -(2**53) - 1, 2**63 - 1, -(2**63), 10**17, -(10**17)),
    *(10**18 - 1, -(10**18) + 1, -(10**17) + 1, -123456789012345678),
]
PLACES = ["POINT (8388607 -8388608)", "POINT (-8388608 8388607)", "POINT (0 0)", "POINT (-6491059 -5315533)"]
SHAPES = [
    "LINESTRING (0 0, 5 5, 5 5, 9 1)",
    "POLYGON ((0 0, 10 0, 10 10, 0 10, 0 0), (2 2, 4 2, 4 4, 2 4, 2 2))",
    "POLYGON ((0 0, 0 10, 10 10, 10 0, 0 0))",
    "MULTIPOINT ((1 1))",
    "MULTIPOINT ((1 1), (1 1), (2 2))",
    "MULTILINESTRING ((0 0, 1 1))",
    "MULTIPOLYGON (((0 0, 1 0, 1 1, 0 0)), ((5 5, 6 5, 6 6, 5 5)))",
]
GRIDS = [
    ["500000", "5600000", "0.01"],
    ["0", "0", "0.00000000000000001"],
    ["0.12345678901234567", "-7", "0.1"],
    ["1e15", "-1000000000000000", "0.125"],
    ["0", "0", "1e20"],
]
FILES = {"GPKG": "back.gpkg", "GeoJSON": "back.geojson", "FlatGeobuf": "back.fgb", "ESRI Shapefile": "back.shp"}
IDENTIFIERS = ("GPKG", "GeoJSON", "PostgreSQL")


def excused(name, value):
    """What an export has said of a value that a format does not keep, or nothing."""
    if name == "ESRI Shapefile" and isinstance(value, int) and int(float(value)) != value:
        return "digits of n of w behind the 15th, since a number has more than 18 characters"
    if name != "ESRI Shapefile" or isinstance(value, int):
        return None
    if value == "":
        return "empty texts of w: they have no value then"
    if value != value.strip(" "):
        return "blanks at the begin and end of texts of w"
    if len(value.encode("utf-8")) > 254:
        return "the bytes of texts of w behind the 254th"
    return None


def set_line(identifier, column, value):
    return f"set w {identifier} {column} {spelled(value)}"


class Values(SetCase):
    def lines(self, name):
        lines = ["layer add w point", "column add w t text", "column add w n int", "column add w none text"]
        # As a double the greatest number is one that the store has not: the import reports it.
        numbers = [number for number in INTS if name != "ESRI Shapefile" or number < 2**63 - 1]
        for number, value in enumerate([*TEXTS, *numbers], 1):
            lines += [f"add w POINT ({number} {-number})", set_line(number, "tn"[isinstance(value, int)], value)]
        return [*lines, "set w 3 none 'x'", *(f"add w {place}" for place in PLACES)]

    def back(self, name, target, grid):
        """The features of what comes back, in their order, with the words of the export."""
        status, _, err = give_back(self.folder / "t.sfs", target, "--grid", *grid, "--crs", "EPSG:25832")
        self.assertEqual(status, 0, err)
        again = self.folder / "again.sfs"
        status, out, _ = bring_in(target, again, "--grid", *grid, "--overwrite", "--layer", "w")
        self.assertEqual(status, 0, out)
        with Store(PROGRAM, load=again) as store:
            [layer] = store.layers()
            return store.show(layer.name), err

    def check(self, name, target, grid):
        store = self.made("t.sfs", self.lines(name))
        Path(f"{store}.json").unlink(missing_ok=True)
        with Store(PROGRAM, load=store) as opened:
            wanted = opened.show("w")
        found, err = self.back(name, target, grid)
        self.assertEqual(len(found), len(wanted))
        for one, other in zip(wanted, found):
            if name in IDENTIFIERS:
                self.assertEqual(other.id, one.id)
            self.assertEqual(other.wkt, one.wkt, (name, grid))
            for column, value in one.values.items():
                excuse = excused(name, value)
                if excuse is None:
                    self.assertEqual(other.values.get(column), value, (name, column))
                else:
                    self.assertIn(excuse, err)

    def test_each_value_comes_back_or_was_said_to_be_lost(self):
        for name, file in FILES.items():
            with self.subTest(name):
                self.check(name, self.folder / "w" / file.replace("back", "w"), GRIDS[0])

    def setUp(self):
        super().setUp()
        (self.folder / "w").mkdir()

    def test_each_coordinate_comes_back_on_each_grid(self):
        for name, file in FILES.items():
            for grid in GRIDS[1:]:
                with self.subTest(name, grid=grid):
                    target = self.folder / "w" / file.replace("back", "w")
                    for old in target.parent.iterdir():
                        old.unlink()
                    self.check(name, target, grid)

    def test_coordinates_that_doubles_do_not_tell_apart_are_said_to_be_lost(self):
        lines = ["layer add w point", "add w POINT (0 0)", "add w POINT (1 2)", "layer add p linestring", "add p LINESTRING (0 0, 3 3)"]
        with Store(PROGRAM, save=self.store) as store:
            store.run_all(lines)
        status, out, err = give_back(self.store, self.target, "--grid", "5600000", "5600000", "0.0000000001")
        self.assertEqual((status, out), (0, ""), err)
        self.assertIn("GPKG does not keep 2 coordinates of w: the step is finer than doubles are there\n", err)
        self.assertIn("GPKG does not keep 2 coordinates of p: the step is finer than doubles are there\n", err)

    def test_geometries_of_each_kind(self):
        lines = ["layer add w any", *(f"add w {shape}" for shape in SHAPES)]
        for name in ("GPKG", "GeoJSON", "FlatGeobuf"):
            with self.subTest(name):
                store = self.made("t.sfs", lines)
                Path(f"{store}.json").unlink(missing_ok=True)
                found, _ = self.back(name, self.folder / "w" / FILES[name].replace("back", "w"), GRIDS[0])
                self.assertEqual([feature.wkt for feature in found], SHAPES)

    def test_empty_layers_with_columns_and_without(self):
        lines = ["layer add w polygon", "column add w t text", "layer add bare point"]
        for name, file in FILES.items():
            for layer in ("w", "bare"):
                with self.subTest(name, layer=layer):
                    store = self.made("t.sfs", lines)
                    Path(f"{store}.json").unlink(missing_ok=True)
                    target = self.folder / f"{layer}{Path(file).suffix}"
                    words = ["--grid", "0", "0", "1", "--crs", "EPSG:25832", "--layer", layer]
                    status, _, err = give_back(store, target, *words)
                    self.assertEqual(status, 0, err)
                    found = ogr.Open(str(target))
                    self.assertEqual(found.GetLayer(0).GetFeatureCount(), 0)
                    del found

    def test_a_geojson_is_what_its_standard_says(self):
        """Read by Python alone."""
        lines = ["layer add w any", "column add w t text", *(f"add w {shape}" for shape in SHAPES[:3])]
        store = self.made("t.sfs", [*lines, "set w 1 t '{\"a\": 1.10}'", "delete w 2"])
        target = self.folder / "w.geojson"
        self.assertEqual(give_back(store, target, "--grid", "0", "0", "0.1", "--crs", "EPSG:4326")[0], 0)
        content = json.loads(target.read_text())
        self.assertEqual((content["type"], content["name"]), ("FeatureCollection", "w"))
        self.assertEqual(content["crs"]["properties"]["name"], "urn:ogc:def:crs:OGC:1.3:CRS84")
        self.assertEqual(
            content["features"],
            [
                {
                    "type": "Feature",
                    "id": 1,
                    "properties": {"t": '{"a": 1.10}'},
                    "geometry": {
                        "type": "LineString",
                        "coordinates": [[0.0, 0.0], [0.5, 0.5], [0.5, 0.5], [0.9, 0.1]],
                    },
                },
                {
                    "type": "Feature",
                    "id": 3,
                    "properties": {},
                    "geometry": {
                        "type": "Polygon",
                        "coordinates": [[[0.0, 0.0], [0.0, 1.0], [1.0, 1.0], [1.0, 0.0], [0.0, 0.0]]],
                    },
                },
            ],
        )

    def test_reference_systems_of_a_geojson_are_written_as_ogr_writes_them(self):
        for name in ("EPSG:4326", "EPSG:31467", "EPSG:3035", "EPSG:25832", "ESRI:102017", "EPSG:7415"):
            reference = osr.SpatialReference()
            reference.SetFromUserInput(name)
            reference.SetAxisMappingStrategy(osr.OAMS_TRADITIONAL_GIS_ORDER)
            path = self.folder / "ogr.geojson"
            data = ogr.GetDriverByName("GeoJSON").CreateDataSource(str(path))
            data.CreateLayer("w", reference, ogr.wkbPoint)
            data.Destroy()
            store, target = self.made("t.sfs", ["layer add w point", "add w POINT (1 2)"]), self.folder / "w.geojson"
            Path(f"{store}.json").unlink(missing_ok=True)
            words = ["--grid", "0", "0", "1", "--crs", name, "--overwrite"]
            self.assertEqual(give_back(store, target, *words)[0], 0)
            self.assertEqual(json.loads(target.read_text())["crs"], json.loads(path.read_text())["crs"])

    def test_a_reference_system_that_geojson_can_not_name(self):
        store = self.made("t.sfs", ["layer add w point", "add w POINT (1 2)"])
        words = ["--grid", "0", "0", "1", "--overwrite"]
        status, _, err = give_back(store, self.folder / "w.geojson", *words)
        self.assertEqual(status, 0)
        self.assertIn("GeoJSON does not keep that the reference system is unknown", err)
        Path(f"{store}.json").unlink()
        crs = "+proj=tmerc +lat_0=1 +lon_0=2 +ellps=bessel"
        status, _, err = give_back(store, self.folder / "w.geojson", *words, "--crs", crs)
        self.assertEqual(status, 0)
        self.assertIn("GeoJSON does not keep the reference system, which has no code", err)

    def test_a_shapefile_of_a_layer_without_columns(self):
        store = self.made("t.sfs", ["layer add w point", "add w POINT (1 2)"])
        status, _, err = give_back(store, self.folder / "w.shp", "--grid", "0", "0", "1")
        self.assertEqual(status, 0)
        self.assertIn("ESRI Shapefile does not keep that w has no columns: it gets a column FID", err)

    def test_many_polygons_with_islands_by_a_shapefile(self):
        """Islands in holes, rings that touch, both directions."""
        rings = {
            "shell": "(0 0, 100 0, 100 100, 0 100, 0 0)",
            "turned": "(0 0, 0 100, 100 100, 100 0, 0 0)",
            "hole": "(10 10, 90 10, 90 90, 10 90, 10 10)",
            "island": "(20 20, 80 20, 80 80, 20 80, 20 20)",
            "touching": "(100 100, 120 100, 120 120, 100 120, 100 100)",
            "lake": "(30 30, 40 30, 40 40, 30 40, 30 30)",
        }
        shapes = [
            "MULTIPOLYGON (({shell}, {hole}), ({island}, {lake}))",
            "MULTIPOLYGON (({turned}, {hole}), ({island}), ({touching}))",
            "MULTIPOLYGON (({shell}), ({touching}))",
            "POLYGON ({turned}, {lake})",
        ]
        lines = ["layer add w any", *(f"add w {shape.format(**rings)}" for shape in shapes)]
        store = self.made("t.sfs", lines)
        status, _, err = give_back(store, self.folder / "w.shp", "--grid", "0", "0", "1")
        self.assertEqual(status, 0, err)
        layer = (data := ogr.Open(str(self.folder / "w.shp"))).GetLayer(0)
        areas = [feature.GetGeometryRef().GetArea() for feature in layer]
        del layer, data
        self.assertEqual(areas, [3600 + 3500, 3600 + 3600 + 400, 10400, 9900])


class ReadBack(SetCase):
    """What a format changes without a word is found before the file takes its place."""

    LINES = ["layer add w point", "column add w t text", "column add w n int", "add w POINT (1 1)",
             "set w 1 t 'old'", "set w 1 n 5", "add w POINT (2 2)"]

    def setUp(self):
        super().setUp()
        self.store = self.made("t.sfs", self.LINES)
        (self.folder / "w").mkdir()
        status, _, err = give_back(self.store, self.folder / "first.gpkg", "--grid", "0", "0", "1", "--crs", "EPSG:25832")
        self.assertEqual(status, 0, err)

    def check(self, said, *patches, names=FILES):
        """Each export ends with what is said, and an older file stays."""
        for name in names:
            with self.subTest(name), contextlib.ExitStack() as stack:
                target = self.folder / "w" / FILES[name].replace("back", "w")
                for path in target.parent.iterdir():
                    path.unlink()
                self.assertEqual(give_back(self.store, target)[0], 0)
                before = {path.name: path.read_bytes() for path in target.parent.iterdir()}
                for patch in patches:
                    stack.enter_context(patch)
                status, out, err = give_back(self.store, target, "--overwrite")
                self.assertEqual((status, out), (3, ""), err)
                self.assertIn(f"{target.name} was not written as the store has it: layer w: {said}", err)
                self.assertEqual({path.name: path.read_bytes() for path in target.parent.iterdir()}, before)

    def replaced(self, module, name, change):
        """A function whose arguments are changed."""
        known = getattr(module, name)
        return mock.patch.object(module, name, lambda *words: known(*change(*words)))

    def test_a_value(self):
        self.check(
            "feature 1 has the value 'oldx' in column t in place of 'old'",
            self.replaced(writing, "_set", lambda *words: (*words[:3], words[3] if words[3] == 5 else "oldx")),
            self.replaced(geojson, "_value", lambda value, sort: (value if value == 5 else "oldx", sort)),
        )
        self.check(
            "feature 1 has the value '6' in column n in place of 5",
            self.replaced(writing, "_set", lambda *words: (*words[:3], 6 if words[3] == 5 else words[3])),
            self.replaced(geojson, "_value", lambda value, sort: (6 if value == 5 else value, sort)),
        )
        self.check(
            "feature 1 has the value 'none' in column t in place of 'old'",
            mock.patch.object(writing, "_set", lambda *words: None),
            names=("GPKG", "FlatGeobuf", "ESRI Shapefile"),
        )

    def test_a_coordinate_of_the_last_place(self):
        def moved(shape):
            return (shape.mapped(lambda line: [math.nextafter(place, 9) for place in line]),)

        self.check(
            "feature 1 has another geometry",
            self.replaced(writing, "write_wkb", moved),
            self.replaced(geojson, "_geometry", moved),
        )

    def test_a_feature_that_is_missing_or_too_many(self):
        write = ogr.Layer.CreateFeature

        def last_left_out(layer, feature):
            return 0 if feature.GetGeometryRef().GetX() == 2 else write(layer, feature)

        names = ("GPKG", "FlatGeobuf", "ESRI Shapefile")
        missing = mock.patch.object(ogr.Layer, "CreateFeature", last_left_out)
        self.check("feature 2 can't be read: it is missing", missing, names=names)

        def twice(layer, feature):
            write(layer, feature)
            if feature.GetGeometryRef().GetX() == 2:
                feature.SetFID(-1)
                write(layer, feature)

        self.check("there are more features than were written", mock.patch.object(ogr.Layer, "CreateFeature", twice), names=names)

    def test_heads(self):
        other = exchange_ogr.crs_named("EPSG:25833")
        self.check(
            "it has the reference system EPSG:25833 in place of EPSG:25832",
            mock.patch.object(writing.ogr, "spatial_reference", lambda crs, known=exchange_ogr.spatial_reference: known(other)),
            names=("GPKG", "FlatGeobuf"),
        )
        self.check(
            "it has the reference system EPSG:25833 in place of EPSG:25832",
            self.replaced(geojson, "_write_texts", lambda path, name, crs, features: (path, name, other, features)),
            names=("GeoJSON",),
        )
        self.check(
            "it has another kind",
            mock.patch.object(writing._LayerExport, "_kind", lambda self: ogr.wkbUnknown),
            names=("GPKG", "FlatGeobuf"),
        )
        self.check(
            "the column t is missing",
            self.replaced(writing._LayerExport, "_field", lambda self, name, *words: (self, name.upper(), *words)),
            names=("GPKG", "FlatGeobuf", "ESRI Shapefile"),
        )


class Names(SetCase):
    NAMES = [
        *("Name", "name", "id", "ID", "fid", "FID", "type", "geometry", "properties", "bbox", "coordinates"),
        *("features", "rowid", "oid", "geom", "OGC_FID", "ogc_fid", "wkb_geometry", "GEOMETRY", "WKT", "SHAPE"),
        *("x", "y", "crs", "select", "n" * 32, "n" * 31 + "m", "a2345678901", "a2345678902", "A2345678903", "xid"),
        *("osm_id", "style", "OGR_STYLE", "null", "true", "ctid", "tableoid", "user", "order"),
    ]

    def test_columns_of_any_names_come_back_or_are_renamed(self):
        for name, file in FILES.items():
            with self.subTest(name):
                self.check(name, self.folder / file)

    def check(self, name, target):
        """Each value comes back, in a column of its name, or of the one that was told."""
        lines = ["layer add w point"]
        lines += [f"column add w {column} {('int', 'text')[at % 2]}" for at, column in enumerate(self.NAMES)]
        for identifier in (1, 2):
            lines.append(f"add w POINT ({identifier} 1)")
            lines += [
                set_line(identifier, column, f"v{identifier}.{at}" if at % 2 else 1000 * identifier + at)
                for at, column in enumerate(self.NAMES)
            ]
        store = self.made("t.sfs", lines)
        Path(f"{store}.json").unlink(missing_ok=True)
        status, _, err = give_back(store, target, "--grid", "0", "0", "1", "--overwrite")
        self.assertEqual(status, 0, err)
        renamed = dict(re.findall("the name ([^ ]+) of a column of w: it is ([^ ]+) there", err))
        status, out, _ = bring_in(target, self.folder / "again.sfs", "--grid", "0", "0", "1", "--overwrite")
        self.assertEqual(status, 0, out)
        with Store(PROGRAM, load=store) as opened:
            wanted = opened.show("w")
        with Store(PROGRAM, load=self.folder / "again.sfs") as opened:
            found = opened.show(opened.layers()[0].name)
        for one, other in zip(wanted, found):
            self.assertEqual({renamed.get(key, key): value for key, value in one.values.items()}, {
                key if name != "GPKG" else renamed.get(key, key): value for key, value in other.values.items()
            })


@unittest.skipUnless(HAS_GDAL and HAS_SERVER, "no GDAL, or no PostgreSQL with psycopg2")
class ValuesOfPostGis(DatabaseCase):
    made = Values.made
    lines = Values.lines
    back = Values.back
    check = Values.check

    def test_each_value_comes_back(self):
        for grid in GRIDS:
            with self.subTest(grid=grid):
                self.ask("DROP TABLE IF EXISTS w")
                self.check("PostgreSQL", self.target, grid)

    def test_columns_of_any_names_come_back_or_are_renamed(self):
        Names.check(self, "PostgreSQL", self.target)

    NAMES = Names.NAMES


del DatabaseCase, SetCase

if __name__ == "__main__":
    unittest.main()
