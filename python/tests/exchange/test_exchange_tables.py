"""Tests of what an import owes a Shapefile's table and reference system, a FlatGeobuf of others, and many columns."""

from __future__ import annotations

import json
import time
import unittest
import zipfile
from decimal import Decimal
from unittest import mock

from support import PROGRAM
from test_exchange import HAS_GDAL, ExchangeCase, Source, bring_in, give_back

from sfstore import Store

if HAS_GDAL:
    from osgeo import ogr, osr

GRID = ["--grid", "0", "0", "1"]


class TableCase(ExchangeCase):
    def shapefile(self, columns, rows):
        """A Shapefile of points; columns have a name, a type, a width and places."""
        self.source = self.folder / "w.shp"
        ogr.UseExceptions()
        data = ogr.GetDriverByName("ESRI Shapefile").CreateDataSource(str(self.source))
        layer = data.CreateLayer("w", None, ogr.wkbPoint)
        for name, kind, width, places in columns:
            field = ogr.FieldDefn(name, kind)
            field.SetWidth(width)
            field.SetPrecision(places)
            layer.CreateField(field)
        for at, row in enumerate(rows):
            feature = ogr.Feature(layer.GetLayerDefn())
            feature.SetGeometry(ogr.CreateGeometryFromWkt(f"POINT ({at} {at})"))
            for name, value in row.items():
                feature.SetField(name, value)
            layer.CreateFeature(feature)
        del feature, layer
        data.Destroy()

    def changed(self, before, behind, file="w.dbf"):
        """Puts some bytes in the place of as many others."""
        path = self.folder / file
        data = path.read_bytes()
        self.assertIn(before, data)
        self.assertEqual(len(before), len(behind))
        path.write_bytes(data.replace(before, behind, 1))

    def archived(self, name):
        """An archive of the Shapefile."""
        target = self.folder / name
        with zipfile.ZipFile(target, "w") as made:
            for path in sorted(self.folder.glob("w.*")):
                made.write(path, path.name)
        return target

    def brought(self, source, *words):
        return bring_in(source, self.store, *GRID, "--overwrite", *words)

    def values(self, name="w"):
        return [feature.values for feature in self.shown(name)]


class Tables(TableCase):
    def test_an_index_of_shapes_that_can_not_be_read_is_no_matter(self):
        self.shapefile([], [{}])
        (self.folder / "w.sbn").write_bytes(b"\0\0\x27\x0a\xff\xff\xfe\x70" + b"\xff" * 200)
        self.assertEqual(self.brought(self.source)[0], 0)

    def test_a_text_that_goes_on_behind_a_byte_0_is_told(self):
        rows = [{"t": text} for text in ("one", "two", "end and rest", "line\nfeed\t")]
        self.shapefile([("t", ogr.OFTString, 12, 0)], rows)
        self.changed(b"one         ", b"one\0\0\0\0\0\0\0\0\0")
        self.changed(b"end and rest", b"end\0and rest")
        status, out, _ = self.brought(self.source)
        self.assertEqual(status, 0)
        self.assertIn("  column t: 1 value is cut off at a byte 0\n", out)
        self.assertEqual(self.values(), [{"t": text} for text in ("one", "two", "end", "line\nfeed\t")])

    def test_texts_among_numbers_and_deleted_records_of_an_archive_are_told(self):
        self.shapefile([("n", ogr.OFTInteger, 9, 0)], [{"n": at} for at in (11, 22, 33)])
        self.changed(b"       22", b"   22 m2 ")
        self.changed(b"        33", b"*       33")
        for source in (self.source, self.archived("a.shz"), self.archived("a.shp.zip"), f"/vsizip/{self.archived('a.zip')}"):
            with self.subTest(str(source)):
                status, out, _ = self.brought(source)
                self.assertEqual(status, 1)
                self.assertIn("1 a value that is none of the column's type Integer: 1 (the value '22 m2' of column n", out)
                self.assertIn("records of its .dbf that are marked as deleted are left out: 1 of 3\n", out)
                self.assertNotIn("cut off", out)
                self.assertNotIn("its .dbf is missing", out)
                self.assertEqual(self.values(), [{"n": 11}, {}])

    def test_an_archive_without_a_table_is_told(self):
        self.shapefile([("n", ogr.OFTInteger, 9, 0)], [{"n": 1}])
        (self.folder / "w.dbf").unlink()
        status, out, _ = self.brought(self.archived("a.shz"))
        self.assertEqual(status, 1)
        self.assertIn("it has no values: its .dbf is missing\n", out)

    def test_a_table_that_ogr_passes_over_is_told(self):
        self.shapefile([("n", ogr.OFTInteger, 9, 0)], [{"n": 1}])
        table = self.folder / "w.dbf"
        data = table.read_bytes()
        for bad in (b"", b"y" * 200, data[:40]):
            table.write_bytes(bad)
            status, out, _ = self.brought(self.source)
            self.assertEqual(status, 1, out)
            self.assertIn("it has no values: its .dbf can't be read\n", out)
        # One without columns has none.
        table.write_bytes(data[:8] + (33).to_bytes(2, "little") + (1).to_bytes(2, "little") + data[12:32] + b"\r ")
        self.assertEqual(self.brought(self.source)[0], 0)

    def test_columns_that_are_none_of_letters_are_left_out_and_told(self):
        for kind, shown in ((b"M", "memo"), (b"O", "'O' of dBase"), (b"+", "'+' of dBase")):
            self.shapefile([("n", ogr.OFTInteger, 9, 0), ("m", ogr.OFTString, 10, 0)], [{"n": 1, "m": "ABCDEFGH"}])
            data = bytearray((self.folder / "w.dbf").read_bytes())
            data[64 + 11 : 64 + 12] = kind
            (self.folder / "w.dbf").write_bytes(data)
            for words in ((), ("--as-text",)):
                status, out, _ = self.brought(self.source, *words)
                self.assertEqual(status, 1, out)
                self.assertIn(f"1 column of type {shown} is left out: m\n", out)
                self.assertEqual(self.values(), [{"n": 1}])

    def test_what_is_no_day_becomes_no_other_text(self):
        days = [b"abcdefgh", b"31.01.20", b"20200231", b"2020    ", b"00000000", b"        ", b"20200131"]
        self.shapefile([("d", ogr.OFTDate, 8, 0)], [{"d": "2020-01-31"} for _ in days])
        for day in days[:-1]:
            self.changed(b"20200131", day)
        for words in ((), ("--as-text",)):
            status, out, _ = self.brought(self.source, *words)
            self.assertEqual(status, 1)
            self.assertIn("4 a value that is none of the column's type Date: 0 (the value 'abcdefgh' of column d is left out)", out)
            self.assertEqual(self.values()[:-1], [{}] * 6)
            self.assertEqual(str(self.values()[-1]["d"]), "2020-01-31")

    def test_numbers_have_the_digits_of_the_table(self):
        columns = [("a", ogr.OFTReal, 19, 3), ("b", ogr.OFTReal, 24, 18), ("c", ogr.OFTReal, 24, 15)]
        self.shapefile(columns, [{"a": 1.5, "b": 0.25, "c": 123.456}])
        self.changed(b"              1.500", b" 12345678901234.567")
        self.changed(b"0.250000000000000000", b"0.123456789012345678")
        self.assertIn(b"123.456000000000003", (self.folder / "w.dbf").read_bytes())
        status, out, _ = self.brought(self.source)
        self.assertEqual(status, 0, out)
        # The last one was a double, which has been written with more digits than it needs.
        wanted = {"a": Decimal("12345678901234.567"), "b": Decimal("0.123456789012345678"), "c": Decimal("123.456")}
        self.assertEqual(self.values(), [wanted])

    def test_bytes_that_are_no_utf_8_in_a_warning(self):
        self.shapefile([("n", ogr.OFTInteger, 9, 0)], [{"n": 12}])
        self.changed(b"       12", b"  12 m\xb2  ")
        status, out, err = self.brought(self.source)
        self.assertEqual((status, err), (1, ""))
        self.assertIn("a value that is none of the column's type Integer: 0 (the value '12 m²' of column n", out)
        self.assertIn("OGR warns: Value '12 m\\udcb2' of field w.n parsed incompletely to integer 12.", out)

    def test_a_truth_value_becomes_a_number_and_the_export_says_so(self):
        self.made("layer add w point", "column add w b bool", "add w POINT (1 2)", "set w 1 b true")
        status, _, err = give_back(self.store, self.folder / "back.shp", *GRID)
        self.assertEqual(status, 0)
        self.assertIn("ESRI Shapefile does not keep the type bool of column b of w: it has numbers there\n", err)
        self.assertEqual(self.brought(self.folder / "back.shp")[0], 0)
        self.assertEqual(self.values("back"), [{"b": 1}])

    def made(self, *lines):
        with Store(PROGRAM, save=self.store) as store:
            store.run_all(lines)


    def test_what_values_mean_is_left_out_and_told(self):
        source = Source(self.source)
        values = {1: "clay", 2: "sand"}
        source.data.AddFieldDomain(ogr.CreateCodedFieldDomain("soils", "", ogr.OFTInteger, ogr.OFSTNone, values))
        layer = source.data.CreateLayer("w", None, ogr.wkbPoint)
        field = ogr.FieldDefn("soil", ogr.OFTInteger)
        field.SetDomainName("soils")
        layer.CreateField(field)
        feature = ogr.Feature(layer.GetLayerDefn())
        feature.SetField("soil", 2)
        feature.SetGeometry(ogr.CreateGeometryFromWkt("POINT (1 2)"))
        layer.CreateFeature(feature)
        del feature, layer
        source.close()
        status, out, _ = self.brought(self.source)
        self.assertEqual((status, self.values()), (1, [{"soil": 2}]))
        self.assertIn("domains of columns, which say what their values mean or what no rule says, are left out: soil (soils)\n", out)


class ReferenceSystems(TableCase):
    GOOD = (
        'PROJCS["Näherung",GEOGCS["x",DATUM["D",SPHEROID["GRS_1980",6378137.0,298.257222101]],PRIMEM["Greenwich",0.0],'
        'UNIT["Degree",0.0174532925199433]],PROJECTION["Transverse_Mercator"],PARAMETER["Central_Meridian",9.0],UNIT["Meter",1.0]]'
    )

    def brought_with(self, words):
        self.shapefile([], [{}])
        (self.folder / "w.prj").write_bytes(words)
        status, out, err = self.brought(self.source)
        return status, out, err, json.loads((self.folder / "town.sfs.json").read_text())["crs"]

    def test_one_that_can_not_be_read_is_told(self):
        good = self.GOOD.encode("latin-1")
        for words in (good[:-1], good.replace(b"6378137.0", b"x"), good.replace(b"UNIT", b"UN"), b"EPSG 25832", good[:40]):
            with self.subTest(words):
                status, out, err, crs = self.brought_with(words)
                self.assertEqual((status, err, crs), (1, "", None), out)
                self.assertIn("  its reference system can't be read, and is left out: ", out)

    def test_one_whose_name_is_no_utf_8_is_kept(self):
        status, out, err, crs = self.brought_with(self.GOOD.encode("latin-1"))
        self.assertEqual((status, err), (0, ""), out)
        self.assertIn("Näherung", crs["wkt"])
        self.assertEqual(give_back(self.store, self.target)[0], 0)


    UNNAMED = (
        'PROJCS["WGS_1984_UTM_Zone_18N",GEOGCS["GCS_WGS_1984",DATUM["D_unknown",SPHEROID["WGS84",6378137,298.257223563]],'
        'PRIMEM["Greenwich",0],UNIT["Degree",0.017453292519943295]],PROJECTION["Transverse_Mercator"],'
        'PARAMETER["latitude_of_origin",0],PARAMETER["central_meridian",-75],PARAMETER["scale_factor",0.9996],'
        'PARAMETER["false_easting",500000],PARAMETER["false_northing",0],UNIT["Meter",1]]'
    )

    def test_one_that_ogr_gives_a_code_goes_out_and_that_is_said(self):
        status, out, _, crs = self.brought_with(self.UNNAMED.encode())
        self.assertEqual((status, crs["code"]), (0, ""), out)
        words = "does not keep that the reference system has no code: by its name it is EPSG:32618 there\n"
        for name in ("back.gpkg", "back.fgb"):
            status, _, err = give_back(self.store, self.folder / name)
            self.assertEqual(status, 0, err)
            self.assertIn(words, err)
        for name in ("back.shp", "back.geojson"):
            status, _, err = give_back(self.store, self.folder / name)
            self.assertEqual((status, "EPSG:32618" in err), (0, False), err)

    def test_one_of_which_ogr_searches_a_code_in_vain_costs_no_feature(self):
        reference = osr.SpatialReference()
        reference.ImportFromProj4("+proj=utm +zone=18 +ellps=clrk66 +nadgrids=@conus,@alaska")
        source = Source(self.source)
        layer = source.data.CreateLayer("w", reference, ogr.wkbPoint)
        for at in range(3):
            feature = ogr.Feature(layer.GetLayerDefn())
            feature.SetGeometry(ogr.CreateGeometryFromWkt(f"POINT ({at} {at})"))
            layer.CreateFeature(feature)
        del feature, layer
        source.close()
        self.assertEqual(self.brought(self.source)[0], 0)
        status, _, err = give_back(self.store, self.folder / "back.shp")
        self.assertEqual(status, 0, err)
        status, out, err = self.brought(self.folder / "back.shp")
        self.assertEqual((status, err), (0, ""), out)
        self.assertIn("back: 3 features read, 3 taken\n", out)
        self.assertIn("NTv2", json.loads((self.folder / "town.sfs.json").read_text())["crs"]["wkt"])


class FlatGeobufs(TableCase):
    """Of other programs: OGR writes no whole numbers without a sign, and moments in its own form."""

    NUMBERS = (2**53 + 1, -1, 2**62 + 3, 5)
    MOMENTS = (
        *("2020-01-31T10:00:00.123456Z", "2020-01-31T10:00:00.1230000Z", "31.1.2020", "2020-01-31 10:00:00Z"),
        *("2020-01-31T10:00:00.1234567Z", "2020-01-31", "2020-01-31T10:00:00.5Z"),
    )

    def file(self, path, options=()):
        """A file of numbers and moments, which OGR has written as numbers with a sign and as texts."""
        source = Source(path, "FlatGeobuf")
        rows = [{"n": number} for number in self.NUMBERS] + [{"at": text} for text in self.MOMENTS]
        columns = [("n", ogr.OFTInteger64), ("at", ogr.OFTString)]
        features = {at: (f"POINT ({at} {at})", row) for at, row in enumerate(rows)}
        source.layer("w", features, columns=columns, crs=None, options=options)
        source.close()
        data = bytearray(path.read_bytes())
        for before, behind in (("000708000000", "000808000000"), ("00000b08000000", "00000d08000000")):
            at = data.rindex(bytes.fromhex(before))
            data[at : at + len(before) // 2] = bytes.fromhex(behind)
        path.write_bytes(data)
        return path

    def check_told(self, out, *features):
        parts, none, number = features
        self.assertIn(f"2 a moment with parts of a millisecond: {parts} (the value of column at is left out)", out)
        self.assertIn(f"1 a value that is none of the column's type DateTime: {none} (the value '31.1.2020' of column at", out)
        self.assertIn(f"1 a number of more than 64 bits: {number} (the value of column n is left out)", out)

    def test_numbers_and_moments_are_as_they_stand_there_or_told(self):
        source = self.file(self.folder / "w.fgb", ["SPATIAL_INDEX=NO"])
        status, out, _ = self.brought(source)
        self.assertEqual(status, 1)
        self.check_told(out, 4, 6, 1)
        self.assertEqual([f.get("n") for f in self.values()[:4]], [2**53 + 1, None, 2**62 + 3, 5])
        moments = [str(f.get("at", "")).removeprefix("2020-01-31 ") for f in self.values()[4:]]
        self.assertEqual(moments, ["", "10:00:00.123000+00:00", "", "10:00:00+00:00", "", "00:00:00+00:00", "10:00:00.500000+00:00"])

    def test_behind_an_index_in_an_archive_and_in_a_folder(self):
        maps = self.folder / "maps"
        maps.mkdir()
        self.file(maps / "w.fgb")
        with zipfile.ZipFile(self.folder / "a.zip", "w") as made:
            made.write(maps / "w.fgb", "w.fgb")
        for source in (maps, f"/vsizip/{self.folder / 'a.zip'}/w.fgb"):
            with self.subTest(str(source)):
                self.assertEqual(self.brought(source)[0], 1)
                numbers = {feature.values["n"] for feature in self.shown("w") if "n" in feature.values}
                self.assertEqual(numbers, {2**53 + 1, 2**62 + 3, 5})

    def test_zones_that_are_no_quarters_of_an_hour_are_the_very_ones(self):
        moments = ("1890-01-01T05:53:28+05:53", "2020-01-31T10:00:00-00:01", "2020-01-31T10:00:00-25:00", "2020-01-31T10:00:00+05:45")
        with mock.patch.object(FlatGeobufs, "MOMENTS", moments):
            status, out, _ = self.brought(self.file(self.folder / "w.fgb", ["SPATIAL_INDEX=NO"]))
        self.assertEqual(status, 1)
        self.assertNotIn("without a zone", out)
        self.assertIn("column at: 4 values are of another zone: kept in UTC\n", out)
        wanted = ["1890-01-01 00:00:28", "2020-01-31 10:01:00", "2020-02-01 11:00:00", "2020-01-31 04:15:00"]
        self.assertEqual([str(f["at"]) for f in self.values()[4:]], [f"{text}+00:00" for text in wanted])

    def test_a_text_that_ogr_cuts_off_is_told(self):
        path = self.folder / "w.fgb"
        Source(path, "FlatGeobuf").layer("w", {0: ("POINT (1 2)", {"t": "ab#cd"})}, columns=[("t", ogr.OFTString)], crs=None).close()
        path.write_bytes(path.read_bytes().replace(b"ab#cd", b"ab\0cd"))
        status, out, _ = self.brought(path)
        self.assertEqual(status, 1)
        self.assertIn("1 a value that is none of the column's type String: 0 (the value 'ab\\x00cd' of column t is left out)", out)
        self.assertEqual(self.values(), [{}])

    def test_as_texts_they_are_the_very_ones(self):
        status, out, _ = self.brought(self.file(self.folder / "w.fgb", ["SPATIAL_INDEX=NO"]), "--as-text")
        self.assertEqual(status, 1, out)
        self.assertEqual([f["n"] for f in self.values()[:4]], [str(2**53 + 1), str(2**64 - 1), str(2**62 + 3), "5.0"])
        texts = [f.get("at") for f in self.values()[4:]]
        self.assertEqual((texts[0], texts[2], texts[4]), (self.MOMENTS[0], None, self.MOMENTS[4]))

    def test_a_file_that_is_cut_anywhere_ends_in_a_sentence(self):
        data = self.file(self.folder / "w.fgb").read_bytes()
        for size in range(0, len(data), 97):
            (self.folder / "cut.fgb").write_bytes(data[:size])
            self.assertIn(self.brought(self.folder / "cut.fgb")[0], (1, 3), size)


class ManyColumns(TableCase):
    def spent(self, call, *words):
        begin = time.process_time()
        status, out, err = call(*words)
        self.assertEqual(status, 0, out + err)
        return time.process_time() - begin

    def test_an_export_of_many_values_takes_no_more_than_they_need(self):
        row = {f"c{at}": at for at in range(1_000)}
        point = {"type": "Point", "coordinates": [1, 2]}
        features = [{"type": "Feature", "id": at, "properties": row, "geometry": point} for at in range(1, 61)]
        source = self.folder / "w.geojson"
        source.write_text(json.dumps({"type": "FeatureCollection", "features": features}))
        self.assertLess(self.spent(bring_in, source, self.store, *GRID), 10)
        for name in ("back.geojson", "back.fgb"):
            self.assertLess(self.spent(give_back, self.store, self.folder / name), 10)

    def test_so_does_one_of_many_columns_and_of_alike_names(self):
        with Store(PROGRAM, save=self.store) as store:
            store.add_layer("w", "point")
            store.run_all(f"column add w abcdefghijk{at} int" for at in range(6_000))
            store.add("w", "POINT (1 2)")
        self.assertLess(self.spent(give_back, self.store, self.folder / "back.fgb", *GRID), 10)
        with self.assertRaises(AssertionError):
            # No such table has so many columns, and that is said soon.
            self.spent(give_back, self.store, self.folder / "back.shp")

    def test_more_columns_than_a_layer_has_are_a_refusal(self):
        point = {"type": "Point", "coordinates": [1, 2]}
        rows = [{f"c{at}": 1 for at in range(place, 65_536, 100)} for place in range(100)]
        features = [{"type": "Feature", "properties": row, "geometry": point} for row in rows]
        source = self.folder / "w.geojson"
        source.write_text(json.dumps({"type": "FeatureCollection", "features": features}))
        status, _, err = bring_in(source, self.store, *GRID)
        self.assertEqual((status, err), (3, "sfstore-import: w has 65,536 columns, and a layer of the store at most 65,534\n"))


if __name__ == "__main__":
    unittest.main()
