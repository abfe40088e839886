"""Tests of columns of other types: reals that are whole, reals and dates as texts, and what OGR would change of them."""

from __future__ import annotations

import datetime
import json
import sqlite3
import unittest
from decimal import Decimal
from unittest import mock

from support import PROGRAM

from test_exchange import GRID, HAS_GDAL, ExchangeCase, Source, bring_in, give_back
from test_exchange_postgis import HAS_SERVER, DatabaseCase

from sfstore import Store
from sfstore.exchange.srids import strangers

if HAS_GDAL:
    from osgeo import ogr

POINT = "POINT (500000 5600000)"
FILES = {"GPKG": "back.gpkg", "GeoJSON": "back.geojson", "FlatGeobuf": "back.fgb", "ESRI Shapefile": "back.shp"}


def made(row, **makers):
    """A row with the values that some columns make of their texts."""
    return {name: makers.get(name, str)(text) for name, text in row.items()}


class TypesCase(ExchangeCase):
    def source_of(self, rows, columns, **named):
        self.points({number: (POINT, row) for number, row in enumerate(rows, 1)}, name="w", columns=columns, **named)

    def brought_in(self, *words, status=0):
        found, out, err = bring_in(self.source, self.store, *GRID, "--overwrite", *words)
        self.assertEqual((found, err), (status, ""), out)
        return out

    def fields(self, path):
        """The types and the values of a map's columns, as OGR reads them."""
        layer = (data := ogr.Open(str(path))).GetLayer(0)
        definition = layer.GetLayerDefn()
        fields = [definition.GetFieldDefn(at) for at in range(definition.GetFieldCount())]
        types = {field.GetName(): field.GetTypeName() for field in fields}
        values = [feature.items() for feature in layer]
        del layer, data
        return types, values

    def edited(self, *lines):
        with Store(self.store, journal=True, program=PROGRAM) as store:
            store.run_all(lines)


class Reals(TypesCase):
    def test_they_are_decimals_and_go_back_as_reals(self):
        rows = [{"area": 12.0, "big": 2.0**60, "none": None}, {"area": -3.0}, {}]
        columns = [("area", ogr.OFTReal), ("big", ogr.OFTReal), ("none", ogr.OFTReal)]
        self.source_of([{k: v for k, v in row.items() if v is not None} for row in rows], columns)
        self.brought_in()
        with Store(PROGRAM, load=self.store) as store:
            self.assertEqual(store.run("columns w"), ["area decimal", "big decimal", "none decimal"])
        self.assertEqual([f.values for f in self.shown("w")], [{"area": 12, "big": 2**60}, {"area": -3}, {}])
        for name, file in FILES.items():
            target = self.folder / file
            status, _, err = give_back(self.store, target)
            self.assertEqual((status, "the type Real of column big of w" in err), (0, name == "ESRI Shapefile"), err)
            types, values = self.fields(target)
            wanted = {"area": "Real", "big": "Real", "none": "Real"}
            if name == "GeoJSON":
                del wanted["none"]
            # A real number of a Shapefile has room for 15 digits before its point.
            big: object = 2.0**60
            if name == "ESRI Shapefile":
                wanted["big"], big = "String", str(2**60)
            self.assertEqual(types, wanted, name)
            self.assertEqual([row["area"] for row in values], [12.0, -3.0, None], name)
            self.assertEqual([row["big"] for row in values], [big, None, None], name)

    def test_digits_that_no_double_has_are_told_and_stay_where_a_format_has_room(self):
        self.source_of([{"area": 12.0}], [("area", ogr.OFTReal)])
        self.brought_in()
        self.edited(f"set w 1 area {2**53 + 1}")
        status, _, err = give_back(self.store, self.target)
        self.assertEqual(status, 0)
        self.assertIn(f"GPKG does not keep digits of column area of w that no double has, as those of {2**53 + 1}", err)
        self.assertEqual(self.fields(self.target), ({"area": "Real"}, [{"area": 2.0**53}]))
        text = self.folder / "own.geojson"
        status, _, err = give_back(self.store, text)
        self.assertEqual((status, "digits" in err), (0, False), err)
        self.assertIn(f'"area": {2**53 + 1}', text.read_text())

    def test_a_whole_number_of_which_ogr_makes_a_double_comes_in_as_it_is(self):
        other = Source(self.folder / "wide.shp", "ESRI Shapefile")
        layer = other.data.CreateLayer("wide", None, ogr.wkbPoint)
        field = ogr.FieldDefn("n", ogr.OFTInteger64)
        field.SetWidth(20)
        layer.CreateField(field)
        feature = ogr.Feature(layer.GetLayerDefn())
        feature.SetField(0, 1234567890123456789)
        feature.SetGeometry(ogr.CreateGeometryFromWkt("POINT (1 2)"))
        layer.CreateFeature(feature)
        layer = None
        other.close()
        status, out, err = bring_in(self.folder / "wide.shp", self.store, "--grid", "0", "0", "1", "--overwrite")
        self.assertEqual((status, err), (0, ""), out)
        self.assertEqual([f.values for f in self.shown("wide")], [{"n": 1234567890123456789}])

    def test_columns_of_other_types_are_left_out_in_one_sentence_for_each(self):
        columns = [(f"c{at}", ogr.OFTBinary) for at in range(5)] + [("n", ogr.OFTInteger)]
        self.source_of([{"n": 7}], columns)
        out = self.brought_in(status=1)
        self.assertIn("  5 columns of type Binary are left out (--as-text keeps them): c0, c1, c2, c3, c4\n", out)
        self.assertEqual([f.values for f in self.shown("w")], [{"n": 7}])

    def test_numbers_that_are_no_decimals_are_left_out_or_have_their_column_become_one_of_texts(self):
        numbers = [812.5, float("inf"), 0.0, 1e-19, 1e19, -(2.0**63), 0.1 + 0.2]
        self.source_of([{"area": number} for number in numbers], [("area", ogr.OFTReal)])
        out = self.brought_in(status=1)
        for reason, feature in (
            ("no number", 2), ("a number with more than 18 places", 4), ("a number of more than 64 bits", 5)
        ):
            self.assertIn(f"  1 {reason}: {feature} (the value of column area is left out)\n", out)
        self.assertEqual(
            [f.values.get("area") for f in self.shown("w")],
            [Decimal("812.5"), None, 0, None, None, -(2**63), Decimal("0.30000000000000004")],
        )
        self.brought_in("--as-text")
        texts = ["812.5", "inf", "0.0", "1e-19", "1e+19", "-9.223372036854776e+18", "0.30000000000000004"]
        self.assertEqual([f.values["area"] for f in self.shown("w")], texts)

    def test_as_texts_they_go_back_as_reals(self):
        numbers = [0.1 + 0.2, 1e300, -2.5e-7, 3.0]
        self.source_of([{"area": number} for number in numbers], [("area", ogr.OFTReal)])
        self.brought_in("--as-text")
        texts = ["0.30000000000000004", "1e+300", "-2.5e-07", "3.0"]
        self.assertEqual([f.values["area"] for f in self.shown("w")], texts)
        for name, file in list(FILES.items())[:3]:
            target = self.folder / file
            self.assertEqual(give_back(self.store, target)[0], 0)
            self.assertEqual(self.fields(target), ({"area": "Real"}, [{"area": number} for number in numbers]), name)
        # A Shapefile has no room for some of them.
        target = self.folder / "back.shp"
        status, _, err = give_back(self.store, target)
        self.assertEqual(status, 0, err)
        self.assertIn("ESRI Shapefile does not keep the type Real of column area of w", err)
        self.assertEqual(self.fields(target), ({"area": "String"}, [{"area": text} for text in texts]))
        self.edited("set w 2 area '1.25'")
        status, _, err = give_back(self.store, target, "--overwrite")
        self.assertEqual(status, 0, err)
        self.assertIn("ESRI Shapefile does not keep decimals of area of w behind the 15th", err)
        types, values = self.fields(target)
        self.assertEqual(types, {"area": "Real"})
        for row, wanted in zip(values, [0.3, 1.25, -2.5e-7, 3.0]):
            self.assertAlmostEqual(row["area"], wanted, 14)

    def test_reals_of_a_shapefile_that_are_kept_whole(self):
        numbers = [0.5, -123456789012.125, 99999999999999.0, -0.000000000000001, 12345678.987654321]
        self.source_of([{"area": number} for number in numbers], [("area", ogr.OFTReal)])
        self.brought_in("--as-text")
        target = self.folder / "back.shp"
        status, _, err = give_back(self.store, target)
        self.assertEqual(status, 0, err)
        self.assertNotIn("area", err)
        self.assertEqual(self.fields(target), ({"area": "Real"}, [{"area": number} for number in numbers]))

    def test_a_text_that_is_none_goes_back_as_a_text(self):
        self.source_of([{"area": 0.5}, {"area": 1.5}], [("area", ogr.OFTReal)])
        self.brought_in("--as-text")
        with Store(self.store, journal=True, program=PROGRAM) as store:
            store.run_all(["column drop w area", "column add w area text", "set w 1 area '0.5'", "set w 2 area 'about 2'"])
        for name, file in FILES.items():
            target = self.folder / file
            status, _, err = give_back(self.store, target)
            self.assertEqual(status, 0)
            self.assertIn(f"{name} does not keep the type Real of column area of w, since feature 2 has 'about 2'", err)
            self.assertEqual(self.fields(target), ({"area": "String"}, [{"area": "0.5"}, {"area": "about 2"}]))

    def test_a_layer_of_whole_ones_is_added_to_a_column_of_texts(self):
        self.source_of([{"area": 1e-30}], [("area", ogr.OFTReal)])
        self.brought_in("--as-text")
        more = self.folder / "more.gpkg"
        Source(more).layer("w", {1: (POINT, {"area": 7.0})}, columns=[("area", ogr.OFTReal)]).close()
        self.assertEqual(bring_in(more, self.store, "--add", "--as-text")[0], 0)
        with Store(self.store, journal=True, program=PROGRAM) as store:
            self.assertEqual([f.values for f in store.show("w")], [{"area": "1e-30"}, {"area": "7.0"}])


class Dates(TypesCase):
    COLUMNS = (("day", "OFTDate"), ("at", "OFTDateTime"))

    def columns(self):
        return [(name, getattr(ogr, kind)) for name, kind in self.COLUMNS]

    def odd(self, number, change):
        """Puts a value into a GeoPackage past OGR."""
        database = sqlite3.connect(self.source)
        for (trigger,) in database.execute("SELECT name FROM sqlite_master WHERE type = 'trigger'").fetchall():
            database.execute(f'DROP TRIGGER "{trigger}"')
        database.execute(f"UPDATE w SET {change} WHERE fid = {number}")
        database.commit()
        database.close()

    def test_they_go_back_as_dates_or_as_texts_where_a_format_has_none(self):
        rows = [{"day": "2020/01/31", "at": "2020/01/31 10:00:00.5+00"}, {"day": "1899/12/01"}, {"at": "2020/06/30 23:59:59+00"}]
        self.source_of(rows, self.columns())
        self.brought_in()
        texts = [{"day": "2020-01-31", "at": "2020-01-31T10:00:00.500Z"}, {"day": "1899-12-01"}, {"at": "2020-06-30T23:59:59Z"}]
        day, moment = datetime.date.fromisoformat, lambda text: datetime.datetime.fromisoformat(text.replace("Z", "+00:00"))
        self.assertEqual([f.values for f in self.shown("w")], [made(row, day=day, at=moment) for row in texts])
        for name, types in (
            ("GPKG", {"day": "Date", "at": "DateTime"}),
            ("FlatGeobuf", {"day": "String", "at": "DateTime"}),
            ("ESRI Shapefile", {"day": "Date", "at": "String"}),
            ("GeoJSON", {"day": "String", "at": "String"}),
        ):
            target = self.folder / FILES[name]
            status, _, err = give_back(self.store, target)
            self.assertEqual(status, 0)
            for column, kind in (("day", "date"), ("at", "datetime")):
                lost = f"the type {kind} of column {column} of w: it has texts there"
                self.assertEqual(lost in err, types[column] == "String", (name, err))
            data = ogr.Open(str(target)) if name != "GeoJSON" else None
            if data is not None:
                self.assertEqual(self.fields(target)[0], types)
            again = self.folder / "again.sfs"
            self.assertEqual(bring_in(target, again, *GRID, "--overwrite", "--as-text", "--layer", data.GetLayer(0).GetName() if data else "w")[0], 0)
            with Store(PROGRAM, load=again) as store:
                [layer] = store.layers()
                makers = {column: maker for column, maker in (("day", day), ("at", moment)) if types[column] != "String"}
                self.assertEqual([f.values for f in store.show(layer.name)], [made(row, **makers) for row in texts], name)

    def test_other_zones_are_kept_in_utc_and_that_is_told(self):
        rows = [{"at": "2020/01/31 10:00:00+05:45"}, {"at": "2020/01/31 10:00:00"}, {"at": "2020/01/31 10:00:00+00"}]
        self.source_of(rows, self.columns())
        self.odd(3, "at = '0001-01-01T00:00:00+01:00'")
        out = self.brought_in(status=1)
        self.assertIn("  column at: 1 value is of another zone: kept in UTC\n", out)
        self.assertIn("  1 no moment from the year 1 to 9999: 3 (the value of column at is left out)\n", out)
        first = datetime.datetime(2020, 1, 31, 4, 15, tzinfo=datetime.timezone.utc)
        self.assertEqual([f.values for f in self.shown("w")], [{"at": first}, {"at": first.replace(hour=10, minute=0)}, {}])

    def test_zones_and_parts_of_seconds_are_kept(self):
        self.source_of([{"at": "2020/01/31 10:00:00+00"}], self.columns())
        self.odd(1, "at = '2020-01-31T10:00:00.123456Z'")
        self.brought_in("--as-text")
        for text, kind in (
            ("2020-01-31T10:00:00+05:45", "DateTime"),
            ("2020-01-31T10:00:00.123-03:00", "DateTime"),
            ("2020-01-31T10:00:00", "String"),
            ("2020-01-31T10:00:00.123456Z", "String"),
            ("2020-02-31T10:00:00Z", "String"),
            ("2020-01-31T10:00:00+05:41", "String"),
        ):
            self.edited(f"set w 1 at '{text}'")
            status, _, err = give_back(self.store, self.target, "--overwrite")
            self.assertEqual(status, 0, err)
            self.assertEqual(self.fields(self.target)[0]["at"], kind, text)
            # The GeoPackage says that the column is one of texts.
            again = self.folder / "again.sfs"
            self.assertEqual(bring_in(self.target, again, "--overwrite")[0], 0)
            self.assertEqual(again.read_bytes(), self.store.read_bytes())

    def test_another_form_is_said_to_be_lost(self):
        self.source_of([{"at": "2020/01/31 10:00:00+00", "area": 1e-30}], [*self.columns(), ("area", ogr.OFTReal)])
        self.odd(1, "at = '2020-01-31T10:00:00.123456Z'")
        self.brought_in("--as-text")
        self.edited("set w 1 at '2020-01-31 10:00:00.5Z'", "set w 1 area '1.50'")
        status, _, err = give_back(self.store, self.target)
        self.assertEqual(status, 0)
        self.assertIn("GPKG does not keep the form of texts of column at of w, such as '2020-01-31 10:00:00.5Z'", err)
        self.assertIn("GPKG does not keep the form of texts of column area of w, such as '1.50'", err)
        self.assertEqual(bring_in(self.target, self.store, "--overwrite")[0], 0)
        self.assertEqual(self.shown("w")[0].values, {"at": "2020-01-31T10:00:00.500Z", "area": "1.5"})

    def test_those_of_a_geojson_are_texts_as_they_stand(self):
        self.source = self.folder / "a.geojson"
        known = {"day": "2020-01-31", "at": "2020-01-31T10:00:00.123456Z", "slashes": "2020/01/31"}
        point = {"type": "Point", "coordinates": [500000, 5600000]}
        feature = {"type": "Feature", "id": 1, "properties": known, "geometry": point}
        self.source.write_text(json.dumps({"type": "FeatureCollection", "name": "w", "features": [feature]}))
        self.brought_in()
        self.assertEqual(self.shown("w")[0].values, known)

    def test_what_a_geopackage_has_in_their_place(self):
        self.source_of([{"day": "2020/01/31", "at": "2020/01/31 10:00:00+00"}] * 6, self.columns())
        for number, change in enumerate(
            ("day = '31.1.2020'", "day = '2020-02-31'", "at = '2020-01-31T10:00:00.123456Z'",
             "at = '2020-01-31 10:00'", "at = 5"), 1
        ):
            self.odd(number, change)
        report = self.folder / "report.txt"
        self.brought_in("--as-text", "--report", report, status=1)
        day, at = datetime.date(2020, 1, 31), "2020-01-31T10:00:00Z"
        self.assertEqual(
            [f.values for f in self.shown("w")],
            [{"at": at}, {"at": at}, {"day": day, "at": "2020-01-31T10:00:00.123456Z"}, {"day": day}, {"day": day},
             {"day": day, "at": at}],
        )
        rows = [line.split("\t") for line in report.read_text().splitlines()]
        told = [(row[1], row[3]) for row in rows if row[2].startswith("a value that is none of the column's type")]
        self.assertEqual(
            sorted(told),
            [("1", "the value '31.1.2020' of column day is left out"),
             ("2", "the value '2020-02-31' of column day is left out"),
             ("4", "the value '2020-01-31 10:00' of column at is left out"),
             ("5", "the value 5 of column at is left out")],
        )


class Lists(TypesCase):
    def test_lists_as_texts_are_whole(self):
        self.source = self.folder / "a.geojson"
        known = {"ints": list(range(1000, 1040)), "texts": ["Müller", "a,b", '"'], "reals": [0.1, 2.5]}
        point = {"type": "Point", "coordinates": [500000, 5600000]}
        feature = {"type": "Feature", "id": 1, "properties": known, "geometry": point}
        self.source.write_text(json.dumps({"type": "FeatureCollection", "name": "w", "features": [feature]}))
        self.brought_in("--as-text")
        found = self.shown("w")[0].values
        self.assertEqual({name: json.loads(text) for name, text in found.items()}, known)


class Views(TypesCase):
    def test_a_view_of_a_geopackage_without_identifiers(self):
        self.source_of([{"i": at, "t": "x"} for at in range(4)], [("i", ogr.OFTInteger), ("t", ogr.OFTString)])
        database = sqlite3.connect(self.source)
        for (trigger,) in database.execute("SELECT name FROM sqlite_master WHERE type = 'trigger'").fetchall():
            database.execute(f'DROP TRIGGER "{trigger}"')
        [(reference,)] = database.execute("SELECT srs_id FROM gpkg_geometry_columns").fetchall()
        database.execute("CREATE VIEW v AS SELECT geom, i, t FROM w")
        database.execute(
            "INSERT INTO gpkg_contents (table_name, data_type, identifier, srs_id) VALUES ('v', 'features', 'v', ?)", (reference,)
        )
        database.execute("INSERT INTO gpkg_geometry_columns VALUES ('v', 'geom', 'POINT', ?, 0, 0)", (reference,))
        database.commit()
        self.brought_in("--layer", "v")
        self.assertEqual([f.values["i"] for f in self.shown("v")], [0, 1, 2, 3])
        for value in ("'abc'", "99999999999", "2.5"):
            database.execute(f"UPDATE w SET i = {value} WHERE fid = 3")
            database.commit()
            out = self.brought_in("--layer", "v", status=1)
            self.assertIn("a column with 1 values that are none of its type Integer is left out", out)
            self.assertEqual([f.values for f in self.shown("v")], [{"t": "x"}] * 4)
        database.close()


@unittest.skipUnless(HAS_GDAL and HAS_SERVER, "no GDAL, or no PostgreSQL with psycopg2")
class OfPostGis(DatabaseCase):
    def brought_in(self, *words):
        status, out, err = bring_in(self.target, self.store, *GRID, "--overwrite", *words)
        self.assertEqual(err, "")
        return status, out

    def test_values_that_ogr_changes(self):
        self.ask(
            "CREATE TABLE p (gid serial PRIMARY KEY, big numeric(20,0), small numeric(9,0), e interval, d date, "
            "t timestamp, z timestamptz, geom geometry(Point, 25832)); "
            "INSERT INTO p (big, small, e, d, t, z, geom) VALUES "
            "(99999999999999999999, 5, '1 day', 'infinity', '-infinity', '2020-01-31 10:00:00.123456+02', 'SRID=25832;POINT(500000 5600000)'), "
            "(7, 6, '2 days', '2020-01-31', '2020-01-31 10:00:00.5', '2020-01-31 10:00:00+02', 'SRID=25832;POINT(500000 5600000)')"
        )
        status, out = self.brought_in("--as-text")
        self.assertEqual(status, 1)
        self.assertIn("1 column of type interval is left out: e\n", out)
        self.assertIn("the value '99999999999999999999' of column big is left out", out)
        self.assertEqual(
            [f.values for f in self.shown("p")],
            [
                {"small": 5, "d": "infinity", "t": "-infinity", "z": "2020-01-31T08:00:00.123456Z"},
                {"big": 7, "small": 6, "d": "2020-01-31", "t": "2020-01-31T10:00:00.500", "z": "2020-01-31T08:00:00Z"},
            ],
        )

    def test_what_a_database_has_chosen_changes_no_value(self):
        self.ask(
            "CREATE TABLE w (gid serial PRIMARY KEY, d date, t timestamp, z timestamptz, f float8, r real, geom geometry(Point)); "
            "INSERT INTO w (d, t, z, f, r, geom) VALUES ('2020-02-03', '2020-02-03 10:00', '1890-01-01 00:00+00', "
            "0.1::float8 + 0.2::float8, 0.123456789, 'POINT(1 2)')"
        )
        self.ask("ALTER DATABASE town SET timezone = 'Europe/Berlin'; ALTER DATABASE town SET extra_float_digits = -3")
        for style in ("SQL, DMY", "German", "Postgres"):
            self.ask(f"ALTER DATABASE town SET datestyle = '{style}'")
            status, out, err = bring_in(self.target, self.store, "--grid", "0", "0", "1", "--overwrite")
            self.assertEqual((status, err), (0, ""), out)
            utc = datetime.timezone.utc
            self.assertEqual(
                self.shown("w")[0].values,
                {
                    "d": datetime.date(2020, 2, 3),
                    "t": datetime.datetime(2020, 2, 3, 10, tzinfo=utc),
                    # In Berlin a clock was 53 minutes and 28 seconds before that of UTC then.
                    "z": datetime.datetime(1890, 1, 1, tzinfo=utc),
                    "f": Decimal("0.30000000000000004"),
                    "r": Decimal("0.12345679"),
                },
            )

    def test_texts_are_what_they_are_whatever_encoding_the_environment_names(self):
        self.ask("CREATE TABLE w (gid serial PRIMARY KEY, \"größe\" text, geom geometry(Point)); "
                 "INSERT INTO w (\"größe\", geom) VALUES ('\u00c3\u00a4', 'POINT(1 2)')")
        for encoding in ("LATIN1", "WIN1252"):
            with mock.patch.dict("os.environ", PGCLIENTENCODING=encoding):
                status, out, err = bring_in(self.target, self.store, "--grid", "0", "0", "1", "--overwrite")
            self.assertEqual((status, err), (0, ""), out)
            self.assertIn("column 'größe' has the name ", out)
            # In such an encoding these two letters are the bytes of another one in UTF-8.
            self.assertEqual(list(self.shown("w")[0].values.values()), ["\u00c3\u00a4"])

    def test_all_that_is_read_is_of_one_moment(self):
        self.ask("CREATE TABLE w (gid serial PRIMARY KEY, a numeric, b numeric, geom geometry(Point)); "
                 "INSERT INTO w (a, b, geom) VALUES (12345678901234.56789, 1, 'POINT(1 2)')")

        def changed(*found):
            # Values that are no doubles were read before, and all others are read behind this.
            self.ask("UPDATE w SET a = 22345678901234.56789, b = 2")
            return strangers(*found)

        with mock.patch("sfstore.exchange.sources.strangers", changed):
            status, out, err = bring_in(self.target, self.store, "--grid", "0", "0", "1")
        self.assertEqual((status, err), (0, ""), out)
        self.assertEqual(self.shown("w")[0].values, {"a": Decimal("12345678901234.56789"), "b": Decimal(1)})

    def test_a_view_whose_identifiers_come_twice(self):
        self.ask("CREATE TABLE parts (n int, day date, geom geometry(Point)); CREATE VIEW w AS SELECT n AS ogc_fid, day, geom "
                 "FROM parts; INSERT INTO parts VALUES (1, 'infinity', 'POINT(1 2)'), (1, '2020-01-01', 'POINT(1 3)')")
        status, out, err = bring_in(self.target, self.store, "--grid", "0", "0", "1", "--layer", "w", "--as-text")
        self.assertEqual((status, err), (1, ""), out)
        self.assertIn("a column with 1 values that are none of its type Date is left out, since no identifiers say", out)

    def test_parts_of_a_millisecond_of_times(self):
        self.ask("CREATE TABLE w (gid serial PRIMARY KEY, at time, there timetz, geom geometry(Point)); INSERT INTO w VALUES "
                 "(1, '10:00:00.123456', '10:00:00.123456+05:30', 'POINT(1 2)'), (2, '10:00:00.5', '10:00:00+02', 'POINT(1 3)')")
        status, out, err = bring_in(self.target, self.store, "--grid", "0", "0", "1", "--layer", "w", "--as-text")
        self.assertEqual((status, err), (0, ""), out)
        self.assertEqual(
            [feature.values for feature in self.shown("w")],
            [{"at": "10:00:00.123456", "there": "10:00:00.123456+05:30"}, {"at": "10:00:00.500", "there": "10:00:00+02:00"}],
        )

    def test_days_before_the_year_1_and_the_end_of_a_day(self):
        self.ask("CREATE TABLE w (gid serial PRIMARY KEY, d date, t timestamp, z timestamptz, at time, geom geometry(Point)); INSERT INTO w VALUES "
                 "(1, '0044-03-15 BC', '0044-03-15 10:00 BC', '0044-03-15 10:00+00 BC', '24:00', 'POINT(1 2)'), "
                 "(2, '10000-01-01', '10000-01-01', '10000-01-01 00:00+00', '10:00', 'POINT(1 3)'), "
                 "(3, '0001-01-01', '9999-12-31 23:59:59.999', '9999-12-31 23:59:59.999+00', '00:00', 'POINT(1 4)')")
        words = [self.target, self.store, "--grid", "0", "0", "1", "--layer", "w", "--overwrite"]
        status, out, err = bring_in(*words)
        self.assertEqual((status, err), (1, ""), out)
        self.assertIn("2 no day from the year 1 to 9999: 1 (the value of column d is left out), 2 (", out)
        self.assertIn("4 no moment from the year 1 to 9999: 1 (the value of column t is left out), 1 (", out)
        self.assertEqual(len(self.shown("w")[2].values), 3)
        status, out, err = bring_in(*words, "--as-text")
        self.assertEqual((status, err), (0, ""), out)
        first, second, third = (feature.values for feature in self.shown("w"))
        moments = {"t": "0044-03-15T10:00:00.000000 BC", "z": "0044-03-15T10:00:00.000000Z BC"}
        self.assertEqual(first, {"d": "0044-03-15 BC", **moments, "at": "24:00:00"})
        self.assertEqual((second["d"], second["t"], second["at"]), ("10000-01-01", "10000-01-01T00:00:00.000000", "10:00:00"))
        self.assertEqual((third["d"], third["t"], third["at"]), ("0001-01-01", "9999-12-31T23:59:59.999", "00:00:00"))

    def test_lists_are_what_they_are(self):
        kinds = {"i": "int", "n": "numeric", "s": "text", "f": "float8", "b": "boolean"}
        made = ", ".join(f"{name} {kind}[]" for name, kind in kinds.items())
        texts = "ARRAY['a' || chr(34) || 'b', NULL, chr(92), chr(39)]"
        self.ask(f"CREATE TABLE w (gid serial PRIMARY KEY, {made}, geom geometry(Point)); INSERT INTO w VALUES "
                 f"(1, '{{1,NULL,3}}', '{{1.10,12345678901234567890.5}}', {texts}, '{{0.1,NULL}}', '{{t,NULL,f}}', 'POINT(1 2)'), "
                 "(2, '{{1,2},{3,4}}', '{{1},{2.0}}', '{{a},{b}}', '{NaN,1}', '{}', 'POINT(1 3)'), "
                 "(3, '{1,2}', NULL, '{a}', '{0.5}', '{t}', 'POINT(1 4)')")
        status, out, err = bring_in(self.target, self.store, "--grid", "0", "0", "1", "--layer", "w", "--as-text")
        # OGR's own reading of lists in lists of texts, which is not taken.
        told = "w: 3 features read, 3 taken\nthe database:\n  OGR warns: Incorrect string list : {{a},{b}}\n"
        self.assertEqual((status, out, err), (1, told, ""))
        found = [{name: json.loads(text, parse_float=Decimal) for name, text in feature.values.items()} for feature in self.shown("w")]
        self.assertEqual(found, [
            {"i": [1, None, 3], "n": [Decimal("1.10"), Decimal("12345678901234567890.5")], "s": ['a"b', None, chr(92), "'"],
             "f": [Decimal("0.1"), None], "b": [True, None, False]},
            {"i": [[1, 2], [3, 4]], "n": [[1], [Decimal("2.0")]], "s": [["a"], ["b"]], "f": ["NaN", 1], "b": []},
            {"i": [1, 2], "s": ["a"], "f": [Decimal("0.5")], "b": [True]},
        ])

    def test_types_go_back_into_the_same_table(self):
        self.ask(
            "CREATE TABLE p (gid serial PRIMARY KEY, n numeric(10,2), whole double precision, b boolean, c char(8), "
            "v varchar(20), d date, z timestamptz, j json, geom geometry(Point, 25832)); "
            "CREATE VIEW shown AS SELECT gid, n, d FROM p; "
            "INSERT INTO p (n, whole, b, c, v, d, z, j, geom) VALUES "
            "(1.5, 7, true, 'ab', 'x', '2020-01-31', '2020-01-31 10:00:00.123456+02', '{\"a\":1}', 'SRID=25832;POINT(500000 5600000)')"
        )
        before = self.ask("SELECT * FROM p")
        self.assertEqual(self.brought_in("--as-text", "--layer", "p")[0], 0)
        self.written(self.store, self.target, "--overwrite")
        self.assertEqual(self.ask("SELECT * FROM p"), before)
        self.assertEqual(self.ask("SELECT n::text, d::text FROM shown"), [("1.50", "2020-01-31")])

    def test_types_of_a_new_table(self):
        self.source = self.folder / "source.gpkg"
        columns = [("r", ogr.OFTReal), ("whole", ogr.OFTReal), ("d", ogr.OFTDate), ("z", ogr.OFTDateTime), ("i", ogr.OFTInteger)]
        row = {"r": 0.1, "whole": 5.0, "d": "2020/01/31", "z": "2020/01/31 10:00:00+00", "i": 3}
        Source(self.source).layer("w", {1: (POINT, row)}, columns=columns).close()
        self.assertEqual(bring_in(self.source, self.store, *GRID, "--as-text")[0], 0)
        self.written(self.store, self.target)
        types = dict(self.ask("SELECT column_name, data_type FROM information_schema.columns WHERE table_name = 'w'"))
        self.assertEqual(
            {name: types[name] for name in row},
            {"r": "numeric", "whole": "numeric", "d": "date", "z": "timestamp with time zone", "i": "integer"},
        )
        self.assertEqual(self.ask("SELECT r::text, whole::text, d::text, i FROM w"), [("0.1", "5", "2020-01-31", 3)])

    def test_a_second_column_of_geometries_is_reported(self):
        self.ask(
            "CREATE TABLE p (gid serial PRIMARY KEY, geom geometry(Point, 25832), geom2 geometry(Point, 25832)); "
            "INSERT INTO p (geom, geom2) VALUES ('SRID=25832;POINT(500000 5600000)', 'SRID=25832;POINT(500001 5600001)')"
        )
        status, out = self.brought_in("--layer", "p")
        self.assertEqual(status, 1)
        self.assertIn("further columns of geometries are left out: geom2\n", out)


del DatabaseCase, ExchangeCase, TypesCase

if __name__ == "__main__":
    unittest.main()
