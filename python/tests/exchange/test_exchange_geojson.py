"""Tests of imports of GeoJSON: all that a file has is taken as it stands, or told."""

from __future__ import annotations

import json
import time
import tracemalloc
import unittest
import zipfile
from decimal import Decimal
from unittest import mock

from support import PROGRAM
from test_exchange import ExchangeCase, bring_in

from sfstore import Store
from sfstore.exchange import jsontext
from sfstore.exchange.reading import LayerImport

POINT = '{"type": "Point", "coordinates": [1, 2]}'
NUMBERED_ANEW = "identifiers begin with 0 in the source: each is greater by 1"


def feature(properties="{}", geometry=POINT, more=""):
    return f'{{"type": "Feature", {more} "properties": {properties}, "geometry": {geometry}}}'


def collection(*features, more=""):
    return f'{{"type": "FeatureCollection", {more} "features": [' + ",\n".join(features) + "]}"


class GeoJsonCase(ExchangeCase):
    def brought(self, text, *words, status=0, name="a.geojson"):
        """What is said of an import of a file."""
        self.source = self.folder / name
        self.source.write_bytes(text if isinstance(text, bytes) else text.encode())
        found, out, err = bring_in(self.source, self.store, "--grid", "0", "0", "1", "--overwrite", *words)
        self.assertEqual(found, status, out + err)
        return err if status == 3 else out

    def rows(self, name="a"):
        return [(f.id, f.wkt, f.values) for f in self.shown(name)]

    def values(self):
        return [values for _, _, values in self.rows()]

    def columns(self):
        with Store(PROGRAM, load=self.store) as store:
            return store.run("columns a")


class Values(GeoJsonCase):
    def test_texts_with_control_characters_are_taken_but_for_a_byte_0(self):
        text = "".join(map(chr, range(1, 32))) + "\x7f two\nlines"
        out = self.brought(collection(feature(json.dumps({"t": text})), feature('{"t": "a\\u0000b"}')), status=1)
        self.assertIn("a text with a byte 0: 1 (the value of column t is left out)\n", out)
        self.assertEqual(self.values(), [{"t": text}, {}])

    def test_objects_and_lists_stand_as_they_are(self):
        known = '{"o": {"b": 1.10, "a": 1, "a": 2, "e": 1.0E+3}, "l": [1, 2.50, "x", null, true], "t": "{\\"a\\":1}"}'
        out = self.brought(collection(feature(known), feature('{"o": [], "l": {"ü": "ü"}}')))
        notes = "".join(f"  column {name} has objects and lists: each is the text of its JSON\n" for name in "ol")
        self.assertEqual(out, f"a: 2 features read, 2 taken\n{notes}  {NUMBERED_ANEW}\n")
        self.assertEqual(
            self.values(),
            [{"o": '{"b": 1.10, "a": 1, "a": 2, "e": 1.0E+3}', "l": '[1, 2.50, "x", null, true]', "t": '{"a":1}'},
             {"o": "[]", "l": '{"ü": "ü"}'}],
        )

    def test_numbers_keep_their_digits(self):
        text = collection(feature('{"r": 1.10, "w": 2.0, "n": 0.12345678901234567890123}'), feature('{"r": 3}'))
        out = self.brought(text, status=1)
        self.assertIn("1 a number with more than 18 places: 0 (the value of column n is left out)\n", out)
        self.assertEqual(self.columns(), ["r decimal", "w decimal", "n decimal"])
        self.assertEqual(self.values(), [{"r": Decimal("1.1"), "w": 2}, {"r": 3}])
        self.brought(text, "--as-text")
        self.assertEqual(self.values(), [{"r": Decimal("1.1"), "w": 2, "n": "0.12345678901234567890123"}, {"r": 3}])

    def test_the_greatest_whole_numbers_are_taken_untold(self):
        known = '{"a": 9223372036854775807, "b": -9223372036854775808, "c": 9007199254740993}'
        out = self.brought(collection(feature(known), feature('{"c": 9007199254740993.0}')))
        self.assertEqual(out, f"a: 2 features read, 2 taken\n  {NUMBERED_ANEW}\n")
        self.assertEqual(self.values(), [{"a": 2**63 - 1, "b": -(2**63), "c": 2**53 + 1}, {"c": 2**53 + 1}])

    def test_a_whole_number_that_is_too_large_is_told(self):
        out = self.brought(collection(feature('{"a": 9223372036854775808}'), feature(f'{{"a": 1{"0" * 5000}}}'), feature('{"a": 5}')), status=1)
        self.assertIn("2 a whole number of more than 64 bits: 0 (the value of column a is left out), 1 (", out)
        self.assertEqual(self.values(), [{}, {}, {"a": 5}])
        out = self.brought(collection(feature('{"a": 1e400000}'), feature('{"a": 0.5}')), status=1)
        self.assertIn("1 a number of more than 64 bits: 0 (the value of column a is left out)", out)

    def test_whole_reals_are_added_to_a_column_of_whole_numbers(self):
        with Store(PROGRAM, save=self.store) as store:
            store.add_layer("a", "point")
            store.add_column("a", "n", "int")
        source = self.folder / "a.geojson"
        source.write_text(collection(feature('{"n": 2.0}'), feature('{"n": 2.5}'), feature('{"n": 1e999999999}')))
        status, out, _ = bring_in(source, self.store, "--add", "--grid", "0", "0", "1")
        self.assertEqual(status, 1)
        self.assertIn("1 a number that is no whole one: 1 (the value of column n is left out)\n", out)
        self.assertIn("1 a whole number of more than 64 bits: 2 (the value of column n is left out)\n", out)
        with Store(self.store, journal=True, program=PROGRAM) as store:
            self.assertEqual([f.values for f in store.show("a")], [{"n": 2}, {}, {}])

    def test_values_of_several_kinds_are_texts_and_that_is_told(self):
        known = ["1", '"x"', "true", "2.50", "null", '{"b": 1}', '"1"']
        out = self.brought(collection(*(feature(f'{{"a": {value}}}') for value in known)))
        self.assertIn("column a has whole numbers, real numbers, booleans, texts, objects: all are texts\n", out)
        self.assertEqual([row.get("a") for row in self.values()], ["1", "x", "true", "2.50", None, '{"b": 1}', "1"])

    def test_booleans_alone_are_truth_values(self):
        self.brought(collection(feature('{"a": true, "none": null}'), feature('{"a": false}')))
        self.assertEqual(self.values(), [{"a": True}, {"a": False}])
        self.assertEqual(self.columns(), ["a bool", "none text"])
        side_car = json.loads((self.store.parent / (self.store.name + ".json")).read_text())
        self.assertIn("Boolean", json.dumps(side_car))

    def test_a_name_that_stands_twice_is_told(self):
        out = self.brought(collection(feature('{"a": 1, "a": 2, "b": 3}')), status=1)
        self.assertIn("1 a name that stands more than once among the properties: 0 (the last value of a is taken)\n", out)
        self.assertEqual(self.values(), [{"a": 2, "b": 3}])

    def test_a_value_that_is_not_utf_8_is_left_out(self):
        text = collection(feature('{"a": "Müller", "b": 1}'), feature('{"a": "\\ud800"}')).encode("latin-1")
        self.assertIn("2 a text that is not UTF-8: 0 (the value of column a is left out)", self.brought(text, status=1))
        self.assertEqual(self.values(), [{"b": 1}, {}])

    def test_members_beside_the_properties_are_told(self):
        other = '{"type": "Point", "coordinates": [1, 2], "m": 1, "bbox": [1, 2, 1, 2]}'
        text = collection(feature(more='"title": "x", "bbox": [0, 0, 1, 1],'), feature(geometry=other), more='"generator": "g",')
        out = self.brought(text, status=1)
        self.assertIn("members of features that are no properties are left out: title of 1, geometry.m of 1\n", out)
        self.assertIn("members of the file beside its features are left out: generator\n", out)
        self.assertNotIn("bbox", out)

    def test_members_in_a_collection_of_geometries_are_told(self):
        twice = '{"type": "Point", "coordinates": [1, 2], "coordinates": [3, 4]}'
        noted = '{"type": "Point", "coordinates": [1, 2], "note": "x", "geometries": []}'

        def several(member, more=""):
            return f'{{"type": "GeometryCollection", {more} "geometries": [{POINT}, {member}]}}'

        text = collection(feature(geometry=several(noted)), feature(geometry=several(several(twice))), feature(geometry=noted),
                          feature(geometry=several(POINT, '"coordinates": [5, 6],')))
        out = self.brought(text, "--part-collections", status=1)
        told = "geometry.note of 2, geometry.geometries of 2, geometry.coordinates of 1"
        self.assertIn(f"members of features that are no properties are left out: {told}\n", out)
        self.assertIn("elements that are no features are left out: element 2 (coordinates stands more than once in it)\n", out)
        self.assertEqual([wkt for _, wkt, _ in self.rows()], ["POINT (1 2)"] * 5)

    def test_members_in_the_place_of_properties_are_taken(self):
        self.brought(collection(f'{{"type": "Feature", "a": 5, "geometry": {POINT}}}'))
        self.assertEqual(self.values(), [{"a": 5}])


class ManyNames(GeoJsonCase):
    """Files that a stranger has made so that each name is compared with each other one."""

    COUNT = 20_000

    def seconds(self, names, status=0):
        known = "{" + ", ".join(f'"{name}": 1' for name in names) + "}"
        begin = time.process_time()
        self.brought(collection(feature(known)), status=status)
        return time.process_time() - begin

    def test_names_that_become_one_name(self):
        self.assertLess(self.seconds("a" * 32 + str(number) for number in range(self.COUNT)), 10)
        [values] = self.values()
        names = ["a" * 32, *("a" * (32 - len(tail)) + tail for tail in (f"_{number}" for number in range(2, self.COUNT + 1)))]
        self.assertEqual(list(values), names)

    def test_a_name_that_stands_twice_among_many(self):
        self.assertLess(self.seconds([*(f"c{number}" for number in range(self.COUNT)), "c0"], status=1), 4)


class Identifiers(GeoJsonCase):
    def with_identifiers(self, *identifiers):
        return self.brought(collection(*(feature('{"n": 1}', more=f'"id": {each},') for each in identifiers)))

    def test_whole_ones_are_kept(self):
        self.assertEqual(self.with_identifiers(7, 3, 4294967294), "a: 3 features read, 3 taken\n")
        self.assertEqual([row[0] for row in self.rows()], [3, 7, 4294967294])

    def test_others_stand_in_a_column(self):
        out = self.with_identifiers(1, '"abc"', "2.50", "null", "[1]")
        self.assertIn("column id has whole numbers, real numbers, texts, lists: all are texts\n", out)
        self.assertIn("identifiers that the store can't have are in the column id\n", out)
        self.assertEqual([row.get("id") for row in self.values()], ["1", "abc", "2.50", None, "[1]"])
        self.assertEqual([row[0] for row in self.rows()], [1, 2, 3, 4, 5])
        for identifiers in ((1, 1), (-5, 2), (5000000000, 1)):
            self.with_identifiers(*identifiers)
            self.assertEqual([row["id"] for row in self.values()], list(identifiers))

    def test_a_column_of_their_name_stays_beside_them(self):
        out = self.brought(collection(feature('{"id": 7}', more='"id": "x",')))
        self.assertIn("column 'id' has the name id_2\n", out)
        self.assertEqual(self.values(), [{"id": 7, "id_2": "x"}])


class Geometries(GeoJsonCase):
    def test_each_kind(self):
        known = {
            "POINT (1 2)": '{"type": "Point", "coordinates": [1, 2]}',
            "LINESTRING (1 2, 3 4)": '{"type": "LineString", "coordinates": [[1, 2], [3.0, 4]]}',
            "POLYGON ((0 0, 9 0, 9 9, 0 0), (5 1, 6 1, 6 2, 5 1))": '{"type": "Polygon", "coordinates": '
            "[[[0, 0], [9, 0], [9, 9], [0, 0]], [[5, 1], [6, 1], [6, 2], [5, 1]]]}",
            "MULTIPOINT ((1 2), (3 4))": '{"type": "MultiPoint", "coordinates": [[1, 2], [3, 4]]}',
            "MULTILINESTRING ((1 2, 3 4))": '{"type": "MultiLineString", "coordinates": [[[1, 2], [3, 4]]]}',
            "MULTIPOLYGON (((0 0, 9 0, 9 9, 0 0)))": '{"type": "MultiPolygon", "coordinates": [[[[0, 0], [9, 0], [9, 9], [0, 0]]]]}',
        }
        self.brought(collection(*(feature(geometry=text) for text in known.values())))
        self.assertEqual([wkt for _, wkt, _ in self.rows()], list(known))

    def test_what_is_not_taken_is_told(self):
        deep = '{"type": "GeometryCollection", "geometries": [' * 300 + POINT + "]}" * 300
        known = {
            "without a geometry": "null",
            "a geometry collection": f'{{"type": "GeometryCollection", "geometries": [{POINT}]}}',
            "empty": '{"type": "Point", "coordinates": []}',
            "Z or M": '{"type": "Point", "coordinates": [1, 2, 3]}',
            "no list of two numbers or more: [1, '2']": '{"type": "Point", "coordinates": [1, "2"]}',
            "no list of two numbers or more: [True, 2]": '{"type": "Point", "coordinates": [true, 2]}',
            "a position of 5 numbers": '{"type": "Point", "coordinates": [1, 2, 3, 4, 5]}',
            "coordinates that are no list: None": '{"type": "Point"}',
            "a geometry of the type 'Circle'": '{"type": "Circle", "coordinates": [1, 2]}',
            "its geometry is no object": "5",
            "(x inf of point 0)": '{"type": "Point", "coordinates": [1e400, 2]}',
            ", 11 (OGR Error": deep,
        }
        out = self.brought(collection(*(feature(geometry=text) for text in known.values())), status=1)
        self.assertIn("a: 12 features read, 0 taken\n", out)
        for said in known:
            self.assertIn(said, out)

    def test_z_of_some_positions_is_dropped_of_all(self):
        mixed = '{"type": "LineString", "coordinates": [[1, 2, 3], [4, 5]]}'
        several = f'{{"type": "GeometryCollection", "geometries": [{POINT}, {mixed}]}}'
        out = self.brought(collection(feature(geometry=several)), "--drop-zm", "--part-collections")
        self.assertNotIn("OGR warns", out)
        self.assertEqual([wkt for _, wkt, _ in self.rows()], ["POINT (1 2)", "LINESTRING (1 2, 4 5)"])

    def test_what_is_no_feature_is_told_and_others_keep_their_identifiers(self):
        twice = f'{{"type": "Feature", "id": 9, "properties": {{}}, "geometry": {POINT}, "geometry": null}}'
        out = self.brought(collection(feature(more='"id": 4,'), "5", '{"type": "x"}', twice, feature("5")), status=1)
        self.assertIn(
            "elements that are no features are left out: element 2 (an element that is no object), element 3 (an element of "
            "the type 'x'), element 4 (geometry stands more than once in it), element 5 (its properties are no object)\n", out
        )
        self.assertEqual([row[0] for row in self.rows()], [4])


class Files(GeoJsonCase):
    def test_one_object_and_several(self):
        one, other = feature('{"n": 1}'), feature('{"n": 2}')
        for text, found in (
            (one, [{"n": 1}]), (POINT, [{}]), (collection(), []), (f"{one}\n{other}\n", [{"n": 1}, {"n": 2}]),
            (f"\x1e{one}\n\x1e{other}\n", [{"n": 1}, {"n": 2}]), (b"\xef\xbb\xbf" + collection(one).encode(), [{"n": 1}]),
        ):
            for name in ("a.geojson", "a.geojsons", "a.geojsonl"):
                self.brought(text, name=name)
                self.assertEqual(self.values(), found)

    def test_one_in_an_archive(self):
        with zipfile.ZipFile(self.folder / "a.zip", "w") as archive:
            archive.writestr("a.geojson", collection(feature('{"r": 1.10}')))
        source = f"/vsizip/{self.folder}/a.zip/a.geojson"
        self.assertEqual(bring_in(source, self.store, "--grid", "0", "0", "1", "--as-text")[0], 0)
        self.assertEqual(self.values(), [{"r": Decimal("1.1")}])

    def test_what_is_no_geojson_is_refused_by_name(self):
        one = feature()
        known = {
            "NaN is no number of JSON": collection(one, feature('{"a": NaN}')),
            "-Infinity is no number of JSON": collection(feature(geometry='{"type": "Point", "coordinates": [-Infinity, 1]}')),
            "is no JSON, in line 2: it is nested too deeply": collection(one, feature(f'{{"a": {"[" * 9999}{"]" * 9999}}}')),
            "the number 1e99999999999999999999 is out of all bounds": collection(feature('{"a": 1e99999999999999999999}')),
            "is UTF-16: GeoJSON is UTF-8": collection(one).encode("utf-16"),
            "it has no features": '{"type": "FeatureCollection"}',
            "its type is 'Topology'": '{"type": "Topology"}',
            "it has features, and the type 'Feature'": '{"features": [], "type": "Feature"}',
            "name stands more than once in it": '{"type": "FeatureCollection", "name": "a", "name": "b", "features": []}',
            "it has features twice, or beside other objects": collection(one) + one,
            "features twice": '{"type": "FeatureCollection", "features": [], "features": []}',
            "a '{' is missing": collection(one) + "x",
            "a ':' is missing": '{"type" "FeatureCollection"}',
            "in line 1: Expecting value": '{"type": "FeatureCollection", "features": [1, ]}',
        }
        for said, text in known.items():
            with self.subTest(said):
                self.assertIn(said, self.brought(text, status=3))
        whole = collection(one, feature('{"a": "' + "x" * 99 + '"}'))
        for size in range(1, len(whole), 7):
            self.assertIn(": it breaks off", self.brought(whole[:size], status=3), whole[:size])
        self.assertFalse(self.store.exists())

    def test_no_beginning_leads_past_the_reader(self):
        text = collection(feature('{"a": 1, "a": 0.1234567890123456789}'), more='"title": "x",')
        for blanks in (64, 5_000):
            out = self.brought("\n" * blanks + text, status=1)
            self.assertIn("members of the file beside its features are left out: title\n", out)
            self.assertIn("1 a name that stands more than once among the properties: 0 (", out)
        for begin, end in (("\v", ""), (" " * 99 + "\f", ""), ("loadGeoJSON(", ")"), ("\ufeff\n jsonp(", ");")):
            self.assertIn("a.geojson is no JSON, in line", self.brought(begin + text + end, status=3))
        self.brought(text, status=1)
        before = self.store.read_bytes()
        for name in (text, "  " + text, f"GeoJSON:{self.source}"):
            words = [name, self.store, "--grid", "0", "0", "1", "--overwrite"]
            status, _, err = bring_in(*words)
            self.assertEqual((status, self.store.read_bytes()), (3, before))
            self.assertIn("is GeoJSON, and no file that begins as one: name its file alone\n", err)
        status, out, _ = bring_in(*words, "--any-format")
        self.assertEqual(status, 1)
        self.assertIn("it is read by OGR, which may change numbers and drops names that stand twice: name the file alone\n", out)

    def test_reference_systems(self):
        known = {
            "": "4326",
            '"crs": {"type": "name", "properties": {"name": "urn:ogc:def:crs:EPSG::25832"}},': "25832",
            '"crs": {"type": "name", "properties": {"name": "urn:ogc:def:crs:OGC:1.3:CRS84"}},': None,
            '"crs": {"type": "EPSG", "properties": {"code": 2056}},': "2056",
        }
        for member, code in known.items():
            # It may stand behind the features, too.
            for text in (collection(feature(), more=member), collection(feature())[:-1] + "," * bool(member) + member[:-1] + "}"):
                self.assertNotIn("reference system", self.brought(text))
                found = json.loads((self.folder / f"{self.store.name}.json").read_text())["crs"]["code"]
                self.assertIn(found, (code,) if code else ("4326", "CRS84"))
        for member in ('{"type": "link", "properties": {"href": "http://127.0.0.1:1/"}}', '{"type": "name"}', "5",
                       '{"type": "name", "properties": {"name": "nonsense"}}',
                       '{"type": "name", "properties": {"name": "http://127.0.0.1:1/"}}'):
            out = self.brought(collection(feature(), more=f'"crs": {member},'), status=1)
            self.assertIn(f"a reference system that is unknown is left out: {member}\n", out)

    def test_one_that_each_feature_names_is_the_layers(self):
        named = '"crs": {"type": "name", "properties": {"name": "EPSG:25832"}}'
        point = f'{{"type": "Point", "coordinates": [1, 2], {named}}}'
        # The third is what PostGIS makes of rows.
        for text in (point, feature(more=f"{named},"), collection(feature(geometry=point), feature(geometry=point)),
                     collection(feature(more=f"{named},"), feature(geometry=point)), feature(geometry=point) + "\n" + feature(geometry=point)):
            out = self.brought(text)
            self.assertNotIn("reference system", out)
            found = json.loads((self.folder / f"{self.store.name}.json").read_text())["crs"]
            self.assertEqual((found["authority"], found["code"]), ("EPSG", "25832"))

    def test_features_of_another_one_are_left_out_and_told(self):
        def named(name):
            return f'"crs": {{"type": "name", "properties": {{"name": "{name}"}}}},'

        own, same, other = named("urn:ogc:def:crs:EPSG::25832"), named("EPSG:25832"), named("EPSG:2056")
        features = [feature(f'{{"a": {at}}}', more=more) for at, more in enumerate(("", same, other, '"crs": null,'))]
        out = self.brought(collection(*features, more=own), status=1)
        self.assertIn("2 a geometry of another reference system than the layer's: 2 (its crs is {", out)
        self.assertIn("EPSG:2056", out)
        self.assertEqual(self.values(), [{"a": 0}, {"a": 1}])
        # Where the collection names none, it is degrees.
        degrees = feature('{"a": 9}', more=named("EPSG:4326"))
        out = self.brought(collection(feature('{"a": 8}'), features[1], degrees), status=1)
        self.assertIn("1 a geometry of another reference system than the layer's: 1 (its crs is {", out)
        self.assertEqual(self.values(), [{"a": 8}, {"a": 9}])

    def test_one_that_is_nested_deeply_is_told(self):
        deep = '"crs": ' + "[" * 800 + "]" * 800 + ","
        self.assertIn("a reference system that is unknown is left out: ", self.brought(collection(feature(), more=deep), status=1))
        self.brought(collection(feature(more=deep), feature()), status=1)

    def test_degrees_are_taken_for_no_reference_system_that_is_unknown(self):
        def said(member):
            out = self.brought(collection(feature(), more=f'"crs": {member},'), status=1)
            self.assertIsNone(json.loads((self.folder / f"{self.store.name}.json").read_text())["crs"])
            return out

        self.assertIn("it says that its reference system is unknown: crs: null\n", said("null"))
        named = '{"type": "name", "type": "EPSG", "properties": {"code": 25832}}'
        for member in ('""', "false", "0", "[]", "{}", '{"type": "EPSG"}', '{"type": "EPSG", "properties": null}', named,
                       *(f'{{"type": "EPSG", "properties": {{"code": {code}}}}}' for code in ("999999", "25832.7", "true", '"x"', "-1"))):
            self.assertIn(f"a reference system that is unknown is left out: {member}\n", said(member))

    def test_a_large_file_is_read_a_feature_at_a_time(self):
        path = self.folder / "large.geojson"
        with open(path, "w", encoding="utf-8") as file:
            file.write('{"type": "FeatureCollection", "features": [\n')
            for at in range(3000):
                line = ", ".join(f"[{at}, {number}.25]" for number in range(400))
                file.write("," * bool(at) + feature(geometry=f'{{"type": "LineString", "coordinates": [{line}]}}') + "\n")
            file.write("]}")
        size = path.stat().st_size
        tracemalloc.start()
        try:
            count = sum(member.is_element for member in jsontext.members(str(path)))
            _, most = tracemalloc.get_traced_memory()
        finally:
            tracemalloc.stop()
        self.assertEqual(count, 3000)
        self.assertGreater(size, 15_000_000)
        self.assertLess(most, size // 2)

    def test_few_large_geometries_are_judged_together(self):
        line = ", ".join(f"[{number}, 0]" for number in range(20_000))
        path = self.folder / "a.geojson"
        path.write_text(collection(*[feature(geometry=f'{{"type": "LineString", "coordinates": [{line}]}}')] * 40))
        sizes = []
        judge = LayerImport._judge

        def judged(reading, scratch, batch):
            sizes.append(len(batch))
            judge(reading, scratch, batch)

        with mock.patch.object(LayerImport, "_judge", judged):
            self.assertEqual(bring_in(path, self.store, "--grid", "0", "0", "1")[0], 0)
        self.assertEqual((sum(sizes), max(sizes)), (40, 13))

    def test_a_feature_that_is_larger_than_what_is_read_at_once(self):
        line = ", ".join(f"[{number}, 0]" for number in range(60_000))
        text = collection(feature(f'{{"t": "{"x" * 3_000_000}"}}', f'{{"type": "LineString", "coordinates": [{line}]}}'), feature('{"n": 5}'))
        out = self.brought(text, status=1)
        self.assertIn("1 a text of more than 65535 bytes: 0 (the value of column t is left out)", out)
        self.assertEqual(self.values(), [{}, {"n": 5}])


del ExchangeCase, GeoJsonCase

if __name__ == "__main__":
    unittest.main()
