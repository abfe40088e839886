"""Tests of maps that are added to a store which is there, with rules and without."""

from __future__ import annotations

import json
import unittest
from dataclasses import replace
from unittest import mock

from support import PROGRAM

from test_exchange import GRID, HAS_GDAL, ExchangeCase, Source, bring_in, give_back  # isort: skip
from test_exchange_rules import APART, OVERLAPPING, PARCELS, PLACED, in_map  # isort: skip
from sfstore import Rule, Store, sidecar
from sfstore.exchange import adding, ruling

if HAS_GDAL:
    from osgeo import ogr

FAR = "POLYGON ((100 0, 109 0, 109 9, 100 9, 100 0))"
CLEAR = Rule("clear", "never", "wells", "within", "zones")


class AddingCase(ExchangeCase):
    def setUp(self):
        super().setUp()
        columns = [("number", ogr.OFTInteger64), ("Besitzer", ogr.OFTString)]
        source = Source(self.source)
        source.layer("Flurstücke", {7: (in_map(PARCELS[0]), {"number": 1}), 9: (in_map(PARCELS[1]), {})}, ogr.wkbPolygon, columns)
        source.layer("wells", {1: (in_map("POINT (5 5)"), {})}, ogr.wkbPoint)
        source.layer("zones", {}, ogr.wkbPolygon)
        source.close()
        self.assertEqual(bring_in(self.source, self.store, *GRID)[0], 0)
        self.more = self.folder / "more.gpkg"

    def ruled(self, *rules):
        """Gives the store rules, and saves it."""
        with Store(self.store, journal=True, program=PROGRAM) as store:
            for name, *rest in rules:
                store.add_rule(name, *(word.replace("parcels", "Flurstucke") for word in rest))

    def brought(self, crs=25832, **layers):
        """A map of layers, of which each feature has an identifier and a text, or these and values."""
        source = Source(self.more)
        for name, features in layers.items():
            columns = [("number", ogr.OFTInteger64), ("Besitzer", ogr.OFTString)] if name == "Flurstücke" else []
            numbered = {number: (in_map(wkt), dict(*values)) for number, wkt, *values in features}
            source.layer(name, numbered, columns=columns, crs=crs)
        source.close()

    def add(self, *words):
        return bring_in(self.more, self.store, "--add", *words)

    def opened(self):
        """What the next session finds: edits in the journal, and all rows."""
        store = Store(self.store, journal=True, program=PROGRAM)
        try:
            return store.recovered.edits, {layer.name: store.run(f"show {layer.name}") for layer in store.layers()}
        finally:
            store.close(save=False)


class Added(AddingCase):
    def test_a_map_is_one_step(self):
        self.ruled(APART, PLACED)
        before = self.opened()[1]
        values = {"number": 5, "Besitzer": "O'Hara"}
        # A well comes before its parcel: rules are looked at behind the last feature.
        self.brought(wells=[(1, "POINT (105 5)")], Flurstücke=[(2, FAR, values)])
        status, out, err = self.add()
        self.assertEqual((status, err), (0, ""))
        self.assertIn("wells: 1 features read, 1 taken\n  they are 2 to 2 of wells\n", out)
        self.assertIn("  they are 10 to 10 of Flurstucke\n", out)
        self.assertTrue(out.endswith(f"1 step is in the journal of {self.store}, and not saved yet: `undo` takes it back\n"))
        edits, rows = self.opened()
        self.assertEqual(edits, 1)
        self.assertEqual(rows["Flurstucke"][-1], f"10 {FAR} number=5 Besitzer='O''Hara'")
        self.assertEqual(rows["wells"][-1], "2 POINT (105 5)")
        with Store(self.store, journal=True, program=PROGRAM) as store:
            store.undo()
        self.assertEqual(self.opened(), (0, before))

    def test_keys_that_stand_in_a_column_do_so_of_further_features_too(self):
        """Those of a GeoPackage that a store can't have, and those of a GeoJSON that are texts."""
        for first, second, source in ((6_000_000_000, 5, self.gpkg_of), ("abc", 5, self.geojson_of), ("abc", "def", self.geojson_of)):
            with self.subTest(first=first, second=second):
                path = source("first", first)
                self.assertEqual(bring_in(path, self.store, *GRID, "--overwrite")[0], 0)
                self.more = source("second", second)
                status, out, err = self.add()
                self.assertEqual((status, err), (0, ""))
                name = "fid" if source == self.gpkg_of else "id"
                self.assertRegex(out, f"identifiers .* are in the column {name}\n")
                rows = self.opened()[1]["wells"]
                spelled = [f"{name}='{key}'" if isinstance(first, str) else f"{name}={key}" for key in (first, second)]
                self.assertEqual([row.split(" ")[-1] for row in rows], spelled)
                Store(self.store, journal=True, program=PROGRAM).close()

    def gpkg_of(self, name, key):
        path = self.folder / f"{name}.gpkg"
        source = Source(path)
        source.layer("wells", {key: (in_map("POINT (1 1)"), {})}, ogr.wkbPoint)
        source.close()
        return path

    def geojson_of(self, name, key):
        path = self.folder / f"{name}.geojson"
        crs = {"type": "name", "properties": {"name": "EPSG:25832"}}
        geometry = {"type": "Point", "coordinates": [500001, 5600001]}
        feature = {"type": "Feature", "id": key, "properties": {}, "geometry": geometry}
        path.write_text(json.dumps({"type": "FeatureCollection", "name": "wells", "crs": crs, "features": [feature]}))
        return path

    def test_it_is_exported_once_it_is_saved(self):
        self.brought(wells=[(1, "POINT (2 2)")])
        self.assertEqual(self.add()[0], 0)
        self.assertIn("1 edits in its journal that are not saved", give_back(self.store, self.target)[2])
        Store(self.store, journal=True, program=PROGRAM).close()
        self.assertEqual(give_back(self.store, self.target), (0, "", ""))
        again = self.folder / "again.sfs"
        self.assertEqual(bring_in(self.target, again)[0], 0)
        self.assertEqual(again.read_bytes(), self.store.read_bytes())

    def test_edits_that_were_not_saved_stay_below(self):
        with Store(self.store, journal=True, program=PROGRAM) as store:
            store.add("wells", "POINT (1 1)")
            store.close(save=False)
        self.brought(wells=[(1, "POINT (2 2)")])
        self.assertEqual(self.add()[0], 0)
        self.assertEqual(self.opened()[0], 2)

    def test_a_store_without_a_side_car_has_the_grid_that_is_said(self):
        self.store.with_suffix(".sfs.json").unlink()
        self.brought(wells=[(1, "POINT (2 2)")])
        self.assertEqual(self.add()[0], 3)
        self.assertEqual(self.add(*GRID)[0], 0)
        self.assertEqual(self.opened()[1]["wells"][-1], "2 POINT (2 2)")

    def test_a_map_of_more_than_a_group_is_several_steps(self):
        self.ruled(APART)
        before = self.opened()[1]
        shapes = [FAR.replace("10", f"{place}0") for place in range(2, 7)]
        self.brought(Flurstücke=[(number, wkt, {"number": number}) for number, wkt in enumerate(shapes, 1)])
        with mock.patch.object(adding, "GROUP_MAX", 5):
            status, out, _ = self.add()
        self.assertEqual(status, 0)
        self.assertTrue(out.endswith(f"3 steps are in the journal of {self.store}, and not saved yet: `undo` takes each back\n"))
        self.assertIn("  they are 10 to 14 of Flurstucke\n", out)
        with Store(self.store, journal=True, program=PROGRAM) as store:
            self.assertEqual(store.recovered.edits, 3)
            for _ in range(3):
                store.undo()
        self.assertEqual(self.opened(), (0, before))

    def test_what_does_not_fit_is_reported(self):
        source = Source(self.more)
        columns = [("number", ogr.OFTString), ("depth", ogr.OFTInteger64), ("Besitzer", ogr.OFTString)]
        crossed = in_map("POLYGON ((0 0, 3 3, 3 0, 0 2, 0 0))")
        features = {4: (in_map(FAR), {"number": "x", "depth": 3, "Besitzer": "y"}), 5: (crossed, {}), 6: (in_map("POINT (1 1)"), {})}
        source.layer("Flurstücke", features, columns=columns)
        source.layer("houses", {1: (in_map(FAR), {})})
        source.layer("wells", {1: (in_map("POINT (3 3)"), {})}, crs=4326)
        source.close()
        status, out, err = self.add()
        self.assertEqual((status, err), (1, ""))
        self.assertIn("Flurstücke: 3 features read, 1 taken\n", out)
        self.assertIn("  1 refused 13 RingNotSimple, a ring meets itself: 5 (", out)
        self.assertIn("  1 refused 26 WrongKind, the layer takes no geometry of that kind: 6\n", out)
        for column in ("number text", "depth int"):
            self.assertIn(f"the store's layer has no such column: {column}: its values are left out", out)
        self.assertIn("houses: 0 features read, 0 taken\n  the store has no such layer: houses: its 1 features are left out\n", out)
        self.assertIn("wells: 0 features read, 0 taken\n  another reference system: EPSG:4326 in place of EPSG:25832", out)
        self.assertEqual(self.opened()[1]["Flurstucke"][-1], f"10 {FAR} Besitzer='y'")

    def test_what_is_left_out_is_said_by_an_export_over_a_file(self):
        source = Source(self.more)
        columns = [("number", ogr.OFTString), ("photo", ogr.OFTBinary), ("Besitzer", ogr.OFTString)]
        crossed = in_map("POLYGON ((0 0, 3 3, 3 0, 0 2, 0 0))")
        features = {4: (in_map(FAR), {"number": "x", "Besitzer": "y"}), 5: (crossed, {}), 6: (in_map("POINT (1 1)"), {})}
        source.layer("Flurstücke", features, columns=columns).close()
        self.assertEqual(self.add()[0], 1)
        Store(self.store, journal=True, program=PROGRAM).close()
        found = sidecar.read(str(self.store))
        words = (
            "Flurstücke is without what the addition of more.gpkg has left out: 2 features; all of photo, number. "
            "What is replaced may have them"
        )
        self.assertEqual(give_back(self.store, self.target), (0, "", ""))
        self.assertIn(words, give_back(self.store, self.target, "--overwrite")[2])
        [left] = found.additions
        sidecar.write(str(self.store), replace(found, additions=[replace(left, left_out=[], cut=True)]), found.digests)
        words = "has left out: further features or values of them, which the side-car has no room to name; all of photo, number."
        self.assertIn(words, give_back(self.store, self.target, "--overwrite")[2])
        sidecar.write(str(self.store), found, found.digests)
        # As often as it is added it is one source.
        self.assertEqual(self.add()[0], 1)
        self.assertEqual(sidecar.read(str(self.store)).additions, found.additions)
        self.assertEqual(len(found.additions), 1)

    def test_files_that_a_side_car_has_no_room_for_are_said_to_be_more(self):
        self.brought(wells=[(1, "POINT (2 2)"), (2, FAR)])
        self.assertEqual(self.add()[0], 1)
        Store(self.store, journal=True, program=PROGRAM).close()
        found = sidecar.read(str(self.store))
        [first] = found.additions
        others = [replace(first, source=f"{number}.gpkg") for number in range(999)]
        # What is added again is the last one.
        full = found.with_additions(others).with_additions([first])
        self.assertEqual([full.additions[0].source, full.additions[-1], full.forgets_files], ["0.gpkg", first, False])
        sidecar.write(str(self.store), full.with_additions([replace(first, source="new.gpkg")]), found.digests)
        found = sidecar.read(str(self.store))
        self.assertEqual([found.additions[0].source, len(found.additions), found.forgets_files, found.forgets_tables], ["1.gpkg", 1_000, True, False])
        words = "files were added of which the side-car has no room to name what was left out. What is replaced may have it\n"
        self.assertNotIn(words, give_back(self.store, self.target)[2])
        self.assertIn(words, give_back(self.store, self.target, "--overwrite")[2])
        # The mark stays with what is saved.
        with Store(self.store, journal=True, program=PROGRAM) as store:
            store.add("wells", "POINT (5 5)")
        self.assertTrue(sidecar.read(str(self.store)).forgets_files)

    def test_nothing_is_noted_where_nothing_is_added_or_nothing_left_out(self):
        before = sidecar.read(str(self.store))
        self.brought(wells=[(1, "POINT (2 2)")])
        self.assertEqual(self.add()[0], 0)
        self.ruled(APART)
        self.assertEqual(sidecar.read(str(self.store)).additions, [])
        source = Source(self.more)
        source.layer("Flurstücke", {1: (in_map(OVERLAPPING), {}), 2: (in_map("POINT (1 1)"), {})}).close()
        self.assertEqual(self.add()[0], 3)
        self.assertEqual(sidecar.read(str(self.store)), replace(before, digests=sidecar.read(str(self.store)).digests))

    def test_what_is_added_far_off_the_map_is_told(self):
        self.brought(wells=[(1, "POINT (15 5)"), (2, "POINT (1000000 5)"), (3, "POINT (1000001 5)")], Flurstücke=[(2, FAR)])
        status, out, err = self.add()
        self.assertEqual((status, err), (0, ""))
        told = "  2 features lie far off the map, as at (510000.00 5600000.05): is it meant? `undo` takes all that was added back\n"
        self.assertIn(told, out)
        self.assertEqual(out.count("far off"), 1)

    def test_nothing_to_add(self):
        self.brought(wells=[])
        status, out, _ = self.add()
        self.assertEqual((status, out.splitlines()[-1]), (0, "nothing was added"))
        self.assertEqual(self.opened()[0], 0)


class RefusedByRules(AddingCase):
    def refused(self, *words):
        """Adds a map that is refused: nothing is changed."""
        before = self.store.read_bytes(), self.opened()
        status, out, err = self.add(*words)
        self.assertEqual(status, 3, out + err)
        self.assertEqual((self.store.read_bytes(), self.opened()), before)
        return out, err

    def test_features_of_the_map_are_named(self):
        self.ruled(APART, PLACED)
        wells = [(30, "POINT (105 5)"), (31, "POINT (300 300)")]
        self.brought(Flurstücke=[(5, FAR), (8, OVERLAPPING), (21, FAR)], wells=wells)
        report, faulty = self.folder / "report", self.folder / "faulty.geojson"
        out, err = self.refused("--report", report, "--faulty", faulty)
        rules = [rule.line.replace("parcels", "Flurstucke") for rule in (APART, PLACED)]
        self.assertEqual(
            err, f"sfstore-import: nothing was added. Refused 37 RuleBroken, a rule would be broken: {rules[0]}; {rules[1]}\n"
        )
        far = "at (500001.00 5600000.00)"
        named = f"5 ({far}, with 21 of Flurstücke), 8 (at (500000.12 5600000.00), with 9 of Flurstucke in the store), 21 ({far}, with 5 of Flurstücke)"
        self.assertIn(f"Flurstücke: 3 features read, 0 taken\n  3 breaks the rule {rules[0]}: {named}\n", out)
        self.assertIn(f"wells: 2 features read, 0 taken\n  1 breaks the rule {rules[1]}: 31 (at (500003.00 5600003.00))\n", out)
        self.assertIn(f"wells\t31\tbreaks the rule {rules[1]}\tat (500003.00 5600003.00)\n", report.read_text())
        shown = [each["properties"]["identifier"] for each in json.loads(faulty.read_text())["features"]]
        self.assertEqual(shown, [5, 8, 21, 31])

    def test_a_feature_of_the_second_layer(self):
        self.ruled(CLEAR)
        self.brought(zones=[(4, PARCELS[0]), (5, FAR)])
        out, _ = self.refused()
        self.assertIn(f"  1 breaks the rule {CLEAR.line}: 4 (at (500000.00 5600000.00), with 1 of wells in the store)\n", out)

    def test_identifiers_that_no_store_has(self):
        self.ruled(APART)
        self.brought(Flurstücke=[(0, FAR), (2**40, FAR)])
        out, _ = self.refused()
        far = "at (500001.00 5600000.00)"
        self.assertIn(f": 0 ({far}, with {2**40} of Flurstücke), {2**40} ({far}, with 0 of Flurstücke)\n", out)

    def test_of_many_features_some_are_named(self):
        self.ruled(APART)
        self.brought(Flurstücke=[(number, FAR) for number in range(1, 30)])
        with mock.patch.object(ruling, "BREAKS_MAX", 20):
            out, _ = self.refused()
        self.assertIn("  20 breaks the rule ", out)
        self.assertIn("  there may be more: ", out)

    def test_of_several_steps_none_stays(self):
        self.ruled(APART)
        shapes = [FAR.replace("10", f"{place}0") for place in range(2, 7)]
        self.brought(Flurstücke=[(number, wkt) for number, wkt in enumerate([*shapes, OVERLAPPING], 1)])
        store = Store(self.store, journal=True, program=PROGRAM)
        store.add("wells", "POINT (8 8)")
        store.undo()
        store.close(save=False)
        before = self.opened()
        with mock.patch.object(adding, "GROUP_MAX", 2):
            status, out, err = self.add()
        self.assertEqual((status, self.opened()), (3, before))
        # What could be redone can be.
        store = Store(self.store, journal=True, program=PROGRAM)
        self.addCleanup(store.close, save=False)
        store.redo()
        self.assertEqual([feature.wkt for feature in store.show("wells")], ["POINT (5 5)", "POINT (8 8)"])
        self.assertEqual(store.run("show Flurstucke"), before[1]["Flurstucke"])
        self.assertIn("nothing was added. Refused 37 RuleBroken", err)
        self.assertIn(": 6 (at (500000.12 5600000.00), with 9 of Flurstucke in the store)\n", out)

    def test_a_step_that_does_not_keep_a_rule_by_itself(self):
        self.ruled(PLACED)
        self.brought(wells=[(1, "POINT (105 5)")], Flurstücke=[(2, FAR)])
        with mock.patch.object(adding, "GROUP_MAX", 1):
            _, err = self.refused()
            self.assertIn("a rule would be broken: placed, by a step of the map that is not all of it, or by features ", err)
            # The layers in another order.
            self.assertEqual(self.add("--layer", "Flurstücke", "--layer", "wells")[0], 0)
        self.assertEqual(self.opened()[0], 2)

    def test_rules_that_came_with_the_map_are_left_aside(self):
        self.brought(wells=[(1, "POINT (2 2)")])
        source = ogr.Open(str(self.more), 1)
        source.SetMetadataItem("SFSTORE", json.dumps({"layers": [], "rules": ["a never wells equals wells"]}))
        source = None
        status, out, _ = self.add()
        self.assertEqual(status, 0)
        self.assertIn("  1 rules of it are left aside\n", out)
        with Store(self.store, journal=True, program=PROGRAM) as store:
            self.assertEqual(store.rules(), [])


class NotAdded(AddingCase):
    def test_what_is_in_the_way(self):
        self.brought(wells=[(1, "POINT (2 2)")])
        status, _, err = bring_in(self.more, self.folder / "none.sfs", "--add")
        self.assertEqual((status, (self.folder / "none.sfs").exists()), (3, False))
        self.assertIn("is no store that is there: leave out --add", err)
        status, _, err = self.add(*GRID)
        self.assertEqual(status, 3)
        self.assertIn("has the grid already: leave out --grid", err)
        with Store(self.store, journal=True, program=PROGRAM):
            status, _, err = self.add()
        self.assertEqual(status, 3)
        self.assertIn("another session", err)
        with Store(PROGRAM, load=self.store, save=self.store) as store:
            store.add("wells", "POINT (8 8)")
        status, _, err = self.add()
        self.assertEqual(status, 3)
        self.assertIn("belongs to another file", err)

    def test_a_side_car_that_is_none(self):
        self.brought(wells=[(1, "POINT (2 2)")])
        path = self.store.with_suffix(".sfs.json")
        good = json.loads(path.read_text())
        layer = good["layers"][0]
        column = layer["columns"][0]
        wrong = [{"grid": ["a", "b", "c"]}, {"grid": ["0", "0", "0"]}, {"crs": 5}, {"crs": {**good["crs"], "code": 5}}, {"layers": 5}]
        wrong += [{"layers": [each]} for each in (5, {**layer, "name": 5}, {**layer, "source_name": None}, {**layer, "columns": 5}, {**layer, "more": ""})]
        wrong += [{"layers": [{**layer, "columns": [{**column, **each}]}]} for each in ({"name": 5}, {"source_name": []}, {"width": "5"}, {"width": None})]
        for changed in wrong:
            path.write_text(json.dumps({**good, **changed}))
            status, _, err = self.add()
            self.assertEqual(status, 3, (changed, err))
            self.assertRegex(err, "is no side-car of a store|has no grid")
        self.assertEqual(self.opened()[0], 0)

    def test_an_interrupt_says_what_may_be_there(self):
        self.brought(wells=[(1, "POINT (2 2)")])
        with mock.patch.object(adding, "_carried_out", side_effect=KeyboardInterrupt):
            status, _, err = self.add()
        self.assertEqual(status, 3)
        self.assertIn("it was interrupted. Steps of it, of 1, may be in the journal: `undo` takes each back", err)
        self.assertEqual(self.opened()[0], 0)

    def test_an_interrupt_between_two_steps_leaves_the_first_one(self):
        self.brought(wells=[(1, "POINT (2 2)"), (2, "POINT (3 3)")])
        carried_out, sent = adding._carried_out, []

        def interrupted(store, pieces):
            # Both are tried in a copy first.
            if len(sent) == 3:
                raise KeyboardInterrupt
            sent.append(pieces)
            return carried_out(store, pieces)

        with mock.patch.object(adding, "GROUP_MAX", 1), mock.patch.object(adding, "_carried_out", interrupted):
            status, _, err = self.add()
        self.assertEqual(status, 3)
        self.assertIn("it was interrupted. Steps of it, of 2, may be in the journal", err)
        edits, rows = self.opened()
        self.assertEqual((edits, rows["wells"]), (1, ["1 POINT (5 5)", "2 POINT (2 2)"]))

    def test_an_interrupt_while_it_is_read(self):
        self.brought(wells=[(1, "POINT (2 2)")])
        with mock.patch.object(adding, "_groups", side_effect=KeyboardInterrupt):
            status, _, err = self.add()
        self.assertEqual((status, err), (3, "sfstore-import: interrupted; nothing was written\n"))


if __name__ == "__main__":
    unittest.main()
