"""Tests of maps with rules: out and in again, with rules that do not hold, and with what no export leaves."""

from __future__ import annotations

import json
import struct
import unittest
from decimal import Decimal
from unittest import mock

from support import PROGRAM, TestCase

from test_exchange import GRID, ExchangeCase, Source, bring_in, give_back  # isort: skip
from sfstore import ProgramEnded, Refused, Rule, Store, ValueRule, storefile
from sfstore.exchange import exporting, ruling, wayback
from sfstore.exchange.formats import RULES_MAX
from sfstore.language import LINE_MAX
from sfstore.results import RULE_BROKEN

# Three parcels in a row, of which the third overlaps the second; a well in the first one, and one outside.
PARCELS = ["POLYGON ((0 0, 9 0, 9 9, 0 9, 0 0))", "POLYGON ((9 0, 18 0, 18 9, 9 9, 9 0))"]
OVERLAPPING = "POLYGON ((12 0, 24 0, 24 9, 12 9, 12 0))"
APART = Rule("apart", "never", "parcels", "T********", "parcels")
PLACED = Rule("placed", "each", "wells", "within", "parcels")
RULES = [APART, PLACED, Rule("alone", "never", "wells", "equals", "wells")]


def in_map(wkt):
    """A text on the grid as one of the map, of which the origin is 500000 5600000 and a step is 0.01."""
    kind, points = wkt.split(" ", 1)
    moved = ["{!r} {!r}".format(500000 + int(x) / 100, 5600000 + int(y) / 100) for x, y in map(str.split, points.strip("()").split(", "))]
    brackets = len(points) - len(points.lstrip("("))
    return f"{kind} {'(' * brackets}{', '.join(moved)}{')' * brackets}"


class RuledCase(ExchangeCase):
    def made(self, rules=RULES):
        """A store of two parcels and a well, with rules, that was imported."""
        self.points({1: (in_map("POINT (5 5)"), {})})
        self.assertEqual(bring_in(self.source, self.store, *GRID)[0], 0)
        with Store(PROGRAM, load=self.store, save=self.store) as store:
            store.add_layer("parcels", "polygon")
            for wkt in PARCELS:
                store.add("parcels", wkt)
            for rule in rules:
                store.add_rule(*rule)
        self.store.with_suffix(".sfs.json").unlink()
        self.source.unlink()

    def rules(self, path=None):
        with Store(PROGRAM, load=path or self.store) as store:
            return store.rules()


class OutAndIn(RuledCase):
    def test_a_geopackage_keeps_the_rules(self):
        self.made()
        given = give_back(self.store, self.target, *GRID, "--crs", "EPSG:25832")
        self.assertEqual(given, (0, "", ""))
        again = self.folder / "again.sfs"
        status, out, err = bring_in(self.target, again)
        self.assertEqual((status, err), (0, ""))
        self.assertIn("parcels: 2 features read, 2 taken\n  the rule apart never parcels T******** parcels was added\n", out)
        self.assertEqual(again.read_bytes(), self.store.read_bytes())
        self.assertEqual(self.rules(again), RULES)

    def test_other_formats_say_that_they_do_not(self):
        self.made()
        for target, words in ((self.folder / "map", ["--format", "GeoJSON"]), (self.folder / "wells.fgb", ["--layer", "wells"])):
            status, _, err = give_back(self.store, target, *words, *([] if self.store.with_suffix(".sfs.json").exists() else GRID))
            self.assertEqual(status, 0, err)
            for rule in RULES:
                self.assertIn(f" does not keep the rule {rule.line}\n", err)

    def test_a_file_of_rules_goes_with_each_other_format(self):
        self.made()
        rules, again = self.folder / "rules.txt", self.folder / "again.sfs"
        status, _, err = give_back(self.store, self.folder / "map", "--format", "GeoJSON", *GRID, "--crs", "EPSG:25832", "--rules", rules)
        self.assertEqual((status, "rule" in err), (0, False), err)
        self.assertEqual(rules.read_text(), "".join(f"rule add {rule.line}\n" for rule in RULES))
        status, out, err = bring_in(self.folder / "map", again, *GRID, "--layer", "wells", "--layer", "parcels", "--rules", rules)
        self.assertEqual((status, err), (0, ""), out)
        self.assertEqual(self.rules(again), RULES)

    def test_a_file_of_rules_replaces_nothing_unasked(self):
        self.made()
        rules = self.folder / "rules.txt"
        rules.write_text("mine")
        status, _, err = give_back(self.store, self.target, *GRID, "--rules", rules)
        self.assertEqual((status, self.target.exists(), rules.read_text()), (3, False, "mine"))
        self.assertIn("is there already", err)
        self.assertEqual(give_back(self.store, self.target, *GRID, "--rules", rules, "--overwrite")[0], 0)
        self.assertEqual(len(rules.read_text().splitlines()), 3)
        for same in (self.store, f"{self.store}.json", self.target):
            self.assertEqual(give_back(self.store, self.target, "--rules", same, "--overwrite")[0], 2)
        other = self.folder / "other.gpkg"
        other.write_bytes(before := self.target.read_bytes())
        status, _, err = give_back(self.store, self.target, "--rules", other, "--overwrite")
        self.assertEqual((status, other.read_bytes()), (3, before))
        self.assertIn("is a map or no text, and --overwrite replaces none by rules", err)

    def test_a_rule_of_a_layer_that_stays_behind_is_not_kept(self):
        self.made()
        status, _, err = give_back(self.store, self.target, *GRID, "--layer", "parcels")
        self.assertEqual(status, 0)
        self.assertEqual(err, "".join(f"GPKG does not keep the rule {rule.line}\n" for rule in RULES[1:]))
        again = self.folder / "again.sfs"
        self.assertEqual(bring_in(self.target, again)[0], 0)
        self.assertEqual(self.rules(again), [APART])

    def test_rules_by_distances_on_the_finest_grids(self):
        """A thousandth of a step has more than 30 digits behind the point."""
        rules = [Rule("apart", "never", "wells", "near 0.001", "wells"), Rule("served", "each", "wells", "near 4294967295.875", "wells")]
        with Store(PROGRAM, save=self.store) as store:
            store.run_all(["layer add wells point", "add wells POINT (5 5)", "add wells POINT (7 5)"])
            for rule in rules:
                store.add_rule(*rule)
        grid, map_, said, again = ["--grid", "0", "0", "1e-28"], *(self.folder / name for name in ("map.geojson", "said.rules", "again.sfs"))
        self.assertEqual(give_back(self.store, map_, *grid, "--rules", said)[0], 0)
        status, _, err = bring_in(map_, again, *grid, "--rules", said)
        self.assertEqual((status, err, [rule.ask for rule in self.rules(again)]), (0, "", [rule.ask for rule in rules]))

    def test_rules_take_the_place_of_no_file_of_the_map(self):
        self.made()
        for name in ("back.shp", "back.shx", "back.dbf", "back.prj", "back.cpg"):
            words = ["--layer", "wells", "--overwrite", "--rules", self.folder / name]
            status, _, err = give_back(self.store, self.folder / "back.shp", *words)
            self.assertEqual(status, 2)
            self.assertIn("store, map and rules are different files", err)
        beside = {"back.shp": ["back.sbn", "back.CPG", "back.shp.xml"], "back.gpkg": ["back.gpkg-wal"], "map": ["map/wells.geojson", "map/mine/r.txt"]}
        for target, names in beside.items():
            for name in names:
                words = ["--layer", "wells", "--overwrite", "--rules", self.folder / name, *(["--format", "GeoJSON"] if target == "map" else [])]
                status, _, err = give_back(self.store, self.folder / target, *words)
                self.assertEqual((status, (self.folder / target).exists()), (2, False), name)
                self.assertIn("no rules stand in the folder of a map or are read with it", err)
        named = self.folder / "own.dbf"
        self.store.rename(named)
        status, _, err = give_back(named, self.folder / "own.shp", "--layer", "wells", "--overwrite")
        self.assertEqual(status, 2)
        self.assertIn("the target is the store's own file", err)

    def test_rules_take_the_place_of_nothing_that_has_come_since(self):
        """As the map itself, which the same command has written."""
        self.made()
        with mock.patch.object(exporting, "_goes_with", lambda *words: False):
            words = ["--format", "GeoJSON", *GRID, "--crs", "EPSG:25832", "--overwrite", "--rules", self.folder / "map" / "wells.geojson"]
            status, _, err = give_back(self.store, self.folder / "map", *words)
        self.assertEqual(status, 3)
        self.assertIn("the map is written, but not its rules: ", err)
        self.assertIn("is a map or no text, and --overwrite replaces none by rules", err)
        self.assertTrue((self.folder / "map" / "wells.geojson").read_text().startswith("{"))

    def test_a_file_of_rules_has_each_value(self):
        """Letters of each language, and more values than fit into a short line."""
        texts = ["Straße", "it's", "a, b", "two\nlines", "\u2028", *(f"{number:03} {'x' * 300}" for number in range(900))]
        ruled = [ValueRule("uses", "one-of", "wells", "use", tuple(texts)), ValueRule("sizes", "range", "wells", "size", (), None, Decimal("0.5"))]
        with Store(PROGRAM, save=self.store) as store:
            store.run_all(["layer add wells point", "column add wells use text", "column add wells size decimal", "add wells POINT (1 1)"])
            store.set("wells", 1, "use", "Straße")
            store.set("wells", 1, "size", Decimal("0.5"))
            for rule in ruled:
                store.add_value_rule(*rule)
        rules, again = self.folder / "rules.txt", self.folder / "again.sfs"
        target = self.folder / "map.geojson"
        status, _, err = give_back(self.store, target, *GRID, "--crs", "EPSG:25832", "--rules", rules)
        self.assertEqual((status, err), (0, ""))
        self.assertEqual(rules.read_text(encoding="utf-8"), "".join(f"rule add {rule.line}\n" for rule in ruled))
        written = rules.read_bytes()
        # As it is, as editors of Windows write it, and by hand.
        for data in written, b"\xef\xbb\xbf" + written.replace(b"\n", b"\r\n"), written.replace(b"', '", b"' ,\t'"):
            rules.write_bytes(data)
            status, _, err = bring_in(target, again, *GRID, "--rules", rules, "--overwrite")
            self.assertEqual((status, err, self.rules(again)), (0, "", ruled))

    def test_what_a_terminal_obeys_is_not_written_to_it(self):
        with Store(PROGRAM, save=self.store) as store:
            store.run_all(["layer add wells point", "column add wells use text", "add wells POINT (1 1)", "rule add r one-of wells use '\x9b31m'"])
        _, _, err = give_back(self.store, self.folder / "map.geojson", *GRID, "--crs", "EPSG:25832")
        self.assertIn(r"GeoJSON does not keep the rule r one-of wells use '\x9b31m'", err)

    def test_a_layer_that_is_left_in_the_map_takes_its_rules_with_it(self):
        self.made()
        give_back(self.store, self.target, *GRID)
        again = self.folder / "again.sfs"
        status, out, _ = bring_in(self.target, again, "--layer", "wells")
        self.assertEqual(status, 1)
        self.assertIn("back.gpkg:\n  a rule is left out: apart never parcels T******** parcels: 18 NoLayer, ", out)
        self.assertEqual(self.rules(again), [RULES[2]])

    def test_a_map_without_rules_has_none_in_its_metadata(self):
        self.made([])
        self.assertEqual(give_back(self.store, self.target, *GRID)[0], 0)
        self.assertNotIn(b'"rules"', self.target.read_bytes())

    def test_more_rules_than_a_map_has(self):
        rules = [Rule(f"r{number}", "never", "wells", "equals", "wells") for number in range(RULES_MAX + 2)]
        self.made(rules)
        status, _, err = give_back(self.store, self.target, *GRID)
        self.assertEqual((status, err), (0, "".join(f"GPKG does not keep the rule {rule.line}\n" for rule in rules[-2:])))
        again = self.folder / "again.sfs"
        self.assertEqual(bring_in(self.target, again)[0], 0)
        self.assertEqual(self.rules(again), rules[:-2])
        path, target = self.folder / "rules.txt", self.folder / "map.fgb"
        status, _, err = give_back(self.store, target, "--layer", "wells", "--rules", path)
        told = [line for line in err.splitlines() if "rule" in line]
        self.assertEqual(told, [f"a file of rules has 1000 at most, and is without the rule {rule.line}" for rule in rules[-2:]])
        self.assertEqual(bring_in(target, again, *GRID, "--rules", path, "--overwrite")[0], 0)
        self.assertEqual(self.rules(again), rules[:-2])


class DoNotHold(RuledCase):
    """Maps that another program has changed since they were exported."""

    def changed(self, features, rules, identifiers=None, **left):
        """A map of parcels and wells that says rules, and what else an export leaves."""
        source = Source(self.source)
        for name in ("parcels", "wells"):
            numbered = dict(zip(identifiers or range(1, 99), features[name]))
            source.layer(name, {number: (in_map(wkt), {}) for number, wkt in numbered.items()})
        source.data.SetMetadataItem(wayback.ITEM, json.dumps({"layers": [], "rules": [rule.line for rule in rules], **left}))
        source.close()

    BROKEN = {"parcels": [*PARCELS, OVERLAPPING], "wells": ["POINT (5 5)", "POINT (9 9)", "POINT (50 50)"]}

    def test_what_breaks_a_rule_is_told(self):
        self.changed(self.BROKEN, RULES, [10, 20, 30])
        report, faulty = self.folder / "report", self.folder / "faulty.geojson"
        status, out, err = bring_in(self.source, self.store, *GRID, "--report", report, "--faulty", faulty)
        self.assertEqual((status, err), (1, ""))
        # The first point of each, in the coordinates of the map.
        places = [f"at ({place})" for place in ("500000.09 5600000.00", "500000.12 5600000.00", "500000.09 5600000.09", "500000.50 5600000.50")]
        parcels = f"  2 breaks the rule {APART.line}, which is left out: 20 ({places[0]}, with 30 of parcels), 30 ({places[1]}, with 20 of parcels)\n"
        wells = f"  2 breaks the rule {PLACED.line}, which is left out: 20 ({places[2]}), 30 ({places[3]})\n  the rule {RULES[2].line} was added\n"
        self.assertIn(f"parcels: 3 features read, 3 taken\n{parcels}", out)
        self.assertIn(f"wells: 3 features read, 3 taken\n{wells}", out)
        self.assertEqual(self.rules(), [RULES[2]])
        with Store(PROGRAM, load=self.store) as store:
            self.assertEqual([feature.id for feature in store.show("parcels")], [10, 20, 30])
        self.assertIn(f"parcels\t20\tbreaks the rule {APART.line}, which is left out\t{places[0]}, with 30 of parcels\n", report.read_text())
        shown = json.loads(faulty.read_text())["features"]
        self.assertEqual([each["properties"]["identifier"] for each in shown], [20, 30, 20, 30])
        self.assertEqual(shown[0]["geometry"]["coordinates"][0][0], [500000.09, 5600000])
        self.assertEqual(shown[2]["geometry"]["coordinates"], [500000.09, 5600000.09])

    def test_identifiers_are_those_of_the_source(self):
        for identifiers, added in (([0, 1, 2], 1), ([2**33, 2**33 + 1, 2**33 + 2], None)):
            self.changed(self.BROKEN, [APART], identifiers)
            status, out, _ = bring_in(self.source, self.store, *GRID, "--overwrite")
            self.assertEqual(status, 1)
            first, second = identifiers[1:]
            at_first, at_second = "at (500000.09 5600000.00)", "at (500000.12 5600000.00)"
            self.assertIn(f"{first} ({at_first}, with {second} of parcels), {second} ({at_second}, with {first} of parcels)\n", out)
            with Store(PROGRAM, load=self.store) as store:
                wanted = [1, 2, 3] if added is None else [number + added for number in identifiers]
                self.assertEqual([feature.id for feature in store.show("parcels")], wanted)
            self.source.unlink()

    def test_of_many_features_some_are_named(self):
        # Each of these lies upon all others.
        self.changed({"parcels": [PARCELS[0]] * 90, "wells": []}, [APART])
        most, ruling.BREAKS_MAX = ruling.BREAKS_MAX, 40
        self.addCleanup(setattr, ruling, "BREAKS_MAX", most)
        status, out, _ = bring_in(self.source, self.store, *GRID)
        self.assertEqual(status, 1)
        self.assertIn(f"  40 breaks the rule {APART.line}, which is left out: 1 (at (500000.00 5600000.00), with 2, 3, 4, 5, 6, 7, 8, 9 of parcels and 81 more), ", out)
        self.assertIn(" and 32 more\n", out)
        self.assertIn(f"  there may be more: {APART.line}: 40 features that break it are named, and the others were not searched", out)

    def test_rules_that_are_written_by_hand(self):
        self.changed({"parcels": PARCELS, "wells": ["POINT (5 5)", "POINT (50 50)"]}, [RULES[2]])
        rules = self.folder / "rules.txt"
        rules.write_text(f"{APART.line}\r\n\n  \n\t rule add  {PLACED.line.replace(' ', '  ')}")
        status, out, _ = bring_in(self.source, self.store, *GRID, "--rules", rules)
        self.assertEqual((status, self.rules()), (1, [RULES[2], APART]))
        self.assertIn(f"  1 breaks the rule {PLACED.line}, which is left out: 2 (at (500000.50 5600000.50))\n", out)

    def test_distances_of_rules_are_those_of_the_map(self):
        left = Rule("left", "never", "wells", "near 3", "wells")
        self.changed({"parcels": PARCELS, "wells": ["POINT (5 5)", "POINT (50 50)"]}, [left], grid=GRID[1:])
        rules = self.folder / "rules.txt"
        rules.write_text("rule add spaced never wells near 0.02 wells\nfine never wells near 0.0000015 wells\n")
        finer = [*GRID[:-1], "0.001"]
        _, out, _ = bring_in(self.source, self.store, *finer, "--rules", rules)
        self.assertIn("a rule is left out: fine never wells near 0.0000015 wells: the distance 0.0000015 is no whole number of thousandths of a grid step;", out)
        wanted = [Rule("left", "never", "wells", "near 30", "wells"), Rule("spaced", "never", "wells", "near 20", "wells")]
        self.assertEqual(self.rules(), wanted)
        status, _, err = give_back(self.store, self.folder / "map", "--format", "GeoJSON", "--rules", self.folder / "given.txt")
        self.assertEqual(status, 0, err)
        self.assertEqual((self.folder / "given.txt").read_text(), "rule add left never wells near 0.03 wells\nrule add spaced never wells near 0.02 wells\n")
        for line in ("left never wells near 0.03 wells", "spaced never wells near 0.02 wells"):
            self.assertIn(f"the rule {line} was added", out)

    def test_what_breaks_a_rule_by_a_distance_is_named(self):
        self.changed({"parcels": PARCELS, "wells": ["POINT (5 5)", "POINT (8 9)", "POINT (50 50)"]}, [], grid=GRID[1:])
        never, each = "spaced never wells near 0.05 wells", "served each wells near 0.3 some parcels"
        rules = self.folder / "rules.txt"
        rules.write_text(f"{never}\n{each}\nserved each parcels near 0.01 some wells\n")
        status, out, _ = bring_in(self.source, self.store, *GRID, "--rules", rules)
        self.assertEqual((status, self.rules()), (1, [Rule("served", "each", "parcels", "near 1", "wells")]))
        first, second = "at (500000.05 5600000.05)", "at (500000.08 5600000.09)"
        told = f"1 ({first}, with 2 of wells), 2 ({second}, with 1 of wells)"
        self.assertIn(f"  2 breaks the rule {never}, which is left out: {told}\n", out)
        self.assertIn(f"  1 breaks the rule {each}, which is left out: 3 (at (500000.50 5600000.50))\n", out)
        self.assertIn("the rule served each parcels near 0.01 some wells was added", out)

    def test_a_file_that_has_no_rules(self):
        self.changed({"parcels": PARCELS, "wells": []}, [])
        path = self.folder / "rules.txt"
        good = f"{APART.line}\n".encode()
        wrong = [b"x", b"\0", b"\xff" * 9, good + b"undo", good.replace(b"never", b"always"), b"rule add rule add " + good, b"x" * 2**20, b"n one-of wells use 'a"]
        for data in wrong:
            path.write_bytes(data)
            status, _, err = bring_in(self.source, self.store, *GRID, "--rules", path)
            self.assertEqual((status, self.store.exists()), (3, False), data)
            self.assertRegex(err, "rules.txt, line [12]: ")
        for data, told in ((good * (RULES_MAX + 1), "has more than 1000 rules"), (b"x" * (LINE_MAX + 1), "line 1: it has more than 4,194,304 bytes")):
            path.write_bytes(data)
            self.assertIn(told, bring_in(self.source, self.store, *GRID, "--rules", path)[2])
        for words in (["--rules", self.folder], ["--rules", self.folder / "none"]):
            self.assertEqual(bring_in(self.source, self.store, *GRID, *words)[0], 3)
        for words in (["--rules", self.source], ["--rules", self.store], ["--rules", path, "--add"]):
            self.assertEqual(bring_in(self.source, self.store, *words)[0], 2)

    def test_rules_that_no_store_takes(self):
        rules = [APART, APART, Rule("lost", "each", "wells", "within", "houses"), PLACED]
        self.changed({"parcels": PARCELS, "wells": ["POINT (5 5)"]}, rules)
        status, out, _ = bring_in(self.source, self.store, *GRID)
        self.assertEqual(status, 1)
        self.assertIn(f"a rule is left out: {APART.line}: 40 RuleExists, a rule has this name already\n", out)
        self.assertIn(f"a rule is left out: {rules[2].line}: 18 NoLayer, no layer has that name\n", out)
        self.assertEqual(self.rules(), [APART, PLACED])

    def test_nothing_that_is_no_rule_is_taken(self):
        good = APART.line
        wrong = [5, {}, "apart", None, [5], [None], [[good]], [""], ["apart"], [good + "\n"], [good + "\nundo"], [good + "\r"], [f" {good}"]]
        wrong += [[good.replace("never", "always")], [good.replace("never", "each")], [PLACED.line.replace("some ", "")]]
        wrong += [[good.replace("parcels", "par cels")]]
        wrong += [[good.replace("T********", word)] for word in ("T*******", "X********", "near", "T" * 99_999)]
        wrong += [[good.replace("apart", name)] for name in ("", "9", "a" * 33, "ä", "a\x00b", "@2", "\ud800")]
        wrong += [[good] * (RULES_MAX + 1)]
        for rules in wrong:
            if self.source.exists():
                self.source.unlink()
            source = Source(self.source)
            source.layer("parcels", {1: (in_map(PARCELS[0]), {})})
            source.data.SetMetadataItem(wayback.ITEM, json.dumps({"layers": [], "rules": rules}))
            source.close()
            status, out, err = bring_in(self.source, self.store, *GRID, "--overwrite")
            self.assertEqual((status, err), (1, ""), str(rules)[:200])
            self.assertIn("left aside: metadata SFSTORE that no export leaves: ", out)
            self.assertLess(len(out), 2_000)
            self.assertEqual(self.rules(), [])


class Files(TestCase):
    """Files with rules, as `storefile` reads them."""

    ASKS = ("crosses", "overlaps", "FF*FF0***", "near 0", "near 20", "near 150.500", "near 0.001", "near 4294967295.999", "near 4294967295")
    RULES = [
        *RULES,
        *(Rule(f"p{at}", "never", "wells", ask, "parcels") for at, ask in enumerate(ASKS)),
        Rule("served", "each", "wells", "near 2.010", "parcels"),
    ]

    def setUp(self):
        super().setUp()
        self.path = self.folder / "file.sfs"
        with Store(PROGRAM, save=self.path) as store:
            store.add_layer("wells", "point")
            store.add_layer("parcels", "polygon")
            for rule in self.RULES:
                store.add_rule(*rule)
        self.data = self.path.read_bytes()

    def test_rules_are_read(self):
        layers, rules = storefile.read_with_rules(self.data)
        self.assertEqual(([layer.name for layer in layers], rules), (["wells", "parcels"], self.RULES))
        self.assertEqual(storefile.read(self.data), layers)
        with Store(PROGRAM, load=self.path) as store:
            self.assertEqual(store.rules(), rules)

    def test_each_cut_has_a_field(self):
        for cut in range(len(self.data)):
            with self.assertRaises((ValueError, struct.error)):
                storefile.read_with_rules(self.data[:cut])
            self.assertTrue(storefile.field_at(self.data[:cut], cut))

    def test_what_is_wrong_is_a_value_error(self):
        name = self.data.index(b"\x05apart")
        self.assertEqual(storefile.field_at(self.data, name), "name of a rule")
        self.assertEqual(storefile.field_at(self.data, name + 6), "form of a rule")
        self.assertEqual(storefile.field_at(self.data, name + 7), "layer of a rule")
        self.assertEqual(storefile.field_at(self.data, name + 15), "what a rule asks")
        for place, byte in ((name + 6, 3), (name + 15, 9)):
            wrong = self.data[:place] + bytes([byte]) + self.data[place + 1 :]
            with self.assertRaises(ValueError):
                storefile.read_with_rules(wrong)

    def test_what_is_wrong_with_a_rule_is_said_of_rules(self):
        name = self.data.index(b"\x05apart")
        form = self.data.index(b"\x06served") + 7
        distance = form + 1 + len(b"\x05wells")
        cases = [
            (name + 6, b"\x09", "form of a rule: rules of that form are not known: a later version may have written the file (34)"),
            (name + 15, b"\x09", "what a rule asks: that is no predicate and no pattern (32)"),
            (distance, b"\xff" * 8, "distance of a rule: the distance is too great (34)"),
        ]
        for place, put, said in cases:
            self.path.write_bytes(self.data[:place] + put + self.data[place + len(put) :])
            with self.assertRaises(ProgramEnded) as caught:
                Store(PROGRAM, load=self.path)
            self.assertEqual(storefile.fault_words(str(self.path), caught.exception.last_line), f"place {place}, {said}")

    def test_a_distance_is_wrong_where_the_program_says_so(self):
        form = self.data.index(b"\x06served") + 7
        self.assertEqual(self.data[form : form + 1], b"\x08")
        distance = form + 1 + len(b"\x05wells")
        self.assertEqual(self.data[distance : distance + 8], (2_010).to_bytes(8, "big"))
        self.assertEqual(storefile.field_at(self.data, distance), "distance of a rule")
        for number in (4_294_967_296_000, 2**63, 2**64 - 1):
            wrong = self.data[:distance] + number.to_bytes(8, "big") + self.data[distance + 8 :]
            self.path.write_bytes(wrong)
            with self.assertRaises(ProgramEnded) as caught:
                Store(PROGRAM, load=self.path)
            self.assertEqual(caught.exception.last_line, f"fault load BadFile {distance} 34")
            with self.assertRaises(ValueError):
                storefile.read_with_rules(wrong)
        # Files of the third version have none of these.
        with self.assertRaises(ValueError):
            storefile.read_with_rules(b"SFSTORE3" + self.data[8:])


class Looked(TestCase):
    def test_a_converse_ask_lists_the_same_pairs(self):
        shapes = ["POINT (1 1)", "LINESTRING (0 0, 3 3)", "LINESTRING (0 3, 3 0)", PARCELS[0], OVERLAPPING, "POLYGON ((2 2, 4 2, 4 4, 2 4, 2 2))"]
        asks = ["equals", "disjoint", "intersects", "touches", "within", "contains", "crosses", "overlaps", "T*F**F***", "FF*FF0***", "*0*1*2***", "near 0", "near 1.414", "near 1.415"]
        with Store(PROGRAM) as store:
            store.add_layer("a")
            for shape in shapes:
                store.add("a", shape)
            for ask in asks:
                pairs = {(second, first) for first, second in store.join("a", ask, "a")}
                self.assertEqual(set(store.join("a", ruling.converse(ask), "a")), pairs, ask)

    def test_what_is_found_is_what_keeps_the_rule_from_being_added(self):
        with Store(PROGRAM) as store:
            for name in ("parcels", "wells"):
                store.add_layer(name)
            for wkt in [*PARCELS, OVERLAPPING]:
                store.add("parcels", wkt)
            store.add("wells", "POINT (5 5)")
            for rule in [APART, PLACED, Rule("a", "never", "wells", "within", "parcels"), Rule("b", "each", "parcels", "contains", "wells")]:
                ids = [feature.id for feature in store.show(rule.layer)]
                found = ruling.breaks_of(store, rule, ids)
                try:
                    store.add_rule(*rule)
                except Refused as refused:
                    self.assertEqual((refused.number, refused.ids[0]), (RULE_BROKEN, found.found[0].feature), rule)
                else:
                    self.assertEqual(found.found, [], rule)


if __name__ == "__main__":
    unittest.main()
