"""Tests of rules on values, by the module and by lines against the real program."""

from __future__ import annotations

import random
import unittest
from pathlib import Path

from support import PROGRAM, TestCase

from rules_cases import RulesCase  # isort: skip
from sfstore import Refused, Store
from sfstore.rules import ValueRule

SESSIONS = 2_000
LINES = 30


class Lines:
    """Lines of a session, by chance: few features and few values, so that rules are broken often."""

    def __init__(self, seed: int) -> None:
        self._random = random.Random(seed)

    def _layer(self) -> str:
        return self._random.choice(["p", "p", "p", "q", "r"])

    def _column(self) -> str:
        return self._random.choice(["n", "n", "n", "k", "k", "w"])

    def _value(self, column: str) -> str:
        values = {"n": ["'a'", "'b'", "'it''s'", "'c d=e'", "''"], "k": ["1", "2", "-3", "007"], "w": ["1.5", "2", "true", "'x'"]}
        return self._random.choice(values[column])

    def _rule(self) -> str:
        name = self._random.choice(["a", "b", "c", "9"])
        demand = self._random.choice(["unique", "unique", "required", "one-of", "one-of", "range", "range"])
        between = f"rule add {name} never {self._layer()} equals {self._layer()}"
        column = self._column()
        named = self._named(demand, column)
        return self._random.choice([f"rule add {name} {demand} {self._layer()} {column}{named}"] * 5 + [between])

    def _named(self, demand: str, column: str) -> str:
        """The values that a rule names: mostly of the column's type."""
        column = column if self._random.random() < 0.9 else self._column()
        if demand == "one-of":
            return " " + ", ".join(self._value(column) for _ in range(self._random.randrange(1, 5)))
        if demand == "range":
            first, last = self._value(column), self._value(column)
            return " " + self._random.choice([f"{first} to {last}", f"{first} to {last}", f"{first} to", f"to {last}"])
        return ""

    def _edit(self, which: str | None = None) -> str:
        layer, number, column = self._layer(), which or self._random.randrange(1, 7), self._column()
        at = f"{self._random.randrange(9)} {self._random.randrange(9)}"
        return self._random.choice(
            [
                f"add {layer} POINT ({at})",
                f"set {layer} {number} {column} {self._value(column)}",
                f"set {layer} {number} {column} {self._value(column)}",
                f"set {layer} {number} {column} {self._value(column)}",
                f"unset {layer} {number} {column}",
                f"delete {layer} {number}",
                f"replace {layer} {number} POINT ({at})",
                f"vertex move {layer} {number} 0 0 0 {at}",
            ]
        )

    def _group(self) -> str:
        """Members by chance, or a feature with its values."""
        if self._random.random() < 0.5:
            layer = self._layer()
            sets = [f"set {layer} last {column} {self._value(column)}" for column in self._random.sample(["n", "k"], self._random.randrange(1, 3))]
            members = [f"add {layer} POINT (1 1)", *sets]
        else:
            members = [self._edit() for _ in range(self._random.randrange(1, 5))]
        return "\n".join([f"together {len(members)}", *members])

    def _of_layers(self) -> str:
        column = self._column()
        return self._random.choice(
            [
                "layer rename p r",
                "layer rename r p",
                "layer drop q",
                "layer add q any",
                "layer move q 0",
                f"column drop {self._layer()} {column}",
                f"column drop {self._layer()} {column}",
                f"column add {self._layer()} {column} {'int' if column == 'k' else 'text'}",
                f"column add {self._layer()} {column} {'int' if column == 'k' else 'text'}",
            ]
        )

    def __iter__(self):
        yield from ("layer add p any", "layer add q point", "column add p n text", "column add p k int", "column add q n text")
        yield self._rule()
        for _ in range(LINES):
            what = self._random.choices(
                [self._edit, self._group, self._rule, lambda: "rule drop a", lambda: "undo", lambda: "redo", self._of_layers, lambda: "rules"],
                [14, 6, 4, 1, 4, 3, 3, 2],
            )[0]
            yield self._random.choice(["", "", "", "", "@2 "]) + what()


# How answers begin that come often enough to be tested at all.
OFTEN = ("refused 37 RuleBroken", "refused 22 NoColumn", "refused 40 RuleExists", "refused 39 NoRule", "refused 42 ColumnRuled", "refused 24 WrongValue")


class AgainstAModel(RulesCase):
    SECONDS = 600

    def test_sessions_by_chance(self):
        self.check_beside_a_model(SESSIONS, Lines, OFTEN)


class Lived(RulesCase):
    def test_a_session(self):
        self.check_lived(Path(__file__).with_name("value_rules_session.txt"), 40)

    def added(self, store, layer, wkt, **values):
        """Adds a feature with its values, as one step."""
        with store.together() as group:
            feature = group.add(layer, wkt)
            for column, value in values.items():
                group.set(layer, feature, column, value)

    def test_by_the_module(self):
        with Store(PROGRAM) as store:
            store.add_layer("parcels", "polygon")
            store.add_column("parcels", "number", "text")
            store.add_value_rule("numbers", "unique", "parcels", "number")
            store.add_value_rule("numbered", "required", "parcels", "number")
            self.assertEqual(
                store.rules(),
                [ValueRule("numbers", "unique", "parcels", "number"), ValueRule("numbered", "required", "parcels", "number")],
            )
            square = "POLYGON ((0 0, 9 0, 9 9, 0 9, 0 0))"
            with self.assertRaises(Refused) as caught:
                store.add("parcels", square)
            self.assertEqual((caught.exception.rule, caught.exception.ids), ("numbered", [1]))
            self.added(store, "parcels", square, number="17/4")
            with self.assertRaises(Refused) as caught:
                self.added(store, "parcels", square, number="17/4")
            self.assertEqual((caught.exception.rule, caught.exception.ids), ("numbers", [1, 2]))

    def test_of_a_thousand_with_their_index_kept(self):
        """A value of each of many features, and `find` of each, by the index that the rule has made and edits keep."""
        with Store(PROGRAM) as store:
            store.add_layer("p", "point")
            store.add_column("p", "n", "int")
            store.add_value_rule("numbers", "unique", "p", "n")
            for number in range(1_000):
                self.added(store, "p", f"POINT ({number} 0)", n=number)
            chance = random.Random(7)
            for _ in range(300):
                feature, value = chance.randrange(1, 1_001), chance.randrange(2_000)
                holder = store.find("p", "n", value)
                try:
                    store.set("p", feature, "n", value)
                    self.assertIn(holder, ([], [feature]))
                except Refused as refused:
                    self.assertEqual(refused.ids, sorted([feature, *holder]))
            values = [feature.values["n"] for feature in store.show("p")]
            self.assertEqual(len(set(values)), 1_000)
            for feature, value in enumerate(values, 1):
                self.assertEqual(store.find("p", "n", value), [feature])


class Kept(TestCase):
    def test_files_and_undo(self):
        """Rules on values are saved, loaded, kept and undone as others."""
        path = self.folder / "s.sfs"
        with Store(PROGRAM, save=path) as store:
            store.add_layer("p", "point")
            store.add_column("p", "n", "text")
            store.add("p", "POINT (1 1)")
            store.set("p", 1, "n", "a")
            store.add_value_rule("numbers", "unique", "p", "n")
            store.add_value_rule("numbered", "required", "p", "n")
            store.rename_layer("p", "parcels")
        with Store(PROGRAM, load=path) as store:
            rules = [ValueRule("numbers", "unique", "parcels", "n"), ValueRule("numbered", "required", "parcels", "n")]
            self.assertEqual(store.rules(), rules)
            with self.assertRaises(Refused) as caught:
                store.drop_column("parcels", "n")
            self.assertEqual(caught.exception.number, 42)
            store.drop_rule("numbered")
            store.drop_rule("numbers")
            store.drop_column("parcels", "n")
            for _ in range(3):
                store.undo()
            self.assertEqual(store.rules(), rules)
            with self.assertRaises(Refused) as caught:
                store.unset("parcels", 1, "n")
            self.assertEqual((caught.exception.rule, caught.exception.ids), ("numbered", [1]))


if __name__ == "__main__":
    unittest.main()
