"""Tests of rules between features, by the module and by lines against the real program."""

from __future__ import annotations

import random
import unittest
from pathlib import Path

from support import PROGRAM

from rules_cases import RulesCase  # isort: skip
from sfstore import Refused, Rule, Store

SESSIONS = 2_000
LINES = 24
ASKS = ("intersects", "overlaps", "within", "touches", "disjoint", "contains", "T********", "T*F**F***", "FF*FF****", "t*******f")
# Distances between places of the small part of the grid, some of them a little below or above the root of a sum of squares.
NEAR = ("near 0", "near 1", "near 1.000", "near 1.414", "near 1.415", "near 2.5", "near 02.236", "near 2.237", "near 4294967295.999")
NO_DISTANCES = ("near x", "near -1", "near 1.0001", "near 4294967296", "near 1.")


class Lines:
    """Lines of a session, by chance: few layers on a small part of the grid, so that rules are broken often."""

    def __init__(self, seed: int) -> None:
        self._random = random.Random(seed)

    def _layer(self) -> str:
        return self._random.choice(["p", "p", "q", "q", "r"])

    def _rule(self) -> str:
        form, some = self._random.choice([("never", ""), ("never", ""), ("each", "some ")])
        name = self._random.choice(["a", "b", "c", "9"])
        asks = self._random.choices([ASKS, NEAR, NO_DISTANCES], [30, 15, 1])[0]
        return f"rule add {name} {form} {self._layer()} {self._random.choice(asks)} {some}{self._layer()}"

    def _shape(self) -> str:
        x, y = self._random.randrange(6), self._random.randrange(6)
        wide, high = self._random.randrange(1, 4), self._random.randrange(1, 4)
        return self._random.choice(
            [
                f"POINT ({x} {y})",
                f"LINESTRING ({x} {y}, {x + wide} {y + high})",
                f"POLYGON (({x} {y}, {x + wide} {y}, {x + wide} {y + high}, {x} {y + high}, {x} {y}))",
                f"POLYGON (({x} {y}, {x + wide} {y}, {x + wide} {y + high}, {x} {y + high}, {x} {y}))",
            ]
        )

    def _edit(self) -> str:
        layer, number = self._layer(), self._random.randrange(1, 6)
        at = f"{self._random.randrange(7)} {self._random.randrange(7)}"
        return self._random.choice(
            [
                f"add {layer} {self._shape()}",
                f"add {layer} {self._shape()}",
                f"add {layer} {self._shape()}",
                f"replace {layer} {number} {self._shape()}",
                f"delete {layer} {number}",
                f"vertex move {layer} {number} 0 0 {self._random.randrange(4)} {at}",
                f"vertex insert {layer} {number} 0 0 1 {at}",
                f"vertex remove {layer} {number} 0 0 1",
            ]
        )

    def _group(self) -> str:
        members = [self._edit() for _ in range(self._random.randrange(1, 4))]
        return "\n".join([f"together {len(members)}", *members])

    def _of_layers(self) -> str:
        return self._random.choice(["layer rename p r", "layer rename r p", "layer drop q", "layer add q any", "layer move q 0"])

    def __iter__(self):
        yield from ("layer add p any", "layer add q any", self._rule())
        for _ in range(LINES):
            what = self._random.choices(
                [self._edit, self._group, self._rule, lambda: "rule drop a", lambda: "undo", lambda: "redo", self._of_layers, lambda: "rules"],
                [12, 5, 4, 1, 4, 3, 1, 2],
            )[0]
            yield self._random.choice(["", "", "", "", "@2 "]) + what()


# How answers begin that come often enough to be tested at all.
OFTEN = ("refused 37 RuleBroken", "refused 36 NotYours", "refused 40 RuleExists", "refused 39 NoRule", "refused 41 LayerRuled", "refused 31 BadCommand")


class AgainstAModel(RulesCase):
    SECONDS = 600

    def test_sessions_by_chance(self):
        self.check_beside_a_model(SESSIONS, Lines, OFTEN)


class Lived(RulesCase):
    def test_a_session(self):
        self.check_lived(Path(__file__).with_name("rules_session.txt"), 60)

    def test_by_the_module(self):
        with Store(PROGRAM) as store:
            store.add_layer("parcels", "polygon")
            store.add_layer("wells", "point")
            store.add_rule("apart", "never", "parcels", "T********", "parcels")
            store.add_rule("placed", "each", "wells", "intersects", "parcels")
            self.assertEqual(
                store.rules(),
                [
                    Rule("apart", "never", "parcels", "T********", "parcels"),
                    Rule("placed", "each", "wells", "intersects", "parcels"),
                ],
            )
            store.add("parcels", "POLYGON ((0 0, 9 0, 9 9, 0 9, 0 0))")
            with self.assertRaises(Refused) as caught:
                store.add("parcels", "POLYGON ((5 5, 15 5, 15 15, 5 15, 5 5))")
            self.assertEqual((caught.exception.rule, caught.exception.ids), ("apart", [1, 2]))
            with self.assertRaises(Refused) as caught:
                store.add("wells", "POINT (20 20)")
            self.assertEqual((caught.exception.rule, caught.exception.ids), ("placed", [1]))
            with self.assertRaises(Refused) as caught:
                store.delete("parcels", 7)
            self.assertEqual((caught.exception.rule, caught.exception.ids), (None, []))
            store.drop_rule("apart")
            self.assertEqual([rule.name for rule in store.rules()], ["placed"])
            store.undo()
            self.assertEqual([rule.name for rule in store.rules()], ["apart", "placed"])

    def test_names_that_no_line_can_say(self):
        with Store(PROGRAM) as store:
            asks = ("near", "near 2.0001", "near -1", "near 4294967296", "near 1e3", "near  2", "near 2 ")
            for words in (("a b", "never", "p", "equals", "p"), ("a", "always", "p", "equals", "p"), *(("a", "never", "p", ask, "p") for ask in asks)):
                with self.assertRaises(ValueError):
                    store.add_rule(*words)

    def test_features_that_are_near_one_another(self):
        with Store(PROGRAM) as store:
            store.add_layer("wells", "point")
            for x in (0, 3, 10):
                store.add("wells", f"POINT ({x} 0)")
            self.assertEqual(list(store.join("wells", "near 3", "wells")), [(1, 2), (2, 1)])
            self.assertEqual(store.join_one("wells", "near 7", "wells", 2), [1, 3])
            store.add_rule("spaced", "never", "wells", "near 2.999", "wells")
            self.assertEqual(store.rules(), [Rule("spaced", "never", "wells", "near 2.999", "wells")])
            with self.assertRaises(Refused) as caught:
                store.add("wells", "POINT (11 2)")
            self.assertEqual((caught.exception.rule, caught.exception.ids), ("spaced", [3, 4]))


if __name__ == "__main__":
    unittest.main()
