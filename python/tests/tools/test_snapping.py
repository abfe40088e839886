"""Tests of nodes and edges that lie near one another and are made one: over the real program, which judges each."""

from __future__ import annotations

import contextlib
import random
from collections.abc import Iterator
from datetime import date
from decimal import Decimal
from fractions import Fraction
from unittest import mock

import parcels_model as coverage
from support import TestCase

from sfstore import Editor, Refused, Store
from sfstore.geometry import read_wkt, write_wkt
from sfstore.tools import NotDone, sending, snap, snapping
from sfstore.tools.trial import trial_of


def jittered(wkt: str, chance: random.Random, far: int) -> str:
    """A text with each of its corners somewhere near; its ends stay one."""
    moved: dict[tuple[float, float], tuple[int, int]] = {}

    def line(flat: list[float]) -> list[int]:
        points = list(zip(flat[::2], flat[1::2]))
        for point in points:
            moved.setdefault(point, (int(point[0]) + chance.randint(-far, far), int(point[1]) + chance.randint(-far, far)))
        return [number for point in points for number in moved[point]]

    return write_wkt(read_wkt(wkt).mapped(line))


class Near(TestCase):
    def setUp(self) -> None:
        super().setUp()
        self.store = coverage.opened()
        self.addCleanup(self.store.close, save=False)
        self.store.add_layer("p")

    def snapped(self, texts: list[str], within: int | Decimal | Fraction) -> list[str]:
        """Some geometries behind a snap, which is one step."""
        ids = [self.store.add("p", text) for text in texts]
        moves = snap(self.store, ["p"], within)
        found = [feature.wkt for feature in self.store.get("p", *ids)]
        if moves:
            self.store.undo()
        self.assertEqual([feature.wkt for feature in self.store.get("p", *ids)], texts)
        for feature in ids:
            self.store.delete("p", feature)
        return found

    def test_nodes(self) -> None:
        texts = ["LINESTRING (0 0, 10 0)", "LINESTRING (12 0, 20 0)", "POINT (11 1)"]
        self.assertEqual(self.snapped(texts, 2), ["LINESTRING (0 0, 10 0)", "LINESTRING (10 0, 20 0)", "POINT (10 0)"])
        self.assertEqual(self.snapped(texts, 1), texts)
        # The square of the distance is 2.
        self.assertEqual(self.snapped(texts, Decimal("1.414")), texts)
        self.assertEqual(self.snapped(texts, Fraction(1415, 1000)), ["LINESTRING (0 0, 11 1)", "LINESTRING (11 1, 20 0)", "POINT (11 1)"])

    def test_a_node_that_more_have_stays(self) -> None:
        texts = ["LINESTRING (0 0, 10 0)", "LINESTRING (11 0, 20 0)", "LINESTRING (11 0, 20 9)"]
        self.assertEqual(self.snapped(texts, 1)[0], "LINESTRING (0 0, 11 0)")

    def test_a_node_beside_an_edge(self) -> None:
        square, other = "POLYGON ((0 0, 10 0, 10 10, 0 10, 0 0))", "POLYGON ((11 4, 30 0, 30 20, 11 4))"
        self.assertEqual(self.snapped([square, other], 1), ["POLYGON ((0 0, 10 0, 11 4, 10 10, 0 10, 0 0))", other])
        on_it = "POLYGON ((10 4, 30 0, 30 20, 10 4))"
        self.assertEqual(self.snapped([square, on_it], 1), [square, on_it])

    def test_what_is_on_an_edge_that_is_bent_stays_on_it(self) -> None:
        texts = ["POLYGON ((0 0, 10 0, 10 20, 0 20, 0 0))", "POLYGON ((10 3, 30 3, 30 6, 10 6, 10 3))", "POLYGON ((11 12, 30 9, 30 20, 11 12))"]
        self.assertEqual(self.snapped(texts, 1)[0], "POLYGON ((0 0, 10 0, 10 3, 10 6, 11 12, 10 20, 0 20, 0 0))")

    def test_what_is_narrow_becomes_a_line_or_nothing(self) -> None:
        bottle = "POLYGON ((0 0, 10 0, 10 4, 20 4, 20 0, 30 0, 30 10, 20 10, 20 5, 10 5, 10 10, 0 10, 0 0))"
        self.assertEqual(len(read_wkt(self.snapped([bottle], 1)[0]).members), 2)
        for text, said in (("POLYGON ((0 0, 30 0, 30 1, 0 1, 0 0))", "nothing would be left of p"), ("LINESTRING (0 0, 1 0)", "nothing would be left of p")):
            feature = self.store.add("p", text)
            self.assertRaisesRegex(NotDone, said, snap, self.store, ["p"], 2)
            self.store.delete("p", feature)
        ring = "POLYGON ((0 0, 30 0, 30 30, 0 30, 0 0), (9 9, 9 10, 10 10, 10 9, 9 9))"
        self.assertEqual(self.snapped([ring], 2), ["POLYGON ((0 0, 30 0, 30 30, 0 30, 0 0))"])

    def test_a_preview_does_nothing(self) -> None:
        first, other = self.store.add("p", "POINT (0 0)"), self.store.add("p", "POINT (1 1)")
        plan = snapping(self.store, ["p"], 2)
        self.assertEqual([(move.at, move.to, move.features) for move in plan.moves], [((1, 1), (0, 0), [("p", other)])])
        self.assertEqual(self.store.get("p", other)[0].wkt, "POINT (1 1)")
        # Who changes something else is in nobody's way, and who changes this is seen.
        self.store.replace("p", first, "POINT (0 1)")
        self.store.replace("p", other, "POINT (5 5)")
        self.assertRaisesRegex(NotDone, "p 2 was changed", plan.carry_out, self.store)
        self.store.delete("p", other)
        self.assertRaisesRegex(NotDone, "p 2 is not there", plan.carry_out, self.store)

    def test_nothing_to_do(self) -> None:
        self.store.add("p", "POINT (0 0)")
        self.assertEqual(snapping(self.store, ["p"], 5).carry_out(self.store), 0)
        self.assertRaisesRegex(NotDone, "not above 0", snap, self.store, ["p"], 0)
        self.assertRaises(Refused, snap, self.store, ["nowhere"], 1)

    def test_more_than_a_group_has_room_for(self) -> None:
        for at in range(0, 90, 10):
            self.store.add("p", f"POINT ({at} 0)")
            self.store.add("p", f"POINT ({at} 1)")
        plan = snapping(self.store, ["p"], 1)
        with mock.patch.object(sending, "GROUP_MAX", 4):
            self.assertEqual(plan.carry_out(self.store), 3)
            for _ in range(3):
                self.store.undo()
            # The last group breaks a rule: none is carried out, and what could be redone can be.
            before = self.store.show("p")
            self.store.add_layer("q")
            self.store.add_column("q", "day", "date")
            self.store.set("q", self.store.add("q", "POINT (80 1)"), "day", date(2024, 2, 29))
            self.store.run("rule add kept each q equals some p")
            self.store.add("q", "POINT (0 0)")
            self.store.undo()
            self.assertRaises(Refused, plan.carry_out, self.store)
            self.assertEqual(self.store.show("p"), before)
            self.store.redo()
            self.assertEqual((self.store.show("p"), len(self.store.show("q"))), (before, 2))

    def test_groups_that_no_trial_has_refused_are_taken_back(self) -> None:
        for at in range(0, 30, 10):
            self.store.add("p", f"POINT ({at} 0)")
            self.store.add("p", f"POINT ({at} 1)")
        plan = snapping(self.store, ["p"], 1)
        before = self.store.show("p")

        @contextlib.contextmanager
        def behind_it(store: Editor) -> Iterator[Store]:
            with trial_of(store) as trial:
                yield trial
            self.store.delete("p", max(feature for _, feature in plan.changed))

        with mock.patch.object(sending, "GROUP_MAX", 1), mock.patch.object(sending, "trial_of", behind_it):
            self.assertRaises(Refused, plan.carry_out, self.store)
            self.store.redo()
            self.store.undo()
            self.store.undo()
        self.assertEqual(self.store.show("p"), before)


class Coverage(TestCase):
    """A coverage whose parcels were drawn one by one, each corner a little beside: a snap makes it one without gaps."""

    def test_borders_become_one(self) -> None:
        chance = random.Random(5)
        with coverage.opened() as store:
            coverage.make(store, 10, chance, 1_000)
            store.run("rule drop alone")
            exact = store.show("parcels")
            for feature in exact:
                store.replace("parcels", feature.id, jittered(feature.wkt, chance, 3))
            self.assertGreater(len(list(store.join("parcels", "T********", "parcels"))), 50)
            moves = snap(store, ["parcels"], 10)
            self.assertGreater(len(moves), 200)
            store.run(coverage.RULE)
            [whole] = coverage.outline(feature.wkt for feature in store.show("parcels"))
            self.assertEqual(whole.holes, [])
            self.assertEqual(snapping(store, ["parcels"], 10).moves, [])

    def test_a_large_one_takes_no_time_for_each_pair(self) -> None:
        chance = random.Random(6)
        with coverage.opened() as store:
            coverage.make(store, 45, chance, 1_000)
            plan = snapping(store, ["parcels"], 5)
            self.assertEqual(plan.changed, {})
