"""Thousands of random splits, merges and moves in a coverage of 2,025 parcels with buildings, under two rules.

Seeded. All 10,000 take a minute or two; `SFSTORE_DRAWN=500` draws fewer.
"""

from __future__ import annotations

import os
import random
from collections.abc import Sequence

import parcels_model as coverage
from support import PROGRAM, TestCase

from sfstore import Refused
from sfstore.faults import fault_at, fault_of
from sfstore.geometry import read_wkt
from sfstore.lines import geometry_refused
from sfstore.tools import NotDone, merge, move_node, split
from sfstore.tools.places import Place, exact, is_inside, lies_on, middle, rounded
from sfstore.tools.rings import Edge, Point, edges_of, split_at

DRAWN = int(os.environ.get("SFSTORE_DRAWN", "10000"))
SIDE, WIDE = 45, 10_000
BUILDINGS = 150
HOUSED = "rule add housed each buildings within some parcels"
# How often the whole is looked at.
WHOLE_EVERY = 500
# No more corners than so many are drawn together to one parcel.
CORNERS_MAX = 60


class Drawn(TestCase):
    SECONDS = 3_600

    def setUp(self) -> None:
        super().setUp()
        self.chance = random.Random(90)
        self.store = coverage.opened()
        self.addCleanup(self.store.close, save=False)
        coverage.make(self.store, SIDE, self.chance, WIDE)
        self.alive = [feature.id for feature in self.store.show("parcels")]
        self._build()
        [border] = coverage.outline(feature.wkt for feature in self.store.show("parcels"))
        self.border = list(zip(border.shell, [*border.shell[1:], border.shell[0]]))
        self.farthest = 0.0

    def _build(self) -> None:
        """Puts a building into some parcels, each wholly in its one."""
        self.store.add_layer("buildings", "polygon")
        for parcel in self.chance.sample(self.alive, BUILDINGS):
            left, bottom, right, top = self.store.box("parcels", parcel)
            x, y = (left + right) // 2, (bottom + top) // 2
            wide, high = self.chance.randint(200, 900), self.chance.randint(200, 900)
            self.store.add("buildings", f"POLYGON (({x} {y}, {x + wide} {y}, {x + wide} {y + high}, {x} {y + high}, {x} {y}))")
        self.store.run(HOUSED)

    def test_no_gap_no_overlap_and_one_undo_each(self) -> None:
        begin = self.store.show("parcels")
        seen, refused = {0: begin}, []
        done = 0
        tools = {"split": 0, "merge": 0, "move": 0}
        while done + len(refused) < DRAWN:
            tool = self.chance.choice(list(tools))
            try:
                is_done = getattr(self, f"_{tool}")()
            except (NotDone, Refused) as fault:
                refused.append((tool, fault))
                self.assertTrue(self._place_of(fault), (tool, fault))
                continue
            done += is_done
            tools[tool] += is_done
            if is_done and done % WHOLE_EVERY == 0:
                self._check_whole()
                seen[done] = self.store.show("parcels")
        self._check_whole()
        self.assertLessEqual(len(refused), DRAWN // 100, refused)
        print(f"\n{tools}, {len(refused)} refused: {[(tool, str(fault)) for tool, fault in refused][:20]}")
        print(f"corners on the border around are {self.farthest:.4f} steps from it as it was before, at most")
        for left in range(done, 0, -1):
            if left in seen:
                self.assertEqual(self.store.show("parcels"), seen[left])
            self.store.undo()
        self.assertEqual(self.store.show("parcels"), begin)

    def _split(self) -> bool:
        """Parts a parcel by a line through two of its edges."""
        parcel = self.chance.choice(self.alive)
        edges = list(edges_of(read_wkt(self._text(parcel))))
        one, other = self.chance.sample(edges, 2)
        a, b = self._within(one), self._within(other)
        if self._is_narrow(a, b, edges):
            return False
        begin, end = (a[0] * 11 - b[0]) // 10, (a[1] * 11 - b[1]) // 10
        line = f"LINESTRING ({begin} {end}, {(b[0] * 11 - a[0]) // 10} {(b[1] * 11 - a[1]) // 10})"
        around = self._around(parcel)
        parts = split(self.store, "parcels", parcel, line)
        self._check(around, parts[1:])
        self.alive += parts[1:]
        return True

    def _merge(self) -> bool:
        """Makes one parcel of two that share a border."""
        parcel = self.chance.choice(self.alive)
        beside = self.store.join_one("parcels", "F***1****", "parcels", parcel)
        other = self.chance.choice(beside)
        if sum(len(read_wkt(self._text(each)).members[0][0]) // 2 for each in (parcel, other)) > CORNERS_MAX:
            return False
        around = self._around(parcel, other)
        merge(self.store, "parcels", parcel, other)
        self._check({each: text for each, text in around.items() if each != other}, [], [around[other]])
        self.alive.remove(other)
        return True

    def _move(self) -> bool:
        """Moves a corner that is not on the border around all, by less than a quarter of what it has beside it."""
        parcel = self.chance.choice(self.alive)
        edges = list(edges_of(read_wkt(self._text(parcel))))
        at = self.chance.choice(edges)[0]
        if any(_distance(at, edge) < 2 for edge in self.border):
            return False
        around = self._around_point(at)
        near = [edge for text in around.values() for edge in edges_of(read_wkt(text))]
        room = min(_distance(at, edge) for edge in near if at not in edge and not lies_on(exact(at), edge))
        room = min([room, *(_distance(at, (end, end)) for edge in near for end in edge if end != at)])
        far = int(room / 4)
        if far < 1:
            return False
        move_node(self.store, ["parcels"], at, (at[0] + self.chance.randint(-far, far), at[1] + self.chance.randint(-far, far)))
        self._check(around, [])
        return True

    def _text(self, parcel: int) -> str:
        return self.store.get("parcels", parcel)[0].wkt

    def _within(self, edge: Edge) -> Point:
        """A point near the middle of an edge."""
        part = self.chance.randint(30, 70)
        return tuple(a + (b - a) * part // 100 for a, b in zip(*edge))  # type: ignore[return-value]

    def _is_narrow(self, a: Point, b: Point, edges: Sequence[Edge]) -> bool:
        """Whether a line lies not inside, or parts what is too narrow to go on with."""
        between = middle(exact(a), exact(b))
        if not is_inside(between, edges) or min(_distance(rounded(between), edge) for edge in edges) < 20:
            return True
        return min(_distance(a, (c, c)) for edge in edges for c in edge) < 20

    def _around(self, *parcels: int) -> dict[int, str]:
        """Parcels and all that have something in common with them."""
        found = {each for parcel in parcels for each in self.store.query("parcels", "intersects", self._text(parcel))}
        return {feature.id: feature.wkt for feature in self.store.get("parcels", *sorted(found))}

    def _around_point(self, at: Point) -> dict[int, str]:
        """The parcels that meet a point, and all that have something in common with these."""
        return self._around(*self.store.query("parcels", "intersects", f"POINT ({at[0]} {at[1]})"))

    def _check(self, before: dict[int, str], added: Sequence[int], gone: Sequence[str] = ()) -> None:
        """Whether what some parcels cover is the same behind a step, but for new corners on the border around all."""
        after = [feature.wkt for feature in self.store.get("parcels", *before, *added)]
        old, new = (_outline(texts) for texts in ([*before.values(), *gone], after))
        if old == new:
            self.assertEqual(sum(map(coverage.doubled, after)), sum(map(coverage.doubled, [*before.values(), *gone])))
            return
        corners = {a for a, _ in new} - {a for a, _ in old}
        bent = [edge for edge in old if edge not in new and not _is_whole(edge, new)]
        for corner in corners:
            far = min(_distance(corner, edge) for edge in old)
            self.farthest = max(self.farthest, far)
            self.assertLessEqual(far, 0.7072)
        for edge in bent:
            self.assertTrue(any(_distance(corner, edge) <= 0.7072 for corner in corners))
            # Only the border around all may be bent so: what lies beside is seen by the whole.
            self.assertLess(min(_distance(edge[0], each) for each in self.border), 3)

    def _check_whole(self) -> None:
        """Whether all parcels cover one area without a hole, each place of it once."""
        texts = [feature.wkt for feature in self.store.show("parcels")]
        [whole] = coverage.outline(texts)
        self.assertEqual(whole.holes, [])
        area = sum(a[0] * b[1] - a[1] * b[0] for a, b in zip(whole.shell, [*whole.shell[1:], whole.shell[0]]))
        self.assertEqual(sum(map(coverage.doubled, texts)), area)
        self.assertEqual(next(self.store.join("parcels", "T********", "parcels"), None), None)
        self.assertEqual(len({pair[0] for pair in self.store.join("buildings", "within", "parcels")}), BUILDINGS)

    def _place_of(self, fault: NotDone | Refused) -> list[object]:
        """Where something is refused: points, or the features that would break a rule."""
        if isinstance(fault, NotDone):
            return list(fault.points)
        if fault.rule:
            return list(fault.ids)
        shape = geometry_refused(fault, fault.line, self.store)
        found = shape and (fault_at(shape, fault) or fault_of(shape, PROGRAM))
        return list(found.points) if found else []


def _outline(texts: Sequence[str]) -> set[Edge]:
    """The edges of areas that no other one of them has the other way round."""
    edges = [edge for text in texts for edge in edges_of(read_wkt(text))]
    parted = set(split_at(edges, [a for a, _ in edges]))
    return {(a, b) for a, b in parted if (b, a) not in parted}


def _is_whole(edge: Edge, edges: set[Edge]) -> bool:
    """Whether an edge is there in pieces."""
    places: list[Place] = [exact(a) for a, _ in edges if lies_on(exact(a), edge)]
    order = sorted(places, key=lambda at: abs(at[0] - edge[0][0]) + abs(at[1] - edge[0][1]))
    return all(((int(a[0]), int(a[1])), (int(b[0]), int(b[1]))) in edges for a, b in zip(order, order[1:])) and len(order) > 1


def _distance(at: Point, edge: Edge) -> float:
    """The distance of a point from an edge."""
    return float(coverage.far_from(at, [edge[0], edge[1]])) if edge[0] != edge[1] else ((at[0] - edge[0][0]) ** 2 + (at[1] - edge[0][1]) ** 2) ** 0.5
