"""Tests of corners that another program puts on shared borders: over the real program, as QGIS would send them, in doubles."""

from __future__ import annotations

import random
from fractions import Fraction

import parcels_model as coverage
from support import TestCase

from sfstore import Refused
from sfstore.geometry import read_wkt, write_wkt
from sfstore.tools import split
from sfstore.tools.drafting import Drafting
from sfstore.tools.fitting import Corner, fitted
from sfstore.tools.places import exact, shared
from sfstore.tools.rings import Edge, edges_of


def noisy(number: Fraction) -> Fraction:
    """A number as a double of a map in metres has it, where a step is a centimetre."""
    return (Fraction(float(number / 100 + 500_000)) - 500_000) * 100


class Sent(TestCase):
    def setUp(self) -> None:
        super().setUp()
        self.store = coverage.opened()
        self.addCleanup(self.store.close, save=False)

    def carry_out(self, lines: list[str]) -> None:
        self.store.run("\r".join([f"together {len(lines)}", *lines]))

    def test_halves_that_qgis_has_made(self) -> None:
        """Each parcel of a coverage is halved as a drawing program halves it, which knows of no neighbour."""
        chance = random.Random(17)
        coverage.make(self.store, 10, chance, 1_000)
        first = self.store.show("parcels")
        [before] = coverage.outline(feature.wkt for feature in first)
        steps = alone = 0
        for parcel in range(1, 101):
            edges = list(edges_of(read_wkt(self.store.get("parcels", parcel)[0].wkt)))
            if len(edges) < 4:
                continue
            lines, corners = self.halved(parcel, edges, chance)
            try:
                self.carry_out(lines)
                self.store.undo()
            except Refused:
                alone += 1
            found = fitted(self.store, lines, corners)
            self.assertEqual(len(found.lines), len(lines) + len(found.beside))
            self.carry_out(found.lines)
            steps += 1
        self.assertGreater(alone, 20)
        shown = [feature.wkt for feature in self.store.show("parcels")]
        [after] = coverage.outline(shown)
        self.assertEqual(after.holes, [])
        self.assertLess(max(coverage.far_from(point, before.shell) for point in after.shell), 0.7072)
        for _ in range(steps):
            self.store.undo()
        self.assertEqual(self.store.show("parcels"), first)

    def halved(self, parcel: int, edges: list[Edge], chance: random.Random) -> tuple[list[str], list[Corner]]:
        """What is sent of a parcel that a line through its second and its last edge parts, and the two new corners."""
        (a, b), (c, d) = edges[1], edges[-1]
        part = Fraction(chance.randint(200, 800), 1_000)
        one, other = ((p[0] + (q[0] - p[0]) * part, p[1] + (q[1] - p[1]) * part) for p, q in ((a, b), (d, c)))
        corners = [Corner((noisy(x), noisy(y)), (round(noisy(x)), round(noisy(y)))) for x, y in (one, other)]
        ring = [edge[0] for edge in edges]
        upper = [corners[0].to, *ring[2:], corners[1].to]
        lower = [corners[1].to, ring[0], ring[1], corners[0].to]
        texts = [f"POLYGON (({', '.join(f'{x} {y}' for x, y in [*points, points[0]])}))" for points in (upper, lower)]
        return [f"replace parcels {parcel} {texts[0]}", f"add parcels {texts[1]}"], corners

    def test_as_split_does_it(self) -> None:
        self.store.add_layer("parcels")
        for text in (
            "POLYGON ((12 0, 18 0, 21 20, 12 30, 12 0))",
            "POLYGON ((12 30, 21 20, 24 40, 12 40, 12 30))",
            "POLYGON ((18 0, 30 0, 30 40, 24 40, 18 0))",
        ):
            self.store.add("parcels", text)
        self.store.run(coverage.RULE)
        tried = Drafting(self.store)
        split(tried, "parcels", 1, "LINESTRING (28 26, 15 -1)")
        [wanted] = tried.groups
        line = ((28, 26), (15, -1))
        old = list(edges_of(read_wkt(self.store.get("parcels", 1)[0].wkt)))
        places = {place for edge in old for place in shared(edge, line)}
        corners = [Corner((noisy(x), noisy(y)), (round(x), round(y))) for x, y in places]
        # The halves without the pins that the tool knows of: the corners of the area and the new ones alone.
        known = {a for a, _ in old} | {corner.to for corner in corners}
        lines = [self.with_corners_alone(each, known) for each in wanted[:2]]
        found = fitted(self.store, lines, corners)
        self.assertEqual(sorted(found.lines), sorted(wanted))

    def with_corners_alone(self, line: str, known: set[tuple[int, int]]) -> str:
        """A line whose geometry has no other corners than some."""
        front, bracket, rest = line.partition("POLYGON")
        shape = read_wkt(bracket + rest)
        kept = shape.mapped(lambda flat: [number for pair in zip(flat[::2], flat[1::2]) if pair in known for number in pair])
        return front + write_wkt(kept)

    def test_what_is_on_no_border_is_left(self) -> None:
        self.store.add_layer("parcels")
        self.store.add("parcels", "POLYGON ((0 0, 30 0, 30 30, 0 30, 0 0))")
        lines = ["add parcels POLYGON ((40 0, 50 0, 50 9, 40 0))", "set parcels last x 1", "delete parcels 1", "add nowhere POINT (1 1)"]
        corners = [Corner((Fraction(81, 2), Fraction(1, 3)), (40, 0)), Corner((Fraction(50), Fraction(9)), (50, 9))]
        self.assertEqual(fitted(self.store, lines, corners), (lines, []))
        # On the grid it bends nothing.
        self.assertEqual(fitted(self.store, lines[:1], [Corner(exact((30, 9)), (30, 9))]), (lines[:1], []))
        edge = 2**30
        self.assertEqual(fitted(self.store, lines[:1], [Corner(exact((edge - 1, edge - 1)), (edge - 1, edge - 1))]), (lines[:1], []))
