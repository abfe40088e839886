"""Tests of `check`: the answer that `add` would give, and the place of a fault, against a plain search.

The search looks at all pairs of edges, in whole numbers and exact fractions, and takes the first fault in the order
of docs/use/CONSOLE.md: the earliest second one that is at fault with one before it, and the earliest first one.
"""

from __future__ import annotations

import random
import time
import unittest
from collections.abc import Iterator
from fractions import Fraction
from typing import Optional

from support import PROGRAM, TestCase

from sfstore import Place, Refused, Store
from sfstore.faults import fault_in, fault_of
from sfstore.geometry import Flat, Shape, read_wkt, write_wkt

Point = tuple
Edge = tuple[Point, Point]


def points_of(line: Flat) -> list[Point]:
    """The points of a line, repeats in a row once."""
    points: list[Point] = []
    for point in zip(line[::2], line[1::2]):
        if points[-1:] != [point]:
            points.append(point)
    return points


def edges_of(line: Flat) -> list[Edge]:
    points = points_of(line)
    return list(zip(points, points[1:]))


def edge_numbers(line: Flat) -> list[int]:
    """The numbers of the points from which an edge goes: those whose next point is another one."""
    points = list(zip(line[::2], line[1::2]))
    return [number for number, (point, following) in enumerate(zip(points, points[1:])) if point != following]


def turn(a: Point, b: Point, c: Point):
    return (b[0] - a[0]) * (c[1] - a[1]) - (b[1] - a[1]) * (c[0] - a[0])


def shared(one: Edge, other: Edge) -> list[Point]:
    """What two edges share: nothing, a point, or the two ends of a piece."""
    (a, b), (c, d) = one, other
    from_c, from_d = turn(a, b, c), turn(a, b, d)
    if from_c == 0 and from_d == 0:
        low, high = max(min(one), min(other)), min(max(one), max(other))
        return [] if low > high else [low] if low == high else [low, high]
    if from_c * from_d > 0 or turn(c, d, a) * turn(c, d, b) > 0:
        return []
    part = Fraction(from_c, from_c - from_d)
    return [(c[0] + part * (d[0] - c[0]), c[1] + part * (d[1] - c[1]))]


def side(line: Flat, point: Point) -> int:
    """1 where a point is inside a ring, 0 where it is on it, -1 where it is outside."""
    inside = False
    for a, b in edges_of(line):
        to_point = turn(a, b, point)
        if to_point == 0 and min(a, b) <= point <= max(a, b):
            return 0
        if (a[1] > point[1]) != (b[1] > point[1]) and (to_point > 0) == (b[1] > a[1]):
            inside = not inside
    return 1 if inside else -1


def samples(edges: list[Edge], others: list[Flat]) -> Iterator[Point]:
    """The ends of edges, and a point of each piece into which rings cut them."""
    for edge in edges:
        stops = set(edge)
        for other in others:
            for beside in edges_of(other):
                stops.update(shared(edge, beside))
        in_order = sorted(stops)
        yield from in_order
        for one, following in zip(in_order, in_order[1:]):
            yield Fraction(one[0] + following[0], 2), Fraction(one[1] + following[1], 2)


def numbered(shape: Shape) -> list[tuple[int, int, Flat]]:
    return [(part, ring, line) for part, member in enumerate(shape.members) for ring, line in enumerate(member)]


def tangle(line: Flat) -> Optional[tuple[int, int]]:
    """The first two edges of a ring that share more than neighbours may."""
    edges, closed = edges_of(line), points_of(line)[0] == points_of(line)[-1]
    for second in range(len(edges)):
        for first in range(second):
            common = shared(edges[first], edges[second])
            joints = [edges[first][1]] if second == first + 1 else []
            if closed and first == 0 and second == len(edges) - 1:
                joints.append(edges[0][0])
            if any(point not in joints for point in common):
                return edge_numbers(line)[first], edge_numbers(line)[second]
    return None


def of_rings(shape: Shape) -> Optional[tuple[int, list[Place]]]:
    """The first ring that is wrong by itself."""
    for part, ring, line in numbered(shape):
        if points_of(line)[0] != points_of(line)[-1]:
            return 11, [Place(part, ring, ())]
        if len(points_of(line)) < 4:
            return 12, [Place(part, ring, ())]
        found = tangle(line)
        if found:
            return 13, [Place(part, ring, found)]
    return None


def running_along(one: Flat, other: Flat) -> Optional[tuple[int, int]]:
    """The first edges of two rings that share a piece: of the second one the earliest, then of the first one."""
    for second, beside in enumerate(edges_of(other)):
        for first, edge in enumerate(edges_of(one)):
            if len(shared(edge, beside)) == 2:
                return edge_numbers(one)[first], edge_numbers(other)[second]
    return None


def rings_meeting(shape: Shape) -> Optional[list[Place]]:
    rings = numbered(shape)
    for place, (part, ring, line) in enumerate(rings):
        for other_part, other_ring, other in rings[:place]:
            found = running_along(other, line)
            if found:
                return [Place(other_part, other_ring, found[:1]), Place(part, ring, found[1:])]
    return None


def hole_outside(shape: Shape) -> Optional[list[Place]]:
    for part, (shell, *holes) in enumerate(shape.members):
        for ring, hole in enumerate(holes, 1):
            for number, edge in zip(edge_numbers(hole), edges_of(hole)):
                if any(side(shell, point) < 0 for point in samples([edge], [shell])):
                    return [Place(part, ring, (number,))]
    return None


def is_in(line: Flat, outer: list[Flat]) -> bool:
    """Whether a ring has a point inside a polygon."""
    shell, *holes = outer
    return any(
        side(shell, point) > 0 and all(side(hole, point) < 0 for hole in holes)
        for point in samples(edges_of(line), outer)
    )


def overlap(one: list[Flat], other: list[Flat]) -> bool:
    return any(is_in(line, other) for line in one) or any(is_in(line, one) for line in other)


def holes_nested(shape: Shape) -> Optional[list[Place]]:
    for part, member in enumerate(shape.members):
        for ring in range(1, len(member)):
            for other in range(1, ring):
                if overlap([member[other]], [member[ring]]):
                    return [Place(part, other, ()), Place(part, ring, ())]
    return None


def parts_overlapping(shape: Shape) -> Optional[list[Place]]:
    for part, member in enumerate(shape.members):
        for other in range(part):
            if overlap(shape.members[other], member):
                return [Place(other, None, ()), Place(part, None, ())]
    return None


def of_polygons(shape: Shape) -> Optional[tuple[int, list[Place]]]:
    """The first fault of polygons, and where."""
    by_themselves = of_rings(shape)
    if by_themselves:
        return by_themselves
    among = {14: rings_meeting, 15: hole_outside, 16: holes_nested, 17: parts_overlapping}
    for number, search in among.items():
        places = search(shape)
        if places:
            return number, places
    return None


def ring(points: list[Point]) -> list[int]:
    return [number for point in [*points, points[0]] for number in point]


class Checks(TestCase):
    """The answer of `check` is that of `add`, and nothing is added."""

    LINES = [
        "w POINT (3 4)",
        "w LINESTRING (0 0, 1 1)",
        "w POLYGON ((0 0, 4 4, 4 0, 0 4, 0 0))",
        "nowhere POINT (3 4)",
        "nowhere LINESTRING (1 1, 1 1)",
        "w LINESTRING (1 1, 1 1)",
        "w POINT (3)",
        "w POINT (1.5 1)",
        "w POINT (9999999 1)",
        "w POINT EMPTY",
        "w GEOMETRYCOLLECTION (POINT (1 1))",
        "any LINESTRING (1 1, 1 1)",
        "any POINT (1 1)",
        "any LINESTRING (1 1, 2 2)",
        "any",
        "1w POINT (1 1)",
    ]

    def test_the_answer_of_add(self) -> None:
        with Store(PROGRAM) as store:
            store.add_layer("w", "point")
            store.add_layer("any")
            for line in self.LINES:
                [checked] = store.run_all([f"check {line}"])
                [added] = store.run_all([f"add {line}"])
                if isinstance(added, Refused):
                    assert isinstance(checked, Refused), line
                    self.assertEqual((checked.number, checked.name), (added.number, added.name), line)
                    self.assertEqual((added.detail, bool(checked.detail)), ("", 10 <= added.number <= 17), line)
                else:
                    self.assertEqual(checked, "ok", line)

    def test_nothing_is_added_and_nothing_is_to_undo(self) -> None:
        with Store(PROGRAM) as store:
            store.add_layer("w")
            self.assertIsNone(store.check("w", "POINT (1 1)"))
            self.assertEqual(store.show("w"), [])
            store.undo()
            self.assertEqual(store.layers(), [])

    def test_the_places_of_each(self) -> None:
        answers = {
            "LINESTRING (5 5, 5 5)": "refused 10 ShortLine line 0",
            "MULTILINESTRING ((0 0, 1 1), (5 5, 5 5))": "refused 10 ShortLine line 1",
            "POLYGON ((0 0, 9 0, 9 9, 0 1))": "refused 11 OpenRing ring 0 0",
            "MULTIPOLYGON (((0 0, 9 0, 9 9, 0 0)), ((20 0, 29 0, 29 9, 20 0), (1 1, 2 2, 1 1)))": (
                "refused 12 ShortRing ring 1 1"
            ),
            "POLYGON ((0 0, 3 3, 3 0, 0 2, 0 0))": "refused 13 RingNotSimple ring 0 0 edges 0 2",
            "POLYGON ((0 0, 9 0, 9 9, 0 9, 0 0), (0 1, 5 5, 0 7, 0 1))": (
                "refused 14 RingsMeet ring 0 0 edge 3 ring 0 1 edge 2"
            ),
            "POLYGON ((0 0, 9 0, 9 9, 0 9, 0 0), (1 1, 12 5, 1 7, 1 1))": (
                "refused 15 HoleOutside ring 0 1 edge 0"
            ),
            "POLYGON ((0 0, 99 0, 99 99, 0 99, 0 0), (5 5, 50 5, 50 50, 5 5), (20 10, 40 10, 40 20, 20 10))": (
                "refused 16 HolesNested ring 0 1 ring 0 2"
            ),
            "MULTIPOLYGON (((0 0, 9 0, 9 9, 0 0)), ((5 1, 20 1, 20 2, 5 1)))": (
                "refused 17 PolygonsOverlap part 0 part 1"
            ),
        }
        with Store(PROGRAM) as store:
            store.add_layer("w")
            for text, answer in answers.items():
                refused = store.check("w", text)
                assert refused is not None, text
                self.assertEqual(refused.answer, answer)


class Places(TestCase):
    """The place of random shapes is the one that a plain search finds."""

    def compare(self, store: Store, shape: Shape) -> int:
        """The number of the refusal of a shape, or 0; its place is compared."""
        text = write_wkt(shape)
        refused, wanted = store.check("w", text), of_polygons(shape)
        found = refused and (refused.number, refused.places)
        self.assertEqual(found, wanted, text)
        self.assertEqual(str(fault_in(store, "w", shape)) == "None", wanted is None, text)
        return refused.number if refused else 0

    def shapes(self, seed: int, count: int) -> Iterator[Shape]:
        """Polygons with holes among few points, most of them with simple rings."""
        dice = random.Random(seed)

        def some_ring(size: int) -> Flat:
            x, y = dice.randrange(size), dice.randrange(size)
            width, height = dice.randrange(1, 7), dice.randrange(1, 7)
            corners = [(x, y), (x + width, y), (x + width, y + height), (x, y + height)]
            if dice.random() < 0.2:
                corners[dice.randrange(4)] = dice.randrange(size), dice.randrange(size)
            if dice.random() < 0.3:
                at = dice.randrange(4)
                corners.insert(at, corners[at])
            closed = ring(corners[:2] if dice.random() < 0.02 else corners)
            return closed if dice.random() < 0.98 else closed[:-2]

        for _ in range(count):
            size = dice.choice((6, 12, 18))
            members = []
            for _ in range(dice.choice((1, 1, 2, 3))):
                shell = ring([(-1, -1), (size, -1), (size, size), (-1, size)]) if dice.random() < 0.5 else some_ring(size)
                members.append([shell, *(some_ring(size) for _ in range(dice.choice((0, 0, 1, 2, 3))))])
            yield Shape(6, members)

    def test_random_polygons(self) -> None:
        counts = dict.fromkeys([0, *range(11, 18)], 0)
        with Store(PROGRAM) as store:
            store.add_layer("w")
            for shape in self.shapes(7, 3000):
                counts[self.compare(store, shape)] += 1
        for number, count in counts.items():
            self.assertGreater(count, 3, (number, counts))

    def test_holes_and_parts_side_by_side(self) -> None:
        """Rings that are simple, and of which few meet: the faults 14 to 17 have the later places."""
        dice, late = random.Random(11), 0
        with Store(PROGRAM) as store:
            store.add_layer("w")
            for _ in range(300):
                boxes = []
                for place in range(dice.randrange(3, 9)):
                    x, y = 10 * place, dice.randrange(3)
                    boxes.append(ring([(x, y), (x + 6, y), (x + 6, y + 6), (x, y + 6)]))
                x = 10 * dice.randrange(len(boxes) + 1) + dice.choice((1, 2, 5, 6))
                boxes.insert(dice.randrange(len(boxes) + 1), ring([(x, 3), (x + 3, 4), (x, 5)]))
                shell = ring([(-1, -1), (10 * len(boxes) - 5, -1), (10 * len(boxes) - 5, 20), (-1, 20)])
                for shape in (Shape(3, [[shell, *boxes]]), Shape(6, [[box] for box in boxes])):
                    late += self.compare(store, shape) > 13
        self.assertGreater(late, 100)


def comb(teeth: int) -> Shape:
    """A ring of thin teeth that all reach from the left to the right, and that meets itself at its end."""
    points: list[Point] = []
    for place in range(teeth):
        points += [(0, 4 * place), (1_000_000, 4 * place + 2)]
    points += [(-10, 4 * teeth), (-10, -10), (-20, 5), (0, -20)]
    return Shape(3, [[ring(points)]])


def squares(count: int) -> Shape:
    """Squares in a row, of which the last one lies in the one before."""
    members: list[list[Flat]] = []
    for place in range(count - 1):
        x = 10 * place
        members.append([ring([(x, 0), (x + 4, 0), (x + 4, 4), (x, 4)])])
    x = 10 * (count - 2)
    members.append([ring([(x + 2, 1), (x + 3, 1), (x + 3, 2), (x + 2, 2)])])
    return Shape(6, members)


def slanting(strokes: int) -> Shape:
    """A ring of long slanting edges, the box of each of which meets that of each other, with a tangle at its end."""
    points: list[Point] = []
    for place in range(strokes):
        points += [(4 * place, 0), (4 * place + 100_002, 100_000)]
    points += [(4 * strokes, 0), (4 * strokes, -10), (-10, -10), (-5, -5), (-5, -20)]
    return Shape(3, [[ring(points)]])


class Time(TestCase):
    """Large shapes, whose faults stand at their ends."""

    def timed(self, shape: Shape, seconds: float) -> str:
        with Store(PROGRAM) as store:
            store.add_layer("w")
            begun = time.monotonic()
            fault = fault_in(store, "w", shape)
            self.assertLess(time.monotonic() - begun, seconds)
        return str(fault)

    def test_a_ring_of_four_thousand_long_edges(self) -> None:
        words = "edges 4090 and 4092 of ring 0 meet at (-10 -15/2)"
        self.assertEqual(self.timed(comb(2_045), 10), words)

    def test_a_ring_of_slanting_edges(self) -> None:
        self.assertIn("edges 40", self.timed(slanting(2_040), 10))

    def test_eight_hundred_polygons(self) -> None:
        words = "members 816, which begins at (8160 0), and 817, which begins at (8162 1), have points inside both"
        self.assertEqual(self.timed(squares(818), 10), words)

    def test_eight_hundred_holes(self) -> None:
        holes = [member[0] for member in squares(816).members]
        shell = ring([(-9, -9), (9_000, -9), (9_000, 9), (-9, 9)])
        words = "ring 815, which begins at (8140 0), and ring 816, which begins at (8142 1), have points inside both"
        self.assertEqual(self.timed(Shape(3, [[shell, *holes]]), 10), words)

    def test_a_program_that_takes_too_long(self) -> None:
        slow = self.program("""
            for _ in range(2):
                line()
                say("ok\\n")
            time.sleep(100)
        """)
        begun = time.monotonic()
        self.assertIsNone(fault_of(read_wkt("POLYGON ((0 0, 10 10, 10 0, 0 10, 0 0))"), str(slow), 0.5))
        self.assertLess(time.monotonic() - begun, 20)

    def test_a_program_of_its_own(self) -> None:
        self.assertIn("meet at (5 5)", str(fault_of(read_wkt("POLYGON ((0 0, 10 10, 10 0, 0 10, 0 0))"), PROGRAM)))
        self.assertIsNone(fault_of(read_wkt("POINT (1 1)"), PROGRAM))


if __name__ == "__main__":
    unittest.main()
