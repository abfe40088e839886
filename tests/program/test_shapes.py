"""Shapes and what is told of them (shapes.txt), asked of the built program: the first faults of polygons, simple lines, changes
of single vertices, matrices of pairs with their predicates and patterns, contact, the places of points, and queries of a town."""

from __future__ import annotations

import re
import unittest
from collections.abc import Callable, Iterator
from pathlib import Path

from asking import answered

SHAPES = Path(__file__).resolve().parents[1] / "shapes.txt"

PREDICATES = ["equals", "disjoint", "intersects", "touches", "within", "contains", "crosses", "overlaps"]

# How many points are put on each edge, and how many times as far from one another the ends lie then: more edges than are
# compared in pairs. Edges over the whole grid are 75 times 13,981 long, and can be no longer.
FINE = (90, 90)
FINE_OVER_GRID = (75, 1)
# What is turned by right angles and mirrored lies in one of eight ways.
WAYS = range(8)

Point = tuple[int, int]
Ring = list[Point]


def section(title: str) -> list[list[str]]:
    """The rows below a title, each as its fields."""
    text = SHAPES.read_text(encoding="utf-8")
    [found] = [part for part in text.split("\n== ")[1:] if part.startswith(f"{title}\n") or part.startswith(f"{title}:")]
    rows = [row for row in found.splitlines()[1:] if row]
    return [[field.strip() for field in row.split("|")] for row in rows]


def why(answer: str) -> str:
    """The name of a refusal, or `ok` with nothing behind it."""
    return answer.split()[2] if answer.startswith("refused ") else "ok"


def points_of(text: str) -> Ring:
    """The points of a text such as `1 2, 3 4`."""
    return [(int(x), int(y)) for x, y in re.findall("(-?[0-9]+) (-?[0-9]+)", text)]


def text_of(points: Ring) -> str:
    return ", ".join(f"{x} {y}" for x, y in points)


def with_lists(geometry: str, change: Callable[[Ring], Ring]) -> str:
    """A geometry each of whose lists of points is changed."""
    return re.sub(r"\(([^()]+)\)", lambda found: f"({text_of(change(points_of(found[1])))})", geometry)


def turned(points: Ring, way: int) -> Ring:
    """Points turned and mirrored. The middle of the grid, between -1 and 0, stays where it is."""
    swapped = [(y, x) if way & 1 else (x, y) for x, y in points]
    return [(~x if way & 2 else x, ~y if way & 4 else y) for x, y in swapped]


def cut(points: Ring, pieces: int, scale: int) -> Ring:
    """Points so many times as far from the origin, each edge of them cut into pieces."""
    ends = [(scale * x, scale * y) for x, y in points]
    found: Ring = []
    for (x, y), (to_x, to_y) in zip(ends, ends[1:]):
        step_x, step_y = int((to_x - x) / pieces), int((to_y - y) / pieces)
        found += [(x + step * step_x, y + step * step_y) for step in range(pieces)]
    return found + ends[-1:]


def cuts_of(title: str) -> Iterator[tuple[list[str], str]]:
    """The rows of a section with each geometry that they stand for: as it is, and finely cut where the title says so."""
    fine = FINE_OVER_GRID if "grid" in title else FINE
    for row in section(title):
        yield row, row[2]
        if "also with" in title:
            yield row, with_lists(row[2], lambda points: cut(points, *fine))


def matches(pattern: str, matrix: str) -> bool:
    """Whether a matrix is as a pattern says (06-103r4, 6.1.14.2)."""
    letters = {"*": "F012", "T": "012"}
    return all(entry in letters.get(letter, letter) for letter, entry in zip(pattern, matrix))


class Shapes(unittest.TestCase):
    def test_first_faults_of_polygons(self) -> None:
        rows: list[list[str]] = []
        lines = ["layer add a multipolygon"]
        for title in [
            "polygons, also with many points on each edge",
            "polygons",
            "polygons over the whole grid, also with many points on each edge",
        ]:
            for row, geometry in cuts_of(title):
                for way in WAYS:
                    rows.append(row)
                    lines.append("check a " + with_lists(geometry, lambda points: turned(points, way)))
        for line, (fault, name, _), answer in zip(lines[1:], rows, answered(lines)[1:]):
            self.assertEqual(why(answer), "ok" if fault == "valid" else fault, f"{name}: {line[:200]}")

    def test_places_of_first_faults(self) -> None:
        rows = section("where the first fault is")
        found = answered(["layer add a any", *(f"check a {geometry}" for _, geometry in rows)])[1:]
        self.assertEqual([answer.split(" ", 2)[2] for answer in found], [told for told, _ in rows])

    def test_simple_lines(self) -> None:
        wanted: list[str] = []
        lines = ["layer add a multilinestring"]
        for title in [
            "lines, also with many points on each edge",
            "lines over the whole grid, also with many points on each edge",
        ]:
            for (told, _, _), geometry in cuts_of(title):
                lines += [f"add a {geometry}", f"simple a {len(wanted) + 1}"]
                wanted.append("true" if told == "simple" else "false")
        self.assertEqual(answered(lines)[2::2], wanted)

    def test_simple_geometries_of_other_kinds(self) -> None:
        geometries = {
            f"LINESTRING ({text_of(cut([(-(2**23), 2**23 - 1), (2**23 - 1, -(2**23))], *FINE_OVER_GRID))})": "true",
            "LINESTRING (-1073741824 1073741823, 1073741823 -1073741824)": "true",
            "MULTIPOINT ((2 1), (1 2), (1 1))": "true",
            "MULTIPOINT ((2 1), (1 2), (2 1))": "false",
            "MULTIPOLYGON (((0 0, 30 0, 30 30, 0 0), (20 10, 25 10, 25 15, 20 10)))": "true",
        }
        lines = [f"add a {geometry}" for geometry in geometries]
        asked = [f"simple a {number}" for number in range(1, len(lines) + 1)]
        self.assertEqual(answered(["layer add a any", *lines, *asked])[len(lines) + 1 :], [*geometries.values()])

    def test_short_lines(self) -> None:
        short, crossing = "((0 0, 1 1), (7 7, 7 7))", "((0 0, 4 4), (0 4, 4 0))"
        found = answered(["layer add a multilinestring", f"check a MULTILINESTRING {short}", f"check a MULTILINESTRING {crossing}"])
        self.assertEqual([why(answer) for answer in found[1:]], ["ShortLine", "ok"])


class Vertices(unittest.TestCase):
    """A change of one vertex is refused just as the changed geometry is as a whole, and else gives that geometry."""

    def test_changes_are_refused_as_the_whole_is(self) -> None:
        title = "polygons whose vertices are changed, one at a time, as far as the last one and one behind it, to each point of a square from (0, 0)"
        for side, geometry in section(title):
            with self.subTest(geometry):
                self.agree(geometry, [*changes(geometry, int(side))])

    def agree(self, geometry: str, made: list[tuple[str, str]]) -> None:
        """Compares what is answered to changes with what is answered to the geometries that come of them."""
        layer = ["layer add a any", f"add a {geometry}"]
        whole = [why(answer) for answer in answered([*layer, *(f"check a {changed}" for _, changed in made if changed)])[2:]]
        wanted = iter(whole)
        lines, answers = [*layer], ["ok", "ok 1"]
        for line, changed in made:
            fault = next(wanted) if changed else "NoVertex"
            lines.append(line)
            answers.append(fault)
            if fault == "ok":
                lines += ["get a 1", "undo"]
                answers += [f"rows 1\n1 {changed}", "ok"]
        found = [why(answer) if line.startswith("vertex") else answer for line, answer in zip(lines, answered(lines))]
        for line, answer, told in zip(lines, answers, found):
            self.assertEqual(told, answer, line)

    def test_vertices_of_one_polygon(self) -> None:
        lines = {
            "vertex move a 1 0 0 1 30 30": "RingNotSimple",
            "vertex insert a 1 0 0 5 30 30": "NoVertex",
            "vertex insert a 1 0 0 1 10 30": "RingNotSimple",
            "vertex move a 1 0 0 2 30 30": "ok",
            "vertex remove a 1 0 0 3": "ok",
            "vertex remove a 1 0 0 0": "ShortRing",
            "vertex remove a 1 0 1 0": "NoVertex",
        }
        square = "add a MULTIPOLYGON (((10 10, 20 10, 20 20, 10 20, 10 10)))"
        found = answered(["layer add a any", square, *lines, "show a"])
        self.assertEqual([why(answer) for answer in found[2:-1]], [*lines.values()])
        self.assertEqual(found[-1], "rows 1\n1 MULTIPOLYGON (((10 10, 20 10, 30 30, 10 10)))")

    def test_the_only_point_stays(self) -> None:
        changes = ["vertex remove a 1 0 0 0", "vertex insert a 1 0 0 1 5 6", "vertex remove a 1 0 0 0", "show a"]
        found = answered(["layer add a any", "add a MULTIPOINT ((3 4))", *changes])
        self.assertEqual([why(answer) for answer in found[2:5]], ["Empty", "ok", "ok"])
        self.assertEqual(found[5], "rows 1\n1 MULTIPOINT ((5 6))")


def rings_of(geometry: str) -> list[list[Ring]]:
    """The rings of each polygon, without the point that closes each."""
    return [
        [points_of(ring)[:-1] for ring in re.findall(r"\(([^()]+)\)", part)]
        for part in re.findall(r"\((?:\([^()]+\)(?:, )?)+\)", geometry)
    ]


def with_rings(geometry: str, polygons: list[list[Ring]]) -> str:
    """A geometry of the same kind with these rings, each closed."""
    parts = [f"({', '.join(f'({text_of(ring + ring[:1])})' for ring in rings)})" for rings in polygons]
    kind = geometry.split()[0]
    return f"{kind} {parts[0]}" if kind == "POLYGON" else f"{kind} ({', '.join(parts)})"


def changes(geometry: str, side: int) -> Iterator[tuple[str, str]]:
    """Changes of each vertex as lines, each with the geometry that comes of it, or nothing where there is no such vertex."""
    polygons = rings_of(geometry)
    for part, rings in enumerate(polygons):
        for place, ring in enumerate(rings):
            for index in range(len(ring) + 2):
                for line, changed in changes_of(ring, index, side):
                    rest = [*rings[:place], changed or [], *rings[place + 1 :]]
                    whole = with_rings(geometry, [*polygons[:part], rest, *polygons[part + 1 :]])
                    yield line.format(f"a 1 {part} {place} {index}"), "" if changed is None else whole


def changes_of(ring: Ring, index: int, side: int) -> Iterator[tuple[str, Ring | None]]:
    """The same of one vertex of a ring, with the ring that comes of it."""
    is_there = index < len(ring)
    for x in range(side):
        for y in range(side):
            grown = [*ring[:index], (x, y), *ring[index:]]
            yield f"vertex insert {{}} {x} {y}", grown if index <= len(ring) else None
            yield f"vertex move {{}} {x} {y}", [*ring[:index], (x, y), *ring[index + 1 :]] if is_there else None
    yield "vertex remove {}", [*ring[:index], *ring[index + 1 :]] if is_there else None


class Pairs(unittest.TestCase):
    def test_matrices_predicates_and_patterns(self) -> None:
        patterns = [row[0] for row in section("patterns that are asked of each pair")]
        for matrix, holding, first, second in section("pairs"):
            with self.subTest(matrix=matrix, first=first, second=second):
                named = [f"query a {predicate} {second}" for predicate in PREDICATES]
                matching = [f"match a {pattern} {second}" for pattern in patterns]
                found = answered(["layer add a any", f"add a {first}", f"relate a 1 {second}", *named, *matching])
                wanted = [predicate in holding.split() for predicate in PREDICATES]
                wanted += [matches(pattern, matrix) for pattern in patterns]
                self.assertEqual(found[2], matrix)
                self.assertEqual(found[3:], ["rows 1\n1" if holds else "rows 0" for holds in wanted])

    def test_places_of_points(self) -> None:
        for geometry, *places in section("places"):
            asked = [(point, entry) for entry, text in zip((0, 3, 6), places) for point in points_of(text)]
            lines = [f"relate a 1 POINT ({x} {y})" for (x, y), _ in asked]
            found = answered(["layer add a any", f"add a {geometry}", *lines])[2:]
            for (point, entry), matrix in zip(asked, found, strict=True):
                # the Point's interior is where the geometry has it, and nowhere else
                self.assertEqual([matrix[row] for row in (0, 3, 6) if row == entry], ["0"], f"{geometry}: {point}")
                self.assertEqual([matrix[row] for row in (0, 3, 6) if row != entry], ["F", "F"], f"{geometry}: {point}")


class Contact(unittest.TestCase):
    def setUp(self) -> None:
        self.geometries = [row[0] for row in section("geometries beside one another")]
        added = ["layer add a any", *(f"add a {geometry}" for geometry in self.geometries)]
        related = [f"relate a {number} {given}" for given in self.geometries for number in range(1, 1 + len(self.geometries))]
        asked = [f"query a {predicate} {given}" for given in self.geometries for predicate in ("intersects", "disjoint")]
        found = answered([*added, *related, *asked])[len(added) :]
        self.matrices, rows = found[: len(related)], found[len(related) :]
        self.meeting, self.apart = ([told.splitlines()[1:] for told in rows[place::2]] for place in (0, 1))

    def test_contact_is_that_of_the_matrices(self) -> None:
        count = len(self.geometries)
        self.assertEqual(count, 26)
        for place in range(count):
            matrices = self.matrices[count * place : count * (place + 1)]
            apart = [str(number) for number, matrix in enumerate(matrices, 1) if matches("FF*FF****", matrix)]
            meeting = [str(number) for number in range(1, count + 1) if str(number) not in apart]
            self.assertEqual((self.apart[place], self.meeting[place]), (apart, meeting), self.geometries[place])

    def test_contact_of_worked_pairs(self) -> None:
        for pair, wanted in section("contact of these geometries"):
            first, second = map(int, pair.split())
            for one, other in ((first, second), (second, first)):
                self.assertEqual(str(one) in self.meeting[other - 1], wanted == "true", pair)


# What each predicate asks of a matrix, by the dimensions of the two geometries (06-103r4, 6.1.15.3); any of the patterns.
ASKED: dict[str, Callable[[int, int], list[str]]] = {
    "equals": lambda a, b: ["T*F**FFF*"],
    "disjoint": lambda a, b: ["FF*FF****"],
    "intersects": lambda a, b: ["T********", "*T*******", "***T*****", "****T****"],
    "touches": lambda a, b: ["FT*******", "F**T*****", "F***T****"] if (a, b) != (0, 0) else [],
    "within": lambda a, b: ["T*F**F***"],
    "contains": lambda a, b: ["T*****FF*"],
    "crosses": lambda a, b: ["T*T******"] if a < b else ["T*****T**"] if a > b else ["0********"] if a == 1 else [],
    "overlaps": lambda a, b: ["1*T***T**" if a == 1 else "T*T***T**"] if a == b else [],
}
DIMENSIONS = {"POINT": 0, "MULTIPOINT": 0, "LINESTRING": 1, "MULTILINESTRING": 1, "POLYGON": 2, "MULTIPOLYGON": 2}


def is_as_asked(asked: str, first: str, second: str, matrix: str) -> bool:
    """Whether the matrix of two geometries is as a predicate or a pattern asks."""
    a, b = (DIMENSIONS[geometry.split()[0]] for geometry in (first, second))
    return any(matches(pattern, matrix) for pattern in (ASKED[asked](a, b) if asked in ASKED else [asked]))


def line_asking(asked: str, given: str) -> str:
    return f"{'query' if asked in ASKED else 'match'} a {asked} {given}"


def small_ones() -> list[str]:
    """A square, a line or two points in turn, at places in 12 rows of 12 across the town."""
    found: list[str] = []
    for number in range(144):
        x, y = number % 12 * 8 - 44, number // 12 * 8 - 44
        found.append(
            [
                f"POLYGON (({x} {y}, {x + 4} {y}, {x + 4} {y + 4}, {x} {y + 4}, {x} {y}))",
                f"LINESTRING ({x} {y}, {x + 7} {y + 3})",
                f"MULTIPOINT (({x} {y}), ({x + 3} {y + 1}))",
            ][number % 3]
        )
    return found


class Town(unittest.TestCase):
    """A geometry of many points beside many features, and beside small ones: queries find what the matrices say."""

    def setUp(self) -> None:
        [[self.town]] = section("a town")
        self.asked = [row[0] for row in section("what is asked of the town")]
        self.small = small_ones()

    def test_many_features(self) -> None:
        added = ["layer add a any", *(f"add a {geometry}" for geometry in self.small)]
        related = [f"relate a {number} {self.town}" for number in range(1, 1 + len(self.small))]
        found = answered([*added, *related, *(line_asking(asked, self.town) for asked in self.asked)])[len(added) :]
        matrices, rows = found[: len(related)], found[len(related) :]
        for asked, told in zip(self.asked, rows):
            holding = [
                str(number)
                for number, (geometry, matrix) in enumerate(zip(self.small, matrices), 1)
                if is_as_asked(asked, geometry, self.town, matrix)
            ]
            self.assertEqual(told, "\n".join([f"rows {len(holding)}", *holding]), asked)

    def test_one_feature(self) -> None:
        added = ["layer add a any", f"add a {self.town}"]
        related = [f"relate a 1 {geometry}" for geometry in self.small]
        asking = [line_asking(asked, geometry) for asked in self.asked for geometry in self.small]
        found = answered([*added, *related, *asking])[len(added) :]
        matrices, rows = found[: len(related)], found[len(related) :]
        wanted = [
            is_as_asked(asked, self.town, geometry, matrix)
            for asked in self.asked
            for geometry, matrix in zip(self.small, matrices)
        ]
        for line, told, holds in zip(asking, rows, wanted):
            self.assertEqual(told, "rows 1\n1" if holds else "rows 0", line)


if __name__ == "__main__":
    unittest.main()
