"""Speed that the pages claim and no contract states: processor time of the built program, beside work that is known.

Each claim has lines of known work and lines that ask. What the asked ones take is told as so many times what the known
ones take, so that a slow or a busy machine makes no difference, and may be ten times what it needs, or less where a claim
says so: what each test refuses takes far more than that, and the contracts let it through. Reads are counted. With SPEEDS
set each tells its figures. The program is the one that SFSTORE names, else that of the checkout.
"""

from __future__ import annotations

import math
import os
import resource
import subprocess
import sys
import tempfile
import unittest
from collections.abc import Sequence
from dataclasses import dataclass
from functools import lru_cache
from pathlib import Path

TOP = Path(__file__).resolve().parents[2]
sys.path[:0] = [str(TOP / "bench"), str(TOP / "tools")]

from programs import path_of  # noqa: E402
from questions import ROUND, WINDOW, ring  # noqa: E402
from towns import border, square, squares, street, town  # noqa: E402
from towns import points as places_in_rows  # noqa: E402

STORE = path_of("sfstore")
RUNS = 2
# A processor's seconds for one run, where a claim does not hold.
SECONDS = 300
Places = Sequence[tuple[int, int]]
APART = [(1_000 * x, 1_000 * y) for x in range(40) for y in range(40)]


@dataclass(frozen=True)
class Claim:
    """Lines of known work, lines that ask, how often the time of the former the latter take where the claim holds, the
    last line of the answers, and how much more than that they may take."""

    known: list[str]
    asked: list[str]
    needed: float
    last: bytes
    times: float = 10

    @property
    def most(self) -> float:
        """How often the time of the known work the asked lines may take."""
        return self.times * self.needed


def run(lines: Sequence[str], most: float = SECONDS) -> tuple[float, bytes]:
    """The processor seconds of a run, and the last line that it has answered; it is ended where it takes far more."""
    limit = math.ceil(most) + 1

    def limited() -> None:
        resource.setrlimit(resource.RLIMIT_CPU, (limit, limit))

    with tempfile.TemporaryFile() as source, tempfile.TemporaryFile() as sink:
        source.write("".join(f"{line}\n" for line in lines).encode())
        source.seek(0)
        child = subprocess.Popen([STORE], stdin=source, stdout=sink, preexec_fn=limited)
        _, status, usage = os.wait4(child.pid, 0)
        child.returncode = os.waitstatus_to_exitcode(status)
        if child.returncode != 0:
            raise AssertionError(f"ended with {child.returncode} after {usage.ru_utime:.1f} of {limit} processor seconds")
        sink.seek(max(0, sink.tell() - 200))
        return usage.ru_utime + usage.ru_stime, sink.read().splitlines()[-1]


@lru_cache(maxsize=2)
def known_seconds(lines: tuple[str, ...]) -> float:
    """The least processor seconds of some runs of known work."""
    return min(run(lines)[0] for _ in range(RUNS))


def ratio(claim: Claim) -> float:
    """What the asked lines take beside the known ones: the least of some runs each."""
    known = known_seconds(tuple(claim.known))
    both = []
    for _ in range(RUNS):
        seconds, last = run(claim.known + claim.asked, 2 * known * (1 + claim.most))
        if last != claim.last:
            raise AssertionError(f"{last!r} in the place of {claim.last!r}")
        both.append(seconds)
    return (min(both) - known) / known


# Points in rows, and windows with some of them.

POINTS = 100_000
ACROSS = 1_000
SPACE = 4
WINDOWS = 2_000


def points() -> list[str]:
    """A layer of points in rows."""
    return ["layer add w point", *(f"add w POINT ({k % ACROSS * SPACE} {k // ACROSS * SPACE})" for k in range(POINTS))]


def windows(layer: str, count: int) -> list[str]:
    """Questions for what meets a window of 25 points, at places all over the layer."""
    found = []
    for number in range(count):
        x, y = number * 7_919 % (ACROSS - 10) * SPACE, number * 104_729 % (POINTS // ACROSS - 10) * SPACE
        box = f"{x} {y}, {x + 17} {y}, {x + 17} {y + 17}, {x} {y + 17}, {x} {y}"
        found.append(f"query {layer} intersects POLYGON (({box}))")
    return found


# Edits that name the layer and move no box, and the name that the layer has behind them.
NAMING = {
    "layer rename w v": "v",
    "layer move w 0": "w",
    "column add w k int": "w",
    "column drop w n": "w",
    "set w 7 n 5": "w",
    "unset w 6 n": "w",
}


def windows_behind(edit: str, count: int) -> list[str]:
    """Windows behind an edit that names the layer, behind its undo and its redo."""
    behind = windows(NAMING[edit], count)
    return [edit, *behind, "undo", *windows("w", count), "redo", *behind]


# Geometries of many edges.

EDGES = 4_095


def text(kind: str, *rings: Places) -> str:
    """A geometry of a kind with rings, or with a line."""
    parts = [", ".join(f"{x} {y}" for x, y in places) for places in rings]
    return f"{kind} ({', '.join(f'({part})' for part in parts) if kind == 'POLYGON' else parts[0]})"


def several(line: Places) -> str:
    """A MultiLineString of one line: whether it is simple is decided by a walk, and not by pairs of its edges."""
    return f"MULTILINESTRING (({', '.join(f'{x} {y}' for x, y in line)}))"


def parted(line: Places) -> str:
    """A MultiLineString of a line in four parts."""
    size = len(line) // 4
    parts = [", ".join(f"{x} {y}" for x, y in line[k * size : (k + 1) * size]) for k in range(4)]
    return f"MULTILINESTRING ({', '.join(f'({part})' for part in parts)})"


def closed(places: Places) -> list[tuple[int, int]]:
    """The corners of a ring, the first one again at the end."""
    return [*places, places[0]]


def low_zigzag() -> Places:
    """The corners of a ring: a low zigzag from left to right, and two corners high above it."""
    low = [(2 * k, k % 2) for k in range(EDGES - 2)]
    return [*low, (low[-1][0], 100), (0, 100)]


def vertex_moves(count: int) -> list[str]:
    """Vertices of that zigzag moved up and down."""
    vertices = [k * 1_597 % (EDGES - 4) + 1 for k in range(count)]
    return [f"vertex move a 1 0 0 {vertex} {2 * vertex} {k % 50}" for k, vertex in enumerate(vertices)]


def high_zigzag(corners: int, turned: bool) -> list[tuple[int, int]]:
    """A line of so many corners, as high as it is wide; turned by a quarter it crosses all of the one that is not."""
    top = 100 * corners
    places = [(100 * k, k % 2 * top) for k in range(corners)]
    return [(top - y, x + 7) for x, y in places] if turned else places


TEETH = 1_000
UPRIGHT, ACROSS_IT = high_zigzag(TEETH, False), high_zigzag(TEETH, True)
# A ring and a line that cross themselves a million times.
TANGLE = [*UPRIGHT, (100 * TEETH, -100), (200 * TEETH, -100), (200 * TEETH, 200 * TEETH), *ACROSS_IT]


def areal(places: Places) -> list[tuple[int, int]]:
    """A ring between such a line and a corner or two beside it."""
    top = 100 * len(places)
    return closed([*places, (top, -100), (0, -100)])


def areal_across(places: Places) -> list[tuple[int, int]]:
    """The same of a turned one."""
    top = 100 * len(places)
    return closed([*places, (top + 100, top), (top + 100, 0)])


# A line that meets itself at its left end, is low for thousands of edges, and then goes to and fro across itself so often.
LOW, STRANDS = 3_900, 65


def fan() -> Places:
    """That line: each of its last edges crosses all others of them, so that walks over few cells have a million there."""
    low = [(20 + 2 * k, 20 + k % 2) for k in range(LOW)]
    heights = [(1_000 * k + k * k * 7 % 991, 1_000 * (STRANDS - k) + k * k * 13 % 983) for k in range(STRANDS)]
    strands = [place for left, right in heights for place in ((10_000, left), (1_000_000, right))]
    return [(0, 0), (10, 10), (10, 0), (0, 10), *low, *strands]


# A star of which two tips lie on the axes to the right and down, and an area in it that has an arm in either of these tips.
TIPS, AHEAD = 2_044, 200


def star() -> Places:
    """The star, from so many corners before its tip on the right on."""
    angles = [math.pi * (k - AHEAD) / TIPS for k in range(2 * TIPS)]
    radii = [(500_000, 250_000)[k % 2] for k in range(2 * TIPS)]
    return closed([(round(radius * math.cos(a)), round(radius * math.sin(a))) for radius, a in zip(radii, angles)])


def armed() -> Places:
    """The area in it: its arm to the right leaves the star at the end of the tip, and that down ends in its tip."""
    down = [(-2, -100_000), (-2, -450_000), (2, -450_000), (2, -100_000)]
    right = [(100_000, -2), (510_000, -2), (510_000, 2), (100_000, 2)]
    above = [(100_000 - 20_000 * k, 100_000) for k in range(11)]
    return closed([*down, (100_000, -100_000), *right, *above, (-100_000, -100_000)])


def level_edge() -> Places:
    """The corners of an area with thousands of edges on one line at the bottom, and a slanted side to its right at first."""
    return closed([(EDGES - 4, 0), (EDGES + 1_000, 1_000), (0, 1_000), *((k, 0) for k in range(EDGES - 4))])


def across_it() -> Places:
    """The corners of an area across both of its sides, with one edge on that line, right of it."""
    above = [(5_000 - 10 * k, 600) for k in range(12)]
    return closed([(5_000, 0), (5_010, 0), (5_010, 600), *above, (-10, 600), (-10, 500), (5_000, 500)])


# Two squares that share an edge, left of all these, and a ring round all.
PAIR = [closed([(x, 0), (x + 100, 0), (x + 100, 100), (x, 100)]) for x in (-300, -200)]
AROUND = closed([(-400, -400), (400 * TEETH, -400), (400 * TEETH, 400 * TEETH), (-400, 400 * TEETH)])

RINGS = 200
RING_EDGES = 512


def rings_apart() -> list[str]:
    """Lines that add rings of 24 edges round places that are far from one another."""
    return ["layer add a polygon", *(f"add a {ring(24, x, y, (90, 80))}" for x, y in APART)]


def rings() -> list[str]:
    """Rings beside one another, each of which crosses the border of a window."""
    return ["layer add a polygon", *(f"add a {ring(RING_EDGES, k * 1000, 0, (400, 400))}" for k in range(RINGS))]


# How many squares a town has inside, four in five, and how many are looked at on its border.
IN_TOWN = 10_000


def border_squares(kind: str) -> list[str]:
    """Small squares on the border of a town; behind them the town itself, ten times, in another layer."""
    lines = [square(x - 3, y - 4) for x, y in border(IN_TOWN, False)[::5]]
    if kind == "multipolygon":
        lines = [line.replace("POLYGON ((", "MULTIPOLYGON (((").replace("))", ")))") for line in lines]
    return [f"layer add a {kind}", *lines, "layer add b polygon", *[f"add b {town(IN_TOWN, False)}"] * 10]


def round_ring(count: int, is_twisted: bool) -> str:
    """A round ring of so many edges; of a twisted one two of the last edges cross."""
    turns = [2 * math.pi * k / count for k in range(count)]
    places = [(round(1_000_000 * math.cos(turn)), round(1_000_000 * math.sin(turn))) for turn in turns]
    if is_twisted:
        places[-3], places[-2] = places[-2], places[-3]
    return "POLYGON ((" + ", ".join(f"{x} {y}" for x, y in [*places, places[0]]) + "))"


def slanted_lines(count: int, higher: int) -> str:
    """So many lines side by side, whose boxes all meet, so much higher."""
    lines = (f"(-500000 {97 * k + higher - 200_000}, 500000 {97 * k + higher})" for k in range(count))
    return f"MULTILINESTRING ({', '.join(lines)})"


class Speeds(unittest.TestCase):
    def check(self, claim: Claim) -> None:
        found = ratio(claim)
        if os.environ.get("SPEEDS"):
            print(f"{self.id().rpartition('.')[2]}: {found:.3f}, at most {claim.most:.2f}", file=sys.stderr)
        self.assertLess(found, claim.most)

    def test_windows_look_at_the_index(self) -> None:
        """Refuses a pass over all features, a layer whose index is never used, a search that visits each node."""
        self.check(Claim(points(), windows("w", WINDOWS) + ["layers"], 0.13, b"w point"))

    def test_edits_that_move_no_box_keep_the_index(self) -> None:
        """Refuses a `layer rename` that loses it, among others."""
        known = [*points(), "column add w n int", "set w 6 n 1"]
        for edit, name in NAMING.items():
            with self.subTest(edit):
                self.check(Claim(known, [*windows_behind(edit, 600), "layers"], 0.13, f"{name} point".encode()))

    def test_a_box_that_moves_is_moved_in_the_index(self) -> None:
        """Refuses an index that is lost at each move, and built anew by the same edit."""
        moves = [f"vertex move w {k * 37 % POINTS + 1} 0 0 0 {k} {k}" for k in range(2_000)]
        self.check(Claim(points(), [*moves, "layers"], 0.1, b"w point"))

    def test_a_group_costs_what_its_members_do(self) -> None:
        """Refuses groups whose members cost more the more there are."""
        known = points()
        group = [f"together {len(known) - 1}", *(line.replace("add w", "add v") for line in known[1:])]
        self.check(Claim(known, ["layer add v point", *group, "undo", "layers"], 1.2, b"v point", 4))

    def test_a_group_looks_at_the_features_that_it_names(self) -> None:
        """Refuses groups that copy or go through their layers."""
        groups = [f"together 3\rvertex move w {k} 0 0 0 1 {k}\radd w POINT ({k} 1)\rdelete w last" for k in range(1, 1_001)]
        self.check(Claim(points(), [*groups, *["undo"] * 1_000, "layers"], 0.1, b"w point"))

    def test_a_vertex_change_looks_at_its_new_edges(self) -> None:
        """Refuses changes that find the whole geometry valid anew."""
        whole = f"add a {text('POLYGON', closed(low_zigzag()))}"
        self.check(Claim(["layer add a polygon", *[whole] * 100], [*vertex_moves(1_000), "box a 1"], 1.0, b"0 0 8184 100", 3))

    def test_a_sweep_hands_out_what_changes(self) -> None:
        """Refuses walks over all cells: those of a star within another are thousands of times their edges."""
        star, within = ring(EDGES, 0, 0, (500_000, 250_000)), ring(EDGES, 0, 0, (450_000, 200_000))
        known = ["layer add a polygon", *[f"add a {star}"] * 20]
        self.check(Claim(known, [f"relate a 1 {within}"] * 10, 4.0, b"212FF1FF2", 2.5))

    def test_walks_of_questions_end_early(self) -> None:
        """Refuses a sink of questions that is never full: two lines cross a million times, and the first tells. One of them goes
        to and fro, so that no edge has a crossing alone."""
        lines = [f"add a {text('LINESTRING', UPRIGHT)}"] * 20
        given = text("LINESTRING", [*ACROSS_IT, *reversed(ACROSS_IT[:-1])])
        asks = ["query a intersects", "query a disjoint", "query a touches", "match a T********", "query a within"]
        self.check(Claim(["layer add a linestring", *lines], [f"{ask} {given}" for ask in asks], 20.0, b"rows 0"))

    def test_rings_that_meet_themselves_are_told_early(self) -> None:
        """Refuses a ring's search or walk that goes on to the end: it crosses itself a million times, and the first tells."""
        known = [f"add a {text('POLYGON', areal(UPRIGHT))}"] * 20
        self.check(Claim(["layer add a polygon", *known], [f"add a {text('POLYGON', closed(TANGLE))}"] * 5, 1.0, b"refused 13 RingNotSimple"))

    def test_walks_of_simplicity_end_early(self) -> None:
        """Refuses walks that are never full: lines cross themselves a million times, and the first tells."""
        known = [f"add a {several(TANGLE)}"] * 20
        self.check(Claim(["layer add a multilinestring", *known], [f"simple a {k}" for k in range(1, 6)], 1.0, b"false"))

    def test_walks_of_rings_end_early(self) -> None:
        """Refuses walks of holes and of polygons that are never full: two small ones share an edge, far to the left of
        two large ones that cross a million times."""
        parts = [*PAIR, areal(UPRIGHT), areal_across(ACROSS_IT)]
        known = [f"add a {text('POLYGON', part)}" for part in parts] * 10
        rings = [", ".join(f"{x} {y}" for x, y in part) for part in parts]
        asked = [f"add a MULTIPOLYGON ({', '.join(f'(({each}))' for each in rings)})", f"add a {text('POLYGON', AROUND, *parts)}"]
        self.check(Claim(["layer add a any", *known], asked, 1.0, b"refused 14 RingsMeet"))

    def test_areas_that_cross_are_not_walked_to_the_end(self) -> None:
        """Refuses walks over a million crossings where two edges tell."""
        upright, across = areal(UPRIGHT), areal_across(ACROSS_IT)
        asked = [f"relate a 1 {text('POLYGON', across)}"] * 20
        self.check(Claim(["layer add a polygon", *[f"add a {text('POLYGON', upright)}"] * 20], asked, 1.3, b"212101212"))

    def test_walks_over_few_cells_end_early(self) -> None:
        """Refuses walks over cells that are few at most places, and never end: the first edges tell."""
        known = [f"add a {several(fan())}"] * 20
        self.check(Claim(["layer add a multilinestring", *known], [f"simple a {k}" for k in range(1, 21)], 1.9, b"false", 5))

    def test_smooth_lines_are_walked(self) -> None:
        """Refuses sweeps of lines that have few edges over each place: walks over their cells are quicker."""
        corners = closed([(round(1e6 * math.cos(a)), round(1e6 * math.sin(a))) for a in (math.tau * k / 4_000 for k in range(4_000))])
        points = text("MULTIPOINT", corners[:-1])
        known = [*[f"add a {points}"] * 100, f"add a {several(corners)}"]
        self.check(Claim(["layer add a any", *known], ["simple a 101"] * 100, 3.8, b"true", 1.6))

    def test_crossing_edges_spare_a_walk(self) -> None:
        """Refuses walks over a star where two edges cross, and a search that is given up before it comes to them."""
        known = [f"add a {text('POLYGON', star())}"] * 10
        asked = [f"relate a 1 {text('POLYGON', armed())}"] * 200
        self.check(Claim(["layer add a polygon", *known], asked, 1.0, b"212101212", 6))

    def test_stars_with_edges_that_cross_are_told_to_overlap(self) -> None:
        """Refuses walks over stars, and over what their edges cross, where these are asked whether they overlap: they are so few
        that nothing is prepared, or so many that something is."""
        for count in (5, 20):
            with self.subTest(count):
                known = [f"add a {text('POLYGON', star())}"] * count
                asked = [f"query a overlaps {text('POLYGON', armed())}"] * 20
                self.check(Claim(["layer add a polygon", *known], asked, 1.0, str(count).encode(), 6))

    def test_lines_that_cross_take_no_walk(self) -> None:
        """Refuses walks over a million crossings of two lines, or of a line and an area: edges that cross, ends, and edges along
        one another tell the matrix."""
        line, area = text("LINESTRING", ACROSS_IT), text("POLYGON", areal_across(ACROSS_IT))
        known = [f"add a {text('LINESTRING', UPRIGHT)}"] * 20
        asked = {
            "a line": ([f"relate a 1 {line}", f"query a crosses {line}", f"query a overlaps {line}"], 12.0, b"rows 0"),
            "an area": ([f"query a crosses {area}", f"query a within {area}", f"relate a 1 {area}"], 9.0, b"101FF0212"),
        }
        for name, (lines, needed, last) in asked.items():
            with self.subTest(name):
                self.check(Claim(["layer add a linestring", *known], lines * 5, needed, last))

    def test_short_lines_that_cross_take_no_walk(self) -> None:
        """The same of lines that have too few points to be sorted: edges that cross are all that spares a walk."""
        upright, across = (text("LINESTRING", high_zigzag(20, turned)) for turned in (False, True))
        known = ["layer add a linestring", *[f"add a {upright}"] * 1_000]
        self.check(Claim(known, [f"query a crosses {across}", f"query a overlaps {across}"], 2.0, b"rows 0"))

    def test_several_lines_that_cross_take_no_walk(self) -> None:
        """Refuses walks over a million crossings of several lines: their ends tell where the boundary lies."""
        known = [f"add a {parted(UPRIGHT)}"] * 20
        lines = [f"relate a 1 {parted(ACROSS_IT)}", f"query a crosses {parted(ACROSS_IT)}"]
        self.check(Claim(["layer add a multilinestring", *known], lines * 5, 12.0, b"20"))

    def test_a_point_on_a_line_takes_no_walk(self) -> None:
        """Refuses walks over a line that crosses itself a million times, for the matrix with a point on it or off it."""
        known = [f"add a {text('LINESTRING', TANGLE)}"] * 20
        asked = [f"relate a {k} POINT ({TANGLE[0][0]} {TANGLE[0][1]})" for k in range(1, 21)] * 10
        self.check(Claim(["layer add a linestring", *known], [*asked, "layers"], 0.3, b"a linestring"))

    def test_lines_that_lie_in_another_take_no_walk(self) -> None:
        """Refuses walks over a line that crosses itself a million times: with a part of it, with one that differs in an edge,
        and with points on it. And a walk over a star for a line that runs along half of its border."""
        half, nearly = TANGLE[: len(TANGLE) * 3 // 4], [*TANGLE[:-1], (1, 1)]
        points = f"MULTIPOINT ({', '.join(f'{x} {y}' for x, y in TANGLE[::2])})"
        border = star()
        lines = ["layer add a linestring", *[f"add a {text('LINESTRING', TANGLE)}"] * 20]
        areas = ["layer add a polygon", *[f"add a {text('POLYGON', border)}"] * 20]
        asked = {
            "a part": (lines, [f"relate a {k} {text('LINESTRING', half)}" for k in range(1, 21)], 24.0, 10.0),
            "contains": (lines, [f"query a contains {text('LINESTRING', half)}"], 23.0, 10.0),
            "nearly": (lines, [f"relate a {k} {text('LINESTRING', nearly)}" for k in range(1, 21)], 40.0, 10.0),
            "points": (lines, [f"relate a {k} {points}" for k in range(1, 21)], 1.7, 10.0),
            "along": (areas, [f"relate a {k} {text('LINESTRING', border[:2_000])}" for k in range(1, 21)], 0.4, 4.0),
        }
        for name, (known, questions, needed, times) in asked.items():
            with self.subTest(name):
                last = known[0].removeprefix("layer add ").encode()
                self.check(Claim(known, [*questions, "layers"], needed, last, times))

    def test_large_geometries_beside_one_another_take_no_walk(self) -> None:
        """Refuses walks of two large geometries whose boxes meet and which share no point, or of which one lies in the other. So few
        are asked about that nothing is prepared for all of them."""
        known = [f"add a {ring(4_000, 0, 0, (9_000, 8_990))}"] * 7
        beside, within = ring(40, 8_500, 8_500, (90, 80)), ring(40, 0, 0, (90, 80))
        asked = {
            # That no edges meet is known in less than half of the time in which one of the two is prepared for the other.
            "contact beside": ([f"query a intersects {beside}"], 1.6, 1.8),
            "touch beside": ([f"query a touches {beside}"], 1.6, 1.8),
            "matrix beside": ([f"relate a {k} {beside}" for k in range(1, 8)], 3.0, 10),
            "matrix within": ([f"relate a {k} {within}" for k in range(1, 8)], 3.0, 10),
        }
        for name, (lines, needed, times) in asked.items():
            with self.subTest(name):
                self.check(Claim(["layer add a polygon", *known], [*lines * 40, "layers"], needed, b"a polygon", times))

    def test_runs_are_tried_with_those_that_they_reach(self) -> None:
        """Refuses a search for edges along one another that tries all pairs of thousands on one line."""
        known = [f"add a {text('POLYGON', level_edge())}"] * 20
        asked = [f"relate a 1 {text('POLYGON', across_it())}"] * 50
        self.check(Claim(["layer add a polygon", *known], asked, 1.5, b"212101212", 5))

    def test_lines_beside_many_others_are_told_by_their_edges(self) -> None:
        """Refuses a look for the end of each line in all others, and a walk, where no edges share a point."""
        known = [f"add a {slanted_lines(1_000, 0)}"] * 20
        asked = [f"relate a 1 {slanted_lines(1_000, 40)}"] * 10
        self.check(Claim(["layer add a multilinestring", *known], asked, 3.0, b"FF1FF0102", 4))

    def test_where_a_ring_meets_itself_is_told_by_boxes(self) -> None:
        """Refuses a look at all pairs of its edges."""
        known = [f"add a {round_ring(4_000, False)}"] * 20
        asked = [*[f"check a {round_ring(4_000, True)}"] * 20, "layers"]
        self.check(Claim(["layer add a polygon", *known], asked, 1.0, b"a polygon", 5))

    def test_boxes_that_are_apart_are_not_walked(self) -> None:
        """Refuses walks over all edges where the boxes tell the matrix."""
        apart = [f"relate a 1 POLYGON ((-9 -900, -2 -900, -2 -800, -9 -{k}, -9 -900))" for k in range(300, 800)]
        known = [f"add a {text('POLYGON', areal(UPRIGHT))}"] * 20
        self.check(Claim(["layer add a polygon", *known], apart, 0.25, b"FF2FF1212"))

    def test_rings_across_a_window_are_told_without_a_walk(self) -> None:
        """Refuses walks where two edges that cross tell, or a point of a ring within."""
        predicates = ("overlaps", "within", "touches")
        asked = {
            "across": ([f"query a {predicate} {WINDOW}" for predicate in predicates] * 10, 1.4),
            "within": ([f"query a {predicate} {ROUND}" for predicate in predicates] * 10, 0.2),
            "matrices": ([f"relate a {k} {WINDOW}" for k in range(1, RINGS + 1)] * 40, 1.5),
        }
        for name, (lines, needed) in asked.items():
            with self.subTest(name):
                self.check(Claim(rings(), [*lines, "layers"], needed, b"a polygon"))

    def test_a_square_within_a_ring_is_told_by_the_edges_nearby(self) -> None:
        """Refuses walks over all edges of a ring for a square within it, whichever of the two is given: none of them is near."""
        places = [1_000 * k for k in range(RINGS)]
        squares_within = [text("POLYGON", closed([(x - 5, -5), (x + 5, -5), (x + 5, 5), (x - 5, 5)])) for x in places]
        asked = [f"relate a {k} {square_within}" for k, square_within in enumerate(squares_within, 1)] * 20
        self.check(Claim(rings(), asked, 1.3, b"212FF1FF2"))
        town = ring(EDGES, 0, 0, (500_000, 500_000))
        known = ["layer add a polygon", f"add a {squares_within[0]}", "layer add b polygon", *[f"add b {town}"] * 20]
        asked = [line for line in (f"relate a 1 {town}", f"query a within {town}") for _ in range(20)]
        self.check(Claim(known, asked, 2.5, b"1", 2))

    def test_parcels_side_by_side_are_told_without_a_walk(self) -> None:
        """Refuses walks over parcels that share a border, where a line between them tells that no interiors meet."""
        slanted = [((10 * x + 3 * y, 10 * y), (10 * x + 3 * y + 10, 10 * y), (10 * x + 3 * y + 13, 10 * y + 10), (10 * x + 3 * y + 3, 10 * y + 10))
                   for x in range(80) for y in range(80)]
        known = [f"add a {text('POLYGON', closed(list(each)))}" for each in slanted]
        asked = [f"rule add {name} never a T******** a" for name in ("r", "s", "t")]
        self.check(Claim(["layer add a polygon", *known], asked, 2, b"ok", 2.5))

    def test_what_can_not_be_is_answered_at_once(self) -> None:
        """Refuses evidence, and walks, on whether areas overlap a line: by their kinds no area and line do."""
        line = [(1_000 * (k // 100), 990 * (k % 100 if k // 100 % 2 == 0 else 99 - k % 100) // 2) for k in range(4_000)]
        asked = [f"query a overlaps {text('LINESTRING', line)}"] * 8
        self.check(Claim(rings_apart(), [*asked, "layers"], 0.5, b"a polygon"))

    def test_geometries_written_alike_are_known_without_a_walk(self) -> None:
        """Refuses walks of rings with rings that are written alike, as a map that is brought in twice has them."""
        asked = [f"query a overlaps {ring(24, x, y, (90, 80))}" for x, y in APART]
        self.check(Claim(rings_apart(), [*asked, "layers"], 1, b"a polygon", 2.5))

    def test_a_layer_is_asked_about_itself_in_pairs(self) -> None:
        """Refuses a rule of a layer with itself that asks for each pair from either side: for rings whose boxes meet, and which are
        apart, each ask looks at the edges of both."""
        places = [(300 * x + 150 * (y % 2), 130 * y) for x in range(100) for y in range(100)]
        known = [f"add a {ring(24, x, y, (90, 80))}" for x, y in places]
        rules = [f"rule add r{k} never a T******** a" for k in range(8)]
        self.check(Claim(["layer add a polygon", *known], rules, 8, b"ok", 1.65))

    def test_a_given_point_is_placed_without_a_walk(self) -> None:
        """Refuses walks of rings with a point that is given: its place in each tells."""
        asked = [f"query a contains POINT ({x} {y})" for x, y in APART] * 3
        self.check(Claim(rings_apart(), [*asked, "layers"], 1, b"a polygon", 2.5))

    def test_a_large_geometry_is_prepared(self) -> None:
        """Refuses walks over all edges of a town for each square on its border, where those nearby tell."""
        for kind in ("polygon", "multipolygon"):
            with self.subTest(kind):
                asked = [f"query a {predicate} {town(IN_TOWN, False)}" for predicate in ("overlaps", "within", "intersects")]
                self.check(Claim(border_squares(kind), [*asked, "layers"], 2.0, b"b polygon"))

    def test_what_is_clear_of_a_large_geometry_is_told_by_a_point(self) -> None:
        """Refuses walks for each of many squares within a town, or off its border and off a street, and passes over all edges of
        these for each of them."""
        for given, needed in ((town(IN_TOWN, False), 1.8), (street(IN_TOWN), 20.0)):
            with self.subTest(given[:7]):
                asked = [f"query a {predicate} {given}" for predicate in ("within", "crosses", "touches")] * 2
                self.check(Claim(["layer add a polygon", *squares(IN_TOWN)], [*asked, "layers"], needed, b"a polygon", 3))

    def test_what_is_between_slanted_edges_is_told_by_its_box(self) -> None:
        """Refuses walks for what is in the boxes of a line's edges and off the edges."""
        line = high_zigzag(4_096, False)
        between = [f"add a {ring(20, 100 * k, 200_000, (30, 30))}" for k in range(1, 2_001)]
        asked = [f"query a {predicate} {text('LINESTRING', line)}" for predicate in ("crosses", "within", "touches")]
        self.check(Claim(["layer add a polygon", *between], [*asked, "layers"], 0.4, b"a polygon"))

    def test_the_place_of_a_point_is_told_by_edges_above_it(self) -> None:
        """Refuses a pass over all edges of a town for each of many points."""
        asked = [f"query a within {town(IN_TOWN, False)}"] * 3
        self.check(Claim(["layer add a point", *places_in_rows(IN_TOWN)], [*asked, "layers"], 1.1, b"a point", 4))

    def test_a_small_geometry_beside_a_large_one_is_not_walked(self) -> None:
        """Refuses walks over all edges of a line for a pattern, where those of a small geometry show no contact."""
        known = [f"add a {text('LINESTRING', high_zigzag(4_096, True))}"] * 20
        asked = ["match a FF*FF**** POLYGON ((200000 320, 200010 320, 200010 330, 200000 330, 200000 320))"] * 20
        self.check(Claim(["layer add a linestring", *known], asked, 1.0, b"20"))


class Reads(unittest.TestCase):
    def test_reads_are_large(self) -> None:
        """Refuses reads of some bytes: whoever shares the file sees how much was read before the first answer."""
        with tempfile.TemporaryFile() as source:
            source.write(b"undo\n" * 100_000)
            source.seek(0)
            child = subprocess.Popen([STORE], stdin=source, stdout=subprocess.PIPE)
            assert child.stdout is not None
            with child.stdout as sink:
                first = sink.read(1)
                read = os.lseek(source.fileno(), 0, os.SEEK_CUR)
                sink.read()
            self.assertEqual((first, child.wait()), (b"r", 0))
        self.assertGreaterEqual(read, 65_536)


if __name__ == "__main__":
    unittest.main()
