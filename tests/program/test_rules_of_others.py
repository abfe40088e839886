"""Tests of docs/use/RULES_OF_OTHERS.md: each line of it is added, kept by one map, and broken by another."""

from __future__ import annotations

import re
import subprocess
import unittest

from test_pages import DOCS, PROGRAMS

PAGE = DOCS / "use" / "RULES_OF_OTHERS.md"
LAYERS = {
    **dict.fromkeys(("parcels", "zones", "buildings"), "polygon"),
    **dict.fromkeys(("roads", "rails", "fences"), "linestring"),
    **dict.fromkeys(("wells", "marks"), "point"),
}

PLOT = "POLYGON ((0 0, 10 0, 10 10, 0 10, 0 0))"
SAME = "POLYGON ((10 0, 10 10, 0 10, 0 0, 10 0))"
BESIDE = "POLYGON ((10 0, 20 0, 20 10, 10 10, 10 0))"
ACROSS = "POLYGON ((5 0, 15 0, 15 10, 5 10, 5 0))"
INSIDE = "POLYGON ((2 2, 8 2, 8 8, 2 8, 2 2))"
IN_CORNER = "POLYGON ((0 0, 4 0, 4 4, 0 4, 0 0))"
HALF = "POLYGON ((5 0, 9 0, 9 9, 5 9, 5 0))"
AROUND = "POLYGON ((-20 -20, 40 -20, 40 40, -20 40, -20 -20), (10 0, 20 0, 20 10, 10 10, 10 0))"
OUTLINE = "LINESTRING (0 0, 10 0, 10 10, 0 10, 0 0)"
ROAD, ON, GOES_ON = "LINESTRING (0 0, 10 0)", "LINESTRING (8 0, 12 0)", "LINESTRING (10 0, 20 0)"
JOINS, CROSSES, FAR = "LINESTRING (5 0, 5 5)", "LINESTRING (2 -1, 2 1)", "LINESTRING (50 50, 60 60)"
MIDDLE, CORNER, ON_EDGE, AWAY = "POINT (5 5)", "POINT (0 0)", "POINT (5 0)", "POINT (50 50)"

# Of each line a map that keeps the rule, and edits of it that break the rule, each by itself.
CASES = {
    "rule add apart never parcels T******** parcels": (
        [f"parcels {PLOT}", f"parcels {BESIDE}"],
        [f"add parcels {ACROSS}", f"add parcels {INSIDE}", f"add parcels {SAME}", "vertex move parcels 1 0 0 1 12 0"],
    ),
    "rule add clear never parcels T******** zones": (
        [f"parcels {PLOT}", f"zones {BESIDE}", f"zones {BESIDE}"],
        [f"add zones {INSIDE}", f"add parcels {ACROSS}"],
    ),
    "rule add inside each buildings within some parcels": (
        [f"parcels {PLOT}", f"buildings {INSIDE}", f"buildings {IN_CORNER}"],
        [f"add buildings {ACROSS}", f"add buildings {BESIDE}", "delete parcels 1"],
    ),
    "rule add served each parcels contains some wells": (
        [f"wells {MIDDLE}", f"wells {AWAY}", f"parcels {PLOT}"],
        [f"add parcels {BESIDE}", f"add parcels {HALF}", "delete wells 1", "replace wells 1 POINT (10 5)"],
    ),
    "rule add fenced each parcels *****F*** some fences": (
        [f"fences {OUTLINE}", f"parcels {PLOT}"],
        [f"add parcels {BESIDE}", f"add parcels {INSIDE}", "delete fences 1"],
    ),
    "rule add bordered each parcels ***F*F*** some zones": (
        [f"zones {AROUND}", f"zones {PLOT}", f"parcels {SAME}", f"parcels {BESIDE}"],
        [f"add parcels {INSIDE}", f"add parcels {IN_CORNER}", "delete zones 1"],
    ),
    "rule add covered each parcels within some zones": (
        [f"zones {PLOT}", f"zones {BESIDE}", f"parcels {INSIDE}", f"parcels {SAME}"],
        [f"add parcels {ACROSS}", f"add parcels {AROUND}"],
    ),
    "rule add same each parcels equals some zones": (
        [f"zones {PLOT}", f"zones {BESIDE}", f"parcels {SAME}"],
        [f"add parcels {INSIDE}", "delete zones 1"],
    ),
    "rule add back each zones equals some parcels": (
        [f"zones {PLOT}", f"parcels {SAME}", f"parcels {BESIDE}"],
        [f"add zones {INSIDE}", "delete parcels 1"],
    ),
    "rule add single never roads 1******** roads": (
        [f"roads {ROAD}", f"roads {CROSSES}", f"roads {GOES_ON}", f"roads {JOINS}"],
        [f"add roads {ON}", f"add roads {ROAD}"],
    ),
    "rule add beside never roads 1******** rails": (
        [f"roads {ROAD}", f"roads {ON}", f"rails {CROSSES}"],
        [f"add rails {ON}", f"add rails {GOES_ON}"],
    ),
    "rule add noded never roads T******** roads": (
        [f"roads {ROAD}", f"roads {JOINS}", f"roads {GOES_ON}"],
        [f"add roads {CROSSES}", f"add roads {ON}"],
    ),
    "rule add crossing never roads T******** rails": (
        [f"roads {ROAD}", f"rails {JOINS}", f"rails {GOES_ON}", f"roads {ON.replace('0', '4')}"],
        [f"add rails {CROSSES}", f"add rails {ROAD}"],
    ),
    "rule add ended never roads *T******* roads": (
        [f"roads {ROAD}", f"roads {GOES_ON}", "roads LINESTRING (10 0, 10 5)"],
        [f"add roads {JOINS}", f"add roads {ON}"],
    ),
    "rule add onto never roads *T******* rails": (
        [f"roads {ROAD}", f"rails {GOES_ON}", f"rails {CROSSES}"],
        [f"add rails {JOINS}"],
    ),
    "rule add from never roads ***T***** rails": (
        [f"rails {ROAD}", f"roads {GOES_ON}", f"roads {CROSSES}"],
        [f"add roads {JOINS}"],
    ),
    "rule add along each rails within some roads": (
        ["roads LINESTRING (0 0, 10 0, 10 10)", f"roads {GOES_ON}", "rails LINESTRING (2 0, 10 0, 10 3)"],
        [f"add rails {ON}", f"add rails {FAR}", "delete roads 1"],
    ),
    "rule add limits each fences F*FF*F*** some parcels": (
        [f"parcels {PLOT}", "fences LINESTRING (0 0, 10 0, 10 5)", f"fences {OUTLINE}"],
        ["add fences LINESTRING (0 0, 10 10)", "add fences LINESTRING (0 0, 20 0)", f"add fences {FAR}"],
    ),
    "rule add kept each roads **F**F*** some zones": (
        [f"zones {PLOT}", "roads LINESTRING (1 1, 9 9)", f"roads {ROAD}", f"roads {OUTLINE}"],
        [f"add roads {ON}", f"add roads {FAR}", "delete zones 1"],
    ),
    "rule add joined each roads intersects some roads": (
        [f"roads {ROAD}", f"roads {GOES_ON}"],
        [f"add roads {FAR}", "delete roads 2"],
    ),
    "rule add marked each wells equals some marks": (
        [f"marks {MIDDLE}", f"marks {CORNER}", f"wells {MIDDLE}"],
        [f"add wells {AWAY}", "delete marks 1"],
    ),
    "rule add alone never wells intersects wells": (
        [f"wells {MIDDLE}", f"wells {CORNER}"],
        [f"add wells {CORNER}", "vertex move wells 1 0 0 0 0 0"],
    ),
    "rule add staked each marks FTF****** some parcels": (
        [f"parcels {PLOT}", f"marks {CORNER}", f"marks {ON_EDGE}"],
        [f"add marks {MIDDLE}", f"add marks {AWAY}", "delete parcels 1"],
    ),
    "rule add placed each wells within some parcels": (
        [f"parcels {PLOT}", f"wells {MIDDLE}"],
        [f"add wells {ON_EDGE}", f"add wells {AWAY}", "delete parcels 1"],
    ),
    "rule add terminal each marks FTF****** some roads": (
        [f"roads {ROAD}", f"roads {OUTLINE}", f"marks {CORNER}", "marks POINT (10 0)"],
        [f"add marks {ON_EDGE}", "add marks POINT (10 10)", "delete roads 1"],
    ),
    "rule add roadside each marks intersects some roads": (
        [f"roads {ROAD}", f"marks {ON_EDGE}", f"marks {CORNER}"],
        [f"add marks {MIDDLE}", "delete roads 1"],
    ),
    "rule add once never parcels equals parcels": (
        [f"parcels {PLOT}", f"parcels {INSIDE}"],
        [f"add parcels {SAME}"],
    ),
    "rule add nested never parcels within parcels": (
        [f"parcels {PLOT}", f"parcels {ACROSS}"],
        [f"add parcels {INSIDE}", f"add parcels {SAME}"],
    ),
    "rule add outside never roads *T******* zones": (
        [f"zones {PLOT}", "roads LINESTRING (2 2, 8 8)", f"roads {GOES_ON}"],
        ["add roads LINESTRING (5 5, 15 5)", f"add roads {ROAD}"],
    ),
    "rule add short never roads ****T**** zones": (
        [f"zones {PLOT}", "roads LINESTRING (2 2, 8 8)", "roads LINESTRING (-5 5, 15 5)"],
        ["add roads LINESTRING (20 5, 10 5)", f"add roads {JOINS}"],
    ),
    "rule add spaced never wells near 2 wells": (
        [f"wells {CORNER}", "wells POINT (2 1)", f"wells {MIDDLE}"],
        ["add wells POINT (5 3)", f"add wells {CORNER}", "vertex move wells 2 0 0 0 1 1"],
    ),
    "rule add paired each wells near 2 some marks": (
        [f"marks {MIDDLE}", f"wells {MIDDLE}", "wells POINT (5 7)", f"marks {AWAY}"],
        ["add wells POINT (6 7)", "delete marks 1", "replace marks 1 POINT (4 5)"],
    ),
    "rule add kerb each marks near 0.500 some roads": (
        # The road passes less than half a step beside the mark at (0 1).
        ["roads LINESTRING (0 0, 1 2)", f"marks {CORNER}", "marks POINT (0 1)"],
        ["add marks POINT (-1 0)", "add marks POINT (2 2)", "delete roads 1"],
    ),
    "rule add apart never roads near 2.500 rails": (
        [f"roads {ROAD}", "rails LINESTRING (0 3, 10 3)"],
        ["add rails LINESTRING (12 1, 20 1)", f"add rails {CROSSES}", "vertex move roads 1 0 0 1 10 1"],
    ),
    "rule add clear never wells near 3 buildings": (
        [f"buildings {PLOT}", "wells POINT (13 13)", "wells POINT (14 5)"],
        [f"add wells {MIDDLE}", "add wells POINT (13 5)", "vertex move buildings 1 0 0 2 11 11"],
    ),
    "rule add served each buildings near 10 some wells": (
        ["wells POINT (16 18)", f"buildings {PLOT}", f"wells {AWAY}"],
        ["delete wells 1", "replace wells 1 POINT (17 18)", "add buildings POLYGON ((-9 -9, -8 -9, -8 -8, -9 -9))"],
    ),
    "rule add together each parcels near 20 some parcels": (
        [f"parcels {PLOT}", "parcels POLYGON ((22 26, 30 26, 30 30, 22 26))"],
        ["delete parcels 2", "vertex move parcels 2 0 0 0 22 27", "add parcels POLYGON ((99 99, 100 99, 100 100, 99 99))"],
    ),
}

# The rules of a geodatabase, as its own pages name them.
NAMES = """
Must Not Overlap; Must Not Have Gaps; Must Be Covered By Feature Class Of; Must Cover Each Other; Must Be Covered By;
Must Not Overlap With; Must Be Covered By Boundary Of; Area Boundary Must Be Covered By Boundary Of; Boundary Must Be Covered By;
Contains Point; Contains One Point; Must Be Larger Than Cluster Tolerance; Must Not Intersect; Must Not Intersect With;
Must Not Have Dangles; Must Not Have Pseudo Nodes; Must Not Intersect Or Touch Interior; Must Not Intersect Or Touch Interior With;
Must Be Inside; Endpoint Must Be Covered By; Must Not Self-Overlap; Must Not Self-Intersect; Must Be Single Part; Must Coincide With;
Must Be Disjoint; Must Be Properly Inside; Must Be Covered By Endpoint Of; Point Must Be Covered By Line
"""


def answers(lines):
    """What the program answers to lines behind the layers."""
    begin = [f"layer add {name} {kind}" for name, kind in LAYERS.items()]
    sent = "".join(f"{line}\n" for line in begin + lines)
    ended = subprocess.run([PROGRAMS["sfstore"]], input=sent, check=True, capture_output=True, text=True)
    return ended.stdout.splitlines()[len(begin) :]


class RulesOfOthers(unittest.TestCase):
    def setUp(self):
        self.page = PAGE.read_text(encoding="utf-8")
        self.lines = re.findall("`(rule add [^`]+)`", self.page)

    def test_each_line_has_a_case(self):
        self.assertEqual(set(self.lines), set(CASES))

    def test_a_map_that_keeps_the_rule(self):
        for line, (features, breaking) in CASES.items():
            told = answers([*(f"add {feature}" for feature in features), line, "rules"])
            wanted = ["ok", "rows 1", line.removeprefix("rule add ")]
            self.assertEqual([answer.split(" ")[0] for answer in told[: len(features)]], ["ok"] * len(features), line)
            self.assertEqual(told[len(features) :], wanted, line)

    def test_an_edit_that_breaks_it(self):
        for line, (features, breaking) in CASES.items():
            name = line.split(" ")[2]
            for edit in breaking:
                told = answers([*(f"add {feature}" for feature in features), line, edit])
                self.assertTrue(told[-1].startswith(f"refused 37 RuleBroken {name} "), (line, edit, told[-1]))

    def test_a_map_that_does_not_keep_it(self):
        for line, (features, breaking) in CASES.items():
            name = line.split(" ")[2]
            for edit in breaking:
                told = answers([*(f"add {feature}" for feature in features), edit, line, "rules"])
                self.assertTrue(told[-3].startswith("ok"), (line, edit, told))
                self.assertTrue(told[-2].startswith(f"refused 37 RuleBroken {name} "), (line, edit, told))
                self.assertEqual(told[-1], "rows 0")

    def test_the_lines_of_one_row_go_together(self):
        for row in self.page.splitlines():
            lines = re.findall("`(rule add [^`]+)`", row)
            self.assertEqual(answers(lines), ["ok"] * len(lines), row)

    def test_each_rule_of_a_geodatabase_has_a_row(self):
        rows = [row.split("|")[1].strip() for row in self.page.splitlines() if row.startswith("| ")]
        named = {name for row in rows for name in row.split(", ")}
        for name in re.split(r";\s+", NAMES.strip()):
            self.assertIn(name, named)


if __name__ == "__main__":
    unittest.main()
