"""Tests of the tutorial and the how-to pages: what each shows is carried out, and its answers are compared."""

from __future__ import annotations

import os
import re
import subprocess
import sys
import tempfile
import unittest
from importlib.util import find_spec
from itertools import takewhile
from pathlib import Path

sys.path.insert(0, str(Path(__file__).resolve().parents[1]))

import tool_pictures  # noqa: E402
from shown import TOP, Shown  # noqa: E402

sys.path[:0] = [str(TOP / "python"), str(TOP / "tools")]

from programs import path_of  # noqa: E402
from sfstore import language, refusals  # noqa: E402
from sfstore.replica import servers  # noqa: E402

DOCS = TOP / "docs"
PROGRAMS = {
    "sfstore": path_of("sfstore"),
    "sfmap": path_of("sfmap"),
}
COMMANDS = {
    "sfstore-import": "sfstore.exchange.importing",
    "sfstore-export": "sfstore.exchange.exporting",
    "sfstore-replica": "sfstore.replica.command",
}
COMMAND = '#!/bin/sh\nexec {python} -m {module} "$@"\n'


class PageCase(unittest.TestCase):
    """A folder in which a page is carried out, with the programs on the path."""

    maxDiff = None

    def setUp(self):
        folder = tempfile.TemporaryDirectory()
        self.addCleanup(folder.cleanup)
        self.folder = Path(folder.name)
        programs = self.folder / "bin"
        programs.mkdir()
        for name, program in PROGRAMS.items():
            (programs / name).symlink_to(program)
        for name, module in COMMANDS.items():
            (programs / name).write_text(COMMAND.format(python=sys.executable, module=module))
            (programs / name).chmod(0o755)
        self.environment = {
            **os.environ,
            "HOME": str(self.folder),
            "LINES": "50",
            "PATH": f"{programs}{os.pathsep}{os.environ['PATH']}",
            "PYTHONPATH": str(TOP / "python"),
        }
        self.room = self.folder / "room"
        self.room.mkdir()

    def compare(self, page):
        """Carries out what a page shows."""
        pairs = Shown(self.room, self.environment).compare((DOCS / page).read_text(encoding="utf-8"))
        self.assertTrue(pairs, page)
        for shown, here in pairs:
            self.assertEqual(shown, here, page)


@unittest.skipUnless(find_spec("osgeo"), "no GDAL for Python (python3-gdal)")
class Learned(PageCase):
    def test_the_tutorial(self):
        self.compare("learn/TUTORIAL.md")
        # The pictures that it shows are those that it makes.
        for name in ("town.svg", "corner.svg"):
            self.assertEqual((DOCS / "learn" / name).read_text(), (self.room / "tour" / name).read_text(), name)

    def test_the_readme(self):
        self.compare("../README.md")
        self.assertLessEqual(len((TOP / "README.md").read_text().splitlines()), 120)

    def test_the_map_of_the_tutorial_is_the_town_of_the_examples(self):
        made, brought_in = self.room / "made.sfs", self.room / "brought_in.sfs"
        lines = (TOP / "examples" / "town.txt").read_bytes()
        subprocess.run([PROGRAMS["sfstore"], "--save", made], input=lines, check=True, stdout=subprocess.DEVNULL)
        command = f"sfstore-import {TOP}/examples/town.gpkg {brought_in} --grid 500000 5600000 0.1"
        command += " --layer parcels --layer streets --layer wells"
        subprocess.run(["bash", "-c", command], env=self.environment, check=True, stdout=subprocess.DEVNULL)
        self.assertEqual(brought_in.read_bytes(), made.read_bytes())

    def test_how_to_choose_a_grid(self):
        self.compare("use/CHOOSE_A_GRID.md")

    def test_how_to_split_a_parcel(self):
        self.compare("use/SPLIT_A_PARCEL.md")

    def test_how_to_merge_parcels(self):
        self.compare("use/MERGE_PARCELS.md")

    def test_how_to_move_a_border(self):
        self.compare("use/MOVE_A_BORDER.md")

    def test_how_to_cut_a_hole(self):
        self.compare("use/CUT_A_HOLE.md")

    def test_how_to_snap_what_is_near(self):
        self.compare("use/SNAP_WHAT_IS_NEAR.md")

    def test_how_to_clean_a_coverage(self):
        self.compare("use/CLEAN_A_COVERAGE.md")

    def test_the_pictures_of_the_tools_are_what_the_tools_make(self):
        for picture in tool_pictures.PICTURES:
            path = DOCS / "use" / f"tool-{picture.name}.svg"
            self.assertEqual(path.read_text(), tool_pictures.drawn(picture), "run tests/tool_pictures.py --write")

    def test_how_to_find_shared_borders(self):
        self.compare("use/SHARED_BORDERS.md")

    def test_how_to_find_what_is_near(self):
        self.compare("use/FIND_WHAT_IS_NEAR.md")

    def test_how_to_take_back_an_edit(self):
        self.compare("use/TAKE_BACK_AN_EDIT.md")

    def test_how_to_recover(self):
        self.compare("use/RECOVER.md")

    def test_how_to_follow_a_network(self):
        self.compare("use/FOLLOW_A_NETWORK.md")

    @unittest.skipUnless(find_spec("geopandas"), "no geopandas (python3-geopandas)")
    def test_how_to_use_geopandas(self):
        self.compare("use/GEOPANDAS.md")


# Lines with two faults or more, each with the refusal that comes first.
FIRST = """\
match nosuch T POINT (1.5 2): 32
query nosuch near 1 POINT (1: 2
query nosuch near 1e3 POINT (1: 31
query nosuch foo POINT (1.5 2): 31
match nosuch TTTTTTTTT POINT (1.5 2): 3
query nosuch contains LINESTRING (1 1, 1 1): 10
distance nosuch 1 LINESTRING (1 1, 1 1): 10
distance nosuch 1 POINT (1 1): 18
nearest nosuch 0 POINT (1: 31
nearest nosuch 1 POINT (1: 2
nearest nosuch 1 LINESTRING (1 1, 1 1): 10
nearest nosuch 1 POINT (1 1): 18
reach nosuch T x: 31
reach nosuch T 1: 32
reach nosuch touches 1: 18
reach nosuch touches 1 until nosuch T: 32
reach p touches 999 until nosuch touches: 18
reach p touches 999: 21
relate nosuch 1 LINESTRING (1 1, 1 1): 10
add nosuch POINT (1.5 1): 3
add nosuch LINESTRING (1 1, 1 1): 18
check nosuch POINT (1.5 1): 3
check nosuch LINESTRING (1 1, 1 1): 18
check p LINESTRING (1 1, 1 1): 26
addhex nosuch 0x: 2
addhex nosuch 01: 7
add p LINESTRING (1 1, 1 1): 26
add p POLYGON ((0 0, 4 4, 4 0, 0 4, 1 0)): 11
add p POLYGON ((0 0, 4 4, 4 0, 0 4, 0 0), (0 0, 1 1, 1 0)): 13
replace p 2 LINESTRING (1 1, 1 1): 21
replace p 1 LINESTRING (1 1, 1 1): 26
replace q 2 POINT (1.5 1): 3
vertex move q 1 0 0 1 1.5 2: 3
vertex move q 1 0 0 1 x 2: 31
vertex move q 2 0 0 9 1 2: 18
vertex move p 2 0 0 9 1 2: 21
vertex move p 1 0 0 9 -5 99: 25
vertex move p 1 0 0 2 5 -5: 13
layer add 1 polygon: 20
layer add p polygon: 19
layer rename q 1: 18
layer rename p 1: 20
layer rename p p: 19
layer move q 9: 18
layer move p 9: 35
column add q 1 int: 18
column add p 1 int: 20
column add p c int: 23
column drop q d: 18
column drop p d: 22
set q 2 d 'x': 18
set p 2 d 'x': 21
set p 1 d 'x': 22
set p 1 c 'x': 24
set p 1 c x: 31
find q d 'x': 18
find p d 'x': 22
find p c 'x': 24
unset q 2 d: 18
unset p 2 d: 21
unset p 1 d: 22
get q 2: 18
get p 1 2: 21
delete q 2: 18
delete p 2: 21
simple q 2: 18
area q 2: 18
length p 1 2: 21
rule add 1 never q TTT q: 32
rule add 1 never q equals q: 20
rule add a never q equals q: 18
rule drop a: 39
@2 undo: 36
@2 redo: 30
"""


class Referred(PageCase):
    """The pages in which commands, refusals and limits are looked up."""

    def setUp(self):
        super().setUp()
        self.console = (DOCS / "use" / "CONSOLE.md").read_text(encoding="utf-8")
        self.commands = self.console.partition("## Commands")[2].partition("**Before all of these**")[0]
        self.refusals = (DOCS / "use" / "REFUSALS.md").read_text(encoding="utf-8")
        rows = re.findall(r"^\| (\d+) \| (\w+) \| (.*) \| ([^|]*) \|$", self.refusals, re.MULTILINE)
        self.rows = {int(number): (name, cause, cure) for number, name, cause, cure in rows}

    def test_each_command_has_a_row(self):
        forms = re.findall(r"^\| `([^`]*)`", self.commands, re.MULTILINE)
        for command in language.COMMANDS:
            words = list(takewhile(lambda word: not word.isupper(), command.usage.split(" ")))
            self.assertTrue([form for form in forms if form.split(" ")[: len(words)] == words], command.usage)

    def test_refusals_have_their_names(self):
        named = re.findall(r"\b(\d+) ([A-Z]\w+)", self.commands)
        self.assertGreater(len(named), 60)
        for number, name in named:
            self.assertEqual(self.rows[int(number)][0], name)

    def test_refusals_have_their_cures(self):
        for number, words in refusals.REFUSALS.items():
            self.assertEqual(self.rows[number][2], words.help)
        self.assertEqual(set(self.rows) - set(refusals.REFUSALS), {34})

    def test_the_program_has_the_names(self):
        source = (TOP / "crates" / "sf_refusals" / "src" / "refusal.rt").read_text(encoding="utf-8")
        for name, _, _ in self.rows.values():
            self.assertIn(name, source)

    def test_the_first_of_several_refusals(self):
        begin = "layer add p polygon\ncolumn add p c int\nadd p POLYGON ((0 0, 10 0, 10 10, 0 10, 0 0))\n"
        pairs = [line.rpartition(": ") for line in FIRST.splitlines()]
        lines = begin + "".join(line + "\n" for line, _, _ in pairs)
        ended = subprocess.run([PROGRAMS["sfstore"]], input=lines, check=True, capture_output=True, text=True)
        answers = ended.stdout.splitlines()[3:]
        for (line, _, number), answer in zip(pairs, answers):
            self.assertEqual(answer, f"refused {number} {self.rows[int(number)][0]}", line)
        self.assertEqual(len(answers), len(pairs))

    def test_the_order_is_that_of_the_rows(self):
        """Each line above has the first refusal, and the row of its command has no other order of the two."""
        for line, _, number in (line.rpartition(": ") for line in FIRST.splitlines()):
            word = line.removeprefix("@2 ").split(" ")[0]
            rows = [row for row in self.commands.splitlines() if row.startswith(f"| `{word}")]
            self.assertTrue(int(number) < 18 or int(number) > 30 or f"{number} " in " ".join(rows), line)

    def test_limits(self):
        page = (DOCS / "use" / "LIMITS.md").read_text(encoding="utf-8")
        for limit in (language.LINE_MAX, language.POINTS_MAX, language.IDENTIFIERS_MAX, language.IDENTIFIER_MAX - 1):
            self.assertIn(f"| {limit:,} |", page)
        for limit in (language.GRID_MIN, language.GRID_MAX, language.INT_MIN, language.INT_MAX):
            self.assertIn(f" {limit}", page)
        for limit in (language.EDITOR_MAX, language.TEXT_MAX):
            self.assertIn(f"| {limit:,} |", page)
        self.assertIn(f"and {language.PLACES_MAX} |", page)


@unittest.skipUnless(servers.binaries(), "no PostgreSQL (postgresql)")
class WithServer(PageCase):
    """Pages that need a server of PostgreSQL: one of the test's own."""

    def setUp(self):
        super().setUp()
        folder = tempfile.TemporaryDirectory()
        self.addCleanup(folder.cleanup)
        os.chmod(folder.name, 0o755)
        self.server = servers.Server(Path(folder.name), "alpha", ["fsync=off"])
        self.server.make()
        self.server.start("")
        self.addCleanup(self.server.stop)
        self.environment |= {"PGHOST": f"{folder.name}/alpha", "PGPORT": "5432", "PGUSER": "postgres"}

    @unittest.skipUnless(find_spec("osgeo"), "no GDAL for Python (python3-gdal)")
    def test_how_to_use_postgis(self):
        if not list(servers.binaries().parent.parent.parent.parent.glob("share/postgresql/*/extension/postgis.control")):
            self.skipTest("no PostGIS (postgresql-15-postgis-3)")
        self.compare("use/POSTGIS.md")

    @unittest.skipUnless(find_spec("psycopg2"), "no psycopg2 (python3-psycopg2)")
    def test_how_to_use_several_machines(self):
        self.compare("use/SEVERAL_MACHINES.md")


if __name__ == "__main__":
    unittest.main()
