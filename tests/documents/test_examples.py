"""Tests of the examples: each is run as its text says, and gives what stands beside it."""

from __future__ import annotations

import os
import shutil
import subprocess
import sys
import tempfile
import unittest
from importlib.util import find_spec
from pathlib import Path

TOP = Path(__file__).resolve().parents[2]
sys.path[:0] = [str(TOP / "python"), str(TOP / "tools")]

from programs import path_of  # noqa: E402
from sfstore import Store  # noqa: E402

EXAMPLES = TOP / "examples"
PROGRAM = path_of("sfstore")

AFTERNOON = """\
16 parcels along First Street went to the town
well 5 stands on parcel 27
5 wells are left
no parcel: RingNotSimple
"""


class Examples(unittest.TestCase):
    def setUp(self):
        folder = tempfile.TemporaryDirectory()
        self.addCleanup(folder.cleanup)
        self.folder = Path(folder.name)

    def answers(self, lines, *words):
        return subprocess.run([PROGRAM, *words], input=lines, check=True, capture_output=True).stdout

    def test_the_first_session_of_the_readme(self):
        """The stored run of the program begins with the lines and answers of README, and the program gives them."""
        stored = TOP / "crates" / "sfstore"
        text = (TOP / "README.md").read_text().partition("## A first session")[2].split("```")[1]
        shown = [row.partition("->") if "->" in row else ("", "", row) for row in text.splitlines()[1:]]
        lines = "".join(f"{line.strip()}\n" for line, arrow, _ in shown if arrow)
        answers = "".join(f"{answer.strip()}\n" for _, _, answer in shown)
        self.assertTrue(lines and stored.joinpath("stdin").read_text().startswith(lines))
        self.assertTrue(answers and stored.joinpath("stdout").read_text().startswith(answers))
        shutil.copy(stored / "data" / "town.sfs", self.folder)
        words = stored.joinpath("args").read_text().splitlines()
        ended = subprocess.run([PROGRAM, *words], input=lines, cwd=self.folder, check=True, capture_output=True, text=True)
        self.assertEqual(ended.stdout, answers)
        streets = b"rows 2\n1 LINESTRING (0 0, 9 0)\n2 LINESTRING (9 0, 9 5)\n"
        self.assertEqual(self.answers(b"show streets\nlayers\n", "--load", self.folder / "new.sfs"), streets + b"rows 2\nstreets linestring\nwells point\n")
        self.assertEqual((self.folder / "town.sfs").read_bytes(), (stored / "data" / "town.sfs").read_bytes())

    def town(self):
        """The file of the town, as its lines make it."""
        file = self.folder / "town.sfs"
        answers = self.answers((EXAMPLES / "town.txt").read_bytes(), "--save", file)
        self.assertNotIn(b"refused", answers)
        return file

    def test_the_town(self):
        rows = self.answers(b"show parcels\nshow streets\nshow wells\n", "--load", self.town())
        for count in (b"rows 200\n", b"rows 7\n", b"rows 4\n"):
            self.assertIn(count, rows)

    def test_the_morning_at_the_console(self):
        answers = self.answers((EXAMPLES / "day.txt").read_bytes(), "--load", self.town())
        self.assertEqual(answers, (EXAMPLES / "day.answers").read_bytes())

    def test_the_afternoon_from_python(self):
        morning, evening = self.folder / "morning.sfs", self.folder / "evening.sfs"
        self.answers((EXAMPLES / "day.txt").read_bytes(), "--load", self.town(), "--save", morning)
        (self.folder / "sfstore").symlink_to(PROGRAM)
        said = subprocess.run(
            [sys.executable, EXAMPLES / "day.py", morning, evening],
            env={
                **os.environ,
                "PATH": f"{self.folder}{os.pathsep}{os.environ['PATH']}",
                "PYTHONPATH": str(TOP / "python"),
            },
            check=True,
            capture_output=True,
            text=True,
        )
        self.assertEqual(said.stdout, AFTERNOON)
        self.assertTrue(self.answers(b"show wells\n", "--load", evening).startswith(b"rows 5\n"))

    def command(self, module, *words):
        """Runs a command of the module."""
        return subprocess.run(
            [sys.executable, "-m", f"sfstore.exchange.{module}", "--program", PROGRAM, *words],
            env={**os.environ, "PYTHONPATH": str(TOP / "python")},
            check=True,
            capture_output=True,
            text=True,
        ).stdout

    @unittest.skipUnless(find_spec("osgeo"), "no GDAL for Python (python3-gdal)")
    def test_the_day_from_a_geopackage_to_a_geopackage(self):
        town, morning = self.folder / "town.gpkg", self.folder / "morning.sfs"
        grid = ["--grid", "500000", "5600000", "0.1", "--crs", "EPSG:25832"]
        self.command("exporting", self.town(), town, *grid)
        said = self.command("importing", town, morning)
        self.assertIn("parcels: 200 features read, 200 taken\n", said)
        self.assertEqual(morning.read_bytes(), (self.folder / "town.sfs").read_bytes())
        self.answers((EXAMPLES / "day.txt").read_bytes(), "--load", morning, "--save", self.folder / "day.sfs")
        lines = (EXAMPLES / "day.txt").read_text().splitlines()
        with Store(morning, journal=True, program=PROGRAM) as store:
            store.run_all(lines)
        self.assertEqual(morning.read_bytes(), (self.folder / "day.sfs").read_bytes())
        self.command("exporting", morning, self.folder / "evening.gpkg")
        again = self.folder / "again.sfs"
        self.command("importing", self.folder / "evening.gpkg", again)
        self.assertEqual(again.read_bytes(), morning.read_bytes())


if __name__ == "__main__":
    unittest.main()
