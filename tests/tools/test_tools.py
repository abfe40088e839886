"""What tools find in the project's scripts: types, weak spots, mistakes of the shell."""

from __future__ import annotations

import json
import os
import random
import re
import shutil
import subprocess
import sys
import tempfile
import unittest
from pathlib import Path

TOP = Path(__file__).resolve().parents[2]
sys.path[:0] = [str(TOP / "python")]

from sfstore.language import GRID_MAX, GRID_MIN  # noqa: E402
from sfstore.mapunits import MapUnits  # noqa: E402

SCRIPTS = [
    "bench/calls.py",
    "bench/counted.py",
    "bench/growing.py",
    "bench/kept.py",
    "bench/planted.py",
    "bench/plants.py",
    "bench/unproved.py",
    "build-programs",
    "package/control.py",
    "package/manual.py",
    "package/plugin.py",
    "tests/api.py",
    "tests/costs.py",
    "tests/english.py",
    "tests/made_pages.py",
    "tests/run.py",
    "tests/shown.py",
    "tests/program/test_crate_rows.py",
    "tests/tool_pictures.py",
    "tests/trust.py",
    "tests/wrong_bodies.py",
    "tools/building.py",
    "tools/checkouts.py",
    "tools/compiling.py",
    "tools/gated.py",
    "tools/programs.py",
    "tools/starting.py",
    "tools/tried.py",
]
# Folders whose modules scripts of other folders take.
SHARED = "bench:tests:tools:python"

STATIC = TOP / "python" / "sfstore" / "web" / "static"
SCRIPTS_OF_PAGE = sorted(STATIC.glob("*.js"))
IMPORT = re.compile(r'^import \{([^}]*)\} from "\./([^"]+)"', re.MULTILINE)
EXPORT = re.compile(r"^export (?:async )?(?:class|function\*?|const|let) (\w+)", re.MULTILINE)
FLAKE = re.compile(r"(.+?):(\d+):\d+:? .*")

# Each place as the page writes it, and as it finds it again: as it is written, and with zeros behind its point.
THERE_AND_BACK = """
import { readFileSync } from "node:fs";
import { Units } from "./units.mjs";
let [count, wrong] = [0, 0];
for (const { grid, points, words } of JSON.parse(readFileSync(new URL("asked.json", import.meta.url)))) {
  const units = new Units(grid);
  points.forEach((point, at) => {
    const written = units.point(point);
    const longer = written.split(" ").map((word) => `${word.includes(".") ? word : `${word}.`}${"0".repeat(12)}`).join(", ");
    const found = [written, longer].map((text) => units.place(text).join());
    count += 1;
    if (written !== words[at] || found.some((place) => place !== point.join())) wrong += 1;
  });
}
console.log(`${count} there and back, ${wrong} not`);
"""


def python_files() -> list[Path]:
    """All files of Python, those without the ending too."""
    folders = [TOP / name for name in ("bench", "examples", "package", "python", "qgis", "tests", "tools")]
    found = [path for folder in folders for path in folder.rglob("*.py") if "out" not in path.parts and "build" not in path.parts]
    return sorted([*found, TOP / "build-programs", TOP / "package" / "build"])


def is_wanted(file: Path, line: int) -> bool:
    """Whether a line says itself that it stands there on purpose: by `noqa`, or by a name that it passes on."""
    text = file.read_text(encoding="utf-8").splitlines()[line - 1]
    return "noqa" in text or re.search(r"\bimport (\w+) as \1\b", text) is not None


def said(*words: str) -> tuple[int, str]:
    """The status of a command that is run at the top, and what it said."""
    ended = subprocess.run(words, cwd=TOP, env={**os.environ, "MYPYPATH": SHARED}, capture_output=True, text=True)
    return ended.returncode, ended.stdout + ended.stderr


class Tools(unittest.TestCase):
    @unittest.skipUnless(shutil.which("mypy"), "no mypy")
    def test_types_of_scripts(self) -> None:
        status, text = said("mypy", "--strict", "--scripts-are-modules", "--cache-dir=/dev/null", *SCRIPTS)
        self.assertEqual(status, 0, text)

    @unittest.skipUnless(shutil.which("pyflakes3"), "no pyflakes3")
    def test_code_that_says_nothing_or_what_is_not_there(self) -> None:
        """Names that nobody defines, and imports and values that nobody takes."""
        _, text = said("pyflakes3", *map(str, python_files()))
        told = [FLAKE.fullmatch(line) for line in text.splitlines()]
        self.assertEqual([found[0] for found in told if found and not is_wanted(Path(found[1]), int(found[2]))], [])
        self.assertNotIn(None, told, text)

    @unittest.skipUnless(shutil.which("bandit"), "no bandit")
    def test_weak_spots_of_the_module_are_answered(self) -> None:
        status, text = said("bandit", "--quiet", "--recursive", "python/sfstore")
        self.assertEqual(status, 0, text)

    @unittest.skipUnless(shutil.which("shellcheck"), "no shellcheck")
    def test_mistakes_of_the_shell(self) -> None:
        status, text = said("shellcheck", "test", "start", ".ci/run")
        self.assertEqual(status, 0, text)

    def test_what_pages_call_by_its_name_can_be_run(self) -> None:
        """A file that names its interpreter in its first line is run as a command, and no other one is."""
        beside = {"out", "build", ".git", "__pycache__"}
        for at, folders, names in os.walk(TOP):
            folders[:] = [name for name in folders if name not in beside]
            for path in (Path(at) / name for name in names):
                if path.is_file():
                    with path.open("rb") as file:
                        self.assertEqual(os.access(path, os.X_OK), file.read(2) == b"#!", path)


class Page(unittest.TestCase):
    """The scripts of the page, without a browser."""

    @unittest.skipUnless(shutil.which("node"), "no node")
    def test_each_script_can_be_read(self) -> None:
        with tempfile.TemporaryDirectory() as name:
            for script in SCRIPTS_OF_PAGE:
                # By this ending it is a module, as for the browser.
                copy = Path(shutil.copy(script, Path(name) / f"{script.stem}.mjs"))
                status, text = said("node", "--check", str(copy))
                self.assertEqual(status, 0, text)

    @unittest.skipUnless(shutil.which("node"), "no node")
    def test_coordinates_of_the_map_there_and_back(self) -> None:
        """Ten thousand places of each grid: the page writes them as Python does, and finds them again, also with further zeros."""
        chance = random.Random(89)
        grids = [("500000", "5600000", "0.01"), ("-180", "-90", "0.0000001"), ("0.5", "-12.25", "0.05"), ("1e3", "-1e-9", "7e-9"), ("2600000", "1200000", "1000")]
        asked = []
        for x, y, step in grids:
            units = MapUnits(x, y, step)
            points = [(chance.randint(GRID_MIN, GRID_MAX), chance.randint(GRID_MIN, GRID_MAX)) for _ in range(10_000)]
            words = [f"{units.coordinate(0, point[0])} {units.coordinate(1, point[1])}" for point in points]
            asked.append({"grid": {"x": x, "y": y, "step": step}, "points": points, "words": words})
        with tempfile.TemporaryDirectory() as name:
            shutil.copy(STATIC / "units.js", Path(name) / "units.mjs")
            (Path(name) / "run.mjs").write_text(THERE_AND_BACK, encoding="utf-8")
            (Path(name) / "asked.json").write_text(json.dumps(asked), encoding="utf-8")
            self.assertEqual(said("node", str(Path(name) / "run.mjs")), (0, "50000 there and back, 0 not\n"))

    def test_what_is_imported_is_there(self) -> None:
        exported = {script.name: set(EXPORT.findall(script.read_text(encoding="utf-8"))) for script in SCRIPTS_OF_PAGE}
        imports = [
            (script.name, file, name.split()[0])
            for script in SCRIPTS_OF_PAGE
            for names, file in IMPORT.findall(script.read_text(encoding="utf-8"))
            for name in filter(str.strip, names.split(","))
        ]
        self.assertGreater(len(imports), 20)
        for script, file, imported in imports:
            self.assertIn(imported, exported.get(file, set()), f"{script}: {file}")


if __name__ == "__main__":
    unittest.main()
