"""Tests of the man pages and of `--help`: each program has both, and they name its options."""

from __future__ import annotations

import os
import re
import shutil
import subprocess
import sys
import tempfile
import tomllib
import unittest
from pathlib import Path

TOP = Path(__file__).resolve().parents[2]
sys.path[:0] = [str(TOP / "package"), str(TOP / "tools")]

import manual  # noqa: E402
from programs import path_of  # noqa: E402

# The programs that are proved: their help is in crates.
PROVED = {
    "sfstore": path_of("sfstore"),
    "sfmap": path_of("sfmap"),
}
SCREEN = (80, 24)


def entries():
    """The Python programs, with the modules and functions that carry them out."""
    project = tomllib.loads((TOP / "pyproject.toml").read_text(encoding="utf-8"))["project"]
    return {name: entry.split(":") for name, entry in project["scripts"].items()}


def help_of(name, *words):
    """What `--help` of a program prints."""
    if name in PROVED:
        command = [str(PROVED[name])]
    else:
        module, function = entries()[name]
        command = [sys.executable, "-c", f"import sys; from {module} import {function}; sys.exit({function}())"]
    environment = {**os.environ, "PYTHONPATH": str(TOP / "python"), "COLUMNS": str(SCREEN[0])}
    ended = subprocess.run([*command, *words, "--help"], env=environment, check=True, capture_output=True, text=True)
    return ended.stdout


class Manual(unittest.TestCase):
    def setUp(self):
        self.pages = manual.pages()
        text = manual.PAGE.read_text(encoding="utf-8")
        parts = re.split(r"^## (\S+)\n", text, flags=re.MULTILINE)[1:]
        self.sections = dict(zip(parts[::2], parts[1::2]))

    def test_each_program_has_a_page(self):
        self.assertEqual(set(self.pages), {*PROVED, *entries()})

    @unittest.skipUnless(shutil.which("man"), "no man (man-db)")
    def test_man_finds_nothing_wrong(self):
        with tempfile.TemporaryDirectory() as folder:
            for name, page in self.pages.items():
                file = Path(folder) / f"{name}.1"
                file.write_text(page, encoding="utf-8")
                words = ["man", "--warnings", "-E", "UTF-8", "-l", "-Tutf8", "-Z", str(file)]
                ended = subprocess.run(words, stdout=subprocess.DEVNULL, stderr=subprocess.PIPE, text=True, check=False)
                self.assertEqual((ended.returncode, ended.stderr), (0, ""), name)

    def test_options_are_those_of_the_help(self):
        for name, section in self.sections.items():
            said = help_of(name)
            if name == "sfstore-replica":
                commands = re.findall(r"^    (\w+) ", said, re.MULTILINE)
                self.assertEqual(len(commands), 7)
                said += "".join(help_of(name, command) for command in commands)
            shown = set(re.findall(r"^\| `(--[a-z-]+)", section, re.MULTILINE))
            self.assertEqual(shown, set(re.findall(r"^ +(?:-h, )?(--[a-z-]+)", said, re.MULTILINE)), name)

    def test_help_fits_a_screen_and_names_the_page(self):
        for name in ("sfstore", *entries()):
            lines = help_of(name).splitlines()
            self.assertLessEqual(len(lines), SCREEN[1], name)
            self.assertIn(f"man {name}", " ".join(lines).replace("- ", "-").replace("  ", " "))
            [page] = re.findall(r"docs/\w+/\w+\.md", " ".join(lines))
            self.assertTrue((TOP / page).is_file(), page)

    def test_status_is_that_of_the_help(self):
        for name in entries():
            said = " ".join(help_of(name).split())
            for status in re.findall(r"^\| (\d) \|", self.sections[name], re.MULTILINE):
                self.assertRegex(said, rf"(Status|;) {status}: ", name)


if __name__ == "__main__":
    unittest.main()
