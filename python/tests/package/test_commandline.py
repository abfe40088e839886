"""Tests of what the commands of the module have in common: their version, and what they say where the program is missing."""

from __future__ import annotations

import doctest
import os
import pty
import shutil
import subprocess
import sys
import tomllib
import unittest
from importlib.util import find_spec
from pathlib import Path

from support import FOLDER, PROGRAM, TestCase

from programs import kit, path_of

from sfstore import Store, commandline

TOP = FOLDER.parent
SCRIPTS = tomllib.loads((TOP / "pyproject.toml").read_text(encoding="utf-8"))["project"]["scripts"]
NOT_FOUND = "sfstore: the program was not found. It comes with the Debian package sfstore, and a checkout"


def run(name, *words, terminal=None, **environment):
    """The status of a command, and what it says."""
    module, function = SCRIPTS[name].split(":")
    begin = f"import sys; from {module} import {function}; sys.exit({function}())"
    ended = subprocess.run(
        [sys.executable, "-c", begin, *map(str, words)],
        env={**os.environ, "PYTHONPATH": str(FOLDER), **environment},
        stdin=subprocess.DEVNULL if terminal is None else terminal,
        stdout=subprocess.PIPE if terminal is None else terminal,
        stderr=subprocess.PIPE,
        text=True,
        timeout=60,
    )
    return ended.returncode, ended.stdout, ended.stderr


class Versions(TestCase):
    """`--version` of each command."""

    def test_in_a_checkout(self):
        number = (TOP / "package" / "VERSION").read_text(encoding="utf-8").strip()
        git = subprocess.run(["git", "-C", str(TOP), "rev-parse", "HEAD"], capture_output=True, text=True)
        commit = f"commit: {git.stdout.strip()}\n" if git.returncode == 0 else ""
        for name in SCRIPTS:
            self.assertEqual(run(name, "--version"), (0, f"{name} {number}\n{commit}", ""))

    def test_of_the_programs(self):
        """Which name the toolchain too that proves and builds them."""
        number = (TOP / "package" / "VERSION").read_text(encoding="utf-8").strip()
        for name in ("sfstore", "sfmap"):
            said = subprocess.run([path_of(name), "--version"], capture_output=True, text=True, timeout=60)
            self.assertEqual((said.returncode, said.stdout), (0, f"{name} {number} ({kit().split()[0]})\n"))

    def test_of_a_package(self):
        module = self.folder / "lib" / "python3" / "dist-packages" / "sfstore"
        module.mkdir(parents=True)
        built = self.folder / "share" / "doc" / "sfstore" / "BUILT"
        built.parent.mkdir(parents=True)
        said = "sfstore 7.8.9\ncommit: abc with changes\ngate: 41 passed\ntoolchain: kit-1\nsha256 of sfstore: 5\n"
        version, *further = ["sfstore 7.8.9", "commit: abc with changes", "toolchain: kit-1"]
        warning = "NOT PROVED: the programs of this package were built without a proof, to try it."
        for before in ([], [warning]):
            built.write_text("".join(f"{line}\n" for line in before) + said)
            self.assertEqual(commandline.version_lines(module), [version, *before, *further])

    def test_where_nothing_says_it(self):
        [line] = commandline.version_lines(Path("/nix/sfstore"))
        self.assertTrue(line.startswith("sfstore "), line)

    def test_examples(self):
        self.assertEqual(doctest.testmod(commandline).failed, 0)


class Missing(TestCase):
    """A program that is not there is told in a sentence."""

    def setUp(self):
        super().setUp()
        self.path = self.folder / "town.sfs"
        with Store(program=PROGRAM, save=self.path) as store:
            store.add_layer("w", "point")
        # What else a command needs is there.
        (self.folder / "bin").mkdir()
        self.environment = {"PATH": str(self.folder / "bin")}

    def said(self, name, *words):
        status, said, told = run(name, *words, **self.environment)
        self.assertEqual((status, said), (3, ""), told)
        return told

    def test_the_page(self):
        self.assertIn(f"sfstore-web: {NOT_FOUND}", self.said("sfstore-web", self.path, "--no-browser"))

    def test_the_console(self):
        ours, theirs = pty.openpty()
        self.addCleanup(os.close, ours)
        self.addCleanup(os.close, theirs)
        status, _, told = run("sfstore-console", self.path, terminal=theirs, **self.environment)
        self.assertEqual(status, 3)
        self.assertIn(f"sfstore-console: {NOT_FOUND}", told)

    @unittest.skipUnless(shutil.which("ogrinfo") or Path("/usr/lib/python3/dist-packages/osgeo").exists(), "no GDAL")
    def test_import_and_export(self):
        if find_spec("osgeo") is None:
            self.skipTest("no GDAL for this Python")
        town = TOP / "examples" / "town.gpkg"
        grid = ("--grid", "500000", "5600000", "0.01")
        self.assertIn(f"sfstore-import: {NOT_FOUND}", self.said("sfstore-import", town, self.folder / "m.sfs", *grid))
        self.assertIn(f"sfstore-export: {NOT_FOUND}", self.said("sfstore-export", self.path, self.folder / "b.gpkg", *grid))


if __name__ == "__main__":
    unittest.main()
