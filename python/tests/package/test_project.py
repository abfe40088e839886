"""Tests of the module as a project: its types, and its installation by pip from a checkout."""

from __future__ import annotations

import os
import shutil
import subprocess
import sys
import textwrap
import unittest
from importlib.util import find_spec

from support import FOLDER, PROGRAM, TestCase

TOP = FOLDER.parent
PIP = ("pip", "setuptools", "wheel")
OPTIONAL = ("h11", "osgeo", "prompt_toolkit", "psycopg2", "rich")
TYPED = ("h11", "prompt_toolkit", "rich")


class Project(TestCase):
    @unittest.skipUnless(shutil.which("mypy") and all(map(find_spec, TYPED)), "no mypy, or a part whose types it reads")
    def test_types(self):
        words = ["mypy", "--config-file", "pyproject.toml", f"--cache-dir={self.folder}"]
        for files in ([], ["python/tests/replica_model.py"]):
            checked = subprocess.run([*words, *files], cwd=TOP, capture_output=True, text=True)
            self.assertEqual(checked.returncode, 0, checked.stdout)

    @unittest.skipUnless(all(map(find_spec, PIP)), "no pip with setuptools and wheel")
    def test_installed_by_pip_from_the_checkout(self):
        checkout, target = self.folder / "checkout", self.folder / "installed"
        hidden = shutil.ignore_patterns("__pycache__", "*.egg-info")
        shutil.copytree(FOLDER / "sfstore", checkout / "python" / "sfstore", ignore=hidden)
        (checkout / "package").mkdir()
        for name in ("pyproject.toml", "package/VERSION"):
            shutil.copy(TOP / name, checkout / name)
        words = [sys.executable, "-m", "pip", "install", "--no-build-isolation", "--no-deps"]
        words += ["--no-index", "--disable-pip-version-check", "--target", str(target), str(checkout)]
        said = subprocess.run(words, capture_output=True, text=True)
        self.assertEqual(said.returncode, 0, said.stdout + said.stderr)
        for name in ("sfstore-import", "sfstore-export", "sfstore-console", "sfstore-web", "sfstore-replica"):
            said = subprocess.run(
                [sys.executable, target / "bin" / name, "--help"],
                env={**os.environ, "PYTHONPATH": str(target)},
                capture_output=True,
                text=True,
            )
            self.assertEqual((said.returncode, said.stderr), (0, ""))
            self.assertIn(f"usage: {name}", said.stdout)
        self.assertTrue((target / "sfstore" / "py.typed").exists())
        self.assertTrue((target / "sfstore" / "replica" / "log.sql").exists())
        for file in (FOLDER / "sfstore" / "web" / "static").iterdir():
            self.assertTrue((target / "sfstore" / "web" / "static" / file.name).exists(), file)

    def test_the_module_needs_no_optional_part(self):
        lines = f"""
            import sys
            sys.path.insert(0, {str(FOLDER)!r})
            for name in {OPTIONAL!r}:
                sys.modules[name] = None
            import sfstore, sfstore.console, sfstore.exchange.importing, sfstore.exchange.exporting
            import sfstore.replica.command, sfstore.web.command
            with sfstore.Store({PROGRAM!r}) as store:
                print(store.layers())
            """
        said = subprocess.run([sys.executable, "-c", textwrap.dedent(lines)], capture_output=True, text=True)
        self.assertEqual((said.stdout, said.stderr), ("[]\n", ""))


if __name__ == "__main__":
    unittest.main()
