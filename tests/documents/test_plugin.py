"""Tests of the plugin of QGIS as it is handed on: the zip for QGIS' plugin manager, and the Debian package."""

from __future__ import annotations

import configparser
import os
import re
import shutil
import stat
import subprocess
import sys
import tempfile
import unittest
import zipfile
from pathlib import Path

TOP = Path(__file__).resolve().parents[2]
sys.path.insert(0, str(TOP / "package"))

import plugin  # noqa: E402

VERSION = (TOP / "package" / "VERSION").read_text().strip()
# Loads the plugin as QGIS does, and unloads it.
LOADS = """
import sys
from qgis.core import QgsApplication
app = QgsApplication([], True)
app.initQgis()
import qgis.utils
qgis.utils.plugin_paths = [sys.argv[1]]
qgis.utils.updateAvailablePlugins()
print(qgis.utils.available_plugins, qgis.utils.pluginMetadata("sfstore_qgis", "version"))
import sfstore_qgis
print(sfstore_qgis.__file__)
import sfstore_qgis.plugin
sys.stdout.flush()
import os
os._exit(0)
"""


def has_qgis() -> bool:
    return subprocess.run(["/usr/bin/python3", "-c", "import qgis.core"], capture_output=True).returncode == 0


class Plugin(unittest.TestCase):
    def setUp(self):
        folder = tempfile.TemporaryDirectory()
        self.addCleanup(folder.cleanup)
        self.folder = Path(folder.name)

    def test_the_version_is_that_of_the_package(self):
        self.assertEqual(self.metadata()["version"], VERSION)
        for page in (TOP / "docs").rglob("*.md"):
            for named in re.findall(r"qgis-plugin-sfstore_([0-9.]+)_all\.deb", page.read_text()):
                self.assertEqual(named, VERSION, page.name)

    def metadata(self):
        told = configparser.ConfigParser()
        told.read(plugin.PLUGIN / "metadata.txt")
        return told["general"]

    def test_the_zip_has_one_folder_with_all_modules_and_is_the_same_each_time(self):
        path = plugin.zipped(VERSION)
        first = path.read_bytes()
        with zipfile.ZipFile(path) as made:
            names = set(made.namelist())
        there = [file.relative_to(plugin.PLUGIN) for file in plugin.PLUGIN.rglob("*") if "__pycache__" not in file.parts]
        expected = {f"sfstore_qgis/{file}" for file in there if file.suffix}
        self.assertEqual(names, expected)
        self.assertIn(f"sfstore_qgis/{self.metadata()['icon']}", names)
        self.assertIn("sfstore_qgis/metadata.txt", names)
        self.assertEqual(plugin.zipped(VERSION).read_bytes(), first)

    @unittest.skipUnless(shutil.which("dpkg-deb"), "no Debian tools")
    def test_the_debian_package(self):
        root, package, there = (self.folder / name for name in ("root", "plugin.deb", "there"))
        root.mkdir()
        plugin.lay_out(root, VERSION)
        subprocess.run(["dpkg-deb", "--root-owner-group", "--build", root, package], check=True, capture_output=True)
        fields = subprocess.run(["dpkg-deb", "--field", package], check=True, capture_output=True, text=True).stdout
        self.assertIn(f"Version: {VERSION}\n", fields)
        self.assertIn(f"sfstore (= {VERSION})", fields)
        subprocess.run(["dpkg-deb", "--extract", package, there], check=True)
        self.assertTrue((there / plugin.PLACE / "metadata.txt").is_file())
        self.assertTrue((there / plugin.PLACE / self.metadata()["icon"]).is_file())
        modes = {stat.S_IMODE(path.stat().st_mode) for path in (there / plugin.PLACE).rglob("*")}
        self.assertEqual(modes, {0o644, 0o755})
        self.assertTrue((there / plugin.DOCUMENTS / "copyright").is_file())
        subprocess.run(["dpkg-deb", "--control", package, there], check=True)
        self.assertTrue(os.access(there / "prerm", os.X_OK))
        self.assertIn("py3clean -p qgis-plugin-sfstore\n", (there / "prerm").read_text())

    @unittest.skipUnless(has_qgis(), "no QGIS (apt-get install qgis python3-qgis)")
    def test_qgis_finds_what_is_in_the_zip(self):
        with zipfile.ZipFile(plugin.zipped(VERSION)) as made:
            made.extractall(self.folder)
        environment = {**os.environ, "QT_QPA_PLATFORM": "offscreen", "PYTHONPATH": f"{TOP / 'python'}:{self.folder}"}
        words = ["/usr/bin/python3", "-c", LOADS, str(self.folder)]
        ended = subprocess.run(words, env=environment, capture_output=True, text=True, timeout=120)
        self.assertEqual(ended.returncode, 0, ended.stderr)
        self.assertEqual(
            ended.stdout.splitlines(), [f"['sfstore_qgis'] {VERSION}", str(self.folder / "sfstore_qgis" / "__init__.py")]
        )


if __name__ == "__main__":
    unittest.main()
