"""Tests of the package: it is made, taken apart, and used as a user of it would."""

from __future__ import annotations

import gzip
import hashlib
import json
import os
import re
import shutil
import subprocess
import sys
import tempfile
import unittest
from importlib.util import find_spec
from pathlib import Path

sys.path.insert(0, str(Path(__file__).resolve().parents[1]))

from shown import TOP, Shown  # noqa: E402

sys.path.insert(0, str(TOP / "tools"))

import programs  # noqa: E402

MADE = programs.current()
# Of programs that aren't proved a package is made only where that is asked for.
WORDS = [] if MADE and MADE.proved else ["--unproved"]
VERSION = (TOP / "package" / "VERSION").read_text().strip() + ("" if MADE and MADE.proved else "~unproved")

# Stands in for `rt` where programs are built: gives those of the checkout, and another one in the place of one of them.
STAND_IN = """\
#!/bin/sh
[ "$1" = run ] || exec {rt} "$@"
name=$(basename "$PWD")
mkdir -p out
cp {top}/out/programs/$name out/$name
[ "$name" != "{spoilt}" ] || echo other >> out/$name
"""


def built() -> Path:
    """Makes the package, and gives its path."""
    said = subprocess.run([TOP / "package" / "build", *WORDS], check=True, capture_output=True, text=True).stdout
    return TOP / said.split(" ")[0]


def can_be_made() -> bool:
    """Whether Debian's tools are here, programs of the crates as they stand, and a checkout that git reads."""
    if MADE is None or not all(map(shutil.which, ("dpkg-deb", "git", "rt"))):
        return False
    return subprocess.run(["git", "rev-parse", "HEAD"], cwd=TOP, capture_output=True).returncode == 0


@unittest.skipUnless(can_be_made(), "no Debian tools, no programs of these crates, or no checkout that git reads")
class Package(unittest.TestCase):
    @classmethod
    def setUpClass(cls):
        cls.package = built()
        folder = tempfile.TemporaryDirectory()
        cls.addClassCleanup(folder.cleanup)
        cls.root = Path(folder.name)
        subprocess.run(["dpkg-deb", "--extract", cls.package, cls.root], check=True)
        cls.program = cls.root / "usr/bin/sfstore"
        cls.documents = cls.root / "usr/share/doc/sfstore"

    def answers(self, lines, *words):
        return subprocess.run([self.program, *words], input=lines, check=True, capture_output=True).stdout

    def test_the_program_runs(self):
        self.assertEqual(self.answers(b"layer add w any\nlayers\n"), b"ok\nrows 1\nw any\n")

    def test_the_picture_of_a_saved_store(self):
        with tempfile.TemporaryDirectory() as folder:
            file = Path(folder) / "wells.sfs"
            self.answers(b"layer add wells point\nadd wells POINT (3 4)\n", "--save", file)
            drawn = subprocess.run([self.root / "usr/bin/sfmap"], input=file.read_bytes(), check=True, capture_output=True)
        self.assertIn(b"<path id='wells-1' class='feature point' d='M1 -1h0'/>", drawn.stdout)

    def test_help_names_the_options(self):
        self.assertIn(b"--load <FILE>", self.answers(b"", "--help"))

    def test_the_module_finds_the_program_on_the_path(self):
        lines = "import sfstore\nwith sfstore.Store() as store: print(store.layers())"
        module = str(self.root / "usr/lib/python3/dist-packages")
        path = f"{self.program.parent}{os.pathsep}{os.environ['PATH']}"
        said = subprocess.run(
            [sys.executable, "-c", lines],
            env={**os.environ, "PATH": path, "PYTHONPATH": module},
            check=True,
            capture_output=True,
            text=True,
        )
        self.assertEqual(said.stdout, "[]\n")

    def command(self, name, *words):
        """Runs a command of the module, as the package has it."""
        return subprocess.run(
            [sys.executable, self.root / "usr/bin" / name, *words],
            env={
                **os.environ,
                "PATH": f"{self.program.parent}{os.pathsep}{os.environ['PATH']}",
                "PYTHONPATH": str(self.root / "usr/lib/python3/dist-packages"),
            },
            stdin=subprocess.DEVNULL,
            capture_output=True,
            text=True,
        )

    def test_the_commands_of_the_module(self):
        for name in ("sfstore-import", "sfstore-export", "sfstore-console", "sfstore-web", "sfstore-replica"):
            self.assertTrue(os.access(self.root / "usr/bin" / name, os.X_OK))
            said = self.command(name, "--help")
            self.assertEqual((said.returncode, said.stderr), (0, ""))
            self.assertIn(f"usage: {name}", said.stdout)
        said = self.command("sfstore-console", "town.sfs")
        self.assertEqual(said.returncode, 2)
        self.assertIn("needs a terminal", said.stderr)

    @unittest.skipUnless(find_spec("osgeo"), "no GDAL for Python (python3-gdal)")
    def test_a_map_goes_in_and_out(self):
        with tempfile.TemporaryDirectory() as folder:
            source, store, back = (Path(folder) / name for name in ("a.geojson", "a.sfs", "a.gpkg"))
            geometry = {"type": "Point", "coordinates": [3.5, 4.25]}
            source.write_text(json.dumps({"type": "Feature", "id": 7, "properties": {}, "geometry": geometry}))
            said = self.command("sfstore-import", source, store, "--grid", "0", "0", "0.25")
            self.assertEqual((said.returncode, said.stderr), (0, ""))
            self.assertEqual(self.answers(b"show a\n", "--load", store), b"rows 1\n7 POINT (14 17)\n")
            self.assertEqual(self.command("sfstore-export", store, back).returncode, 0)
            self.assertTrue(back.exists())

    @unittest.skipUnless(find_spec("osgeo"), "no GDAL for Python (python3-gdal)")
    def test_the_tutorial_with_the_package_alone(self):
        environment = {
            **os.environ,
            "LINES": "50",
            "PATH": f"{self.program.parent}{os.pathsep}{os.environ['PATH']}",
            "PYTHONPATH": str(self.root / "usr/lib/python3/dist-packages"),
        }
        page = (self.documents / "docs/learn/TUTORIAL.md").read_text()
        with tempfile.TemporaryDirectory() as folder:
            room = Path(folder) / "room"
            room.mkdir()
            environment["HOME"] = folder
            for shown, here in Shown(room, environment, f"{self.documents}/").compare(page):
                self.assertEqual(shown, here)

    def test_each_program_has_a_man_page(self):
        programs = {path.name for path in (self.root / "usr/bin").iterdir()}
        pages = {path.name for path in (self.root / "usr/share/man/man1").iterdir()}
        self.assertEqual(pages, {f"{name}.1.gz" for name in programs})
        for name in programs:
            page = gzip.decompress((self.root / f"usr/share/man/man1/{name}.1.gz").read_bytes()).decode()
            self.assertIn(f".SH NAME\n{name} ", page)
            for path in re.findall(r"/usr/share/doc/sfstore/([\w/.]+\.(?:md|txt))", page):
                self.assertTrue((self.documents / path).is_file(), path)

    def test_built_tells_what_the_package_is(self):
        commit = subprocess.run(["git", "rev-parse", "HEAD"], cwd=TOP, check=True, capture_output=True, text=True)
        said = (self.documents / "BUILT").read_text()
        for name in ("sfstore", "sfmap"):
            digest = hashlib.sha256((self.root / "usr/bin" / name).read_bytes()).hexdigest()
            self.assertIn(f"sha256 of {name}: {digest}\n", said)
        self.assertIn(f"commit: {commit.stdout.strip()}", said)
        self.assertIn(f"gate: {MADE.gate}\n", said)
        self.assertIn("toolchain: rattle-kit", said)
        self.assertEqual(said.startswith("NOT PROVED: "), not MADE.proved)

    def test_the_copyright_is_in_it(self):
        said = (self.documents / "copyright").read_text()
        self.assertEqual(said, (TOP / "package" / "copyright").read_text())
        self.assertTrue(said.startswith("Format: https://www.debian.org/doc/packaging-manuals/copyright-format/1.0/\n"))

    def test_the_links_of_the_pages_lead_to_documents(self):
        links = [(page, link) for page in self.documents.rglob("*.md") for link in re.findall(r"\]\(([^)#:]+)\)", page.read_text())]
        self.assertGreater(len(links), 20)
        for page, link in links:
            self.assertTrue((page.parent / link).exists(), f"{page.name}: {link}")

    def test_the_version_stands_in_one_place(self):
        self.assertEqual(self.field("Version"), VERSION)
        self.assertTrue(self.package.name.startswith(f"sfstore_{VERSION}_"))

    def field(self, name):
        """A field of the package's control file."""
        words = ["dpkg-deb", "--field", self.package, name]
        return subprocess.run(words, check=True, capture_output=True, text=True).stdout.strip()

    def test_the_package_depends_on_what_its_commands_start(self):
        starting = {path.read_bytes().split(b"\n")[0] for path in (self.root / "usr/bin").iterdir() if path.read_bytes().startswith(b"#!")}
        self.assertEqual(starting, {b"#!/usr/bin/python3"})
        self.assertRegex(self.field("Depends"), r"\bpython3\b")
        # All commands but the page do without, and QGIS starts the page's server.
        self.assertIn("python3-h11", self.field("Depends"))
        self.assertRegex(self.field("Recommends"), "python3-gdal")

    def test_what_python_compiled_goes_with_the_package(self):
        with tempfile.TemporaryDirectory() as folder:
            subprocess.run(["dpkg-deb", "--control", self.package, folder], check=True)
            script = Path(folder) / "prerm"
            self.assertTrue(os.access(script, os.X_OK))
            self.assertIn("py3clean -p sfstore\n", script.read_text())

    def test_the_version_says_whether_it_is_proved(self):
        first, *further = self.command("sfstore-console", "--version").stdout.splitlines()
        self.assertEqual(first, f"sfstore-console {VERSION}")
        self.assertEqual(any(line.startswith("NOT PROVED: ") for line in further), not MADE.proved)

    def test_the_same_program_makes_the_same_package(self):
        first = self.package.read_bytes()
        self.assertEqual(built().read_bytes(), first)

    def built_twice(self, spoilt=""):
        with tempfile.TemporaryDirectory() as folder:
            rt = Path(folder) / "rt"
            rt.write_text(STAND_IN.format(rt=shutil.which("rt"), top=TOP, spoilt=spoilt))
            rt.chmod(0o755)
            path = f"{folder}{os.pathsep}{os.environ['PATH']}"
            words = [TOP / "package" / "build", "--twice"]
            return subprocess.run(words, env={**os.environ, "PATH": path}, capture_output=True, text=True)

    @unittest.skipUnless(MADE and MADE.proved, "the programs are not proved")
    def test_two_clones_with_the_same_programs(self):
        said = self.built_twice()
        self.assertEqual((said.returncode, said.stderr), (0, ""))
        self.assertIn("two fresh clones give the same programs, byte for byte\n", said.stdout)

    @unittest.skipUnless(MADE and MADE.proved, "the programs are not proved")
    def test_a_clone_with_another_program(self):
        said = self.built_twice("sfmap")
        self.assertEqual((said.returncode, said.stdout), (1, ""))
        self.assertEqual(said.stderr, "package/build: the first fresh clone gives another sfmap\n")


class Missing(unittest.TestCase):
    """What package/build says in a checkout that lacks something."""

    def setUp(self):
        folder = tempfile.TemporaryDirectory()
        self.addCleanup(folder.cleanup)
        self.checkout = Path(folder.name) / "checkout"
        # Of the crates one is enough: what is said of programs is compared with all that are there.
        for name in ("package", "tools", "docs", "examples"):
            shutil.copytree(TOP / name, self.checkout / name, ignore=shutil.ignore_patterns("__pycache__"))
        shutil.copytree(TOP / "crates" / "sf_grid" / "src", self.checkout / "crates" / "sf_grid" / "src")
        for name in ("crates.txt", "HANDLES"):
            shutil.copy(TOP / name, self.checkout)
        (self.checkout / "python").mkdir()
        shutil.copytree(TOP / "python" / "sfstore", self.checkout / "python" / "sfstore")

    def said(self, *words):
        """What it says as it ends with a fault."""
        ended = subprocess.run([self.checkout / "package" / "build", *words], capture_output=True, text=True)
        self.assertEqual((ended.returncode, ended.stdout), (1, ""))
        return ended.stderr

    def put(self, proved, crates=None):
        """Puts programs there that are of the checkout's crates, or of others."""
        lines = "import programs, sys\nprint(programs.crates_sum(sys.argv[1] == 'yes'), programs.kit(), sep='\\n')"
        asked = subprocess.run([sys.executable, "-c", lines, proved], cwd=self.checkout / "tools", check=True, capture_output=True, text=True)
        now, kit = asked.stdout.splitlines()
        place = self.checkout / "out" / "programs"
        place.mkdir(parents=True)
        for name in ("sfstore", "sfmap"):
            (place / name).write_text("#!/bin/sh\n")
        (place / "MADE").write_text(f"commit: 123\ncrates: {crates or now}\ntoolchain: {kit}\nproved: {proved}\ngate: 9 passed, 0 failed\n")

    def test_all_that_is_missing_is_named_at_once(self):
        said = self.said()
        for path in ("out/programs/sfstore", "out/programs/sfmap"):
            self.assertIn(f"\n    {path}\n", said)
        self.assertIn("./test", said)

    def test_programs_that_are_not_proved_are_refused(self):
        self.put("no, for trying alone")
        self.assertIn("proved programs: those that are there are not proved", self.said())

    def test_programs_of_other_crates_are_refused(self):
        self.put("yes", "0" * 64)
        self.assertIn("those that are there are of commit 123", self.said())
        self.assertIn("those that are there are of commit 123", self.said("--unproved"))

    def test_programs_without_a_word_of_what_they_are_are_refused(self):
        self.put("yes")
        (self.checkout / "out" / "programs" / "MADE").unlink()
        self.assertIn("out/programs/MADE, which says what the programs are", self.said("--unproved"))


if __name__ == "__main__":
    unittest.main()
