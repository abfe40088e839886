"""Crates that are tests alone (tests/crates), with the toolchain's checks: rows with their answers, and tests in code.

The gate does not prove them. `stdin` of a crate has rows, `stdout` what they have to be answered, worked out by hand.
"""

from __future__ import annotations

import re
import subprocess
import sys
import tempfile
import unittest
from pathlib import Path

TOP = Path(__file__).resolve().parents[2]
sys.path.insert(0, str(TOP / "tools"))

import checkouts  # noqa: E402
import compiling  # noqa: E402
import tried  # noqa: E402

# Seconds in which a program ends, and in which a test in code does.
PROGRAM, CODE = 300, 120
RUNNER = compiling.KIT / "bin" / "rattle-test"
TEST = re.compile(r"^test (\S+) \.\.\. (\w+)", re.MULTILINE)


def read(crate: str, name: str) -> bytes:
    """A file beside the sources of a crate; nothing where it has none."""
    file = checkouts.CRATES / crate / name
    return file.read_bytes() if file.is_file() else b""


def tests_in(crate: str) -> int:
    """How many tests stand in the sources of a crate."""
    sources = (checkouts.CRATES / crate / "src").glob(f"*{checkouts.ENDING}")
    return sum(source.read_text(encoding="utf-8").count("#[test]") for source in sources)


@unittest.skipUnless(RUNNER.is_file(), "no toolchain")
class Rows(unittest.TestCase):
    """Programs that answer what they read."""

    maxDiff = 2_000

    def check(self, crate: str) -> None:
        """Refuses another answer than that which its file has, a line on standard error, and a status beside 0."""
        wanted = read(crate, "stdout")
        ended = subprocess.run([tried.program(crate)], input=read(crate, "stdin"), capture_output=True, timeout=PROGRAM, check=False)
        self.assertEqual(ended.stdout.decode(errors="replace").splitlines(), wanted.decode().splitlines())
        self.assertEqual((ended.returncode, ended.stderr, ended.stdout), (0, b"", wanted))

    def test_rows_of_sf_plane_rows(self) -> None:
        self.check("sf_plane_rows")

    def test_rows_of_sf_text_rows(self) -> None:
        self.check("sf_text_rows")

    def test_rows_of_sf_bench(self) -> None:
        self.check("sf_bench")

    def test_rows_of_sf_refusing(self) -> None:
        self.check("sf_refusing")


@unittest.skipUnless(RUNNER.is_file(), "no toolchain")
class Code(unittest.TestCase):
    """Tests of what only code can ask."""

    def check(self, crate: str) -> None:
        """Refuses one that fails, and one that is left out."""
        words: list[str | Path] = [RUNNER, "--seconds", str(CODE), tried.program(crate)]
        ended = subprocess.run(words, capture_output=True, text=True, check=False)
        said = ended.stdout + ended.stderr
        self.assertEqual(ended.returncode, 0, said)
        self.assertEqual([word for _, word in TEST.findall(said)], ["ok"] * tests_in(crate), said)

    def test_code_of_sf_tests(self) -> None:
        self.check("sf_tests")

    def test_code_of_sf_tests_shapes(self) -> None:
        self.check("sf_tests_shapes")


class Crates(unittest.TestCase):
    def test_each_crate_is_run(self) -> None:
        run = {name.rpartition("_of_")[2] for case in (Rows, Code) for name in dir(case) if name.startswith("test_")}
        folders = {path.name for path in checkouts.CRATES.iterdir() if path.is_dir()}
        self.assertEqual((run, set(checkouts.names())), (folders, folders))

    def test_each_has_something_to_answer(self) -> None:
        """Rows with as many answers, or tests."""
        for crate in checkouts.names():
            with self.subTest(crate):
                if tried.is_code(crate):
                    self.assertGreater(tests_in(crate), 5)
                else:
                    self.assertGreater(len(read(crate, "stdout").splitlines()), 15)

    def test_each_stands_on_crates_that_are_there(self) -> None:
        listed = checkouts.listed((TOP / "crates.txt").read_text(encoding="utf-8"))
        self.assertFalse(set(listed) & set(checkouts.names()))
        for crate, below in checkouts.names().items():
            for name in below:
                self.assertTrue(name in listed or not name.startswith("sf_"), f"{crate}: {name}")

    @unittest.skipUnless(RUNNER.is_file(), "no toolchain")
    def test_files_are_in_the_layout_of_the_toolchain(self) -> None:
        """The gate sees to that of the crates that it proves."""
        for crate in checkouts.names():
            with self.subTest(crate), tempfile.TemporaryDirectory() as name:
                checkouts.put(checkouts.CRATES / crate, Path(name))
                files = sorted(Path(name).rglob("*.rt"))
                words: list[str | Path] = [compiling.KIT / "bin" / "rattle", "fmt", "--check", *files]
                ended = subprocess.run(words, capture_output=True, text=True, check=False)
                self.assertEqual(ended.returncode, 0, ended.stdout + ended.stderr)


if __name__ == "__main__":
    unittest.main()
