#!/usr/bin/env python3
"""Runs the tests beside the gate's: of the Python module, the package, the documents and the examples.

    tests/run.py --gate FILE --turns FILE    all, and counts with them what the gate, and wrong bodies behind it, came to
                                 (the files have what `rt ci` and bench/turns.py printed)
    tests/run.py --quick         those that take some minutes and need the programs alone, several files side by side
    tests/run.py NAME ..         a file (test_journal), a class or a test of it (test_journal.Case.test_x), or all whose
                                 names have a word in them

The last line counts all tests. Programs that are missing are made without proofs, but for --gate.
"""

from __future__ import annotations

import argparse
import os
import re
import signal
import subprocess
import sys
import unittest
from collections.abc import Iterator
from concurrent.futures import ThreadPoolExecutor
from pathlib import Path

TOP = Path(__file__).resolve().parent.parent
ROOTS = (TOP / "python" / "tests", TOP / "tests")
sys.path.insert(0, str(TOP / "tools"))

import building  # noqa: E402
import gated  # noqa: E402
import programs  # noqa: E402

# What --quick leaves out, by what it waits for or needs.
LONG = {
    "a browser": {"test_page", "test_page_background", "test_page_clerk", "test_page_firefox", "test_page_layers", "test_page_meanwhile", "test_page_table", "test_page_views"},
    "QGIS": {"test_qgis", "test_qgis_whole"},
    "PostgreSQL": {"test_replica", "test_replica_groups", "test_replica_model", "test_web_socket"},
    "other packages": {"test_pages", "test_package"},
    "rt try": {"test_crate_rows", "test_refusing"},
    "much work": {
        "test_faults",
        "test_group_sessions",
        "test_growths",
        "test_hostile",
        "test_joins",
        "test_millions",
        "test_saved_whole",
        "test_sizes",
        "test_speeds",
        "test_store_faults",
        "test_store_kept",
    },
}
COUNTED = re.compile(r"^(\d+) passed, (\d+) failed", re.MULTILINE)
SKIPPED = re.compile("^skipped: ", re.MULTILINE)


def paths() -> list[Path]:
    """All files of tests. They stand in folders by what they test, and no two have one name."""
    return sorted((path for root in ROOTS for path in root.glob("*/test_*.py")), key=lambda path: path.stem)


def files() -> list[str]:
    """The names of all files of tests."""
    return [path.stem for path in paths()]


def make_importable() -> None:
    """Has files of tests, and what they share, found by their names."""
    sys.path[:0] = [*map(str, ROOTS), *sorted({str(path.parent) for path in paths()})]


def suite() -> unittest.TestSuite:
    """All tests."""
    return unittest.TestLoader().loadTestsFromNames(files())


def each(tests: unittest.TestSuite) -> Iterator[unittest.TestCase]:
    """The single tests of a suite."""
    for test in tests:
        if isinstance(test, unittest.TestSuite):
            yield from each(test)
        else:
            yield test


def files_with(word: str) -> list[str]:
    """The files of tests that have a word in them."""
    return [path.stem for path in paths() if word in path.read_text(encoding="utf-8")]


def named(names: list[str]) -> unittest.TestSuite:
    """The tests that are asked for. Files that have nothing to do with it are not read: some look for much at first."""
    whole = [name for name in names if name.partition(".")[0] in files()]
    found = unittest.TestSuite(unittest.TestLoader().loadTestsFromNames(whole))
    for word in set(names) - set(whole):
        tests = unittest.TestLoader().loadTestsFromNames(files_with(word))
        found.addTests(test for test in each(tests) if word in test.id().partition(".")[2])
    return found


def run(tests: unittest.TestSuite, passed: int = 0, failed: int = 0, ending: str = "") -> int:
    """Runs tests, and counts them with others."""
    result = unittest.TextTestRunner(stream=sys.stdout, buffer=True).run(tests)
    bad = len(result.failures) + len(result.errors) + len(result.unexpectedSuccesses)
    passed += result.testsRun - bad - len(result.skipped)
    failed += bad
    for test, reason in result.skipped:
        print(f"skipped: {test}: {reason}")
    print(f"{passed} passed, {failed} failed{ending}")
    return int(failed != 0)


def of_programs() -> str:
    """Over which programs tests have run."""
    others = [name for name in programs.NAMES if name.upper() in os.environ]
    if others:
        return f", over other programs ({', '.join(name.upper() for name in others)})"
    made = programs.current()
    if made is None:
        return ", over programs of other crates"
    return ", over the proved programs" if made.proved else ", over programs that are NOT PROVED"


def tallied(said: str) -> tuple[int, int, int]:
    """How many tests of a file passed, failed and were skipped, as a run of it alone has said."""
    found = COUNTED.findall(said)
    passed, failed = map(int, found[-1]) if found else (0, 1)
    return passed, failed, len(SKIPPED.findall(said))


def run_apart(name: str) -> tuple[int, int, int]:
    """Runs a file of tests in a process of its own, prints what it said, and gives how many passed, failed and were skipped."""
    ended = subprocess.run([sys.executable, __file__, "--apart", name], stdout=subprocess.PIPE, stderr=subprocess.STDOUT, text=True, check=False)
    print(f"== {name}\n{ended.stdout}", end="", flush=True)
    return tallied(ended.stdout)


def counted(file: Path) -> tuple[int, int]:
    """How many passed and failed of what another command has tried. Where it has said nothing, one failed."""
    return gated.counts(file.read_text(encoding="utf-8", errors="replace")) if file.is_file() else (0, 1)


def quick() -> int:
    """Runs those that take some minutes."""
    chosen = sorted(set(files()) - set().union(*LONG.values()))
    with ThreadPoolExecutor(min(4, os.cpu_count() or 1)) as pool:
        counts = list(pool.map(run_apart, chosen))
    for name, (_, bad, _) in zip(chosen, counts):
        if bad:
            print(f"failed: {name}: {bad}")
    passed, failed, skipped = map(sum, zip(*counts))
    left_out = f"{skipped} skipped for what is missing" if skipped else "none skipped"
    print(f"{passed} passed, {failed} failed, {left_out}, without the gate and {len(files()) - len(chosen)} long files{of_programs()}")
    return int(failed != 0)


def main() -> int:
    """Runs what is asked for."""
    parser = argparse.ArgumentParser(description=__doc__, formatter_class=argparse.RawDescriptionHelpFormatter)
    parser.add_argument("--gate", type=Path)
    parser.add_argument("--turns", type=Path)
    parser.add_argument("--quick", action="store_true")
    parser.add_argument("--apart", action="store_true", help=argparse.SUPPRESS)
    parser.add_argument("names", nargs="*")
    asked = parser.parse_args()
    # A shell ignores it for what it starts in the background, and tests interrupt what they start.
    signal.signal(signal.SIGINT, signal.default_int_handler)
    make_importable()
    if asked.gate:
        counts = [counted(file) for file in (asked.gate, asked.turns) if file]
        return run(suite(), sum(good for good, _ in counts), sum(bad for _, bad in counts))
    if not asked.apart and not any(name.upper() in os.environ for name in programs.NAMES):
        building.ensured()
    if asked.quick:
        return quick()
    tests = named(asked.names)
    if not asked.names or not tests.countTestCases():
        parser.error("no such test")
    return run(tests, ending=of_programs())


if __name__ == "__main__":
    sys.exit(main())
