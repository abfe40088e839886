"""What the tests of the module have in common.

The program is the one that the environment variable SFSTORE names, else that of `out/programs`.
"""

from __future__ import annotations

import atexit
import math
import os
import signal
import sys
import tempfile
import textwrap
import time
import unittest
from collections.abc import Callable
from pathlib import Path

FOLDER = Path(__file__).resolve().parent.parent
sys.path[:0] = [str(FOLDER), str(FOLDER.parent / "tools")]

from programs import path_of  # noqa: E402
from sfstore import ProgramEnded, Refused, Store  # noqa: E402

PROGRAM = str(path_of("sfstore"))
# The examples start the program by its name.
BY_NAME = tempfile.TemporaryDirectory()
atexit.register(BY_NAME.cleanup)
(Path(BY_NAME.name) / "sfstore").symlink_to(PROGRAM)
os.environ["PATH"] = BY_NAME.name + os.pathsep + os.environ["PATH"]

# How a program begins that behaves as the real one up to the first line of the test.
BEGINNING = """
import os, sys, time

def line():
    return sys.stdin.buffer.readline()

def say(text):
    sys.stdout.buffer.write(text.encode())
    sys.stdout.buffer.flush()

line()
say("refused 29 NothingToUndo\\n")
"""


def crowd() -> float:
    """How many times as long all takes as on a quiet machine: the processes that want a processor, for each that there is."""
    return min(max(os.getloadavg()[0] / (os.cpu_count() or 1), 1.0), 10.0)


def child_of(store: Store) -> int:
    """The identifier of the process of a store's program."""
    found: int = store._program._process.pid  # type: ignore[attr-defined]
    return found


class TestCase(unittest.TestCase):
    """A test with a folder of its own, and with a limit of time, longer beside other work: no call may hang."""

    SECONDS = 120

    def setUp(self) -> None:
        folder = tempfile.TemporaryDirectory()
        self.addCleanup(folder.cleanup)
        self.folder = Path(folder.name)
        self.limit_time()
        self.addCleanup(signal.alarm, 0)

    def limit_time(self) -> None:
        begun = time.monotonic()

        def too_slow(*_: object) -> None:
            left = self.SECONDS * crowd() - (time.monotonic() - begun)
            if left <= 0:
                raise TimeoutError("the test hangs")
            signal.alarm(math.ceil(left))

        signal.signal(signal.SIGALRM, too_slow)
        signal.alarm(self.SECONDS)

    def assert_refused(self, number: int, name: str, call: Callable[..., object], *arguments: object) -> None:
        with self.assertRaises(Refused) as caught:
            call(*arguments)
        self.assertEqual((caught.exception.number, caught.exception.name), (number, name))

    def assert_ended(self, status: int | None, last_line: str, call: Callable[..., object], *arguments: object) -> None:
        with self.assertRaises(ProgramEnded) as caught:
            call(*arguments)
        self.assertEqual((caught.exception.status, caught.exception.last_line), (status, last_line))

    def script(self, text: str) -> Path:
        """The path of a program in a folder of the test."""
        path = self.folder / "script"
        path.write_text(text, encoding="utf-8")
        path.chmod(0o700)
        return path

    def program(self, body: str) -> Path:
        """A program that ends in its own way: `line()` reads a line, `say(text)` writes a text."""
        return self.script(f"#!{sys.executable}\n" + BEGINNING + textwrap.dedent(body))
