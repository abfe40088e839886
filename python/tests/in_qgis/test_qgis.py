"""Runs the tests inside of QGIS, each class of them in a process of its own: QGIS may end it."""

from __future__ import annotations

import ast
import os
import random
import signal
import subprocess
import sys
import tempfile
import time
import unittest
from pathlib import Path

from support import PROGRAM
from web_support import WebCase

from sfstore import Store
from sfstore.web.client import Client

HERE = Path(__file__).resolve().parents[1]
CASES = ["qgis_cases", "qgis_asking"]


def has_qgis(python: str) -> bool:
    """Whether an interpreter has QGIS."""
    try:
        return subprocess.run([python, "-c", "import qgis.core"], capture_output=True, timeout=60).returncode == 0
    except (OSError, subprocess.TimeoutExpired):
        return False


# At how many moments a QGIS is killed: more where the environment variable says so.
KILLS = int(os.environ.get("KILLS", "5"))
PYTHON = next(filter(has_qgis, (sys.executable, "/usr/bin/python3")), None)


@unittest.skipUnless(PYTHON, "no QGIS (apt-get install qgis python3-qgis)")
class InQgis(unittest.TestCase):
    """Each class of the modules of `CASES`."""


def _run_of(name):
    def test(self):
        words = [PYTHON, "-W", "ignore", "-m", "unittest", name]
        # Settings are those of a user: another QGIS beside this one would change them.
        with tempfile.TemporaryDirectory() as home:
            environment = {**os.environ, "QT_QPA_PLATFORM": "offscreen", "SFSTORE": PROGRAM, "HOME": home}
            ended = subprocess.run(
                words, cwd=HERE, env=environment, stdout=subprocess.PIPE, stderr=subprocess.STDOUT, timeout=600
            )
        self.assertEqual(ended.returncode, 0, ended.stdout.decode("utf-8", "replace")[-6_000:])

    return test


@unittest.skipUnless(PYTHON, "no QGIS (apt-get install qgis python3-qgis)")
class Sessions(WebCase):
    """Several QGIS on one store, and such as are killed."""

    SECONDS = 280

    def setUp(self):
        super().setUp()
        self.make_town()
        environment = {**os.environ, "QT_QPA_PLATFORM": "offscreen", "SFSTORE": PROGRAM, "HOME": str(self.folder)}
        self.begun = {"cwd": HERE, "env": environment, "text": True, "stdin": subprocess.PIPE, "stdout": subprocess.PIPE}

    def begin(self, name, seed, steps):
        """A QGIS that edits the store, once it is ready."""
        words = [PYTHON, "-W", "ignore", "qgis_session.py", str(self.path), name, str(seed), str(steps)]
        session = subprocess.Popen(words, **self.begun)
        self.addCleanup(session.communicate)
        self.addCleanup(session.kill)
        self.assertEqual(session.stdout.readline(), "ready\n")
        return session

    def test_two_and_a_page_at_random(self):
        serving = self.serve()
        eve = serving.log_in("Eve")
        sessions = [self.begin(name, seed, 120) for name, seed in (("Ann", 1), ("Ben", 2))]
        rng = random.Random(3)
        for k in range(120):
            line = rng.choice([f"set parcels {rng.randrange(1, 200)} owner 'Eve {k}'", "undo", "redo"])
            eve.posted(line)
            time.sleep(0.02)
        for session in sessions:
            while session.stdout.readline() not in ("done\n", ""):
                pass
        for session in sessions:
            said = session.communicate("\n", timeout=60)[0]
            self.assertEqual(said, "ALIKE\n")
        shown = eve.line("show parcels")["rows"]
        eve.line("save")
        serving.end()
        with Store(program=PROGRAM, load=self.path) as store:
            self.assertEqual(store.run("show parcels"), shown)

    def test_one_that_is_killed_loses_nothing_that_was_answered(self):
        signal.alarm(max(self.SECONDS, 10 * KILLS))
        self.serve()
        with Client(str(self.path), "Eve", 30) as eve:
            heard, count, version = eve.events(), 0, eve.call("map")["version"]
            for seed in range(KILLS):
                session = self.begin("Ann", seed, 10_000)
                # From the first answer on, however busy the machine is.
                first = session.stdout.readline()
                time.sleep(random.Random(seed).random())
                session.kill()
                told = [first, *session.communicate()[0].splitlines()]
                answered = [
                    line.rstrip("\n").split(" ", 2)[1:]
                    for line in told
                    if line.startswith("value ") and line.count(" ") == 3
                ]
                before, version = version, eve.call("map")["version"]
                self.assert_kept(heard, before, version, answered)
                count += len(answered)
            heard.close()
            self.assertGreater(count, KILLS)

    def assert_kept(self, heard, before, version, answered):
        """Each value that was answered was heard of by all, in its order, from one version to another."""
        events = []
        while before < version:
            events += heard.wait(30)
            before = max(event.get("version", 0) for event in events)
        at = (event["line"] for event in events if "line" in event)
        for number, value in answered:
            self.assertIn(f"set parcels {number} owner '{value}'", at)


for module in CASES:
    for each in ast.parse((HERE / f"{module}.py").read_text(encoding="utf-8")).body:
        if isinstance(each, ast.ClassDef):
            setattr(InQgis, f"test_{each.name}", _run_of(f"{module}.{each.name}"))


if __name__ == "__main__":
    unittest.main()
