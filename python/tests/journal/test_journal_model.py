"""Tests of stores with a journal against a plain model: lists of operations by a seed, with faults and ends at any call.

Faults, other programs and the loss of power come between operations, at calls of the module and at calls of the program.
Where hypothesis is there it makes lists too, and tells a list that breaks the model as short as it can be.

What the program does about locks, modes, links, leftovers, other programs and failing syncs was taken out of it, one thing
at a time (25 of them), and of the module (4). The lists found each: most within 100 lists, all within 400 (SFSTORE_LISTS).
"""

from __future__ import annotations

import contextlib
import itertools
import os
import random
import shutil
import tempfile
import time
import unittest
from importlib.util import find_spec
from pathlib import Path
from unittest import mock

from support import PROGRAM, TestCase

from journal_model import Run
from journal_plain import Violation
from store_support import FAULTS, MEMORY, library

from sfstore import files
from sfstore.journaled import Journaled
from sfstore.kept import Kept
from sfstore.program import is_edit

# Lists are done for so long, but at least the first ones; or as many as are asked for.
SECONDS = 15
LEAST = 20
LISTS = int(os.environ.get("SFSTORE_LISTS", "0"))
MADE_LISTS = int(os.environ.get("SFSTORE_MADE_LISTS", "15"))


def seeds():
    """The seeds of the lists that are to be done."""
    until = time.monotonic() + SECONDS
    for seed in itertools.count():
        if seed >= LISTS if LISTS else seed >= LEAST and time.monotonic() > until:
            return
        yield seed


@unittest.skipIf(shutil.which("cc") is None, "cc is missing")
class ModelCase(TestCase):
    SECONDS = 1200

    def setUp(self):
        super().setUp()
        self.library = library(Path(self.folder), FAULTS)

    def tried(self, dice, does):
        """Has a run do something. `Violation` with the operations that it did."""
        # In memory, where that can be: nothing here needs a disk.
        with tempfile.TemporaryDirectory(dir=MEMORY) as folder:
            run = Run(dice, folder, PROGRAM, self.library)
            try:
                does(run)
            except Violation as wrong:
                raise Violation(f"{wrong} ({'; '.join(run.told)})") from wrong


class Model(ModelCase):
    def test_lists_by_a_seed(self):
        for seed in seeds():
            with self.subTest(seed=seed):
                self.tried(random.Random(seed), lambda run: run.steps(16))


@unittest.skipUnless(find_spec("hypothesis"), "no hypothesis (Debian's package python3-hypothesis)")
class MadeLists(ModelCase):
    def made_lists(self, count):
        """Has hypothesis make so many lists of operations, the same ones each time. `Violation` for the shortest found."""
        from hypothesis import HealthCheck, Phase, given, settings, strategies

        names = strategies.sampled_from(["open", "edit", *Run.CHANCES])
        patient = settings(
            max_examples=count,
            deadline=None,
            derandomize=True,
            print_blob=False,
            database=None,
            phases=(Phase.generate, Phase.shrink),
            suppress_health_check=list(HealthCheck),
        )

        @patient
        @given(strategies.lists(names, max_size=16), strategies.randoms(use_true_random=False))
        def tried(operations, dice):
            self.tried(dice, lambda run: run.do(operations))

        tried()

    def test_lists_that_hypothesis_makes(self):
        self.made_lists(MADE_LISTS)


class Mendings(ModelCase):
    """What would be found if it were as it is not."""

    def found(self, operations, seeds):
        with self.assertRaises(Violation):
            for seed in range(seeds):
                self.tried(random.Random(seed), lambda run: run.do(operations))

    def test_a_session_that_never_looks_at_its_file_is_found(self):
        """A store that gives its lines whatever the file has become."""
        with mock.patch.object(Kept, "check", lambda kept: None), mock.patch.object(Kept, "_check_digest", lambda *_: None):
            self.found(["open", "edit", "edit", "write_foreign", "copy"], 8)

    def test_a_session_that_goes_on_after_an_interrupt_is_found(self):
        """How many edits the journal has is not known then."""

        def exchange(journaled, lines):
            outcomes = journaled._program.exchange(lines)
            journaled._kept.unsaved += sum(map(is_edit, lines, outcomes))
            return outcomes

        with mock.patch.object(Journaled, "exchange", exchange):
            self.found(["open", "edit", "interrupt", "interrupt"], 20)

    def test_a_journal_of_version_1_that_is_written_over_in_its_place_is_found(self):
        """The power may be lost before its bytes are on the disk."""

        @contextlib.contextmanager
        def in_its_place(path, like=None):
            with open(path, "wb") as file:
                yield file
            files.sync(path)

        with mock.patch.object(files, "whole_file", in_its_place):
            self.found(["open", "edit", "leave", "age", "age"], 40)


if __name__ == "__main__":
    unittest.main()
