"""Tests of lines that are carried out as a whole, of whole layers as rows, and of what all hear that was changed."""

from __future__ import annotations

import contextlib
import errno
import json
import os
import random
import shutil
import signal
import subprocess
import sys
import threading
import time
import unittest
from unittest import mock

from support import PROGRAM, TestCase
from test_web import Listening
from web_support import WebCase

from sfstore import Refused, Store, groups, journal
from sfstore.web.batches import Batch, LineRefused, batch_of, carry_out, is_group
from sfstore.web.batchlog import BatchLog, new_mark
from sfstore.web.changed import Changed, changed_by, merged
from sfstore.web.changes import Target
from sfstore.web.keeper import Asked, Keeper, Unavailable, loaded
from sfstore.web.rows import ROWS_MAX, rows_of
from sfstore.web.steps import Step, Steps

SQUARE = "POLYGON ((0 0, 100 0, 100 100, 0 100, 0 0))"
CROSSED = "POLYGON ((0 0, 10 10, 10 0, 0 10, 0 0))"
MADE = (
    f"layer add p polygon\nlayer add w point\ncolumn add p owner text\ncolumn add p number int\nadd p {SQUARE}\n"
    f"add p {SQUARE}\nadd p {SQUARE}\nset p 1 owner 'Dunn'\nset p 2 number 2\n"
).encode()

# One that does as the real one, but takes its time for each line that sets a value behind a file, while a file is there.
SLEEPS = """\
#!{python}
import os, subprocess, sys, time
child = subprocess.Popen([{program!r}, *sys.argv[1:]], stdin=subprocess.PIPE, close_fds=False)
for line in sys.stdin.buffer:
    if sys.argv[1].startswith("--load") and b" set " in line and os.path.exists({flag!r}):
        child.kill()
        time.sleep(20)
    child.stdin.write(line)
    child.stdin.flush()
"""
# A program that does as the real one, but has no memory for more undos than a file says, while that is there.
# Only the program that keeps the journal has no memory, for an addition of a third column and for further undos: another one
# carries all out.
NO_MEMORY = """\
#!{python}
import os, subprocess, sys
child = subprocess.Popen([{program!r}, *sys.argv[1:]], stdin=subprocess.PIPE, stdout=subprocess.PIPE, close_fds=False)
undone, keeps = 0, any(word.startswith("--store") for word in sys.argv)
for line in sys.stdin.buffer:
    is_undo = line.split()[1:2] == [b"undo"]
    if keeps and os.path.exists({flag!r}) and (is_undo or b" three " in line):
        undone += is_undo
        if not is_undo or undone > int(open({flag!r}).read()):
            sys.stdout.buffer.write(b"refused 1 Memory\\n")
            sys.stdout.buffer.flush()
            continue
    child.stdin.write(line)
    child.stdin.flush()
    told = child.stdout.readline()
    count = int(told[5:]) if told.startswith(b"rows ") else 0
    sys.stdout.buffer.write(told + b"".join(child.stdout.readline() for _ in range(count)))
    sys.stdout.buffer.flush()
child.stdin.close()
sys.exit(child.wait())
"""


class BatchCase(WebCase):
    """Two people over a store with three parcels."""

    def setUp(self):
        super().setUp()
        self.make(MADE)
        self.serving = self.serve()
        self.ann, self.ben = self.serving.log_in("Ann"), self.serving.log_in("Ben")

    def batch(self, person, *lines, seen=None):
        """The status and the answer of a batch, by a page that has seen all if nothing else is said."""
        version = person.version() if seen is None else seen
        body = {"page": person.page, "lines": list(lines), "seen": [version] * len(lines)}
        return self.serving.posted("/batch", person.key, **body)

    def done(self, person, *lines):
        status, answer = self.batch(person, *lines)
        self.assertEqual((status, answer.get("refused")), (200, None), answer)
        return answer["answers"]

    def refused(self, person, *lines):
        status, answer = self.batch(person, *lines)
        self.assertEqual(status, 200, answer)
        refused = answer["refused"]
        return refused["number"], refused["line"]

    def shown(self, layer="p"):
        return self.ann.line(f"show {layer}")["rows"]


class Whole(BatchCase):
    """All of a batch, or nothing of it."""

    def test_lines_of_several_layers(self):
        lines = [f"add p {SQUARE}", "set p last owner 'O''New'", "add w POINT (1 1)", "set p 1 number 7", "delete p 2"]
        self.assertEqual(self.done(self.ann, *lines), ["ok 4", "ok", "ok 1", "ok", "ok"])
        self.assertEqual(
            self.shown(), [f"1 {SQUARE} owner='Dunn' number=7", f"3 {SQUARE}", f"4 {SQUARE} owner='O''New'"]
        )
        self.assertEqual(self.shown("w"), ["1 POINT (1 1)"])

    def test_last_is_the_nearest_addition_before_it_to_the_same_layer(self):
        lines = [
            "add w POINT (1 1)",
            f"add p {SQUARE}",
            f"addhex p {self.ann.answer('hex p 1')}",
            "set p last owner 'second'",
            "delete w last",
            "add w POINT (2 2)",
            " vertex  move\tw  last 0 0 0 9 9 ",
            f"add p {SQUARE}",
            "set p last owner 'third'",
            "unset p last owner",
        ]
        self.done(self.ann, *lines)
        self.assertEqual(self.shown()[3:], [f"4 {SQUARE}", f"5 {SQUARE} owner='second'", f"6 {SQUARE}"])
        self.assertEqual(self.shown("w"), ["2 POINT (9 9)"])

    def test_nothing_is_done_where_a_line_is_refused(self):
        before, window = self.shown(), self.serving.call("/map")["layers"]
        for number, at, lines in (
            (13, 1, ["delete p 3", f"add p {CROSSED}"]),
            (13, 1, ["delete p 3", f"replace p 1 {CROSSED}"]),
            (26, 1, ["delete p 3", "add p POINT (1 1)"]),
            (22, 1, ["set p 1 owner 'x'", "set p 1 nix 'x'"]),
            (24, 3, ["delete p 3", f"add p {SQUARE}", "set p 1 owner 'x'", "set p last owner 5"]),
            (21, 0, ["set p 9 owner 'x'", "delete p 3"]),
            (19, 2, ["column add p more int", "layer add q any", "layer add w any"]),
            (31, 0, ["nonsense", "delete p 3"]),
            (2, 1, ["layer drop w", "add p POLYGON"]),
        ):
            with self.subTest(lines=lines):
                self.assertEqual(self.refused(self.ann, *lines), (number, at))
                self.assertEqual(self.shown(), before)
                self.assertEqual(self.serving.call("/map")["layers"], window)

    def test_a_group_that_breaks_a_rule_is_refused_with_the_rule_and_no_line(self):
        self.ann.answer("rule add few never w equals w")
        self.done(self.ann, "add w POINT (1 1)")
        before = self.shown("w")
        for lines in (["add w POINT (2 2)", "add w POINT (1 1)"], ["add w POINT (1 1)", "add w POINT (2 2)", "delete w last"]):
            status, answer = self.batch(self.ann, *lines)
            refused = answer["refused"]
            self.assertEqual((status, refused["number"], refused.get("line"), refused.get("place")), (200, 37, None, None))
            there, new = refused["broken"]["features"]
            self.assertEqual((refused["broken"]["rule"], there["id"], there["members"]), ("few never w equals w", 1, [[[1, 1]]]))
            self.assertNotIn("members", new)
            self.assertEqual(self.shown("w"), before)

    def test_a_line_of_a_batch_that_breaks_a_rule_is_named(self):
        self.ann.answer("rule add few never w equals w")
        status, answer = self.batch(self.ann, "column add w n int", "add w POINT (1 1)", "add w POINT (1 1)")
        self.assertEqual((status, answer["refused"]["number"], answer["refused"]["line"]), (200, 37, 2))
        self.assertEqual((self.shown("w"), self.ann.line("columns w")["rows"]), ([], []))

    def test_a_refused_geometry_is_told_with_its_place_and_leaves_no_trace(self):
        self.ann.answer("set p 1 owner 'x'")
        self.ann.answer("undo")
        version = self.ann.version()
        _, answer = self.batch(self.ann, "delete p 2", f"add p {CROSSED}")
        self.assertEqual(answer["refused"]["place"]["points"], [[5, 5]])
        self.assertEqual(answer["refused"]["members"], [[[0, 0, 10, 10, 10, 0, 0, 10, 0, 0]]])
        self.assertEqual(self.ann.version(), version)
        self.assertEqual(self.ann.answer("redo"), "ok")

    def test_what_was_taken_back_can_not_be_redone(self):
        before = self.shown()
        self.refused(self.ann, "column add p more int", "delete p 1", "set p 2 nix 1")
        for _ in range(2):
            self.ann.line("redo")
            self.assertEqual(self.shown(), before)

    def test_a_batch_that_is_refused_leaves_what_can_be_redone(self):
        self.ann.answer("set p 1 number 7")
        self.ann.answer("undo")
        before, told = self.shown(), self.serving.call("/map")
        self.assertEqual(self.refused(self.ben, "column add p more int", "delete p 1", "set p 2 nix 1")[1], 2)
        self.assertEqual((self.shown(), self.serving.call("/map")["redo"]), (before, told["redo"]))
        self.assertEqual(self.serving.call("/map")["version"], told["version"])
        self.assertEqual(self.ann.answer("redo"), "ok")
        self.assertNotEqual(self.shown(), before)
        # One that is carried out leaves nothing, as any edit.
        self.ann.answer("undo")
        self.assertEqual(self.done(self.ben, "column add p more int", "set p 1 more 5"), ["ok", "ok"])
        self.assertIsNone(self.serving.call("/map")["redo"])

    def test_a_batch_that_is_refused_leaves_nothing_to_redo_and_no_trace(self):
        self.ann.answer("set p 1 number 7")
        before, told, done = self.shown(), self.serving.call("/map"), self.entries()
        for lines in (["column add p more int", "delete p 1", "set p 2 nix 1"], ["layer add q any", "delete p 1", "layer add q any"]):
            self.assertEqual(self.refused(self.ben, *lines)[1], 2)
            self.assertEqual(self.shown(), before)
            now = self.serving.call("/map")
            self.assertEqual((now["undo"], now["redo"], now["version"]), (told["undo"], None, told["version"]))
            self.assertEqual(self.entries(), done)
            for person in (self.ann, self.ben):
                self.assertEqual(person.refused("redo")["name"], "NothingToRedo")
        # The journal has nothing of it either.
        self.serving.end(signal.SIGKILL)
        self.serving = self.serve()
        self.ann = self.serving.log_in("Ann")
        self.assertEqual(self.ann.refused("redo")["name"], "NothingToRedo")
        self.assertEqual(self.ann.answer("undo"), "ok")
        self.assertEqual(self.ann.refused("undo")["name"], "NothingToUndo")

    def entries(self):
        return self.serving.call("/history", before=None, count=9)["entries"]

    def test_of_a_store_without_layers_nothing_of_what_was_refused_can_be_redone(self):
        for name in ("p", "w"):
            self.ann.answer(f"layer drop {name}")
        self.ann.answer("undo")
        self.ann.answer("redo")
        self.assertEqual(self.refused(self.ann, "layer add a point", "layer add a point", "column add a v int")[1], 1)
        self.assertEqual(self.refused(self.ann, "layer add a point", "add a POINT (1 1)", f"add a last {SQUARE}")[1], 2)
        self.assertIsNone(self.serving.call("/map")["redo"])
        self.assertEqual(self.ann.refused("redo")["name"], "NothingToRedo")
        self.assertEqual(self.done(self.ann, "layer add a point", "add a POINT (1 1)"), ["ok", "ok 1"])
        # What could be redone before, can be still.
        self.ann.answer("undo")
        self.ann.answer("layer add z point")
        self.ann.answer("undo")
        self.assertEqual(self.refused(self.ann, "layer add a point", "layer add a point")[1], 1)
        self.assertEqual(self.ann.answer("redo"), "ok")
        self.assertEqual([layer["name"] for layer in self.serving.call("/map")["layers"]], ["z"])

    def test_of_a_store_without_layers_a_line_that_is_too_long_for_its_editor_alone_leaves_nothing_to_redo(self):
        """By itself the line is as long as one may be. Its editor stands before it, and a mark of the batch behind it."""
        for layer in ("p", "w"):
            self.ann.answer(f"layer drop {layer}")
        self.ann.line("save")
        most = 4_194_304
        for length in (most, most - 3, most - 5):
            line = "add a POINT (1 1)"
            told = self.refused(self.ann, "layer add a point", line + " " * (length - len(line)))
            self.assertEqual(told, (33, 1))
            self.assertEqual(self.ann.refused("redo")["name"], "NothingToRedo")
        self.assertEqual(self.ann.line("layers")["rows"], [])

    def test_a_geometry_of_a_layer_that_the_batch_adds(self):
        self.assertEqual(self.done(self.ann, "layer add q polygon", f"add q {SQUARE}"), ["ok", "ok 1"])
        before = self.serving.call("/map")["layers"]
        self.assertEqual(self.refused(self.ann, "layer add r polygon", f"add r {CROSSED}"), (13, 1))
        self.assertEqual(self.serving.call("/map")["layers"], before)

    def test_a_geometry_of_a_layer_that_is_another_one_behind_a_line_of_the_batch(self):
        self.assertEqual(self.done(self.ann, "layer drop w", "layer add w polygon", f"add w {SQUARE}")[2], "ok 1")
        self.assertEqual(self.ann.answer("undo"), "ok")
        self.assertEqual(self.done(self.ann, "layer rename w v", "layer rename p w", f"add w {SQUARE}")[2], "ok 4")
        self.assertEqual(self.ann.answer("undo"), "ok")
        # It becomes another one behind the line, or one of the same kind.
        self.assertEqual(self.refused(self.ann, f"add w {SQUARE}", "layer rename w v", "layer rename p w"), (26, 0))
        self.assertEqual(self.refused(self.ann, "layer drop w", "layer add w point", f"add w {SQUARE}"), (26, 2))
        self.assertEqual(len(self.shown()), 3)

    def test_last_is_of_no_layer_that_is_another_one_behind_it(self):
        before = self.shown()
        for behind in (
            ["layer rename w v", "layer rename p w"],
            ["layer drop w", "layer add w point"],
            ["column drop w n", "column add w n int"],
        ):
            with self.subTest(behind=behind):
                status, told = self.batch(self.ann, "add w POINT (7 7)", "set w last n 5", *behind)
                self.assertEqual(status, 400)
                self.assertIn("a line behind 'set w last n 5'", told["error"])
        self.assertEqual(self.shown(), before)
        self.assertEqual(self.ann.refused("redo")["name"], "NothingToRedo")

    def test_many_lines(self):
        lines = [line for k in range(700) for line in (f"add w POINT ({k} 0)", "set w last n 5")]
        self.assertEqual(self.refused(self.ann, *lines)[0], 22)
        self.assertEqual(self.shown("w"), [])
        self.done(self.ann, "column add w n int", *lines)
        self.assertEqual(len(self.shown("w")), 700)
        self.assertEqual(self.ann.answer("undo"), "ok")
        self.assertEqual(self.shown("w"), [])
        self.assertEqual(self.ann.line("columns w"), {"rows": [], "count": 0})


class Groups(BatchCase):
    """Batches of edits of features alone: the program carries them out as groups."""

    LINES = [f"add p {SQUARE}", "set p last owner 'x'", "delete p 2"]

    def test_what_is_a_group(self):
        for lines, wanted in (
            (self.LINES, True),
            (["delete p 1"], False),
            (["delete p 1", "column drop p owner"], False),
            (["delete p 1", "layer add q any"], False),
            (["delete p 1", "nonsense"], False),
            (["delete p 1\r", "delete p 2"], True),
            (["delete p 1", "set p 2 owner 'a\rb'"], False),
            (["delete p 1"] * 65_535, True),
            (["delete p 1"] * 65_536, False),
        ):
            self.assertEqual(is_group(lines), wanted, lines[:2])

    def test_a_group_is_one_record_and_one_version(self):
        version = self.ann.version()
        status, answer = self.batch(self.ann, *self.LINES)
        self.assertEqual((status, answer["answers"]), (200, ["ok 4", "ok", "ok"]))
        self.assertEqual((answer["version"], self.ann.version()), (version + 1, version + 1))
        self.assertFalse(os.path.exists(f"{self.path}.batches"))
        self.serving.end(signal.SIGKILL)
        with Store(self.path, journal=True, program=PROGRAM) as store:
            self.assertEqual(store.unsaved_lines, [f"@{self.ann.editor} {groups.text_of(self.LINES)}"])
            store.close(save=False)

    def test_a_refused_group_leaves_what_can_be_redone(self):
        self.ann.answer("set p 1 owner 'x'")
        self.ann.answer("undo")
        version = self.ann.version()
        self.assertEqual(self.refused(self.ann, "delete p 2", "set p 1 nix 5"), (22, 1))
        self.assertEqual((self.ann.version(), self.ann.answer("redo")), (version, "ok"))

    def test_a_refusal_names_its_member_and_its_place(self):
        _, answer = self.batch(self.ann, "delete p 2", f"replace p 1 {CROSSED}")
        refused = answer["refused"]
        self.assertEqual((refused["number"], refused["line"], refused["member"]), (13, 1, 2))
        self.assertEqual(refused["place"]["points"], [[5, 5]])
        _, answer = self.batch(self.ann, "delete p 2", "vertex move p 1 0 0 1 0 50")
        self.assertEqual((answer["refused"]["number"], "place" in answer["refused"]), (13, False))

    def test_a_group_as_a_line(self):
        text = groups.text_of(self.LINES)
        self.assertEqual(self.ann.line(text)["answer"], "ok 4")
        refused = self.ann.refused("together 2\rdelete p 1\rdelete p 1")
        self.assertEqual((refused["number"], refused["member"]), (21, 2))
        self.assertEqual(self.ann.answer("undo"), "ok")
        self.assertEqual(len(self.shown()), 3)
        seen = self.ben.version()
        self.ann.answer("set p 2 owner 'Ann'")
        status, answer = self.serving.posted("/line", self.ben.key, page="page", line=text, seen=seen)
        self.assertEqual((status, answer), (409, {"error": "Ann changed p 2 meanwhile: look again."}))
        status, answer = self.serving.posted("/line", self.ben.key, page="page", line="together 2", seen=seen)
        self.assertEqual(status, 400)
        self.assertIn("begins a group", answer["error"])

    def test_a_program_that_follows_has_groups_too(self):
        self.assertEqual(len(self.shown()), 3)
        for _ in range(3):
            self.done(self.ann, *self.LINES[:2], "vertex insert p last 0 0 1 50 0")
            self.assertEqual(self.shown()[-1].count("50 0"), 1)
            for verb, count in (("undo", 3), ("redo", 4), ("undo", 3)):
                self.ann.answer(verb)
                self.assertEqual(len(self.shown()), count)


class OneStep(BatchCase):
    """A batch is one step, of who gave it."""

    def test_a_batch_is_undone_and_redone_as_one(self):
        before = self.shown()
        self.ann.answer("set p 3 number 3")
        self.done(self.ann, "set p 1 owner 'x'", f"add p {SQUARE}", "set p last owner 'y'")
        after = self.shown()
        self.assertEqual(self.ann.answer("undo"), "ok")
        self.assertEqual(self.shown()[2], f"3 {SQUARE} number=3")
        self.assertEqual(self.ann.answer("undo"), "ok")
        self.assertEqual(self.shown(), before)
        self.ann.answer("redo")
        self.ann.answer("redo")
        self.assertEqual(self.shown(), after)
        self.assertEqual(self.ann.refused("redo")["number"], 30)

    def test_nobody_else_undoes_a_batch(self):
        self.done(self.ann, "set p 1 owner 'x'", "set p 2 owner 'x'")
        before = self.shown()
        self.assertEqual(self.ben.refused("undo")["whose"]["editor"], "Ann")
        self.assertEqual(self.shown(), before)
        self.ann.answer("undo")
        self.assertEqual(self.ben.refused("redo")["number"], 36)

    def test_two_batches_of_one_person_are_two_steps(self):
        self.done(self.ann, "set p 1 owner 'x'", "set p 2 owner 'x'")
        self.done(self.ann, "set p 1 owner 'y'", "set p 2 owner 'y'")
        self.ann.answer("undo")
        self.assertIn("owner='x'", self.shown()[0])
        self.ann.answer("undo")
        self.assertIn("owner='Dunn'", self.shown()[0])


class Meanwhile(BatchCase):
    """What somebody else has changed is not overwritten."""

    def test_a_batch_that_has_not_seen_a_feature_is_not_carried_out(self):
        seen = self.ben.version()
        self.ann.answer("set p 2 owner 'Ann'")
        before = self.shown()
        status, answer = self.batch(self.ben, "set p 1 owner 'Ben'", "set p 2 owner 'Ben'", seen=seen)
        self.assertEqual((status, answer), (409, {"error": "Ann changed p 2 meanwhile: look again."}))
        self.assertEqual(self.shown(), before)
        self.assertEqual(self.batch(self.ben, "set p 1 owner 'Ben'", seen=seen)[0], 200)

    def test_an_undone_batch_counts_as_a_change_of_each_feature(self):
        self.done(self.ann, "set p 1 owner 'Ann'", "set p 2 owner 'Ann'")
        seen = self.ben.version()
        self.ann.answer("undo")
        for feature in (1, 2):
            self.assertEqual(self.batch(self.ben, f"delete p {feature}", seen=seen)[0], 409)

    def test_a_value_of_an_addition_does_not_go_into_another_column_of_its_name(self):
        lines, before = [f"add p {SQUARE}", "set p last owner 'Ben''s'"], self.shown()
        for changes, what, by in (
            (["column drop p owner", "column add p owner text"], "column owner of p", "column add p owner text"),
            (["column drop p owner", "undo"], "column owner of p", "undo: column drop p owner"),
            (["layer rename p q", "layer add p polygon", "column add p owner text"], "layer p", "layer add p polygon"),
        ):
            with self.subTest(changes=changes):
                seen = self.ben.version()
                for line in changes:
                    self.ann.answer(line)
                words = f"Ann changed the {what} meanwhile, by `{by}`: look again."
                self.assertEqual(self.batch(self.ben, *lines, seen=seen), (409, {"error": words}))
                group = self.ben.posted("\r".join(["together 2", *lines]), seen)
                self.assertEqual(group, (409, {"error": words}))
        self.assertNotIn("Ben", "".join(self.shown()))
        self.assertEqual(len(self.shown("q")), len(before))

    def test_nothing_is_done_to_a_layer_that_has_taken_the_name_of_another_one(self):
        """Whatever means a layer by its name, in a batch, in a line or in a group."""
        self.ann.answer("layer add fields polygon")
        seen = self.ben.version()
        swap = ["layer rename p q", "layer rename fields p", "column add p owner text"]
        for line in swap:
            self.ann.answer(line)
        words = "Ann changed the layer p meanwhile, by `layer rename fields p`: look again."
        meant = [
            f"add p {SQUARE}", f"addhex p {self.ann.answer('hex q 1')}", "layer drop p", "layer rename p r", "layer move p 0",
            "column add p more int", "rule add one never p overlaps w", "rule add two each w within some p",
            "rule add three never w near 2 p", "rule add four required p owner",
        ]
        for line in meant:
            with self.subTest(line=line):
                self.assertEqual(self.batch(self.ben, line, seen=seen), (409, {"error": words}))
                self.assertEqual(self.ben.posted(line, seen), (409, {"error": words}))
        dropped = "column drop p owner"
        self.assertIn("meanwhile", self.batch(self.ben, dropped, seen=seen)[1]["error"])
        group = "\r".join(["together 1", meant[0]])
        self.assertEqual(self.ben.posted(group, seen), (409, {"error": words}))
        self.assertEqual(self.shown("p"), [])
        # Who does not say what they have seen is asked nothing, and who has seen the layer is let in.
        body = {"page": "script", "lines": [meant[0]], "seen": [None]}
        self.assertEqual(self.serving.posted("/batch", self.ben.key, **body)[0], 200)
        for said in ({}, {"seen": None}):
            status, answer = self.serving.posted("/line", self.ben.key, page="script", line=meant[0], **said)
            self.assertEqual((status, "answer" in answer), (200, True), answer)
        self.assertEqual(self.batch(self.ben, *meant[:2])[0], 200)
        self.assertEqual(len(self.shown("p")), 5)

    def test_a_layer_is_the_same_behind_what_leaves_it_or_brings_it_back(self):
        for changes in (
            [f"add p {SQUARE}", "set p 1 owner 'Ann'", "column add p more int", "column drop p more", "layer move p 0"],
            ["layer rename p q", "undo"],
            ["layer rename p q", "layer rename q p"],
            ["layer drop p", "undo"],
            ["layer rename p q", "undo", "redo", "undo"],
            ["layer rename p q", "layer add p point", "undo", "undo"],
        ):
            with self.subTest(changes=changes):
                seen = self.ben.version()
                for line in changes:
                    self.ann.answer(line)
                self.assertEqual(self.batch(self.ben, f"add p {SQUARE}", seen=seen)[0], 200)
                self.ben.answer("undo")

    def test_a_name_that_an_undo_brings_back_is_compared_with_what_was_seen(self):
        """What was seen between a change and its undo is another layer than the one that is there behind it."""
        self.ann.answer("layer add fields polygon")
        for line in ("layer rename p q", "layer rename fields p"):
            self.ann.answer(line)
        seen = self.ben.version()
        self.ann.answer("undo")
        self.ann.answer("undo")
        words = "Ann changed the layer p meanwhile, by `undo: layer rename p q`: look again."
        self.assertEqual(self.batch(self.ben, f"add p {SQUARE}", seen=seen), (409, {"error": words}))

    def test_layers_that_lines_before_make_are_theirs(self):
        seen = self.ben.version()
        for line in ("layer add new point", "layer drop new", "layer rename w x"):
            self.ann.answer(line)
        self.assertEqual(self.batch(self.ben, "layer add new polygon", f"add new {SQUARE}", seen=seen)[0], 200)
        lines = ["layer rename p w", f"add w {SQUARE}"]
        self.assertEqual(self.batch(self.ben, *lines, seen=seen)[0], 200)
        # What the page has done itself it knows.
        self.ben.answer("layer rename w p")
        self.assertEqual(self.ben.posted(f"add p {SQUARE}", seen)[0], 200)

    def test_a_value_of_an_addition_waits_for_no_other_column(self):
        seen = self.ben.version()
        self.ann.answer("column add p more text")
        self.ann.answer("set p 1 owner 'Ann'")
        lines = [f"add p {SQUARE}", "set p last owner 'Ben''s'"]
        self.assertEqual(self.batch(self.ben, *lines, seen=seen)[0], 200)
        # A feature that was there is seen with all of its columns.
        self.assertEqual(self.batch(self.ben, "set p 2 owner 'Ben''s'", seen=seen)[0], 409)

    def test_a_batch_that_was_refused_is_no_change(self):
        seen = self.ben.version()
        self.refused(self.ann, "set p 2 owner 'Ann'", "set p 2 nix 'Ann'")
        self.assertEqual(self.batch(self.ben, "set p 2 owner 'Ben'", seen=seen)[0], 200)

    def test_calls_that_are_none(self):
        version = self.ann.version()
        for lines, seen in (
            ([], []),
            ("delete p 1", [version]),
            (["delete p 1"], [None]),
            (["delete p 1"], []),
            (["delete p 1"], [1.5]),
            (["delete p 1"], [-1]),
            (["delete p 1"], [True]),
            (["delete p 1", 5], [version, version]),
            (["delete p 1\ndelete p 2"], [version]),
            (["delete p 1", "  "], [version, None]),
            (["undo"], [None]),
            ([" \tundo "], [None]),
            (["@2 delete p 1"], [version]),
            (["show p"], [None]),
            (["set p last owner 'x'"], [None]),
            (["set p last owner 'x'", f"add p {SQUARE}"], [None, None]),
            (["add p \ud800"], [None]),
        ):
            with self.subTest(lines=lines, seen=seen):
                body = json.dumps({"page": "page", "lines": lines, "seen": seen}).encode()
                headers = {"Authorization": f"Bearer {self.ann.key}"}
                self.assertEqual(self.serving.request("POST", "/batch", body, **headers)[0], 400)
        self.assertEqual(self.ann.version(), version)


class Told(BatchCase):
    """What all hear."""

    def setUp(self):
        super().setUp()
        self.page = Listening(self.serving)
        self.addCleanup(self.page.close)
        self.page.next()

    def changed(self):
        return [tuple(each.values()) for each in self.page.next()["changed"]]

    def test_what_each_edit_has_changed(self):
        for line, changed in (
            ("add w POINT (1 1)", [("added", "w", 1)]),
            ("undo", [("deleted", "w", 1)]),
            ("redo", [("added", "w", 1)]),
            ("replace w 1 POINT (2 2)", [("changed", "w", 1)]),
            ("vertex move w 1 0 0 0 3 3", [("changed", "w", 1)]),
            ("undo", [("changed", "w", 1)]),
            ("set p 1 owner 'x'", [("changed", "p", 1)]),
            ("unset p 1 owner", [("changed", "p", 1)]),
            ("delete p 1", [("deleted", "p", 1)]),
            ("undo", [("added", "p", 1)]),
            ("column add w n int", [("columns", "w", None)]),
            ("column drop w n", [("columns", "w", None)]),
            ("layer add q any", [("layers", "q", None)]),
            ("layer rename q r", [("layers", "q", None), ("layers", "r", None)]),
            ("layer move r 0", [("layers", None, None)]),
            ("layer drop r", [("layers", "r", None)]),
            ("undo", [("layers", "r", None)]),
        ):
            with self.subTest(line=line):
                self.ann.answer(line)
                self.assertEqual(self.changed(), changed)

    def test_a_batch_is_heard_once(self):
        lines = [f"add p {SQUARE}", "set p last owner 'x'", "set p 1 owner 'y'", "set p 1 number 4", "delete p 2"]
        self.done(self.ann, *lines)
        told = self.page.next()
        self.assertEqual((told["line"], told["step"], told["page"]), ("together 5", f"add p {SQUARE}", "page"))
        self.assertEqual(told["undo"]["line"], f"together 5: add p {SQUARE}")
        changed = [tuple(each.values()) for each in told["changed"]]
        self.assertEqual(sorted(changed), [("added", "p", 4), ("changed", "p", 1), ("deleted", "p", 2)])
        self.assertEqual(told["version"], self.ann.version())
        self.ann.answer("undo")
        told = self.page.next()
        self.assertEqual((told["line"], told["step"]), ("undo", f"together 5: add p {SQUARE}"))
        changed = [tuple(each.values()) for each in told["changed"]]
        self.assertEqual(sorted(changed), [("added", "p", 2), ("changed", "p", 1), ("deleted", "p", 4)])
        self.ann.answer("redo")
        changed = [tuple(each.values()) for each in self.page.next()["changed"]]
        self.assertEqual(sorted(changed), [("added", "p", 4), ("changed", "p", 1), ("deleted", "p", 2)])

    def test_a_batch_with_columns_is_heard_once(self):
        self.done(self.ann, "column add p more int", f"add p {SQUARE}", "set p last more 5")
        told = self.page.next()
        self.assertEqual((told["line"], told["step"]), ("together 3", "column add p more int"))
        self.assertEqual(self.changed_of(told), [("columns", "p", None), ("added", "p", 4)])
        self.ann.answer("undo")
        self.assertEqual(self.changed_of(self.page.next()), [("deleted", "p", 4), ("columns", "p", None)])

    def changed_of(self, told):
        return [tuple(each.values()) for each in told["changed"]]

    def test_of_a_batch_that_is_refused_nothing_is_heard(self):
        self.refused(self.ann, "column add p more int", "delete p 1", "set p 2 nix 1")
        self.ann.answer("delete p 3")
        self.assertEqual(self.page.next()["line"], "delete p 3")

    def test_changes_of_one_feature_are_told_as_one(self):
        changes = [Changed("added", "p", 1), Changed("changed", "p", 1), Changed("changed", "p", 2), Changed("deleted", "p", 2)]
        changes += [Changed("columns", "p", None), Changed("changed", "p", None)]
        told = [tuple(each.values()) for each in merged(changes)]
        expected = [("added", "p", 1), ("deleted", "p", 2), ("columns", "p", None), ("changed", "p", None)]
        self.assertEqual(told, expected)

    def test_a_group_of_a_journal(self):
        members = ["add p POINT (1 1)", "set p last n 5", "delete w 3", "addhex w 01", "delete w last"]
        text = groups.text_of(members)
        steps = Steps([f"@2 {text}", "undo"])
        step = steps.to_redo
        self.assertEqual((steps.to_undo, step.editor, step.line), (None, 2, "together 5: add p POINT (1 1)"))
        self.assertEqual(step.targets, (Target("p", None), Target("w", 3), Target("w", None)))
        changes = [("deleted", "w", 3), ("added", "p", 8), ("changed", "p", 8), ("added", "w", 4), ("deleted", "w", 4)]
        step = Steps().take(2, text, "ok 8 4")
        self.assertEqual(sorted(changed_by(text, step)), sorted(changes))
        back = [("added", "w", 4), ("deleted", "w", 4), ("added", "w", 3), ("changed", "p", 8), ("deleted", "p", 8)]
        self.assertEqual(changed_by("undo", step), back)

    def test_an_addition_of_a_journal_may_have_been_any_feature(self):
        step = Steps(["@1 add p POINT (1 1)"]).to_undo
        self.assertEqual(step, Step(1, "add p POINT (1 1)", (Target("p", None),)))
        self.assertEqual(changed_by("undo", step), [Changed("deleted", "p", None)])


class Rows(BatchCase):
    """Whole layers."""

    def asked(self, path, **body):
        return self.serving.posted(path, self.ann.key, **body)

    def test_the_features_of_a_layer_and_of_a_box(self):
        self.ann.answer("add w POINT (-1073741824 1073741823)")
        self.ann.answer("add w POINT (5 5)")
        version = self.ann.version()
        for box, ids in ((None, [1, 2]), ([0, 0, 9, 9], [2]), ([6, 6, 9, 9], []), ([5, 5, 5, 5], [2])):
            self.assertEqual(self.asked("/ids", layer="w", box=box), (200, {"ids": ids, "version": version}))
        self.assertEqual(self.asked("/ids", layer="p")[1]["ids"], [1, 2, 3])
        self.assertEqual(self.asked("/ids", layer="w", box=[9, 0, 0, 9])[0], 400)

    def test_rows_of_those_that_are_there(self):
        answer = {"rows": [f"3 {SQUARE}", f"1 {SQUARE} owner='Dunn'"], "version": self.ann.version()}
        self.assertEqual(self.asked("/rows", layer="p", ids=[3, 9, 1]), (200, answer))
        self.assertEqual(self.asked("/rows", layer="p", ids=[])[1]["rows"], [])

    def test_an_answer_has_what_was_heard_of_before(self):
        for k in range(20):
            self.ann.answer(f"set p 1 number {k}")
            self.assertIn(f"number={k}", self.asked("/rows", layer="p", ids=[1])[1]["rows"][0])

    def test_calls_that_are_none(self):
        for body in (
            {"layer": "p", "ids": [1.0]},
            {"layer": "p", "ids": [-1]},
            {"layer": "p", "ids": [True]},
            {"layer": "p", "ids": [2**32]},
            {"layer": "p", "ids": list(range(ROWS_MAX + 1))},
            {"layer": "p", "ids": "1"},
            {"layer": "p"},
            {"layer": "p 1\nundo", "ids": [1]},
            {"layer": 5, "ids": [1]},
        ):
            self.assertEqual(self.asked("/rows", **body)[0], 400, str(body)[:60])
        self.assertEqual(self.asked("/rows", layer="nix", ids=[1])[1]["refused"]["number"], 18)
        self.assertEqual(self.asked("/ids", layer="nix")[1]["refused"]["number"], 18)

    def test_more_than_one_line_asks_for(self):
        with Store(program=PROGRAM) as store:
            store.add_layer("w", "point")
            store.run_all(f"add w POINT ({k} 0)" for k in range(2_500))
            store.delete("w", 1_500)
            wanted = list(range(2_500, 0, -1))
            rows = rows_of(store, "w", wanted)
            self.assertEqual([int(row.split(" ")[0]) for row in rows], [each for each in wanted if each != 1_500])
            with self.assertRaises(Refused):
                rows_of(store, "nix", [])


class AtRandom(TestCase):
    """Batches at random against a store that gets the lines of those that are accepted alone."""

    def test_batches_by_a_seed(self):
        for seed in range(6):
            rng = random.Random(seed)
            with self.subTest(seed=seed), Store(program=PROGRAM) as store, Store(program=PROGRAM) as plain:
                for line in MADE.decode().splitlines():
                    store.run(line)
                    plain.run(line)
                for _ in range(60):
                    self.one(rng, store, plain)

    def one(self, rng, store, plain):
        """A batch: where it is accepted, its undoing and redoing too; both stores are alike then."""
        lines = [self.line(rng) for _ in range(rng.randrange(1, 6))]
        before = self.content(store)
        outcome = carry_out(store.editor(1), batch_of(1, "page", lines, [1] * len(lines)).lines)
        if outcome.refused is not None:
            self.assertEqual(self.content(store), before, lines)
            return
        after = self.content(store)
        store.editor(1).run_all(["undo"] * len(lines))
        self.assertEqual(self.content(store), before, lines)
        store.editor(1).run_all(["redo"] * len(lines))
        self.assertEqual(self.content(store), after, lines)
        plain.run_all(line for line, _ in outcome.accepted)
        self.assertEqual(self.content(plain), after, lines)

    def line(self, rng):
        feature = rng.randrange(1, 8)
        return rng.choice(
            [
                f"add p {SQUARE}",
                f"add w POINT ({rng.randrange(99)} 5)",
                f"set p {feature} owner 'x{rng.randrange(9)}'",
                f"unset p {feature} owner",
                f"set p {feature} number {rng.randrange(9)}",
                f"delete p {feature}",
                f"replace p {feature} {rng.choice([SQUARE, SQUARE, CROSSED])}",
                f"set p {feature} nix 5" if rng.random() < 0.3 else f"set p {feature} number 1",
            ]
        )

    def content(self, store):
        return [store.show(layer) for layer in ("p", "w")]


class AfterAnEnd(BatchCase):
    """What is there of a batch after the server was killed."""

    GROUP = [f"add p {SQUARE}", "set p 2 owner 'y'", "delete p 1", "set p last owner 'it''s last'"]
    LINES = ["column add p more int", *GROUP, "set p last more 5"]

    def again(self):
        """Kills the server, and begins it anew."""
        self.serving.end(signal.SIGKILL)
        self.serving = self.serve()
        self.ann, self.ben = self.serving.log_in("Ann"), self.serving.log_in("Ben")

    def test_a_batch_that_was_answered_is_there_and_one_step(self):
        for lines in (self.GROUP, self.LINES):
            with self.subTest(lines=lines):
                self.is_there_and_one_step(lines)
                self.ann.answer("undo")

    def is_there_and_one_step(self, lines):
        self.ann.answer("set p 3 owner 'before'")
        before = self.shown()
        self.done(self.ann, *lines)
        after = self.shown()
        for _ in range(2):
            self.again()
            self.assertEqual(self.shown(), after)
        self.assertEqual(self.ben.refused("undo")["whose"]["editor"], "Ann")
        self.ann.answer("undo")
        self.assertEqual(self.shown(), before)
        self.again()
        self.assertEqual(self.shown(), before)
        self.ann.answer("redo")
        self.assertEqual(self.shown(), after)

    def test_one_that_was_refused_is_no_step(self):
        self.ann.answer("set p 3 owner 'before'")
        self.refused(self.ann, "column add p more int", "delete p 1", "set p 2 nix 1", "delete p 3")
        before = self.shown()
        self.again()
        self.assertEqual(self.shown(), before)
        self.ann.answer("undo")
        self.assertNotIn("before", self.shown()[2])

    def test_a_save_begins_anew(self):
        self.done(self.ann, *self.LINES)
        self.assertTrue(os.path.exists(f"{self.path}.batches"))
        self.ann.line("save")
        self.assertFalse(os.path.exists(f"{self.path}.batches"))

    def test_the_file_gives_no_more_than_the_store(self):
        os.chmod(self.path, 0o640)
        self.done(self.ann, *self.LINES)
        self.assertEqual(os.stat(f"{self.path}.batches").st_mode & 0o777, 0o640)

    def test_a_link_in_its_place_is_not_followed(self):
        other = self.folder / "other"
        other.write_text("somebody's")
        os.symlink(other, f"{self.path}.batches")
        self.assertEqual(self.batch(self.ann, *self.LINES)[0], 503)
        self.assertEqual((other.read_text(), len(self.shown())), ("somebody's", 3))


def ended(keeper):
    """Ends a keeper, which may have ended."""
    with contextlib.suppress(RuntimeError):
        keeper.close()


class FullDisk(TestCase):
    """A batch for which the disk has no room."""

    def setUp(self):
        super().setUp()
        disk = self.folder / "disk"
        disk.mkdir()
        words = ["mount", "-t", "tmpfs", "-o", "size=256k", "sfstore-test", str(disk)]
        if shutil.which("mount") is None or subprocess.run(words, capture_output=True, check=False).returncode:
            self.skipTest("a small disk can't be mounted here")
        self.addCleanup(subprocess.run, ["umount", "-l", str(disk)], check=True)
        self.path, self.filler = disk / "town.sfs", disk / "filler"
        with Store(program=PROGRAM, save=self.path) as store:
            store.run_all(MADE.decode().splitlines())

    def fill(self):
        with contextlib.suppress(OSError), self.filler.open("wb", buffering=0) as file:
            while file.write(bytes(4096)):
                pass

    def keeper(self):
        keeper = Keeper(str(self.path), PROGRAM)
        self.addCleanup(ended, keeper)
        return keeper

    def test_its_first_line_alone_stays_once_it_is_answered(self):
        keeper, journal = self.keeper(), self.folder / "disk" / "town.sfs.journal"

        def both(*names):
            return Batch(1, "page", [f"column add p {name} int" for name in names], [None, None])

        keeper.carry_out_all(both("a", "b"))
        # Up to some bytes before the end of a page of the journal, which has room then for no line.
        while (room := -journal.stat().st_size % 4096) > 35:
            text = "x" * max(1, min(200, room - 70))
            keeper.carry_out(Asked(1, "page", f"set p 1 owner '{text}'", None))
        self.fill()
        with self.assertRaises(Unavailable):
            keeper.carry_out_all(both("c", "d"))
        self.filler.unlink()
        self.assertEqual(keeper.carry_out(Asked(1, "page", "column add p c int", None)), "ok")
        for _ in range(2):
            names = [column.name for column in keeper.ask(lambda store: store.columns("p"))]
            self.assertEqual(names, ["owner", "number", "a", "b", "c"])
            self.assertEqual(keeper.steps()[1].line, "column add p c int")
            keeper.close()
            keeper = self.keeper()


class Snapshots(TestCase):
    """What a second program begins with."""

    def setUp(self):
        super().setUp()
        self.path = self.folder / "town.sfs"
        with Store(program=PROGRAM, save=self.path) as store:
            store.run_all(MADE.decode().splitlines())
        self.keeper = Keeper(str(self.path), PROGRAM)
        self.addCleanup(ended, self.keeper)
        self.reads, self.goes_on, self.found = threading.Event(), threading.Event(), []
        self.addCleanup(self.goes_on.set)

    def edit(self, line):
        return self.keeper.carry_out(Asked(1, "page", line, None))

    def snapshot(self):
        """A snapshot, whose file is closed with the test."""
        snapshot = self.keeper.snapshot()
        self.addCleanup(snapshot.opened.file.close)
        return snapshot

    def other(self):
        """A store's file that is another map."""
        path = self.folder / "other.sfs"
        with Store(program=PROGRAM, save=path) as store:
            store.add_layer("other")
        return path

    def test_another_file_under_its_name_is_not_loaded(self):
        """It was looked at some moments before a second program loads it."""
        self.edit("set p 1 number 1")
        snapshot = self.snapshot()
        os.rename(self.other(), self.path)
        with loaded(PROGRAM, snapshot) as store:
            self.assertEqual([layer.name for layer in store.layers()], ["p", "w"])
            self.assertEqual(store.get("p", 1)[0].values["number"], 1)
        with self.assertRaisesRegex(Unavailable, "was changed or taken away by another program"):
            self.keeper.snapshot()

    def test_a_file_that_is_written_over_while_it_is_loaded_is_told(self):
        snapshot, other = self.snapshot(), self.other().read_bytes()
        real = Store.__init__

        def writing(store, *words, **named):
            self.path.write_bytes(other)
            real(store, *words, **named)

        with mock.patch.object(Store, "__init__", writing), self.assertRaisesRegex(Unavailable, "written by another program just now"):
            loaded(PROGRAM, snapshot)

    def test_a_file_that_was_written_over_before_it_is_loaded_is_told(self):
        """While the journal was read: what is loaded would be of two moments."""
        snapshot = self.snapshot()
        self.path.write_bytes(self.other().read_bytes())
        with self.assertRaisesRegex(Unavailable, "written by another program just now"):
            loaded(PROGRAM, snapshot)

    def test_edits_that_do_not_fit_the_file_are_told(self):
        snapshot = self.snapshot()._replace(lines=["set p 99 number 1"])
        with self.assertRaisesRegex(Unavailable, "written by another program just now"):
            loaded(PROGRAM, snapshot)

    def begin(self):
        """Has a snapshot begun, of which the journal is being read."""
        read = journal.bytes_of

        def slow(path):
            if not self.reads.is_set():
                self.reads.set()
                self.goes_on.wait(60)
            return read(path)

        patch = mock.patch("sfstore.journal.bytes_of", slow)
        patch.start()
        self.addCleanup(patch.stop)
        thread = threading.Thread(target=lambda: self.found.append(self.snapshot()))
        thread.start()
        self.assertTrue(self.reads.wait(30))
        return thread

    def test_edits_of_others_do_not_wait_until_the_journal_is_read(self):
        self.edit("set p 1 number 1")
        thread = self.begin()
        edits = []
        editing = threading.Thread(target=lambda: edits.append(self.edit("set p 1 number 2")), daemon=True)
        editing.start()
        editing.join(10)
        self.assertEqual(edits, ["ok"])
        self.goes_on.set()
        thread.join()
        self.assertEqual(self.found[0].lines, ["@1 set p 1 number 1"])
        self.assertEqual(self.snapshot().lines, ["@1 set p 1 number 1", "@1 set p 1 number 2"])
        self.assertEqual(self.snapshot().version, self.found[0].version + 1)

    def test_a_save_meanwhile_begins_it_anew(self):
        self.edit("set p 1 number 1")
        thread = self.begin()
        saving = threading.Thread(target=self.keeper.save, daemon=True)
        saving.start()
        saving.join(10)
        self.assertFalse(saving.is_alive())
        self.edit("set p 1 number 3")
        self.goes_on.set()
        thread.join()
        self.assertEqual(self.found[0].lines, ["@1 set p 1 number 3"])
        self.assertTrue(self.keeper.is_at(self.found[0].file))

    def test_a_journal_that_was_changed_is_told(self):
        self.edit("set p 1 number 1")
        path = self.folder / "town.sfs.journal"
        path.write_bytes(path.read_bytes().replace(b"number 1", b"number 2"))
        with self.assertRaisesRegex(Unavailable, "at place [0-9]+ is damaged"):
            self.keeper.snapshot()


class Trial(TestCase):
    """The second program in which a batch with layers is tried."""

    BATCH = ["layer add a point", "add a POINT (1 1)"]

    def keeper(self, program=PROGRAM, seconds=60.0):
        path = self.folder / "town.sfs"
        with Store(program=PROGRAM, save=path) as store:
            store.run_all(MADE.decode().splitlines())
        keeper = Keeper(str(path), str(program), seconds)
        self.addCleanup(ended, keeper)
        return keeper

    def test_it_has_the_mark_of_the_batch(self):
        """A longer one makes of its line one that is too long."""
        keeper = self.keeper()
        lines = [self.BATCH[0], self.BATCH[1] + " " * (4_194_304 - 20 - len(self.BATCH[1]))]
        with mock.patch("sfstore.web.keeper.new_mark", side_effect=[" " * 8, " " * 63]):
            self.assertEqual(keeper.carry_out_all(Batch(1, "page", lines, [None, None])).answers, ["ok", "ok 1"])

    def test_one_that_takes_too_long_to_load_is_stopped(self):
        flag, program = self.folder / "slow", self.folder / "program"
        program.write_text(f'#!/bin/sh\ncase "$1" in --load=*) [ -e {flag} ] && exec sleep 20;; esac\nexec {PROGRAM} "$@"\n')
        program.chmod(0o755)
        keeper = self.keeper(program, 1.0)
        flag.touch()
        begun = time.monotonic()
        with self.assertRaisesRegex(Unavailable, "took more than 1 seconds to load in a second program, which was stopped. Nothing was done."):
            keeper.carry_out_all(Batch(1, "page", self.BATCH, [None, None]))
        self.assertLess(time.monotonic() - begun, 10)
        # The store is open as it was.
        self.assertEqual(keeper.carry_out(Asked(1, "page", "set p 1 number 5", None)), "ok")
        flag.unlink()
        self.assertEqual(keeper.carry_out_all(Batch(1, "page", self.BATCH, [None, None])).answers, ["ok", "ok 1"])

    def test_nor_may_the_edits_behind_the_file_take_longer(self):
        flag, program = self.folder / "slow", self.folder / "program"
        program.write_text(SLEEPS.format(python=sys.executable, program=PROGRAM, flag=str(flag)))
        program.chmod(0o755)
        keeper = self.keeper(program, 1.0)
        keeper.carry_out(Asked(1, "page", "set p 1 number 5", None))
        flag.touch()
        begun = time.monotonic()
        with self.assertRaisesRegex(Unavailable, "Nothing was done."):
            keeper.carry_out_all(Batch(1, "page", self.BATCH, [None, None]))
        self.assertLess(time.monotonic() - begun, 10)


class Kept(TestCase):
    """What is said of the edits where the store can't be opened."""

    def test_the_journal_is_looked_at_before_anything_is_said_of_it(self):
        path = self.folder / "town.sfs"
        with Store(program=PROGRAM, save=path) as store:
            store.run_all(MADE.decode().splitlines())
        keeper = Keeper(str(path), PROGRAM)
        self.addCleanup(ended, keeper)
        keeper.carry_out(Asked(1, "page", "set p 1 number 5", None))
        records = path.with_name("town.sfs.journal").read_bytes()
        path.write_bytes(b"no store")
        for content, words in (
            (records, "Every edit that was answered is in the journal."),
            (records[:-9], "Look at the last edits: the journal is not as it was behind them"),
            (None, "Look at the last edits: the journal is not as it was behind them"),
        ):
            path.with_name("town.sfs.journal").unlink()
            if content is not None:
                path.with_name("town.sfs.journal").write_bytes(content)
            with self.subTest(content=content), self.assertRaisesRegex(Unavailable, words):
                keeper.ask(lambda store: store.stop() or store.layers())


class Cut(TestCase):
    """Journals that end in the middle of a batch, or of its being taken back."""

    SENT = [f"add p {SQUARE}", "set p 2 owner 'y'", "delete p 1", "set p last owner 'x'"]
    RECORDS = [*SENT[:3], "set p 4 owner 'x'"]

    def setUp(self):
        super().setUp()
        self.path = self.folder / "town.sfs"
        with Store(program=PROGRAM, save=self.path) as store:
            store.run_all(MADE.decode().splitlines())

    def opened(self, records, sent=None, behind=(), spoil=lambda data: data):
        """What a keeper finds behind a journal with some lines, and with others behind them: rows, and the next undo."""
        for ending in (".journal", ".batches"):
            (self.folder / f"town.sfs{ending}").unlink(missing_ok=True)
        with Store(self.path, journal=True, program=PROGRAM) as store:
            store.editor(1).run("set p 3 owner 'before'")
            BatchLog(str(self.path)).begin(1, 1, sent or self.SENT)
            for line in records:
                store.editor(1).run(line)
            for line in behind:
                store.editor(2).run(line)
            store.close(save=False)
        log = self.folder / "town.sfs.batches"
        log.write_bytes(spoil(log.read_bytes()))
        keeper = Keeper(str(self.path), PROGRAM)
        try:
            step = keeper.steps()[1]
            return keeper.ask(lambda store: store.run("show p")), step and step.line
        finally:
            keeper.close()

    def test_all_of_it_or_nothing(self):
        before, after = self.opened([])[0], self.opened(self.RECORDS)[0]
        self.assertNotEqual(before, after)
        for count in range(len(self.RECORDS)):
            self.assertEqual(self.opened(self.RECORDS[:count]), (before, "set p 3 owner 'before'"), count)
        self.assertEqual(self.opened(self.RECORDS)[1], "set p 4 owner 'x'")

    def test_one_that_was_being_taken_back(self):
        before = self.opened([])[0]
        sent = [*self.SENT[:2], "set p 2 nix 1", *self.SENT[2:]]
        for count in range(4):
            self.assertEqual(self.opened([*self.SENT[:3], *["undo"] * count], sent)[0], before, count)

    def test_an_undo_and_a_redo_of_a_batch_leave_all_of_it_or_nothing(self):
        log = self.folder / "town.sfs.journal"

        def found(cut=0):
            """What a keeper finds behind a journal without some last records, and what it would undo and redo."""
            log.write_bytes(b"".join(log.read_bytes().splitlines(keepends=True)[: -cut or None]))
            keeper = Keeper(str(self.path), PROGRAM)
            try:
                _, undo, redo = keeper.steps()
                return keeper.ask(lambda store: store.run("show p")), undo and undo.line, redo and redo.line
            finally:
                keeper.close()

        def moved(*lines):
            keeper = Keeper(str(self.path), PROGRAM)
            try:
                for line in lines:
                    keeper.carry_out(Asked(1, "page", line, None))
            finally:
                keeper.close()

        self.opened(self.RECORDS)
        for verb in ("undo", "redo"):
            before = found()
            kept = {path: path.read_bytes() for path in self.folder.iterdir() if path.is_file()}
            moved(verb)
            after = found()
            self.assertNotEqual(before, after)
            for cut in range(1, 4):
                with self.subTest(verb=verb, cut=cut):
                    for path, data in kept.items():
                        path.write_bytes(data)
                    moved(verb)
                    self.assertEqual(found(cut), before)
                    self.assertEqual(found(), before)
            moved(verb)
            self.assertEqual(found(), after)

    def test_what_others_have_done_behind_it_is_not_touched(self):
        for count in range(1, 4):
            rows = self.opened(self.RECORDS[:count], behind=["set p 3 number 9"])[0]
            self.assertTrue(any("number=9" in row for row in rows))
            self.assertEqual(rows, self.plain([*self.RECORDS[:count], "set p 3 number 9"]))

    def test_lines_of_something_else_are_not_touched(self):
        for records in (["set p 2 owner 'other'"], ["delete p 3", *self.RECORDS[:2]]):
            self.assertEqual(self.opened(records)[0], self.plain(records))

    def test_a_file_that_is_damaged(self):
        plain = self.plain(self.RECORDS[:2])
        for spoil in (
            lambda data: b"",
            lambda data: data[:-1],
            lambda data: b"\0\xff\n[]\n{}\n[1, 2, 3, 4]\n",
            lambda data: data.replace(b"sfstore-journal", b"sfstore-other"),
            lambda data: b"[" * 100_000 + b"\n",
        ):
            self.assertEqual(self.opened(self.RECORDS[:2], spoil=spoil)[0], plain)

    def test_a_line_that_is_answered_later_is_not_taken_for_one_of_a_batch_that_was_left(self):
        first = self.SENT[1]
        for records in ([], self.SENT[:1], self.SENT[:3]):
            with self.subTest(records=len(records)):
                self.opened(records, sent=[*records, first, "column add p more int"])
                with Store(self.path, journal=True, program=PROGRAM) as store:
                    store.editor(1).run(first)
                    store.close(save=False)
                keeper = self.keeper()
                self.assertIn("owner='y'", keeper.ask(lambda store: store.run("get p 2"))[0])
                self.assertEqual(keeper.steps()[1].line, first)
                keeper.close()

    def test_a_line_that_is_answered_before_the_next_opening_is_none_of_a_batch_of_which_nothing_came(self):
        """The server is killed behind the entry of a batch, and the program is given its first line."""
        sent = ["column add p more int", "column add p last int"]
        for lines, first in ((sent, sent[0]), (["undo", "undo"], "undo")):
            with self.subTest(first):
                self.opened([])
                for ending in (".journal", ".batches"):
                    (self.folder / f"town.sfs{ending}").unlink(missing_ok=True)
                with Store(self.path, journal=True, program=PROGRAM) as store:
                    store.editor(1).run_all(["set p 1 owner 'a'", "set p 1 owner 'b'"])
                    BatchLog(str(self.path)).begin(2, 1, [line + new_mark() for line in lines])
                    store.editor(1).run(first)
                    after = store.run("show p"), store.run("columns p")
                    store.close(save=False)
                keeper = self.keeper()
                self.assertEqual(keeper.ask(lambda store: (store.run("show p"), store.run("columns p"))), after)
                keeper.close()

    def test_lines_of_a_batch_are_marked_and_are_one_step_without_the_mark(self):
        keeper = self.keeper()
        lines = ["column add p more int", "set p 1 more 7"]
        keeper.carry_out_all(Batch(1, "page", lines, [None, keeper.steps()[0]]))
        with open(self.folder / "town.sfs.journal", encoding="ascii") as file:
            records = file.read().splitlines()[-2:]
        blanks = {len(record) - len(record.rstrip(" ")) for record in records}
        self.assertEqual(len(blanks), 1, records)
        self.assertGreaterEqual(blanks.pop(), 8)
        keeper.close()
        keeper = self.keeper()
        self.assertEqual(keeper.steps()[1].line, lines[1])
        keeper.carry_out(Asked(1, "page", "undo", None))
        self.assertNotIn("more int", keeper.ask(lambda store: store.run("columns p")))
        keeper.close()

    def test_of_the_list_whole_batches_stay(self):
        log = self.folder / "town.sfs.batches"
        self.opened(self.RECORDS)
        whole = log.read_bytes()
        self.assertEqual(whole.count(b"\n"), 1)
        other = whole.replace(b"sfstore-journal", b"sfstore-other")
        for behind in (b"", b"[]\n", b'["torn', whole.replace(b", 1, 1, [", b", 1, 2, [") + other):
            for before in (b"", b"[]\n", other, whole.replace(b"delete p 1", b"delete p 9")):
                log.write_bytes(before + whole + behind)
                self.keeper().close()
                self.assertEqual(log.read_bytes(), whole, (before, behind))
        self.opened(self.RECORDS[:2])
        self.assertEqual(log.read_bytes(), b"")

    def keeper(self):
        keeper = Keeper(str(self.path), PROGRAM)
        self.addCleanup(ended, keeper)
        return keeper

    def test_an_entry_that_is_not_written_to_its_end_goes_before_anything_is_answered(self):
        batch = Batch(1, "page", ["column add p more int", "column add p less int"], [None, None])
        log = self.folder / "town.sfs.batches"
        full = OSError(errno.ENOSPC, "No space left on device")

        def half(file, data):
            os.write(file, data[: len(data) // 2])
            raise full

        for broken in (mock.patch("os.fsync", side_effect=full), mock.patch("sfstore.web.batchlog._write", half)):
            with self.subTest(broken=broken.attribute):
                keeper = self.keeper()
                keeper.carry_out_all(Batch(1, "page", ["column add p one int", "column drop p one"], [None, None]))
                before = log.read_bytes()
                with broken, self.assertRaises(Unavailable):
                    keeper.carry_out_all(batch)
                self.assertGreater(len(log.read_bytes()), len(before))
                with mock.patch("os.ftruncate", side_effect=full), self.assertRaises(Unavailable):
                    keeper.carry_out(Asked(1, "page", batch.lines[0], None))
                self.assertEqual(keeper.carry_out(Asked(1, "page", batch.lines[0], None)), "ok")
                self.assertEqual(log.read_bytes(), before)
                keeper.close()
                keeper = self.keeper()
                self.assertEqual(len(keeper.ask(lambda store: store.columns("p"))), 3)
                keeper.carry_out(Asked(1, "page", "undo", None))
                keeper.close()

    def test_what_can_not_be_taken_back_for_want_of_memory_is_so_at_the_next_opening(self):
        """Of a batch that is refused, and of the undo of one: nobody is told that nothing was changed."""
        flag = self.folder / "flag"
        program = self.script(NO_MEMORY.format(python=sys.executable, program=PROGRAM, flag=str(flag)))
        keeper = Keeper(str(self.path), str(program))
        self.addCleanup(lambda: ended(keeper))
        columns = lambda: [column.name for column in keeper.ask(lambda store: store.columns("p"))]
        before = columns()
        flag.write_text("1")
        with self.assertRaisesRegex(Unavailable, "could not be taken back .*: the next opening of the store does it"):
            keeper.carry_out_all(Batch(1, "page", ["column add p one int", "column add p two int", "column add p three int"], [None] * 3))
        flag.unlink()
        self.assertEqual(columns(), before)
        self.assertIsNone(keeper.steps()[1])
        keeper.carry_out_all(Batch(1, "page", ["column add p one int", "column add p two int"], [None] * 2))
        flag.write_text("1")
        with self.assertRaisesRegex(Unavailable, "could not be taken back"):
            keeper.carry_out(Asked(1, "page", "undo", None))
        flag.unlink()
        self.assertEqual(columns(), [*before, "one", "two"])
        self.assertEqual(keeper.carry_out(Asked(1, "page", "undo", None)), "ok")
        self.assertEqual(columns(), before)

    def test_a_batch_that_is_refused_leaves_no_entry(self):
        keeper = self.keeper()
        with self.assertRaises(LineRefused):
            keeper.carry_out_all(Batch(1, "page", ["column add p more int", "column drop p nix"], [None, None]))
        self.assertFalse((self.folder / "town.sfs.batches").exists())
        self.assertEqual(len(keeper.ask(lambda store: store.columns("p"))), 2)

    def plain(self, lines):
        with Store(program=PROGRAM, load=self.path) as store:
            store.run_all(["set p 3 owner 'before'", *lines])
            shown = store.run("show p")
            store.close(save=False)
            return shown


if __name__ == "__main__":
    unittest.main()
