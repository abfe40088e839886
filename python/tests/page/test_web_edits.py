"""Tests of edits of what was changed meanwhile, and of people who wait for one another's questions."""

from __future__ import annotations

import contextlib
import http.client
import os
import signal
import sys
import threading
import time
import unittest
from unittest import mock

from support import PROGRAM, TestCase
from test_web import SLOW, WHOLE, Listening
from web_support import WebCase

from sfstore import Store
from sfstore.language import COMMANDS
from sfstore.web.changes import Change, Changes, Target, feature_of, targets_of
from sfstore.web.keeper import Asked, Keeper
from sfstore.web.mirror import Mirror

SQUARE = "POLYGON ((0 0, 100 0, 100 100, 0 100, 0 0))"
# A line for each command that edits a feature, and one with blanks and figures that the program takes too.
EDITS = (
    "vertex insert p 1 0 0 1 50 -20",
    "vertex move p 1 0 0 2 130 130",
    "vertex remove p 1 0 0 2",
    f"replace p 1 {SQUARE}",
    "set p 1 owner 'Ben'",
    "unset p 1 owner",
    "delete p 1",
    " \tvertex \t move  p\t0000000001 0 0 2 130 130 \r",
)


class Meanwhile(WebCase):
    """Two people at one feature."""

    def setUp(self):
        super().setUp()
        self.make(
            f"layer add p polygon\nlayer add w point\ncolumn add p owner text\nadd p {SQUARE}\nadd p {SQUARE}\n"
            "add w POINT (1 1)\nset p 1 owner 'Dunn'\n".encode()
        )
        self.serving = self.serve()
        self.ann, self.ben = self.serving.log_in("Ann"), self.serving.log_in("Ben")

    def shown(self):
        return self.ann.line("show p").get("rows")

    def assert_outdated(self, person, line, seen, words):
        before = self.shown()
        self.assertEqual(person.posted(line, seen), (409, {"error": words}), line)
        self.assertEqual(self.shown(), before, line)

    def test_no_other_vertex_is_moved(self):
        seen = self.ben.feature("p", 1)["version"]
        self.ann.line("vertex insert p 1 0 0 1 50 -20")
        self.assert_outdated(self.ben, "vertex move p 1 0 0 2 130 130", seen, "Ann changed p 1 meanwhile: look again.")
        told = self.ben.feature("p", 1)
        self.assertEqual((told["wkt"], told["by"]), ("POLYGON ((0 0, 50 -20, 100 0, 100 100, 0 100, 0 0))", "Ann"))
        self.assertEqual(self.ben.posted("vertex move p 1 0 0 3 130 130", told["version"])[0], 200)
        self.assertEqual(self.ben.feature("p", 1)["wkt"], "POLYGON ((0 0, 50 -20, 100 0, 130 130, 0 100, 0 0))")

    def test_each_edit_says_what_it_has_seen(self):
        seen = self.ben.feature("p", 1)["version"]
        self.ann.line("set p 1 owner 'Ito'")
        for line in EDITS:
            self.assert_outdated(self.ben, line, seen, "Ann changed p 1 meanwhile: look again.")
            status, answer = self.serving.posted("/line", self.ben.key, page="page", line=line)
            self.assertEqual((status, answer["error"].split(" ")[0]), (400, "seen"), line)

    def test_each_change_of_a_feature_is_one(self):
        changed = "Ann changed p 1 meanwhile: look again."
        far = "set" + " " * 300 + "p" + " " * 300 + "1 owner 'Ito'"
        whole = "Ann changed p 1 meanwhile, by `{}`: look again."
        for line, words in (
            ("set p 1 owner 'Ito'", changed),
            ("undo", changed),
            ("redo", changed),
            ("unset p 1 owner", changed),
            (far, changed),
            ("undo", changed),
            ("vertex move p 1 0 0 0 -1 -1", changed),
            (f"replace p 1 {SQUARE}", changed),
            ("column add p n int", whole.format("column add p n int")),
            ("column drop p n", whole.format("column drop p n")),
            ("layer rename p q", whole.format("layer rename p q")),
            ("undo", whole.format("undo: layer rename p q")),
            ("layer drop p", whole.format("layer drop p")),
            ("undo", whole.format("undo: layer drop p")),
            ("delete p 1", "Ann deleted p 1 meanwhile: look again."),
            ("undo", changed),
        ):
            seen = self.ben.version()
            self.ann.line(line)
            status, answer = self.ben.posted("set p 1 owner 'Ben'", seen)
            self.assertEqual((status, answer.get("error")), (409, words), line)

    def test_an_identifier_that_is_given_again_is_another_feature(self):
        self.ann.line("add p " + SQUARE)
        seen = self.ben.feature("p", 3)["version"]
        self.ann.line("undo")
        self.ann.line("add p POLYGON ((0 0, 7 0, 7 7, 0 0))")
        self.assert_outdated(self.ben, "delete p 3", seen, "Ann changed p 3 meanwhile: look again.")

    def test_changes_of_something_else_are_none(self):
        elsewhere = "set p 2 owner 'Ito'", "undo", "add p " + SQUARE, "delete w 1", "layer move w 0", "layer add v any"
        for line in elsewhere:
            seen = self.ben.version()
            self.ann.line(line)
            self.assertEqual(self.ben.posted("set p 1 owner 'Ben'", seen)[0], 200, line)

    def test_a_page_knows_what_it_did_and_another_page_of_the_same_person_does_not(self):
        seen = self.ann.feature("p", 1)["version"]
        other = self.ann.other_page()
        self.assertEqual(self.ann.posted("vertex insert p 1 0 0 1 50 -20", seen)[0], 200)
        self.assertEqual(self.ann.posted("vertex insert p 1 0 0 1 20 -20", seen)[0], 200)
        self.assert_outdated(other, "vertex move p 1 0 0 2 130 130", seen, "Ann changed p 1 meanwhile: look again.")
        # What the page did last does not hide what another one did before.
        seen = self.ann.version()
        self.ben.line("vertex move p 1 0 0 1 20 -30")
        self.ann.line("set p 1 owner 'Ito'")
        self.assert_outdated(self.ann, "delete p 1", seen, "Ben changed p 1 meanwhile: look again.")

    def test_nobody_passes_for_another_persons_page(self):
        seen = self.ben.version()
        self.ann.page = self.ben.page = "the same"
        self.ann.line("vertex insert p 1 0 0 1 50 -20")
        self.assert_outdated(self.ben, "vertex move p 1 0 0 2 130 130", seen, "Ann changed p 1 meanwhile: look again.")

    def test_of_many_at_once_one_is_carried_out(self):
        people = [self.serving.log_in(f"person {k}") for k in range(6)]
        seen = self.ann.version()
        found = []

        def remove(person):
            found.append(person.posted("vertex remove p 1 0 0 1", seen)[0])

        removing = [threading.Thread(target=remove, args=[person]) for person in people]
        for thread in removing:
            thread.start()
        for thread in removing:
            thread.join()
        self.assertEqual(sorted(found), [200, 409, 409, 409, 409, 409])
        self.assertEqual(self.ann.feature("p", 1)["wkt"], "POLYGON ((0 0, 100 100, 0 100, 0 0))")

    @unittest.skipUnless(sys.platform == "linux", "looks at processes")
    def test_what_was_seen_before_the_store_was_opened_again(self):
        seen = self.ben.version()
        for thread in os.listdir(f"/proc/{self.serving.process.pid}/task"):
            # A thread may end meanwhile.
            with contextlib.suppress(FileNotFoundError):
                with open(f"/proc/{self.serving.process.pid}/task/{thread}/children") as file:
                    for program in file.read().split():
                        os.kill(int(program), signal.SIGKILL)
        self.assertEqual(self.ann.posted("layer add v any", 0)[0], 503)
        words = "It is not known any more whether p 1 was changed meanwhile: look again."
        self.assert_outdated(self.ben, "delete p 1", seen, words)
        self.assertEqual(self.ben.posted("delete p 1", self.ben.feature("p", 1)["version"])[0], 200)

    def test_a_save_changes_nothing(self):
        seen = self.ben.version()
        self.ann.line("set p 2 owner 'Ito'")
        self.ann.line("save")
        self.assertEqual(self.ben.posted("set p 1 owner 'Ben'", seen)[0], 200)

    def test_an_edit_is_told_with_the_page_that_made_it(self):
        listening = Listening(self.serving)
        self.addCleanup(listening.close)
        self.assertEqual(listening.next(), {"hello": True})
        self.ann.other_page().line("set p 1 owner 'Ito'")
        told = listening.next()
        self.assertEqual((told["number"], told["page"]), (self.ann.editor, "other page"))


class Ruled(WebCase):
    """What rules on values say to a page."""

    LINES = b"layer add w point\ncolumn add w use text\ncolumn add w depth int\nadd w POINT (1 1)\nset w 1 use 'a'\nset w 1 depth 12\n"

    def columns(self):
        """What the page is told of the columns."""
        [layer] = self.serving.call("/map")["layers"]
        told = {column["name"]: {key: column[key] for key in ("allowed", "range") if key in column} for column in layer["columns"]}
        feature = {value["name"]: {key: value[key] for key in ("allowed", "range") if key in value} for value in self.ann.feature("w", 1)["values"]}
        self.assertEqual(feature, told)
        return told

    def setUp(self):
        super().setUp()
        self.make(self.LINES)
        self.serving = self.serve()
        self.ann = self.serving.log_in("Ann")

    def test_what_all_rules_of_a_column_allow(self):
        for line in ("one one-of w depth 3, 12, 50", "two one-of w depth 50, 12, 9", "use one-of w use E'a\\nb', 'it''s', 'a'"):
            self.assertEqual(self.ann.line(f"rule add {line}"), {"answer": "ok"})
        self.assertEqual(self.columns(), {"use": {"allowed": ["a\nb", "it's", "a"]}, "depth": {"allowed": ["12", "50"]}})
        for line in ("wide range w depth 0 to 40", "low range w depth 2 to", "letters range w use to 'b'"):
            self.ann.line(f"rule add {line}")
        self.assertEqual(self.columns(), {"use": {"allowed": ["a\nb", "a"], "range": "to 'b'"}, "depth": {"allowed": ["12"], "range": "2 to 40"}})

    def test_a_rule_that_is_broken_is_told_however_it_is_written(self):
        for words in ("one-of w use 'b','c'", "one-of w  use 'b' , 'c'", "range w depth +1 to +5", "range w depth 01 to\t5 "):
            refused = self.ann.refused(f"rule  add r {words}")
            self.assertEqual((refused["name"], refused["broken"]["features"][0]["id"]), ("RuleBroken", 1), words)
            self.assertIn(refused["broken"]["rule"], ("r one-of w use 'b', 'c'", "r range w depth 1 to 5"))


class Remembered(unittest.TestCase):
    """What is known of changes, without a store."""

    def test_what_a_line_edits(self):
        for line, target in (
            ("delete w 7", Target("w", 7)),
            ("set w 7 n 5", Target("w", 7)),
            ("\tunset  w\t007 n", Target("w", 7)),
            ("delete w 7\r", Target("w", 7)),
            ("vertex move w 7 0 0 0 1 1", Target("w", 7)),
            ("delete w", None),
            ("delete w x", None),
            ("delete w 12345678901", None),
            ("add w POINT (1 1)", None),
            ("undo", None),
            ("", None),
            ("show w", None),
        ):
            self.assertEqual(feature_of(line), target, line)

    def test_what_a_line_has_changed(self):
        for line, answer, targets in (
            ("add w POINT (1 1)", "ok 7", [Target("w", 7)]),
            ("addhex w 01", "ok 7", [Target("w", 7)]),
            ("add w POINT (1 1)", "", [Target("w", None)]),
            ("layer rename w v", "ok", [Target("w", None), Target("v", None)]),
            ("layer move w 0", "ok", []),
            ("column drop w n", "ok", [Target("w", None, "n")]),
            (" column\tadd  w n int", "ok", [Target("w", None, "n")]),
            ("layers", "", []),
        ):
            self.assertEqual(targets_of(line, answer), tuple(targets), line)

    def test_each_edit_of_the_language_is_known(self):
        # A group changes what its members do, and a rule no feature.
        changes_nothing = {"layer move LAYER PLACE", "together N", "undo", "redo"}
        changes_nothing |= {command.usage for command in COMMANDS if command.word == "rule"}
        for command in COMMANDS:
            if command.touches:
                self.assertEqual(bool(feature_of(command.example)), " LAYER ID" in command.usage, command.usage)
                targets = targets_of(command.example, "ok 1")
                self.assertEqual(not targets, command.usage in changes_nothing, command.usage)

    def test_only_so_much_is_remembered(self):
        changes = Changes()
        for version in range(1, 100_002):
            changes.take(Change(version, 1, "", "", (Target("w", version),)))
        self.assertFalse(changes.is_known_since(100_000))
        self.assertTrue(changes.is_known_since(100_001))
        self.assertIsNone(changes.last(Target("w", 1)))
        self.assertEqual(changes.last(Target("w", 100_001)).version, 100_001)


class Waiting(WebCase):
    """What waits for whom."""

    def slow(self, *words):
        """A server whose program is slow to tell whether a geometry is simple, and two people."""
        self.make(b"layer add w point\ncolumn add w n int\nadd w POINT (1 1)\nset w 1 n 5\n")
        serving = self.serve(*words, program=self.script(SLOW.format(python=sys.executable, program=PROGRAM)))
        return serving.log_in("Ann"), serving.log_in("Ben")

    def ask(self, person, count):
        """Has a person ask long questions at once, and gives their answers as they come."""
        answers = []

        def ask():
            # At the end the server is killed.
            with contextlib.suppress(OSError, http.client.HTTPException):
                answers.append(person.serving.posted("/line", person.key, page="x", line="simple w 1"))

        for _ in range(count):
            threading.Thread(target=ask, daemon=True).start()
        return answers

    def test_values_and_windows_wait_for_no_question(self):
        ann, ben = self.slow("--seconds=60")
        answers = self.ask(ben, 1)
        self.assertEqual(ann.feature("w", 1)["values"][0]["value"], "5")
        self.assertEqual(ann.serving.call("/window", key=ann.key, box=WHOLE, layers=["w"])["layers"][0]["count"], 1)
        self.assertEqual(ann.answer("set w 1 n 6"), "ok")
        self.assertEqual(answers, [])

    def test_edits_of_others_wait_for_an_edit_no_longer_than_it_may_take(self):
        self.make(b"layer add w point\ncolumn add w n int\nadd w POINT (1 1)\n")
        program = SLOW.format(python=sys.executable, program=PROGRAM).replace('b"simple"', 'b"@1 rule"')
        serving = self.serve("--seconds=0.5", program=self.script(program))
        ann, ben = serving.log_in("Ann"), serving.log_in("Ben")
        self.assertEqual(ann.answer("set w 1 n 5"), "ok")
        found = []
        asking = threading.Thread(target=lambda: found.append(ann.posted("rule add r never w equals w")))
        asking.start()
        time.sleep(0.5)
        began = time.monotonic()
        # It may be told that the store was opened anew, and is looked at again then.
        while (answer := ben.posted("set w 1 n 6", ben.version()))[0] != 200 and time.monotonic() - began < 30:
            time.sleep(0.1)
        asking.join()
        self.assertEqual((answer[0], found[0][0]), (200, 503))
        self.assertIn("That took more than 3 seconds and was stopped.", found[0][1]["error"])
        self.assertEqual(ben.line("rules")["rows"], [])
        self.assertEqual(ann.feature("w", 1)["values"][0]["value"], "6")
        self.assertEqual((ben.answer("undo"), ann.answer("undo")), ("ok", "ok"))

    def test_a_question_waits_for_one_of_each_other_person(self):
        ann, ben = self.slow("--seconds=3")
        answers = self.ask(ben, 12)
        end = time.monotonic() + 60
        # Eight wait for one another, and four are refused at once.
        while len(answers) < 4 and time.monotonic() < end:
            time.sleep(0.02)
        words = "Your questions before this one are not answered yet: wait for them."
        self.assertEqual(answers[:4], [(503, {"error": words})] * 4)
        self.assertEqual(ann.line("query w intersects POINT (1 1)")["rows"], ["1"])
        self.assertLess(len(answers), 8)


class Watched(TestCase):
    """What watches the edits of a program that is asked."""

    def test_where_it_fails_the_content_is_read_anew(self):
        path = str(self.folder / "town.sfs")
        with Store(PROGRAM, save=path) as store:
            store.run("layer add wells point")
        for name in ("before", "after"):
            keeper = Keeper(path, PROGRAM)
            watcher = mock.Mock()
            getattr(watcher, name).side_effect = [MemoryError, None]
            mirror = Mirror(keeper, PROGRAM, 30.0, watcher)
            try:
                mirror.ask(1, lambda store: store.show("wells"))
                for x in (3, 4):
                    keeper.carry_out(Asked(1, "page", f"add wells POINT ({x} 5)", None))
                with self.subTest(name):
                    content = keeper.ask(lambda store: store.show("wells"))
                    self.assertEqual(mirror.ask(1, lambda store: store.show("wells")), content)
                    watcher.forget.assert_called()
            finally:
                mirror.close()
                keeper.close()


if __name__ == "__main__":
    unittest.main()
