"""Tests of groups of edits over replicas: one entry of the log, carried out whole or not at all, alike everywhere."""

from __future__ import annotations

import re
import socket
import unittest
import uuid

from replica_support import ReplicaCase
from support import FOLDER, TestCase

from sfstore import Refused, groups
from sfstore.replica.lines import GROUP_BYTES, asked
from sfstore.replica.links import Link, LogRefused

APPEND = "SELECT sfstore.append(ARRAY[gen_random_uuid()], ARRAY[%s])"
TWO = groups.text_of(["add w POINT (1 1)", "add w POINT (2 2)"])


class Taken(TestCase):
    def test_groups_are_taken_apart(self):
        for line, editor, is_edit, is_question in (
            (TWO, None, True, False),
            (f" @007 {TWO}\r", 7, True, False),
            ("together 1\r\tvertex  move w last 0 0 0 1 1", None, True, False),
            ("together 1\rset", None, True, False),
            ("together 2\rdelete w 1\rundo", None, False, True),
            ("together 1\r@2 delete w 1", None, False, True),
            ("together 1\rdeleted w 1", None, False, True),
            ("together 2\rdelete w 1\r ", None, False, True),
            ("together 2", None, False, False),
            ("together x", None, False, False),
            ("together 3\rdelete w 1", None, False, False),
            ("together 0\rdelete w 1", None, False, False),
        ):
            found = asked(line)
            self.assertEqual((found.editor, found.is_edit, found.is_question), (editor, is_edit, is_question), line)


class Groups(ReplicaCase):
    def entries(self):
        return [line for (line,) in self.ask("SELECT line FROM sfstore.log WHERE NOT cut ORDER BY at")]

    def test_a_group_is_one_entry_and_one_step_on_each_replica(self):
        ann, ben = self.town("ann", "ben")
        text = groups.text_of(["add w POINT (1 1)", "vertex move w last 0 0 0 3 3", "add w POINT (2 2)"])
        self.assertEqual(ann.run(text), "ok 1 2")
        self.assertEqual(self.entries(), ["layer add w point", text])
        ben.follow()
        rows = ["1 POINT (3 3)", "2 POINT (2 2)"]
        self.assertEqual((ann.run("show w"), ben.run("show w")), (rows, rows))
        self.assertEqual(ben.run_all(["undo"])[0].number, 36)
        self.assertEqual(ann.run("undo"), "ok")
        ben.follow()
        self.assertEqual((ann.run("show w"), ben.run("show w")), ([], []))
        self.assertEqual(ann.run("redo"), "ok")
        ben.follow()
        _, files = self.cut(ann, ben)
        self.assertEqual(files[0], files[1])
        self.assertEqual(self.replica("cleo").run("show w"), rows)

    def test_a_refused_group_changes_nothing_anywhere(self):
        ann, ben = self.town("ann", "ben")
        text = groups.text_of(["add w POINT (1 1)", "delete w 7", "delete w 1"])
        [refused] = ann.run_all([text])
        self.assertEqual((refused.answer, refused.line), ("refused 21 NoFeature member 2", "delete w 7"))
        self.assertEqual(self.entries()[1:], [text])
        ben.follow()
        self.assertEqual((ann.run("show w"), ben.run("show w")), ([], []))
        self.assertEqual(ben.run("add w POINT (5 5)"), "ok 1")

    def test_a_group_with_what_is_no_member_does_not_stand_in_the_log(self):
        [ann] = self.town("ann")
        for members, answer in (
            (["delete w 7", "undo"], "refused 31 BadCommand member 2"),
            (["add w POINT (x 1)", "undo"], "refused 2 Syntax member 1"),
            (["@2 delete w 7"], "refused 31 BadCommand member 1"),
            (["save"], "refused 31 BadCommand member 1"),
        ):
            [refused] = ann.run_all([groups.text_of(members)])
            self.assertEqual(refused.answer, answer)
        for line in ("together 0", "together 70000", "together x", "together 2\rundo"):
            self.assertEqual(ann.run_all([line])[0].answer, "refused 31 BadCommand")
        self.assertEqual(len(self.entries()), 1)
        for line in ("together 2", "@1 together 2"):
            with self.assertRaisesRegex(ValueError, "begins a group"):
                ann.run(line)

    def test_the_log_looks_at_the_form(self):
        self.town("ann")
        taken = [TWO, "@1 " + TWO, "\ttogether  0002 \rdelete w 1\rset", groups.text_of(["delete w 1"] * 65_535)]
        for line in taken:
            self.ask(APPEND, (line,), login="ann")
        self.assertEqual(len(self.entries()), 1 + len(taken))
        for line in (
            "together 2", "together", "together 3\rdelete w 1\rdelete w 2", "together 1\rdelete w 1\rdelete w 2",
            "together 0\rdelete w 1", "together 2\r\rdelete w 1", "together 1\rundo", "together 1\r@1 delete w 1",
            "together 1\rdeleted w 1", "together 1 2\rdelete w 1", "together 2\ndelete w 1\ndelete w 2",
            "together 1\rtogether 1", "together 65536" + "\rdelete w 1" * 65_536, "together 1\rdelete w 1\r",
            "together 1\radd w " + "9" * GROUP_BYTES, "together 99999999999\rdelete w 1",
        ):
            with self.assertRaises(LogRefused) as caught:
                self.ask(APPEND, (line,), login="ann")
            self.assertEqual(caught.exception.code, "23514", line[:40])
        with self.assertRaises(LogRefused) as caught:
            self.ask(APPEND, ("@9 " + TWO,), login="ann")
        self.assertEqual(caught.exception.code, "SF101")

    def test_a_log_of_an_earlier_version(self):
        """It takes no groups, until its owner has made the functions anew."""
        [ann] = self.town("ann")
        schema = (FOLDER / "sfstore" / "replica" / "log.sql").read_text(encoding="utf-8")
        functions = re.findall(r"^CREATE FUNCTION sfstore\.is_.*?^\$\$;", schema, re.MULTILINE | re.DOTALL)
        self.assertEqual(len(functions), 2)
        group, edit = (text.replace("CREATE FUNCTION", "CREATE OR REPLACE FUNCTION") for text in functions)
        self.make(edit.replace("sfstore.is_group(line) OR", ""))
        with self.assertRaises(LogRefused) as caught:
            ann.run(TWO)
        self.assertEqual(caught.exception.code, "23514")
        self.assertEqual(ann.run("add w POINT (1 1)"), "ok 1")
        self.make(group)
        self.make(edit)
        self.assertEqual(ann.run(TWO), "ok 2 3")

    def make(self, function):
        """Makes a function of the log as its owner."""
        link = Link(self.owner)
        try:
            link.ask("SET ROLE sfstore_owner")
            link.ask(function)
        finally:
            link.close()

    def test_editors_and_readers(self):
        [ann] = self.town("ann")
        rita = self.replica("rita")
        for replica, line, number in ((ann, "@9 " + TWO, 101), (rita, TWO, 102)):
            [refused] = replica.run_all([line])
            self.assertEqual((refused.number, refused.line), (number, "together 2"))
        self.assertEqual(ann.run("@001 " + TWO), "ok 1 2")

    def test_how_long_a_group_may_be(self):
        ann, ben = self.town("ann", "ben")
        blanks = " " * 516_000
        longest = groups.text_of([f"add w {blanks}POINT ({k} 1)" for k in range(31)])
        longest += " " * (GROUP_BYTES - len(longest))
        self.assertEqual(len(ann.run(longest).split()), 32)
        [refused] = ann.run_all([longest + " "])
        self.assertEqual((refused.number, refused.member), (33, None))
        # More than what is fetched at once.
        ann.run_all([longest] * 3)
        ben.follow()
        self.assertEqual(len(ben.run("show w")), 124)
        [refused] = ann.run_all([groups.text_of(["delete w 1", "delete w 2" + " " * 4_194_304])])
        self.assertEqual(refused.answer, "refused 33 LineTooLong member 2")

    def test_a_group_that_is_tried_again_stands_once(self):
        [ann] = self.town("ann")
        keys = [str(uuid.uuid4())]
        for _ in range(2):
            self.assertEqual(ann.write([TWO], keys), ["ok 1 2"])
        self.assertEqual(len(self.entries()), 2)
        ann.close()
        # Another process finds the answer again.
        self.assertEqual(self.replica("ann").write([TWO], keys), ["ok 1 2"])

    def test_with_other_lines_at_once(self):
        [ann] = self.town("ann")
        outcomes = ann.run_all(["add w POINT (7 7)", TWO, "undo", "show w", TWO, "delete w 9"])
        self.assertEqual(outcomes[:5], ["ok 1", "ok 2 3", "ok", ["1 POINT (7 7)"], "ok 2 3"])
        self.assertIsInstance(outcomes[5], Refused)


class Sessions(ReplicaCase):
    """Groups whose lines come one by one."""

    def test_lines_and_answers(self):
        lines = [
            b"layer add w point", b"together 2", b"add w POINT (1 1)\r", b" \t", b"vertex move w last 0 0 0 2 2", b"show w",
            b"@1 together 1", b"delete w 1", b"undo", b"@9 together 1", b"delete w 1", b"together 0", b"show w",
            b"together 2\radd w POINT (5 5)\radd w POINT (6 6)", b"undo",
            b"together 3", b"delete w 1", b"\xff", b"9" * 4_194_305, b"together 2", b"9" * 4_194_305, b"undo",
            b"together 1", b"delete w\r1", b"together 1", b"a\0b", b"together 2", b"add w POINT (x 1)", b"undo", b"show w",
        ]
        answers = [
            "ok", "ok 1", "rows 1", "1 POINT (2 2)", "ok", "ok", "refused 101 OtherEditor", "refused 31 BadCommand", "rows 1",
            "1 POINT (2 2)", "ok 2 3", "ok", "refused 31 BadCommand member 2", "refused 33 LineTooLong member 1",
            "refused 31 BadCommand member 1", "refused 31 BadCommand member 1", "refused 2 Syntax member 1",
            "rows 1", "1 POINT (2 2)",
        ]
        said = self.session("ann", b"\n".join(lines) + b"\n")
        self.assertEqual((said.stdout.decode().splitlines(), said.stderr, said.returncode), (answers, b"", 0))

    def test_an_input_that_ends_inside(self):
        for behind, answer in (
            (b"", b"refused 38 Unfinished"),
            (b"add w POINT (1 1)\n", b"refused 38 Unfinished"),
            (b"add w POINT (1 1)\nset w last x 5", b"refused 38 Unfinished"),
            (b"add w POINT (1 1)\nundo\n", b"refused 31 BadCommand member 2"),
            (b"add w POINT (1 1)\nset v last x 5\n", b"refused 31 BadCommand member 2"),
            (b"add w POINT (x 1)\n", b"refused 2 Syntax member 1"),
            (b"9" * 4_194_305 + b"\n", b"refused 33 LineTooLong member 1"),
        ):
            said = self.session("ann", b"layers\ntogether 3\n" + behind)
            self.assertEqual((said.stdout.splitlines()[-1], said.returncode), (answer, 0), behind[:40])
        self.assertEqual(self.ask("SELECT count(*) FROM sfstore.log"), [(0,)])

    def test_a_group_that_the_log_could_not_take(self):
        line = b"add w " + b" " * 420_000 + b"POINT (1 1)\n"
        said = self.session("ann", b"layer add w point\ntogether 40\n" + line * 40 + b"show w\ntogether 50\n" + line * 45)
        self.assertEqual(said.stdout.splitlines(), [b"ok", b"refused 33 LineTooLong", b"rows 0", b"refused 33 LineTooLong"])

    def test_two_at_a_socket(self):
        _, path = self.listening()
        first, second = (self.connected(path) for _ in range(2))
        self.assertEqual(self.asked(first, b"layer add w point\ntogether 2\nadd w POINT (1 1)\n", 1), [b"ok"])
        self.assertEqual(self.asked(second, b"together 1\nadd w POINT (5 5)\nshow w\n", 3), [b"ok 1", b"rows 1", b"1 POINT (5 5)"])
        self.assertEqual(self.asked(first, b"add w POINT (2 2)\n", 1), [b"ok 2 3"])
        # One goes in the middle of a group.
        first.sendall(b"together 2\ndelete w 1\n")
        first.shutdown(socket.SHUT_WR)
        self.assertEqual(first.recv(100), b"refused 38 Unfinished\n")
        self.assertEqual(self.asked(second, b"show w\n", 4)[0], b"rows 3")


if __name__ == "__main__":
    unittest.main()
