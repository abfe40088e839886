"""Tests of the table of the language: that all who know of the language know what it says."""

from __future__ import annotations

import re
import unittest

from support import FOLDER, PROGRAM, TestCase

from sfstore import Refused, Store, language
from sfstore.replica import lines as replica_lines
from sfstore.replica import session

TOP = FOLDER.parent
CONSOLE = (TOP / "docs" / "use" / "CONSOLE.md").read_text(encoding="utf-8")


class Language(TestCase):
    def test_the_log_takes_the_edits_of_the_table(self):
        schema = (FOLDER / "sfstore" / "replica" / "log.sql").read_text(encoding="utf-8")
        [longest, words] = re.findall(r"is_edit\(line text\).*?<= (\d+)\s.*?\]\*\(([a-z|]+)\)", schema, re.DOTALL)[0]
        self.assertEqual(frozenset(words.split("|")), language.EDITS - {"together"})
        [group, members] = re.findall(r"is_group\(line text\).*?<= (\d+)\s.*?\]\*\(([a-z|]+)\)", schema, re.DOTALL)[0]
        self.assertEqual(frozenset(members.split("|")), language.MEMBERS)
        self.assertEqual(int(group), replica_lines.GROUP_BYTES)
        self.assertIn(f"BETWEEN 1 AND {language.GROUP_MAX}", schema)
        # The program has ``@255`` and a blank before it.
        self.assertEqual(int(longest), language.LINE_MAX - len("@255 "))

    def test_replicas_know_the_words_of_the_table(self):
        self.assertEqual(replica_lines.EDITS, language.EDITS)
        self.assertEqual(replica_lines.QUESTIONS, language.QUESTIONS)

    def test_scripts_and_sockets_know_the_table(self):
        script = (FOLDER / "sfstore" / "web" / "static" / "geometry.js").read_text(encoding="utf-8")
        [kinds] = re.findall(r"KINDS = \[(.*?)\]", script)
        self.assertEqual(re.findall(r'"(\w+)"', kinds), language.KINDS)
        self.assertEqual(re.findall(r"GRID_MAX = (\d+)", script), [str(language.GRID_MAX)])
        self.assertEqual(session._LINE_BYTES, language.LINE_MAX)

    def test_the_page_of_the_language_has_each_command(self):
        rows = " ".join(re.findall(r"^\| `([^|]*)` \|", CONSOLE, re.MULTILINE))
        for command in language.COMMANDS:
            front = command.usage.split(" LAYER")[0].split(" NAME")[0]
            self.assertIn(front, rows, command.usage)

    def test_the_page_of_the_language_has_the_limits(self):
        for number in (language.LINE_MAX, language.POINTS_MAX, language.GRID_MIN, language.GRID_MAX):
            self.assertTrue(str(number) in CONSOLE or f"{number:,}" in CONSOLE, number)

    def test_each_example_is_what_the_table_says_it_is(self):
        """What touches nothing leaves nothing to undo, and all else does."""
        with Store(program=PROGRAM) as store:
            for line in ("layer add parcels any", "layer add roads any", "layer add wells any"):
                store.run(line)
            for line in ("column add wells label text", "add wells POINT (3 4)"):
                store.run(line)
            for line in ("add roads LINESTRING (0 0, 9 9, 9 0)", "add parcels POLYGON ((0 0, 9 0, 9 9, 0 0))"):
                store.run(line)
            for command in language.COMMANDS:
                if command.touches == "history" or command.usage.startswith("layer add"):
                    continue
                if command.usage.startswith("column drop"):
                    store.run("column add wells depth int")
                if command.usage.startswith("rule drop"):
                    store.run("rule add apart never wells equals wells")
                if " required " in command.usage:
                    store.run("set wells 1 label 'a'")
                if " one-of " in command.usage:
                    store.run("unset wells 1 label")
                store.run("layer add before any")
                try:
                    store.run(command.example + "\rset wells 1 label 'a'\rset wells 1 label 'b'" * (command.word == "together"))
                except Refused as refused:
                    self.fail(f"{command.example}: {refused}")
                if command.touches is not None:
                    store.run("undo")
                # What is undone next is the step before the example.
                store.run("undo")
                self.assertNotIn("before", [layer.name for layer in store.layers()], command.usage)


if __name__ == "__main__":
    unittest.main()
