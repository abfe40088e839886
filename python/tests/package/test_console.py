"""Tests of the console for people, through a pseudo-terminal, against the real program."""

from __future__ import annotations

import errno
import fcntl
import json
import os
import pty
import re
import select
import signal
import stat
import struct
import subprocess
import sys
import termios
import time
import unittest
from importlib.util import find_spec
from unittest import mock

from programs import path_of
from support import FOLDER, PROGRAM, TestCase

from sfstore import Store, commands, console, files, sidecar
from sfstore.exchange import importing
from sfstore.exchange.sources import open_source
from sfstore.lines import geometry_of

HAS_TOOLKIT = find_spec("prompt_toolkit") is not None
HAS_GDAL = find_spec("osgeo") is not None

ESCAPES = re.compile(r"\x1b\[[0-9;?]*[A-Za-z]|\x1b[=>]|\r|\x08")
START = """
import sys
sys.path.insert(0, {folder!r})
{hide}
from {module} import main
sys.exit(main({words!r}))
"""
# Rows and columns.
SIZE = (40, 200)
HIDE = "sys.modules['prompt_toolkit'] = None"


class Terminal:
    """A console on a pseudo-terminal: what it wrote since the last look, and keys for it."""

    def __init__(self, words, environment, plain=False, module="sfstore.console"):
        hide = HIDE if plain else "pass"
        code = START.format(folder=str(FOLDER), hide=hide, module=module, words=words)
        self.process, self.file = pty.fork()
        if self.process == 0:
            # Tests that were begun behind `nohup`, or in the background, would hand on that a hangup or an interrupt is ignored.
            signal.signal(signal.SIGHUP, signal.SIG_DFL)
            signal.signal(signal.SIGINT, signal.SIG_DFL)
            os.execve(sys.executable, [sys.executable, "-c", code], environment)
        fcntl.ioctl(self.file, termios.TIOCSWINSZ, struct.pack("4H", *SIZE, 0, 0))
        self.seen = ""
        self.status = None

    def send(self, keys):
        os.write(self.file, keys.encode())

    def wait(self, words, seconds=10):
        """Everything up to some words. `AssertionError` where they do not come."""
        until = time.monotonic() + seconds
        while words not in self.seen:
            ready, _, _ = select.select([self.file], [], [], max(0, until - time.monotonic()))
            data = self.read() if ready else b""
            if not data:
                raise AssertionError(f"{words!r} did not come: {self.seen!r}")
            self.seen += ESCAPES.sub("", data.decode("utf-8", "replace"))
        before, words, self.seen = self.seen.partition(words)
        return before + words

    def read(self):
        try:
            return os.read(self.file, 65536)
        except OSError as error:
            if error.errno != errno.EIO:
                raise
            return b""

    def line(self, line, words):
        """Types a line, and gives everything up to some words of the answer."""
        self.send(line + "\r")
        return self.wait(words)

    def end(self):
        """Everything up to its end; the status is kept."""
        while data := self.read():
            self.seen += ESCAPES.sub("", data.decode("utf-8", "replace"))
        _, status = os.waitpid(self.process, 0)
        self.status = os.waitstatus_to_exitcode(status)
        self.process = None
        return self.seen

    def close(self):
        if self.process is not None:
            os.kill(self.process, signal.SIGKILL)
            os.waitpid(self.process, 0)
        os.close(self.file)


class Typed:
    """A terminal at which some texts are typed or pasted, one after another."""

    def __init__(self, texts):
        self.texts = list(texts)
        self.prompts = []

    def ask(self, prompt):
        self.prompts.append(prompt)
        if not self.texts:
            raise EOFError
        return self.texts.pop(0)


class Pasted(TestCase):
    """What is carried out of a text that was pasted, in this process."""

    def carry_out(self, *texts):
        """The store's points and their labels after some texts, and what was printed."""
        path = self.folder / "town.sfs"
        with mock.patch("builtins.print") as printed:
            console.Console(str(path), PROGRAM, lambda _: Typed([*texts, "save"])).run()
        with Store(load=path, program=PROGRAM) as store:
            shown = [(feature.wkt, feature.values) for feature in store.show("w")] if store.layers() else []
        return shown, " ".join(str(call.args) for call in printed.call_args_list)

    def test_a_side_car_that_is_changed_meanwhile(self):
        """Nothing is carried out by the grid of before; the next line counts by that of now."""
        path = str(self.folder / "town.sfs")

        def place(step):
            sidecar.write(path, sidecar.Sidecar(("0", "0", step), None, []), [files.digest(path)])

        class Placing(Typed):
            """Has somebody else change the side-car in the middle."""

            def ask(self, prompt):
                if len(self.texts) == 3:
                    place("0.1")
                return super().ask(prompt)

        with Store(path, journal=True, program=PROGRAM) as store:
            store.add_layer("w")
        place("1")
        with mock.patch("builtins.print") as printed:
            console.Console(path, PROGRAM, lambda _: Placing(["add w POINT (5 5)", "add w POINT (6 6)", "add w POINT (7 7)", "show w"])).run()
        said = [call.args[0] for call in printed.call_args_list]
        self.assertEqual([line for line in said if "another grid" in line], [line for line in said if "Nothing was done" in line])
        self.assertIn("Coordinates are those of the map, whole steps of 0.1. With --steps they are counted in steps.", said)
        self.assertIn("1 POINT (0.5 0.5)\n2 POINT (7.0 7.0)\n2 rows", said)

    def test_a_letter_that_looks_like_an_end_of_line_is_none(self):
        begin = "layer add w point\ncolumn add w t text\r\nadd w POINT (1 1)"
        for letter in "\u2028\u2029\x85":
            for left in self.folder.glob("town.sfs*"):
                left.unlink()
            shown, _ = self.carry_out(begin, f"set w 1 t 'one{letter}delete w 1{letter}two'")
            self.assertEqual(shown, [("POINT (1 1)", {"t": f"one{letter}delete w 1{letter}two"})])

    def test_a_terminal_obeys_no_value(self):
        # U+009B begins a command of a terminal, as an escape and a bracket do.
        begin = "layer add w point\ncolumn add w t text\nadd w POINT (1 1)"
        shown, said = self.carry_out(begin, "set w 1 t 'a\x9b2Jb'", "show w")
        self.assertEqual(shown, [("POINT (1 1)", {"t": "a\x9b2Jb"})])
        self.assertIn("a\\\\x9b2Jb", said)

    @unittest.skipUnless(HAS_GDAL, "no GDAL")
    def test_an_import_with_wrong_words_leaves_the_store_open(self):
        source = self.folder / "no.gpkg"
        with mock.patch("sys.stderr"):
            shown, said = self.carry_out(f"import {source} --grid a b c", "layer add w point", "add w POINT (1 1)")
        self.assertEqual(shown, [("POINT (1 1)", {})])
        self.assertNotIn("closed", said)

    @unittest.skipUnless(HAS_GDAL, "no GDAL")
    def test_an_import_saves_nothing_unasked(self):
        lines = "layer add w point\nadd w POINT (1 1)\nsave\nlayer drop w"
        with mock.patch("sys.stderr"):
            shown, said = self.carry_out(lines, f"import {self.folder}/no.gpkg --grid 0 0 1", "n", "undo")
        self.assertEqual(shown, [("POINT (1 1)", {})])
        self.assertIn("Nothing is brought in", said)

    def point(self) -> str:
        """A source of one point that an import takes, and one that it reports."""
        features = [{"type": "Feature", "properties": {}, "geometry": {"type": "Point", "coordinates": [x, 1]}} for x in (1, 1.5)]
        source = self.folder / "w.geojson"
        source.write_text(json.dumps({"type": "FeatureCollection", "name": "w", "features": features}))
        return str(source)

    @unittest.skipUnless(HAS_GDAL, "no GDAL")
    def test_an_import_replaces_no_report_unasked(self):
        notes, line = self.folder / "notes.txt", f"import {self.point()} --grid 0 0 1 --report {self.folder}/notes.txt"
        notes.write_text("what I have written\n")
        shown, said = self.carry_out(line)
        self.assertEqual((shown, notes.read_text()), ([], "what I have written\n"))
        self.assertIn("notes.txt is there already: --overwrite replaces it", said)
        shown, _ = self.carry_out(f"{line} --overwrite")
        self.assertEqual(shown, [("POINT (1 1)", {})])
        self.assertIn("off the grid", notes.read_text())

    @unittest.skipUnless(HAS_GDAL, "no GDAL")
    def test_an_import_replaces_no_store_that_was_written_meanwhile(self):
        def opened(*words: object) -> object:
            with Store(self.folder / "town.sfs", journal=True, program=PROGRAM) as other:
                other.run_all(["layer add w point", "add w POINT (7 7)"])
            return open_source(*words)

        with mock.patch.object(importing, "open_source", opened):
            shown, said = self.carry_out(f"import {self.point()} --grid 0 0 1")
        self.assertEqual(shown, [("POINT (7 7)", {})])
        self.assertIn("was written by another program meanwhile", said)

    def test_a_group_that_was_pasted(self):
        begin = "layer add w point\ntogether 2\n\nadd w POINT (1 1)\r\nadd w POINT (2 2)\nundo\nredo"
        shown, said = self.carry_out(begin)
        self.assertEqual(shown, [("POINT (1 1)", {}), ("POINT (2 2)", {})])
        self.assertIn("('ok 1 2',) ('ok',) ('ok',)", said)

    def test_lines_that_are_no_members_count_as_the_program_counts_them(self):
        shown, said = self.carry_out("layer add w point\ntogether 2\nundo\nadd w POINT (1 1)\nadd w POINT (2 2)")
        self.assertEqual(shown, [("POINT (2 2)", {})])
        self.assertIn("That is no edit of a feature, and the group will be refused", said)
        self.assertIn("It is member 1, and nothing of the group was done: undo", said)

    def test_the_history_is_for_this_user_alone(self):
        with mock.patch.dict(os.environ, XDG_STATE_HOME=str(self.folder / "state")):
            path = console._history_path()
            self.assertEqual(stat.S_IMODE(os.stat(path).st_mode), 0o600)
            self.assertEqual(stat.S_IMODE(os.stat(os.path.dirname(path)).st_mode), 0o700)
            os.chmod(path, 0o644)
            self.assertEqual(console._history_path(), path)
            self.assertEqual(stat.S_IMODE(os.stat(path).st_mode), 0o600)
            os.unlink(path)
            os.symlink(self.folder / "other", path)
            self.assertIsNone(console._history_path())


    def test_whom_the_system_does_not_know_has_no_history(self):
        with mock.patch.object(os.path, "expanduser", lambda path: path), mock.patch.dict(os.environ):
            os.environ.pop("XDG_STATE_HOME", None)
            self.assertIsNone(console._history_path())


class InMapUnits(TestCase):
    """What is carried out of a text over a store with a grid beside it, in this process."""

    def setUp(self):
        super().setUp()
        self.path = self.folder / "town.sfs"
        with Store(self.path, journal=True, program=PROGRAM) as store:
            store.run_all(["layer add w any", "add w POINT (4500 1500)", "add w POLYGON ((0 0, 1000 0, 0 1000, 0 0))"])
        grid = sidecar.Sidecar(("500000", "5600000", "0.01"), sidecar.Crs("EPSG", "25832", ""), [])
        sidecar.write(str(self.path), grid, [files.digest(str(self.path))])

    def said(self, *lines, in_steps=False):
        self.typed = Typed([*lines, "quit", "n"])
        with mock.patch("builtins.print") as printed:
            console.Console(str(self.path), PROGRAM, lambda _: self.typed, in_steps).run()
        return "\n".join(str(call.args[0]) for call in printed.call_args_list)

    def test_a_picture_has_the_coordinates_of_its_corners(self):
        (self.folder / "sfmap").symlink_to(path_of("sfmap"))
        picture = self.folder / "town.svg"
        for in_steps, words in ((False, ["<text class='corner'", ">499997.75 5600017.25</text>", ">500047.25 5599997.75</text>", ">10 map units, EPSG:25832</text>"]), (True, [">1000 grid steps</text>"])):
            with mock.patch.dict(os.environ, {"PATH": f"{self.folder}{os.pathsep}{os.environ['PATH']}"}):
                self.assertIn("town.svg is drawn.", self.said(f"picture {picture}", in_steps=in_steps))
            for word in words:
                self.assertIn(word, picture.read_text())
            self.assertEqual("corner'" in picture.read_text(), not in_steps)

    def test_answers(self):
        said = self.said("show w", "box w 2", "area w 2", "length w 2")
        for words in (
            "Coordinates are those of the map (EPSG:25832), whole steps of 0.01. With --steps they are counted in steps.",
            "1 POINT (500045.00 5600015.00)",
            "500000.00 5600000.00 500010.00 5600010.00",
            "2 50\n1 row",
            "2 34.14213\n1 row",
        ):
            self.assertIn(words, said)

    def test_in_steps(self):
        said = self.said("show w", in_steps=True)
        self.assertIn("1 POINT (4500 1500)", said)
        self.assertNotIn("Coordinates", said)

    def test_edits_and_groups(self):
        said = self.said(
            "add w POINT (500000.01 5600000)",
            "add w POINT (500000.005 5600000)",
            "together 2",
            # A member that can't be read is none: the group waits for another one.
            "add w POINT (-99999999 5600000)",
            "add w POINT (500000.07 5600000)",
            "vertex move w last 0 0 0 500000.08 5600000",
            "show w",
        )
        self.assertIn("x 500000.005 lies between two places of the grid, 500000.00 and 500000.01: take one of them", said)
        self.assertIn("x -99999999 lies outside of the grid, which goes from -10237418.24 to 11237418.23", said)
        self.assertIn("3 POINT (500000.01 5600000.00)\n4 POINT (500000.08 5600000.00)\n4 rows", said)
        with Store(self.path, journal=True, program=PROGRAM) as store:
            self.assertEqual([feature.wkt for feature in store.get("w", 3, 4)], ["POINT (1 0)", "POINT (8 0)"])

    def test_what_lies_far_off_the_map_is_asked_about(self):
        far = "add w POINT (503000 5600000)"
        said = self.said("add w POINT (500900 5600000)", "undo", far, "n", "show w", "vertex move w 1 0 0 0 520000 5600000", "n", "show w")
        self.assertIn("ok 3\nok\n1 POINT", said)
        self.assertEqual(said.count("1 POINT (500045.00 5600015.00)\n2 POLYGON"), 2)
        # So is a member of a group, in whose place another one is given.
        said = self.said("together 1", far, "n", "add w POINT (500900 5600000)", "undo", "together 1", far, "y", "undo")
        self.assertIn("It is not kept: give this member again, or leave the group by Ctrl-C.\nok 3\nok\nok 3\nok\n", said)
        # Once it is meant, the map is larger, and what lies there is asked about no more.
        self.assertIn("ok 3\nok 4\n", self.said(far, "y", far))
        self.assertIn("ok 5\n", self.said("add w POINT (9000000 0)", in_steps=True))

    def test_the_place_that_lies_far_off_is_named(self):
        said = self.said("add w POLYGON ((500010 5600000, 500010 5600010, 5000 5600010, 500010 5600000))", "n", "show w")
        self.assertIn("(5000.00 5600010.00) lies far off the map. Is it meant? [y/n] ", self.typed.prompts)
        self.assertIn("2 rows", said)

    def test_tools_that_lead_far_off_the_map_are_asked_about(self):
        corner = "add w POLYGON ((500010 5600000, 500010 5600010, 500000 5600010, 500010 5600000))"
        far = "node 500010 5600000 to 5000100 5600000"
        said = self.said(corner, far, "n", "get w 3", far, "y", "get w 3")
        self.assertEqual(self.typed.prompts.count("(5000100.00 5600000.00) lies far off the map. Is it meant? [y/n] "), 2)
        self.assertIn("Nothing was done.\n3 POLYGON ((500010.00 5600000.00,", said)
        self.assertIn("ok: w 2, w 3\n3 POLYGON ((5000100.00 5600000.00,", said)

    def test_a_shared_corner_is_moved(self):
        said = self.said(
            "add w POLYGON ((500010 5600000, 500010 5600010, 500000 5600010, 500010 5600000))",
            "node 500010 5600000 to 500011 5599999.5",
            "get w 2 3",
            "node 500010 5600000 to 500011 5600000",
            "node 500011 5599999.5 500011 5600000",
            "node x y to 500011 5600000",
            "undo",
            "get w 3",
        )
        for words in (
            "ok: w 2, w 3\n",
            "2 POLYGON ((500000.00 5600000.00, 500011.00 5599999.50, 500000.00 5600010.00, 500000.00 5600000.00))",
            "3 POLYGON ((500011.00 5599999.50, 500010.00 5600010.00, 500000.00 5600010.00, 500011.00 5599999.50))",
            "no feature has a vertex at (500010.00 5600000.00)",
            "node takes x and y, the word `to`, and x and y again",
            "x y is no point of the grid",
            "3 POLYGON ((500010.00 5600000.00, 500010.00 5600010.00, 500000.00 5600010.00, 500010.00 5600000.00))",
        ):
            self.assertIn(words, said)

    def test_what_has_no_points_is_refused_by_name(self):
        for text in ("POINT ()", "POINT (a b)", "LINESTRING (())", "POINT (5)"):
            said = self.said(f"add w {text}")
            self.assertIn("Refused (2 Syntax)", said)
            self.assertNotIn("min()", said)

    def test_a_refused_tool_shows_no_member_that_was_typed(self):
        """The rule refuses the merge: its members are those of the tool."""
        said = self.said(
            "add w POLYGON ((500000 5600100, 500010 5600100, 500010 5600110, 500000 5600100))",
            "add w POLYGON ((500000 5600200, 500010 5600200, 500010 5600210, 500000 5600200))",
            "layer add one polygon",
            "add one POLYGON ((500000 5600100, 500010 5600100, 500010 5600110, 500000 5600100))",
            "add one POLYGON ((500000 5600200, 500010 5600200, 500010 5600210, 500000 5600200))",
            "together 2",
            "add w POINT (500000.01 5600000)",
            "add w POINT (500000.02 5600000)",
            "merge one 1 2",
        )
        self.assertIn("It is member 1, and nothing of the group was done: replace one 1 MULTIPOLYGON (((", said)

    def test_areas_are_parted_and_merged(self):
        said = self.said(
            "split w 2 LINESTRING (500000 5600000, 500010 5600010)",
            "get w 2 3",
            "split w 2 LINESTRING (500001 5600000, 500002 5600000)",
            "split w 2 LINESTRING (500002 5599999, 500004 5600005, 500004 5600003, 500001 5600003, 500001 5600008, 500003 5599999)",
            "split w 2",
            "split w 2 LINESTRING (500000.005 5600000, 500002 5600000)",
            "merge w 2 3",
            "area w 2",
            "merge w 2",
            "merge w 2 x",
            "merge w 2 77",
        )
        for words in (
            "ok: w 2, 3\n",
            "2 POLYGON ((500000.00 5600000.00, 500005.00 5600005.00, 500000.00 5600010.00, 500000.00 5600000.00))",
            "Not done: the line does not part w 2: it begins at (500001.00 5600000.00).",
            "Not done: the line crosses itself in w 2 at (~500002.11111 5600003.00).\n",
            "split takes a layer, a number and a LINESTRING",
            "x 500000.005 lies between two places of the grid",
            "ok: w 2\n2 50\n1 row",
            "merge takes a layer and two or more numbers",
            "x is no number of a feature",
            "Refused (21 NoFeature)",
        ):
            self.assertIn(words, said)

    def test_a_border_is_moved_and_holes_are_cut_and_filled(self):
        said = self.said(
            "layer add p any",
            "add p POLYGON ((500000 5600000, 500010 5600000, 500010 5600010, 500000 5600010, 500000 5600000))",
            "add p POLYGON ((500010 5600000, 500020 5600000, 500020 5600010, 500010 5600010, 500010 5600000))",
            "preview border p 1 2 LINESTRING (500010 5600000, 500012 5600005, 500010 5600010)",
            "area p 1 2",
            "border p 1 2 LINESTRING (500010 5600000, 500012 5600005, 500010 5600010)",
            "hole p 1 POLYGON ((500002 5600002, 500003 5600002, 500003 5600003, 500002 5600002))",
            "area p 1",
            "fill p 1 500009 5600009",
            "fill p 1 500002.8 5600002.5",
            "area p 1",
            "border p 1 2 LINESTRING (500010 5600000, 500012 5600005)",
            "border p 1 2",
            "hole p 1",
            "fill p",
        )
        for words in (
            "p 1: area 100 of 5 points before, area 110 of 6 points after\n"
            "p 2: area 100 of 5 points before, area 90 of 6 points after\nNothing was done.\n1 100\n2 100\n2 rows\n",
            "ok: p 1, p 2\nok: p 1\n1 109.5\n1 row\n",
            "Not done: (500009.00 5600009.00) lies in no hole of p 1.\nok: 1 hole of p 1\n1 110\n1 row\n",
            "it leads to no border at (500012.00 5600005.00).",
            "border takes a layer, two numbers and a LINESTRING",
            "hole takes a layer, a number and a POLYGON",
            "fill takes a layer and a number",
        ):
            self.assertIn(words, said)

    def test_what_is_near_is_shown_before_it_is_made_one(self):
        made = (
            "layer add p any",
            "add p POLYGON ((500000 5600000, 500010 5600000, 500010 5600010, 500000 5600010, 500000 5600000))",
            "add p POLYGON ((500010.02 5600000, 500020 5600000, 500020 5600010, 500010 5600010, 500009.9 5600005, 500010.02 5600000))",
        )
        told = "(500010.02 5600000.00) to (500010.00 5600000.00): p 2\n"
        said = self.said(*made, "snap p within 0.05", "n", "preview snap p within 0.05", "snap p within 0.05", "y", "snap p within 0.05", "snap p")
        self.assertEqual(said.count(told + "1 node would be moved, in 1 feature.\n"), 3)
        self.assertIn("Nothing was done.\n", said)
        self.assertIn("ok: 1 feature, 1 step\nNothing is that near.\nThat line can't be read: snap takes layers, the word `within`, and a distance", said)

    def test_a_part_or_a_hole_that_would_be_gone_is_shown_before(self):
        large = "(500000 5600000, 500010 5600000, 500010 5600010, 500000 5600010, 500000 5600000)"
        said = self.said(
            "layer add p any",
            f"add p MULTIPOLYGON (({large}), ((500020 5600020, 500020.03 5600020, 500020 5600020.03, 500020 5600020)))",
            "add p POLYGON ((500030 5600000, 500040 5600000, 500040 5600010, 500030 5600000), "
            "(500036 5600003, 500036.03 5600003, 500036 5600003.03, 500036 5600003))",
            "snap p within 0.05",
            "n",
        )
        told = "p 1 would have 1 ring, and has 2\np 2 would have 1 ring, and has 2\n"
        self.assertIn(f"{told}4 nodes would be moved, in 2 features.\n", said)

    def test_overlaps_are_shown_before_they_are_taken_away(self):
        said = self.said(
            "layer add p any",
            "add p POLYGON ((500000 5600000, 500010 5600000, 500010 5600010, 500000 5600010, 500000 5600000))",
            "add p POLYGON ((500010 5600000, 500020 5600000, 500020 5600010, 500010 5600010, 500009.9 5600005, 500010 5600000))",
            "clean p within 0.01",
            "clean p within 0.2",
            "y",
            "match p T******** POLYGON ((500009.9 5600005, 500010 5600004, 500010 5600006, 500009.9 5600005))",
            "clean p within 0.2",
        )
        for words in (
            "overlap of p 1, p 2 at (500009.90 5600005.00), area 0.5: it is wider than that, and stays\n0 features of p would be changed.\n",
            "overlap of p 1, p 2 at (500009.90 5600005.00), area 0.5: it goes to p 1\np 2 at (500009.90 5600005.00): area 100.5 before, 100 after\n"
            "1 feature of p would be changed.\nok: 1 feature, 1 step\n1\n1 row\np has no overlap, no gap, and nothing that near.\n",
        ):
            self.assertIn(words, said)

    def test_a_refusal_names_the_rule_and_what_would_break_it(self):
        said = self.said(
            "column add w use text",
            "rule add uses one-of w use 'field','road', E'\\x1b[2J'",
            "set w 1 use 'sea'",
            "together 2",
            "set w 1 use 'road'",
            "set w 2 use '\x9b2J'",
            "rule add ruled required w use",
            "rule add apart never w intersects w",
            "add w POINT (500045 5600015)",
        )
        for words in (
            "Refused (37 RuleBroken): a rule would be broken.\n  w 1 would have another use than 'field', 'road', E'\\x1b[2J' (rule uses).",
            "  w 2 would have another use than 'field', 'road', E'\\x1b[2J' (rule uses).",
            "  w 1 would have no use (rule ruled).",
            "  w 1 and w 3 would meet (rule apart).",
        ):
            self.assertIn(words, said)

    def test_a_rule_by_a_distance_is_shown_and_broken_in_units_of_the_map(self):
        said = self.said(
            "rule add spaced never w near 2.5 w",
            "rule add fine never w near 0.0000001 w",
            "rules",
            "add w POINT (500046.5 5600017)",
            "rule add paired each w near 40 some w",
            "rule add alone each w near 20 some w",
            "join w near 40 w",
        )
        for words in (
            "ok\nThat line can't be read: the distance 0.0000001 is no whole number of thousandths of a grid step; 0 and 0.00001 are\n",
            "\nspaced never w near 2.5 w\n1 row\n",
            "  w 1 and w 3 would lie within 2.5 of one another (rule spaced).",
            "  w 1 would lie within 20 of none of w (rule alone).",
            "\n1 2\n2 1\n2 rows",
        ):
            self.assertIn(words, said)
        with Store(self.path, journal=True, program=PROGRAM) as store:
            self.assertEqual([rule.line for rule in store.rules()], ["spaced never w near 250 w", "paired each w near 4000 some w"])

    def test_a_refusal_names_its_place_on_the_map(self):
        said = self.said("add w POLYGON ((500000 5600000, 500010 5600010, 500010 5600000, 500000 5600010, 500000 5600000))")
        self.assertIn("Refused (13 RingNotSimple)", said)
        self.assertIn("(500005.00 5600005.00)", said)
        said = self.said("together 1", "add w LINESTRING (500000 5600000)")
        self.assertIn("It is member 1, and nothing of the group was done: add w LINESTRING (500000 5600000)", said)
        self.assertIn("has the point (500000.00 5600000.00) alone", said)

    def test_coordinates_are_those_of_the_map_by_a_link_too(self):
        link = self.folder / "link.sfs"
        link.symlink_to(self.path)
        self.path = link
        said = self.said("add w POINT (500001 5600002)", "show w")
        self.assertIn("Coordinates are those of the map", said)
        self.assertIn("POINT (500001.00 5600002.00)", said)

    def test_a_grid_of_another_file(self):
        with Store(load=self.path, save=self.path, program=PROGRAM) as store:
            store.delete("w", 1)
        said = self.said("show w")
        self.assertIn("Coordinates are steps of the grid: ", said)
        self.assertIn("POLYGON ((0 0, 1000 0, 0 1000, 0 0))", said)


class ConsoleCase(TestCase):
    PLAIN = False

    def setUp(self):
        super().setUp()
        self.path = self.folder / "town.sfs"
        self.environment = {
            **os.environ,
            "TERM": "xterm",
            "PROMPT_TOOLKIT_NO_CPR": "1",
            "XDG_STATE_HOME": str(self.folder / "state"),
            "HOME": str(self.folder),
            "PAGER": "cat",
        }
        self.environment.pop("DISPLAY", None)
        self.environment.pop("WAYLAND_DISPLAY", None)

    def console(self):
        words = [str(self.path), "--program", PROGRAM]
        terminal = Terminal(words, self.environment, self.PLAIN)
        self.addCleanup(terminal.close)
        terminal.wait("town.sfs>")
        return terminal

    def leave(self, terminal, answer="y"):
        terminal.line("quit", " now?")
        terminal.send(answer + "\r")
        said = terminal.end()
        self.assertEqual(terminal.status, 0, said)
        return said

    def stored(self, lines):
        with Store(PROGRAM, save=self.path) as store:
            store.run_all(lines)


@unittest.skipUnless(HAS_TOOLKIT, "no prompt_toolkit (python3-prompt-toolkit)")
class Sessions(ConsoleCase):
    def test_a_session(self):
        terminal = self.console()
        terminal.line("layer add wells point", "ok")
        terminal.line("add wells POINT (3 4)", "ok 1")
        said = terminal.line("show wells", "1 row")
        self.assertIn("1 POINT (3 4)", said)
        said = self.leave(terminal)
        self.assertIn("town.sfs is saved", said)
        with Store(PROGRAM, load=self.path) as store:
            self.assertEqual(len(store.show("wells")), 1)

    def test_what_is_not_saved_stays_in_the_journal(self):
        terminal = self.console()
        terminal.line("layer add wells point", "ok")
        said = self.leave(terminal, "n")
        self.assertIn("It stays in", said)
        self.assertFalse(self.path.exists())
        terminal = self.console()
        terminal.line("layers", "wells point")
        terminal.line("undo", "ok")
        terminal.line("save", "is saved. The history begins anew.")
        terminal.send("quit\r")
        terminal.end()
        self.assertEqual(terminal.status, 0)

    def test_a_refusal_in_words_with_its_place(self):
        terminal = self.console()
        terminal.line("layer add p any", "ok")
        said = terminal.line(
            "@7 add p POLYGON ((0 0, 3 3, 3 0, 0 2, 0 0))", "edges do not cross."
        )
        self.assertIn("Refused (13 RingNotSimple): a ring meets itself.", said)
        self.assertIn("edges 0 and 2 of ring 0 meet at (6/5 6/5)", said)
        terminal.line("add p POLYGON ((0 0, 10 0, 10 10, 0 10, 0 0))", "ok 1")
        said = terminal.line("vertex move p 1 0 0 2 5 -5", "edges do not cross.")
        self.assertIn("edges 0 and 2 of ring 0 meet at (10/3 0)", said)
        self.assertIn("`layers` lists them", terminal.line("show q", "differ."))
        self.assertIn("Is `layers` meant?", terminal.line("layrs", "meant?"))
        said = terminal.line("layer add", "layer move wells 0")
        self.assertIn("It is used so:", said)
        self.leave(terminal)

    def test_a_group(self):
        terminal = self.console()
        terminal.line("layer add p polygon", "ok")
        terminal.line("add p POLYGON ((0 0, 20 0, 20 10, 0 10, 0 0))", "ok 1")
        terminal.line("@7 together 3", "1 of 3>")
        terminal.line("add p POLYGON ((0 0, 10 0, 10 10, 0 10, 0 0))", "2 of 3>")
        terminal.send("\r")
        self.assertIn("removes a feature", terminal.line("help delete", "example: delete wells 1"))
        self.assertIn("Not inside a group", terminal.line("save", "leave it by Ctrl-C."))
        terminal.wait("2 of 3>")
        terminal.line("add p POLYGON ((10 0, 20 0, 20 10, 10 10, 10 0))", "3 of 3>")
        terminal.line("delete p 1", "ok 2 3")
        terminal.wait("town.sfs>")
        terminal.line("undo", "Who made it can undo it.")
        terminal.line("@7 undo", "ok")
        terminal.line("show p", "1 row")
        self.leave(terminal)

    def test_a_group_that_is_left(self):
        terminal = self.console()
        terminal.line("layer add w point", "ok")
        for key in "\x03\x04":
            terminal.wait("town.sfs>")
            terminal.line("together 2", "1 of 2>")
            terminal.line("add w POINT (1 1)", "2 of 2>")
            time.sleep(0.3)
            terminal.send(key)
            terminal.wait("The group is left: nothing of it was done.")
        terminal.wait("town.sfs>")
        terminal.line("show w", "0 rows")
        self.leave(terminal)

    def test_a_group_that_is_refused(self):
        terminal = self.console()
        terminal.line("layer add p any", "ok")
        terminal.line("together 2", "1 of 2>")
        terminal.line("add p POINT (1 1)", "2 of 2>")
        said = terminal.line("add p POLYGON ((0 0, 3 3, 3 0, 0 2, 0 0))", "edges do not cross.")
        self.assertIn("Refused (13 RingNotSimple): a ring meets itself.", said)
        self.assertIn("It is member 2, and nothing of the group was done: add p POLYGON", said)
        self.assertIn("edges 0 and 2 of ring 0 meet at (6/5 6/5)", said)
        terminal.line("together 2", "1 of 2>")
        self.assertIn("the group will be refused. Ctrl-C leaves it.", terminal.line("show p", "2 of 2>"))
        said = terminal.line("add p POINT (1 1)", "before `together`.")
        self.assertIn("It is member 1, and nothing of the group was done: show p", said)
        terminal.line("show p", "0 rows")
        self.leave(terminal)

    def test_completion_in_a_group(self):
        self.stored(["layer add wells point", "column add wells depth int", "add wells POINT (3 4)"])
        terminal = self.console()
        terminal.line("together 1", "1 of 1>")
        terminal.send("set we\t")
        time.sleep(0.5)
        terminal.send(" 1 d\t")
        time.sleep(0.5)
        terminal.send(" 5\r")
        terminal.wait("ok")
        self.assertIn("depth=5", terminal.line("show wells", "1 row"))

    def test_help(self):
        terminal = self.console()
        said = terminal.line("help add", "example: add wells POINT (3 4)")
        self.assertIn("adds a feature, and gives its number", said)
        terminal.line("help nothing", "There is no command nothing")
        terminal.line("help", "leaves; asks first")

    def test_completion(self):
        self.stored(["layer add wells point", "layer add walls any", "column add wells depth int"])
        terminal = self.console()
        terminal.send("columns we\t")
        time.sleep(0.5)
        terminal.send("\r")
        terminal.wait("depth int")

    def test_history_is_kept(self):
        terminal = self.console()
        terminal.line("layers", "0 rows")
        terminal.send("quit\r")
        terminal.end()
        terminal = self.console()
        for keys in ("\x1b[A", "\x1b[A", "\r"):
            time.sleep(0.3)
            terminal.send(keys)
        terminal.wait("0 rows")

    def test_long_answers_go_through_a_pager(self):
        pager = self.folder / "pager"
        pager.write_text("#!/bin/sh\necho PAGED\ncat\n")
        pager.chmod(0o700)
        self.environment["PAGER"] = str(pager)
        self.stored(["layer add w point", *(f"add w POINT ({k} 1)" for k in range(200))])
        terminal = self.console()
        said = terminal.line("show w", "200 rows")
        self.assertIn("PAGED", said)
        self.assertNotIn("PAGED", terminal.line("box w 1", "0 1 0 1"))

    def test_control_c_at_the_prompt_and_the_end_of_input(self):
        terminal = self.console()
        terminal.send("layer add never any")
        time.sleep(0.2)
        terminal.send("\x03")
        terminal.wait("town.sfs>")
        terminal.line("layers", "0 rows")
        terminal.wait("town.sfs>")
        time.sleep(0.3)
        terminal.send("\x04")
        terminal.end()
        self.assertEqual(terminal.status, 0)

    def test_control_c_in_a_command(self):
        """A program that answers one line only after an hour: Ctrl-C ends it, and no edit is lost."""
        slow = self.script(
            f"#!{sys.executable}\n"
            "import subprocess, sys, time\n"
            f"real = subprocess.Popen([{PROGRAM!r}, *sys.argv[1:]], stdin=subprocess.PIPE)\n"
            "for line in sys.stdin.buffer:\n"
            "    if line == b'box w 1\\n': time.sleep(3600)\n"
            "    real.stdin.write(line); real.stdin.flush()\n"
            "real.stdin.close(); sys.exit(real.wait())\n"
        )
        terminal = Terminal([str(self.path), "--program", str(slow)], self.environment, self.PLAIN)
        self.addCleanup(terminal.close)
        terminal.wait("town.sfs>")
        terminal.line("layer add w point", "ok")
        terminal.line("add w POINT (1 1)", "ok 1")
        terminal.send("box w 1\r")
        time.sleep(0.7)
        terminal.send("\x03")
        said = terminal.wait("to undo too.")
        self.assertIn("Interrupted.", said)
        self.assertIn("2 edits from the journal were not saved yet", said)
        terminal.line("show w", "1 row")

    def test_a_program_that_is_killed(self):
        terminal = self.console()
        terminal.line("layer add w point", "ok")
        children = subprocess.run(
            ["pgrep", "-P", str(terminal.process)], capture_output=True, text=True, check=True
        )
        os.kill(int(children.stdout), signal.SIGKILL)
        said = terminal.line("layers", "to undo too.")
        self.assertIn("the program was killed by signal 9", said)
        terminal.line("layers", "w point")

    def test_a_terminal_that_goes_away(self):
        terminal = self.console()
        terminal.line("layer add w point", "ok")
        os.kill(terminal.process, signal.SIGHUP)
        terminal.end()
        self.console().line("layers", "w point")

    def test_a_second_session(self):
        self.console()
        words = [str(self.path), "--program", PROGRAM]
        second = Terminal(words, self.environment, self.PLAIN)
        self.addCleanup(second.close)
        said = second.end()
        self.assertEqual(second.status, 3)
        self.assertIn("town.sfs is open in another session", said)

    def test_a_file_that_does_not_load(self):
        self.path.write_bytes(b"something else")
        words = [str(self.path), "--program", PROGRAM]
        terminal = Terminal(words, self.environment, self.PLAIN)
        self.addCleanup(terminal.close)
        said = terminal.end()
        self.assertEqual(terminal.status, 3)
        self.assertIn("does not load: place 0, first eight bytes: the file is none of a store", said)

    def test_a_picture(self):
        sfmap = self.folder / "sfmap"
        sfmap.write_text("#!/bin/sh\necho '<svg>'\nwc -c\n")
        sfmap.chmod(0o700)
        self.environment["PATH"] = f"{self.folder}{os.pathsep}{self.environment['PATH']}"
        terminal = self.console()
        terminal.line("layer add w point", "ok")
        terminal.line(f"picture {self.folder}/town.svg", "town.svg is drawn.")
        self.assertIn("<svg>", (self.folder / "town.svg").read_text())
        sfmap.write_text("#!/bin/sh\nexit 3\n")
        terminal.line(f"picture {self.folder}/none.svg", "sfmap ended with status 3")
        self.assertFalse((self.folder / "none.svg").exists())
        terminal.line("layers", "w point")

    def test_a_picture_takes_the_place_of_no_other_file(self):
        sfmap = self.folder / "sfmap"
        sfmap.write_text("#!/bin/sh\necho '<svg/>'\n")
        sfmap.chmod(0o700)
        self.environment["PATH"] = f"{self.folder}{os.pathsep}{self.environment['PATH']}"
        notes = self.folder / "notes.txt"
        notes.write_text("mine")
        terminal = self.console()
        terminal.line("layer add w point", "ok")
        terminal.line("save", "is saved")
        kept = self.path.read_bytes()
        for name in (self.path, f"{self.path}.journal", f"{self.folder}/../{self.folder.name}/{self.path.name}", notes):
            terminal.line(f"picture {name}", "nothing is drawn")
        self.assertEqual((self.path.read_bytes(), notes.read_text()), (kept, "mine"))
        terminal.line("layers", "w point")

    def test_a_drawing_of_somebodys_own_gives_way_where_that_is_said(self):
        sfmap = self.folder / "sfmap"
        head = "<svg xmlns='http://www.w3.org/2000/svg' width='8' height='8'>"
        sfmap.write_text(f'#!/bin/sh\nprintf "{head}\\n<style>.background"\n')
        sfmap.chmod(0o700)
        self.environment["PATH"] = f"{self.folder}{os.pathsep}{self.environment['PATH']}"
        mine = self.folder / "mine.svg"
        mine.write_text("<svg>mine</svg>")
        terminal = self.console()
        terminal.line(f"picture {mine}", "Replace it?")
        terminal.line("n", "Nothing is drawn.")
        self.assertEqual(mine.read_text(), "<svg>mine</svg>")
        terminal.line(f"picture {mine}", "Replace it?")
        terminal.line("y", "mine.svg is drawn.")
        terminal.line(f"picture {mine}", "mine.svg is drawn.")

    def test_a_picture_lets_others_see_no_more_than_the_store(self):
        sfmap = self.folder / "sfmap"
        sfmap.write_text("#!/bin/sh\necho '<svg/>'\n")
        sfmap.chmod(0o700)
        self.environment["PATH"] = f"{self.folder}{os.pathsep}{self.environment['PATH']}"
        terminal = self.console()
        terminal.line("layer add w point", "ok")
        terminal.line("save", "is saved")
        self.path.chmod(0o600)
        terminal.line("picture", "is drawn")
        self.assertEqual(os.stat(f"{self.path}.svg").st_mode & 0o777, 0o600)

    def test_a_browser_is_asked_where_there_is_a_display(self):
        for name, text in (("sfmap", "echo '<svg/>'"), ("browser", f"echo $1 > {self.folder}/asked")):
            script = self.folder / name
            script.write_text(f"#!/bin/sh\n{text}\n")
            script.chmod(0o700)
        self.environment["PATH"] = f"{self.folder}{os.pathsep}{self.environment['PATH']}"
        self.environment |= {"DISPLAY": ":99", "BROWSER": str(self.folder / "browser")}
        terminal = self.console()
        terminal.line(f"picture {self.folder}/town.svg", "town.svg is drawn.")
        terminal.line("layers", "0 rows")
        asked = (self.folder / "asked").read_text()
        self.assertEqual(asked, (self.folder / "town.svg").as_uri() + "\n")

    @unittest.skipUnless(HAS_GDAL, "no GDAL for Python (python3-gdal)")
    def test_import_edit_and_export(self):
        from test_exchange import KINDS, Source

        town = self.folder / "town.gpkg"
        source = Source(town)
        source.layer("wells", {3: (KINDS["point"], {})}, 1)
        source.close()
        terminal = self.console()
        grid = "--grid 500000 5600000 0.01"
        terminal.line(f"import {self.folder}/missing.gpkg {grid}", "does not open")
        terminal.line(f"import {town}", "the grid is missing")
        terminal.line(f"import {town} --nothing", "unrecognized arguments")
        terminal.line(f"import --suggest {town}", "--grid")
        terminal.line(f"import {town} {grid}", "wells: 1 features read, 1 taken")
        terminal.line("add wells POINT (500000.01 5600000)", "ok 4")
        terminal.line(f"import {town} {grid}", "This store has layers")
        terminal.line(f"import {town} --add", "1 step is in the journal of ")
        terminal.line("show wells", "5")
        terminal.line("undo", "ok")
        terminal.line("undo", "ok")
        terminal.line("redo", "ok")
        back = self.folder / "back.gpkg"
        terminal.line(f"export {back}", "Save them now?")
        terminal.line("n", "Nothing is written")
        terminal.line(f"export {back}", "Save them now?")
        terminal.line("y", "It is written.")
        terminal.line(f"export {back}", "is there already")
        self.assertTrue(back.exists())
        terminal.send("quit\r")
        terminal.end()
        self.assertEqual(terminal.status, 0)


class PlainSessions(Sessions):
    """The same without prompt_toolkit."""

    PLAIN = True
    __unittest_skip__ = False

    def test_history_is_kept(self):
        """Of an earlier session there is none."""

    def test_it_is_told(self):
        words = [str(self.path), "--program", PROGRAM]
        terminal = Terminal(words, self.environment, self.PLAIN)
        self.addCleanup(terminal.close)
        terminal.wait("prompt_toolkit is missing")


@unittest.skipUnless(HAS_GDAL and find_spec("rich"), "no GDAL or no rich (python3-rich)")
class Progress(ConsoleCase):
    def test_an_import_shows_how_far_it_is(self):
        from test_exchange import GRID, Source, parcels

        town = self.folder / "town.gpkg"
        source = Source(town)
        source.layer("parcels", {key: (text, {}) for key, (text, _) in parcels(6000)}, 3)
        source.close()
        words = [str(town), str(self.path), *GRID, "--program", PROGRAM]
        terminal = Terminal(words, self.environment, module="sfstore.exchange.importing")
        self.addCleanup(terminal.close)
        said = terminal.end()
        self.assertEqual(terminal.status, 0, said)
        self.assertRegex(said, "parcels .* [0-9]+%")
        self.assertIn("parcels: 6000 features read, 6000 taken", said)


class Words(TestCase):
    def test_without_a_terminal(self):
        environment = {**os.environ, "PYTHONPATH": str(FOLDER)}
        ended = subprocess.run(
            [sys.executable, "-m", "sfstore.console", "town.sfs"],
            stdin=subprocess.DEVNULL,
            capture_output=True,
            text=True,
            env=environment,
            cwd=self.folder,
        )
        self.assertEqual((ended.returncode, ended.stdout), (2, ""))
        self.assertIn("sfstore-console needs a terminal", ended.stderr)
        self.assertIn("sfstore --load FILE --save FILE < LINES", ended.stderr)
        self.assertEqual(os.listdir(self.folder), [])

    def candidates(self, line, in_group=False):
        columns = {"wells": ["depth", "label"]}
        return commands.candidates(
            line, lambda: ["wells", "walls"], lambda layer: columns.get(layer, []), in_group
        )

    def test_candidates(self):
        for line, words in (
            ("sh", ["show"]),
            ("@7 sh", ["show"]),
            ("layer ", ["add", "drop", "rename", "move"]),
            ("layer add x lin", ["linestring"]),
            ("show ", ["wells", "walls"]),
            ("show we", ["wells"]),
            ("set wells 1 ", ["depth", "label"]),
            ("set other 1 ", []),
            ("column drop wells l", ["label"]),
            ("column add wells x ", ["int", "text", "decimal", "bool", "date", "datetime"]),
            ("query wells to", ["touches"]),
            ("query wells ne", ["near"]),
            ("query wells near ", []),
            ("query wells near 2 POL", ["POLYGON ("]),
            ("join wells n", ["near"]),
            ("join wells touches we", ["wells"]),
            ("join wells near ", []),
            ("join wells near 2 we", ["wells"]),
            ("rule add apart never wells ne", ["near"]),
            ("rule add apart never wells near ", []),
            ("rule add apart never wells near 2 we", ["wells"]),
            ("rule add served each wells near 2 ", ["some"]),
            ("add wells POL", ["POLYGON ("]),
            ("help qu", ["query", "quit"]),
            ("undo ", []),
            ("nothing ", []),
            ("tog", ["together"]),
        ):
            self.assertEqual(self.candidates(line), words, line)

    def test_candidates_of_members(self):
        for line, words in (
            ("", ["add", "addhex", "delete", "replace", "vertex", "set", "unset", "help"]),
            ("s", ["set"]),
            ("layer ", []),
            ("set we", ["wells"]),
            ("set wells ", ["last"]),
            ("set wells last ", ["depth", "label"]),
            ("vertex move wells l", ["last"]),
            ("quit", []),
        ):
            self.assertEqual(self.candidates(line, in_group=True), words, line)

    def test_what_helps_where_a_member_is_wrong(self):
        for line, words in (
            ("ad w POINT (1 1)", "Is `add` meant?"),
            ("undo", "A group has edits of features alone"),
            ("@2 delete w 1", "A group has edits of features alone"),
            ("set w last x 5", "`last` names what the group has added"),
            ("delete w", "It is used so:\ndelete LAYER ID"),
        ):
            self.assertIn(words, commands.near_words(line, in_group=True), line)

    def test_every_example_is_taken(self):
        lines = ["layer add parcels polygon", "add parcels POLYGON ((0 0, 9 0, 9 9, 0 0))"]
        lines += ["layer add roads linestring", "add roads LINESTRING (0 0, 5 5, 9 9)"]
        order = [command.example for command in commands.COMMANDS]
        late = ("layer drop", "layer rename", "column drop", "delete", "undo", "redo", "unset")
        members = "\rset wells 1 depth 12\rset wells 1 depth 13"
        lines += [line + members * (line == "together 2") for line in order if not line.startswith(late)]
        lines.insert(lines.index("column add wells depth int"), "column add wells label text")
        required = "rule add labelled required wells label"
        place = lines.index(required)
        lines[place : place + 1] = ["set wells 2 label 'new'", required, "rule drop labelled", "rule drop labels"]
        lines += [f"rule drop {name}" for name in ("ages", "depths", "spaced", "reached")]
        lines += ["unset wells 1 label", "delete wells 1", "undo", "redo", "column drop wells depth"]
        lines += ["layer rename roads streets", "layer drop wells"]
        with Store(PROGRAM) as store:
            for line in lines:
                self.assertIsNotNone(store.run(line), line)

    def test_the_geometry_of_a_refused_line(self):
        with Store(PROGRAM) as store:
            store.add_layer("w")
            store.add("w", "POLYGON ((0 0, 9 0, 9 9, 0 0))")
            store.add("w", "MULTILINESTRING ((0 0, 1 1), (5 5, 6 6))")
            for line, lists in (
                ("add w LINESTRING (1 1, 2 2)", [[[1, 1, 2, 2]]]),
                ("@3 replace w 1 point(1 1)", [[[1, 1]]]),
                ("query w within POINT (1 1)", [[[1, 1]]]),
                ("addhex w 0101000000000000000000f03f0000000000000040", [[[1, 2]]]),
                ("vertex insert w 1 0 0 3 5 -5", [[[0, 0, 9, 0, 9, 9, 5, -5, 0, 0]]]),
                ("vertex move w 1 0 0 0 5 -5", [[[5, -5, 9, 0, 9, 9, 5, -5]]]),
                ("vertex remove w 1 0 0 0", [[[9, 0, 9, 9, 9, 0]]]),
                ("vertex remove w 2 1 0 0", [[[0, 0, 1, 1]], [[6, 6]]]),
            ):
                shape = geometry_of(line, store)
                found = [[list(points) for points in member] for member in shape.members]
                self.assertEqual(found, lists, line)
            for line in ("show w", "vertex move w 9 0 0 0 1 1", "add w", "vertex move w x", "addhex w z"):
                self.assertIsNone(geometry_of(line, store))


if __name__ == "__main__":
    unittest.main()
