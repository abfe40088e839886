"""Tests of how layers look: the calls, and the file beside the store."""

from __future__ import annotations

import errno
import json
import os
import signal
import subprocess
import unittest
from pathlib import Path
from unittest import mock

from support import PROGRAM
from test_web import Listening
from web_support import WebCase

from sfstore import sidecar
from sfstore.web.scales import metres_of
from sfstore.web.styles import StyleError, Styles, style_of

WHOLE = {
    "colour": "#0b5fa5",
    "width": 2.5,
    "fillColour": "#ffffff",
    "fill": 40,
    "symbol": "star",
    "size": 12,
    "shrinks": False,
    "isShown": True,
    "scaleFrom": 1,
    "scaleTo": 25_000,
    "label": "owner",
    "labelSize": 12,
    "labelColour": "#000000",
}
# What is no value of a field.
WRONG = {
    "colour": ["red", "#fff", "#0B5FA5", "#0b5fa5;", "url(http://x)", "#0b5fa5\n", 5, None],
    "width": [-1, 31, "2", True, None, float("nan"), float("inf"), [1]],
    "fillColour": ["javascript:alert(1)"],
    "fill": [-1, 101],
    "symbol": ["heart", "", None, ["star"]],
    "size": [0, 61, 10**400],
    "shrinks": [1, "true"],
    "isShown": [0],
    "scaleFrom": [0, -5, 1e13],
    "scaleTo": ["5000"],
    "label": ["", "no column", "a=b", "<b>", "x" * 33, 5],
    "labelSize": [5, 41],
    "labelColour": ["currentColor"],
}


class Fields(unittest.TestCase):
    """What a style may have."""

    def test_a_whole_style_is_taken_as_it_is(self):
        self.assertEqual(style_of(WHOLE), WHOLE)
        self.assertEqual(style_of({}), {})

    def test_each_field_takes_its_own_values_alone(self):
        self.assertEqual(set(WRONG), set(WHOLE))
        for name, wrong in WRONG.items():
            for value in wrong:
                with self.subTest(name=name, value=value), self.assertRaisesRegex(StyleError, name):
                    style_of({name: value})

    def test_what_is_no_style(self):
        for given in (None, [], "x", {"onclick": "x"}, {"__proto__": {}}, {"scaleFrom": 500, "scaleTo": 100}):
            with self.subTest(given=given), self.assertRaises(StyleError):
                style_of(given)


class Scales(unittest.TestCase):
    """How many metres a unit of a map is."""

    def test_by_the_text_of_the_reference_system(self):
        degrees = 'GEOGCS["WGS 84",DATUM["x",SPHEROID["y",6378137,298.25]],UNIT["degree",0.0174532925199433]]'
        self.assertAlmostEqual(metres_of(degrees), 111_319.49, places=1)
        self.assertEqual(metres_of(f'PROJCS["ETRS89 / UTM 32N",{degrees},UNIT["metre",1,AUTHORITY["EPSG","9001"]]]'), 1)
        self.assertEqual(metres_of(f'PROJCS["Texas",{degrees},UNIT["US survey foot",0.3048006096012192]]'), 0.3048006096012192)
        self.assertEqual(metres_of('PROJCRS["x",CS[Cartesian,2],LENGTHUNIT["metre",1]]'), 1)
        for wkt in ("", "x", 'PROJCS["x",UNIT["y",0]]', 'PROJCS["x",UNIT["y",1e999]]', 'PROJCS["x",UNIT["y",--]]', "UNIT[" * 9):
            self.assertIsNone(metres_of(wkt), wkt)


class Calls(WebCase):
    """Styles that pages set, and hear of."""

    def setUp(self):
        super().setUp()
        self.make_town()
        self.serving = self.serve()
        self.ann = self.serving.log_in("Ann")
        self.file = Path(f"{self.path}.styles")

    def styles(self):
        return self.serving.call("/styles")["styles"]

    def test_a_style_is_kept_and_all_hear_of_it(self):
        page = Listening(self.serving)
        self.addCleanup(page.close)
        self.assertEqual(page.next(), {"hello": True})
        self.assertEqual(self.serving.call("/styles"), {"styles": {}, "fault": ""})
        self.assertEqual(self.serving.call("/style", layer="parcels", style=WHOLE), {})
        self.assertEqual(page.next(), {"styled": "parcels"})
        self.assertEqual(self.styles(), {"parcels": WHOLE})
        self.assertEqual(json.loads(self.file.read_text())["layers"], {"parcels": WHOLE})
        self.serving.end(signal.SIGKILL)
        self.serving = self.serve()
        self.assertEqual(self.styles(), {"parcels": WHOLE})
        self.serving.call("/style", layer="parcels", style=None)
        self.assertEqual(self.styles(), {})

    def test_fields_are_changed_by_themselves_and_those_of_others_stay(self):
        self.serving.call("/style", layer="wells", style={"size": 5, "symbol": "star"})
        self.serving.call("/style", layer="wells", fields={"colour": "#aa0000"})
        self.serving.call("/style", layer="wells", fields={"size": None, "width": 2})
        self.assertEqual(self.styles(), {"wells": {"symbol": "star", "colour": "#aa0000", "width": 2}})
        for fields in ({"size": "5"}, {"onload": None, "x": 1}, {"scaleFrom": 9, "scaleTo": 5}, [], None, "size"):
            self.assertEqual(self.serving.posted("/style", layer="wells", fields=fields)[0], 400, fields)
        self.assertEqual(len(self.styles()["wells"]), 3)
        self.serving.call("/style", layer="wells", fields={"symbol": None, "colour": None, "width": None})
        self.assertEqual(self.styles(), {})

    def test_a_style_goes_with_its_layer(self):
        self.serving.call("/style", layer="wells", style={"size": 5})
        self.ann.answer("layer rename wells springs")
        self.assertEqual(self.styles(), {"springs": {"size": 5}})
        self.ann.answer("undo")
        self.assertEqual(self.styles(), {"wells": {"size": 5}})
        self.ann.answer("redo")
        self.assertEqual(json.loads(self.file.read_text())["layers"], {"springs": {"size": 5}})
        self.ann.answer("layer drop springs")
        self.ann.answer("undo")
        self.assertEqual(self.styles(), {"springs": {"size": 5}})

    def test_a_layer_takes_no_style_of_another_one_of_its_name(self):
        self.serving.call("/style", layer="wells", style={"size": 5})
        self.ann.answer("layer drop wells")
        self.assertEqual(self.styles(), {})
        self.ann.answer("layer rename streets wells")
        self.assertEqual(self.styles(), {})
        self.serving.call("/style", layer="wells", style={"width": 2})
        self.ann.answer("layer rename wells roads")
        self.ann.answer("layer add wells point")
        self.assertEqual(self.styles(), {"roads": {"width": 2}})
        self.serving.call("/style", layer="wells", style={"size": 9})
        for wanted in (
            {"roads": {"width": 2}},
            {"wells": {"width": 2}},
            {"streets": {"width": 2}},
            {"streets": {"width": 2}, "wells": {"size": 5}},
        ):
            self.ann.answer("undo")
            self.assertEqual(self.styles(), wanted)
        for _ in range(4):
            self.ann.answer("redo")
        self.assertEqual(self.styles(), {"roads": {"width": 2}, "wells": {"size": 9}})

    def test_a_style_goes_with_what_the_program_alone_has_done_meanwhile(self):
        self.serving.call("/style", layer="wells", style={"size": 5})
        self.serving.call("/style", layer="streets", style={"width": 2})
        self.ann.answer("layer rename wells springs")
        self.serving.end()
        self.alone(b"layer rename springs sources\nlayer drop streets\nlayer add streets linestring\n", "--keep")
        self.serving = self.serve()
        self.assertEqual(self.styles(), {"sources": {"size": 5}})
        # What was there before the server began can be undone, and is followed once.
        self.serving.end()
        self.alone(b"undo\nundo\n", "--keep")
        self.serving = self.serve()
        self.assertEqual(self.styles(), {"sources": {"size": 5}, "streets": {"width": 2}})
        self.serving.log_in("Ann").line("save")
        self.serving.end()
        # A save begins a journal of the same length.
        self.alone(b"layer rename sources wells\n", "--keep")
        self.serving = self.serve()
        self.assertEqual(self.styles(), {"wells": {"size": 5}, "streets": {"width": 2}})

    def alone(self, lines, *words):
        """Has the program edit the store, without a server."""
        said = subprocess.run([PROGRAM, f"--store={self.path}", *words], input=lines, capture_output=True, check=True)
        self.assertNotIn(b"refused", said.stdout)

    def test_of_what_the_program_alone_has_saved_names_are_known(self):
        self.serving.call("/style", layer="wells", style={"size": 5})
        self.serving.end()
        self.alone(b"layer drop wells\n")
        self.serving = self.serve()
        self.ann = self.serving.log_in("Ann")
        self.ann.answer("layer add wells point")
        self.assertEqual(self.styles(), {})

    def test_what_can_not_be_written_goes_with_its_layer_all_the_same(self):
        self.serving.call("/style", layer="wells", style={"size": 5})
        kept = self.file.read_bytes()
        self.file.unlink()
        self.file.mkdir()
        self.ann.answer("layer rename wells springs")
        self.assertEqual(self.styles(), {"springs": {"size": 5}})
        self.serving.end(signal.SIGKILL)
        self.file.rmdir()
        self.file.write_bytes(kept)
        self.serving = self.serve()
        self.assertEqual(self.styles(), {"springs": {"size": 5}})

    def test_what_is_refused_changes_nothing(self):
        self.serving.call("/style", layer="wells", style={"size": 5})
        for style in ({"size": "5"}, {"colour": "url(x)"}, {"onload": "alert(1)"}, [], "x", 0):
            status, answer = self.serving.posted("/style", layer="wells", style=style)
            self.assertEqual(status, 400, style)
            self.assertIn("nothing was changed", answer["error"])
        for layer in ("", "../../x", "<b>", 5):
            self.assertEqual(self.serving.posted("/style", layer=layer, style={})[0], 400, layer)
        self.assertEqual(self.serving.call("/style", layer="nothing", style={})["refused"]["name"], "NoLayer")
        self.assertEqual(self.styles(), {"wells": {"size": 5}})

    def test_what_can_not_be_written_is_said(self):
        self.file.mkdir()
        (self.file / "full").mkdir()
        self.serving.end(signal.SIGKILL)
        self.serving = self.serve()
        told = self.serving.call("/styles")
        self.assertIn("town.sfs.styles can't be read", told["fault"])
        status, answer = self.serving.posted("/style", layer="wells", style={"size": 5})
        self.assertEqual((status, answer["error"]), (400, told["fault"]))


class File(WebCase):
    """The file beside the store."""

    def setUp(self):
        super().setUp()
        self.make(b"layer add w point\n")
        self.file = Path(f"{self.path}.styles")

    def test_what_is_damaged_or_hostile_is_not_taken_and_not_written_over(self):
        inner = '{"format": "sfstore styles 1", "layers": %s}'
        for text in (
            "",
            "{",
            "[]",
            "[" * 100_000,
            '{"layers": {}}',
            '{"format": "sfstore styles 2", "layers": {}}',
            inner % "[]",
            inner % '{"<script>alert(1)</script>": {}}',
            inner[:-1] % "{}" + ', "gone": []}',
            inner[:-1] % "{}" + ', "gone": {"w": {}}}',
            inner[:-1] % "{}" + ', "gone": {"undo": {"w": {}}}}',
            inner[:-1] % "{}" + ', "journal": {"head": 5, "followed": 0}}',
            inner[:-1] % "{}" + ', "journal": {"head": "", "followed": -1}}',
            b"\xff\xfe\x00",
        ):
            with self.subTest(text=text[:60]):
                data = text if isinstance(text, bytes) else text.encode()
                self.file.write_bytes(data)
                styles = Styles(str(self.path))
                self.assertEqual(styles.all(), {})
                self.assertRegex(styles.fault, r"town\.sfs\.styles can't be read: .*until it is mended or taken away\.$")
                with self.assertRaises(StyleError):
                    styles.set("w", {"size": 5})
                self.assertEqual(self.file.read_bytes(), data)

    def test_a_style_that_is_none_minds_no_other_one(self):
        """It is named, and stays in the file as it is until its layer gets another one."""
        for bad in (
            "[]",
            '{"colour": "red"}',
            '{"colour": "#0b5fa5\\" onload=\\"alert(1)"}',
            '{"label": "</script><img src=x>"}',
            '{"size": 1e999}',
            '{"size": NaN}',
        ):
            with self.subTest(bad=bad):
                layers = '{"format": "sfstore styles 1", "layers": {"w": %s, "v": {"size": 7}}, "gone": {"undo": {"u": [%s]}}}' % (bad, bad)
                self.file.write_text(layers)
                styles = Styles(str(self.path))
                self.assertEqual((styles.all(), styles.fault), ({"v": {"size": 7}}, ""))
                [fault] = styles.faults()
                self.assertRegex(fault, r"^The style of w in .*town\.sfs\.styles can't be read: .*; others are not touched by it\.$")
                styles.change("v", {"size": 8})
                again = json.loads(self.file.read_text())
                self.assertEqual(str(again), str(json.loads(layers.replace("7", "8"))))
                self.assertEqual(Styles(str(self.path)).faults(), [fault])
                styles.set("w", {"size": 5})
                self.assertEqual((styles.faults(), Styles(str(self.path)).all()), ([], {"w": {"size": 5}, "v": {"size": 8}}))

    def test_a_pipe_and_a_huge_file_hold_nothing_up(self):
        os.mkfifo(self.file)
        self.assertIn("it is no file", Styles(str(self.path)).fault)
        self.file.unlink()
        with open(self.file, "wb") as file:
            file.truncate(1 << 40)
        self.assertIn("more than", Styles(str(self.path)).fault)

    def test_the_server_says_so_at_the_start_and_serves(self):
        self.file.write_text("{")
        serving = self.serve()
        self.assertIn("can't be read", serving.call("/styles")["fault"])
        serving.end()
        self.assertIn("town.sfs.styles can't be read", serving.errors)

    def test_it_gives_no_more_than_the_store_and_is_whole_or_not_at_all(self):
        for mode in (0o600, 0o640, 0o664):
            os.chmod(self.path, mode)
            Styles(str(self.path)).set("w", {"size": mode % 50 + 1})
            self.assertEqual(os.stat(self.file).st_mode & 0o777, mode)
        kept = self.file.read_bytes()
        styles = Styles(str(self.path))
        with mock.patch("sfstore.files.replace", side_effect=OSError(errno.ENOSPC, "No space left on device")):
            with self.assertRaises(OSError):
                styles.set("w", {"size": 60})
        self.assertEqual(self.file.read_bytes(), kept)
        self.assertEqual(Styles(str(self.path)).all(), styles.all())
        self.assertEqual(sorted(os.listdir(self.folder)), ["town.sfs", "town.sfs.styles"])

    def test_no_map_or_report_takes_its_place(self):
        self.assertIn(str(self.file), sidecar.beside(str(self.path)))


if __name__ == "__main__":
    unittest.main()
