"""Tests of styles of QGIS that are kept with a store: what is taken for one, the calls, and the file beside the store."""

from __future__ import annotations

import base64
import contextlib
import errno
import gzip
import json
import os
import re
import signal
import time
import unittest
from pathlib import Path
from unittest import mock

from test_web import Listening
from web_support import WebCase

from sfstore import sidecar
from sfstore.web.client import CallFailed, Client
from sfstore.web.qgisstyles import QgisStyle, QgisStyles, SavedMeanwhile
from sfstore.web.qml import BYTES_MAX, check
from sfstore.web.steps import LayerChange
from sfstore.web.stylefile import StyleError

TYPE = "<!DOCTYPE qgis PUBLIC 'http://mrcc.com/qgis.dtd' 'SYSTEM'>\n"


def styled(inside="", front=TYPE, **values):
    """A style as QGIS writes it, in short."""
    told = "".join(f' {name}="{value}"' for name, value in values.items())
    return f'{front}<qgis version="3.22.16-Białowieża"{told}>\n <renderer-v2 type="singleSymbol">{inside}</renderer-v2>\n</qgis>\n'


def symbol(kind, *options):
    """A symbol with options, in the form of QGIS 3 and in that of before."""
    told = "".join(f'<Option name="{name}" type="QString" value="{value}"/>' for name, value in options)
    props = "".join(f'<prop k="{name}" v="{value}"/>' for name, value in options)
    return f'<symbols><symbol name="0"><layer class="{kind}"><Option type="Map">{told}</Option>{props}</layer></symbol></symbols>'


def decided(name, kind="SvgMarker", active="true"):
    """A symbol of which an expression decides something."""
    inner = f'<Option name="active" type="bool" value="{active}"/><Option name="expression" type="QString" value="&quot;owner&quot;"/>'
    properties = f'<Option name="properties" type="Map"><Option name="{name}" type="Map">{inner}</Option></Option>'
    return f'<symbol name="0"><layer class="{kind}"><data_defined_properties><Option type="Map">{properties}</Option></data_defined_properties></layer></symbol>'


def embedded(picture):
    """A picture as it stands in a style."""
    return "base64:" + base64.b64encode(picture if isinstance(picture, bytes) else picture.encode()).decode()


# In UTF-7 this is a drawing with a picture of elsewhere, and in UTF-8 a text.
OTHERWISE = "<?xml version='1.0' encoding='{}'?><svg>+ADw-image xlink:hre+AGYAPQ-'/dev/zero'/+AD4-</svg>"


def escaped(text):
    return text.replace("&", "&amp;").replace("<", "&lt;").replace('"', "&quot;")


GREEN = styled(symbol("SimpleFill", ("color", "0,160,0,255")))
RED = styled(symbol("SimpleFill", ("color", "160,0,0,255")))


class Kept(unittest.TestCase):
    """What may be kept."""

    def test_what_qgis_writes(self):
        label = '<labeling type="rule-based"><rules><rule filter="&quot;area&quot; &lt;= 500" key="{a}"/></rules></labeling>'
        for text in (
            GREEN,
            styled(front=""),
            styled(front='<?xml version="1.0" encoding="UTF-8"?>\n' + TYPE),
            styled(symbol("SvgMarker", ("name", "gpsicons/anchor.svg"))),
            styled(symbol("SvgMarker", ("name", embedded('<svg xmlns="http://www.w3.org/2000/svg"><use xlink:href="#a"/></svg>')))),
            styled(symbol("SvgMarker", ("name", embedded('<svg><image xlink:href="data:image/png;base64,aGk="/></svg>')))),
            styled(symbol("SvgMarker", ("name", embedded("\ufeff<?xml version='1.0' encoding='UTF-8'?>\n<!DOCTYPE svg><svg><text>Straße</text></svg>")))),
            styled(symbol("SvgMarker", ("name", embedded("<?xml version='1.0' encoding='utf8'?><svg/>")))),
            styled(symbol("RasterFill", ("imageFile", embedded(b"\x89PNG\r\n\0\0href='/x'")))),
            styled(symbol("SimpleMarker", ("name", "circle"))),
            styled(symbol("RasterFill", ("imageFile", ""))),
            styled(decided("name", "SimpleMarker")),
            styled(decided("name", active="false")),
            styled(decided("size")),
            styled('<categories><category label="&lt; 5 m²" value="a:b"/><category label="a/b" value="/"/></categories>'),
            styled(symbol("X", ("lineSymbol", escaped(symbol("SimpleLine", ("line_color", "0,0,0")))))),
            f"{TYPE}<qgis>{label}<layerOpacity>0.5</layerOpacity><blendMode>0</blendMode></qgis>",
        ):
            with self.subTest(text=text[:200]):
                check(text)

    def test_what_is_no_style(self):
        for text, words in (
            ("", "no XML"),
            ("colour: red", "no XML"),
            ("<qgis>", "no XML"),
            ("<qgis/><qgis/>", "no XML"),
            ("<qgis>\0</qgis>", "no XML"),
            ("<sld/>", "no style of QGIS"),
            (styled(front='<?xml version="1.0" encoding="UTF-7"?>'), "written in 'UTF-7', and styles are in UTF-8"),
            ("<qgis>\ud800</qgis>", "no text"),
            (styled("x" * BYTES_MAX), "at most"),
            ("<qgis><renderer-v2>" + "<a>" * 200 + "</a>" * 200 + "</renderer-v2></qgis>", "deep"),
            ("<qgis>" * 500_000, "at most|deep"),
        ):
            with self.subTest(text=text[:60]), self.assertRaisesRegex(StyleError, words):
                check(text)

    def test_declarations_that_grow_or_reach_out(self):
        bomb = '<!ENTITY a "aaaaaaaaaa"><!ENTITY b "&a;&a;&a;&a;&a;&a;&a;&a;&a;&a;">'
        for front, inside in (
            (f"<!DOCTYPE qgis [{bomb}]>", "&b;"),
            ('<!DOCTYPE qgis [<!ENTITY x SYSTEM "file:///etc/passwd">]>', "&x;"),
            ('<!DOCTYPE qgis SYSTEM "http://evil.example/x.dtd" []>', ""),
            ('<!DOCTYPE other SYSTEM "x">', ""),
            (TYPE, "&x;"),
            ("", "&x;"),
        ):
            with self.subTest(front=front), self.assertRaisesRegex(StyleError, "entit"):
                check(styled(inside, front))

    def test_no_forms_no_actions_and_no_code(self):
        for part in (
            "<editforminitcode><![CDATA[import os]]></editforminitcode>",
            '<attributeactions><actionsetting type="1" action="import os"/></attributeactions>',
            "<mapTip>[% eval('1') %]</mapTip>",
            "<customproperties/>",
            "<editform>/tmp/x.ui</editform>",
            "<fieldConfiguration/>",
        ):
            with self.subTest(part=part), self.assertRaisesRegex(StyleError, "symbols, labels, opacity and scales are kept"):
                check(f"<qgis>{part}</qgis>")

    def test_nothing_leads_out_of_it(self):
        reaching = "load_layer('/vsicurl/x', 'ogr')"
        for inside, words in (
            (symbol("SvgMarker", ("name", "http://evil.example/x.svg")), "a file of yours"),
            (symbol("SvgMarker", ("name", "/home/ann/well.svg")), "embed it in the symbol"),
            (symbol("SvgMarker", ("name", "../../etc/x.svg")), "embed it"),
            (symbol("SvgMarker", ("name", "C:/x.svg")), "embed it"),
            (symbol("SvgMarker", ("name", r"\\evil\x.svg")), "embed it"),
            (symbol("SVGFill", ("svgFile", "/dev/zero")), "embed it"),
            (symbol("RasterFill", ("imageFile", "file:x.png")), "embed it"),
            (symbol("RasterMarker", ("imageFile", "|sh")), "embed it"),
            (symbol("LaterMarker", ("name", "/x")), "embed it"),
            ('<background shapeSVGFile="/x.svg"/>', "embed it"),
            (symbol("SimpleFill", ("x", "see https://evil.example")), "by 'see https://evil.example'"),
            (symbol("SimpleFill", ("x", " FILE:x")), "out of the store"),
            (symbol("SvgMarker", ("name", "base64:!")), "embed it again"),
            (symbol("SvgMarker", ("name", embedded("<svg><image xlink:href='/dev/zero'/></svg>"))), "from elsewhere"),
            (symbol("SvgMarker", ("name", embedded('<svg><image href = "http://evil.example"/></svg>'))), "from elsewhere"),
            (symbol("SvgMarker", ("name", embedded('<svg><image href="data:image/svg+xml;base64,PHN2Zy8+"/></svg>'))), "from elsewhere"),
            (symbol("SvgMarker", ("name", embedded('<?xml-stylesheet href="/x.css"?><svg/>'))), "from elsewhere"),
            (symbol("SvgMarker", ("name", embedded("<!DOCTYPE svg [<!ENTITY a 'b'>]><svg>&a;</svg>"))), "from elsewhere"),
            (symbol("SvgMarker", ("name", embedded("<svg/>".encode("utf-16")))), "from elsewhere"),
            (symbol("SvgMarker", ("name", embedded(gzip.compress(b"<svg/>")))), "from elsewhere"),
            # What is written in other letters would be read as others than were looked at.
            (symbol("SvgMarker", ("name", embedded(OTHERWISE.format("utf-7")))), "is written in 'utf-7': embed one in UTF-8"),
            (symbol("SvgMarker", ("name", embedded(OTHERWISE.format("HZ-GB-2312")))), "is written in 'HZ-GB-2312'"),
            (symbol("SvgMarker", ("name", embedded("<?xml version='1.0' encoding='iso-8859-1'?><svg/>"))), "is written in 'iso-8859-1'"),
            (symbol("SvgMarker", ("name", embedded("<?xml version='1.0'?><svg>é</svg>".encode("latin-1")))), "embed it again"),
            (symbol("SvgMarker", ("name", embedded("<svg href='/x'/>".encode("cp037")))), "embed it again"),
            (symbol("SvgMarker", ("name", embedded("no drawing"))), "embed it again"),
            (decided("name"), "an expression decides"),
            (decided("file", "RasterFill"), "an expression decides"),
            (decided("ShapeSVGFile", "SimpleFill", "1"), "an expression decides"),
            (symbol("SvgMarker", ("name_dd_expression", "owner")), "an expression decides"),
            (symbol("SvgMarker", ("name_expression", "owner")), "an expression decides"),
            (symbol("GeometryGenerator", ("geometryModifier", f"aggregate({reaching}, 'collect', $geometry)")), "load_layer"),
            (symbol("SimpleFill", ("x", "EVAL ('1')")), "EVAL"),
            (symbol("SimpleFill", ("x", "sqlite_fetch_and_increment('a', 'b', 'c', 'd', 1)")), "sqlite_fetch"),
            ("<rule>load_<![CDATA[layer]]>('x')</rule>", "load_layer"),
            ('<text-style allowHtml="1"/>', "no HTML"),
            # Symbols of callouts are texts within.
            (symbol("X", ("lineSymbol", escaped(symbol("SvgMarker", ("name", "/x.svg"))))), "embed it"),
            (symbol("X", ("lineSymbol", escaped("<!DOCTYPE qgis [<!ENTITY a 'b'>]><symbol/>"))), "entit"),
            (symbol("X", ("lineSymbol", escaped("<symbol>"))), "no XML"),
            (symbol("X", ("lineSymbol", escaped(" x<symbol/>"))), "no XML"),
        ):
            with self.subTest(inside=inside[:200]), self.assertRaisesRegex(StyleError, words):
                check(styled(inside))
        deep = symbol("SimpleLine")
        for _ in range(5):
            deep = symbol("X", ("lineSymbol", escaped(deep)))
        with self.assertRaisesRegex(StyleError, "hold styles"):
            check(styled(deep))


    def test_a_long_value_takes_no_longer_than_its_letters_do(self):
        for value in ("a" * 900_000, " " * 900_000, "_" * 900_000, "eval" * 200_000, "href=" * 150_000, "&lt;" * 200_000):
            begun = time.monotonic()
            for inside in (symbol("SimpleFill", ("x", value)), f'<rule filter="{value}"/>', value):
                with contextlib.suppress(StyleError):
                    check(styled(inside))
            self.assertLess(time.monotonic() - begun, 5, value[:9])


class Calls(WebCase):
    """The calls, by which all hear of a style."""

    def setUp(self):
        super().setUp()
        self.make_town()
        self.serving = self.serve()
        self.ann = self.serving.log_in("Ann")
        self.file = Path(f"{self.path}.qgis")

    def save(self, qml, layer="parcels", **told):
        return self.serving.call("/save-qml", layer=layer, qml=qml, **told)

    def style(self, layer="parcels", **told):
        return self.serving.call("/qml", layer=layer, **told)

    def test_a_style_is_kept_and_all_hear_of_it(self):
        page = Listening(self.serving)
        self.addCleanup(page.close)
        self.assertEqual(page.next(), {"hello": True})
        nothing = {"qml": None, "by": None, "mark": None, "fault": ""}
        self.assertEqual(self.style(), nothing)
        mark = self.save(GREEN)["mark"]
        self.assertEqual(page.next(), {"qgis_styled": "parcels", "kind": "", "mark": mark, "editor": "Ann"})
        self.assertEqual(self.style(), {"qml": GREEN, "by": "Ann", "mark": mark, "fault": ""})
        self.serving.end(signal.SIGKILL)
        self.serving = self.serve()
        self.assertEqual(self.style(), {"qml": GREEN, "by": "Ann", "mark": mark, "fault": ""})
        # The page has its own.
        self.assertEqual(self.serving.call("/styles"), {"styles": {}, "fault": ""})
        self.assertFalse(Path(f"{self.path}.styles").exists())
        self.assertEqual(self.save(None, seen=mark), {"mark": None})
        self.assertEqual(self.style(), nothing)

    def test_nobody_saves_over_what_they_have_not_seen(self):
        ben = self.serving.log_in("Ben")
        mark = self.save(GREEN)["mark"]
        for seen in (None, "", "0" * 16, mark.upper()):
            status, told = self.serving.posted("/save-qml", key=ben.key, layer="parcels", qml=RED, seen=seen)
            self.assertEqual((status, told["error"]), (409, "Ann has saved another style of parcels meanwhile: look at it first. Nothing was changed."))
        self.assertEqual(self.style()["qml"], GREEN)
        self.serving.call("/save-qml", key=ben.key, layer="parcels", qml=RED, seen=mark)
        self.assertEqual((self.style()["qml"], self.style()["by"]), (RED, "Ben"))
        status, told = self.serving.posted("/save-qml", layer="parcels", qml=None, seen=mark)
        self.assertEqual((status, told["error"][:27]), (409, "Ben has saved another style"))
        self.save(None, seen=self.style()["mark"])
        status, told = self.serving.posted("/save-qml", layer="parcels", qml=GREEN, seen=mark)
        self.assertEqual((status, told["error"][:36]), (409, "The style of parcels was taken away m"[:36]))

    def test_each_kind_of_a_layer_has_its_own(self):
        self.ann.answer("layer add sketches any")
        self.save(GREEN, "sketches", kind="polygon")
        self.save(RED, "sketches", kind="point")
        self.assertEqual([self.style("sketches", kind=kind)["qml"] for kind in ("polygon", "point", "linestring", "")], [GREEN, RED, None, None])
        self.save(None, "sketches", kind="polygon", seen=self.style("sketches", kind="polygon")["mark"])
        self.assertEqual(self.style("sketches", kind="point")["qml"], RED)
        self.ann.answer("layer rename sketches drafts")
        self.assertEqual(self.style("drafts", kind="point")["qml"], RED)

    def test_a_style_goes_with_its_layer(self):
        self.save(GREEN, "wells")
        self.ann.answer("layer rename wells springs")
        self.assertEqual([self.style(layer)["qml"] for layer in ("wells", "springs")], [None, GREEN])
        self.ann.answer("layer drop springs")
        self.ann.answer("layer add springs point")
        self.assertEqual(self.style("springs")["qml"], None)
        self.ann.answer("undo")
        self.ann.answer("undo")
        self.assertEqual(self.style("springs")["qml"], GREEN)
        self.ann.line("save")
        self.assertEqual(self.style("springs")["qml"], GREEN)

    def test_what_is_refused_changes_nothing(self):
        mark = self.save(GREEN)["mark"]
        for told in (
            {"qml": "red"},
            {"qml": "<sld/>"},
            {"qml": 5},
            {"qml": {}},
            {"qml": RED, "kind": "house"},
            {"qml": RED, "kind": 5},
            {"qml": RED, "kind": ["point"]},
            {"qml": styled(symbol("SvgMarker", ("name", "http://evil.example/x.svg")))},
            {"qml": RED, "layer": "../../x"},
            {"qml": RED, "layer": 5},
        ):
            status, answer = self.serving.posted("/save-qml", **{"layer": "parcels", "seen": mark, **told})
            self.assertEqual(status, 400, told)
        self.assertEqual(self.serving.posted("/save-qml", layer="parcels", qml=RED, seen=5)[0], 400)
        self.assertEqual(self.serving.posted("/qml", layer="parcels", kind="house")[0], 400)
        self.assertEqual(self.save(RED, "nothing")["refused"]["name"], "NoLayer")
        self.assertEqual(self.style()["qml"], GREEN)
        self.assertEqual(json.loads(self.file.read_text())["layers"], {"parcels": {"": {"qml": GREEN, "by": "Ann"}}})

    def test_it_needs_a_key_as_each_call_does(self):
        for path in ("/qml", "/save-qml"):
            self.assertEqual(self.serving.posted(path, key="none", layer="parcels", qml=GREEN)[0], 403)
        self.assertFalse(self.file.exists())

    def test_programs_at_the_socket_have_it_too(self):
        with Client(str(self.path), "Ben") as ben:
            mark = ben.call("save-qml", layer="parcels", qml=GREEN, seen=None)["mark"]
            self.assertEqual(ben.call("qml", layer="parcels")["mark"], mark)
            with self.assertRaisesRegex(CallFailed, "Ben has saved another style"):
                ben.call("save-qml", layer="parcels", qml=RED, seen=None)

    def test_what_can_not_be_written_is_said(self):
        self.file.mkdir()
        (self.file / "full").mkdir()
        status, answer = self.serving.posted("/save-qml", layer="wells", qml=GREEN)
        self.assertEqual(status, 503)
        self.assertIn("can't be written beside the store", answer["error"])
        self.serving.end(signal.SIGKILL)
        self.serving = self.serve()
        told = self.style()
        self.assertIn("town.sfs.qgis can't be read", told["fault"])
        status, answer = self.serving.posted("/save-qml", layer="wells", qml=GREEN)
        self.assertEqual((status, answer["error"]), (400, told["fault"]))
        self.serving.end()
        self.assertIn("town.sfs.qgis can't be read", self.serving.errors)


class File(WebCase):
    """The file beside the store."""

    def setUp(self):
        super().setUp()
        self.make(b"layer add w point\n")
        self.file = Path(f"{self.path}.qgis")

    def save(self, qml, styles=None, layer="w"):
        styles = styles or QgisStyles(str(self.path))
        seen = styles.style(layer, "")
        styles.save(layer, "", qml and QgisStyle(qml, "Ann"), seen.mark if seen else None)

    def test_what_is_damaged_or_hostile_is_not_taken_and_not_written_over(self):
        inner = '{"format": "sfstore styles of QGIS 1", "layers": %s}'
        for text in (
            "",
            "[" * 100_000,
            '{"format": "sfstore styles 1", "layers": {}}',
            inner % "[]",
            inner % '{"no name": {}}',
            inner[:-1] % "{}" + ', "gone": {"w": []}}',
            b"\xff\xfe\x00",
        ):
            with self.subTest(text=text[:80]):
                data = text if isinstance(text, bytes) else text.encode()
                self.file.write_bytes(data)
                styles = QgisStyles(str(self.path))
                self.assertEqual(styles.all(), {})
                self.assertRegex(styles.fault, r"town\.sfs\.qgis can't be read: .*until it is mended or taken away\.$")
                with self.assertRaises(StyleError):
                    styles.save("w", "", QgisStyle(GREEN, "Ann"), None)
                self.assertEqual(self.file.read_bytes(), data)

    def test_a_style_that_is_none_minds_no_other_one(self):
        """It is named, it stays in the file as it is, and goes with its layer, until that gets another one."""
        good = {"qml": GREEN, "by": "Ann"}
        hostile = {"by": "Ann", "qml": styled(symbol("SvgMarker", ("name", "http://evil.example/x.svg")))}
        for bad in ([], {"": "x"}, {"": {"qml": "<qgis/>"}}, {"": {"qml": "<qgis/>", "by": "<b>\0"}}, {"": hostile}, {"": 1, "point": good}, {"house": good, "point": good}):
            with self.subTest(bad=str(bad)[:60]):
                gone = {"undo": {"gone": [bad]}}
                content = {"format": "sfstore styles of QGIS 1", "layers": {"w": bad, "v": {"": good}}, "journal": {"head": "h", "followed": 0}, "gone": gone}
                self.file.write_text(json.dumps(content))
                styles = QgisStyles(str(self.path))
                self.assertEqual((styles.fault, styles.style("v", ""), styles.fault_at("v", "")), ("", QgisStyle(GREEN, "Ann"), ""))
                self.assertIsNone(styles.style("w", ""))
                if "point" in bad:
                    self.assertEqual((styles.style("w", "point"), styles.fault_at("w", "point")), (QgisStyle(GREEN, "Ann"), ""))
                [fault] = styles.faults()
                self.assertRegex(fault, r"^The style of w( \(house\))? in .*town\.sfs\.qgis can't be read: .*; others are not touched by it\.$")
                self.assertEqual(styles.save("v", "", QgisStyle(RED, "Ben"), styles.style("v", "").mark), [])
                self.assertEqual(json.loads(self.file.read_text()), {**content, "layers": {"w": bad, "v": {"": {"qml": RED, "by": "Ben"}}}})
                self.assertTrue(styles.catch_up("h", [LayerChange("w", "x", "")]))
                self.assertEqual(json.loads(self.file.read_text())["layers"]["x"], bad)
                self.assertEqual(QgisStyles(str(self.path)).faults(), [re.sub(r"\bw\b", "x", fault)])
                styles.save("x", "", QgisStyle(GREEN, "Ann"), None)
                self.assertEqual(styles.style("x", ""), QgisStyle(GREEN, "Ann"))

    def test_a_pipe_and_a_huge_file_hold_nothing_up(self):
        os.mkfifo(self.file)
        self.assertIn("it is no file", QgisStyles(str(self.path)).fault)
        self.file.unlink()
        with open(self.file, "wb") as file:
            file.truncate(1 << 40)
        self.assertIn("more than", QgisStyles(str(self.path)).fault)

    def test_it_gives_no_more_than_the_store_and_is_whole_or_not_at_all(self):
        for mode, qml in ((0o600, GREEN), (0o640, RED), (0o664, GREEN)):
            os.chmod(self.path, mode)
            self.save(qml)
            self.assertEqual(os.stat(self.file).st_mode & 0o777, mode)
        kept = self.file.read_bytes()
        styles = QgisStyles(str(self.path))
        with mock.patch("sfstore.files.replace", side_effect=OSError(errno.ENOSPC, "No space left on device")):
            with self.assertRaises(OSError):
                self.save(RED, styles)
        self.assertEqual(self.file.read_bytes(), kept)
        self.assertEqual(QgisStyles(str(self.path)).all(), styles.all())
        self.assertEqual(sorted(os.listdir(self.folder)), ["town.sfs", "town.sfs.qgis"])

    def test_a_link_in_its_place_is_not_written_through(self):
        other = self.folder / "other"
        other.write_text("mine")
        self.save(GREEN)
        styles = QgisStyles(str(self.path))
        self.file.unlink()
        self.file.symlink_to(other)
        self.save(RED, styles)
        self.assertEqual(other.read_text(), "mine")
        self.assertFalse(self.file.is_symlink())

    def test_it_has_a_bound_which_those_that_are_gone_give_way_to(self):
        with mock.patch("sfstore.web.qgisstyles._BYTES_MAX", 6 * len(GREEN)):
            styles = QgisStyles(str(self.path))
        styles.catch_up("head", [])
        from sfstore.web.steps import LayerChange

        changes, gave_way = [], []
        for name in ("a", "b", "c", "d", "e", "f", "g", "h"):
            gave_way += styles.save(name, "", QgisStyle(GREEN, "Ann"), None)
            changes.append(LayerChange(name, ""))
            styles.catch_up("head", changes)
        self.assertEqual(styles.all(), {})
        # Whoever saves hears whose styles are lost.
        self.assertEqual(gave_way, ["a", "b", "c", "d"])
        self.assertLessEqual(self.file.stat().st_size, 6 * len(GREEN))
        with self.assertRaisesRegex(StyleError, "more than .* bytes together"):
            for name in "abcdefgh":
                self.save(GREEN, styles, name)
        self.assertEqual(QgisStyles(str(self.path)).fault, "")
        self.assertEqual(QgisStyles(str(self.path)).all(), styles.all())
        self.assertTrue(styles.all())

    def test_of_two_who_save_at_once_one_is_refused(self):
        styles = QgisStyles(str(self.path))
        self.save(GREEN, styles)
        mark = styles.style("w", "").mark
        styles.save("w", "", QgisStyle(RED, "Ann"), mark)
        with self.assertRaises(SavedMeanwhile) as raised:
            styles.save("w", "", QgisStyle(styled(), "Ben"), mark)
        self.assertEqual(raised.exception.style, QgisStyle(RED, "Ann"))

    def test_no_map_or_report_takes_its_place(self):
        self.assertIn(str(self.file), sidecar.beside(str(self.path)))


if __name__ == "__main__":
    unittest.main()
