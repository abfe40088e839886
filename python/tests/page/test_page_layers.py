"""Tests of the page in a browser: how layers look, their labels, and the forms for layers and columns."""

from __future__ import annotations

import json
import unittest
from pathlib import Path

from test_page import PageCase

HOSTILE = "</text><script>alert(1)</script><img src=x onerror=alert(1)>"
# How the first feature of a kind is drawn.
DRAWN = """
const path = document.getElementById(arguments[0]);
if (!path) return [];
const style = getComputedStyle(path);
return [style.stroke, style.strokeWidth, style.fill, style.fillOpacity, style.strokeLinecap];
"""
LABELS = "return [...document.querySelectorAll('#labels text')].map(e => e.textContent)"
ROOMS = """
return [...document.querySelectorAll('#labels text')].map((text) => {
  const { left, top, right, bottom } = text.getBoundingClientRect();
  return [left, top, right, bottom];
});
"""
PUT = """
const field = document.getElementById(arguments[0]);
if (field.type === "checkbox") field.checked = arguments[1]; else field.value = arguments[1];
field.dispatchEvent(new Event("change"));
"""


class LayersCase(PageCase):
    def edit(self, page, place):
        """Opens the form of the layer that is listed at a place, from 1."""
        page.use(f"#layers li:nth-child({place}) button")

    def put(self, page, **values):
        for name, value in values.items():
            page.script(PUT, name.replace("_", "-"), value)

    def styles(self):
        """Those of the file, none where there is no file."""
        file = Path(f"{self.path}.styles")
        return json.loads(file.read_text())["layers"] if file.exists() else {}

    def drawn(self, page, name):
        return page.script(DRAWN, name)


class Styles(LayersCase):
    def test_a_style_is_seen_by_all_and_kept(self):
        ann = self.open("Ann")
        ben = self.page(self.serving, "Ben")
        ann.here()
        self.edit(ann, 1)
        self.assertEqual(ann.text("#layer-title"), "Layer parcels")
        self.put(ann, style_colour="#aa0000", style_width="4", style_fill="60", style_fill_colour="#00aa00")
        look = ["rgb(170, 0, 0)", "4px", "rgb(0, 170, 0)", "0.6", "round"]
        for page in (ann, ben):
            page.here().until(lambda: self.drawn(page, "parcels-2") == look)
        self.assertEqual(self.styles(), {"parcels": {"colour": "#aa0000", "width": 4, "fill": 60, "fillColour": "#00aa00"}})
        self.serving.end()
        page = self.page(self.serve(), "Ann")
        self.assertEqual(self.drawn(page, "parcels-2"), look)
        self.edit(page, 1)
        page.use("#style-reset")
        page.until(lambda: self.drawn(page, "parcels-2")[1] == "1px")
        self.assertEqual(self.styles(), {})

    def test_symbols_of_points_keep_their_size(self):
        page = self.open()
        self.edit(page, 3)
        self.put(page, style_size="20", style_symbol="square")
        page.until(lambda: self.drawn(page, "wells-1")[1:] == ["20px", "none", "1", "square"])
        for symbol in ("triangle", "diamond", "cross", "star"):
            self.put(page, style_symbol=symbol)
            page.until(lambda: page.all("#wells-1.form"))
            page.until(lambda: 14 < self.wide(page, "wells-1") < 26)
        page.use("#zoom-in")
        page.use("#zoom-in")
        page.until(lambda: 14 < self.wide(page, "wells-1") < 26)
        self.put(page, style_symbol="circle")
        page.until(lambda: not page.all("#wells-1.form"))

    def wide(self, page, name):
        return page.script("return document.getElementById(arguments[0]).getBoundingClientRect().width", name)

    def test_points_are_smaller_where_there_are_many(self):
        points = "".join(f"add w POINT ({k * 7919 % 1000} {k * 104729 % 600})\n" for k in range(2_000))
        self.make(f"layer add w point\n{points}layer add v point\nadd v POINT (5 5)\n".encode())
        self.serving = self.serve()
        page = self.page(self.serving, known=("v-1", (5, 5)))
        many = page.until(lambda: (look := self.drawn(page, "w-1")) and look[1] != "9px" and float(look[1][:-2]))
        self.assertLess(many, 4)
        self.assertEqual(self.drawn(page, "v-1")[1], "9px")
        page.choose((5, 5), "v 1, a point")
        page.use("#go")
        page.until(lambda: page.drawn("w-") < 50)
        self.edit(page, 1)
        page.press("0")
        page.until(lambda: page.drawn("w-") == 2_000)
        self.put(page, style_shrinks=False)
        page.until(lambda: self.drawn(page, "w-1")[1] == "9px")

    def test_a_layer_is_shown_between_two_scales_and_is_off_at_first(self):
        page = self.open()
        page.until(lambda: page.drawn("parcels") == 200)
        self.edit(page, 1)
        page.use("[data-scale=scaleTo]")
        page.until(lambda: "scaleTo" in self.styles().get("parcels", {}))
        page.use("#zoom-out")
        page.until(lambda: page.text("#status") == "11 features in the window, all drawn.")
        self.assertEqual(page.text("#layers [data-count=parcels]"), "not at this scale")
        page.use("#zoom-in")
        page.use("#zoom-in")
        page.until(lambda: page.text("#layers [data-count=parcels]") not in ("not at this scale", ""))
        page.until(lambda: page.drawn("parcels") > 50)
        self.edit(page, 2)
        self.put(page, style_shown=False)
        page.until(lambda: not page.all("#world #streets-1"))
        other = self.page(self.serving, "Ben", known=("wells-1", (450, 150)))
        other.until(lambda: other.drawn("wells") == 4)
        self.assertFalse(other.one("#layers li:nth-child(2) input").get_property("checked"))

    def test_whose_styles_gave_way_is_said(self):
        page = self.open()
        page.script("""
          const whole = window.fetch;
          window.fetch = (path, words) => (path === "style" ? Promise.resolve(new Response('{"gave_way": ["old", "older"]}')) : whole(path, words));
        """)
        page.use("#layers li:nth-child(1) button.quiet")
        page.pick("#style-label", "owner")
        words = "There was no room for the styles of layers that were dropped: an undo brings old, older back without."
        page.until(lambda: page.text("#status") == words)

    def test_what_is_no_style_is_said_and_the_form_shows_what_is_there(self):
        page = self.open()
        self.edit(page, 1)
        self.put(page, style_from="5000")
        page.until(lambda: self.styles() == {"parcels": {"scaleFrom": 5000}})
        self.put(page, style_to="10")
        page.until(lambda: "from the larger scale to the smaller one" in page.text("#status"))
        self.assertEqual(page.one("#style-to").get_property("value"), "")
        Path(f"{self.path}.styles").write_text("{")
        self.serving.end()
        page = self.page(self.serve(), "Ann")
        self.edit(page, 1)
        self.assertIn("town.sfs.styles can't be read", page.text("#style-fault"))


    def test_a_style_of_qgis_is_nothing_to_the_page(self):
        page = self.open()
        before = self.seen(page)
        self.serving.call("/save-qml", layer="parcels", qml="<qgis><layerOpacity>0.1</layerOpacity></qgis>")
        # What comes behind it is shown.
        self.serving.call("/style", layer="wells", style={"size": 20})
        page.until(lambda: self.drawn(page, "wells-1")[1] == "20px")
        self.assertEqual(self.seen(page), before)

    def seen(self, page):
        """How parcels look, what the console says, and the step that can be undone."""
        return self.drawn(page, "parcels-2"), page.text("#log"), page.script("return document.querySelector('#undo').outerHTML")


class Labels(LayersCase):
    def test_labels_stand_apart_and_only_where_there_is_room(self):
        page = self.open()
        self.edit(page, 1)
        page.pick("#style-label", "owner")
        self.edit(page, 2)
        page.pick("#style-label", "name")
        page.until(lambda: "Third Street" in page.script(LABELS))
        page.choose((450, 150), "wells 1, a point")
        page.use("#go")
        for _ in range(4):
            page.use("#zoom-out")
        page.until(lambda: len(page.script(LABELS)) > 5)
        rooms = page.script(ROOMS)
        for at, (left, top, right, bottom) in enumerate(rooms):
            for other in rooms[:at]:
                apart = left >= other[2] or right <= other[0] or top >= other[3] or bottom <= other[1]
                self.assertTrue(apart, (rooms[at], other))
        halo = page.script("const s = getComputedStyle(document.querySelector('#labels text')); return [s.paintOrder, s.strokeWidth]")
        self.assertEqual(halo, ["stroke", "3px"])
        # Seen from afar no name has room in its parcel; streets are longer than their names for some while.
        for _ in range(9):
            page.press("-")
        page.until(lambda: page.script(LABELS) and not {"Dunn", "Ito", "O'Hara", "Hale"} & set(page.script(LABELS)))
        for _ in range(4):
            page.press("-")
        page.until(lambda: page.script(LABELS) == [])

    def test_labels_follow_edits_and_stay_texts(self):
        page = self.open()
        self.edit(page, 3)
        page.pick("#style-label", "label")
        page.until(lambda: sorted(page.script(LABELS)) == ["dry in August", "the old one", "town well"])
        ben = self.serving.log_in("Ben")
        ben.answer(f"set wells 1 label '{HOSTILE}'")
        page.until(lambda: HOSTILE[:70] in "".join(page.script(LABELS)))
        ben.answer("set wells 2 label '\u202eabc\u05e9'")
        ben.answer(f"set wells 3 label '{'w' * 60_000}'")
        page.until(lambda: any(text.startswith("www") and len(text) < 100 for text in page.script(LABELS)))
        self.assertEqual(page.all("#map script, #map img"), [])
        ben.answer("undo")
        ben.answer("undo")
        ben.answer("undo")
        page.until(lambda: sorted(page.script(LABELS)) == ["dry in August", "the old one", "town well"])
        ben.answer("column drop wells label")
        page.until(lambda: page.script(LABELS) == [])


class Forms(LayersCase):
    """Layers and columns, by the mouse."""

    def test_layers_and_columns_are_made_renamed_and_dropped(self):
        page = self.open()
        page.use("#layer-making summary")
        page.one("#layer-new-name").send_keys("trees")
        page.pick("#layer-new-kind", "point")
        page.use("#layer-new [type=submit]")
        page.logged("layer add trees point", "ok")
        page.until(lambda: page.text("#layer-title") == "Layer trees")
        page.use("#layer-editor details:nth-of-type(1) summary")
        page.one("#column-name").send_keys("height")
        page.pick("#column-type", "decimal")
        page.use("#column-new [type=submit]")
        page.logged("column add trees height decimal", "ok")
        page.until(lambda: page.script("return [...document.querySelectorAll('#columns li > span')].map(e => e.textContent)") == ["height decimal"])
        page.use("#columns button")
        page.until(lambda: page.one("#sure").get_property("open"))
        self.assertIn("Drop the column height of trees", page.text("#sure-words"))
        page.use("#sure-no")
        page.use("#columns button")
        page.sure()
        page.logged("column drop trees height", "ok")
        page.use("#layer-editor details:nth-of-type(2) summary")
        name = page.one("#layer-name")
        name.clear()
        name.send_keys("oaks", page.keys.ENTER)
        page.logged("layer rename trees oaks", "ok")
        page.until(lambda: page.text("#layer-title") == "Layer oaks")
        page.use("#layer-down")
        page.logged("layer move oaks 2", "ok")
        page.use("#layer-drop")
        page.until(lambda: page.one("#sure").get_property("open"))
        self.assertIn("Drop the layer oaks with all that it has?", page.text("#sure-words"))
        page.sure()
        page.logged("layer drop oaks", "ok")
        page.until(lambda: not page.one("#layer-editor").is_displayed())
        page.use("#undo")
        page.until(lambda: len(page.all("#layers li")) == 4)

    def test_a_refused_name_is_explained(self):
        page = self.open()
        page.use("#layer-making summary")
        page.one("#layer-new-name").send_keys("parcels", page.keys.ENTER)
        page.logged("layer add parcels polygon", "refused 19 LayerExists")
        page.until(lambda: "19 LayerExists" in page.text("#refusal h2"))
        # What is no name is not sent: the browser says so at the field.
        page.one("#layer-new-name").clear()
        page.one("#layer-new-name").send_keys("two words", page.keys.ENTER)
        self.assertFalse(page.script("return document.getElementById('layer-new-name').checkValidity()"))
        self.assertEqual(page.last(), "layer add parcels polygon")

    def test_a_form_of_a_layer_that_goes_is_closed(self):
        page = self.open()
        self.edit(page, 3)
        self.serving.log_in("Ben").answer("layer drop wells")
        page.until(lambda: not page.one("#layer-editor").is_displayed())


if __name__ == "__main__":
    unittest.main()
