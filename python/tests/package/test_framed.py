"""Tests of pictures in the coordinates of the map: the corners of the frame, and the scale bar."""

from __future__ import annotations

import re
import subprocess
import unittest
from xml.etree import ElementTree

from programs import path_of
from support import TestCase

from sfstore.framed import framed
from sfstore.sidecar import Crs, Sidecar

METRES = 'PROJCRS["x",BASEGEOGCRS["y",ANGLEUNIT["degree",0.0174532925199433]],LENGTHUNIT["metre",1]]'
GRID = ("500000", "5600000", "0.01")
SVG = "{http://www.w3.org/2000/svg}"


class Framed(TestCase):
    def drawn(self, lines: bytes, beside: Sidecar) -> list[bytes]:
        """The picture of a store of these lines, without and with the coordinates of the map."""
        path = self.folder / "town.sfs"
        subprocess.run([path_of("sfstore"), "--save", path], input=lines, check=True, capture_output=True)
        picture = subprocess.run([path_of("sfmap")], input=path.read_bytes(), check=True, capture_output=True).stdout
        return [picture, b"".join(framed(picture.splitlines(keepends=True), beside))]

    def texts(self, picture: bytes) -> list[str | None]:
        """The texts of a picture, from its begin to its end."""
        return [each.text for each in ElementTree.fromstring(picture).iter(f"{SVG}text")]

    def test_corners_and_bar(self) -> None:
        # A margin of a twentieth of the greater side: the frame goes from -20 -20 to 420 220.
        lines = b"layer add roads linestring\nadd roads LINESTRING (0 0, 400 200)\n"
        plain, found = self.drawn(lines, Sidecar(GRID, Crs("EPSG", "25832", METRES), []))
        self.assertEqual(self.texts(plain), ["100 grid steps", "roads"])
        wanted = ["499999.80 5600002.20", "500004.20 5599999.80", "1 m, EPSG:25832", "roads"]
        self.assertEqual(self.texts(found), wanted)
        # Nothing else is changed.
        without = re.sub(rb"<text class='corner' .*</text>\n", b"", found).replace(b"1 m, EPSG:25832", b"100 grid steps")
        self.assertEqual(without, plain)

    def test_units_of_a_system(self) -> None:
        lines = b"layer add w point\nadd w POINT (0 0)\n"
        for crs, said in (
            (None, "0.01 map units"),
            (Crs("", "", METRES), "0.01 m"),
            (Crs("EPSG", "4326", 'GEOGCRS["WGS 84",ANGLEUNIT["degree",0.0174532925199433]]'), "0.01 °, EPSG:4326"),
            (Crs("EPSG", "2263", 'PROJCS["x",UNIT["US survey foot",0.304800609601219]]'), "0.01 US ft, EPSG:2263"),
            (Crs("EPSG", "1", 'PROJCS["x",UNIT["link",0.201168]]'), "0.01 map units, EPSG:1"),
            (Crs("EPSG", "1", "nothing that says a unit"), "0.01 map units, EPSG:1"),
            (Crs("<script>", "1", METRES), "0.01 m"),
        ):
            with self.subTest(said):
                _, found = self.drawn(lines, Sidecar(GRID, crs, []))
                self.assertEqual(self.texts(found)[2], said)

    def test_a_layer_with_the_words_of_a_frame(self) -> None:
        lines = b"layer add map point\nlayer add scale point\nlayer add frame point\nadd scale POINT (1 1)\n"
        plain, found = self.drawn(lines, Sidecar(GRID, None, []))
        self.assertEqual(found.count(b"\n"), plain.count(b"\n") + 2)


if __name__ == "__main__":
    unittest.main()
