"""Tests of tiles of another server under the map: who allows them, where they come from, and where they lie."""

from __future__ import annotations

import http.server
import subprocess
import sys
import threading
import unittest
import zlib
from struct import pack

from support import FOLDER
from test_page import PageCase
from web_support import WebCase

from sfstore import files, sidecar
from sfstore.web.background import background_of

WKT = 'PROJCS["WGS 84 / Pseudo-Mercator",GEOGCS["WGS 84",UNIT["degree",0.0174532925199433]],UNIT["metre",1]]'
PLACES = """
return [...document.querySelectorAll("#background image")].map((tile) => {
  const { left, top, width } = tile.getBoundingClientRect();
  return [tile.getAttribute("href"), left, top, width];
});
"""


def picture():
    """A PNG of one grey pixel."""
    part = lambda kind, data: pack(">I", len(data)) + kind + data + pack(">I", zlib.crc32(kind + data))
    head = pack(">IIBBBBB", 1, 1, 8, 0, 0, 0, 0)
    return b"\x89PNG\r\n\x1a\n" + part(b"IHDR", head) + part(b"IDAT", zlib.compress(b"\0\xb0")) + part(b"IEND", b"")


class Tiles(http.server.BaseHTTPRequestHandler):
    def do_GET(self):
        self.server.asked.append((self.path, self.headers.get("Referer"), self.headers.get("Authorization")))
        self.send_response(200)
        self.send_header("Content-Type", "image/png")
        self.end_headers()
        self.wfile.write(picture())

    def log_message(self, *_):
        """Nothing is printed."""


class Allowed(WebCase):
    """Who allows it, and what else that allows."""

    def policy(self, *words):
        serving = self.serve(*words)
        return serving, serving.request("GET", "/")[1]["Content-Security-Policy"]

    def test_pictures_of_one_more_server_alone(self):
        serving, policy = self.policy()
        self.assertIn("img-src 'self';", policy)
        self.assertIsNone(serving.call("/map")["background"])
        serving.end()
        words = ("--background", "https://tiles.example.org/{z}/{x}/{y}.png?k=1", "--credit", "© <b>makers</b>")
        serving, other = self.policy(*words)
        self.assertEqual(other, policy.replace("img-src 'self';", "img-src 'self' https://tiles.example.org;"))
        self.assertEqual(serving.call("/map")["background"]["credit"], "© <b>makers</b>")

    def test_what_is_no_address_of_tiles(self):
        for address in (
            "",
            "tiles/{z}/{x}/{y}",
            "ftp://h/{z}/{x}/{y}",
            "https://h/{z}/{x}",
            "https://h/{z}/{x}/{y}/{y}",
            "https://h/{z}/{x}/{y}/{s}",
            "https://h; script-src *//{z}/{x}/{y}",
            "https://*/{z}/{x}/{y}",
            "https://h/{z}/{x}/{y}\nX: y",
            "https://h /{z}/{x}/{y}",
            "https://u:p@h/{z}/{x}/{y}",
            "javascript:alert(1)//{z}/{x}/{y}",
            "data:image/png,{z}{x}{y}",
        ):
            with self.subTest(address=address), self.assertRaises(ValueError):
                background_of(address, "")
        words = [sys.executable, "-m", "sfstore.web.command", str(self.path), "--background", "https://*/{z}/{x}/{y}"]
        ended = subprocess.run(words, env={"PYTHONPATH": str(FOLDER)}, capture_output=True, text=True)
        self.assertEqual(ended.returncode, 2)
        self.assertIn("is no address of tiles", ended.stderr)


class Shown(PageCase):
    """Where the tiles lie."""

    def bring(self, code):
        """A map of 1 metre a step, in which a point at (0 0) is where 4 tiles of each level meet."""
        self.make(b"layer add w point\nadd w POINT (0 0)\nadd w POINT (1000 500)\n")
        crs = sidecar.Crs("EPSG", code, WKT)
        found = sidecar.Sidecar(("0", "0", "1"), crs, [])
        sidecar.write(str(self.path), found, [files.digest(str(self.path))])

    def tiles(self):
        server = http.server.ThreadingHTTPServer(("127.0.0.1", 0), Tiles)
        server.asked = []
        threading.Thread(target=server.serve_forever, daemon=True).start()
        self.addCleanup(server.server_close)
        self.addCleanup(server.shutdown)
        return server

    def come(self, code):
        self.bring(code)
        server = self.tiles()
        address = f"http://127.0.0.1:{server.server_port}/{{z}}/{{x}}/{{y}}.png"
        self.serving = self.serve("--background", address, "--credit", "© <b>makers</b>")
        return server, self.page(self.serving, known=("w-1", (0, 0)))

    def test_tiles_lie_where_they_belong_and_are_told_nothing(self):
        server, page = self.come("3857")
        page.until(lambda: len(server.asked) >= 4)
        self.assertEqual(page.text("#credit"), "© <b>makers</b>")
        left, top = page.place((0, 0))
        corners = set()
        for address, x, y, wide in page.script(PLACES):
            level, column, row = map(int, address.rpartition(".")[0].split("/")[-3:])
            # The middle of all tiles is at (0 0), and each is a part of the whole.
            self.assertAlmostEqual(x + (2 ** level / 2 - column) * wide, left, delta=1.5)
            self.assertAlmostEqual(y + (2 ** level / 2 - row) * wide, top, delta=1.5)
            self.assertTrue(180 < wide < 363, wide)
            corners.add((column, row))
        self.assertEqual(len(corners), len(page.script(PLACES)))
        self.assertEqual({asked[1:] for asked in server.asked}, {(None, None)})
        page.use("#background-shown")
        page.until(lambda: page.script(PLACES) == [] and page.text("#credit") == "")
        page.use("#background-shown")
        page.use("#zoom-in")
        page.until(lambda: len(page.script(PLACES)) >= 4)

    def test_a_map_of_another_system_has_none(self):
        server, page = self.come("25832")
        page.until(lambda: page.text("#background-note") == "needs a map in EPSG:3857")
        self.assertEqual((page.script(PLACES), server.asked), ([], []))


if __name__ == "__main__":
    unittest.main()
