#!/usr/bin/env python3
"""Makes pictures of docs/use/A_COUNTRY_ON_THE_PAGE.md: those of Slovenia, of the map that comes with QGIS, in Chromium at 1,280 by 720.

    tests/country_pictures.py            makes them in out/country, to be looked at
    tests/country_pictures.py --write    writes them

It needs Debian's packages chromium-driver, python3-gdal, python3-pil, python3-selenium and qgis-common. Two browsers draw one
page with other pixels, so no test compares these pictures.
"""

from __future__ import annotations

import contextlib
import http.server
import io
import shutil
import subprocess
import sys
import tempfile
import threading
import time
from collections.abc import Iterator
from pathlib import Path
from typing import Any

TOP = Path(__file__).resolve().parent.parent
sys.path[:0] = [str(TOP / "python"), str(TOP / "python" / "tests"), str(TOP / "tools")]

from clerk import CONTROL, ENTER, Chromium  # noqa: E402
from osgeo import gdal, ogr  # noqa: E402
from PIL import Image, ImageDraw  # noqa: E402
from programs import path_of  # noqa: E402
from web_support import Serving  # noqa: E402

WORLD = "/usr/share/qgis/resources/data/world_map.gpkg"
USE, TRIED = TOP / "docs" / "use", TOP / "out" / "country"
# So few colours are enough for a page, and make a small file.
COLOURS = 64
# What is around the country, and around what tiles show, in degrees.
AROUND, FURTHER = (["-clipsrc", *box.split()] for box in ("12.6 45.1 17.4 47.2", "-30 30 45 65"))
LAYERS = {
    "neighbours": "SELECT geom, NAME AS name, iso_a2 AS code FROM countries WHERE iso_a2 IN ('AT', 'IT', 'HR', 'HU')",
    "municipalities": "SELECT geom, name, gn_name AS official, fips, woe_label AS label FROM states_provinces WHERE admin = 'Slovenia'",
}
# The national grid in metres, and the system that tiles are in.
NATIONAL, OF_TILES = "EPSG:3794", "EPSG:3857"
GRIDS = {NATIONAL: ["500000", "100000", "0.01"], OF_TILES: ["1600000", "5800000", "0.01"]}
# The world in metres of EPSG:3857, from its middle to a side.
HALF = 20037508.342789244
SIDE, FINER = 256, 2
# How long the browser takes at most to have the extent of the map, and all tiles.
FIT_SECONDS, TILES_SECONDS = 1, 4
LOG = "[...document.querySelectorAll('#log li:last-child pre')].map(e => e.textContent).join()"


def main(words: list[str]) -> int:
    """Carries out the command, and gives its status."""
    target = USE if words == ["--write"] else TRIED
    target.mkdir(parents=True, exist_ok=True)
    with tempfile.TemporaryDirectory() as folder:
        world = Path(folder) / "world.gpkg"
        # SQLite writes beside what it reads.
        shutil.copy(WORLD, world)
        with served(made(world, NATIONAL)) as address:
            look(Views(address, target))
        with tiles(world) as address, served(made(world, OF_TILES), "--background", address, "--credit", "Natural Earth") as own:
            look_over_tiles(Views(own, target))
    return 0


def made(world: Path, system: str) -> Path:
    """The store of the country in a reference system."""
    folder = world.with_name(system[5:])
    folder.mkdir()
    town, store = folder / "slovenia.gpkg", folder / "slovenia.sfs"
    for name, sql in LAYERS.items():
        words = ["-f", "GPKG", "-nln", name, "-sql", sql, "-t_srs", system, "-nlt", "PROMOTE_TO_MULTI", *AROUND]
        gdal.VectorTranslate(str(town), str(world), options=[*words, *(["-append"] if town.exists() else [])])
    words = [str(town), str(store), "--grid", *GRIDS[system], "--round", "--mend", f"--program={path_of('sfstore')}"]
    command = [sys.executable, "-m", "sfstore.exchange.importing", *words]
    subprocess.run(command, env={"PYTHONPATH": str(TOP / "python")}, stdout=subprocess.DEVNULL, check=False)
    return store


@contextlib.contextmanager
def served(store: Path, *words: str) -> Iterator[str]:
    """The address of a server of a store."""
    serving = Serving(store, "--no-browser", *words, program=str(path_of("sfstore")))
    try:
        yield serving.address()
    finally:
        serving.end()


class Views:
    """The page, and pictures of it."""

    def __init__(self, address: str, target: Path) -> None:
        self.driven = Chromium()
        self._target = target
        self.driven.open(address)
        self.driven.until("document.getElementById('login').open")
        self.driven.type("#login-name", f"Ann{ENTER}")
        self.driven.until("document.querySelectorAll('.feature').length > 190", seconds=60)

    def line(self, text: str, answer: str = "ok") -> None:
        """Types a line at the console."""
        self.driven.type("#line-text", text + ENTER)
        self.driven.until(f"{LOG}.startsWith({answer!r})")

    def set(self, selector: str, value: str) -> None:
        """Chooses or types a value in a field."""
        self.driven.script(
            "const field = document.querySelector(arguments[0]); field.value = arguments[1];"
            "field.dispatchEvent(new Event('input')); field.dispatchEvent(new Event('change'))",
            selector,
            value,
        )

    def go(self, place: str) -> None:
        self.driven.script("document.getElementById('goto-text').value = ''")
        self.driven.type("#goto-text", place + ENTER)

    def fit(self) -> None:
        """Shows all of the map, which is asked of the server."""
        self.driven.click("#fit")
        time.sleep(FIT_SECONDS)

    def zoom(self, times: int) -> None:
        for _ in range(abs(times)):
            self.driven.click("#zoom-in" if times > 0 else "#zoom-out")

    def keep(self, name: str) -> None:
        """Keeps a picture of the page once all that the window has is drawn."""
        self.driven.script("return new Promise(done => setTimeout(() => requestAnimationFrame(() => requestAnimationFrame(done)), 700))")
        found = Image.open(io.BytesIO(self.driven.picture())).convert("RGB").quantize(COLOURS, dither=Image.Dither.NONE)
        found.save(self._target / f"country-{name}.png", optimize=True)

    def keep_sheet(self, name: str) -> None:
        """Keeps a picture of a sheet as it is printed: what A4 has between its margins, at 96 pixels an inch."""
        page = self.driven
        page.script("window.print = () => { window.isPrinted = true; dispatchEvent(new Event('beforeprint')); }")
        page.click("#print")
        page.script("document.getElementById('sheet-name').value = 'Slovenia, its municipalities'")
        page.click("#printing-form [type=submit]")
        page.until("window.isPrinted")
        page.driver.execute_cdp_cmd("Emulation.setEmulatedMedia", {"media": "print"})
        page.driver.execute_cdp_cmd("Emulation.setDeviceMetricsOverride", {"width": 1047, "height": 670, "deviceScaleFactor": 1, "mobile": False})
        self.keep(name)


def look(views: Views) -> None:
    """What the page offers beside the map itself."""
    page = views.driven
    try:
        style(views)
        where(views)
        table(views)
        measure(views)
        history(views)
        views.keep_sheet("sheet")
    finally:
        page.close()


def where(views: Views) -> None:
    """A place to which a person goes by its coordinates, with the scale, its bar and north."""
    views.go("462000 100800")
    views.zoom(2)
    views.keep("place")


def table(views: Views) -> None:
    """The municipalities by their names, and the one that is selected."""
    views.fit()
    views.driven.click("#tab-table")
    views.set("#table-layer", "municipalities")
    views.driven.until("document.querySelectorAll('#table-rows tr').length === 50")
    views.driven.script("document.querySelector('#table-head th:nth-child(2) button').click()")
    views.driven.until("document.querySelector('#table-head th:nth-child(2)').ariaSort === 'ascending'")
    views.driven.script("document.querySelector('#table-rows tr:nth-child(6)').click()")
    views.driven.until("document.getElementById('chosen-title').textContent.startsWith('municipalities')")
    views.driven.click("#go")
    views.keep("sorted")


def style(views: Views) -> None:
    """Colours, labels and scales in the form of a layer."""
    page = views.driven
    page.click("#tab-console")
    views.fit()
    page.script("document.querySelector('[aria-label=\"Edit neighbours\"]').click()")
    for field, value in (("colour", "#8a8f98"), ("fill", "35"), ("label", "name"), ("label-size", "16")):
        views.set(f"#style-{field}", value)
    page.script("document.querySelector('[aria-label=\"Edit municipalities\"]').click()")
    for field, value in (("colour", "#2d6a4f"), ("fill-colour", "#95d5b2"), ("fill", "45"), ("label", "name")):
        views.set(f"#style-{field}", value)
    views.zoom(1)
    page.until("document.querySelectorAll('#labels text').length > 20")
    views.keep("style")
    views.go("480000 130000")
    views.zoom(3)
    page.click("#layer-close")
    views.keep("labels")


def measure(views: Views) -> None:
    """A way over three places."""
    page = views.driven
    page.click("#tab-console")
    views.fit()
    views.zoom(1)
    page.click("[data-tool=measure]")
    box = page.script("const box = document.getElementById('map').getBoundingClientRect(); return [box.left, box.top, box.width, box.height]")
    for x, y in ((0.3, 0.55), (0.52, 0.5), (0.68, 0.3)):
        page.point(round(box[0] + x * box[2]), round(box[1] + y * box[3]))
    views.keep("measure")
    page.keys("\ue00c")
    page.click("[data-tool=select]")


def history(views: Views) -> None:
    """What was done, by whom, and what was taken back."""
    page = views.driven
    page.click("#tab-console")
    views.line("column add municipalities seat text")
    views.line("set municipalities 2 seat 'Ormož'")
    views.line("set municipalities 1 seat 'Ljutomer'")
    views.line("undo")
    views.line("rule add apart never municipalities equals municipalities")
    page.script("document.getElementById('map').focus()")
    page.keys(CONTROL, "z")
    page.until(f"{LOG} === 'ok'")
    page.click("#tab-history")
    page.until("document.querySelectorAll('#history-rows tr').length > 3")
    views.keep("history")
    page.click("#tab-console")


def look_over_tiles(views: Views) -> None:
    """The map over a background."""
    try:
        views.driven.script("document.querySelector('#layers input').click()")
        views.driven.script("document.querySelector('[aria-label=\"Edit municipalities\"]').click()")
        views.set("#style-fill", "0")
        views.driven.click("#layer-close")
        views.driven.until("document.querySelectorAll('#background image').length >= 6 && [...document.querySelectorAll('#background image')].every(e => e.getBBox().width)")
        time.sleep(TILES_SECONDS)
        views.keep("background")
    finally:
        views.driven.close()


class Painter:
    """Tiles of the land, the sea and the borders."""

    def __init__(self, world: Path) -> None:
        data = gdal.VectorTranslate("", str(world), options=["-f", "Memory", "-t_srs", OF_TILES, *FURTHER, "countries"])
        layer = data.GetLayer(0)
        self._rings = [ring for feature in layer for ring in rings_of(feature.GetGeometryRef())]

    def tile(self, level: int, column: int, row: int) -> bytes:
        """A PNG of a tile."""
        image = Image.new("RGB", (SIDE * FINER, SIDE * FINER), "#cfe3ef")
        pen = ImageDraw.Draw(image)
        scale = SIDE * FINER * 2**level / (2 * HALF)
        left, top = column * 2 * HALF / 2**level - HALF, HALF - row * 2 * HALF / 2**level
        for ring in self._rings:
            pen.polygon([((x - left) * scale, (top - y) * scale) for x, y in ring], fill="#f4efe4", outline="#c2ab8e")
        kept = io.BytesIO()
        image.resize((SIDE, SIDE), Image.Resampling.LANCZOS).save(kept, "PNG")
        return kept.getvalue()


def rings_of(geometry: Any) -> Iterator[list[tuple[float, float]]]:
    """The outer rings of an area."""
    if geometry.GetGeometryType() == ogr.wkbPolygon:
        yield [point[:2] for point in geometry.GetGeometryRef(0).GetPoints()]
        return
    for at in range(geometry.GetGeometryCount()):
        yield from rings_of(geometry.GetGeometryRef(at))


@contextlib.contextmanager
def tiles(world: Path) -> Iterator[str]:
    """The address of a server of tiles."""
    painter = Painter(world)

    class Answers(http.server.BaseHTTPRequestHandler):
        def do_GET(self) -> None:
            data = painter.tile(*map(int, self.path.removesuffix(".png").split("/")[1:]))
            self.send_response(200)
            self.send_header("Content-Type", "image/png")
            self.end_headers()
            self.wfile.write(data)

        def log_message(self, *_: Any) -> None:
            """Nothing is printed."""

    class Server(http.server.ThreadingHTTPServer):
        def handle_error(self, *_: Any) -> None:
            """A browser that ends leaves tiles behind."""

    server = Server(("127.0.0.1", 0), Answers)
    threading.Thread(target=server.serve_forever, daemon=True).start()
    try:
        yield f"http://127.0.0.1:{server.server_port}/{{z}}/{{x}}/{{y}}.png"
    finally:
        server.shutdown()
        server.server_close()


if __name__ == "__main__":
    sys.exit(main(sys.argv[1:]))
