#!/usr/bin/env python3
"""Times the page over a large map, in a headless Chromium.

    bench/page.py PROGRAM [FEATURES]

makes a store of so many square parcels with a number each (1,000,000 if not given), opens it by `sfstore-web`, and
measures: how long the page takes to come and to count them all, and until its overview is drawn; the frames of a second
in which the map is moved, over the overview and over some 2,000 features; windows of so many, from the question to the
server until they are drawn and painted, the map moved by more than a window each time; a click, and further ones; an
edit, until another page has drawn it.
"""

from __future__ import annotations

import statistics
import sys
import tempfile
import time
from pathlib import Path

TOP = Path(__file__).resolve().parent.parent
sys.path[:0] = [str(TOP / "python"), str(TOP / "python" / "tests")]

import browser  # noqa: E402
from web_support import Serving  # noqa: E402

from sfstore import storefile  # noqa: E402
from sfstore.geometry import Shape, write_wkb  # noqa: E402

# How far the corners of neighbours are apart, and how many parcels stand in a row.
STEP, ROW = 10, 1_000
WINDOWS = 11

# Moves the map by more than a window, and tells the milliseconds until what is there is drawn, and painted.
MOVE = """
const done = arguments[0], map = document.getElementById("map");
const windows = () => performance.getEntriesByName("window");
const before = windows().length;
for (let k = 0; k < 24; k++) map.dispatchEvent(new KeyboardEvent("keydown", { key: "ArrowRight", bubbles: true }));
const look = () => {
  if (windows().length === before) return requestAnimationFrame(look);
  const last = windows().at(-1);
  const count = document.querySelectorAll(".feature").length;
  requestAnimationFrame(() => requestAnimationFrame(() => done([last.duration, performance.now() - last.startTime, count])));
};
look();
"""


# Moves the map by a pixel at each frame, for two seconds, and tells how many frames there were a second.
FRAMES = """
const done = arguments[0], map = document.getElementById("map");
const at = (k) => ({ pointerId: 1, button: 0, clientX: 400 + k, clientY: 300, bubbles: true, isPrimary: true });
map.setPointerCapture = () => {};
map.dispatchEvent(new PointerEvent("pointerdown", at(0)));
const start = performance.now();
let count = 0;
const step = () => {
  map.dispatchEvent(new PointerEvent("pointermove", at(++count)));
  if (performance.now() - start < 2000) return requestAnimationFrame(step);
  map.dispatchEvent(new PointerEvent("pointerup", at(count)));
  done(count * 1000 / (performance.now() - start));
};
requestAnimationFrame(step);
"""


def make(path: Path, count: int) -> None:
    """Writes a store's file of parcels in rows, which touch one another."""
    layer = storefile.FileLayer("parcels", 3, count + 1, 2, [storefile.FileColumn(1, storefile.INT, "number")])
    for k in range(count):
        x, y = k % ROW * STEP, k // ROW * STEP
        ring = [x, y, x + STEP, y, x + STEP, y + STEP, x, y + STEP, x, y]
        layer.features.append(storefile.FileFeature(k + 1, write_wkb(Shape(3, [[ring]])), {1: k}))
    with open(path, "wb") as file:
        storefile.write(file, [layer])


def spent(work) -> float:
    """The seconds that some work takes."""
    began = time.monotonic()
    work()
    return time.monotonic() - began


def resident(process: int) -> str:
    """The memory of a process and of the programs that it began."""
    found = {}
    for status in Path("/proc").glob("[0-9]*/status"):
        try:
            fields = dict(line.split(":", 1) for line in status.read_text().splitlines())
        except OSError:
            continue
        if process in (int(fields["Pid"]), int(fields["PPid"])) and "VmRSS" in fields:
            found[fields["Pid"].strip()] = f"{fields['Name'].strip()} {int(fields['VmRSS'].split()[0]) // 1024} MB"
    return ", ".join(found.values())


def open_page(driver, serving, name: str) -> browser.Page:
    """A page whose map is there: it is counted, and not drawn."""
    return browser.Page(driver, serving, name, is_there=lambda page: "here: zoom in" in page.text("#status"))


def zoom_in(page: browser.Page, feature: int) -> None:
    """Shows some 2,000 parcels about one of them."""
    page.one("#line-text").send_keys(f"query parcels equals {parcel(feature)}", page.keys.ENTER)
    page.until(lambda: page.all("#hits button"), 60)
    page.use("#hits button")
    page.until(lambda: page.text("#chosen-title").startswith("parcels"), 60)
    while not 1_800 <= page.until(lambda: page.drawn("parcels"), 60) <= 4_000:
        page.use("#zoom-out")
        time.sleep(0.5)


def parcel(feature: int) -> str:
    x, y = (feature - 1) % ROW * STEP, (feature - 1) // ROW * STEP
    return f"POLYGON (({x} {y}, {x + STEP} {y}, {x + STEP} {y + STEP}, {x} {y + STEP}, {x} {y}))"


def measure(driver, serving, count: int) -> None:
    pages = []
    print(f"page, all counted: {spent(lambda: pages.append(open_page(driver, serving, 'Ann'))):.1f} s")
    ann = pages[0]
    driver.set_script_timeout(60)
    seen = 'return performance.getEntriesByName("overview").length'
    print(f"its overview drawn: {spent(lambda: ann.until(lambda: ann.script(seen), 300)):.1f} s later")
    print(f"the map moved over it: {driver.execute_async_script(FRAMES):.0f} frames a second")
    print(f"a feature found, selected and shown: {spent(lambda: zoom_in(ann, count // 2 + 50)):.1f} s")
    print(f"the map moved over features: {driver.execute_async_script(FRAMES):.0f} frames a second")
    times = [driver.execute_async_script(MOVE) for _ in range(WINDOWS)]
    drawn, painted, counts = ([round(one) for one in kind] for kind in zip(*times))
    print(f"windows of {min(counts)} to {max(counts)} features:", end=" ")
    print(f"drawn in {statistics.median(drawn)} ms ({min(drawn)} to {max(drawn)}),", end=" ")
    print(f"painted in {statistics.median(painted)} ms ({min(painted)} to {max(painted)})")
    ben = serving.log_in("Ben")
    look = lambda: ben.feature("parcels", 7)
    print(f"a further feature with its values: {1000 * spent(look):.0f} ms")
    line, seen = f"set parcels {count // 2} number 5", ben.version()
    print(f"a value set: {1000 * spent(lambda: ben.line(line, seen)):.0f} ms; values after it: ", end="")
    print(f"{1000 * spent(look):.0f} ms")
    before, seen = len(ann.log()), ben.version()
    began = time.monotonic()
    ben.line(f"add parcels {parcel(count // 2 + 50)}", seen)
    ann.until(lambda: len(ann.log()) > before)
    print(f"an edit of another page shown after {1000 * (time.monotonic() - began):.0f} ms")
    print(resident(serving.process.pid))


def main() -> None:
    program, count = sys.argv[1], int(sys.argv[2]) if len(sys.argv) > 2 else 1_000_000
    with tempfile.TemporaryDirectory() as folder:
        path = Path(folder) / "parcels.sfs"
        make(path, count)
        began = time.monotonic()
        serving = Serving(path, "--no-browser", "--seconds=30", program=program)
        print(f"{count} parcels: opened in {time.monotonic() - began:.1f} s")
        driver = browser.start()
        try:
            measure(driver, serving, count)
        finally:
            driver.quit()
            serving.end()


if __name__ == "__main__":
    main()
