#!/usr/bin/env python3
"""Makes the pictures of docs/use/A_DAY_ON_THE_PAGE.md: the day is lived in Chromium, in a window of 1,280 by 720.

    tests/day_pictures.py            makes them beside those that are there, in out/day, to be looked at
    tests/day_pictures.py --write    writes them

Two browsers draw one page with other pixels, so no test compares these pictures. `test_page_clerk.py` lives the same day.
"""

from __future__ import annotations

import io
import subprocess
import sys
import tempfile
from pathlib import Path

TOP = Path(__file__).resolve().parent.parent
sys.path[:0] = [str(TOP / "python"), str(TOP / "python" / "tests"), str(TOP / "tools")]

from clerk import GRID, METRES, Chromium, Day  # noqa: E402
from PIL import Image  # noqa: E402
from programs import path_of  # noqa: E402
from web_support import Serving  # noqa: E402

from sfstore import files, sidecar  # noqa: E402

USE, TRIED = TOP / "docs" / "use", TOP / "out" / "day"
SHOWN = ("search", "split", "refused")
# So few colours are enough for a page, and make a small file.
COLOURS = 64


def main(words: list[str]) -> int:
    """Carries out the command, and gives its status."""
    target = USE if words == ["--write"] else TRIED
    target.mkdir(parents=True, exist_ok=True)

    def keep(name: str, picture: bytes) -> None:
        if name in SHOWN:
            found = Image.open(io.BytesIO(picture)).convert("RGB").quantize(COLOURS, dither=Image.Dither.NONE)
            found.save(target / f"day-{name}.png", optimize=True)

    with tempfile.TemporaryDirectory() as folder:
        path = Path(folder) / "town.sfs"
        program = [str(path_of("sfstore")), f"--save={path}"]
        subprocess.run(program, input=(TOP / "examples" / "town.txt").read_bytes(), check=True, stdout=subprocess.DEVNULL)
        sidecar.write(str(path), sidecar.Sidecar(GRID, sidecar.Crs("EPSG", "25832", METRES), []), [files.digest(str(path))])
        serving, driven = Serving(path, "--no-browser"), Chromium()
        try:
            live(Day(driven, keep), serving.address())
        finally:
            driven.close()
            serving.end()
    return 0


def live(day: Day, address: str) -> None:
    """Lives the day."""
    day.come_in(address)
    for step in (day.type_lines, day.go_to_a_place, day.search, day.choose_a_value, day.split, day.be_refused, day.undo, day.measure, day.print):
        step()


if __name__ == "__main__":
    sys.exit(main(sys.argv[1:]))
