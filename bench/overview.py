#!/usr/bin/env python3
"""Times the pictures of a large map that make the page's overview, without a browser, in processor time.

    bench/overview.py PROGRAM [FEATURES]

makes the map of bench/page.py (1,000,000 parcels if not given), and has all of it drawn: by numpy, and by Python alone.
Both have to draw the same.
"""

from __future__ import annotations

import hashlib
import os
import resource
import sys
import tempfile
import time
import unittest.mock
from pathlib import Path

TOP = Path(__file__).resolve().parent.parent
sys.path[:0] = [str(TOP / "python"), str(TOP / "python" / "tests")]

import page  # noqa: E402

from sfstore import Store  # noqa: E402
from sfstore.web import pictures, raster, rasterarrays  # noqa: E402

# Of these tiles a screen shows a few.
LEVEL = 5


def drawn(store: Store, count: int) -> str:
    """A digest of all pictures."""
    kept, hashed = pictures.Pictures(), hashlib.sha256()
    columns, rows = page.ROW * page.STEP // (raster.SIDE << LEVEL) + 1, count // page.ROW * page.STEP // (raster.SIDE << LEVEL) + 1
    for tile in (pictures.Tile(LEVEL, x, y) for x in range(columns) for y in range(rows)):
        hashed.update(kept.of(store, "parcels", tile, time.monotonic() + 10_000).cells)
    return hashed.hexdigest()


def main() -> int:
    """Draws both ways, and prints what they take. The status is 1 where they draw something else."""
    count = int(sys.argv[2]) if len(sys.argv) > 2 else 1_000_000
    found = set()
    with tempfile.TemporaryDirectory() as folder:
        path = Path(folder) / "town.sfs"
        page.make(path, count)
        for name, way in (("numpy", rasterarrays), ("Python alone", raster)):
            store = Store(program=os.path.abspath(sys.argv[1]), load=path, warn_far_off=False)
            # It has the map when it answers.
            store.layers()
            used, begun = os.times(), time.monotonic()
            with unittest.mock.patch.object(pictures, "_way", lambda: way):
                found.add(drawn(store, count))
            ended, seconds = os.times(), time.monotonic() - begun
            store.close(save=False)
            most = resource.getrusage(resource.RUSAGE_SELF).ru_maxrss // 1024
            print(f"{name}: {ended[0] + ended[1] - used[0] - used[1]:.1f} processor seconds of Python, {seconds:.1f} s by the clock, {most} MB", flush=True)
    return 0 if len(found) == 1 else 1


if __name__ == "__main__":
    sys.exit(main())
