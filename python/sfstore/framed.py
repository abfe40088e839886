"""A picture that sfmap has drawn, with the coordinates of the map: sfmap counts in steps of the grid.

The corners of the frame get their coordinates, and the scale bar its length in units of the map. All else stays as it is.
"""

from __future__ import annotations

import re
from collections.abc import Iterable, Iterator
from decimal import Decimal

from sfstore.mapunits import MapUnits
from sfstore.sidecar import Sidecar
from sfstore.web.scales import symbol_of

__all__ = ["framed"]

# Lines of sfmap, which has the features of a layer between them: names are of letters, digits and underscores.
_MAP = re.compile(rb"<svg class='map' width='([0-9]+)' height='([0-9]+)' viewBox='0 0 ([0-9]+) ([0-9]+)' data-corner='(-?[0-9]+) (-?[0-9]+)'>\n")
_SCALE = re.compile(rb"(<g class='scale' .*)>([0-9]+) grid steps?</text></g>\n")
_SYSTEM = re.compile(r"[A-Za-z0-9_.-]{1,40}:[A-Za-z0-9_.-]{1,40}")
_FRAME = b"<rect class='frame' "
_STYLE = "font-size:11px;paint-order:stroke;stroke:#fff;stroke-width:3px"
# How far the coordinates of a corner stand from it, in pixels.
_LEFT, _UNDER, _ABOVE = 5, 14, 6


def framed(picture: Iterable[bytes], beside: Sidecar) -> Iterator[bytes]:
    """The lines of a picture, in the units of the map that its side-car says."""
    units = MapUnits(*beside.grid)
    corners = ""
    for line in picture:
        if found := _MAP.fullmatch(line):
            corners = _corners(units, *map(int, found.groups()))
        if found := _SCALE.fullmatch(line):
            line = b"%s>%s</text></g>\n" % (found[1], _bar(units, Decimal(int(found[2])), beside).encode())
        yield line
        if line.startswith(_FRAME):
            yield corners.encode()


def _corners(units: MapUnits, width: int, height: int, wide: int, high: int, left: int, top: int) -> str:
    """The upper left and the lower right corner of a frame of so many pixels, over so many steps from a place on."""
    upper, lower = (units.point_text(point)[1:-1] for point in ((left, top), (left + wide, top - high)))
    return (
        f"<text class='corner' x='{_LEFT}' y='{_UNDER}' style='{_STYLE}'>{upper}</text>\n"
        f"<text class='corner' x='{width - _LEFT}' y='{height - _ABOVE}' text-anchor='end' style='{_STYLE}'>{lower}</text>\n"
    )


def _bar(units: MapUnits, steps: Decimal, beside: Sidecar) -> str:
    """What the scale bar stands for, and of which reference system the coordinates are."""
    crs = beside.crs
    unit = (symbol_of(crs.wkt) if crs else "") or "map units"
    # A side-car may have been written by anybody.
    system = f", {crs}" if crs and _SYSTEM.fullmatch(str(crs)) else ""
    return f"{units.length(steps):f} {unit}{system}"
