"""Pictures of layers that have more features than a page can draw, in square tiles of cells.

A tile with few features is drawn from their geometries, another one from the pictures of its
quarters. What was drawn is kept, and an edit has only the tiles drawn again that its feature meets.
"""

from __future__ import annotations

import time
import zlib
from collections.abc import Iterable, Sequence
from functools import lru_cache
from typing import NamedTuple, Protocol

from sfstore.extents import Box, rectangle
from sfstore.language import GRID_MAX, GRID_MIN
from sfstore.store import Editor, Refused
from sfstore.web import raster
from sfstore.web.changes import Target
from sfstore.web.keeper import Edit
from sfstore.web.windows import hexes_of

__all__ = ["LEVEL_MAX", "Picture", "Pictures", "Tile"]

LEVEL_MAX = 23
"""The level at which one tile's side is as long as the grid's."""

# A tile of more features is drawn from its quarters.
_FEATURES_MAX = 20_000
# How many tiles are kept, of some KB each.
_KEPT_MAX = 4_096
# An edit that meets more tiles has its layer's pictures drawn anew.
_MET_MAX = 1_000


class _Way(Protocol):
    """A way of drawing. All ways draw the same."""

    def draw_all(self, cells: bytearray, geometries: Iterable[str], left: int, bottom: int, size: int) -> None:
        """Draws geometries, as `raster.draw_all` does."""

    def coarsened(self, quarters: Sequence[bytes]) -> bytearray:
        """The picture of twice the size, as `raster.coarsened` has it."""


@lru_cache(maxsize=1)
def _way() -> _Way:
    """The quickest way that is there. It is looked for when the first picture is drawn: numpy takes time and memory."""
    try:
        from sfstore.web import rasterarrays
    except ImportError:
        return raster
    return rasterarrays


class Tile(NamedTuple):
    """A square of the plane."""

    level: int
    """Its cells have 2 to the power of this grid steps to a side."""
    x: int
    y: int
    """Where it stands among the tiles of its level: tile 0 begins at 0."""

    @property
    def size(self) -> int:
        """How many grid steps a side has."""
        return raster.SIDE << self.level

    @property
    def quarters(self) -> list[Tile]:
        """The tiles of the level below in it: south-west, south-east, north-west, north-east."""
        level, x, y = self.level - 1, 2 * self.x, 2 * self.y
        return [Tile(level, x + right, y + up) for up in (0, 1) for right in (0, 1)]

    @property
    def box(self) -> Box | None:
        """What it has of the grid, or none."""
        left, bottom = max(GRID_MIN, self.x * self.size), max(GRID_MIN, self.y * self.size)
        right = min(GRID_MAX, (self.x + 1) * self.size)
        top = min(GRID_MAX, (self.y + 1) * self.size)
        return (left, bottom, right, top) if left <= right and bottom <= top else None


class Picture(NamedTuple):
    """What a tile shows of a layer."""

    packed: bytes
    """Its cells, compressed; nothing where there is no feature."""
    features: int
    """How many features met the tile when they were counted."""
    is_whole: bool
    """Whether all of it is drawn: where not, asking again goes on with it."""
    version: int
    """Another one whenever the picture is."""

    @property
    def cells(self) -> bytes:
        """As of `raster`; nothing where there is no feature."""
        return zlib.decompress(self.packed) if self.packed else b""


class Pictures:
    """The pictures of one store, kept right through edits. It belongs to the thread of one mirror."""

    def __init__(self) -> None:
        self._known: dict[str, dict[Tile, Picture]] = {}
        # How many features are in the tiles that are drawn from their quarters.
        self._counts: dict[str, dict[Tile, int]] = {}
        self._version = 0

    def of(self, store: Editor, layer: str, tile: Tile, until: float) -> Picture:
        """The picture of a tile, as far as it can be drawn until a moment of the monotonic clock."""
        known = self._known.setdefault(layer, {}).get(tile)
        if known is not None and known.is_whole:
            return known
        picture = self._drawn(store, layer, tile, until)
        if picture.is_whole:
            self._keep(layer, tile, picture)
        return picture

    def before(self, store: Editor, edits: Sequence[Edit]) -> None:
        """Has the tiles drawn anew that show what edits are about to change."""
        self._outdate(store, edits)

    def after(self, store: Editor, edits: Sequence[Edit]) -> None:
        """Has the tiles drawn anew that have to show what they have changed."""
        self._outdate(store, edits)

    def forget(self) -> None:
        """Has everything drawn anew."""
        self._known.clear()
        self._counts.clear()

    def _drawn(self, store: Editor, layer: str, tile: Tile, until: float) -> Picture:
        box = tile.box
        if box is None:
            return self._made(b"", 0, True)
        count = self._counts.get(layer, {}).get(tile)
        if count is None:
            features = store.query(layer, "intersects", rectangle(box))
            count = len(features)
            if tile.level == 0 or count <= _FEATURES_MAX:
                return self._made(_traced(store, layer, features, tile), count, True)
            self._counts.setdefault(layer, {})[tile] = count
        return self._joined(store, layer, tile, count, until)

    def _joined(self, store: Editor, layer: str, tile: Tile, count: int, until: float) -> Picture:
        """The picture of a tile by those of its quarters."""
        known = self._known.setdefault(layer, {})
        parts, is_whole = [], True
        for quarter in tile.quarters:
            part = known.get(quarter)
            if part is None and time.monotonic() < until:
                part = self.of(store, layer, quarter, until)
            parts.append(part.cells if part else b"")
            is_whole = is_whole and part is not None and part.is_whole
        cells = bytes(_way().coarsened(parts)) if any(parts) else b""
        return self._made(cells, count, is_whole)

    def _made(self, cells: bytes, count: int, is_whole: bool) -> Picture:
        self._version += 1
        return Picture(zlib.compress(cells, 1) if cells else b"", count, is_whole, self._version)

    def _keep(self, layer: str, tile: Tile, picture: Picture) -> None:
        if sum(map(len, self._known.values())) >= _KEPT_MAX:
            # The oldest of the layer that has the most.
            most = max(self._known.values(), key=len)
            del most[next(iter(most))]
        self._known.setdefault(layer, {})[tile] = picture

    def _outdate(self, store: Editor, edits: Sequence[Edit]) -> None:
        """Has the tiles drawn anew that meet the features of edits, as the store is just now."""
        for target in {target for edit in edits for target in edit.step.targets}:
            known = self._known.get(target.layer)
            if known is None:
                continue
            met = None if target.feature is None else _tiles_of(store, target, known)
            if met is None:
                self._known.pop(target.layer)
                self._counts.pop(target.layer, None)
                continue
            for tile in met:
                known.pop(tile, None)


def _traced(store: Editor, layer: str, features: list[int], tile: Tile) -> bytes:
    """What a tile shows of features."""
    if not features:
        return b""
    cells = raster.blank()
    left, bottom = tile.x * tile.size, tile.y * tile.size
    _way().draw_all(cells, hexes_of(store, [(layer, feature) for feature in features]), left, bottom, 1 << tile.level)
    return bytes(cells)


def _tiles_of(store: Editor, target: Target, known: dict[Tile, Picture]) -> list[Tile] | None:
    """The tiles that a feature meets, of the levels that are known; none where these are too many."""
    answer = next(iter(store.run_all([f"box {target.layer} {target.feature}"])))
    if isinstance(answer, Refused):
        return []
    left, bottom, right, top = map(int, str(answer).split(" "))
    met: list[Tile] = []
    for level in {tile.level for tile in known}:
        size = raster.SIDE << level
        # A tile has the points of its sides, also of those that it shares with the next.
        columns = range((left - 1) // size, right // size + 1)
        rows = range((bottom - 1) // size, top // size + 1)
        if len(columns) * len(rows) > _MET_MAX:
            return None
        met += [Tile(level, x, y) for x in columns for y in rows]
    return met
