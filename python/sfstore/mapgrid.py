"""The grid of the map that a store was imported from, as it was when the store was opened.

It belongs to an opening: whoever has counted by it may do so as long as the side-car beside the file says the same.
"""

from __future__ import annotations

import contextlib
import hashlib
import os

from sfstore import sidecar
from sfstore.commandline import reason_of
from sfstore.mapunits import MapUnits
from sfstore.sidecar import Sidecar, SidecarError

__all__ = ["GridChanged", "MapGrid"]

_MARK_DIGITS = 16


class GridChanged(Exception):
    """The grid is another one than that for which something was meant. The text says so."""

    _WORDS = "has another grid, or another reference system, than when it was opened"

    def __init__(self, path: str) -> None:
        super().__init__(f"{os.path.basename(path)} {self._WORDS}: look at the map again. Nothing was done.")


class MapGrid:
    """What the side-car of a store's file says of coordinates. Where it says nothing they are steps."""

    found: Sidecar | None
    """The side-car; none where there is none, or it is not known."""
    units: MapUnits | None
    fault: str
    """Why it is not known, in a sentence; empty where it is, and where a store has none."""

    def __init__(self, path: str) -> None:
        self._path = path
        with contextlib.suppress(OSError, SidecarError):
            # Whoever brought the map may have broken off before.
            sidecar.settle(path)
        self._state = self._state_now()
        self.found, self.units, self.fault = _read(path) if self._state else (None, None, "")

    @property
    def mark(self) -> str:
        """A short text that no other grid or reference system has; empty where coordinates are steps."""
        if self.found is None:
            return ""
        return hashlib.sha256(repr((self.found.grid, self.found.crs)).encode("utf-8", "surrogatepass")).hexdigest()[:_MARK_DIGITS]

    def check(self) -> None:
        """`GridChanged` where the side-car says something else now."""
        now = self._state_now()
        if now == self._state:
            return
        # A save has it belong to another file, which is the same map.
        if MapGrid(self._path).mark != self.mark:
            raise GridChanged(self._path)
        self._state = now

    def _state_now(self) -> tuple[int, ...]:
        """What is another one after any writing to the side-car. Empty where none is there."""
        try:
            found = os.lstat(sidecar.path_of(self._path))
        except FileNotFoundError:
            return ()
        return found.st_dev, found.st_ino, found.st_size, found.st_mtime_ns, found.st_ctime_ns


def _read(path: str) -> tuple[Sidecar | None, MapUnits | None, str]:
    """A side-car with its units, or why there is none, in a sentence."""
    try:
        found = sidecar.read(path)
        return found, MapUnits(*found.grid), ""
    except (SidecarError, OSError, ValueError) as error:
        return None, None, f"Coordinates are steps of the grid: {reason_of(error)}"
