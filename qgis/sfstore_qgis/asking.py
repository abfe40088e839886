"""What a store is asked beside what QGIS shows of it: calls of an `Editor` over a connection of one's own, in any thread."""

from __future__ import annotations

from collections.abc import Container, Iterator, Sequence
from contextlib import contextmanager
from decimal import Decimal
from typing import Any

from qgis.core import QgsGeometry

from sfstore import spelling
from sfstore.editor import Editor
from sfstore.exchange.grid import Grid, OffGrid, Outside, Rounding
from sfstore.geometry import NotTaken, read_wkb, write_wkt
from sfstore.language import IDENTIFIERS_MAX
from sfstore.mapunits import MapUnits
from sfstore.results import Answer, Near, Refused
from sfstore.web.client import Client

from .session import Placing, Refusal
from .writing import NotSent

__all__ = ["Asking", "OutOfReach", "asked", "nearest_of", "reach_of", "steps_of"]

# A call of a line names a page. Questions are nobody's edits.
_PAGE = "qgis questions"


class OutOfReach(NotSent):
    """A geometry lies where no store has anything: off its grid on all sides, or nowhere."""


class Asking:
    """A connection to a store's server as the program behind an `Editor` that only asks. One question at a time."""

    name = "sfstore"
    has_group = False
    closed = False

    def __init__(self, path: str, name: str, seconds: float, placing: Placing) -> None:
        """Connects under the name of somebody. `ServerGone` where no server answers; `seconds` is how long one question may take.

        ``placing`` has the store that is asked, and the grid by which it is. Over another one the server answers nothing: a
        feature, a distance or a coordinate would be another one.
        """
        self.placing = placing
        self._client = Client(path, name, seconds)

    def check_user(self) -> None:
        """Whoever has it may use it, in any thread."""

    def exchange(self, lines: Sequence[bytes]) -> list[Answer | Refused]:
        """The answers of questions. `Refusal` for the first one that is refused."""
        return [self._answer(line.decode().removesuffix("\n")) for line in lines]

    def close(self) -> None:
        """Leaves the server."""
        self._client.close()

    abort = stop = close

    def _answer(self, line: str) -> Answer:
        told = self._client.call("line", page=_PAGE, line=line, **self.placing.named)
        if "refused" in told:
            raise Refusal(told["refused"])
        if "rows" not in told:
            return str(told["answer"])
        rows: list[str] = told["rows"]
        if len(rows) < told["count"]:
            raise NotSent(f"Ask for less: {told['count']:,} features are so, and {len(rows):,} of them can be told at once")
        return rows


@contextmanager
def asked(path: str, name: str, seconds: float, placing: Placing) -> Iterator[Editor]:
    """A store that can be asked in the body. What it answers, and what it is asked, is in steps of its grid."""
    asking = Asking(path, name, seconds, placing)
    try:
        yield Editor(asking, "")
    finally:
        asking.close()


def nearest_of(store: Editor, layer: str, count: int, wkt: str, shown: Container[int] | None) -> list[Near]:
    """The nearest features, of those that a layer of QGIS shows, where it shows one kind of several; None where it shows all."""
    asked = count
    while True:
        found = store.nearest(layer, asked, wkt)
        those = [near for near in found if shown is None or near.feature_id in shown][:count]
        if len(those) == count or len(found) < asked:
            return those
        if asked == IDENTIFIERS_MAX:
            raise NotSent(f"Ask for fewer: of the nearest {asked:,} features of {layer}, {len(those):,} are of this kind")
        asked = min(2 * asked, IDENTIFIERS_MAX)


def steps_of(geometry: QgsGeometry, grid: Grid, rounding: Rounding) -> str:
    """The text of a geometry in steps of the grid, without Z and M. `NotSent` where it has none.

    ``rounding`` says whether its coordinates may be moved to the grid, and counts those that are.
    """
    if geometry.isNull() or geometry.isEmpty():
        raise OutOfReach("Take a geometry with points: there is none, or an empty one")
    flat: Any = geometry.constGet().clone()
    flat.dropZValue()
    flat.dropMValue()
    try:
        return write_wkt(read_wkb(bytes(flat.asWkb())).mapped(lambda line: grid.steps(line, rounding)))
    except NotTaken as error:
        raise NotSent(f"Ask with straight sides: the store takes no other geometry, and this is {error}") from None
    except OffGrid as error:
        if rounding.is_asked:
            raise OutOfReach(f"Ask of a geometry with coordinates that are numbers: this one has {error}") from None
        raise NotSent(f"Move it to the grid first, as sfstore_on_grid does it: {error}") from None
    except Outside as error:
        raise OutOfReach(f"Ask nearer to the map: {error} is further from the origin of the grid than the store reaches") from None


def reach_of(distance: float, units: MapUnits) -> Decimal:
    """A distance in map units, as QGIS has it, in steps of the grid. `NotSent` where no line may have it."""
    try:
        reach = units.reach(Decimal(repr(distance)))
        spelling.distance(reach)
    except ValueError as error:
        raise NotSent(f"Take another distance: {error}") from None
    return reach
