"""Areas and lengths of a store's features, which QGIS' expressions ask one by one: the store is asked for many at a time.

Whoever asks may have a feature of which QGIS does not say for certain where it is from. So a store is asked for geometries too.
"""

from __future__ import annotations

import os
import socket
import threading
import time
from collections.abc import Callable
from decimal import Decimal
from typing import Any, Literal, NamedTuple, TypeVar

from qgis.core import QgsGeometry

from sfstore import spelling
from sfstore.editor import Editor
from sfstore.language import IDENTIFIERS_MAX
from sfstore.web.client import ServerGone

from .asking import Asking
from .mirror import Mirror
from .reading import geometry_of_row
from .session import Placing, Refusal, Session
from .writing import NotSent

__all__ = ["Measure", "Measures"]

Measure = Literal["area", "length"]
"""What is measured of a feature."""

# What is known of a feature: a measure, or a sum of its geometry that no other geometry has.
_Asked = Literal["area", "length", "shape"]
_T = TypeVar("_T")

# How long a question may take: a bit longer than the server takes before it gives one up. Of one that has not answered
# nothing is asked for a while, since each of many features would wait as long.
_SECONDS = 12.0
_SILENT_SECONDS = 30.0
_NO_FEATURE = 21


class _Known(NamedTuple):
    """What was answered, and when."""

    change: int
    """How much of what is changed had been seen: behind a further change nothing of it counts any more."""
    found: dict[int, Any]
    """By the identifiers of features; measures in map units."""


class Measures:
    """What a store says of its features' geometries, in map units. It may be asked in any thread: those who draw have threads of their own."""

    def __init__(self, session: Session) -> None:
        self._session = session
        self._name = Session.user()
        self._asking: Asking | None = None
        self._one_at_a_time = threading.Lock()
        self._known: dict[tuple[str, _Asked], _Known] = {}
        self._silent_until = 0.0

    def of(self, measure: Measure, mirror: Mirror, number: int) -> Decimal:
        """The area or the length of a feature, as it is in the store now. `Refusal` where it is not there."""
        found: Decimal = self._of(measure, mirror, number)
        return found

    def has_shape(self, mirror: Mirror, number: int, geometry: QgsGeometry) -> bool:
        """Whether a feature has this very geometry in the store now, as QGIS shows it. `Refusal` where it is not there."""
        return bool(self._of("shape", mirror, number) == _sum_of(geometry))

    def ask(self, question: Callable[[Editor], _T], placing: Placing) -> _T:
        """The answer of another question, in steps of a grid. `CallFailed` where the store has another one by now, or is another store."""
        with self._one_at_a_time:
            return self._asked(question, placing)

    def _of(self, asked: _Asked, mirror: Mirror, number: int) -> Any:
        with self._one_at_a_time:
            change, key = self._session.changes, (mirror.name, asked)
            known = self._known.get(key)
            if known is None or known.change != change:
                known = self._known[key] = _Known(change, {})
            if number not in known.found:
                known.found.update(self._measured(asked, mirror, number))
            return known.found[number]

    def close(self) -> None:
        """Leaves the server."""
        with self._one_at_a_time:
            self._leave()

    def _measured(self, asked: _Asked, mirror: Mirror, number: int) -> dict[int, Any]:
        """What is known of a feature, and of those beside which QGIS reads with it."""
        numbers = _with_neighbours(mirror, number)
        try:
            return self._measures(asked, mirror.name, numbers)
        except (NotSent, Refusal) as error:
            if len(numbers) == 1 or (isinstance(error, Refusal) and error.told["number"] != _NO_FEATURE):
                raise
            # Somebody has deleted another one just now, or the answer would be too long.
            return self._measures(asked, mirror.name, [number])

    def _measures(self, asked: _Asked, layer: str, numbers: list[int]) -> dict[int, Any]:
        placing = self._session.placing
        if asked == "shape":
            rows = self._asked(lambda store: store.run(f"get {layer} {spelling.identifiers(numbers)}"), placing)
            return {number: _sum_of(geometry_of_row(row, placing.grid)) for number, row in zip(numbers, rows)}
        if asked == "area":
            return dict(zip(numbers, map(placing.units.area, self._asked(lambda store: store.area(layer, *numbers), placing))))
        return dict(zip(numbers, map(placing.units.length, self._asked(lambda store: store.length(layer, *numbers), placing))))

    def _asked(self, question: Callable[[Editor], _T], placing: Placing) -> _T:
        if time.monotonic() < self._silent_until:
            raise ServerGone(f"Wait a moment: the server of {os.path.basename(self._session.path)} does not answer.")
        is_new = self._asking is None
        try:
            return self._asked_once(question, placing)
        except ServerGone as gone:
            if isinstance(gone.__cause__, socket.timeout):
                self._silent_until = time.monotonic() + _SILENT_SECONDS
            # The server of before has ended. Another one may be there by now.
            if is_new or not isinstance(gone.__cause__, ConnectionError):
                raise
            return self._asked_once(question, placing)

    def _asked_once(self, question: Callable[[Editor], _T], placing: Placing) -> _T:
        if self._asking is None:
            self._asking = Asking(self._session.path, self._name, _SECONDS, placing)
        self._asking.placing = placing
        try:
            return question(Editor(self._asking, ""))
        except ServerGone:
            # The next question connects to the server that is there then.
            self._leave()
            raise

    def _leave(self) -> None:
        asking, self._asking = self._asking, None
        if asking is not None:
            asking.close()


def _sum_of(geometry: QgsGeometry) -> int:
    """A number that another geometry has by a rare chance alone. A geometry itself would take more room."""
    return hash(bytes(geometry.asWkb()))


def _with_neighbours(mirror: Mirror, number: int) -> list[int]:
    """A feature of a mirror with those that stand beside it there: QGIS' own numbers have few gaps, whatever the store's are."""
    fid = mirror.fids.get(number)
    if fid is None:
        return [number]
    first = fid - fid % IDENTIFIERS_MAX
    beside = (mirror.numbers.get(each) for each in range(first, first + IDENTIFIERS_MAX))
    return [each for each in beside if each is not None and each in mirror.fids]
