"""Dates and times as ISO texts, and back: in the store they are texts."""

from __future__ import annotations

import datetime
import re
from collections.abc import Sequence
from typing import NamedTuple

__all__ = ["Moment", "day_of", "moment_of", "text_of_day", "text_of_moment", "text_of_time"]

_DAY = re.compile(r"[0-9]{4}-[0-9]{2}-[0-9]{2}", re.ASCII)
_MOMENT = re.compile(
    r"([0-9]{4}-[0-9]{2}-[0-9]{2})[T ]([0-9]{2}):([0-9]{2}):([0-9]{2})(?:\.([0-9]{1,6}))?(Z|[+-][0-9]{2}(?::?[0-9]{2})?)?",
    re.ASCII,
)

# How OGR writes zones: 0 and 1 are unknown ones, 100 is UTC, and each further one is a quarter of an hour.
_UTC, _QUARTER = 100, 15


class Moment(NamedTuple):
    """A date with a time."""

    at: datetime.datetime
    """By the clock of its zone."""
    offset: int | None
    """How many minutes this clock is before UTC. None where no zone is known."""

    @property
    def ogr_zone(self) -> int | None:
        """The zone as OGR writes it, or none where it can't."""
        if self.offset is None:
            return 0
        zone = _UTC + self.offset // _QUARTER
        return None if self.offset % _QUARTER or zone <= 1 else zone

    @property
    def text(self) -> str:
        """Its text, as an import writes it."""
        parts = f"{self.at.microsecond:06}"
        parts = parts if parts[3:] != "000" else parts[:3].replace("000", "")
        return f"{self.at:%Y-%m-%dT%H:%M:%S}".rjust(19, "0") + (f".{parts}" if parts else "") + _zone_text(self.offset)

    @property
    def is_in_milliseconds(self) -> bool:
        """Whether it has no part of a millisecond. OGR keeps no smaller parts."""
        return self.at.microsecond % 1000 == 0


def day_of(text: str) -> datetime.date | None:
    """The day that a text names, or none.

    >>> day_of("2020-01-31"), day_of("31.1.2020")
    (datetime.date(2020, 1, 31), None)
    """
    try:
        return datetime.date.fromisoformat(text) if _DAY.fullmatch(text) else None
    except ValueError:
        return None


def moment_of(text: str) -> Moment | None:
    """The moment that a text names, or none.

    >>> moment_of("2020-01-31T10:00:00.5+01:00")
    Moment(at=datetime.datetime(2020, 1, 31, 10, 0, 0, 500000), offset=60)
    """
    found = _MOMENT.fullmatch(text)
    day = day_of(found[1]) if found else None
    if found is None or day is None:
        return None
    try:
        time = datetime.time(int(found[2]), int(found[3]), int(found[4]), int((found[5] or "0").ljust(6, "0")))
    except ValueError:
        return None
    return Moment(datetime.datetime.combine(day, time), _offset(found[6]))


def _offset(zone: str | None) -> int | None:
    if zone is None:
        return None
    if zone == "Z":
        return 0
    minutes = int(zone[1:3]) * 60 + int(zone[3:].removeprefix(":") or 0)
    return -minutes if zone[0] == "-" else minutes


def text_of_day(parts: Sequence[float]) -> str:
    """The text of a day: year, month and day, as OGR has them."""
    return "{:04}-{:02}-{:02}".format(*map(int, parts[:3]))


def text_of_time(parts: Sequence[float]) -> str:
    """The text of a time: the parts behind those of the day, as OGR has them."""
    milliseconds = min(round(parts[5] * 1000), 60_999)
    seconds, rest = divmod(milliseconds, 1000)
    return f"{int(parts[3]):02}:{int(parts[4]):02}:{seconds:02}" + (f".{rest:03}" if rest else "") + _zone(int(parts[6]))


def text_of_moment(parts: Sequence[float]) -> str:
    """The text of a day with a time, as OGR has its parts.

    >>> text_of_moment([2020, 1, 31, 10, 0, 0.5, 104])
    '2020-01-31T10:00:00.500+01:00'
    """
    return f"{text_of_day(parts)}T{text_of_time(parts)}"


def _zone(zone: int) -> str:
    """The zone of OGR's number."""
    return _zone_text(None if zone <= 1 else (zone - _UTC) * _QUARTER)


def _zone_text(minutes: int | None) -> str:
    """The zone of a clock that is so many minutes before UTC."""
    if not minutes:
        return "" if minutes is None else "Z"
    return "{}{:02}:{:02}".format("-" if minutes < 0 else "+", *divmod(abs(minutes), 60))
