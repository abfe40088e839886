"""What values of a source are in the store: decimals, truth values, days and moments."""

from __future__ import annotations

import datetime
import math
import re
from collections.abc import Callable, Mapping
from decimal import Decimal
from typing import Any, NamedTuple, Optional, cast

from sfstore import values
from sfstore.exchange.moments import day_of, moment_of
from sfstore.language import PLACES_MAX
from sfstore.results import Value
from sfstore.storefile import BOOL, DATE, DATETIME, DECIMAL

__all__ = ["MAKERS", "Made", "decimal_of", "whole_of"]


# A number of so many characters is one of the store.
_SHORT = 18
_IN_PARTS = "a moment with parts of a millisecond"
# More parts of a second than Python has.
_FINE = re.compile(r":[0-9]{2}\.[0-9]{7}", re.ASCII)


class Made(NamedTuple):
    """A value of the store."""

    value: Optional[Value]
    fault: str = ""
    """Why the store can't have it, or nothing."""
    change: str = ""
    """What was done to it, or nothing."""


def decimal_of(number: float | int | Decimal | str) -> Made:
    """The decimal that a number is: of a double the shortest one that gives it back.

    >>> decimal_of(812.5), decimal_of(1e-20).fault, decimal_of(-0.0).fault
    (Made(value=Decimal('812.5'), fault='', change=''), 'a number with more than 18 places', 'minus zero')
    """
    if isinstance(number, float):
        text = repr(number)
        if len(text) <= _SHORT and number and text.replace(".", "").lstrip("-").isdecimal():
            return Made(Decimal(int(number) if number.is_integer() else text))
    if isinstance(number, float) and not math.isfinite(number):
        return Made(None, "no number")
    found = _decimal(number)
    if not found.is_finite():
        return Made(None, "no number")
    if found.is_zero() and found.is_signed():
        return Made(None, "minus zero")
    try:
        values.mantissa_and_places(found)
    except ValueError:
        has_places = -int(found.as_tuple().exponent) > PLACES_MAX
        return Made(None, f"a number with more than {PLACES_MAX} places" if has_places else "a number of more than 64 bits")
    return Made(found)


def _decimal(number: float | int | Decimal | str) -> Decimal:
    if not isinstance(number, float):
        return Decimal(number)
    # From 2^53 on the shortest text of a whole number has other last digits than the number.
    return Decimal(int(number)) if number.is_integer() and number else Decimal(repr(number))


def moment_in(text: str) -> Made:
    """The moment that a text names, in UTC. One without a zone is taken by the clock of UTC.

    >>> moment_in("2020-01-31T10:00:00.5+01:00")
    Made(value=datetime.datetime(2020, 1, 31, 9, 0, 0, 500000, tzinfo=datetime.timezone.utc), fault='', change='of another zone: kept in UTC')
    """
    moment = moment_of(text)
    if moment is None and _FINE.search(text):
        return Made(None, _IN_PARTS)
    if moment is None:
        return Made(None, "no moment from the year 1 to 9999")
    if not moment.is_in_milliseconds:
        return Made(None, _IN_PARTS)
    try:
        at = moment.at.replace(tzinfo=datetime.timezone.utc) - datetime.timedelta(minutes=moment.offset or 0)
    except OverflowError:
        return Made(None, "no moment from the year 1 to 9999")
    if moment.offset is None:
        return Made(at, change="without a zone: taken as of UTC")
    return Made(at, change="of another zone: kept in UTC" if moment.offset else "")


def _day(text: str) -> Made:
    day = day_of(text)
    return Made(day) if day else Made(None, "no day from the year 1 to 9999")


def _truth(number: int) -> Made:
    return Made(bool(number)) if number in (0, 1) else Made(None, "a number that is no truth value")


def whole_of(number: float | int | str) -> Made:
    """The whole number of the store that a real one is."""
    made = decimal_of(number)
    if made.value is None:
        return made
    whole = int(cast(Decimal, made.value))
    return Made(whole) if whole == made.value else Made(None, "a number that is no whole one")


MAKERS: Mapping[int, Callable[[Any], Made]] = {DECIMAL: decimal_of, BOOL: _truth, DATE: _day, DATETIME: moment_in}
"""What makes values of the store's types of columns, beside whole numbers and texts."""
