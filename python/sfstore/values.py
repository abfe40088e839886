"""Values of columns: as a line spells them, and as Python has them. `ValueError` for those that no column has.

A column of decimals has whole numbers too, which are spelled as those of a column of whole numbers are. So whoever reads
a value has to know its column.
"""

from __future__ import annotations

import operator
import re
from datetime import date, datetime, timezone
from decimal import Decimal

from sfstore.language import INT_MAX, INT_MIN, PLACES_MAX
from sfstore.results import ColumnType, Value

__all__ = ["in_utc", "mantissa_and_places", "of_mantissa", "of_text", "read", "spelled"]

_DIGITS_MAX = len(str(INT_MAX))
_SHOWN_MAX = 40

_CONTROL = re.compile(r"[\x00-\x1f\x7f]")
# What stands for a letter in a text with escapes.
_ESCAPES = {code: f"\\x{code:02x}" for code in (*range(32), 127)} | str.maketrans(
    {"\n": r"\n", "\t": r"\t", "\r": r"\r", "\\": r"\\", "'": "''"}
)
_ESCAPED = re.compile(r"\\x[0-9a-f]{2}|\\.|''")
_MEANT = {spelling: chr(code) for code, spelling in _ESCAPES.items()}


def spelled(value: Value) -> str:
    """A value as the console wants it, and as it shows it.

    >>> spelled("it's"), spelled(Decimal("812.50")), spelled(False), spelled(date(2024, 2, 29))
    ("'it''s'", '812.5', 'false', '2024-02-29')

    A text with a control character of ASCII has escapes:

    >>> print(spelled("it's\\n\\x1b"))
    E'it''s\\n\\x1b'
    """
    if isinstance(value, str):
        return _spelled_text(value)
    # A bool is an int to Python, and a datetime is a date.
    if isinstance(value, bool):
        return "true" if value else "false"
    if isinstance(value, Decimal):
        return _spelled_decimal(*mantissa_and_places(value))
    if isinstance(value, datetime):
        return in_utc(value).replace(tzinfo=None).isoformat(timespec="milliseconds") + "Z"
    if isinstance(value, date):
        return value.isoformat()
    return str(_integer(value))


def read(text: str, column_type: ColumnType) -> Value:
    """The value that a text spells in a column of a type. `ValueError` where it spells none.

    >>> read("12", "decimal"), read("12", "int"), read(r"E'a\\tb'", "text")
    (Decimal('12'), 12, 'a\\tb')
    """
    if column_type == "text":
        return _text(text)
    if column_type == "decimal":
        return Decimal(text)
    if column_type == "bool":
        return _BOOLS[text]
    if column_type == "date":
        return date.fromisoformat(text)
    if column_type == "datetime":
        return datetime.fromisoformat(text.removesuffix("Z")).replace(tzinfo=timezone.utc)
    return int(text)


def of_text(text: str) -> Value:
    """The value that a text spells, whatever column it is for: a whole number is an `int`. `ValueError` where it spells none.

    >>> of_text("12"), of_text("2024-02-29"), of_text("'true'"), of_text("0.5")
    (12, datetime.date(2024, 2, 29), 'true', Decimal('0.5'))
    """
    for column_type, form in _FORMS.items():
        if form.fullmatch(text):
            return read(text, column_type)
    raise ValueError(f"{text!r} is no value")


_BOOLS = {"false": False, "true": True}
# What a text looks like that spells a value of a type.
_FORMS: dict[ColumnType, re.Pattern[str]] = {
    "text": re.compile("E?'[^']*(?:''[^']*)*'"),
    "int": re.compile("[-+]?[0-9]+"),
    "decimal": re.compile(r"[-+]?[0-9]+\.[0-9]+"),
    "bool": re.compile("true|false"),
    "date": re.compile("[0-9]{4}-[0-9]{2}-[0-9]{2}"),
    "datetime": re.compile(r"[0-9]{4}-[0-9]{2}-[0-9]{2}T[0-9]{2}:[0-9]{2}:[0-9]{2}(?:\.[0-9]{3})?Z"),
}


def _spelled_text(text: str) -> str:
    if _CONTROL.search(text):
        return f"E'{text.translate(_ESCAPES)}'"
    return "'" + text.replace("'", "''") + "'"


def _text(spelling: str) -> str:
    """The text that stands in quotes, or with escapes."""
    if not spelling.startswith("E"):
        return spelling[1:-1].replace("''", "'")
    try:
        return _ESCAPED.sub(lambda found: _MEANT[found[0]], spelling[2:-1])
    except KeyError as unknown:
        raise ValueError(f"{unknown.args[0]} stands for no letter") from None


def _integer(value: int) -> int:
    """A whole number of any type that is one, such as those of numpy."""
    try:
        number = int(operator.index(value))
    except TypeError:
        raise TypeError(
            f"a value is an int, a str, a Decimal, a bool, a date or a datetime, not {type(value).__name__}"
        ) from None
    if not INT_MIN <= number <= INT_MAX:
        raise ValueError(f"{number} has more than 64 bits")
    return number


def mantissa_and_places(number: Decimal) -> tuple[int, int]:
    """A decimal as a whole number and how many of its digits stand behind the point: the least number of them.

    >>> mantissa_and_places(Decimal("-812.50"))
    (-8125, 1)
    """
    # Of most numbers the text says it, which has neither an exponent nor too many digits.
    whole, _, part = str(number).partition(".")
    part = part.rstrip("0")
    if len(whole) + len(part) < _DIGITS_MAX and (whole + part).lstrip("-").isdecimal():
        return int(whole + part), len(part)
    sign, digits, exponent = number.as_tuple()
    if not isinstance(exponent, int):
        raise ValueError(f"{number} is no number with digits")
    if not number:
        return 0, 0
    written = "".join(map(str, digits))
    kept = written.rstrip("0")
    exponent += len(written) - len(kept)
    if -exponent > PLACES_MAX:
        raise ValueError(f"{_shown(number)} has more than {PLACES_MAX} places behind the point")
    zeros = max(exponent, 0)
    # What has more digits is not written out: an exponent can ask for any number of them.
    mantissa = int(kept + "0" * zeros) if len(kept) + zeros <= _DIGITS_MAX else INT_MAX + 2
    signed = -mantissa if sign else mantissa
    if not INT_MIN <= signed <= INT_MAX:
        raise ValueError(f"{_shown(number)} has a mantissa of more than 64 bits")
    return signed, max(-exponent, 0)


def of_mantissa(mantissa: int, places: int) -> Decimal:
    """The decimal of a whole number, of which some digits stand behind the point.

    >>> of_mantissa(-8125, 1)
    Decimal('-812.5')
    """
    return Decimal(_spelled_decimal(mantissa, places))


def _spelled_decimal(mantissa: int, places: int) -> str:
    sign = "-" if mantissa < 0 else ""
    digits = str(abs(mantissa)).rjust(places + 1, "0")
    return f"{sign}{digits[:-places]}.{digits[-places:]}" if places else sign + digits


def in_utc(time: datetime) -> datetime:
    """A time in UTC. `ValueError` for one without a zone, and for one that falls between two milliseconds.

    >>> from datetime import timedelta
    >>> in_utc(datetime(2026, 11, 29, 20, 28, 11, tzinfo=timezone(timedelta(hours=1))))
    datetime.datetime(2026, 11, 29, 19, 28, 11, tzinfo=datetime.timezone.utc)
    """
    if time.utcoffset() is None:
        raise ValueError(f"{time} has no zone: give it one, such as datetime.timezone.utc")
    try:
        found = time.astimezone(timezone.utc)
    except OverflowError:
        raise ValueError(f"{time} is outside of the years 1 to 9999 in UTC") from None
    # Those of pandas have nanoseconds too.
    if found.microsecond % 1_000 or getattr(time, "nanosecond", 0):
        raise ValueError(f"{time} falls between two milliseconds: round it first")
    return found


def _shown(number: Decimal) -> str:
    text = str(number)
    return text if len(text) <= _SHOWN_MAX else text[:_SHOWN_MAX] + ".."
