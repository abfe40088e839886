"""Names and numbers as words of a line. `ValueError` for those that have no place in one."""

from __future__ import annotations

import operator
from collections.abc import Sequence
from decimal import Decimal
from typing import Any, get_args

from sfstore.groups import lines_of, size_of
from sfstore.language import DISTANCE_LIMIT, DISTANCE_PLACES, EDITOR_MAX, IDENTIFIER_MAX, IDENTIFIERS_MAX, NAME, PATTERN, PREDICATES, distance_asked

__all__ = [
    "all_encoded",
    "count",
    "distance",
    "editor",
    "encoded",
    "geometry",
    "identifier",
    "identifiers",
    "integer",
    "name",
    "one_of",
    "pair_ask",
    "pattern",
    "vertex",
]

# How many lines are looked at together, and what no plain line has: of a group, of a blank line, or two kinds of ends.
_TOGETHER = 4_096
_ODD = ("together", "\r", " \n", "\t\n", "\n\n")


def encoded(line: str, address: str = "") -> bytes:
    """A line as it is sent, with its line feed, behind a word that names an editor.

    A group on one line is sent as lines, so that it may be longer than one. `ValueError` for what would not get one
    answer.
    """
    if "\n" in line:
        raise ValueError("a line feed stands in the line")
    # The program drops a carriage return right before the line feed.
    if not line.removesuffix("\r").strip(" \t"):
        raise ValueError("the line is blank")
    sent = address + line
    if "together" in sent:
        sent = _with_members(sent)
    return sent.encode("utf-8") + b"\n"


def all_encoded(lines: Sequence[str], address: str = "") -> list[bytes]:
    """Lines as they are sent, each as `encoded` makes it."""
    found: list[bytes] = []
    for begin in range(0, len(lines), _TOGETHER):
        found += _part_encoded(lines[begin : begin + _TOGETHER], address)
    return found


def _part_encoded(lines: Sequence[str], address: str) -> list[bytes]:
    """As `all_encoded`: most lines are plain, and are looked at together."""
    text = address + f"\n{address}".join(lines) + "\n"
    if text.count("\n") != len(lines) or any(odd in text for odd in _ODD) or text.startswith("\n"):
        return [encoded(line, address) for line in lines]
    return text.encode("utf-8").splitlines(keepends=True)


def _with_members(sent: str) -> str:
    """A group on one line as its lines; any other line as it is. `ValueError` for the first line of a group alone."""
    if size_of(sent) is not None:
        raise ValueError("the line begins a group, which has one answer: send it with all of its members")
    members = lines_of(sent)
    # A blank line is no member, and a blank part of a line is one that is refused.
    return "\n".join(members) if all(member.strip(" \t") for member in members) else sent


def name(text: str) -> str:
    """The name of a layer or a column."""
    if not NAME.fullmatch(text):
        raise ValueError(
            f"{text!r} is no name: 1 to 32 ASCII letters, digits or underscores, a letter first"
        )
    return text


def pattern(text: str) -> str:
    """A pattern of matrices."""
    if not PATTERN.fullmatch(text):
        raise ValueError(f"{text!r} is no pattern: nine letters of TF*012")
    return text


def ask(text: str) -> str:
    """What chains ask: a predicate, or a pattern."""
    return text if text in PREDICATES else pattern(text)


def pair_ask(text: str) -> str:
    """What joins and rules ask of two features: a predicate, a pattern, or ``near`` with a distance in grid steps.

    >>> pair_ask("touches"), pair_ask("near 2.5")
    ('touches', 'near 2.5')
    """
    steps = distance_asked(text)
    return ask(text) if steps is None else f"near {distance(steps)}"


def one_of(words: Any, word: str) -> str:
    """A word, if it is one of those of a `Literal`."""
    if word not in get_args(words):
        raise ValueError(f"{word!r} is not one of these: {', '.join(get_args(words))}")
    return word


def geometry(wkt: str) -> str:
    """A well-known text, of which the program says whether it is one."""
    if not isinstance(wkt, str):
        raise TypeError(f"a well-known text is wanted, not {type(wkt).__name__}")
    return wkt


def integer(number: int) -> int:
    """A whole number of any type that is one, such as those of numpy."""
    return int(operator.index(number))


def identifier(number: int) -> int:
    """An identifier, a place, a part, a ring or an index."""
    wanted = integer(number)
    if not 0 <= wanted <= IDENTIFIER_MAX:
        raise ValueError(f"{wanted} is not from 0 to {IDENTIFIER_MAX}")
    return wanted


def identifiers(numbers: Sequence[int]) -> str:
    """The identifiers that a line may ask for at once."""
    if not 1 <= len(numbers) <= IDENTIFIERS_MAX:
        raise ValueError(f"{len(numbers)} identifiers, where 1 to {IDENTIFIERS_MAX} may stand")
    return " ".join(str(identifier(number)) for number in numbers)


def editor(number: int) -> int:
    """The number of an editor, where it is one."""
    number = operator.index(number)
    if not 1 <= number <= EDITOR_MAX:
        raise ValueError(f"no number of an editor: {number}")
    return number


def distance(steps: int | Decimal) -> str:
    """A distance in grid steps that a query may ask for. `TypeError` for a `float`, which may be none that was meant."""
    if not isinstance(steps, Decimal):
        steps = Decimal(integer(steps))
    if not (steps.is_finite() and 0 <= steps < DISTANCE_LIMIT and steps == round(steps, DISTANCE_PLACES)):
        raise ValueError(f"{steps} is no distance: from 0 to below {DISTANCE_LIMIT} grid steps, with {DISTANCE_PLACES} places behind the point at most")
    return format(abs(steps), "f")


def count(number: int) -> str:
    """How many features are asked for: from 1 to 1,000."""
    if not 1 <= integer(number) <= IDENTIFIERS_MAX:
        raise ValueError(f"{number} is not from 1 to {IDENTIFIERS_MAX:,}")
    return str(integer(number))


def vertex(layer: str, which: str, part: int, ring: int, index: int) -> str:
    """A vertex, by the numbers that name it, and by the word for its feature."""
    numbers = map(identifier, (part, ring, index))
    return " ".join([name(layer), which, *map(str, numbers)])
