"""Rules as lines of a file: for the formats of maps that have no place for them, and to be written by hand."""

from __future__ import annotations

import os
from collections.abc import Callable, Iterator, Sequence
from typing import IO

from sfstore.exchange.formats import RULES_MAX
from sfstore.exchange.ogr import ExchangeError, printable
from sfstore.exchange.placing import Place, check_free, placed
from sfstore.exchange.reports import check_replaced
from sfstore.exchange.ruling import rule_said
from sfstore.language import LINE_MAX
from sfstore.rules import AnyRule, tidied

__all__ = ["check", "read", "write"]

_WORDS = "rule add "
_MARK = "\ufeff"


def read(path: str) -> list[AnyRule]:
    """The rules of a file in UTF-8, each as it stands behind `rule add`, with these words or without.

    `ExchangeError` where a line says no rule, or there are more than a map has; `OSError` where it can't be read.
    """
    rules: list[AnyRule] = []
    with open(path, "rb") as file:
        for number, line in enumerate(_lines(path, file), 1):
            if not line.strip(b" \t"):
                continue
            if len(rules) == RULES_MAX:
                raise ExchangeError(f"{printable(path)} has more than {RULES_MAX} rules")
            rules.append(_rule(path, number, line))
    return rules


def _lines(path: str, file: IO[bytes]) -> Iterator[bytes]:
    """The lines of a file. `ExchangeError` for one that is longer than any of the program."""
    number = 0
    while line := file.readline(LINE_MAX + 2):
        number += 1
        if len(line.rstrip(b"\r\n")) > LINE_MAX:
            raise ExchangeError(f"{printable(path)}, line {number}: it has more than {LINE_MAX:,} bytes, and is no rule")
        yield line.removesuffix(b"\n").removesuffix(b"\r")


def _rule(path: str, number: int, line: bytes) -> AnyRule:
    try:
        text = line.decode("utf-8").removeprefix(_MARK if number == 1 else "")
        return rule_said(tidied(text).removeprefix(_WORDS))
    except UnicodeDecodeError:
        raise ExchangeError(f"{printable(path)}, line {number}: it is not UTF-8") from None
    except ValueError as error:
        raise ExchangeError(f"{printable(path)}, line {number}: {printable(str(error))}") from None


def check(path: str, overwrite: bool) -> None:
    """`ExchangeError` where rules can't be written to a file."""
    check_free(_place(path, overwrite))
    if os.path.isfile(path):
        check_replaced(path, "rules")


def write(path: str, rules: Sequence[AnyRule], overwrite: bool, mode: int, say: Callable[[str], object]) -> None:
    """Writes rules to a file, whole or not at all. `ExchangeError` where one is there, or something that they may not replace."""
    # Anything may have come since they were checked: the map that goes with them, too.
    check(path, overwrite)
    place = _place(path, overwrite, mode)
    with placed(place, say) as new:
        with open(os.path.join(new, place.leading), "w", encoding="utf-8") as file:
            file.writelines(f"{_WORDS}{rule.line}\n" for rule in rules)


def _place(path: str, overwrite: bool, mode: int = 0o777) -> Place:
    folder, name = os.path.split(os.path.abspath(path))
    return Place(folder, [name], None, overwrite, mode)
