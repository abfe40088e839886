"""How a command ends: its status, with what it says of it."""

from __future__ import annotations

import os
import sys
import traceback
from collections.abc import Callable

from sfstore.commandline import reason_of
from sfstore.exchange.ogr import ExchangeError
from sfstore.journal import JournalError
from sfstore.sidecar import SidecarError
from sfstore.store import ProgramEnded

__all__ = ["EPILOG", "ended"]

_NOTHING, _UNEXPECTED = 3, 4

EPILOG = "3: nothing was written; 4: something unexpected."


def ended(name: str, work: Callable[[], int], target: str = "") -> int:
    """The status of a command whose work is done here. Whatever it raises is said in a sentence.

    Whether a file or folder ``target`` was written before an interrupt is seen by what stands there.
    """
    before = _stamp(target)
    for stream in (sys.stdout, sys.stderr):
        # A name that the terminal has no letters for is no reason to end.
        if reconfigure := getattr(stream, "reconfigure", None):
            reconfigure(errors="backslashreplace")
    try:
        return work()
    except (ExchangeError, JournalError, ProgramEnded, SidecarError, OSError) as error:
        print(f"{name}: {reason_of(error)}", file=sys.stderr)
        return _NOTHING
    except KeyboardInterrupt:
        what = "nothing was written" if _stamp(target) == before else f"{target} is written"
        print(f"{name}: interrupted; {what}", file=sys.stderr)
        return _NOTHING
    except Exception as error:
        place = traceback.extract_tb(error.__traceback__)[-1]
        print(
            f"{name}: something unexpected ended it, {type(error).__name__}: {error} "
            f"(line {place.lineno} of {place.filename})",
            file=sys.stderr,
        )
        return _UNEXPECTED


def _stamp(path: str) -> tuple[int, int, int] | None:
    """What tells a file or folder from one that takes its place; none where nothing is there."""
    try:
        found = os.stat(path)
    except OSError:
        return None
    return found.st_dev, found.st_ino, found.st_mtime_ns
