"""What becomes of a call, for pages and for programs at the socket alike: a status, and a JSON object."""

from __future__ import annotations

from collections.abc import Callable
from typing import Any

from sfstore.store import Refused
from sfstore.web.calls import BadCall, Outdated
from sfstore.web.editors import EditorsError
from sfstore.web.keeper import Unavailable
from sfstore.web.logins import LoginRefused

__all__ = ["outcome_of"]

# A status as HTTP has it, of what a call raises.
_STATUSES: list[tuple[tuple[type[Exception], ...], int]] = [
    ((BadCall, EditorsError, ValueError), 400),
    ((LoginRefused,), 403),
    ((Outdated,), 409),
    ((Unavailable, Refused), 503),
]


def outcome_of(call: Callable[[dict[str, Any]], dict[str, Any]], body: dict[str, Any]) -> tuple[int, dict[str, Any]]:
    """The status of a call, and its answer or what kept it from being carried out."""
    try:
        return 200, call(body)
    except Exception as error:
        for kinds, status in _STATUSES:
            if isinstance(error, kinds):
                return status, {"error": str(error)}
        raise
