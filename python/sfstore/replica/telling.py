"""Telling a person what keeps a replica waiting."""

from __future__ import annotations

from collections.abc import Callable

__all__ = ["Teller"]


class Teller:
    """Tells each reason once, until there is another one, or none any more (an empty text)."""

    last: str
    """The reason that holds now."""

    def __init__(self, tell: Callable[[str], object]) -> None:
        self._tell = tell
        self.last = ""

    def tell(self, text: str) -> None:
        if text != self.last:
            self.last = text
            self._tell(text)
