"""What all pages hear as it happens."""

from __future__ import annotations

import json
import queue
import threading
from collections.abc import Generator, Iterator
from typing import Any

__all__ = ["Events"]

# A page that is so far behind is let go: it connects again, and asks for everything anew.
_BEHIND_MAX = 1_000
_GREETING = '{"hello": true}'


class Events:
    """The pages that listen, each with a queue of what it was not sent yet."""

    def __init__(self) -> None:
        self._lock = threading.Lock()
        self._queues: set[queue.Queue[str | None]] = set()

    def tell(self, event: dict[str, Any]) -> None:
        """Tells all pages."""
        text = json.dumps(event, ensure_ascii=False)
        with self._lock:
            for waiting in list(self._queues):
                if waiting.qsize() < _BEHIND_MAX:
                    waiting.put(text)
                else:
                    self._queues.remove(waiting)
                    waiting.put(None)

    def told(self, quiet_seconds: float) -> Generator[str | None, None, None]:
        """First a greeting, then each event from then on, as it happens. `None` where none came for that many seconds.

        Who hears the greeting asks for everything: nothing is missed. It ends where the page is let go, and has to be
        closed where the page has gone.
        """
        waiting: queue.Queue[str | None] = queue.Queue()
        with self._lock:
            self._queues.add(waiting)
        try:
            yield _GREETING
            yield from _taken(waiting, quiet_seconds)
        finally:
            with self._lock:
                self._queues.discard(waiting)

    @property
    def count(self) -> int:
        """How many listen."""
        return len(self._queues)


def _taken(waiting: queue.Queue[str | None], quiet_seconds: float) -> Iterator[str | None]:
    """What comes to a queue, up to the page being let go."""
    while True:
        try:
            text = waiting.get(timeout=quiet_seconds)
        except queue.Empty:
            yield None
        else:
            if text is None:
                return
            yield text
