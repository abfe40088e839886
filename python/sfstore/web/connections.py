"""The connections that are open, and who gives way where there are too many.

Whoever can reach the port may open connections. Those that have not shown a key have few places,
and the one that has been there longest gives way to a new one: so silent or slow ones keep nobody
out. Those that have shown one have places of their own, so many for each editor.
"""

from __future__ import annotations

import contextlib
import socket
import threading

__all__ = ["Connections"]

_STRANGERS_MAX = 64
_KNOWN_MAX = 192
_OF_ONE_EDITOR_MAX = 48
# From so many on a connection is closed when its request is answered.
_MANY_STRANGERS = 32
_MANY_KNOWN = 128


class Connections:
    """The open connections. Its methods may be called by all threads."""

    def __init__(self) -> None:
        self._lock = threading.Lock()
        # Those without a key, the oldest first.
        self._strangers: dict[socket.socket, None] = {}
        self._editors: dict[socket.socket, int] = {}

    def enter(self, connection: socket.socket) -> None:
        """Gives a place to a connection, of which nothing is known yet."""
        with self._lock:
            while len(self._strangers) >= _STRANGERS_MAX:
                oldest = next(iter(self._strangers))
                del self._strangers[oldest]
                with contextlib.suppress(OSError):
                    # Its thread sees that, and closes it.
                    oldest.shutdown(socket.SHUT_RDWR)
            self._strangers[connection] = None

    def know(self, connection: socket.socket, editor: int) -> bool:
        """Takes a connection for one of an editor from now on. Tells whether there is room for it.

        A browser that two editors use sends requests of both on one connection.
        """
        with self._lock:
            if self._editors.get(connection) == editor:
                return True
            others = [known for other, known in self._editors.items() if other is not connection]
            if others.count(editor) >= _OF_ONE_EDITOR_MAX or len(others) >= _KNOWN_MAX:
                return False
            self._strangers.pop(connection, None)
            self._editors[connection] = editor
            return True

    def is_known(self, connection: socket.socket) -> bool:
        """Whether a connection has shown a key."""
        return connection in self._editors

    def are_many(self) -> bool:
        """Whether connections should be closed when they are answered."""
        return len(self._strangers) > _MANY_STRANGERS or len(self._editors) > _MANY_KNOWN

    def leave(self, connection: socket.socket) -> None:
        """Takes the place of a connection back."""
        with self._lock:
            self._strangers.pop(connection, None)
            self._editors.pop(connection, None)
