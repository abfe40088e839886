"""What a connection sends, with a limit of time however slowly it comes."""

from __future__ import annotations

import socket
import time

__all__ = ["Incoming", "LineTooLong", "Lines"]

_READ_BYTES = 1 << 16


class Incoming:
    """What a connection sends, until a moment: however slowly it comes, it takes no longer."""

    def __init__(self, connection: socket.socket) -> None:
        self._connection = connection
        self._until = 0.0

    def allow(self, seconds: float) -> None:
        """Gives what is read from now on so much time."""
        self._until = time.monotonic() + seconds

    def some(self) -> bytes:
        """What comes next, as soon as there is some; nothing where no more comes. `socket.timeout` where that takes too long."""
        left = self._until - time.monotonic()
        if left <= 0:
            raise socket.timeout("the request takes too long")
        self._connection.settimeout(left)
        return self._connection.recv(_READ_BYTES)


class LineTooLong(Exception):
    """A line has more bytes than a line may have."""


class Lines:
    """The lines that a connection sends. It may be silent between them as long as it likes.

    A line has some seconds from its first byte on, and so many bytes at most.
    """

    def __init__(self, connection: socket.socket, seconds: float, most: int) -> None:
        self._connection = connection
        self._seconds = seconds
        self._most = most
        self._rest = bytearray()

    def next(self) -> bytes | None:
        """The next line, without its line feed; none where no more come.

        `socket.timeout` and `LineTooLong` where one breaks a limit.
        """
        looked = 0
        until = None
        while (feed := self._rest.find(b"\n", looked)) < 0:
            looked = len(self._rest)
            if looked > self._most:
                raise LineTooLong(f"a call has {self._most} bytes at most")
            if looked and until is None:
                until = time.monotonic() + self._seconds
            if not self._read(until):
                return None
        line = bytes(self._rest[:feed])
        del self._rest[: feed + 1]
        return line

    def _read(self, until: float | None) -> bool:
        """Reads what there is, and waits for some. Whether there was some."""
        left = None if until is None else until - time.monotonic()
        if left is not None and left <= 0:
            raise socket.timeout("the call takes too long")
        self._connection.settimeout(left)
        data = self._connection.recv(_READ_BYTES)
        self._rest += data
        return bool(data)
