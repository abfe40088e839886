"""The socket beside a store's file: the page's calls, for programs of this user.

A call is a line of JSON, and so is its answer. Only this user, and root, can open the socket: so it
asks for no key, and whoever comes says as whom. A connection is answered by a thread of its own, and
what it sends or leaves lying holds up no other one.
"""

from __future__ import annotations

import contextlib
import json
import os
import socketserver
import stat
import sys
import threading
from collections.abc import Callable, Iterator
from functools import partial
from typing import Any

from sfstore.web.calls import Calls
from sfstore.web.editors import as_name
from sfstore.web.incoming import LineTooLong, Lines
from sfstore.web.outcomes import outcome_of

__all__ = ["CALL_BYTES_MAX", "Door", "SocketTaken", "address_of", "socket_of"]

CALL_BYTES_MAX = 1 << 25
"""How many bytes a call has at most: some thousand features."""

# How long a call may take from its first byte to its end, and an answer to be taken.
_CALL_SECONDS = 10.0
_TAKEN_SECONDS = 60.0
# How long who listens hears nothing, so that each side notices that the other is gone.
_QUIET_SECONDS = 10.0
_CONNECTIONS_MAX = 64
# A path of a socket has room for so many bytes in Linux.
_ADDRESS_BYTES_MAX = 107


class SocketTaken(Exception):
    """Something else stands where the socket has to stand."""


def socket_of(store: str) -> str:
    """The path of the socket of a store's file."""
    return os.path.realpath(store) + ".socket"


@contextlib.contextmanager
def address_of(path: str) -> Iterator[str]:
    """The address of a socket's path, for the body: a path that is too long for one is named by its open folder."""
    if len(os.fsencode(path)) <= _ADDRESS_BYTES_MAX:
        yield path
        return
    folder = os.open(os.path.dirname(path), os.O_PATH | os.O_DIRECTORY | os.O_CLOEXEC)
    try:
        yield f"/proc/self/fd/{folder}/{os.path.basename(path)}"
    finally:
        os.close(folder)


class Door(socketserver.ThreadingMixIn, socketserver.UnixStreamServer):
    """Answers all who come to the socket of a store, which this process has open, and no other one.

    A socket that an ended server has left gives way. `SocketTaken` where something else stands there,
    `OSError` where none can be made.
    """

    daemon_threads = True
    request_queue_size = 128

    def __init__(self, calls: Calls, store: str, link: Callable[[str], str] = lambda name: "") -> None:
        """``link`` makes an address of the page that lets somebody of a name in."""
        self.calls = calls
        self.link = link
        self.path = socket_of(store)
        self._lock = threading.Lock()
        self._count = 0
        super().__init__(self.path, _Handler, bind_and_activate=False)
        try:
            self.server_bind()
            self.server_activate()
        except BaseException:
            self.socket.close()
            raise
        self._own = os.lstat(self.path)

    @property
    def count(self) -> int:
        """How many are connected."""
        return self._count

    def server_bind(self) -> None:
        _take_away(self.path)
        before = os.umask(0o177)
        try:
            with address_of(self.path) as address:
                self.socket.bind(address)
        finally:
            os.umask(before)

    def server_close(self) -> None:
        """Takes the socket away, where it is this server's still."""
        super().server_close()
        with contextlib.suppress(FileNotFoundError):
            if os.path.samestat(os.lstat(self.path), self._own):
                os.unlink(self.path)

    def verify_request(self, request: Any, client_address: Any) -> bool:
        """Whether there is a place for one more."""
        return self._count < _CONNECTIONS_MAX

    def process_request(self, request: Any, client_address: Any) -> None:
        """Begins a thread for a connection."""
        self._come(1)
        try:
            super().process_request(request, client_address)
        except BaseException:
            self._come(-1)
            raise

    def process_request_thread(self, request: Any, client_address: Any) -> None:
        try:
            super().process_request_thread(request, client_address)
        finally:
            self._come(-1)

    def _come(self, more: int) -> None:
        with self._lock:
            self._count += more

    def handle_error(self, request: Any, client_address: Any) -> None:
        """Tells a fault of the server. A connection that breaks off, or is given up, is none."""
        if not isinstance(sys.exc_info()[1], OSError):
            super().handle_error(request, client_address)


def _take_away(path: str) -> None:
    """Takes away what an ended server has left: whoever calls it has the lock of the store."""
    with contextlib.suppress(FileNotFoundError):
        if not stat.S_ISSOCK(os.lstat(path).st_mode):
            raise SocketTaken(f"{path} is no socket: programs can't connect until it is taken away")
        os.unlink(path)


class _Handler(socketserver.BaseRequestHandler):
    server: Door

    def handle(self) -> None:
        """Answers the calls of a connection, until it listens, ends, or breaks a limit."""
        self._editor = 0
        lines = Lines(self.request, _CALL_SECONDS, CALL_BYTES_MAX)
        try:
            while (line := lines.next()) is not None:
                call = _call_of(line)
                if call is None:
                    self._send({"status": 400, "error": "a call is a JSON object with the name of a call"})
                    return
                if call["call"] == "events":
                    self._send_events()
                    return
                self._answer(call)
        except LineTooLong as error:
            self._send({"status": 413, "error": str(error)})

    def _answer(self, call: dict[str, Any]) -> None:
        name = call.pop("call")
        if name == "hello":
            status, answer = outcome_of(self._hello, call)
        elif name == "link" and self._editor:
            status, answer = outcome_of(self._link, call)
        elif not self._editor:
            status, answer = 403, {"error": "say who you are by the call hello first"}
        elif (known := self.server.calls.by_path.get("/" + name)) is None:
            status, answer = 404, {"error": "there is no call of that name"}
        else:
            status, answer = outcome_of(partial(known, self._editor), call)
        self._send({"status": status, **answer} if status != 200 else {"status": status, "answer": answer})

    def _link(self, body: dict[str, Any]) -> dict[str, Any]:
        """An address of the page for somebody: whoever may come here may let anybody in."""
        return {"address": self.server.link(_name(body))}

    def _hello(self, body: dict[str, Any]) -> dict[str, Any]:
        """Who it is: a name as pages have it. It is this user's to say."""
        name = _name(body)
        self._editor = self.server.calls.logins.number_of(name)
        return {"editor": self._editor, "name": name}

    def _send_events(self) -> None:
        """Sends what happens, as it happens, until the program is gone. Blank lines show that it still is."""
        with contextlib.closing(self.server.calls.events.told(_QUIET_SECONDS)) as events:
            for text in events:
                self._write(f"{text or ''}\n".encode())

    def _send(self, answer: dict[str, Any]) -> None:
        text = json.dumps(answer, ensure_ascii=False, separators=(",", ":"))
        self._write(text.encode("utf-8", "replace") + b"\n")

    def _write(self, data: bytes) -> None:
        self.request.settimeout(_TAKEN_SECONDS)
        self.request.sendall(data)


def _name(body: dict[str, Any]) -> str:
    """The name that a call brings."""
    wanted = body.get("name")
    if not isinstance(wanted, str):
        raise ValueError("name has to be a text")
    return as_name(wanted)


def _call_of(line: bytes) -> dict[str, Any] | None:
    """The call that a line is, or none."""
    try:
        call = json.loads(line)
    except (ValueError, RecursionError):
        return None
    return call if isinstance(call, dict) and isinstance(call.get("call"), str) else None
