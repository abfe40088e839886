"""The server of the page: who may ask, and what for.

It listens on the loopback interface alone. Each request has to name it as its host, and to come
from its own page where it says where from. The files of the page are given to whoever asks, as they
hold nothing of the store. Each call, and what pages hear as it happens, wants the key of a login in a
header, which a browser sends for no other page. Paths name only what stands in two fixed tables.
"""

from __future__ import annotations

import contextlib
import json
import socket
import sys
from collections.abc import Callable
from email.utils import formatdate
from functools import partial
from http import HTTPStatus
from importlib.resources import files
from socketserver import BaseRequestHandler, ThreadingTCPServer
from typing import Any
from urllib.parse import urlencode

import h11

from sfstore.web.background import Background
from sfstore.web.calls import Calls
from sfstore.web.connections import Connections
from sfstore.web.incoming import Incoming
from sfstore.web.outcomes import outcome_of

__all__ = ["Server"]

# The longest line has 4,194,304 bytes, which JSON may write as two of its own for each.
_BODY_BYTES_MAX = 1 << 23
_HEAD_BYTES_MAX = 1 << 16
# How long a request may take from its first byte to the end of its head, and then its body.
_HEAD_SECONDS = 10.0
_BODY_SECONDS = 10.0
# How long a connection may be silent between two requests.
_IDLE_SECONDS = 60.0
# How long an answer may take to be taken.
_TAKEN_SECONDS = 60.0
# How long a page that listens hears nothing, so that one that is gone is noticed.
_QUIET_SECONDS = 10.0

_TYPES = {"html": "text/html", "css": "text/css", "js": "text/javascript", "svg": "image/svg+xml"}

_GUARDS = {
    "Cache-Control": "no-store",
    "Content-Security-Policy": (
        "default-src 'none'; script-src 'self'; style-src 'self'; img-src 'self'; "
        "connect-src 'self'; base-uri 'none'; form-action 'none'; frame-ancestors 'none'"
    ),
    "Cross-Origin-Opener-Policy": "same-origin",
    "Cross-Origin-Resource-Policy": "same-origin",
    "Referrer-Policy": "no-referrer",
    "X-Content-Type-Options": "nosniff",
    "X-Frame-Options": "DENY",
}


def _guards(background: Background | None) -> dict[str, str]:
    """The headers of each answer. Pictures come from this server alone, and from that of the background where there is one."""
    if background is None:
        return _GUARDS
    policy = _GUARDS["Content-Security-Policy"].replace("img-src 'self'", f"img-src 'self' {background.origin}")
    return {**_GUARDS, "Content-Security-Policy": policy}


_NO_HEADERS: list[tuple[bytes, bytes]] = []
_TOO_LARGE = f"a call has {_BODY_BYTES_MAX} bytes at most"
_NO_KEY = "open a link of sfstore-web; who runs it can type `link` for one"


def _static_files() -> dict[str, tuple[str, bytes]]:
    """The files of the page by their paths, each with its type."""
    found = {}
    for file in (files("sfstore.web") / "static").iterdir():
        kind = _TYPES[file.name.rpartition(".")[2]]
        found["/" + file.name] = f"{kind}; charset=utf-8", file.read_bytes()
    found["/"] = found.pop("/page.html")
    return found


class Server(ThreadingTCPServer):
    """A server of one store, for the pages of those who have logged in."""

    daemon_threads = True
    allow_reuse_address = True
    request_queue_size = 128

    def __init__(self, calls: Calls, port: int, background: Background | None = None) -> None:
        self.calls = calls
        self.files = _static_files()
        self.guards = _guards(background)
        self.connections = Connections()
        super().__init__(("127.0.0.1", port), _Handler)
        self.server_port: int = self.server_address[1]
        self.hosts = [f"{name}:{self.server_port}" for name in ("127.0.0.1", "localhost")]

    def address(self, link: str, name: str = "") -> str:
        """The address that lets somebody in by a link, which may be for a name.

        What stands behind the # is for the page alone: a browser sends it to no server.
        """
        return f"http://{self.hosts[0]}/#" + urlencode({"link": link, **({"name": name} if name else {})})

    def process_request(self, request: Any, client_address: Any) -> None:
        """Begins a thread for a connection."""
        self.connections.enter(request)
        super().process_request(request, client_address)

    def process_request_thread(self, request: Any, client_address: Any) -> None:
        try:
            super().process_request_thread(request, client_address)
        finally:
            self.connections.leave(request)

    def handle_error(self, request: Any, client_address: Any) -> None:
        """Tells a fault of the server. A connection that breaks off is none."""
        if not isinstance(sys.exc_info()[1], OSError):
            super().handle_error(request, client_address)


class _Refusal(Exception):
    """A request is not answered, with a status and a sentence."""

    def __init__(self, status: int, words: str) -> None:
        super().__init__(words)
        self.status = status


class _Handler(BaseRequestHandler):
    """A connection, with the requests that come on it one behind the other. h11 reads and writes the heads."""

    server: Server
    request: socket.socket

    def setup(self) -> None:
        # An answer is not held back until the one before it is acknowledged.
        self.request.setsockopt(socket.IPPROTO_TCP, socket.TCP_NODELAY, True)
        self._incoming = Incoming(self.request)
        self._protocol = h11.Connection(h11.SERVER, _HEAD_BYTES_MAX)

    def handle(self) -> None:
        while self._waited() and self._answered():
            self._protocol.start_next_cycle()

    def _waited(self) -> bool:
        """Waits for a request. Whether one has begun to come."""
        if self._protocol.trailing_data[0]:
            return True
        is_known = self.server.connections.is_known(self.request)
        self._incoming.allow(_IDLE_SECONDS if is_known else _HEAD_SECONDS)
        try:
            data = self._incoming.some()
        except socket.timeout:
            return False
        self._protocol.receive_data(data)
        return bool(data)

    def _answered(self) -> bool:
        """Answers a request. Whether another one may come behind it."""
        self._is_last = self._is_head = False
        self._incoming.allow(_HEAD_SECONDS)
        try:
            event = self._next()
            if isinstance(event, h11.Request):
                head = _Head(event)
                self._is_head = head.method == "HEAD"
                self._answer(head)
        except (_Refusal, h11.RemoteProtocolError) as error:
            # What is left of the request is not read.
            self._is_last = True
            if self._protocol.our_state in (h11.IDLE, h11.SEND_RESPONSE):
                self._reply_json(*_told(error))
        return {self._protocol.our_state, self._protocol.their_state} == {h11.DONE}

    def _next(self) -> Any:
        """What h11 makes of what comes next. `h11.RemoteProtocolError` where it is no part of a request."""
        while (event := self._event()) is h11.NEED_DATA:
            if self._protocol.they_are_waiting_for_100_continue:
                self._write(self._sent(h11.InformationalResponse(status_code=100, headers=_NO_HEADERS)))
            self._protocol.receive_data(self._incoming.some())
        return event

    def _event(self) -> Any:
        try:
            return self._protocol.next_event()
        except ValueError:
            # A length has more digits than Python takes for a number.
            raise _Refusal(413, _TOO_LARGE) from None

    def _answer(self, head: _Head) -> None:
        """Answers a request that may be answered."""
        if head.version not in ("1.0", "1.1"):
            raise _Refusal(505, "the request is of a version of HTTP that is not known")
        if head.method not in ("GET", "POST"):
            raise _Refusal(501, "a request is a GET or a POST")
        self._check_host(head)
        if head.method == "POST":
            self._post(head)
        elif isinstance(self._next(), h11.EndOfMessage):
            self._get(head)
        else:
            raise _Refusal(400, "a GET has no body")

    def _get(self, head: _Head) -> None:
        if head.path == "/events":
            self._editor(head)
            self._send_events()
        elif head.path in self.server.files:
            kind, data = self.server.files[head.path]
            self._reply(200, kind, data)
        else:
            raise _Refusal(404, "there is nothing of that name")

    def _post(self, head: _Head) -> None:
        if not head.all("Origin"):
            raise _Refusal(403, "the request does not say which page it is from")
        call = self._call(head)
        self._reply_json(*outcome_of(call, self._body(head)))

    def _call(self, head: _Head) -> Callable[[dict[str, Any]], dict[str, Any]]:
        """The call that is asked for. All but a login want a key."""
        calls = self.server.calls
        if head.path == "/login":
            return calls.log_in
        editor = self._editor(head)
        call = calls.by_path.get(head.path)
        if call is None:
            raise _Refusal(404, "there is nothing of that name")
        return partial(call, editor)

    def _check_host(self, head: _Head) -> None:
        """Refuses what was sent to another name, as by rebinding, or by another page."""
        hosts, origins = head.all("Host"), head.all("Origin")
        if len(hosts) != 1 or hosts[0] not in self.server.hosts:
            raise _Refusal(403, "the request is for another host")
        if len(origins) > 1 or (origins and origins[0] != f"http://{hosts[0]}"):
            raise _Refusal(403, "the request is from another page")

    def _editor(self, head: _Head) -> int:
        """The number of the editor whose key the request brings."""
        kind, _, key = ", ".join(head.all("Authorization")).partition(" ")
        editor = self.server.calls.logins.editor_of(key) if kind == "Bearer" else None
        if editor is None:
            raise _Refusal(403, _NO_KEY)
        if not self.server.connections.know(self.request, editor):
            raise _Refusal(503, "there are too many connections: close some pages")
        return editor

    def _body(self, head: _Head) -> dict[str, Any]:
        """The JSON object that a request brings."""
        if head.all("Content-Type") != ["application/json"]:
            raise _Refusal(415, "a call is an application/json")
        lengths = head.all("Content-Length")
        if head.all("Transfer-Encoding") or not lengths:
            raise _Refusal(411, "a call has a length")
        # To h11 it is one number.
        if len(lengths[0]) > 9 or int(lengths[0]) > _BODY_BYTES_MAX:
            raise _Refusal(413, _TOO_LARGE)
        self._incoming.allow(_BODY_SECONDS)
        data = bytearray()
        while isinstance(part := self._next(), h11.Data):
            data += part.data
        try:
            body = json.loads(data)
        except (ValueError, RecursionError):
            raise _Refusal(400, "the call is no JSON") from None
        if not isinstance(body, dict):
            raise _Refusal(400, "the call is no object")
        return body

    def _send_events(self) -> None:
        """Sends what happens, as it happens, until the page is gone."""
        self._is_last = True
        try:
            self._write(self._sent(self._head(200, "text/event-stream", {})))
            with contextlib.closing(self.server.calls.events.told(_QUIET_SECONDS)) as events:
                for text in events:
                    # A comment shows whether the page is still there.
                    data = b": still here\n\n" if text is None else f"data: {text}\n\n".encode()
                    self._write(self._sent(h11.Data(data)))
        except OSError:
            pass

    def _reply_json(self, status: int, body: dict[str, Any]) -> None:
        text = json.dumps(body, ensure_ascii=False, separators=(",", ":"))
        self._reply(status, "application/json", text.encode("utf-8", "replace"))

    def _reply(self, status: int, kind: str, data: bytes) -> None:
        if self.server.connections.are_many():
            self._is_last = True
        head = self._sent(self._head(status, kind, {"Content-Length": str(len(data))}))
        body = b"" if self._is_head else self._sent(h11.Data(data))
        self._write(head + body + self._sent(h11.EndOfMessage()))

    def _head(self, status: int, kind: str, headers: dict[str, str]) -> h11.Response:
        """The head of an answer."""
        told = {
            "Server": "sfstore-web",
            "Date": formatdate(usegmt=True),
            **self.server.guards,
            "Content-Type": kind,
            **headers,
            **({"Connection": "close"} if self._is_last else {}),
        }
        return h11.Response(status_code=status, headers=list(told.items()), reason=HTTPStatus(status).phrase)

    def _sent(self, event: h11.Event) -> bytes:
        """The bytes of a part of an answer."""
        return self._protocol.send(event) or b""

    def _write(self, data: bytes) -> None:
        self.request.settimeout(_TAKEN_SECONDS)
        self.request.sendall(data)


class _Head:
    """The head of a request."""

    def __init__(self, head: h11.Request) -> None:
        self.method = head.method.decode("ascii")
        self.path = head.target.decode("ascii")
        self.version = head.http_version.decode("ascii")
        self._headers = [(name.decode("ascii"), value.decode("latin-1")) for name, value in head.headers]

    def all(self, name: str) -> list[str]:
        """The values of all headers of a name, small and capital letters alike."""
        return [value for known, value in self._headers if known == name.lower()]


def _told(error: _Refusal | h11.RemoteProtocolError) -> tuple[int, dict[str, Any]]:
    """A status, and why a request is not answered."""
    if isinstance(error, _Refusal):
        return error.status, {"error": str(error)}
    return error.error_status_hint, {"error": f"the request can't be read: {error}"}
