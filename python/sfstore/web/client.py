"""A program's connection to the server of a store, by the socket beside the file.

    with Client("town.sfs", "Ann") as client:
        client.call("batch", page="script", lines=["add wells POINT (3 4)"], seen=[None])

Each call has a limit of time. docs/use/PAGE.md of the project has the calls.
"""

from __future__ import annotations

import contextlib
import json
import os
import socket
import struct
import subprocess  # nosec B404: the server is started, without a shell.
import sys
import tempfile
import time
from collections.abc import Iterable, Iterator
from pathlib import Path
from types import TracebackType
from typing import IO, Any, NamedTuple

import sfstore
from sfstore.web.socketed import address_of, socket_of

__all__ = ["AnothersServer", "CallFailed", "Client", "Events", "ServerGone", "start_server"]

_SECONDS = 10.0
_STARTING_SECONDS = 60.0
_READ_BYTES = 1 << 20
# What Linux knows of the process at the other end of a socket: its number, its user and its group.
_PEER = struct.Struct("3i")


class ServerGone(Exception):
    """No server answers: there is none, it has ended, or it takes too long. The text says which."""


class AnothersServer(ServerGone):
    """Another user answers in the server's place. Nothing was said to them."""


class CallFailed(Exception):
    """A call was not carried out. The text says why."""

    def __init__(self, status: int, words: str) -> None:
        super().__init__(words)
        self.status = status
        """As HTTP has it: 409 where somebody else was there before, 503 where it can't be done now."""


class Client:
    """A connection by which somebody makes calls, one at a time. `ServerGone` where no server is there."""

    def __init__(self, store: str, name: str, seconds: float = _SECONDS) -> None:
        self._store = store
        self.seconds = seconds
        """How long a call may take."""
        self._connection = _connected(store, seconds)
        # What was read of the answer behind the last one.
        self._rest = b""
        self._is_calling = False
        try:
            hello = self.call("hello", name=name)
        except BaseException:
            self.close()
            raise
        self.editor: int = hello["editor"]
        self.name: str = hello["name"]

    def __enter__(self) -> Client:
        return self

    def __exit__(
        self,
        error_type: type[BaseException] | None,
        error: BaseException | None,
        traceback: TracebackType | None,
    ) -> None:
        self.close()

    def close(self) -> None:
        """Ends the connection."""
        self._connection.close()

    def call(self, call: str, **body: Any) -> dict[str, Any]:
        """The answer of a call. `CallFailed` where it is not carried out, `ServerGone` where it is not answered.

        After `ServerGone` it is not known whether the call was carried out, and the connection is closed.
        """
        [answer] = self.calls(call, [body])
        return answer

    def calls(self, call: str, bodies: Iterable[dict[str, Any]]) -> Iterator[dict[str, Any]]:
        """The answers of calls, of which each is sent before the answer of the one before it is given.

        So the server does the next one meanwhile. Whoever takes not all of them closes the connection.
        `RuntimeError`, and nothing is sent, where others were begun whose answers are not all taken.
        """
        if self._is_calling:
            raise RuntimeError("answers of the calls before are not taken yet: take all of them first")
        self._is_calling = True
        waiting = 0
        try:
            for body in bodies:
                self._send({"call": call, **body})
                waiting += 1
                if waiting > 1:
                    waiting -= 1
                    yield self._answer()
            while waiting:
                waiting -= 1
                yield self._answer()
        finally:
            self._is_calling = False
            if waiting:
                self.close()

    def events(self) -> Events:
        """A further connection that hears what happens."""
        return Events(_connected(self._store, self.seconds))

    def _send(self, call: dict[str, Any]) -> None:
        """Sends a call within the limit of time."""
        line = json.dumps(call, ensure_ascii=False).encode("utf-8", "surrogatepass")
        with self._guarded():
            self._connection.settimeout(self.seconds)
            self._connection.sendall(line + b"\n")

    def _answer(self) -> dict[str, Any]:
        """The next answer, within the limit of time."""
        with self._guarded():
            answer = json.loads(self._line(time.monotonic() + self.seconds))
        if answer["status"] != 200:
            raise CallFailed(answer["status"], answer["error"])
        found: dict[str, Any] = answer["answer"]
        return found

    def _line(self, until: float) -> bytes:
        """The next line. What was read behind it is the front of a later answer, where several calls were sent."""
        parts = [self._rest]
        while b"\n" not in parts[-1]:
            self._connection.settimeout(max(until - time.monotonic(), 0.001))
            parts.append(self._connection.recv(_READ_BYTES))
            if not parts[-1]:
                raise ConnectionError("it has ended")
        line, _, self._rest = b"".join(parts).partition(b"\n")
        return line

    @contextlib.contextmanager
    def _guarded(self) -> Iterator[None]:
        """Closes a connection on which nothing comes, or what is no answer: a later one would be taken for another."""
        try:
            yield
        except (OSError, ValueError) as error:
            self.close()
            raise ServerGone(f"The server of {self._store} does not answer: {error}.") from error


class Events:
    """A connection that hears what happens. It never waits, but for `wait`."""

    def __init__(self, connection: socket.socket) -> None:
        self._connection = connection
        self._connection.sendall(b'{"call": "events"}\n')
        self._rest = b""

    def fileno(self) -> int:
        """The open file, which can be read when something has happened."""
        return self._connection.fileno()

    def close(self) -> None:
        """Ends the connection."""
        self._connection.close()

    def take(self) -> list[dict[str, Any]]:
        """What has happened since. `ServerGone` where the server has ended."""
        self._connection.settimeout(0)
        try:
            data = self._connection.recv(_READ_BYTES)
        except BlockingIOError:
            return []
        except OSError:
            data = b""
        return self._told(data)

    def wait(self, seconds: float) -> list[dict[str, Any]]:
        """What happens next, within some seconds; nothing where it is silent so long."""
        self._connection.settimeout(seconds)
        try:
            data = self._connection.recv(_READ_BYTES)
        except socket.timeout:
            return []
        return self._told(data)

    def _told(self, data: bytes) -> list[dict[str, Any]]:
        if not data:
            raise ServerGone("The server of the store has ended.")
        *lines, self._rest = (self._rest + data).split(b"\n")
        return [json.loads(line) for line in lines if line]


def _connected(store: str, seconds: float) -> socket.socket:
    """A connection to a store's server. `ServerGone` where there is none, `AnothersServer` where it is no server of ours."""
    connection = socket.socket(socket.AF_UNIX)
    connection.settimeout(seconds)
    try:
        with address_of(socket_of(store)) as address:
            _connect(connection, address, time.monotonic() + seconds)
        _check_peer(connection, store)
    except OSError as error:
        connection.close()
        raise ServerGone(f"No server of {store} is there: {error.strerror or error}.") from error
    except BaseException:
        connection.close()
        raise
    return connection


def _check_peer(connection: socket.socket, store: str) -> None:
    """`AnothersServer` where another user than this one, or root, listens: whoever may write in the folder can put a socket there."""
    asked = getattr(socket, "SO_PEERCRED", None)
    if asked is None:
        # Another system than Linux, which tells it in another way.
        return
    _, user, _ = _PEER.unpack(connection.getsockopt(socket.SOL_SOCKET, asked, _PEER.size))
    if user not in (os.geteuid(), 0):
        raise AnothersServer(
            f"{socket_of(store)} is another user's (number {user}), who would be told all: take it away, or move the store "
            "to a folder in which you alone may write."
        )


def _connect(connection: socket.socket, address: str, until: float) -> None:
    """Connects, and waits for that where many others do."""
    while True:
        try:
            connection.connect(address)
            return
        except BlockingIOError:
            if time.monotonic() > until:
                raise
        time.sleep(0.01)


def start_server(store: str, program: str = "sfstore", seconds: float = _STARTING_SECONDS) -> None:
    """Has a server of a store answer, where none does: it ends when nobody uses it any more.

    `ServerGone` where it can't be had, with what it says, or is not there within some seconds. `AnothersServer` where
    another user answers in its place.
    """
    if _is_there(store):
        return
    until = time.monotonic() + seconds
    server = _begun(store, program)
    while not _is_there(store):
        if server.process.poll() is not None:
            raise ServerGone(server.last_line() or f"The server of {store} has ended.")
        if time.monotonic() > until:
            raise ServerGone(f"A server of {store} was started, and does not answer yet.")
        time.sleep(0.02)


class _Server(NamedTuple):
    """A server that this process has begun."""

    process: subprocess.Popen[bytes]
    said: IO[bytes]
    """What it says of faults."""

    def last_line(self) -> str:
        self.said.seek(0)
        return self.said.read().decode("utf-8", "replace").strip().rpartition("\n")[2]


# Those that this process has begun, by their stores: one that is still starting is not begun again.
_servers: dict[str, _Server] = {}


def _is_there(store: str) -> bool:
    """Whether a server can be connected to, be it busy or not. It takes no time. `AnothersServer` where it is no server of ours."""
    try:
        _connected(store, 0.0).close()
    except AnothersServer:
        raise
    except ServerGone as gone:
        return isinstance(gone.__cause__, BlockingIOError)
    return True


def _begun(store: str, program: str) -> _Server:
    """A server of a store, in a session of its own."""
    known = _servers.get(store)
    if known is not None:
        if known.process.poll() is None:
            return known
        known.said.close()
    said = tempfile.TemporaryFile()
    python = sys.executable if "python" in os.path.basename(sys.executable or "") else "python3"
    named = os.path.abspath(program) if os.sep in program else program
    words = [python, "-m", "sfstore.web.command", os.path.abspath(store), "--no-browser", "--while-used"]
    package = str(Path(sfstore.__file__).resolve().parent.parent)
    process = subprocess.Popen(  # nosec B603: a list of words, of which some are paths.
        [*words, f"--program={named}"],
        # Python runs modules of the folder that it is started in before those that are meant: anybody's, in a shared one.
        cwd=os.sep,
        env={**os.environ, "PYTHONPATH": package, "PYTHONSAFEPATH": "1"},
        stdin=subprocess.DEVNULL,
        stdout=subprocess.DEVNULL,
        stderr=said,
        start_new_session=True,
    )
    _servers[store] = _Server(process, said)
    return _servers[store]
