"""Lines and answers in the console's language, over a replica: from one stream, or from many at a socket."""

from __future__ import annotations

import contextlib
import errno
import os
import selectors
import socket
import stat
import time
from collections.abc import Callable, Iterator
from pathlib import Path

from sfstore.groups import size_of
from sfstore.language import LINE_MAX
from sfstore.replica.lines import GROUP_BYTES
from sfstore.replica.links import LogRefused
from sfstore.replica.log import LogUnreachable
from sfstore.replica.replica import AnswerGone, NotAcknowledged, Outcome, Replica
from sfstore.store import Refused

__all__ = ["listen", "serve"]

# The console's most, without its line feed.
_LINE_BYTES = LINE_MAX
_READ_BYTES = 1 << 16
_IDLE_SECONDS = 1.0
# How long lines may wait while others write.
_FOLLOW_SECONDS = 0.2
# How long one who asks may let answers lie, while others wait.
_SEND_SECONDS = 5.0
# How many may ask at once. Each one has a file of the process, of which Debian gives it 1,024.
_PEERS = 500
_TOO_LONG = b"refused 33 LineTooLong\n"
_TOO_MANY = "{} programs are connected, and no more are let in: a connection that was left open has to end first"


# What no member of a group is: in the place of one that no store can take.
_NO_MEMBER = "?"


class _Group:
    """The lines of a group that came so far. It is one line, with carriage returns between its own."""

    def __init__(self, head: str, size: int) -> None:
        self._head = head
        self._left = size
        self._members: list[str] = []
        self._room = GROUP_BYTES

    @property
    def is_whole(self) -> bool:
        """Whether all members came."""
        return not self._left

    @property
    def is_too_long(self) -> bool:
        """Whether the log could not take it. What came is not kept then."""
        return self._room < 0

    @property
    def text(self) -> str:
        """The group as one line."""
        return "\r".join([self._head, *self._members])

    def take(self, line: bytes) -> None:
        """Takes a line as the next member, be it one or not."""
        self._left -= 1
        self._room -= len(line) + 1
        text = _text(line.removesuffix(b"\r"))
        if len(line) > _LINE_BYTES:
            # The program refuses it as one that is too long.
            text = "x" * (_LINE_BYTES + 1)
        elif text is None or "\r" in text:
            text = _NO_MEMBER
        self._members.append(text)
        if self.is_too_long:
            self._members.clear()

    def end(self, replica: Replica) -> bytes:
        """The answer where no more members come: a line that is refused by itself, else that they are missing."""
        if self.is_too_long:
            return _TOO_LONG
        behind = len(self._members) + 1
        [outcome] = replica.run_all(["\r".join([f"together {behind}", *self._members, _NO_MEMBER])])
        if isinstance(outcome, Refused) and outcome.member != behind:
            return _written(outcome)
        return b"refused 38 Unfinished\n"


class _Peer:
    """Who sends lines, and gets their answers."""

    def __init__(self, read: Callable[[int], bytes], send: Callable[[bytes], object]) -> None:
        self._read = read
        self._send = send
        self._rest = b""
        self._group: _Group | None = None

    def answer(self, replica: Replica) -> bool:
        """Answers the lines that are there, which are written together. False where no more come.

        A last line without a line feed counts. A group is answered when its last line is there. Where a
        line is not acknowledged, or ends all, those before it are answered.
        """
        data = self._read(_READ_BYTES)
        *lines, self._rest = (self._rest + data).split(b"\n")
        if not data and self._rest:
            lines, self._rest = [self._rest], b""
        # A line that is too long is refused whatever comes: its front is enough.
        self._rest = self._rest[: _LINE_BYTES + 1]
        written: list[bytes] = []
        try:
            for answer in self._answers(replica, lines):
                written.append(answer)
            if not data and self._group is not None:
                written.append(self._group.end(replica))
        finally:
            self._send(b"".join(written))
        return bool(data)

    def _answers(self, replica: Replica, lines: list[bytes]) -> Iterator[bytes]:
        """The answers of lines, but of blank ones and those inside of groups, which have none."""
        taken: list[str] = []
        for line in lines:
            if not line.removesuffix(b"\r").strip(b" \t"):
                continue
            text = self._taken(line)
            if text is None:
                continue
            if isinstance(text, str):
                taken.append(text)
                continue
            yield from map(_written, replica.answers(taken))
            taken = []
            yield text
        yield from map(_written, replica.answers(taken))

    def _taken(self, line: bytes) -> str | bytes | None:
        """What a line gives to be carried out, or is answered with; none where a group goes on."""
        if self._group is not None:
            self._group.take(line)
            if not self._group.is_whole:
                return None
            group, self._group = self._group, None
            return _TOO_LONG if group.is_too_long else group.text
        text = _text(line)
        if text is None:
            return _TOO_LONG if len(line) > _LINE_BYTES else b"refused 31 BadCommand\n"
        size = size_of(text)
        if size is not None:
            self._group = _Group(text.removesuffix("\r"), size)
            return None
        return text


def serve(replica: Replica, given: int, answers: int, tell: Callable[[str], object]) -> None:
    """Answers the lines of a stream, and follows the log meanwhile, until the stream ends.

    `NotAcknowledged`, `AnswerGone`, `ReplicaStopped` and `OSError` end it.
    """
    peer = _Peer(lambda size: os.read(given, size), lambda data: _write(answers, data))
    is_open = True
    while is_open:
        if _ready(replica, [given], tell):
            is_open = peer.answer(replica)


def listen(replica: Replica, path: Path, tell: Callable[[str], object]) -> None:
    """Answers all who come to a socket, which this user alone can open, and follows the log meanwhile.

    They are answered in turn: while a line of one waits for a standby, the others wait. Who leaves
    answers lying, or has a line that is not acknowledged or whose answer is gone, is sent away, and so is who comes when
    500 are there. `ReplicaStopped` ends it, and so does an interrupt.
    """
    peers: dict[int, tuple[_Peer, socket.socket]] = {}
    with _door(path) as door:
        try:
            while True:
                for number in _ready(replica, [door.fileno(), *peers], tell):
                    if number == door.fileno():
                        _let_in(door, peers, tell)
                    elif not _is_answered(replica, peers[number][0], tell):
                        peers.pop(number)[1].close()
        finally:
            for _, connection in peers.values():
                connection.close()


def _let_in(
    door: socket.socket, peers: dict[int, tuple[_Peer, socket.socket]], tell: Callable[[str], object]
) -> None:
    """Lets one more in who asks, or sends them away where there are too many."""
    try:
        connection = door.accept()[0]
    except OSError as error:
        # The one who came is gone, or the process may open no more files.
        tell(f"a program could not be let in: {error}")
        return
    if len(peers) >= _PEERS:
        connection.close()
        tell(_TOO_MANY.format(len(peers)))
        return
    connection.settimeout(_SEND_SECONDS)
    peers[connection.fileno()] = _Peer(connection.recv, connection.sendall), connection


def _is_answered(replica: Replica, peer: _Peer, tell: Callable[[str], object]) -> bool:
    """Answers the lines of one of many. False where this one goes, or is sent away."""
    try:
        return peer.answer(replica)
    except (AnswerGone, NotAcknowledged, LogUnreachable, LogRefused) as error:
        tell(str(error))
    except OSError:
        # The connection is gone.
        pass
    return False


@contextlib.contextmanager
def _door(path: Path) -> Iterator[socket.socket]:
    """A socket in the file system, in the place of one that was left there. `OSError` where something else stands there."""
    with contextlib.suppress(FileNotFoundError):
        if not stat.S_ISSOCK(path.lstat().st_mode):
            raise FileExistsError(errno.EEXIST, "it is no socket, and stays", str(path))
        path.unlink()
    with socket.socket(socket.AF_UNIX) as door:
        before = os.umask(0o077)
        try:
            door.bind(str(path))
        finally:
            os.umask(before)
        door.listen()
        try:
            yield door
        finally:
            path.unlink(missing_ok=True)


def _ready(replica: Replica, given: list[int], tell: Callable[[str], object]) -> list[int]:
    """Waits for lines or for news of the log, which is followed. Which of the streams have lines."""
    news = [number for number in (replica.fileno(),) if number >= 0]
    seconds = 0.0 if replica.has_news() else _IDLE_SECONDS
    ready = _readable([*given, *news], seconds)
    lines = [number for number in ready if number not in news]
    if not lines or len(lines) < len(ready) or replica.has_news():
        _follow(replica, tell)
    return lines


def _readable(numbers: list[int], seconds: float) -> list[int]:
    """Which of some open files can be read, after some seconds at most."""
    # Standard input may be a plain file, which poll takes and epoll does not.
    with selectors.PollSelector() as selector:
        for number in numbers:
            selector.register(number, selectors.EVENT_READ)
        return [key.fd for key, _ in selector.select(seconds)]


def _follow(replica: Replica, tell: Callable[[str], object]) -> None:
    """Carries out what is new. Where no server is there, what is here can be asked nevertheless."""
    try:
        replica.follow(_FOLLOW_SECONDS)
    except LogUnreachable as error:
        tell(f"the log is not there, and what is here is place {replica.at}: {error}")
        time.sleep(0.1)


def _text(line: bytes) -> str | None:
    """The text of a line; none of one that no store can take."""
    if len(line) > _LINE_BYTES or b"\0" in line:
        return None
    try:
        return line.decode("utf-8")
    except UnicodeDecodeError:
        return None


def _written(outcome: Outcome) -> bytes:
    """An answer as the console writes it."""
    if isinstance(outcome, Refused):
        text = outcome.answer
    elif isinstance(outcome, list):
        text = "\n".join([f"rows {len(outcome)}", *outcome])
    else:
        text = outcome
    return text.encode("utf-8") + b"\n"


def _write(answers: int, data: bytes) -> None:
    rest = memoryview(data)
    while rest:
        rest = rest[os.write(answers, rest) :]
