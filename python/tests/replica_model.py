"""What the model of replicas is made of: a plain log, who writes while servers fail, and a replica at a socket."""

from __future__ import annotations

import contextlib
import os
import random
import resource
import select
import signal
import socket
import subprocess
import sys
import tempfile
import threading
import time
from collections.abc import Sequence
from pathlib import Path
from typing import Union

from sfstore import Refused
from sfstore.groups import text_of
from sfstore.replica import NotAcknowledged, Replica, ReplicaStopped

MODULES = Path(__file__).resolve().parent.parent
# The coordinates are odd numbers below 64, so that one bit of a double makes another whole number.
ODD = range(9, 64, 2)
# How long anything may take that is only waited for.
SECONDS = 40.0


def some_point(dice: random.Random) -> str:
    return f"POINT ({dice.choice(ODD)} {dice.choice(ODD)})"


def addition(dice: random.Random, point: str) -> str:
    """A line that adds a point, or a group that does and has it at another place before."""
    alone = f"add w {point}"
    return dice.choice([alone, text_of([f"add w {some_point(dice)}", f"replace w last {point}"])])


class Log:
    """The lines of a log, and the points that a store has behind each of them."""

    def __init__(self) -> None:
        self.lines = ["layer add w point"]
        self._contents: list[list[str] | None] = [None, []]

    @property
    def last(self) -> int:
        """The last place."""
        return len(self.lines)

    @property
    def points(self) -> list[str]:
        return self._contents[-1] or []

    def rows(self, at: int) -> list[str] | None:
        """What a replica shows that is at a place; none before there is a layer."""
        points = self._contents[at]
        return None if points is None else [f"{number} {point}" for number, point in enumerate(points, 1)]

    def add(self, line: str, point: str) -> str:
        """A line adds a point: the answer."""
        self._put(line, [*self.points, point])
        return f"ok {len(self.points)}"

    def undo(self) -> None:
        self._put("undo", self.points[:-1])

    def stay(self, line: str = "") -> None:
        """A line that is refused, or a cut: it has a place too."""
        self._put(line, self.points)

    def _put(self, line: str, points: list[str]) -> None:
        self.lines.append(line)
        self._contents.append(points)


class Listening:
    """A replica in a process of its own, which is asked at its socket by one program, or by many."""

    def __init__(self, folder: Path, log: str, program: str, seconds: float, files: int) -> None:
        self.path = folder / "socket"
        self._said = tempfile.TemporaryFile()
        words = [sys.executable, "-m", "sfstore.replica.command", "run", str(folder), log, "--listen"]
        words += ["--program", program, "--seconds", str(seconds), "--patience", "30"]
        environment = {**os.environ, "PYTHONPATH": str(MODULES)}
        self._process = subprocess.Popen(words, stderr=self._said, env=environment)
        hard = resource.prlimit(self._process.pid, resource.RLIMIT_NOFILE)[1]
        resource.prlimit(self._process.pid, resource.RLIMIT_NOFILE, (files, hard))
        self._peer = self._first_peer()

    def run(self, line: str) -> str | list[str]:
        """The answer of a line, as `Replica.run` gives it."""
        try:
            self._peer.sendall(line.encode() + b"\n")
            with self._peer.makefile("rb") as answers:
                answer = answers.readline().decode().rstrip("\n")
                if answer.startswith("rows "):
                    return [answers.readline().decode().rstrip("\n") for _ in range(int(answer[5:]))]
        except OSError as error:
            raise self._lost() from error
        if answer.startswith("refused "):
            _, number, name = answer.split(" ")
            raise Refused(int(number), name, line)
        if not answer:
            raise self._lost()
        return answer

    def crowd(self, count: int, held: contextlib.ExitStack) -> None:
        """Has a program make so many connections, and leave them open. It says nothing over them."""
        for _ in range(count):
            held.enter_context(self._connected())

    def come_again(self) -> None:
        """Who asks is another program from now on."""
        self._peer.close()
        self._peer = self._connected()

    def break_off(self) -> None:
        """Kills the replica's program."""
        os.kill(self._programs()[0], signal.SIGKILL)

    def close(self) -> None:
        """Ends it in order, where it has not ended."""
        self._peer.close()
        if self._process.poll() is None:
            self._process.send_signal(signal.SIGINT)
        if self._process.wait(SECONDS) not in (130, 5):
            raise self._lost()

    def kill(self) -> None:
        """Ends it and its program at once, if it has not ended, and forgets what it has said. A program that went on would save
        into a folder that is being removed."""
        self._peer.close()
        programs = [os.pidfd_open(program) for program in self._programs()]
        self._process.kill()
        self._process.wait()
        for program in programs:
            with contextlib.suppress(ProcessLookupError):
                signal.pidfd_send_signal(program, signal.SIGKILL)
            select.select([program], [], [], SECONDS)
            os.close(program)
        self._said.close()

    def _programs(self) -> list[int]:
        """The numbers of the processes that it has started and that are there: its program's."""
        if self._process.poll() is not None:
            return []
        children = Path(f"/proc/{self._process.pid}/task/{self._process.pid}/children").read_text()
        return [int(child) for child in children.split()]

    def _first_peer(self) -> socket.socket:
        """A connection, when the replica has begun."""
        until = time.monotonic() + SECONDS
        while True:
            try:
                return self._connected()
            except (FileNotFoundError, ConnectionRefusedError):
                if self._process.poll() is not None or time.monotonic() > until:
                    raise self._lost() from None
                time.sleep(0.01)

    def _connected(self) -> socket.socket:
        connection = socket.socket(socket.AF_UNIX)
        # With a limit of time it would not wait while many are to be let in.
        try:
            connection.connect(str(self.path))
        except OSError:
            connection.close()
            raise
        connection.settimeout(SECONDS)
        return connection

    def _lost(self) -> Exception:
        """Why nothing is answered any more."""
        with contextlib.suppress(subprocess.TimeoutExpired):
            self._process.wait(3)
        status = self._process.poll()
        self._said.seek(0)
        said = self._said.read().decode()[-1000:]
        return ReplicaStopped(said) if status == 5 else AssertionError(f"no answer, status {status}: {said}")


Asked = Union[Replica, Listening]


class Writer(threading.Thread):
    """Somebody who puts points down, in a thread or by single calls, and keeps what was answered."""

    def __init__(self, login: str, replica: Asked, dice: random.Random) -> None:
        super().__init__(daemon=True)
        self.login = login
        self.answered: list[tuple[int, str, str]] = []
        self._error: BaseException | None = None
        self._replica = replica
        self._dice = random.Random(dice.random())
        self._ends = False

    def run(self) -> None:
        try:
            while not self._ends:
                self.write()
        except BaseException as error:
            # It is raised where the thread is waited for.
            self._error = error

    def write(self) -> None:
        """Puts a point down, and tries it until it is acknowledged."""
        point = some_point(self._dice)
        line = addition(self._dice, point)
        answer = self._acknowledged(line)
        self.answered.append((int(str(answer).removeprefix("ok ")), line, point))

    def wait_for(self, count: int) -> None:
        """Waits until so many points more are acknowledged."""
        wanted, until = len(self.answered) + count, time.monotonic() + SECONDS
        while len(self.answered) < wanted and self._error is None:
            if time.monotonic() > until:
                raise AssertionError(f"nothing of {self.login} is acknowledged any more")
            time.sleep(0.002)

    def end(self) -> None:
        """Has the thread end behind the point that is under way."""
        self._ends = True
        self.join(SECONDS)
        if self._error is not None:
            raise self._error

    def _acknowledged(self, line: str) -> object:
        try:
            return self._replica.run(line)
        except NotAcknowledged as error:
            keys = error.keys
        while isinstance(self._replica, Replica):
            try:
                return self._replica.write([line], keys)[0]
            except NotAcknowledged:
                continue
        raise AssertionError("a line at a socket was not acknowledged")


def in_order(writers: Sequence[Writer]) -> list[tuple[int, str, str, str]]:
    """What some have written, by the identifiers that were answered: identifier, line, point and login."""
    return sorted((*answered, writer.login) for writer in writers for answered in writer.answered)
