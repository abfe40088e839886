"""A running program, the pipes to and from it, and batches of lines that go through them."""

from __future__ import annotations

import contextlib
import errno
import os
import re
import select
import subprocess  # nosec B404: the store's own program is started, without a shell.
import threading
import warnings
import weakref
from collections import deque
from collections.abc import Callable, Iterable, Iterator, Sequence
from typing import IO, Protocol, cast

from sfstore.groups import member_of
from sfstore.results import Answer, PathName, ProgramEnded, Refused

__all__ = ["BATCH_BYTES", "Link", "Program", "batches", "ProgramMissing", "checked_path", "is_edit", "started", "stopped_after"]

BATCH_BYTES = 65_536
"""How many bytes the program reads at once, and a pipe holds. A journal is synced once for them."""

_HOW_TO_GET_IT = (
    "It comes with the Debian package sfstore, and a checkout of the project builds it (README.md). "
    "It has to be on the PATH; commands take another place by --program."
)

# How much of the output is read at once.
_OUTPUT_BYTES = 65_536

# No answer, and no row of one, begins so.
_LAST_WORDS = ("fault serve ", "fault words ", "fault load ", "fault journal ", "fault save ", "error: ")
_LAST_LETTERS = {words[0] for words in _LAST_WORDS}

# A question that may be answered as an edit is.
_CHECK = re.compile(rb"[ \t]*(?:@[0-9]{1,3}[ \t]+)?check[ \t]")

# A line that every store refuses, whatever it has, and that changes nothing.
_GREETING = b"?\n"


class Link(Protocol):
    """What editors need of the program that holds their store."""

    name: str
    """What the program is called by."""
    has_group: bool
    """Whether a group is open, whose members are not sent yet."""

    @property
    def closed(self) -> bool:
        """Whether the store can't be used any more."""

    def check_user(self) -> None:
        """`RuntimeError` in another thread or process than the one that made the store."""

    def exchange(self, lines: Sequence[bytes]) -> list[Answer | Refused]:
        """Sends lines, each with its line feed, and reads as many answers. The lines of a group are one."""

    def close(self) -> None:
        """Saves the store, and ends the program."""

    def abort(self) -> None:
        """Ends the program, and saves nothing."""

    def stop(self) -> None:
        """Kills the program, from any thread."""


class ProgramMissing(FileNotFoundError):
    """The program is not there."""

    def __init__(self, name: str) -> None:
        super().__init__(errno.ENOENT, "the program was not found", name)

    def __str__(self) -> str:
        return f"{self.filename}: the program was not found. {_HOW_TO_GET_IT}"


def _begun(words: list[str], errors: IO[bytes] | None, handed: Sequence[int]) -> subprocess.Popen[bytes]:
    """A process with pipes. `ProgramMissing` where there is no such program."""
    try:
        # In a session of its own no key of the terminal ends the program while it saves.
        return subprocess.Popen(  # nosec B603: a list of words, of which some are paths.
            words,
            bufsize=0,
            stdin=subprocess.PIPE,
            stdout=subprocess.PIPE,
            stderr=errors,
            pass_fds=handed,
            start_new_session=True,
        )
    except FileNotFoundError:
        raise ProgramMissing(words[0]) from None


class Program:
    """A running program, the pipes to and from it, and who may use them.

    What it says beside its answers goes where Python's does, or to the open file ``errors``. It has the open files of the
    numbers ``handed``, by the same numbers.
    """

    def __init__(self, words: list[str], errors: IO[bytes] | None = None, handed: Sequence[int] = ()) -> None:
        self._thread = threading.current_thread()
        self._owner = os.getpid()
        self._closed = False
        self.has_group = False
        self.name = words[0]
        self._last_line = ""
        # What is to be sent, the lines that were read, and what was read of the next one.
        self._unsent = memoryview(b"")
        self._lines: deque[str] = deque()
        self._rest = b""
        self._process = _begun(words, errors, handed)
        self._input = cast("IO[bytes]", self._process.stdin)
        self._output = cast("IO[bytes]", self._process.stdout)
        self._finalizer = weakref.finalize(self, _abandon, self._process, self._owner)
        _programs.add(self)
        os.set_blocking(self._input.fileno(), False)
        self._pipes = select.poll()
        self._pipes.register(self._input, select.POLLOUT)
        self._pipes.register(self._output, select.POLLIN)

    @property
    def closed(self) -> bool:
        """Whether it was closed."""
        return self._closed

    def exchange(self, lines: Sequence[bytes]) -> list[Answer | Refused]:
        """Sends lines, each with its line feed, and reads as many answers. The lines of a group are one.

        Answers are read while lines are sent: however many they are, neither side waits for the
        other for ever.
        """
        self.check_user()
        if self._closed:
            raise RuntimeError("the store is closed")
        if self._has_ended():
            raise self._ending()
        self._last_line = ""
        try:
            self._unsent = memoryview(b"".join(lines))
            return self._outcomes(lines)
        except (BrokenPipeError, EOFError):
            self._drain()
            raise self._ending() from None
        except BaseException:
            # An answer may be half read: whatever came next would be taken for another one.
            self._kill()
            raise

    def close(self) -> None:
        """Ends the input, and waits for the program to save and to end."""
        self.check_user()
        if self._closed:
            return
        self._closed = True
        # From here on nothing kills the program: it may be saving.
        self._finalizer.detach()
        if not self._has_ended():
            self._input.close()
            self._last_line = ""
            self._drain()
        if self._process.returncode != 0:
            raise self._ending()

    def abort(self) -> None:
        """Kills the program, so that it saves nothing. A forked process leaves it alone."""
        if os.getpid() == self._owner and not self._closed:
            self._closed = True
            self._kill()

    def stop(self) -> None:
        """Kills the program, and leaves the pipes to the thread that reads them."""
        self._process.kill()

    def close_inherited_input(self) -> None:
        """Closes the copy of the input that a forked process has: the program shall see its end."""
        self._input.close()

    def check_user(self) -> None:
        """`RuntimeError` in another thread or process than the one that made the store."""
        if os.getpid() != self._owner:
            raise RuntimeError("the store belongs to the process before the fork: make another one")
        if threading.current_thread() is not self._thread:
            raise RuntimeError("the store belongs to the thread that made it: use it only there")

    def _has_ended(self) -> bool:
        return self._process.returncode is not None

    def _ending(self) -> ProgramEnded:
        """How the program ended."""
        return ProgramEnded(self._process.returncode, self._last_line)

    def _outcomes(self, lines: Sequence[bytes]) -> list[Answer | Refused]:
        """Reads the answers of lines."""
        found: list[Answer | Refused] = []
        for line in lines:
            [first] = self._read_lines(1)
            # Most answers are one line, of which nothing else is to be known.
            if first[:1] != "r":
                found.append(first)
            elif first.startswith("rows "):
                found.append(self._read_lines(int(first[5:])))
            elif first.startswith("refused "):
                found.append(_refusal(first, line[:-1].decode("utf-8")))
            else:
                found.append(first)
        return found

    def _read_lines(self, count: int) -> list[str]:
        """Reads so many lines of answers. `EOFError` where the program ends instead."""
        known, found = self._lines, []
        for _ in range(count):
            while not known:
                self._send()
                self._take()
            line = known.popleft()
            if line[:1] in _LAST_LETTERS and line.startswith(_LAST_WORDS):
                # It may have come behind the answer before.
                self._last_line = line
                raise EOFError
            found.append(line)
        return found

    def _send(self) -> None:
        """Sends until all is sent, or something can be read."""
        while self._unsent:
            with contextlib.suppress(BlockingIOError):
                self._unsent = self._unsent[os.write(self._input.fileno(), self._unsent) :]
            if self._unsent and any(pipe == self._output.fileno() for pipe, _ in self._pipes.poll()):
                return

    def _take(self) -> None:
        """Reads what there is of the output, and waits for some. `EOFError` at its end."""
        block = os.read(self._output.fileno(), _OUTPUT_BYTES)
        if not block:
            raise EOFError
        whole, feed, rest = block.rpartition(b"\n")
        if not feed:
            self._rest += rest
            return
        self._lines.extend((self._rest + whole).decode("utf-8").split("\n"))
        self._last_line = self._lines[-1]
        self._rest = rest

    def _drain(self) -> None:
        """Reads what is left of the output, and waits for the end of the program."""
        with contextlib.suppress(EOFError):
            while True:
                self._take()
        for line in (*self._lines, self._rest.decode("utf-8", "replace")):
            self._last_line = line or self._last_line
        self._release()

    def _kill(self) -> None:
        self._process.kill()
        self._release()

    def _release(self) -> None:
        """Waits for the end of the program, and closes the pipes."""
        self._process.wait()
        self._finalizer.detach()
        self._input.close()
        self._output.close()


def checked_path(path: PathName) -> str:
    """A path as a word of the program's. `OSError` where it is not UTF-8, which the program takes alone.

    >>> checked_path(b"town.sfs")
    'town.sfs'
    >>> checked_path(b"town\\xff.sfs")
    Traceback (most recent call last):
    OSError: [Errno 84] the program sfstore takes paths in UTF-8 alone: 'town\\udcff.sfs'
    """
    word = os.fsdecode(path)
    try:
        word.encode("utf-8")
    except UnicodeEncodeError:
        raise OSError(errno.EILSEQ, "the program sfstore takes paths in UTF-8 alone", word) from None
    return word


def started(
    words: list[str], errors: IO[bytes] | None = None, handed: Sequence[int] = (), seconds: float = threading.TIMEOUT_MAX
) -> Program:
    """A program that has loaded its file. `ProgramEnded` where it could not, or where it takes longer than some seconds."""
    program = Program(words, errors, handed)
    try:
        # It is answered when the file is loaded.
        with stopped_after(seconds, program.stop):
            [answer] = program.exchange([_GREETING])
        if not isinstance(answer, Refused):
            raise RuntimeError(f"{words[0]} is another program than sfstore")
    except BaseException:
        # It would hold the lock of its store.
        program.abort()
        raise
    return program


@contextlib.contextmanager
def stopped_after(seconds: float, stop: Callable[[], object]) -> Iterator[None]:
    """Has something stopped where the body takes longer than some seconds."""
    if seconds >= threading.TIMEOUT_MAX:
        yield
        return
    timer = threading.Timer(seconds, stop)
    timer.start()
    try:
        yield
    finally:
        timer.cancel()
        timer.join()


def is_edit(line: bytes, outcome: object) -> bool:
    """Whether a line was an edit, an undo or a redo that was accepted.

    These are answered so, and of the questions `check`.
    """
    if not isinstance(outcome, str):
        return False
    return outcome.startswith("ok ") or (outcome == "ok" and not _CHECK.match(line))


def _refusal(answer: str, sent: str) -> Refused:
    """The refusal of what was sent; of a group with the member that it names, else with its head."""
    _, number, name, *detail = answer.split(" ", 3)
    lines = sent.split("\n")
    member = member_of(detail[0]) if detail else None
    return Refused(int(number), name, lines[member or 0 if len(lines) > 1 else 0], *detail)


_programs: weakref.WeakSet[Program] = weakref.WeakSet()


def _abandon(process: subprocess.Popen[bytes], owner: int) -> None:
    """Kills the program of a store that was not closed, but from no other process than its own."""
    if os.getpid() == owner:
        with process:
            process.kill()
        warnings.warn("a store was not closed: it was not saved", ResourceWarning)


def _close_inherited_inputs() -> None:
    for program in list(_programs):
        program.close_inherited_input()


if hasattr(os, "register_at_fork"):
    os.register_at_fork(after_in_child=_close_inherited_inputs)


def batches(lines: Iterable[bytes]) -> Iterator[list[bytes]]:
    """The lines in their order, as many at a time as the program reads at once."""
    batch: list[bytes] = []
    size = 0
    for line in lines:
        if batch and size + len(line) > BATCH_BYTES:
            yield batch
            batch, size = [], 0
        batch.append(line)
        size += len(line)
    if batch:
        yield batch
