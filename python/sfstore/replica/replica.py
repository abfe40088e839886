"""A replica: a store that carries out the lines of a log, in its order, and answers questions itself."""

from __future__ import annotations

import contextlib
import os
import threading
import time
from collections import Counter
from collections.abc import Callable, Iterable, Iterator, Sequence
from pathlib import Path
from typing import Union

from sfstore import files
from sfstore.groups import lines_of, size_of
from sfstore.journal import locked
from sfstore.replica.lines import Asked, asked
from sfstore.replica.links import LogRefused, check_driver
from sfstore.replica.log import Dropped, Entry, Fence, Following, LogUnreachable, Writing, chained, new_key
from sfstore.replica.snapshots import Snapshot, Snapshots
from sfstore.replica.telling import Teller
from sfstore.store import Answer, ProgramEnded, Refused, Store

__all__ = ["AnswerGone", "NotAcknowledged", "Outcome", "Replica", "ReplicaStopped"]

Outcome = Union[Answer, Refused]
"""What a line is answered with."""

# How often a replica begins again without getting any further.
_TRIES = 3
# How often it looks whether its file is that of the others, in seconds.
_COMPARE_SECONDS = 1.0
# How many lines are put down as one, and of how many bytes but for one line.
_GROUP_LINES, _GROUP_BYTES = 1000, 1_000_000
# From how many entries on a replica tells how far it is.
_PROGRESS_FROM = 2000
# Of how many lines of the own editor the answers are kept, for those that are tried again.
_ANSWERS = 10_000


class NotAcknowledged(Exception):
    """It is not known whether lines stand in the log: the log could not be reached, or no standby has them.

    Written again with the same keys they stand once.
    """

    keys: list[str]
    """The keys of the lines, in their order."""
    answered: list[Outcome]
    """The answers of the lines before them, where `Replica.run_all` was given more."""

    def __init__(self, keys: list[str], reason: str) -> None:
        super().__init__(reason)
        self.keys = keys
        self.answered = []

    def __str__(self) -> str:
        return f"{len(self.keys)} lines are not acknowledged: {self.args[0]}"


class AnswerGone(Exception):
    """A line that was tried again stands in the log, or stood there, but its answer is not known here any more.

    Where the log was dropped meanwhile it may not have stood. Nothing is written again: the text says what to do.
    """


class ReplicaStopped(Exception):
    """The replica can't go on: a person has to look. The text says why, and what helps."""


class _GivenUp(Exception):
    """The store here can't be trusted any more: it begins again from its file."""


class Replica:
    """The store of a log in a folder of its own, which one process at a time has.

    ``log`` are the words of connection of PostgreSQL, with as many hosts as there are servers.
    ``editor`` are the words of the login that writes lines, if it is another one.
    ``begin_from`` is the file of another replica, for a folder that has none. ``trust`` is the
    login of the replica whose files are right: one that differs from it stops.
    ``patience`` is how long a line is tried, and how long a server is awaited at the beginning,
    and ``question_seconds`` how long a question may take, in seconds.
    ``tell`` is called with a sentence on what keeps the replica waiting, and with an empty text
    when nothing does any more; ``progress`` with how far it is, and how far the log goes.

    It begins from its newest file, and has all of the log when it is there. `LogUnreachable` if
    no server can be used, `JournalError` if another process has the folder, `ReplicaStopped`
    if the files here and the log do not fit.
    """

    def __init__(
        self,
        folder: str | os.PathLike[str],
        log: str,
        *,
        editor: str | None = None,
        program: str | os.PathLike[str] = "sfstore",
        begin_from: str | os.PathLike[str] | None = None,
        trust: str | None = None,
        patience: float = 60.0,
        question_seconds: float = 10.0,
        tell: Callable[[str], object] = lambda text: None,
        progress: Callable[[int, int], object] = lambda at, last: None,
    ) -> None:
        check_driver()
        self._folder = Path(folder)
        self._program = os.fsdecode(program)
        self._patience = patience
        self._progress = progress
        self._trust = trust
        self._question_seconds = question_seconds
        # The keys of the lines that were written last.
        self._awaited: frozenset[str] = frozenset()
        self._teller = Teller(tell)
        # Others that differ are told of once, however often the servers are told of meanwhile.
        self._differing = Teller(tell)
        # The store's content, for this user alone. A folder that is there keeps the mode that it was given.
        self._folder.mkdir(mode=0o700, parents=True, exist_ok=True)
        self._lock = locked(str(self._folder / "replica"))
        self._snapshots = Snapshots(self._folder)
        self._fence = Fence(self._folder / "timeline")
        self._following = Following(log, self._fence, self._teller.tell)
        self._writing = Writing(editor or log, self._fence, self._teller.tell)
        try:
            self._open(begin_from)
        except BaseException:
            self._following.close()
            self._writing.close()
            self._lock.close()
            raise

    def __enter__(self) -> Replica:
        return self

    def __exit__(self, *_: object) -> None:
        self.close()

    def close(self) -> None:
        """Ends the program and the connections. The next opening goes on from the newest file."""
        self._store.close(save=False)
        self._following.close()
        self._writing.close()
        self._lock.close()

    @property
    def at(self) -> int:
        """The place of the log up to which the store here has it."""
        return self._fence.at

    @property
    def restarts(self) -> int:
        """How often the store was given up, and begun again from its file."""
        return self._restarts

    def fileno(self) -> int:
        """A socket that can be read when something was written; -1 while no server is connected."""
        number = self._following.fileno()
        return -1 if number is None else number

    def has_news(self) -> bool:
        """Whether the server has said something new that no socket shows any more."""
        return self._following.has_news()

    def follow(self, seconds: float = 60.0) -> None:
        """Carries out what is new in the log, and has been kept by standbys.

        While others go on writing it ends after some seconds at most. `LogUnreachable` where no
        server can be used now: what is here can be asked nevertheless.
        """
        if not self._following.heard():
            self._following.look()
        until = time.monotonic() + seconds
        self._step_on(until)
        if time.monotonic() > self._compared + _COMPARE_SECONDS:
            try:
                self._compare()
            except _GivenUp as reason:
                self._begin_again(str(reason))
                self._step_on(until)

    def run(self, line: str) -> Answer:
        """The answer of a line. `Refused` where it is refused; else as `run_all`."""
        [outcome] = self.run_all([line])
        if isinstance(outcome, Refused):
            raise outcome
        return outcome

    def run_all(self, lines: Iterable[str]) -> list[Outcome]:
        """The answers of lines in their order: questions by the store here, edits by way of the log.

        A group is one line, with carriage returns between its own, and one entry of the log. `ValueError`
        if a line has a line feed, is blank, or begins a group, before any is carried out.
        `NotAcknowledged` if an edit could not be written and kept in time. `LogUnreachable`
        if a store that begins again can't get in time to the place that was shown before.
        """
        outcomes: list[Outcome] = []
        try:
            for outcome in self.answers(lines):
                outcomes.append(outcome)
        except NotAcknowledged as error:
            error.answered = outcomes
            raise
        return outcomes

    def answers(self, lines: Iterable[str]) -> Iterator[Outcome]:
        """The answers of lines as `run_all` has them, each as soon as it is known.

        So they are there too where a later line raises something: `LogRefused`, or `ReplicaStopped`.
        """
        return self._answers_of([asked(_checked(line)) for line in lines])

    def _answers_of(self, lines: Iterable[Asked]) -> Iterator[Outcome]:
        """The answers of lines. Edits that stand behind one another are written as one."""
        edits: list[Asked] = []
        for line in lines:
            refusal = self._refusal(line)
            is_edit = line.is_edit and refusal is None
            if edits and (not is_edit or len(edits) == _GROUP_LINES or _size(edits) > _GROUP_BYTES):
                yield from self.write([edit.line for edit in edits])
                edits = []
            if is_edit:
                edits.append(line)
            else:
                yield refusal or self._answer(line.line)
        if edits:
            yield from self.write([edit.line for edit in edits])

    def write(self, lines: Sequence[str], keys: Sequence[str] | None = None) -> list[Outcome]:
        """Has edits written as one, and gives the answers that the store here has for them.

        They are given when the lines are on the standbys, and carried out here. With the keys of a
        `NotAcknowledged` they are tried again. `LogRefused` where the log takes none of them,
        `ValueError` where they are more than 1,000.
        """
        is_new = keys is None
        keys = [new_key(max(self._fence.at, self._seen)) for _ in lines] if keys is None else list(keys)
        if len(lines) > _GROUP_LINES:
            raise ValueError(f"{_GROUP_LINES} lines can be put down at once, not {len(lines)}")
        until = time.monotonic() + self._patience
        self._awaited = frozenset(keys)
        try:
            while self._put_down(keys, lines, until):
                is_new = False
        except Dropped as dropped:
            raise self._not_written(dropped, is_new) from dropped
        except LogUnreachable as error:
            raise NotAcknowledged(keys, str(error)) from error
        return [self._answers[key] for key in keys]

    def _put_down(self, keys: Sequence[str], lines: Sequence[str], until: float) -> bool:
        """Has edits in the log, and carries it out up to them. Whether some were lost with their primary, and have to be tried again.

        A primary whose wait for standbys somebody has ended gives them a place, is lost, and another line gets that place
        from the next primary. `AnswerGone` where they stand, and were carried out before.
        """
        places = self._writing.append(keys, lines, until)
        try:
            self._catch_up(max(places, default=0), until)
        except ReplicaStopped as stopped:
            raise ReplicaStopped(
                f"{stopped}. The log has what was written last, from place {min(places, default=0)} on: do not write it again"
            ) from stopped
        gone = [key for key in keys if key not in self._answers]
        if not gone:
            return False
        standing = self._following.standing_of(gone, until)
        if len(standing) == len(gone):
            raise AnswerGone(f"place {min(standing)} of the log was carried out before it was asked for here")
        return True

    def _not_written(self, dropped: Dropped, is_new: bool) -> AnswerGone | ReplicaStopped:
        """What is raised where the log was dropped behind the place from which on lines were tried: they would stand twice."""
        if is_new and dropped.is_first_try:
            return ReplicaStopped(f"{self._left_behind(dropped.first)}. Nothing was written")
        return AnswerGone(
            f"the log was dropped up to place {dropped.first - 1} since these lines were written first, and nothing was written again: "
            "look whether the store has them, and write those that it has not as new ones"
        )

    # What a line is answered with

    def _refusal(self, line: Asked) -> Refused | None:
        """Why a line gets to no store; none where it does."""
        if not line.is_edit:
            return None if line.is_question else Refused(31, "BadCommand", line.line)
        first = lines_of(line.line)[0]
        if len(line.line.encode()) > line.most_bytes:
            return Refused(33, "LineTooLong", first)
        if self._own_number is None:
            return Refused(102, "NoEditor", first)
        if line.editor not in (None, self._own_number):
            return Refused(101, "OtherEditor", first)
        return None

    def _answer(self, question: str) -> Outcome:
        """The answer of a question, by a store that has all that was ever shown here."""
        for _ in range(_TRIES):
            self._catch_up(self._seen, time.monotonic() + self._patience)
            stopped = threading.Event()
            try:
                with self._limited(stopped):
                    return self._store.run(question)
            except Refused as refused:
                return refused
            except ProgramEnded as ended:
                if stopped.is_set():
                    return self._too_long(question)
                self._begin_again(str(ended))
        raise ReplicaStopped(f"the program ended {_TRIES} times over a question: {question[:200]}")

    @contextlib.contextmanager
    def _limited(self, stopped: threading.Event) -> Iterator[None]:
        """Ends the program where the body takes too long: everybody else waits for it."""

        def stop(store: Store = self._store) -> None:
            stopped.set()
            store.stop()

        timer = threading.Timer(self._question_seconds, stop)
        # Where an interrupt comes before it is noted that it runs, nobody waits for its end.
        timer.daemon = True
        try:
            timer.start()
            yield
        finally:
            timer.cancel()
            if timer.is_alive():
                timer.join()

    def _too_long(self, question: str) -> Refused:
        """Has the store begin again whose program was ended over a question, and gives the refusal."""
        # It is no failure of the store's: another question may be as long.
        self._failures = 0
        reason = f"a question took longer than {self._question_seconds:g} seconds: {question[:200]}"
        self._begin_again(reason)
        return Refused(103, "TooLong", question)

    # Beginning, and beginning again

    def _open(self, begin_from: str | os.PathLike[str] | None) -> None:
        self._seen = 0
        self._restarts = 0
        self._failures = 0
        self._failed_at = -1
        self._differed_at = -1
        self._compared = 0.0
        self._answers: dict[str, Outcome] = {}
        self._sum = ""
        self._votes = True
        self._start = b""
        self._go_to_newest()
        until = time.monotonic() + self._patience
        self._start = self._following.reach(until).start
        self._login = self._following.login()
        self._own_number = self._writing.own_number(until)
        if begin_from is not None:
            given = Path(begin_from)
            self._snapshots.bring(given, lambda copy: self._check_brought(given, copy))
        self._check_chain()
        self._load(until)
        try:
            last = self._following.last(until)
            self._catch_up(last, until)
            self._compare_now(last, until)
        except BaseException:
            self._store.close(save=False)
            raise

    def _go_to_newest(self) -> None:
        """Goes to the place of the newest file, or before the first place."""
        self._snapshot: Snapshot | None = self._snapshots.newest()
        self._fence.at, self._fence.chain = 0, self._start
        if self._snapshot is not None:
            self._fence.at, self._fence.chain = self._snapshot.at, self._snapshot.chain

    def _check_brought(self, given: Path, copy: Snapshot) -> None:
        """`ReplicaStopped` where the file of another replica is not what the log has of it."""
        sums = self._following.sums(copy.at)
        wanted = {sums[self._trust]} if self._trust in sums else set(sums.values())
        if self._following.chain_at_cut(copy.at) != copy.chain or wanted != {files.digest(str(copy.path))}:
            raise ReplicaStopped(
                f"{given} is not what all replicas had at place {copy.at}: begin from another one's file"
            )

    def _load(self, until: float | None = None) -> None:
        """Begins from the newest file that is what the log has of it, and loads; or from nothing.

        Until some moment the log is tried, and `LogUnreachable` then. Where none is given, a file
        that the log does not tell of now is taken: `_compare` finds out when the log is there.
        """
        self._snapshots.clear()
        while True:
            self._go_to_newest()
            if self._snapshot is not None and not self._is_as_told(self._snapshot, until):
                self._teller.tell(
                    f"{self._snapshot.path} is damaged, and the one before is taken: "
                    f"it is not the file that {self._login} has put down"
                )
                self._snapshots.put_aside(self._snapshot)
                continue
            try:
                self._begin()
                return
            except ProgramEnded as ended:
                if self._snapshot is None or not ended.last_line.startswith("fault load BadFile"):
                    raise ReplicaStopped(f"the program does not begin: {ended}") from ended
                self._teller.tell(f"{self._snapshot.path} is damaged, and the one before is taken: {ended}")
                self._snapshots.put_aside(self._snapshot)

    def _is_as_told(self, snapshot: Snapshot, until: float | None) -> bool:
        """Whether a file is what this login has put down, or what others have, where the login has put one down.

        A login may have put down a wrong one, and have carried the lines out anew after that. What is no file is none of these.
        """
        if not snapshot.path.is_file():
            return False
        try:
            sums = self._following.sums(snapshot.at, until or 0.0)
        except LogUnreachable:
            if until is not None:
                raise
            return True
        return self._login not in sums or files.digest(str(snapshot.path)) in sums.values()

    def _begin(self) -> None:
        """Has a program begin from the file of this place."""
        self._aside = self._snapshots.aside()
        path = None if self._snapshot is None else self._snapshot.path
        self._store = Store(self._program, load=path, save=self._aside)
        if path is not None:
            self._sum = files.digest(str(path))

    def _check_chain(self) -> None:
        """`ReplicaStopped` where the newest file is not one of this log."""
        newest = self._snapshots.newest()
        if newest is None:
            return
        chain = self._following.chain_at_cut(newest.at, time.monotonic() + self._patience)
        if chain not in (None, newest.chain):
            raise ReplicaStopped(f"{newest.path} is of another log than this one: take it away")

    def _begin_again(self, reason: str) -> None:
        """Gives the store up, and loads the newest file. `ReplicaStopped` where that was done in vain."""
        self._seen = max(self._seen, self._fence.at)
        self._failures = self._failures + 1 if self._seen <= self._failed_at else 1
        self._failed_at = self._seen
        self._store.close(save=False)
        if self._failures > _TRIES:
            raise ReplicaStopped(f"begun again {_TRIES} times behind place {self._seen}: {reason}")
        self._restarts += 1
        self._teller.tell(f"the store is given up at place {self._fence.at}, and begins again from its file: {reason}")
        self._load()

    # Carrying out

    def _catch_up(self, place: int, until: float) -> None:
        """Carries the log out up to a place, and to all that was seen. `LogUnreachable` where that takes too long."""
        begun = self._fence.at
        while self._fence.at < max(place, self._seen):
            try:
                moved = self._step()
            except LogUnreachable as error:
                moved = False
                self._teller.tell(str(error))
            last = max(place, self._seen)
            if last - begun > _PROGRESS_FROM:
                self._progress(self._fence.at, last)
            if not moved:
                if time.monotonic() > until:
                    raise LogUnreachable(self._teller.last or f"place {place} of the log does not come")
                time.sleep(0.0005 if not self._teller.last else 0.1)

    def _step_on(self, until: float) -> None:
        """Carries out all that standbys have kept, until some moment at most."""
        while self._step() and time.monotonic() < until:
            pass

    def _step(self) -> bool:
        """Carries out the next entries. False where there are none that standbys have kept."""
        entries = self._following.behind(self._fence.at)
        if not entries:
            dropped = self._following.dropped_to(self._fence.at)
            if dropped is not None:
                raise self._left_behind(dropped + 1)
            return False
        if entries[0].at != self._fence.at + 1:
            raise self._left_behind(entries[0].at)
        try:
            self._apply(entries)
        except (_GivenUp, ProgramEnded) as error:
            self._begin_again(str(error))
        return True

    def _left_behind(self, first: int) -> ReplicaStopped:
        """What is raised where the log begins behind what is here: what stood between was dropped."""
        return ReplicaStopped(
            f"the log begins at place {first}, and what is here ends at {self._fence.at}: begin from the file of another replica"
        )

    def _apply(self, entries: Sequence[Entry]) -> None:
        """Carries entries out: the lines between cuts all at once, with nothing seen outside before."""
        self._check_order(entries)
        lines: list[Entry] = []
        for entry in entries:
            if entry.cut:
                self._carry_out(lines)
                lines = []
                self._fence.at, self._fence.chain = entry.at, entry.chain
                self._cut()
            else:
                lines.append(entry)
        self._carry_out(lines)

    def _carry_out(self, entries: Sequence[Entry]) -> None:
        if not entries:
            return
        outcomes = self._store.run_all(entry.sent() for entry in entries)
        for entry, outcome in zip(entries, outcomes):
            if isinstance(outcome, Refused) and outcome.number == 1:
                raise _GivenUp(f"place {entry.at} was answered: refused 1 Memory")
        for entry, outcome in zip(entries, outcomes):
            if entry.key in self._awaited:
                # The owner may have given the login another number meanwhile.
                self._own_number = entry.editor
            if entry.editor == self._own_number:
                self._note(entry, outcome)
        self._fence.at, self._fence.chain = entries[-1].at, entries[-1].chain

    def _note(self, entry: Entry, outcome: Outcome) -> None:
        """Keeps the answer of a line of the own editor for a while."""
        if isinstance(outcome, Refused):
            line = outcome.line if outcome.member else lines_of(entry.line)[0]
            outcome = Refused(outcome.number, outcome.name, line, outcome.detail)
        self._answers[entry.key] = outcome
        if len(self._answers) > _ANSWERS:
            del self._answers[next(iter(self._answers))]

    def _check_order(self, entries: Sequence[Entry]) -> None:
        """`ReplicaStopped` where entries do not follow what was carried out here, before any of them is."""
        at, chain = self._fence.at, self._fence.chain
        for entry in entries:
            at, chain = at + 1, chained(chain, entry)
            if (entry.at, entry.chain) != (at, chain):
                raise ReplicaStopped(
                    f"place {entry.at} of the log does not follow what was carried out here: another log"
                )

    # Cuts

    def _cut(self) -> None:
        """Saves the store and loads it again, as every replica does at this place."""
        self._store.close()
        try:
            self._snapshot = self._snapshots.keep(self._aside, self._fence.at, self._fence.chain)
        except OSError as error:
            raise _GivenUp(f"the file could not be kept: {error}") from error
        self._begin()
        self._compare()

    def _vote(self) -> None:
        """Puts down what the newest file is, where the login is that of a replica and the log has the cut still."""
        if self._snapshot is None or not self._votes:
            return
        try:
            if self._following.chain_at_cut(self._snapshot.at) is not None:
                self._votes = self._following.put_sum(self._snapshot.at, self._sum)
        except (LogUnreachable, LogRefused) as error:
            self._teller.tell(str(error))

    def _compare_now(self, place: int, until: float) -> None:
        """Compares the newest file at the beginning, and is at a place of the log again after that."""
        try:
            self._compare()
        except LogUnreachable as error:
            # `follow` compares it when a server is there.
            self._teller.tell(str(error))
        except _GivenUp as reason:
            self._begin_again(str(reason))
            self._catch_up(place, until)

    def _compare(self) -> None:
        """Puts down what the newest file is. `_GivenUp` where it may be wrong; it is set aside then.

        Where it was the same again after that, `ReplicaStopped` if it is not that of the trusted
        login. Else it is told: anybody who may put down sums could stop all others.
        """
        self._compared = time.monotonic()
        if self._snapshot is None:
            return
        sums = self._following.sums(self._snapshot.at)
        own = sums.pop(self._login, None)
        reason = self._doubt(self._snapshot.at, own, sums)
        if reason:
            self._go_back(self._snapshot, reason)
        if own is None:
            self._vote()
        if reason and self._trust in sums:
            raise ReplicaStopped(f"{reason}; carried out again it was the same")
        self._differing.tell(reason and f"{reason}; it goes on, and a person has to look at the machines")

    def _doubt(self, place: int, own: str | None, sums: dict[str, str]) -> str:
        """Why the newest file may be wrong, by the sums of the login itself and of others; empty where it is not."""
        if self._trust in sums:
            return "" if sums[self._trust] == self._sum else f"at the cut {place} {self._trust} has another file"
        others = Counter(sums.values())
        for_it = others.pop(self._sum, 0) + 1
        against = max(others.values(), default=0)
        if against >= for_it:
            return f"at the cut {place} {for_it} replicas have the file that is here, and {against} another one"
        if own not in (None, self._sum) and for_it == 1:
            return f"at the cut {place} {self._login} has put down another file than the one that is here"
        return ""

    def _go_back(self, snapshot: Snapshot, reason: str) -> None:
        """Sets a file aside that may be wrong, with `_GivenUp`: once, and where the lines can be carried out again."""
        if self._differed_at == snapshot.at:
            return
        before = self._snapshots.before(snapshot)
        first = self._following.first()
        if first is None or first > (0 if before is None else before.at) + 1:
            return
        self._differed_at = snapshot.at
        self._snapshots.put_aside(snapshot)
        raise _GivenUp(reason)


def _checked(line: str) -> str:
    """A line, where it is one that gets an answer. `ValueError` else."""
    if "\n" in line or "\0" in line:
        raise ValueError("a line feed or a NUL stands in the line")
    if not line.removesuffix("\r").strip(" \t"):
        raise ValueError("the line is blank")
    if size_of(line) is not None:
        raise ValueError("the line begins a group, which has one answer: send it with all of its members")
    line.encode()
    return line


def _size(edits: Sequence[Asked]) -> int:
    """About how many bytes some lines have."""
    return sum(len(edit.line) for edit in edits)
