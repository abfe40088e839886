"""The log of a store's lines, on whichever of its servers is the primary now."""

from __future__ import annotations

import hashlib
import os
import re
import time
import uuid
from collections.abc import Callable, Sequence
from pathlib import Path
from typing import Any, NamedTuple, TypeVar

from sfstore import files
from sfstore.replica.links import Link, LinkLost, LogRefused, NoAnswer, place_of, servers_of

__all__ = ["Dropped", "Entry", "Fence", "Following", "LogUnreachable", "Standing", "Writing", "chained", "new_key"]

_T = TypeVar("_T")

# How often another server is looked for that has taken over.
_LOOK_SECONDS = 3.0
_RETRY_SECONDS = 0.1
# How long standbys may take before the server is made to write out what it holds back.
_NUDGE_SECONDS = 0.02
# How long they may take before nothing is given, so that questions are answered meanwhile.
_KEPT_SECONDS = 0.5

_STANDING = """
    SELECT CASE WHEN pg_is_in_recovery() THEN '' ELSE pg_walfile_name(pg_current_wal_insert_lsn()) END,
      head.at, head.start,
      CASE wanted.at WHEN 0 THEN head.start WHEN head.at THEN head.chain ELSE coalesce(
        (SELECT chain FROM sfstore.log WHERE log.at = wanted.at), (SELECT chain FROM sfstore.cuts WHERE cuts.at = wanted.at), ''
      ) END
    FROM sfstore.head, (SELECT %s::bigint AS at) AS wanted
"""


# Where a key has the place from which on its line is tried, and what else says that it has one: version and variant.
_PLACE_AT, _PLACES_MAX = 80, 1 << 48
_VERSION, _VARIANT = 8 << 76, 2 << 62
_RANDOM = ((1 << 12) - 1) << 64 | ((1 << 62) - 1)

# The log looks once more when it has the lock, and refuses then. One that an earlier version made does not.
_FIRST = "SELECT coalesce((SELECT min(at) FROM sfstore.log), (SELECT at + 1 FROM sfstore.head)) AS first"
_DROPPED = "SF106"
_APPEND = f"""
    SELECT first, CASE WHEN coalesce(%s::bigint, first) >= first - 1 THEN sfstore.append(%s::uuid[], %s) END
    FROM ({_FIRST}) AS log
"""


class LogUnreachable(Exception):
    """No server of the log could be used in the time that was given. The text has the reason for each."""


class Dropped(Exception):
    """Lines are not written: what stood in the log behind the place from which on they are tried was dropped, and maybe they with it."""

    def __init__(self, first: int, is_first_try: bool) -> None:
        super().__init__(first, is_first_try)
        self.first = first
        """The place at which the log begins."""
        self.is_first_try = is_first_try
        """Whether nothing was sent before."""


def new_key(place: int) -> str:
    """The key of a line that is tried from now on, when the log is known up to a place: the key says which, whoever tries it again.

    >>> tried_since(new_key(7))
    7
    """
    return str(uuid.UUID(int=(place % _PLACES_MAX) << _PLACE_AT | _VERSION | _VARIANT | uuid.uuid4().int & _RANDOM))


def tried_since(key: str) -> int | None:
    """The place of the log up to which the line of a key is not searched; none of a key that does not say it."""
    given = uuid.UUID(key)
    return given.int >> _PLACE_AT if given.version == 8 else None


class Entry(NamedTuple):
    """An entry of the log."""

    at: int
    """Its place, from 1 on, without gaps."""
    key: str
    """By which its writer knows it."""
    editor: int
    """The number of the editor whose login put it down; 0 for a cut."""
    cut: bool
    line: str
    """The line without its editor, or a group as one text with carriage returns between its lines."""
    chain: bytes
    """SHA-256 over the chain before and this entry."""

    def sent(self) -> str:
        """The line as the program is given it."""
        return f"@{self.editor} {self.line}"


def chained(chain: bytes, entry: Entry) -> bytes:
    """The chain behind an entry, of the one before it."""
    return hashlib.sha256(chain + f"{entry.editor} {entry.cut:d} {entry.line}".encode()).digest()


class Standing(NamedTuple):
    """What a server of the log says of itself."""

    timeline: int
    """Counted up by each promotion; 0 where it is a standby."""
    at: int
    """The last place of its log."""
    start: bytes
    """The chain before the first place, which no other log has."""
    chain: bytes
    """The chain at the place that was asked for; empty where it is not known any more."""


class Fence:
    """Keeps an old primary from being followed: what was seen of the log so far.

    The highest timeline is in a file, where one is given, so that it outlives the process.
    """

    def __init__(self, path: Path | None = None) -> None:
        self._path = path
        self.timeline = 0 if path is None else _timeline_in(path)
        self.at = 0
        """The last place that was applied here."""
        self.chain = b""
        """The chain there; empty where nothing is applied yet."""

    def objection(self, standing: Standing) -> str:
        """Why a server of this standing is not to be used; empty where it is."""
        if not standing.timeline:
            return "is a standby"
        if standing.timeline < self.timeline:
            return (
                f"is of timeline {standing.timeline}, and {self.timeline} was seen: "
                "an old primary is not followed"
            )
        if standing.at < self.at:
            return f"ends at place {standing.at}, and {self.at} was applied: it has not the log"
        if standing.chain and self.chain and standing.chain != self.chain:
            return f"has another log than the one that was applied up to place {self.at}"
        return ""

    def admit(self, timeline: int) -> None:
        """Takes note of a timeline, before anything of it is used."""
        if timeline <= self.timeline:
            return
        self.timeline = timeline
        if self._path is not None:
            with files.whole_file(str(self._path)) as file:
                os.fchmod(file.fileno(), 0o600)
                file.write(b"%d\n" % timeline)


def _timeline_in(path: Path) -> int:
    """The timeline of a file; 0 where it is not there. `ValueError` where it has none: which primaries are old is not known then."""
    try:
        text = path.read_text("ascii", "replace").strip()
    except FileNotFoundError:
        return 0
    if not re.fullmatch("[0-9]{1,10}", text):
        raise ValueError(
            f"{path} is damaged: it has to say the highest timeline of the log that was seen here. "
            "Take it away once no old primary runs any more"
        )
    return int(text)


class _Servers:
    """The servers of a log, of which one is used, and another one when that is lost."""

    def __init__(self, dsn: str, fence: Fence, tell: Callable[[str], object]) -> None:
        self._servers = servers_of(dsn)
        self._fence = fence
        self._tell = tell
        self._link: Link | None = None
        self._timeline = 0
        self._looked = time.monotonic()
        self.standing = Standing(0, 0, b"", b"")
        """What the server said that was reached last."""

    def close(self) -> None:
        """Drops the connection; the next call makes another one."""
        if self._link is not None:
            self._link.close()
            self._link = None

    def sums(self, place: int, until: float = 0.0) -> dict[str, str]:
        """What the files of the replicas were at a cut, by their logins."""
        words = "SELECT replica, sum FROM sfstore.sums WHERE at = %s"
        return dict(self._ask(words, (place,), until))

    def _prepare(self, link: Link) -> None:
        """What a new connection is to be told."""

    def _on_link(self, task: Callable[[Link], _T], until: float) -> _T:
        """Has a task done over a connection, from its beginning again on another one where that is lost.

        A server is looked for once at least, and else until some moment. `LogUnreachable` then.
        """
        while True:
            was_there = self._link is not None
            try:
                if self._link is None:
                    self._link = self._reached()
                return task(self._link)
            except LinkLost as lost:
                self.close()
                if was_there and not isinstance(lost, NoAnswer):
                    continue
                if time.monotonic() > until:
                    raise LogUnreachable(str(lost)) from lost
                self._tell(str(lost))
                time.sleep(_RETRY_SECONDS)

    def _reached(self) -> Link:
        """A connection to the primary: of those that say they are one, to that of the highest timeline."""
        reasons: list[str] = []
        best: Link | None = None
        for dsn in self._servers:
            try:
                link, standing = _looked_at(dsn, self._fence.at)
            except (LinkLost, LogRefused) as error:
                reasons.append(f"{place_of(dsn)}: {error}")
                continue
            objection = self._fence.objection(standing)
            if objection or (best is not None and standing.timeline <= self._timeline):
                reasons.append(f"{place_of(dsn)} {objection}")
                link.close()
                continue
            if best is not None:
                best.close()
            best, self._timeline, self.standing = link, standing.timeline, standing
        if best is None:
            raise LinkLost("; ".join(reasons))
        self._fence.admit(self._timeline)
        self._prepare(best)
        return best

    def _ask(
        self, words: str, values: Sequence[object] = (), until: float = 0.0, seconds: float = 10.0
    ) -> list[Any]:
        """The rows of a statement, from whichever server is the primary."""
        return self._on_link(lambda link: self._asked(link, words, values, seconds), until)

    def _asked(self, link: Link, words: str, values: Sequence[object] = (), seconds: float = 10.0) -> list[Any]:
        """The rows of a statement over a connection, which is given up where another server takes over meanwhile."""
        return link.ask(words, values, seconds, lambda: self.look_around(link))

    def look_around(self, link: Link) -> None:
        """`LinkLost` where another server has taken over from the one of a connection; looked at seldom."""
        if time.monotonic() < self._looked + _LOOK_SECONDS:
            return
        for dsn in self._servers:
            if dsn == link.dsn:
                continue
            try:
                other, standing = _looked_at(dsn, self._fence.at)
            except (LinkLost, LogRefused):
                continue
            other.close()
            if standing.timeline > self._timeline:
                raise LinkLost(f"{place_of(dsn)} has taken over from {place_of(link.dsn)}")
        self._looked = time.monotonic()


class Following(_Servers):
    """The log as a replica follows it: only what is on as many standbys as the log wants."""

    def _prepare(self, link: Link) -> None:
        # What is written over this connection are sums, which are put down again where they are lost.
        link.ask("SET synchronous_commit = local")
        link.ask("LISTEN sfstore_log")

    def reach(self, until: float) -> Standing:
        """What the primary says of itself."""
        self._on_link(lambda link: None, until)
        return self.standing

    def last(self, until: float = 0.0) -> int:
        """The last place of the log, kept by standbys or not."""
        [(at,)] = self._ask("SELECT at FROM sfstore.head", until=until)
        return int(at)

    def behind(self, place: int, until: float = 0.0) -> list[Entry]:
        """Entries behind a place, as many as are had at once, and none that is not kept by standbys.

        Where standbys are late, nothing is given after half a second, and it says why.
        """
        return self._on_link(lambda link: self._behind(link, place), until)

    def standing_of(self, keys: Sequence[str], until: float = 0.0) -> list[int]:
        """The places of the lines of some keys, of those that stand in the log."""
        return [int(at) for (at,) in self._ask("SELECT at FROM sfstore.log WHERE key = ANY(%s::uuid[])", (list(keys),), until)]

    def dropped_to(self, place: int, until: float = 0.0) -> int | None:
        """The last place of the log, where all behind another place was dropped; none where it goes on there, or ends."""
        words = """
            SELECT at FROM sfstore.head WHERE at > %s AND NOT EXISTS (SELECT FROM sfstore.log WHERE log.at > %s)
        """
        rows = self._ask(words, (place, place), until)
        return int(rows[0][0]) if rows else None

    def chain_at_cut(self, place: int, until: float = 0.0) -> bytes | None:
        """The chain at a cut; none where the log has no such cut, or not any more."""
        words = "SELECT chain FROM sfstore.cuts WHERE at = %s"
        rows = self._ask(words, (place,), until)
        return bytes(rows[0][0]) if rows else None

    def first(self, until: float = 0.0) -> int | None:
        """The first place that was not dropped; none where all are."""
        [(at,)] = self._ask("SELECT min(at) FROM sfstore.log", until=until)
        return None if at is None else int(at)

    def put_sum(self, place: int, total: str, until: float = 0.0) -> bool:
        """Puts down what the own file is at a cut. False where the login is not that of a replica.

        `LogRefused` where the login has recorded another file there before (``SF105``).
        """
        words = "SELECT sfstore.put_sum(%s, %s)"
        try:
            self._ask(words, (place, total), until)
        except LogRefused as refused:
            if refused.code == "42501":
                return False
            raise
        return True

    def login(self, until: float = 0.0) -> str:
        """The login of the connection."""
        [(name,)] = self._ask("SELECT session_user", until=until)
        return str(name)

    def heard(self) -> bool:
        """Whether something was written since this was asked last. True where the server is lost."""
        if self._link is None:
            return True
        try:
            return self._link.heard()
        except LinkLost:
            self.close()
            return True

    def has_news(self) -> bool:
        """Whether something was written that the socket does not show any more."""
        return self._link is not None and self._link.has_news()

    def look(self) -> None:
        """Drops a server from which another one has taken over. Done now and then while nothing comes."""
        if self._link is not None:
            try:
                self.look_around(self._link)
            except LinkLost as lost:
                self._tell(str(lost))
                self.close()

    def fileno(self) -> int | None:
        """The socket on which news come; none without a connection."""
        return None if self._link is None else self._link.fileno()

    def _behind(self, link: Link, place: int) -> list[Entry]:
        words = "SELECT at, key, editor, cut, line, chain, goal FROM sfstore.behind(%s)"
        rows = self._asked(link, words, (place,), seconds=30.0)
        if not rows or not self._is_kept(link, rows[0][6]):
            return []
        return [Entry(at, key, editor, cut, line, bytes(chain)) for at, key, editor, cut, line, chain, _ in rows]

    def _is_kept(self, link: Link, goal: str) -> bool:
        """Waits for a moment for standbys to have all up to a point. The point is one of this connection's server."""
        begun = time.monotonic()
        pause, nudged = 0.0002, False
        while True:
            [(kept, wanted)] = self._asked(link, "SELECT kept, wanted FROM sfstore.kept(%s)", (goal,))
            waited = time.monotonic() - begun
            if kept >= wanted:
                self._tell("")
                return True
            if waited > _KEPT_SECONDS:
                self._tell(f"{kept} of {wanted} standbys have the last lines: none is given out before")
                self.look_around(link)
                return False
            if waited > _NUDGE_SECONDS and not nudged:
                # A small commit: the server may hold back what stands between the last line and the point.
                self._asked(link, "SELECT pg_current_xact_id()")
                nudged = True
            time.sleep(pause)
            pause = min(2 * pause, 0.05)


class Writing(_Servers):
    """The log as an editor or its owner writes it."""

    def own_number(self, until: float = 0.0) -> int | None:
        """The editor's number of the login; none where it is no editor's."""
        try:
            [(number,)] = self._ask("SELECT sfstore.own_number()", until=until)
        except LogRefused as refused:
            if refused.code == "42501":
                return None
            raise
        return None if number is None else int(number)

    def append(self, keys: Sequence[str], lines: Sequence[str], until: float) -> list[int]:
        """Has lines written as one, each once however often it is tried with its key, and gives their places.

        A place is no acknowledgement: a line is kept where `Following.behind` gives it. Where no
        server takes the lines by some moment, `LogUnreachable`: it is not known whether they stand.
        `Dropped` where they may have stood, and their keys were dropped since: they would stand twice.
        """
        waiting = _Waiting(self._tell)
        since = min((place for place in map(tried_since, keys) if place is not None), default=None)
        try:
            [(first, places)] = self._patiently(_APPEND, (since, list(keys), list(lines)), until, waiting)
        except LogRefused as refused:
            if refused.code != _DROPPED:
                raise
            [(first,)], places = self._ask(_FIRST, until=until), None
        if places is None:
            raise Dropped(first, waiting.tries == 1)
        return list(places)

    def cut(self, key: str, until: float) -> int:
        """Puts a cut down, and gives its place."""
        [(place,)] = self._patiently("SELECT sfstore.cut(%s)", (key,), until, _Waiting(self._tell))
        return int(place)

    def drop_before(self, place: int, replicas: int, age: str, until: float) -> int:
        """Drops all up to a cut of which so many replicas have the same file; how many entries those were."""
        words = "SELECT sfstore.drop_before(%s, %s, %s::interval)"
        [(dropped,)] = self._patiently(words, (place, replicas, age), until, _Waiting(self._tell))
        return int(dropped)

    def _patiently(self, words: str, values: Sequence[object], until: float, waiting: _Waiting) -> list[Any]:
        """Asks what waits for standbys. The wait is never cancelled, which would show a line that is not kept."""

        def task(link: Link) -> list[Any]:
            waiting.tries += 1

            def tick() -> None:
                waiting.tick(link.dsn)
                self.look_around(link)

            return link.ask(words, values, max(0.1, until - time.monotonic()), tick)

        try:
            rows = self._on_link(task, until)
        except LogUnreachable as error:
            raise LogUnreachable(waiting.reason or str(error)) from error
        self._tell("")
        return rows


class _Waiting:
    """Tells seldomer and seldomer how long something waits to be put down, and how many standbys there are."""

    def __init__(self, tell: Callable[[str], object]) -> None:
        self._tell = tell
        self._begun = time.monotonic()
        self._next = 0.0
        self.reason = ""
        self.tries = 0
        """How often it was sent."""

    def tick(self, dsn: str) -> None:
        """Has a look over another connection to the server, since the first one waits."""
        waited = time.monotonic() - self._begun
        if waited < self._next:
            return
        self._next = 2 * waited
        try:
            link = Link(dsn)
            [(kept, wanted)] = link.ask("SELECT kept, wanted FROM sfstore.kept('0/0')", seconds=3.0)
            link.close()
            self.reason = f"{kept} of {wanted} standbys are there"
        except (LinkLost, LogRefused) as error:
            self.reason = str(error)
        self.reason = f"the log has taken nothing for {waited:.0f} seconds: {self.reason}"
        self._tell(self.reason)


def _looked_at(dsn: str, place: int) -> tuple[Link, Standing]:
    """A connection to a server, and its standing, with the chain at a place."""
    link = Link(dsn)
    try:
        [(file, at, start, chain)] = link.ask(_STANDING, (place,), seconds=3.0)
    except BaseException:
        link.close()
        raise
    return link, Standing(int(file[:8], 16) if file else 0, at, bytes(start), bytes(chain))
