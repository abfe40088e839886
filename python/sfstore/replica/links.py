"""Connections to PostgreSQL that never wait without a limit, and that never cancel a commit."""

from __future__ import annotations

import importlib
import re
import selectors
import time
from collections.abc import Callable, Sequence
from typing import Any

try:
    psycopg2: Any = importlib.import_module("psycopg2")
except ImportError:
    # `check_driver` tells it.
    psycopg2 = None

__all__ = [
    "Link",
    "LinkLost",
    "LogRefused",
    "NoAnswer",
    "check_driver",
    "database_of",
    "place_of",
    "primary_of",
    "servers_of",
]

_CONNECT_SECONDS = 3.0
_TICK_SECONDS = 1.0

# So that a machine that went away is noticed within some ten seconds. Words of connection go before.
_WATCH = {
    "keepalives_idle": "5",
    "keepalives_interval": "2",
    "keepalives_count": "2",
    "tcp_user_timeout": "9000",
    "application_name": "sfstore-replica",
    "client_encoding": "UTF8",
}

# Of what file the write-ahead log is, whose name begins with the timeline; empty on a standby.
_WRITTEN = "SELECT CASE WHEN pg_is_in_recovery() THEN '' ELSE pg_walfile_name(pg_current_wal_insert_lsn()) END"

# A server that is a standby refuses what writes so.
_READ_ONLY = "25006"


_WHERE = re.compile("^connection to server .* failed: ")


class LinkLost(Exception):
    """The server is not there any more, or does not answer in time: what was asked may have happened or not."""


class NoAnswer(LinkLost):
    """The server has not answered in the time that it was given."""


class LogRefused(Exception):
    """The server refused what was asked, and nothing was changed."""

    code: str
    """The SQLSTATE, such as ``SF101``."""

    def __init__(self, code: str, text: str) -> None:
        super().__init__(text)
        self.code = code


def check_driver() -> None:
    """`ModuleNotFoundError` in one clear sentence where psycopg2 is missing."""
    if psycopg2 is None:
        raise ModuleNotFoundError("replicas need psycopg2 for Python (Debian's package python3-psycopg2)")


def _parsed(dsn: str) -> dict[str, str]:
    """Words of connection by their names. `ValueError` where they are none: what was said may have a password in it."""
    try:
        return dict(psycopg2.extensions.parse_dsn(dsn))
    except psycopg2.ProgrammingError:
        raise ValueError("the log is no words of connection, such as 'host=alpha,beta dbname=town'") from None


def servers_of(dsn: str) -> list[str]:
    """The words of connection to each single server that some words name: hosts and ports go by pairs.

    >>> servers_of("host=a,b port=1,2 dbname=town")
    ['dbname=town host=a port=1', 'dbname=town host=b port=2']
    """
    words = _parsed(dsn)
    lists = {key: words.pop(key, "").split(",") for key in ("host", "hostaddr", "port")}
    count = max(len(lists["host"]), len(lists["hostaddr"]))
    for key, items in lists.items():
        # One port is that of all hosts; no host and no address are those of none.
        if len(items) == 1 and (key == "port" or not items[0]):
            items *= count
        if len(items) != count:
            raise ValueError(f"{count} hosts, but {len(items)} of {key}")
    places = [dict(zip(lists, place)) for place in zip(*lists.values())]
    return [
        str(psycopg2.extensions.make_dsn(**words, **{key: it for key, it in place.items() if it}))
        for place in places
    ]


def place_of(dsn: str) -> str:
    """Where a server is, without the login's secrets."""
    words = _parsed(dsn)
    return f"the server {words.get('host') or words.get('hostaddr', 'here')}:{words.get('port', '5432')}"


def primary_of(dsn: str) -> Link:
    """A connection to the server that takes writes: of several that do, to that of the highest timeline.

    Each server of the words has a limit of time of its own, so that one that hangs hides no other.
    `LinkLost` where none takes writes.
    """
    reasons: list[str] = []
    found: list[tuple[str, Link]] = []
    for server in servers_of(dsn):
        try:
            link = Link(server)
            [(file,)] = link.ask(_WRITTEN, seconds=_CONNECT_SECONDS)
        except (LinkLost, LogRefused) as error:
            reasons.append(f"{place_of(server)}: {error}")
            continue
        if file:
            found.append((file, link))
        else:
            link.close()
            reasons.append(f"{place_of(server)} is a standby")
    if not found:
        raise LinkLost("; ".join(reasons))
    found.sort(key=lambda it: it[0][:8])
    for _, link in found[:-1]:
        link.close()
    return found[-1][1]


def database_of(dsn: str) -> tuple[str, str]:
    """The name of the database of some words of connection, and the words for the one that each server has."""
    name = _parsed(dsn).get("dbname", "postgres")
    return name, str(psycopg2.extensions.make_dsn(dsn, dbname="postgres"))


class Link:
    """A connection to one server, of which each statement is a transaction.

    `LinkLost` where it can't be reached within three seconds, or refuses the login.
    """

    def __init__(self, dsn: str) -> None:
        self.dsn = dsn
        given = psycopg2.extensions.parse_dsn(dsn)
        watch = {key: value for key, value in _WATCH.items() if key not in given}
        try:
            self._raw: Any = psycopg2.connect(dsn, async_=1, **watch)
            self._wait(_CONNECT_SECONDS, None)
        except psycopg2.Error as error:
            raise LinkLost(_first_line(error)) from error

    def ask(
        self,
        words: str,
        values: Sequence[object] = (),
        seconds: float = 10.0,
        tick: Callable[[], object] | None = None,
    ) -> list[Any]:
        """The rows that a statement gives.

        `LinkLost` where it takes longer than some seconds: the connection is dropped then, and the
        statement goes on by itself or not. ``tick`` is called about every second meanwhile; what it
        raises drops the connection too. `LogRefused` where the server refuses the statement.
        """
        try:
            cursor = self._raw.cursor()
            cursor.execute(words, list(values) or None)
            self._wait(seconds, tick)
            return list(cursor.fetchall()) if cursor.description else []
        except (psycopg2.OperationalError, psycopg2.InterfaceError) as error:
            self.close()
            raise LinkLost(_first_line(error)) from error
        except psycopg2.Error as error:
            if error.pgcode is None or error.pgcode == _READ_ONLY:
                self.close()
                raise LinkLost(_first_line(error)) from error
            raise LogRefused(error.pgcode, _first_line(error)) from error
        except BaseException:
            self.close()
            raise

    def heard(self) -> bool:
        """Whether the server has said something new since this was asked last. `LinkLost` where it has gone."""
        try:
            self._raw.poll()
        except psycopg2.Error as error:
            self.close()
            raise LinkLost(_first_line(error)) from error
        told = bool(self._raw.notifies)
        self._raw.notifies.clear()
        return told

    def has_news(self) -> bool:
        """Whether `heard` would say something new without asking the server."""
        return bool(self._raw.notifies)

    def fileno(self) -> int:
        """The socket, which can be read when the server has said something."""
        return int(self._raw.fileno())

    def close(self) -> None:
        """Drops the connection. A statement that the server carries out is not cancelled."""
        self._raw.close()

    def _wait(self, seconds: float, tick: Callable[[], object] | None) -> None:
        """Waits until the connection has nothing to do any more."""
        until = time.monotonic() + seconds
        ticked = time.monotonic()
        while True:
            state = self._raw.poll()
            if state == psycopg2.extensions.POLL_OK:
                return
            now = time.monotonic()
            if now > until:
                self.close()
                raise NoAnswer(f"no answer within {seconds:.3g} seconds")
            if tick is not None and now > ticked + _TICK_SECONDS:
                ticked = now
                tick()
            is_reading = state == psycopg2.extensions.POLL_READ
            _wait_for(self._raw, is_reading, min(_TICK_SECONDS, until - now + 0.001))


def _wait_for(raw: Any, is_reading: bool, seconds: float) -> None:
    """Waits for a connection's socket, whatever its number is. It may be another one than before."""
    with selectors.DefaultSelector() as selector:
        selector.register(raw, selectors.EVENT_READ if is_reading else selectors.EVENT_WRITE)
        selector.select(seconds)


def _first_line(error: Exception) -> str:
    """What the server says, or why it is not there, without where it was looked for."""
    line = str(error).strip().partition("\n")[0]
    return _WHERE.sub("", line) or type(error).__name__
