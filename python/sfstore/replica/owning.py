"""What the owner of a log does: makes it, lets logins in, cuts it, and looks at it."""

from __future__ import annotations

import re
import time
import uuid
from pathlib import Path
from typing import NamedTuple

from sfstore.replica.links import Link, database_of, primary_of
from sfstore.replica.log import Fence, Writing

__all__ = [
    "Cut",
    "LoginExists",
    "State",
    "add_login",
    "create_database",
    "cut",
    "drop_before",
    "renew",
    "set_up",
    "state",
]

_SCHEMA = Path(__file__).with_name("log.sql")
_FUNCTION = re.compile(r"^CREATE FUNCTION .*?\$\$;$", re.DOTALL | re.MULTILINE)
_EDITORS = 255

# The chain before the first place is random: no other log has it.
_HEAD = """
    INSERT INTO sfstore.head (at, chain, start, standbys)
    SELECT 0, id, id, {standbys:d}
    FROM (SELECT sha256(convert_to(gen_random_uuid()::text || gen_random_uuid(), 'UTF8')) AS id) AS new
"""


class LoginExists(Exception):
    """An editor can't be added: it is one already, or all numbers are given."""


class Cut(NamedTuple):
    """A cut of the log."""

    at: int
    sums: dict[str, str]
    """What the file of each replica was there."""

    @property
    def alike(self) -> int:
        """How many replicas have the same file, where none has another one; else 0."""
        return len(self.sums) if len(set(self.sums.values())) == 1 else 0


class State(NamedTuple):
    """How a log stands."""

    at: int
    """The last place."""
    first: int | None
    """The first place that was not dropped; none where all are."""
    wanted: int
    """How many standbys have a line before it is given out."""
    standbys: list[tuple[str, str, int]]
    """The standbys: name, ``sync`` or ``quorum`` where commits wait for it, and how many bytes it is behind."""
    cuts: list[Cut]
    """The cuts, the newest last."""


def create_database(dsn: str) -> None:
    """Makes the database of some words of connection in UTF-8, where it is missing."""
    name, elsewhere = database_of(dsn)
    link = primary_of(elsewhere)
    try:
        words = "SELECT quote_ident(%s), EXISTS (SELECT FROM pg_database WHERE datname = %s)"
        [(quoted, is_there)] = link.ask(words, (name, name))
        if not is_there:
            link.ask(f"CREATE DATABASE {quoted} ENCODING 'UTF8' TEMPLATE template0", seconds=60.0)
    finally:
        link.close()


def set_up(dsn: str, standbys: int) -> None:
    """Makes the schema and the roles of a log in a database, as a superuser of it. All of it or nothing.

    A line is given out where so many standbys have it. `LogRefused` where the database has a log
    already, is not in UTF-8, or the login may not.
    """
    link = primary_of(dsn)
    try:
        [(encoding,)] = link.ask("SHOW server_encoding")
        if encoding != "UTF8":
            raise ValueError(f"the database has the encoding {encoding}: a log wants UTF8")
        link.ask(f"BEGIN; {_SCHEMA.read_text()} {_HEAD.format(standbys=standbys)}; COMMIT", seconds=60.0)
    finally:
        link.close()


def renew(dsn: str) -> None:
    """Gives a log that an older version has made the functions of this one, as a superuser. All of them or none; entries stay as they are.

    `LogRefused` where the database has no log, or one to which they can't be given.
    """
    text = _SCHEMA.read_text()
    functions = [each.replace("CREATE", "CREATE OR REPLACE", 1) for each in _FUNCTION.findall(text)]
    # Who may call them: those that were not there before are everybody's else.
    rights = text[text.index("REVOKE ALL ON ALL FUNCTIONS") : text.index("RESET ROLE")]
    link = primary_of(dsn)
    try:
        link.ask(f"BEGIN; SET LOCAL ROLE sfstore_owner; {' '.join(functions)} {rights} COMMIT", seconds=60.0)
    finally:
        link.close()


def add_login(dsn: str, login: str, *, is_editor: bool, is_replica: bool) -> int | None:
    """Lets a login follow the log, and as an editor append lines, and as a replica record sums.

    Where there is no such login it is made, without a password. Gives the editor's number: the
    lowest that is not given. `LoginExists` where it is an editor already.
    """
    link = primary_of(dsn)
    try:
        words = "SELECT quote_ident(%s), EXISTS (SELECT FROM pg_roles WHERE rolname = %s)"
        [(name, is_there)] = link.ask(words, (login, login))
        if not is_there:
            link.ask(f"CREATE ROLE {name} LOGIN")
        roles = ["sfstore_reader", *["sfstore_editor"] * is_editor, *["sfstore_replica"] * is_replica]
        link.ask(f"GRANT {', '.join(roles)} TO {name}")
        return _add_editor(link, login) if is_editor else None
    finally:
        link.close()


def _add_editor(link: Link, login: str) -> int:
    """Gives a login the lowest free number."""
    rows = link.ask(
        "INSERT INTO sfstore.editors (login, number) SELECT %s, min(number) FROM generate_series(1, %s) AS number "
        "WHERE number NOT IN (SELECT number FROM sfstore.editors) HAVING min(number) IS NOT NULL "
        "ON CONFLICT (login) DO NOTHING RETURNING number",
        (login, _EDITORS),
    )
    if not rows:
        raise LoginExists(f"{login} is an editor already, or all {_EDITORS} numbers are given")
    return int(rows[0][0])


def cut(dsn: str, replicas: int, seconds: float) -> Cut:
    """Cuts the log, and waits until so many replicas have the same file there, or for some seconds."""
    until = time.monotonic() + seconds
    log = Writing(dsn, Fence(), lambda text: None)
    try:
        at = log.cut(str(uuid.uuid4()), until)
        while True:
            made = Cut(at, log.sums(at, until))
            if made.alike >= replicas or time.monotonic() > until:
                return made
            time.sleep(0.05)
    finally:
        log.close()


def drop_before(dsn: str, at: int, replicas: int, age: str, seconds: float) -> int:
    """Drops all up to a cut of which so many replicas have the same file, and none another one.

    The cut has to be older than an age such as ``1 hour``. Tells how many entries were dropped.
    `LogRefused` where not all of that is so.
    """
    log = Writing(dsn, Fence(), lambda text: None)
    try:
        return log.drop_before(at, replicas, age, time.monotonic() + seconds)
    finally:
        log.close()


def state(dsn: str) -> State:
    """How the log stands."""
    link = primary_of(dsn)
    try:
        [(at, wanted)] = link.ask("SELECT at, standbys FROM sfstore.head")
        [(first,)] = link.ask("SELECT min(at) FROM sfstore.log")
        standbys = link.ask(
            "SELECT application_name, sync_state, coalesce(pg_current_wal_lsn() - flush_lsn, -1)::bigint "
            "FROM pg_stat_replication WHERE sync_state IS NOT NULL ORDER BY 1"
        )
        sums = link.ask(
            "SELECT cuts.at, replica, sum FROM sfstore.cuts LEFT JOIN sfstore.sums USING (at) ORDER BY 1, 2"
        )
    finally:
        link.close()
    cuts: dict[int, dict[str, str]] = {}
    for place, replica, total in sums:
        found = cuts.setdefault(place, {})
        if replica is not None:
            found[replica] = total
    return State(at, first, wanted, standbys, [Cut(*it) for it in cuts.items()])
