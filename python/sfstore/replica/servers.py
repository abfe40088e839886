"""PostgreSQL servers of one's own on this machine, for demonstrations and tests: a primary and its standby.

They listen on sockets in a folder that nobody else can open, so every login is let in there.
"""

from __future__ import annotations

import contextlib
import os
import shutil
import signal
import subprocess  # nosec B404: programs of this machine are started without a shell
import tempfile
import time
from collections.abc import Sequence
from pathlib import Path
from typing import Any

from sfstore.replica.links import Link, LinkLost

__all__ = ["Pair", "Server", "binaries"]

_START_SECONDS = 60.0
_OWNER = "postgres"


def binaries() -> Path | None:
    """The folder of PostgreSQL's programs, the newest of those that Debian has; none where there is none."""
    found = sorted(Path("/usr/lib/postgresql").glob("*/bin/initdb"), key=lambda path: int(path.parts[4]))
    if found:
        return found[-1].parent
    program = shutil.which("initdb")
    return Path(program).resolve().parent if program else None


def _owner() -> dict[str, Any]:
    """Who runs a server: root may not."""
    return {"user": _OWNER, "group": _OWNER, "extra_groups": []} if os.getuid() == 0 else {}


class Server:
    """A server with a folder and a socket of its own."""

    def __init__(self, folder: Path, name: str, options: Sequence[str] = ()) -> None:
        found = binaries()
        if found is None:
            raise FileNotFoundError("PostgreSQL is not installed (Debian's package postgresql)")
        self._bin = found
        self._folder = folder / name
        self.name = name
        self._options = list(options)
        self._process: subprocess.Popen[bytes] | None = None

    @property
    def data(self) -> Path:
        """The folder of its files."""
        return self._folder / "data"

    def dsn(self, login: str = _OWNER, database: str = "postgres") -> str:
        """The words of connection to this server."""
        return f"host={self._folder} port=5432 user={login} dbname='{database}'"

    def make(self) -> None:
        """Makes it with nothing in it."""
        self._make_folder()
        words = ["initdb", "-D", str(self.data), "-A", "trust", "-U", _OWNER, "-E", "UTF8", "--locale=C", "-N"]
        self._run(words)

    def copy(self, primary: Server) -> None:
        """Makes it a standby of another one anew."""
        shutil.rmtree(self._folder, ignore_errors=True)
        self._make_folder()
        dsn = f"host={primary._folder} port=5432 user={_OWNER} application_name={self.name}"
        self._run(["pg_basebackup", "-D", str(self.data), "-R", "-X", "stream", "-c", "fast", "-N", "-d", dsn])

    def start(self, standbys: str) -> None:
        """Starts it, and waits until it lets logins in. While it is a primary its commits wait for some standbys."""
        words = ["postgres", "-D", str(self.data), "-k", str(self._folder), "-h", "", "-p", "5432"]
        # A standby that is to take over looks for its primary again after so long.
        retry = "wal_retrieve_retry_interval=100ms"
        for option in (f"synchronous_standby_names={standbys}", "log_min_messages=fatal", retry, *self._options):
            words += ["-c", option]
        with open(self._folder / "log", "ab") as log:
            words[0] = str(self._bin / words[0])
            self._process = subprocess.Popen(  # nosec B603: no shell; PostgreSQL's program
                words, cwd="/", stdin=subprocess.DEVNULL, stdout=log, stderr=log, start_new_session=True, **_owner()
            )
        self._wait_for(self.dsn())

    def wait_for_standbys(self, count: int) -> None:
        """Waits until so many standbys are waited for by commits."""
        link = Link(self.dsn())
        words = "SELECT count(*) FROM pg_stat_replication "
        words += "WHERE state = 'streaming' AND sync_state IN ('sync', 'quorum')"
        until = time.monotonic() + _START_SECONDS
        while link.ask(words)[0][0] < count:
            if time.monotonic() > until:
                raise TimeoutError(f"{self.name} has no standby")
            time.sleep(0.02)
        link.close()

    def promote(self) -> None:
        """Makes a standby the primary."""
        self._run(["pg_ctl", "promote", "-D", str(self.data), "-w", "-t", "60"])

    def kill(self) -> None:
        """Ends all its processes at once, as if its machine went down."""
        for pid in self.processes():
            with contextlib.suppress(ProcessLookupError):
                os.kill(pid, signal.SIGKILL)
        self._reap()

    def stall(self, number: signal.Signals = signal.SIGSTOP) -> None:
        """Has all its processes stand still, or go on with ``SIGCONT``."""
        for pid in self.processes():
            with contextlib.suppress(ProcessLookupError):
                os.kill(pid, number)

    def stop(self) -> None:
        """Ends it in order."""
        if self.is_running():
            self.stall(signal.SIGCONT)
            os.kill(self._postmaster(), signal.SIGINT)
        self._reap()

    def is_running(self) -> bool:
        return self._process is not None and self._process.poll() is None

    def processes(self) -> list[int]:
        """The processes of this server alone, the first of them first."""
        main = self._postmaster()
        words = ["ps", "-o", "pid=", "--ppid", str(main)]
        said = subprocess.run(words, capture_output=True, text=True)  # nosec B603, B607: no shell; ps of the PATH
        children = said.stdout.split()
        return [main, *map(int, children)]

    def _postmaster(self) -> int:
        return int((self.data / "postmaster.pid").read_text().split("\n")[0])

    def _reap(self) -> None:
        if self._process is not None:
            self._process.wait(60)
            self._process = None

    def _make_folder(self) -> None:
        self._folder.mkdir(parents=True)
        if os.getuid() == 0:
            shutil.chown(self._folder, _OWNER, _OWNER)

    def _run(self, words: Sequence[str]) -> None:
        """Runs a program of PostgreSQL to its end."""
        whole = [str(self._bin / words[0]), *words[1:]]
        ended = subprocess.run(whole, cwd="/", capture_output=True, text=True, **_owner())  # nosec B603: no shell
        if ended.returncode:
            raise RuntimeError(f"{words[0]}: {ended.stderr.strip()}")

    def _wait_for(self, dsn: str) -> None:
        until = time.monotonic() + _START_SECONDS
        while True:
            try:
                Link(dsn).close()
                return
            except LinkLost as lost:
                if not self.is_running() or time.monotonic() > until:
                    log = (self._folder / "log").read_text(errors="replace")
                    raise RuntimeError(f"{self.name} does not start: {lost}\n{log[-2000:]}") from lost
                time.sleep(0.05)


class Pair:
    """A primary and a standby that its commits wait for, in a new folder that goes when they end."""

    def __init__(self, options: Sequence[str] = (), folder: Path | None = None) -> None:
        self._made = tempfile.mkdtemp(prefix="sfstore-servers-", dir=folder)
        if os.getuid() == 0:
            shutil.chown(self._made, _OWNER, _OWNER)
        top = Path(self._made)
        self.primary, self.standby = (Server(top, name, options) for name in ("a", "b"))
        try:
            self.primary.make()
            self.primary.start(self.standby.name)
            self.renew_standby()
        except BaseException:
            self.close()
            raise

    def __enter__(self) -> Pair:
        return self

    def __exit__(self, *_: object) -> None:
        self.close()

    def close(self) -> None:
        """Ends both, and takes their folder away."""
        for server in (self.standby, self.primary):
            if server.is_running():
                server.kill()
        shutil.rmtree(self._made, ignore_errors=True)

    def dsn(self, login: str, database: str = "postgres") -> str:
        """The words of connection to both."""
        folders = ",".join(str(Path(self._made) / name) for name in ("a", "b"))
        return f"host={folders} port=5432,5432 user={login} dbname={database}"

    def fail_over(self) -> None:
        """Has the standby take over from a primary that was killed. Its commits wait for the other one."""
        self.primary, self.standby = self.standby, self.primary
        self.primary.promote()

    def renew_standby(self) -> None:
        """Makes the server that was killed a standby of the other one, and waits until it is one."""
        self.standby.copy(self.primary)
        self.standby.start(self.primary.name)
        self.primary.wait_for_standbys(1)
