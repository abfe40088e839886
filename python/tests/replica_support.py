"""What the tests of replicas have in common: two servers, and a log in a database of its own for each test."""

from __future__ import annotations

import itertools
import os
import pwd
import re
import socket
import subprocess
import sys
import textwrap
import time
import unittest
from importlib.util import find_spec

from support import FOLDER, PROGRAM, TestCase

from sfstore.replica import Replica, owning, servers
from sfstore.replica.links import Link, LogRefused


def missing():
    """Why replicas can't be tried here; empty where they can."""
    if servers.binaries() is None:
        return "no PostgreSQL (Debian's package postgresql)"
    if not find_spec("psycopg2"):
        return "no psycopg2 (Debian's package python3-psycopg2)"
    if os.getuid() == 0 and not any(user.pw_name == "postgres" for user in pwd.getpwall()):
        return "no user postgres, as whom root could run servers"
    return ""


# A program before the real one that takes its time over a question.
SLOW = """\
    import ctypes, subprocess, sys, os, time
    def follow(): ctypes.CDLL(None).prctl(1, 9)  # the program is killed with this one
    program = subprocess.Popen([{program!r}, *sys.argv[1:]], stdin=subprocess.PIPE, bufsize=0, preexec_fn=follow)
    for line in sys.stdin.buffer:
        if line.startswith(b"match"): time.sleep({seconds})
        program.stdin.write(line)
    program.stdin.close()
    sys.exit(program.wait())
    """

# A kill leaves what was written in the system's memory: what these tests try needs no sync.
OPTIONS = ["fsync=off"]

_databases = itertools.count(1)
_shared = []


@unittest.skipIf(missing(), missing())
class ReplicaCase(TestCase):
    """A test with a log of its own on a primary and a standby, which all tests of a module share."""

    @classmethod
    def setUpClass(cls):
        if not _shared:
            _shared.append(servers.Pair(OPTIONS))
            unittest.addModuleCleanup(lambda: _shared.pop().close())
        cls.pair = _shared[0]

    def setUp(self):
        super().setUp()
        self.told = []
        self.database = f"town{next(_databases)}"
        self.ask("CREATE DATABASE " + self.database, database="postgres")
        self.owner = self.pair.primary.dsn(database=self.database)
        owning.set_up(self.owner, 1)
        for login in ("ann", "ben", "cleo"):
            owning.add_login(self.owner, login, is_editor=True, is_replica=True)
        owning.add_login(self.owner, "rita", is_editor=False, is_replica=False)

    def ask(self, words, values=(), login="postgres", database=None):
        """The rows that the primary gives for a statement."""
        link = Link(self.pair.primary.dsn(login, database or self.database))
        try:
            return link.ask(words, values)
        finally:
            link.close()

    def dsn(self, login):
        return self.pair.dsn(login, self.database)

    def flagged(self, text, once):
        """A program before the real one that goes wrong while a file is there, which is taken at once or left."""
        flag = self.folder / "flag"
        flag.touch()
        return self._before_program(text, flag=str(flag), once=once)

    def slow_program(self, seconds):
        """A program before the real one that takes some seconds for a question by `match`."""
        return self._before_program(SLOW, seconds=seconds)

    def _before_program(self, text, **words):
        text = textwrap.dedent(text).format(program=PROGRAM, **words)
        return self.script(f"#!{sys.executable}\n{text}")

    def mounted(self, size, name="disk"):
        """A folder with a small disk of its own."""
        disk = self.folder / name
        disk.mkdir()
        words = ["mount", "-t", "tmpfs", "-o", f"size={size}", "sfstore-test", disk]
        if subprocess.run(words, capture_output=True).returncode:
            self.skipTest("a small disk can't be mounted here")
        self.addCleanup(subprocess.run, ["umount", "-l", disk], check=True)
        return disk

    def replica(self, login, program=PROGRAM, **changed):
        """A replica of a login, which ends with the test."""
        words = {"patience": 30.0, "tell": self.told.append, **changed}
        folder = words.pop("folder", self.folder / login)
        replica = Replica(folder, words.pop("log", self.dsn(login)), program=program, **words)
        self.addCleanup(replica.close)
        return replica

    def session(self, login, lines, *words):
        """What the command ``run`` says and answers to some lines."""
        return subprocess.run(
            [sys.executable, "-m", "sfstore.replica.command", "run", str(self.folder / login), self.dsn(login)]
            + ["--program", PROGRAM, *words],
            input=lines,
            env={**os.environ, "PYTHONPATH": str(FOLDER)},
            capture_output=True,
        )

    def listening(self):
        """A replica that listens at a socket: its process, and the socket's path."""
        words = ["run", str(self.folder / "ann"), self.dsn("ann"), "--program", PROGRAM, "--listen"]
        process = subprocess.Popen(
            [sys.executable, "-m", "sfstore.replica.command", *words],
            env={**os.environ, "PYTHONPATH": str(FOLDER)},
            stderr=subprocess.PIPE,
        )
        self.addCleanup(process.communicate)
        self.addCleanup(process.kill)
        path = self.folder / "ann" / "socket"
        until = time.monotonic() + 30
        while not path.exists() and time.monotonic() < until:
            time.sleep(0.02)
        return process, path

    def connected(self, path):
        """A connection to such a replica."""
        connection = socket.socket(socket.AF_UNIX)
        self.addCleanup(connection.close)
        until = time.monotonic() + 30
        # With a limit of time it would not wait while many are to be let in. The socket has its name a moment before it listens.
        while not self.is_let_in(connection, path) and time.monotonic() < until:
            time.sleep(0.02)
        connection.settimeout(30)
        return connection

    @staticmethod
    def is_let_in(connection, path):
        """Whether a socket takes a connection, and does not refuse it."""
        try:
            connection.connect(str(path))
        except ConnectionRefusedError:
            return False
        return True

    def asked(self, connection, lines, count):
        """Sends lines, and gives so many lines of answers."""
        connection.sendall(lines)
        with connection.makefile("rb") as answers:
            return [answers.readline().rstrip(b"\n") for _ in range(count)]

    def town(self, *logins, **changed):
        """Replicas of a store with a layer of points."""
        replicas = [self.replica(login, **changed) for login in logins]
        replicas[0].run("layer add w point")
        return replicas

    def cut(self, *replicas):
        """Cuts the log, has replicas follow, and gives the place and their files."""
        at = owning.cut(self.owner, 0, 10).at
        for replica in replicas:
            replica.follow()
        return at, [self.file(replica, at) for replica in replicas]

    def file(self, replica, at):
        [path] = replica._folder.glob(f"{at:020}-*.sfs")
        return path.read_bytes()

    def assert_denied(self, login, words, code="42501"):
        with self.assertRaises(LogRefused) as caught:
            self.ask(words, login=login)
        self.assertEqual(caught.exception.code, code, words)

    def assert_told(self, pattern):
        self.assertTrue([text for text in self.told if re.search(pattern, text)], f"{pattern}: {self.told}")
