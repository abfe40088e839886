"""What the tests of the page have in common: a server of a store in a process of its own, and calls to it."""

from __future__ import annotations

import http.client
import json
import os
import signal
import subprocess
import sys
import unittest
from importlib.util import find_spec
from urllib.parse import parse_qs

from support import FOLDER, PROGRAM, TestCase

TOWN = FOLDER.parent / "examples" / "town.txt"


class Serving:
    """A running ``sfstore-web``: its addresses, and the calls of a page."""

    def __init__(self, path, *words, program=PROGRAM, **environment):
        self.process = subprocess.Popen(
            [sys.executable, "-m", "sfstore.web.command", str(path), f"--program={program}", *words],
            env={**os.environ, "PYTHONPATH": str(FOLDER), **environment},
            stdin=subprocess.PIPE,
            stdout=subprocess.PIPE,
            stderr=subprocess.PIPE,
            text=True,
        )
        self.said = ""
        self.owners_address = self.told_address()
        while "Ctrl-C ends it" not in self.said:
            self.read_line()
        self.port = int(self.owners_address.split(":")[2].split("/")[0])
        self.host = f"127.0.0.1:{self.port}"
        self.key = None

    def read_line(self):
        """A further line of what it says."""
        line = self.process.stdout.readline()
        if not line:
            raise AssertionError(f"it has ended: {self.said}{self.process.stderr.read()}")
        self.said += line
        return line

    def told_address(self):
        """The next address that it tells."""
        while "http://" not in (line := self.read_line()):
            pass
        return next(word for word in line.split() if word.startswith("http://"))

    def type(self, line):
        """Types a line at its terminal."""
        self.process.stdin.write(line + "\n")
        self.process.stdin.flush()

    def address(self, name=None):
        """An address that lets somebody in: a person of a name, or a new one."""
        self.type(f"link {name}" if name else "link")
        return self.told_address()

    def request(self, method, path, body=None, **changed):
        """The status, the headers and the body of an answer. `None` leaves out a header."""
        headers = {
            "Host": self.host,
            "Origin": f"http://{self.host}",
            "Authorization": self.key and f"Bearer {self.key}",
            "Content-Type": "application/json",
            **{name.replace("_", "-"): value for name, value in changed.items()},
        }
        connection = http.client.HTTPConnection("127.0.0.1", self.port, timeout=60)
        try:
            connection.putrequest(method, path, skip_host=True, skip_accept_encoding=True)
            for name, value in headers.items():
                if value is not None:
                    connection.putheader(name, value)
            if body is not None and "Content-Length" not in headers:
                connection.putheader("Content-Length", str(len(body)))
            connection.endheaders(body)
            answer = connection.getresponse()
            return answer.status, answer.headers, answer.read()
        finally:
            connection.close()

    def posted(self, path, key=None, **body):
        """The status and the answer of a call, with the key of whoever was the first to log in if none is given."""
        key = key or self.key
        status, _, data = self.request("POST", path, json.dumps(body).encode(), Authorization=f"Bearer {key}")
        return status, json.loads(data)

    def call(self, path, key=None, **body):
        """The answer of a call. `AssertionError` where it is not carried out."""
        if key is None and self.key is None:
            self.log_in("Somebody")
        status, answer = self.posted(path, key, **body)
        if status != 200:
            raise AssertionError(f"{status} {answer}")
        return answer

    def log_in(self, name):
        """Somebody who comes by a link of their name."""
        return self.come_in(self.address(name), name)

    def come_in(self, address, name):
        """Somebody who comes by an address, and takes a name."""
        told = self.call("/login", key="none", link=link_of(address), name=name)
        self.key = self.key or told["key"]
        return Person(self, told)

    def end(self, number=signal.SIGINT):
        """Ends it, and gives its status; what it said is kept."""
        if self.process.poll() is None:
            self.process.send_signal(number)
        said, self.errors = self.process.communicate(timeout=60)
        self.said += said
        return self.process.returncode


class Person:
    """Someone who has logged in, with a page that has seen all, if nothing else is said."""

    def __init__(self, serving, login, page="page"):
        self.serving = serving
        self.login = login
        self.key, self.editor = login["key"], login["editor"]
        self.page = page

    def other_page(self):
        """Another page of the same person."""
        return Person(self.serving, self.login, "other page")

    def body(self, line, seen=None):
        """A call that has a line carried out, as JSON."""
        return {"page": self.page, "line": line, "seen": self.version() if seen is None else seen}

    def version(self):
        """The version of the store as it is now."""
        return self.serving.call("/map", key=self.key)["version"]

    def posted(self, line, seen=None):
        """The status and the answer of a line."""
        return self.serving.posted("/line", key=self.key, **self.body(line, seen))

    def line(self, line, seen=None):
        """The answer of a line of the console."""
        return self.serving.call("/line", key=self.key, **self.body(line, seen))

    def answer(self, line):
        return self.line(line)["answer"]

    def refused(self, line):
        return self.line(line)["refused"]

    def feature(self, layer, identifier):
        """What the page is told of a feature."""
        return self.serving.call("/feature", key=self.key, layer=layer, id=identifier)


def link_of(address):
    """The link of an address."""
    [link] = parse_qs(address.partition("#")[2])["link"]
    return link


@unittest.skipUnless(find_spec("h11"), "no h11 (apt-get install python3-h11)")
class WebCase(TestCase):
    """A test with a store's file and servers, which are ended with it."""

    def setUp(self):
        super().setUp()
        self.path = self.folder / "town.sfs"

    def serve(self, *words, path=None, program=PROGRAM):
        serving = Serving(path or self.path, "--no-browser", *words, program=program)
        self.addCleanup(serving.end, signal.SIGKILL)
        return serving

    def make(self, lines, path=None):
        """Has the program make a store's file of lines."""
        words = [PROGRAM, f"--save={path or self.path}"]
        subprocess.run(words, input=lines, check=True, stdout=subprocess.DEVNULL)

    def make_town(self):
        self.make(TOWN.read_bytes())

    def programs(self, serving):
        """The programs of a server, by their numbers."""
        said = subprocess.run(["pgrep", "-P", str(serving.process.pid)], capture_output=True, text=True)
        return list(map(int, said.stdout.split()))
