"""Tests of connections: slow ones, many of them, and how quickly an answer goes out."""

from __future__ import annotations

import contextlib
import socket
import threading
import time
import unittest
from importlib.util import find_spec
from unittest import mock

from support import TestCase
from test_web import Listening
from web_support import WebCase

if find_spec("h11") is None:
    raise unittest.SkipTest("no h11 (apt-get install python3-h11)")

from sfstore.web import connections, server
from sfstore.web.connections import Connections
from sfstore.web.events import Events
from sfstore.web.server import Server


class NoCalls:
    """What a server serves that answers no call."""

    def __init__(self):
        self.events = Events()
        self.by_path = {}

    def log_in(self, body):
        return {}


class Slow(TestCase):
    """Requests that come slowly."""

    def setUp(self):
        super().setUp()
        for name in ("_HEAD_SECONDS", "_BODY_SECONDS", "_IDLE_SECONDS"):
            patched = mock.patch.object(server, name, 0.5)
            patched.start()
            self.addCleanup(patched.stop)
        served = Server(NoCalls(), 0)
        self.port = served.server_port
        self.addCleanup(served.server_close)
        threading.Thread(target=served.serve_forever, args=[0.05], daemon=True).start()
        self.addCleanup(served.shutdown)

    def assert_given_up(self, begun):
        """Sends a byte now and then behind a beginning, until the connection is closed."""
        end = time.monotonic() + 20
        with socket.create_connection(("127.0.0.1", self.port), timeout=0.05) as connection:
            connection.sendall(begun)
            while time.monotonic() < end:
                try:
                    if not connection.recv(1):
                        return
                except socket.timeout:
                    pass
                except ConnectionError:
                    return
                with contextlib.suppress(ConnectionError):
                    connection.sendall(b"a")
        self.fail("the connection is kept")

    def test_a_head_has_some_seconds_as_a_whole(self):
        self.assert_given_up(b"")
        self.assert_given_up(b"GET / HTTP/1.1\r\nX: ")

    def test_a_body_has_some_seconds_as_a_whole(self):
        host = f"Host: 127.0.0.1:{self.port}\r\nOrigin: http://127.0.0.1:{self.port}\r\n"
        head = f"POST /login HTTP/1.1\r\n{host}Content-Type: application/json\r\nContent-Length: 400000\r\n\r\n"
        self.assert_given_up(head.encode())

    def test_a_silent_one_is_closed(self):
        with socket.create_connection(("127.0.0.1", self.port), timeout=30) as connection:
            self.assertEqual(connection.recv(1), b"")


class Many(WebCase):
    """Many connections."""

    def test_a_page_that_listens_gives_way_to_no_stranger(self):
        serving = self.serve()
        ann = serving.log_in("Ann")
        listening = Listening(serving)
        self.addCleanup(listening.close)
        self.assertEqual(listening.next(), {"hello": True})
        for _ in range(300):
            self.addCleanup(socket.create_connection(("127.0.0.1", serving.port), timeout=30).close)
        ann.line("layer add w point")
        self.assertEqual(listening.next()["line"], "layer add w point")

    def test_one_person_takes_no_more_than_some(self):
        serving = self.serve()
        ann, ben = serving.log_in("Ann"), serving.log_in("Ben")
        for _ in range(connections._OF_ONE_EDITOR_MAX):
            listening = Listening(serving)
            self.addCleanup(listening.close)
            self.assertEqual(listening.next(), {"hello": True})
        status, answer = serving.posted("/me", ann.key)
        self.assertEqual((status, answer["error"]), (503, "there are too many connections: close some pages"))
        self.assertEqual(serving.posted("/me", ben.key)[0], 200)

    def test_connections_are_closed_where_places_are_short(self):
        serving = self.serve()
        self.assertIsNone(serving.request("GET", "/")[1]["Connection"])
        for _ in range(connections._MANY_STRANGERS + 1):
            self.addCleanup(socket.create_connection(("127.0.0.1", serving.port), timeout=30).close)
        self.assertEqual(serving.request("GET", "/")[1]["Connection"], "close")

    def test_an_answer_comes_as_a_whole(self):
        # In two parts the second one waits until the first is acknowledged, which takes its time.
        serving = self.serve()
        with socket.create_connection(("127.0.0.1", serving.port), timeout=30) as connection:
            for _ in range(3):
                connection.sendall(f"GET /icon.svg HTTP/1.1\r\nHost: {serving.host}\r\n\r\n".encode())
                self.assertTrue(connection.recv(65_536).endswith(b"</svg>\n"))


class Places(unittest.TestCase):
    """Who gives way, without a server."""

    def pair(self):
        ours, theirs = socket.socketpair()
        self.addCleanup(ours.close)
        self.addCleanup(theirs.close)
        theirs.settimeout(10)
        return ours, theirs

    def test_the_oldest_stranger_gives_way(self):
        places = Connections()
        known = self.pair()
        places.enter(known[0])
        self.assertTrue(places.know(known[0], 1))
        strangers = [self.pair() for _ in range(connections._STRANGERS_MAX + 2)]
        for ours, _ in strangers:
            places.enter(ours)
        self.assertEqual([theirs.recv(1) for _, theirs in strangers[:2]], [b"", b""])
        for _, theirs in (known, *strangers[2:]):
            theirs.setblocking(False)
            with self.assertRaises(BlockingIOError):
                theirs.recv(1)

    def test_there_is_room_for_so_many(self):
        places = Connections()
        ours, _ = self.pair()
        for k in range(connections._KNOWN_MAX):
            self.assertTrue(places.know(self.pair()[0], k))
        self.assertFalse(places.know(ours, 1))
        self.assertTrue(places.are_many())

    def test_a_connection_of_two_editors(self):
        places = Connections()
        ours, _ = self.pair()
        self.assertTrue(places.know(ours, 1))
        self.assertTrue(places.know(ours, 2))
        self.assertTrue(places.is_known(ours))
        places.leave(ours)
        self.assertFalse(places.is_known(ours))


if __name__ == "__main__":
    unittest.main()
