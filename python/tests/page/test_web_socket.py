"""Tests of the socket beside a store's file: its calls, who comes there, and what a server leaves."""

from __future__ import annotations

import contextlib
import json
import os
import random
import signal
import socket
import stat
import subprocess
import sys
import threading
import time
import unittest
from pathlib import Path
from unittest import mock

from support import FOLDER, PROGRAM, TestCase
from test_web import Listening
from test_web_connections import NoCalls
from web_support import WebCase

from sfstore import Store
from sfstore.web import client, command, socketed
from sfstore.web.client import AnothersServer, CallFailed, Client, ServerGone, start_server
from sfstore.web.socketed import Door, SocketTaken

# At how many moments a server is killed: more where the environment variable says so.
KILLS = int(os.environ.get("KILLS", "12"))
# Who has no rights of their own.
NOBODY = 65_534
# Listens at a path in a server's place, and writes what it is told.
LISTENING = """
import socket, sys
door = socket.socket(socket.AF_UNIX)
door.bind(sys.argv[1])
door.listen()
print("listens", flush=True)
while True:
    print(door.accept()[0].recv(1000), flush=True)
"""
MADE = b"layer add w point\ncolumn add w n int\nadd w POINT (1 1)\nadd w POINT (2 2)\n"


class SocketCase(WebCase):
    """A test with a served store of points."""

    def setUp(self):
        super().setUp()
        self.make(MADE)

    def client(self, name="Ann", path=None, seconds=30):
        made = Client(str(path or self.path), name, seconds)
        self.addCleanup(made.close)
        return made

    def batch(self, client, *lines, seen=None):
        """What a batch of somebody brings, who has seen all if nothing else is said."""
        seen = client.call("map")["version"] if seen is None else seen
        return client.call("batch", page=client.name, lines=list(lines), seen=[seen] * len(lines))

    def rows(self, client):
        ids = client.call("ids", layer="w")["ids"]
        return client.call("rows", layer="w", ids=ids)["rows"]


class Calls(SocketCase):
    """Programs at the socket, beside pages."""

    def setUp(self):
        super().setUp()
        self.serving = self.serve()

    def test_it_is_for_this_user_alone(self):
        found = os.stat(f"{self.path}.socket")
        self.assertTrue(stat.S_ISSOCK(found.st_mode))
        self.assertEqual((stat.S_IMODE(found.st_mode), found.st_uid), (0o600, os.getuid()))

    def test_a_program_and_a_page_see_one_another(self):
        page = self.serving.log_in("Eve")
        ann = self.client()
        heard = ann.events()
        self.addCleanup(heard.close)
        self.assertEqual(heard.wait(30), [{"hello": True}])
        listening = Listening(self.serving)
        self.addCleanup(listening.close)
        listening.next()
        page.answer("set w 1 n 5")
        [told] = heard.wait(30)
        self.assertEqual((told["editor"], told["changed"]), ("Eve", [{"what": "changed", "layer": "w", "id": 1}]))
        self.assertEqual(self.rows(ann)[0], "1 POINT (1 1) n=5")
        listening.next()
        self.batch(ann, "add w POINT (3 3)", "set w last n 9")
        told = listening.next()
        self.assertEqual((told["editor"], told["line"]), ("Ann", "together 2"))
        self.assertEqual(page.line("show w")["rows"][2], "3 POINT (3 3) n=9")
        self.assertEqual(page.refused("undo")["whose"]["editor"], "Ann")
        self.assertEqual(ann.call("line", page="Ann", line="undo"), {"answer": "ok"})
        self.assertEqual(ann.call("line", page="Ann", line="undo")["refused"]["whose"]["editor"], "Eve")

    def test_a_link_lets_somebody_in_by_the_page(self):
        address = self.client().call("link", name="Eve")["address"]
        self.assertEqual(self.serving.come_in(address, "ignored").login["name"], "Eve")
        with self.assertRaises(CallFailed):
            self.client().call("link", name="  ")

    def test_a_name_is_a_person_on_the_page_too(self):
        self.assertEqual(self.client("Eve").editor, self.serving.log_in("Eve").editor)
        self.assertEqual(self.client(" Eve ").name, "Eve")

    def test_a_conflict_is_told_and_nothing_overwritten(self):
        ann, ben = self.client(), self.client("Ben")
        seen = ann.call("map")["version"]
        self.batch(ben, "set w 1 n 5")
        with self.assertRaises(CallFailed) as caught:
            self.batch(ann, "set w 1 n 6", seen=seen)
        self.assertEqual((caught.exception.status, str(caught.exception)), (409, "Ben changed w 1 meanwhile: look again."))
        self.assertEqual(self.rows(ann)[0], "1 POINT (1 1) n=5")

    def test_what_was_seen_at_an_earlier_server_was_not_seen_at_this_one(self):
        ann, ben = self.client(), self.client("Ben")
        for n in range(9):
            self.batch(ben, f"set w 2 n {n}")
        seen = ann.call("feature", layer="w", id=1)["version"]
        self.serving.end(signal.SIGKILL)
        self.serving = self.serve()
        # Even a server that began in the same second counts on from above: no version is of two servers.
        self.assertLess(seen, self.client().call("map")["version"])
        self.batch(self.client("Ben"), "set w 1 n 5")
        for feature, words in (
            (1, "Ben changed w 1 meanwhile: look again."),
            (2, "It is not known any more whether w 2 was changed meanwhile: look again."),
        ):
            with self.assertRaises(CallFailed) as caught:
                self.batch(self.client(), f"set w {feature} n 6", seen=seen)
            self.assertEqual((caught.exception.status, str(caught.exception)), (409, words))
        # Nor one that no server has had.
        with self.assertRaises(CallFailed):
            self.batch(self.client(), "set w 1 n 6", seen=2**53)
        self.assertEqual(self.rows(self.client())[0], "1 POINT (1 1) n=5")

    def test_calls_that_are_none(self):
        with contextlib.closing(client._connected(str(self.path), 30)) as connection:
            lines = connection.makefile("rwb")
            for line, status in (
                (b'{"call": "map"}', 403),
                (b'{"call": "link", "name": "Ann"}', 403),
                (b'{"call": "hello"}', 400),
                (b'{"call": "hello", "name": "  "}', 400),
                (b'{"call": "hello", "name": "Ann"}', 200),
                (b'{"call": "nix"}', 404),
                (b'{"call": "login", "link": "x", "name": "y"}', 404),
                (b'{"call": "rows", "layer": "w", "ids": [1.5]}', 400),
                (b'{"call": "map"}', 200),
            ):
                lines.write(line + b"\n")
                lines.flush()
                self.assertEqual(json.loads(lines.readline())["status"], status, line)

    def test_a_path_that_is_too_long_for_a_socket(self):
        folder = self.folder / ("a" * 100) / ("b" * 100)
        folder.mkdir(parents=True)
        path = folder / "town.sfs"
        self.make(MADE, path)
        self.serve(path=path)
        self.assertEqual(len(self.rows(self.client(path=path))), 2)

    def test_a_link_to_a_store_has_the_socket_of_the_store(self):
        link = self.folder / "link.sfs"
        link.symlink_to(self.path)
        self.assertEqual(len(self.rows(self.client(path=link))), 2)

    def test_a_server_stays_with_its_store_where_its_link_is_led_to_another_one(self):
        one, two, link, newer = (self.folder / name for name in ("one.sfs", "two.sfs", "link.sfs", "newer.sfs"))
        self.make(MADE, one)
        self.make(MADE, two)
        link.symlink_to(one)
        newer.symlink_to(two)
        serving = self.serve(path=link)
        ann = self.client(path=link)
        self.batch(ann, "add w POINT (7 7)")
        newer.replace(link)
        for program in self.programs(serving):
            os.kill(program, signal.SIGKILL)
        # Each program that has gone is noticed where it is asked.
        for _ in range(3):
            with contextlib.suppress(CallFailed):
                self.batch(ann, "add w POINT (8 8)")
        self.batch(ann, "add w POINT (9 9)")
        self.assertIn("POINT (9 9)", self.rows(ann)[-1])
        self.assertIn("add w POINT (9 9)", Path(f"{one}.journal").read_text())
        self.assertFalse(os.path.exists(f"{two}.journal"))

    def test_the_folder_is_left_as_it_was(self):
        self.assertEqual(self.serving.end(), 0)
        self.assertFalse(os.path.lexists(f"{self.path}.socket"))
        with self.assertRaises(ServerGone):
            self.client()


class Hostile(SocketCase):
    """Programs that say what is no call, too much, or nothing."""

    def setUp(self):
        super().setUp()
        self.serve()
        self.ann = self.client()

    def assert_answered(self):
        begun = time.monotonic()
        self.assertEqual(len(self.rows(self.ann)), 2)
        self.assertLess(time.monotonic() - begun, 5)

    def come(self, data=b""):
        connection = client._connected(str(self.path), 30)
        self.addCleanup(connection.close)
        if data:
            connection.sendall(data)
        return connection

    def test_bytes_that_are_no_call(self):
        rng = random.Random(61)
        for data in (
            b"GET / HTTP/1.1\r\n\r\n",
            b"\n",
            b"[]\n",
            b'{"call": 5}\n',
            b'"hello"\n',
            b"[" * 100_000 + b"\n",
            b'{"call": ' + b"9" * 100_000 + b"}\n",
            b"\0\xff\xfe\n",
            *(rng.randbytes(500) + b"\n" for _ in range(20)),
        ):
            connection = self.come(data)
            self.assertEqual(json.loads(connection.makefile("rb").readline())["status"], 400, data[:40])
            self.assertEqual(connection.recv(1), b"")
        self.assert_answered()

    def test_a_line_without_an_end(self):
        connection = self.come()
        with contextlib.suppress(BrokenPipeError, ConnectionResetError):
            for _ in range(2 * socketed.CALL_BYTES_MAX >> 20):
                connection.sendall(bytes(1 << 20))
        self.assert_answered()

    def test_many_who_say_nothing(self):
        connections = [self.come() for _ in range(socketed._CONNECTIONS_MAX + 5)]
        self.assert_answered()
        # Those for whom there was no place are sent away.
        self.assertEqual(connections[-1].recv(1), b"")

    def test_one_who_leaves_answers_lying(self):
        ask = json.dumps({"call": "rows", "layer": "w", "ids": [1] * 10_000}).encode() + b"\n"
        connection = self.come(b'{"call": "hello", "name": "Eve"}\n')

        def send():
            with contextlib.suppress(OSError):
                for _ in range(200):
                    connection.sendall(ask)

        threading.Thread(target=send, daemon=True).start()
        time.sleep(1)
        self.assert_answered()

    def test_one_who_listens_and_takes_nothing(self):
        self.come(b'{"call": "events"}\n')
        for k in range(1_500):
            self.batch(self.ann, f"set w 1 n {k}")
        self.assert_answered()

    def test_ones_who_leave_in_the_middle(self):
        for begun in (b"", b"{", b'{"call": "hello", "name": "Eve"}\n{"call": "map"', b'{"call": "events"}\n'):
            for _ in range(30):
                self.come(begun).close()
        self.assert_answered()


class Limits(TestCase):
    """Limits of time, in this process."""

    def setUp(self):
        super().setUp()
        for name, value in (("_CALL_SECONDS", 0.5), ("_TAKEN_SECONDS", 0.5), ("_QUIET_SECONDS", 0.1)):
            patched = mock.patch.object(socketed, name, value)
            patched.start()
            self.addCleanup(patched.stop)
        self.path = str(self.folder / "town.sfs")
        self.door = Door(NoCalls(), self.path)
        self.addCleanup(self.door.server_close)
        threading.Thread(target=self.door.serve_forever, args=[0.05], daemon=True).start()
        self.addCleanup(self.door.shutdown)

    def come(self, data=b""):
        connection = client._connected(self.path, 30)
        self.addCleanup(connection.close)
        connection.sendall(data)
        return connection

    def test_a_call_has_some_seconds_as_a_whole(self):
        connection = self.come(b"{")
        connection.settimeout(0.05)
        until = time.monotonic() + 20
        while time.monotonic() < until:
            try:
                if not connection.recv(1):
                    return
            except socket.timeout:
                with contextlib.suppress(OSError):
                    connection.sendall(b" ")
            except ConnectionError:
                return
        self.fail("the connection is kept")

    def test_one_may_be_silent_between_calls(self):
        connection = self.come(b'{"call": "nix"}\n')
        lines = connection.makefile("rb")
        lines.readline()
        time.sleep(1.2)
        connection.sendall(b'{"call": "nix"}\n')
        self.assertEqual(json.loads(lines.readline())["status"], 403)

    def test_who_listens_hears_that_the_server_is_there(self):
        heard = self.come(b'{"call": "events"}\n').makefile("rb")
        self.assertEqual([heard.readline() for _ in range(3)], [b'{"hello": true}\n', b"\n", b"\n"])

    def test_a_place_is_free_again(self):
        for _ in range(3):
            connections = [self.come(b"x") for _ in range(socketed._CONNECTIONS_MAX)]
            for connection in connections:
                connection.close()
            until = time.monotonic() + 20
            while self.door.count and time.monotonic() < until:
                time.sleep(0.01)
            self.assertEqual(self.door.count, 0)


class Together(TestCase):
    """Answers that do not come one by one."""

    def test_answers_that_come_together_and_in_parts(self):
        path = str(self.folder / "town.sfs")
        told = [{"status": 200, "answer": answer} for answer in ({"editor": 1, "name": "Ann"}, *({"at": at} for at in range(3)))]
        hello, *lines = [json.dumps(each).encode() + b"\n" for each in told]

        def answer(door, parts):
            connection, _ = door.accept()
            with connection, connection.makefile("rb") as calls:
                calls.readline()
                connection.sendall(hello)
                calls.readline()
                for part in parts:
                    connection.sendall(part)
                    time.sleep(0.05)
                calls.read()

        for parts in ([b"".join(lines)], [lines[0] + lines[1][:9], lines[1][9:] + lines[2]], lines):
            with self.subTest(parts=parts), socket.socket(socket.AF_UNIX) as door:
                door.bind(f"{path}.socket")
                door.listen()
                answering = threading.Thread(target=answer, args=[door, parts])
                answering.start()
                with Client(path, "Ann") as ann:
                    self.assertEqual(list(ann.calls("rows", [{}] * 3)), [{"at": at} for at in range(3)])
                answering.join()
                os.unlink(f"{path}.socket")


class Between(SocketCase):
    """Calls while answers of others are on their way."""

    def test_a_call_between_answers_is_refused_and_mixes_nothing(self):
        self.serve()
        with self.client() as ann:
            bodies = [{"layer": "w", "ids": [1]}, {"layer": "w", "ids": []}, {"layer": "w", "ids": [1]}]
            answers = ann.calls("rows", bodies)
            first = next(answers)
            for begin in (lambda: ann.call("ids", layer="w"), lambda: next(ann.calls("ids", [{"layer": "w"}]))):
                with self.assertRaisesRegex(RuntimeError, "take all of them first"):
                    begin()
            rest = list(answers)
            self.assertEqual([len(each["rows"]) for each in (first, *rest)], [1, 0, 1])
            self.assertEqual(ann.call("ids", layer="w")["ids"], [1, 2])


class Ends(SocketCase):
    """What servers leave, and what they find."""

    def test_the_socket_of_a_server_that_was_killed_gives_way(self):
        serving = self.serve()
        self.batch(self.client(), "set w 1 n 5")
        serving.end(signal.SIGKILL)
        self.assertTrue(os.path.exists(f"{self.path}.socket"))
        self.serve()
        self.assertEqual(self.rows(self.client())[0], "1 POINT (1 1) n=5")

    def test_two_servers_never_have_one_store(self):
        self.serve()
        ann = self.client()
        words = [sys.executable, "-m", "sfstore.web.command", str(self.path), f"--program={PROGRAM}", "--no-browser"]
        environment = {**os.environ, "PYTHONPATH": str(FOLDER)}
        ended = subprocess.run(words, env=environment, stdin=subprocess.DEVNULL, capture_output=True, timeout=60)
        self.assertEqual(ended.returncode, 3)
        self.assertIn(b"is open in another session", ended.stderr)
        self.assertEqual(len(self.rows(ann)), 2)
        self.assertEqual(len(self.rows(self.client("Ben"))), 2)

    def test_nothing_else_is_taken_away(self):
        other = self.folder / "town.sfs.socket"
        other.write_text("somebody's")
        serving = self.serve()
        self.assertEqual(serving.log_in("Ann").answer("set w 1 n 5"), "ok")
        serving.end()
        self.assertIn("is no socket: programs can't connect", serving.errors)
        self.assertEqual(other.read_text(), "somebody's")

    @unittest.skipUnless(os.geteuid() == 0, "takes another user's place")
    def test_nothing_is_said_to_another_user_who_listens_there(self):
        self.folder.chmod(0o777)
        listener = subprocess.Popen([sys.executable, "-c", LISTENING, f"{self.path}.socket"], user=NOBODY, stdout=subprocess.PIPE)
        self.addCleanup(listener.communicate)
        self.addCleanup(listener.kill)
        self.assertEqual(listener.stdout.readline(), b"listens\n")
        for begin in (lambda: Client(str(self.path), "Ann"), lambda: start_server(str(self.path), PROGRAM)):
            with self.assertRaisesRegex(AnothersServer, f"is another user's .number {NOBODY}., who would be told all"):
                begin()
        listener.kill()
        # They come, and leave without a word.
        self.assertLessEqual(set(listener.stdout.read().split(b"\n")), {b"b''", b""})

    def test_a_server_of_another_user_is_none(self):
        self.serve()
        other = mock.Mock(size=client._PEER.size, unpack=lambda data: (1, os.geteuid() + 1, 1))
        with mock.patch.object(client, "_PEER", other), self.assertRaises(AnothersServer):
            Client(str(self.path), "Ann")

    def test_a_link_in_its_place_is_not_followed(self):
        other = self.folder / "other"
        other.write_text("somebody's")
        link = self.folder / "town.sfs.socket"
        link.symlink_to(other)
        with self.assertRaises(SocketTaken):
            Door(NoCalls(), str(self.path))
        self.assertEqual((os.readlink(link), other.read_text()), (str(other), "somebody's"))

    def test_the_socket_of_a_server_behind_it_stays(self):
        first = Door(NoCalls(), str(self.path))
        second = Door(NoCalls(), str(self.path))
        first.server_close()
        self.assertTrue(os.path.exists(f"{self.path}.socket"))
        second.server_close()
        self.assertFalse(os.path.exists(f"{self.path}.socket"))

    def test_a_folder_in_which_nothing_can_be_made(self):
        with self.assertRaises(OSError):
            Door(NoCalls(), str(self.folder / "nix" / "town.sfs"))

    def test_nothing_that_was_answered_is_lost(self):
        signal.alarm(max(self.SECONDS, 5 * KILLS))
        answered = {}
        for seed in range(KILLS):
            self.one_end(random.Random(seed), seed, answered)
        self.serve()
        ann = self.client()
        shown = dict(row.split(" ", 1) for row in self.rows(ann))
        for identifier, row in answered.items():
            self.assertEqual(shown.get(identifier), row)
        # Of what was not answered all of a batch is there, or nothing.
        for identifier, row in shown.items():
            self.assertTrue(int(identifier) <= 2 or " n=" in row, row)
        self.assertGreater(len(answered), 20)

    def one_end(self, rng, seed, answered):
        """Batches until the server is killed at some moment; those that were answered are noted."""
        serving = self.serve()
        ann = self.client()
        timer = threading.Timer(rng.random() * 0.3, serving.process.kill)
        timer.start()
        try:
            for k in range(10_000):
                x = 1000 * seed + k
                done = self.batch(ann, f"add w POINT ({x} 7)", f"set w last n {k}", "set w 1 n 5")
                identifier = done["answers"][0].partition(" ")[2]
                answered[identifier] = f"POINT ({x} 7) n={k}"
        except ServerGone:
            pass
        timer.join()
        serving.process.wait()


class Started(SocketCase):
    """A server that a program begins, and that ends by itself."""

    def start(self):
        """The process of a server that is begun."""
        start_server(str(self.path), PROGRAM)
        process = client._servers[str(self.path)].process
        self.addCleanup(self.forget)
        self.addCleanup(process.wait)
        self.addCleanup(process.kill)
        return process

    def forget(self):
        for server in client._servers.values():
            server.said.close()
        client._servers.clear()

    def test_it_is_begun_once(self):
        process = self.start()
        self.assertEqual(len(self.rows(self.client())), 2)
        self.assertIs(self.start(), process)
        process.kill()
        process.wait()
        self.assertIsNot(self.start(), process)
        self.assertEqual(len(self.rows(self.client())), 2)

    def test_it_runs_no_code_of_the_folder_that_its_program_was_started_in(self):
        shared = self.folder / "shared"
        shared.mkdir()
        for name in ("argparse", "socket", "sfstore", "sitecustomize"):
            (shared / f"{name}.py").write_text(f"open({str(self.folder / 'taken')!r}, 'w')\nraise SystemExit(7)\n")
        before = os.getcwd()
        self.addCleanup(os.chdir, before)
        os.chdir(shared)
        program = os.path.relpath(PROGRAM)
        with mock.patch.dict(os.environ, {"PYTHONPATH": ""}):
            start_server(os.path.relpath(self.path), program)
        self.addCleanup(self.forget)
        for server in client._servers.values():
            self.addCleanup(server.process.wait)
            self.addCleanup(server.process.kill)
        self.assertFalse((self.folder / "taken").exists())
        self.assertEqual(len(self.rows(self.client())), 2)

    def test_it_ends_when_nobody_is_left(self):
        ended = threading.Event()
        server = mock.Mock(shutdown=ended.set)
        server.calls.events.count = 0
        programs = [1]
        times = {"_FIRST_SECONDS": 5.0, "_UNUSED_SECONDS": 0.3, "_LOOK_SECONDS": 0.05}
        with mock.patch.multiple(command, **times):
            threading.Thread(target=command._end_unused, args=[server, lambda: programs[0]], daemon=True).start()
            self.assertFalse(ended.wait(0.8))
            programs[0], server.calls.events.count = 0, 1
            self.assertFalse(ended.wait(0.8))
            server.calls.events.count = 0
            self.assertTrue(ended.wait(5))

    def test_why_there_is_none_is_told(self):
        with Store(self.path, journal=True, program=PROGRAM) as store:
            self.addCleanup(self.forget)
            with self.assertRaises(ServerGone) as caught:
                start_server(str(self.path), PROGRAM)
            store.close(save=False)
        self.assertIn("is open in another session", str(caught.exception))

    def test_a_server_that_hangs_is_given_up(self):
        process = self.start()
        ann = self.client(seconds=1)
        process.send_signal(signal.SIGSTOP)
        self.addCleanup(process.send_signal, signal.SIGCONT)
        begun = time.monotonic()
        with self.assertRaises(ServerGone):
            ann.call("map")
        with self.assertRaises(ServerGone):
            self.client(seconds=1)
        self.assertLess(time.monotonic() - begun, 10)


if __name__ == "__main__":
    unittest.main()
