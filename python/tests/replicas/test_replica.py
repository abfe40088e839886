"""Tests of replicas over a log: rights, cuts, divergence, out of memory, kills, and servers that fail."""

from __future__ import annotations

import contextlib
import hashlib
import os
import random
import re
import resource
import shutil
import signal
import socket
import subprocess
import sys
import textwrap
import threading
import time
import unittest
import unittest.mock
import uuid
from pathlib import Path

from replica_support import OPTIONS, ReplicaCase, missing
from support import FOLDER, PROGRAM, TestCase

from sfstore import JournalError, Refused, Store, storefile
from sfstore.commands import COMMANDS
from sfstore.replica import LogUnreachable, NotAcknowledged, Replica, ReplicaStopped, owning
from sfstore.replica.demo import Trial
from sfstore.language import MEMBERS
from sfstore.replica.lines import EDITS, QUESTIONS, asked
from sfstore.replica.links import Link, LinkLost, LogRefused, servers_of
from sfstore.replica.log import Dropped, Fence, new_key
from sfstore.replica.log import Writing as LogWriting
from sfstore.replica.servers import Pair, Server
from sfstore.replica.replica import AnswerGone
from sfstore.replica.session import _door, _is_answered, _Peer

SCHEMA = (FOLDER / "sfstore" / "replica" / "log.sql").read_text()
APPEND = "SELECT sfstore.append(ARRAY[gen_random_uuid()], ARRAY[%s])"


def refused(number, name, line):
    return f"{number} {name}: {line}"


def shown(outcomes):
    """Answers, with refusals as texts that can be compared."""
    return [str(it) if isinstance(it, Refused) else it for it in outcomes]


class Door(TestCase):
    def test_what_is_no_socket_stays(self):
        path = self.folder / "socket"
        path.write_text("precious")
        with self.assertRaisesRegex(OSError, "it is no socket, and stays"), _door(path):
            pass
        self.assertEqual(path.read_text(), "precious")

    def test_a_socket_that_was_left_gives_way(self):
        path = self.folder / "socket"
        with socket.socket(socket.AF_UNIX) as left:
            left.bind(str(path))
        with _door(path), socket.socket(socket.AF_UNIX) as connection:
            connection.connect(str(path))
        self.assertFalse(path.exists())


class Lines(TestCase):
    def test_lines_are_taken_apart_as_the_console_does(self):
        for line, editor, word, rest in [
            ("undo", None, "undo", "undo"),
            ("\t add w  POINT (1 1) \r", None, "add", "add w  POINT (1 1) "),
            ("@007\tshow w", 7, "show", "show w"),
            ("@256 undo", 256, "", "undo"),
            ("@0 undo", 0, "", "undo"),
            ("@7", None, "@7", "@7"),
            ("@7undo", None, "@7undo", "@7undo"),
            ("und\xa0o", None, "und\xa0o", "und\xa0o"),
        ]:
            self.assertEqual(asked(line), (editor, word, rest))

    @unittest.skipIf(missing(), missing())
    def test_the_servers_of_some_words(self):
        for words, servers in [
            ("host=a,b port=1,2", ["host=a port=1", "host=b port=2"]),
            ("host=a,b port=1", ["host=a port=1", "host=b port=1"]),
            ("host=a,b hostaddr=1.1.1.1,2.2.2.2", ["host=a hostaddr=1.1.1.1", "host=b hostaddr=2.2.2.2"]),
            ("hostaddr=1.1.1.1,2.2.2.2", ["hostaddr=1.1.1.1", "hostaddr=2.2.2.2"]),
        ]:
            self.assertEqual(servers_of(words), servers, words)
        with self.assertRaisesRegex(ValueError, "3 hosts, but 2 of host"):
            servers_of("host=a,b hostaddr=1.1.1.1,2.2.2.2,3.3.3.3")

    def test_the_log_takes_the_edits_of_the_module(self):
        members, words = re.findall(r"\^\[ \\t\]\*\(([a-z|]+)\)", SCHEMA)
        self.assertEqual(set(members.split("|")), MEMBERS)
        self.assertEqual(set(words.split("|")), EDITS - {"together"})

    def test_edits_and_questions_are_all_words_of_the_console(self):
        self.assertEqual({command.usage.split(" ")[0] for command in COMMANDS}, EDITS | QUESTIONS)
        self.assertFalse(EDITS & QUESTIONS)


@unittest.skipIf(missing(), missing())
class Commands(TestCase):
    def test_a_missing_driver_is_told_in_a_sentence(self):
        said = self.command("state", "dbname=x", modules="import sys; sys.modules['psycopg2'] = None\n")
        self.assertEqual((said.returncode, said.stdout), (3, ""))
        self.assertEqual(
            said.stderr,
            "sfstore-replica: replicas need psycopg2 for Python (Debian's package python3-psycopg2)\n",
        )

    @unittest.skipIf(missing(), missing())
    def test_what_is_no_words_of_connection_is_refused_and_not_shown(self):
        for words in ("secret", "host='a secret", "secret=x"):
            for command in (["state"], ["cut"], ["setup"], ["login"], ["run", f"{self.folder}/none"]):
                said = self.command(*command, words, *(["bob"] if command == ["login"] else []))
                told = "sfstore-replica: the log is no words of connection, such as 'host=alpha,beta dbname=town'\n"
                self.assertEqual((said.returncode, said.stderr), (3, told))

    def test_the_demonstration(self):
        said = self.command("demo", "--kills", "1", "--program", PROGRAM)
        self.assertEqual((said.returncode, said.stderr), (0, ""))
        self.assertEqual(said.stdout.count("\nheld: "), 7, said.stdout)
        self.assertNotIn("NOT HELD", said.stdout)

    def test_no_server(self):
        said = self.command("state", f"host={self.folder} dbname=x")
        self.assertEqual(said.returncode, 3)
        self.assertRegex(said.stderr, "^sfstore-replica: .*No such file or directory\n$")

    def command(self, *words, modules=""):
        lines = f"{modules}import sys\nfrom sfstore.replica.command import main\nsys.exit(main({list(words)!r}))"
        return subprocess.run(
            [sys.executable, "-c", lines],
            env={**os.environ, "PYTHONPATH": str(FOLDER)},
            capture_output=True,
            text=True,
        )


class Rights(ReplicaCase):
    def test_readers_do_not_append_and_editors_do_not_cut(self):
        for login in ("rita", "ann"):
            for words in (
                "SELECT sfstore.cut(gen_random_uuid())",
                "SELECT sfstore.put(ARRAY[gen_random_uuid()], ARRAY['undo'], 1, false)",
                "SELECT sfstore.drop_before(1, 0)",
                "INSERT INTO sfstore.log VALUES (1, gen_random_uuid(), 1, false, 'undo', now(), '')",
                "UPDATE sfstore.head SET at = 9",
                "DELETE FROM sfstore.log",
                "TRUNCATE sfstore.cuts",
                "INSERT INTO sfstore.editors VALUES ('rita', 9)",
                "INSERT INTO sfstore.sums VALUES (1, 'x', 'y')",
            ):
                self.assert_denied(login, words)
        self.assert_denied("rita", APPEND.replace("%s", "'undo'"))
        self.assert_denied("rita", "SELECT sfstore.put_sum(1, repeat('0', 64))")

    def test_sums_are_those_of_replicas_alone(self):
        self.ask("CREATE ROLE eva LOGIN; GRANT sfstore_editor TO eva")
        self.addCleanup(self.ask, "DROP ROLE eva", database="postgres")
        self.assert_denied("eva", "SELECT sfstore.put_sum(1, repeat('0', 64))")
        # An editor by its role alone has no number.
        self.assert_denied("eva", APPEND.replace("%s", "'undo'"), "SF102")

    def test_a_line_that_names_another_editor_is_not_put_down(self):
        [ann] = self.town("ann")
        before = self.ask("SELECT at FROM sfstore.head")
        number = self.ask("SELECT number FROM sfstore.editors WHERE login = 'ann'")[0][0]
        for line in ("@9 undo", " @09\tundo", "@256 undo", "@1", "@ undo", "@1undo", "@1 @1 undo"):
            with self.assertRaises(LogRefused) as caught:
                self.ask(APPEND, (line,), login="ann")
            self.assertIn(caught.exception.code, ("SF101", "23514"), line)
        self.assertEqual(number, 1)
        self.assertEqual(shown(ann.run_all(["@9 undo"])), [refused(101, "OtherEditor", "undo")])
        self.assertEqual(self.ask("SELECT at FROM sfstore.head"), before)
        self.assertEqual(shown(ann.run_all(["@001 undo", "@1\tredo"])), ["ok", "ok"])

    def test_lines_that_edit_nothing_are_not_put_down(self):
        self.town("ann")
        for line in ("", " \t", "\r", "undo\nundo", "show w", "layers", "nonsense", "undone", "add w " + "9" * 4_194_294):
            with self.assertRaises(LogRefused) as caught:
                self.ask(APPEND, (line,), login="ann")
            self.assertEqual(caught.exception.code, "23514", line[:20])

    def test_a_reader_asks_and_can_not_write(self):
        [ann] = self.town("ann")
        ann.run("add w POINT (3 4)")
        rita = self.replica("rita")
        self.assertEqual(rita.run("show w"), ["1 POINT (3 4)"])
        self.assertEqual(shown(rita.run_all(["undo"])), [refused(102, "NoEditor", "undo")])
        self.cut(ann, rita)
        [cut] = owning.state(self.owner).cuts
        self.assertEqual(list(cut.sums), ["ann"])

    def test_a_reader_may_write_by_another_login(self):
        self.town("ann")
        rita = self.replica("rita", editor=self.dsn("ben"))
        self.assertEqual(rita.run("add w POINT (3 4)"), "ok 1")
        self.assertEqual(self.ask("SELECT editor FROM sfstore.log WHERE at = 2"), [(2,)])

    def test_a_log_is_made_once(self):
        with self.assertRaisesRegex(LogRefused, "already exists"):
            owning.set_up(self.owner, 1)
        with self.assertRaisesRegex(owning.LoginExists, "ann is an editor already"):
            owning.add_login(self.owner, "ann", is_editor=True, is_replica=False)


class Writing(ReplicaCase):
    def test_the_answers_of_the_console(self):
        [ann] = self.town("ann")
        lines = ["add w POINT (3 4)", "add w POINT (3.5 4)", "show w", "undo", "undo", "undo", "redo", "layers", "nonsense"]
        lines += ["@1 redo", "show w", "show v", "@9 show w"]
        with Store(PROGRAM) as store:
            store.editor(1).run("layer add w point")
            wanted = store.run_all(line if line.startswith("@") else "@1 " + line for line in lines)
        wanted = [Refused(it.number, it.name, it.line.partition(" ")[2]) if isinstance(it, Refused) else it for it in wanted]
        self.assertEqual(shown(ann.run_all(lines)), shown(wanted))
        for line in ("", "\r", "a\nb", "a\0b"):
            with self.assertRaises(ValueError):
                ann.run(line)
        long = "add w " + "9" * 4_194_294
        self.assertEqual(ann.run_all([long])[0].number, 33)

    def test_values_of_each_type_reach_all_as_they_are(self):
        ann, ben = self.town("ann", "ben")
        given = {"int": "-9223372036854775808", "text": f"'{'日' * 21_845}'", "decimal": "-922337203685477580.8", "bool": "false"}
        given |= {"date": "0001-01-01", "datetime": "9999-12-31T23:59:59.999Z"}
        ann.run_all(["add w POINT (3 4)", *(f"column add w c_{kind} {kind}" for kind in given)])
        answers = ann.run_all([f"set w 1 c_{kind} {word}" for kind, word in given.items()] + ["set w 1 c_date 2025-02-29"])
        self.assertEqual(shown(answers[:-1]), ["ok"] * len(given))
        self.assertEqual(answers[-1].number, 31)
        ben.follow()
        wanted = "1 POINT (3 4)" + "".join(f" c_{kind}={word}" for kind, word in given.items())
        for replica in (ann, ben):
            self.assertEqual(replica.run("show w"), [wanted])
        self.assertEqual(ben.run("find w c_decimal -0922337203685477580.80"), ["1"])

    def test_texts_with_control_characters_reach_all_as_they_are(self):
        ann, ben = self.town("ann", "ben")
        ann.run_all(["add w POINT (3 4)", "column add w t text"])
        for given, word in (
            (r"E'two\nlines, it''s\t\\\r\x1b\x7f'", r"E'two\nlines, it''s\t\\\r\x1b\x7f'"),
            # A carriage return that stands in quotes makes no group of a line.
            ("'a\rdelete w 1'", r"E'a\rdelete w 1'"),
        ):
            self.assertEqual(ann.run(f"set w 1 t {given}"), "ok")
            ben.follow()
            for replica in (ann, ben):
                self.assertEqual(replica.run("show w"), [f"1 POINT (3 4) t={word}"])
                self.assertEqual(replica.run(f"find w t {word}"), ["1"])

    def test_editors_see_one_another_and_move_their_own_steps(self):
        ann, ben = self.town("ann", "ben")
        ann.run("add w POINT (1 1)")
        self.assertEqual(ben.run("add w POINT (2 2)"), "ok 2")
        ann.follow()
        self.assertEqual(ann.run("show w"), ["1 POINT (1 1)", "2 POINT (2 2)"])
        self.assert_refused(36, "NotYours", ann.run, "undo")
        self.assertEqual(ben.run("undo"), "ok")
        self.assertEqual(ann.run("undo"), "ok")

    def test_a_login_gets_another_number(self):
        [ann] = self.town("ann")
        self.ask("UPDATE sfstore.editors SET number = 200 WHERE login = 'ann'")
        self.assertEqual(ann.run_all(["add w POINT (3 4)", "undo"]), ["ok 1", "ok"])
        self.assertEqual(self.ask("SELECT editor FROM sfstore.log ORDER BY at"), [(1,), (200,), (200,)])

    def test_each_line_once_however_often_it_is_tried(self):
        [ann] = self.town("ann")
        keys = [str(uuid.uuid4()) for _ in range(3)]
        lines = ["add w POINT (1 1)", "add w POINT (2 2)", "add w POINT (3 3)"]
        self.assertEqual(ann.write(lines[:2], keys[:2]), ["ok 1", "ok 2"])
        self.assertEqual(ann.write(lines, keys), ["ok 1", "ok 2", "ok 3"])
        self.assertEqual(ann.write(lines, keys), ["ok 1", "ok 2", "ok 3"])
        self.assertEqual(len(ann.run("show w")), 3)
        for login, line in (("ann", "undo"), ("ben", lines[0])):
            replica = ann if login == "ann" else self.replica(login)
            with self.assertRaises(LogRefused) as caught:
                replica.write([line], keys[:1])
            self.assertEqual(caught.exception.code, "SF103")
        ann.close()
        # Another process finds the answers of its own editor again.
        self.assertEqual(self.replica("ann").write(lines[:1], keys[:1]), ["ok 1"])

    def test_many_lines_and_progress(self):
        [ann] = self.town("ann")
        count = 4_500
        outcomes = ann.run_all([f"add w POINT ({k} 0)" for k in range(count)])
        self.assertEqual(outcomes, [f"ok {k + 1}" for k in range(count)])
        seen = []
        ben = self.replica("ben", progress=lambda at, last: seen.append((at, last)))
        self.assertEqual(len(ben.run("show w")), count)
        self.assertEqual(seen[-1], (count + 1, count + 1))
        self.assertGreater(len(seen), 1)
        with self.assertRaises(ValueError):
            ann.write(["undo"] * 1001)

    def test_long_lines_come_in_parts(self):
        [ann] = self.town("ann")
        line = "add w POINT (" + " " * 131_000 + "1 1)"
        self.assertEqual(ann.run_all([line] * 70), [f"ok {k + 1}" for k in range(70)])
        self.assertEqual(len(self.replica("ben").run("show w")), 70)

    def test_other_users_can_not_read_a_replica(self):
        before = os.umask(0o022)
        self.addCleanup(os.umask, before)
        ann = self.replica("ann", folder=self.folder / "new")
        ann.run("layer add w point")
        self.cut(ann)
        folder = self.folder / "new"
        self.assertEqual(folder.stat().st_mode & 0o777, 0o700)
        self.assertTrue({"timeline", ".sfs"} <= {path.suffix or path.name for path in folder.iterdir()})
        self.assert_private(folder)
        # An earlier version gave others the right to read.
        ann.close()
        for path in folder.iterdir():
            path.chmod(0o644)
        self.replica("ann", folder=folder)
        self.assert_private(folder)

    def assert_private(self, folder):
        modes = {path.name: oct(path.stat().st_mode & 0o777) for path in folder.iterdir()}
        self.assertEqual(set(modes.values()), {"0o600"}, modes)

    def test_a_question_that_takes_too_long_is_ended(self):
        [ann] = self.town("ann")
        ann.close()
        ann = self.replica("ann", program=self.slow_program(600), question_seconds=0.5)
        ann.run("add w POINT (7 3)")
        for count in range(1, 6):
            begun = time.monotonic()
            self.assertEqual(shown(ann.run_all(["match w w"])), [refused(103, "TooLong", "match w w")])
            self.assertLess(time.monotonic() - begun, 20)
            self.assertEqual((ann.run("show w"), ann.restarts), (["1 POINT (7 3)"], count))
        self.assert_told("a question took longer than 0.5 seconds: match w w")
        self.assertEqual(ann.run("add w POINT (1 1)"), "ok 2")

    def test_nothing_waits_for_a_question_that_was_interrupted_as_it_began(self):
        """Else the process would end when the question might have taken its time."""
        [ann] = self.town("ann", question_seconds=600.0)
        start = threading.Timer.start

        def interrupted(timer):
            start(timer)
            raise KeyboardInterrupt

        with unittest.mock.patch.object(threading.Timer, "start", interrupted), self.assertRaises(KeyboardInterrupt):
            ann.run("show w")
        left = [thread for thread in threading.enumerate() if thread is not threading.main_thread() and not thread.daemon]
        self.assertEqual(left, [])
        self.assertEqual(ann.run("show w"), [])

    def test_how_long_a_question_may_take_by_its_option(self):
        self.town("ann")[0].close()
        said = self.session("ann", b"match w w\nshow w\n", "--program", str(self.slow_program(20)), "--seconds", "0.5")
        self.assertEqual((said.stdout, said.returncode), (b"refused 103 TooLong\nrows 0\n", 0), said.stderr)
        self.assertIn(b"a question took longer than 0.5 seconds: match w w", said.stderr)
        for seconds in ("0", "-1", "nan", "1e300", "long"):
            said = self.session("ann", b"", "--seconds", seconds)
            self.assertEqual(said.returncode, 2, seconds)

    def test_one_process_has_a_folder(self):
        self.town("ann")
        with self.assertRaisesRegex(JournalError, "open in another session"):
            self.replica("ann")

    def test_writers_at_once(self):
        self.town("ann")
        answers = []

        def write(login):
            with Replica(self.folder / f"{login}-own", self.dsn(login), program=PROGRAM) as replica:
                answers.extend(replica.run(f"add w POINT ({k} 1)") for k in range(60))

        threads = [threading.Thread(target=write, args=(login,)) for login in ("ann", "ben", "cleo")]
        for thread in threads:
            thread.start()
        for thread in threads:
            thread.join()
        self.assertEqual(sorted(answers), sorted(f"ok {k + 1}" for k in range(180)))
        places = [at for (at,) in self.ask("SELECT at FROM sfstore.log ORDER BY at")]
        self.assertEqual(places, list(range(1, 182)))


    def test_a_transaction_that_is_left_open_holds_others_up_for_seconds(self):
        [ann] = self.town("ann")
        link = Link(self.pair.primary.dsn("ben", self.database))
        self.addCleanup(link.close)
        link.ask("BEGIN; " + APPEND, ("add w POINT (9 9)",))
        begun = time.monotonic()
        self.assertEqual(ann.run("add w POINT (1 1)"), "ok 1")
        self.assertGreater(time.monotonic() - begun, 2)
        self.assertEqual(ann.run("show w"), ["1 POINT (1 1)"])


# A program that ends at a question by `match`.
DYING = """\
    import ctypes, os, subprocess, sys
    def follow(): ctypes.CDLL(None).prctl(1, 9)  # the program is killed with this one
    program = subprocess.Popen([{program!r}, *sys.argv[1:]], stdin=subprocess.PIPE, bufsize=0, preexec_fn=follow)
    for line in sys.stdin.buffer:
        if line.startswith(b"match"): os._exit(9)
        program.stdin.write(line)
    program.stdin.close()
    sys.exit(program.wait())
    """


class Sessions(ReplicaCase):
    def command(self, *words):
        said = subprocess.run(
            [sys.executable, "-m", "sfstore.replica.command", *words],
            env={**os.environ, "PYTHONPATH": str(FOLDER)},
            capture_output=True,
            text=True,
        )
        return said.returncode, said.stdout, said.stderr

    def test_lines_and_answers(self):
        lines = b"layer add w point\n\n \t\nadd w POINT (3 4)\r\n\xff\xfe\nshow w\na\0b\n@9 undo\n" + b"9" * 4_194_305 + b"\nundo"
        said = self.session("ann", lines)
        answers = b"ok\nok 1\nrefused 31 BadCommand\nrows 1\n1 POINT (3 4)\nrefused 31 BadCommand\n"
        answers += b"refused 101 OtherEditor\nrefused 33 LineTooLong\nok\n"
        self.assertEqual((said.stdout, said.stderr, said.returncode), (answers, b"", 0))

    def test_what_stands_is_answered_before_a_line_that_ends_it(self):
        self.town("ann")[0].close()
        lines = b"add w POINT (3 4)\nshow w\nmatch w T******** POINT (3 4)\nundo\n"
        said = self.session("ann", lines, "--program", self.flagged(DYING, False))
        self.assertEqual((said.stdout, said.returncode), (b"ok 1\nrows 1\n1 POINT (3 4)\n", 5))
        # A log that an earlier version has made.
        is_group = "CREATE OR REPLACE FUNCTION sfstore.is_group(line text) RETURNS bool LANGUAGE sql IMMUTABLE AS 'SELECT false'"
        self.ask(is_group)
        lines = b"add w POINT (5 6)\nget w 2\ntogether 1\nadd w POINT (7 8)\n"
        said = self.session("ann", lines)
        self.assertEqual((said.stdout, said.returncode), (b"ok 2\nrows 1\n2 POINT (5 6)\n", 3))

    def test_many_at_a_socket(self):
        process, path = self.listening()
        self.assertEqual(path.stat().st_mode & 0o077, 0)
        first, second, third = (self.connected(path) for _ in range(3))
        self.assertEqual(self.asked(first, b"layer add w point\nadd w POINT (3 4)\n", 2), [b"ok", b"ok 1"])
        self.assertEqual(self.asked(second, b"show w\n", 2), [b"rows 1", b"1 POINT (3 4)"])
        # One goes in the middle of a line, and one does not read.
        third.sendall(b"add w POI")
        third.close()
        lazy = self.connected(path)
        lazy.sendall(b"show w\n" * 1000)
        ben = self.replica("ben")
        ben.run("add w POINT (5 5)")
        self.assertEqual(self.asked(first, b"undo\nadd w POINT (6 6)\n", 2), [b"refused 36 NotYours", b"ok 3"])
        process.send_signal(signal.SIGINT)
        self.assertEqual(process.wait(30), 130)
        self.assertFalse(path.exists())

    def test_an_answer_that_is_gone_sends_one_away_and_not_all(self):
        gone = unittest.mock.Mock(answers=unittest.mock.Mock(side_effect=AnswerGone("place 7")))
        peer, told = _Peer(lambda size: b"add w POINT (1 1)\n", unittest.mock.Mock()), []
        self.assertFalse(_is_answered(gone, peer, told.append))
        self.assertEqual(told, ["place 7"])

    def test_more_at_a_socket_than_are_let_in(self):
        soft, hard = resource.getrlimit(resource.RLIMIT_NOFILE)
        if hard != resource.RLIM_INFINITY and hard < 2000:
            self.skipTest("this process may not open 2,000 files")
        resource.setrlimit(resource.RLIMIT_NOFILE, (max(soft, 2000), hard))
        self.addCleanup(resource.setrlimit, resource.RLIMIT_NOFILE, (soft, hard))
        process, path = self.listening()
        first = self.connected(path)
        self.assertEqual(self.asked(first, b"layer add w point\n", 1), [b"ok"])
        held = [self.connected(path) for _ in range(1200)]
        self.assertEqual(self.asked(held[0], b"layers\n", 2), [b"rows 1", b"w point"])
        self.assertEqual(held[-1].recv(1), b"")
        # Those that end make room again, and leave no file open behind them.
        for connection in held:
            connection.close()
        self.assertEqual(self.asked(first, b"layers\n", 2), [b"rows 1", b"w point"])
        for _ in range(600):
            with self.connected(path) as short:
                self.assertEqual(self.asked(short, b"layers\n", 2), [b"rows 1", b"w point"])
        self.assertLess(len(os.listdir(f"/proc/{process.pid}/fd")), 100)
        process.send_signal(signal.SIGINT)
        self.assertEqual(process.wait(120), 130)
        self.assertIn(b"500 programs are connected, and no more are let in", process.stderr.read())

    def test_the_owner(self):
        self.session("ann", b"layer add w point\nadd w POINT (3 4)\n")
        status, said, _ = self.command("cut", self.owner)
        self.assertEqual((status, said), (0, "cut at place 3\n"))
        self.session("ann", b"")
        total = hashlib.sha256(next((self.folder / "ann").glob("*3-*.sfs")).read_bytes()).hexdigest()
        wanted = f"places 1 to 3\nstandby {self.pair.standby.name}: sync, 0 bytes behind\n1 of 1 standbys\n"
        wanted += f"cut at place 3\n  ann {total}\n"
        self.assertEqual(self.command("state", self.owner), (0, wanted, ""))
        status, _, said = self.command("drop", self.owner, "3", "--alike", "1")
        self.assertEqual((status, said), (3, "sfstore-replica: the cut 3 is not older than 01:00:00\n"))
        status, _, said = self.command("drop", self.owner, "3", "--alike", "2", "--older", "0")
        self.assertEqual(status, 3)
        self.assertIn("1 different files of 1 replicas; one file of 2 is wanted", said)
        wanted = "3 entries are dropped: places 1 to 3. 0 entries stay behind the cut.\n"
        self.assertEqual(self.command("drop", self.owner, "3", "--alike", "1", "--older", "0")[:2], (0, wanted))
        wanted = "0 entries are dropped: those up to place 3 were dropped before. 0 entries stay behind the cut.\n"
        self.assertEqual(self.command("drop", self.owner, "3", "--alike", "1", "--older", "0")[:2], (0, wanted))
        self.assertEqual(self.session("ann", b"show w\nundo\n").stdout, b"rows 1\n1 POINT (3 4)\nrefused 29 NothingToUndo\n")
        status, said, _ = self.command("login", self.owner, "dora", "--editor", "--replica")
        self.addCleanup(self.ask, "DROP ROLE dora", database="postgres")
        self.assertEqual((status, said), (0, "dora follows the log, and is its editor 4.\n"))
        self.assertEqual(self.session("dora", b"show w\n").returncode, 5)
        file = next((self.folder / "ann").glob("*3-*.sfs"))
        self.assertEqual(self.session("dora", b"show w\n", "--from", file).stdout, b"rows 1\n1 POINT (3 4)\n")

    def test_the_set_up_by_its_command(self):
        other = self.pair.primary.dsn(database="Another town")
        self.addCleanup(self.ask, 'DROP DATABASE "Another town"', database="postgres")
        self.assertEqual(self.command("setup", other)[0], 3)
        self.assertEqual(self.command("setup", "--create", other), (0, "The log is made.\n", ""))
        status, _, said = self.command("setup", "--create", other)
        self.assertEqual((status, "already exists" in said), (3, True))
        self.assertEqual(self.command("state", other)[:2][1].splitlines()[0], "places 1 to 0")

    def test_a_log_of_an_older_version_is_renewed(self):
        self.assertEqual(self.command("setup", "--renew", self.pair.primary.dsn())[0], 3)
        [ann] = self.town("ann")
        ann.run("add w POINT (1 1)")
        entries, functions = self.ask("SELECT * FROM sfstore.log ORDER BY at"), self.ask(FUNCTIONS)
        # As an older one was: one function is another one, and one is not there.
        self.ask("CREATE OR REPLACE FUNCTION sfstore.drop_before(place bigint, replicas int, age interval DEFAULT '1 hour') RETURNS bigint "
                 "LANGUAGE plpgsql AS 'BEGIN RETURN 7; END'; DROP FUNCTION sfstore.tried_since")
        self.assertNotEqual(self.ask(FUNCTIONS), functions)
        self.assertEqual(self.command("setup", "--renew", self.owner), (0, "The log does what this version does.\n", ""))
        self.assertEqual(self.ask(FUNCTIONS), functions)
        self.assertEqual(self.ask("SELECT * FROM sfstore.log ORDER BY at"), entries)
        self.assert_denied("ann", "SELECT sfstore.tried_since(gen_random_uuid())")
        self.assertEqual(ann.run("add w POINT (2 2)"), "ok 2")

    def test_questions_while_no_server_is_there(self):
        self.town("ann")[0].close()
        process = subprocess.Popen(
            [sys.executable, "-m", "sfstore.replica.command", "run", str(self.folder / "ann"), self.dsn("ann")]
            + ["--program", PROGRAM, "--patience", "60"],
            stdin=subprocess.PIPE,
            stdout=subprocess.PIPE,
            stderr=subprocess.PIPE,
            env={**os.environ, "PYTHONPATH": str(FOLDER)},
            bufsize=0,
        )
        self.addCleanup(process.kill)

        def answer(line):
            process.stdin.write(line)
            return process.stdout.readline()

        self.assertEqual(answer(b"add w POINT (3 4)\n"), b"ok 1\n")
        self.pair.primary.kill()
        time.sleep(0.3)
        self.assertEqual(answer(b"box w 1\n"), b"3 4 3 4\n")
        self.pair.fail_over()
        self.pair.renew_standby()
        self.assertEqual(answer(b"add w POINT (5 5)\n"), b"ok 2\n")
        _, said = process.communicate()
        self.assertIn(b"the log is not there, and what is here is place 2", said)


# What a log does, and who may have it do that.
FUNCTIONS = "SELECT proname, pg_get_functiondef(oid), proacl::text, proowner FROM pg_proc WHERE pronamespace = 'sfstore'::regnamespace ORDER BY 1"
DROP = "SELECT sfstore.drop_before(%s, 1, '0')"


class Cuts(ReplicaCase):
    def test_a_cut_ends_the_history_of_all_at_one_line(self):
        ann, ben = self.town("ann", "ben")
        ann.run("add w POINT (1 1)")
        at, files = self.cut(ann, ben)
        self.assertEqual(files[0], files[1])
        self.assert_refused(29, "NothingToUndo", ann.run, "undo")
        ben.follow()
        # One that comes later goes through the same cut.
        cleo = self.replica("cleo")
        self.assertEqual(self.file(cleo, at), files[0])
        self.assert_refused(29, "NothingToUndo", cleo.run, "undo")
        cut = owning.state(self.owner).cuts[-1]
        self.assertEqual((cut.at, cut.alike), (at, 3))

    def test_rules_by_distances_hold_for_all_and_reach_all_files(self):
        ann, ben = self.town("ann", "ben")
        ann.run_all(["layer add anchors point", "rule add spaced never w near 2.5 w", "add w POINT (1 1)"])
        ben.follow()
        # They would be the root of 5 apart.
        self.assertEqual(ben.run_all(["add w POINT (3 2)"])[0].answer, "refused 37 RuleBroken spaced 1 2")
        self.assertEqual(ben.run("add anchors POINT (20 1)"), "ok 1")
        self.assertEqual(ben.run("rule add linked each w near 19.000 some anchors"), "ok")
        self.assertEqual(ann.run_all(["delete anchors 1"])[0].answer, "refused 37 RuleBroken linked 1")
        rows = ["spaced never w near 2.500 w", "linked each w near 19 some anchors"]
        self.assertEqual((ann.run("rules"), ben.run("rules")), (rows, rows))
        _, (anns, bens) = self.cut(ann, ben)
        self.assertEqual(anns, bens)
        self.assertEqual([rule.line for rule in storefile.read_with_rules(anns)[1]], rows)
        cleo = self.replica("cleo")
        self.assertEqual(cleo.run("rules"), rows)
        self.assertEqual(cleo.run_all(["add w POINT (40 1)"])[0].answer, "refused 37 RuleBroken linked 2")

    def test_a_cut_that_is_tried_again(self):
        key = str(uuid.uuid4())
        places = {self.ask("SELECT sfstore.cut(%s)", (key,))[0][0] for _ in range(2)}
        self.assertEqual(places, {1})

    def test_two_files_are_kept(self):
        [ann] = self.town("ann")
        for _ in range(4):
            at, _ = self.cut(ann)
        self.assertEqual(len(list((self.folder / "ann").glob("*.sfs"))), 2)
        self.assertEqual(ann.at, at)

    def test_the_log_is_dropped_where_files_are_alike(self):
        ann, ben = self.town("ann", "ben")
        ann.run("add w POINT (1 1)")
        at, files = self.cut(ann, ben)
        ann.run("add w POINT (2 2)")
        with self.assertRaisesRegex(LogRefused, "one file of 3 is wanted"):
            owning.drop_before(self.owner, at, 3, "0", 5)
        self.assertEqual(owning.drop_before(self.owner, at, 2, "0", 5), at)
        with self.assertRaisesRegex(ReplicaStopped, "begin from the file of another replica"):
            self.replica("cleo")
        shutil.rmtree(self.folder / "cleo")
        [file] = (self.folder / "ann").glob(f"{at:020}-*.sfs")
        cleo = self.replica("cleo", begin_from=file)
        self.assertEqual(cleo.run("show w"), ["1 POINT (1 1)", "2 POINT (2 2)"])
        self.assertEqual(self.file(cleo, at), files[0])
        at, files = self.cut(ann, ben, cleo)
        self.assertEqual(len(set(files)), 1)

    def test_a_drop_waits_for_nobody_who_has_put_a_sum_down_and_goes_on(self):
        [ann] = self.town("ann")
        first, _ = self.cut(ann)
        at, _ = self.cut(ann)
        other = Link(self.pair.primary.dsn("ben", self.database))
        self.addCleanup(other.close)
        other.ask("BEGIN")
        other.ask("SELECT sfstore.put_sum(%s, repeat('0', 64))", (first,))
        self.assertEqual(owning.drop_before(self.owner, at, 1, "0", 5), at)
        self.assertEqual(ann.run("add w POINT (1 1)"), "ok 1")
        other.ask("COMMIT")
        self.assertEqual([cut.at for cut in owning.state(self.owner).cuts], [first, at])
        self.assertEqual(owning.drop_before(self.owner, at, 1, "0", 5), 0)
        self.assertEqual([cut.at for cut in owning.state(self.owner).cuts], [at])

    def test_what_is_dropped_is_counted_behind_the_lock(self):
        [ann] = self.town("ann")
        for level, wanted in (("READ COMMITTED", "stand 0 different files of 0 replicas"), ("REPEATABLE READ", "due to concurrent update")):
            with self.subTest(level=level):
                first, _ = self.cut(ann)
                at, _ = self.cut(ann)
                self.assertIn(wanted, self.refused_behind(level, at, first))

    def refused_behind(self, level, at, first):
        """What is told to who drops up to a first cut, and has waited for somebody who drops up to a later one."""
        one, other = (Link(self.owner) for _ in range(2))
        self.addCleanup(one.close)
        self.addCleanup(other.close)
        one.ask("BEGIN")
        other.ask(f"BEGIN ISOLATION LEVEL {level}")
        # Its snapshot is of before.
        other.ask("SELECT 1")
        one.ask(DROP, (at,))
        told = []

        def late():
            try:
                told.append(f"{other.ask(DROP, (first,), seconds=20.0)[0][0]} dropped")
            except (LinkLost, LogRefused) as error:
                told.append(str(error))

        thread = threading.Thread(target=late)
        thread.start()
        self.wait_for([thread])
        one.ask("COMMIT")
        thread.join()
        return told[0]

    def test_one_that_was_away_while_all_was_dropped(self):
        """It answers nothing by what is not so any more, though nobody has written since."""
        ann, cleo = self.town("ann", "cleo")
        ann.run("add w POINT (1 1)")
        cleo.follow()
        self.assertEqual(cleo.run("show w"), ["1 POINT (1 1)"])
        ann.run_all(["delete w 1", "add w POINT (2 2)"])
        at = owning.cut(self.owner, 0, 10).at
        ann.follow()
        owning.drop_before(self.owner, at, 1, "0", 5)
        for _ in range(2):
            with self.assertRaisesRegex(ReplicaStopped, f"begins at place {at + 1}, and what is here ends at 2: begin from"):
                cleo.follow()
        cleo.close()
        # So it is at a start, and at once.
        begun = time.monotonic()
        with self.assertRaisesRegex(ReplicaStopped, f"begins at place {at + 1}, and what is here ends at 0: begin from"):
            self.replica("cleo", patience=60.0)
        self.assertLess(time.monotonic() - begun, 30)
        # Who has the cut goes on.
        ann.follow()
        self.assertEqual(ann.run("add w POINT (3 3)"), "ok 3")

    def dropped(self, follower):
        """Has all of the log dropped, once another replica has it, and gives the place of the cut."""
        at = owning.cut(self.owner, 0, 10).at
        follower.follow()
        owning.drop_before(self.owner, at, 1, "0", 5)
        return at

    def test_a_line_stands_once_where_its_key_was_dropped_before_it_is_tried_again(self):
        """The connection is lost before the answer comes, and who wrote it sleeps until all is dropped."""
        ann, ben = self.town("ann", "ben")
        whole = Link.ask
        lost = []

        def ask(link, words, *values, **named):
            rows = whole(link, words, *values, **named)
            if "sfstore.append" in words and not lost:
                lost.append(self.dropped(ben))
                link.close()
                raise LinkLost("the server went away")
            return rows

        with unittest.mock.patch.object(Link, "ask", ask), self.assertRaisesRegex(AnswerGone, "nothing was written again: look whether"):
            ann.run("add w POINT (1 1)")
        ben.follow()
        self.assertEqual(ben.run("show w"), ["1 POINT (1 1)"])
        self.assertEqual(self.ask("SELECT at FROM sfstore.head"), [(lost[0],)])

    def test_a_line_that_is_not_acknowledged_stands_once_where_its_key_was_dropped(self):
        """Another process tries it again, which has all of the log."""
        ann, ben = self.town("ann", "ben")
        with unittest.mock.patch.object(ann, "_catch_up", side_effect=LogUnreachable("nobody")), self.assertRaises(NotAcknowledged) as caught:
            ann.run("add w POINT (1 1)")
        ann.follow()
        ann.close()
        self.dropped(ben)
        [file] = (self.folder / "ben").glob("*.sfs")
        shutil.rmtree(self.folder / "ann")
        again = self.replica("ann", begin_from=file)
        with self.assertRaisesRegex(AnswerGone, "nothing was written again: look whether"):
            again.write(["add w POINT (1 1)"], caught.exception.keys)
        self.assertEqual(again.run("show w"), ["1 POINT (1 1)"])

    def test_a_line_that_waits_to_be_tried_again_stands_once_where_its_key_is_dropped_behind_it(self):
        self.assertIn(self.tried_while_dropped("again"), ([2], Dropped))

    def test_a_line_that_waits_to_be_tried_again_stands_once_where_its_key_is_dropped_before_it(self):
        self.assertIn(self.tried_while_dropped("drop"), ([2], Dropped))

    def tried_while_dropped(self, first):
        """What a line is answered that is tried again while all is dropped and somebody else writes. Who waits first is mostly next."""
        ann, ben = self.town("ann", "ben")
        key = new_key(ann._following.last())
        ann._writing.append([key], ["add w POINT (1 1)"], time.monotonic() + 30)
        cut = owning.cut(self.owner, 0, 10).at
        ben.follow()
        did = {}
        tasks = {"again": lambda: self.tried_again(key, did), "drop": lambda: owning.drop_before(self.owner, cut, 1, "0", 30)}
        other = Link(self.pair.primary.dsn("ben", self.database))
        self.addCleanup(other.close)
        other.ask("BEGIN")
        other.ask("SELECT sfstore.append(ARRAY[gen_random_uuid()], ARRAY['add w POINT (2 2)'])")
        threads = []
        for name in sorted(tasks, key=lambda name: name != first):
            threads.append(threading.Thread(target=tasks[name]))
            threads[-1].start()
            self.wait_for(threads)
        other.ask("COMMIT")
        for thread in threads:
            thread.join()
        self.assertEqual(self.ask("SELECT at, line FROM sfstore.log"), [(cut + 1, "add w POINT (2 2)")])
        return did["again"]

    def tried_again(self, key, did):
        """Has a line written again by another process of ann's."""
        writing = LogWriting(self.dsn("ann"), Fence(), lambda told: None)
        try:
            did["again"] = writing.append([key], ["add w POINT (1 1)"], time.monotonic() + 30)
        except Dropped:
            did["again"] = Dropped
        finally:
            writing.close()

    def wait_for(self, threads):
        """Waits until all wait for the log's lock, or are done."""
        until = time.monotonic() + 10
        while time.monotonic() < until:
            [(waiting,)] = self.ask("SELECT count(*) FROM pg_stat_activity WHERE wait_event_type = 'Lock'")
            if waiting + sum(not thread.is_alive() for thread in threads) >= len(threads):
                return
            time.sleep(0.05)

    def test_one_that_was_away_writes_nothing_into_a_log_that_was_dropped(self):
        ann, ben = self.town("ann", "ben")
        ben.run("add w POINT (1 1)")
        at = self.dropped(ben)
        with self.assertRaisesRegex(ReplicaStopped, f"begins at place {at + 1}, .* begin from the file of another replica. Nothing was written"):
            ann.run("add w POINT (2 2)")
        ben.follow()
        self.assertEqual(ben.run("show w"), ["1 POINT (1 1)"])

    def test_one_that_stops_behind_its_own_line_says_that_it_stands(self):
        ann, ben = self.town("ann", "ben")
        append = ann._writing.append

        def slow(*words):
            places = append(*words)
            self.dropped(ben)
            return places

        with unittest.mock.patch.object(ann._writing, "append", slow), self.assertRaisesRegex(
            ReplicaStopped, "begin from the file of another replica. The log has what was written last, from place [0-9]+ on: do not write"
        ):
            ann.run("add w POINT (2 2)")
        self.assertEqual(ben.run("show w"), ["1 POINT (2 2)"])

    def test_a_file_to_begin_from_that_is_not_that_of_the_others(self):
        ann, ben = self.town("ann", "ben")
        at, _ = self.cut(ann, ben)
        [file] = (self.folder / "ann").glob(f"{at:020}-*.sfs")
        other = self.folder / file.name
        other.write_bytes(file.read_bytes() + b"x")
        with self.assertRaisesRegex(ReplicaStopped, "is not what all replicas had"):
            self.replica("cleo", begin_from=other)
        with self.assertRaisesRegex(ValueError, "no file of a replica"):
            self.replica("cleo", begin_from=self.folder / "x.sfs")

    def test_a_wrong_file_to_begin_from_takes_the_place_of_none(self):
        [ann] = self.town("ann")
        for _ in range(2):
            self.cut(ann)
        ann.close()
        kept = sorted(path.name for path in (self.folder / "ann").glob("*.sfs"))
        self.assertEqual(len(kept), 2)
        for at in (1, 9):
            other = self.folder / f"{at:020}-{'ab' * 32}.sfs"
            other.write_bytes(b"x")
            with self.assertRaisesRegex(ReplicaStopped, "is not what all replicas had"):
                self.replica("ann", begin_from=other)
        self.assertEqual(sorted(path.name for path in (self.folder / "ann").glob("*.sfs*")), kept)
        self.assertEqual(self.replica("ann").run("show w"), [])

    def test_a_folder_of_another_log(self):
        [ann] = self.town("ann")
        self.cut(ann)
        ann.close()
        self.ask("CREATE DATABASE twin", database="postgres")
        self.addCleanup(self.ask, "DROP DATABASE twin WITH (FORCE)", database="postgres")
        twin = self.pair.primary.dsn(database="twin")
        owning.set_up(twin, 1)
        owning.add_login(twin, "ann", is_editor=True, is_replica=True)
        log = self.pair.dsn("ann", "twin")
        # Shorter, as long, and longer than what was applied.
        for lines in (0, 2, 1):
            link = Link(self.pair.primary.dsn("ann", "twin"))
            for _ in range(lines):
                link.ask(APPEND, ("layer add w point",))
            link.close()
            with self.assertRaisesRegex((ReplicaStopped, LogUnreachable), "another log|has not the log"):
                self.replica("ann", log=log, patience=0.5)


class Divergence(ReplicaCase):
    WRONG = """\
        import ctypes, subprocess, sys, os
        flag = {flag!r}
        wrong = os.path.exists(flag)
        if wrong and {once}: os.unlink(flag)
        def follow(): ctypes.CDLL(None).prctl(1, 9)  # the program is killed with this one
        program = subprocess.Popen([{program!r}, *sys.argv[1:]], stdin=subprocess.PIPE, bufsize=0, preexec_fn=follow)
        for line in sys.stdin.buffer:
            program.stdin.write(line.replace(b"POINT (7 3)", b"POINT (7 4)") if wrong else line)
        program.stdin.close()
        sys.exit(program.wait())
        """

    def wrong_program(self, once):
        """A program that stores another point than it is given, on its first start or on each one."""
        return self.flagged(self.WRONG, once)

    def test_a_replica_that_differs_once_begins_again(self):
        ann, ben = self.town("ann", "ben")
        cleo = self.replica("cleo", program=self.wrong_program(True))
        ann.run("add w POINT (7 3)")
        cleo.follow()
        self.assertEqual(cleo.run("show w"), ["1 POINT (7 4)"])
        at, files = self.cut(ann, ben, cleo)
        self.assertEqual(len(set(files)), 1)
        self.assertEqual((ann.restarts, ben.restarts, cleo.restarts), (0, 0, 1))
        self.assert_told(f"at the cut {at} 1 replicas have the file that is here, and 2 another one")
        self.assertEqual(cleo.run("show w"), ["1 POINT (7 3)"])
        self.assertEqual(len(list((self.folder / "cleo").glob("*.wrong"))), 1)
        self.assertEqual(owning.state(self.owner).cuts[-1].alike, 3)

    def test_a_replica_that_differs_again_from_the_trusted_one_stops(self):
        ann, ben = self.town("ann", "ben")
        cleo = self.replica("cleo", program=self.wrong_program(False), trust="ann")
        ann.run("add w POINT (7 3)")
        with self.assertRaisesRegex(ReplicaStopped, "carried out again it was the same"):
            self.cut(ann, ben, cleo)
        at = self.ask("SELECT max(at) FROM sfstore.cuts")[0][0]
        with self.assertRaisesRegex(LogRefused, "2 different files of 3 replicas"):
            owning.drop_before(self.owner, at, 2, "0", 5)
        # The others are right, and go on.
        self.assertEqual(ann.run("add w POINT (1 1)"), "ok 2")
        self.assertEqual((ann.restarts, ben.restarts), (0, 0))

    def test_the_trusted_login_by_its_option(self):
        [ann] = self.town("ann")
        ann.run("add w POINT (7 3)")
        self.cut(ann)
        words = ["--program", str(self.wrong_program(False))]
        # Without a trusted one it goes on, and says so.
        said = self.session("ben", b"show w\n", *words)
        self.assertEqual((said.stdout, said.returncode), (b"rows 1\n1 POINT (7 4)\n", 0), said.stderr)
        self.assertIn(b"it goes on, and a person has to look at the machines", said.stderr)
        said = self.session("cleo", b"show w\n", *words, "--trust", "ann")
        self.assertEqual((said.stdout, said.returncode), (b"", 5), said.stderr)
        self.assertIn(b"carried out again it was the same", said.stderr)

    def lie(self, login, at, total="0" * 64):
        """Has a login put down a sum that no file has."""
        self.ask("SELECT sfstore.put_sum(%s, %s)", (at, total), login=login)

    def compare(self, replica):
        """Has a replica look at the sums of the others now."""
        replica._compared = 0.0
        replica.follow()

    def test_one_login_does_not_stop_the_others(self):
        [ann] = self.town("ann")
        ann.run("add w POINT (7 3)")
        at, files = self.cut(ann)
        self.lie("ben", at)
        self.compare(ann)
        # Carried out once more, and no oftener.
        self.assertEqual(ann.restarts, 1)
        self.lie("cleo", at)
        with unittest.mock.patch("time.monotonic", lambda now=time.monotonic: now() + 3600):
            self.compare(ann)
        self.compare(ann)
        self.assertEqual((ann.restarts, self.file(ann, at)), (1, files[0]))
        self.assert_told(f"at the cut {at} 1 replicas have .* 2 another one; it goes on, and a person has to look")
        self.assertEqual(ann.run("add w POINT (1 1)"), "ok 2")
        ann.close()
        ann = self.replica("ann")
        self.assertEqual(ann.run("show w"), ["1 POINT (7 3)", "2 POINT (1 1)"])

    def test_a_wrong_sum_behind_a_drop_takes_no_file_away(self):
        [ann] = self.town("ann")
        at, files = self.cut(ann)
        owning.drop_before(self.owner, at, 1, "0", 5)
        self.lie("ben", at)
        self.compare(ann)
        self.assertEqual((ann.restarts, self.file(ann, at)), (0, files[0]))
        self.assert_told("it goes on, and a person has to look")
        ann.close()
        self.assertEqual(self.replica("ann").run("show w"), [])

    def test_the_trusted_login_decides(self):
        ann, ben = self.town("ann", "ben", trust="cleo")
        cleo = self.replica("cleo")
        ann.run("add w POINT (7 3)")
        at, files = self.cut(cleo, ann)
        self.lie("ben", at)
        self.compare(ann)
        self.assertEqual((ann.restarts, self.file(ann, at)), (0, files[0]))
        # Where others alone differ, a file of the trusted one is taken still.
        [file] = (self.folder / "cleo").glob(f"{at:020}-*.sfs")
        dora = self.replica("rita", begin_from=file, trust="cleo")
        self.assertEqual(dora.run("show w"), ["1 POINT (7 3)"])

    def test_a_sum_is_put_down_once(self):
        [ann] = self.town("ann")
        at, _ = self.cut(ann)
        before = owning.state(self.owner).cuts
        with self.assertRaisesRegex(LogRefused, f"ann has put down another file for the cut {at} before") as caught:
            self.lie("ann", at)
        self.assertEqual(caught.exception.code, "SF105")
        self.lie("ann", at, before[0].sums["ann"])
        self.assertEqual(owning.state(self.owner).cuts, before)

    def test_the_first_one_at_a_cut_finds_out_later(self):
        cleo, ann, ben = self.town("cleo", "ann", "ben", program=PROGRAM)
        cleo.close()
        cleo = self.replica("cleo", program=self.wrong_program(True))
        ann.run("add w POINT (7 3)")
        at, _ = self.cut(cleo)
        self.assertEqual(cleo.restarts, 0)
        ann.follow()
        ben.follow()
        cleo._compared = 0.0
        cleo.follow()
        self.assertEqual(cleo.restarts, 1)
        self.assertEqual(self.file(cleo, at), self.file(ann, at))

    def test_a_file_that_was_changed_on_the_disk(self):
        ann, ben, cleo = self.town("ann", "ben", "cleo")
        ann.run("add w POINT (7 3)")
        self.cut(ann, ben, cleo)
        at, files = self.cut(ann, ben, cleo)
        cleo.close()
        [path] = (self.folder / "cleo").glob(f"{at:020}-*.sfs")
        with Store(PROGRAM, save=path) as other:
            other.add_layer("other", "point")
        cleo = self.replica("cleo")
        cleo.follow()
        self.assertEqual(cleo.run("show w"), ["1 POINT (7 3)"])
        self.assertEqual(self.file(cleo, at), files[0])

    def test_a_changed_file_of_the_only_replica_is_not_begun_from(self):
        [ann] = self.town("ann")
        ann.run("add w POINT (7 3)")
        at, files = self.cut(ann)
        before = owning.state(self.owner).cuts
        ann.close()
        [path] = (self.folder / "ann").glob(f"{at:020}-*.sfs")
        with Store(PROGRAM, save=path) as other:
            other.add_layer("other", "point")
        ann = self.replica("ann")
        self.assertEqual(ann.run("show w"), ["1 POINT (7 3)"])
        self.assertEqual((self.file(ann, at), owning.state(self.owner).cuts), (files[0], before))
        self.assert_told(f"{path} is damaged, and the one before is taken: it is not the file that ann has put down")
        self.assertEqual(len(list((self.folder / "ann").glob("*.wrong"))), 1)

    def test_a_file_of_a_reader_that_does_not_load(self):
        [ann] = self.town("ann")
        rita = self.replica("rita")
        ann.run("add w POINT (7 3)")
        at, files = self.cut(ann, rita)
        rita.close()
        [path] = (self.folder / "rita").glob(f"{at:020}-*.sfs")
        path.write_bytes(files[0][:-1])
        rita = self.replica("rita")
        self.assert_told("is damaged, and the one before is taken: .*BadFile")
        self.assertEqual((rita.run("show w"), self.file(rita, at)), (["1 POINT (7 3)"], files[0]))

    def test_a_folder_in_the_place_of_a_file(self):
        ann, ben = self.town("ann", "ben")
        for number in (1, 2):
            ann.run(f"add w POINT ({number} 1)")
            at, files = self.cut(ann, ben)
        [path] = (self.folder / "ann").glob(f"{at:020}-*.sfs")
        ann.close()
        path.unlink()
        path.mkdir()
        ann = self.replica("ann")
        self.assert_told("is damaged, and the one before is taken")
        self.assertEqual(ann.run("show w"), ["1 POINT (1 1)", "2 POINT (2 1)"])
        self.assertEqual(self.file(ann, at), files[1])
        self.assertTrue(path.with_name(path.name + ".wrong").is_dir())

    def test_a_timeline_that_is_none(self):
        [ann] = self.town("ann")
        ann.close()
        path = self.folder / "ann" / "timeline"
        for text in ("", "x", "-1", "1" * 5_000, "\u0663"):
            path.write_text(text)
            with self.assertRaisesRegex(ValueError, "timeline is damaged: .* Take it away once no old primary runs any more"):
                self.replica("ann")
        path.unlink()
        self.assertEqual(self.replica("ann").run("show w"), [])

    def test_a_file_that_does_not_load(self):
        ann, cleo = self.town("ann", "cleo")
        self.cut(ann, cleo)
        ann.run("add w POINT (7 3)")
        at, files = self.cut(ann, cleo)
        cleo.close()
        [path] = (self.folder / "cleo").glob(f"{at:020}-*.sfs")
        path.write_bytes(files[0][:-1])
        cleo = self.replica("cleo")
        self.assert_told("is damaged, and the one before is taken")
        self.assertEqual(cleo.run("show w"), ["1 POINT (7 3)"])
        self.assertEqual(self.file(cleo, at), files[0])

    def test_a_log_whose_lines_were_changed(self):
        ann, ben = self.town("ann", "ben")
        ann.run_all(["add w POINT (1 1)", "add w POINT (2 2)"])
        self.ask("UPDATE sfstore.log SET line = 'add w POINT (2 3)' WHERE at = 3")
        before = ben.at
        with self.assertRaisesRegex(ReplicaStopped, "place 3 of the log does not follow"):
            ben.follow()
        # Nothing of it was carried out.
        self.assertEqual((ben.at, ben.run("show w") if before else []), (before, []))


class Memory(ReplicaCase):
    SCARCE = """\
        import ctypes, subprocess, sys, os
        flag = {flag!r}
        scarce = os.path.exists(flag)
        if scarce and {once}: os.unlink(flag)
        def follow(): ctypes.CDLL(None).prctl(1, 9)  # the program is killed with this one
        program = subprocess.Popen(
            [{program!r}, *sys.argv[1:]], stdin=subprocess.PIPE, stdout=subprocess.PIPE, bufsize=0, preexec_fn=follow
        )
        for line in sys.stdin.buffer:
            if scarce and b"POINT (7 3)" in line:
                sys.stdout.buffer.write(b"refused 1 Memory\\n")
            else:
                program.stdin.write(line)
                answer = program.stdout.readline()
                rows = int(answer[5:]) if answer.startswith(b"rows ") else 0
                sys.stdout.buffer.write(answer + b"".join(program.stdout.readline() for _ in range(rows)))
            sys.stdout.buffer.flush()
        program.stdin.close()
        sys.exit(program.wait())
        """

    def scarce_program(self, once):
        """A program that answers as one that finds no memory for a line, on its first start or on each one."""
        return self.flagged(self.SCARCE, once)

    LINES = ["add w POINT (1 1)", "add w POINT (7 3)", "add w POINT (2 2)", "delete w 2", "undo"]

    def test_a_line_without_memory_begins_again_from_the_file(self):
        [ann] = self.town("ann")
        ann.run("add w POINT (9 9)")
        ben = self.replica("ben", program=self.scarce_program(True))
        (self.folder / "flag").touch()
        self.cut(ann, ben)
        ann.run_all(self.LINES)
        ben.follow()
        self.assertEqual(ben.run("show w"), ann.run("show w"))
        self.assertEqual(ben.restarts, 1)
        self.assert_told("given up at place 3, .* place 5 was answered: refused 1 Memory")
        _, files = self.cut(ann, ben)
        self.assertEqual(files[0], files[1])

    def test_an_own_line_is_answered_when_there_is_memory(self):
        self.town("ann")
        ben = self.replica("ben", program=self.scarce_program(True))
        self.assertEqual(ben.run_all(self.LINES), ["ok 1", "ok 2", "ok 3", "ok", "ok"])
        self.assertEqual(ben.restarts, 1)

    def test_no_memory_again_and_again(self):
        [ann] = self.town("ann")
        ben = self.replica("ben", program=self.scarce_program(False))
        ann.run_all(self.LINES)
        with self.assertRaisesRegex(ReplicaStopped, "begun again 3 times .*refused 1 Memory"):
            ben.follow()

    def test_a_program_that_is_killed(self):
        ann, ben = self.town("ann", "ben")
        ann.run("add w POINT (1 1)")
        ben.follow()
        for _ in range(5):
            os.kill(ben._store._program._process.pid, signal.SIGKILL)
            self.assertEqual(ben.run("show w"), ann.run("show w"))
            os.kill(ben._store._program._process.pid, signal.SIGKILL)
            ann.run("add w POINT (1 1)")
            ben.follow()
        self.assertEqual(ben.run("show w"), ann.run("show w"))


class Kills(ReplicaCase):
    """A replica's process is killed; another one goes on in its folder."""

    CHILD = """\
        import os, signal, sys
        from sfstore import files
        from sfstore.replica import Replica, replica, snapshots
        name, skipped, after = sys.argv[1], int(sys.argv[2]), sys.argv[3] == "after"
        module, _, function = name.rpartition(".")
        holder = {"files": files, "os": os, "Snapshots": snapshots.Snapshots, "Following": replica.Following}[module]
        whole = getattr(holder, function)
        def deadly(*words, **more):
            global skipped
            if skipped:
                skipped -= 1
                return whole(*words, **more)
            if after:
                whole(*words, **more)
            os.kill(os.getpid(), signal.SIGKILL)
        with Replica(sys.argv[4], sys.argv[5], program=sys.argv[6]) as ben:
            setattr(holder, function, deadly)
            print("ready", flush=True)
            sys.stdin.read(1)
            ben.follow()
        """

    STEPS = ["Snapshots.keep", "files.sync", "os.replace", "os.fsync", "Following.put_sum", "Following.sums"]

    def test_kills_around_the_rename_of_a_file(self):
        [ann] = self.town("ann")
        ann.run("add w POINT (1 1)")
        self.cut(ann)
        for step in self.STEPS:
            for moment in ("before", "after"):
                ann.run("add w POINT (2 2)")
                child = subprocess.Popen(
                    [sys.executable, "-c", textwrap.dedent(self.CHILD), step, "0", moment]
                    + [str(self.folder / "ben"), self.dsn("ben"), PROGRAM],
                    stdin=subprocess.PIPE,
                    stdout=subprocess.PIPE,
                    env={**os.environ, "PYTHONPATH": str(FOLDER)},
                )
                self.assertEqual(child.stdout.readline(), b"ready\n")
                at, [wanted] = self.cut(ann)
                child.communicate(b"g")
                self.assertEqual(child.returncode, -signal.SIGKILL, (step, moment))
                with Replica(self.folder / "ben", self.dsn("ben"), program=PROGRAM) as ben:
                    self.assertEqual(self.file(ben, at), wanted, (step, moment))
                    self.assertEqual(ben.run("show w"), ann.run("show w"))
                self.assertEqual(owning.state(self.owner).cuts[-1].alike, 2)

    def test_kills_at_any_moment(self):
        [ann] = self.town("ann")
        for part in range(8):
            ann.run_all([f"add w POINT ({k} {part})" for k in range(1000)])
            at, [wanted] = self.cut(ann)
        dice = random.Random(38)
        words = [sys.executable, "-m", "sfstore.replica.command", "run", str(self.folder / "ben"), self.dsn("ben")]
        for _ in range(12):
            child = subprocess.Popen(
                [*words, "--program", PROGRAM],
                stdin=subprocess.PIPE,
                stderr=subprocess.DEVNULL,
                env={**os.environ, "PYTHONPATH": str(FOLDER)},
            )
            time.sleep(0.15 + dice.random() * 0.6)
            child.kill()
            child.communicate()
        with Replica(self.folder / "ben", self.dsn("ben"), program=PROGRAM) as ben:
            self.assertEqual(self.file(ben, at), wanted)
        self.assertFalse(list((self.folder / "ben").glob("*.wrong")))


class OlderCopy(TestCase):
    """A log that is set back to an older copy of its disk, by hand, and of which others go on."""

    @unittest.skipIf(missing(), missing())
    def test_nothing_is_written_into_another_log(self):
        server = Server(self.folder, "one", OPTIONS)
        self.folder.chmod(0o755)
        server.make()
        server.start("")
        self.addCleanup(server.kill)
        link = Link(server.dsn())
        link.ask("CREATE DATABASE town")
        link.close()
        owner = server.dsn(database="town")
        owning.set_up(owner, 0)
        for login in ("ann", "ben"):
            owning.add_login(owner, login, is_editor=True, is_replica=True)

        def replica(login):
            replica = Replica(self.folder / login, server.dsn(login, "town"), program=PROGRAM, patience=2.0)
            self.addCleanup(replica.close)
            return replica

        ann, ben = replica("ann"), replica("ben")
        ann.run("layer add w point")
        ben.close()
        server.stop()
        copy = self.folder / "copy"
        subprocess.run(["cp", "-a", str(server.data), str(copy)], check=True)
        server.start("")
        for number in range(3):
            ann.run(f"add w POINT (1 {number})")
        server.stop()
        shutil.rmtree(server.data)
        copy.rename(server.data)
        server.start("")
        # It ends before, at, and behind the place that is known here.
        ben = replica("ben")
        for number in (1, 2, 3):
            ben.run_all([f"add w POINT (9 {number})"] * (2 if number == 2 else 1))
            with self.assertRaises(LogUnreachable):
                ann.follow()
            with self.assertRaisesRegex(NotAcknowledged, "has another log|has not the log"):
                ann.run("add w POINT (5 5)")
            self.assertEqual(len(ann.run("show w")), 3)
        ben.follow()
        self.assertEqual([row for row in ben.run("show w") if "(5 5)" in row], [])


class Servers(ReplicaCase):
    """Servers that stall, are lost, come back, or have no room: two of their own."""

    @classmethod
    def setUpClass(cls):
        cls.pair = Pair(OPTIONS)
        cls.addClassCleanup(cls.pair.close)

    def tearDown(self):
        # The next test finds both servers as they have to be.
        if self.pair.standby.is_running():
            self.pair.standby.stall(signal.SIGCONT)
        else:
            self.pair.renew_standby()
        super().tearDown()

    def stuck(self, line, options=""):
        """Has an append of ann's wait for a standby, and gives its connection."""
        link = Link(self.pair.primary.dsn("ann", self.database))
        self.addCleanup(link.close)
        words = f"BEGIN; SELECT sfstore.append(ARRAY[gen_random_uuid()], ARRAY['{line}']); {options} COMMIT"
        try:
            link.ask(words, seconds=0.5)
        except LinkLost as lost:
            self.assertIn("no answer", str(lost))

    def raw(self):
        """What anybody can read of the log on the primary."""
        return [line for (line,) in self.ask("SELECT line FROM sfstore.log ORDER BY at", login="rita")]

    def test_nobody_sees_a_line_before_a_stalled_standby_has_it(self):
        ann, ben = self.town("ann", "ben")
        ben.follow()
        self.pair.standby.stall()
        self.stuck("add w POINT (1 1)")
        self.assertEqual(self.raw(), ["layer add w point"])
        ben.follow()
        self.assertEqual((ben.at, ben.run("show w")), (1, []))
        # Where the wait is cancelled the server shows the line. A replica does not carry it out.
        self.ask("SELECT pg_cancel_backend(pid) FROM pg_stat_activity WHERE wait_event = 'SyncRep'")
        until = time.monotonic() + 10
        while len(self.raw()) < 2 and time.monotonic() < until:
            time.sleep(0.01)
        self.assertEqual(len(self.raw()), 2)
        ben.follow()
        self.assertEqual((ben.at, ben.run("show w")), (1, []))
        self.assert_told("0 of 1 standbys have the last lines: none is given out before")
        # The same where an editor does not wait for standbys.
        self.stuck("add w POINT (2 2)", "SET LOCAL synchronous_commit = off;")
        self.assertEqual(len(self.raw()), 3)
        ben.follow()
        self.assertEqual(ben.at, 1)
        self.pair.standby.stall(signal.SIGCONT)
        ann._catch_up(3, time.monotonic() + 20)
        ben.follow()
        self.assertEqual(ben.run("show w"), ["1 POINT (1 1)", "2 POINT (2 2)"])

    def test_a_line_that_no_standby_had_is_gone_with_its_primary_and_nobody_saw_it(self):
        ann, ben = self.town("ann", "ben")
        self.pair.standby.stall()
        self.stuck("add w POINT (1 1)")
        self.ask("SELECT pg_cancel_backend(pid) FROM pg_stat_activity WHERE wait_event = 'SyncRep'")
        ben.follow()
        self.assertEqual(ben.run("show w") if ben.at > 0 else [], [])
        # The bytes that wait in the standby's socket go with the machine.
        for pid in self.pair.standby.processes()[1:]:
            if b"walreceiver" in Path(f"/proc/{pid}/cmdline").read_bytes():
                os.kill(pid, signal.SIGKILL)
        self.pair.primary.kill()
        self.pair.standby.stall(signal.SIGCONT)
        time.sleep(0.5)
        self.pair.fail_over()
        self.pair.renew_standby()
        self.assertEqual(ann.run("add w POINT (5 5)"), "ok 1")
        ben.follow()
        self.assertEqual(ben.run("show w"), ["1 POINT (5 5)"])
        _, files = self.cut_on_primary(ann, ben)
        self.assertEqual(files[0], files[1])

    def test_a_line_whose_place_another_one_has_after_a_failover_is_tried_again(self):
        """Somebody ends its wait for the standby, and the primary is lost: the place that it was given is another line's."""
        ann, ben = self.town("ann", "ben")
        ben.close()
        self.pair.standby.stall()
        failed = []

        def fail():
            """Behind the append: what ann is told of its place is not so any more when the log is looked at."""
            self.ask("SELECT pg_cancel_backend(pid) FROM pg_stat_activity WHERE wait_event = 'SyncRep'")
            time.sleep(0.5)
            for server in (self.pair.standby, self.pair.primary):
                server.kill()
            self.pair.standby.start(self.pair.primary.name)
            self.pair.fail_over()
            self.pair.renew_standby()
            with Replica(self.folder / "ben", self.dsn("ben"), program=PROGRAM) as other:
                failed.append(other.run("add w POINT (9 9)"))

        waiting = threading.Timer(1.0, fail)
        waiting.start()
        self.addCleanup(waiting.join)
        self.assertEqual(ann.run("add w POINT (1 1)"), "ok 2")
        waiting.join()
        self.assertEqual((failed, ann.run("show w")), (["ok 1"], ["1 POINT (9 9)", "2 POINT (1 1)"]))

    def cut_on_primary(self, *replicas):
        self.owner = self.pair.primary.dsn(database=self.database)
        return self.cut(*replicas)

    def test_writes_stop_where_the_standby_is_lost_and_say_so(self):
        ann, ben = self.town("ann", "ben", patience=3.0)
        self.pair.standby.kill()
        line = "add w POINT (1 1)"
        with self.assertRaisesRegex(NotAcknowledged, "1 lines are not acknowledged") as caught:
            ann.run(line)
        self.assertIn("the log has taken nothing for ", str(caught.exception))
        self.assertIn(" seconds: 0 of 1 standbys are there", str(caught.exception))
        self.assert_told("the log has taken nothing for [0-9]+ seconds: 0 of 1 standbys are there")
        ben.follow()
        self.assertEqual(ben.run("show w") if ben.at else [], [])
        self.assertEqual(owning.state(self.pair.primary.dsn(database=self.database)).standbys, [])
        self.pair.renew_standby()
        # Tried again it stands once, with the answer.
        self.assertEqual(ann.write([line], caught.exception.keys), ["ok 1"])
        ben.follow()
        self.assertEqual(ben.run("show w"), ["1 POINT (1 1)"])

    def test_the_owner_finds_the_primary_behind_a_server_that_hangs(self):
        # The servers are named in one order: the one that hangs is the first.
        if self.pair.primary.name != "a":
            self.pair.primary.kill()
            self.pair.fail_over()
            self.pair.renew_standby()
        stalled = self.pair.primary.processes()
        self.addCleanup(self.end, stalled)
        self.pair.primary.stall()
        self.pair.fail_over()
        dsn = self.dsn("postgres")
        try:
            begun = time.monotonic()
            self.assertEqual(owning.state(dsn).at, 0)
            self.assertLess(time.monotonic() - begun, 20)
            # No standby is there to be waited for.
            quiet = dsn + " options='-c synchronous_commit=local'"
            owning.add_login(quiet, "zoe", is_editor=False, is_replica=False)
            owning.create_database(quiet)
            with self.assertRaisesRegex(LogRefused, "already exists"):
                owning.set_up(quiet, 1)
        finally:
            self.end(stalled)
            self.pair.standby._reap()
        self.pair.renew_standby()
        self.ask("DROP ROLE zoe", database="postgres")

    def old_primary(self):
        """Has the standby take over, and gives the server that was the primary, in a folder of its own."""
        name, standby = self.pair.primary.name, self.pair.standby.name
        was = self.pair.primary.data.parent
        old = was.with_name("old")
        self.pair.fail_over()
        shutil.move(was, old)
        server = Server(old.parent, "old", OPTIONS)
        server.start(standby)
        self.addCleanup(shutil.rmtree, old, True)
        self.addCleanup(server.kill)
        self.assertNotEqual(name, standby)
        return server

    def test_an_old_primary_that_comes_back_is_not_followed(self):
        ann, ben = self.town("ann", "ben")
        ben.follow()
        self.pair.standby.stall()
        self.stuck("add w POINT (1 1)")
        self.pair.primary.kill()
        self.pair.standby.kill()
        self.pair.standby.start(self.pair.primary.name)
        old = self.old_primary()
        # It has a line that nobody was given, and shows it now.
        alone = old.dsn("ann", self.database)
        link = Link(alone)
        self.assertEqual(link.ask("SELECT line FROM sfstore.log WHERE at = 2"), [("add w POINT (1 1)",)])
        link.close()
        # One who knows of no other server is given no line, and can't write.
        with self.assertRaisesRegex(LogUnreachable, "0 of 1 standbys"):
            self.replica("cleo", log=old.dsn("cleo", self.database), patience=2.0)
        self.pair.renew_standby()
        host = re.search("host=([^ ]+)", self.dsn("ann"))[1]
        all_three = self.dsn("ann").replace(host, f"{old.data.parent},{host}").replace("port=5432", "port=5432,5432")
        ann.close()
        ann = self.replica("ann", log=all_three)
        self.assertEqual(ann.run("add w POINT (5 5)"), "ok 1")
        ben.follow()
        self.assertEqual(ben.run("show w"), ["1 POINT (5 5)"])
        # One who has seen the other one does not go back.
        ann.close()
        with self.assertRaisesRegex(LogUnreachable, "an old primary is not followed"):
            self.replica("ann", log=alone, patience=1.0)
        self.assertEqual(self.replica("ann").run("show w"), ["1 POINT (5 5)"])

    def test_a_primary_that_stands_still_is_left_when_another_one_takes_over(self):
        ann, ben = self.town("ann", "ben")
        old = self.pair.primary
        stalled = old.processes()
        self.addCleanup(self.end, stalled)
        old.stall()
        answers = []
        writer = threading.Thread(target=lambda: answers.append(self.written(["add w POINT (1 1)"])))
        writer.start()
        time.sleep(0.5)
        self.pair.fail_over()
        moved = self.pair.standby.data.parent
        shutil.move(moved, moved.with_name("still"))
        self.addCleanup(shutil.rmtree, moved.with_name("still"), True)
        self.pair.standby._process, process = None, self.pair.standby._process
        self.pair.renew_standby()
        writer.join(60)
        self.assertEqual(answers, [["ok 1"]])
        ben.follow()
        self.assertEqual(ben.run("show w"), ["1 POINT (1 1)"])
        self.end(stalled)
        process.wait(30)

    def end(self, processes):
        for pid in processes:
            with contextlib.suppress(ProcessLookupError):
                os.kill(pid, signal.SIGKILL)

    def written(self, lines):
        with Replica(self.folder / "cleo", self.dsn("cleo"), program=PROGRAM) as replica:
            return replica.run_all(lines)

    def test_a_small_disk_of_a_replica(self):
        disk = self.mounted("100k")
        ann, ben = self.town("ann", "ben")
        cleo = self.replica("cleo", folder=disk / "cleo")
        count = 4000
        for at in range(0, count, 1000):
            ann.run_all([f"add w POINT ({k} 0)" for k in range(at, at + 1000)])
        with self.assertRaisesRegex(ReplicaStopped, "begun again 3 times .*fault save Write"):
            self.cut(ann, ben, cleo)
        cleo.close()
        subprocess.run(["mount", "-o", "remount,size=4m", disk], check=True)
        cleo = self.replica("cleo", folder=disk / "cleo")
        self.assertEqual(self.file(cleo, cleo.at), self.file(ann, ann.at))
        cleo.close()

    def test_a_full_disk_of_the_servers(self):
        disk = self.mounted("300m")
        # The servers' user has to reach it.
        self.folder.chmod(0o711)
        disk.chmod(0o755)
        with Pair([*OPTIONS, "max_wal_size=32MB", "min_wal_size=32MB"], disk) as pair:
            owner = pair.primary.dsn()
            owning.set_up(owner, 1)
            owning.add_login(owner, "ann", is_editor=True, is_replica=True)
            with self.replica("ann", log=pair.dsn("ann"), folder=self.folder / "full", patience=3.0) as ann:
                ann.run("layer add w point")
                free = shutil.disk_usage(disk).free
                (disk / "other").write_bytes(bytes(free - 2_000_000))
                count, keys = self.until_full(ann)
                (disk / "other").unlink()
                for server in (pair.primary, pair.standby):
                    if not server.is_running():
                        server.start({"a": "b", "b": "a"}[server.name])
                pair.primary.wait_for_standbys(1)
                self.assertEqual(ann.write(self.wide(count), keys)[0], f"ok {count + 1}")
                self.assertEqual(len(ann.run("show w")), count + 1)
                with Replica(self.folder / "new", pair.dsn("ann"), program=PROGRAM) as new:
                    self.assertEqual(new.run("show w"), ann.run("show w"))

    def wide(self, count):
        """A line, and one that is long and not made smaller by the server. It is refused, and kept as all are."""
        return [f"add w POINT ({count} 1)", f"add w {random.Random(count).randbytes(60_000).hex()}"]

    def until_full(self, replica):
        """Writes until lines are not acknowledged: how many were, and their keys."""
        for count in range(1 << 20):
            try:
                self.assertEqual(replica.run_all(self.wide(count))[0], f"ok {count + 1}")
            except NotAcknowledged as error:
                self.assertRegex(str(error), "No space left on device|standbys")
                return count, error.keys


@unittest.skipIf(missing(), missing())
class Failovers(TestCase):
    SECONDS = 240

    def test_twenty_kills_by_seed(self):
        dice = random.Random(38)
        trial = Trial(PROGRAM, OPTIONS)
        try:
            trial.write()
            for count in range(20):
                trial.wait_for(dice.randrange(1, 40))
                time.sleep(dice.random() * 0.05)
                if count % 4 == 3:
                    trial.people[dice.randrange(3)].kill()
                trial.fail_over()
            claims = trial.claims()
        finally:
            trial.close()
        self.assertEqual([claim.text for claim in claims if not claim.holds], [])
        self.assertGreater(trial.acknowledged, 20)


if __name__ == "__main__":
    unittest.main()
