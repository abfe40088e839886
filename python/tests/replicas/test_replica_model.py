"""Replicas against a plain model: lists of operations by a seed, and after each what every replica has to show.

A list has operations that are frequent, and some dear ones between them: servers that are killed or hang under
writes, a full disk, a question without an end, a program that leaves connections open. After each one every replica
has to show what the log has, no earlier place than before, and nothing else; no line that was answered may be gone.
"""

from __future__ import annotations

import contextlib
import os
import random
import signal
import time
import unittest
from concurrent.futures import ThreadPoolExecutor

from replica_support import OPTIONS, ReplicaCase
from support import PROGRAM

from replica_model import SECONDS, Listening, Log, Writer, addition, in_order, some_point

from sfstore import Refused
from sfstore.replica import LogUnreachable, NotAcknowledged, Replica, ReplicaStopped, owning
from sfstore.replica.links import LogRefused
from sfstore.replica.servers import Pair

OPERATIONS = int(os.environ.get("SFSTORE_OPERATIONS", "20"))
# More than a process has files, by the limit that Debian gives it.
CROWD = 1100
# How long a question may take here, and how long the slow program takes over it.
QUESTION_SECONDS, SLOW_SECONDS = 0.5, 8


class Model(ReplicaCase):
    """Ann has a replica in this process, and so has Rita, who is a reader; Ben's is asked at its socket."""

    SECONDS = 240

    CHANCES = {
        "write": 12,
        "refuse": 2,
        "undo": 3,
        "cut": 5,
        "drop": 2,
        "reopen": 4,
        "damage": 4,
        "break_off": 2,
        "lie": 4,
    }

    @classmethod
    def setUpClass(cls):
        # Its servers are killed: they are its own.
        cls.pair = Pair(OPTIONS)
        cls.addClassCleanup(cls.pair.close)

    def do_list(self, seed, logins, *dear):
        """Does frequent operations, with the dear ones once each at some moment between them."""
        # As many files as Debian gives a process, or more than `select` knows.
        self.files = 1024 if seed % 2 else 2000
        self.begin(seed, logins, "fill_disk" in dear)
        names = [*self.dice.choices(list(self.CHANCES), list(self.CHANCES.values()), k=OPERATIONS), *dear]
        self.dice.shuffle(names)
        try:
            for name in names:
                self.did.append(name)
                getattr(self, name)()
                self.look()
            self.look_at_the_end()
        except (ReplicaStopped, LogUnreachable, LogRefused, NotAcknowledged, Refused) as error:
            raise AssertionError(f"{error!r}: {self.did}") from error

    def begin(self, seed, logins, is_small):
        self.dice = random.Random(seed)
        self.did = []
        self.log = Log()
        # Whose step the last one is; the last cut, and the last one before which all is dropped.
        self.last = ""
        self.at, self.dropped = None, 0
        # The sums that were put down, and the place that each replica had when it was looked at.
        self.sums, self.places = {}, {}
        self.owner = self.dsn("postgres")
        self.addCleanup(os.umask, os.umask(0o022))
        if is_small:
            self.mounted("2m", "ann")
        self.writers = logins
        self.open = {login: self.opened(login) for login in (*logins, "rita")}
        self.open["ann"].run("layer add w point")
        self.look()

    def opened(self, login, program=PROGRAM):
        """A replica of a login, which goes on in its folder."""
        seconds = 10.0 if program == PROGRAM else QUESTION_SECONDS
        if login != "ben":
            return self.replica(login, program=program, question_seconds=seconds)
        listening = Listening(self.folder / login, self.dsn(login), str(program), seconds, self.files)
        self.addCleanup(listening.kill)
        return listening

    def somebody(self):
        return self.dice.choice(self.writers)

    def close(self, login):
        self.open.pop(login).close()

    def reopened(self, login, program=PROGRAM):
        if login in self.open:
            self.close(login)
        self.open[login] = self.opened(login, program)
        return self.open[login]

    # What has to hold

    def look(self):
        """All follow, and show what the log has; the log has what was answered, and sums stay."""
        for login in self.open:
            self.look_at(login)
        lines = [line for (line,) in self.ask("SELECT line FROM sfstore.log ORDER BY at", login="rita")]
        self.assertEqual(lines, self.log.lines[self.dropped :], self.did)
        state = owning.state(self.owner)
        self.assertEqual(state.at, self.log.last, self.did)
        for cut in state.cuts:
            for login, total in cut.sums.items():
                self.assertEqual(self.sums.setdefault((cut.at, login), total), total, (login, self.did))
        self.look_at_modes()

    def look_at_modes(self):
        """What a replica has is its user's alone."""
        for login in self.open:
            for path in (self.folder / login).iterdir():
                with contextlib.suppress(FileNotFoundError):
                    self.assertEqual(path.stat().st_mode & 0o077, 0, (path, self.did))

    def look_at(self, login):
        """Waits until a replica shows all of the log. On the way it shows what the log has had, and never goes back."""
        replica, until = self.open[login], time.monotonic() + SECONDS
        while self.shown(login) != self.log.last:
            self.assertLess(time.monotonic(), until, (login, self.did))
            if isinstance(replica, Replica):
                replica.follow()
            else:
                # It follows by itself.
                time.sleep(0.005)

    def shown(self, login):
        """The place of which a replica shows what the log has there."""
        replica = self.open[login]
        rows = self.rows(replica)
        before = self.places.get(login, 0)
        if isinstance(replica, Replica):
            found = [replica.at] if replica.at <= self.log.last and self.log.rows(replica.at) == rows else []
        else:
            found = [at for at in range(before, self.log.last + 1) if self.log.rows(at) == rows][-1:]
        self.assertTrue(found and found[0] >= before, (login, rows, before, self.did))
        self.places[login] = found[0]
        return found[0]

    def rows(self, replica):
        """What a replica shows; none where it has no layer yet."""
        try:
            return replica.run("show w")
        except Refused:
            return None

    def look_at_the_end(self):
        """All save the same bytes."""
        self.cut()
        self.look()
        files = {self.file_of(login) for login in self.open}
        self.assertEqual(len(files), 1, self.did)

    def file_of(self, login):
        [path] = (self.folder / login).glob(f"{self.at:020}-*.sfs")
        return path.read_bytes()

    # What is frequent

    def write(self):
        self.last = self.somebody()
        point = some_point(self.dice)
        line = addition(self.dice, point)
        self.assertEqual(self.open[self.last].run(line), self.log.add(line, point), self.did)

    def refuse(self):
        line = "delete w 9999"
        with self.assertRaises(Refused):
            self.open[self.somebody()].run(line)
        self.log.stay(line)

    def undo(self):
        """Whose step it is may undo it, where no cut came between; the others are refused."""
        login = self.somebody()
        if login == self.last:
            self.assertEqual(self.open[login].run("undo"), "ok", self.did)
            self.log.undo()
            self.last = ""

    def cut(self):
        self.at = owning.cut(self.owner, 0, 20).at
        self.last = ""
        self.log.stay()

    def drop(self):
        """What stands before the last cut is dropped, where all sums there are one."""
        if self.at is not None:
            with contextlib.suppress(LogRefused):
                owning.drop_before(self.owner, self.at, len(self.writers), "0", 5)
                self.dropped = self.at

    def reopen(self):
        self.reopened(self.dice.choice(list(self.open)))

    def break_off(self):
        """The program of a replica is killed; the next line has it begin again."""
        replica = self.open[self.somebody()]
        replica.break_off() if isinstance(replica, Listening) else replica._store._program._process.kill()

    def damage(self):
        """A bit of the newest file is another one, which the program does not see: another point, or none at all."""
        login = self.somebody()
        self.close(login)
        newest = max((self.folder / login).glob("*.sfs"), default=None)
        # Where the lines behind the file before were dropped, a person has to bring another replica's file.
        if newest is not None and self.at != self.dropped:
            data = bytearray(newest.read_bytes())
            place = data.rfind(b"\x40") - 1
            if place > 20:
                data[place] ^= 0x04
                newest.write_bytes(data)
        self.reopened(login)
        self.compare()

    def lie(self):
        """A login that has no replica puts down a wrong sum at the last cut."""
        if self.at is not None:
            wrong = self.dice.choice("abcdef") * 64
            try:
                self.ask("SELECT sfstore.put_sum(%s, %s)", (self.at, wrong), login="cleo")
            except LogRefused as error:
                self.assertIn("has put down another file", str(error))
            self.compare()

    def compare(self):
        """Has each replica compare its file with the others', as it does every second."""
        for replica in self.open.values():
            if isinstance(replica, Replica):
                replica._compared = 0.0
                replica.follow()

    # What is dear

    def under_writes(self, fail):
        """Has servers fail while Ann and Ben write and Rita looks, until all of them are answered again."""
        ben = [Writer(login, self.open[login], self.dice) for login in self.writers if login == "ben"]
        for writer in ben:
            writer.start()
            writer.wait_for(1)
        ann, glances = Writer("ann", self.open["ann"], self.dice), []
        # How often somebody looks meanwhile goes by the clock: what comes behind must not.
        dice = random.Random(self.dice.random())

        def go_on():
            ann.write()
            glances.append(self.glance(dice))

        for _ in range(self.dice.randint(1, 4)):
            go_on()
        with ThreadPoolExecutor(1) as servers:
            failing = servers.submit(fail)
            while not failing.done():
                go_on()
            go_on()
        for writer in ben:
            writer.wait_for(2)
            writer.end()
        failing.result()
        for number, line, point, self.last in in_order([ann, *ben]):
            self.assertEqual(f"ok {number}", self.log.add(line, point), self.did)
        for at, rows in glances:
            self.assertEqual(rows, self.log.rows(at), self.did)

    def glance(self, dice):
        """What Rita is shown meanwhile, and where: as it turns out the log has to have it there."""
        rita = self.open["rita"]
        if dice.random() < 0.3:
            with contextlib.suppress(LogUnreachable):
                rita.follow(0.1)
        rows = rita.run("show w")
        return rita.at, rows

    def kill_primary(self):
        """The primary is killed under writes, and the standby takes over."""

        def fail():
            self.pair.primary.kill()
            self.pair.fail_over()
            self.pair.renew_standby()

        self.under_writes(fail)

    def hang_primary(self):
        """The primary stands still under writes, and the standby takes over while the old one hangs."""
        hung = self.pair.primary
        stalled, process = hung.processes(), hung._process
        look_behind = self.dice.choice([self.look_behind, self.let_in_behind])
        self.addCleanup(self.end, stalled)

        def fail():
            hung.stall()
            self.pair.fail_over()
            try:
                look_behind(self.behind(hung))
            finally:
                hung._process = None
                self.pair.renew_standby()

        self.under_writes(fail)
        self.end(stalled)
        process.wait(SECONDS)

    def behind(self, hung):
        """The owner's words of connection, by which the server that hangs is the first one."""
        folders = f"{hung.data.parent},{self.pair.primary.data.parent}"
        return f"host={folders} port=5432 user=postgres dbname={self.database}"

    def look_behind(self, words):
        """The owner looks at the log."""
        self.assertGreaterEqual(owning.state(words).at, self.log.last, self.did)

    def let_in_behind(self, words):
        """The owner lets a login in, which is one already. No standby is there to be waited for."""
        with self.assertRaises(owning.LoginExists):
            owning.add_login(f"{words} options='-c synchronous_commit=local'", "ann", is_editor=True, is_replica=True)

    def end(self, processes):
        for pid in processes:
            with contextlib.suppress(ProcessLookupError):
                os.kill(pid, signal.SIGKILL)

    def kill_standby(self):
        self.without_standby(self.pair.standby.kill, self.pair.renew_standby)

    def hang_standby(self):
        standby = self.pair.standby
        self.without_standby(standby.stall, lambda: standby.stall(signal.SIGCONT))

    def without_standby(self, lose, heal):
        """Ann's line is not answered, and nobody is given it, until there is a standby again. It stands once."""
        ann, point = self.open["ann"], some_point(self.dice)
        line = addition(self.dice, point)
        lose()
        ann._patience = 0.7
        with self.assertRaises(NotAcknowledged) as caught:
            ann.run(line)
        ann._patience = 30.0
        self.look_meanwhile()
        # Where the wait for the standby is cancelled, the server shows the line to all who ask it.
        self.ask("SELECT pg_cancel_backend(pid) FROM pg_stat_activity WHERE wait_event = 'SyncRep'")
        until = time.monotonic() + SECONDS
        while self.ask("SELECT at FROM sfstore.head") == [(self.log.last,)]:
            self.assertLess(time.monotonic(), until, self.did)
            time.sleep(0.01)
        self.look_meanwhile()
        heal()
        answer, self.last = self.log.add(line, point), "ann"
        self.assertEqual(ann.write([line], caught.exception.keys), [answer], self.did)

    def look_meanwhile(self):
        """Nobody shows more than what was answered."""
        for login, replica in self.open.items():
            if isinstance(replica, Replica):
                replica.follow()
            self.assertEqual(self.shown(login), self.log.last, (login, self.did))

    def fill_disk(self):
        """Ann's replica has no room for its file at a cut: it stops there, and goes on where there is room."""
        filler = self.folder / "ann" / "filler"
        with contextlib.suppress(OSError), filler.open("wb", 0) as file:
            while file.write(b"x" * 4096):
                pass
        self.cut()
        with self.assertRaisesRegex(ReplicaStopped, "begun again 3 times"):
            self.open["ann"].follow()
        self.close("ann")
        filler.unlink()
        self.reopened("ann")

    def ask_long(self):
        """A question takes longer than it may, and is ended; nobody waits for it to its end."""
        login = self.somebody()
        replica = self.reopened(login, self.slow_program(SLOW_SECONDS))
        begun = time.monotonic()
        with self.assertRaises(Refused) as caught:
            replica.run("match w w")
        self.assertEqual(caught.exception.number, 103, self.did)
        self.look()
        self.assertLess(time.monotonic() - begun, SLOW_SECONDS, self.did)
        self.reopened(login)

    def crowd(self):
        """A program leaves more connections open at Ben's than a process has files: it follows, saves and answers."""
        ben = self.open["ben"]
        with contextlib.ExitStack() as held:
            ben.crowd(CROWD, held)
            self.write()
            self.cut()
            self.look()
        self.write()
        ben.come_again()

    # The lists

    def test_a_replica_alone(self):
        self.do_list(1, ["ann"], "kill_primary", "ask_long", "hang_standby")

    def test_a_replica_alone_by_another_seed(self):
        self.do_list(2, ["ann"], "hang_primary", "fill_disk", "kill_standby")

    def test_two_replicas(self):
        self.do_list(3, ["ann", "ben"], "crowd", "kill_primary", "fill_disk")

    def test_two_replicas_by_another_seed(self):
        self.do_list(4, ["ann", "ben"], "hang_primary", "ask_long", "crowd")


if __name__ == "__main__":
    unittest.main()
