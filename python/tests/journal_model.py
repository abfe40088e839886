"""A plain model of what a store with a journal has to keep, and lists of operations on one over the real program.

`Run` does a list of operations on one store's file, chosen by dice, and looks after each of them whether all that was
answered is there, and nothing else. Faults come at any call of the module, which go through here, and at any writing,
sync or rename of the program, by a library that stands before the C library's calls. There somebody else may also come
in between: who writes the store's file, or takes lock or journal away, or puts a link where the program makes a file.
What was not synced may be lost with the power.
"""

from __future__ import annotations

import contextlib
import errno
import os
import pkgutil
import signal
import warnings
from unittest import mock

from journal_folder import OWN, UNLINK
from journal_others import Others, Plan
from journal_plain import Console, Violation, after, file_of, points_of

from sfstore import JournalError, ProgramEnded, Store, journal
from sfstore.groups import text_of

# The calls at which something may happen: of the system, and of the program.
CALLS = ["os.open", "os.fsync", "os.replace", "os.unlink", "sfstore.kept._state", "sfstore.kept.subprocess.run"]
CALLS += ["sfstore.journaled.started", "sfstore.program.Program.exchange"]


class Crash(BaseException):
    """The process ends here: nothing behind it is done."""


class Run(Others):
    """A store's file and its session, and what must be there."""

    def steps(self, count):
        """Does so many operations, drawn by their chances."""
        self.do(self._drawn() for _ in range(count))

    def _drawn(self):
        if self.store is None and self.dice.random() < 0.6:
            return "open"
        [name] = self.dice.choices(list(self.CHANCES), list(self.CHANCES.values()))
        return name

    def do(self, names):
        """Does operations in turn, and looks behind each of them."""
        with contextlib.ExitStack() as patches, warnings.catch_warnings():
            warnings.simplefilter("ignore")
            for call in CALLS:
                patches.enter_context(self._watched(call))
            patches.enter_context(mock.patch("sfstore.journal.LOCK_SECONDS", 0.2))
            patches.enter_context(mock.patch.dict(os.environ, self._variables()))
            try:
                for name in names:
                    self.told.append(name)
                    getattr(self, name)()
                    self._look()
                self.told.append("end")
                self._drop()
                self.open()
                self._look()
            finally:
                self._drop()

    def _watched(self, call):
        """Has a call go through here."""
        owner, _, name = call.rpartition(".")
        real = getattr(pkgutil.resolve_name(owner), name)

        def watched(*arguments, **named):
            plan = self.plan
            is_now = plan is not None and plan.is_now()
            if is_now and not plan.is_behind:
                plan.happen()
            done = real(*arguments, **named)
            if call == "os.fsync":
                self.disk.keep(f"/proc/self/fd/{arguments[0]}")
            if is_now and plan.is_behind:
                plan.happen()
            return done

        return mock.patch(call, watched)

    CHANCES = {
        "edit": 12, "batch": 4, "save": 6, "close": 2, "leave": 3, "kill": 3, "crash": 7, "fault": 5, "interrupt": 2,
        "alone": 3, "open_faulty": 4, "doubt": 2, "lose_power": 2, "write_foreign": 2, "write_foreign_meanwhile": 4,
        "meet": 4, "meet_in_an_edit": 2, "meet_at_the_lock": 1, "remove_file": 1, "remove_lock": 2, "remove_journal": 2,
        "exchange_journal": 2, "put_link": 2, "litter": 3, "cut": 2, "change": 1, "age": 3, "copy": 2,
        "copy_onto_own": 1, "second": 1,
    }  # fmt: skip

    # What is done in a session.

    def _new_line(self):
        self.number += 1
        kinds = ["add"] * 6 + ["replace"] * 2 + ["undo"] * 2 + ["group"] * 3 + ["redo", "bad", "layer", "show", "save"]
        return {
            "group": self._new_group(),
            "add": f"add w POINT ({self.number} 1)",
            "replace": f"replace w {self.dice.randint(1, 6)} POINT ({self.number} 2)",
            "undo": "undo", "redo": "redo", "bad": "nothing", "layer": "layer add w point", "show": "show w", "save": "save",
        }[self.dice.choice(kinds)]  # fmt: skip

    def _new_group(self):
        members = [
            f"add w POINT ({self.number} 5)", f"replace w last POINT ({self.number} 6)",
            f"replace w {self.dice.randint(1, 6)} POINT ({self.number} 7)",
        ]  # fmt: skip
        chosen = [self.dice.choice(members) for _ in range(self.dice.randint(1, 4))]
        return text_of(chosen + ["undo"] * (self.dice.random() < 0.1))

    def edit(self):
        self._do_lines([self._new_line()])

    def batch(self):
        self._do_lines([self._new_line() for _ in range(self.dice.randint(2, 8))])

    def _do_lines(self, lines):
        """Has lines carried out. What is answered is kept; where the session ends, that may be."""
        if self.store is None:
            return
        console = Console(self.saved)
        for line in self.lines:
            console.accepts(line)
        taken = [line for line in lines if console.accepts(line)]
        self.maybe = taken
        answers = self._allowed(lambda: self.store.run_all(lines))
        if answers is None:
            return
        if [line for line, told in zip(lines, answers) if str(told).startswith("ok")] != taken:
            raise Violation(f"of {lines} others than {taken} were accepted")
        self.lines, self.maybe = self.lines + taken, []
        if self.store.unsaved != len(self.lines):
            raise Violation(f"{self.store.unsaved} edits are not saved, not {len(self.lines)}")

    def _called(self, call):
        """What a call of the package gives, or what it raises. The plan is over behind it."""
        self.has_happened, failed = False, self._failures()
        try:
            done = call()
        except (JournalError, ProgramEnded, RuntimeError, OSError, KeyboardInterrupt) as error:
            return None, error
        finally:
            plan, self.plan = self.plan, None
            self.has_happened = self.has_met or plan is not None and plan.has_happened
        if self._failures() != failed:
            raise Violation("a call of the program failed, and what it was made for is told as done")
        return done, None

    def _allowed(self, call):
        """Does something that may fail where a fault was planned, or the file is another program's."""
        done, error = self._called(call)
        if error is None:
            return [] if done is None else done
        if not (self.is_faulty or self.has_happened or self.excuse or self.foreign is not None):
            raise Violation(f"it failed without a fault: {error!r}") from error
        self._learn()
        return None

    def _learn(self):
        """After a fault the session goes on with all edits, or is closed."""
        if self.foreign is not None and (self.lines or self.maybe):
            self.excuse = self.excuse or "another program wrote the file"
        if self.store is None:
            return
        if self.store._program.closed:
            self.store.close(save=False)
            self.store = None
        elif self.foreign is None:
            self._take_over()

    def _take_over(self):
        """What the session has, which must be what was answered, and of the rest as much as was done."""
        found = self._content()
        allowed = [after(self.saved, self.lines + self.maybe[:count]) for count in range(len(self.maybe) + 1)]
        if found not in allowed:
            raise Violation(f"{found} is there, and not one of {allowed}")
        self.saved, self.maybe = points_of(self._bytes("town.sfs")), []
        try:
            self.lines = self.store.unsaved_lines
        except JournalError as error:
            raise Violation(f"the session and its journal have not the same edits: {error}") from error
        if after(self.saved, self.lines) != found or len(self.lines) != self.store.unsaved:
            raise Violation("file and journal do not make what is there")

    def save(self):
        if self.store is not None and self._expecting_foreign(self.store.save):
            self.saved, self.lines, self.maybe = after(self.saved, self.lines), [], []

    def _expecting_foreign(self, call):
        """A call that has to be refused where another program has written the file since the opening."""
        has_to_fail = self.foreign is not None and self.lines
        is_done = self._allowed(call) is not None
        if is_done and has_to_fail:
            raise Violation("edits were merged into another program's file")
        return is_done and self.foreign is None

    def close(self):
        if self.store is not None:
            store = self.store
            if self._expecting_foreign(store.close):
                self.saved, self.lines, self.maybe = after(self.saved, self.lines), [], []
            store.close(save=False)
            self.store = None

    def leave(self):
        self._drop()

    def kill(self):
        """kill -9 of the program between two calls; the next line is not answered."""
        if self.store is not None:
            os.kill(self.store._program._program._process.pid, signal.SIGKILL)
            # Where another program has written the file nothing is sent.
            with contextlib.suppress(ProgramEnded, *([JournalError] if self.foreign is not None else [])):
                self.store.run("layer add w point")
                raise Violation("a program that was killed has answered")
            self._drop()

    def _drop(self):
        if self.store is not None:
            self.store.close(save=False)
            self.store = None
        if self.foreign is not None and (self.lines or self.maybe):
            self.excuse = self.excuse or "another program wrote the file"
        self.is_faulty = False

    def copy(self):
        if self.store is not None:
            wanted = file_of(after(self.saved, self.lines))
            # Where it breaks off it may have taken the place of the old one: then it is whole.
            self.copied.add(wanted)
            if self._expecting_foreign(lambda: self.store.copy(os.path.join(self.folder, "copy.sfs"))):
                self.copied = {wanted}

    def copy_onto_own(self):
        if self.store is not None:
            for name in [*OWN[:4], ".town.sfs.sfstore-journal"]:
                try:
                    self.store.copy(os.path.join(self.folder, name))
                except (JournalError, RuntimeError):
                    continue
                raise Violation(f"a copy took the place of {name}")

    def second(self):
        if self.store is not None and os.path.exists(self.path + ".lock"):
            with contextlib.suppress(JournalError):
                Store(self.path, journal=True, program=self.program).close(save=False)
                raise Violation("two sessions are open")

    # What ends it.

    def _something(self):
        """An operation that writes."""
        if self.store is None:
            chosen = self.open
        else:
            chosen = self.dice.choice([self.edit, self.batch, self.save, self.save, self.close, self.copy])
        self.told.append(chosen.__name__)
        return chosen

    def _moment(self):
        """How many calls of the module go well. An edit has one, a save with a side-car some twenty."""
        return self.dice.choice([self.dice.randint(0, 4), self.dice.randint(0, 16)])

    def _planned(self, plan, what):
        """Does something under a plan."""
        self.plan = plan
        try:
            what()
        finally:
            self.plan = None

    def crash(self, is_of_power=False):
        """The end of the process at some call, or of the machine. The program is killed, or meets the end of its input."""
        what, found = self._something(), []

        def happen():
            if self.store is not None:
                self._end_program()
            self._look_at_rights()
            if is_of_power or self.dice.random() < 0.4:
                self._lose()
            found.append(self._all())
            raise Crash

        before = self.lines + self.maybe
        with contextlib.suppress(Crash):
            at = self.dice.randint(0, 6) if is_of_power else self._moment()
            self._planned(Plan(at, happen, self.dice.random() < 0.5), what)
        if found:
            self.maybe = (before + self.maybe)[len(self.lines) :] if before[: len(self.lines)] == self.lines else self.maybe
            self._drop()
            self._become(found[0])

    def _end_program(self):
        process = self.store._program._program._process
        if self.dice.random() < 0.5:
            process.kill()
        else:
            process.stdin.close()
        process.wait()

    def fault(self):
        """A call that fails, or an interrupt at one."""
        what = self._something()
        error = self.dice.choice([OSError(errno.EIO, "Input/output error"), KeyboardInterrupt()])
        is_behind = isinstance(error, KeyboardInterrupt) and self.dice.random() < 0.5

        def happen():
            raise error

        self._planned(Plan(self._moment(), happen, is_behind), what)

    def interrupt(self):
        """Ctrl-C before an edit is sent, or right behind its answer."""
        if self.store is not None:

            def happen():
                raise KeyboardInterrupt

            self._planned(Plan(0, happen, self.dice.random() < 0.7), self.edit)

    def open_faulty(self):
        """A session whose program meets a fault at some call: it fails once or from there on, or is killed at it."""
        if self.store is None:
            kind = self.dice.choice(["FAILS", "FAILS", "SYNC_FAILS", "KILLS", "KILLS_BEHIND"])
            faults = {kind: str(self.dice.randint(1, 24))}
            if kind == "FAILS" and self.dice.random() < 0.5:
                faults["STAYS_FULL"] = "1"
            self._do_faulty(faults, [self._something] * self.dice.randint(1, 4))
            if self.dice.random() < 0.3:
                self._lose()

    def _do_faulty(self, faults, choices):
        """Opens a session whose program meets a fault, and does the operations that are chosen, as long as it lives."""
        self.told.append(f"{faults}")
        self.is_faulty = True
        with mock.patch.dict(os.environ, faults):
            self.open()
            for choice in choices:
                if self.store is not None:
                    choice()()
                    self._look()
        self._drop()

    def doubt(self):
        """A sync fails in a session; the next one goes on from what is read, and then the power is lost."""
        if self.store is None:
            self._do_faulty({"SYNC_FAILS": str(self.dice.randint(4, 8))}, [lambda: self.edit] * 4)
            self.open()
            self.edit()
            self.lose_power()

    def lose_power(self):
        """The machine stops: what was not synced is there or not."""
        if self.store is not None:
            self.store._program._program._process.kill()
            self._drop()
        self._lose()

    # Openings, and what has to be there.

    def open(self):
        if self.store is not None:
            return
        self._take_link_away()
        before, left = self._all(), None
        with self._unwatched(), contextlib.suppress(JournalError):
            left = journal.edits_left(self.path)
        self.store, error = self._called(lambda: Store(self.path, journal=True, program=self.program))
        if error is not None:
            self._refused(error, before)
            return
        if not self.has_happened and left is not None and self.store.recovered.edits != left:
            raise Violation(f"{left} edits were left, and {self.store.recovered.edits} are there")
        if self.foreign is not None:
            if self._bytes("town.sfs.journal").startswith(journal.head_of(self.path)):
                self._give_up_journal()
            elif not self.has_happened:
                raise Violation("the file is another program's, and was not loaded")
            else:
                return
        self._take_over()
        self.excuse = ""

    def _refused(self, error, before):
        if not (self.excuse or self.is_faulty or self.has_happened):
            raise Violation(f"the opening is refused: {error!r}") from error
        if self.excuse and not (self.is_faulty or self.has_happened):
            self._look_at_refused(before)
            self._mend()

    @contextlib.contextmanager
    def _unwatched(self):
        """No plan counts the calls of the body, which are the model's."""
        plan, self.plan = self.plan, None
        try:
            yield
        finally:
            self.plan = plan

    def _look_at_refused(self, before):
        """A refused opening has changed nothing, but for the lock and leftovers."""
        now = self._all()
        for name in [*OWN[:2], *OWN[3:]]:
            if before.get(name, (b"",))[0] != now.get(name, (b"",))[0]:
                raise Violation(f"a refused opening has changed {name}")

    def _mend(self):
        """What a person does then: the journal is taken away, and with it the edits."""
        with contextlib.suppress(FileNotFoundError):
            UNLINK(self.path + ".journal")
        self._give_up_journal()
