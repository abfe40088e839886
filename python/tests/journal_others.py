"""What others do in the model of a store with a journal: other programs and users, and the program without Python."""

from __future__ import annotations

import contextlib
import os
import stat

from journal_folder import BESIDE, OWN, REPLACE, RUN, UNLINK, Folder
from journal_plain import Console, Violation, after, file_of, old_journal, points_of
from store_support import one_answer, second_journal_of

from sfstore import JournalError, ProgramEnded, Refused, Store, files, journal, oldjournal


class Plan:
    """What happens at which call: a fault, the end of the process, or another program's writing."""

    def __init__(self, at, happen, is_behind=False):
        self._left = at
        self.happen = happen
        self.is_behind = is_behind
        self.has_happened = False

    def is_now(self):
        """Whether the call is the one of the plan."""
        self._left -= 1
        is_now = self._left < 0 and not self.has_happened
        self.has_happened |= is_now
        return is_now


class Others(Folder):
    """What others do to the files, between the operations of a session or in the middle of one."""

    def write_foreign(self):
        """Another program writes the file: over it, or by a rename."""
        self.number += 1
        data = file_of([f"POINT ({self.number} 9)"])
        mode = os.stat(self.path).st_mode if os.path.exists(self.path) else None
        name = "town.sfs" if mode is None or self.dice.random() < 0.5 else "town.sfs.foreign"
        self._write(name, data)
        if name != "town.sfs":
            os.chmod(f"{self.path}.foreign", stat.S_IMODE(mode))
            os.chown(f"{self.path}.foreign", -1, os.stat(self.path).st_gid)
            REPLACE(f"{self.path}.foreign", self.path)
        if mode is None:
            self.mode, self.group = None, None
        self.foreign, self.sidecar = data, False
        if self.lines or self.maybe:
            self.excuse = self.excuse or "another program wrote the file"

    def write_foreign_meanwhile(self):
        """Another program writes the file in the middle of a save, a copy or an opening."""
        what = self.open if self.store is None else self.dice.choice([self.save, self.copy, self.close])
        self.told.append(what.__name__)
        wrote = []

        def happen():
            self.write_foreign()
            wrote.append(self.foreign)

        before = self.saved, self.lines
        if self.dice.random() < 0.5:
            self._planned(Plan(self._moment(), happen, self.dice.random() < 0.5), what)
        else:
            with self._met(happen, 20):
                what()
        if not wrote:
            return
        if self._bytes("town.sfs") != wrote[0]:
            raise Violation("a save took the place of what another program wrote meanwhile")
        self._drop()
        if self.foreign is not None or what != self.open:
            # It came before or behind the save; where edits are left they go on from a file that is no more.
            self.foreign, self.excuse = wrote[0], "another program wrote the file meanwhile"
            (self.saved, self.lines), self.maybe = before, []

    @contextlib.contextmanager
    def _met(self, happen, most, is_harmless=False, is_again=False):
        """Somebody does something at one of the first calls of the program, or at each from there on."""

        def come():
            self.has_met = not is_harmless
            happen()

        self.told.append("meeting")
        try:
            with self.meeting.at(self.dice.randint(1, most), come, is_again):
                yield
        finally:
            self.has_met = False

    def meet(self):
        """Somebody comes in the middle of the program's calls: puts something where it makes a file, or looks."""
        what = self._something()
        if self.dice.random() < 0.5:
            with self._met(self.litter, 20, is_again=True):
                what()
        else:
            with self._met(self._look_at_rights, 1, is_harmless=True, is_again=True):
                what()

    def meet_at_the_lock(self):
        """The lock is taken away after the program has opened it, and before it has it: it takes the one that counts."""
        if self.store is None:
            with self._met(lambda: UNLINK(f"{self.path}.lock"), 1):
                self.open()

    def meet_in_an_edit(self):
        """Somebody takes the lock or the journal away while an edit is written down."""
        if self.store is not None and self.foreign is None:
            before, took = len(self.lines), []

            def take():
                UNLINK(f"{self.path}.{name}")
                took.append(name)

            name = self.dice.choice(["lock", "journal"])
            with self._met(take, 2, is_harmless=name == "journal"):
                self.edit()
            if took and name == "lock":
                if len(self.lines) > before:
                    raise Violation("a session whose lock was taken away has answered an edit")
                self._drop()

    def litter(self):
        """Something stands where the program makes its files: what a crash has left, or a link to a file of the user's."""
        name = self.dice.choice(BESIDE)
        path = os.path.join(self.folder, name)
        is_link = self.dice.random() < 0.7 and (name == BESIDE[0] or self.store is not None or self.has_met)
        if os.path.lexists(path):
            return
        if is_link:
            os.symlink(os.path.join(self.folder, "notes.txt"), path)
        else:
            self._write(name, b"left by a crash")
            os.chmod(path, 0o600)

    def _take_link_away(self):
        """What a person does where a link stands for a journal beside, which an opening refuses."""
        if os.path.islink(os.path.join(self.folder, BESIDE[1])):
            UNLINK(os.path.join(self.folder, BESIDE[1]))

    def put_link(self):
        """A link stands for the journal, the lock or a journal beside: the opening is refused, and it isn't followed."""
        self._drop()
        path, moved = os.path.join(self.folder, self.dice.choice([*OWN[1:3], BESIDE[1]])), f"{self.aside}/moved"
        is_there = os.path.exists(path)
        if is_there:
            REPLACE(path, moved)
        end = self.dice.choice([moved, f"{self.aside}/nowhere"])
        before = self._bytes(end)
        os.symlink(end, path)
        with contextlib.suppress(JournalError, ProgramEnded, OSError):
            Store(self.path, journal=True, program=self.program).close(save=False)
            raise Violation(f"a link in the place of {path} was followed")
        if self._ran_alone([], []).returncode == 0:
            raise Violation(f"the program has followed a link in the place of {path}")
        if not os.path.islink(path) or self._bytes(end) != before:
            raise Violation(f"a link in the place of {path} is gone, or what it leads to was changed")
        UNLINK(path)
        if is_there:
            REPLACE(moved, path)

    def remove_file(self):
        if os.path.exists(self.path):
            self._drop()
            UNLINK(self.path)
            self.sidecar, self.mode, self.group, self.foreign = False, None, None, None
            data = self._bytes("town.sfs.journal") or b""
            is_first = data.startswith(b"sfstore-journal 1 ")
            if not is_first and data.count(b"\n") == 1:
                # A save came through whose answer did not: the file had all edits.
                self.lines, self.maybe = [], []
            # A journal of version 1 misses its file even where it has no edits.
            is_missed = self.lines or self.maybe or is_first
            self.excuse = self.excuse or ("the file was taken away" if is_missed else "")
            self.saved = self.saved if self.excuse else None

    def remove_lock(self):
        """The lock is taken away; a second session begins, and the first one goes on."""
        if not os.path.exists(self.path + ".lock"):
            return
        UNLINK(self.path + ".lock")
        if self.store is None or self.excuse or self.foreign is not None:
            self._drop()
            return
        stale, self.store = self.store, None
        lines = ["layer add w point", f"add w POINT ({self.number} 4)"]
        if self.dice.random() < 0.5:
            self.open()
        else:
            # What is not answered may be there or not, where the new session reads the journal behind it.
            self.maybe = [line for line in lines if after(self.saved, self.lines) is not None or line == lines[0]][-1:]
        for line in lines:
            with contextlib.suppress(JournalError, RuntimeError, Refused):
                if str(stale.run(line)).startswith("ok"):
                    raise Violation("a session without its lock answered an edit")
        with contextlib.suppress(JournalError, RuntimeError):
            stale.save()
        stale.close(save=False)

    def remove_journal(self):
        """The journal is taken away: while a session lives it is written anew; else the edits are given up."""
        if os.path.exists(self.path + ".journal"):
            UNLINK(self.path + ".journal")
            if self.store is not None:
                self._do_lines(["layer add w point", f"add w POINT ({self.number} 3)"])
                if self.lines:
                    return
            self._drop()
            self._give_up_journal()

    def exchange_journal(self):
        """Another file takes the journal's place while a session lives: it stays as it is, and no edit is answered."""
        data = self._bytes("town.sfs.journal")
        if self.store is None or self.excuse or self.foreign is not None or data is None:
            return
        other = self.dice.choice([data, data[: self.dice.randrange(len(data))], b"precious"])
        self._write("../aside/other", other)
        known = os.stat(f"{self.path}.journal")
        os.chown(f"{self.aside}/other", -1, known.st_gid)
        os.chmod(f"{self.aside}/other", stat.S_IMODE(known.st_mode))
        REPLACE(f"{self.aside}/other", f"{self.path}.journal")
        line = "layer add w point" if self._content() is None else "add w POINT (5 5)"
        with contextlib.suppress(JournalError, ProgramEnded):
            self.store.run(line)
            raise Violation("an edit is answered whose journal is another file")
        if self._bytes("town.sfs.journal") != other:
            raise Violation("another file in the place of the journal was written over")
        self._drop()
        if other != data:
            self._damage(other)

    def _give_up_journal(self):
        self.lines, self.maybe, self.excuse, self.foreign = [], [], "", None
        self.saved = points_of(self._bytes("town.sfs"))

    def cut(self):
        """The journal ends at some place before its end."""
        data = self._closed_journal()
        if data:
            self._damage(data[: self.dice.randrange(len(data))])

    def change(self):
        """A byte of the journal is another one."""
        data = bytearray(self._closed_journal())
        if data:
            data[self.dice.randrange(len(data))] ^= 1 << self.dice.randrange(8)
            self._damage(bytes(data))

    def _damage(self, data):
        self._write("town.sfs.journal", data)
        self.lines, self.maybe = [], self.lines + self.maybe
        self.excuse = self.excuse or "the journal was damaged"

    def age(self):
        """The journal is one of an older version that says the same."""
        data = self._closed_journal()
        if data and not self.excuse and self.foreign is None and data.startswith(journal.head_of(self.path)):
            self._write("town.sfs.journal", self._aged(journal.read_records(data, "x").lines))
            for _ in range(self.dice.randint(0, 3)):
                self.crash(is_of_power=True)

    def _aged(self, lines):
        """The journal of these lines as version 1 had it, or version 2."""
        if self.number % 2:
            return second_journal_of(self._bytes("town.sfs") or b"", [line[:-1].decode() for line in lines])
        base = files.digest(self.path) if os.path.exists(self.path) else "new"
        return old_journal(base, lines)

    def _closed_journal(self):
        """The bytes of the journal, when no session is open."""
        self._drop()
        return self._bytes("town.sfs.journal") or b""

    # Sessions of the program without Python.

    def _ran_alone(self, lines, words):
        sent = "".join(f"{line}\n" for line in lines).encode()
        return RUN([self.program, f"--store={self.path}", *words], input=sent, capture_output=True, timeout=60)

    def alone(self):
        """The program has the store without Python, and another one may write the file meanwhile."""
        data = self._bytes("town.sfs.journal") or b""
        if self.store is not None or self.excuse or self.foreign is not None or oldjournal.is_old(data):
            return
        self._take_link_away()
        lines = [line for line in (self._new_line() for _ in range(self.dice.randint(0, 4))) if line != "save"]
        lines.append("show w")
        words, is_new = self.dice.choice([[], ["--keep"]]), not os.path.exists(self.path)
        if self.dice.random() < 0.4:
            self._answered(lines, self._ran_alone(lines, words), words)
            if not is_new:
                self._look_at_modes()
        else:
            self._alone_beside_another(lines, words)

    def _answered(self, lines, ended, words):
        """What the program has done, which has to have all that was answered before."""
        if ended.returncode != 0:
            raise Violation(f"the program alone ends with {ended.returncode}: {ended.stdout!r}")
        for count in range(len(self.maybe) + 1):
            before = [*self.lines, *self.maybe[:count]]
            taken, told = self._expected(self.saved, before, lines)
            if told == self._told(lines, ended.stdout):
                break
        else:
            raise Violation(f"the program alone answers {ended.stdout!r} to {lines}")
        self.lines, self.maybe = before + taken, []
        if not words:
            is_same = file_of(after(self.saved, self.lines)) == file_of(self.saved)
            self.saved, self.lines, self.sidecar = after(self.saved, self.lines), [], self.sidecar and is_same

    def _expected(self, saved, before, lines):
        """The lines that are accepted behind some others, and what is told of each: whether it is, and rows."""
        console = Console(saved)
        for line in before:
            console.accepts(line)
        taken, told = [], []
        for line in lines:
            if line == "show w":
                told.append(None if console.points is None else list(console.points))
            else:
                told.append(console.accepts(line))
                taken += [line] if told[-1] else []
        return taken, told

    def _told(self, lines, output):
        """The same of what was answered; of lines that were not answered nothing."""
        given, told = iter(output.splitlines(keepends=True)), []
        with contextlib.suppress(StopIteration):
            for line in lines:
                answer = one_answer(line, given).decode()
                if line == "show w":
                    rows = [row.partition(" ")[2] for row in answer.splitlines()[1:]]
                    told.append(rows if answer.startswith("rows") else None)
                else:
                    told.append(answer.startswith("ok"))
        return told

    def _alone_beside_another(self, lines, words):
        """Another program writes the file in the middle of it: nobody is shown the one's points with the other's edits."""
        before = self.saved, self.lines, self.maybe
        wrote = []

        def happen():
            self.write_foreign()
            wrote.append(self.foreign)

        # Often between the sum of the file and its loading.
        with self._met(happen, self.dice.choice([3, 3, 3, 20])):
            ended = self._ran_alone(lines, words)
        if not wrote:
            self._answered(lines, ended, words)
            return
        self.saved, self.lines, self.maybe = before
        told = self._told(lines, ended.stdout.partition(b"fault")[0])
        if self._bytes("town.sfs") == wrote[0] and not self._has_journal_of_file():
            self._look_at_answers(lines, told)
            self.excuse, self.maybe = "another program wrote the file meanwhile", []
        else:
            self._look_at_their_store(points_of(wrote[0]), lines, words, told)

    def _has_journal_of_file(self):
        return (self._bytes("town.sfs.journal") or b"").startswith(journal.head_of(self.path))

    def _look_at_answers(self, lines, told):
        """What the program alone has told is of the old store."""
        fronts = [[*self.lines, *self.maybe[:count]] for count in range(len(self.maybe) + 1)]
        wanted = [self._expected(self.saved, front, lines)[1][: len(told)] for front in fronts]
        if told not in wanted:
            raise Violation(f"the program alone tells {told} of {lines} beside another program, and not one of {wanted}")

    def _look_at_their_store(self, points, lines, words, told):
        """The program alone has begun with what another one wrote, as it may where there were no edits."""
        taken, wanted = self._expected(points, [], lines)
        is_kept = self._bytes("town.sfs") == file_of(points)
        if self.lines or told != wanted or not is_kept and (words or self._bytes("town.sfs") != file_of(after(points, taken))):
            raise Violation("the program alone has written over what another program wrote meanwhile, or tells something else")
        self.saved, self.lines = (points, taken) if is_kept and words else (after(points, taken), [])
        self.maybe, self.foreign, self.excuse = [], None, ""
