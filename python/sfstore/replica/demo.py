"""A demonstration: two servers and three replicas on this machine, writers, and kills. It prints what held."""

from __future__ import annotations

import hashlib
import os
import random
import subprocess  # nosec B404: programs of this machine are started without a shell
import sys
import tempfile
import threading
import time
from collections import Counter
from collections.abc import Sequence
from pathlib import Path
from typing import IO, NamedTuple, cast

from sfstore.replica import owning
from sfstore.replica.links import Link
from sfstore.replica.servers import Pair

__all__ = ["Claim", "Person", "Trial", "demonstrate"]

_MODULES = Path(__file__).resolve().parent.parent.parent
_WAIT_SECONDS = 120.0


class Claim(NamedTuple):
    """Something that has to hold, and whether it does."""

    text: str
    holds: bool


class Person:
    """Someone with a replica in a process of its own, who puts points down one after the other.

    ``answered`` has each line that was acknowledged, with its answer.
    """

    def __init__(self, folder: Path, dsn: str, login: str, number: int, program: str) -> None:
        self.login = login
        self.number = number
        self.folder = folder / login
        self.answered: list[tuple[str, str]] = []
        self.doubtful: list[str] = []
        """The lines that were sent, and not answered before a kill."""
        self._words = [sys.executable, "-m", "sfstore.replica.command", "run", str(self.folder), dsn]
        self._words += ["--program", program, "--patience", "600"]
        self._said = folder / f"{login}.said"
        self._writes = threading.Event()
        self._rests = threading.Event()
        self._ends = False
        self._process = self._started()
        self._thread = threading.Thread(target=self._write, daemon=True)
        self._thread.start()

    def write(self) -> None:
        """Has the person go on writing."""
        self._rests.clear()
        self._writes.set()

    def rest(self) -> None:
        """Has the person stop writing, and waits until the last line is answered."""
        self._writes.clear()
        if not self._rests.wait(_WAIT_SECONDS):
            raise TimeoutError(f"{self.login} has no answer: {self.said[-1000:]}")

    def kill(self) -> None:
        """Kills the replica's process; another one goes on in its folder."""
        self._process.kill()

    def end(self) -> None:
        """Ends writing and the replica."""
        self._ends = True
        self._writes.set()
        self._thread.join(_WAIT_SECONDS)
        self._process.kill()
        self._reap()

    @property
    def said(self) -> str:
        """What the replica said of what kept it waiting."""
        return self._said.read_text()

    def file(self, at: int) -> bytes:
        """The file of the replica at a cut, waited for."""
        until = time.monotonic() + _WAIT_SECONDS
        while True:
            found = list(self.folder.glob(f"{at:020}-*.sfs"))
            if found:
                return found[0].read_bytes()
            if time.monotonic() > until:
                raise TimeoutError(f"{self.login} has no file at place {at}: {self.said[-1000:]}")
            time.sleep(0.02)

    def _started(self) -> subprocess.Popen[bytes]:
        path = os.pathsep.join([str(_MODULES), *filter(None, [os.environ.get("PYTHONPATH")])])
        with open(self._said, "ab") as said:
            return subprocess.Popen(  # nosec B603: no shell; the words are the demonstration's own
                self._words,
                stdin=subprocess.PIPE,
                stdout=subprocess.PIPE,
                stderr=said,
                # No module of the folder that it is started in is run before those that are meant.
                env={**os.environ, "PYTHONPATH": path, "PYTHONSAFEPATH": "1"},
                bufsize=0,
            )

    def _write(self) -> None:
        for count in range(1 << 20):
            if not self._writes.is_set():
                self._rests.set()
            self._writes.wait()
            if self._ends:
                return
            line = f"add w POINT ({self.number} {count})"
            answer = self._answer(line)
            if answer:
                self.answered.append((line, answer))
            elif not self._ends:
                self.doubtful.append(line)
                self._reap()
                self._process = self._started()

    def _reap(self) -> None:
        """Waits for the end of a process, and closes its pipes."""
        with self._process:
            pass

    def _answer(self, line: str) -> str:
        """The answer of a line; empty where the process ends instead."""
        given, answers = (cast("IO[bytes]", it) for it in (self._process.stdin, self._process.stdout))
        try:
            given.write(line.encode() + b"\n")
        except BrokenPipeError:
            return ""
        answer = b""
        while not answer.endswith(b"\n"):
            data = answers.read(1)
            if not data:
                return ""
            answer += data
        return answer.decode().rstrip("\n")


class Trial:
    """A log on two servers, three people with a replica each, and kills."""

    LOGINS = ("ann", "ben", "cleo")

    def __init__(self, program: str, options: Sequence[str] = ()) -> None:
        self._program = program
        self.pair = Pair(options)
        self._folder = tempfile.TemporaryDirectory(prefix="sfstore-replicas-")
        self.people: list[Person] = []
        try:
            self._begin()
        except BaseException:
            self.close()
            raise

    def _begin(self) -> None:
        owner = self.pair.primary.dsn()
        owning.set_up(owner, 1)
        for login in self.LOGINS:
            number = owning.add_login(owner, login, is_editor=True, is_replica=True)
            if number is None:
                raise AssertionError("an editor has a number")
            if number == 1:
                link = Link(self.pair.primary.dsn(login))
                link.ask("SELECT sfstore.append(ARRAY[gen_random_uuid()], ARRAY['layer add w point'])")
                link.close()
            folder = Path(self._folder.name)
            self.people.append(Person(folder, self.pair.dsn(login), login, number, self._program))

    def close(self) -> None:
        """Ends all processes that it began, and takes their folders away."""
        for person in self.people:
            person.end()
        self.pair.close()
        self._folder.cleanup()

    def write(self) -> None:
        """Has all people go on writing."""
        for person in self.people:
            person.write()

    def rest(self) -> None:
        """Has all people rest, when their last lines are answered."""
        for person in self.people:
            person.rest()

    @property
    def acknowledged(self) -> int:
        """How many lines are acknowledged."""
        return sum(len(person.answered) for person in self.people)

    def wait_for(self, count: int) -> None:
        """Waits until so many lines more are acknowledged."""
        wanted, until = self.acknowledged + count, time.monotonic() + _WAIT_SECONDS
        while self.acknowledged < wanted:
            if time.monotonic() > until:
                said = "\n".join(person.said[-500:] for person in self.people)
                raise TimeoutError(f"no lines are acknowledged any more: {said}")
            time.sleep(0.005)

    def fail_over(self) -> float:
        """Kills the primary, has the standby take over, and makes the other one its standby.

        Gives how many seconds it was until a line was acknowledged again.
        """
        self.pair.primary.kill()
        begun = time.monotonic()
        self.pair.fail_over()
        self.pair.renew_standby()
        self.wait_for(1)
        return time.monotonic() - begun

    def claims(self) -> list[Claim]:
        """Has all rest, cuts the log, and looks at what has to hold."""
        self.rest()
        cut = owning.cut(self.pair.dsn("postgres"), len(self.people), _WAIT_SECONDS)
        link = Link(self.pair.primary.dsn())
        rows = link.ask("SELECT at, editor, line FROM sfstore.log WHERE at <= %s ORDER BY at", (cut.at,))
        link.close()
        places = [at for at, _, _ in rows]
        files = [person.file(cut.at) for person in self.people]
        return [
            *self._claims_of_lines([line for _, _, line in rows]),
            Claim(f"the places go from 1 to {len(rows)} without gaps", places == list(range(1, len(rows) + 1))),
            Claim("all replicas have the same bytes", len(set(files)) == 1 and cut.alike == len(files)),
            Claim(
                "one program, given the lines of the log, saves the same bytes",
                self._carried_out([f"@{editor} {line}\n" for _, editor, line in rows if line]) == files[0],
            ),
            Claim(f"SHA-256 at place {cut.at}: {hashlib.sha256(files[0]).hexdigest()[:16]}..", True),
        ]

    def _claims_of_lines(self, lines: list[str]) -> list[Claim]:
        """What has to hold of the lines that were acknowledged, and of those that were not."""
        counts = Counter(lines)
        answered = [it for person in self.people for it in person.answered]
        doubtful = [line for person in self.people for line in person.doubtful]
        lost = sum(counts[line] == 0 for line, _ in answered)
        twice = sum(counts[line] > 1 for line, _ in answered) + sum(counts[line] > 1 for line in doubtful)
        # Nothing is taken back, so the identifiers count the additions in the log's order.
        order = [line for line in lines if line.startswith("add ")]
        moved = sum(order[int(answer[3:]) - 1 : int(answer[3:])] != [line] for line, answer in answered)
        return [
            Claim(f"{len(answered)} lines were acknowledged; {lost} are lost", not lost),
            Claim(f"{twice} stand twice", not twice),
            Claim(f"{moved} have another identifier than was answered", not moved),
        ]

    def _carried_out(self, lines: list[str]) -> bytes:
        """The file that one program saves of some lines."""
        with tempfile.TemporaryDirectory() as folder:
            path = Path(folder) / "one.sfs"
            words = [self._program, f"--save={path}"]
            given = "".join(lines).encode()
            subprocess.run(words, input=given, stdout=subprocess.DEVNULL, check=True)  # nosec B603: its own words
            return path.read_bytes()


def demonstrate(program: str, kills: int, seed: int) -> int:
    """Kills the primary so often under writes, and prints what held. The status is 1 where something did not."""
    dice = random.Random(seed)
    print("Two servers begin: a primary, and a standby that its commits wait for.", flush=True)
    trial = Trial(program)
    try:
        print("Three replicas begin, each with a writer.", flush=True)
        trial.write()
        for count in range(1, kills + 1):
            trial.wait_for(50)
            time.sleep(dice.random())
            before = trial.acknowledged
            seconds = trial.fail_over()
            print(
                f"kill {count}: the primary died after {before} acknowledged lines; the standby took over and got a "
                f"standby of its own, and lines were acknowledged again after {seconds:.1f} s",
                flush=True,
            )
        trial.people[0].kill()
        print("A replica was killed, and goes on from its folder.", flush=True)
        trial.wait_for(50)
        claims = trial.claims()
    finally:
        trial.close()
    for claim in claims:
        print(f"{'held' if claim.holds else 'NOT HELD'}: {claim.text}")
    return int(not all(claim.holds for claim in claims))
