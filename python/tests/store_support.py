"""What the tests of `sfstore --store FILE` have in common.

What has to be there is told by the plain program, which keeps no journal.
"""

from __future__ import annotations

import contextlib
import hashlib
import itertools
import os
import random
import shutil
import subprocess
import sys
import tempfile
import time
from collections.abc import Callable, Iterable, Iterator, Sequence
from concurrent.futures import ThreadPoolExecutor
from dataclasses import dataclass
from functools import lru_cache
from pathlib import Path
from typing import IO

from support import FOLDER, PROGRAM, TestCase

sys.path.insert(0, str(FOLDER.parent / "bench"))

import growths  # noqa: E402

library = growths.library

SECONDS = 60
# Whoever else may be on the machine.
NOBODY = 65_534
# How many runs go side by side, and where: a kill takes nothing away that was written, so no disk is needed.
WORKERS = 2
MEMORY = "/dev/shm" if os.access("/dev/shm", os.W_OK) else None
# How many fronts are tried at most.
TRIED = 200
WARNING = b"warning: a record of the journal was not written to its end, and is dropped\n"
# What the opening of a store is looked at by, and edits and moves that tell its history and its counters.
DUMP = ["layers", "columns a", "columns b", "show a", "show b"]
PROBE = [*DUMP, "undo", "@1 undo", "undo", "@1 redo", "add a POINT (99 99)", *DUMP]
BEGINNING = ["layer add a point", "@1 layer add b any", "column add a k int", "@1 column add b t text"]


@dataclass(frozen=True)
class Ended:
    """How a run ended: its status, what it wrote, and what it told on standard error."""

    status: int
    output: bytes
    told: bytes

    @property
    def last(self) -> bytes:
        """The last line of the output."""
        return self.output.splitlines(keepends=True)[-1] if self.output else b""


def sent(lines: Iterable[str]) -> bytes:
    """The lines as a program reads them."""
    return "".join(f"{line}\n" for line in lines).encode()


def ran(words: Sequence[str], lines: Iterable[str] = (), variables: dict[str, str] | None = None, kept: Sequence[int] = ()) -> Ended:
    """A run of the program over all lines at once."""
    with_these = {**os.environ, **(variables or {})}
    ended = subprocess.run(
        [PROGRAM, *words], input=sent(lines), env=with_these, pass_fds=tuple(kept), capture_output=True, check=False, timeout=SECONDS
    )
    return Ended(ended.returncode, ended.stdout, ended.stderr)


# What the plain program says and saves.


def one_answer(line: str, given: Iterator[bytes]) -> bytes:
    """The answer to a line, which may have rows; an empty line has none."""
    if not line.strip():
        return b""
    first = next(given)
    rows = int(first[5:]) if first.startswith(b"rows ") else 0
    return b"".join([first, *itertools.islice(given, rows)])


@lru_cache(maxsize=512)
def plain_part(lines: tuple[str, ...], file: bytes | None) -> tuple[tuple[bytes, ...], bytes]:
    """What the plain program answers to lines over a file's store, and what it saves."""
    with tempfile.TemporaryDirectory(dir=MEMORY) as name:
        folder = Path(name)
        words = ["--save", str(folder / "saved")]
        if file is not None:
            (folder / "loaded").write_bytes(file)
            words += ["--load", str(folder / "loaded")]
        ended = ran(words, lines)
        if ended.status != 0:
            raise AssertionError(f"the plain program ended with {ended.status}: {ended.last!r}")
        given = iter(ended.output.splitlines(keepends=True))
        return tuple(one_answer(line, given) for line in lines), (folder / "saved").read_bytes()


@dataclass(frozen=True)
class Plain:
    """What the plain program answers to each line, the file of each `save`, and the file at the end."""

    answers: list[bytes]
    saves: list[bytes]
    file: bytes

    @property
    def output(self) -> bytes:
        """All answers."""
        return b"".join(self.answers)


def plain(lines: Sequence[str], file: bytes | None = None) -> Plain:
    """Runs of the plain program: a `save` ends one, and the next one loads what it saved."""
    answers: list[bytes] = []
    saves: list[bytes] = []
    rest = list(lines)
    while "save" in rest:
        place = rest.index("save")
        given, file = plain_part(tuple(rest[:place]), file)
        answers += [*given, b"ok\n"]
        saves.append(file)
        rest = rest[place + 1 :]
    given, file = plain_part(tuple(rest), file)
    return Plain([*answers, *given], saves, file)


def is_kept(line: str, answer: bytes) -> bool:
    """Whether a line with this answer belongs into the journal."""
    return answer.startswith(b"ok") and line != "save"


# The journal's bytes, by its format.


def head_of(file: bytes) -> bytes:
    """The head of the journal that goes on from a file; one that is not there has no bytes."""
    return b"sfstore-journal 3 %d %s\n" % (len(file), hashlib.sha256(file).hexdigest().encode())


def crc_of(data: bytes, known: int = 0) -> int:
    """The CRC-64 of bytes that follow others, whose CRC-64 is known: bit by bit, as ECMA-182 has it, turned round."""
    register = ~known
    for byte in data:
        register ^= byte
        for _ in range(8):
            register = (register & 2**64 - 1) >> 1 ^ (0xC96C5795D7870F42 if register & 1 else 0)
    return ~register & 2**64 - 1


def journal_of(file: bytes, texts: Iterable[str]) -> bytes:
    """The journal of these texts."""
    head = head_of(file)
    found = [head]
    behind = crc_of(head)
    for text in texts:
        behind = crc_of(text.encode() + b"\n", behind)
        found.append(b"%016x %s\n" % (behind, text.encode()))
    return b"".join(found)


def second_journal_of(file: bytes, texts: Iterable[str]) -> bytes:
    """The journal of these texts as version 2 had it."""
    head = head_of(file).replace(b" 3 ", b" 2 ", 1)
    found = [head]
    behind = hashlib.sha256(head).digest()
    for text in texts:
        behind = hashlib.sha256(behind + text.encode()).digest()
        found.append(behind[:8].hex().encode() + b" " + text.encode() + b"\n")
    return b"".join(found)


def journal_behind(lines: Sequence[str]) -> bytes:
    """The journal behind all lines of a session that began with no file and did not save at its end."""
    told = plain(lines)
    begin = 0
    if "save" in lines:
        begin = len(lines) - list(reversed(lines)).index("save")
    texts = [line for line, answer in zip(lines[begin:], told.answers[begin:]) if is_kept(line, answer)]
    return journal_of(told.saves[-1] if told.saves else b"", texts)


# Seeded lists of lines.


def moved(dice: random.Random) -> str:
    """A line of one of two editors: mostly an edit, sometimes one that is refused, a question or a blank."""
    who = dice.choice(["", "@1 "])
    place = f"{dice.randint(-50, 50)} {dice.randint(-50, 50)}"
    edits = [f"add a POINT ({place})", f"add b LINESTRING (0 0, {place})", f"set a {dice.randint(1, 9)} k {dice.randint(-99, 99)}"]
    edits += [f"set b {dice.randint(1, 5)} t 'it''s {dice.randint(0, 99)}'", f"delete a {dice.randint(1, 9)}"]
    moves = ["undo", "undo", "redo", "layer move b 0"]
    others = ["add a POINT", "layer add a any", "show a", "layers", "", "nonsense \u00e9", "find a k"]
    return who + dice.choice(dice.choices([edits, moves, others], [12, 5, 3])[0])


def session(dice: random.Random, count: int) -> list[str]:
    """So many lines. A blank line is blank for both editors."""
    lines = (moved(dice) for _ in range(count))
    return ["" if line.strip() in ("", "@1") else line for line in lines]


def pieces(dice: random.Random, lines: Sequence[str]) -> Iterator[list[str]]:
    """The lines in pieces, each of which is sent at once."""
    rest = list(lines)
    while rest:
        size = dice.choice([1, 1, 2, 5, 20])
        yield rest[:size]
        rest = rest[size:]


class Running:
    """A session under way. What it answers goes into a file, so that nothing of it is lost when it is killed."""

    def __init__(self, path: Path, answers: Path, variables: dict[str, str] | None = None, kept: Sequence[int] = ()) -> None:
        self.answers = answers
        words = [PROGRAM, "--store", str(path)]
        with_these = {**os.environ, **(variables or {})}
        with answers.open("wb") as output:
            self.process = subprocess.Popen(
                words, stdin=subprocess.PIPE, stdout=output, stderr=subprocess.DEVNULL, env=with_these, pass_fds=tuple(kept)
            )
        assert self.process.stdin is not None
        self.input: IO[bytes] = self.process.stdin

    def send(self, lines: Sequence[str]) -> None:
        """Sends lines; they are small against what a pipe holds."""
        self.input.write(sent(lines))
        self.input.flush()

    def wait_for(self, size: int) -> None:
        """Waits until so many bytes were answered."""
        limit = time.monotonic() + SECONDS
        while self.answers.stat().st_size < size:
            if self.process.poll() is not None or time.monotonic() > limit:
                raise AssertionError(f"no answer: {self.answers.read_bytes()[-200:]!r}")
            time.sleep(0.0002)

    def kill(self) -> bytes:
        """Kills it with no warning, and gives all that it has answered."""
        self.process.kill()
        self.process.wait()
        with contextlib.suppress(BrokenPipeError):
            self.input.close()
        return self.answers.read_bytes()

    def end(self) -> int:
        """Ends its input, and gives its status."""
        self.input.close()
        return self.process.wait(SECONDS)


@dataclass(frozen=True)
class Town:
    """A store's file in a folder, with what stands beside it."""

    place: Path

    @property
    def path(self) -> Path:
        return self.place / "town.sfs"

    @property
    def journal(self) -> Path:
        return self.place / "town.sfs.journal"

    @property
    def lock(self) -> Path:
        return self.place / "town.sfs.lock"

    def beside(self, name: str) -> Path:
        """A file that is made beside."""
        return self.place / f".town.sfs.sfstore-{name}"

    def running(self) -> Running:
        """A session that goes on."""
        return Running(self.path, self.place / "answers")

    def stored(self, lines: Iterable[str] = (), *words: str) -> Ended:
        """A run over the file."""
        return ran(["--store", str(self.path), *words], lines)

    def left(self, lines: Sequence[str]) -> None:
        """Has a session do lines, and leave the edits in the journal."""
        ended = self.stored(lines, "--keep")
        if (ended.status, ended.told) != (0, b""):
            raise AssertionError(ended)

    def bare(self) -> None:
        """Takes the store away, and all that stands beside."""
        for path in (self.path, self.journal, self.beside("store"), self.beside("journal")):
            path.unlink(missing_ok=True)

    def all_there(self) -> dict[str, tuple[bytes, int, int]]:
        """All files but the lock, with their bytes, modes and numbers. Links are not followed."""
        found = {}
        for path in sorted(self.place.iterdir()):
            if path != self.lock:
                known = path.lstat()
                data = os.readlink(path).encode() if path.is_symlink() else path.read_bytes()
                found[path.name] = data, known.st_mode, known.st_ino
        return found

    def refused_untouched(self, status: int, last: str) -> None:
        """The opening is refused, and nothing on the disk changes."""
        before = self.all_there()
        ended = self.stored(["layer add z any"])
        if (ended.status, ended.output) != (status, f"{last}\n".encode()):
            raise AssertionError(f"{ended} in the place of {status} {last}")
        if self.all_there() != before:
            raise AssertionError("an opening that was refused has changed a file")

    def records(self) -> int:
        """How many records the journal has, a guess at what the next opening has."""
        return self.journal.read_bytes().count(b"\n") - 1 if self.journal.exists() else 0

    def agreed(self, history: Sequence[str], lines: Sequence[str], answered: bytes) -> list[str]:
        """What the next opening has is what the plain program has behind a front of the lines that has all that were
        answered; gives that front, with what was asked here."""
        told = plain([*history, *lines]).answers[len(history) :]
        if not b"".join(told).startswith(answered):
            raise AssertionError(f"other answers than {told[-5:]}: {answered[-300:]!r}")
        records = self.records()
        ended = self.stored(PROBE, "--keep")
        if ended.status != 0:
            raise AssertionError(ended)
        ends = list(itertools.accumulate((len(answer) for answer in told), initial=0))
        least = next(count for count, end in enumerate(ends) if end >= len(answered))
        for count in counts([*history, *lines], len(history) + least, records)[:TRIED]:
            front = [*history, *lines][:count]
            if b"".join(plain([*front, *PROBE]).answers[len(front) :]) == ended.output:
                return [*front, *PROBE]
        raise AssertionError(f"no front from {least} to {len(lines)} of {lines} gives {ended.output!r}")


def counts(lines: Sequence[str], least: int, records: int) -> list[int]:
    """The lengths of the fronts that have all that were answered; first those that have so many records."""
    told = plain(lines).answers
    found = []
    since = 0
    for count in range(len(lines) + 1):
        if count > 0:
            since = 0 if lines[count - 1] == "save" else since + is_kept(lines[count - 1], told[count - 1])
        if count >= least:
            found.append((since != records, count))
    return [count for _, count in sorted(found)]


def shortened(history: Sequence[str]) -> list[str]:
    """The history without what changed nothing."""
    return [line for line, answer in zip(history, plain(history).answers) if answer.startswith(b"ok")]


def side_by_side(work: Callable[[Town, int], int], numbers: Iterable[int]) -> int:
    """Does some work for each number in a town of its own, some side by side; the sum of what they give."""

    def done(number: int) -> int:
        with tempfile.TemporaryDirectory(dir=MEMORY) as name:
            try:
                return work(Town(Path(name)), number)
            except Exception as error:
                raise AssertionError(f"number {number}: {error}") from error

    with ThreadPoolExecutor(WORKERS) as pool:
        waiting = [pool.submit(done, number) for number in numbers]
        try:
            return sum(one.result() for one in waiting)
        finally:
            # One that fails ends them all.
            for one in waiting:
                one.cancel()


class StoreCase(TestCase):
    """Tests over a file in a folder of its own."""

    @property
    def place(self) -> Path:
        """Where the store's files are."""
        return Path(self.folder)

    @property
    def town(self) -> Town:
        return Town(self.place)

    @property
    def path(self) -> Path:
        return self.town.path

    @property
    def journal(self) -> Path:
        return self.town.journal

    @property
    def lock(self) -> Path:
        return self.town.lock

    def beside(self, name: str) -> Path:
        """A file that is made beside."""
        return self.town.beside(name)

    def stored(self, lines: Iterable[str] = (), *words: str) -> Ended:
        """A run over the file."""
        return self.town.stored(lines, *words)

    def left(self, lines: Sequence[str]) -> None:
        """Has a session do lines, and leave the edits in the journal."""
        self.town.left(lines)

    def all_there(self) -> dict[str, tuple[bytes, int, int]]:
        """All files but the lock, with their bytes, modes and numbers."""
        return self.town.all_there()

    def assert_ends(self, ended: Ended, status: int, last: str) -> None:
        """The run ended with a fault."""
        self.assertEqual((ended.status, ended.last), (status, last.encode() + b"\n"), ended)

    def assert_refused_untouched(self, status: int, last: str) -> None:
        """The opening is refused, and nothing on the disk changes."""
        self.town.refused_untouched(status, last)

    def met(self, at: str, comes: str, words: Sequence[str], lines: Iterable[str] = ()) -> Ended:
        """A run in which somebody comes at a call: a command of the shell is carried out, in the store's folder."""
        told = Path(self.folder) / "met"
        with told.open("wb") as file:
            come = {"AT": at, "COMES": f"cd {self.place} && {comes}", "MET": str(file.fileno())}
            ended = ran(words, lines, {**come, "LD_PRELOAD": str(library(Path(self.folder), COMING))}, [file.fileno()])
        self.assertTrue(told.stat().st_size, f"no call {at}")
        told.unlink()
        return ended


class DiskCase(StoreCase):
    """Tests over a file on a small disk, where one can be mounted."""

    def mounted(self, size: str) -> None:
        """Has a disk of that size under the folder."""
        disk = self.place
        disk.mkdir()
        words = ["mount", "-t", "tmpfs", "-o", f"size={size}", "sfstore-test", str(disk)]
        if shutil.which("mount") is None or subprocess.run(words, capture_output=True, check=False).returncode:
            self.skipTest("a small disk can't be mounted here")
        self.addCleanup(self.unmount)

    def unmount(self) -> None:
        subprocess.run(["umount", str(self.place)], check=True)

    @property
    def place(self) -> Path:
        return Path(self.folder) / "disk"

    def running(self) -> Running:
        """A session that goes on. Its answers are on another disk."""
        return Running(self.path, Path(self.folder) / "answers")

    def grow(self) -> None:
        subprocess.run(["mount", "-o", "remount,size=4m", str(self.place)], check=True)

    def filled(self) -> Path:
        """A file that takes all room that is left."""
        filler = self.place / "filler"
        with contextlib.suppress(OSError), filler.open("wb", buffering=0) as file:
            while file.write(bytes(4096)):
                pass
        return filler


# Stands before the calls by which a program writes, syncs and renames.
FAULTS = r"""
#include <fcntl.h>
#include <signal.h>
#include <stdio.h>
#include <string.h>
#include <sys/stat.h>

/* Which call fails, with a full disk from then on, which sync and which read of the input fail, and before, behind or within
   which call the process is killed: each counted from 1. Where it is put down that it came to that, and what was synced; who
   is waited for. */
static long fails, stays_full, sync_fails, read_fails, kills, kills_behind, kills_within, calls;
static const char *failed, *synced, *meeting;
static int is_full;

__attribute__((constructor)) static void begin(void) {
    fails = number("FAILS");
    stays_full = number("STAYS_FULL");
    sync_fails = number("SYNC_FAILS");
    read_fails = number("READ_FAILS");
    kills = number("KILLS");
    kills_behind = number("KILLS_BEHIND");
    kills_within = number("KILLS_WITHIN");
    calls = number("CALLS");
    failed = getenv("FAILED");
    synced = getenv("SYNCED");
    meeting = getenv("MEETING");
}

/* Puts a line behind those of a file. */
static void put_down(const char *path, const char *line) {
    int file = path ? syscall(SYS_open, path, O_WRONLY | O_CREAT | O_APPEND, 0600) : -1;
    if (file < 0) return;
    syscall(SYS_write, file, line, strlen(line));
    syscall(SYS_close, file);
}

static int is_now(long *left) {
    if (*left <= 0 || --*left > 0) return 0;
    put_down(failed, "x\n");
    return met();
}

/* What came of a sync: the number of the file, and how long it is. */
static void put_down_sync(const char *word, int file) {
    char line[64];
    struct stat known;
    if (!synced || fstat(file, &known) || !S_ISREG(known.st_mode)) return;
    snprintf(line, sizeof line, "%s %lu %ld\n", word, (unsigned long)known.st_ino, (long)known.st_size);
    put_down(synced, line);
}

/* Counts a number in a file down, and tells whether this is the call that it means. */
static int is_counted(void) {
    char path[4200], text[9] = "";
    snprintf(path, sizeof path, "%s/left", meeting);
    int file = syscall(SYS_open, path, O_RDWR);
    if (file < 0) return 0;
    syscall(SYS_pread64, file, text, 8, 0L);
    long left = atol(text);
    snprintf(text, sizeof text, "%08ld", left > 0 ? left - 1 : 0);
    syscall(SYS_pwrite64, file, text, 8, 0L);
    syscall(SYS_close, file);
    return left == 1;
}

/* Waits for someone, if this is the call. */
static void meet(void) {
    char path[4200], byte;
    int known = errno;
    if (meeting && is_counted()) {
        snprintf(path, sizeof path, "%s/come", meeting);
        put_down(path, "c");
        snprintf(path, sizeof path, "%s/gone", meeting);
        int file = syscall(SYS_open, path, O_RDONLY);
        syscall(SYS_read, file, &byte, 1);
        syscall(SYS_close, file);
    }
    errno = known;
}

static void die(void) { syscall(SYS_kill, getpid(), SIGKILL); }

/* Tells a call, and the name of what it is done to, where someone listens. */
static void tell(const char *call, const char *path) {
    char line[4200];
    const char *slash = strrchr(path, '/');
    if (calls) syscall(SYS_write, (int)calls, line, snprintf(line, sizeof line, "%s %s\n", call, slash ? slash + 1 : path));
}

static void tell_file(const char *call, int file) {
    char link[64], path[4096];
    if (!calls) return;
    snprintf(link, sizeof link, "/proc/self/fd/%d", file);
    ssize_t size = readlink(link, path, sizeof path - 1);
    path[size > 0 ? size : 0] = 0;
    tell(call, path);
}

#define FAIL(code) do { errno = code; return -1; } while (0)

static int fails_now(void) {
    if (is_now(&kills)) die();
    return is_now(&fails);
}

static long behind(long done) {
    if (is_now(&kills_behind) || is_now(&kills_within)) die();
    meet();
    return done;
}

static int synced_file(int file, long call) {
    tell_file("sync", file);
    if (fails_now() || is_now(&sync_fails)) {
        put_down_sync("failed", file);
        FAIL(EIO);
    }
    long done = syscall(call, file);
    if (!done) put_down_sync("synced", file);
    return behind(done);
}

int fsync(int file) { return synced_file(file, SYS_fsync); }
int fdatasync(int file) { return synced_file(file, SYS_fdatasync); }

/* At these someone may come, and nothing fails. */
int fchmod(int file, mode_t mode) { meet(); return syscall(SYS_fchmod, file, mode); }
int flock(int file, int operation) { meet(); return syscall(SYS_flock, file, operation); }

off64_t lseek64(int file, off64_t place, int from) {
    if (from == SEEK_SET) meet();
    return syscall(SYS_lseek, file, place, from);
}

off_t lseek(int file, off_t place, int from) { return lseek64(file, place, from); }

int unlink(const char *path) {
    long done = syscall(SYS_unlink, path);
    meet();
    return done;
}

int rename(const char *from, const char *to) {
    tell("rename", to);
    if (fails_now()) FAIL(EIO);
    return behind(syscall(SYS_rename, from, to));
}

int renameat(int one, const char *from, int other, const char *to) {
    tell("rename", to);
    if (fails_now()) FAIL(EIO);
    return behind(syscall(SYS_renameat, one, from, other, to));
}

/* Of a writing to a file that fails half of the bytes are written, and of one within which the process is killed. */
static ssize_t written(int file, const void *bytes, size_t count) {
    struct stat known;
    if (fstat(file, &known) || !S_ISREG(known.st_mode)) return syscall(SYS_write, file, bytes, count);
    tell_file("write", file);
    if (is_full) FAIL(ENOSPC);
    if (fails_now()) {
        is_full = stays_full != 0;
        if (syscall(SYS_write, file, bytes, count / 2) < 0) return -1;
        FAIL(ENOSPC);
    }
    if (kills_within == 1) count /= 2;
    return behind(syscall(SYS_write, file, bytes, count));
}

ssize_t write(int file, const void *bytes, size_t count) { return written(file, bytes, count); }
ssize_t __write(int file, const void *bytes, size_t count) { return written(file, bytes, count); }

static ssize_t read_from(int file, void *bytes, size_t count) {
    if (file == STDIN_FILENO && is_now(&read_fails)) FAIL(EIO);
    return syscall(SYS_read, file, bytes, count);
}

ssize_t read(int file, void *bytes, size_t count) { return read_from(file, bytes, count); }
ssize_t __read(int file, void *bytes, size_t count) { return read_from(file, bytes, count); }
"""

# Somebody comes once, before or behind the first call of a kind for a file of a name, as "before flock town.sfs.lock": a command
# of the shell is carried out then.
COMING = r"""
#include <signal.h>
#include <stdio.h>
#include <string.h>

static int has_come;

static void come(const char *when, const char *call, const char *path) {
    char here[4200];
    const char *slash = strrchr(path, '/');
    int known = errno;
    snprintf(here, sizeof here, "%s %s %s", when, call, slash ? slash + 1 : path);
    if (!has_come && strcmp(here, getenv("AT")) == 0) {
        has_come = met();
        unsetenv("LD_PRELOAD");
        if (system(getenv("COMES"))) syscall(SYS_kill, getpid(), SIGKILL);
    }
    errno = known;
}

static void come_to_file(const char *when, const char *call, int file) {
    char link[64], path[4096];
    snprintf(link, sizeof link, "/proc/self/fd/%d", file);
    ssize_t size = readlink(link, path, sizeof path - 1);
    path[size > 0 ? size : 0] = 0;
    come(when, call, path);
}

int flock(int file, int operation) {
    come_to_file("before", "flock", file);
    return syscall(SYS_flock, file, operation);
}

int fsync(int file) {
    come_to_file("before", "sync", file);
    return syscall(SYS_fsync, file);
}

off64_t lseek64(int file, off64_t place, int from) {
    come_to_file("before", "seek", file);
    return syscall(SYS_lseek, file, place, from);
}

off_t lseek(int file, off_t place, int from) { return lseek64(file, place, from); }

int rename(const char *from, const char *to) {
    long done = syscall(SYS_rename, from, to);
    come("behind", "rename", to);
    return done;
}

int renameat(int one, const char *from, int other, const char *to) {
    long done = syscall(SYS_renameat, one, from, other, to);
    come("behind", "rename", to);
    return done;
}
"""
