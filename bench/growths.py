#!/usr/bin/env python3
"""Refuses each growth of a program's memory in turn, and looks at what it answers, saves and draws then.

Of a session: with the lines left out that were refused as out of memory, the program with ample memory has to give
the remaining answers, and to save the same file: so these lines have changed nothing, and no other line is touched. A
run may also end with a fault that names what found no memory, and with what may stand before such a fault. The growths
are counted from 1 until a run meets no refusal; in a second turn every growth behind the refused one is refused too. A
small library that the C compiler makes stands before the C library's calls.

    bench/growths.py

rt run is needed once in crates/sfstore: it builds the program. tests/program/test_growths.py has more sessions.
"""

from __future__ import annotations

import itertools
import os
import subprocess
import sys
import tempfile
from collections.abc import Iterator
from concurrent.futures import ThreadPoolExecutor
from dataclasses import dataclass, field
from pathlib import Path

sys.path.insert(0, str(Path(__file__).resolve().parent.parent / "tools"))

from programs import path_of  # noqa: E402

PROGRAM = path_of("sfstore")
REFUSED = ["refused 1 Memory"]
BATCH = 32
WORKERS = 2
SECONDS = 60

# What such a library begins with: where it is told that a call was met, and the numbers that it is told.
HEAD = r"""
#define _GNU_SOURCE
#include <dlfcn.h>
#include <errno.h>
#include <stddef.h>
#include <stdlib.h>
#include <sys/syscall.h>
#include <unistd.h>

static int has_told;

static long number(const char *name) {
    const char *text = getenv(name);
    return text ? atol(text) : 0;
}

static int met(void) {
    if (!has_told) has_told = syscall(SYS_write, (int)number("MET"), "x", 1) == 1;
    return 1;
}
"""

REFUSING = r"""
/* Which growth is refused, counted from 1, and whether all behind it are; 0 once none is to be refused. */
static long left;
static int rest;

__attribute__((constructor)) static void begin(void) {
    left = number("GROWTH");
    rest = number("REST") != 0;
}

static int refuses(void) {
    if (left <= 0 || --left > 0) return 0;
    left = rest;
    return met();
}

void *malloc(size_t size) {
    static void *(*next)(size_t);
    if (!next) next = (void *(*)(size_t))dlsym(RTLD_NEXT, "malloc");
    return refuses() ? NULL : next(size);
}

void *realloc(void *block, size_t size) {
    static void *(*next)(void *, size_t);
    if (!next) next = (void *(*)(void *, size_t))dlsym(RTLD_NEXT, "realloc");
    return refuses() ? NULL : next(block, size);
}

void *aligned_alloc(size_t alignment, size_t size) {
    static void *(*next)(size_t, size_t);
    if (!next) next = (void *(*)(size_t, size_t))dlsym(RTLD_NEXT, "aligned_alloc");
    return refuses() ? NULL : next(alignment, size);
}

int posix_memalign(void **block, size_t alignment, size_t size) {
    static int (*next)(void **, size_t, size_t);
    if (!next) next = (int (*)(void **, size_t, size_t))dlsym(RTLD_NEXT, "posix_memalign");
    return refuses() ? ENOMEM : next(block, alignment, size);
}
"""

EDITS = """\
layer add a any
layer add b point
layer rename b c
layer move c 0
column add a depth int
column add a label text
column add a price decimal
column add a seen date
column add a dry bool
column add a measured datetime
add a POINT (1 1)
add a LINESTRING (0 0, 5 5)
addhex a 010100000000000000000008400000000000001040
add a POLYGON ((0 0, 9 0, 9 9, 0 9, 0 0), (1 1, 2 1, 2 2, 1 1))
add a MULTIPOLYGON (((0 0, 5 0, 5 5, 0 0)), ((6 6, 9 6, 9 9, 6 6)))
set a 1 depth 12
set a 1 label 'it''s'
set a 2 depth -7
set a 1 depth 13
set a 2 label E'a\\nb''s\\x1b'
set a 4 price -812.50
set a 4 seen 2024-02-29
set a 4 dry true
set a 4 measured 2026-11-29T19:28:11.250Z
replace a 1 MULTIPOINT (1 1, 2 2)
vertex insert a 2 0 0 1 3 4
vertex move a 2 0 0 0 -1 0
vertex remove a 2 0 0 1
vertex insert a 4 0 0 4 0 4
unset a 1 label
delete a 3
column drop a depth
layer drop c
""".splitlines()

QUESTIONS = """\
layers
columns a
show a
show c
get a 4 2 4
find a depth
find a label 'it''s'
find a label E'a\\nb''s\\x1b'
find a price -812.5
find a seen 2024-02-29
find a dry true
find a measured 2026-11-29T19:28:11.25Z
check a POLYGON ((0 0, 9 0, 9 9, 0 9, 0 0), (1 1, 2 1, 2 2, 1 1))
check a POLYGON ((0 0, 4 4, 4 0, 0 4, 0 0))
hex a 2
box a 4
simple a 4
area a 4 2
length a 2 4 2
distance a 4 LINESTRING (-5 15, 15 15)
nearest a 3 POINT (5 5)
reach a intersects 4
reach a intersects 4 2 until a touches
relate a 4 LINESTRING (-5 5, 15 5)
match a T*F**F*** POLYGON ((0 0, 9 0, 9 9, 0 9, 0 0))
query a intersects POLYGON ((4 4, 7 4, 7 7, 4 4))
query a disjoint MULTIPOINT (0 0, 7 7)
query a near 2.5 POINT (5 5)
join a intersects a
join a T******** a 4
""".splitlines()

HALF = ["undo"] * (len(EDITS) // 2)

# Every edit, undone and done again; every question before, within and behind.
SESSION = [
    *EDITS,
    *QUESTIONS,
    *HALF,
    *QUESTIONS,
    *HALF,
    "undo",
    "layers",
    *["redo"] * len(EDITS),
    "redo",
    *QUESTIONS,
    "undo",
    "layer add d any",
    "redo",
    "layers",
]


@dataclass(frozen=True)
class Ended:
    """How a run of a program ended: its status, what it wrote, and what it left where it was to save."""

    status: int
    output: bytes
    told: bytes
    saved: bytes


@dataclass(frozen=True)
class Call:
    """How a program is called. `saves`: it saves too."""

    program: Path
    words: tuple[str, ...] = ()
    saves: bool = False

    def run(self, text: bytes, variables: dict[str, str], descriptors: tuple[int, ...] = ()) -> Ended:
        """A run over the text."""
        with tempfile.TemporaryDirectory() as folder:
            file = Path(folder) / "saved"
            words = [str(self.program), *self.words, *(["--save", str(file)] if self.saves else [])]
            ended = subprocess.run(
                words, input=text, env=variables, pass_fds=descriptors, capture_output=True, check=False, timeout=SECONDS
            )
            saved = file.read_bytes() if file.exists() else b""
        return Ended(ended.returncode, ended.stdout, ended.stderr, saved)


def library(folder: Path, source: str = REFUSING) -> Path:
    """A library that stands before calls of the C library."""
    path = folder / "before.so"
    compiler = ["cc", "-shared", "-fPIC", "-O1", "-x", "c", "-", "-o", str(path), "-ldl"]
    subprocess.run(compiler, input=HEAD + source, text=True, check=True)
    return path


def met_run(path: Path, call: Call, text: bytes, variables: dict[str, str]) -> Ended | None:
    """A run under such a library, told by variables; None where what it waits for was not met."""
    reading, writing = os.pipe()
    try:
        ended = call.run(text, {**variables, "LD_PRELOAD": str(path), "MET": str(writing)}, (writing,))
    finally:
        os.close(writing)
        with os.fdopen(reading, "rb") as told:
            has_met = told.read() != b""
    return ended if has_met else None


def met_runs(path: Path, call: Call, text: bytes, counted: str, others: dict[str, str]) -> Iterator[tuple[int, Ended]]:
    """The runs in which what a variable counts, from 1 on, was met: each until it is not."""

    def run(number: int) -> Ended | None:
        return met_run(path, call, text, {counted: str(number), **others})

    with ThreadPoolExecutor(WORKERS) as pool:
        for start in itertools.count(1, BATCH):
            batch = range(start, start + BATCH)
            for number, ended in zip(batch, pool.map(run, batch)):
                if ended is None:
                    return
                yield number, ended


def refused_runs(path: Path, call: Call, text: bytes, has_rest: bool) -> Iterator[tuple[int, Ended]]:
    """The runs in which one growth, or with all behind it, is refused."""
    return met_runs(path, call, text, "GROWTH", {"REST": "1"} if has_rest else {})


def sent(lines: list[str]) -> bytes:
    """The lines as a program reads them."""
    return "".join(f"{line}\n" for line in lines).encode()


def answers(output: bytes) -> list[list[str]]:
    """The answers of an output: each a list of lines, of which one with rows has several."""
    lines = iter(output.decode().splitlines())
    found = []
    for line in lines:
        rows = int(line[5:]) if line.startswith("rows ") else 0
        found.append([line, *itertools.islice(lines, rows)])
    return found


@dataclass
class Session:
    """Lines that a program answers, and what it answers and saves with ample memory."""

    call: Call
    lines: list[str]
    ample: dict[tuple[int, ...], Ended] = field(default_factory=dict)

    def without(self, left_out: tuple[int, ...]) -> Ended:
        """A run with ample memory that has all lines but these."""
        if left_out not in self.ample:
            kept = [line for place, line in enumerate(self.lines) if place not in left_out]
            self.ample[left_out] = self.call.run(sent(kept), {})
        return self.ample[left_out]

    def fault(self, ended: Ended) -> str:
        """What the run ended by before it answered a line, where running out of memory may end it so; else nothing."""
        faults = {(1, b"fault serve Memory\n"): "serve", (2, b"fault words Memory\n"): "words"}
        if "--load" in self.call.words:
            faults[3, b"fault load Memory\n"] = "load"
        return "" if ended.saved else faults.get((ended.status, ended.output), "")

    def check(self, ended: Ended) -> str:
        """Refuses what a run with growths refused must not do. How it ended: the lines refused, or its fault."""
        fault = self.fault(ended)
        if fault:
            return fault
        output, behind = ended.output, b""
        if self.call.saves and ended.status == 4:
            output, behind, _ = output.partition(b"fault save Memory\n")
        elif ended.status != 0:
            raise AssertionError(f"status {ended.status}: {ended.output!r} {ended.told!r}")
        return self.check_answers(answers(output), ended.saved, behind != b"")

    def check_answers(self, given: list[list[str]], saved: bytes, is_cut: bool) -> str:
        """Refuses answers and a saved file that are not those of the session without its refused lines."""
        if len(given) != len(self.lines):
            raise AssertionError(f"{len(given)} answers to {len(self.lines)} lines")
        left_out = tuple(place for place, answer in enumerate(given) if answer == REFUSED)
        wanted = self.without(left_out)
        if answers(wanted.output) != [answer for answer in given if answer != REFUSED]:
            raise AssertionError(f"other answers than without {[self.lines[place] for place in left_out]}")
        if not (wanted.saved.startswith(saved) if is_cut else wanted.saved == saved):
            raise AssertionError(f"another file than without {[self.lines[place] for place in left_out]}")
        return "save" if is_cut else " ".join(str(place) for place in left_out)


def checked(path: Path, session: Session, has_rest: bool) -> list[tuple[str, Ended]]:
    """How each run of a session with growths refused ended, and what it left; refuses what none may do."""
    found = []
    for number, ended in refused_runs(path, session.call, sent(session.lines), has_rest):
        try:
            found.append((session.check(ended), ended))
        except AssertionError as error:
            raise AssertionError(f"growth {number}, all behind it {has_rest}: {error}") from error
    return found


def summary(path: Path, session: Session, has_rest: bool) -> str:
    """What the runs of a session were like."""
    ends = [end for end, _ in checked(path, session, has_rest)]
    faults = sum(end in ("serve", "words") for end in ends)
    none = sum(end == "" for end in ends)
    what = "with all behind it" if has_rest else "alone"
    lines = len(ends) - faults - none
    return f"{len(ends)} growths refused {what}: {lines} runs with lines refused, {faults} not begun, {none} as if none was"


def main() -> None:
    """Refuses each growth of the session."""
    if not PROGRAM.is_file():
        sys.exit(f"{PROGRAM} is missing: run `rt run` in crates/sfstore first")
    with tempfile.TemporaryDirectory() as folder:
        path = library(Path(folder))
        for has_rest in (False, True):
            print(summary(path, Session(Call(PROGRAM), SESSION), has_rest))


if __name__ == "__main__":
    main()
