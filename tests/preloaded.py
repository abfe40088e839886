"""Runs of the built programs under a library that stands before calls of the C library."""

from __future__ import annotations

import shutil
import sys
import tempfile
import unittest
from collections.abc import Sequence
from pathlib import Path
from typing import ClassVar

TOP = Path(__file__).resolve().parent.parent
sys.path[:0] = [str(TOP / "bench"), str(TOP / "tools")]

from growths import Call, library, sent  # noqa: E402
from programs import path_of  # noqa: E402

STORE, PICTURE = path_of("sfstore"), path_of("sfmap")

# A read or a write that fails, or a write that takes nothing, the calls counted from 1. It fails once: who takes it
# for nothing and goes on ends well. Or all calls for the same file fail from then on. Who reads a file again that could not
# be read ends with a status of its own. With a step, a call takes at most so many bytes.
FAILING = r"""
static long reads, writes, takes, step, interrupts, lasts;
static int unread = -1, unwritten = -1;

__attribute__((constructor)) static void begin(void) {
    reads = number("READ_FAILS");
    writes = number("WRITE_FAILS");
    takes = number("WRITE_TAKES_NONE");
    step = number("STEP");
    interrupts = number("INTERRUPTS");
    lasts = number("FOR_GOOD");
}

static int is_now(long *left) {
    return *left > 0 && --*left == 0 && met();
}

static size_t part(size_t count) {
    return step && count > (size_t)step ? (size_t)step : count;
}

static ssize_t failed(void) {
    errno = interrupts ? EINTR : EIO;
    return -1;
}

ssize_t read(int file, void *bytes, size_t count) {
    if (file == unread) _exit(99);
    if (is_now(&reads)) {
        unread = file;
        return failed();
    }
    return syscall(SYS_read, file, bytes, part(count));
}

ssize_t write(int file, const void *bytes, size_t count) {
    int lasting = lasts && file == unwritten;
    int fails = is_now(&writes), none = is_now(&takes);
    if (fails || none) unwritten = file;
    if (none || (lasting && !number("WRITE_FAILS"))) return 0;
    if (fails || lasting) return failed();
    return syscall(SYS_write, file, bytes, part(count));
}

ssize_t __read(int file, void *bytes, size_t count) { return read(file, bytes, count); }
ssize_t __write(int file, const void *bytes, size_t count) { return write(file, bytes, count); }
"""
MANY_BYTES: dict[str, str] = {}
ONE_BYTE = {"STEP": "1"}


@unittest.skipIf(shutil.which("cc") is None, "cc is missing")
class Preloaded(unittest.TestCase):
    """Tests with a library of a C source, and where there are lines with a file that was saved after them."""

    source: ClassVar[str]
    stored: ClassVar[Sequence[str]] = ()

    folder: ClassVar[tempfile.TemporaryDirectory[str]]
    library: ClassVar[Path]
    file: ClassVar[Path]

    @classmethod
    def setUpClass(cls) -> None:
        cls.folder = tempfile.TemporaryDirectory()
        cls.library = library(Path(cls.folder.name), cls.source)
        cls.file = Path(cls.folder.name) / "store.sfs"
        if cls.stored:
            cls.file.write_bytes(Call(STORE, saves=True).run(sent(list(cls.stored)), {}).saved)

    @classmethod
    def tearDownClass(cls) -> None:
        cls.folder.cleanup()
