#!/usr/bin/env python3
"""Sends mutated sessions and mutated files to the program, and checks what can be checked without a model.

    bench/hostile.py [--seed N] [--lines N] [--files N] [--program FILE]

Of sessions: each line that asks something has one answer, in the form that its command has, or a refusal with its
number and name; after a refused line and after a question the layers, their columns and rows are what they were
before; the program ends with status 0. Of files: the program loads one, or ends with status 3 and names a place in it
and a number; what it saves of a loaded one loads again and is saved as the same bytes. Nothing else may happen. The
same seed sends the same bytes. It ends with status 1 where something else happened, and says what.

    rt run is needed once in crates/sfstore (it builds the program)
"""

from __future__ import annotations

import argparse
import itertools
import os
import random
import re
import subprocess
import sys
import tempfile
from collections.abc import Iterator
from concurrent.futures import ThreadPoolExecutor
from dataclasses import dataclass
from pathlib import Path

sys.path.insert(0, str(Path(__file__).resolve().parent.parent / "tools"))

from programs import path_of  # noqa: E402

PROGRAM = path_of("sfstore")
LINE_MAX = 4_194_304
GROUP_MAX = 65_535
SESSION_LINES = 500
SECONDS = 60

REFUSALS = dict(
    enumerate(
        "Memory Syntax OffGrid OutOfRange Empty UnsupportedType Truncated Trailing TooManyVertices ShortLine OpenRing "
        "ShortRing RingNotSimple RingsMeet HoleOutside HolesNested PolygonsOverlap NoLayer LayerExists BadName NoFeature "
        "NoColumn ColumnExists WrongValue NoVertex WrongKind IdsExhausted ColumnsExhausted NothingToUndo NothingToRedo "
        "BadCommand BadPattern LineTooLong BadFile BadPlace NotYours".split(),
        1,
    )
) | {38: "Unfinished"}

# What the store is looked at by, between two lines.
PROBES = [b"layers", b"columns a", b"show a", b"columns b", b"show b"]

EDIT = re.compile(rb"ok")
ADDITION = re.compile(rb"ok [1-9][0-9]*")
GROUP = re.compile(rb"ok( [1-9][0-9]*)*")
ROWS = re.compile(rb"rows (0|[1-9][0-9]*)")

# The form of an accepted answer, by the first word of its command behind that of an editor.
FORMS = {
    b"layer": EDIT,
    b"column": EDIT,
    b"add": ADDITION,
    b"addhex": ADDITION,
    b"delete": EDIT,
    b"replace": EDIT,
    b"vertex": EDIT,
    b"set": EDIT,
    b"unset": EDIT,
    b"together": GROUP,
    b"undo": EDIT,
    b"redo": EDIT,
    b"layers": ROWS,
    b"columns": ROWS,
    b"show": ROWS,
    b"get": ROWS,
    b"find": ROWS,
    b"check": re.compile(rb"ok"),
    b"match": ROWS,
    b"query": ROWS,
    b"join": ROWS,
    b"hex": re.compile(rb"[0-9a-f]{42,}"),
    b"box": re.compile(rb"-?[0-9]+( -?[0-9]+){3}"),
    b"simple": re.compile(rb"true|false"),
    b"area": ROWS,
    b"length": ROWS,
    b"distance": re.compile(rb"[0-9]+\.[0-9]{3} [0-9]+(?:/[0-9]+)?"),
    b"nearest": ROWS,
    b"reach": ROWS,
    b"relate": re.compile(rb"[F012]{9}"),
}
# Where a geometry is wrong, behind a refusal of `check`.
PLACE = re.compile(rb"(?: (?:line|part|ring [0-9]+) [0-9]+(?: edges? [0-9]+(?: [0-9]+)?)?){1,2}")
# Which member of a group is refused.
MEMBER = re.compile(rb" member [1-9][0-9]*")
EDITS = {verb for verb, form in FORMS.items() if form in (EDIT, ADDITION, GROUP)}
# The line that begins a group.
HEAD = re.compile(rb"[ \t]*(?:@([0-9]{1,3})[ \t]+)?together[ \t]+([0-9]{1,10})[ \t]*")

BEGINNING = [
    b"layer add a any",
    b"layer add b point",
    b"column add a depth int",
    b"column add a label text",
    b"add a POLYGON ((0 0, 90 0, 90 90, 0 90, 0 0), (10 10, 20 10, 20 20, 10 10))",
    b"add a LINESTRING (-5 0, 50 50, 95 0)",
    b"add b POINT (3 4)",
]

LINES = [
    *BEGINNING,
    b"add a MULTIPOINT ((1 1), (2 2))",
    b"add a MULTILINESTRING ((0 0, 5 5), (5 5, 9 0))",
    b"add a MULTIPOLYGON (((0 0, 5 0, 5 5, 0 0)), ((6 6, 9 6, 9 9, 6 6)))",
    b"addhex b 00000000013ff00000000000004000000000000000",
    b"set a 1 depth -12",
    b"set a 2 label 'it''s old'",
    b"unset a 1 depth",
    b"replace a 2 POINT (1073741823 -1073741824)",
    b"vertex insert a 1 0 0 1 45 -3",
    b"vertex move a 1 0 0 2 91 91",
    b"vertex remove a 1 0 1 0",
    b"delete a 2",
    b"column drop a label",
    b"layer rename b c",
    b"layer move a 1",
    b"layer drop c",
    b"get a 2 1 1",
    b"find a depth -12",
    b"find a label 'it''s old'",
    b"find a depth",
    b"check a POLYGON ((0 0, 9 0, 9 9, 0 9, 0 0), (1 1, 2 1, 2 2, 1 1), (5 5, 6 5, 6 6, 5 5))",
    b"check a POLYGON ((0 0, 4 4, 4 0, 0 4, 0 0))",
    b"hex a 1",
    b"box a 1",
    b"simple a 2",
    b"area a 2 1 1",
    b"length a 1",
    b"relate a 1 POLYGON ((5 5, 95 5, 95 8, 5 8, 5 5))",
    b"distance a 1 POLYGON ((5 5, 95 5, 95 8, 5 8, 5 5))",
    b"query a near 2.5 POINT (5 5)",
    b"nearest a 3 POINT (5 5)",
    b"reach a intersects 1",
    b"reach a intersects 1 until a touches",
    b"match a T*F**F*** POLYGON ((-9 -9, 99 -9, 99 99, -9 99, -9 -9))",
    b"query a intersects LINESTRING (0 0, 9 9)",
    b"query a disjoint POINT (1000 1000)",
    b"join a intersects b",
    b"join a ****T**** a 1",
    b"@7 add b POINT (7 7)",
    b"@7 undo",
    b"together 2\radd a POINT (1 1)\rset a last depth 5",
    b"together 3\rdelete a 1\raddhex b 00000000013ff00000000000004000000000000000\rvertex move b last 0 0 0 2 2",
    b"@7 together 1\rreplace a 2 POINT (3 3)",
    b"together 3\nadd a LINESTRING (0 0, 9 9)\nvertex insert a last 0 0 1 5 0\nset a last label 'new'",
    b"@7 together 2\nunset a 1 depth\ndelete a 2",
    b"column add a size decimal",
    b"column add a sold bool",
    b"column add a entered date",
    b"column add a measured datetime",
    b"set a 1 size -922337203685477580.80",
    b"set a 2 size 12",
    b"set a 1 sold true",
    b"set a 1 entered 2024-02-29",
    b"set a 1 measured 2026-11-29T19:28:11.005Z",
    b"find a size +0012.0",
    b"undo",
    b"redo",
    b"@255 redo",
    *PROBES,
]

WORDS = [
    b"a", b"b", b"c", b"0", b"1", b"2", b"4294967295", b"4294967296", b"-1", b"1073741823", b"1073741824", b"-1073741824",
    b"-8388609", b"1.5", b"1e9", b"EMPTY", b"POINT", b"POLYGON", b"(", b")", b"((", b"))", b",", b"'", b"''", b"@0",
    b"@1", b"@256", b"@", b"int", b"text", b"any", b"T********", b"*********", b"within", b"touches", b"\xff",
    b"decimal", b"bool", b"date", b"datetime", b"0.5", b".5", b"0.0000000000000000001", b"9223372036854775808", b"false",
    b"2025-02-29", b"9999-12-31", b"0000-01-01", b"2026-11-29T23:59:60Z", b"0001-01-01T00:00:00Z", b"T", b"Z", b"-", b":",
    b"\xc3\xa4", b"\0", b"\r", b"\t", b"\n", b"undo", b"redo", b"last", b"together", b"together 2", b"99999999999999999999",
]  # fmt: skip


class Wrong(Exception):
    """Something happened that may not; the text says what."""


@dataclass(frozen=True)
class Told:
    """What the program answered to one line."""

    line: bytes
    first: bytes
    rows: list[bytes]


def mutated_line(chance: random.Random) -> bytes:
    """A line of a session, with words or bytes changed."""
    line = chance.choice(LINES)
    for _ in range(chance.choice((0, 0, 1, 1, 2, 4))):
        line = chance.choice((changed_word, changed_byte, cut, doubled))(chance, line)
    if chance.random() < 0.001:
        line = line + b" " * chance.choice((LINE_MAX - len(line), LINE_MAX + 1 - len(line)))
    return line


def changed_word(chance: random.Random, line: bytes) -> bytes:
    """The line with a word exchanged, put in or taken out."""
    words = line.split(b" ")
    at = chance.randrange(len(words))
    words[at : at + chance.randrange(2)] = [chance.choice(WORDS)] * chance.randrange(3)
    return b" ".join(words)


def changed_byte(chance: random.Random, text: bytes) -> bytes:
    """The bytes with one of them exchanged or put in."""
    at = chance.randrange(len(text) + 1)
    return text[:at] + bytes([chance.randrange(256)]) + text[at + chance.randrange(2) :]


def cut(chance: random.Random, text: bytes) -> bytes:
    """The bytes without a piece."""
    at = chance.randrange(len(text) + 1)
    return text[:at] + text[at + chance.randrange(1, 9) :]


def doubled(chance: random.Random, text: bytes) -> bytes:
    """The bytes with a piece twice."""
    at = chance.randrange(len(text) + 1)
    return text[:at] + text[at - chance.randrange(9) : at] + text[at:]


def session(chance: random.Random, lines: int) -> list[bytes]:
    """A session: the beginning, and so many mutated lines, the store looked at before and behind each."""
    asked = [*BEGINNING, *PROBES]
    for _ in range(lines):
        asked += [mutated_line(chance), *PROBES]
    # A line feed within a line parts it.
    return b"\n".join(asked).split(b"\n")


def has_answer(line: bytes) -> bool:
    """Whether a line is answered: it isn't blank, or it is too long to be looked at."""
    return len(line) > LINE_MAX or line.removesuffix(b"\r").strip(b" \t") != b""


def members_behind(line: bytes) -> int:
    """How many members come behind a line; 0 where it begins no group."""
    found = HEAD.fullmatch(line.removesuffix(b"\r"))
    if not found or len(line) > LINE_MAX or int(found[2]) > GROUP_MAX:
        return 0
    return int(found[2]) if not found[1] or 1 <= int(found[1]) <= 255 else 0


def answered_by_themselves(lines: list[bytes]) -> Iterator[bytes]:
    """The lines that are answered, and of a group the one that begins it."""
    left = filter(has_answer, lines)
    for line in left:
        for _ in itertools.islice(left, members_behind(line)):
            pass
        yield line


def answers(lines: list[bytes], output: bytes) -> Iterator[Told]:
    """The answers of the lines, one for each that has one. `Wrong` where there are fewer or more."""
    written = iter(output.split(b"\n"))
    for line in answered_by_themselves(lines):
        first = next(written, b"")
        found = ROWS.fullmatch(first)
        rows = [next(written, b"") for _ in range(int(found[1]))] if found else []
        yield Told(line, first, rows)
    rest = b"\n".join(written)
    if rest:
        raise Wrong(f"more answers than lines: {rest[:200]!r}")


def verb(line: bytes) -> bytes:
    """The word that says what a line asks for, behind that of an editor."""
    words = re.split(rb"[ \t]+", line.removesuffix(b"\r").strip(b" \t"))
    return words[1] if words[0].startswith(b"@") and len(words) > 1 else words[0]


def is_refused(told: Told) -> bool:
    """Whether the answer is a refusal. `Wrong` where its number and name are none of the table, or it is no answer."""
    found = re.fullmatch(rb"refused ([0-9]+) ([A-Za-z]+)(.*)", told.first)
    if found:
        number, word = int(found[1]), verb(told.line)
        detail = MEMBER if word == b"together" else PLACE if word == b"check" and 10 <= number <= 17 else None
        is_bare = detail is None or (detail is MEMBER and number in (1, 31, 33, 38))
        is_right = detail is not None and bool(detail.fullmatch(found[3])) or (is_bare and not found[3])
        if REFUSALS.get(number) != found[2].decode() or not is_right:
            raise Wrong(f"no refusal of the table: {told.first!r} to {told.line[:200]!r}")
        return True
    form = FORMS.get(verb(told.line))
    if form is None or not form.fullmatch(told.first):
        raise Wrong(f"no answer of the grammar: {told.first[:200]!r} to {told.line[:200]!r}")
    return False


def check_session(program: Path, seed: int, lines: int) -> int:
    """Runs a session and looks at each answer. How many lines had one; `Wrong` where one may not be."""
    asked = session(random.Random(seed), lines)
    ended = subprocess.run([program], input=b"\n".join(asked), capture_output=True, timeout=SECONDS)
    if ended.returncode != 0 or ended.stderr:
        raise Wrong(f"status {ended.returncode}, {ended.stderr[:200]!r}")
    seen: dict[bytes, Told] = {}
    changed = set(PROBES)
    count = 0
    for told in answers(asked, ended.stdout):
        count += 1
        accepted = not is_refused(told)
        if accepted and verb(told.line) in EDITS:
            changed = set(PROBES)
        if told.line in PROBES:
            if told.line not in changed and seen[told.line] != told:
                raise Wrong(f"{told.line!r} is answered otherwise though nothing was accepted")
            seen[told.line] = told
            changed.discard(told.line)
    return count


def base_files(program: Path, folder: Path) -> list[bytes]:
    """Files of stores of several sizes, as the program saves them, and one of the first version."""
    found = [b"SFSTORE1\0\0\0\0"]
    for count in (0, 4, len(BEGINNING), len(LINES)):
        file = folder / "base.sfs"
        text = b"\n".join(LINES[:count])
        subprocess.run([program, f"--save={file}"], input=text, check=True, capture_output=True, timeout=SECONDS)
        found.append(file.read_bytes())
    return found


def mutated_file(chance: random.Random, bases: list[bytes]) -> bytes:
    """A file with bytes changed, put in or taken out."""
    file = chance.choice(bases)
    for _ in range(chance.choice((0, 1, 1, 2, 5))):
        file = chance.choice((changed_byte, changed_byte, flipped, flipped, cut, doubled))(chance, file)
    return file


def flipped(chance: random.Random, text: bytes) -> bytes:
    """The bytes with one of them exchanged for a number that lengths and counts have."""
    at = chance.randrange(len(text) + 1)
    return text[:at] + bytes([chance.choice((0, 1, 2, 3, 4, 6, 24, 127, 128, 255))]) + text[at + 1 :]


def saved_again(program: Path, folder: Path, file: bytes) -> bytes | None:
    """What the program saves of a file, or None where it refuses it. `Wrong` where it does anything else."""
    given, made = folder / "given.sfs", folder / "made.sfs"
    given.write_bytes(file)
    ended = subprocess.run(
        [program, f"--load={given}", f"--save={made}"], input=b"", capture_output=True, timeout=SECONDS
    )
    if ended.returncode == 0 and not ended.stdout:
        return made.read_bytes()
    found = re.fullmatch(rb"fault load BadFile ([0-9]+) ([0-9]+)\n", ended.stdout)
    if ended.returncode != 3 or not found or int(found[1]) > len(file) or int(found[2]) not in REFUSALS:
        raise Wrong(f"status {ended.returncode}, {ended.stdout[:200]!r}, {ended.stderr[:200]!r} of {file.hex()}")
    return None


def check_file(program: Path, folder: Path, seed: int, bases: list[bytes]) -> bool:
    """Has the program load a mutated file. Whether it did; `Wrong` where what it saved is no file that stays."""
    file = mutated_file(random.Random(seed), bases)
    saved = saved_again(program, folder, file)
    if saved is not None and saved_again(program, folder, saved) != saved:
        raise Wrong(f"what is saved of {file.hex()} is not saved again as it is")
    return saved is not None


def check_files(program: Path, seeds: range, bases: list[bytes]) -> int:
    """How many of the mutated files of these seeds were loaded."""
    with tempfile.TemporaryDirectory() as folder:
        return sum(check_file(program, Path(folder), seed, bases) for seed in seeds)


def parts(first: int, count: int, size: int) -> list[range]:
    """The numbers from the first one on, so many, in parts of a size."""
    return [range(at, min(at + size, first + count)) for at in range(first, first + count, size)]


def words() -> argparse.Namespace:
    """What the words of the command line ask for."""
    parser = argparse.ArgumentParser(description="Sends mutated sessions and files to the program.")
    parser.add_argument("--seed", type=int, default=1, help="the first seed (1)")
    parser.add_argument("--lines", type=int, default=100_000, help="how many mutated lines (100000)")
    parser.add_argument("--files", type=int, default=10_000, help="how many mutated files (10000)")
    parser.add_argument("--program", type=Path, default=PROGRAM, help="the program sfstore")
    return parser.parse_args()


def main() -> int:
    asked = words()
    program = asked.program.resolve()
    sessions = parts(asked.seed, asked.lines, SESSION_LINES)
    try:
        with ThreadPoolExecutor(os.cpu_count()) as pool, tempfile.TemporaryDirectory() as folder:
            bases = base_files(program, Path(folder))
            answered = sum(pool.map(lambda part: check_session(program, part.start, len(part)), sessions))
            loaded = sum(pool.map(lambda part: check_files(program, part, bases), parts(asked.seed, asked.files, 100)))
    except Wrong as wrong:
        print(f"wrong: {wrong}")
        return 1
    print(f"{asked.lines} mutated lines, {answered} answers; {asked.files} mutated files, {loaded} of them loaded")
    return 0


if __name__ == "__main__":
    sys.exit(main())
