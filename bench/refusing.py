#!/usr/bin/env python3
"""Refuses each growth of memory within one line, and looks at what only the library tells then.

The program `sf_refusing` answers the lines of the console, and besides whether a layer has an index, what is in it,
how many features a query looks at and how many steps are in past and future. Growths are counted between its answers
`scarce` and `ample` alone, from 1 until a run meets no refusal; in a second turn all behind the refused one, up to
`ample`, are refused too. So what is asked before and behind finds memory, and the line itself may find none.

    bench/refusing.py

The program is made first, of the crate of tests/crates, where it isn't there yet. tests/program/test_refusing.py has what has to hold.
"""

from __future__ import annotations

import itertools
import re
import sys
import tempfile
from collections.abc import Iterator
from dataclasses import dataclass
from functools import lru_cache
from pathlib import Path

from growths import REFUSED, REFUSING, Call, Ended, answers, library, met_run, sent

sys.path.insert(0, str(Path(__file__).resolve().parent.parent / "tools"))

import tried as made_for_tests  # noqa: E402


@lru_cache(maxsize=1)
def program() -> Path:
    """The program, made first where it isn't there yet."""
    return made_for_tests.program("sf_refusing")


MARKED = (
    REFUSING
    + r"""
#include <string.h>

static int is(const char *bytes, size_t count, const char *mark) {
    return count == strlen(mark) && memcmp(bytes, mark, count) == 0;
}

/* Growths are counted behind the one mark, anew each time, and no more behind the other. */
ssize_t write(int file, const void *bytes, size_t count) {
    if (is(bytes, count, "scarce\n")) left = number("WITHIN");
    if (is(bytes, count, "ample\n")) left = 0;
    return syscall(SYS_write, file, bytes, count);
}

ssize_t __write(int file, const void *bytes, size_t count) { return write(file, bytes, count); }
"""
)

COUNT = 30

# A layer of points, a line far from them that is number 31, values, and another layer.
LAYERS = ("layer add v point", "layer add w any", "column add w depth int")
POINTS = tuple(f"add w POINT ({place % 6} {place // 6})" for place in range(COUNT))
LAYER = (*LAYERS, *POINTS, "add w LINESTRING (50 50, 60 50, 60 60)", "set w 1 depth 12", "set w 3 depth -7")

# Where a query looks: points lie within it or are not near it, and the line is far.
LEAST, GREATEST = 0, 3
SQUARE = f"POLYGON (({LEAST} {LEAST}, {GREATEST} {LEAST}, {GREATEST} {GREATEST}, {LEAST} {GREATEST}, {LEAST} {LEAST}))"
NEAR = f"looked query w intersects {SQUARE}"
APART = "looked query w disjoint POINT (2 2)"
ROWS = "show w"
DEPTHS = "depths"
COLUMNS = "columns w"
INDEXED = "indexed w"
BOXES = "boxes w"
LOOKS = [INDEXED, BOXES, DEPTHS, COLUMNS, ROWS, NEAR, APART]
INDEX_LOOKS = (INDEXED, BOXES)


def near_and_apart(rows: list[str]) -> tuple[str, str]:
    """What the two queries have to be answered, by the rows of the layer."""
    places = {}
    for row in rows[1:]:
        number, _, rest = row.partition(" ")
        places[number] = [(int(x), int(y)) for x, y in re.findall(r"(-?[0-9]+) (-?[0-9]+)", rest)]
    near = [number for number, points in places.items() if all(LEAST <= min(at) and max(at) <= GREATEST for at in points)]
    apart = [number for number, points in places.items() if points != [(2, 2)]]
    return " ".join([f"{len(near)} of", *near]), " ".join([f"{len(places)} of", *apart])


@dataclass(frozen=True)
class Look:
    """What is told of the layer at one time."""

    told: dict[str, list[str]]

    def has_index(self) -> bool:
        """Whether the layer has an index; refuses one without just the boxes of the features."""
        has = self.told[INDEXED] == ["true"]
        if not has and self.told[INDEXED] != ["false"] or self.told[BOXES] != self.told[INDEXED]:
            raise AssertionError(f"indexed {self.told[INDEXED]}, boxes {self.told[BOXES]}")
        return has

    def check_queries(self) -> None:
        """Refuses answers of the queries that are not those of the rows."""
        given = (*self.told[NEAR], *self.told[APART])
        wanted = near_and_apart(self.told[ROWS])
        if given != wanted:
            raise AssertionError(f"{given} in the place of {wanted}")


@dataclass(frozen=True)
class Told:
    """The answers of a run: to the line for which memory is scarce, to those behind it, and looks between."""

    answer: list[str]
    behind: list[list[str]]
    looks: list[Look]

    def content(self) -> list[object]:
        """All but the answer to the line, and what only the index makes."""
        rest = [{line: answer for line, answer in look.told.items() if line not in INDEX_LOOKS} for look in self.looks]
        return [self.behind, rest]


@dataclass(frozen=True)
class Trial:
    """A line for which memory is scarce: behind it some that leave the layer's index as it is, and one that builds it where it was lost."""

    before: tuple[str, ...]
    line: str
    neutral: tuple[str, ...]
    follower: str

    def lines(self, line: str) -> list[str]:
        """The lines of a run, with a line in the place of that for which memory is scarce."""
        behind = [told for after in self.neutral for told in (after, *LOOKS)]
        return [*self.before, *LOOKS, "scarce", line, "ample", *LOOKS, *behind, self.follower, *self.last_looks()]

    def last_looks(self) -> list[str]:
        """The looks behind the last line, at the layer by the name that it has then."""
        name = RENAMED if self.follower == RENAMING else "w"
        return [re.sub(r"\bw\b", name, asked) for asked in LOOKS]

    def told(self, ended: Ended) -> Told:
        """What a run was told."""
        if (ended.status, ended.told) != (0, b""):
            raise AssertionError(f"status {ended.status}: {ended.told!r}")
        given = answers(ended.output)
        if len(given) != len(self.lines(self.line)):
            raise AssertionError(f"{len(given)} answers to {len(self.lines(self.line))} lines")
        each = iter(given[len(self.before) :])
        looks = [look(each)]
        marks = [next(each), next(each), next(each)]
        if (marks[0], marks[2]) != (["scarce"], ["ample"]):
            raise AssertionError(f"marks {marks}")
        looks.append(look(each))
        behind = []
        for _ in (*self.neutral, self.follower):
            behind.append(next(each))
            looks.append(look(each))
        return Told(marks[1], behind, looks)

    def ample(self, line: str) -> Told:
        """What is told where all growths are granted."""
        return self.told(Call(program()).run(sent(self.lines(line)), {}))


def look(each: Iterator[list[str]]) -> Look:
    """The next answers, as those of the looks."""
    return Look({line: next(each) for line in LOOKS})


def is_accepted(answer: list[str]) -> bool:
    """Whether an edit, an undo or a redo was accepted."""
    return not answer[0].startswith("refused ")


@dataclass(frozen=True)
class Wanted:
    """What a trial is told where memory is ample: with the line, and with one in its place that changes nothing."""

    trial: Trial
    carried_out: Told
    left_out: Told

    @staticmethod
    def of(trial: Trial) -> Wanted:
        """The two runs of a trial."""
        wanted = Wanted(trial, trial.ample(trial.line), trial.ample(DEPTHS))
        given = [wanted.carried_out.answer, wanted.carried_out.behind[-1]]
        if not all(is_accepted(answer) for answer in given):
            raise AssertionError(f"{trial.line}, then {trial.follower}: {given}, though memory is ample")
        return wanted

    def check(self, told: Told, has_rest: bool) -> str:
        """Refuses what a run with growths refused must not be told. How it ended: "refused", "lost" or "kept"."""
        has = [look.has_index() for look in told.looks]
        for at in told.looks:
            at.check_queries()
        is_refused = told.answer == REFUSED
        wanted = self.left_out if is_refused else self.carried_out
        if told.content() != wanted.content() or not is_refused and told.answer != wanted.answer:
            raise AssertionError(f"told otherwise than {'without' if is_refused else 'with'} the line")
        if not has[0]:
            raise AssertionError("no index to begin with")
        if is_refused and told.looks[1] != told.looks[0]:
            raise AssertionError("a line that was refused has changed something")
        # A growth that is refused alone loses the index, and the line itself builds it anew.
        if not has[1] and not has_rest:
            raise AssertionError("the index is gone, though memory was there again")
        if any(now != has[1] for now in has[2:-1]):
            raise AssertionError("the index came or went behind a line that leaves it alone")
        if not has[-1] and (is_accepted(told.behind[-1]) or has[1]):
            raise AssertionError("the index was not built anew")
        return "refused" if is_refused else "kept" if has[1] else "lost"


def tried(path: Path, trial: Trial, has_rest: bool) -> list[str]:
    """How each run of a trial with growths refused ended; refuses what none may do."""
    wanted = Wanted.of(trial)
    found = []
    for number, ended in scarce_runs(path, trial.lines(trial.line), has_rest):
        try:
            found.append(wanted.check(trial.told(ended), has_rest))
        except AssertionError as error:
            where = f"{trial.line}, then {trial.follower}: growth {number}, all behind it {has_rest}"
            raise AssertionError(f"{where}: {error}") from error
    return found


def scarce_runs(path: Path, lines: list[str], has_rest: bool) -> Iterator[tuple[int, Ended]]:
    """The runs of lines in which a growth within the marks, or with all behind it, is refused: until none is met."""
    others = {"REST": "1"} if has_rest else {}
    # Within one line there are few, so no run is begun that may not be needed.
    for number in itertools.count(1):
        ended = met_run(path, Call(program()), sent(lines), {"WITHIN": str(number), **others})
        if ended is None:
            return
        yield number, ended


# Edits that move the boxes of the layer, and such as only name it.
MOVING = [
    "add w POINT (2 3)",
    "addhex w 010100000000000000000008400000000000001040",
    "delete w 8",
    "replace w 8 POINT (9 9)",
    "vertex move w 8 0 0 0 9 9",
    "vertex insert w 31 0 0 3 70 70",
    "vertex remove w 31 0 0 2",
]
RENAMED = "u"
RENAMING = f"layer rename w {RENAMED}"
NAMING = ["column add w label text", "column drop w depth", "layer move w 0", RENAMING]

# None is an accepted edit that names the layer, but for those of values, which look for no lost index.
LEAVING = ("show w", "delete w 99", "add v POINT (1 1)", "set w 2 depth 9", "unset w 1 depth")


def trials_of(before: tuple[str, ...], edit: str, neutral: tuple[str, ...], follower: str | None = None) -> list[Trial]:
    """An edit, its undo and its redo, each with a follower: where none is given, what takes it back or does it again."""
    undone, again = (*before, edit), (*before, edit, "undo")
    return [
        Trial(before, edit, neutral, follower or "undo"),
        Trial(undone, "undo", neutral, follower or "redo"),
        Trial(again, "redo", neutral, follower or "undo"),
    ]


def moving_trials() -> list[Trial]:
    """Each edit that moves boxes, done, undone and done again."""
    found = []
    for edit in MOVING:
        found += [*trials_of(LAYER, edit, ()), *trials_of(LAYER, edit, LEAVING, "add w POINT (7 7)")]
    return found


def naming_trials() -> list[Trial]:
    """An addition, and behind it each edit that names the layer."""
    return [Trial(LAYER, MOVING[0], LEAVING, edit) for edit in (*MOVING[1:], *NAMING)]


def growing_trials() -> list[Trial]:
    """Each point of a layer added, undone and done again: nodes of the index split and are joined again."""
    found = []
    for count in range(COUNT):
        found += trials_of((*LAYERS, *POINTS[:count]), POINTS[count], ())
    return found


def shrinking_trials() -> list[Trial]:
    """Each point of a layer deleted, undone and done again."""
    found = []
    deletions = tuple(f"delete w {number}" for number in range(1, COUNT + 1))
    for count in range(COUNT):
        found += trials_of((*LAYERS, *POINTS, *deletions[:count]), deletions[count], ())
    return found


def dropping_trials() -> list[Trial]:
    """A column with a value of each point dropped, taken back and dropped again."""
    values = tuple(f"set w {number} depth {-number}" for number in range(1, COUNT + 1))
    return trials_of((*LAYER, *values), "column drop w depth", ("show w",), "undo")


def removal_ends(path: Path, numbers: tuple[int, ...], has_rest: bool) -> list[str]:
    """How each removal of the last of these from a tree without the others ended; refuses what none may do."""
    lines = [*LAYERS, *POINTS, " ".join(["removal w", *map(str, numbers)]), *INDEX_LOOKS]
    ids = " ".join(str(number) for number in range(1, COUNT + 1) if number not in numbers)
    left, anew = f"left {ids}".rstrip(), f"anew {ids}".rstrip()
    found = []
    for growth, ended in scarce_runs(path, lines, has_rest):
        given = answers(ended.output)[len(LAYERS) + COUNT :]
        told = given[2] if len(given) == 5 else []
        if ended.status != 0 or given != [["scarce"], ["ample"], told, ["true"], ["true"]] or told[2:] != [anew]:
            raise AssertionError(f"removal of {numbers}, growth {growth}, all behind it {has_rest}: {given}")
        if told[1] not in (left, "gone"):
            raise AssertionError(f"removal of {numbers}, growth {growth}, all behind it {has_rest}: {told[1]}")
        found.append("gone" if told[1] == "gone" else "whole")
    return found


def removals() -> list[tuple[int, ...]]:
    """Removals one after another, in rising order and in one that goes to and fro."""
    orders = [range(1, COUNT + 1), [1 + 7 * step % COUNT for step in range(COUNT)]]
    return [tuple(order[:count]) for order in orders for count in range(1, COUNT + 1)]


def summary(path: Path, trials: list[Trial], has_rest: bool) -> str:
    """What the runs of trials were like."""
    ends = [end for trial in trials for end in tried(path, trial, has_rest)]
    what = "with all behind it" if has_rest else "alone"
    parts = ", ".join(f"{ends.count(end)} {end}" for end in ("refused", "lost", "kept"))
    return f"{len(ends)} growths refused {what} in {len(trials)} trials: {parts}"


def main() -> None:
    """Refuses each growth of each trial."""
    with tempfile.TemporaryDirectory() as folder:
        path = library(Path(folder), MARKED)
        for has_rest in (False, True):
            print(summary(path, [*moving_trials(), *naming_trials()], has_rest))
            print(summary(path, [*growing_trials(), *shrinking_trials()], has_rest))
            ends = [end for numbers in removals() for end in removal_ends(path, numbers, has_rest)]
            print(f"{len(ends)} growths of removals from trees of {COUNT} boxes: {ends.count('gone')} trees gone")


if __name__ == "__main__":
    main()
