#!/usr/bin/env python3
"""Compares joins with a plain double loop, and measures them.

    bench/joins.py [PROGRAM [ROUNDS]]     compares: 2,000 rounds, if no number is given
    bench/joins.py --speed [PROGRAM]      measures: two layers of 100,000 squares that touch, and one with itself

In each round two layers get features of all kinds, a few or as many as have an index searched, and are joined by each
predicate and by some patterns, each layer with the other and with itself, whole and beside one feature. What belongs
in each answer is worked out here, pair by pair, from the letters that `relate` answers, by the standard's table of
predicates, and by a distance from the exact squares that `distance` answers. Every difference is printed; the status is 1 where there is one.

    rt run is needed once in crates/sfstore (it builds the program).
"""

from __future__ import annotations

import random
import resource
import subprocess
import sys
from collections.abc import Iterator
from dataclasses import dataclass
from fractions import Fraction
from pathlib import Path

from agreement import PROGRAM, feature, holds, matches

ROUNDS = 2_000
SEED = 20_261_127
PREDICATES = ("equals", "disjoint", "intersects", "touches", "within", "contains", "crosses", "overlaps")
# Distances below, at and above those of many a pair: 50 and 200 are squares of some.
DISTANCES = ("0", "1", "5", "7.071", "7.072", "9.999", "10", "14.142", "14.143", "100000")
# The sides of two fields of squares: each meets the eight round it, and of the other field nine.
SQUARES = 316

Layer = list[tuple[int, str]]
Pair = tuple[int, int]


@dataclass(frozen=True)
class Join:
    """A join of two layers by their names, and beside a feature where an identifier is given."""

    first: str
    ask: str
    second: str
    beside: int | None

    def line(self) -> str:
        """The command."""
        return f"join {self.first} {self.ask} {self.second}" + ("" if self.beside is None else f" {self.beside}")


def near(chance: random.Random) -> tuple[int, str]:
    """A small geometry with its dimension, often one that another feature has too."""
    if chance.randrange(3):
        x, y = 10 * chance.randint(0, 4), 10 * chance.randint(0, 4)
        return 2, f"POLYGON (({x} {y}, {x + 10} {y}, {x + 10} {y + 10}, {x} {y + 10}, {x} {y}))"
    return feature(chance)


def layer(chance: random.Random) -> Layer:
    """The features of a layer, each with its dimension."""
    return [near(chance) for _ in range(chance.choice((0, 1, 3, 7, 8, 12)))]


def joins(chance: random.Random, layers: dict[str, Layer]) -> Iterator[Join]:
    """What is asked of two layers."""
    asks = [*PREDICATES, *("".join(chance.choice("****TF012") for _ in range(9)) for _ in range(3))]
    asks += [f"near {distance}" for distance in chance.sample(DISTANCES, 3)]
    for ask in asks:
        first, second = chance.choice("ab"), chance.choice("ab")
        yield Join(first, ask, second, None)
        if layers[second]:
            yield Join(first, ask, second, chance.randint(1, len(layers[second])))


def rows_of(output: Iterator[str]) -> list[str]:
    """The rows of the next answer, or its only line."""
    head = next(output)
    return [next(output) for _ in range(int(head[5:]))] if head.startswith("rows ") else [head]


def answers(program: Path, lines: list[str]) -> Iterator[list[str]]:
    """The answers of a session."""
    text = "".join(line + "\n" for line in lines)
    ended = subprocess.run([program], input=text, capture_output=True, text=True, check=True)
    output = iter(ended.stdout.splitlines())
    for _ in lines:
        yield rows_of(output)


def matrices(program: Path, layers: dict[str, Layer]) -> dict[tuple[str, str, int, int], tuple[str, Fraction]]:
    """The matrix and the square of the distance of each feature of a layer with each of a layer, by the names and identifiers."""
    added = [f"layer add {name} any" for name in layers]
    added += [f"add {name} {text}" for name, features in layers.items() for _, text in features]
    pairs = [
        (first, second, i, j)
        for first in layers
        for second in layers
        for i in range(1, len(layers[first]) + 1)
        for j in range(1, len(layers[second]) + 1)
    ]
    asked = [
        f"{question} {first} {i} {layers[second][j - 1][1]}"
        for first, second, i, j in pairs
        for question in ("relate", "distance")
    ]
    found = [*answers(program, added + asked)][len(added) :]
    letters = [rows[0] for rows in found[::2]]
    squares = [Fraction(rows[0].split()[1]) for rows in found[1::2]]
    return dict(zip(pairs, zip(letters, squares, strict=True), strict=True))


def is_asked(ask: str, own: int, given: int, known: tuple[str, Fraction]) -> bool:
    """Whether a matrix and the square of a distance are as a predicate, a pattern or a distance asks."""
    matrix, square = known
    if ask.startswith("near "):
        return square <= Fraction(ask.split()[1]) ** 2
    return holds(ask, own, given, matrix) if ask in PREDICATES else matches(matrix, ask)


def expected(
    join: Join, layers: dict[str, Layer], known: dict[tuple[str, str, int, int], tuple[str, Fraction]]
) -> list[str]:
    """The rows of a join, by a plain double loop."""
    found: list[Pair] = []
    for i, (own, _) in enumerate(layers[join.first], 1):
        for j, (given, _) in enumerate(layers[join.second], 1):
            if join.first == join.second and i == j:
                continue
            if is_asked(join.ask, own, given, known[join.first, join.second, i, j]):
                found.append((i, j))
    if join.beside is None:
        return [f"{i} {j}" for i, j in found]
    return [str(i) for i, j in found if j == join.beside]


def differences(program: Path, seed: int) -> list[str]:
    """What a round answers otherwise than a double loop."""
    chance = random.Random(seed)
    layers = {"a": layer(chance), "b": layer(chance)}
    known = matrices(program, layers)
    asked = [*joins(chance, layers)]
    lines = [f"layer add {name} any" for name in layers]
    lines += [f"add {name} {text}" for name, features in layers.items() for _, text in features]
    found = [*answers(program, lines + [join.line() for join in asked])][len(lines) :]
    told = []
    for join, rows in zip(asked, found, strict=True):
        wanted = expected(join, layers, known)
        if rows != wanted:
            told.append(f"seed {seed}: {join.line()}: {rows}, not {wanted}")
    return told


def compare(program: Path, rounds: int) -> int:
    """Compares, and prints what differs. The status is 1 where something does."""
    told = [line for seed in range(SEED, SEED + rounds) for line in differences(program, seed)]
    print(*told, f"{rounds} rounds, {len(told)} differences", sep="\n")
    return int(bool(told))


def seconds_of(program: Path, lines: list[str]) -> tuple[float, int]:
    """The processor seconds that a session takes, the least of five runs, and the rows of its last answer."""
    text = "".join(line + "\n" for line in lines)
    taken = []
    for _ in range(5):
        before = resource.getrusage(resource.RUSAGE_CHILDREN)
        ended = subprocess.run([program], input=text, capture_output=True, text=True, check=True)
        after = resource.getrusage(resource.RUSAGE_CHILDREN)
        taken.append(after.ru_utime + after.ru_stime - before.ru_utime - before.ru_stime)
    heads = [line for line in ended.stdout.splitlines() if line.startswith("rows ")]
    return min(taken), int(heads[-1][5:]) if heads else 0


def squares(name: str, shift: int) -> list[str]:
    """A layer of squares side by side."""
    lines = [f"layer add {name} polygon"]
    for k in range(SQUARES * SQUARES):
        x, y = 20 * (k % SQUARES) + shift, 20 * (k // SQUARES) + shift
        lines.append(f"add {name} POLYGON (({x} {y}, {x + 20} {y}, {x + 20} {y + 20}, {x} {y + 20}, {x} {y}))")
    return lines


def measure(program: Path) -> int:
    """Prints how long joins take beyond what adding the features does."""
    base = squares("a", 0) + squares("b", 10)
    added, _ = seconds_of(program, base)
    print(f"two layers of {SQUARES * SQUARES:,} squares: added in {added:.2f} s")
    for line in ("join a touches a", "join a intersects b", "join a within b", "join a T******** a"):
        seconds, rows = seconds_of(program, [*base, line])
        # Each square has nine boxes of its own layer that meet its own, itself among them, and four of the other.
        pairs = SQUARES * SQUARES * (9 if line.split()[1] == line.split()[3] else 4)
        taken = seconds - added
        print(f"{line}: {rows:,} rows, {taken:.2f} s, {1e6 * taken / pairs:.2f} microseconds for each pair of boxes")
    return 0


def main(words: list[str]) -> int:
    """Compares, or measures."""
    measures = "--speed" in words
    rest = [word for word in words if word != "--speed"]
    program = Path(rest[0]).resolve() if rest else PROGRAM
    if measures:
        return measure(program)
    return compare(program, int(rest[1]) if len(rest) > 1 else ROUNDS)


if __name__ == "__main__":
    sys.exit(main(sys.argv[1:]))
