#!/usr/bin/env python3
"""Compares what questions answer with the whole matrices, one by one, on random features.

    bench/agreement.py [PROGRAM [ROUNDS]]

In each round a layer gets forty features of all kinds and is asked, by every predicate and by some patterns, about one
large geometry with holes or turns. Which identifiers belong in each answer is worked out here from the letters that
`relate` answers for each feature, by the standard's table of predicates. Every difference is printed; the status is 1
where there is one.

    rt run is needed once in crates/sfstore (it builds the program).
"""

from __future__ import annotations

import math
import random
import subprocess
import sys
from collections.abc import Iterator
from pathlib import Path

sys.path.insert(0, str(Path(__file__).resolve().parent.parent / "tools"))

from programs import path_of  # noqa: E402

PROGRAM = path_of("sfstore")
ROUNDS = 2_500
FEATURES = 40
SEED = 20_261_125

Point = tuple[int, int]

# Of each predicate the patterns of which one is met, by the dimensions of the feature and the given geometry.
_ALWAYS = {
    "equals": ["T*F**FFF*"],
    "disjoint": ["FF*FF****"],
    "touches": ["FT*******", "F**T*****", "F***T****"],
    "within": ["T*F**F***"],
    "contains": ["T*****FF*"],
}


def patterns_of(predicate: str, own: int, given: int) -> list[str]:
    """The patterns of a predicate for two dimensions; none where it never holds."""
    if predicate == "crosses":
        if own == given:
            return ["0********"] if own == 1 else []
        return ["T*T******"] if own < given else ["T*****T**"]
    if predicate == "overlaps":
        return {0: ["T*T***T**"], 1: ["1*T***T**"], 2: ["T*T***T**"]}[own] if own == given else []
    return _ALWAYS[predicate]


def matches(matrix: str, pattern: str) -> bool:
    """Whether the letters of a matrix are as a pattern asks."""
    return all(p == "*" or (p == "T" and m != "F") or p == m for m, p in zip(matrix, pattern, strict=True))


def holds(predicate: str, own: int, given: int, matrix: str) -> bool:
    """Whether a predicate holds of a matrix."""
    if predicate == "intersects":
        return not matches(matrix, _ALWAYS["disjoint"][0])
    return any(matches(matrix, pattern) for pattern in patterns_of(predicate, own, given))


def listed(points: list[Point]) -> str:
    return "(" + ", ".join(f"{x} {y}" for x, y in points) + ")"


def box(x: int, y: int, width: int, height: int) -> list[Point]:
    return [(x, y), (x + width, y), (x + width, y + height), (x, y + height), (x, y)]


def feature(chance: random.Random) -> tuple[int, str]:
    """A small geometry of any kind, with its dimension."""
    x, y = chance.randint(-60, 160), chance.randint(-60, 160)
    w, h = chance.randint(1, 25), chance.randint(1, 25)
    match chance.randrange(6):
        case 0:
            return 0, f"POINT ({x} {y})"
        case 1:
            return 0, f"MULTIPOINT (({x} {y}), ({x + w} {y + h}))"
        case 2:
            return 1, "LINESTRING " + listed([(x, y), (x + w, y + h), (x + 2 * w, y)])
        case 3:
            return 1, f"MULTILINESTRING ({listed([(x, y), (x + w, y)])}, {listed([(x, y), (x, y + h)])})"
        case 4:
            return 2, f"POLYGON ({listed(box(x, y, w, h))})"
        case _:
            return 2, f"MULTIPOLYGON (({listed(box(x, y, w, h))}), ({listed(box(x + w + 1, y, w, h))}))"


def ring(chance: random.Random, count: int) -> list[Point]:
    """A ring of so many corners round a place, in turn far from it and near."""
    far, near = chance.randint(70, 110), chance.randint(50, 70)
    angles = [2 * math.pi * k / count for k in range(count)]
    corners = [
        (round(50 + (far if k % 2 else near) * math.cos(a)), round(50 + (far if k % 2 else near) * math.sin(a)))
        for k, a in enumerate(angles)
    ]
    return [*corners, corners[0]]


def given_geometry(chance: random.Random) -> tuple[int, str]:
    """A large geometry: a polygon with holes, two polygons, or a line that winds."""
    shell = ring(chance, 2 * chance.randint(9, 25))
    holes = [box(30, 30, 12, 12), box(50, 48, 9, 15)]
    rings = ", ".join(map(listed, [shell, *holes[: chance.randint(0, 2)]]))
    match chance.randrange(3):
        case 0:
            return 2, f"POLYGON ({rings})"
        case 1:
            return 2, f"MULTIPOLYGON (({rings}), ({listed(box(170, 0, 20, 20))}))"
        case _:
            return 1, "LINESTRING " + listed(shell[: chance.randint(18, len(shell))])


def questions(chance: random.Random) -> Iterator[tuple[str, str]]:
    """What is asked, as a word of the console and its argument."""
    for predicate in ("equals", "disjoint", "intersects", "touches", "within", "contains", "crosses", "overlaps"):
        yield "query", predicate
    for _ in range(4):
        yield "match", "".join(chance.choice("***TF012") for _ in range(9))


def round_of(chance: random.Random) -> tuple[list[str], list[int], int, list[tuple[str, str]]]:
    """The lines of a round, the dimensions in it, and what it asks."""
    features = [feature(chance) for _ in range(FEATURES)]
    dimension, given = given_geometry(chance)
    asked = list(questions(chance))
    lines = ["layer add a any", *(f"add a {text}" for _, text in features)]
    lines += [f"relate a {k + 1} {given}" for k in range(FEATURES)]
    lines += [f"{verb} a {argument} {given}" for verb, argument in asked]
    lines += ["layer drop a"]
    return lines, [own for own, _ in features], dimension, asked


def differences(program: Path, chance: random.Random) -> Iterator[str]:
    """What a round answered otherwise than its matrices say."""
    lines, own, given, asked = round_of(chance)
    output = subprocess.run([program], input="\n".join(lines) + "\n", check=True, capture_output=True, text=True).stdout
    answers = iter(output.splitlines())
    head = [next(answers) for _ in range(FEATURES + 1)]
    matrices = [next(answers) for _ in range(FEATURES)]
    if any(answer.startswith("refused") for answer in [*head, *matrices]):
        return
    for verb, argument in asked:
        count = int(next(answers).removeprefix("rows "))
        found = [int(next(answers)) for _ in range(count)]
        wanted = [
            k + 1
            for k, matrix in enumerate(matrices)
            if (matches(matrix, argument) if verb == "match" else holds(argument, own[k], given, matrix))
        ]
        if found != wanted:
            yield f"{verb} {argument}: {found}, and by the matrices {wanted}\n" + "\n".join(lines)


def main() -> None:
    program = Path(sys.argv[1]) if len(sys.argv) > 1 else PROGRAM
    rounds = int(sys.argv[2]) if len(sys.argv) > 2 else ROUNDS
    chance = random.Random(SEED)
    bad = 0
    for _ in range(rounds):
        for difference in differences(program, chance):
            bad += 1
            print(difference)
    print(f"{rounds * FEATURES} pairs, {bad} differences")
    sys.exit(bad != 0)


if __name__ == "__main__":
    main()
