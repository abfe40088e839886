#!/usr/bin/env python3
"""Measures questions of distance beside GEOS, Boost and PostGIS, on the same maps in one run.

    bench/near.py [PROGRAM] [--without-postgis]     takes the program of the checkout, if none is named

The peers GEOS and Boost are called by bench/near.cpp, which is compiled first: `apt-get install g++ libgeos-dev libboost-dev`.
PostGIS runs in a server of its own, which takes `postgresql-postgis` and `python3-psycopg2`.

- `nearest` asks for the ten nearest of 1,000,000 points, at places anywhere on the map.
- `near` asks which of 100,000 lines of 16 points have a point within a distance of a place.
- `distance` asks how far a coastline of 4,000 points is from another one, of 20 beside it.
- `join near` asks which of 40,000 squares are within a distance of which others. It is one question.

Each figure is of one question: of the program and of GEOS and Boost the time of the processor, of PostGIS that of the clock.
For the program it has the line that is read and the answer that is written; a run without the questions is taken off.
"""

from __future__ import annotations

import argparse
import contextlib
import os
import random
import subprocess
import sys
import tempfile
import time
from collections.abc import Iterator, Sequence
from math import cos, pi, sin
from pathlib import Path

from agreement import PROGRAM
from rules import one_run, seconds

TOP = Path(__file__).resolve().parent.parent
sys.path.insert(0, str(TOP / "python"))

Shape = list[tuple[int, int]]

SIDE = 1 << 23
POINTS = 1_000_000
LINES = 100_000
QUESTIONS = 100_000
COASTS = 20
COAST = 4_000
WITHIN = 40_000
# Squares in a field of so many rows, each moved by chance in its own place of so many steps.
ROWS = 200
PLACE, SQUARE = 1_000, 500
APART = 600
# A random number of its own for each map.
SEED = 7


def places(count: int, seed: int) -> list[Shape]:
    """Points anywhere on the map."""
    chance = random.Random(seed)
    return [[(chance.randrange(SIDE), chance.randrange(SIDE))] for _ in range(count)]


def lines(count: int) -> list[Shape]:
    """Lines of 16 points, each a walk of some 4,000 steps."""
    chance = random.Random(SEED)
    return [_walk(chance) for _ in range(count)]


def _walk(chance: random.Random) -> Shape:
    x, y = chance.randrange(SIDE), chance.randrange(SIDE)
    walk = [(x, y)]
    for _ in range(15):
        x, y = x + chance.randrange(1, 500), y + chance.randrange(-500, 500)
        walk.append((x, y))
    return walk


def coasts() -> list[Shape]:
    """A coastline round the middle of the map, and others that lie round it farther and farther out."""
    chance = random.Random(SEED)
    return [_coast(chance, 100_000 * (place + 2)) for place in range(COASTS + 1)]


def _coast(chance: random.Random, radius: int) -> Shape:
    turns = [2 * pi * step / COAST for step in range(COAST)]
    radii = [radius + chance.randrange(20_000) for _ in turns]
    return [(round(SIDE / 2 + r * cos(turn)), round(SIDE / 2 + r * sin(turn))) for turn, r in zip(turns, radii)]


def squares() -> list[Shape]:
    """Squares that don't touch, each with some others near it."""
    chance = random.Random(SEED)
    corners = [(PLACE * k + chance.randrange(PLACE - SQUARE), PLACE * row + chance.randrange(PLACE - SQUARE)) for row in range(ROWS) for k in range(ROWS)]
    return [[(x, y), (x + SQUARE, y), (x + SQUARE, y + SQUARE), (x, y + SQUARE), (x, y)] for x, y in corners]


def wkt(shape: Shape) -> str:
    """A shape as the program and PostGIS read it: an area where it ends as it begins."""
    text = ", ".join(f"{x} {y}" for x, y in shape)
    if len(shape) == 1:
        return f"POINT ({text})"
    return f"POLYGON (({text}))" if shape[0] == shape[-1] else f"LINESTRING ({text})"


def row(question: str, own: float, peers: dict[str, float]) -> None:
    """Prints what a question takes, in microseconds."""
    others = ", ".join(f"{name} {took:.1f} µs" for name, took in peers.items())
    print(f"{question}: {own:.1f} µs; {others}", flush=True)


class Own:
    """The program over a map of one layer, which it loads from a file."""

    def __init__(self, program: str, folder: Path, kind: str, shapes: Sequence[Shape]) -> None:
        self._program = program
        self._words = ["--load", str(folder / kind)]
        one_run(program, ["--save", str(folder / kind)], [f"layer add map {kind}", *(f"add map {wkt(shape)}" for shape in shapes)])
        self._loaded = seconds(program, self._words, [])

    def microseconds(self, asked: Sequence[str]) -> float:
        """What one of some questions takes."""
        return (seconds(self._program, self._words, [*asked, "layer rename map asked"]) - self._loaded) / len(asked) * 1e6

    def rows(self, asked: str) -> int:
        """How many rows a question has for an answer."""
        said = subprocess.run([self._program, *self._words], input=f"{asked}\n", check=True, capture_output=True, text=True).stdout
        return int(said.split(maxsplit=2)[1])


class Called:
    """GEOS and Boost, by the program that calls them."""

    def __init__(self, folder: Path) -> None:
        self._folder = folder
        self._program = str(folder / "near")
        source = str(TOP / "bench" / "near.cpp")
        subprocess.run(["g++", "-O2", "-std=c++17", "-DBOOST_ALLOW_DEPRECATED_HEADERS", "-o", self._program, source, "-lgeos_c"], check=True)

    def microseconds(self, verb: str, maps: Sequence[Sequence[Shape]], *words: str) -> tuple[float, float]:
        """What one question takes, and what the answers come to."""
        files = [self._written(number, shapes) for number, shapes in enumerate(maps)]
        said = subprocess.run([self._program, verb, *files, *words], check=True, capture_output=True, text=True).stdout
        took, came = said.split()
        return int(took) / 1000, float(came)

    def _written(self, number: int, shapes: Sequence[Shape]) -> str:
        path = self._folder / str(number)
        path.write_text("".join(" ".join(f"{x} {y}" for x, y in shape) + "\n" for shape in shapes), encoding="ascii")
        return str(path)


class PostGis:
    """A database of its own, with a table for each map."""

    def __init__(self, dsn: str) -> None:
        import psycopg2

        self._link = psycopg2.connect(dsn)
        self._link.autocommit = True
        self._rows = self._link.cursor()
        self._rows.execute("CREATE EXTENSION IF NOT EXISTS postgis")

    def put(self, table: str, shapes: Sequence[Shape]) -> None:
        """Makes a table of shapes with its index."""
        from io import StringIO

        self._rows.execute(f"CREATE TABLE {table} (id integer, shape geometry)")
        text = "".join(f"{number}\t{wkt(shape)}\n" for number, shape in enumerate(shapes, 1))
        self._rows.copy_expert(f"COPY {table} FROM STDIN", StringIO(text))
        self._rows.execute(f"CREATE INDEX ON {table} USING gist (shape)")
        self._rows.execute(f"VACUUM ANALYZE {table}")

    def microseconds(self, question: str, count: int) -> float:
        """What one of so many questions takes, which a statement asks."""
        best = float("inf")
        for _ in range(3):
            start = time.perf_counter()
            self._rows.execute(question)
            self._rows.fetchall()
            best = min(best, time.perf_counter() - start)
        return best / count * 1e6


@contextlib.contextmanager
def postgis(wanted: bool) -> Iterator[PostGis | None]:
    """A server with PostGIS, where it is wanted."""
    if not wanted:
        yield None
        return
    from sfstore.replica.servers import Pair

    pair = Pair(["fsync=off"])
    try:
        yield PostGis(pair.primary.dsn(database="postgres"))
    finally:
        pair.close()


def nearest(program: str, folder: Path, called: Called, database: PostGis | None) -> None:
    """The ten nearest of a million points."""
    points, asked = places(POINTS, SEED), places(QUESTIONS, SEED + 1)
    own = Own(program, folder, "point", points).microseconds([f"nearest map 10 {wkt(place)}" for place in asked])
    peers = {"Boost": called.microseconds("nearest", [points, asked], "10")[0]}
    if database:
        database.put("points", points)
        database.put("places", asked)
        question = "SELECT count(*) FROM places p CROSS JOIN LATERAL (SELECT id FROM points ORDER BY shape <-> p.shape LIMIT 10) n"
        peers["PostGIS"] = database.microseconds(question, QUESTIONS)
    row(f"the 10 nearest of {POINTS:,} points", own, peers)


def near(program: str, folder: Path, called: Called, database: PostGis | None) -> None:
    """Lines within a distance."""
    shapes, asked = lines(LINES), places(QUESTIONS, SEED + 2)
    own = Own(program, folder, "linestring", shapes).microseconds([f"query map near {WITHIN} {wkt(place)}" for place in asked])
    took, came = called.microseconds("within", [shapes, asked], str(WITHIN))
    peers = {"GEOS": took}
    if database:
        database.put("lines", shapes)
        database.put("spots", asked)
        question = f"SELECT count(*) FROM spots p JOIN lines l ON ST_DWithin(l.shape, p.shape, {WITHIN})"  # nosec B608
        peers["PostGIS"] = database.microseconds(question, QUESTIONS)
    row(f"lines near a place, {came / QUESTIONS:.0f} of {LINES:,}", own, peers)


def distance(program: str, folder: Path, called: Called, database: PostGis | None) -> None:
    """Two coastlines."""
    shapes = coasts()
    own = Own(program, folder, "linestring", shapes[:1]).microseconds([f"distance map 1 {wkt(shape)}" for shape in shapes[1:]])
    peers = {"GEOS": called.microseconds("distance", [shapes])[0]}
    if database:
        database.put("coasts", shapes)
        peers["PostGIS"] = database.microseconds("SELECT sum(ST_Distance(a.shape, b.shape)) FROM coasts a, coasts b WHERE a.id = 1 AND b.id > 1", COASTS)
    row(f"the distance of coastlines of {COAST:,} points", own, peers)


def join_near(program: str, folder: Path, called: Called, database: PostGis | None) -> None:
    """Squares near one another, of which each pair is an answer both ways."""
    shapes, question = squares(), f"join map near {APART} map"
    own = Own(program, folder, "polygon", shapes)
    pairs = own.rows(question)
    took, came = called.microseconds("pairs", [shapes], str(APART))
    if came != pairs:
        raise RuntimeError(f"{pairs} pairs, and {came:.0f} by GEOS")
    peers = {"GEOS": took}
    if database:
        database.put("squares", shapes)
        question_of_peer = f"SELECT count(*) FROM squares a JOIN squares b ON ST_DWithin(a.shape, b.shape, {APART}) AND a.id <> b.id"  # nosec B608
        peers["PostGIS"] = database.microseconds(question_of_peer, 1)
    row(f"{pairs:,} pairs of {len(shapes):,} squares within {APART}", own.microseconds([question]), peers)


def main() -> None:
    parser = argparse.ArgumentParser(description="Measures questions of distance beside others.")
    parser.add_argument("program", nargs="?", default=str(PROGRAM))
    parser.add_argument("--without-postgis", action="store_true")
    asked = parser.parse_args()
    program = os.path.abspath(asked.program)
    with tempfile.TemporaryDirectory() as folder, postgis(not asked.without_postgis) as database:
        called = Called(Path(folder))
        nearest(program, Path(folder), called, database)
        near(program, Path(folder), called, database)
        distance(program, Path(folder), called, database)
        join_near(program, Path(folder), called, database)


if __name__ == "__main__":
    main()
