#!/usr/bin/env python3
"""Splits and merges parcels and moves their corners at random, in a coverage without gaps, under rules.

    bench/parcels.py [--side N] [--steps N] [PROGRAM]     2,025 parcels and 10,000 steps without these: two minutes

Two rules stand: no two parcels overlap, and each building is in some parcel. Behind all steps the parcels have no gap and no
overlap, each step is undone by one `undo`, and the first parcels are there again. What the program refused is counted, with its
place.
"""

from __future__ import annotations

import argparse
import os
import random
import sys
import time
from collections import Counter
from pathlib import Path

TOP = Path(__file__).resolve().parent.parent
sys.path[:0] = [str(TOP / "tools"), str(TOP / "python" / "tests"), str(TOP / "python")]

from programs import path_of  # noqa: E402

WIDE = 2_000
# A feature is not merged further once its text has so many letters.
LETTERS_MAX = 4_000
# How many steps a corner is moved at most, along each axis.
MOVED = 20


class Trial:
    """A coverage, and what was tried with it."""

    def __init__(self, side: int) -> None:
        import parcels_model

        self.model = parcels_model
        self.chance = random.Random(90)
        self.store = parcels_model.opened()
        parcels_model.make(self.store, side, self.chance, WIDE)
        self.first = self.store.show("parcels")
        self.parcels = [feature.id for feature in self.first]
        self.tried: Counter[str] = Counter()
        self.store.add_layer("buildings", "point")
        for parcel in self.parcels:
            left, bottom, right, top = self.store.box("parcels", parcel)
            self.store.add("buildings", f"POINT ({(left + right) // 2} {(bottom + top) // 2})")
        self.store.run("rule add placed each buildings intersects some parcels")
        [self.before] = parcels_model.outline(feature.wkt for feature in self.first)

    @property
    def steps(self) -> int:
        """How many steps there are to undo."""
        return self.tried["split"] + self.tried["merged"] + self.tried["moved"]

    def step(self) -> None:
        """Splits or merges a parcel, or moves a corner of it, if that can be done."""
        from sfstore import Refused

        parcel = self.chance.choice(self.parcels)
        try:
            what = self.chance.random()
            if what < 0.4:
                self.split(parcel)
            elif what < 0.75:
                self.merge(parcel)
            else:
                self.move(parcel)
        except Refused as refused:
            self.tried["refused"] += 1
            print(f"parcels {parcel}: {refused}"[:200])

    def split(self, parcel: int) -> None:
        """Parts a parcel by a line across it, from below or from the left."""
        from sfstore.tools import split

        left, bottom, right, top = self.store.box("parcels", parcel)
        a, b = (self.chance.randint(left - 50, right + 50) for _ in range(2))
        c, d = (self.chance.randint(bottom - 50, top + 50) for _ in range(2))
        upwards = f"LINESTRING ({a} {bottom - 50}, {b} {top + 50})"
        line = upwards if self.chance.random() < 0.5 else f"LINESTRING ({left - 50} {c}, {right + 50} {d})"
        try:
            self.parcels += split(self.store, "parcels", parcel, line)[1:]
            self.tried["split"] += 1
        except ValueError:
            self.tried["not parted"] += 1

    def merge(self, parcel: int) -> None:
        """Makes one of a parcel and a neighbour with which it shares a piece of border."""
        from sfstore.tools import merge

        [feature] = self.store.get("parcels", parcel)
        others = [other for other in self.store.match("parcels", "F***1****", feature.wkt) if other != parcel]
        if others and len(feature.wkt) <= LETTERS_MAX:
            other = self.chance.choice(others)
            merge(self.store, "parcels", parcel, other)
            self.parcels.remove(other)
            self.tried["merged"] += 1

    def move(self, parcel: int) -> None:
        """Moves a corner of a parcel a little, in all that have it; those of the outer border stay."""
        from sfstore.geometry import read_wkt
        from sfstore.tools import move_node

        [feature] = self.store.get("parcels", parcel)
        [shell, *_] = read_wkt(feature.wkt).members[0]
        corner = self.chance.randrange(0, len(shell), 2)
        at = shell[corner], shell[corner + 1]
        if self.model.far_from(at, self.before.shell) > 1:
            move_node(self.store, ["parcels"], at, (at[0] + self.chance.randint(-MOVED, MOVED), at[1] + self.chance.randint(-MOVED, MOVED)))
            self.tried["moved"] += 1

    def ends_well(self) -> bool:
        """Whether no gap and no overlap came in, and all is undone step by step."""
        after = self.model.outline(feature.wkt for feature in self.store.show("parcels"))
        whole = len(after) == 1 and not after[0].holes
        far = max(self.model.far_from(point, self.before.shell) for point in after[0].shell)
        print(f"one outline without a hole: {whole}; at most {far:.2f} steps from the first one")
        for _ in range(self.steps):
            self.store.undo()
        return whole and self.store.show("parcels") == self.first


def main() -> int:
    """Tries so many steps. The status is 1 where something came of them that may not."""
    parser = argparse.ArgumentParser(description="Random splits, merges and moves of parcels, under rules.")
    parser.add_argument("program", nargs="?", default=str(path_of("sfstore")))
    parser.add_argument("--side", type=int, default=45, help="how many parcels stand in a row (45)")
    parser.add_argument("--steps", type=int, default=10_000, help="how many steps (10000)")
    asked = parser.parse_args()
    os.environ["SFSTORE"] = asked.program
    begun, trial = time.monotonic(), Trial(asked.side)
    while trial.steps < asked.steps:
        trial.step()
    print(", ".join(f"{count} {what}" for what, count in trial.tried.items()))
    ended = trial.ends_well()
    print(f"{time.monotonic() - begun:.0f} s")
    trial.store.close(save=False)
    return 0 if ended else 1


if __name__ == "__main__":
    sys.exit(main())
