"""Hostile input over the built program: binaries that are cut or lie, and a seeded stream of mutated sessions and files."""

from __future__ import annotations

import subprocess
import sys
import unittest
from pathlib import Path

TOP = Path(__file__).resolve().parents[2]
sys.path.insert(0, str(TOP / "tools"))

from programs import path_of  # noqa: E402

STORE = path_of("sfstore")
POINT = bytes.fromhex("01 01000000 000000000000f03f 0000000000000040")
REFUSED_BINARIES = [
    # a byte of order that is none, a member of another kind
    ("02", "refused 6 UnsupportedType"),
    ("01 04000000 01000000 01 02000000", "refused 6 UnsupportedType"),
    # counts of points and of rings that are too large, a ring without points
    ("01 03000000 01000000 ffffffff", "refused 9 TooManyVertices"),
    ("01 03000000 01000100", "refused 9 TooManyVertices"),
    ("01 03000000 01000000 00000000", "refused 5 Empty"),
]

# The most thin triangles that a geometry of 4,096 points has beside a shell of five, and the time that they may
# take on a busy machine. Where each is looked at beside each other, it is minutes.
SLIVERS = 1_022
SECONDS = 20


def answers(lines: list[str]) -> list[str]:
    """What the console answers to lines about one layer, in the time that there is."""
    text = "\n".join(["layer add w any", *lines, ""])
    ended = subprocess.run([STORE], input=text, capture_output=True, text=True, check=True, timeout=SECONDS)
    return ended.stdout.splitlines()[1:]


def answers_to(binaries: list[bytes]) -> list[str]:
    """What the console answers where each is added to one layer."""
    return answers([f"addhex w {binary.hex()}" for binary in binaries])


def sliver(number: int) -> str:
    """A thin slanted triangle. The boxes of all have points in common, and they themselves have none."""
    bottom = 4 * number
    return f"(0 {bottom}, 1000000 {bottom + 1000000}, 0 {bottom + 2}, 0 {bottom})"


def with_holes(holes: list[str]) -> str:
    """A line that adds a polygon with such holes."""
    shell = "(-9 -9, 1000009 -9, 1000009 1009999, -9 1009999, -9 -9)"
    return f"add w POLYGON ({', '.join([shell, *holes])})"


def several(shells: list[str]) -> str:
    """A line that adds several polygons, each of one ring."""
    return f"add w MULTIPOLYGON ({', '.join(f'({shell})' for shell in shells)})"


def zigzag(corners: int) -> list[tuple[int, int]]:
    """The corners of a polygon between a zigzag of so many corners, as high as it is wide, and a straight edge below."""
    top = 100 * corners
    return [*((100 * corner, corner % 2 * top) for corner in range(corners)), (top, -100), (0, -100)]


def polygon(corners: list[tuple[int, int]]) -> str:
    """The text of a polygon of one ring with these corners."""
    return f"POLYGON (({', '.join(f'{x} {y}' for x, y in [*corners, corners[0]])}))"


class Hostile(unittest.TestCase):
    def test_cut_binaries(self) -> None:
        cut = [POINT[:length] for length in range(1, len(POINT))]
        self.assertEqual(answers_to([*cut, POINT]), ["refused 7 Truncated"] * len(cut) + ["ok 1"])

    def test_lying_binaries(self) -> None:
        binaries = [bytes.fromhex(text) for text, _ in REFUSED_BINARIES]
        self.assertEqual(answers_to(binaries), [answer for _, answer in REFUSED_BINARIES])

    def test_rings_in_one_anothers_boxes(self) -> None:
        slivers = [sliver(number) for number in range(SLIVERS)]
        doubled = [*slivers[1:], slivers[-1]]
        lines = [build(rings) for build in (with_holes, several) for rings in (slivers, doubled)]
        refused = "refused 14 RingsMeet"
        self.assertEqual(answers(lines), ["ok 1", refused, "ok 2", refused])

    def test_relate_where_all_teeth_cross(self) -> None:
        """Each edge of the one crosses each of the other: sixteen million crossings, none of which need be looked at."""
        upright = zigzag(4_093)
        across = [(upright[-2][0] - y, x) for x, y in upright]
        lines = [f"add w {polygon(upright)}", *[f"relate w 1 {polygon(across)}"] * 10]
        self.assertEqual(answers(lines), ["ok 1", *["212101212"] * 10])
        shifted = [(x + 200, y) for x, y in upright]
        self.assertEqual(answers([lines[0], f"relate w 1 {polygon(shifted)}"]), ["ok 1", "212111212"])

    def test_mutated_sessions_and_files(self) -> None:
        ended = subprocess.run([sys.executable, TOP / "bench" / "hostile.py"], capture_output=True, text=True)
        self.assertEqual((ended.returncode, ended.stderr), (0, ""), ended.stdout)
        self.assertRegex(ended.stdout, r"^100000 mutated lines, [0-9]+ answers; 10000 mutated files, [0-9]+ of them loaded\n$")


if __name__ == "__main__":
    unittest.main()
