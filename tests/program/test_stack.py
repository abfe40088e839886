"""The programs with a stack of 64 KiB: the largest geometries and the most layers, answered, saved, loaded and drawn."""

from __future__ import annotations

import math
import resource
import subprocess
import sys
import tempfile
import unittest
from pathlib import Path

TOP = Path(__file__).resolve().parents[2]
sys.path.insert(0, str(TOP / "tools"))

from programs import path_of  # noqa: E402

STORE, PICTURE = path_of("sfstore"), path_of("sfmap")
STACK_BYTES = 64 * 1024
POINTS_MAX = 65_536
LAYERS_MAX = 65_535
NO_VARIABLES: dict[str, str] = {}


def small_stack() -> None:
    """Gives the program that is about to begin the least stack that is asked for."""
    resource.setrlimit(resource.RLIMIT_STACK, (STACK_BYTES, STACK_BYTES))


def run(program: Path, *words: str, text: bytes) -> bytes:
    """What a program with a small stack writes."""
    ended = subprocess.run(
        [program, *words], input=text, env=NO_VARIABLES, preexec_fn=small_stack, check=True, capture_output=True, timeout=900
    )
    return ended.stdout


def corners(count: int, inner: int) -> str:
    """A closed ring of so many points round the origin, every second one so far from it and the others 8,000,000."""
    radii = (8_000_000, inner)
    angles = [2 * math.pi * k / (count - 1) for k in range(count - 1)]
    places = [(round(radii[k % 2] * math.cos(a)), round(radii[k % 2] * math.sin(a))) for k, a in enumerate(angles)]
    return ", ".join(f"{x} {y}" for x, y in [*places, places[0]])


RING = corners(POINTS_MAX, 8_000_000)
STAR = corners(POINTS_MAX - 1, 4_000_000)
DOTS = ", ".join(f"{k} {-k}" for k in range(POINTS_MAX))
PAIRS = ", ".join(f"({k} 0, {k} 1)" for k in range(POINTS_MAX // 2))
SQUARES = ", ".join(f"(({k} 0, {k + 1} 0, {k + 1} 1, {k} 0))" for k in range(0, 2 * (POINTS_MAX // 4), 2))

GEOMETRIES = [
    f"POLYGON (({RING}))",
    f"POLYGON (({STAR}))",
    f"LINESTRING ({DOTS})",
    f"MULTIPOINT ({DOTS})",
    f"MULTILINESTRING ({PAIRS})",
    f"MULTIPOLYGON ({SQUARES})",
]

SESSION = [
    "layer add a any",
    "column add a depth int",
    "column add a label text",
    *(f"add a {geometry}" for geometry in GEOMETRIES),
    "set a 2 depth 12",
    "set a 3 label 'it''s old'",
    *(f"{question} a {number}" for number in range(1, 7) for question in ("hex", "box", "simple", "area", "length")),
    "get a 1 2 3 4 5 6 1",
    f"get a {' '.join(['6'] * 1000)}",
    "find a depth 12",
    "find a label",
    *(f"check a {geometry}" for geometry in GEOMETRIES),
    f"distance a 1 {GEOMETRIES[2]}",
    f"query a near 1.5 {GEOMETRIES[0]}",
    f"nearest a 5 {GEOMETRIES[0]}",
    "reach a intersects 1 2 until a touches",
    f"relate a 1 {GEOMETRIES[2]}",
    f"query a intersects {GEOMETRIES[0]}",
    f"match a ****1**** {GEOMETRIES[5]}",
    "join a intersects a",
    "join a T******** a 2",
    "vertex remove a 1 0 0 7",
    *["undo"] * 9,
    *["redo"] * 9,
    "show a",
]


class SmallStack(unittest.TestCase):
    def check(self, lines: list[str]) -> None:
        """Has the lines answered and the store saved, loaded, saved again and drawn."""
        with tempfile.TemporaryDirectory() as folder:
            first, second = (Path(folder) / name for name in ("first.sfs", "second.sfs"))
            text = "".join(f"{line}\n" for line in lines).encode()
            told = run(STORE, f"--save={first}", text=text)
            self.assertNotRegex(told, rb"(?m)^(refused|fault) ")
            run(STORE, f"--load={first}", f"--save={second}", text=b"")
            self.assertEqual(first.read_bytes(), second.read_bytes())
            self.assertTrue(run(PICTURE, text=first.read_bytes()).endswith(b"</svg>\n"))

    def test_the_largest_geometries(self) -> None:
        self.check(SESSION)

    def test_the_most_layers(self) -> None:
        self.check([*(f"layer add l{number} point" for number in range(LAYERS_MAX)), "layers", "undo", "redo"])


if __name__ == "__main__":
    unittest.main()
