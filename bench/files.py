#!/usr/bin/env python3
"""Times the program on loading and saving files.

The files have 1,000,000 points; 100,000 lines of 16 points with two values each; 500 lines of 4,000 points; and
as many rings of 4,000 points as the first argument says (500 if left out; 5,000 make a file of 320 MB). Each
line of the result has the bytes of the file, the seconds of loading and of saving, both for each feature and for
each point, and the peak memory for each byte of the file. What is saved has to be the file that was loaded, byte
for byte; else the script ends with an error. Rings are found valid while they are loaded, which lines need not be.

    rt run is needed once in crates/sfstore (it builds the program); then: bench/files.py [RINGS]
"""
import filecmp
import math
import os
import struct
import subprocess
import sys
import tempfile
import time
from pathlib import Path

from sessions import GRID, PROGRAM

POINT, LINE, POLYGON = 1, 2, 3


def coordinates(places):
    return b"".join(struct.pack("<dd", *place) for place in places)


def point(k):
    x, y = k * 7919 % (2 * GRID) - GRID, k * 104_729 % (2 * GRID) - GRID
    return struct.pack("<BIdd", 1, POINT, x, y)


def line(count, k):
    places = [((k + j) % GRID, j % 2) for j in range(count)]
    return struct.pack("<BII", 1, LINE, count) + coordinates(places)


def ring(count, k):
    # Corners on a large circle: no two are one grid point.
    turns = [2 * math.pi * j / count for j in range(count)]
    places = [(round(500_000 * math.cos(t)) + k % 100, round(500_000 * math.sin(t))) for t in turns]
    return struct.pack("<BIII", 1, POLYGON, 1, count + 1) + coordinates([*places, places[0]])


def values(k):
    text = f"parcel {k}".encode()
    return struct.pack(">HHqHH", 2, 1, -k, 2, len(text)) + text


def write(path, kind, count, geometry, valued=False):
    """A file of one layer."""
    with open(path, "wb") as file:
        file.write(b"SFSTORE2\x18" + struct.pack(">IB", 1, 1) + b"w" + struct.pack(">BI", kind, count + 1))
        if valued:
            file.write(struct.pack(">HH", 3, 2))
            file.write(struct.pack(">HBB", 1, 1, 5) + b"depth" + struct.pack(">HBB", 2, 2, 5) + b"label")
        else:
            file.write(struct.pack(">HH", 1, 0))
        file.write(struct.pack(">I", count))
        for k in range(count):
            row = geometry(k)
            file.write(struct.pack(">II", k + 1, len(row)) + row + (values(k) if valued else b"\0\0"))


def run(*words):
    """The least seconds of three runs, and their peak memory in bytes."""
    results = []
    for _ in range(3):
        begun = time.perf_counter()
        child = subprocess.Popen([PROGRAM, *words], stdin=subprocess.DEVNULL, stdout=subprocess.PIPE)
        said = child.stdout.read()
        _, status, usage = os.wait4(child.pid, 0)
        if status or said:
            sys.exit(f"{PROGRAM} {words} ended with {status}: {said.decode()}")
        results.append((time.perf_counter() - begun, usage.ru_maxrss * 1024))
    return min(results)


def measure(folder, name, kind, count, points, geometry, valued=False):
    file, again = Path(folder) / "file", Path(folder) / "again"
    write(file, kind, count, geometry, valued)
    loaded, memory = run("--load", file)
    both, _ = run("--load", file, "--save", again)
    if not filecmp.cmp(file, again, shallow=False):
        sys.exit(f"{name}: what was saved is not what was loaded")
    size, saved = file.stat().st_size, both - loaded
    each, pair = 1e6 / count, 1e9 / (count * points)
    print(
        f"{name:28} {size:11} bytes: load {loaded:.2f} s, {loaded * each:.2f} us a feature, {loaded * pair:.0f} ns a point;"
        f" save {saved:.2f} s, {saved * each:.2f} us, {saved * pair:.0f} ns; memory {memory / size:.1f} times the file"
    )


def main():
    if not PROGRAM.is_file():
        sys.exit(f"{PROGRAM} is missing: run `rt run` in crates/sfstore first")
    rings = int(sys.argv[1]) if len(sys.argv) > 1 else 500
    with tempfile.TemporaryDirectory() as folder:
        measure(folder, "1,000,000 points", POINT, 1_000_000, 1, point)
        measure(folder, "100,000 lines of 16, 2 values", LINE, 100_000, 16, lambda k: line(16, k), valued=True)
        measure(folder, "500 lines of 4,000", LINE, 500, 4_000, lambda k: line(4_000, k))
        measure(folder, f"{rings} rings of 4,000", POLYGON, rings, 4_001, lambda k: ring(4_000, k))


if __name__ == "__main__":
    main()
