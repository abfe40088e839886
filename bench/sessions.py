#!/usr/bin/env python3
"""Times the program on sessions of n `add` lines and one `show`, and compares its answers.

The sessions have 1,000 to 1,000,000 lines, over one layer and over 1,000 layers. Each line of the result has
the seconds, how often they are those of the size before, and the peak memory in bytes for each feature: of
the additions alone, and with the rows of the `show`. A program whose answers are others than the expected
ones, as one that refuses every line, ends the script with an error.

A child's peak memory is never less than what this script itself had when it started the child. That floor is
printed first, and memory below twice of it is not shown.

    rt run is needed once in crates/sfstore (it builds the program); then: bench/sessions.py
"""
import os
import subprocess
import sys
import tempfile
import time
from itertools import chain, zip_longest
from pathlib import Path

sys.path.insert(0, str(Path(__file__).resolve().parent.parent / "tools"))

from programs import path_of  # noqa: E402

PROGRAM = path_of("sfstore")
SIZES = [1_000, 10_000, 100_000, 1_000_000]
GRID = 1_073_741_824


def point(n):
    """The text of the n-th point."""
    x, y = n * 7919 % (2 * GRID) - GRID, n * 104_729 % (2 * GRID) - GRID
    return f"POINT ({x} {y})"


def additions(lines, layers):
    """The layers, and so many points in turn, each line with its answer."""
    for layer in range(layers):
        yield f"layer add l{layer} point\n", "ok\n"
    for n in range(lines):
        yield f"add l{n % layers} {point(n)}\n", f"ok {n // layers + 1}\n"


def showing(lines, layers):
    """The line that shows the first layer, with its answer."""
    shown = range(0, lines, layers)
    yield "show l0\n", f"rows {len(shown)}\n"
    for n in shown:
        yield "", f"{n // layers + 1} {point(n)}\n"


def run(path):
    """Seconds and peak memory in bytes of one run, with its output in a file that the caller closes."""
    sink = tempfile.TemporaryFile()
    with open(path, "rb") as source:
        begun = time.perf_counter()
        child = subprocess.Popen([PROGRAM], stdin=source, stdout=sink)
        _, status, usage = os.wait4(child.pid, 0)
        seconds = time.perf_counter() - begun
    if status != 0:
        sys.exit(f"{PROGRAM} ended with status {status}")
    return seconds, usage.ru_maxrss * 1024, sink


def compare(sink, session):
    """Ends the script where the output isn't that of the session."""
    sink.seek(0)
    wanted = (answer for _, answer in session())
    for number, (line, answer) in enumerate(zip_longest(sink, wanted), 1):
        if (line or b"").decode("ascii", "replace") != (answer or ""):
            sys.exit(f"line {number} of the output is {line!r} in place of {answer!r}")


def measure(folder, session, runs=1):
    """The least seconds and peak memory of some runs, each with the right answers."""
    path = Path(folder) / "session"
    with open(path, "w", encoding="ascii") as source:
        source.writelines(line for line, _ in session())
    results = []
    for _ in range(runs):
        seconds, memory, sink = run(path)
        with sink:
            compare(sink, session)
        results.append((seconds, memory))
    return min(results)


def main():
    if not PROGRAM.is_file():
        sys.exit(f"{PROGRAM} is missing: run `rt run` in crates/sfstore first")
    with tempfile.TemporaryDirectory() as folder:
        _, floor = measure(folder, lambda: iter(()))
        print(f"floor of the memory: {floor} bytes")
        print(f"{'layers':>7} {'lines':>9} {'seconds':>8} {'growth':>7} {'bytes each':>10} {'with rows':>10}")
        for layers in (1, 1_000):
            before = None
            for lines in SIZES:
                _, kept = measure(folder, lambda: additions(lines, layers))
                seconds, memory = measure(
                    folder, lambda: chain(additions(lines, layers), showing(lines, layers)), runs=3
                )
                growth = f"{seconds / before:.1f}" if before else ""
                each = [f"{peak / lines:.0f}" if peak > 2 * floor else "" for peak in (kept, memory)]
                print(f"{layers:7} {lines:9} {seconds:8.3f} {growth:>7} {each[0]:>10} {each[1]:>10}")
                before = seconds


if __name__ == "__main__":
    main()
