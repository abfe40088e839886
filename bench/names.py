#!/usr/bin/env python3
"""Times the program on many layers with ordinary names, and with hostile ones.

The hostile names are chosen for a table of hashes under the fixed function that the toolchain's maps use
where nothing else is said: they all begin their search in a 64th of the table, so each would pass most of
the others. The time of adding a layer, and of an edit of the last one, has to be the same for both.

    rt run is needed once in crates/sfstore (it builds the program); then: bench/names.py [program]
"""
import subprocess
import sys
import tempfile
import time
from pathlib import Path

sys.path.insert(0, str(Path(__file__).resolve().parent.parent / "tools"))

from programs import path_of  # noqa: E402

PROGRAM = path_of("sfstore")
LAYERS = 65_535
EDITS = 100_000

# The function: it joins the halves of a product of 128 bits, 16 bytes at a time.
SEED = 0x243F_6A88_85A3_08D3
MULTIPLIER = 0x9E37_79B9_7F4A_7C15
MASK = 2**64 - 1
# What a text's end adds.
END = 0xFF_FFFF
# The bits of a hash that say in which 64th of a table of this many layers its search begins.
BEGINNING = 0x1F80


def folded(a, b):
    product = a * b
    return product & MASK ^ product >> 64


def ordinary():
    """Names in the order of their numbers."""
    return [f"l{number:031}" for number in range(LAYERS)]


def hostile():
    """Names of 32 bytes of which the last 8 are chosen."""
    front = "l".ljust(24, "_")
    words = [int.from_bytes(front.encode()[at : at + 8], "little") for at in (0, 8, 16)]
    state = folded(words[0] ^ SEED + 32, words[1] ^ MULTIPLIER) ^ words[2]
    names = []
    number = 0
    while len(names) < LAYERS:
        back = f"{number:08}"
        number += 1
        text = folded(state, int.from_bytes(back.encode(), "little") ^ MULTIPLIER)
        whole = folded(text ^ END, MULTIPLIER ^ 2)
        if (whole ^ whole >> 32) & BEGINNING == 0:
            names.append(front + back)
    return names


def run(program, lines):
    """The least seconds of three runs."""
    with tempfile.TemporaryFile() as source:
        source.write("".join(lines).encode())
        seconds = []
        for _ in range(3):
            source.seek(0)
            begun = time.perf_counter()
            answers = subprocess.run([program], stdin=source, stdout=subprocess.PIPE, check=True).stdout
            seconds.append(time.perf_counter() - begun)
            if answers.count(b"\n") != len(lines) or b"refused" in answers:
                sys.exit(f"{program} refused a line")
        return min(seconds)


def main():
    program = Path(sys.argv[1]) if len(sys.argv) > 1 else PROGRAM
    if not program.is_file():
        sys.exit(f"{program} is missing: run `rt run` in crates/sfstore first")
    print(f"{'names':>9} {'layers':>7} {'seconds':>8} {'us for each edit of the last':>29}")
    for names in (ordinary, hostile):
        layers = names()
        adding = [f"layer add {name} point\n" for name in layers]
        edits = [f"add {layers[-1]} POINT (3 4)\n"] * EDITS
        added = run(program, adding)
        edited = run(program, adding + edits) - added
        print(f"{names.__name__:>9} {LAYERS:7} {added:8.3f} {edited / EDITS * 1e6:29.2f}")


if __name__ == "__main__":
    main()
