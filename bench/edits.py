#!/usr/bin/env python3
"""Times the program on sessions of n mixed edits, on undoing them all and on doing them all again.

Eight edits in turn: a point added, a number and a text set, the point's vertex moved, the number set again and
the text cleared, the geometry replaced, and every other feature deleted, else its number cleared. A session has
1,000 to 1,000,000 edits over one layer and over 1,000 layers, each with a column of numbers and one of texts. A
further session moves the vertices of a line of 4,096 points 10,000 times, one those of a ring of 4,095 edges, which
stays simple, one puts a vertex into a ring of 4,094 edges and takes it out again, each 5,000 times, and three move
those of a ring of 3,995 edges that has small holes, is a hole, or lies beside further polygons. Each line of the result has the seconds
of the edits, of as many undos and of as many redos, how often they are those of the size before, and the peak
memory of the edits in bytes for each. A program whose answers are others than the expected ones ends the script
with an error.

    rt run is needed once in crates/sfstore (it builds the program); then: bench/edits.py
"""
import sys
import tempfile
from itertools import chain, repeat

from sessions import GRID, PROGRAM, SIZES, measure, point

OK = "ok\n"
# The edits of one feature.
CYCLE = 8
VERTICES = 4_096
# Small holes, or further polygons, of five points each.
HOLES = 20
RING_EDGES = VERTICES - 1 - 5 * HOLES
MOVES = 10_000


def layers_with_columns(layers):
    """The lines that make the layers with their columns, each with its answer."""
    for layer in range(layers):
        yield f"layer add l{layer} point\n", OK
        yield f"column add l{layer} depth int\n", OK
        yield f"column add l{layer} label text\n", OK


def feature_edits(layer, identifier, n):
    """The edits of one feature, each with its answer."""
    at = f"{layer} {identifier}"
    yield f"add {layer} {point(n)}\n", f"ok {identifier}\n"
    yield f"set {at} depth {n}\n", OK
    yield f"set {at} label 'parcel {n}'\n", OK
    yield f"vertex move {at} 0 0 0 {n % GRID} {-(n % GRID)}\n", OK
    yield f"set {at} depth {-n}\n", OK
    yield f"unset {at} label\n", OK
    yield f"replace {at} {point(n + 1)}\n", OK
    yield (f"delete {at}\n" if n % 2 else f"unset {at} depth\n"), OK


def mixed_edits(edits, layers):
    """So many edits, over the layers in turn."""
    for n in range(edits // CYCLE):
        yield from feature_edits(f"l{n % layers}", n // layers + 1, n)


def line_of_vertices():
    """The line that adds a zigzag, with its answer."""
    text = ", ".join(f"{x} {x % 2}" for x in range(VERTICES))
    yield "layer add l linestring\n", OK
    yield f"add l LINESTRING ({text})\n", "ok 1\n"


def vertex_moves():
    """Moves of its vertices, in no order."""
    for n in range(MOVES):
        vertex = n * 1_597 % VERTICES
        yield f"vertex move l 1 0 0 {vertex} {vertex} {n % GRID}\n", OK


def ring_text(points):
    """The text of a closed ring with these corners."""
    return "(" + ", ".join(f"{x} {y}" for x, y in [*points, points[0]]) + ")"


def zigzag(edges, bottom=0, top=100):
    """The corners of a ring: a zigzag from left to right, and two corners high above it."""
    low = [(2 * n, bottom + n % 2) for n in range(edges - 2)]
    return [*low, (low[-1][0], top), (0, top)]


def square(left, bottom):
    """The corners of a small square."""
    return [(left, bottom), (left + 9, bottom), (left + 9, bottom + 9), (left, bottom + 9)]


def ring_of(edges):
    """The lines that add a polygon of one ring."""
    yield "layer add l polygon\n", OK
    yield f"add l POLYGON ({ring_text(zigzag(edges))})\n", "ok 1\n"


def ring_with_holes(edges):
    """The lines that add such a ring with small holes, above where its vertices move."""
    rings = [zigzag(edges), *(square(30 * n + 5, 60) for n in range(HOLES))]
    yield "layer add l polygon\n", OK
    yield f"add l POLYGON ({', '.join(map(ring_text, rings))})\n", "ok 1\n"


def large_hole(edges):
    """The lines that add a polygon whose hole, number 1, is such a ring."""
    shell = [(-100, -100), (3 * edges, -100), (3 * edges, 200), (-100, 200)]
    yield "layer add l polygon\n", OK
    yield f"add l POLYGON ({ring_text(shell)}, {ring_text(zigzag(edges))})\n", "ok 1\n"


def ring_and_others(edges):
    """The lines that add several polygons, of which the first is such a ring and the others lie below it."""
    polygons = [zigzag(edges), *(square(30 * n, -60) for n in range(HOLES))]
    text = ", ".join(f"({ring_text(points)})" for points in polygons)
    yield "layer add l multipolygon\n", OK
    yield f"add l MULTIPOLYGON ({text})\n", "ok 1\n"


def inner_vertices(edges):
    """Vertices of the zigzag but for its ends, in no order, each with its x."""
    for n in range(MOVES):
        vertex = n * 1_597 % (edges - 4) + 1
        yield vertex, 2 * vertex


def ring_moves(edges, ring=0):
    """Moves of the ring's vertices up and down."""
    for n, (vertex, x) in enumerate(inner_vertices(edges)):
        yield f"vertex move l 1 0 {ring} {vertex} {x} {n % 50}\n", OK


def ring_insertions(edges):
    """Vertices of the ring put in, and taken out at once."""
    for n, (vertex, x) in enumerate(inner_vertices(edges)):
        if n % 2 == 0:
            yield f"vertex insert l 1 0 0 {vertex} {x - 1} {n % 50}\n", OK
            yield f"vertex remove l 1 0 0 {vertex}\n", OK


def steps(word, count):
    """As many undos or redos."""
    return repeat((f"{word}\n", OK), count)


def report(folder, name, layers, prepared, edits, count, before):
    """Measures the edits, then with their undos, then with their redos too, and prints a line."""
    floor, kept = measure(folder, prepared)
    edited, memory = measure(folder, lambda: chain(prepared(), edits()), runs=3)
    undone, _ = measure(folder, lambda: chain(prepared(), edits(), steps("undo", count)), runs=3)
    redone, _ = measure(
        folder, lambda: chain(prepared(), edits(), steps("undo", count), steps("redo", count)), runs=3
    )
    seconds = (edited - floor, undone - edited, redone - undone)
    growth = f"{redone / before:.1f}" if before else ""
    each = f"{(memory - kept) / count:.0f}" if memory > 2 * kept else ""
    print(
        f"{name:>8} {layers:7} {count:9} {seconds[0]:8.3f} {seconds[1]:8.3f} {seconds[2]:8.3f}"
        f" {growth:>7} {each:>10}",
        flush=True,
    )
    return redone


def report_moves(folder, name, prepared, ring):
    """The same of moves of the vertices of a ring with this number, of the first polygon."""
    report(folder, name, 1, lambda: prepared(RING_EDGES), lambda: ring_moves(RING_EDGES, ring), MOVES, None)


def main():
    if not PROGRAM.is_file():
        sys.exit(f"{PROGRAM} is missing: run `rt run` in crates/sfstore first")
    with tempfile.TemporaryDirectory() as folder:
        print(
            f"{'edits':>8} {'layers':>7} {'number':>9} {'seconds':>8} {'undone':>8} {'redone':>8}"
            f" {'growth':>7} {'bytes each':>10}"
        )
        for layers in (1, 1_000):
            before = None
            for size in SIZES:
                if size < CYCLE * layers:
                    continue
                before = report(
                    folder,
                    "mixed",
                    layers,
                    lambda: layers_with_columns(layers),
                    lambda: mixed_edits(size, layers),
                    size,
                    before,
                )
        report(folder, "vertices", 1, line_of_vertices, vertex_moves, MOVES, None)
        report(folder, "ring", 1, lambda: ring_of(VERTICES - 1), lambda: ring_moves(VERTICES - 1), MOVES, None)
        report_moves(folder, "holes", ring_with_holes, 0)
        report_moves(folder, "a hole", large_hole, 1)
        report_moves(folder, "several", ring_and_others, 0)
        report(folder, "in, out", 1, lambda: ring_of(VERTICES - 2), lambda: ring_insertions(VERTICES - 2), MOVES, None)


if __name__ == "__main__":
    main()
