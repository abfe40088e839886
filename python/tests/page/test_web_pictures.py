"""Tests of pictures of layers that have more features than a page can draw."""

from __future__ import annotations

import os
import random
import subprocess
import sys
import time
import tracemalloc
import unittest
import unittest.mock
import zlib
from importlib.util import find_spec

from support import FOLDER, PROGRAM, TestCase
from web_support import WebCase

from sfstore import Store
from sfstore.geometry import Shape, read_wkb, write_wkb
from sfstore.language import GRID_MAX, GRID_MIN, POINTS_MAX
from sfstore.web import pictures, raster, windows
from sfstore.web.changes import targets_of
from sfstore.web.keeper import Edit
from sfstore.web.pictures import Pictures, Tile
from sfstore.web.steps import Step

SIDE = raster.SIDE
SQUARE = Shape(3, [[[10, 10, 30, 10, 30, 30, 10, 30, 10, 10]]])


def drawn(shape, size=1, left=0, bottom=0):
    """The cells of a picture of one geometry that are not empty, by column and row from the south."""
    cells = raster.blank()
    raster.draw(cells, shape, left, bottom, size)
    return marked(cells)


def marked(cells):
    return {(at % SIDE, SIDE - 1 - at // SIDE): value for at, value in enumerate(cells) if value}


def reached(begin, cells):
    """The cells that are reached from one by steps to neighbours."""
    found, edge = {begin}, [begin]
    while edge:
        x, y = edge.pop()
        further = {(x + a, y + b) for a in (-1, 0, 1) for b in (-1, 0, 1)} & cells - found
        found |= further
        edge += further
    return found


class Large:
    """A store of features that are as large as can be. It says how many digits were in memory together at most."""

    DIGITS = 32 * POINTS_MAX

    def __init__(self):
        self.most = self.asked = 0

    def query(self, layer, ask, geometry):
        return list(range(1, 1_000))

    def run_all(self, lines):
        lines = list(lines)
        if lines and lines[0].startswith("query "):
            return [[str(feature) for feature in range(1, 1_000)]] * len(lines)
        count = len(lines)
        self.asked += count
        self.most = max(self.most, count * self.DIGITS)
        line = b"\x01" + (2).to_bytes(4, "little") + (1).to_bytes(4, "little") + bytes(16)
        # Texts that are alike are one object: so the test itself takes no memory.
        return [Digits(line.hex())] * count


class Nothing:
    """A way of drawing that reads geometries, and draws none."""

    def draw_all(self, cells, geometries, left, bottom, size):
        for _ in geometries:
            pass


class Digits(str):
    """Hexadecimal digits that say that they are many."""

    def __len__(self):
        return Large.DIGITS


class Sizes(unittest.TestCase):
    """How much is asked for before it is known how large it is."""

    def test_a_window_stops_where_there_is_no_more_room(self):
        store = Large()
        [found] = windows.window_of(store, ["w"], (0, 0, 9, 9))
        self.assertEqual((found["count"], found["features"]), (999, None))
        self.assertLessEqual(store.most, 64_000_000)
        self.assertLess(store.asked, 99)

    def test_a_picture_has_few_in_memory_together(self):
        store = Large()
        with unittest.mock.patch.object(pictures, "_way", Nothing):
            Pictures().of(store, "w", Tile(0, 0, 0), time.monotonic() + 60)
        self.assertEqual(store.asked, 999)
        self.assertLessEqual(store.most, 64_000_000)


class Raster(unittest.TestCase):
    """Geometries as cells."""

    def test_an_area_has_edges_and_an_inside(self):
        found = drawn(SQUARE)
        self.assertEqual(set(found), {(x, y) for x in range(10, 31) for y in range(10, 31)})
        on_edge = {(x, y) for x, y in found if x in (10, 30) or y in (10, 30)}
        self.assertEqual({at for at, value in found.items() if value == raster.EDGE}, on_edge)
        self.assertEqual({found[at] for at in set(found) - on_edge}, {raster.INSIDE})

    def test_a_hole_is_empty(self):
        hole = [15, 15, 15, 25, 25, 25, 25, 15, 15, 15]
        self.assertNotIn((20, 20), drawn(Shape(3, [[SQUARE.members[0][0], hole]])))

    def test_an_edge_that_only_crosses_is_drawn(self):
        found = drawn(Shape(2, [[[-1000, -1000, 5000, 5000]]]))
        self.assertEqual(set(found), {(at, at) for at in range(SIDE)})

    def test_what_is_outside_is_not_drawn(self):
        for line in ([-9, 5, -1, 5], [5, SIDE, 9, SIDE], [300, -300, 300, 300], [-300, 1, 1, -300]):
            with self.subTest(line=line):
                self.assertEqual(drawn(Shape(2, [[line]])), {})

    def test_each_vertex_of_any_geometry_is_drawn(self):
        chance = random.Random(5)
        for _ in range(300):
            line = [chance.randrange(-400, 700) for _ in range(2 * chance.randrange(2, 12))]
            size = chance.choice([1, 2, 8])
            found = drawn(Shape(2, [[line]]), size)
            inside = {(x // size, y // size) for x, y in zip(line[::2], line[1::2])}
            inside = {(x, y) for x, y in inside if 0 <= x < SIDE and 0 <= y < SIDE}
            self.assertLessEqual(inside, set(found), line)

    def test_edges_have_no_gaps(self):
        chance = random.Random(6)
        for _ in range(300):
            ax, ay, bx, by = (chance.randrange(0, SIDE) for _ in range(4))
            found = set(drawn(Shape(2, [[[ax, ay, bx, by]]])))
            self.assertEqual(reached((ax, ay), found), found, (ax, ay, bx, by))

    def test_nothing_vanishes_as_a_picture_is_coarsened(self):
        chance = random.Random(7)
        fine = raster.blank()
        for _ in range(40):
            fine[chance.randrange(SIDE * SIDE)] = raster.EDGE
        for place in range(4):
            parts = [bytes(fine) if place == other else b"" for other in range(4)]
            right, up = place % 2 * SIDE // 2, place // 2 * SIDE // 2
            wanted = {(right + x // 2, up + y // 2) for x, y in marked(fine)}
            self.assertEqual(set(marked(raster.coarsened(parts))), wanted)

    def test_the_graphic_has_the_cells_as_its_opacity(self):
        chance = random.Random(8)
        cells = bytes(chance.randrange(256) for _ in range(SIDE * SIDE))
        data = raster.png(cells)
        self.assertEqual(data[:8], b"\x89PNG\r\n\x1a\n")
        begin = data.index(b"IDAT") + 4
        rows = zlib.decompress(data[begin : data.index(b"IEND") - 8])
        self.assertEqual(len(rows), SIDE * (1 + 2 * SIDE))
        opaque = b"".join(rows[at + 2 : at + 1 + 2 * SIDE : 2] for at in range(0, len(rows), 1 + 2 * SIDE))
        self.assertEqual(opaque, cells)


class SameByNumpy(unittest.TestCase):
    """Pictures by numpy are those by Python alone, cell by cell."""

    LEAST, MOST = GRID_MIN, GRID_MAX

    def setUp(self):
        super().setUp()
        if find_spec("numpy") is None:
            self.skipTest("numpy is missing")
        from sfstore.web import rasterarrays

        self.arrays = rasterarrays

    def same(self, shapes, left=0, bottom=0, size=1):
        """The cells of a picture, which both ways have alike."""
        hexes = [write_wkb(shape).hex() for shape in shapes]
        cells, others = raster.blank(), raster.blank()
        raster.draw_all(cells, hexes, left, bottom, size)
        self.arrays.draw_all(others, hexes, left, bottom, size)
        self.assertEqual(marked(others), marked(cells))
        return cells

    def point(self, chance, near, wide):
        return [min(self.MOST, max(self.LEAST, at + chance.randrange(-wide, wide + 1))) for at in near]

    def line(self, chance, near, wide, count):
        return [number for _ in range(count) for number in self.point(chance, near, wide)]

    def ring(self, chance, near, wide):
        found = self.line(chance, near, wide, chance.randrange(3, 9))
        return found + found[:2]

    def member(self, chance, code):
        near = chance.choice([(0, 0), (128, 128), (chance.randrange(-3000, 3000), chance.randrange(-3000, 3000))])
        near = chance.choice([near, near, [chance.choice([self.LEAST, self.MOST]) for _ in "xy"]])
        wide = chance.choice([1, 3, 10, 100, 300, 3000, 100_000, 2**29])
        if code == 1:
            return [self.point(chance, near, wide)]
        if code == 2:
            return [self.line(chance, near, wide, chance.randrange(2, 9))]
        return [self.ring(chance, near, wide) for _ in range(chance.choice([1, 1, 1, 2, 3]))]

    def shape(self, chance):
        code = chance.randrange(1, 7)
        count = 1 if code < 4 else chance.choice([1, 1, 2, 3, 7])
        return Shape(code, [self.member(chance, code if code < 4 else code - 3) for _ in range(count)])

    def test_random_maps(self):
        seen = set()
        for seed in range(400):
            chance = random.Random(seed)
            shapes = [self.shape(chance) for _ in range(chance.choice([1, 1, 2, 5, 40]))]
            size = 1 << chance.choice([0, 0, 1, 2, 3, 5, 8, 15, 22, 23])
            side = SIDE * size
            corners = [(0, 0), (-side, -side), (0, -side), (self.LEAST, self.LEAST), (self.LEAST // side * side, self.MOST // side * side)]
            with self.subTest(seed=seed):
                seen |= set(self.same(shapes, *chance.choice(corners), size))
        self.assertEqual(seen, {0, raster.INSIDE, raster.EDGE})

    def test_slivers_dots_and_what_lies_on_the_border(self):
        slivers = [Shape(3, [[[at, 0, at + 1, 400, at, 400, at, 0]]]) for at in range(-3, 260, 7)]
        flat = [Shape(3, [[[-50, at, 300, at, 300, at + 1, -50, at]]]) for at in range(-3, 260, 7)]
        border = [Shape(3, [[[0, 0, SIDE, 0, SIDE, SIDE, 0, SIDE, 0, 0]]]), Shape(2, [[[-1, -1, SIDE, -1]]]), Shape(1, [[[SIDE - 1, 0]]])]
        for shapes in (slivers, flat, border, slivers + flat + border):
            for size in (1, 2, 64, 1 << 23):
                self.same(shapes, 0, 0, size)
        self.same(slivers + flat, 1 - SIDE, 1 - SIDE)

    def test_a_hole_stays_empty_and_an_area_hides_no_edge(self):
        ring, hole = [5, 5, 200, 5, 200, 200, 5, 200, 5, 5], [50, 50, 50, 100, 100, 100, 100, 50, 50, 50]
        cells = self.same([Shape(2, [[[60, 60, 150, 60]]]), Shape(3, [[ring, hole]]), Shape(2, [[[20, 20, 150, 20]]])])
        found = marked(cells)
        self.assertNotIn((70, 70), found)
        self.assertEqual((found[60, 60], found[20, 20], found[30, 30]), (raster.EDGE, raster.EDGE, raster.INSIDE))

    def test_maps_that_are_drawn_in_several_parts(self):
        chance = random.Random(13)
        shapes = [self.shape(chance) for _ in range(60)] + [Shape(2, [[self.line(chance, (128, 128), 500, 3_000)]])]
        with unittest.mock.patch.multiple(self.arrays, _DIGITS=1_000, _PLACES=500):
            self.same(shapes)
            self.same(shapes, -SIDE * 8, 0, 8)

    def test_no_features_are_an_empty_picture(self):
        self.assertEqual(self.same([]), raster.blank())

    def test_a_million_places_take_a_bounded_memory(self):
        chance = random.Random(14)
        hexes = [write_wkb(Shape(2, [[self.line(chance, (128, 128), 128, 20_000)]])).hex()] * 4
        cells = raster.blank()
        self.arrays.draw_all(cells, hexes[:1], 0, 0, 1)
        tracemalloc.start()
        try:
            self.arrays.draw_all(cells, hexes, 0, 0, 1)
            _, most = tracemalloc.get_traced_memory()
        finally:
            tracemalloc.stop()
        self.assertLess(most, 40_000_000)

    def test_pictures_of_quarters(self):
        chance = random.Random(15)
        for _ in range(20):
            quarters = [bytes(chance.choices([0, 0, 0, raster.INSIDE, raster.EDGE], k=SIDE * SIDE)) if chance.random() < 0.7 else b"" for _ in range(4)]
            self.assertEqual(self.arrays.coarsened(quarters), raster.coarsened(quarters))

    def test_pictures_are_drawn_without_numpy_too(self):
        code = (
            "import sys\n"
            "sys.modules['numpy'] = None\n"
            "from sfstore.web import pictures, raster\n"
            "print(pictures._way() is raster)\n"
        )
        environment = {**os.environ, "PYTHONPATH": str(FOLDER)}
        ended = subprocess.run([sys.executable, "-c", code], env=environment, capture_output=True, text=True, check=True)
        self.assertEqual(ended.stdout, "True\n")

    def test_pictures_are_drawn_by_numpy_where_it_is(self):
        self.assertIs(pictures._way(), self.arrays)


class Tiles(unittest.TestCase):
    """Where tiles are."""

    def test_quarters_are_what_a_tile_is_made_of(self):
        tile = Tile(3, -2, 5)
        west, south = tile.x * tile.size, tile.y * tile.size
        half = tile.size // 2
        corners = [(part.x * part.size, part.y * part.size) for part in tile.quarters]
        self.assertEqual(corners, [(west, south), (west + half, south), (west, south + half), (west + half, south + half)])

    def test_the_grid_is_in_four_tiles_of_the_highest_level(self):
        boxes = [Tile(pictures.LEVEL_MAX, x, y).box for x in range(-3, 3) for y in range(-3, 3)]
        found = [box for box in boxes if box and box[0] < box[2] and box[1] < box[3]]
        self.assertEqual(len(found), 4)
        self.assertEqual(min(found)[:2], (-1073741824, -1073741824))
        self.assertEqual(max(found)[2:], (1073741823, 1073741823))


class KeptPictures(TestCase):
    """Pictures of a store, as it is edited."""

    def setUp(self):
        super().setUp()
        self.store = Store(program=PROGRAM)
        self.addCleanup(self.store.close, False)
        self.store.add_layer("w")
        self.pictures = Pictures()
        self.few = unittest.mock.patch.object(pictures, "_FEATURES_MAX", 20)
        self.few.start()
        self.addCleanup(self.few.stop)

    def picture(self, tile, kept=None):
        return (kept or self.pictures).of(self.store, "w", tile, time.monotonic() + 60)

    def edit(self, line):
        """Does a line as a mirror does it."""
        targets = targets_of(line)
        if line.startswith("add"):
            targets = targets_of(line, f"ok {self.next_id()}")
        edits = [Edit(1, 0, "page", line, Step(0, line, targets), None, None)]
        self.pictures.before(self.store, edits)
        self.store.run(line)
        self.pictures.after(self.store, edits)

    def next_id(self):
        answer = self.store.run("add w POINT (0 0)").split()[1]
        self.store.undo()
        return int(answer)

    def square(self, chance):
        x, y, side = chance.randrange(-3000, 3000), chance.randrange(-3000, 3000), chance.randrange(1, 400)
        return f"POLYGON (({x} {y}, {x + side} {y}, {x + side} {y + side}, {x} {y + side}, {x} {y}))"

    def test_each_feature_is_seen_and_nothing_else_at_each_level(self):
        chance = random.Random(9)
        self.store.run_all(f"add w {self.square(chance)}" for _ in range(300))
        shapes = [read_wkb(bytes.fromhex(self.store.hex("w", feature))) for feature in range(1, 301)]
        for level in (1, 3, 5):
            size = 1 << level
            seen = {}
            for x in range(-3200 // (SIDE * size) - 1, 3500 // (SIDE * size) + 1):
                for y in range(-3200 // (SIDE * size) - 1, 3500 // (SIDE * size) + 1):
                    picture = self.picture(Tile(level, x, y))
                    self.assertTrue(picture.is_whole)
                    seen.update({(x * SIDE + a, y * SIDE + b): v for (a, b), v in marked(picture.cells).items()})
            wanted = set()
            for shape in shapes:
                ring = shape.members[0][0]
                left, right = int(min(ring[::2])) // size, int(max(ring[::2])) // size
                bottom, top = int(min(ring[1::2])) // size, int(max(ring[1::2])) // size
                wanted |= {(a, b) for a in range(left, right + 1) for b in range(bottom, top + 1)}
            self.assertLessEqual(set(seen), wanted)
            # A square's inside is drawn where it has a middle of a cell: its edges always are.
            self.assertGreater(len(seen), 0.95 * len(wanted))

    def test_a_tile_of_many_features_looks_as_if_it_were_drawn_from_them(self):
        chance = random.Random(12)
        self.store.run_all(f"add w {self.square(chance)}" for _ in range(300))
        for level in (2, 3, 5):
            for tile in (Tile(level, x, y) for x in (-1, 0) for y in (-1, 0)):
                joined = marked(self.picture(tile).cells)
                with unittest.mock.patch.object(pictures, "_FEATURES_MAX", 10_000):
                    drawn_at_once = marked(self.picture(tile, Pictures()).cells)
                self.assertGreater(len(joined), 20)
                edges = [{at for at, value in each.items() if value == raster.EDGE} for each in (joined, drawn_at_once)]
                self.assertEqual(*edges)
                self.assertEqual(set(joined.values()) - {raster.EDGE, raster.INSIDE}, set())
                # Of areas of some cells the inside is drawn from quarters alone.
                self.assertLessEqual(set(drawn_at_once), set(joined))

    def test_pictures_are_as_those_drawn_anew_after_each_edit(self):
        chance = random.Random(10)
        tiles = [Tile(level, x, y) for level in (1, 3, 4) for x in (-1, 0) for y in (-1, 0)]
        for turn in range(120):
            count = turn + 1
            line = chance.choice(
                [
                    f"add w {self.square(chance)}",
                    f"add w {self.square(chance)}",
                    f"delete w {chance.randrange(1, count + 1)}",
                    f"replace w {chance.randrange(1, count + 1)} {self.square(chance)}",
                ]
            )
            try:
                self.edit(line)
            except Exception as refused:
                self.assertIn("21 NoFeature", str(refused))
            for tile in chance.sample(tiles, 4):
                self.assertEqual(self.picture(tile).cells, self.picture(tile, Pictures()).cells, (turn, line, tile))

    def test_a_part_is_drawn_where_there_is_no_time_for_more(self):
        chance = random.Random(11)
        self.store.run_all(f"add w {self.square(chance)}" for _ in range(300))
        tile = Tile(4, -1, -1)
        parts = []
        while not parts or not parts[-1].is_whole:
            parts.append(self.pictures.of(self.store, "w", tile, time.monotonic() + 0.001))
            self.assertLess(len(parts), 1_000)
        self.assertEqual(parts[-1].cells, self.picture(tile, Pictures()).cells)

    def test_a_layer_that_is_gone_is_refused(self):
        from sfstore import Refused

        self.picture(Tile(1, 0, 0))
        self.edit("layer drop w")
        with self.assertRaises(Refused):
            self.picture(Tile(1, 0, 0))


class PictureCalls(WebCase):
    """What a page is given."""

    def test_a_picture_is_given_once_for_each_version(self):
        self.make_town()
        serving = self.serve()
        asked = {"layer": "parcels", "level": 2, "tiles": [[0, 0, 0]]}
        [first] = serving.call("/pictures", **asked)["tiles"]
        self.assertTrue(first["whole"] and first["png"] and first["count"])
        asked["tiles"] = [[0, 0, first["version"]]]
        [again] = serving.call("/pictures", **asked)["tiles"]
        self.assertEqual((again["version"], "png" in again), (first["version"], False))
        serving.log_in("Ann").line("add parcels POLYGON ((1 1, 5 1, 5 5, 1 5, 1 1))")
        [after] = serving.call("/pictures", **asked)["tiles"]
        self.assertNotEqual(after["version"], first["version"])
        self.assertTrue(after["png"])

    def test_calls_that_are_none_are_refused(self):
        self.make_town()
        serving = self.serve()
        serving.log_in("Ann")
        good = {"layer": "parcels", "level": 0, "tiles": [[0, 0, 0]]}
        for wrong in (
            {"layer": 1},
            {"level": -1},
            {"level": 24},
            {"level": 1.5},
            {"tiles": [[0, 0]]},
            {"tiles": [[0, 0, "0"]]},
            {"tiles": [[2**40, 0, 0]]},
            {"tiles": [[0, 0, 0]] * 65},
            {"tiles": "all"},
        ):
            with self.subTest(wrong=wrong):
                self.assertEqual(serving.posted("/pictures", **{**good, **wrong})[0], 400)
        self.assertEqual(serving.posted("/pictures", **{**good, "layer": "nope"})[0], 503)

    def test_shapes_of_features_that_are_there_are_given(self):
        self.make_town()
        serving = self.serve()
        told = serving.call("/shapes", layer="parcels", ids=[2, 999_999])
        self.assertEqual([feature[0] for feature in told["features"]], [2])
        self.assertEqual(serving.posted("/shapes", layer="parcels", ids=["2"])[0], 400)


if __name__ == "__main__":
    unittest.main()
