"""Tests of pictures: maps of stores of all kinds, read as XML, and the refusals of `sfmap`."""

from __future__ import annotations

import importlib.util
import re
import shutil
import subprocess
import sys
import tempfile
import unittest
from pathlib import Path
from xml.etree import ElementTree

TOP = Path(__file__).resolve().parents[2]
sys.path.insert(0, str(TOP / "tools"))

from programs import path_of  # noqa: E402

STORE, PROGRAM = path_of("sfstore"), path_of("sfmap")
SVG = "{http://www.w3.org/2000/svg}"

# A layer of all kinds: a square with a hole, a line, a point, and their Multi forms.
SHAPES = b"""\
layer add shapes any
add shapes POLYGON ((0 0, 10 0, 10 10, 0 10, 0 0), (2 2, 2 4, 4 4, 4 2, 2 2))
add shapes LINESTRING (-5 0, 5 5, 15 0)
add shapes POINT (3 12)
add shapes MULTIPOINT ((1 1), (20 1))
add shapes MULTILINESTRING ((0 20, 5 20), (0 22, 5 22, 5 25))
add shapes MULTIPOLYGON (((30 0, 34 0, 34 4, 30 0)), ((40 0, 44 0, 44 4, 40 0)))
layer add wells point
add wells POINT (100 100)
"""

PATHS = {
    "shapes-1": ("polygon", "M0 0L10 0L10 10L0 10L0 0ZM2 2L2 4L4 4L4 2L2 2Z"),
    "shapes-2": ("linestring", "M-5 0L5 5L15 0"),
    "shapes-3": ("point", "M3 12h0"),
    "shapes-4": ("multipoint", "M1 1h0M20 1h0"),
    "shapes-5": ("multilinestring", "M0 20L5 20M0 22L5 22L5 25"),
    "shapes-6": ("multipolygon", "M30 0L34 0L34 4L30 0ZM40 0L44 0L44 4L40 0Z"),
    "wells-1": ("point", "M100 100h0"),
}


# A layer with one point, and what its picture of 200 pixels has before and behind its style.
WELLS = b"layer add wells point\nadd wells POINT (3 4)\n"
HEAD = b"""\
<svg xmlns='http://www.w3.org/2000/svg' width='200' height='260' viewBox='0 0 200 260'>
<style>"""
MAP = b"""\
</style>
<rect class='background' width='100%' height='100%'/>
<svg class='map' width='200' height='200' viewBox='0 0 2 2' data-corner='2 5'>
<g transform='scale(1 -1)'>
<g id='wells' class='layer tint-0'>
<path id='wells-1' class='feature point' d='M1 -1h0'/>
</g>
</g>
</svg>
<rect class='frame' width='200' height='200'/>
<g class='scale' transform='translate(10 215)'><path d='M0 0v6h100v-6'/><text x='108' y='8'>1 grid step</text></g>
<g class='entry tint-0' transform='translate(10 235)'><rect class='swatch' width='14' height='14'/><text x='22' y='12'>wells</text></g>
</svg>
"""

# A window and a width, and what follows: the map's corner and sides in grid steps, the height of the map and of the picture in pixels,
# the steps of the bar and its pixels.
VIEWS = {
    ("-10 -20 90 30", 500): ([-10, 30, 100, 50], 250, 310, "20 grid steps", 100),
    ("5 5 5 5", 800): ([5, 5, 1, 1], 800, 860, "1 grid step", 800),
    ("-1073741824 0 1073741823 1", 1_000): ([-1073741824, 1, 2_147_483_647, 1], 1, 61, "500000000 grid steps", 232),
}

# Words, and whether they show the point.
CHOICES = {
    "": True,
    "--layer wells": True,
    "--layer parcels --layer wells": True,
    "--layer=wells --layer=parcels": True,
    "--layer parcels": False,
    "--window 3 0 9 4": True,
    "--window 4 0 9 4": False,
    "--window -5 0 7 9 --layer=parcels": False,
    "--window -5 0 7 9 --layer=wells": True,
}

# Words that are refused with a text of usage.
NO_WORDS = """\
a
--width 0
--width 100001
--width wide
--layer
--window 0 0 9
--window 0 0 9 x
""".splitlines()


def file_of(lines: bytes) -> bytes:
    """The file of the store that these lines make."""
    with tempfile.TemporaryDirectory() as folder:
        file = Path(folder) / "store.sfs"
        subprocess.run([STORE, "--save", file], input=lines, check=True, capture_output=True)
        return file.read_bytes()


def picture(file: bytes, *words: str) -> ElementTree.Element:
    """The picture of a file, read as XML."""
    return ElementTree.fromstring(subprocess.run([PROGRAM, *words], input=file, check=True, capture_output=True).stdout)


def map_of(root: ElementTree.Element) -> ElementTree.Element:
    """The map within a picture."""
    [shown] = [part for part in root.iter(f"{SVG}svg") if part.get("class") == "map"]
    return shown


def corner_of(root: ElementTree.Element) -> tuple[int, int]:
    """Where the map's upper left corner lies in the plane."""
    left, top = map_of(root).attrib["data-corner"].split(" ")
    return int(left), int(top)


def in_plane(path: str, corner: tuple[int, int]) -> str:
    """A path whose places count from the corner, with the places of the plane."""
    left, top = corner
    return re.sub(r"(-?\d+) (-?\d+)", lambda place: f"{int(place[1]) + left} {int(place[2]) + top}", path)


def paths(root: ElementTree.Element) -> dict[str, tuple[str, str]]:
    """The features of a picture in their order, with kinds and paths, whose places are those of the plane."""
    found = {}
    corner = corner_of(root)
    for path in root.iter(f"{SVG}path"):
        if "id" in path.attrib:
            word, kind = path.get("class").split(" ")
            assert word == "feature"
            found[path.get("id")] = (kind, in_plane(path.get("d"), corner))
    return found


def dark_box(file: Path) -> tuple[int, int, int, int]:
    """The least box with all dark pixels of the upper 800 rows of a picture of pixels, its frame left out."""
    from PIL import Image

    pixels = Image.open(file).convert("L").crop((2, 2, 798, 798)).point(lambda tone: 255 if tone < 128 else 0)
    left, top, right, bottom = pixels.getbbox()
    return left + 2, top + 2, right + 2, bottom + 2


def lacks_browser() -> bool:
    """Whether there is no Chromium, or nothing that reads what it draws."""
    return shutil.which("chromium") is None or importlib.util.find_spec("PIL") is None


class Pictures(unittest.TestCase):
    @classmethod
    def setUpClass(cls):
        cls.file = file_of(SHAPES)

    def box(self, *words):
        """The corner of the map and its sides in grid steps, and its size in pixels."""
        root = picture(self.file, *words)
        shown = map_of(root)
        left, top, wide, high = (int(n) for n in shown.get("viewBox").split(" "))
        self.assertEqual((left, top), (0, 0))
        return [*corner_of(root), wide, high], int(shown.get("width")), int(shown.get("height"))

    def test_each_kind_is_drawn_with_its_points_in_order(self):
        self.assertEqual(list(paths(picture(self.file)).items()), list(PATHS.items()))

    def test_the_text_of_a_picture(self):
        drawn = subprocess.run([PROGRAM, "--width", "200"], input=file_of(WELLS), check=True, capture_output=True).stdout
        self.assertEqual((drawn[: len(HEAD)], drawn[-len(MAP) :]), (HEAD, MAP))

    def test_views_of_windows(self):
        for (window, width), (box, map_height, height, bar, pixels) in VIEWS.items():
            words = ("--window", *window.split(), "--width", str(width))
            root = picture(file_of(WELLS), *words)
            with self.subTest(window):
                found, shown_width, shown_height = self.box(*words)
                self.assertEqual((found, shown_width, shown_height), (box, width, map_height))
                self.assertEqual((int(root.get("width")), int(root.get("height"))), (width, height))
                [scale] = [part for part in root.iter(f"{SVG}g") if part.get("class") == "scale"]
                self.assertEqual((scale[0].get("d"), scale[1].text), (f"M0 0v6h{pixels}v-6", bar))

    def test_layers_and_windows_choose(self):
        file = file_of(b"layer add parcels polygon\n" + WELLS)
        for words, is_shown in CHOICES.items():
            self.assertEqual(list(paths(picture(file, *words.split()))), ["wells-1"] if is_shown else [], words)

    def test_widths(self):
        for words, width in (((), 800), (("--layer", "wells", "--layer", "shapes"), 800), (("--width", "100000"), 100_000)):
            self.assertEqual(int(picture(self.file, *words).get("width")), width)

    def test_layers_stand_in_drawing_order(self):
        for lines, names in ((b"", ["shapes", "wells"]), (b"layer move wells 0\n", ["wells", "shapes"])):
            root = picture(file_of(SHAPES + lines))
            layers = [part for part in root.iter(f"{SVG}g") if part.get("class", "").startswith("layer ")]
            self.assertEqual([layer.get("id") for layer in layers], names)
            self.assertEqual([text.text for text in root.iter(f"{SVG}text")][1:], names)

    def test_identifiers_are_unique(self):
        found = [part.get("id") for part in picture(self.file).iter() if part.get("id")]
        self.assertEqual(len(found), len(set(found)))

    def test_y_is_upwards(self):
        [turned] = [part for part in picture(self.file).iter(f"{SVG}g") if part.get("transform") == "scale(1 -1)"]
        self.assertEqual([layer.get("id") for layer in turned], ["shapes", "wells"])

    def test_the_map_has_all_and_a_margin(self):
        # From -5 0 to 100 100: a twentieth of 105 is 5.
        self.assertEqual(self.box(), ([-10, 105, 115, 110], 800, 765))

    def test_a_layer_alone(self):
        self.assertEqual(list(paths(picture(self.file, "--layer", "wells"))), ["wells-1"])
        self.assertEqual(self.box("--layer", "wells"), ([99, 101, 2, 2], 800, 800))
        both = picture(self.file, "--layer", "wells", "--layer", "shapes")
        self.assertEqual(list(paths(both)), list(PATHS))

    def test_a_layer_keeps_its_colour(self):
        tints = {}
        for words in ((), ("--layer", "wells")):
            for part in picture(self.file, *words).iter(f"{SVG}g"):
                if part.get("id") == "wells":
                    tints[words] = part.get("class")
        self.assertEqual(list(tints.values()), ["layer tint-1"] * 2)

    def test_many_layers_stand_in_their_order_with_a_tint_each(self):
        for count in (5, 10):
            names = [f"layer{number}" for number in range(count)]
            lines = (f"layer add {name} point\nadd {name} POINT ({place} 7)\n" for place, name in enumerate(names))
            root = picture(file_of("".join(lines).encode()))
            shown = [(part.get("id"), part.get("class")) for part in root.iter(f"{SVG}g") if part.get("id")]
            entries = [part.get("class") for part in root.iter(f"{SVG}g") if part.get("class", "").startswith("entry ")]
            self.assertEqual(shown, [(name, f"layer tint-{place % 8}") for place, name in enumerate(names)])
            self.assertEqual(entries, [f"entry tint-{place % 8}" for place in range(count)])
            self.assertEqual([text.text for text in root.iter(f"{SVG}text")][1:], names)
            found = [(f"{name}-1", ("point", f"M{place} 7h0")) for place, name in enumerate(names)]
            self.assertEqual(list(paths(root).items()), found)

    def test_a_window_shows_what_has_a_part_in_it(self):
        words = ("--window", "9", "-1", "31", "3", "--width", "440")
        self.assertEqual(list(paths(picture(self.file, *words))), ["shapes-1", "shapes-2", "shapes-4", "shapes-6"])
        self.assertEqual(self.box(*words), ([9, 3, 22, 4], 440, 80))

    def test_options_with_negative_numbers(self):
        """No contract says what they are where a word begins as a negative number does: many options at once, in any
        order, are those of the words."""
        window, layers = ("--window", "-6", "-1", "16", "9"), ("--layer", "wells", "--layer", "shapes")
        shown = ["shapes-1", "shapes-2", "shapes-4"]
        for words in ((*layers, *window, "--width", "440"), ("--width", "440", *window, *layers), (*window, *layers, "--width=440")):
            with self.subTest(words=words):
                self.assertEqual(list(paths(picture(self.file, *words))), shown)
                self.assertEqual(self.box(*words), ([-6, 9, 22, 10], 440, 200))
        self.assertEqual(list(paths(picture(self.file, "--layer", "wells", *window, "--width", "440"))), [])
        far = ("--layer", "wells", "--layer", "shapes", "--width", "22", "--window", "-1073741824", "-1073741824", "-1", "5")
        self.assertEqual(list(paths(picture(self.file, *far))), ["shapes-2"])

    def test_faults_beside_negative_numbers(self):
        window = ("--width", "440", "--layer", "shapes", "--window", "-6", "-1", "16")
        cases = (
            ((*window, "-9"), b"fault words EmptyWindow\n"),
            ((*window, "9", "--layer", "streets"), b"fault words NoLayer streets\n"),
            (window, b"error: "),
            ((*window, "x"), b"error: "),
            ((*window, "9", "--width", "-1"), b"error: "),
            (("--width", "-440", "--layer", "shapes", "--layer", "wells", *window[4:], "9"), b"error: "),
            ((*window, "9", "-9"), b"error: "),
        )
        for words, front in cases:
            with self.subTest(words=words):
                ended = subprocess.run([PROGRAM, *words], input=self.file, capture_output=True)
                self.assertEqual((ended.returncode, ended.stdout), (2, b""))
                self.assertTrue(ended.stderr.startswith(front), ended.stderr)

    def test_a_window_with_nothing_in_it(self):
        self.assertEqual(paths(picture(self.file, "--window", "-9", "-9", "-8", "-8")), {})

    def test_the_bar_is_at_most_a_quarter_of_the_map(self):
        texts = [text.text for text in picture(self.file).iter(f"{SVG}text")]
        self.assertEqual(texts[0], "20 grid steps")

    def test_a_bar_of_one_step_says_so(self):
        texts = [text.text for text in picture(self.file, "--layer", "wells").iter(f"{SVG}text")]
        self.assertEqual(texts[0], "1 grid step")

    def test_an_empty_store(self):
        root = picture(b"SFSTORE1\0\0\0\0")
        self.assertEqual(paths(root), {})
        self.assertEqual(int(root.get("height")), 840)

    def test_the_farthest_coordinates(self):
        lines = b"layer add a point\nadd a POINT (-1073741824 -1073741824)\nadd a POINT (1073741823 1073741823)\n"
        found = paths(picture(file_of(lines)))
        self.assertEqual([path for _, path in found.values()], ["M-1073741824 -1073741824h0", "M1073741823 1073741823h0"])

    @unittest.skipIf(lacks_browser(), "chromium or python3-pil is missing")
    def test_a_browser_draws_far_places_to_half_a_pixel(self):
        # Squares of one step, at eight pixels a step, eight million steps from the origin either way.
        for step in range(3, 99, 7):
            x, y = 8_000_000 + step, 8_000_000 + 99 - step
            ring = f"{x} {y}, {x + 1} {y}, {x + 1} {y + 1}, {x} {y + 1}, {x} {y}"
            file = file_of(f"layer add a polygon\nadd a POLYGON (({ring}))\n".encode())
            words = ("--window", "8000000", "8000000", "8000100", "8000100", "--width", "800")
            text = subprocess.run([PROGRAM, *words], input=file, check=True, capture_output=True).stdout
            style = b"<style>#a .feature{fill:#000;fill-opacity:1;stroke:none}</style>\n<svg class='map'"
            with self.subTest(step=step), tempfile.TemporaryDirectory() as folder:
                drawn = Path(folder) / "map.svg"
                drawn.write_bytes(text.replace(b"<svg class='map'", style))
                shot = Path(folder) / "map.png"
                browser = ["chromium", "--headless", "--no-sandbox", "--disable-gpu", "--window-size=800,860"]
                subprocess.run([*browser, f"--screenshot={shot}", drawn.as_uri()], check=True, capture_output=True)
                left, top = 8 * step, 8 * step
                self.assertEqual(dark_box(shot), (left, top, left + 8, top + 8))

    def test_faults_are_told_on_standard_error(self):
        cases = (
            (b"SFSTORE2\0\0\0\0", (), 3, b"fault load BadFile 8 "),
            (b"", (), 3, b"fault load BadFile 0 "),
            (self.file, ("--layer", "streets"), 2, b"fault words NoLayer streets\n"),
            (self.file, ("--layer", "wells", "--layer", "parcels", "--layer", "streets"), 2, b"fault words NoLayer parcels\n"),
            (self.file, ("--window", "5", "0", "4", "0"), 2, b"fault words EmptyWindow\n"),
            (self.file, ("--window", "5", "0", "4", "9"), 2, b"fault words EmptyWindow\n"),
            (self.file, ("--window", "5", "0", "4"), 2, b"error: "),
            *((self.file, tuple(words.split()), 2, b"error: ") for words in NO_WORDS),
            (self.file, ("map.sfs",), 2, b"error: "),
        )
        for file, words, status, front in cases:
            with self.subTest(words=words, front=front):
                ended = subprocess.run([PROGRAM, *words], input=file, capture_output=True)
                self.assertEqual(ended.returncode, status)
                self.assertEqual(ended.stdout, b"")
                self.assertTrue(ended.stderr.startswith(front), ended.stderr)

    def test_help_names_the_options(self):
        said = subprocess.run([PROGRAM, "--help"], check=True, capture_output=True).stdout
        for option in (b"--layer <NAME>", b"--window <MINX> <MINY> <MAXX> <MAXY>", b"--width <PIXELS>"):
            self.assertIn(option, said)

    def test_a_writer_that_is_closed(self):
        with open("/dev/full", "wb") as full:
            ended = subprocess.run([PROGRAM], input=self.file, stdout=full, stderr=subprocess.PIPE)
        self.assertEqual((ended.returncode, ended.stderr), (1, b"fault draw Write\n"))

    def test_the_picture_of_the_example(self):
        drawn = subprocess.run(
            [PROGRAM], input=file_of((TOP / "examples" / "town.txt").read_bytes()), check=True, capture_output=True
        ).stdout
        self.assertEqual(drawn, (TOP / "examples" / "town.svg").read_bytes())


if __name__ == "__main__":
    unittest.main()
