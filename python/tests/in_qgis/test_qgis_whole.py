"""Runs the whole QGIS on a screen that nobody sees, with the plugin, and has a tour carried out by mouse and buttons.

    python3 test_qgis_whole.py --pictures FOLDER     puts the pictures of the day into a folder
"""

from __future__ import annotations

import json
import os
import shutil
import signal
import subprocess
import sys
import tempfile
import unittest
from pathlib import Path
from typing import Any

from support import FOLDER, PROGRAM
from test_qgis import PYTHON
from web_support import TOWN

from sfstore import files

TESTS = Path(__file__).resolve().parents[1]
TOUR, DAY = TESTS / "qgis_tour.py", TESTS / "qgis_day.py"
PLUGIN = FOLDER.parent / "qgis" / "sfstore_qgis"
SIDECAR = {
    "format": "sfstore side-car 1",
    "grid": ["500000", "5600000", "0.1"],
    "crs": {"authority": "EPSG", "code": "25832", "wkt": ""},
    "layers": [],
}
# Those of the day that the pages have, and two more.
PICTURES = ["qgis", "qgis-evening", "qgis-form", "qgis-labels", "qgis-refused", "qgis-rule"]
# How long a QGIS may take.
SECONDS = 450
# What the parcels are used for, of a list, and that they lie beside one another.
RULED = (
    b"column add parcels use text\nrule add uses one-of parcels use 'house', 'garden', 'field'\n"
    b"rule add apart never parcels T******** parcels\n"
    + b"".join(b"set parcels %d use '%s'\n" % (number, b"field" if number % 3 else b"house") for number in range(1, 201))
)


def make_store(folder: Path, lines: bytes = b"") -> Path:
    """The town in a folder, with further lines behind it, and its side-car."""
    store = folder / "town.sfs"
    subprocess.run([PROGRAM, f"--save={store}"], input=TOWN.read_bytes() + lines, stdout=subprocess.DEVNULL, check=True)
    side = {**SIDECAR, "digests": [files.digest(str(store))]}
    (folder / "town.sfs.json").write_text(json.dumps(side))
    return store


def toured(folder: Path, tour: Path, name: str, part: str = "") -> dict[str, Any]:
    """What a tour saw, over the town in a folder, in a QGIS of its own for somebody. Its pictures are there too."""
    told, profiles = folder / f"told{part}.json", folder / f"profiles{part}"
    profile = profiles / "profiles" / "default"
    shutil.copytree(PLUGIN, profile / "python" / "plugins" / "sfstore_qgis")
    (profile / "QGIS").mkdir()
    (profile / "QGIS" / "QGIS3.ini").write_text(f"[PythonPlugins]\nsfstore_qgis=true\n[sfstore]\nname={name}\n")
    words = ["xvfb-run", "-a", "-s", "-screen 0 1300x900x24", "qgis", "--nologo", "--noversioncheck"]
    words += ["--profiles-path", str(profiles), "--code", str(tour)]
    environment = {
        **os.environ,
        # QGIS has the Python of the system in it, and would take what another one brings.
        "PATH": os.pathsep.join(["/usr/bin", "/bin", os.environ["PATH"]]),
        "PYTHONPATH": os.pathsep.join([str(FOLDER), str(TESTS)]),
        "SFSTORE": PROGRAM,
        "TOUR_STORE": str(folder / "town.sfs"),
        "TOUR_TOLD": str(told),
        "TOUR_PART": part,
        "XDG_RUNTIME_DIR": str(folder),
    }
    environment.pop("QT_QPA_PLATFORM", None)
    status, said = run(words, environment)
    if not told.exists():
        raise AssertionError(f"QGIS ended with {status}: {said[-3_000:]}")
    found: dict[str, Any] = json.loads(told.read_text())
    return found


def run(words: list[str], environment: dict[str, str]) -> tuple[int, str]:
    """The status of a command, and what it said. Where it takes too long it ends with all that it has begun."""
    process = subprocess.Popen(
        words, env=environment, stdout=subprocess.PIPE, stderr=subprocess.STDOUT, start_new_session=True
    )
    try:
        said, _ = process.communicate(timeout=SECONDS)
    except subprocess.TimeoutExpired:
        os.killpg(process.pid, signal.SIGKILL)
        said, _ = process.communicate()
    return process.returncode, said.decode("utf-8", "replace")


def day_and_evening(folder: Path) -> tuple[dict[str, Any], dict[str, Any]]:
    """What a clerk saw in a day, and a colleague in the evening, in a QGIS of their own."""
    make_store(folder, RULED)
    return toured(folder, DAY, "Ann", "day"), toured(folder, DAY, "Ben", "evening")


@unittest.skipUnless(PYTHON and shutil.which("qgis") and shutil.which("xvfb-run"), "no QGIS, or no xvfb-run")
class Tour(unittest.TestCase):
    def test_a_surveyors_quarter_of_an_hour(self):
        with tempfile.TemporaryDirectory() as folder:
            make_store(Path(folder))
            told = toured(Path(folder), TOUR, "Ann")
            shown = self.rows(Path(folder) / "town.sfs")
        self.assertEqual(told.pop("fault", None), None, told)
        self.assertEqual(told["opened"], [200, "EPSG:25832"])
        self.assertEqual(told["drawn"], [201, False])
        count, is_modified, marks, bars = told["refused"]
        self.assertEqual((count, is_modified, marks), (201, False, 2))
        words = "Move or remove a corner: the border meets itself at (5005"
        self.assertIn(words, " ".join(bars))
        self.assertEqual(told["mended"], [202, 0])
        self.assertEqual((told["undone"], told["redone"]), ([201, 201], [202, 202]))
        self.assertEqual(told["seen"], "Ben's")
        self.assertIn("Ask Ben: the step is theirs, set parcels 7", " ".join(told["not mine"]))
        self.assertEqual((told["saved"], told["ended"]), (["Ann's", False], False))
        # Two layers that are saved by the action for all layers.
        self.assertEqual(told["none of both"], [4, "both", True, True])
        self.assertEqual(told["both"], [3, False, False])
        self.assertEqual(told["both undone"], [4, "Ekberg"])
        # The file, by the program alone.
        self.assertEqual(len(shown), 202)
        self.assertTrue(shown[6].endswith("owner='Ann''s'"), shown[6])

    def test_a_clerks_day_and_the_evening_of_a_colleague(self):
        with tempfile.TemporaryDirectory() as folder:
            day, evening = day_and_evening(Path(folder))
            shown = self.rows(Path(folder) / "town.sfs")
            self.assertEqual(sorted(path.stem for path in Path(folder).glob("*.png")), PICTURES)
        for told in (day, evening):
            self.assertEqual(told.pop("fault", None), None, told)
            self.assertEqual(told["opened"], ["parcels", 200 if told is day else 201])
        self.assertEqual(day["kept"], ["Ann", ["The style of parcels is kept with the store: who opens it in QGIS sees it so."]])
        self.assertEqual(day["split"], [False, []])
        self.assertEqual(day["overtaken"], ["number=1043 owner='Ben''s' use='field'", ["Look again: Ben changed parcels 43 meanwhile. (parcels)"]])
        self.assertEqual(day["chosen"], "number=1043 owner='Ben''s' use='garden'")
        count, [crossed] = day["refused"]
        self.assertEqual(count, 201)
        self.assertRegex(crossed, r"^Move or remove a corner: the border meets itself at \(50051\d\.\d+ 560001\d\.?\d*\)\. \(parcels, 13 RingNotSimple\)$")
        avoid = "Switch on Avoid Overlap on Active Layer, or draw it beside the others"
        over = "parcels 43 and 202 would overlap; parcels 202 is the new one. (parcels, rule apart, 37 RuleBroken)"
        self.assertEqual(day["rule"], [201, [f"{avoid}: {over}"]])
        # The remedy has helped: what was drawn ends at the border of those that are there.
        self.assertEqual(day["mended"], [5600000.0, []])
        self.assertEqual(day["seen"], "garden")
        self.assertEqual(day["saved"], ["town.sfs is saved. The history begins anew."])
        label = """"number" || '\\n' || coalesce("use", '')"""
        self.assertEqual((evening["labels"], evening["colour"]), ([True, label, True], "#cfe3c2"))
        # The file, by the program alone: the halves have both ends of the cut.
        self.assertEqual(len(shown), 201)
        ends = set(points_of(shown[40])) & set(points_of(shown[200]))
        self.assertEqual(sorted(end.split(" ")[0] for end in ends), ["4080", "4260"])
        self.assertTrue(shown[43].endswith("number=4711 owner='Castell' use='garden'"), shown[43])

    def rows(self, store):
        asked = subprocess.run([PROGRAM, f"--load={store}"], input=b"show parcels\n", capture_output=True, timeout=60)
        return asked.stdout.decode().splitlines()[1:]


def points_of(row: str) -> list[str]:
    """The points of a row's polygon, in steps."""
    return row.partition("((")[2].partition("))")[0].split(", ")


def pictures(target: Path) -> None:
    """Puts the pictures of the day into a folder, in few colours."""
    from PIL import Image

    # QGIS marks layers whose files are among the temporary ones.
    with tempfile.TemporaryDirectory(dir=Path.home()) as folder:
        for told in day_and_evening(Path(folder)):
            if "fault" in told:
                sys.exit(str(told["fault"]))
        for picture in sorted(Path(folder).glob("*.png")):
            few = Image.open(picture).convert("RGB").quantize(colors=96, dither=Image.Dither.NONE)
            few.save(target / picture.name, optimize=True)
            print(target / picture.name)


if __name__ == "__main__":
    if sys.argv[1:2] == ["--pictures"]:
        pictures(Path(sys.argv[2]))
    else:
        unittest.main()
