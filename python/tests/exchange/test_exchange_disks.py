"""Tests of exports and reports on a disk that becomes full: all is there with status 0, or what was there before."""

from __future__ import annotations

import json
import os
import resource
import subprocess
import sys
import unittest

from support import FOLDER, PROGRAM

from test_exchange import HAS_GDAL
from test_exchange_sets import SetCase

if HAS_GDAL:
    from osgeo import ogr

COUNT = 1_500
SIZES = 5


class FullDisks(SetCase):
    """A limit of the size of files is met as a full disk is: a write takes a part, and the next one fails."""

    SECONDS = 900
    FILES = ("o.geojson", "o.fgb", "o.shp", "o.gpkg")

    def setUp(self):
        super().setUp()
        lines = ["layer add w point", "column add w t text"]
        for number in range(1, COUNT + 1):
            lines += [f"add w POINT ({number} {number})", f"set w {number} t 'value number {number}'"]
        self.store = self.made("t.sfs", lines)

    def run_limited(self, module, *words, size=resource.RLIM_INFINITY):
        """The status of a command that can write so many bytes to a file, and what it said."""

        def limit():
            resource.setrlimit(resource.RLIMIT_FSIZE, (size, size))

        command = [sys.executable, "-m", f"sfstore.exchange.{module}", *map(str, words), "--program", PROGRAM]
        ended = subprocess.run(
            command, cwd=FOLDER, preexec_fn=limit, stdout=subprocess.PIPE, stderr=subprocess.STDOUT, text=True
        )
        return ended.returncode, ended.stdout

    def whole(self, target):
        """How many features a map has with their values."""
        layer = (data := ogr.Open(str(target))).GetLayer(0)
        texts = [(feature.GetField("t"), feature.GetGeometryRef().GetX()) for feature in layer]
        del layer, data
        return sum(text == f"value number {x:.0f}" for text, x in texts)

    def bytes_of(self, folder):
        return {name: (folder / name).read_bytes() for name in sorted(os.listdir(folder))}

    def test_an_export_to_a_full_disk(self):
        words = ["--grid", "0", "0", "1", "--crs", "EPSG:25832"]
        for name in self.FILES:
            folder = self.folder / f"maps of {name}"
            folder.mkdir()
            target = folder / name
            status, said = self.run_limited("exporting", self.store, target, *words)
            self.assertEqual(status, 0, said)
            self.assertEqual(self.whole(target), COUNT)
            words = []
            before = self.bytes_of(folder)
            full = max(map(len, before.values()))
            for size in [*(full * part // SIZES for part in range(SIZES)), full - 1]:
                for overwrite in (["--overwrite"], []):
                    with self.subTest(name, size=size, full=full, overwrite=overwrite):
                        if not overwrite:
                            for path in folder.iterdir():
                                path.unlink()
                        status, said = self.run_limited("exporting", self.store, target, *overwrite, size=size)
                        self.assertEqual(status, 3, said)
                        self.assertEqual(self.bytes_of(folder), before if overwrite else {})
                        for path, content in before.items():
                            (folder / path).write_bytes(content)

    def test_faulty_features_on_a_full_disk(self):
        source = self.folder / "s.geojson"
        points = [
            {"type": "Feature", "properties": {}, "geometry": {"type": "Point", "coordinates": [at + 0.5, 2]}}
            for at in range(900)
        ]
        source.write_text(json.dumps({"type": "FeatureCollection", "features": points}))
        words = [source, self.folder / "s.sfs", "--grid", "0", "0", "1", "--overwrite"]
        for word, name in (("--faulty", "f.geojson"), ("--faulty", "f.gpkg"), ("--report", "r.txt")):
            target = self.folder / name
            self.assertEqual(self.run_limited("importing", *words, word, target)[0], 1)
            before = target.read_bytes()
            for part in range(1, SIZES):
                size = len(before) * part // SIZES
                with self.subTest(name, size=size):
                    status, said = self.run_limited("importing", *words, word, target, size=size)
                    self.assertEqual(status, 1)
                    self.assertIn("the store's file is written, but: ", said)
                    self.assertEqual(target.read_bytes(), before)


del SetCase

if __name__ == "__main__":
    unittest.main()
