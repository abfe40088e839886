#!/usr/bin/env python3
"""Measures import and export of parcels of six points with five columns, beside what OGR itself takes to read them.

    bench/exchange.py PROGRAM [COUNT]

needs GDAL for Python.
"""

from __future__ import annotations

import contextlib
import io
import os
import resource
import sys
import tempfile
import time
from collections.abc import Callable
from pathlib import Path

from osgeo import gdal, ogr, osr

TOP = Path(__file__).resolve().parent.parent
sys.path.insert(0, str(TOP / "python"))

from sfstore.exchange import exporting, importing  # noqa: E402

GRID = ["--grid", "504000", "5605000", "0.01"]
COLUMNS = {"number": ogr.OFTInteger64, "owner": ogr.OFTString, "area": ogr.OFTReal, "floors": ogr.OFTInteger, "since": ogr.OFTDate}
CORNERS = [(0, 0), (1200, 3), (2500, 0), (2500, 3100), (3, 3100), (0, 0)]


def make(name: str, path: str, count: int) -> None:
    """A map of a format: parcels in rows."""
    data = ogr.GetDriverByName(name).CreateDataSource(path)
    reference = osr.SpatialReference()
    reference.ImportFromEPSG(25832)
    layer = data.CreateLayer("parcels", reference, ogr.wkbPolygon, ["FID=id"] if name == "GPKG" else [])
    for column, kind in COLUMNS.items():
        layer.CreateField(ogr.FieldDefn(column, kind))
    if name == "GPKG":
        layer.StartTransaction()
    for place in range(count):
        x, y = 50_000_000 + place % 300 * 2537, 560_000_000 + place // 300 * 3141
        feature = ogr.Feature(layer.GetLayerDefn())
        if name != "ESRI Shapefile":
            feature.SetFID(place + 1 + place // 1000)
        feature.SetField(0, 1000 + place)
        feature.SetField(1, f"owner {place}")
        feature.SetField(2, place % 9_000 + place % 100 / 100)
        feature.SetField(3, place % 7)
        feature.SetField(4, 1950 + place % 70, 1 + place % 12, 1 + place % 28, 0, 0, 0.0, 0)
        points = ", ".join(f"{(x + a) / 100!r} {(y + b) / 100!r}" for a, b in CORNERS)
        feature.SetGeometry(ogr.CreateGeometryFromWkt(f"POLYGON (({points}))"))
        layer.CreateFeature(feature)
    if name == "GPKG":
        layer.CommitTransaction()
    data.Destroy()


def read(path: str) -> None:
    """Reads all geometries and values by OGR."""
    data = ogr.Open(path)
    for feature in data.GetLayer(0):
        feature.GetGeometryRef().ExportToIsoWkb()
        feature.items()


def timed(name: str, work: Callable[[], object]) -> None:
    """Prints how long a work takes: by the clock, and in processor time of this process and its children."""
    begun, used = time.perf_counter(), os.times()
    work()
    ended = os.times()
    spent = sum(ended[:4]) - sum(used[:4])
    print(f"| {name} | {time.perf_counter() - begun:.1f} | {spent:.1f} |", flush=True)


def command(main: Callable[[list[str]], int], *words: str) -> None:
    """Carries out a command, which has to end well."""
    with contextlib.redirect_stdout(io.StringIO()), contextlib.redirect_stderr(io.StringIO()):
        assert main(["--program", os.path.abspath(sys.argv[1]), *words]) == 0


def main() -> None:
    gdal.UseExceptions()
    ogr.UseExceptions()
    count = int(sys.argv[2]) if len(sys.argv) > 2 else 100_000
    with tempfile.TemporaryDirectory() as folder:
        town, store, back = f"{folder}/town.gpkg", f"{folder}/town.sfs", f"{folder}/back.gpkg"
        print(f"| {count:,} parcels | Seconds | Processor seconds |\n|---|---|---|")
        for name, source in (("GeoJSON", f"{folder}/town.geojson"), ("ESRI Shapefile", f"{folder}/town.shp"), ("GPKG", town)):
            make(name, source, count)
            timed(f"OGR's own reading of the {name}", lambda: read(source))
            timed("import of it", lambda: command(importing.main, source, store, *GRID, "--overwrite"))
        timed("export to GeoPackage", lambda: command(exporting.main, store, back))
        for name in ("GeoJSON", "FlatGeobuf", "ESRI Shapefile"):
            target = f"{folder}/{name}"
            timed(f"export to {name}", lambda: command(exporting.main, store, target, "--format", name))
        timed("import of the exported GeoPackage", lambda: command(importing.main, back, f"{store}2"))
        assert Path(store).read_bytes() == Path(f"{store}2").read_bytes()
    most = resource.getrusage(resource.RUSAGE_SELF).ru_maxrss // 1024
    print(f"at most {most} MB were held by the Python process")


if __name__ == "__main__":
    main()
