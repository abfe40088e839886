"""Views of a GeoPackage: a stranger's may have rows without an end, and GDAL neither comes back from them nor hears of Ctrl-C."""

from __future__ import annotations

import contextlib
import json
import os
import select
import sqlite3
import subprocess  # nosec B404: Python itself is started, without a shell.
import sys
from typing import IO
from urllib.parse import quote

from sfstore.exchange import ogr

__all__ = ["check_end"]

# How long GDAL may take to count a view, and to give some features of it.
_SECONDS = 60.0
_FORMATS = ("GPKG", "SQLite")
# Counts and reads all views, in a process of its own, which can be ended. It says something each time it gets further.
# A view may stand in the place of GeoPackage's own tables too, so all is asked that is asked of a source.
_READING = """
import json, sys
sys.path[:] = json.loads(sys.argv[3])
from osgeo import gdal
gdal.UseExceptions()
def tried(call):
    # Who is asked next may be without an end, whatever is wrong with this one.
    try:
        return call()
    except (RuntimeError, TypeError):
        return None
    finally:
        print(flush=True)
def read(layer):
    for number, feature in enumerate(layer):
        if number % 500 == 0:
            print(number, flush=True)
for kinds in gdal.OF_VECTOR, gdal.OF_VECTOR | gdal.OF_RASTER:
    data = tried(lambda: gdal.OpenEx(sys.argv[1], kinds, allowed_drivers=[sys.argv[2]]))
    if data is None:
        continue
    tried(data.GetMetadata)
    result = tried(lambda: data.ExecuteSQL("SELECT name FROM sqlite_master WHERE type = 'view'"))
    views = {row.GetField(0) for row in result or ()}
    for at in range(data.GetLayerCount() if kinds == gdal.OF_VECTOR else 0):
        layer = data.GetLayer(at)
        for call in layer.GetMetadata, layer.GetLayerDefn, layer.GetSpatialRef, layer.GetFeatureCount:
            tried(call)
        fields = layer.GetLayerDefn()
        for name in {fields.GetFieldDefn(place).GetDomainName() for place in range(fields.GetFieldCount())} - {"", None}:
            tried(lambda: data.GetFieldDomain(name))
        if layer.GetName() in views:
            tried(lambda: read(layer))
"""


def check_end(name: str) -> None:
    """`ogr.ExchangeError` where a source has views that may have no end. Other faults are found as it is read."""
    found = ogr.format_of(name)
    if found not in _FORMATS or not _has_views(name):
        return
    words = [sys.executable or "python3", "-I", "-c", _READING, name, found, json.dumps(sys.path)]
    with subprocess.Popen(  # nosec B603: a list of words, of which one is a path.
        words, stdin=subprocess.DEVNULL, stdout=subprocess.PIPE, stderr=subprocess.DEVNULL
    ) as reading:
        try:
            is_read = reading.stdout is not None and _ends(reading.stdout)
        finally:
            reading.kill()
    if not is_read:
        raise ogr.ExchangeError(
            f"{ogr.printable(name)} has views, and nothing of them came within {_SECONDS:g} seconds: "
            "they may have no end. Make tables of the views, or take them away"
        )


def _ends(said: IO[bytes]) -> bool:
    """Whether a process goes on saying something until it ends."""
    while select.select([said], [], [], _SECONDS)[0]:
        if not os.read(said.fileno(), 4096):
            return True
    return False


def _has_views(name: str) -> bool:
    """Whether a file has views. Of one that can't be looked at, as in an archive, it may have some."""
    if not os.path.isfile(name):
        return True
    try:
        with contextlib.closing(sqlite3.connect(f"file:{quote(os.path.abspath(name))}?mode=ro", uri=True)) as base:
            return bool(base.execute("SELECT EXISTS (SELECT 1 FROM sqlite_master WHERE type = 'view')").fetchone()[0])
    except sqlite3.Error:
        return True
