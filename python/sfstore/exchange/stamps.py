"""Whether the files of a source were written while they were read, and what they let others do."""

from __future__ import annotations

import os
import re
import stat
from collections.abc import Mapping
from typing import NamedTuple, Optional

__all__ = ["BESIDE", "Stamp", "Stamps", "archive_of", "changed", "mode_of", "stamps_of"]

# A `-shm` is written by readers too.
BESIDE = {".shp": (".shx", ".dbf", ".prj", ".cpg", ".qix", ".sbn"), ".gpkg": ("-wal", "-journal")}
"""What stands beside the file that is named, and is read with it."""

_OF_A_FOLDER = (".shp", ".gpkg", ".geojson", ".json", ".geojsonl", ".geojsons", ".fgb")

# What stands before the path of an archive.
_VIRTUAL = re.compile(r"/vsi[a-z0-9]+(_streaming)?/", re.ASCII)


class Stamp(NamedTuple):
    """What another one of shows that a file was written."""

    device: int
    inode: int
    size: int
    time: int
    """When it was written last, in nanoseconds."""


Stamps = Mapping[str, Optional[Stamp]]
"""Files by their paths, each with its stamp, or none where it is not there or empty."""


def stamps_of(source: str) -> Stamps:
    """The files that a source is read from, as they are now; none of a database."""
    return {path: _stamp(path) for path in _files(source)}


def changed(before: Stamps) -> list[str]:
    """The files that are other ones than they were."""
    return [path for path, stamp in before.items() if _stamp(path) != stamp]


def mode_of(files: Stamps, group: int) -> int:
    """The most that all of some files let others do, where a new file is of a group. Its owner may do all.

    Where no file is known, as of a database, others may do nothing.
    """
    mode = 0o777 if any(files.values()) else 0
    for path, stamp in files.items():
        if stamp is None:
            continue
        found = os.stat(path)
        allowed = found.st_mode & 0o777
        if found.st_gid != group:
            # Another group is among all others.
            allowed &= ~0o070 | (allowed & 0o007) << 3
        mode &= allowed
    return mode | 0o700


def _stamp(path: str) -> Stamp | None:
    try:
        found = os.stat(path)
    except OSError:
        return None
    return Stamp(found.st_dev, found.st_ino, found.st_size, found.st_mtime_ns) if found.st_size else None


def _files(source: str) -> list[str]:
    if os.path.isdir(source):
        found = [entry.path for entry in os.scandir(source) if os.path.splitext(entry.name)[1].lower() in _OF_A_FOLDER]
        return [path for each in sorted(found) for path in _set(each)]
    if os.path.isfile(source):
        return _set(source)
    archive = archive_of(source)
    return [archive] if archive else []


def _set(path: str) -> list[str]:
    """A file, and what may stand beside it: beside a Shapefile in small or large letters."""
    stem, ending = os.path.splitext(path)
    tails = BESIDE.get(ending.lower(), ())
    if ending.lower() == ".shp":
        return [path, *(stem + form for tail in tails for form in (tail, tail.upper()))]
    return [path, *(path + tail for tail in tails)]


def archive_of(source: str) -> str:
    """The archive that a source is in, also one in another one; nothing where it is in none, or that is not known."""
    rest = source
    while found := _VIRTUAL.match(rest):
        rest = _braced(rest[found.end() :])
    if rest == source:
        return ""
    # The names of what is in the archive follow. OGR takes the path from the root with one slash before it or with two.
    parts = rest.split("/")
    paths = ["/".join(parts[:end]) for end in range(len(parts), 0, -1)]
    return next((path for each in paths if each for path in (each, "/" + each) if _is_file(path)), "")


def _braced(text: str) -> str:
    """What stands in braces at the beginning of a text, or the text."""
    depth = 0
    for at, letter in enumerate(text if text.startswith("{") else ""):
        depth += {"{": 1, "}": -1}.get(letter, 0)
        if depth == 0:
            return text[1:at]
    return text


def _is_file(path: str) -> bool:
    try:
        return stat.S_ISREG(os.stat(path).st_mode)
    except OSError:
        return False
