"""Archives that unpack to far more than they have: a few bytes may be written as any number of them.

A source in an archive is unpacked once to be measured, and no further than it may go: what an archive says of itself is
anybody's word.
"""

from __future__ import annotations

import os
from collections.abc import Iterator

from sfstore.exchange import ogr
from sfstore.exchange.stamps import archive_of
from sfstore.exchange.vsi import VsiFile

__all__ = ["LEAST", "NAMED", "TIMES", "check_size", "is_zip"]

TIMES, LEAST = 100, 1 << 30
"""How many times its own size an archive may unpack to, and from how many bytes on that counts."""

NAMED = (".shz", ".shp.zip", ".gpkg.zip")
"""The endings of archives that OGR opens by their own names."""

_CHUNK = 1 << 20
_ZIP, _GZIP = b"PK\3\4", b"\x1f\x8b"


def check_size(source: str) -> None:
    """`ogr.ExchangeError` where a source unpacks to far more than the archive has that it is in."""
    archive = source if source.lower().endswith(NAMED) and is_zip(source) else archive_of(source)
    if not archive:
        return
    most = max(LEAST, TIMES * os.path.getsize(archive))
    left = most
    for path in _parts(source, archive):
        left -= _size(path, left)
        if left < 0:
            raise ogr.ExchangeError(
                f"{ogr.printable(archive)} unpacks to more than {most:,} bytes, which is over {TIMES} times its own size: "
                "unpack it first, if it is meant to"
            )


def is_zip(path: str) -> bool:
    """Whether a file is an archive that may have others in it."""
    return _begin(path) == _ZIP


def _begin(path: str) -> bytes:
    """The first bytes of a file, or none."""
    if not os.path.isfile(path):
        return b""
    with open(path, "rb") as file:
        return file.read(len(_ZIP))


def _parts(source: str, archive: str) -> Iterator[str]:
    """The files in an archive that a source is read from, as GDAL names them."""
    if archive == source:
        yield from _below(f"/vsizip/{{{archive}}}")
    elif _begin(archive).startswith(_GZIP):
        # Whatever is in it, as a tar: it is unpacked to be seen.
        yield f"/vsigzip/{os.path.abspath(archive)}"
    elif source.startswith("/vsigzip/"):
        yield source
    else:
        yield from _below(source)


def _below(path: str) -> Iterator[str]:
    """The files in a folder of an archive, or a file with those beside it that have its stem."""
    module, _, _ = ogr.gdal()
    known = module.VSIStatL(path)
    if known is None:
        return
    if known.IsDirectory():
        for name in module.ReadDirRecursive(path) or []:
            if not name.endswith("/"):
                yield f"{path}/{name}"
        return
    folder, own = os.path.split(path)
    stem = os.path.splitext(own)[0]
    yield path
    for name in module.ReadDir(folder) or []:
        if name != own and os.path.splitext(name)[0] == stem:
            yield f"{folder}/{name}"


def _size(path: str, most: int) -> int:
    """How many bytes a file has, or one more than are allowed."""
    size = 0
    with VsiFile(path) as file:
        while size <= most and (data := file.read(_CHUNK)):
            size += len(data)
    return size
