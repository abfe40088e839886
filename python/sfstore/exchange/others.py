"""What others have put into a GeoJSON, FlatGeobuf or Shapefile that an export replaces, and how that is said."""

from __future__ import annotations

import hashlib
import os
from collections import Counter
from collections.abc import Callable, Iterator
from typing import Any

from sfstore.exchange import ogr
from sfstore.exchange.formats import FORMATS, Part
from sfstore.exchange.jsonlayer import JsonLayer
from sfstore.exchange.replacing import check_none, gone_words
from sfstore.exchange.stamps import Stamps, changed, stamps_of

__all__ = ["OldFile"]

_JSON = "GeoJSON"
# Whole numbers below it are doubles too.
_DOUBLE_WHOLE = 2**53


class OldFile:
    """The file of one layer that a new one is to replace. It may be missing, or no map."""

    def __init__(self, path: str, name: str, part: Part) -> None:
        """``name`` is that of the format."""
        self._path = path
        self._format = name
        self._part = part
        self._rows: Counter[bytes] | None = None
        self._stamps: Stamps = {}

    def look(self, say: Callable[[str], object]) -> None:
        """Says what goes with the file. `ogr.ExchangeError` where it has columns that the layer has not."""
        self._stamps = stamps_of(self._path)
        if not os.path.isfile(self._path):
            return
        shown = ogr.printable(self._path)
        try:
            with ogr.hearing():
                columns, further, gone = self._found_in_json() if self._format == _JSON else self._found_by_ogr()
        except (RuntimeError, UnicodeError, ogr.ExchangeError) as error:
            say(f"{shown} can't be read, and nobody knows what goes with it: {ogr.printable(str(error))}")
            return
        check_none(self._path, "columns", columns)
        if gone:
            say(f"{shown} {gone_words(gone)}")
        if further:
            say(f"{shown} has what the new one has not, and it is gone then: {ogr.printable('; '.join(further))}")

    def compare(self, path: str, say: Callable[[str], object]) -> None:
        """Says how many rows are not in the new file as they stand in the old one, where no identifiers name them.

        `ogr.ExchangeError` where somebody has written the old one meanwhile.
        """
        if changed(self._stamps):
            raise ogr.ExchangeError(f"{ogr.printable(self._path)} was written by another program meanwhile: try again")
        if self._rows is None:
            return
        with ogr.hearing():
            self._rows.subtract(_digests(path, self._format))
        count = sum(number for number in self._rows.values() if number > 0)
        if count:
            rows = f"{count:,} rows that are" if count > 1 else "1 row that is"
            say(f"{ogr.printable(self._path)} has {rows} not in the new one as in the old, of others or edited in the store: removed")

    def _found_in_json(self) -> tuple[list[str], list[str], list[str]]:
        """The columns that the layer has not, what else it has no place for, and the identifiers of rows that it has not."""
        layer = JsonLayer(self._path)
        names = set(self._part.columns.values())
        columns = [column for column in layer.names() if column not in names]
        further = [f"{each.reason}: {each.detail}" for each in layer.lost(layer.count())]
        there = layer.identifiers()
        if there is None:
            self._rows = Counter(_digests(self._path, self._format))
            return columns, further, []
        known = {feature.id for feature in self._part.layer.features}
        return columns, further, [str(each) for each in there if each not in known]

    def _found_by_ogr(self) -> tuple[list[str], list[str], list[str]]:
        is_folded = FORMATS[self._format].is_folded
        # A Shapefile without columns gets one.
        names = {name.casefold() if is_folded else name for name in self._part.columns.values() or ["FID"]}
        # What it has lives as long as it has a name.
        data = ogr.open_data(self._path, [self._format])
        there = _names(data.GetLayer(0))
        self._rows = Counter(_digests(self._path, self._format))
        return [name for name in there if (name.casefold() if is_folded else name) not in names], [], []


def _digests(path: str, name: str) -> Iterator[bytes]:
    """A digest of the geometry and the values of each row of a file."""
    for geometry, values in _json_rows(path) if name == _JSON else _ogr_rows(path, name):
        binary = b"" if geometry is None else bytes(geometry.ExportToIsoWkb())
        known = sorted((column, _plain(value)) for column, value in values.items() if value is not None)
        yield hashlib.blake2b(binary + repr(known).encode("utf-8", "surrogatepass"), digest_size=16).digest()


def _json_rows(path: str) -> Iterator[tuple[Any, dict[str, Any]]]:
    for feature in JsonLayer(path).features():
        yield feature.geometry, feature.content.known


def _ogr_rows(path: str, name: str) -> Iterator[tuple[Any, dict[str, Any]]]:
    data = ogr.open_data(path, [name])
    layer = data.GetLayer(0)
    columns = _names(layer)
    for feature, fault in ogr.features(layer):
        values = {column: feature.GetField(at) for at, column in enumerate(columns) if feature.IsFieldSetAndNotNull(at)}
        # One that can't be read is none of the new ones.
        yield feature.GetGeometryRef(), {**values, "": fault or None}


def _names(layer: Any) -> list[str]:
    """The names of the columns of a layer of OGR."""
    definition = layer.GetLayerDefn()
    return [definition.GetFieldDefn(at).GetName() for at in range(definition.GetFieldCount())]


def _plain(value: Any) -> str:
    """A value, the same whatever type of number its column has."""
    if isinstance(value, (list, dict)):
        return repr(value)
    if not isinstance(value, (str, bytes)) and abs(value) < _DOUBLE_WHOLE:
        return repr(float(value))
    return repr(value)
