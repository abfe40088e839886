"""Canonical well-known text, as `show` writes it, as coordinates in the form of GeoJSON."""

from __future__ import annotations

import re
from collections.abc import Callable
from typing import Any, TypeVar

__all__ = ["coordinates_of"]

_T = TypeVar("_T")

_NUMBER = "(?:0|-?[1-9][0-9]*)"
_POINT = f"{_NUMBER} {_NUMBER}"
_POINTS = re.compile(rf"\({_POINT}(?:, {_POINT})*\)")
_KEYWORD = re.compile(r"([A-Z]+) ")

_Point = tuple[int, int]
_Points = tuple[_Point, ...]


def coordinates_of(text: str) -> dict[str, Any]:
    """The type and the coordinates of a text, as GeoJSON has them. `ValueError` for any other text.

    >>> coordinates_of("POINT (3 4)")
    {'type': 'Point', 'coordinates': (3, 4)}
    """
    return _WktReader(text).geometry()


class _WktReader:
    """Reads a canonical well-known text from its front to its end."""

    def __init__(self, text: str) -> None:
        self._text = text
        self._at = 0

    def geometry(self) -> dict[str, Any]:
        """The type and the coordinates, as GeoJSON has them. `ValueError` for any other text."""
        readers: dict[str, tuple[str, Callable[[], object]]] = {
            "POINT": ("Point", self._point),
            "LINESTRING": ("LineString", self._points),
            "POLYGON": ("Polygon", self._lines),
            "MULTIPOINT": ("MultiPoint", lambda: self._list(self._point)),
            "MULTILINESTRING": ("MultiLineString", self._lines),
            "MULTIPOLYGON": ("MultiPolygon", lambda: self._list(self._lines)),
        }
        keyword = self._taken(_KEYWORD)[1]
        if keyword not in readers:
            raise self._fault()
        name, read = readers[keyword]
        coordinates = read()
        if self._at != len(self._text):
            raise self._fault()
        return {"type": name, "coordinates": coordinates}

    def _point(self) -> _Point:
        """One point in brackets."""
        points = self._points()
        if len(points) != 1:
            raise self._fault()
        return points[0]

    def _points(self) -> _Points:
        pairs = self._taken(_POINTS)[0][1:-1].split(", ")
        return tuple((int(x), int(y)) for x, y in (pair.split(" ") for pair in pairs))

    def _lines(self) -> tuple[_Points, ...]:
        """Lines, or the rings of a polygon."""
        return self._list(self._points)

    def _list(self, item: Callable[[], _T]) -> tuple[_T, ...]:
        """Items in brackets."""
        self._skip("(")
        items = [item()]
        while self._text.startswith(", ", self._at):
            self._skip(", ")
            items.append(item())
        self._skip(")")
        return tuple(items)

    def _skip(self, mark: str) -> None:
        if not self._text.startswith(mark, self._at):
            raise self._fault()
        self._at += len(mark)

    def _taken(self, pattern: re.Pattern[str]) -> re.Match[str]:
        found = pattern.match(self._text, self._at)
        if found is None:
            raise self._fault()
        self._at = found.end()
        return found

    def _fault(self) -> ValueError:
        return ValueError(f"no canonical well-known text: place {self._at} of {self._text!r}")
