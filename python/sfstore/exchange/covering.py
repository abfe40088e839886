"""Layers of an import whose areas have overlaps and gaps: cleaned where somebody asks for it, and each change reported."""

from __future__ import annotations

import argparse
from collections.abc import Callable
from dataclasses import replace
from decimal import Decimal
from fractions import Fraction
from typing import Protocol

from sfstore.exchange import ogr
from sfstore.exchange.grid import Grid
from sfstore.exchange.reports import Report
from sfstore.geometry import read_wkb, write_wkb
from sfstore.mapunits import MapUnits, grid_decimal
from sfstore.storefile import FileLayer
from sfstore.tools import NotDone
from sfstore.tools.cleaning import Cleaning, Defect, cleaned
from sfstore.tools.sending import Which

__all__ = ["clean_layer", "width_of"]

_ANY, _MULTI = 0, 6
_POLYGONS = 3


class Reading(Protocol):
    """What has read a layer."""

    @property
    def source_name(self) -> str:
        """The layer's name in the source."""

    def source_identifier(self, identifier: int) -> int:
        """A feature's identifier in the source."""


def width_of(word: str) -> Fraction:
    """How narrow in units of the source an overlap or a gap is that is taken away. `argparse.ArgumentTypeError` where a word says none."""
    try:
        width = Fraction(grid_decimal(word))
    except ValueError as error:
        raise argparse.ArgumentTypeError(str(error)) from None
    if width <= 0:
        raise argparse.ArgumentTypeError(f"{word} is not above 0")
    return width


def clean_layer(content: FileLayer, reading: Reading, grid: Grid, width: Fraction, report: Report) -> FileLayer:
    """A layer without its narrow overlaps and gaps. Each is reported, and so is each feature that is changed.

    A polygon that becomes several makes its layer one of any kind. `ogr.ExchangeError` where the width is too large for a
    feature.
    """
    units = MapUnits(*grid.words)
    shapes = {(content.name, feature.id): read_wkb(feature.geometry) for feature in content.features}
    try:
        done = cleaned(shapes, width / Fraction(units.step))
    except NotDone as fault:
        raise ogr.ExchangeError(f"--clean: {fault.told(units.point_text)}") from None
    _report(done, reading, units, report)
    geometries = {which: write_wkb(each.after) for which, each in done.changed.items()}
    features = [
        feature._replace(geometry=geometries.get((content.name, feature.id), feature.geometry)) for feature in content.features
    ]
    kind = content.kind
    if kind == _POLYGONS and any(each.after.code == _MULTI for each in done.changed.values()):
        kind = _ANY
        report.note(reading.source_name, "the layer is one of any kind: a polygon became several")
    return replace(content, features=features, kind=kind)


def _report(done: Cleaning[Which], reading: Reading, units: MapUnits, report: Report) -> None:
    """Reports what was done to a layer, by the identifiers of the source."""
    number: Callable[[Which], int] = lambda which: reading.source_identifier(which[1])
    for defect in done.defects:
        whose = defect.to or next(iter(defect.features), None)
        if whose is not None:
            report.change(reading.source_name, number(whose), _reason(defect), _detail(defect, units, number))
    for which, each in done.changed.items():
        areas = f"area {_area(each.area_before, units)} before, {_area(each.area_after, units)} after"
        report.change(reading.source_name, number(which), "cleaned", f"at {units.point_text(each.at)}: {areas}")


def _reason(defect: Defect[Which]) -> str:
    """What became of an overlap or a gap."""
    what = "gap" if defect.is_gap else "overlap"
    return f"{what} taken away" if defect.to else f"{what} that is wider, and stays"


def _detail(defect: Defect[Which], units: MapUnits, number: Callable[[Which], int]) -> str:
    """Where an overlap or a gap is, of which features, and how large it is."""
    features = ", ".join(str(number(which)) for which in defect.features)
    return f"at {units.point_text(defect.at)}, {'between' if defect.is_gap else 'of'} {features}, area {_area(defect.area, units)}"


def _area(squared_steps: Fraction, units: MapUnits) -> str:
    """An area in units of the source: exact, as it is a whole number of halves in steps."""
    return format(units.area(Decimal(squared_steps.numerator) / squared_steps.denominator), "f")
