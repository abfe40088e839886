"""A proposal for a grid: which origin and step fit a source, and what would not."""

from __future__ import annotations

import math
from collections import Counter
from collections.abc import Sequence
from dataclasses import dataclass, field
from decimal import ROUND_CEILING, Decimal
from typing import Any

from sfstore.exchange import ogr
from sfstore.exchange.grid import LEAST, MOST, NOISE_ULPS, Grid, OffGrid, Outside
from sfstore.exchange.layers import Layer
from sfstore.exchange.reading import with_word
from sfstore.geometry import NotTaken, read_wkb

__all__ = ["suggestion"]

# Steps from 1000 units to a thousand-millionth of one are tried, by their decimals.
_COARSEST, _FINEST = -3, 9

# With so many digits a double is tried, before all that it has.
_DIGITS = (13, 14, 15)

# How much of the room a map takes at most, so that some is left at its sides.
_ROOM = Decimal("0.9")

# The origin is as round a number of steps as stands within a tenth of the room from the middle.
_ROUNDEST = 5


@dataclass
class _Survey:
    """The coordinates of a source."""

    drops_zm: bool
    """Whether Z and M are dropped."""
    parts_collections: bool
    """Whether the members of collections are features."""
    places: list[set[float]] = field(default_factory=lambda: [set(), set()])
    """The coordinates that occur, x and y."""
    decimals: Counter[int] = field(default_factory=Counter)
    """How many coordinates that occur need how many decimals."""
    left_out: Counter[str] = field(default_factory=Counter)
    """How many features have no geometry for the store, by the reason."""

    def add(self, line: Sequence[float]) -> Sequence[float]:
        for axis in (0, 1):
            self.places[axis].update(place for place in line[axis::2] if math.isfinite(place))
        return line


def suggestion(layers: list[Layer], drops_zm: bool = False, parts_collections: bool = False) -> str:
    """Some lines: the words ``--grid OX OY STEP``, and what would not fit, for the layers."""
    survey = _Survey(drops_zm, parts_collections)
    _survey(layers, survey)
    told = "".join(f"{count} features: {reason}\n" for reason, count in survey.left_out.items())
    if not survey.places[0]:
        return told + "no coordinates were found\n"
    step = _step(survey)
    words = [*(_origin(places, step) for places in survey.places), step]
    x, y, unit = (format(word.normalize(), "f") for word in words)
    try:
        grid = Grid(x, y, unit)
    except ValueError:
        return told + "the coordinates go too far for any grid\n"
    return told + f"--grid {x} {y} {unit}\n" + _fits(survey, grid, unit)


def _survey(layers: list[Layer], survey: _Survey) -> None:
    """Looks at all coordinates of the layers."""
    for layer in layers:
        with ogr.progress(layer.name, layer.count()) as show:
            for feature in layer.features():
                if feature.fault:
                    survey.left_out[f"{feature.reason}: {feature.fault}"] += 1
                else:
                    _look_at(feature.geometry, survey)
                show(1)
    for places in survey.places:
        survey.decimals.update(map(_decimals, places))


def _look_at(geometry: Any, survey: _Survey) -> None:
    if geometry is None:
        survey.left_out["without a geometry"] += 1
        return
    for member in ogr.members(geometry) if survey.parts_collections else [geometry]:
        if survey.drops_zm:
            member.FlattenTo2D()
        try:
            read_wkb(member.ExportToIsoWkb()).mapped(survey.add)
        except NotTaken as reason:
            survey.left_out[with_word(reason)] += 1


def _decimals(place: float) -> int:
    """How many decimals the shortest text of a double has; below 0 where it ends with zeros."""
    exponent = Decimal(_shortest(place)).normalize().as_tuple().exponent
    return -int(exponent) if place else _COARSEST


def _shortest(place: float) -> str:
    """The shortest text of a double, or of one that it differs from by no more than doubles do."""
    noise = NOISE_ULPS * math.ulp(place)
    for digits in _DIGITS:
        text = format(place, f".{digits}g")
        if abs(float(text) - place) <= noise:
            return text
    return repr(place)


def _step(survey: _Survey) -> Decimal:
    """The coarsest step that as many coordinates fit as fit any step with room for the source.

    Where that is less than half of them, it is the finest with room: they have to be rounded.
    """
    roomy = _roomy(survey)
    fitting = {decimals: _fitting(survey, decimals) for decimals in roomy}
    best = max(roomy, key=lambda decimals: (fitting[decimals], -decimals))
    if 2 * fitting[best] < sum(survey.decimals.values()):
        best = roomy[-1]
    return Decimal(10) ** -best


def _roomy(survey: _Survey) -> list[int]:
    """The decimals of the steps that are tried and have room for a source, the coarsest first."""
    extent = _extent(survey)
    return [
        decimals
        for decimals in range(_COARSEST, _FINEST + 1)
        if extent * Decimal(10) ** decimals <= (MOST - LEAST) * _ROOM
    ] or [_COARSEST]


def _extent(survey: _Survey) -> Decimal:
    return max(Decimal(max(places)) - Decimal(min(places)) for places in survey.places)


def _finest(survey: _Survey) -> Decimal:
    """The finest step of two digits with room for a source."""
    exact = _extent(survey) / ((MOST - LEAST) * _ROOM)
    unit = Decimal(10) ** (exact.adjusted() - 1) if exact else Decimal(1)
    return (exact / unit).to_integral_value(ROUND_CEILING) * unit


def _fitting(survey: _Survey, decimals: int) -> int:
    return sum(count for needed, count in survey.decimals.items() if needed <= decimals)


def _origin(places: set[float], step: Decimal) -> Decimal:
    """A round number near the middle of coordinates."""
    middle = (Decimal(min(places)) + Decimal(max(places))) / 2
    unit = step * Decimal(10) ** _ROUNDEST
    # A zero has no sign.
    return (middle / unit).to_integral_value() * unit + 0


def _verdict(grid: Grid, place: float, axis: int) -> str:
    """Whether a coordinate is ``on`` a grid, ``off`` it, or ``outside``."""
    pair = grid.places([0, 0])
    pair[axis] = place
    try:
        grid.steps(pair)
    except OffGrid:
        return "off"
    except Outside:
        return "outside"
    return "on"


def _fits(survey: _Survey, grid: Grid, unit: str) -> str:
    """What of a source is on a grid, and what is not."""
    counts = Counter(
        _verdict(grid, place, axis) for axis, places in enumerate(survey.places) for place in places
    )
    span = Decimal(MOST - LEAST) * Decimal(unit)
    lines = [f"it spans {span.normalize():f} units in x and y"]
    for axis, places in enumerate(survey.places):
        lines.append(f"{'xy'[axis]} goes from {min(places)!r} to {max(places)!r}")
    total = sum(map(len, survey.places))
    lines.append(f"{counts['on']} of {total} different coordinates are on it")
    if counts["off"]:
        half = Decimal(unit) / 2
        lines.append(
            f"{counts['off']} are off it: with --round they move by {half.normalize():f} at most"
        )
        finest = _finest(survey)
        if Decimal(unit) == Decimal(10) ** -_roomy(survey)[-1] and 0 < finest <= Decimal(unit) / 2:
            lines.append(f"{finest.normalize():f} is the finest step with room for all: half of it is {finest / 2:f}")
    if counts["outside"]:
        lines.append(f"{counts['outside']} are too far from its origin")
    return "".join(line + "\n" for line in lines)
