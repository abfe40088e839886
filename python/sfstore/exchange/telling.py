"""What an import reports of rules: those that came with the map, and the features that break one, by their source."""

from __future__ import annotations

from collections.abc import Callable, Iterable, Mapping
from typing import NamedTuple

from sfstore.exchange.grid import Grid
from sfstore.exchange.reports import Report
from sfstore.exchange.ruling import Break, Breaks, Ruling, rule_shown
from sfstore.geometry import Shape, read_wkb, write_wkb
from sfstore.mapunits import MapUnits
from sfstore.refusals import words_of
from sfstore.results import RULE_BROKEN, Refused
from sfstore.rules import AnyRule

__all__ = ["Brought", "BroughtFeature", "Telling"]


class BroughtFeature(NamedTuple):
    """A feature of a map that was brought in."""

    identifier: int
    """Its identifier in the source."""
    geometry: bytes
    """Well-known binary, in steps of the grid."""


class Brought(NamedTuple):
    """A layer of a map that was brought in."""

    name: str
    """Its name in the source."""
    features: Callable[[], dict[int, BroughtFeature]]
    """Its features by their identifiers in the store. They are asked for where something is to be reported of them."""


class Telling:
    """Reports what became of rules. The layers are found by their names in the store."""

    def __init__(self, source: str, layers: Mapping[str, Brought], grid: Grid, report: Report) -> None:
        self._source = source
        self._layers = layers
        self._grid = grid
        self._units = MapUnits(*grid.words)
        self._report = report

    def tell(self, rulings: Iterable[Ruling]) -> None:
        """Reports rules that came with a map, in their order: one that was added as a change, else as a problem."""
        for rule, refused, breaks in rulings:
            if refused is None:
                self._report.note(self._name(rule.layer), f"the rule {rule_shown(rule, self._grid)} was added")
            elif refused.number == RULE_BROKEN:
                self.tell_broken(rule, rule.layer, breaks, f"breaks the rule {rule_shown(rule, self._grid)}, which is left out")
            else:
                self._tell_refused(rule, refused)

    def tell_broken(self, rule: AnyRule, layer: str, breaks: Breaks, reason: str) -> None:
        """Reports the features of a layer that break a rule."""
        known = {name: self._layers[name].features() for name in set(rule.layers) & self._layers.keys()}
        other = rule.layers[1] if layer == rule.layer else rule.layer
        for found in breaks.found:
            feature = known[layer][found.feature]
            shape = read_wkb(feature.geometry)
            detail = self._place(shape) + self._others(found, other, known.get(other, {}))
            self._report.problem(self._name(layer), feature.identifier, reason, detail, write_wkb(shape.mapped(self._grid.places)))
        if not breaks.is_whole:
            detail = f"{rule_shown(rule, self._grid)}: {len(breaks.found)} features that break it are named, and the others were not searched"
            self._report.problem(self._name(layer), None, "there may be more", detail)

    def _name(self, layer: str) -> str:
        """The source's name of a layer, or that of the source where it has no such layer."""
        return self._layers[layer].name if layer in self._layers else self._source

    def _tell_refused(self, rule: AnyRule, refused: Refused) -> None:
        detail = f"{rule_shown(rule, self._grid)}: {refused.number} {refused.name}, {words_of(refused.number).reason}"
        self._report.problem(self._name(rule.layer), None, "a rule is left out", detail)

    def _place(self, shape: Shape) -> str:
        """Where a feature is, by its first point: whoever has the map before them can go there."""
        x, y = shape.members[0][0][:2]
        return f"at {self._units.point_text((int(x), int(y)))}"

    def _others(self, found: Break, layer: str, known: Mapping[int, BroughtFeature]) -> str:
        """With which features of the other layer one breaks a rule: those of the source, and those that were there."""
        new = [str(known[other].identifier) for other in found.others if other in known]
        old = [str(other) for other in found.others if other not in known]
        parts = [f"{', '.join(new)} of {self._name(layer)}"] if new else []
        parts += [f"{', '.join(old)} of {layer} in the store"] if old else []
        parts += [f"{found.total - len(found.others)} more"] if found.total > len(found.others) else []
        return f", with {' and '.join(parts)}" if parts else ""
