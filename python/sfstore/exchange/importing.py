"""The command ``sfstore-import``: a map of a format that OGR opens becomes a store's file.

A feature is taken where its coordinates are on the grid and the program takes its geometry. All
that is not taken is reported by layer, identifier and reason.
"""

from __future__ import annotations

import argparse
import contextlib
import os
import re
import sys
from collections import Counter
from collections.abc import Callable, Iterable, Iterator
from dataclasses import dataclass, replace
from decimal import Decimal
from fractions import Fraction
from functools import partial
from typing import NamedTuple

from sfstore import sidecar
from sfstore.commandline import add_version, reason_of
from sfstore.exchange import ogr, outcome, rulesfile, wayback
from sfstore.exchange.adding import Broken, add
from sfstore.exchange.constraints import rules_of
from sfstore.exchange.covering import clean_layer, width_of
from sfstore.exchange.grid import Grid
from sfstore.exchange.layers import Layer, Source
from sfstore.exchange.names import Names
from sfstore.exchange.publishing import check_target, publish
from sfstore.exchange.reading import LayerImport, Taking
from sfstore.exchange.reports import FEATURE_FORMATS, Report, check_replaced
from sfstore.exchange.ruling import rule_shown
from sfstore.exchange.sources import check_unchanged, of_one_moment, open_source
from sfstore.exchange.stamps import stamps_of
from sfstore.exchange.suggesting import suggestion
from sfstore.exchange.telling import Brought, BroughtFeature, Telling
from sfstore.extents import Box, extent_of
from sfstore.geometry import read_wkb
from sfstore.language import COLUMN_TYPES, LAYERS_MAX
from sfstore.mapunits import MapUnits, NoPlace
from sfstore.refusals import words_of
from sfstore.results import Column, Refused
from sfstore.rules import AnyRule, ValueRule, with_distance
from sfstore.sidecar import Addition, Crs, Sidecar
from sfstore.store import Store
from sfstore.storefile import FileLayer
from sfstore.surroundings import points_far_off

__all__ = ["Result", "Wishes", "add_in", "bring_in", "main", "parser"]


# How much of the name of a reference system is shown.
_NAME_SHOWN = 80
# How many constraints of columns are shown.
_CONSTRAINTS_SHOWN = 8


@dataclass(frozen=True)
class Wishes:
    """What is to be brought in, and how."""

    source: str
    """What OGR opens."""
    target: str
    """The store's file."""
    grid: Grid | None
    """None where a GeoPackage that was exported from a store tells it."""
    layers: list[str]
    """The layers, in drawing order, or none for all in their order."""
    rounds: bool = False
    """Whether coordinates off the grid move to the nearest step."""
    drops_zm: bool = False
    """Whether Z and M are dropped."""
    as_text: bool = False
    """Whether columns of other types become texts."""
    overwrite: bool = False
    program: str = "sfstore"
    any_format: bool = False
    """Whether the source may be of any format that OGR opens."""
    rules: str | None = None
    """A file of rules that a new store is to have."""
    parts_collections: bool = False
    """Whether each member of a collection becomes a feature."""
    mends: bool = False
    """Whether geometries that the program refuses are mended."""
    width: Fraction | None = None
    """How narrow overlaps and gaps of areas are that are taken away, in units of the source; none where all stay."""
    is_same_map: bool = False
    """Whether the side-car is that of the store, though a program has saved the store without it."""
    takes_constraints: bool = False
    """Whether what the source demands of columns becomes rules of a new store."""
    given_way: str = ""
    """The digest of the one store that gives way though nothing else does; empty where none does."""

    def taking(self, keeps_identifiers: bool = True) -> Taking:
        """How features are taken."""
        return Taking(
            self.program,
            self.rounds,
            self.drops_zm,
            self.as_text,
            self.parts_collections,
            self.mends,
            keeps_identifiers,
            os.path.dirname(os.path.realpath(self.target)),
        )


class Result(NamedTuple):
    """What became of an import."""

    report: Report
    crs: Crs | None
    """The reference system of the source."""
    said: str = ""
    """What is to be said beside the report."""
    fault: str = ""
    """Why nothing was written, though all was read; empty where it was written."""


class _SourceLayer(NamedTuple):
    """A layer, and the source that it is of."""

    source: Source
    layer: Layer

    @property
    def name(self) -> str:
        return self.layer.name


def _way_back(source: Source, report: Report) -> wayback.WayBack:
    """What an export has left in a GeoPackage, or nothing."""
    if not source.metadata:
        return wayback.WayBack()
    try:
        return wayback.read(source.metadata)
    except ValueError as error:
        detail = f"metadata {wayback.ITEM} that no export leaves: {error}"
        report.problem(os.path.basename(source.path), None, "left aside", detail)
        return wayback.WayBack()


def _chosen_layers(
    sources: list[Source], wanted: list[str], left: wayback.WayBack
) -> list[_SourceLayer]:
    """The layers of sources: those wanted in their order, else all, as an export has told."""
    layers = [_SourceLayer(source, layer) for source in sources for layer in source.layers]
    names = [layer.name for layer in layers]
    for name in wanted:
        if name not in names:
            shown = ogr.printable(", ".join(names))
            raise ogr.ExchangeError(f"the source has no layer {name!r}: it has {shown}")
    if wanted:
        # Files of a folder may have layers of one name, and all of them are meant.
        return [layer for name in dict.fromkeys(wanted) for layer in layers if layer.name == name]
    order = {name: place for place, name in enumerate(left.layers)}
    return sorted(layers, key=lambda layer: order.get(layer.name, len(order)))


def bring_in(wishes: Wishes) -> Result:
    """Makes a store's file of a source.

    `ogr.ExchangeError`, `journal.JournalError` or `OSError` where nothing was written.
    """
    check_target(wishes.target, wishes.overwrite, wishes.given_way)
    rules = [] if wishes.rules is None else rulesfile.read(wishes.rules)
    report = Report(_shown_source(wishes))
    with _heard(wishes, report):
        sources = _opened(wishes, report)
        left = _way_back(sources[0], report)
        grid = wishes.grid or left.grid
        if grid is None:
            raise ogr.ExchangeError("the grid is missing: say --grid OX OY STEP, or ask with --suggest")
        with of_one_moment(sources):
            chosen = _readable(_chosen_layers(sources, wishes.layers, left), wishes, report)
            crs, layers = _of_one_crs(chosen, report)
            contents, readings = _read_layers(wishes, layers, grid, left, report)
        if wishes.width is not None:
            contents = [clean_layer(*each, grid, wishes.width, report) for each in zip(contents, readings)]
    found = Sidecar(grid.words, crs, [reading.origin() for reading in readings])
    units, before = MapUnits(*grid.words), MapUnits(*(left.grid or grid).words)
    # What an export leaves is in steps of its own grid, and what people write in the units of the map.
    all_rules = _on_grid(left.rules, lambda steps: units.reach(before.length(steps)), wishes, report) + _on_grid(rules, units.reach, wishes, report)
    all_rules += _constraints(wishes, readings, all_rules, report)
    target, overwrite, given_way = wishes.target, wishes.overwrite, wishes.given_way
    rulings = publish(target, contents, found, wishes.program, overwrite, all_rules, sources, given_way)
    brought = {
        content.name: Brought(reading.source_name, partial(_features, content, reading))
        for content, reading in zip(contents, readings)
    }
    Telling(_shown_source(wishes), brought, grid, report).tell(rulings)
    return Result(report, crs)


def _on_grid(rules: list[AnyRule], to_steps: Callable[[Decimal], Decimal], wishes: Wishes, report: Report) -> list[AnyRule]:
    """Rules with their distances in steps of the grid. One whose distance is none of the grid is left out."""
    found = []
    for rule in rules:
        try:
            found.append(with_distance(rule, to_steps))
        except NoPlace as error:
            report.problem(_shown_source(wishes), None, "a rule is left out", f"{rule.line}: {error}")
    return found


def _constraints(wishes: Wishes, readings: list[LayerImport], said: list[AnyRule], report: Report) -> list[ValueRule]:
    """Rules for what the source demands of columns, where that is wanted. Else the report says that they are left aside."""
    rules = rules_of((each for reading in readings for each in reading.constraints()), said)
    if not rules or wishes.takes_constraints:
        return rules
    shown = ", ".join(f"{rule.demand} {rule.layer} {rule.column}" for rule in rules[:_CONSTRAINTS_SHOWN])
    more = ", .." if len(rules) > _CONSTRAINTS_SHOWN else ""
    report.note(_shown_source(wishes), f"constraints of columns are left aside: {shown}{more} (--constraints makes rules of them)")
    return []


def _shown_source(wishes: Wishes) -> str:
    """The name of a source in the report. That of a database may have a password in it."""
    return "the database" if wishes.source.startswith("PG:") else os.path.basename(wishes.source)


@contextlib.contextmanager
def _heard(wishes: Wishes, report: Report) -> Iterator[None]:
    """Reports what OGR warns of while it reads: it may have changed something."""
    with ogr.hearing() as warnings:
        try:
            yield
        except BaseException:
            for warning in warnings:
                print(ogr.warned(warning), file=sys.stderr)
            raise
    for warning in warnings:
        report.problem(_shown_source(wishes), None, "OGR warns", warning)


def _opened(wishes: Wishes, report: Report) -> list[Source]:
    """The sources that open. Others are reported."""
    opened = open_source(wishes.source, wishes.any_format)
    for name, reason in opened.left_out:
        report.problem(name, None, "does not open", reason)
    if not any(source.layers or source.plain_tables for source in opened.sources):
        raise ogr.ExchangeError(f"{ogr.printable(_shown_source(wishes))} has no layers: a file may be cut off")
    for source in opened.sources:
        report.sources.add(os.path.basename(source.path))
        # Whoever names layers has not asked for these.
        for table in source.plain_tables if not wishes.layers else ():
            report.problem(table, None, "a table without geometries", "its rows are left out")
        if not source.is_looked_at:
            report.note(os.path.basename(source.path), "its values are those that OGR reads, which may be others than the source's")
        if source.besides:
            report.note(os.path.basename(source.path), f"a store has no place for what it has besides: {'; '.join(source.besides)}")
    return opened.sources


def _features(content: FileLayer, reading: LayerImport) -> dict[int, BroughtFeature]:
    """The features of a layer by their identifiers in the store."""
    return {
        feature.id: BroughtFeature(reading.source_identifier(feature.id), feature.geometry)
        for feature in content.features
    }


def _read_layers(
    wishes: Wishes,
    layers: list[_SourceLayer],
    grid: Grid,
    left: wayback.WayBack,
    report: Report,
) -> tuple[list[FileLayer], list[LayerImport]]:
    """The layers as the store is to have them, and what has read them."""
    if len(layers) > LAYERS_MAX:
        raise ogr.ExchangeError(f"the source has {len(layers):,} layers, and a store at most {LAYERS_MAX:,}")
    names = Names()
    contents, readings = [], []
    for (_, layer), shown in zip(layers, _shown_names(layers)):
        told = left.layers.get(layer.name)
        name = names.new(told.store_name if told else layer.name)
        if name != layer.name:
            report.note(shown, f"the layer has the name {name}")
        reading = LayerImport(layer, name, grid, wishes.taking(), told, report, shown=shown)
        contents.append(reading.read())
        readings.append(reading)
        if told is not None:
            wayback.take_counters(contents[-1], told)
    return contents, readings


def _shown_names(layers: list[_SourceLayer]) -> list[str]:
    """The names of layers in the report. Those that several have are told apart by their sources."""
    counts = Counter(layer.name for layer in layers)
    return [
        layer.name
        if counts[layer.name] == 1
        else f"{layer.name} ({os.path.basename(layer.source.path)})"
        for layer in layers
    ]


def add_in(wishes: Wishes) -> Result:
    """Adds a source to the store of a file that is there, as one step of its history where a group has room for it.

    `ogr.ExchangeError`, `journal.JournalError`, `sidecar.SidecarError` or `OSError` where nothing was added.
    """
    path = os.path.realpath(wishes.target)
    if not os.path.isfile(path):
        raise ogr.ExchangeError(f"{wishes.target} is no store that is there: leave out --add")
    report = Report(_shown_source(wishes))
    with _heard(wishes, report):
        sources = _opened(wishes, report)
    # It is held from here on, so that its layers stay as they are.
    store = Store(path, journal=True, program=wishes.program, warn_far_off=False)
    try:
        return _added(wishes, store, path, sources, report)
    finally:
        store.close(save=False)


def _added(wishes: Wishes, store: Store, path: str, sources: list[Source], report: Report) -> Result:
    """Adds sources to a store."""
    known = _known(path, wishes)
    grid = Grid(*known.grid)
    left = _way_back(sources[0], report)
    if left.rules:
        report.note(_shown_source(wishes), f"{len(left.rules)} rules of it are left aside")
    with _heard(wishes, report), of_one_moment(sources):
        chosen = _readable(_chosen_layers(sources, wishes.layers, left), wishes, report)
        crs, layers = _of_one_crs(chosen, report, known.crs)
        contents, readings = _read_into(wishes, store, layers, known, left, report)
    check_unchanged(sources)
    # It is noted before: behind an addition that breaks off features may be there.
    noted = known.with_additions(_additions(wishes, zip(contents, readings)))
    if noted != known and known.digests:
        sidecar.write(path, noted, known.digests)
    extent = extent_of(store)
    added = add(store, path, wishes.program, contents)
    names = {content.name: reading.source_name for content, reading in zip(contents, readings)}
    if added.refused is not None:
        if noted != known and known.digests:
            sidecar.write(path, known, known.digests)
        report.taken.clear()
        brought = {
            content.name: Brought(names[content.name], partial(_numbered, content, added.identifiers))
            for content in contents
        }
        telling = Telling(_shown_source(wishes), brought, grid, report)
        for rule, layer, breaks in added.broken:
            telling.tell_broken(rule, layer, breaks, f"breaks the rule {rule_shown(rule, grid)}")
        return Result(report, crs, fault=_fault(added.refused, added.broken, grid))
    for layer, identifiers in added.identifiers.items():
        report.note(names[layer], f"they are {identifiers[0]} to {identifiers[-1]} of {layer}")
    if extent is not None:
        _tell_far_off(contents, names, extent, MapUnits(*known.grid), report)
    return Result(report, crs, _steps(wishes.target, added.steps))


def _tell_far_off(contents: list[FileLayer], names: dict[str, str], extent: Box, units: MapUnits, report: Report) -> None:
    """Tells of features that were added far off a map that reached so far before: mostly that is a mistake."""
    for content in contents:
        far = points_far_off(extent, (read_wkb(feature.geometry) for feature in content.features))
        if far:
            said = "1 feature lies" if len(far) == 1 else f"{len(far)} features lie"
            report.note(names[content.name], f"{said} far off the map, as at {units.point_text(far[0])}: is it meant? `undo` takes all that was added back")


def _known(path: str, wishes: Wishes) -> Sidecar:
    """The side-car of a store, or where it has none one of a grid. `sidecar.SidecarError` for both, and for neither."""
    if wishes.grid is None:
        found = sidecar.read(path, wishes.is_same_map)
        try:
            Grid(*found.grid)
        except ValueError as error:
            raise sidecar.SidecarError(f"{sidecar.path_of(path)} has no grid: {error}") from None
        return found
    sidecar.settle(path)
    sidecar.check_none(path)
    return Sidecar(wishes.grid.words, None, [])


def _read_into(
    wishes: Wishes,
    store: Store,
    layers: list[_SourceLayer],
    known: Sidecar,
    left: wayback.WayBack,
    report: Report,
) -> tuple[list[FileLayer], list[LayerImport]]:
    """Those layers of a source that a store has, with their features that it takes. The others are reported."""
    taking = wishes.taking(keeps_identifiers=False)
    kinds = {layer.name: layer.kind for layer in store.layers()}
    origins = {origin.source_name: wayback.left_of(origin) for origin in known.layers}
    names = Names()
    contents, readings = [], []
    for (_, layer), shown in zip(layers, _shown_names(layers)):
        told = left.layers.get(layer.name) or origins.get(layer.name)
        name = names.new(told.store_name if told else layer.name)
        if name not in kinds:
            detail = f"{name}: its {layer.count()} features are left out"
            report.problem(shown, None, "the store has no such layer", detail)
            continue
        columns = store.columns(name)
        types = {column.name: column.type for column in columns}
        reading = LayerImport(
            layer, name, Grid(*known.grid), taking, told, report, kinds[name], types, shown
        )
        contents.append(_fitted(reading.read(), columns, reading.source_name, report))
        readings.append(reading)
    return contents, readings


def _additions(wishes: Wishes, read: Iterable[tuple[FileLayer, LayerImport]]) -> Iterator[Addition]:
    """What is left out of layers that are added, of those that lose something."""
    source = "" if wishes.source.startswith("PG:") else os.path.basename(wishes.source)
    for content, reading in read:
        origin = reading.origin()
        kept = {column.name for column in content.columns}
        gone = [column.source_name for column in origin.columns if column.name not in kept]
        addition = Addition(
            content.name,
            source,
            origin.source_name,
            origin.left_out,
            origin.without,
            [*origin.left_columns, *gone],
            origin.cut,
            origin.identifier_column,
            origin.parted,
        )
        if content.features and addition.has_losses:
            yield addition


def _fitted(content: FileLayer, columns: list[Column], source_name: str, report: Report) -> FileLayer:
    """A layer with those of its columns that the store has. The others are reported."""
    types = {column.name: column.type for column in columns}
    kept = [column for column in content.columns if types.get(column.name) == COLUMN_TYPES[column.type - 1]]
    for column in content.columns:
        if column not in kept:
            detail = f"{column.name} {COLUMN_TYPES[column.type - 1]}: its values are left out"
            report.problem(source_name, None, "the store's layer has no such column", detail)
    return replace(content, columns=kept)


def _numbered(content: FileLayer, identifiers: dict[str, list[int]]) -> dict[int, BroughtFeature]:
    """The features of a layer by identifiers in the order of the source."""
    numbers = identifiers.get(content.name, [])
    return {number: BroughtFeature(feature.id, feature.geometry) for number, feature in zip(numbers, content.features)}


def _fault(refused: Refused, broken: list[Broken], grid: Grid) -> str:
    """Why nothing was added, in words."""
    why = "; ".join(dict.fromkeys(ogr.printable(rule_shown(each.rule, grid)) for each in broken))
    if refused.rule and not broken:
        # As a whole the map keeps it, or memory ran out for the search.
        why = f"{refused.rule}, by a step of the map that is not all of it, or by features that could not be listed"
    reason = words_of(refused.number).reason
    return f"nothing was added. Refused {refused.number} {refused.name}, {reason}{f': {why}' if why else ''}"


def _steps(target: str, steps: int) -> str:
    """What is said of the steps that were made."""
    if steps == 0:
        return "nothing was added\n"
    many = "1 step is" if steps == 1 else f"{steps} steps are"
    return f"{many} in the journal of {target}, and not saved yet: `undo` takes {'it' if steps == 1 else 'each'} back\n"


def _is_same(crs: Crs | None, other: Crs | None) -> bool:
    """Whether two reference systems are one: by their codes where both have one, else by all that is known."""
    if crs is not None and other is not None and crs.code and other.code:
        return (crs.authority, crs.code) == (other.authority, other.code)
    return crs == other


def _shown_crs(crs: Crs | None) -> str:
    """A reference system by its code, else by the name in its text: two without a code may be two."""
    if crs is None or crs.code:
        return str(crs or "none")
    name = re.search(r'"([^"]+)"', crs.wkt)
    return f"{crs} ({ogr.printable(name[1][:_NAME_SHOWN])})" if name else str(crs)


def _readable(layers: list[_SourceLayer], wishes: Wishes, report: Report) -> list[_SourceLayer]:
    """The layers of which nothing else would be read. Others are told.

    `ogr.ExchangeError` where somebody has named such a one, or there are no others: no store is to give way to nothing.
    """
    faults = [(found, fault) for found in layers if (fault := found.layer.fault())]
    if faults and (wishes.layers or len(faults) == len(layers)):
        found, fault = faults[0]
        raise ogr.ExchangeError(f"layer {ogr.printable(found.name)} can't be read: {fault}")
    for found, fault in faults:
        report.problem(found.name, None, "the layer is left out", fault)
    return [found for found in layers if all(found is not other for other, _ in faults)]


def _of_one_crs(
    layers: list[_SourceLayer], report: Report, wanted: Crs | None = None
) -> tuple[Crs | None, list[_SourceLayer]]:
    """A reference system, that of the first layer where none is wanted, and the layers that have it. Others are told."""
    crs = wanted
    taken: list[_SourceLayer] = []
    for found in layers:
        layer = found.layer
        if not layer.has_geometries:
            detail = f"its {layer.count()} rows are left out"
            report.problem(found.name, None, "a layer without geometries", detail)
            continue
        its_crs = layer.crs()
        if not taken and wanted is None:
            crs = its_crs
        if not _is_same(its_crs, crs):
            detail = f"{_shown_crs(its_crs)} in place of {_shown_crs(crs)}: the layer is left out"
            report.problem(found.name, None, "another reference system", detail)
            continue
        taken.append(found)
    return crs, taken


class _OneScreen(argparse.HelpFormatter):
    """Writes the help without a blank line at its end, so that it fits on a screen."""

    def format_help(self) -> str:
        return super().format_help().replace("\n\nStatus", "\nStatus").replace("\n\nMakes", "\nMakes")


def parser() -> argparse.ArgumentParser:
    """The words of the command."""
    wanted = argparse.ArgumentParser(
        prog="sfstore-import",
        usage="%(prog)s SOURCE FILE --grid OX OY STEP, %(prog)s SOURCE FILE --add, or %(prog)s --suggest SOURCE",
        epilog="Status 0: all was taken; 1: not all; 2: wrong words; "
        f"{outcome.EPILOG} More: man sfstore-import, docs/use/EXCHANGE.md",
        add_help=False,
        formatter_class=_OneScreen,
    )
    # What it does is the options' heading: so all fits on a screen.
    options = wanted.add_argument_group("Makes the store's FILE of PG:dbname=.., or of a .gpkg, .geojson, .fgb or .shp")
    options.add_argument("-h", "--help", action="help", help="show this help message and exit")
    wanted.add_argument("source", help=argparse.SUPPRESS)
    wanted.add_argument("file", nargs="?", help=argparse.SUPPRESS)
    options.add_argument(
        "--grid", nargs=3, metavar=("OX", "OY", "STEP"), help="origin and step, in units of the source"
    )
    options.add_argument("--suggest", action="store_true", help="look at the source and propose a grid")
    options.add_argument("--round", action="store_true", help="move coordinates to the nearest step")
    options.add_argument("--drop-zm", action="store_true", help="drop Z and M")
    options.add_argument("--as-text", action="store_true", help="keep columns of other types as texts")
    options.add_argument("--part-collections", action="store_true", help="make a feature of each member of a collection")
    options.add_argument("--mend", action="store_true", help="mend geometries that are refused, and report each")
    options.add_argument("--clean", type=width_of, metavar="D", help="take away narrower overlaps and gaps, and report each")
    options.add_argument(
        "--layer", action="append", default=[], metavar="NAME", help="a layer of the source; repeated, in drawing order"
    )
    options.add_argument("--any-format", action="store_true", help="read whatever OGR opens")
    options.add_argument("--add", action="store_true", help="add to the store of FILE, as one step of its history")
    options.add_argument("--same-map", action="store_true", help="with --add: the side-car is the store's for certain")
    options.add_argument("--rules", metavar="RULES", help="add the rules of this file to the new store")
    options.add_argument("--constraints", action="store_true", help="make rules of what columns demand")
    options.add_argument("--report", metavar="FILE", help="write all that did not fit as text")
    options.add_argument("--faulty", metavar="FILE", help="write what did not fit, .geojson or .gpkg")
    options.add_argument("--overwrite", action="store_true", help="replace files, reports too")
    options.add_argument("--program", default="sfstore", help="the program sfstore")
    add_version(options)
    return wanted


def _grid_of(wanted: argparse.ArgumentParser, words: list[str] | None) -> Grid | None:
    """The grid of words, if there are any. Ends with status 2 where they make none."""
    if words is None:
        return None
    try:
        return Grid(*words)
    except ValueError as error:
        wanted.error(str(error))


def _check_files(wanted: argparse.ArgumentParser, asked: argparse.Namespace) -> None:
    """Ends with status 2 where two of the files that are named are one, or one is read with the source."""
    if asked.faulty and os.path.splitext(asked.faulty)[1].lower() not in FEATURE_FORMATS:
        wanted.error(f"{asked.faulty}: faulty features go to a {' or a '.join(FEATURE_FORMATS)}")
    store = os.path.realpath(asked.file)
    named = [os.path.realpath(asked.source), store, *sidecar.beside(store)]
    named += [os.path.realpath(path) for path in (asked.report, asked.faulty, asked.rules) if path]
    of_source = {os.path.realpath(path) for path in stamps_of(asked.source)}
    if len(set(named)) < len(named) or of_source.intersection(named[1:]):
        wanted.error("source, store, rules, report and faulty features are different files")


def main(words: list[str] | None = None, given_way: str = "") -> int:
    """Carries out the command, and gives its status.

    The store whose digest is ``given_way`` is replaced as if ``--overwrite`` were said, and no report is.
    """
    wanted = parser()
    asked = wanted.parse_intermixed_args(words)
    grid = _grid_of(wanted, asked.grid)
    if asked.suggest:
        return outcome.ended("sfstore-import", lambda: _suggest(asked))
    if asked.file is None:
        wanted.error("the store's file is missing")
    if asked.same_map and not asked.add:
        wanted.error("--same-map goes with --add")
    if asked.rules and asked.add:
        wanted.error("--rules goes with a new store, and not with --add")
    if asked.constraints and asked.add:
        wanted.error("--constraints goes with a new store, and not with --add")
    if asked.clean is not None and asked.add:
        wanted.error("--clean goes with a new store, and not with --add: the console has `clean LAYER within D`")
    _check_files(wanted, asked)
    return outcome.ended("sfstore-import", lambda: _bring_in(asked, grid, given_way), asked.file)


def _suggest(asked: argparse.Namespace) -> int:
    opened = open_source(asked.source, asked.any_format)
    for name, reason in opened.left_out:
        print(f"{ogr.printable(name)} does not open: {reason}", file=sys.stderr)
    chosen = _chosen_layers(opened.sources, asked.layer, wayback.WayBack())
    with of_one_moment(opened.sources):
        faults = {found.layer: found.layer.fault() for found in chosen}
        for layer, fault in faults.items():
            if fault:
                print(f"{ogr.printable(layer.name)} is left out: {fault}", file=sys.stderr)
        looked_at = [layer for layer, fault in faults.items() if not fault]
        print(suggestion(looked_at, asked.drop_zm, asked.part_collections), end="")
    return 0


def _mode(store: str) -> int:
    """What a store's file lets others do, which is the most that a report of it does."""
    try:
        return os.stat(store).st_mode & 0o777
    except FileNotFoundError:
        return 0o600


def _bring_in(asked: argparse.Namespace, grid: Grid | None, given_way: str) -> int:
    for path in (asked.report, asked.faulty):
        if path and os.path.lexists(path) and not asked.overwrite:
            raise ogr.ExchangeError(f"{path} is there already: --overwrite replaces it")
        if path and os.path.isfile(path):
            check_replaced(path)
    wishes = Wishes(
        asked.source,
        asked.file,
        grid,
        asked.layer,
        asked.round,
        asked.drop_zm,
        asked.as_text,
        asked.overwrite,
        asked.program,
        asked.any_format,
        asked.rules,
        asked.part_collections,
        asked.mend,
        asked.clean,
        asked.same_map,
        asked.constraints,
        given_way,
    )
    report, crs, said, fault = add_in(wishes) if asked.add else bring_in(wishes)
    try:
        print(report.summary() + said, end="", flush=True)
        if asked.report:
            report.write_text(asked.report, asked.overwrite, _mode(asked.file))
        if asked.faulty:
            report.write_features(asked.faulty, crs, asked.overwrite, _mode(asked.file))
    except (ogr.ExchangeError, OSError, KeyboardInterrupt) as error:
        what = "interrupted" if isinstance(error, KeyboardInterrupt) else reason_of(error)
        done = "all is in the journal" if asked.add else "the store's file is written"
        print(f"sfstore-import: {fault or done}, but: {what}", file=sys.stderr)
        return 3 if fault else 1
    if fault:
        print(f"sfstore-import: {fault}", file=sys.stderr)
        return 3
    return 1 if report.problems else 0


if __name__ == "__main__":
    sys.exit(main())
