"""The command ``sfstore-export``: a store's file becomes a map of another format.

Each coordinate is the double that came in, and each feature keeps its identifier, where the format
has a place for it. What it can't keep is said before anything is written.
"""

from __future__ import annotations

import argparse
import hashlib
import os
import subprocess  # nosec B404: the store's own program is started, without a shell.
import sys
from collections.abc import Callable
from dataclasses import dataclass

from sfstore import files, journal, sidecar
from sfstore.commandline import add_version, reason_of
from sfstore.exchange import ogr, outcome, rulesfile
from sfstore.exchange.constraints import Demanded, demanded_by, rules_said, writable
from sfstore.exchange.formats import FORMATS, RULES_MAX, Part, check_columns, format_of, parts_of, rules_kept
from sfstore.exchange.geojson import crs_member
from sfstore.exchange.grid import Grid
from sfstore.exchange.others import OldFile
from sfstore.exchange.placing import Place, placed
from sfstore.exchange.postgis import write_database
from sfstore.exchange.replacing import check_none_lost
from sfstore.exchange.ruling import rule_shown
from sfstore.exchange.stamps import changed, stamps_of
from sfstore.exchange.writing import write_data
from sfstore.geometry import read_wkb
from sfstore.mapunits import MapUnits
from sfstore.program import ProgramMissing
from sfstore.rules import AnyRule, with_distance
from sfstore.sidecar import Addition, LayerOrigin, Sidecar
from sfstore.storefile import FileLayer, fault_words
from sfstore.storefile import read_with_rules as read_store

__all__ = ["Wishes", "give_back", "main"]

Say = Callable[[str], object]

NO_CRS = "that the reference system is unknown: programs take degrees"


@dataclass(frozen=True)
class Wishes:
    """What is to be given back, and where to."""

    store: str
    """The store's file."""
    target: str
    """A file, a folder, or a database ``PG:..``."""
    format: str
    """OGR's name of the format, a key of `FORMATS`."""
    layers: list[str]
    """The layers, or none for all."""
    overwrite: bool = False
    program: str = "sfstore"
    grid: Grid | None = None
    """The grid of a store without a side-car, which gets one."""
    crs: str | None = None
    """The name of its reference system."""
    rules: str | None = None
    """The file that all rules are written to."""
    is_same_map: bool = False
    """Whether the side-car is that of the store, though a program has saved the store without it."""
    constrains: bool = False
    """Whether columns of a GeoPackage are to demand what rules on values do."""


def give_back(wishes: Wishes, say: Say) -> None:
    """Writes the map, whole or not at all; ``say`` hears before what the format can't keep.

    `ogr.ExchangeError`, `sidecar.SidecarError`, `journal.JournalError` or `OSError` where nothing
    was written.
    """
    edits = journal.edits_left(wishes.store)
    if edits:
        raise ogr.ExchangeError(
            f"{wishes.store} has {edits} edits in its journal that are not saved: save them first"
        )
    if wishes.rules is not None:
        rulesfile.check(wishes.rules, wishes.overwrite)
    layers, rules, found = _loaded(wishes)
    if not layers:
        raise ogr.ExchangeError(f"{wishes.store} has no layers: there is nothing to write")
    wanted = FORMATS[wishes.format]
    for name in wishes.layers:
        if name not in (names := [layer.name for layer in layers]):
            raise ogr.ExchangeError(f"the store has no layer {name}: it has {', '.join(names)}")
    parts, told, losses = parts_of(layers, found, wishes.layers, wanted)
    for line in told:
        say(line)
    check_columns(parts, wishes.format)
    kept = rules_kept(rules, parts, wanted)
    if wishes.constrains:
        parts = [_constrained(part, rules, say) for part in parts]
    losses += wanted.losses(parts) + _blurred(parts, Grid(*found.grid))
    if wishes.format == "GeoJSON" and crs_member(found.crs) is None:
        losses.append("the reference system, which has no code: programs take degrees" if found.crs else NO_CRS)
    code = ogr.given_code(found.crs) if found.crs and not found.crs.code and wanted.gives_codes else None
    if code is not None:
        losses.append(f"that the reference system has no code: by its name it is {':'.join(code)} there")
    if wishes.rules is None:
        losses += [f"the rule {ogr.printable(rule_shown(rule, Grid(*found.grid)))}" for rule in rules if rule not in kept]
    for rule in rules[RULES_MAX:] if wishes.rules is not None else ():
        say(f"a file of rules has {RULES_MAX} at most, and is without the rule {ogr.printable(rule_shown(rule, Grid(*found.grid)))}")
    for loss in losses:
        say(f"{wishes.format} does not keep {loss}")
    for line in _left_out(wishes, parts, found):
        say(line)
    _write(wishes, parts, found, kept, say)
    if wishes.grid is not None:
        _keep_grid(wishes, found)
    if wishes.rules is not None:
        _write_rules(wishes, wishes.rules, [with_distance(rule, MapUnits(*found.grid).length) for rule in rules], say)


def _constrained(part: Part, rules: list[AnyRule], say: Callable[[str], object]) -> Part:
    """A layer whose columns demand what rules do, as far as constraints say it."""
    said = rules_said(part.layer.name, rules)
    demands: dict[int, frozenset[Demanded]] = {}
    for column in part.layer.columns:
        found: dict[str, Demanded] = {}
        for rule in said.get(column.name, []):
            demanded = demanded_by(rule)
            # A column has one list or one range.
            place = "domain" if demanded.demand in ("one-of", "range") else demanded.demand
            held = (feature.values[column.number] for feature in part.layer.features if column.number in feature.values)
            if writable(demanded, part.sorts[column.number], held) and found.get(place, demanded) == demanded:
                found[place] = demanded
            else:
                say(f"no constraint says the rule {ogr.printable(rule.line)}")
        if found:
            demands[column.number] = frozenset(found.values())
    return part._replace(demands=demands)


def _left_out(wishes: Wishes, parts: list[Part], found: Sidecar) -> list[str]:
    """What is to be said of layers of which imports have left something out, where a file is replaced that may have it.

    In a database the rows are looked at.
    """
    if not wishes.overwrite or not os.path.lexists(wishes.target):
        return []
    told = []
    for part in parts:
        lefts: list[tuple[LayerOrigin | Addition, str]] = [(part.origin, "its import")]
        lefts += [(each, f"the addition of {_shown_source(each)}") for each in found.additions if each.name == part.layer.name]
        for left, what in lefts:
            words = _left_words(left)
            if words:
                told.append(f"{part.name} is without what {what} has left out: {'; '.join(words)}. What is replaced may have them")
    if found.forgets_files:
        told.append("files were added of which the side-car has no room to name what was left out. What is replaced may have it")
    return told


def _shown_source(addition: Addition) -> str:
    return ogr.printable(addition.source) or "a database"


def _left_words(left: LayerOrigin | Addition) -> list[str]:
    """What was left out, in words."""
    return [
        *([f"{len(left.left_out)} features"] if left.left_out else []),
        *([f"parts of {len(left.parted)} features"] if left.parted else []),
        *([f"values of {len(left.without)} features"] if left.without else []),
        *(["further features or values of them, which the side-car has no room to name"] if left.cut else []),
        *([f"all of {ogr.printable(', '.join(left.left_columns))}"] if left.left_columns else []),
    ]


def _blurred(parts: list[Part], grid: Grid) -> list[str]:
    """Losses: coordinates that doubles do not tell from others, where the grid is finer than doubles are."""
    if grid.is_coarse:
        return []
    losses = []
    for part in parts:
        shapes = (read_wkb(feature.geometry) for feature in part.layer.features)
        count = sum(grid.blurred(line) for shape in shapes for member in shape.members for line in member)
        if count:
            losses.append(f"{count} coordinates of {part.layer.name}: the step is finer than doubles are there")
    return losses


def _write_rules(wishes: Wishes, path: str, rules: list[AnyRule], say: Say) -> None:
    """Writes rules to a file beside the map, as many as an import takes."""
    try:
        rulesfile.write(path, rules[:RULES_MAX], wishes.overwrite, _mode(wishes), say)
    except (ogr.ExchangeError, OSError, KeyboardInterrupt) as error:
        why = "interrupted" if isinstance(error, KeyboardInterrupt) else reason_of(error)
        raise ogr.ExchangeError(f"the map is written, but not its rules: {why}") from None


def _keep_grid(wishes: Wishes, found: Sidecar) -> None:
    """Writes the side-car of a store that had none."""
    try:
        sidecar.write(wishes.store, found, [files.digest(wishes.store)])
    except OSError as error:
        raise ogr.ExchangeError(f"the map is written, but not its grid beside the store: {reason_of(error)}") from None


def _write(wishes: Wishes, parts: list[Part], found: Sidecar, rules: list[AnyRule], say: Say) -> None:
    """Writes the map as its format has it."""
    wanted = FORMATS[wishes.format]
    if wishes.format == "PostgreSQL":
        write_database(wishes.target, parts, found, wishes.overwrite, say)
    elif wanted.has_layers or wishes.target.lower().endswith(wanted.ending):
        if not wanted.has_layers and len(parts) != 1:
            raise ogr.ExchangeError(
                f"{wishes.format} has one layer a file, and the store {len(parts)}: "
                "name a folder, or one with --layer"
            )
        _write_file(wishes, parts, found, rules, say)
    else:
        _write_folder(wishes, parts, found, say)


def _write_file(wishes: Wishes, parts: list[Part], found: Sidecar, rules: list[AnyRule], say: Say) -> None:
    """Writes one file, or the set that makes one, which takes its place when it is finished."""
    folder, name = os.path.split(os.path.abspath(wishes.target))
    wanted = FORMATS[wishes.format]
    names = [name]
    if len(wanted.endings) > 1:
        names = _names(name, wishes.format)[1:]
    place = Place(folder, names, None, wishes.overwrite, _mode(wishes))
    _check_strangers(place, wishes.format)
    before = stamps_of(place.path(name))
    if wishes.format == "GPKG" and wishes.overwrite:
        check_none_lost(place.path(name), parts, say)
    with placed(place, say) as new:
        old = [] if wanted.has_layers or not wishes.overwrite else [OldFile(place.path(name), wishes.format, parts[0])]
        for each in old:
            each.look(say)
        made = os.path.join(new, place.leading)
        write_data(made, wishes.format, parts, found, rules)
        for each in old:
            each.compare(made, say)
        _check_strangers(place, wishes.format)
        if wishes.overwrite and changed(before):
            raise ogr.ExchangeError(f"{place.path(name)} was written by another program meanwhile: try again")


def _names(target: str, name: str) -> list[str]:
    """A target, and the files of the set that it would lead: OGR names them after the stem, in small letters."""
    stem = os.path.splitext(target)[0]
    return [target, *(stem + ending for ending in FORMATS[name].endings)]


def _check_strangers(place: Place, name: str) -> None:
    """`ogr.ExchangeError` where a file stands beside that would be read with the new one."""
    for found in sorted(os.listdir(place.folder)):
        if found not in place.names and _is_read_with(found, place.leading, name):
            raise ogr.ExchangeError(
                f"{place.path(found)} would be read with the new {place.leading}, and is of "
                "another one: take it away, or name another file"
            )


def _is_read_with(found: str, leading: str, name: str) -> bool:
    """Whether a file is read with the one that leads a map of a format, by its name."""
    wanted, stem = FORMATS[name], os.path.splitext(leading)[0]
    strange = {(stem if tail.startswith(".") else leading) + tail for tail in wanted.strangers}
    if len(wanted.endings) > 1:
        strange.update(stem + ending for ending in wanted.endings)
    tails = {path[len(stem) :].casefold() for path in strange}
    return found.startswith(stem) and found[len(stem) :].casefold() in tails


def _goes_with(path: str, target: str, name: str) -> bool:
    """Whether a path is in the folder of a map, or that of a file which is read with it."""
    if name == "PostgreSQL":
        return False
    (folder, found), (map_folder, leading) = os.path.split(os.path.realpath(path)), os.path.split(os.path.realpath(target))
    in_folder = os.path.commonpath([folder, os.path.realpath(target)]) == os.path.realpath(target)
    return in_folder or (folder == map_folder and _is_read_with(found, leading, name))


def _write_folder(wishes: Wishes, parts: list[Part], found: Sidecar, say: Say) -> None:
    """Writes a folder with a file for each layer, which takes its place when it is finished."""
    wanted = FORMATS[wishes.format]
    folder, name = os.path.split(os.path.abspath(wishes.target))
    if not name:
        raise ogr.ExchangeError(f"{wishes.target} can't be replaced: name a folder in it")
    contents = frozenset(part.name + ending for part in parts for ending in wanted.endings)
    place = Place(folder, [name], contents, wishes.overwrite, _mode(wishes))
    old = [OldFile(os.path.join(place.path(name), part.name + wanted.ending), wishes.format, part) for part in parts]
    with placed(place, say) as new:
        for each in old if wishes.overwrite else []:
            each.look(say)
        made = os.path.join(new, name)
        os.mkdir(made)
        paths = [os.path.join(made, part.name + wanted.ending) for part in parts]
        for part, path in zip(parts, paths):
            write_data(path, wishes.format, [part], found)
        for each, path in zip(old, paths):
            each.compare(path, say)


def _mode(wishes: Wishes) -> int:
    """What the store's file lets others do, which is the most that a new file of it does."""
    return os.stat(wishes.store).st_mode & 0o777


def _loaded(wishes: Wishes) -> tuple[list[FileLayer], list[AnyRule], Sidecar]:
    """The layers and rules of a file that the program loads, with its side-car.

    `ogr.ExchangeError` with the place of its fault, or where it is written meanwhile.
    """
    path = wishes.store
    before = files.digest(path) if os.path.exists(path) else ""
    words = [wishes.program, f"--load={path}"]
    try:
        ended = subprocess.run(  # nosec B603: a list of words, of which one is a path.
            words, stdin=subprocess.DEVNULL, stdout=subprocess.PIPE
        )
    except FileNotFoundError:
        raise ProgramMissing(words[0]) from None
    if ended.returncode:
        last = ended.stdout.decode("utf-8", "replace").strip()
        raise ogr.ExchangeError(f"{path} does not load: {fault_words(path, last)}")
    with open(path, "rb") as file:
        data = file.read()
    found = _sidecar(wishes)
    if not before == hashlib.sha256(data).hexdigest() == files.digest(path):
        raise ogr.ExchangeError(f"{path} is being written by another program: try again")
    return *read_store(data), found


def _sidecar(wishes: Wishes) -> Sidecar:
    """The side-car of the store, or one of the grid and reference system that are wished.

    `sidecar.SidecarError` where it is not as it has to be.
    """
    sidecar.settle(wishes.store)
    path = sidecar.path_of(wishes.store)
    if wishes.grid is not None:
        sidecar.check_none(wishes.store)
        crs = ogr.crs_named(wishes.crs) if wishes.crs else None
        return Sidecar(wishes.grid.words, crs, [])
    found = sidecar.read(wishes.store, wishes.is_same_map)
    try:
        Grid(*found.grid)
    except ValueError as error:
        raise sidecar.SidecarError(f"{path} has no grid: {error}") from None
    return found


def _parser() -> argparse.ArgumentParser:
    parser = argparse.ArgumentParser(
        prog="sfstore-export",
        usage="%(prog)s FILE TARGET [OPTION]..",
        description="Gives the store's FILE back as a map: a .gpkg, tables of PostGIS (PG:dbname=..), one layer "
        "as a .geojson, .fgb or .shp, or a folder of these.",
        epilog=f"Status 0: it was written; 2: wrong words; {outcome.EPILOG} "
        "More: man sfstore-export, docs/use/EXCHANGE.md",
    )
    parser.add_argument("file", help=argparse.SUPPRESS)
    parser.add_argument("target", help=argparse.SUPPRESS)
    parser.add_argument(
        "--format", choices=list(FORMATS), metavar="FORMAT", help=f"for a folder: {', '.join(FORMATS)}"
    )
    parser.add_argument("--layer", action="append", default=[], metavar="NAME", help="a layer of the store; repeated")
    parser.add_argument(
        "--grid", nargs=3, metavar=("OX", "OY", "STEP"), help="the grid of a store that was not imported"
    )
    parser.add_argument("--crs", help="its reference system, such as EPSG:25832")
    parser.add_argument("--same-map", action="store_true", help="the side-car is the store's for certain")
    parser.add_argument("--rules", metavar="RULES", help="write the rules to this file, for --rules of sfstore-import")
    parser.add_argument("--constraints", action="store_true", help="of a .gpkg: columns demand what rules on values do")
    parser.add_argument("--overwrite", action="store_true", help="replace files of the names that are written")
    parser.add_argument("--program", default="sfstore", help="the program sfstore")
    add_version(parser)
    return parser


def main(words: list[str] | None = None) -> int:
    """Carries out the command, and gives its status."""
    parser = _parser()
    asked = parser.parse_intermixed_args(words)
    name = asked.format or format_of(asked.target)
    if name is None:
        parser.error("the target names no format: end it with .gpkg, or say --format")
    if asked.constraints and name != "GPKG":
        parser.error("--constraints goes with a .gpkg")
    if asked.crs and not asked.grid:
        parser.error("--crs goes with --grid")
    if asked.same_map and asked.grid:
        parser.error("--same-map takes the grid of the side-car: leave out --grid")
    store = os.path.realpath(asked.file)
    own = {store, *sidecar.beside(store)}
    written = {os.path.realpath(path) for path in _names(asked.target, name)}
    if own & written:
        parser.error("the target is the store's own file")
    if asked.rules and (os.path.realpath(asked.rules) in own | written or _goes_with(asked.rules, asked.target, name)):
        parser.error("store, map and rules are different files, and no rules stand in the folder of a map or are read with it")
    try:
        grid = Grid(*asked.grid) if asked.grid else None
    except ValueError as error:
        parser.error(str(error))
    wishes = Wishes(
        store,
        asked.target,
        name,
        asked.layer,
        asked.overwrite,
        asked.program,
        grid,
        asked.crs,
        asked.rules,
        asked.same_map,
        asked.constraints,
    )

    def work() -> int:
        give_back(wishes, lambda line: print(line, file=sys.stderr, flush=True))
        return 0

    return outcome.ended("sfstore-export", work, asked.target)


if __name__ == "__main__":
    sys.exit(main())
