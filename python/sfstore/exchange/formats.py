"""The formats that a map is given back in: their names, their files, and what they can't keep."""

from __future__ import annotations

import math
from collections.abc import Callable, Iterable, Mapping
from dataclasses import dataclass
from types import MappingProxyType
from typing import NamedTuple

from sfstore.exchange.columns import DATE, DATE_TIME, INTEGER, INTEGER_64, REAL, STRING, Sort, Survey, origin_of, sort_of, surveyed
from sfstore.exchange.constraints import Demanded
from sfstore.exchange.names import FreeNames
from sfstore.exchange.ogr import ExchangeError, printable
from sfstore.language import COLUMN_TYPES
from sfstore.rules import AnyRule
from sfstore.sidecar import ColumnOrigin, LayerOrigin, Sidecar
from sfstore.storefile import DATE as FILE_DATE
from sfstore.storefile import BOOL, DATETIME, FileLayer

__all__ = ["FORMATS", "RULES_MAX", "Format", "Part", "check_columns", "format_of", "parts_of", "rules_kept"]

RULES_MAX = 1_000
"""How many rules a map has at most: each costs its import a `join`, whoever has written it."""

_NO_ORIGIN = LayerOrigin("", "", "", "", [])
# How wide OGR makes the columns of a Shapefile that name no width, and texts at most.
_WIDTHS = {INTEGER: 9, INTEGER_64: 18, REAL: 24, DATE: 8}
_TEXT_WIDTH, _TEXT_WIDTH_MAX = 80, 254
# The most bytes that a file's name has before its ending.
_FILE_NAME = 200


class Part(NamedTuple):
    """A layer that is to be written, with what it was in the source, and its names there."""

    layer: FileLayer
    origin: LayerOrigin
    name: str
    """The layer's name."""
    columns: dict[int, str]
    """The names of the columns by their numbers."""
    identifier_column: str
    """The column of the identifiers, where the format has one."""
    geometry_column: str
    """The column of the geometries, where the format has one."""
    survey: Survey
    """What the layer has."""
    sorts: dict[int, Sort]
    """The types of the columns by their numbers."""
    demands: Mapping[int, frozenset[Demanded]] = MappingProxyType({})
    """What is demanded of columns, by their numbers: none of those that are not here."""

    @property
    def next_id(self) -> int:
        """The identifier that the store gives next."""
        return self.layer.next_id


@dataclass(frozen=True)
class Format:
    """A format that a map can be given back in."""

    endings: tuple[str, ...]
    """The endings of the files that make one set, the leading one first; none for a database."""
    has_layers: bool
    """Whether one file has several layers. Else each layer is a file in a folder."""
    losses: Callable[[list[Part]], list[str]]
    """What it can't keep of some layers."""
    strangers: tuple[str, ...] = ()
    """The ends of names of files that a program reads with the leading one.

    One that begins with a point stands behind the stem, another one behind the whole name.
    """
    is_folded: bool = False
    """Whether names are told apart without regard to case."""
    longest: int = 0
    """The most bytes that a column's name has, 0 where that has no end."""
    reserved_layers: tuple[str, ...] = ()
    """How names begin that no layer has."""
    reserved_columns: frozenset[str] = frozenset()
    """The names that no column has."""
    own_columns: tuple[str, str] | None = None
    """The columns of identifiers and geometries, where the source names none."""
    rules_max: int = 0
    """How many rules of a store it has a place for."""
    kept_types: frozenset[str] = frozenset((REAL,))
    """The types of columns that it has beside whole numbers and texts."""
    keeps_digits: bool = False
    """Whether it has numbers with more digits than a double."""
    keeps_identifiers: bool = True
    has_booleans: bool = True
    gives_codes: bool = False
    """Whether OGR writes a code of a reference system that has none, by its name."""
    largest_real: float = math.inf
    """Reals are below it, or their column goes out as texts."""
    most_columns: int = 0
    """How many columns a layer has at most, beside those of identifiers and geometries; 0 where that has no end."""
    record_bytes: int = 0
    """How many bytes the values of a feature take at most together, 0 where that has no end."""

    @property
    def ending(self) -> str:
        return self.endings[0] if self.endings else ""


def parts_of(
    layers: list[FileLayer], found: Sidecar, wanted: list[str], written: Format
) -> tuple[list[Part], list[str], list[str]]:
    """The layers that are to be written, in drawing order.

    With them, what is to be said of layers that were renamed, and the names that the format does
    not keep.
    """
    origins, told = _origins(layers, found)
    # That of a layer is that of a file too, where the format has one for each.
    names = FreeNames(True, _FILE_NAME) if _has_files(written) else FreeNames(written.is_folded, written.longest)
    parts, losses = [], []
    for layer in layers:
        if not wanted or layer.name in wanted:
            part, lost = _part(layer, origins.get(layer.name, _NO_ORIGIN), names, written)
            parts.append(part)
            losses += lost
    return parts, told, losses


def check_columns(parts: Iterable[Part], name: str) -> None:
    """`ExchangeError` where a format, by its name, has no room for all columns of a layer."""
    written = FORMATS[name]
    for part in parts:
        count, size = len(part.layer.columns), sum(_least_bytes(part, number) for number in part.sorts)
        what = ""
        if written.most_columns and count > written.most_columns:
            what = f"{count:,} columns, and the format has at most {written.most_columns:,}"
        elif written.record_bytes and size > written.record_bytes:
            what = f"{count:,} columns with {size:,} bytes of values for each feature, and the format has at most {written.record_bytes:,}"
        if what:
            raise ExchangeError(f"{part.layer.name} has {what}: drop columns in a copy of the store, or choose another format")


def _least_bytes(part: Part, number: int) -> int:
    """How many bytes a column of a Shapefile takes at least, as OGR makes it."""
    sort = part.sorts[number]
    if sort.type == STRING:
        longest = part.survey.texts[number].most_bytes if number in part.survey.texts else 0
        return min(max(sort.width or _TEXT_WIDTH, longest), _TEXT_WIDTH_MAX)
    return _WIDTHS.get(sort.type, 1)


def _origins(layers: list[FileLayer], found: Sidecar) -> tuple[dict[str, LayerOrigin], list[str]]:
    """What the layers were in the source, by their names, and what is to be said of renamed ones.

    The side-car knows a layer by its name alone, which another one may have by now.
    """
    told = []
    origins = {origin.name: origin for origin in found.layers}
    for layer in layers:
        if layer.name in origins and _is_younger(layer, origins[layer.name]):
            shown = printable(origins[layer.name].source_name)
            told.append(f"{layer.name} is not the layer that came from {shown}: it is a new one")
            del origins[layer.name]
    if origins.keys() - {layer.name for layer in layers} or told:
        for layer in layers:
            if layer.name not in origins:
                told.append(
                    f"{layer.name} goes back by this name, with columns of the store's types: "
                    "if it was renamed, what it was in the source is not known"
                )
    return origins, told


def _is_younger(layer: FileLayer, origin: LayerOrigin) -> bool:
    """Whether a layer has never had the columns of the one that came from the source."""
    return layer.next_column <= len(origin.columns)


def _part(
    layer: FileLayer, origin: LayerOrigin, names: FreeNames, written: Format
) -> tuple[Part, list[str]]:
    """A layer with its names in a format, and those that the format can't keep, in words."""
    told = []
    wanted = origin.source_name or layer.name
    name = _layer_name(wanted, names, written)
    if name != wanted:
        told.append(f"the name {printable(wanted)} of a layer: it is {printable(name)} there")
    known = {column.name: column for column in reversed(origin.columns)}
    columns, lost = _column_names(layer, known, written)
    told += lost
    own, lost = _own_names(origin, set(columns.values()), written)
    told += lost
    origins = _column_origins(layer, known)
    survey = surveyed(layer, origins)
    sorts = {
        column.number: sort_of(
            column, origins.get(column.number), survey, written.kept_types, written.largest_real
        )
        for column in layer.columns
    }
    told += _types_lost(layer, origins, survey, sorts, written)
    identifier_column, geometry_column = own
    return Part(layer, origin, name, columns, identifier_column, geometry_column, survey, sorts), told


def _column_names(
    layer: FileLayer, known: dict[str, ColumnOrigin], written: Format
) -> tuple[dict[int, str], list[str]]:
    """The names of columns by their numbers, and those that the format can't keep, in words."""
    told = []
    names = FreeNames(written.is_folded, written.longest, written.reserved_columns)
    columns = {}
    for column in layer.columns:
        wanted = known[column.name].source_name if column.name in known else column.name
        columns[column.number] = names.new(wanted)
        if columns[column.number] != wanted:
            told.append(
                f"the name {printable(wanted)} of a column of {layer.name}: "
                f"it is {printable(columns[column.number])} there"
            )
    return columns, told


def _own_names(origin: LayerOrigin, columns: set[str], written: Format) -> tuple[list[str], list[str]]:
    """The names of the columns of identifiers and geometries, and what is to be said of them."""
    if written.own_columns is None:
        return ["", ""], []
    told, own = [], []
    names = FreeNames(True, written.longest, columns)
    for known, usual in zip((origin.identifier_column, origin.geometry_column), written.own_columns):
        wanted = known or usual
        own.append(names.new(wanted))
        if own[-1] != wanted:
            told.append(f"the name {printable(wanted)} of a column that OGR makes: it is {own[-1]} there")
    return own, told


def _column_origins(layer: FileLayer, known: dict[str, ColumnOrigin]) -> dict[int, ColumnOrigin]:
    """What the columns were in the source, by their numbers."""
    found = ((column.number, origin_of(column, known.get(column.name))) for column in layer.columns)
    return {number: origin for number, origin in found if origin}


def _types_lost(
    layer: FileLayer, origins: dict[int, ColumnOrigin], survey: Survey, sorts: dict[int, Sort], written: Format
) -> list[str]:
    """What is to be said of columns that do not go back as the type of the source, though the format has it."""
    told = []
    for column in layer.columns:
        known = origins.get(column.number)
        texts = survey.texts.get(column.number)
        sort = sorts[column.number]
        if column.type == BOOL and not written.has_booleans:
            told.append(f"the type bool of column {column.name} of {layer.name}: it has numbers there")
        if texts is not None and texts.other_form is not None and sort.type != STRING:
            shown = printable(texts.other_form[:40])
            if not sort.is_exact:
                told.append(f"the form of texts of column {column.name} of {layer.name}, such as {shown!r}")
            elif not written.keeps_digits:
                told.append(f"digits of column {column.name} of {layer.name} that no double has, as those of {shown}")
        if column.type in (FILE_DATE, DATETIME) and sort.type == STRING:
            told.append(f"the type {COLUMN_TYPES[column.type - 1]} of column {column.name} of {layer.name}: it has texts there")
            continue
        if known is None or known.type not in written.kept_types or sort.type == known.type:
            continue
        why = ""
        if texts is not None and texts.other is not None:
            why = f", since feature {texts.other[0]} has {printable(texts.other[1][:40])!r}"
        told.append(f"the type {known.type} of column {column.name} of {layer.name}{why}")
    return told


def _has_files(written: Format) -> bool:
    """Whether a format has a file for each layer."""
    return bool(written.endings) and not written.has_layers


def _layer_name(wanted: str, names: FreeNames, written: Format) -> str:
    """The name of a layer, which is that of a file too where the format has one for each layer."""
    name = wanted
    if _has_files(written):
        name = "".join("_" if letter in "/\0" else letter for letter in name)
        return names.new("_" + name[1:] if name.startswith(".") else name)
    if name.casefold().startswith(written.reserved_layers or ("\0",)):
        name = f"x_{name}"
    return names.new(name)


def _counters(parts: list[Part]) -> list[str]:
    """A loss: the counters, where a round trip would set them back."""
    for part in parts:
        layer = part.layer
        numbers = [column.number for column in layer.columns]
        if layer.next_id > part.survey.last + 1 or numbers != list(range(1, layer.next_column)):
            return ["that identifiers or column numbers were used before, by what is deleted now"]
    return []


def _order(parts: list[Part]) -> list[str]:
    return ["the drawing order of the layers"] if len(parts) > 1 else []


def _database_losses(parts: list[Part]) -> list[str]:
    return _order(parts) + _counters(parts)


def _geojson_losses(parts: list[Part]) -> list[str]:
    losses = _order(parts) + _counters(parts)
    for part in parts:
        layer = part.layer
        empty = [column.name for column in layer.columns if column.number not in part.survey.used]
        if empty:
            losses.append(f"columns of {layer.name} without a value: {', '.join(empty)}")
        if not part.survey.count:
            losses.append(f"the kind of {layer.name}, which is empty")
    return losses


def _flatgeobuf_losses(parts: list[Part]) -> list[str]:
    return ["identifiers", *_order(parts), *_counters(parts)]


def _shapefile_losses(parts: list[Part]) -> list[str]:
    losses = ["identifiers", "the direction of rings", "whether a Multi form has one member"]
    losses += _order(parts) + _counters(parts)
    for part in parts:
        losses += _shapefile_layer_losses(part)
    return losses


def _shapefile_layer_losses(part: Part) -> list[str]:
    """What a Shapefile does not keep of a layer."""
    name = part.layer.name
    texts = [part.survey.texts[number] for number, sort in part.sorts.items() if sort.type == STRING]
    reals = [column.name for column in part.layer.columns if _has_long_reals(part, column.number)]
    numbers = part.survey.numbers
    wide = [column.name for column in part.layer.columns if column.number in numbers and _is_wide(part, column.number)]
    lost = {
        f"the bytes of texts of {name} behind the 254th": any(text.most_bytes > 254 for text in texts),
        f"empty texts of {name}: they have no value then": any(text.has_empty for text in texts),
        f"blanks at the begin and end of texts of {name}": any(text.has_blank_end for text in texts),
        f"digits of {', '.join(wide)} of {name} behind the 15th, since a number has more than 18 characters": bool(wide),
        f"decimals of {', '.join(reals)} of {name} behind the 15th": bool(reals),
        f"that {name} has no columns: it gets a column FID": not part.layer.columns,
    }
    return [loss for loss, is_lost in lost.items() if is_lost]


def _has_long_reals(part: Part, number: int) -> bool:
    return part.sorts[number].type == REAL and number in part.survey.texts and part.survey.texts[number].has_long_real


def _is_wide(part: Part, number: int) -> bool:
    return part.sorts[number].type != REAL and part.survey.numbers[number].are_wide


def rules_kept(rules: list[AnyRule], parts: Iterable[Part], written: Format) -> list[AnyRule]:
    """The rules that a format keeps: those between layers that are written, as many as it has a place for."""
    names = {part.layer.name for part in parts}
    kept = [rule for rule in rules if set(rule.layers) <= names]
    return kept[: written.rules_max]


def _no_losses(parts: Iterable[Part]) -> list[str]:
    return []


FORMATS = {
    "GPKG": Format(
        (".gpkg",),
        True,
        _no_losses,
        strangers=("-wal", "-shm", "-journal"),
        is_folded=True,
        reserved_layers=("gpkg_", "sqlite_", "rtree_"),
        own_columns=("fid", "geom"),
        rules_max=RULES_MAX,
        kept_types=frozenset((REAL, DATE, DATE_TIME)),
        gives_codes=True,
        # A table of SQLite has 2,000.
        most_columns=1_998,
    ),
    "PostgreSQL": Format(
        (),
        True,
        _database_losses,
        is_folded=True,
        longest=63,
        reserved_columns=frozenset(
            ("ctid", "xmin", "xmax", "cmin", "cmax", "tableoid", "ogc_fid", "wkb_geometry")
        ),
        own_columns=("ogc_fid", "wkb_geometry"),
        kept_types=frozenset((REAL, DATE, DATE_TIME, "DateTime without zone")),
        keeps_digits=True,
        # A table has 1,600.
        most_columns=1_598,
    ),
    "GeoJSON": Format((".geojson",), False, _geojson_losses, keeps_digits=True),
    "FlatGeobuf": Format(
        (".fgb",),
        False,
        _flatgeobuf_losses,
        kept_types=frozenset((REAL, DATE_TIME)),
        keeps_identifiers=False,
        gives_codes=True,
    ),
    "ESRI Shapefile": Format(
        (".shp", ".shx", ".dbf", ".prj", ".cpg"),
        False,
        _shapefile_losses,
        strangers=(
            *(".qix", ".qpj", ".sbn", ".sbx", ".fbn", ".fbx", ".idm", ".ind", ".ain", ".aih"),
            *(".atx", ".ixs", ".mxs", ".shp.xml", ".cst"),
        ),
        is_folded=True,
        longest=10,
        kept_types=frozenset((REAL, DATE)),
        keeps_identifiers=False,
        has_booleans=False,
        # A number has room for 24 characters, 15 of which are decimals.
        largest_real=1e15,
        # As many as its head has room for, and a record behind its mark.
        most_columns=2_046,
        record_bytes=65_534,
    ),
}
"""The formats by OGR's names."""


def format_of(target: str) -> str | None:
    """The format that a target's beginning or ending names."""
    if target.startswith("PG:"):
        return "PostgreSQL"
    for name, found in FORMATS.items():
        if found.ending and target.lower().endswith(found.ending):
            return name
    return None
