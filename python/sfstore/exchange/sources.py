"""What an import opens: layers that OGR reads, and GeoJSON, which Python's own JSON reads."""

from __future__ import annotations

import contextlib
import os
import re
from collections.abc import Callable, Iterable, Iterator, Mapping, Sequence
from functools import partial, reduce
from operator import and_
from typing import Any, NamedTuple

from sfstore.exchange import jsontext, ogr, wayback
from sfstore.exchange.archives import check_size, is_zip
from sfstore.exchange.asking import literal, rows_of, tables_of
from sfstore.exchange.besides import besides
from sfstore.exchange.fields import Fields
from sfstore.exchange.jsonlayer import JsonLayer
from sfstore.exchange.layers import STRANGER, Feature, Layer, Lost, Source
from sfstore.exchange.shapefiles import beside, deleted_records, index_fault, set_faults, table_fault
from sfstore.exchange.srids import strangers
from sfstore.exchange.stamps import BESIDE, archive_of, changed, mode_of, stamps_of
from sfstore.exchange.tables import fault_of
from sfstore.exchange.views import check_end
from sfstore.sidecar import Crs

__all__ = ["Opened", "check_unchanged", "mode_for", "of_one_moment", "open_source"]

_SHAPEFILE, _FLATGEOBUF, _DATABASE = "ESRI Shapefile", "FlatGeobuf", "PostgreSQL"
# The formats whose files say how many features they have, so that one that was cut is seen.
_COUNTED = (_SHAPEFILE, _FLATGEOBUF)
# Tables and views of a database in which no column has a geometry, by names as OGR has them.
_PLAIN_TABLES = """
    SELECT CASE nspname WHEN current_schema() THEN relname::text ELSE nspname || '.' || relname END AS name
    FROM pg_catalog.pg_class JOIN pg_catalog.pg_namespace AS n ON n.oid = relnamespace
    WHERE relkind IN ('r', 'p', 'v', 'm', 'f') AND NOT relispartition
    AND nspname NOT IN ('pg_catalog', 'information_schema') AND nspname !~ '^pg_(temp|toast)'
    AND NOT EXISTS (SELECT FROM pg_catalog.pg_depend AS d
        WHERE d.classid = 'pg_catalog.pg_class'::regclass AND d.objid = pg_class.oid AND d.deptype = 'e')
    AND NOT EXISTS (SELECT FROM pg_catalog.pg_attribute
        WHERE attrelid = pg_class.oid AND NOT attisdropped AND format_type(atttypid, NULL) ~ '(^|[.])(geometry|geography)$')
    ORDER BY 1
"""
# The tables that inherit from a table of a database, by names as OGR has them: its rows are read with theirs.
_HEIRS = """
    SELECT inhrelid::pg_catalog.regclass::text AS name FROM pg_catalog.pg_inherits JOIN pg_catalog.pg_class AS c ON c.oid = inhparent
    JOIN pg_catalog.pg_namespace AS n ON n.oid = c.relnamespace
    WHERE c.relkind = 'r' AND CASE nspname WHEN current_schema() THEN relname::text ELSE nspname || '.' || relname END = {} ORDER BY 1
"""
# That all that is read of all layers is of one moment: what one transaction takes from one to another is in one of them.
# And how a database writes values, whatever server, database and role have chosen.
_TRANSACTION = (
    "SET TRANSACTION ISOLATION LEVEL REPEATABLE READ, READ ONLY",
    "SET LOCAL datestyle = 'ISO'",
    "SET LOCAL timezone = 'UTC'",
    "SET LOCAL extra_float_digits = 3",
    "SET LOCAL standard_conforming_strings = on",
)
_SHAPEFILE_METADATA = "SHAPEFILE"
_JSON = ("GeoJSON", "GeoJSONSeq")
# The endings of files that lead to layers, and that of the one of a Shapefile.
_ENDINGS = tuple(ending for several in ogr.DRIVERS.values() for ending in several)
_LEADING = ".shp"
# Bytes of a name that are not UTF-8, as Python has them.
_NO_UTF_8 = re.compile("[\udc80-\udcff]")
_INNER = "it is a folder in a folder: name it alone"


class Opened(NamedTuple):
    """What a name has opened."""

    sources: list[Source]
    """One source, or the files of a folder by their names."""
    left_out: list[tuple[str, str]]
    """The files of a folder that have the ending of a format and don't open, with the reason."""


def open_source(name: str, any_format: bool = False) -> Opened:
    """What is opened for reading: one source, or the files of a folder by their names.

    `ogr.ExchangeError` where there is none, and for other formats than `ogr.DRIVERS` unless any is allowed.
    """
    if _has_maps(name):
        # OGR would take the files of one format alone, and pass over those that don't open.
        check_size(name)
        found = _opened_files(name, any_format)
        if found.sources:
            return found
    try:
        return Opened([_opened(name, any_format)], [])
    except RuntimeError as error:
        found = _opened_files(name, any_format)
        if not found.sources:
            # The words of a database may have a password among them.
            shown = "the database" if name.startswith("PG:") else name
            raise ogr.ExchangeError(f"{shown} does not open: {_reason(name, error)}") from None
        return found


def check_unchanged(sources: Sequence[Source]) -> None:
    """`ogr.ExchangeError` where a file was written while it was read: what was read may be of no one moment."""
    for source in sources:
        for path in changed(source.files):
            raise ogr.ExchangeError(f"{ogr.printable(path)} was written while it was read: try again")


@contextlib.contextmanager
def of_one_moment(sources: Iterable[Source]) -> Iterator[None]:
    """In the body each source is read as of one moment."""
    with contextlib.ExitStack() as held:
        for source in sources:
            held.enter_context(source.of_one_moment())
        yield


def mode_for(sources: Sequence[Source], group: int) -> int:
    """The most that a new file of a group may let others do, which has all that the sources have."""
    return reduce(and_, (mode_of(source.files, group) if source.is_whole else 0o700 for source in sources), 0o777)


def _opened(name: str, any_format: bool, is_measured: bool = False) -> Source:
    """A source. `RuntimeError` where OGR opens none, `ogr.ExchangeError` where it is JSON and no GeoJSON."""
    if "/vsistdin" in name:
        raise ogr.ExchangeError(f"{ogr.printable(name)} can be read once alone, and a source is read twice: name a file")
    files = stamps_of(name)
    if not is_measured:
        check_size(name)
    if jsontext.is_json(name) and not (any_format and ogr.format_of(name) not in (*_JSON, "")):
        return Source(name, [JsonLayer(name)], files)
    check_end(name)
    data = ogr.open_data(name, None if any_format else list(ogr.DRIVERS))
    if data.GetDriver().ShortName in _JSON and not any_format:
        # OGR reads it otherwise: it changes numbers, and drops names that stand twice, without a word.
        raise ogr.ExchangeError(f"{ogr.printable(name):.200} is GeoJSON, and no file that begins as one: name its file alone")
    is_database = data.GetDriver().ShortName == _DATABASE
    if is_database:
        # OGR takes all texts for UTF-8, whatever PGCLIENTENCODING has the database send.
        data.ExecuteSQL("SET client_encoding = 'UTF8'")
    is_geopackage = data.GetDriver().ShortName == "GPKG"
    metadata = data.GetMetadataItem(wayback.ITEM) if is_geopackage else ""
    layers: list[Layer] = [OgrLayer(data, at) for at in range(data.GetLayerCount())]
    is_whole = data.GetDriver().ShortName in ogr.DRIVERS
    is_looked_at = is_whole or data.GetDriver().ShortName == "SQLite"
    found = besides(data) if is_geopackage else []
    moment: Callable[[], contextlib.AbstractContextManager[None]] = contextlib.nullcontext
    if is_database:
        moment = partial(_transaction, data)
    return Source(name, layers, files, metadata or "", _plain_tables(data, layers), found, is_whole, is_looked_at, moment)


@contextlib.contextmanager
def _transaction(data: Any) -> Iterator[None]:
    """A transaction of a database, in which all that is read is of one moment."""
    try:
        data.StartTransaction()
        for statement in _TRANSACTION:
            data.ExecuteSQL(statement)
    except RuntimeError as error:
        raise ogr.ExchangeError(f"the database can't be read: {error}") from None
    try:
        yield
    finally:
        # Where the database broke off, that is said already.
        with contextlib.suppress(RuntimeError):
            data.RollbackTransaction()


def _reason(name: str, error: RuntimeError) -> str:
    """Why a source does not open, with the formats that are read, where it is a file."""
    if not os.path.isfile(name):
        return str(error)
    if is_zip(name):
        return f"{error} (an archive is named with /vsizip/ before it)"
    return f"{error} (it may be of another format than {', '.join(ogr.DRIVERS)}: --any-format reads it)"


def _opened_files(folder: str, any_format: bool) -> Opened:
    """The files of a folder that open: of a Shapefile the one that leads."""
    names = _names_in(folder)
    # An archive was measured as a whole: each of its files anew would take the square of their count.
    is_measured = bool(archive_of(folder))
    shapefiles = {name[: -len(_LEADING)].casefold() for name in names if name.lower().endswith(_LEADING)}
    found = Opened([], [])
    for name in names:
        stem, ending = os.path.splitext(name)
        path = f"{folder.rstrip('/')}/{name}"
        if ending.lower() in BESIDE[_LEADING] and stem.casefold() in shapefiles:
            continue
        if _NO_UTF_8.search(name):
            reason = "its name is not UTF-8"
        elif _has_maps(path):
            reason = _INNER
        else:
            try:
                source = _opened(path, any_format, is_measured)
                reason = "" if source.layers else "it has no layers, and may be cut off"
            except (RuntimeError, ogr.ExchangeError) as error:
                reason = _INNER if _is_folder(path) else str(error)
        if not reason:
            found.sources.append(source)
        elif reason == _INNER or name.lower().endswith(_ENDINGS):
            found.left_out.append((name, reason))
    return found


def _has_maps(folder: str) -> bool:
    """Whether a folder has files with the ending of a format. One of a database of files has none."""
    return any(name.lower().endswith(_ENDINGS) for name in _names_in(folder))


def _names_in(folder: str) -> list[str]:
    """The names in a folder, which may be one of an archive; none where it is no folder."""
    module, _, _ = ogr.gdal()
    names = module.ReadDir(folder) if _is_folder(folder) else None
    # One that is not UTF-8 comes as bytes.
    return sorted(os.fsdecode(name) for name in names or [] if name not in (".", ".."))


def _is_folder(path: str) -> bool:
    module, _, _ = ogr.gdal()
    known = module.VSIStatL(path)
    return known is not None and bool(known.IsDirectory())


def _plain_tables(data: Any, layers: Sequence[Layer]) -> list[str]:
    """The tables that OGR does not list: those of a database without geometries, but for those of extensions, and pictures."""
    known = {layer.name for layer in layers}
    return [name for name in _tables(data) if name not in known]


def _tables(data: Any) -> list[str]:
    if data.GetDriver().ShortName == "GPKG":
        return tables_of(data)
    if data.GetDriver().ShortName != _DATABASE:
        return []
    try:
        result = data.ExecuteSQL(_PLAIN_TABLES)
    except RuntimeError as error:
        raise ogr.ExchangeError(f"the database can't be read: {error}") from None
    names = [str(row.GetField(0)) for row, _ in ogr.features(result)]
    data.ReleaseResultSet(result)
    return names


class OgrLayer(Layer):
    """A layer that OGR reads."""

    def __init__(self, data: Any, at: int) -> None:
        """``at`` is its place among the layers of a source of OGR."""
        self._data = data
        self._layer = layer = data.GetLayer(at)
        self.name = layer.GetName()
        self.format = data.GetDriver().ShortName
        self.identifier_column = layer.GetFIDColumn()
        self.geometry_column = layer.GetGeometryColumn()
        self.has_geometries = layer.GetLayerDefn().GetGeomFieldCount() > 0
        # Of a folder each layer is a file.
        files = data.GetFileList() or [] if self.format == _FLATGEOBUF else []
        self._file = str(files[at]) if at < len(files) else ""
        self._name_place = _name_place(layer)
        self._unnamed = 0
        self._crs, self._crs_fault = ogr.read_crs(layer)
        if self._crs is None and not self._crs_fault and self.format == _SHAPEFILE and beside(data, self.name, ".prj"):
            self._crs_fault = "its .prj has none"

    def fault(self) -> str:
        return fault_of(self._data, self._layer)

    def crs(self) -> Crs | None:
        return self._crs

    def count(self) -> int:
        try:
            return int(self._layer.GetFeatureCount())
        except RuntimeError as error:
            raise ogr.ExchangeError(f"layer {ogr.printable(self.name)} can't be read: {error}") from None

    def features(self) -> Iterator[Feature]:
        found = strangers(self._data, self._layer)
        self._unnamed = len(found.unnamed)
        for feature, fault in ogr.features(self._layer):
            identifier = feature.GetFID()
            if identifier in found.others:
                detail = f"its SRID is {found.others[identifier]}"
                yield Feature(identifier, None, feature, detail, STRANGER)
                continue
            yield Feature(identifier, None if fault else feature.GetGeometryRef(), feature, fault)

    def kind(self) -> int:
        _, module, _ = ogr.gdal()
        return int(module.GT_Flatten(self._layer.GetGeomType()))

    def name_of(self, feature: Feature) -> str:
        if self._name_place is None or not feature.content.IsFieldSetAndNotNull(self._name_place):
            return ""
        try:
            name: str = feature.content.GetFieldAsString(self._name_place)
            name.encode("utf-8")
        except UnicodeError:
            return ""
        return name

    def columns(self, as_text: bool, names: Mapping[str, str], wanted: Mapping[str, str]) -> Fields:
        return Fields(self._data, self._layer, as_text, names, wanted, self._file)

    def lost(self, read: int) -> Iterator[Lost]:
        count = self._layer.GetFeatureCount(0) if self.format in _COUNTED else -1
        deleted = deleted_records(self._data, self.name) if self.format == _SHAPEFILE and count > read else 0
        if deleted:
            yield Lost("records of its .dbf that are marked as deleted are left out", f"{deleted} of {count}")
        if count > read + deleted:
            yield Lost("it is cut off", f"{read} of the {count} features that the file counts")
        if self._crs_fault:
            yield Lost("its reference system can't be read, and is left out", self._crs_fault)
        if self._unnamed:
            yield Lost("geometries that name no reference system are taken as of the layer's", f"{self._unnamed} of them")
        if self.format in _JSON:
            yield Lost("it is read by OGR, which may change numbers and drops names that stand twice", "name the file alone")
        unnamed = index_fault(self._data, self.name) if self.format == _SHAPEFILE else ""
        if unnamed:
            yield Lost("its .shx does not name all of its .shp, and no more", unnamed)
        for reason, detail in set_faults(self._data, self.name) if self.format == _SHAPEFILE else ():
            yield Lost(reason, detail)
        has_columns = self._layer.GetLayerDefn().GetFieldCount() > 0
        fault = table_fault(self._data, self.name) if self.format == _SHAPEFILE and not has_columns else ""
        if fault:
            yield Lost("it has no values", fault)
        told = self._layer.GetMetadata(_SHAPEFILE_METADATA) if self.format == _SHAPEFILE else {}
        if told.get("CPG_VALUE") and not told.get("SOURCE_ENCODING"):
            yield Lost("its texts are read as UTF-8, as their encoding is unknown", f"its .cpg says {told['CPG_VALUE']:.40}")
        heirs = rows_of(self._data, _HEIRS.format(literal(self.name))) if self.format == _DATABASE else []
        if heirs:
            yield Lost("rows of tables that inherit from it are among its own, and again in the layers of these", ", ".join(name for (name,) in heirs))
        definition = self._layer.GetLayerDefn()
        further = [definition.GetGeomFieldDefn(at).GetName() for at in range(1, definition.GetGeomFieldCount())]
        if further:
            yield Lost("further columns of geometries are left out", ", ".join(further))


def _name_place(layer: Any) -> int | None:
    """The place of the column that has the features' names: one of texts that is called so."""
    _, module, _ = ogr.gdal()
    definition = layer.GetLayerDefn()
    fields = [definition.GetFieldDefn(place) for place in range(definition.GetFieldCount())]
    names = [field.GetName().casefold() if field.GetType() == module.OFTString else "" for field in fields]
    if "name" in names:
        return names.index("name")
    return next((place for place, name in enumerate(names) if "name" in name), None)
