"""Layers of a store as tables of PostGIS, by psycopg2: all of them in one transaction, or none.

A table that is there keeps its definition, and all that belongs to it or stands on it: rights, triggers, indexes,
views. Its rows alone are replaced, and only where that was asked for. Nothing is dropped. What was written is read
back before the transaction ends.
"""

from __future__ import annotations

import contextlib
import datetime
import hashlib
import re
import struct
from collections import Counter
from collections.abc import Callable, Iterator, Sequence
from decimal import Decimal
from typing import Any, NamedTuple

from sfstore.exchange import ogr
from sfstore.exchange.columns import DATE, DATE_TIME, INTEGER, INTEGER_64, REAL, STRING, Sort, values_of
from sfstore.exchange.formats import Part
from sfstore.exchange.grid import Grid
from sfstore.exchange.moments import day_of, moment_of
from sfstore.exchange.placing import uninterrupted
from sfstore.exchange.replacing import gone_words, keyed, several
from sfstore.geometry import read_wkb, write_wkb
from sfstore.sidecar import Addition, Crs, LayerOrigin, Sidecar
from sfstore.storefile import FileFeature

__all__ = ["write_database"]

# For so long an export waits for others who hold a table.
_LOCK_SECONDS = 60
# How many rows are sent, and read back, at a time.
_BATCH = 1_000
_HAS_REFERENCE = 0x20000000
_INT_32_MAX = 2**31 - 1

_KINDS = ["Geometry", "Point", "LineString", "Polygon", "MultiPoint", "MultiLineString", "MultiPolygon"]
_TYPES = {INTEGER: "integer", INTEGER_64: "bigint", REAL: "double precision", DATE: "date"}
_SUBTYPES = {"Boolean": "boolean", "Int16": "smallint"}
_RELATIONS = {
    "r": "table",
    "p": "partitioned table",
    "v": "view",
    "m": "materialized view",
    "f": "foreign table",
    "S": "sequence",
    "i": "index",
    "I": "index",
    "c": "type",
}

# A word of a target with its value, and the words that OGR takes and PostgreSQL does not.
_WORD = re.compile(r"(\w+)\s*=\s*('(?:[^'\\]|\\.)*'|\S*)")
_OF_OGR = ("active_schema", "schemas", "tables")


def write_database(
    target: str, parts: Sequence[Part], found: Sidecar, overwrite: bool, say: Callable[[str], object] = lambda line: None
) -> None:
    """Writes all layers to a PostGIS database in one transaction; ``say`` hears which rows go for ever.

    `ogr.ExchangeError` where the database does not take them as they are, and then it is as it was.
    """
    psycopg2 = _module()
    dsn, schema = _words_of(target)
    try:
        connection = psycopg2.connect(dsn, application_name="sfstore-export", client_encoding="UTF8")
    except psycopg2.Error as error:
        raise ogr.ExchangeError(f"the database does not open: {_sentence(error)}") from None
    with contextlib.closing(connection):
        try:
            _Export(connection, schema, found, overwrite, say).write(parts)
        except psycopg2.Error as error:
            raise ogr.ExchangeError(f"the database refused it: {_sentence(error)}") from None
        try:
            with uninterrupted():
                connection.commit()
        except psycopg2.Error as error:
            why = f"the connection broke at the very end, and the database may have taken it: {_sentence(error)}"
            raise ogr.ExchangeError(why if connection.closed else f"the database refused it: {_sentence(error)}") from None


def _module() -> Any:
    try:
        import psycopg2
        import psycopg2.sql
    except ImportError as error:
        raise ogr.ExchangeError(
            f"an export to PostGIS needs psycopg2, in Debian the package python3-psycopg2 ({error})"
        ) from None
    return psycopg2


def _words_of(target: str) -> tuple[str, str | None]:
    """The words of connection of a target ``PG:..``, and the schema that it names, as OGR takes both.

    >>> _words_of("PG:dbname=town active_schema=maps password='a tables=b'")
    ("dbname=town  password='a tables=b'", 'maps')
    """
    words = target[3:].strip()
    if len(words) > 1 and words[0] == words[-1] == '"':
        words = words[1:-1]
    said = {name.lower(): value.strip("'") for name, value in _WORD.findall(words)}
    schema = said.get("active_schema")
    if schema is None and said.get("schemas") and "," not in said["schemas"]:
        schema = said["schemas"]
    # A value that has such words within its quotes is found as a whole, and stays.
    return _WORD.sub(lambda found: "" if found[1].lower() in _OF_OGR else found[0], words).strip(), schema


def _sentence(error: Any) -> str:
    """What PostgreSQL says, in one line."""
    found = getattr(error, "diag", None)
    told = [found.message_primary, found.message_detail, found.context] if found is not None else []
    lines = [str(each) for each in told if each] or [str(error)]
    return ogr.printable(": ".join(" ".join(line.split()) for line in lines))


class _Column(NamedTuple):
    """A column that goes out."""

    number: int
    name: str
    sort: Sort


class _Known(NamedTuple):
    """A column that is there."""

    is_computed: bool
    """Whether the database computes it."""
    is_padded: bool
    """Whether blanks at the end of a text are none of it."""
    is_unzoned: bool
    """Whether its moments have no zone: an import takes them as of UTC."""


class _Table(NamedTuple):
    """Where a layer goes."""

    schema: str
    name: str
    oid: int | None
    """The table that is there."""
    columns: dict[str, _Known]
    """The columns that it has."""
    keys: list[str]
    """Those of them that name each row by themselves, the primary key first."""


class _Export:
    """One export, in the transaction of a connection."""

    def __init__(
        self, connection: Any, schema: str | None, found: Sidecar, overwrite: bool, say: Callable[[str], object]
    ) -> None:
        self._sql = _module().sql
        self.say = say
        self.connection = connection
        self._asked_schema = schema
        self._crs = found.crs
        self._additions = found.additions
        self._forgets_tables = found.forgets_tables
        self.places = Grid(*found.grid).places
        self._overwrite = overwrite

    def write(self, parts: Sequence[Part]) -> None:
        """Writes layers, and reads them back."""
        self._run("SET LOCAL lock_timeout = %s", [f"{_LOCK_SECONDS}s"])
        self._run("SET LOCAL datestyle = 'ISO'; SET LOCAL timezone = 'UTC'; SET LOCAL standard_conforming_strings = on")
        self._postgis = self._postgis_schema()
        schema = self._schema()
        tables = [self._table(part, schema) for part in parts]
        _check_apart(parts, tables)
        srid = self._srid(self._crs)
        exports = [_LayerExport(self, part, table, srid) for part, table in zip(parts, tables)]
        for export in exports:
            export.write()
        # What triggers would do at the end they do now, so that it is seen.
        self._run("SET CONSTRAINTS ALL IMMEDIATE")
        for export in exports:
            export.read_back()
            export.tell_others()
        # A sequence does not go back with the transaction, so it comes last.
        for export in exports:
            export.count_on()

    def run(self, text: str, *names: Any) -> Any:
        """Runs a statement with names and parts in the places ``{}``."""
        return self._run(self._sql.SQL(text).format(*names))

    def rows(self, text: str, *values: object) -> list[Any]:
        """The rows of a question with values."""
        found: list[Any] = self._run(text, list(values)).fetchall()
        return found

    def quoted(self, *names: str) -> Any:
        """A name, of parts."""
        return self._sql.Identifier(*names)

    def several(self, names: Sequence[str]) -> Any:
        """Names with commas between."""
        return self._sql.SQL(", ").join(map(self._sql.Identifier, names))

    def plain(self, text: str) -> Any:
        """Words of SQL that no stranger has said."""
        return self._sql.SQL(text)

    def of_postgis(self, name: str) -> Any:
        """A type or function of PostGIS."""
        return self._sql.Identifier(self._postgis, name)

    def copy(self, statement: Any, rows: Iterator[bytes]) -> None:
        """Sends rows in the text format of COPY."""
        stream = _Stream(rows)
        try:
            with self.connection.cursor() as cursor:
                cursor.copy_expert(statement, stream)
        except Exception:
            if stream.failure is not None:
                raise stream.failure from None
            raise

    @contextlib.contextmanager
    def reading(self, statement: Any) -> Iterator[Any]:
        """The rows of a question, some of them at a time."""
        with self.connection.cursor("sfstore_reads_back") as cursor:
            cursor.itersize = _BATCH
            cursor.execute(statement)
            yield cursor

    def format(self, text: str, *names: Any) -> Any:
        """A statement with names and parts in the places ``{}``."""
        return self._sql.SQL(text).format(*names)

    def _run(self, text: Any, values: Sequence[object] | None = None) -> Any:
        cursor = self.connection.cursor()
        cursor.execute(text, values)
        return cursor

    def _postgis_schema(self) -> str:
        rows = self.rows(
            "SELECT n.nspname FROM pg_catalog.pg_extension e JOIN pg_catalog.pg_namespace n ON n.oid = e.extnamespace "
            "WHERE e.extname = %s",
            "postgis",
        )
        if not rows:
            raise ogr.ExchangeError("the database has no PostGIS: say CREATE EXTENSION postgis in it")
        return str(rows[0][0])

    def _schema(self) -> str:
        """The schema for tables whose names say none."""
        if self._asked_schema is None:
            [[found]] = self.rows("SELECT pg_catalog.current_schema()")
            if found is None:
                raise ogr.ExchangeError("the database has no schema to write to: say active_schema=NAME")
            return str(found)
        if not self._is_schema(self._asked_schema):
            raise ogr.ExchangeError(f"the database has no schema {ogr.printable(self._asked_schema)}")
        return self._asked_schema

    def _is_schema(self, name: str) -> bool:
        return bool(self.rows("SELECT 1 FROM pg_catalog.pg_namespace WHERE nspname = %s", name))

    def _table(self, part: Part, schema: str) -> _Table:
        """The place of a layer, where nothing is in the way."""
        schema, name = self._place(part.name, schema)
        oid = self._free(schema, name)
        if oid is None:
            return _Table(schema, name, None, {}, [])
        self.run("LOCK TABLE ONLY {} IN ACCESS EXCLUSIVE MODE", self.quoted(schema, name))
        self._check_others(oid, name)
        table = _Table(schema, name, oid, self._columns(oid), self._keys(oid))
        _check_columns(part, table)
        self._check_left_out(part, table)
        return table

    def _place(self, name: str, schema: str) -> tuple[str, str]:
        """The schema and the table of a layer's name, which OGR has with a schema and a point where it is another one's.

        `ogr.ExchangeError` where two tables have this name.
        """
        there = self.rows(
            "SELECT n.nspname, c.relname FROM pg_catalog.pg_class c JOIN pg_catalog.pg_namespace n ON n.oid = c.relnamespace "
            "WHERE c.relkind IN ('r', 'p', 'v', 'm', 'f') "
            "AND (n.nspname = %s AND c.relname = %s OR n.nspname || '.' || c.relname = %s) ORDER BY 1, 2",
            *(schema, name, name),
        )
        if len(there) > 1:
            shown = " from ".join(self.quoted(*each).as_string(self.connection) for each in there)
            raise ogr.ExchangeError(f"OGR does not tell the tables {ogr.printable(shown)}: rename one of them")
        if there:
            return str(there[0][0]), str(there[0][1])
        before, dot, behind = name.partition(".")
        if dot and behind and self._is_schema(before):
            return before, behind
        self._check_system(name)
        return schema, name

    def _check_system(self, name: str) -> None:
        """`ogr.ExchangeError` where a new table would have the name of one of the system or of PostGIS."""
        rows = self.rows(
            "SELECT 1 FROM pg_catalog.pg_class c WHERE c.relname = %s AND (c.relnamespace = 'pg_catalog'::pg_catalog.regnamespace "
            "OR EXISTS (SELECT FROM pg_catalog.pg_depend d WHERE d.classid = 'pg_catalog.pg_class'::pg_catalog.regclass "
            "AND d.objid = c.oid AND d.deptype = 'e'))",
            name,
        )
        if rows:
            raise ogr.ExchangeError(f"OGR would not tell a table {ogr.printable(name)} from the one that the database has for itself: rename the layer")

    def _free(self, schema: str, name: str) -> int | None:
        """The table of a name, where it may be replaced; none where there is none."""
        rows = self.rows(
            "SELECT c.relname, c.relkind::text, c.oid::bigint FROM pg_catalog.pg_class c "
            "JOIN pg_catalog.pg_namespace n ON n.oid = c.relnamespace WHERE n.nspname = %s",
            schema,
        )
        oid: int | None = None
        shown = ogr.printable(name)
        for known, kind, number in rows:
            if known.casefold() != name.casefold():
                continue
            what = _RELATIONS.get(kind, "relation")
            if known != name and kind not in "iI":
                raise ogr.ExchangeError(
                    f"the database has a {what} {ogr.printable(known)}, which OGR does not tell from {shown}: "
                    "rename one of them"
                )
            if known == name and kind != "r":
                raise ogr.ExchangeError(f"the database has a {what} {shown}, which no export replaces")
            if known == name:
                oid = number
        if oid is not None and not self._overwrite:
            raise ogr.ExchangeError(f"the database has a table {shown} already: --overwrite replaces it")
        return oid

    def _check_others(self, oid: int, name: str) -> None:
        """`ogr.ExchangeError` where another table needs the rows of a table."""
        shown = ogr.printable(name)
        for key, other in self.rows(
            "SELECT conname, conrelid::pg_catalog.regclass::text FROM pg_catalog.pg_constraint "
            "WHERE contype = 'f' AND confrelid = %s::oid AND conrelid <> confrelid ORDER BY 1",
            oid,
        ):
            raise ogr.ExchangeError(
                f"the foreign key {ogr.printable(key)} of {ogr.printable(other)} needs the rows of {shown}: "
                "drop it before an export with --overwrite"
            )
        for [other] in self.rows(
            "SELECT inhrelid::pg_catalog.regclass::text FROM pg_catalog.pg_inherits WHERE inhparent = %s::oid ORDER BY 1",
            oid,
        ):
            raise ogr.ExchangeError(f"{ogr.printable(other)} inherits from {shown}, which no export replaces then")

    def _check_left_out(self, part: Part, table: _Table) -> None:
        """`ogr.ExchangeError` where a table has what no store has, or what its import has left out: it would be lost."""
        self._check_flat(part, table)
        self._check_named(part, table)
        # The rows of what has no key here are looked for when all rows are.
        for addition in self.additions_of(part):
            if addition.identifier_column in table.columns:
                self._check_addition(part, table, addition)
        if part.origin.identifier_column in table.columns:
            self._check_import(part, table)

    def _check_import(self, part: Part, table: _Table) -> None:
        """`ogr.ExchangeError` where a table has features, or values of them, that its import has left out."""
        origin = part.origin
        lost = [key for key, *_ in self._rows_of(table, origin.identifier_column, [], origin.left_out)]
        if lost:
            raise _left_out(part, f"features that its import has left out: {several(lost)}")
        lost = [key for key, *_ in self._rows_of(table, origin.identifier_column, [], origin.parted)]
        if lost:
            raise _left_out(part, f"features of whose collections its import has left out members: {several(lost)}")
        columns = [_Column(number, part.columns[number], sort) for number, sort in part.sorts.items()]
        # What the database computes is not lost.
        columns = [column for column in columns if column.name in table.columns and not table.columns[column.name].is_computed]
        known = dict(keyed(part, origin.identifier_column))
        rows = self._rows_of(table, origin.identifier_column, [column.name for column in columns], origin.without)
        for key, *texts in rows:
            values = known.get(key)
            for column, text in zip(columns, texts):
                if values is not None and text is not None and values.get(column.number) is None:
                    raise _left_out(part, f"a value of {ogr.printable(column.name)} that its import has left out, of {key}")

    def _check_named(self, part: Part, table: _Table) -> None:
        """`ogr.ExchangeError` where the side-car does not name all that was left out of a table, and the table has rows: nobody knows which they are."""
        is_cut = self._forgets_tables or part.origin.cut or any(each.cut for each in self.additions_of(part))
        if is_cut and self._run(self.format("SELECT 1 FROM {} LIMIT 1", self.quoted(table.schema, table.name))).fetchall():
            raise ogr.ExchangeError(
                f"the table {ogr.printable(part.name)} may have features, or values of them, that an import has left out: they are more "
                "than the side-car has room to name. They would be lost: empty the table first, or name another database or schema"
            )

    def additions_of(self, part: Part) -> list[Addition]:
        """What was left out of a layer's table when it was added to a layer, whichever that was: what is lost, the table has."""
        return [each for each in self._additions if (each.source, each.source_name) == ("", part.name)]

    def _check_addition(self, part: Part, table: _Table, addition: Addition) -> None:
        """`ogr.ExchangeError` where a table has features that an addition of it has left out, as a whole or in part.

        What it has taken has other keys in the store.
        """
        wanted = sorted({*addition.left_out, *addition.without, *addition.parted})
        lost = [key for key, *_ in self._rows_of(table, addition.identifier_column, [], wanted)]
        if lost:
            raise _left_out(part, f"features that an addition has left out, as a whole or in part: {several(lost)}")

    def _check_flat(self, part: Part, table: _Table) -> None:
        """`ogr.ExchangeError` where geometries of a table have Z or M."""
        shape = self.format("{}::{}", self.quoted(part.geometry_column), self.of_postgis("geometry"))
        asked = self.format(
            "SELECT count(*) FROM {} WHERE {}({}) > 2", self.quoted(table.schema, table.name), self.of_postgis("st_coorddim"), shape
        )
        [[count]] = self._run(asked).fetchall()
        if count:
            raise _left_out(part, f"Z or M in {count:,} geometries, which no store has")

    def _rows_of(self, table: _Table, key: str, columns: Sequence[str], wanted: Sequence[int]) -> list[Any]:
        """Rows of a table by their keys, which come first, and the values of some columns, all as texts."""
        if not wanted:
            return []
        texts = self.plain(", ").join([self.format("{}::text", self.quoted(name)) for name in (key, *columns)])
        asked = self.format(
            "SELECT {} FROM {} AS t WHERE {}::text = ANY(%s) ORDER BY t.{}",
            *(texts, self.quoted(table.schema, table.name), self.quoted(key), self.quoted(key)),
        )
        found: list[Any] = self._run(asked, [list(map(str, wanted))]).fetchall()
        return found

    def _columns(self, oid: int) -> dict[str, _Known]:
        rows = self.rows(
            "SELECT attname, attgenerated::text <> '', atttypid = 'pg_catalog.bpchar'::pg_catalog.regtype, "
            "atttypid = 'pg_catalog.timestamp'::pg_catalog.regtype "
            "FROM pg_catalog.pg_attribute WHERE attrelid = %s::oid AND attnum > 0 AND NOT attisdropped",
            oid,
        )
        return {name: _Known(*rest) for name, *rest in rows}

    def _keys(self, oid: int) -> list[str]:
        """The columns of a table that name each row by themselves, whatever their type."""
        rows = self.rows(
            "SELECT attname FROM pg_catalog.pg_index JOIN pg_catalog.pg_attribute ON attrelid = indrelid AND attnum = indkey[0] "
            "WHERE indrelid = %s::oid AND indisunique AND indisvalid AND indnkeyatts = 1 AND indpred IS NULL AND attnotnull "
            "ORDER BY indisprimary DESC, attnum",
            oid,
        )
        return [str(name) for [name] in rows]

    def _srid(self, crs: Crs | None) -> int:
        """PostGIS' number of a reference system, which is added where PostGIS does not know it."""
        if crs is None:
            return 0
        known = self.of_postgis("spatial_ref_sys")
        if crs.authority:
            text = "SELECT srid FROM {} WHERE upper(auth_name) = upper(%s) AND auth_srid::text = %s ORDER BY srid"
            found = self._run(self.format(text, known), [crs.authority, crs.code]).fetchall()
            if found:
                return int(found[0][0])
        reference = ogr.spatial_reference(crs)
        wkt, proj = reference.ExportToWkt(["FORMAT=WKT1_GDAL"]), reference.ExportToProj4()
        found = self._run(self.format("SELECT srid FROM {} WHERE srtext = %s ORDER BY srid", known), [wkt]).fetchall()
        if found:
            return int(found[0][0])
        text = (
            "INSERT INTO {0} (srid, auth_name, auth_srid, srtext, proj4text) "
            "SELECT COALESCE(max(srid), 0) + 1, %s, %s::integer, %s, %s FROM {0} WHERE srid < 998999 RETURNING srid"
        )
        code = crs.code if crs.code.isdigit() else None
        name = crs.authority if code is not None else None
        [[srid]] = self._run(self.format(text, known), [name, code, wkt, proj]).fetchall()
        return int(srid)


def _check_apart(parts: Sequence[Part], tables: Sequence[_Table]) -> None:
    """`ogr.ExchangeError` where two layers go to one table, as ``wells`` and ``public.wells`` would."""
    known: dict[tuple[str, str], Part] = {}
    for part, table in zip(parts, tables):
        other = known.setdefault((table.schema, table.name.casefold()), part)
        if other is not part:
            raise ogr.ExchangeError(
                f"the layers {ogr.printable(other.name)} and {ogr.printable(part.name)} would go to one table: "
                "name one of them with --layer"
            )


def _check_columns(part: Part, table: _Table) -> None:
    """`ogr.ExchangeError` where a table has what would be lost, or is no table of a layer."""
    shown = ogr.printable(part.name)
    if part.geometry_column not in table.columns:
        raise ogr.ExchangeError(
            f"the table {shown} has no column {ogr.printable(part.geometry_column)} for the geometries: "
            "it is another one than the layer's"
        )
    wanted = {part.identifier_column, part.geometry_column, *part.columns.values()}
    lost = [name for name, column in table.columns.items() if name not in wanted and not column.is_computed]
    if lost:
        raise ogr.ExchangeError(
            f"the table {shown} has columns that the store has not, and their values would be lost: "
            f"{ogr.printable(', '.join(lost))}. Drop them in the database first, or name another database or schema"
        )


def _left_out(part: Part, what: str) -> ogr.ExchangeError:
    return ogr.ExchangeError(
        f"the table {ogr.printable(part.name)} has {what}. They would be lost: take them out of the table first, "
        "or name another database or schema"
    )


class _LayerExport:
    """Writes one layer to its table."""

    def __init__(self, export: _Export, part: Part, table: _Table, srid: int) -> None:
        self._export = export
        self._part = part
        self._table = table
        self._srid = srid
        self._name = export.quoted(table.schema, table.name)
        self._columns = [_Column(number, part.columns[number], sort) for number, sort in part.sorts.items()]
        self._computed = {name for name, column in table.columns.items() if column.is_computed}
        self._other_values: dict[str, list[str]] = {}
        self._padded = {name for name, column in table.columns.items() if column.is_padded}
        self._unzoned = {name for name, column in table.columns.items() if column.is_unzoned}
        self._additions = export.additions_of(part)
        lefts: list[LayerOrigin | Addition] = [part.origin, *self._additions]
        unnamed = [each for each in lefts if each.identifier_column not in table.columns]
        self._unnamed = any(each.left_out or each.without or each.parted for each in unnamed)
        self._has_unnamed_parts = any(each.parted for each in unnamed)
        self._before: Counter[bytes] | None = None

    def write(self) -> None:
        """Makes the table or empties it, and fills it."""
        export, part = self._export, self._part
        if self._table.oid is None:
            self._make()
        else:
            self._empty()
        own = [part.geometry_column, *(column.name for column in self._columns)]
        names = [part.identifier_column, *(name for name in own if name not in self._computed)]
        export.copy(export.format("COPY {} ({}) FROM STDIN", self._name, export.several(names)), self._rows())
        if self._table.oid is None:
            export.run("CREATE INDEX ON {} USING GIST ({})", self._name, export.quoted(part.geometry_column))

    def _make(self) -> None:
        export, part = self._export, self._part
        kind = f"({_KINDS[part.layer.kind]},{self._srid})"
        defined = [self._identifier("PRIMARY KEY")]
        geometry = export.quoted(part.geometry_column), export.of_postgis("geometry"), export.plain(kind)
        defined.append(export.format("{} {}{}", *geometry))
        defined += [self._definition(column) for column in self._columns]
        export.run("CREATE TABLE {} ({})", self._name, export.plain(", ").join(defined))

    def _identifier(self, key: str) -> Any:
        small = self._part.next_id - 1 <= _INT_32_MAX
        kind = self._export.plain(f"{'serial' if small else 'bigserial'} {key}")
        return self._export.format("{} {}", self._export.quoted(self._part.identifier_column), kind)

    def _definition(self, column: _Column) -> Any:
        return self._export.format("{} {}", self._export.quoted(column.name), self._export.plain(_type(column.sort)))

    def _empty(self) -> None:
        """Takes the rows away, and adds the columns that are missing."""
        self._look_for_gone()
        self._export.run("TRUNCATE ONLY {}", self._name)
        if self._part.identifier_column not in self._table.columns:
            # The table may have a key of its own.
            self._export.run("ALTER TABLE {} ADD COLUMN {}", self._name, self._identifier("UNIQUE"))
        for column in self._columns:
            if column.name not in self._table.columns:
                self._export.run("ALTER TABLE {} ADD COLUMN {}", self._name, self._definition(column))

    def _look_for_gone(self) -> None:
        """Says which rows the store has not: they were deleted there, or somebody else has added them.

        `ogr.ExchangeError` where they may be those that an import has left out. Where no key names rows, `tell_others` looks for them.
        """
        key, shown = self._key(), ogr.printable(self._table.name)
        if not key:
            self._before = Counter(self._wholes())
            return
        gone, emptied = self._strange_rows(key)
        if self._unnamed and gone:
            raise _left_out(self._part, f"rows that the store has not, and may be those that an import has left out: {several(gone)}")
        if self._unnamed and emptied:
            raise _left_out(self._part, f"values where the store has none, and an import has left out some: {several(emptied)}")
        if self._has_unnamed_parts and self._collections():
            raise _left_out(self._part, f"{self._collections():,} collections, and an import has left out members of some")
        if gone:
            self._export.say(f"the table {shown} {gone_words(gone)}")

    def _collections(self) -> int:
        """How many geometries of the table are collections, as none of the store are."""
        export = self._export
        shape = export.format("{}::{}", export.quoted(self._part.geometry_column), export.of_postgis("geometry"))
        asked = export.format("SELECT count(*) FROM {} WHERE {}({}) = 'GEOMETRYCOLLECTION'", self._name, export.of_postgis("geometrytype"), shape)
        with export.reading(asked) as rows:
            [[count]] = rows
        return int(count)

    def _key(self) -> str:
        """The column that names the rows of the table and the features of the store; empty where there is none.

        It is that of the import, or one that the store has too, or that of the store's identifiers. What was added has other identifiers
        there: where the table had none then, it has those of the store by an export, which has replaced all rows.
        """
        part, table = self._part, self._table
        # Of other types two texts may be one value.
        plain = {column.name for column in self._columns if column.sort.type in (INTEGER, INTEGER_64, STRING) and column.sort.subtype != "Boolean"}
        shared = [name for name in table.keys if name in plain and not table.columns[name].is_padded]
        keys = [part.origin.identifier_column, *shared, part.identifier_column]
        if self._additions:
            keys = [*shared, *([] if any(each.identifier_column for each in self._additions) else [part.identifier_column])]
        return next((name for name in keys if name in table.columns), "")

    def _strange_rows(self, key: str) -> tuple[list[str], list[str]]:
        """The keys of the rows that the store has not, and those of a value where the store has none, each with its column."""
        export = self._export
        # What the database computes is not lost.
        columns = [each for each in self._columns if each.name in self._table.columns and each.name not in self._computed]
        known = dict(keyed(self._part, key))
        texts = export.plain(", ").join(export.format("t.{}::text", export.quoted(name)) for name in (key, *(each.name for each in columns)))
        gone, emptied = [], []
        with export.reading(export.format("SELECT {} FROM {} AS t ORDER BY t.{}", texts, self._name, export.quoted(key))) as rows:
            for name, *found in rows:
                values = known.get(str(name))
                if values is None:
                    gone.append(str(name))
                    continue
                lost = [each.name for each, text in zip(columns, found) if text is not None and values.get(each.number) is None]
                emptied += [f"{column} of {name}" for column in lost]
        return gone, emptied

    def _wholes(self) -> Iterator[bytes]:
        """A digest of all that each row of the table has, but of what the store or the database gives it."""
        export, part = self._export, self._part
        texts = [export.format("{}::text", export.quoted(name)) for name in self._table.columns if name not in (*self._computed, part.identifier_column)]
        with export.reading(export.format("SELECT {} FROM {}", export.plain(", ").join(texts), self._name)) as rows:
            for row in rows:
                yield hashlib.blake2b(repr(row).encode("utf-8", "surrogatepass"), digest_size=16).digest()

    def tell_others(self) -> None:
        """Says how many rows of a table are not in the store as they stood there, where no key says which.

        `ogr.ExchangeError` where they may be those that an import has left out.
        """
        if self._before is None:
            return
        self._before.subtract(self._wholes())
        count = sum(number for number in self._before.values() if number > 0)
        what = f"{count:,} rows that are not in the store as in the table" if count > 1 else "1 row that is not in the store as in the table"
        if count and self._unnamed:
            raise ogr.ExchangeError(
                f"the table {ogr.printable(self._part.name)} has {what}, and may be what an import has left out. It would be lost: "
                "empty the table first, or name another database or schema"
            )
        if count:
            self._export.say(f"the table {ogr.printable(self._table.name)} has {what}, of others or edited in the store: removed")

    def _rows(self) -> Iterator[bytes]:
        """The features in the text format of COPY, some at a time."""
        rows: list[str] = []
        features = self._part.layer.features
        sent = [column for column in self._columns if column.name not in self._computed]
        sends_geometry = self._part.geometry_column not in self._computed
        with ogr.progress(self._part.name, len(features)) as show:
            for feature in features:
                fields, values = [str(feature.id)], values_of(feature)
                fields += [self._geometry(feature)] if sends_geometry else []
                fields += [_field(values.get(column.number), column.sort) for column in sent]
                rows.append("\t".join(fields) + "\n")
                if len(rows) == _BATCH:
                    yield "".join(rows).encode("utf-8")
                    rows = []
                show(1)
        yield "".join(rows).encode("utf-8")

    def _geometry(self, feature: FileFeature) -> str:
        """The geometry as PostGIS writes it, with its reference system."""
        shape = read_wkb(feature.geometry).mapped(self._export.places)
        binary = write_wkb(shape)
        if self._srid:
            head = struct.pack("<BII", 1, shape.code | _HAS_REFERENCE, self._srid)
            binary = head + binary[5:]
        return binary.hex().upper()

    def count_on(self) -> None:
        """Has the database give the identifiers behind those that were given, by it or by the store."""
        sequence = self._sequence()
        if sequence is None:
            return
        export = self._export
        is_set = export.rows(
            # Where it is further on, it stays: what it has given may stand in other tables.
            "SELECT pg_catalog.setval(%s, greatest(%s, pg_catalog.nextval(%s)), false) FROM pg_catalog.pg_sequence "
            "WHERE seqrelid = %s::pg_catalog.regclass AND seqmax >= %s "
            "AND pg_catalog.has_sequence_privilege(%s, 'UPDATE')",
            *(sequence, self._part.next_id, sequence, sequence, self._part.next_id, sequence),
        )
        if not is_set:
            export.say(
                f"the sequence {ogr.printable(sequence)} can't be set to {self._part.next_id}: "
                f"the database may give {ogr.printable(self._table.name)} identifiers that the store has given"
            )

    def _sequence(self) -> str | None:
        """The sequence that gives the identifiers of the table: its own, or one that its default names."""
        export, name = self._export, self._name.as_string(self._export.connection)
        [[own]] = export.rows("SELECT pg_catalog.pg_get_serial_sequence(%s, %s)", name, self._part.identifier_column)
        if own is not None:
            return str(own)
        named = export.rows(
            "SELECT c.oid::pg_catalog.regclass::text FROM pg_catalog.pg_attribute a "
            "JOIN pg_catalog.pg_attrdef f ON f.adrelid = a.attrelid AND f.adnum = a.attnum "
            "JOIN pg_catalog.pg_depend d ON d.classid = 'pg_catalog.pg_attrdef'::pg_catalog.regclass AND d.objid = f.oid "
            "JOIN pg_catalog.pg_class c ON d.refclassid = 'pg_catalog.pg_class'::pg_catalog.regclass AND c.oid = d.refobjid "
            "WHERE a.attrelid = %s::pg_catalog.regclass AND a.attname = %s AND c.relkind = 'S' ORDER BY 1",
            *(name, self._part.identifier_column),
        )
        return str(named[0][0]) if len(named) == 1 else None

    def read_back(self) -> None:
        """`ogr.ExchangeError` where the table has anything else than the layer, but for values that the database computes."""
        export, part = self._export, self._part
        identifier = export.quoted(part.identifier_column)
        # A column may be one of geographies.
        shape = export.format("{}::{}", export.quoted(part.geometry_column), export.of_postgis("geometry"))
        geometry = export.format("{}({}, 'NDR')", export.of_postgis("st_ashexewkb"), shape)
        shown = [export.format("{}::text", export.quoted(column.name)) for column in self._columns]
        asked = export.plain(", ").join([identifier, geometry, *shown])
        statement = export.format("SELECT {} FROM {} ORDER BY {}", asked, self._name, identifier)
        with export.reading(statement) as rows:
            read = iter(rows)
            for feature in part.layer.features:
                self._compare(feature, next(read, None))
            if next(read, None) is not None:
                raise self._other("has more rows than were written")
        table = ogr.printable(self._table.name)
        for name, keys in self._other_values.items():
            export.say(f"the database computes {ogr.printable(name)} of {table}, and has other values than the store in these rows: {several(keys)}")

    def _compare(self, feature: FileFeature, row: Any) -> None:
        if row is None or row[0] != feature.id:
            raise self._other(f"has no feature {feature.id}")
        if row[1] != self._geometry(feature):
            raise self._other(f"has another geometry of feature {feature.id}")
        values = values_of(feature)
        for column, text in zip(self._columns, row[2:]):
            value = values.get(column.number)
            if isinstance(value, str) and column.name in self._padded:
                value = value.rstrip(" ")
            in_utc = text and column.name in self._unzoned and column.sort.is_zoned
            if _is_same(value, f"{text}Z" if in_utc else text, column.sort):
                continue
            if column.name not in self._computed:
                there = "no value" if text is None else ogr.printable(repr(text[:60]))
                raise self._other(
                    f"has {there} for {ogr.printable(repr(value)[:60])} in column {ogr.printable(column.name)} "
                    f"of feature {feature.id}"
                )
            if value is not None:
                self._other_values.setdefault(column.name, []).append(str(feature.id))

    def _other(self, what: str) -> ogr.ExchangeError:
        return ogr.ExchangeError(
            f"read back, the table {ogr.printable(self._table.name)} {what}: nothing was written"
        )


def _type(sort: Sort) -> str:
    """The type of a column in PostgreSQL's words."""
    if sort.subtype in _SUBTYPES:
        return _SUBTYPES[sort.subtype]
    if sort.type == DATE_TIME:
        return "timestamp with time zone" if sort.is_zoned else "timestamp without time zone"
    if sort.type == REAL and sort.is_exact:
        return "numeric"
    if sort.type in _TYPES:
        return _TYPES[sort.type]
    return f"varchar({sort.width})" if sort.width else "varchar"


def _field(value: int | str | None, sort: Sort) -> str:
    """A value in the text format of COPY."""
    if value is None:
        return "\\N"
    if isinstance(value, int):
        return str(value)
    return value.replace("\\", "\\\\").replace("\t", "\\t").replace("\n", "\\n").replace("\r", "\\r")


def _is_same(value: int | str | None, text: str | None, sort: Sort) -> bool:
    """Whether a text of the database stands for a value of the store."""
    if value is None or text is None:
        return value is None and text is None
    if sort.type == REAL:
        return _is_number(text, value, Decimal if sort.is_exact else float)
    if isinstance(value, int):
        return text in (str(value), {0: "false", 1: "true"}.get(value))
    if sort.type == DATE:
        return day_of(text) == day_of(value)
    if sort.type == DATE_TIME:
        return _instant(text) == _instant(value)
    return text == value


def _is_number(text: str, value: int | str, kind: Callable[[Any], Decimal | float]) -> bool:
    """Whether a text of the database is a number, and this one. A column of money has none."""
    try:
        return kind(text) == kind(value)
    except (ArithmeticError, ValueError):
        return False


def _instant(text: str) -> datetime.datetime | None:
    """A moment by the clock of UTC, where its zone is known."""
    moment = moment_of(text)
    if moment is None:
        return None
    if moment.offset is None:
        return moment.at
    return (moment.at - datetime.timedelta(minutes=moment.offset)).replace(tzinfo=datetime.timezone.utc)


class _Stream:
    """Blocks of bytes as a file that COPY reads."""

    def __init__(self, blocks: Iterator[bytes]) -> None:
        self._blocks = blocks
        self.failure: BaseException | None = None
        """What has ended the reading."""

    def read(self, size: int = -1) -> bytes:
        """The next block, whatever its size; an empty one at the end."""
        try:
            for block in self._blocks:
                if block:
                    return block
            return b""
        except BaseException as failure:
            self.failure = failure
            raise
