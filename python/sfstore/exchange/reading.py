"""Layers of OGR as layers of a store, and reports all that does not fit."""

from __future__ import annotations

from array import array
from collections.abc import Callable, Iterator, Mapping, Sequence
from typing import Any, NamedTuple

from sfstore.exchange import ogr
from sfstore.exchange.columns import INTEGER_64
from sfstore.exchange.constraints import Constraint
from sfstore.exchange.grid import Grid, OffGrid, Outside, Rounding
from sfstore.exchange.layers import Feature, Layer
from sfstore.exchange.mending import mended
from sfstore.exchange.names import Names, kept_name
from sfstore.exchange.reports import Report
from sfstore.exchange.spool import Features, are_distinct
from sfstore.exchange.wayback import LeftLayer
from sfstore.faults import fault_at
from sfstore.geometry import KINDS, NotTaken, Shape, read_wkb, write_wkb, write_wkt
from sfstore.language import COLUMNS_MAX, IDENTIFIER_MAX, POINTS_MAX
from sfstore.mapunits import MapUnits
from sfstore.refusals import words_of
from sfstore.sidecar import LEFT_MAX, ColumnOrigin, LayerOrigin
from sfstore.store import Kind, Refused, Store
from sfstore.storefile import INT, FileColumn, FileFeature, FileLayer

__all__ = ["LayerImport", "Taking", "with_word"]

_LAST_ID = IDENTIFIER_MAX - 1
# How many features are asked of the program at a time, and how many bytes their geometries have then at most, but for
# the last one: a point takes ten times as much here.
_BATCH, _BATCH_BYTES = 2_000, 4_000_000
# A binary of so many bytes has no more points than a store takes.
_SURELY_SMALL = 16 * POINTS_MAX
# How much of a feature's name is shown.
_NAME_SHOWN = 40

_SHAPEFILE = "ESRI Shapefile"
_NO_PLACE = "Z or M"
# What helps, of what is not taken.
_WORDS = {_NO_PLACE: " (--drop-zm drops them)", "a geometry collection": " (--part-collections parts it)"}


class Taking(NamedTuple):
    """How features are taken."""

    program: str
    rounds: bool
    """Whether coordinates off the grid move to the nearest step."""
    drops_zm: bool
    """Whether Z and M are dropped."""
    as_text: bool
    """Whether columns of other types become texts."""
    parts_collections: bool = False
    """Whether each member of a collection becomes a feature."""
    mends: bool = False
    """Whether geometries that the program refuses are mended."""
    keeps_identifiers: bool = True
    """Whether features have the source's identifiers in the store. Else the store gives its own."""
    folder: str = ""
    """Where features are kept while they are read, in a file; where the system has room for such files if it is empty."""


class _Candidate(NamedTuple):
    """A feature that is on the grid."""

    identifier: int
    name: str
    """The feature's name in the source, if it has one."""
    shape: Shape
    values: dict[int, Any]
    source: bytes
    is_further: bool
    """Whether it is a further member of a collection."""


class LayerImport:
    """Reads one layer of a source."""

    def __init__(
        self,
        layer: Layer,
        name: str,
        grid: Grid,
        taking: Taking,
        left: LeftLayer | None,
        report: Report,
        kind: Kind = "any",
        types: Mapping[str, str] | None = None,
        shown: str = "",
    ) -> None:
        """``kind`` and ``types`` of columns are those of a store's layer that it is added to, ``shown`` its name in the report."""
        self._layer = layer
        self._name = name
        self._source_name = shown or layer.name
        self._grid = grid
        self._taking = taking
        self._report = report
        self._taken_kind: Kind = kind
        self._rounding = Rounding(taking.rounds)
        self._flattened = 0
        self._parted: list[int] = []
        self._broken: set[int] = set()
        self._types = types or {}
        self._names: Mapping[str, str] = left.names if left else {}
        known = types if types is not None else left.types if left else {}
        self._fields = layer.columns(taking.as_text, self._names, known)
        self._origins: list[ColumnOrigin] = []
        self._columns: list[FileColumn] = []
        self._identifiers = array("q")
        self._features = Features("", {})
        self._further: list[int] = []
        self._kinds: set[int] = set()
        self._source_of: Callable[[int], int] = lambda identifier: identifier

    def read(self) -> FileLayer:
        """The layer as the store is to have it. `ogr.ExchangeError` where the source breaks off."""
        for source_name, name in self._fields.renamed:
            self._note(f"column {source_name!r} has the name {name}")
        with Store(self._taking.program) as scratch:
            self._fields.find_odd()
            types = self._fields.types()
            self._check_columns(len(types))
            self._features = Features(self._taking.folder, types)
            scratch.add_layer("c", self._taken_kind)
            for batch in self._batches():
                self._judge(scratch, batch)
        self._columns, self._features, self._origins = self._fields.finished(self._features)
        for note in self._fields.notes:
            self._note(note)
        self._make_multi()
        self._number_features()
        self._check_columns(len(self._columns))
        self._tell()
        # It is held until all layers are written: what was needed to read it is not.
        del self._identifiers[:]
        self._fields.forget_odd()
        next_id = self._features.ids[-1] + 1 if self._features else 1
        layer = FileLayer(self._name, self._kind(), next_id, len(self._columns) + 1, self._columns)
        layer.features = self._features
        return layer

    def _check_columns(self, count: int) -> None:
        """`ogr.ExchangeError` where a layer of the store has no room for so many columns."""
        if count > COLUMNS_MAX:
            shown = f"{ogr.printable(self._source_name)} has {count:,} columns"
            raise ogr.ExchangeError(f"{shown}, and a layer of the store at most {COLUMNS_MAX:,}")

    @property
    def source_name(self) -> str:
        """The layer's name in the report."""
        return self._source_name

    def source_identifier(self, identifier: int) -> int:
        """The identifier in the source of a feature that was taken, by the one in the store."""
        return self._source_of(identifier)

    def constraints(self) -> Iterator[Constraint]:
        """What the source demands of the columns that were taken."""
        for column, demands in self._fields.demands().items():
            yield from (Constraint(self._name, column, demanded) for demanded in sorted(demands, key=lambda one: one.demand))

    def origin(self) -> LayerOrigin:
        """What the side-car keeps of the layer."""
        told = self._report.identifiers(self._source_name)
        taken = set(map(self._source_of, self._features.ids)) if told else set()
        lefts = told - taken, (told & taken) - self._broken, self._broken & taken
        left_out, without, parted = (sorted(each)[:LEFT_MAX] for each in lefts)
        return LayerOrigin(
            self._name,
            kept_name(self._layer.name, self._name),
            kept_name(self._layer.identifier_column, ""),
            kept_name(self._layer.geometry_column, ""),
            self._origins,
            left_out,
            without,
            [kept_name(name, "") if left.has_values else f"the domain of {kept_name(name, '')}" for left in self._fields.left for name in left.names]
            + ([_NO_PLACE] if self._flattened else []),
            max(map(len, lefts)) > LEFT_MAX,
            parted,
        )

    def _batches(self) -> Iterator[list[_Candidate]]:
        """The features that are on the grid, some at a time."""
        batch: list[_Candidate] = []
        size = 0
        with ogr.progress(self._source_name, self._layer.count()) as show:
            for feature in self._layer.features():
                self._identifiers.append(feature.identifier)
                if feature.fault:
                    self._problem(feature.identifier, feature.reason, feature.fault)
                    continue
                found = self._candidates(feature)
                batch += found
                size += sum(len(candidate.source) for candidate in found)
                if len(batch) >= _BATCH or size >= _BATCH_BYTES:
                    yield batch
                    batch, size = [], 0
                show(1)
        yield batch

    def _candidates(self, feature: Feature) -> list[_Candidate]:
        """What a feature becomes: itself, or the members of its collection, as far as they are on the grid."""
        identifier, name = feature.identifier, self._layer.name_of(feature)[:_NAME_SHOWN]
        if feature.geometry is None:
            self._problem(identifier, "without a geometry", name)
            return []
        members = ogr.members(feature.geometry) if self._taking.parts_collections else [feature.geometry]
        binaries = [self._flat(each) for each in members]
        shapes = [(source, self._shape(identifier, name, source, flat)) for source, flat in binaries]
        taken = [(source, shape) for source, shape in shapes if shape is not None]
        if not taken:
            return []
        if len(binaries) > 1:
            self._parted.append(identifier)
        values = self._values(feature, name, taken[0][0])
        return [
            _Candidate(identifier, name, shape, values, source, is_further=at > 0)
            for at, (source, shape) in enumerate(taken)
        ]

    def _flat(self, geometry: Any) -> tuple[bytes, bytes]:
        """A geometry as it is, and without Z and M where they are dropped."""
        source = bytes(geometry.ExportToIsoWkb())
        if not self._taking.drops_zm or not (geometry.Is3D() or geometry.IsMeasured()):
            return source, source
        geometry.FlattenTo2D()
        self._flattened += 1
        return source, bytes(geometry.ExportToIsoWkb())

    def _shape(self, identifier: int, name: str, source: bytes, flat: bytes) -> Shape | None:
        """A geometry on the grid. Where it is not, that is told."""
        reason, detail = "", ""
        try:
            found = read_wkb(flat)
            count = _count(found) if len(flat) > _SURELY_SMALL else 0
            if count <= POINTS_MAX:
                return self._fitted(found.mapped(lambda line: self._grid.steps(line, self._rounding)))
            reason, detail = "too many points", f"{count:,} points, at most {POINTS_MAX:,}"
        except NotTaken as why:
            reason = with_word(why)
        except OffGrid as place:
            reason, detail = "off the grid", str(place)
        except Outside as place:
            reason, detail = "too far from the grid's origin", str(place)
        self._lost(identifier, reason, _named(name, detail), source)
        return None

    def _fitted(self, shape: Shape) -> Shape:
        """A shape of a Shapefile, which tells no Multi form of one member from its member, as a store's layer has it."""
        if self._layer.format == _SHAPEFILE and KINDS.index(self._taken_kind) == shape.code + 3:
            return shape._replace(code=shape.code + 3)
        return shape

    def _values(self, feature: Feature, name: str, source: bytes) -> dict[int, Any]:
        """The values of a feature. What is left out of them is told."""
        values, faults = self._fields.values(feature)
        for reason, detail in faults:
            self._problem(feature.identifier, reason, _named(name, detail), source)
        return values

    def _judge(self, scratch: Store, batch: list[_Candidate]) -> None:
        """Takes the features whose geometry the program takes. The others are told, or mended."""
        answers = scratch.run_all(f"check c {write_wkt(candidate.shape)}" for candidate in batch)
        for candidate, answer in zip(batch, answers):
            shape: Shape | None = candidate.shape
            if isinstance(answer, Refused):
                shape = self._mended(scratch, candidate) if self._taking.mends else None
                if shape is None:
                    self._tell_refused(candidate, answer)
            if shape is not None:
                self._take(candidate, shape)

    def _take(self, candidate: _Candidate, shape: Shape) -> None:
        self._kinds.add(shape.code)
        if candidate.is_further:
            self._further.append(len(self._features))
        self._features.append(FileFeature(candidate.identifier, write_wkb(shape), candidate.values))

    def _mended(self, scratch: Store, candidate: _Candidate) -> Shape | None:
        """A shape that the program takes in the place of one that it does not, which is told; none where there is none."""

        def is_taken(shape: Shape) -> bool:
            if _count(shape) > POINTS_MAX:
                return False
            [answer] = scratch.run_all([f"check c {write_wkt(shape)}"])
            return not isinstance(answer, Refused)

        found = mended(candidate.shape, is_taken)
        if found is None:
            return None
        self._report.change(self._source_name, candidate.identifier, "mended", _named(candidate.name, found.words))
        return found.shape

    def _tell_refused(self, candidate: _Candidate, refused: Refused) -> None:
        reason = f"refused {refused.number} {refused.name}, {words_of(refused.number).reason}"
        fault = fault_at(candidate.shape, refused)
        detail = fault.words.format(*map(MapUnits(*self._grid.words).point_text, fault.points)) if fault else ""
        self._lost(candidate.identifier, reason, _named(candidate.name, detail), candidate.source)

    def _lost(self, identifier: int, reason: str, detail: str, source: bytes) -> None:
        """Reports a geometry that is left out: that of a feature, or a member of its collection."""
        self._broken.add(identifier)
        self._problem(identifier, reason, detail, source)

    def _make_multi(self) -> None:
        """Makes Multi forms of all features, where a Shapefile has both: it tells them apart by their parts alone."""
        if self._layer.format != _SHAPEFILE or self._kinds not in ({2, 5}, {3, 6}):
            return
        single, multi = sorted(self._kinds)
        count = 0

        def as_multi(feature: FileFeature) -> FileFeature:
            nonlocal count
            shape = read_wkb(feature.geometry)
            if shape.code != single:
                return feature
            count += 1
            return feature._replace(geometry=write_wkb(shape._replace(code=multi)))

        self._features = self._features.changed(as_multi)
        self._kinds = {multi}
        self._note(f"the layer is one of {KINDS[multi]}s: {count} of its features have one member")

    def _number_features(self) -> None:
        """Has identifiers that a store can have, and the features in their order."""
        if not self._taking.keeps_identifiers:
            self._keep_identifiers_again()
            return
        identifiers = self._identifiers
        least, most = min(identifiers, default=1), max(identifiers, default=1)
        shift = 1 if least == 0 else 0
        sources = self._features.ids
        if not are_distinct(identifiers) or least < 0 or most + shift + len(self._further) > _LAST_ID:
            self._note("the features are numbered anew from 1, in the source's order")
            numbers = array("q", range(1, len(sources) + 1))
            is_kept = False
        else:
            if shift:
                self._note("identifiers begin with 0 in the source: each is greater by 1")
            numbers = array("q", (number + shift for number in sources))
            is_kept = not shift
            for at, place in enumerate(self._further, 1):
                numbers[place] = most + shift + at
        if not is_kept and self._layer.identifier_column:
            name = Names(column.name for column in self._columns).new(self._layer.identifier_column)
            self._keep_identifiers(name)
            self._note(f"identifiers that the store can't have are in the column {name}")
        if numbers != sources:
            self._source_of = _sources_of(numbers, sources)
        self._features = self._features.numbered(numbers)

    def _keep_identifiers_again(self) -> None:
        """Has identifiers in the column of the store's layer that has those of the features before, where it has such a one."""
        source_name = self._layer.identifier_column
        name = self._names.get(source_name, source_name)
        if self._types.get(name) == "int" and name not in [column.name for column in self._columns]:
            self._keep_identifiers(name)
            self._note(f"identifiers of the source are in the column {name}")

    def _keep_identifiers(self, name: str) -> None:
        """Has the identifiers that the source has in a column in one of the store, as these are no other's."""
        number = len(self._columns) + 1
        self._columns.append(FileColumn(number, INT, name))
        self._origins.append(ColumnOrigin(name, kept_name(self._layer.identifier_column, name), INTEGER_64, "None", 0))
        types = {**self._features.types, number: INT}
        self._features = self._features.changed(lambda each: each._replace(values={**each.values, number: each.id}), types)

    def _kind(self) -> int:
        """The declared kind where all features have it, that of a Shapefile's Multi forms, else that any is taken."""
        declared = self._layer.kind()
        if self._layer.format == _SHAPEFILE and declared in (2, 3) and self._kinds == {declared + 3}:
            return declared + 3
        if 1 <= declared <= 6 and self._kinds <= {declared}:
            return declared
        return 0

    def _tell(self) -> None:
        """Tells how many features there were, and what was left out, rounded, dropped or parted."""
        self._report.read[self._source_name] = len(self._identifiers)
        self._report.taken[self._source_name] = len(self._features)
        for reason, names, _ in self._fields.left:
            self._report.problem(self._source_name, None, reason, ", ".join(names))
        for reason, detail in self._layer.lost(len(self._identifiers)):
            self._report.problem(self._source_name, None, reason, detail)
        if self._flattened:
            self._note(f"Z or M was dropped of {self._flattened} features")
        if self._parted:
            parted = f"{len(self._parted)} collections were parted: {len(self._further)} features more than in the source"
            self._note(parted)
            for identifier in self._parted:
                self._report.change(self._source_name, identifier, "parted")
        self._tell_rounding()

    def _tell_rounding(self) -> None:
        rounding = self._rounding
        if rounding.noisy:
            self._note(
                f"{rounding.noisy} coordinates are taken for those of the grid, from which they differ "
                f"as doubles do, by {rounding.most_noise:.3g} at most"
            )
        if rounding.moved:
            self._note(
                f"{rounding.moved} coordinates were moved to the nearest step, by {rounding.most:.3g} at most, "
                f"by {rounding.total / rounding.moved:.3g} on average"
            )
        elif rounding.is_asked:
            self._note("no coordinate had to be moved")

    def _problem(
        self, identifier: int, reason: str, detail: str = "", source: bytes | None = None
    ) -> None:
        self._report.problem(self._source_name, identifier, reason, detail, source)

    def _note(self, text: str) -> None:
        self._report.note(self._source_name, text)


def _count(shape: Shape) -> int:
    """How many points a shape has."""
    return sum(len(line) // 2 for member in shape.members for line in member)


def with_word(why: NotTaken) -> str:
    """Why a geometry is not taken, with the word of the command that helps."""
    return f"{why}{_WORDS.get(str(why), '')}"


def _sources_of(numbers: Sequence[int], sources: Sequence[int]) -> Callable[[int], int]:
    """What gives a source's identifier by that in the store."""
    if all(number == source + 1 for number, source in zip(numbers, sources)):
        return lambda identifier: identifier - 1
    return dict(zip(numbers, sources)).__getitem__


def _named(name: str, detail: str) -> str:
    """A detail with the name of its feature."""
    return f"{name}: {detail}" if name and detail else name or detail
