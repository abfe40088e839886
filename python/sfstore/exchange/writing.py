"""Layers of a store as files: by OGR, and GeoJSON by `sfstore.exchange.geojson`. What was written is read back."""

from __future__ import annotations

import os
from collections.abc import Sequence
from typing import Any, Dict, Tuple

from sfstore.exchange import geojson, ogr, wayback
from sfstore.exchange.columns import DATE, DATE_TIME, REAL, Sort, values_of
from sfstore.exchange.comparing import compare
from sfstore.exchange.constraints import Demanded, constrain, domains_of, ends_set
from sfstore.exchange.formats import FORMATS, Part
from sfstore.exchange.grid import Grid
from sfstore.exchange.moments import day_of, moment_of
from sfstore.exchange.names import FreeNames
from sfstore.geometry import KINDS, read_wkb, write_wkb
from sfstore.rules import AnyRule
from sfstore.sidecar import Crs, Sidecar
from sfstore.storefile import FileFeature

__all__ = ["write_data"]

# The names of domains by the names of layers and the numbers of columns.
_Domains = Dict[Tuple[str, int], str]


def write_data(path: str, name: str, parts: Sequence[Part], found: Sidecar, rules: Sequence[AnyRule] = ()) -> None:
    """Writes layers, and the rules that a format keeps, to a new file of it, and reads it back.

    `ogr.ExchangeError` where OGR can't write it, or where the file has anything else than the store, but for what the
    format does not keep.
    """
    metadata = wayback.left(parts, found.grid, rules) if name == "GPKG" else ""
    if name == "GeoJSON":
        [part] = parts
        geojson.write(path, part, found)
    else:
        _write_by_ogr(path, name, parts, found, metadata)
    compare(path, name, parts, found, metadata)


def _write_by_ogr(path: str, name: str, parts: Sequence[Part], found: Sidecar, metadata: str) -> None:
    domains = _domain_names(parts)
    try:
        data = _made(path, name, parts, domains)
        try:
            for part in parts:
                _LayerExport(data, name, part, found, domains).write()
            if metadata:
                data.SetMetadataItem(wayback.ITEM, metadata)
        finally:
            # The file is finished and closed here, whoever still has a name for it.
            data.Destroy()
    except RuntimeError as error:
        # It is written in a room of its own, whose name says nothing to anybody.
        raise ogr.ExchangeError(f"{os.path.basename(path)} can't be written: {str(error) or 'the disk may be full'}") from None


def _made(path: str, name: str, parts: Sequence[Part], domains: _Domains) -> Any:
    """A new set of data, with the domains that say what is demanded of columns."""
    wanted = [(domains[part.name, number], part.sorts[number], demands) for part in parts for number, demands in part.demands.items()]
    found = [domain for each in wanted for domain in domains_of(*each)]
    if not found:
        return ogr.driver(name).CreateDataSource(path)
    # OGR's own sets of data take no domains.
    ogr.make_with_domains(path, name, found, [statement for each in wanted for statement in ends_set(*each)])
    _, module, _ = ogr.gdal()
    return module.Open(path, 1)


def _domain_names(parts: Sequence[Part]) -> _Domains:
    """The names of the domains of columns, each another one: ``a_b`` and ``c`` make the same as ``a`` and ``b_c``."""
    names = FreeNames(is_folded=True)
    return {(part.name, number): names.new(f"{part.name}_{part.columns[number]}") for part in parts for number in part.demands}


class _LayerExport:
    """Writes one layer by OGR."""

    def __init__(self, data: Any, name: str, part: Part, found: Sidecar, domains: _Domains) -> None:
        self._data = data
        self._domains = domains
        self._format = name
        self._part = part
        self._crs: Crs | None = found.crs
        self._grid = Grid(*found.grid)
        _, self._ogr, _ = ogr.gdal()
        self._places = {number: at for at, number in enumerate(part.sorts)}

    def write(self) -> None:
        """Makes the layer, and writes its features. `RuntimeError` where OGR refuses one."""
        reference = ogr.spatial_reference(self._crs)
        target = self._data.CreateLayer(self._part.name, reference, self._kind(), self._options())
        for number, sort in self._part.sorts.items():
            demands = self._part.demands.get(number, frozenset())
            domain = self._domains.get((self._part.name, number), "")
            target.CreateField(self._field(self._part.columns[number], sort, domain, demands))
        definition = target.GetLayerDefn()
        features = self._part.layer.features
        if self._format == "GPKG":
            target.StartTransaction()
        with ogr.progress(self._part.name, len(features)) as show:
            for feature in features:
                target.CreateFeature(self._feature(definition, feature))
                show(1)
        if self._format == "GPKG":
            target.CommitTransaction()
        target.SyncToDisk()

    def _feature(self, definition: Any, feature: FileFeature) -> Any:
        written = self._ogr.Feature(definition)
        written.SetFID(feature.id)
        shape = read_wkb(feature.geometry).mapped(self._grid.places)
        written.SetGeometryDirectly(self._ogr.CreateGeometryFromWkb(write_wkb(shape)))
        for number, value in values_of(feature).items():
            _set(written, self._places[number], self._part.sorts[number], value)
        return written

    def _kind(self) -> int:
        """The type of the layer. A Shapefile has one of four, so its features decide."""
        kind = self._part.layer.kind
        if self._format != "ESRI Shapefile":
            return kind or int(self._ogr.wkbUnknown)
        codes = self._part.survey.codes or {kind}
        for one in ({1}, {4}, {2, 5}, {3, 6}):
            if codes <= one:
                return min(one)
        if not self._part.survey.codes:
            raise ogr.ExchangeError(f"{self._part.layer.name} is empty and takes features of any kind: a Shapefile has one of points, lines or areas")
        kinds = ", ".join(KINDS[code] for code in sorted(codes))
        raise ogr.ExchangeError(
            f"{self._part.layer.name} has features of several kinds ({kinds}): no Shapefile has these"
        )

    def _options(self) -> list[str]:
        """How OGR is to make the layer."""
        if FORMATS[self._format].own_columns:
            return [f"FID={self._part.identifier_column}", f"GEOMETRY_NAME={self._part.geometry_column}"]
        if self._format == "ESRI Shapefile":
            return ["ENCODING=UTF-8"]
        # An index puts features into another order. Without one OGR writes no byte of an empty layer.
        return [f"SPATIAL_INDEX={'NO' if self._part.survey.count else 'YES'}"]

    def _field(self, name: str, sort: Sort, domain: str, demands: frozenset[Demanded]) -> Any:
        """The definition of a column."""
        field = self._ogr.FieldDefn(name, getattr(self._ogr, f"OFT{sort.type}"))
        constrain(field, domain, demands)
        if sort.subtype != "None":
            field.SetSubType(getattr(self._ogr, f"OFST{sort.subtype}"))
        if sort.width:
            field.SetWidth(sort.width)
        return field


def _set(written: Any, place: int, sort: Sort, value: int | str) -> None:
    """Sets a value of a feature of OGR."""
    if sort.type == REAL:
        written.SetField(place, float(value))
    elif isinstance(value, int):
        written.SetFieldInteger64(place, value)
    elif sort.type == DATE and (day := day_of(value)):
        written.SetField(place, day.year, day.month, day.day, 0, 0, 0.0, 0)
    elif sort.type == DATE_TIME and (moment := moment_of(value)):
        at = moment.at
        seconds = at.second + at.microsecond / 1e6
        written.SetField(place, at.year, at.month, at.day, at.hour, at.minute, seconds, moment.ogr_zone or 0)
    else:
        written.SetField(place, value)
