"""What an import left out or changed: as text, and as features for a map."""

from __future__ import annotations

import json
import math
import os
import sys
from collections import Counter
from typing import Any, NamedTuple

from sfstore import files
from sfstore.exchange import geojson, ogr
from sfstore.exchange.asking import tables_of
from sfstore.exchange.placing import Place, placed
from sfstore.exchange.views import check_end
from sfstore.sidecar import Crs

__all__ = ["FEATURE_FORMATS", "Problem", "Report", "check_replaced"]

# How many identifiers the summary names for each reason.
_SHOWN = 8

# The names of geometries that GeoJSON has not, and of those that it has.
_PATCHES = ("TIN", "POLYHEDRALSURFACE", "TRIANGLE")
_NAMES = {
    "POINT": "Point",
    "LINESTRING": "LineString",
    "POLYGON": "Polygon",
    "MULTIPOINT": "MultiPoint",
    "MULTILINESTRING": "MultiLineString",
    "MULTIPOLYGON": "MultiPolygon",
    "GEOMETRYCOLLECTION": "GeometryCollection",
}
# The layer of faulty features, and its columns.
_LAYER = "faulty"
_COLUMNS = ("layer", "identifier", "reason", "detail")
# What stands near the begin of a GeoJSON of them, and how much of a file is looked at.
_OWN_NAME = f'"name": "{_LAYER}"'.encode()
_LOOKED_AT = 4096

FEATURE_FORMATS = {".geojson": "GeoJSON", ".gpkg": "GPKG"}
"""The formats of faulty features, by the endings of their files."""


class Problem(NamedTuple):
    """Something that did not fit."""

    layer: str
    """The layer's name in the source."""
    identifier: int | None
    """The feature's identifier in the source, or none where it is the layer or a column."""
    reason: str
    """What is wrong, the same words for all features that have it."""
    detail: str
    """Where, and by what value."""
    geometry: bytes | None
    """The feature's geometry in the source, as well-known binary."""


class Report:
    """All that did not fit, all that was changed, and how many features were taken."""

    def __init__(self, source: str = "") -> None:
        """``source`` is the name of what is read, which is none of its layers."""
        self.sources = {source}
        """The names of what is read as a whole."""
        self.problems: list[Problem] = []
        self.changes: list[Problem] = []
        """The features that were taken in another form, as somebody has asked for."""
        self.notes: list[tuple[str, str]] = []
        self.read: Counter[str] = Counter()
        self.taken: Counter[str] = Counter()

    def problem(
        self,
        layer: str,
        identifier: int | None,
        reason: str,
        detail: str = "",
        geometry: bytes | None = None,
    ) -> None:
        """Reports something that did not fit."""
        self.problems.append(Problem(layer, identifier, reason, detail, geometry))

    def identifiers(self, layer: str) -> set[int]:
        """The features of a layer of which something was left out, or all, by their identifiers in the source."""
        return {each.identifier for each in self.problems if each.layer == layer and each.identifier is not None}

    def change(self, layer: str, identifier: int, reason: str, detail: str = "") -> None:
        """Reports a feature that was changed, as somebody has asked for, and not left out."""
        self.changes.append(Problem(layer, identifier, reason, detail, None))

    def note(self, layer: str, text: str) -> None:
        """Reports something that was changed, and not left out."""
        self.notes.append((layer, text))

    def summary(self) -> str:
        """A few lines for each layer: counts, reasons with the first identifiers, and notes."""
        told = [problem.layer for problem in self.problems]
        names = [*self.read, *told, *(layer for layer, _ in self.notes)]
        reasons, notes = self._reasons(), self._notes()
        lines = []
        for layer in dict.fromkeys(names):
            # What is read as a whole is no layer, and so is a file of which a note alone says something.
            is_source = layer not in self.read and (layer in self.sources or layer not in told)
            counts = "" if is_source else f" {self.read[layer]} features read, {self.taken[layer]} taken"
            lines.append(f"{ogr.printable(layer)}:{counts}")
            found = reasons.get(layer, {})
            shown = [*(_counted(reason, problems) for reason, problems in found.items()), *notes.get(layer, [])]
            lines += [f"  {ogr.printable(text)}" for text in shown]
        return "".join(line + "\n" for line in lines)

    def text(self) -> str:
        """A line for each problem: layer, identifier, reason and detail, with tabulators between."""
        rows = (
            (
                problem.layer,
                "" if problem.identifier is None else str(problem.identifier),
                problem.reason,
                problem.detail,
            )
            for problem in (*self.problems, *self.changes)
        )
        notes = ((layer, "", "changed", text) for layer, text in self.notes)
        return "".join("\t".join(map(ogr.printable, row)) + "\n" for row in (*rows, *notes))

    def write_text(self, path: str, overwrite: bool, mode: int = 0o777) -> None:
        """Writes `text` to a file, whole or not at all. `ogr.ExchangeError` where one is there.

        ``mode`` is the most that a new file lets others do.
        """
        with placed(_place(path, overwrite, mode), _say) as new:
            with open(os.path.join(new, os.path.basename(path)), "w", encoding="utf-8") as file:
                file.write(self.text())

    def write_features(self, path: str, crs: Crs | None, overwrite: bool, mode: int = 0o777) -> None:
        """Writes the features that did not fit to a GeoJSON or GeoPackage, by the path's ending.

        `ogr.ExchangeError` where it can't be written. ``mode`` is the most that a new file lets others do.
        """
        ending = os.path.splitext(path)[1].lower()
        try:
            with placed(_place(path, overwrite, mode), _say) as new:
                made = os.path.join(new, os.path.basename(path))
                self._write_features(made, FEATURE_FORMATS[ending], crs)
        except RuntimeError as error:
            raise ogr.ExchangeError(f"{path} can't be written: {error}") from None

    def _reasons(self) -> dict[str, dict[str, list[Problem]]]:
        """All problems and changes by their layers, and of each layer by their reasons."""
        found: dict[str, dict[str, list[Problem]]] = {}
        for problem in (*self.problems, *self.changes):
            found.setdefault(problem.layer, {}).setdefault(problem.reason, []).append(problem)
        return found

    def _notes(self) -> dict[str, list[str]]:
        found: dict[str, list[str]] = {}
        for layer, text in self.notes:
            found.setdefault(layer, []).append(text)
        return found

    def _write_features(self, path: str, name: str, crs: Crs | None) -> None:
        shown = [problem for problem in self.problems if problem.geometry and problem.identifier is not None]
        if name == "GeoJSON":
            geojson.write_collection(path, _LAYER, crs, map(_json_feature, shown))
            return
        data = ogr.driver(name).CreateDataSource(path)
        try:
            _write_layer(data, shown, crs)
        finally:
            data.Destroy()
        # The layer lives as long as its source has a name.
        written = ogr.open_data(path, [name])
        count = written.GetLayer(0).GetFeatureCount()
        if count != len(shown):
            raise ogr.ExchangeError(f"{path} has {count} of {len(shown)} features: the disk may be full")


def _write_layer(data: Any, problems: list[Problem], crs: Crs | None) -> None:
    """Writes features to a source of OGR."""
    _, ogr_module, _ = ogr.gdal()
    layer = data.CreateLayer(_LAYER, ogr.spatial_reference(crs), ogr_module.wkbUnknown)
    for column in _COLUMNS:
        kind = ogr_module.OFTInteger64 if column == "identifier" else ogr_module.OFTString
        layer.CreateField(ogr_module.FieldDefn(column, kind))
    layer.StartTransaction()
    for problem in problems:
        feature = ogr_module.Feature(layer.GetLayerDefn())
        geometry = _finite_geometry(problem)
        for column, value in _values(problem, geometry).items():
            feature.SetField(column, value)
        feature.SetGeometry(geometry)
        layer.CreateFeature(feature)
    layer.CommitTransaction()
    layer.SyncToDisk()


def _values(problem: Problem, geometry: Any) -> dict[str, Any]:
    detail = problem.detail if geometry else f"{problem.detail} (without its geometry)"
    values = problem.layer, problem.identifier, problem.reason, detail.strip()
    return {
        column: value if isinstance(value, int) else ogr.printable(value or "")
        for column, value in zip(_COLUMNS, values)
    }


def _finite_geometry(problem: Problem) -> Any:
    """The geometry of a problem, or none where the extent of a layer would be none that a GeoPackage can have."""
    _, ogr_module, _ = ogr.gdal()
    geometry = ogr_module.CreateGeometryFromWkb(problem.geometry)
    return geometry if all(map(math.isfinite, geometry.GetEnvelope())) else None


def _json_feature(problem: Problem) -> dict[str, Any]:
    """A feature as GeoJSON, which has neither curves nor patches."""
    _, ogr_module, _ = ogr.gdal()
    geometry = _finite_geometry(problem)
    if geometry is not None and geometry.HasCurveGeometry():
        geometry = geometry.GetLinearGeometry()
    if geometry is not None and geometry.GetGeometryName() in _PATCHES:
        geometry = ogr_module.ForceToMultiPolygon(geometry)
    elif geometry is not None and any(patch in geometry.ExportToIsoWkt() for patch in _PATCHES):
        geometry = None
    shown = None if geometry is None else _json_geometry(geometry)
    try:
        json.dumps(shown, allow_nan=False)
    except ValueError:
        # A coordinate that is no number has no place in JSON.
        geometry = shown = None
    return {"type": "Feature", "properties": _values(problem, geometry), "geometry": shown}


def _json_geometry(geometry: Any) -> dict[str, Any]:
    """A geometry of points, lines and polygons as GeoJSON."""
    name = _NAMES[geometry.GetGeometryName()]
    if name == "GeometryCollection":
        members = [_json_geometry(geometry.GetGeometryRef(at)) for at in range(geometry.GetGeometryCount())]
        return {"type": name, "geometries": members}
    found = _coordinates(geometry)
    return {"type": name, "coordinates": found[0] if name == "Point" and found else found}


def _coordinates(geometry: Any) -> list[Any]:
    """The coordinates of a geometry: of its points, or of its parts in turn. M has no place in GeoJSON."""
    if geometry.GetGeometryCount():
        parts = [geometry.GetGeometryRef(at) for at in range(geometry.GetGeometryCount())]
        return [found[0] if part.GetGeometryName() == "POINT" else found for part in parts if (found := _coordinates(part))]
    if geometry.GetGeometryName() not in ("POINT", "LINESTRING", "LINEARRING") or geometry.IsEmpty():
        return []
    size = 3 if geometry.Is3D() else 2
    return [geometry.GetPoint(at)[:size] for at in range(geometry.GetPointCount())]


def check_replaced(path: str, by: str = "a report") -> None:
    """`ogr.ExchangeError` where a report would take the place of a map, a store or another file that is no text.

    Features that an import has written as a report give way to others. ``by`` is what else takes the place, in words.
    """
    with open(path, "rb", opener=files.opened) as file:
        begin = file.read(_LOOKED_AT)
    is_json = begin.lstrip()[:1] in (b"{", b"[")
    if (b"\0" in begin and not _has_faulty_alone(path)) or (is_json and _OWN_NAME not in begin):
        raise ogr.ExchangeError(f"{path} is a map or no text, and --overwrite replaces none by {by}: take it away, or name another file")


def _has_faulty_alone(path: str) -> bool:
    """Whether a file is a GeoPackage with features that did not fit, and nothing else."""
    module, _, _ = ogr.gdal()
    try:
        check_end(path)
        data = module.OpenEx(path, module.OF_VECTOR | module.OF_RASTER, allowed_drivers=["GPKG"])
        return tables_of(data) == [_LAYER]
    except (RuntimeError, ogr.ExchangeError):
        return False


def _place(path: str, overwrite: bool, mode: int) -> Place:
    folder, name = os.path.split(os.path.abspath(path))
    return Place(folder, [name], None, overwrite, mode)


def _say(line: str) -> None:
    print(line, file=sys.stderr)


def _counted(reason: str, problems: list[Problem]) -> str:
    """A reason with how many features have it, the first of them named."""
    named = [problem for problem in problems if problem.identifier is not None]
    if not named:
        return "; ".join(f"{reason}: {problem.detail}" for problem in problems)
    shown = ", ".join(
        f"{problem.identifier} ({problem.detail})" if problem.detail else str(problem.identifier)
        for problem in named[:_SHOWN]
    )
    more = f" and {len(named) - _SHOWN} more" if len(named) > _SHOWN else ""
    return f"{len(named)} {reason}: {shown}{more}"
