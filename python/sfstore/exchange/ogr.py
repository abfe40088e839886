"""What import and export need of GDAL/OGR, and of progress on a terminal."""

from __future__ import annotations

import contextlib
import re
import sys
from collections.abc import Callable, Iterator
from typing import Any

from sfstore.sidecar import Crs

__all__ = [
    "DRIVERS",
    "ExchangeError",
    "crs_named",
    "crs_of",
    "driver",
    "features",
    "format_of",
    "gdal",
    "given_code",
    "hearing",
    "members",
    "open_data",
    "printable",
    "progress",
    "read_crs",
    "spatial_reference",
    "warned",
]

DRIVERS: dict[str, list[str]] = {
    "GPKG": [".gpkg"],
    "GeoJSON": [".geojson", ".json", ".geojsonl", ".geojsons"],
    "FlatGeobuf": [".fgb"],
    "ESRI Shapefile": [".shp"],
    "PostgreSQL": [],
}
"""The formats that are read unless any is asked for, with the endings of their files.

Whatever a file is named, it can be of a format that leads to other files or into the network, as a
VRT does. None of these does.
"""

# JSON has texts and no dates, and OGR would write those that look like one in another form.
_OPTIONS = {"GeoJSON": ["DATE_AS_STRING=YES"]}

# A code of an authority. OGR takes other words for files, or for addresses in the network.
_CODE = re.compile(r"[A-Za-z][A-Za-z0-9_]*:[A-Za-z0-9_.]+")

# How many features are read at a time.
_BATCH = 500

# OGR's levels of a warning and of a failure.
_WARNING, _FAILURE = 2, 3

_told_warnings: set[str] = set()
# Who hears warnings in place of the terminal.
_hearers: list[list[str]] = []
# Warnings of values in another form, of which nothing is lost, and of written ones, which are read back.
_HARMLESS = ("successfully parsed", "not successfully written. Possibly due to too larger number")
# How many different warnings are heard.
_HEARD = 100
# How much of a warning stands on the terminal: it may have the words of a stranger's file.
_LINE = 200


class ExchangeError(Exception):
    """A map can't be brought in or given back. The text says why; nothing was written."""


def gdal() -> Any:
    """The modules ``gdal``, ``ogr`` and ``osr``, which raise exceptions from now on.

    `ExchangeError` where they are missing.
    """
    try:
        from osgeo import gdal, ogr, osr
    except ImportError as error:
        raise ExchangeError(
            f"this needs GDAL for Python, in Debian the package python3-gdal ({error})"
        ) from None
    for module in (gdal, ogr, osr):
        module.UseExceptions()
    gdal.SetErrorHandler(_tell_warning)
    return gdal, ogr, osr


def _tell_warning(level: int, number: int, text: str) -> None:
    """Tells a warning of OGR, once. What is worse is raised as an exception."""
    if level == _WARNING and any(words in text for words in _HARMLESS):
        return
    if level == _WARNING and _hearers:
        if text not in _hearers[-1] and len(_hearers[-1]) < _HEARD:
            _hearers[-1].append(text)
    elif level == _WARNING and text not in _told_warnings:
        _told_warnings.add(text)
        print(warned(text), file=sys.stderr)


def warned(text: str) -> str:
    """A warning as a line of a terminal."""
    return f"OGR warns: {printable(text[:_LINE])}"[:_LINE]


@contextlib.contextmanager
def hearing() -> Iterator[list[str]]:
    """The warnings of OGR from now on, each once, in place of lines on the terminal."""
    heard: list[str] = []
    _hearers.append(heard)
    try:
        yield heard
    finally:
        _hearers.pop()


def open_data(name: str, drivers: list[str] | None) -> Any:
    """What one of some drivers opens for reading, or of all. `RuntimeError` where none does."""
    module, _, _ = gdal()
    known: dict[str, Any] = {} if drivers is None else {"allowed_drivers": drivers}
    found = module.IdentifyDriverEx(name, module.OF_VECTOR, **known)
    if found is not None and found.ShortName in _OPTIONS:
        known = {"allowed_drivers": [found.ShortName], "open_options": _OPTIONS[found.ShortName]}
    return module.OpenEx(name, module.OF_VECTOR, **known)


def format_of(name: str) -> str:
    """The format that OGR takes a source for, or nothing."""
    module, _, _ = gdal()
    found = module.IdentifyDriverEx(name, module.OF_VECTOR)
    return str(found.ShortName) if found is not None else ""


def features(layer: Any) -> Iterator[tuple[Any, str]]:
    """The features of a layer, each with the words of what could not be read of it, or none.

    `ExchangeError` where the source breaks off.
    """
    with _without_exceptions():
        # What it says of that is of no feature, and is known by `read_crs`.
        layer.GetSpatialRef()
    layer.ResetReading()
    while batch := _next_features(layer):
        for feature, fault in batch:
            if feature is None:
                raise ExchangeError(f"layer {printable(layer.GetName())} breaks off: {fault}")
            yield feature, fault


def _next_features(layer: Any) -> list[tuple[Any, str]]:
    """Some features more, each with what was wrong with it; none at the end."""
    module, _, _ = gdal()
    found: list[tuple[Any, str]] = []
    with _without_exceptions():
        while len(found) < _BATCH:
            module.ErrorReset()
            feature = layer.GetNextFeature()
            fault = _fault(module)
            if feature is not None or fault:
                found.append((feature, fault))
            if feature is None:
                break
    return found


def _fault(module: Any) -> str:
    """Why the last call has failed, or nothing. What it has warned of is told: of several warnings the last, and their count."""
    level = module.GetLastErrorType()
    if level < _WARNING:
        return ""
    text = module.GetLastErrorMsg()
    if level >= _FAILURE:
        return text or "no reason is told"
    if level == _WARNING:
        further = module.GetErrorCounter() - 1
        _tell_warning(level, 0, f"{text} ({further} more)" if further > 0 else text)
    return ""


@contextlib.contextmanager
def _without_exceptions() -> Iterator[None]:
    """Has OGR raise none: of a feature of which a part can't be read, one would be all that is left.

    The modules stand on a stack, whose top alone can be taken off.
    """
    module, ogr_module, osr = gdal()
    taken_off: list[Any] = []
    try:
        for each in (osr, module, osr, ogr_module):
            if each.GetUseExceptions() and ogr_module.GetUseExceptions():
                with contextlib.suppress(RuntimeError):
                    each.DontUseExceptions()
                    taken_off.append(each)
        # A function of Python can't hear of a warning that has bytes of a stranger's file, which are no UTF-8.
        module.PushErrorHandler("CPLQuietErrorHandler")
        try:
            yield
        finally:
            module.PopErrorHandler()
    finally:
        for each in reversed(taken_off):
            each.UseExceptions()


def members(geometry: Any) -> Iterator[Any]:
    """The members of a collection and of those in it, or the geometry where it is none or empty."""
    _, module, _ = gdal()
    is_collection = int(module.GT_Flatten(geometry.GetGeometryType())) == module.wkbGeometryCollection
    if not (is_collection and geometry.GetGeometryCount()):
        yield geometry
        return
    for at in range(geometry.GetGeometryCount()):
        yield from members(geometry.GetGeometryRef(at))


def printable(text: str) -> str:
    """A text of a source as it is shown: what is no character, or moves a terminal, is escaped."""
    return "".join(
        letter if letter.isprintable() else letter.encode("unicode_escape").decode("ascii")
        for letter in text
    )


def driver(name: str) -> Any:
    """The driver that makes files of a format. `ExchangeError` where this GDAL has none."""
    _, module, _ = gdal()
    found = module.GetDriverByName(name)
    if found is None:
        raise ExchangeError(f"this GDAL has no driver {name}")
    return found


def make_with_domains(path: str, name: str, domains: list[Any], statements: list[str]) -> None:
    """Makes a file of a format that has these domains of fields, and nothing else. `RuntimeError` where it can't be made.

    Behind them statements in SQL are carried out.
    """
    module, _, _ = gdal()
    data = module.GetDriverByName(name).Create(path, 0, 0, 0, module.GDT_Unknown)
    for domain in domains:
        data.AddFieldDomain(domain)
    for statement in statements:
        data.ExecuteSQL(statement)
    # It is written to its end where nobody has a name for it.
    data.FlushCache()
    del data


def crs_of(layer: Any) -> Crs | None:
    """The reference system of a layer; none where it can't be read."""
    return read_crs(layer)[0]


def read_crs(layer: Any) -> tuple[Crs | None, str]:
    """The reference system of a layer, and why it can't be read, or nothing. OGR says that once alone."""
    module, _, _ = gdal()
    with _without_exceptions():
        module.ErrorReset()
        # OGR may say that it has failed in something else, as in the search for a code.
        reference = layer.GetSpatialRef()
        found = None if reference is None else _crs(reference)
        fault = _fault(module)
    if found is not None and found.wkt:
        return found, ""
    return None, fault or ("" if found is None else "PROJ can't write it")


def given_code(crs: Crs) -> tuple[str, str] | None:
    """The code that OGR gives a reference system without one where it writes it, by its name; none where it gives none."""
    reference = spatial_reference(crs)
    try:
        reference.AutoIdentifyEPSG()
    except RuntimeError:
        return None
    authority, code = reference.GetAuthorityName(None), reference.GetAuthorityCode(None)
    return (authority, code) if authority and code else None


def crs_named(name: str) -> Crs:
    """A reference system by its name, such as ``EPSG:25832``. `ExchangeError` for an unknown one."""
    _, _, osr = gdal()
    reference = osr.SpatialReference()
    try:
        reference.SetFromUserInput(name)
    except RuntimeError:
        raise ExchangeError(f"{name!r} is no reference system, such as EPSG:25832") from None
    return _crs(reference)


def _crs(reference: Any) -> Crs:
    """A reference system, whose words are empty where PROJ can't write them."""
    authority, code = reference.GetAuthorityName(None), reference.GetAuthorityCode(None)
    if not (authority and code):
        authority = code = ""
    wkt = reference.ExportToWkt(["FORMAT=WKT2_2019"])
    # Letters of a name that are no UTF-8 come as bytes, and such files are of one byte a letter.
    return Crs(authority, code, wkt if isinstance(wkt, str) else bytes(wkt).decode("latin-1"))


def spatial_reference(crs: Crs | None) -> Any:
    """A reference system as OGR takes it, x before y. `ExchangeError` where it is none: a side-car may be a stranger's."""
    if crs is None:
        return None
    _, _, osr = gdal()
    reference = osr.SpatialReference()
    try:
        if _CODE.fullmatch(str(crs)):
            reference.SetFromUserInput(str(crs))
        else:
            reference.ImportFromWkt(crs.wkt)
    except RuntimeError as error:
        raise ExchangeError(f"the reference system {printable(f'{crs}')} can't be read: {error}") from None
    reference.SetAxisMappingStrategy(osr.OAMS_TRADITIONAL_GIS_ORDER)
    return reference


@contextlib.contextmanager
def progress(title: str, total: int) -> Iterator[Callable[[int], object]]:
    """Shows how far a work is, on a terminal that has ``rich``.

    What is given is called with how many steps more are done.
    """
    if not sys.stderr.isatty():
        yield lambda steps: None
        return
    try:
        from rich.console import Console
        from rich.progress import Progress
    except ImportError:
        yield lambda steps: None
        return
    with Progress(console=Console(stderr=True), transient=True) as bar:
        task = bar.add_task(title, total=total if total > 0 else None)
        yield lambda steps: bar.advance(task, steps)
