"""Layers as data frames of geopandas."""

from __future__ import annotations

from collections.abc import Sequence
from typing import Any

import geopandas
import pandas
from pyproj import CRS
from pyproj.exceptions import CRSError
from shapely import wkt

from sfstore.mapunits import MapUnits
from sfstore.results import Column, Feature
from sfstore.sidecar import Sidecar

__all__ = ["frame_of"]


def frame_of(columns: Sequence[Column], features: Sequence[Feature], beside: Sidecar | None) -> geopandas.GeoDataFrame:
    """Features as a frame, by their identifiers; in map units where a side-car says what these are."""
    units = MapUnits(*beside.grid) if beside else None
    data: dict[str, Any] = {column.name: [feature.values.get(column.name) for feature in features] for column in columns}
    for column in columns:
        if column.type == "int":
            # Where one is missing pandas would take floats, which have 53 bits.
            data[column.name] = pandas.array(data[column.name], dtype="Int64")
    # No column of a store begins with an underscore.
    name = "_geometry" if "geometry" in data else "geometry"
    shapes = [wkt.loads(units.places(feature.wkt) if units else feature.wkt) for feature in features]
    index = [feature.id for feature in features]
    return geopandas.GeoDataFrame({**data, name: shapes}, index=index, geometry=name, crs=_system(beside))


def _system(beside: Sidecar | None) -> str | None:
    """The reference system as geopandas takes it, where one is known: by its text where its code is none that PROJ knows."""
    crs = beside.crs if beside else None
    if crs is None:
        return None
    code = f"{crs.authority}:{crs.code}" if crs.authority else ""
    return code if code and (not crs.wkt or _is_known(code)) else crs.wkt


def _is_known(code: str) -> bool:
    try:
        CRS.from_user_input(code)
    except CRSError:
        return False
    return True
