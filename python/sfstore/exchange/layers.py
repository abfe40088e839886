"""What an import reads: layers with features and columns, whoever reads them.

`sfstore.exchange.sources` has those of OGR, `sfstore.exchange.jsonlayer` those of GeoJSON.
"""

from __future__ import annotations

import contextlib
from abc import ABC, abstractmethod
from collections.abc import Callable, Iterator, Mapping, Sequence
from typing import Any, NamedTuple

from sfstore.exchange.constraints import Demanded
from sfstore.exchange.spool import Features
from sfstore.exchange.stamps import Stamps
from sfstore.sidecar import ColumnOrigin, Crs
from sfstore.storefile import FileColumn

__all__ = ["STRANGER", "Fault", "Feature", "Layer", "Left", "Lost", "SourceColumns", "Source"]


STRANGER = "a geometry of another reference system than the layer's"
"""Why a feature is not taken."""


class Feature(NamedTuple):
    """A feature of a source."""

    identifier: int
    geometry: Any
    """The geometry, of OGR; none where the feature has none."""
    content: Any
    """What the layer's columns and its names are read from."""
    fault: str = ""
    """Why it can't be taken, or nothing."""
    reason: str = "could not be read"
    """The same words for all features that have such a fault."""


class Left(NamedTuple):
    """Columns that are left out, or something that is said of columns."""

    reason: str
    names: list[str]
    has_values: bool = True
    """Whether their values are left out."""


class Fault(NamedTuple):
    """Why a value of a feature is left out."""

    reason: str
    detail: str


class Lost(NamedTuple):
    """Something of a layer that is not among its features."""

    reason: str
    detail: str


class SourceColumns(ABC):
    """The columns of a layer that a store can have, and the values of features in them."""

    def __init__(self) -> None:
        self.left: list[Left] = []
        """The columns that are left out."""
        self.renamed: list[tuple[str, str]] = []
        """The columns with another name in the store, and this name."""
        self.notes: list[str] = []
        """What else is to be said of them."""

    def find_odd(self) -> None:
        """Finds the values that a reader would change, before the first feature is read."""

    def forget_odd(self) -> None:
        """Lets go of what `find_odd` has found."""

    def demands(self) -> dict[str, frozenset[Demanded]]:
        """What the source demands of the columns, by their names; of those of which it demands something."""
        return {}

    @abstractmethod
    def types(self) -> dict[int, int]:
        """The types of the store that the values have which `values` gives, by the numbers of their columns.

        They stand behind `find_odd`.
        """

    @abstractmethod
    def values(self, feature: Feature) -> tuple[dict[int, Any], list[Fault]]:
        """The values of a feature by the numbers of their columns, and what is left out of them."""

    @abstractmethod
    def finished(self, features: Features) -> tuple[list[FileColumn], Features, list[ColumnOrigin]]:
        """The columns at the end, the features with them, and what the columns were in the source."""


class Layer(ABC):
    """A layer of a source."""

    name: str
    format: str
    """OGR's name of the format."""
    identifier_column: str = ""
    geometry_column: str = ""
    has_geometries: bool = True

    def fault(self) -> str:
        """Why whoever reads it would be given something else, or nothing."""
        return ""

    @abstractmethod
    def crs(self) -> Crs | None:
        """The reference system."""

    @abstractmethod
    def count(self) -> int:
        """How many features there are, or less than 0 where that is not known."""

    @abstractmethod
    def features(self) -> Iterator[Feature]:
        """The features in their order. `ogr.ExchangeError` where the source breaks off."""

    @abstractmethod
    def kind(self) -> int:
        """The code of the kind that the source declares, 0 or one of another geometry where it is none of the six."""

    @abstractmethod
    def name_of(self, feature: Feature) -> str:
        """The name of a feature, from a column of names; nothing where it has none."""

    @abstractmethod
    def columns(self, as_text: bool, names: Mapping[str, str], wanted: Mapping[str, str]) -> SourceColumns:
        """The columns. ``names`` are those of the store by those of the source, ``wanted`` types those of a store's layer."""

    @abstractmethod
    def lost(self, read: int) -> Iterator[Lost]:
        """What it has beside the ``read`` features that it has given."""


class Source(NamedTuple):
    """What was opened."""

    path: str
    layers: list[Layer]
    files: Stamps
    """The files that it is read from, as they were before."""
    metadata: str = ""
    """What an export has left in a GeoPackage, or nothing."""
    plain_tables: Sequence[str] = ()
    """Tables without geometries that are no layers of it."""
    besides: Sequence[str] = ()
    """What it has beside features and their values, in words."""
    is_whole: bool = True
    """Whether ``files`` are all that it is read from. A file of any format may lead to others."""
    is_looked_at: bool = True
    """Whether values that its reader changes are found."""
    of_one_moment: Callable[[], contextlib.AbstractContextManager[None]] = contextlib.nullcontext
    """In its body all layers are read as of one moment. A file that changes meanwhile is found out afterwards."""
