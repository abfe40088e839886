"""What a store answers: layers, columns and features as values, and why it did not answer."""

from __future__ import annotations

import os
import re
from dataclasses import dataclass
from datetime import date, datetime
from decimal import Decimal
from fractions import Fraction
from typing import Any, Literal, NamedTuple, Union

from sfstore.groups import member_of
from sfstore.wkt import coordinates_of

__all__ = [
    "Answer",
    "Column",
    "ColumnType",
    "Distance",
    "Feature",
    "JournalError",
    "Kind",
    "Layer",
    "Near",
    "PathName",
    "Place",
    "Predicate",
    "ProgramEnded",
    "Recovered",
    "Refused",
    "Value",
]

Answer = Union[str, list[str]]
"""What a command is answered with: one line, or the rows behind a line ``rows N``."""

Value = Union[int, str, Decimal, bool, date, datetime]
"""The value of a feature in a column, which has the column's type.

``int``: an `int` of 64 bits. ``text``: a `str` of at most 65,535 bytes of UTF-8, none of them 0. ``bool``: a `bool`.

``decimal``: a `decimal.Decimal` with at most 18 places behind the point, and a mantissa of 64 bits. An `int` is taken
too, and comes back as a `decimal.Decimal`; a `float` is not taken.

``date``: a `datetime.date`. ``datetime``: a `datetime.datetime` in UTC, in whole milliseconds. One of another zone is
converted, and one without a zone is not taken.

A value that the column would change raises `ValueError`, and nothing is sent: none is rounded or cut, and none goes
through a float.
"""

Kind = Literal[
    "any", "point", "linestring", "polygon", "multipoint", "multilinestring", "multipolygon"
]
"""Which geometries a layer takes."""

ColumnType = Literal["int", "text", "decimal", "bool", "date", "datetime"]
"""Which values a column takes."""

Predicate = Literal[
    "equals", "disjoint", "intersects", "touches", "within", "contains", "crosses", "overlaps"
]
"""What may be asked of a feature's geometry and a given one."""

PathName = Union[str, "os.PathLike[str]"]
"""The name of a file."""


class Place(NamedTuple):
    """A part of a geometry, or a ring or line of it, with the edges that are named. All count from 0.

    >>> Place(part=0, ring=1, edges=(2, 5)).ring
    1
    """

    part: int
    """The member of a Multi form; 0 where there is one alone."""
    ring: int | None
    """The ring, 0 the shell; None where the whole part is meant, or a line."""
    edges: tuple[int, ...]
    """The edges of the ring that are named: an edge has the number of the point from which it goes."""


class Refused(Exception):
    """The store refused a command, and nothing was changed.

    >>> with Store() as store:
    ...     try:
    ...         store.run("show wells")
    ...     except Refused as refused:
    ...         refused.number, refused.name, refused.line
    (18, 'NoLayer', 'show wells')
    """

    number: int
    """The number of the refusal. docs/use/REFUSALS.md has them all, with what helps."""
    name: str
    """Its name, which belongs to the number."""
    line: str
    """The line that was refused: of a group the member, or ``together N`` if no member is named."""
    detail: str
    """What the answer says behind the name: where a geometry is wrong, or which member of a group it is."""

    def __init__(self, number: int, name: str, line: str, detail: str = "") -> None:
        super().__init__(number, name, line, *([detail] if detail else []))
        self.number = number
        self.name = name
        self.line = line
        self.detail = detail

    @property
    def answer(self) -> str:
        """The answer of the program.

        >>> Refused(10, "ShortLine", "check roads LINESTRING (1 1, 1 1)", "line 0").answer
        'refused 10 ShortLine line 0'
        """
        return " ".join(filter(None, ["refused", str(self.number), self.name, self.detail]))

    @property
    def places(self) -> list[Place]:
        """Where the geometry is wrong, if `Editor.check` asked: one place, or two that don't go together.

        >>> Refused(13, "RingNotSimple", "", "ring 0 1 edges 2 5").places
        [Place(part=0, ring=1, edges=(2, 5))]
        """
        return [_place(words) for words in _PLACE.findall(self.detail)]

    @property
    def member(self) -> int | None:
        """Which member of a group was refused, counted from 1; None if it is no group, or none of its members.

        >>> Refused(21, "NoFeature", "delete wells 7", "member 2").member
        2
        """
        return member_of(self.detail)

    @property
    def rule(self) -> str | None:
        """The name of the rule that would be broken; None if the refusal is of another kind.

        >>> Refused(37, "RuleBroken", "delete parcels 1", "housed 4").rule
        'housed'
        """
        return self.detail.partition(" ")[0] if self.number == RULE_BROKEN else None

    @property
    def ids(self) -> list[int]:
        """The features that would break the rule, by their identifiers.

        Of a rule with ``never`` they are two, one of its first layer and one of its second; of a rule with
        ``each`` it is the one that no other would go with. Of ``unique`` they are two that would have the same
        value; of ``required`` it is the one that would have none. Where no rule would be broken there are none.

        >>> Refused(37, "RuleBroken", "add parcels POLYGON ..", "apart 1 3").ids
        [1, 3]
        """
        return [int(word) for word in self.detail.split(" ")[1:]] if self.number == RULE_BROKEN else []

    def __str__(self) -> str:
        shown = self.line if len(self.line) <= 200 else self.line[:200] + ".."
        which = f" of member {self.member}" if self.member else ""
        broken = f" {self.detail}" if self.rule else ""
        return f"{self.number} {self.name}{broken}{which}: {shown}"


RULE_BROKEN = 37
_PLACE = re.compile(r"(?:ring|part|line)(?: [0-9]+)+(?: edges?(?: [0-9]+)+)?")


def _place(words: str) -> Place:
    """The place that some words name: ``line P``, ``part P``, or ``ring P R`` with edges behind it."""
    where, _, edges = words.partition(" edge")
    part, *ring = map(int, where.split(" ")[1:])
    return Place(part, ring[0] if ring else None, tuple(map(int, edges.removeprefix("s").split())))


class ProgramEnded(Exception):
    """The program ended, and its store with it.

    >>> try:
    ...     Store(load="/no/such/file")
    ... except ProgramEnded as ended:
    ...     ended.status, ended.last_line
    (3, 'fault load Open')
    """

    status: int
    """The status of the program, or less than 0 if a signal of that number killed it."""
    last_line: str
    """The last line that it wrote since the last answer. Empty if there is none."""

    def __init__(self, status: int, last_line: str) -> None:
        super().__init__(status, last_line)
        self.status = status
        self.last_line = last_line

    def __str__(self) -> str:
        if self.status < 0:
            return f"the program was killed by signal {-self.status}"
        return f"the program ended with status {self.status}: {self.last_line or 'no last line'}"


class JournalError(Exception):
    """The journal or its file can't be used, or an edit can't be written down.

    The text says which place of which file is wrong, and why. Nothing was changed by an opening
    that raises it. If an edit raises it, the store is closed, and the edits that were answered are
    in the journal. The last one may be there or not: open the store anew.
    """


class Recovered(NamedTuple):
    """What the opening of a store found in its journal.

    >>> Recovered(edits=12, torn=0).edits
    12
    """

    edits: int
    """How many edits the last save did not have. They are there again, and can be undone."""
    torn: int
    """How many bytes of an edit were dropped that was not written to its end, nor answered."""


class Distance(NamedTuple):
    """How far two geometries are apart, in grid steps."""

    steps: Decimal
    """The distance, rounded down to three places."""

    square: Fraction
    """The square of the distance, exact."""


class Near(NamedTuple):
    """A feature, and how far it is from a geometry, as `Store.nearest` lists it."""

    feature_id: int
    """The identifier of the feature."""

    steps: Decimal
    """The distance in grid steps, rounded down to three places."""


class Layer(NamedTuple):
    """A layer, as `Store.layers` lists it.

    >>> Layer("wells", "point").kind
    'point'
    """

    name: str
    kind: Kind


class Column(NamedTuple):
    """A column of a layer, as `Store.columns` lists it.

    >>> Column("depth", "int").type
    'int'
    """

    name: str
    type: ColumnType


@dataclass(frozen=True)
class Feature:
    """A feature of a layer, as `Store.show` lists it.

    It has ``__geo_interface__``, by which geopandas and others take features:
    ``geopandas.GeoDataFrame.from_features(features)``. shapely takes its geometry, by
    ``shapely.wkt.loads(feature.wkt)``.

    >>> Feature(1, "POINT (3 4)", {"depth": 12}).values["depth"]
    12
    """

    id: int
    """The identifier in its layer."""
    wkt: str
    """The geometry, as canonical well-known text."""
    values: dict[str, Value]
    """The values that are set, by the names of their columns, in the order of the columns."""

    @property
    def __geo_interface__(self) -> dict[str, Any]:
        """The feature as a mapping in the form of GeoJSON, with tuples of whole numbers.

        Its properties are the values as they are, which no float has become: `json.dumps` takes decimals, days and
        times by ``default=str``. `ValueError` if `wkt` is no canonical text.

        >>> Feature(1, "LINESTRING (0 0, 5 -7)", {}).__geo_interface__["geometry"]
        {'type': 'LineString', 'coordinates': ((0, 0), (5, -7))}
        """
        return {
            "type": "Feature",
            "id": self.id,
            "geometry": coordinates_of(self.wkt),
            "properties": dict(self.values),
        }
