"""A store of vector map features, held by the program ``sfstore``.

    >>> from sfstore import Store
    >>> with Store() as store:
    ...     store.add_layer("wells", "point")
    ...     store.add("wells", "POINT (3 4)")
    1

`Store` and its companions need POSIX and nothing beside the standard library. What the commands
mean, and why they are refused, is in docs/use/CONSOLE.md of the project; docs/use/JOURNAL.md says what
``Store(path, journal=True)`` promises, and docs/use/EXCHANGE.md how maps come in and go out by
`sfstore.exchange`, which needs GDAL/OGR.
"""

from sfstore.journal import JournalError
from sfstore.store import (
    Added,
    Answer,
    Column,
    ColumnType,
    Demand,
    Distance,
    Editor,
    FarOffTheMap,
    Feature,
    Group,
    Kind,
    Layer,
    Near,
    MapUnits,
    NoPlace,
    Place,
    Predicate,
    ProgramEnded,
    Recovered,
    Refused,
    Rule,
    RuleForm,
    SidecarError,
    Store,
    Value,
    ValueRule,
    Which,
)

__all__ = [
    "Added",
    "Answer",
    "Column",
    "ColumnType",
    "Demand",
    "Distance",
    "Editor",
    "FarOffTheMap",
    "Feature",
    "Group",
    "JournalError",
    "Kind",
    "Layer",
    "MapUnits",
    "Near",
    "NoPlace",
    "Place",
    "Predicate",
    "ProgramEnded",
    "Recovered",
    "Refused",
    "Rule",
    "RuleForm",
    "SidecarError",
    "Store",
    "Value",
    "ValueRule",
    "Which",
]
