"""Another program with the content of a store, where edits are tried that may be refused."""

from __future__ import annotations

import contextlib
import tempfile
from collections.abc import Iterator
from typing import BinaryIO, cast, get_args

from sfstore.editor import Editor
from sfstore.geometry import read_wkt, write_wkb
from sfstore.language import COLUMN_TYPES
from sfstore.results import Kind
from sfstore.store import Store
from sfstore.storefile import FileColumn, FileFeature, FileLayer, write

__all__ = ["trial_of"]


@contextlib.contextmanager
def trial_of(store: Editor) -> Iterator[Store]:
    """A store with the layers, the features and the rules of another one, which is only asked. Its identifiers go on from the last ones.

    >>> with Store() as store:
    ...     store.add_layer("wells", "point")
    ...     with trial_of(store) as trial:
    ...         trial.add("wells", "POINT (3 4)")
    ...         len(trial.show("wells")), len(store.show("wells"))
    1
    (1, 0)
    """
    with tempfile.TemporaryFile() as file:
        write(cast(BinaryIO, file), [_layer_of(store, layer.name, layer.kind) for layer in store.layers()])
        file.flush()
        file.seek(0)
        trial = Store(program=store._program.name, load=file.fileno())
    try:
        for rule in store.rules():
            trial.run(f"rule add {rule.line}")
        yield trial
    finally:
        trial.close(save=False)


def _layer_of(store: Editor, name: str, kind: Kind) -> FileLayer:
    columns = [FileColumn(number, COLUMN_TYPES.index(column.type) + 1, column.name) for number, column in enumerate(store.columns(name), 1)]
    numbers = {column.name: column.number for column in columns}
    features = [
        FileFeature(feature.id, write_wkb(read_wkt(feature.wkt)), {numbers[column]: value for column, value in feature.values.items()})
        for feature in store.show(name)
    ]
    next_id = features[-1].id + 1 if features else 1
    return FileLayer(name, get_args(Kind).index(kind), next_id, len(columns) + 1, columns, features)
