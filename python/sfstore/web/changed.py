"""What edits have changed, for whoever keeps a picture of the store."""

from __future__ import annotations

from collections.abc import Iterable
from typing import Any, Literal, NamedTuple

from sfstore.web.changes import Target
from sfstore.web.steps import Did, Step

__all__ = ["Changed", "What", "changed_by", "merged"]

What = Literal["added", "changed", "deleted", "columns", "layers", "rules"]
"""What became of a feature; or a layer has other columns; or there are other layers, or in another order; or other rules."""

_OF_EDITS: dict[str, What] = {
    "add": "added",
    "addhex": "added",
    "delete": "deleted",
    "column": "columns",
    "layer": "layers",
    "rule": "rules",
}
_BACK: dict[What, What] = {"added": "deleted", "deleted": "added"}


class Changed(NamedTuple):
    """Something that is another one than before."""

    what: What
    layer: str | None
    """The layer; none where a layer has moved in drawing order."""
    feature: int | None
    """The feature; none where it is not known which ones of the layer."""


def changed_by(line: str, step: Step) -> list[Changed]:
    """What an accepted line has changed, which made a step or moved it.

    The undo of an addition is a deletion, and the other way round; a group is undone from its end.
    """
    is_undo = line.strip() == "undo"
    edits = reversed(step.edits) if is_undo else step.edits
    return [changed for did in edits for changed in _changed(did, is_undo)]


def _changed(did: Did, is_undo: bool) -> list[Changed]:
    what = _OF_EDITS.get(did.line.split(maxsplit=1)[0], "changed")
    if is_undo:
        what = _BACK.get(what, what)
    targets = did.targets or (Target("", None),)
    return [Changed(what, target.layer or None, target.feature) for target in targets]


def merged(changes: Iterable[Changed]) -> list[dict[str, Any]]:
    """Changes as JSON has them: of several of one feature, what they are together."""
    whole: dict[tuple[str | None, int | None, bool], Changed] = {}
    for change in changes:
        key = change.layer, change.feature, change.what in ("columns", "layers", "rules")
        before = whole.get(key)
        if before is not None and before.what == "added" and change.what == "changed":
            continue
        whole[key] = change
    return [{"what": change.what, "layer": change.layer, "id": change.feature} for change in whole.values()]
