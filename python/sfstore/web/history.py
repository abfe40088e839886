"""What was done, newest first: by whom, when the server heard of it, and what it touched."""

from __future__ import annotations

import threading
import time
from collections import deque
from collections.abc import Iterable, Sequence
from dataclasses import dataclass, field
from itertools import islice
from typing import Any

from sfstore.extents import Box
from sfstore.store import Editor, Refused
from sfstore.web.keeper import Edit

__all__ = ["ENTRIES_MAX", "Entry", "History"]

ENTRIES_MAX = 200
"""How many entries a call gives at most."""

# How many are kept.
_KEPT_MAX = 20_000
# How many of the features that an edit has touched are named, and of how many it is looked where they are.
_NAMED_MAX = 20


@dataclass
class Entry:
    """A line that was accepted, a group or a batch as one; or a save."""

    number: int
    """How many there were before it, those of the journal counted."""
    version: int
    """The version of the store that it made; 0 for what was in the journal before."""
    when: float | None
    """When the server heard of it, in seconds since 1970; none for what was in the journal before."""
    editor: str
    line: str
    step: str
    """The line that an undo or a redo has moved; else as `line`."""
    changed: Sequence[dict[str, Any]] = ()
    """What it has changed, as events have it: the first ones, where they are many."""
    count: int = 0
    """How many it has changed."""
    box: Box | None = field(default=None)
    """The least box with the features that it has touched, before and after it, where that is known."""

    def told(self) -> dict[str, Any]:
        """As a page gets it."""
        return dict(vars(self))


class History:
    """The last entries, and beside a program with the content of the store where they are."""

    def __init__(self) -> None:
        self._lock = threading.Lock()
        self._entries: deque[Entry] = deque(maxlen=_KEPT_MAX)
        self._count = 0
        self._boxes: dict[int, Box] = {}

    def take(
        self, editor: str, line: str, step: str, changed: Sequence[dict[str, Any]] = (), version: int = 0, is_now: bool = True
    ) -> None:
        """Takes what was done."""
        with self._lock:
            when = time.time() if is_now else None
            box = self._boxes.pop(version, None)
            # Entries outlive saves: what large batches have changed would fill the memory.
            named = list(changed[:_NAMED_MAX])
            self._entries.append(Entry(self._count, version, when, editor, line, step, named, len(changed), box))
            self._count += 1

    def page(self, before: int | None, count: int) -> dict[str, Any]:
        """The newest entries, or those before one of them, the newest first; and whether there are older ones."""
        with self._lock:
            older = (entry for entry in reversed(self._entries) if before is None or entry.number < before)
            found = list(islice(older, count))
            has_more = next(older, None) is not None
            return {"entries": [entry.told() for entry in found], "more": has_more}

    def before(self, store: Editor, edits: Sequence[Edit]) -> None:
        """Notes where the features are that edits are about to change."""
        self._note(store, edits)

    def after(self, store: Editor, edits: Sequence[Edit]) -> None:
        """Notes where they are then."""
        self._note(store, edits)

    def forget(self) -> None:
        """Hears that the content is another one: what was noted stays."""

    def _note(self, store: Editor, edits: Sequence[Edit]) -> None:
        targets = {target for edit in edits for target in edit.step.targets if target.feature is not None}
        if not 0 < len(targets) <= _NAMED_MAX:
            return
        answers = store.run_all(f"box {target.layer} {target.feature}" for target in targets)
        box = _whole(tuple(map(int, str(answer).split(" "))) for answer in answers if not isinstance(answer, Refused))
        if box is not None:
            self._keep(edits[-1].version, box)

    def _keep(self, version: int, box: Box) -> None:
        """Has an entry know where it was, which may not be there yet."""
        with self._lock:
            entry = next((each for each in reversed(self._entries) if each.version == version), None)
            known = self._boxes.get(version) if entry is None else entry.box
            whole = _whole([box] if known is None else [known, box])
            if entry is not None:
                entry.box = whole
            elif whole is not None:
                self._boxes[version] = whole


def _whole(boxes: Iterable[tuple[int, ...]]) -> Box | None:
    """The least box with all boxes."""
    found = list(boxes)
    if not found:
        return None
    left, bottom, right, top = zip(*found)
    return min(left), min(bottom), max(right), max(top)
