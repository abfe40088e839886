"""How layers look in QGIS: a style of QGIS for each layer, or for each kind of geometries of a layer that takes any.

They stand in a file of their own beside the store, and the page knows nothing of them.
"""

from __future__ import annotations

import hashlib
from collections.abc import Mapping
from functools import partial
from typing import NamedTuple, Union

from sfstore.language import KINDS
from sfstore.web.editors import EditorsError, as_name
from sfstore.web.qml import check
from sfstore.web.stylefile import StyleError, StyleFile, Unread, read_or_kept

__all__ = ["QgisStyle", "QgisStyles", "SavedMeanwhile", "kind_of"]

_FORM = "sfstore styles of QGIS 1"
# Room for some thousand styles as QGIS writes them.
_BYTES_MAX = 1 << 26

_ByKind = Mapping[str, Union[Mapping[str, str], Unread]]


class QgisStyle(NamedTuple):
    """A style as QGIS has written it, and who has saved it."""

    qml: str
    by: str

    @property
    def mark(self) -> str:
        """A short text that another style does not have."""
        return hashlib.sha256(self.qml.encode()).hexdigest()[:16]


class SavedMeanwhile(Exception):
    """A style is not saved: the one that is there is not the one that was seen."""

    def __init__(self, style: QgisStyle | None) -> None:
        super().__init__(style)
        self.style = style
        """The style that is there, or none where it was taken away."""


class QgisStyles(StyleFile[_ByKind]):
    """How the layers of a store look in QGIS, kept in a file beside it."""

    def __init__(self, store: str) -> None:
        super().__init__(store, ".qgis", _FORM, _by_kind, _BYTES_MAX)

    def style(self, layer: str, kind: str) -> QgisStyle | None:
        """The style of a layer, or of one kind of its geometries."""
        found = self.all().get(layer, {}).get(kind)
        return None if found is None or isinstance(found, Unread) else QgisStyle(found["qml"], found["by"])

    def fault_at(self, layer: str, kind: str) -> str:
        """Why the style of a layer, or of one kind of its geometries, can't be read, in a sentence; empty where it can, and where there is none."""
        kinds = self._kept.styles.get(layer, {})
        found = kinds if isinstance(kinds, Unread) else kinds.get(kind)
        return self.fault or (self.fault_of(_titled(layer, kind), found) if isinstance(found, Unread) else "")

    def faults(self) -> list[str]:
        """What can't be read, in a sentence for each: the file, or styles in it, of one kind of geometries too."""
        kinds = [(layer, kind) for layer, styles in self.all().items() for kind, style in styles.items() if isinstance(style, Unread)]
        return [*super().faults(), *(self.fault_at(layer, kind) for layer, kind in kinds)]

    def save(self, layer: str, kind: str, style: QgisStyle | None, seen: str | None) -> list[str]:
        """Has a style in the place of the one whose mark was seen, or none. `SavedMeanwhile` where another one is there.

        The names of layers that are gone and whose styles gave way, as `set` gives them.
        `StyleError` where it is no style that may be kept, or the file can't be read, `OSError` where it can't be written.
        """
        if style is not None:
            check(style.qml)
        with self.lock:
            there = self.style(layer, kind)
            if (there.mark if there else None) != seen:
                raise SavedMeanwhile(there)
            others = {other: kept for other, kept in self.all().get(layer, {}).items() if other != kind}
            return self.set(layer, {**others, **({kind: style._asdict()} if style else {})})


def kind_of(given: object) -> str:
    """The kind of geometries that a style is for: empty where the layer has one. `StyleError` where it is none."""
    if given != "" and given not in KINDS:
        raise StyleError(f"kind has to be empty, or one of {', '.join(KINDS)}")
    return str(given)


def _by_kind(content: object) -> _ByKind:
    """The styles of a layer as the file has them."""
    if not isinstance(content, dict):
        raise StyleError("its styles have to be an object")
    return {kind: read_or_kept(partial(_style, kind), each) for kind, each in content.items()}


def _titled(layer: str, kind: str) -> str:
    return f"{layer} ({kind})" if kind else layer


def _style(kind: str, content: object) -> Mapping[str, str]:
    kind_of(kind)
    qml, by = (content.get("qml"), content.get("by")) if isinstance(content, dict) else (None, None)
    if not isinstance(qml, str) or not isinstance(by, str):
        raise StyleError("a style of QGIS has to have qml, and by whom it is")
    check(qml)
    try:
        return {"qml": qml, "by": as_name(by)}
    except EditorsError as error:
        raise StyleError(str(error)) from None
