"""A file of styles beside a store, which is written whole: each style goes with its layer, and none is taken that is no style.

One that is none, as somebody has edited the file, stays there as it is, and no other one minds it.
"""

from __future__ import annotations

import contextlib
import json
import os
import threading
from collections.abc import Callable, Mapping, Sequence
from dataclasses import dataclass
from typing import Any, Generic, NamedTuple, TypeVar

from sfstore import files
from sfstore.language import NAME
from sfstore.web.steps import LayerChange

__all__ = ["StyleError", "StyleFile", "Unread", "read_or_kept"]

_Style = TypeVar("_Style", bound=Mapping[str, Any])
_T = TypeVar("_T")

# Styles of layers that are gone, by their last names: of one name the last one that went comes back first.
_Gone = Mapping[str, list[Any]]

_LAYERS_MAX = 65_535
# How many styles of gone layers of one name are kept.
_GONE_MAX = 100


class StyleError(Exception):
    """A style, or a file of styles, is none. The text says why."""


@dataclass(frozen=True)
class Unread:
    """What stands in a file in the place of a style, and is none. It is written as it was read."""

    content: object
    why: str


class StyleFile(Generic[_Style]):
    """The styles of a store's layers, by their names, kept in a file beside it.

    A style goes with its layer: when that is renamed, dropped or brought back, by whomever. A layer that is new has none,
    whatever another one of its name had. The file says how far it has followed the journal, so that what the program alone
    has done meanwhile is followed too; what it has saved as well is not known.

    Where the file can't be read, nothing is written over it, and `fault` says why. Where one style in it is none, its layer has
    none until it gets another one, and `faults` says why.
    """

    def __init__(self, store: str, ending: str, form: str, read: Callable[[object], _Style], bytes_max: int) -> None:
        """``form`` is the name of the file's format, ``read`` makes a style of what it holds for one. `StyleError` where that is none."""
        self._store = os.path.realpath(store)
        self._path = self._store + ending
        self._form, self._bytes_max = form, bytes_max
        self.lock = threading.RLock()
        """Whoever looks at a style before it is set has this meanwhile."""
        self.fault = ""
        """Why the file can't be read, in a sentence; empty where it can."""
        self._kept = _Kept({}, {}, None, 0)
        try:
            self._kept = _read(self._path, form, read, bytes_max)
        except (OSError, StyleError) as error:
            why = error.strerror if isinstance(error, OSError) else error
            self.fault = f"{self._path} can't be read: {why}. Layers look as they do without it, until it is mended or taken away."

    def all(self) -> Mapping[str, _Style]:
        """The styles by the names of layers; a layer without one is not there."""
        return {layer: style for layer, style in self._kept.styles.items() if not isinstance(style, Unread)}

    def faults(self) -> list[str]:
        """What can't be read, in a sentence for each: the file, or styles in it."""
        unread = [self.fault_of(layer, style) for layer, style in self._kept.styles.items() if isinstance(style, Unread)]
        return [self.fault] if self.fault else unread

    def fault_of(self, layer: str, unread: Unread) -> str:
        """What is said of a style that can't be read."""
        return f"The style of {layer} in {self._path} can't be read: {unread.why}. It stays there until {layer} gets another one; others are not touched by it."

    def set(self, layer: str, style: _Style | None) -> list[str]:
        """Gives a layer a style, or takes it away. `StyleError` where the file can't be read, `OSError` where it can't be written.

        The names of layers that are gone, and whose styles gave way as there was no room for them: an undo would bring these
        layers back without.
        """
        with self.lock:
            changed = {name: kept for name, kept in self._kept.styles.items() if name != layer}
            if style:
                changed[layer] = style
            return self._keep(self._kept._replace(styles=changed))

    def catch_up(self, head: str, changes: Sequence[LayerChange]) -> bool:
        """Follows what a journal has made of layers, as far as that is not done. Whether a layer looks otherwise now.

        ``head`` is that of the journal: a save begins one with another head, and nothing of the one before can be brought back.
        """
        with self.lock:
            kept, followed = self._kept, self._kept.followed
            if kept.head is None:
                # A file of a former version, or none.
                followed = len(changes)
            elif kept.head != head or followed > len(changes):
                kept, followed = kept._replace(gone={}), 0
            for change in changes[followed:]:
                kept = _followed(kept, change)
            was, self._kept = self._kept, kept._replace(head=head, followed=len(changes))
            if (was.styles, was.gone) != (kept.styles, kept.gone) or (was.head != head and (kept.styles or kept.gone)):
                # Where it can't be written, the styles go with their layers as long as the server runs, and again at its next start.
                with contextlib.suppress(OSError, StyleError):
                    self._keep(self._kept)
            return was.styles != kept.styles

    def _keep(self, kept: _Kept) -> list[str]:
        """Has styles in the file, and then here. The names of layers that are gone and whose styles gave way."""
        if self.fault:
            raise StyleError(self.fault)
        if len(kept.styles) > _LAYERS_MAX:
            raise StyleError(f"there are {_LAYERS_MAX} styles already")
        data, gave_way = self._written(kept), []
        if len(data) > self._bytes_max:
            # What an undo would bring back gives way to what is there.
            gave_way = sorted({name for gone in kept.gone.values() for name, styles in gone.items() if any(styles)})
            kept = kept._replace(gone={})
            data = self._written(kept)
        if len(data) > self._bytes_max:
            raise StyleError(f"the styles would have more than {self._bytes_max:,} bytes together")
        with files.whole_file(self._path, self._store) as file:
            file.write(data)
        self._kept = kept
        return gave_way

    def _written(self, kept: _Kept) -> bytes:
        """The bytes of the file."""
        content: dict[str, Any] = {"format": self._form, "layers": kept.styles}
        if kept.head is not None:
            content["journal"] = {"head": kept.head, "followed": kept.followed}
        if kept.gone:
            content["gone"] = kept.gone
        try:
            return json.dumps(content, indent=1, default=_content_of).encode() + b"\n"
        except RecursionError:
            raise StyleError("what can't be read in the file is too deep to be written again") from None


class _Kept(NamedTuple):
    """What the file has."""

    styles: Mapping[str, Any]
    gone: Mapping[str, _Gone]
    """Those of layers that an ``undo`` would bring back, and those that a ``redo`` would."""
    head: str | None
    """The head of the journal that was followed; none where that is not known."""
    followed: int
    """How many of its changes of layers were followed."""


def read_or_kept(read: Callable[[object], _T], content: object) -> _T | Unread:
    """A style as a file has it, or what stands in the place of one."""
    try:
        return read(content)
    except StyleError as error:
        return Unread(content, str(error))


def _content_of(unread: Unread) -> object:
    return unread.content


def _followed(kept: _Kept, change: LayerChange) -> _Kept:
    """The styles behind a change of a layer."""
    styles, gone = dict(kept.styles), dict(kept.gone)
    style: Mapping[str, Any] = {}
    if change.before:
        style = styles.pop(change.before, {})
    elif change.verb:
        gone[change.verb], style = _taken(gone.get(change.verb, {}), change.after)
    # That of one of this name which is not there any more: the program alone has dropped and saved it.
    styles.pop(change.after, None)
    if change.after and style:
        styles[change.after] = style
    if not change.after:
        # What an undo takes away a redo brings back, and the other way round.
        back = "redo" if change.verb == "undo" else "undo"
        gone[back] = _put_away(gone.get(back, {}), change.before, style)
    return kept._replace(styles=styles, gone={verb: each for verb, each in gone.items() if each})


def _taken(gone: _Gone, name: str) -> tuple[_Gone, Mapping[str, Any]]:
    """The styles of gone layers without that of the last one of a name, and that one; none where it had none."""
    others = {other: styles for other, styles in gone.items() if other != name}
    *rest, last = gone.get(name) or [{}]
    return {**others, name: rest} if rest else others, last


def _put_away(gone: _Gone, name: str, style: Mapping[str, Any]) -> _Gone:
    """The styles of gone layers with that of one more. One without counts where another one of its name has gone before."""
    before = gone.get(name, [])
    return {**gone, name: [*before, style][-_GONE_MAX:]} if style or before else gone


def _read(path: str, form: str, read: Callable[[object], Any], bytes_max: int) -> _Kept:
    """What a file has; nothing where there is no file."""
    try:
        with open(path, "rb", opener=files.opened) as file:
            data = file.read(bytes_max + 1)
    except FileNotFoundError:
        return _Kept({}, {}, None, 0)
    if len(data) > bytes_max:
        raise StyleError(f"it has more than {bytes_max} bytes")
    try:
        content = json.loads(data)
    except (RecursionError, ValueError) as error:
        raise StyleError(f"it is no JSON ({error})") from None
    if not isinstance(content, dict) or content.get("format") != form:
        raise StyleError(f"it has not the format {form!r}")
    gone = _gone_of(content.get("gone", {}), read)
    head, followed = _journal_of(content.get("journal"))
    return _Kept(_by_layer(content.get("layers"), lambda each: read_or_kept(read, each)), gone, head, followed)


def _by_layer(content: object, read: Callable[[object], _T]) -> dict[str, _T]:
    """What layers have, by their names."""
    if not isinstance(content, dict):
        raise StyleError("it has no styles by the names of layers")
    for layer in content:
        if NAME.fullmatch(layer) is None:
            raise StyleError(f"{layer[:40]!r} is no name of a layer")
    return {layer: read(value) for layer, value in content.items()}


def _gone_of(content: object, read: Callable[[object], Any]) -> dict[str, _Gone]:
    """The styles of gone layers."""
    if not isinstance(content, dict) or not content.keys() <= {"undo", "redo"}:
        raise StyleError("gone has to have what an undo and a redo bring back")

    def listed(styles: object) -> list[Any]:
        if not isinstance(styles, list):
            raise StyleError("styles of layers that are gone have to be a list")
        return [read_or_kept(read, each) for each in styles]

    return {verb: _by_layer(each, listed) for verb, each in content.items()}


def _journal_of(content: object) -> tuple[str | None, int]:
    """The head of the journal that was followed, and how far; a former version says nothing of it."""
    if content is None:
        return None, 0
    head, followed = (content.get("head"), content.get("followed")) if isinstance(content, dict) else (None, None)
    if not isinstance(head, str) or type(followed) is not int or followed < 0:
        raise StyleError("journal has to be a head, and how far it was followed")
    return head, followed
