"""The small JSON file beside a store's file: its grid, reference system, and names in the source.

It belongs to a store's file by its digest. A session with a journal keeps it so: before it has the
program put a new file in the place of an old one, it writes the digests of both.
"""

from __future__ import annotations

import errno
import itertools
import json
import os
import re
from collections.abc import Callable, Iterable, Iterator, Sequence
from dataclasses import asdict, dataclass, field, replace
from typing import Any

from sfstore import files
from sfstore.storefile import is_store

__all__ = [
    "LEFT_MAX",
    "Addition",
    "ColumnOrigin",
    "Crs",
    "LayerOrigin",
    "Sidecar",
    "SidecarError",
    "beside",
    "check_no_own_file",
    "check_none",
    "follow",
    "next_of",
    "path_of",
    "read",
    "settle",
    "store_beside",
    "write",
]

LEFT_MAX = 100_000
"""How many features of a layer a side-car names at most that were left out, and as many that were taken without some values."""

_FORMAT = "sfstore side-car 1"
# How many features it names in all: some kilobytes of ranges would be gigabytes of numbers.
_NAMED_MAX = 20 * LEFT_MAX
# What a layer has of features that were left out, which is written as ranges: 1-7 9.
_LEFT = ("left_out", "without", "parted")
_RANGE = re.compile("(-?[0-9]{1,20})(?:-(-?[0-9]{1,20}))?")
# Why a file that is there can't be read just now, though it may be the next time.
_PASSING = {errno.EAGAIN, errno.EINTR, errno.EIO, errno.EMFILE, errno.ENFILE, errno.ENOMEM, errno.ENOSPC, errno.ESTALE}
# How many sources it names at most that were added.
_ADDITIONS_MAX = 1_000
_BESIDE = (".json", ".json.next", ".journal", ".journal.lock", ".lock", ".editors", ".batches", ".styles", ".qgis", ".socket")
# What is made beside a file, to take its place.
_MADE = re.compile(r"\.(.+)\.sfstore-[0-9a-z]+")


class SidecarError(Exception):
    """The side-car is missing, is no side-car, or belongs to another file. The text says which."""


@dataclass(frozen=True)
class Crs:
    """A coordinate reference system, by its authority's code where it has one."""

    authority: str
    """Such as ``EPSG``; empty where there is none."""
    code: str
    """Such as ``25832``; empty where there is none."""
    wkt: str
    """The definition as well-known text."""

    def __str__(self) -> str:
        return f"{self.authority}:{self.code}" if self.authority else "one without a code"


@dataclass(frozen=True)
class ColumnOrigin:
    """A column, and what it was in the source."""

    name: str
    source_name: str
    type: str
    """OGR's name of the type, such as ``Integer64``."""
    subtype: str
    """OGR's name of the subtype, such as ``Boolean``, or ``None``."""
    width: int
    """The greatest number of characters that the source takes, 0 where it says none."""


@dataclass(frozen=True)
class LayerOrigin:
    """A layer, and what it was in the source."""

    name: str
    source_name: str
    identifier_column: str
    """The column of the identifiers. Empty where the source has none."""
    geometry_column: str
    """The column of the geometries. Empty where the source names none."""
    columns: list[ColumnOrigin]
    left_out: list[int] = field(default_factory=list)
    """The features that the import has left out, by their identifiers in the source: the first ones, where they are many."""
    without: list[int] = field(default_factory=list)
    """The features that it has taken without some of their values, in the same way."""
    left_columns: list[str] = field(default_factory=list)
    """What it has left out of all features: columns, and ``Z or M``."""
    cut: bool = False
    """Whether there are more such features than these name."""
    parted: list[int] = field(default_factory=list)
    """The features that it has taken without some members of their collections, in the same way."""


@dataclass(frozen=True)
class Addition:
    """What was left out of a source whose features were added to a layer."""

    name: str
    """The layer in the store."""
    source: str
    """The file that was added; empty where it was a database."""
    source_name: str
    """The layer in the source."""
    left_out: list[int] = field(default_factory=list)
    """As `LayerOrigin` has them, and the others too."""
    without: list[int] = field(default_factory=list)
    left_columns: list[str] = field(default_factory=list)
    cut: bool = False
    identifier_column: str = ""
    """The column of the identifiers in the source. Empty where it has none."""
    parted: list[int] = field(default_factory=list)

    @property
    def has_losses(self) -> bool:
        """Whether anything was left out."""
        return bool(self.cut or self.left_out or self.without or self.parted or self.left_columns)

    def and_(self, other: Addition) -> Addition:
        """What was left out of the same source twice."""
        named = {name: sorted({*getattr(self, name), *getattr(other, name)}) for name in _LEFT}
        columns = list(dict.fromkeys([*self.left_columns, *other.left_columns]))
        cut = self.cut or other.cut or any(len(each) > LEFT_MAX for each in named.values())
        first: dict[str, Any] = {name: each[:LEFT_MAX] for name, each in named.items()}
        return replace(self, left_columns=columns, cut=cut, **first)


@dataclass(frozen=True)
class Sidecar:
    """What stands in the file."""

    grid: tuple[str, str, str]
    """x and y of the origin, and the step, as decimals."""
    crs: Crs | None
    layers: list[LayerOrigin]
    digests: list[str] = field(default_factory=list)
    """The SHA-256 of the store's file, and of the one that is about to take its place."""
    additions: list[Addition] = field(default_factory=list)

    forgets_files: bool = False
    """Whether files were added of which it does not name what was left out, since there are more than it has room for."""
    forgets_tables: bool = False
    """Whether tables of a database were."""

    def with_additions(self, additions: Iterable[Addition]) -> Sidecar:
        """With what was left out of further sources. Where there is no room for all, the oldest go: files before tables."""
        known = {_key(addition): addition for addition in self.additions}
        for addition in additions:
            # The last one of all, also where it was there before.
            before = known.pop(_key(addition), None)
            known[_key(addition)] = before.and_(addition) if before else addition
        by_age = sorted(known.values(), key=lambda each: not each.source)
        gone = by_age[: max(0, len(by_age) - _ADDITIONS_MAX)]
        return replace(
            self,
            additions=[each for key, each in known.items() if key not in set(map(_key, gone))],
            forgets_files=self.forgets_files or any(each.source for each in gone),
            forgets_tables=self.forgets_tables or not all(each.source for each in gone),
        )


def _key(addition: Addition) -> tuple[str, str, str, str]:
    """The source of an addition with its key, and the layer that it was added to."""
    return addition.name, addition.source, addition.source_name, addition.identifier_column


def path_of(store: str) -> str:
    """The side-car's path, of the store's file: beside the file to which a link leads, as all that is kept beside it."""
    return os.path.realpath(store) + ".json"


def next_of(store: str) -> str:
    """Where the side-car stands of a file that is about to take the place of the store's."""
    return path_of(store) + ".next"


def beside(store: str) -> list[str]:
    """What a session keeps beside a store's file, and no map or report takes the place of."""
    path = os.path.realpath(store)
    return [path + ending for ending in _BESIDE]


def store_beside(path: str) -> str | None:
    """The store whose session keeps a file under this path, beside the store's own; none where no store does."""
    path = os.path.realpath(path)
    folder, name = os.path.split(path)
    made = _MADE.fullmatch(name)
    if made:
        return os.path.join(folder, made[1])
    stores = (path[: -len(ending)] for ending in _BESIDE if name.endswith(ending) and name != ending)
    return next((store for store in stores if _is_store(store)), None)


def _is_store(path: str) -> bool:
    """Whether a path is that of a store's file, be it there or not: by its name, by its journal, or by what it begins with."""
    if path.endswith(".sfs") or os.path.lexists(path + ".journal"):
        return True
    try:
        return os.path.isfile(path) and os.path.getsize(path) > 0 and is_store(path)
    except OSError:
        return False


def check_no_own_file(path: str) -> None:
    """`OSError` where a session of a store keeps a file of its own under a path: no store takes its place."""
    store = store_beside(path)
    if store is not None:
        raise OSError(errno.EINVAL, f"it is kept beside {os.path.basename(store)}, and no store takes its place", path)


def settle(store: str) -> bool:
    """Puts the side-car of the store's file in its place, where whoever brought the file broke off before.

    Whether it was there to be put. `SidecarError` where something else stands there.
    """
    path = next_of(store)
    if not os.path.lexists(path) or files.digest(store) not in _read(path).digests:
        return False
    files.replace(path, path_of(store))
    return True


def read(store: str, is_same_map: bool = False) -> Sidecar:
    """The side-car of a store's file. `SidecarError` where it is missing, wrong, or another's.

    Where somebody says that it is the same map, it is the store's, and belongs to the file from now on.
    """
    settle(store)
    found = _read(path_of(store))
    digest = files.digest(store)
    if digest in found.digests:
        return found
    if not is_same_map:
        raise SidecarError(_not_of(store))
    write(store, found, [digest])
    return replace(found, digests=[digest])


def check_none(store: str) -> None:
    """`SidecarError` where a store has a side-car, so that a grid that somebody names is not needed."""
    path = path_of(store)
    if not os.path.lexists(path):
        return
    if files.digest(store) not in _read(path).digests:
        raise SidecarError(f"{_not_of(store)} For another grid take {path} away first")
    raise SidecarError(f"{path} has the grid already: leave out --grid and --crs")


def _not_of(store: str) -> str:
    """That a side-car belongs to another file, and what helps."""
    return (
        f"{path_of(store)} belongs to another file than {store}: this one was saved since by the program sfstore "
        "alone, which keeps no side-car, or another store was put in its place. "
        "If it is the same map on the same grid, sfstore-export and sfstore-import --add take it with --same-map."
    )


def write(store: str, found: Sidecar, digests: list[str]) -> None:
    """Writes the side-car of a store's file, whole or not at all, for files of these digests."""
    room = _Room(_NAMED_MAX)
    layers = [_left_told(layer, room) for layer in found.layers]
    # The last ones before the others.
    additions = [_left_told(addition, room) for addition in reversed(found.additions)][::-1]
    content = {"format": _FORMAT, **asdict(found), "layers": layers, "digests": digests, "additions": additions}
    # In ASCII, since half a pair of surrogates has no place in UTF-8.
    data = json.dumps(content, indent=1).encode("ascii") + b"\n"
    with files.whole_file(path_of(store), store) as file:
        file.write(data)


def follow(store: str, old: str, next_digest: Callable[[], str]) -> str | None:
    """Has the side-car belong to the next file too, where there is one that belongs to the old file.

    The digest of the next file, which is asked for then alone; none where no side-car follows.
    """
    try:
        settle(store)
        if not os.path.exists(path_of(store)):
            return None
        found = _read(path_of(store))
    except (FileNotFoundError, SidecarError):
        # It is left as it is: whoever needs it is told what is wrong with it.
        return None
    if old not in found.digests:
        return None
    new = next_digest()
    if new != old:
        write(store, found, [old, new])
    return new


def _read(path: str) -> Sidecar:
    """The content of a side-car. `SidecarError` where it is missing or none, `OSError` where it can't be read just now."""
    try:
        with open(path, encoding="utf-8", opener=files.opened) as file:
            content = json.load(file)
    except FileNotFoundError:
        raise SidecarError(
            f"{path} is missing: it has the grid and the reference system of the store"
        ) from None
    except (OSError, RecursionError, ValueError) as error:
        if isinstance(error, OSError) and error.errno in _PASSING:
            raise
        raise SidecarError(f"{path} can't be read: {error}") from None
    try:
        return _sidecar(content)
    except (AttributeError, KeyError, TypeError, ValueError) as error:
        raise SidecarError(f"{path} is no side-car of a store: {error!r}") from None


def _sidecar(content: dict[str, Any]) -> Sidecar:
    if content["format"] != _FORMAT:
        raise ValueError(content["format"])
    x, y, step = map(str, content["grid"])
    crs = content["crs"]
    room = _Room(_NAMED_MAX)
    layers = [_layer(each, room) for each in content["layers"]]
    known = None if crs is None else Crs(**_texts(crs))
    # Those of former versions name no additions. There is room for the last ones before the others, as where they are written.
    additions = [_addition(each, room) for each in reversed(content.get("additions", []))][::-1]
    if len(additions) > _ADDITIONS_MAX:
        raise ValueError(f"more than {_ADDITIONS_MAX:,} additions")
    forgets = [content.get(name, False) for name in ("forgets_files", "forgets_tables")]
    if not all(isinstance(each, bool) for each in forgets):
        raise TypeError(f"{forgets!r} are neither true nor false")
    return Sidecar((x, y, step), known, layers, list(map(str, content["digests"])), additions, *forgets)


def _layer(content: dict[str, Any], room: _Room) -> LayerOrigin:
    columns = list(map(_column, content.pop("columns")))
    told: dict[str, Any] = {**_left(content, room), **_texts(content)}
    return LayerOrigin(columns=columns, **told)


def _addition(content: dict[str, Any], room: _Room) -> Addition:
    told: dict[str, Any] = {**_left(content, room), **_texts(content)}
    return Addition(**told)


def _left(content: dict[str, Any], room: _Room) -> dict[str, Any]:
    """Takes what was left out of the content of a layer or an addition: as many features as there is room for."""
    texts = {name: content.pop(name, "") for name in _LEFT}
    left_columns, cut = content.pop("left_columns", []), content.pop("cut", False)
    if not isinstance(left_columns, list) or not all(isinstance(name, str) for name in left_columns):
        raise TypeError(f"{left_columns!r} is no list of names")
    if not isinstance(cut, bool):
        raise TypeError(f"{cut!r} is neither true nor false")
    numbers = {name: _numbers(text, room) for name, text in texts.items()}
    is_short = any(len(numbers[name]) < _count(text) for name, text in texts.items())
    return {**numbers, "left_columns": left_columns, "cut": cut or is_short}


class _Room:
    """How many features a side-car may name yet."""

    def __init__(self, left: int) -> None:
        self._left = left

    def first(self, numbers: Sequence[int]) -> Sequence[int]:
        """The first ones of some, as many as there is room for."""
        taken = numbers[: self._left]
        self._left -= len(taken)
        return taken


def _left_told(layer: LayerOrigin | Addition, room: _Room) -> dict[str, Any]:
    """A layer or an addition as it is written, with the features that there is room for.

    Former versions take one that is without what was left out.
    """
    told = asdict(layer)
    named = {name: room.first(told[name]) for name in _LEFT}
    told["cut"] = layer.cut or any(len(named[name]) < len(told[name]) for name in _LEFT)
    told.update({name: _ranges(numbers) for name, numbers in named.items()})
    return {name: each for name, each in told.items() if each or name not in (*_LEFT, "left_columns", "cut")}


def _ranges(numbers: Iterable[int]) -> str:
    """Rising numbers as ranges.

    >>> _ranges([1, 2, 3, 7])
    '1-3 7'
    """
    words = []
    for _, group in itertools.groupby(enumerate(numbers), lambda each: each[1] - each[0]):
        each = [number for _, number in group]
        words.append(f"{each[0]}-{each[-1]}" if len(each) > 1 else str(each[0]))
    return " ".join(words)


def _ends(text: Any) -> Iterator[tuple[int, int]]:
    """The ends of ranges. `ValueError` where they are none."""
    for word in text.split():
        parts = _RANGE.fullmatch(word)
        if parts is None:
            raise ValueError(f"{word[:40]!r} is no range")
        yield int(parts[1]), int(parts[2] or parts[1])


def _count(text: Any) -> int:
    """How many numbers ranges have."""
    return sum(max(0, last - first + 1) for first, last in _ends(text))


def _numbers(text: Any, room: _Room) -> list[int]:
    """The numbers of ranges, the first ones that there is room for: no others are unfolded, as a side-car may be a stranger's.

    `ValueError` where they are none, or more than an import names of a layer.
    """
    if _count(text) > LEFT_MAX:
        raise ValueError(f"more than {LEFT_MAX:,} features")
    return [number for first, last in _ends(text) for number in room.first(range(first, last + 1))]


def _column(content: dict[str, Any]) -> ColumnOrigin:
    width = content.pop("width")
    if not isinstance(width, int):
        raise TypeError(f"{width!r} is no width")
    return ColumnOrigin(width=width, **_texts(content))


def _texts(content: dict[str, Any]) -> dict[str, str]:
    """Fields that are texts. `TypeError` where one is none: whoever reads the side-car takes them as such."""
    for name, value in content.items():
        if not isinstance(value, str):
            raise TypeError(f"{name} is no text: {value!r}")
    return content
