"""Features on their way from a source to a store: as the bytes that the store's file has of them, in a file without a name.

So memory holds some twenty bytes of each, however large it is; twice that while they are numbered.
"""

from __future__ import annotations

import contextlib
import tempfile
import weakref
from array import array
from collections.abc import Callable, Iterator, Mapping, Sequence
from itertools import islice
from typing import IO, overload

from sfstore.storefile import FileFeature, Recorded, feature_of, record_of

__all__ = ["Features", "are_distinct", "changed"]

# How many bytes are written or read at a time.
_BUFFER = 1 << 20
# What a record begins with: the identifier.
_IDENTIFIER = 4


class _File:
    """A file without a name, which is gone when nobody has it any more."""

    def __init__(self, folder: str) -> None:
        self._folder = folder
        try:
            self.bytes = tempfile.TemporaryFile(buffering=_BUFFER, dir=folder or None)
        except OSError as error:
            raise _named(error, folder) from None
        self.size = 0
        # A seek to where it stands would write out each record by itself.
        self._is_at_end = True
        weakref.finalize(self, _close, self.bytes)

    def add(self, record: bytes) -> None:
        """Writes a record behind the others."""
        try:
            if not self._is_at_end:
                self.bytes.seek(self.size)
                self._is_at_end = True
            self.bytes.write(record)
        except OSError as error:
            raise _named(error, self._folder) from None
        self.size += len(record)

    def record(self, place: int, length: int) -> bytes:
        """The record at a place. `OSError` where the file ends before it."""
        self._is_at_end = False
        self.bytes.seek(place)
        found = self.bytes.read(length)
        if len(found) < length:
            raise OSError("a file of features on their way is cut off")
        return found


def _named(error: OSError, folder: str) -> OSError:
    """The fault with the folder in which it is: the file has no name that would help."""
    return OSError(error.errno, error.strerror, folder or ".")


def _close(file: IO[bytes]) -> None:
    """Lets go of a file, also where the disk is full."""
    with contextlib.suppress(OSError):
        file.close()


class Features(Recorded):
    """Features in their order, whose identifiers may be any numbers of 64 bits until they are written.

    They are of one layer, whose columns have types.
    """

    def __init__(self, folder: str, types: Mapping[int, int], file: _File | None = None) -> None:
        """``folder`` is where there is room for them. `OSError` where no file can be made there."""
        self._folder = folder
        self._types = dict(types)
        self._file = _File(folder) if file is None else file
        self._ids = array("q")
        self._places = array("Q")
        self._lengths = array("I")

    def append(self, feature: FileFeature) -> None:
        """Adds a feature behind the others."""
        record = record_of(feature._replace(id=0), self._types)
        self._ids.append(feature.id)
        self._places.append(self._file.size)
        self._lengths.append(len(record))
        self._file.add(record)

    @property
    def ids(self) -> Sequence[int]:
        """The identifiers."""
        return self._ids

    @property
    def types(self) -> Mapping[int, int]:
        """The types of the columns by their numbers."""
        return self._types

    def changed(self, change: Callable[[FileFeature], FileFeature], types: Mapping[int, int] | None = None) -> Features:
        """The features as something makes them of these. Their columns may have other types then."""
        found = Features(self._folder, self._types if types is None else types)
        for feature in self:
            found.append(change(feature))
        return found

    def numbered(self, numbers: Sequence[int]) -> Features:
        """The features with other identifiers, by rising ones."""
        found = Features(self._folder, self._types, self._file)
        found._ids, found._places, found._lengths = array("q", numbers), self._places[:], self._lengths[:]
        if not _are_rising(numbers):
            order = sorted(range(len(numbers)), key=numbers.__getitem__)
            found._ids = array("q", map(numbers.__getitem__, order))
            found._places = array("Q", map(self._places.__getitem__, order))
            found._lengths = array("I", map(self._lengths.__getitem__, order))
        return found

    def records(self) -> Iterator[bytes]:
        for at, identifier in enumerate(self._ids):
            record = self._record(at)
            yield identifier.to_bytes(_IDENTIFIER, "big") + record[_IDENTIFIER:]

    def __len__(self) -> int:
        return len(self._ids)

    def __iter__(self) -> Iterator[FileFeature]:
        return map(self._at, range(len(self)))

    @overload
    def __getitem__(self, index: int) -> FileFeature: ...

    @overload
    def __getitem__(self, index: slice) -> list[FileFeature]: ...

    def __getitem__(self, index: int | slice) -> FileFeature | list[FileFeature]:
        places = range(len(self))[index]
        return self._at(places) if isinstance(places, int) else list(map(self._at, places))

    def _at(self, at: int) -> FileFeature:
        return feature_of(self._record(at), 0, self._types)._replace(id=self._ids[at])

    def _record(self, at: int) -> bytes:
        return self._file.record(self._places[at], self._lengths[at])


def changed(features: Sequence[FileFeature], change: Callable[[FileFeature], FileFeature], types: Mapping[int, int]) -> Sequence[FileFeature]:
    """Features as something makes them of others. Those on their way from a source stay in a file."""
    return features.changed(change, types) if isinstance(features, Features) else list(map(change, features))


def are_distinct(numbers: Sequence[int]) -> bool:
    """Whether no number stands twice. Rising ones, as most are, take no room for that."""
    return all(map(int.__lt__, numbers, islice(numbers, 1, None))) or len(set(numbers)) == len(numbers)


def _are_rising(numbers: Sequence[int]) -> bool:
    return all(map(int.__le__, numbers, islice(numbers, 1, None)))
