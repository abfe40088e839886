"""How new files take the place of old ones, as a set.

The new files are made in a folder of their own beside, the *room*:

    .TARGET.sfstore-XXXXXXXX/new       the new files
    .TARGET.sfstore-XXXXXXXX/moving    the old ones, while they are moved aside one by one
    .TARGET.sfstore-XXXXXXXX/old       the old ones, when all of them are there

A set of one file takes the place of the old one by one rename. Else the old ones go aside, the
leading one first, and the new ones in, the leading one last: no reader finds a part of each. What
an interrupted process leaves is mended by the next one: while there is ``moving``, the old files go
back; when there is ``old``, the new ones go on.
"""

from __future__ import annotations

import contextlib
import fcntl
import os
import shutil
import signal
import stat
import tempfile
import threading
from collections.abc import Callable, Iterator
from dataclasses import dataclass

from sfstore import files, sidecar
from sfstore.exchange.ogr import ExchangeError

__all__ = ["Place", "check_free", "placed", "room_beside", "uninterrupted"]

Say = Callable[[str], object]

_MARK = ".sfstore-"


@dataclass(frozen=True)
class Place:
    """Where a set of files goes."""

    folder: str
    """The folder that they stand in."""
    names: list[str]
    """The names that the set can have, the leading one first."""
    contents: frozenset[str] | None = None
    """Where the set is one folder: the names that a file in it can have."""
    overwrite: bool = False
    """Whether old ones may be replaced."""
    mode: int = 0o777
    """The most permission that a new file is to give."""

    @property
    def leading(self) -> str:
        return self.names[0]

    @property
    def is_folder(self) -> bool:
        return self.contents is not None

    def path(self, name: str) -> str:
        return os.path.join(self.folder, name)

    def present(self) -> list[str]:
        """The names that are there."""
        return [name for name in self.names if os.path.lexists(self.path(name))]


def check_free(place: Place) -> None:
    """`ExchangeError` where something that may not be replaced is in the way, or would be taken for a file of a store."""
    for name in place.names:
        store = sidecar.store_beside(place.path(name))
        if store is not None:
            raise ExchangeError(f"{place.path(name)} is kept beside {store}: name another file")
    for name in place.present():
        path = place.path(name)
        found = os.lstat(path).st_mode
        if stat.S_ISLNK(found):
            raise ExchangeError(f"{path} is a link: name what it leads to")
        if not place.overwrite:
            raise ExchangeError(f"{path} is there already: --overwrite replaces it")
        if place.contents is not None:
            _check_contents(path, place.contents)
        elif not stat.S_ISREG(found):
            raise ExchangeError(f"{path} is no file")
    if place.present() and place.leading not in place.present():
        path = place.path(place.present()[0])
        raise ExchangeError(f"{path} is there without {place.leading}: take it away, or name another")


def _check_contents(folder: str, wanted: frozenset[str]) -> None:
    """`ExchangeError` where a folder has anything that the new one has not."""
    if not os.path.isdir(folder):
        raise ExchangeError(f"{folder} is no folder")
    for entry in sorted(os.scandir(folder), key=lambda entry: entry.name):
        if entry.name not in wanted or not entry.is_file(follow_symlinks=False):
            raise ExchangeError(
                f"{entry.path} is there, and no file of this export: take it away, "
                "or name another folder"
            )


@contextlib.contextmanager
def placed(place: Place, say: Say) -> Iterator[str]:
    """An empty folder. What the body puts there takes its place, as a set, where it ends well.

    Where the body raises, all is as it was. `ExchangeError` where something is in the way.
    """
    _mend(place, say)
    check_free(place)
    with _room(place.folder, place.leading) as room:
        new = os.path.join(room, "new")
        os.mkdir(new)
        try:
            yield new
            check_free(place)
            _fit_modes(new, place)
            _sync_all(new)
            with uninterrupted():
                _put(room, place)
        finally:
            with uninterrupted():
                _settle(room, place, say)


@contextlib.contextmanager
def room_beside(path: str) -> Iterator[str]:
    """A folder beside a path that others can't enter. It is taken away afterwards.

    So is one that a process has left which was ended.
    """
    folder, name = os.path.split(os.path.abspath(path))
    for left, lock in _left_rooms(folder, name):
        if lock is not None and not {"moving", "old"}.intersection(os.listdir(left)):
            shutil.rmtree(left, ignore_errors=True)
    with _room(folder, name) as room:
        try:
            yield room
        finally:
            shutil.rmtree(room, ignore_errors=True)


@contextlib.contextmanager
def uninterrupted() -> Iterator[None]:
    """Has an interrupt by a person do nothing: for the few renames that belong together."""
    if threading.current_thread() is not threading.main_thread():
        yield
        return
    before = signal.signal(signal.SIGINT, signal.SIG_IGN)
    try:
        yield
    finally:
        signal.signal(signal.SIGINT, before)


@contextlib.contextmanager
def _room(folder: str, name: str) -> Iterator[str]:
    """A room for a name in a folder, locked as long as its process lives."""
    room = tempfile.mkdtemp(prefix=_prefix(name), dir=folder)
    lock = _locked(room)
    try:
        yield room
    finally:
        os.close(lock)


def _prefix(name: str) -> str:
    return f".{name[:100]}{_MARK}"


def _locked(room: str) -> int:
    """The lock of a room. `BlockingIOError` where a living process has it."""
    lock = os.open(room, os.O_RDONLY | os.O_DIRECTORY | os.O_NOFOLLOW)
    try:
        fcntl.flock(lock, fcntl.LOCK_EX | fcntl.LOCK_NB)
    except BaseException:
        os.close(lock)
        raise
    return lock


def _left_rooms(folder: str, name: str) -> Iterator[tuple[str, int | None]]:
    """The rooms for a name that are there, each with its lock, or none where a process has it."""
    for found in sorted(os.listdir(folder)):
        room = os.path.join(folder, found)
        if not found.startswith(_prefix(name)) or not _is_ours(room):
            continue
        try:
            lock = _locked(room)
        except BlockingIOError:
            yield room, None
            continue
        try:
            yield room, lock
        finally:
            os.close(lock)


def _mend(place: Place, say: Say) -> None:
    """Brings to an end what exports to the same place have left that broke off."""
    for room, lock in _left_rooms(place.folder, place.leading):
        if lock is None:
            target = place.path(place.leading)
            raise ExchangeError(f"another export to {target} is under way")
        with uninterrupted():
            _settle(room, place, say, is_late=True)


def _is_ours(room: str) -> bool:
    """Whether a path is a folder that this user has made. Another one could lead anywhere."""
    found = os.lstat(room)
    return stat.S_ISDIR(found.st_mode) and found.st_uid == os.geteuid()


def _put(room: str, place: Place) -> None:
    """Begins to put the new files in their place: by one rename, or by moving the old ones aside."""
    new, present = os.path.join(room, "new"), place.present()
    fresh = os.listdir(new)
    if len(fresh) == 1 and not place.is_folder and present in ([], fresh):
        made, path = os.path.join(new, fresh[0]), place.path(fresh[0])
        if place.overwrite or not _is_linked(made, path):
            files.replace(made, path)
        return
    moving = os.path.join(room, "moving")
    os.mkdir(moving)
    files.sync(room)
    for name in present:
        os.rename(place.path(name), os.path.join(moving, name))
    files.sync(moving)
    files.sync(place.folder)
    os.rename(moving, os.path.join(room, "old"))
    files.sync(room)


def _is_linked(made: str, path: str) -> bool:
    """Whether a new file has got a name too, which a rename could take from another one that has come meanwhile.

    It is none where the disk has no links. `ExchangeError` where another one has come.
    """
    try:
        os.link(made, path)
    except FileExistsError:
        raise ExchangeError(f"{path} was made meanwhile") from None
    except OSError:
        return False
    os.unlink(made)
    files.sync(os.path.dirname(path))
    return True


def _settle(room: str, place: Place, say: Say, is_late: bool = False) -> None:
    """Brings a room to its end: the old files go back, or the new ones on, and the room is taken away.

    It may be done again after it broke off anywhere.
    """
    moving, old, new = (os.path.join(room, name) for name in ("moving", "old", "new"))
    target = place.path(place.leading)
    if os.path.isdir(moving):
        if _move_all(moving, place) and is_late:
            say(f"an export to {target} broke off: what stood there before stands there again")
    elif os.path.isdir(old):
        if _move_all(new, place) and is_late:
            say(f"an export to {target} broke off: its new files stand there now")
        if not _drop(old, place):
            say(f"{old} has what was put into the old {target} meanwhile: it is left there")
            return
    shutil.rmtree(room, ignore_errors=True)


def _move_all(source: str, place: Place) -> bool:
    """Moves all that is in a folder of a room to its place, the leading file last.

    Whether there was anything to be moved.
    """
    names = os.listdir(source) if os.path.isdir(source) else []
    for name in sorted(names, key=lambda name: name == place.leading):
        if os.path.lexists(place.path(name)):
            raise ExchangeError(f"{place.path(name)} was made meanwhile: the rest is in {source}")
        os.rename(os.path.join(source, name), place.path(name))
    files.sync(place.folder)
    return bool(names)


def _drop(old: str, place: Place) -> bool:
    """Takes the old files away; in a folder, those alone that there are new ones of."""
    for name in os.listdir(old):
        path = os.path.join(old, name)
        if place.contents is None:
            os.unlink(path)
            continue
        for inner in place.contents.intersection(os.listdir(path)):
            with contextlib.suppress(IsADirectoryError):
                os.unlink(os.path.join(path, inner))
        if not os.listdir(path):
            os.rmdir(path)
    return not os.listdir(old)


def _fit_modes(new: str, place: Place) -> None:
    """Gives new files the mode of the old ones, else no more than the store's file gives."""
    for name in os.listdir(new):
        path, old = os.path.join(new, name), place.path(name)
        if os.path.isdir(path):
            _fit_modes(path, Place(old, os.listdir(path), mode=place.mode))
        if os.path.lexists(old):
            os.chmod(path, stat.S_IMODE(os.lstat(old).st_mode))
        elif not os.path.isdir(path):
            os.chmod(path, stat.S_IMODE(os.lstat(path).st_mode) & place.mode)


def _sync_all(folder: str) -> None:
    """Has all in a folder on the disk."""
    for name in os.listdir(folder):
        path = os.path.join(folder, name)
        if os.path.isdir(path):
            _sync_all(path)
        else:
            files.sync(path)
    files.sync(folder)
