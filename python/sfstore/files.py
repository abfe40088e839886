"""Files that are written whole or not at all, and the names and modes of what stands beside them."""

from __future__ import annotations

import contextlib
import errno
import hashlib
import os
import re
import secrets
import stat
from collections.abc import Iterator
from typing import IO, BinaryIO

__all__ = [
    "digest",
    "digest_of",
    "give",
    "is_at",
    "keep_mode",
    "made_beside",
    "opened",
    "opened_here",
    "remove_leftovers",
    "replace",
    "sync",
    "whole_file",
]

# What is made beside a file `NAME` has the name `.NAME.sfstore-` and these digits: nobody else uses it.
_MARK = ".sfstore-"
_DIGITS = 12
# The most bytes of a name.
_NAME_MAX = 255


def digest(path: str) -> str:
    """The SHA-256 of a file's bytes, in hexadecimal. `OSError` where it can't be read."""
    with open(path, "rb", opener=opened) as file:
        return digest_of(file)


def digest_of(file: IO[bytes]) -> str:
    """The SHA-256 of an open file's bytes, which is then at its beginning again."""
    hashed = hashlib.sha256()
    file.seek(0)
    while block := file.read(1 << 20):
        hashed.update(block)
    file.seek(0)
    return hashed.hexdigest()


def sync(path: str) -> None:
    """Has the bytes of a file on the disk, or the names of a folder."""
    file = os.open(path, os.O_RDONLY)
    try:
        os.fsync(file)
    finally:
        os.close(file)


def replace(new: str, path: str) -> None:
    """Puts a file, whose bytes are on the disk, in the place of another one.

    A crash leaves the old file or the new one; afterwards it is the new one.
    """
    os.replace(new, path)
    sync(os.path.dirname(os.path.abspath(path)))


def is_at(file: int, path: str) -> bool:
    """Whether an open file is the one that a path names, and no link leads to it."""
    try:
        return os.path.samestat(os.fstat(file), os.lstat(path))
    except FileNotFoundError:
        return False


def opened(path: str, flags: int) -> int:
    """Opens a file for `open`. `OSError` at once where a pipe stands in its place: nobody may ever write to that."""
    file = os.open(path, flags | os.O_NONBLOCK | os.O_CLOEXEC, 0o600)
    if not stat.S_ISREG(os.fstat(file).st_mode) and not stat.S_ISDIR(os.fstat(file).st_mode):
        os.close(file)
        raise OSError(errno.EINVAL, "it is no file", path)
    return file


def opened_here(path: str, flags: int) -> int:
    """Opens a file as `opened`, and no link in its place: whoever may put one there could lead elsewhere."""
    return opened(path, flags | os.O_NOFOLLOW)


def made_beside(path: str, like: str | None = None) -> tuple[str, int]:
    """Makes an empty file in a path's folder, under a name that nobody else uses. Gives the name and the open file.

    It is for this user alone where it is to be like a file that is there; else it has the mode of any new file.
    """
    folder, name = os.path.split(os.path.abspath(path))
    flags = os.O_RDWR | os.O_CREAT | os.O_EXCL | os.O_NOFOLLOW | os.O_CLOEXEC
    mode = 0o600 if like is not None and os.path.exists(like) else 0o666
    while True:
        beside = os.path.join(folder, _made_for(name) + secrets.token_hex(_DIGITS // 2))
        with contextlib.suppress(FileExistsError):
            return beside, os.open(beside, flags, mode)


def _made_for(name: str) -> str:
    """What a name begins with that is made beside a file: it has the file's name, or where that is too long a part of it and a digest."""
    shown, digits = name, ""
    while len(os.fsencode(f".{shown}{digits}{_MARK}")) + _DIGITS > _NAME_MAX:
        shown, digits = shown[:-1], "." + hashlib.sha256(os.fsencode(name)).hexdigest()[:_DIGITS]
    return f".{shown}{digits}{_MARK}"


def remove_leftovers(path: str) -> None:
    """Takes away what `made_beside` has made for a path and an earlier process has left."""
    folder, name = os.path.split(os.path.abspath(path))
    leftover = re.compile(re.escape(_made_for(name)) + f"[0-9a-f]{{{_DIGITS}}}")
    for found in os.listdir(folder):
        if leftover.fullmatch(found):
            # Where somebody else has put something under such a name, it stays.
            with contextlib.suppress(OSError):
                os.unlink(os.path.join(folder, found))


def keep_mode(file: int, like: str) -> None:
    """Gives an open file the mode, the group and, where that can be, the owner of another one.

    Nothing is changed where the other one is missing.
    """
    with contextlib.suppress(FileNotFoundError):
        wanted = os.stat(like)
        give(file, wanted, stat.S_IMODE(wanted.st_mode) & 0o777)


def give(file: int, like: os.stat_result, mode: int) -> None:
    """Gives an open file a mode, and the group and, where that can be, the owner of another one.

    Where the group can't be had it gets no rights: they were meant for another group.
    """
    is_now = os.fstat(file)
    if is_now.st_uid != like.st_uid:
        with contextlib.suppress(PermissionError):
            os.fchown(file, like.st_uid, like.st_gid)
    if is_now.st_gid != like.st_gid:
        with contextlib.suppress(PermissionError):
            os.fchown(file, -1, like.st_gid)
    is_now = os.fstat(file)
    if is_now.st_gid != like.st_gid:
        mode &= ~0o070
    if stat.S_IMODE(is_now.st_mode) != mode:
        os.fchmod(file, mode)


@contextlib.contextmanager
def whole_file(path: str, like: str | None = None) -> Iterator[BinaryIO]:
    """An empty file beside, open, which takes the place of ``path`` where the body ends well.

    It gets the mode and the group of the file ``like``, or where there is none of the one that is
    there. A link that is there is not followed: the file takes its place. Where the body raises,
    the file beside is taken away, and ``path`` is as it was.

    The body writes to the open file and to no name: whoever may write in the folder can put a link under each name.
    """
    if os.path.exists(path) and not os.path.isfile(path):
        raise OSError(errno.EINVAL, "no file that another one could take the place of", path)
    if (like is None or not os.path.exists(like)) and not os.path.islink(path):
        like = path
    beside, made = made_beside(path, like)
    try:
        with open(made, "w+b") as file:
            yield file
            file.flush()
            if not is_at(made, beside):
                raise OSError(errno.ELOOP, "something else stands in its place", beside)
            if like is not None:
                keep_mode(made, like)
            os.fsync(made)
            replace(beside, path)
    except BaseException:
        with contextlib.suppress(OSError):
            os.unlink(beside)
        raise
