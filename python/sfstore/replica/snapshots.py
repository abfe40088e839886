"""The files of a replica: each is the store at a cut of the log, and says in its name where that is.

    00000000000000001042-CHAIN.sfs          place and chain
    00000000000000001042-CHAIN.sfs.wrong    one that was found to differ, kept to be looked at
    aside-RANDOM                            one that is being saved

There is no other note of a replica's place: whatever ends it, it goes on from its newest file.
"""

from __future__ import annotations

import os
import re
import shutil
import uuid
from collections.abc import Callable
from pathlib import Path
from typing import NamedTuple

from sfstore import files

__all__ = ["Snapshot", "Snapshots"]

_NAME = re.compile("([0-9]{20})-([0-9a-f]{64})[.]sfs")
_KEPT = 2


class Snapshot(NamedTuple):
    """A store's file at a cut."""

    at: int
    chain: bytes
    path: Path


class Snapshots:
    """The files in a replica's folder, which one process alone has at a time."""

    def __init__(self, folder: Path) -> None:
        self._folder = folder
        self._keep_from_others()

    def _keep_from_others(self) -> None:
        """Takes rights away that an earlier version gave: the log is read by its logins alone, and so is this."""
        for path in self._folder.iterdir():
            is_own = path.name == "timeline" or _NAME.fullmatch(path.name.removesuffix(".wrong"))
            if is_own and path.is_file() and not path.is_symlink():
                path.chmod(0o600)

    def clear(self) -> None:
        """Takes away what was not saved to its end."""
        for leftover in self._folder.glob("aside-*"):
            leftover.unlink()

    def newest(self) -> Snapshot | None:
        """The file to begin from."""
        return max(self._all(), default=None)

    def before(self, later: Snapshot) -> Snapshot | None:
        """The file to begin from where a later one is wrong."""
        return max((it for it in self._all() if it.at < later.at), default=None)

    def aside(self) -> Path:
        """An empty file to which a program is to save, of this user alone.

        The name is new: a program that was left alone may save to its own still.
        """
        path = self._folder / f"aside-{uuid.uuid4().hex}"
        path.touch(0o600, exist_ok=False)
        return path

    def keep(self, aside: Path, at: int, chain: bytes) -> Snapshot:
        """Makes a file that was saved the newest one: whole and on the disk, or not at all."""
        aside.chmod(0o600)
        files.sync(str(aside))
        kept = Snapshot(at, chain, self._folder / f"{at:020}-{chain.hex()}.sfs")
        files.replace(str(aside), str(kept.path))
        for old in sorted(self._all())[:-_KEPT]:
            old.path.unlink()
        return kept

    def put_aside(self, wrong: Snapshot) -> None:
        """Takes a file out that was found to differ."""
        files.replace(str(wrong.path), f"{wrong.path}.wrong")

    def bring(self, given: Path, check: Callable[[Snapshot], object]) -> None:
        """Copies the file of another replica. `ValueError` where its name is not that of one.

        The copy is kept once ``check`` has looked at it. Where that raises something it is gone, and no other one.
        """
        found = _NAME.fullmatch(given.name)
        if found is None:
            raise ValueError(f"{given} is no file of a replica: its name has to say place and chain")
        copy = Snapshot(int(found[1]), bytes.fromhex(found[2]), self.aside())
        try:
            shutil.copyfile(given, copy.path)
            check(copy)
        except BaseException:
            copy.path.unlink()
            raise
        self.keep(copy.path, copy.at, copy.chain)

    def _all(self) -> list[Snapshot]:
        found = ((_NAME.fullmatch(name), name) for name in os.listdir(self._folder))
        return [
            Snapshot(int(match[1]), bytes.fromhex(match[2]), self._folder / name)
            for match, name in found
            if match is not None
        ]
