"""What the model of a store with a journal has beside the store: who comes in the middle of the program's calls, and a
disk that may lose what was not synced.

A library that stands before the program's calls tells what it has synced, and waits where someone is to come.
"""

from __future__ import annotations

import contextlib
import os
import random
import threading
from collections.abc import Callable, Iterator
from pathlib import Path


class Meeting:
    """Someone who does something in the middle of the program's calls, while the program waits."""

    def __init__(self, folder: Path) -> None:
        self.folder = folder
        folder.mkdir()
        for name in ("come", "gone"):
            os.mkfifo(folder / name)

    @contextlib.contextmanager
    def at(self, number: int, happen: Callable[[], object], is_again: bool = False) -> Iterator[None]:
        """Has it done at the call of this number, counted from 1, of the programs that run in the body; or from there on."""
        come, gone = (os.open(self.folder / name, os.O_RDWR) for name in ("come", "gone"))
        errors: list[BaseException] = []

        def wait() -> None:
            while os.read(come, 1) == b"c":
                try:
                    happen()
                except BaseException as error:
                    errors.append(error)
                if is_again:
                    self._count(1)
                os.write(gone, b"g")

        someone = threading.Thread(target=wait)
        someone.start()
        self._count(number)
        try:
            yield
        finally:
            (self.folder / "left").unlink()
            os.write(come, b"e")
            someone.join()
            for file in (come, gone):
                os.close(file)
        for error in errors:
            raise error

    def _count(self, number: int) -> None:
        """Someone comes at the call of this number from now on."""
        (self.folder / "left").write_text(f"{number:08}")


class Disk:
    """Which bytes of some files are on the disk, and which would be lost with the power.

    All renames are taken for kept: what a crash makes of names is for the proofs.
    """

    def __init__(self, log: Path) -> None:
        self._log = log
        log.touch()
        # By the number of a file: the bytes that were there when the model wrote or synced it itself.
        self._kept: dict[int, bytes] = {}

    def keep(self, path: str) -> None:
        """All that a file has now is on the disk. Of a folder nothing is noted."""
        with contextlib.suppress(IsADirectoryError), open(path, "rb") as file:
            number = os.fstat(file.fileno()).st_ino
            self._forget(number)
            self._kept[number] = file.read()

    def lose(self, path: str, dice: random.Random) -> None:
        """The power is lost: of what was not synced some front is left, and what a failed sync has left is gone or not."""
        with contextlib.suppress(FileNotFoundError), open(path, "r+b") as file:
            data = bytearray(file.read())
            sure, holes = self._told(os.fstat(file.fileno()).st_ino, bytes(data))
            for begin, end in holes:
                if dice.random() < 0.7:
                    data[begin:end] = bytes(len(data[begin:end]))
            left = dice.choice([sure, len(data), dice.randint(sure, len(data))])
            file.seek(0)
            file.write(data[:left])
            file.truncate()
            file.flush()
            # Of what is left nothing is in doubt.
            self.keep(path)

    def _told(self, number: int, data: bytes) -> tuple[int, list[tuple[int, int]]]:
        """How long a front of a file is that was synced, and where syncs within it have failed."""
        sure, holes = _common(self._kept.get(number, b""), data), []
        for line in self._log.read_text().splitlines():
            word, of, size = line.split()
            if int(of) == number and word == "failed":
                holes.append((sure, int(size)))
            elif int(of) == number:
                sure = max(sure, int(size))
        return min(sure, len(data)), holes

    def _forget(self, number: int) -> None:
        """What the program has told of a file is of other bytes than it has now."""
        lines = self._log.read_text().splitlines(keepends=True)
        self._log.write_text("".join(line for line in lines if int(line.split()[1]) != number))


def _common(one: bytes, other: bytes) -> int:
    """How long a front two lists of bytes have in common."""
    return len(os.path.commonprefix([one, other]))
