"""The people who edit a store: their names, and their numbers as editors."""

from __future__ import annotations

import json
import os
import threading
from collections.abc import Callable, Collection

from sfstore import files

__all__ = ["Editors", "EditorsError", "as_name"]

_NUMBER_MAX = 255
_NAME_LETTERS_MAX = 40
_FREE = ""


class EditorsError(Exception):
    """A name is none, there is no room for it, or the file of the names can't be read."""


class Editors:
    """The names of a store's editors, kept in a file beside it.

    So whoever logs in again under a name has the same number, and can undo what is still in the
    journal. A name is kept from its first edit on: one that was mistyped, and has edited nothing,
    is forgotten at the end. In the list of the file a number without a name has an empty text.

    A number whose steps can be undone or redone is given to nobody new, whether it has a name or not: the file may have
    been taken away, and lines of the program alone may name any number.
    """

    def __init__(self, store: str, at_work: Callable[[], Collection[int]] = tuple) -> None:
        """``at_work`` gives the numbers of those whose steps can be undone or redone."""
        self._store = os.path.realpath(store)
        self._path = self._store + ".editors"
        self._at_work = at_work
        self._lock = threading.Lock()
        self._kept = self._read()
        self._names = list(self._kept)

    def _read(self) -> list[str]:
        try:
            with open(self._path, encoding="utf-8", opener=files.opened) as file:
                names = json.load(file)
        except FileNotFoundError:
            return []
        except (OSError, RecursionError, ValueError) as error:
            why = error.strerror if isinstance(error, OSError) else error
            raise EditorsError(f"{self._path} can't be read: {why}") from None
        if not isinstance(names, list) or not all(isinstance(name, str) for name in names):
            raise EditorsError(f"{self._path} has no list of names")
        return names[:_NUMBER_MAX]

    def number_of(self, name: str) -> int:
        """The number of an editor, a new one for a new name."""
        with self._lock:
            if name not in self._names:
                self._take(name)
            return self._names.index(name) + 1

    def _take(self, name: str) -> None:
        """Gives a new name the least number that is nobody's."""
        known = {number for number, kept in enumerate(self._names, 1) if kept}
        taken = known.union(self._at_work())
        number = next((each for each in range(1, _NUMBER_MAX + 1) if each not in taken), None)
        if number is None:
            helps = "" if len(known) == _NUMBER_MAX else " A save frees the numbers that have no name."
            raise EditorsError(f"There are {_NUMBER_MAX} editors already.{helps}")
        self._names += [_FREE] * (number - len(self._names))
        self._names[number - 1] = name

    def is_known(self, name: str) -> bool:
        """Whether somebody has a name already."""
        with self._lock:
            return name in self._names

    def keep(self, number: int) -> None:
        """Has the name of an editor in the file, before the first edit. `OSError` where it can't be written."""
        name = self._names[number - 1]
        with self._lock:
            if self._kept[number - 1 : number] == [name]:
                return
            kept = self._kept + [_FREE] * (number - len(self._kept))
            kept[number - 1] = name
            self._write(kept)
            self._kept = kept

    def name_of(self, number: int) -> str:
        """The name of an editor, in words where it has none."""
        if number == 0:
            return "someone at the console"
        return "".join(self._names[number - 1 : number]) or f"editor {number}"

    def _write(self, names: list[str]) -> None:
        with files.whole_file(self._path, self._store) as file:
            file.write(json.dumps(names, ensure_ascii=False).encode() + b"\n")


def as_name(text: str) -> str:
    """A name as it is kept. `EditorsError` where it is none."""
    name = " ".join(text.split())
    if not name or len(name) > _NAME_LETTERS_MAX or not name.isprintable():
        raise EditorsError(f"A name has 1 to {_NAME_LETTERS_MAX} letters.")
    return name
