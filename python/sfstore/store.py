"""A store of vector map features, held by the program ``sfstore``.

A `Store` starts the program and speaks to it through pipes, a line for each command:

    >>> with Store() as store:
    ...     store.add_layer("wells", "point")
    ...     store.add_column("wells", "label", "text")
    ...     store.add("wells", "POINT (3 4)")
    ...     store.set("wells", 1, "label", "the old one")
    ...     store.show("wells")
    1
    [Feature(id=1, wkt='POINT (3 4)', values={'label': 'the old one'})]

What the commands mean, and why they are refused, is in docs/use/CONSOLE.md of the project.
The module needs POSIX and nothing beside the standard library.
"""

from __future__ import annotations

import os
import warnings
from collections.abc import Callable, Sequence
from types import TracebackType
from typing import TYPE_CHECKING, Literal, overload

from sfstore import sidecar
from sfstore.editor import Editor
from sfstore.extents import extent_of
from sfstore.group import Added, Group, Which
from sfstore.journaled import Journaled
from sfstore.kept import OpenFile
from sfstore.mapunits import MapUnits, NoPlace
from sfstore.program import Program, checked_path, started
from sfstore.results import (
    Answer,
    Column,
    ColumnType,
    Distance,
    Feature,
    Kind,
    Layer,
    Near,
    PathName,
    Place,
    Predicate,
    ProgramEnded,
    Recovered,
    Refused,
    Value,
)
from sfstore.rows import row_values
from sfstore.rules import Demand, Rule, RuleForm, ValueRule
from sfstore.sidecar import Sidecar, SidecarError
from sfstore.spelling import editor as editor_number
from sfstore.surroundings import FarOffTheMap, Surroundings, level_of_caller

if TYPE_CHECKING:
    from geopandas import GeoDataFrame

__all__ = [
    "Added",
    "Answer",
    "Column",
    "ColumnType",
    "Demand",
    "Distance",
    "Editor",
    "FarOffTheMap",
    "Feature",
    "Group",
    "Kind",
    "Layer",
    "MapUnits",
    "Near",
    "NoPlace",
    "Place",
    "Predicate",
    "ProgramEnded",
    "Recovered",
    "Refused",
    "Rule",
    "RuleForm",
    "SidecarError",
    "Store",
    "Value",
    "ValueRule",
    "Which",
    "row_values",
]


class Store(Editor):
    """A store of layers, columns and features, held by a program that this object starts.

    ``load`` names a file to begin with, by its path or by the number of an open one, and ``save`` one to which the store is
    saved when it is closed.
    ``program`` is a path, or a name that is searched on the ``PATH``.
    `ProgramEnded` if the file can't be loaded, and `OSError` if a path is not UTF-8: the program takes no other. The same if a
    file would be saved in the place of one that is kept beside a store, as its journal or its lock.

    `close`, or the end of a ``with``, closes a store and saves it; nothing else does. If an
    exception leaves the body of the ``with``, or a store is dropped without having been closed, the
    program is killed, and the file to save to stays as it was. If Python itself is killed between
    two commands, the program meets the end of its input, and saves; in the middle of one it may
    save or not.

    A command raises `Refused` if the store refuses it, and `ProgramEnded` if the program has ended.
    It raises `ValueError` if an argument has no place in a line, such as a name with a blank or
    a text with a line feed. An exception from outside in the middle of a command, such as
    `KeyboardInterrupt`, kills the program.

    ``Store(path, journal=True)`` has the program keep the store of a file with a journal beside it.
    An accepted edit is on the disk before it is answered. `save` and `close` put a new file in the
    place of the old one. The next opening has what a crash left unsaved, and can undo it. If the
    file is missing a new store begins. `JournalError` if another session has the file, or if file
    and journal do not fit. docs/use/JOURNAL.md of the project says what is promised.

    A store whose file has a grid beside it warns of an edit that lies far off the map: `FarOffTheMap`.
    It does not if ``warn_far_off`` is false.

    Only the thread that made a store may use it: elsewhere, and in a forked process,
    its methods raise `RuntimeError`.

    >>> with Store() as store:
    ...     store.add_layer("wells", "point")
    ...     store.layers()
    [Layer(name='wells', kind='point')]
    """

    @overload
    def __init__(
        self, program: PathName, /, load: PathName | None = None, save: PathName | None = None, *, warn_far_off: bool = True
    ) -> None: ...

    @overload
    def __init__(
        self,
        *,
        program: PathName = "sfstore",
        load: PathName | int | None = None,
        save: PathName | None = None,
        warn_far_off: bool = True,
    ) -> None: ...

    @overload
    def __init__(
        self, path: PathName, /, *, journal: Literal[True], program: PathName = "sfstore", warn_far_off: bool = True
    ) -> None: ...

    def __init__(
        self,
        path: PathName | None = None,
        load: PathName | int | None = None,
        save: PathName | None = None,
        *,
        program: PathName | None = None,
        journal: bool = False,
        warn_far_off: bool = True,
    ) -> None:
        file = path if journal else load
        self._file = None if file is None or isinstance(file, int) else os.fsdecode(file)
        self._surroundings = Surroundings()
        look = self._warn if warn_far_off and self._has_sidecar() else None
        if not journal:
            if path is not None and program is not None:
                raise TypeError("the program is named twice")
            words = [os.fsdecode(path or program or "sfstore")]
            handed = [load] if isinstance(load, int) else []
            if load is not None:
                words.append(f"--load=/dev/fd/{load}" if isinstance(load, int) else f"--load={checked_path(load)}")
            if save is not None:
                sidecar.check_no_own_file(os.fsdecode(save))
                words.append(f"--save={checked_path(save)}")
            super().__init__(self._started(words, handed), "", look)
            return
        if path is None or load is not None or save is not None:
            raise TypeError("a store with a journal is named by its path alone")
        super().__init__(Journaled(os.fsdecode(program or "sfstore"), path), "", look)

    def _started(self, words: list[str], handed: Sequence[int]) -> Program:
        """The program, which has loaded its file."""
        return started(words, handed=handed)

    def __enter__(self) -> Store:
        return self

    def __exit__(
        self,
        error_type: type[BaseException] | None,
        error: BaseException | None,
        traceback: TracebackType | None,
    ) -> None:
        if error_type is None:
            self.close()
        else:
            self._program.abort()

    def close(self, save: bool = True) -> None:
        """Ends the input of the program, and waits until it has saved the store and ended.

        `ProgramEnded` if it ends with another status than 0: a part of a file may then stand
        where the store was to be saved. A store that is closed already stays so.

        With a journal the store is saved as by `save`. If ``save`` is false nothing is saved:
        the edits are lost, or with a journal stay there for the next opening.

        >>> store = Store()
        >>> store.close()
        """
        if save:
            self._program.close()
        else:
            self._program.abort()

    def stop(self) -> None:
        """Kills the program, from any thread, in the middle of a command that takes too long.

        The command raises `ProgramEnded` in its own thread, and so does each one after it. Nothing
        is saved; with a journal the next opening has every edit that was answered.

        >>> with Store() as store:
        ...     store.stop()
        ...     try:
        ...         store.layers()
        ...     except ProgramEnded as ended:
        ...         ended.status
        ...     store.close(save=False)
        -9
        """
        self._program.stop()

    def save(self) -> None:
        """Saves a store with a journal to its file, and begins a new journal.

        The history ends with it, as with each loading: what was done before can't be undone any
        more. If all is saved already nothing is done. `JournalError` if the file can't be made, as
        on a full disk, or if another program has changed it since it was opened: nothing is lost
        then. The store can be used on, unless the program had to be started again and could not
        be.
        `RuntimeError` without a journal: such a store is saved when it is closed.

        >>> import tempfile
        >>> with tempfile.TemporaryDirectory() as folder:
        ...     with Store(folder + "/town.sfs", journal=True) as store:
        ...         store.add_layer("wells")
        ...         store.save()
        ...         store.unsaved
        0
        """
        self._journaled().save()

    def copy(self, path: PathName) -> None:
        """Writes a store with a journal as it is now to another file; nothing else is changed.

        The copy takes the place of a store that is there when it is whole, and not before.
        `JournalError` if it can't be made, if the path is one of the own files of this store or another one, or if
        another program has changed the store's file or its journal. So it is if the file there is
        no store, if another session has it open, or if its journal has edits. `RuntimeError`
        without a journal.
        """
        self._journaled().copy(os.fsdecode(path))

    @property
    def unsaved(self) -> int:
        """How many accepted edits a store with a journal has that its file does not.

        An undo is an edit here, and so is a redo. `RuntimeError` without a journal.
        """
        return self._journaled().unsaved

    @property
    def unsaved_lines(self) -> list[str]:
        """The accepted edits that the file does not have, in their order, with their editors.

        A group is one text, with carriage returns between its lines, which `run` takes as it is. A store
        that loads the file and runs them has the content and the history of this one. `JournalError` if another program has changed the file since it was opened, so
        that the lines do not go on from it, or the journal. `RuntimeError` without a journal.
        """
        return self._journaled().unsaved_lines

    def _open_file(self) -> OpenFile | None:
        """The file that `unsaved_lines` go on from, open, be another one put in its place; none where a new store was not saved yet."""
        return self._journaled().open_file()

    def _reading(self) -> Callable[[], list[str]]:
        """What reads `unsaved_lines` as they are now, in whatever thread, while further edits are made."""
        return self._journaled().reading()

    @property
    def recovered(self) -> Recovered:
        """What the opening of a store with a journal found there. `RuntimeError` without one."""
        return self._journaled().recovered

    def _journaled(self) -> Journaled:
        if not isinstance(self._program, Journaled):
            raise RuntimeError("the store has no journal: it is saved when it is closed")
        return self._program

    @property
    def grid(self) -> MapUnits | None:
        """The coordinates of the map that the store was imported from, or None where its file has no grid beside it.

        `MapUnits.steps` makes a text in steps of one in map units, and `MapUnits.places` the other way round. Both are
        exact. `SidecarError` where what stands beside the file is no grid, or that of another file.

        >>> with Store() as store:
        ...     print(store.grid)
        None
        """
        found = self._sidecar()
        return MapUnits(*found.grid) if found else None

    def to_geodataframe(self, layer: str) -> GeoDataFrame:
        """The features of a layer as a ``geopandas.GeoDataFrame``, by their identifiers, with the columns of the layer.

        The geometries are in map units, with the reference system of the map, where the store has a `grid`; else in steps.
        Whole numbers are of the type ``Int64``, which has them all, and may be missing. The geometries are in the column
        ``geometry``, or in ``_geometry`` where the layer has a column of that name. It needs ``python3-geopandas``.
        """
        from sfstore.frames import frame_of

        return frame_of(self.columns(layer), self.show(layer), self._sidecar())

    def _sidecar(self) -> Sidecar | None:
        """What stands beside the store's file, where something does."""
        return sidecar.read(self._file) if self._file is not None and self._has_sidecar() else None

    def _has_sidecar(self) -> bool:
        """Whether something stands in the place of a side-car of the store's file."""
        return self._file is not None and os.path.lexists(sidecar.path_of(self._file))

    def _warn(self, line: str) -> None:
        """Warns of an edit that lies far off the map."""
        point = self._surroundings.point_beyond(line, lambda: extent_of(self))
        if point is not None:
            words = f"({point[0]} {point[1]}) lies far off the map, in steps of its grid"
            warnings.warn(words, FarOffTheMap, stacklevel=level_of_caller())

    def editor(self, number: int) -> Editor:
        """The editor of a number from 1 to 255.

        It speaks to the same program, and ends with the store. The same number gives the same
        editor, as far as undo and redo go.

        >>> with Store() as store:
        ...     store.editor(7).add_layer("wells")
        ...     store.layers()
        [Layer(name='wells', kind='any')]
        """
        return Editor(self._program, f"@{editor_number(number)} ", self._look)
