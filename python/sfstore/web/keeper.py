"""The store of a file, owned by one thread through which every edit goes."""

from __future__ import annotations

import os
import threading
import time
import warnings
from collections.abc import Callable, Container, Sequence
from concurrent.futures import ThreadPoolExecutor
from typing import NamedTuple, TypeVar, cast

from sfstore.commandline import reason_of
from sfstore.journal import JournalError
from sfstore.kept import OpenFile
from sfstore.mapgrid import GridChanged, MapGrid
from sfstore.program import Program, is_edit, started, stopped_after
from sfstore.store import Answer, Editor, ProgramEnded, Refused, Store
from sfstore.web.batches import Batch, Done, LineRefused, NotTakenBack, carry_out, carry_out_group, is_group, moved, refusal_of, take_back
from sfstore.web.batchlog import BatchLog, new_mark
from sfstore.web.changes import Change, Changes, Target, layers_made_by, seen_of
from sfstore.web.lineage import At, Lineage
from sfstore.web.names import Names
from sfstore.web.steps import LayerChange, Step, Steps

__all__ = ["Asked", "ChangedMeanwhile", "Edit", "Keeper", "Overtaken", "Snapshot", "StoreChanged", "Unavailable", "loaded"]

_T = TypeVar("_T")

# How long an edit may take, and a line of a batch more. One that is stopped kept everybody's edits waiting.
_EDIT_SECONDS, _LINE_SECONDS = 60.0, 0.005
# How many versions each millisecond has room for, as a power of 2: no program carries out so many edits. A page
# counts exactly up to 2**53, which are the milliseconds of some 139 years from 1970.
_VERSIONS_OF_A_MILLISECOND = 11
_WRITTEN_OVER = "The store's file was written by another program just now: ask again."


class Unavailable(Exception):
    """What was asked for can't be said now. The text says why, in a sentence."""


class ChangedMeanwhile(Exception):
    """An edit is not carried out: its feature, a column or its layer was changed since its page has looked at it."""

    def __init__(self, target: Target, change: Change | None) -> None:
        super().__init__(target, change)
        self.target = target
        self.change = change
        """The change, or none where that is not known any more."""


class Overtaken(Exception):
    """Lines are not carried out, as they were made for a version of the store that is not the newest any more."""


class StoreChanged(GridChanged):
    """Another store is open than that for which something was meant. The text says so."""

    _WORDS = "is another store than before"


class Asked(NamedTuple):
    """A line that a page wants to be carried out, or a group as one text."""

    editor: int
    page: str
    """Which page it is, among those of the editor."""
    line: str
    seen: int | None
    """The version of the store that the page has seen of what it edits.

    None where that is not said.
    """
    grid: str | None = None
    """The mark of the grid for which the line was made; none where it has nothing to do with one."""
    store: int | None = None
    """The number of the store for which it was made; none where that is not said."""


class Edit(NamedTuple):
    """An accepted edit, undo or redo."""

    version: int
    """The version of the store that it makes: each edit makes the next one."""
    editor: int
    page: str
    line: str
    """The line, without the editor."""
    step: Step
    """The step that it made, or moved."""
    to_undo: Step | None
    """The step that an undo would take back now, whoever asks."""
    to_redo: Step | None
    stays: bool = True
    """False for those of a batch that was refused: together they have changed nothing."""


class Snapshot(NamedTuple):
    """What a second program needs to have the content of the store."""

    opened: OpenFile | None
    """The file to load, open, or none where a new store has not been saved yet. Whoever has the snapshot closes it."""
    lines: list[str]
    """The edits behind it."""
    version: int
    file: int
    """A number that is another one whenever the file is."""
    grid: MapGrid
    """What its coordinates stand for."""
    store: int
    """As `Keeper.last_store` has it."""


class _Begun(NamedTuple):
    """A snapshot of which the edits were not read yet."""

    opened: OpenFile | None
    read: Callable[[], list[str]]
    version: int
    file: int
    grid: MapGrid
    store: int


class Keeper:
    """The store of a file with its journal, and what all pages have to know of it.

    `follow` is called in the keeper's thread with the edits of each line or batch that was accepted,
    `anew` where the store had to be opened again.
    """

    def __init__(self, path: str, program: str, seconds: float = _EDIT_SECONDS) -> None:
        """``seconds`` is how long an edit may take."""
        self._seconds = seconds
        self.follow: list[Callable[[Sequence[Edit]], object]] = []
        self.anew: list[Callable[[], object]] = []
        # A link may be led to another store while this one is open.
        self._path = os.path.realpath(path)
        self._program = program
        self._store: Store | None = None
        self._grid: MapGrid
        self._steps = Steps()
        self._log = BatchLog(self._path)
        self._changes = Changes()
        self._names = Names()
        # Above all of an earlier server: what somebody has seen there is none of these, and has to be looked at again.
        self._version = (time.time_ns() // 1_000_000) << _VERSIONS_OF_A_MILLISECOND
        self._file = 0
        self._lineage = Lineage(self._path)
        self._thread = ThreadPoolExecutor(1, "keeper")
        try:
            self.recovered = self._thread.submit(self._opened).result().recovered
        except BaseException:
            self._thread.shutdown()
            raise

    def carry_out(self, asked: Asked) -> Answer:
        """The answer of a line. `Refused` where the program refuses it.

        `ChangedMeanwhile` where another page has changed its feature since: nothing comes between
        this look and the edit. `GridChanged` where it was made for another grid than the store's.
        """
        return self._do(lambda store: self._limited(store, 1, lambda: self._carry_out(store, asked)))

    def carry_out_all(
        self, batch: Batch, made_for: int | None = None, grid: str | None = None, over: int | None = None
    ) -> Done:
        """Carries out lines as a whole: all of them, or none. They are one step for undo and redo.

        `LineRefused` where one of them is refused, and `ChangedMeanwhile` and `GridChanged` as for a line. `Overtaken`
        where they were made for one version of the store, and somebody has edited anything since.
        """

        def job(store: Store) -> Done:
            if made_for not in (None, self._version):
                raise Overtaken
            self._check_grid(grid, over)
            own: set[str] = set()
            for line, seen in zip(batch.lines, batch.seen):
                self._check_seen(Asked(batch.editor, batch.page, line, seen), own)
                own.update(layers_made_by(line))
            # The trial has the same one: it makes a line longer.
            mark = new_mark() if len(batch.lines) > 1 and not is_group(batch.lines) else ""
            if mark:
                self._try(store, batch, mark)
            return self._limited(store, len(batch.lines), lambda: self._carry_out_all(store, batch, mark))

        return self._do(job)

    def last_change(self, target: Target) -> Change | None:
        """The last change of a feature. It may be asked by any thread."""
        return self._changes.last(target)

    def ask(self, question: Callable[[Editor], _T]) -> _T:
        """The answer of a question that takes no time to speak of."""
        return self._do(lambda store: self._limited(store, 1, lambda: question(store)))

    def grid(self) -> MapGrid:
        """What the store's coordinates stand for. `GridChanged` where that is something else than when it was opened."""

        def job(store: Store) -> MapGrid:
            self._check_grid()
            return self._grid

        return self._do(job)

    @property
    def last_grid(self) -> MapGrid:
        """The grid of the last opening. It may be asked by any thread, and by those whom the keeper calls."""
        return self._grid

    @property
    def last_store(self) -> int:
        """A number that is another one whenever another store has taken the place of the one that was open. Any thread may ask it."""
        return self._lineage.number

    @property
    def last_at(self) -> At:
        """Which store is open, and how far it has come, by which a later server knows it (`sfstore.web.lineage`). Any thread may ask it."""
        return self._lineage.at

    def going_on(self, point: str) -> tuple[int, str, bool]:
        """The number of the store that is open, how far it has come, and whether it goes on from a point that somebody knows."""
        return self._do(lambda store: (self._lineage.number, self._lineage.point, self._lineage.goes_on(point)))

    def save(self, told: Callable[[], object] = lambda: None, over: int | None = None) -> None:
        """Saves the store; the history begins anew. `GridChanged` where its grid is another one than when it was opened.

        ``told`` is called behind it in the keeper's thread: no edit comes between. ``over`` is the number of the store that is meant.
        """

        def job(store: Store) -> None:
            self._check_grid(None, over)
            self._save(store)
            told()

        self._do(job)

    def snapshot(self) -> Snapshot:
        """The content as it is now. The journal is read in the thread that asks: edits do not wait for it."""
        while True:
            begun = self._do(self._begun)
            try:
                return Snapshot(begun.opened, begun.read(), *begun[2:])
            except (JournalError, OSError) as error:
                if begun.opened is not None:
                    begun.opened.file.close()
                # A save has taken its place.
                if self.is_at(begun.file):
                    raise Unavailable(f"{reason_of(error)}. {self._lineage.kept_words()}") from error

    def is_at(self, file: int) -> bool:
        """Whether the file is the one of a snapshot."""
        return self._do(lambda store: self._file == file)

    def steps(self) -> tuple[int, Step | None, Step | None]:
        """The version, and what an undo and a redo would move."""
        return self._do(lambda store: (self._version, self._steps.to_undo, self._steps.to_redo))

    def done(self) -> list[Step]:
        """What was done since the last save and is not undone, in its order."""
        return self._do(lambda store: self._steps.done)

    def ask_layer_changes(self, take: Callable[[str, Sequence[LayerChange]], _T]) -> _T:
        """What somebody makes of all that the journal has made of layers, whose head comes first."""
        return self._do(lambda store: self.with_layer_changes(take))

    def with_layer_changes(self, take: Callable[[str, Sequence[LayerChange]], _T]) -> _T:
        """As `ask_layer_changes`, for those whom the keeper calls: in its thread."""
        return take(self._log.head(), self._steps.layer_changes)

    def editors(self) -> set[int]:
        """The numbers of those whose steps can be undone or redone. It may be asked by any thread."""
        return self._steps.editors

    def close(self) -> int:
        """Ends the program, and gives the number of edits that are in the journal alone."""
        try:
            return self._thread.submit(self._close).result()
        finally:
            self._thread.shutdown()

    def _do(self, job: Callable[[Store], _T]) -> _T:
        return self._thread.submit(lambda: self._guarded(job)).result()

    def _guarded(self, job: Callable[[Store], _T]) -> _T:
        """Does a job. Where it ends the program, the store is opened anew by the next one."""
        try:
            return job(self._opened())
        except (ChangedMeanwhile, GridChanged, LineRefused, Overtaken, Refused, ValueError):
            raise
        except NotTakenBack as error:
            # A new program may have the memory for it.
            self._drop()
            raise Unavailable(f"{error}.") from error
        except (JournalError, ProgramEnded, RuntimeError, OSError) as error:
            if self._store is not None and not self._is_open(self._store):
                self._drop()
            raise Unavailable(f"{reason_of(error)}. {self._lineage.kept_words()}") from error

    def _limited(self, store: Store, lines: int, job: Callable[[], _T]) -> _T:
        """Does a job of so many lines. Where it takes too long, its program is ended, and the store opened anew next time.

        `Unavailable` says so: what was asked for was carried out, or nothing of it.
        """
        stopped = threading.Event()

        def stop() -> None:
            stopped.set()
            store.stop()

        seconds = self._seconds + lines * _LINE_SECONDS
        timer = threading.Timer(seconds, stop)
        timer.start()
        try:
            return job()
        except (JournalError, ProgramEnded) as error:
            if not stopped.is_set():
                raise
            raise Unavailable(
                f"That took more than {seconds:.0f} seconds and was stopped. Look whether it was carried out. {self._lineage.kept_words()}"
            ) from error
        finally:
            timer.cancel()
            timer.join()
            if stopped.is_set():
                self._drop()

    def _drop(self) -> None:
        """Ends the program. The store is opened anew by the next job."""
        self._close()
        for told in self.anew:
            told()

    def _is_open(self, store: Store) -> bool:
        try:
            store.layers()
        except (JournalError, ProgramEnded, RuntimeError):
            return False
        return True

    def _opened(self) -> Store:
        """The store, opened where it is not."""
        if self._store is None:
            with warnings.catch_warnings():
                # A torn record is told by `recovered`.
                warnings.simplefilter("ignore", RuntimeWarning)
                store = Store(self._path, journal=True, program=self._program, warn_far_off=False)
            before = self._lineage.number, self._steps.layer_changes
            try:
                self._steps = self._found_steps(store)
                self._lineage.opened()
            except BaseException:
                # Another program has written the file in this very moment.
                store.close(save=False)
                raise
            self._store = store
            # Another map may have taken its place while nobody had it open.
            self._grid = MapGrid(self._path)
            self._version += 1
            self._file += 1
            # An edit that was in doubt may be there or not.
            self._changes.forget(self._version)
            # One of a layer too: where the same store has the same ones as before, none was.
            if before != (self._lineage.number, self._steps.layer_changes):
                self._names = Names(self._steps.layer_changes, self._version)
        return self._store

    def _found_steps(self, store: Store) -> Steps:
        """The steps of the journal. What a crash has left of a batch, or of its undo, is taken back: it was not answered."""
        lines = store.unsaved_lines
        found = self._log.found(lines)
        if found.left:
            editor = _speaker(store, found.editor)
            if found.is_move:
                moved(editor, [found.back] * found.left)
            else:
                take_back(editor, found.left)
            lines = store.unsaved_lines
        self._log.keep_whole(lines)
        return Steps(lines, found.groups)

    def _carry_out(self, store: Store, asked: Asked) -> Answer:
        self._check_grid(asked.grid, asked.store)
        self._check_seen(asked)
        self._log.give_up()
        editor, page, line = asked.editor, asked.page, asked.line
        # An undo moves all steps of a batch, or none: they are one editor's.
        count = self._steps.moved_by(line)
        lines = [line + new_mark()] * count if count > 1 else [line]
        if len(lines) > 1:
            self._log.begin(store.unsaved, editor, lines)
        answers = _speaker(store, editor).run_all(lines)
        accepted = [answer for answer in answers if is_edit(line.encode(), answer)]
        refused = [answer for answer in answers if isinstance(answer, Refused)]
        if accepted and refused:
            raise NotTakenBack(refused[0])
        if accepted:
            self._log.end()
        self._tell([self._taken(Asked(editor, page, line, None), str(answer)) for answer in accepted])
        if refused:
            raise refused[0]
        return cast(Answer, answers[0])

    def _carry_out_all(self, store: Store, batch: Batch, mark: str) -> Done:
        editor, page = batch.editor, batch.page
        self._log.give_up()
        if is_group(batch.lines):
            group = carry_out_group(_speaker(store, editor), batch.lines)
            self._tell([self._taken(Asked(editor, page, group.text, None), group.answer)])
            return Done(group.answers, self._version)

        def begin(lines: Sequence[str]) -> None:
            # One line is carried out, or it is not.
            if len(lines) > 1:
                self._log.begin(store.unsaved, editor, lines)

        outcome = carry_out(_speaker(store, editor), batch.lines, begin, mark)
        number = self._version + 1
        asked = (Asked(editor, page, line, None) for line, _ in outcome.accepted)
        answers = (answer for _, answer in outcome.accepted)
        self._tell(
            [self._taken(*each, number, outcome.refused is None) for each in zip(asked, answers)]
        )
        if outcome.refused is not None:
            self._log.give_up()
            raise outcome.refused
        self._log.end()
        return Done(outcome.answers, self._version)

    def _try(self, store: Store, batch: Batch, mark: str) -> None:
        """`LineRefused` where a line of a batch would be refused, of which a part would be carried out before, and taken back.

        Something else could be redone then than before. So it is tried in another program with the same content, by the same
        editor and with the same mark, which make a line longer.
        """
        editor, lines = batch.editor, batch.lines
        made = store.unsaved_lines
        snapshot = Snapshot(store._open_file(), made, self._version, self._file, self._grid, self._lineage.number)
        trial = loaded(self._program, snapshot, self._seconds + len(made) * _LINE_SECONDS)
        try:
            refused = self._limited(trial, len(lines), lambda: refusal_of(_speaker(trial, editor), lines, mark))
        finally:
            trial.close(save=False)
        if refused is not None:
            raise refused

    def _taken(self, asked: Asked, answer: str, group: int = 0, stays: bool = True) -> Edit:
        """Notes a line that was accepted. One that does not stay is undone by another of the same batch."""
        self._version += 1
        editor, page, line = asked.editor, asked.page, asked.line
        followed = len(self._steps.layer_changes)
        step = self._steps.take(editor, line, answer, group)
        moved = line.strip()
        front = f"{moved}: " if moved in ("undo", "redo") else ""
        changes = [Change(self._version, editor, page, front + did.line, did.targets) for did in step.edits]
        self._names.take(self._steps.layer_changes[followed:], changes[0])
        for change in changes if stays else ():
            self._changes.take(change)
        steps = self._steps.to_undo, self._steps.to_redo
        return Edit(self._version, editor, page, line, step, *steps, stays)

    def _tell(self, edits: Sequence[Edit]) -> None:
        if edits:
            self._lineage.moved()
            for told in self.follow:
                told(edits)

    def _check_grid(self, made_for: str | None = None, made_over: int | None = None) -> None:
        """`GridChanged` where the store has another grid now than when it was opened, or than what something was made for.

        Where it has, the store is opened anew by the next job, with that grid, and all pages look at it again.
        `StoreChanged` where something was made over another store than the one that is open.
        """
        try:
            self._grid.check()
        except GridChanged:
            self._drop()
            raise
        if made_for not in (None, self._grid.mark):
            raise GridChanged(self._path)
        if made_over not in (None, self._lineage.number):
            raise StoreChanged(self._path)

    def _check_seen(self, asked: Asked, own: Container[str] = ()) -> None:
        """`ChangedMeanwhile` where a line edits what its page has not seen as it is.

        ``own`` are the layers that lines before it make, which nobody can have seen.
        """
        if asked.seen is None:
            return
        for target in seen_of(asked.line):
            if target.feature is None and target.layer in own:
                continue
            whose = asked.seen, asked.editor, asked.page
            change, is_known = None, asked.seen <= self._version
            if target.feature is None:
                # What others add to a layer, or change in it, is no change of the layer.
                change = self._names.since(target.layer, *whose)
                is_known &= self._names.is_known_since(asked.seen)
            if target != (target.layer, None, None):
                change = change or self._changes.since(target, *whose)
                is_known &= self._changes.is_known_since(asked.seen)
            if change is not None or not is_known:
                raise ChangedMeanwhile(target, change)

    def _save(self, store: Store) -> None:
        try:
            store.save()
        finally:
            # One that has failed may have come as far as the file.
            if not store.unsaved:
                self._log.forget()
                self._steps = Steps()
                self._version += 1
                self._file += 1
                self._lineage.moved()

    def _begun(self, store: Store) -> _Begun:
        read = store._reading()
        return _Begun(store._open_file(), read, self._version, self._file, self._grid, self._lineage.number)

    def _close(self) -> int:
        if self._store is None:
            return 0
        store, self._store = self._store, None
        unsaved = store.unsaved
        store.close(save=False)
        return unsaved


class _Limited(Store):
    """A program that is ended where it takes longer than some seconds to load."""

    def __init__(self, program: str, load: int | None, seconds: float) -> None:
        self._seconds = seconds
        super().__init__(program=program, load=load, warn_far_off=False)

    def _started(self, words: list[str], handed: Sequence[int]) -> Program:
        return started(words, handed=handed, seconds=self._seconds)


def loaded(program: str, snapshot: Snapshot, seconds: float = threading.TIMEOUT_MAX) -> Store:
    """A program with the content of a snapshot.

    `Unavailable` where somebody has written over its file since it was looked at, or where it takes longer than some seconds:
    so long to load it, and so long for the edits behind it.
    """
    opened = snapshot.opened
    begun = time.monotonic()
    try:
        if opened is None:
            return _replayed(_Limited(program, None, seconds), snapshot, seconds)
        with opened.file as file:
            # The open file, since another one may stand under its name by now.
            store = _Limited(program, file.fileno(), seconds)
            if not opened.is_as_seen():
                store.close(save=False)
                raise Unavailable(_WRITTEN_OVER)
        begun = time.monotonic()
        return _replayed(store, snapshot, seconds)
    except ProgramEnded as ended:
        if time.monotonic() - begun < seconds:
            raise
        raise Unavailable(f"The store took more than {seconds:.0f} seconds to load in a second program, which was stopped. Nothing was done.") from ended


def _replayed(store: Store, snapshot: Snapshot, seconds: float) -> Store:
    """A program with the edits behind the file of a snapshot. `Unavailable` where they do not fit what it has loaded."""
    with stopped_after(seconds, store.stop):
        are_refused = any(isinstance(answer, Refused) for answer in store.run_all(snapshot.lines))
    if are_refused:
        store.close(save=False)
        raise Unavailable(_WRITTEN_OVER)
    return store


def _speaker(store: Store, editor: int) -> Editor:
    return store.editor(editor) if editor else store
