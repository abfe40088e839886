"""A second program with the content of a store, for what may take long.

It loads the file, is given the edits of the journal, and follows each further one. A question that
takes too long ends it, and not the store; the next question begins it anew.
"""

from __future__ import annotations

import contextlib
import threading
from collections.abc import Callable, Iterator, Sequence
from concurrent.futures import ThreadPoolExecutor
from typing import Protocol, TypeVar

from sfstore.mapgrid import MapGrid
from sfstore.store import ProgramEnded, Refused, Store
from sfstore.web.keeper import Edit, Keeper, Unavailable, loaded

__all__ = ["Mirror", "Watcher"]

_T = TypeVar("_T")

# How many questions may wait at a time, and how many of one editor.
_WAITING_MAX = 64
_OF_ONE_EDITOR_MAX = 8


class _Turn:
    """The questions of one editor: one is asked at a time, some wait for it."""

    def __init__(self) -> None:
        self.asked = threading.Lock()
        self.places = threading.BoundedSemaphore(_OF_ONE_EDITOR_MAX)


class Watcher(Protocol):
    """Something that is kept beside a mirror's program, in its thread, and goes along with its content."""

    def before(self, store: Store, edits: Sequence[Edit]) -> None:
        """Hears of edits that are about to be done."""

    def after(self, store: Store, edits: Sequence[Edit]) -> None:
        """Hears that they were done."""

    def forget(self) -> None:
        """Hears that the content is another one."""


class Mirror:
    """A program that is only asked, and the thread that asks it.

    Of each editor one question waits for it at a time: those of others wait for no more than that.
    `version`, `grid`, `number`, and what watches it, may be used by questions alone, which have this thread.
    """

    def __init__(self, keeper: Keeper, program: str, seconds: float, watcher: Watcher | None = None) -> None:
        self._keeper = keeper
        self._program = program
        self._seconds = seconds
        self._store: Store | None = None
        self._version = 0
        self._grid, self._number = keeper.last_grid, keeper.last_store
        self._closed = False
        self._watcher = watcher
        self._thread = ThreadPoolExecutor(1, "mirror")
        self._places = threading.BoundedSemaphore(_WAITING_MAX)
        self._turns: dict[int, _Turn] = {}
        keeper.follow.append(lambda edits: self._thread.submit(self._follow, edits))
        keeper.anew.append(lambda: self._thread.submit(self._drop))

    @property
    def version(self) -> int:
        """The version of the store whose content the program has."""
        return self._version

    @property
    def grid(self) -> MapGrid:
        """What the coordinates of that content stand for."""
        return self._grid

    @property
    def number(self) -> int:
        """The number of the store whose content that is, as `Keeper.last_store` has it."""
        return self._number

    def ask(self, editor: int, question: Callable[[Store], _T]) -> _T:
        """The answer of an editor's question. `Unavailable` where it takes too long."""
        turn = self._turns.setdefault(editor, _Turn())
        with _place(turn.places, "Your questions before this one are not answered yet: wait for them."):
            with turn.asked, _place(self._places, "Too many questions wait: ask again later."):
                return self._thread.submit(lambda: self._ask(question)).result()

    def close(self) -> None:
        """Ends the program, also in the middle of a question. Those that wait are not asked."""
        self._closed = True
        store = self._store
        if store is not None:
            store.stop()
        self._thread.shutdown()
        self._drop()

    def _ask(self, question: Callable[[Store], _T]) -> _T:
        if self._closed:
            raise Unavailable("The server ends.")
        store = self._current()
        try:
            with self._limited(store):
                return question(store)
        except ProgramEnded as ended:
            self._drop()
            raise Unavailable(f"{ended}. Ask again.") from ended

    @contextlib.contextmanager
    def _limited(self, store: Store) -> Iterator[None]:
        """Stops the program where the body takes too long. `Unavailable` says so."""
        stopped = threading.Event()

        def stop() -> None:
            stopped.set()
            store.stop()

        timer = threading.Timer(self._seconds, stop)
        timer.start()
        try:
            yield
        except ProgramEnded:
            if not stopped.is_set():
                raise
        finally:
            timer.cancel()
            timer.join()
            if stopped.is_set():
                self._drop()
        if stopped.is_set():
            raise Unavailable(
                f"That took more than {self._seconds:g} seconds and was stopped: ask for less."
            )

    def _follow(self, edits: Sequence[Edit]) -> None:
        """Does edits of one editor, where the program has not got them with its file."""
        news = [edit for edit in edits if edit.version > self._version]
        if self._store is None or not news:
            return
        editor = news[0].editor
        speaker = self._store.editor(editor) if editor else self._store
        try:
            if self._watcher is not None:
                self._watcher.before(self._store, news)
            answers = speaker.run_all(edit.line for edit in news)
            if self._watcher is not None:
                self._watcher.after(self._store, news)
        except ProgramEnded:
            self._drop()
            return
        except BaseException:
            # As for want of memory. Nobody waits for this: what is asked next would miss these edits, and has to have them.
            self._drop()
            raise
        if any(isinstance(answer, Refused) for answer in answers):
            self._drop()
            return
        self._version = news[-1].version

    def _current(self) -> Store:
        """The program with the content of the store."""
        while self._store is None:
            snapshot = self._keeper.snapshot()
            try:
                self._store = loaded(self._program, snapshot)
            except ProgramEnded as ended:
                raise Unavailable(f"No second program can be had: {ended}.") from ended
            self._version, self._grid, self._number = snapshot.version, snapshot.grid, snapshot.store
            # The file may have been saved anew before it was opened.
            if not self._keeper.is_at(snapshot.file):
                self._drop()
        return self._store

    def _drop(self) -> None:
        if self._store is not None:
            self._store.close(save=False)
            self._store = None
            if self._watcher is not None:
                self._watcher.forget()


@contextlib.contextmanager
def _place(places: threading.BoundedSemaphore, words: str) -> Iterator[None]:
    """A place for the body. `Unavailable` with these words where there is none."""
    if not places.acquire(blocking=False):
        raise Unavailable(words)
    try:
        yield
    finally:
        places.release()
