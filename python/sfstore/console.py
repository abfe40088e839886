"""The command ``sfstore-console``: a store's file at a terminal, for people.

It speaks the commands of the program, with help, completion, history and refusals in words. Every
accepted edit is in the journal before it is answered, so that nothing is lost whatever ends it.
"""

from __future__ import annotations

import argparse
import contextlib
import os
import pydoc
import re
import shlex
import shutil
import subprocess  # nosec B404: sfmap is started, without a shell.
import sys
import tempfile
import warnings
import webbrowser
from collections.abc import Callable, Iterator
from functools import partial
from pathlib import Path
from typing import IO, Protocol, cast

from sfstore import files, sidecar
from sfstore.broken import broken_by, sentence_of
from sfstore.commandline import add_version, reason_of, recovered_words, unsaved_question
from sfstore.commands import TOOLS, candidates, help_text, near_words
from sfstore.drawing import Drawing
from sfstore.extents import extent_of
from sfstore.exchange import exporting, importing
from sfstore.faults import fault_at, fault_of
from sfstore.framed import framed
from sfstore.groups import size_of, text_of
from sfstore.journal import JournalError, path_of
from sfstore.language import MEMBERS, words_of_line
from sfstore.lines import geometry_refused
from sfstore.mapgrid import GridChanged, MapGrid
from sfstore.mapunits import MapUnits
from sfstore.refusals import words_of
from sfstore.store import ProgramEnded, Refused, Store
from sfstore.storefile import fault_words
from sfstore.surroundings import Surroundings, far_question
from sfstore.tools import NotDone
from sfstore.tools.drafting import Drafting

__all__ = ["Console", "main"]

Complete = Callable[[str], "list[str]"]

# The tools that put corners where somebody says.
_WITH_COORDINATES = {"split", "node", "border", "hole"}

_PICTURE = ".svg"
# What the head of a picture has at most.
_HEAD_MAX = 1_000


class _Terminal(Protocol):
    """Where lines are asked for."""

    def ask(self, prompt: str) -> str:
        """A line. `EOFError` at the end of the input, `KeyboardInterrupt` for Ctrl-C."""


class _ToolkitTerminal:
    """Lines by ``prompt_toolkit``. `ImportError` where it is missing."""

    def __init__(self, complete: Complete) -> None:
        from prompt_toolkit import PromptSession
        from prompt_toolkit.completion import CompleteEvent, Completer, Completion
        from prompt_toolkit.document import Document
        from prompt_toolkit.history import FileHistory, History, InMemoryHistory

        class Words(Completer):
            """Offers what `complete` gives."""

            def get_completions(
                self, document: Document, complete_event: CompleteEvent
            ) -> Iterator[Completion]:
                line = document.text_before_cursor
                for word in complete(line):
                    yield Completion(word, start_position=-len(line.rpartition(" ")[2]))

        path = _history_path()
        history: History = InMemoryHistory() if path is None else FileHistory(path)
        self._session: PromptSession[str] = PromptSession(
            history=history, completer=Words(), complete_while_typing=False
        )

    def ask(self, prompt: str) -> str:
        return self._session.prompt(prompt)


class _PlainTerminal:
    """Lines by ``readline``, where Python has it."""

    def __init__(self, complete: Complete) -> None:
        try:
            import readline
        except ImportError:
            return
        readline.set_completer_delims(" ")
        readline.parse_and_bind("tab: complete")

        def completer(text: str, state: int) -> str | None:
            found = complete(readline.get_line_buffer()[: readline.get_endidx()])
            return found[state] if state < len(found) else None

        readline.set_completer(completer)

    def ask(self, prompt: str) -> str:
        return input(prompt)  # nosec B322: Python 3 gives the text as it is.


def _history_path() -> str | None:
    """Where the lines of earlier sessions are kept, or none where nothing can be written there."""
    state = os.environ.get("XDG_STATE_HOME") or os.path.join(os.path.expanduser("~"), ".local", "state")
    if not os.path.isabs(state):
        # Whom the system does not know has no home, as in a container.
        return None
    folder = os.path.join(state, "sfstore")
    path = os.path.join(folder, "history")
    try:
        os.makedirs(folder, mode=0o700, exist_ok=True)
        # Values of the store stand in it: it is for this user alone.
        file = os.open(path, os.O_WRONLY | os.O_CREAT | os.O_NOFOLLOW | os.O_CLOEXEC, 0o600)
    except OSError:
        return None
    try:
        os.fchmod(file, 0o600)
    except OSError:
        return None
    finally:
        os.close(file)
    return path


def _lines_of(text: str) -> list[str]:
    """The lines of what was typed or pasted; a letter that other programs take for an end is none."""
    return re.split("\r\n|\r|\n", text)


def _printable(text: str) -> str:
    """A text without what a terminal obeys: a value may have control characters from U+0080 to U+009F."""
    return re.sub("[\x80-\x9f]", lambda found: f"\\x{ord(found[0]):02x}", text)


class _Pending:
    """A group whose members are not all there: nothing of it was sent."""

    def __init__(self, head: str, size: int) -> None:
        self._editor = head.partition("together")[0]
        self._size = size
        self._members: list[str] = []
        self.typed: list[str] = []
        """The members as they were typed."""

    @property
    def prompt(self) -> str:
        """Which member comes next."""
        return f"{len(self._members) + 1} of {self._size}> "

    def take(self, line: str, typed: str) -> str:
        """Takes a member, as the program takes it and as it was typed. The text of the group, when it has them all; else nothing."""
        self._members.append(line)
        self.typed.append(typed)
        return self._editor + text_of(self._members) if len(self._members) == self._size else ""


class Console:
    """A session at a terminal."""

    def __init__(
        self, path: str, program: str, make_terminal: Callable[[Complete], _Terminal], in_steps: bool = False
    ) -> None:
        self._path = path
        # A link may be led to another store while this one is open.
        self._file = os.path.realpath(path)
        self._program = program
        self._in_steps = in_steps
        self._units: MapUnits | None = None
        self._map: sidecar.Sidecar | None = None
        self._grid: MapGrid | None = None
        self._surroundings = Surroundings()
        self._store = self._opened()
        self._terminal = make_terminal(self._complete)
        self._is_over = False
        self._group: _Pending | None = None
        self._members: list[str] = []
        self._own: dict[str, Callable[[list[str]], None]] = {
            "help": self._help,
            "save": self._save,
            **{tool: partial(self._draw, tool) for tool in TOOLS},
            "picture": self._picture,
            "import": self._import,
            "export": self._export,
            "quit": self._quit,
        }

    def run(self) -> None:
        """Asks for lines and carries them out, until the user leaves."""
        print("`help` lists the commands; Tab completes them; `quit` leaves.")
        while not self._is_over:
            prompt = self._group.prompt if self._group else f"{os.path.basename(self._path)}> "
            try:
                lines = _lines_of(self._terminal.ask(prompt))
            except (KeyboardInterrupt, EOFError) as key:
                lines = ["quit"] if isinstance(key, EOFError) and not self._group else []
                self._leave_group()
            for line in lines:
                self._carry_out(line.strip(" \t"))

    def _carry_out(self, line: str) -> None:
        """Carries out a line. Where that ends the program, the store is opened anew."""
        if not line:
            return
        try:
            if self._grid:
                self._grid.check()
            self._take(line)
        except GridChanged as changed:
            self._leave_group()
            self._open_anew(str(changed))
        except Refused as refused:
            self._tell_refused(refused)
        except ValueError as error:
            print(f"That line can't be read: {error}")
        except KeyboardInterrupt:
            self._open_anew("Interrupted.")
        except ProgramEnded as error:
            self._open_anew(f"{error}.")
        except (JournalError, OSError, RuntimeError) as error:
            if self._is_open():
                print(f"{reason_of(error)}.")
            else:
                self._open_anew(f"{reason_of(error)}.")

    def _take(self, line: str) -> None:
        """Has a line done by the console itself, or by the program; one of a group waits for the others."""
        word = re.split("[ \t]+", line)[0]
        size = size_of(line)
        if word in self._own and (word == "help" or not self._group):
            self._own[word](shlex.split(line)[1:])
        elif word in self._own:
            print("Not inside a group: give it its members first, or leave it by Ctrl-C.")
        elif self._group:
            self._take_member(self._group, line)
        elif size is not None:
            self._group = _Pending(line, size)
        elif self._is_meant(given := self._line_of(line)):
            self._answer(given)

    def _take_member(self, group: _Pending, line: str) -> None:
        """Keeps a member, and sends the group when it has them all. One that can't be read, or is not meant, is not kept."""
        given = self._line_of(line)
        if not self._is_meant(given):
            print("It is not kept: give this member again, or leave the group by Ctrl-C.")
            return
        text = group.take(given, line)
        if text:
            self._group, self._members = None, group.typed
            self._answer(text)
        elif line.startswith("@") or words_of_line(line)[0] not in MEMBERS:
            print("That is no edit of a feature, and the group will be refused. Ctrl-C leaves it.")

    def _leave_group(self) -> None:
        """Gives up a group that has not all of its members."""
        if self._group:
            self._group = None
            print("The group is left: nothing of it was done.")

    def _is_open(self) -> bool:
        """Whether the store can be used on."""
        try:
            self._store.layers()
        except (JournalError, ProgramEnded, RuntimeError):
            return False
        return True

    def _opened(self) -> Store:
        """The store of the file. What its journal had is told."""
        with warnings.catch_warnings():
            # A torn record is told here.
            warnings.simplefilter("ignore", RuntimeWarning)
            store = Store(self._file, journal=True, program=self._program, warn_far_off=False)
        edits, torn = store.recovered
        if edits:
            print(recovered_words(edits))
        if torn:
            print(f"An edit that was not written to its end, nor answered, is dropped ({torn} bytes).")
        self._find_units()
        return store

    def _find_units(self) -> None:
        """The map units of the store, where it has a grid; what coordinates are is told."""
        self._units = self._map = self._grid = None
        if self._in_steps:
            return
        self._grid = MapGrid(self._file)
        self._units, self._map = self._grid.units, self._grid.found
        if self._grid.fault:
            print(self._grid.fault)
        if self._units and self._map:
            system = f" ({self._map.crs})" if self._map.crs else ""
            print(f"Coordinates are those of the map{system}, whole steps of {self._units.step}. With --steps they are counted in steps.")

    def _open_anew(self, reason: str) -> None:
        """Goes on from file and journal, where a session was ended by something."""
        print(reason)
        self._store.close(save=False)
        print("The store is opened again, with every edit that was answered.")
        self._store = self._opened()

    def _line_of(self, line: str) -> str:
        """A line that was typed, as the program takes it. `ValueError` where a coordinate is no place of the grid."""
        return self._units.line(line) if self._units else line

    def _is_meant(self, line: str) -> bool:
        """Whether a line, or the text of a group, is to be carried out. Of what would lie far off the map of an import that is asked."""
        if self._units is None:
            return True
        point = self._surroundings.point_beyond(line, lambda: extent_of(self._store))
        return point is None or self._yes(far_question(self._units.point_text(point)))

    def _answer(self, line: str) -> None:
        """Has the program carry out a line, and shows its answer."""
        answer = self._store.run(line)
        rows = [answer] if isinstance(answer, str) else answer
        shown = self._units.rows(line, rows) if self._units else rows
        if isinstance(answer, str):
            print(shown[0])
        else:
            count = f"{len(shown)} row{'' if len(shown) == 1 else 's'}"
            self._show(_printable("\n".join([*shown, count])))

    def _show(self, text: str) -> None:
        """Writes a text, by a pager where it is longer than the terminal is high."""
        if text.count("\n") + 1 < shutil.get_terminal_size().lines:
            print(text)
        else:
            pydoc.pager(text + "\n")

    def _tell_refused(self, refused: Refused) -> None:
        """A refusal in words: what is wrong, where, and what helps."""
        words = words_of(refused.number)
        print(f"Refused ({refused.number} {refused.name}): {words.reason}.")
        if refused.member:
            member = self._members[refused.member - 1] if refused.member <= len(self._members) else refused.line
            shown = member if len(member) <= 200 else member[:200] + ".."
            print(f"  It is member {refused.member}, and nothing of the group was done: {shown}")
        place = self._place(refused)
        if place:
            print(f"  {place}")
        if refused.rule:
            self._tell_broken(refused)
        near = near_words(refused.line, in_group=refused.member is not None) if refused.number == 31 else ""
        print(f"  {near or words.help}")

    def _tell_broken(self, refused: Refused) -> None:
        """Which rule would be broken, and by which features."""
        broken = broken_by(refused, refused.line, self._store)
        if broken is not None and broken.features:
            features = [(each.layer, each.feature) for each in broken.features]
            print(f"  {_printable(sentence_of(broken.rule, features, self._units))} (rule {broken.rule.name}).")

    def _place(self, refused: Refused) -> str:
        """Where a geometry breaks a rule, or nothing."""
        shape = geometry_refused(refused, refused.line, self._store) if 10 <= refused.number <= 17 else None
        if shape is None:
            return ""
        fault = fault_at(shape, refused) or fault_of(shape, self._program)
        if fault is None:
            return ""
        return fault.words.format(*map(self._units.point_text, fault.points)) if self._units else str(fault)

    def _complete(self, line: str) -> list[str]:
        return candidates(line, self._layer_names, self._column_names, in_group=self._group is not None)

    def _layer_names(self) -> list[str]:
        return [layer.name for layer in self._store.layers()] if self._is_open() else []

    def _column_names(self, layer: str) -> list[str]:
        if layer not in self._layer_names():
            return []
        return [column.name for column in self._store.columns(layer)]

    def _yes(self, question: str) -> bool:
        """Whether a question is answered with y. Ctrl-C and the end of the input mean no."""
        try:
            return self._terminal.ask(f"{question} [y/n] ").strip().lower() in ("y", "yes")
        except (KeyboardInterrupt, EOFError):
            return False

    def _help(self, words: list[str]) -> None:
        self._show(help_text(words[0] if words else ""))

    def _save(self, words: list[str]) -> None:
        self._store.save()
        print(f"{self._path} is saved. The history begins anew.")

    def _quit(self, words: list[str]) -> None:
        """Leaves. Where something is not saved, that is asked about; else it stays in the journal."""
        unsaved = self._store.unsaved
        if unsaved and self._yes(unsaved_question(unsaved)):
            self._save([])
        elif unsaved:
            stay = "It stays in {}, and is" if unsaved == 1 else "They stay in {}, and are"
            print(f"{stay.format(path_of(self._file))} there when it is opened again.")
        self._store.close(save=False)
        self._is_over = True

    def _draw(self, word: str, words: list[str]) -> None:
        """Carries out a tool. Of a group that is refused the members are those that the tool made, not those that were typed last."""
        self._members = []
        drawing = Drawing(self._store, self._units, self._show, self._yes)
        try:
            if self._are_meant(word, words):
                drawing.run(word, words)
            else:
                print("Nothing was done.")
        except NotDone as fault:
            print(f"Not done: {drawing.told(fault)}.")

    def _are_meant(self, word: str, words: list[str]) -> bool:
        """Whether what a tool makes of coordinates that were typed is to be carried out."""
        if self._units is None or word not in _WITH_COORDINATES:
            return True
        tried = Drafting(self._store)
        Drawing(tried, self._units, lambda _: None, lambda _: False).run(word, words)
        return all(self._is_meant(text_of(group)) for group in tried.groups)

    def _picture(self, words: list[str]) -> None:
        """Draws the store as it is, and opens the picture where there is a browser."""
        target = words[0] if words else self._path + _PICTURE
        if not target.lower().endswith(_PICTURE) or os.path.realpath(target) in (self._file, *sidecar.beside(self._file)):
            # Nothing else is replaced by one: somebody may name the store that is to be drawn.
            print(f"A picture goes to a file of its own, whose name ends in {_PICTURE}: nothing is drawn.")
            return
        program = shutil.which("sfmap")
        if program is None:
            print("This needs the program sfmap, and it is not on the PATH.")
            return
        if _is_other(target) and not self._yes(f"{target} is there, and is no picture of a store. Replace it?"):
            print("Nothing is drawn.")
            return
        # It lets others see no more than the store does, or where it was not saved yet its journal.
        like = self._file if os.path.exists(self._file) else path_of(self._file)
        with tempfile.TemporaryDirectory() as folder, files.whole_file(target, like) as svg:
            copy = os.path.join(folder, "copy.sfs")
            self._store.copy(copy)
            with open(copy, "rb") as drawn:
                # A list of words, none of a stranger.
                with subprocess.Popen([program], stdin=drawn, stdout=subprocess.PIPE) as sfmap:  # nosec B603
                    lines = cast("IO[bytes]", sfmap.stdout)
                    svg.writelines(framed(lines, self._map) if self._map else lines)
            if sfmap.returncode:
                raise RuntimeError(f"sfmap ended with status {sfmap.returncode}: no picture is drawn")
        print(f"{target} is drawn.")
        if os.environ.get("DISPLAY") or os.environ.get("WAYLAND_DISPLAY"):
            with contextlib.suppress(webbrowser.Error):
                webbrowser.open(Path(target).resolve().as_uri())

    def _import(self, words: list[str]) -> None:
        """Brings a map into this store where it has no layers or it is to be added, or into the file that is named."""
        with contextlib.suppress(SystemExit):
            asked = importing.parser().parse_intermixed_args(words)
            words = [*words, f"--program={self._program}"]
            if asked.suggest or asked.file is not None:
                importing.main(words)
                return
            if self._store.layers() and not asked.add:
                print("This store has layers: --add adds to these; or name another file behind the source, and open that.")
                return
            if not asked.add and not self._is_saved("Nothing is brought in: what comes takes the place of the saved store, and is no step to undo."):
                return
            # Nobody else writes it before the store is closed, and all is saved: so the close leaves a file that is there.
            seen = files.digest(self._file) if os.path.isfile(self._file) else ""
            # What is added stands in the journal, on top of the edits there.
            self._store.close(save=not asked.add)
            try:
                # The store that has no layers gives way, as it is now. Reports do only where that was said.
                importing.main([*words, self._file], "" if asked.add else seen or files.digest(self._file))
            finally:
                self._store = self._opened()

    def _is_saved(self, otherwise: str) -> bool:
        """Whether all is saved, after a question where it was not; else what is said then."""
        if self._store.unsaved:
            if not self._yes(unsaved_question(self._store.unsaved)):
                print(otherwise)
                return False
            self._save([])
        return True

    def _export(self, words: list[str]) -> None:
        """Gives the store back as a map; it is saved first."""
        if not self._is_saved("Nothing is written: an export is one of the saved store."):
            return
        with contextlib.suppress(SystemExit):
            if exporting.main([self._file, *words, f"--program={self._program}"]) == 0:
                print("It is written.")


def _is_other(path: str) -> bool:
    """Whether a file is there that sfmap has not written."""
    if not os.path.isfile(path):
        return False
    with open(path, "rb", opener=files.opened) as file:
        head, _, behind = file.read(_HEAD_MAX).partition(b">\n")
    return not (head.startswith(b"<svg xmlns='http://www.w3.org/2000/svg' width=") and behind.startswith(b"<style>.back"))


def _terminal(complete: Complete) -> _Terminal:
    """The terminal of ``prompt_toolkit``, or a plain one where that is missing."""
    try:
        return _ToolkitTerminal(complete)
    except ImportError:
        print("(Python's prompt_toolkit is missing: lines are read without its comforts.)")
        return _PlainTerminal(complete)


def main(words: list[str] | None = None) -> int:
    """Carries out the command, and gives its status."""
    parser = argparse.ArgumentParser(
        prog="sfstore-console",
        description="Opens a store's file at a terminal; a new one where the file is missing. "
        "Every accepted edit is in a journal beside it before it is answered.",
        epilog="Status 0: the session ended; 2: wrong words, or no terminal; 3: the store can't be "
        "opened. More: man sfstore-console, docs/learn/TUTORIAL.md",
    )
    parser.add_argument("file", help="the store's file")
    parser.add_argument("--program", default="sfstore", help="the program sfstore")
    parser.add_argument("--steps", action="store_true", help="count in steps of the grid, and not in the units of the map")
    add_version(parser)
    asked = parser.parse_args(words)
    if not (sys.stdin.isatty() and sys.stdout.isatty()):
        print(
            "sfstore-console needs a terminal. For lines of a file or a pipe there is the program "
            "sfstore: sfstore --load FILE --save FILE < LINES",
            file=sys.stderr,
        )
        return 2
    try:
        Console(asked.file, asked.program, _terminal, asked.steps).run()
    except ProgramEnded as ended:
        reason = fault_words(asked.file, ended.last_line) if ended.status == 3 else str(ended)
        print(f"sfstore-console: {asked.file} does not load: {reason}", file=sys.stderr)
        return 3
    except KeyboardInterrupt:
        print("Interrupted: every edit that was answered is in the journal.", file=sys.stderr)
        return 3
    except (JournalError, OSError) as error:
        print(f"sfstore-console: {reason_of(error)}", file=sys.stderr)
        return 3
    return 0


if __name__ == "__main__":
    sys.exit(main())
