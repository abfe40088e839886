"""The command ``sfstore-web``: a store's file on a page in the browser."""

from __future__ import annotations

import argparse
import contextlib
import math
import os
import signal
import sys
import threading
import time
from collections.abc import Callable, Iterator
from importlib.util import find_spec
from typing import TYPE_CHECKING

from sfstore.commandline import add_version, counted, reason_of, recovered_words
from sfstore.journal import JournalError, path_of
from sfstore.store import ProgramEnded
from sfstore.storefile import fault_words
from sfstore.web.background import Background, background_of
from sfstore.web.calls import Calls
from sfstore.web.editors import EditorsError
from sfstore.web.keeper import Keeper
from sfstore.web.logins import LINK_SECONDS
from sfstore.web.opening import Opening, has_screen
from sfstore.web.socketed import Door, SocketTaken

if TYPE_CHECKING:
    from sfstore.web.server import Server

__all__ = ["main"]

_TYPED = (
    "`link` gives a link that lets one person in, under a new name; `link NAME` one that lets "
    "somebody in as NAME. Ctrl-C ends it."
)

# How many times as long as a question an edit may take: it can't be asked again in other words.
_EDIT_TIMES = 6
# How long `--while-used` waits for the first one who comes, and for another one behind the last.
_FIRST_SECONDS = 60.0
_UNUSED_SECONDS = 10.0
_LOOK_SECONDS = 0.5


def main(words: list[str] | None = None) -> int:
    """Carries out the command, and gives its status."""
    parser = _parser()
    asked = parser.parse_args(words)
    try:
        background = background_of(asked.background, asked.credit) if asked.background else None
    except ValueError as error:
        parser.error(str(error))
    if not _has_h11():
        return _failed("the page needs h11 for Python (Debian's package python3-h11)")
    try:
        keeper = Keeper(asked.file, asked.program, _EDIT_TIMES * asked.seconds)
    except ProgramEnded as ended:
        reason = fault_words(asked.file, ended.last_line) if ended.status == 3 else str(ended)
        return _failed(f"{asked.file} does not load: {reason}")
    except (JournalError, OSError) as error:
        return _failed(reason_of(error))
    try:
        return _serve(asked, keeper, background)
    except (EditorsError, OSError) as error:
        return _failed(reason_of(error))
    finally:
        unsaved = keeper.close()
        if unsaved:
            path = path_of(os.path.realpath(asked.file))
            print(f"{counted(unsaved, 'edit is', 'edits are')} in {path}, and there when it is opened again.")


def _parser() -> argparse.ArgumentParser:
    parser = argparse.ArgumentParser(
        prog="sfstore-web",
        usage="%(prog)s FILE [OPTION]..",
        description="Serves a store's file as a map to the browsers of this machine. Every accepted edit is in a "
        f"journal before it is answered. It reads lines from its standard input: {_TYPED}",
        epilog="Status 0: it was ended; 2: wrong words; 3: the store can't be opened. "
        "More: man sfstore-web, docs/use/PAGE.md",
    )
    parser.add_argument("file", help=argparse.SUPPRESS)
    parser.add_argument("--port", type=_port, default=0, help="the port; a free one if it is not given")
    parser.add_argument(
        "--link", action="append", default=[], metavar="NAME", help="print a link for a person of this name; repeated"
    )
    parser.add_argument("--no-browser", action="store_true", help="only print the address")
    parser.add_argument("--seconds", type=_seconds, default=10.0, help="how long a question may take (10); an edit six times as long")
    parser.add_argument(
        "--while-used", action="store_true", help="end once the last page and the last program have left"
    )
    parser.add_argument(
        "--background", metavar="ADDRESS", help="tiles under the map, such as https://HOST/{z}/{x}/{y}.png; pages ask that server"
    )
    parser.add_argument("--credit", default="", metavar="TEXT", help="who made the background: it stands at the map")
    parser.add_argument("--program", default="sfstore", help="the program sfstore")
    add_version(parser)
    return parser


def _port(text: str) -> int:
    port = int(text)
    if not 0 <= port <= 65_535:
        raise argparse.ArgumentTypeError(f"{text} is no port: these go from 0 to 65535")
    return port


def _seconds(text: str) -> float:
    seconds = float(text)
    if not 0 < seconds <= threading.TIMEOUT_MAX / 10 or math.isnan(seconds):
        raise argparse.ArgumentTypeError(f"{text} is no time: it is more than 0")
    return seconds


def _failed(reason: str) -> int:
    print(f"sfstore-web: {reason}", file=sys.stderr)
    return 3


def _has_h11() -> bool:
    try:
        return find_spec("h11") is not None
    except ValueError:
        # It was tried before, in vain.
        return False


def _serve(asked: argparse.Namespace, keeper: Keeper, background: Background | None) -> int:
    """Serves the page until Ctrl-C, or until the process is told to end."""
    # Behind the look whether h11 is there.
    from sfstore.web.server import Server

    calls = Calls(asked.file, keeper, asked.program, asked.seconds, background)
    try:
        for fault in (*calls.styles.faults(), *calls.qgis_styles.faults()):
            print(f"sfstore-web: {fault}", file=sys.stderr)
        with Server(calls, asked.port, background) as server:
            for number in (signal.SIGINT, signal.SIGTERM):
                signal.signal(number, signal.default_int_handler)
            # In the background nothing can be read, and trying it shall not stop the process.
            signal.signal(signal.SIGTTIN, signal.SIG_IGN)
            with contextlib.suppress(KeyboardInterrupt), _socket(server, asked), _told(server, keeper, asked):
                server.serve_forever()
    finally:
        calls.close()
    return 0


@contextlib.contextmanager
def _socket(server: Server, asked: argparse.Namespace) -> Iterator[None]:
    """Answers programs at the socket beside the file, while the body serves pages. Without one pages are served."""
    with contextlib.ExitStack() as stack:
        count: Callable[[], int] = lambda: 0
        try:
            door = stack.enter_context(Door(server.calls, asked.file, lambda name: _address(server, name)))
        except (OSError, SocketTaken) as error:
            print(f"sfstore-web: no program can connect: {reason_of(error)}", file=sys.stderr)
        else:
            count = lambda: door.count
            threading.Thread(target=door.serve_forever, daemon=True).start()
            stack.callback(door.shutdown)
        if asked.while_used:
            threading.Thread(target=_end_unused, args=[server, count], daemon=True).start()
        yield


def _end_unused(server: Server, programs: Callable[[], int]) -> None:
    """Ends the server once nobody has been there for some seconds."""
    until = time.monotonic() + _FIRST_SECONDS
    while time.monotonic() < until:
        if programs() or server.calls.events.count:
            until = time.monotonic() + _UNUSED_SECONDS
        time.sleep(_LOOK_SECONDS)
    server.shutdown()


@contextlib.contextmanager
def _told(server: Server, keeper: Keeper, asked: argparse.Namespace) -> Iterator[None]:
    """Tells where the page is, and opens it where there is a browser, while the body serves it."""
    edits, torn = keeper.recovered
    if server.calls.grid_fault:
        print(f"sfstore-web: {server.calls.grid_fault}", file=sys.stderr)
    if edits:
        print(recovered_words(edits))
    if torn:
        print(f"An edit that was not written to its end, nor answered, is dropped ({torn} bytes).")
    with contextlib.closing(Opening()) as opening:
        address = server.address(server.calls.logins.new_link(is_owners=True, used=opening.close))
        minutes = f"{LINK_SECONDS / 60:g} minutes"
        print(f"The map is at {address}\nThis link lets one person in, once, within {minutes}.")
        for name in asked.link:
            _print_link(server, name)
        print(_TYPED, flush=True)
        if has_screen() and not asked.no_browser:
            _open(opening, address)
        threading.Thread(target=_obey, args=[server], daemon=True).start()
        yield


def _open(opening: Opening, address: str) -> None:
    """Opens the browser, where that can be done: the link is printed in any case."""
    try:
        opening.open(address)
    except OSError as error:
        print(f"sfstore-web: no browser is opened: {reason_of(error)}", file=sys.stderr)


def _obey(server: Server) -> None:
    """Does what is typed at the terminal."""
    for line in _typed_lines():
        words = line.split(maxsplit=1)
        if words[:1] == ["link"]:
            _print_link(server, words[1] if len(words) > 1 else None)
        elif words:
            print(_TYPED, flush=True)


def _print_link(server: Server, name: str | None) -> None:
    """Prints a link for somebody new, or for somebody of a name."""
    try:
        address = _address(server, name)
    except EditorsError as error:
        print(error, flush=True)
        return
    whom = f"For {name.strip()}" if name else "For somebody new"
    print(f"{whom}: {address}", flush=True)


def _address(server: Server, name: str | None) -> str:
    """An address that lets somebody new in, or somebody of a name. `EditorsError` where the name is none."""
    return server.address(server.calls.logins.new_link(name), name.strip() if name else "")


def _typed_lines() -> Iterator[str]:
    """The lines of the standard input.

    They are read past Python's own buffer: its lock would not let the process end in the middle of
    a line.
    """
    rest = b""
    while True:
        try:
            data = os.read(0, 4096)
        except OSError:
            return
        if not data:
            return
        *lines, rest = (rest + data).split(b"\n")
        for line in lines:
            yield line.decode("utf-8", "replace")


if __name__ == "__main__":
    sys.exit(main())
