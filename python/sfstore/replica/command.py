"""The command ``sfstore-replica``: a store on several machines, over one log that PostgreSQL keeps."""

from __future__ import annotations

import argparse
import os
import sys
import threading
import time
from collections.abc import Callable
from pathlib import Path

from sfstore.commandline import add_version, counted, reason_of
from sfstore.journal import JournalError
from sfstore.replica import owning
from sfstore.replica.demo import demonstrate
from sfstore.replica.links import LinkLost, LogRefused, check_driver
from sfstore.replica.log import LogUnreachable
from sfstore.replica.replica import AnswerGone, NotAcknowledged, Replica, ReplicaStopped
from sfstore.replica.session import listen, serve
from sfstore.replica.telling import Teller
from sfstore.store import ProgramEnded

__all__ = ["main"]

_PROGRESS_SECONDS = 1.0

_DESCRIPTION = (
    "A store on several machines: one log of lines in PostgreSQL, which each replica carries out. LOG is how "
    "PostgreSQL connects, as 'host=alpha,beta dbname=town'. Passwords belong in ~/.pgpass."
)


def main(words: list[str] | None = None) -> int:
    """Carries out the command, and gives its status."""
    asked = _parser().parse_args(words)
    carry_out: Callable[[argparse.Namespace], int] = asked.carry_out
    try:
        check_driver()
        return carry_out(asked)
    except ReplicaStopped as stopped:
        return _failed(str(stopped), 5)
    except NotAcknowledged as error:
        return _failed(str(error), 4)
    except (ModuleNotFoundError, LinkLost, LogRefused, LogUnreachable, JournalError) as error:
        return _failed(str(error), 3)
    except (owning.LoginExists, AnswerGone, ProgramEnded, OSError, RuntimeError, ValueError) as error:
        return _failed(reason_of(error), 3)
    except KeyboardInterrupt:
        return 130


def _seconds(text: str) -> float:
    seconds = float(text)
    if not 0 < seconds <= threading.TIMEOUT_MAX / 10:
        raise argparse.ArgumentTypeError(f"{text} is no time: it is more than 0")
    return seconds


def _failed(reason: str, status: int) -> int:
    print(f"sfstore-replica: {reason}", file=sys.stderr)
    return status


def _parser() -> argparse.ArgumentParser:
    parser = argparse.ArgumentParser(
        prog="sfstore-replica",
        description=_DESCRIPTION,
        usage="%(prog)s COMMAND .., or %(prog)s COMMAND --help",
        epilog="Status 0: done; 1: not all that was asked for holds; 2: wrong words; 3: the log or the folder can't be "
        "used; 4: lines are not acknowledged; 5: the replica stopped. More: man sfstore-replica, docs/use/REPLICAS.md",
    )
    add_version(parser)
    commands = parser.add_subparsers(required=True, metavar="COMMAND", title="commands", prog="sfstore-replica")
    _add_run(commands.add_parser("run", help="follow the log, and answer lines of the console"))
    _add_owning(commands)
    demo = commands.add_parser("demo", help="show it on this machine")
    demo.add_argument("--kills", type=int, default=3, help="how often the primary is killed (3)")
    demo.add_argument("--seed", type=int, default=1, help="the seed of the moments of the kills (1)")
    _add_program(demo)
    demo.set_defaults(carry_out=_demo)
    return parser


def _add_run(run: argparse.ArgumentParser) -> None:
    run.description = (
        "Follows the log in a folder of its own, and answers lines of standard input as the console does. An edit is "
        "answered when the standbys have it and it is carried out here. More: docs/use/REPLICAS.md"
    )
    run.add_argument("folder", help="the replica's folder; made if it is missing")
    run.add_argument("log", metavar="LOG")
    run.add_argument("--editor", metavar="LOG", help="the login that writes lines, if it is another one")
    run.add_argument("--from", dest="begin_from", metavar="FILE", help="another replica's file to begin from")
    run.add_argument(
        "--trust", metavar="LOGIN", help="whose files are right: stop if the one here differs again"
    )
    run.add_argument(
        "--listen",
        action="store_true",
        help="answer at the socket in the folder, in place of standard input",
    )
    run.add_argument(
        "--seconds", type=_seconds, default=10.0, help="how long a question may take (10)"
    )
    run.add_argument(
        "--patience", type=float, default=60.0, help="for how many seconds a line is tried (60)"
    )
    _add_program(run)
    run.set_defaults(carry_out=_run)


def _add_owning(commands: argparse._SubParsersAction[argparse.ArgumentParser]) -> None:
    """The commands of who owns the log."""
    set_up = commands.add_parser("setup", help="make the log in a database, as a superuser")
    set_up.add_argument("--create", action="store_true", help="make the database, if it is missing")
    set_up.add_argument(
        "--standbys", type=int, default=1, metavar="N", help="N standbys have a line before it is given out (1)"
    )
    set_up.add_argument("--renew", action="store_true", help="give a log of an older version what this one does, and change nothing else")
    set_up.set_defaults(carry_out=_set_up)
    login = commands.add_parser("login", help="let a login follow the log; it is made if it is missing")
    login.add_argument("--editor", action="store_true", help="it writes lines, with a number of its own")
    login.add_argument("--replica", action="store_true", help="it records the sums of its files")
    login.set_defaults(carry_out=_login)
    cut = commands.add_parser("cut", help="have all replicas save; nobody can undo across it")
    cut.add_argument("--alike", type=int, default=0, metavar="N", help="wait until N replicas have the same file")
    cut.add_argument("--seconds", type=float, default=60.0, help="how long (60)")
    cut.set_defaults(carry_out=_cut)
    drop = commands.add_parser("drop", help="drop all up to a cut that replicas agree on")
    drop.add_argument("--alike", type=int, required=True, metavar="N", help="how many replicas must have it")
    drop.add_argument("--older", default="1 hour", metavar="AGE", help="the least age of the cut (1 hour)")
    drop.set_defaults(carry_out=_drop)
    state = commands.add_parser("state", help="print how the log, its standbys and its cuts are")
    state.set_defaults(carry_out=_state)
    for command in (set_up, login, cut, drop, state):
        command.add_argument("log", metavar="LOG")
    login.add_argument("name", help="the login")
    drop.add_argument("place", type=int, help="the place of the cut")


def _add_program(parser: argparse.ArgumentParser) -> None:
    parser.add_argument("--program", default="sfstore", help="the program sfstore")


def _run(asked: argparse.Namespace) -> int:
    teller = Teller(_tell)
    with Replica(
        asked.folder,
        asked.log,
        editor=asked.editor,
        program=asked.program,
        begin_from=asked.begin_from,
        trust=asked.trust,
        patience=asked.patience,
        question_seconds=asked.seconds,
        tell=teller.tell,
        progress=_Progress().tell,
    ) as replica:
        if asked.listen:
            listen(replica, Path(asked.folder) / "socket", teller.tell)
        else:
            serve(replica, sys.stdin.fileno(), sys.stdout.fileno(), teller.tell)
    return 0


def _tell(text: str) -> None:
    """Tells in a sentence what keeps the replica waiting."""
    if text:
        print(f"sfstore-replica: {text}", file=sys.stderr, flush=True)


class _Progress:
    """Prints now and then how far a replica is."""

    def __init__(self) -> None:
        self._told = time.monotonic()

    def tell(self, at: int, last: int) -> None:
        now = time.monotonic()
        if now > self._told + _PROGRESS_SECONDS or at == last:
            self._told = now
            _tell(f"place {at:,} of {last:,}")


def _set_up(asked: argparse.Namespace) -> int:
    if asked.renew:
        owning.renew(asked.log)
        print("The log does what this version does.")
        return 0
    if asked.create:
        owning.create_database(asked.log)
    owning.set_up(asked.log, asked.standbys)
    print("The log is made.")
    return 0


def _login(asked: argparse.Namespace) -> int:
    number = owning.add_login(asked.log, asked.name, is_editor=asked.editor, is_replica=asked.replica)
    print(f"{asked.name} follows the log" + (f", and is its editor {number}." if number else "."))
    return 0


def _cut(asked: argparse.Namespace) -> int:
    cut = owning.cut(asked.log, asked.alike, asked.seconds)
    print(f"cut at place {cut.at}")
    return _print_cut(cut, asked.alike)


def _drop(asked: argparse.Namespace) -> int:
    # It is asked before: what is dropped is said, whatever becomes of the connection then.
    stay = owning.state(asked.log).at - asked.place
    dropped = owning.drop_before(asked.log, asked.place, asked.alike, asked.older, 60.0)
    # Places are numbered without a gap.
    first = asked.place - dropped + 1
    places = f"places {first:,} to {asked.place:,}" if dropped else f"those up to place {asked.place:,} were dropped before"
    print(f"{counted(dropped, 'entry is', 'entries are')} dropped: {places}. {counted(stay, 'entry stays', 'entries stay')} behind the cut.")
    return 0


def _state(asked: argparse.Namespace) -> int:
    state = owning.state(asked.log)
    print(f"places {state.first if state.first is not None else state.at + 1} to {state.at}")
    kept = sum(kind in ("sync", "quorum") for _, kind, _ in state.standbys)
    for name, kind, behind in state.standbys:
        print(f"standby {name}: {kind}, {behind} bytes behind")
    print(f"{kept} of {state.wanted} standbys")
    status = int(kept < state.wanted)
    for cut in state.cuts:
        print(f"cut at place {cut.at}")
        status |= _print_cut(cut, 0)
    return status


def _print_cut(cut: owning.Cut, wanted: int) -> int:
    """Prints the files at a cut. The status is 1 where they differ, or are fewer than wanted."""
    for replica, total in cut.sums.items():
        print(f"  {replica} {total}")
    if cut.sums and not cut.alike:
        print("  they differ")
        return 1
    return int(cut.alike < wanted)


def _demo(asked: argparse.Namespace) -> int:
    return demonstrate(os.fsdecode(asked.program), asked.kills, asked.seed)


if __name__ == "__main__":
    sys.exit(main())
