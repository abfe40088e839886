"""How an imported store takes the place of an old one, with its side-car.

Beside a file ``town.sfs`` with a side-car ``town.sfs.json`` stands for a moment

    town.sfs.json.next    the side-car of the file that is about to take the place

The steps, and what a crash behind each leaves:

    the new file is made beside       the old file with its side-car
    the new side-car is made, .next   the same
    the journal is taken away         the same: it had no edits that the file has not
    the new file takes the place      the new file, and the side-car that fits it, as .next
    .next takes the side-car's place  the new file with its side-car

Whoever reads a side-car has `sidecar.settle` do the last step first, where the digest says that it is due.
"""

from __future__ import annotations

import contextlib
import os
import subprocess  # nosec B404: the store's own program is started, without a shell.
from collections.abc import Sequence

from sfstore import files, journal, sidecar
from sfstore.exchange.layers import Source
from sfstore.exchange.ogr import ExchangeError
from sfstore.exchange.placing import room_beside, uninterrupted
from sfstore.exchange.ruling import Ruling, ruled
from sfstore.exchange.sources import check_unchanged, mode_for
from sfstore.results import ProgramEnded
from sfstore.rules import AnyRule
from sfstore.sidecar import Sidecar
from sfstore.store import Store
from sfstore.storefile import FileLayer, is_store
from sfstore.storefile import write as write_store

__all__ = ["check_target", "publish"]


def check_target(target: str, overwrite: bool, given_way: str = "") -> None:
    """`ExchangeError` where a store's file may not be written. The one of the digest ``given_way`` gives way in any case."""
    if given_way and os.path.isfile(target) and files.digest(target) != given_way:
        raise ExchangeError(f"{target} was written by another program meanwhile: open it again, and look")
    if os.path.lexists(target) and not (overwrite or given_way):
        raise ExchangeError(f"{target} is there already: --overwrite replaces it")
    if os.path.exists(target) and not os.path.isfile(target):
        raise ExchangeError(f"{target} is no file")
    if os.path.exists(target) and not is_store(target):
        raise ExchangeError(f"{target} is no store, and --overwrite replaces no other file by one: take it away, or name another file")
    other = sidecar.store_beside(target)
    if other is not None:
        raise ExchangeError(f"{target} is kept beside {other}: name another file")
    edits = journal.edits_left(os.path.realpath(target))
    if edits:
        raise ExchangeError(
            f"{target} has {edits} edits in its journal that are not saved: "
            "save them first, or take the journal away"
        )


def publish(
    target: str,
    layers: list[FileLayer],
    found: Sidecar,
    program: str,
    overwrite: bool,
    rules: Sequence[AnyRule] = (),
    sources: Sequence[Source] = (),
    given_way: str = "",
) -> list[Ruling]:
    """Has the program make a store's file, with the side-car beside it, and gives what became of rules.

    Where it raises, the old file stands with its old side-car. So it does where one of the ``sources`` was written
    meanwhile. A new file lets others do no more than they do.
    """
    path = os.path.realpath(target)
    with journal.locked(path), room_beside(path) as room:
        check_target(target, overwrite, given_way)
        sidecar.settle(path)
        made, rulings = _made(room, layers, rules, program, target)
        beside = os.path.join(room, "side-car")
        is_now = os.stat(made)
        wanted = os.stat(path).st_mode if os.path.exists(path) else is_now.st_mode & mode_for(sources, is_now.st_gid)
        os.chmod(made, wanted & 0o777)
        # The side-car is made as that of a file in the room, which is of the same bytes.
        sidecar.write(beside, found, [files.digest(made)])
        os.chmod(sidecar.path_of(beside), os.stat(made).st_mode & 0o777)
        check_unchanged(sources)
        with uninterrupted():
            _put(path, made, sidecar.path_of(beside))
    return rulings


def _made(
    room: str, layers: list[FileLayer], rules: Sequence[AnyRule], program: str, target: str
) -> tuple[str, list[Ruling]]:
    """The file that the program makes of layers and of those rules that hold, on the disk."""
    draft, made = os.path.join(room, "draft"), os.path.join(room, "made")
    with open(draft, "wb") as file:
        write_store(file, layers)
    if rules:
        rulings = _ruled(draft, made, layers, rules, program, target)
    else:
        rulings = []
        _saved(draft, made, program, target)
    files.sync(made)
    return made, rulings


def _saved(draft: str, made: str, program: str, target: str) -> None:
    """Has the program load one file, and save another one. `ExchangeError` where it does not."""
    ended = subprocess.run(  # nosec B603: a list of words, of which two are paths.
        [program, f"--load={draft}", f"--save={made}"],
        stdin=subprocess.DEVNULL,
        stdout=subprocess.PIPE,
    )
    if ended.returncode:
        last = ended.stdout.decode("utf-8", "replace").strip()
        raise ExchangeError(f"{target} could not be made: {last}")


def _ruled(
    draft: str, made: str, layers: list[FileLayer], rules: Sequence[AnyRule], program: str, target: str
) -> list[Ruling]:
    """As `_saved`, with those rules added in between that hold."""
    features = {layer.name: [feature.id for feature in layer.features] for layer in layers}
    try:
        with Store(program, load=draft, save=made) as store:
            return [ruled(store, rule, features.get(rule.layer, [])) for rule in rules]
    except ProgramEnded as ended:
        raise ExchangeError(f"{target} could not be made: {ended.last_line}") from None


def _put(path: str, made: str, side_car: str) -> None:
    """Puts the new file and its side-car in the place of the old ones."""
    files.replace(side_car, sidecar.next_of(path))
    try:
        with contextlib.suppress(FileNotFoundError):
            os.unlink(path + ".journal")
        files.replace(made, path)
        sidecar.settle(path)
    except OSError as error:
        if os.path.exists(made):
            # The old file stands there: the new side-car would be that of none.
            os.unlink(sidecar.next_of(path))
            raise
        raise ExchangeError(f"{path} is written, but may not be on the disk: {error}") from None
