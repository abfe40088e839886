#!/usr/bin/env python3
"""Measures replicas over a log: lines a second, the time of an own line, replay, a beginning from a file, failovers.

    bench/replicas.py PROGRAM [FEATURES [KILLS [SEED]]]

A primary and a standby begin in a folder for temporary files, with their syncs, and all is on this machine. FEATURES
are in the store that a new replica begins from (1,000,000 if not given); the primary is killed KILLS times (20).
"""

from __future__ import annotations

import os
import random
import shutil
import sys
import tempfile
import threading
import time
import uuid
from collections.abc import Callable
from pathlib import Path

TOP = Path(__file__).resolve().parent.parent
sys.path.insert(0, str(TOP / "python"))

from sfstore.replica import Replica, owning  # noqa: E402
from sfstore.replica.demo import Trial  # noqa: E402
from sfstore.replica.links import Link  # noqa: E402
from sfstore.replica.servers import Pair  # noqa: E402

APPEND = "SELECT sfstore.append(%s::uuid[], %s)"
LOGINS = ("ann", "ben", "cleo", "dora")


def row(name: str, count: int, seconds: float) -> None:
    """Prints a rate."""
    print(f"| {name} | {count / seconds:,.0f} a second ({count:,} in {seconds:.2f} s) |", flush=True)


def seconds_of(task: Callable[[], object]) -> float:
    begun = time.perf_counter()
    task()
    return time.perf_counter() - begun


def put(link: Link, count: int, group: int) -> None:
    """Appends so many points in groups, without a replica."""
    for at in range(0, count, group):
        lines = [f"add w POINT ({k % 4000} {k // 4000})" for k in range(at, min(at + group, count))]
        link.ask(APPEND, ([str(uuid.uuid4()) for _ in lines], lines), seconds=600.0)


def synced(folder: Path) -> None:
    """How long the disk takes for a sync, which each commit waits for twice."""
    with open(folder / "synced", "wb", buffering=0) as file:

        def sync() -> None:
            file.write(b"x" * 100)
            os.fdatasync(file.fileno())

        times = sorted(seconds_of(sync) * 1000 for _ in range(300))
    print(f"| a sync of the disk | median {times[150]:.2f} ms, 99 of 100 in {times[297]:.2f} ms |", flush=True)


def appended(pair: Pair) -> None:
    """What the log takes, without any replica."""
    links = [Link(pair.primary.dsn(login)) for login in LOGINS]
    links[0].ask(APPEND, ([str(uuid.uuid4())], ["layer add w point"]))
    for name, count, group in (("one by one", 1000, 1), ("by 100", 10_000, 100), ("by 1,000", 50_000, 1000)):
        row(f"put down {name}", count, seconds_of(lambda c=count, g=group: put(links[0], c, g)))
    row("put down one by one by four editors at once", 2000, together(links, 500, 1))
    second = pair.primary.dsn(database="second")
    make_log(second)
    both = [links[0], Link(pair.primary.dsn("ann", "second"))]
    both[1].ask(APPEND, ([str(uuid.uuid4())], ["layer add w point"]))
    row("put down one by one in two logs at once, together", 1000, together(both, 500, 1))
    row("put down by 1,000 in two logs at once, together", 40_000, together(both, 20_000, 1000))


def together(links: list[Link], count: int, group: int) -> float:
    """How many seconds it is until all have appended so many points each."""
    threads = [threading.Thread(target=put, args=(link, count, group)) for link in links]
    begun = time.perf_counter()
    for thread in threads:
        thread.start()
    for thread in threads:
        thread.join()
    return time.perf_counter() - begun


def make_log(owner: str) -> None:
    """Makes a log with its editors."""
    owning.create_database(owner)
    owning.set_up(owner, 1)
    for login in LOGINS:
        owning.add_login(owner, login, is_editor=True, is_replica=True)


def own_lines(replica: Replica) -> None:
    """How long it is from an own line to its answer."""
    times = sorted(seconds_of(lambda: replica.run("add w POINT (3 4)")) * 1000 for _ in range(1000))
    print(f"| an own line, from asking to the answer | median {times[500]:.2f} ms, 99 of 100 in {times[990]:.2f} ms |")
    row("own lines by `run_all`", 20_000, seconds_of(lambda: replica.run_all(["add w POINT (3 4)"] * 20_000)))


def begun_from_files(pair: Pair, folder: Path, program: str, replica: Replica, features: int) -> None:
    """A replica that comes late, from the log and from a file."""
    link = Link(pair.primary.dsn("ann"))
    here = len(replica.run("show w"))
    put(link, max(0, features - here), 1000)
    replica.follow()
    last = replica.at

    def replayed() -> None:
        Replica(folder / "late", pair.dsn("ben"), program=program).close()

    row("replayed from the beginning", last, seconds_of(replayed))
    at = owning.cut(pair.primary.dsn(), 0, 60).at
    seconds = seconds_of(replica.follow)
    [file] = (folder / "ann").glob(f"{at:020}-*.sfs")
    print(f"| a cut over {features:,} features | {seconds:.2f} s, in which questions wait; {file.stat().st_size:,} bytes |")
    owning.drop_before(pair.primary.dsn(), at, 1, "0", 60)
    put(link, 10_000, 1000)
    shutil.rmtree(folder / "late")

    def begun() -> None:
        Replica(folder / "late", pair.dsn("ben"), program=program, begin_from=file).close()

    print(f"| begun from that file, and 10,000 lines behind it | {seconds_of(begun):.2f} s |", flush=True)


def failed_over(program: str, kills: int, seed: int) -> None:
    """Kills of the primary under writes, with syncs, and what held."""
    dice = random.Random(seed)
    trial = Trial(program)
    times = []
    try:
        trial.write()
        for count in range(kills):
            trial.wait_for(dice.randrange(1, 200))
            if count % 4 == 3:
                trial.people[dice.randrange(3)].kill()
            times.append(trial.fail_over())
        claims = trial.claims()
    finally:
        trial.close()
    times.sort()
    print(
        f"| {kills} kills, the standby promoted and a new one copied at once | lines acknowledged again after "
        f"{times[kills // 2]:.1f} s (median), {times[-1]:.1f} s at most |"
    )
    for claim in claims:
        print(f"{'held' if claim.holds else 'NOT HELD'}: {claim.text}")


def main() -> None:
    program = os.path.abspath(sys.argv[1])
    features, kills, seed = (int(it) for it in [*sys.argv[2:], *("1000000", "20", "1")[len(sys.argv) - 2 :]])
    print("| | |\n|---|---|")
    with Pair() as pair, tempfile.TemporaryDirectory() as name:
        make_log(pair.primary.dsn())
        synced(Path(name))
        appended(pair)
        with Replica(Path(name) / "ann", pair.dsn("ann"), program=program) as replica:
            own_lines(replica)
            begun_from_files(pair, Path(name), program, replica, features)
    failed_over(program, kills, seed)


if __name__ == "__main__":
    main()
