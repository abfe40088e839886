"""From a checkout to a map on the screen: what `./start` does, once Python is there."""

from __future__ import annotations

import argparse
import os
import shutil
import subprocess
import sys
from collections.abc import Mapping, Sequence
from pathlib import Path

import building
import programs

TOP = programs.TOP
sys.path.insert(0, str(TOP / "python"))

from sfstore.web.opening import has_screen  # noqa: E402

TOWN = TOP / "out" / "town.sfs"
NO_TOOLCHAIN = (
    "The toolchain's command `rt` is not there, and without it no program can be made. It is rattle-kit-13f, "
    "which its makers give: ask the owner of this project for it."
)
# Packages of Debian by the module that shows whether they are there.
COMFORT = {"prompt_toolkit": "python3-prompt-toolkit", "rich": "python3-rich"}
MAPS = {"osgeo": "python3-gdal"}
PAGE = {"h11": "python3-h11"}


class Missing(Exception):
    """What keeps a map from being opened."""


def said(made: programs.Made) -> str:
    """What the programs are, for whoever starts them."""
    if made.proved:
        return f"These are the proved programs of commit {made.commit}."
    return "NOT PROVED: these programs are for trying. ./test proves everything, and leaves the proved ones in out/programs."


def has(python: str, module: str) -> bool:
    """Whether an interpreter has a module."""
    return subprocess.run([python, "-c", f"import {module}"], env=environment(), capture_output=True, check=False).returncode == 0


def installs() -> bool:
    """Whether packages of Debian can be installed."""
    return os.geteuid() == 0 and shutil.which("apt-get") is not None


def install(packages: Sequence[str]) -> None:
    """Installs packages of Debian, as well as it goes."""
    print(f"Installing {' '.join(packages)}.", flush=True)
    for words in (["update"], ["install", "-y", "--no-install-recommends", *packages]):
        subprocess.run(["apt-get", *words], stdin=subprocess.DEVNULL, stdout=subprocess.DEVNULL, check=False)


def python_with(modules: Mapping[str, str], needed: bool) -> str:
    """An interpreter that has some modules; their packages are installed where they are missing."""
    candidates = [sys.executable, "/usr/bin/python3"]
    for turn in (1, 2):
        for python in candidates:
            if all(has(python, module) for module in modules):
                return python
        if turn == 1 and installs():
            install(list(modules.values()))
    if needed:
        raise Missing(f"sudo apt install {' '.join(modules.values())}")
    return sys.executable


def environment() -> dict[str, str]:
    """The environment of the commands: programs and module are those of the checkout, and none of the folder of a map."""
    path = os.pathsep.join([str(programs.PLACE), os.environ.get("PATH", "")])
    return {**os.environ, "PATH": path, "PYTHONPATH": str(TOP / "python"), "PYTHONSAFEPATH": "1"}


def town() -> Path:
    """The file of the example town, as it was left; made from its lines at first."""
    if not TOWN.exists():
        with (TOP / "examples" / "town.txt").open("rb") as lines:
            words: list[str | Path] = [programs.PLACE / "sfstore", "--save", TOWN]
            subprocess.run(words, stdin=lines, stdout=subprocess.DEVNULL, check=True)
    return TOWN


def imported(source: Path) -> Path:
    """The store of a map of another format, beside it: as it was left, or imported on the grid that the import proposes.

    Its name has all of the map's: `map.gpkg` and `map.geojson` are two maps.
    """
    store = source.with_name(f"{source.name}.sfs")
    if store.exists():
        print(f"{store} is opened as it was left.")
        return store
    other = source.with_suffix(".sfs")
    if other.exists():
        print(f"{other} is left aside, as it may be of another map: ./start {other} opens it.")
    python = python_with(MAPS, needed=True)
    command = [python, "-m", "sfstore.exchange.importing"]
    asked = subprocess.run([*command, "--suggest", source], env=environment(), stdout=subprocess.PIPE, text=True, check=False)
    grid = asked.stdout.partition("\n")[0].split()
    if asked.returncode != 0 or grid[:1] != ["--grid"]:
        raise Missing(f"{source} can't be imported as it is: docs/use/EXCHANGE.md says what to do")
    ended = subprocess.run([*command, source, store, *grid, "--round"], env=environment(), check=False)
    if not store.exists():
        raise Missing(f"{source} was not imported (status {ended.returncode})")
    print(f"{source} was imported into {store}, on the grid {' '.join(grid[1:])}.")
    return store


def opened(file: Path | None) -> Path:
    """The store that is to be opened."""
    if file is None:
        return town()
    if not file.exists():
        raise Missing(f"there is no {file}")
    return file if file.suffix == ".sfs" else imported(file)


def main() -> int:
    """Opens the map. It comes back where that can't be done."""
    parser = argparse.ArgumentParser(prog="start", description="opens a map, from a checkout")
    parser.add_argument("file", nargs="?", type=Path, help="a store, or a map that is imported first; none for the example town")
    parser.add_argument("--console", action="store_true", help="at the console, and not in the browser")
    asked = parser.parse_args()
    try:
        if shutil.which("rt") is None and programs.read() is None:
            raise Missing(NO_TOOLCHAIN)
        made = building.ensured()
        print(said(made), flush=True)
        store = opened(asked.file)
    except (Missing, OSError, RuntimeError, subprocess.CalledProcessError) as fault:
        print(f"start: {fault}", file=sys.stderr)
        return 2
    at_console = asked.console or not has_screen()
    python = python_with(COMFORT if at_console else PAGE, needed=False)
    module = "sfstore.console" if at_console else "sfstore.web.command"
    print(f"{'The console' if at_console else 'The page'} of {store}:", flush=True)
    os.execve(python, [python, "-m", module, str(store)], environment())


if __name__ == "__main__":
    sys.exit(main())
