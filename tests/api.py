#!/usr/bin/env python3
"""Writes docs/use/PYTHON.md: the Python module's public names, from its docstrings.

    tests/api.py            compares docs/use/PYTHON.md with what it has to be; status 1 where they differ
    tests/api.py --write    writes it

The sources are read, not imported, so that the page is the same whichever Python makes it.
"""

from __future__ import annotations

import ast
import inspect
import re
import sys
from pathlib import Path

from made_pages import settle

TOP = Path(__file__).resolve().parent.parent
MODULE = TOP / "python" / "sfstore"
PAGE = TOP / "docs" / "use" / "PYTHON.md"

# The packages, and the order in which their names are to be read; others follow by the alphabet.
PACKAGES = ["sfstore", "sfstore.tools", "sfstore.replica"]
FIRST = ["Store", "Editor", "Group", "Added", "Feature", "Layer", "Column", "Refused", "ProgramEnded", "JournalError", "Recovered", "Replica"]

HEAD = """\
# The Python module

`from sfstore import Store` for Python 3.9 and later. The page is made from the docstrings by `tests/api.py`; each example in it is run by a test. `python3 -m pydoc sfstore` shows the same.

A `Store` starts the program `sfstore`, which it finds on the PATH, and speaks to it. It needs POSIX and nothing beside the standard library; `sfstore.replica` needs psycopg2. What the commands mean is in [CONSOLE](CONSOLE.md), what refusals mean in [REFUSALS](REFUSALS.md). With geopandas and shapely: [GEOPANDAS](GEOPANDAS.md).

"""

Documented = (ast.ClassDef, ast.FunctionDef)


def sources(package: str) -> list[Path]:
    """The files of a package, without its sub-packages."""
    folder = MODULE.joinpath(*package.split(".")[1:])
    return sorted(folder.glob("*.py"))


def exported(package: str) -> list[str]:
    """The names of a package's `__all__`, in reading order."""
    tree = ast.parse(sources(package)[0].read_text(encoding="utf-8"))
    [names] = [ast.literal_eval(node.value) for node in tree.body if isinstance(node, ast.Assign)]
    return sorted(names, key=lambda name: (FIRST.index(name) if name in FIRST else len(FIRST), name))


def definitions(package: str) -> dict[str, tuple[ast.stmt, str]]:
    """The definitions of a package at the top of its files, with the text behind those that are names of types."""
    found: dict[str, tuple[ast.stmt, str]] = {}
    for path in sources(package):
        body = ast.parse(path.read_text(encoding="utf-8")).body
        for at, node in enumerate(body):
            if isinstance(node, (ast.ClassDef, ast.FunctionDef)):
                found[node.name] = (node, ast.get_docstring(node) or "")
            elif isinstance(node, ast.Assign) and isinstance(node.targets[0], ast.Name):
                found.setdefault(node.targets[0].id, (node, text_behind(body, at)))
    return found


def text_behind(body: list[ast.stmt], at: int) -> str:
    """The string that stands behind a statement, as its documentation."""
    behind = body[at + 1] if at + 1 < len(body) else None
    if isinstance(behind, ast.Expr) and isinstance(behind.value, ast.Constant) and isinstance(behind.value.value, str):
        return inspect.cleandoc(behind.value.value)
    return ""


def prose(text: str) -> str:
    """A docstring as text of a page: examples are blocks of code."""
    text = re.sub(r"``([^`]*)``", r"`\1`", text)
    parts = [[], []]  # type: list[list[str]]
    for block in text.split("\n\n"):
        parts[0 if not block.lstrip().startswith(">>>") else 1].append(block)
    said = "\n\n".join(re.sub(r"\s*\n\s*", " ", block) for block in parts[0])
    examples = "".join(f"\n\n```pycon\n{inspect.cleandoc(block)}\n```" for block in parts[1])
    return said + examples + "\n\n"


def heading(function: ast.FunctionDef, owner: str) -> str:
    """How a method is called."""
    names = [ast.unparse(decorator) for decorator in function.decorator_list]
    if "property" in names:
        return f"#### `{owner}.{function.name}`\n\n"
    arguments = ast.unparse(function.args).removeprefix("self").removeprefix(", ")
    gives = f" -> {ast.unparse(function.returns)}" if function.returns else ""
    return f"#### `{owner}.{function.name}({arguments}){gives}`\n\n"


def members(node: ast.ClassDef) -> str:
    """The public fields and methods of a class."""
    text = ""
    for at, part in enumerate(node.body):
        if isinstance(part, ast.AnnAssign) and isinstance(part.target, ast.Name):
            said = text_behind(node.body, at)
            text += f"- `{part.target.id}: {ast.unparse(part.annotation)}`{': ' + prose(said).strip() if said else ''}\n"
        elif isinstance(part, ast.FunctionDef) and not part.name.startswith("_"):
            decorators = [ast.unparse(decorator) for decorator in part.decorator_list]
            if "overload" not in decorators:
                text += ("\n" if text and not text.endswith("\n\n") else "") + heading(part, node.name)
                text += prose(ast.get_docstring(part) or "")
    return text + ("\n" if text and not text.endswith("\n\n") else "")


def entry(name: str, node: ast.stmt, text: str) -> str:
    """The part of the page on one name."""
    if isinstance(node, ast.ClassDef):
        bases = ", ".join(map(ast.unparse, node.bases))
        return f"### `class {name}{f'({bases})' if bases else ''}`\n\n{prose(text)}{members(node)}"
    if isinstance(node, ast.FunctionDef):
        gives = f" -> {ast.unparse(node.returns)}" if node.returns else ""
        return f"### `{name}({ast.unparse(node.args)}){gives}`\n\n{prose(text)}"
    assert isinstance(node, ast.Assign)
    return f"### `{name}`\n\n{prose(text)}`{name} = {ast.unparse(node.value)}`\n\n"


def page() -> str:
    """The text of docs/use/PYTHON.md."""
    text = HEAD
    for package in PACKAGES:
        found = definitions(package)
        text += f"## `{package}`\n\n"
        for name in exported(package):
            text += entry(name, *found[name])
    return text.rstrip("\n") + "\n"


if __name__ == "__main__":
    sys.exit(settle(sys.argv[1:], PAGE, page()))
