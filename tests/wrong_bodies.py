#!/usr/bin/env python3
"""Writes docs/trust/WRONG_BODIES.md: which clause each wrong body of `must-fail/` stands for.

    tests/wrong_bodies.py            compares docs/trust/WRONG_BODIES.md with what it has to be; status 1 where they differ
    tests/wrong_bodies.py --write    writes it

A wrong body stands for the contract of the function that it changes; where that has none, for those of the trait that
it implements, or for the contracts of the functions that call it.
"""

from __future__ import annotations

import re
import sys
from dataclasses import dataclass
from pathlib import Path

from made_pages import settle

TOP = Path(__file__).resolve().parent.parent
sys.path.insert(0, str(TOP / "bench"))

import turns  # noqa: E402

CRATES = TOP / "crates"
PAGE = TOP / "docs" / "trust" / "WRONG_BODIES.md"

FUNCTION = re.compile(r"^( *)(?:pub(?:\(crate\))? )?(?:const )?fn (\w+)", re.MULTILINE)
CONSTANT = re.compile(r"^ *(?:pub(?:\(crate\))? )?const (\w+)", re.MULTILINE)
HOLDER = re.compile(r"^(?:pub )?(?:impl|trait)\b[^\n{]*", re.MULTILINE)


@dataclass(frozen=True)
class WrongBody:
    """A wrong body: its crate, its name, and the function and the clauses that it stands for."""

    crate: str
    name: str
    function: str
    clauses: list[str]


def fields_of(edit: Path) -> tuple[str, str]:
    """The file that an edit changes, and the first text that it replaces."""
    lines = edit.read_text(encoding="utf-8").splitlines()
    file = next(line for line in lines if line.startswith("file: "))[6:]
    old = next(line for line in lines if line.startswith("old: "))[5:]
    return file, old


def holder_of(text: str, place: int) -> str:
    """The head of the `impl` or `trait` that a place is in, or nothing."""
    heads = [found for found in HOLDER.finditer(text) if found.start() < place]
    if not heads or "\n}\n" in text[heads[-1].start() : place]:
        return ""
    return heads[-1][0].strip()


def contract_of(text: str, start: int) -> list[str]:
    """The `ensures` clauses of the function that begins at a place, each on one line."""
    head = re.split(r"^ *\{", text[start:], maxsplit=1, flags=re.MULTILINE)[0]
    found = re.findall(r"ensures\*? ?(\w* ?\{.*?\})(?=\s*(?:requires|ensures|ghost|//|decreases|$))", head, re.DOTALL)
    return [" ".join(clause.split()) for clause in found]


def wrong_body(edit: Path) -> WrongBody:
    """What an edit stands for."""
    crate = edit.parent.parent
    file, old = fields_of(edit)
    text = crate.joinpath(file).read_text(encoding="utf-8")
    place = text.index(old) + len(old)
    constant = CONSTANT.findall(text[: text.index(old)] + old)
    functions = [found for found in FUNCTION.finditer(text) if found.start() < place]
    if not functions:
        return WrongBody(crate.name, edit.stem, constant[-1], ["those of the functions that use it"])
    function = functions[-1]
    clauses = [f"`{clause}`" for clause in contract_of(text, function.start())]
    holder = holder_of(text, function.start())
    if not clauses and " for " in holder:
        clauses = [f"those of `{holder}`"]
    return WrongBody(crate.name, edit.stem, function[2], clauses or ["those of the functions that call it"])


def row(body: WrongBody) -> str:
    """A row of the table."""
    clauses = "<br>".join(clause.replace("|", "\\|") for clause in body.clauses)
    return f"| {body.name.replace('_', ' ')} | `{body.function}` | {clauses} |"


def page() -> str:
    """The text of the page."""
    parts = [INTRODUCTION]
    lines = (TOP / "crates.txt").read_text(encoding="utf-8").splitlines()
    for crate in [line.partition(":")[0] for line in lines if line and not line.startswith("#")]:
        bodies = [wrong_body(edit) for edit in sorted((CRATES / crate / "must-fail").glob("*.edit"))]
        if bodies:
            rows = "\n".join(row(body) for body in bodies)
            parts.append(f"## `{crate}`\n\n| Wrong body | Function | Clauses that refuse it |\n|---|---|---|\n{rows}\n")
    return "\n".join(parts)


INTRODUCTION = f"""# Wrong bodies

A wrong body is a change of code that the prover has to refuse. It shows that a contract says what it is there to say. A test, or the gate itself, fails where one is proved.

- Those of `must-fail/`, on this page, are tried by each run of the gate. They are few, of crates where that is cheap, and each promise of the headline has some. A crate has at most four.
- Those of `bench/plants` are tried behind the gate, over the libraries that it has just proved: at most {turns.CHANGED} of the crates that differ from the commit's first parent, and {turns.OTHERS} of the others. The commit chooses which, so other commits try others (`bench/turns.py`). What is tried stays as much, however many there are.
- `bench/kept.py` tries all of a crate, and `rt plant` further ones where a crate is worked on.

`tests/wrong_bodies.py --write` makes this page, and a test fails where it is out of date. Beside each wrong body stands the function that it changes, with the clauses of that function's contract.
"""


def main(words: list[str]) -> int:
    """Writes the page, or compares it."""
    return settle(words, PAGE, page())


if __name__ == "__main__":
    sys.exit(main(sys.argv[1:]))
