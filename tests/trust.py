#!/usr/bin/env python3
"""Follows what the headline's contracts cite, and writes docs/trust/TRUST.md.

    tests/trust.py            compares docs/trust/TRUST.md with what it has to be; status 1 where they differ
    tests/trust.py --write    writes it
    tests/trust.py --list     prints which files of specs/ the headline cites, and which it does not

A definition of `specs/` cites each name in it that its own file defines or that a `use` line of the file brings in.
"""

from __future__ import annotations

import re
import sys
import textwrap
from dataclasses import dataclass
from pathlib import Path
from typing import Iterable, Iterator

from made_pages import settle

TOP = Path(__file__).resolve().parent.parent
CRATES = TOP / "crates"
PAGE = TOP / "docs" / "trust" / "TRUST.md"

# The contracts that carry the headline: a file of code, and the functions in it; none: all of them.
HEADLINE: list[tuple[str, list[str]]] = [
    ("sf_run/src/files.rt", ["run_between"]),
    ("sf_run/src/running.rt", ["run", "run_from", "save"]),
    ("sf_console/src/laws.rt", []),
    ("sf_history/src/laws.rt", []),
    ("sf_ruled_store/src/laws.rt", []),
    ("sf_rules/src/laws.rt", ["breaks_are_over_the_plane", "rules_are_over_the_plane", "value_breaks_are_these"]),
    ("sf_commands/src/laws.rt", []),
    ("sf_command_laws/src/laws.rt", []),
    ("sf_steps/src/laws.rt", []),
    ("sf_format/src/laws.rt", []),
    ("sf_query/src/laws.rt", []),
    ("sf_relate/src/laws.rt", ["matrices_are_over_the_plane"]),
    ("sf_valid_rules/src/laws.rt", []),
    ("sf_measure/src/laws.rt", []),
    ("sf_near/src/laws.rt", []),
    ("sf_features/src/laws.rt", []),
    ("sf_reach/src/laws.rt", []),
    ("sf_keeping/src/keeping.rt", ["serve_kept"]),
    ("sf_keeping/src/replaying.rt", ["replay"]),
    ("sf_keeping/src/laws.rt", []),
    ("sf_session/src/session.rt", ["run_session"]),
    ("sf_session/src/laws.rt", []),
    ("sf_folder/src/saving.rt", ["save"]),
    ("sf_folder/src/journals.rt", ["renew"]),
    ("sf_folder/src/choosing.rt", ["choose"]),
    ("sf_folder/src/laws.rt", []),
    ("sf_journal/src/file_sums.rt", ["sum_of"]),
    ("sf_journal/src/laws.rt", []),
]

# The traits whose calls these contracts speak of, as they are declared.
TRAITS: list[tuple[str, str]] = [
    ("sf_run/src/files.rt", "RunFiles"),
    ("sf_console/src/outlet.rt", "Outlet"),
    ("sf_keeping/src/desk.rt", "Desk"),
    ("sf_session/src/home.rt", "Home"),
    ("sf_folder/src/folder.rt", "Folder"),
    ("sf_folder/src/beside.rt", "Source"),
]

# The page's sections, in reading order, and the crates whose definitions stand in each.
SUBJECTS: list[tuple[str, list[str]]] = [
    ("The plane", ["sf_grid", "sf_plane"]),
    ("Geometries", ["sf_geometry"]),
    ("Validity and simplicity", ["sf_valid_rules", "sf_validity", "sf_faults"]),
    ("Areas and lengths", ["sf_measure"]),
    ("Matrices and predicates", ["sf_known", "sf_relate", "sf_query", "sf_joins"]),
    ("Distances", ["sf_distance", "sf_nearness", "sf_near"]),
    ("Chains of features", ["sf_reach"]),
    (
        "Features, layers, edits and their inverses",
        ["sf_decimals", "sf_dates", "sf_refusals", "sf_features", "sf_layers", "sf_steps", "sf_edits"],
    ),
    ("Several edits as one step", ["sf_patches", "sf_groups"]),
    ("Rules between features, and the history", ["sf_rules", "sf_ruled_store", "sf_history"]),
    (
        "Texts, binary and files",
        ["sf_text_lines", "sf_streams", "sf_wkt", "sf_wkb", "sf_format", "sf_loading", "sf_saving"],
    ),
    ("The session", ["sf_words", "sf_values", "sf_commands", "sf_command_laws", "sf_console", "sf_run"]),
    ("The journal and the save", ["sf_journal", "sf_session", "sf_keeping", "sf_folder"]),
]

# How a file begins whose definitions compute what others mean, and one that no reader needs.
COMPUTES = "-- Computes"
INTERNAL = "-- Internal"

WORD = re.compile(r"[^\W\d_][\w'\-+]*|◌?[^\w\s◌(){}\[\],;]+◌?")
DECLARED = re.compile(r"(?:abbrev |unfoldable |pub |record |data )+([^\s:({]+)")
USE = re.compile(r"^ *(?:pub )?(?:ghost )?use Rattle\.([\w.]+)\.\{([^}]*)\}", re.MULTILINE)
FUNCTION = re.compile(r"(?:^ *///[^\n]*\n)*^ *pub fn (\w+).*?^ *\{", re.MULTILINE | re.DOTALL)
TRAIT = re.compile(r"(?:^///[^\n]*\n)*^pub trait (\w+).*?^\}", re.MULTILINE | re.DOTALL)
CODE_TYPE = re.compile(r"^pub (?:enum|struct) (\w+).*?^\}", re.MULTILINE | re.DOTALL)

# The files of specs/ that a crate passes on, by the crate and the file: the crate below that has it.
PASSED_ON = {
    (path.parts[-3], file): below
    for path in sorted(CRATES.glob("*/specs/Lib.antt"))
    for below, file in re.findall(r"^pub use Rattle\.(\w+)\.specs\.(\w+)$", path.read_text(encoding="utf-8"), re.MULTILINE)
}


@dataclass(frozen=True, order=True)
class Name:
    """A definition: the file that has it, as `sf_relate/specs/Matrices.antt`, and what it is called there."""

    file: str
    name: str


@dataclass(frozen=True)
class Source:
    """A file: its definitions by name, in their order, and what its `use` lines bring in."""

    definitions: dict[str, str]
    brought: dict[str, Name]


def brought_in(text: str) -> dict[str, Name]:
    """What the `use` lines of a file bring in, by the name that it has there."""
    found = {}
    for path, names in USE.findall(text):
        parts = path.split(".")
        if parts[0] == "std" or len(parts) < 3 or parts[1] != "specs":
            continue
        for each in re.split(r",\s*", names.strip()):
            name, _, other = each.partition(" as ")
            found[(other or name).strip()] = named(parts, name.strip())
    return found


def named(path: list[str], name: str) -> Name:
    """The definition of a path: one of specs/, or a type of the code, whose cases stand with it."""
    if path[2] == "declared":
        types = [part for part in path[3:] if part[0].isupper() and part != "TheVariants"]
        return Name(f"{path[0]}/src", types[0] if types else name)
    home = PASSED_ON.get((path[0], path[2]), path[0])
    return Name(f"{home}/specs/{'/'.join(path[2:])}.antt", name)


def definitions_of(text: str) -> dict[str, str]:
    """The definitions of a file of specs/, each with the comment before it."""
    found: dict[str, str] = {}
    comment: list[str] = []
    name = ""
    for line in text.split("\n"):
        declared = DECLARED.match(line)
        if line.startswith("--"):
            comment.append(line)
            name = ""
        elif declared and not line.startswith("pub mod") and not line.startswith("pub use"):
            name = declared[1]
            found[name] = "\n".join([*comment, line])
            comment = []
        elif not line.strip() or line.startswith(("use ", "pub use", "pub mod")):
            comment = []
            name = ""
        elif name:
            found[name] += "\n" + line
    return found


def specs() -> dict[str, Source]:
    """All files of specs/, by their names."""
    return {
        str(path.relative_to(CRATES)): Source(definitions_of(text), brought_in(text))
        for path in sorted(CRATES.glob("*/specs/*.antt"))
        if path.name != "Lib.antt"
        for text in [path.read_text(encoding="utf-8")]
    }


def code_types() -> dict[Name, str]:
    """The types of the code that definitions speak of, as they are declared."""
    found = {}
    for path in sorted(CRATES.glob("*/src/**/*.rt")):
        crate = path.relative_to(CRATES).parts[0]
        for item in CODE_TYPE.finditer(path.read_text(encoding="utf-8")):
            found[Name(f"{crate}/src", item[1])] = item[0]
    return found


def clauses(path: str, functions: list[str]) -> Iterator[tuple[str, str]]:
    """The functions of a file of code, each with its documentation and its contract."""
    text = (CRATES / path).read_text(encoding="utf-8")
    for item in FUNCTION.finditer(text):
        if not functions or item[1] in functions:
            yield item[1], item[0][:-1].rstrip()


def trait_text(path: str, trait: str) -> str:
    """A trait of a file of code, with its documentation."""
    text = (CRATES / path).read_text(encoding="utf-8")
    return next(item[0] for item in TRAIT.finditer(text) if item[1] == trait)


def words_of(text: str) -> set[str]:
    """The words of a definition, without its comments."""
    return set(WORD.findall(re.sub(r"(--|//).*", "", text)))


def cited(text: str, source: Source, file: str) -> Iterator[Name]:
    """What a text in a file cites."""
    for word in words_of(text):
        if word in source.brought:
            yield source.brought[word]
        elif word in source.definitions:
            yield Name(file, word)


def at_home(name: Name, files: dict[str, Source]) -> Name:
    """A definition that a file passes on, in the file that has it."""
    while name.file in files and name.name not in files[name.file].definitions and name.name in files[name.file].brought:
        name = files[name.file].brought[name.name]
    return name


def closure(files: dict[str, Source]) -> set[Name]:
    """All that the headline's contracts cite, and what that cites."""
    left: list[Name] = []
    for path, functions in HEADLINE:
        text = (CRATES / path).read_text(encoding="utf-8")
        source = Source({}, brought_in(text))
        for _, contract in clauses(path, functions):
            left += cited(contract, source, path)
    for path, trait in TRAITS:
        text = (CRATES / path).read_text(encoding="utf-8")
        left += cited(trait_text(path, trait), Source({}, brought_in(text)), path)
    found: set[Name] = set()
    while left:
        name = at_home(left.pop(), files)
        if name in found:
            continue
        found.add(name)
        home = files.get(name.file)
        if home is not None and name.name in home.definitions:
            left += cited(home.definitions[name.name], home, name.file)
    return found


def sources_of(crates: Iterable[str]) -> dict[str, list[str]]:
    """For each file of specs/ what it defines after a public standard, as docs/trust/DEFINITIONS.md says."""
    found: dict[str, list[str]] = {}
    crate = ""
    for line in (TOP / "docs" / "trust" / "DEFINITIONS.md").read_text(encoding="utf-8").split("\n"):
        heading = re.match(r"## .*`(\w+)/specs`", line)
        if heading:
            crate = heading[1]
        cells = [cell.strip() for cell in line.split("|")]
        if crate in crates and len(cells) == 6 and cells[3] not in ("own", "Source", "---"):
            for file in re.findall(r"\w+", cells[4]):
                found.setdefault(f"{crate}/specs/{file}.antt", []).append(f"{cells[1]}: {cells[3]}")
    return found


def cases_of(files: dict[str, Source], cited: set[Name]) -> set[Name]:
    """What is cited, each case of a type as the type that declares it."""
    whole = set()
    for name in cited:
        source = files.get(name.file)
        if source is None or name.name in source.definitions:
            whole.add(name)
            continue
        whole.update(
            Name(name.file, holder)
            for holder, text in source.definitions.items()
            if re.search(rf"^  {re.escape(name.name)} :", text, re.MULTILINE)
        )
    return whole


def is_computing(file: str) -> bool:
    """Whether the definitions of a file compute what others mean."""
    return (CRATES / file).read_text(encoding="utf-8").startswith(COMPUTES)


def block(language: str, texts: Iterable[str]) -> str:
    """A block of code."""
    return f"```{language}\n" + "\n\n".join(texts) + "\n```\n"


def file_part(file: str, source: Source, names: set[str], sources: dict[str, list[str]]) -> str:
    """The definitions of a file that are cited, in its order."""
    told = sources.get(file, [])
    standard = f"\nAfter the standard: {'; '.join(told)}.\n" if told else ""
    shown = [text for name, text in source.definitions.items() if name in names]
    return f"### `{file}`\n{standard}\n" + block("text", shown)


def statement() -> str:
    """The contracts of the headline, as they stand in the code."""
    parts = []
    for path, functions in HEADLINE:
        contracts = [textwrap.dedent(text) for _, text in clauses(path, functions)]
        parts.append(f"### `{path}`\n\n" + block("rust", contracts))
    for path, trait in TRAITS:
        parts.append(f"### The trait of `{path}`\n\n" + block("rust", [trait_text(path, trait)]))
    return "\n".join(parts)


def types_part(crate: str, cited: set[Name]) -> list[str]:
    """The types of a crate's code that are cited."""
    types = code_types()
    shown = [types[name] for name in sorted(cited) if name.file == f"{crate}/src" and name in types]
    return [f"### Types of `{crate}`\n\n" + block("rust", shown)] if shown else []


def subject(title: str, crates: list[str], files: dict[str, Source], cited: set[Name]) -> str:
    """A section: the types of the code, then the definitions, of these crates."""
    sources = sources_of(crates)
    parts = [f"## {title}\n"]
    for crate in crates:
        parts += types_part(crate, cited)
        for file, source in files.items():
            names = {name.name for name in cited if name.file == file}
            if file.startswith(crate + "/") and names and not is_computing(file):
                parts.append(file_part(file, source, names, sources))
    return "\n".join(parts)


def computing(files: dict[str, Source], cited: set[Name]) -> str:
    """The section of what computes."""
    parts = []
    for file, source in files.items():
        names = {name.name for name in cited if name.file == file}
        if names and is_computing(file):
            parts.append(file_part(file, source, names, {}))
    return "\n".join(parts)


def page() -> str:
    """The text of docs/trust/TRUST.md."""
    files = specs()
    cited = cases_of(files, closure(files))
    known = [name for name in cited if name.file in files]
    lines = sum(files[name.file].definitions[name.name].count("\n") + 1 for name in known)
    everything = sum(len(source.definitions) for source in files.values())
    sections = "\n".join(subject(title, crates, files, cited) for title, crates in SUBJECTS)
    return INTRODUCTION.format(count=len(known), lines=lines, all=everything) + f"""
## The statement

The contracts that carry it, as they stand in the code. `ensures` is what holds after each call; a law is the contract of a function that does nothing.

{statement()}
{sections}
## What computes

These definitions compute what those above mean. Nobody has to find the standard in them: the laws above say that what they compute is that.

{computing(files, cited)}"""


INTRODUCTION = """# What has to be read to trust the program

`tests/trust.py --write` makes this page from the contracts and from `specs/`; a test fails where it is out of date.

> For every list of edits that the store accepts, followed by the inverses that it gave, last first, the store is again what it was, in every layer, counter, column and attribute; a refused edit changes nothing; every stored geometry is valid; and every spatial query lists, by identifier, exactly the features whose interiors, boundaries and exteriors meet the query's as its DE-9IM pattern says. 
>
> What was answered by a run with `--store` is kept, whatever ends the program.

The prover checks that the program does what its contracts say. That the contracts say the sentences above is for a person to check, and this page has all that this takes: the contracts that carry them, and each definition that they cite, {count} of {all}, in {lines} lines. Definitions of `specs/` that are not here belong to the proofs, or to promises beside these. Of the second sentence, contracts have the calls; that the program makes them in their order, and that the system does what they ask, is not proved ([PROVED.md](PROVED.md)).

Read a definition as in a book of mathematics: `abbrev pub name : type` or `unfoldable pub name : type`, then what the name stands for, by cases. `A → B` is a function, or *if A then B*; `A × B` is *A and B*; `(x : A) → B` is *for every x*; `(x : A) × B` is *there is an x*; `a ≡ b` is *a is b*; `λ x. e` is the function from x to e. A `record` is all of its fields together. ℕ are the natural numbers, ℤ the whole numbers; `x ∷ xs` is a list with its first member.
"""


def listed(files: dict[str, Source], cited: set[Name]) -> str:
    """Which files of specs/ are cited, and which are not."""
    used = {name.file for name in cited}
    return "\n".join(f"{'cited' if file in used else 'not cited'} {file}" for file in files)


def main(words: list[str]) -> int:
    """Writes the page, compares it, or lists files."""
    if words == ["--list"]:
        files = specs()
        print(listed(files, closure(files)))
        return 0
    return settle(words, PAGE, page())


if __name__ == "__main__":
    sys.exit(main(sys.argv[1:]))
