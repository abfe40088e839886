"""The commands of the console in words: for help, and for the completion of a line."""

from __future__ import annotations

import difflib
from collections.abc import Callable, Sequence

from sfstore.language import COLUMN_TYPES, COMMANDS, KINDS, MEMBERS, PREDICATES, Command, words_of_line

__all__ = ["COMMANDS", "OWN", "TOOLS", "Command", "candidates", "help_text", "near_words"]


OWN = [
    Command("help COMMAND", "lists the commands, or shows one with an example", "help add"),
    Command("save", "saves the store; the history begins anew", "save"),
    Command(
        "split LAYER ID WKT",
        "parts a polygon by a LINESTRING; new corners go into the neighbours too",
        "split parcels 1 LINESTRING (5 -1, 5 11)",
    ),
    Command("merge LAYER ID ID", "makes one area of two or more; the first keeps its number and values", "merge parcels 1 2"),
    Command("node X Y to X Y", "moves a corner in all features that have it, as one step", "node 10 10 to 11 12"),
    Command(
        "border LAYER ID ID WKT",
        "gives two areas another border between them, for both; new corners go into the neighbours too",
        "border parcels 1 2 LINESTRING (10 0, 12 5, 10 10)",
    ),
    Command("hole LAYER ID WKT", "cuts a POLYGON out of an area", "hole parcels 1 POLYGON ((3 3, 6 3, 6 6, 3 3))"),
    Command("fill LAYER ID X Y", "fills the hole of an area at a place, or without one all of its holes", "fill parcels 1 5 4"),
    Command(
        "snap LAYER within D",
        "makes nodes and edges of one or more layers one that are so near; shows them first, and asks",
        "snap parcels streets within 2",
    ),
    Command(
        "clean LAYER within D",
        "takes away overlaps and gaps of a coverage that are so narrow; shows them first, and asks",
        "clean parcels within 2",
    ),
    Command(
        "preview COMMAND",
        "shows what split, merge, node, border, hole, fill, snap or clean would do, and does nothing",
        "preview merge parcels 1 2",
    ),
    Command("picture FILE", "draws the store as SVG, and opens it in a browser", "picture town.svg"),
    Command(
        "import SOURCE",
        "brings a map into this store, if it has no layers, or into its layers by --add; options as of sfstore-import",
        "import town.gpkg --grid 500000 5600000 0.01",
    ),
    Command(
        "export TARGET",
        "gives the store back as a map; options as of sfstore-export",
        "export town.gpkg --overwrite",
    ),
    Command("quit", "leaves; asks first where something is not saved", "quit"),
]
"""The commands of the console for people alone."""

TOOLS = ("split", "merge", "node", "border", "hole", "fill", "snap", "clean", "preview")
"""Those of them that draw."""

_WORDS = {
    "KIND": KINDS,
    "TYPE": COLUMN_TYPES,
    "PREDICATE": PREDICATES,
    "ASK": PREDICATES,
    "WKT": [f"{kind.upper()} (" for kind in KINDS[1:]],
}


def help_text(word: str, own: Sequence[Command] = OWN) -> str:
    """The commands that begin with a word, with examples; all of them for an empty word.

    ``own`` are those that stand beside the program's.
    """
    commands = [*COMMANDS, *own]
    found = [command for command in commands if command.word == word]
    if found:
        lines = [f"{usage}\n    {meaning}\n    example: {example}" for usage, meaning, example, _ in found]
    elif word:
        return f"There is no command {word}; `help` lists them."
    else:
        width = max(len(command.usage) for command in commands)
        lines = [f"{usage:{width}}  {meaning}" for usage, meaning, *_ in commands]
    return "\n".join(lines)


def near_words(line: str, own: Sequence[Command] = OWN, in_group: bool = False) -> str:
    """What may have been meant, where the first word is no command, or how it is used; so too of a member of a group."""
    words = words_of_line(line)
    word = next(iter(words), "")
    known = [command.word for command in [*COMMANDS, *own]]
    if in_group and (word not in MEMBERS or line.lstrip(" \t").startswith("@")):
        near = [] if word in known else difflib.get_close_matches(word, MEMBERS, 1)
        return f"Is `{near[0]}` meant?" if near else "A group has edits of features alone, and its editor stands before `together`."
    if in_group and "last" in words:
        return "`last` names what the group has added to that layer: an `add` to it has to come before."
    if word in known:
        return "It is used so:\n" + help_text(word, own)
    near = difflib.get_close_matches(word, known, 1)
    return f"Is `{near[0]}` meant?" if near else ""


def candidates(
    line: str, layers: Callable[[], list[str]], columns: Callable[[str], list[str]], in_group: bool = False
) -> list[str]:
    """The words that can stand at the end of a line, in place of its last word.

    The last word is empty behind a blank. ``layers`` and ``columns`` are asked where they are
    needed, the columns by the name of their layer. In a group the line is one of its members.
    """
    *before, last = line.split(" ")
    if before and before[0].startswith("@"):
        before = before[1:]
    found: dict[str, None] = {}
    for command in [each for each in COMMANDS if not in_group or each.word in MEMBERS] + (OWN[:1] if in_group else OWN):
        usage = command.usage.split(" ")
        if len(before) < len(usage) and all(map(_fits, usage, before)):
            wanted = usage[len(before)]
            if wanted == "LAYER":
                words = layers()
            elif wanted == "COLUMN":
                words = columns(before[usage.index("LAYER")])
            elif wanted == "COMMAND":
                words = [other.word for other in COMMANDS + OWN]
            elif wanted == "ID" and in_group:
                words = ["last"]
            else:
                words = _WORDS.get(wanted, [] if wanted.isupper() else [wanted])
            found.update(dict.fromkeys(word for word in words if word.startswith(last)))
    return list(found)


def _fits(wanted: str, word: str) -> bool:
    """Whether a word can stand where a usage wants one."""
    if wanted in ("ASK", "PREDICATE"):
        # A distance stands behind it, as usages of their own have it.
        return word != "near"
    return wanted.isupper() or wanted == word
