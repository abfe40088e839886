"""The refusals of the program in words, with what to do."""

from __future__ import annotations

from typing import NamedTuple

from sfstore.language import GRID_MAX, GRID_MIN, LINE_MAX, POINTS_MAX, TEXT_MAX

__all__ = ["REFUSALS", "Words", "bad_field", "words_of"]


class Words(NamedTuple):
    """What a refusal says, and what helps."""

    reason: str
    help: str


REFUSALS = {
    1: Words("memory ran out", "Save, leave, and begin again; ask for less at a time."),
    2: Words(
        "the geometry is not written as it has to be",
        "Look at brackets and commas, as in POLYGON ((0 0, 10 0, 10 10, 0 0)).",
    ),
    3: Words(
        "a coordinate is not a whole number",
        "Coordinates are counted in steps of the grid: 12, not 12.5.",
    ),
    4: Words("a coordinate is too large", f"Coordinates go from {GRID_MIN} to {GRID_MAX}."),
    5: Words("the geometry is empty", "A geometry has at least one point; else leave the feature out."),
    6: Words(
        "the geometry is of a kind that the store has not",
        "Kinds are POINT, LINESTRING, POLYGON and their MULTI forms, with x and y alone.",
    ),
    7: Words("the binary ends too early", "Look whether all of it was copied."),
    8: Words("something stands behind the binary's geometry", "Give one geometry at a time."),
    9: Words("the geometry has too many points", f"It has at most {POINTS_MAX:,}: split it."),
    10: Words("a line has fewer than two points", "Repeated points count once: add another one."),
    11: Words("a ring is not closed", "Write its first point again as its last one."),
    12: Words("a ring has too few points", "It has at least three, and its first one again."),
    13: Words("a ring meets itself", "Move or remove a vertex so that edges do not cross."),
    14: Words("two rings run along each other", "They may touch in points: move one of them."),
    15: Words("a hole reaches out of its shell", "Make it smaller, or the shell larger."),
    16: Words("two holes overlap", "Make one hole of them."),
    17: Words("two polygons overlap", "Make one polygon of them, or move one."),
    18: Words("no layer has that name", "`layers` lists them; small and capital letters differ."),
    19: Words("a layer has that name already", "Take another one; `layers` lists them."),
    20: Words(
        "that is no name",
        "A name has 1 to 32 letters, digits or underscores, and begins with a letter.",
    ),
    21: Words("the layer has no feature of that number", "`show LAYER` lists them."),
    22: Words("the layer has no column of that name", "`columns LAYER` lists them."),
    23: Words("a column of the layer has that name already", "`columns LAYER` lists them."),
    24: Words(
        "the value is none that the column takes",
        f"An int takes digits, a decimal a point too; a text takes 'quotes', and at most {TEXT_MAX:,} bytes; a bool takes true "
        "or false, a date 2024-02-29, a datetime 2024-02-29T12:30:00Z. `columns LAYER` lists the types.",
    ),
    25: Words(
        "the geometry has no such vertex",
        "Parts, rings and vertices count from 0; a ring's last point is its first. "
        "`show LAYER` lists them.",
    ),
    26: Words("the layer takes no geometry of that kind", "`layers` says which it takes."),
    27: Words("all identifiers of the layer, or all layers, are used up", "Begin another layer."),
    28: Words("all column numbers of the layer are used up", "Begin another layer."),
    29: Words("there is nothing to undo", "A save and a loading begin a new history."),
    30: Words("there is nothing to redo", "An edit after an undo leaves nothing to redo."),
    31: Words(
        "that is no command",
        "`help` lists them, and `help COMMAND` has an example. What stands as a value may spell none, as .5 or 2025-02-29.",
    ),
    32: Words("that is no pattern", "It has nine letters of T F * 0 1 2."),
    33: Words("the line is too long", f"It has at most {LINE_MAX:,} bytes."),
    35: Words("there is no such place among the layers", "Places count from 0."),
    36: Words("the step is another editor's", "Who made it can undo it."),
    37: Words("a rule would be broken", "`rules` lists them. Change all features of a matter together, as one group."),
    38: Words("the input ended inside a group", "Send all of its lines at once."),
    39: Words("no rule has this name", "`rules` lists them."),
    40: Words("a rule has this name already", "Take another name."),
    41: Words("a rule names this layer", "Drop the rule first: `rules` lists them."),
    42: Words("a rule names this column", "Drop the rule first: `rules` lists them."),
}
"""The words of each refusal, by its number."""

BAD_FIELDS = {
    **{number: words.reason for number, words in REFUSALS.items()},
    7: "the file ends there, inside of the field",
    8: "something follows behind the end",
    9: "the length is too great",
    22: "there is no such column, or not in that order",
    24: "the type or text is none",
    26: "the kind is none, or not the layer's",
    27: "the number can't stand there",
    28: "the number can't stand there",
    34: "the file is none of a store, or of a version that is not known",
}
"""What is wrong with a field of a file, by the number that the program gives."""

_RULE_FIELDS = {
    ("form of a rule", 34): "rules of that form are not known: a later version may have written the file",
    ("distance of a rule", 34): "the distance is too great",
    ("ends of a rule", 34): "the ends of the range are none",
    ("ends of a rule", 24): "the first end is behind the last",
    ("number of values of a rule", 24): "a rule names 1 to 1,000 values",
    ("type of a value of a rule", 24): "the type is none, or the column of the rule can't have the value",
    ("column of a rule", 22): "the layer has no such column",
    ("layer of a rule", 18): "no layer of the file has that name",
    ("name of a rule", 40): "an earlier rule has that name",
    ("what a rule asks", 32): "that is no predicate and no pattern",
    ("rule", 37): "it does not hold for the features of the file",
}


def bad_field(name: str, number: int) -> str:
    """What is wrong with a field of a file, by its name and the number that the program gives."""
    known = _RULE_FIELDS.get((name, number))
    return BAD_FIELDS.get(number, "it is wrong") if known is None else known


def words_of(number: int) -> Words:
    """The words of a refusal, of one without any too."""
    return REFUSALS.get(number, Words("it was refused", "docs/use/REFUSALS.md has the reasons."))
