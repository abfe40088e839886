"""Why something was not done, in a surveyor's words: first what helps, then what is the matter and where.

    Move or remove a corner: the border meets itself at (500526.09 5600063.81).

The number and the name that the program gives a refusal stand at the end, for whoever looks them up.
"""

from __future__ import annotations

import math
import re
from collections.abc import Mapping, Sequence
from fractions import Fraction
from typing import Any, NamedTuple

from sfstore.commandline import reason_of
from sfstore.exchange.grid import Grid
from sfstore.language import POINTS_MAX, TEXT_MAX
from sfstore.web.client import CallFailed, ServerGone

from .fields import FieldsDiffer
from .session import Refusal

__all__ = ["SAID", "Said", "points_of", "words_of"]

# Where somebody else was there before.
_CONFLICT = 409
_LOOK_AGAIN = re.compile(r"(.*): look again\.", re.DOTALL)
# What the server says that could not be started, as another program has the store.
_COMMAND, _IS_OPEN = "sfstore-web: ", "is open in another session"
# A place has so many digits more than the step of the grid.
_DIGITS_MORE = 1
# So many letters of a line are shown.
_LINE_LETTERS = 100


class Said(NamedTuple):
    """What is said of a refusal."""

    remedy: str
    matter: str
    places: Mapping[int, str] = {}
    """The matter where so many points of it are known, with ``{0}``, ``{1}`` in their places."""


_DRAW = Said("Draw it anew", "its geometry can't be read")

SAID = {
    1: Said("Send less at a time", "memory ran out"),
    2: _DRAW,
    3: Said("Draw it on the grid", "it has a coordinate between two steps"),
    4: Said("Draw it nearer to the map", "it reaches farther than the grid does"),
    5: Said("Draw it anew", "nothing is left of its geometry"),
    6: Said("Draw it with straight sides, in x and y alone", "the store takes no other geometry"),
    7: _DRAW,
    8: _DRAW,
    9: Said("Split it, or simplify it", f"it has more than {POINTS_MAX:,} points"),
    10: Said("Give the line a second point", "it has one alone", {1: "it has one alone, at {0}"}),
    11: Said("Close the border", "it ends elsewhere than it begins", {2: "it begins at {0} and ends at {1}"}),
    12: Said("Give the border three corners at least", "it has fewer", {1: "the one that begins at {0} has fewer"}),
    13: Said(
        "Move or remove a corner",
        "the border meets itself",
        {1: "the border meets itself at {0}", 2: "the border runs along itself from {0} to {1}"},
    ),
    14: Said(
        "Move one of the two borders",
        "they run along each other, and may touch in points alone",
        {1: "they meet at {0}", 2: "they run along each other from {0} to {1}, and may touch in points alone"},
    ),
    15: Said(
        "Draw the hole inside, or the border around it wider",
        "the hole reaches out",
        {2: "the hole reaches out between {0} and {1}"},
    ),
    16: Said("Make one hole of the two", "they overlap", {2: "those that begin at {0} and {1} overlap"}),
    17: Said("Make one part of the two, or move one", "they overlap", {2: "those that begin at {0} and {1} overlap"}),
    18: Said("Open the store again", "it has no such layer any more"),
    19: Said("Take another name", "a layer has this one"),
    20: Said("Take a name of 1 to 32 letters from A to Z, digits and underscores, a letter first", "the store has no others"),
    21: Said("Look again", "the feature is not there any more"),
    22: Said("Look again", "the field is not there any more"),
    23: Said("Take another name", "a field of the layer has this one"),
    24: Said("Type another value", f"the field takes none of this kind; a text has {TEXT_MAX:,} bytes at most"),
    25: Said("Look again", "the corner is not there any more"),
    26: Said("Draw it in a layer of its kind, or take its parts apart", "this layer takes no geometry of this kind"),
    27: Said("Begin another layer", "all numbers of this one are used up"),
    28: Said("Begin another layer", "this one has had as many fields as it can have"),
    29: Said("Draw on", "nothing can be undone: nothing was done since the store was saved"),
    30: Said("Draw on", "nothing can be redone: nothing was undone, or something was done since"),
    31: Said("Take another name or value", "the store can't have this one"),
    32: Said("Ask for it on the page", "it is no question that the store knows"),
    33: Said("Split it, or simplify it", "it is too long to be sent"),
    34: Said("Take another file, or your copy", "this one holds no store"),
    35: Said("Open the store again", "it has other layers now"),
    36: Said("Ask who made it", "the step is somebody else's"),
    37: Said("Change all that belongs together, and save it in one go", "a rule would be broken"),
    38: Said("Send it again", "a part of it did not come"),
    39: Said("Look again", "the rule is not there any more"),
    40: Said("Take another name", "a rule has this one"),
    41: Said("Drop the rule first, on the page or at the console", "it names this layer"),
    42: Said("Drop the rule first, on the page or at the console", "it names this field"),
}
"""What is said of each refusal, by its number."""

_OTHER = Said("Look it up in REFUSALS", "the store has refused it")
# What helps where a rule would be broken, by its form.
_TOPOLOGY = "Switch on Topological Editing, so that a border moves for both neighbours"
_AVOID = "Switch on Avoid Overlap on Active Layer, or draw it beside the others"
_ELSEWHERE = "Draw one of them elsewhere"
_REMEDIES = {
    "each": "Draw it elsewhere, or first what it needs",
    "unique": "Give one of them another value",
    "required": "Type a value before you save",
    "one-of": "Choose one of the values that are allowed",
    "range": "Type a value within the range",
}


def words_of(error: Exception, grid: Grid | None = None, front: str = "") -> str:
    """Why something was not done. Places are those of the map, by the grid of its store; ``front`` says what it is about."""
    if not isinstance(error, Refusal):
        again = _LOOK_AGAIN.fullmatch(str(error)) if isinstance(error, CallFailed) and error.status == _CONFLICT else None
        reason = f"Look again: {again[1]}." if again else _reason(error)
        words = reason if reason.endswith((".", "?", "!")) else f"{reason}."
        return f"{words} ({front})" if front else words
    told = error.told
    words, rule = _broken(told["broken"]) if told.get("broken") else (_plain(told, grid), "")
    ending = ", ".join(filter(None, [front, rule, f"{told['number']} {told['name']}"]))
    return f"{words}. ({ending})"


def points_of(error: Exception, grid: Grid) -> list[tuple[float, float]]:
    """The points at which a refused geometry is wrong, in the units of the map."""
    return [(float(x), float(y)) for x, y in _places(error.told, grid)] if isinstance(error, Refusal) else []


def _reason(error: Exception) -> str:
    """Why something that is no refusal was not done."""
    reason = reason_of(error).removeprefix(_COMMAND)
    if isinstance(error, FieldsDiffer):
        return f"Look again: {reason}"
    if isinstance(error, ServerGone) and error.__cause__ is not None:
        # It was asked, or nobody listens. The plugin tries it again.
        return f"Wait a moment: {reason}"
    return f"End the other program first, such as the console: {reason}" if _IS_OPEN in reason else reason


def _plain(told: Mapping[str, Any], grid: Grid | None) -> str:
    """What helps, and what is the matter."""
    if told.get("whose"):
        step = told["whose"]
        line = step["line"] if len(step["line"]) <= _LINE_LETTERS else f"{step['line'][:_LINE_LETTERS]} .."
        return f"Ask {step['editor']}: the step is theirs, {line}"
    said = SAID.get(told["number"], _OTHER)
    places = [_written(place, grid) for place in _places(told, grid)] if grid is not None else []
    matter = said.places.get(len(places), said.matter)
    return f"{said.remedy}: {matter.format(*places)}"


def _broken(broken: Mapping[str, Any]) -> tuple[str, str]:
    """What helps where a rule would be broken, with what would be, and which rule it is."""
    name, form, *_ = broken["rule"].split(" ")
    features: Sequence[Mapping[str, Any]] = broken["features"]
    layers = {each["layer"] for each in features}
    sentence: str = broken["sentence"]
    if len(layers) == 1 and len(features) > 1:
        # Parcels 4 and 7, not parcels 4 and parcels 7.
        [layer] = layers
        first, *others = (f"{layer} {each['id']}" for each in features)
        for other in others:
            sentence = sentence.replace(f"{first} and {other}", f"{first} and {other.removeprefix(layer).strip()}")
    remedy = _REMEDIES.get(form, "")
    new = [f"; {each['layer']} {each['id']} is the new one" for each in features if "members" not in each]
    if not remedy and len(layers) == 1 and sentence.endswith("overlap"):
        remedy = _AVOID if new else _TOPOLOGY
    return f"{remedy or _ELSEWHERE}: {sentence}{''.join(new)}", f"rule {name}"


def _places(told: Mapping[str, Any], grid: Grid | None) -> list[tuple[Fraction, Fraction]]:
    """The points at which a refused geometry is wrong, in the units of the map."""
    found = told.get("place")
    if not found or grid is None:
        return []
    return [grid.exact(Fraction(x), Fraction(y)) for x, y in found["points"]]


def _written(place: tuple[Fraction, Fraction], grid: Grid | None) -> str:
    """A point of the map, to a part of a step."""
    step = grid.fractions[2] / grid.fractions[3] if grid is not None else 1.0
    digits = max(0, math.ceil(-math.log10(step))) + _DIGITS_MORE
    x, y = (f"{float(each):.{digits}f}".rstrip("0").rstrip(".") for each in place)
    return f"({x} {y})"
