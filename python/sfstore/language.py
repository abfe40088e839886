"""The console's language in one table: its commands, what each touches, its words and its limits.

docs/use/CONSOLE.md of the project says what they mean. What other parts of the project know of the
language is made from here, or compared with it by a test.
"""

from __future__ import annotations

import re
from collections.abc import Sequence
from decimal import Decimal
from typing import Literal, NamedTuple, Optional

__all__ = [
    "COLUMNS_MAX",
    "COLUMN_TYPES",
    "COMMANDS",
    "DISTANCE_LIMIT",
    "DISTANCE_PLACES",
    "EDITOR_MAX",
    "EDITS",
    "GRID_MAX",
    "GRID_MIN",
    "GROUP_MAX",
    "IDENTIFIERS_MAX",
    "IDENTIFIER_MAX",
    "INT_MAX",
    "INT_MIN",
    "KINDS",
    "LAYERS_MAX",
    "LINE_MAX",
    "MEMBERS",
    "NAME",
    "NEAR",
    "PATTERN",
    "PLACES_MAX",
    "POINTS_MAX",
    "PREDICATES",
    "QUESTIONS",
    "TEXT_MAX",
    "Command",
    "Touched",
    "distance_asked",
    "edits_of",
    "parted",
    "place_of_distance",
    "words_of_line",
]

KINDS = ["any", "point", "linestring", "polygon", "multipoint", "multilinestring", "multipolygon"]
"""The kinds of layers by their codes, which those of well-known binary are too."""

COLUMN_TYPES = ["int", "text", "decimal", "bool", "date", "datetime"]
"""The types of columns, in the order of their numbers in a file, from 1 on."""

PREDICATES = [
    "equals",
    "disjoint",
    "intersects",
    "touches",
    "within",
    "contains",
    "crosses",
    "overlaps",
]
"""What may be asked of a feature's geometry and a given one."""

LINE_MAX = 4_194_304
"""How many bytes a line has at most, without its line feed."""

EDITOR_MAX = 255
"""The greatest number of an editor; the least one is 1, and 0 is whoever names none."""

GROUP_MAX = 65_535
"""How many members a group has at most; the least number is 1."""

IDENTIFIER_MAX = 4_294_967_295
"""The greatest identifier, place, part, ring or index."""

IDENTIFIERS_MAX = 1_000
"""How many identifiers `get`, `area` and `length` take at once."""

ALLOWED_MAX = 1_000
"""How many values a rule names at most."""

INT_MIN, INT_MAX = -(2**63), 2**63 - 1
"""From where to where the values of a column of whole numbers go, and the mantissa of a decimal."""

DISTANCE_PLACES, DISTANCE_LIMIT = 3, 2**32
"""How many digits the distance of a query has behind the point at most, and what it is below, in grid steps."""

PLACES_MAX = 18
"""How many digits a decimal has behind the point at most."""

LAYERS_MAX = 65_535
"""How many layers a store has at most."""

COLUMNS_MAX = 65_534
"""How many columns a layer ever gets."""

TEXT_MAX = 65_535
"""How many bytes of UTF-8 a text of a column has at most."""

GRID_MIN, GRID_MAX = -1_073_741_824, 1_073_741_823
"""From where to where coordinates go."""

POINTS_MAX = 65_536
"""How many points a geometry has at most."""

NAME = re.compile(r"[A-Za-z][A-Za-z0-9_]{0,31}")
"""A name of a layer, a column or a rule."""

PATTERN = re.compile(r"[TtFf*012]{9}")
"""A pattern of matrices."""

NEAR = re.compile(r"near [0-9]{1,1400}(?:\.[0-9]{1,1400})?")
"""What joins and rules ask of two features that are no farther from one another than a distance, in map units on any grid too."""

Touched = Literal["layers", "columns", "geometries", "values", "features", "rules", "history"]
"""What an edit changes: which layers there are, their columns, geometries, values; rules; or it moves a step.

A group changes features: geometries, values, or both.
"""


class Command(NamedTuple):
    """A command: its words, what it does, an example, and what it touches."""

    usage: str
    meaning: str
    example: str
    touches: Optional[Touched] = None
    """What it changes; a question, and a command of a console alone, changes nothing of the store."""

    @property
    def word(self) -> str:
        """Its first word."""
        return self.usage.split(" ")[0]


COMMANDS = [
    Command(
        "layer add NAME KIND",
        "adds a layer, the last one in drawing order",
        "layer add wells point",
        "layers",
    ),
    Command("layer drop LAYER", "removes a layer, with all that it has", "layer drop wells", "layers"),
    Command("layer rename LAYER NAME", "gives a layer another name", "layer rename roads streets", "layers"),
    Command(
        "layer move LAYER PLACE",
        "moves a layer in drawing order, from 0",
        "layer move wells 0",
        "layers",
    ),
    Command("layers", "lists the layers in drawing order", "layers"),
    Command(
        "column add LAYER NAME TYPE",
        "adds a column: int, text, decimal, bool, date or datetime",
        "column add wells depth int",
        "columns",
    ),
    Command("column drop LAYER COLUMN", "removes a column", "column drop wells depth", "columns"),
    Command("columns LAYER", "lists the columns of a layer", "columns wells"),
    Command("add LAYER WKT", "adds a feature, and gives its number", "add wells POINT (3 4)", "geometries"),
    Command(
        "addhex LAYER HEX",
        "adds a feature of a well-known binary",
        "addhex wells 0101000000000000000000f03f0000000000000040",
        "geometries",
    ),
    Command("delete LAYER ID", "removes a feature", "delete wells 1", "geometries"),
    Command(
        "replace LAYER ID WKT",
        "gives a feature another geometry",
        "replace wells 1 POINT (5 6)",
        "geometries",
    ),
    Command(
        "vertex insert LAYER ID PART RING INDEX X Y",
        "inserts a vertex before the one of an index; part and ring are 0 where there is one",
        "vertex insert roads 1 0 0 1 3 0",
        "geometries",
    ),
    Command(
        "vertex move LAYER ID PART RING INDEX X Y",
        "moves a vertex",
        "vertex move roads 1 0 0 1 3 0",
        "geometries",
    ),
    Command(
        "vertex remove LAYER ID PART RING INDEX",
        "removes a vertex",
        "vertex remove roads 1 0 0 1",
        "geometries",
    ),
    Command(
        "set LAYER ID COLUMN VALUE",
        "sets a value: 12, 'text', E'two\\nlines', 12.5, true, 2024-02-29 or 2024-02-29T12:30:00Z",
        "set wells 1 label 'old'",
        "values",
    ),
    Command("unset LAYER ID COLUMN", "clears a value", "unset wells 1 label", "values"),
    Command(
        "together N",
        "makes one step of the next N edits of features: all are carried out, or none; `last` names the feature added last",
        "together 2",
        "features",
    ),
    Command("show LAYER", "lists the features of a layer with their values", "show wells"),
    Command("get LAYER ID", "lists features by their numbers, one or up to 1,000, in this order", "get wells 1"),
    Command(
        "find LAYER COLUMN VALUE",
        "lists the features with a value in a column; without VALUE those with any",
        "find wells label 'old'",
    ),
    Command(
        "find LAYER COLUMN VALUE to VALUE",
        "lists those whose value lies between these, or is one of them; one of the two may be left out",
        "find wells depth 10 to 40",
    ),
    Command(
        "check LAYER WKT",
        "says what adding the geometry would bring, and where it is wrong; adds nothing",
        "check parcels POLYGON ((0 0, 4 0, 4 4, 0 0))",
    ),
    Command("hex LAYER ID", "gives a geometry as well-known binary", "hex wells 1"),
    Command("box LAYER ID", "gives the corners of the least box of a feature", "box roads 1"),
    Command("simple LAYER ID", "says whether a geometry passes no point twice", "simple roads 1"),
    Command("area LAYER ID", "gives areas of features in squared grid steps, of one or up to 1,000", "area parcels 1"),
    Command("length LAYER ID", "gives lengths in grid steps; of areas that of their rings", "length roads 1"),
    Command(
        "distance LAYER ID WKT",
        "gives the distance of a feature from a geometry in grid steps, and its square",
        "distance parcels 1 POINT (20 10)",
    ),
    Command(
        "nearest LAYER N WKT",
        "lists the N features of a layer that are nearest to a geometry, up to 1,000, with their distances",
        "nearest wells 3 POINT (20 10)",
    ),
    Command(
        "reach LAYER ASK ID",
        "lists what chains lead to from one or up to 1,000 features; with until LAYER ASK behind them up to features that are so with one of that layer",
        "reach roads touches 1 until wells intersects",
    ),
    Command(
        "relate LAYER ID WKT",
        "gives the DE-9IM matrix of a feature with a geometry",
        "relate parcels 1 POINT (5 5)",
    ),
    Command(
        "match LAYER PATTERN WKT",
        "lists the features whose matrix matches a pattern of T F * 0 1 2",
        "match parcels T******** POINT (5 5)",
    ),
    Command(
        "query LAYER PREDICATE WKT",
        "lists the features of which a predicate holds with a geometry",
        "query parcels contains POINT (5 5)",
    ),
    Command(
        "query LAYER near D WKT",
        "lists the features that have a point no farther than D grid steps from a geometry",
        "query wells near 2.5 POINT (5 5)",
    ),
    Command(
        "join LAYER ASK LAYER",
        "lists the pairs of features of two layers that are so; with an ID behind them those beside one feature",
        "join wells within parcels",
    ),
    Command(
        "join LAYER near D LAYER",
        "lists the pairs that have points no farther apart than D grid steps; with an ID behind them those beside one feature",
        "join wells near 2.5 parcels",
    ),
    Command(
        "rule add NAME never LAYER ASK LAYER",
        "from now on no two features of these layers, or of the one, are so",
        "rule add apart never parcels overlaps parcels",
        "rules",
    ),
    Command(
        "rule add NAME each LAYER ASK some LAYER",
        "from now on each feature of the first layer is so with some other one of the second",
        "rule add fronted each parcels touches some roads",
        "rules",
    ),
    Command(
        "rule add NAME never LAYER near D LAYER",
        "from now on no two features of these layers, or of the one, have points no farther apart than D grid steps",
        "rule add spaced never wells near 2.5 wells",
        "rules",
    ),
    Command(
        "rule add NAME each LAYER near D some LAYER",
        "from now on each feature of the first layer has some other one of the second no farther away than D grid steps",
        "rule add reached each wells near 40 some roads",
        "rules",
    ),
    Command(
        "rule add NAME unique LAYER COLUMN",
        "from now on no two features of the layer have the same value there",
        "rule add labels unique wells label",
        "rules",
    ),
    Command(
        "rule add NAME required LAYER COLUMN",
        "from now on each feature of the layer has a value there",
        "rule add labelled required wells label",
        "rules",
    ),
    Command(
        "rule add NAME one-of LAYER COLUMN VALUE, VALUE ..",
        "from now on each value there is one of these",
        "rule add ages one-of wells label 'old', 'new'",
        "rules",
    ),
    Command(
        "rule add NAME range LAYER COLUMN VALUE to VALUE",
        "from now on each value there lies between these, which are in the range; one of them may be left out",
        "rule add depths range wells depth 0 to 900",
        "rules",
    ),
    Command("rule drop NAME", "drops a rule", "rule drop apart", "rules"),
    Command("rules", "lists the rules", "rules"),
    Command("undo", "takes the last edit back", "undo", "history"),
    Command("redo", "redoes what was undone", "redo", "history"),
]
"""The commands of the program."""

EDITS = frozenset(command.word for command in COMMANDS if command.touches)
"""The first words of the lines that change a store, or what can be undone."""

QUESTIONS = frozenset(command.word for command in COMMANDS if not command.touches)
"""The first words of the lines that change nothing."""

MEMBERS = frozenset(command.word for command in COMMANDS if command.touches in ("geometries", "values"))
"""The first words of the lines that may be members of a group."""

_ADDRESS = re.compile(r"@[0-9]{1,3}")
_WORDS_BEFORE_GEOMETRY = {"add": 2, "check": 2, "replace": 3, "distance": 3, "nearest": 3, "relate": 3, "match": 3, "query": 3}


def edits_of(*touched: Touched) -> frozenset[str]:
    """The first words of the edits that touch one of these.

    >>> sorted(edits_of("values", "history"))
    ['redo', 'set', 'undo', 'unset']
    """
    return frozenset(command.word for command in COMMANDS if command.touches in touched)


def parted(line: str) -> list[str]:
    """The words of a line as the program parts them: by spaces and tabs, and by nothing else.

    >>> parted(" @7 save\\u00a0 \\t")
    ['@7', 'save\\xa0']
    """
    return [word for word in re.split("[ \t]+", line.removesuffix("\r")) if word]


def words_of_line(line: str) -> list[str]:
    """The words of a line as the program parts them, without the editor that it names.

    >>> words_of_line(" @7 add\\twells  POINT (3 4) ")
    ['add', 'wells', 'POINT', '(3', '4)']
    """
    words = parted(line)
    return words[1:] if words and _ADDRESS.fullmatch(words[0]) else words


def is_near(words: Sequence[str]) -> bool:
    """Whether the words of a line ask for what is near a geometry.

    >>> is_near(["query", "wells", "near", "2.5", "POINT", "(3", "4)"])
    True
    """
    return words[:1] == ["query"] and words[2:3] == ["near"]


def place_of_distance(words: Sequence[str]) -> Optional[int]:
    """Where the distance stands that a line asks about, among its words from 0 on, or none where it asks about none.

    >>> place_of_distance(["query", "wells", "near", "2.5", "POINT", "(3", "4)"])
    3
    >>> place_of_distance(["rule", "add", "apart", "never", "wells", "near", "2.5", "wells"])
    6
    """
    is_rule = words[:2] == ["rule", "add"] and words[3:4] in (["never"], ["each"])
    asked = 5 if is_rule else 2 if words[:1] in (["query"], ["join"]) else None
    return asked + 1 if asked is not None and words[asked : asked + 1] == ["near"] else None


def distance_asked(ask: str) -> Optional[Decimal]:
    """The distance that is asked about two features, or none where a predicate or a pattern is.

    >>> distance_asked("near 2.5"), distance_asked("touches")
    (Decimal('2.5'), None)
    """
    found = NEAR.fullmatch(ask)
    return Decimal(found[0].removeprefix("near ")) if found else None


def words_before_geometry(words: Sequence[str]) -> Optional[int]:
    """How many words of a line stand before its well-known text, or none where it has none.

    >>> words_before_geometry(["add", "wells", "POINT", "(3", "4)"])
    2
    """
    if is_near(words):
        return _WORDS_BEFORE_GEOMETRY["query"] + 1
    return _WORDS_BEFORE_GEOMETRY.get(words[0]) if words else None
