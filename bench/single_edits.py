"""Lines of each kind of edit over a layer with no rule and no index, which `bench/counted.py OLD NEW edits` counts.

The layer has 200 features, or 10,000: squares in rows, each with a whole number and a text. So many lines edit its features,
one after another all over the layer: the number or the text is set to another value, by lines or by members of groups of a
hundred; such lines are undone; a vertex is moved; a feature is added; or it is deleted, which the next line undoes. They are
too few to be told by time, and enough that what the heap tidies up now and then is shared by many. What the program frees of
them at its end is counted too.
"""

from __future__ import annotations

from collections.abc import Iterator
from dataclasses import dataclass

SIZES = (200, 10_000)
LINES = 2_000
MEMBERS = 100
# From one feature that is edited to the next one: it divides none of the sizes.
STRIDE = 77
ACROSS = 100
SPACE = 20


@dataclass(frozen=True)
class Row:
    """Lines of one kind of edit, those before them, and how many edits they are."""

    name: str
    before: list[str]
    lines: list[str]
    edits: int = LINES


def corner(number: int) -> tuple[int, int]:
    """The first corner of the square with this number."""
    return number % ACROSS * SPACE, number // ACROSS * SPACE


def added(number: int) -> str:
    """A line that adds a square."""
    x, y = corner(number)
    return f"add a POLYGON (({x} {y}, {x + 9} {y}, {x + 9} {y + 9}, {x} {y + 9}, {x} {y}))"


def moved(identifier: int, line: int) -> str:
    """A line that moves a vertex of a square a little, elsewhere with each line."""
    x, y = corner(identifier - 1)
    return f"vertex move a {identifier} 0 0 2 {x + 9 + line % 7} {y + 9 + line % 5}"


def with_values(features: int) -> list[str]:
    """Lines that make the layer with its features and their values."""
    made = ["layer add a polygon", "column add a number int", "column add a name text"]
    adding = [added(number) for number in range(features)]
    setting = [line for k in range(1, features + 1) for line in (f"set a {k} number {k}", f"set a {k} name 'parcel {k}'")]
    return [*made, *adding, *setting]


def in_groups(members: list[str]) -> list[str]:
    """These edits as members of groups, a hundred to each."""
    groups = [members[k : k + MEMBERS] for k in range(0, len(members), MEMBERS)]
    return [line for group in groups for line in (f"together {len(group)}", *group)]


def rows_of(features: int) -> Iterator[Row]:
    """The rows over so many features."""
    before, of = with_values(features), f", of {features:,}"
    edited = [(line, line * STRIDE % features + 1) for line in range(LINES)]
    numbers = [f"set a {k} number {-line}" for line, k in edited]
    yield Row(f"a whole number set{of}", before, numbers)
    yield Row(f"the same in groups of {MEMBERS}{of}", before, in_groups(numbers))
    yield Row(f"a whole number set, undone{of}", [*before, *numbers], ["undo"] * LINES)
    yield Row(f"a text set{of}", before, [f"set a {k} name 'corner {line}'" for line, k in edited])
    yield Row(f"a vertex moved{of}", before, [moved(k, line) for line, k in edited])
    yield Row(f"a feature added{of}", before, [added(features + line) for line in range(LINES)])
    deleted = [line for _, k in edited for line in (f"delete a {k}", "undo")]
    yield Row(f"a feature deleted, and that undone{of}", before, deleted)
