"""Nodes and edges of some layers that lie near one another, made one."""

from __future__ import annotations

from collections.abc import Sequence
from decimal import Decimal
from fractions import Fraction
from typing import NamedTuple, Union

from sfstore.editor import Editor
from sfstore.geometry import Shape, read_wkt
from sfstore.tools.joining import Move, joined
from sfstore.tools.nearby import Reach
from sfstore.tools.notdone import NotDone
from sfstore.tools.remaking import remade
from sfstore.tools.sending import Which, check_as_seen, send

__all__ = ["Snapping", "snap", "snapping"]

Distance = Union[int, Decimal, Fraction]


class Snapping(NamedTuple):
    """What a snap would do, before it is done."""

    moves: list[Move[Which]]
    """The nodes that are moved, and the places of edges, each with where it goes and the features that go along."""
    seen: dict[Which, Shape]
    """The features that are changed, as they are."""
    changed: dict[Which, Shape]
    """The same, as they are then."""

    def carry_out(self, store: Editor) -> int:
        """Does it, as one step, or as several where a group has not room for all. How many steps; 0 where there is nothing to do.

        `NotDone` where a feature was changed since. `Refused` where the program refuses a group. In both cases nothing has changed.
        """
        check_as_seen(store, self.seen)
        return send(store, self.changed)


def snapping(store: Editor, layers: Sequence[str], within: Distance) -> Snapping:
    """What would be moved if nodes and edges of some layers no farther apart than ``within`` were made one: nothing is done.

    The distance is in grid steps. A node that most features have stays, or the one that most others are near; those near it are moved there, each once and no
    farther than that. An edge that passes a node so near is bent there. `NotDone` where nothing would be left of a feature,
    or where its border would run along itself.

    >>> from sfstore import Store
    >>> with Store() as store:
    ...     store.add_layer("parcels", "polygon")
    ...     for text in "POLYGON ((0 0, 50 0, 50 50, 0 50, 0 0))", "POLYGON ((51 0, 90 0, 90 90, 50 52, 51 0))":
    ...         added = store.add("parcels", text)
    ...     plan = snapping(store, ["parcels"], 2)
    ...     [(move.at, move.to, move.features) for move in plan.moves] == [
    ...         ((50, 52), (50, 50), [("parcels", 2)]), ((51, 0), (50, 0), [("parcels", 2)])
    ...     ]
    ...     plan.carry_out(store)
    ...     store.get("parcels", 2)[0].wkt
    True
    1
    'POLYGON ((50 0, 90 0, 90 90, 50 50, 50 0))'
    """
    reach = Reach(_distance(within))
    before = {(layer, feature.id): read_wkt(feature.wkt) for layer in dict.fromkeys(layers) for feature in store.show(layer)}
    near = joined(before, reach)
    changed = {}
    for which, members in near.lines.items():
        shape = _remade(which, before[which], members, near.moves)
        if shape != _as_whole(before[which]):
            changed[which] = shape
    return Snapping(near.moves, {which: before[which] for which in changed}, changed)


def snap(store: Editor, layers: Sequence[str], within: Distance) -> list[Move[Which]]:
    """Makes one what `snapping` finds near one another, as one step, or as several where a group has not room for all.

    What was moved. `NotDone` where nothing would be left of a feature, and `Refused` where the program refuses a group. In both
    cases nothing has changed.
    """
    plan = snapping(store, layers, within)
    plan.carry_out(store)
    return plan.moves


def _distance(within: Distance) -> Fraction:
    """A distance in grid steps. `NotDone` for one that is not above 0."""
    steps = Fraction(within)
    if steps <= 0:
        raise NotDone("the distance is not above 0")
    return steps


def _remade(which: Which, before: Shape, members: list[list[list[tuple[int, int]]]], moves: Sequence[Move[Which]]) -> Shape:
    """A feature with its points moved. `NotDone` where it is none any more."""
    layer, feature = which
    spots = [move.to for move in moves if which in move.features]
    try:
        shape = remade(before, members)
    except ValueError as fault:
        raise NotDone(f"{layer} {feature} would have a border that runs along itself, near {{}}", *spots[:1]) from fault
    if shape is None or _is_one_point(shape):
        raise NotDone(f"nothing would be left of {layer} {feature}, near {{}}: the distance is too large for it", *spots[:1])
    return shape


def _is_one_point(shape: Shape) -> bool:
    """Whether a line has only one point left."""
    return shape.code in (2, 5) and any(len(line) < 4 for member in shape.members for line in member)


def _as_whole(shape: Shape) -> Shape:
    """A shape with whole numbers in lists, to be compared."""
    return shape.mapped(lambda line: [int(number) for number in line])
