"""What lies near one another of many geometries, made one: nodes, and nodes with edges. All in whole numbers and fractions."""

from __future__ import annotations

from collections import defaultdict
from collections.abc import Hashable, Iterable, Mapping
from dataclasses import dataclass
from typing import Generic, TypeVar

from sfstore.geometry import Shape
from sfstore.tools.nearby import Nearby, Reach, foot
from sfstore.tools.pins import pairs, points_of
from sfstore.tools.places import Place, exact, turn
from sfstore.tools.rings import Edge, Point

__all__ = ["Joined", "Move", "joined"]

Key = TypeVar("Key", bound=Hashable)

_ROUNDS = 8
"""How often edges that were bent are looked at again: one passes by further nodes then."""


@dataclass(frozen=True)
class Move(Generic[Key]):
    """A node that is moved to another one, or a place of an edge that is moved to a node."""

    at: Place
    to: Point
    features: list[Key]
    """Those that have the node, or the edge."""


@dataclass(frozen=True)
class Joined(Generic[Key]):
    """Geometries whose nodes and edges near one another are one."""

    lines: dict[Key, list[list[list[Point]]]]
    """The points of each, as a shape has them: of a ring the first one is repeated at its end."""
    moves: list[Move[Key]]


def joined(shapes: Mapping[Key, Shape], reach: Reach, apart: bool = False) -> Joined[Key]:
    """Makes one what is no farther apart than a distance.

    Each node is moved once, to another one that stays; the one that most geometries have stays, and so do those that are farther
    from one another. Then each edge that passes a node so near gets it. With ``apart`` only what is of different geometries is
    made one, so that the corners of one geometry stay however near they are to one another; their edges have no more than ends in
    common then.
    """
    whose = _owners(shapes)
    target = _targets(whose, reach, apart)
    moves = [Move(exact(at), to, sorted(whose[at], key=repr)) for at, to in sorted(target.items())]
    for at, to in target.items():
        whose[to] |= whose.pop(at)
    lines = {
        key: [[_open_out([target.get(point, point) for point in points_of(line)]) for line in member] for member in shape.members]
        for key, shape in shapes.items()
    }
    moves += _bend(lines, whose, reach, apart)
    return Joined(lines, moves)


def _owners(shapes: Mapping[Key, Shape]) -> dict[Point, set[Key]]:
    """The nodes, with those that have them."""
    whose: dict[Point, set[Key]] = defaultdict(set)
    for key, shape in shapes.items():
        for member in shape.members:
            for line in member:
                for point in points_of(line):
                    whose[point].add(key)
    return whose


def _targets(whose: Mapping[Point, set[Key]], reach: Reach, apart: bool) -> dict[Point, Point]:
    """Where nodes are moved: each to the nearest of those that stay. These have more geometries, or more nodes near them, or come first."""
    target: dict[Point, Point] = {}
    taken: dict[Point, set[Key]] = {}
    stay, every = Nearby(reach.whole), Nearby(reach.whole, whose)
    near = {node: sum(reach.has(node, other) for other in every.around(node, node, reach.whole)) for node in whose}
    for node in sorted(whose, key=lambda node: (-len(whose[node]), -near[node], node)):
        found = [
            (_square(node, other), other)
            for other in stay.around(node, node, reach.whole)
            if reach.has(node, other) and not (apart and taken[other] & whose[node])
        ]
        if found:
            target[node] = min(found)[1]
            taken[target[node]] |= whose[node]
        else:
            stay.add(node)
            taken[node] = set(whose[node])
    return target


def _bend(
    lines: dict[Key, list[list[list[Point]]]], whose: dict[Point, set[Key]], reach: Reach, apart: bool
) -> list[Move[Key]]:
    """Puts nodes into the edges that pass near them, and gives what was moved so."""
    moves: list[Move[Key]] = []
    edges = _edges((key, [line for member in members for line in member]) for key, members in lines.items())
    near = _index(edges, whose)
    for _ in range(_ROUNDS):
        stops: dict[Edge, list[Point]] = {}
        for edge, keys in sorted(edges.items()):
            passed = [node for node in near.around(*edge, reach.whole) if reach.has_edge(node, edge)]
            beside = [node for node in passed if turn(*map(exact, (*edge, node))) and not (apart and whose[node] & keys)]
            if not beside:
                continue
            on_it = [node for node in passed if node not in beside and not turn(*map(exact, (*edge, node)))]
            stops[edge] = sorted({*beside, *on_it}, key=lambda node: (_part(node, edge), node))
            moves += [Move(foot(node, edge), node, sorted(keys, key=repr)) for node in sorted(beside)]
            for node in beside:
                whose[node] |= keys
        if not stops:
            break
        for members in lines.values():
            for member in members:
                member[:] = [_with_stops(line, stops) for line in member]
        edges = _edges((key, [line for member in members for line in member]) for key, members in lines.items())
    return moves


def _edges(lines: Iterable[tuple[Key, Iterable[list[Point]]]]) -> dict[Edge, set[Key]]:
    """The edges, the lesser end first, with those that have them."""
    edges: dict[Edge, set[Key]] = defaultdict(set)
    for key, own in lines:
        for line in own:
            for a, b in pairs(line):
                if a != b:
                    edges[min(a, b), max(a, b)].add(key)
    return edges


def _index(edges: Iterable[Edge], nodes: Iterable[Point]) -> Nearby:
    """The nodes, in squares about as large as edges are."""
    spans = [max(b[0] - a[0], abs(b[1] - a[1])) for a, b in edges]
    return Nearby(sum(spans) // max(len(spans), 1), nodes)


def _with_stops(line: list[Point], stops: Mapping[Edge, list[Point]]) -> list[Point]:
    """A line with stops put into its edges."""
    found = line[:1]
    for a, b in pairs(line):
        between = stops.get((min(a, b), max(a, b)), [])
        found += [*(between if a < b else reversed(between)), b]
    return found


def _open_out(line: list[Point]) -> list[Point]:
    """A line without points that repeat the one before; a single one stays."""
    return [point for at, point in enumerate(line) if at == 0 or point != line[at - 1]]


def _square(a: Point, b: Point) -> int:
    return (a[0] - b[0]) ** 2 + (a[1] - b[1]) ** 2


def _part(at: Point, edge: Edge) -> int:
    """How far along an edge a point is."""
    (ax, ay), (bx, by) = edge
    return (at[0] - ax) * (bx - ax) + (at[1] - ay) * (by - ay)
