"""The faces that the borders of many areas part the plane into, and which areas cover each. All exact."""

from __future__ import annotations

from collections import Counter, defaultdict
from collections.abc import Hashable, Iterable, Iterator, Mapping, Sequence
from dataclasses import dataclass, field
from functools import cmp_to_key, partial
from typing import Generic, TypeVar

from sfstore.tools.pins import pairs
from sfstore.tools.places import exact, is_inside, rounded, shared
from sfstore.tools.rings import Edge, Point, whole_turn

__all__ = ["Face", "faces_of", "noded"]

Key = TypeVar("Key", bound=Hashable)

_ROUNDS = 30
"""How often edges are parted where they cross: a corner that was rounded may make edges cross that did not before."""

# In so many bands of y the edges of a cycle are sorted.
_BANDS = 200


@dataclass
class Face(Generic[Key]):
    """A part of the plane that no border crosses."""

    edges: list[Edge]
    """Those around it, with the face on their left."""
    doubled: int
    """Twice its area."""
    covers: dict[Key, int]
    """How often each area covers it, where that is not 0 times."""


@dataclass
class _Cycle(Generic[Key]):
    """Edges that follow one another, with one face on their left."""

    edges: list[Edge]
    doubled: int
    """Twice the area that it goes round to the left; what is outside of all has none above 0."""
    box: tuple[int, int, int, int]
    """Least x and y, greatest x and y."""
    bands: dict[int, list[Edge]] = field(default_factory=dict)
    """The edges by the bands of y that they are in; made when a point is searched in many edges."""
    part: int = -1
    """Which of the parts of the borders that hang together it is of."""
    winds: dict[Key, int] = field(default_factory=dict)


def noded(borders: Mapping[Key, Iterable[Edge]]) -> dict[Key, Counter[Edge]]:
    """Borders parted where they meet: two edges have no more than ends in common then. Where they cross is rounded once.

    An edge that has the same area on both sides is gone. `ValueError` where that comes to no end.
    """
    counted = {key: Counter(edges) for key, edges in borders.items()}
    for _ in range(_ROUNDS):
        stops = _stops({(min(edge), max(edge)) for edges in counted.values() for edge in edges})
        if not stops:
            return {key: _without_both(edges) for key, edges in counted.items()}
        counted = {key: _parted(edges, stops) for key, edges in counted.items()}
    raise ValueError("the borders cross one another too often for the grid")


def faces_of(borders: Mapping[Key, Counter[Edge]]) -> list[Face[Key]]:
    """The faces between borders that meet at common ends alone. What is outside of all is none of them."""
    turns: dict[Edge, Counter[Key]] = defaultdict(Counter)
    for key, edges in borders.items():
        for edge, times in edges.items():
            turns[edge][key] += times
            turns[edge[::-1]][key] -= times
    cycles: list[_Cycle[Key]] = _cycles(turns)
    at = {edge: cycle for cycle in cycles for edge in cycle.edges}
    parts = _parts(cycles, at)
    inside = _settle(parts, turns, at)
    faces = []
    for cycle in cycles:
        if cycle.doubled > 0:
            islands = [parts[part][0] for part in inside.get(id(cycle), ())]
            around = [*cycle.edges, *(edge for island in islands for edge in island.edges)]
            faces.append(Face(around, cycle.doubled + sum(island.doubled for island in islands), cycle.winds))
    return faces


def _stops(edges: Iterable[Edge]) -> dict[Edge, set[Point]]:
    """Where edges meet others between their ends: points of the grid."""
    stops: dict[Edge, set[Point]] = defaultdict(set)
    for one, other in _close(edges):
        for place in shared(one, other) if _may_meet(one, other) else ():
            point = rounded(place)
            for edge in (one, other):
                if point not in edge:
                    stops[edge].add(point)
    return stops


def _may_meet(one: Edge, other: Edge) -> bool:
    """Whether two edges may meet at another place than a common end: in whole numbers, and quickly for most that do not."""
    (a, b), (c, d) = one, other
    if a in other or b in other:
        end, ahead = (a, b) if a in other else (b, a)
        return whole_turn(end, ahead, d if end == c else c) == 0
    first, second = whole_turn(c, d, a), whole_turn(c, d, b)
    if (first > 0 and second > 0) or (first < 0 and second < 0):
        return False
    third, fourth = whole_turn(a, b, c), whole_turn(a, b, d)
    return not ((third > 0 and fourth > 0) or (third < 0 and fourth < 0))


def _close(edges: Iterable[Edge]) -> Iterator[tuple[Edge, Edge]]:
    """The pairs of edges whose boxes meet, and that do not only follow one another."""
    going: list[tuple[int, int, int, Edge]] = []
    for edge in sorted(edges):
        (left, low), (right, high) = edge
        low, high = min(low, high), max(low, high)
        going = [each for each in going if each[0] >= left]
        for _, bottom, top, other in going:
            if bottom <= high and top >= low:
                yield edge, other
        going.append((right, low, high, edge))


def _parted(edges: Counter[Edge], stops: Mapping[Edge, set[Point]]) -> Counter[Edge]:
    """Edges parted at the stops in them, in the order in which they come there."""
    found: Counter[Edge] = Counter()
    for edge, times in edges.items():
        low, high = min(edge), max(edge)
        between = sorted(stops.get((low, high), ()), key=lambda point: (_part(point, low, high), point))
        chain = [low, *between, high]
        for piece in pairs(chain if edge[0] == low else chain[::-1]):
            if piece[0] != piece[1]:
                found[piece] += times
    return found


def _part(at: Point, a: Point, b: Point) -> int:
    """How far along an edge a point is."""
    return (at[0] - a[0]) * (b[0] - a[0]) + (at[1] - a[1]) * (b[1] - a[1])


def _without_both(edges: Counter[Edge]) -> Counter[Edge]:
    """Edges without those that go both ways."""
    return Counter({edge: left for edge, times in edges.items() if (left := times - edges[edge[::-1]]) > 0})


def _cycles(turns: Iterable[Edge]) -> list[_Cycle[Key]]:
    """The cycles of edges, each followed by the next one to the left."""
    ways: dict[Point, list[Point]] = defaultdict(list)
    for a, b in turns:
        ways[a].append(b)
    ahead: dict[Edge, Edge] = {}
    for point, ends in ways.items():
        round_it = sorted(ends, key=cmp_to_key(partial(_compare, point)))
        for place, end in enumerate(round_it):
            # Who comes from one way goes on along the one before it, seen to the left.
            ahead[end, point] = point, round_it[place - 1]
    cycles = []
    left = dict.fromkeys(sorted(ahead))
    while left:
        edge = next(iter(left))
        edges = []
        while edge in left:
            del left[edge]
            edges.append(edge)
            edge = ahead[edge]
        xs, ys = zip(*(a for a, _ in edges))
        box = min(xs), min(ys), max(xs), max(ys)
        cycles.append(_Cycle[Key](edges, sum(a[0] * b[1] - a[1] * b[0] for a, b in edges), box))
    return cycles


def _compare(at: Point, one: Point, other: Point) -> int:
    """Which of two ways from a point comes first, to the left from the right-hand one on."""
    first, second = (one[0] - at[0], one[1] - at[1]), (other[0] - at[0], other[1] - at[1])
    halves = _is_below(first), _is_below(second)
    if halves[0] != halves[1]:
        return halves[0] - halves[1]
    return first[1] * second[0] - first[0] * second[1]


def _is_below(way: Point) -> bool:
    """Whether a way goes down, or to the left."""
    return way[1] < 0 or (way[1] == 0 and way[0] < 0)


def _parts(cycles: Sequence[_Cycle[Key]], at: Mapping[Edge, _Cycle[Key]]) -> list[list[_Cycle[Key]]]:
    """The cycles that hang together, that of the outside of each part first."""
    parts: list[list[_Cycle[Key]]] = []
    for begin in cycles:
        if begin.part >= 0:
            continue
        begin.part = len(parts)
        part = [begin]
        for cycle in part:
            for a, b in cycle.edges:
                beside = at[b, a]
                if beside.part < 0:
                    beside.part = len(parts)
                    part.append(beside)
        part.sort(key=lambda cycle: cycle.doubled)
        parts.append(part)
    return parts


def _settle(
    parts: Sequence[Sequence[_Cycle[Key]]], turns: Mapping[Edge, Counter[Key]], at: Mapping[Edge, _Cycle[Key]]
) -> dict[int, list[int]]:
    """Tells each cycle what covers it, and gives the parts that lie in a face, by the cycle around it."""
    around = [_around(part[0], parts) for part in parts]
    inside: dict[int, list[int]] = defaultdict(list)
    for number, cycle in enumerate(around):
        if cycle is not None:
            inside[id(cycle)].append(number)
    # A part lies in faces that are larger than all of it.
    for number in sorted(range(len(parts)), key=lambda number: parts[number][0].doubled):
        outer, cycle = parts[number][0], around[number]
        outer.winds = dict(cycle.winds) if cycle is not None else {}
        done, order = {id(outer)}, [outer]
        for known in order:
            for a, b in known.edges:
                beside = at[b, a]
                if id(beside) not in done:
                    done.add(id(beside))
                    beside.winds = _across(known.winds, turns[b, a])
                    order.append(beside)
    return inside


def _across(winds: Mapping[Key, int], turns: Mapping[Key, int]) -> dict[Key, int]:
    """How often areas cover a face, by how often they cover the one on the right of an edge."""
    found = Counter(winds)
    for key, times in turns.items():
        found[key] += times
    return {key: times for key, times in found.items() if times}


def _around(outer: _Cycle[Key], parts: Sequence[Sequence[_Cycle[Key]]]) -> _Cycle[Key] | None:
    """The cycle of another part in whose face one lies; none where that is outside of all."""
    point = min(a for a, _ in outer.edges)
    found = [
        cycle
        for part in parts
        if part[0] is not outer and -part[0].doubled > -outer.doubled and _has(part[0], point)
        for cycle in part
        if cycle.doubled > 0 and _has(cycle, point)
    ]
    found.sort(key=lambda cycle: cycle.doubled)
    return next(iter(found), None)


def _has(cycle: _Cycle[Key], point: Point) -> bool:
    """Whether a point lies within a cycle."""
    left, bottom, right, top = cycle.box
    if not (left < point[0] < right and bottom < point[1] < top):
        return False
    high = (top - bottom) // _BANDS + 1
    if not cycle.bands:
        for edge in cycle.edges:
            low, up = sorted((edge[0][1], edge[1][1]))
            for band in range((low - bottom) // high, (up - bottom) // high + 1):
                cycle.bands.setdefault(band, []).append(edge)
    return is_inside(exact(point), cycle.bands[(point[1] - bottom) // high])
