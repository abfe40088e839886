"""What a line makes of an area, with the new corners rounded once, and put into each neighbour whose border passes there."""

from __future__ import annotations

from bisect import bisect_left, bisect_right
from collections import Counter, defaultdict
from collections.abc import Iterable, Iterator, Sequence
from dataclasses import dataclass, field
from functools import cached_property
from itertools import combinations

from sfstore.editor import Editor
from sfstore.geometry import Flat, Shape, write_wkt
from sfstore.tools.notdone import NotDone
from sfstore.tools.pins import pairs, points_of, shape_of
from sfstore.tools.places import Place, exact, in_order, is_inside, lies_on, middle, rounded, shared
from sfstore.tools.rings import Edge, Point, split_at

__all__ = ["Cut", "bent_by", "check_parted", "cut_of", "loose_end", "neighbours_of", "with_corners"]


@dataclass
class Cut:
    """What a line makes of an area."""

    across: list[Edge] = field(default_factory=list)
    """What of the line lies inside."""
    corners: dict[Place, Point] = field(default_factory=dict)
    """Where the line crosses the border between two of its corners, and the point of the grid that is taken for it.

    A place on the grid is one of them too: beside a further corner, off the grid, a neighbour without it would not fit.
    """
    pins: set[Point] = field(default_factory=set)
    """Corners of any feature on an edge that is bent: with them in it, it stays where they are."""
    moved: set[Edge] = field(default_factory=set)
    """The edges of the parts that are no piece of the border as it was, each with its lesser end first."""

    def edges(self, border: Iterable[Edge]) -> Iterator[Edge]:
        """The edges of the parts: what of the line lies inside is the border of two of them."""
        ends: set[Point] = set()
        around: set[Edge] = set()
        for edge in border:
            stops = self.stops(edge)
            pieces = [(min(piece), max(piece)) for piece in pairs(stops)]
            if self.is_bent(edge):
                self.moved.update(pieces)
            ends.update(stops)
            around.update(pieces)
            yield from pairs(stops)
        # What was rounded to a piece of the border is one already.
        across = [(min(edge), max(edge)) for edge in self.across]
        for a, b in _without_ends([edge for edge in across if edge not in around], ends):
            self.moved.add((min(a, b), max(a, b)))
            yield a, b
            yield b, a

    def is_bent(self, edge: Edge) -> bool:
        """Whether a corner on an edge was rounded."""
        return any(exact(corner) != at for at, corner in self._on(edge))

    def stops(self, edge: Edge) -> list[Point]:
        """The points of an edge with all corners on it, in their order."""
        on_edge = self._on(edge)
        if not on_edge:
            return list(dict.fromkeys(edge))
        places = dict(on_edge)
        if any(exact(corner) != at for at, corner in on_edge):
            places.update((exact(a), a) for a, _ in split_at([edge], self.pins))
        places.update((exact(end), end) for end in edge)
        start = edge[0]
        order = sorted(places, key=lambda at: (abs(at[0] - start[0]), abs(at[1] - start[1])))
        points = [places[at] for at in order]
        return [point for point, before in zip(points, [None, *points]) if point != before]

    def _on(self, edge: Edge) -> list[tuple[Place, Point]]:
        """The corners on an edge, between its ends."""
        low, high = sorted((edge[0][0], edge[1][0]))
        near = self._by_x[bisect_left(self._columns, low) : bisect_right(self._columns, high)]
        return [(at, self.corners[at]) for at in near if at not in map(exact, edge) and lies_on(at, edge)]

    @cached_property
    def _by_x(self) -> list[Place]:
        return sorted(self.corners)

    @cached_property
    def _columns(self) -> list[int]:
        """The whole parts of x of the corners, in their order."""
        return [x.numerator // x.denominator for x, _ in self._by_x]


def cut_of(border: Sequence[Edge], line: Sequence[Point]) -> Cut:
    """What a line makes of an area with this border."""
    cut = Cut()
    boxes = [(*sorted((a[0], b[0])), *sorted((a[1], b[1]))) for a, b in border]
    inside: bool | None = None
    for piece in zip(line, line[1:]):
        (left, right), (bottom, top) = (sorted(ends) for ends in zip(*piece))
        stops: set[Place] = {exact(end) for end in piece}
        met: set[Place] = set()
        near = [edge for edge, box in zip(border, boxes) if box[0] <= right and box[1] >= left and box[2] <= top and box[3] >= bottom]
        for edge in near:
            common = shared(edge, piece)
            met.update(common)
            cut.corners.update((at, rounded(at)) for at in common if at not in (exact(edge[0]), exact(edge[1])))
        for a, b in in_order(piece, stops | met):
            if inside is None or a in met:
                inside = is_inside(middle(a, b), border)
            if inside:
                cut.across += _edge(rounded(a), rounded(b))
            if b in met:
                inside = None
    return cut


def neighbours_of(store: Editor, layers: Iterable[str], area: Shape) -> Iterator[tuple[tuple[str, int], Shape]]:
    """The features that have something in common with an area, by layer and number; points aside, which have no edge."""
    wkt = write_wkt(area)
    for layer in layers:
        for feature in store.query(layer, "intersects", wkt):
            shape = shape_of(store, layer, feature)
            if shape.code not in (1, 4):
                yield (layer, feature), shape


def bent_by(shapes: Iterable[Shape], cut: Cut) -> set[Edge]:
    """The edges of shapes in which a corner was rounded, each with its lesser end first."""
    edges = {(min(edge), max(edge)) for shape in shapes for member in shape.members for line in member for edge in pairs(points_of(line))}
    return {edge for edge in edges if cut.is_bent(edge)}


def with_corners(line: Flat, cut: Cut) -> Flat:
    """A line or ring with the corners put in where it passes through them."""
    points = points_of(line)
    found = points[:1]
    for edge in pairs(points):
        found += cut.stops(edge)[1:] or [edge[1]]
    return [number for point in found for number in point] if found != points else line


def check_parted(cut: Cut, edges: Sequence[Edge], line: Sequence[Point], border: Sequence[Edge], what: str) -> None:
    """`NotDone` with a place where the edges of parts run along one another, or cross, at other points than common ends."""
    narrow = _twice(edges) or _meeting({(min(edge), max(edge)) for edge in edges}, cut.moved)
    if narrow is None:
        return
    crossing = _crossing(line, border)
    if crossing is not None:
        raise NotDone(f"the line crosses itself in {what} at {{}}", crossing)
    raise NotDone(f"the line parts {what} too narrowly for the grid at {{}}", narrow)


def _twice(edges: Sequence[Edge]) -> Place | None:
    """The begin of an edge that is there twice; none where there is none."""
    return next((exact(edge[0]) for edge, times in Counter(edges).items() if times > 1), None)


def _crossing(line: Sequence[Point], border: Sequence[Edge]) -> Place | None:
    """A place in an area where a line meets itself, but for common corners of it; none where there is none."""
    pieces = [edge for edge in zip(line, line[1:]) if edge[0] != edge[1]]
    for one, other in combinations(pieces, 2):
        common = set(map(exact, one)) & set(map(exact, other))
        for place in shared(one, other):
            if place not in common and is_inside(place, border):
                return place
    return None


def _meeting(edges: Iterable[Edge], moved: Iterable[Edge]) -> Place | None:
    """A place where one of some moved edges meets another edge, of which it is one, but for common ends; none where there is none."""
    every = [(edge, min(edge[0][1], edge[1][1]), max(edge[0][1], edge[1][1])) for edge in sorted(edges)]
    for one in sorted(moved):
        (left, _), (right, _) = one
        bottom, top = sorted((one[0][1], one[1][1]))
        for other, low, high in every:
            if other[0][0] > right or other[1][0] < left or low > top or high < bottom or other == one:
                continue
            ends = set(map(exact, one)) & set(map(exact, other))
            place = next((at for at in shared(one, other) if at not in ends), None)
            if place is not None:
                return place
    return None


def loose_end(cut: Cut, corners: Iterable[Point]) -> Point | None:
    """A point where what lies inside of an area ends, and no border is; ``corners`` are those of its parts."""
    known = set(corners)
    count = Counter(end for edge in cut.across for end in edge)
    return min((point for point, times in count.items() if times == 1 and point not in known), default=None)


def _edge(a: Point, b: Point) -> list[Edge]:
    """An edge, or none where both ends were rounded to one point."""
    return [(a, b)] if a != b else []


def _without_ends(across: Sequence[Edge], border: set[Point]) -> list[Edge]:
    """The edges across an area without those that end inside of it: nothing is parted there."""
    left = dict.fromkeys((min(edge), max(edge)) for edge in across)
    at: dict[Point, set[Edge]] = defaultdict(set)
    for edge in left:
        for end in edge:
            at[end].add(edge)
    loose = [point for point, edges in at.items() if len(edges) == 1 and point not in border]
    while loose:
        for edge in list(at[loose.pop()]):
            del left[edge]
            for end in edge:
                at[end].discard(edge)
                if len(at[end]) == 1 and end not in border:
                    loose.append(end)
    return list(left)
