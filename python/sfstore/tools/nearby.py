"""Points of the grid by where they lie, so that those near one another are found."""

from __future__ import annotations

from collections import defaultdict
from collections.abc import Iterable, Iterator
from fractions import Fraction
from math import ceil

from sfstore.tools.places import Place, exact
from sfstore.tools.rings import Edge, Point

__all__ = ["Nearby", "Reach", "foot"]


class Reach:
    """A distance, of which the square is compared: exactly."""

    def __init__(self, steps: Fraction) -> None:
        self.steps = steps
        self.whole = ceil(steps)
        """The least whole number that is no less."""
        self._above, self._below = (steps * steps).as_integer_ratio()

    def has(self, a: Point, b: Point) -> bool:
        """Whether two points are no farther apart."""
        return self._below * ((a[0] - b[0]) ** 2 + (a[1] - b[1]) ** 2) <= self._above

    def has_edge(self, at: Point, edge: Edge) -> bool:
        """Whether a point is no farther from the inside of an edge: one at its ends is not."""
        (ax, ay), (bx, by) = edge
        along, across = bx - ax, by - ay
        part, square = (at[0] - ax) * along + (at[1] - ay) * across, along * along + across * across
        side = along * (at[1] - ay) - across * (at[0] - ax)
        return 0 < part < square and self._below * side * side <= self._above * square


class Nearby:
    """Points in the squares of a raster."""

    def __init__(self, side: int, points: Iterable[Point] = ()) -> None:
        """``side`` is how long the side of a square is; most boxes that are asked for are not much larger."""
        self._side = max(side, 1)
        self._squares: dict[Point, list[Point]] = defaultdict(list)
        for point in points:
            self.add(point)

    def add(self, point: Point) -> None:
        """Adds a point."""
        self._squares[point[0] // self._side, point[1] // self._side].append(point)

    def around(self, a: Point, b: Point, far: int) -> Iterator[Point]:
        """The points in the box of two points, and so far around it."""
        left, right = sorted((a[0], b[0]))
        bottom, top = sorted((a[1], b[1]))
        left, bottom, right, top = left - far, bottom - far, right + far, top + far
        for square in self._squares_of(left // self._side, bottom // self._side, right // self._side, top // self._side):
            for point in self._squares.get(square, ()):
                if left <= point[0] <= right and bottom <= point[1] <= top:
                    yield point

    def _squares_of(self, left: int, bottom: int, right: int, top: int) -> Iterable[Point]:
        """The squares of a box; all that have points where these are fewer."""
        if (right - left + 1) * (top - bottom + 1) > len(self._squares):
            return list(self._squares)
        return [(x, y) for x in range(left, right + 1) for y in range(bottom, top + 1)]


def foot(at: Point | Place, edge: Edge) -> Place:
    """The place of an edge that is nearest to a point beside it."""
    a, b = map(exact, edge)
    along, across = b[0] - a[0], b[1] - a[1]
    part = ((at[0] - a[0]) * along + (at[1] - a[1]) * across) / (along * along + across * across)
    return a[0] + part * along, a[1] + part * across
