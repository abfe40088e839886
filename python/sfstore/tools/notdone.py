"""Why a tool makes no group."""

from __future__ import annotations

from collections.abc import Callable

from sfstore.faults import Point, point_text

__all__ = ["NotDone"]


class NotDone(ValueError):
    """A tool makes no group of what it was given, and nothing has changed. The text says why, and where.

    >>> fault = NotDone("no feature has a vertex at {}", (4, 5))
    >>> str(fault), fault.told(lambda point: f"{point[0] / 10}, {point[1] / 10}")
    ('no feature has a vertex at (4 5)', 'no feature has a vertex at 0.4, 0.5')
    """

    def __init__(self, words: str, *points: Point) -> None:
        super().__init__(words, *points)
        self.words = words
        """Why, with brackets where the points stand."""
        self.points = points
        """The points, in steps of the grid."""

    def __str__(self) -> str:
        return self.told(point_text)

    def told(self, spelled: Callable[[Point], str]) -> str:
        """The text, with points as they are wanted."""
        return self.words.format(*map(spelled, self.points))
