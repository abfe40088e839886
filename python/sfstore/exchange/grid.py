"""The grid: which doubles are steps from an origin, and which doubles stand for steps."""

from __future__ import annotations

import math
from collections.abc import Sequence
from dataclasses import dataclass
from fractions import Fraction

from sfstore.language import GRID_MAX, GRID_MIN
from sfstore.mapunits import MapUnits, grid_decimal

__all__ = ["LEAST", "MOST", "NOISE_ULPS", "Grid", "OffGrid", "Outside", "Rounding"]

LEAST, MOST = GRID_MIN, GRID_MAX
"""The coordinates of the store, in steps from the origin."""

# Further than the nearest step can be from the one that a quotient of doubles tells.
_FAR = 2 * MOST

NOISE_ULPS = 8
"""How many units in the last place a double may differ from a coordinate of the grid that it is taken for.

Each operation on doubles, as a sum of an origin and steps, is off by half a unit of its largest number.
"""

# A step has room for so many times what doubles may differ, or nothing is taken for noise.
_STEPS_OF_NOISE = 1_000


class OffGrid(ValueError):
    """A coordinate is no step of the grid. The text names it, and the two that it stands between."""


class Outside(ValueError):
    """A coordinate is further from the origin than the store's coordinates go. The text names it."""


@dataclass
class Rounding:
    """How far coordinates are from the steps that they are taken for, in the units of the source."""

    is_asked: bool = True
    """Whether coordinates may be moved to the nearest step. Else those alone are taken that differ by noise."""
    moved: int = 0
    """How many coordinates were moved."""
    total: float = 0.0
    """How far all of them together."""
    most: float = 0.0
    """How far the one that was moved furthest."""
    noisy: int = 0
    """How many coordinates differed from a step by no more than doubles do."""
    most_noise: float = 0.0
    """How far the one that differed most."""


class Grid:
    """Steps from an origin, all three exact decimals.

    A double is *on* the grid if it is the one nearest to origin + k * step for a whole k. So the
    double that a step stands for is the one that came in. One that differs from that by `NOISE_ULPS` units in the
    last place at most is taken for it. The units are those of the largest of the double, the origin and the step:
    whoever has computed it has computed with these. `ValueError` where a word is no decimal, or the step is not
    above 0.
    """

    words: tuple[str, str, str]
    """x and y of the origin, and the step, as they were given."""

    def __init__(self, x: str, y: str, step: str) -> None:
        self.words = x, y, step
        exact = [Fraction(grid_decimal(word)) for word in self.words]
        if exact[2] <= 0:
            raise ValueError(f"the step of a grid is above 0, not {step}")
        self._denominator = math.lcm(*(number.denominator for number in exact))
        whole = [int(number * self._denominator) for number in exact]
        self._origin, self._step = whole[:2], whole[2]
        self._near_origin = [float(number) for number in exact[:2]]
        self._near_step = float(exact[2])
        if self._near_step == 0.0:
            raise ValueError(f"the step {step} is too small")

    def places(self, steps: Sequence[float]) -> list[float]:
        """The doubles of steps, x and y in turn: of each the nearest to origin + k * step."""
        origin, step, denominator = self._origin, self._step, self._denominator
        # A quotient of whole numbers is the nearest double.
        return [
            (origin[index & 1] + int(k) * step) / denominator for index, k in enumerate(steps)
        ]

    def steps(self, places: Sequence[float], rounding: Rounding | None = None) -> list[int]:
        """The steps of doubles, x and y in turn.

        `OffGrid` where one is no step, unless rounding is asked for: the nearest step is taken then. What is moved,
        or taken for a step, is counted in ``rounding``. `Outside` where one is too far from the origin.
        """
        found = self._steps_of_all(places)
        return self._steps_of_each(places, rounding) if found is None else found

    def _steps_of_all(self, places: Sequence[float]) -> list[int] | None:
        """The steps of doubles that are all on the grid, which most are; none where one is not, or is too far."""
        origin, step, denominator = self._origin, self._step, self._denominator
        (near_x, near_y), near_step = self._near_origin, self._near_step
        found = [0] * len(places)
        try:
            found[::2] = [round((x - near_x) / near_step) for x in places[::2]]
            found[1::2] = [round((y - near_y) / near_step) for y in places[1::2]]
        except (ValueError, OverflowError):
            return None
        if found and (min(found) < LEAST or max(found) > MOST):
            return None
        doubles = [(origin[0] + k * step) / denominator for k in found[::2]]
        others = [(origin[1] + k * step) / denominator for k in found[1::2]]
        return found if doubles == list(places[::2]) and others == list(places[1::2]) else None

    def _steps_of_each(self, places: Sequence[float], rounding: Rounding | None) -> list[int]:
        """As `steps`, one by one."""
        origin, step, denominator = self._origin, self._step, self._denominator
        near_origin, near_step = self._near_origin, self._near_step
        found = []
        for index, place in enumerate(places):
            axis = index & 1
            try:
                k = round((place - near_origin[axis]) / near_step)
            except (ValueError, OverflowError):
                raise OffGrid(f"{'xy'[axis]} {place!r} of point {index // 2}") from None
            if abs(k) > _FAR:
                # The double of such a step may be none at all.
                raise Outside(f"{'xy'[axis]} {place!r} of point {index // 2}")
            if (origin[axis] + k * step) / denominator != place:
                k = self._nearest(place, axis)
                moved = abs((origin[axis] + k * step) / denominator - place)
                if moved and not self._is_taken(moved, place, axis, rounding):
                    raise OffGrid(f"{'xy'[axis]} {place!r} of point {index // 2}, between {self._beside(place, axis)}")
            if not LEAST <= k <= MOST:
                raise Outside(f"{'xy'[axis]} {place!r} of point {index // 2}")
            found.append(k)
        return found

    def in_steps(self, places: Sequence[float]) -> list[Fraction]:
        """The places of doubles in steps, x and y in turn: exact, whether on the grid or not."""
        origin, step, denominator = self._origin, self._step, self._denominator
        return [(Fraction(place) * denominator - origin[index & 1]) / step for index, place in enumerate(places)]

    def noise(self, place: float, axis: int) -> float:
        """How far a double may be from a step that it is taken for."""
        noise = NOISE_ULPS * math.ulp(max(abs(place), abs(self._near_origin[axis]), self._near_step))
        return noise if noise * _STEPS_OF_NOISE <= self._near_step else 0.0

    def _is_taken(self, moved: float, place: float, axis: int, rounding: Rounding | None) -> bool:
        """Whether a double is taken for a step that it is so far from. That is counted."""
        if moved <= self.noise(place, axis):
            if rounding is not None:
                rounding.noisy += 1
                rounding.most_noise = max(rounding.most_noise, moved)
            return True
        if rounding is None or not rounding.is_asked:
            return False
        rounding.moved += 1
        rounding.total += moved
        rounding.most = max(rounding.most, moved)
        return True

    @property
    def is_coarse(self) -> bool:
        """Whether each step has a double of its own, as far as the store's coordinates go."""
        far = max(abs(place) for place in self._near_origin) + _FAR * self._near_step
        return self._near_step >= 2 * math.ulp(far)

    def tells_apart(self, places: Sequence[float]) -> bool:
        """Whether the steps beside each of some doubles have doubles of their own."""
        return all(self._near_step >= 2 * math.ulp(place) for place in places)

    def blurred(self, steps: Sequence[float]) -> int:
        """How many of some steps do not come back from their doubles, since others have the same."""
        try:
            found = self.steps(self.places(steps))
        except ValueError:
            return len(steps)
        return sum(known != step for known, step in zip(found, steps))

    @property
    def fractions(self) -> tuple[int, int, int, int]:
        """x and y of the origin and the step as whole numbers, and the denominator that they have in common."""
        return self._origin[0], self._origin[1], self._step, self._denominator

    def exact(self, x: int | Fraction, y: int | Fraction) -> tuple[Fraction, Fraction]:
        """The place of a point on a step or between steps."""
        return (
            Fraction(self._origin[0] + x * self._step, self._denominator),
            Fraction(self._origin[1] + y * self._step, self._denominator),
        )

    def _beside(self, place: float, axis: int) -> str:
        """The two coordinates of the grid that a double stands between."""
        below = (Fraction(place) * self._denominator - self._origin[axis]) // self._step
        units = MapUnits(*self.words)
        return " and ".join(units.coordinate(axis, step) for step in (below, below + 1))

    def _nearest(self, place: float, axis: int) -> int:
        """The step that is nearest to a double, exactly; of two the greater."""
        numerator, denominator = place.as_integer_ratio()
        twice = 2 * (numerator * self._denominator - self._origin[axis] * denominator)
        unit = 2 * self._step * denominator
        return (twice + unit // 2) // unit
