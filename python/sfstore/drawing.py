"""The tools of those who draw maps, as commands of the console."""

from __future__ import annotations

import re
from collections.abc import Callable, Iterator, Sequence
from decimal import Decimal
from fractions import Fraction

from sfstore.editor import Editor
from sfstore.faults import Point, point_text
from sfstore.geometry import Shape
from sfstore.mapunits import MapUnits
from sfstore.tools import NotDone, border, cleaning, fill, hole, merge, move_node, snapping
from sfstore.tools.cleaning import Changed, Defect
from sfstore.tools.drafting import Drafting, Planned, planned
from sfstore.tools.joining import Move
from sfstore.tools.rings import edges_of
from sfstore.tools.sending import Which, steps_of
from sfstore.tools.splitting import parted

__all__ = ["Drawing"]

_NUMBER = re.compile(r"[0-9]+(?:\.[0-9]*)?|\.[0-9]+")
_WITHIN = "within"
_AREAS = (3, 6)


class Drawing:
    """The tools over a store, with coordinates as a person types and reads them."""

    def __init__(self, store: Editor, units: MapUnits | None, show: Callable[[str], None], ask: Callable[[str], bool]) -> None:
        """``show`` writes a text for the person, and ``ask`` has a question answered by yes or no."""
        self._store = store
        self._units = units
        self._show = show
        self._ask = ask

    def run(self, word: str, words: list[str]) -> None:
        """Carries out a command of this name. `ValueError` where its words are wrong, and `NotDone` where it does nothing."""
        getattr(self, f"_{word}")(words)

    def told(self, fault: NotDone) -> str:
        """Why nothing was done, with places as the person counts them."""
        return fault.told(self._at)

    def _split(self, words: list[str]) -> None:
        """Parts a polygon by a line, and tells the numbers of the parts, and which neighbours have new corners."""
        if len(words) < 3:
            raise ValueError("split takes a layer, a number and a LINESTRING")
        done = parted(self._store, words[0], _feature(words[1]), self._wkt(words[2:]))
        beside = f"; new corners in {_names(done.beside)}" if done.beside else ""
        self._show(f"ok: {words[0]} {', '.join(map(str, done.parts))}{beside}")

    def _merge(self, words: list[str]) -> None:
        """Makes one area of several."""
        if len(words) < 3:
            raise ValueError("merge takes a layer and two or more numbers")
        layer, first, *others = words[0], *map(_feature, words[1:])
        merge(self._store, layer, first, *others)
        self._show(f"ok: {layer} {first}")

    def _node(self, words: list[str]) -> None:
        """Moves a corner in all features that have it."""
        if len(words) != 5 or words[2] != "to":
            raise ValueError("node takes x and y, the word `to`, and x and y again")
        at, to = self._point(words[:2]), self._point(words[3:])
        self._ok(move_node(self._store, [layer.name for layer in self._store.layers()], at, to))

    def _border(self, words: list[str]) -> None:
        """Gives two areas another border between them."""
        if len(words) < 4:
            raise ValueError("border takes a layer, two numbers and a LINESTRING")
        self._ok(border(self._store, words[0], _feature(words[1]), _feature(words[2]), self._wkt(words[3:])))

    def _hole(self, words: list[str]) -> None:
        """Cuts a hole into an area."""
        if len(words) < 3:
            raise ValueError("hole takes a layer, a number and a POLYGON")
        hole(self._store, words[0], _feature(words[1]), self._wkt(words[2:]))
        self._show(f"ok: {words[0]} {words[1]}")

    def _fill(self, words: list[str]) -> None:
        """Fills a hole of an area, or all of them."""
        if len(words) not in (2, 4):
            raise ValueError("fill takes a layer and a number, and x and y where one hole is meant")
        count = fill(self._store, words[0], _feature(words[1]), self._point(words[2:]) if words[2:] else None)
        self._show(f"ok: {_counted(count, 'hole')} of {words[0]} {words[1]}")

    def _snap(self, words: list[str]) -> None:
        """Shows what of some layers is near one another, and makes it one when that is wanted."""
        layers, within = self._layers_within("snap", words)
        plan = snapping(self._store, layers, within)
        if not plan.moves:
            self._show("Nothing is that near.")
            return
        heads = f"{_counted(len(plan.moves), 'node')} would be moved, in {_counted(len(plan.changed), 'feature')}."
        gone = [row for which, after in plan.changed.items() for row in _fewer_rings(which, plan.seen[which], after)]
        self._show("\n".join([*map(self._move_row, plan.moves), *gone, heads]))
        self._do(plan.carry_out, len(plan.changed))

    def _clean(self, words: list[str]) -> None:
        """Shows the overlaps and gaps of a layer, and takes away the narrow ones when that is wanted."""
        layers, within = self._layers_within("clean", words)
        for layer in layers:
            plan = cleaning(self._store, layer, within)
            done = plan.cleaning
            rows = [*map(self._defect_row, done.defects), *(self._changed_row(which, each) for which, each in done.changed.items())]
            if not rows:
                self._show(f"{layer} has no overlap, no gap, and nothing that near.")
                continue
            self._show("\n".join([*rows, f"{_counted(len(done.changed), 'feature')} of {layer} would be changed."]))
            if done.changed:
                self._do(plan.carry_out, len(done.changed))

    def _preview(self, words: list[str]) -> None:
        """Shows what a tool would do, and does nothing."""
        if not words or words[0] not in _TOOLS:
            raise ValueError(f"preview takes one of {', '.join(sorted(_TOOLS))}, and what goes with it")
        tried = Drafting(self._store)
        lines: list[str] = []
        Drawing(tried, self._units, lines.append, lambda _: False).run(words[0], words[1:])
        if words[0] in _ASKING:
            self._show("\n".join(lines))
        for members in tried.groups:
            self._show("\n".join(map(self._planned_row, planned(self._store, members))))
        self._show("Nothing was done.")

    def _do(self, carry_out: Callable[[Editor], int], count: int) -> None:
        """Does what was shown, where that is wanted."""
        steps = steps_of(count)
        many = "" if steps == 1 else f" It takes {steps} steps, as one has not room for all, and an undo takes back one of them."
        if not self._ask(f"Do it?{many}"):
            return
        carry_out(self._store)
        self._show(f"ok: {_counted(count, 'feature')}, {_counted(steps, 'step')}")

    def _ok(self, changed: Sequence[Which]) -> None:
        """Tells which features were changed."""
        self._show("ok: " + ", ".join(f"{layer} {feature}" for layer, feature in changed))

    def _wkt(self, words: list[str]) -> str:
        """A geometry that was typed, in steps. `ValueError` where a coordinate is no place of the grid."""
        wkt = " ".join(words)
        return self._units.steps(wkt) if self._units else wkt

    def _point(self, words: list[str]) -> tuple[int, int]:
        """A point of the grid that was typed. `ValueError` where it is none."""
        x, y = words
        steps = self._units.steps(f"({x} {y})") if self._units else f"({x} {y})"
        found = re.fullmatch(r"\((-?[0-9]+) (-?[0-9]+)\)", steps)
        if found is None:
            raise ValueError(f"{x} {y} is no point of the grid")
        return int(found[1]), int(found[2])

    def _layers_within(self, word: str, words: list[str]) -> tuple[list[str], Fraction]:
        """Layers and a distance, in steps. `ValueError` where they are none."""
        *layers, within, distance = words if len(words) > 2 else ["", "", ""]
        if within != _WITHIN or not _NUMBER.fullmatch(distance):
            raise ValueError(f"{word} takes layers, the word `within`, and a distance")
        return layers, Fraction(distance) / Fraction(self._units.step if self._units else 1)

    def _at(self, point: Point) -> str:
        """A place as the person counts."""
        return self._units.point_text(point) if self._units else point_text(point)

    def _move_row(self, move: Move[Which]) -> str:
        """A node that would be moved."""
        return f"{self._at(move.at)} to {self._at(move.to)}: {_names(move.features)}"

    def _defect_row(self, defect: Defect[Which]) -> str:
        """An overlap or a gap, and what would become of it."""
        what = f"gap between {_names(defect.features)}" if defect.is_gap else f"overlap of {_names(defect.features)}"
        end = "it is wider than that, and stays" if defect.to is None else f"it goes to {_names([defect.to])}"
        return f"{what} at {self._at(defect.at)}, area {self._area(defect.area)}: {end}"

    def _changed_row(self, which: Which, changed: Changed) -> str:
        """A feature that would be another one."""
        return f"{_names([which])} at {self._at(changed.at)}: area {self._area(changed.area_before)} before, {self._area(changed.area_after)} after"

    def _planned_row(self, plan: Planned) -> str:
        """What a tool would do to a feature."""
        name = f"a new one in {plan.layer}" if plan.feature_id is None else f"{plan.layer} {plan.feature_id}"
        if plan.after is None:
            return f"{name}: deleted"
        return f"{name}: {f'{self._size(plan.before)} before, ' if plan.before else ''}{self._size(plan.after)}{' after' if plan.before else ''}"

    def _size(self, shape: Shape) -> str:
        """How many points a geometry has, and its area where it is one."""
        count = _counted(sum(len(line) // 2 for member in shape.members for line in member), "point")
        if shape.code not in _AREAS:
            return count
        return f"area {self._area(Fraction(sum(a[0] * b[1] - a[1] * b[0] for a, b in edges_of(shape)), 2))} of {count}"

    def _area(self, squared_steps: Fraction) -> str:
        """An area as the person counts: exact, as a whole number of halves has an end."""
        number = Decimal(squared_steps.numerator) / squared_steps.denominator
        return format(self._units.area(number) if self._units else number, "f")


_ASKING = {"snap", "clean"}
_TOOLS = {"split", "merge", "node", "border", "hole", "fill", *_ASKING}


def _feature(word: str) -> int:
    """The number of a feature. `ValueError` where a word is none."""
    if not (word.isascii() and word.isdecimal()):
        raise ValueError(f"{word} is no number of a feature")
    return int(word)


def _names(features: Sequence[Which]) -> str:
    return ", ".join(f"{layer} {feature}" for layer, feature in features)


def _fewer_rings(which: Which, before: Shape, after: Shape) -> Iterator[str]:
    """What is said of a feature of which a part or a hole would be gone."""
    old, new = (sum(map(len, shape.members)) for shape in (before, after))
    if new < old:
        yield f"{_names([which])} would have {_counted(new, 'ring')}, and has {old}"


def _counted(count: int, what: str) -> str:
    return f"{count:,} {what}{'' if count == 1 else 's'}"
