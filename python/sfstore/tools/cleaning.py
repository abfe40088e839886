"""Overlaps and gaps of a coverage that are narrower than a distance, taken away; each is shown."""

from __future__ import annotations

from collections import Counter, defaultdict
from collections.abc import Hashable, Iterable, Iterator, Mapping, Sequence
from dataclasses import dataclass
from decimal import Decimal
from fractions import Fraction
from math import isqrt
from typing import Generic, NamedTuple, Optional, TypeVar, Union

from sfstore.editor import Editor
from sfstore.geometry import Shape, read_wkt
from sfstore.tools.arrangement import Face, faces_of, noded
from sfstore.tools.joining import joined
from sfstore.tools.nearby import Reach
from sfstore.tools.notdone import NotDone
from sfstore.tools.remaking import inside_left
from sfstore.tools.rings import Edge, Point, edges_of, polygons_of, split_at, written
from sfstore.tools.sending import Which, check_as_seen, send

__all__ = ["Changed", "Cleaning", "Defect", "Plan", "clean", "cleaned", "cleaning"]

Key = TypeVar("Key", bound=Hashable)
Distance = Union[int, Decimal, Fraction]

_AREAS = (3, 6)
# How often corners near others are looked for: one that was moved may be near a further one.
_ROUNDS = 8
# Lengths are counted in so many parts of a step, and rounded down.
_PARTS = 1_000


@dataclass(frozen=True)
class Defect(Generic[Key]):
    """An overlap or a gap."""

    is_gap: bool
    at: Point
    """A corner of it."""
    area: Fraction
    """In squared grid steps."""
    features: list[Key]
    """Those that overlap; of a gap those around it."""
    to: Optional[Key]
    """The one that has it now; None where it is too wide, and was left."""


class Changed(NamedTuple):
    """A feature with another geometry."""

    before: Shape
    after: Shape
    area_before: Fraction
    """In squared grid steps."""
    area_after: Fraction
    at: Point
    """A corner where it is another one."""


@dataclass(frozen=True)
class Cleaning(Generic[Key]):
    """What was cleaned of a coverage, and what was left."""

    changed: dict[Key, Changed]
    defects: list[Defect[Key]]
    moved: int
    """How many corners were put onto others, or onto edges."""


class Plan(NamedTuple):
    """What a clean would do to a layer, before it is done."""

    cleaning: Cleaning[Which]

    def carry_out(self, store: Editor) -> int:
        """Does it, as one step, or as several where a group has not room for all. How many steps; 0 where there is nothing to do.

        `NotDone` where a feature was changed since. `Refused` where the program refuses a group. In both cases nothing has changed.
        """
        check_as_seen(store, {which: each.before for which, each in self.cleaning.changed.items()})
        return send(store, {which: each.after for which, each in self.cleaning.changed.items()})


def cleaning(store: Editor, layer: str, within: Distance) -> Plan:
    """What would be cleaned of the areas of a layer: nothing is done. The distance is in grid steps.

    Each overlap that is narrower goes to one of those that overlap, and each gap to one of those around it: to the one with which
    it has the longest border. How wide one is, is twice its area by the length of its border. What is wider stays as it is, and
    is shown. Then corners and edges of different features that are no farther apart become one. `NotDone` where nothing would be
    left of a feature.

    >>> from sfstore import Store
    >>> with Store() as store:
    ...     store.add_layer("parcels", "polygon")
    ...     for text in "POLYGON ((0 0, 50 0, 51 50, 0 50, 0 0))", "POLYGON ((50 0, 90 0, 90 90, 50 50, 50 0))":
    ...         added = store.add("parcels", text)
    ...     plan = cleaning(store, "parcels", 2)
    ...     {which: (str(each.area_before), str(each.area_after)) for which, each in plan.cleaning.changed.items()}
    ...     plan.carry_out(store)
    ...     list(store.join("parcels", "T********", "parcels"))
    {('parcels', 1): ('2525', '2500')}
    1
    []
    """
    shapes = {(layer, feature.id): read_wkt(feature.wkt) for feature in store.show(layer)}
    return Plan(cleaned(shapes, within))


def clean(store: Editor, layer: str, within: Distance) -> Cleaning[Which]:
    """Takes away what `cleaning` finds, as one step, or as several where a group has not room for all.

    What was cleaned, and what was left. `NotDone` where nothing would be left of a feature, and `Refused` where the program
    refuses a group. In both cases nothing has changed.
    """
    plan = cleaning(store, layer, within)
    plan.carry_out(store)
    return plan.cleaning


def cleaned(shapes: Mapping[Key, Shape], within: Distance) -> Cleaning[Key]:
    """Areas cleaned; what is none stays as it is. `NotDone` where the distance is not above 0, or too large for a feature."""
    steps = Fraction(within)
    if steps <= 0:
        raise NotDone("the distance is not above 0")
    areas = {key: shape for key, shape in shapes.items() if shape.code in _AREAS}
    coverage = _Coverage({key: edges_of(shape) for key, shape in areas.items()}, steps)
    settled: list[Defect[Key]] = []
    moved = 0
    for _ in range(_ROUNDS):
        whole = {key: written(polygons_of(edges)) for key, edges in coverage.borders().items()}
        near = joined(whole, Reach(steps), apart=True)
        if not near.moves:
            break
        moved += len(near.moves)
        settled += (defect for defect in coverage.defects if defect.to is not None)
        coverage = _Coverage({key: _directed(whole[key], members) for key, members in near.lines.items()}, steps)
    return Cleaning(_changed(areas, coverage.borders()), settled + coverage.defects, moved)


class _Coverage(Generic[Key]):
    """The faces of a coverage, and the area that each is of, where it is not left to several or none."""

    def __init__(self, borders: Mapping[Key, Iterable[Edge]], steps: Fraction) -> None:
        """``steps`` is how narrow a face is that goes to one area."""
        try:
            parted = noded(borders)
        except ValueError as fault:
            raise NotDone(str(fault)) from None
        self._faces = faces_of(parted)
        self._whose = [[key for key, times in face.covers.items() if times > 0] for face in self._faces]
        self._left_of = {edge: place for place, face in enumerate(self._faces) for edge in face.edges}
        self._rich = Counter(keys[0] for keys in self._whose if len(keys) == 1)
        """How many faces each area has alone."""
        self.defects: list[Defect[Key]] = []
        """What was settled, and what was left."""
        self._settle(steps)

    def _settle(self, steps: Fraction) -> None:
        """Gives each face that none or several have, and that is narrow, to one of them."""
        odd = [place for place, keys in enumerate(self._whose) if len(keys) != 1]
        narrow = [place for place in odd if _is_narrow(self._faces[place], steps)]
        while narrow:
            taken = {place: key for place in narrow for key in self._taker(place)}
            if not taken:
                break
            for place, key in taken.items():
                self._tell(place, key)
            for place, key in taken.items():
                self._whose[place] = [key]
                self._rich[key] += 1
            narrow = [place for place in narrow if place not in taken]
        for place in odd:
            if len(self._whose[place]) != 1:
                self._tell(place, None)

    def borders(self) -> dict[Key, list[Edge]]:
        """The edges of each area, with the inside on their left."""
        found: dict[Key, list[Edge]] = defaultdict(list)
        for place, face in enumerate(self._faces):
            for edge in face.edges:
                beside = self._beside(edge)
                for key in self._whose[place]:
                    if key not in beside:
                        found[key].append(edge)
        return found

    def _beside(self, edge: Edge) -> list[Key]:
        """The areas on the right of an edge."""
        place = self._left_of.get(edge[::-1])
        return [] if place is None else self._whose[place]

    def _taker(self, place: int) -> list[Key]:
        """The area that a face goes to, if that is known yet: one that has nothing else, or the one with the longest border there."""
        keys = self._whose[place]
        poor = [key for key in keys if not self._rich[key]]
        if poor:
            return poor if len(poor) == 1 else []
        lengths: Counter[Key] = Counter()
        for edge in self._faces[place].edges:
            beside = self._beside(edge)
            if len(beside) == 1 and (not keys or beside[0] in keys):
                lengths[beside[0]] += _length(edge)
        return sorted(lengths, key=lambda key: (-lengths[key], repr(key)))[:1]

    def _tell(self, place: int, to: Key | None) -> None:
        """Notes what becomes of a face."""
        face, keys = self._faces[place], self._whose[place]
        around = {key for edge in face.edges for key in self._beside(edge)}
        concerned = sorted(keys or around, key=repr)
        self.defects.append(Defect(not keys, min(a for a, _ in face.edges), Fraction(face.doubled, 2), concerned, to))


def _directed(before: Shape, members: Sequence[Sequence[list[Point]]]) -> Iterator[Edge]:
    """The edges of an area whose points were moved, with the inside on their left as it was before."""
    for member, old in zip(members, before.members):
        for place, (line, old_line) in enumerate(zip(member, old)):
            yield from inside_left(line, old_line, place)


def _is_narrow(face: Face[Key], steps: Fraction) -> bool:
    """Whether twice an area by the length of its border is no more than a distance."""
    return face.doubled * _PARTS <= steps * sum(map(_length, face.edges))


def _length(edge: Edge) -> int:
    """The length of an edge in parts of a step, rounded down."""
    (ax, ay), (bx, by) = edge
    return isqrt(_PARTS * _PARTS * ((bx - ax) ** 2 + (by - ay) ** 2))


def _changed(areas: Mapping[Key, Shape], borders: Mapping[Key, Sequence[Edge]]) -> dict[Key, Changed]:
    """The areas that have another border than before. `NotDone` where one has none any more."""
    found = {}
    for key, shape in areas.items():
        edges = set(borders.get(key, ()))
        before = set(split_at(edges_of(shape), {a for a, _ in edges}))
        if before == edges:
            continue
        at = min(before ^ edges)[0]
        if not edges:
            raise NotDone(f"nothing would be left of {_name(key)}, near {{}}: the distance is too large for it", at)
        whole = written(polygons_of(edges))
        after = Shape(6, whole.members) if shape.code == 6 else whole
        found[key] = Changed(shape, after, _area(edges_of(shape)), _area(edges), at)
    return found


def _name(key: Hashable) -> str:
    """A feature in words."""
    return " ".join(map(str, key)) if isinstance(key, tuple) else str(key)


def _area(edges: Iterable[Edge]) -> Fraction:
    """The area that edges have on their left."""
    return Fraction(sum(a[0] * b[1] - a[1] * b[0] for a, b in edges), 2)
