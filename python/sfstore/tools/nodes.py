"""A corner that several features share, moved in all of them."""

from __future__ import annotations

from collections.abc import Sequence
from functools import partial

from sfstore.editor import Editor
from sfstore.geometry import Flat, Shape, write_wkt
from sfstore.tools.notdone import NotDone
from sfstore.tools.pins import pairs, pins_of, points_of, shape_of
from sfstore.tools.rings import Edge, Point, split_at

__all__ = ["move_node"]

_AREAS = (3, 6)


def move_node(store: Editor, layers: Sequence[str], at: Point, to: Point) -> list[tuple[str, int]]:
    """Moves each vertex that stands at a point to another one, in all features of some layers, as one step.

    An area whose border passes through the point between two vertices gets a vertex there, and an edge that the move bends
    keeps the corners of others on it: so neighbours fit as before. A line that passes there stays as it is. The features
    that are changed, by their layers and identifiers. `NotDone` where none has a vertex there; `Refused` where the program refuses the group, and nothing
    has changed.

    >>> from sfstore import Store
    >>> with Store() as store:
    ...     store.add_layer("parcels", "polygon")
    ...     for left, right in ("0 0", "0 9"), ("20 0", "20 9"):
    ...         added = store.add("parcels", f"POLYGON (({left}, 10 0, 10 9, {right}, {left}))")
    ...     move_node(store, ["parcels"], (10, 9), (11, 12))
    ...     store.get("parcels", 2)
    [('parcels', 1), ('parcels', 2)]
    [Feature(id=2, wkt='POLYGON ((20 0, 10 0, 11 12, 20 9, 20 0))', values={})]
    """
    layers = list(dict.fromkeys(layers))
    shapes = {
        (layer, feature): shape_of(store, layer, feature)
        for layer in layers
        for feature in store.query(layer, "intersects", f"POINT ({at[0]} {at[1]})")
    }
    shapes = {which: shape for which, shape in shapes.items() if shape.code in _AREAS or at in _points(shape)}
    lines = [points_of(line) for shape in shapes.values() for member in shape.members for line in member]
    if not any(at in line for line in lines):
        raise NotDone("no feature has a vertex at {}", at)
    bent = {(min(edge), max(edge)) for line in lines for edge in pairs(line) if _is_on(at, edge)}
    stops = {at, *pins_of(store, layers, bent)}
    changed = {which: moved for which, shape in shapes.items() if (moved := shape.mapped(partial(_moved, at=at, to=to, stops=stops))) != shape}
    with store.together() as group:
        for (layer, feature), moved in changed.items():
            group.replace(layer, feature, write_wkt(moved))
    return list(changed)


def _points(shape: Shape) -> list[Point]:
    """All points of a geometry."""
    return [point for member in shape.members for line in member for point in points_of(line)]


def _is_on(at: Point, edge: Edge) -> bool:
    """Whether a point is an end of an edge, or lies within it."""
    return at in edge or len(list(split_at([edge], [at]))) > 1


def _moved(line: Flat, at: Point, to: Point, stops: set[Point]) -> Flat:
    """A list of coordinates with a point moved, and with the stops on the edges at that point; itself where it has none."""
    points = points_of(line)
    found = points[:1]
    for edge in pairs(points):
        pieces = split_at([edge], stops) if _is_on(at, edge) else [edge]
        found += [end for _, end in pieces]
    if at not in found:
        return line
    return [number for point in found for number in (to if point == at else point)]
