"""An area parted by a line, with the new corners put into each neighbour whose border passes there."""

from __future__ import annotations

from collections.abc import Sequence
from functools import partial
from typing import NamedTuple

from sfstore.editor import Editor
from sfstore.geometry import Shape, read_wkt, write_wkt
from sfstore.tools.cutting import bent_by, check_parted, cut_of, loose_end, neighbours_of, with_corners
from sfstore.tools.notdone import NotDone
from sfstore.tools.pins import pins_of, points_of, shape_of
from sfstore.tools.rings import doubled, edges_of, polygons_of, written
from sfstore.tools.sending import Which

__all__ = ["Parted", "parted", "split"]


class Parted(NamedTuple):
    """What parting an area has changed."""

    parts: list[int]
    """The identifiers of the parts, that of the feature first."""
    beside: list[Which]
    """The neighbours that have new corners."""


def split(store: Editor, layer: str, feature_id: int, line: str, *, beside: Sequence[str] = ()) -> list[int]:
    """Parts a polygon by a line, as one step. The identifiers of the parts: the largest keeps that of the feature.

    Each part gets the values of the feature. Where the line crosses a border off the grid, the new corner is rounded to it
    once. It goes into each feature whose border passes there, of the layer and of the layers ``beside``, and the corners of
    all of these on an edge that it bends do too: so the parts fit their neighbours as before.

    `NotDone` where the feature is no POLYGON, nor a MULTIPOLYGON of one. The same where the line does not part it, crosses
    itself in it, or parts it too narrowly for the grid. `Refused` where the program refuses the line or the group, and
    nothing has changed.

    >>> from sfstore import Store
    >>> with Store() as store:
    ...     store.add_layer("parcels", "polygon")
    ...     store.add("parcels", "POLYGON ((0 0, 10 0, 10 9, 0 9, 0 0))")
    ...     split(store, "parcels", 1, "LINESTRING (4 -1, 5 10)")
    ...     [feature.wkt for feature in store.show("parcels")]
    1
    [1, 2]
    ['POLYGON ((4 0, 10 0, 10 9, 5 9, 4 0))', 'POLYGON ((0 0, 4 0, 5 9, 0 9, 0 0))']
    """
    return parted(store, layer, feature_id, line, beside=beside).parts


def parted(store: Editor, layer: str, feature_id: int, line: str, *, beside: Sequence[str] = ()) -> Parted:
    """Parts a polygon as `split` does, and says which neighbours were changed too."""
    # The program reads the line first: what it does not take it refuses by name.
    store.relate(layer, feature_id, line)
    shape = _area(store, layer, feature_id)
    cutter = read_wkt(line)
    if cutter.code != 2:
        raise NotDone("the line is no LINESTRING")
    border = list(edges_of(shape))
    points = points_of(cutter.members[0][0])
    cut = cut_of(border, points)
    layers = list(dict.fromkeys((layer, *beside)))
    neighbours = dict(neighbours_of(store, layers, shape)) if cut.corners else {}
    neighbours.pop((layer, feature_id), None)
    cut.pins = pins_of(store, layers, bent_by([shape, *neighbours.values()], cut))
    edges = list(cut.edges(border))
    check_parted(cut, edges, points, border, f"{layer} {feature_id}")
    parts = sorted(polygons_of(edges), key=lambda part: -doubled(part.shell))
    if len(parts) < 2:
        loose = loose_end(cut, (a for a, _ in edges))
        where = "it begins at" if loose is None else "it ends inside of it at"
        raise NotDone(f"the line does not part {layer} {feature_id}: {where} {{}}", loose or points[0])
    texts = [write_wkt(Shape(shape.code, written([part]).members)) for part in parts]
    bent = {which: it.mapped(partial(with_corners, cut=cut)) for which, it in neighbours.items()}
    bent = {which: it for which, it in bent.items() if it != neighbours[which]}
    [feature] = store.get(layer, feature_id)
    with store.together() as group:
        group.replace(layer, feature_id, texts[0])
        for text in texts[1:]:
            added = group.add(layer, text)
            for name, value in feature.values.items():
                group.set(layer, added, name, value)
        for (other_layer, other), changed in bent.items():
            group.replace(other_layer, other, write_wkt(changed))
    return Parted([feature_id, *group.ids], list(bent))


def _area(store: Editor, layer: str, feature_id: int) -> Shape:
    """The polygon of a feature. `NotDone` where it is none, nor a MULTIPOLYGON of one."""
    shape = shape_of(store, layer, feature_id)
    if shape.code != 3 and (shape.code != 6 or len(shape.members) > 1):
        raise NotDone(f"{layer} {feature_id} is no POLYGON")
    return shape
