"""Several areas as one."""

from __future__ import annotations

from collections.abc import Sequence

from sfstore.editor import Editor
from sfstore.geometry import Shape, write_wkt
from sfstore.tools.notdone import NotDone
from sfstore.tools.pins import shape_of
from sfstore.tools.rings import Edge, edges_of, polygons_of, split_at, written

__all__ = ["area_of", "check_apart", "merge"]

_AREAS = (3, 6)


def merge(store: Editor, layer: str, *feature_ids: int) -> None:
    """Makes one feature of two or more areas of a layer, as one step: the first keeps its identifier and its values.

    What they share of their borders is gone. Areas that share no border become a MULTIPOLYGON, if the layer takes one. All
    their vertices stay, so that neighbours fit as before. `NotDone` where one of them is no area, or two overlap;
    `Refused` where the program refuses the group, and nothing has changed.

    >>> from sfstore import Store
    >>> with Store() as store:
    ...     store.add_layer("parcels", "polygon")
    ...     first = store.add("parcels", "POLYGON ((0 0, 10 0, 10 10, 0 10, 0 0))")
    ...     merge(store, "parcels", first, store.add("parcels", "POLYGON ((10 0, 20 0, 20 10, 10 5, 10 0))"))
    ...     store.show("parcels")
    [Feature(id=1, wkt='POLYGON ((0 0, 10 0, 20 0, 20 10, 10 5, 10 10, 0 10, 0 0))', values={})]
    """
    if len(feature_ids) < 2 or len(set(feature_ids)) < len(feature_ids):
        raise NotDone("a merge takes two or more features, each once")
    shapes = [area_of(store, layer, feature) for feature in feature_ids]
    check_apart(store, layer, feature_ids, shapes)
    whole = written(polygons_of(_outer(shapes)))
    if any(each.name == layer and each.kind == "multipolygon" for each in store.layers()):
        whole = Shape(6, whole.members)
    with store.together() as group:
        group.replace(layer, feature_ids[0], write_wkt(whole))
        for feature in feature_ids[1:]:
            group.delete(layer, feature)


def area_of(store: Editor, layer: str, feature: int) -> Shape:
    """The geometry of a feature. `NotDone` where it is no area."""
    shape = shape_of(store, layer, feature)
    if shape.code not in _AREAS:
        raise NotDone(f"{layer} {feature} is no area")
    return shape


def check_apart(store: Editor, layer: str, feature_ids: Sequence[int], shapes: Sequence[Shape]) -> None:
    """`NotDone` where two of the features have inner points in common."""
    wanted = set(feature_ids)
    for feature, shape in zip(feature_ids, shapes):
        overlapping = wanted.intersection(store.match(layer, "T********", write_wkt(shape))) - {feature}
        if overlapping:
            raise NotDone(f"{layer} {feature} and {min(overlapping)} overlap")


def _outer(shapes: Sequence[Shape]) -> list[Edge]:
    """The edges of areas that no other one of them has the other way round: those of their union."""
    edges = [edge for shape in shapes for edge in edges_of(shape)]
    parted = set(split_at(edges, [a for a, _ in edges]))
    return [(a, b) for a, b in parted if (b, a) not in parted]
