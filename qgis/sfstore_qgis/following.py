"""What events say that a mirror has to take over."""

from __future__ import annotations

from collections.abc import Collection, Iterable
from typing import Any, NamedTuple

__all__ = ["Followed", "followed"]


class Followed(NamedTuple):
    """What has to be read again of the store."""

    features: dict[str, set[int]]
    """Features, by their layers."""
    whole: set[str]
    """Layers with their columns and all features."""
    is_anew: bool
    """Whether all has to be."""
    are_ruled: bool = False
    """Whether rules came or went."""


def followed(events: Iterable[dict[str, Any]], own: Collection[int]) -> Followed:
    """What events say, but for those of versions that this session has made itself."""
    features: dict[str, set[int]] = {}
    whole: set[str] = set()
    is_anew = are_ruled = False
    for event in events:
        is_anew = is_anew or bool(event.get("anew"))
        are_ruled = are_ruled or any(change["what"] == "rules" for change in event.get("changed", []))
        if event.get("version") in own:
            continue
        for change in event.get("changed", []):
            if change["layer"] is None:
                continue
            if change["id"] is None:
                whole.add(change["layer"])
            else:
                features.setdefault(change["layer"], set()).add(change["id"])
    return Followed(features, whole, is_anew, are_ruled)
