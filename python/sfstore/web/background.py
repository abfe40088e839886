"""Tiles of another server that lie under the map, where whoever runs this one allows it."""

from __future__ import annotations

import re
from typing import NamedTuple

__all__ = ["Background", "background_of"]

# What stands in an address: nothing that would end a word of a content security policy, or of a header.
_ADDRESS = re.compile(r"(https?://[A-Za-z0-9.-]{1,253}(?::[0-9]{1,5})?)/[A-Za-z0-9._~/?&=%@:+{}-]{1,1000}")
_PARTS = ("{z}", "{x}", "{y}")


class Background(NamedTuple):
    """Where tiles come from, and who made them."""

    address: str
    """With `{z}`, `{x}` and `{y}` where a tile is named, in the web's usual scheme."""
    origin: str
    """The one server beside this one from which the page may have pictures."""
    credit: str
    """What stands at the map, as those who made the tiles want it."""


def background_of(address: str, credit: str) -> Background:
    """The background of an address. `ValueError` where it is none.

    >>> background_of("https://tiles.example.org/{z}/{x}/{y}.png", "").origin
    'https://tiles.example.org'
    """
    found = _ADDRESS.fullmatch(address)
    if found is None or any(address.count(part) != 1 for part in _PARTS) or "{" in re.sub(r"\{[zxy]\}", "", address):
        raise ValueError(f"{address} is no address of tiles: https://HOST/{{z}}/{{x}}/{{y}}.png is one")
    return Background(address, found[1], credit)
