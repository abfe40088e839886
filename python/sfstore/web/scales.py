"""How long a unit of a map's reference system is."""

from __future__ import annotations

import math
import re

__all__ = ["metres_of", "symbol_of"]

_UNIT = re.compile(r'(?:LENGTH|ANGLE)?UNIT\["[^"]{0,80}", ?([0-9.eE+-]{1,40})')
# As long as the equator is round the earth, a radian of it.
_RADIAN_METRES = 6_378_137.0
_METRES_MIN, _METRES_MAX = 1e-6, 1e6
# How a unit is written that has so many metres or radians.
_SYMBOLS = {"m": 1.0, "km": 1_000.0, "ft": 0.3048, "US ft": 1200 / 3937}
_DEGREE = math.pi / 180
_LENGTHS = ("PROJ", "LOCAL", "ENG")


def metres_of(wkt: str) -> float | None:
    """How many metres a unit of a reference system is, of angles on the equator. None where its text does not say it.

    >>> metres_of('PROJCS["x",GEOGCS["y",UNIT["degree",0.0174532925199433]],UNIT["US survey foot",0.304800609601219]]')
    0.304800609601219
    """
    factor = _factor_of(wkt)
    if factor is None:
        return None
    metres = factor if wkt.lstrip().startswith(_LENGTHS) else factor * _RADIAN_METRES
    return metres if _METRES_MIN <= metres <= _METRES_MAX else None


def symbol_of(wkt: str) -> str:
    """How a unit of a reference system is written behind a number. Empty where its text does not say it, or says another one.

    >>> symbol_of('PROJCS["x",GEOGCS["y",UNIT["degree",0.0174532925199433]],UNIT["metre",1]]'), symbol_of("")
    ('m', '')
    """
    factor = _factor_of(wkt)
    if factor is None:
        return ""
    if not wkt.lstrip().startswith(_LENGTHS):
        return "\N{DEGREE SIGN}" if math.isclose(factor, _DEGREE, rel_tol=1e-9) else ""
    return next((symbol for symbol, metres in _SYMBOLS.items() if math.isclose(factor, metres, rel_tol=1e-9)), "")


def _factor_of(wkt: str) -> float | None:
    """How many metres or radians the unit of a reference system has, as its text says."""
    found = _UNIT.findall(wkt)
    try:
        return float(found[-1])
    except (IndexError, ValueError):
        return None
