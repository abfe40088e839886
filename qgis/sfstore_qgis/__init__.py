"""The plugin of QGIS that works on stores of sfstore."""

from __future__ import annotations

from typing import Any


def classFactory(iface: Any) -> Any:
    """What QGIS calls to have the plugin."""
    from .plugin import Plugin

    return Plugin(iface)
