"""Tools of those who draw maps: each makes a group of edits, and the program with its rules judges it.

So no tool can break a map: where the program refuses the group, nothing has changed.
"""

from sfstore.tools.borders import border
from sfstore.tools.cleaning import Changed, Cleaning, Defect, Plan, clean, cleaning
from sfstore.tools.drafting import Drafting
from sfstore.tools.holes import fill, hole
from sfstore.tools.joining import Move
from sfstore.tools.merging import merge
from sfstore.tools.nodes import move_node
from sfstore.tools.notdone import NotDone
from sfstore.tools.snapping import Snapping, snap, snapping
from sfstore.tools.splitting import split

__all__ = [
    "Changed",
    "Cleaning",
    "Defect",
    "Drafting",
    "Move",
    "NotDone",
    "Plan",
    "Snapping",
    "border",
    "clean",
    "cleaning",
    "fill",
    "hole",
    "merge",
    "move_node",
    "snap",
    "snapping",
    "split",
]
