"""How long the toolchain reads before it proves anything: it goes through every path of crates.txt, for each crate anew.

For each name that a `ghost use` of a crate's sources brings in, `rt` lists the crates below it, and keeps no such list. So
it takes as many steps as there are names times paths down from their crate.
"""

from __future__ import annotations

import re
import unittest
from functools import lru_cache
from pathlib import Path

TOP = Path(__file__).resolve().parents[2]
NAMES = re.compile(r"ghost use [^;]*\{([^}]*)\}")
# What a machine takes some six minutes for. Fewer are wanted.
STEPS = 340_000_000


def below() -> dict[str, list[str]]:
    """The crates that each crate lists."""
    lines = (TOP / "crates.txt").read_text(encoding="utf-8").splitlines()
    pairs = [line.split(":") for line in lines if line and not line.startswith("#")]
    return {name: listed.split() for name, listed in pairs}


def names(crate: str) -> int:
    """How many names the sources of a crate bring in for their contracts."""
    sources = (TOP / "crates" / crate / "src").rglob("*.rt")
    return sum(len(found.split(",")) for source in sources for found in NAMES.findall(source.read_text(encoding="utf-8")))


class Reading(unittest.TestCase):
    def test_the_steps_are_few(self) -> None:
        """Refuses a crate that makes reading longer: it is to list fewer, or to stand lower."""
        listed = below()

        @lru_cache(maxsize=None)
        def paths(crate: str) -> int:
            return 1 + sum(map(paths, listed.get(crate, [])))

        steps = {crate: names(crate) * paths(crate) for crate in listed}
        dearest = sorted(steps, key=lambda crate: steps[crate])[-3:]
        self.assertLessEqual(sum(steps.values()), STEPS, f"the dearest are {', '.join(dearest)}")


if __name__ == "__main__":
    unittest.main()
