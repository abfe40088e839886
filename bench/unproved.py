#!/usr/bin/env python3
"""Makes a program of a checkout as the proved one would be, with no proof.

    bench/unproved.py CHECKOUT CRATE FILE       some three minutes

`rt try` makes programs with checks, and these hide what a change costs: what moves many elements is one call in a proved
program, and fourteen instructions for each element there. Here the checks are taken out of what `rt try` hands to LLVM. So two
versions are compared without the hours in which the older one is proved. It is for measurements of other checkouts: those of
this one are made by `./build-programs --unproved`.
"""

from __future__ import annotations

import sys
from pathlib import Path

sys.path.insert(0, str(Path(__file__).resolve().parent.parent / "tools"))

from compiling import without_checks  # noqa: E402

if __name__ == "__main__":
    checkout, crate, program = sys.argv[1:]
    without_checks(Path(checkout) / "crates" / crate, Path(program))
