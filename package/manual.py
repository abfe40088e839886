#!/usr/bin/env python3
"""Makes the man pages of the programs from docs/use/PROGRAMS.md.

    package/manual.py FOLDER    writes FOLDER/NAME.1 for each program
"""

from __future__ import annotations

import re
import sys
from pathlib import Path

TOP = Path(__file__).resolve().parent.parent
PAGE = TOP / "docs" / "use" / "PROGRAMS.md"
VERSION = TOP / "package" / "VERSION"
# Where the package puts the pages.
DOCUMENTS = "/usr/share/doc/sfstore/docs"

LINK = re.compile(r"\[[^\]]*\]\(([^)#]*)[^)]*\)")


def escaped(text: str) -> str:
    """A text in which nothing is a request or an escape."""
    text = text.replace("\\", "\\e").replace("-", "\\-").replace("'", "\\(aq").replace("`", "\\(ga")
    return re.sub(r"^([.'])", r"\\&\1", text, flags=re.MULTILINE)


def inline(text: str) -> str:
    """A text of the page: words of code stand in bold, and a link is the path of its page."""
    text = LINK.sub(lambda found: place_of(found[1]), text)
    parts = re.split(r"`([^`]*)`", text)
    return "".join(rf"\fB{escaped(part)}\fR" if at % 2 else escaped(part) for at, part in enumerate(parts))


def place_of(link: str) -> str:
    """The path of a page in the package, of a link of the page."""
    return str((Path(DOCUMENTS) / "use" / link).resolve())


def table(block: list[str]) -> str:
    """The rows of a table as paragraphs with a tag."""
    rows = [[cell.strip() for cell in line.strip("|").split(" | ")] for line in block[2:]]
    return "".join(f".TP\n{inline(first)}\n{inline(second)}\n" for first, second in rows)


def section(name: str, text: str, version: str) -> str:
    """The man page of a program, from its section."""
    blocks = [block.split("\n") for block in text.strip().split("\n\n")]
    page = f'.TH "{name.upper()}" "1" "" "sfstore {version}" "User Commands"\n'
    page += f".SH NAME\n{name} \\- {inline(blocks[0][0])}\n"
    seen = set()
    for block in blocks[1:]:
        lines = "\n".join(line.removeprefix("    ") for line in block)
        if block[0].startswith("    "):
            title = "EXAMPLES" if "SYNOPSIS" in seen else "SYNOPSIS"
            page += f".SH {title}\n.nf\n{escaped(lines)}\n.fi\n"
            seen.add("SYNOPSIS")
        elif block[0].startswith("| "):
            title = "OPTIONS" if block[0].startswith("| Option") else "EXIT STATUS"
            page += f".SH {title}\n{table(block)}"
        elif lines.startswith("More: "):
            page += f".SH SEE ALSO\n{inline(lines.removeprefix('More: '))}\n"
        elif lines != "Example:":
            page += (".PP\n" if "DESCRIPTION" in seen else ".SH DESCRIPTION\n") + f"{inline(lines)}\n"
            seen.add("DESCRIPTION")
    return page


def pages() -> dict[str, str]:
    """The man pages, by the names of their programs."""
    version = VERSION.read_text(encoding="utf-8").strip()
    sections = re.split(r"^## (\S+)\n", PAGE.read_text(encoding="utf-8"), flags=re.MULTILINE)[1:]
    return {name: section(name, text, version) for name, text in zip(sections[::2], sections[1::2])}


if __name__ == "__main__":
    for program, man_page in pages().items():
        (Path(sys.argv[1]) / f"{program}.1").write_text(man_page, encoding="utf-8")
