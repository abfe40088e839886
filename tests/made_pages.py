"""Pages that a script makes: written, or compared with what they have to be."""

from __future__ import annotations

from pathlib import Path


def settle(words: list[str], path: Path, text: str) -> int:
    """Writes a page where the words ask for it, and else says whether it is this text. The status of the script."""
    if words == ["--write"]:
        path.write_text(text, encoding="utf-8")
        return 0
    is_same = path.is_file() and path.read_text(encoding="utf-8") == text
    if not is_same:
        print(f"{path.name} is out of date: call this with --write")
    return 0 if is_same else 1
