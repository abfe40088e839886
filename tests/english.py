#!/usr/bin/env python3
"""Measures the English of the pages and of the Python module's docstrings.

    tests/english.py            names what breaks the rules of docs/build/WORDS.md; status 1 where something does
    tests/english.py --means    prints the mean and the longest sentence of each page

Code, tables, headings and pictures are not counted. A word of code in a sentence counts as one word. Words that the
list of WORDS.md replaces are looked for in tables and headings too.
"""

from __future__ import annotations

import ast
import re
import sys
from dataclasses import dataclass
from pathlib import Path

TOP = Path(__file__).resolve().parent.parent
WORDS = TOP / "docs" / "build" / "WORDS.md"
MEAN, LONGEST = 20, 40

# Pages that scripts make of contracts and definitions: their text is code.
OF_CODE = {"TRUST.md", "WRONG_BODIES.md"}

FENCED = re.compile(r"^ *```.*?^ *```[^\n]*$", re.MULTILINE | re.DOTALL)
CODE = re.compile(r"``[^\n]+?``|`[^`\n]+`")
LINK = re.compile(r"!?\[([^\]]*)\]\([^)]*\)")
END = re.compile(r"(?<=[^.\s][.!?])[)\"'*_]*\s+(?=[\"'*_(]*[A-Z0-9])|(?<=[^.\s][.!?][)\"'*_])\s+(?=[\"'*_(]*[A-Z0-9])")
ITEM = re.compile(r"^ *(?:[-*]|\d+\.) ")
WORD = re.compile(r"[^\s]*[^\W_][^\s]*")


@dataclass(frozen=True)
class Prose:
    """The sentences of a text, and all of its words, those of tables and headings too."""

    sentences: list[str]
    text: str

    def mean(self) -> float:
        """How many words a sentence has on the mean."""
        return sum(map(words_in, self.sentences)) / max(1, len(self.sentences))


def words_in(sentence: str) -> int:
    """How many words a sentence has."""
    return len(WORD.findall(sentence))


def without_code(text: str) -> str:
    """A text without its blocks of code; a word of code is `Code`."""
    lines = FENCED.sub("", text).split("\n")
    kept: list[str] = []
    is_code = in_list = False
    for line in lines:
        indented = line.startswith("    ") and not ITEM.match(line)
        begins = indented and not in_list and (not kept or not kept[-1].strip())
        is_code = line.strip() != "" and indented and (is_code or begins)
        if line.strip() and not line.startswith(" "):
            in_list = bool(ITEM.match(line))
        if not is_code:
            kept.append(line)
    plain = LINK.sub(lambda found: found[1], "\n".join(kept))
    return CODE.sub("Code", plain)


def blocks(text: str) -> list[str]:
    """The paragraphs and the items of lists of a text without code."""
    found: list[str] = []
    goes_on = False
    for line in text.split("\n"):
        stripped = line.strip()
        if not stripped or stripped.startswith(("|", "#", "<!--", "!")):
            goes_on = False
        elif ITEM.match(line) or not goes_on:
            found.append(ITEM.sub("", line).strip())
            goes_on = True
        else:
            found[-1] += " " + stripped
    return found


def prose_of(text: str) -> Prose:
    """What is counted of a text."""
    plain = without_code(text)
    sentences = [part for block in blocks(plain) for part in END.split(block) if part and words_in(part)]
    return Prose(sentences, plain)


def replaced() -> list[tuple[str, str]]:
    """The words that are not written, each with what stands in its place, by the table of WORDS.md."""
    rows = re.findall(r"^\| ([^|]+) \| ([^|]+) \|$", WORDS.read_text(encoding="utf-8"), re.MULTILINE)
    return [(word, better) for left, better in rows[1:] for word in left.split(", ")]


def pages() -> list[Path]:
    """The pages of the repository that people write, or scripts from what people write."""
    found = [*sorted(TOP.glob("*.md")), *sorted((TOP / "docs").rglob("*.md"))]
    return [path for path in found if path.name not in OF_CODE]


def docstrings() -> list[tuple[str, str]]:
    """The docstrings of the module's public names, each with its place."""
    found = []
    for path in sorted((TOP / "python" / "sfstore").rglob("*.py")):
        place = str(path.relative_to(TOP))
        tree = ast.parse(path.read_text(encoding="utf-8"))
        for node in ast.walk(tree):
            if isinstance(node, (ast.Module, ast.ClassDef, ast.FunctionDef)):
                name = getattr(node, "name", "")
                text = ast.get_docstring(node)
                if text and not name.startswith("_"):
                    text = re.sub(r"^ *(>>>|\.\.\.) .*\n(?:(?! *>>>|\n).*\n)*", "", text + "\n", flags=re.MULTILINE)
                    found.append((f"{place} {name}".strip(), text))
    return found


def faults_of(place: str, prose: Prose, words: list[tuple[str, str]]) -> list[str]:
    """What breaks the rules in a text."""
    found = [
        f"{place}: {words_in(sentence)} words: {sentence}" for sentence in prose.sentences if words_in(sentence) > LONGEST
    ]
    if place != str(WORDS.relative_to(TOP)):
        for word, better in words:
            # In brackets by itself it is the name of a file.
            for hit in re.finditer(rf"[^\n]{{0,40}}(?<!\()\b{re.escape(word)}\b[^\n]{{0,20}}", prose.text):
                found.append(f"{place}: {word} ({better}): {hit[0].strip()}")
    return found


def faults() -> list[str]:
    """What breaks the rules in the pages and the docstrings."""
    words = replaced()
    found = []
    for path in pages():
        prose = prose_of(path.read_text(encoding="utf-8"))
        place = str(path.relative_to(TOP))
        found += faults_of(place, prose, words)
        if prose.mean() > MEAN:
            found.append(f"{place}: {prose.mean():.1f} words in a sentence on the mean")
    for place, text in docstrings():
        found += faults_of(place, prose_of(text), words)
    return found


def main() -> int:
    """Prints what was found."""
    if sys.argv[1:] == ["--means"]:
        for path in pages():
            prose = prose_of(path.read_text(encoding="utf-8"))
            longest = max(map(words_in, prose.sentences), default=0)
            print(f"{prose.mean():5.1f} {longest:4} {len(prose.sentences):5}  {path.relative_to(TOP)}")
        return 0
    found = faults()
    print("\n".join(found))
    return 1 if found else 0


if __name__ == "__main__":
    sys.exit(main())
