"""Carries out what a page shows, and compares it with the answers that the page shows.

A block of the kind `console` has lines behind `$ `, which a shell carries out, and what each prints. Behind
`$ sfstore-console FILE` come lines behind the prompt `FILE> `, or `1 of 3> ` in a group, which are typed there. A block
of the kind `python` is a script; a block of the kind `text` right behind it has what it prints. All of a page is
carried out in one folder.
"""

from __future__ import annotations

import re
import subprocess
import sys
from pathlib import Path

TOP = Path(__file__).resolve().parent.parent
TYPED = Path(__file__).resolve().parent / "typed.py"
# Where the package puts the documents.
DOCUMENTS = "/usr/share/doc/sfstore/"

BLOCK = re.compile(r"^```(console|python|text)\n(.*?)^```$", re.MULTILINE | re.DOTALL)
OPENED = re.compile(r"sfstore-console (\S+)")


def _grouped(text: str) -> list[tuple[str, str, str]]:
    """The blocks of a page: their kind, their text, and what a script is said to print."""
    found: list[tuple[str, str, str]] = []
    for block in BLOCK.finditer(text):
        kind, lines = block[1], block[2]
        last = found[-1] if found else ("", "", "")
        if kind == "console" and last[0] == "console":
            found[-1] = (kind, last[1] + lines, "")
        elif kind != "text":
            found.append((kind, lines, ""))
        elif last[0] == "python" and not last[2]:
            found[-1] = (*last[:2], lines)
    return found


class Shown:
    """What a page shows, carried out in a folder."""

    def __init__(self, folder: Path, environment: dict[str, str], documents: str = f"{TOP}/", python: str = "") -> None:
        self._folder = folder
        self._environment = environment
        self._documents = documents
        self._python = python or sys.executable

    def compare(self, text: str) -> list[tuple[str, str]]:
        """What the blocks of a page show, each with what comes of it here.

        Blocks of the kind `console` are one, up to a script: a console stays open over what is said between.
        """
        pairs = []
        for kind, block, behind in _grouped(text):
            here = self._session(block) if kind == "console" else block + self._script(block)
            pairs.append((block + behind, here))
        return pairs

    def _session(self, block: str) -> str:
        """A block as a terminal shows it here."""
        said = ""
        lines = block.splitlines()
        for at, line in enumerate(lines):
            if line.startswith("$ "):
                opened = OPENED.fullmatch(line[2:])
                if opened:
                    typed = self._typed_at(opened[1], lines[at + 1 :])
                    words = [self._python, str(TYPED), opened[1]]
                    said += line + "\n" + self._run(words, "".join(each + "\n" for each in typed))
                else:
                    command = line[2:].replace(DOCUMENTS, self._documents)
                    said += line + "\n" + self._shell(command)
        return said

    def _shell(self, command: str) -> str:
        """What a line of the shell prints. The next one begins in the folder in which it ends."""
        at_the_end = self._folder.parent / f"{self._folder.name}.pwd"
        said = self._run(["bash", "-c", f"trap 'pwd > {at_the_end}' EXIT\n{command}"], "")
        self._folder = Path(at_the_end.read_text().strip())
        at_the_end.unlink()
        return said

    @staticmethod
    def _typed_at(file: str, lines: list[str]) -> list[str]:
        """The lines that are typed at the console of a file, up to the next command of the shell."""
        prompts = (rf"(?:{re.escape(file)}|\d+ of \d+)> ", r".*\[y/n\] ")
        typed = []
        for line in lines:
            if line.startswith("$ "):
                break
            found = re.match(rf"{prompts[0]}(.*)|{prompts[1]}(.*)", line)
            if found:
                typed.append(found[1] or found[2])
        return typed

    def _script(self, text: str) -> str:
        """What a script prints."""
        return self._run([self._python, "-"], text)

    def _run(self, words: list[str], text: str) -> str:
        ended = subprocess.run(
            words,
            input=text,
            cwd=self._folder,
            env=self._environment,
            stdout=subprocess.PIPE,
            stderr=subprocess.STDOUT,
            text=True,
            check=False,
        )
        return ended.stdout
