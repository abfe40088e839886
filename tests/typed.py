#!/usr/bin/env python3
"""Types lines at a console, and prints what a terminal would show.

    tests/typed.py FILE < LINES

starts `sfstore-console FILE`, types the lines one after another, and prints prompts, lines and answers. The module
and the programs are those that Python and the shell find.
"""

from __future__ import annotations

import sys

from sfstore.console import Console


class Typist:
    """A terminal at which the lines of standard input are typed."""

    def ask(self, prompt: str) -> str:
        """The next line. `EOFError` at the end of the input."""
        line = sys.stdin.readline()
        if not line:
            print(prompt)
            raise EOFError
        print(prompt + line, end="")
        return line.rstrip("\n")


if __name__ == "__main__":
    Console(sys.argv[1], "sfstore", lambda _: Typist()).run()
