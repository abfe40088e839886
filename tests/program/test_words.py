"""The words of the program's command line: which files they name, and which are refused."""

from __future__ import annotations

import subprocess
import tempfile
import unittest
from pathlib import Path

from asking import SECONDS, STORE

# Words, and the files that they ask to load and to save to.
TAKEN: dict[str, tuple[str | None, str | None]] = {
    "": (None, None),
    "--load a --save b": ("a", "b"),
    "--save b --load a": ("a", "b"),
    "--load a": ("a", None),
    "--save=b": (None, "b"),
    "--load=F": ("F", None),
    "--": (None, None),
}

# Words that are refused or ask for help, with the status that the program ends with.
REFUSED = {
    "--lod a": 2,
    "--load": 2,
    "--load a --load b": 2,
    "a": 2,
    "-l a": 2,
    "--help": 0,
    "-h": 0,
}


class Words(unittest.TestCase):
    def setUp(self) -> None:
        folder = tempfile.TemporaryDirectory()
        self.addCleanup(folder.cleanup)
        self.folder = Path(folder.name)
        for name in ("a", "F"):
            self.run_with(f"--save {name}", f"layer add of_{name} point\n")

    def run_with(self, words: str, lines: str) -> subprocess.CompletedProcess[str]:
        """Runs the program in the folder."""
        return subprocess.run(
            [STORE, *words.split()], input=lines, capture_output=True, text=True, cwd=self.folder, check=False, timeout=SECONDS
        )

    def test_words_are_taken(self) -> None:
        for words, (load, save) in TAKEN.items():
            with self.subTest(words):
                (self.folder / "b").unlink(missing_ok=True)
                loaded = [f"of_{load} point"] if load else []
                ended = self.run_with(words, "layers\nlayer add new any\n")
                self.assertEqual((ended.returncode, ended.stdout.splitlines()), (0, [f"rows {len(loaded)}", *loaded, "ok"]))
                self.assertEqual({path.name for path in self.folder.iterdir()}, {"a", "F", *([save] if save else [])})
                if save:
                    told = self.run_with(f"--load {save}", "layers\n").stdout.splitlines()
                    self.assertEqual(told, [f"rows {len(loaded) + 1}", *loaded, "new any"])

    def test_words_are_refused(self) -> None:
        for words, status in REFUSED.items():
            with self.subTest(words):
                ended = self.run_with(words, "layers\n")
                self.assertEqual((ended.returncode, "rows" in ended.stdout), (status, False))
                self.assertEqual({path.name for path in self.folder.iterdir()}, {"a", "F"})

    def test_a_new_store_is_saved(self) -> None:
        """The bytes of a store with nothing in it (docs/use/FORMAT.md)."""
        self.run_with("--save new", "")
        self.assertEqual((self.folder / "new").read_bytes(), b"SFSTORE4\x1f\0\0\0\0\0\0")


if __name__ == "__main__":
    unittest.main()
