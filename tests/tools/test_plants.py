"""Tests of bench/plants: each wrong body applies to the code as it stands, and names a test that is there."""

from __future__ import annotations

import sys
import tempfile
import unittest
from pathlib import Path
from unittest import mock

TOP = Path(__file__).resolve().parents[2]
sys.path.insert(0, str(TOP / "bench"))

import kept  # noqa: E402
import plants  # noqa: E402
from planted import file_of  # noqa: E402

OUTPUT = """\
rt: sf_query: trying its must-fail edits (3)
rt: must-fail sf_query/sf_query-one.edit: refused, as it must be: src/queries.rt:1:1: error: no proof of `returns`
rt: must-fail sf_query/sf_query-two.edit: NOT REFUSED: the crate is still proved with this edit (one that means ..)
rt: must-fail sf_query/sf_query-three.edit: refused, as it must be (only because a proof file names what the edit took away, ..)
rt: must-fail sf_query/sf_query-four.edit: BAD EDIT: the prover cannot read the edited text
rt: must-fail sf_query/sf_query-five.edit: NOT TRIED: its check was killed
"""


class Plants(unittest.TestCase):
    def setUp(self) -> None:
        self.plants = plants.plants()

    def test_each_applies_to_the_code(self) -> None:
        self.assertGreater(len(self.plants), 100)
        for plant in self.plants:
            with self.subTest(plant.name):
                self.assertTrue(plant.name.startswith(f"{plant.crate}-"))
                for file in plant.changes:
                    before = (TOP / "crates" / plant.crate / file).read_text(encoding="utf-8")
                    self.assertNotEqual(plants.planted(plant, file, before), before)

    def test_each_is_read_whole(self) -> None:
        for plant in self.plants:
            lines = (plants.PLANTS / f"{plant.name}.edit").read_text(encoding="utf-8").splitlines(keepends=True)
            self.assertEqual(plant.edit(), "".join(lines[2:]), plant.name)

    def test_fields_out_of_place_are_refused(self) -> None:
        file, old, new = ("file", "src/lib.rt"), ("old", "1"), ("new", "2")
        self.assertEqual(plants.changes_of([file, old, new]), {"src/lib.rt": [("1", "2")]})
        cases: list[plants.Pairs] = [[], [file], [file, old], [file, new, old], [old, new], [file, old, new, ("note", "3")]]
        for fields in cases:
            with self.subTest(fields=fields), self.assertRaises(ValueError):
                plants.changes_of(fields)

    def test_each_says_what_is_expected(self) -> None:
        for plant in self.plants:
            with self.subTest(plant.name):
                self.assertRegex(plant.expected, f"^({plants.EXPECTED.pattern})$")
                self.assertTrue(not plant.test or file_of(plant.test, TOP).is_file(), plant.test)

    def test_no_other_file_is_among_them(self) -> None:
        self.assertEqual(len(list(plants.PLANTS.iterdir())), len(self.plants))

    def test_what_is_said_of_each_is_read(self) -> None:
        wanted = {"one": "refused", "two": "proved", "three": "refused by names", "four": "bad", "five": "not tried"}
        self.assertEqual(plants.verdicts(OUTPUT), {f"sf_query-{name}": found for name, found in wanted.items()})

    def test_what_the_prover_says_is_read(self) -> None:
        cases = {
            "refused": (1, "note: src/a.rt:1:1: it is not proved that ..\nlogic=not-proved"),
            "refused by names": (1, "./proofs/a/Answers.antt:1:1: error: `returns`: record `A` has no field `b`"),
            "bad": (1, "src/a.rt:1:1: error: expected an expression"),
            "proved": (0, "only=3 proved=3"),
            "refused by a limit": (3, "antt ran out of stack"),
            "not tried": (2, "rattle: error: `sf_grid` has no function `bounds`"),
        }
        for wanted, (status, output) in cases.items():
            with self.subTest(wanted):
                self.assertEqual(kept.judged(status, output)[0], wanted)

    def test_a_check_that_does_not_end_is_stopped(self) -> None:
        with mock.patch.object(kept, "SECONDS", 1):
            ended = kept.ended(["sleep", "60"], TOP)
        self.assertEqual(kept.judged(ended.returncode, ended.stdout + ended.stderr)[0], "refused by a limit")

    def test_a_plant_is_looked_at_by_its_modules(self) -> None:
        named = {plant.name: plant for plant in self.plants}
        self.assertEqual(kept.modules(named["sf_query-looked_counts_all"]), ["queries"])
        self.assertEqual(kept.below("sf_edge_tree"), ["sf_grid", "sf_geometry"])

    def test_libraries_of_a_checkout_are_gathered(self) -> None:
        with tempfile.TemporaryDirectory() as name:
            checkout, found = Path(name) / "checkout", Path(name) / "found"
            for crate in ("sf_low", "sf_high"):
                library = checkout / "crates" / crate / "out" / "rlib" / f"{crate}.rlib"
                library.mkdir(parents=True)
                library.joinpath("interface").write_text(crate)
            found.mkdir()
            kept.gather(checkout, found)
            texts = {path.parent.name: path.read_text() for path in found.glob("*/interface")}
        self.assertEqual(texts, {"sf_low.rlib": "sf_low", "sf_high.rlib": "sf_high"})

    def test_a_row_is_marked_where_something_else_came(self) -> None:
        plant = next(plant for plant in self.plants if plant.expected.startswith("proved"))
        marks = [plants.row(plant, found)[0] for found in ("proved", "refused", "bad", "")]
        self.assertEqual(marks, [" ", "!", "!", " "])


if __name__ == "__main__":
    unittest.main()
