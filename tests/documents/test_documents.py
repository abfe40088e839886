"""Tests of the documents: links lead somewhere, files that are named are there, and the map has every crate."""

from __future__ import annotations

import re
import sys
import unittest
from pathlib import Path

sys.path.insert(0, str(Path(__file__).resolve().parents[1]))

import api  # noqa: E402
import english  # noqa: E402
import trust  # noqa: E402
import wrong_bodies  # noqa: E402

TOP = Path(__file__).resolve().parents[2]
CRATES = TOP / "crates"
PAGES = [*sorted(TOP.glob("*.md")), *sorted((TOP / "docs").rglob("*.md"))]

# What is named and made only by a build, or stands for a name.
NOT_THERE = {"out/costs.md", "out/programs", "out/programs/sfstore", "out/programs/MADE", "crates/*/out/rlib", "out/rlib", "crates/NAME"}


def crates() -> dict[str, list[str]]:
    """The crates of crates.txt, each with the crates that it stands on."""
    lines = [line for line in (TOP / "crates.txt").read_text().splitlines() if line and not line.startswith("#")]
    stands_on = {name: below.split() for name, _, below in (line.partition(":") for line in lines)}
    return {name: [other for other in below if other in stands_on] for name, below in stands_on.items()}


def anchors(page: Path) -> set[str]:
    """The anchors of a page's headings."""
    headings = re.findall("^#+ (.*)$", page.read_text(), re.MULTILINE)
    return {re.sub(r"[^\w -]", "", heading.lower()).replace(" ", "-") for heading in headings}


def one_by_one(text: str) -> list[str]:
    """The paths that braces stand for: a/{b,c} is a/b and a/c."""
    found = re.search("{([^{}]*)}", text)
    if found is None:
        return [text]
    front, back = text[: found.start()], text[found.end() :]
    return [path for word in found[1].split(",") for path in one_by_one(front + word.strip() + back)]


def is_there(path: str) -> bool:
    """Whether a path is one of the checkout, of a crate or of the module, its ending left out or not."""
    folders = [TOP, CRATES, *CRATES.iterdir(), TOP / "python" / "sfstore"]
    return any(next(folder.glob(path + ending), None) for folder in folders for ending in ("", ".antt", ".rt"))


class Documents(unittest.TestCase):
    def test_links_lead_to_files_and_headings(self):
        links = [(page, link) for page in PAGES for link in re.findall(r"\]\(([^)\s]+)\)", page.read_text())]
        self.assertGreater(len(links), 50)
        for page, link in links:
            path, _, anchor = link.partition("#")
            target = page.parent / path if path else page
            self.assertTrue(link.startswith("https:") or target.exists(), f"{page.name}: {link}")
            self.assertTrue(not anchor or anchor in anchors(target), f"{page.name}: {link}")

    def test_files_that_are_named_are_there(self):
        for page in PAGES:
            named = {path for text in re.findall("`([^`\n]+)`", page.read_text()) for path in one_by_one(text)}
            for path in named - NOT_THERE:
                if "/" in path.rstrip("/") and re.fullmatch(r"[\w.*-][\w./*-]*", path):
                    self.assertTrue(is_there(path.rstrip("/")), f"{page.name}: {path}")


    def test_the_version_is_that_of_the_changes_and_of_packages(self):
        version = (TOP / "package" / "VERSION").read_text().strip()
        headings = re.findall("^## ([0-9].*)$", (TOP / "CHANGELOG.md").read_text(), re.MULTILINE)
        self.assertEqual(headings[0], version)
        for page in PAGES:
            for named in re.findall(r"sfstore_([0-9.]+)_amd64\.deb", page.read_text()):
                self.assertEqual(named, version, page.name)

    def test_the_gate_stays_within_its_costs(self):
        """Two and a half hours of a processor, by the table: what is tried besides is tried in turn (bench/turns.py)."""
        text = (TOP / "docs" / "build" / "COSTS.md").read_text()
        rows = re.findall(r"^\| `(\w+)` \| (\d*) ?\| (\d*) ?\| (\d*) ?\| (\d+) \|$", text, re.MULTILINE)
        costs = {name: [int(number or 0) for number in numbers] for name, *numbers in rows}
        self.assertGreater(len(costs), 40)
        for name, (proof, tests, bodies, together) in costs.items():
            self.assertEqual(proof + tests + bodies, together, name)
        trying = {crate for crate in crates() if list((CRATES / crate / "must-fail").glob("*"))}
        self.assertEqual({name for name, numbers in costs.items() if numbers[2]}, trying & set(costs))
        whole = re.search(r"^\| all \| (\d*) ?\| (\d*) ?\| (\d*) ?\| (\d+) \|$", text, re.MULTILINE)
        self.assertLessEqual(abs(sum(numbers[3] for numbers in costs.values()) - int(whole[4])), len(costs))
        self.assertLessEqual(int(whole[4]), 150 * 60)

    def test_every_file_of_definitions_is_listed(self):
        text = (TOP / "docs" / "trust" / "DEFINITIONS.md").read_text()
        found = set()
        for section in re.split("^## ", text, flags=re.MULTILINE)[1:]:
            heading, *lines = section.splitlines()
            files = {file for line in lines if line.startswith("|") for file in line.split("|")[-2].split(",")}
            found |= {(crate, file.strip()) for crate in re.findall(r"`(\w+)/specs`", heading) for file in files}
        for crate in crates():
            for path in (CRATES / crate / "specs").glob("*.antt"):
                self.assertTrue(path.stem == "Lib" or (crate, path.stem) in found, path)


class Index(unittest.TestCase):
    """The way from the index to each page."""

    def links(self, page):
        found = re.findall(r"\]\(([^)\s#]+)[^)\s]*\)", page.read_text())
        return {(page.parent / link).resolve() for link in found if not link.startswith("https:")}

    def test_each_page_is_reached_in_two_steps(self):
        first = self.links(TOP / "docs" / "README.md")
        second = {page for one in first if one.suffix == ".md" for page in self.links(one)}
        for page in PAGES:
            self.assertIn(page.resolve(), first | second | {TOP / "docs" / "README.md"}, page.name)


class English(unittest.TestCase):
    """The rules of docs/build/WORDS.md, by tests/english.py."""

    def test_sentences_and_words(self):
        self.assertEqual(english.faults(), [])

    def test_how_sentences_are_counted(self):
        text = "One. Two words `of code.` here (so).\n\n    code.\n\n| a | b |\n\n- An item,\n  over two lines. *No*? 3 a.b .. c."
        self.assertEqual(
            english.prose_of(text).sentences,
            ["One.", "Two words Code here (so).", "An item, over two lines.", "*No*?", "3 a.b .. c."],
        )


class Threats(unittest.TestCase):
    """The page on who may do what to whom."""

    def setUp(self):
        self.text = (TOP / "docs" / "trust" / "THREATS.md").read_text()

    def test_every_row_names_tests_that_are_there(self):
        rows = [line.split("|") for line in self.text.splitlines() if line.startswith("| ") and "Tests" not in line]
        self.assertGreater(len(rows), 20)
        for row in rows:
            named = re.findall(r"`(test_\w+)\.(test_\w+)`", row[-2])
            self.assertTrue(named, row[1])
            for file, test in named:
                [path] = (TOP / "python" / "tests").glob(f"*/{file}.py")
                self.assertIn(f"    def {test}(", path.read_text(), file)


class Made(unittest.TestCase):
    """Pages that a script makes, and what it makes them from."""

    def test_the_page_on_trust_has_what_the_headline_cites(self):
        self.assertEqual((TOP / "docs" / "trust" / "TRUST.md").read_text(), trust.page(), "run tests/trust.py --write")

    def test_the_page_on_wrong_bodies_has_them_all(self):
        self.assertEqual((TOP / "docs" / "trust" / "WRONG_BODIES.md").read_text(), wrong_bodies.page(), "run tests/wrong_bodies.py --write")

    def test_the_page_on_the_module_has_its_docstrings(self):
        self.assertEqual((TOP / "docs" / "use" / "PYTHON.md").read_text(), api.page(), "run tests/api.py --write")

    def test_a_crate_has_at_most_four_wrong_bodies(self):
        for crate in crates():
            self.assertLessEqual(len(list((CRATES / crate / "must-fail").glob("*"))), 4, crate)

    def test_definitions_that_nobody_has_to_read_say_so(self):
        files = trust.specs()
        cited = {name.file for name in trust.closure(files)}
        self.assertGreater(len(cited), 50)
        shown = {crate for _, crates in trust.SUBJECTS for crate in crates}
        self.assertEqual({file.split("/")[0] for file in cited if file in files and not trust.is_computing(file)} - shown, set())
        for file in files:
            text = (CRATES / file).read_text()
            says_so = text.startswith((trust.INTERNAL, "-- Beside the headline"))
            self.assertEqual(says_so, file not in cited, file)


class Copyright(unittest.TestCase):
    """The copyright file of the package, by Debian's machine-readable format."""

    def setUp(self):
        self.text = (TOP / "package" / "copyright").read_text()
        paragraphs = re.split("\n\n+", self.text.strip())
        self.paragraphs = [dict(re.findall(r"^([\w-]+):(.*(?:\n .*)*)", text, re.MULTILINE)) for text in paragraphs]

    def test_each_line_is_a_field_or_goes_on_with_one(self):
        for line in self.text.splitlines():
            self.assertRegex(line, r"^([A-Z][\w-]+:.*| \S.*|)$")

    def test_files_have_a_copyright_and_a_licence_that_is_told(self):
        files = [paragraph for paragraph in self.paragraphs if "Files" in paragraph]
        told = {paragraph["License"].split()[0] for paragraph in self.paragraphs if list(paragraph) == ["License"]}
        self.assertEqual(files[0]["Files"].strip(), "*")
        for paragraph in files:
            self.assertTrue(paragraph["Copyright"].strip())
            self.assertLessEqual(set(paragraph["License"].strip().split(" and ")), told)

    def test_the_crates_of_the_toolchain_are_named(self):
        lines = [line for line in (TOP / "crates.txt").read_text().splitlines() if not line.startswith("#")]
        below = {name for line in lines for name in line.partition(":")[2].split()}
        for name in sorted(below - set(crates())):
            self.assertIn(f"\n {name}, ", self.text)


class Map(unittest.TestCase):
    def setUp(self):
        self.text = (TOP / "docs" / "MAP.md").read_text()
        self.picture = self.text.split("```")[1]
        self.rows = re.findall(r"^\| `(\w+)` \|[^|]*\|([^|]*)\|", self.text, re.MULTILINE)

    def test_the_way_of_a_line_leads_to_functions(self):
        rows = re.findall(r"^\| \d+ \|.*$", self.text, re.MULTILINE)
        self.assertEqual([int(row.split("|")[1]) for row in rows], list(range(1, len(rows) + 1)))
        for row in rows:
            place = None
            for named in re.findall(r"`([^`]+)`", "|".join(row.split("|")[3:])):
                file, _, function = named.rpartition(": ")
                place = file or place
                if place is None or named.startswith("--"):
                    continue
                crate, _, module = place.partition("/")
                code = (CRATES / crate / "src" / f"{module}.rt").read_text()
                self.assertRegex(code, rf"\b(fn|struct|enum|trait) {function}\b", named)

    def test_every_crate_stands_in_the_picture_once(self):
        self.assertEqual(sorted(re.findall(r"\bsf\w+", self.picture)), sorted(crates()))

    def test_a_crate_stands_on_lower_ones(self):
        heights = {
            name: line for line, text in enumerate(self.picture.splitlines()) for name in re.findall(r"\bsf\w+", text)
        }
        for name, below in crates().items():
            for other in below:
                self.assertLess(heights[name], heights[other], f"{name}: {other}")

    def test_every_crate_has_a_row_with_its_definitions(self):
        self.assertEqual(sorted(name for name, _ in self.rows), sorted(crates()))
        for name, definitions in self.rows:
            files = {path.stem for path in (CRATES / name / "specs").glob("*.antt")} - {"Lib"}
            self.assertEqual(set(re.findall(r"\w+", definitions)), files, name)

    def test_contracts_stand_in_the_files_that_are_named(self):
        calls = [
            (call, CRATES / name / "src" / f"{file}.rt")
            for name, row in re.findall(r"^\| `(\w+)` \|[^|]*\|[^|]*\|([^|]*)\|$", self.text, re.MULTILINE)
            for group, file in re.findall(r"((?:`[\w:]+`,? ?)+)\((\w+)\)", row)
            for call in re.findall(r"(\w+)`", group)
            if call != "laws"
        ]
        calls += [(call, CRATES / path) for call, path in re.findall(r"`(\w+)`, `(\w+/src/\w+\.rt)`", self.text)]
        self.assertGreater(len(calls), 80)
        for call, path in calls:
            self.assertRegex(path.read_text(), rf"\b(fn|struct|enum|trait) {call}\b", f"{path}: {call}")

    def test_evidence_stands_in_the_order_that_the_code_has(self):
        code = (CRATES / "sf_query" / "src" / "order.rt").read_text()
        orders = {
            name: re.findall(r"\w+", listed)
            for name, listed in re.findall(r"static (\w+): \[Evidence; \d+\] =\s*\[([^\]]*)\]", code)
        }
        rows = re.findall(r"^\| `(\w+)`: [^|]*\|[^|]*\| (\d*) ?\| (\d*) ?\| (\d*) ?\|[^|]*\|$", self.text, re.MULTILINE)
        for column, order in enumerate(("OF_CONTACT", "OF_MATRIX", "OF_ENTRIES_OF_FEW")):
            told = {kind: int(places[column]) for kind, *places in rows if places[column]}
            asked = [kind for kind in orders[order] if kind != "Prepared"]
            self.assertEqual(told, {kind: place for place, kind in enumerate(asked, 1) if kind != "Boxes"}, order)
        kinds = re.findall(r"^    ([A-Z]\w+),$", (CRATES / "sf_query" / "src" / "evidence.rt").read_text(), re.MULTILINE)
        self.assertEqual({kind for kind, *_ in rows} | {"Boxes", "Clear", "Prepared"}, set(kinds))
        for order in ("OF_ENTRIES_OF_FEW", "OF_ENTRIES_OF_MANY"):
            self.assertEqual({*orders[order], *orders["OF_ENTRIES_PREPARED"]}, set(kinds), "relate asks every kind")


if __name__ == "__main__":
    unittest.main()
