"""Tests of the server's tables: how the values of a layer are sorted, filtered, searched, and given a page at a time."""

from __future__ import annotations

import time
import unittest

from support import PROGRAM
from web_support import WebCase

from sfstore import Store
from sfstore.web import tables
from sfstore.web.tables import Condition, Reading, Tables, Wanted

HOSTILE = "<img src=x onerror=alert(1)></script>"
LINES = [
    "layer add w point",
    "column add w n int",
    "column add w owner text",
    "column add w deep decimal",
    "column add w dry bool",
    "column add w dug date",
    "add w POINT (1 1)",
    "add w POINT (2 2)",
    "add w POINT (3 3)",
    "add w POINT (40 40)",
    "set w 1 n 10",
    "set w 2 n 9",
    "set w 3 n -11",
    "set w 1 owner 'ito'",
    "set w 2 owner 'Ito'",
    "set w 3 owner ' n=7 it''s'",
    "set w 4 owner E'two\\nlines\\\\'",
    "set w 1 deep 2.5",
    "set w 3 deep 12",
    "set w 2 dry true",
    "set w 4 dug 2024-02-29",
]


class Page(WebCase):
    """Pages of a table, asked of the server."""

    def setUp(self):
        super().setUp()
        self.make("".join(line + "\n" for line in LINES).encode())
        self.serving = self.serve()
        self.ann = self.serving.log_in("Ann")

    def page(self, **wanted):
        return self.serving.call("/table", layer="w", count=50, **wanted)

    def ids(self, **wanted):
        return [row[0] for row in self.page(**wanted)["rows"]]

    def where(self, *condition, **wanted):
        return self.ids(conditions=[list(condition)], **wanted)

    def test_rows_have_values_as_the_page_shows_them(self):
        page = self.page()
        self.assertEqual([column["name"] for column in page["columns"]], ["n", "owner", "deep", "dry", "dug"])
        self.assertEqual(
            page["rows"],
            [
                [1, ["10", "ito", "2.5", None, None]],
                [2, ["9", "Ito", None, "true", None]],
                [3, ["-11", " n=7 it's", "12", None, None]],
                [4, [None, "two\nlines\\", None, None, "2024-02-29"]],
            ],
        )
        self.assertEqual((page["total"], page["count"], page["from"]), (4, 4, 0))

    def test_sorted_by_the_values_of_a_type_and_what_has_none_last(self):
        self.assertEqual(self.ids(sort="n"), [3, 2, 1, 4])
        self.assertEqual(self.ids(sort="n", falling=True), [1, 2, 3, 4])
        self.assertEqual(self.ids(sort="owner"), [3, 2, 1, 4])
        self.assertEqual(self.ids(sort="deep"), [1, 3, 2, 4])
        self.assertEqual(self.ids(sort="dug"), [4, 1, 2, 3])
        self.assertEqual(self.ids(falling=True), [4, 3, 2, 1])

    def test_filters_compare_by_type(self):
        self.assertEqual(self.where("n", "less", "9.5"), [2, 3])
        self.assertEqual(self.where("n", "least", "9"), [1, 2])
        self.assertEqual(self.where("n", "is", "9.0"), [2])
        self.assertEqual(self.where("deep", "more", "3"), [3])
        self.assertEqual(self.where("owner", "is", "Ito"), [2])
        self.assertEqual(self.where("owner", "not", "Ito"), [1, 3, 4])
        self.assertEqual(self.where("owner", "most", "ito"), [1, 2, 3])
        self.assertEqual(self.where("dry", "is", "true"), [2])
        self.assertEqual(self.where("dug", "less", "2024-03"), [4])
        self.assertEqual(self.where("n", "empty", ""), [4])
        self.assertEqual(self.where("n", "filled", ""), [1, 2, 3])
        conditions = [["n", "filled", ""], [None, "has", "ito"]]
        self.assertEqual(self.ids(conditions=conditions, sort="n"), [2, 1])

    def test_a_part_of_a_text_is_found_and_names_and_spellings_are_not(self):
        self.assertEqual(self.where(None, "has", "ITO"), [1, 2])
        self.assertEqual(self.where(None, "has", "n=7"), [3])
        self.assertEqual(self.where(None, "has", "it's"), [3])
        self.assertEqual(self.where(None, "has", "it''s"), [])
        self.assertEqual(self.where(None, "has", "owner"), [])
        self.assertEqual(self.where(None, "has", "\\"), [4])
        self.assertEqual(self.where(None, "has", "\\n"), [])
        self.assertEqual(self.where("owner", "has", "o\nl"), [4])
        self.assertEqual(self.where("n", "has", "1"), [1, 3])

    def test_what_a_window_has(self):
        self.assertEqual(self.ids(box=[0, 0, 5, 5], sort="n"), [3, 2, 1])

    def test_pages_and_the_one_with_a_feature(self):
        self.ann.line("together 200\r" + "\r".join(f"add w POINT ({k} 50)" for k in range(200)))
        page = self.serving.call("/table", layer="w", count=50, **{"from": 150})
        self.assertEqual((page["rows"][0][0], page["rows"][-1][0], page["count"]), (151, 200, 204))
        self.assertEqual(self.page(around=204)["from"], 200)
        self.assertEqual(self.page(around=1, sort=None, falling=True)["from"], 200)
        self.assertEqual(self.page(around=999, **{"from": 50})["from"], 50)
        self.assertEqual(self.page(**{"from": 10_000})["from"], 200)

    def test_edits_are_seen_at_once(self):
        self.page(sort="n")
        self.ann.answer("set w 4 n 0")
        self.assertEqual(self.ids(sort="n"), [3, 4, 2, 1])
        self.ann.answer("delete w 2")
        self.ann.answer("add w POINT (7 7)")
        self.assertEqual(self.ids(sort="n"), [3, 4, 1, 5])
        self.ann.answer("undo")
        self.ann.answer("undo")
        self.assertEqual(self.ids(), [1, 2, 3, 4])
        self.ann.answer("column drop w n")
        self.assertEqual(self.page()["rows"][0], [1, ["ito", "2.5", None, None]])
        self.ann.answer("layer rename w v")
        self.assertEqual(self.page()["refused"]["name"], "NoLayer")
        self.assertEqual(self.serving.call("/table", layer="v", count=2)["count"], 4)

    def test_texts_stay_texts_and_long_ones_are_cut(self):
        self.ann.answer(f"set w 1 owner '{HOSTILE}'")
        self.ann.answer(f"set w 2 owner '{'x' * 60_000}'")
        rows = self.page()["rows"]
        self.assertEqual(rows[0][1][1], HOSTILE)
        self.assertLess(len(rows[1][1][1]), 400)
        self.assertEqual(self.where(None, "has", "</SCRIPT>"), [1])

    def test_what_can_not_be_asked(self):
        for body in (
            {"layer": "w"},
            {"layer": "w", "count": 0},
            {"layer": "w", "count": tables.PAGE_MAX + 1},
            {"layer": "w", "count": 5, "from": -1},
            {"layer": "w", "count": 5, "sort": "nothing"},
            {"layer": "w", "count": 5, "sort": "n)|("},
            {"layer": "w", "count": 5, "falling": 1},
            {"layer": "w", "count": 5, "around": "1"},
            {"layer": "w", "count": 5, "box": [0, 0, 1]},
            {"layer": "w", "count": 5, "conditions": {}},
            {"layer": "w", "count": 5, "conditions": [["n", "is"]]},
            {"layer": "w", "count": 5, "conditions": [["n", "like", "1"]]},
            {"layer": "w", "count": 5, "conditions": [["n", ["is"], "1"]]},
            {"layer": "w", "count": 5, "conditions": [["n", "is", 1]]},
            {"layer": "w", "count": 5, "conditions": [["n", "less", "1x"]]},
            {"layer": "w", "count": 5, "conditions": [["n", "less", "nan"]]},
            {"layer": "w", "count": 5, "conditions": [[None, "is", "1"]]},
            {"layer": "w", "count": 5, "conditions": [["n", "is", "1"]] * 11},
            {"layer": "../w", "count": 5},
        ):
            with self.subTest(body=body):
                self.assertEqual(self.serving.posted("/table", **body)[0], 400)
        self.assertEqual(self.serving.call("/table", layer="nothing", count=5)["refused"]["name"], "NoLayer")

    def test_what_stands_beside_features_on_the_map(self):
        self.ann.answer("set w 1 owner E'two\\n lines'")
        told = self.serving.call("/labels", layer="w", column="owner", ids=[1, 2, 4, 99])
        self.assertEqual(told["labels"], [[1, "two lines"], [2, "Ito"], [4, "two lines\\"]])
        self.assertEqual(self.serving.call("/labels", layer="w", column="dug", ids=[1, 4])["labels"], [[4, "2024-02-29"]])
        self.assertEqual(self.serving.posted("/labels", layer="w", column="nothing", ids=[1])[0], 400)


class Large(WebCase):
    """Tables of many features."""

    COUNT = 100_000

    def make_large(self):
        store = Store(program=PROGRAM)
        self.addCleanup(store.close, save=False)
        store.run_all(["layer add w point", "column add w n int", "column add w t text"])
        store.run_all(f"add w POINT ({k % 1000} {k // 1000})" for k in range(self.COUNT))
        store.run_all(f"set w {k} n {k * 7919 % 100_003}" for k in range(1, self.COUNT + 1))
        store.run_all(f"set w {k} t 'number {k * 31 % 977}'" for k in range(1, self.COUNT + 1))
        return store

    def page(self, store, **changed):
        wanted = Wanted("w", None, False, (), None, 0, 50)._replace(**changed)
        while True:
            try:
                return self.kept.page(store, wanted)
            except Reading as reading:
                self.assertEqual(reading.total, self.COUNT)

    def test_a_sort_and_a_search_take_about_a_second_at_most(self):
        store = self.make_large()
        self.kept = Tables()
        spans = []
        for changed in (
            {},
            {"sort": "n"},
            {"sort": "t", "is_falling": True},
            {"conditions": (Condition(None, "has", "number 12"),)},
            {"conditions": (Condition("n", "less", "5000"),), "sort": "n"},
        ):
            began = time.process_time()
            page = self.page(store, **changed)
            spans.append(time.process_time() - began)
            self.assertEqual(len(page["rows"]), 50)
        self.assertEqual([row[1][0] for row in page["rows"]], sorted((row[1][0] for row in page["rows"]), key=int))
        # Of this process's own work: on an idle machine some 0.2 seconds each.
        self.assertLess(max(spans), 1.5)

    def test_a_large_table_is_read_piece_by_piece(self):
        store = self.make_large()
        self.kept = Tables()
        before, tables._SECONDS = tables._SECONDS, 0.0
        self.addCleanup(setattr, tables, "_SECONDS", before)
        with self.assertRaises(Reading) as raised:
            self.kept.page(store, Wanted("w", None, False, (), None, 0, 50))
        self.assertEqual((raised.exception.read, raised.exception.total), (10_000, self.COUNT))
        self.assertEqual(self.page(store)["count"], self.COUNT)


if __name__ == "__main__":
    unittest.main()
