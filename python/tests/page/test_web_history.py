"""Tests of the list of what was done, as the server has it."""

from __future__ import annotations

import json
import signal
import time
import unittest
from unittest import mock

from support import PROGRAM
from web_support import WebCase

from sfstore.web import calls, history
from sfstore.web.history import History
from sfstore.web.keeper import Asked, Keeper


class Calls(WebCase):
    def setUp(self):
        super().setUp()
        self.make_town()
        self.serving = self.serve()
        self.ann, self.ben = self.serving.log_in("Ann"), self.serving.log_in("Ben")

    def entries(self, count=50, **asked):
        return self.serving.call("/history", count=count, **asked)["entries"]

    def test_who_did_what_when_and_where_the_newest_first(self):
        began = time.time()
        self.serving.call("/map")
        self.assertEqual(self.entries(), [])
        self.ann.answer("set wells 1 depth 15")
        self.ben.answer("add wells POINT (7 8)")
        self.ben.answer("undo")
        told = self.entries()
        self.assertEqual(
            [(entry["editor"], entry["line"], entry["step"]) for entry in told],
            [
                ("Ben", "undo", "add wells POINT (7 8)"),
                ("Ben", "add wells POINT (7 8)", "add wells POINT (7 8)"),
                ("Ann", "set wells 1 depth 15", "set wells 1 depth 15"),
            ],
        )
        self.assertEqual(told[0]["changed"], [{"what": "deleted", "layer": "wells", "id": 5}])
        self.assertTrue(all(began <= entry["when"] <= time.time() for entry in told))
        # Where something was is known of what is there no more.
        boxes = [entry["box"] for entry in self.until(lambda: self.entries(), lambda found: all(each["box"] for each in found))]
        self.assertEqual(boxes, [[7, 8, 7, 8], [7, 8, 7, 8], [450, 150, 450, 150]])

    def until(self, look, is_so):
        end = time.monotonic() + 20
        while not is_so(found := look()):
            self.assertLess(time.monotonic(), end)
            time.sleep(0.02)
        return found

    def test_a_move_is_where_it_began_and_where_it_ended(self):
        self.serving.call("/window", box=[0, 0, 9, 9], layers=[])
        self.ann.answer("replace wells 1 POINT (0 0)")
        [entry] = self.until(lambda: self.entries(), lambda found: found[0]["box"])
        self.assertEqual(entry["box"], [0, 0, 450, 150])

    def test_groups_batches_layers_and_saves(self):
        self.serving.call("/window", box=[0, 0, 9, 9], layers=[])
        self.ann.answer("together 30\r" + "\r".join(f"add wells POINT ({k} 0)" for k in range(30)))
        self.ann.answer("layer rename wells springs")
        self.ann.answer("column add springs dry bool")
        self.ann.line("save")
        self.ann.answer("layer move springs 0")
        told = self.entries()
        self.assertEqual(
            [entry["line"] for entry in told],
            ["layer move springs 0", "save", "column add springs dry bool", "layer rename wells springs", "together 30"],
        )
        self.assertEqual((told[-1]["count"], len(told[-1]["changed"]), told[-1]["box"]), (30, 20, None))
        self.assertEqual(told[2]["changed"], [{"what": "columns", "layer": "springs", "id": None}])

    def test_what_is_in_the_journal_is_there_after_a_restart(self):
        self.ann.answer("set wells 1 depth 15")
        self.ben.answer("add wells POINT (7 8)")
        self.ben.answer("undo")
        self.serving.end(signal.SIGKILL)
        self.serving = self.serve()
        told = self.entries()
        self.assertEqual([(entry["editor"], entry["line"], entry["when"]) for entry in told], [("Ann", "set wells 1 depth 15", None)])
        self.assertEqual(told[0]["changed"], [{"what": "changed", "layer": "wells", "id": 1}])

    def test_in_pages(self):
        for depth in range(7):
            self.ann.answer(f"set wells 1 depth {depth}")
        told = self.serving.call("/history", count=3)
        self.assertEqual(([entry["number"] for entry in told["entries"]], told["more"]), ([6, 5, 4], True))
        told = self.serving.call("/history", count=3, before=1)
        self.assertEqual(([entry["number"] for entry in told["entries"]], told["more"]), ([0], False))
        for wrong in ({"count": 0}, {"count": 201}, {"count": 5, "before": -1}, {"count": 5, "before": "1"}, {}):
            self.assertEqual(self.serving.posted("/history", **wrong)[0], 400, wrong)

    def test_a_refused_edit_is_nothing_that_was_done(self):
        self.ann.refused("set wells 99 depth 1")
        self.ann.line("show wells")
        self.assertEqual(self.entries(), [])


class Saves(WebCase):
    def test_what_is_done_right_behind_a_save_is_told_behind_it(self):
        """Else a page would show nothing to undo, and the history the save as the last that was done."""
        self.make_town()
        keeper = Keeper(str(self.path), PROGRAM)
        self.addCleanup(keeper.close)
        served = calls.Calls(str(self.path), keeper, PROGRAM, 60.0)
        self.addCleanup(served.close)
        keeper.carry_out(Asked(1, "page", "set wells 1 depth 5", None))
        events, save = served.events.told(60.0), keeper.save
        self.addCleanup(events.close)
        next(events)

        def overtaken(*words):
            save(*words)
            keeper.carry_out(Asked(2, "other", "add wells POINT (1 1)", None))

        with mock.patch.object(keeper, "save", overtaken):
            served.by_path["/line"](1, {"page": "page", "line": "save"})
        told = [json.loads(next(events)) for _ in range(2)]
        self.assertEqual(["saved" in event for event in told], [True, False])
        self.assertEqual(told[1]["undo"]["line"], "add wells POINT (1 1)")
        lines = [entry["line"] for entry in served.by_path["/history"](1, {"before": None, "count": 9})["entries"]]
        self.assertEqual(lines, ["add wells POINT (1 1)", "save", "set wells 1 depth 5"])


class Kept(unittest.TestCase):
    def test_the_oldest_go(self):
        kept = History()
        for number in range(history._KEPT_MAX + 5):
            kept.take("Ann", "x", "x", version=number)
        self.assertFalse(kept.page(6, 1)["more"])
        self.assertEqual(kept.page(None, 1)["entries"][0]["number"], history._KEPT_MAX + 4)

    def test_of_a_large_batch_the_first_ones_are_kept_and_their_count(self):
        kept = History()
        changed = [{"what": "added", "layer": "wells", "id": number} for number in range(50_000)]
        kept.take("Ann", "together 50000", "add wells POINT (0 0)", changed, 1)
        [entry] = kept.page(None, 1)["entries"]
        self.assertEqual((entry["changed"], entry["count"]), (changed[:20], 50_000))
        self.assertEqual([len(each.changed) for each in kept._entries], [20])


if __name__ == "__main__":
    unittest.main()
