"""Tests of groups of edits, which are one step, by the module against the real program."""

from __future__ import annotations

import os
import pickle
import random
import re
import signal
import subprocess
import threading
import unittest
from pathlib import Path

from support import FOLDER, PROGRAM, TestCase, child_of

from sfstore import Added, JournalError, ProgramEnded, Refused, Store, groups, language

LEFT = "POLYGON ((0 0, 10 0, 10 10, 0 10, 0 0))"
RIGHT = "POLYGON ((10 0, 20 0, 20 10, 10 10, 10 0))"
WHOLE = "POLYGON ((0 0, 20 0, 20 10, 0 10, 0 0))"
# 30 of these are more than a line.
LONG = f"LINESTRING ({', '.join(f'{k} 0' for k in range(20_000))})"
MADE = [
    "layer add p polygon",
    "layer add w point",
    "column add p owner text",
    "column add p area int",
    f"add p {WHOLE}",
    "set p 1 owner 'Ada'",
]


class GroupCase(TestCase):
    """A test with a store that has a parcel."""

    def setUp(self):
        super().setUp()
        self.store = Store(PROGRAM)
        self.addCleanup(self.store.close, save=False)
        self.store.run_all(MADE)

    def shown(self, layer="p"):
        return self.store.run(f"show {layer}")

    def split(self, store=None):
        """Carries a split out, and gives the group."""
        with (store or self.store).together() as group:
            for owner, part in (("Ada", LEFT), ("Ben", RIGHT)):
                group.set("p", group.add("p", part), "owner", owner)
            group.add("w", "POINT (10 0)")
            group.delete("p", 1)
        return group


class OneStep(GroupCase):
    def test_a_parcel_is_split(self):
        before = self.shown()
        self.assertEqual(self.split().ids, [2, 3, 1])
        after = [f"2 {LEFT} owner='Ada'", f"3 {RIGHT} owner='Ben'"]
        self.assertEqual((self.shown(), self.shown("w")), (after, ["1 POINT (10 0)"]))
        self.store.undo()
        self.assertEqual((self.shown(), self.shown("w")), (before, []))
        self.store.redo()
        self.assertEqual((self.shown(), self.shown("w")), (after, ["1 POINT (10 0)"]))

    def test_every_edit_of_features(self):
        with self.store.together() as group:
            added = group.add("p", bytes.fromhex(self.store.hex("p", 1)))
            group.vertex_insert("p", added, 0, 0, 2, 25, 5)
            group.vertex_move("p", added, 0, 0, 0, -5, 0)
            group.vertex_remove("p", added, 0, 0, 4)
            group.set("p", added, "area", 7)
            group.set("p", added, "owner", "it's Ben")
            group.unset("p", added, "area")
            group.replace("p", 1, LEFT)
            group.unset("p", 1, "owner")
            self.assertEqual(len(group), 9)
        self.assertEqual(
            self.shown(), [f"1 {LEFT}", "2 POLYGON ((-5 0, 20 0, 25 5, 20 10, -5 0)) owner='it''s Ben'"]
        )

    def test_edits_go_on_from_those_before_them(self):
        with self.store.together() as group:
            gone = group.add("w", "POINT (1 1)")
            group.delete("w", gone)
            kept = group.add("w", "POINT (2 2)")
            group.vertex_move("w", kept, 0, 0, 0, 3, 3)
        self.assertEqual((group.ids, gone.id, kept.id), ([1, 2], 1, 2))
        self.assertEqual(self.shown("w"), ["2 POINT (3 3)"])

    def test_an_addition_stands_for_its_identifier_behind_the_group(self):
        with self.store.together() as group:
            well = group.add("w", "POINT (1 1)")
        self.store.replace("w", well, "POINT (2 2)")
        with self.store.together() as other:
            other.vertex_move("w", well, 0, 0, 0, 4, 4)
        self.assertEqual(self.store.get("w", well)[0].wkt, "POINT (4 4)")
        self.assertEqual((well.id, repr(well), isinstance(well, Added)), (1, "<Added to w: 1>", True))

    def test_identifiers_may_be_known_ahead(self):
        with self.store.together() as group:
            group.add("w", "POINT (1 1)")
            group.add("w", "POINT (2 2)")
            group.delete("w", 1)
        self.assertEqual(self.shown("w"), ["2 POINT (2 2)"])

    def test_an_empty_group_sends_nothing(self):
        self.store.undo()
        with self.store.together() as group:
            pass
        self.assertEqual((group.ids, len(group)), ([], 0))
        self.store.redo()

    def test_a_group_of_an_editor(self):
        ann, ben = self.store.editor(1), self.store.editor(2)
        with ann.together() as group:
            group.delete("p", 1)
        self.assert_refused(36, "NotYours", ben.undo)
        self.assert_refused(36, "NotYours", self.store.undo)
        ann.undo()
        self.assertEqual(len(self.shown()), 1)

    def test_a_group_that_is_longer_than_a_pipe_holds(self):
        with self.store.together() as group:
            for k in range(3_000):
                group.vertex_move("w", group.add("w", "POINT (1 1)"), 0, 0, 0, k, k)
        self.assertEqual(group.ids, list(range(1, 3_001)))
        self.assertEqual(self.shown("w")[-1], "3000 POINT (2999 2999)")
        self.store.undo()
        self.assertEqual(self.shown("w"), [])

    def test_as_many_members_as_there_may_be(self):
        with self.store.together() as group:
            for _ in range(language.GROUP_MAX):
                group.set("p", 1, "area", 5)
            with self.assertRaisesRegex(ValueError, "at most 65535 members"):
                group.set("p", 1, "area", 6)
        self.assertEqual(self.shown(), [f"1 {WHOLE} owner='Ada' area=5"])


class Whole(GroupCase):
    """All of a group, or nothing of it."""

    def refused(self, fill):
        with self.assertRaises(Refused) as caught, self.store.together() as group:
            fill(group)
        return caught.exception

    def test_a_refusal_names_the_member_and_its_line(self):
        before = self.shown()

        def fill(group):
            group.add("w", "POINT (1 1)")
            group.delete("p", 7)
            group.delete("p", 1)

        refused = self.refused(fill)
        self.assertEqual((refused.number, refused.name, refused.member), (21, "NoFeature", 2))
        self.assertEqual((refused.line, refused.answer), ("delete p 7", "refused 21 NoFeature member 2"))
        self.assertEqual(str(refused), "21 NoFeature of member 2: delete p 7")
        self.assertEqual((self.shown(), self.shown("w")), (before, []))
        copied = pickle.loads(pickle.dumps(refused))
        self.assertEqual((copied.member, copied.line), (2, "delete p 7"))

    def test_what_a_line_alone_decides_comes_first(self):
        def fill(group):
            group.delete("p", 9)
            group.add("w", "POINT (x 1)")

        refused = self.refused(fill)
        self.assertEqual((refused.number, refused.member, refused.line), (2, 2, "add w POINT (x 1)"))

    def test_a_member_that_is_too_long_and_one_with_a_carriage_return(self):
        refused = self.refused(lambda group: group.add("w", " " * language.LINE_MAX + "POINT (1 1)"))
        self.assertEqual((refused.number, refused.member), (33, 1))
        refused = self.refused(lambda group: group.add("w", "POINT (1\r1)"))
        self.assertEqual((refused.number, refused.member), (31, 1))

    def test_a_refused_group_leaves_what_can_be_redone(self):
        self.store.undo()
        self.refused(lambda group: (group.add("w", "POINT (1 1)"), group.delete("p", 7)))
        self.store.redo()
        self.assertEqual(self.shown(), [f"1 {WHOLE} owner='Ada'"])
        self.assertEqual(self.store.add("w", "POINT (1 1)"), 1)

    def test_an_exception_inside_sends_nothing(self):
        with self.assertRaises(ZeroDivisionError), self.store.together() as group:
            group.delete("p", 1)
            raise ZeroDivisionError
        self.assertEqual(len(self.shown()), 1)
        with self.assertRaisesRegex(RuntimeError, "not carried out"):
            group.ids

    def test_a_word_that_has_no_place_in_a_line(self):
        with self.assertRaises(ValueError), self.store.together() as group:
            group.delete("p", 1)
            group.delete("no layer", 1)
        with self.assertRaises(ValueError), self.store.together() as group:
            group.add("p", "POINT (1 1)\n")
        with self.assertRaises(TypeError), self.store.together() as group:
            group.delete("p", "last")
        self.assertEqual(len(self.shown()), 1)


class Named(GroupCase):
    """What names a feature that a group adds."""

    def test_an_addition_before_another_one_of_its_layer(self):
        with self.store.together() as group:
            first = group.add("p", LEFT)
            group.add("w", "POINT (1 1)")
            group.set("p", first, "area", 1)
            group.add("p", RIGHT)
            with self.assertRaisesRegex(ValueError, "another feature to p since"):
                group.set("p", first, "area", 2)
        self.assertEqual(self.shown()[1:], [f"2 {LEFT} area=1", f"3 {RIGHT}"])

    def test_an_addition_of_another_layer(self):
        with self.assertRaisesRegex(ValueError, "one of w, not of p"), self.store.together() as group:
            group.delete("p", group.add("w", "POINT (1 1)"))

    def test_an_addition_has_no_identifier_before_the_end(self):
        with self.store.together() as group:
            well = group.add("w", "POINT (1 1)")
            for use in (lambda: well.id, lambda: int(well.__index__()), lambda: self.store.get("w", well)):
                with self.assertRaisesRegex(RuntimeError, "no identifier"):
                    use()
            self.assertEqual(repr(well), "<Added to w: not carried out>")
        self.assertEqual(well.id, 1)

    def test_an_addition_of_a_group_that_was_not_carried_out(self):
        with self.assertRaises(Refused), self.store.together() as group:
            well = group.add("w", "POINT (1 1)")
            group.delete("p", 7)
        with self.assertRaisesRegex(RuntimeError, "no identifier"), self.store.together() as other:
            other.delete("w", well)


class Around(GroupCase):
    """What else may be done while a group is open."""

    def test_questions_and_no_edits(self):
        ann = self.store.editor(1)
        with self.store.together() as group:
            group.delete("p", 1)
            self.assertEqual(len(self.store.show("p")), 1)
            self.assertEqual(ann.run("get p 1"), [f"1 {WHOLE} owner='Ada'"])
            edits = (self.store.undo, ann.undo, lambda: ann.run("delete p 1"), lambda: self.store.run_all(["layers", "redo"]))
            for edit in edits:
                with self.assertRaisesRegex(RuntimeError, "a group is open"):
                    edit()
        self.assertEqual(self.shown(), [])
        self.store.undo()

    def test_no_group_inside_of_another_one(self):
        with self.store.together() as group:
            for editor in (self.store, self.store.editor(1)):
                with self.assertRaisesRegex(RuntimeError, "another group is open"), editor.together():
                    pass
            group.delete("p", 1)
        self.assertEqual(self.shown(), [])

    def test_a_group_is_begun_once_and_filled_inside(self):
        group = self.store.together()
        with self.assertRaisesRegex(RuntimeError, "not open"):
            group.delete("p", 1)
        with group:
            group.delete("p", 1)
        with self.assertRaisesRegex(RuntimeError, "not open"):
            group.delete("p", 1)
        with self.assertRaisesRegex(RuntimeError, "begun before"), group:
            pass
        self.store.undo()

    def test_another_thread(self):
        found = []

        def elsewhere(call):
            try:
                call()
            except RuntimeError as error:
                found.append(str(error))

        with self.store.together() as group:
            calls = (lambda: group.delete("p", 1), lambda: self.store.together().__enter__())
            threads = [threading.Thread(target=elsewhere, args=(call,)) for call in calls]
            for thread in threads:
                thread.start()
                thread.join()
        self.assertEqual(["the thread that made it" in text for text in found], [True, True])
        self.assertEqual(len(self.shown()), 1)

    def test_a_store_that_is_closed(self):
        self.store.close()
        with self.assertRaisesRegex(RuntimeError, "closed"), self.store.together():
            pass
        store = Store(PROGRAM)
        with self.assertRaisesRegex(RuntimeError, "closed"), store.together() as group:
            group.delete("p", 1)
            store.close()

    def test_a_program_that_is_killed_inside(self):
        with self.assertRaises(ProgramEnded), self.store.together() as group:
            group.delete("p", 1)
            os.kill(child_of(self.store), signal.SIGKILL)

    def test_a_program_that_ends_in_the_middle_of_the_lines(self):
        ends = self.program(
            """
            for _ in range(3): line()
            say("fault serve Memory\\n")
            sys.exit(1)
            """
        )
        store = Store(ends)
        with self.assertRaises(ProgramEnded) as caught, store.together() as group:
            for _ in range(20_000):
                group.delete("p", 1)
        self.assertEqual((caught.exception.status, caught.exception.last_line), (1, "fault serve Memory"))

    def test_all_lines_are_sent_at_once(self):
        counts = self.program(
            """
            data = os.read(0, 1 << 20)
            say(f"ok {data.count(bytes([10]))}\\n")
            """
        )
        with Store(counts) as store, store.together() as group:
            for _ in range(5):
                group.add("w", "POINT (1 1)")
        self.assertEqual(group.ids, [6])


class OnOneLine(GroupCase):
    """A group as a text, by `run` and `run_all`."""

    def test_a_text_is_carried_out(self):
        text = groups.text_of([f"add p {LEFT}", "set p last area 5", "delete p 1"])
        self.assertEqual(self.store.run(text), "ok 2")
        self.assertEqual(self.shown(), [f"2 {LEFT} area=5"])
        self.store.undo()
        self.assertEqual(self.store.editor(3).run_all(["layers", text, "undo"])[1:], ["ok 2", "ok"])
        self.assertEqual(self.store.run(f"@4 {text}\r"), "ok 2")
        self.assert_refused(36, "NotYours", self.store.undo)

    def test_a_text_that_is_longer_than_a_line(self):
        self.store.add_layer("long")
        text = groups.text_of([f"add long {LONG}"] * 30)
        self.assertGreater(len(text), language.LINE_MAX)
        self.assertEqual(self.store.run(text), "ok " + " ".join(map(str, range(1, 31))))

    def test_a_refusal_names_the_line(self):
        [refused] = self.store.run_all(["together 2\rdelete p 1\rdelete p 1"])
        self.assertEqual((refused.number, refused.member, refused.line), (21, 2, "delete p 1"))

    def test_a_head_alone_has_no_answer(self):
        for line in ("together 2", " \ttogether\t002 ", "@2 together 2", "together 2\r"):
            with self.assertRaisesRegex(ValueError, "begins a group"):
                self.store.run(line)
            with self.assertRaisesRegex(ValueError, "begins a group"):
                self.store.run_all(["layers", line])
        with self.assertRaisesRegex(ValueError, "begins a group"):
            self.store.editor(2).run("together 2")

    def test_lines_that_begin_none(self):
        for line in (
            "together", "together 0", "together 65536", "together 2 3", "together x", "@0 together 2", "@256 together 2",
            "together 2\rdelete p 1", "together 1\rdelete p 1\rdelete p 1", "together 1\r\r", "Together 2",
        ):
            self.assert_refused(31, "BadCommand", self.store.run, line)
        self.assert_refused(31, "BadCommand", self.store.editor(2).run, "@2 together 2")
        for line in ("together 2\rdelete p 1\r \r", "together 2\r\rdelete p 1"):
            self.assert_refused(31, "BadCommand", self.store.run, line)
        self.assertEqual(len(self.shown()), 1)

    def test_texts(self):
        lines = ["together 2", "delete p 1", "undo"]
        self.assertEqual(groups.lines_of("\r".join(lines)), lines)
        self.assertEqual(groups.lines_of("@2 " + "\r".join(lines))[0], "@2 together 2")
        for text in ("together 3\rdelete p 1", "delete p 1", "set p 1 owner 'a\rb'", "together 2"):
            self.assertEqual(groups.lines_of(text), [text])
        self.assertEqual(groups.text_of(lines[1:] + ["undo\r"]), "together 3\rdelete p 1\rundo\rundo")
        for members in ([], ["delete p 1"] * 65_536, ["delete p 1", " \t\r"]):
            with self.assertRaises(ValueError):
                groups.text_of(members)


class Lines(TestCase):
    """Groups as the program itself is given them."""

    def answers(self, data):
        return subprocess.run([PROGRAM], input=data, check=True, capture_output=True).stdout.decode().splitlines()

    def test_a_session(self):
        """Lines behind `> `, and what answers them; `!` is the end of the input."""
        sent, wanted = [], []
        for line in Path(__file__).with_name("groups_session.txt").read_text(encoding="utf-8").splitlines():
            if line.startswith(">"):
                text = re.sub(r"\{(\d+) times (.)\}", lambda found: found[2] * int(found[1]), line[2:])
                sent.append(text.encode().replace(b"\\xff", b"\xff") + b"\n")
            elif line and not line.startswith(("#", "!")):
                wanted.append(line)
        self.assertGreater(len(sent), 90)
        self.assertEqual(self.answers(b"".join(sent)), wanted)

    def test_the_sessions_of_the_page(self):
        page = (FOLDER.parent / "docs" / "use" / "CONSOLE.md").read_text(encoding="utf-8")
        section = page.partition("## Several edits as one step\n")[2].partition("\n## ")[0]
        blocks = [block for block in re.findall(r"(?:^    .*\n)+", section, re.MULTILINE) if block.startswith("    layer")]
        self.assertEqual(len(blocks), 2)
        for block in blocks:
            rows = [re.fullmatch(r"    (\S.*?)?(?: {2,}(\S.*))?", line) for line in block.splitlines()]
            sent = "".join(f"{row[1]}\n" for row in rows if row[1])
            self.assertEqual(self.answers(sent.encode()), [row[2] for row in rows if row[2]])

    def test_an_input_that_ends_inside(self):
        begin = b"layer add w point\ntogether 3\n"
        for behind, answer in (
            (b"", "refused 38 Unfinished"),
            (b"add w POINT (1 1)\n \n", "refused 38 Unfinished"),
            (b"delete w 9\nadd w POINT (1 1)", "refused 38 Unfinished"),
            (b"add w POINT (1 1)\nadd w POINT (x 1)\n", "refused 2 Syntax member 2"),
            (b"save\n", "refused 31 BadCommand member 1"),
        ):
            self.assertEqual(self.answers(begin + behind), ["ok", answer], behind)

    def test_nothing_of_a_group_that_has_not_ended_is_kept(self):
        words = [PROGRAM, f"--store={self.folder}/town.sfs"]
        lines = b"layer add w point\ntogether 2\nadd w POINT (1 1)\n"
        ended = subprocess.run([*words, "--keep"], input=lines, check=True, capture_output=True)
        self.assertEqual(ended.stdout, b"ok\nrefused 38 Unfinished\n")
        self.assertEqual((self.folder / "town.sfs.journal").read_bytes().count(b"\n"), 2)
        with subprocess.Popen(words, stdin=subprocess.PIPE, stdout=subprocess.PIPE) as process:
            process.stdin.write(b"together 2\nadd w POINT (1 1)\nlayers\n")
            process.stdin.flush()
            self.assertEqual(process.stdout.readline(), b"refused 31 BadCommand member 2\n")
            process.stdin.write(b"together 2\nadd w POINT (1 1)\n")
            process.stdin.flush()
            process.kill()
        self.assertEqual((self.folder / "town.sfs.journal").read_bytes().count(b"\n"), 2)

    def test_on_one_line(self):
        lines = [
            "layer add w point", "together 2\radd w POINT (1 1)\radd w POINT (2 2)\r", "@2 together 1\rdelete w 1",
            "together 2\rdelete w 2\rdelete w 2", "together 2\rdelete w 2", "together 2\r\rdelete w 2",
            "together 1\radd w " + " " * 4_194_304 + "POINT (1 1)", "together 1", "delete w\r2", "show w", "undo", "@2 undo",
        ]
        wanted = [
            "ok", "ok 1 2", "ok", "refused 21 NoFeature member 2", "refused 31 BadCommand", "refused 31 BadCommand member 1",
            "refused 33 LineTooLong", "refused 31 BadCommand member 1", "rows 1", "2 POINT (2 2)", "refused 36 NotYours", "ok",
        ]
        self.assertEqual(self.answers("".join(f"{line}\n" for line in lines).encode()), wanted)


class AtRandom(TestCase):
    """Groups by a seed, against a store that is given their members one by one, and undoes them where one is refused."""

    LAYERS = ["layer add p polygon", "layer add w any", "column add p n int", "column add w t text"]

    def setUp(self):
        super().setUp()
        # The second store is given single lines; the third has no layers, so that it decides by the line alone.
        self.grouped, self.single, self.empty = (Store(PROGRAM) for _ in range(3))
        for store in (self.grouped, self.single, self.empty):
            self.addCleanup(store.close, save=False)

    def test_groups_by_a_seed(self):
        self.grouped.run_all(self.LAYERS)
        self.single.run_all(self.LAYERS)
        outcomes = set()
        dice = random.Random(38)
        # How many steps of single lines each step is, of those done and of those undone.
        done, undone = [], []
        for _ in range(1_500):
            if dice.random() < 0.3:
                self.move(*dice.choice([("undo", done, undone), ("redo", undone, done)]))
                continue
            members = [self.member(dice) for _ in range(dice.randint(1, 6))]
            outcome = self.both(members)
            outcomes.add("ok" if outcome.startswith("ok") else outcome.split(" ")[1])
            if outcome.startswith("ok"):
                done.append(len(members))
                undone.clear()
            elif undone:
                # What was tried by single lines has left nothing to redo there.
                self.both(["add w POINT (9 9)"])
                done.append(1)
                undone.clear()
        self.assertLessEqual({"ok", "2", "13", "21", "22", "24", "25", "26", "31"}, outcomes)

    def move(self, verb, source, target):
        """Moves a step in both stores, where there is one; afterwards they are alike."""
        if source:
            target.append(source.pop())
            self.grouped.run(verb)
            self.assertEqual(self.single.run_all([verb] * target[-1]), ["ok"] * target[-1])
            self.assertEqual(self.content(self.grouped), self.content(self.single))

    def both(self, members):
        """The answer of a group, which has to be that of its members."""
        [outcome] = self.grouped.run_all([groups.text_of(members)])
        answer = outcome.answer if isinstance(outcome, Refused) else outcome
        wanted = self.by_the_lines(members) or self.one_by_one(members)
        self.assertEqual(answer, wanted, members)
        self.assertEqual(self.content(self.grouped), self.content(self.single), members)
        return answer

    def by_the_lines(self, members):
        """The refusal that the lines alone decide, if there is one."""
        added = set()
        for number, member in enumerate(members, 1):
            words = member.split(" ")
            [outcome] = self.empty.run_all([re.sub(r"\blast\b", "1", member)])
            if words[0] == "undo" or ("last" in words and not added & set(words)):
                return f"refused 31 BadCommand member {number}"
            if outcome.number != 18:
                return f"{outcome.answer} member {number}"
            added |= {words[1]} if words[0] == "add" else set()
        return ""

    def one_by_one(self, members):
        given, last = [], {}
        for number, member in enumerate(members, 1):
            words = member.split(" ")
            layer = words[2] if words[0] == "vertex" else words[1]
            [outcome] = self.single.run_all([re.sub(r"\blast\b", last.get(layer, ""), member)])
            if isinstance(outcome, Refused):
                self.single.run_all(["undo"] * (number - 1))
                return f"{outcome.answer} member {number}"
            if words[0] == "add":
                last[layer] = outcome.split(" ")[1]
                given.append(last[layer])
        return " ".join(["ok", *given])

    def member(self, dice):
        layer, which = dice.choice("pw"), dice.choice(["last", "last", *map(str, range(1, 9))])
        wkt = dice.choice([WHOLE, LEFT, "POLYGON ((0 0, 4 4, 4 0, 0 4, 0 0))", "POINT (1 1)", "LINESTRING (0 0, 5 5)"])
        if dice.random() < 0.02:
            return dice.choice(["undo", f"add {layer} POINT (x 1)", f"delete {layer}"])
        return dice.choice(
            [
                f"add {layer} {wkt}", f"add {layer} {wkt}", f"add p {LEFT}", f"delete {layer} {which}",
                f"replace {layer} {which} {wkt}", f"vertex move {layer} {which} 0 0 {dice.randrange(5)} {dice.randrange(30)} 5",
                f"vertex insert {layer} {which} 0 0 1 {dice.randrange(30)} 0", f"vertex remove {layer} {which} 0 0 1",
                f"set p {which} n {dice.randrange(9)}", f"set w {which} t 'x'", f"unset p {which} n",
                f"set {layer} {which} n 'x'",
            ]
        )  # fmt: skip

    def content(self, store):
        return [store.run(f"show {layer}") for layer in "pw"]


class Kept(TestCase):
    """A group in a journal."""

    def setUp(self):
        super().setUp()
        self.path = self.folder / "town.sfs"

    def store(self):
        store = Store(self.path, journal=True, program=PROGRAM)
        self.addCleanup(store.close, save=False)
        return store

    def test_a_group_is_one_record(self):
        with self.store() as store:
            store.run_all(MADE)
            before = store.unsaved
            with store.editor(7).together() as group:
                group.set("p", group.add("p", LEFT), "owner", "Ben")
                group.delete("p", 1)
            self.assertEqual(store.unsaved, before + 1)
            self.assertEqual(
                store.unsaved_lines[-1], f"@7 together 3\radd p {LEFT}\rset p last owner 'Ben'\rdelete p 1"
            )
            store.close(save=False)
        with self.store() as store:
            self.assertEqual(store.recovered.edits, before + 1)
            shown = store.run("show p")
            self.assertEqual(shown, [f"2 {LEFT} owner='Ben'"])
            with Store(PROGRAM) as other:
                other.run_all(store.unsaved_lines)
                self.assertEqual(other.run("show p"), shown)
            store.editor(7).undo()
            self.assertEqual(store.run("show p"), [f"1 {WHOLE} owner='Ada'"])
            store.close(save=False)

    def test_a_refused_group_has_none(self):
        with self.store() as store:
            store.run_all(MADE)
            before = store.unsaved
            with self.assertRaises(Refused), store.together() as group:
                group.delete("p", 1)
                group.delete("p", 1)
            self.assertEqual((store.unsaved, len(store.unsaved_lines)), (before, before))
            store.close(save=False)

    def test_a_record_that_is_longer_than_a_line(self):
        with self.store() as store:
            store.add_layer("w")
            with store.together() as group:
                for _ in range(30):
                    group.add("w", LONG)
            # A second program makes the copy of the file and the records.
            store.copy(self.folder / "copy.sfs")
            self.assertGreater(len(store.unsaved_lines[1]), language.LINE_MAX)
            store.close(save=False)
        with self.store() as store:
            self.assertEqual((store.recovered.edits, len(store.show("w"))), (2, 30))
            store.undo()
            self.assertEqual(store.show("w"), [])
            store.redo()
        with Store(PROGRAM, load=self.path) as saved, Store(PROGRAM, load=self.folder / "copy.sfs") as copied:
            self.assertEqual(len(saved.show("w")), 30)
            self.assertEqual(saved.show("w"), copied.show("w"))

    def test_a_save_inside_is_no_member(self):
        with self.store() as store:
            store.run_all(MADE)
            self.assert_refused(31, "BadCommand", store.run, "together 2\rdelete p 1\rsave")
            self.assertFalse(self.path.exists())
            store.close(save=False)

    def test_a_journal_that_is_taken_away_inside(self):
        store = self.store()
        store.run_all(MADE)
        os.unlink(f"{self.path}.lock")
        with self.assertRaises(JournalError), store.together() as group:
            group.delete("p", 1)


if __name__ == "__main__":
    unittest.main()
