"""Each growth of memory refused in turn, over the built programs: sessions, files loaded and saved, pictures."""

from __future__ import annotations

import unittest

from preloaded import PICTURE, STORE, Preloaded

from growths import EDITS, QUESTIONS, REFUSED, REFUSING, SESSION, Call, Ended, Session, answers, checked, refused_runs, sent

# What a line of each command and of each edit begins with.
COMMANDS = """\
layer add
layer drop
layer rename
layer move
layers
column add
column drop
columns
add
addhex
delete
replace
vertex insert
vertex move
vertex remove
set
unset
show
get
find
check
hex
box
simple
area
length
distance
relate
match
query
join
rule add
rule drop
rules
undo
redo
together
""".splitlines()

# A feature deleted, additions taken back, and others in their place.
TAKEN_BACK = """\
layer add w point
add w POINT (1 1)
delete w 1
add w POINT (2 2)
undo
undo
undo
add w POINT (3 3)
show w
redo
undo
redo
show w
layer drop w
""".splitlines()

LAYERS = """\
layer add a any
layer add b any
layer add c any
layer drop b
layers
undo
layers
layer move c 0
layers
layer move a 3
layer rename a b
layer add 9x any
layer drop a
layer drop b
layer drop c
""".splitlines()

VERTICES = """\
layer add p polygon
add p POLYGON ((0 0, 10 0, 10 10, 0 10, 0 0))
vertex move p 1 0 0 2 5 -5
show p
vertex move p 1 0 0 0 -1 -1
show p
undo
show p
vertex insert p 1 0 0 4 0 5
show p
vertex remove p 1 0 0 4
show p
vertex remove p 1 0 0 4
box p 1
layer drop p
""".splitlines()

# A layer with values, and its column dropped.
VALUES = """\
layer add w point
column add w depth int
column add w label text
add w POINT (1 1)
add w POINT (2 2)
add w POINT (3 3)
set w 1 depth 12
set w 3 depth -7
set w 1 label 'it''s old'
show w
column drop w depth
columns w
""".splitlines()

VALUES_BACK = """\
undo
columns w
show w
set w 2 depth 'x'
set w 2 label 'x'
redo
undo
layer drop w
""".splitlines()

EDITORS = """\
@1 layer add w point
@1 add w POINT (1 1)
@2 add w POINT (2 2)
@1 undo
@2 undo
@2 undo
@1 redo
@1 undo
@2 redo
@1 redo
@2 redo
undo
@3 show w
@2 undo
@3 delete w 1
@2 redo
@255 query w intersects POINT (1 1)
@0 undo
@3 undo
@1 show w
""".splitlines()

def together(*members: str) -> str:
    """A group as the lines that have one answer."""
    return "\n".join([f"together {len(members)}", *members])


# Groups that add, change and delete in two layers, by their own lines and on one line; undone and done again, by two editors.
GROUPS = [
    "layer add p polygon",
    "layer add w point",
    "column add p owner text",
    "add p POLYGON ((0 0, 20 0, 20 10, 0 10, 0 0))",
    "set p 1 owner 'Ada'",
    together(
        "add p POLYGON ((0 0, 10 0, 10 10, 0 10, 0 0))",
        "set p last owner 'Ada'",
        "add p POLYGON ((10 0, 20 0, 20 10, 10 10, 10 0))",
        "set p last owner 'Ben'",
        "add w POINT (10 0)",
        "delete p 1",
    ),
    "show p",
    "@2 together 2\rvertex move p 2 0 0 1 9 0\rvertex move p 3 0 0 0 9 0",
    "show p",
    "undo",
    "@2 undo",
    "undo",
    "show p",
    "redo",
    "@2 redo",
    "show p",
    together("replace p 3 POLYGON ((9 0, 20 0, 20 10, 9 0))", "unset p 2 owner", "addhex w 010100000000000000000008400000000000001040"),
    together("delete w 1", "delete w 7"),
    together("add w POINT (1 1)", "set w last owner 'x'"),
    together("delete w 2", "add w POINT (2 2)", "delete w last"),
    "undo",
    "undo",
    "query w disjoint POINT (2 2)",
    "redo",
    "redo",
    "show w",
    "show p",
    *["undo"] * 4,
    "layer drop p",
    "layer drop w",
]

# Rules added and dropped, edits and groups that they take or refuse, another name for a layer; undone and done again.
RULES = [
    "layer add p polygon",
    "layer add w point",
    "rule add apart never p T******** p",
    "rule add placed each w intersects some p",
    "add p POLYGON ((0 0, 9 0, 9 9, 0 9, 0 0))",
    "add w POINT (1 1)",
    "add p POLYGON ((5 5, 15 5, 15 15, 5 15, 5 5))",
    "vertex move p 1 0 0 2 8 8",
    "delete p 1",
    "add w POINT (20 20)",
    together("add p POLYGON ((0 0, 5 0, 5 5, 0 5, 0 0))", "delete p 1"),
    together("delete p 2", "delete w 9"),
    together("add w POINT (2 2)", "delete p 2"),
    "layer drop p",
    "layer rename p q",
    "rules",
    "undo",
    "rules",
    "undo",
    "show p",
    "redo",
    "redo",
    "show q",
    "@2 rule drop placed",
    "@2 undo",
    "@2 redo",
    "rules",
    "rule add apart never q equals q",
    "rule drop apart",
    "undo",
    "rules",
    "redo",
    "layer drop q",
    "layer drop w",
]

# Rules on values, with the index that they make, which edits keep or lose; undone and done again.
VALUE_RULES = [
    "layer add p point",
    "column add p n text",
    "column add p k int",
    "add p POINT (1 1)",
    "add p POINT (2 2)",
    "set p 1 n 'a long text that takes memory of its own'",
    "rule add numbers unique p n",
    "rule add numbers unique p k",
    "rule add kept unique p m",
    "set p 2 n 'a long text that takes memory of its own'",
    "set p 2 n 'another long text that takes memory of its own'",
    "find p n 'another long text that takes memory of its own'",
    "rule add numbered required p n",
    "add p POINT (3 3)",
    together("add p POINT (3 3)", "set p last n 'c'"),
    together("set p 1 n 'c'", "set p 3 n 'd'"),
    "unset p 3 n",
    "set p 3 k 7",
    "find p k 7",
    "find p k 6 to 8",
    "find p n 'another' to 'c'",
    "rule add texts one-of p n 'c', 'd', 'another long text that takes memory of its own', E'a\\nb'",
    "rule add some range p k to 8",
    "set p 2 k 9",
    "set p 3 n 'z'",
    "set p 3 n E'a\\nb'",
    "column drop p n",
    "layer rename p q",
    "rules",
    "undo",
    "rule drop texts",
    "undo",
    "redo",
    "undo",
    "undo",
    "undo",
    "undo",
    "undo",
    "undo",
    "set p 3 n 'a long text that takes memory of its own'",
    "delete p 1",
    "set p 3 n 'a long text that takes memory of its own'",
    "show p",
    "rule drop numbers",
    "rule drop numbered",
    "undo",
    "redo",
    "layer drop p",
]

WHOLE = [*SESSION, *(f"layer drop {name}" for name in "acd"), *TAKEN_BACK, *LAYERS, *VERTICES, *VALUES, *VALUES_BACK, *GROUPS, *RULES, *VALUE_RULES, *EDITORS]

# A look at a layer of points: what its index finds, and the rest.
LOOKS = ["query w intersects POLYGON ((0 0, 3 0, 3 3, 0 3, 0 0))", "query w disjoint POINT (2 2)"]
COUNT = 30


def indexed() -> list[str]:
    """Points added to a layer, and some of them moved, deleted and taken back, with looks at it between."""
    lines = ["layer add w point"]
    for place in range(COUNT):
        lines += [f"add w POINT ({place % 6} {place // 6})", *LOOKS]
    for number in range(1, COUNT, 2):
        lines += [f"delete w {number}", *LOOKS]
    for number in range(2, COUNT, 4):
        lines += [f"vertex move w {number} 0 0 0 {number % 5} 1", *LOOKS]
    return [*lines, *(line for verb in ["undo"] * 12 + ["redo"] * 8 for line in (verb, *LOOKS)), "show w"]


# A column's values dropped and taken back: a look behind each line, and on after it.
DROPPED = [*VALUES, "show w", "undo", "columns w", "show w", "undo", "columns w", "show w", *["undo"] * 9, "layers"]
FIRST_UNDO = DROPPED.index("undo")
VALUES_SHOWN = ["rows 3", "1 POINT (1 1) depth=12 label='it''s old'", "2 POINT (2 2)", "3 POINT (3 3) depth=-7"]
LABELS_SHOWN = ["rows 3", "1 POINT (1 1) label='it''s old'", "2 POINT (2 2)", "3 POINT (3 3)"]
AFTER_FIRST = [REFUSED, ["rows 1", "label text"], LABELS_SHOWN, ["ok"], ["rows 2", "depth int", "label text"], VALUES_SHOWN]

# A store of several layers, with values and all kinds, and what is asked of it once it was loaded.
POINTS = [f"add m POINT ({place % 6} {place // 6})" for place in range(COUNT)]
STORED = [*VALUES[:-2], *EDITS[:-3], "layer add m point", *POINTS, "rule add single never m equals m", "rule add priced range a price -900.25 to", "rule add labels one-of a label 'x', E'a\\nb''s\\x1b'"]
ASKED = """\
layers
columns w
show w
query m intersects POLYGON ((0 0, 3 0, 3 3, 0 3, 0 0))
delete m 7
query m disjoint POINT (2 2)
join m intersects m
join m T******** m 1
undo
add m POINT (9 9)
query m intersects POINT (9 9)
show m
""".splitlines() + QUESTIONS


class Refused(Preloaded):
    """Runs in which growths are refused, one or all from one on."""

    source = REFUSING
    stored = STORED

    def ends(self, call: Call, lines: list[str]) -> list[tuple[str, Ended]]:
        """How the runs of a session ended, each checked."""
        session = Session(call, lines)
        found = []
        for has_rest in (False, True):
            runs = checked(self.library, session, has_rest)
            self.assertTrue(runs)
            found += runs
        ample = session.without(())
        self.assertEqual((ample.status, ample.told), (0, b""))
        self.assertNotIn(REFUSED, answers(ample.output))
        return found

    def test_every_command_and_every_edit_undone_and_done_again(self) -> None:
        ends = {end for end, _ in self.ends(Call(STORE), WHOLE)}
        self.assertIn("serve", ends)

    def test_a_group_is_carried_out_whole_or_not_at_all(self) -> None:
        found = self.ends(Call(STORE, saves=True), GROUPS)
        groups = {str(place) for place, line in enumerate(GROUPS) if "together" in line}
        moves = {str(place) for place, line in enumerate(GROUPS) if line.endswith(("undo", "redo"))}
        refused = {end for end, _ in found}
        self.assertTrue(groups & refused and moves & refused, refused)

    def test_rules_hold_whatever_growth_is_refused(self) -> None:
        found = self.ends(Call(STORE, saves=True), RULES)
        refused = {RULES[int(end)] for end, _ in found if end.isdecimal()}
        for begin in ("rule add apart never p", "add p", "vertex move p", "together", "layer rename", "undo", "redo"):
            self.assertTrue(any(line.startswith(begin) for line in refused), (begin, refused))

    def test_the_session_has_every_command(self) -> None:
        given = answers(Call(STORE).run(sent(WHOLE), {}).output)
        accepted = {line for line, answer in zip(WHOLE, given) if not answer[0].startswith("refused ")}
        for command in COMMANDS:
            self.assertTrue(any(f"{line} ".startswith(f"{command} ") for line in accepted), command)

    def test_an_index_without_memory_is_missed_by_no_answer(self) -> None:
        ends = [end for end, _ in self.ends(Call(STORE), indexed())]
        # These growths were the index's: no line was refused for them, and all answers are right.
        self.assertGreater(ends.count(""), 0)

    def test_a_dropped_column_comes_back_whole_or_not_yet(self) -> None:
        found = self.ends(Call(STORE), DROPPED)
        first = [answers(ended.output) for end, ended in found if end == str(FIRST_UNDO)]
        self.assertTrue(first)
        for given in first:
            self.assertEqual(given[FIRST_UNDO : FIRST_UNDO + len(AFTER_FIRST)], AFTER_FIRST)

    def test_a_file_is_loaded_whole_or_not(self) -> None:
        ends = {end for end, _ in self.ends(Call(STORE, ("--load", str(self.file))), ASKED)}
        self.assertLessEqual({"words", "load", "serve", ""}, ends)

    def test_a_file_is_saved_whole_or_a_fault_is_told(self) -> None:
        ends = {end for end, _ in self.ends(Call(STORE, ("--load", str(self.file)), saves=True), ASKED)}
        self.assertLessEqual({"words", "load", "serve", "save"}, ends)

    def check_picture(self, ended: Ended, whole: bytes) -> None:
        """Refuses what a picture program must not do without memory."""
        if ended.status == 0:
            self.assertEqual((ended.output, ended.told), (whole, b""))
        elif ended.status == 1:
            self.assertEqual(ended.told, b"fault draw Memory\n")
            self.assertTrue(whole.startswith(ended.output))
        else:
            faults = {2: b"fault words Memory\n", 3: b"fault load Memory\n"}
            self.assertEqual((ended.told, ended.output), (faults.get(ended.status), b""))

    def test_a_picture_is_drawn_whole_or_a_fault_is_told(self) -> None:
        file = self.file.read_bytes()
        for words in ((), ("--layer", "a", "--layer", "m", "--window", "-5", "-5", "9", "9")):
            whole = Call(PICTURE, words).run(file, {}).output
            self.assertTrue(whole.endswith(b"</svg>\n"))
            for has_rest in (False, True):
                statuses = set()
                for number, ended in refused_runs(self.library, Call(PICTURE, words), file, has_rest):
                    statuses.add(ended.status)
                    with self.subTest(words=words, growth=number, has_rest=has_rest):
                        self.check_picture(ended, whole)
                self.assertIn(3, statuses)


if __name__ == "__main__":
    unittest.main()
