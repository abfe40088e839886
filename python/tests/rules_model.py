"""A model of a store with rules: a program without rules does the edits, and the whole map is looked at behind each.

What breaks a rule is read off the rows of `join` and `show`, of all features; the program under test looks near what
changed alone, and by its indexes.
"""

from __future__ import annotations

import re
import subprocess
from typing import NamedTuple, Union

from sfstore import Rule
from sfstore.rules import AnyRule, ValueRule, rule_of
from sfstore.values import of_text

NAME = re.compile("[A-Za-z][A-Za-z0-9_]{0,31}")
PREDICATES = ("equals", "disjoint", "intersects", "touches", "within", "contains", "crosses", "overlaps")
PATTERN = re.compile("[TtFf*012]{9}")
# A distance, whose digits behind the point are at most three.
NEAR = re.compile(r"near (\d+)(?:\.(\d{1,3}))?")
DISTANCE_LIMIT = 4_294_967_296


class Program:
    """A program that answers lines."""

    def __init__(self, path: str) -> None:
        self._process = subprocess.Popen([path], stdin=subprocess.PIPE, stdout=subprocess.PIPE, bufsize=0)
        assert self._process.stdin and self._process.stdout
        self._input, self._output = self._process.stdin, open(self._process.stdout.fileno(), encoding="ascii", closefd=False)

    def ask(self, text: str) -> list[str]:
        """The lines that answer a line, or a group with a line feed before each member."""
        self._input.write(text.encode() + b"\n")
        first = self._output.readline().rstrip("\n")
        count = int(first[5:]) if first.startswith("rows ") else 0
        return [first, *(self._output.readline().rstrip("\n") for _ in range(count))]

    def close(self) -> None:
        self._input.close()
        self._process.wait()
        self._output.close()
        assert self._process.stdout
        self._process.stdout.close()


class Edit(NamedTuple):
    """A step that the program without rules has made."""

    editor: str
    line: str


class Rules(NamedTuple):
    """A step of rules alone."""

    editor: str


class Step(NamedTuple):
    """A step, and the rules on its other side."""

    made: Union[Edit, Rules]
    rules: list[AnyRule]


class Model:
    """A store with rules."""

    def __init__(self, program: Program) -> None:
        self._program = program
        self._rules: list[AnyRule] = []
        self._past: list[Step] = []
        self._future: list[Step] = []

    def ask(self, text: str) -> list[str]:
        """What a store with rules answers."""
        editor, line = re.fullmatch(r"(@\d+ )?(.*)", text, re.DOTALL).groups(default="")  # type: ignore[union-attr]
        words = line.split(" ")
        if words[0] == "rules":
            return [f"rows {len(self._rules)}", *(_row(rule) for rule in self._rules)]
        if words[0] == "rule":
            return [self._rule(editor, words)]
        if line == "undo":
            return [self._back(editor)]
        if line == "redo":
            return [self._forth(editor)]
        return [self._edit(editor, line)]

    # ---- rules

    def _rule(self, editor: str, words: list[str]) -> str:
        if words[1] == "drop":
            left = [rule for rule in self._rules if rule.name != words[2]]
            if len(left) == len(self._rules):
                return "refused 39 NoRule"
            return self._to(Rules(editor), left)
        rule = rule_of(" ".join(words[2:]))
        if isinstance(rule, Rule) and rule.ask.startswith("near") and not _is_near(rule.ask):
            return "refused 31 BadCommand"
        return self._refusal(rule) or self._to(Rules(editor), [*self._rules, rule])

    def _refusal(self, rule: AnyRule) -> str:
        if isinstance(rule, Rule) and rule.ask not in PREDICATES and not PATTERN.fullmatch(rule.ask) and not _is_near(rule.ask):
            return "refused 32 BadPattern"
        if not NAME.fullmatch(rule.name):
            return "refused 20 BadName"
        if any(other.name == rule.name for other in self._rules):
            return "refused 40 RuleExists"
        layers = [row.split(" ")[0] for row in self._program.ask("layers")[1:]]
        if not set(rule.layers) <= set(layers):
            return "refused 18 NoLayer"
        if isinstance(rule, ValueRule):
            types = dict(row.split(" ") for row in self._program.ask(f"columns {rule.layer}")[1:])
            if rule.column not in types:
                return "refused 22 NoColumn"
            if not _fits(rule, types[rule.column]):
                return "refused 24 WrongValue"
        return self._broken(rule)

    def _broken(self, rule: AnyRule) -> str:
        """The refusal of what would break a rule, of all features; empty where it holds."""
        return self._broken_values(rule) if isinstance(rule, ValueRule) else self._broken_layers(rule)

    def _broken_values(self, rule: ValueRule) -> str:
        rows = self._program.ask(f"show {rule.layer}")[1:]
        value = re.compile(f" {rule.column}=('(?:[^']|'')*'|[^ ]+)")
        found = [(row.split(" ")[0], value.search(row)) for row in rows]
        if rule.demand != "unique":
            left = next((number for number, text in found if rule.is_wrong(None if text is None else of_text(text[1]))), None)
            return f"refused 37 RuleBroken {rule.name} {left}" if left else ""
        valued = [(number, text[1]) for number, text in found if text is not None]
        for at, (number, text) in enumerate(valued):
            double = next((other for other, behind in valued[at + 1 :] if behind == text), None)
            if double:
                return f"refused 37 RuleBroken {rule.name} {number} {double}"
        return ""

    def _broken_layers(self, rule: Rule) -> str:
        pairs = [row.split(" ") for row in self._program.ask(f"join {rule.layer} {rule.ask} {rule.other}")[1:]]
        if rule.form == "never":
            return f"refused 37 RuleBroken {rule.name} {pairs[0][0]} {pairs[0][1]}" if pairs else ""
        served = {first for first, _ in pairs}
        alone = [row.split(" ")[0] for row in self._program.ask(f"show {rule.layer}")[1:]]
        left = next((number for number in alone if number not in served), None)
        return f"refused 37 RuleBroken {rule.name} {left}" if left else ""

    # ---- edits and steps

    def _edit(self, editor: str, line: str) -> str:
        words = line.split(" ")
        if words[:2] == ["layer", "drop"] and any(words[2] in rule.layers for rule in self._rules):
            return "refused 41 LayerRuled"
        if words[:2] == ["column", "drop"] and any(isinstance(rule, ValueRule) and words[2:] == [rule.layer, rule.column] for rule in self._rules):
            return "refused 42 ColumnRuled"
        [answer] = self._program.ask(editor + line)
        if answer.startswith("refused"):
            return answer
        rules = self._rules
        if words[:2] == ["layer", "rename"]:
            rules = [_renamed(rule, words[2], words[3]) for rule in rules]
        broken = next(filter(None, map(self._broken, rules)), "")
        if broken:
            self._program.ask(editor + "undo")
            return broken
        self._to(Edit(editor, line), rules)
        return answer

    def _to(self, made: Union[Edit, Rules], rules: list[AnyRule]) -> str:
        self._past.append(Step(made, self._rules))
        self._future.clear()
        self._rules = rules
        return "ok"

    def _back(self, editor: str) -> str:
        if not self._past:
            return "refused 29 NothingToUndo"
        if self._past[-1].made.editor != editor:
            return "refused 36 NotYours"
        made, before = self._past.pop()
        if isinstance(made, Edit):
            assert self._program.ask(editor + "undo") == ["ok"]
        self._future.append(Step(made, self._rules))
        self._rules = before
        return "ok"

    def _forth(self, editor: str) -> str:
        if not self._future:
            return "refused 30 NothingToRedo"
        if self._future[-1].made.editor != editor:
            return "refused 36 NotYours"
        made, after = self._future.pop()
        if isinstance(made, Edit):
            # From the same content it is accepted again, and gives the same identifiers.
            assert not self._program.ask(editor + made.line)[0].startswith("refused")
        self._past.append(Step(made, self._rules))
        self._rules = after
        return "ok"


def _fits(rule: ValueRule, column_type: str) -> bool:
    """Whether a column of a type, one of texts or of whole numbers, can have the values that a rule names, and its range has a value."""
    ends = [end for end in (rule.least, rule.greatest) if end is not None]
    wanted = str if column_type == "text" else int
    if any(type(value) is not wanted for value in [*rule.allowed, *ends]):
        return False
    return len(ends) < 2 or ends[0] <= ends[1]  # type: ignore[operator]


def _renamed(rule: AnyRule, old: str, new: str) -> AnyRule:
    """A rule with another name for a layer."""
    layer = new if rule.layer == old else rule.layer
    if isinstance(rule, ValueRule):
        return rule._replace(layer=layer)
    return rule._replace(layer=layer, other=new if rule.other == old else rule.other)


def _is_near(ask: str) -> bool:
    """Whether a distance is asked for that a store has."""
    found = NEAR.fullmatch(ask)
    return found is not None and int(found[1]) < DISTANCE_LIMIT


def _row(rule: AnyRule) -> str:
    """The row of a rule: patterns have capital letters, and distances no digit behind the point or three."""
    if isinstance(rule, ValueRule):
        return rule.line
    near = NEAR.fullmatch(rule.ask)
    if near:
        digits = (near[2] or "").ljust(3, "0")
        return rule._replace(ask=f"near {int(near[1])}" + (f".{digits}" if int(digits) else "")).line
    return rule.line if rule.ask in PREDICATES else rule._replace(ask=rule.ask.upper()).line
