"""Lines that are carried out as a whole: all of them, or none.

Edits of features are a group, which the program carries out so (`carry_out_group`). No group has lines that edit layers
or columns, nor as many as a batch may have. Of such a batch each geometry is judged by a question first, then the lines
are carried out one after another, and where one is refused nevertheless those before it are undone. `carry_out` alone
knows of this. That leaves a step to redo: so whoever keeps a store asks `refusal_of` another program before.
"""

from __future__ import annotations

from collections.abc import Callable, Sequence
from typing import NamedTuple

from sfstore import spelling
from sfstore.groups import text_of
from sfstore.language import GROUP_MAX, MEMBERS, QUESTIONS, words_of_line
from sfstore.program import is_edit
from sfstore.results import JournalError
from sfstore.store import Answer, Editor, Refused
from sfstore.web.changes import LAST, feature_of

__all__ = [
    "LINES_MAX",
    "Batch",
    "Done",
    "Group",
    "LineRefused",
    "NotTakenBack",
    "Outcome",
    "batch_of",
    "carry_out",
    "carry_out_group",
    "is_group",
    "moved",
    "refusal_of",
    "take_back",
]

LINES_MAX = 100_000
"""How many lines a batch has at most."""

# What is no line of a batch: questions, steps of the history, and groups.
_OTHERS = QUESTIONS | {"undo", "redo", "together"}

# How many words stand before a geometry.
_BEFORE_GEOMETRY = {"add": 2, "replace": 3}


class LineRefused(Exception):
    """A line of a batch is refused, and nothing was changed."""

    def __init__(self, at: int, refused: Refused) -> None:
        super().__init__(at, refused)
        self.at = at
        """Its place among the lines, from 0."""
        self.refused = refused


class NotTakenBack(JournalError):
    """Steps that are to be moved together stay where they are in part, out of memory. The next opening of the store takes them back."""

    def __init__(self, refused: Refused) -> None:
        super().__init__(f"a batch, or its undo, was carried out in part and could not be taken back ({refused}): the next opening of the store does it")


class Batch(NamedTuple):
    """Lines that somebody wants to be carried out as a whole."""

    editor: int
    page: str
    lines: Sequence[str]
    seen: Sequence[int | None]
    """Of each line the version of the store that the page has seen of what it edits."""


class Done(NamedTuple):
    """What a batch has brought."""

    answers: list[str]
    """The answers of its lines, in their order."""
    version: int
    """The version of the store that it has made."""


class Outcome(NamedTuple):
    """What became of the lines of a batch."""

    answers: list[str]
    """The answers of its lines, in their order; none where one is refused."""
    accepted: list[tuple[str, str]]
    """What the program has accepted, in its order, with the answers: also what was undone then."""
    refused: LineRefused | None
    """The line that is refused, where one is."""


class Group(NamedTuple):
    """A group that was carried out."""

    text: str
    answer: str
    """The program's answer, with the identifiers of all additions."""
    answers: list[str]
    """Those that its lines would have had by themselves."""


class _Late(NamedTuple):
    """A line that names a feature whose identifier an earlier line gives."""

    front: str
    rest: str
    addition: int
    """The place of that line."""


def batch_of(editor: int, page: str, lines: object, seen: object) -> Batch:
    """A batch of what a call brings. `ValueError` where it is none."""
    if not isinstance(lines, list) or not 1 <= len(lines) <= LINES_MAX:
        raise ValueError(f"lines has to be a list of 1 to {LINES_MAX} texts")
    if not isinstance(seen, list) or len(seen) != len(lines):
        raise ValueError("seen has to be a list with a version, or null, for each line")
    for line, version in zip(lines, seen):
        _check(line, version)
    _late_ones(lines)
    return Batch(editor, page, lines, seen)


def is_group(lines: Sequence[str]) -> bool:
    """Whether the lines of a batch are a group: several edits of features, and not too many."""
    return 1 < len(lines) <= GROUP_MAX and all(map(_is_member, lines))


def _is_member(line: str) -> bool:
    # A carriage return inside would part the line.
    return words_of_line(line)[0] in MEMBERS and "\r" not in line.removesuffix("\r")


def carry_out_group(editor: Editor, lines: Sequence[str]) -> Group:
    """Carries out lines as a group.

    `LineRefused` where the program refuses one of them, and `Refused` where it names none.
    """
    text = text_of(lines)
    try:
        answer = str(editor.run(text))
    except Refused as refused:
        if refused.member is None:
            raise
        raise LineRefused(refused.member - 1, refused) from None
    numbers = iter(answer.split(" ")[1:])
    are_additions = (words_of_line(line)[0] in ("add", "addhex") for line in lines)
    return Group(text, answer, [f"ok {next(numbers)}" if adds else "ok" for adds in are_additions])


def _check(line: object, version: object) -> None:
    """`ValueError` where something is no line of a batch, or does not say what its page has seen."""
    if not isinstance(line, str):
        raise ValueError("lines has to be a list of texts")
    spelling.encoded(line)
    word = (words_of_line(line) or [""])[0]
    if word in _OTHERS or line.lstrip(" \t").startswith("@"):
        raise ValueError(f"a batch has edits of its own editor alone, not {line[:40]!r}")
    if version is None and feature_of(line) is None:
        return
    if type(version) is not int or not 0 <= version <= 2**53:
        raise ValueError("seen has to be a whole number for a line that edits a feature")


def carry_out(
    editor: Editor, lines: Sequence[str], begin: Callable[[list[str]], object] = lambda sent: None, mark: str = ""
) -> Outcome:
    """Carries out lines as a whole.

    Lines that name a new feature as ``last`` are carried out behind all others. ``begin`` is called
    with the lines in this order, before the first of them is carried out. Each is sent with ``mark`` at its end.
    """
    outcome = _carried(editor, lines, begin, mark)
    if outcome.refused is None:
        return outcome
    return outcome._replace(accepted=outcome.accepted + take_back(editor, len(outcome.accepted)))


def refusal_of(editor: Editor, lines: Sequence[str], mark: str) -> LineRefused | None:
    """Carries out lines in a store that nobody needs behind it, and gives the one that is refused, if one is: nothing is taken back."""
    return _carried(editor, lines, lambda sent: None, mark).refused


def _carried(editor: Editor, lines: Sequence[str], begin: Callable[[list[str]], object], mark: str) -> Outcome:
    """What becomes of lines up to the first part of them in which one is refused."""
    late = _late_ones(lines)
    refused = _judged(editor, lines)
    if refused is not None:
        return Outcome([], [], refused)
    early = [line for at, line in enumerate(lines) if at not in late]
    begin([line + mark for line in (*early, *(lines[at] for at in late))])
    accepted: list[tuple[str, str]] = []
    answers: dict[int, Answer | Refused] = {}
    accepted += _sent(editor, {at: line for at, line in enumerate(lines) if at not in late}, answers, mark)
    refused = _first_refused(answers)
    if refused is None:
        numbered = {at: _numbered(each, answers) for at, each in late.items()}
        accepted += _sent(editor, numbered, answers, mark)
        refused = _first_refused(answers)
    if refused is not None:
        return Outcome([], accepted, refused)
    return Outcome([str(answers[at]) for at in range(len(lines))], accepted, None)


def _late_ones(lines: Sequence[str]) -> dict[int, _Late]:
    """The lines that say ``last``, by their places. `ValueError` where there is no such addition.

    So it is where a line behind it adds, drops or renames the layer or a column of it: it is carried out behind that, and would mean
    something else.
    """
    changed = _last_changes(lines)
    additions: dict[str, int] = {}
    late: dict[int, _Late] = {}
    for at, line in enumerate(lines):
        found = LAST.match(line)
        if found is not None:
            if found[2] not in additions:
                raise ValueError(f"no line before {line[:40]!r} adds a feature to {found[2]}")
            if changed.get(found[2], at) > at:
                raise ValueError(f"a line behind {line[:40]!r} changes what {found[2]} is, or its columns: send it by itself")
            late[at] = _Late(found[1], line[found.end() :], additions[found[2]])
            continue
        words = words_of_line(line)
        if words[0] in ("add", "addhex") and len(words) > 1:
            additions[words[1]] = at
    return late


def _judged(editor: Editor, lines: Sequence[str]) -> LineRefused | None:
    """The first line whose geometry would be refused: asked before, so that it leaves no trace in the history."""
    questions = {at: question for at, line in enumerate(lines) if (question := _question(line))}
    outcomes = editor.run_all(questions.values())
    others = _other_layers(lines)
    for at, outcome in zip(questions, outcomes):
        # The layer may come by a line before, or be another one then, and a geometry that takes another's place needs no identifier.
        if not isinstance(outcome, Refused) or outcome.name in ("NoLayer", "IdsExhausted"):
            continue
        # Lines that say `last` are carried out behind all others.
        end = len(lines) if LAST.match(lines[at]) else at
        is_other = others.get(words_of_line(lines[at])[1], end) < end
        if outcome.name != "WrongKind" or not is_other:
            return LineRefused(at, outcome)
    return None


def _other_layers(lines: Sequence[str]) -> dict[str, int]:
    """The names that are those of other layers than before behind some line, with the place of the first such line."""
    found: dict[str, int] = {}
    for at, line in enumerate(lines):
        words = words_of_line(line)
        if words[:2] in (["layer", "add"], ["layer", "drop"], ["layer", "rename"]):
            for name in words[2:4]:
                found.setdefault(name, at)
    return found


def _last_changes(lines: Sequence[str]) -> dict[str, int]:
    """The names of layers that lines add, drop or rename, or of which they change columns, with the place of the last such line."""
    found: dict[str, int] = {}
    for at, line in enumerate(lines):
        words = words_of_line(line)
        if len(words) > 2 and words[1] in ("add", "drop", "rename"):
            # Of a layer that is renamed both names; of a column its layer.
            names = {"layer": words[2:4], "column": words[2:3]}.get(words[0], [])
            found.update(dict.fromkeys(names, at))
    return found


def _question(line: str) -> str:
    """The question whether a line's geometry would be added; empty where it has none."""
    words = words_of_line(line)
    before = _BEFORE_GEOMETRY.get(words[0], len(words))
    return f"check {words[1]} {' '.join(words[before:])}" if len(words) > before else ""


def _sent(
    editor: Editor, lines: dict[int, str], answers: dict[int, Answer | Refused], mark: str
) -> list[tuple[str, str]]:
    """Has lines carried out, each with a mark at its end, and notes their answers. Gives those that were accepted."""
    outcomes = editor.run_all([line + mark for line in lines.values()])
    answers.update(zip(lines, outcomes))
    return [(line, str(each)) for line, each in zip(lines.values(), outcomes) if is_edit(line.encode(), each)]


def _numbered(late: _Late, answers: dict[int, Answer | Refused]) -> str:
    return f"{late.front}{str(answers[late.addition]).partition(' ')[2]}{late.rest}"


def _first_refused(answers: dict[int, Answer | Refused]) -> LineRefused | None:
    refused = {at: answer for at, answer in answers.items() if isinstance(answer, Refused)}
    return LineRefused(min(refused), refused[min(refused)]) if refused else None


def take_back(editor: Editor, count: int) -> list[tuple[str, str]]:
    """Undoes the last lines, and leaves a step that changes nothing as the one to redo, where there is a layer. Gives what was accepted.

    `NotTakenBack` where not all of them can be undone.
    """
    if not count:
        return []
    undone = moved(editor, ["undo"] * count)
    layers = editor.layers()
    nothing = [f"layer move {layers[0].name} 0", "undo"] if layers else []
    outcomes = editor.run_all(nothing)
    return undone + [(line, each) for line, each in zip(nothing, outcomes) if isinstance(each, str)]


def moved(editor: Editor, lines: Sequence[str]) -> list[tuple[str, str]]:
    """Has steps undone or redone that belong together, and gives what was accepted. `NotTakenBack` where one of them is refused."""
    outcomes = editor.run_all(lines)
    for each in outcomes:
        if isinstance(each, Refused):
            raise NotTakenBack(each)
    return [(line, str(each)) for line, each in zip(lines, outcomes)]
