"""Tests of the types of values: over the real program, against Python's own decimals and calendar, and in files.

`./test test_values` runs them.
"""

from __future__ import annotations

import calendar
import datetime
import decimal
import io
import random
import re
import subprocess
import unittest
from collections.abc import Sequence
from datetime import date, timedelta, timezone
from decimal import Decimal
from pathlib import Path

from support import FOLDER, PROGRAM, TestCase

from sfstore import Column, Store, storefile, values
from sfstore.language import COLUMN_TYPES, INT_MAX, INT_MIN, TEXT_MAX
from sfstore.storefile import FileColumn, FileFeature

PAGES = FOLDER.parent / "docs" / "use"
UTC = timezone.utc
# Enough digits for each text that is tried here, so that the model rounds nothing.
EXACT = decimal.Context(prec=200)
BEGIN = [
    "layer add w point",
    *(f"column add w c_{column_type} {column_type}" for column_type in COLUMN_TYPES),
    "add w POINT (1 1)",
]


def answers(lines: Sequence[str], *words: str) -> list[str]:
    """What the program answers to lines."""
    text = "".join(f"{line}\n" for line in lines)
    ended = subprocess.run([PROGRAM, *words], input=text, capture_output=True, text=True, check=True)
    return ended.stdout.splitlines()


def loaded(path: Path) -> str:
    """The last line of a program that loads a file; empty where it loads it."""
    ended = subprocess.run([PROGRAM, f"--load={path}"], input="", capture_output=True, text=True, check=False)
    return (ended.stdout + ended.stderr).strip()


class Tried(TestCase):
    """Texts that are tried as values of one column, each by itself."""

    def tried(self, column_type: str, texts: Sequence[str]) -> list[str | None]:
        """How a column shows the value that each text spells; None where it spells none."""
        lines = [line for text in texts for line in (f"set w 1 c_{column_type} {text}", "get w 1", f"unset w 1 c_{column_type}")]
        found = iter(answers([*BEGIN, *lines])[len(BEGIN) :])
        shown: list[str | None] = []
        for text in texts:
            is_set = next(found)
            self.assertIn(is_set, ("ok", "refused 31 BadCommand"), text)
            self.assertEqual(next(found), "rows 1")
            row = next(found).removeprefix("1 POINT (1 1)")
            self.assertEqual(next(found), "ok")
            self.assertEqual(bool(row), is_set == "ok", text)
            shown.append(row.removeprefix(f" c_{column_type}=") if row else None)
        return shown


def decimal_shown(text: str) -> str | None:
    """How a decimal is shown, by Python's decimals; None where the text spells none."""
    if not re.fullmatch(r"[+-]?[0-9]+(\.[0-9]+)?", text):
        return None
    number = Decimal(text).normalize(EXACT)
    places = max(0, -int(number.as_tuple().exponent))
    if places > 18 or not -(2**63) <= int(number.scaleb(places, EXACT)) < 2**63:
        return None
    return format(number, "f") if number else "0"


class Decimals(Tried):
    def test_texts_at_the_limits(self) -> None:
        most, least = str(INT_MAX), str(INT_MIN)
        texts = [".5", "1.", "1e3", "-", "+", "", "1.2.3", "0x1", "１", "1_000", "NaN", "inf", "-0", "-0.0", "+0812.50", "0.1e1"]
        for digits in (most, least, str(INT_MAX + 1), str(INT_MIN - 1)):
            sign, figures = ("-", digits[1:]) if digits[0] == "-" else ("", digits)
            for places in range(20):
                padded = figures.rjust(places + 1, "0")
                texts.append(sign + padded[: len(padded) - places] + (f".{padded[len(padded) - places :]}" if places else ""))
        texts += ["0." + "0" * 17 + "1", "0." + "0" * 18 + "1", "0." + "0" * 300, "0" * 300 + "1.50" + "0" * 300]
        # A line without a value is another one that is refused: `set` wants four words.
        for text, shown in zip(texts, self.tried("decimal", texts)):
            self.assertEqual(shown, decimal_shown(text), text)
        self.assertIn("-922337203685477580.8", self.tried("decimal", texts))

    def test_random_texts(self) -> None:
        chance = random.Random(812)
        texts = []
        for _ in range(33_000):
            whole = "".join(chance.choices("0123456789", k=chance.randrange(1, chance.choice((3, 12, 24)))))
            fraction = "".join(chance.choices("0123456789", (6, *[1] * 9), k=chance.randrange(chance.choice((2, 12, 24)))))
            text = chance.choice(("", "", "-", "+")) + whole + ("." + fraction if fraction else "")
            if chance.random() < 0.1:
                at = chance.randrange(len(text) + 1)
                text = text[:at] + chance.choice("+-.e 0").strip() + text[at + chance.randrange(2) :]
            texts.append(text)
        found = self.tried("decimal", texts)
        wanted = [decimal_shown(text) for text in texts]
        self.assertEqual([(text, shown) for text, shown, model in zip(texts, found, wanted) if shown != model], [])
        self.assertGreater(sum(shown is None for shown in wanted), 3_000)
        self.assertGreater(sum(shown is not None and "." in shown for shown in wanted), 10_000)
        # What Python reads of an answer it spells as the answer does.
        for shown in filter(None, found):
            self.assertEqual(values.spelled(values.read(shown, "decimal")), shown)


# What stands between E' and a quote: each text in one spelling. `\x00` is one too, of a text that no column has.
ESCAPED = re.compile(r"E'(?:[^\x00-\x1f\x7f\\']|''|\\[ntr\\]|\\x(?:0[1-8bcef]|1[0-9a-f]|7f))*'")
QUOTED = re.compile(r"'(?:[^']|'')*'")


class Texts(Tried):
    def test_each_text_has_one_spelling_with_escapes(self) -> None:
        chance = random.Random(27)
        good = ["a", "E", "ä", "😀", " ", "''", "\\\\", "n", "x", "\\n", "\\t", "\\r", "\\x1b", "\\x01", "\\x7f", "0", "7f"]
        pieces = [*good, "'", "\\", "\\q", "\\x", "\x1b", "\x7f", "\t", *(f"\\x{code:02x}" for code in range(1, 256))]
        texts = []
        for _ in range(20_000):
            inner = "".join(chance.choices(chance.choice((good, pieces)), k=chance.randrange(5)))
            texts.append(chance.choice(("E'", "E'", "E'", "'", "e'", "E", "E '")) + inner + chance.choice(("'", "'", "'", "'", "")))
        # Blanks at the end of a line are none of its words.
        texts = [text for text in texts if text == text.strip(" \t") and "\\x00" not in text]
        found = self.tried("text", texts)
        for text, shown in zip(texts, found):
            is_one = bool(ESCAPED.fullmatch(text) or QUOTED.fullmatch(text))
            self.assertEqual(shown is not None, is_one, text)
            if shown is not None:
                self.assertEqual(shown, values.spelled(values.read(text, "text")), text)
        self.assertGreater(sum(shown is not None and shown.startswith("E") for shown in found), 1_500)
        self.assertGreater(sum(shown is None for shown in found), 2_000)

    def test_each_control_character(self) -> None:
        texts = [f"a{chr(code)}b" for code in (*range(1, 32), 127)]
        spelled = [values.spelled(text) for text in texts]
        self.assertEqual(self.tried("text", spelled), spelled)
        self.assertEqual([values.read(text, "text") for text in spelled], texts)
        self.assertEqual(spelled[9], r"E'a\nb'")
        self.assertEqual(spelled[26], r"E'a\x1bb'")

    def test_what_stands_for_no_letter_is_told(self) -> None:
        for text in (r"E'\q'", r"E'\x0a'", r"E'\x1B'"):
            with self.assertRaisesRegex(ValueError, "stands for no letter"):
                values.read(text, "text")


class Days(Tried):
    def test_days_of_the_calendar(self) -> None:
        chance = random.Random(2024)
        ends = [date(year, month, day) for year in range(1, 10_000) for month, day in ((1, 1), (2, 28), (3, 1), (12, 31))]
        leap = [date(year, 2, 29) for year in range(1, 10_000) if calendar.isleap(year)]
        some = [date.fromordinal(chance.randrange(1, date.max.toordinal() + 1)) for _ in range(10_000)]
        texts = [day.isoformat() for day in (*ends, *leap, *some)]
        self.assertEqual(self.tried("date", texts), texts)

    def test_what_is_no_day(self) -> None:
        common = [f"{year:04}-02-29" for year in range(1, 10_000) if not calendar.isleap(year)]
        others = [f"{year:04}-{month:02}-{day:02}" for year in (1, 1900, 2000, 2024, 9999) for month in range(14) for day in range(33)]
        wrong = [text for text in others if not is_day(text)]
        forms = ["0000-01-01", "10000-01-01", "2024-2-29", "24-02-29", "2024/02/29", "2024-02-29Z", "-2024-02-29", "2024-060"]
        for text, shown in zip(texts := common + wrong + forms, self.tried("date", texts)):
            self.assertIsNone(shown, text)
        self.assertEqual(len(wrong), 5 * 14 * 33 - 365 * 3 - 366 * 2)


def is_day(text: str) -> bool:
    try:
        date.fromisoformat(text)
    except ValueError:
        return False
    return True


class Times(Tried):
    def test_times_of_a_day(self) -> None:
        chance = random.Random(86_400)
        moments = [datetime.datetime(1, 1, 1), datetime.datetime(9999, 12, 31, 23, 59, 59, 999_000), datetime.datetime(2024, 2, 29)]
        days = date.max.toordinal()
        for _ in range(20_000):
            day = datetime.datetime.combine(date.fromordinal(chance.randrange(1, days)), datetime.time())
            moments.append(day + timedelta(milliseconds=chance.randrange(86_400_000)))
        texts = [moment.isoformat(timespec="milliseconds") + "Z" for moment in moments]
        found = self.tried("datetime", texts)
        self.assertEqual(found, texts)
        for moment, text in zip(moments, texts):
            self.assertEqual(values.read(text, "datetime"), moment.replace(tzinfo=UTC))
        # Without milliseconds there are none.
        short = [text[:19] + "Z" for text in texts[:2_000]]
        self.assertEqual(self.tried("datetime", short), [text[:19] + ".000Z" for text in texts[:2_000]])

    def test_what_is_no_time(self) -> None:
        day = "2026-11-29T"
        texts = [day + time for time in ("24:00:00Z", "23:60:00Z", "23:59:60Z", "19:28:11.5Z", "19:28:11.0000Z", "19:28Z", "19:28:11")]
        texts += [day + zone for zone in ("19:28:11+00:00", "19:28:11+01:00", "19:28:11z", "19:28:11.Z", "19:28:11,000Z", "192811Z")]
        texts += ["2025-02-29T00:00:00Z", "2026-11-29t19:28:11Z", "2026-11-29 19:28:11Z", "0000-01-01T00:00:00Z"]
        self.assertEqual(self.tried("datetime", [text for text in texts if " " not in text]), [None] * (len(texts) - 1))
        self.assertEqual(answers([*BEGIN, f"set w 1 c_datetime {texts[-2]}"])[-1], "refused 31 BadCommand")


class Others(Tried):
    def test_truth_values(self) -> None:
        texts = ["true", "false", "True", "FALSE", "t", "yes", "on", "null"]
        self.assertEqual(self.tried("bool", texts), ["true", "false", *[None] * 6])

    def test_values_of_another_type(self) -> None:
        given = {"int": "12", "text": "'12'", "decimal": "1.5", "bool": "true", "date": "2024-02-29", "datetime": "2024-02-29T00:00:00Z"}
        asked = [(column, word) for column in COLUMN_TYPES for word in COLUMN_TYPES]
        found = answers([*BEGIN, *(f"set w 1 c_{column} {given[word]}" for column, word in asked)])[len(BEGIN) :]
        for (column, word), answer in zip(asked, found):
            is_taken = column == word or (column, word) == ("decimal", "int")
            self.assertEqual(answer, "ok" if is_taken else "refused 24 WrongValue", (column, word))
        found = answers([*BEGIN, *(f"find w c_{column} {given[word]}" for column, word in asked)])[len(BEGIN) :]
        self.assertEqual(found.count("rows 0"), 7)
        self.assertEqual(found.count("refused 24 WrongValue"), 29)


class Python(TestCase):
    """What the module takes and gives."""

    # What is given, and what comes back.
    LIMITS = {
        "int": [INT_MIN, INT_MAX, 0],
        "text": [
            *("two\nlines\r", "", "it's", "日" * (TEXT_MAX // 3), "'" * TEXT_MAX, "true", "1.5", "a=1 b='2'"),
            *("".join(map(chr, (*range(1, 32), 127))), "\x1f" * TEXT_MAX, "E'a' b=E'\\n'\n", "\\"),
        ],
        "decimal": [
            *(Decimal(text) for text in ("0", "-0.5", "9223372036854775807", "-9.223372036854775808", "0.000000000000000001")),
            *(Decimal(text) for text in ("-922337203685477580.8", "12", "812.5", "1E+18", "-1.5E-17")),
        ],
        "bool": [True, False],
        "date": [date.min, date.max, date(2024, 2, 29)],
        "datetime": [
            datetime.datetime(1, 1, 1, tzinfo=UTC),
            datetime.datetime(9999, 12, 31, 23, 59, 59, 999_000, UTC),
            datetime.datetime(2026, 11, 29, 19, 28, 11, 5_000, UTC),
        ],
    }

    def setUp(self) -> None:
        super().setUp()
        self.path = self.folder / "values.sfs"
        self.store = Store(program=PROGRAM, save=self.path)
        self.store.run_all(BEGIN)
        self.addCleanup(self.store.close, save=False)

    def test_values_come_back_with_their_types(self) -> None:
        for column_type, given in self.LIMITS.items():
            column = f"c_{column_type}"
            for value in given:
                self.store.set("w", 1, column, value)
                for [feature] in (self.store.show("w"), self.store.get("w", 1)):
                    self.assertEqual(feature.values[column], value)
                    self.assertIs(type(feature.values[column]), type(value))
                self.assertEqual(self.store.find("w", column, value), [1])
        self.assertEqual(self.store.columns("w"), [Column(f"c_{each}", each) for each in COLUMN_TYPES])
        self.assertEqual(len(self.store.show("w")[0].values), len(COLUMN_TYPES))

    def test_a_group_takes_them(self) -> None:
        with self.store.together() as group:
            added = group.add("w", "POINT (2 2)")
            for column_type, given in self.LIMITS.items():
                group.set("w", added, f"c_{column_type}", given[0])
        self.assertEqual(list(self.store.get("w", 2)[0].values.values()), [given[0] for given in self.LIMITS.values()])

    def test_decimals_by_their_digits(self) -> None:
        for text in ("812.50", "8.125E2", "0.08125E4", "812.5000000000000000000000"):
            self.store.set("w", 1, "c_decimal", Decimal(text))
            self.assertEqual(str(self.store.show("w")[0].values["c_decimal"]), "812.5")
        self.store.set("w", 1, "c_decimal", 12)
        found = self.store.show("w")[0].values["c_decimal"]
        self.assertEqual((type(found), str(found)), (Decimal, "12"))
        self.assertEqual(self.store.find("w", "c_decimal", Decimal("12.00")), [1])
        # A context that rounds to few digits has no say.
        with decimal.localcontext() as context:
            context.prec = 3
            self.store.set("w", 1, "c_decimal", Decimal("-123456789.123456789"))
            self.assertEqual(str(self.store.show("w")[0].values["c_decimal"]), "-123456789.123456789")

    def test_times_of_another_zone_are_converted(self) -> None:
        given = datetime.datetime(2026, 11, 30, 0, 58, 11, tzinfo=timezone(timedelta(hours=5, minutes=30)))
        self.store.set("w", 1, "c_datetime", given)
        found = self.store.show("w")[0].values["c_datetime"]
        self.assertEqual(found, given)
        self.assertEqual(str(found), "2026-11-29 19:28:11+00:00")

    def test_what_a_column_would_change_is_not_sent(self) -> None:
        moment = datetime.datetime(2026, 11, 29, 19, 28, 11)
        odd = timezone(timedelta(microseconds=500))
        wrong = {
            "no number": [Decimal("NaN"), Decimal("sNaN"), Decimal("Infinity"), Decimal("-Infinity")],
            "more than 18 places": [Decimal("0.0000000000000000001"), Decimal("1E-1000000")],
            "more than 64 bits": [Decimal(INT_MAX + 1), Decimal("1E+1000000"), Decimal("9.223372036854775808"), INT_MIN - 1],
            "has no zone": [moment],
            "between two milliseconds": [moment.replace(tzinfo=UTC, microsecond=1_500), moment.replace(tzinfo=odd)],
            "outside of the years": [datetime.datetime(1, 1, 1, tzinfo=timezone(timedelta(hours=1)))],
        }
        for words, several in wrong.items():
            for value in several:
                with self.assertRaisesRegex(ValueError, words):
                    self.store.set("w", 1, "c_decimal", value)
                with self.assertRaisesRegex(ValueError, words):
                    self.store.find("w", "c_decimal", value)
        for value in (1.5, None, b"x", ["x"], timedelta(1), datetime.time(1)):
            with self.assertRaisesRegex(TypeError, "a value is an int, a str, a Decimal"):
                self.store.set("w", 1, "c_decimal", value)  # type: ignore[arg-type]
        # Nothing of it was sent: there is no step behind the preparation.
        self.store.undo()
        self.assertEqual(self.store.show("w"), [])

    def test_a_bool_is_no_whole_number(self) -> None:
        self.assert_refused(24, "WrongValue", self.store.set, "w", 1, "c_int", True)
        self.assert_refused(24, "WrongValue", self.store.set, "w", 1, "c_bool", 1)
        self.assert_refused(24, "WrongValue", self.store.set, "w", 1, "c_date", self.LIMITS["datetime"][0])
        self.assert_refused(24, "WrongValue", self.store.set, "w", 1, "c_datetime", date(2024, 2, 29))

    def test_features_as_mappings_have_exact_values(self) -> None:
        self.store.set("w", 1, "c_decimal", Decimal("0.1"))
        self.assertEqual(self.store.show("w")[0].__geo_interface__["properties"], {"c_decimal": Decimal("0.1")})

    def test_files_with_each_type_at_its_limits(self) -> None:
        for column_type, given in self.LIMITS.items():
            for number, value in enumerate(given, 2):
                while len(self.store.show("w")) < number:
                    self.store.add("w", "POINT (1 1)")
                self.store.set("w", number, f"c_{column_type}", value)
        features = self.store.show("w")
        self.store.close()
        saved = self.path.read_bytes()
        again = self.folder / "again.sfs"
        with Store(program=PROGRAM, load=self.path, save=again) as store:
            self.assertEqual(store.show("w"), features)
        self.assertEqual(again.read_bytes(), saved)
        # Python reads and writes the same file.
        [layer] = storefile.read(saved)
        self.assertEqual([column.type for column in layer.columns], [1, 2, 3, 4, 5, 6])
        names = {column.number: column.name for column in layer.columns}
        found = [{names[number]: value for number, value in feature.values.items()} for feature in layer.features]
        self.assertEqual(found, [feature.values for feature in features])
        types = [[type(value) for value in each.values()] for each in found]
        self.assertEqual(types, [[type(value) for value in feature.values.values()] for feature in features])
        written = io.BytesIO()
        storefile.write(written, [layer])
        self.assertEqual(written.getvalue(), saved)


class Files(TestCase):
    """What docs/use/FORMAT.md says of values."""

    TAKEN_APART = re.compile(r"\n\n((?:    .*\n)+)\nare saved as (\d+) bytes:\n\n\| Place .*\n\|[-|]*\n((?:\|.*\n)+)")

    def examples(self) -> list[tuple[list[str], bytes]]:
        """The lines of the page, each with the bytes that they are saved as."""
        found = []
        for lines, count, rows in self.TAKEN_APART.findall((PAGES / "FORMAT.md").read_text(encoding="utf-8")):
            taken = b""
            for place, digits in re.findall(r"^\| (\d+) \| `([0-9a-f ]*)` \|", rows, re.MULTILINE):
                self.assertEqual(len(taken), int(place))
                taken += bytes.fromhex(digits)
            self.assertEqual(len(taken), int(count))
            found.append(([line.strip() for line in lines.splitlines()], taken))
        return found

    def test_files_taken_apart(self) -> None:
        examples = self.examples()
        self.assertEqual(len(examples), 4)
        for lines, wanted in examples:
            path = self.folder / "saved.sfs"
            answers(lines, f"--save={path}")
            self.assertEqual(path.read_bytes().hex(), wanted.hex())

    def test_each_damage_is_refused_at_its_place(self) -> None:
        _, (_, sound), *_ = self.examples()
        places = {"type": 30, "mantissa": 104, "places": 112, "bool": 115, "date": 118, "datetime": 124, "milliseconds": 128}
        # Where bytes are put, which ones, and where the fault is then; none where the file is one still.
        changes = [
            *((places["type"], bytes([kind]), places["type"]) for kind in (0, 7, 255)),
            *((places["places"], bytes([count]), places["mantissa"]) for count in (19, 128, 255)),
            (places["places"], bytes([18]), None),
            (places["mantissa"], (-120).to_bytes(8, "big", signed=True), places["mantissa"]),
            (places["mantissa"], bytes(8), places["mantissa"]),
            (places["mantissa"], bytes(9), None),
            (places["bool"], b"\x01", None),
            *((places["bool"], bytes([value]), places["bool"]) for value in (2, 255)),
            *((places[kind], day, places[kind]) for kind in ("date", "datetime") for day in self.NO_DAYS),
            *((places[kind], day, None) for kind in ("date", "datetime") for day in self.DAYS),
            (places["milliseconds"], (86_399_999).to_bytes(4, "big"), None),
            *((places["milliseconds"], count.to_bytes(4, "big"), places["datetime"]) for count in (86_400_000, 2**32 - 1)),
        ]
        path = self.folder / "changed.sfs"
        names = {30: "type of a column", 104: "decimal of a value", 115: "bool of a value", 118: "date of a value", 124: "date and time of a value"}
        for at, put, fault in changes:
            changed = sound[:at] + put + sound[at + len(put) :]
            path.write_bytes(changed)
            self.assertEqual(loaded(path), "" if fault is None else f"fault load BadFile {fault} 24", (at, put))
            if fault is not None:
                self.assertEqual(storefile.field_at(changed, fault), names[fault])
        for end in range(67, len(sound)):
            path.write_bytes(sound[:end])
            self.assertEqual(loaded(path), f"fault load BadFile {end} 7")

    def test_each_damage_of_a_rule_is_refused_at_its_place(self) -> None:
        *_, (_, sound) = self.examples()
        # Where bytes are put, which ones, and the fault: its place, its number and the name of the field there.
        changes = [
            (55, b"\x09", 55, 34, "form of a rule"),
            (62, b"\x03usf", 62, 22, "column of a rule"),
            *((66, count.to_bytes(2, "big"), 66, 24, "number of values of a rule") for count in (0, 1_001)),
            *((68, bytes([kind]), 68, 24, "type of a value of a rule") for kind in (0, 7, 255)),
            *((105, bytes([ends]), 105, 34, "ends of a rule") for ends in (0, 4)),
            # A decimal that is whole, one with a zero at its end, an int in the place of a text.
            (106, bytes.fromhex("03000000000000000500"), 107, 24, "decimal of a value"),
            (106, bytes.fromhex("03000000000000003201"), 107, 24, "decimal of a value"),
            (68, bytes.fromhex("010000000000000000"), 68, 24, "type of a value of a rule"),
            # The first end behind the last.
            (117, bytes(8), 105, 24, "ends of a rule"),
        ]
        path = self.folder / "changed.sfs"
        for at, put, place, number, name in changes:
            changed = sound[:at] + put + sound[at + len(put) :]
            path.write_bytes(changed)
            self.assertEqual(loaded(path), f"fault load BadFile {place} {number}", (at, put))
            self.assertEqual(storefile.field_at(changed, place), name)
        for end in range(50, len(sound)):
            path.write_bytes(sound[:end])
            self.assertEqual(loaded(path), f"fault load BadFile {end} 7")

    NO_DAYS = [bytes.fromhex(day) for day in ("07e9021d", "07e80000", "07e80d01", "07e80100", "07e80120", "07e8041f", "00000101", "27100101")]
    DAYS = [bytes.fromhex(day) for day in ("07e8021d", "00010101", "270f0c1f", "07d0021d")]

    def test_values_that_have_no_place_in_a_file(self) -> None:
        layer = storefile.read(self.examples()[1][1])[0]
        for number, value in ((1, Decimal("NaN")), (1, Decimal(2**63)), (4, datetime.datetime(2026, 1, 1))):
            layer.features = [FileFeature(1, layer.features[0].geometry, {number: value})]
            with self.assertRaises(ValueError):
                storefile.write(io.BytesIO(), [layer])

    def test_a_column_of_decimals_takes_whole_numbers(self) -> None:
        layer = storefile.read(self.examples()[1][1])[0]
        layer.columns = [FileColumn(1, storefile.DECIMAL, "depth")]
        layer.features = [FileFeature(1, layer.features[0].geometry, {1: 7})]
        written = io.BytesIO()
        storefile.write(written, [layer])
        self.assertIn(bytes.fromhex("000100000000000000070000"), written.getvalue())
        (self.folder / "made.sfs").write_bytes(written.getvalue())
        with Store(program=PROGRAM, load=self.folder / "made.sfs") as store:
            self.assertEqual(store.show("wells")[0].values, {"depth": 7})


class Pages(unittest.TestCase):
    def test_sessions_of_the_page_of_the_console(self) -> None:
        page = (PAGES / "CONSOLE.md").read_text(encoding="utf-8")
        section = page.partition("## Columns and values\n")[2].partition("\n## ")[0]
        blocks = re.findall(r"(?:^    .*\n)+", section, re.MULTILINE)
        self.assertEqual(len(blocks), 3)
        for block in blocks:
            asked, wanted = [], []
            for line in block.splitlines():
                given, answer = re.fullmatch(r" {4}(.*?) {3,}(\S.*)", line).groups()  # type: ignore[union-attr]
                asked += [given] * bool(given)
                wanted.append(answer)
            self.assertEqual(answers(asked), wanted)


if __name__ == "__main__":
    unittest.main()
