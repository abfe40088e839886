"""Styles of QGIS, as QGIS writes them (QML): what one may hold that is kept with a store and shown in the QGIS of others.

A style is text of somebody else's. So it is bounded, it is XML without declarations of its own, and of what a layer of
QGIS has it holds symbols, labels, opacity and scales: no forms, no actions, no code. Nothing in it leads out of it, to a
file or into the network: pictures are QGIS' own, or stand in the style.
"""

from __future__ import annotations

import base64
import re
from collections.abc import Mapping
from typing import NoReturn
from xml.parsers import expat  # nosec B406: it builds nothing, and declarations are refused.

from sfstore.web.stylefile import StyleError

__all__ = ["BYTES_MAX", "PARTS", "check"]

BYTES_MAX = 1 << 20
"""How many bytes a style has at most."""

PARTS = frozenset(
    ["renderer-v2", "labeling", "blendMode", "featureBlendMode", "layerOpacity", "layerGeometryType", "selection"]
)
"""What a style may hold of a layer, by the elements of QGIS."""

_DEPTH_MAX = 100
# QGIS writes the symbol of a callout as a text within the style.
_WITHIN_MAX = 3
_WITHIN = re.compile(r"^\s*<[A-Za-z_:!?]|<(?:symbol|layer|!)")
# No search may go back over what it has read: a value has as many letters as a style.
_ADDRESS = re.compile(r"://|^\s*file:", re.IGNORECASE)
_ADDRESS_LETTERS = 20
# Functions of expressions that open or write what is no part of the map, or carry out a text that nobody has looked at.
_REACHING = re.compile(r"\b(?:load_layer|eval|eval_template|sqlite_fetch_and_increment)\b", re.IGNORECASE)
_PICTURE = re.compile(r"(?:file|path|url)$", re.IGNORECASE)
# Symbols whose `name` is that of a form, not of a picture.
_FORMED = {"SimpleMarker", "FilledMarker"}
# How QGIS 2 wrote that a value is an expression.
_OLD_ENDING = re.compile(r"(?:_dd)?_(?:expression|field)$")
_EMBEDDED = "base64:"
_PIXELS = (b"\x89PNG\r\n", b"\xff\xd8\xff", b"GIF8", b"BM", b"II*\0", b"MM\0*", b"RIFF")
# What a drawing (SVG) takes from elsewhere, and how a part of itself, or a picture within it, is named.
_TAKEN = re.compile(rb"href\s*=\s*[\"']?\s*([^\"'>\s]*)", re.IGNORECASE)
_OWN = re.compile(rb"#|data:image/(?:png|jpe?g|gif)[;,]")

# How a text says that it is in UTF-8.
_UTF_8 = ("utf-8", "utf8")

_DECIDED = "an expression decides which picture is shown: choose the picture itself"


def check(text: str) -> None:
    """`StyleError` where a text is no style of QGIS that may be kept."""
    try:
        data = text.encode("utf-8")
    except UnicodeEncodeError:
        raise StyleError("it is no text") from None
    if len(data) > BYTES_MAX:
        raise StyleError(f"it has {len(data):,} bytes, and a style has {BYTES_MAX:,} at most: take large pictures out of it")
    _Check(0).of(data)


class _Check:
    """Goes through a style. Nothing of it is kept."""

    def __init__(self, within: int) -> None:
        """``within`` counts the texts that it stands in."""
        self._within = within
        self._open: list[str] = []
        # The symbols and the options that are open, by class and by name.
        self._symbols: list[str] = []
        self._options: list[str] = []
        self._text: list[str] = []

    def of(self, data: bytes) -> None:
        parser = expat.ParserCreate("utf-8")
        parser.StartElementHandler = self._begin
        parser.EndElementHandler = self._end
        parser.CharacterDataHandler = self._text.append
        parser.XmlDeclHandler = _check_declared
        parser.StartDoctypeDeclHandler = self._check_type
        parser.EntityDeclHandler = parser.SkippedEntityHandler = _refuse_entities
        try:
            parser.Parse(data, True)
        except expat.ExpatError as error:
            raise StyleError(f"it is no XML: {error}") from None

    def _check_type(self, name: str, system: str | None, public: str | None, has_own: int) -> None:
        # QGIS writes one line that names its type.
        if has_own or name != "qgis":
            _refuse_entities()

    def _begin(self, name: str, values: Mapping[str, str]) -> None:
        self._take_text()
        self._open.append(name)
        if len(self._open) > _DEPTH_MAX:
            raise StyleError(f"its elements stand more than {_DEPTH_MAX} deep in one another")
        if not self._within:
            self._check_place(name)
        if name == "layer":
            self._symbols.append(values.get("class", ""))
        if name == "Option":
            self._options.append(values.get("name", ""))
        if name == "Option":
            self._check_decided(values)
        named = {"value": values.get("name", "")} if name == "Option" else {"v": values.get("k", "")} if name == "prop" else {}
        for key, value in values.items():
            self._check_value(named.get(key, key), value)

    def _end(self, name: str) -> None:
        self._take_text()
        self._open.pop()
        if name == "layer":
            self._symbols.pop()
        if name == "Option":
            self._options.pop()

    def _check_place(self, name: str) -> None:
        if len(self._open) == 1 and name != "qgis":
            raise StyleError(f"it is no style of QGIS: it begins with {name[:40]!r}")
        if len(self._open) == 2 and name not in PARTS:
            raise StyleError(f"symbols, labels, opacity and scales are kept, and no {name[:40]!r}")

    def _check_decided(self, values: Mapping[str, str]) -> None:
        """`StyleError` where an option says that an expression decides which picture is shown: the one around it names what is decided."""
        if len(self._options) > 1 and values.get("name") == "active" and values.get("value", "") not in ("", "0", "false"):
            if self._is_picture(self._options[-2]):
                raise StyleError(_DECIDED)

    def _check_value(self, key: str, value: str) -> None:
        if self._is_picture(key):
            _check_picture(value)
        if (old := _OLD_ENDING.search(key)) is not None and value and self._is_picture(key[: old.start()]):
            raise StyleError(_DECIDED)
        if key.lower() == "allowhtml" and value not in ("", "0", "false"):
            raise StyleError("labels are texts, and no HTML, which may load pictures")
        _check_reach(value)
        if _WITHIN.search(value):
            if self._within == _WITHIN_MAX:
                raise StyleError("its texts hold styles that hold styles")
            _Check(self._within + 1).of(value.strip().encode("utf-8"))

    def _is_picture(self, key: str) -> bool:
        """Whether a value is the name of a picture."""
        symbol = self._symbols[-1] if self._symbols else ""
        return _PICTURE.search(key) is not None or (key == "name" and symbol not in ("", *_FORMED))

    def _take_text(self) -> None:
        _check_reach("".join(self._text))
        self._text.clear()


def _check_picture(value: str) -> None:
    """`StyleError` where a picture is neither QGIS' own nor in the style."""
    if value.startswith(_EMBEDDED):
        _check_embedded(value.removeprefix(_EMBEDDED))
    elif ":" in value or value[:1] in ("/", "\\", "~", "|") or ".." in value:
        raise StyleError(f"the picture {value[:60]!r} is a file of yours: embed it in the symbol, or choose one of QGIS' own")


def _check_embedded(text: str) -> None:
    """`StyleError` where a picture in the style takes something from elsewhere: a drawing may, and QGIS unpacks packed ones."""
    try:
        data = base64.b64decode("".join(text.split()), validate=True)
    except ValueError:
        raise StyleError("a picture in it can't be read: embed it again") from None
    if data.startswith(_PIXELS):
        return
    is_plain = b"\0" not in data and not data.startswith(b"\x1f\x8b") and b"<!ENTITY" not in data
    if is_plain:
        _check_encoding(data)
    if not is_plain or not all(_OWN.match(taken[1]) for taken in _TAKEN.finditer(data)):
        raise StyleError("a picture in it takes something from elsewhere: embed one that stands by itself, as a plain SVG")


def _check_encoding(drawing: bytes) -> None:
    """`StyleError` where a drawing is no XML in UTF-8: whoever shows it would read other letters than are looked at here."""
    declared: list[str] = []
    parser = expat.ParserCreate("utf-8")
    parser.XmlDeclHandler = lambda version, encoding, standalone: declared.append(encoding or _UTF_8[0])
    try:
        parser.Parse(drawing, True)
    except expat.ExpatError:
        raise StyleError("a picture in it can't be read: embed it again") from None
    if any(each.lower() not in _UTF_8 for each in declared):
        raise StyleError(f"a picture in it is written in {declared[0][:40]!r}: embed one in UTF-8, as a plain SVG")


def _check_reach(text: str) -> None:
    """`StyleError` where a text leads out of the style."""
    if text.startswith(_EMBEDDED):
        return
    if (found := _ADDRESS.search(text)) is not None:
        begin = max(0, found.start() - _ADDRESS_LETTERS)
        raise StyleError(f"it leads out of the store, by {text[begin:][:60]!r}: take that out of the style")
    if (named := _REACHING.search(text)) is not None:
        raise StyleError(f"an expression calls {named[0]!r}, which reads more than the map: write it without")


def _check_declared(version: str, encoding: str | None, standalone: int) -> None:
    # A text has its letters already, and nobody reads it as others.
    if encoding is not None and encoding.lower() not in _UTF_8:
        raise StyleError(f"it says that it is written in {encoding[:40]!r}, and styles are in UTF-8")


def _refuse_entities(*_: object) -> NoReturn:
    raise StyleError("it declares or names entities, which no style of QGIS does")
