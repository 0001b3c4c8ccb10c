"""Texts in packages of XML: documents, sheets and slides of Office and of LibreOffice."""
import io
import re
import zipfile
from typing import NamedTuple
from xml.parsers import expat

from .sink import MOST_WIDE, Closed, Full, Sink, State

MOST_PARTS, DEEPEST = 3000, 1000
_PART = 65_536
# Elements whose end parts words.
_BREAKS = frozenset((
    "p", "h", "br", "tab", "tr", "row", "c", "line-break", "table-cell", "table-row", "si",
    "list-item", "title", "subject", "keywords", "s"))


class _Kind(NamedTuple):
    """The part that each such package has, which parts have texts, and the elements that have them;
    all elements where that is None."""
    mark: str
    parts: re.Pattern[str]
    only: frozenset[str] | None


_KINDS = (
    _Kind("word/document.xml", re.compile(
        r"word/(document|header\d*|footer\d*|footnotes|endnotes|comments)\.xml"),
        frozenset(("t", "delText"))),
    _Kind("xl/workbook.xml", re.compile(
        r"xl/(sharedStrings|worksheets/[^/]+|comments[^/]*)\.xml"), frozenset(("t", "v"))),
    _Kind("ppt/presentation.xml", re.compile(r"ppt/(slides|notesSlides)/[^/]+\.xml"),
          frozenset("t")),
    _Kind("content.xml", re.compile(r"(content|meta)\.xml"), None))


class Xml:
    """Texts of elements, whatever they mean. No entity is taken that the document makes itself."""

    def __init__(self, sink: Sink, only: frozenset[str] | None) -> None:
        self._sink, self._only = sink, only
        self._within = self._depth = 0
        # In a cell that has only the number of a text.
        self._is_number = False
        self.parser = expat.ParserCreate()
        self.parser.SetParamEntityParsing(expat.XML_PARAM_ENTITY_PARSING_NEVER)
        self.parser.EntityDeclHandler = self._no_entity
        self.parser.StartElementHandler = self._begin
        self.parser.EndElementHandler = self._end
        self.parser.CharacterDataHandler = self._text
        self.parser.buffer_text = True

    def _no_entity(self, *_: object) -> None:
        raise ValueError("an entity of its own")

    def _begin(self, name: str, given: dict[str, str]) -> None:
        self._depth += 1
        if self._depth > DEEPEST:
            raise ValueError("too deep")
        word = name.rpartition(":")[2]
        self._within += self._only is None or word in self._only
        if word == "c":
            self._is_number = given.get("t") == "s"
        if word in _BREAKS:
            self._sink.add(" ")

    def _end(self, name: str) -> None:
        self._depth -= 1
        word = name.rpartition(":")[2]
        self._within -= self._only is None or word in self._only
        if word in _BREAKS:
            self._sink.add("\n")

    def _text(self, text: str) -> None:
        if self._within and not (self._is_number and text.isdigit()):
            self._sink.add(text)


def package(data: bytes, sink: Sink) -> State:
    with zipfile.ZipFile(io.BytesIO(data)) as packed:
        infos = packed.infolist()
        if len(infos) > MOST_PARTS:
            raise ValueError("too many parts")
        names = {one.filename for one in infos}
        kind = next((one for one in _KINDS if one.mark in names), None)
        if kind is None:
            return State.NONE
        mark, wide = kind.mark, 0
        # What it is comes before what stands round it.
        for info in sorted((one for one in infos if kind.parts.fullmatch(one.filename)),
                           key=lambda one: (one.filename != mark, one.filename)):
            if info.flag_bits & 1:
                raise Closed
            wide = _part(packed, info, Xml(sink, kind.only), wide)
            sink.add("\n")
    return State.WHOLE


def _part(packed: zipfile.ZipFile, info: zipfile.ZipInfo, reader: Xml, wide: int) -> int:
    """How much is unpacked by now."""
    with packed.open(info) as source:
        while part := source.read(_PART):
            wide += len(part)
            if wide > MOST_WIDE:
                raise Full
            reader.parser.Parse(part, False)
        reader.parser.Parse(b"", True)
    return wide
