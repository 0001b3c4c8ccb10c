"""Texts of mails with what is attached to them, of HTML, RTF and plain texts."""
import email
import email.policy
import html.parser
import re
from collections.abc import Callable
from typing import Any

from .sink import Full, Sink, State

# Parts of a mail.
MOST = 200
_HEADS = ("Subject", "From", "To", "Cc", "Date")
_HIDDEN = ("script", "style")
# A mail begins with three fields or more, of which one of these says that it is one.
_FIELDS = re.compile(rb"(?:[A-Za-z][A-Za-z0-9-]{0,40}:[^\r\n]*\r?\n(?:[ \t][^\r\n]*\r?\n)*){3,}")
_OF_MAIL = re.compile(rb"(?im)^(from|received|message-id|mime-version):")
# What RTF has: a byte, a letter of Unicode, a word, a sign, a group's ends, a text.
_RTF = re.compile(r"\\'([0-9a-fA-F]{2})|\\u(-?\d{1,6}) ?|\\([a-z]{1,32})(-?\d{1,10})? ?|\\(.)"
                  r"|([{}])|([^\\{}\r\n]+)", re.DOTALL)
_RTF_HIDDEN = frozenset(("fonttbl", "colortbl", "stylesheet", "info", "pict", "themedata",
                         "listtable", "rsidtbl", "generator", "datastore"))
_RTF_BREAKS = frozenset(("par", "line", "tab", "cell", "row", "sect", "page"))
_DEEPEST = 1000

# What is attached: its bytes, and of which kind the mail says that they are.
Inside = Callable[[bytes, str], object]


def is_mail(data: bytes) -> bool:
    begin = data[:65_536]
    return bool(_FIELDS.match(begin) and _OF_MAIL.search(begin))


def is_wide(data: bytes) -> bool:
    """By its mark it is UTF-16."""
    return data[:2] in (b"\xff\xfe", b"\xfe\xff")


def decoded(data: bytes, said: str = "") -> str:
    if is_wide(data):
        said = "utf-16"
    for one in ([said] if said else []) + ["utf-8-sig", "cp1252"]:
        try:
            return data.decode(one)
        except (UnicodeError, LookupError):
            continue
    return data.decode("latin-1")


class _Html(html.parser.HTMLParser):
    def __init__(self, sink: Sink) -> None:
        super().__init__(convert_charrefs=True)
        self._sink, self._out = sink, 0

    def handle_starttag(self, tag: str, attrs: object) -> None:
        self._out += tag in _HIDDEN
        self._sink.add(" ")

    def handle_endtag(self, tag: str) -> None:
        self._out = max(0, self._out - (tag in _HIDDEN))
        self._sink.add(" ")

    def handle_data(self, data: str) -> None:
        if not self._out:
            self._sink.add(data)


def web_page(data: bytes, sink: Sink) -> State:
    reader = _Html(sink)
    reader.feed(decoded(data))
    reader.close()
    return State.WHOLE


def mail(data: bytes, sink: Sink, inside: Inside) -> State:
    # (what mypy knows of it has no policy but the old one)
    policy: Any = email.policy.default
    found = email.message_from_bytes(data, policy=policy)
    for name in _HEADS:
        for value in found.get_all(name, []):
            sink.add(f"{value}\n")
    for count, part in enumerate(found.walk()):
        if count > MOST:
            raise Full
        if part.is_multipart():
            continue
        if called := part.get_filename():
            sink.add(f"{called}\n")
        body = part.get_payload(decode=True)
        if isinstance(body, bytes) and body:
            if part.get_content_type() == "text/plain":
                sink.add(decoded(body, part.get_content_charset() or ""))
            else:
                inside(body, part.get_content_type())
        sink.add("\n")
    return State.WHOLE


def rich_text(data: bytes, sink: Sink) -> State:
    """`hidden` is how deep a group stands that isn't shown, or 0. A letter of Unicode has one in
    its place behind it, for programs that don't know it."""
    depth = hidden = 0
    has_substitute = False
    for byte, letter, word, _, sign, end, text in _RTF.findall(data.decode("latin-1")):
        if end:
            depth += 1 if end == "{" else -1
            if depth > _DEEPEST:
                raise ValueError("too deep")
            hidden = hidden if hidden <= depth else 0
            continue
        if (word in _RTF_HIDDEN or sign == "*") and not hidden:
            hidden = depth
        if not hidden and letter:
            sink.add(chr(int(letter) % 65536))
            has_substitute = True
        elif not hidden and has_substitute and (byte or text):
            sink.add(text[1:])
            has_substitute = False
        elif not hidden:
            sink.add(_shown(byte, word, sign) or text)
    return State.WHOLE


def _shown(byte: str, word: str, sign: str) -> str:
    if word in _RTF_BREAKS or sign in ("\n", "\r"):
        return "\n"
    if byte:
        return bytes.fromhex(byte).decode("cp1252", "replace")
    return {"~": " ", "\\": "\\", "{": "{", "}": "}"}.get(sign, "")


def plain_text(data: bytes, sink: Sink) -> State:
    text = decoded(data)
    begin = text[:20_000]
    odd = sum(1 for one in begin if one < " " and one not in "\t\r\n\f\x1b")
    if odd * 50 > len(begin):
        return State.NONE
    sink.add(text)
    return State.WHOLE
