"""The one grammar of each kind of name (docs/operating.md), and how a name is printed."""
import re
import urllib.parse

from ..cli.report import Stop
from ..cli.signs import is_seen

_USER = re.compile(r"[A-Za-z0-9._+$\\-]{1,64}(@[A-Za-z0-9.-]{1,64})?", re.ASCII)
_ROOM = re.compile(r"[a-z0-9]([a-z0-9-]{0,30}[a-z0-9])?", re.ASCII)
_HOST = re.compile(r"([a-z0-9]([a-z0-9-]*[a-z0-9])?\.)*[a-z0-9]([a-z0-9-]*[a-z0-9])?", re.ASCII)
_PLAIN = re.compile(r"[\w@%+=:,./-]+")
# What a path may have that a request or the program is given. A move makes longer ones below it.
LONGEST_PATH = 4096
# The letters of rights.
RIGHTS = frozenset("rwanNxDtThHdcCoy")


def is_user(text: str) -> bool:
    """A user's or a group's name."""
    return _USER.fullmatch(text) is not None


def user_in(text: str, what: str) -> str:
    """A user's or a group's name, as the program prints it. A copy of a room may be anybody's, and
    have it print anything: what is no name gets no further."""
    if not is_user(text):
        raise Stop(f"{what}: {text[:80]!a} can't be a user or a group of a room")
    return text


def path_in(text: str, what: str) -> str:
    """The same of a path. What a request refuses in it may come of moves."""
    if not is_path(text.encode("utf-8", "surrogateescape")):
        raise Stop(f"{what}: {text[:80]!a} can't be a path of a room")
    return text


def is_room(text: str) -> bool:
    return _ROOM.fullmatch(text) is not None


def is_host(text: str) -> bool:
    return len(text) <= 253 and _HOST.fullmatch(text) is not None


def why_not(name: bytes) -> str:
    """Why no folder or document can have this name: fault P1 of the program. Nothing if it can."""
    try:
        name.decode("utf-8")
    except UnicodeDecodeError:
        return "it isn't UTF-8"
    if not name or name in (b".", b"..") or b"/" in name:
        return "it isn't the name of one object"
    if any(byte < 0x20 or byte == 0x7f for byte in name):
        return "it has a control character"
    return "it has more than 255 bytes" if len(name) > 255 else ""


def is_object(name: bytes) -> bool:
    return not why_not(name)


def is_path(path: bytes) -> bool:
    """Of the form of a path; the room itself refuses names that it can't have."""
    return path == b"/" or (path.startswith(b"/") and not path.endswith(b"/"))


def encoded(path: bytes) -> str:
    """A part of an address: every byte but letters, digits and ._~-/ as %XX."""
    return urllib.parse.quote(path, safe="/._~-")


_SIGNS = {7: "\\a", 8: "\\b", 9: "\\t", 10: "\\n", 11: "\\v", 12: "\\f", 13: "\\r", 27: "\\E",
          39: "\\'", 92: "\\\\"}


def shown(name: bytes) -> str:
    """A name as bash reads it: nothing in it moves a terminal's cursor."""
    try:
        text = name.decode("utf-8")
    except UnicodeDecodeError:
        text = "\0"
    if text and is_seen(text):
        return text if _PLAIN.fullmatch(text) else re.sub(r"([^\w@%+=:,./-])", r"\\\1", text)
    return "$'" + "".join(_SIGNS.get(b, chr(b) if 32 <= b < 127 else f"\\{b:03o}")
                          for b in name) + "'"


def matches_address(text: str) -> bool:
    """http:// or https://, a host, and nothing that isn't ASCII."""
    return re.fullmatch(r"https?://[!-~]+", text, re.ASCII) is not None
