"""Paths: from the target of a request to names, and from names to targets.

A target is decoded once, name by name, and what the room gets is encoded anew from the names. So
the door and the room never understand a path differently, whatever escapes the client wrote."""
import json
import re
from collections.abc import Iterator
from functools import lru_cache
from urllib.parse import quote, unquote_to_bytes

from .answers import Stop

Names = tuple[str, ...]
_UNSAFE = re.compile(r"[^A-Za-z0-9_.~-]+")
LONGEST_NAME, LONGEST_PATH = 255, 4096
# How long a body is that is read at once: a path, of which each sign is escaped, takes no more.
LONGEST_BODY = 65_536
_BLANK = " \t\n\r"
# A name in a list of them, and what stands behind it.
_LISTED = re.compile(r'[ \t\n\r]*("(?:[^"\\\x00-\x1f]|\\.){1,1530}")[ \t\n\r]*([,\]])')


def _decoded(part: str) -> bytes:
    try:
        return unquote_to_bytes(part.encode("latin-1"))
    except UnicodeError:
        raise Stop(400, "bad-target P3") from None


def names_in(rest: str) -> Names:
    """What stands behind a route and its slash, by the rules of the room (docs/http.md, Targets),
    but for a slash that is written as %2F: it is no part of a name, and so it is refused."""
    if rest == "":
        return ()
    parts = [_decoded(part) for part in rest.split("/")]
    if sum(map(len, parts)) + len(parts) > LONGEST_PATH:
        raise Stop(400, "bad-target P2")
    try:
        names = tuple(part.decode("utf-8") for part in parts)
    except UnicodeError:
        raise Stop(400, "bad-target P3") from None
    for name, part in zip(names, parts):
        if name in ("", ".", "..") or "/" in name or len(part) > LONGEST_NAME \
                or any(byte < 0x20 or byte == 0x7F for byte in part):
            raise Stop(400, "bad-target P1")
    return names


def names_of_path(path: object) -> Names:
    """Of a path as the room takes it in a body, which isn't escaped; else ValueError."""
    if not isinstance(path, str):
        raise ValueError
    names = tuple(path.split("/"))
    if names[0] or len(names) < 2 or len(path.encode()) > LONGEST_PATH or any(
            name in ("", ".", "..") or len(name.encode()) > LONGEST_NAME for name in names[1:]):
        raise ValueError
    return names[1:]


def names_of_move(body: bytes) -> Names:
    """Where to."""
    try:
        if len(body) > LONGEST_BODY:
            raise ValueError
        return names_of_path(json.loads(body)["to"])
    except (ValueError, KeyError, TypeError, RecursionError):
        raise Stop(400, "bad-body") from None


def attributes_in(body: bytes) -> bytes | None:
    """Owner and group, written anew as the room reads them; nothing if that can't be done."""
    try:
        told = json.loads(body) if len(body) <= LONGEST_BODY else {}
        found = {name: told[name] for name in ("group", "owner")}
        if not all(isinstance(text, str) for text in found.values()):
            return None
        return json.dumps(found, ensure_ascii=False, separators=(",", ":")).encode()
    except (ValueError, KeyError, TypeError, RecursionError):
        return None


def chosen_in(query: str) -> frozenset[str]:
    """Names in a folder, each escaped, with & between them."""
    found = [names_in(part) for part in query.split("&")]
    if any(len(names) != 1 for names in found):
        raise Stop(400, "bad-query", "names in the folder, each escaped, with & between them")
    return frozenset(name for name, in found)


def names_of_body(body: bytes) -> frozenset[str]:
    """A list of names in a folder."""
    try:
        return frozenset(_names_listed(body.decode().strip(_BLANK)))
    except (ValueError, TypeError):
        raise Stop(400, "bad-body", "a list of names in the folder") from None


def _names_listed(text: str) -> Iterator[str]:
    """Name by name, up to what is none. What reads all at once gives nobody else a turn of the
    processor meanwhile, who may have the room for themselves."""
    place = 1
    while place < len(text) or place == 1:
        found = _LISTED.match(text, place)
        if not found or text[0] != "[" or (found[2] == "]") != (found.end() == len(text)):
            raise ValueError
        name, = names_of_path("/" + json.loads(found[1]))
        yield name
        place = found.end()


@lru_cache(maxsize=1000)
def _escaped(text: str) -> str:
    return quote(text, safe="")


def escaped_name(name: str) -> str:
    return _UNSAFE.sub(lambda found: _escaped(found[0]), name)


def escaped(names: Names) -> str:
    return "/".join(map(escaped_name, names))


def shown(names: Names) -> str:
    return "/" + "/".join(names)


def is_below(names: Names, above: Names) -> bool:
    return len(names) > len(above) and names[:len(above)] == above
