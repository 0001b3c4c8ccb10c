"""Entity tags: of documents and lists, and as the fields If-Match and If-None-Match name them (RFC
9110 sections 8.8.3 and 13)."""
import hashlib
import re
from collections.abc import Iterable, Iterator

from rooms_admin.room import in_parts

from .answers import Stop

_NEXT = re.compile(r'[ \t,]*(?:(W/)?("[\x21\x23-\x7e\x80-\xff]*")[ \t]*(?=,|$))?')


def tag_of(body: bytes) -> str:
    """By whatever address it is read."""
    return in_parts.tag_in(in_parts.digest_of(body))


def tag_of_texts(texts: Iterable[tuple[bytes, bytes]]) -> str:
    """Of all of them, in whatever order. Each is given as its beginning, mostly that of the one
    before, and its rest: of it there is a digest in memory, and it may be a hundred times as
    long."""
    return tag_of(b"".join(sorted(_digests(texts))))


def _digests(texts: Iterable[tuple[bytes, bytes]]) -> Iterator[bytes]:
    before: bytes | None = None
    begun = hashlib.sha256()
    for begin, rest in texts:
        if begin is not before:
            before, begun = begin, hashlib.sha256(begin)
        one = begun.copy()
        one.update(rest)
        yield one.digest()


def tags_in(text: str) -> list[tuple[bool, str]] | None:
    """Whether each is weak, and the tag; None of '*', which is any."""
    if text.strip(" \t") == "*":
        return None
    found: list[tuple[bool, str]] = []
    place = 0
    while place < len(text):
        match = _NEXT.match(text, place)
        if match is None or match.end() == place:
            raise Stop(400, "bad-condition", "a condition isn't a list of entity tags")
        if match[2]:
            found.append((match[1] is not None, match[2]))
        place = match.end()
    if not found:
        raise Stop(400, "bad-condition", "a condition without an entity tag")
    return found


def names_tag(text: str, tag: str, weakly: bool) -> bool:
    """Whether the field means what has this tag. A weak one is the same only if it may be."""
    named = tags_in(text)
    return named is None or any(one == tag and (weakly or not weak) for weak, one in named)


def of_reading(match: str, none: str, tag: str) -> int:
    """The status of what has this tag, and may be read: 200, 304 or 412."""
    if match and not names_tag(match, tag, False):
        return 412
    return 304 if none and names_tag(none, tag, True) else 200
