"""The field If (RFC 4918 section 10.4)."""
import re
from dataclasses import dataclass, field

from ...room.answers import Stop

_WORD = re.compile(r'\s*(<[^<>]*>|\(|\)|[Nn][Oo][Tt]|\[(?:W/)?"[^"]*"\])')
MOST = 100


@dataclass(frozen=True)
class Condition:
    positive: bool
    token: str = ""
    tag: str = ""


@dataclass
class Listed:
    """All of the conditions have to hold of what is at the address, or of the request's own."""
    address: str | None
    conditions: list[Condition] = field(default_factory=list)


def _words(text: str) -> list[str]:
    words: list[str] = []
    at = 0
    text = text.rstrip()
    while at < len(text):
        match = _WORD.match(text, at)
        if match is None or len(words) > 10 * MOST:
            raise Stop(400, "bad-condition", "a field If that can't be read")
        words.append(match[1])
        at = match.end()
    return words


def _list(words: list[str], listed: Listed) -> None:
    """Takes the words of one list, behind its opening bracket."""
    while (word := words.pop(0) if words else "") != ")":
        positive = word.lower() != "not"
        if not positive:
            word = words.pop(0) if words else ""
        if word.startswith("<"):
            listed.conditions.append(Condition(positive, token=word[1:-1]))
        elif word.startswith("["):
            listed.conditions.append(Condition(positive, tag=word[1:-1]))
        else:
            raise Stop(400, "bad-condition", "a field If that can't be read")
    if not listed.conditions:
        raise Stop(400, "bad-condition", "a field If with an empty list")


def read_if(text: str) -> list[Listed]:
    words = _words(text)
    lists: list[Listed] = []
    address: str | None = None
    while words:
        word = words.pop(0)
        if word.startswith("<") and (address is not None or not lists):
            address = word[1:-1]
            if not words or words[0] != "(":
                raise Stop(400, "bad-condition", "a field If that can't be read")
        elif word == "(":
            lists.append(Listed(address))
            _list(words, lists[-1])
        else:
            raise Stop(400, "bad-condition", "a field If that can't be read")
    if not lists or len(lists) > MOST:
        raise Stop(400, "bad-condition", "a field If that can't be read")
    return lists
