"""Which level of the web interface somebody's entries are, as the page reads them: by the same
table, and by the rules of web/acl/levels.js."""
from collections.abc import Collection, Iterable

from ..cli import shared
from .entries import Entry

_FORMS = shared.table("level_forms")
LEVELS = tuple(_FORMS["folder"])

_Form = frozenset[tuple[str, str]]


def _form(pairs: Iterable[tuple[str, str]]) -> _Form:
    """No request asks for the idle letters, and what comes from above may say the same twice."""
    return frozenset(("".join(sorted(flags)), "".join(sorted(set(mask) - set(_FORMS["idle"]))))
                     for flags, mask in pairs)


_KNOWN: dict[str, dict[_Form, str]] = {
    kind: {_form((flags, mask) for flags, mask in way): level
           for level, ways in _FORMS[kind].items() for way in ways}
    for kind in ("folder", "document")}


def _flags(one: Entry) -> str:
    return "".join(flag for flag in one.flags if flag not in "gI")


def _gives(one: Entry, other: Entry) -> bool:
    """Whether it gives whom it names all that another entry gives them, here and below."""
    return (one.type == "A" and one.of(other.who, "g" in other.flags)
            and not set(one.flags) & set("ni") and set(other.mask) <= set(one.mask)
            and set(other.flags) & set("fd") <= set(one.flags))


def _is_carried(one: Entry, kind: str, entries: Collection[Entry]) -> bool:
    """It says again a part of what another one says: it was carried above the line that keeps
    things in place."""
    return (set(one.mask) <= set("Dd") and _flags(one) == ("fd" if kind == "folder" else "")
            and any(other.mask != one.mask and _gives(other, one) for other in entries))


def level_of(entries: Collection[Entry], kind: str) -> str:
    """Of the entries of one person or group; nothing where they are none."""
    if any(one.type != "A" for one in entries):
        return ""
    return _KNOWN[kind].get(_form((_flags(one), one.mask) for one in entries
                                  if not _is_carried(one, kind, entries)), "")


def is_way(one: Entry, kind: str) -> bool:
    """A line that only lets somebody pass stands for itself: what is further down needs it."""
    return kind == "folder" and level_of([one], kind) == "pass"
