"""Access lists, as docs/access-lists.md and docs/list-text.md say them. Nothing here is the
program's: it was written from the pages, so that a mistake would have to be made twice."""
from __future__ import annotations

from dataclasses import dataclass

MASK = "rwanNxDtThHdcCoy"
FLAGS = "fdniSFgI"
SPECIAL = ("OWNER@", "GROUP@", "EVERYONE@", "ANONYMOUS@", "AUTHENTICATED@")
DACL, SACL = "dacl", "sacl"
FOLDER, DOCUMENT = "folder", "document"


@dataclass(frozen=True)
class Caller:
    """A user with the groups that the room pairs with the name; without a name it has none."""
    user: str | None
    groups: frozenset[str]


@dataclass(frozen=True)
class Owners:
    owner: str
    group: str


@dataclass(frozen=True)
class Entry:
    """Who is a group's name where the flag g stands, if it isn't a special name."""
    kind: str
    flags: frozenset[str]
    who: str
    mask: frozenset[str]

    def __str__(self) -> str:
        return f"{self.kind}:{ordered(self.flags, FLAGS)}:{self.who}:{ordered(self.mask, MASK)}"

    def matches(self, caller: Caller, owners: Owners) -> bool:
        if self.who == "EVERYONE@":
            return True
        if caller.user is None:
            return self.who == "ANONYMOUS@"
        if self.who in SPECIAL:
            return {"OWNER@": caller.user == owners.owner,
                    "GROUP@": owners.group in caller.groups,
                    "AUTHENTICATED@": True}.get(self.who, False)
        if "g" in self.flags:
            return self.who in caller.groups
        return self.who == caller.user

    def with_flags(self, flags: frozenset[str]) -> Entry:
        return Entry(self.kind, flags, self.who, self.mask)

    def in_force(self) -> bool:
        return "i" not in self.flags


Entries = tuple[Entry, ...]


def ordered(letters: frozenset[str], order: str) -> str:
    return "".join(one for one in order if one in letters)


def text_of(flags: frozenset[str], entries: Entries) -> str:
    """A list as it is printed and sent."""
    return "".join(f"{line}\n" for line in (f"list:{ordered(flags, 'ap')}", *map(str, entries)))


@dataclass(frozen=True)
class Ruling:
    """Of one right: allowed or denied at a place of the list, or silent."""
    word: str
    place: int | None

    def __str__(self) -> str:
        return self.word if self.place is None else f"{self.word} {self.place}"


def ruling(entries: Entries, caller: Caller, owners: Owners, right: str) -> Ruling:
    """The first A or D entry in force with the right that matches decides."""
    for place, one in enumerate(entries, 1):
        if one.kind in "AD" and one.in_force() and right in one.mask:
            if one.matches(caller, owners):
                return Ruling("allowed" if one.kind == "A" else "denied", place)
    return Ruling("silent", None)


@dataclass(frozen=True)
class Denial:
    rights: frozenset[str]
    place: int | None


def denial(entries: Entries, caller: Caller, owners: Owners, rights: frozenset[str]
           ) -> Denial | None:
    """Nothing, where all are granted; else the least place that denies one, or what is silent."""
    rulings = {right: ruling(entries, caller, owners, right) for right in rights}
    places = [one.place for one in rulings.values() if one.word == "denied" and one.place]
    if places:
        first = Ruling("denied", min(places))
        return Denial(frozenset(right for right in rights if rulings[right] == first), min(places))
    silent = frozenset(right for right in rights if rulings[right].word == "silent")
    return Denial(silent, None) if silent else None


def events(entries: Entries, caller: Caller, owners: Owners, rights: frozenset[str],
           granted: bool) -> list[tuple[int, Entry]]:
    """The entries of a sacl that ask for a record of this."""
    return [(place, one) for place, one in enumerate(entries, 1)
            if one.kind in "UL" and one.in_force() and one.mask & rights
            and ("S" if granted else "F") in one.flags and one.matches(caller, owners)]


def passed(kind: str, entries: Entries) -> Entries:
    """What a child of the kind inherits from its folder's full list."""
    return tuple(child for one in entries if (child := passed_one(kind, one)))


def passed_one(kind: str, entry: Entry) -> Entry | None:
    flags = entry.flags
    alone = flags - frozenset("fdni") | {"I"}
    if kind == DOCUMENT:
        return entry.with_flags(alone) if "f" in flags else None
    if "d" in flags:
        return entry.with_flags(alone if "n" in flags else flags - {"i"} | {"I"})
    if "f" in flags and "n" not in flags:
        return entry.with_flags(flags | {"i", "I"})
    return None


def fault(entry: Entry, which: str, kind: str) -> str | None:
    """Why the entry can't stand in such a list of such an object."""
    if entry.kind not in ("AD" if which == DACL else "UL"):
        return "A9"
    if entry.kind in "AD" and entry.flags & frozenset("SF"):
        return "A10"
    if "i" in entry.flags and not entry.flags & frozenset("fd"):
        return "A11"
    if kind == DOCUMENT and entry.flags & frozenset("fdni"):
        return "A12"
    return None
