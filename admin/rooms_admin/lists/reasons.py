"""By which entries somebody has what a review says of them. The review says who may do what; this
only finds the entry for it, as docs/access-lists.md says how a list decides."""
from collections.abc import Iterable
from dataclasses import dataclass

from .dump import Object, as_text
from .entries import Entry, entry
from .naming import above
from .review import ANONYMOUS


@dataclass(frozen=True)
class Reason:
    """An entry, the object that has it, and the group that it names."""
    path: bytes
    entry: str
    group: str


class Reasons:
    """Of objects by path, and groups with their members."""

    def __init__(self, objects: dict[bytes, Object], groups: dict[str, set[str]]) -> None:
        self.objects = objects
        self.groups = groups
        self._read: dict[bytes, list[tuple[Entry, Reason]]] = {}

    def of(self, path: bytes, user: str, letters: Iterable[str], remove: bool) -> list[Reason]:
        """Each once. Two lists say whether somebody may remove an object, one after the other."""
        wanted = list(letters)
        own = self._allowing(path, user, {*wanted, "d"} if remove else set(wanted))
        found = [own.get(one) for one in wanted]
        if remove:
            there = self._allowing(above(path), user, {"D", "w"})
            found.append(own.get("d") or there.get("D") or there.get("w"))
        return list(dict.fromkeys(one for one in found if one))

    def kind(self, path: bytes) -> str:
        return self.objects[path].kind if path in self.objects else ""

    def _allowing(self, path: bytes, user: str, left: set[str]) -> dict[str, Reason]:
        """The first entry with a letter rules it."""
        found: dict[str, Reason] = {}
        for it, reason in self._entries(path):
            ruled = left.intersection(it.mask)
            if ruled and self._matches(it, reason, user):
                left = left - ruled
                if it.type == "A":
                    found.update(dict.fromkeys(ruled, reason))
                if not left:
                    break
        return found

    def _entries(self, path: bytes) -> list[tuple[Entry, Reason]]:
        """Those of its dacl that are in force."""
        if path not in self._read:
            one = self.objects.get(path)
            lines = [as_text(line) for line in one.dacl[1:]] if one else []
            parts = [(entry(line), line) for line in lines]
            self._read[path] = [(it, Reason(path, line, self._group_of(it, one)))
                                for it, line in parts if it and one and "i" not in it.flags]
        return self._read[path]

    @staticmethod
    def _group_of(it: Entry, one: Object) -> str:
        if it.who == "GROUP@":
            return one.group
        return it.group

    def _matches(self, it: Entry, reason: Reason, user: str) -> bool:
        if reason.group:
            return user in self.groups.get(reason.group, ())
        if it.who in ("EVERYONE@", ANONYMOUS, "AUTHENTICATED@"):
            return it.who == "EVERYONE@" or (user == ANONYMOUS) == (it.who == ANONYMOUS)
        owner = self.objects[reason.path].owner
        return user == (owner if it.who == "OWNER@" else it.who)
