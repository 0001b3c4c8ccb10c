"""Steps at random. Most are sensible, so that a good part of the requests is granted, and most
paths are there."""
from __future__ import annotations

from collections.abc import Iterator
from random import Random

from acl import DACL, FOLDER, MASK, SACL, SPECIAL, Entry
from messages import Path, Request
from room import Node, Room
from steps import Ask, Members, Reset, Step

USERS = ["root", "alice", "bob", "carol", "g"]
GROUPS = ["staff", "g", "h"]
NAMES = ["a", "b", "c", "B", "\u00e9 x"]
WORDS = ["Read", "List", "Put", "Put", "Put", "Append", "MakeFolder", "MakeFolder", "MakeFolder",
         "Remove", "Move", "Move", "ReadList", "SetList", "SetList", "ReadAttr", "SetOwners", "Can"]
INHERITANCE = ["f", "d", "fd", "fd", "fdn", "fn", "dn", "fi", "di", "fdi", "fdni", "n"]
ASKED_BETWEEN = 400  # requests from one step of the operator to the next
DEEPEST = 6


class Chance:
    def __init__(self, random: Random, room: Room):
        self.random, self.room = random, room

    def is_one_of(self, hundredths: int) -> bool:
        return self.random.randrange(100) < hundredths

    def node(self) -> Node:
        return self.random.choice(self.room.nodes())

    def folder(self) -> Node:
        return self.random.choice([one for one in self.room.nodes() if one.kind == FOLDER])

    def path(self) -> Path:
        if self.is_one_of(25):
            return tuple(self.random.choices(NAMES, k=self.random.randrange(4)))
        path = self.node().path()
        if self.is_one_of(25):
            path += self.random.choice(NAMES),
        elif self.is_one_of(5):
            path = path[:-1]
        return path[:DEEPEST]

    def new_path(self) -> Path:
        return (*self.folder().path()[:DEEPEST - 1], self.random.choice(NAMES))

    def mask(self) -> frozenset[str]:
        if self.is_one_of(15):
            return frozenset(MASK)
        return frozenset(self.random.sample("rwaxDtdcCo", self.random.randrange(7)))

    def entry(self, which: str, kind: str) -> Entry:
        flags: set[str] = set()
        if self.is_one_of(60 if kind == FOLDER else 4):
            flags |= set(self.random.choice(INHERITANCE))
        if which == SACL and self.is_one_of(85):
            flags |= set(self.random.choice(["S", "F", "SF"]))
        flags |= {"I"} if self.is_one_of(15) else set()
        flags |= {"i"} if self.is_one_of(1) else set()
        if self.is_one_of(45):
            who = self.random.choice(SPECIAL)
            flags |= {"g"} if self.is_one_of(10) else set()
        elif self.is_one_of(55):
            who = self.random.choice(USERS)
        else:
            who = self.random.choice(GROUPS)
            flags.add("g")
        types = "AAD" if which == DACL else "UUL"
        word = self.random.choice(types if self.is_one_of(97) else "ADUL")
        return Entry(word, frozenset(flags), who, self.mask())

    def set_list(self, path: Path, kind: str) -> Request:
        which = self.random.choice([DACL, DACL, SACL])
        entries = [self.entry(which, kind) for _ in range(self.random.choice([0, 1, 2, 2, 3, 4]))]
        if which == DACL and self.is_one_of(90):
            flags = frozenset("fd" if self.is_one_of(90) else "")
            entries.insert(0, Entry("A", flags, "root", frozenset(MASK)))
        if which == DACL and self.is_one_of(60):
            entries.append(Entry("A", frozenset(), "EVERYONE@", frozenset("x")))
        flags = frozenset(self.random.choice(["a", "a", "a", "", "p", "ap", "ap"]))
        return Request("SetList", path, which=which, flags=flags, entries=tuple(entries))

    def request(self) -> Request:
        word, path = self.random.choice(WORDS), self.path()
        match word:
            case "Put" | "Append" | "MakeFolder":
                path = self.new_path() if self.is_one_of(60) and word != "Append" else path
                text = "" if word == "MakeFolder" else self.random.choice(["", "x", "hello"])
                return Request(word, path, text)
            case "Move":
                if self.is_one_of(60):
                    return Request(word, self.node().path(), to=self.new_path())
                return Request(word, path, to=self.path())
            case "ReadList":
                return Request(word, path, which=self.random.choice([DACL, SACL]))
            case "SetList":
                return self.set_list(path, FOLDER if self.is_one_of(70) else "document")
            case "SetOwners":
                owner, group = self.random.choice(USERS), self.random.choice(GROUPS)
                return Request(word, path, owner=owner, group=group)
            case "Can":
                rights = self.random.sample(MASK, self.random.randrange(5))
                return Request(word, path, rights="".join(rights))
        return Request(word, path)

    def reset(self) -> Reset:
        node = self.node()
        return Reset(self.set_list(node.path(), node.kind))

    def members(self) -> Members:
        return Members(frozenset((group, user) for group in GROUPS for user in USERS
                                 if self.is_one_of(40)))


def steps_at_random(random: Random, room: Room) -> Iterator[Step]:
    """A room in which root may do all and everybody may pass, three changes of the groups, and
    requests between them."""
    chance = Chance(random, room)
    first = (Entry("A", frozenset(), "EVERYONE@", frozenset("x")),
             Entry("A", frozenset("fd"), "root", frozenset(MASK)),
             Entry("A", frozenset("fdg"), "g", frozenset(random.sample("rwaxDtdcCo", 7))))
    yield Reset(Request("SetList", (), which=DACL, flags=frozenset("a"), entries=first))
    for _ in range(3):
        yield chance.members()
        reset = chance.reset()
        if reset.fits(room):
            yield reset
        for _ in range(ASKED_BETWEEN):
            yield Ask(random.choice([*USERS, None, *["root"] * 6, "alice"]), chance.request())
