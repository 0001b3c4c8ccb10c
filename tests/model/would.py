#!/usr/bin/env python3
"""Asks `would` about rooms at random, and then makes the change:

    would.py PROGRAM SEED ROOMS

In each room lists are set, an object is moved, and one comes. Before each of these `would` is asked
with what `dump` printed, once with the members and once without, where it is told who could be in
which groups. Then it is done, and what `review` printed before and prints then is looked for: in
the rows, the nearest of each caller. A change without a row is unsaid."""
from __future__ import annotations

import csv
import os
import shutil
import sys
import tempfile
from collections.abc import Iterator
from copy import deepcopy
from dataclasses import dataclass, field
from random import Random

from acl import DACL, DOCUMENT, FOLDER, MASK, Entry, fault, text_of
from against import GROUP, MESSAGES, OWNER, Program
from chance import Chance
from messages import Path, Request, shown
from room import Node, Room, new_room

USERS = ["alice", "bob", "carol", "dana", "kim", "staff"]
GROUPS = ["staff", "sales", "board", "kim"]
# Nobody's list names them, so each of them is whoever is in these groups.
UNNAMED = ["u1", "u2", "u3"]
NAMES = ["a", "b", "c d", "B", "é,\"x\""]
LEVELS = ["rxt", "rxtc", "rwaxtc", "rwaxDtc", "x", "w", MASK]
EVERYBODY = ["*", "ANONYMOUS@"]
HEADER = ["path", "kind", "user", "rights", "remove", "then", "then_remove"]

Grant = tuple[str, str]  # rights, and whether the object may be removed
Review = dict[tuple[str, str], Grant]  # by path and user
NOTHING: Grant = ("", "no")


class Wrong(Exception):
    """What `would` said, or didn't say, beside what came."""


@dataclass
class Counts:
    trees: dict[str, int] = field(default_factory=dict)
    compared: int = 0
    differ: int = 0

    def told(self) -> str:
        trees = ", ".join(f"{number} {what}" for what, number in self.trees.items())
        return f"{trees}: {self.compared} compared, {self.differ} differ, 0 unsaid, 0 said falsely"


# ---- rooms


class Making(Chance):
    """A room whose lists are those of an office, or written by hand."""

    def who(self) -> tuple[str, str]:
        if self.is_one_of(50):
            return "g", self.random.choice(GROUPS)
        return "", self.random.choice([*USERS, "EVERYONE@", "OWNER@", "GROUP@", "AUTHENTICATED@"])

    def entry_of_office(self, kind: str) -> Entry:
        flags, who = self.who()
        if kind == FOLDER:
            flags += self.random.choice(["fd", "fd", "fd", "", "fi", "f", "d"])
        letter = "D" if self.is_one_of(8) else "A"
        return Entry(letter, frozenset(flags), who, frozenset(self.random.choice(LEVELS)))

    def entries(self, kind: str) -> tuple[Entry, ...]:
        made = self.entry_of_office if self.is_one_of(75) else lambda kind: self.entry(DACL, kind)
        found = [made(kind) for _ in range(self.random.choice([0, 1, 2, 2, 3, 4]))]
        if self.is_one_of(85):
            manages = Entry("A", frozenset("fd" if kind == FOLDER else ""), "root", frozenset(MASK))
            found.insert(self.random.randrange(2) and len(found), manages)
        if self.is_one_of(60):
            found.append(Entry("A", frozenset(), "EVERYONE@", frozenset("x")))
        return tuple(one for one in found if not fault(one, DACL, kind))

    def list_of(self, node: Node) -> Request:
        flags = self.random.choice(["a", "a", "a", "a", "", "p", "ap"])
        return Request("SetList", node.path(), which=DACL, flags=frozenset(flags),
                       entries=self.entries(node.kind))

    def grown(self) -> Iterator[Request]:
        """Requests of root's that make the tree. Lists come last, those below first, so that root
        gets everywhere until then."""
        for number in range(self.random.randrange(4, 13)):
            word = "MakeFolder" if number < 2 or self.is_one_of(55) else "Put"
            yield Request(word, (*self.folder().path(), self.random.choice(NAMES)))
        for node in self.room.nodes()[1:]:
            yield Request("SetOwners", node.path(), owner=self.random.choice([*USERS, "root"]),
                          group=self.random.choice(GROUPS))
        for node in reversed(self.room.nodes()):
            if node.parent is None or self.is_one_of(55):
                yield self.list_of(node)

    def pairs(self) -> set[tuple[str, str]]:
        return {(group, user) for user in [*USERS, *UNNAMED] for group in GROUPS
                if self.is_one_of(40)}


class Kept:
    """A room of the program, and the same in memory, which says what there is to be changed."""

    def __init__(self, program: Program, random: Random):
        self.program, self.room = program, new_room(OWNER, GROUP)
        self.making, self.random = Making(random, self.room), random
        program.fresh()
        self.asks(list(self.done(self.making.grown())))
        self.room.pairs = self.making.pairs()
        with open("members", "w", encoding="utf-8") as file:
            file.write("group,user\n" + "".join(f"{a},{b}\n" for a, b in self.room.pairs))
        self.runs("groups", "F", "members")
        self.reviewed = self.review()

    def done(self, requests: Iterator[Request]) -> Iterator[Request]:
        """Those that root gets done."""
        for one in requests:
            if self.room.ask("root", one).status < 300:
                yield one

    def tried(self, requests: list[Request]) -> Room | None:
        """The room as it is then, if root gets all of them done."""
        room = deepcopy(self.room)
        done = all(room.ask("root", one).status < 300 for one in requests)
        return room if done else None

    def makes(self, change: Change) -> None:
        """Lists are set by the operator, all else is asked by root."""
        if all(one.word == "SetList" for one in change.requests):
            for one in change.requests:
                self.runs("reset", "F", shown(one.path), DACL, text=text_of(one.flags, one.entries))
                self.room.reset(one)
        else:
            self.asks(list(self.done(iter(change.requests))))
        self.reviewed = self.review()

    def asks(self, requests: list[Request]) -> None:
        assert len(requests) < MESSAGES
        received = self.program.exchange(b"".join(one.message("root") for one in requests))
        if received.count(b"HTTP/1.1 2") != len(requests):
            raise Wrong(f"root's requests: {received.decode()}")

    def runs(self, *words: str, text: str = "") -> str:
        said = self.program.run(*words, text=text)
        if said.startswith(("fault", "refused", "error")):
            raise Wrong(f"{words}: {said}")
        return said

    def review(self) -> Review:
        rows = csv.reader(self.runs("review", "F", "/", "--all").splitlines()[1:])
        return {(path, user): (rights, remove) for path, _, user, rights, remove in rows}

    def objects(self) -> list[str]:
        """What a question says of the objects: those of a dump without sacls and sizes."""
        lines, keeps = [], True
        for line in self.runs("dump", "F").splitlines():
            word = line.split(" ")
            if word[0] in ("folder", DOCUMENT, "member"):
                keeps = word[0] != "member"
                if word[0] == DOCUMENT:
                    line = " ".join([*word[:3], *word[4:]])
            elif line in ("dacl", "sacl"):
                keeps = line == "dacl"
                continue
            if keeps:
                lines.append(line)
        return list(self.shortened(lines))

    def shortened(self, lines: list[str]) -> Iterator[str]:
        """Some lists that only follow stand as that word."""
        below: list[str] = []
        for line in [*lines, "folder"]:
            if not line.startswith(("folder", DOCUMENT)):
                below.append(line)
                continue
            if below:
                yield from [below[0], *self.list_of(below[0], below[1:])]
            below = [line]

    def list_of(self, line: str, text: list[str]) -> list[str]:
        follows = all("I" in one.split(":")[1] for one in text[1:])
        flags = ("list:a",) if line.startswith("folder") else ("list:", "list:a")
        if text[0] in flags and follows and not line.endswith(" /") and self.random.random() < 0.5:
            node = self.room.at(tuple(line.split(" ", 3)[3].split("/")[1:]))
            if node is not None and node.is_linked(DACL):
                return ["follows"]
        return text


# ---- changes


@dataclass
class Change:
    """Its lines of a question, the requests that make it, and where what it moves stood."""
    lines: list[str]
    requests: list[Request]
    source: str | None = None
    to: str | None = None

    def came_from(self, path: str) -> str | None:
        """Where the object stood, or nothing if it comes."""
        if self.to is None or not f"{path}/".startswith(f"{self.to}/"):
            return path
        return None if self.source is None else self.source + path[len(self.to):]


def sets(kept: Kept) -> Change:
    sent: dict[Path, Request] = {}
    for _ in range(kept.making.random.choice([1, 1, 1, 2, 3])):
        one = kept.making.list_of(kept.making.node())
        sent[one.path] = one
    lines = [line for one in sent.values() for line in (
        f"set {shown(one.path)}", *text_of(one.flags, one.entries).splitlines())]
    return Change(lines, list(sent.values()))


def moves(kept: Kept) -> Change | None:
    one = Request("Move", kept.making.node().path(), to=kept.making.new_path())
    source, to = shown(one.path), shown(one.to)
    return Change([f"move {source}", f"to {to}"], [one], source, to) if kept.tried([one]) else None


def comes(kept: Kept) -> Change | None:
    """A folder that is put back, with a document in it."""
    making, path = kept.making, kept.making.new_path()
    requests = [Request("MakeFolder", path), Request("Put", (*path, "one"))]
    owners = [(making.random.choice(USERS), making.random.choice(GROUPS)) for _ in requests]
    for (owner, group), made in zip(owners, requests[:]):
        requests.append(Request("SetOwners", made.path, owner=owner, group=group))
    if making.is_one_of(70):
        entries = making.entries(FOLDER)
        requests.append(Request("SetList", path, which=DACL, entries=entries,
                                flags=frozenset(making.random.choice(["a", "p", "ap"]))))
    then = kept.tried(requests)
    if then is None:
        return None
    lines = []
    for one, word in zip(requests, ("folder+", "document+")):
        node = then.at(one.path)
        assert node is not None
        lines += [f"{word} {node.owners.owner} {node.owners.group} {shown(one.path)}",
                  *text_of(node.lists[DACL].flags, node.full(DACL)).splitlines()]
    return Change(lines, requests, None, shown(path))


# ---- what is said


class Said:
    """The rows of an answer."""

    def __init__(self, text: str):
        rows = list(csv.reader(text.splitlines()))
        if not rows or rows[0] != HEADER:
            raise Wrong(f"would: {text[:400]}")
        self.rows = {(row[0], row[2]): ((row[3], row[4]), (row[5], row[6])) for row in rows[1:]}
        if len(self.rows) != len(rows) - 1:
            raise Wrong("a row stands twice")
        self.first = rows[1][0]
        self.users = {user for path, user in self.rows if path == self.first}

    def nearest(self, path: str, user: str) -> tuple[Grant, Grant] | None:
        """The row of the object, or of the next one above it that has one."""
        while (path, user) not in self.rows:
            if path == self.first:
                return None
            path = path.rpartition("/")[0] or "/"
        return self.rows[path, user]

    def covers(self, path: str) -> bool:
        return self.first == "/" or f"{path}/".startswith(f"{self.first}/")


@dataclass
class Rooms:
    """What a review printed before a change, and then."""
    before: Review
    after: Review
    change: Change

    def users(self) -> set[str]:
        return {user for _, user in [*self.before, *self.after]}

    def of(self, review: Review, path: str | None, user: str) -> Grant:
        """Who has no row there is any other name."""
        if path is None:
            return NOTHING
        return review[path, user] if (path, user) in review else review[path, "*"]

    def turn(self, path: str, user: str) -> tuple[Grant, Grant]:
        return (self.of(self.before, self.change.came_from(path), user),
                self.of(self.after, path, user))


def judge(said: Said, rooms: Rooms, labels: dict[str, str], counts: Counts) -> None:
    """Labels are the callers' names in the answer, and whose rows of a review these have to be."""
    paths = {path for path, _ in rooms.after}
    if missing := set(labels) - said.users:
        raise Wrong(f"no rows of {missing}")
    for path, user in said.rows:
        if path not in paths or not said.covers(path):
            raise Wrong(f"a row of {path}, which isn't there")
    for label, user in labels.items():
        for path in paths:
            had, has = rooms.turn(path, user)
            counts.compared += 1
            counts.differ += had != has
            row = said.nearest(path, label) if said.covers(path) else None
            stands = (path, label) in said.rows
            if had != has and (row is None or row[0] == row[1]):
                raise Wrong(f"unsaid: {label} at {path} had {had} and has {has}, row {row}")
            if row is not None and (row[0] != row[1] or stands) and row != (had, has):
                raise Wrong(f"said {row} of {label} at {path}, who had {had} and has {has}")


# ---- a room, asked


def supposed(kept: Kept, names: list[str]) -> list[str]:
    """Who could be in which groups: each of these, and whoever is in the groups of nobody's."""
    lines = []
    for name in names:
        groups = ",".join(sorted(kept.room.caller(name).groups))
        if groups:
            lines.append(f"as as-{name} {'*' if name in UNNAMED else name} {groups}")
    return lines


@dataclass
class Answer:
    text: str
    callers: list[str]
    members: list[str]

    def labels(self, rooms: Rooms) -> dict[str, str]:
        """The callers whose rows are compared. Without the members nobody's groups are known."""
        supposed = [line.split(" ")[1] for line in self.callers]
        users = rooms.users() if self.members else EVERYBODY
        return {label: label[3:] for label in supposed} | {user: user for user in users}


def ask(kept: Kept, change: Change, counts: Counts) -> None:
    """The answer with the members and the one without them, and what came of the change."""
    objects, pairs = kept.objects(), [f"member {a} {b}" for a, b in sorted(kept.room.pairs)]
    answers = []
    none: list[str] = []
    for members in (pairs, none):
        callers = supposed(kept, UNNAMED if members else [*USERS, *UNNAMED])
        text = "\n".join([*members, *callers, *objects, *change.lines, ""])
        answers.append(Answer(kept.runs("would", text=text), callers, members))
    before = kept.reviewed
    kept.makes(change)
    rooms = Rooms(before, kept.reviewed, change)
    for one in answers:
        try:
            judge(Said(one.text), rooms, one.labels(rooms), counts)
        except Wrong as wrong:
            raise Wrong("\n".join([str(wrong), *one.members, *one.callers, *objects,
                                   *change.lines])) from None


def changes(kept: Kept) -> Iterator[tuple[str, Change]]:
    """One of each kind, as far as root can make it."""
    yield "lists", sets(kept)
    for what, make in (("moves", moves), ("objects that come", comes)):
        for _ in range(60):
            change = make(kept)
            if change is not None:
                yield what, change
                break


def main(path: str, seed: str, number: str) -> None:
    counts, folder = Counts(), tempfile.mkdtemp()
    program = Program(os.path.abspath(path))
    os.chdir(folder)
    try:
        for one in range(int(number)):
            kept = Kept(program, Random(f"{seed} {one}"))
            for what, change in changes(kept):
                ask(kept, change, counts)
                counts.trees[what] = counts.trees.get(what, 0) + 1
        print(counts.told())
    except Wrong as wrong:
        sys.exit(str(wrong))
    finally:
        os.chdir("/")
        shutil.rmtree(folder)


if __name__ == "__main__":
    if len(sys.argv) != 4:
        sys.exit(__doc__)
    main(*sys.argv[1:])
