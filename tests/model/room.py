"""A room as docs/requests.md, docs/access-lists.md and docs/storage.md say it: what each request
answers, changes and records. Lists of those below are worked out at each look, from the root down;
nothing is stored but what an object has of its own, and what it kept when it was unlinked."""
from __future__ import annotations

from dataclasses import dataclass, field

import acl
from acl import DACL, DOCUMENT, FOLDER, SACL, Caller, Denial, Entries, Owners
from messages import Path, Reply, Request, as_json, shown

MOST = 1048576  # bytes of a document


@dataclass
class Attribute:
    """A dacl or a sacl: the flags, the own entries, and those kept while it isn't linked."""
    flags: frozenset[str]
    own: Entries = ()
    kept: Entries = ()


@dataclass(eq=False)
class Node:
    name: str
    kind: str
    parent: Node | None
    owners: Owners
    lists: dict[str, Attribute]
    text: str = ""
    children: list[Node] = field(default_factory=list)

    def child(self, name: str) -> Node | None:
        return next((one for one in self.children if one.name == name), None)

    def in_order(self) -> list[Node]:
        return sorted(self.children, key=lambda one: one.name.encode())

    def path(self) -> Path:
        return () if self.parent is None else (*self.parent.path(), self.name)

    def is_linked(self, which: str) -> bool:
        return (self.parent is not None and "p" not in self.lists[which].flags
                and "a" in self.parent.lists[which].flags)

    def inherited(self, which: str) -> Entries:
        if self.parent is not None and self.is_linked(which):
            return acl.passed(self.kind, self.parent.full(which))
        return self.lists[which].kept

    def full(self, which: str) -> Entries:
        return self.lists[which].own + self.inherited(which)

    def is_below(self, other: Node) -> bool:
        return self is other or (self.parent is not None and self.parent.is_below(other))


class End(Exception):
    """The reply of the first item of the plan that fails."""

    def __init__(self, reply: Reply):
        self.reply = reply


def refused(path: Path, word: str) -> End:
    status = {"no-such": 404, "too-large": 413}.get(word, 409)
    return End(Reply(status, as_json({"at": shown(path), "why": word})))


def denied(node: Node, by: Denial) -> End:
    entry = None if by.place is None else str(node.full(DACL)[by.place - 1])
    return End(Reply(403, as_json({"at": shown(node.path()), "bits": letters(by.rights),
                                   "entry": by.place, "text": entry})))


def letters(rights: frozenset[str]) -> str:
    return acl.ordered(rights, acl.MASK)


@dataclass
class Room:
    root: Node
    pairs: set[tuple[str, str]] = field(default_factory=set)
    records: list[str] = field(default_factory=list)

    def nodes(self) -> list[Node]:
        found = [self.root]
        for one in found:
            found.extend(one.in_order())
        return found

    def at(self, path: Path) -> Node | None:
        node: Node | None = self.root
        for name in path:
            node = node and node.child(name)
        return node

    def caller(self, user: str | None) -> Caller:
        return Caller(user, frozenset(group for group, one in self.pairs if one == user))

    def ask(self, user: str | None, request: Request) -> Reply:
        try:
            return Asking(self, self.caller(user)).serve(request)
        except End as ended:
            return ended.reply

    def set_list(self, node: Node, request: Request) -> None:
        """The sent flags and entries; what the children keep or lose by the flag a."""
        which, before = request.which, node.lists[request.which]
        followers = [one for one in node.children if "p" not in one.lists[which].flags]
        had = [(one, one.inherited(which)) for one in followers]
        sent = request.entries
        now = node.lists[which] = Attribute(
            request.flags, tuple(one for one in sent if "I" not in one.flags))
        if not node.is_linked(which):
            now.kept = tuple(one for one in sent if "I" in one.flags)
        for one, entries in had:
            if "a" in before.flags and "a" not in now.flags:
                one.lists[which].kept = entries
            elif "a" in now.flags and "a" not in before.flags:
                one.lists[which].kept = ()

    def reset(self, request: Request) -> None:
        """The operator's step, which asks no right."""
        node = self.at(request.path)
        if node is not None:
            self.set_list(node, request)

    def dump(self) -> str:
        pairs = "".join(f"member {group} {user}\n" for group, user in sorted(self.pairs))
        return dumped(self.root) + pairs


def dumped(node: Node) -> str:
    length = f"{len(node.text.encode())} " if node.kind == DOCUMENT else ""
    owners = f"{node.owners.owner} {node.owners.group}"
    lines = f"{node.kind} {owners} {length}{shown(node.path())}\n"
    for which in (DACL, SACL):
        lines += f"{which}\n{acl.text_of(node.lists[which].flags, node.full(which))}"
    return lines + "".join(map(dumped, node.in_order()))


def new_room(owner: str, group: str) -> Room:
    """As `init` makes it."""
    own = acl.Entry("A", frozenset("fd"), "OWNER@", frozenset(acl.MASK))
    lists = {DACL: Attribute(frozenset("a"), (own,)), SACL: Attribute(frozenset("a"))}
    return Room(Node("", FOLDER, None, Owners(owner, group), lists))


class Asking:
    """One request of one caller."""

    def __init__(self, room: Room, caller: Caller):
        self.room, self.caller = room, caller

    def record(self, node: Node, rights: frozenset[str], granted: bool) -> None:
        found = acl.events(node.full(SACL), self.caller, node.owners, rights, granted)
        for place, entry in found:
            self.room.records.append(",".join((
                self.caller.user or "", shown(node.path()), letters(rights),
                "yes" if granted else "no", str(place),
                "audit" if entry.kind == "U" else "alarm")))

    def check(self, node: Node, right: str) -> None:
        by = acl.denial(node.full(DACL), self.caller, node.owners, frozenset(right))
        self.record(node, frozenset(right), by is None)
        if by is not None:
            raise denied(node, by)

    def may_remove(self, target: Node, folder: Node) -> None:
        """d of the target or D of its folder; a denial of either; else w of the folder."""
        by_target = acl.ruling(target.full(DACL), self.caller, target.owners, "d")
        by_folder = acl.ruling(folder.full(DACL), self.caller, folder.owners, "D")
        second, failed = "D", None
        if "allowed" not in (by_target.word, by_folder.word):
            if by_target.word == "denied":
                failed = denied(target, Denial(frozenset("d"), by_target.place))
            elif by_folder.word == "denied":
                failed = denied(folder, Denial(frozenset("D"), by_folder.place))
            else:
                second = "w"
                by = acl.denial(folder.full(DACL), self.caller, folder.owners, frozenset("w"))
                failed = denied(folder, by) if by else None
        self.record(target, frozenset("d"), failed is None)
        self.record(folder, frozenset(second), failed is None)
        if failed:
            raise failed

    def walk(self, path: Path) -> Node:
        node, _ = self.walk_or_lack(path)
        if node is None:
            raise refused(path, "no-such")
        return node

    def walk_or_lack(self, path: Path) -> tuple[Node | None, Node]:
        """The object, or nothing where just the last name is missing; and the folder above it."""
        node = folder = self.room.root
        for number, name in enumerate(path):
            if node.kind != FOLDER:
                raise refused(node.path(), "not-folder")
            self.check(node, "x")
            child = node.child(name)
            if child is None:
                if number + 1 == len(path):
                    return None, node
                raise refused(path[:number + 1], "no-such")
            node, folder = child, node
        return node, folder

    def of_kind(self, path: Path, kind: str) -> Node:
        node = self.walk(path)
        if node.kind != kind:
            raise refused(path, "wrong-kind")
        return node

    def make(self, kind: str, folder: Node, name: str) -> Node:
        lists = {}
        for which in (DACL, SACL):
            flags = folder.lists[which].flags & {"a"}
            kept = () if flags else acl.passed(kind, folder.full(which))
            lists[which] = Attribute(flags, (), kept)
        owners = Owners(self.caller.user or folder.owners.owner, folder.owners.group)
        made = Node(name, kind, folder, owners, lists)
        folder.children.append(made)
        return made

    def serve(self, request: Request) -> Reply:
        match request.word:
            case "Read":
                node = self.of_kind(request.path, DOCUMENT)
                self.check(node, "r")
                return Reply(200, node.text, "application/octet-stream")
            case "List":
                node = self.of_kind(request.path, FOLDER)
                self.check(node, "r")
                return Reply(200, as_json(
                    [{"kind": one.kind, "name": one.name} for one in node.in_order()]))
            case "Put":
                return self.put(request)
            case "Append":
                node = self.of_kind(request.path, DOCUMENT)
                self.check(node, "a")
                if len((node.text + request.text).encode()) > MOST:
                    raise refused(request.path, "too-large")
                node.text += request.text
                return Reply(204)
            case "MakeFolder":
                return self.make_folder(request.path)
            case "Remove":
                return self.remove(request.path)
            case "Move":
                return self.move(request.path, request.to)
        return self.serve_attributes(request)

    def serve_attributes(self, request: Request) -> Reply:
        node = self.walk(request.path)
        match request.word:
            case "ReadList":
                self.check(node, "c")
                attribute = node.lists[request.which]
                return Reply(200, acl.text_of(attribute.flags, node.full(request.which)),
                             "text/plain")
            case "SetList":
                self.check(node, "C")
                for place, entry in enumerate(request.entries, 1):
                    if number := acl.fault(entry, request.which, node.kind):
                        raise End(Reply(422, as_json({
                            "at": shown(request.path), "entry": place,
                            "why": f"bad-list {number}"})))
                self.room.set_list(node, request)
                return Reply(204)
            case "ReadAttr":
                self.check(node, "t")
                return Reply(200, as_json({"group": node.owners.group, "kind": node.kind,
                                           "owner": node.owners.owner}))
            case "SetOwners":
                self.check(node, "o")
                node.owners = Owners(request.owner, request.group)
                return Reply(204)
        rulings = {right: acl.ruling(node.full(DACL), self.caller, node.owners, right)
                   for right in request.rights}
        return Reply(200, as_json({right: str(one) for right, one in rulings.items()}))

    def put(self, request: Request) -> Reply:
        node, folder = self.walk_or_lack(request.path)
        if node is None:
            self.check(folder, "w")
            self.make(DOCUMENT, folder, request.path[-1]).text = request.text
            return Reply(201)
        if node.kind != DOCUMENT:
            raise refused(request.path, "wrong-kind")
        self.check(node, "w")
        node.text = request.text
        return Reply(204)

    def make_folder(self, path: Path) -> Reply:
        if not path:
            raise refused(path, "exists")
        node, folder = self.walk_or_lack(path)
        self.check(folder, "a")
        if node is not None:
            raise refused(path, "exists")
        self.make(FOLDER, folder, path[-1])
        return Reply(201)

    def remove(self, path: Path) -> Reply:
        node, folder = self.walk(path), self.room.at(path[:-1])
        if not path or folder is None:
            raise refused(path, "root")
        self.may_remove(node, folder)
        if node.children:
            raise refused(path, "not-empty")
        folder.children.remove(node)
        return Reply(204)

    def move(self, path: Path, to: Path) -> Reply:
        node, folder = self.walk(path), self.room.at(path[:-1])
        if not path or folder is None:
            raise refused(path, "root")
        if not to:
            self.may_remove(node, folder)
            raise refused(to, "exists")
        target = self.walk(to[:-1])
        if target.kind != FOLDER:
            raise refused(to[:-1], "not-folder")
        self.check(target, "x")
        self.may_remove(node, folder)
        self.check(target, "w" if node.kind == DOCUMENT else "a")
        if target.child(to[-1]):
            raise refused(to, "exists")
        if target.is_below(node):
            raise refused(to, "loop")
        before = {which: node.inherited(which) for which in (DACL, SACL)}
        folder.children.remove(node)
        target.children.append(node)
        node.parent, node.name = target, to[-1]
        for which, entries in before.items():
            node.lists[which].kept = () if node.is_linked(which) else entries
        return Reply(204)
