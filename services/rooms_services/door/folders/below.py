"""All below a folder whose list isn't what its own folder passes down to it, and how many objects
the rest are, as far as the caller may see."""
import json
from collections import Counter
from collections.abc import Iterator
from typing import NamedTuple

from ...room import lists
from ...room.answers import Answer, told_as_it_comes
from ...room.paths import Names
from ...room.room import Reply, Room, too_many
from .walk import Node, Step, Walk, refuse_long, top_of

Rest = tuple[Node, bool, int, str | None, str | None]
_OWNERS = ("OWNER@", "GROUP@")


# Of different lists, and of all that are answered: one text may be that of many objects.
MOST_BYTES = 16_777_216


class _Said(NamedTuple):
    """Of a list: its text, once for all; whether it is protected or has an entry of its own;
    whether what is below it follows it; and whether it says something of its own object's owner or
    group."""
    text: bytes
    is_own: bool
    passes: bool
    names_owners: bool


class _Texts:
    """What is said of list texts, most of which are the same."""

    def __init__(self) -> None:
        self._size = 0
        self._known: dict[bytes, _Said] = {}

    def of(self, text: bytes) -> _Said:
        known = self._known.get(text)
        if known is None:
            self._size += len(text)
            if self._size > MOST_BYTES:
                raise too_many()
            said = lists.read(text.decode())
            known = self._known[text] = _Said(
                text, said.is_own, "a" in said.flags,
                any(one.who in _OWNERS and "i" not in one.flags for one in said.entries))
        return known


class Below:
    def __init__(self, room: Room, user: str, apart: tuple[bytes, ...]) -> None:
        self.walk = Walk(room, user)
        self.apart = apart
        # What lies on that way.
        self.way: set[Node] = set()
        self.nodes: list[Node] = []
        self.unlisted: list[Node] = []
        self.texts = _Texts()
        self.owners: dict[bytes, tuple[str, str]] = {}
        # Whether something may be read is asked first: no record says of somebody who looked at a
        # folder that they tried to read lists in it.
        self.can = {True: Step("can", "rxct", self._may), False: Step("can", "ct", self._may)}
        self.dacl = Step("dacl", "", self._list)
        self.attr = Step("attr", "", self._owner)
        self.list = Step("folder", "", self._children)

    def look(self, names: Names) -> Answer:
        top, listing, may = top_of(self.walk, names, "cx")
        if listing.status != 200:
            return listing.answer()
        if may.get("c"):
            self.walk.ask(self.dacl, top)
        self.way.add(top)
        self._children(top, listing)
        self.walk.all()
        return self._answer(top)

    def _may(self, node: Node, reply: Reply) -> None:
        may = reply.rulings()
        node.is_open = may.get("x", False)
        if may.get("c"):
            self.walk.ask(self.dacl, node)
        if may.get("t"):
            self.walk.ask(self.attr, node)
        if may.get("r") and (node in self.way or self.walk.goes_into(node)):
            self.walk.ask(self.list, node)
        elif node.is_folder:
            self.unlisted.append(node)

    def _list(self, node: Node, reply: Reply) -> None:
        if reply.status == 200:
            node.list = self.texts.of(reply.body).text

    def _owner(self, node: Node, reply: Reply) -> None:
        if reply.status != 200:
            return
        known = self.owners.get(reply.body)
        if known is None:
            found = json.loads(reply.body)
            known = self.owners[reply.body] = found["owner"], found["group"]
        node.owner, node.group = known

    def _children(self, node: Node, reply: Reply) -> None:
        depth = len(node.names()) - 1 if node in self.way else len(self.apart)
        for child in self.walk.every_child(node, reply):
            self.nodes.append(child)
            if depth < len(self.apart) and child.name == self.apart[depth]:
                self.way.add(child)
            if node.is_open:
                self.walk.ask(self.can[child.is_folder], child)
            elif child.is_folder:
                self.unlisted.append(child)

    def _follows(self, node: Node) -> bool:
        """Whether its list is what its folder's list passes down, and passes down itself. What a
        folder's list says to the folder's own owner isn't the same in another folder."""
        if node.list is None or node.above is None or node.above.list is None or node in self.way:
            return False
        said = self.texts.of(node.list)
        follows = not node.is_folder or said.passes and not said.names_owners
        return follows and not said.is_own and self.texts.of(node.above.list).passes

    def _answer(self, top: Node) -> Answer:
        # The folder whose list a folder follows, and how far above it that is.
        near: dict[Node, tuple[Node, int]] = {top: (top, 0)}
        rest: Counter[Rest] = Counter()
        unread: Counter[Node] = Counter()
        found: list[Node] = []
        size = 0
        # (each stands behind the folder that it is in)
        for node in self.nodes:
            assert node.above
            if self._follows(node):
                folder, depth = near[node.above]
                rest[folder, node.is_folder, min(depth + 1, 2), node.owner, node.group] += 1
                if node.is_folder:
                    near[node] = folder, min(depth + 1, 2)
                continue
            if node.is_folder:
                near[node] = node, 0
            if node.list is None and not node.is_folder:
                unread[node.above] += 1
                continue
            size += len(node.list or b"")
            if size > MOST_BYTES:
                raise too_many()
            found.append(node)
        refuse_long([*found, *self.unlisted, *(row[0] for row in rest), *unread])
        return told_as_it_comes({
            "at": top.path, "list": None if top.list is None else top.list.decode(),
            "objects": map(_object, found), "rest": _rest(rest),
            "unlisted": (node.path for node in self.unlisted),
            "unread": ({"count": count, "in": node.path, "kind": "document"}
                       for node, count in unread.items())})


def _object(node: Node) -> dict[str, object]:
    return {"group": node.group, "kind": node.kind, "owner": node.owner, "path": node.path,
            "list": None if node.list is None else node.list.decode()}


def _rest(counted: Counter[Rest]) -> Iterator[dict[str, object]]:
    for (node, is_folder, depth, owner, group), count in counted.items():
        yield {"below": node.path, "kind": "folder" if is_folder else "document", "depth": depth,
               "owner": owner, "group": group, "count": count}


def below(room: Room, user: str, names: Names, apart: Names) -> Answer:
    """`apart` leads on from the folder: each object on that way is told of by itself."""
    return Below(room, user, tuple(name.encode() for name in apart)).look(names)
