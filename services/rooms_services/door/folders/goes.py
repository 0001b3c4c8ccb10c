"""What goes with an object that is removed: all below it, and whether the caller may remove it. The
room removes only empty folders, so whoever removes a folder has to know before."""
from collections.abc import Iterable, Iterator

from ...room.answers import Answer, told_as_it_comes
from ...room.paths import Names
from ...room.room import Reply, Room
from ...room.tags import tag_of_texts
from .walk import Node, Step, Walk, refuse_long, top_of

# What it asks of each object: the rights by which it goes, and whether what is in it may be listed.
RIGHTS = "dDwrx"


def barrier(own: dict[str, object], above: dict[str, object]) -> str:
    """The deletion rule (docs/access-lists.md), by what is ruled at an object and at its folder:
    empty if the caller may remove it, or else the right that decides, which is d at the object."""
    def ruled(told: dict[str, object], right: str, word: str) -> bool:
        return str(told.get(right)).startswith(word)
    if ruled(own, "d", "allowed") or ruled(above, "D", "allowed"):
        return ""
    if ruled(own, "d", "denied"):
        return "d"
    if ruled(above, "D", "denied"):
        return "D"
    return "" if ruled(above, "w", "allowed") else "w"


def tag_of_all(nodes: Iterable[Node]) -> str:
    """Another one if something comes to these objects, or goes."""
    return tag_of_texts(_paths(nodes))


def _paths(nodes: Iterable[Node]) -> Iterator[tuple[bytes, bytes]]:
    """Of each that of its folder, and its name, a folder's with a slash behind it."""
    above: Node | None = None
    path = b""
    for node in nodes:
        if node.above is not above:
            above = node.above
            path = above.path.encode() if above else b""
        yield path, b"/" + node.name + (b"/" if node.is_folder else b"")


class Goes:
    def __init__(self, room: Room, user: str) -> None:
        self.walk = Walk(room, user)
        self.at = ""
        # Each after the folder that it is in.
        self.found: list[Node] = []
        self.unlisted: list[Node] = []
        self.barred: dict[str, str] | None = None
        # What is ruled at folders.
        self.told: dict[Node, dict[str, object]] = {}
        self.can = Step("can", RIGHTS, self._may)
        self.list = Step("folder", "", self._children)

    def gather(self, names: Names, chosen: frozenset[str]) -> Reply:
        """Returns the listing of the folder. The room says itself why there is none."""
        top, listing, _ = top_of(self.walk, names, RIGHTS)
        self.at = top.path
        if listing.status != 200:
            return listing
        self.walk.ask(Step("can", RIGHTS, self._at_top), top)
        for child in self.walk.every_child(top, listing):
            if child.name.decode() not in chosen:
                continue
            if top.is_open:
                self.walk.ask(self.can, child)
            else:
                self.found.append(child)
                self._bar(child, top.path)
        self.walk.all()
        return listing

    def look(self, names: Names, chosen: frozenset[str]) -> Answer:
        listing = self.gather(names, chosen)
        if listing.status != 200:
            return listing.answer()
        refuse_long(self.found + self.unlisted)
        return told_as_it_comes({
            "at": self.at, "barred": self.barred,
            "objects": ({"kind": node.kind, "path": node.path} for node in self.found),
            "tag": tag_of_all(self.found), "unlisted": (node.path for node in self.unlisted)})

    def _at_top(self, top: Node, reply: Reply) -> None:
        self.told[top] = reply.told

    def _children(self, node: Node, reply: Reply) -> None:
        for child in self.walk.every_child(node, reply):
            self.walk.ask(self.can, child)

    def _may(self, node: Node, reply: Reply) -> None:
        if reply.status == 404:
            return
        self.found.append(node)
        self._look_at_barrier(node, reply)
        if node.is_folder:
            self.told[node] = reply.told
            may = reply.rulings()
            node.is_open = may.get("x", False)
            if may.get("r") and node.is_open:
                self.walk.ask(self.list, node)
            else:
                self.unlisted.append(node)

    def _bar(self, node: Node, at: str) -> None:
        """The first one is told."""
        self.barred = self.barred or {"path": node.path, "at": at}

    def _look_at_barrier(self, node: Node, reply: Reply) -> None:
        assert node.above
        if reply.status != 200:
            # Whoever may not pass there may not remove there either.
            self._bar(node, reply.at or node.path)
        elif by := barrier(reply.told, self.told[node.above]):
            self._bar(node, node.path if by == "d" else node.above.path)


def goes(room: Room, user: str, names: Names, chosen: frozenset[str]) -> Answer:
    return Goes(room, user).look(names, chosen)
