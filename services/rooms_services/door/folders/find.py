"""Objects below a folder whose names contain a text, as far as the caller may see."""
from urllib.parse import unquote_to_bytes

from ...room.answers import Answer, Stop, told_as_it_comes
from ...room.paths import Names
from ...room.room import Reply, Room
from ...document_texts.folding import folded
from .walk import Node, Step, Walk, refuse_long, top_of

LONGEST = 255
MOST_FOUND = 1000


def text_of(query: str) -> str:
    """What is looked for, of a query that is nothing but this text, escaped."""
    try:
        text = unquote_to_bytes(query.encode("latin-1")).decode("utf-8")
    except UnicodeError:
        raise Stop(400, "bad-query", "a text that isn't UTF-8") from None
    if not text or len(text.encode()) > LONGEST or any(
            letter < " " or letter == "\x7f" for letter in text):
        raise Stop(400, "bad-query", "a text of 1 to 255 bytes, without control bytes")
    return text


class Find:
    def __init__(self, room: Room, user: str, text: str) -> None:
        self.walk = Walk(room, user)
        self.text = folded(text)
        self.found: list[Node] = []
        self.unlisted: list[Node] = []
        self.can = Step("can", "rx", self._may)
        self.list = Step("folder", "", self._children)

    def look(self, names: Names) -> Answer:
        top, listing, _ = top_of(self.walk, names, "x")
        if listing.status != 200:
            return listing.answer()
        self._children(top, listing)
        self.walk.run(lambda: not self._is_enough())
        refuse_long(self.found + self.unlisted)
        is_all = not (self.walk.asked or self.walk.is_cut or self.walk.is_too_much()
                      or len(self.found) > MOST_FOUND)
        return told_as_it_comes({
            "all": is_all, "at": top.path, "unlisted": (node.path for node in self.unlisted),
            "found": ({"kind": node.kind, "path": node.path} for node in self.found[:MOST_FOUND])})

    def _is_enough(self) -> bool:
        return (len(self.found) > MOST_FOUND or self.walk.is_late()
                or self.walk.is_too_much())

    def _children(self, node: Node, reply: Reply) -> None:
        for child in self.walk.children(node, reply):
            if self.text in folded(child.name.decode()):
                self.found.append(child)
            if child.is_folder:
                self._folder(child)

    def _folder(self, node: Node) -> None:
        """No record says that somebody who searched tried to open a folder that is closed."""
        if node.above and node.above.is_open:
            self.walk.ask(self.can, node)
        else:
            self.unlisted.append(node)

    def _may(self, node: Node, reply: Reply) -> None:
        may = reply.rulings()
        node.is_open = may.get("x", False)
        if may.get("r"):
            if self.walk.goes_into(node):
                self.walk.ask(self.list, node)
        else:
            self.unlisted.append(node)


def find(room: Room, user: str, names: Names, query: str) -> Answer:
    return Find(room, user, text_of(query)).look(names)
