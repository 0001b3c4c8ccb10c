"""A folder with what is known of each object in it, as far as the caller may see.

What is shown of a document is what RFC 8881 calls its attributes, to whom its list grants reading
both these (t) and its bytes (r): so its size tells nothing new, and that it changed they could see
themselves. Of a folder it is when a name came or went, to whom it grants r, x and t. The names are
those of the room's own listing, and the rights the room's own answers: of what is behind a folder
that denies the caller x, these are denied."""
from collections.abc import Iterator

from ...room.answers import Answer, told_as_it_comes
from ...room.large import hidden_in
from ...room.paths import Names
from ...room.room import Reply, Room, about
from ..folders.walk import MOST, Node, Step, Walk, top_of
from .keeper import Keeper, now
from .store import Known

FOLDER, DOCUMENT = "rxt", "rt"


def shown(known: Known) -> dict[str, object]:
    """In seconds, as elsewhere."""
    found: dict[str, object] = {}
    if known.size is not None and not known.is_folder:
        found["size"] = known.size
    if known.at is not None:
        found["when"] = known.at // 1000
        if known.who is not None:
            found["who"] = known.who
    elif known.before is not None:
        found["before"] = known.before // 1000
    return found


def may_know(may: dict[str, bool], is_folder: bool) -> bool:
    return all(may.get(bit, False) for bit in (FOLDER if is_folder else DOCUMENT))


class Sizes:
    """How large documents are that have parts, by those parts of which the caller may know that:
    what has no more than the name of one may be somebody else's."""

    def __init__(self, walk: Walk) -> None:
        self._walk = walk
        self._parts: dict[Node, tuple[Node, int | None]] = {}
        # What isn't known of one isn't known of all.
        self._sizes: dict[Node, int | None] = {}
        self._step = Step("can", DOCUMENT, self._may)

    def ask(self, whole: Node, part: bytes, size: int | None) -> None:
        """Of each, whether it is empty or not: else what is asked would tell that."""
        node = Node(part, False, whole.above)
        self._parts[node] = whole, size
        self._walk.ask(self._step, node)

    def forget(self, whole: Node) -> None:
        self._sizes[whole] = None

    def _may(self, part: Node, reply: Reply) -> None:
        whole, size = self._parts.pop(part)
        if may_know(reply.rulings(), False):
            before = self._sizes.get(whole, 0)
            self._sizes[whole] = None if before is None or size is None else before + size

    def of(self, whole: Node, known: Known) -> Known:
        """Those parts that aren't in use are empty."""
        size = self._sizes.get(whole, 0)
        return known if size == 0 else known._replace(size=size)


class Listed:
    def __init__(self, room: Room, user: str, keeper: Keeper | None, searches: bool) -> None:
        self.room = room
        self.user = user
        self.walk = Walk(room, user)
        self.keeper = keeper
        self.searches = searches
        self.children: list[Node] = []
        self.closed: list[bytes] = []
        self.known: dict[str, Known] = {}
        self.may_know: set[Node] = set()
        self.sizes = Sizes(self.walk)
        # Before the room was asked.
        self.began = now()
        # By /can/, which leaves no record of somebody who tried to open it.
        self.folder = Step("can", FOLDER, self._may)
        self.document = Step("can", DOCUMENT, self._may)

    def look(self, names: Names) -> Answer:
        """Without a try to list what may not be listed: the page asks beside its own listing, and
        that leaves a record."""
        may = self.walk.note(self.room.ask(self.user, about("GET", "can", names, "r")))
        if may.status != 200:
            return may.answer()
        if not may.rulings().get("r"):
            return Answer(204)
        top, listing, _ = top_of(self.walk, names, "x")
        if listing.status != 200:
            return listing.answer()
        self.children += self.walk.every_child(top, listing)
        # (behind the room's answer, so that it is no older)
        if self.keeper and top.is_open:
            self.known = self.keeper.children(names, self.began)
            self._ask_about_parts(listing)
        for child in self.children:
            if top.is_open:
                self.walk.ask(self.folder if child.is_folder else self.document, child)
            else:
                self.closed.append(child.name)
        self.walk.all()
        self._forget_others(names)
        return told_as_it_comes({
            "at": top.path, "closed": (name.decode() for name in self.closed),
            "rows": self._rows(), "searches": self.searches,
            "shows": self.keeper.shows if self.keeper else None})

    def _forget_others(self, names: Names) -> None:
        """What is known of something must not be told because something else could be read that
        came to its place before the room was asked, and may have gone again since."""
        if self.keeper and self.known:
            there = self.keeper.children(names, self.began)
            self.known = {name: known for name, known in self.known.items()
                          if there.get(name) == known}

    def _ask_about_parts(self, listing: Reply) -> None:
        wholes = {child.name: child for child in self.children if child.has_parts}
        for part, whole in hidden_in(listing.body, MOST + 1).items() if self.known else ():
            known = self.known.get(part.decode())
            self.sizes.ask(wholes[whole], part, known.size if known else None)

    def _may(self, child: Node, reply: Reply) -> None:
        # (nothing is said of what is gone by now)
        if reply.status != 200:
            return
        may = reply.rulings()
        if not (may.get("r") or child.is_folder and may.get("x")):
            self.closed.append(child.name)
        if may_know(may, child.is_folder):
            self.may_know.add(child)

    def _rows(self) -> Iterator[dict[str, object]]:
        for child in self.children:
            name = child.name.decode()
            row: dict[str, object] = {"kind": child.kind, "name": name}
            known = self.known.get(name)
            if known and child in self.may_know and known.is_folder == child.is_folder:
                row.update(shown(self.sizes.of(child, known)))
            yield row


def listed(room: Room, user: str, names: Names, keeper: Keeper | None, searches: bool) -> Answer:
    """Also whether the room's texts are searched, so that the web interface offers that."""
    return Listed(room, user, keeper, searches).look(names)
