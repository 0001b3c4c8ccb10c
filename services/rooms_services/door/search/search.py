"""Documents below a folder whose texts contain words, as far as the caller may see and read.

First the room is asked what the caller may list and read now. Then the keeper of texts is asked
about these documents alone, and about each by itself. So nothing else in the room has to do with
what is answered, in which order, what is asked for it, or how long that takes.

The texts are those of the last night. What isn't as that night's copy has it is read in the name of
the caller and looked through; and where nobody knows what changed since, nothing is answered. What
is shown was read now in the name of the caller too: so lists have it recorded, what is shown of a
text is of these bytes, and it is shown only if they are the bytes in which the words stood."""
import time
from collections.abc import Container, Iterator
from dataclasses import dataclass, field

from rooms_admin.room import in_parts
from rooms_admin.room.in_parts import Manifest

from ...room import large
from ...room.answers import Answer, Stop, told
from ...room.parts import Parts, joined
from ...room.paths import Names
from ...room.room import Ask, Reply, Room
from ...document_texts.extract import LARGEST
from ...document_texts.folding import words_of
from ...document_texts.sink import State
from ...document_texts.store import sum_of
from ..changes.keeper import Keeper, Unknown
from ..folders.find import text_of
from ..folders.walk import MOST, Node, Step, Walk, refuse_long, top_of
from .asking import Asking, Found, no_texts
from .reading import Read, Reading

# How many are shown, and how many of these with their text; what is read for it, in documents and
# bytes, of those that changed and of those that are shown; and seconds to go through folders, and
# for texts of both.
SHOWN, WITH_TEXT, READ, READ_BYTES = 50, 10, 64, 16 << 20
SECONDS, CHANGED_SECONDS, SHOWN_SECONDS = 30.0, 15.0, 10.0
# As many as the answers to one row may have.
_ROW = 8


@dataclass(frozen=True)
class Texts:
    """Where texts are searched: the room's name there, and two sockets."""
    room: str
    keeper: str
    reading: Reading


@dataclass(eq=False)
class Hit:
    node: Node
    count: int
    # Of what the night has; none of what was read now.
    number: int | None = None
    shown: list[str] = field(default_factory=list)

    def told(self) -> dict[str, object]:
        return {"count": self.count, "path": self.node.path,
                **({"text": self.shown} if self.shown else {})}


class Search:
    def __init__(self, room: Room, user: str, words: list[str], texts: Texts, keeper: Keeper
                 ) -> None:
        self.walk = Walk(room, user)
        self.walk.until = time.monotonic() + SECONDS
        self.room, self.user, self.words = room, user, words
        self.texts, self.keeper = texts, keeper
        self.readable: list[Node] = []
        self.can_folder = Step("can", "rx", self._folder)
        self.can_document = Step("can", "r", self._document)
        self.can_part = Step("can", "r", self._part)
        # What has a part's name: whose that would be, and the numbers of those that are closed.
        self.of_part: dict[Node, bytes] = {}
        self.closed: dict[tuple[Node | None, bytes], set[int]] = {}
        self.list = Step("folder", "", self._children)
        self.unread = self.without = 0
        # In milliseconds, before the room was asked.
        self.began = int(time.time() * 1000)

    # What the caller may list and read

    def _children(self, node: Node, reply: Reply) -> None:
        if not node.is_open or reply.status != 200:
            return
        # (parts first: whether one is closed is known before what it is of is asked about)
        for part, whole in large.hidden_in(reply.body, MOST + 1).items():
            self.of_part[one := Node(part, False, node)] = whole
            self.walk.ask(self.can_part, one)
        for child in self.walk.children(node, reply):
            self.walk.ask(self.can_folder if child.is_folder else self.can_document, child)

    def _folder(self, node: Node, reply: Reply) -> None:
        may = reply.rulings()
        node.is_open = may.get("x", False)
        if may.get("r") and node.is_open and self.walk.goes_into(node):
            self.walk.ask(self.list, node)

    def _part(self, part: Node, reply: Reply) -> None:
        whole = self.of_part.pop(part)
        if not reply.rulings().get("r"):
            self.closed.setdefault((part.above, whole), set()).add(int(part.name[-4:]))

    def _document(self, node: Node, reply: Reply) -> None:
        if reply.rulings().get("r"):
            self.readable.append(node)

    def _is_closed(self, node: Node, parts: Container[int]) -> bool:
        """One in parts has no text for who may not read one of them, whatever is in it. Whoever may
        add beside it may lay others there, which are none of its own."""
        return any(one in parts for one in self.closed.get((node.above, node.name), ()))

    def _leave_closed(self, known: dict[int, Node], asking: Asking) -> None:
        beside = [number for number, node in known.items()
                  if (node.above, node.name) in self.closed]
        for number, parts in zip(beside, asking.parts(beside), strict=True):
            if self._is_closed(known[number], range(in_parts.MOST + 1) if parts is None else parts):
                self.without += 1
                del known[number]

    # What is in it

    def look(self, names: Names) -> Answer:
        top, listing, _ = top_of(self.walk, names, "x")
        if listing.status == 409 and listing.why == "wrong-kind":
            return self._one(names)
        if listing.status != 200:
            return listing.answer()
        self._vouched()
        self._children(top, listing)
        self.walk.run(lambda: not (self.walk.is_late() or self.walk.is_too_much()))
        is_all = not (self.walk.asked or self.walk.is_cut or self.walk.is_too_much())
        copy = self._vouched()
        known = self._known()
        if self._vouched() != copy:
            raise no_texts()
        with Asking(self.texts.keeper, self.texts.room, copy) as asking:
            self._leave_closed(known, asking)
            found = asking.match(list(known), self.words)
            hits = self._hits(known, found)
            shown, is_whole = self._shown(hits, asking)
        is_all = is_all and is_whole and not self.unread
        refuse_long(hit.node for hit in shown)
        return told({"all": is_all, "at": top.path, "found": [hit.told() for hit in shown],
                     "night": found.night, "unread": self.unread, "without": self.without})

    def _vouched(self) -> int:
        """The moment of the night's copy, if all changes since then are known."""
        try:
            if self.keeper.catch_up():
                copy = self.keeper.vouched()
                if copy is None:
                    raise no_texts()
                return copy
        except Unknown:
            pass
        raise Stop(503, "busy", "what changed isn't known now", fields={"Retry-After": "10"})

    def _known(self) -> dict[int, Node]:
        """Those that are as the night's copy has them, by their numbers there. The others stay."""
        of_folder: dict[Node | None, list[Node]] = {}
        for node in self.readable:
            of_folder.setdefault(node.above, []).append(node)
        known: dict[int, Node] = {}
        self.readable = []
        for above, nodes in of_folder.items():
            path = above.path if above else "/"
            try:
                numbers = self.keeper.in_copy(tuple(path.split("/")[1:]) if path != "/" else (),
                                              self.began)
            except Unknown:
                raise no_texts() from None
            for node in nodes:
                number = numbers.get(node.name.decode())
                if number is None:
                    self.readable.append(node)
                else:
                    known[number] = node
        return known

    def _hits(self, known: dict[int, Node], found: Found) -> list[Hit]:
        """How often, and then by name: of each document alone."""
        self.without += found.empty
        hits = [Hit(known[number], count, number) for number, count in found.counts.items()
                if count > 0]
        changed = self.readable + [known[number] for number in sorted(found.unknown)]
        bodies = [(node, body) for node, body in self._wholes(changed[:READ])]
        self.unread += len(changed) - len(bodies)
        for (node, _), read in zip(bodies, self._read([body for _, body in bodies],
                                                      CHANGED_SECONDS), strict=True):
            if read.places:
                hits.append(Hit(node, read.places, shown=read.shown))
        return sorted(hits, key=lambda hit: (-hit.count, hit.node.path))

    def _read(self, bodies: list[bytes], seconds: float) -> Iterator[Read]:
        for read in self.texts.reading.each(bodies, self.words, seconds):
            self.unread += read.state is State.LATER
            self.without += read.state not in (State.LATER, State.WHOLE)
            yield read

    def _bodies(self, nodes: list[Node]) -> Iterator[tuple[Node, bytes]]:
        """Read in the caller's name, as many as fit; without any of what is gone or closed by
        now."""
        size = 0
        for at in range(0, len(nodes), _ROW):
            row = nodes[at:at + _ROW]
            asks = [Ask("GET", "doc", self.walk.target(node)) for node in row]
            for node, reply in zip(row, self.room.row(self.user, asks), strict=True):
                self.walk.note(reply)
                body = reply.body if reply.status == 200 else b""
                size += len(body)
                yield node, body
            if size > READ_BYTES:
                return

    def _wholes(self, nodes: list[Node]) -> Iterator[tuple[Node, bytes]]:
        """The same, with all of one in parts, as long as that fits."""
        left = READ_BYTES
        for node, body in self._bodies(nodes):
            manifest = in_parts.read(body)
            if manifest and manifest.size > left:
                continue
            if manifest and self._is_closed(node, manifest.numbers):
                # (it is looked through as one that has nothing in it)
                self.without, manifest, body = self.without + 1, None, b""
            left -= len(body := self._whole(node, manifest) if manifest else body)
            yield node, body

    def _whole(self, node: Node, manifest: Manifest) -> bytes:
        """What nobody can read now has no text."""
        try:
            return joined(Parts(self.room, self.user, _names(node), manifest))
        except Stop as stop:
            if stop.why != "not-whole":
                raise
            self.without += 1
            return b""

    def _shown(self, hits: list[Hit], asking: Asking) -> tuple[list[Hit], bool]:
        """The first ones, each read now; and whether there are no others."""
        first = hits[:SHOWN]
        of_night = [hit for hit in first if hit.number is not None]
        sums = dict(zip((hit.node for hit in of_night), asking.sums(
            [hit.number for hit in of_night if hit.number is not None])))
        bodies = dict(self._bodies([hit.node for hit in of_night]))
        is_same = {node: sum_of(body) == sums[node] for node, body in bodies.items()}
        manifests = [hit for hit in of_night if in_parts.read(bodies.get(hit.node, b""))]
        for hit in manifests:
            # Its list of parts says that it is still the same; all of it isn't read for that.
            if not is_same[hit.node]:
                hit.count = 0
                self.unread += 1
        again = [hit for at, hit in enumerate(first)
                 if hit.node in bodies and hit not in manifests
                 and (at < WITH_TEXT or not is_same[hit.node])]
        for hit, read in zip(again, self.texts.reading.each(
                [bodies[hit.node] for hit in again], self.words, SHOWN_SECONDS), strict=True):
            # (by day nobody reads a scan)
            if not is_same[hit.node] or read.state not in (State.LATER, State.LATE, State.NONE):
                hit.count, hit.shown = read.places, read.shown
                self.unread += read.state is State.LATER
        shown = [hit for hit in first if hit.count and (
            hit.number is None or hit.node in bodies)]
        return (sorted(shown, key=lambda hit: (-hit.count, hit.node.path)),
                len(hits) <= SHOWN and len(bodies) == len(of_night))

    # One document

    def _one(self, names: Names) -> Answer:
        """Of which its text is shown."""
        reply = self.room.ask(self.user, Ask("GET", "doc", self.walk.target(_node(names))))
        self.walk.note(reply)
        if reply.status != 200:
            return reply.answer()
        manifest = in_parts.read(reply.body)
        if manifest and manifest.size > LARGEST:
            return told({"all": True, "at": _node(names).path, "found": [], "night": None,
                         "unread": 0, "without": 1})
        body = self._whole(_node(names), manifest) if manifest else reply.body
        read, = self._read([body], SHOWN_SECONDS)
        found = [Hit(_node(names), read.places, shown=read.shown).told()] if read.places else []
        return told({"all": not self.unread, "at": _node(names).path, "found": found,
                     "night": None, "unread": self.unread, "without": self.without})


def _names(node: Node) -> Names:
    return tuple(node.path.split("/")[1:])


def _node(names: Names) -> Node:
    return Node(("/" + "/".join(names)).encode(), False)


def search(room: Room, user: str, names: Names, query: str, texts: Texts | None,
           keeper: Keeper | None) -> Answer:
    if texts is None or keeper is None:
        raise Stop(404, "no-search", "texts of this room aren't searched")
    words = words_of(text_of(query))
    if not words:
        raise Stop(400, "bad-query", "one to eight words, each of two letters and more")
    try:
        return Search(room, user, words, texts, keeper).look(names)
    except Stop as stop:
        # A night's texts are there some seconds before its list is taken by itself.
        if stop.why != "no-texts" or not keeper.take_night():
            raise
    return Search(room, user, words, texts, keeper).look(names)
