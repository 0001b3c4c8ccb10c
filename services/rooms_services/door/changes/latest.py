"""The newest documents below a folder that the caller may see in a listing and read.

From that folder down, each folder is asked for in the caller's name whose way is open to them (r,
x); of these the newest documents are looked at, and each is asked for. So nothing is asked or read
behind a folder that is closed: no record says of them that they tried it, and neither the answer
nor the time it takes tells what changed there."""
import heapq
from collections.abc import Iterator
from itertools import islice

from rooms_admin.room import in_parts

from ...room.answers import Answer, Stop, told
from ...room.paths import Names
from ...room.room import Reply, Room, too_many
from ..folders.walk import Node, Step, Walk, refuse_long, too_late, top_of
from .keeper import Keeper, Unknown, now
from .listed import DOCUMENT, Sizes, may_know, shown
from .store import Inside, Newest

MOST = 50
# Folders that are looked up at once; and parts of documents, of all that are told.
SOME, MOST_PARTS = 1000, 20_000


class Latest:
    def __init__(self, room: Room, user: str, keeper: Keeper) -> None:
        self.walk = Walk(room, user)
        self.keeper = keeper
        # Folders that are open to the caller, and their numbers.
        self.open: list[Node] = []
        self.numbers: dict[Node, int] = {}
        self.folder = Step("can", "rx", self._may)
        self.allowed: set[Node] = set()
        self.document = Step("can", DOCUMENT, self._may_know)
        # Before the room was asked.
        self.began = now()

    def look(self, names: Names) -> Answer:
        top, listing, may = top_of(self.walk, names, "rx")
        if listing.status != 200:
            return listing.answer()
        number = self.keeper.find(names)
        if may.get("r") and may.get("x") and number is not None:
            self.numbers[top] = number
            self._open(top)
            self.walk.all()
        return told({"at": top.path, "found": self._found(), "shows": self.keeper.shows})

    def _may(self, folder: Node, reply: Reply) -> None:
        may = reply.rulings()
        if may.get("r") and may.get("x") and self.walk.goes_into(folder):
            self._open(folder)

    def _open(self, folder: Node) -> None:
        self.open.append(folder)
        for inside in self._inside(self.numbers[folder]):
            child = Node(inside.name.encode(), True, folder)
            self.walk.seen += 1
            self.walk.named += len(child.name)
            if self.walk.is_too_much():
                raise too_many()
            self.numbers[child] = inside.id
            self.walk.ask(self.folder, child)

    def _inside(self, folder: int) -> Iterator[Inside]:
        """There may be very many."""
        after = ""
        while some := self.keeper.folders(folder, after, SOME):
            yield from some
            after = some[-1].name

    def _newest(self) -> Iterator[tuple[Node, Newest]]:
        """From the newest on. There may be tens of thousands of folders, so of each no more is kept
        than what its newest one is sorted by."""
        heap: list[tuple[int, int, int]] = []
        for number in range(len(self.open)):
            self._push(heap, number, None)
        while heap:
            at, one, number = heapq.heappop(heap)
            folder = self.open[number]
            for found in self.keeper.newest(self.numbers[folder], (-at, 1 - one), 1):
                if not in_parts.whole_of(found.name):
                    yield Node(found.name.encode(), False, folder), found
                self._push(heap, number, (found.known.at or 0, found.id))
            if self.walk.is_late():
                raise too_late()

    def _push(self, heap: list[tuple[int, int, int]], number: int,
              after: tuple[int, int] | None) -> None:
        for one in self.keeper.newest(self.numbers[self.open[number]], after, 1):
            heapq.heappush(heap, (-(one.known.at or 0), -one.id, number))

    def _may_know(self, document: Node, reply: Reply) -> None:
        if may_know(reply.rulings(), False):
            self.allowed.add(document)

    def _found(self) -> list[dict[str, object]]:
        newest = self._newest()
        found: list[tuple[Node, Newest]] = []
        while len(found) < MOST and (some := list(islice(newest, MOST))):
            for node, _ in some:
                self.walk.ask(self.document, node)
            self.walk.all()
            found += [(node, one) for node, one in some if node in self.allowed]
        del found[MOST:]
        refuse_long(node for node, _ in found)
        sizes = self._sizes(found)
        return [{"path": node.path, **shown(sizes.of(node, one.known))} for node, one in found
                if self._is_still(node, one)]

    def _is_still(self, node: Node, one: Newest) -> bool:
        """Else the room was asked about something else that came to its place, or to that of a
        folder above it, whether or not that is there still."""
        return self.keeper.stood(tuple(node.path.split("/")[1:]), one.id, self.began)

    def _sizes(self, found: list[tuple[Node, Newest]]) -> Sizes:
        sizes = Sizes(self.walk)
        left = MOST_PARTS
        for node, one in found:
            assert node.above
            parts = [(name, size) for name, size in self.keeper.named(
                self.numbers[node.above], one.name + in_parts.MARK, left + 1)
                if in_parts.whole_of(name) == one.name]
            left -= len(parts)
            if left < 0:
                left = 0
                sizes.forget(node)
                continue
            for name, size in parts:
                sizes.ask(node, name.encode(), size)
        self.walk.all()
        return sizes


def latest(room: Room, user: str, names: Names, keeper: Keeper | None) -> Answer:
    if keeper is None:
        raise Stop(404, "no-dates", "no dates are kept of this room")
    try:
        if keeper.catch_up():
            return Latest(room, user, keeper).look(names)
    except Unknown:
        pass
    raise Stop(503, "busy", "what changed isn't known now", fields={"Retry-After": "10"})
