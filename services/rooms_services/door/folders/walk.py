"""Goes through a folder and all below it by rows of questions. While the room answers one row, the
answers to the one before are looked at."""
import time
from collections import deque
from collections.abc import Callable, Iterable, Iterator
from dataclasses import dataclass
from typing import NamedTuple

from ...room.answers import Stop
from ...room.paths import Names, escaped, escaped_name, shown
from ...room.large import hidden_in
from ...room.room import Filling, Reply, Room, Row, listed, question, too_many

# No request looks at more, or at longer names together, or for longer.
MOST = 80_000
MOST_NAMED = 8_388_608
SECONDS = 45.0
# How far down a walk looks into folders: each question names the whole path, and one level comes
# after the other. So whoever may add thousands in one another keeps nobody waiting.
DEEPEST = 100
# How many bytes the paths in one answer have, which may be many times those of their names.
MOST_TOLD = 33_554_432
# Bytes of memory that an object takes, and each byte of its name, of which a letter of another one
# makes Python keep four.
EACH, LETTER = 450, 5
# What stands in a listing for each object.
_OBJECT = b'{"kind":'
# How many folders' addresses are remembered.
REMEMBERED = 256


@dataclass(slots=True, eq=False)
class Node:
    """An object below the folder from which a walk begins. It has its name and what it is in, and
    not its path: there may be tens of thousands of long ones."""
    name: bytes
    is_folder: bool
    above: "Node | None" = None
    # Whether the caller passes through it: else nothing in it is asked about.
    is_open: bool = False
    # Whether parts of it lie beside it, and so it may be a document of more than 1 MiB.
    has_parts: bool = False
    # As far as they may be read.
    list: bytes | None = None
    owner: str | None = None
    group: str | None = None
    # Below where the walk began.
    depth: int = 0

    def __post_init__(self) -> None:
        if self.above:
            self.depth = self.above.depth + 1

    @property
    def kind(self) -> str:
        return "folder" if self.is_folder else "document"

    def names(self) -> tuple[bytes, ...]:
        """From the folder where the walk began, whose own is its whole path."""
        found = [self.name]
        node = self.above
        while node:
            found.append(node.name)
            node = node.above
        return tuple(reversed(found))

    @property
    def path(self) -> str:
        top, *rest = self.names()
        return b"/".join([top.rstrip(b"/"), *rest]).decode() if rest else top.decode()


class Step(NamedTuple):
    """What is asked about a node, and what is done then."""
    route: str
    query: str
    then: Callable[[Node, Reply], None]


class Walk:
    def __init__(self, room: Room, user: str) -> None:
        self.room = room
        self.user = user
        self.seen = 0
        # Whether there was more to look at further down.
        self.is_cut = False
        self.named = 0
        self._held = 0
        self.asked: deque[tuple[Step, Node]] = deque()
        self.until = time.monotonic() + SECONDS
        # Addresses of the folders that were asked about last, and of the last object.
        self._targets: dict[Node | None, str] = {}
        self._last: tuple[Node | None, str] = None, ""

    def note(self, reply: Reply) -> Reply:
        return self.room.denials.note(self.user, reply)

    def ask(self, step: Step, node: Node) -> None:
        self.asked.append((step, node))

    def target(self, node: Node) -> str:
        """Its address, escaped."""
        # (most are documents, each asked about a few times)
        if self._last[0] is not node:
            self._last = node, self._target(node)
        return self._last[1]

    def _target(self, node: Node) -> str:
        if not node.is_folder and (known := self._targets.get(node.above)) is not None:
            return f"{known}/{escaped_name(node.name.decode())}"
        way: list[Node] = []
        above: Node | None = node
        while above and above.above and above not in self._targets:
            way.append(above)
            above = above.above
        assert above
        found = self._targets[above] if above.above else escaped(_names_of(above))
        for one in reversed(way):
            found = f"{found}/{escaped_name(one.name.decode())}".removeprefix("/")
            if one.is_folder:
                self._targets[one] = found
                if len(self._targets) > REMEMBERED:
                    del self._targets[next(iter(self._targets))]
        return found

    def _next(self) -> tuple[list[bytes], list[tuple[Step, Node]]]:
        row = Filling()
        its: list[tuple[Step, Node]] = []
        while self.asked:
            step, node = self.asked[0]
            message = question(self.user, step.route, self.target(node), step.query)
            if not row.takes(message, step.route == "folder"):
                break
            its.append(self.asked.popleft())
        return row.messages, its

    def is_late(self) -> bool:
        return time.monotonic() > self.until

    def goes_into(self, folder: Node) -> bool:
        """Whether what is in it is looked at."""
        is_deep = folder.depth >= DEEPEST
        self.is_cut = self.is_cut or is_deep
        return not is_deep

    def is_too_much(self) -> bool:
        return self.seen > MOST or self.named > MOST_NAMED

    def _hold(self, whole: bytearray) -> None:
        """What it has by now, and what becomes of these answers. It waits here where all have too
        much together."""
        more = whole.count(_OBJECT)
        size = EACH * (self.seen + more) + LETTER * (self.named + (len(whole) if more else 0))
        if size > self._held:
            self.room.held.take(size - self._held, max(0.0, self.until - time.monotonic()))
            self._held = size

    def run(self, goes_on: Callable[[], bool] = lambda: True) -> None:
        """Until nothing is left to be asked, or it needn't go on."""
        under_way: Row | None = None
        its: list[tuple[Step, Node]] = []
        # (the next row is there before the room waits for it)
        row, its_next = self._next()
        try:
            while (row or under_way) and goes_on():
                whole = under_way.answered() if under_way else bytearray()
                # (no row is under way, for which others would wait)
                self._hold(whole)
                before, its_before = under_way, its
                under_way, its = Row(self.room, row) if row else None, its_next
                row, its_next = [], []
                if before:
                    for (step, node), reply in zip(its_before, before.replies(whole), strict=True):
                        if reply.status == 403:
                            self.note(reply)
                        step.then(node, reply)
                row, its_next = self._next()
        finally:
            self.asked.extendleft(reversed(its_next))
            if under_way:
                under_way.drop()
                # (it was sent, and nobody looks at its answers)
                self.asked.extendleft(reversed(its))

    def all(self) -> None:
        """Until nothing is left."""
        self.run(lambda: not self.is_late())
        if self.asked:
            raise too_late()

    def children(self, node: Node, reply: Reply) -> Iterator[Node]:
        """Of a listing. What is gone by now, or can't be listed, has none. Parts of a document are
        no documents of their own."""
        if reply.status != 200:
            return
        parts = hidden_in(reply.body, MOST + 1)
        wholes = set(parts.values())
        for name, is_folder in listed(reply.body, MOST + 1):
            self.seen += 1
            self.named += len(name)
            if is_folder or name not in parts:
                yield Node(name, is_folder, node, has_parts=name in wholes)
            if self.is_too_much():
                return

    def every_child(self, node: Node, reply: Reply) -> Iterator[Node]:
        """The same, where nothing may be left out."""
        for child in self.children(node, reply):
            if self.is_too_much():
                raise too_many()
            yield child


def _names_of(top: Node) -> Names:
    return tuple(top.name.decode().split("/")[1:]) if top.name != b"/" else ()


def top_of(walk: Walk, names: Names, bits: str) -> tuple[Node, Reply, dict[str, bool]]:
    """The folder from which a walk begins, its listing, and which of these rights the caller has
    there. The room says itself why not."""
    top = Node(shown(names).encode(), True)
    got: list[Reply] = []

    def then(_node: Node, reply: Reply) -> None:
        got.append(reply)
    walk.ask(Step("can", bits, then), top)
    walk.ask(Step("folder", "", then), top)
    walk.run()
    may = got[0].rulings()
    top.is_open = may.get("x", False)
    return top, got[1], may


def refuse_long(told: Iterable[Node]) -> None:
    """Of so many paths an answer isn't begun."""
    size = before = 0
    above: Node | None = None
    for node in told:
        if node.above is not above:
            above = node.above
            before = len(above.path.encode()) if above else 0
        size += before + len(node.name) + 1
        if size > MOST_TOLD:
            raise too_many()


def too_late() -> Stop:
    return Stop(413, "too-long", "it takes too long to look at all of it: ask further down")
