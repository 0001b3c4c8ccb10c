"""A request by WebDAV, and what stands before each change: conditions and locks."""
from collections.abc import Callable, Iterable, Iterator
from contextlib import contextmanager

from rooms_admin.room.in_parts import LARGEST

from . import objects, trees
from ...room.answers import Stop
from ...room.paths import Names, shown
from ...room.room import Ask, Reply, Room, Talk, about, rows
from ...room.space import Space
from ...room.tags import names_tag
from ..changes.keeper import Keeper
from ..large.replacing import Upload, may_write
from .conditions import Condition, Listed, read_if
from .dates import Dates
from .kept import Kept
from .locks import Lock, Locks
from .objects import Document, Folder, stop_of
from .paths import other_names
from .tasks import Tasks
from .trees import Spend

# How many bytes the room may answer for the conditions of one request, while it answers nobody
# else: enough for two documents.
MOST_COMPARED = 2 * LARGEST + 65_536
# How many bytes one request copies, with lists.
MOST_COPIED = 134_217_728


class Call:
    """Of one user. What it asks alone goes over one connection, between which and the change
    nobody comes, neither by this door nor by another way."""

    def __init__(self, room: Room, user: str, method: str, place: tuple[str, Names, bool],
                 field: Callable[[str], str], body: bytes, upload: Upload | None = None) -> None:
        """`upload` stands for a body that is larger than a document of the room may be."""
        self.upload = upload
        self.room = room
        self.user = user
        self.method = method
        # What stands before each path; the path; whether a slash stands at its end.
        self.prefix, self.names, self.slash = place
        self.field = field
        self.body = body
        # What the field If names, of the caller's own locks.
        self.tokens: frozenset[str] = frozenset()
        self._talk: Talk | None = None

    @contextmanager
    def alone(self) -> Iterator[None]:
        with self.room.talk(self.user) as talk:
            self._talk = talk
            try:
                yield
            finally:
                self._talk = None

    @property
    def taken(self) -> int:
        """How many bytes the room has answered while nobody came between."""
        return self._talk.taken if self._talk else 0

    def rest(self) -> bool:
        """Whether others were answered."""
        return self._talk is not None and self._talk.rest()

    def ask(self, ask: Ask) -> Reply:
        return self.room.denials.note(
            self.user, self._talk.ask(ask) if self._talk else self.room.ask(self.user, ask))

    def way(self, names: Names) -> tuple[bool, bool]:
        """Whether the way there is open, and whether something is there. The caller asked for
        nothing there, so no denial of it counts: how many they have left would tell of a lock."""
        can = about("GET", "can", names)
        reply = self._talk.ask(can) if self._talk else self.room.ask(self.user, can)
        is_there = reply.status == 200
        return is_there or reply.status == 404 and objects.is_about(reply, names), is_there

    def row(self, asks: list[Ask]) -> list[Reply]:
        """Only of what changes nothing."""
        if self._talk:
            return [self.ask(ask) for ask in asks]
        return [self.room.denials.note(self.user, reply)
                for reply in self.room.row(self.user, asks)]

    def each(self, asks: Iterable[Ask]) -> Iterator[Reply]:
        for row in rows(self.user, asks):
            yield from self.row(row)


def asks_for(room: Room, user: str) -> Call:
    """Somebody who asks in a user's name, without a request of theirs."""
    return Call(room, user, "", ("", (), False), lambda name: "", b"")


class Drive:
    """What only this door knows: locks, and when it saw which bytes."""

    def __init__(self, kept: Kept, full: str = "", keeper: Keeper | None = None,
                 largest: int = LARGEST) -> None:
        """`full` is the path of a file that is there while the room takes no more; `keeper` is told
        of each change, where there is one; `largest` is how many bytes a document may have."""
        self.largest = max(largest, LARGEST)
        self.keeper = keeper
        self.locks = Locks(kept)
        self.tasks = Tasks(kept)
        self.space = Space(full)
        self.dates = Dates()

    def look(self, call: Call, names: Names, with_bytes: bool = False,
             with_children: bool = False) -> Folder | Document | None:
        found = objects.look(call, names, with_bytes, with_children)
        if found is None and self.pending(call.user, names):
            return Document(b"")
        return found

    def pending(self, user: str, names: Names) -> Lock | None:
        """A lock on a name that the room doesn't have yet: it is an empty document to who has the
        lock. It comes to the room with its bytes, or when the lock is given back. So who may add
        and not change can add with a program that locks first."""
        return next((lock for lock in self.locks.covering(names)
                     if lock.names == names and lock.pending and lock.user == user), None)

    def settle(self, call: Call, names: Names) -> None:
        """The empty document that a lock on a name promised comes to the room."""
        lock = self.pending(call.user, names)
        if lock is None or lock.refused or objects.look(call, names, False) is not None:
            return
        reply = call.ask(about("PUT", "doc", names))
        if reply.status not in (201, 204):
            raise stop_of(reply, {404: 409})
        self.came(call, names)

    def came(self, call: Call, names: Names) -> None:
        """By who has the lock: it is one of what is there."""
        if lock := self.pending(call.user, names):
            lock.pending = False
            self.locks.keep(lock)

    def spending(self) -> Spend:
        """A copy is many documents in one request, and the room may be full after a few."""
        left = MOST_COPIED

        def spend(size: int) -> None:
            nonlocal left
            left -= size
            if left < 0:
                raise Stop(413, "too-large",
                           f"more than {MOST_COPIED >> 20} MiB: copy it in parts")
            self.space.refuse_full()
        return spend

    def destination(self, call: Call) -> Names:
        address = call.field("Destination")
        if not address:
            raise Stop(400, "bad-address", "no Destination")
        return other_names(address, call.field("Host"), call.prefix)

    # Conditions

    def heed(self, call: Call) -> None:
        """Ends the request with 412 if its conditions don't hold, and notes the locks it names."""
        if text := call.field("If"):
            lists = read_if(text)
            # Nobody comes between, so that one look at each document is enough.
            tags: dict[Names, str] = {}
            if not any(self._holds(call, listed, tags) for listed in lists):
                raise Stop(412, "changed", "a condition of the field If doesn't hold")
            named = {condition.token for listed in lists for condition in listed.conditions}
            call.tokens = frozenset(token for token in named if self.locks.of(call.user, token))
        match, none = call.field("If-Match"), call.field("If-None-Match")
        if match or none:
            tag = self._tag(call, call.names)
            if match and not (tag and names_tag(match, tag, False)) \
                    or none and tag and names_tag(none, tag, True):
                raise Stop(412, "changed", "the document isn't the one that the request speaks of")

    def _tag(self, call: Call, names: Names) -> str:
        """Empty if nothing is there; of what can't be read, no tag that anybody can name."""
        found = self.look(call, names, True)
        if call.taken > MOST_COMPARED:
            raise Stop(400, "bad-condition", "conditions of too much at once")
        if found is None:
            return ""
        if isinstance(found, Document) and found.body is not None:
            return objects.tag_for(found.body)
        return "unknown"

    def _holds(self, call: Call, listed: Listed, tags: dict[Names, str]) -> bool:
        names = call.names
        if listed.address is not None:
            try:
                names = other_names(listed.address, call.field("Host"), call.prefix)
            except Stop:
                return False
        return all(self._is(call, names, condition, tags) == condition.positive
                   for condition in listed.conditions)

    def _is(self, call: Call, names: Names, condition: Condition, tags: dict[Names, str]) -> bool:
        if condition.tag:
            if names not in tags:
                tags[names] = self._tag(call, names)
            return condition.tag == tags[names]
        lock = self.locks.of(call.user, condition.token)
        return lock is not None and lock.covers(names)

    # Locks

    def guard(self, call: Call, names: Names, member: bool = False, tree: bool = False,
              late: bool = False) -> None:
        """Ends the request if a lock whose token it doesn't name is in the way: on the object; with
        `member`, on the folder that gains or loses it; with `tree`, on anything below. With `late`
        what other requests have reserved meanwhile isn't in the way."""
        there = self.locks.covering(names)
        if member and names:
            there += [lock for lock in self.locks.covering(names[:-1]) if not lock.deep]
        if tree:
            there += self.locks.below(names)
        if there and not call.way(names)[0]:
            # The room says what stands against it, in its own order: nobody learns of a lock behind
            # a folder that denies them the way.
            return
        # (what is reserved comes first: it may be what a pending one was for)
        for lock in sorted(there, key=lambda one: not one.passing):
            if late and lock.passing or lock.token in call.tokens or lock.shared and any(
                    other.token in call.tokens for other in there if other.names == lock.names):
                continue
            if not late and self.is_over(call, lock):
                continue
            if told := self._told(call, names, lock):
                raise Stop(423, "locked", told)

    def _told(self, call: Call, names: Names, lock: Lock) -> str:
        """A lock is named where the way to it is open. Of another one nobody is told who may not
        move or remove what it is in, as nobody may the root: the room says that, as where nothing
        is locked."""
        if call.way(lock.names)[0]:
            return f"locked by {lock.user}: {lock.path}"
        if not names or trees.kept(call, [(names, True)]):
            return ""
        return f"something in it is locked: {shown(names)}"

    def is_over(self, call: Call, lock: Lock) -> bool:
        """Ends a lock of a name at which something is by now, that came by another way: it took no
        right to that."""
        is_over = lock.pending and call.way(lock.names)[1]
        if is_over:
            self.locks.end(lock)
        return is_over

    def told_in(self, call: Call, names: Names) -> dict[str, list[Lock]]:
        """The locks of what is in a folder, by its names. Whoever sees names in a folder and comes
        no further isn't told of them."""
        found: dict[str, list[Lock]] = {}
        if call.ask(about("GET", "can", names, "x")).rulings().get("x"):
            for lock in self.locks.below(names):
                if len(lock.names) == len(names) + 1:
                    found.setdefault(lock.names[-1], []).append(lock)
        return found

    def to_write(self, call: Call, names: Names) -> tuple[Names, ...]:
        """What is reserved of a document that is written piece by piece: nothing for who may not
        write it, whom the room denies it then, so that they keep nobody from it meanwhile."""
        return (names,) if may_write(call.ask, names).rulings().get("w") else ()

    @contextmanager
    def reserved(self, call: Call, *places: Names) -> Iterator[None]:
        """Nobody changes what is there while it is removed or filled piece by piece."""
        held = [self.locks.reserve(call.user, names) for names in places]
        call.tokens |= {lock.token for lock in held}
        try:
            for names in places:
                # Others were answered since it was looked whether a lock is in the way.
                self.guard(call, names, tree=True, late=True)
            yield
        finally:
            for lock in held:
                self.locks.end(lock)
