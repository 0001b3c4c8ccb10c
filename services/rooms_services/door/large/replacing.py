"""A document of more than 1 MiB, written part by part.

Its parts are written to where none is, and the list of parts last, in one request of the room: so
at each moment the room has the whole of the document before or the whole of the one after. What
somebody who is refused, or a fault, leaves behind is taken away again, as far as the caller may.

Parts are made by whoever makes the document, or owns it. So each has its owner and its lists, and
nobody can do with a part what they couldn't do with the document."""
from collections.abc import Callable, Iterable, Iterator
from itertools import islice
from typing import TypeVar

from rooms_admin.room import in_parts
from rooms_admin.room.in_parts import LARGEST, Manifest

from ...room import large
from ...room.answers import Answer, Stop
from ...room.large import Asks, Rest, Same
from ...room.parts import Parts
from ...room.paths import Names, shown
from ...room.room import Ask, Reply, Room, Talk, about
from ...room.space import Space
from ...room.tags import tag_of
from ..folders.matched import Against, Condition, against, told
from ..folders.would import Would
from .held import alone

# Ends the request unless its condition holds. What is there, or nothing.
Look = Callable[[Talk], Reply | None]
Done = TypeVar("Done")
# What two objects have to have alike, so that everybody has the same rights to both.
ALIKE = ("dacl", "sacl", "attr")


class Upload:
    """The body of a request, taken piece by piece."""

    def __init__(self, size: int, take: Callable[[int], bytes], space: Space) -> None:
        """The room may be full before all of it is there."""
        self.size = size
        self.space = space
        self._take = take
        self._sum = in_parts.Sum()

    @property
    def digest(self) -> str:
        return self._sum.digest

    def pieces(self) -> Iterator[bytes]:
        for index in range(in_parts.count_for(self.size)):
            piece = self._take(min(LARGEST, self.size - index * LARGEST))
            self.space.refuse_full()
            yield self._sum.add(piece)


def refused(reply: Reply, names: Names, number: int) -> Stop:
    """What the room says of a part is told of the document."""
    told = {name: value for name, value in reply.told.items() if name not in ("at", "why")}
    is_its_own = reply.at == shown(large.part(names, number))
    return Stop(reply.status, reply.why, at=shown(names) if is_its_own else reply.at, more=told)


class Untaken(Upload):
    """One of which nothing has come."""

    def __init__(self, size: int, space: Space) -> None:
        super().__init__(size, self._refuse, space)

    def _refuse(self, _: int) -> bytes:
        raise Stop(503, "busy", "its rights have just changed; nothing was done",
                   fields={"Retry-After": "1"})


class Copied(Upload):
    """Another document of the room."""

    def __init__(self, parts: Parts, space: Space) -> None:
        some = iter(parts)
        super().__init__(parts.manifest.size, lambda _: next(some), space)


def may_write(ask: Asks, names: Names) -> Reply:
    """What the room says of the right to write it, or to add it where nothing is."""
    may = ask(about("GET", "can", names, "w"))
    is_new = may.status == 404 and may.at == shown(names)
    return ask(about("GET", "can", names[:-1], "w")) if is_new else may


class Writing:
    def __init__(self, room: Room, user: str, names: Names, upload: Upload, look: Look) -> None:
        self.room, self.user, self.names = room, user, names
        self.upload, self.look = upload, look
        # What was there, or nothing; the numbers of parts that were made, and of those that were
        # written to.
        self.before: bytes | None = None
        self.made: list[int] = []
        self.written: list[int] = []

    def all(self) -> Answer:
        return self._or_back(self._all)

    def _or_back(self, does: Callable[[], Done]) -> Done:
        try:
            return does()
        except BaseException:
            self._take_back()
            raise

    def _seen(self) -> tuple[Reply | None, Manifest | None, int]:
        """What is there, its list of parts, and how many parts there are."""
        if in_parts.places_for(self.upload.size) > in_parts.MOST:
            raise Stop(413, "too-large", "a document of too many parts")
        with self.room.talk(self.user) as talk:
            before = self.look(talk)
        self.before = before.body if before else None
        # (behind the look, which ends what is about the root)
        large.refuse_long_name(self.names)
        # (most are new, and have none)
        is_any = large.is_there(self._ask, large.part(self.names, 1))
        count = large.count_by_rows(self.room, self.user, self.names) if is_any else 0
        if before is None and count:
            raise Stop(409, "left-over", "parts of an upload that was broken off are there",
                       shown(self.names))
        return before, in_parts.read(before.body) if before else None, count

    def prepared(self) -> None:
        """Before any byte is sent: what stands against it."""
        self._or_back(self._prepared)

    def _prepared(self) -> None:
        before, old, count = self._allowed()
        if before:
            self._free(old, count)

    def _allowed(self) -> tuple[Reply | None, Manifest | None, int]:
        """What was seen, unless the caller may not write it, or the room lacks the place: how much
        is left is told to nobody else."""
        before, old, count = self._seen()
        with self.room.talk(self.user) as talk:
            may = may_write(talk.ask, self.names)
            if may.status == 200 and not may.rulings().get("w"):
                # The room's own denial, which is recorded as that of any document.
                may = talk.ask(about("PUT", "doc", self.names, body=before.body if before else b""))
            if may.status != 200:
                raise Against(may.answer())
        self.upload.space.refuse(self.upload.size)
        return before, old, count

    def _all(self) -> Answer:
        before, old, count = self._allowed()
        now = self._over(self._free(old, count)) if before else self._new()
        reply = self._named(now)
        self._drop_old(old, now)
        return Answer(reply.status, fields={"ETag": now.tag})

    def _ask(self, ask: Ask) -> Reply:
        return self.room.ask(self.user, ask)

    def _refuse_another(self, talk: Talk) -> None:
        """Before a part is written to over this connection."""
        try:
            large.same_as(talk.ask, self.names, self.before)()
        except large.Another:
            self.look(talk)
            raise

    def _drop_old(self, old: Manifest | None, now: Manifest) -> None:
        """All is done: where another document has come to the path, its parts are left alone."""
        if not old:
            return
        with self.room.talk(self.user) as talk:
            empty_of(talk, self.names, now.text(), old.numbers)

    def _named(self, now: Manifest) -> Reply:
        """The one request that all depends on. Where no answer comes, nothing is taken back: it may
        have been done."""
        with self.room.talk(self.user) as talk:
            is_whole = all(large.is_there(talk.ask, large.part(self.names, number)) for number
                           in large.resting(sorted(now.numbers), talk.rest))
            self.look(talk)
            self._refuse_another(talk)
            if not is_whole:
                raise Stop(503, "busy", "somebody removed a part of it meanwhile; nothing was done",
                           fields={"Retry-After": "1"})
            made, written = self.made, self.written
            self.made, self.written = [], []
            reply = talk.ask(about("PUT", "doc", self.names, body=now.text()))
        if reply.status not in (201, 204):
            self.made, self.written = made, written
            raise refused(reply, self.names, 0)
        return reply

    def _make(self, number: int, body: bytes = b"") -> None:
        place = large.part(self.names, number)
        with self.room.talk(self.user) as talk:
            self._refuse_another(talk)
            if large.is_there(talk.ask, place):
                raise Stop(409, "left-over", "something has the name of a part", shown(place))
            reply = talk.ask(about("PUT", "doc", place, body=body))
        if reply.status != 201:
            raise refused(reply, self.names, number)
        self.made.append(number)

    def _new(self) -> Manifest:
        """Whoever may add needn't be allowed to change: each is made with its bytes."""
        parts = []
        for number, piece in enumerate(self.upload.pieces(), 1):
            self._make(number, piece)
            parts.append((number, in_parts.digest_of(piece)))
        for number in range(len(parts) + 1, in_parts.places_for(self.upload.size) + 1):
            self._make(number)
        return Manifest(self.upload.size, self.upload.digest, tuple(parts))

    def _free(self, old: Manifest | None, count: int) -> list[int]:
        """The numbers of enough parts that are free, and are as the document is: who may add there
        may have laid others beside it."""
        used = old.numbers if old else frozenset()
        needed = in_parts.count_for(self.upload.size)
        free = list(islice((number for number in range(1, count + 1)
                            if number not in used and self._is_its_own(number)), needed))
        if len(free) < needed:
            whole = max(count + needed - len(free), in_parts.places_for(self.upload.size))
            free += self._added(range(count + 1, min(whole, in_parts.MOST) + 1))
        if len(free) < needed:
            raise self._no_place()
        return free

    def _over(self, free: list[int]) -> Manifest:
        """Whoever may change needn't be allowed to add: it goes to the parts that are free."""
        parts = []
        for number, piece in zip(free, self.upload.pieces()):
            place = large.part(self.names, number)
            with self.room.talk(self.user) as talk:
                self._refuse_another(talk)
                if not self._is_alike(talk.ask, place):
                    raise Stop(409, "left-over", "something has the name of a part", shown(place))
                self.written.append(number)
                reply = talk.ask(about("PUT", "doc", place, body=piece))
            if reply.status != 204:
                raise refused(reply, self.names, number)
            parts.append((number, in_parts.digest_of(piece)))
        return Manifest(self.upload.size, self.upload.digest, tuple(parts))

    def _added(self, numbers: range) -> range:
        """Empty ones, which are as the document is, or else go at once: nothing is written to what
        somebody could read or change who may not do that with the document."""
        for number in numbers:
            self._make(number)
            if not self._is_its_own(number):
                self._liken(number)
        return numbers

    def _said(self, ask: Asks, names: Names) -> list[bytes] | None:
        """What everybody's rights to it come from, if the caller may read that."""
        may = ask(about("GET", "can", names, "ct")).rulings()
        if not (may.get("c") and may.get("t")):
            return None
        return [ask(about("GET", which, names)).body for which in ALIKE]

    def _is_its_own(self, number: int) -> bool:
        """Whether everybody has the same rights to this part."""
        with self.room.talk(self.user) as talk:
            return self._is_alike(talk.ask, large.part(self.names, number))

    def _is_alike(self, ask: Asks, place: Names) -> bool:
        wanted = self._said(ask, self.names)
        if wanted is None:
            raise self._no_place()
        return self._said(ask, place) == wanted

    def _liken(self, number: int) -> None:
        """By who manages it. The lists come first: they may be what lets somebody give it away."""
        place = large.part(self.names, number)
        with self.room.talk(self.user) as talk:
            self._refuse_another(talk)
            wanted = self._said(talk.ask, self.names)
            if wanted is None or not all(
                    talk.ask(about("GET", "can", place, "Co")).rulings().values()):
                raise self._no_place()
            for which, text in zip(ALIKE, wanted, strict=True):
                talk.ask(about("PUT", which, place, body=text))
        if not self._is_its_own(number):
            raise self._no_place()

    def _no_place(self) -> Stop:
        return Stop(409, "no-place", "it has too few parts for a document of this length, and only "
                    "its owner, or who manages it and its folder, can add some", shown(self.names))

    def _take_back(self) -> None:
        """As far as the room answers and the caller may, and the document is the one that it was.
        From the last on, so that their numbers have no gap."""
        if not self.made and not self.written:
            return
        try:
            with self.room.talk(self.user) as talk:
                same = large.same_as(talk.ask, self.names, self.before)
                same()
                for number in large.resting(sorted(self.made, reverse=True), talk.rest, same):
                    place = large.part(self.names, number)
                    if talk.ask(about("DELETE", "object", place)).status != 204:
                        self.written.append(number)
                empty_of(talk, self.names, self.before, self.written)
        except Stop:
            pass


def empty_of(talk: Talk, names: Names, seen: bytes | None, numbers: Iterable[int]) -> None:
    """As long as the document is this one."""
    same = large.same_as(talk.ask, names, seen)
    try:
        same()
    except large.Another:
        return
    empty(talk.ask, names, numbers, talk.rest, same)


def empty(ask: Asks, names: Names, numbers: Iterable[int], rest: Rest | None = None,
          same: Same | None = None) -> None:
    """What was replaced is gone, or stays in unused parts if another document has come to the path.
    Whoever may write the document may do that; what has no more than the name of a part stays."""
    try:
        for number in large.resting(sorted(numbers), rest, same):
            place = large.part(names, number)
            if ask(about("GET", "can", place, "w")).rulings().get("w"):
                ask(about("PUT", "doc", place))
    except large.Another:
        pass


def put_small(ask: Asks, names: Names, body: bytes, rest: Rest | None = None) -> Reply:
    """One of at most 1 MiB. The parts of one that was there before stay, and are empty."""
    has_parts = bool(names) and large.is_there(ask, large.part(names, 1))
    used = _used(ask, names) if has_parts else ()
    reply = ask(about("PUT", "doc", names, body=body))
    if reply.status in (201, 204):
        # (they are counted behind it, since there may be very many)
        empty(ask, names, range(1, large.count(ask, names, rest) + 1) if used is None else used,
              rest, None if used is None else large.same_as(ask, names, body))
    return reply


def _used(ask: Asks, names: Names) -> Iterable[int] | None:
    """The numbers of those that have something in them, or None: who may not read it doesn't
    know."""
    if not ask(about("GET", "can", names, "r")).rulings().get("r"):
        return None
    before = ask(about("GET", "doc", names))
    old = in_parts.read(before.body) if before.status == 200 else None
    return old.numbers if old else ()


def _look(names: Names, condition: Condition) -> Look:
    def look(talk: Talk) -> Reply | None:
        stopped = against(talk, "doc", names, condition)
        if stopped is not None:
            raise Against(stopped)
        if condition.is_new:
            return None
        there = talk.ask(about("GET", "doc", names))
        if there.status != 200:
            raise Against(there.answer())
        return there
    return look


def _small(room: Room, user: str, names: Names, body: bytes, condition: Condition) -> Answer:
    with room.talk(user) as talk:
        stopped = against(talk, "doc", names, condition)
        if stopped is not None:
            return stopped
        reply = put_small(talk.ask, names, body, talk.rest)
    if reply.status not in (201, 204):
        return reply.answer()
    return Answer(reply.status, fields={"ETag": tag_of(body)})


def replace(room: Room, would: Would, user: str, names: Names, body: "bytes | Upload",
            condition: Condition) -> Answer:
    with told(would, "doc"), alone(room, user, names):
        if isinstance(body, Upload):
            return Writing(room, user, names, body, _look(names, condition)).all()
        return _small(room, user, names, body, condition)


def prepare(room: Room, would: Would, user: str, names: Names, size: int, condition: Condition,
            space: Space) -> None:
    with told(would, "doc"), alone(room, user, names):
        Writing(room, user, names, Untaken(size, space), _look(names, condition)).prepared()


def _as_seen(names: Names, first: Reply | None) -> Look:
    """What is there at each look is what was there at the first."""
    seen: list[bytes | None] = []

    def noted(there: Reply) -> Reply | None:
        is_gone = there.status == 404 and there.at == shown(names)
        if there.status != 200 and not is_gone:
            raise Against(there.answer())
        seen.append(None if is_gone else there.body)
        if seen[0] != seen[-1]:
            raise Stop(412, "changed", "it isn't the one that was seen any more", shown(names))
        return None if is_gone else there
    if first:
        noted(first)
    return lambda talk: noted(talk.ask(about("GET", "doc", names)))


def write(room: Room, user: str, names: Names, upload: Upload, seen: Reply | None = None
          ) -> Answer:
    """Over whatever is there, or over what was seen."""
    with alone(room, user, names):
        return Writing(room, user, names, upload, _as_seen(names, seen)).all()
