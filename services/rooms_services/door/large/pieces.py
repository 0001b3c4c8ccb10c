"""Large documents that come in pieces, each by a request of its own, so that whoever loses the line
goes on where they were. Once all are here, they are what one PUT would have brought.

An upload is its user's alone, by a number that nobody can guess. What was said at its end is kept,
for whoever lost the answer."""
import re
import secrets
import threading
from collections import OrderedDict
from collections.abc import Callable

from rooms_admin.room import in_parts
from rooms_admin.room.in_parts import LARGEST

from ...room.answers import Answer, Stop
from ...room.paths import Names
from .arriving import Arrivals, Arriving

# Of how many it is known how they ended.
ENDED = 1000
_NUMBER = re.compile(r"[1-9][0-9]{0,3}", re.ASCII)
# Whose it was, its number, and what it became.
_Ended = tuple[str, str, Names]


class Pieces:
    def __init__(self, arriving: Arriving) -> None:
        self.arriving = arriving
        # Held while it is written to the room.
        self.turn = threading.Lock()
        # The numbers of pieces that have their place, and of those that are here.
        self._counted: set[int] = set()
        self.here: set[int] = set()

    def length_of(self, number: int) -> int:
        return max(0, min(LARGEST, self.arriving.size - (number - 1) * LARGEST))

    def counts(self, number: int) -> bool:
        """Whether it has its place only now."""
        is_new = number not in self._counted
        self._counted.add(number)
        return is_new

    def gives_back(self, number: int) -> None:
        self._counted.discard(number)

    @property
    def is_whole(self) -> bool:
        return len(self.here) == in_parts.count_for(self.arriving.size)


class Uploads:
    def __init__(self, arrivals: Arrivals) -> None:
        self._arrivals = arrivals
        self._lock = threading.Lock()
        self._all: dict[tuple[str, str], Pieces] = {}
        self._ended: OrderedDict[_Ended, Answer] = OrderedDict()

    def begin(self, user: str, size: int) -> str:
        one = self._arrivals.begin(user, size, LARGEST, 0.0)
        name = secrets.token_hex(16)
        with self._lock:
            self._all = {key: each for key, each in self._all.items()
                         if not each.arriving.is_over}
            self._all[user, name] = Pieces(one)
        return name

    def _of(self, user: str, name: str) -> Pieces:
        with self._lock:
            found = self._all.get((user, name))
        if found is None or found.arriving.is_over:
            raise Stop(404, "no-upload", "no such upload of yours, or it is over")
        return found

    def put(self, user: str, name: str, number: str, data: bytes) -> Answer:
        """One that comes again is the same."""
        one = self._of(user, name)
        if not _NUMBER.fullmatch(number) or len(data) != one.length_of(int(number)) or not data:
            raise Stop(400, "bad-length", "no piece of this upload has this number and length")
        self._count(one, int(number), len(data))
        one.arriving.write((int(number) - 1) * LARGEST, data)
        with self._lock:
            one.here.add(int(number))
        return Answer(204)

    def _count(self, one: Pieces, number: int, length: int) -> None:
        with self._lock:
            is_new = one.counts(number)
        if not is_new:
            return
        try:
            self._arrivals.add(one.arriving, length, 0.0)
        except Stop:
            with self._lock:
                one.gives_back(number)
            raise

    def here(self, user: str, name: str) -> list[int]:
        """The numbers of the pieces that have come."""
        one = self._of(user, name)
        with self._lock:
            return sorted(one.here)

    def drop(self, user: str, name: str) -> None:
        one = self._of(user, name)
        with one.turn:
            self._arrivals.end(one.arriving)

    def finish(self, user: str, name: str, names: Names, write: Callable[[Arriving], Answer]
               ) -> Answer:
        """By what writes it to the room, as the document of that path. Whoever asks again meanwhile
        waits; an upload that the room didn't take stays for another try."""
        key = user, name, names
        if said := self._said(key):
            return said
        one = self._of(user, name)
        with one.turn:
            if said := self._said(key):
                return said
            self._of(user, name)
            if not one.is_whole:
                raise Stop(409, "not-all", "pieces of the upload are missing")
            self._arrivals.hold(one.arriving)
            try:
                answer = write(one.arriving)
            finally:
                one.arriving.is_held = False
            if answer.status in (201, 204):
                self._keep(key, answer)
                self._arrivals.end(one.arriving)
            return answer

    def _said(self, key: _Ended) -> Answer | None:
        with self._lock:
            return self._ended.get(key)

    def _keep(self, key: _Ended, answer: Answer) -> None:
        with self._lock:
            self._ended[key] = answer
            while len(self._ended) > ENDED:
                self._ended.popitem(last=False)
