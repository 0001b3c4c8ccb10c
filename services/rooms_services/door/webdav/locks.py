"""Locks. They hold between those who come through this door: the web interface, and whoever asks
the room by HTTP, knows nothing of them.

A lock belongs to a user. In nobody else's hands its token counts, nor can anybody else end it."""
import time
import uuid
from collections.abc import Callable
from dataclasses import astuple, dataclass

from ...room.paths import Names, is_below, shown
from .kept import Kept, NotKept, Row

SHORTEST, USUAL, LONGEST = 10, 600, 3600
MOST, MOST_OF_USER = 2000, 200
_COLUMNS = "token, user, path, deep, shared, owner, seconds, until, pending, refused, passing"
# (the clock may have been set back)
_LIVE = f"select {_COLUMNS} from lock where until > ? and until <= ? and "


@dataclass
class Lock:
    token: str
    user: str
    path: str
    deep: bool
    shared: bool
    owner: str
    seconds: int
    until: float
    # Nothing is there yet in the room (calls.py).
    pending: bool = False
    # What was to come there was refused, so no empty document takes its place.
    refused: bool = False
    # For as long as one request only, so no later door knows it.
    passing: bool = False

    @property
    def names(self) -> Names:
        return tuple(self.path.split("/")[1:]) if self.path != "/" else ()

    def covers(self, names: Names) -> bool:
        return self.names == names or self.deep and is_below(names, self.names)


class Locks:
    def __init__(self, kept: Kept | None = None, now: Callable[[], float] = time.time) -> None:
        self._kept = kept or Kept()
        self._now = now

    def _live(self, where: str, given: Row) -> list[Lock]:
        now = self._now()
        return [Lock(*row) for row in self._kept.rows(    # type: ignore[arg-type]
            _LIVE + where, (now, now + LONGEST, *given))]

    def covering(self, names: Names) -> list[Lock]:
        """On it, and with depth on what it is in."""
        ways = [shown(names[:depth]) for depth in range(len(names) + 1)]
        return self._live(f"path in ({', '.join('?' * len(ways))}) and (deep or path = ?)",
                          (*ways, ways[-1]))

    def below(self, names: Names) -> list[Lock]:
        # ('0' comes behind '/')
        above = shown(names).rstrip("/")
        return self._live("path > ? and path < ?", (f"{above}/", f"{above}0"))

    def add(self, user: str, names: Names, deep: bool, shared: bool, owner: str,
            seconds: int) -> Lock | None:
        """None if another lock is in the way."""
        with self._kept.alone():
            there = self.covering(names) + (self.below(names) if deep else [])
            if any(not (shared and lock.shared) for lock in there):
                return None
            now = self._now()
            self._kept.rows("delete from lock where until <= ? or until > ?", (now, now + LONGEST))
            if self._kept.count("lock") >= MOST \
                    or self._kept.count("lock where user = ?", (user,)) >= MOST_OF_USER:
                raise NotKept("too many locks")
            return self._put(Lock(uuid.uuid4().urn, user, shown(names), deep, shared, owner,
                                  seconds, now + seconds))

    def _put(self, lock: Lock) -> Lock:
        self._kept.rows(f"insert into lock ({_COLUMNS}) values (?{', ?' * 10})", astuple(lock))
        return lock

    def reserve(self, user: str, names: Names) -> Lock:
        """All of a folder, for as long as one request removes or fills it piece by piece. That
        nobody else's lock is in the way was looked at before."""
        return self._put(Lock(uuid.uuid4().urn, user, shown(names), True, False, "", USUAL,
                              self._now() + USUAL, passing=True))

    def of(self, user: str, token: str) -> Lock | None:
        found = self._live("token = ? and user = ?", (token, user))
        return found[0] if found else None

    def left(self, lock: Lock) -> int:
        return max(0, round(lock.until - self._now()))

    def refresh(self, lock: Lock, seconds: int) -> None:
        lock.seconds, lock.until = seconds, self._now() + seconds
        self.keep(lock)

    def keep(self, lock: Lock) -> None:
        """After a change of it."""
        self._kept.rows(
            "update lock set seconds = ?, until = ?, pending = ?, refused = ? where token = ?",
            (lock.seconds, lock.until, lock.pending, lock.refused, lock.token))

    def end(self, lock: Lock) -> None:
        self._kept.rows("delete from lock where token = ?", (lock.token,))

    def gone(self, names: Names) -> None:
        """An object was removed or moved away, with all below it."""
        path = shown(names)
        self._kept.rows(
            "delete from lock where not passing and (path = ? or path > ? and path < ?)",
            (path, f"{path}/", f"{path}0"))


def seconds_of(field: str) -> int:
    """Of a field Timeout, such as `Second-600, Infinite`: the first that can be read."""
    for part in field.split(","):
        word = part.strip().lower()
        if word == "infinite":
            return LONGEST
        digits = word.removeprefix("second-")
        if digits != word and digits.isascii() and digits.isdigit():
            return min(max(int(digits[:10]), SHORTEST), LONGEST)
    return USUAL
