"""Who is answered when: the room by one row of questions at a time, and each user by few requests
at once, so that nobody who asks a hundred times keeps the others waiting."""
import gc
import os
import threading
from collections import Counter, defaultdict, deque
from collections.abc import Iterator
from contextlib import contextmanager

from rooms_admin.room import waits

from .answers import Stop

# Of one user, of all users, and how many of one user's may wait.
RUNNING, RUNNING_ALL, WAITING = 2, 16, 14
# Of those who go through folders, which takes memory, and of ZIPs, which may be taken slowly; and
# of all that may take long, so that the rest has turns.
LONG, LONG_ALL, LONG_TOGETHER = 1, 4, 12
PATIENCE = waits.ANSWER
# Bytes that those who go through folders hold together. Only tests set another number.
HELD = int(os.environ.get("ROOMS_DOOR_HELD", 384 << 20))


def busy() -> Stop:
    return Stop(503, "busy", "too much is asked of the door; nothing was done",
                fields={"Retry-After": "10"})


class InTurn:
    """A lock that is given in the order in which it was asked for."""

    def __init__(self) -> None:
        self._mutex = threading.Lock()
        self._taken = False
        self._waiting: deque[threading.Event] = deque()

    def take(self, seconds: float) -> bool:
        with self._mutex:
            if not self._taken:
                self._taken = True
                return True
            mine = threading.Event()
            self._waiting.append(mine)
        if mine.wait(seconds):
            return True
        with self._mutex:
            if mine in self._waiting:
                self._waiting.remove(mine)
                return False
        # It was given at the last moment.
        return True

    def give(self) -> None:
        with self._mutex:
            if self._waiting:
                self._waiting.popleft().set()
            else:
                self._taken = False


class Users:
    """Counts the requests of each user."""

    def __init__(self) -> None:
        self._changed = threading.Condition()
        self._all: Counter[str] = Counter()
        self._running: Counter[str] = Counter()
        # Of each kind of what is long.
        self._long: defaultdict[str, Counter[str]] = defaultdict(Counter)

    def _may_run(self, user: str, kind: str) -> bool:
        return (self._running[user] < RUNNING and self._running.total() < RUNNING_ALL
                and not (kind and self._is_too_much(user, self._long[kind])))

    def _is_too_much(self, user: str, long: Counter[str]) -> bool:
        return (long[user] >= LONG or long.total() >= LONG_ALL
                or self._running.total() - self._long[""].total() >= LONG_TOGETHER)

    def _less(self, counter: Counter[str], user: str) -> None:
        counter[user] -= 1
        if counter[user] <= 0:
            del counter[user]

    @contextmanager
    def turn(self, user: str, kind: str = "") -> Iterator[None]:
        """`kind` is that of a request that may take long, and empty for others."""
        with self._changed:
            if self._all[user] >= RUNNING + WAITING:
                raise Stop(429, "too-many-requests", "too many requests of yours at once",
                           fields={"Retry-After": "1"})
            self._all[user] += 1
            try:
                if not self._changed.wait_for(lambda: self._may_run(user, kind), PATIENCE):
                    raise busy()
            except BaseException:
                self._less(self._all, user)
                raise
            self._running[user] += 1
            self._long[kind][user] += 1
        try:
            yield
        finally:
            with self._changed:
                for counter in (self._running, self._all, self._long[kind]):
                    self._less(counter, user)
                self._changed.notify_all()


class Held:
    """What requests hold of the memory, each of which has a thread of its own."""

    def __init__(self, most: int = HELD) -> None:
        self._most = most
        self._changed = threading.Condition()
        self._of: Counter[int] = Counter()
        # One of them goes on however much there is, so that not all of them wait.
        self._beyond: int | None = None

    def _may(self, mine: int, size: int) -> bool:
        if self._of.total() + size <= self._most:
            return True
        if self._beyond is None:
            self._beyond = mine
        return self._beyond == mine

    def take(self, size: int, seconds: float) -> None:
        """Waits for so many bytes more. Nobody does who keeps others from the room meanwhile."""
        mine = threading.get_ident()
        with self._changed:
            if not self._changed.wait_for(lambda: self._may(mine, size), seconds):
                raise busy()
            self._of[mine] += size

    def give(self) -> None:
        """All that this thread's request has: it is answered."""
        mine = threading.get_ident()
        with self._changed:
            had = self._of[mine]
        if had > self._most // 100:
            # (the steps of a walk name it, and it them)
            gc.collect()
        with self._changed:
            if self._of.pop(mine, 0):
                self._beyond = None if self._beyond == mine else self._beyond
                self._changed.notify_all()
