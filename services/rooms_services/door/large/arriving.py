"""What has come so far of large documents that users send, which may take hours: in files without
names, so that nothing of it outlasts the door. Nothing is in the room until all of it is here.

Whoever sends slowly, or went away, keeps place as long as nobody else needs it."""
import tempfile
import threading
import time
from collections.abc import Callable, Iterable

from rooms_admin.room.in_parts import LARGEST

from ...room.answers import Stop
from ...room.parts import SECONDS, SLOWEST

# How many there are of one user, and of all; and how many bytes have come of all, as so many of the
# largest.
EACH, ALL, FULL = 4, 64, 8
# So many bytes have to come in so many seconds, or it gives way to another one; and how long that
# waits for it.
STEP, PACE, PATIENCE = 65_536, 10.0, 60.0
_TICK = 0.25


class Arriving:
    def __init__(self, user: str, size: int, step: int, folder: str, now: float) -> None:
        """It comes in steps of so many bytes at least."""
        self.user, self.size, self.step = user, size, step
        self.came, self.begun = 0, now
        # When its last step was done, and how many bytes had come by then.
        self.moved, self.had = now, 0
        # Whether it gave way; and whether all of it is here and written to the room.
        self.is_over = self.is_held = False
        self._lock = threading.Lock()
        try:
            self._file = tempfile.TemporaryFile(dir=folder or None)
        except OSError:
            raise _no_place("the disk takes no more") from None

    def write(self, place: int, data: bytes) -> None:
        with self._lock:
            self.refuse_over()
            try:
                self._file.seek(place)
                self._file.write(data)
                self._file.flush()
            except OSError:
                raise _no_place("the disk takes no more") from None

    def read(self, place: int, count: int) -> bytes:
        with self._lock:
            self.refuse_over()
            self._file.seek(place)
            return self._file.read(count)

    def reader(self) -> Callable[[int], bytes]:
        """Takes so many of its bytes, and then the next ones."""
        place = 0

        def take(count: int) -> bytes:
            nonlocal place
            place += count
            return self.read(place - count, count)
        return take

    def refuse_over(self) -> None:
        if self.is_over:
            raise Stop(408, "too-slow", "it came so slowly that others were let before it")

    def close(self) -> None:
        with self._lock:
            self.is_over = True
            self._file.close()

    def is_slow(self, now: float) -> bool:
        return not self.is_held and now - self.moved > PACE * self.step / STEP

    def is_late(self, now: float) -> bool:
        return not self.is_held and now - self.begun > max(SECONDS, self.size / SLOWEST)


def _no_place(text: str) -> Stop:
    return Stop(503, "busy", f"{text}; nothing was done", fields={"Retry-After": "10"})


class Arrivals:
    """All of them, and what they may take together."""

    def __init__(self, folder: str = "", largest: int = LARGEST,
                 clock: Callable[[], float] = time.monotonic) -> None:
        """Their folder is that of the system without one. A document has so many bytes at most."""
        self._folder, self._largest, self._most = folder, largest, FULL * largest
        self._clock = clock
        self._changed = threading.Condition()
        self._all: list[Arriving] = []

    def begin(self, user: str, size: int, step: int = STEP, patience: float = PATIENCE) -> Arriving:
        with self._changed:
            self._forget()
            own = [one for one in self._all if one.user == user]
            if len(own) >= EACH and not self._gives_way(own):
                raise Stop(429, "too-many-requests", "too many large documents of yours at once",
                           fields={"Retry-After": "10"})
            self._wait(lambda: len(self._all) < ALL, self._all, patience)
            one = Arriving(user, size, step, self._folder, self._clock())
            self._all.append(one)
            return one

    def add(self, one: Arriving, count: int, patience: float = PATIENCE) -> None:
        """So many more bytes are about to come."""
        with self._changed:
            one.refuse_over()
            others = [each for each in self._all if each is not one]
            self._wait(lambda: self._fits(one.user, count), others, patience)
            one.refuse_over()
            one.came += count
            if one.came - one.had >= min(one.step, one.size - one.had):
                one.moved, one.had = self._clock(), one.came

    def _fits(self, user: str, count: int) -> bool:
        """Whoever has more than one document has no more than half of what the others leave, so
        that two can't keep a third out."""
        own = sum(each.came for each in self._all if each.user == user) + count
        left = self._most - sum(each.came for each in self._all if each.user != user)
        return own <= left and own <= max(self._largest, left // 2)

    def end(self, one: Arriving) -> None:
        with self._changed:
            self._ends(one)

    def count(self) -> tuple[int, int]:
        """How many there are, and how many bytes of them have come."""
        with self._changed:
            return len(self._all), sum(one.came for one in self._all)

    def forget(self) -> None:
        """Those whose time is over."""
        with self._changed:
            self._forget()

    def clear(self) -> None:
        with self._changed:
            for one in self._all[:]:
                self._ends(one)

    def run(self, seconds: float = 60.0) -> None:
        while True:
            time.sleep(seconds)
            self.forget()

    def _forget(self) -> None:
        now = self._clock()
        for one in [one for one in self._all if one.is_late(now)]:
            self._ends(one)

    def _ends(self, one: Arriving) -> None:
        if one in self._all:
            self._all.remove(one)
        one.close()
        self._changed.notify_all()

    def _gives_way(self, some: Iterable[Arriving]) -> bool:
        """The one of which nothing came for longest, if that is too long."""
        now = self._clock()
        slow = min((one for one in some if one.is_slow(now)), key=lambda one: one.moved,
                   default=None)
        if slow:
            self._ends(slow)
        return slow is not None

    def hold(self, one: Arriving) -> None:
        """All of it is here: it gives way to nobody."""
        with self._changed:
            one.refuse_over()
            one.is_held = True

    def _wait(self, has_place: Callable[[], bool], some: list[Arriving], patience: float) -> None:
        until = self._clock() + patience
        while not has_place():
            there = [one for one in some if one in self._all]
            if not self._gives_way(there):
                if self._clock() >= until:
                    raise _no_place("too many large documents come at once")
                self._changed.wait(_TICK)
