"""Whether a room has more in use than it may, the flag by which nginx refuses what adds to it, and
how many bytes are left, by which its door refuses a document of more."""
import os
import stat
import time

from ..cli import report
from ..host import locks
from . import limit as limits, needs, settings
from ..cli.report import Interrupted, Refused, Stop, say
from .size import NoRoom, Reader

FOLDER = os.path.join(locks.RUN, "rooms-full")


class Watch:
    def __init__(self, room: settings.Room) -> None:
        self.room = room
        self.known = needs.stamp(room.name)
        self.limit = limits.of(room)
        self.used = Reader(room)
        self.lost = False
        self.flag = os.path.join(FOLDER, room.flag)
        self.left = os.path.join(FOLDER, f"{room.name}.left")
        self.told: int | None = None
        self.next = 0.0

    def look(self) -> None:
        """A night may have found out what a start needs."""
        if (now := needs.stamp(self.room.name)) != self.known:
            self.known, self.limit = now, limits.of(self.room)
        if self.limit is None:
            self.end()
            self.next = time.monotonic() + 3600
            return
        most = self.limit << 20
        self.next = time.monotonic() + 1
        try:
            used = self.used.look()
        except NoRoom:
            if not self.lost:
                say(f"{self.room.file} can't be read, and nothing is changed meanwhile")
            self.lost = True
            return
        if self.lost:
            say(f"{self.room.file} can be read again")
        self.lost = False
        if used > most and _put(self.flag):
            say(f"the room is full: {used >> 20} MB are in use, and LIMIT is {self.limit}; nginx "
                "refuses what adds to it")
        elif used * 100 < most * 95 and _remove(self.flag):
            say(f"the room isn't full any more: {used >> 20} MB of {self.limit} are in use")
        if used * 2 < most:
            self.next += 4
        self._tell(max(0, most - used))

    def _tell(self, left: int) -> None:
        """In whole megabytes: so nobody learns by it how large somebody else's document is."""
        left = left >> 20 << 20
        if left != self.told:
            _put_text(self.left, f"{left}\n")
            self.told = left

    def end(self) -> None:
        _remove(self.flag)
        _remove(self.left)
        self.told = None


def _put(place: str) -> bool:
    """Whether the flag wasn't there. The folder is the servers' user's, who may run something else
    than a server: what lies there in its place goes, and no link is followed."""
    try:
        if stat.S_ISREG(os.lstat(place).st_mode):
            return False
        os.unlink(place)
    except FileNotFoundError:
        pass
    os.close(os.open(place, os.O_CREAT | os.O_EXCL | os.O_WRONLY | os.O_NOFOLLOW, 0o644))
    return True


def _put_text(place: str, text: str) -> None:
    new = f"{place}.new"
    _remove(new)
    with open(os.open(new, os.O_CREAT | os.O_EXCL | os.O_WRONLY | os.O_NOFOLLOW, 0o644), "w",
              encoding="ascii") as out:
        out.write(text)
    os.rename(new, place)


def _remove(place: str) -> bool:
    try:
        os.unlink(place)
        return True
    except FileNotFoundError:
        return False


def look(room: settings.Room) -> tuple[int, int | None]:
    """How many bytes are in use, and how many may be."""
    limit = limits.of(room)
    try:
        return Reader(room).look(), None if limit is None else limit << 20
    except NoRoom:
        raise Refused(f"{room.file} can't be read") from None


def watch(rooms: list[settings.Room]) -> int:
    """It has their locks, so from here on their flags are its own, also those of before."""
    watches: list[Watch] = []
    try:
        for room in rooms:
            watches.append(Watch(room))
        for watch in watches:
            if watch.limit is None:
                say(f"the room has no limit: LIMIT in {watch.room.conf} is "
                    + (watch.room.limit or f"empty, and {watch.room.unit} has no MemoryMax"))
        while True:
            for watch in watches:
                if time.monotonic() >= watch.next:
                    watch.look()
            time.sleep(max(0.0, min(watch.next for watch in watches) - time.monotonic()))
    except Interrupted:
        report.ignore_signals()
        for watch in watches:
            watch.end()
        return 0
    except OSError as fault:
        raise Stop(f"{fault.filename}: {fault.strerror}") from fault
