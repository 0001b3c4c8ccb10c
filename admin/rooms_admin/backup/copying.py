"""How a room that is served is copied. This process holds the room by a connection to its server,
and another one copies both files: so neither the room's own disk nor that of backups can hold the
server for longer than it was given. They are copied to the room's own disk if that has space for
it, under no name, and otherwise to the disk of backups at once. Until that is done this process
asks nothing of the disk of backups, so one that hangs doesn't have it keep a lock."""
import errno
import mmap
import os
import select
import signal
import struct
import time
from collections.abc import Callable
from contextlib import suppress
from dataclasses import dataclass, field

from ..host import processes, safe, waiting
from ..room import server, waits
from . import backups
from ..cli.report import Interrupted, Refused, Stop, say
from ..room.held import NotHeld, held
from ..room.settings import Room

_CHUNK = 16 << 20
# What stays free for other rooms on the disk while a copy lies beside the room.
_SPARE = 256 << 20
# Of a copy that didn't come to its end, what has to be there so that it is slow, and doesn't hang.
_SLOW = 10


class TooLong(NotHeld):
    """Its copy would hold the server for longer than anybody waits for a room."""


class TooSlow(TooLong):
    """It has done so."""
    is_fault = True


@dataclass
class Copy:
    """For each of the room's files one without a name beside the room, or None where its disk has
    no such files. `where` says whether that one has the copy, or one in the folder of the copy."""
    near: dict[str, int | None] = field(default_factory=dict)
    where: dict[str, str] = field(default_factory=dict)

    @property
    def numbers(self) -> list[int]:
        return [one for one in self.near.values() if one is not None]

    def close(self) -> None:
        for number in self.numbers:
            os.close(number)
        self.near = {}


_OF_TARGET = (errno.ENOSPC, errno.EDQUOT, errno.EROFS, errno.EFBIG)


def _failed(room: Room, fault: OSError, part: str) -> str:
    """It names the disk that it is about: that of the room is read alone."""
    if fault.errno in _OF_TARGET:
        return f"copy of {room.file} failed: the disk of {part}: {safe.reason(fault)}"
    return f"copy of {room.file} failed: {safe.reason(fault)}"


def _open(room: Room) -> Copy:
    """Before the server is held."""
    opened = Copy()
    for name in (room.base, room.base + "-wal"):
        try:
            opened.near[name] = os.open(room.folder, os.O_TMPFILE | os.O_RDWR | os.O_CLOEXEC, 0o600)
        except OSError:
            opened.near[name] = None
    return opened


def _far(part: str, name: str) -> int:
    """A file in the folder of the copy, for whoever may wait for its disk."""
    with safe.opened(safe.folder(part)) as within:
        return os.open(name, os.O_WRONLY | os.O_CREAT | os.O_TRUNC | os.O_NOFOLLOW | os.O_CLOEXEC,
                       0o600, dir_fd=within)


def _free(number: int) -> int:
    disk = os.fstatvfs(number)
    return disk.f_bavail * disk.f_frsize


def _clones(targets: Copy) -> bool:
    """Whether the room's own disk gives a file the blocks of another one, which takes no time."""
    one, other = targets.near.values()
    if one is None or other is None:
        return False
    try:
        os.pwrite(one, bytes(4096), 0)
        return safe.clone(one, other)
    finally:
        os.ftruncate(one, 0)
        os.ftruncate(other, 0)


class _Copier:
    """The process that copies. It begins before the server is held, so it hasn't that connection:
    one whose disk hangs is left alone, and holds nobody."""

    def __init__(self, room: Room, targets: Copy, part: str) -> None:
        self._room = room
        self._targets = targets
        self._part = part
        # How many bytes it has copied.
        self._done = mmap.mmap(-1, 8)
        self._is_done = False
        begins, self._begin = os.pipe()
        self._says, says = os.pipe()
        self._process = os.fork()
        if self._process == 0:
            self._run(begins, says)
        os.close(begins)
        os.close(says)

    def __enter__(self) -> "_Copier":
        return self

    def __exit__(self, *_: object) -> None:
        for number in (self._begin, self._says):
            os.close(number)
        os.kill(self._process, signal.SIGKILL)
        # One whose disk hangs is still there, and ends when it can.
        os.waitpid(self._process, 0 if self._is_done else os.WNOHANG)

    def copy(self, seconds: float) -> None:
        """All of it, or a Stop; TooSlow if it needs more than these seconds."""
        os.write(self._begin, b"x")
        if not select.select([self._says], [], [], seconds)[0]:
            done, size = self._copied(), server.size_of(self._room.file)
            text = (f"the copy of {self._room.file} took more than {seconds:.0f} s for "
                    f"{done >> 20} of {size >> 20} MB")
            if done * _SLOW < size:
                raise Stop(f"{text}, and is given up: its disk or that of {self._part} hangs, or "
                           "is too slow")
            raise TooSlow(text)
        self._is_done = True
        first, _, rest = os.fsdecode(os.read(self._says, 4096)).partition("\n")
        if first != "copied":
            raise Stop(first or f"copy of {self._room.file} failed: it was cut off")
        for line in rest.split("\n"):
            where, _, name = line.partition(" ")
            self._targets.where[name] = where

    def _copied(self) -> int:
        return int(struct.unpack("=Q", self._done[:])[0])

    def _run(self, begins: int, says: int) -> None:
        """It never gets back to what called it."""
        try:
            for one in (signal.SIGTERM, signal.SIGINT, signal.SIGHUP):
                signal.signal(one, signal.SIG_DFL)
            processes.end_with_parent()
            processes.keep_files(begins, says, *self._targets.numbers)
            processes.say_nothing(begins, says, *self._targets.numbers)
            if os.read(begins, 1) != b"x":
                return
            try:
                text = self._files()
            except OSError as fault:
                text = _failed(self._room, fault, self._part)
            except safe.NoFile as what:
                text = f"copy of {self._room.file} failed: it is {what}"
            os.write(says, os.fsencode(text))
        finally:
            os._exit(0)

    def _files(self) -> str:
        """Where each file is, or what failed."""
        said = []
        with safe.opened(safe.folder(self._room.folder)) as within:
            for name, near in self._targets.near.items():
                try:
                    source = safe.file_below(within, name)
                except FileNotFoundError:
                    if name == self._room.base:
                        return f"no room: {self._room.file} isn't there"
                    continue
                with safe.opened(source):
                    said.append(f"{self._file(source, near, name)} {name}")
        return "\n".join(["copied", *said])

    def _file(self, source: int, near: int | None, name: str) -> str:
        """A clone takes no time and no space. Beside the room there has to be space for a copy, and
        for what others write meanwhile."""
        if near is not None and safe.clone(source, near):
            return "near"
        before, size = self._copied(), os.fstat(source).st_size
        if near is not None and _free(near) >= size + _SPARE:
            try:
                while count := os.copy_file_range(source, near, _CHUNK):
                    self._add(count)
                safe.need_all(before + size - self._copied())
                return "near"
            except OSError as fault:
                if fault.errno not in (errno.ENOSPC, errno.EDQUOT, errno.EXDEV, errno.EOPNOTSUPP):
                    raise
                os.ftruncate(near, 0)
        self._done[:] = struct.pack("=Q", before)
        os.lseek(source, 0, os.SEEK_SET)
        with safe.opened(_far(self._part, name)) as far:
            while count := os.sendfile(far, source, None, _CHUNK):
                self._add(count)
        safe.need_all(before + size - self._copied())
        return "far"

    def _add(self, count: int) -> None:
        self._done[:] = struct.pack("=Q", self._copied() + count)


def _held_once(room: Room, part: str, targets: Copy) -> bool:
    """Whether the server was held until it was copied: not if it ended meanwhile."""
    size = server.size_of(room.file)
    seconds = waits.of_copy(size)
    if seconds > waits.LONGEST and not _clones(targets):
        raise TooLong(f"{room.file} has {size >> 20} MB, which may take more than "
                      f"{waits.LONGEST:.0f} s to copy")
    seconds = min(seconds, waits.LONGEST)
    with _Copier(room, targets, part) as copier:
        say(f"requests wait while {size >> 20} MB are copied, for {seconds:.0f} s at most")
        with held(room) as line:
            copier.copy(seconds)
            return line.still()


def _fill(room: Room, part: str, targets: Copy) -> None:
    """Of a room whose server doesn't run. One that is slow has its time."""
    seconds = min(10 * waits.of_copy(server.size_of(room.file)), waits.STOPPED)
    with _Copier(room, targets, part) as copier:
        try:
            copier.copy(seconds)
        except TooSlow as slow:
            raise Stop(f"the copy is given up: {slow}") from slow


def _rested_once(room: Room, part: str, targets: Copy) -> bool:
    """Whether no server ran until it was copied."""
    _fill(room, part, targets)
    return server.state(room) == "inactive"


def copy(room: Room, part: str) -> Copy:
    """Copies the room into the folder `part` while its server is held, or while none runs. NotHeld
    says why that can't be."""
    for _ in range(2):
        targets = _open(room)
        try:
            state = server.settled(room)
            if state not in ("active", "inactive"):
                raise NotHeld(f"{room.unit} is '{state}'")
            if (_held_once if state == "active" else _rested_once)(room, part, targets):
                return targets
        except BaseException:
            targets.close()
            raise
        targets.close()
        say(f"{room.unit} was started or stopped meanwhile, so the room is copied again")
        time.sleep(1)
    raise NotHeld(f"{room.unit} is started or stopped again and again")


def _free_at(part: str) -> int:
    def asked() -> int:
        with safe.opened(safe.folder(part)) as within:
            return _free(within)
    found = waiting.answer(waiting.PATIENCE, asked, part)
    if not isinstance(found, int):
        raise Stop(f"not read: {part}: the look failed")
    return found


def copy_stopped(room: Room, part: str, tell: Callable[[str], object]) -> Copy:
    """While the server is stopped, whatever it did before. Why it doesn't start again is told: that
    is no fault of the copy."""
    targets = _open(room)
    is_stopped, ended = False, None
    try:
        size, free = server.size_of(room.file), _free_at(part)
        if size > free:
            raise Stop(f"copy of {room.file} failed: it has {size >> 20} MB, and the disk of "
                       f"{part} has {free >> 20} MB free")
        try:
            with server.stopped(room):
                is_stopped = True
                try:
                    _fill(room, part, targets)
                except Stop as stop:
                    ended = stop
        except Stop as stop:
            if not is_stopped or isinstance(stop, Interrupted):
                raise
            tell(str(stop))
        if ended is not None:
            raise ended
        return targets
    except BaseException:
        targets.close()
        raise


def keep(room: Room, copied: Copy, part: str) -> None:
    """Once the server goes on: the copies get to the disk of backups."""
    try:
        for name, source in copied.near.items():
            where = copied.where.get(name)
            if where == "near" and source is not None:
                with safe.opened(_far(part, name)) as target:
                    os.lseek(source, 0, os.SEEK_SET)
                    safe.copy_all(source, target)
                    os.fsync(target)
        with safe.opened(safe.folder(part)) as within:
            for name in copied.near:
                if copied.where.get(name) == "far":
                    with safe.opened(safe.file_below(within, name)) as target:
                        os.fsync(target)
                elif name not in copied.where:
                    # Of a first try, when there was one.
                    with suppress(FileNotFoundError):
                        os.unlink(name, dir_fd=within)
            os.fsync(within)
    except OSError as fault:
        raise Stop(_failed(room, fault, part)) from fault
    finally:
        copied.close()


def forget(room: Room, part: str) -> None:
    """What is read of it next comes from its disk, which may have lost what it took: what the
    memory has of it would hide that."""
    with safe.opened(safe.folder(part)) as within:
        for name in (room.base, room.base + "-wal"):
            with suppress(FileNotFoundError), safe.opened(safe.file_below(within, name)) as number:
                os.posix_fadvise(number, 0, 0, os.POSIX_FADV_DONTNEED)


def find_backups(room: Room) -> None:
    """The folder of backups has to be there, on its own disk, and nobody else's: the mount point of
    a disk that isn't mounted is an ordinary folder."""
    if not os.path.isdir(room.backups):
        raise Refused(f"no folder: {room.backups}, of BACKUPS in {room.conf}, isn't there")
    if why := backups.unmounted(room.backups):
        raise Refused(why)
    # In one as /tmp others can put what a run would, and each unit has such a one for itself alone.
    is_shared = os.stat(room.backups).st_mode & 0o022
    if place := safe.of_others(room.backups) or (room.backups if is_shared else ""):
        raise Refused(f"not root's: others can change {place}, on the way to {room.backups}, "
                      f"of BACKUPS in {room.conf}")


def hindered(room: Room) -> str:
    """The same for whoever doesn't wait for a disk that hangs: what a run would say."""
    def look() -> str:
        try:
            find_backups(room)
            return ""
        except Refused as why:
            return str(why)
    return str(waiting.answer(waiting.PATIENCE, look, room.backups) or "")


def close_backups(room: Room) -> None:
    """An earlier version let the group of the room's user pass, who worked on backups in place."""
    with safe.opened(safe.folder(room.backups)) as number:
        seen = os.fstat(number)
        if (os.geteuid() == seen.st_uid == 0 and seen.st_gid == room.group != 0
                and seen.st_mode & 0o7777 == 0o710):
            os.fchmod(number, 0o700)
