"""How many bytes of a room's file are in use: its pages without the free ones. The log counts. The
forms are those of SQLite. Nothing is locked or changed; what was read of the log is remembered."""
import os
import signal
import socket
import stat
import struct
from dataclasses import dataclass

from ..cli.report import Stop
from .settings import Room

# Of a page.
_SIZES = {1 << one for one in range(9, 17)}


class NoRoom(Exception):
    """The file isn't there, can't be read or is no database."""


@dataclass
class Used:
    """What is known of a log: up to where it was read, under which salt, and the newest first page
    that was committed."""
    salt: bytes = b""
    at: int = 32
    head: bytes = b""
    newer: bytes = b""

    def look(self, file: str) -> int:
        base = _open(file)
        if base is None:
            raise NoRoom
        try:
            head = os.pread(base, 40, 0)
            # All of a new room may still be in its log, beside an empty file.
            if os.fstat(base).st_size and head[:16] != b"SQLite format 3\0":
                raise NoRoom
        finally:
            os.close(base)
        log = _open(file + "-wal")
        if log is not None:
            try:
                head = self._log(log) or head
            finally:
                os.close(log)
        if len(head) < 40:
            raise NoRoom
        size, pages, free = struct.unpack(">16xH10xI4xI", head)
        return (int(pages) - int(free)) * (65536 if size == 1 else int(size))

    def _log(self, log: int) -> bytes:
        start = os.pread(log, 32, 0)
        if len(start) < 32 or struct.unpack(">I", start[:4])[0] & ~1 != 0x377f0682:
            return b""
        size = int(struct.unpack(">8xI20x", start)[0])
        if size not in _SIZES:
            return b""
        if start[16:24] != self.salt:
            self.salt, self.at, self.head, self.newer = start[16:24], 32, b"", b""
        while len(frame := os.pread(log, 64, self.at)) == 64 and frame[8:16] == self.salt:
            page, commit = struct.unpack(">II", frame[:8])
            if page == 0:
                # None has this number, but a file with holes has it without end.
                break
            if page == 1:
                self.newer = frame[24:]
            if commit and self.newer:
                self.head = self.newer
            self.at += 24 + size
        return self.head


def _open(file: str) -> int | None:
    """An ordinary file. What else the folder's user may have put there keeps nobody waiting."""
    try:
        number = os.open(file, os.O_RDONLY | os.O_NOFOLLOW | os.O_NONBLOCK | os.O_CLOEXEC)
    except OSError:
        return None
    if stat.S_ISREG(os.fstat(number).st_mode):
        return number
    os.close(number)
    return None


class Reader:
    """Looks at a room as its user. Where this process is root's, another one does that, for as long
    as this one lives."""

    def __init__(self, room: Room) -> None:
        self.file = room.file
        self.used = Used()
        self.asked: socket.socket | None = None
        if os.geteuid() == room.owner:
            return
        self.asked, asking = socket.socketpair()
        if os.fork():
            asking.close()
            return
        try:
            self.asked.close()
            for one in (signal.SIGTERM, signal.SIGINT, signal.SIGHUP):
                signal.signal(one, signal.SIG_DFL)
            os.closerange(3, asking.fileno())
            os.closerange(asking.fileno() + 1, 1024)
            os.setgroups([])
            os.setgid(room.group)
            os.setuid(room.owner)
            self._answer(asking)
        finally:
            os._exit(0)

    def _answer(self, asking: socket.socket) -> None:
        while asking.recv(1):
            try:
                asking.send(str(self.used.look(self.file)).encode())
            except NoRoom:
                asking.send(b"none")

    def look(self) -> int:
        if self.asked is None:
            return self.used.look(self.file)
        try:
            self.asked.send(b"?")
            got = self.asked.recv(100)
        except OSError:
            got = b""
        if not got:
            raise Stop("the process that looks at the room has ended")
        if got == b"none":
            raise NoRoom
        return int(got)
