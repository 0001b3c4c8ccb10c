"""Who asks a room while its server is started anew waits here: the room's socket is a name of this
service's own until the server answers. Then each connection is passed on, once, and what was passed
on is never sent again: whether it was done, nobody here could say. Where the room is stopped, or
doesn't come in time, a connection ends without an answer, as at a room without a server."""
import os
import select
import socket
import threading
import time
from collections.abc import Iterator
from contextlib import contextmanager

from rooms_admin.host import locks
from rooms_admin.room import names, waits

from . import listening

# Connections that wait at once; more wait for these in the socket, up to its Backlog. How long it
# goes on if nobody comes; and how often it is looked whether the server is there.
MOST, IDLE, TICK = 256, 30.0, 0.02
# A room says nothing for as long as others are before it.
SILENT = waits.ANSWER
_PART = 1 << 16


class Way:
    """Where the room's socket leads."""

    def __init__(self, place: str, own: str, patience: float = waits.START) -> None:
        self._place, self._own, self._patience = place, own, patience
        # A clock that is set while somebody waits, as at a machine's start, ends nobody's wait.
        self._clock = time.time() - time.monotonic()
        # Only who came first looks.
        self._turn = threading.Lock()
        self._counting = threading.Lock()
        self._under_way = 0

    @contextmanager
    def counted(self) -> Iterator[None]:
        with self._counting:
            self._under_way += 1
        try:
            yield
        finally:
            with self._counting:
                self._under_way -= 1

    def is_any(self) -> bool:
        """Whether anybody waits, or is being answered."""
        return self._under_way > 0

    def _server(self) -> socket.socket | None:
        """A connection to it; nothing while it leads here; OSError where nobody listens. What is
        asked is what was looked at, since it may lead here again by now."""
        handle = os.open(self._place, os.O_PATH | os.O_NOFOLLOW | os.O_CLOEXEC)
        room = socket.socket(socket.AF_UNIX)
        try:
            now, own = os.fstat(handle), os.stat(self._own)
            if (now.st_dev, now.st_ino) == (own.st_dev, own.st_ino):
                room.close()
                return None
            room.settimeout(SILENT)
            room.connect(f"/proc/self/fd/{handle}")
            return room
        except BaseException:
            room.close()
            raise
        finally:
            os.close(handle)

    def _gone(self) -> float:
        """For how long there is no server: the folder changes with its names, and with nothing
        else."""
        now = min(time.time(), self._clock + time.monotonic())
        return now - os.stat(os.path.dirname(self._place)).st_mtime

    def server(self) -> socket.socket | None:
        """Once it is there; nothing if it doesn't come in time, from when it went."""
        came = time.monotonic()
        with self._turn:
            while True:
                gone = 0.0
                try:
                    if room := self._server():
                        return room
                    gone = self._gone()
                except (BlockingIOError, ConnectionRefusedError):
                    pass  # As many as may wait there; or it ended just now.
                except OSError:
                    return None
                if max(gone, time.monotonic() - came) > self._patience:
                    return None
                time.sleep(TICK)


def _pass_on(part: bytes, target: socket.socket) -> bool:
    """Whether more can be: a server that answers before it has read all reads no more. An end is
    passed on too."""
    try:
        if part:
            target.sendall(part)
        else:
            target.shutdown(socket.SHUT_WR)
    except OSError:
        return False
    return part != b""


def relay(caller: socket.socket, room: socket.socket) -> None:
    """Until the room has said all."""
    others = {caller: room, room: caller}
    for source in others:
        source.settimeout(SILENT)
    open_ = [caller, room]
    while room in open_:
        ready = select.select(open_, [], [], SILENT)[0]
        if not ready:
            return
        for source in ready:
            if not _pass_on(source.recv(_PART), others[source]):
                open_.remove(source)


def one(caller: socket.socket, way: Way) -> None:
    with way.counted():
        room = way.server()
        if room is not None:
            with room:
                relay(caller, room)


def serve(listener: socket.socket, way: Way, idle: float = IDLE) -> None:
    listening.serve(listener, MOST, idle, lambda caller: one(caller, way), way.is_any)


def run() -> int:
    name = os.environ.get("ROOM", "")
    if not names.is_room(name):
        raise SystemExit("rooms-service: ROOM is no name of a room: its unit starts this")
    os.umask(0o077)
    os.chdir("/")
    listener = listening.handed()
    way = Way(os.path.join(locks.RUN, "rooms", name, "socket"), listener.getsockname())
    serve(listener, way)
    return 0
