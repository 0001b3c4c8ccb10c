"""A port of a room's, for programs that can't ask at a socket: what root and nginx send there is
passed on to the room's socket. Whoever reaches a room can pose as any of its users, and any account
of the machine reaches a port. So it is looked at who made each connection: what the firewall lets
through doesn't matter."""
import os
import pwd
import random
import socket
import struct
import threading

from rooms_admin.host import locks
from rooms_admin.room import names

from . import listening

# Connections at once, each of which takes two threads; seconds until it ends if nobody comes, and
# for which a connection may say nothing.
MOST, IDLE, SILENT = 64, 600.0, 600.0
# The connections of the machine, as its first process sees them, where the kernel can't be asked
# for one: this process may have another network.
CONNECTIONS = os.environ.get("ROOMS_CONNECTIONS", "/proc/1/net/tcp")
FRONT = "www-data"
_MADE = "01"
# A question to the kernel about one connection, and its answer: family, state, both ends, user
# (linux/netlink.h, inet_diag.h).
_HEAD, _ASKS, _SAYS = "=IHHII", "=BB2xI36s4xQ", "=16xBB2x36s24xI"
_BY_FAMILY, _REQUEST, _ANY = 20, 1, 0xFFFFFFFF


class Kernel:
    """Root's socket at which the kernel is asked, in the machine's network: for one connection, as
    any account may have very many. At another kernel nobody answers, which is seen at first."""

    def __init__(self, asking: socket.socket, listener: socket.socket) -> None:
        self._asking, self._lock = asking, threading.Lock()
        self._number = random.randrange(1 << 30)
        asking.settimeout(1)
        self.answers = bool(self._said(_ends(listener.getsockname(), ("0.0.0.0", 0))))

    def _said(self, ends: bytes) -> bytes:
        """Nothing if it isn't there. What was asked by another process isn't meant."""
        asks = struct.pack(_ASKS, socket.AF_INET, socket.IPPROTO_TCP, _ANY, ends, _ANY << 32 | _ANY)
        with self._lock:
            self._number += 1
            try:
                self._asking.sendto(struct.pack(_HEAD, 16 + len(asks), _BY_FAMILY, _REQUEST,
                                                self._number, 0) + asks, (0, 0))
                while True:
                    said = self._asking.recv(4096)
                    _, kind, _, number, _ = struct.unpack_from(_HEAD, said)
                    if number == self._number:
                        return said if kind == _BY_FAMILY else b""
            except OSError:
                return b""

    def maker(self, ends: bytes) -> int:
        """One that has ended, or doesn't go between these, is none."""
        if not (said := self._said(ends)):
            return -1
        family, state, found, user = struct.unpack_from(_SAYS, said)
        is_it = (family, state, found) == (socket.AF_INET, int(_MADE), ends)
        return int(user) if is_it else -1


def _ends(here: tuple[str, int], there: tuple[str, int]) -> bytes:
    return struct.pack("!HH16s16s", here[1], there[1], socket.inet_aton(here[0]),
                       socket.inet_aton(there[0]))


def _written(address: tuple[str, int]) -> str:
    number, = struct.unpack("=I", socket.inet_aton(address[0]))
    return f"{number:08X}:{address[1]:04X}"


def maker(connection: socket.socket, kernel: Kernel | None) -> int:
    """The user of the other end, or -1 if it isn't known. Who has ended a connection on that side
    doesn't count, since then it is nobody's."""
    if kernel and kernel.answers:
        return kernel.maker(_ends(connection.getpeername(), connection.getsockname()))
    ends = [_written(connection.getpeername()), _written(connection.getsockname()), _MADE]
    with open(CONNECTIONS, encoding="ascii") as rows:
        for row in rows:
            words = row.split()
            if words[1:4] == ends:
                return int(words[7])
    return -1


def _believed() -> set[int]:
    try:
        return {0, pwd.getpwnam(FRONT).pw_uid}
    except KeyError:
        return {0}


def _pass_on(source: socket.socket, target: socket.socket, first: bytes = b"") -> None:
    """Until its end, which is passed on too."""
    try:
        part = first or source.recv(1 << 16)
        while part:
            target.sendall(part)
            part = source.recv(1 << 16)
        target.shutdown(socket.SHUT_WR)
    except OSError:
        for one in (source, target):
            try:
                one.shutdown(socket.SHUT_RDWR)
            except OSError:
                pass


def one(connection: socket.socket, place: str, kernel: Kernel | None) -> None:
    """The room has one connection at a time, so it gets none on which nothing is said."""
    if maker(connection, kernel) not in _believed():
        return
    connection.settimeout(SILENT)
    first = connection.recv(1 << 16)
    if not first:
        return
    with socket.socket(socket.AF_UNIX) as room:
        room.settimeout(SILENT)
        room.connect(place)
        back = threading.Thread(target=_pass_on, args=(room, connection), daemon=True)
        back.start()
        _pass_on(connection, room, first)
        back.join()


def run() -> int:
    name = os.environ.get("ROOM", "")
    if not names.is_room(name):
        raise SystemExit("rooms-service: ROOM is no name of a room: its unit starts this")
    place = os.path.join(locks.RUN, "rooms", name, "socket")
    os.umask(0o077)
    os.chdir("/")
    # (A socket's unit that was started by a version before has the port alone.)
    listener, *asking = listening.handed_by_kind((socket.AF_INET, socket.AF_NETLINK))
    kernel = Kernel(asking[0], listener) if asking else None
    listening.serve(listener, MOST, IDLE, lambda connection: one(connection, place, kernel))
    return 0
