"""What the service asks of who reads and writes nginx's files of passwords, which it reaches at a
socket alone."""
import os
import socket
from collections.abc import Iterator
from contextlib import contextmanager
from dataclasses import dataclass

from rooms_admin.cli import report
from rooms_admin.host import locks

from ..room.answers import Stop
from ..scgi import not_understood

SOCKET = os.path.join(locks.RUN, "rooms-own-password/file")
_PATIENCE = 10.0
_LONGEST = 1 << 16


@dataclass(frozen=True)
class Found:
    """The present password of a user, and what tells this line from any other."""
    hashed: bytes
    digest: bytes


class Lines:
    """One connection, for one change."""

    def __init__(self, asking: socket.socket) -> None:
        self._asking = asking
        self._source = asking.makefile("rb")

    def _said(self, *words: bytes) -> bytes:
        self._asking.sendall(b" ".join(words) + b"\n")
        said = self._source.readline(_LONGEST).rstrip(b"\n")
        if said == b"none":
            raise Stop(404, "not-here")
        if said == b"busy":
            raise Stop(503, "busy")
        if said == b"refused":
            raise not_understood()
        if said in (b"", b"failed"):
            raise report.Stop("the file of passwords can't be read or written")
        return said

    def of(self, room: str, user: str) -> Found | None:
        said = self._said(b"line", room.encode(), user.encode())
        if said == b"no-line":
            return None
        _, digest, hashed = said.split(b" ", 2)
        return Found(hashed, digest)

    def put(self, room: str, user: str, before: Found, hashed: bytes) -> None:
        """In the place of the line that was found, if it is still that one."""
        if self._said(b"put", room.encode(), user.encode(), before.digest, hashed) != b"done":
            raise Stop(409, "changed")


@contextmanager
def asked() -> Iterator[Lines]:
    with socket.socket(socket.AF_UNIX) as asking:
        asking.settimeout(_PATIENCE)
        asking.connect(SOCKET)
        yield Lines(asking)
