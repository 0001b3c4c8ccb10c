"""A room is held by a connection to its server, which answers one after the other and has no limit
of time: whoever has asked one request and stays connected has the room between two transactions.
However this process ends, its connection does, and the server goes on by itself."""
import socket
import time
from collections.abc import Iterator
from contextlib import contextmanager

from . import http_client, waits
from .settings import Room

# An empty question, which changes nothing and needs no right, and its answer's beginning and end.
_ASKS = b"GET /can/? HTTP/1.1\r\nHost: localhost\r\n\r\n"
_BEGINS, _ENDS = b"HTTP/1.1 200 ", b"\r\n\r\n{}"


class NotHeld(Exception):
    """The text says why; `is_fault`, whether somebody should look at it."""
    is_fault = False


class NoAnswer(NotHeld):
    """Nobody else gets one either."""
    is_fault = True


class Held:
    """The room, for as long as it is held."""

    def __init__(self, at: socket.socket) -> None:
        self._at = at
        at.setblocking(False)

    def still(self) -> bool:
        """A server that ended meanwhile has ended the connection, and one that came after it may
        have written."""
        try:
            self._at.recv(1)
            return False
        except BlockingIOError:
            return True
        except OSError:
            return False


def _connected(room: Room, ends: float) -> socket.socket:
    """Where too many wait already, the system refuses a connection without a wait."""
    while True:
        asked = http_client.connection(room, max(0.05, ends - time.monotonic()))
        try:
            asked.connect()
            return asked.sock
        except BlockingIOError:
            asked.close()
            if time.monotonic() > ends:
                raise TimeoutError from None
        time.sleep(0.05)


def _ask(at: socket.socket, ends: float) -> None:
    """A server that somebody has taken over might never come to the end of its answer."""
    at.sendall(_ASKS)
    got = b""
    while not got.endswith(_ENDS):
        at.settimeout(max(0.05, ends - time.monotonic()))
        part = at.recv(1000)
        got += part
        if not part or len(got) > 1000 or time.monotonic() > ends:
            raise ConnectionError("another answer than a room's")
    if not got.startswith(_BEGINS):
        raise ConnectionError("another answer than a room's")


@contextmanager
def held(room: Room) -> Iterator[Held]:
    """Waits for its turn. From then on nobody else is answered until the end of this."""
    if not room.address:
        raise NotHeld(f"{room.unit} has neither a socket nor a port")
    ends = time.monotonic() + waits.TURN
    at = None
    try:
        try:
            at = _connected(room, ends)
            _ask(at, ends)
        except TimeoutError as late:
            raise NoAnswer(f"{room.unit} doesn't answer within {waits.TURN:.0f} s") from late
        except OSError as fault:
            raise NoAnswer(f"{room.unit} doesn't answer: {fault}") from fault
        yield Held(at)
    finally:
        if at is not None:
            at.close()
