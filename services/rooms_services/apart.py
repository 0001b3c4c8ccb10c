"""One document given to a process that has nothing else: an account of its own, no file, no network
and an end after some seconds. Whatever the document makes of it, it can lie about that document
alone. systemd starts it for each connection at its socket.

It says that it is there, gets a line of words and the document up to the end, and answers with a
line of JSON, which has the length of what follows. Where as many run as may, systemd closes the
connection before any of that."""
import json
import socket
import tempfile
import time
from collections.abc import Iterator
from contextlib import contextmanager

from rooms_admin.host import safe

from .room.answers import written

_READY = b"ready\n"
# A line of words, and a line of JSON.
_WORDS = 1024
# Between two tries, while as many run as may.
_PAUSE = 0.2


class Absent(Exception):
    """No process is started there: nothing listens."""


class Busy(Exception):
    """As many run as may."""


class Ended(Exception):
    """It ended, or was ended, before it had answered as a whole."""


Told = tuple[dict[str, object], bytes]


def asked(place: str, words: str, document: bytes, most: int, patience: float,
          seconds: float) -> Told:
    """What it answers, with at most so many bytes. `patience` is how long it may take until one is
    there, and `seconds` how long that may take then."""
    until = time.monotonic() + patience
    while True:
        with _connected(place) as at:
            if _begins(at, until):
                return _understood(_answered(at, (f"{words}\n".encode(), document), most, seconds))
        if time.monotonic() > until:
            raise Busy
        time.sleep(_PAUSE)


def _connected(place: str) -> socket.socket:
    at = socket.socket(socket.AF_UNIX, socket.SOCK_STREAM)
    try:
        at.connect(place)
    except OSError as fault:
        at.close()
        raise Absent from fault
    return at


def _begins(at: socket.socket, until: float) -> bool:
    got = b""
    try:
        while len(got) < len(_READY):
            at.settimeout(max(until - time.monotonic(), _PAUSE))
            part = at.recv(len(_READY) - len(got))
            if not part:
                return False
            got += part
    except OSError:
        return False
    return got == _READY


def _answered(at: socket.socket, sent: tuple[bytes, bytes], most: int, seconds: float) -> bytes:
    until = time.monotonic() + seconds
    got = bytearray()
    try:
        at.settimeout(seconds)
        for part in sent:
            at.sendall(part)
        at.shutdown(socket.SHUT_WR)
        while True:
            at.settimeout(max(until - time.monotonic(), _PAUSE))
            part = at.recv(65_536)
            if not part:
                return bytes(got)
            got += part
            if len(got) > most + _WORDS or time.monotonic() > until:
                raise Ended
    except OSError as fault:
        raise Ended from fault


def _understood(got: bytes) -> Told:
    line, _, body = got.partition(b"\n")
    try:
        head = json.loads(line)
    except (ValueError, RecursionError):
        raise Ended from None
    if not isinstance(head, dict) or head.get("length") != len(body):
        raise Ended
    return head, body


@contextmanager
def given(most: int) -> Iterator[tuple[str, int]]:
    """In such a process: the words, and the number of a file with the document, of at most so many
    bytes, for a program that is given /proc/self/fd/NUMBER. It has no name, and is in memory, where
    the unit has /tmp there."""
    safe.write_all(1, _READY)
    with open(0, "rb", closefd=False) as source, tempfile.TemporaryFile(buffering=0) as file:
        words = source.readline(_WORDS).decode("ascii", "replace").strip()
        while most > 0 and (part := source.read(min(most, 65_536))):
            safe.write_all(file.fileno(), part)
            most -= len(part)
        yield words, file.fileno()


def answer(head: dict[str, object], body: bytes = b"") -> None:
    told: dict[str, object] = {**head, "length": len(body)}
    safe.write_all(1, written(told) + b"\n" + body)
