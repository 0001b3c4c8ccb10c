"""Has a document read by a process that is made for it (extract), at its unit's socket. Whoever
wrote it may have that process do and say what they want: it has nothing else, and what it says is
taken as the text of this document, within limits."""
import os
import select
import socket
import time

from .sink import MOST_TEXT, State

PLACE = "/run/rooms-extract/socket"
# What its unit gives it, and a little more; and after how long it was ended by that, most likely.
SECONDS, SLOW = 20.0, 7.0
_PART = 262_144
# Said at once, so that one that didn't begin isn't taken for a document that ends it.
READY = b"ready\n"
_STATES = {one.value.encode(): one for one in State if one is not State.LATER}


def text_of(data: bytes, place: str = PLACE, seconds: float = SECONDS) -> tuple[State, str]:
    """LATER where no process began, since there are as many as there may be, or none."""
    began = time.monotonic()
    try:
        with socket.socket(socket.AF_UNIX) as at:
            at.settimeout(1.0)
            at.connect(place)
            at.setblocking(False)
            got = _talked(at, data, began + seconds)
    except OSError:
        return State.LATER, ""
    if not got.startswith(READY):
        return State.LATER, ""
    said, end, text = got.removeprefix(READY).partition(b"\n")
    state = _STATES.get(said) if end else None
    if state is None:
        return State.LATE if time.monotonic() - began > SLOW else State.BROKEN, ""
    return state, text[:MOST_TEXT].decode("utf-8", "replace")


def _talked(at: socket.socket, data: bytes, until: float) -> bytes:
    """All that it says until it ends, or its time does."""
    got, sent = bytearray(), 0
    while len(got) <= MOST_TEXT + 64 and (left := until - time.monotonic()) > 0:
        reads, writes, _ = select.select([at], [at] if sent <= len(data) else [], [], left)
        if writes:
            sent = _sent(at, data, sent)
        if reads:
            try:
                part = at.recv(_PART)
            except ConnectionError:
                break  # It ended with something unread.
            if not part:
                break
            got += part
    return bytes(got)


def _sent(at: socket.socket, data: bytes, sent: int) -> int:
    """Beyond the end once it knows that this is the end."""
    try:
        if sent == len(data):
            at.shutdown(socket.SHUT_WR)
            return sent + 1
        return sent + at.send(data[sent:sent + _PART])
    except BlockingIOError:
        return sent
    except OSError:
        return len(data) + 1


def is_there(place: str = PLACE) -> bool:
    return os.path.exists(place)
