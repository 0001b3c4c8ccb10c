"""What would come of a change: a question is passed on to `rooms would` (docs/would.md), which
knows no room. Nothing is added to it, so its answer has nothing that whoever wrote it didn't know.

A process of its own answers each question, at a socket of systemd's. Behind a whole answer, and
behind no other, stands the program's version."""
import csv
import io
import re
import socket
import threading
import time
from collections.abc import Iterator
from contextlib import suppress

from ...room.answers import Answer, Stop, told_as_it_comes
from ...room.room import MOST_ANSWERED, too_many

# The unit gives it ten, and its start takes some.
SECONDS = 15.0
# Of the eight that all rooms have, one has so many at a time.
MOST = 4
_HEADER = b"path,kind,user,rights,remove,then,then_remove\n"
_COLUMNS = _HEADER.count(b",") + 1
_WHOLE = re.compile(rb"(.+\n)rooms [0-9]+[.0-9]*\n", re.DOTALL)
_REFUSED = re.compile(r"refused: line [0-9]+: [^\n]+\n")


def no_answer() -> Stop:
    """Also where it was killed, or all of its processes are taken."""
    return Stop(503, "no-answer", "what would come of it can't be said now",
                fields={"Retry-After": "10"})


class Would:
    def __init__(self, place: str, seconds: float = SECONDS) -> None:
        """The path of its socket, and how long it may take."""
        self._place = place
        self._seconds = seconds
        self._free = threading.BoundedSemaphore(MOST)

    def ask(self, question: bytes) -> bytes:
        """The rows, and what stands behind them."""
        if not self._free.acquire(timeout=self._seconds):
            raise no_answer()
        try:
            found = _WHOLE.fullmatch(self._said(question))
        except OSError:
            found = None
        finally:
            self._free.release()
        if found is None:
            raise no_answer()
        answer = found[1]
        if answer.startswith(_HEADER):
            return answer
        line = answer.decode("utf-8", "replace")
        if not _REFUSED.fullmatch(line):
            raise no_answer()
        raise Stop(400, "refused", more={"line": line.removesuffix("\n")})

    def _said(self, question: bytes) -> bytes:
        until = time.monotonic() + self._seconds
        got = bytearray()
        with socket.socket(socket.AF_UNIX) as at:
            at.settimeout(self._seconds)
            at.connect(self._place)
            # It may have answered and ended before it had read all.
            with suppress(ConnectionError):
                at.sendall(question)
                at.shutdown(socket.SHUT_WR)
            with suppress(ConnectionError):
                while part := _received(at, until):
                    got += part
                    if len(got) > MOST_ANSWERED:
                        raise too_many()
        return bytes(got)


def _received(at: socket.socket, until: float) -> bytes:
    left = until - time.monotonic()
    if left <= 0:
        raise TimeoutError
    at.settimeout(left)
    return at.recv(262_144)


def would(service: Would, question: bytes) -> Answer:
    rows, *lists = service.ask(question)[:-1].split(b"\n\nset ")
    try:
        told = [_list(part.decode()) for part in lists]
    except UnicodeError:
        raise no_answer() from None
    return told_as_it_comes({"lists": told, "rows": rows_of(rows)})


def _list(part: str) -> tuple[str, str]:
    path, _, text = part.partition("\n")
    return path, f"{text}\n"


def rows_of(rows: bytes) -> Iterator[list[str]]:
    """Those of an answer, without the header."""
    lines = io.TextIOWrapper(io.BytesIO(rows[len(_HEADER):]), "utf-8", newline="")
    try:
        for row in csv.reader(lines, strict=True):
            if len(row) != _COLUMNS:
                raise no_answer()
            yield row
    except (csv.Error, UnicodeError):
        raise no_answer() from None
