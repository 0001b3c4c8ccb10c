"""A look at a disk or at another machine that may hang: a process of its own has it, and whoever
asks waits no longer than they say."""
import json
import os
import resource
import select
import signal
import socket
import time
from collections.abc import Callable
from typing import Any

from . import processes
from ..cli.report import Stop

# How long a disk of backups may take to be listed.
PATIENCE = 20.0


class Hangs(Stop):
    """No answer came in time."""


class TooLarge(Stop):
    """There is no answer of the size that it may have."""


def answer(seconds: float, look: Callable[[], object], what: str) -> object:
    """What `look` found, which has a form in JSON; nothing if it failed. One whose disk hangs can't
    be ended, and isn't waited for."""
    return steadily(seconds, lambda _goes_on: look(), what)


def steadily(seconds: float, work: Callable[[Callable[[], None]], object], what: str,
             *files: int) -> object:
    """The same of work that may take long: it says that it goes on by calling what it is given, and
    no two such calls may be further apart than these seconds. It has these open files."""
    ours, theirs = os.pipe()
    child = os.fork()
    if child == 0:
        _look(theirs, work, files)
    os.close(theirs)
    text, is_whole = b"", False
    try:
        while select.select([ours], [], [], seconds)[0]:
            part = os.read(ours, 1 << 16)
            if not part:
                is_whole = True
                return json.loads(text) if text else None
            text = (text + part).lstrip()
    finally:
        os.close(ours)
        if not is_whole:
            os.kill(child, signal.SIGKILL)
        os.waitpid(child, 0 if is_whole else os.WNOHANG)
    raise Hangs(f"{what} doesn't answer within {seconds:.0f} s: does its disk hang?")


def _look(theirs: int, work: Callable[[Callable[[], None]], object], files: tuple[int, ...]
          ) -> None:
    """It never gets back to what called it. It has none of its other files, so it keeps no lock,
    and nobody waits for what it may print. A space before what it found says that it goes on."""
    try:
        processes.keep_files(theirs, *files)
        processes.say_nothing(theirs, *files)
        processes.end_with_parent()
        for one in (signal.SIGTERM, signal.SIGINT, signal.SIGHUP):
            signal.signal(one, signal.SIG_DFL)
        text = json.dumps(work(lambda: _put(theirs, b" "))).encode()
        _put(theirs, text)
        os._exit(0)
    finally:
        os._exit(1)


def _put(number: int, text: bytes) -> None:
    while text:
        text = text[os.write(number, text):]


class Apart:
    """A process that answers questions one after the other, which have a form in JSON as its
    answers do. It ends with whoever asks, or beyond so many bytes of memory."""

    def __init__(self, work: Callable[[Any], object], memory: int) -> None:
        self._at, theirs = socket.socketpair()
        self._most = memory
        self._child = os.fork()
        if self._child == 0:
            _work(theirs, work, memory)
        theirs.close()

    def ask(self, question: object, seconds: float) -> Any:
        """What comes later than that, or takes more than its memory, is no answer, and there is
        none from then on."""
        ends = time.monotonic() + seconds
        text = bytearray()
        try:
            self._at.sendall(json.dumps(question).encode() + b"\n")
            while not text.endswith(b"\n"):
                if not select.select([self._at], [], [], max(0.0, ends - time.monotonic()))[0]:
                    self.end()
                    raise Hangs(f"no answer within {seconds:.0f} s")
                part = self._at.recv(1 << 20)
                text += part
                if not part or len(text) > self._most:
                    raise ConnectionError
            return json.loads(text)
        except ConnectionError:
            self.end()
            raise TooLarge(f"an answer may take {self._most >> 20} MB of memory") from None

    def end(self) -> None:
        self._at.close()
        os.kill(self._child, signal.SIGKILL)
        # One that can't be ended isn't waited for.
        os.waitpid(self._child, os.WNOHANG)


def _work(at: socket.socket, work: Callable[[Any], object], memory: int) -> None:
    """It never gets back to what called it."""
    try:
        for one in (signal.SIGTERM, signal.SIGINT, signal.SIGHUP):
            signal.signal(one, signal.SIG_DFL)
        processes.end_with_parent()
        processes.keep_files(at.fileno())
        processes.say_nothing(at.fileno())
        # A library may leave out what it has no memory for: so an answer may take half of it.
        resource.setrlimit(resource.RLIMIT_DATA, (2 * memory, 2 * memory))
        with at.makefile("rb") as questions:
            for line in questions:
                found = work(json.loads(line))
                if resource.getrusage(resource.RUSAGE_SELF).ru_maxrss << 10 > memory:
                    return
                at.sendall(json.dumps(found).encode() + b"\n")
    except (MemoryError, OSError):
        pass
    finally:
        os._exit(0)
