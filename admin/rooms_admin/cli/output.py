"""Standard output and standard error, which somebody may have closed. Whoever looks at the first
lines alone, as head does, ends nothing: a verb isn't cut off in the middle of what it does, and its
status is its own. Nor does a log that takes no more, as of a unit: any account can fill that. What
is closed from the beginning is /dev/null, or the next file that is opened would be it; a verb that
has printed something there ends with 1."""
import io
import os
import sys
from typing import Any

from . import report

_lost = False


class _Output(io.FileIO):
    def write(self, data: Any, /) -> int:
        try:
            return super().write(data)
        except ConnectionError:
            nobody = os.open(os.devnull, os.O_WRONLY | os.O_CLOEXEC)
            os.dup2(nobody, self.fileno())
            os.close(nobody)
            return len(data)


class _Closed(_Output):
    def write(self, data: Any, /) -> int:
        global _lost
        _lost = True
        return len(data)


def _was_closed(number: int) -> bool:
    """One that was is the lowest number that is free."""
    try:
        os.fstat(number)
        return False
    except OSError:
        os.set_inheritable(os.open(os.devnull, os.O_RDWR), True)
        return True


def open_all() -> None:
    closed = {number for number in range(3) if _was_closed(number)}
    if sys.stdin is None:
        sys.stdin = open(0, encoding="utf-8", errors="surrogateescape", closefd=False)
    for number, name in ((1, "stdout"), (2, "stderr")):
        stream = getattr(sys, name)
        if stream is None or isinstance(stream, io.TextIOWrapper):
            raw = (_Closed if number in closed and number == 1 else _Output)(
                number, "w", closefd=False)
            setattr(sys, name, io.TextIOWrapper(
                io.BufferedWriter(raw), stream.encoding if stream else "utf-8",
                errors="backslashreplace", line_buffering=not stream or stream.line_buffering))


def ended(status: int) -> int:
    """The status of a verb that has printed all that it has to."""
    if _lost and status == 0:
        report.say("failed: standard output is closed, so nobody has what was printed")
        return 1
    return status
