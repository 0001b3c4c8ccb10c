"""Who calls a verb by sudo may stop it by a key of the terminal, or read nothing of what it prints.
So what others wait for is done where no terminal has a say, and printed when it is done."""
import fcntl
import io
import os
import signal
import struct
import sys
import types
from collections.abc import Iterator
from typing import Any

from . import handed_on, own_group
from ..cli import output, report

_MARK = struct.Struct("=QQ")


class _Kept(io.RawIOBase):
    """Standard output, in a file with all else that is said: marks tell where."""

    def __init__(self, said: int, marks: int) -> None:
        super().__init__()
        self._said, self._marks = said, marks

    def writable(self) -> bool:
        return True

    def write(self, data: Any, /) -> int:
        begin = os.fstat(self._said).st_size
        length = os.write(self._said, data)
        os.write(self._marks, _MARK.pack(begin, begin + length))
        return length


def go_on() -> None:
    """From here on another process does the work, in a session and a control group that aren't the
    caller's. This one waits for it, hands on what would end it, prints what it said, and ends as it
    did. So nothing is locked before, and nothing is asked from here on."""
    sys.stdout.flush()
    said, marks = (os.memfd_create(name, os.MFD_CLOEXEC) for name in ("said", "marks"))
    fcntl.fcntl(said, fcntl.F_SETFL, os.O_APPEND)
    with report.signals_wait():
        child = os.fork()
        if child == 0:
            os.setsid()
            _keep(said, marks)
        report.catch_signals(_interrupt_once if child == 0 else lambda number, _: os.kill(
            child, number))
    if child == 0:
        handed_on.put_off()
        own_group.leave_anothers()
        return
    _, ended = os.waitpid(child, 0)
    report.catch_signals(signal.SIG_DFL)
    _end(said, marks, os.waitstatus_to_exitcode(ended))


def _interrupt_once(_number: int, _frame: types.FrameType | None) -> None:
    """Who presses the key again doesn't disturb what is put right."""
    report.ignore_signals()
    raise report.interrupted()


def _keep(said: int, marks: int) -> None:
    nothing = os.open(os.devnull, os.O_RDONLY | os.O_CLOEXEC)
    for number, stream in ((nothing, 0), (said, 1), (said, 2)):
        os.dup2(number, stream)
    sys.stdout = io.TextIOWrapper(io.BufferedWriter(_Kept(said, marks)), sys.stdout.encoding,
                                  errors="backslashreplace", line_buffering=True)


def _parts(said: int, marks: int) -> Iterator[tuple[Any, bytes]]:
    """Each with its stream."""
    at = 0
    rows = os.pread(marks, os.fstat(marks).st_size, 0)
    for begin, end in [*_MARK.iter_unpack(rows), (os.fstat(said).st_size,) * 2]:
        yield sys.stderr, os.pread(said, begin - at, at)
        yield sys.stdout, os.pread(said, end - begin, begin)
        at = end


def _end(said: int, marks: int, status: int) -> None:
    try:
        for stream, text in _parts(said, marks):
            if text:
                stream.buffer.write(text)
                stream.flush()
    except OSError as fault:
        report.say(f"failed: {fault}")
        status = 1
    status = output.ended(status)
    if status < 0:
        os.kill(os.getpid(), -status)
    os._exit(status)
