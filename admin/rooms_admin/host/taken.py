"""A file of root's on a disk that may hang, brought here by a process of its own: whoever reads it
then has no such disk to wait for, and may hold what others wait for."""
import os
import tempfile
from collections.abc import Callable, Iterator
from contextlib import contextmanager
from typing import IO

from . import safe, tempdirs, waiting


def into(place: str, number: int) -> None:
    """All of that file, and its time, into one that is open here."""
    def work(goes_on: Callable[[], None]) -> object:
        try:
            with safe.own_file(place) as source:
                safe.copy_all(source.fileno(), number, goes_on)
                seen = os.fstat(source.fileno())
            os.utime(number, ns=(seen.st_atime_ns, seen.st_mtime_ns))
            return []
        except OSError as fault:
            return [fault.errno, fault.strerror]
    fault = waiting.steadily(waiting.PATIENCE, work, place, number)
    if not isinstance(fault, list):
        raise OSError(f"{place}: the look failed")
    if fault:
        raise OSError(*fault, place)


@contextmanager
def file(place: str) -> Iterator[IO[bytes]]:
    """It has no name here, so a kill leaves none."""
    with tempfile.TemporaryFile(dir=tempdirs.place()) as made:
        into(place, made.fileno())
        made.seek(0)
        yield made
