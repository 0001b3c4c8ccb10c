"""The journal, a file to which nginx adds a line for each change, and the door for its own. nginx
opens it for each line by its name, and writes that as a whole: so it is changed for a new one by
its name, while others write."""
import ctypes
import errno
import os
import time
from collections.abc import Iterator
from contextlib import suppress
from typing import NamedTuple

from . import lines

# Of one transaction, which takes half a second.
PART = 1_000_000
# It is changed when it has so much, or something for so long, since nobody needs what was taken;
# the old one is looked at for a minute, for who had it open, or for some seconds if there is as
# much again by then: a user may have some MB written in a second.
LARGE, AGE, LEFT, SOON = 8_000_000, 600.0, 60.0, 5.0
MODE = 0o620
# What the disk keeps for it, behind its end: lines have their place while the disk is full.
KEPT, _KEEP_SIZE = 4_000_000, 1
# With so little left a line may not have been written.
LITTLE = 65_536
_C = ctypes.CDLL(None)
NOW, OLD, NEW = "journal", "journal.old", "journal.new"


class Part(NamedTuple):
    """Whole lines, the file that has them, and how far it is read with them."""
    ino: int
    upto: int
    lines: list[bytes]


class Journal:
    def __init__(self, folder: str) -> None:
        self._folder = folder
        self._changed_at = time.monotonic()

    def _at(self, name: str) -> str:
        return os.path.join(self._folder, name)

    def _make(self, name: str) -> int:
        """nginx writes to it by its group. Returns its number."""
        file = os.open(self._at(name), os.O_CREAT | os.O_EXCL | os.O_WRONLY, 0o600)
        try:
            # (without it, as on some disks, lines are only less sure)
            _C.fallocate(file, _KEEP_SIZE, ctypes.c_longlong(0), ctypes.c_longlong(KEPT))
            os.fchmod(file, MODE)
            return os.fstat(file).st_ino
        finally:
            os.close(file)

    def is_made(self) -> bool:
        """Whether it was missing: nobody knows what was written."""
        if os.path.lexists(self._at(NOW)):
            return False
        self._make(NOW)
        return True

    def add(self, line: bytes) -> None:
        file = os.open(self._at(NOW), os.O_WRONLY | os.O_APPEND | os.O_NOFOLLOW)
        try:
            if os.write(file, line) != len(line):
                raise OSError(errno.ENOSPC, "a part was written")
        finally:
            os.close(file)

    def _stat(self, name: str) -> os.stat_result | None:
        try:
            return os.stat(self._at(name), follow_symlinks=False)
        except FileNotFoundError:
            return None

    def sizes(self) -> list[tuple[int, int]]:
        """The number and size of each file."""
        return [(one.st_ino, one.st_size) for name in (OLD, NOW) if (one := self._stat(name))]

    def may_have_lost(self) -> bool:
        """Whether the disk may have had no place for a line."""
        found = self._stat(NOW)
        room = os.statvfs(self._folder)
        return (found is not None and found.st_blocks * 512 < found.st_size + LITTLE
                and room.f_bavail * room.f_frsize < LITTLE)

    def parts(self, taken: dict[int, int]) -> Iterator[Part | None]:
        """What isn't taken yet, the old file first; None where a file was cut short."""
        for name in (OLD, NOW):
            with suppress(FileNotFoundError), open(self._at(name), "rb") as file:
                about = os.fstat(file.fileno())
                begin = taken.get(about.st_ino, 0)
                if begin > about.st_size:
                    yield None
                    begin = 0
                file.seek(begin)
                part = file.read(PART)
                # What has no end yet is looked at again.
                whole = part[:part.rfind(b"\n") + 1]
                if not whole and len(part) >= lines.LONGEST:
                    whole = part
                if whole:
                    yield Part(about.st_ino, begin + len(whole), whole.split(b"\n"))
                    return

    # Another one in its place

    def is_old(self) -> bool:
        """Whether something is to be done about that."""
        now, since = self._stat(NOW), time.monotonic() - self._changed_at
        is_large = now is not None and now.st_size > LARGE
        if self._stat(OLD):
            return since > (SOON if is_large else LEFT)
        return is_large or now is not None and now.st_size > 0 and since > AGE

    def old(self) -> tuple[int, int] | None:
        """The number and size of the old one, if that is no second name of the present one."""
        old, now = self._stat(OLD), self._stat(NOW)
        return (old.st_ino, old.st_size) if old and not (now and now.st_ino == old.st_ino) else None

    def has_old(self) -> bool:
        return self._stat(OLD) is not None

    def remove_old(self) -> None:
        os.unlink(self._at(OLD))

    def make_new(self) -> int:
        """The number of the file that will take its place."""
        with suppress(FileNotFoundError):
            os.unlink(self._at(NEW))
        return self._make(NEW)

    def change(self) -> None:
        """There is one at each moment: a second name for the old one, and then the new one over the
        first."""
        os.link(self._at(NOW), self._at(OLD))
        os.replace(self._at(NEW), self._at(NOW))
        self._changed_at = time.monotonic()
