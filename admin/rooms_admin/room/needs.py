"""What memory a start of a room's server needs. Each night verifies its copy, for which the program
reads it as a start does, and writes down what that took: records and small documents take far more
than their bytes. All numbers are megabytes, of 1,048,576 bytes."""
import os
import re
from dataclasses import dataclass

from ..host import root, safe

# Root's, and read by others: numbers say nothing of anybody.
FOLDER = f"{root.ROOT}/var/lib/rooms-need"
# More nights than are kept.
_MOST = 1000
# What a start needs beside what is in use: pages that a server keeps, and the program itself.
_BESIDE = 128 + 16
_LINE = re.compile(r"([0-9.-]{10,40}) ([0-9]{1,8}) ([0-9]{1,8})", re.ASCII)


@dataclass(frozen=True)
class Need:
    night: str
    used: int
    memory: int

    @property
    def is_more(self) -> bool:
        """Than its bytes say."""
        return self.memory > of_bytes(self.used)


def of_bytes(used: int) -> int:
    """Of documents; a sixteenth is for what small ones need beyond that."""
    return (used + _BESIDE) * 16 // 15


def bytes_for(memory: int) -> int:
    """How much may be in use, by its bytes."""
    return memory - memory // 16 - _BESIDE


def _place(name: str) -> str:
    return os.path.join(FOLDER, name)


def all_of(name: str) -> list[Need]:
    """From the oldest to the newest. What can't be read says nothing."""
    try:
        with open(_place(name), encoding="ascii", errors="replace") as source:
            lines = source.read(100 * _MOST).split("\n")
    except OSError:
        return []
    found = [_LINE.fullmatch(line) for line in lines]
    return [Need(one[1], int(one[2]), int(one[3])) for one in found if one]


def last(name: str) -> Need | None:
    return next(reversed(all_of(name)), None)


def of_night(name: str, night: str) -> Need | None:
    """Of a night, or of the last one where nobody has measured that, as an hourly copy."""
    found = all_of(name)
    same = [one for one in found if one.night == night] or found
    return same[-1] if same else None


def stamp(name: str) -> int:
    """It changes with what is known."""
    try:
        return os.stat(_place(name)).st_mtime_ns
    except OSError:
        return 0


def put(name: str, need: Need) -> None:
    if not os.path.isdir(FOLDER):
        os.makedirs(os.path.dirname(FOLDER), exist_ok=True)
        safe.put_folder(FOLDER, 0o755)
    rows = [*all_of(name)[1 - _MOST:], need]
    text = "".join(f"{one.night} {one.used} {one.memory}\n" for one in rows)
    safe.put_file(_place(name), text.encode(), 0o644)
