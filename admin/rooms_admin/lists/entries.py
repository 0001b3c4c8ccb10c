"""The lines of a list, taken apart (docs/list-text.md): who in rooms-admin reads an entry reads it
by this."""
import re
from dataclasses import dataclass

_ENTRY = re.compile(r"([ADUL]):([a-zA-Z]*):([^:]*):([a-zA-Z]*)", re.ASCII)
_SPECIAL = ("OWNER@", "GROUP@", "EVERYONE@", "ANONYMOUS@", "AUTHENTICATED@")


@dataclass(frozen=True)
class Entry:
    type: str
    flags: str
    who: str
    mask: str

    def of(self, who: str, group: bool) -> bool:
        return self.who == who and ("g" in self.flags) == group

    @property
    def is_inherited(self) -> bool:
        """It came from the folder above."""
        return "I" in self.flags

    @property
    def group(self) -> str:
        """The group that it names."""
        return self.who if "g" in self.flags and self.who not in _SPECIAL else ""

    @property
    def user(self) -> str:
        return "" if self.group or self.who in _SPECIAL else self.who


def entry(line: str) -> Entry | None:
    found = _ENTRY.fullmatch(line)
    return Entry(*found.groups()) if found else None


def is_inherited(line: bytes) -> bool:
    found = entry(line.decode("ascii", "replace"))
    return found is not None and found.is_inherited


def is_own(lines: list[bytes]) -> bool:
    """Whether an object has something in this list of its own: it is closed to the folder above, or
    has an entry that didn't come from there."""
    return b"p" in lines[0].removeprefix(b"list:") or not all(map(is_inherited, lines[1:]))
