"""The text of a list as the room answers it, taken apart."""
from typing import NamedTuple


class Entry(NamedTuple):
    type: str
    flags: str
    who: str
    mask: str


class List(NamedTuple):
    flags: str
    entries: list[Entry]

    @property
    def is_own(self) -> bool:
        """It is closed to what is passed down (`p`), or has an entry that wasn't (`I`)."""
        return "p" in self.flags or any("I" not in one.flags for one in self.entries)


def read(text: str) -> List:
    head, *lines = text.splitlines()
    return List(head.removeprefix("list:"), [Entry(*line.split(":", 3)) for line in lines])
