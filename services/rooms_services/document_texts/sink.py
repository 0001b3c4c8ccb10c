"""What is taken of one document, and how its reading ends."""
from enum import Enum

# Bytes of text of one document, and bytes that are unpacked for it.
MOST_TEXT, MOST_WIDE = 1 << 20, 24 << 20


class State(Enum):
    """What came of a document."""
    WHOLE = "whole"
    # There is more than is taken.
    CUT = "cut"
    # It has no text: a picture, a program, a kind that isn't read.
    NONE = "none"
    # Nor have its pictures.
    BLANK = "blank"
    # A password is needed.
    CLOSED = "closed"
    BROKEN = "broken"
    # It took too long, or too much memory.
    LATE = "late"
    # What reads it isn't installed.
    LACKS = "lacks"
    # It wasn't its turn yet.
    LATER = "later"
    # It has more bytes than are read.
    LARGE = "large"

    @property
    def may_change(self) -> bool:
        """Though the document's bytes don't."""
        return self in (State.LACKS, State.LATER)


class Full(Exception):
    """There is more than is taken."""


class Closed(Exception):
    """A password is needed."""


class Sink:
    def __init__(self) -> None:
        self._parts: list[bytes] = []
        self._left = MOST_TEXT

    def add(self, text: str) -> None:
        self.add_bytes(text.encode("utf-8", "replace"))

    def add_bytes(self, part: bytes) -> None:
        """A part of UTF-8."""
        self._parts.append(part[:self._left])
        if len(part) > self._left:
            self._left = 0
            raise Full
        self._left -= len(part)

    def text(self) -> str:
        return b"".join(self._parts).decode("utf-8", "replace")
