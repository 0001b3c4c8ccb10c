"""How much the room still takes, as the watch over its size says (rooms-admin full)."""
import os
import re

from rooms_admin.host import safe

from .answers import Stop

_COUNT = re.compile(r"[0-9]{1,15}", re.ASCII)


class Space:
    def __init__(self, full: str = "") -> None:
        """The path of a file that is there while the room takes nothing more. Beside it stands in
        another one how many bytes are left; where it doesn't, nobody knows that."""
        self._full = full
        self._left = full.removesuffix(".full") + ".left"

    def refuse_full(self) -> None:
        if self._full and os.path.lexists(self._full):
            raise Stop(507, "full", "the room is full")

    def refuse(self, size: int) -> None:
        """Of more than is left: before its first byte, and not when the room is full by it."""
        self.refuse_full()
        left = self._read() if self._full else None
        if left is not None and size > left:
            raise Stop(507, "full", f"the room has place for {left} bytes", more={"left": left})

    def _read(self) -> int | None:
        try:
            with open(self._left, encoding="ascii", opener=safe.at_once) as source:
                text = source.read(20).strip()
        except (OSError, ValueError):
            return None
        return int(text) if _COUNT.fullmatch(text) else None
