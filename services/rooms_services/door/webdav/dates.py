"""When the door first saw these bytes at a path. The room keeps no dates, and several clients show
or accept nothing that has none. So a date says 'not changed since', and may be later than the last
change, never earlier: whoever compares dates sends or fetches something once too often at most.

It is kept by path and not by the bytes alone, so that nobody learns by sending bytes whether and
when somebody else had the same."""
import hashlib
import os
import threading
import time
from collections.abc import Callable
from email.utils import formatdate

from ...room.paths import Names, shown

MOST = 50_000
# What is remembered of a path, whose name may have 4,096 bytes, and of a tag.
_SHORT, _MOMENT = 16, 8


class Dates:
    def __init__(self, now: Callable[[], float] = time.time) -> None:
        self._now = now
        # (with a key, nobody finds two paths that are one here)
        self._key = os.urandom(32)
        self._seen: dict[bytes, bytes] = {}
        self._mutex = threading.Lock()

    def _short(self, text: str) -> bytes:
        return hashlib.blake2b(text.encode(), digest_size=_SHORT, key=self._key).digest()

    def of(self, names: Names, tag: str) -> str:
        """As HTTP writes it."""
        place, bytes_ = self._short(shown(names)), self._short(tag)
        with self._mutex:
            last = self._seen.get(place, b"")
            if last[:_SHORT] != bytes_:
                last = bytes_ + int(self._now()).to_bytes(_MOMENT, "big")
                self._seen.pop(place, None)
                self._seen[place] = last
                if len(self._seen) > MOST:
                    del self._seen[next(iter(self._seen))]
        return formatdate(int.from_bytes(last[_SHORT:], "big"), usegmt=True)

    def moved(self, names: Names, to: Names) -> None:
        """A document. Of those in a folder that moved the dates begin anew."""
        with self._mutex:
            last = self._seen.pop(self._short(shown(names)), None)
            if last is not None:
                self._seen[self._short(shown(to))] = last
