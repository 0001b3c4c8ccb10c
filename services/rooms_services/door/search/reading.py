"""What words stand in bytes that were read just now in the caller's name. A process that has
nothing else takes the text out of them (document_texts/extract.py); nothing of it is kept."""
import threading
import time
from collections.abc import Iterable, Iterator
from concurrent.futures import ThreadPoolExecutor
from typing import NamedTuple

from ...document_texts import feed
from ...document_texts.folding import around, folded, plain
from ...document_texts.sink import State

# Documents that are read at once: for one search, and for all of a door.
AT_ONCE, MOST = 3, 4


class Read(NamedTuple):
    """In how many places the words stand there, none where one lacks, and what is shown."""
    places: int
    shown: list[str]
    state: State


LATER = Read(0, [], State.LATER)


def looked(text: str, state: State, words: list[str]) -> Read:
    text = plain(text)
    fold = folded(text)
    if not all(word in fold for word in words):
        return Read(0, [], state)
    return Read(sum(map(fold.count, words)), around(text, words[0]), state)


class Reading:
    def __init__(self, place: str) -> None:
        self._place = place
        self._free = threading.BoundedSemaphore(MOST)

    def _one(self, data: bytes, words: list[str], until: float) -> Read:
        if not data:
            return Read(0, [], State.WHOLE)
        if not self._free.acquire(timeout=max(0.0, until - time.monotonic())):
            return LATER
        try:
            left = until - time.monotonic()
            if left <= 0:
                return LATER
            state, text = feed.text_of(data, self._place, min(left, feed.SECONDS))
            # (a text may become eighteen times as long while it is looked at)
            return looked(text, state, words)
        finally:
            self._free.release()

    def each(self, bodies: Iterable[bytes], words: list[str], seconds: float) -> Iterator[Read]:
        """In their order; those for which these seconds aren't enough have none."""
        until = time.monotonic() + seconds
        with ThreadPoolExecutor(AT_ONCE) as pool:
            yield from pool.map(lambda data: self._one(data, words, until), bodies)
