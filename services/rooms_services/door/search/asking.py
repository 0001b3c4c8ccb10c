"""Asks the keeper of texts (document_texts/keeper.py) about single documents, by their numbers in
the last night's copy. It may have been taken over: what it says is held to its form, and nothing
that is shown of a document's text is its own."""
import json
import re
import socket
from typing import Any, NamedTuple

from ...room.answers import Stop

SECONDS, LONGEST = 30.0, 4 << 20
# So many documents at once: each has some thirty parts at most.
_PARTS_OF = 10_000
_NIGHT = re.compile(r"\d{4}-\d\d-\d\d\.\d{6}", re.ASCII)


class Found(NamedTuple):
    """How often each of these numbers has the words; which aren't known; how many have no text."""
    counts: dict[int, int]
    unknown: set[int]
    empty: int
    night: str


def no_texts() -> Stop:
    return Stop(503, "no-texts", "texts aren't searched until the next night",
                fields={"Retry-After": "600"})


class Asking:
    """One connection, about one room and one copy."""

    def __init__(self, place: str, room: str, copy: int) -> None:
        self._about = {"room": room, "copy": copy}
        self._at = socket.socket(socket.AF_UNIX)
        try:
            self._at.settimeout(SECONDS)
            self._at.connect(place)
        except OSError:
            self._at.close()
            raise no_texts() from None
        self._both = self._at.makefile("rwb")

    def __enter__(self) -> "Asking":
        return self

    def __exit__(self, *_: object) -> None:
        self._both.close()
        self._at.close()

    def _ask(self, what: dict[str, object]) -> dict[str, object]:
        try:
            self._both.write(json.dumps({**self._about, **what}, sort_keys=True).encode() + b"\n")
            self._both.flush()
            said = json.loads(self._both.readline(LONGEST))
        except (OSError, ValueError, RecursionError):
            raise no_texts() from None
        if not isinstance(said, dict) or "none" in said:
            raise no_texts()
        return said

    def match(self, numbers: list[int], words: list[str]) -> Found:
        said: Any = self._ask({"do": "match", "numbers": numbers, "words": words})
        asked = set(numbers)
        try:
            counts = {int(number): int(places) for number, places in said["hits"]}
            found = Found(counts, set(map(int, said["unknown"])), int(said["empty"]),
                          str(said["night"]))
        except (KeyError, TypeError, ValueError, ArithmeticError):
            raise no_texts() from None
        if not (found.counts.keys() <= asked and found.unknown <= asked
                and 0 <= found.empty <= len(asked) and _NIGHT.fullmatch(found.night)):
            raise no_texts()
        return found

    def parts(self, numbers: list[int]) -> list[set[int] | None]:
        """Of which parts each of these documents is; nothing where nobody knows that."""
        found: list[set[int] | None] = []
        for at in range(0, len(numbers), _PARTS_OF):
            some = numbers[at:at + _PARTS_OF]
            said: Any = self._ask({"do": "parts", "numbers": some})
            try:
                row = [None if one is None else set(map(int, one)) for one in said["parts"]]
            except (KeyError, TypeError, ValueError):
                raise no_texts() from None
            if len(row) != len(some):
                raise no_texts()
            found += row
        return found

    def sums(self, numbers: list[int]) -> list[bytes]:
        """Of the bytes in which words were found."""
        said: Any = self._ask({"do": "sums", "numbers": numbers})
        try:
            sums = [bytes.fromhex(one) for one in said["sums"]]
        except (KeyError, TypeError, ValueError):
            raise no_texts() from None
        if len(sums) != len(numbers):
            raise no_texts()
        return sums
