"""The folded texts of a room's documents as one night found them: FOLDER/texts, in which they stand
one after the other, and FOLDER/index, which says where; FOLDER/parts says which parts the large
ones are made of. They are made anew each night, of that night's documents alone: what was removed
is in none. Nothing in them is made of several
documents, so nothing that is answered of one depends on another. A document has the number that the
night's copy gave it, and no name here."""
import hashlib
import json
import mmap
import os
import struct
from array import array
from bisect import bisect_left
from collections.abc import Iterable, Iterator
from typing import IO, Any, NamedTuple

from .extract import VERSION
from .sink import State

# Of a folded text: a letter may become eighteen.
MOST_FOLDED = 2 << 20
# Of the form of these files: the rows of the index go up by their numbers.
FORM = 2
_ROW = struct.Struct("<qqIB32s")
_STATES = list(State)
_BEGIN = 4096


class Place(NamedTuple):
    """Where the text of a document stands, what came of it, and the sum of its bytes."""
    at: int
    length: int
    state: State
    sum: bytes


class Hit(NamedTuple):
    """In how many places a document has the words."""
    number: int
    places: int


class Looked(NamedTuple):
    """`empty` is how many have no text, or not all of it; what isn't known is new to it."""
    hits: list[Hit]
    unknown: list[int]
    empty: int


def sum_of(data: bytes) -> bytes:
    return hashlib.sha256(data).digest()


class NoStore(Exception):
    """There is none, or it isn't whole."""


class Making:
    """A store, while it is made. Equal bytes have one text, which is found by a number alone."""

    def __init__(self, folder: str) -> None:
        self._folder = folder
        os.mkdir(folder, 0o700)
        self._out: IO[bytes] = open(f"{folder}/texts", "xb")
        self._size = 0
        self._by_sum: dict[bytes, Place] = {}
        self._rows: list[tuple[int, bytes]] = []
        self._parts: dict[int, list[int]] = {}

    def has(self, total: bytes) -> bool:
        return total in self._by_sum

    def note(self, number: int, total: bytes, parts: Iterable[int] = ()) -> None:
        """A document with these bytes, whose text is put before the end."""
        self._rows.append((number, total))
        if parts := sorted(parts):
            self._parts[number] = parts

    def put(self, total: bytes, state: State, folded: bytes) -> None:
        if len(folded) > MOST_FOLDED:
            # (half a letter at its end is found by nobody)
            state, folded = State.CUT, folded[:MOST_FOLDED]
        self._by_sum[total] = Place(self._size, len(folded), state, total)
        self._out.write(folded)
        self._size += len(folded)

    def state(self, total: bytes) -> State:
        return self._by_sum[total].state

    def end(self, about: dict[str, object]) -> None:
        """It is on the disk, and whole."""
        with self._out:
            _sync(self._out)
        head: dict[str, object] = {**about, "form": FORM, "reader": VERSION, "size": self._size,
                                   "documents": len(self._rows)}
        with open(f"{self._folder}/index", "xb") as out:
            out.write(json.dumps(head).encode() + b"\n")
            for number, total in sorted(self._rows):
                at, length, state, _ = self._by_sum[total]
                out.write(_ROW.pack(number, at, length, _STATES.index(state), total))
            _sync(out)
        with open(f"{self._folder}/parts", "xb") as out:
            out.write(json.dumps(self._parts).encode())
            _sync(out)
        folder = os.open(self._folder, os.O_RDONLY)
        try:
            os.fsync(folder)
        finally:
            os.close(folder)

    def close(self) -> None:
        self._out.close()


def _sync(out: IO[bytes]) -> None:
    out.flush()
    os.fsync(out.fileno())


def _mapped(source: IO[bytes]) -> mmap.mmap | bytes:
    """None of it is held in memory while nobody asks for it."""
    size = os.fstat(source.fileno()).st_size
    return mmap.mmap(source.fileno(), size, access=mmap.ACCESS_READ) if size else b""


def _parts_in(folder: str) -> dict[str, list[int]] | None:
    try:
        with open(f"{folder}/parts", "rb") as source:
            return {number: list(map(int, some)) for number, some in json.load(source).items()}
    except FileNotFoundError:
        return None


class Store:
    """A store that is whole, to be read. There may be a million documents: of each there is a
    number in memory, and what else the index has is looked up in the file."""

    def __init__(self, folder: str) -> None:
        try:
            self._read(folder)
        except (OSError, ValueError, KeyError, TypeError, IndexError, struct.error) as fault:
            raise NoStore(f"{folder}: {fault}") from None

    def _read(self, folder: str) -> None:
        with open(f"{folder}/index", "rb") as source:
            head = json.loads(source.readline(_BEGIN))
            self._rows, self._begin = _mapped(source), source.tell()
        self.night, self.reader, size = str(head["night"]), int(head["reader"]), int(head["size"])
        if head["form"] != FORM or (
                len(self._rows) != self._begin + int(head["documents"]) * _ROW.size):
            raise ValueError("the index isn't whole")
        self._numbers = array("q")
        for number, at, length, state, _ in self._each():
            if at < 0 or at + length > size or state >= len(_STATES):
                raise ValueError("a text isn't there")
            if self._numbers and number <= self._numbers[-1]:
                raise ValueError("the index isn't in its order")
            self._numbers.append(number)
        with open(f"{folder}/texts", "rb") as source:
            self._texts = _mapped(source)
        if len(self._texts) != size:
            raise ValueError("the texts aren't whole")
        self._parts = _parts_in(folder)

    def _each(self) -> Iterator[tuple[Any, ...]]:
        return _ROW.iter_unpack(memoryview(self._rows)[self._begin:])

    def _place(self, number: int) -> Place | None:
        row = bisect_left(self._numbers, number)
        if row == len(self._numbers) or self._numbers[row] != number:
            return None
        _, at, length, state, total = _ROW.unpack_from(
            self._rows, self._begin + row * _ROW.size)
        return Place(at, length, _STATES[state], total)

    def by_sum(self) -> dict[bytes, Place]:
        return {total: Place(at, length, _STATES[state], total)
                for _, at, length, state, total in self._each()}

    def text(self, place: Place) -> bytes:
        return self._texts[place.at:place.at + place.length]

    def match(self, words: Iterable[bytes], numbers: Iterable[int]) -> Looked:
        """Of these documents alone. What comes of one depends on nothing but its own text."""
        words = list(words)
        hits: list[Hit] = []
        unknown: list[int] = []
        empty = 0
        for number in numbers:
            place = self._place(number)
            if place is None or place.state is State.LATER:
                # (it wasn't its turn that night)
                unknown += [number] if place is None else []
                empty += place is not None
                continue
            empty += place.state is not State.WHOLE
            text = self.text(place)
            if all(word in text for word in words):
                hits.append(Hit(number, sum(map(text.count, words))))
        return Looked(hits, unknown, empty)

    def parts(self, numbers: Iterable[int]) -> list[list[int] | None]:
        """The numbers of those of each; nothing where a night of before hasn't said that."""
        return [None if self._parts is None else self._parts.get(str(number), [])
                for number in numbers]

    def sums(self, numbers: Iterable[int]) -> list[str]:
        """Nothing for one that isn't there."""
        return [place.sum.hex() if (place := self._place(number)) else ""
                for number in numbers]
