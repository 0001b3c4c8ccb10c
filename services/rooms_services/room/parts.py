"""A document of parts, read as one. Each part is asked for by itself, so that others are answered
in between, and compared with its digest: whoever reads while it is replaced gets one version or an
end in the middle, and never two halves."""
import time
from collections.abc import Iterable, Iterator
from itertools import chain

from rooms_admin.room import in_parts
from rooms_admin.room.in_parts import LARGEST, Manifest

from . import large
from .answers import Answer
from .paths import Names
from .ranges import range_of, said
from .room import Room, about, ended

# How long one is sent at most, or as long as it takes at so many bytes a second: whoever takes it
# slowly has the turn of somebody else.
SECONDS, SLOWEST = 3600.0, 30_000


class Parts:
    """Of these bytes, the last of which stands before `end`. They can be read again and again."""

    def __init__(self, room: Room, user: str, names: Names, manifest: Manifest) -> None:
        self._room, self._user, self._names = room, user, names
        self.manifest = manifest

    def __iter__(self) -> Iterator[bytes]:
        return self.between(0, self.manifest.size)

    def between(self, first: int, end: int) -> Iterator[bytes]:
        """All of it is compared with the digest of all before its last part is told."""
        whole = in_parts.Sum() if (first, end) == (0, self.manifest.size) else None
        for index in range(first // LARGEST, in_parts.count_for(end)):
            begin = index * LARGEST
            part = self._part(index)
            if whole:
                whole.add(part)
                if begin + len(part) == end and whole.digest != self.manifest.digest:
                    raise large.not_whole(self._names)
            yield part[max(0, first - begin):end - begin]

    def _part(self, index: int) -> bytes:
        number, _ = self.manifest.parts[index]
        reply = self._room.ask(self._user, about(
            "GET", "doc", large.part(self._names, number)))
        if reply.status != 200 or not self.manifest.is_part(index, reply.body):
            raise large.not_whole(self._names)
        return reply.body

    def answer(self, wanted: str, fields: dict[str, str]) -> Answer:
        """All of it, or the range that a field Range wants. The first part is read before anything
        is sent, so that what is wrong there has a status."""
        size = self.manifest.size
        part = range_of(wanted, size) if wanted else None
        first, end = part or (0, size)
        if part:
            fields = {**fields, "Content-Range": said(part, size)}
        some = _in_time(self.between(first, end), max(SECONDS, (end - first) / SLOWEST))
        return Answer(206 if part else 200, kind="application/octet-stream", fields=fields,
                      parts=chain([next(some)], some), length=end - first)


def joined(parts: Iterable[bytes]) -> bytes:
    """Not twice in memory."""
    whole = bytearray()
    for part in parts:
        whole += part
    return whole


def _in_time(parts: Iterator[bytes], seconds: float) -> Iterator[bytes]:
    until = time.monotonic() + seconds
    for part in parts:
        if time.monotonic() > until:
            raise ended()
        yield part
