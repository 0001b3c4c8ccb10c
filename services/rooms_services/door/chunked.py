"""A body that comes without its length, in chunks (RFC 9112 section 7.1), as nginx passes it on."""
import re

from ..room.answers import Stop

# A line that says how long a chunk is, and what may follow the last one.
_SIZE = re.compile(rb"([0-9A-Fa-f]{1,8})[ \t]*(?:;[^\r\n]*)?\r\n")
_MOST = 4096


class Chunked:
    def __init__(self) -> None:
        self.is_over = False
        # How many bytes of a chunk still come; what of a line is here; and what that one says.
        self._left = 0
        self._line = b""
        self._takes = self._size

    def taken(self, some: bytes) -> bytes:
        """What of these bytes, the next that came, is the body's."""
        found = []
        while some and not self.is_over:
            if self._left:
                found.append(some[:self._left])
                some = some[self._left:]
                self._left -= len(found[-1])
                continue
            line, end, some = some.partition(b"\n")
            self._line += line + end
            if len(self._line) > _MOST:
                raise _bad()
            if end:
                line, self._line = self._line, b""
                self._takes(line)
        return b"".join(found)

    def _size(self, line: bytes) -> None:
        size = _SIZE.fullmatch(line)
        if not size:
            raise _bad()
        self._left = int(size[1], 16)
        self._takes = self._end if self._left else self._trailer

    def _end(self, line: bytes) -> None:
        """Of a chunk."""
        if line != b"\r\n":
            raise _bad()
        self._takes = self._size

    def _trailer(self, line: bytes) -> None:
        """Fields that nobody needs."""
        self.is_over = line == b"\r\n"


def _bad() -> Stop:
    return Stop(400, "bad-length", "the body isn't in chunks")
