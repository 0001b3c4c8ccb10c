"""A ZIP that is sent as it comes (PKWARE's APPNOTE 6.3), of what isn't compressed. What stands at
its end repeats each name: whoever writes it says it once more, so that of tens of thousands of
entries some numbers are in memory and not their paths."""
import struct
import time
import zlib
from array import array
from collections.abc import Iterable, Iterator

_LOCAL = struct.Struct("<4s5H3I2H")
_CENTRAL = struct.Struct("<4s6H3I5H2I")
_END = struct.Struct("<4s4H2IH")
_END_64 = struct.Struct("<4sQ2H2I4Q")
_PLACE_64 = struct.Struct("<4sIQI")
# What no longer fits into 32 and 16 bits stands in a part of its own.
_WIDE, _MANY = 0xFFFFFFFF, 0xFFFF
_PLAIN, _LARGE, _UNIX = 20, 45, 3 << 8
# The first day that the format knows, where nothing is known of dates.
_DAY = 1 << 5 | 1
_UTF8 = 0x800


def _moment(at: int) -> tuple[int, int]:
    """Time and day, as the format has them: by the machine's clock, and by two seconds."""
    then = time.localtime(at)
    if not 1980 <= then.tm_year < 2108:
        return 0, _DAY
    return (then.tm_hour << 11 | then.tm_min << 5 | min(then.tm_sec, 59) >> 1,
            then.tm_year - 1980 << 9 | then.tm_mon << 5 | then.tm_mday)


class Writer:
    def __init__(self, place: int = 0) -> None:
        """`place` is how many bytes stand before it."""
        self._place = place
        self._sums, self._sizes, self._places = array("I"), array("I"), array("Q")
        self._moments = array("Q")

    def entry(self, name: str, parts: Iterable[bytes], at: int = 0) -> Iterator[bytes]:
        """A folder's name ends with a slash. The parts are read twice: the length and the sum of a
        document stand before it, so that it can be unpacked as it comes. `at` is when it changed,
        in seconds."""
        size = total = 0
        for part in parts:
            size += len(part)
            total = zlib.crc32(part, total)
        data = name.encode()
        self._sums.append(total)
        self._sizes.append(size)
        self._places.append(self._place)
        self._moments.append(at)
        self._place += _LOCAL.size + len(data) + size
        yield _LOCAL.pack(b"PK\3\4", _PLAIN, _flags(name), 0, *_moment(at), total, size,
                          size, len(data), 0) + data
        yield from parts

    def end(self, names: Iterable[str]) -> Iterator[bytes]:
        """Of the entries, in their order."""
        begin = self._place
        count = 0
        for name, total, size, place, at in zip(names, self._sums, self._sizes, self._places,
                                                self._moments, strict=True):
            row = _central(name, total, size, place, at)
            count += 1
            self._place += len(row)
            yield row
        long = self._place - begin
        if count >= _MANY or self._place >= _WIDE:
            yield _END_64.pack(b"PK\6\6", _END_64.size - 12, _UNIX | _LARGE, _LARGE, 0, 0, count,
                               count, long, begin)
            yield _PLACE_64.pack(b"PK\6\7", 0, self._place, 1)
        yield _END.pack(b"PK\5\6", 0, 0, min(count, _MANY), min(count, _MANY), min(long, _WIDE),
                        min(begin, _WIDE), 0)


def _flags(name: str) -> int:
    return 0 if name.isascii() else _UTF8


def _central(name: str, total: int, size: int, place: int, at: int) -> bytes:
    data = name.encode()
    wide = struct.pack("<2HQ", 1, 8, place) if place >= _WIDE else b""
    needs = _LARGE if wide else _PLAIN
    kind = 0o40755 << 16 | 0x10 if name.endswith("/") else 0o100644 << 16
    return _CENTRAL.pack(
        b"PK\1\2", _UNIX | needs, needs, _flags(name), 0, *_moment(at), total, size, size,
        len(data), len(wide), 0, 0, 0, kind, min(place, _WIDE)) + data + wide
