"""One range of bytes, as the field Range asks for it (RFC 9110, section 14)."""
import re

from .answers import Stop

_RANGE = re.compile(r"bytes=(\d{0,15})-(\d{0,15})", re.ASCII)


def range_of(text: str, size: int) -> tuple[int, int] | None:
    """First byte and the one behind the last, of one range; None if it is to be ignored."""
    match = _RANGE.fullmatch(text)
    if match is None or match[1] == match[2] == "":
        return None
    if match[1] == "":
        first, end = max(0, size - int(match[2])), size
    else:
        first, end = int(match[1]), min(size, int(match[2]) + 1) if match[2] else size
        if match[2] and int(match[2]) < first:
            return None
    if first >= size or first >= end:
        raise Stop(416, "no-range", "no such range", fields={"Content-Range": f"bytes */{size}"})
    return first, end


def said(part: tuple[int, int], size: int) -> str:
    return f"bytes {part[0]}-{part[1] - 1}/{size}"
