"""One request of nginx's by SCGI, which is 'LENGTH:NAME\\0VALUE\\0..,BODY', and its answer in the
form of CGI. Much less than HTTP: nginx has read that, and sends these fields alone."""
import re
from collections.abc import Callable

from .room.answers import Answer, Stop, reason

Read = Callable[[int], bytes]
# Of all fields: a target may have 16 kB.
FIELDS = 20480


def written(answer: Answer) -> bytes:
    """Without the parts of one that has these: whoever sends them breaks off where one fails."""
    length = len(answer.body) if answer.parts is None else answer.length
    lines = [f"Status: {answer.status} {reason(answer.status)}",
             *([f"Content-Type: {answer.kind}"] if answer.kind else []),
             *(f"{name}: {text}" for name, text in answer.fields.items()),
             *([] if length is None else [f"Content-Length: {length}"]), "", ""]
    return "\r\n".join(lines).encode("ascii") + answer.body


def not_understood() -> Stop:
    return Stop(400, "bad-body")


def _exactly(read: Read, count: int) -> bytes:
    parts = b""
    while len(parts) < count:
        part = read(count - len(parts))
        if not part:
            raise not_understood()
        parts += part
    return parts


def asked(read: Read, most: int) -> tuple[dict[str, str], bytes]:
    """The fields, and the body of at most so many bytes."""
    head = b""
    while not head.endswith(b":"):
        head += _exactly(read, 1)
        if not re.fullmatch(rb"[0-9]{0,5}:?", head):
            raise not_understood()
    length = int(head[:-1] or b"0")
    if not 0 < length <= FIELDS:
        raise not_understood()
    text = _exactly(read, length + 1)
    if not text.endswith(b"\0,"):
        raise not_understood()
    words = text[:-2].decode("latin-1").split("\0")
    fields = dict(zip(words[::2], words[1::2]))
    size = fields.get("CONTENT_LENGTH", "")
    if len(fields) * 2 != len(words) or not re.fullmatch("[0-9]{1,5}", size):
        raise not_understood()
    if int(size) > most:
        raise Stop(413, "too-large")
    return fields, _exactly(read, int(size))
