"""What the door answers: a status, fields and a body."""
import json
import time
from collections.abc import Iterable, Iterator
from dataclasses import dataclass, field
from http import HTTPStatus

JSON, TEXT = "application/json", "text/plain; charset=utf-8"
_REASONS = {207: "Multi-Status", 423: "Locked", 424: "Failed Dependency",
            507: "Insufficient Storage"}


def reason(status: int) -> str:
    return _REASONS.get(status) or HTTPStatus(status).phrase


def written(told: object) -> bytes:
    """JSON as the room writes it: compact, its keys in order."""
    return json.dumps(told, ensure_ascii=False, sort_keys=True, separators=(",", ":")).encode()


@dataclass
class Answer:
    status: int
    body: bytes = b""
    kind: str = ""
    fields: dict[str, str] = field(default_factory=dict)
    # In the place of a body: its parts, of which nobody knows how many there are; and how many
    # bytes they have together, if that is known.
    parts: Iterable[bytes] | None = None
    length: int | None = None


# How many bytes are sent at once of what is written as it comes, and how long it is sent: whoever
# takes it slowly has the turn of somebody else.
PIECE = 65_536
SENDING = 45.0


def in_pieces(parts: Iterable[bytes]) -> Iterator[bytes]:
    got: list[bytes] = []
    size = 0
    for part in parts:
        got.append(part)
        size += len(part)
        if size >= PIECE:
            yield b"".join(got)
            got, size = [], 0
    yield b"".join(got)


def rows_of(what: dict[str, object]) -> Iterator[bytes]:
    """JSON as `written` has it, of a dictionary whose rows are made as they are sent."""
    mark = b"{"
    for name in sorted(what):
        value = what[name]
        yield mark + written(name) + b":"
        mark = b","
        if not isinstance(value, Iterator):
            yield written(value)
            continue
        before = b"["
        for row in value:
            yield before + written(row)
            before = b","
        yield b"[]" if before == b"[" else b"]"
    yield b"}"


def in_time(parts: Iterator[bytes]) -> Iterator[bytes]:
    until = time.monotonic() + SENDING
    for part in parts:
        if time.monotonic() > until:
            raise Stop(413, "too-long")
        yield part


def told_as_it_comes(what: dict[str, object]) -> Answer:
    return Answer(200, kind=JSON, parts=in_time(in_pieces(rows_of(what))))


def told(what: object, status: int = 200) -> Answer:
    return Answer(status, written(what), JSON)


class Stop(Exception):
    """Ends a request with this status. `why` is the word for programs, `text` is for people, and
    `more` what else the JSON has."""

    def __init__(self, status: int, why: str, text: str = "", at: str = "",
                 more: dict[str, object] | None = None, fields: dict[str, str] | None = None,
                 xml: str = "") -> None:
        super().__init__(why)
        self.status = status
        self.why = why
        self.text = text or why
        self.at = at
        self.more = more or {}
        self.fields = fields or {}
        self.xml = xml

    def answer(self, to_people: bool) -> Answer:
        if self.xml:
            return Answer(self.status, self.xml.encode(), "application/xml; charset=utf-8",
                          self.fields)
        if to_people:
            where = f" at {self.at}" if self.at else ""
            return Answer(self.status, f"{self.text}{where}\n".encode(), TEXT, self.fields)
        what: dict[str, object] = {"why": self.why, **self.more}
        if self.at:
            what["at"] = self.at
        return Answer(self.status, written(what), JSON, self.fields)
