"""What is asked of a room, and the messages by which it is asked (docs/http.md)."""
from __future__ import annotations

import json
from dataclasses import dataclass, field

from acl import Entries, text_of

Path = tuple[str, ...]
# The method, the word of the route, and what the body is.
ROUTES = {
    "Read": ("GET", "doc"),
    "List": ("GET", "folder"),
    "Put": ("PUT", "doc"),
    "Append": ("POST", "doc"),
    "MakeFolder": ("POST", "folder"),
    "Remove": ("DELETE", "object"),
    "Move": ("POST", "move"),
    "ReadList": ("GET", None),
    "SetList": ("PUT", None),
    "ReadAttr": ("GET", "attr"),
    "SetOwners": ("PUT", "attr"),
    "Can": ("GET", "can"),
}


@dataclass(frozen=True)
class Request:
    """The word says which of the others count."""
    word: str
    path: Path
    text: str = ""
    to: Path = ()
    which: str = ""
    flags: frozenset[str] = field(default_factory=frozenset)
    entries: Entries = ()
    owner: str = ""
    group: str = ""
    rights: str = ""

    def body(self) -> str | None:
        match self.word:
            case "Put" | "Append":
                return self.text
            case "Move":
                return as_json({"to": shown(self.to)})
            case "SetList":
                return text_of(self.flags, self.entries)
            case "SetOwners":
                return as_json({"owner": self.owner, "group": self.group})
        return None

    def message(self, user: str | None) -> bytes:
        method, word = ROUTES[self.word]
        target = f"/{word or self.which}{escaped(self.path)}"
        if self.word == "Can":
            target += f"?{self.rights}"
        lines = [f"{method} {target} HTTP/1.1"]
        if user is not None:
            lines.append(f"Room-User: {user}")
        body = self.body()
        if body is not None:
            lines.append(f"Content-Length: {len(body.encode())}")
        return "\r\n".join([*lines, "", body or ""]).encode()


REASONS = {200: "OK", 201: "Created", 204: "No Content", 403: "Forbidden", 404: "Not Found",
           409: "Conflict", 413: "Payload Too Large", 422: "Unprocessable Entity"}


@dataclass(frozen=True)
class Reply:
    status: int
    body: str = ""
    kind: str = "application/json"

    def message(self) -> bytes:
        head = f"HTTP/1.1 {self.status} {REASONS[self.status]}\r\n"
        if self.status == 204:
            return f"{head}\r\n".encode()
        if self.status != 201:
            head += f"Content-Type: {self.kind}\r\n"
        body = self.body.encode()
        return f"{head}Content-Length: {len(body)}\r\n\r\n".encode() + body


def as_json(value: object) -> str:
    return json.dumps(value, separators=(",", ":"), sort_keys=True, ensure_ascii=False)


def shown(path: Path) -> str:
    return "/" + "/".join(path)


def escaped(path: Path) -> str:
    """Each byte that isn't a letter or a digit stands as a percent sign and two digits."""
    return "/" + "/".join(
        "".join(chr(byte) if chr(byte).isalnum() and byte < 128 else f"%{byte:02X}"
                for byte in name.encode())
        for name in path)
