"""A room in memory that judges by lists, as tests/model has it, where the door asks for it."""
import json
import os
import sys
from urllib.parse import unquote

sys.path.append(os.path.join(os.path.dirname(os.path.dirname(os.path.abspath(__file__))), "model"))

import acl  # noqa: E402
import messages  # noqa: E402
import room as model  # noqa: E402
from fake_room import Ends, Said  # noqa: E402

WORDS = {(method, route): word for word, (method, route) in messages.ROUTES.items() if route}
ALL = "rwanNxDtThHdcCoy"


def entry_of(line: str) -> acl.Entry:
    kind, flags, who, mask = line.split(":")
    return acl.Entry(kind, frozenset(flags), who, frozenset(mask))


class JudgedRoom:
    """Bytes are kept as texts of as many letters. With `left` it ends before that many changes
    more are made."""

    def __init__(self, *members: tuple[str, str]) -> None:
        self.room = model.new_room("alice", "staff")
        self.room.pairs = set(members)
        self.seen: list[str] = []
        self.connections: list[int] = []
        self.left: int | None = None
        # Whether the last of them is made all the same, and only not answered.
        self.is_mute = False

    def answer(self, user: str, method: str, target: str, body: bytes) -> Said:
        self.seen.append(f"{user} {method} {target}")
        if method != "GET" and self.left is not None:
            if self.left < 0 or self.left == 0 and not self.is_mute:
                raise Ends
            self.left -= 1
        whole, _, query = target.partition("?")
        _, route, rest = whole.split("/", 2)
        path = tuple(unquote(rest).split("/")) if rest else ()
        reply = self.room.ask(user, self._request(method, route, path, query, body))
        if self.left is not None and self.left < 0:
            raise Ends
        if reply.kind == "application/json":
            return reply.status, json.loads(reply.body) if reply.body else b""
        return reply.status, reply.body.encode("latin-1")

    def _request(self, method: str, route: str, path: tuple[str, ...], query: str, body: bytes
                 ) -> messages.Request:
        if route in ("dacl", "sacl"):
            head, *lines = body.decode().split() or [""]
            return messages.Request(
                "ReadList" if method == "GET" else "SetList", path, which=route,
                flags=frozenset(head.removeprefix("list:")), entries=tuple(map(entry_of, lines)))
        word = WORDS[method, route] if (method, route) != ("PUT", "attr") else "SetOwners"
        told = json.loads(body) if word in ("Move", "SetOwners") else {}
        return messages.Request(
            word, path, text=body.decode("latin-1") if route == "doc" else "", rights=query,
            to=tuple(told.get("to", "/")[1:].split("/")), owner=told.get("owner", ""),
            group=told.get("group", ""))

    def does(self, user: str, method: str, target: str, body: bytes = b"") -> None:
        status, told = self.answer(user, method, target, body)
        assert status in (200, 201, 204), (method, target, status, told)

    def names(self, *path: str) -> list[str]:
        node = self.room.at(path)
        assert node
        return [one.name for one in node.in_order()]

    def bytes_at(self, *path: str) -> bytes:
        node = self.room.at(path)
        assert node
        return node.text.encode("latin-1")
