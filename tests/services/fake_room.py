"""A room in memory, as far as the door needs one (docs/http.md), for tests without the program.

Rights are a set of denials: (user, path, letter). All else is allowed."""
import json
import os
import socketserver
from typing import Protocol
from urllib.parse import unquote

Path = tuple[str, ...]
Said = tuple[int, object]


class Ends(Exception):
    """The room ends before it answers."""


class FakeRoom:
    def __init__(self) -> None:
        self.objects: dict[Path, bytes | None] = {(): None}
        self.denied: set[tuple[str, str, str]] = set()
        self.lists: dict[Path, str] = {}
        self.owners: dict[Path, str] = {}
        self.records: dict[Path, str] = {}
        self.seen: list[str] = []
        self.connections: list[int] = []

    def make(self, **objects: bytes | None) -> None:
        for name, body in objects.items():
            self.objects[tuple(name.split("__"))] = body

    def _refused(self, status: int, why: str, path: Path) -> Said:
        return status, {"at": "/" + "/".join(path), "why": why}

    def _denied(self, user: str, path: Path, bits: str) -> Said | None:
        at = "/" + "/".join(path)
        if any((user, at, bit) in self.denied for bit in bits):
            return 403, {"at": at, "bits": bits, "entry": 1, "text": f"D::{user}:{bits}"}
        return None

    def _walk(self, user: str, path: Path, made: bool) -> Said | None:
        for depth in range(len(path)):
            above = path[:depth]
            if self.objects[above] is not None:
                return self._refused(409, "not-folder", above)
            if denial := self._denied(user, above, "x"):
                return denial
            below = path[:depth + 1]
            if below not in self.objects and not (made and below == path):
                return self._refused(404, "no-such", below)
        return None

    def _children(self, path: Path) -> list[Path]:
        return sorted(below for below in self.objects if below and below[:-1] == path)

    def answer(self, user: str, method: str, target: str, body: bytes) -> Said:
        self.seen.append(f"{user} {method} {target}")
        whole, _, query = target.partition("?")
        _, route, rest = whole.split("/", 2)
        path = tuple(unquote(rest).split("/")) if rest else ()
        made = (method, route) in (("PUT", "doc"), ("POST", "folder"))
        if stopped := self._walk(user, path, made):
            return stopped
        said: Said = getattr(self, f"_{method.lower()}_{route}")(user, path, query, body)
        return said

    def _get_doc(self, user: str, path: Path, _query: str, _body: bytes) -> Said:
        if self.objects[path] is None:
            return self._refused(409, "wrong-kind", path)
        return self._denied(user, path, "r") or (200, self.objects[path])

    def _put_doc(self, user: str, path: Path, _query: str, body: bytes) -> Said:
        there = path in self.objects
        if there and self.objects[path] is None:
            return self._refused(409, "wrong-kind", path)
        if denial := self._denied(user, path if there else path[:-1], "w"):
            return denial
        self.objects[path] = body
        return (204 if there else 201), b""

    def _get_folder(self, user: str, path: Path, _query: str, _body: bytes) -> Said:
        if self.objects[path] is not None:
            return self._refused(409, "wrong-kind", path)
        return self._denied(user, path, "r") or (200, [
            {"kind": "folder" if self.objects[below] is None else "document", "name": below[-1]}
            for below in self._children(path)])

    def _post_folder(self, user: str, path: Path, _query: str, _body: bytes) -> Said:
        if denial := self._denied(user, path[:-1], "a"):
            return denial
        if path in self.objects:
            return self._refused(409, "exists", path)
        self.objects[path] = None
        return 201, b""

    def _leaves(self, user: str, path: Path) -> Said | None:
        return self._denied(user, path, "d") or self._denied(user, path[:-1], "D")

    def _delete_object(self, user: str, path: Path, _query: str, _body: bytes) -> Said:
        if not path:
            return self._refused(409, "root", path)
        if denial := self._leaves(user, path):
            return denial
        if self._children(path):
            return self._refused(409, "not-empty", path)
        del self.objects[path]
        return 204, b""

    def _post_move(self, user: str, path: Path, _query: str, body: bytes) -> Said:
        to = tuple(json.loads(body)["to"][1:].split("/"))
        if not path:
            return self._refused(409, "root", path)
        if stopped := self._walk(user, to, True):
            return stopped
        if denial := self._leaves(user, path) or self._denied(user, to[:-1], "w"):
            return denial
        if to in self.objects:
            return self._refused(409, "exists", to)
        if to[:len(path)] == path:
            return self._refused(409, "loop", to)
        for place in [place for place in self.objects if place[:len(path)] == path]:
            self.objects[to + place[len(path):]] = self.objects.pop(place)
        return 204, b""

    def _get_dacl(self, user: str, path: Path, _query: str, _body: bytes) -> Said:
        return self._denied(user, path, "c") or (
            200, self.lists.get(path, "list:a\nA:I:alice:rw\n").encode())

    def _get_sacl(self, user: str, path: Path, _query: str, _body: bytes) -> Said:
        return self._denied(user, path, "c") or (200, self.records.get(path, "list:a\n").encode())

    def _put_dacl(self, user: str, path: Path, _query: str, body: bytes) -> Said:
        if denial := self._denied(user, path, "C"):
            return denial
        self.lists[path] = body.decode()
        return 204, b""

    def _get_attr(self, user: str, path: Path, _query: str, _body: bytes) -> Said:
        kind = "folder" if self.objects[path] is None else "document"
        return self._denied(user, path, "t") or (200, {
            "group": "staff", "kind": kind, "owner": self.owners.get(path, "alice")})

    def _get_can(self, user: str, path: Path, query: str, _body: bytes) -> Said:
        return 200, {bit: "denied 1" if self._denied(user, path, bit) else "allowed 1"
                     for bit in query}


class _Handler(socketserver.StreamRequestHandler):
    def handle(self) -> None:
        """One connection, up to its end."""
        room: Answers = self.server.room  # type: ignore[attr-defined]
        room.connections.append(0)
        while line := self.rfile.readline():
            room.connections[-1] += 1
            method, target, _ = line.decode().split()
            fields = {}
            while field := self.rfile.readline().decode().strip():
                name, _, value = field.partition(":")
                fields[name.lower()] = value.strip()
            assert set(fields) <= {"room-user", "content-length"}, fields
            body = self.rfile.read(int(fields.get("content-length", 0)))
            try:
                status, told = room.answer(fields["room-user"], method, target, body)
            except Ends:
                return
            bytes_ = told if isinstance(told, bytes) else json.dumps(
                told, ensure_ascii=False, separators=(",", ":")).encode()
            length = "" if status == 204 else f"Content-Length: {len(bytes_)}\r\n"
            self.wfile.write(f"HTTP/1.1 {status} Said\r\nContent-Type: x/y\r\n{length}\r\n"
                             .encode() + bytes_)


class Answers(Protocol):
    connections: list[int]

    def answer(self, user: str, method: str, target: str, body: bytes) -> Said: ...


class Served(socketserver.UnixStreamServer):
    """One connection after the other, as the room does."""
    request_queue_size = 128

    def __init__(self, place: str, room: Answers) -> None:
        if os.path.lexists(place):
            os.unlink(place)
        self.room = room
        super().__init__(place, _Handler)
