"""The door over a room in memory, and requests to it as nginx sends them."""
import http.client
import json
import os
import socket
import tempfile
import threading
import unittest

from fake_room import FakeRoom, Served
from fake_would import FakeWould
from rooms_services.room.room import Room
from rooms_services.door.folders.would import Would
from rooms_services.door.serve import Door, opened
from rooms_services.door.webdav import calls
from rooms_services.door.webdav.kept import Kept


class Local(http.client.HTTPConnection):
    def __init__(self, place: str) -> None:
        super().__init__("localhost", timeout=60)
        self.place = place

    def connect(self) -> None:
        self.sock = socket.socket(socket.AF_UNIX, socket.SOCK_STREAM)
        self.sock.settimeout(60)
        self.sock.connect(self.place)


Said = tuple[int, http.client.HTTPMessage, bytes]
LOCKINFO = ('<D:lockinfo xmlns:D="DAV:"><D:lockscope><D:exclusive/></D:lockscope>'
            '<D:locktype><D:write/></D:locktype><D:owner>%s</D:owner></D:lockinfo>')


class Over(unittest.TestCase):
    def setUp(self) -> None:
        folder = tempfile.TemporaryDirectory()
        self.addCleanup(folder.cleanup)
        self.folder = folder.name
        self.room = FakeRoom()
        self.behind = Served(self.at("room"), self.room)
        self.full = self.at("full")
        drive = calls.Drive(Kept(self.at("locks")), self.full)
        self.door = Door(Room(self.at("room")), Would(self.at("would")), drive, self.full)
        self.front = opened(self.at("door"), self.door)
        self.answering = FakeWould(self.at("would"))
        for server in (self.behind, self.front, self.answering):
            threading.Thread(target=server.serve_forever, args=(0.01,), daemon=True).start()
            self.addCleanup(server.server_close)
            self.addCleanup(server.shutdown)

    def at(self, name: str) -> str:
        return os.path.join(self.folder, name)

    def ask(self, method: str, target: str, body: bytes | str = b"", user: str = "alice",
            **fields: str) -> Said:
        connection = Local(self.at("door"))
        given = {name.replace("_", "-"): value for name, value in fields.items()}
        connection.request(method, target, body, {"Room-User": user, **given})
        reply = connection.getresponse()
        told = reply.status, reply.headers, reply.read()
        connection.close()
        return told

    def told(self, target: str, user: str = "alice", **fields: str) -> tuple[int, object]:
        status, _, body = self.ask("GET", target, user=user, **fields)
        return status, json.loads(body)

    def raw(self, message: bytes) -> bytes:
        with socket.socket(socket.AF_UNIX) as at:
            at.settimeout(60)
            at.connect(self.at("door"))
            at.sendall(message)
            at.shutdown(socket.SHUT_WR)
            got = b""
            while part := at.recv(65536):
                got += part
        return got


class Drive(Over):
    def dav(self, method: str, path: str, body: bytes | str = b"", user: str = "alice",
            **fields: str) -> Said:
        return self.ask(method, "/drive" + path, body, user, **fields)

    def status(self, method: str, path: str, body: bytes | str = b"", user: str = "alice",
               **fields: str) -> int:
        return self.dav(method, path, body, user, **fields)[0]

    def make(self, **objects: bytes | None) -> None:
        self.room.make(**objects)

    def lock(self, path: str, user: str = "alice", **fields: str) -> str:
        status, told, body = self.dav("LOCK", path, LOCKINFO % user, user, **fields)
        self.assertIn(status, (200, 201), body)
        return str(told["Lock-Token"])
