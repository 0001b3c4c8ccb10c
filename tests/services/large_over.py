"""A room that judges by lists, with a door to which more than 1,000 bytes are large."""
import hashlib
import json
import os
import threading
from unittest import mock

from fake_room import Served
from judged_room import ALL, JudgedRoom
from over import Over
from rooms_admin.room import in_parts
from rooms_services.room.room import Room
from rooms_services.door.folders.would import Would
from rooms_services.door.serve import Door, opened
from rooms_services.door.webdav import calls
from rooms_services.door.webdav.kept import Kept

MANAGE, KEEP, OWN = f"A:fd:alice:{ALL}", "D:d:EVERYONE@:Dd", "A:fi:OWNER@:d"
CHANGE = f"list:ap {MANAGE} {KEEP} A:fdg:staff:rwaxtc {OWN}"
DROP = f"list:ap {MANAGE} {KEEP} A:g:staff:wx"
ADD = f"list:ap {MANAGE} {KEEP} A:fdg:staff:rxtc A:dg:staff:wa"
READ = f"list:ap {MANAGE} {KEEP} A:fdg:staff:rxtc {OWN}"
# (of tests alone: the parts are as few as in a document of 100 MB, and the bytes are less)
SMALL = 1000
# Requests: the method, the target, the body and further fields.
Tries = tuple[tuple[str, str, bytes | str, dict[str, str]], ...]


def tag_of(data: bytes) -> str:
    return f'"{hashlib.sha256(data).hexdigest()[:32]}"'


def data_of(size: int, seed: int = 1) -> bytes:
    return hashlib.shake_256(bytes([seed])).digest(size)


class Large(Over):
    LISTS = CHANGE

    def setUp(self) -> None:
        super().setUp()
        self.judged = JudgedRoom(("staff", "bob"), ("staff", "pat"), ("staff", "ella"))
        self.served = Served(self.at("judged"), self.judged)
        for where in ("rooms_admin.room.in_parts", "rooms_services.room.parts",
                      "rooms_services.door.serve", "rooms_services.door.routes",
                      "rooms_services.door.webdav.calls",
                      "rooms_services.door.large.pieces",
                      "rooms_services.door.large.replacing"):
            patched = mock.patch(f"{where}.LARGEST", SMALL)
            patched.start()
            self.addCleanup(patched.stop)
        self.door = Door(Room(self.at("judged")), Would(""), calls.Drive(
            Kept(), self.full, largest=100 * SMALL), self.full, largest=100 * SMALL)
        self.addCleanup(self.door.arrivals.clear)
        self.front = opened(self.at("other"), self.door)
        for server in (self.served, self.front):
            threading.Thread(target=server.serve_forever, args=(0.01,), daemon=True).start()
            self.addCleanup(server.server_close)
            self.addCleanup(server.shutdown)
        os.rename(self.at("other"), self.at("door"))
        self.put_list("/", f"list:a A::AUTHENTICATED@:x {MANAGE}")
        for folder in ("p", "e"):
            self.judged.does("alice", "POST", f"/folder/{folder}")
        self.put_list("/p", self.LISTS)
        self.put_list("/e", f"list:ap A:fd:AUTHENTICATED@:{ALL}")

    def put_list(self, path: str, text: str, user: str = "alice") -> None:
        self.judged.does(user, "PUT", f"/dacl{path}", "\n".join(text.split()).encode())

    def answers_in(self, seconds: float) -> None:
        """Each answer of the room takes so long, by the door's clock."""
        self.door.room.clock = lambda: seconds * sum(self.judged.connections)

    def put(self, data: bytes, user: str = "pat", path: str = "p/d", match: str = "") -> int:
        fields = {"If-Match": match} if match else {"If-None-Match": "*"}
        status, told, body = self.ask("PUT", f"/door/doc/{path}", data, user, **fields)
        if status in (201, 204):
            self.assertEqual(told["ETag"], tag_of(data))
        self.said = body
        return status

    def got(self, user: str = "pat", path: str = "p/d") -> bytes | int:
        status, told, body = self.ask("GET", f"/door/doc/{path}", user=user)
        if status == 200:
            self.assertEqual(told["ETag"], tag_of(body))
        return body if status == 200 else status

    def parts(self, path: str = "p/d") -> list[str]:
        above, _, name = path.rpartition("/")
        return [one for one in self.judged.names(*above.split("/"))
                if one.startswith(name + in_parts.MARK)]

    def who_can(self, bit: str) -> dict[str, set[str]]:
        """Of each object in the folder, who has the right."""
        return {name: {user for user in ("alice", "bob", "pat", "ella", "eve")
                       if '"allowed' in json.dumps(self.judged.answer(
                           user, "GET", f"/can/p/{name}?{bit}", b"")[1])}
                for name in self.judged.names("p")}

    def assert_as_one(self) -> None:
        """Everybody has the same rights to all that the document consists of."""
        for bit in "rwadcCot":
            found = self.who_can(bit)
            self.assertEqual({frozenset(users) for users in found.values()},
                             {frozenset(found["d"])}, (bit, found))
