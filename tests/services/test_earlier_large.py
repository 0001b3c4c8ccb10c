"""Documents of more than 1 MiB as they were on an earlier night."""
import io
import os
import tempfile
import threading
import unittest
import zipfile
from unittest import mock

from fake_room import Served
from judged_room import ALL, JudgedRoom
from large_over import SMALL, data_of
from rooms_services.door.large import replacing
from rooms_services.door.folders.matched import Condition
from rooms_services.door.folders.would import Would
from rooms_services.earlier.gate import Opened
from rooms_services.earlier.judging import Look
from rooms_services.earlier.whole import archive
from rooms_services.room.answers import Answer, Stop
from rooms_services.room.large import part
from rooms_services.room.paths import Names
from rooms_services.room.room import Room
from rooms_services.room.space import Space


class Night(unittest.TestCase):
    def setUp(self) -> None:
        folder = tempfile.TemporaryDirectory()
        self.addCleanup(folder.cleanup)
        self.folder = folder.name
        for where in ("rooms_admin.room.in_parts", "rooms_services.room.parts",
                      "rooms_services.door.large.replacing"):
            patched = mock.patch(f"{where}.LARGEST", SMALL)
            patched.start()
            self.addCleanup(patched.stop)
        self.data = data_of(5 * SMALL + 1)
        self.now, self.then = self.room("now"), self.room("then")
        self.put("then", self.data)
        self.put("now", data_of(2 * SMALL, 2))

    def room(self, name: str) -> JudgedRoom:
        judged = JudgedRoom(("staff", "bob"))
        served = Served(os.path.join(self.folder, name), judged)
        threading.Thread(target=served.serve_forever, args=(0.01,), daemon=True).start()
        self.addCleanup(served.server_close)
        self.addCleanup(served.shutdown)
        judged.does("alice", "POST", "/folder/p")
        judged.does("alice", "PUT", "/dacl/",
                    f"list:a\nA:fd:alice:{ALL}\nA:fdg:staff:rxtc\n".encode())
        return judged

    def put(self, name: str, data: bytes) -> None:
        body = io.BytesIO(data)
        replacing.replace(Room(os.path.join(self.folder, name)), Would(""), "alice", ("p", "d"),
                          replacing.Upload(len(data), body.read, Space()),
                          Condition(True, frozenset()))

    def look(self, word: str, names: Names, user: str = "bob") -> Answer:
        look = Look(Room(os.path.join(self.folder, "now")), user, word, names)
        return look.answer(lambda: Opened("owners", os.path.join(self.folder, "then")), 20)

    def test_as_one(self) -> None:
        answer = self.look("doc", ("p", "d"))
        self.assertEqual((answer.status, answer.length), (200, len(self.data)))
        self.assertEqual(b"".join(answer.parts or ()), self.data)
        with self.assertRaises(Stop):
            self.look("doc", ("p", "d"), "eve")

    def test_one_name(self) -> None:
        self.assertEqual(self.look("folder", ("p",)).body,
                         b'[{"kind":"document","name":"d"}]')

    def test_one_that_is_gone(self) -> None:
        for name in reversed(self.now.names("p")):
            self.now.does("alice", "DELETE", f"/object/p/{name}")
        self.assertEqual(self.look("folder", ("p",)).body, b"[]")
        self.assertEqual(self.look("folder", ("p",), "alice").body,
                         b'[{"kind":"document","name":"d"}]')
        self.assertEqual(b"".join(self.look("doc", ("p", "d"), "alice").parts or ()), self.data)

    def test_in_a_zip(self) -> None:
        answer = archive(lambda word, names: self.look(word, names), lambda reply: reply,
                         ("p",), None)
        with zipfile.ZipFile(io.BytesIO(b"".join(answer.parts or ()))) as found:
            self.assertEqual(found.namelist(), ["p/", "p/d"])
            self.assertEqual(found.read("p/d"), self.data)

    def test_a_part_that_lacks(self) -> None:
        name = part(("p", "d"), 2)[-1]
        self.then.does("alice", "DELETE", f"/object/p/{name}")
        with self.assertRaises(Stop) as stop:
            self.look("doc", ("p", "d"))
        self.assertEqual((stop.exception.status, stop.exception.why), (409, "not-whole"))


if __name__ == "__main__":
    unittest.main()
