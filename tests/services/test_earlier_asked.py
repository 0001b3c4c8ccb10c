"""What comes from nginx about an earlier night, over two rooms in memory: that of today and that of
then."""
import io
import socket
import threading
import unittest
import zipfile
from unittest import mock

from rooms_services.room.answers import Stop
from rooms_services.room import turns
from rooms_services.earlier import gate, judge, whole
from rooms_services.earlier.gate import Opened
from test_earlier import NIGHT, Over, answer


class Asked(Over):
    """What comes from nginx."""

    def test_targets(self) -> None:
        for rest in ("object/letters/reply", "move/letters/reply", "sacl/letters", "attr/letters",
                     "can/letters?r", "doc/letters/reply?r", "doc"):
            self.assertEqual(self.told("alice", rest)[0], 404, rest)
        for rest in ("doc/letters//reply", "doc/letters/../x", "doc/.", "doc/%2e%2e/x", "doc/%ff",
                     "doc/a%00b", "doc/letters%2Freply", "doc/letters/reply/", "doc/" + "a" * 256,
                     "doc/" + "/".join(["a" * 200] * 21)):
            status, told = self.told("alice", rest)
            self.assertEqual(status, 400, rest)
        self.assertEqual(self.now.seen, [])
        self.assertEqual(self.opened, [])

    def test_nights_that_are_none(self) -> None:
        for night in ("../../etc", ".", "..", "latest", "2026-11-01", f"{NIGHT}.part",
                      "2026-11-01.03000", "2026-11-01.0300000", f"..%2F{NIGHT}", f"{NIGHT}%00",
                      "２026-11-01.030000", ""):
            with self.assertRaises(Stop) as stopped:
                answer(self.judge, {"ROOM": "office", "ROOM_USER": "alice",
                                    "TARGET": f"/earlier/{night}/doc/letters/reply"})
            self.assertEqual(stopped.exception.status, 404, night)

    def test_who(self) -> None:
        for room, user, status in (("office", "", 403), ("office", "a b", 400),
                                   ("../x", "alice", 400), ("", "alice", 400),
                                   ("office", "alice\r\nX: y", 400)):
            with self.assertRaises(Stop) as stopped:
                answer(self.judge, {"ROOM": room, "ROOM_USER": user,
                                    "TARGET": f"/earlier/{NIGHT}/doc/letters/reply"})
            self.assertEqual(stopped.exception.status, status, (room, user))

    def by_scgi(self, rest: str) -> bytes:
        ours, theirs = socket.socketpair()
        thread = threading.Thread(target=self.judge.one, args=(theirs,))
        thread.start()
        fields = {"CONTENT_LENGTH": "0", "ROOM": "office", "ROOM_USER": "bob",
                  "TARGET": f"/earlier/{NIGHT}/{rest}"}
        text = b"".join(f"{name}\0{value}\0".encode() for name, value in fields.items())
        ours.sendall(b"%d:%b," % (len(text), text))
        thread.join(10)
        theirs.close()
        said = ours.makefile("rb").read()
        ours.close()
        return said

    def test_by_scgi(self) -> None:
        said = self.by_scgi("doc/letters/reply")
        self.assertEqual(said, b"Status: 200 OK\r\nContent-Type: application/octet-stream\r\n"
                               b"Content-Length: 4\r\n\r\nthen")

    def zipped(self, user: str, rest: str) -> dict[str, bytes]:
        with self.judge.answered(self.fields(user, f"zip/{rest}")) as given:
            assert given.status == 200 and given.parts is not None
            body = b"".join(given.parts)
        with zipfile.ZipFile(io.BytesIO(body)) as whole:
            assert whole.testzip() is None
            return {name: whole.read(name) for name in whole.namelist()}

    def test_a_whole_folder(self) -> None:
        """With what is gone, under names that any system takes; what is closed is left out."""
        self.then.make(letters__g=None, letters__g__b=b"2", letters__x=b"3", letters__CON=b"4")
        self.now.make(letters__x=b"5", letters__later=b"6")
        self.then.objects["letters", "10:30"] = b"7"
        for room in (self.now, self.then):
            room.owners["letters", "x"] = "carol"
        self.deny(self.now, "bob", "/letters/x", "r")
        self.deny(self.now, "bob", "/letters", "C")
        self.deny(self.now, "bob", "/letters/x", "t")
        mine = {"letters/": b"", "letters/reply": b"then"}
        self.assertEqual(self.zipped("bob", "letters"), {
            **mine, "letters/not in this ZIP.txt": b"/letters/x\r\n"})
        gone = {"letters/g/": b"", "letters/g/b": b"2", "letters/_CON": b"4",
                "letters/10_30": b"7"}
        self.assertEqual(self.zipped("alice", "letters"), {**mine, **gone, "letters/x": b"3"})
        self.assertEqual(self.zipped("alice", "letters?x&none"),
                         {"letters/": b"", "letters/x": b"3"})
        for rest, status in (("zip/letters/reply", 409), ("zip/none", 404), ("zip/../x", 400),
                             ("zip/letters?a/b", 400), ("folder/letters?x", 404)):
            self.assertEqual(self.told("alice", rest)[0], status, rest)
        with mock.patch.object(whole, "MOST", 3):
            self.assertEqual(self.told("alice", "zip/letters"), (413, {"why": "too-many"}))

    def test_a_zip_keeps_its_turn(self) -> None:
        with self.judge.answered(self.fields("alice", "zip/letters")):
            self.assertEqual(self.judge.under_way, 1)
            with mock.patch.object(turns, "PATIENCE", 0.05):
                self.assertEqual(self.told("alice", "zip/letters"), (503, {"why": "busy"}))
                self.assertEqual(self.told("bob", "doc/letters/reply"), (200, b"then"))
        self.assertEqual(self.judge.under_way, 0)
        self.assertIn("letters/reply", self.zipped("alice", "letters"))

    def test_a_zip_that_breaks_off(self) -> None:
        """It has no end, and no second answer behind it."""
        with mock.patch.object(whole, "SECONDS", -1.0):
            said = self.by_scgi("zip/letters")
        head, _, body = said.partition(b"\r\n\r\n")
        self.assertTrue(head.startswith(b"Status: 200 OK\r\nContent-Type: application/zip\r\n"))
        self.assertNotIn(b"Content-Length", head)
        self.assertNotIn(b"Status", body)
        self.assertNotIn(b"PK\5\6", body)
        self.assertIn(b"PK\5\6", self.by_scgi("zip/letters"))

    def test_a_copy_that_is_killed_or_hangs_is_opened_anew(self) -> None:
        deaf = socket.socket(socket.AF_UNIX)
        place = self.copy + ".deaf"
        deaf.bind(place)
        deaf.listen(8)
        self.addCleanup(deaf.close)
        for first in (place, self.copy + ".none"):
            places = [first, self.copy]
            ended: list[str] = []

            def opened(_room: str, _night: str, _asker: str, places: list[str] = places) -> Opened:
                return Opened("owners", places.pop(0))

            def ends(room: str, night: str, ended: list[str] = ended) -> None:
                ended.append(night)
            with mock.patch.object(gate, "opened", opened), \
                    mock.patch.object(judge, "PATIENCE", 0.2), \
                    mock.patch.object(gate, "ended", ends):
                self.assertEqual(self.told("bob", "doc/letters/reply"), (200, b"then"))
            self.assertEqual(ended, [NIGHT])

    def test_today_is_away(self) -> None:
        with self.assertRaises(Stop) as stopped:
            answer(self.judge, {"ROOM": "other", "ROOM_USER": "alice",
                                "TARGET": f"/earlier/{NIGHT}/doc/letters/reply"})
        self.assertEqual(stopped.exception.why, "no-room")
        self.assertEqual(self.opened, [])


if __name__ == "__main__":
    unittest.main()
