"""Large documents that come in pieces, or slowly: they are what one PUT brings, whoever lost the
line goes on, and nobody keeps the places of others."""
import json
import socket
import threading
import time
import unittest
from collections.abc import Iterator
from unittest import mock

from large_over import READ, SMALL, Large, data_of, tag_of
from rooms_services.door import serve
from rooms_services.door.large import arriving
from rooms_services.door.large.arriving import Arrivals
from rooms_services.door.large.pieces import Uploads
from rooms_services.room import parts, turns

NEW, OLD = {"If_None_Match": "*"}, {"If_Match": "*"}


class InPieces(Large):
    def begin(self, size: int, user: str = "pat", path: str = "p/d", **fields: str) -> str:
        status, _, body = self.ask("POST", f"/door/upload/{path}?{size}", user=user,
                                   **(fields or NEW))
        self.assertEqual(status, 201, body)
        return str(json.loads(body)["upload"])

    def piece(self, upload: str, number: int | str, data: bytes, user: str = "pat"
              ) -> tuple[int, str]:
        status, _, body = self.ask("PUT", f"/door/pieces/{upload}/{number}", data, user)
        return status, json.loads(body)["why"] if body else ""

    def send(self, upload: str, data: bytes, user: str = "pat") -> None:
        for number in range(-(-len(data) // SMALL)):
            part = data[number * SMALL:(number + 1) * SMALL]
            self.assertEqual(self.piece(upload, number + 1, part, user), (204, ""))

    def here(self, upload: str, user: str = "pat") -> object:
        status, _, body = self.ask("GET", f"/door/pieces/{upload}", user=user)
        return json.loads(body)["here"] if status == 200 else json.loads(body)["why"]

    def finish(self, upload: str, user: str = "pat", path: str = "p/d", body: bytes = b"",
               **fields: str) -> tuple[int, str]:
        status, told, said = self.ask("PUT", f"/door/doc/{path}", body, user,
                                      Room_Upload=upload, **(fields or NEW))
        return status, told["ETag"] if status in (201, 204) else str(
            json.loads(said).get("why", ""))

    def sent(self, data: bytes, user: str = "pat", **fields: str) -> str:
        upload = self.begin(len(data), user, **fields)
        self.send(upload, data, user)
        return upload


class Pieces(InPieces):
    def test_as_one_put(self) -> None:
        """In any order, each once or again; and nothing is in the room before its end."""
        data = data_of(4 * SMALL + 1)
        upload = self.begin(len(data))
        for number in (3, 1, 3, 5, 2, 1):
            self.assertEqual(self.piece(upload, number, data[(number - 1) * SMALL:
                                                             number * SMALL]), (204, ""))
        self.assertEqual(self.here(upload), [1, 2, 3, 5])
        self.assertEqual(self.finish(upload), (409, "not-all"))
        self.assertEqual(self.judged.names("p"), [])
        self.assertEqual(self.piece(upload, 4, data[3 * SMALL:4 * SMALL]), (204, ""))
        self.assertEqual(self.judged.names("p"), [])
        self.assertEqual(self.finish(upload), (201, tag_of(data)))
        self.assertEqual((self.got(), self.got("bob")), (data, data))
        self.assert_as_one()
        self.assertEqual(self.here(upload), "no-upload")

    def test_sizes_that_lie(self) -> None:
        upload = self.begin(3 * SMALL + 1)
        lies: list[tuple[int | str, int]] = [
            (1, SMALL - 1), (1, SMALL // 2), (1, 0), (4, SMALL), (4, 2), (4, 0), (5, 1), (0, SMALL),
            ("01", SMALL), ("-1", SMALL), ("x", SMALL), ("%C2%B2", SMALL), (10_000, SMALL)]
        for number, length in lies:
            self.assertEqual(self.piece(upload, number, bytes(length)), (400, "bad-length"))
        # (more than a piece is more than any body but a document's)
        self.assertEqual(self.piece(upload, 1, bytes(SMALL + 1)), (413, "too-large"))
        self.assertEqual(self.here(upload), [])
        for target, why in ((f"{upload}/1/1", "no-upload"), (upload, "no-upload")):
            self.assertEqual(json.loads(self.ask("PUT", f"/door/pieces/{target}", b"x", "pat")[2]),
                             {"why": why})
        self.send(upload, data_of(3 * SMALL + 1))
        self.assertEqual(self.finish(upload, body=b"x"), (400, "bad-length"))
        self.assertEqual(self.judged.names("p"), [])

    def test_nobody_elses(self) -> None:
        data = data_of(3 * SMALL)
        upload = self.begin(len(data))
        self.piece(upload, 1, data[:SMALL])
        for user in ("bob", "alice"):
            self.assertEqual(self.piece(upload, 2, data[:SMALL], user), (404, "no-upload"))
            self.assertEqual(self.here(upload, user), "no-upload")
            self.assertEqual(self.finish(upload, user), (404, "no-upload"))
            self.assertEqual(self.ask("DELETE", f"/door/pieces/{upload}", user=user)[0], 404)
        for other in ("", "x", upload[:-1], upload.upper() + "x"):
            self.assertEqual(self.here(other), "no-upload")
        self.send(upload, data)
        self.assertEqual(self.finish(upload), (201, tag_of(data)))

    def test_an_answer_that_was_lost(self) -> None:
        """Whoever asks again is told the same, and nothing is written twice."""
        data = data_of(3 * SMALL)
        upload = self.sent(data)
        self.assertEqual(self.finish(upload), (201, tag_of(data)))
        self.put(data_of(2 * SMALL, 7), "bob", match="*")
        self.assertEqual(self.finish(upload), (201, tag_of(data)))
        self.assertEqual(self.got(), data_of(2 * SMALL, 7))
        self.assertEqual(self.finish(upload, path="p/other"), (404, "no-upload"))

    def test_asked_twice_at_once(self) -> None:
        data = data_of(5 * SMALL)
        upload = self.sent(data)
        said: list[tuple[int, str]] = []
        self.judged.seen.clear()
        threads = [threading.Thread(target=lambda: said.append(self.finish(upload)))
                   for _ in range(4)]
        for thread in threads:
            thread.start()
        for thread in threads:
            thread.join()
        self.assertEqual(said, [(201, tag_of(data))] * 4)
        self.assertEqual(self.judged.seen.count("pat PUT /doc/p/d"), 1)

    def test_rights_are_those_of_its_end(self) -> None:
        data = data_of(3 * SMALL)
        upload = self.sent(data)
        self.put_list("/p", READ)
        self.assertEqual(self.finish(upload)[0], 403)
        self.assertEqual(self.judged.names("p"), [])
        self.put_list("/p", self.LISTS)
        self.assertEqual(self.finish(upload), (201, tag_of(data)))

    def test_two_of_a_name(self) -> None:
        one, other = data_of(4 * SMALL), data_of(3 * SMALL, 2)
        first, second = self.begin(len(one)), self.begin(len(other), "ella")
        for number in range(1, 5):
            part = slice((number - 1) * SMALL, number * SMALL)
            self.piece(first, number, one[part])
            self.piece(second, number, other[part], "ella")
        self.assertEqual(self.finish(second, "ella"), (201, tag_of(other)))
        self.assertEqual(self.finish(first), (412, "exists"))
        self.assertEqual(self.got(), other)
        self.assertEqual(self.finish(first, If_Match='"x"'), (412, "changed"))
        # What was sent stays for another try: over what is there, or beside it.
        self.assertEqual(self.finish(first, path="e/d"), (201, tag_of(one)))
        third = self.sent(one, If_Match=tag_of(other))
        self.assertEqual(self.finish(third, If_Match=tag_of(other)), (204, tag_of(one)))
        self.assertEqual(self.got(), one)
        self.assert_as_one()

    def test_a_room_that_ends(self) -> None:
        data = data_of(3 * SMALL)
        upload = self.sent(data)
        for changes in range(100):
            self.judged.left = changes
            status, said = self.finish(upload)
            self.judged.left = None
            if status == 201:
                break
            self.assertEqual(status, 502)
            self.assertNotIn("d", self.judged.names("p"))
            if self.judged.names("p"):
                self.assertEqual(self.finish(upload), (409, "left-over"))
                self.assertEqual(self.ask("DELETE", "/door/left/p/d", user="pat")[0], 204)
        self.assertGreater(changes, 6)
        self.assertEqual((said, self.got()), (tag_of(data), data))

    def test_a_room_whose_last_answer_is_lost(self) -> None:
        """It is there, or it isn't: who asks again is told so."""
        self.judged.is_mute = True
        seen = set()
        for changes in range(100):
            data = data_of(3 * SMALL, changes + 1)
            upload = self.sent(data, path=f"p/{changes}")
            self.judged.left = changes
            status = self.finish(upload, path=f"p/{changes}")[0]
            self.judged.left = None
            again = self.finish(upload, path=f"p/{changes}")
            is_there = self.got(path=f"p/{changes}") == data
            seen.add((status, *again, is_there) if status != 201 else (201, is_there))
            self.ask("DELETE", f"/door/pieces/{upload}", user="pat")
            if status == 201:
                break
        self.assertEqual(seen, {(502, 409, "left-over", False), (502, 412, "exists", True),
                                (201, True)})

    def test_a_door_that_ended(self) -> None:
        upload = self.sent(data_of(3 * SMALL))
        self.door.uploads = Uploads(Arrivals())
        self.assertEqual(self.here(upload), "no-upload")
        self.assertEqual(self.finish(upload), (404, "no-upload"))
        self.assertEqual(self.piece(upload, 1, bytes(SMALL)), (404, "no-upload"))

    def test_a_full_room(self) -> None:
        upload = self.sent(data_of(3 * SMALL))
        with open(self.full, "w"):
            self.assertEqual(self.finish(upload), (507, "full"))
        self.assertEqual(self.ask("POST", f"/door/upload/p/e?{3 * SMALL}", user="pat", **NEW)[0],
                         507)
        self.assertEqual(self.judged.names("p"), [])

    def test_dropped(self) -> None:
        upload = self.sent(data_of(3 * SMALL))
        self.assertEqual(self.ask("DELETE", f"/door/pieces/{upload}", user="pat")[0], 204)
        self.assertEqual(self.finish(upload), (404, "no-upload"))
        self.assertEqual(self.door.arrivals.count(), (0, 0))


class Slowly(Large):
    """A whole document in one request, at its sender's pace."""

    def begun(self, user: str, target: str, fields: str) -> socket.socket:
        at = socket.socket(socket.AF_UNIX)
        at.settimeout(60)
        at.connect(self.at("door"))
        at.sendall(f"PUT {target} HTTP/1.1\r\nRoom-User: {user}\r\n{fields}\r\n\r\nsome".encode())
        return at

    def slow(self, user: str, size: int) -> socket.socket:
        return self.begun(user, f"/door/doc/p/{user}",
                          f"If-None-Match: *\r\nContent-Length: {size}")

    def until(self, count: int) -> None:
        ends = time.monotonic() + 20
        while self.door.arrivals.count()[0] != count:
            self.assertLess(time.monotonic(), ends, self.door.arrivals.count())
            time.sleep(0.01)

    def answered(self, at: socket.socket) -> bytes:
        """All that comes soon."""
        got = b""
        with at:
            at.settimeout(1.5)
            try:
                while part := at.recv(4096):
                    got += part
            except TimeoutError:
                pass
        return got

    def test_four_and_a_fifth(self) -> None:
        """Who comes gets the place of the slowest, which is told so."""
        data = data_of(4 * SMALL)
        with mock.patch.object(arriving, "ALL", 4), mock.patch.object(arriving, "PACE", 0.5):
            slow = [self.slow(user, len(data)) for user in ("pat", "bob", "ella", "alice")]
            self.until(4)
            began = time.monotonic()
            self.assertEqual(self.put(data, "ella", "p/fifth"), 201)
            self.assertLess(time.monotonic() - began, 20)
        answers = [self.answered(at) for at in slow]
        said = [one for one in answers if one]
        self.assertEqual(len(said), 1, answers)
        self.assertTrue(said[0].startswith(b"HTTP/1.1 408 "), said)
        self.assertIn(b'{"why":"too-slow"}', said[0])
        self.assertEqual(self.judged.names("p")[:1], ["fifth"])
        self.until(0)

    def test_slow_ones_that_nobody_waits_for(self) -> None:
        data = data_of(3 * SMALL)
        with mock.patch.object(arriving, "PACE", 0.1):
            at = self.slow("pat", len(data))
            for place in range(4, len(data), 500):
                time.sleep(0.15)
                at.sendall(data[place:place + 500])
            self.assertTrue(at.recv(4096).startswith(b"HTTP/1.1 201 "))
            at.close()

    def test_who_may_not_write_there(self) -> None:
        """They are denied before it comes, which the room records as of any document."""
        self.judged.does("alice", "PUT", "/sacl/p", b"list:\nU:fdF:EVERYONE@:w\n")
        self.put(b"there", path="p/old")
        self.put_list("/p", READ)
        for path, match, status, records in (
                ("p/new", "If-None-Match: *", 403, 1), ("p/old", "If-Match: *", 403, 1),
                ("none/new", "If-None-Match: *", 404, 0)):
            for target in (f"/door/doc/{path}", f"/drive/{path}"):
                for length in (f"Content-Length: {3 * SMALL}", "Transfer-Encoding: chunked"):
                    self.judged.room.records.clear()
                    said = self.answered(self.begun("ella", target, f"{match}\r\n{length}"))
                    self.assertEqual(said[:13], f"HTTP/1.1 {status} ".encode(), (target, length))
                    self.assertEqual(len(self.judged.room.records), records)
        self.assertEqual((self.judged.names("p"), self.door.arrivals.count()), (["old"], (0, 0)))

    def test_what_has_not_come(self) -> None:
        """Nothing is written of it, though its sender may by then."""
        with mock.patch.object(serve.Handler, "_may_come", lambda *_: False):
            said = self.answered(self.slow("pat", 3 * SMALL))
        self.assertEqual(said[:13], b"HTTP/1.1 503 ")
        self.assertEqual(self.judged.names("p"), [])

    def test_who_goes_away(self) -> None:
        at = self.slow("pat", 3 * SMALL)
        self.until(1)
        at.close()
        self.until(0)
        self.assertEqual(self.judged.names("p"), [])

    def test_beside_four_who_read_slowly(self) -> None:
        """They have turns of their own."""
        self.put(data_of(3 * SMALL), path="p/read")
        taken = threading.Event()
        sending: list[str] = []

        def held(*_: object) -> Iterator[bytes]:
            yield bytes(SMALL)
            sending.append("")
            taken.wait(20)
            yield bytes(2 * SMALL)
        with mock.patch.object(parts.Parts, "between", held):
            readers = [threading.Thread(target=self.ask, args=("GET", target, b"", user))
                       for user in ("alice", "bob", "ella", "pat")
                       for target in ["/door/doc/p/read"]]
            for reader in readers:
                reader.start()
            while len(sending) < 4:
                time.sleep(0.01)
            with mock.patch.object(turns, "PATIENCE", 2.0):
                self.assertEqual(self.put(data_of(3 * SMALL)), 201)
            taken.set()
            for reader in readers:
                reader.join()

    def test_they_have_no_turn_until_they_are_here(self) -> None:
        slow = [self.slow("pat", 3 * SMALL) for _ in range(3)]
        self.until(3)
        self.assertEqual(self.put(data_of(3 * SMALL), "pat", "p/other"), 201)
        for at in slow:
            at.close()
        self.until(0)


class Unsized(Large):
    """In chunks, since nobody says how long it is."""

    def chunked(self, body: bytes, target: str = "/door/doc/p/d", fields: str = "If-None-Match: *"
                ) -> bytes:
        return self.raw(f"PUT {target} HTTP/1.1\r\nRoom-User: pat\r\n{fields}\r\n"
                        "Transfer-Encoding: chunked\r\nConnection: close\r\n\r\n".encode() + body)

    def status(self, body: bytes, target: str = "/door/doc/p/d", fields: str = "If-None-Match: *"
               ) -> int:
        return int(self.chunked(body, target, fields)[9:12])

    def in_chunks(self, data: bytes, length: int) -> bytes:
        parts = [data[place:place + length] for place in range(0, len(data), length)]
        return b"".join(b"%x\r\n%b\r\n" % (len(part), part) for part in parts) + b"0\r\n\r\n"

    def test_as_one(self) -> None:
        for size in (0, 1, SMALL, SMALL + 1, 5 * SMALL, 100 * SMALL):
            data = data_of(size)
            for length in (7, 333, 70_000):
                self.assertEqual(self.status(self.in_chunks(data, length)), 201, (size, length))
                self.assertEqual(self.got(), data)
                self.ask("DELETE", "/door/object/p/d", user="pat")
        self.assertEqual(self.door.arrivals.count(), (0, 0))

    def test_by_webdav(self) -> None:
        data = data_of(5 * SMALL)
        self.assertEqual(self.status(self.in_chunks(data, 999), "/drive/p/d", "X: y"), 201)
        self.assertEqual(self.got(), data)
        self.assertEqual(self.status(self.in_chunks(bytes(100 * SMALL + 1), 70_000), "/drive/p/e",
                                     "X: y"), 413)
        self.assertEqual(self.got(path="p/e"), 404)

    def test_what_isnt_large(self) -> None:
        self.put(b"small", "alice")
        text = "list:p\nA::pat:rC\n".encode()
        self.assertEqual(self.status(self.in_chunks(text, 3), "/door/dacl/p/d", "If-Match: *"), 403)
        self.assertEqual(self.status(self.in_chunks(bytes(SMALL + 1), 400), "/door/dacl/p/d",
                                     "If-Match: *"), 413)
        said = self.raw(b"POST /door/move/p/d HTTP/1.1\r\nRoom-User: pat\r\n"
                        b"Transfer-Encoding: chunked\r\n\r\n0\r\n\r\n")
        self.assertTrue(said.startswith(b"HTTP/1.1 501 "), said)

    def test_what_is_no_chunk(self) -> None:
        good = self.in_chunks(data_of(3 * SMALL), 500)
        for bad in (b"", b"\r\n", b"x\r\n", b"-1\r\n", b"5\r\nabc\r\n0\r\n\r\n",
                    b"3\r\nabcd\r\n0\r\n\r\n", b"3\nabc\n0\n\n", b"3 3\r\nabc\r\n0\r\n\r\n",
                    b"123456789\r\n", b"3;" + 5000 * b"x", good[:-1], good[:-5], good[:700],
                    b"3\r\nabc\r\n0\r\n" + 5000 * b"x"):
            self.assertEqual(self.status(bad), 400, bad[:40])
        self.assertEqual(self.status(b"3;x=y\r\nabc\r\n000\r\nField: x\r\n\r\n"), 201)
        self.assertEqual(self.got(), b"abc")
        self.assertEqual(self.judged.names("p"), ["d"])

    def test_too_large(self) -> None:
        self.assertEqual(self.status(self.in_chunks(bytes(100 * SMALL + 1), 70_000)), 413)
        self.assertEqual(self.judged.names("p"), [])

    def test_other_codings(self) -> None:
        for fields in ("Content-Length: 3\r\nIf-None-Match: *", "X: y\r\nTransfer-Encoding: gzip"):
            self.assertIn(self.status(self.in_chunks(b"abc", 3), fields=fields), (400, 501))
        self.assertEqual(self.judged.names("p"), [])


if __name__ == "__main__":
    unittest.main()
