"""Pages of documents as pictures: the door over a room in memory, and something in the place of the
process that makes them."""
import json
import os
import socket
import threading
import time
import unittest
from collections.abc import Callable
from unittest import mock

from over import Over
from rooms_admin.room import in_parts
from rooms_services import picture
from rooms_services.door.folders import pages
from rooms_services.room.tags import tag_of

PDF = b"%PDF-1.7\n.."
JPEG = b"\xff\xd8\xff\xe0 a picture"


def said(head: dict[str, object], body: bytes = b"") -> bytes:
    return json.dumps({**head, "length": len(body)}).encode() + b"\n" + body


class Maker:
    """Answers each connection as it is told, and keeps what it was given."""

    def __init__(self, place: str, does: Callable[[bytes], bytes | None]) -> None:
        self.does = does
        self.given: list[bytes] = []
        self.at = socket.socket(socket.AF_UNIX)
        self.at.bind(place)
        self.at.listen()
        threading.Thread(target=self._run, daemon=True).start()

    def _run(self) -> None:
        while True:
            try:
                connection, _ = self.at.accept()
            except OSError:
                return
            with connection:
                self._one(connection)

    def _one(self, connection: socket.socket) -> None:
        if self.does(b"") is None:
            return  # As systemd does while as many run as may.
        connection.sendall(b"ready\n")
        got = b""
        while part := connection.recv(65_536):
            got += part
        self.given.append(got)
        try:
            connection.sendall(self.does(got) or b"")
        except OSError:
            pass


class Pages(Over):
    def setUp(self) -> None:
        super().setUp()
        self.room.make(plan=PDF, text=b"words", f=None)
        self.says: bytes | None = said({"pages": 7}, JPEG)

    def makes(self) -> Maker:
        place = self.at("pictures")
        maker = Maker(place, lambda got: self.says)
        self.door.pictures = place
        self.addCleanup(maker.at.close)
        return maker

    def why(self, target: str, user: str = "alice", **fields: str) -> tuple[int, object]:
        status, _, body = self.ask("GET", target, user=user, **fields)
        return status, json.loads(body).get("why") if body else None

    def test_a_page(self) -> None:
        maker = self.makes()
        status, fields, body = self.ask("GET", "/door/pages/plan?3")
        self.assertEqual((status, body), (200, JPEG))
        self.assertEqual(maker.given, [b"3\n" + PDF])
        self.assertEqual({name: fields[name] for name in (
            "Content-Type", "Room-Pages", "ETag", "Content-Disposition", "Cache-Control")}, {
                "Content-Type": "image/jpeg", "Room-Pages": "7", "ETag": tag_of(PDF),
                "Content-Disposition": "attachment", "Cache-Control": "private, no-store"})
        # It was read as the caller, once, and nothing else was asked.
        self.assertEqual(self.room.seen, ["alice GET /doc/plan"])

    def large(self, document: bytes) -> in_parts.Manifest:
        """As a room keeps one of more than 1 MiB."""
        parts = [document[place:place + in_parts.LARGEST]
                 for place in range(0, len(document), in_parts.LARGEST)]
        found = in_parts.Manifest(len(document), in_parts.digest_of(document), tuple(
            (number, in_parts.digest_of(part)) for number, part in enumerate(parts, 1)))
        self.room.objects["scan.pdf",] = found.text()
        for number, part in enumerate(parts, 1):
            self.room.objects[f"scan.pdf{in_parts.end_of(number)}",] = part
        return found

    def test_one_in_parts(self) -> None:
        maker = self.makes()
        document = PDF + bytes(range(256)) * 10_000
        found = self.large(document)
        status, fields, body = self.ask("GET", "/door/pages/scan.pdf?1")
        self.assertEqual((status, body, fields["ETag"]), (200, JPEG, found.tag))
        self.assertEqual(maker.given, [b"1\n" + document])
        # One that is longer than a process gets isn't read.
        with mock.patch.object(picture, "DOCUMENT", len(document) - 1):
            self.assertEqual(self.ask("GET", "/door/pages/scan.pdf?1")[0], 204)
        self.assertEqual(len(maker.given), 1)
        # Nor is one a part of which was changed meanwhile.
        self.room.objects[f"scan.pdf{in_parts.end_of(2)}",] = b"another one"
        self.assertEqual(self.why("/door/pages/scan.pdf?1"), (409, "not-whole"))

    def test_who_may_not_read(self) -> None:
        maker = self.makes()
        self.room.denied.add(("bob", "/plan", "r"))
        self.assertEqual(self.ask("GET", "/door/pages/plan?1", user="bob")[0], 403)
        self.assertEqual(self.why("/door/pages/none?1"), (404, "no-such"))
        self.assertEqual(self.why("/door/pages/f?1"), (409, "wrong-kind"))
        self.assertEqual(maker.given, [])

    def test_what_is_no_page(self) -> None:
        maker = self.makes()
        for query in ("", "?", "?0", "?-1", "?1001", "?01x", "?1&2", "?%31"):
            self.assertEqual(self.why(f"/door/pages/plan{query}"), (400, "bad-query"), query)
        self.assertEqual(self.room.seen, [])
        self.assertEqual(self.why("/door/pages/text?1"), (415, "no-pdf"))
        self.assertEqual(maker.given, [])

    def test_it_has_to_be_the_one_that_was_seen(self) -> None:
        maker = self.makes()
        self.assertEqual(self.ask("GET", "/door/pages/plan?2", If_Match=tag_of(PDF))[0], 200)
        self.assertEqual(self.why("/door/pages/plan?2", If_Match='"other"'), (412, "changed"))
        self.assertEqual(len(maker.given), 1)

    def test_none_are_made(self) -> None:
        self.assertEqual(self.ask("GET", "/door/pages/plan?1")[0], 204)
        # Nothing was read for that.
        self.assertEqual(self.room.seen, [])
        self.door.pictures = self.at("nobody")
        self.assertEqual(self.ask("GET", "/door/pages/plan?1")[0], 204)
        self.makes()
        self.says = said({"why": "no-pictures"})
        self.assertEqual(self.ask("GET", "/door/pages/plan?1")[0], 204)

    def test_why_there_is_none(self) -> None:
        self.makes()
        for why, status in (("locked", 422), ("broken", 422), ("too-much", 413),
                            ("no-page", 404)):
            self.says = said({"why": why, "pages": 7})
            got, _, body = self.ask("GET", "/door/pages/plan?9")
            self.assertEqual((got, json.loads(body)), (status, {"why": why, "pages": 7}))

    def test_what_it_may_not_say(self) -> None:
        """Whoever took it over says what they want: the browser gets a picture or nothing."""
        self.makes()
        page = b"<script>alert(1)</script>"
        for says in (said({"pages": 7}, page), said({"pages": "7"}, JPEG),
                     said({"pages": -1}, JPEG), said({"why": ["x"]}, JPEG), said({"why": "odd"})):
            self.says = says
            self.assertEqual(self.why("/door/pages/plan?1"), (422, "broken"), says)
        for says in (b"", b"x", b"[" * 100_000, b"{}\n", b'{"length":9,"pages":7}\n' + JPEG,
                     said({"pages": 7}, JPEG)[:-3], JPEG * 1_000_000):
            self.says = says
            self.assertEqual(self.why("/door/pages/plan?1"), (413, "too-much"), says[:30])

    def test_as_many_as_may(self) -> None:
        self.makes()
        self.says = None
        with mock.patch.object(pages, "PATIENCE", 0.5):
            began = time.monotonic()
            status, fields, body = self.ask("GET", "/door/pages/plan?1")
        self.assertEqual((status, json.loads(body)["why"], fields["Retry-After"]),
                         (503, "busy", "5"))
        self.assertGreater(time.monotonic() - began, 0.4)
        # As soon as there is a place, it is taken.
        threading.Timer(0.5, lambda: setattr(self, "says", said({"pages": 7}, JPEG))).start()
        self.assertEqual(self.ask("GET", "/door/pages/plan?1")[0], 200)

    def test_one_that_hangs(self) -> None:
        self.makes()
        self.says = b"x"
        hold = threading.Event()
        maker = Maker(self.at("slow"), lambda got: got and hold.wait(9) and b"" or b"x")
        self.addCleanup(maker.at.close)
        self.addCleanup(hold.set)
        self.door.pictures = self.at("slow")
        with mock.patch.object(pages, "SECONDS", 0.5):
            self.assertEqual(self.why("/door/pages/plan?1"), (413, "too-much"))

    def test_of_one_user_one_is_made_at_a_time(self) -> None:
        self.makes()
        running, most, lock = [0], [0], threading.Lock()

        def slowly(got: bytes) -> bytes:
            if got:
                with lock:
                    running[0] += 1
                    most[0] = max(most[0], running[0])
                time.sleep(0.05)
                with lock:
                    running[0] -= 1
            return said({"pages": 7}, JPEG)

        class Beside(Maker):
            def _one(self, connection: socket.socket) -> None:
                own = connection.dup()

                def one() -> None:
                    with own:
                        super(Beside, self)._one(own)
                threading.Thread(target=one, daemon=True).start()
        maker = Beside(self.at("beside"), slowly)
        self.addCleanup(maker.at.close)
        self.door.pictures = self.at("beside")
        several = [threading.Thread(target=self.ask, args=("GET", "/door/pages/plan?1"),
                                    kwargs={"user": user})
                   for user in ("alice",) * 5 + ("bob", "carol", "dana", "eve", "finn")]
        for one in several[:5]:
            one.start()
        for one in several[:5]:
            one.join()
        self.assertEqual(most[0], 1)
        for one in several[5:]:
            one.start()
        for one in several[5:]:
            one.join()
        self.assertLessEqual(most[0], 4)


class Words(unittest.TestCase):
    def test_a_program_that_lacks(self) -> None:
        with mock.patch.dict(os.environ, {"PATH": "/nowhere"}), \
                self.assertRaises(picture.Fault) as fault:
            picture.picture(1, 0)
        self.assertEqual(fault.exception.told, {"why": "no-pictures"})


if __name__ == "__main__":
    unittest.main()
