"""Who sees what of an earlier night, over two rooms in memory: that of today and that of then."""
import json
import os
import socket
import tempfile
import threading
import time
import tracemalloc
import unittest
from collections.abc import Callable
from unittest import mock

from fake_room import FakeRoom, Served
from rooms_admin.host import locks
from rooms_services.room.answers import Answer, Stop
from rooms_services.room.room import Reply, Room
from rooms_services.earlier import gate, judge, judging, whole
from rooms_services.earlier.gate import Opened

NIGHT = "2026-11-01.030000"


def answer(asked: judge.Judge, fields: dict[str, str]) -> Answer:
    with asked.answered(fields) as given:
        return given


class Over(unittest.TestCase):
    def setUp(self) -> None:
        folder = tempfile.TemporaryDirectory()
        self.addCleanup(folder.cleanup)
        os.makedirs(f"{folder.name}/rooms/office")
        run = mock.patch.object(locks, "RUN", folder.name)
        run.start()
        self.addCleanup(run.stop)
        self.now, self.then = FakeRoom(), FakeRoom()
        self.copy = f"{folder.name}/copy"
        for place, room in ((f"{folder.name}/rooms/office/socket", self.now),
                            (self.copy, self.then)):
            server = Served(place, room)
            thread = threading.Thread(target=server.serve_forever, args=(0.01,), daemon=True)
            thread.start()
            self.addCleanup(server.server_close)
            self.addCleanup(thread.join)
            self.addCleanup(server.shutdown)
        for room in (self.now, self.then):
            room.make(letters=None, letters__reply=b"now" if room is self.now else b"then")
            room.owners["letters", "reply"] = "carol"
        self.shown_to = "owners"
        self.opened: list[str] = []
        self.askers: list[str] = []
        opens = mock.patch.object(gate, "opened", self._opened)
        opens.start()
        self.addCleanup(opens.stop)
        self.judge = judge.Judge()

    def _opened(self, room: str, night: str, asker: str) -> Opened:
        self.askers.append(asker)
        self.opened.append(f"{room} {night}")
        return Opened(self.shown_to, self.copy)

    def deny(self, room: FakeRoom, user: str, path: str, bits: str) -> None:
        room.denied |= {(user, path, bit) for bit in bits}

    def fields(self, user: str, rest: str) -> dict[str, str]:
        return {"ROOM": "office", "ROOM_USER": user, "TARGET": f"/earlier/{NIGHT}/{rest}"}

    def told(self, user: str, rest: str) -> tuple[int, object]:
        try:
            given: Answer = answer(self.judge, self.fields(user, rest))
        except Stop as stop:
            given = stop.answer(False)
        body = given.body
        return given.status, json.loads(body) if given.kind == "application/json" else body

    def names(self, user: str, rest: str) -> list[str]:
        status, told = self.told(user, rest)
        assert status == 200 and isinstance(told, list), (status, told)
        return [one["name"] for one in told]


NOT_NOW = (403, {"why": "now"})


class There(Over):
    """What is there that night and now."""

    def test_both_say_yes(self) -> None:
        self.assertEqual(self.told("bob", "doc/letters/reply"), (200, b"then"))
        self.assertEqual(self.told("bob", "folder/letters"),
                         (200, [{"kind": "document", "name": "reply"}]))
        self.assertEqual(self.told("bob", "dacl/letters"), (200, b"list:a\nA:I:alice:rw\n"))

    def test_today_says_no(self) -> None:
        self.deny(self.now, "bob", "/letters/reply", "r")
        self.assertEqual(self.told("bob", "doc/letters/reply"), NOT_NOW)
        self.deny(self.now, "bob", "/letters", "x")
        self.assertEqual(self.told("bob", "dacl/letters/reply"), NOT_NOW)
        # No night is opened for that, and it is recorded as any other try.
        self.assertEqual((self.opened, self.now.seen.count("bob GET /doc/letters/reply")), ([], 1))

    def test_that_night_says_no(self) -> None:
        self.deny(self.then, "bob", "/letters/reply", "r")
        self.assertEqual(self.told("bob", "doc/letters/reply")[0], 403)
        self.deny(self.then, "bob", "/letters", "c")
        self.assertEqual(self.told("bob", "dacl/letters")[0], 403)

    def test_who_opens_nights_knows_users_apart_and_not_who_they_are(self) -> None:
        for user in ("bob", "alice", "bob"):
            self.told(user, "doc/letters/reply")
        bob, alice, again = self.askers
        self.assertEqual((bob == again, bob == alice, len(bob)), (True, False, 16))
        self.judge = judge.Judge()
        self.told("bob", "doc/letters/reply")
        self.assertNotEqual(self.askers[-1], bob)

    def test_reading_is_asked_for_as_such(self) -> None:
        self.told("bob", "doc/letters/reply")
        self.assertEqual(self.now.seen.count("bob GET /doc/letters/reply"), 1)
        self.assertTrue(all(" GET " in one for one in self.now.seen + self.then.seen))

    def test_made_since(self) -> None:
        self.now.make(letters__new=b"x")
        self.assertEqual(self.told("bob", "doc/letters/new"),
                         (404, {"at": "/letters/new", "why": "no-such"}))

    def test_the_root(self) -> None:
        self.now.owners[()] = "dave"
        self.assertEqual(self.names("bob", "folder/"), ["letters"])
        self.assertEqual(self.told("bob", "doc/")[0], 409)


class Meanwhile(Over):
    """What is at a path today is changed for something else, before each connection to the room."""

    def setUp(self) -> None:
        super().setUp()
        for folder in ("/", "/letters"):
            self.deny(self.now, "dana", folder, "Cwa")

    def each_moment(self, is_there: Callable[[], None], comes: Callable[[], None]) -> None:
        for at in range(1, 20):
            is_there()
            before = len(self.now.connections)
            real = self.now.answer

            def changes(user: str, method: str, target: str, body: bytes) -> tuple[int, object]:
                if len(self.now.connections) == before + at and self.now.connections[-1] == 1:
                    comes()
                return real(user, method, target, body)
            with mock.patch.object(self.now, "answer", changes):
                self.assertEqual(self.told("dana", "doc/letters/reply"), NOT_NOW, at)
            if len(self.now.connections) < before + at:
                break
        self.assertGreater(at, 2)

    def test_one_of_their_own(self) -> None:
        """Which they may read, as they may the other one no more."""
        def own() -> None:
            self.now.owners["letters", "reply"] = "dana"
            self.now.denied.discard(("dana", "/letters/reply", "r"))

        def other() -> None:
            self.now.owners["letters", "reply"] = "carol"
            self.now.denied.add(("dana", "/letters/reply", "r"))
        self.each_moment(own, other)

    def test_a_folder_of_their_own(self) -> None:
        """Where they may set lists, or list and add to it."""
        del self.now.objects["letters", "reply"]

        def other() -> None:
            self.now.owners["letters",] = "alice"
            self.deny(self.now, "dana", "/letters", "Cwa")

        def own() -> None:
            self.now.owners["letters",] = "dana"
            self.now.denied = {one for one in self.now.denied if one[1] == "/"}
        for self.shown_to in ("owners", "members"):
            self.each_moment(other, own)


class Large(Over):
    """This process serves all rooms, so none of them takes its time or its memory."""

    def test_a_folder_with_many_names(self) -> None:
        for room in (self.now, self.then):
            room.objects |= {("letters", f"{number:05}"): b"" for number in range(8000)}
        began = time.process_time()
        self.assertEqual(len(self.names("bob", "folder/letters")), 8001)
        self.assertLess(time.process_time() - began, 3)

    def test_it_takes_little_memory(self) -> None:
        """Of a listing that is read as a whole each name takes some 300 bytes."""
        for room in (self.now, self.then):
            room.objects |= {("letters", f"{number:05}"): b"" for number in range(8000)}
        self.now.objects = {path: body for path, body in self.now.objects.items()
                            if not (len(path) == 2 and path[1] < "00100")}
        self.deny(self.now, "bob", "/letters", "C")
        self.assertEqual(len(self.names("bob", "folder/letters")), 7901)
        tracemalloc.start()
        look = judging.Look(Room(self.copy), "bob", "folder", ("letters",), Room(self.copy))
        listing = Reply(200, json.dumps([{"kind": "document", "name": f"{number:05}"} for number in
                                         range(100, 8000)], separators=(",", ":")).encode())
        before = tracemalloc.get_traced_memory()[0]
        tracemalloc.reset_peak()
        answer = look._listing(listing, listing, judging.Seen(("letters",), listing, {}, None))
        taken = tracemalloc.get_traced_memory()[1] - before
        tracemalloc.stop()
        self.assertEqual(answer.body, listing.body)
        self.assertLess(taken, 7900 * 150)

    def test_listings_of_all_rooms_together(self) -> None:
        """One goes on beyond what they may have, and until it is sent the rest is for later."""
        for room in (self.now, self.then):
            room.objects |= {("letters", f"{number:05}"): b"" for number in range(100)}
            room.make(short=None, short__a=b"")
        is_ready, is_sent = threading.Event(), threading.Event()

        def one() -> None:
            with self.judge.answered(self.fields("alice", "folder/letters")):
                is_ready.set()
                is_sent.wait(60)
        with mock.patch.object(judge, "LISTINGS", 1000), mock.patch.object(judge, "SHORT", 500):
            self.judge = judge.Judge()
            thread = threading.Thread(target=one)
            thread.start()
            is_ready.wait(60)
            for word in ("folder", "zip"):
                self.assertEqual(self.told("bob", f"{word}/letters"), (503, {"why": "busy"}))
            self.assertEqual(self.names("bob", "folder/short"), ["a"])
            is_sent.set()
            thread.join()
            self.assertEqual(self.told("bob", "zip/letters")[0], 200)
            self.assertEqual(len(self.names("bob", "folder/letters")), 101)

    def test_a_zip_of_what_is_far_down(self) -> None:
        """Ten thousand paths of two thousand names would be 160 MB, and their texts as much."""
        names = [{"kind": "document", "name": f"{number:05}"} for number in range(1000)]
        last = json.dumps(names, separators=(",", ":")).encode()
        more = b'[{"kind":"folder","name":"\xf0\x9d\x94\xb8"}]'

        def judged(word: str, path: tuple[str, ...]) -> Answer:
            if word == "doc":
                return Answer(403 if path[-1] < "00500" else 200, path[-1].encode())
            return Answer(200, more if len(path) < 300 else last)
        tracemalloc.start()
        given = whole.archive(judged, lambda reply: reply, ("x",) * 200, None)
        size = sum(map(len, given.parts or ()))
        taken = tracemalloc.get_traced_memory()[1]
        tracemalloc.stop()
        self.assertGreater(size, 700_000)
        self.assertLess(taken, 1_500_000)

    def test_an_answer_that_is_too_large(self) -> None:
        for room in (self.now, self.then):
            room.make(letters__reply=b"x" * 1000)
        with mock.patch.object(judging, "LISTED", 900), mock.patch.object(judge, "LISTED", 1100):
            given = answer(judge.Judge(), self.fields("bob", "folder/letters"))
            self.assertEqual(given.status, 200)
            with self.assertRaises(Stop) as stopped:
                answer(judge.Judge(), self.fields("bob", "doc/letters/reply"))
            self.assertEqual(stopped.exception.why, "too-many")

    def test_a_room_that_hangs(self) -> None:
        """Whoever else asks it is told at once, and threads are left for other rooms."""
        place = os.path.join(locks.RUN, "rooms/hangs")
        os.makedirs(place)
        deaf = socket.socket(socket.AF_UNIX)
        deaf.bind(f"{place}/socket")
        deaf.listen(8)
        said: list[str] = []

        def asks(user: str) -> None:
            try:
                answer(asked, {**self.fields(user, "doc/letters/reply"), "ROOM": "hangs"})
            except Stop as stop:
                said.append(stop.why)
        with mock.patch.object(judge, "OF_ONE", 3):
            asked = judge.Judge()
            threads = [threading.Thread(target=asks, args=(f"user{n}",)) for n in range(5)]
            for one in threads:
                one.start()
            ends = time.monotonic() + 20
            while said != ["busy"] * 2 and time.monotonic() < ends:
                time.sleep(0.01)
            self.assertEqual(said, ["busy"] * 2)
            self.assertEqual(self.told("bob", "doc/letters/reply"), (200, b"then"))
        deaf.close()
        for one in threads:
            one.join(30)

    def test_who_asks_again_and_again(self) -> None:
        """Three users keep nobody else waiting."""
        today = judge.Today("office")
        held, said = threading.Event(), list[int]()

        def asks(user: str) -> None:
            try:
                with today.turn(user, "doc"):
                    held.wait(20)
            except Stop as stop:
                said.append(stop.status)
        threads = [threading.Thread(target=asks, args=(f"user{n // 16}",)) for n in range(48)]
        for one in threads:
            one.start()
        until = time.monotonic() + 20
        while len(said) + today._placed.total() < 48 and time.monotonic() < until:
            time.sleep(0.01)
        with today.turn("bob", "doc"), today.turn("carol", "folder"):
            pass
        held.set()
        for one in threads:
            one.join(30)
        self.assertEqual((set(said), today._placed.total()), ({503}, 0))
        self.assertLessEqual(28, len(said))


class Another(Over):
    """Another object has taken its name since: no way to what was there."""

    def test_of_another_owner(self) -> None:
        self.now.owners["letters", "reply"] = "bob"
        self.deny(self.now, "bob", "/letters", "C")
        self.assertEqual(self.told("bob", "doc/letters/reply"), NOT_NOW)
        self.assertEqual(self.told("bob", "dacl/letters/reply"), NOT_NOW)
        # Its owner that night, and who manages the folder.
        self.deny(self.now, "carol", "/letters", "C")
        self.assertEqual(self.told("carol", "doc/letters/reply"), (200, b"then"))
        self.assertEqual(self.told("alice", "doc/letters/reply"), (200, b"then"))

    def test_of_another_kind(self) -> None:
        self.now.objects["letters", "reply"] = None
        self.deny(self.now, "bob", "/letters", "C")
        self.assertEqual(self.told("bob", "doc/letters/reply"), NOT_NOW)
        self.assertEqual(self.told("carol", "doc/letters/reply"), (200, b"then"))
        # That night it was no folder.
        self.assertEqual(self.told("bob", "folder/letters/reply"), NOT_NOW)

    def test_whose_owner_is_not_told(self) -> None:
        for room in (self.now, self.then):
            room.denied.clear()
            self.deny(room, "bob", "/letters/reply", "t")
            self.deny(self.now, "bob", "/letters", "C")
            self.assertEqual(self.told("bob", "doc/letters/reply"), NOT_NOW)


class Replaced(Over):
    """A folder was closed to dana and moved away; she puts one of her own at its place."""

    def setUp(self) -> None:
        super().setUp()
        self.then.make(letters__merger=None, letters__merger__plan=b"we buy Acme")
        self.now.make(letters__merger=None)
        self.now.owners["letters", "merger"] = "dana"
        self.deny(self.now, "dana", "/letters", "C")

    def test_her_own_folder_says_nothing(self) -> None:
        for shown_to in ("owners", "members"):
            self.shown_to = shown_to
            if shown_to == "members":
                self.deny(self.now, "dana", "/letters", "wa")
            self.assertEqual(self.told("dana", "doc/letters/merger/plan"), NOT_NOW)
            self.assertEqual(self.told("dana", "folder/letters/merger"), NOT_NOW)
            self.now.make(letters__merger__plan=b"hers")
            self.now.owners["letters", "merger", "plan"] = "dana"
            self.assertEqual(self.told("dana", "doc/letters/merger/plan"), NOT_NOW)

    def test_who_manages_what_is_above(self) -> None:
        self.assertEqual(self.told("root", "doc/letters/merger/plan"), (200, b"we buy Acme"))
        self.assertEqual(self.names("root", "folder/letters/merger"), ["plan"])
        # Its owner that night.
        self.deny(self.now, "alice", "/letters", "C")
        self.assertEqual(self.told("alice", "doc/letters/merger/plan"), (200, b"we buy Acme"))

    def test_a_document_at_its_place(self) -> None:
        self.now.objects["letters", "merger"] = b"hers"
        self.assertEqual(self.told("dana", "folder/letters/merger"), NOT_NOW)
        self.assertEqual(self.names("root", "folder/letters/merger"), ["plan"])

    def test_who_may_not_know_whose_it_is(self) -> None:
        """Which folder is left can't be told then."""
        self.now.owners["letters", "merger"] = "alice"
        self.assertEqual(self.told("dana", "doc/letters/merger/plan"), (200, b"we buy Acme"))
        self.deny(self.now, "dana", "/letters/merger", "t")
        self.assertEqual(self.told("dana", "doc/letters/merger/plan"), NOT_NOW)
        self.deny(self.now, "root", "/letters/merger", "t")
        self.assertEqual(self.told("root", "doc/letters/merger/plan"), NOT_NOW)


class Gone(Over):
    def setUp(self) -> None:
        super().setUp()
        self.then.make(letters__gone=b"gone", letters__old=None, letters__old__deep=b"deep")
        self.then.owners |= {("letters", "gone"): "carol", ("letters", "old"): "carol",
                             ("letters", "old", "deep"): "dave"}
        for user in ("bob", "carol", "dave"):
            self.deny(self.now, user, "/letters", "C")

    def test_who_owned_it(self) -> None:
        self.assertEqual(self.told("carol", "doc/letters/gone"), (200, b"gone"))
        self.assertEqual(self.told("bob", "doc/letters/gone"), NOT_NOW)
        self.assertEqual(self.told("dave", "doc/letters/old/deep"), (200, b"deep"))
        self.assertEqual(self.told("carol", "doc/letters/old/deep"), NOT_NOW)

    def test_who_manages_what_is_left(self) -> None:
        self.assertEqual(self.told("alice", "doc/letters/gone"), (200, b"gone"))
        self.assertEqual(self.told("alice", "doc/letters/old/deep"), (200, b"deep"))
        self.assertEqual(self.names("alice", "folder/letters/old"), ["deep"])

    def test_only_what_they_could_read(self) -> None:
        self.deny(self.then, "carol", "/letters/gone", "r")
        self.deny(self.then, "alice", "/letters/gone", "r")
        for user in ("carol", "alice"):
            self.assertEqual(self.told(user, "doc/letters/gone")[0], 403)

    def test_whose_way_there_is_barred(self) -> None:
        self.deny(self.now, "carol", "/letters", "x")
        self.assertEqual(self.told("carol", "doc/letters/gone"), NOT_NOW)

    def test_its_name_neither(self) -> None:
        self.assertEqual(self.names("bob", "folder/letters"), ["reply"])
        self.assertEqual(self.names("carol", "folder/letters"), ["gone", "old", "reply"])
        self.assertEqual(self.names("dave", "folder/letters"), ["reply"])
        self.assertEqual(self.names("alice", "folder/letters"), ["gone", "old", "reply"])
        # Of a folder that is gone, each sees what was theirs.
        self.assertEqual(self.names("carol", "folder/letters/old"), [])

    def test_nothing_that_was_never_there_is_told(self) -> None:
        self.assertEqual(self.told("bob", "doc/letters/never"), NOT_NOW)
        self.assertEqual(self.told("alice", "doc/letters/never")[0], 404)

    def test_members(self) -> None:
        self.shown_to = "members"
        self.assertEqual(self.told("bob", "doc/letters/gone"), (200, b"gone"))
        self.assertEqual(self.told("bob", "doc/letters/old/deep"), (200, b"deep"))
        self.assertEqual(self.names("bob", "folder/letters"), ["gone", "old", "reply"])
        self.assertIn("bob GET /folder/letters", self.now.seen)
        for bits in "wa":
            self.deny(self.now, "carol", "/letters", bits)
            self.assertEqual(self.told("carol", "doc/letters/gone"), NOT_NOW)
            self.assertEqual(self.names("carol", "folder/letters"), ["reply"])
        self.deny(self.now, "dave", "/letters", "r")
        self.assertEqual(self.told("dave", "doc/letters/gone"), NOT_NOW)


if __name__ == "__main__":
    unittest.main()
