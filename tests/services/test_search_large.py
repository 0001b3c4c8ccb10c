"""A search in texts of documents of more than 1 MiB, which lie there in parts."""
import csv
import os
import time
import unittest
from unittest import mock

import papers
from dated_door import line
from large_over import SMALL
from rooms_admin.room import in_parts
from rooms_services.door.search import search
from rooms_services.document_texts import night, nights
from rooms_services.document_texts.sink import State
from searching import Searching

LINES = ["eine Kündigung", *(f"Zeile {number} {number * 7919 % 1000}" for number in range(900))]


class Large(Searching):
    def setUp(self) -> None:
        super().setUp()
        for where in ("rooms_admin.room.in_parts", "rooms_services.room.parts"):
            patched = mock.patch(f"{where}.LARGEST", SMALL)
            patched.start()
            self.addCleanup(patched.stop)
        self.room.make(f=None, f__note=b"keine Kundigung")
        self.plan = papers.docx(LINES)
        self.put("plan", self.plan)

    def put(self, name: str, data: bytes) -> None:
        """As the door does, with as many empty parts as the next version takes."""
        parts = [data[at:at + SMALL] for at in range(0, len(data), SMALL)]
        self.assertGreater(len(parts), 2)
        whole = in_parts.Sum()
        for part in parts:
            whole.add(part)
        for number in range(1, in_parts.places_for(len(data)) + 1):
            self.room.objects["f", name + in_parts.end_of(number)] = \
                parts[number - 1] if number <= len(parts) else b""
        self.room.objects["f", name] = in_parts.Manifest(len(data), whole.digest, tuple(
            (number, in_parts.digest_of(part)) for number, part in enumerate(parts, 1))).text()

    def without(self) -> list[list[str]]:
        with open(os.path.join(nights.FOLDER, "office", night.LIST), encoding="utf-8") as source:
            return list(csv.reader(source))[1:]

    def test_found_as_one(self) -> None:
        self.make_night()
        status, said = self.search("kündigung")
        self.assertEqual((status, said), (200, {
            "all": True, "at": "/", "night": "2026-11-30.020000", "unread": 0, "without": 0,
            "found": [{"count": 1, "path": "/f/note", "text": ["keine ", "Kundigung", ""]},
                      {"count": 1, "path": "/f/plan"}]}))
        self.assertEqual(self.without(), [])
        # Its text is read when it is asked for.
        _, said = self.search("kündigung", "f/plan")
        found = said["found"]
        assert isinstance(found, list)
        self.assertEqual(found[0]["text"][:2], ["eine ", "Kündigung"])
        self.assertEqual(list(map(bytes, self.read)), [b"keine Kundigung", self.plan])

    def test_not_all_of_it_is_read_for_a_hit(self) -> None:
        self.make_night()
        asked = self.asked("kündigung", "alice")
        self.assertEqual([one for one in asked if "/doc/" in one],
                         ["alice GET /doc/f/note", "alice GET /doc/f/plan"])

    def test_a_small_one_that_was_large(self) -> None:
        self.room.objects["f", "plan"] = b"kurze Zeile"
        self.make_night()
        self.assertEqual(self.found("kurze"), {"/f/plan": 1})

    def test_who_may_not_read_a_part(self) -> None:
        """Somebody set a list at the room itself, of the document's name alone."""
        self.make_night()
        self.room.denied.add(("bob", f"/f/plan{in_parts.MARK}0002", "r"))
        _, said = self.search("eine zeile", user="bob")
        self.assertEqual((said["found"], said["without"]), ([], 1))
        _, said = self.search("eine zeile", "f/plan", "bob")
        self.assertEqual((said["found"], said["without"]), ([], 1))
        self.assertEqual(self.found("eine zeile"), {"/f/plan": 901})

    def test_what_somebody_lays_beside_a_document(self) -> None:
        """Under names of parts, each closed to others: of a small document, and of a large one that
        has no such part."""
        def is_there() -> None:
            said = self.search("kündigung", user="bob")[1]
            found = said["found"]
            assert isinstance(found, list)
            self.assertEqual([one["path"] for one in found], ["/f/note", "/f/plan"])
            self.assertEqual((said["without"], said["all"]), (0, True))
        laid = f"note{in_parts.MARK}0001", f"plan{in_parts.MARK}9998"
        for name in laid:
            self.room.objects["f", name] = b""
            self.room.denied.add(("bob", f"/f/{name}", "r"))
        self.make_night()
        is_there()
        # What changed by day is the same.
        for name in "note", "plan":
            self.add(line("alice", "PUT", f"/doc/f/{name}", 204, 3, at=time.time()))
        time.sleep(0.002)
        is_there()

    def test_a_night_of_an_earlier_version(self) -> None:
        """It doesn't say of which parts a document is."""
        self.make_night()
        self.room.denied.add(("bob", f"/f/plan{in_parts.MARK}0002", "r"))
        place = nights.place("office", nights.moments("office")[-1])
        os.unlink(os.path.join(place, "parts"))
        self.assertEqual(self.search("eine zeile", user="bob")[1]["found"], [])

    def test_a_closed_part_of_what_changed_by_day(self) -> None:
        """No record says that somebody tried it."""
        self.make_night()
        self.room.denied.add(("bob", f"/f/plan{in_parts.MARK}0002", "r"))
        self.add(line("alice", "PUT", "/doc/f/plan", 204, 3, at=time.time()))
        time.sleep(0.002)
        self.assertFalse([one for one in self.asked("zeile", "bob") if "/doc/f/plan~" in one])
        said = self.search("zeile", user="bob")[1]
        self.assertEqual((said["found"], said["without"]), ([], 1))

    def test_nothing_tells_what_is_in_a_closed_part(self) -> None:
        """Neither the answer nor what is asked for it."""
        self.make_night()
        self.room.denied.add(("bob", f"/f/plan{in_parts.MARK}0002", "r"))
        said = [(self.asked(words, "bob"), self.search(words, user="bob")[1])
                for words in ("zeile", "unsinnwort")]
        self.assertEqual(said[0], said[1])

    def test_a_list_of_parts_that_somebody_copied(self) -> None:
        """Who has that, and no bytes of the document, doesn't learn that it is there."""
        self.room.make(g=None, g__copy=self.room.objects["f", "plan"])
        for number in range(1, 30):
            self.room.objects["g", "copy" + in_parts.end_of(number)] = b""
        for turn in range(2):
            self.make_night(time.time() + 1 + turn)
            self.assertEqual(self.found("zeile"), {"/f/plan": 900})
            self.assertEqual(self.without(), [["broken", "/g/copy"]])

    def test_one_that_changed_by_day(self) -> None:
        self.make_night()
        self.put("plan", papers.docx(["ein Nachtrag", *LINES]))
        self.add(line("alice", "PUT", "/doc/f/plan", 204, 3, at=time.time()))
        time.sleep(0.002)
        _, said = self.search("nachtrag")
        found = said["found"]
        assert isinstance(found, list)
        self.assertEqual([(one["path"], one["text"][1]) for one in found],
                         [("/f/plan", "Nachtrag")])
        # One that is too large for that comes in with the night.
        with mock.patch.object(search, "READ_BYTES", 2 * SMALL):
            _, said = self.search("nachtrag")
            self.assertEqual((said["found"], said["unread"], said["all"]), ([], 1, False))
        self.make_night(time.time() + 1)
        self.assertEqual(self.found("nachtrag"), {"/f/plan": 1})

    def test_one_that_isn_t_whole(self) -> None:
        del self.room.objects["f", f"plan{in_parts.MARK}0002"]
        self.make_night()
        _, said = self.search("zeile")
        self.assertEqual((said["found"], said["without"]), ([], 1))
        self.assertEqual(self.without(), [["broken", "/f/plan"]])

    def test_one_with_too_much(self) -> None:
        with mock.patch.object(night, "LARGEST", 2 * SMALL):
            self.make_night()
        self.assertEqual(self.without(), [["large", "/f/plan"]])
        self.assertEqual(self.search("zeile")[1]["without"], 1)
        with mock.patch.object(search, "LARGEST", 2 * SMALL):
            _, said = self.search("zeile", "f/plan")
            self.assertEqual((said["found"], said["without"]), ([], 1))

    def test_a_scan(self) -> None:
        picture = b"\xff\xd8\xff\0" + bytes(3 * SMALL)
        self.put("scan", picture)

        def scanned(data: bytes) -> tuple[State, str]:
            self.assertEqual(data, picture)
            return State.WHOLE, "words of a scan"
        self.make_night(time.time() + 1, scanned)
        self.assertEqual(self.found("scan"), {"/f/scan": 1})

    def test_one_in_memory_at_a_time(self) -> None:
        for number in range(5):
            self.put(f"plan {number}", papers.docx([str(number), *LINES]))
        most = 0
        real = night.Night._settle

        def settle(made: night.Night, making: object, left: int) -> None:
            nonlocal most
            most = max(most, len(made._waits))
            real(made, making, left)  # type: ignore[arg-type]
        with mock.patch.object(night.Night, "_settle", settle):
            self.make_night()
        self.assertLessEqual(most, 2)
        self.assertEqual(len(self.found("eine zeile")), 6)


if __name__ == "__main__":
    unittest.main()
