"""What a listing by WebDAV has read of documents, where the door is told of each change."""
import json
import os
import time

from dated_door import Dated, line
from fake_room import Said
from rooms_services.door.changes.keeper import now
from rooms_services.door.webdav import calls
from rooms_services.door.webdav.kept import Kept
from rooms_services.room.tags import tag_of

PROPS = '<D:propfind xmlns:D="DAV:"><D:prop><D:getetag/>%s</D:prop></D:propfind>'
SUMS = '<o:checksums xmlns:o="http://owncloud.org/ns"/>'


class Seen(Dated):
    def setUp(self) -> None:
        super().setUp()
        # The door knows each document by a change that it was told of.
        self.add(*(line("bob", "PUT", f"/doc/f/{name}", 201, 3) for name in "ab"))
        self.drives()

    def drives(self) -> None:
        self.door.drive = calls.Drive(Kept(self.at("locks")), self.full, self.keeper)

    def listed(self, user: str = "alice", path: str = "/f", depth: str = "1", more: str = ""
               ) -> tuple[set[str], list[str]]:
        """The tags that are told, and which documents were read for that."""
        self.room.seen.clear()
        status, _, body = self.ask("PROPFIND", f"/drive{path}", PROPS % more, user, Depth=depth)
        self.assertEqual(status, 207, body)
        tags = {f'"{part.split(b"&quot;")[0].decode()}"'
                for part in body.split(b"getetag>&quot;")[1:]} or {
            part.split(b"<")[0].decode() for part in body.split(b"getetag>")[1::2]}
        read = [seen.rpartition("/")[2] for seen in self.room.seen if " GET /doc/" in seen]
        return tags, read

    def both(self) -> set[str]:
        return {tag_of(b"one"), tag_of(b"two")}

    def test_each_is_read_once(self) -> None:
        self.assertEqual(self.listed(), (self.both(), ["a", "b"]))
        self.assertEqual(self.listed(), (self.both(), []))
        # By itself too, and for whoever else may read it.
        self.assertEqual(self.listed(path="/f/a", depth="0"), ({tag_of(b"one")}, []))
        self.assertEqual(self.listed("bob"), (self.both(), []))

    def test_what_changed_is_read_again(self) -> None:
        self.listed()
        self.room.make(f__a=b"changed")
        self.add(line("bob", "PUT", "/doc/f/a", 204, 7))
        self.assertEqual(self.listed(), ({tag_of(b"changed"), tag_of(b"two")}, ["a"]))
        self.assertEqual(self.listed()[1], [])
        # Also where nobody knows whether it was done.
        self.add(line("bob", "PUT", "/doc/f/b", 504, 7))
        self.assertEqual(self.listed()[1], ["b"])
        # And by this door.
        self.assertEqual(self.ask("PUT", "/drive/f/b", b"new")[0], 204)
        self.assertEqual(self.listed(), ({tag_of(b"changed"), tag_of(b"new")}, ["b"]))

    def test_another_one_in_its_place(self) -> None:
        self.listed()
        del self.room.objects["f", "a"]
        self.add(line("bob", "DELETE", "/object/f/a"))
        self.assertEqual(self.listed(), ({tag_of(b"two")}, []))
        self.room.make(f__a=b"another")
        self.add(line("bob", "PUT", "/doc/f/a", 201, 7))
        self.assertEqual(self.listed(), ({tag_of(b"another"), tag_of(b"two")}, ["a"]))
        # What moves keeps its bytes.
        self.room.objects["f", "c"] = self.room.objects.pop(("f", "b"))
        self.add(line("bob", "POST", "/move/f/b", 204, 1, '{"to":"/f/c"}'))
        self.assertEqual(self.listed(), ({tag_of(b"another"), tag_of(b"two")}, []))

    def test_who_may_not_read(self) -> None:
        """The room is asked each time, and nothing that somebody else has read is told."""
        self.listed()
        self.room.denied.add(("bob", "/f/a", "r"))
        self.assertEqual(self.listed("bob"), ({tag_of(b"two")}, []))

    def test_with_sums(self) -> None:
        """Those that a look without sums lacks are made of the bytes."""
        self.listed()
        self.assertEqual(self.listed(more=SUMS)[1], ["a", "b"])
        self.listed()
        self.assertEqual(self.listed(path="/f/a", depth="0")[1], [])

    def test_where_a_change_may_be_missed(self) -> None:
        self.listed()
        # A line that was torn, and one that the journal lost.
        self.add(b'{"v":1,"t":1\n')
        self.assertEqual(self.listed()[1], ["a", "b"])
        self.assertEqual(self.listed()[1], [])
        os.truncate(self.at("changes/journal"), 0)
        self.assertEqual(self.listed()[1], ["a", "b"])

    def test_a_change_between_the_look_and_now(self) -> None:
        """What was read before it isn't kept."""
        found, looks = self.keeper.seen(("f",), ["a", "b"], now())
        self.assertEqual((found, sorted(looks)), ({}, ["a", "b"]))
        self.add(line("bob", "PUT", "/doc/f/a", 204, 7))
        self.keeper.keep_seen(looks, {"a": "old", "b": "read"}, now())
        self.assertEqual(self.keeper.seen(("f",), ["a", "b"], now())[0], {"b": "read"})

    def moves(self, *ways: tuple[str, str]) -> None:
        self.add(*(line("eve", "POST", f"/move/f/{name}", 204, 9, json.dumps({"to": f"/f/{to}"}),
                        time.time()) for name, to in ways))

    def test_another_one_in_its_place_meanwhile(self) -> None:
        """Whoever may move a document and not read it is told no measure of it at the place of
        theirs, nor has theirs kept for it."""
        self.listed()
        self.room.denied.add(("eve", "/f/b", "r"))
        answer = self.room.answer

        def before(user: str, method: str, target: str, body: bytes) -> Said:
            said = answer(user, method, target, body)
            if target == "/can/f/a?r":
                setattr(self.room, "answer", answer)
                self.moves(("a", "c"), ("b", "a"))
            return said
        setattr(self.room, "answer", before)
        self.assertEqual(self.listed("eve"), ({tag_of(b"one")}, ["a"]))
        # (this room hasn't moved them)
        time.sleep(0.002)
        self.moves(("a", "b"), ("c", "a"))
        time.sleep(0.002)
        self.assertEqual(self.listed(), (self.both(), []))
        self.add(line("bob", "PUT", "/doc/f/a", 204, 7))
        began = now()
        _, looks = self.keeper.seen(("f",), ["a"], began)
        self.moves(("a", "c"), ("c", "a"))
        self.keeper.keep_seen(looks, {"a": "hers"}, began)
        time.sleep(0.002)
        self.assertEqual(self.keeper.seen(("f",), ["a"], now())[0], {})

    def test_where_nothing_is_known(self) -> None:
        """Of what no line told, it is read each time; so it is while dates aren't known."""
        self.room.make(f__d=b"four")
        self.listed()
        self.assertEqual(self.listed()[1], ["d"])
        self.door.drive = calls.Drive(Kept(self.at("locks")), self.full)
        self.assertEqual(sorted(self.listed()[1]), ["a", "b", "d"])

    def test_a_night_looks_at_all(self) -> None:
        """What came past nginx is seen then."""
        self.listed()
        # As a night does with each document that it finds to be the same.
        with self.keeper._alone():
            store = self.keeper._ready()
            store.begin()
            for name in "ab":
                store.set_at_night(store.find(("f", name)) or 0, 3, None)
            store.commit()
        self.assertEqual(self.listed()[1], ["a", "b"])
