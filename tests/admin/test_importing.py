"""What a dry run of import tells is what the run does: on a room in memory, in states at random."""
import contextlib
import io
import json
import os
import random
import sys
import tempfile
import unittest
from typing import Any, BinaryIO

from rooms_admin.host import safe
from rooms_admin.room import http_client, names
from rooms_admin.room.http_client import Reply
from rooms_admin.transfer import importing

sys.path.insert(0, os.path.join(os.path.dirname(os.path.abspath(__file__)), "../services"))
from fake_room import FakeRoom  # noqa: E402

NAMES = ("a", "b", "c d")


class Asks(http_client.Client):
    """Of a room in memory."""

    def __init__(self, room: FakeRoom) -> None:
        self.room_there = room
        self.left_out, self.log = 0, ""

    def largest(self) -> int:
        return importing.LARGEST

    def ask(self, method: str, word: str, path: bytes, body: bytes | BinaryIO | None = None,
            fields: dict[str, str] | None = None, query: str = "") -> Reply:
        given = body if isinstance(body, bytes) else b""
        target = f"/{word}{names.encoded(path)}{query}"
        status, said = self.room_there.answer("eve", method, target, given)
        text = said if isinstance(said, bytes) else json.dumps(said, separators=(",", ":")).encode()
        return Reply(status, text, {})


def room_at_random(chance: random.Random) -> FakeRoom:
    room = FakeRoom()
    folders: list[tuple[str, ...]] = [()]
    for _ in range(chance.randrange(8)):
        path = (*chance.choice(folders), chance.choice(NAMES))
        if len(path) > 3 or path in room.objects:
            continue
        room.objects[path] = chance.choice((None, b"", b"1", b"2"))
        if room.objects[path] is None:
            folders.append(path)
    for path in list(room.objects):
        # What of a folder is told without the right to read it says no kind.
        for bit in "wax" if room.objects[path] is None else "rwa":
            if chance.random() < 0.1:
                room.denied.add(("eve", "/" + "/".join(path), bit))
    return room


def tree_at_random(chance: random.Random, place: str, depth: int = 0) -> None:
    for name in NAMES:
        kind = chance.randrange(4)
        at = os.path.join(place, name)
        if kind == 0 and depth < 2:
            os.mkdir(at)
            tree_at_random(chance, at, depth + 1)
        elif kind in (1, 2):
            with open(at, "w", encoding="ascii") as file:
                file.write(chance.choice(("", "1", "2")))


class Told(unittest.TestCase):
    def run_on(self, room: FakeRoom, source: str, to: bytes, replace: bool, dry: bool
               ) -> importing.Import:
        task = importing.Import(Asks(room), replace, None, dry)
        with safe.opened(safe.folder(source)) as at, contextlib.redirect_stderr(io.StringIO()):
            if to == b"/" or task.make_way(to):
                task.folder(at, to, b"")
        return task

    def counts(self, task: importing.Import) -> tuple[int, ...]:
        return task.made, task.replaced, task.same, task.client.left_out

    def test_at_random(self) -> None:
        came = 0
        for seed in range(400):
            chance = random.Random(seed)
            room = room_at_random(chance)
            to, replace = chance.choice((b"/", b"/a", b"/b/c d")), chance.random() < 0.5
            with tempfile.TemporaryDirectory() as source:
                tree_at_random(chance, source)
                before = dict(room.objects)
                told = self.run_on(room, source, to, replace, True)
                self.assertEqual(room.objects, before, seed)
                self.assertEqual({one.split()[1] for one in room.seen} - {"GET"}, set())
                done = self.run_on(room, source, to, replace, False)
            self.assertEqual(self.counts(told), self.counts(done), seed)
            new = {("/" + "/".join(path)).encode() for path in room.objects.keys() - before.keys()}
            other = {("/" + "/".join(path)).encode() for path in before
                     if room.objects[path] != before[path]}
            self.assertEqual(set(told.would_make), new, seed)
            self.assertLessEqual(other, set(told.would_replace), seed)
            came += len(new) + len(other)
        self.assertGreater(came, 400)

    def test_by_name_where_few(self) -> None:
        with tempfile.TemporaryDirectory() as source:
            for number in range(21):
                with open(f"{source}/{number}", "w", encoding="ascii"):
                    pass
            room = FakeRoom()
            room.make(**{"1": b"x", "2": b""})
            said = self.run_on(room, source, b"/", True, True).text()
            self.assertEqual(len(said), 21)
            self.assertIn("would be replaced /1", said)
            self.assertIn("would be made /20", said)
            self.assertEqual(said[-1], "would be made 19, replaced 1, there already 1, left out 0")
            said = self.run_on(FakeRoom(), source, b"/", True, True).text()
            self.assertEqual(said, ["would be made 21, replaced 0, there already 0, left out 0"])
            said = self.run_on(FakeRoom(), source, b"/", True, False).text()
            self.assertEqual(said, ["made 21, replaced 0, there already 0, left out 0"])

    def test_a_full_room(self) -> None:
        """What would come before counts."""
        class Space:
            def need(self, size: int, before: int) -> None:
                if size + before > 5:
                    raise importing.Full("full")
        space: Any = Space()
        with tempfile.TemporaryDirectory() as source:
            for name in "abc":
                with open(f"{source}/{name}", "w", encoding="ascii") as file:
                    file.write("xx")
            task = importing.Import(Asks(FakeRoom()), False, space, True)
            with safe.opened(safe.folder(source)) as at, self.assertRaises(importing.Full):
                task.folder(at, b"/", b"")
            self.assertEqual(task.would_make, [b"/a", b"/b"])
