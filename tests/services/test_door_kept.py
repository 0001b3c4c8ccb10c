"""What the door keeps of changes takes no more memory or time than it may have, whatever names and
folders a room has, and tells nobody of documents that are closed to them."""
import json
import shutil
import sqlite3
import tempfile
import time
import tracemalloc
import unittest
from contextlib import closing
from typing import Any
from unittest import mock

from dated_door import NOW, Dated, line
from rooms_admin.room import in_parts
from rooms_services.door.changes import latest, store
from rooms_services.door.changes.store import Inside, Store
from rooms_services.door.folders import walk
from rooms_services.door.webdav.kept import Kept as Locked
from rooms_services.door.webdav.tasks import Tasks

MEGABYTE = 1 << 20
# 250 letters in 255 bytes, each of which takes four in memory.
LONG = "x" * 249 + "\U0001f600"


class Kept(Dated):
    def test_folders_at_long_paths(self) -> None:
        """Where a folder is, is remembered of 20,000 of them."""
        found = self.keeper._store
        assert found
        above = tuple(f"{depth}{LONG}" for depth in range(14))
        tracemalloc.start()
        found.begin()
        for number in range(1000):
            # (as they come from a line, each time anew)
            names = *("".join(list(name)) for name in above), f"{number}{LONG}"
            self.assertEqual(found.folder(names), found.find(names))
        taken = tracemalloc.get_traced_memory()[0]
        found.commit()
        tracemalloc.stop()
        self.assertLess(taken * store.REMEMBERED // 1000, 64 * MEGABYTE)

    def test_a_folder_that_moved(self) -> None:
        """Where it was is remembered no more, nor where what is in it was."""
        found = self.keeper._store
        assert found
        self.add(line("bob", "PUT", "/doc/a/b/c/d", 201, 1), line("bob", "PUT", "/doc/e/f", 201, 1))
        self.rows()
        one = found.find(("a", "b"))
        self.assertTrue(found.is_folder(("a", "b", "c")) and one)
        self.add(line("bob", "POST", "/move/a/b", 204, 9, '{"to":"/e/g"}'))
        self.rows()
        self.assertIsNone(found.find(("a", "b", "c")))
        self.assertEqual(found.find(("e", "g")), one)
        self.add(line("bob", "DELETE", "/object/e/g"), line("bob", "PUT", "/doc/e/g", 201, 1))
        self.rows()
        self.assertNotEqual(found.find(("e", "g")), one)
        self.assertFalse(found.is_folder(("e", "g")))

    def test_a_folder_with_very_many_in_it(self) -> None:
        """No more of them are looked at than a request may look through."""
        self.add(*(line("bob", "PUT", f"/doc/f/g/h{number}/d", 201, 1) for number in range(60)))
        self.rows()
        looked: list[int] = []
        folders = Store.folders

        def counts(kept: Store, *given: Any) -> list[Inside]:
            found = folders(kept, *given)
            looked.append(len(found))
            return found
        with mock.patch.object(walk, "MOST", 10), mock.patch.object(latest, "SOME", 5), \
                mock.patch.object(Store, "folders", counts):
            self.assertEqual(self.told("/door/latest/"), (413, {"why": "too-many"}))
        self.assertLess(sum(looked), 20)
        self.assertEqual(self.told("/door/latest/")[0], 200)


class InParts(Dated):
    """A document of more than 1 MiB is as large as its parts."""

    def lay(self, name: str, *sizes: int) -> None:
        for number, size in enumerate(sizes, 1):
            part = name + in_parts.end_of(number)
            self.room.objects["f", part] = bytes(size)
            self.add(line("bob", "PUT", f"/doc/f/{part}", 201, size, at=NOW - 9))

    def sizes(self, user: str) -> tuple[object, object]:
        [found] = [row for row in self.newest(user) if row["path"] == "/f/a"]
        return self.rows("f", user)["a"].get("size"), found.get("size")

    def newest(self, user: str) -> list[dict[str, object]]:
        told = self.told("/door/latest/f", user)[1]
        assert isinstance(told, dict)
        found: list[dict[str, object]] = told["found"]
        return found

    def test_its_length(self) -> None:
        self.lay("a", 1000, 234, 0)
        self.add(line("bob", "PUT", "/doc/f/a", 201, 3))
        self.assertEqual(self.sizes("alice"), (1234, 1234))
        self.room.objects["f", "a" + in_parts.end_of(4)] = b"12"
        self.assertEqual(self.sizes("alice")[0], None)

    def test_parts_that_are_closed(self) -> None:
        """One has the name of a part, and is somebody else's: nothing tells of it."""
        self.add(line("eve", "PUT", "/doc/f/a", 201, 3))
        self.room.denied = {("eve", f"/f/a{in_parts.end_of(number)}", bit)
                            for number in (1, 2) for bit in "rt"}
        self.lay("a", 0, 0)

        def all_told() -> tuple[object, ...]:
            self.keeper.catch_up()
            self.room.seen.clear()
            return (self.told("/door/folder/f", "eve"), self.newest("eve"), self.room.seen[:])
        before = all_told()
        self.lay("a", 5000, 7)
        self.assertEqual(all_told(), before)
        self.assertEqual(self.sizes("alice"), (5007, 5007))
        self.room.denied = {("eve", f"/f/a{in_parts.end_of(1)}", "t")}
        self.assertEqual(self.sizes("eve"), (7, 7))

    def test_many(self) -> None:
        """Each is looked at as often as there are parts of it, and not of all."""
        for number in range(3000):
            for name in (f"x{number}", f"x{number}{in_parts.end_of(1)}"):
                self.room.objects["f", name] = b"1"
        self.add(*(line("bob", "PUT", f"/doc/f/x{number}{end}", 201, 1)
                   for number in range(3000) for end in ("", in_parts.end_of(1))))
        self.rows()
        began = time.process_time()
        with mock.patch.object(self.room, "_children", return_value=sorted(
                path for path in self.room.objects if path[:-1] == ("f",) and path)):
            self.assertEqual(len(self.rows()), 3003)
        self.assertLess(time.process_time() - began, 4)

    def test_of_very_many_parts_no_length_is_told(self) -> None:
        self.lay("a", *([1] * 399))
        self.add(line("bob", "PUT", "/doc/f/a", 201, 3))
        self.assertEqual(self.newest("alice")[0]["size"], 399)
        self.room.seen.clear()
        with mock.patch.object(latest, "MOST_PARTS", 300):
            self.assertNotIn("size", self.newest("alice")[0])
        self.assertLess(len(self.room.seen), 200)


class Left(unittest.TestCase):
    """What somebody left in the door's files who had taken its place for a while."""

    def setUp(self) -> None:
        self.folder = tempfile.mkdtemp()
        self.addCleanup(shutil.rmtree, self.folder)

    def leave(self, name: str, what: str) -> str:
        file = f"{self.folder}/{name}"
        with closing(sqlite3.connect(file)) as base:
            base.execute(what)
            base.commit()
        return file

    def test_a_trigger(self) -> None:
        for what in ("create trigger other after insert on lock begin delete from task; end",
                     "create trigger other before delete on task begin delete from lock; end"):
            Locked(f"{self.folder}/locks")
            file = self.leave("locks", what)
            kept = Locked(file)
            kept.rows("insert into task values (1, 'alice', '[]', 0)")
            kept.rows("insert into lock (token) values ('t')")
            kept.rows("delete from task where number = 2")
            self.assertEqual((kept.count("task"), kept.count("lock")), (1, 1))
        Store(f"{self.folder}/dates.db", True).close()
        file = self.leave("dates.db", "create trigger other after insert on node begin "
                          "update node set at = 1; end")
        self.assertRaisesRegex(sqlite3.DatabaseError, "somebody else", Store, file, True)

    def test_a_task(self) -> None:
        """Only what a move or a removal has put aside is ended in somebody's name."""
        kept = Locked()
        for told, since in (([["contracts"], None, None], time.time()), ([1, 2, 3], time.time()),
                            ([["m", "x"], ["a"], ["contracts"]], time.time()), ({}, "x"),
                            ([[], None, None], None), ([["~old-0123456789ab"], None, None], "x")):
            kept.rows("insert into task (user, told, since) values ('alice', ?, ?)",
                      (json.dumps(told), since))
        kept.rows("insert into task (user, told, since) values (1, 'no', ?)", (time.time(),))
        asked = mock.Mock()
        Tasks(kept).end_those_left(lambda user: asked)
        self.assertEqual((asked.mock_calls, kept.count("task")), ([], 0))


if __name__ == "__main__":
    unittest.main()
