"""What lies below a folder, over a room in memory."""
import unittest

from over import Over

OPEN = "list:a\nA:fd:alice:rwx\n"
FOLLOWS = "list:a\nA:I:alice:rwx\n"


class Below(Over):
    def setUp(self) -> None:
        super().setUp()
        self.room.make(f=None, f__a=b"", f__b=b"", f__g=None, f__g__c=b"", f__g__h=None,
                       f__g__h__d=b"")
        self.room.lists = {("f",): OPEN} | {
            path: FOLLOWS for path in self.room.objects if len(path) > 1}

    def test_all_follows(self) -> None:
        self.room.owners["f", "b"] = "bob"
        self.assertEqual(self.told("/door/below/f"), (200, {
            "at": "/f", "list": OPEN, "objects": [], "unlisted": [], "unread": [], "rest": [
                {"below": "/f", "kind": "document", "depth": 1, "owner": "alice",
                 "group": "staff", "count": 1},
                {"below": "/f", "kind": "document", "depth": 1, "owner": "bob",
                 "group": "staff", "count": 1},
                {"below": "/f", "kind": "folder", "depth": 1, "owner": "alice",
                 "group": "staff", "count": 1},
                {"below": "/f", "kind": "document", "depth": 2, "owner": "alice",
                 "group": "staff", "count": 2},
                {"below": "/f", "kind": "folder", "depth": 2, "owner": "alice",
                 "group": "staff", "count": 1}]}))

    def _objects(self) -> list[str]:
        status, told = self.told("/door/below/f")
        assert status == 200 and isinstance(told, dict)
        return [one["path"] for one in told["objects"]]

    def test_what_differs(self) -> None:
        for text, wanted in [
                ("list:ap\nA:I:alice:rwx\n", ["/f/g"]),
                ("list:a\nA::eve:r\nA:I:alice:rwx\n", ["/f/g"]),
                # What is below doesn't follow it, whatever it was when it was made.
                ("list:\nA:I:alice:rwx\n", ["/f/g", "/f/g/c", "/f/g/h"])]:
            self.room.lists["f", "g"] = text
            self.assertEqual(self._objects(), wanted)
        self.room.lists["f", "g"] = FOLLOWS
        self.room.lists["f",] = "list:\n"
        self.assertEqual(self._objects(), ["/f/a", "/f/b", "/f/g"])

    def test_rest_is_counted_below_what_differs(self) -> None:
        self.room.lists["f", "g"] = "list:ap\nA:fd:bob:rwx\n"
        _, told = self.told("/door/below/f")
        assert isinstance(told, dict)
        self.assertEqual(told["objects"], [{
            "group": "staff", "kind": "folder", "list": "list:ap\nA:fd:bob:rwx\n",
            "owner": "alice", "path": "/f/g"}])
        self.assertEqual([(row["below"], row["kind"], row["depth"], row["count"])
                          for row in told["rest"]],
                         [("/f", "document", 1, 2), ("/f/g", "document", 1, 1),
                          ("/f/g", "folder", 1, 1), ("/f/g", "document", 2, 1)])

    def test_what_may_not_be_seen(self) -> None:
        self.room.denied |= {("alice", "/f/a", "c"), ("alice", "/f/b", "t"),
                             ("alice", "/f/g", "x"), ("alice", "/f/g/h", "r")}
        _, told = self.told("/door/below/f")
        assert isinstance(told, dict)
        self.assertEqual((told["list"], told["unlisted"]), (OPEN, ["/f/g/h"]))
        self.assertEqual(told["unread"], [
            {"in": "/f", "kind": "document", "count": 1},
            {"in": "/f/g", "kind": "document", "count": 1}])
        # What is in a folder can't be told apart from what follows, unless the folder is named.
        self.assertEqual(told["objects"][-1], {
            "group": None, "kind": "folder", "list": None, "owner": None, "path": "/f/g/h"})
        self.assertIn({"below": "/f", "kind": "document", "depth": 1, "owner": None,
                       "group": None, "count": 1}, told["rest"])
        # Nothing was asked that is denied: it would be a record of somebody's attempt.
        self.assertEqual([line for line in self.room.seen if "/f/g/" in line
                          or line == "alice GET /dacl/f/a" or line == "alice GET /attr/f/b"], [])

    def test_what_is_told_apart(self) -> None:
        """A folder whose list says something to its owner, and the way to what is named."""
        for who, wanted in (("OWNER@", ["/f/g", "/f/g/h"]), ("GROUP@", ["/f/g", "/f/g/h"]),
                            ("bob", [])):
            self.room.lists = {("f",): f"list:a\nA:fd:{who}:rwx\n"} | {
                path: f"list:a\nA:I:{who}:rwx\n" for path in self.room.objects if len(path) > 1}
            self.assertEqual(self._objects(), wanted, who)
        self.room.lists["f", "g"] = "list:a\nA:fiI:OWNER@:d\n"
        self.assertEqual(self._objects(), [])
        for rest, wanted in (("g/h/d", ["/f/g", "/f/g/h", "/f/g/h/d"]), ("a", ["/f/a"]),
                             ("none/x", []), ("", [])):
            status, told = self.told(f"/door/below/f?{rest}")
            assert status == 200 and isinstance(told, dict)
            self.assertEqual([one["path"] for one in told["objects"]], wanted)
        self.assertEqual(self.told("/door/below/f?a//b"), (400, {"why": "bad-target P1"}))

    def test_a_list_that_may_not_be_read(self) -> None:
        self.room.denied.add(("alice", "/f", "c"))
        _, told = self.told("/door/below/f")
        assert isinstance(told, dict)
        self.assertEqual(told["list"], None)
        # So it isn't known what follows it.
        self.assertEqual([one["path"] for one in told["objects"]], ["/f/a", "/f/b", "/f/g"])

    def test_as_the_room_says(self) -> None:
        self.room.denied.add(("bob", "/f", "r"))
        self.assertEqual(self.told("/door/below/f", "bob"), (403, {
            "at": "/f", "bits": "r", "entry": 1, "text": "D::bob:r"}))
        self.assertEqual(self.told("/door/below/q"), (404, {"at": "/q", "why": "no-such"}))
        self.assertEqual(self.told("/door/below/f/a"), (409, {"at": "/f/a", "why": "wrong-kind"}))

    def test_rows_of_64(self) -> None:
        for number in range(500):
            self.room.objects["f", f"n{number}"] = b""
        self.told("/door/below/f")
        self.assertLessEqual(max(self.room.connections), 64)
        self.assertLess(len(self.room.connections), 40)


if __name__ == "__main__":
    unittest.main()
