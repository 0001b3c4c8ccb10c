"""Locks of documents that are edited in place, over a room in memory."""
import os
import re
import time
import unittest
from unittest import mock

from over import LOCKINFO, Drive
from rooms_services.door.webdav import locks
from rooms_services.door.webdav.kept import Kept, NotKept
from rooms_services.room.paths import Names
from rooms_services.room.room import Denials


class Locking(Drive):
    def test_only_the_owner(self) -> None:
        self.make(a=b"x")
        token = self.lock("/a")
        asked: list[tuple[str, dict[str, str], int]] = [
            ("bob", {}, 423), ("alice", {}, 423), ("bob", {"If": f"({token})"}, 412),
            ("alice", {"If": f"({token})"}, 204)]
        for user, fields, wanted in asked:
            self.assertEqual(self.status("PUT", "/a", "y", user=user, **fields), wanted)
        self.assertEqual(self.status("UNLOCK", "/a", user="bob", Lock_Token=token), 409)
        self.assertEqual(self.status("UNLOCK", "/a", Lock_Token=token), 204)
        self.assertEqual(self.status("PUT", "/a", "z", user="bob"), 204)

    def test_another_user_is_not_told_the_token(self) -> None:
        self.make(a=b"x")
        token = self.lock("/a")[1:-1].encode()
        for user, told in (("alice", True), ("bob", False)):
            body = self.dav("PROPFIND", "/a", user=user, Depth="0")[2]
            self.assertEqual((token in body, b"<D:owner>alice</D:owner>" in body), (told, True))

    def test_a_door_that_is_killed(self) -> None:
        """The next one knows its locks, also that of a name to which nothing came."""
        self.make(f=None)
        token = self.lock("/f/a")
        self.assertEqual(self.status("PUT", "/f/b", user="bob"), 201)
        self.assertEqual(os.stat(self.at("locks")).st_mode & 0o777, 0o600)
        held = locks.Locks(Kept(self.at("locks"))).of("alice", token[1:-1])
        assert held
        self.assertEqual((held.names, held.pending, held.user), (("f", "a"), True, "alice"))
        self.assertEqual(self.status("UNLOCK", "/f/a", Lock_Token=token), 204)
        self.assertEqual(locks.Locks(Kept(self.at("locks"))).covering(("f", "a")), [])
        for text in ("", "{", "[1]", '[{"token":"x"}]', '{"a":1}'):
            with open(self.at("locks"), "w", encoding="utf-8") as file:
                file.write(text)
            self.assertEqual(locks.Locks(Kept(self.at("locks"))).covering(("f", "a")), [])

    def test_the_clock_is_set_back(self) -> None:
        now = [10_000.0]
        table = locks.Locks(now=lambda: now[0])
        self.assertIsNotNone(table.add("alice", ("f",), True, False, "", 100))
        now[0] = 1.0
        self.assertEqual(table.covering(("f",)), [])

    def test_who_may_not_write_may_not_lock(self) -> None:
        self.make(a=b"x")
        self.room.denied |= {("bob", "/a", "w"), ("bob", "/a", "a")}
        self.assertEqual(self.status("LOCK", "/a", LOCKINFO, user="bob", Depth="0"), 403)

    def test_a_folder_with_all_below(self) -> None:
        self.make(f=None)
        self.room.denied.add(("bob", "/f", "C"))
        self.assertEqual(self.status("LOCK", "/f", LOCKINFO, user="bob"), 403)
        self.lock("/f", "bob", Depth="0")

    def test_a_barred_folder_tells_of_no_lock(self) -> None:
        self.make(f=None, f__a=b"x")
        self.lock("/f/a")
        self.room.denied.add(("bob", "/f", "x"))
        for name in ("a", "none"):
            for method in ("PUT", "LOCK", "DELETE", "UNLOCK"):
                status, _, body = self.dav(
                    method, f"/f/{name}", LOCKINFO if method == "LOCK" else "", "bob",
                    Lock_Token="<x>")
                if method == "UNLOCK":
                    self.assertEqual(status, 409)
                else:
                    self.assertEqual((status, body[:15]), (403, b"denied: x at /f"))

    def test_a_lock_is_told_where_the_way_is_open(self) -> None:
        self.make(board=None, board__plan=None, board__plan__secret=b"x", f=None)
        self.lock("/board/plan/secret")
        self.room.denied.add(("bob", "/board", "x"))
        asked: list[tuple[str, str, dict[str, str]]] = [
            ("DELETE", "/board", {}), ("MOVE", "/board", {"Destination": "/drive/b"}),
            ("MOVE", "/f", {"Destination": "/drive/board"}),
            ("COPY", "/f", {"Destination": "/drive/board"})]
        for method, path, fields in asked:
            self.assertEqual(self.dav(method, path, "", "bob", **fields)[::2],
                             (423, b"something in it is locked: /board\n"), (method, path))
            self.assertEqual(self.dav(method, path, "", "eve", **fields)[::2],
                             (423, b"locked by alice: /board/plan/secret\n"), (method, path))
        # Who may not remove it learns of no lock: it is said, and recorded, as without one.
        self.room.denied |= {("bob", "/board", "d"), ("bob", "/", "D")}
        assert self.door.drive
        told: list[list[object]] = []
        for _ in range(2):
            said: list[object] = []
            for method, path, fields in asked:
                self.room.seen.clear()
                answer = self.dav(method, path, "", "bob", **fields)[::2]
                self.assertIn(answer[0], (207, 403), (method, path))
                said += [answer, [one for one in self.room.seen if " GET /can/" not in one]]
            told.append(said)
            self.door.drive.locks.gone(("board",))
        self.assertEqual(told[0], told[1])

    def test_a_listing_tells_locks_where_the_way_is_open(self) -> None:
        self.make(board=None, board__secret=b"x")
        self.lock("/board/secret")
        self.room.denied.add(("bob", "/board", "x"))
        for user, told in (("bob", False), ("eve", True)):
            status, _, body = self.dav("PROPFIND", "/board", user=user, Depth="1")
            self.assertEqual((status, b"/drive/board/secret" in body, b"activelock" in body),
                             (207, True, told))

    def told_bob(self, *locked: str) -> list[object]:
        """What he is told, and what is asked for him, once alice has locked these; and how many
        denials he has left."""
        places = ("/", "/none", "/board", "/board/secret", "/board/none", "/board/sub/deep",
                  "/shut/x", "/proj", "/proj/closed", "/proj/closed/x", "/mine/a", "/mine/none/x")
        asked: list[tuple[str, str, dict[str, str]]] = [
            (method, path, {"Depth": depth}) for path in places for depth in ("0", "infinity")
            for method in ("PUT", "DELETE", "MKCOL", "LOCK")]
        asked += [(method, path, {"Destination": f"/drive{to}"})
                  for method in ("MOVE", "COPY") for path in places for to in places]
        told = list[object]()
        self.door.room.denials = Denials(1e6, 0.0)
        for path in locked:
            self.lock(path, Depth="0")
        held = self.lock("/mine/a", "bob", Depth="0")
        objects = dict(self.room.objects)
        for method, path, fields in asked:
            self.room.objects = dict(objects)
            self.room.seen.clear()
            status, given, body = self.dav(
                method, path, LOCKINFO % "bob" if method == "LOCK" else "", "bob", **fields)
            seen = [one for one in self.room.seen if " GET /can/" not in one]
            if token := given.get("Lock-Token"):
                self.dav("UNLOCK", path, "", "bob", Lock_Token=token)
            told.append((method, path, fields, status, re.sub(
                rb"[0-9a-f-]{12,}", b"*", body), re.sub("[0-9a-f-]{12,}", "*", str(seen))))
        self.dav("UNLOCK", "/mine/a", "", "bob", Lock_Token=held)
        return [*told, self.door.room.denials.left("bob")]

    def test_a_closed_folder_tells_of_no_lock_by_what_else_is_asked(self) -> None:
        """Of a room with locks behind closed folders, which he may not remove, he is told the same
        as of one without them."""
        self.make(board=None, board__secret=b"s", board__sub=None, board__sub__deep=b"s", shut=None,
                  proj=None, proj__closed=None, proj__closed__x=b"x", mine=None, mine__a=b"m")
        for closed in ("/board", "/shut", "/proj/closed"):
            self.room.denied |= {("bob", closed, "x"), ("bob", closed, "d")}
        self.room.denied |= {("bob", "/", "D"), ("bob", "/proj", "D"), ("bob", "/proj", "d")}
        without = self.told_bob()
        told = self.told_bob("/board/secret", "/board/sub/deep", "/proj/closed/x")
        self.assertEqual([], [(one, other) for one, other in zip(without, told, strict=True)
                              if one != other])

    def test_a_lock_ends_with_the_right(self) -> None:
        """It isn't renewed by who may not take it any more."""
        self.make(a=b"x", f=None)
        held = [("/a", self.lock("/a"), "/a", "wa"), ("/f", self.lock("/f"), "/f", "C"),
                ("/n", self.lock("/n", Depth="0"), "/", "w")]
        for path, token, at, bits in held:
            self.assertEqual(self.status("LOCK", path, If=f"({token})"), 200)
            denied = {("alice", at, bit) for bit in bits}
            self.room.denied |= denied
            self.assertEqual(self.status("LOCK", path, If=f"({token})"), 403, path)
            self.room.denied -= denied
            self.assertEqual(self.status("LOCK", path, If=f"({token})"), 200)

    def test_a_lock_of_a_name_alone(self) -> None:
        """It took no right to what comes there by another way, and is over then."""
        self.make(f=None)
        tokens = {name: self.lock(f"/f/{name}", "bob", Depth="infinity")
                  for name in ("2027", "plan", "new", "own")}
        self.assertEqual(self.status("PUT", "/f/2027", "x"), 423)
        self.assertEqual(self.status("MKCOL", "/f/2027/x"), 409)
        self.make(f__2027=None, f__plan=b"1", f__new=b"2", f__own=b"3")
        for name in ("2027", "plan", "new"):
            self.room.denied |= {("bob", f"/f/{name}", bit) for bit in "wadCx"}
            self.assertEqual(self.status("LOCK", f"/f/{name}", user="bob",
                                         If=f"({tokens[name]})"), 403)
        # Nor does what he tries there make it one of what is there.
        for method in ("MOVE", "COPY", "UNLOCK"):
            self.assertIn(self.status(method, "/f/new", user="bob", Destination="/drive/f/x",
                                      Lock_Token=tokens["plan"], If=f"({tokens['new']})"),
                          (201, 403, 409))
        asked = [("MKCOL", "/f/2027/x", 201), ("PUT", "/f/2027/a", 201), ("PUT", "/f/plan", 204),
                 ("PUT", "/f/new", 204), ("LOCK", "/f/plan", 200), ("DELETE", "/f/2027/a", 204)]
        for method, path, wanted in asked:
            body = LOCKINFO % "alice" if method == "LOCK" else "y" if method == "PUT" else ""
            self.assertEqual(self.status(method, path, body), wanted, (method, path))
        # Whoever may write what came there renews it for that.
        held = {"If": f"({tokens['own']})"}
        self.assertEqual(self.status("LOCK", "/f/own", user="bob", **held), 200)
        self.assertEqual(self.status("PUT", "/f/own", "x"), 423)
        self.assertEqual(self.status("PUT", "/f/own", "x", user="bob", **held), 204)

    def test_a_lock_that_came_between(self) -> None:
        """Others are answered after it was looked for locks, and before a folder is reserved."""
        self.make(f=None, f__a=b"x")
        table, got = locks.Locks, list[locks.Lock | None]()
        reserve = table.reserve

        def late(self: locks.Locks, user: str, names: Names) -> locks.Lock:
            if not got:
                got.append(self.add("bob", ("f", "a"), False, False, "", 100))
            return reserve(self, user, names)
        with mock.patch.object(table, "reserve", late):
            self.assertEqual(self.status("DELETE", "/f"), 423)
            assert got[0]
            self.assertEqual(self.status("UNLOCK", "/f/a", user="bob",
                                         Lock_Token=f"<{got[0].token}>"), 204)
            self.assertEqual(self.status("DELETE", "/f"), 204)

    def test_many_locks(self) -> None:
        """The room answers nobody else while one is made, so that takes little beside many."""
        table = locks.Locks(Kept(self.at("many")))
        for user in range(10):
            for number in range(200):
                path = ("f" * 200, f"{user}-{number}", "x" * 200)
                self.assertIsNotNone(table.add(f"u{user}", path, False, False, "o" * 2000, 600))
        with self.assertRaises(NotKept):
            table.add("u10", ("a",), False, False, "", 600)
        table.gone(("f" * 200, "0-0"))
        began = time.process_time()
        for number in range(100):
            held = table.add("u0", ("n",), False, False, "o" * 2000, 600)
            assert held
            self.assertEqual(len(table.covering(("f" * 200, "1-1", "x" * 200))), 1)
            table.end(held)
        self.assertLess((time.process_time() - began) / 100, 0.02)
        self.assertEqual(len(table.below(("f" * 200,))), 1999)
        table.gone(())
        self.assertLess(os.path.getsize(self.at("many")), 20_000_000)

    def test_add_only(self) -> None:
        """Who may add and not change can add, although the program locks the name first."""
        self.make(f=None)
        for name in ("a", "b"):
            self.room.denied.add(("alice", f"/f/{name}", "w"))
        token = self.lock("/f/a")
        self.assertEqual(self.dav("GET", "/f/a")[2], b"")
        self.assertEqual(self.status("GET", "/f/a", user="bob"), 404)
        self.assertEqual(self.status("PUT", "/f/a", "bytes", If=f"({token})"), 201)
        self.assertEqual(self.status("UNLOCK", "/f/a", Lock_Token=token), 204)
        token = self.lock("/f/b")
        self.assertEqual(self.status("UNLOCK", "/f/b", Lock_Token=token), 204)
        self.assertEqual(self.room.objects["f", "b"], b"")

    def test_nothing_for_what_was_refused(self) -> None:
        token = self.lock("/a")
        self.assertEqual(self.status("PUT", "/a", If=f"({token})", Room_Too_Large="1"), 413)
        self.assertEqual(self.status("UNLOCK", "/a", Lock_Token=token), 204)
        self.assertEqual(self.room.objects, {(): None})

    def test_depth_and_time(self) -> None:
        now = [0.0]
        table = locks.Locks(now=lambda: now[0])
        held = table.add("alice", ("f",), True, False, "", 100)
        self.assertIsNotNone(held)
        self.assertIsNone(table.add("bob", ("f", "a"), False, False, "", 100))
        self.assertIsNone(table.add("bob", (), True, True, "", 100))
        self.assertIsNotNone(table.add("bob", (), False, False, "", 100))
        now[0] = 101.0
        self.assertIsNotNone(table.add("bob", ("f", "a"), False, False, "", 100))
        for field, wanted in [("Infinite", 3600), ("Second-60", 60), ("", 600), ("Second-x", 600),
                              ("Second-99999999999999", 3600), ("Second-0", 10)]:
            self.assertEqual(locks.seconds_of(field), wanted)


if __name__ == "__main__":
    unittest.main()
