#!/usr/bin/env python3
"""Locks of two users, and what many clients do at once: who is kept out of what, that no two have
one lock, that nothing is lost of what is locked while its folder is removed, and that one of eight
who make the same document made it.

  locked.py PROGRAM FOLDER ROUNDS"""
import random
import sys
import threading

from lab import ALL, LOCK, Bulk, Lab

WINDOWS = ('<propertyupdate xmlns="DAV:"><set><prop><Win32FileAttributes '
           'xmlns="urn:schemas-microsoft-com:">0</Win32FileAttributes></prop></set>'
           "</propertyupdate>")
SHARED = LOCK.replace("exclusive", "shared")
OPEN = f"list:a\nA:fd:root:{ALL}\nA:fdg:staff:rwaxctdD\nA:fd:alice:C\n"


class Locked:
    def __init__(self, lab: Lab) -> None:
        self.lab = lab
        self.faults: list[str] = []

    def lock(self, user: str, path: str, body: str = LOCK, **fields: str) -> tuple[int, str]:
        status, told, _ = self.lab.at_door(user, "LOCK", f"/drive{path}", body,
                                           **{"Depth": "0", **fields})
        return status, str(told.get("Lock-Token", ""))

    def wants(self, wanted: int, user: str, method: str, path: str, body: str = "",
              **fields: str) -> None:
        status, _, told = self.lab.at_door(user, method, path, body, **fields)
        if status != wanted:
            self.faults.append(f"{user} {method} {path} {fields}: {status} {told[:80]!r}")

    def unlock(self, user: str, path: str, token: str) -> None:
        self.wants(204, user, "UNLOCK", f"/drive{path}", Lock_Token=token)

    def two_users(self) -> None:
        token = self.lock("alice", "/f/a")[1]
        to = {"Destination": "/drive/f/a"}
        self.wants(423, "alice", "PUT", "/drive/f/a", "x")
        for condition, wanted in ((f"({token})", 204), (f"</drive/f/a> ({token})", 204),
                                  (f"</drive/f/b> ({token})", 412), (f"(Not {token})", 412),
                                  (f"(<no>) ({token})", 204),
                                  (f"({token} Not <DAV:no-lock>)", 204)):
            self.wants(wanted, "alice", "PUT", "/drive/f/a", "x", If=condition)
        kept_out: list[tuple[str, str, str, dict[str, str]]] = [
            ("PUT", "/f/a", "x", {}), ("DELETE", "/f/a", "", {}), ("DELETE", "/f", "", {}),
            ("MOVE", "/f/a", "", {"Destination": "/drive/f/z"}), ("MOVE", "/f/b", "", to),
            ("COPY", "/f/b", "", to), ("MOVE", "/f", "", {"Destination": "/drive/g"}),
            ("PROPPATCH", "/f/a", WINDOWS, {}), ("LOCK", "/f/a", LOCK, {"Depth": "0"}),
            ("LOCK", "/f/a", SHARED, {"Depth": "0"})]
        for method, path, body, fields in kept_out:
            self.wants(423, "bob", method, f"/drive{path}", body, **fields)
        self.wants(412, "bob", "PUT", "/drive/f/a", "x", If=f"({token})")
        self.wants(412, "bob", "LOCK", "/drive/f/a", If=f"({token})")
        self.wants(409, "bob", "UNLOCK", "/drive/f/a", Lock_Token=token)
        # Who doesn't come by WebDAV knows of no lock.
        self.wants(204, "bob", "PUT", "/door/doc/f/a", "x", If_Match="*")
        self.lab.kill_door()
        self.lab.start_door()
        self.wants(423, "bob", "PUT", "/drive/f/a", "x")
        self.wants(204, "alice", "PUT", "/drive/f/a", "x", If=f"({token})")
        self.unlock("alice", "/f/a", token)
        self.wants(204, "bob", "PUT", "/drive/f/a", "x")

    def others(self) -> None:
        """Shared ones, one of a folder with all below, and one whose right is gone."""
        tokens = {user: self.lock(user, "/f/a", SHARED)[1] for user in ("alice", "bob")}
        self.wants(423, "root", "PUT", "/drive/f/a", "x")
        for user, token in tokens.items():
            self.wants(204, user, "PUT", "/drive/f/a", "x", If=f"({token})")
            self.unlock(user, "/f/a", token)
        token = self.lock("alice", "/f", Depth="infinity")[1]
        self.wants(423, "bob", "PUT", "/drive/f/new", "x")
        self.wants(201, "alice", "PUT", "/drive/f/new", "x", If=f"</drive/f> ({token})")
        self.unlock("alice", "/f", token)
        self.wants(403, "bob", "LOCK", "/drive", LOCK, Depth="infinity")
        token = self.lock("bob", "/f/a")[1]
        self.lab.must("PUT", "/dacl/f", f"list:ap\nA:fd:root:{ALL}\nA:fd:alice:rwaxctdD\n")
        self.wants(403, "bob", "LOCK", "/drive/f/a", If=f"({token})")
        self.lab.must("PUT", "/dacl/f", "list:a\n")
        self.unlock("bob", "/f/a", token)

    def while_it_is_removed(self, rounds: int) -> None:
        """What alice got a lock of isn't removed."""
        for number in range(rounds):
            bulk = Bulk(self.lab.room)
            bulk.make(f"/t{number}")
            for child in range(20):
                bulk.make(f"/t{number}/{child}", b"")
            bulk.close()
            got: list[tuple[int, str]] = []

            def ask(number: int = number, got: list[tuple[int, str]] = got) -> None:
                while not got or got[-1][0] == 423 and len(got) < 40:
                    got.append(self.lock("alice", f"/t{number}/19"))
            thread = threading.Thread(target=ask)
            thread.start()
            self.lab.at_door("bob", "DELETE", f"/drive/t{number}")
            thread.join()
            status, token = got[-1]
            if status == 200:
                if self.lab.in_room("root", "GET", f"/doc/t{number}/19")[0] != 200:
                    self.faults.append("what was locked was removed")
                self.unlock("alice", f"/t{number}/19", token)

    def clients(self, rounds: int) -> None:
        held: dict[str, str] = {}
        mutex = threading.Lock()

        def some(user: str, seed: int) -> None:
            chance = random.Random(seed)
            for _ in range(rounds):
                path = f"/n{chance.randrange(6)}"
                status, token = self.lock(user, path)
                if status not in (200, 201):
                    if status not in (423, 429):
                        self.faults.append(f"LOCK by {user}: {status}")
                    continue
                with mutex:
                    if path in held:
                        self.faults.append(f"{user} and {held[path]} have {path}")
                    held[path] = user
                value = f"{user} {chance.random()}"
                done = self.lab.at_door(user, "PUT", f"/drive{path}", value, If=f"({token})")[0]
                now = self.lab.at_door(user, "GET", f"/drive{path}")[2]
                if done not in (201, 204) or now != value.encode():
                    self.faults.append(f"{user} PUT {path}: {done}, {now!r} for {value}")
                with mutex:
                    del held[path]
                self.unlock(user, path, token)
        threads = [threading.Thread(target=some, args=(user, seed)) for seed, user in enumerate(
            ("alice", "bob", "root", "alice", "bob", "root", "alice", "bob"))]
        for thread in threads:
            thread.start()
        for thread in threads:
            thread.join()

    def one_made_it(self, rounds: int) -> None:
        for number in range(rounds):
            statuses: dict[int, int] = {}

            def make(client: int, number: int = number, statuses: dict[int, int] = statuses
                     ) -> None:
                place = "/door/doc" if client % 2 else "/drive"
                statuses[client] = self.lab.at_door(
                    f"u{client}", "PUT", f"{place}/new{number}", str(client),
                    If_None_Match="*")[0]
            threads = [threading.Thread(target=make, args=(client,)) for client in range(8)]
            for thread in threads:
                thread.start()
            for thread in threads:
                thread.join()
            now = self.lab.must("GET", f"/doc/new{number}").decode()
            made = [str(client) for client, status in statuses.items() if status == 201]
            if made != [now] or sorted(statuses.values())[1:] != [412] * 7:
                self.faults.append(f"made by {made}, and is that of {now}: {statuses}")


def main() -> int:
    program, folder = sys.argv[1:3]
    rounds = int(sys.argv[3])
    with Lab(program, folder, (("staff", "alice"), ("staff", "bob"))) as lab:
        lab.must("PUT", "/dacl/", OPEN + "A:fd:EVERYONE@:rwaxct\n")
        lab.must("POST", "/folder/f")
        for name in ("a", "b"):
            lab.must("PUT", f"/doc/f/{name}", b"1")
        locked = Locked(lab)
        locked.two_users()
        locked.others()
        locked.while_it_is_removed(rounds)
        locked.clients(3 * rounds)
        locked.one_made_it(rounds)
    for fault in locked.faults[:10]:
        print("wrong:", fault)
    print(f"{len(locked.faults)} wrong")
    return 1 if locked.faults else 0


if __name__ == "__main__":
    sys.exit(main())
