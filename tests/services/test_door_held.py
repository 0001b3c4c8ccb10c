"""What a door holds of the memory while many go through a large folder at once: no more than it may
have, and each of them has an answer. The memory of its process is counted."""
import http.client
import threading
import time
import unittest
from concurrent.futures import ThreadPoolExecutor

from over import Local
from rooms_services.room.answers import Stop
from rooms_services.room.turns import Held
from test_door_ends import Apart

# Of each name, by one letter of which Python keeps four bytes for each.
WIDE = "\U0001d538" + "x" * 200
COUNT, MEGABYTE = 3000, 1 << 20


class Memory(Apart):
    def setUp(self) -> None:
        super().setUp()
        self.room.make(f=None)
        names = [f"{number}{WIDE}" for number in range(COUNT)]
        for name in names:
            self.room.objects["f", name] = b""
        listing = self.answer("alice", "GET", "/folder/f", b"")

        def answer(user: str, method: str, target: str, body: bytes) -> tuple[int, object]:
            """(what the room in memory looks for in all of it)"""
            if target == "/folder/f":
                return listing
            if target.startswith("/can/f/"):
                return 200, {"r": "denied", "x": "denied", "t": "allowed"}
            return self.answer(user, method, target, body)
        setattr(self.room, "answer", answer)

    def most(self) -> int:
        """In kilobytes, at its highest."""
        assert self.running
        with open(f"/proc/{self.running.pid}/status", encoding="ascii") as source:
            return next(int(line.split()[1]) for line in source if line.startswith("VmHWM"))

    def one(self, number: int, word: str) -> int:
        link = Local(self.at("door"))
        try:
            link.request("GET", f"/door/{word}", headers={"Room-User": f"user{number}"})
            reply = link.getresponse()
            reply.read()
            return reply.status
        except http.client.HTTPException:
            return 0
        finally:
            link.close()

    def grown(self, held: int) -> int:
        """By eight requests at once of as many users, with so many bytes for them all."""
        self.start(ROOMS_DOOR_HELD=str(held))
        self.one(9, "zip/f?nothing")
        before = self.most()
        with ThreadPoolExecutor(8) as pool:
            statuses = list(pool.map(self.one, range(8), ["zip/f", "below/f"] * 4))
        self.assertEqual(statuses, [200] * 8)
        grown = self.most() - before
        self.kill()
        return grown

    def test_many_through_a_large_folder(self) -> None:
        free, bound = self.grown(1 << 30), self.grown(MEGABYTE)
        print(f"eight at once: {free} kB, and {bound} kB where they wait", flush=True)
        self.assertLess(2 * bound, free)


class Turns(unittest.TestCase):
    def test_one_goes_on_beyond(self) -> None:
        """So none waits for another that waits for it; and whoever has its own is asked again."""
        held = Held(100)
        held.take(80, 0)
        begun, ends = threading.Event(), threading.Event()

        def other() -> None:
            held.take(50, 0)
            begun.set()
            ends.wait(20)
            held.give()
        beside = threading.Thread(target=other)
        beside.start()
        self.assertTrue(begun.wait(20))
        with self.assertRaises(Stop) as stopped:
            held.take(1, 0.05)
        self.assertEqual((stopped.exception.status, stopped.exception.why), (503, "busy"))
        threading.Timer(0.1, ends.set).start()
        began = time.monotonic()
        held.take(10, 20)
        self.assertGreater(time.monotonic() - began, 0.05)
        beside.join()
        held.take(500, 0)
        held.give()
        held.take(100, 0)


if __name__ == "__main__":
    unittest.main()
