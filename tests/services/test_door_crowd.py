"""A door whom two hundred users ask at once: each has an answer in time, or is told to come again;
and nothing of it is left."""
import http.client
import os
import threading
import time
import unittest
from concurrent.futures import ThreadPoolExecutor

from fake_room import Said
from over import Local
from test_door_ends import Apart

USERS, DONE = 200, {200, 201, 204, 207}
LATER = {429, 503}
PATIENCE = 60.0


class Waits(Local):
    """For a place at the socket: of nginx so many at once are all that it has."""

    def connect(self) -> None:
        ends = time.monotonic() + PATIENCE
        while True:
            try:
                super().connect()
                return
            except BlockingIOError:
                self.sock.close()
                if time.monotonic() > ends:
                    raise
                time.sleep(0.05)


class Crowd(Apart):
    def setUp(self) -> None:
        super().setUp()
        self.room.make(f=None, g=None, **{f"f__d{number}": b"x" * 2000 for number in range(9)})
        self.may = threading.Event()
        self.may.set()

        def answer(user: str, method: str, target: str, body: bytes) -> Said:
            self.may.wait(PATIENCE)
            return self.answer(user, method, target, body)
        setattr(self.room, "answer", answer)
        # (as its unit has it)
        self.socket.listen(256)
        self.start()

    def asks(self, user: str, method: str, target: str, body: bytes = b"") -> tuple[int, float]:
        """Its status, which is 0 where there is no whole answer, and seconds."""
        began = time.monotonic()
        link = Waits(self.at("door"))
        try:
            link.request(method, target, body, {"Room-User": user, "Depth": "1"})
            reply = link.getresponse()
            reply.read()
            if reply.status in LATER and "Retry-After" not in reply.headers:
                return 0, 0.0
            return reply.status, time.monotonic() - began
        except (OSError, http.client.HTTPException):
            return 0, time.monotonic() - began
        finally:
            link.close()

    def some_of(self, number: int) -> list[tuple[int, float]]:
        """What one user does, from some point on."""
        kinds = [("GET", f"/door/doc/f/d{number % 9}", b""), ("GET", "/door/find/f?d1", b""),
                 ("PUT", f"/drive/g/own{number}", b"y" * 20_000), ("GET", "/door/zip/f", b""),
                 ("PROPFIND", "/drive/f", b""), ("GET", "/door/below/f", b"")]
        return [self.asks(f"user{number}", *kinds[(number + turn) % len(kinds)])
                for turn in range(len(kinds))]

    def counts(self) -> tuple[int, int]:
        """Of threads and of open files."""
        assert self.running
        place = f"/proc/{self.running.pid}"
        return len(os.listdir(f"{place}/task")), len(os.listdir(f"{place}/fd"))

    def look(self, found: list[tuple[int, float]]) -> None:
        self.assertLessEqual({status for status, _ in found}, DONE | LATER)
        self.assertLess(max(seconds for _, seconds in found), PATIENCE)

    def leaves_nothing(self, before: tuple[int, int]) -> None:
        ends = time.monotonic() + PATIENCE
        while self.counts() > before and time.monotonic() < ends:
            time.sleep(0.1)
        self.assertLessEqual(self.counts(), before)
        status, seconds = self.asks("late", "GET", "/door/doc/f/d1")
        self.assertEqual(status, 200)
        self.assertLess(seconds, PATIENCE / 4)

    def test_two_hundred_users(self) -> None:
        self.some_of(0)
        before = self.counts()
        with ThreadPoolExecutor(USERS) as pool:
            found = [one for some in pool.map(self.some_of, range(USERS)) for one in some]
        self.look(found)
        done = sum(status in DONE for status, _ in found)
        self.assertGreater(done, len(found) // 2)
        # What was said to be done is there.
        self.assertLessEqual(sum(status == 201 for status, _ in found),
                             sum(path[:1] == ("g",) for path in self.room.objects) - 1)
        self.leaves_nothing(before)

    def test_more_than_it_takes(self) -> None:
        """Of few users, more connections than it has threads for: the others wait at the socket."""
        self.some_of(0)
        before = self.counts()
        self.may.clear()
        threading.Timer(5, self.may.set).start()
        with ThreadPoolExecutor(400) as pool:
            found = list(pool.map(lambda number: self.asks(
                f"user{number % 9}", "GET", f"/door/doc/f/d{number % 9}"), range(800)))
        self.look(found)
        self.assertIn(429, {status for status, _ in found})
        self.leaves_nothing(before)


if __name__ == "__main__":
    unittest.main()
