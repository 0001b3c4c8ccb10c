"""A judge of earlier nights that is killed in the middle of answers, started as systemd does: over
two rooms in memory, and somebody who opens nights."""
import os
import signal
import socket
import socketserver
import subprocess
import sys
import tempfile
import threading
import time
import unittest
from concurrent.futures import ThreadPoolExecutor

from fake_room import FakeRoom, Said, Served

HERE = os.path.dirname(os.path.abspath(__file__))
NIGHT = "2026-11-01.030000"
LONG = b"x" * 900_000
PATIENCE = 60.0


class Slow(FakeRoom):
    """It answers about a document once it may."""

    def __init__(self) -> None:
        super().__init__()
        self.may = threading.Event()
        self.may.set()
        self.is_asked = threading.Semaphore(0)

    def answer(self, user: str, method: str, target: str, body: bytes) -> Said:
        if target.startswith("/doc/"):
            self.is_asked.release()
            self.may.wait(PATIENCE)
        return super().answer(user, method, target, body)


class Nights(socketserver.ThreadingUnixStreamServer):
    """Who opens nights: there is one."""
    daemon_threads = True
    # (as many as ask at once)
    request_queue_size = 64
    copy = ""


class Opens(socketserver.StreamRequestHandler):
    def handle(self) -> None:
        assert isinstance(self.server, Nights)
        self.rfile.readline()
        self.wfile.write(f"ready owners {self.server.copy}\n".encode())


def until(what: object, seconds: float = PATIENCE) -> bool:
    assert callable(what)
    ends = time.monotonic() + seconds
    while not what():
        if time.monotonic() > ends:
            return False
        time.sleep(0.05)
    return True


def rows_of(place: str) -> list[list[str]]:
    """Of this socket, and of each connection to it: their flags, and how far they are, are the
    fourth and the sixth."""
    with open("/proc/net/unix", encoding="utf-8") as rows:
        return [row.split() for row in rows if row.endswith(f" {place}\n")]


def listens(place: str) -> bool:
    """Whether somebody does at this socket, which is there a moment earlier. A connection would
    start who answers."""
    return any(row[3] == "00010000" for row in rows_of(place))


def has_all(place: str) -> bool:
    """Whether all who connected are taken in: nobody waits in line."""
    return not any(row[5] == "02" for row in rows_of(place))


class Killed(unittest.TestCase):
    def setUp(self) -> None:
        folder = tempfile.TemporaryDirectory()
        self.addCleanup(folder.cleanup)
        for name in ("rooms/office", "rooms-nights"):
            os.makedirs(f"{folder.name}/{name}")
        self.now, self.then = FakeRoom(), Slow()
        nights = Nights(f"{folder.name}/rooms-nights/socket", Opens)
        nights.copy = f"{folder.name}/copy"
        for server in (nights, Served(f"{folder.name}/rooms/office/socket", self.now),
                       Served(nights.copy, self.then)):
            # (who asked may be gone)
            setattr(server, "handle_error", lambda *_: None)
            thread = threading.Thread(target=server.serve_forever, args=(0.01,), daemon=True)
            thread.start()
            self.addCleanup(server.server_close)
            self.addCleanup(thread.join)
            self.addCleanup(server.shutdown)
        for room in (self.now, self.then):
            room.make(reply=b"then", long=LONG)
        self.at = f"{folder.name}/judge"
        self.systemd = subprocess.Popen(
            [sys.executable, f"{HERE}/../lib/activated.py", self.at, "0600",
             f"{HERE}/../../deploy/rooms-service", "earlier"], stdout=subprocess.PIPE, text=True,
            env={**os.environ, "ROOMS_RUN": folder.name})
        assert self.systemd.stdout
        self.addCleanup(self.systemd.stdout.close)
        self.addCleanup(self.systemd.wait)
        self.addCleanup(self.systemd.terminate)
        self.assertTrue(until(lambda: listens(self.at)))
        self.idle = threading.active_count()

    def asks(self, name: str, user: str = "bob") -> socket.socket:
        link = socket.socket(socket.AF_UNIX)
        link.settimeout(PATIENCE)
        link.connect(self.at)
        fields = {"CONTENT_LENGTH": "0", "ROOM": "office", "ROOM_USER": user,
                  "TARGET": f"/earlier/{NIGHT}/doc/{name}"}
        text = "".join(f"{one}\0{said}\0" for one, said in fields.items())
        link.sendall(f"{len(text)}:{text},".encode())
        return link

    def rest(self, link: socket.socket) -> bytes:
        """All that comes. An end that isn't one is one too."""
        found = b""
        with link:
            try:
                while part := link.recv(1 << 16):
                    found += part
            except ConnectionResetError:
                pass
        return found

    def is_answered(self, user: str = "bob") -> None:
        said = self.rest(self.asks("reply", user))
        self.assertTrue(said.startswith(b"Status: 200 OK\r\n") and said.endswith(b"\r\n\r\nthen"),
                        said[:200])

    def started(self) -> int:
        """The next process that is started."""
        assert self.systemd.stdout
        return int(self.systemd.stdout.readline())

    def begin(self) -> int:
        self.is_answered()
        self.then.is_asked.acquire()
        return self.started()

    def test_before_an_answer(self) -> None:
        judge = self.begin()
        files = self.files()
        for _ in range(3):
            judge = self.killed(judge, 1)
        self.leaves_nothing(judge, files)

    def test_many_at_once(self) -> None:
        judge = self.begin()
        files = self.files()
        self.leaves_nothing(self.killed(judge, 20), files)

    def test_within_an_answer(self) -> None:
        """Which is cut off, and shorter than it said."""
        judge = self.begin()
        files = self.files()
        link = self.asks("long")
        said = link.recv(1000)
        os.kill(judge, signal.SIGKILL)
        said += self.rest(link)
        self.assertIn(b"Content-Length: 900000\r\n", said)
        self.assertLess(len(said), len(LONG))
        self.is_answered()
        self.leaves_nothing(self.started(), files)

    def files(self, process: int = 0) -> int:
        return len(os.listdir(f"/proc/{process or self.systemd.pid}/fd"))

    def leaves_nothing(self, judge: int, files: int) -> None:
        """No connection to a room, nor a process, nor a file of who starts it."""
        os.kill(judge, signal.SIGKILL)
        self.assertTrue(until(lambda: threading.active_count() <= self.idle),
                        [one.name for one in threading.enumerate()])
        self.assertTrue(until(lambda: self.files() == files))
        self.assertTrue(until(lambda: not self.children()))

    def children(self) -> str:
        with open(f"/proc/{self.systemd.pid}/task/{self.systemd.pid}/children",
                  encoding="ascii") as source:
            return source.read()

    def killed(self, judge: int, count: int) -> int:
        """By so many users who wait. The process that answers from then on."""
        self.then.may.clear()
        links = [self.asks("reply", f"user{number}") for number in range(count)]
        # (a room answers one after the other, and the next judge answers who still waits in line)
        self.assertTrue(self.then.is_asked.acquire(timeout=PATIENCE))
        self.assertTrue(until(lambda: has_all(self.at)))
        os.kill(judge, signal.SIGKILL)
        began = time.monotonic()
        self.assertEqual({self.rest(link) for link in links}, {b""})
        self.assertLess(time.monotonic() - began, 10)
        self.then.may.set()
        with ThreadPoolExecutor(count) as pool:
            list(pool.map(self.is_answered, (f"user{number}" for number in range(count))))
        while self.then.is_asked.acquire(blocking=False):
            pass
        return self.started()


if __name__ == "__main__":
    unittest.main()
