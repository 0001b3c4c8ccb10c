"""A room that the program serves in a folder, its door, and requests to both: what the attacks use
that are kept here. The names of documents are as in the page of the room's targets."""
import http.client
import os
import shutil
import socket
import subprocess
import sys
import time
from types import TracebackType
from urllib.parse import quote

HERE = os.path.dirname(os.path.realpath(__file__))
SERVICES = f"{HERE}/../../services"
ALL = "rwanNxDtThHdcCoy"
PATIENCE = float(os.environ.get("PATIENCE", "60"))
LOCK = ('<D:lockinfo xmlns:D="DAV:"><D:lockscope><D:exclusive/></D:lockscope>'
        "<D:locktype><D:write/></D:locktype></D:lockinfo>")
Fields = http.client.HTTPMessage
Said = tuple[int, Fields, bytes]


class Local(http.client.HTTPConnection):
    def __init__(self, place: str) -> None:
        super().__init__("localhost", timeout=2 * PATIENCE)
        self.place = place

    def connect(self) -> None:
        self.sock = connected(self.place)


def connected(place: str) -> socket.socket:
    """As often as there is no room for one more."""
    until = time.monotonic() + PATIENCE
    while True:
        at = socket.socket(socket.AF_UNIX)
        at.settimeout(2 * PATIENCE)
        try:
            at.connect(place)
            return at
        except BlockingIOError:
            at.close()
            if time.monotonic() > until:
                raise
            time.sleep(0.01)


def target(path: str) -> str:
    """/a/b c -> a/b%20c"""
    return quote(path.lstrip("/"), safe="/~")


def ask(place: str, user: str, method: str, address: str, body: bytes | str = b"",
        **fields: str) -> Said:
    connection = Local(place)
    given = {name.replace("_", "-"): text for name, text in fields.items()}
    try:
        connection.request(method, address, body or None,
                           {"Room-User": user, "Connection": "close", **given})
        reply = connection.getresponse()
        return reply.status, reply.headers, reply.read()
    finally:
        connection.close()


class Bulk:
    """Many requests over one connection to the room: for making trees."""

    def __init__(self, place: str, user: str = "root") -> None:
        self._place, self._user = place, user
        self._open()

    def _open(self) -> None:
        self._count = 0
        self._at = connected(self._place)
        self._lines = self._at.makefile("rb")

    def ask(self, method: str, address: str, body: bytes | str = b"") -> tuple[int, bytes]:
        if self._count == 9000:
            self.close()
            self._open()
        self._count += 1
        data = body.encode() if isinstance(body, str) else body
        self._at.sendall(f"{method} {address} HTTP/1.1\r\nRoom-User: {self._user}\r\n"
                         f"Content-Length: {len(data)}\r\n\r\n".encode() + data)
        status = int(self._lines.readline().split()[1])
        length = 0
        while field := self._lines.readline().strip():
            if field.lower().startswith(b"content-length:"):
                length = int(field.split(b":")[1])
        return status, self._lines.read(length)

    def make(self, path: str, body: bytes | None = None) -> None:
        """A folder, or a document with these bytes."""
        method, route = ("POST", "folder") if body is None else ("PUT", "doc")
        status, told = self.ask(method, f"/{route}/{target(path)}", body or b"")
        assert status in (201, 204), (path, status, told)

    def close(self) -> None:
        self._lines.close()
        self._at.close()


class Lab:
    """`program` serves it; all of it is in `folder`."""

    def __init__(self, program: str, folder: str, groups: tuple[tuple[str, str], ...] = ()
                 ) -> None:
        self.program = program
        self.folder = os.path.abspath(folder)
        shutil.rmtree(self.folder, ignore_errors=True)
        os.makedirs(f"{self.folder}/d")
        self.file = f"{self.folder}/F"
        self.room, self.door = f"{self.folder}/room", f"{self.folder}/d/door"
        self.full = f"{self.folder}/full"
        self._run("init", self.file, "root", "staff")
        if groups:
            with open(f"{self.folder}/groups.csv", "w", encoding="utf-8") as out:
                out.write("group,user\n" + "".join(f"{one},{user}\n" for one, user in groups))
            self._run("groups", self.file, f"{self.folder}/groups.csv")
        self._serving = self._started("room", [
            program, "serve", self.file, "--socket", self.room, "--count", "1000000"])
        self.start_door()

    def _run(self, *words: str) -> bytes:
        return subprocess.run([self.program, *words], check=True, stdout=subprocess.PIPE).stdout

    def _started(self, name: str, words: list[str]) -> "subprocess.Popen[bytes]":
        with open(f"{self.folder}/{name}.err", "ab") as err:
            child = subprocess.Popen(words, stdout=err, stderr=err)
        until = time.monotonic() + PATIENCE
        while True:
            try:
                socket.socket(socket.AF_UNIX).connect(getattr(self, name))
                return child
            except OSError:
                if time.monotonic() > until or child.poll() is not None:
                    raise
                time.sleep(0.01)

    def start_door(self) -> None:
        if os.path.lexists(self.door):
            os.unlink(self.door)
        self.door_process = self._started("door", [
            sys.executable, "-IB", f"{SERVICES}/rooms_services/door/__main__.py", "--room",
            self.room, "--listen", self.door, "--drive=yes", "--full", self.full])

    def kill_door(self) -> None:
        self.door_process.kill()
        self.door_process.wait()

    def subcommand(self, word: str, *words: str) -> bytes:
        """Of a copy, since nobody else reads a file that is served."""
        for end in ("", "-wal"):
            if os.path.exists(self.file + end):
                shutil.copy(self.file + end, f"{self.folder}/copy{end}")
        return self._run(word, f"{self.folder}/copy", *words)

    def in_room(self, user: str, method: str, address: str, body: bytes | str = b"") -> Said:
        return ask(self.room, user, method, address, body)

    def at_door(self, user: str, method: str, address: str, body: bytes | str = b"",
                **fields: str) -> Said:
        return ask(self.door, user, method, address, body, **fields)

    def must(self, method: str, address: str, body: bytes | str = b"") -> bytes:
        """By root, at the room itself."""
        status, _, told = self.in_room("root", method, address, body)
        assert status in (200, 201, 204), (method, address, status, told)
        return told

    def megabytes(self) -> tuple[int, int]:
        """Of the door: now, and at most since it was started."""
        with open(f"/proc/{self.door_process.pid}/status", encoding="ascii") as lines:
            told = dict(line.split(":", 1) for line in lines)
        return int(told["VmRSS"].split()[0]) // 1024, int(told["VmHWM"].split()[0]) // 1024

    def __enter__(self) -> "Lab":
        return self

    def __exit__(self, *_why: type[BaseException] | BaseException | TracebackType | None) -> None:
        for child in (self.door_process, self._serving):
            child.kill()
            child.wait()
        shutil.rmtree(self.folder)
