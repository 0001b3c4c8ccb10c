"""A room that a tool makes and asks: a file in a folder of its own, and the server over it."""
import os
import shutil
import signal
import socket
import subprocess
import sys
import tempfile
import time

from kit import TOP

PROGRAM = f"{TOP}/crates/rooms/out/rooms"
UNIT = f"{TOP}/deploy/systemd/rooms@.service"
MEBIBYTE = 1 << 20


def processor():
    """Returns how many processors there are and what they are called."""
    with open("/proc/cpuinfo", encoding="utf-8") as lines:
        names = [it.partition(":")[2].strip() for it in lines if it.startswith("model name")]
    return f"{len(os.sched_getaffinity(0))} processors ({names[0] if names else 'of no name'})"


def end_when_told():
    """Has a tool that is ended remove what it has made, and end its servers."""
    signal.signal(signal.SIGTERM, lambda *_: sys.exit("ended"))


def seconds_of(work):
    """Returns how long a call took."""
    began = time.monotonic()
    work()
    return time.monotonic() - began


class Room:
    """The room, its server while it runs, and one connection to that."""

    # What the server is started under.
    front: tuple[str, ...] = ()

    def __init__(self, owner="alice", group="staff"):
        self.folder = tempfile.mkdtemp(prefix="rooms-speed-")
        self.file = f"{self.folder}/F"
        self.server = self.line = None
        self.count = 0
        self.do("init", self.file, owner, group)

    def __enter__(self):
        return self

    def __exit__(self, *ended):
        self.stop()
        shutil.rmtree(self.folder, ignore_errors=True)

    def do(self, *words, text=None):
        """Does a subcommand, and returns what it printed."""
        ran = subprocess.run(
            [PROGRAM, *words],
            input=text,
            text=True,
            errors="replace",
            capture_output=True,
            check=False,
        )
        if ran.returncode:
            raise OSError(f"rooms {words[0]}: {ran.stdout[-200:]}{ran.stderr[-200:]}")
        return ran.stdout

    def start(self):
        """Starts the server with its unit's variables; returns the seconds until it listened."""
        with open(UNIT, encoding="utf-8") as lines:
            set_there = [it.strip() for it in lines if it.startswith("Environment=")]
        of_unit = [it.partition("=")[2].split() for it in set_there]
        free = socket.create_server(("127.0.0.1", 0))
        self.port = free.getsockname()[1]
        free.close()
        began = time.monotonic()
        self.server = subprocess.Popen(
            [*self.front, PROGRAM, "serve", self.file, "--port", str(self.port),
             "--count", "1000000"],
            stdout=subprocess.PIPE,
            env={**os.environ, **dict(it.split("=", 1) for words in of_unit for it in words)},
        )
        if not self.server.stdout.readline():
            raise OSError("the server doesn't start")
        return time.monotonic() - began

    def stop(self):
        self.close()
        if self.server:
            self.server.kill()
            self.server.wait()
            self.server.stdout.close()
        self.server = None

    def close(self):
        if self.line:
            self.line.close()
        self.line, self.count = None, 0

    def ask(self, method, target, user, body=b""):
        """Makes a request, and returns the reply's status and body."""
        if self.count == 9_999:
            self.close()
        if not self.line:
            self.line = socket.create_connection(("127.0.0.1", self.port))
            self.line.setsockopt(socket.IPPROTO_TCP, socket.TCP_NODELAY, 1)
        self.count += 1
        fields = f"Room-User: {user}\r\nContent-Length: {len(body)}\r\n"
        head = f"{method} {target} HTTP/1.1\r\n{fields}\r\n"
        self.line.sendall(head.encode() + body)
        return self.reply()

    def reply(self):
        got = self.line.recv(MEBIBYTE)
        while b"\r\n\r\n" not in got:
            got += self.more()
        head, _, body = got.partition(b"\r\n\r\n")
        length = head.partition(b"Content-Length: ")[2].partition(b"\r")[0]
        parts, missing = [body], int(length or 0) - len(body)
        while missing > 0:
            parts.append(self.more())
            missing -= len(parts[-1])
        return int(head[9:12]), b"".join(parts)

    def more(self):
        got = self.line.recv(MEBIBYTE)
        if not got:
            raise OSError("the server ended the connection")
        return got

    def must(self, wanted, *request):
        """Makes a request that has to be answered with this status; returns the reply's body."""
        status, body = self.ask(*request)
        if status != wanted:
            raise OSError(f"{request[0]} {request[1]} is answered with {status}: {body[:200]}")
        return body

    def held(self, work):
        """Does work while the server is held, and returns how long it was."""
        self.server.send_signal(signal.SIGSTOP)
        try:
            return seconds_of(work)
        finally:
            self.server.send_signal(signal.SIGCONT)

    def memory(self):
        """Returns the server's memory in megabytes."""
        with open(f"/proc/{self.server.pid}/status", encoding="ascii") as lines:
            return next(int(it.split()[1]) // 1024 for it in lines if it.startswith("VmRSS"))

    def size(self, end=""):
        return os.path.getsize(self.file + end)
