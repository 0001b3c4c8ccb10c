"""For tests: users who go on asking while a room's server is started anew, each request once.

    restarted.py WHERE USER:PASSWORD NUMBER TARGET    so many at once, until standard input ends;
                                                      the room has a folder /load, and what TARGET
                                                      says is got between

WHERE is nginx's port, or the path of the room's own socket.

prints 'A asked, L lost, T twice, M missing, W s': how many had no answer of the room's; how many of
those that add were done twice, or not though that was answered; and the longest wait."""
import base64
import http.client
import socket
import sys
import threading
import time


class Connection(http.client.HTTPConnection):
    def __init__(self, where: str) -> None:
        super().__init__("127.0.0.1", 0 if "/" in where else int(where), timeout=200)
        self.path = where

    def connect(self) -> None:
        if self.port:
            super().connect()
            return
        self.sock = socket.socket(socket.AF_UNIX)
        self.sock.settimeout(self.timeout)
        self.sock.connect(self.path)


class Load:
    def __init__(self, where: str, who: str, target: str) -> None:
        self.where, self.target = where, target
        self.fields = {"Authorization": f"Basic {base64.b64encode(who.encode()).decode()}",
                       "Connection": "close"}
        if "/" in where:
            self.fields = {"Room-User": who.partition(":")[0], "Connection": "close"}
        self.goes_on = True
        # What an earlier run has added doesn't count.
        self.mark = b"%d." % time.time_ns()
        self.lock = threading.Lock()
        self.asked = self.lost = self.twice = self.missing = 0
        self.longest = 0.0

    def _got(self, method: str, target: str, body: bytes = b"") -> tuple[int, bytes]:
        at = Connection(self.where)
        try:
            at.request(method, target, body, self.fields)
            got = at.getresponse()
            return got.status, got.read()
        except (OSError, http.client.HTTPException):
            return 0, b""
        finally:
            at.close()

    def ask(self, method: str, target: str, body: bytes = b"") -> int:
        began = time.monotonic()
        status, _ = self._got(method, target, body)
        with self.lock:
            self.asked += 1
            self.longest = max(self.longest, time.monotonic() - began)
            if status // 100 != 2:
                self.lost += 1
                print(f"{method} {target}: {status}", file=sys.stderr)
        return status

    def text_of(self, place: str) -> bytes:
        """Once the room is there again."""
        until = time.monotonic() + 60
        while True:
            status, text = self._got("GET", place)
            if status == 200 or time.monotonic() > until:
                return text
            time.sleep(0.1)

    def user(self, number: int) -> None:
        """Adds its turns to a document, and asks for other things between. (The door has sixteen of
        one user.)"""
        place = f"/doc/load/{number}"
        self.ask("PUT", place)
        turn, answered = 0, set()
        while self.goes_on:
            turn += 1
            line = self.mark + b"%d" % turn
            if self.ask("POST", place, line + b"\n") == 204:
                answered.add(line)
            if number < 10 and turn % 5 == number % 5:
                self.ask("GET", self.target)
            if turn % 10 == number % 10:
                self.ask("PUT", f"{place}-large", b"x" * 1_048_576)
        lines = [line for line in self.text_of(place).split() if line.startswith(self.mark)]
        with self.lock:
            self.twice += len(lines) - len(set(lines))
            self.missing += len(answered - set(lines))


def main() -> None:
    where, who, number, target = sys.argv[1:]
    load = Load(where, who, target)
    users = [threading.Thread(target=load.user, args=(one,)) for one in range(int(number))]
    for one in users:
        one.start()
    sys.stdin.read()
    load.goes_on = False
    for one in users:
        one.join()
    print(f"{load.asked} asked, {load.lost} lost, {load.twice} twice, {load.missing} missing, "
          f"{load.longest:.1f} s")


main()
