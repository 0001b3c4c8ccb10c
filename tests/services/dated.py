#!/usr/bin/env python3
"""Random changes by nginx, the door and WebDAV, with hostile names, while the door is killed now
and then; in the end what the door says of each object is what the replies said.

  dated.py FRONT FOLDER SEED COUNT [kill]

FRONT is nginx's port, FOLDER where run/rooms/office, run/door/office and changes/office are. At
length: COUNT 2500, some seeds."""
import base64
import http.client
import json
import os
import random
import signal
import subprocess
import sys
import time
from collections import Counter
from urllib.parse import quote

from lab import PATIENCE, SERVICES, connected

Path = tuple[str, ...]
Span = tuple[float, float]
PIECES = ["a", "b", "Z", "ä", '"', "\\", "%", "%2", "%41", "#", "?", " ", '{"v":1,"t":1,',
          '","u":"root', "\u202e", "\U0001f600", "'", "&", "<b>", "+", "\u2028", "é", "e\u0301",
          "~", "|", ":", "*", "CON", "..x", "\\u0022"]
USERS = ("alice", "bob", "root")
FOLDERS = 60


class Door:
    """The door of the room, which is killed."""

    def __init__(self, folder: str) -> None:
        self._words = [sys.executable, "-IB", f"{SERVICES}/rooms_services/door/__main__.py",
                       "--room", f"{folder}/run/rooms/office/socket", "--listen",
                       f"{folder}/run/door/office/socket", "--drive=yes", "--changes",
                       f"{folder}/changes/office", "--dates=who"]
        self._listen = f"{folder}/run/door/office/socket"
        self.kills = 0
        self._start()

    def _start(self) -> None:
        if os.path.lexists(self._listen):
            os.unlink(self._listen)
        self._process = subprocess.Popen(self._words, stderr=subprocess.DEVNULL)
        until = time.monotonic() + PATIENCE
        while True:
            try:
                connected(self._listen).close()
                return
            except (FileNotFoundError, ConnectionRefusedError):
                assert time.monotonic() < until
                time.sleep(0.01)

    def kill(self) -> None:
        self.kills += 1
        self._process.send_signal(signal.SIGKILL)
        self._process.wait()
        self._start()

    def end(self) -> None:
        self._process.kill()
        self._process.wait()


class Known:
    """What the replies said."""

    def __init__(self, top: Path, user: str) -> None:
        # Between which moments it was asked and answered, by a busy machine.
        self.span: Span = (time.time() - 60, time.time())
        # Size, user, moments; of folders those of their names.
        self.documents: dict[Path, tuple[int, str, Span]] = {}
        self.folders: dict[Path, tuple[str, Span]] = {top: (user, self.span)}

    def touch(self, user: str, *places: Path) -> None:
        for place in places:
            if place[:-1] in self.folders:
                self.folders[place[:-1]] = user, self.span

    def put(self, path: Path, size: int, user: str) -> None:
        if path not in self.documents:
            self.touch(user, path)
        self.documents[path] = size, user, self.span

    def move(self, path: Path, to: Path, user: str) -> None:
        for one in [one for one in self.documents if one[:len(path)] == path]:
            self.documents[to + one[len(path):]] = self.documents.pop(one)
        for one in [one for one in self.folders if one[:len(path)] == path]:
            self.folders[to + one[len(path):]] = self.folders.pop(one)
        self.touch(user, path, to)


class Play:
    def __init__(self, front: int, door: Door, seed: int) -> None:
        self.chance = random.Random(seed)
        self.front = front
        self.door = door
        self.top: Path = (f"random{seed}",)
        self.said: Counter[str] = Counter()
        self.known = Known(self.top, "root")
        assert self.ask("root", "POST", "/folder/", self.top)[0] == 201

    def ask(self, user: str, method: str, before: str, path: Path, body: bytes = b"",
            **fields: str) -> tuple[int, bytes]:
        target = before + "/".join(map(self.escaped, path))
        key = base64.b64encode(f"{user}:{user[0]}".encode()).decode()
        given = {name.replace("_", "-"): text for name, text in fields.items()}
        while True:
            began = time.time()
            at = http.client.HTTPConnection("127.0.0.1", self.front, timeout=2 * PATIENCE)
            # (as it is: Python's own client escapes nothing, and takes bytes)
            at.putrequest(method, target, skip_accept_encoding=True)
            for name, text in {"Authorization": f"Basic {key}", **given,
                               "Content-Length": str(len(body))}.items():
                at.putheader(name, text)
            at.endheaders(body)
            reply = at.getresponse()
            told = reply.status, reply.read()
            at.close()
            if told[0] != 429:
                self.said[f"{method} {before[:6]} {told[0]}"] += 1
                self.known.span = began, time.time()
                return told
            time.sleep(0.2)

    def escaped(self, name: str) -> str:
        """As some client would."""
        if self.chance.random() < 0.5:
            return quote(name, safe="")
        found = ""
        for byte in name.encode():
            is_safe = 33 < byte < 127 and chr(byte) not in "%?#/"
            found += chr(byte) if is_safe and self.chance.random() < 0.8 else f"%{byte:02x}"
        return found

    def name(self) -> str:
        return "".join(self.chance.choices(PIECES, k=self.chance.randint(1, 5)))

    def folder(self) -> Path:
        return self.chance.choice(list(self.known.folders))

    def document(self) -> Path | None:
        return self.chance.choice(list(self.known.documents)) if self.known.documents else None

    def put(self, user: str) -> None:
        old = self.document() if self.chance.random() < 0.4 else None
        path = old or (*self.folder(), self.name())
        body = self.chance.randbytes(self.chance.randint(0, 3000))
        way = self.chance.choice(("/doc/", "/door/doc/", "/drive/"))
        fields = {} if way != "/door/doc/" else {
            "If_Match": "*"} if path in self.known.documents else {"If_None_Match": "*"}
        if self.ask(user, "PUT", way, path, body, **fields)[0] in (201, 204):
            self.known.put(path, len(body), user)

    def append(self, user: str) -> None:
        if path := self.document():
            more = self.chance.randint(0, 50)
            if self.ask(user, "POST", "/doc/", path, b"x" * more)[0] == 204:
                size = self.known.documents[path][0] + more
                self.known.documents[path] = size, user, self.known.span

    def make(self, user: str) -> None:
        path = (*self.folder(), self.name())
        if len(self.known.folders) < FOLDERS \
                and self.ask(user, "POST", "/folder/", path)[0] == 201:
            self.known.folders[path] = user, self.known.span
            self.known.touch(user, path)

    def remove(self, user: str) -> None:
        if path := self.document():
            way = self.chance.choice(("/object/", "/drive/"))
            if self.ask(user, "DELETE", way, path)[0] == 204:
                del self.known.documents[path]
                self.known.touch(user, path)

    def move(self, user: str) -> None:
        path = self.document() if self.chance.random() < 0.7 else self.folder()
        if path and path != self.top:
            to = (*self.folder(), self.name())
            shown = "/" + "/".join(to)
            if self.chance.random() < 0.5:
                body = json.dumps({"to": shown}, ensure_ascii=self.chance.random() < 0.5)
                if self.chance.random() < 0.2:
                    body = '{"to":"/x","a":{"to":1},"to":' + body[7:]
                status, _ = self.ask(user, "POST", "/move/", path, body.encode())
            else:
                status, _ = self.ask(user, "MOVE", "/drive/", path, Overwrite="F",
                                     Destination=f"/drive{quote(shown)}")
            if status in (201, 204):
                self.known.move(path, to, user)

    def copy(self, user: str) -> None:
        if path := self.document():
            to = (*self.folder(), self.name())
            if self.ask(user, "COPY", "/drive/", path, Overwrite="F",
                        Destination=f"/drive/{quote('/'.join(to))}")[0] in (201, 204):
                self.known.put(to, self.known.documents[path][0], user)

    def play(self, count: int, kills: bool) -> None:
        does = (self.put, self.put, self.put, self.append, self.make, self.remove, self.move,
                self.copy)
        for _ in range(count):
            if kills and self.chance.random() < 0.01:
                self.door.kill()
            self.chance.choice(does)(self.chance.choice(USERS))

    # In the end

    def wrong(self) -> list[str]:
        found: list[str] = []
        seen = 0
        until = time.monotonic() + PATIENCE
        # (it tells nothing while it lags)
        while self.ask("root", "GET", "/door/latest/", self.top)[0] != 200:
            assert time.monotonic() < until
            time.sleep(0.1)
        for folder in self.known.folders:
            status, body = self.ask("root", "GET", "/door/folder/", folder)
            for row in json.loads(body)["rows"]:
                seen += 1
                path = (*folder, row["name"])
                size, user, span = self.known.documents[path] if row["kind"] == "document" \
                    else (None, *self.known.folders[path])
                if row.get("size") != size or row.get("who") != user \
                        or not span[0] - 2 < row.get("when", 0) < span[1] + 2:
                    found.append(f"{path}: {row}, not {size} {user} {span}")
        if seen != len(self.known.documents) + len(self.known.folders) - 1:
            found.append(f"{seen} objects")
        return found + self.wrong_latest()

    def wrong_latest(self) -> list[str]:
        told = json.loads(self.ask("root", "GET", "/door/latest/", self.top)[1])["found"]
        wanted = sorted(((span[0], "/" + "/".join(path)) for path, (_, _, span)
                         in self.known.documents.items()), reverse=True)
        moments = [row["when"] for row in told]
        # (what is as new as the last one may be there or not)
        lacks = {path for at, path in wanted[:50] if at > min(moments) + 2} - {
            row["path"] for row in told}
        return [f"not in latest: {one}" for one in sorted(lacks)] + (
            [] if moments == sorted(moments, reverse=True) and len(told) == min(50, len(wanted))
            else [f"latest has {len(told)}"])


def main() -> int:
    front, folder, seed, count = int(sys.argv[1]), sys.argv[2], int(sys.argv[3]), int(sys.argv[4])
    door = Door(folder)
    try:
        play = Play(front, door, seed)
        play.play(count, "kill" in sys.argv[5:])
        wrong = play.wrong()
    finally:
        door.end()
    for line in wrong[:10]:
        print(f"wrong: {line}")
    if "-v" in sys.argv:
        print(*(f"{count} {what}" for what, count in sorted(play.said.items())), sep="\n")
    print(f"seed {seed}: {len(play.known.documents)} documents and {len(play.known.folders)} "
          f"folders after {count} changes and {door.kills} kills, {len(wrong)} wrong")
    return 1 if wrong else 0


if __name__ == "__main__":
    sys.exit(main())
