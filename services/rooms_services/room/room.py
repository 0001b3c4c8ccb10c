"""The room: its own requests over its socket, in the name of a user (docs/http.md).

The room answers one connection at a time. So a long row of questions is cut into several
connections, between which others are answered, and what belongs together is sent over one, in which
nobody comes between."""
import json
import math
import re
import socket
import threading
import time
from collections.abc import Callable, Iterable, Iterator
from contextlib import closing, contextmanager
from functools import lru_cache
from typing import NamedTuple

from rooms_admin.room import waits

from .answers import JSON, Answer, Stop
from .paths import Names, escaped
from .turns import PATIENCE, Held, InTurn, busy

# How many questions one connection has at most. All of a row are sent before an answer is read, so
# they have to fit into a socket's buffer: else the room could wait with an answer for a door that
# waits with a question.
ROW, ROW_BYTES = 64, 60_000
# Of how many questions of a row a listing takes the place: one of a thousand names takes the room
# as long as a hundred others. So does one about something two thousand folders deep: the place of
# another one for each so many.
LISTING, DEEP = 16, 32
# What the answers to a row, or one answer, may have, so that no folder fills the memory: some
# 80,000 names, or 64 lists of 4,096 entries.
MOST_ANSWERED = 12_582_912
# How long the head of an answer may be.
LONGEST_HEAD = 4096
# How much of what is asked in one user's name may be denied: so many at once, and so many a second
# in the long run. Each denial may leave a record, and nothing takes that away. So may each change,
# of which one request of theirs may become very many.
MOST_DENIED, DENIED_PACE = 1000, 10.0
MOST_CHANGED, CHANGED_PACE = 100_000, 10.0
# Of so many users it is known.
MOST_USERS = 10_000
CONNECT_SECONDS = 10.0
# How long one who asks over one connection has the room from its first answer on, before others are
# answered; and how long where nobody may come between, and nothing is changed yet.
RESTS, ENDS = 0.25, 5.0
USER = re.compile(r"[A-Za-z0-9._+$\\-]{1,64}(@[A-Za-z0-9.-]{1,64})?")
_HEAD = re.compile(rb"HTTP/1\.1 ([0-9]{3})[^\r\n]*\r\n(?:(?!Content-Length:)[^\r\n]+\r\n)*"
                   rb"(?:Content-Length: ([0-9]{1,10})\r\n)?(?:[^\r\n]+\r\n)*\r\n")
_CHILD = re.compile(rb'[\[,]\{"kind":"(folder|document)","name":"((?:[^"\\]|\\.)*)"\}(?=[,\]])')


class Ask(NamedTuple):
    """A request; its path is escaped already. (There are many, and a tuple is made at once.)"""
    method: str
    route: str
    path: str
    query: str = ""
    body: bytes = b""
    # Whether only the status of what is done counts: then no memory is taken by the rest.
    is_bare: bool = False

    def message(self, user: str) -> bytes:
        if self.method == "GET":
            return question(user, self.route, self.path, self.query)
        query = f"?{self.query}" if self.query else ""
        return (f"{self.method} /{self.route}/{self.path}{query} HTTP/1.1\r\nRoom-User: {user}\r\n"
                f"Content-Length: {len(self.body)}\r\n\r\n").encode("ascii") + self.body


def question(user: str, route: str, path: str, query: str) -> bytes:
    """The message of a GET. (There are many, which are no Ask before.)"""
    what = f"{path}?{query}" if query else path
    return f"GET /{route}/{what} HTTP/1.1\r\nRoom-User: {user}\r\n\r\n".encode("ascii")


def about(method: str, route: str, names: Names, query: str = "", body: bytes = b"") -> Ask:
    return Ask(method, route, escaped(names), query, body)


class Reply(NamedTuple):
    status: int
    body: bytes

    @property
    def told(self) -> dict[str, object]:
        """What a refusal or a denial says."""
        try:
            told = json.loads(self.body)
        except ValueError:
            return {}
        return told if isinstance(told, dict) else {}

    @property
    def why(self) -> str:
        return str(self.told.get("why", ""))

    @property
    def at(self) -> str:
        return str(self.told.get("at", ""))

    def text(self) -> str:
        told = self.told
        if self.status == 403:
            by = f"entry {told['entry']}, {told['text']}" if told.get("text") else "no entry allows"
            return f"denied: {told.get('bits')} at {told.get('at')} ({by})"
        return f"refused: {self.why} at {told.get('at', '')}".removesuffix(" at ")

    def answer(self) -> Answer:
        """As the room said it. What fails there closes the connection there alone."""
        return Answer(self.status, self.body, JSON if self.body else "")

    def rulings(self) -> dict[str, bool]:
        """Of an answer of /can/: whether each of the letters is allowed."""
        return _rulings(self.body) if self.status == 200 else {}


@lru_cache(maxsize=1000)
def _head(head: bytes) -> tuple[int, int]:
    """The status and the length that the head of an answer says. Most of them are the same."""
    found = _HEAD.fullmatch(head)
    if found is None:
        raise ended()
    return int(found[1]), int(found[2] or 0)


@lru_cache(maxsize=1000)
def _rulings(body: bytes) -> dict[str, bool]:
    """Most of them are the same. Nobody changes what is returned."""
    return {bit: str(said).startswith("allowed") for bit, said in json.loads(body).items()}


def listed(body: bytes, most: int) -> Iterator[tuple[bytes, bool]]:
    """What is in a folder, by its listing: each name, and whether it is a folder. (JSON that is
    read as a whole takes many times its length.)"""
    if len(body) < 2 or not body.endswith(b"]"):
        raise ended()
    place = 0 if body != b"[]" else 1
    while place < len(body) - 1:
        found = _CHILD.match(body, place)
        if found is None:
            raise ended()
        if most == 0:
            raise too_many()
        most -= 1
        place = found.end()
        name = found[2]
        if b"\\" in name:
            name = json.loads(b'"%b"' % name).encode()
        yield name, found[1] == b"folder"


class Filling:
    """A row, as long as one more question has a place in it."""

    def __init__(self) -> None:
        self.messages: list[bytes] = []
        self._size = self._cost = 0

    def takes(self, message: bytes, is_listing: bool) -> bool:
        self._size += len(message)
        self._cost += (LISTING if is_listing else 1) + message.count(b"/") // DEEP
        if self.messages and (self._size > ROW_BYTES or self._cost > ROW):
            return False
        self.messages.append(message)
        return True


def too_many() -> Stop:
    return Stop(413, "too-many", "too much is below it: ask further down")


class Pace:
    """Of users: how many more of something each may have, and when that was so. It is no less than
    `least`."""

    def __init__(self, most: float, pace: float, least: float = 0.0,
                 clock: Callable[[], float] = time.monotonic) -> None:
        self._most, self._pace, self._least, self._clock = most, pace, least, clock
        self._left: dict[str, tuple[float, float]] = {}
        self._lock = threading.Lock()

    def _forget(self, now: float) -> None:
        """Whoever may have all again."""
        self._left = {user: (left, then) for user, (left, then) in self._left.items()
                      if left + (now - then) * self._pace < self._most}

    def _of(self, user: str, now: float) -> float:
        left, then = self._left.get(user, (self._most, now))
        return min(self._most, left + (now - then) * self._pace)

    def left(self, user: str) -> float:
        with self._lock:
            return self._of(user, self._clock())

    def take(self, user: str) -> float:
        """One. How many are left then: less than none if there was none."""
        now = self._clock()
        with self._lock:
            if len(self._left) >= MOST_USERS:
                self._forget(now)
            left = self._of(user, now) - 1
            self._left[user] = max(left, self._least), now
        return left


class Denials(Pace):
    def __init__(self, most: float = MOST_DENIED, pace: float = DENIED_PACE,
                 clock: Callable[[], float] = time.monotonic) -> None:
        super().__init__(most, pace, clock=clock)

    def note(self, user: str, reply: Reply) -> Reply:
        if reply.status == 403 and self.take(user) < 0:
            raise Stop(413, "too-many", "too much of it is denied: ask further down, or later")
        return reply


class Changes(Pace):
    def __init__(self, most: float = MOST_CHANGED, pace: float = CHANGED_PACE,
                 clock: Callable[[], float] = time.monotonic) -> None:
        super().__init__(most, pace, -math.inf, clock)

    def refuse(self, user: str) -> None:
        """Before a request: what is begun is done, however much it is."""
        if self.left(user) < 0:
            raise Stop(429, "too-many-requests", "too much was changed in your name: later",
                       fields={"Retry-After": "60"})


def hangs() -> Stop:
    return Stop(504, "room-hangs", f"no answer of the room for {waits.ANSWER:.0f} s. Look whether "
                "it was done")


def ended() -> Stop:
    return Stop(502, "room-ended", "the room ended before it answered. Look whether it was done")


# Told of each change before it is asked for, with nothing, and then with the status, which is 0
# where no answer came.
Note = Callable[[str, Ask, int | None], None]


class Talk:
    """One connection, in the name of one user: each answer is waited for before more is sent, and
    nobody comes between."""

    def __init__(self, room: "Room", user: str) -> None:
        self._room = room
        self._user = user
        self._at: socket.socket | None = None
        # How many bytes the room has answered.
        self.taken = 0
        self._has_changed = False
        self._open()

    def _open(self) -> None:
        self._room.take()
        # (until the first answer the room may be answering others)
        self._since = math.inf
        try:
            self._at = self._room.connected()
            self._at.settimeout(self._room.seconds)
            self._lines = self._at.makefile("rb")
        except BaseException:
            self._room.give()
            raise

    def close(self) -> None:
        """Else the connection is open, and the room answers nobody, as long as this is known."""
        if self._at:
            self._lines.close()
            self._at.close()
            self._at = None
            self._room.give()

    def _held(self) -> float:
        return self._room.clock() - self._since

    def rest(self) -> bool:
        """Others are answered before the next question, if they have waited a while: however few
        there were, each may take long. Says whether they are."""
        if self._held() < RESTS:
            return False
        self.close()
        self._open()
        return True

    def ask(self, ask: Ask) -> Reply:
        if ask.method == "GET":
            if self._held() > ENDS and not self._has_changed:
                raise busy()
            return self._asked(ask)
        self._has_changed = True
        self._room.changes.take(self._user)
        note = self._room.note
        if note is None:
            return self._asked(ask)
        note(self._user, ask, None)
        status = 0
        try:
            reply = self._asked(ask)
            status = reply.status
            return reply
        finally:
            note(self._user, ask, status)

    def _asked(self, ask: Ask) -> Reply:
        assert self._at
        self._at.sendall(ask.message(self._user))
        line = self._lines.readline(1024)
        if not line.startswith(b"HTTP/1.1 "):
            raise ConnectionError
        length = 0
        while (field := self._lines.readline(1024)) not in (b"\r\n", b""):
            name, _, value = field.partition(b":")
            if name.lower() == b"content-length":
                length = int(value)
        self.taken += length
        self._since = min(self._since, self._room.clock())
        status = int(line[9:12])
        if ask.route == "folder" and self._room.lists:
            self._room.lists(min(length, self._room.most))
        return Reply(status, self._body(length, ask.is_bare and status == 200))

    def _body(self, length: int, is_bare: bool) -> bytes:
        left = length
        while is_bare and left:
            part = self._lines.read(min(left, 65_536))
            if not part:
                raise ConnectionError
            left -= len(part)
        # A room that was taken over would fill the memory.
        if left > self._room.most:
            raise too_many()
        body = self._lines.read(left)
        if len(body) != left:
            raise ConnectionError
        return body


class Row:
    """Questions that are under way, on a connection of their own. Until their answers are here, or
    nobody wants them any more, no other row is sent."""

    def __init__(self, room: "Room", messages: list[bytes]) -> None:
        self._room = room
        self._count = len(messages)
        self._at: socket.socket | None = None
        room.take()
        self._is_held = True
        try:
            with at_fault():
                self._at = room.connected()
                self._at.settimeout(room.seconds)
                self._at.sendall(b"".join(messages))
                # The room answers all that came before the end, and then lets others in.
                self._at.shutdown(socket.SHUT_WR)
        except BaseException:
            self.drop()
            raise

    def drop(self) -> None:
        if self._at:
            self._at.close()
        if self._is_held:
            self._is_held = False
            self._room.give()

    def answered(self) -> bytearray:
        """All of the answers. From here on the next row may be sent."""
        got = bytearray()
        try:
            with at_fault():
                while self._at and (part := self._at.recv(262_144)):
                    got += part
                    if len(got) > MOST_ANSWERED:
                        raise too_many()
        finally:
            self.drop()
        return got

    def replies(self, whole: bytearray) -> Iterator[Reply]:
        """One after the other, so that none is twice in memory."""
        view = memoryview(whole)
        place = 0
        for _ in range(self._count):
            begin = whole.find(b"\r\n\r\n", place, place + LONGEST_HEAD) + 4
            if begin < 4:
                raise ended()
            status, length = _head(bytes(view[place:begin]))
            place = begin + length
            if place > len(whole):
                raise ended()
            yield Reply(status, bytes(view[begin:place]))


@contextmanager
def at_fault() -> Iterator[None]:
    try:
        yield
    except TimeoutError:
        raise hangs() from None
    except (OSError, ValueError):
        raise ended() from None


class Room:
    def __init__(self, place: str, seconds: float = waits.ANSWER,
                 most: int = MOST_ANSWERED, note: Note | None = None) -> None:
        """The path of a socket, how long an answer may take, how many bytes it may have, and who is
        told of each change."""
        self.place = place
        self.seconds = seconds
        self.most = most
        self.denials = Denials()
        self.changes = Changes()
        self.held = Held()
        # Is told how long a listing is before it is read, and may refuse it.
        self.lists: Callable[[int], None] | None = None
        self.note = note
        self.clock = time.monotonic
        self._turn = InTurn()

    def take(self) -> None:
        if not self._turn.take(PATIENCE):
            raise hangs()

    def give(self) -> None:
        self._turn.give()

    def connected(self) -> socket.socket:
        until = time.monotonic() + CONNECT_SECONDS
        while True:
            at = socket.socket(socket.AF_UNIX, socket.SOCK_STREAM)
            try:
                at.settimeout(CONNECT_SECONDS)
                at.connect(self.place)
                return at
            except BlockingIOError:
                # Too many wait already: the system refuses a Unix socket then, without a wait.
                at.close()
                if time.monotonic() > until:
                    raise hangs() from None
                time.sleep(0.01)
            except OSError:
                at.close()
                raise Stop(503, "no-room", "the room doesn't answer; nothing was done",
                           fields={"Retry-After": "10"}) from None

    @contextmanager
    def talk(self, user: str) -> Iterator[Talk]:
        """Nobody comes between what is asked here."""
        with at_fault(), closing(Talk(self, user)) as talk:
            yield talk

    def ask(self, user: str, ask: Ask) -> Reply:
        with self.talk(user) as talk:
            return talk.ask(ask)

    def row(self, user: str, asks: list[Ask]) -> list[Reply]:
        """Only of what changes nothing: all are sent before the first answer is read."""
        if not asks:
            return []
        under_way = Row(self, [ask.message(user) for ask in asks])
        return list(under_way.replies(under_way.answered()))

    def ask_each(self, user: str, asks: Iterable[Ask]) -> Iterator[Reply]:
        for asked in rows(user, asks):
            yield from self.row(user, asked)


def rows(user: str, asks: Iterable[Ask]) -> Iterator[list[Ask]]:
    row = Filling()
    its: list[Ask] = []
    for ask in asks:
        message, is_listing = ask.message(user), ask.route == "folder"
        if not row.takes(message, is_listing):
            yield its
            row, its = Filling(), []
            row.takes(message, is_listing)
        its.append(ask)
    if its:
        yield its
