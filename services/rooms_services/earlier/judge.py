"""Earlier nights for users: nginx asks here by SCGI, with the name that it has checked, for a
reading request of docs/http.md as it would have been answered that night. This process reads no
file and reaches no backup: it asks today's room, as nginx does, and copies that others have
opened."""
import hashlib
import os
import re
import secrets
import socket
import threading
import traceback
from collections import Counter
from collections.abc import Callable, Iterator
from contextlib import contextmanager

from rooms_admin.cli.report import say
from rooms_admin.host import locks
from rooms_admin.room import names

from .. import listening, scgi
from ..room.answers import Answer, Stop, told
from ..room.paths import Names, chosen_in, names_in
from ..room.room import Room
from ..room.turns import RUNNING, WAITING, Held, Users
from . import gate
from .judging import LISTED, Look
from .whole import archive

# Connections at once, and of them about one room: so a room that hangs keeps nobody waiting who
# asks for another one. So many of these are left by users of whom as many are under way as are
# answered: so two who ask again and again keep nobody from a room's nights. ZIPs at once, which may
# be taken slowly. Seconds until it ends if nobody asks.
MOST, OF_ONE, LEFT, ZIPS, IDLE = 64, 24, 8, 8, 600.0
# Bytes of listings of all rooms that are under way, each of which takes three times as much; those
# that are short aren't counted.
LISTINGS, SHORT = 96 << 20, 65_536
# How long a copy may take for an answer. (A server reads nothing of the disk for one.)
PATIENCE = float(os.environ.get("ROOMS_NIGHTS_PATIENCE", "20"))
_TARGET = re.compile(r"/earlier/(?:(nights)|(\d{4}-\d\d-\d\d\.\d{6})/(?:(doc|folder|dacl)/([^?]*)|"
                     r"zip/([^?]*)(?:\?(.+))?))", re.ASCII)


class Today:
    """A room of today, and who asks about its nights: so many at once, of one user and of all."""

    def __init__(self, name: str, lists: Callable[[int], None] | None = None) -> None:
        self.room = Room(os.path.join(locks.RUN, "rooms", name, "socket"), most=LISTED)
        self.room.lists = lists
        self.users = Users()
        self._lock = threading.Lock()
        # Of whom how many are under way.
        self._placed: Counter[str] = Counter()

    def _place(self, user: str) -> None:
        with self._lock:
            own = self._placed[user]
            if own >= RUNNING + WAITING:
                raise Stop(429, "too-many-requests", fields={"Retry-After": "10"})
            if self._placed.total() >= OF_ONE - (LEFT if own >= RUNNING else 0):
                raise Stop(503, "busy", fields={"Retry-After": "10"})
            self._placed[user] += 1

    @contextmanager
    def turn(self, user: str, word: str) -> Iterator[None]:
        self._place(user)
        try:
            with self.users.turn(user, word if word in ("folder", "zip") else ""):
                yield
        finally:
            with self._lock:
                self._placed[user] -= 1
                if not self._placed[user]:
                    del self._placed[user]


class Judge:
    def __init__(self) -> None:
        self._lock = threading.Lock()
        self._rooms: dict[str, Today] = {}
        self._zips = threading.BoundedSemaphore(ZIPS)
        self._secret = secrets.token_bytes(16)
        self._held = Held(LISTINGS)
        # How many of these there are.
        self.under_way = 0

    def _today(self, name: str) -> Today:
        with self._lock:
            return self._rooms.setdefault(name, Today(name, self._lists))

    def _lists(self, size: int) -> None:
        """Nobody waits for others here, who may be about a room that hangs."""
        if size > SHORT:
            self._held.take(size, 0.0)

    @contextmanager
    def answered(self, fields: dict[str, str]) -> Iterator[Answer]:
        """Until it is sent, it is the caller's turn."""
        name, user = fields.get("ROOM", ""), fields.get("ROOM_USER", "")
        found = _TARGET.fullmatch(fields.get("TARGET", ""))
        if not names.is_room(name):
            raise Stop(400, "bad-user")
        if not names.is_user(user):
            # Whoever has a first password has no name for a room.
            raise Stop(403, "first") if not user else Stop(400, "bad-user")
        if not found:
            raise Stop(404, "no-route")
        listed, night, word, rest, folder, query = found.groups()
        today = self._today(name)
        if folder is not None:
            with self._zip(today, user):
                yield archive(lambda word, path: self._of_zip(today, name, user, night, word, path),
                              lambda reply: today.room.denials.note(user, reply),
                              names_in(folder), chosen_in(query) if query else None)
            return
        with today.turn(user, word):
            try:
                yield told(gate.nights(name)) if listed else self._looked(
                    today, name, user, night, word, names_in(rest))
            finally:
                self._held.give()

    @contextmanager
    def _zip(self, today: Today, user: str) -> Iterator[None]:
        if not self._zips.acquire(blocking=False):
            raise Stop(503, "busy", fields={"Retry-After": "10"})
        try:
            with self._lock:
                self.under_way += 1
            with today.turn(user, "zip"):
                yield
        finally:
            with self._lock:
                self.under_way -= 1
            self._zips.release()

    def _of_zip(self, today: Today, name: str, user: str, night: str, word: str, path: Names
                ) -> Answer:
        """One folder after the other."""
        try:
            return self._looked(today, name, user, night, word, path)
        finally:
            self._held.give()

    def _looked(self, today: Today, name: str, user: str, night: str, word: str, path: Names
                ) -> Answer:
        """A copy whose server was killed, or hangs, is opened anew; once for one request."""
        look = Look(today.room, user, word, path)
        asker = self._asker(name, user)
        try:
            return look.answer(lambda: gate.opened(name, night, asker), PATIENCE)
        except Stop as stop:
            if stop.why not in ("room-ended", "room-hangs", "no-room") or look.then is None:
                raise
        self._held.give()
        gate.ended(name, night)
        look = Look(today.room, user, word, path)
        return look.answer(lambda: gate.opened(name, night, asker), PATIENCE)

    def _asker(self, room: str, user: str) -> str:
        """By which whoever opens nights sees how many somebody keeps open, and not who that is."""
        return hashlib.blake2b(f"{room} {user}".encode(), digest_size=8,
                               key=self._secret).hexdigest()

    def one(self, connection: socket.socket) -> None:
        connection.settimeout(10)
        is_begun = False
        try:
            with self.answered(scgi.asked(connection.recv, 0)[0]) as answer:
                connection.settimeout(65)
                is_begun = True
                connection.sendall(scgi.written(answer))
                for part in answer.parts or ():
                    connection.sendall(part)
            return
        except Stop as stop:
            given = stop
        except OSError:
            raise
        except Exception as fault:  # One request ends nothing for others.
            say(f"failed: {type(fault).__name__}: {fault}")
            traceback.print_exc()
            given = Stop(500, "store")
        if is_begun:
            # A ZIP without its end is none.
            say(f"a download was broken off: {given.why}")
            return
        connection.settimeout(65)
        connection.sendall(scgi.written(given.answer(False)))


def run() -> int:
    os.umask(0o077)
    os.chdir("/")
    judge = Judge()
    listening.serve(listening.handed(), MOST, IDLE, judge.one, lambda: judge.under_way > 0)
    return 0
