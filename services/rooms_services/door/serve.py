"""HTTP: messages from nginx, which has collected each of them, to what they ask for, and back.

A connection has a thread. nginx collects whole requests and takes whole replies at once, however
slow its callers are, so threads wait for the room and for their turn alone. Large documents come at
their senders' pace, and have their turn once they are here. A door that is to end
takes nobody any more and answers whom it has taken; who comes then waits at the socket, which
systemd keeps for the next one."""
import http.server
import io
import os
import re
import select
import signal
import socket
import socketserver
import sys
import threading
import time
import traceback
from collections.abc import Iterator
from contextlib import contextmanager
from urllib.parse import urlsplit

from rooms_admin.room import waits
from rooms_admin.room.in_parts import LARGEST

from .. import listening
from ..room.answers import TEXT, Answer, Stop, reason
from ..room.paths import Names
from ..room.room import USER, Room
from ..room.space import Space
from .routes import LONG_ROUTES, PREFIX, UPLOAD, Asked, route_of
from ..room.turns import Users
from .changes.keeper import Keeper
from .chunked import Chunked
from .search.search import Texts
from .folders.would import Would
from .webdav.calls import Drive
from .large.arriving import Arrivals, Arriving
from .large.pieces import Uploads
from .large.replacing import Untaken, Upload, may_write
from .webdav import paths
from .webdav.kept import Kept
from .webdav.methods import LONG_METHODS, answer

# Connections, most of which wait for their turn; and how long nginx may keep one waiting.
MOST = 256
SECONDS = 65.0
# What is taken at once of what comes at its sender's pace; how often it is looked whether that gave
# way; and how long nginx may go on sending what is refused.
PIECE, TICK, LINGER = 65_536, 0.25, 2.0

# What changes nothing.
READS = ("GET", "HEAD", "OPTIONS", "PROPFIND")
# What stands before the addresses of a room without a host of its own. nginx says it.
_ABOVE = re.compile(r"(/[a-z0-9-]{1,32})?")


class Door:
    """A door may have no drive, keep no dates, and search no texts. `full` is the path of a file
    that is there while the room takes no more, `pictures` the socket of who makes pictures of
    pages, `largest` how many bytes a document may have, and `arriving` the folder of those that
    come."""

    def __init__(self, room: Room, would: Would, drive: Drive | None = None, full: str = "",
                 keeper: Keeper | None = None, texts: Texts | None = None,
                 pictures: str = "", largest: int = LARGEST, arriving: str = "") -> None:
        self.texts = texts
        self.room = room
        self.would = would
        self.drive = drive
        self.keeper = keeper
        self.pictures = pictures
        self.largest = max(largest, LARGEST)
        self.users = Users()
        self.space = Space(full)
        self.arrivals = Arrivals(arriving, self.largest)
        self.uploads = Uploads(self.arrivals)

    def is_drive(self, target: str) -> bool:
        return self.drive is not None and target.startswith("/drive") and target[6:7] in ("", "/")

    def is_document(self, method: str, target: str) -> bool:
        """Whether the body is a document."""
        return method == "PUT" and (target.startswith(f"{PREFIX}doc/") or self.is_drive(target))

    def adds(self, method: str, target: str) -> bool:
        """Whether a full room doesn't take it, as nginx says too (deploy/nginx/site.conf.in)."""
        if self.is_drive(target):
            return method in ("PUT", "MKCOL", "COPY", "LOCK")
        return self.is_document(method, target) or target.startswith(f"{PREFIX}upload/")


class Handler(http.server.BaseHTTPRequestHandler):
    protocol_version = "HTTP/1.1"
    timeout = SECONDS
    door: Door
    server: "Server"
    rfile: io.BufferedReader
    # How many bytes of the body nobody has read yet, or what it is read by where it doesn't say its
    # length; whether nobody will, since they are too many; and whether they come at their sender's
    # pace.
    left = 0
    chunks: Chunked | None = None
    is_too_large = is_coming = False

    def handle(self) -> None:
        """A connection for each request, as nginx has them, or for one after the other."""
        self.close_connection = True
        self.handle_one_request()
        while not self.close_connection:
            self.server.rests(self.connection)
            self.handle_one_request()

    def parse_request(self) -> bool:
        self.server.goes_on(self.connection)
        return super().parse_request()

    def address_string(self) -> str:
        return "nginx"

    def log_message(self, *_what: object) -> None:
        """nginx writes the log. Of what can't be read, a user would fill this one."""

    def _field(self, name: str) -> str:
        """The value of a field that may stand once. Two would be read in two ways."""
        if name == "Room-Too-Large" and self.is_too_large:
            return "1"
        values: list[str] = self.headers.get_all(name, [])
        if len(values) > 1:
            raise Stop(400, "bad-field", f"a field stands twice: {name}")
        return values[0].strip(" \t") if values else ""

    def _user(self) -> str:
        """As nginx says. Two names would be one of the client's and one of nginx's."""
        names: list[str] = self.headers.get_all("Room-User", [])
        if len(names) != 1 or not USER.fullmatch(names[0].strip(" \t")):
            raise Stop(400, "bad-user", "no name of a user")
        return names[0].strip(" \t")

    def _refuse_others(self) -> None:
        """A browser sends a saved password with what a page of another site causes. Nobody there
        has a reason to ask here, not even to read: it costs work, and may leave a record."""
        site, origin = self._field("Sec-Fetch-Site"), self._field("Origin")
        try:
            from_here = not origin or urlsplit(origin).netloc.lower() == self._field("Host").lower()
        except ValueError:
            # Such as http://[, which is no address.
            from_here = False
        if site not in ("", "same-origin", "none") or not from_here:
            raise Stop(403, "another-site", "a page of another site may not ask here")

    def _unsized(self) -> None:
        """What may be a document comes without its length too (deploy/nginx/door-maps.conf.in)."""
        is_chunked = self._field("Transfer-Encoding").lower() == "chunked"
        if not is_chunked or "Content-Length" in self.headers or self.command != "PUT":
            raise Stop(501, "transfer-coding", "a body has to come with its length")
        self.chunks, self.is_coming = Chunked(), True

    def _length(self) -> int:
        """A message whose end isn't sure ends the connection."""
        if "Transfer-Encoding" in self.headers:
            self._unsized()
            return 0
        text = self._field("Content-Length") or "0"
        if not (text.isascii() and text.isdigit()):
            raise Stop(400, "bad-length", "no length")
        self.is_coming = len(text) > 12 or int(text) > LARGEST
        if len(text) > 12 or int(text) > self._most():
            self.left = int(text) if len(text) <= 12 else 0
            self._refuse_large()
            return 0
        self.left = int(text)
        return self.left

    def _most(self) -> int:
        return self.door.largest if self.door.is_document(self.command, self.path) else LARGEST

    def _refuse_large(self) -> None:
        if not self.door.is_drive(self.path):
            raise Stop(413, "too-large", f"a document has at most {self._most()} bytes")
        # As nginx says it of what is too large for any room.
        self.is_too_large = self.close_connection = True

    def _taken(self, length: int) -> bytes:
        """The next bytes of the body."""
        body = self.rfile.read(length)
        self.left -= len(body)
        if len(body) != length:
            self.left = 0
            self.close_connection = True
            raise Stop(400, "bad-length", "the body was cut off")
        return body

    def _drop_rest(self) -> None:
        """nginx has all of it, and sends it before it reads an answer."""
        while not self.is_coming and self.left > 0 and (
                part := self.rfile.read(min(self.left, PIECE))):
            self.left -= len(part)
            self.close_connection = True

    def _linger(self) -> None:
        """It reads no answer where it can't send what still comes."""
        self.close_connection = True
        self.connection.settimeout(LINGER)
        self.connection.shutdown(socket.SHUT_WR)
        until = time.monotonic() + LINGER
        while time.monotonic() < until and self.connection.recv(PIECE):
            pass

    def _next(self, one: Arriving) -> bytes:
        """What has come of it, as soon as there is any."""
        most = PIECE if self.chunks else min(self.left, PIECE)
        self.connection.setblocking(False)
        try:
            until, is_there = time.monotonic() + SECONDS, False
            while time.monotonic() < until:
                if piece := self.rfile.read1(most):
                    if self.chunks:
                        return self.chunks.taken(piece)
                    self.left -= len(piece)
                    return piece
                if is_there:
                    raise Stop(400, "bad-length", "the body was cut off")
                one.refuse_over()
                is_there = bool(select.select([self.connection], [], [], TICK)[0])
        finally:
            self.connection.settimeout(SECONDS)
        raise TimeoutError

    def _comes(self) -> bool:
        return not self.chunks.is_over if self.chunks else self.left > 0

    @contextmanager
    def _arrived(self, user: str, length: int) -> Iterator[Upload | bytes | None]:
        """What may be larger than a document of the room, once all of it is here; nothing of other
        bodies."""
        if not self.is_coming or self.is_too_large:
            yield None
            return
        if self.door.adds(self.command, self.path):
            self.door.space.refuse_full()
        if not self._may_come(user):
            self.close_connection = True
            yield Untaken(length or LARGEST + 1, self.door.space)
            return
        arrivals = self.door.arrivals
        one = arrivals.begin(user, length or self.door.largest)
        try:
            while self._comes() and not self.is_too_large:
                self._take(one, self._next(one))
            arrivals.hold(one)
            if self.is_too_large or one.came <= LARGEST:
                yield b"" if self.is_too_large else one.read(0, one.came)
            else:
                yield Upload(one.came, one.reader(), self.door.space)
        finally:
            arrivals.end(one)

    def _names(self) -> Names:
        if self.door.is_drive(self.path):
            return paths.names_of(self.path, paths.ROUTE)[0]
        return route_of(self.command, self.path)[2]

    def _may_come(self, user: str) -> bool:
        """Nobody fills the disk with what they may not write. The route asks for the room's own
        denial, which is recorded."""
        if not self.door.is_document(self.command, self.path):
            return True
        names = self._names()
        with self.door.users.turn(user):
            return may_write(lambda ask: self.door.room.ask(user, ask), names).rulings().get(
                "w", False)

    def _take(self, one: Arriving, piece: bytes) -> None:
        if one.came + len(piece) > self._most():
            self._refuse_large()
        elif piece:
            self.door.arrivals.add(one, len(piece))
            one.write(one.came - len(piece), piece)

    def _answer(self) -> None:
        """A body is read once it is the user's turn, so that no user fills the memory by it."""
        self.left, self.chunks, self.is_too_large, self.is_coming = 0, None, False, False
        try:
            length = self._length()
            user = self._user()
            self._refuse_others()
            if self.command not in READS:
                self.door.room.changes.refuse(user)
            with self._arrived(user, length) as come, \
                    self.door.users.turn(user, self._kind(isinstance(come, Upload))):
                # nginx looked when it came, which may be minutes ago.
                if self.door.adds(self.command, self.path):
                    self.door.space.refuse_full()
                answer = self._done(user, self._taken(length) if come is None else come)
                self._drop_rest()
                if answer.length is None or self.command == "HEAD":
                    self._send(answer)
                    return
            # It goes at its caller's pace.
            with self.door.users.turn(user, "sent"):
                self._send(answer)
        except Stop as stop:
            self._drop_rest()
            self.close_connection = True
            self._send(stop.answer(self.door.is_drive(self.path)))

    def _kind(self, is_large: bool) -> str:
        """Of what may take long."""
        if is_large or UPLOAD in self.headers:
            return "large"
        if self.door.is_drive(self.path):
            return "walk" if self.command in LONG_METHODS else ""
        return LONG_ROUTES.get(self.path.removeprefix(PREFIX).partition("/")[0], "")

    def _done(self, user: str, come: Upload | bytes) -> Answer:
        drive = self.door.drive if self.door.is_drive(self.path) else None
        upload, body = (come, b"") if isinstance(come, Upload) else (None, come)
        try:
            if drive:
                above = self._field("Room-Above")
                if not _ABOVE.fullmatch(above):
                    raise Stop(400, "bad-field", "Room-Above is no place of a room")
                return answer(drive, self.door.room, user, self.command, self.path, above,
                              self._field, body, upload)
            route, word, names, query = route_of(self.command, self.path)
            return route(Asked(self.door.room, user, self.command, word, names, query,
                               self._field, body, self.door.keeper, self.door.texts,
                               self.door.would, self.door.pictures, upload,
                               self.door.largest, self.door.space, self.door.uploads))
        except Stop as stop:
            return stop.answer(drive is not None)
        except OSError:
            raise
        except Exception:
            traceback.print_exc()
            return Answer(500, b"a fault of the door. Look whether it was done\n", TEXT)

    def one(self) -> None:
        try:
            self._answer()
            if self.is_coming and self._comes():
                self._linger()
        except OSError:
            # Whoever asked is gone, or takes nothing: all that was asked is done.
            self.close_connection = True
        finally:
            self.door.room.held.give()

    def _send(self, answer: Answer) -> None:
        has_body = answer.status not in (204, 304)
        self.send_response_only(answer.status, reason(answer.status))
        for name, value in answer.fields.items():
            self.send_header(name, value)
        if answer.kind:
            self.send_header("Content-Type", answer.kind)
        if answer.length is not None:
            self.send_header("Content-Length", str(answer.length))
        elif answer.parts is not None:
            self.send_header("Transfer-Encoding", "chunked")
        elif has_body:
            self.send_header("Content-Length", str(len(answer.body)))
        if self.close_connection:
            self.send_header("Connection", "close")
        self.end_headers()
        if answer.parts is not None:
            if self.command != "HEAD":
                self._send_parts(answer)
        elif has_body and self.command != "HEAD":
            self.wfile.write(answer.body)

    def _send_parts(self, answer: Answer) -> None:
        """Without the last chunk, or the last bytes, which nginx waits for, where something failed:
        so it breaks the download off."""
        try:
            for part in answer.parts or ():
                if answer.length is not None:
                    self.wfile.write(part)
                elif part:
                    self.wfile.write(b"%x\r\n%b\r\n" % (len(part), part))
            if answer.length is None:
                self.wfile.write(b"0\r\n\r\n")
        except Stop as stop:
            self.close_connection = True
            print(f"a download was broken off: {stop.why}", file=sys.stderr, flush=True)

    def __getattr__(self, name: str) -> object:
        """Whatever the method is, it is answered here."""
        if name.startswith("do_"):
            return self.one
        raise AttributeError(name)


class Server(socketserver.ThreadingMixIn, socketserver.UnixStreamServer):
    """A thread for each connection, up to MOST; then nobody is accepted until one ends."""
    daemon_threads = True
    request_queue_size = 256

    def __init__(self, place: str, handler: type[Handler]) -> None:
        """At a socket of its own, or without a place at that of its unit."""
        self._free = threading.BoundedSemaphore(MOST)
        self._mutex = threading.Lock()
        self._resting: set[socket.socket] = set()
        self._ends = False
        super().__init__(place, handler, bind_and_activate=place != "")
        if not place:
            self.socket.close()
            self.socket = listening.handed()

    def rests(self, connection: socket.socket) -> None:
        """Its requests are answered, and another may come."""
        with self._mutex:
            self._resting.add(connection)
            if self._ends:
                connection.shutdown(socket.SHUT_RD)

    def goes_on(self, connection: socket.socket) -> None:
        with self._mutex:
            self._resting.discard(connection)

    def finish(self, seconds: float) -> None:
        """Whoever was accepted is answered, if that takes no longer."""
        ends = time.monotonic() + seconds
        with self._mutex:
            self._ends = True
            for one in self._resting:
                one.shutdown(socket.SHUT_RD)
        for _ in range(MOST):
            if not self._free.acquire(timeout=max(0.0, ends - time.monotonic())):
                print("it ends before all are answered", file=sys.stderr, flush=True)
                return

    def process_request(self, request: object, client_address: object) -> None:
        self._free.acquire()
        super().process_request(request, client_address)  # type: ignore[arg-type]

    def process_request_thread(self, request: object, client_address: object) -> None:
        try:
            super().process_request_thread(request, client_address)  # type: ignore[arg-type]
        finally:
            self.goes_on(request)  # type: ignore[arg-type]
            self._free.release()

    def handle_error(self, request: object, client_address: object) -> None:
        """A connection that nginx broke off is no fault of this program."""
        if not isinstance(sys.exc_info()[1], OSError):
            traceback.print_exc()


def opened(place: str, door: Door) -> Server:
    # What is there was left by a door that was killed.
    if place and os.path.lexists(place):
        os.unlink(place)
    threading.stack_size(listening.STACK)
    return Server(place, type("Opened", (Handler,), {"door": door}))


def serve(room: str, listen: str, would: str, locks: str, full: str,
          keeper: Keeper | None, texts: Texts | None, pictures: str = "",
          largest: int = LARGEST, has_port: bool = False, arriving: str = "") -> None:
    """Without a file of locks there is no drive. Whoever asks at a port of the room changes it
    without a word to the door."""
    drive = Drive(Kept(locks), full, None if has_port else keeper, largest) if locks else None
    asked = Room(room, note=keeper.note if keeper else None)
    door = Door(asked, Would(would), drive, full, keeper, texts, pictures, largest, arriving)
    with opened(listen, door) as server:
        threading.Thread(target=door.arrivals.run, daemon=True).start()
        if keeper:
            threading.Thread(target=keeper.run, daemon=True).start()
        # (Its thread alone accepts, and waits for another one that ends it.)
        signal.signal(signal.SIGTERM, lambda *_: threading.Thread(target=server.shutdown).start())
        print(f"listening {listen or 'at the socket of its unit'}", file=sys.stderr, flush=True)
        try:
            server.serve_forever(0.1)
            server.finish(waits.LAST)
        finally:
            if keeper:
                keeper.stop()
