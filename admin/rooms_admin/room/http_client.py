"""Requests to a room: whom it asks as, what may go unencrypted, and which replies end a run."""
import argparse
import base64
import http.client
import json
import os
import re
import ssl
import sys
import time
import urllib.error
import urllib.parse
import urllib.request
from collections.abc import Mapping
from dataclasses import dataclass, field
from typing import Any, BinaryIO

from ..cli import report, words
from ..host.at_socket import AtServer, AtSocket
from . import names, settings, there
from ..cli.report import Refused, Stop, say
from .in_parts import LARGEST
from .settings import Room, is_this_machine


@dataclass
class Reply:
    status: int
    body: bytes
    fields: Mapping[str, str] = field(default_factory=dict)

    def text(self) -> str:
        """What the room said, in one line."""
        flat = self.body[:400].replace(b"\n", b"").replace(b"\r", b"")
        return f"{self.status} {report.plain(flat.decode('utf-8', 'backslashreplace'))}"


def connection(room: Room, timeout: float) -> http.client.HTTPConnection:
    """To the room's own server on this machine, which believes whom it is told."""
    if room.listens:
        return AtServer(room.listens, timeout)
    return http.client.HTTPConnection("127.0.0.1", int(room.port), timeout=timeout)


class _SocketHandler(urllib.request.HTTPHandler):
    def __init__(self, kind: type[AtSocket], path: str) -> None:
        super().__init__()
        self.kind = kind
        self.path = path

    def http_open(self, req: urllib.request.Request) -> http.client.HTTPResponse:
        def connected(_host: str, timeout: float = 60, **_given: object) -> AtSocket:
            return self.kind(self.path, timeout)
        as_urllib_has_it: Any = connected
        return self.do_open(as_urllib_has_it, req)


class _AsIs(urllib.request.HTTPErrorProcessor):
    """Every status is a reply: none is followed elsewhere."""

    def http_response(self, request: urllib.request.Request,
                      response: http.client.HTTPResponse) -> http.client.HTTPResponse:
        return response

    https_response = http_response


def _opener(*handlers: urllib.request.BaseHandler) -> urllib.request.OpenerDirector:
    opener = urllib.request.OpenerDirector()
    for handler in (*handlers, _AsIs()):
        opener.add_handler(handler)
    return opener


@dataclass
class Caller:
    user: str = ""
    as_user: str = ""
    config: str = ""
    log: str = ""
    without_tls: bool = False


def caller_arguments(parser: words.Parser) -> None:
    """Of verbs that ask a room as its users do."""
    words.room(parser, "the room, by its name or its settings on its own machine, or by its "
               "address, as https://rooms.example; office without it")
    words.option(parser, "--user", "NAME", "ask for the password of this user")
    words.option(parser, "--as", "NAME", "ask in the name of this user, as root on the room's own "
                 "machine", dest="as_user")
    words.option(parser, "--config", "FILE", "settings in curl's form: user, cacert, cert, key, "
                 "header")
    words.flag(parser, "--without-tls", "take an address with http of another machine; all of it "
               "then goes in clear")
    words.option(parser, "--log", "FILE", "add what was left out to this file too, with the time")


def caller_of(given: argparse.Namespace) -> Caller:
    return Caller(user=given.user, as_user=given.as_user, config=given.config, log=given.log,
                  without_tls=given.without_tls)


class Client:
    """`next_step` is what is to be done where a run was cut off; in a damaged room a reply 500
    ends a run only if `ends_by_500`."""

    def __init__(self, address: str, caller: Caller, next_step: str, ends_by_500: bool,
                 at_socket: str = "", at_door: str = "", largest: int = 0) -> None:
        """`at_door` is the socket of the room's door, which is elsewhere below its address."""
        parts = _parts(address)
        before, at, host = parts.netloc.rpartition("@")
        self.room = urllib.parse.urlunsplit((parts.scheme, host, parts.path.rstrip("/"), "", ""))
        self.next_step = next_step
        self.ends_by_500 = ends_by_500
        self.log = caller.log
        self.left_out = 0
        plain = _without_port(host)
        home = is_this_machine(host)
        if parts.scheme == "http" and not home and not caller.without_tls and (
                caller.user or caller.config or at):
            raise Refused(f"no TLS: {plain} would get the password and everything else in clear; "
                          "take an address with https, or --without-tls")
        self.headers = {"Content-Type": "application/octet-stream"}
        context = ssl.create_default_context()
        if at:
            self._sign_in(urllib.parse.unquote(before))
        if caller.config:
            self._take_config(caller.config, context)
        if caller.as_user:
            if not names.is_user(caller.as_user):
                raise Refused(f"bad arguments: '{caller.as_user}' isn't the name of a user")
            self.headers["Room-User"] = caller.as_user
        if caller.user:
            self._sign_in(f"{caller.user}:{_ask_password(caller.user)}")
        if self.log:
            self._write_log("")
        # A room believes whom nginx names, or root.
        self._is_nameless = not (self.headers.keys() & {"Room-User", "Authorization"})
        self._largest = largest
        proxy = urllib.request.ProxyHandler({} if home else None)
        https = urllib.request.HTTPSHandler(context=context)
        self._opener, self._door = (_opener(
            proxy, _SocketHandler(kind, place) if place else urllib.request.HTTPHandler(), https)
            for kind, place in ((AtServer, at_socket), (AtSocket, at_door or at_socket)))

    def _sign_in(self, user: str) -> None:
        coded = base64.b64encode(user.encode(errors="surrogateescape")).decode()
        self.headers["Authorization"] = f"Basic {coded}"

    def _take_config(self, path: str, context: ssl.SSLContext) -> None:
        """Of curl's settings those that say who asks, and whom to believe."""
        got: dict[str, str] = {}
        try:
            with open(path, encoding="utf-8", errors="surrogateescape") as source:
                text = source.read()
        except OSError as fault:
            raise Refused(f"no settings: {path} can't be read: {fault.strerror}") from fault
        form = re.compile(r'\s*(?:-{0,2})(\w+)\s*[=:\s]\s*("(?:\\.|[^"\\])*"|\S+)\s*')
        for number, line in enumerate(text.split("\n"), 1):
            if not line.strip() or line.lstrip().startswith("#"):
                continue
            found = form.fullmatch(line)
            if not found or found[1] not in ("user", "cacert", "cert", "key", "header"):
                raise Refused(f"bad settings: {path}, line {number} has none of user, cacert, "
                              "cert, key, header")
            value = found[2]
            if value.startswith('"'):
                value = re.sub(r"\\(.)", r"\1", value[1:-1])
            if found[1] == "header":
                name, _, rest = value.partition(":")
                self.headers[name.strip()] = rest.strip()
            else:
                got[found[1]] = value
        if "user" in got:
            self._sign_in(got["user"])
        try:
            if "cacert" in got:
                context.load_verify_locations(got["cacert"])
            if "cert" in got:
                context.load_cert_chain(got["cert"], got.get("key"))
        except (OSError, ssl.SSLError) as fault:
            raise Refused(f"bad settings: {path}: {fault}") from fault

    def largest(self) -> int:
        """How many bytes a document may have, as settings say, or the front end."""
        if not self._largest:
            told = self.ask("GET", "me", b"").fields.get("Room-Largest", "")
            self._largest = max(LARGEST, int(told) if re.fullmatch("[0-9]{1,12}", told) else 0)
        return self._largest

    def ask(self, method: str, word: str, path: bytes, body: bytes | BinaryIO | None = None,
            fields: dict[str, str] | None = None, query: str = "") -> Reply:
        target = f"/{word}{names.encoded(path)}{query}"
        asked = urllib.request.Request(self.room + target, data=body, method=method,
                                       headers={**self.headers, **(fields or {})})
        opener = self._door if word.startswith("door/") else self._opener
        try:
            with opener.open(asked, timeout=300) as got:
                # Only listings are longer than a document.
                most = 1 << 30 if word == "folder" else 4 << 20
                reply = Reply(got.status, got.read(most + 1), got.headers)
                if len(reply.body) > most:
                    raise Stop(f"no reply: one of more than {most} bytes; {self.next_step}")
                elsewhere = got.headers.get("Location", "")
        except urllib.error.URLError as fault:
            raise Stop(f"no reply: {fault.reason}; {self.next_step}") from fault
        except (OSError, http.client.HTTPException) as fault:
            raise Stop(f"no reply: {fault or type(fault).__name__}; {self.next_step}") from fault
        if 300 <= reply.status < 400:
            elsewhere = urllib.parse.urljoin(self.room + target, elsewhere).removesuffix(target)
            raise Stop(f"status {reply.status}: {self.room} sends on to "
                       f"{elsewhere or 'another address'}, where nothing is sent: name the room "
                       "by that address")
        if reply.status == 401:
            raise Stop("the password was refused")
        if reply.status in (502, 503, 504):
            raise Stop(f"status {reply.status}: the room or the front end is out of order; "
                       f"{self.next_step}")
        if reply.status == 403 and self._is_nameless:
            self._is_nameless = False
            say("asked as a caller without a name, who may not: --as NAME asks as a user of the "
                "room, for root on its own machine")
        if reply.status == 500 and self.ends_by_500:
            raise Stop(f"status 500: the room is out of order; {self.next_step}")
        return reply

    def is_there(self, path: bytes) -> bool:
        """It needs no right but those to get there."""
        return self.ask("GET", "can", path).status == 200

    def may(self, path: bytes, letter: str) -> bool:
        """Whether whoever asks has this right there."""
        got = self.ask("GET", "can", path, query=f"?{letter}")
        return got.status == 200 and str(json.loads(got.body)[letter]).startswith("allowed")

    def report(self, name: bytes, why: str) -> None:
        """A line on standard error and in the log for what was not transferred."""
        self.left_out += 1
        say(f"{names.shown(name)}: {why}")
        if self.log:
            self._write_log(f"{time.strftime('%F %T')} {names.shown(name)}: {why}\n")

    def _write_log(self, line: str) -> None:
        try:
            with open(self.log, "a", encoding="utf-8", errors="surrogateescape") as log:
                log.write(report.plain(line))
        except OSError as fault:
            raise Refused(f"no log: {self.log} can't be written: {fault.strerror}") from fault


def is_here(word: str) -> bool:
    """Whether a room of this machine is meant, by its name or its settings, and not an address."""
    return "://" not in word and os.path.isfile(settings.file_of(word))


def client(word: str, caller: Caller, next_step: str, ends_by_500: bool) -> Client:
    """Of a room by its address; or, on its own machine, by its name or its settings."""
    if not is_here(word):
        _look_elsewhere(word)
        return Client(word or "office", caller, next_step, ends_by_500)
    if caller.user or caller.config:
        raise Refused(f"bad arguments: nobody asks for a password at the room {word or 'office'} "
                      "itself: --as says who asks, or take its address")
    room = settings.room(word)
    return Client(room.address, caller, next_step, ends_by_500, room.listens, room.door,
                  most_of(word))


def _look_elsewhere(word: str) -> None:
    """A room that this machine only shows is asked by the address of the site."""
    machine = "" if "/" in word else settings.value(there.place_of(settings.file_of(word)), "ON")
    if machine:
        front = settings.front(os.path.join(settings.HOME, "site"))
        scheme = "https" if front.certificate else "http"
        raise Refused(f"elsewhere: the room {word} is on {machine}; here by its address, --room "
                      f"{scheme}://{front.hosts[0]}/{word}; there: {report.typed}")


def most_of(word: str) -> int:
    """How many bytes a document may have, without a question to the room: of one elsewhere as many
    as of any. Without a door none is kept in parts."""
    if not is_here(word):
        return LARGEST
    room = settings.room(word)
    return room.largest << 20 if os.path.exists(room.door) else LARGEST


def _parts(address: str) -> urllib.parse.SplitResult:
    """Those of an address that may be one."""
    try:
        parts = urllib.parse.urlsplit(address)
        good = names.matches_address(address) and parts.port != 0 and bool(
            (parts.hostname or "").encode("idna"))
    except ValueError:
        good = False
    if not good:
        raise Refused("bad arguments: the room is an address such as https://rooms.example, "
                      f"or the name of one on this machine, not '{address}'")
    return parts


def _without_port(host: str) -> str:
    return host.partition("]")[0] + "]" if host.startswith("[") else host.partition(":")[0]


def _ask_password(user: str) -> str:
    if sys.stdin.isatty():
        return report.secret(f"Password of {user}: ")
    line = sys.stdin.readline()
    if not line:
        raise Refused("no password was given")
    return line.removesuffix("\n")


def raise_limits() -> None:
    """A folder that is open for each level of a path, of which a room has up to 2,048."""
    import resource
    _, hard = resource.getrlimit(resource.RLIMIT_NOFILE)
    resource.setrlimit(resource.RLIMIT_NOFILE, (min(hard, 8192), hard))
    sys.setrecursionlimit(20000)


def argument(text: str) -> bytes:
    return os.fsencode(text)


__all__ = ["Caller", "Client", "Reply", "argument", "caller_arguments", "caller_of", "client",
           "is_here", "most_of", "raise_limits"]
