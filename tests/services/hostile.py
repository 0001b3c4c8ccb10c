#!/usr/bin/env python3
"""Malformed requests of alice's, through nginx and straight at the door. What only root may read
never comes, nothing is done in another name, and each is answered.

  hostile.py FRONT-PORT USER:PASSWORD ROOM-SOCKET DOOR-SOCKET [through|straight]"""
import base64
import socket
import sys
from collections.abc import Iterator
from concurrent.futures import ThreadPoolExecutor

from lab import ALL, PATIENCE, ask, connected

CANARY = b"CANARY-7f3a"
SECRET = "/secret/canary"
ME = "Room-User: root"
FIELDS = (
    ME, "room-user: root", "Room_User: root", "ROOM_USER: root", "Room-User : root", f" {ME}",
    "Room-User:\troot", f"{ME}\r\nRoom-User: alice", f"X: y\r\n {ME}", f"X: y\x0b{ME}",
    f"X: y\x0c{ME}", f"X: y\x85{ME}", f"X: y\x1c{ME}", f"X: y\x1d{ME}", f"X: y\x1e{ME}",
    f"X: y\r{ME}", f"X: y\n{ME}", f"X: \xe2\x80\xa8{ME}", f"X\x00{ME}", f"X: \x00{ME}",
    "Room-User;: root", "Room\x00-User: root", "HTTP_ROOM_USER: root",
    "Authorization: Basic cm9vdDpy", "X-Forwarded-User: root", "Remote-User: root",
    f"From root@x\r\n{ME}", f":{ME}", f"Foo\r\n{ME}", "Room-Above: /x", "Room-Above: /../secret",
    "Room-Too-Large: 1", "Connection: Room-User", "Connection: close, Room-User", "TE: trailers",
    "Trailer: Room-User", "Expect: Room-User", "Upgrade: h2c", "Room-User: =?utf-8?q?root?=")
TARGETS = (
    "doc%2Fsecret/canary", "doc/secret%2Fcanary", "doc/open/..%2Fsecret/canary",
    "doc/open/%2e%2e/secret/canary", "doc/open/../secret/canary", "doc/open/..;/secret/canary",
    "doc/./secret/canary", "doc//secret//canary", "doc/secret/canary/", "doc/secret/canary%00",
    "doc/secret/canary%00.txt", "doc/secret/canary%0d%0aRoom-User:%20root",
    "doc/secret/canary%20HTTP/1.1%0d%0aRoom-User:%20root%0d%0a%0d%0a", "doc/%c0%afsecret/canary",
    "doc/%c0%ae%c0%ae/secret", "doc/%ff", "doc/%u0073ecret/canary", "doc/%2573ecret/canary",
    "doc/\\secret\\canary", "doc/secret/canary?x", "doc/secret/canary#x", "doc/secret/canary;x",
    "../doc/secret/canary", "../drive/secret/canary", "", "doc", "doc/", "zip", "zip/", "below",
    "nothing/x", "below/?secret/canary", "below/?..", "below/?%2F", "find/", "find/?", "find/?%00",
    "find/?%ff", f"find/?{'x' * 256}", f"find/?{'%C3%A9' * 128}", "closed/secret", "zip/secret",
    f"doc/{'a' * 256}", f"doc/{'a/' * 2100}", f"doc/{'%61' * 5000}", f"doc/{'x' * 15000}",
    f"doc/secret/canary HTTP/1.0\r\n{ME}\r\nX:", "doc/\xe9", "doc/\x7f")
OTHERS = ("//door/doc/secret/canary", "/./door/doc/secret/canary", "/x/../door/doc/secret/canary",
          "/drive/../door/doc/secret/canary", "/drive/%2e%2e/door/zip/secret",
          "/drive/a%2f..%2f..%2fdoor/zip/secret", "/DOOR/doc/secret/canary", "/drive?x", "/drivex",
          "/drive//", "/drive/%2F", "/drive/..", "/drive/%2e", "/drive/secret/canary", "*",
          "door/doc/x", "http://evil/door/doc/secret/canary", "/\x00door")
METHODS = ("PUT", "DELETE", "MOVE", "COPY", "LOCK", "PROPFIND", "MKCOL", "POST", "PATCH", "TRACE",
           "CONNECT", "OPTIONS", "HEAD", "BREW", "get", "one", "__init__", "G\x00T", "A" * 300,
           "PROPPATCH", "UNLOCK", "REPORT", "SEARCH", "ACL", "BIND")
LENGTHS = (
    "Content-Length: 5\r\nContent-Length: 5", "Content-Length: 5\r\nContent-Length: 6",
    "Content-Length: 5, 5", "Content-Length: +5", "Content-Length: -5", "Content-Length: 0x5",
    "Content-Length: 5_0", "Content-Length: 5 ", "Content-Length: \xb2", "Content-Length:",
    "Content-Length: 99999999999999999999", "Content-Length: 1048577",
    "Content-Length: 5\r\nTransfer-Encoding: chunked", "Transfer-Encoding: chunked",
    "Transfer-Encoding: chunked\r\nContent-Length: 5", "Transfer-Encoding: xchunked",
    "Transfer-Encoding: chunked, identity", "Transfer-Encoding : chunked",
    "Transfer-Encoding:\x0bchunked", "Transfer_Encoding: chunked", "Content-Range: bytes 0-1/5")
SMUGGLED = f"0\r\n\r\nGET /door/doc{SECRET} HTTP/1.1\r\n{ME}\r\nHost: x\r\n\r\n"
PLACES = ("", "/", "x", "/drive/", "/drive/../secret/x", "/drive/%2e%2e/x", "/drive/open%2Fx",
          "http://evil/drive/x", "http://[/drive/x", "//evil/drive/x", "/door/doc/x",
          "/drive/open/x?y", "/drive/open/x#y", "/drive/secret/x", "/drive/open/a\tb",
          f"/drive/{'a' * 5000}", "\x00", "/drive/open/%00", "/drive/open/%0d%0aX", "/DRIVE/x")
CONDITIONS = (
    "If: (", "If: ()", "If: <x> (<y>)", f"If: (<{'a' * 8000}>)", f"If: {'(<a>)' * 2000}",
    "If: (Not Not <a>)", 'If: (["a)', "If: (<DAV:no-lock>)", "If: (Not <DAV:no-lock>)",
    "If: <http://evil/drive/x> (Not <DAV:no-lock>)", f'If: </drive{SECRET}> (["x"])',
    "If: " + "".join(f'</drive/open/{number}> (["x"]) ' for number in range(400)),
    "If-Match: " + ",".join(f'"{number}"' for number in range(2000)), 'If-Match: "',
    "If-Match: *,*", "If-Match: W/*", "If-None-Match: x\r\nIf-None-Match: y", "Depth: 2",
    "Depth: -1", "Depth: infinity", "Depth: 1\r\nDepth: 0", f"Timeout: Second-{'9' * 4000}",
    "Timeout: Second-\xb2", f"Range: bytes={'0-,' * 2000}", "Range: bytes=5-1", "Range: bytes=-0",
    "Lock-Token: <", "Lock-Token: <>", "Overwrite: maybe", "Origin: null", "Origin: http://[",
    "Origin: http://evil", "Sec-Fetch-Site: cross-site", "Host: evil")
ENTITIES = ('<!DOCTYPE a [<!ENTITY x "y">]>', '<!DOCTYPE a SYSTEM "file:///etc/passwd">',
            '<!DOCTYPE a [<!ENTITY % p SYSTEM "http://127.0.0.1/">%p;]>')
XML = (*(f'{one}<propfind xmlns="DAV:"><prop><x>&x;</x></prop></propfind>' for one in ENTITIES),
       "<" * 60_000, "<a>" * 10_000, '<propfind xmlns="DAV:"/>x', "\x00", "<propfind/>",
       f'<propfind xmlns="DAV:">{"<a>" * 40}{"</a>" * 40}</propfind>',
       *(f'<?xml version="1.0" encoding="{one}"?><propfind xmlns="DAV:"/>'
         for one in ("utf-7", "utf-16", "cp037", "zip", "rot13")),
       '<propfind xmlns="DAV:" ' + " ".join(f'a{one}="x"' for one in range(5000)) + "/>",
       f'<propfind xmlns="DAV:"><prop><![CDATA[{"]" * 50_000}]]></prop></propfind>',
       f'<propfind xmlns="DAV:" xmlns:z="u:{"n" * 30_000}"><prop>{"<z:a/>" * 4000}'
       "</prop></propfind>",
       f"<!--{'-' * 50_000}", '<propfind xmlns="DAV:"><prop><xml:x/></prop></propfind>',
       "x" * 65_537)


def request(method: str, address: str, *fields: str, body: str = "") -> bytes:
    lines = [f"{method} {address} HTTP/1.1", "Host: HOST", "WHO", *fields, "Connection: close"]
    return ("\r\n".join(lines) + "\r\n\r\n").encode("latin-1", "replace") + body.encode()


def all_of() -> Iterator[bytes]:
    for field in FIELDS:
        for address in (f"/door/doc{SECRET}", f"/drive{SECRET}", "/door/find/secret?canary"):
            yield request("GET", address, field)
    for address in (*(f"/door/{one}" for one in TARGETS), *OTHERS):
        yield request("GET", address)
    for method in METHODS:
        for address in (f"/door/doc{SECRET}", f"/drive{SECRET}", "/drive/secret", "/drive/"):
            yield request(method, address, "Content-Length: 0", "Destination: /drive/open/c",
                          "If-Match: *")
    for length in LENGTHS:
        for method, address, body in (("PUT", "/door/doc/open/a", "hello"),
                                      ("PUT", "/drive/open/a", "hello"),
                                      ("GET", "/door/doc/open/a", "hello"),
                                      ("PUT", "/drive/open/a", SMUGGLED)):
            yield request(method, address, length, "If-Match: *", body=body)
    for place in PLACES:
        for method in ("COPY", "MOVE"):
            yield request(method, "/drive/open/b", f"Destination: {place}", "Content-Length: 0",
                          "Overwrite: F")
    for field in CONDITIONS:
        for method, address in (("GET", "/drive/open/a"), ("PUT", "/drive/open/a"),
                                ("PROPFIND", "/drive/open"), ("UNLOCK", "/drive/open/b"),
                                ("DELETE", "/drive/open/z"), ("PUT", "/door/doc/open/a")):
            yield request(method, address, field,
                          *(() if method == "GET" else ("Content-Length: 0",)))
    for text in XML:
        for method, root in (("PROPFIND", "propfind"), ("PROPPATCH", "propertyupdate"),
                             ("LOCK", "lockinfo")):
            body = text.replace("propfind", root)
            yield request(method, "/drive/open", "Depth: 0",
                          f"Content-Length: {len(body.encode())}", body=body)


def sent(at: socket.socket, message: bytes, is_ended: bool) -> bytes:
    """What isn't whole nginx waits for, for a while: so its end is said, or nobody waits here."""
    got = b""
    with at:
        at.settimeout(PATIENCE if is_ended or not _is_cut(message) else 1)
        try:
            at.sendall(message)
            if is_ended:
                at.shutdown(socket.SHUT_WR)
            while part := at.recv(65_536):
                got += part
        except (ConnectionError, TimeoutError):
            pass
    return got


def _is_cut(message: bytes) -> bool:
    return any(word in message for word in (b"-Length", b"-Encoding", b"_Encoding", b"Expect"))


class Attack:
    def __init__(self, port: int, login: str, room: str, door: str) -> None:
        self.port, self.room, self.door = port, room, door
        self.login = base64.b64encode(login.encode())
        self.user = login.partition(":")[0]

    def prepare(self) -> None:
        for method, address, body in (
                ("POST", "/folder/secret", b""), ("POST", "/folder/open", b""),
                ("PUT", "/dacl/secret", f"list:ap\nA:fd:root:{ALL}\n".encode()),
                ("PUT", f"/doc{SECRET}", CANARY), ("PUT", "/doc/open/a", b"hello"),
                ("PUT", "/doc/open/b", b"hello")):
            assert ask(self.room, "root", method, address, body)[0] in (201, 204), address

    def through(self, message: bytes) -> bytes:
        message = message.replace(b"HOST", b"127.0.0.1:%d" % self.port).replace(
            b"WHO", b"Authorization: Basic " + self.login)
        return sent(socket.create_connection(("127.0.0.1", self.port)), message, False)

    def straight(self, message: bytes) -> bytes:
        message = message.replace(b"HOST", b"h").replace(
            b"WHO", b"Room-User: " + self.user.encode())
        return sent(connected(self.door), message, True)

    def wrong(self, is_through: bool) -> list[str]:
        """Where the door's own field says that it is root's, it is: nginx takes that away."""
        messages = [one for one in all_of() if is_through or b"oom" not in one]
        found = []
        with ThreadPoolExecutor(12) as pool:
            answers = pool.map(self.through if is_through else self.straight, messages)
            for message, got in zip(messages, answers):
                status = got[9:12].decode("latin-1") if got.startswith(b"HTTP/1.") else "none"
                if CANARY in got or status in ("500", "504") or (
                        status in ("502", "none") and not _may_end(message, status)):
                    found.append(f"{message[:150]!r}: {got[:150]!r}")
        print(f"{len(messages)} requests, {len(found)} wrong")
        return found


def _may_end(message: bytes, status: str) -> bool:
    """The destination of another server is 502; a body that isn't whole has no answer."""
    return b"Destination: " in message if status == "502" else _is_cut(message)


def main() -> int:
    attack = Attack(int(sys.argv[1]), *sys.argv[2:5])
    attack.prepare()
    lists = [ask(attack.room, "root", "GET", f"/{route}{SECRET}")[2] for route in ("doc", "dacl")]
    found = []
    for word in sys.argv[5:] or ["through", "straight"]:
        found += attack.wrong(word == "through")
    if [ask(attack.room, "root", "GET", f"/{route}{SECRET}")[2]
            for route in ("doc", "dacl")] != lists:
        found.append("what is root's was changed")
    if ask(attack.door, attack.user, "GET", "/door/doc/open/b")[0] not in (200, 404):
        found.append("the door doesn't answer any more")
    for one in found[:20]:
        print("wrong:", one)
    return 1 if found else 0


if __name__ == "__main__":
    sys.exit(main())
