"""A directory that answers as it is told, whatever it is asked: Liar(KIND) listens on 127.0.0.1, by
TLS where it gets a certificate and its key. KIND names what it does: a function below, or 'bind N',
'search N' or 'starttls N', which answer with that result's code; 'silent' answers nothing, 'slow'
byte by byte, and 'stripped' agrees to TLS and goes on without."""
import os
import socket
import ssl
import threading
import time
from collections.abc import Callable

_BIND, _SEARCH, _EXTENDED = 0x60, 0x63, 0x77
_PEOPLE = b"ou=people,dc=example,dc=net"


def ber(tag: int, *parts: bytes) -> bytes:
    body = b"".join(parts)
    size = len(body)
    if size < 128:
        return bytes([tag, size]) + body
    said = size.to_bytes((size.bit_length() + 7) // 8, "big")
    return bytes([tag, 0x80 | len(said)]) + said + body


def number(value: int, tag: int = 2) -> bytes:
    return ber(tag, value.to_bytes(value.bit_length() // 8 + 1, "big"))


def result(tag: int, code: int = 0, said: bytes = b"") -> bytes:
    return ber(tag, number(code, 0x0a), ber(4), ber(4, said))


def entry(name: bytes, *values: bytes) -> bytes:
    return ber(0x64, ber(4, b"uid=" + name + b"," + _PEOPLE),
               ber(0x30, ber(0x30, ber(4, b"uid"), ber(0x31, *(ber(4, one) for one in values)))))


def message(at: int, said: bytes) -> bytes:
    return ber(0x30, number(at), said)


def endless(link: socket.socket, at: int) -> None:
    one = message(at, entry(b"alice", b"alice")) * 2000
    while True:
        link.sendall(one)


def large(link: socket.socket, at: int) -> None:
    """One message of a gigabyte, whose length comes first."""
    link.sendall(b"\x30\x84\x40\x00\x00\x00" + number(at) + b"\x64\x84\x3f\xff\xff\xf0")
    while True:
        link.sendall(bytes(1 << 20))


def dripping(link: socket.socket, at: int) -> None:
    for one in message(at, entry(b"alice", b"alice")) + message(at, result(0x65)):
        link.sendall(bytes([one]))
        time.sleep(0.5)


def cut(link: socket.socket, at: int) -> None:
    """With TLS a part of a record, which the library waits for in one call."""
    os.write(link.fileno(), b"\x17\x03\x03\x40\x00" + bytes(100) if isinstance(
        link, ssl.SSLSocket) else message(at, entry(b"alice", b"alice"))[:20])
    time.sleep(3600)


def strange(link: socket.socket, at: int) -> None:
    link.sendall(b"\x30\x84\xff\xff\xff\xff" + bytes(100))
    time.sleep(3600)


def names(link: socket.socket, at: int) -> None:
    """Made to be misread, and alice."""
    said = [b"EVERYONE@", b"OWNER@", b"alice\n", b"alice ", b"ali\0ce", b"alice,staff", b"*", b"?",
            "alice\u200b".encode(), "\u0430lice".encode(), b"", b"\xff", b"a" * 65, b"a" * 100000,
            b"\x1b[31mred", b"alice"]
    link.sendall(b"".join(message(at, entry(b"%d" % turn, one)) for turn, one in enumerate(said))
                 + message(at, result(0x65)))
    time.sleep(3600)


def referring(link: socket.socket, at: int) -> None:
    link.sendall(message(at, ber(0x73, ber(4, b"ldap://127.0.0.1:9/dc=x")))
                 + message(at, result(0x65)))
    time.sleep(3600)


def _group(number: int, *members: bytes) -> bytes:
    return ber(0x64, ber(4, b"cn=g%d,ou=groups,dc=example,dc=net" % number), ber(0x30, ber(
        0x30, ber(4, b"member"), ber(0x31, *(ber(4, one) for one in members)))))


def groups(link: socket.socket, at: int, count: int) -> None:
    """So many, and alice is in each."""
    link.sendall(b"".join(message(at, _group(one, b"uid=alice," + _PEOPLE))
                          for one in range(count)) + message(at, result(0x65)))


def full(link: socket.socket, at: int, count: int) -> None:
    """So many, with a hundred others in each."""
    others = [b"uid=somebody%d," % one + _PEOPLE for one in range(100)]
    for one in range(count):
        link.sendall(message(at, _group(one, *others)))
    link.sendall(message(at, result(0x65)))


def chain(link: socket.socket, at: int, count: int) -> None:
    """Each has the next one for its member, and alice is in the last."""
    link.sendall(b"".join(message(at, _group(one, b"cn=g%d,ou=groups,dc=example,dc=net" % (
        one + 1))) for one in range(count)) + message(at, _group(
            count, b"uid=alice," + _PEOPLE)) + message(at, result(0x65)))


def long(link: socket.socket, at: int, count: int) -> None:
    """A member whose name has so many parts, and alice."""
    link.sendall(message(at, _group(0, b"cn=a," * count + b"dc=net", b"uid=alice," + _PEOPLE))
                 + message(at, result(0x65)))


_MANY: dict[str, Callable[[socket.socket, int, int], None]] = {
    one.__name__: one for one in (groups, full, chain, long)}
_KINDS: dict[str, Callable[[socket.socket, int], None]] = {
    one.__name__: one for one in (endless, large, dripping, cut, strange, names, referring)}


class Liar:
    def __init__(self, kind: str, certificate: str = "", key: str = "", host: str = "127.0.0.1",
                 port: int = 0) -> None:
        self.kind = kind
        # All that was ever said to it, without TLS.
        self.heard = b""
        self._context = None
        if certificate:
            self._context = ssl.SSLContext(ssl.PROTOCOL_TLS_SERVER)
            self._context.load_cert_chain(certificate, key)
        threading.stack_size(1 << 18)
        self._at = socket.create_server((host, port), backlog=1000)
        host, port = self._at.getsockname()
        self.address = f"ldap{'s' if certificate else ''}://{host}:{port}"
        threading.Thread(target=self._accept, daemon=True).start()

    def _accept(self) -> None:
        while True:
            link, _ = self._at.accept()
            threading.Thread(target=self._answer, args=(link,), daemon=True).start()

    def _answer(self, link: socket.socket) -> None:
        try:
            if self._context:
                if self.kind == "silent":
                    time.sleep(3600)
                link = self._context.wrap_socket(link, server_side=True)
            while asked := link.recv(1 << 16):
                self.heard += asked
                # Each request comes at once.
                if self.kind != "silent" and asked[:1] == b"\x30":
                    head = 4 + (asked[1] & 0x7f if asked[1] & 0x80 else 0)
                    ends = head + asked[head - 1]
                    self._reply(link, int.from_bytes(asked[head:ends], "big"), asked[ends:])
        except (OSError, IndexError):
            pass

    def _reply(self, link: socket.socket, at: int, asked: bytes) -> None:
        (word, _, code), tag = self.kind.partition(" "), asked[0]
        if tag == _BIND:
            self._say(link, message(at, result(0x61) if word != "bind" else result(
                0x61, int(code), b"\x1b[2J\nall is well" * 99)))
        elif tag == _EXTENDED:
            self._say(link, message(at, result(0x78, int(code) if word == "starttls" else 0)))
        elif tag == _SEARCH and word in _MANY and b"groupOfNames" in asked:
            _MANY[word](link, at, int(code))
        elif tag == _SEARCH and word in _KINDS:
            _KINDS[word](link, at)
        elif tag == _SEARCH:
            self._say(link, message(at, entry(b"alice", b"alice")) + message(
                at, result(0x65, int(code) if word == "search" else 0)))

    def _say(self, link: socket.socket, data: bytes) -> None:
        for one in [data] if self.kind != "slow" else [data[at:at + 1] for at in range(len(data))]:
            link.sendall(one)
            time.sleep(0.5 if self.kind == "slow" else 0)
