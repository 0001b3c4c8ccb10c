"""Requests by HTTP/2 whose bodies nobody says the length of, none of which ends:

    unsized.py PORT WHO METHOD TARGET NUMBER BYTES

Prints with which statuses some were answered, and waits until standard input ends."""
import base64
import socket
import ssl
import struct
import sys
import threading
import time
from collections import Counter

import http2

port, who, method, target, number, size = sys.argv[1:]
SECONDS = 10


class Sender:
    def __init__(self, context):
        plain = socket.create_connection(("127.0.0.1", int(port)))
        self.line = context.wrap_socket(plain, server_hostname="rooms.example")
        self.line.settimeout(0.2)
        self.window, self.status = 65_535, 0
        self.got = bytearray()

    def sends(self):
        key = base64.b64encode(who.encode()).decode()
        head = http2.head_of((":method", method), (":scheme", "https"), (":path", target),
                             (":authority", "rooms.example"), ("authorization", f"Basic {key}"),
                             ("if-match", "*"))
        self.line.sendall(http2.PREFACE + http2.frame(http2.HEADERS, http2.WHOLE, 1, head))
        sent, until = 0, time.monotonic() + SECONDS
        while sent < int(size) and not self.status and time.monotonic() < until:
            part = min(http2.FRAME, int(size) - sent, self.window)
            if part > 0:
                self.line.sendall(http2.frame(http2.DATA, 0, 1, bytes(part)))
                sent += part
                self.window -= part
            if self.window < http2.FRAME:
                self.reads()
        while not self.status and time.monotonic() < until:
            self.reads()

    def reads(self):
        try:
            self.got += self.line.recv(65_536)
        except OSError:
            return
        while len(self.got) >= 9:
            high, low, kind, flags, stream = struct.unpack_from(">HBBBI", self.got)
            end = 9 + (high << 8) + low
            if len(self.got) < end:
                return
            self.take(kind, flags, stream, bytes(self.got[9:end]))
            del self.got[:end]

    def take(self, kind, flags, stream, told):
        if kind == http2.UPDATE and stream == 1:
            self.window += struct.unpack(">I", told)[0]
        elif kind == http2.HEADERS and not self.status:
            self.status = http2.status_of(told)
        elif kind == http2.SETTINGS and not flags & http2.ACK:
            for at in range(0, len(told), 6):
                name, value = struct.unpack_from(">HI", told, at)
                if name == http2.INITIAL_WINDOW:
                    self.window += value - 65_535


def main():
    context = ssl.create_default_context()
    context.check_hostname = False
    context.verify_mode = ssl.CERT_NONE
    context.set_alpn_protocols(["h2"])
    senders = [Sender(context) for _ in range(int(number))]
    threads = [threading.Thread(target=one.sends, daemon=True) for one in senders]
    for one in threads:
        one.start()
    for one in threads:
        one.join()
    met = Counter(one.status for one in senders if one.status)
    print(*(f"{status}: {count}" for status, count in sorted(met.items())), flush=True)
    sys.stdin.read()


main()
