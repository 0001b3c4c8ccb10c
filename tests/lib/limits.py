"""For tests: somebody who has nginx do as much as they can.

    limits.py log PORT SECONDS [TYPED]      requests of 45 kB, without a password, or with one that
                                            is typed; prints how many bytes were sent
    limits.py names PORT SECONDS            the same by HTTP/2, where a field that was sent once is
                                            named by one byte; prints how many requests there were
    limits.py handshakes PORT NUMBER        so many beginnings of TLS, each with a record behind it
                                            of a kind that there isn't
    limits.py streams PORT NUMBER COOKIES   so many connections by HTTP/2 with 100 requests each,
                                            with so many cookies of 4 kB, the beginning of a body
                                            and no right password, whose answers nobody takes, until
                                            standard input ends; prints a line when nginx has them
    limits.py crowd PORT WHO NUMBER PROCESS ..
                                            so many requests with typed passwords, that these of
                                            nginx's see all at once, and five of WHO from other
                                            addresses behind them; prints what these are answered
    limits.py pace PORT WHO TARGET NUMBER   by eight connections as fast as they are answered;
                                            prints with which statuses so many were, and how many
                                            more in the next five seconds
    limits.py networks PORT TARGET NUMBER TO ADDRESS ..
                                            so many requests without a password from each of these
                                            addresses; prints how many were answered and refused,
                                            and within how many seconds
    limits.py goes PORT WHO TARGET NUMBER   so many requests, whose senders are gone at once
    limits.py holds PORT WHO TARGET NUMBER  as many that nobody reads, until standard input ends;
                                            prints how many were answered with each status
"""
import base64
import contextlib
import functools
import os
import re
import resource
import selectors
import signal
import socket
import ssl
import struct
import sys
import threading
import time
from collections import Counter

import http2


def request(target, who="", more=b""):
    sent = b"GET %b HTTP/1.1\r\nHost: rooms.example\r\n" % target.encode() + more
    if who:
        sent += b"Authorization: Basic %b\r\n" % base64.b64encode(who.encode())
    return sent + b"\r\n"


def connected(port, kept=0, address=""):
    one = socket.socket()
    if kept:
        one.setsockopt(socket.SOL_SOCKET, socket.SO_RCVBUF, kept)
    if address:
        one.bind((address, 0))
    one.settimeout(10)
    one.connect(("127.0.0.1", int(port)))
    return one


def drain(one):
    with contextlib.suppress(OSError):
        while one.recv(1 << 16):
            pass


def log(port, seconds, typed=""):
    fields = b"Referer: http://x/%b\r\nUser-Agent: %b\r\n" % (b"b" * 15000, b"c" * 15000)
    line = request("/" + "a" * 15000, typed, fields)
    ends, sent = time.monotonic() + float(seconds), [0] * 4

    def go(number):
        while time.monotonic() < ends:
            with contextlib.suppress(OSError), connected(port) as one:
                threading.Thread(target=drain, args=(one,), daemon=True).start()
                for _ in range(500):
                    if time.monotonic() > ends:
                        break
                    one.sendall(line)
                    sent[number] += len(line)
                one.shutdown(socket.SHUT_WR)

    threads = [threading.Thread(target=go, args=(n,), daemon=True) for n in range(4)]
    for one in threads:
        one.start()
    for one in threads:
        one.join(float(seconds) + 20)
    print(sum(sent))


def names(port, seconds):
    """http2.py sends fields in full, and one request at a time."""
    context = ssl.create_default_context()
    context.check_hostname = False
    context.verify_mode = ssl.CERT_NONE
    context.set_alpn_protocols(["h2"])
    host, agent = b"rooms.example", b"x" * 3900
    # GET, https, /, and two fields that go into the table; then each of them by its number there.
    first = b"\x82\x87\x84\x41" + number(len(host)) + host + b"\x7a" + number(len(agent)) + agent
    later = b"\x82\x87\x84\xbf\xbe"
    ends, asked = time.monotonic() + float(seconds), 0
    while time.monotonic() < ends:
        with contextlib.suppress(OSError), connected(port) as plain, \
                context.wrap_socket(plain, server_hostname="rooms.example") as one:
            one.sendall(http2.PREFACE)
            for turn in range(450):
                if time.monotonic() > ends:
                    break
                one.settimeout(10)
                one.sendall(http2.frame(http2.HEADERS, http2.END | http2.WHOLE, 2 * turn + 1,
                                        later if turn else first))
                asked += 1
                # By this thread: a connection by TLS isn't for two at once.
                one.setblocking(False)
                drain(one)
                one.settimeout(10)
            time.sleep(0.2)
    print(asked)


def streams(port, count, cookies):
    context = ssl.create_default_context()
    context.check_hostname = False
    context.verify_mode = ssl.CERT_NONE
    context.set_alpn_protocols(["h2"])
    host, typed, field = b"rooms.example", b"Basic eA==", b"v" * 4000
    # No byte of an answer may be sent but its head.
    sent = http2.PREFACE[:24] + http2.frame(http2.SETTINGS, 0, 0, struct.pack(
        ">HI", http2.INITIAL_WINDOW, 0))
    head = (b"\x83\x87\x84\x01" + number(len(host)) + host
            + b"\x0f\x08" + number(len(typed)) + typed)
    for turn in range(100):
        fields = b"" if turn else b"\x60" + number(len(field)) + field
        fields += b"\xbe" * (int(cookies) - (turn == 0))
        sent += http2.frame(http2.HEADERS, http2.WHOLE, 2 * turn + 1, head + fields)
        if turn < 8:
            sent += http2.frame(http2.DATA, 0, 2 * turn + 1, bytes(16000)) * 4
    held = []
    for _ in range(int(count)):
        held.append(context.wrap_socket(connected(port), server_hostname="rooms.example"))
        held[-1].sendall(sent)
    for one in held:
        one.settimeout(1)
        with contextlib.suppress(OSError):
            while one.recv(1 << 16):
                pass
    print("held", flush=True)
    sys.stdin.read()


def handshakes(port, count):
    sent = ssl.MemoryBIO()
    asking = ssl.create_default_context().wrap_bio(ssl.MemoryBIO(), sent,
                                                   server_hostname="rooms.example")
    with contextlib.suppress(ssl.SSLWantReadError):
        asking.do_handshake()
    made_up = sent.read() + b"\xff\x03\x03\x00\x01\x00"
    for _ in range(int(count)):
        with connected(port) as one:
            one.sendall(made_up)
            drain(one)


def crowd(port, who, count, *processes):
    resource.setrlimit(resource.RLIMIT_NOFILE, (8192, 8192))
    crowd_of = [connected(port) for _ in range(int(count))]
    others = [connected(port, address=f"127.0.0.{number}") for number in range(2, 7)]
    # (all of them are accepted)
    time.sleep(1)
    for process in processes:
        os.kill(int(process), signal.SIGSTOP)
    try:
        for typed, one in enumerate(crowd_of):
            one.sendall(request("/", f"x:{typed}"))
        for one in others:
            one.sendall(request("/", who))
    finally:
        for process in processes:
            os.kill(int(process), signal.SIGCONT)
    print(*sorted(one.recv(12)[9:].decode() for one in others))


def number(size):
    """The length of a text, as HPACK has it."""
    return http2.text_of("x" * size)[:-size]


def goes(port, who, target, number):
    for _ in range(int(number)):
        with contextlib.suppress(OSError), connected(port) as one:
            one.sendall(request(target, who))


def answered_by(port, who, target, met, ends):
    """One request after the other, until the event."""
    with connected(port) as one, one.makefile("rb") as lines:
        while not ends.is_set():
            one.sendall(request(target, who))
            status, length = lines.readline(), 0
            while (field := lines.readline()) not in (b"\r\n", b""):
                if field.lower().startswith(b"content-length:"):
                    length = int(field[15:])
            lines.read(length)
            met.append(status[9:12].decode())


def pace(port, who, target, number):
    met, ends = [], threading.Event()
    for _ in range(8):
        threading.Thread(target=answered_by, args=(port, who, target, met, ends),
                         daemon=True).start()
    while len(met) < int(number):
        time.sleep(0.01)
    first = len(met)
    time.sleep(5)
    more = len(met) - first
    ends.set()
    statuses = " ".join(f"{status}: {count}" for status, count in sorted(Counter(met).items()))
    print(f"{statuses}, and then {more}")


def networks(port, target, count, there, *addresses):
    met, began = Counter(), time.monotonic()
    for address in addresses:
        with socket.create_connection((there, int(port)), 60, (address, 0)) as one:
            one.sendall(request(target) * (int(count) - 1)
                        + request(target, more=b"Connection: close\r\n"))
            told = b"".join(iter(functools.partial(one.recv, 1 << 16), b""))
        met.update(re.findall(rb"HTTP/1\.1 (\d+) ", told))
    refused = met.pop(b"429", 0)
    print(f"{met.total()} answered, {refused} refused, {time.monotonic() - began:.0f} s")


def holds(port, who, target, number):
    held, met = selectors.DefaultSelector(), Counter()
    for _ in range(int(number)):
        one = connected(port, 4096)
        one.sendall(request(target, who))
        held.register(one, selectors.EVENT_READ)
    kept = [key.fileobj for key in held.get_map().values()]
    # Until nobody else is answered for some seconds.
    ends = time.monotonic() + 60
    while kept and time.monotonic() < ends:
        answered = held.select(8)
        if not answered and met:
            break
        for key, _ in answered:
            held.unregister(key.fileobj)
            met[key.fileobj.recv(12)[9:].decode()] += 1
    print(*(f"{status}: {count}" for status, count in sorted(met.items())), flush=True)
    sys.stdin.read()


{"log": log, "names": names, "streams": streams, "handshakes": handshakes,
 "goes": goes, "holds": holds, "crowd": crowd, "pace": pace,
 "networks": networks}[sys.argv[1]](*sys.argv[2:])
