"""lying.py FOLDER APACHE ADDRESS KIND ..: a directory at that address, which lies in each of these
ways, while passwords are checked by FOLDER's nginx and the Apache at that port."""
import base64
import socket
import sys
import time
from concurrent.futures import ThreadPoolExecutor
from urllib.parse import urlsplit

from lying_directory import Liar

FOLDER, APACHE, ADDRESS, *KINDS = sys.argv[1:]
# What nginx waits for, and what a busy machine takes besides.
BOUND, BUSY = 17.0, 20.0
MANY = 150
SAYS_YES = "search 0"


def check(name: str, holds: object, said: object = "") -> None:
    if not holds:
        sys.exit(f"not ok {name}: {said}")
    print(f"ok {name}", flush=True)


def asked(room: str, user: str, password: str, number: int) -> tuple[int, float]:
    """nginx's check of a password, as of a caller with an address of its own: the status, and
    seconds."""
    began = time.monotonic()
    word = base64.b64encode(f"{user}:{password}".encode()).decode()
    with socket.socket(socket.AF_UNIX) as link:
        link.settimeout(120)
        link.connect(f"{FOLDER}/checks/passwords.sock")
        link.sendall(f"GET /password/{room} HTTP/1.0\r\nHost: x\r\nAuthorization: Basic {word}\r\n"
                     f"X-Real-IP: 198.51.{number // 250}.{number % 250}\r\n\r\n".encode())
        reply = b""
        while part := link.recv(1 << 16):
            reply += part
    return int(reply.split(b" ")[1]), time.monotonic() - began


def of_file(number: int) -> None:
    status, seconds = asked("rooms-invoices", "eve", "eve-word", number)
    check("a password in a file counts", status == 204, status)
    check("at once", seconds < BUSY / 2, seconds)


def many(kind: str, liar: Liar) -> None:
    """More than once, in the place of each other."""
    with ThreadPoolExecutor(MANY) as pool:
        tries = [pool.submit(asked, "rooms", f"user{number}", "user-word", number)
                 for number in range(MANY)]
        time.sleep(1)
        of_file(20_000)
        found = [one.result() for one in tries]
    check(f"{kind}: {MANY} at once have an answer", {one for one, _ in found} <= {
        401, 429, 500, 502, 503, 504}, sorted({one for one, _ in found}))
    slowest = max(seconds for _, seconds in found)
    check(f"{kind}: the last one in time: {slowest:.1f} s", slowest < BOUND + BUSY)
    liar.kind, ends = SAYS_YES, time.monotonic() + BUSY
    while asked("rooms", "alice", "alice-word", 20_001)[0] != 200 and time.monotonic() < ends:
        time.sleep(0.5)
    check(f"{kind}: none of them holds Apache", time.monotonic() < ends)


def main() -> None:
    where = urlsplit(ADDRESS)
    pair = (f"{FOLDER}/directory.pem", f"{FOLDER}/directory.key") if where.scheme == "ldaps" else ()
    liar = Liar("silent", *pair, host=where.hostname or "", port=where.port or 0)
    for number, kind in enumerate(KINDS):
        liar.kind, liar.heard = kind, b""
        status, seconds = asked("rooms", "alice", f"alice-word-{number}", number)
        # (504 is nginx's, while Apache still waits: for the rest of a part of TLS without end)
        wanted = {200} if kind == SAYS_YES else {401, 500}
        if pair and kind == "cut":
            wanted.add(504)
        check(f"{kind}: it has an answer: {status}, {seconds:.1f} s", status in wanted, status)
        check(f"{kind}: in time", seconds < BOUND + BUSY / 2, seconds)
        of_file(10_000 + number)
        if kind in ("starttls 1", "starttls 2", "starttls 52", "starttls 53", "stripped"):
            check(f"{kind}: TLS was asked for", b"1.3.6.1.4.1.1466.20037" in liar.heard)
            check(f"{kind}: no name or password was said", b"reader" not in liar.heard
                  and b"-word" not in liar.heard, liar.heard)
    for kind in "silent", "slow":
        if kind in KINDS and SAYS_YES in KINDS:
            liar.kind = kind
            many(kind, liar)


main()
