"""Reads and puts single lines of nginx's files of passwords, as root, for the service that changes
own ones. That one reads what users send, and may be taken over: it gets no further than to one line
of this form, and what nginx reads never takes longer to check than what rooms-admin writes.

    line ROOM USER              none, or no-line, or KIND DIGEST HASH
    put ROOM USER DIGEST HASH   none, done, changed or busy

systemd starts this for each connection, as standard input and output: for one change, which has a
line of each kind."""
import hashlib
import os
import re

from rooms_admin.host import safe
from rooms_admin.room import names, published
from rooms_admin.passwords import passwords
from rooms_admin.cli.report import Refused, Stop, say

LONGEST, LINES = 400, 2
# How long root's own change may take, which holds the folder for some milliseconds.
PATIENCE = 5.0
_ASKED = re.compile(rb"(?:line|put) ([a-z0-9-]+) ([!-~]+)"
                    rb"(?: ([0-9a-f]{64}) (%b))?\n" % passwords.MADE)


def _digest(line: passwords.Line) -> bytes:
    """Of all that stands behind the name, and of which kind it is."""
    return hashlib.sha256(_kind(line) + line.text).hexdigest().encode()


def _kind(line: passwords.Line) -> bytes:
    return b"first" if line.is_first else b"own"


def _told(file: str, user: str) -> bytes:
    found = passwords.line_of(file, user)
    if found is None:
        return b"no-line"
    return b" ".join([_kind(found), _digest(found), found.text.partition(b":")[0]])


def _put(file: str, user: str, digest: bytes, hashed: bytes) -> bytes:
    with passwords.held(file, PATIENCE):
        found = passwords.line_of(file, user)
        if found is None or _digest(found) != digest:
            # Root has taken the name away, or given another password, while this was made.
            return b"changed"
        # What stands behind the password is the administrator's.
        made = b":".join([hashed, *found.text.split(b":")[1:]])
        passwords.put_lines(file, {user: made})
        passwords.put_lines(passwords.first_of(file), {user: None})
    return b"done"


def answer(asked: bytes) -> bytes:
    found = _ASKED.fullmatch(asked)
    if not found or asked.startswith(b"put ") != (found[4] is not None):
        return b"refused"
    room, user = found[1].decode(), found[2].decode()
    if not names.is_room(room) or not names.is_user(user):
        return b"refused"
    file = published.ROOT + passwords.kept_of(room)
    if not os.path.lexists(file):
        # Its passwords are a directory's, or root's alone.
        return b"none"
    try:
        return _put(file, user, found[3], found[4]) if found[4] else _told(file, user)
    except passwords.Held:
        return b"busy"
    except (Refused, Stop, OSError) as fault:
        say(f"failed: {fault}")
        return b"failed"


def _line() -> bytes:
    """Who asks waits for an answer before the next one."""
    asked = b""
    while len(asked) < LONGEST and not asked.endswith(b"\n") and (part := os.read(0, LONGEST)):
        asked += part
    return asked


def run() -> int:
    os.umask(0o027)
    os.chdir("/")
    for _ in range(LINES):
        asked = _line()
        if not asked:
            break
        safe.write_all(1, answer(asked) + b"\n")
    return 0
