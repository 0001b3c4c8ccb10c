"""Two lines in the system's log, for whoever asks later who has changed what: one before a verb
begins, which a run that is killed has too, and one with its status. Nobody waits for a log that
hangs."""
import contextlib
import os
import pwd
import re
import shlex
import socket
from collections.abc import Sequence

from ..cli import report

# Only tests set another one.
_PLACE = os.environ.get("ROOMS_LOG", "/dev/log")
# authpriv.notice: where a log is in files, others can't read that one.
_PRIORITY = 10 << 3 | 5
_LONGEST, _SECONDS = 900, 1.0


def _asker() -> str:
    """Who called sudo, as that says to root; or the account itself."""
    name = os.environ.get("SUDO_USER", "")
    if os.geteuid() == 0 and re.fullmatch(r"[A-Za-z0-9_][A-Za-z0-9._@\\-]*\$?", name, re.ASCII):
        return name
    try:
        return pwd.getpwuid(os.getuid()).pw_name
    except KeyError:
        return str(os.getuid())


def begins(verb: str, words: Sequence[str]) -> None:
    _tell(f"{_asker()} asks for: {shlex.join([verb, *words])}")


def ends(verb: str, status: int) -> None:
    _tell(f"{_asker()} asked for {verb}: status {status}")


def _tell(what: str) -> None:
    text = report.line(what)[:_LONGEST]
    with contextlib.suppress(OSError), socket.socket(socket.AF_UNIX, socket.SOCK_DGRAM) as log:
        log.settimeout(_SECONDS)
        log.connect(_PLACE)
        log.send(f"<{_PRIORITY}>rooms-admin[{os.getpid()}]: {text}".encode())
