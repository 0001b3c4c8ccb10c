"""What nginx remembers of right passwords, for ten seconds by the machine's clock: where that is
set back meanwhile, for as long as it was ahead. So nothing is remembered of who gets another
password or has none any more. A file becomes empty, which nginx takes for none; of one that is gone
its log would tell."""
import base64
import binascii
import os
import re
import stat
from collections.abc import Iterable
from contextlib import suppress

from ..host import locks, safe

FOLDER = os.path.join(locks.RUN, "rooms-front/remembered")
# nginx writes what was asked at the beginning: which file, and what the caller sent.
_ASKED = re.compile(rb"\nKEY: \S+ basic +([^=\n]+)", re.IGNORECASE)
_BEGINNING = 1 << 16


def _user(number: int) -> str | None:
    """In small letters, as a directory takes a name; nothing of what can't be read."""
    found = _ASKED.search(os.pread(number, _BEGINNING, 0))
    if found is None:
        return None
    try:
        given = base64.b64decode(found[1] + b"=" * (-len(found[1]) % 4))
    except binascii.Error:
        return None
    return os.fsdecode(given.partition(b":")[0]).lower()


def forget(users: Iterable[str]) -> None:
    """The folder is that of nginx's account. Where it isn't there nginx remembers nothing."""
    names = {user.lower() for user in users}
    with suppress(FileNotFoundError, PermissionError), safe.opened(safe.folder(FOLDER)) as within:
        for name in os.listdir(within):
            with suppress(OSError), safe.opened(os.open(
                    name, os.O_RDWR | os.O_NOFOLLOW | os.O_NONBLOCK | os.O_CLOEXEC,
                    dir_fd=within)) as number:
                if stat.S_ISREG(os.fstat(number).st_mode) and _user(number) in names:
                    os.ftruncate(number, 0)
