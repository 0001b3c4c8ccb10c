"""Wrong tries of a password, which are counted in files: there is a process for each request, and
none remembers anything."""
import hashlib
import os
import time
from collections.abc import Iterator
from contextlib import contextmanager

from rooms_admin.host import locks, safe

from ..room.answers import Stop

FOLDER = os.path.join(locks.RUN, "rooms-own-password/tries")
# Wrong ones of a user's, and for how many seconds each counts.
WRONG, COUNTS = 5, 900
# How many seconds another try of the same password may take.
PATIENCE = 5.0


@contextmanager
def counted(room: str, user: str, line: bytes) -> Iterator[list[float]]:
    """The moments of wrong tries of this password of a user's, which nobody else reads or adds to
    meanwhile: of many requests at once each waits for the one before. With one that root gave they
    begin anew."""
    os.makedirs(FOLDER, 0o700, exist_ok=True)
    name = hashlib.sha256(f"{room} {user} ".encode() + line).hexdigest()
    number = os.open(f"{FOLDER}/{name}", os.O_RDWR | os.O_CREAT | os.O_CLOEXEC | os.O_NOFOLLOW,
                     0o600)
    with safe.opened(number):
        if not locks.taken(number, PATIENCE):
            raise Stop(503, "busy")
        now = time.time()
        wrong = [float(one) for one in os.read(number, 4096).split()]
        # A clock that was set back leaves moments to come.
        wrong = [one for one in wrong if 0 <= now - one < COUNTS]
        if len(wrong) >= WRONG:
            raise Stop(429, "tries")
        yield wrong
        os.ftruncate(number, 0)
        # Rounded down: what lay in the future wouldn't count.
        os.pwrite(number, "".join(f"{int(one)}\n" for one in wrong).encode(), 0)
