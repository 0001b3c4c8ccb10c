"""One verb at a time for each room. A lock lies where nobody but root gets to: flock asks for no
right but that to open the file, which others have not."""
import errno
import fcntl
import os
import stat
import time
from collections.abc import Iterator
from contextlib import contextmanager

from ..cli.report import Refused

# Only tests set another folder.
RUN = os.environ.get("ROOMS_RUN", "/run")
FOLDER = os.path.join(RUN, ".rooms-admin" if "ROOMS_RUN" in os.environ else "rooms-admin")


# Seconds.
_MOMENT = 0.2


class Busy(Refused):
    """Another verb is at work."""


class NoPlace(Refused):
    """It isn't there, and nobody can make it: so nobody has it."""


def taken(number: int, seconds: float) -> bool:
    """Whether an open file or folder is nobody else's, from now until it is closed; or becomes so
    within these seconds."""
    ends = time.monotonic() + seconds
    while True:
        try:
            fcntl.flock(number, fcntl.LOCK_EX | fcntl.LOCK_NB)
            return True
        except BlockingIOError:
            if time.monotonic() >= ends:
                return False
            time.sleep(0.02)


def _in_turn(number: int, first: int, seconds: float) -> bool:
    """Whom sudo has called lets the others go first, who have `first` while they wait: so whoever
    may call verbs by it keeps no night from its backup, however often they do. Who waits for
    nothing gives those a moment to let go of it."""
    ends = time.monotonic() + seconds
    if "SUDO_USER" not in os.environ:
        return taken(first, max(seconds, _MOMENT)) and taken(number, ends - time.monotonic())
    while True:
        if taken(first, 0):
            if taken(number, 0):
                return True
            fcntl.flock(first, fcntl.LOCK_UN)
        if time.monotonic() >= ends:
            return False
        time.sleep(0.02)


def _opened(folder: str, others: int, *names: str) -> list[int]:
    try:
        os.makedirs(folder, 0o700, exist_ok=True)
        at = os.open(folder, os.O_RDONLY | os.O_DIRECTORY | os.O_NOFOLLOW | os.O_CLOEXEC)
    except OSError as fault:
        raise _fault(folder, fault) from fault
    try:
        seen = os.fstat(at)
        if seen.st_uid != os.geteuid() or stat.S_IMODE(seen.st_mode) & others:
            raise Refused(f"no lock: {folder} isn't closed to others: rm -r {folder}")
        return [os.open(name, os.O_RDWR | os.O_CREAT | os.O_NOFOLLOW | os.O_CLOEXEC, 0o600,
                        dir_fd=at) for name in names]
    except OSError as fault:
        raise _fault(folder, fault) from fault
    finally:
        os.close(at)


def _fault(folder: str, fault: OSError) -> Refused:
    if fault.errno in (errno.ENOSPC, errno.EDQUOT):
        return NoPlace(f"no lock: no name is left for it in {folder}: df -i {folder}")
    return Refused(f"no lock: {folder} can't be made: {fault.strerror}")


@contextmanager
def lock(name: str, seconds: float, folder: str = FOLDER, others: int = 0o077,
         is_needed: bool = True) -> Iterator[None]:
    """`name` is a unit such as rooms@office, or 'machine'. It ends with the process, whatever
    happens to that; no child gets it, since Python closes what a child isn't given. `others` is
    what of the folder isn't theirs. One that isn't needed is none where no name is left for it."""
    try:
        number, first = _opened(folder, others, name, f"{name}.first")
    except NoPlace:
        if is_needed:
            raise
        yield
        return
    try:
        try:
            if not _in_turn(number, first, seconds):
                raise Busy(f"busy: another verb of rooms-admin is at work with {name}")
        finally:
            os.close(first)
        yield
    finally:
        os.close(number)


@contextmanager
def machine(root: str, dry: bool) -> Iterator[None]:
    """One verb at a time that adds, removes or shows rooms. An image of a machine has no /run."""
    if root or dry:
        yield
        return
    with lock("machine", 2):
        yield
