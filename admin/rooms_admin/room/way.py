"""The way to a room's server: nginx, the door and whoever else asks it know the socket in
/run/rooms/NAME alone. That is a name of the server's own socket while the server answers, and of
the one of rooms-wait@NAME while it is started anew. Each change is one rename, so nobody finds
nothing there but where the room was stopped."""
import errno
import grp
import os
import secrets
import stat
from contextlib import suppress

from ..host import locks, safe

FRONT = "www-data"
_SOCKET = "socket"
# The machine as its first process sees it.
_FIRST = "/proc/1/root"


def socket_of(name: str) -> str:
    """The server's own: its folder is the server's, and closed to all but root."""
    return os.path.join(locks.RUN, "rooms-server", name, _SOCKET)


def _waiting(name: str) -> str:
    return os.path.join(locks.RUN, "rooms-wait", name)


def _folder(name: str, above: str = "") -> int:
    """Root's, and nginx's group passes through it. One of a version before was the server's."""
    place = above + os.path.join(locks.RUN, "rooms", name)
    os.makedirs(place, 0o710, exist_ok=True)
    at = os.open(place, os.O_RDONLY | os.O_DIRECTORY | os.O_NOFOLLOW | os.O_CLOEXEC)
    seen = os.fstat(at)
    try:
        group = grp.getgrnam(FRONT).gr_gid
    except KeyError:
        group = seen.st_gid  # A machine that has no nginx.
    if os.geteuid() == 0 and (seen.st_uid, seen.st_gid) != (0, group):
        os.fchown(at, 0, group)
    os.fchmod(at, 0o710)
    return at


def _handle(path: str, within: int | None = None) -> int:
    """A socket that is there, or -1. What its folder's owner may change is not looked up again."""
    try:
        handle = os.open(path, os.O_PATH | os.O_NOFOLLOW | os.O_CLOEXEC, dir_fd=within)
    except (FileNotFoundError, NotADirectoryError):
        return -1
    if stat.S_ISSOCK(os.fstat(handle).st_mode):
        return handle
    os.close(handle)
    return -1


def _same(one: int, other: int) -> bool:
    first, second = os.fstat(one), os.fstat(other)
    return (first.st_dev, first.st_ino) == (second.st_dev, second.st_ino)


def _put(at: int, target: int) -> None:
    """Where it leads there already, nothing is touched: since when is what the folder's time says,
    and a rename over the same socket would leave both names."""
    now = _handle(_SOCKET, at)
    if now != -1:
        with safe.opened(now):
            if _same(now, target):
                return
    os.chmod(f"/proc/self/fd/{target}", 0o666)
    fresh = f".{secrets.token_hex(8)}"
    os.link(f"/proc/self/fd/{target}", fresh, dst_dir_fd=at, follow_symlinks=True)
    os.rename(fresh, _SOCKET, src_dir_fd=at, dst_dir_fd=at)


def _lead(name: str, path: str, above: str = "") -> bool:
    target = _handle(above + path)
    if target == -1:
        return False
    with safe.opened(target), safe.opened(_folder(name, above)) as at:
        _put(at, target)
    return True


def to_server(name: str) -> bool:
    """Whether there is one. Its unit's own processes see its folder as another disk, from which
    nothing gets a name elsewhere."""
    try:
        return _lead(name, socket_of(name))
    except OSError as fault:
        if fault.errno != errno.EXDEV:
            raise
    return _lead(name, socket_of(name), _FIRST)


def to_waiting(name: str) -> bool:
    """Whether somebody waits there."""
    return _lead(name, _waiting(name))


def close(name: str) -> None:
    with safe.opened(_folder(name)) as at, suppress(FileNotFoundError):
        os.unlink(_SOCKET, dir_fd=at)


def server_there(name: str) -> int:
    """The server's socket, as long as the way leads to it, or -1: it can be asked after that
    too."""
    with safe.opened(_folder(name)) as at:
        now = _handle(_SOCKET, at)
    waiting = _handle(_waiting(name))
    if waiting != -1:
        with safe.opened(waiting):
            if now != -1 and _same(now, waiting):
                os.close(now)
                return -1
    return now
