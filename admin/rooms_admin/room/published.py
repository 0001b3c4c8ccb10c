"""What nginx shows beside a room: files of root's, in a folder for each room that nginx reads and
that users of the machine don't get into."""
import ctypes
import grp
import os
import time
from contextlib import AbstractContextManager

from ..host import safe
from . import names
from ..cli.report import Refused, Stop
from .settings import Room

# Only tests set another root.
ROOT = os.environ.get("ROOMS_ROOT", "")
PLACE = "/var/lib/rooms-web"
FOLDER = ROOT + PLACE
_READER = "www-data"
_EXCHANGE = 2


def has_name(room: Room) -> bool:
    """Whether nginx can know the room, which it does by a name."""
    return names.is_room(room.name)


def name_of(room: Room) -> str:
    if not has_name(room):
        raise Refused(f"bad name: '{room.name}', of {room.conf}, can't be the name of a room")
    return room.name


def reader() -> int:
    """nginx's group, or -1 where no file can be given to it."""
    if os.geteuid() != 0:
        return -1
    try:
        return grp.getgrnam(_READER).gr_gid
    except KeyError:
        return -1


def folder(room: Room) -> str:
    """The room's folder, which is made if it isn't there."""
    place = f"{FOLDER}/{name_of(room)}"
    os.makedirs(os.path.dirname(FOLDER), exist_ok=True)
    for one in (FOLDER, place):
        if not os.path.lexists(one):
            safe.put_folder(one, 0o750, group=reader())
    return place


def put(room: Room, name: str, data: bytes) -> None:
    safe.put_file(f"{folder(room)}/{name}", data, 0o640, reader())


def remove(room: Room, name: str) -> None:
    try:
        os.unlink(f"{FOLDER}/{name_of(room)}/{name}")
    except FileNotFoundError:
        pass


def moment(seconds: float) -> str:
    return time.strftime("%FT%TZ", time.gmtime(seconds))


def exchange(within: int, one: str, other: str) -> None:
    """Each of both names gets what the other one had, in one step: at any moment both are there."""
    libc = ctypes.CDLL(None, use_errno=True)
    if libc.renameat2(within, os.fsencode(one), within, os.fsencode(other), _EXCHANGE) != 0:
        raise _fault(other)


def _fault(name: str) -> OSError:
    number = ctypes.get_errno()
    return OSError(number, os.strerror(number), name)


def put_folder(room: Room, name: str, files: dict[str, bytes],
               held: AbstractContextManager[None]) -> None:
    """A whole folder in the place of the one of that name: whoever opens a file gets the old one or
    the new one at any moment. What is `held` is so for the exchange alone."""
    fresh = f".{name}.new"
    try:
        with safe.opened(safe.folder(folder(room))) as within:
            _remove_folder(within, fresh)
            try:
                _new_folder(within, fresh, files)
                with held:
                    _put_in_place(within, fresh, name)
            finally:
                _remove_folder(within, fresh)
    except OSError as fault:
        raise Stop(f"{FOLDER}/{name_of(room)}/{name} can't be written: {fault}") from fault


def _new_folder(within: int, name: str, files: dict[str, bytes]) -> None:
    os.mkdir(name, 0o700, dir_fd=within)
    with safe.opened(safe.folder_below(within, name)) as at:
        for file, data in files.items():
            _new_file(at, file, data)
        os.fchown(at, -1, reader())
        os.fchmod(at, 0o750)
    # What was written is on the disk before it has its name.
    if ctypes.CDLL(None, use_errno=True).syncfs(within) != 0:
        raise _fault(name)


def _put_in_place(within: int, fresh: str, name: str) -> None:
    try:
        os.stat(name, dir_fd=within, follow_symlinks=False)
    except FileNotFoundError:
        os.rename(fresh, name, src_dir_fd=within, dst_dir_fd=within)
    else:
        exchange(within, fresh, name)


def _new_file(at: int, name: str, data: bytes) -> None:
    if "/" in name:
        raise ValueError(f"'{name}' isn't the name of a file")
    number = os.open(name, os.O_WRONLY | os.O_CREAT | os.O_EXCL | os.O_NOFOLLOW | os.O_CLOEXEC,
                     0o600, dir_fd=at)
    with safe.opened(number):
        safe.write_all(number, data)
        os.fchown(number, -1, reader())
        os.fchmod(number, 0o640)


def _remove_folder(within: int, name: str) -> None:
    """A folder with nothing but files in it; a link is removed, and what it leads to is not."""
    try:
        at = safe.folder_below(within, name)
    except FileNotFoundError:
        return
    except NotADirectoryError:
        os.unlink(name, dir_fd=within)
        return
    with safe.opened(at):
        for one in os.listdir(at):
            os.unlink(one, dir_fd=at)
    os.rmdir(name, dir_fd=within)
