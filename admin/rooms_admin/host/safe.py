"""Files that others can rename meanwhile: each is opened once, below a folder that is open, and
no link is followed."""
import errno
import fcntl
import os
import secrets
import stat
from collections.abc import Callable, Iterable, Iterator
from contextlib import contextmanager, suppress
from typing import BinaryIO

_FOLDER = os.O_RDONLY | os.O_DIRECTORY | os.O_CLOEXEC
_CLONE = 0x40049409
# So many bytes are copied at once.
_PART = 16 << 20


class NoFile(Exception):
    """What is there is no ordinary file; the text says what it is."""


@contextmanager
def opened(number: int) -> Iterator[int]:
    try:
        yield number
    finally:
        os.close(number)


def folder(path: str | bytes) -> int:
    """A folder that whoever runs this has named: links on the way are theirs."""
    return os.open(path, _FOLDER)


def folder_below(within: int, name: bytes | str) -> int:
    return os.open(name, _FOLDER | os.O_NOFOLLOW, dir_fd=within)


def kind_below(within: int, name: bytes) -> str:
    mode = os.stat(name, dir_fd=within, follow_symlinks=False).st_mode
    return ("link" if stat.S_ISLNK(mode) else "folder" if stat.S_ISDIR(mode)
            else "file" if stat.S_ISREG(mode) else "other")


def file_below(within: int, name: bytes | str) -> int:
    """Opens an ordinary file, and nothing else, not even for a moment: a device may do something
    when it is opened, so what is there is looked at before, by a handle that can't read."""
    handle = os.open(name, os.O_PATH | os.O_NOFOLLOW | os.O_CLOEXEC, dir_fd=within)
    with opened(handle):
        mode = os.fstat(handle).st_mode
        if stat.S_ISLNK(mode):
            raise NoFile("a link, which is not followed")
        if not stat.S_ISREG(mode):
            raise NoFile("neither a file nor a folder")
        return os.open(f"/proc/self/fd/{handle}", os.O_RDONLY | os.O_CLOEXEC)


def at_once(file: str, flags: int) -> int:
    """Opens it: a pipe keeps nobody waiting, and a link leads nowhere, whoever looks."""
    return os.open(file, flags | os.O_NONBLOCK | os.O_NOFOLLOW)


def _is_own(seen: os.stat_result) -> bool:
    """Root's, or that of whoever runs this, and nobody else may write it."""
    return seen.st_uid in (0, os.geteuid()) and not seen.st_mode & 0o022


def of_others(path: str) -> str:
    """The folder on the way to this one, or itself, whose names somebody else can change: a link
    may be put into its place. Nothing if there is none."""
    place = os.path.realpath(path)
    while place != "/":
        seen = os.stat(place)
        if seen.st_uid not in (0, os.geteuid()) or (
                seen.st_mode & 0o022 and not seen.st_mode & stat.S_ISVTX):
            return place
        place = os.path.dirname(place)
    return ""


def own_folder(path: str) -> int:
    """A folder into which nobody else puts a name. It is no link itself; whoever may change the way
    to it is looked at elsewhere."""
    number = os.open(path, _FOLDER | os.O_NOFOLLOW)
    if not _is_own(os.fstat(number)):
        os.close(number)
        raise NoFile("not root's alone")
    return number


def own_file_below(within: int, name: str) -> int:
    number = file_below(within, name)
    if not _is_own(os.fstat(number)):
        os.close(number)
        raise NoFile("not root's alone")
    return number


@contextmanager
def own_file(path: str) -> Iterator[BinaryIO]:
    """A file that nobody else has written, in a folder that is nobody else's."""
    above, name = os.path.split(path)
    try:
        with opened(own_folder(above)) as within:
            number = own_file_below(within, name)
    except NoFile as what:
        raise OSError(errno.EACCES, f"it is {what}", path) from what
    with os.fdopen(number, "rb") as source:
        yield source


def clone(source: int, target: int) -> bool:
    """A file gets the same blocks as another one, where the disk can do that."""
    try:
        fcntl.ioctl(target, _CLONE, source)
        return True
    except OSError:
        return False


def copy_all(source: int, target: int, goes_on: Callable[[], None] = lambda: None,
             spare: int = 0) -> None:
    """All of a file from where it is read, into one that is empty, whose disk has to have so many
    bytes more. A clone takes none."""
    size = os.fstat(source).st_size
    left = size - os.lseek(source, 0, os.SEEK_CUR)
    if clone(source, target):
        return
    if spare:
        _need_space(target, size + spare)
    while count := os.sendfile(target, source, None, _PART):
        left -= count
        goes_on()
    need_all(left)


def need_all(left: int) -> None:
    """Of a room's log a part is a room too, as it was before: so what is left of a file is missed
    here, and by nobody later."""
    if left > 0:
        raise OSError(errno.EIO, f"its disk gives {left} bytes less than it has")


def _need_space(target: int, size: int) -> None:
    disk = os.fstatvfs(target)
    free = disk.f_bavail * disk.f_frsize
    # A disk without a size of its own tells none.
    if disk.f_blocks and free < size:
        raise OSError(errno.ENOSPC, f"it needs {-(-size >> 20)} MB there, and {free >> 20} MB are "
                                    "free")


def read_at_most(number: int, most: int) -> bytes:
    """All of a file, or one byte more than `most`."""
    parts = []
    left = most + 1
    while left > 0 and (part := os.read(number, min(left, 1 << 20))):
        parts.append(part)
        left -= len(part)
    return b"".join(parts)


def write_all(number: int, data: bytes) -> None:
    rest = memoryview(data)
    while rest:
        rest = rest[os.write(number, rest):]


def new_file(within: int, name: bytes | str, data: bytes | Iterable[bytes],
             mode: int = 0o666) -> None:
    """A file that wasn't there, whole or not at all."""
    number = os.open(name, os.O_WRONLY | os.O_CREAT | os.O_EXCL | os.O_NOFOLLOW | os.O_CLOEXEC,
                     mode, dir_fd=within)
    try:
        with opened(number):
            for part in [data] if isinstance(data, bytes) else data:
                write_all(number, part)
    except BaseException:
        os.unlink(name, dir_fd=within)
        raise


def put_file(path: str, data: bytes, mode: int, group: int = -1, owner: int = -1,
             at: float | None = None) -> None:
    """A file of root's, in the place of what is there: the old one or the new one at any moment.
    `at` is when what is in it was so, if that isn't now."""
    within, name = os.path.split(path)
    fresh = f".{name}.new"
    with opened(folder(within)) as above:
        try:
            os.unlink(fresh, dir_fd=above)
        except FileNotFoundError:
            pass
        made = os.open(fresh, os.O_WRONLY | os.O_CREAT | os.O_EXCL | os.O_NOFOLLOW | os.O_CLOEXEC,
                       0o600, dir_fd=above)
        try:
            with opened(made) as number:
                write_all(number, data)
                if (owner, group) != (-1, -1):
                    os.fchown(number, owner, group)
                os.fchmod(number, mode)
                if at is not None:
                    os.utime(number, (at, at))
                os.fsync(number)
        except OSError:
            # On a full disk what is left of it would keep others from a change.
            os.unlink(fresh, dir_fd=above)
            raise
        os.rename(fresh, name, src_dir_fd=above, dst_dir_fd=above)
        os.fsync(above)


def put_folder(path: str, mode: int, owner: int = -1, group: int = -1) -> None:
    """A folder that wasn't there: with its owner and its mode, or not at all."""
    within, name = os.path.split(path)
    fresh = os.path.join(within, f".{name}.new")
    try:
        os.rmdir(fresh)
    except FileNotFoundError:
        pass
    os.mkdir(fresh, 0o700)
    os.chown(fresh, owner, group)
    os.chmod(fresh, mode)
    os.rename(fresh, path)


def remove_folder(path: str) -> None:
    """Whoever's it is by now, and whatever is in it: no link is followed. Folders may stand in one
    another without end, so what is in one is brought up before that goes. What can't be removed
    stays."""
    with suppress(OSError):
        with opened(os.open(path, _FOLDER | os.O_NOFOLLOW)) as top:
            left = os.listdir(top)
            while left:
                with suppress(OSError):
                    left += _remove_below(top, left.pop())
        os.rmdir(path)


def _remove_below(top: int, name: str) -> list[str]:
    """Returns what was brought up."""
    try:
        os.unlink(name, dir_fd=top)
        return []
    except IsADirectoryError:
        pass
    above = []
    with opened(folder_below(top, name)) as at:
        for one in os.listdir(at):
            above.append(secrets.token_hex(16))
            os.rename(one, above[-1], src_dir_fd=at, dst_dir_fd=top)
    os.rmdir(name, dir_fd=top)
    return above


def reason(fault: OSError) -> str:
    if fault.errno == errno.EEXIST:
        return "cannot overwrite existing file"
    return fault.strerror or str(fault)


def why(fault: OSError | NoFile) -> str:
    return reason(fault) if isinstance(fault, OSError) else f"it is {fault}"
