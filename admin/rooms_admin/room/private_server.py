"""A private copy of a backup, on which the program works, so that nothing of the backup is ever
anybody else's than root's; and that copy served by the program in a network of its own, which
nobody else can reach. (`rooms get` reads one document without a server, but all of the room for it:
that takes a processor 9 ms in a room of one document, 70 ms with 1,000 of 20,000 bytes, 0.7 s with
10,000; and one process at a time has a file. A server reads it once.)"""
import ctypes
import fcntl
import os
import select
import socket
import struct
from collections.abc import Callable, Iterator
from contextlib import AbstractContextManager, contextmanager

from ..host import commands, processes, safe, tempdirs, waiting
from . import names, program, settings
from ..cli.report import Stop

PORT = 8780
USER = "rooms-get"
_NEW_USER, _NEW_NETWORK = 0x10000000, 0x40000000
_GET_FLAGS, _SET_FLAGS, _UP = 0x8913, 0x8914, 1
# Bytes of a disk that no copy takes: others write there too.
_SPARE = 16 << 20


def own_network() -> None:
    """From here on this process and its children have a loopback of their own."""
    libc = ctypes.CDLL(None, use_errno=True)
    flags = _NEW_NETWORK | (0 if os.geteuid() == 0 else _NEW_USER)
    if libc.unshare(flags) != 0:
        raise Stop(f"no network of its own: {os.strerror(ctypes.get_errno())}")
    with socket.socket(socket.AF_INET, socket.SOCK_DGRAM) as any_socket:
        asked = struct.pack("16sH22x", b"lo", 0)
        got = struct.unpack("16sH22x", fcntl.ioctl(any_socket, _GET_FLAGS, asked))
        fcntl.ioctl(any_socket, _SET_FLAGS, struct.pack("16sH22x", b"lo", got[1] | _UP))


def copy_files(base: str, source: int, target: int, name: str,
               goes_on: Callable[[], None] = lambda: None) -> None:
    """A room's file, and its log if there is one, from one folder into another: both are open, and
    no link is followed."""
    for end in ("", "-wal"):
        try:
            found = safe.file_below(source, base + end)
        except FileNotFoundError:
            if end:
                continue
            raise
        with safe.opened(found), safe.opened(os.open(
                name + end, os.O_WRONLY | os.O_CREAT | os.O_EXCL | os.O_NOFOLLOW | os.O_CLOEXEC,
                0o600, dir_fd=target)) as made:
            safe.copy_all(found, made, goes_on, _SPARE)


def give(room: settings.Room, folder: str) -> None:
    """A folder of a run's own, with a copy in it, to the user who runs the program on copies. It is
    still root's alone, so all in it is what the run has put there."""
    user, group = program.user_of_copies(room)
    if user != os.geteuid():
        give_to(folder, user, group)


def give_to(folder: str, user: int, group: int) -> None:
    """The same, to any user."""
    with safe.opened(safe.own_folder(folder)) as within:
        for name in os.listdir(within):
            with safe.opened(safe.file_below(within, name)) as number:
                os.fchown(number, user, group)
        # The folder comes last: from then on that user may put links into it.
        os.fchown(within, user, group)


def own_folder(room: settings.Room) -> AbstractContextManager[str]:
    """Of a run, for a copy. An earlier version gave it to the room's user."""
    return tempdirs.folder("rooms-get", room.owner, program.user_of_copies(room)[0])


@contextmanager
def private_copy(room: settings.Room, backup: str) -> Iterator[str]:
    """Of the backup in a folder, which may lie in the room's folder. Nobody waits for a disk that
    hangs."""
    def work(goes_on: Callable[[], None]) -> str:
        try:
            with safe.opened(safe.folder(backup)) as source, safe.opened(
                    safe.own_folder(made)) as target:
                copy_files(room.base, source, target, "room", goes_on)
            give(room, made)
            return ""
        except (OSError, safe.NoFile) as fault:
            return safe.why(fault)
    with own_folder(room) as made:
        why = waiting.steadily(waiting.PATIENCE, work, backup)
        if why != "":
            raise Stop(f"the backup can't be copied to {tempdirs.place()}: "
                       f"{why or 'that was cut off'}")
        yield os.path.join(made, "room")


def set_list(room: settings.Room, copied: str, path: bytes, lines: bytes, which: str = "dacl"
             ) -> str:
    """What hindered that; nothing if nothing did."""
    if len(path) > names.LONGEST_PATH:
        return f"its path has {len(path)} bytes"
    status, out, said = program.on_copy(room, copied, ["reset", path, which], stdin=lines)
    return "" if status == 0 else said or out.decode(errors="replace").strip() or f"status {status}"


@contextmanager
def served(room: settings.Room, copied: str, count: int) -> Iterator[None]:
    own_network()
    words = [room.program, "serve", copied, "--port", str(PORT), "--count", str(count)]
    server = commands.started(words, processes.end_with_parent, program.as_user_of_copies(room),
                              stdin=commands.NOTHING)
    try:
        assert server.stdout and server.stderr
        # A server that ends closes its output: that is an end of the wait too.
        ready, _, _ = select.select([server.stdout], [], [], 600)
        line = server.stdout.readline() if ready else b""
        if not line.startswith(b"listening "):
            server.kill()
            said = server.stderr.read(300).decode(errors="replace").strip()
            raise Stop(f"the copy can't be served: {said or f'status {server.wait()}'}")
        yield
    finally:
        _end(server)


def _end(server: commands.Child) -> None:
    """Whatever interrupts this: nobody else ends the server, and it is waited for."""
    try:
        server.kill()
    finally:
        with server:
            server.kill()
