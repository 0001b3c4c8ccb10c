"""Processes of the machine."""
import ctypes
import os
import platform
import signal
import struct

from ..cli import report

# Loaded before any child begins, which then only calls it.
_LIBC = ctypes.CDLL(None)
_ENDS_WITH_PARENT, _GETS_ORPHANS, _AMBIENT, _CLEAR_ALL = 1, 36, 47, 4
# How many nanoseconds later than said a wait may end, as of any process; and the call by which a
# process says when it comes to the disk.
_LATE, _AT_MOST, _SET_TURN = 29, 50_000, 251
# A filter of calls, as linux/filter.h and linux/seccomp.h have it: an operation, where it goes on
# if that is so and if not, and a number. On the one processor for which there is a package it
# refuses some calls, and all in the form of another one.
_NO_MORE_RIGHTS, _SET_FILTER, _BY_ROWS = 38, 22, 2
_LOAD, _IS, _IS_FROM, _RETURN = 0x20, 0x15, 0x35, 0x06
# What makes sockets, or asks for a key, for which the kernel starts a program of root's; folders;
# and a ring by which these could be made.
_OTHERS, _FOLDERS, _RING = (41, 248, 249, 250), (83, 258), 425


def _refusing(*calls: int) -> "ctypes.Array[ctypes.c_char]":
    count = len(calls)
    rows = [(_LOAD, 0, 0, 4), (_IS, 0, count + 3, 0xC000003E), (_LOAD, 0, 0, 0),
            (_IS_FROM, count + 1, 0, 1 << 30),
            *((_IS, count - at, 0, call) for at, call in enumerate(calls)),
            (_RETURN, 0, 0, 0x7FFF0000), (_RETURN, 0, 0, 0x50001)]
    written = ctypes.create_string_buffer(b"".join(struct.pack("=HBBI", *row) for row in rows))
    _KEPT.append(written)
    return ctypes.create_string_buffer(struct.pack("@HP", len(rows), ctypes.addressof(written)))


_KEPT: list[object] = []
_IS_THAT_ONE = platform.machine() == "x86_64"
_WITHOUT_OTHERS, _WITHOUT_FOLDERS = (_refusing(*calls, _RING) for calls in (_OTHERS, _FOLDERS))


def _refuse(calls: "ctypes.Array[ctypes.c_char]") -> None:
    """Where that fails, what comes behind it isn't to begin."""
    if not (_IS_THAT_ONE and _LIBC.prctl(_NO_MORE_RIGHTS, 1, 0, 0, 0) == 0
            and _LIBC.prctl(_SET_FILTER, _BY_ROWS, calls) == 0):
        raise report.Stop("no filter of calls: this kernel takes none (CONFIG_SECCOMP_FILTER, "
                          "amd64), and nothing reads what others have made without it")


def end_with_parent() -> None:
    """For a child that nobody else would end."""
    _LIBC.prctl(_ENDS_WITH_PARENT, int(signal.SIGKILL))


def hand_on_no_right() -> None:
    """For a child that need not have what its parent's unit allows that one."""
    if _LIBC.prctl(_AMBIENT, _CLEAR_ALL, 0, 0, 0) != 0:
        raise report.Stop("no fewer rights: this kernel lets no process give them up, and nothing "
                          "reads what others have made with them")


def reach_nobody() -> None:
    """For a child that reads what somebody else has made, and which that might take over: it makes
    no connection, to another machine or to a service of this one."""
    _refuse(_WITHOUT_OTHERS)


def make_no_folders() -> None:
    """For a child of a unit's that somebody might take over: deploy/systemd/rooms@.service says
    why."""
    _refuse(_WITHOUT_FOLDERS)


def wait_and_read_as_others() -> None:
    """Whoever began this one may have let its waits end years later, or its reading and writing
    come behind that of all others."""
    _LIBC.prctl(_LATE, ctypes.c_ulong(_AT_MOST))
    _LIBC.syscall(_SET_TURN, 1, 0, 0)


def adopt_orphans() -> None:
    """What a child leaves behind is a child of this process from then on."""
    _LIBC.prctl(_GETS_ORPHANS, 1)


def _user_of(process: int) -> int | None:
    """Nobody where this process may not see it, as others' where its unit hides them."""
    try:
        with open(f"/proc/{process}/status", encoding="utf-8", errors="replace") as source:
            return next(int(line.split()[1]) for line in source if line.startswith("Uid:"))
    except OSError:
        return None


def end(process: int, user: int) -> bool:
    """A child of this one's, if it runs as that user: by their right, since a unit need have none
    over the processes of others. Nobody who is that user can hold this one meanwhile."""
    if _user_of(process) not in (user, None):
        return False
    own = os.geteuid()
    with report.signals_wait():
        os.seteuid(user)
        try:
            os.kill(process, signal.SIGKILL)
            return True
        except (PermissionError, ProcessLookupError):
            return False
        finally:
            os.seteuid(own)


def keep_files(*wanted: int) -> None:
    """For a child that need not have what its parent has open: so it keeps no lock, whatever
    becomes of it."""
    at = 3
    for number in sorted(wanted):
        os.closerange(at, number)
        at = number + 1
    os.closerange(at, 1024)


def say_nothing(*wanted: int) -> None:
    """For a child that prints nothing, but for what these are: whoever reads what its parent prints
    waits until nobody has that open, and one at a disk that hangs can't be ended."""
    nothing = os.open(os.devnull, os.O_RDWR | os.O_CLOEXEC)
    for number in {0, 1, 2}.difference(wanted):
        os.dup2(nothing, number)
    if nothing > 2:
        os.close(nothing)


def began(process: int) -> str:
    """In ticks since the machine did: it tells a process from a later one of the same number."""
    try:
        with open(f"/proc/{process}/stat", encoding="utf-8", errors="replace") as source:
            fields = source.read().rpartition(") ")[2].split()
    except OSError:
        return ""
    return fields[19] if len(fields) > 19 else ""
