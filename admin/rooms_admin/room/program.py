"""Running the program: as whom, and with how much memory."""
import functools
import os
import pwd
import resource
import select
import tempfile
import time
from collections.abc import Callable, Iterator
from contextlib import contextmanager

from ..host import commands, processes, safe
from ..cli.report import Stop
from .settings import Room

# What a change needs at most: twice the largest document, and as much for the log.
CHANGE = 4 << 20
# Who runs the program on copies of a room. No server is this user, who has nothing.
COPIES = "rooms-backup"
# Where a machine hasn't it: numbers that Debian gives to nobody, nor systemd to a service.
_SPARE = range(65533, 65519, -1)


def _has_account(number: int) -> bool:
    try:
        return bool(pwd.getpwuid(number))
    except KeyError:
        return False


def user_of_copies(room: Room) -> tuple[int, int]:
    """User and group. Only root has the choice, and a room of root's own is read by root."""
    if os.geteuid() != 0 or room.owner == 0:
        return os.geteuid(), os.getegid()
    try:
        found = pwd.getpwnam(COPIES)
        if found.pw_uid not in (0, room.owner):
            return found.pw_uid, found.pw_gid
    except KeyError:
        pass
    for number in _SPARE:
        if number != room.owner and not _has_account(number):
            return number, number
    raise Stop(f"no user {COPIES}: systemd-sysusers rooms.conf")


def as_user_of_copies(room: Room) -> commands.Who | None:
    """For a child process."""
    user, group = user_of_copies(room)
    return None if user == os.geteuid() else commands.Who(user, group)


def user_of(room: Room) -> commands.Who | None:
    """For a child process: the room's user, unless this process is theirs."""
    return None if os.geteuid() == room.owner else commands.Who(room.owner, room.group)


def limits(megabytes: int) -> Callable[[], None]:
    """What a child does before the program: nothing here is shared with other threads. It ends with
    what called it; 0 is as much memory as there is."""
    def less() -> None:
        processes.end_with_parent()
        if not megabytes:
            return
        _, hard = resource.getrlimit(resource.RLIMIT_AS)
        most = megabytes << 20
        if hard != resource.RLIM_INFINITY:
            most = min(most, hard)
        resource.setrlimit(resource.RLIMIT_AS, (most, most))
        os.nice(10)
    return less


def alone(megabytes: int) -> Callable[[], None]:
    """The same for one that asks nobody, and makes files alone."""
    less = limits(megabytes)

    def before() -> None:
        less()
        processes.reach_nobody()
        processes.make_no_folders()
    return before


def enough(room: Room, file: str) -> int:
    """How many megabytes the program may have for what it does with a room's file. Where that has
    records alone, they take ten times their bytes."""
    size = sum(os.path.getsize(one) for one in (file, file + "-wal") if os.path.exists(one))
    return room.memory or 1024 + (12 * size >> 20)


@contextmanager
def _first_to_go() -> Iterator[None]:
    """Where the machine has no memory left, what is started here ends before anything else. A child
    that has become another user can't say so of itself."""
    place = "/proc/self/oom_score_adj"
    before = ""
    try:
        with open(place, encoding="ascii") as score:
            before = score.read()
        with open(place, "w", encoding="ascii") as score:
            score.write("1000")
    except OSError:
        pass
    try:
        yield
    finally:
        try:
            with open(place, "w", encoding="ascii") as score:
                score.write(before)
        except OSError:
            pass


def run(room: Room, words: list[str | bytes], stdin: bytes = b"", as_owner: bool = True,
        megabytes: int = 0, stdout: int = commands.PIPE, pass_fds: tuple[int, ...] = (),
        cwd: str | None = None) -> tuple[int, bytes, str]:
    """Status, standard output, and what it said, which is standard error."""
    who = user_of(room) if as_owner else None
    return _run(room, words, who, stdin, megabytes, stdout, pass_fds, cwd)


def _run(room: Room, words: list[str | bytes], who: commands.Who | None, stdin: bytes,
         megabytes: int, stdout: int, pass_fds: tuple[int, ...], cwd: str | None
         ) -> tuple[int, bytes, str]:
    with _first_to_go():
        child = commands.started([room.program, *words], alone(megabytes), who, stdout=stdout,
                                 pass_fds=pass_fds, cwd=cwd)
    with child:
        try:
            out, err = child.communicate(stdin)
        except BaseException:
            _end(child, who)
            raise
    return child.returncode, out or b"", err.decode(errors="backslashreplace").strip()


def on_text(room: Room, word: str, text: bytes) -> tuple[int, bytes, str]:
    """The same of a subcommand that opens no file: by the user of copies, who has none."""
    return _run(room, [word], as_user_of_copies(room), text, room.memory or 1024, commands.PIPE, (),
                "/")


def _end(child: commands.Child, who: commands.Who | None) -> None:
    """It is waited for by whoever has it."""
    if child.poll() is None:
        processes.end(child.pid, who.user if who else os.geteuid())


# What a pipe may hold when its writer ends.
_PIPE = 1 << 20
# Bytes that the program may write of a copy, beside as much as some times the copy: a room has far
# less to say, and what a copy may have it say ends before a disk or this process's memory does.
MOST = 1 << 30


# Seconds in which it has written what a night keeps of a copy: of a large room it takes some.
SECONDS = 20 * 60


class _TooMuch(Exception):
    """It writes without end, or is at work without end."""


def _bounded(take: Callable[[bytes], object], most: int) -> Callable[[bytes], None]:
    left = most

    def taking(part: bytes) -> None:
        nonlocal left
        left -= len(part)
        if left < 0:
            raise _TooMuch(f"it wrote more than {most >> 20} MB")
        take(part)
    return taking


def _pump(child: commands.Child, take: Callable[[bytes], object], seconds: float) -> bytes:
    """What the child writes gets to a file that stays root's: the child has a pipe. Returns what it
    said. It is over when the child is, whoever else has the pipe by then; 0 seconds are as many as
    it takes."""
    assert child.stdout and child.stderr
    out, err = child.stdout.fileno(), child.stderr.fileno()
    said, waits, left = b"", {out, err}, -1
    ends = time.monotonic() + seconds if seconds else None
    with safe.opened(os.pidfd_open(child.pid)) as ended:
        while waits and left:
            if left < 0 and select.select([ended], [], [], 0)[0]:
                left = _PIPE
            still = max(0, ends - time.monotonic()) if ends else None
            if left < 0 and still == 0:
                raise _TooMuch(f"it took more than {seconds / 60:.0f} minutes")
            ready = select.select([*waits, *([ended] if left < 0 else [])], [], [],
                                  still if left < 0 else 0)[0]
            if left > 0 and not ready:
                break
            for one in waits & set(ready):
                part = os.read(one, 1 << 16)
                if not part:
                    waits.discard(one)
                elif one == err:
                    said = (said + part)[:_PIPE]
                else:
                    take(part)
                left = max(0, left - len(part)) if left > 0 else left
    return said


def _end_left(user: int) -> None:
    """What a copy may have had the program leave behind could reach the next one: it is a child of
    this process by now."""
    left = user != os.geteuid()
    while left:
        left = False
        with open(f"/proc/self/task/{os.getpid()}/children", encoding="ascii") as source:
            children = [int(number) for number in source.read().split()]
        for process in children:
            if processes.end(process, user):
                os.waitpid(process, 0)
                # What it had begun itself is a child now.
                left = True


def on_copy(room: Room, copied: str, words: list[str | bytes], megabytes: int = 0,
            into: int | None = None, stdin: bytes = b"", most: int = 0, seconds: float = 0
            ) -> tuple[int, bytes, str]:
    """A subcommand on a private copy, as the user of copies: its first word, the copy, the others.
    What is written goes to a file, or is returned; `most` is how many bytes it may have, where
    those are fewer than of others; `seconds` is for how long it may be at work, if not for ever."""
    return _on_copy(room, copied, [room.program, words[0]], words[1:], megabytes, into, stdin, most,
                    seconds)


def helper_on_copy(room: Room, copied: str, helper: list[str | bytes], words: list[str | bytes],
                   megabytes: int, into: int, stdin: bytes = b"") -> tuple[int, bytes, str]:
    """The same by another program."""
    return _on_copy(room, copied, helper, words, megabytes, into, stdin)


def _on_copy(room: Room, copied: str, before: list[str | bytes], words: list[str | bytes],
             megabytes: int, into: int | None, stdin: bytes, most: int = 0, seconds: float = 0
             ) -> tuple[int, bytes, str]:
    """What is written before the copy, whose folder is entered, and behind it."""
    user, _ = user_of_copies(room)
    who = as_user_of_copies(room)
    processes.adopt_orphans()
    parts: list[bytes] = []
    most = most or MOST + 8 * os.path.getsize(copied)
    take: Callable[[bytes], object] = parts.append
    if into is not None:
        take = functools.partial(safe.write_all, into)
    take = _bounded(take, most)
    with _first_to_go():
        child = commands.started(
            [*before, f"./{os.path.basename(copied)}", *words],
            alone(megabytes), who, cwd=os.path.dirname(copied))
    with child:
        try:
            assert child.stdin
            try:
                child.stdin.write(stdin)
                child.stdin.close()
            except BrokenPipeError:
                pass
            said = _pump(child, take, seconds)
        except _TooMuch as much:
            _end(child, who)
            parts, said = [], str(much).encode()
        except BaseException:
            _end(child, who)
            raise
    _end_left(user)
    return child.returncode, b"".join(parts), said.decode(errors="backslashreplace").strip()


def version_of(program: str) -> str:
    """Of one that root's settings name."""
    try:
        done = commands.faults([program, "--version"])
    except OSError as fault:
        raise Stop(f"no program: {program} can't be run: {fault.strerror}") from fault
    return done.said.removeprefix("rooms ")


def lacks_space(room: Room) -> str:
    """What hinders a change of the room, tried by its user beside it: root may write where others
    can't any more. Empty if nothing does."""
    reader, writer = os.pipe()
    child = os.fork()
    if child == 0:
        try:
            if os.geteuid() != room.owner:
                os.setgroups([])
                os.setgid(room.group)
                os.setuid(room.owner)
            # Whoever else is that user may hold it.
            processes.end_with_parent()
            with tempfile.TemporaryFile(dir=room.folder) as trial:
                os.posix_fallocate(trial.fileno(), 0, CHANGE)
        except OSError as fault:
            os.write(writer, (fault.strerror or str(fault)).encode())
        finally:
            os._exit(0)
    os.close(writer)
    with os.fdopen(reader, "rb") as pipe:
        text = pipe.read().decode(errors="replace")
    os.waitpid(child, 0)
    return text
