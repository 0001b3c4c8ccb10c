"""A room's server: its state, stopping it for a while, and what has to be done after a kill."""
import os
import signal
import time
from collections.abc import Callable, Iterator
from contextlib import contextmanager

from ..cli import report
from ..cli.report import Stop, say
from ..host import commands, locks
from .settings import Room


def systemctl(*words: str) -> tuple[int, str]:
    """What isn't loaded has no failures that could be forgotten: that is no news."""
    asked = ["systemctl", *words]
    try:
        done = commands.run(asked, seconds=commands.patience(asked),
                            quiet=words[0] == "reset-failed")
    except OSError as fault:
        raise Stop(f"no systemctl: {fault.strerror}") from fault
    return done.status, done.out


def state(room: Room) -> str:
    return systemctl("is-active", room.unit)[1]


def stop(room: Room) -> None:
    """Only while something is there that starts it again, whatever happens."""
    if systemctl("stop", room.unit)[0] != 0:
        raise Stop(f"{room.unit} doesn't stop")


def stop_beside(name: str) -> None:
    """What goes on while the server of a room is started anew."""
    systemctl("stop", "--no-block", f"rooms-door@{name}.socket", f"rooms-door@{name}",
              f"rooms-wait@{name}.socket")


def start(room: Room) -> None:
    """However often: systemd counts starts that are asked for beside those of a server that ends by
    itself, and would refuse the next one."""
    systemctl("reset-failed", room.unit)
    if systemctl("start", room.unit)[0] != 0:
        raise Stop(f"{room.unit} doesn't start: systemctl status {room.unit}")


def look_whether_it_stays(room: Room) -> None:
    """One that finds a fault ends at once, and systemd keeps restarting it."""
    if state(room) != "active":
        raise Stop(f"{room.unit} doesn't stay: systemctl status {room.unit}")


def settled(room: Room) -> str:
    """Its state, once a server that starts answers. That takes as long as reading its file: half a
    minute is enough, and a second for each megabyte."""
    ends = time.monotonic() + patience(room)
    while (now := state(room)) == "activating" and time.monotonic() < ends and systemctl(
            "show", "-p", "SubState", "--value", room.unit)[1] == "start-post":
        time.sleep(0.2)
    return now


def patience(room: Room) -> int:
    """How many seconds a start may take. No room has more than fits into memory, but its user could
    have made a file with holes of any size."""
    return 30 + min(size_of(room.file) >> 20, 3600)


def size_of(file: str) -> int:
    return sum(os.path.getsize(one) for one in (file, file + "-wal") if os.path.exists(one))


class Guard:
    """Another process, for as long as a server is stopped: if this one is killed, it does the work
    in its place. Until then it has this one's locks too, so nobody else begins. A terminal's keys
    don't reach it."""

    def __init__(self, work: Callable[[], object]) -> None:
        reader, self.writer = os.pipe()
        with report.signals_wait():
            self.process = os.fork()
            if self.process == 0:
                self._wait(reader, work)
        os.close(reader)

    def _wait(self, reader: int, work: Callable[[], object]) -> None:
        """It never gets back to what called it."""
        try:
            os.setsid()
            report.ignore_signals()
            with report.signals_wait(signal.SIG_UNBLOCK):
                os.close(self.writer)
                if os.read(reader, 1) == b"":
                    work()
        except (Stop, OSError) as fault:
            say(str(fault))
        finally:
            os._exit(0)

    def end(self) -> None:
        try:
            os.write(self.writer, b"x")
        except BrokenPipeError:
            pass  # Somebody has killed that one, or it has done the work.
        os.close(self.writer)
        os.waitpid(self.process, 0)


@contextmanager
def guarded(work: Callable[[], object]) -> Iterator[None]:
    """The work is done at the end, whatever happens meanwhile. Until then Ctrl-Z puts nothing
    aside, neither this process nor what it has begun."""
    before = signal.pthread_sigmask(signal.SIG_BLOCK, [signal.SIGTSTP])
    guard = Guard(work)
    try:
        yield
    finally:
        with report.signals_wait():
            try:
                work()
            finally:
                guard.end()
        signal.pthread_sigmask(signal.SIG_SETMASK, before)


def mark_of(unit: str) -> str:
    return os.path.join(locks.RUN, f"rooms-directory.{unit}")


def left_at_rest(room: Room) -> str:
    """The mark of a server that was stopped for a while. It stays where all processes of a run are
    killed, and whoever changes groups or copies the room next starts the server."""
    return mark_of(room.unit)


def was_left(room: Room) -> bool:
    """Whether whoever stopped it was killed. Only for whoever has the room's lock."""
    return os.path.exists(left_at_rest(room))


@contextmanager
def at_rest(room: Room) -> Iterator[None]:
    """The server is stopped if it runs, and started again whatever happens."""
    if settled(room) != "active" and not was_left(room):
        yield
        return
    with stopped(room):
        yield


def mark(room: Room) -> None:
    """Before it is stopped by whoever starts it again: who asks it waits."""
    place = left_at_rest(room)
    try:
        with open(place, "w", encoding="ascii"):
            pass
    except OSError as fault:
        raise Stop(f"no mark: {place} can't be written, so {room.unit} was not stopped: "
                   f"{fault.strerror}") from fault


@contextmanager
def stopped(room: Room) -> Iterator[None]:
    """The same of one that needs not run, as while it is started over and over."""
    mark(room)
    with guarded(lambda: start_again(room)):
        stop(room)
        yield


def start_marked(room: Room) -> None:
    start(room)
    if os.path.exists(left_at_rest(room)):
        os.unlink(left_at_rest(room))


def start_again(room: Room) -> None:
    """A server that rested."""
    start_marked(room)
    look_whether_it_stays(room)


def has_open(process: int, file: str) -> bool:
    """Nobody but root and the room's user can have opened it; and any account may have so many
    files open that a look at all of them takes hours."""
    try:
        wanted = os.stat(file)
        users = (0, wanted.st_uid, os.stat(os.path.dirname(os.path.abspath(file))).st_uid)
        if os.stat(f"/proc/{process}").st_uid not in users:
            return False
        names = os.listdir(f"/proc/{process}/fd")
    except OSError:
        return False
    for name in names:
        try:
            seen = os.stat(f"/proc/{process}/fd/{name}")
        except OSError:
            continue
        if (seen.st_dev, seen.st_ino) == (wanted.st_dev, wanted.st_ino):
            return True
    return False
