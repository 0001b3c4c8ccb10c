"""The copy for another machine: made while the server runs, verified, in one file, and sent."""
import os
import shutil
import time
from contextlib import ExitStack

from ..cli import report
from ..host import commands, locks, safe, waiting
from ..room import private_server, program, server
from . import backups, copying, hours
from ..cli.report import Stop, say
from ..room.held import NotHeld
from ..room.settings import Room

LAST = "the last copy stays"
# Bytes that the other machine may say, with its greeting, and letters of it that are told.
_SAID, _TOLD = 1 << 16, 1000


def copy(room: Room, own: str) -> copying.Copy | None:
    """Into a folder of this run's own. The lock of the nightly run is held for the copy alone: to
    keep, to verify and to send it may take long."""
    try:
        with locks.lock(room.unit, 10):
            if server.settled(room) == "inactive":
                say(f"{room.unit} isn't running: {LAST}")
                return None
            return copying.copy(room, own)
    except copying.TooLong as long:
        raise Stop(f"copied at night alone, while its server is stopped: {long}; {LAST}") from long
    except NotHeld as why:
        raise Stop(f"{why}; {LAST}") from why
    except locks.Busy:
        say(f"another verb is at work: {LAST}")
        return None
    except OSError as fault:
        raise Stop(f"the copy failed: {fault.strerror}; {LAST}") from fault


def keep(room: Room, copied: copying.Copy, own: str, part: str) -> None:
    """The program works on it as a user who has nothing else, and what it has made of it gets to
    the disk of backups."""
    whole = os.path.join(own, room.base)
    try:
        copying.keep(room, copied, own)
        private_server.give(room, own)
        status, out, text = program.on_copy(room, whole, ["verify"], program.enough(room, whole))
        if status != 0:
            raise Stop(f"verify of the copy failed: {text or out.decode(errors='replace')}; {LAST}")
        # What a log has that is put into its file is no more than its head.
        if os.path.exists(whole + "-wal") and os.path.getsize(whole + "-wal") >= 100:
            raise Stop(f"the copy's log could not be put into its file; {LAST}")
        backups.make_folder(room)
        backups.make_closed(part)
        _take_place(room, own, part)
    except (OSError, safe.NoFile) as fault:
        raise Stop(f"the copy failed: {part}: {safe.why(fault)}; {LAST}") from fault


def _take_place(room: Room, own: str, part: str) -> None:
    """One rename, so that there is a whole copy at any moment. A log there is that of somebody who
    looked at the last one."""
    kept = os.path.join(backups.folder(room), "standby")
    os.makedirs(kept, 0o700, exist_ok=True)
    with safe.opened(safe.folder(own)) as source, safe.opened(
            safe.own_folder(part)) as fresh, safe.opened(safe.own_folder(kept)) as target:
        with safe.opened(safe.file_below(source, room.base)) as number, safe.opened(os.open(
                room.base, os.O_WRONLY | os.O_CREAT | os.O_EXCL | os.O_CLOEXEC, 0o600,
                dir_fd=fresh)) as made:
            safe.copy_all(number, made)
            os.fsync(made)
        try:
            os.unlink(f"{room.base}-wal", dir_fd=target)
        except FileNotFoundError:
            pass
        os.rename(room.base, room.base, src_dir_fd=fresh, dst_dir_fd=target)
        os.fsync(target)


def hindered(room: Room) -> str:
    """Where STANDBY is a folder, as of another machine's disk: rsync would make one that isn't
    there, on this machine's own disk."""
    def look() -> str:
        if os.path.isdir(room.standby):
            return backups.unmounted(room.standby, "STANDBY")
        return f"no folder: {room.standby}, of STANDBY in {room.conf}, isn't there"
    if not room.standby.startswith("/"):
        return ""
    return str(waiting.answer(waiting.PATIENCE, look, room.standby) or "")


def send(room: Room) -> None:
    """The time isn't asked, which may have been set back. A large room takes as long as its way
    does; rsync itself ends where that is dead."""
    if not room.standby:
        return
    if why := hindered(room):
        raise Stop(why)
    done = commands.beyond(
        ["nice", "rsync", "--ignore-times", "--times", "--perms", "--no-whole-file", "--fsync",
         "--timeout=60", "-e", "ssh -o BatchMode=yes -o ConnectTimeout=10", "--",
         f"{backups.folder(room)}/standby/{room.base}", f"{room.standby}/"],
        _SAID)
    if done.status != 0:
        raise Stop(f"{room.standby} doesn't get the copy: {done.out[-_TOLD:]}")


def make(room: Room) -> None:
    """One run at a time."""
    part = os.path.join(backups.folder(room), "standby.part")
    with locks.lock(f"{room.unit}.standby", 10), ExitStack() as owned:
        try:
            # What a killed run has left.
            shutil.rmtree(part, ignore_errors=True)
            hours.remove_left(room)
            own = owned.enter_context(private_server.own_folder(room))
            began = time.time()
            copied = copy(room, own)
            if copied is not None:
                keep(room, copied, own, part)
                try:
                    if room.hours:
                        hours.keep(room, os.path.join(backups.folder(room), "standby"), began)
                finally:
                    # Whether or not there is one of the hour.
                    send(room)
        finally:
            report.ignore_signals()
            shutil.rmtree(part, ignore_errors=True)
            hours.remove_left(room)


def would(room: Room) -> None:
    """Nothing is copied, since that holds the room."""
    if server.settled(room) == "inactive":
        say(f"{room.unit} isn't running: {LAST}")
        return
    place = os.path.join(backups.folder(room), "standby", room.base)
    print(f"would: {room.file}, {server.size_of(room.file) >> 20} MB, is copied to {place}")
    if why := hindered(room):
        say(why)
    elif room.standby:
        print(f"would: {room.standby} gets it")
    if room.hours and hours.is_due(hours.found(room).backups, time.time()):
        print(f"would: an hourly copy is kept in {hours.place(room)}")
