"""A backup put in a room's place: the files are exchanged by renames, and what a run that was
cut off has left is put right."""
import os
import re
import time
from collections.abc import Callable, Iterator
from contextlib import contextmanager
from dataclasses import dataclass

from ..cli import report
from ..host import locks, safe
from ..room import health, private_server, program, server, settings
from . import backups, dates
from ..cli.report import Interrupted, Refused, Stop, say
from ..room.settings import Room


# What a restore leaves of the room that was there.
_BEFORE = re.compile(r"before-restore\.\d{4}-\d\d-\d\d\.\d{6}", re.ASCII)


def refuse_while_served(room: Room) -> None:
    """A unit that systemd keeps restarting is 'activating'."""
    state = server.state(room)
    if state not in ("inactive", "failed"):
        raise Refused(f"the server runs ({room.unit} is '{state}'): --start stops it for a moment, "
                      f"or systemctl stop {room.unit}")
    for process in (int(one) for one in os.listdir("/proc") if one.isdigit()):
        if process != os.getpid() and server.has_open(process, room.file):
            raise Refused(f"process {process} has {room.file} open: stop it")


def is_there(at: int | None, name: str) -> bool:
    try:
        return at is not None and bool(os.stat(name, dir_fd=at, follow_symlinks=False))
    except FileNotFoundError:
        return False


def move(source: int | None, target: int | None, name: str) -> None:
    if is_there(source, name):
        os.rename(name, name, src_dir_fd=source, dst_dir_fd=target)


def verified(room: Room, copied: str, backup: str) -> None:
    status, out, text = program.on_copy(room, copied, ["verify"])
    if status != 0:
        raise Stop(f"no backup: verify of {backup}/{room.base} gives status {status}: "
                   f"{text or out.decode(errors='replace').strip()}")


@dataclass(frozen=True)
class Taken:
    """What a backup has, in a folder of this run's own: whoever has it asks no disk of backups. It
    was verified there, where the room's user changes nothing. That writes to it, and not to the
    backup."""
    place: str
    copied: str
    dates: dates.Restored


@contextmanager
def taken_from(room: Room, place: str) -> Iterator[Taken]:
    """For whoever has no lock: its disk may hang."""
    backups.tell_bare(place)
    with private_server.private_copy(room, place) as copied:
        verified(room, copied, place)
        yield Taken(place, copied, dates.Restored(room, place))


class Restore:
    """All is done below folders that are open, since they are the room's user's."""

    def __init__(self, room: Room, start: bool) -> None:
        self.room = room
        self.start = start
        self.guard: server.Guard | None = None
        self.base, self.log = room.base, room.base + "-wal"
        self.at = safe.folder(room.folder)
        self.name = f"restoring.{room.base}"
        # An earlier version had one place for it, whose files tell which room it was.
        for part in ("old", "new"):
            if os.path.lexists(f"{room.folder}/restoring/{part}/{room.base}"):
                self.name = "restoring"
        self.kept = ""
        self.own = False
        self.dates: dates.Restored | None = None
        self.stage: int | None = None
        self.old: int | None = None
        self.new: int | None = None
        self.open_stage()

    def open_stage(self) -> None:
        self.stage = self._below(self.at, self.name)
        self.old, self.new = self._below(self.stage, "old"), self._below(self.stage, "new")

    def _below(self, within: int | None, name: str) -> int | None:
        return safe.folder_below(within, name) if within is not None and is_there(
            within, name) else None

    def settle(self, which: str) -> None:
        """Cleans up after a run that was cut off. The mark 'aside' says that the files in the
        room's place are the new ones; the room's file is moved there last."""
        self.open_stage()
        if self.stage is None:
            return
        if is_there(self.at, self.base) and is_there(self.stage, "aside"):
            self.tell_dates()
            self.keep_old()
            say(f"{which} was cut off when all was done: the room is the restored one")
        elif is_there(self.at, self.base) and is_there(self.old, self.base):
            raise Refused(f"two rooms: {self.room.file} came after a restore that was cut off, "
                          f"which left the old one in {self.room.folder}/{self.name}/old; move one "
                          "of them away")
        elif is_there(self.at, self.base):
            say(f"{which} ended before it changed anything: the room is the old one")
        else:
            try:
                self.put_back()
            except OSError as fault:
                raise Stop(f"the old room is in {self.room.folder}/{self.name}/old and can't be "
                           f"put back: {fault.strerror}; rooms-admin restore --undo tries again"
                           ) from fault
            say(f"{which} was cut off: the room is the old one again")
        self.remove_stage()

    def tell_dates(self) -> None:
        """Of what is in the room's place, as long as the mark says that it is. Which backup a run
        had put there that was cut off, nobody knows any more."""
        if self.dates:
            self.dates.tell()
        else:
            dates.tell(self.room, "restored", 0)

    def put_back(self) -> None:
        if is_there(self.stage, "aside"):
            move(self.at, self.new, self.log)
            os.unlink("aside", dir_fd=self.stage)
        move(self.old, self.at, self.log)
        move(self.old, self.at, self.base)

    def remove_stage(self) -> None:
        for at, name in ((self.new, self.base), (self.new, self.log), (self.stage, "aside")):
            if is_there(at, name):
                os.unlink(name, dir_fd=at)
        try:
            for within, name in ((self.stage, "new"), (self.stage, "old"), (self.at, self.name)):
                if is_there(within, name):
                    os.rmdir(name, dir_fd=within)
        except OSError as fault:
            raise Stop(f"{self.room.folder}/{self.name} can't be removed: it has more in it than a "
                       "restore leaves") from fault
        self.stage = self.old = self.new = None

    def keep_old(self) -> None:
        """The old files go to a folder of their own, under the names that they had."""
        if self.old is None:
            return
        try:
            os.rmdir("old", dir_fd=self.stage)
            return
        except OSError:
            pass
        name = kept = time.strftime("before-restore.%F.%H%M%S")
        turn = 1
        while is_there(self.at, kept):
            turn += 1
            kept = f"{name}.{turn}"
        self.give(self.old)
        os.rename("old", kept, src_dir_fd=self.stage, dst_dir_fd=self.at)
        self.kept = os.path.join(self.room.folder, kept)

    def give(self, number: int) -> None:
        if os.geteuid() == 0:
            os.fchown(number, self.room.owner, self.room.group)

    def make_copy(self, taken: Taken) -> None:
        """Of the private one."""
        self.dates = taken.dates
        self.dates.look(taken.copied)
        self.make_stage()
        assert self.new is not None
        try:
            with safe.opened(safe.folder(os.path.dirname(taken.copied))) as source:
                private_server.copy_files(os.path.basename(taken.copied), source, self.new,
                                          self.base)
            for name in (self.base, self.log):
                if name == self.log and not is_there(self.new, name):
                    continue
                with safe.opened(safe.file_below(self.new, name)) as number:
                    os.fsync(number)
                    self.give(number)
        except (OSError, safe.NoFile) as fault:
            raise Stop(f"copy of {taken.place}/{self.base} failed: {safe.why(fault)}") from fault

    def make_stage(self) -> None:
        """Until all is done it is root's, and nobody else changes anything in it."""
        try:
            os.mkdir(self.name, 0o700, dir_fd=self.at)
            self.open_stage()
            for name in ("new", "old"):
                os.mkdir(name, 0o700, dir_fd=self.stage)
            self.open_stage()
        except OSError as fault:
            raise Stop(f"no folder: {self.room.folder}/{self.name} can't be made: {fault.strerror}"
                       ) from fault

    def swap(self) -> None:
        """In this order no file is ever beside the log of another."""
        assert self.stage is not None
        move(self.at, self.old, self.base)
        move(self.at, self.old, self.log)
        safe.new_file(self.stage, "aside", b"", 0o600)
        move(self.new, self.at, self.log)
        move(self.new, self.at, self.base)
        os.fsync(self.at)

    def restore(self, taken: Taken, named: str, starts: bool) -> None:
        """`starts` is whether somebody else starts the server afterwards."""
        self.own = True
        self.make_copy(taken)
        self.stop_server()
        # The server may have been started meanwhile.
        refuse_while_served(self.room)
        report.ignore_signals()
        try:
            self.swap()
        except OSError as fault:
            raise Stop(f"the files could not be exchanged: {fault.strerror}") from fault
        self.tell_dates()
        self.keep_old()
        self.remove_stage()
        # A unit that has given up can't be started by hand before this.
        server.systemctl("reset-failed", self.room.unit)
        print(f"restored {self.room.file} from {taken.place}")
        if self.kept:
            served = "--start " if self.start or starts else ""
            print(f"the old room is in {self.kept}; to put it back: rooms-admin restore {served}"
                  f"{named}{self.kept}")
        if not self.start and not starts:
            print(f"to start the server: systemctl start {self.room.unit}")

    def stop_server(self) -> None:
        if not self.start or self.guard is not None:
            return
        self.guard = server.Guard(self.repair)
        if server.state(self.room) not in ("inactive", "failed"):
            server.mark(self.room)
            server.stop(self.room)

    def repair(self) -> None:
        """After a kill: a whole room in place, and the server."""
        try:
            self.settle("this restore")
        except (Stop, OSError) as fault:
            say(str(fault))
        server.start_marked(self.room)

    def start_server(self) -> None:
        """Whatever happened, if this run has stopped it or was to start it."""
        if self.guard is None:
            return
        server.systemctl("reset-failed", self.room.unit)
        server.start_marked(self.room)
        self.guard.end()
        time.sleep(1)
        server.look_whether_it_stays(self.room)
        why = health.answer(self.room)
        if why:
            raise Stop(why)


def _room(conf: str) -> Room:
    """Where its own disk isn't mounted, what is written below the mount point would be hidden once
    the disk is back, with all that was done since."""
    room = settings.room(conf)
    if why := backups.unmounted(room.folder, "FILE"):
        raise Refused(why)
    return room


def restore_room(conf: str, backup: str, start: bool, starts: bool = False,
                 look: Callable[[Taken], None] = lambda taken: None) -> None:
    """Without a backup it only cleans up after a run that was cut off. What the disk of backups has
    is here before the room is locked. `look` may change what was taken."""
    room = _room(conf)
    named = f"--room {conf} " if conf else ""
    with locks.lock(room.unit, 0):
        if not start:
            refuse_while_served(room)
        if not backup or Restore(room, start).stage is not None:
            _restore_locked(room, None, named, start, starts)
    if not backup:
        return
    with taken_from(room, backups.find(room, backup)) as taken:
        look(taken)
        with locks.lock(room.unit, 60):
            _restore_locked(room, taken, named, start, starts)


def _restore_locked(room: Room, taken: Taken | None, named: str, start: bool, starts: bool) -> None:
    if not start:
        refuse_while_served(room)
    task = Restore(room, start)
    if task.stage is None and not taken:
        _tell_nothing(room, named)
    try:
        if task.stage is not None or not taken:
            task.stop_server()
            refuse_while_served(room)
            task.settle("an earlier restore")
        if taken:
            task.restore(taken, named, starts)
    except (Stop, OSError) as stop:
        report.ignore_signals()
        if task.own:
            if isinstance(stop, Interrupted):
                say("interrupted")
            task.settle("this restore")
        raise
    finally:
        report.ignore_signals()
        if task.dates:
            task.dates.end()
        task.start_server()


def _tell_nothing(room: Room, named: str) -> None:
    """Whoever means a restore that was done to its end has to name what it left."""
    kept = max((f"{room.folder}/{name}" for name in os.listdir(room.folder)
                if _BEFORE.fullmatch(name)
                and os.path.lexists(f"{room.folder}/{name}/{room.base}")), default="")
    say(f"nothing to undo: no restore of {room.name} was cut off" +
        (f"; to go back behind the last one: rooms-admin restore {named}--start {kept}"
         if kept else ""))


def would_restore(conf: str, backup: str, start: bool, look: Callable[[Taken], None]) -> None:
    """The backup is verified as it would be; nothing is stopped, and nothing changes."""
    room = _room(conf)
    if not start:
        refuse_while_served(room)
    with taken_from(room, backups.find(room, backup)) as taken:
        print(f"would: restored {room.file} from {taken.place}")
        look(taken)
    if start:
        print(f"would: {room.unit} is stopped for a moment, and started")
