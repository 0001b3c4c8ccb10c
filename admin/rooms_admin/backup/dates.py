"""When documents of a room changed: the door beside it keeps that (docs/door.md), by lines about
each change. What no line tells of, root does, in files that nobody else writes and that the door
reads: root puts nothing into a folder of the door's."""
import contextlib
import json
import os
import pwd
import select
import stat
import sys
import time

from ..host import commands, locks, processes, safe, taken, waiting
from ..room import program
from . import backups
from ..cli.report import Interrupted, Stop, say
from ..room.published import ROOT
from ..room.settings import Room

# Where each room's door has a folder of its own, and what is told to all of them. Both are root's.
CHANGES, TOLD = "/var/lib/rooms-changes", "/var/lib/rooms-told"
FOLDER = ROOT + TOLD
# What a door hasn't taken in a month it needn't: it begins with nothing.
_MONTH = 31 * 86_400_000
_HERE = os.path.dirname(os.path.realpath(__file__))
_LIST, _OF_DOOR = (os.path.join(_HERE, name) for name in ("objects_of_copy.py",
                                                          "dates_of_door.py"))
# In a backup, whole and while it is written; and how many bytes that has at most.
KEPT, FRESH, _MOST = "dates", ".dates.new", 64 << 20
# Seconds for what the door knows, which itself ends before that.
_PATIENCE = 660.0
# The door's own file; and the group of a process that is to have none.
_STORE, _NO_GROUP = "dates.db", 65534
# Who a door is. Its folder is made when it starts for the first time.
_DOOR = "rooms-door"


def _reader(room: Room, begins: bool = False) -> int | None:
    """The user of the room's door, if one has kept what changed, or is to begin."""
    try:
        seen = os.lstat(f"{ROOT}{CHANGES}/{room.name}")
    except OSError:
        return _door() if begins and room.notes_changes else None
    return seen.st_uid if room.notes_changes and stat.S_ISDIR(seen.st_mode) else None


def _door() -> int | None:
    try:
        return pwd.getpwnam(_DOOR).pw_uid
    except KeyError:
        return None


def journal(room: Room) -> int:
    """How many bytes the lines have that the room's door hasn't taken away. Its folder is the
    door's, so nothing there is opened."""
    size = 0
    for name in ("journal", "journal.old"):
        with contextlib.suppress(OSError):
            size += os.lstat(f"{ROOT}{CHANGES}/{room.name}/{name}").st_size
    return size


def _to(reader: int) -> int:
    """Only root gives a file away."""
    return reader if os.geteuid() == 0 else -1


def files(name: str) -> list[str]:
    """Of a room."""
    return [f"{TOLD}/{name}.{end}" for end in ("night", "told", "words")]


def now() -> int:
    return int(time.time() * 1000)


def _words(place: str) -> list[dict[str, object]]:
    try:
        with open(place, encoding="utf-8") as source:
            return [json.loads(line) for line in source]
    except (FileNotFoundError, ValueError):
        return []


def tell(room: Room, what: str, value: object) -> None:
    """`forget` has the name of a user, `changed` the path of what root has changed, and `restored`
    the moment of the backup that is in the room's place now, or 0 if nobody knows it. What was done
    is done: whoever did it isn't held up by dates."""
    reader = _reader(room)
    if reader is None:
        return
    try:
        _add_word(room, reader, what, value)
    except Interrupted:
        raise
    except (OSError, Stop) as fault:
        say(f"the door of {room.name} isn't told what dates need: {fault}")


def _add_word(room: Room, reader: int, what: str, value: object) -> None:
    """What was given to the door isn't opened again, since its owner could hold whoever does."""
    own = f"{FOLDER}/{room.name}.words"
    with locks.lock(f"{room.unit}.told", 60):
        moment = now()
        kept = [one for one in _words(own) if int(str(one["at"])) > moment - _MONTH]
        number = max([time.time_ns(), *(int(str(one["number"])) + 1 for one in kept)])
        kept.append({"number": number, "at": moment, what: value})
        data = "".join(f"{json.dumps(one)}\n" for one in kept).encode()
        safe.put_file(f"{FOLDER}/{room.name}.told", data, 0o400, owner=_to(reader))
        safe.put_file(own, data, 0o600)


def restored(room: Room) -> float:
    """When a backup was put into the room's place last, in seconds, as far as its door was told."""
    return max((int(str(one["at"])) / 1000 for one in _words(f"{FOLDER}/{room.name}.words")
                if "restored" in one), default=0.0)


def tell_changed(room: Room, path: bytes) -> None:
    """What is at and below that path, which no line tells of."""
    tell(room, "changed", path.decode("utf-8", "surrogateescape").strip("/"))


def keep(room: Room, folder: str) -> str:
    """Puts what the door knows into a backup. Who made a change isn't in it: so whose name is
    forgotten doesn't come back. Returns what hindered that."""
    reader = _reader(room)
    above = f"{ROOT}{CHANGES}/{room.name}"
    if reader is None or not os.path.lexists(f"{above}/{_STORE}"):
        return ""
    try:
        said, fault = _told_by_door(reader, above)
        if not fault:
            safe.put_file(os.path.join(folder, KEPT), said, 0o600)
    except OSError as why:
        fault = why.strerror or str(why)
    return f"{folder} has no dates of documents: {fault}" if fault else ""


def _told_by_door(reader: int, above: str) -> tuple[bytes, str]:
    """What the helper prints as the door's user, and what it says of faults. Whoever else is that
    user may hold it."""
    who = None if os.geteuid() == reader else commands.Who(reader, _NO_GROUP)
    with commands.started([sys.executable, "-IB", _OF_DOOR, _STORE], program.alone(0), who,
                          stdin=commands.NOTHING, cwd=above) as child:
        assert child.stdout and child.stderr
        said, late = _read(child.stdout.fileno(), time.monotonic() + _PATIENCE)
        if late or len(said) > _MOST:
            processes.end(child.pid, reader)
        fault = child.stderr.read(1000).decode(errors="replace").strip()
    if len(said) > _MOST:
        return b"", f"more than {_MOST >> 20} MB"
    if late:
        return b"", f"no answer within {_PATIENCE:.0f} s"
    return said, "" if child.returncode == 0 else fault or f"status {child.returncode}"


def _read(source: int, ends: float) -> tuple[bytes, bool]:
    """All, or a little more than may be; and whether that took longer than it may."""
    said = bytearray()
    while len(said) <= _MOST:
        if not select.select([source], [], [], max(0.0, ends - time.monotonic()))[0]:
            return bytes(said), True
        part = os.read(source, 1 << 16)
        if not part:
            break
        said += part
    return bytes(said), False


def _kept(backup: str) -> bytes:
    """What a backup has of it, if that is root's own."""
    try:
        with taken.file(os.path.join(backup, KEPT)) as source:
            return safe.read_at_most(source.fileno(), _MOST)
    except OSError:
        return b""


def _is_of_night(backup: str) -> bool:
    return waiting.answer(waiting.PATIENCE, lambda: os.path.exists(
        os.path.join(backup, backups.RUN)), backup) is True


def _write_list(room: Room, fresh: str, reader: int, copied: str, at: int, megabytes: int,
                known: bytes = b"") -> None:
    _remove(fresh)
    with safe.opened(os.open(fresh, os.O_RDWR | os.O_CREAT | os.O_EXCL | os.O_CLOEXEC,
                             0o600)) as into:
        status, _, said = program.helper_on_copy(
            room, copied, [sys.executable, "-IB", _LIST], [str(at), *(["-"] if known else [])],
            megabytes, into, known)
        if status != 0:
            raise OSError(f"status {status}: {said}")
        os.fchown(into, _to(reader), -1)
        os.fchmod(into, 0o400)
        os.fsync(into)


def _remove(fresh: str) -> None:
    with contextlib.suppress(OSError):
        os.unlink(fresh)


class Night:
    """What a private copy has, of which all was so at that moment."""

    def __init__(self, room: Room) -> None:
        self.room = room
        self.has_list = False
        # A restore meanwhile has another one.
        self.fresh = f"{FOLDER}/{room.name}.new"

    def look(self, copied: str, at: int, megabytes: int) -> str:
        """Returns what hindered that."""
        reader = _reader(self.room)
        if reader is None:
            return ""
        try:
            _write_list(self.room, self.fresh, reader, copied, at, megabytes)
            self.has_list = True
            return ""
        except OSError as fault:
            return f"the dates of {self.room.name} lack this night: {fault.strerror or fault}"

    def tell(self) -> None:
        """What is made beside it is there by now."""
        _put_list(self.room, self.fresh, self.has_list)

    def end(self) -> None:
        _remove(self.fresh)


def _put_list(room: Room, fresh: str, has_list: bool) -> None:
    if has_list:
        with contextlib.suppress(OSError):
            os.rename(fresh, f"{FOLDER}/{room.name}.night")


class Restored:
    """The dates of what a backup has stay, where the door knows that it is the same."""

    def __init__(self, room: Room, backup: str) -> None:
        self.room = room
        self.has_list = False
        self.fresh = f"{FOLDER}/{room.name}.restored"
        # Before it all was as the backup has it, by the name that a nightly run gave it.
        found = backups.moments(os.path.basename(backup))
        self.at = min(found) * 1000 if found and _is_of_night(backup) else 0
        self.known = _kept(backup) if self.at else b""

    def look(self, copied: str) -> None:
        """At a private copy, while the room is still the old one, or none was here."""
        reader = _reader(self.room, True)
        if reader is None:
            return
        try:
            _write_list(self.room, self.fresh, reader, copied, self.at or now(),
                        program.enough(self.room, copied), self.known)
            self.has_list = True
        except OSError as fault:
            say(f"the dates of {self.room.name} come back in the next night: "
                f"{fault.strerror or fault}")

    def tell(self) -> None:
        """It is in the room's place."""
        tell(self.room, "restored", self.at)
        _put_list(self.room, self.fresh, self.has_list)

    def end(self) -> None:
        _remove(self.fresh)
