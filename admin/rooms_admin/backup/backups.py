"""Which backups a room has, and which of them is the newest: by the number that each run wrote, and
not by its name, since a clock may have been set back. Each room has a folder of its own below
BACKUPS. Those that an earlier version left in BACKUPS itself are the room's too.

A backup is a folder of root's with files of root's, which nobody else can change. Whatever else has
the name of one is told, and as long as it is there no backup is removed."""
import contextlib
import datetime
import errno
import hashlib
import os
import re
import struct
import time
from collections.abc import Callable, Iterable
from dataclasses import dataclass, field

from ..host import safe, waiting
from ..cli.report import Refused, say
from ..room.settings import Room

DATED = re.compile(r"\d{4}-\d\d-\d\d\.\d{6}", re.ASCII)
# Beside the two files: which run it was, and how large they are; where there is a log, also the
# room's file's SHA-256. Both are written once the copy was found sound. (Who copies a folder by
# names may be cut off between a room's file and its log.)
RUN, FILES = "run", "files-of-run"
_SUM = "sha256"
# What the program leaves of a log that it has brought into the file.
_EMPTY_LOG = 41
# A clock may be ahead for a night. Where it is further from the last backup than that, what would
# be lost by its date stays, until the next night.
TRUSTED = datetime.timedelta(7)
# No run gets so far: one a second for thirty years.
_MOST = 999_000_000


@dataclass(order=True, frozen=True)
class Backup:
    """Those of versions that wrote no number are older than all that have one."""
    number: int
    name: str
    above: str = field(compare=False)

    @property
    def place(self) -> str:
        return os.path.join(self.above, self.name)


@dataclass
class Found:
    """From the oldest to the newest, and what is told of others, a line each."""
    backups: list[Backup]
    wrong: list[str]


def moments(name: str) -> list[int]:
    """When a backup of this name can have been made, in seconds since 1970: names have the
    machine's own time. An hour of an autumn night is there twice, one of spring never."""
    try:
        said = time.strptime(name, "%Y-%m-%d.%H%M%S")
        found = {int(time.mktime((*said[:8], summer))) for summer in (0, 1)}
        return sorted(at for at in found if time.localtime(at)[:6] == said[:6])
    except (ValueError, OverflowError):
        return []


def day(name: str) -> datetime.date | None:
    """By its name."""
    try:
        return datetime.date.fromisoformat(name[:10])
    except ValueError:
        return None


def made(copy: Backup) -> int | None:
    """When this one was made: of two moments the one after which its number was written."""
    found = moments(copy.name)
    if len(found) < 2:
        return found[0] if found else None
    try:
        written = os.stat(os.path.join(copy.place, RUN)).st_mtime
    except OSError:  # Of a version that wrote none.
        return found[0]
    return found[written >= found[1]]


def below(backups: str, name: str) -> str:
    """The folder of a room by BACKUPS of its settings; rooms-admin add gives BACKUPS that name."""
    backups = backups.rstrip("/") or "/"
    return backups if os.path.basename(backups) == name else os.path.join(backups, name)


def folder(room: Room) -> str:
    return below(room.backups, room.name)


def _mount_points() -> list[str]:
    found = []
    try:
        with open(os.environ.get("ROOMS_ROOT", "") + "/etc/fstab", encoding="utf-8",
                  errors="surrogateescape") as table:
            for line in table:
                words = line.split()
                if len(words) > 1 and not line.startswith("#") and words[1].startswith("/"):
                    found.append(words[1].replace("\\040", " "))
    except OSError:
        pass
    return found


def unmounted(folder_of: str, setting: str = "BACKUPS") -> str:
    """The mount point of a disk that isn't mounted is an ordinary folder: nothing is written there,
    and what lies there is from before the disk came. What is told of it, if it is so."""
    resolved = os.path.realpath(folder_of) + "/"
    for place in _mount_points():
        if resolved.startswith(place.rstrip("/") + "/") and not os.path.ismount(place):
            return (f"not mounted: {place}, which /etc/fstab has, so {folder_of}, of {setting}, "
                    "isn't on its disk")
    return ""


def need_disk(backups: str) -> None:
    if why := waiting.answer(waiting.PATIENCE, lambda: unmounted(backups), backups):
        raise Refused(str(why))


def make_folder(room: Room) -> str:
    """The room's own one, for root alone."""
    place = folder(room)
    try:
        os.mkdir(place, 0o700)
    except FileExistsError:
        try:
            with safe.opened(safe.own_folder(place)):
                return place
        except safe.NoFile as what:
            raise OSError(errno.EPERM, f"it is {what}") from what
    with safe.opened(safe.folder(os.path.dirname(place))) as above:
        os.fsync(above)
    return place


def make_closed(place: str) -> None:
    """A new folder for root alone. Some disks, such as those of cameras, know no owners and no
    modes: all on them is what their mount says."""
    os.mkdir(place, 0o700)
    if os.stat(place).st_mode & 0o077:
        os.rmdir(place)
        raise OSError(errno.EPERM, "its disk leaves it open to other accounts: mount it with the "
                      "option umask=0077")


def begin(place: str) -> None:
    """Before there is anything else in a new one: `cp` takes files by their numbers on the disk, so
    that a copy which is cut off has this list before the room's file."""
    with safe.opened(safe.own_folder(place)) as within:
        safe.new_file(within, FILES, b"", 0o600)


def give_number(within: int, number: int, base: str) -> None:
    """What makes a copy a backup, once it was found sound: before it gets its name all of it is on
    the disk, since one whose number a power cut took would count as older than all others."""
    has = [name for name in (base, f"{base}-wal") if name in os.listdir(within)]
    rows = [f"{os.stat(name, dir_fd=within).st_size} {name}" for name in has]
    if len(has) > 1:
        rows.append(f"{_SUM} {_sum(within, base)}")
    for name, text in ((FILES, "\n".join(rows)), (RUN, f"number {number}")):
        with safe.opened(os.open(
                name, os.O_WRONLY | os.O_CREAT | os.O_TRUNC | os.O_NOFOLLOW | os.O_CLOEXEC, 0o600,
                dir_fd=within)) as made:
            safe.write_all(made, os.fsencode(f"{text}\n"))
            os.fsync(made)
    os.fsync(within)


def _sum(within: int, file: str) -> str:
    found = hashlib.sha256()
    with safe.opened(safe.file_below(within, file)) as source:
        while part := os.read(source, 1 << 20):
            found.update(part)
    return found.hexdigest()


def _not_whole(within: int, file: str,
               read: Callable[[int, str], int] = safe.own_file_below) -> str:
    """What a room's copy lacks: without its log, or with a part of it, it is the room of an earlier
    moment. Whoever had the program look into it here has brought the log into the file, which is
    another one since."""
    there = os.listdir(within)
    if not there:
        return "it is empty"
    try:
        with safe.opened(read(within, FILES)) as listed:
            text = os.fsdecode(os.read(listed, 2000))
            noted = os.fstat(listed).st_mtime
    except FileNotFoundError:  # Of a version that wrote none.
        return ""
    if not text:
        return f"{FILES} is empty"
    rows = {name: what for what, _, name in (row.partition(" ") for row in text.splitlines())}
    sizes = {name: int(size) for name, size in rows.items() if size.isdecimal()}
    # Without it in that list it is another room's, or of before FILE was another.
    if file not in sizes:
        return ""
    for name, size in sizes.items():
        has = os.lstat(name, dir_fd=within).st_size if name in there else 0
        if has >= size or has == _EMPTY_LOG:
            continue
        if not _was_changed(within, file, has if name == file else 0, noted,
                            next((one for one, what in rows.items() if what == _SUM), "")):
            return f"{name} has {has} of {size} bytes"
    return ""


def _was_changed(within: int, file: str, shorter: int, noted: float, total: str) -> bool:
    """Whether somebody has brought the log into the file, since the run made both. Its time tells
    that of no copy: many have the moment at which they were copied."""
    try:
        with safe.opened(safe.file_below(within, file)) as source:
            if shorter:
                size, pages = map(int, struct.unpack(">16xH10xI",
                                                     os.read(source, 32).ljust(32, b"\0")))
                return 0 < pages * (65536 if size == 1 else size) <= shorter
            if not total:  # Of a version that wrote none.
                return os.fstat(source).st_mtime > noted
    except FileNotFoundError:
        return False
    return _sum(within, file) != total


def _number(within: int) -> int:
    """Of what a folder has that nobody else can change; 0 of a version that wrote none."""
    try:
        with safe.opened(safe.own_file_below(within, RUN)) as number:
            text = os.read(number, 100).decode("ascii", "replace")
    except FileNotFoundError:
        return 0
    except safe.NoFile as what:
        raise ValueError(str(what)) from what
    found = re.fullmatch(r"number ([1-9]\d{0,8})\n?", text, re.ASCII)
    if not found or int(found[1]) > _MOST:
        raise ValueError("no number that a run has given")
    return int(found[1])


def _look_at(above: str, name: str, file: str, found: Found) -> None:
    """One folder that can't be read keeps no other from being found."""
    place = os.path.join(above, name)
    what = place
    try:
        with safe.opened(safe.own_folder(place)) as within:
            what = f"{place}/{file}"
            is_there = True
            try:
                with safe.opened(safe.own_file_below(within, file)):
                    pass
            except FileNotFoundError:
                is_there = False
            if why := _not_whole(within, file):
                found.wrong.append(f"not whole: {place}: {why}")
                return
            if not is_there:
                return
            number = 0
            try:
                number = _number(within)
            except ValueError as fault:
                found.wrong.append(f"bad number: {place}/{RUN} is {fault}")
            found.backups.append(Backup(number, name, above))
    except NotADirectoryError:
        found.wrong.append(f"no backup: {place} has the name of one, and is no folder")
    except safe.NoFile as kind:
        found.wrong.append(f"no backup: {what} is {kind}")
    except OSError as fault:
        found.wrong.append(f"not read: {what}: {safe.reason(fault)}")


def dated(backups: str, name: str, file: str) -> Found:
    """Those of the room of this name that have this file, below BACKUPS of its settings."""
    found = _in(dict.fromkeys((backups.rstrip("/") or "/", below(backups, name))), file)
    if why := unmounted(backups):
        found.wrong.append(why)
    return found


def _in(folders: Iterable[str], file: str) -> Found:
    found = Found([], [])
    for above in folders:
        try:
            names = os.listdir(above)
        except FileNotFoundError:
            continue
        except OSError as fault:
            found.wrong.append(f"not read: {above}: {safe.reason(fault)}")
            continue
        for one in sorted(names):
            if DATED.fullmatch(one):
                _look_at(above, one, file, found)
    found.backups.sort()
    return found


def hours_below(backups: str, name: str) -> str:
    """Where standby keeps hourly copies (HOURS): nothing that tidies backups looks there."""
    return os.path.join(below(backups, name), "hours")


def hourly(backups: str, name: str, file: str) -> Found:
    """Those copies, from the oldest to the newest, by the number that each was given."""
    return _in([hours_below(backups, name)], file)


def of_night(backups: str, name: str, night: str, file: str) -> str:
    """The folder of one backup or hourly copy of the room of this name, or nothing."""
    found = Found([], [])
    for above in dict.fromkeys((below(backups, name), backups.rstrip("/") or "/",
                                hours_below(backups, name))):
        if DATED.fullmatch(night):
            _look_at(above, night, file, found)
    return found.backups[0].place if found.backups else ""


def jump(found: Found) -> str:
    """Each run gives its backup the number of the one before it and one more."""
    last = found.backups[-2:]
    if len(last) < 2 or not last[0].number or last[1].number - last[0].number == 1:
        return ""
    return (f"numbers jump: {last[1].place} is number {last[1].number}, and {last[0].place}, the "
            f"one before it, number {last[0].number}")


def look(room: Room) -> Found:
    """All of a room's backups, by whoever may wait for a disk that hangs."""
    return dated(room.backups, room.name, room.base)


def _patiently(backups: str, name: str, file: str) -> Found:
    def asked() -> object:
        found = dated(backups, name, file)
        return [[[one.number, one.name, one.above] for one in found.backups], found.wrong]
    got = waiting.answer(waiting.PATIENCE, asked, backups)
    if not isinstance(got, list):
        return Found([], [f"not read: {backups}: the look failed"])
    return Found([Backup(*one) for one in got[0]], got[1])


def known(room: Room) -> Found:
    """The same, by whoever doesn't wait for it."""
    return _patiently(room.backups, room.name, room.base)


def with_file(backups: str, name: str, file: str) -> list[Backup]:
    """Those that have a file, by BACKUPS and the room's name alone: a new machine may have no
    settings that can be read."""
    return _patiently(backups, name, file).backups


def newest(room: Room, name: str) -> str:
    """The file of this name of the newest backup that has one; nothing if none has."""
    need_disk(room.backups)

    def asked() -> object:
        with_one = [one.place for one in look(room).backups
                    if os.path.isfile(os.path.join(one.place, name))]
        return os.path.join(with_one[-1], name) if with_one else ""
    return str(waiting.answer(waiting.PATIENCE, asked, room.backups) or "")


def find(room: Room, backup: str) -> str:
    """The folder of a backup, by the word that names it: a path has a slash in it."""
    if "/" not in backup:
        need_disk(room.backups)
    if backup == "latest":
        found = known(room)
        # What doesn't count may be newer than the one that is taken.
        for text in found.wrong:
            say(text)
        if not found.backups:
            raise Refused(f"no backup: {room.backups} has none of this room")
        return found.backups[-1].place
    places = [backup] if "/" in backup else [
        os.path.join(above, backup) for above in (
            folder(room), room.backups, hours_below(room.backups, room.name))]

    def asked() -> object:
        there = [one for one in places if os.path.isdir(one)]
        whole = [one for one in there if os.path.isfile(f"{one}/{room.base}")]
        return [*there[:1], *whole[:1], *[why_not(one) for one in whole[:1]]]

    def why_not(place: str) -> str:
        with contextlib.suppress(safe.NoFile), safe.opened(safe.folder(place)) as within:
            # Of a disk that root has mounted for somebody all is theirs.
            return _not_whole(within, room.base, safe.file_below)
        return ""
    got = waiting.answer(waiting.PATIENCE, asked, os.path.dirname(places[-1]))
    if not isinstance(got, list) or not got:
        raise Refused(f"no backup: {places[0]} isn't a folder")
    if len(got) == 1:
        raise Refused(f"no backup: {got[0]}/{room.base} isn't there or can't be read")
    if got[2]:
        raise Refused(f"not whole: {got[1]}: {got[2]}")
    return os.path.abspath(str(got[1]))


def tell_bare(place: str) -> None:
    """What has a backup's name and nothing of a run's own may be a part of a copy: to whoever is
    about to rely on it."""
    def asked() -> bool:
        return any(os.path.lexists(os.path.join(place, name)) for name in (RUN, FILES))
    if DATED.fullmatch(os.path.basename(place)) and not waiting.answer(
            waiting.PATIENCE, asked, place):
        say(f"no number: {place} is of an early version, or copying it was cut off: its log may "
            "lack, with the last changes")
