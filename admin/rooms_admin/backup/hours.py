"""Hourly copies of a room, which standby keeps where HOURS of its settings says how many. Each is
the last copy for the standby, verified and in one file, in a folder of its own with the number that
it was given: so restore, get and the earlier nights take it as they take a backup."""
import os
import shutil
import time

from ..host import safe
from ..room import server
from . import backups, tidying
from ..cli.report import Stop, say
from ..room.keep import Keep
from ..room.settings import Room

HOUR = 3600
# Bytes of the disk of backups that stay free for the nightly run, beside as much as the room takes.
SPARE = 256 << 20


def found(room: Room) -> backups.Found:
    return backups.hourly(room.backups, room.name, room.base)


def place(room: Room) -> str:
    return backups.hours_below(room.backups, room.name)


def age(copy: backups.Backup, now: float) -> float:
    """Seconds since it was made. Of a name that no clock has shown it was long ago."""
    return now - (backups.made(copy) or 0)


def is_due(kept: list[backups.Backup], now: float) -> bool:
    """An hour after the last one. One from a time to come was made before a clock was set back."""
    return not kept or age(kept[-1], now) >= HOUR or age(kept[-1], now) < -60


def wants(room: Room, kept: list[backups.Backup]) -> int:
    """Bytes that have to be free until there are as many as there may be: a further one is made
    before the oldest goes, and only beside as much again."""
    size = server.size_of(room.file)
    return (max(1, room.hours - len(kept)) + 1) * size + SPARE


def remove_left(room: Room) -> None:
    """What a run has left that was cut off."""
    try:
        names = os.listdir(place(room))
    except FileNotFoundError:
        return
    for name in names:
        if backups.DATED.fullmatch(name.removesuffix(".part")) and name.endswith(".part"):
            shutil.rmtree(os.path.join(place(room), name), ignore_errors=True)


def _make_folder(room: Room) -> None:
    """The first time it is told how much all of them will take."""
    where = place(room)
    try:
        os.mkdir(where, 0o700)
    except FileExistsError:
        with safe.opened(safe.own_folder(where)):
            return
    disk = os.statvfs(where)
    size = server.size_of(room.file)
    say(f"hourly copies of {room.name} begin: {room.hours} of them take "
        f"{room.hours * size >> 20} MB in {where}, whose disk has "
        f"{disk.f_bavail * disk.f_frsize >> 20} MB free")


def _copy(room: Room, source: str, number: int, now: float) -> str:
    where = place(room)
    date = time.strftime("%F.%H%M%S", time.localtime(now))
    part = os.path.join(where, f"{date}.part")
    backups.make_closed(part)
    with safe.opened(safe.own_folder(source)) as last, safe.opened(
            safe.own_folder(part)) as fresh:
        with safe.opened(safe.own_file_below(last, room.base)) as from_, safe.opened(os.open(
                room.base, os.O_WRONLY | os.O_CREAT | os.O_EXCL | os.O_CLOEXEC, 0o600,
                dir_fd=fresh)) as made:
            safe.copy_all(from_, made)
            os.fsync(made)
        backups.give_number(fresh, number, room.base)
    if os.path.lexists(part.removesuffix(".part")):
        raise Stop(f"{part.removesuffix('.part')} is there already: the clock was set back")
    os.rename(part, part.removesuffix(".part"))
    with safe.opened(safe.folder(where)) as above:
        os.fsync(above)
    return date


def _remove_old(room: Room, before: backups.Found, date: str) -> list[str]:
    """As of backups: what isn't as a run leaves it keeps all others."""
    jump = backups.jump(before)
    wrong = [*before.wrong, *([jump] if jump else [])]
    if wrong:
        return [f"no older hourly copy is removed: {one}" for one in wrong]
    said = [tidying.remove(room, one.place, "has more in it than a copy")
            for one in tidying.beyond(before.backups, Keep(room.hours), date)]
    return [one for one in said if one]


def keep(room: Room, source: str, now: float) -> None:
    """Of the copy in this folder, which was begun at that moment, if an hour has passed since the
    last one was kept. Its name says what it has: nothing that came later."""
    try:
        before = found(room)
        if not is_due(before.backups, now):
            return
        _make_folder(room)
        disk = os.statvfs(place(room))
        size = server.size_of(os.path.join(source, room.base))
        if disk.f_bavail * disk.f_frsize < 2 * size + SPARE:
            raise Stop(f"no hourly copy: the disk of {place(room)} has "
                       f"{disk.f_bavail * disk.f_frsize >> 20} MB free, and one takes "
                       f"{size >> 20} MB; the last ones stay")
        number = 1 + max((one.number for one in before.backups), default=0)
        date = _copy(room, source, number, now)
        hindered = _remove_old(room, before, date)
    except (OSError, safe.NoFile) as fault:
        raise Stop(f"no hourly copy: {place(room)}: {safe.why(fault)}; the last ones stay"
                   ) from fault
    if hindered:
        raise Stop("; ".join(hindered))
