"""What goes from the folders of backups: those beyond KEEP, and what a run has left that was cut
off. Only what a run made there is removed."""
import os
import shutil

from ..host import safe
from . import backups, dates, texts
from ..room.keep import Keep
from ..room.settings import Room
from .backups import Backup

# What is beside a room's two files, also while it is written. An earlier version had a verdict.
_BESIDE = (texts.RECORDS, texts.LISTS, texts.REVIEW, "machine.tar", "verdict", backups.RUN,
           backups.FILES, dates.KEPT, dates.FRESH)
_UNSOUND = ".unsound"
# How many copies stay in which verify found a fault.
UNSOUND = 3


def remove_unfinished(place: str) -> None:
    fresh = f"{place}/unfinished"
    if os.path.isdir(fresh) and not os.path.islink(fresh):
        shutil.rmtree(fresh)
    elif os.path.lexists(fresh):
        os.unlink(fresh)


def remove(room: Room, place: str, why: str) -> str:
    """What hindered that, if anything did. It has no backup's name from the beginning: where this
    is cut off, the next run goes on."""
    try:
        if not place.endswith(".part"):
            os.rename(place, f"{place}.part")
            place += ".part"
        for name in (room.base, room.base + "-wal", *_BESIDE):
            if os.path.lexists(f"{place}/{name}"):
                os.unlink(f"{place}/{name}")
        remove_unfinished(place)
        os.rmdir(place)
        return ""
    except OSError:
        return f"{place} can't be removed: it {why}"


def old_unsound(room: Room, place: str) -> list[str]:
    """A room that is damaged has one more each night, until somebody restores it, and the disk of
    backups is for good ones too. Those beyond the last go, of which one is at `place`; what
    hindered that."""
    above, last = os.path.split(place)
    older = [one for one in sorted(os.listdir(above)) if one != last and one.endswith(_UNSOUND)
             and backups.DATED.fullmatch(one.removesuffix(_UNSOUND))]
    return [remove(room, os.path.join(above, one), "has more in it than a copy")
            for one in older[:1 - UNSOUND]]


def ahead(before: list[Backup], keep: Keep, date: str) -> str:
    """Whether the clock may be so: weeks, months and years that have not been would have others go.
    Returns what is told of it."""
    last, now = backups.day(before[-1].name) if before else None, backups.day(date)
    if not keep.goes_by_dates or last is None or now is None or now - last <= backups.TRUSTED:
        return ""
    return f"the clock says {now}, and the last backup before is of {last}"


def beyond(before: list[Backup], keep: Keep, date: str) -> list[Backup]:
    """Those that don't stay, where tonight's does. One with a later name than a newer one that
    stays isn't removed: a clock was set back, or somebody has changed its number."""
    stays = keep.stay([*(one.name for one in before), date])
    first = date
    gone: list[Backup] = []
    for at in reversed(range(len(before))):
        if at in stays:
            first = min(first, before[at].name)
        elif before[at].name < first:
            gone.insert(0, before[at])
    return gone


def left(room: Room, at: str) -> list[str]:
    """What runs have left that were cut off; those of an earlier version had all in BACKUPS itself.
    No other one of this room is at work: this one has the lock. `at` is what it has itself."""
    told: list[str] = []
    for above in dict.fromkeys((backups.folder(room), room.backups)):
        try:
            names = sorted(os.listdir(above))
        except OSError:
            continue  # That is told where it is looked for backups.
        for name in names:
            place = os.path.join(above, name)
            if backups.DATED.fullmatch(name.removesuffix(".part")) and place != at:
                try:
                    told += _left_at(room, place, above == backups.folder(room))
                except (OSError, safe.NoFile):
                    continue
    return [one for one in told if one]


def _left_at(room: Room, place: str, is_own: bool) -> list[str]:
    dated = place.removesuffix(".part")
    with safe.opened(safe.own_folder(place)) as within:
        inside = set(os.listdir(within))
    ours = {room.base, room.base + "-wal", *_BESIDE, "unfinished"}
    if place != dated and inside <= ours and (room.base in inside or is_own):
        return [remove(room, place, "has more in it than a copy"),
                f"interrupted: an earlier run was cut off, and left no backup of "
                f"{os.path.basename(dated)}; what it had copied is removed"]
    if place == dated and {room.base, "unfinished"} <= inside:
        remove_unfinished(place)
        return [f"interrupted: an earlier run was cut off, and the backup of "
                f"{os.path.basename(dated)} may lack a part of what is written beside it"]
    return []
