"""Which earlier nights a room has, by its settings and its backups."""
import os
from dataclasses import dataclass

from rooms_admin.room import names, needs, settings
from rooms_admin.backup import backups
from rooms_admin.cli.report import Refused


@dataclass
class Nights:
    """Of a room. `shown_to` is who sees what isn't there any more, and none is from before
    `first`."""
    name: str
    base: str
    backups: str
    program: str
    shown_to: str
    first: str


@dataclass
class Night:
    name: str
    # Seconds since 1970, since its name has the machine's own time.
    at: int


def of(word: str) -> Nights | None:
    """Those of a room that shows them."""
    if not names.is_room(word):
        return None
    try:
        found = settings.kept(f"{settings.HOME}/{word}.conf")
    except Refused:
        return None
    return Nights(word, os.path.basename(found.file), found.backups, found.program, found.earlier,
                  found.first_night) if found.shows_nights else None


def all_of(room: Nights) -> list[Night]:
    """From the newest to the oldest, hourly copies among them. As for an administrator that goes by
    the number of each run: where a clock was set back, a later one has an earlier date."""
    found: dict[str, tuple[int, int, Night]] = {}
    for kept in (backups.hourly, backups.dated):
        last = 0
        for one in kept(room.backups, room.name, room.base).backups:
            at = backups.made(one)
            if at is not None and one.name >= room.first:
                last = max(last, at)
                found[one.name] = (last, one.number, Night(one.name, at))
    return [night for _, _, night in sorted(found.values(), key=lambda it: it[:2], reverse=True)]


def place_of(room: Nights, night: str) -> str:
    """Its folder, or nothing: one that was removed isn't shown any more, nor is one from before the
    first night that counts."""
    if night < room.first or not backups.moments(night):
        return ""
    return backups.of_night(room.backups, room.name, night, room.base)


def megabytes(room: Nights, place: str) -> int:
    """What a server of it needs at its start: its rows, pages of its file, and the program; or what
    that night took, if it was more."""
    files = (os.path.join(place, room.base + end) for end in ("", "-wal"))
    size = sum(os.path.getsize(one) for one in files if os.path.exists(one)) >> 20
    need = needs.of_night(room.name, os.path.basename(place))
    return max(size + min(size, 128) + 16 + size // 16, need.memory if need else 0)
