"""Who was last known to be in a room's groups, in one file of root's: whoever reads or changes the
members keeps it. The names that the web interface offers are made of it, and groups sees by it
whether the server has to stop."""
import contextlib
import os
import re
import time
from dataclasses import dataclass, replace

from ..host import commands, safe, waiting
from ..room import program, published, server
from ..backup import backups, texts
from ..lists import dump
from . import members
from ..cli.report import Refused, say
from ..room.settings import Room
from ..lists.dump import Pair

FILE = "members.csv"
# The number and the name of a backup.
Newest = tuple[int | None, str | None]
NOT_ASKED: Newest = (None, None)
_FIRST = re.compile(r" after (\d{1,9})(?: (\S*) of (file \d+ of -?\d+|))?", re.ASCII)


@dataclass(frozen=True)
class Known:
    """`file` is that of the room of which this is known, and `number` and `name` are those of the
    newest backup then: a clock may be set back. An earlier version has written less."""
    members: set[Pair]
    at: float
    file: str = ""
    number: int | None = None
    name: str | None = None


def which_file(room: Room) -> str:
    """A restore puts another file into the room's place, with other members."""
    return commands.run(["stat", "-c", "file %i of %W", "--", room.file]).out.strip()


def newest_backup(room: Room) -> Newest:
    """For whoever hasn't locked the room yet: its disk may hang, and then it isn't known."""
    with contextlib.suppress(waiting.Hangs):
        found = backups.known(room).backups
        return (found[-1].number, found[-1].name) if found else (0, "")
    return NOT_ASKED


def here(room: Room, pairs: set[Pair], newest_one: Newest, at: float | None = None) -> Known:
    """Of the file that is there, at that moment or now."""
    return Known(pairs, time.time() if at is None else at, which_file(room), *newest_one)


def _of_copy(room: Room, pairs: set[Pair], newest_one: Newest, at: float, copied: int) -> Known:
    """Of a copy that was begun at a moment, in seconds. A file that came later, as a backup that
    was put in the room's place, has other members."""
    found = here(room, pairs, newest_one, at)
    born = found.file.rpartition(" ")[2]
    return replace(found, file="") if born.isdigit() and int(born) > copied else found


def _path(room: Room) -> str:
    return f"{published.FOLDER}/{published.name_of(room)}/{FILE}"


def keep(room: Room, known: Known) -> None:
    """No disk of backups is asked, since whoever keeps it has the room."""
    about = ""
    if known.number is not None:
        about = f" after {known.number} {known.name or ''} of {known.file}"
    published.folder(room)
    safe.put_file(_path(room), members.as_text(known.members, about).encode(), 0o600, at=known.at)


def try_to_keep(room: Room, known: Known) -> None:
    if not published.has_name(room):
        return
    try:
        keep(room, known)
    except OSError:
        say(f"{_path(room)} can't be written: the next run looks into the room again")


def change(room: Room, before: set[Pair], joins: set[Pair], leaves: set[Pair]) -> set[Pair]:
    """Who is there then, but for what somebody else changed by hand. What was known goes first: a
    run that is cut off leaves nothing known, and the next one looks. No disk of backups is touched
    while the server rests."""
    _forget(room)
    members.change(room, joins, leaves)
    return (before - leaves) | joins


def _forget(room: Room) -> None:
    """An empty file says from when on nothing is known. On a full disk there is none."""
    if not published.has_name(room):
        return
    try:
        published.folder(room)
        safe.put_file(_path(room), b"", 0o600)
    except OSError:
        with contextlib.suppress(FileNotFoundError):
            os.unlink(_path(room))


def _noted(room: Room) -> tuple[float, Known | None]:
    """When something was noted last, and what was known then; never, if nothing was."""
    if not published.has_name(room):
        return 0, None
    try:
        with safe.own_file(_path(room)) as source:
            text = source.read().decode("ascii", "replace")
            at = os.fstat(source.fileno()).st_mtime
    except FileNotFoundError:
        return 0, None
    if not text:
        return at, None
    found = _FIRST.fullmatch(members.about(text))
    if found is None:
        return at, Known(members.of_text(text), at)
    return at, Known(members.of_text(text), at, found[3] or "", int(found[1]), found[2])


def kept(room: Room) -> Known | None:
    """What was known last; nothing if nothing was."""
    return _noted(room)[1]


def _is_since(at: float, begun: float | None) -> bool:
    """Whether that was after a night's copy was begun, which then lacks it. What is still to come
    was noted by a clock that was ahead."""
    return begun is not None and begun <= at <= time.time()


def of_night(room: Room, pairs: set[Pair], newest_one: Newest, written: float,
             night: str) -> Known | None:
    """What is known once the copy of a night has told who was in groups then: whatever was noted
    since then counts more. Nothing, if a change since then was cut off."""
    at, last = _noted(room)
    copied = max((one for one in backups.moments(night) if one <= written), default=int(written))
    if _is_since(at, copied):
        if last is None:
            return None
        if last.file == which_file(room):
            return replace(last, number=newest_one[0], name=newest_one[1])
    return _of_copy(room, pairs, newest_one, written, copied)


def is_newer(known: Known, last: backups.Backup) -> bool:
    """Its number doesn't say that where the backup came later and its copy was begun before."""
    if _is_since(known.at, backups.made(last)):
        return True
    if known.number is None:
        return known.at >= (backups.made(last) or 0)
    name = last.name if known.name is None else known.name
    return (known.number, name) >= (last.number, last.name)


def in_backup(room: Room, last: backups.Backup, file: str = "") -> Known:
    """Nobody waits for a disk of backups that hangs: whoever asks may hold the room."""
    def asked() -> list[Pair] | None:
        with contextlib.suppress(FileNotFoundError), safe.own_file(
                os.path.join(last.place, texts.LISTS)) as source:
            return list(dump.members(source))
        return None
    found = waiting.answer(server.patience(room), asked, last.above)
    if isinstance(found, list):
        members_then = {(group, user) for group, user in found}
    else:
        with texts.beside(room, last.place, texts.LISTS) as source:
            members_then = dump.members(source)
    return Known(members_then, backups.made(last) or 0, file, last.number, last.name)


def newest(room: Room, newest_one: Newest = NOT_ASKED) -> Known:
    """A room that nobody serves is asked; of another one the last backup tells it, or what was
    known last if that is newer, and of this file."""
    if server.state(room) == "inactive":
        return here(room, members.read(room, program.enough(room, room.file)), newest_one)
    found = backups.known(room).backups
    last = kept(room)
    if last is None and not found:
        raise Refused(f"no backup yet, whose groups are shown: systemctl start {room.nightly}")
    if last and not found:
        return last
    if last and is_newer(last, found[-1]) and last.file in ("", which_file(room)):
        return last
    return in_backup(room, found[-1], last.file if last and last.file == which_file(room) else "")
