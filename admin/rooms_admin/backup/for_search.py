"""Texts of documents for searches (docs/search.md), of rooms with SEARCH=yes: each night a service
has those of the verified copy read. Root brings it a copy of its own, in a folder of root's, and
reads nothing of what it writes but names."""
import contextlib
import json
import os
import pwd
import re

from ..host import as_if, safe
from ..host.changes import Changes
from ..room import private_server, server
from ..room.published import ROOT
from ..room.settings import Room
from ..cli.report import Interrupted, Stop

# Each room has a folder there, of this user; and while a night reads its copy, another one where
# who keeps texts doesn't get to: a copy has members and records too.
PLACE, COPIES, USER = "/var/cache/rooms-texts", "/var/cache/rooms-texts-copies", "rooms-texts"
# In a room's folder: what has no text, and why.
LIST = "without.csv"
_NIGHT = re.compile(r"night\.([1-9][0-9]{0,17})")


def unit(name: str) -> str:
    return f"rooms-texts-night@{name}"


def build(room: Room, kept: str, at: int, night: str) -> str:
    """Of the backup `kept`, of which all was so at that moment, in milliseconds. Returns what
    hindered that: until the next night nothing is found then."""
    if not room.search or os.geteuid() != 0:
        return ""
    folder = f"{ROOT}{COPIES}/{room.name}"
    try:
        _bring(room, kept, folder, {"at": at, "night": night, "scans": room.scans})
        reads = unit(room.name)
        status, said = server.systemctl("start", reads)
        return "" if status == 0 else _lacks(room, said or f"journalctl -u {reads}")
    except Interrupted:
        raise
    except (OSError, Stop, safe.NoFile) as fault:
        return _lacks(room, str(fault) if isinstance(fault, Stop) else safe.why(fault))
    finally:
        safe.remove_folder(folder)


def _lacks(room: Room, why: str) -> str:
    return f"texts of {room.name} aren't searched until the next night: {why}"


def _bring(room: Room, kept: str, folder: str, about: dict[str, object]) -> None:
    try:
        found = pwd.getpwnam(USER)
    except KeyError:
        raise Stop(f"no user {USER}: systemd-sysusers rooms.conf") from None
    for above in (ROOT + PLACE, ROOT + COPIES):
        if not os.path.isdir(above):
            os.mkdir(above, 0o711)
            os.chmod(above, 0o711)
    # One that a run has left which was killed.
    safe.remove_folder(folder)
    os.mkdir(folder, 0o700)
    with safe.opened(safe.folder(kept)) as source, safe.opened(safe.own_folder(folder)) as target:
        private_server.copy_files(room.base, source, target, "room")
        safe.new_file(target, "about", json.dumps(about).encode(), 0o600)
    private_server.give_to(folder, found.pw_uid, found.pw_gid)


def last(room: Room) -> float | None:
    """When the copy was made whose texts are there, in seconds."""
    try:
        found = os.listdir(f"{ROOT}{PLACE}/{room.name}")
    except OSError:
        return None
    return max((int(one[1]) / 1000 for name in found if (one := _NIGHT.fullmatch(name))),
               default=None)


def tidy(made: Changes, kept: set[str]) -> None:
    """Only rooms of these names have texts."""
    there: set[str] = set()
    for place in (PLACE, COPIES):
        with contextlib.suppress(OSError):
            there |= set(as_if.listdir(made.root + place))
    for name in sorted(there - kept):
        remove(made, name)


def remove(made: Changes, name: str) -> None:
    """Whoever has them open has them no longer."""
    found = [f"{place}/{name}" for place in (PLACE, COPIES)
             if as_if.isdir(f"{made.root}{place}/{name}")]
    for folder in found:
        made.remove_folder(folder)
    if found:
        made.systemctl("try-restart", "rooms-texts.service", check=False)
