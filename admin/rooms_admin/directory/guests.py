"""Guests of a room whose passwords a directory checks: they have theirs in the room's file, which
is asked after the directory. So nobody has one there whom the directory has, whether or not it lets
them in: whoever leaves would go on by the file."""
import os
import shlex
from collections.abc import Iterable

from ..room import settings
from ..passwords import passwords
from ..cli.report import Refused, Stop
from ..room.settings import Place, Room
from .directory import Directory

FILE = "/etc/rooms/directory"
# So many names are asked for in one question.
_AT_ONCE = 50


def settings_of(conf: str) -> settings.Directory:
    """Beside those of a room."""
    return settings.directory(os.path.join(os.path.dirname(conf), "directory"))


def spelled(where: settings.Directory, name: str) -> str:
    """How the directory writes a name, in whatever capitals; nothing where it has none."""
    asked = Directory(where)
    found = asked.search(where.base, True, f"({where.name}={asked.quoted(name)})", [where.name])
    return next((one for row in found for one in row.values.get(where.name.lower(), [])), "")


def doubled(asked: Directory, users: Iterable[str]) -> list[str]:
    """Which of these the directory has too, in whatever capitals."""
    where, names = asked.where, sorted(users)
    theirs = set()
    for at in range(0, len(names), _AT_ONCE):
        of = "".join(f"({where.name}={asked.quoted(one)})" for one in names[at:at + _AT_ONCE])
        for row in asked.search(where.base, True, f"(|{of})", [where.name]):
            theirs |= {one.lower() for one in row.values.get(where.name.lower(), [])}
    return [one for one in names if one.lower() in theirs]


def both(asked: Directory, room: Place | Room) -> list[str]:
    """Who has a password in the file of a room that lets guests in, and is in the directory:
    whoever came there later has the name of a guest, and each would be the other."""
    files = passwords.password_files(room.name) if room.lets_guests else []
    return doubled(asked, set[str]().union(*map(passwords.users, files)))


def told(room: Place | Room, found: Iterable[str]) -> str:
    return (f"two passwords: {', '.join(found)} of {room.name} are in the directory too, and may "
            "keep none here, and their groups stay as they are until then: "
            f"for name in {shlex.join(found)}; do rooms-admin user remove "
            f'"$name" --password --room {room.name}; done')


def look(root: str, where: settings.Directory, rooms: Iterable[Place]) -> list[str]:
    """What has to be told of rooms that ask the directory: who can't sign in any more."""
    said = []
    asked = Directory(where)
    for one in rooms:
        kinds = passwords.kinds(root + passwords.file_of(root, one.name))
        users = {user for user, is_first in kinds.items() if not is_first}
        try:
            found = doubled(asked, kinds)
        except Refused:
            raise
        except Stop as stop:
            raise Refused(f"no directory: {stop}") from stop
        if one.guests and found:
            raise Refused(told(one, found))
        if (out := users - set(found)) and not one.guests:
            said.append(f"{', '.join(sorted(out))} of {one.name} can't sign in any more, whom the "
                        "directory hasn't: GUESTS=yes lets them in (docs/directory.md)")
        if first := kinds.keys() - users - set(found):
            said.append(f"{', '.join(sorted(first))} of {one.name} can't sign in, whom the "
                        "directory hasn't, by a first password: rooms-admin user add gives guests "
                        "another one")
    return said


def back(root: str, rooms: Iterable[Place]) -> list[str]:
    """Whose passwords in the files of rooms count again without the directory: best it says whom
    it has lost meanwhile. Guests signed in by theirs all the time."""
    said = []
    for one in rooms:
        users = passwords.users(root + passwords.file_of(root, one.name))
        if one.passwords == "directory" and not one.guests and users:
            said.append(f"{', '.join(sorted(users))} of {one.name} can sign in again, by passwords "
                        f"of before{_lost(root, users)}; rooms-admin user remove keeps them out")
    return said


def _lost(root: str, users: set[str]) -> str:
    try:
        found = doubled(Directory(settings.directory(root + FILE)), users)
    except Stop as stop:
        return f" (which of them the directory has isn't known: {stop})"
    lost = sorted(users - set(found))
    return f", and the directory hasn't {', '.join(lost)}" if lost else ""
