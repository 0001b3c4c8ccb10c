"""Members of a room's groups: how they are written, and how the program reads and changes them
while no server runs."""
import hashlib
import os

from ..host import commands
from ..room import names, program
from . import spreadsheet
from ..cli.report import Refused, Stop
from ..room.settings import Room
from ..lists.dump import Pair


_BAD = "the groups can't be read"
# So many changes fit into a command line, however long their names are.
_BY_WORDS = 4000
# What a file says of the members of which it was made, behind its heading.
_OF = "of "


def of_text(text: str) -> set[Pair]:
    """Of lines group,user below a line with these words."""
    rows = (line.split(",") for line in text.splitlines()[1:])
    return {(names.user_in(row[0], _BAD), names.user_in(row[1], _BAD)) for row in rows
            if len(row) == 2}


def as_text(members: set[Pair], about: str = "") -> str:
    """What is known about them may stand in the first line."""
    return f"group,user{about}\n" + "".join(f"{group},{user}\n"
                                            for group, user in sorted(members))


def about(text: str) -> str:
    return text.partition("\n")[0].removeprefix("group,user")


def state_of(members: set[Pair]) -> str:
    """By which a file of before is told from one of now."""
    return hashlib.sha256(as_text(members).encode()).hexdigest()[:12]


def as_file(members: set[Pair]) -> str:
    """For a spreadsheet, and back by `of_file`."""
    return as_text(members, f",{_OF}{state_of(members)}")


def of_file(path: str) -> tuple[set[Pair], str]:
    """The members that a file of an office has, and the state of which it was made, if it says."""
    found: set[Pair] = set()
    state = ""
    for number, fields in spreadsheet.rows(path, "group"):
        if not number:
            state = "".join(fields[2:3]).removeprefix(_OF)
            continue
        if len(fields) < 2 or any(fields[2:]) or not all(map(names.is_user, fields[:2])):
            raise Refused(f"bad names: {path}, line {number} isn't GROUP,USER")
        found.add((fields[0], fields[1]))
    if not found:
        raise Refused(f"no names: {path} has none")
    return found, state


def done(what: str, status: int, out: bytes, text: str) -> bytes:
    """What the program printed."""
    if status != 0:
        raise Stop(f"{what} failed: {text or out.decode(errors='replace').strip()}")
    return out


def of_program(out: bytes) -> set[Pair]:
    """What `rooms groups-out` printed."""
    return of_text(out.decode("ascii", "replace"))


def read(room: Room, megabytes: int = 0) -> set[Pair]:
    return of_program(printed(room, "groups-out", megabytes))


def printed(room: Room, word: str, megabytes: int = 0, into: int | None = None) -> bytes:
    """Nothing of what is written into a file."""
    return done(word, *program.run(room, [word, room.file], megabytes=megabytes,
                                   stdout=commands.PIPE if into is None else into))


def change(room: Room, joins: set[Pair], leaves: set[Pair]) -> str:
    """In one transaction, in which the program reads who is there: so what somebody else changed
    stays. A word that begins with a dash would be an option for it, and too many don't fit into a
    command line: then it gets all members in a file. Who leaves and joins is there."""
    if len(joins) + len(leaves) > _BY_WORDS or any(
            name.startswith("-") for pair in joins | leaves for name in pair):
        return _replace(room, (read(room) - leaves) | joins)
    words = [word for option, pairs in (("--join", joins), ("--leave", leaves))
             for pair in sorted(pairs) for word in (option, *pair)]
    return _said(program.run(room, ["groups", room.file, *words]))


def _replace(room: Room, members: set[Pair]) -> str:
    """The file has no name, so nothing is written into a folder of another user's."""
    number = os.memfd_create("groups", os.MFD_CLOEXEC)
    with os.fdopen(number, "wb") as file:
        file.write(as_text(members).encode())
        file.flush()
        os.fchmod(number, 0o644)
        return _said(program.run(room, ["groups", room.file, f"/proc/self/fd/{number}"],
                                 pass_fds=(number,)))


def _said(did: tuple[int, bytes, str]) -> str:
    return done("groups", *did).decode(errors="replace").strip()
