"""The names that the web interface offers, in the file that nginx shows as /people."""
import json
import os
import unicodedata
from typing import IO

from ..cli import signs
from ..host import locks
from ..room import names, published
from ..passwords import passwords
from ..lists import dump
from . import known, spreadsheet
from ..cli.report import Interrupted, Refused, Stop, say
from ..room.settings import Room
from .known import Known, Newest

FILE = "people.json"
_LONGEST = 200


def write(room: Room, what: Known | None) -> list[str]:
    """The file of a room whose groups had these members. Returns what is wrong with it, a line
    each: nobody's work stops for it."""
    failures: list[str] = []
    if not published.has_name(room):
        return failures
    try:
        if what:
            known.keep(room, what)
        if room.people == "no":
            published.remove(room, FILE)
        elif what:
            published.put(room, FILE, _text(room, what, failures))
    except OSError as fault:
        failures.append(f"{FILE} isn't written, and users see the last one: {fault}")
    return failures


def would(room: Room, what: Known | None) -> list[str]:
    """What is wrong with the file as it would be."""
    failures: list[str] = []
    place = f"{published.FOLDER}/{published.name_of(room)}/{FILE}"
    if what is None:
        print(f"would: {place} is removed" if os.path.lexists(place) else "nothing to change")
        return failures
    made = json.loads(_text(room, what, failures))
    print(f"would: new {place}: users {len(made['users'])}, groups {len(made['groups'])}, "
          f"full names {len(made['names'])}")
    return failures


def _text(room: Room, what: Known, failures: list[str]) -> bytes:
    users = {user for _, user in what.members}.union(
        *(with_password(file) for file in passwords.password_files(published.name_of(room))))
    groups: dict[str, list[str]] = {}
    for group, user in sorted(what.members):
        groups.setdefault(group, []).extend([user] if room.people == "full" else [])
    full = full_names(room.beside(".names"), users, failures)
    text = json.dumps({"made": published.moment(what.at), "members": room.people == "full",
                       "users": sorted(users), "groups": groups, "names": full},
                      separators=(",", ":"))
    return text.encode() + b"\n"


def nightly(room: Room, lists: IO[bytes], tonight: str) -> list[str]:
    """From what the nightly run has just written beside its backup."""
    found, newest_one = dump.members(lists), known.newest_backup(room)
    written = os.fstat(lists.fileno()).st_mtime
    with locks.lock(room.unit, 60):
        return write(room, known.of_night(room, found, newest_one, written,
                                          os.path.basename(tonight)))


def show_known(room: Room) -> None:
    """With who was last known to be in groups. A run that is at work writes them itself, or the
    next one does."""
    newest_one = known.newest_backup(room)
    try:
        with locks.lock(room.unit, 10):
            show(room, None, newest_one)
    except (locks.Busy, locks.NoPlace) as busy:
        say(f"the names that the web interface offers are those of before: {busy}")


def show(room: Room, now: set[dump.Pair] | None, newest_one: Newest) -> None:
    """The names that the web interface offers, with these members of groups, or with those that are
    known. What has been done stays done if that fails; before the first night there are none."""
    try:
        what = (known.here(room, now, newest_one) if now is not None
                else known.newest(room, newest_one))
        for failure in write(room, what):
            say(failure)
    except Refused:
        pass
    except Interrupted:
        raise
    except Stop as stop:
        say(f"the names that the web interface offers are those of before: {stop}")


def with_password(path: str) -> set[str]:
    """None where a directory checks passwords, or where another machine does."""
    found = passwords.users(path)
    for one in sorted(found):
        if one and not one.startswith("#") and not names.is_user(one):
            say(f"left out: {names.shown(os.fsencode(one))} in {path} can't be a user of a room")
    return {one for one in found if names.is_user(one)}


def full_names(path: str, users: set[str], failures: list[str]) -> dict[str, str]:
    """Lines LOGIN,FULL NAME. A line that can't be taken is told, and the others count."""
    found: dict[str, str] = {}
    if not os.path.lexists(path):
        return found
    try:
        for number, row in spreadsheet.rows(path, "login"):
            why = _why_not(row, found) if number else ""
            if why:
                failures.append(f"bad names: {path}, line {number} {why}")
            elif number:
                found[row[0]] = row[1]
    except Refused as refused:
        failures.append(str(refused))
    return {one: found[one] for one in sorted(found) if one in users}


def _why_not(row: list[str], found: dict[str, str]) -> str:
    if len(row) != 2 or not row[1]:
        return "isn't LOGIN,FULL NAME or LOGIN;FULL NAME; a name with that sign stands in quotes"
    if not names.is_user(row[0]):
        return f"begins with {row[0]!a}, which can't be a user of a room"
    if row[0] in found:
        return f"is a second one of {row[0]}"
    if len(row[1]) > _LONGEST:
        return f"has a name of more than {_LONGEST} characters"
    if signs.turns(row[1]) or any(
            unicodedata.category(one) in ("Cc", "Cs", "Zl", "Zp") for one in row[1]):
        return "has a sign in its name that can't be shown"
    return ""
