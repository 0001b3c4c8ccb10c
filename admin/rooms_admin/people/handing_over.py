"""What belongs to one user, given to another one, by requests."""
import json
import os
from collections.abc import Iterator

from ..cli import alike, report
from ..room import in_parts, names, settings
from ..passwords import passwords
from ..lists import dump
from . import known
from ..cli.report import Refused, Stop
from ..room.http_client import Caller, client, is_here


def rows(path: str) -> Iterator[dump.Object | dump.Pair]:
    """Of what `rooms dump` has printed, by whomever."""
    with open(path, "rb") as source:
        yield from dump.rows(source)


def _known_here(conf: str) -> set[str]:
    """Who has a password, or is in a group by now. Of a room elsewhere nobody is known."""
    if not is_here(conf):
        return set()
    room = settings.room(conf)
    last = known.kept(room)
    return set[str]().union({user for _, user in last.members} if last else (),
                            *map(passwords.users, passwords.password_files(room.name)))


def need_both(room: str, lists: str, giver: str, taker: str, is_new: bool) -> None:
    """A name that nobody has is most often another one, mistyped, and a later user of it would have
    what is given."""
    _look_at(lists, giver, taker)
    borne = dump.users(rows(lists))
    if giver not in borne:
        raise Stop(f"nobody: {giver} owns nothing and is in no group, as {lists} says"
                   f"{alike.meant(giver, borne)}")
    if taker in borne or is_new:
        return
    there = borne | _known_here(room)
    if taker not in there:
        raise Refused(f"no heir: nobody is called {taker}{alike.meant(taker, there)}; --new gives "
                      "to a new user")


def _look_at(lists: str, giver: str, taker: str) -> None:
    for name in (giver, taker):
        if not names.is_user(name):
            raise Refused(f"bad arguments: '{name}' isn't the name of a user")
    if giver == taker:
        raise Refused(f"bad arguments: {giver} would give to {taker}")
    if not os.path.isfile(lists) or not os.access(lists, os.R_OK):
        raise Refused(f"no lists: {lists} isn't a file that can be read")
    first = next(rows(lists), None)
    if not isinstance(first, dump.Object) or first.path != b"/":
        raise Refused(f"no lists: {lists} doesn't begin as what rooms dump prints")


def give(room: str, caller: Caller, lists: str, giver: str, taker: str, dry: bool) -> int:
    asked = client(room, caller, "the same command goes on where this one stopped", True)
    mine = {one.path: one.kind for one in rows(lists)
            if isinstance(one, dump.Object) and one.owner == giver}
    # A large document stands for its parts.
    parts = in_parts.hidden(os.fsdecode(path) for path in mine if mine[path] == "document")
    handed = others = 0
    for number, path in enumerate(mine, 1):
        report.progress(f"{number} of {len(mine)}: {os.fsdecode(path)}")
        got = asked.ask("GET", "attr", path)
        if got.status != 200:
            asked.report(path, f"its owner isn't read: {got.text()}")
            continue
        row = json.loads(got.body)
        is_one = os.fsdecode(path) not in parts
        if row["owner"] != giver:
            others += is_one
        elif dry and not asked.may(path, "o"):
            asked.report(path, "not given then: the right o is denied")
        elif dry:
            handed += is_one
            report.end_progress()
            if is_one:
                print(f"would: {names.shown(path)}")
        else:
            body = json.dumps({"group": row["group"], "owner": taker}, separators=(",", ":"))
            got = asked.ask("PUT", "attr", path, body.encode())
            if got.status == 204:
                handed += is_one
            else:
                asked.report(path, f"not given: {got.text()}")
    report.end_progress()
    would = "would be " if dry else ""
    print(f"{would}given {handed}, of others by now {others}, left out {asked.left_out}")
    return 0 if asked.left_out == 0 else 1
