"""Without FILE it prints who is in which group, for a spreadsheet: a line GROUP,USER for each pair.
With FILE it has the room's groups be what such a file says, with commas or semicolons: each pair
that the file alone has comes in, and each that it lacks goes out of the room's groups. The server
stops once for all of it, if anything changes.

Each pair that comes (+) or goes (-) is printed first. A file that this verb printed is refused once
somebody else has changed groups. Nobody is taken who has no password and is in no group, as whoever
has left, and no group that has no member, without --new; and no more than 10 pairs go without
--force."""
import argparse
import os

from ..cli import alike, report, words
from ..room import published, settings
from ..passwords import passwords
from . import joining, look, members, offered
from ..cli.report import Refused
from ..room.settings import Room

# More of them is a file that was cut off, rather than what somebody wants.
MOST = 10


def arguments(parser: words.Parser) -> None:
    parser.forms = ["[--json] [--room ROOM]", "[--new] [--force] [--dry-run] [--room ROOM] FILE"]
    words.word(parser, "file", "[FILE]", "who is to be in which group, all groups of it")
    words.room(parser)
    words.flag(parser, "--new", "groups need have no member yet, and users no password")
    words.flag(parser, "--force", "more than 10 pairs may go, and groups may have changed since "
               "the file was printed")
    words.dry_run(parser, "who would come and go")
    words.rows(parser)


def _print(now: set[tuple[str, str]], is_json: bool) -> int:
    if is_json:
        report.put_rows([{"group": group, "user": user} for group, user in sorted(now)])
    else:
        print(members.as_file(now), end="")
    return 0


def _look_at(room: Room, change: joining.Change, state: str, given: argparse.Namespace) -> None:
    if state and state != members.state_of(change.before) and not given.force:
        raise Refused(f"changed meanwhile: {given.file} is of other members than there are now: "
                      "have it printed again, and put your changes there")
    if not given.new:
        change.need_groups()
        _need_users(room, change)
    if len(change.leaves) > MOST and not given.force:
        raise Refused(f"too much: {len(change.leaves)} pairs would go; look at them by --dry-run, "
                      "and --force if that is meant")


def _need_users(room: Room, change: joining.Change) -> None:
    if not room.has_passwords:
        return
    there = {user for _, user in change.before}.union(
        *map(offered.with_password, passwords.password_files(published.name_of(room))))
    for user in sorted({user for _, user in change.joins} - there):
        raise Refused(f"no user: {user} has no password and is in no group, as whoever has left; "
                      f"--new takes new ones{alike.meant(user, there)}")


def run(given: argparse.Namespace) -> int:
    wanted, state = members.of_file(given.file) if given.file else (set(), "")
    if not given.file and (given.new or given.force or given.dry_run):
        raise Refused("bad arguments: --new, --force and --dry-run are for a FILE")
    if given.file and given.json:
        raise Refused("bad arguments: --json goes with no FILE")
    if given.file:
        report.nothing_yet()
    os.umask(0o077)
    os.chdir("/")
    room = settings.room(given.room)
    may_stop = bool(given.file) and not given.dry_run
    with joining.locked(room, keeps=may_stop) as newest_one:
        now = members.of_program(look.at(room, "groups-out", may_stop=may_stop)[0])
        if not given.file:
            return _print(now, given.json)
        change = joining.asked(now, wanted, now - wanted)
        for line in change.lines():
            print(line, flush=True)
        _look_at(room, change, state, given)
        if not given.dry_run:
            after = joining.make(room, change)
            print(joining.counted(after), flush=True)
            offered.show(room, after, newest_one)
    return 0
