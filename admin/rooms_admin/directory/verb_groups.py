"""Brings the groups of a room into line with a directory (LDAP, Active Directory), by the settings
/etc/rooms/directory and NAME.groups beside those of the room. Nothing is changed if the directory
doesn't answer; if a group would have no member; or if more than MOST pairs of a group and a user
would go; with --force neither of the last two counts. A group that the directory hasn't, under that
name, stays as it is and is named, with status 1; the others are brought into line. The server is
stopped only if there is something to change, or if the room's file isn't the one of the last run,
and is started again whatever happened."""
import argparse
import os
from contextlib import ExitStack

from ..cli import report, words
from ..host import mail
from ..room import settings
from . import groups
from ..cli.report import Refused, Stop, say


def arguments(parser: words.Parser) -> None:
    parser.forms = ["[--dry-run] [--force] [--room ROOM]", "--names [--room ROOM]",
                    "--after [--room ROOM]"]
    words.room(parser)
    how = parser.add_mutually_exclusive_group()
    words.flag(how, "--dry-run", "print what would come and go, and change nothing")
    words.flag(how, "--names", "print users of the last backup whom the directory writes in "
               "other capitals, and change nothing")
    words.flag(how, "--after", "only do what a run that was cut off still owes; the unit calls it")
    words.flag(parser, "--force", "change more than MOST, and empty a group")


def run(given: argparse.Namespace) -> int:
    os.umask(0o077)
    os.chdir("/")
    if given.force and (given.names or given.after):
        raise Refused("bad arguments: --force goes with neither --names nor --after")
    room = settings.room(given.room)
    failures: list[str] = []
    with ExitStack() as owned:
        task = groups.Run(room, given, owned)
        try:
            status = groups.work(task, given)
        except Stop as stop:
            failures = groups.all_of(stop)
            status = stop.status
        report.ignore_signals()
        failures += task.failures
        for failure in failures:
            say(failure)
        if failures and not (given.dry_run or given.names):
            mail.notify(room.mail, f"{room.unit} on {os.uname().nodename}: groups of the directory "
                        "failed", failures)
    return status
