"""Takes accesses back whose end date is over, by last night's lists: the entries of that level and
no others. The server stops for that, as for `rooms reset` by hand: it is done in nobody's name, no
record says that it was, and an access ends too where whoever gave it has left. A date counts for
its list: whoever wrote it could have taken the same away."""
import argparse
import os

from ..cli import words
from ..host import locks
from ..room import settings
from ..backup import backups
from . import ended, look
from ..cli.report import Refused


def arguments(parser: words.Parser) -> None:
    words.room(parser)
    words.flag(parser, "--dry-run", "print what would be done, and change nothing")


def run(given: argparse.Namespace) -> int:
    os.umask(0o077)
    os.chdir("/")
    room = settings.room(given.room)
    if not backups.known(room).backups:
        raise Refused("no backup yet, by whose date the clock is judged: systemctl start "
                      f"{room.nightly}")
    with locks.lock(room.unit, 60), look.lists_of(room, not given.dry_run) as lists:
        return 1 if ended.take_back(room, lists.file, ended.last_day(room), given.dry_run) else 0
