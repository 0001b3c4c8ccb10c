"""Copies a room while it is served, for another machine that can take over; a timer runs it every
five minutes. Requests wait for the copy, as for that of the nightly run; a room that is too large
for that is refused. The copy is verified, which also puts its log into its file: one file is the
whole copy. It takes the place of the last one in BACKUPS/NAME/standby, and STANDBY gets it by rsync
when it is whole. With HOURS in the settings one copy each hour stays in BACKUPS/NAME/hours, and as
many as HOURS says."""
import argparse
import os
import shutil

from ..cli import words
from ..room import settings
from . import copying, standby
from ..cli.report import Refused


def arguments(parser: words.Parser) -> None:
    words.room(parser)
    words.dry_run(parser, "what would be copied and sent, without a copy")


def run(given: argparse.Namespace) -> int:
    os.umask(0o077)
    os.chdir("/")
    room = settings.room(given.room)
    copying.find_backups(room)
    if room.standby and not shutil.which("rsync"):
        raise Refused(f"no rsync: STANDBY in {room.conf} needs it: apt-get install rsync")
    if given.dry_run:
        standby.would(room)
    else:
        standby.make(room)
    return 0
