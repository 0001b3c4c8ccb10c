"""Writes what each user was given further down, a file for each, from last night's review. nginx
shows the caller's own one as /mine, and that of '*' to whoever has no row in the review."""
import argparse
import os

from ..cli import words
from ..room import published, settings
from ..backup import backups, texts
from . import further_down
from ..cli.report import Refused


def arguments(parser: words.Parser) -> None:
    words.room(parser)
    words.dry_run(parser, "how much would be shown")


def run(given: argparse.Namespace) -> int:
    os.umask(0o077)
    os.chdir("/")
    room = settings.room(given.room)
    published.name_of(room)
    last = backups.newest(room, room.base)
    if not last:
        raise Refused(f"no backup yet, whose review is shown: systemctl start {room.nightly}")
    with texts.beside(room, os.path.dirname(last), texts.REVIEW) as source:
        (further_down.would if given.dry_run else further_down.write)(
            room, texts.of_csv(source), os.fstat(source.fileno()).st_mtime)
    return 0
