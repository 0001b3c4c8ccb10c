"""Writes the file of names that the web interface offers, as PEOPLE of the settings says: who has a
password, the groups, full names. nginx shows it as /people to whoever signs in. Nothing decides by
it."""
import argparse
import os

from ..cli import words
from ..host import locks
from ..room import published, settings
from . import known, offered
from ..cli.report import say


def arguments(parser: words.Parser) -> None:
    words.room(parser)
    words.dry_run(parser, "what would be shown")


def run(given: argparse.Namespace) -> int:
    os.umask(0o077)
    os.chdir("/")
    room = settings.room(given.room)
    published.name_of(room)
    newest_one = known.newest_backup(room)
    with locks.lock(room.unit, 60):
        what = known.newest(room, newest_one) if room.people != "no" else None
        failures = (offered.would if given.dry_run else offered.write)(room, what)
    for failure in failures:
        say(failure)
    return 1 if failures else 0
