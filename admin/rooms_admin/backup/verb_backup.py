"""The nightly run: copies the room between two requests, while others wait, and says before for how
long at most. Then it verifies the copy, and lists and reviews what is in it, while the server runs.
A server that can't be held so, or whose room is too large for that, is stopped for the copy, and
started again; one that doesn't run isn't started.

BACKUPS/NAME/DATE gets the room's two files; run, with the number of the run, by which the newest
backup is known; records.csv, lists.txt, review.csv and, if root runs it, machine.tar. One of these
four that can't be made whole is missing, which is a failure, and the two files are a backup even
so. DATE.unsound is no backup. DATE.part is a copy that is being made; one that a run left that was
cut off is removed by the next one, which tells it. Backups beyond KEEP go, the oldest first, unless
a record of the copy can't be read, or something there isn't as a run leaves it.

It also tells, with status 1, that the server doesn't answer, that the room is nearly full, that its
disk takes no change, that the clock was set back, and that the site's certificate has ended. What
failed is sent to MAIL, or to the system's log."""
import argparse
import os

from ..cli import words
from ..host import locks
from ..room import settings
from . import night, texts
from ..people import ended, further_down, offered
from ..site import certificates
from ..machine_tar import machine_tar
from ..cli.report import Refused


def arguments(parser: words.Parser) -> None:
    words.room(parser)
    words.dry_run(parser, "where tonight's would be and which go by KEEP, without a copy")


def run(given: argparse.Namespace) -> int:
    os.umask(0o077)
    os.chdir("/")
    if given.dry_run:
        return night.would(settings.room(given.room))
    room = None
    try:
        room = settings.room(given.room)
        # One run at a time.
        with locks.lock(f"{room.unit}.nightly", 10):
            return night.Night(room, night.Beside(machine_tar.save, certificates.to_be_told, [
                (texts.LISTS, offered.nightly, "names to choose from stay those of before"),
                (texts.REVIEW, further_down.nightly, "'Shared with you' stays that of before"),
                (texts.LISTS, ended.nightly, "no access ended that is over")])).run()
    except Refused as stop:
        # A run that can't begin is reported like one that fails.
        night.tell(room, [str(stop)])
        raise
