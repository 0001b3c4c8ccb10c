"""Watches how much of each room's file is in use. While it is more than LIMIT of the settings, a
flag in /run/rooms-full tells nginx to refuse what adds to the room, with 507. If LIMIT is empty, it
is as much as the server can start with, by MemoryMax of its unit and by what a start of the last
night's copy took. What is in use are the pages of
the file and its log, without free ones. It looks each second, or each five while less than half of
LIMIT is in use; it locks and changes nothing of the room, and runs as the room's user. The flag
goes below 95 hundredths of LIMIT, and when this ends; after a kill it stays until this runs again.

With --look the status is 0 if the room isn't full, and 1 if it is. With --json it looks too, and
prints a list of objects with the names 'room', 'used', 'limit' and 'full': bytes, 'limit' is null
where there is none, and the status is 1 if one of several rooms is full."""
import argparse
import os
import sys
from contextlib import ExitStack

from ..cli import report, words
from ..host import locks
from . import fullness, settings
from ..cli.report import Refused


def arguments(parser: words.Parser) -> None:
    words.rooms(parser, "office")
    words.flag(parser, "--look", "print how much is in use, and end")
    words.rows(parser)


def _tell_one(rooms: list[settings.Room]) -> int:
    if len(rooms) != 1:
        raise Refused("bad arguments: --look looks at one room, --json at several")
    used, limit = fullness.look(rooms[0])
    print(f"{used >> 20} MB of {'any number' if limit is None else limit >> 20} are in use")
    return 0 if limit is None or used <= limit else 1


def _tell_rows(rooms: list[settings.Room]) -> int:
    seen = [(room.name, *fullness.look(room)) for room in rooms]
    rows = [{"room": name, "used": used, "limit": limit,
             "full": limit is not None and used > limit} for name, used, limit in seen]
    report.put_rows(rows)
    return int(any(row["full"] for row in rows))


def run(given: argparse.Namespace) -> int:
    rooms = [settings.room(one) for one in given.rooms or [""]]
    if given.json:
        return _tell_rows(rooms)
    if given.look:
        return _tell_one(rooms)
    if sys.stdout.isatty():
        raise Refused("bad arguments: without --look this goes on until somebody ends it, which is "
                      "what the unit of a room needs: rooms-admin full --look")
    os.umask(0o022)
    os.makedirs(fullness.FOLDER, exist_ok=True)
    # The unit has a user of its own, who makes no folder and doesn't get to where root's locks are.
    within = locks.FOLDER if os.geteuid() == 0 else fullness.FOLDER
    others = 0o077 if os.geteuid() == 0 else 0o022
    with ExitStack() as owned:
        for room in rooms:
            owned.enter_context(locks.lock(f"full.{room.flag}", 2, within, others))
        status = fullness.watch(rooms)
    return status
