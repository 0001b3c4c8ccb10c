"""Prints the room's backups, from the oldest to the newest: the number of the run, how many MB
the room's two files take, the folder, and what is missing beside them. Hourly copies, if standby
keeps any, come after them. What has the name of a backup and is none, or can't be read, is told.
With --with it is only those that have an object, and no hourly copies, which have no lists.

With --json it is a list of objects with the names 'number', 'bytes', 'folder' and 'without'; an
hourly copy has 'hourly' besides."""
import argparse
import os
from collections.abc import Iterator
from typing import Any

from ..cli import report, words
from ..host import safe, waiting
from ..room import names, server, settings
from . import backups, texts
from ..lists import asked, dump
from ..cli.report import Stop, say


def arguments(parser: words.Parser) -> None:
    words.option(parser, "--with", "PATH", "those that have this folder or document",
                 dest="wanted")
    words.room(parser)
    words.rows(parser)


def _having(rows: list[dict[str, Any]], wanted: bytes, wrong: list[str]
            ) -> Iterator[dict[str, Any]]:
    for one in rows:
        place = os.path.join(one["folder"], texts.LISTS)
        if texts.LISTS in one["without"]:
            wrong.append(f"no lists: {one['folder']} has none")
            continue
        try:
            if "hourly" not in one and dump.has(place, wanted):
                yield one
        except OSError as fault:
            wrong.append(f"not read: {place}: {safe.reason(fault)}")


def run(given: argparse.Namespace) -> int:
    wanted = asked.path(given.wanted) if given.wanted else b""
    room = settings.room(given.room)

    def look() -> object:
        found = backups.look(room)
        jumps = backups.jump(found)
        hourly = backups.hourly(room.backups, room.name, room.base)
        return [[*(_row(one, room.base) for one in found.backups),
                 *({**_row(one, room.base), "without": [], "hourly": True}
                   for one in hourly.backups)],
                [*found.wrong, *hourly.wrong, *([jumps] if jumps else [])]]
    got = waiting.answer(waiting.PATIENCE, look, room.backups)
    if not isinstance(got, list):
        raise Stop(f"not read: {room.backups}: the look failed")
    rows, wrong = got
    if wanted:
        rows = list(_having(rows, wanted, wrong))
        if not rows:
            wrong.append(f"no object: no backup has {names.shown(wanted)}")
    if given.json:
        report.put_rows(rows)
    for one in rows if not given.json else []:
        lacks = f"  without {', '.join(one['without'])}" if one["without"] else ""
        kind = "  hourly" if "hourly" in one else ""
        size = one["bytes"] + 0xfffff >> 20
        print(f"{one['number']:6} {size:6} MB  {one['folder']}{kind}{lacks}")
    for text in wrong:
        say(text)
    return 1 if wrong else 0


def _row(one: backups.Backup, base: str) -> dict[str, object]:
    return {"number": one.number, "bytes": server.size_of(os.path.join(one.place, base)),
            "folder": one.place, "without": [
                it for it in texts.PRINTED if not os.path.isfile(os.path.join(one.place, it))]}
