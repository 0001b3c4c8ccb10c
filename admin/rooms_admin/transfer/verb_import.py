"""Uploads what is in the folder DIR into the folder PATH of a room, by the requests that any client
may send. PATH is made if it is missing, with the folders above it. No link is followed. A document
that is there is never replaced without --replace, so the same command goes on where one was cut
off. What isn't sent is printed, with the room's reply: a link, a device, a file that can't be read
or has more bytes than a document may have, and what the room refuses. How much of that there is,
and that dates, owners and rights stay behind, it says before it begins. On the room's own machine
it ends where the room is full, unless --force lets it go on beyond LIMIT of the settings."""
import argparse
import os

from ..cli import report, words
from ..host import safe
from ..room import names, settings
from ..backup import dates
from . import importing
from ..cli.report import Refused, say
from ..room.http_client import (Client, argument, caller_arguments, caller_of, client, is_here,
                                raise_limits)


def arguments(parser: words.Parser) -> None:
    words.word(parser, "source", "DIR", "a folder of this machine")
    words.word(parser, "path", "PATH", "the folder of the room that gets all in it")
    words.flag(parser, "--replace", "replace documents that are there and differ")
    words.flag(parser, "--force", "fill a room of this machine beyond its limit")
    words.dry_run(parser, "what would be made, replaced and left out, as far as the room says it")
    caller_arguments(parser)


def run(given: argparse.Namespace) -> int:
    source, to = given.source, argument(given.path)
    raise_limits()
    try:
        at = safe.folder(source)
        os.listdir(at)
    except OSError as fault:
        raise Refused(f"no folder: {source} isn't a folder that can be read") from fault
    if not names.is_path(to):
        raise Refused("bad arguments: a path in the room begins with a slash and doesn't end with "
                      f"one, unlike '{given.path}'")
    tally = importing.Tally()
    tally.look(at)
    asked = client(given.room, caller_of(given), "the same command goes on where this one stopped",
                   True)
    if tally.large:
        tally.judge(asked.largest())
    say(tally.text())
    return _send(given, asked, at, to, tally.total)


def _send(given: argparse.Namespace, asked: Client, at: int, to: bytes, total: int) -> int:
    space = None if given.force or not is_here(given.room) else importing.Space(given.room)
    task = importing.Import(asked, given.replace, space, given.dry_run)
    task.total = total
    task.need(0)
    ended = False
    try:
        if to == b"/" or task.make_way(to):
            task.folder(at, to, b"")
        else:
            say(f"nothing of {given.source} was sent: there is no folder {names.shown(to)}")
    except importing.Full as full:
        ended = True
        say(str(full))
    finally:
        if task.replaced and not task.dry and is_here(given.room):
            # nginx has no part in it.
            dates.tell_changed(settings.room(given.room), to)
    report.end_progress()
    print("\n".join(task.text()))
    return 1 if ended or asked.left_out else 0
