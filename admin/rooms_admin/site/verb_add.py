"""add: a further room on a machine that has rooms installed, or the place of one that is on another
machine. The room gets a file, settings, a unit, a nightly run, passwords, a folder of backups."""
import argparse

from ..cli import words
from ..host.changes import changes_asked_for
from . import adding
from ..cli.report import Refused


def arguments(parser: words.Parser) -> None:
    parser.forms = ["[--dry-run] [--destdir DIR] [--host HOST] [--port PORT] [--title TITLE] NAME "
                    "[OWNER GROUP]", "--behind [--port PORT] NAME [OWNER GROUP]",
                    "--on HOST [--port PORT] [--title TITLE] NAME"]
    words.word(parser, "name", "NAME", "of the room: a part of addresses and of paths")
    words.word(parser, "owner", "[OWNER]", "who has the new room, a user")
    words.word(parser, "group", "[GROUP]", "and the group of its root")
    words.image(parser)
    words.option(parser, "--host", "HOST", "at '/' of this host, and not behind its name")
    words.option(parser, "--port", "PORT", "listen at this port of 127.0.0.1 too, 8780 to 8998; or "
                 "with --on the port of the other machine")
    words.option(parser, "--title", "TITLE", "what the start page calls it")
    where = parser.add_mutually_exclusive_group()
    words.flag(where, "--behind", "for the front end on another machine alone")
    words.option(where, "--on", "HOST", "the room is on that machine")


def _look_at_words(given: argparse.Namespace) -> None:
    """Behind another front end a room has no place of its own here, and one on another machine has
    its owners there."""
    if given.owner and not given.group:
        raise Refused("bad arguments: OWNER needs a GROUP")
    if given.behind and (given.host or given.title):
        raise Refused("bad arguments: --behind takes neither --host nor --title, which the front "
                      "end's machine has")
    if given.on and (given.host or given.owner):
        raise Refused("bad arguments: --on takes neither --host nor OWNER, which the other machine "
                      "has")


def run(given: argparse.Namespace) -> int:
    _look_at_words(given)
    on = given.on.lower()
    made = changes_asked_for(given.destdir, given.dry_run)
    name = given.name
    with adding.alone_with(made, name):
        if on:
            return adding.elsewhere(made, name, on, given.port or "8443", given.title or name)
        room = adding.NewRoom(made, given)
        return room.add()
