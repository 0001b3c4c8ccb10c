"""Writes a folder of a room, or all of it, as the new file or folder DIR. Beside each object NAME
the file NAME.acl has its kind, owner and group, and its two lists. What can't be read or written is
printed, with the room's reply. Nothing is renamed, and nothing that is there is written over. A
name that no room can have never gets to the disk. Nobody else may read what is written, unless
--umask says so.

With --backup the lists are those of that night."""
import argparse
import os

from ..cli import words
from ..room import forms, private_server, settings
from ..backup import backups
from . import exporting
from ..lists import asked
from ..cli.report import Refused
from ..room.http_client import Caller, Client, argument, caller_arguments, caller_of, client


def arguments(parser: words.Parser) -> None:
    words.word(parser, "path", "PATH", "a folder or a document of the room")
    words.word(parser, "into", "DIR", "the folder that is made of it")
    words.option(parser, "--backup", "BACKUP", "read this backup and not the room: a folder, the "
                 "name of a backup, or latest")
    words.flag(parser, "--no-lists", "write no lists")
    words.option(parser, "--umask", "UMASK", "what others may not do with what is written, such "
                 "as 022 where all may read it; 077 without it", default="077")
    caller_arguments(parser)


def run(given: argparse.Namespace) -> int:
    if not forms.matches(r"0?[0-7]{3}", given.umask):
        raise Refused(f"bad arguments: --umask is three digits such as 022, not '{given.umask}'")
    os.umask(int(given.umask, 8))
    path, into = asked.path(given.path), argument(given.into).rstrip(b"/")
    caller = caller_of(given)
    if not into:
        raise Refused("bad arguments: DIR is the root of the file system")
    if os.path.lexists(into):
        raise Refused(f"there is something at {os.fsdecode(into)}: name a folder that isn't there")
    if not given.backup:
        return exporting.export(client(given.room, caller, exporting.NEXT, False), path, into,
                                not given.no_lists, None)
    if caller.user or caller.as_user or caller.config or caller.without_tls:
        raise Refused("bad arguments: nobody is asked for a backup: --user, --as, --config and "
                      "--without-tls are of rooms")
    room = settings.room(given.room)
    backup = backups.find(room, given.backup)
    backups.tell_bare(backup)
    with private_server.private_copy(room, backup) as copied:
        acls, closed = exporting.open_all(room, copied, path)
        with private_server.served(room, copied, 1000000):
            here = f"http://127.0.0.1:{private_server.PORT}"
            asks = Client(here, Caller(as_user=private_server.USER, log=caller.log),
                          exporting.NEXT, False)
            for one, why in closed:
                asks.report(one, f"its list can't be opened, nor what inherits it: {why}")
            return exporting.export(asks, path, into, not given.no_lists, acls)
