"""Prints the folder of the room's newest backup, by the number that each run wrote and whatever the
clock said. With FILE it is that file of the newest backup that has one, such as machine.tar."""
import argparse
import os

from ..cli import words
from ..room import settings
from . import backups
from ..cli.report import Refused


def arguments(parser: words.Parser) -> None:
    words.word(parser, "file", "[FILE]", "a name such as lists.txt")
    words.room(parser)


def run(given: argparse.Namespace) -> int:
    if "/" in given.file:
        raise Refused(f"bad arguments: '{given.file}' isn't the name of a file in a backup")
    room = settings.room(given.room)
    name = given.file or room.base
    found = backups.newest(room, name)
    if not found:
        raise Refused(f"no backup: {room.backups} has none of this room with {name}")
    print(found if given.file else os.path.dirname(found))
    return 0
