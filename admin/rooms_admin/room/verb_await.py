"""Waits until a room's server answers, whatever it says: its unit has started from then on. Whoever
asks the room waits too, and its socket leads to the server then. With --leave the socket leads to
where they wait, before the server ends: who asked before is answered for ten seconds more. Where
somebody stops the room, nobody waits, and what goes with its server ends too. What unit and room
are given comes from the unit."""
import argparse

from ..cli import words
from . import awaited, names
from ..cli.report import Refused


def arguments(parser: words.Parser) -> None:
    words.room(parser)
    words.flag(parser, "--leave", "before the server ends: lead others to where they wait")


def run(given: argparse.Namespace) -> int:
    room = given.room or "office"
    if not names.is_room(room):
        raise Refused(f"bad arguments: '{room}' isn't the name of a room")
    if given.leave:
        awaited.leave(room)
    else:
        awaited.arrive(room)
    return 0
