"""Gives all documents and folders of the user FROM to TO, for instance when somebody has left.
LISTS is a file with what `rooms dump` prints, such as lists.txt of a backup: it says where they
are. Each keeps its group and its lists, and a large document is one with its parts. Whoever asks
needs the rights t and o on each object. What belongs to somebody else by now stays as it is, and
the same command can be repeated. Where nobody is called FROM it ends with 1, and where nobody is
called TO with 2."""
import argparse

from ..cli import words
from . import handing_over
from ..room.http_client import caller_arguments, caller_of


def arguments(parser: words.Parser) -> None:
    words.word(parser, "lists", "LISTS", "what rooms dump printed of the room, as lists.txt of a "
               "backup")
    words.word(parser, "giver", "FROM", "whose objects they are")
    words.word(parser, "taker", "TO", "who gets them")
    words.flag(parser, "--new", "TO need have no password, no group and nothing that is theirs")
    words.flag(parser, "--dry-run", "print what would be given")
    caller_arguments(parser)


def run(given: argparse.Namespace) -> int:
    handing_over.need_both(given.room, given.lists, given.giver, given.taker, given.new)
    return handing_over.give(given.room, caller_of(given), given.lists, given.giver, given.taker,
                             given.dry_run)
