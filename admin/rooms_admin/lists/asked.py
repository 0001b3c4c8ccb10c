"""What lists, who and records share: which backup is read, and whom and what in it is meant."""
import argparse
import sys

from ..cli import words
from ..room import names, settings
from ..backup import backups
from ..cli.report import Refused
from ..room.http_client import argument
from ..room.settings import Room

PATH = "a folder or a document of the room"
_MOST = 1 << 20


def arguments(parser: words.Parser) -> None:
    words.option(parser, "--backup", "BACKUP", "read this backup: a folder, the name of one, or "
                 "latest; latest without it")
    words.room(parser)
    words.rows(parser)


def backup(given: argparse.Namespace) -> tuple[Room, str]:
    """The room, and the folder of the backup."""
    room = settings.room(given.room)
    return room, backups.find(room, given.backup or "latest")


def path(text: str) -> bytes:
    found = argument(text)
    if not names.is_path(found):
        raise Refused("bad arguments: a path in the room begins with a slash and doesn't end with "
                      f"one, unlike '{text}'")
    return found


def list_text() -> bytes:
    """That of standard input."""
    text = sys.stdin.buffer.read(_MOST + 1)
    if not text.strip():
        raise Refused("no list: standard input has none")
    if len(text) > _MOST:
        raise Refused(f"no list: standard input has more than {_MOST} bytes")
    return text


def name(text: str, kind: str = "user") -> str:
    if not names.is_user(text):
        raise Refused(f"bad arguments: '{text}' can't be the name of a {kind}")
    return text


def none_at(place: bytes, folder: str) -> Refused:
    return Refused(f"no object: {names.shown(place)} isn't in the backup {folder}")
