"""Writes the document PATH of a backup to standard output, without touching the room. BACKUP is a
folder with a room's files, the name of one in BACKUPS, or latest."""
import argparse
import sys
from collections.abc import Iterator

from ..cli import words
from ..room import in_parts, names, private_server, program, settings
from . import backups
from ..cli.report import Refused, Stop
from ..room.http_client import argument


def arguments(parser: words.Parser) -> None:
    words.word(parser, "backup", "BACKUP", "a folder, the name of a backup, or latest")
    words.word(parser, "path", "PATH", "the document's, in the room")
    words.room(parser)


def run(given: argparse.Namespace) -> int:
    path = argument(given.path)
    if path == b"/" or not names.is_path(path):
        raise Refused(f"bad arguments: '{given.path}' isn't the path of a document")
    room = settings.room(given.room)
    # A copy, since the program puts the log of a room that it opens into its file.
    backup = backups.find(room, given.backup)
    backups.tell_bare(backup)
    with private_server.private_copy(room, backup) as copied:
        for part in _parts(room, copied, path):
            sys.stdout.buffer.write(part)
    sys.stdout.buffer.flush()
    return 0


def _got(room: settings.Room, copied: str, path: bytes) -> bytes:
    status, out, text = program.on_copy(room, copied, ["get", path])
    if status != 0:
        why = text or out[:300].decode(errors="replace").strip() or f"status {status}"
        raise Stop(f"{names.shown(path)}: {why}")
    return out


def _parts(room: settings.Room, copied: str, path: bytes) -> Iterator[bytes]:
    """One after the other, of a document that has more than the room keeps in one."""
    whole = _got(room, copied, path)
    manifest = in_parts.read(whole)
    if manifest is None:
        yield whole
        return
    for index, (number, _) in enumerate(manifest.parts):
        part = _got(room, copied, path + in_parts.end_of(number).encode())
        if not manifest.is_part(index, part):
            raise Stop(f"{names.shown(path)}: part {number} was changed")
        yield part
