"""Replaces the room by a backup: both files, verified first. BACKUP is a folder with a room's
files, the name of one in BACKUPS, or latest, which is the newest by the number that each run wrote.
The old room is kept under a dated name. A run that was cut off leaves the old room, the new one or
no room in place, never parts of both. If there is none, the same command, or --undo, puts the old
room back. Accesses that are over don't come back, and who is in groups again is printed.

Without --start the server has to be stopped, and isn't started. With --start it is stopped for a
moment, and started whatever happened.

With --machine it touches no room that is there. It brings back what the machine had beside its
rooms, from machine.tar in BACKUP, or from a tar that is named in its place, and prints each file.
What is replaced is kept before, in /var/backups/rooms/before-machine.DATE.tar; to name that one
goes back. Trust a tar as you trust root in what the verb names: that may say what runs as root."""
import argparse
import os
from contextlib import ExitStack

from ..cli import words
from ..host.root import ROOT
from ..room import settings
from . import restoring
from ..machine_tar import machine_tar, restore_machine
from ..people.coming_back import ComingBack
from ..cli.report import Refused, say


def bring_back_machine(given: argparse.Namespace) -> int:
    if not ROOT and os.geteuid() != 0:
        raise Refused("not root")
    conf = settings.file_of(given.room)
    tar = machine_tar.read(machine_tar.find(conf, given.backup))
    for lack in tar.left_out:
        say(f"left out: {lack}")
    with ExitStack() as owned:
        task = restore_machine.Machine(tar, owned)
        task.lock()
        version = restore_machine.look_at_version(tar, conf)
        task.compare()
        task.tell_trusted()
        for lack in machine_tar.lacking(conf, tar):
            say(lack)
        if given.dry_run:
            task.would()
        else:
            task.remove_unfinished()
            if task.is_changed():
                task.bring(version)
        if not task.is_changed():
            print("nothing to change")
    # The rooms' own locks are free again.
    if given.start and given.dry_run:
        restore_machine.would_start(tar)
    elif given.start:
        return restore_machine.start_all(tar)
    elif task.is_changed() and not given.dry_run:
        restore_machine.tell_rest(task)
    return 0


def arguments(parser: words.Parser) -> None:
    parser.forms = ["[--room ROOM] [--start] [--dry-run] BACKUP", "[--room ROOM] [--start] --undo",
                    "[--room ROOM] --machine [--dry-run] [--start] BACKUP"]
    words.word(parser, "backup", "[BACKUP]", "a folder, the name of a backup, or latest")
    words.room(parser)
    what = parser.add_mutually_exclusive_group()
    words.flag(what, "--undo", "put the old room back after a restore that was cut off")
    words.flag(what, "--machine", "bring back what the machine had beside its rooms")
    words.flag(parser, "--start", "stop the server if it runs, and start it; with --machine, "
               "restore rooms that aren't there, and enable what was enabled")
    words.dry_run(parser, "what would be done, once the backup was verified")


def run(given: argparse.Namespace) -> int:
    os.umask(0o077)
    if bool(given.backup) == given.undo:
        raise Refused("bad arguments: --undo takes no BACKUP" if given.undo else
                      "bad arguments: BACKUP is missing, or --undo")
    if given.dry_run and given.undo:
        raise Refused("bad arguments: --undo has no --dry-run")
    if given.machine:
        return bring_back_machine(given)
    # A path may be named by where this was called.
    backup = given.backup
    if "/" in backup:
        backup = os.path.abspath(backup)
    conf = given.room and settings.file_of(given.room)
    os.chdir("/")
    coming = ComingBack(settings.room(conf), given.dry_run)
    if given.dry_run:
        restoring.would_restore(conf, backup, given.start, coming.look)
    else:
        restoring.restore_room(conf, backup, given.start, look=coming.look)
    coming.tell()
    return 0
