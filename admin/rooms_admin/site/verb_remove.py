"""remove: stops a room, and takes its settings, its place, its dates and what the web interface was
told of it away. The room's file, its backups, its passwords and what it takes from a directory
stay, so that the same name can be added again."""
import argparse

from ..cli import words
from ..host import as_if
from ..host.changes import changes_asked_for
from ..room import settings
from . import adding, apply, password_files, removing


def arguments(parser: words.Parser) -> None:
    words.word(parser, "name", "NAME", "of the room")
    words.image(parser)


def run(given: argparse.Namespace) -> int:
    made = changes_asked_for(given.destdir, given.dry_run)
    name = given.name
    with adding.alone_with(made, name):
        on = f"/etc/rooms/{name}.on"
        if as_if.lexists(made.root + on):
            there = settings.value(made.root + on, "ON")
            made.remove(on)
            removing.say_kept(made, password_files.all_of(name))
            print(f"kept the room on {there}")
        else:
            removing.remove_room(made, name)
        # The settings don't come back if nginx refuses: the server is stopped.
        made.forget()
        apply.show(made)
    return 0
