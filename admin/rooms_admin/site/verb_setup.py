"""Makes the users, the folders, the settings of the room office, and nginx's site, as the settings
of all rooms say. It makes, opens and changes no room. A second run changes nothing."""
import argparse

from ..cli import words
from ..host import locks
from ..host.changes import changes_asked_for
from . import setting_up


def arguments(parser: words.Parser) -> None:
    words.image(parser)
    words.option(parser, "--tls", "CERTIFICATE KEY", "serve the site with TLS, by these two files")
    words.option(parser, "--directory", "FILE", "have passwords of office checked by the "
                 "directory that FILE names; 'none' goes back to files of passwords")


def run(given: argparse.Namespace) -> int:
    made = changes_asked_for(given.destdir, given.dry_run)
    with locks.machine(made.root, made.dry):
        pair = setting_up.look_at_pair(made, *given.tls) if given.tls else None
        where = setting_up.look_at_directory(made, given.directory) if given.directory else None
        setting_up.look_at_guests(made, given.directory)
        if not (given.tls or given.directory):
            setting_up.look_at_settings(made)
        return setting_up.set_up(made, pair, given.directory, where)
