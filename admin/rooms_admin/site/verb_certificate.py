"""A certificate for nginx by an authority of the office's own, which can certify these hosts and
names below them alone, or those of --domain, and no addresses; or, with --machine, those by which
machines with rooms know one another. The same command renews. Keys that are there stay, no key
leaves its folder, and a certificate of another authority stays."""
import argparse
import os
import tempfile

from ..cli import words
from ..host import locks
from ..room import forms
from . import authority
from ..cli.report import Refused
from ..host.root import ROOT


def arguments(parser: words.Parser) -> None:
    words.word(parser, "hosts", "HOST ..", "a name of the site, or of the other machine")
    words.option(parser, "--domain", "DOMAIN", "let an authority that is made certify all names of "
                 "this domain")
    words.flag(parser, "--machine", "for a machine with rooms behind this one's front end")
    words.dry_run(parser, "what would be made, once it was tried")


def run(given: argparse.Namespace) -> int:
    hosts = list(given.hosts)
    if given.machine and len(hosts) != 1:
        raise Refused("bad arguments: --machine is for one HOST")
    if given.machine and (given.domain or hosts[0] in ("authority", "front", "machine")):
        raise Refused("bad arguments: --machine takes no --domain, and no file's name as HOST")
    for host in hosts:
        if not forms.is_machine(host):
            raise Refused(f"bad arguments: '{host}' isn't the name of a machine in a network")
    if given.domain:
        authority.look_at_domain(given.domain, hosts)
    if os.geteuid() != 0 and not ROOT:
        raise Refused("not root: the keys are root's")
    os.umask(0o077)
    with locks.lock("machine", 10), tempfile.TemporaryDirectory(prefix="rooms-certificate.",
                                                                dir=locks.FOLDER) as private:
        if given.machine:
            authority.for_machine(hosts[0], private, given.dry_run)
        else:
            authority.for_site(hosts, given.domain, private, given.dry_run)
    return 0
