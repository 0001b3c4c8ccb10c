"""A further room of this machine, or the place of one on another, made and taken back if that
fails."""
import argparse
import os
import shlex
import time
from collections.abc import Iterator
from contextlib import contextmanager

from ..host import as_if, changes, locks
from ..room import forms, names, published, settings
from . import apply, password_files, ports, served, setting_up, template
from ..cli import report
from ..cli.report import Refused, Stop
from ..host.changes import Changes

_BAD_IN_TITLE = set("\\\"'`$")


def _look_at_name(name: str) -> None:
    """It is a part of paths, addresses and names of units."""
    if not names.is_room(name):
        raise Refused(f"bad name: '{name}' isn't 1 to 32 of a-z, 0-9 and '-', with a letter or "
                      "digit at both ends")
    if name == "office":
        raise Refused("bad name: office is the site's own room, and stays (docs/machines.md)")
    if name in template.TAKEN:
        raise Refused(f"bad name: /{name} belongs to the site itself")


def _look_at_machine(made: Changes) -> None:
    if not as_if.isdir(made.root + "/etc/rooms"):
        raise Refused(f"not installed: {made.root}/etc/rooms isn't there")
    if not as_if.exists(made.root + template.SETTINGS):
        raise Refused("no nginx: apt-get install nginx apache2-utils, and then run rooms-admin "
                      "setup")


def _look_at_name_here(made: Changes, name: str) -> None:
    for path in (f"/etc/rooms/{name}.conf", f"/etc/rooms/{name}.on"):
        if as_if.lexists(made.root + path):
            raise Refused(f"room exists: {path} is there; rooms-admin remove {name} takes it away")


def _look_at_title(title: str) -> None:
    """A line of a file that systemd reads too."""
    if (len(title) > 100 or title != title.strip() or set(title) & _BAD_IN_TITLE
            or any(one < " " or one == "\x7f" for one in title)):
        raise Refused("bad title: at most 100 characters, none of \\ \" ' ` $, and no space at an "
                      "end")


@contextmanager
def alone_with(made: Changes, name: str) -> Iterator[None]:
    """While a room of that name comes or goes, if it may at all."""
    _look_at_name(name)
    _look_at_machine(made)
    with locks.machine(made.root, made.dry):
        apply.refuse_edited(made.root)
        yield


class NewRoom:
    def __init__(self, made: Changes, given: argparse.Namespace) -> None:
        self.made = made
        self.name = name = given.name
        self.owner, self.group = given.owner, given.group
        self.behind = given.behind
        self.title = "" if given.behind else given.title or name
        self.host = given.host.lower()
        self.conf = f"/etc/rooms/{name}.conf"
        self.file = f"/var/lib/rooms/{name}.rooms"
        _look_at_name_here(made, name)
        self._look_at_file()
        self.backups = self._look_at_backups()
        self.port = self._look_at_port(given.port) if given.port else ""
        _look_at_title(self.title)
        if given.host:
            self._look_at_host()
        apply.look_at_link(made.root)
        # What a file of settings or a certificate lacks is told before anything is made.
        if self.behind:
            self._look_at_certificate()
        template.gather(made.root)

    def _look_at_file(self) -> None:
        root = self.made.root
        if as_if.lexists(root + self.file):
            if self.owner:
                raise Refused(f"room exists: {self.file} is there; without OWNER and GROUP it is "
                              "served as it is")
        elif as_if.lexists(root + self.file + "-wal"):
            raise Refused(f"half a room: {self.file}-wal is there without {self.file}")
        elif not self.owner and not root:
            raise Refused(f"bad arguments: {self.file} isn't there, so OWNER and GROUP are needed")
        program = setting_up.program(root)
        if not root and not os.access(program, os.X_OK):
            raise Refused(f"no program: {program} isn't there or can't be run")

    def _look_at_backups(self) -> str:
        """Where the room office has them, so that they are on the same disk."""
        office = "/etc/rooms/office.conf"
        above = settings.value(self.made.root + office, "BACKUPS") or "/var/backups/rooms"
        if not above.startswith("/"):
            raise Refused(f"bad settings: BACKUPS in {office} isn't an absolute path: '{above}'")
        if not as_if.isdir(self.made.root + above):
            raise Refused(f"no folder: {above}, of BACKUPS in {office}, isn't there")
        return f"{above.rstrip('/')}/{self.name}"

    def _look_at_port(self, wanted: str) -> str:
        owners = _ports(self.made.root)
        if not forms.is_port(wanted):
            raise Refused(f"bad port: '{wanted}'")
        if wanted in owners:
            raise Refused(f"port in use: {owners[wanted]} has {wanted}")
        ports.need_free(self.made.root, self.name, wanted)
        settings.need_own_port(self.conf, wanted)
        return wanted

    def _look_at_host(self) -> None:
        if not names.is_host(self.host):
            raise Refused(f"bad host: '{self.host}'")
        found = template.gather(self.made.root)
        for one in found.rooms:
            if one.host == self.host:
                raise Refused(f"host in use: /etc/rooms/{one.name}.conf has {self.host}")
        if self.host in found.front.hosts:
            raise Refused(f"host in use: {template.SETTINGS} has {self.host}")
        served.need_for(found.front, self.host, self.conf)

    def _look_at_certificate(self) -> None:
        for name in ("machine.pem", "machine.key", "authority.pem"):
            if not as_if.exists(f"{self.made.root}{template.MACHINES}/{name}"):
                raise Refused(f"no certificate: {template.MACHINES}/{name} isn't there; "
                              "docs/machines.md says how it is made")

    def add(self) -> int:
        made = self.made
        text = setting_up.room_text(made.root, self.name, self.port, self.title, self.backups,
                                    self.host, self.behind)
        fresh = password_files.missing(made.root, self.name)
        report.nothing_yet()
        try:
            # What the web interface was told of another room of this name.
            made.remove_folder(f"{published.PLACE}/{self.name}")
            made.file(self.conf, text.encode(errors="surrogateescape"))
            made.folder(self.backups, 0o700)
            if not self.behind:
                password_files.put(made, self.name, True)
            if not made.root:
                self._make_room()
            apply.show(made)
            if made.root:
                return 0
        except BaseException:
            self._take_back(fresh)
            raise
        made.forget()
        report.did(f"nginx has a place for {self.name}")
        self._start()
        if not made.dry:
            self._tell()
        return 0

    def _take_back(self, fresh: list[str]) -> None:
        """What this run has made. A room is never removed."""
        if self.made.dry:
            return
        for path in [self.conf, *fresh]:
            if as_if.lexists(self.made.root + path):
                os.unlink(self.made.root + path)
        try:
            os.rmdir(self.made.root + self.backups)
        except OSError:
            pass
        try:
            apply.show(self.made)
        except Stop:
            pass

    def _make_room(self) -> None:
        if not self.owner or not self.made.does(
                f"room {self.file}, of {self.owner} and {self.group}"):
            return
        status, said = changes.run(
            "setsid", "--wait", "setpriv", "--reuid=rooms", "--regid=rooms", "--init-groups", "sh",
            "-c", 'umask 077; exec "$@"', "sh", setting_up.program(""), "init", self.file,
            self.owner, self.group, check=False)
        if status:
            raise Stop(f"no room: {said}")
        report.did(f"{self.file} is made")

    def _start(self) -> None:
        """From here on nothing is taken back: the same steps can be done by hand."""
        unit, timer = f"rooms@{self.name}", f"{settings.nightly_unit(self.name)}.timer"
        if not self.made.does(f"systemctl enable --now {unit} {timer}"):
            return
        # A room of this name may have failed too often to be started by hand.
        changes.run("systemctl", "reset-failed", unit, check=False)
        with report.signals_wait():
            status, said = changes.run("systemctl", "enable", "--now", unit, timer, check=False)
            if not status:
                report.did(f"{unit} and {timer} are started")
        # A server that finds a fault exits at once, and systemd keeps restarting it.
        time.sleep(1)
        if status or changes.run("systemctl", "is-active", unit, check=False)[1] != "active":
            raise Stop(f"{unit} doesn't start: systemctl status {unit}; rooms-admin remove "
                       f"{self.name} takes it away" + (f": {said}" if status else ""))

    def _tell(self) -> None:
        if self.behind:
            print(f"What is left, on the front end's machine: rooms-admin add --on HOST {self.name}"
                  ", with the name of this one")
            return
        print(f"What is left, for each user of {self.name}: rooms-admin user add "
              f"{shlex.quote(self.owner or 'USER')} --room {self.name}")
        print(f"Users then open {_place(self.name, self.host)}")


def _place(name: str, host: str) -> str:
    if host:
        scheme = "https" if settings.front(template.SETTINGS).certificate else "http"
        return f"{scheme}://{host}/"
    return f"the site's address with /{name}/ at its end"


def _ports(root: str) -> dict[str, str]:
    """Which settings have a port."""
    found = {}
    for one in sorted(as_if.listdir(root + "/etc/rooms")):
        if one.endswith(".conf"):
            path = f"{root}/etc/rooms/{one}"
            found[settings.port(path)] = path
    return found


def elsewhere(made: Changes, name: str, on: str, port: str, title: str) -> int:
    """A room on another machine: its place, its passwords, and a line for the start page."""
    _look_at_name_here(made, name)
    if not forms.is_machine(on):
        raise Refused(f"bad host: '{on}' isn't the name of a machine in a network")
    if not forms.is_port(port):
        raise Refused(f"bad port: '{port}'")
    for one in ("front.pem", "front.key", "authority.pem"):
        if not as_if.exists(f"{made.root}{template.MACHINES}/{one}"):
            raise Refused(f"no certificate: {template.MACHINES}/{one} isn't there; "
                          "docs/machines.md says how it is made")
    _look_at_title(title)
    apply.look_at_link(made.root)
    path = f"/etc/rooms/{name}.on"
    text = _text_of(name, on, port, title)
    fresh = password_files.missing(made.root, name)
    try:
        made.file(path, text.encode(errors="surrogateescape"))
        password_files.put(made, name, True)
        apply.show(made)
    except BaseException:
        for one in [path, *fresh]:
            if not made.dry and as_if.lexists(made.root + one):
                os.unlink(made.root + one)
        raise
    if not made.root and not made.dry:
        print(f"What is left, on {on}: rooms-admin add --behind {name} OWNER GROUP")
        print(f"And here, for each user of {name}: rooms-admin user add USER --room {name}")
        print(f"Users then open {_place(name, '')}")
    return 0


def _text_of(name: str, on: str, port: str, title: str) -> str:
    return f"""\
# The room {name}, which is on another machine: NAME=value, without quotes. After a change:
# rooms-admin setup

# What the start page calls the room. A room without a title isn't there.
TITLE={title}

# Where its machine waits for this one.
ON={on}
PORT={port}

# How large a document may be, in MB: no more than its machine takes (docs/large.md).
LARGEST=100

# Who checks its passwords, as with the rooms that are here. If it is empty, it is file. With
# OWN_PASSWORDS=no only root changes those in the file.
PASSWORDS=
OWN_PASSWORDS=yes
"""
