"""What a machine had beside its rooms, brought back from machine.tar. Whoever wrote the tar is
trusted as root is in what is named as such, since drop-ins of units and certbot's hooks run as
root, and in nothing else."""
import glob
import os
import re
import shlex
import shutil
import time
from collections.abc import Iterator
from contextlib import ExitStack, contextmanager, suppress

from ..host import commands, locks, safe, waiting
from ..room import forms, program, server, settings
from ..passwords import passwords
from ..backup import backups, restoring
from ..people.coming_back import ComingBack
from . import machine, machine_tar
from ..cli.report import Interrupted, Refused, Stop, say
from ..host.root import ROOT
from .machine_tar import File, Tar, setting_of


def look_at_version(tar: Tar, conf: str) -> str:
    """An older version's files on a newer one are what an upgrade leaves that keeps what was
    changed. A newer version's files may need what is missing here. The program that is asked is the
    one of this machine."""
    for name in tar.rooms():
        named = setting_of(tar.files[name].data, "PROGRAM")
        if named and not (os.path.isfile(named) and os.access(named, os.X_OK)):
            raise Refused(f"no program: {named}, of a room in {tar.place}, isn't here; install "
                          "rooms as that machine had it, by the package or by deploy/install")
    saved = re.match(r"rooms ([0-9A-Za-z.+~-]{1,60})\n", tar.words["machine/about"])
    if saved is None:
        raise Refused(f"no machine: {tar.place} doesn't say which version it is of")
    if not tar.rooms():
        raise Refused(f"no machine: {tar.place} has no settings of a room")
    here = _version_here(conf)
    if saved[1] != here:
        if _order(saved[1]) > _order(here):
            raise Refused(f"newer: {tar.place} is of rooms {saved[1]}, and here is {here}: install "
                          f"{saved[1]} or a later one first")
        say(f"{tar.place} is of rooms {saved[1]}, and here is {here}: compare what is replaced "
            "with what was there")
    return here


def _version_here(conf: str) -> str:
    try:
        with open(conf, "rb") as source:
            named = setting_of(source.read(), "PROGRAM")
    except OSError:
        named = ""
    return program.version_of(named or settings.PROGRAM)


def _order(version: str) -> list[tuple[int, str]]:
    return [(int(one), "") if one.isdigit() else (-1 if one == "~" else 0, one)
            for one in re.findall(r"\d+|~|[^\d~]+", version)]


class Machine:
    def __init__(self, tar: Tar, owned: ExitStack) -> None:
        self.tar = tar
        _follow_passwords(tar)
        self.owned = owned
        self.backups = f"{ROOT}/var/backups/rooms"
        # No room's name: one has a folder here, with its backups.
        self.private = f"{self.backups}/.restoring-machine"
        self.added: list[str] = []
        self.changed: list[str] = []
        self.going: list[str] = []
        self.before = ""

    def lock(self) -> None:
        """All rooms of this machine, in order of name."""
        if not os.path.isdir(f"{ROOT}/etc/nginx"):
            raise Refused("no nginx: install the package first, or nginx and rooms")
        if not os.path.isdir(f"{ROOT}/etc/rooms") or not os.path.isdir(self.backups):
            raise Refused("no rooms: install the package first")
        self.owned.enter_context(locks.lock("machine", 0))
        units = set()
        for conf in glob.glob(f"{glob.escape(ROOT)}/etc/rooms/*.conf"):
            with open(conf, "rb") as source:
                named = setting_of(source.read(), "UNIT")
            units.add(named or f"rooms@{settings.name_of(conf)}")
        for one in sorted(units):
            if forms.matches(settings.UNIT, one):
                self.owned.enter_context(locks.lock(f"{one}.nightly", 0))
                self.owned.enter_context(locks.lock(one, 0))

    def compare(self) -> None:
        for name, file in sorted(self.tar.files.items()):
            place = f"{ROOT}/{name}"
            if not os.path.lexists(place):
                self.added.append(name)
            elif not _is_same(place, file):
                self.changed.append(name)
        self.going = [name for name in self.tar.lines("machine/added")
                      if os.path.lexists(f"{ROOT}/{name}")]
        for above in sorted({one for name in [*self.tar.files, *self.going]
                             for one in machine.folders(name)}):
            if os.path.islink(f"{ROOT}/{above}"):
                raise Refused(f"a link on the way: /{above} leads elsewhere, and nothing is made "
                              "below a link: put what the tar has there in place by hand")

    def is_changed(self) -> bool:
        return bool(self.added or self.changed or self.going)

    def would(self) -> None:
        for name in self.added:
            print(f"would: file /{name}")
        for name in self.changed:
            print(f"would: new file /{name}")
        for name in self.going:
            print(f"would: /{name} is removed")

    def keep_before(self, version: str) -> None:
        """All rooms are locked, so nobody waits for a disk that hangs."""
        name = time.strftime("before-machine.%F.%H%M%S")
        found = waiting.answer(waiting.PATIENCE, lambda: self._written(name, version),
                               self.backups)
        if not isinstance(found, list):
            raise Stop(f"nothing was changed: {self.backups}/{name}.tar can't be written: "
                       f"{found or 'that was cut off'}")
        self.before, *lacks = map(str, found)
        for lack in lacks:
            say(f"of {self.before}: {lack}")

    def _written(self, name: str, version: str) -> list[str] | str:
        """The tar, and what it lacks; or why there is none."""
        before, turn = name, 1
        while os.path.lexists(f"{self.backups}/{before}.tar"):
            turn += 1
            before = f"{name}.{turn}"
        place, fresh = f"{self.backups}/{before}.tar", f"{self.private}/tar"
        try:
            os.mkdir(self.private, 0o700)
            lacks = machine_tar.save(fresh, version, self.added,
                                     [f"/{one}" for one in self.tar.certificates])
            os.rename(fresh, place)
            return [place, *lacks]
        except OSError as fault:
            return safe.reason(fault)
        except Stop as stop:
            return str(stop)
        finally:
            shutil.rmtree(self.private, ignore_errors=True)

    def change(self) -> None:
        for name in sorted(self.added + self.changed):
            try:
                _put_back(name, self.tar.files[name])
            except OSError as fault:
                raise Stop(f"/{name} can't be written: {safe.reason(fault)}; the same command goes "
                           f"on, and rooms-admin restore --machine {self.before} goes back"
                           ) from fault
            print(f"{'new ' if name in self.changed else ''}file /{name}")
        for name in self.going:
            with _above(name) as within:
                os.unlink(os.path.basename(name), dir_fd=within)
            print(f"/{name} is removed")

    def bring(self, version: str) -> None:
        self.keep_before(version)
        self.change()

    def tell_trusted(self) -> None:
        """What of it runs as root."""
        for name in sorted(self.added + self.changed):
            if not machine_tar.is_plain(self.tar, name):
                say(f"/{name} may say what runs as root: read it, unless you trust whoever wrote "
                    f"{self.tar.place} as you trust root")
            if self.tar.files[name].ran:
                say(f"/{name} is no program any more: read it, and then chmod +x /{name}")

    def remove_unfinished(self) -> None:
        """What a run that was cut off has left."""
        for name in {_unfinished(one) for one in [*self.tar.files,
                                                  *self.tar.lines("machine/added")]}:
            # Its folder may not be there.
            with suppress(FileNotFoundError), _above(name) as within:
                os.unlink(os.path.basename(name), dir_fd=within)
        waiting.answer(waiting.PATIENCE,
                       lambda: shutil.rmtree(self.private, ignore_errors=True), self.backups)


def _made(tar: Tar) -> list[str]:
    """The settings of its rooms, but for the site's own where nobody made it: a machine may have
    rooms for another one's front end alone."""
    office = "etc/rooms/office.conf"
    if office not in tar.files or "rooms@office.service" in tar.lines("machine/enabled"):
        return tar.rooms()
    kept, file = (setting_of(tar.files[office].data, name) for name in ("BACKUPS", "FILE"))
    if backups.with_file(ROOT + kept, "office", os.path.basename(file)):
        return tar.rooms()
    return [one for one in tar.rooms() if one != office]


def start_all(tar: Tar) -> int:
    """What is left on a new machine. What is done already is done again, or changes nothing."""
    failed = 0
    server.systemctl("daemon-reload")
    for name in _made(tar):
        conf = f"{ROOT}/{name}"
        try:
            room = settings.room(conf)
            if not os.path.lexists(room.file):
                coming = ComingBack(room, False)
                # One that was enabled before its room was here is started again and again.
                is_up = server.state(room) not in ("inactive", "failed")
                restoring.restore_room(conf, "latest", is_up, True, coming.look)
                coming.tell()
        except Interrupted:
            raise
        except (Stop, OSError) as fault:
            say(str(fault))
            failed += 1
    words = _starting(tar)
    if not commands.shown(["nginx", "-t"]):
        failed += 1
        words = words[1:]
    for one in words:
        print(shlex.join(["systemctl", *one]))
        if server.systemctl(*one)[0] != 0:
            say("failed: " + shlex.join(["systemctl", *one]))
            failed += 1
    return 1 if failed else 0


def _starting(tar: Tar) -> list[list[str]]:
    # (a door that runs has the settings of before)
    return [["reload-or-restart", "nginx"], ["try-restart", "rooms-door@*"],
            *(["enable", "--now", one] for one in tar.lines("machine/enabled"))]


def would_start(tar: Tar) -> None:
    for name in tar.rooms():
        file = setting_of(tar.files[name].data, "FILE")
        if not os.path.lexists(file):
            print(f"would: restored {file} from latest")
    for words in _starting(tar):
        print(f"would: {shlex.join(['systemctl', *words])}")


def tell_rest(task: Machine) -> None:
    print(f"to go back: rooms-admin restore --machine {task.before}")
    tar = task.tar
    if "machine/added" in tar.words:
        return
    if any(passwords.is_old(f"/{name}") or passwords.is_kept(f"{ROOT}/{name}")
           for name in task.added + task.changed):
        print(f"Passwords are those of {tar.date()}: take away again what was taken away since")
    print("What is left, where this is a new machine (docs/backup.md), which --start does:")
    for name in _made(tar):
        print(f"  rooms-admin restore --room {shlex.quote('/' + name)} latest")
    print("  rooms-admin setup; systemctl daemon-reload; nginx -t && "
          "systemctl reload-or-restart nginx")
    print("  systemctl try-restart 'rooms-door@*'")
    # One after the other, since systemctl refuses all of them where one isn't there.
    for one in tar.lines("machine/enabled"):
        print(f"  systemctl enable --now {one}")


def _follow_passwords(tar: Tar) -> None:
    """Those of a machine of before users changed their own, to where they are here."""
    for name in list(tar.files):
        kept = f"{passwords.KEPT[1:]}/{os.path.basename(name)}"
        if (passwords.is_old(f"/{name}") and kept not in tar.files
                and os.path.lexists(f"{ROOT}/{kept}")):
            tar.files[kept] = tar.files.pop(name)


def _is_same(place: str, file: File) -> bool:
    if file.link or os.path.islink(place):
        return os.path.islink(place) and os.readlink(place) == file.link
    try:
        if passwords.is_kept(place):
            return passwords.read(place) == file.data
        with open(place, "rb") as source:
            return source.read() == file.data
    except (OSError, Stop):
        return False


def _unfinished(name: str) -> str:
    """A file that isn't whole lies where neither nginx nor systemd reads it."""
    if name.startswith("etc/nginx/"):
        return "etc/nginx/rooms.rooms-restore"
    if passwords.is_kept(f"{ROOT}/{name}"):
        return f"{os.path.dirname(name)}/.{os.path.basename(name)}.new"
    return f"{name}.rooms-restore"


@contextmanager
def _above(name: str, make: bool = False) -> Iterator[int]:
    """The folder of a file, from the top, by folders that are open: no link is followed."""
    at = safe.folder(ROOT or "/")
    try:
        for part in name.split("/")[:-1]:
            try:
                below = safe.folder_below(at, part)
            except FileNotFoundError:
                if not make:
                    raise
                os.mkdir(part, 0o700, dir_fd=at)
                below = safe.folder_below(at, part)
                os.fchmod(below, 0o755)
            os.close(at)
            at = below
        yield at
    finally:
        os.close(at)


def _put_back(name: str, file: File) -> None:
    """A file gets its name when it is whole, so at each moment it is the old one or the new one."""
    if passwords.is_kept(f"{ROOT}/{name}"):
        with _above(name, True), passwords.held(f"{ROOT}/{name}", 10):
            passwords.put_kept(f"{ROOT}/{name}", file.data)
        return
    new = _unfinished(name)
    with _above(name, True) as within, _above(new) as beside:
        fresh = os.path.basename(new)
        with suppress(FileNotFoundError):
            os.unlink(fresh, dir_fd=beside)
        if file.link:
            os.symlink(file.link, fresh, dir_fd=beside)
        else:
            number = os.open(fresh, os.O_WRONLY | os.O_CREAT | os.O_EXCL | os.O_NOFOLLOW
                             | os.O_CLOEXEC, 0o600, dir_fd=beside)
            with safe.opened(number):
                safe.write_all(number, file.data)
                os.fchmod(number, file.mode)
                _give(number, name)
                os.fsync(number)
        os.rename(fresh, os.path.basename(name), src_dir_fd=beside, dst_dir_fd=within)
        os.fsync(within)


def _give(number: int, name: str) -> None:
    """nginx reads passwords as www-data, and Apache the key that it checks tickets with."""
    import grp
    import pwd
    if os.geteuid() != 0:
        return
    try:
        if passwords.is_old(f"/{name}"):
            os.fchown(number, -1, grp.getgrnam("www-data").gr_gid)
            os.fchmod(number, 0o640)
        elif name.startswith("etc/rooms/") and name.endswith(".keytab"):
            user = pwd.getpwnam("rooms-passwords")
            os.fchown(number, user.pw_uid, user.pw_gid)
    except KeyError:
        pass
