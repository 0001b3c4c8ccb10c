"""Where the file of a room's passwords is: in /etc/nginx, or in a folder of its own, where users
change their own. It is moved when the settings change: first there is a copy, then nginx's site
names it, and then the old one goes. So a run that is cut off leaves a site whose files are
there."""
import os
import time
from contextlib import ExitStack
from dataclasses import dataclass
from grp import getgrnam

from ..host import as_if, at_jobs, changes, safe
from ..passwords import passwords
from ..cli.report import Stop
from ..host.changes import Changes
from ..room.settings import Place
from .template import Site


def folder(made: Changes) -> None:
    """A version before gave it to who changes own passwords."""
    if not made.root and as_if.isdir(passwords.KEPT) and os.stat(passwords.KEPT).st_uid != 0:
        if made.does(f"{passwords.KEPT} belongs to root"):
            with safe.opened(safe.folder(passwords.KEPT)) as number:
                os.fchown(number, 0, getgrnam(changes.NGINX).gr_gid)
                os.fchmod(number, 0o710)
    made.folder(passwords.KEPT, 0o710, group=changes.NGINX)


def of(root: str, name: str) -> str:
    """Of a room that is there."""
    return passwords.file_of(root, name)


def all_of(name: str) -> list[str]:
    """All that there can be of a room."""
    kept = passwords.kept_of(name)
    return [kept, passwords.first_of(kept), passwords.old_of(name)]


def missing(root: str, name: str) -> list[str]:
    """What a run makes, if it makes any."""
    return [one for one in all_of(name) if not as_if.lexists(root + one)]


def put(made: Changes, name: str, keeps: bool) -> None:
    """nginx's user reads them, and nobody else does but who may change them."""
    path = of(made.root, name)
    if as_if.lexists(made.root + path):
        users = len(passwords.users(made.root + path))
        if users and name != "office":
            print(f"kept {path}: its {users} users may sign in")
        return
    path = passwords.kept_of(name) if keeps else passwords.old_of(name)
    _write(made, path, b"", f"file {path}, without a password")


def _write(made: Changes, path: str, data: bytes, what: str) -> None:
    place = made.root + path
    if not made.does(what):
        as_if.is_file(place, data)
        return
    if not as_if.lexists(place):
        # What is there isn't put back: somebody may have been shut out of it meanwhile.
        made.remember(path)
    os.makedirs(os.path.dirname(place), 0o755, exist_ok=True)
    if made.root:
        safe.put_file(place, data, 0o600)
    elif passwords.is_kept(place):
        passwords.put_kept(place, data)
    else:
        safe.put_file(place, data, 0o640, getgrnam(changes.NGINX).gr_gid)


def leave(root: str, wanted: Site) -> None:
    """nginx's site can't follow, so each file stays where it is."""
    for one in wanted.rooms:
        one.keeps = one.keeps and as_if.exists(root + passwords.kept_of(one.name))


@dataclass
class Moved:
    """A file that has to go once nginx knows its copy, and what was in it then."""
    source: str
    target: str
    data: bytes


def move(made: Changes, wanted: Site) -> list[Moved]:
    """Copies, each made while nobody changes what is copied."""
    gone: list[Moved] = []
    for one in wanted.shown:
        kept, old = passwords.kept_of(one.name), passwords.old_of(one.name)
        if one.keeps and as_if.islink(made.root + old):
            print(f"kept {old}, which is a link: users of {one.name} can't change their passwords")
            one.keeps = False
        source, target = (old, kept) if one.keeps else (kept, old)
        with ExitStack() as owned:
            if as_if.exists(made.root + source):
                _hold(made, one.name, owned)
                gone += _copy(made, one, source, target)
        if one.own or one.keeps and as_if.lexists(made.root + kept):
            _keep(made, kept, old in [it.source for it in gone])
        elif passwords.read(made.root + passwords.first_of(kept)):
            print(f"kept {passwords.first_of(kept)}: whoever has a first password there can't sign "
                  "in")
    return gone


def _hold(made: Changes, name: str, owned: ExitStack) -> None:
    if made.root or made.dry:
        return
    owned.enter_context(passwords.moving(name))
    kept = passwords.kept_of(name)
    if as_if.exists(os.path.dirname(kept)):
        owned.enter_context(passwords.held(kept, 10))


def _copy(made: Changes, one: Place, source: str, target: str) -> list[Moved]:
    """What has to go. Of two files that one counts which nginx's site names."""
    data = passwords.read(made.root + source)
    if data is None:
        return []
    found = Moved(source, target, data)
    if as_if.exists(made.root + target):
        if (of(made.root, one.name) == target
                and passwords.read(made.root + target) != data):
            print(f"kept {source}, which counts no more: {target} does")
            return []
        if of(made.root, one.name) == target:
            goes = made.does(f"{source} is removed, which is as {target}") or made.dry
            return [found] * goes
    _write(made, target, data, f"{source} is now {target}")
    return [found]


def _keep(made: Changes, kept: str, is_copied: bool) -> None:
    """They are root's, and there is one for first passwords. nginx lets nobody try a password where
    a file isn't there."""
    first = passwords.first_of(kept)
    for path in (first,) if is_copied else (kept, first):
        if not as_if.lexists(made.root + path):
            _write(made, path, b"", f"file {path}, without a password")
    if made.root or made.dry:
        return
    for path in (kept, first):
        seen = os.lstat(path)
        if (seen.st_uid, seen.st_gid, seen.st_mode & 0o777) != (
                0, getgrnam(changes.NGINX).gr_gid, 0o640):
            if made.does(f"{path} belongs to root"):
                passwords.put_kept(path, passwords.read(path) or b"")


def finish(made: Changes, gone: list[Moved]) -> None:
    """nginx's processes of before still read the old ones for a moment, and users may still change
    theirs there."""
    if made.dry or not gone:
        return
    if not made.root:
        time.sleep(1)
    for one in gone:
        with ExitStack() as owned:
            _hold(made, passwords.room_of(one.source), owned)
            passwords.carry(made.root + one.source, made.root + one.target, one.data)
            try:
                os.unlink(made.root + one.source)
            except OSError as fault:
                raise Stop(f"{one.source} can't be removed: {fault.strerror}") from fault
    _tell_jobs([one.source for one in gone])


def _tell_jobs(gone: list[str]) -> None:
    """Such as those that take a guest's password away at a date."""
    for line, runs in at_jobs.of_root():
        job = line.split("\t")[0]
        for path in gone:
            if path in runs:
                print(f"the job {job} of at names {path}: type it again, by "
                      "rooms-admin user remove --password")
