"""What setup, add and remove do to a machine. Each change is printed, or in a dry run only printed,
and seen as if it was done; and it is put back if nginx doesn't take it."""
import os
import pwd
import re
import shutil
import stat
from grp import getgrnam

from . import as_if, commands, safe
from ..cli.report import Refused, Stop

# The user whose processes nginx's are, on Debian.
NGINX = "www-data"
# The user of the Apaches that check passwords, who reaches no room.
CHECKER = "rooms-passwords"
# Where nginx logs to standard error, as Debian's, it has the time and its number in the line.
_FAULT = re.compile(r"\[(?:emerg|alert|crit|error)\] (?:[0-9]+#[0-9]+: )?(.+)")


class Changes:
    """`root` is empty, or the folder of an image of a machine: then no owner is set, and no unit is
    touched."""

    def __init__(self, root: str, dry: bool) -> None:
        self.root = root
        self.dry = dry
        self.count = 0
        as_if.begin()
        self._before: list[tuple[str, bytes | str | None, int, int]] = []

    def does(self, text: str) -> bool:
        """Prints what is done, and says whether to do it."""
        self.count += 1
        print(f"would: {text}" if self.dry else text, flush=True)
        return not self.dry

    def folder(self, path: str, mode: int, owner: str = "root", group: str = "") -> None:
        """One that is there is left as it is."""
        place = self.root + path
        if as_if.isdir(place):
            if not self.root and not as_if.is_changed(place) and (
                    pwd.getpwuid(os.stat(place).st_uid).pw_name != owner):
                print(f"kept {path}, which doesn't belong to the user {owner}")
            return
        if not self.does(f"folder {path}"):
            as_if.is_folder(place)
            return
        os.makedirs(os.path.dirname(place), 0o755, exist_ok=True)
        if self.root:
            safe.put_folder(place, mode)
            return
        user = pwd.getpwnam(owner)
        safe.put_folder(place, mode, user.pw_uid,
                        getgrnam(group).gr_gid if group else user.pw_gid)

    def remember(self, path: str) -> None:
        place = self.root + path
        try:
            seen = os.lstat(place)
        except FileNotFoundError:
            self._before.append((path, None, 0, -1))
            return
        if stat.S_ISLNK(seen.st_mode):
            self._before.append((path, os.readlink(place), 0, -1))
        else:
            with open(place, "rb") as source:
                self._before.append((path, source.read(), stat.S_IMODE(seen.st_mode), seen.st_gid))

    def put_back(self) -> None:
        """All that has been changed since `forget`."""
        for path, old, mode, group in reversed(self._before):
            place = self.root + path
            if isinstance(old, bytes):
                safe.put_file(place, old, mode, group if os.geteuid() == 0 else -1)
                continue
            try:
                os.unlink(place)
            except FileNotFoundError:
                pass
            if isinstance(old, str):
                os.symlink(old, place)
        self._before.clear()

    def forget(self) -> None:
        self._before.clear()

    def file(self, path: str, data: bytes, mode: int = 0o644, group: str = "",
             what: str = "") -> bool:
        """A file with these bytes; whether anything has changed."""
        place = self.root + path
        try:
            same = as_if.read(place) == data
            new = "new "
        except FileNotFoundError:
            same, new = False, ""
        if same and as_if.mode(place, mode) & 0o777 & ~mode == 0:
            return False
        if not self.does(f"{new}file {path}{what}"):
            as_if.is_file(place, data)
        else:
            self.remember(path)
            os.makedirs(os.path.dirname(place), 0o755, exist_ok=True)
            number = getgrnam(group).gr_gid if group and not self.root else -1
            safe.put_file(place, data, mode, number)
        return True

    def link(self, path: str, target: str) -> bool:
        place = self.root + path
        if as_if.islink(place) and as_if.readlink(place) == target:
            return False
        if not self.does(f"link {path} to {target}"):
            as_if.is_link(place, target)
        else:
            self.remember(path)
            os.makedirs(os.path.dirname(place), 0o755, exist_ok=True)
            fresh = f"{place}.rooms-new"
            if os.path.lexists(fresh):
                os.unlink(fresh)
            os.symlink(target, fresh)
            os.rename(fresh, place)
        return True

    def remove(self, path: str, why: str = " is removed") -> bool:
        place = self.root + path
        if not as_if.lexists(place):
            return False
        if not self.does(f"{path}{why}"):
            as_if.is_gone(place)
        else:
            self.remember(path)
            os.unlink(place)
        return True

    def remove_folder(self, path: str) -> None:
        """With all that is in it, whatever whoever had it made there. It doesn't come back."""
        place = self.root + path
        if not as_if.isdir(place):
            return
        if not self.does(f"{path} is removed"):
            as_if.is_gone(place)
        else:
            safe.remove_folder(place)

    def systemctl(self, *words: str, check: bool = True) -> bool:
        """Of a machine that systemd runs. Without `check` it returns whether that went well."""
        if self.root or not os.path.isdir("/run/systemd/system"):
            return True
        return not (self.does("systemctl " + " ".join(words))
                    and run("systemctl", *words, check=check)[0])


def changes_asked_for(destdir: str, dry: bool) -> Changes:
    """Of a verb with these options: refuses what can't be changed."""
    if destdir and not destdir.startswith("/"):
        raise Refused(f"bad folder: --destdir needs an absolute path, not '{destdir}'")
    if not destdir and not dry and os.geteuid() != 0:
        raise Refused("not root: without root only --dry-run and --destdir work")
    return Changes(destdir.rstrip("/"), dry)


def run(*words: str, check: bool = True) -> tuple[int, str]:
    """Status, and all that it said."""
    try:
        done = commands.together(words, commands.patience(words))
    except OSError as fault:
        raise Stop(f"no {words[0]}: {fault.strerror}") from fault
    if check and done.status != 0:
        raise Stop(f"{' '.join(words)} failed: {done.out or done.status}")
    if check and done.out:
        print(done.out, flush=True)
    return done.status, done.out


def nginx_refuses() -> str:
    """What nginx says against its files, or that it can't be waited for."""
    try:
        return nginx_says(commands.SECONDS)
    except commands.Slow as slow:
        return str(slow)


def nginx_says(seconds: float) -> str:
    """What nginx says first against its files, but for what it goes on with."""
    if not shutil.which("nginx"):
        return ""
    done = commands.together(["nginx", "-t", "-q"], seconds)
    if done.status == 0:
        return ""
    found = _FAULT.search(done.out)
    return found[1] if found else (done.out.splitlines() or ["it says nothing"])[0]
