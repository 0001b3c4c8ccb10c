"""nginx's files of passwords of a room: bcrypt, by htpasswd, which gets a password on standard
input alone. They are root's: in /etc/nginx; or, where users change their own, in a folder of their
own, where no link is followed, and what is written has this owner and this mode again. They have a
lock of their own, which nobody holds for longer than it takes to write them: so whatever else is at
work, somebody can be shut out."""
import errno
import os
import re
import secrets
import stat
import sys
from collections.abc import Iterator
from contextlib import AbstractContextManager, contextmanager
from dataclasses import dataclass

from ..cli import report
from ..host import as_if, commands, locks, safe
from ..room import published
from . import password_rules, remembered
from ..cli.report import Refused, Stop, say

COST = "10"
# What htpasswd makes of one here.
MADE = rb"\$2y\$%b\$[./A-Za-z0-9]{53}" % COST.encode()
# A line with a hash that nginx tries in a moment: of others the cost is in the hash, without end.
# Root may have made some that are dearer than those of here.
_TRIED = re.compile(
    rb"[^:\0-\x1f]{1,300}:(\$2[abxy]\$(0[4-9]|1[0-2])\$[./A-Za-z0-9]{53}"
    rb"|\$(apr1|1|5|6)\$[./A-Za-z0-9]{0,16}\$[./A-Za-z0-9]*|\{(SHA|SSHA|PLAIN)\}[!-~]*"
    rb"|[./A-Za-z0-9]{13})(:[ -~]*)?|#[^\0-\x1f]*|")
_LONGEST_LINE = 1000
# Of those that are made here; none of these letters looks like another one.
_LETTERS, _LONG = "abcdefghijkmnpqrstuvwxyz23456789", 16
# A line that no password fits, of the same cost.
NOBODYS = b"$2y$%b$" % COST.encode() + b"." * 53
KEPT = "/var/lib/rooms-passwords"
FOLDER = published.ROOT + KEPT
OLD = "/etc/nginx"
# Of a room's file, and of that with first passwords.
NAME, FIRST = r"rooms(-[a-z0-9-]+)?\.htpasswd", r"rooms(-[a-z0-9-]+)?\.first"
SITE = "/etc/nginx/sites-available/rooms"
KEEPER = "rooms-keeper"
# Bytes: some 100,000 users. One that is larger, as by hand, is read so far that users can go.
_MOST = 8 << 20
_READ = 2 * _MOST


class Held(Refused):
    """Somebody else changes a file of passwords."""


@dataclass(frozen=True)
class Line:
    """What stands behind a user's name, and whether it is a first password, which has to be
    changed."""
    text: bytes
    is_first: bool


def ask(user: str) -> str:
    """On the terminal, twice; otherwise the first line of standard input."""
    if not sys.stdin.isatty():
        text = sys.stdin.readline()
        given = again = text.rstrip("\n")
    else:
        given = report.secret(f"New password of {user}: ")
        again = report.secret("The same password again: ")
    if given != again:
        raise Refused("bad password: the two differ")
    if not password_rules.can_be_given(given):
        raise Refused(f"bad password: it has 1 to {password_rules.LONGEST} bytes, no control "
                      "characters, and no letter in two parts")
    if why := password_rules.fault_of(user, "", given):
        say(f"a {why} password, which users couldn't choose: --random makes a better one")
    return given


def hashed(password: str) -> bytes:
    """The name isn't given to htpasswd, which would take one that begins with a dash for a word."""
    try:
        done = commands.run(["htpasswd", "-niBC", COST, "user"], f"{password}\n".encode())
    except OSError as fault:
        raise Stop(f"no htpasswd: {fault.strerror}: apt-get install apache2-utils") from fault
    name, _, text = done.out.partition(":")
    if done.status != 0 or name != "user" or not text.startswith("$2y$"):
        raise Stop(f"htpasswd failed: {done.said}")
    return text.encode()


def base(name: str) -> str:
    """By which nginx and Apache know whose passwords are asked for."""
    return "rooms" if name == "office" else f"rooms-{name}"


def room_of(file: str) -> str:
    """The name of the room whose file it is."""
    return os.path.basename(file).removesuffix(".htpasswd").removeprefix("rooms")[1:] or "office"


def kept_of(name: str) -> str:
    """Of a room whose users change their own."""
    return f"{KEPT}/{base(name)}.htpasswd"


def old_of(name: str) -> str:
    """Of a room where root alone does."""
    return f"{OLD}/{base(name)}.htpasswd"


def file_of(root: str, name: str) -> str:
    """Where there are both, a move was cut off, or one was brought back: the one that nginx reads
    counts."""
    kept, old = kept_of(name), old_of(name)
    if not as_if.exists(root + kept):
        return old
    return kept if not as_if.lexists(root + old) or _is_served(root, name) else old


def _is_served(root: str, name: str) -> bool:
    try:
        with open(root + SITE, encoding="utf-8", errors="replace") as source:
            return re.search(rf'^    "{re.escape(name)} \S+" own;$', source.read(),
                             re.MULTILINE) is not None
    except FileNotFoundError:
        return False


def password_files(name: str) -> list[str]:
    """That one, of a room that is here or on another machine; and one of office by the name that
    those of other rooms have, which a site of somebody's own may read: whoever leaves is in
    neither."""
    named = f"{published.ROOT}/etc/nginx/rooms-{name}.htpasswd"
    others = [named] if name == "office" and os.path.lexists(named) else []
    return [published.ROOT + file_of(published.ROOT, name), *others]


def _other_of(name: str) -> str:
    """While `setup` moves a room's file there are two, and which one stays is seen when nginx has
    taken its site. Whoever is shut out meanwhile is in neither."""
    both = {kept_of(name), old_of(name)} - {file_of(published.ROOT, name)}
    place = published.ROOT + both.pop()
    return place if os.path.lexists(place) and not os.path.islink(place) else ""


def first_of(file: str) -> str:
    """Beside it: passwords that do nothing but be changed."""
    return file.removesuffix(".htpasswd") + ".first"


def is_kept(file: str) -> bool:
    return os.path.dirname(file) == FOLDER


def is_old(file: str) -> bool:
    """By its place: one that root alone changes, of a room here or of a site of somebody's own."""
    return os.path.dirname(file) == OLD and file.endswith(".htpasswd")


def read(file: str) -> bytes | None:
    """Nothing if it isn't there."""
    try:
        with safe.opened(safe.folder(os.path.dirname(file))) as within:
            with safe.opened(safe.file_below(within, os.path.basename(file))) as number:
                data = safe.read_at_most(number, _READ)
    except FileNotFoundError as fault:
        if os.path.lexists(file):
            # What isn't there is /proc.
            raise Stop(f"{file} can't be read: {fault.filename} isn't there") from fault
        return None
    except safe.NoFile as fault:
        raise Stop(f"{file} can't be read: it is {fault}") from fault
    except OSError as fault:
        raise Stop(f"{file} can't be read: {fault.strerror}") from fault
    if len(data) > _READ:
        raise Stop(f"{file} can't be read: it has more than {_READ >> 20} MB")
    return data


def kinds(file: str) -> dict[str, bool]:
    """Who has a password, and whether it is a first one."""
    found: dict[str, bool] = {}
    for one, is_first in ((file, False), (first_of(file), True))[:1 + is_kept(file)]:
        for row in (read(one) or b"").splitlines():
            name, colon, _ = row.partition(b":")
            if colon:
                found.setdefault(os.fsdecode(name), is_first)
    return found


def users(file: str) -> set[str]:
    """Also those who have a first password."""
    return set(kinds(file))


def nginx_tries_quickly(row: bytes) -> bool:
    """Whether it is a line of a file of passwords that keeps nginx busy for no longer than a
    moment."""
    return len(row) <= _LONGEST_LINE and _TRIED.fullmatch(row) is not None


def line_of(file: str, user: str) -> Line | None:
    """Of two lines of one name nginx takes the first."""
    begins = user.encode() + b":"
    for one, is_first in ((file, False), (first_of(file), True)):
        for row in (read(one) or b"").splitlines():
            if row.startswith(begins):
                return Line(row[len(begins):], is_first)
    return None


@contextmanager
def held(file: str, seconds: float) -> Iterator[None]:
    """One change at a time, root's and users' own. nginx may only pass through the folder, and
    nobody else gets there, so nobody else can hold it."""
    with safe.opened(safe.folder(os.path.dirname(file))) as number:
        if not locks.taken(number, seconds):
            raise Held(f"busy: something else changes {file}")
        yield


def put_lines(file: str, lines: dict[str, bytes | None]) -> set[str]:
    """Who of them had a line, which gets another text or goes. The file is there whole at any
    moment. All other lines stay in their places, comments too. What was right counts no more."""
    data = read(file)
    rows = (data or b"").splitlines()
    wanted = {user.encode(): text for user, text in lines.items()}
    had: set[str] = set()
    left: list[bytes] = []
    for row in rows:
        name = row.partition(b":")[0]
        if b":" not in row or name not in wanted:
            left.append(row)
        elif (text := wanted[name]) is not None and name.decode() not in had:
            left.append(name + b":" + text)
        if b":" in row and name in wanted:
            had.add(name.decode())
    left += [name + b":" + text for name, text in wanted.items()
             if text is not None and name.decode() not in had]
    if left == rows:
        return had
    if data is None:
        raise Refused(f"no file: {file} isn't there: rooms-admin setup or add makes it")
    fresh = b"".join(row + b"\n" for row in left)
    if len(data) < len(fresh) > _MOST:
        raise Refused(f"too many passwords: {file} would have more than {_MOST >> 20} MB")
    try:
        _put(file, fresh)
    except OSError as fault:
        if fault.errno not in (errno.ENOSPC, errno.EDQUOT) or any(wanted.values()):
            raise
        _blot_out(file, data, set(wanted))
    remembered.forget(lines)
    return had


def _blot_out(file: str, data: bytes, names: set[bytes]) -> None:
    """A full disk takes no other file, and keeps nobody in: their lines become comments that are as
    long."""
    with safe.opened(safe.folder(os.path.dirname(file))) as within, safe.opened(os.open(
            os.path.basename(file), os.O_WRONLY | os.O_NOFOLLOW | os.O_CLOEXEC,
            dir_fd=within)) as number:
        at = 0
        for row in data.splitlines(keepends=True):
            line = row.rstrip(b"\r\n")
            if b":" in line and line.partition(b":")[0] in names:
                os.pwrite(number, b"#" * len(line), at)
            at += len(row)
        os.fsync(number)


def _put(file: str, data: bytes) -> None:
    if is_kept(file):
        put_kept(file, data)
        return
    seen = os.lstat(file)
    safe.put_file(file, data, stat.S_IMODE(seen.st_mode), seen.st_gid, seen.st_uid)


def put_kept(file: str, data: bytes) -> None:
    """Root's, which nginx reads."""
    safe.put_file(file, data, 0o640, published.reader(), 0 if os.geteuid() == 0 else -1)


def change(room: str, lines: dict[str, bytes | None], keeps: bool = False,
           is_first: bool = False) -> set[str]:
    """Gives each of these users of the room of this name what htpasswd made, or takes a password
    away. Whoever has one keeps it if `keeps`. Returns who had one."""
    had: set[str] = set()
    with moving(room):
        for file in password_files(room):
            had |= _change_one(file, lines, keeps, is_first)
        if other := _other_of(room):
            _change_one(other, lines, keeps, is_first and is_kept(other))
    return had


def moving(room: str) -> AbstractContextManager[None]:
    """One change of the files of a room at a time, and none while they are copied. (Where a service
    has filled /run, somebody can be shut out all the same.)"""
    return locks.lock(f"{room}.passwords", 10, is_needed=False)


def carry(source: str, target: str, before: bytes) -> None:
    """What was changed of a file since it was copied, such as by a user, gets to the copy."""
    then, now = _by_user(before), _by_user(read(source) or b"")
    changed = {user: now.get(user) for user in then.keys() | now.keys()
               if then.get(user) != now.get(user)}
    if changed:
        put_lines(target, changed)


def _by_user(data: bytes) -> dict[str, bytes]:
    """Of two lines of one name nginx takes the first."""
    found: dict[str, bytes] = {}
    for row in data.splitlines():
        name, colon, text = row.partition(b":")
        if colon:
            found.setdefault(os.fsdecode(name), text)
    return found


def _change_one(file: str, lines: dict[str, bytes | None], keeps: bool, is_first: bool
                ) -> set[str]:
    if not is_kept(file):
        # Root alone writes there.
        return _change(file, lines, keeps)
    with held(file, 10):
        return _change_kept(file, lines, keeps, is_first)


def _change(file: str, lines: dict[str, bytes | None], keeps: bool) -> set[str]:
    known = users(file) & set(lines) if keeps else set()
    return known | put_lines(file, {user: text for user, text in lines.items()
                                    if user not in known})


def _change_kept(file: str, lines: dict[str, bytes | None], keeps: bool,
                 is_first: bool) -> set[str]:
    """The new one is there before another kind of it goes."""
    known = users(file) & set(lines) if keeps else set()
    rest = {user: text for user, text in lines.items() if user not in known}
    one, other = (first_of(file), file) if is_first else (file, first_of(file))
    had = put_lines(one, rest)
    return known | had | put_lines(other, {user: None for user in rest})


def chosen() -> str:
    """One that nobody can guess."""
    return "".join(secrets.choice(_LETTERS) for _ in range(_LONG))
