"""What a machine has for its rooms beside them: settings, passwords, nginx's files, the
certificate, what was added to units. A nightly run keeps it as machine.tar beside each backup."""
import errno
import glob
import hashlib
import io
import os
import re
import tarfile
import time
from collections.abc import Iterator
from contextlib import suppress
from dataclasses import dataclass, field

from ..cli import report
from ..host import at_jobs, commands, pem, safe
from ..room import settings
from ..passwords import passwords
from ..site import certificates
from ..cli.report import Refused
from ..host.commands import printed
from ..host.root import ROOT

OWN = re.compile(
    rf"etc/rooms/.+|{passwords.KEPT[1:]}/{passwords.NAME}|{passwords.KEPT[1:]}/{passwords.FIRST}"
    rf"|etc/nginx/({passwords.NAME}|sites-available/rooms(-tls)?"
    r"|sites-enabled/rooms|snippets/rooms-[a-z]+\.conf|rooms\.d/[^/]+|conf\.d/rooms[^/]*\.conf)"
    r"|etc/systemd/system/rooms[^/]*\.d/[^/]+\.conf|etc/letsencrypt/.+", re.ASCII | re.DOTALL)
# Units that may be enabled again.
ENABLED = re.compile(r"rooms[A-Za-z0-9:_.@-]*\.(service|socket|timer|path|target)", re.ASCII)
# Bytes of a table of cron's.
_TABLE = 1 << 16
# Bytes of a tar that a restore takes; and of files in it that aren't the keeper's.
MOST, _MOST_OURS = 64 << 20, 40 << 20
# What an editor, dpkg, an install or a restore leaves beside them.
LEFT = re.compile(r"(\.(old|new|swp|dpkg-[a-z]+|rooms-restore)|~)$", re.ASCII)


def _lacks_site() -> list[str]:
    site = ROOT + "/etc/rooms/site"
    try:
        if os.path.exists(site):
            settings.lines(site)
    except Refused as stop:
        return [f"it lacks the site's certificate: {stop}"]
    return []


def is_own_link(name: str, target: str) -> bool:
    """Links that are kept as links lead from ours to ours."""
    if name == "etc/nginx/sites-enabled/rooms":
        return re.fullmatch(r"(\.\.|/etc/nginx)/sites-available/rooms(-tls)?", target) is not None
    if name.startswith("etc/nginx/conf.d/rooms"):
        return re.fullmatch(r"(\.\.|/etc/nginx)/snippets/rooms-[a-z]+\.conf", target) is not None
    # Where '..' stands behind a name, that may be another link, and the path isn't what it seems.
    return (name.startswith("etc/letsencrypt/") and not target.startswith("/")
            and ".." not in re.sub(r"^(\.\./)*", "", target).split("/")
            and os.path.normpath(f"/{os.path.dirname(name)}/{target}").startswith(
                "/etc/letsencrypt/"))


def is_own_name(name: str, certificates: list[str]) -> bool:
    parts = name.split("/")
    return (not {"", ".", ".."} & set(parts) and "\\" not in name and name.isprintable()
            and (OWN.fullmatch(name) is not None or name in certificates))


def folders(name: str) -> list[str]:
    """Those on the way to a file, from the top."""
    parts = name.split("/")
    return ["/".join(parts[:number]) for number in range(1, len(parts))]


def _names() -> Iterator[str]:
    places = ["etc/rooms", "etc/nginx", "etc/systemd/system"]
    # A certificate of certbot is renewed by what lies beside it.
    if any(one.startswith("/etc/letsencrypt/") for one in certificates.certificates()):
        places.append("etc/letsencrypt")
    for place in places:
        for at, folders, files in os.walk(f"{ROOT}/{place}"):
            links = [one for one in folders if os.path.islink(os.path.join(at, one))]
            for name in files + links:
                yield os.path.relpath(os.path.join(at, name), f"{ROOT}/")
    # The keeper may have made folders there, in one another without end: none is entered.
    with suppress(FileNotFoundError):
        yield from (f"{passwords.KEPT[1:]}/{name}" for name in os.listdir(ROOT + passwords.KEPT))


def _packaged() -> set[str]:
    """Files of the package that nobody has changed: they come with the package."""
    found = set()
    said = printed(["dpkg-query", f"--admindir={ROOT}/var/lib/dpkg", "-W", "-f=${Conffiles}\\n",
                    "rooms"])
    for line in said.splitlines():
        words = line.split()
        if len(words) >= 2:
            try:
                with open(ROOT + words[0], "rb") as source:
                    if hashlib.md5(source.read()).hexdigest() == words[1]:
                        found.add(words[0][1:])
            except OSError:
                pass
    return found


def _packages() -> str:
    """Those that are installed."""
    rows = printed(["dpkg-query", "-W", "-f=${db:Status-Status} package ${Package} ${Version}\\n",
                    "rooms", "nginx", "apache2-bin", "apache2-utils", "openssl", "at", "certbot",
                    "cron", "bsd-mailx", "logrotate", "openssh-client", "poppler-utils", "restic",
                    "rsync", "sudo", "tesseract-ocr", "tesseract-ocr-*", "python3-ldap",
                    "libapache2-mod-auth-gssapi", "libapache2-mod-auth-openidc"])
    return "".join(row.removeprefix("installed ") + "\n" for row in rows.splitlines()
                   if row.startswith("installed "))


def _kept(words: list[str]) -> str:
    """What a command prints, as whole lines."""
    said = printed(words)
    return f"{said}\n" if said else ""


def _about(version: str) -> str:
    text = (f"rooms {version}\nhost {os.uname().nodename}\n"
            f"date {time.strftime('%FT%TZ', time.gmtime())}\n\n"
            "What follows is to look at: no restore brings it back.\n")
    text += _packages() + _kept(["ip", "-brief", "address"]) + _hosts()
    for line, runs in at_jobs.of_root():
        text += f"at {line}\n" + "\n".join(runs.splitlines()[-2:]) + "\n"
    return report.plain(text + _of_cron())


def _hosts() -> str:
    """By which other machines with rooms are found: nginx doesn't start without."""
    named = {settings.value(one, "ON") for one in glob.glob(f"{glob.escape(ROOT)}/etc/rooms/*.on")}
    words = [word for one in sorted(named) if one for word in ("-e", one)]
    return commands.bounded(["grep", "-HswF", *words, f"{ROOT}/etc/hosts"], _TABLE,
                            commands.NOTHING, ())[1].decode(errors="replace") if words else ""


def _of_cron() -> str:
    """Lines of root's that name rooms: they are to be typed again by root, and any account may have
    a table with what only looks like one. What nobody would type is left out, and not the tar."""
    text = ""
    for place in ("var/spool/cron/crontabs/root", "etc/crontab", "etc/cron.d/*", "etc/cron.daily/*",
                  "etc/cron.weekly/*"):
        for file in sorted(glob.glob(f"{glob.escape(ROOT)}/{place}")):
            text += commands.bounded(["grep", "-Hs", "rooms", file], _TABLE, commands.NOTHING,
                                     ())[1].decode(errors="replace")
    return text


def _enabled() -> list[str]:
    return sorted({name for at, folders, names in os.walk(f"{ROOT}/etc/systemd/system")
                   if at.endswith(".wants") for name in names + folders
                   if ENABLED.fullmatch(name)})


def save(target: str, version: str, added: list[str] | None = None,
         more: list[str] | None = None) -> list[str]:
    """Writes the tar, which was not there; what can't be read is told, and left out. What a restore
    keeps of before has all files, of the package too, those that it will add by their names, and
    `more` certificates."""
    lacks = _lacks_site()
    theirs = _Theirs()
    wanted = sorted({"/" + os.path.normpath(one).lstrip("/")
                     for one in [*certificates.certificates(), *(more or [])]})
    with tarfile.open(target, "x", format=tarfile.GNU_FORMAT, errorlevel=2) as tar:
        ours = {one for one in _names() if OWN.fullmatch(one) and not LEFT.search(one)}
        if added is None:
            ours -= _packaged()
        ours |= {one[1:] for one in wanted if one[1:] not in (added or [])}
        # (what is below a link comes back where that leads)
        links = set(filter(_is_link, ours))
        ours = {one for one in ours if links.isdisjoint(folders(one))}
        lacks += _add_all(tar, ours, [one[1:] for one in wanted], theirs)
        _add_text(tar, "machine/about", _about(version))
        if added is not None:
            _add_text(tar, "machine/added", "".join(one + "\n" for one in added))
        _add_text(tar, "machine/certificates", "".join(one + "\n" for one in wanted))
        _add_text(tar, "machine/enabled", "".join(one + "\n" for one in _enabled()))
    with open(target, "rb") as written:
        os.fsync(written.fileno())
    if theirs.left_out:
        lacks.append(f"it lacks /{theirs.left_out[0]} and {len(theirs.left_out) - 1} more, which "
                     "can't be read or are far more than passwords are")
    return lacks


def _add_all(tar: tarfile.TarFile, ours: set[str], wanted: list[str], theirs: "_Theirs"
             ) -> list[str]:
    """What it lacks then. No restore takes a tar with more than it looks for."""
    lacks = []
    large = _too_large(ours)
    for name in sorted(ours, key=lambda name: (_is_of_no_room(name), name)):
        if not is_own_name(name, wanted):
            lacks.append(f"it lacks {name!r}, whose name isn't plain text")
            continue
        if name in large:
            lacks.append(f"it lacks /{name}, which is too large: move it elsewhere")
            continue
        try:
            data = _add(tar, name, theirs)
            if name in wanted and data is not None and pem.anew(data) is None:
                lacks.append(f"no restore takes /{name}, which is no certificate and no key in PEM")
        except OSError as fault:
            if fault.errno in (errno.ENOSPC, errno.EDQUOT, errno.EIO, errno.EFBIG):
                raise
            if _is_theirs(name):
                theirs.left_out.append(name)
            else:
                lacks.append(f"it lacks /{name}, which can't be read")
    return lacks


def _too_large(ours: set[str]) -> set[str]:
    """The largest files, where a restore couldn't take all."""
    sizes = []
    for name in ours:
        with suppress(OSError):
            if not _is_theirs(name) and not _is_link(name):
                sizes.append((os.stat(f"{ROOT}/{name}").st_size, name))
    space, found = _MOST_OURS, set()
    for size, name in sorted(sizes):
        # (each costs a head in the tar, and another one where its name is long)
        space -= size + 4 * tarfile.BLOCKSIZE
        if space < 0:
            found.add(name)
    return found


def _add_text(tar: tarfile.TarFile, name: str, text: str) -> None:
    data = text.encode(errors="replace")
    member = tarfile.TarInfo(name)
    member.size = len(data)
    tar.addfile(member, io.BytesIO(data))


def _opened(place: str) -> int:
    if not passwords.is_kept(place):
        return os.open(place, os.O_RDONLY | os.O_CLOEXEC)
    with safe.opened(safe.folder(os.path.dirname(place))) as within:
        try:
            return safe.file_below(within, os.path.basename(place))
        except safe.NoFile as fault:
            raise OSError(errno.ELOOP, str(fault)) from fault


def _is_link(name: str) -> bool:
    place = f"{ROOT}/{name}"
    return os.path.islink(place) and is_own_link(name, os.readlink(place))


def _is_theirs(name: str) -> bool:
    return os.path.dirname(name) == passwords.KEPT[1:]


def _is_of_no_room(name: str) -> bool:
    """A file of passwords of a room that was removed, or of none."""
    if not _is_theirs(name):
        return False
    room = os.path.splitext(os.path.basename(name))[0].removeprefix("rooms").removeprefix("-")
    return not any(os.path.exists(f"{ROOT}/etc/rooms/{room or 'office'}{end}")
                   for end in (".conf", ".on"))


@dataclass
class _Theirs:
    """Files of the keeper's, who could have made any: a tar that is brought back has an end."""
    space: int = 16 << 20
    left_out: list[str] = field(default_factory=list)

    def read(self, number: int, name: str) -> bytes | None:
        data = safe.read_at_most(number, max(0, self.space))
        if len(data) > self.space:
            self.left_out.append(name)
            return None
        # (each costs a head in the tar)
        self.space -= len(data) + tarfile.BLOCKSIZE
        return data


def _add(tar: tarfile.TarFile, name: str, theirs: _Theirs) -> bytes | None:
    """The content of a file, even if it is a link here that leads elsewhere, unless somebody else
    than root could have put that there. All of it is read before anything of it is written, so that
    the tar stays whole."""
    place = f"{ROOT}/{name}"
    member = tarfile.TarInfo(name)
    if _is_link(name):
        member.type, member.linkname, member.mode = tarfile.SYMTYPE, os.readlink(place), 0o777
        tar.addfile(member)
        return None
    with safe.opened(_opened(place)) as number, open(number, "rb", closefd=False) as source:
        data = theirs.read(number, name) if _is_theirs(name) else source.read()
        seen = os.fstat(number)
    if data is not None:
        member.size, member.mode, member.mtime = (
            len(data), seen.st_mode & 0o777, int(seen.st_mtime))
        tar.addfile(member, io.BytesIO(data))
    return data
