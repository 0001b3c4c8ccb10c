"""machine.tar, whoever has written it: what may be in it, and what of that runs nothing as root.
All of it is looked at before anything is written, and no program that it names is run."""
import calendar
import os
import re
import tarfile
import tempfile
import time
from collections import Counter
from dataclasses import dataclass, field

from ..host import locks, pem, safe, waiting
from ..room import environment, forms, names, settings
from ..passwords import passwords
from ..backup import backups
from ..site import template
from . import machine
from ..cli.report import Refused, Stop, say
from ..host.root import ROOT

_OWN_WORDS = ("machine/about", "machine/certificates", "machine/enabled", "machine/added")
_PLACE = re.compile(r"(/[-A-Za-z0-9._+@,=:]+)+", re.ASCII)
# Where a certificate or a key comes back to.
CERTIFICATES = ("etc/ssl/", "etc/letsencrypt/", "etc/rooms/")
# By its name and its place each of these is read by one reader, which knows what may be in it.
_PLAIN = re.compile(
    r"etc/rooms/([^/]+\.(on|names|groups|secret|password|keytab)|site|directory"
    r"|offsite\.(key|key\.pub|hosts)|machines/[^/]+\.(pem|key))"
    rf"|{passwords.KEPT[1:]}/.+|etc/nginx/{passwords.NAME}"
    r"|etc/letsencrypt/(accounts/.+\.json|(archive|csr|keys|live)/.+\.pem|(.+/)?README)",
    re.ASCII | re.DOTALL)
_PLAIN_KEY = re.compile(rb"proxy_set_header Rooms-Key [0-9a-f]{48};\n")
_PASSWORDS = re.compile(rf"({passwords.KEPT[1:]}/({passwords.NAME}|{passwords.FIRST})"
                        rf"|etc/nginx/{passwords.NAME})", re.ASCII)
_SITE, _DIRECTORY = "etc/nginx/sites-available/rooms", "etc/rooms/directory"
_ROOM = re.compile(r"etc/rooms/[^/]+\.conf", re.DOTALL)
# Some mail programs run what stands behind a '|', and write to a file: this is neither.
_ADDRESS = r"\w[\w.+'-]*(@[\w.-]+)?"
_MAIL = rf"({_ADDRESS}(, *{_ADDRESS}| +{_ADDRESS})*)?"

# Seconds. Nights of several rooms begin at once, and one may take four hours.
_ONE_NIGHT, _A_DAY = 6 * 3600, 24 * 3600


@dataclass
class File:
    data: bytes = b""
    mode: int = 0
    link: str = ""
    # Whether it was one to be run, which nothing that comes back is.
    ran: bool = False


@dataclass
class Tar:
    place: str
    words: dict[str, str] = field(default_factory=dict)
    files: dict[str, File] = field(default_factory=dict)
    # Names of those certificates and keys that come back.
    certificates: list[str] = field(default_factory=list)
    # What doesn't come back, a line each.
    left_out: list[str] = field(default_factory=list)

    def lines(self, word: str) -> list[str]:
        return [one for one in self.words.get(word, "").split("\n") if one]

    def rooms(self) -> list[str]:
        """The files with the settings of rooms."""
        return [one for one in sorted(self.files) if _ROOM.fullmatch(one)]

    def date(self) -> str:
        """When it was made, in its own words."""
        found = re.search(r"^date (\d{4}-\d\d-\d\dT\d\d:\d\d:\d\dZ)$", self.words["machine/about"],
                          re.ASCII | re.MULTILINE)
        return found[1] if found else "another day"

    def moment(self) -> int:
        """The same, in seconds since 1970; 0 where it doesn't say."""
        try:
            return calendar.timegm(time.strptime(self.date(), "%Y-%m-%dT%H:%M:%SZ"))
        except (ValueError, OverflowError):
            return 0


def _backups_of(conf: str) -> str:
    """A machine that is new may have no settings that can be read."""
    folder = "/var/backups/rooms"
    try:
        with open(conf, encoding="utf-8", errors="surrogateescape") as source:
            folder = settings.last(source.read().split("\n"), "BACKUPS") or folder
    except OSError:
        pass
    return ROOT + folder


def lacking(conf: str, tar: Tar) -> list[str]:
    """Rooms with backups here whose settings the tar of a night hasn't, a line each: one that was
    made since has a tar of its own. An older one would bring back old passwords of all rooms: so a
    room with a newer tar is told too."""
    if "machine/added" in tar.words:
        return []
    known = {settings.name_of(one) for one in tar.rooms()}
    rows = []
    for name, some in _of_each(_backups_of(conf)).items():
        if name in known:
            if (backups.made(some[-1]) or 0) - tar.moment() > _A_DAY:
                rows.append(f"newer than {tar.place}: that of {name}, which may lack passwords "
                            f"that this one has: rooms-admin restore --machine {some[-1].place}")
            continue
        if (backups.made(some[-1]) or 0) > tar.moment():
            rows.append(f"{name} has backups, and no settings in {tar.place}, as a room that was "
                        f"made since: rooms-admin restore --machine {some[-1].place}")
        else:
            rows.append(f"{name} has backups, and was removed before {tar.place}: "
                        "docs/machines.md, Taking a room away")
    return rows


def _of_each(folder: str) -> dict[str, list[backups.Backup]]:
    """The backups with a tar of each room that has a folder below that of all."""
    there = waiting.answer(waiting.PATIENCE, lambda: sorted(os.listdir(folder)), folder)
    rows = {name: backups.with_file(f"{folder}/{name}", name, "machine.tar")
            for name in (there if isinstance(there, list) else []) if names.is_room(name)}
    return {name: some for name, some in rows.items() if some}


def _latest(conf: str, folder: str) -> str:
    """Whose room it is of, unless office's that is of another night than the newest one: the
    machine's newest tar has passwords that were taken away since. Numbers are each room's own."""
    backups.need_disk(folder)
    name = settings.name_of(conf)
    own = backups.with_file(folder, name, "machine.tar")[-1:]
    # Without settings, too, a machine may have rooms for another one's front end alone.
    others = [some[-1] for some in _of_each(folder).values()] if name == "office" else []
    newest = max(own + others, key=lambda one: backups.made(one) or 0, default=None)
    if newest is None:
        raise Refused(f"no machine: no backup in {folder} has a machine.tar")
    if own and _is_younger(newest, own[-1]):
        say(f"not of {name}, whose last one is {own[-1].place}: {newest.place} is the newest")
        return newest.place
    return (own or [newest])[-1].place


def _is_younger(one: backups.Backup, other: backups.Backup) -> bool:
    return (backups.made(one) or 0) - (backups.made(other) or 0) > _ONE_NIGHT


def find(conf: str, backup: str) -> str:
    folder = _backups_of(conf)
    if backup == "latest":
        backup = _latest(conf, folder)
    for above in (backups.below(folder, settings.name_of(conf)), folder):
        if "/" not in backup and os.path.isdir(os.path.join(above, backup)):
            backup = os.path.join(above, backup)
    if os.path.isdir(backup):
        backup = os.path.join(backup, "machine.tar")
    return os.path.abspath(backup)


def _opened(place: str) -> int:
    """What it has runs as root, so nobody else may have written it. Links on the way are those of
    whoever has named it; what is looked at is what is read, whatever gets its name meanwhile."""
    above, name = os.path.split(place)
    try:
        with safe.opened(safe.folder(above)) as within:
            number = safe.file_below(within, name)
    except safe.NoFile:
        raise Refused(f"no machine: {place} isn't a file") from None
    except OSError:
        raise Refused(f"no machine: {place} isn't there or can't be read") from None
    seen = os.fstat(number)
    fault = ""
    if seen.st_uid not in (0, os.geteuid()) or seen.st_mode & 0o022:
        fault = (f"not safe: {place} is one that others can write, and what it has runs as root: "
                 "copy it to where only root does, once you know that it is yours")
    elif seen.st_size > machine.MOST:
        fault = f"no machine: {place} has more than {machine.MOST >> 20} MB"
    if fault:
        os.close(number)
        raise Refused(fault)
    return number


def _members(place: str) -> list[tuple[tarfile.TarInfo, bytes]]:
    found = []
    try:
        with open(_opened(place), "rb") as opened, \
                tarfile.open(fileobj=opened, mode="r:") as tar:
            for member in tar:
                # One with holes may be far larger than the tar.
                plain = member.type == tarfile.REGTYPE and not member.issparse()
                source = tar.extractfile(member) if plain else None
                data = source.read() if source else b""
                if source and len(data) != member.size:
                    raise tarfile.ReadError("unexpected end of data")
                found.append((member, data))
    except (tarfile.TarError, OSError, EOFError, ValueError) as fault:
        raise Refused(f"no machine: {place} isn't a whole tar: {fault}") from fault
    return found


def save(target: str, version: str, added: list[str] | None = None,
         more: list[str] | None = None) -> list[str]:
    """What machine.save writes, looked at as a restore will: not on the day that it is needed."""
    lacks = machine.save(target, version, added, more)
    try:
        read(os.path.abspath(target))
    except Refused as why:
        lacks.append(f"no restore takes it: {why}")
    return lacks


def read(place: str) -> Tar:
    """Nothing is written before every name, link and file was looked at."""
    members = _members(place)
    tar = Tar(place)
    for member, data in members:
        if member.name in _OWN_WORDS and member.type == tarfile.REGTYPE:
            tar.words[member.name] = data.decode("utf-8", "surrogateescape")
    for word in _OWN_WORDS[:2]:
        if word not in tar.words:
            raise Refused(f"no machine: {place} has no {word}")
    elsewhere = _look_at_words(tar)
    links = {member.name for member, _ in members if member.type != tarfile.REGTYPE}
    for name, times in Counter(member.name for member, _ in members).items():
        if times > 1:
            raise Refused(f"not ours: {place} has '{name}' twice")
        if (name not in (*_OWN_WORDS, *elsewhere)
                and not machine.is_own_name(name, tar.certificates)):
            raise Refused(f"not ours: {place} has '{name}'")
        if not links.isdisjoint(machine.folders(name)):
            raise Refused(f"not ours: {place} has '{name}' below a link")
    for member, data in members:
        if member.name in elsewhere:
            tar.left_out.append(
                f"/{member.name}: certificates and keys come back below "
                f"{', '.join('/' + one for one in CERTIFICATES)} alone: bring it there by hand")
        elif member.name not in tar.words and (file := _look_at(tar, member, data)):
            tar.files[member.name] = file
    _look_at_places(tar)
    return tar


def _look_at_words(tar: Tar) -> list[str]:
    """Returns the certificates and keys that were elsewhere than where they come back to."""
    elsewhere: list[str] = []
    for one in tar.lines("machine/certificates"):
        if not _PLACE.fullmatch(one) or {".", ".."} & set(one.split("/")):
            raise Refused(f"not ours: {tar.place} names the certificate '{one}'")
        name = one[1:]
        (tar.certificates if name.startswith(CERTIFICATES) else elsewhere).append(name)
    for one in tar.lines("machine/enabled"):
        if not machine.ENABLED.fullmatch(one):
            raise Refused(f"not ours: {tar.place} would enable '{one}'")
    return elsewhere


def _look_at(tar: Tar, member: tarfile.TarInfo, data: bytes) -> File | None:
    name = member.name
    if member.type == tarfile.SYMTYPE:
        if not machine.is_own_link(name, member.linkname):
            raise Refused(f"not ours: {tar.place} has '{name}', a link to '{member.linkname}'")
        return File(link=member.linkname)
    if member.type != tarfile.REGTYPE or member.issparse() or member.mode & 0o7000:
        raise Refused(f"not ours: {tar.place} has '{name}', which is no ordinary file")
    if name in tar.certificates:
        found = pem.anew(data)
        if found is None:
            tar.left_out.append(f"/{name}: certificates and keys alone come back there, and it is "
                                "neither")
            return None
        return File(found, 0o600 if pem.has_key(found) else 0o644)
    if _PASSWORDS.fullmatch(name):
        data = _passwords(tar, name, data)
    return File(data, member.mode & 0o644, ran=bool(member.mode & 0o111))


def _passwords(tar: Tar, name: str, data: bytes) -> bytes:
    """The lines that are one of a user."""
    rows = data.split(b"\n")
    good = [row for row in rows if passwords.nginx_tries_quickly(row)]
    if len(good) < len(rows):
        tar.left_out.append(f"{len(rows) - len(good)} lines of /{name}, which nginx can't try, or "
                            "not in a moment: give these users new passwords")
    return b"\n".join(good)


def _is_here(name: str) -> bool:
    """Whether there is a certificate or a key; something else of that name is no place for one."""
    try:
        with open(f"{ROOT}/{name}", "rb") as source:
            if pem.anew(source.read(pem.MOST + 1)) is None:
                raise Refused(f"another file: /{name} is here, and is no certificate and no key")
    except FileNotFoundError:
        return False
    return True


def _look_at_places(tar: Tar) -> None:
    for name in tar.certificates:
        if name in tar.files and not tar.files[name].link:
            _is_here(name)
    for name in tar.lines("machine/added"):
        if not machine.is_own_name(name, tar.certificates):
            raise Refused(f"not ours: {tar.place} would remove '{name}'")
        if name in tar.certificates:
            _is_here(name)


def setting_of(data: bytes, name: str) -> str:
    return settings.last(data.decode("utf-8", "replace").split("\n"), name) or ""


def is_plain(tar: Tar, name: str) -> bool:
    """Whether nothing runs as root by it. What isn't known to be so is told."""
    file = tar.files[name]
    if file.link:
        return True
    if name in tar.certificates:
        # What is there may be believed by all of the machine.
        return not name.startswith("etc/ssl/certs/")
    if _ROOM.fullmatch(name):
        return _is_plain_room(name, file.data)
    if name == _DIRECTORY:
        # Whoever is at its URI is told the first line of this file.
        return forms.matches(r"(/etc/rooms/[^/]+\.secret)?", setting_of(file.data, "SECRET"))
    if name == template.KEY[1:]:
        return _PLAIN_KEY.fullmatch(file.data) is not None
    return _is_made(tar) if name == _SITE else _PLAIN.fullmatch(name) is not None


def _is_plain_room(name: str, data: bytes) -> bool:
    """With the program of this machine, in the places of the package's rooms."""
    word = settings.name_of(name)
    known = settings.known(settings.Room)
    rows = data.decode("utf-8", "replace").split("\n")
    return (not any(map(environment.fault_of, rows))
            and all(one.partition("=")[0] in known for one in rows if one and one[0] != "#")
            and setting_of(data, "PROGRAM") in ("", settings.PROGRAM)
            and setting_of(data, "UNIT") in ("", f"rooms@{word}")
            and not setting_of(data, "STANDBY")
            and forms.matches(_MAIL, setting_of(data, "MAIL"))
            and forms.matches(r"/var/lib/rooms/[A-Za-z0-9_-][^/]*", setting_of(data, "FILE"))
            and forms.matches(r"/var/backups/rooms(/[A-Za-z0-9_-][^/]*)?",
                              setting_of(data, "BACKUPS")))


def _is_made(tar: Tar) -> bool:
    """Whether nginx's site is what `setup` makes of the settings that are in the tar."""
    with tempfile.TemporaryDirectory(prefix="rooms-site.", dir=locks.FOLDER) as root:
        os.makedirs(f"{root}/etc/rooms")
        for name, file in tar.files.items():
            if name.startswith("etc/rooms/") and name.count("/") == 2:
                safe.put_file(f"{root}/{name}", file.data, 0o600)
        try:
            wanted = template.render(template.template("site.conf.in"), template.gather(root))
        except (Stop, OSError):
            return False
    return wanted.encode(errors="surrogateescape") == tar.files[_SITE].data
