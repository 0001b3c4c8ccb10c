"""All files of settings: lines NAME=value, never executed. One reader for all of them."""
import functools
import os
import stat
from collections.abc import Callable, Iterable
from dataclasses import dataclass, field, fields
from typing import Any

from ..host import as_if, locks
from . import environment, forms, keep as keeping, there
from .names import is_host, is_user
from ..cli.report import Refused

HOME = os.environ.get("ROOMS_SETTINGS", "/etc/rooms")
_HERE = os.path.dirname(os.path.dirname(os.path.realpath(__file__)))
# The program that was installed with this package: below /usr, or below /usr/local.
PROGRAM = os.path.join(_HERE.removesuffix("/share/rooms/rooms_admin")
                       if _HERE.endswith("/share/rooms/rooms_admin") else "/usr/local",
                       "bin/rooms")


def _text(path: str) -> str:
    """Programs that settings name run as whoever reads them. So they are root's, or the caller's
    own, and nobody else can write to them. What is looked at is what is read."""
    try:
        if as_if.is_changed(path):
            return as_if.read(path).decode(errors="surrogateescape")
        with open(os.open(path, os.O_RDONLY | os.O_NONBLOCK | os.O_CLOEXEC), encoding="utf-8",
                  errors="surrogateescape", newline="\n") as source:
            seen = os.fstat(source.fileno())
            if not stat.S_ISREG(seen.st_mode):
                raise Refused(f"no settings: {path} isn't a file")
            if seen.st_uid not in (0, os.geteuid()):
                raise Refused(f"not safe: {path} belongs to another user, who could have you run "
                              f"anything: read it, and then chown {os.geteuid()} {path}")
            if seen.st_mode & 0o022:
                raise Refused(f"not safe: others can write to {path}: chmod go-w {path}")
            return source.read()
    except OSError as fault:
        if path.endswith(".conf"):
            there.need_here(path, name_of(path), value(there.place_of(path), "ON"))
        raise Refused(f"no settings: {path} can't be read: {fault.strerror}") from fault


def lines(path: str) -> list[tuple[int, str]]:
    return _of_text(_text(path))


def _of_text(text: str) -> list[tuple[int, str]]:
    return [(number, line) for number, line in enumerate(text.split("\n"), 1)
            if line and not line.startswith("#")]


def _look_at_units(path: str, text: str) -> None:
    for number, line in enumerate(text.split("\n"), 1):
        if fault := environment.fault_of(line):
            raise Refused(f"bad settings: {path}, line {number} {fault}")


def values(path: str, known: dict[str, str], gone: Iterable[str] = (),
           rows: list[tuple[int, str]] | None = None) -> dict[str, str]:
    """The last value of each name; `known` has the names, and the values of those that lack. Those
    of `gone` say nothing any more. `rows` are what the file is to have."""
    found = dict(known)
    for number, line in lines(path) if rows is None else rows:
        name, equals, value = line.partition("=")
        if equals and name in gone:
            continue
        if not equals or name not in known:
            raise Refused(f"bad settings: {path}, line {number} has none of "
                          + " ".join(f"{one}=" for one in known))
        found[name] = value
    return found


def need(right: object, path: str, name: str, what: str, value: str) -> None:
    if not right:
        raise Refused(f"bad settings: {name} in {path} isn't {what}: '{value}'")


UNIT = r"[A-Za-z0-9_][A-Za-z0-9:_.@-]*"
_Form = str | Callable[[str], object]


@dataclass(frozen=True)
class Setting:
    """A line NAME=value: its form, what a value that hasn't it is said not to be, its value where
    the file has no such line, and what is made of the text."""
    name: str
    form: _Form
    what: str
    default: str
    reads: Callable[[str], Any]

    def fits(self, text: str) -> bool:
        return bool(forms.matches(self.form, text) if isinstance(self.form, str)
                    else self.form(text))

    def of(self, path: str, text: str) -> Any:
        need(self.fits(text), path, self.name, self.what, text)
        return self.reads(text)


def setting(name: str, form: _Form = lambda _: True, what: str = "", default: str = "",
            reads: Callable[[str], Any] = str) -> Any:
    """A field of a record that a line of a file gives."""
    return field(default_factory=functools.partial(reads, default),
                 metadata={"setting": Setting(name, form, what, default, reads)})


def yes(name: str) -> Any:
    return setting(name, r"(yes|no)?", "yes, no or empty", reads=lambda text: text == "yes")


def of_kind(kind: type) -> dict[str, Setting]:
    """The settings of a record, by its fields."""
    return {one.name: one.metadata["setting"] for one in fields(kind) if "setting" in one.metadata}


def known(kind: type) -> dict[str, str]:
    """The names of a file's lines, and the values of those that lack."""
    return ELSEWHERE if kind is Place else {one.name: one.default
                                            for one in of_kind(kind).values()}


def given(kind: type, path: str, got: dict[str, str]) -> dict[str, Any]:
    """The fields of a record that a file's lines give."""
    return {name: one.of(path, got[one.name]) for name, one in of_kind(kind).items()
            if one.name in got}


def need_own_port(path: str, port: str) -> None:
    """One beside a room's socket."""
    first, last = forms.PORTS[0], forms.PORTS[-1]
    need(int(port) in forms.PORTS, path, "PORT",
         f"one of {first} to {last}, which the firewall's table closes", port)


@dataclass(kw_only=True)
class Reached:
    """How a room is reached: what nginx's file has to know of it."""
    port: str = setting("PORT", lambda text: not text or forms.is_port(text), "a port")
    title: str = setting("TITLE")
    passwords: str = setting("PASSWORDS", r"(file|directory|session)?",
                             "file, directory or session", reads=lambda text: text or "file")
    guests: bool = yes("GUESTS")
    host: str = setting("HOST", lambda text: not text or is_host(text), "a host's name")
    behind: bool = yes("BEHIND")
    drive: bool = yes("DRIVE")
    largest: int = setting("LARGEST", r"[1-9][0-9]{0,3}", "a number of megabytes, 1 to 9999", "1",
                           int)
    dates: str = setting("DATES", r"(when|who)?", "when, who or empty")
    search: bool = setting("SEARCH", r"yes|no", "yes or no", "no", lambda text: text == "yes")
    own_passwords: bool = setting("OWN_PASSWORDS", r"yes|no", "yes or no", "yes",
                                  lambda text: text == "yes")
    earlier: str = setting("EARLIER", r"owners|members|no", "owners, members or no", "owners")
    first_night: str = setting("EARLIER_FROM", forms.is_night,
                               "a day or the name of a backup, or empty")

    @property
    def shows_nights(self) -> bool:
        """Whether its users see earlier nights."""
        return self.earlier != "no"

    @property
    def notes_changes(self) -> bool:
        """Whether its door keeps what changed: for dates, and for what a search may rely on."""
        return bool(self.dates) or self.search

    @property
    def has_passwords(self) -> bool:
        """Whether they are in a file here, and not a directory's, or the front end's before it."""
        return self.passwords == "file" and not self.behind

    @property
    def lets_guests(self) -> bool:
        """Whether its file is asked for whom the directory doesn't let in."""
        return self.passwords == "directory" and self.guests


def name_of(path: str) -> str:
    """A room's name is that of its settings, NAME.conf or NAME.on: its units, its folder of
    backups, what nginx shows of it go by that."""
    base = os.path.basename(path)
    name = base.removesuffix(".conf").removesuffix(".on")
    return name if name.strip(".") else "room"


def nightly_unit(name: str) -> str:
    """What makes a backup of a room now."""
    return f"rooms-nightly@{name}"


@dataclass(kw_only=True)
class Kept(Reached):
    """What whoever doesn't get to a room itself knows of it and its backups."""
    conf: str
    file: str = setting("FILE", forms.is_of_units,
                        "an absolute path, with no blank at the end and no backslash")
    backups: str = setting("BACKUPS", forms.is_absolute, "an absolute path")
    program: str = setting("PROGRAM", forms.is_absolute, "an absolute path", PROGRAM)

    @property
    def name(self) -> str:
        return name_of(self.conf)

    @property
    def nightly(self) -> str:
        return nightly_unit(self.name)

    def beside(self, end: str) -> str:
        """A file of root's beside the room's settings, such as office.names."""
        return os.path.join(os.path.dirname(self.conf), self.name + end)


@dataclass(kw_only=True)
class Room(Kept):
    """A room of this machine. `owner` and `group` are whose its folder is."""
    owner: int
    group: int
    keep: keeping.Keep = setting("KEEP", keeping.FORM, keeping.WHAT, "30", keeping.read)
    memory: int = setting("MEMORY", r"([1-9][0-9]{2,6})?", "a number of megabytes, 100 or more",
                          reads=lambda text: int(text or 0))
    limit: str = setting("LIMIT", r"([1-9][0-9]{0,6}|none)?",
                         "a number of megabytes, 1 or more, or none")
    standby: str = setting("STANDBY", r"(([A-Za-z0-9_][A-Za-z0-9_.@-]*:)?/[^:]*)?",
                           "a folder or HOST:FOLDER")
    unit: str = setting("UNIT", UNIT, "the name of a unit")
    mail: str = setting("MAIL", r"([^-].*)?", "an address")
    people: str = setting("PEOPLE", r"full|names|no", "full, names or no", "names")
    review: str = setting("REVIEW", forms.is_folder_of_room, "a folder of the room")
    reviewer: str = setting("REVIEWER", lambda text: not text or is_user(text), "a user's name")
    days_of_names: int = setting("DATES_NAMES", r"0|[1-9][0-9]{0,3}", "a number of days", "90",
                                 int)
    scans: int = setting("SEARCH_SCANS", r"[0-9]|[1-9][0-9]|1[01][0-9]|120",
                         "a number of minutes, 0 to 120", "0", int)
    hours: int = setting("HOURS", r"0|[1-9][0-9]{0,2}", "a number of copies, 0 to 999", "0", int)

    def __post_init__(self) -> None:
        self.folder, self.base = os.path.split(self.file)

    @property
    def listens(self) -> str:
        """The path of the socket at which its server is asked; nothing where the server of a unit
        of somebody's own has a port in its place."""
        instance = self.unit.partition("@")[2] or self.unit
        place = os.path.join(locks.RUN, "rooms", instance, "socket")
        return place if not self.port or os.path.exists(place) else ""

    @property
    def door(self) -> str:
        """The path of the socket of its door."""
        return os.path.join(locks.RUN, "rooms-door", self.name, "socket")

    @property
    def address(self) -> str:
        """For requests to its own server."""
        return "http://localhost" if self.listens else f"http://127.0.0.1:{self.port}"

    @property
    def flag(self) -> str:
        return flag(self.name)


@dataclass(kw_only=True)
class Place(Reached):
    """What nginx needs of a room, here or on the machine ON. With `keeps` its file of passwords is
    the keeper's."""
    name: str
    on: str = setting("ON", forms.is_machine, "a machine's name in a network")

    def __post_init__(self) -> None:
        self.keeps = self.own_passwords and not self.behind

    @property
    def own(self) -> bool:
        """Whether its users change their own passwords."""
        return self.keeps and self.passwords == "file"

    @property
    def shows_nights(self) -> bool:
        return not self.on and super().shows_nights

    @property
    def flag(self) -> str:
        return flag(self.name)


# The lines of a file NAME.on.
ELSEWHERE = {one.name: one.default for one in of_kind(Place).values()
             if one.name in ("TITLE", "ON", "PORT", "LARGEST", "PASSWORDS", "OWN_PASSWORDS")}
ELSEWHERE["PORT"] = "8443"

# Lines that say nothing any more, with what each room has in their place.
GONE = {"DOOR": "its door", "SOCKET": "its socket"}


def _of_room(path: str) -> dict[str, str]:
    got = values(path, known(Room), GONE)
    got["PORT"] = port(path)
    return got


def port(path: str) -> str:
    """Where the room is reached beside its socket. A port beside SOCKET=yes was in reserve."""
    return "" if value(path, "SOCKET") == "yes" else value(path, "PORT")


def flag(name: str) -> str:
    """The file that is there while a room is full."""
    return f"{name}.full"


def file_of(word: str) -> str:
    """The settings of a room, by its name or by their file. A word without '/' is a name, and never
    a file of the folder where the caller stands, which may be somebody else's."""
    word = word or "office"
    return word if "/" in word else f"{HOME}/{word}.conf"


def room(word: str = "") -> Room:
    path = file_of(word)
    _look_at_units(path, _text(path))
    got = _of_room(path)
    got["UNIT"] = got["UNIT"] or f"rooms@{name_of(path)}"
    read = given(Room, path, got)
    _need_pairs(path, got)
    there.need_program(path, got["PROGRAM"])
    seen = there.folder(path, got["FILE"])
    if os.geteuid() not in (0, seen.st_uid):
        raise Refused(f"not root: {os.path.dirname(got['FILE'])} belongs to another user")
    return Room(conf=path, owner=seen.st_uid, group=seen.st_gid, **read)


def _need_pairs(path: str, got: dict[str, str]) -> None:
    for one, other in (("REVIEW", "REVIEWER"), ("CERTIFICATE", "KEY")):
        if bool(got.get(one)) != bool(got.get(other)):
            raise Refused(f"bad settings: {one} and {other} in {path} need one another")


def kind_of(path: str) -> type:
    """Which record a file has."""
    return Room if path.endswith(".conf") else Place if path.endswith(".on") else Front


def look_at(path: str, text: str) -> None:
    """Refuses a text that a verb would refuse, once it was the file's."""
    kind, rows = kind_of(path), _of_text(text)
    got = values(path, known(kind), GONE if kind is Room else (), rows)
    if kind is not Front:
        _look_at_units(path, text)
    if "UNIT" in got:
        got["UNIT"] = got["UNIT"] or f"rooms@{name_of(path)}"
    given(kind, path, got)
    _need_pairs(path, got)


def kept(path: str) -> Kept:
    return Kept(conf=path, **given(Kept, path, _of_room(path)))


def place(path: str) -> Place:
    is_elsewhere = path.endswith(".on")
    _look_at_units(path, _text(path))
    got = values(path, ELSEWHERE) if is_elsewhere else _of_room(path)
    need(got["PORT"] or not is_elsewhere, path, "PORT", "a port", "")
    return Place(name=name_of(path), **given(Place, path, got))


def having(rows: Iterable[str], name: str) -> list[int]:
    """Which lines of settings have a value of that name."""
    return [at for at, row in enumerate(rows) if row.startswith(f"{name}=")]


def last(rows: Iterable[str], name: str) -> str | None:
    """The last value of a name, in lines of settings that were read without a look at the rest."""
    rows = list(rows)
    found = having(rows, name)
    return rows[found[-1]].partition("=")[2] if found else None


def value(path: str, name: str) -> str:
    """The same, of a file; nothing if there is none, or if that is refused."""
    try:
        return last((line for _, line in lines(path)), name) or ""
    except Refused:
        return ""


_SAFE = r"(/[-A-Za-z0-9._/+@,=:]+)?"
_SAFE_PATH = "an absolute path of A-Z a-z 0-9 - . _ / + @ , = :"


@dataclass(kw_only=True)
class Front:
    """The site itself: its names, and its certificate if it has one."""
    hosts: list[str] = setting("HOSTS", forms.are_hosts, "names of hosts", "rooms.example",
                               str.split)
    certificate: str = setting("CERTIFICATE", _SAFE, _SAFE_PATH)
    key: str = setting("KEY", _SAFE, _SAFE_PATH)
    unencrypted: bool = yes("UNENCRYPTED")
    connections: str = setting("CONNECTIONS", r"([1-9][0-9]{1,5}|none)?",
                               "a number of connections, 10 or more, or none")


def front(path: str) -> Front:
    found = Front(**given(Front, path, values(path, known(Front))))
    _need_pairs(path, {"CERTIFICATE": found.certificate, "KEY": found.key})
    return found


_PLAIN = r"(/[-A-Za-z0-9._/]+)?"
_PLAIN_PATH = "an absolute path of A-Z a-z 0-9 - . _ /"
# Those that the machine trusts, as ca-certificates writes them.
_TRUSTED = "/etc/ssl/certs/ca-certificates.crt"


@dataclass(kw_only=True)
class Directory:
    uri: str = setting("URI", r"ldaps?://([A-Za-z0-9.-]+|\[[0-9a-fA-F:]+\])(:[0-9]{1,5})?/?",
                       "an address such as ldaps://dc.office.example")
    base: str = setting("BASE", r"[^\0-\x1f]*=[^\0-\x1f]*", "a name such as dc=office,dc=example")
    name: str = setting("NAME", r"[A-Za-z][A-Za-z0-9-]*", "an attribute such as uid", "uid")
    users: str = setting("USERS", r"\([^\0-\x1f]*\)", "a filter such as (objectClass=person)",
                         "(objectClass=person)")
    members: str = setting("MEMBERS", r"memberOf|member|memberUid",
                           "memberOf, member or memberUid", "memberOf")
    wait: int = setting("WAIT", r"[1-9][0-9]{0,3}", "a number of seconds", "30", int)
    bind: str = setting("BIND", r'[^\0-\x1f"$]*', 'a name without " and $')
    secret: str = setting("SECRET", _PLAIN, _PLAIN_PATH)
    ca: str = setting("CA", _PLAIN, _PLAIN_PATH)

    @property
    def needs_starttls(self) -> bool:
        """Nothing goes unencrypted to another machine."""
        scheme, _, rest = self.uri.partition("://")
        return scheme == "ldap" and not is_this_machine(rest.strip("/"))

    @property
    def authorities(self) -> str:
        """The file of those that are believed: a connection takes none from libldap's settings."""
        return self.ca or (_TRUSTED if os.path.isfile(_TRUSTED) else "")


def is_this_machine(host: str) -> bool:
    """A host, perhaps with a port. One that only begins as an address is another machine."""
    if host.startswith("["):
        return host.startswith("[::1]") and forms.matches(r"\[::1\](:[0-9]*)?", host)
    host = host.partition(":")[0].lower()
    return host == "localhost" or forms.matches(r"127(\.[0-9]{1,3}){1,3}", host)


def directory(path: str) -> Directory:
    found = Directory(**given(Directory, path, values(path, known(Directory))))
    for name, file in (("SECRET", found.secret), ("CA", found.ca)):
        if file and not (os.path.isfile(file) and os.path.getsize(file)):
            raise Refused(f"no file: {file}, of {name} in {path}, isn't there")
    if bool(found.bind) != bool(found.secret):
        raise Refused(f"bad settings: BIND and SECRET in {path} need one another")
    if found.secret and os.stat(found.secret).st_mode & 0o077:
        raise Refused(f"not secret: others can read {found.secret}: chmod 600 {found.secret}")
    return found


def groups(path: str) -> tuple[dict[str, str], int]:
    """Lines 'group NAME = WHAT', where WHAT is what the directory calls it; and MOST."""
    found, most = dict[str, str](), "10"
    for number, line in lines(path):
        if line.startswith("MOST="):
            most = line.removeprefix("MOST=")
            continue
        name, equals, what = line.removeprefix("group ").partition(" = ")
        if not line.startswith("group ") or not equals or not what:
            raise Refused(f"bad settings: {path}, line {number} is neither 'group NAME = WHAT' "
                          "nor MOST=")
        if not is_user(name):
            raise Refused(f"bad settings: {path}, line {number}: '{name}' can't be a group of a "
                          "room")
        found[name] = what
    if not found:
        raise Refused(f"bad settings: {path} names no group")
    need(forms.matches(r"[0-9]{1,6}", most), path, "MOST", "a number", most)
    return found, int(most)
