"""nginx's site: one file, made from one template and the settings of all rooms. The start page."""
import difflib
import hashlib
import html
import os
import re
from dataclasses import dataclass

from ..host import as_if, commands, safe
from ..room import names, settings, waits
from ..passwords import passwords
from ..cli.report import Refused, say
from ..room.settings import Front, Place

SHARE = os.path.dirname(os.path.dirname(os.path.dirname(os.path.realpath(__file__))))
FILE = "/etc/nginx/sites-available/rooms"
SETTINGS = "/etc/rooms/site"
START = "/var/lib/rooms-front/start.html"
MACHINES = "/etc/rooms/machines"
KEY = "/etc/rooms/passwords.key"
# Sockets at which passwords are checked, which divide a hundred.
CHECKS = 25
# What stands in a file of its own.
_PART = re.compile(r"^@part ([a-z.-]+)@\n", re.M)
# A line for each field that nginx doesn't pass on, of what it asks by this protocol.
_HIDE = re.compile(r"^@hide ([a-z]+)@\n", re.M)
_SUM = re.compile(r"checksum\n# ([0-9a-f]{64}|@SUM@)\.\n", re.ASCII)
# A room's own (docs/http.md); the first four change what is there, or its bytes.
ROUTES = ("doc", "folder", "object", "move", "dacl", "sacl", "attr", "can")
# What the site itself has at '/': the routes of office, its page, the start page, the check of
# passwords. No room has such a name.
TAKEN = {*ROUTES, "me", "people", "mine", "rooms", "password", "door", "drive", "earlier"}


@dataclass
class Site:
    front: Front
    rooms: list[Place]
    page: str
    # How nginx is told to speak HTTP/2: 'on' by a line, 'listen' by a word behind a port, or not.
    http2: str = ""

    @property
    def shown(self) -> list[Place]:
        return [one for one in self.rooms if not one.behind]

    @property
    def behind(self) -> list[Place]:
        return [one for one in self.rooms if one.behind]


def share(root: str) -> str:
    """Where the package's files are, on the machine whose root that is."""
    return SHARE.removeprefix(root) if root and SHARE.startswith(root + "/") else SHARE


def template(name: str) -> str:
    """Beside the package once it is installed, and in the repository."""
    deploy = os.path.join(os.path.dirname(SHARE), "deploy")
    for place in (SHARE, deploy, *(f"{deploy}/{one}" for one in ("nginx", "systemd"))):
        try:
            with open(os.path.join(place, name), encoding="utf-8") as source:
                return source.read()
        except FileNotFoundError:
            pass
    raise Refused(f"not installed: {SHARE}/{name} isn't there")


def gather(root: str) -> Site:
    """The settings of the site and of all rooms below a root, which is empty but for tests and
    for whoever makes an image of a machine."""
    folder = root + "/etc/rooms"
    rooms = []
    for name in sorted(as_if.listdir(folder)):
        word, kind = settings.name_of(name), os.path.splitext(name)[1]
        path = os.path.join(folder, name)
        if kind not in (".conf", ".on") or not names.is_room(word):
            continue
        if kind == ".conf" and settings.value(path, "UNIT") not in ("", f"rooms@{word}"):
            continue
        if word in TAKEN:
            raise Refused(f"bad name: {path}: /{word} belongs to the site itself")
        rooms.append(settings.place(path))
    front = (settings.front(root + SETTINGS) if as_if.exists(root + SETTINGS)
             else Front())
    found = Site(front, rooms, os.path.join(share(root), "page"), _http2(root))
    _check(found, folder)
    _check_alone(found, folder)
    return found


# From this version on a word behind a port is an old form, of which each test of the file warns.
_HTTP2_ON = (1, 25, 1)
_VERSION = re.compile(r"(?:^|/)(?:[0-9]+:)?([0-9]+)\.([0-9]+)\.([0-9]+)", re.ASCII)


def _http2(root: str) -> str:
    """By the version of nginx, which Debian says also of a machine that isn't running yet."""
    admin = f"{root}/var/lib/dpkg"
    words = (["dpkg-query", f"--admindir={admin}", "-W", "-f", "${Version}", "nginx"]
             if root and as_if.isdir(admin) else ["/usr/sbin/nginx", "-v"])
    try:
        done = commands.run(words)
    except OSError:
        return ""
    found = _VERSION.search(done.out or done.said)
    if done.status or not found:
        return ""
    return "on" if tuple(map(int, found.groups())) >= _HTTP2_ON else "listen"


def _check_alone(site: Site, folder: str) -> None:
    """What one room of this machine alone can have. A file also belongs to one with a unit of
    somebody's own, which isn't of the site; several settings of one unit are of one server."""
    files: dict[str, tuple[str, str]] = {}
    units: dict[str, tuple[str, str]] = {}
    for name in sorted(one for one in as_if.listdir(folder) if one.endswith(".conf")):
        path = f"{folder}/{name}"
        file, unit = (settings.value(path, one) for one in ("FILE", "UNIT"))
        mine = unit or f"rooms@{settings.name_of(name)}", path
        if not file:
            continue
        file = os.path.normpath(file)
        served = units.setdefault(mine[0], (file, path))
        if served[0] != file:
            raise Refused(f"unit in use: {served[1]} has {mine[0]} too, and UNIT in {path} has to "
                          "be another one")
        other = files.setdefault(file, mine)
        if other[0] != mine[0]:
            raise Refused(f"file in use: {other[1]} has {file} too, and FILE in {path} has to be "
                          "another one")
    ports: dict[str, str] = {}
    for path, port in ((f"{folder}/{one.name}.conf", one.port) for one in site.rooms
                       if one.port and not one.on):
        if (first := ports.setdefault(port, path)) != path:
            raise Refused(f"port in use: {first} has {port}")


def _check(site: Site, folder: str) -> None:
    seen: dict[str, str] = {}
    for one in site.rooms:
        if seen.setdefault(one.name, one.on) != one.on:
            raise Refused(f"two rooms: {folder} has {one.name}.conf and {one.name}.on")
    hosts = list(site.front.hosts)
    for one in site.rooms:
        if one.host in hosts:
            raise Refused(f"host in use: HOST in {folder}/{one.name}.conf is {one.host}")
        hosts += [one.host] if one.host else []
        if one.name == "office" and (one.host or one.behind or one.on):
            raise Refused("bad settings: office is the site's own room, without HOST and BEHIND")
        if one.passwords == "session" and not site.front.certificate:
            raise Refused(f"bad settings: PASSWORDS=session in {folder}/{one.name}.conf needs TLS")


def render(text: str, site: Site) -> str:
    """The text of the file, with its checksum."""
    front = site.front
    shown = site.shown
    files = {how: "|".join(passwords.base(one.name) for one in shown if _asks(one) == how)
             for how in ("directory", "guests", "session", "own")}
    while "\n@part " in text:
        text = _PART.sub(lambda found: template(found[1]), text)
    text = _HIDE.sub(lambda found: _hidden(found[1]), text)
    text = _sections(text, {
        "TLS": bool(front.certificate), "PLAIN": not front.certificate,
        "DIRECTORY": bool(files["directory"]), "GUESTS": bool(files["guests"]),
        "SESSION": bool(files["session"]),
        "PASSWORD_PAGE": not files["session"], "OWN": bool(files["own"]),
        "MACHINES": any(one.on for one in shown), "BEHIND": bool(site.behind),
        "JOURNALS": any(one.notes_changes for one in site.rooms),
        "HTTP2_ON": bool(front.certificate) and site.http2 == "on"})
    for name, rows in _maps(site).items():
        text = text.replace(f"@{name}@\n", "".join(f"    {row};\n" for row in rows))
    text = text.replace("@UPSTREAMS@\n", "".join(f"{row}\n" for one in site.rooms
                                                 for row in _upstreams(one)))
    for name, value in (
            ("ROUTES", "|".join(ROUTES)), ("BUT_DOC", "|".join(ROUTES[1:])),
            ("DATED", "|".join(ROUTES[:4])),
            ("HOSTS", " ".join(front.hosts + [one.host for one in shown if one.host])),
            ("CERTIFICATE", front.certificate), ("KEY", front.key), ("PAGE", site.page),
            ("ERRORS", os.path.join(os.path.dirname(site.page), "errors")),
            ("DIRECTORY_FILES", files["directory"]), ("GUEST_FILES", files["guests"]),
            ("SESSION_FILES", files["session"]),
            ("OWN_FILES", files["own"]), ("HTTP2", " http2" if site.http2 == "listen" else ""),
            ("LARGEST", _largest(shown)), ("LARGEST_BEHIND", _largest(site.behind)),
            ("ANSWER", f"{waits.ANSWER:.0f}"), ("NIGHT", f"{waits.NIGHT:.0f}"),
            ("NIGHT_THERE", f"{waits.NIGHT + 10:.0f}")):
        text = text.replace(f"@{name}@", value)
    return text.replace("@SUM@", _sum(text), 1)


def _largest(rooms: list[Place]) -> str:
    """What nginx takes for any of them. Each door knows what its own room takes."""
    return f"{max((one.largest for one in rooms), default=1)}m"


def _hidden(protocol: str) -> str:
    """Of rooms, doors and services alike."""
    rows = template("hidden-fields.txt").split("\n")
    return "".join(f"    {protocol}_hide_header {row};\n" for row in rows
                   if row and not row.startswith("#"))


def _changes(room: Place) -> str:
    """How passwords of a room change: 'own' by its users, 'file' by root alone, or elsewhere."""
    return "own" if room.own else room.passwords


def _asks(room: Place) -> str:
    """Who is asked whether a password is right; 'guests' is the directory, and then the file."""
    return "guests" if room.lets_guests else _changes(room)


def guests_row(room: Place) -> str:
    """The file of a room's guests, where it is once the site is there; nothing if it has none."""
    file = (passwords.kept_of if room.keeps else passwords.old_of)(room.name)
    return f"{passwords.base(room.name)} {file}" if _asks(room) == "guests" else ""


def _sections(text: str, wanted: dict[str, bool]) -> str:
    """What stands between '@if NAME@' and '@end@' is there or not; '@again NAME@' is what stood
    between '@keep NAME@' and '@end@'."""
    out: list[str] = []
    kept: dict[str, list[str]] = {}
    into = [[out]]
    for row in text.split("\n"):
        word, _, name = row.strip("@").partition(" ")
        if row.startswith("@if "):
            into.append(into[-1] if wanted[name] else [])
        elif row.startswith("@keep "):
            into.append([*into[-1], kept.setdefault(name, [])])
        elif row == "@end@":
            into.pop()
        elif row.startswith("@again "):
            for one in into[-1]:
                one += kept[name]
        else:
            for one in into[-1]:
                one.append(row)
    return "\n".join(out)


def _maps(site: Site) -> dict[str, list[str]]:
    """The lines of each map."""
    hosts = [one for one in site.shown if one.host]
    paths = [one for one in site.shown if one.name != "office" and not one.host]
    return {
        "ROOMS": [f'"~^{re.escape(one.host)} " {one.name}' for one in hosts]
        + [f'"~^[^ ]+ /{one.name}(/|$)" {one.name}' for one in paths],
        "PLACES": [f'"~^{re.escape(one.host)} " 0' for one in hosts]
        + [f'"~^[^ ]+ /{one.name}(/|$)" {2 if one.on else 1}' for one in paths],
        "SCHEMES": [f"{one.name} https" for one in site.shown if one.on],
        "THERE": [f"{one.name} {one.on}" for one in site.shown if one.on],
        "FLAGS": [f"{one.name} {one.flag}" for one in site.shown if not one.on],
        "DRIVES": [f"{one.name} yes" for one in site.shown if one.on or one.drive],
        "LARGEST_OF": [f"{one.name} {one.largest << 20}" for one in site.shown if one.largest > 1],
        "DATES": [f"{one.name} {one.name}" for one in site.shown if one.notes_changes],
        "EARLIER": [f"{one.name} yes" for one in site.shown if one.on or one.shows_nights],
        "CHECKS": [*(f"{100 // CHECKS}% {number}" for number in range(1, CHECKS)), "* 0"],
        "CHECK_SOCKETS": [f"listen unix:/run/rooms-front/checks-{number}.sock backlog=128"
                          for number in range(CHECKS)],
        "SESSIONS": [f"{one.name} 1" for one in site.shown if one.passwords == "session"],
        "CHANGES": [f'"{one.name} {f"/{one.name}" if one.on else ""}/password" {_changes(one)}'
                    for one in site.shown],
        "GUESTS": [row for one in site.shown if (row := guests_row(one))],
        "BEHIND": [f'"~^/{one.name}(/|$)" {one.name}' for one in site.behind],
        "BEHIND_FLAGS": [f"{one.name} {one.flag}" for one in site.behind],
        "BEHIND_DRIVES": [f"{one.name} yes" for one in site.behind if one.drive],
        "BEHIND_DATES": [f"{one.name} {one.name}" for one in site.behind if one.notes_changes],
        "BEHIND_EARLIER": [f"{one.name} yes" for one in site.behind if one.shows_nights],
    }


def _upstreams(room: Place) -> list[str]:
    """Of its server and of its door. On another machine the same address leads to both: that one
    knows which it is."""
    if room.on:
        # One that couldn't be reached is asked again by the next request.
        return [f"upstream room_{room.name} {{ server {room.on}:{room.port} max_fails=0; }}"]
    return [f"upstream {what}_{room.name} {{ server unix:/run/{folder}/{room.name}/socket; }}"
            for what, folder in (("room", "rooms"), ("door", "rooms-door"))]


def _sum(text: str) -> str:
    return hashlib.sha256(_SUM.sub("checksum\n# @SUM@.\n", text, count=1).encode(
        errors="surrogateescape")).hexdigest()


def is_edited(text: str) -> bool:
    found = _SUM.search(text)
    return found is None or found[1] != _sum(text)


def read(place: str) -> str:
    try:
        return as_if.read(place).decode(errors="surrogateescape")
    except FileNotFoundError:
        return ""


def keep_edited(root: str, new: str) -> None:
    """A file that somebody edited stays, and what would be new is beside it."""
    old = read(root + FILE)
    safe.put_file(root + FILE + ".new", new.encode(errors="surrogateescape"), 0o644)
    say(f"kept {FILE}, which was edited: what it should be is {FILE}.new. Move your lines to "
        "/etc/rooms/nginx/server.d, or http.d, and put that one in its place")
    for line in list(difflib.unified_diff(old.splitlines(), new.splitlines(), FILE,
                                          FILE + ".new", lineterm="", n=0))[:20]:
        say(line)


def start_page(site: Site) -> str:
    """The rooms that have a title, and where they are."""
    rows = []
    for one in sorted(site.shown, key=lambda room: (bool(room.on), room.name)):
        place = f"//{one.host}/" if one.host else "/" if one.name == "office" else f"/{one.name}/"
        if one.title:
            rows.append(f'        <li><a href="{place}">{html.escape(one.title, quote=False)}</a>'
                        "</li>\n")
    return f"""<!doctype html>
<html lang="en">
<head>
  <meta charset="utf-8">
  <meta name="viewport" content="width=device-width, initial-scale=1">
  <meta name="color-scheme" content="light dark">
  <title>Rooms</title>
  <link rel="stylesheet" href="style.css">
</head>
<body>
  <main id="main">
    <div class="sheet padded">
      <h1>Rooms · <span lang="de">Räume</span> · <span lang="fr">Salles</span></h1>
      <ul>
{"".join(rows)}      </ul>
    </div>
  </main>
</body>
</html>
"""
