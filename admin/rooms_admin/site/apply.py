"""nginx's one file, its link and the start page brought into line with the settings, or none."""
import os
from contextlib import suppress

from ..host import as_if, changes, locks
from ..backup import for_search
from ..directory import guests
from ..room import names, settings
from . import apache, connections, password_files, ports, served, template, values
from ..host.changes import Changes
from ..cli.report import Refused, Stop

_LINK = "/etc/nginx/sites-enabled/rooms"
_TARGET = "../sites-available/rooms"
_OURS = {_TARGET, template.FILE}
_DEFAULT = "/etc/nginx/sites-enabled/default"
FOLDERS = ("/etc/rooms/nginx/http.d", "/etc/rooms/nginx/server.d")
# It is there from before nginx's files are written until nginx has read them.
_UNREAD = os.path.join(locks.FOLDER, "nginx~")
# The Apache of docs/directory.md that knows sessions.
_SESSIONS = "/etc/rooms/session.apache"


def edited(root: str) -> bool:
    """Whether somebody has edited the file."""
    old = template.read(root + template.FILE)
    return bool(old) and template.is_edited(old)


def refuse_edited(root: str) -> None:
    if edited(root):
        raise Refused(f"edited: {template.FILE} was edited, and so it can't follow a change: "
                      "rooms-admin setup says what to do")


def look_at_link(root: str) -> None:
    link = root + _LINK
    if as_if.lexists(link) and not (as_if.islink(link) and as_if.readlink(link) in _OURS):
        raise Refused(f"another site: {_LINK} isn't a link to {_TARGET}")


def folders(made: Changes) -> None:
    for one in FOLDERS:
        made.folder(one, 0o755)
    made.folder(os.path.dirname(template.START), 0o755)
    if not made.root:
        # At each start of the machine tmpfiles.d makes it.
        made.folder("/run/rooms-front", 0o710, group=changes.NGINX)


def _is_unread(made: Changes) -> bool:
    """Whether a run that was cut off has left nginx with what it had read before. From here on this
    one may."""
    if made.root or made.dry:
        return False
    is_left = as_if.exists(_UNREAD)
    with suppress(OSError):
        os.close(os.open(_UNREAD, os.O_WRONLY | os.O_CREAT | os.O_CLOEXEC, 0o600))
    return is_left


def _read(made: Changes) -> None:
    if not made.root and not made.dry:
        with suppress(OSError):
            os.unlink(_UNREAD)


def _show_edited(made: Changes, wanted: template.Site, start: bytes) -> bool:
    """The file of somebody's own stays, and what it would be is beside it."""
    text = template.render(template.template("site.conf.in"), wanted)
    if template.read(made.root + template.FILE) != text and made.does(f"file {template.FILE}.new"):
        template.keep_edited(made.root, text)
    made.file(template.START, start)
    connections.put(made, wanted)
    return template.read(made.root + template.FILE) == text


def show(made: Changes) -> bool:
    """Whether nginx has the site of the settings now, and all ports are listened at. If it refuses
    that, all is as before."""
    root = made.root
    # Settings that can't be are refused before anything is changed.
    wanted = look(root)
    # Also where the site is edited, and stays.
    values.tell_gone(made)
    listen = ports.put(made)
    _start_doors(made, wanted)
    made.forget()
    is_edited = edited(root)
    if is_edited:
        password_files.leave(root, wanted)
    start = template.start_page(wanted).encode(errors="surrogateescape")
    # Also of what somebody puts into the edited one's place.
    is_unread = _is_unread(made)
    if is_edited:
        return _show_edited(made, wanted, start) and listen
    count = made.count
    gone = password_files.move(made, wanted)
    text = template.render(template.template("site.conf.in"), wanted)
    made.file(template.FILE, text.encode(errors="surrogateescape"))
    changed = made.count > count
    changed = enable(made) or changed or is_unread
    _see_refused(made, is_unread)
    made.forget()
    made.file(template.START, start)
    if changed:
        made.systemctl("reload", "nginx")
    _read(made)
    password_files.finish(made, gone)
    connections.put(made, wanted)
    serve(made, wanted)
    if changed:
        _see_tls(made, wanted)
    return listen


def _see_refused(made: Changes, is_unread: bool) -> None:
    if made.root or made.dry:
        return
    if refusal := changes.nginx_refuses():
        made.put_back()
        if not is_unread:
            _read(made)
        raise Stop(f"nginx refuses its files, and they are as before: {refusal}")


def _see_tls(made: Changes, wanted: template.Site) -> None:
    if made.root or made.dry or not wanted.front.certificate:
        return
    if as_if.isdir("/run/systemd/system") and (said := served.see_reload(
            wanted.front.certificate)):
        raise Stop(said)


def _start_doors(made: Changes, wanted: template.Site) -> None:
    """Before nginx asks there. Otherwise a door comes and goes with its room's server, and one from
    a version before may have none."""
    if made.root or not as_if.isdir("/run/systemd/system"):
        return
    lacking = [f"rooms-door@{one.name}" for one in wanted.rooms if not one.on
               and ports.runs(f"rooms@{one.name}") and not ports.runs(f"rooms-door@{one.name}")]
    if lacking:
        made.systemctl("daemon-reload")
        made.systemctl("start", *lacking, check=False)


def serve(made: Changes, wanted: template.Site) -> None:
    """A service waits at its socket where there is a room for it, and what one keeps of another
    room goes."""
    for_search.tidy(made, {one.name for one in wanted.rooms if one.search})
    if made.root:
        return
    own = any(one.own for one in wanted.shown)
    earlier = any(one.shows_nights for one in wanted.rooms)
    search = any(one.search for one in wanted.rooms)
    scans = search and any(settings.value(f"/etc/rooms/{one.name}.conf", "SEARCH_SCANS")
                           not in ("", "0") for one in wanted.rooms if one.search)
    here = any(not one.on for one in wanted.rooms)
    for name, is_wanted in (("password-file", own), ("own-password", own), ("nights", earlier),
                            ("earlier", earlier), ("extract", search), ("texts", search),
                            ("scan", scans),
                            ("picture", here), ("would", here)):
        unit = f"rooms-{name}.socket"
        is_on = as_if.islink(f"/etc/systemd/system/sockets.target.wants/{unit}")
        if is_wanted != is_on:
            made.systemctl("disable" if is_on else "enable", "--now", unit)


def enable(made: Changes) -> bool:
    """A site that somebody put there stays."""
    link = made.root + _LINK
    if as_if.lexists(link) and not (as_if.islink(link) and as_if.readlink(link) in _OURS):
        print(f"kept {_LINK}, which isn't a link to {_TARGET}")
        return False
    return made.link(_LINK, _TARGET)


def look(root: str) -> template.Site:
    """The settings of all rooms, if they fit to one another, and what they need is there."""
    wanted = template.gather(root)
    _look_at_files(root, wanted)
    for one in wanted.shown:
        _look_at_checks(root, one)
    return wanted


def _look_at_checks(root: str, room: settings.Place) -> None:
    """Where nobody checks its passwords, a room would answer each with 503."""
    said = f"PASSWORDS={room.passwords} of {room.name} has none yet"
    if room.passwords == "directory" and not apache.is_there(root):
        raise Refused(f"no directory: {said}: docs/directory.md, and then rooms-admin setup "
                      f"--directory {guests.FILE}")
    if room.passwords == "session" and not as_if.exists(root + _SESSIONS):
        raise Refused(f"no sessions: {said}: {_SESSIONS} and its unit first, as docs/directory.md "
                      "has them")


def _look_at_files(root: str, wanted: template.Site) -> None:
    needed = ["front.pem", "front.key", "authority.pem"] if any(
        one.on for one in wanted.rooms) else []
    if wanted.behind:
        needed += ["machine.pem", "machine.key", "authority.pem"]
    for name in needed:
        if not as_if.exists(f"{root}{template.MACHINES}/{name}"):
            raise Refused(f"no certificate: {template.MACHINES}/{name} isn't there; "
                          "docs/machines.md says how it is made")


def disable_default(made: Changes, packaged: bool) -> None:
    """Debian's default site answers on port 80 for each name that no other site has, so that the
    room wouldn't be found at the machine's address."""
    if not as_if.lexists(made.root + _DEFAULT):
        return
    if packaged:
        made.remove(_DEFAULT, " is removed, which showed 'Welcome to nginx!'")
    else:
        print(f"kept {_DEFAULT}, which was changed or shows other pages: where it answers, the "
              "room doesn't")


def _has_others(root: str) -> bool:
    """Sites beside ours: one of them answers for each name that none has, such as an address."""
    try:
        return bool(set(as_if.listdir(root + os.path.dirname(_LINK))) - {os.path.basename(_LINK)})
    except FileNotFoundError:
        return False


def address(root: str) -> str:
    """Where users find office."""
    front = settings.front(root + template.SETTINGS)
    if front.certificate:
        _, said = changes.run("openssl", "x509", "-in", front.certificate, "-noout", "-ext",
                              "subjectAltName", check=False)
        for word in said.replace(",", " ").split():
            kind, _, name = word.partition(":")
            if kind in ("DNS", "Address") and name:
                return f"https://{name}/"
        return f"https://{front.hosts[0]}/"
    if _has_others(root) or front.hosts[0] != settings.Front().hosts[0]:
        return f"http://{front.hosts[0]}/"
    _, said = changes.run("hostname", "-I", check=False)
    first = (said.split() or ["localhost"])[0]
    host = first if names.is_host(first) else f"[{first}]" if ":" in first else "localhost"
    return f"http://{host}/"


def tell(made: Changes) -> None:
    if made.root or made.dry or not as_if.exists(template.FILE):
        return
    where = address("")
    print(f"Users then open {where}")
    if where == f"http://{settings.Front().hosts[0]}/" and _has_others(made.root):
        print("nginx serves other sites too, so that has to be a name of this machine's: "
              "rooms-admin set --site HOSTS=NAME && rooms-admin setup")
    if where.startswith("http:"):
        print("Passwords and documents travel unencrypted until: rooms-admin setup --tls "
              "CERTIFICATE KEY")
