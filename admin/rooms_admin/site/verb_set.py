"""Settings of a room, or of the site, by their names: each is put in the place of its last line, or
at the end, and all other lines stay. What the file would say then is looked at first, together with
those of all rooms, so nothing that a verb would refuse is written. Last it prints what has to be
done so that they count."""
import argparse
import os
import re

from ..backup import copying, standby
from ..cli import alike, report, words
from ..host import as_if, locks
from ..host.changes import Changes, changes_asked_for
from ..room import server, settings, there
from . import apply, ports, served, setting_up, template, values
from ..cli.report import Refused, say

# Who reads what only when it starts.
_STARTED = {"FILE": "rooms", "PROGRAM": "rooms", "DRIVE": "rooms-door", "DATES": "rooms-door",
            "DATES_NAMES": "rooms-door", "LARGEST": "rooms-door", "SEARCH": "rooms-door",
            "LIMIT": "rooms-full"}


def arguments(parser: words.Parser) -> None:
    parser.forms = ["[--room ROOM | --site] [--dry-run] [--destdir DIR] NAME=VALUE [NAME=VALUE ..]"]
    words.word(parser, "values", "NAME=VALUE ..", "a setting, and its value, which may be empty")
    whose = parser.add_mutually_exclusive_group()
    words.room(whose)
    words.flag(whose, "--site", "those of the site, in /etc/rooms/site")
    words.image(parser)


def _elsewhere(root: str, path: str, name: str) -> str:
    """Where a room of another machine has a setting that only its own file has."""
    if settings.kind_of(path) is settings.Place and name in settings.known(settings.Room):
        room, machine = settings.name_of(path), settings.value(root + path, "ON")
        return f": the room {room} is on {machine}; there: {report.typed}"
    return ""


def _wanted(given: list[str], root: str, path: str, known: dict[str, str]) -> dict[str, str]:
    found: dict[str, str] = {}
    for one in given:
        name, equals, value = one.partition("=")
        if not equals or "\n" in value:
            raise Refused(f"bad arguments: '{one}' isn't NAME=VALUE")
        if name not in known:
            raise Refused(f"no setting: {path} has no {name}"
                          + (_elsewhere(root, path, name) or alike.meant(name, known)))
        if name in found:
            raise Refused(f"bad arguments: {name} stands twice")
        if name == "MAIL" and re.search(r"[^,\s]\s+[^,\s]", value):
            raise Refused(f"bad settings: MAIL in {path} isn't addresses with commas between them: "
                          f"'{value}'")
        found[name] = value
    return found


def _file(given: argparse.Namespace, root: str) -> str:
    """As the machine names it."""
    if given.site:
        return template.SETTINGS
    if "/" in given.room:
        return str(given.room)
    path = f"{'/etc/rooms' if root else settings.HOME}/{given.room or 'office'}"
    return next((path + end for end in (".conf", ".on") if os.path.exists(root + path + end)),
                path + ".conf")


def _need_unit(made: Changes, path: str, unit: str) -> None:
    """Verbs would stop and start one that isn't there, and the room goes on meanwhile."""
    if (unit not in ("", f"rooms@{settings.name_of(path)}") and not made.root
            and os.path.isdir("/run/systemd/system")
            and server.systemctl("show", "-p", "LoadState", "--value", unit)[1] != "loaded"):
        raise Refused(f"no unit: systemd has no {unit}")


def _need_places(path: str, wanted: dict[str, str]) -> None:
    """By another program or folder the server wouldn't start again, and each verb would refuse."""
    if "PROGRAM" in wanted:
        there.need_program(path, wanted["PROGRAM"])
    if "FILE" in wanted:
        there.need_file(path, wanted["FILE"])


def _need_copies(path: str, text: str, wanted: dict[str, str]) -> None:
    """Where no copy could come, the next run would say it, at night."""
    looks = {"BACKUPS": copying.hindered, "STANDBY": standby.hindered}
    with as_if.supposed(path, text.encode(errors="surrogateescape")):
        for name in looks.keys() & wanted.keys():
            if wanted[name] and (why := looks[name](settings.room(path))):
                raise Refused(why)


def _need_certificate(path: str, host: str) -> None:
    if host and os.path.exists(template.SETTINGS):
        served.need_for(settings.front(template.SETTINGS), host, path)


def _need_port(path: str, text: str, wanted: dict[str, str]) -> None:
    """One at which another program listens; a server of one's own unit has it itself."""
    name = settings.name_of(path)
    unit = settings.last(text.split("\n"), "UNIT")
    if wanted.get("PORT") and path.endswith(".conf") and unit in (None, "", f"rooms@{name}"):
        ports.need_free("", name, wanted["PORT"])


def _need_pair(made: Changes, kind: type, text: str, wanted: dict[str, str]) -> None:
    """As setup does, by which nginx would have them."""
    rows = text.split("\n")
    pair = [settings.last(rows, name) or "" for name in ("CERTIFICATE", "KEY")]
    if kind is settings.Front and all(pair) and wanted.keys() & {"CERTIFICATE", "KEY"}:
        setting_up.look_at_pair(made, pair[0], pair[1])


def _refusal(root: str) -> str:
    """What setup says against the settings of all rooms."""
    try:
        apply.look(root)
    except Refused as why:
        return str(why)
    return ""


def _look_at_all(root: str, path: str, text: str) -> str:
    """What setup would refuse isn't written. Where it refuses them already, several files may have
    to change, one by one: what it says then is told."""
    if not os.path.isdir(root + "/etc/rooms"):
        return ""
    before = _refusal(root)
    with as_if.supposed(root + path, text.encode(errors="surrogateescape")):
        then = _refusal(root)
    if then and not before:
        raise Refused(then)
    return then


def _tell(made: Changes, path: str, changed: dict[str, str], kind: type, refusal: str) -> None:
    """What has them count. Other settings are read by each run."""
    name = settings.name_of(path)
    site = {one.name for one in settings.of_kind(settings.Reached).values()} - {"EARLIER_FROM"}
    todo = []
    if kind is not settings.Room or changed.keys() & {*site, "SEARCH_SCANS"}:
        todo.append("rooms-admin setup")
    if kind is settings.Room:
        units = {unit: None for one, unit in _STARTED.items() if one in changed}
        todo += [f"systemctl restart {unit}@{name}" for unit in units]
        timer = f"rooms-standby@{name}.timer"
        if changed.get("HOURS", "0") not in ("", "0") and not os.path.lexists(
                f"{made.root}/etc/systemd/system/timers.target.wants/{timer}"):
            todo.append(f"systemctl enable --now {timer}")
    if "PEOPLE" in changed:
        # Until the night nginx shows what there was.
        of = "" if name == "office" else f" --room {name}"
        todo += [f"rooms-admin {verb}{of}" for verb in ("people", "mine")]
    if todo:
        print(f"it counts after: {'; '.join(todo)}")
    if refusal and "rooms-admin setup" in todo:
        say(refusal)


def run(given: argparse.Namespace) -> int:
    made = changes_asked_for(given.destdir, given.dry_run)
    path = _file(given, made.root)
    kind = settings.kind_of(path)
    with locks.machine(made.root, made.dry):
        if not os.path.exists(made.root + path):
            raise Refused(f"no settings: {path} isn't there")
        wanted = _wanted(given.values, made.root, path, settings.known(kind))
        text = template.read(made.root + path)
        then = values.changed(text, wanted)
        settings.look_at(path, then)
        _need_unit(made, path, wanted.get("UNIT", ""))
        if wanted.get("PORT") and path.endswith(".conf"):
            settings.need_own_port(path, wanted["PORT"])
        if not made.root:
            _need_places(path, wanted)
            _need_copies(path, then, wanted)
            _need_certificate(path, wanted.get("HOST", ""))
            _need_port(path, then, wanted)
            _need_pair(made, kind, then, wanted)
        refusal = _look_at_all(made.root, path, then)
        changed = {name: value for name, value in wanted.items()
                   if settings.value(made.root + path, name) != value}
        values.set_values(made, path, wanted)
    if not changed:
        print("nothing to change")
    else:
        _tell(made, path, changed, kind, refusal)
    if "FILE" in changed and not made.root and not os.path.exists(wanted["FILE"]):
        say(f"no file: {wanted['FILE']} isn't there, and without it the server doesn't start again")
    return 0
