"""What `check` looks at of a room, and of what runs beside it."""
import base64
import contextlib
import glob
import http.client
import os
import pwd
import re
import secrets
import shutil
import time
from collections.abc import Callable

from ..host import accounts, locks, root, waiting
from ..host.at_socket import AtSocket
from ..room import awaited, limit, needs, server, settings
from ..backup import backups, dates, for_search, growth, hours
from ..directory import guests
from ..directory.directory import Directory
from ..site import apache, certificates, served, template
from ..cli.report import Refused, Stop
from ..host.commands import printed
from ..room.settings import Room
from ..room.size import NoRoom, Used
from .finding import CRITICAL, OK, WARNING, Finding
from .front import FAR, is_unmade, see_behind, see_front, see_machine, see_there

HOUR = 3600
# Seconds. Whoever a server or nginx is by now could answer so slowly that it never ends.
PATIENCE = 150
_FAR = 3 * FAR
# Less than this is a full disk: twice the largest document, in the log and on its way.
FULL = 16 << 20
# The clocks of a disk and of the machine may differ by so much.
AHEAD = 120
# So many megabytes of lines about changes: a day of an office has less than one.
GROWN = 100
# Full in fewer weeks than this: it takes some to get a larger machine.
SOON = 8
# Where rooms-nights.service may not look.
UNSEEN = ("/dev", "/etc", "/home", "/proc", "/root", "/run", "/sys", "/tmp", "/var/lib", "/var/log",
          "/var/mail", "/var/spool", "/var/tmp")


def within(seconds: float, look: Callable[[], list[Finding]], what: str) -> list[Finding]:
    """A disk that hangs holds whoever looks at it, so a process of its own does."""
    def looked() -> list[Finding]:
        try:
            return look()
        except Stop as stop:
            return [(CRITICAL, str(stop))]
    try:
        found = waiting.answer(seconds, looked, what)
    except waiting.Hangs as hangs:
        return [(CRITICAL, str(hangs))]
    if not isinstance(found, list):
        return [(CRITICAL, f"{what} can't be looked at")]
    return [(int(level), str(said)) for level, said in found]


def see_owner(room: Room) -> list[Finding]:
    """A file that was made as root: all seems well until its server wants to open it. Beside it may
    be links to files of others, which aren't to be given away."""
    if os.path.exists(room.file) and os.lstat(room.file).st_uid != room.owner:
        return [(CRITICAL, f"{room.file} isn't its server's, which can't open it: chown -h "
                 f"--reference={room.folder} {room.file}*")]
    return []


def see_answer(room: Room) -> list[Finding]:
    """By itself."""
    if awaited.is_well("" if room.listens else room.port, room.listens):
        return [(OK, "answers")]
    state = server.state(room) or "no unit"
    if state == "inactive" and os.path.exists(server.left_at_rest(room)):
        return [(CRITICAL, f"{room.unit} was stopped by a verb that was cut off: "
                 f"rooms-admin groups --after --room {room.name}")]
    return [(CRITICAL, f"{room.unit} doesn't answer ({state}): systemctl status {room.unit}")]


def see_door(room: Room) -> list[Finding]:
    """The web interface needs it. It comes and goes with the room's own unit, and answers at its
    socket whoever asks, whatever systemd thinks of both."""
    unit = f"rooms-door@{room.name}"
    if room.unit != f"rooms@{room.name}" or server.state(room) != "active":
        return []
    asked = AtSocket(room.door, FAR)
    try:
        asked.request("GET", "/door/", headers={"Connection": "close"})
        asked.getresponse()
        return []
    except PermissionError:
        return [] if printed(["systemctl", "is-active", unit]) == "active" else [
            (CRITICAL, f"its door doesn't run: systemctl restart {unit}")]
    except (OSError, http.client.HTTPException) as fault:
        return [(CRITICAL, f"its door doesn't answer: {fault}: systemctl restart {unit}.socket "
                 f"{unit}")]
    finally:
        asked.close()


def see_journal(room: Room) -> list[Finding]:
    """A door that takes lines of changes takes them away within minutes. nginx writes on."""
    megabytes = dates.journal(room) // 1_000_000
    return [(WARNING, f"its journal of changes has {megabytes} MB: systemctl status "
             f"rooms-door@{room.name}")] if megabytes >= GROWN else []


def see_disk(room: Room) -> list[Finding]:
    """What the room's user gets of the room's disk, and how much of LIMIT is in use."""
    found = [_space(room.folder, "the room's disk", server.size_of(room.file))]
    try:
        used, most, starts = Used().look(room.file), limit.of(room), limit.that_starts(room)
    except NoRoom:
        return [*found, (CRITICAL, f"{room.file} can't be read")]
    except Stop as stop:
        return [*found, (WARNING, str(stop))]
    need = needs.last(room.name)
    took = (f", and a start with the {need.used} MB of last night took {need.memory}"
            if need is not None and need.is_more else "")
    if starts is not None and starts < used >> 20 and (most is None or starts < most or took):
        found.append((CRITICAL, f"with {used >> 20} MB in use {room.unit} may not start again: "
                      f"its MemoryMax is enough for {starts} MB{took}"))
    if missing := limit.lacks_swap(room, used >> 20):
        found.append((WARNING, f"the nightly run needs {limit.needed(room, used >> 20)} MB beside "
                      f"the server: {missing} MB of swap are missing"))
    if most is None:
        return [*found, (OK, f"{used >> 20} MB in use")]
    level = (CRITICAL if used > most << 20 else
             WARNING if used * 10 >= (most << 20) * 9 else OK)
    return [*found, (level, f"{used >> 20} of {most} MB in use")]


def see_pace(room: Room) -> list[Finding]:
    """When the room is full, if it goes on growing as it did in the last month's backups."""
    try:
        used, most = Used().look(room.file), limit.of(room)
    except (NoRoom, Stop):
        return []
    grows = growth.of_a_day(room, time.time()) if most else 0
    if not most or grows <= 0 or used > most << 20:
        return []
    weeks = int(((most << 20) - used) / grows) // 7
    when = f"in {weeks} weeks" if weeks > 1 else "within two weeks"
    return [(WARNING, f"at this month's pace it is full {when}")] if weeks < SOON else []


def _space(folder: str, what: str, wanted: int) -> Finding:
    seen = os.statvfs(folder)
    free = seen.f_bavail * seen.f_frsize
    if seen.f_flag & os.ST_RDONLY:
        return CRITICAL, f"{what} is read-only"
    if free < FULL or (seen.f_files and not seen.f_favail):
        return CRITICAL, f"{what} is full: {free >> 20} MB free"
    if free < wanted:
        return WARNING, f"{what} has {free >> 20} MB free, less than the room takes"
    return OK, ""


def see_backups(room: Room) -> list[Finding]:
    """The last good backup, by when it was written. A clock that was set back leaves some in the
    future, which look newer than any that comes."""
    if not os.path.isdir(room.backups):
        return [(CRITICAL, f"no folder of backups: {room.backups}")]
    found = [_space(room.backups, "the disk of backups", server.size_of(room.file))]
    seen = backups.look(room)
    found += [(CRITICAL, one) for one in (*seen.wrong, backups.jump(seen)) if one]
    times = []
    for backup in seen.backups:
        try:
            at = os.stat(os.path.join(backup.place, room.base)).st_mtime
            times.append((max(at, backups.made(backup) or 0), backup.name))
        except (OSError, ValueError):
            continue
    now = time.time()
    ahead = [name for at, name in times if at > now + AHEAD]
    if ahead:
        found.append((WARNING, f"the backup {max(ahead)} is dated in the future: was the clock set "
                      "back?"))
    good = [at for at, name in times if name not in ahead]
    if not good:
        return [*found, _none_yet(room, now)]
    age = int(now - max(good)) // HOUR
    level = CRITICAL if age >= 50 else WARNING if age >= 26 else OK
    return [*found, (level, f"last good backup {age} h ago")]


def see_hours(room: Room) -> list[Finding]:
    """Hourly copies: whether they come, and whether the disk has space for all that may be."""
    if not room.hours or not os.path.isdir(room.backups):
        return []
    seen = hours.found(room)
    said = [(CRITICAL, one) for one in seen.wrong]
    disk = os.statvfs(room.backups)
    free, wanted = disk.f_bavail * disk.f_frsize, hours.wants(room, seen.backups)
    if free < wanted:
        said.append((WARNING, f"{room.hours} hourly copies want {wanted >> 20} MB, and the disk of "
                     f"backups has {free >> 20} MB free"))
    timer = f"rooms-standby@{room.name}.timer"
    if not seen.backups:
        return [*said, (WARNING, f"no hourly copy: systemctl enable --now {timer}")]
    last = seen.backups[-1]
    age = hours.age(last, time.time())
    if age < -AHEAD:
        return [*said, (WARNING, f"the backup {last.name} is dated in the future: was the clock "
                        "set back?")]
    level = WARNING if age >= 3 * HOUR else OK
    return [*said, (level, f"last hourly copy {max(0, int(age)) // HOUR} h ago")]


def see_nights(room: Room) -> list[Finding]:
    """Why users see no earlier night, where the settings let them see some."""
    if room.earlier == "no":
        return []
    there = os.path.realpath(room.backups)
    hidden = [one for one in UNSEEN if os.path.commonpath((one, there)) == one]
    return [(OK, f"no earlier nights, since BACKUPS is below {hidden[0]}")] if hidden else []


def see_search(room: Room) -> list[Finding]:
    """Whether texts are there, where the settings let users search them."""
    if not room.search or room.unit != f"rooms@{room.name}":
        return []
    found = []
    if not shutil.which("pdftotext"):
        found.append((WARNING, "no pdftotext, so no text of a PDF is searched: apt-get install "
                      "poppler-utils"))
    if room.scans and not shutil.which("tesseract"):
        found.append((WARNING, "no tesseract, so no scan is read: apt-get install tesseract-ocr "
                      "tesseract-ocr-deu"))
    last = for_search.last(room)
    # After a restore nobody knows what a text of before belongs to, nor of a clock that was ahead.
    if last is None or not dates.restored(room) < last < time.time() + AHEAD:
        found.append((WARNING, f"no texts are searched yet: systemctl start {room.nightly}"))
    elif (age := time.time() - last) > 50 * HOUR:
        found.append((WARNING, f"the texts that are searched are {age / HOUR:.0f} hours old: "
                      f"journalctl -u {for_search.unit(room.name)}"))
    return found


def see_namespaces(room: Room) -> list[Finding]:
    """A hardened kernel may allow none, and then systemd starts no unit that wants one."""
    try:
        with open(f"{root.ROOT}/proc/sys/user/max_user_namespaces", encoding="ascii") as most:
            if most.read().strip() != "0":
                return []
    except OSError:
        return []
    own = room.own_passwords and not room.behind and room.passwords == "file"
    units = [room.unit, f"rooms-full@{room.name}", f"rooms-door@{room.name}",
             f"rooms-wait@{room.name}", "rooms-would@", "rooms-picture@",
             *(["rooms-own-password@"] if own else []),
             *(["rooms-earlier"] if room.shows_nights else []),
             *(["rooms-texts", "rooms-texts-night@", "rooms-extract@"] if room.search else []),
             *(["rooms-scan@"] if room.search and room.scans else [])]
    # Only an instance is known to show.
    want = [one for one in units if printed(
        ["systemctl", "show", "-p", "PrivateUsers", "--value",
         f"{one}0" if one.endswith("@") else one]) not in ("", "no")]
    return [(CRITICAL, "this machine allows no namespaces of users, so these can't start: "
             f"{' '.join(want)}: sysctl user.max_user_namespaces")] if want else []


def _born(place: str) -> int:
    """When a file was made, in seconds since 1970; 0 where its disk doesn't know."""
    said = printed(["stat", "-c", "%W", "--", place])
    return int(said) if said.isdigit() else 0


def _none_yet(room: Room, now: float) -> Finding:
    if now - _born(room.file) < 26 * HOUR:
        return WARNING, f"no backup yet: systemctl start {room.nightly}"
    return CRITICAL, "no good backup"


def see_groups(room: Room) -> list[Finding]:
    """The last run that the timer began. A run that fails is a unit that has failed. systemd makes
    the stamp when the timer starts, and writes its time anew with each run."""
    timer = f"rooms-directory@{room.name}.timer"
    if not os.path.lexists(f"{root.ROOT}/etc/systemd/system/timers.target.wants/{timer}"):
        return []
    place = f"{root.ROOT}/var/lib/systemd/timers/stamp-{timer}"
    try:
        stamp = os.stat(place).st_mtime
    except OSError:
        return [(WARNING, f"{timer} has never run")]
    age = int(time.time() - stamp) // HOUR
    if age < 0:
        # systemd would wait for that time.
        return [(WARNING, f"{timer} has never run since the clock was set back: systemctl restart "
                 f"{timer}")]
    said = f"{timer} has never run" if 0 <= stamp - _born(place) < 2 else f"groups {age} h ago"
    return [(WARNING if age >= 26 else OK, said)]


def see_timer(room: Room) -> list[Finding]:
    timer = f"{room.nightly}.timer"
    if printed(["systemctl", "is-active", timer]) == "active":
        return []
    return [(WARNING, f"no nightly run is due: systemctl enable --now {timer}")]


def see_mail(room: Room) -> list[Finding]:
    if not room.mail:
        return []
    if not shutil.which("mail"):
        return [(WARNING, f"no mail program, so {room.mail} is told of nothing: apt-get install "
                 "bsd-mailx")]
    if _stays_here(room.mail):
        return [(WARNING, f"mail to {room.mail} stays in a box of this machine, where nobody reads "
                 f"it: echo '{room.mail}: YOU@OFFICE' >>/etc/aliases && newaliases")]
    return []


def _stays_here(name: str) -> bool:
    """Whether a mail ends with root, or with an account that is nobody's, and goes no further."""
    aliases: dict[str, str] = {}
    try:
        with open(f"{root.ROOT}/etc/aliases", encoding="utf-8", errors="replace") as source:
            for line in source:
                word, colon, to = line.partition(":")
                if colon and not line.startswith(("#", " ", "\t")):
                    aliases[word.strip().strip('"').lower()] = to.strip()
    except OSError:
        pass
    for _ in range(10):
        name = aliases.get(name.lower(), "") or name
        if not re.fullmatch(r"[a-z0-9._-]+", name, re.ASCII | re.IGNORECASE):
            # An address elsewhere, a program, a file, several of them.
            return False
        if name.lower() not in aliases:
            break
    try:
        user = pwd.getpwnam(name)
    except KeyError:
        return True
    if os.path.exists(f"{root.ROOT}{user.pw_dir}/.forward"):
        return False
    return user.pw_uid < 1000


def see_directory() -> list[Finding]:
    """The Apache that asks the directory, by a name that nobody has: while that is down or hangs,
    no password is right or wrong."""
    folder = f"{root.ROOT}/etc/rooms"
    if not any(settings.value(one, "PASSWORDS") == "directory"
               for one in glob.glob(f"{glob.escape(folder)}/*.conf")):
        return []
    if not os.access(root.ROOT + template.KEY, os.R_OK) and os.geteuid() != 0:
        return []
    listens = re.search(r"^Listen 127\.0\.0\.1:(\d+)$", template.read(root.ROOT + apache.FILE),
                        re.MULTILINE | re.ASCII)
    key = re.search(r" Rooms-Key ([0-9a-f]+);", template.read(root.ROOT + template.KEY))
    if listens is None or key is None:
        return [(CRITICAL, "PASSWORDS=directory, and no directory: rooms-admin setup --directory")]
    named = base64.b64encode(f"nobody-{secrets.token_hex(8)}:x".encode()).decode()
    asked = http.client.HTTPConnection("127.0.0.1", int(listens[1]), timeout=20)
    try:
        asked.request("GET", "/password/rooms", headers={
            "Connection": "close", "Rooms-Key": key[1], "Authorization": f"Basic {named}"})
        status = asked.getresponse().status
        said = "" if status == 401 else f"it answers {status}"
    except (OSError, http.client.HTTPException) as fault:
        said = str(fault)
    finally:
        asked.close()
    return [(CRITICAL, f"the directory checks no password, and nobody can sign in: {said}; "
             "journalctl -u rooms-passwords")] if said else [(OK, "")]


def see_guests() -> list[Finding]:
    """Whose name came into the directory later. Root alone reads how that is asked."""
    found = []
    with contextlib.suppress(Stop, OSError):
        places = [one for one in template.gather(root.ROOT).shown if one.lets_guests]
        asked = Directory(settings.directory(root.ROOT + guests.FILE)) if places else None
        for place in places:
            if asked and (both := guests.both(asked, place)):
                found.append((CRITICAL, guests.told(place, both)))
    return found


def see_run() -> list[Finding]:
    """Where all units and verbs have names: nothing starts without one. A service may fill it."""
    return [_space(locks.RUN, locks.RUN, 0)]


def see_accounts() -> list[Finding]:
    others = accounts.beside_nginx()
    return [(WARNING, accounts.told(others))] if others else []


def see_units() -> list[Finding]:
    # One that is started again and again is none that has failed.
    said = printed(["systemctl", "list-units", "--state=failed,auto-restart", "--plain",
                    "--no-legend", "rooms*"])
    failed = [line.split()[0] for line in said.splitlines() if line.split()]
    # One that no timer starts again stays so, whatever is mended.
    return [(CRITICAL, f"failed: {' '.join(sorted(failed))}: systemctl status says why; once that "
             "is mended: systemctl reset-failed")] if failed else []


def see_certificates() -> list[Finding]:
    """The site's, if it has one, and those by which machines know one another."""
    site = root.ROOT + "/etc/rooms/site"
    try:
        if os.path.exists(site):
            settings.front(site)
    except Refused as stop:
        return [(CRITICAL, str(stop))]
    return [*map(certificates.see_certificate, certificates.all_of_machine()),
            *((WARNING, said) for file in certificates.site_certificates()
              for said in (served.see_names(file), served.see_renewal(file)) if said)]


def of_place(path: str, machines: dict[str, list[Finding]]) -> list[Finding]:
    """A room on another machine, which knows all else of it. One machine that is away isn't waited
    for again by the next room."""
    place = settings.place(path)
    machine = f"{place.on}:{place.port}"
    if machine not in machines:
        machines[machine] = within(_FAR, lambda: see_machine(place), machine)
    return machines[machine] or within(_FAR, lambda: see_there(place), machine)


def of_room(conf: str) -> list[Finding]:
    if is_unmade(conf):
        return [(OK, "nobody has made it yet")]
    room = settings.room(conf)
    looks = [see_owner, see_namespaces, see_answer, see_door, see_front, see_behind, see_groups,
             see_timer, see_mail, see_search]
    return [*(found for look in looks
              for found in within(PATIENCE, lambda: look(room), f"{room.unit} or nginx")),
            *within(20, lambda: see_disk(room), f"{room.folder}"),
            *within(20, lambda: see_journal(room), dates.CHANGES),
            *(found for look in (see_backups, see_pace, see_hours, see_nights)
              for found in within(20, lambda: look(room), f"{room.backups}"))]
