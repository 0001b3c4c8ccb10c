"""What setup makes: the user, folders, settings, and all that nginx and Apache have of them."""
import glob
import hashlib
import os
import re
import shutil
import tempfile
from pwd import getpwnam, struct_passwd

from ..host import accounts, as_if, changes, commands
from ..room import forms, program as runs, settings
from ..passwords import passwords
from ..directory import directory, guests
from . import apache, apply, certificates, password_files, served, template, values
from ..cli.report import Refused, Stop, say
from ..host.changes import Changes

_OFFICE = "/etc/rooms/office.conf"
_UNIT = "rooms-passwords.service"
# From this number on Debian gives them to people.
_PEOPLE = 1000
# What units with ProtectHome don't see.
_UNSEEN = ("/root/", "/home/", "/run/user/")


def set_up(made: Changes, pair: tuple[str, str] | None, chosen: str,
           where: settings.Directory | None) -> int:
    _user(made)
    made.folder("/var/lib/rooms", 0o700, "rooms")
    made.folder("/var/backups/rooms", 0o700, "root")
    made.folder("/etc/rooms", 0o755)
    if not as_if.exists(made.root + _OFFICE):
        text = room_text(made.root, "office", "", "office", "/var/backups/rooms")
        made.file(_OFFICE, text.encode())
    if not made.root and not as_if.isdir("/etc/nginx"):
        print("no nginx here: apt-get install nginx apache2-utils, and then run this again")
        return _end(made, True)
    apply.folders(made)
    password_files.folder(made)
    values.put_site(made)
    if pair:
        values.set_values(made, template.SETTINGS, {"CERTIFICATE": pair[0], "KEY": pair[1]})
    if chosen:
        _switch(made, chosen, where)
    _keep_directory(made, not chosen)
    password_files.put(made, "office", settings.place(made.root + _OFFICE).keeps)
    apply.disable_default(made, default_is_packaged(made.root))
    good = apply.show(made)
    if pair and (lacks := served.names_without(pair[0], template.gather(made.root))):
        say(f"no certificate: {pair[0]} isn't for {' and '.join(lacks)}, where browsers warn")
    if not made.root:
        _run_passwords(made, chosen)
    return _end(made, good)


def _end(made: Changes, good: bool) -> int:
    if not made.count:
        print("nothing to change")
    _tell_disabled(made)
    if not made.dry and not made.root and not as_if.exists("/var/lib/rooms/office.rooms"):
        print("""What is left (docs/operating.md), with your own names for alice and staff:
  runuser --pty -u rooms -- rooms init /var/lib/rooms/office.rooms alice staff </dev/null
  systemctl enable --now rooms@office rooms-nightly@office.timer
  rooms-admin user add alice""")
    apply.tell(made)
    return 0 if good else 1


def _user(made: Changes) -> None:
    """For the servers, mail about them, the check of passwords, users' own changes of theirs,
    copies, the doors, earlier nights, ports, who waits, texts, pictures, and what would come of
    changes."""
    if made.root:
        return
    for name in ("rooms", "rooms-mail", changes.CHECKER, passwords.KEEPER, runs.COPIES,
                 "rooms-door", "rooms-night", "rooms-earlier", "rooms-port", "rooms-wait",
                 "rooms-texts", "rooms-extract", "rooms-picture", "rooms-would"):
        try:
            if _signs_in(getpwnam(name)):
                say(f"not safe: somebody signs in as {name}, who gets to rooms: rename that "
                    "account, and then systemd-sysusers rooms.conf")
        except KeyError:
            if made.does(f"user {name}"):
                changes.run("systemd-sysusers", "rooms.conf")
    if others := accounts.beside_nginx():
        say(accounts.told(others))
    _take_home(made)


def _take_home(made: Changes) -> None:
    """A version before gave one to the servers' user, who writes there: what others obey in a home,
    such as keys for sshd, would be theirs. (usermod waits until nobody sees a process of that user,
    and a server goes on meanwhile.)"""
    try:
        home = getpwnam("rooms").pw_dir
    except KeyError:
        return
    if home != "/var/lib/rooms" or not made.does("the user rooms is at home nowhere"):
        return
    status, said = changes.run("unshare", "--pid", "--fork", "--mount-proc", "usermod", "--home",
                               "/nonexistent", "rooms", check=False)
    if status:
        say(f"not safe: the user rooms is at home in {home}: usermod --home /nonexistent rooms, "
            f"while no server runs: {said}")


def _signs_in(user: struct_passwd) -> bool:
    """A person's account, as one for bookings: systemd-sysusers takes whoever has the name."""
    return user.pw_uid >= _PEOPLE and os.path.basename(user.pw_shell) not in ("nologin", "false")


def room_text(root: str, name: str, port: str, title: str, backups: str, host: str = "",
              behind: bool = False) -> str:
    """The settings of a new room."""
    text = template.template("room.conf.in")
    for word, value in (("NAME", name), ("PORT", port), ("TITLE", title), ("BACKUPS", backups),
                        ("HOST", host), ("BEHIND", "yes" if behind else ""), ("PASSWORDS", ""),
                        ("PROGRAM", program(root))):
        text = text.replace(f"@{word}@", value)
    return text


def program(root: str) -> str:
    """The program that was installed with this package."""
    above, found, _ = template.share(root).rpartition("/share/rooms")
    return f"{above}/bin/rooms" if found else settings.PROGRAM


def _pem(path: str, *words: str) -> str:
    """What openssl says of a file that is text; nothing if it is another one."""
    with open(path, "rb") as source:
        if b"-----BEGIN " not in source.read(1 << 20):
            return ""
    done = commands.run(["openssl", words[0], "-in", path, *words[1:]])
    return done.out if done.status == 0 else ""


def look_at_pair(made: Changes, certificate: str, key: str) -> tuple[str, str]:
    """nginx doesn't start with a certificate and a key that it can't use together."""
    if not shutil.which("openssl"):
        raise Refused("no openssl: apt-get install openssl")
    certificate, key = os.path.abspath(certificate), os.path.abspath(key)
    for path in (certificate, key):
        if not os.path.isfile(path):
            raise Refused(f"no file: {path} doesn't exist")
        if not os.access(path, os.R_OK):
            raise Refused(f"no file: {path} can't be read")
        if os.path.realpath(path).startswith(_UNSEEN):
            raise Refused(f"no certificate: {path} is in a home, which no unit of rooms sees: put "
                          "it below /etc/ssl")
        if not forms.matches(r"[-A-Za-z0-9._/+@,=:]+", path):
            raise Refused(f"bad name: '{path}' has other characters than "
                          "A-Z a-z 0-9 - . _ / + @ , = :")
    wanted = _pem(certificate, "x509", "-noout", "-pubkey")
    if not wanted:
        raise Refused(f"no certificate: {certificate} holds none in PEM")
    got = _pem(key, "pkey", "-passin", "pass:", "-pubout")
    if not got:
        raise Refused(f"no key: {key} holds no private key in PEM without a passphrase")
    if wanted != got:
        raise Refused(f"no pair: {key} isn't the key of the certificate {certificate}")
    if not _pem(certificate, "x509", "-noout", "-checkend", "0"):
        raise Refused(f"expired: {certificate}")
    if begins := certificates.begins_later(certificate):
        raise Refused(f"too early: {certificate} doesn't count before {begins}: is the clock "
                      "right?")
    apply.look_at_link(made.root)
    _try_pair(certificate, key)
    if os.stat(key).st_mode & 0o004:
        print(f"every user here can read {key}: chmod 600 {key}")
    return certificate, key


def _try_pair(certificate: str, key: str) -> None:
    """nginx itself looks at the pair, in a server of its own that isn't started."""
    if not shutil.which("nginx") or os.geteuid() != 0:
        return
    with tempfile.TemporaryDirectory() as place:
        with open(f"{place}/conf", "w", encoding="utf-8") as conf:
            conf.write(f"pid {place}/pid; error_log stderr; events {{ }} http {{ access_log off; "
                       f"server {{ listen unix:{place}/socket ssl; ssl_certificate {certificate}; "
                       f"ssl_certificate_key {key}; }} }}\n")
        status, said = changes.run("nginx", "-t", "-q", "-c", f"{place}/conf", check=False)
        if status:
            raise Refused(f"no pair for nginx: {said}")


def look_at_settings(made: Changes) -> None:
    """Where there are some already: nothing is made before they are refused."""
    if as_if.isdir(made.root + os.path.dirname(_OFFICE)):
        apply.look(made.root)


def look_at_directory(made: Changes, chosen: str) -> settings.Directory | None:
    """Everything that can be refused is, before a file is written."""
    if not made.root and not as_if.isdir("/etc/nginx"):
        raise Refused("no nginx: apt-get install nginx")
    if chosen == "none":
        return None
    where = settings.directory(chosen)
    if made.root:
        return where
    if not (os.access("/usr/sbin/apache2", os.X_OK)
            and as_if.exists("/usr/lib/apache2/modules/mod_authnz_ldap.so")):
        raise Refused("no Apache: apt-get install apache2-bin")
    try:
        getpwnam(changes.CHECKER)
    except KeyError:
        raise Refused(f"no user {changes.CHECKER}: rooms-admin setup makes it") from None
    # Apache reads it at each connection, when it isn't root any more.
    if where.ca and os.geteuid() == 0 and changes.run(
            "setpriv", f"--reuid={changes.CHECKER}", f"--regid={changes.CHECKER}",
            "--clear-groups", "test", "-r", where.ca, check=False)[0]:
        raise Refused(f"no way to {where.ca}: the user {changes.CHECKER} can't read it")
    try:
        found = directory.Directory(where).search(
            where.base, True, f"(&{where.users}({where.name}=*))", [where.name])
    except Refused:
        raise
    except Stop as stop:
        raise Refused(f"no directory: {stop}") from stop
    users = sum(len(one.values.get(where.name.lower(), [])) for one in found)
    if not users:
        raise Refused(f"no users: the directory has none for USERS and NAME in {chosen}")
    print(f"the directory has {users} users")
    _try_apache(where, chosen)
    rooms = [one for one in template.gather(made.root).shown
             if one.name == "office" or one.passwords == "directory"]
    for line in guests.look(made.root, where, rooms):
        print(line)
    return where


def _new_guests(root: str) -> list[settings.Place]:
    """Rooms whose guests nginx's file hasn't let in yet."""
    text = template.read(root + template.FILE)
    return [one for one in template.gather(root).shown
            if (row := template.guests_row(one)) and f"    {row};\n" not in text]


def look_at_guests(made: Changes, chosen: str) -> None:
    """Before nginx asks a file for them that it didn't ask."""
    if chosen or made.root or not as_if.isdir(made.root + os.path.dirname(guests.FILE)):
        return
    if rooms := _new_guests(made.root):
        for line in guests.look(made.root, settings.directory(guests.FILE), rooms):
            print(line)


def _try_apache(where: settings.Directory, chosen: str) -> None:
    with tempfile.TemporaryDirectory() as place:
        text = apache.text("", template.template("directory.apache"), where, "tried")
        with open(f"{place}/tried", "w", encoding="utf-8", errors="surrogateescape") as out:
            out.write(text.replace("/run/rooms-directory", place))
        status, said = changes.run("apache2", "-t", "-f", f"{place}/tried", check=False)
        if status:
            raise Refused(f"Apache refuses what follows from {chosen}: "
                          + " ".join(said.split("\n")[-2:]))


def _switch(made: Changes, chosen: str, where: settings.Directory | None) -> None:
    if where is None:
        for line in guests.back(made.root, template.gather(made.root).shown):
            print(line)
        for name in sorted(as_if.listdir(made.root + "/etc/rooms")):
            path = f"/etc/rooms/{name}"
            if name.endswith((".conf", ".on")) and settings.value(
                    made.root + path, "PASSWORDS") == "directory":
                values.set_values(made, path, {"PASSWORDS": ""})
        return
    with open(chosen, "rb") as source:
        made.file("/etc/rooms/directory", source.read())
    apache.put(made, where)
    values.set_values(made, _OFFICE, {"PASSWORDS": "directory"})
    for one in template.gather(made.root).rooms:
        if one.name != "office" and one.passwords == "file" and not one.behind:
            print(f"{one.name} keeps its own passwords; docs/directory.md says how it asks the "
                  "directory too")


def _keep_directory(made: Changes, restarts: bool) -> None:
    """What follows from its settings, once it was switched on."""
    apache.key(made)
    changed = False
    there = made.root + guests.FILE
    if as_if.exists(made.root + apache.FILE) and as_if.exists(there):
        changed = apache.put(made, settings.directory(there))
    for key in sorted(glob.glob("/etc/rooms/*.keytab")) if not made.root else []:
        changed |= _give_key(made, key)
    if changed and restarts:
        made.systemctl("try-restart", _UNIT)


def _give_key(made: Changes, key: str) -> bool:
    """Before it had a user of its own, Apache ran as nginx's."""
    try:
        theirs = os.lstat(key).st_uid == getpwnam(changes.NGINX).pw_uid
    except KeyError:
        return False
    if theirs and made.does(f"{key} belongs to {changes.CHECKER}"):
        user = getpwnam(changes.CHECKER)
        os.chown(key, user.pw_uid, user.pw_gid, follow_symlinks=False)
    return theirs


def _run_passwords(made: Changes, chosen: str) -> None:
    """Whether or not something has changed, a run with --directory brings it into that state. A
    room may ask the directory again after one with 'none'."""
    if chosen == "none":
        made.systemctl("disable", "--now", _UNIT)
    elif not chosen:
        if (not as_if.islink(f"/etc/systemd/system/multi-user.target.wants/{_UNIT}")
                and any(one.passwords == "directory" for one in template.gather("").shown)):
            made.systemctl("enable", "--now", _UNIT)
    else:
        made.systemctl("daemon-reload")
        made.systemctl("enable", _UNIT)
        made.systemctl("restart", _UNIT)


def default_is_packaged(root: str) -> bool:
    """The site is what the package says, and it shows no other page than the package's."""
    file = "/etc/nginx/sites-available/default"
    link = f"{root}/etc/nginx/sites-enabled/default"
    if not as_if.islink(link) or as_if.readlink(link) not in (file, "../sites-available/default"):
        return False
    said = changes.run("dpkg-query", f"--admindir={root}/var/lib/dpkg", "-W",
                       "-f=${Conffiles}\\n", "nginx-common", check=False)[1] \
        if shutil.which("dpkg-query") else ""
    wanted = re.search(rf"^ *{re.escape(file)} ([0-9a-f]+)", said, re.MULTILINE)
    try:
        with open(root + file, "rb") as source:
            got = hashlib.md5(source.read()).hexdigest()
        shown = as_if.listdir(f"{root}/var/www/html")
    except FileNotFoundError as fault:
        if fault.filename == root + file:
            return False
        shown = []
    return wanted is not None and wanted[1] == got and set(shown) <= {"index.nginx-debian.html"}


def _tell_disabled(made: Changes) -> None:
    """Rooms that are there and aren't served, as after a package was removed and came back."""
    if made.dry or made.root:
        return
    for name in sorted(as_if.listdir("/etc/rooms")):
        room, path = settings.name_of(name), f"/etc/rooms/{name}"
        if not name.endswith(".conf") or settings.value(path, "UNIT") not in ("", f"rooms@{room}"):
            continue
        wants = [f"/etc/systemd/system/multi-user.target.wants/rooms@{room}.service",
                 f"/etc/systemd/system/timers.target.wants/{settings.nightly_unit(room)}.timer"]
        if as_if.exists(settings.value(path, "FILE")) and not all(map(os.path.islink, wants)):
            print(f"the room {room} isn't served, or has no backups, until: systemctl enable --now "
                  f"rooms@{room} {settings.nightly_unit(room)}.timer")
