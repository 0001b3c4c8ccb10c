"""One change of a password: one request of nginx's, by SCGI on standard input, and its answer.
systemd starts this for each connection, as a user who has nothing but the count of wrong tries, so
one that hangs or is taken over is gone with its request. The caller has passed nginx's
check; the present password is asked for again, and its line is replaced only if it is still the
one that this was checked against."""
import json
import os
import time

from rooms_admin.cli import report
from rooms_admin.host import commands, safe
from rooms_admin.room import names
from rooms_admin.passwords import password_rules, passwords
from rooms_admin.cli.report import say

from ..room.answers import Answer, Stop
from ..scgi import asked, not_understood, written
from . import lines, tries

# The body has two passwords with escapes.
BODY = 2048


def words_of(body: bytes) -> tuple[str, str]:
    """The present password and the new one."""
    try:
        got = json.loads(body)
    except (ValueError, RecursionError):
        raise not_understood() from None
    if not isinstance(got, dict) or set(got) != {"old", "new"}:
        raise not_understood()
    old, new = got["old"], got["new"]
    if not isinstance(old, str) or not isinstance(new, str):
        raise not_understood()
    return old, new


def is_right(hashed: bytes, password: str) -> bool:
    """By htpasswd, which knows all kinds that nginx does but {PLAIN} and the like. It gets neither
    the file nor the name."""
    number = os.memfd_create("line", 0)
    with safe.opened(number):
        safe.write_all(number, b"user:" + hashed + b"\n")
        try:
            done = commands.run(["htpasswd", "-vi", f"/proc/self/fd/{number}", "user"],
                                f"{password}\n".encode(), pass_fds=(number,))
        except OSError as fault:
            raise report.Stop(f"no htpasswd: {fault.strerror}") from fault
    return done.status == 0


def change(room: str, user: str, old: str, new: str) -> None:
    if not names.is_room(room) or not names.is_user(user):
        raise not_understood()
    with lines.asked() as files:
        _change(files, room, user, old, new)


def _change(files: lines.Lines, room: str, user: str, old: str, new: str) -> None:
    found = files.of(room, user)
    with tries.counted(room, user, found.digest if found else passwords.NOBODYS) as wrong:
        # Whoever has no line takes as long.
        right = (password_rules.can_be(old)
                 and is_right(found.hashed if found else passwords.NOBODYS, old)
                 and found is not None)
        if not right:
            wrong.append(time.time())
        else:
            wrong.clear()
    if not right or found is None:
        raise Stop(403, "old")
    if why := password_rules.fault_of(user, old, new):
        raise Stop(422, why)
    files.put(room, user, found, passwords.hashed(new))


def answer(source: int) -> Answer:
    try:
        fields, body = asked(lambda count: os.read(source, count), BODY)
        if fields.get("CONTENT_TYPE", "").partition(";")[0].strip() != "application/json":
            # No form of another site's has this type.
            raise Stop(415, "type")
        change(fields.get("ROOM", ""), fields.get("ROOM_USER", ""), *words_of(body))
    except Stop as stop:
        return stop.answer(False)
    except (report.Stop, OSError) as fault:
        say(f"failed: {fault}")
        return Stop(500, "store").answer(False)
    say(f"{fields['ROOM_USER']} of {fields['ROOM']} has a new password")
    return Answer(204)


def run() -> int:
    os.umask(0o027)
    os.chdir("/")
    safe.write_all(1, written(answer(0)))
    return 0
