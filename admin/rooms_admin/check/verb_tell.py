"""Sends what a unit said last, to whom MAIL in its room's settings names: units call it when they
fail, or by warning:UNIT when they go on. It runs as a user of its own, since mail programs need
rights that those units have not."""
import argparse
import os
import re
import shutil
import time

from ..cli import words
from ..host import commands, locks, mail
from ..room import settings
from ..cli.report import Refused, Stop, say

# Standby copies may fail every five minutes: one mail for so many seconds.
QUIET = 6 * 3600
_UNIT = re.compile(r"(nginx|rooms[a-z-]*(@(?P<room>[a-z0-9-]+))?)\.(service|socket|timer)",
                   re.ASCII)


def mail_of(room: str) -> str:
    """Settings that are refused may be what the unit failed by: only this line counts."""
    for name in (room, "office"):
        try:
            rows = settings.lines(f"{settings.HOME}/{name}.conf")
        except Refused:
            continue
        found = settings.last((line for _, line in rows), "MAIL")
        if found is not None:
            return found if settings.of_kind(settings.Room)["mail"].fits(found) else ""
    return "root"


def journal(unit: str, invocation: str) -> list[str]:
    """The newest lines of its last run, or of the unit."""
    whose = [f"_SYSTEMD_INVOCATION_ID={invocation}"] if invocation else ["-u", unit]
    try:
        done = commands.run(["journalctl", "--no-pager", "-q", "-n", "40", "-o", "short-iso",
                             *whose])
    except (OSError, commands.Slow):
        return []
    return done.out.split("\n")


def _stamp(unit: str) -> str:
    return os.path.join(locks.RUN, "rooms-tell", unit)


def was_told(unit: str) -> bool:
    """Whether a mail about this unit went out a short while ago."""
    try:
        return 0 <= time.time() - os.stat(_stamp(unit)).st_mtime < QUIET
    except FileNotFoundError:
        return False


def keep_told(unit: str) -> None:
    """Once it went out: one that didn't is tried again at the next failure."""
    stamp = _stamp(unit)
    try:
        os.close(os.open(stamp, os.O_WRONLY | os.O_CREAT | os.O_NOFOLLOW, 0o600))
        os.utime(stamp)
    except OSError as fault:
        say(f"{stamp} can't be written: {fault.strerror}")


def arguments(parser: words.Parser) -> None:
    words.word(parser, "unit", "UNIT", "a unit of rooms, such as rooms@office.service; or "
               "warning:UNIT")


def result_of(is_warning: bool) -> str:
    """How the unit ended that has systemd start this one. Of one that goes on systemd says that it
    succeeded, or nothing."""
    said = os.environ.get("MONITOR_SERVICE_RESULT", "")
    return "" if is_warning or said == "success" else said


def run(given: argparse.Namespace) -> int:
    unit, is_warning = mail.warned(given.unit)
    named = _UNIT.fullmatch(unit)
    if named is None:
        raise Refused(f"bad arguments: '{unit}' isn't a unit of rooms")
    result = result_of(is_warning)
    to = mail_of(named["room"] or "office")
    if not to:
        return 0
    if not shutil.which("mail"):
        raise Stop(f"no mail program, so nobody is told of {unit}: apt-get install bsd-mailx")
    if result and was_told(unit):
        say(f"{to} was told of {unit} less than {QUIET // 3600} hours ago")
        return 0
    failed = f"failed ({result})" if result else "has a warning"
    lines = journal(unit, os.environ.get("MONITOR_INVOCATION_ID", ""))
    lines += ["", f"systemctl status {unit}"]
    if not mail.deliver(to, f"{unit} on {os.uname().nodename} {failed}", lines):
        raise Stop(f"the mail to {to} about {unit} failed")
    if result:
        keep_told(unit)
    return 0
