"""Who is told when a verb that nobody looks at has failed."""
import itertools
import os
import re
import shutil

from . import commands
from ..cli import report
from ..cli.report import plain, say


# Of what stands before the name of a unit that goes on: of each warning of a run another one, since
# systemd starts nothing for a second time while it is at work.
_COUNT = itertools.count(1)
_WARNING = re.compile("warning[0-9]*:")


def deliver(to: str, subject: str, lines: list[str]) -> bool:
    """What is sent may come from a log that anybody writes: to some mail programs a line that
    begins with ~ is a command."""
    parts = plain("\n".join(lines)).split("\n")
    text = "".join(f" {one}\n" if one.startswith("~") else f"{one}\n" for one in parts)
    return _hand(["mail", "-s", subject, to], text)


def of_unit() -> str:
    """The unit that this process is of, if it is of one."""
    return os.environ.get("ROOMS_UNIT", "")


def notify(to: str, subject: str, lines: list[str], level: str = "err") -> None:
    """By mail if possible, otherwise to the system's log. Standard error has it already, which is
    the log of a unit: one that fails has it sent by OnFailure=, and a warning by the same unit."""
    if unit := of_unit():
        if level != "err" and to:
            warn(unit)
        return
    if to and shutil.which("mail"):
        if deliver(to, subject, lines):
            return
        say(f"mail to {to} failed")
    if shutil.which("logger"):
        _hand(["logger", "-p", f"daemon.{level}", "-t", report.prog.replace(" ", "-"), "--",
               plain("\n".join(lines))], "")


def warn(unit: str) -> None:
    """What a unit has said, which goes on. By a name of its own: it may still fail, and then that
    is told too."""
    number = next(_COUNT)
    which = f"warning{number if number > 1 else ''}:{unit}"
    _hand(["systemctl", "start", "--no-block", f"rooms-tell@{which}.service"], "")


def warned(word: str) -> tuple[str, bool]:
    """The unit that such a name has, and whether it goes on."""
    found = _WARNING.match(word)
    return (word[found.end():], True) if found else (word, False)


def _hand(words: list[str], text: str) -> bool:
    return commands.shown(words, text.encode(errors="surrogateescape"))
