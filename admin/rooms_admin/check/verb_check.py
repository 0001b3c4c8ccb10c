"""Whether all is well, in one line, for monitoring: 0 if so, 1 with a warning, 2 where something is
critical. Nothing is changed. A room on another machine is asked there, as nginx does.

With --json it is a list of objects with the names 'room', 'level' and 'text', one for each thing
that was seen: 'level' is 'ok', 'warning' or 'critical', and 'room' is empty for the machine."""
import argparse
import glob
import os

from ..cli import report, words
from ..host import unheld
from ..room import settings
from . import front, watched
from ..cli.report import Refused
from .finding import CRITICAL, OK, WARNING, Finding

STATUS = "0 all is well, 1 there is a warning, 2 something is critical"
_WORDS = {OK: "OK", WARNING: "WARNING", CRITICAL: "CRITICAL"}


def arguments(parser: words.Parser) -> None:
    words.rooms(parser, "all")
    words.rows(parser)


def _rooms(named: list[str]) -> list[str]:
    """Their settings; of one on another machine what this one has of it."""
    here = glob.escape(settings.HOME)
    found = list(map(_settings, named)) or [
        path for end in ("conf", "on") for path in sorted(glob.glob(f"{here}/*.{end}"))]
    if not found:
        raise Refused(f"no settings: {settings.HOME} has no room")
    return found


def _settings(word: str) -> str:
    path = settings.file_of(word)
    there = f"{settings.HOME}/{word}.on"
    return there if not os.path.lexists(path) and os.path.lexists(there) else path


def _of_room(path: str, machines: dict[str, list[Finding]]) -> list[Finding]:
    """Settings that are refused are a finding, and the other rooms are looked at all the same."""
    try:
        return watched.of_place(path, machines) if path.endswith(".on") else watched.of_room(path)
    except Refused as stop:
        return [(CRITICAL, str(stop))]


def _told(name: str, found: list[Finding]) -> Finding:
    worst = max(level for level, _ in found)
    # Of a room that is well all that was seen is told, otherwise what isn't.
    texts = [text for level, text in found if text and level in (worst, max(worst, WARNING), 2)]
    return worst, f"{name}: {', '.join(dict.fromkeys(texts))}"


def _line(found: list[Finding]) -> str:
    worst = max(level for level, _ in found)
    told = [text for level, text in sorted(found, key=lambda one: -one[0])
            if text and (worst == OK or level > OK)]
    return report.line(f"rooms {_WORDS[worst]} - {'; '.join(told)}")


def run(given: argparse.Namespace) -> int:
    """nginx -t takes the ports where nginx doesn't run: whoever calls this holds it no longer than
    that."""
    unheld.go_on()
    machines: dict[str, list[Finding]] = {}
    rooms = [(settings.name_of(path), _of_room(path, machines)) for path in _rooms(given.rooms)]
    directory = watched.within(watched.PATIENCE, watched.see_directory, "what asks the directory")
    files = watched.within(watched.PATIENCE, front.see_files, "nginx -t")
    guests = watched.within(watched.PATIENCE, watched.see_guests, "the directory")
    machine = [*watched.see_units(), *watched.see_accounts(), *watched.see_run(), *directory,
               *guests, *files, *front.see_connections(), *front.see_tls(),
               *watched.see_certificates()]
    if given.json:
        report.put_rows([{"room": name, "level": _WORDS[level].lower(), "text": text}
                         for name, found in [*rooms, ("", machine)]
                         for level, text in found if text])
    else:
        print(_line([*(_told(name, found) for name, found in rooms), *machine]))
    return max(level for _, found in [*rooms, ("", machine)] for level, _ in found)
