"""The rooms of this machine: their names, whether each is served and where, and their files. A room
on another machine has no file here.

With --json it is a list of objects with the names 'name', 'title', 'state', 'at' and 'file'."""
import argparse
import glob

from ..cli import report, words
from . import server, settings


def _place(conf: str, name: str) -> str:
    """Where its server listens, or the machine that has it."""
    on = settings.value(conf, "ON")
    if on:
        return f"on {on}"
    return f"/run/rooms/{name}/socket"


def _state(conf: str, name: str) -> str:
    if settings.value(conf, "ON"):
        return "elsewhere"
    return server.systemctl("is-active", settings.value(conf, "UNIT") or f"rooms@{name}")[1]


def arguments(parser: words.Parser) -> None:
    words.rows(parser)


def run(given: argparse.Namespace) -> int:
    found = []
    for conf in sorted(glob.glob(f"{glob.escape(settings.HOME)}/*.conf")
                       + glob.glob(f"{glob.escape(settings.HOME)}/*.on")):
        name = settings.name_of(conf)
        found.append({"name": name, "title": settings.value(conf, "TITLE"),
                      "state": _state(conf, name), "at": _place(conf, name),
                      "file": settings.value(conf, "FILE")})
    if given.json:
        report.put_rows(found)
        return 0
    for one in found:
        print(report.line("  ".join(word for word in one.values() if word)))
    return 0
