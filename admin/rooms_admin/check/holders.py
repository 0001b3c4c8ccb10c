"""Which processes have a room open, which settings name it, and what its disk and its unit say."""
import glob
import os
import pwd
import re
from collections.abc import Iterator
from dataclasses import dataclass

from ..host import locks
from ..room import awaited, forms, server, settings
from ..host.commands import printed


@dataclass
class Holder:
    process: int
    said: str
    unit: str


def of_file(file: str) -> Iterator[Holder]:
    for folder in sorted(glob.glob("/proc/[0-9]*")):
        if server.has_open(int(folder[6:]), file):
            yield Holder(int(folder[6:]), _read(f"{folder}/cmdline").replace("\0", " ").strip(),
                         _unit(_read(f"{folder}/cgroup")))


def _unit(text: str) -> str:
    found = re.search(r"/([^/\n]*)\.service$", text, re.MULTILINE)
    return found[1] if found else ""


def _read(place: str) -> str:
    try:
        with open(place, encoding="utf-8", errors="replace") as source:
            return source.read(4096)
    except OSError:
        return ""


def rooms_of(file: str) -> list[str]:
    """The rooms whose settings name the file."""
    found = []
    for conf in sorted(glob.glob(f"{glob.escape(settings.HOME)}/*.conf")):
        if settings.value(conf, "FILE") == file:
            found.append(settings.name_of(conf))
    return found


def answers(name: str) -> bool:
    """Whether the server of a room does, wherever its settings say that it listens."""
    conf = f"{settings.HOME}/{name}.conf"
    port = settings.port(conf)
    return awaited.is_well(port if forms.is_port(port) else "",
                           os.path.join(locks.RUN, "rooms", name, "socket"))


def shown(unit: str, what: str) -> str:
    return printed(["systemctl", "show", "-p", what, "--value", unit])


def mount_of(file: str) -> tuple[str, str]:
    """Where the file's disk is mounted, and how."""
    target = printed(["findmnt", "-no", "TARGET", "-T", file])
    return target, printed(["findmnt", "-no", "OPTIONS", "-T", file])


def is_immutable(place: str) -> bool:
    return "i" in printed(["lsattr", "-d", "--", place]).partition(" ")[0]


def owner_of(place: str) -> str:
    number = os.stat(place).st_uid
    try:
        return pwd.getpwuid(number).pw_name
    except KeyError:
        return str(number)
