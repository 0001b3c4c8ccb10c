"""How many connections to nginx one address may have at once, which a table of the firewall
bounds."""
import os
import re

from ..host import as_if
from ..host.changes import Changes
from ..room import settings
from . import ports, template

FILE = "/var/lib/rooms-front/connections.nft"
UNIT = "rooms-connections.service"
# Bytes that a connection may have of nginx's memory (deploy/nginx/site.conf.in).
EACH = 3 << 19


def _of_nginx(root: str, name: str) -> str:
    """The last value that nginx's own file has for a name."""
    text = template.read(f"{root}/etc/nginx/nginx.conf")
    found = re.findall(rf"^[^#\n]*\b{name}\s+(\w+)\s*;", text, re.MULTILINE | re.ASCII)
    return str(found[-1]) if found else ""


def of_process(root: str) -> int:
    """How many each process of nginx's holds. Without a line it is this many."""
    return int(_of_nginx(root, "worker_connections") or 512)


def _processes(root: str) -> int:
    """Of an image, whose machine isn't known, and without a line it is one."""
    number = _of_nginx(root, "worker_processes")
    if number == "auto" and not root:
        return os.cpu_count() or 1
    return int(number) if number.isdigit() else 1


def _of_memory(root: str) -> int:
    """Those of one address have a quarter of the memory at most. That of an image isn't known."""
    if root:
        return 1 << 16
    return max(10, os.sysconf("SC_PAGE_SIZE") * os.sysconf("SC_PHYS_PAGES") // (4 * EACH))


def most(root: str, front: settings.Front) -> int:
    """Half of what nginx holds, unless that is too much or the settings say it; 0 is no limit."""
    if front.connections == "none":
        return 0
    return int(front.connections or min(_of_memory(root), of_process(root) * _processes(root) // 2))


def _rests(made: Changes) -> bool:
    """As after a removal that was cut off: what is enabled may have been stopped."""
    return not made.root and as_if.isdir("/run/systemd/system") and not ports.runs(UNIT)


def put(made: Changes, wanted: template.Site) -> None:
    """Brings the table into line with the settings. Where the kernel doesn't take it, the rooms are
    served all the same."""
    number = most(made.root, wanted.front)
    is_on = as_if.islink(f"{made.root}/etc/systemd/system/multi-user.target.wants/{UNIT}")
    if not number:
        if is_on:
            made.systemctl("disable", "--now", UNIT)
        made.remove(FILE)
        return
    text = template.template("connections.nft.in").replace("@MOST@", str(number)).replace(
        "@PORTS@", "80, 443, 8443" if wanted.behind else "80, 443")
    changed = made.file(FILE, text.encode())
    if not is_on:
        made.systemctl("enable", UNIT)
    if (changed or not is_on or _rests(made)) and not made.systemctl("restart", UNIT, check=False):
        print(f"one address can take all connections of nginx's: systemctl status {UNIT}; a "
              f"machine that can't have its table wants CONNECTIONS=none in {template.SETTINGS}")
