"""Rooms that have a port beside their socket: a unit of its own listens there, and passes on what
is sent. No unit takes its port from a file of settings, so it is told which one it is."""
import contextlib
import glob
import os
import socket

from ..cli.report import Refused
from ..host import as_if, changes
from ..host.changes import Changes
from ..room import forms, names, settings
from . import template

_UNITS = "/etc/systemd/system"


def _unit(name: str) -> str:
    return f"rooms-port@{name}.socket"


def _line(name: str) -> str:
    return f"{_UNITS}/{_unit(name)}.d/port.conf"


def _is_on(root: str, name: str) -> bool:
    return as_if.islink(f"{root}{_UNITS}/rooms@{name}.service.wants/{_unit(name)}")


def runs(unit: str) -> bool:
    return changes.run("systemctl", "is-active", "-q", unit, check=False)[0] == 0


def need_free(root: str, name: str, port: str) -> None:
    """Refuses one that another program has, unless this room's unit was told to listen there."""
    if _text(port) == template.read(root + _line(name)):
        return
    with socket.socket() as one:
        if one.connect_ex(("127.0.0.1", int(port))) == 0:
            raise Refused(f"port in use: something listens at 127.0.0.1:{port} (ss -ltnp shows "
                          "what)")


def _text(port: str) -> str:
    """The second one is the kernel's, which says in this machine's network who connects."""
    return (f"[Socket]\nListenStream=\nListenStream=127.0.0.1:{port}\n"
            "ListenNetlink=inet-diag 0\n")


def _there(root: str) -> set[str]:
    begins = f"{root}{_UNITS}/rooms-port@"
    return {one.removeprefix(begins).partition(".socket.d/")[0]
            for one in glob.glob(f"{glob.escape(begins)}*.socket.d/port.conf")}


def _wanted(root: str) -> dict[str, str]:
    """The ports of rooms, by their names."""
    folder = f"{root}/etc/rooms"
    found = {}
    for file in sorted(as_if.listdir(folder)) if as_if.isdir(folder) else []:
        name, kind = os.path.splitext(file)
        path = f"{folder}/{file}"
        if kind != ".conf" or not names.is_room(name) or settings.value(path, "UNIT") not in (
                "", f"rooms@{name}"):
            continue
        port = settings.port(path)
        if forms.is_port(port):
            found[name] = port
    return found


def put(made: Changes) -> bool:
    """Brings the units into line with the settings, and says whether all listen. A server of a
    version before, which has the port itself, gets a socket by a restart, before nginx asks there.
    """
    ports = _wanted(made.root)
    changed = set()
    for name in sorted(_there(made.root) - set(ports)):
        made.systemctl("disable", "--now", _unit(name))
        changed.add(name)
        if made.remove(_line(name)) and not made.dry:
            # An administrator's own lines stay there.
            with contextlib.suppress(OSError):
                os.rmdir(os.path.dirname(made.root + _line(name)))
    for name, port in sorted(ports.items()):
        if made.file(_line(name), _text(port).encode()) or not _is_on(made.root, name):
            changed.add(name)
    if changed:
        made.systemctl("daemon-reload")
    # Another program may have had the port until now.
    silent = {name for name in set(ports) - changed
              if _serves(made, name) and not runs(_unit(name))}
    return all([_listen(made, name) for name in sorted(changed & set(ports) | silent)])


def _serves(made: Changes, name: str) -> bool:
    return not made.root and as_if.isdir("/run/systemd/system") and runs(f"rooms@{name}")


def _listen(made: Changes, name: str) -> bool:
    is_on = _serves(made, name)
    if is_on and not as_if.exists(f"/run/rooms/{name}/socket"):
        made.systemctl("try-restart", f"rooms@{name}", check=False)
    if not _is_on(made.root, name):
        made.systemctl("enable", _unit(name))
    if is_on and not made.systemctl("restart", _unit(name), check=False):
        print(f"nothing listens at the port of {name}: systemctl status {_unit(name)}")
        return False
    return True
