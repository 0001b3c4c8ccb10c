"""What can be wrong with a room that is served: each look gives a text, which is empty if all is
well."""
import http.client
import time
from collections.abc import Callable

from ..host import waiting
from . import http_client, limit, program, server
from ..cli.report import Stop
from .settings import Room
from .size import NoRoom, Used

# A unit that was started anew so often, and is there for no more than these seconds, doesn't stay.
TRIES, STAYS = 10, 60.0


def patiently(room: Room, look: Callable[[Room], str]) -> str:
    """What is asked of a server, or tried as its user, that user could hold up for ever."""
    def looked() -> str:
        try:
            return look(room)
        except Stop as stop:
            return str(stop)
    try:
        got = waiting.answer(server.patience(room) + 60, looked, room.unit)
    except waiting.Hangs as hangs:
        return str(hangs)
    return got if isinstance(got, str) else f"{room.unit} can't be looked at"


def answer(room: Room, patience: float = 0) -> str:
    """A server that can't read its file is started again and again, and is 'active' most of the
    time. So the room is asked."""
    if server.state(room) in ("inactive", "failed"):
        return ""
    patience = patience or server.patience(room)
    ends = time.monotonic() + patience
    text = "no reply"
    while time.monotonic() < ends:
        asked = http_client.connection(room, patience)
        try:
            asked.request("GET", "/can/?", headers={"Connection": "close"})
            got = asked.getresponse()
            body = got.read(1000)
            if (got.status, body) == (200, b"{}"):
                return ""
            text = f"{body[:200].decode(errors='replace')} {got.status}"
        except TimeoutError as fault:
            text = str(fault)
            break
        except (OSError, http.client.HTTPException) as fault:
            text = str(fault)
        finally:
            asked.close()
        time.sleep(1)
    place = room.listens or f"port {room.port}"
    return (f"{room.unit} doesn't answer at {place} within {patience} s: {text}; "
            f"systemctl status {room.unit}")


def _stays(unit: str) -> bool:
    said = server.systemctl("show", "-p", "NRestarts", "-p", "ActiveEnterTimestampMonotonic",
                            unit)[1]
    found = {name: int(value) for name, _, value in (
        line.partition("=") for line in said.splitlines()) if value.isdecimal()}
    began = found.get("ActiveEnterTimestampMonotonic", 0) / 1e6
    return found.get("NRestarts", 0) < TRIES or time.monotonic() - began > STAYS


def units(room: Room) -> str:
    """Who looks how large the room is, and who asks a directory, are started again without end
    where they end at once: they haven't failed then, so systemd of Debian 12 has nobody told."""
    for unit in (f"rooms-full@{room.name}", "rooms-passwords"):
        if not _stays(unit):
            return f"{unit} doesn't stay: systemctl status {unit}"
    return ""


def size(room: Room) -> str:
    """Users are told 507 of a full room, and nobody else is told anything."""
    try:
        most, used = limit.of(room), Used().look(room.file)
    except (Stop, NoRoom):
        return ""
    if most is None or used * 10 < (most << 20) * 9:
        return ""
    return (f"the room has {used >> 20} MB in use, and beyond {most} MB nginx refuses what adds "
            "to it")


def disk(room: Room) -> str:
    """Users are told 500 of each change, removals too."""
    why = program.lacks_space(room)
    if not why:
        return ""
    return (f"the disk of {room.file} takes no change, which needs {program.CHANGE >> 20} MB: "
            f"{why}; docs/messages.md, A full disk")
