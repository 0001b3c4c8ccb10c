"""What the judge asks of whoever opens nights."""
import os
import socket
from dataclasses import dataclass

from rooms_admin.host import locks

from ..room.answers import Stop

SOCKET = os.path.join(locks.RUN, "rooms-nights/socket")
LISTED, OPENED = 20.0, 125.0


@dataclass
class Opened:
    shown_to: str
    # The socket of its server.
    place: str


def _refused(word: str) -> Stop:
    status = {"none": 404, "damaged": 410, "busy": 503, "large": 503}.get(word, 502)
    why = {"none": "no-night"}.get(word, word if status != 502 else "away")
    return Stop(status, why, fields={"Retry-After": "60"} if word == "busy" else {})


def _told(line: str, seconds: float) -> list[str]:
    try:
        with socket.socket(socket.AF_UNIX) as asking:
            asking.settimeout(seconds)
            asking.connect(SOCKET)
            asking.sendall(f"{line}\n".encode())
            with asking.makefile("r", encoding="ascii", newline="\n") as source:
                return source.readline().split()
    except (OSError, ValueError):
        raise Stop(502, "away") from None


def nights(room: str) -> dict[str, object]:
    """From the newest to the oldest, and to whom is shown what isn't there any more."""
    said = _told(f"list {room}", LISTED)
    if said[:1] == ["none"]:
        raise Stop(404, "no-earlier")
    if said[:1] != ["nights"]:
        raise _refused("".join(said[:1]))
    rows = [one.partition("=") for one in said[2:]]
    return {"gone": said[1], "nights": [{"at": int(at), "night": name} for name, _, at in rows]}


def opened(room: str, night: str, asker: str) -> Opened:
    said = _told(f"open {room} {night} {asker}", OPENED)
    if len(said) != 3 or said[0] != "ready":
        raise _refused("".join(said[:1]))
    return Opened(said[1], said[2])


def ended(room: str, night: str) -> None:
    """Its server doesn't answer: it is opened anew for whoever comes next."""
    _told(f"end {room} {night}", LISTED)
