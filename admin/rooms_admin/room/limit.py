"""How much of its file a room may have in use, so that its server can start again, and the nightly
run beside it. All numbers are megabytes, of 1,048,576 bytes."""
import glob
import os
import re

from ..cli.report import Stop
from ..host import locks, root
from . import needs, settings
from .server import systemctl
from .settings import Room

_SLICE = "rooms.slice"
# What systemd said of both, for each room, when the watch over its size was started.
_NOTED, _MOST = os.path.join(locks.RUN, "rooms-memory"), "MemoryMax="
# What a start that was measured at night may miss of its memory; and what the machine has for all
# else.
_SPARE, _ELSE = 32, 256


def of(room: Room) -> int | None:
    """As the settings say; None is any number."""
    if room.limit == "none":
        return None
    return int(room.limit) if room.limit else that_starts(room)


def that_starts(room: Room) -> int | None:
    """With how much in use a server can start: it reads all of it. Where the last night took more
    than by its bytes, what came since may need twice as much again."""
    most = _memory(room)
    if most is None:
        return None
    need = needs.last(room.name)
    found = needs.bytes_for(most)
    if need is not None and need.is_more:
        found = min(found, need.used + (most - _SPARE - need.memory) // 2)
    return max(1, found)


def needed(room: Room, used: int) -> int:
    """What memory a start needs with so much in use."""
    need = needs.last(room.name)
    return need.memory + 2 * max(0, used - need.used) if need else needs.of_bytes(used)


def lacks_swap(room: Room, used: int) -> int:
    """How much the nightly run misses, which needs as much as a start, beside the server, which
    keeps what its start took; 0 where nothing is missing, or the machine doesn't say."""
    memory, swap = _has("MemTotal"), _has("SwapTotal")
    return max(0, 2 * needed(room, used) + _ELSE - memory - swap) if memory else 0


def _memory(room: Room) -> int | None:
    """What a start may have. What it needs and nobody reads again can be in swap, half of which is
    left for the nightly runs, which start the program on the copy."""
    most = _allowed(room, room.unit)
    if most is None:
        return None
    count = _count()
    together = _allowed(room, _SLICE)
    if together is not None:
        most = min(most, together // count)
    return most + _has("SwapTotal") // 2 // count


def _allowed(room: Room, unit: str) -> int | None:
    """What MemoryMax of a unit allows; None is without end, or a unit that isn't there. Of one that
    runs the kernel says it. The watch over a room's size asks nobody: it has what was noted."""
    most = _of_group(unit) or ("" if os.geteuid() == 0 else _noted(room, unit))
    if not most:
        status, most = systemctl("show", "-p", "MemoryMax", "--value", unit)
        if status != 0:
            raise Stop(f"systemctl doesn't say what MemoryMax of {unit} is")
    return int(most) >> 20 if most.isascii() and most.isdigit() else None


def _of_group(unit: str) -> str:
    """Nothing where it doesn't run, or elsewhere."""
    place = _SLICE if unit == _SLICE else f"{_SLICE}/{unit.removesuffix('.service')}.service"
    try:
        with open(f"{root.ROOT}/sys/fs/cgroup/{place}/memory.max", encoding="ascii") as source:
            return source.read().strip()
    except OSError:
        return ""


def _noted(room: Room, unit: str) -> str:
    """Nothing where nobody has started that watch."""
    name = unit if unit == _SLICE else f"{unit.removesuffix('.service')}.service"
    try:
        with open(os.path.join(_NOTED, room.name), encoding="ascii") as source:
            units = source.read().split("\n\n")
    except OSError:
        return ""
    for rows in (text.split("\n") for text in units):
        if f"Id={name}" in rows:
            found = [one for one in rows if one.startswith(_MOST)]
            return found[0].removeprefix(_MOST) if found else ""
    return ""


def _count() -> int:
    """The rooms of this machine, which share what all servers have together."""
    found = glob.glob(f"{glob.escape(settings.HOME)}/*.conf")
    return max(1, len(found))


def _has(what: str) -> int:
    """Of memory or swap; 0 where the machine doesn't say."""
    try:
        with open(f"{root.ROOT}/proc/meminfo", encoding="ascii") as source:
            found = re.search(rf"^{what}: +(\d+) kB$", source.read(), re.MULTILINE | re.ASCII)
    except OSError:
        return 0
    return int(found[1]) >> 10 if found else 0
