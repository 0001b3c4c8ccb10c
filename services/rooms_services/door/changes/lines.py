"""A change as a line of the journal, as nginx writes it of what it passed to the room, and the door
of what it asked for itself (deploy/nginx/changes.conf.in):

  {"v":1,"t":1764471720.123,"u":"bob","m":"PUT","p":"/doc/plan","s":"204","n":"512","to":"",
   "r":"0.004"}

The moment, the user, method and target, the status, the body's length, of a move its body, and how
many seconds before that moment nginx got the request. What
a caller wrote is escaped in it, so that no caller can write a line or a field of their own. One
that was cut off, as on a full disk, may be followed by a whole one without an end of a line.

The door may be killed between a change and its line. So it writes one before each change too, whose
status is empty. Both have "d", which is another one for each process of it."""
import json
import re
from enum import Enum
from typing import NamedTuple

from ...room.answers import Stop
from ...room.paths import Names, names_in, names_of_path
from ...room.room import USER, Ask

BEGIN = b'{"v":1,'
# A target of 16 kB, each byte escaped as six, and a move's body.
LONGEST = 262_144
_NUMBER = re.compile(r"[0-9]{1,12}", re.ASCII)
_SECONDS = re.compile(r"([0-9]{1,6})\.([0-9]{3})", re.ASCII)
ROUTES = ("doc", "folder", "object", "move")


class Outcome(Enum):
    DONE = 1
    # It may have been done or not.
    UNKNOWN = 2
    REFUSED = 3
    BEGUN = 4


_OUTCOMES = {"": Outcome.BEGUN, **dict.fromkeys(("200", "201", "204"), Outcome.DONE),
             **dict.fromkeys(("0", "499", "500", "502", "504"), Outcome.UNKNOWN)}


class Change(NamedTuple):
    """`door` says which process of the door asked for it, if one did. Where something moved to is
    None if that isn't known."""
    at: int
    user: str
    method: str
    route: str
    names: Names
    outcome: Outcome
    is_new: bool
    length: int | None
    to: Names | None
    door: str
    # Since when it may have been done, where that is known.
    since: int

    @property
    def is_done(self) -> bool:
        return self.outcome is Outcome.DONE


def _text(value: object) -> str:
    if not isinstance(value, str):
        raise ValueError
    return value


def _moved_to(text: str) -> Names | None:
    """Nothing of a body that was too long for nginx's memory."""
    try:
        return names_of_path(json.loads(text.encode("latin-1").decode())["to"])
    except (ValueError, KeyError, TypeError, RecursionError):
        return None


def _milliseconds(text: object) -> int:
    """None of a line of the door's, or of what an earlier version told nginx to write."""
    found = _SECONDS.fullmatch(text) if isinstance(text, str) else None
    return 1000 * int(found[1]) + int(found[2]) if found else 0


def read(line: bytes) -> Change | None:
    """None of what is no line, or of no change."""
    begin = line.rfind(BEGIN)
    if begin < 0 or len(line) > LONGEST:
        return None
    try:
        # (nginx leaves bytes above 127 as they came)
        return _change(json.loads(line[begin:].decode("latin-1")))
    except (ValueError, KeyError, TypeError, RecursionError, Stop):
        return None


def is_torn(line: bytes) -> bool:
    """Whether a part of a line is here that said of a change."""
    return BEGIN in line and (line.count(BEGIN) > 1 or not line.endswith(b"}"))


def _change(told: dict[str, object]) -> Change | None:
    at, user, method = told["t"], _text(told["u"]), _text(told["m"])
    if not isinstance(at, (int, float)) or not 0 < at < 1e11 or not USER.fullmatch(user):
        return None
    route, slash, rest = _text(told["p"]).partition("?")[0][1:].partition("/")
    if route not in ROUTES or not slash:
        return None
    # (to the room %2F is a slash)
    names = names_in(rest.replace("%2F", "/").replace("%2f", "/"))
    status, length = _text(told["s"]), _text(told["n"])
    return Change(int(at * 1000), user, method, route, names,
                  _OUTCOMES.get(status, Outcome.REFUSED), status == "201",
                  int(length) if _NUMBER.fullmatch(length) else None,
                  _moved_to(_text(told["to"])) if route == "move" else None,
                  _text(told.get("d", "")), int(at * 1000) - _milliseconds(told.get("r")))


def written(at: float, user: str, ask: Ask, status: int | None, door: str) -> bytes:
    """A line about what the door asks for."""
    to = ask.body.decode("utf-8").encode().decode("latin-1") if ask.route == "move" else ""
    return json.dumps({"v": 1, "t": round(at, 3), "u": user, "m": ask.method,
                       "p": f"/{ask.route}/{ask.path}", "s": "" if status is None else str(status),
                       "n": str(len(ask.body)), "to": to, "d": door},
                      separators=(",", ":")).encode() + b"\n"
