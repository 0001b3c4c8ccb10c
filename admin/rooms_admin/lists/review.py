"""review.csv of a backup, which is what `rooms review FILE /` prints: who may do what. A row that
says what the same caller's row at the folder above says is left out."""
from collections.abc import Iterable, Iterator, Sequence
from dataclasses import dataclass, field
from typing import NamedTuple

from ..room import in_parts, names
from ..backup import texts
from ..cli.report import Stop

OTHERS, ANONYMOUS = "*", "ANONYMOUS@"
_HEADER = "path,kind,user,rights,remove"
_BAD = "the review can't be read"


class Row(NamedTuple):
    path: str
    kind: str
    user: str
    rights: str
    remove: bool


def is_caller(text: str) -> bool:
    return text in (OTHERS, ANONYMOUS) or names.is_user(text)


def rows(lines: Iterable[str]) -> Iterator[Row]:
    """A folder's come before those of what is in it."""
    for path, kind, user, rights, remove in texts.fields(lines, _HEADER, "the review"):
        if (kind not in ("folder", "document") or remove not in ("yes", "no")
                or not set(rights) <= names.RIGHTS):
            raise Stop(f"the review can't be read: it says {kind[:80]!a}, {rights[:80]!a} and "
                       f"{remove[:80]!a}")
        if not is_caller(user):
            names.user_in(user, _BAD)
        yield Row(names.path_in(path, _BAD), kind, user, rights, remove == "yes")


def above(path: str) -> str:
    return path.rpartition("/")[0] or "/"


def way_to(path: str) -> list[str]:
    """The root, each folder on the way, and the object itself."""
    way = [path]
    while way[0] != "/":
        way.insert(0, above(way[0]))
    return way


@dataclass
class Place:
    """What each caller may do at an object, and at those on the way; and the rows below it."""
    at: list[dict[str, Row]] = field(default_factory=list)
    below: list[Row] = field(default_factory=list)


def seen_at(found: Iterable[Row], path: str, with_below: bool) -> Place:
    """Whoever has no row has what their row at the nearest folder above says."""
    way = way_to(path)
    at: dict[str, dict[str, Row]] = {one: {} for one in way}
    base = path.rstrip("/") + "/"
    place = Place()
    for row in found:
        if row.path in at:
            at[row.path][row.user] = row
        elif with_below and row.path.startswith(base):
            place.below.append(row)
    before: dict[str, Row] = {}
    for one in way:
        before = {**before, **at[one]}
        place.at.append(before)
    return place


def without_parts(found: Sequence[Row]) -> list[Row]:
    """A large document stands for its parts, of which all may do as much as with it."""
    at: dict[str, set[Row]] = {}
    for row in found:
        at.setdefault(row.path, set()).add(row._replace(path=""))
    parts = in_parts.hidden(at)
    return [row for row in found if row.path not in parts or at[row.path] != at[parts[row.path]]]
