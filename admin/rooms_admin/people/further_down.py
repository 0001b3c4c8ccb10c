"""What each user was given further down, in the files that nginx shows as /mine."""
import json
import os
import sys
from collections.abc import Iterable
from dataclasses import dataclass, field
from typing import IO

from ..host import locks
from ..room import in_parts, published
from ..backup import texts
from ..lists import review
from ..room.settings import Room
from ..lists.review import ANONYMOUS, OTHERS, above

NAME = "mine"


@dataclass
class One:
    """A user, with the rights at each folder that has a row of this user's."""
    at: dict[str, str] = field(default_factory=dict)
    places: list[dict[str, str]] = field(default_factory=list)

    def rights(self, path: str) -> str:
        """Whoever has no row at a path has what their row at the nearest folder above says."""
        while path not in self.at and path != "/":
            path = above(path)
        return self.at.get(path, "")


def places(lines: Iterable[str]) -> tuple[dict[str, One], list[str]]:
    """By user what can be used and isn't seen from the folder above, and who may change the list of
    the top."""
    found: dict[str, One] = {}
    managers = []
    for row in review.rows(lines):
        if row.user == ANONYMOUS:
            continue
        one = found.setdefault(row.user, One())
        # Very many rows have the same ones.
        path, rights = sys.intern(row.path), sys.intern(row.rights)
        if row.kind == "folder":
            one.at[path] = rights
        if row.path == "/":
            if "C" in row.rights and row.user != OTHERS:
                managers.append(row.user)
        elif set(row.rights) & set("rwa") and "r" not in one.rights(above(row.path)):
            one.places.append({"path": path, "kind": row.kind, "rights": rights})
    for one in found.values():
        # Of a document in parts each has its list.
        parts = in_parts.hidden(place["path"] for place in one.places)
        one.places = [place for place in one.places if place["path"] not in parts]
    return found, managers


def write(room: Room, lines: Iterable[str], at: float) -> None:
    """The files of a room whose review was made at that moment. A large one takes a minute, for
    which nobody else waits but another one who writes them."""
    found, managers = places(lines)
    # Who asked not to show names shows none here.
    shown = [] if room.people == "no" else sorted(managers)
    files = {}
    for user, one in {OTHERS: One(), **found}.items():
        text = json.dumps({"made": published.moment(at), "managers": shown, "places": one.places},
                          separators=(",", ":"))
        files[f"{user}.json"] = text.encode() + b"\n"
    with locks.lock(f"{room.unit}.{NAME}", 60):
        published.put_folder(room, NAME, files, locks.lock(room.unit, 60))


def would(room: Room, lines: Iterable[str], _at: float) -> None:
    found, managers = places(lines)
    given = sum(len(one.places) for one in found.values())
    print(f"would: new {published.FOLDER}/{published.name_of(room)}/{NAME}: users {len(found)}, "
          f"places {given}, managers {len(managers)}")


def nightly(room: Room, review: IO[bytes], _tonight: str) -> list[str]:
    """From the review that the nightly run has written beside its backup."""
    if published.has_name(room):
        write(room, texts.of_csv(review), os.fstat(review.fileno()).st_mtime)
    return []
