"""What root tells of a room, in files that nobody else writes (admin/rooms_admin/backup/dates.py):
what the nightly copy has, by which changes are found that no line told of; whose names are
forgotten; what root has changed; that a backup was put in the room's place.

A night's list begins with the moment, in milliseconds, at which all of it was so, or shortly
before, and that at which it was made: after a restore it is that of the backup. Then comes a line
for each object, a folder before what is in it, as [number, number of its folder, name, length or
null, first bytes of the SHA-256 or null], after a restore with the moment of its last change, where
the backup knows that; and in the end how many there were. The root's own folder has the number
0."""
import json
import os
from collections.abc import Iterator
from contextlib import suppress
from itertools import islice
from typing import IO

from ...room.answers import Stop
from ...room.paths import LONGEST_NAME, names_in
from ...room.room import USER
from .store import ROOT, OfCopy, Store, ahead

# `BACK` is the moment of the backup that was put back last.
NIGHT, WORDS, RESTORED, BACK = "night", "words", "restored", "back"
# Looked at in one go, while nobody is answered.
PART = 1000
# Of a line, of all words, and of a document, in bytes.
LONGEST, MOST_WORDS, MOST_BYTES = 4096, 4_194_304, 1 << 40
# A moment before the year 3000, in milliseconds.
MOST_MOMENT = 32_503_680_000_000


class NoList(Exception):
    """It isn't one, or isn't whole."""


def _object(line: bytes) -> OfCopy:
    number, up, name, size, total, *more = json.loads(line)
    at = more[0] if more else None
    if len(more) > 1 or not (at is None or isinstance(at, int) and 0 < at < MOST_MOMENT):
        raise ValueError("no moment")
    if not isinstance(number, int) or not isinstance(up, int) or not isinstance(name, str) \
            or not name or len(name.encode()) > LONGEST_NAME \
            or not (size is None or isinstance(size, int) and 0 <= size < MOST_BYTES):
        raise ValueError("no object")
    return OfCopy(number, up, name, size is None, size, None if total is None else
                  bytes.fromhex(total), at)


def _objects(file: IO[bytes]) -> Iterator[OfCopy]:
    count = 0
    while line := file.readline(LONGEST):
        if line.startswith(b"["):
            count += 1
            yield _object(line)
        elif int(line) == count:
            return
        else:
            break
    raise NoList("it has no end")


class Night:
    """Takes one list, part by part: in between others ask, and lines are taken."""

    def __init__(self, place: str) -> None:
        self._file = open(place, "rb")
        try:
            found = os.fstat(self._file.fileno())
            self.mark = f"{found.st_ino} {found.st_mtime_ns}"
            self.at, self.made = map(int, self._file.readline(80).split())
        except ValueError:
            self._file.close()
            raise NoList("it has no moment") from None
        except BaseException:
            self._file.close()
            raise
        self._objects = _objects(self._file)
        # Of folders: their numbers in the copy, and here.
        self._folders = {0: ROOT}

    def close(self) -> None:
        self._file.close()

    def take(self, store: Store) -> bool:
        """Whether something is left; in a transaction of the caller's."""
        try:
            part = list(islice(self._objects, PART))
        except (ValueError, TypeError, RecursionError) as fault:
            raise NoList(str(fault)) from None
        for one in part:
            self._take_one(store, one)
        if len(part) < PART:
            store.drop_gone(self.at)
            store.drop_ahead()
            store.forget_unused()
            store.keep_told(NIGHT, self.mark)
            store.note_copy(self.at)
            return False
        return True

    def _take_one(self, store: Store, one: OfCopy) -> None:
        up = self._folders.get(one.up)
        if up is None or not store.is_known_folder(up):
            # (it went meanwhile)
            return
        there = store.at_night(up, one.name)
        if there and there.folder != int(one.is_folder) and there.at <= self.at:
            store.drop(there.id)
            there = None
        is_undated = there is None or bool(there.is_undated)
        if there is None:
            number = store.add_at_night(up, one, self.at)
        else:
            number = there.id
            store.note_night(number, self.at, one.number if there.at <= self.at else None)
            if not one.is_folder and there.at <= self.at:
                if there.size not in (None, one.size) or there.sum not in (None, one.sum):
                    store.changed_before(number, self.at)
                elif there.is_undated:
                    store.known_before(number, self.at)
                store.set_at_night(number, one.size, one.sum)
        if one.at is not None and one.at <= self.at and is_undated:
            store.changed_at(number, one.at)
        if one.is_folder:
            self._folders[one.number] = number


def night_of(place: str, store: Store) -> Night | None:
    """The list, if it wasn't taken yet. One of a copy that was made before a restore is of another
    room; that of the restore itself is made before root says that it is done, and has its moment
    of the backup."""
    try:
        night = Night(place)
    except FileNotFoundError:
        return None
    is_of_before = (min(night.at, night.made) < restored(store)
                    and night.at != int(store.told(BACK) or 0))
    if night.mark == store.told(NIGHT) or is_of_before:
        night.close()
        return None
    return night


def restored(store: Store) -> int:
    """The moment of the last restore, in milliseconds: what was before was of another room. Where
    that is ahead, the clock was set back since, and what was before is taken."""
    at = int(store.told(RESTORED) or 0)
    return at if at <= ahead() else 0


def mark_of(place: str) -> str:
    """Another one for each file that takes this place."""
    try:
        found = os.stat(place)
    except FileNotFoundError:
        return ""
    return f"{found.st_ino} {found.st_mtime_ns}"


def take_words(place: str, store: Store) -> None:
    """What root said since the last time; each word has a number. In a transaction."""
    last = int(store.told(WORDS) or 0)
    with suppress(FileNotFoundError), open(place, "rb") as file:
        for line in file.read(MOST_WORDS).splitlines():
            with suppress(ValueError, KeyError, TypeError, Stop):
                word = json.loads(line)
                if int(word["number"]) > last:
                    last = int(word["number"])
                    _take_word(store, int(word["at"]), word)
    store.keep_told(WORDS, str(last))


def _take_word(store: Store, at: int, word: dict[str, object]) -> None:
    user, below = word.get("forget"), word.get("changed")
    if isinstance(user, str) and USER.fullmatch(user):
        store.forget(user, at)
    elif isinstance(below, str):
        found = store.find(names_in(below))
        if found is not None:
            store.doubt(at, found)
    elif "restored" in word:
        store.go_back(int(str(word["restored"])))
        store.keep_told(BACK, str(int(str(word["restored"]))))
        store.keep_told(RESTORED, str(at))
        store.note_gap(at)
