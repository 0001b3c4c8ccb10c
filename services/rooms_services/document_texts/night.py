"""Has the documents of a night's copy read, one by one: the service rooms-texts-night@. Root has
put the copy into a folder of its own (admin/rooms_admin/backup/for_search.py) and takes it away.
What the last night had read isn't read again, nor is what nothing could be read of, until its bytes
change. What a night has no time for has no text until the next one."""
import contextlib
import csv
import json
import os
import shutil
import signal
import sqlite3
import struct
import sys
import time
from collections import Counter, deque
from collections.abc import Callable, Iterator
from concurrent.futures import Future, ThreadPoolExecutor
from functools import partial
from itertools import groupby
from typing import NamedTuple

from rooms_admin.backup import objects_of_copy
from rooms_admin.cli import signs
from rooms_admin.room import in_parts, names
from rooms_admin.room.in_parts import Manifest

from . import feed, nights, scan
from .extract import LARGEST, VERSION
from .folding import folded, plain
from .sink import State
from .store import Making, sum_of

# Where scans are read, and how long one may take.
SCANS, SCAN_SECONDS = "/run/rooms-scan/socket", 200.0
# Seconds of a night, at how many documents are read at once, and how many wait for that.
SECONDS, AT_ONCE, WAITING = 1800.0, 3, 12
# How often one is asked for that is refused, and for how many seconds each is, until there seem to
# be none: those who search, in several rooms, may have all that there may be for a while.
TRIES, PAUSE, NOBODY = 75, 0.4, 300.0
# After these seconds more than scans have a file ends it that was made to take long.
LONGEST = 2700
LIST = "without.csv"
Read = Callable[[bytes], tuple[State, str]]


# What a copy may be that somebody has made up.
FAULTS = (sqlite3.Error, struct.error, ValueError, TypeError, ArithmeticError)


class NobodyReads(Exception):
    """No process begins that reads a document."""


# By its number, the folder in which a folder is, and its name.
Above = dict[int, tuple[int, str]]


class Document(NamedTuple):
    """`up` is the number of its folder, and `data` what the room keeps under its name, which is a
    list of parts where it has some."""
    number: int
    up: int
    name: str
    data: bytes
    manifest: Manifest | None
    # All of it, as long as the copy is open; ValueError if parts lack, or were changed.
    whole: Callable[[], bytes]

    @property
    def is_too_large(self) -> bool:
        return self.manifest is not None and self.manifest.size > LARGEST


def documents(file: str, above: Above) -> Iterator[Document]:
    """Of a copy of a room. Whoever had its server in their hands may have written it. `above` has
    the folders that came by then: paths may be many times as long."""
    with contextlib.closing(sqlite3.connect(file)) as room:
        # What the file says of its own tables runs no function of SQLite's.
        room.execute("PRAGMA trusted_schema = OFF")
        # (a folder's own come together)
        for up, some in groupby(objects_of_copy.objects(room), lambda one: one[1]):
            row = list(some)
            numbers = {name: number for number, _, name, is_folder in row if not is_folder}
            parts = in_parts.hidden(numbers)
            for number, _, name, is_folder in row:
                if is_folder:
                    above[number] = up, name
                elif name not in parts:
                    data = objects_of_copy.body(room, number)
                    manifest = in_parts.read(data)
                    yield Document(number, up, name, data, manifest,
                                   partial(_whole, room, data, manifest, name, numbers))


def _whole(room: sqlite3.Connection, data: bytes, manifest: Manifest | None, name: str,
           numbers: dict[str, int]) -> bytes:
    if manifest is None:
        return data
    whole = bytearray()
    for index, (number, _) in enumerate(manifest.parts):
        part = objects_of_copy.body(room, numbers.get(name + in_parts.end_of(number), -1))
        if not manifest.is_part(index, part):
            raise ValueError("a part is missing or was changed")
        whole += part
    return whole


def _sum(one: Document) -> tuple[bytes, frozenset[int]]:
    """By which its text is known, and of which parts that is, if it is whole. A list of parts alone
    gives nobody a text: its parts may be somebody else's. (Nor is such a list remembered: somebody
    may have made a million.)"""
    total = sum_of(one.data)
    if one.manifest is None or one.is_too_large:
        return total, frozenset()
    try:
        one.whole()
    except ValueError:
        return sum_of(b"not whole" + total), frozenset()
    return total, one.manifest.numbers


def _folder(above: Above, up: int) -> str:
    """The path of a folder; nothing of the room's own."""
    parts: list[str] = []
    while up and up in above:
        up, name = above[up]
        parts.append(f"/{name}")
    return "".join(reversed(parts))


class Night:
    """Scans are read for `scans` seconds, after all else."""

    def __init__(self, room: str, read: Read = feed.text_of, seconds: float = SECONDS,
                 scans: float = 0.0, read_scan: Read | None = None) -> None:
        self.room = room
        self._read, self._read_scan, self._scans = read, read_scan or _scanned, scans
        self._until = time.monotonic() + seconds
        self._fresh = os.path.join(nights.FOLDER, room, nights.NEW)
        # Since when.
        self._refused: float | None = None
        self._waits: deque[tuple[bytes, Future[tuple[State, str]]]] = deque()
        self._above: Above = {}
        # Of each document its folder, its name, and by which its text is known.
        self._sums: list[tuple[int, str, bytes]] = []
        self.read = self.scans = 0

    def _text(self, data: bytes) -> tuple[State, str]:
        """Others may be read at the same moment, of another room."""
        for _ in range(TRIES):
            if time.monotonic() > self._until:
                break
            state, text = self._read(data)
            if state is not State.LATER:
                self._refused = None
                return state, text
            self._refused = self._refused or time.monotonic()
            time.sleep(PAUSE)
        return State.LATER, ""

    def _has_nobody(self, seconds: float) -> bool:
        now = time.monotonic()
        return self._refused is not None and self._refused + seconds <= now < self._until

    def make(self, file: str, at: int, night: str) -> Counter[State]:
        last = nights.last(self.room)
        if os.path.lexists(self._fresh):
            shutil.rmtree(self._fresh)
        making = Making(self._fresh)
        try:
            with ThreadPoolExecutor(AT_ONCE) as pool:
                before = last.by_sum() if last and last.reader == VERSION else {}
                for one in documents(file, self._above):
                    total, parts = _sum(one)
                    making.note(one.number, total, parts)
                    self._sums.append((one.up, one.name, total))
                    if making.has(total):
                        continue
                    there = before.get(total)
                    if last and there and not there.state.may_change:
                        making.put(total, there.state, last.text(there))
                        continue
                    # (its place is taken; the text comes behind it)
                    making.put(total, State.LATER, b"")
                    self._have_read(making, pool, total, one)
                self._settle(making, 0)
            self._have_scans_read(making, file)
            making.end({"at": at, "night": night})
        finally:
            making.close()
        return self._keep(making, at)

    def _have_read(self, making: Making, pool: ThreadPoolExecutor, total: bytes, one: Document
                   ) -> None:
        """A large one alone, so that no two are in memory."""
        if one.is_too_large:
            making.put(total, State.LARGE, b"")
            return
        if one.manifest:
            self._settle(making, 0)
        try:
            data = one.whole()
        except ValueError:
            making.put(total, State.BROKEN, b"")
            return
        self._waits.append((total, pool.submit(self._text, data)))
        self._settle(making, 0 if one.manifest else WAITING)

    def _settle(self, making: Making, most: int) -> None:
        while len(self._waits) > most:
            total, future = self._waits.popleft()
            state, text = future.result()
            self.read += state is not State.LATER
            making.put(total, state, folded(plain(text)).encode())
            is_last = most == 0 and not self._waits
            if state is State.LATER and self._has_nobody(
                    0.0 if is_last and not self.read else NOBODY):
                self._waits.clear()
                self._until = 0.0
                raise NobodyReads

    def _have_scans_read(self, making: Making, file: str) -> None:
        """One after the other. Those of which it isn't the turn are scans in the next night too."""
        until = time.monotonic() + self._scans
        for one in documents(file, {}) if self._scans else ():
            total, _ = _sum(one)
            if making.state(total) is not State.NONE:
                continue
            try:
                data = one.whole()
            except ValueError:
                continue
            if not scan.is_scan(data):
                continue
            if time.monotonic() > until:
                return
            state, text = self._read_scan(data)
            if state.may_change:
                # (nobody reads scans here)
                return
            self.scans += 1
            making.put(total, state, folded(plain(text)).encode())

    def _keep(self, making: Making, at: int) -> Counter[State]:
        """It gets its name, and what was before goes."""
        states = Counter(making.state(total) for _, _, total in self._sums)
        self._write_list(making)
        place = nights.place(self.room, at)
        if os.path.lexists(place):
            shutil.rmtree(place)
        os.rename(self._fresh, place)
        nights.keep_only(self.room, at)
        return states

    def _write_list(self, making: Making) -> None:
        """What has no text, or not all of it, and why."""
        place = os.path.join(nights.FOLDER, self.room, LIST)
        with open(f"{place}.new", "w", encoding="utf-8", errors="replace", newline="") as out:
            rows = csv.writer(out, lineterminator="\n")
            rows.writerow(("why", "path"))
            for up, some in groupby(self._sums, lambda one: one[0]):
                above = ""
                for _, name, total in some:
                    if (state := making.state(total)) is not State.WHOLE:
                        above = above or signs.laid_open(_folder(self._above, up))
                        rows.writerow((state.value, f"{above}/{signs.laid_open(name)}"))
        os.rename(f"{place}.new", place)


def _scanned(data: bytes) -> tuple[State, str]:
    return feed.text_of(data, SCANS, SCAN_SECONDS)


def run() -> int:
    room = os.environ.get("ROOM", "")
    if not names.is_room(room):
        raise SystemExit("rooms-service: ROOM is no name of a room: its unit starts this")
    os.umask(0o077)
    folder = os.path.join(nights.COPIES, room)
    with open(f"{folder}/about", "rb") as source:
        about = json.loads(source.read(4096))
    scans = 60 * int(about["scans"])
    signal.alarm(LONGEST + scans)
    night = Night(room, scans=scans)
    try:
        states = night.make(f"{folder}/room", int(about["at"]), str(about["night"]))
    except NobodyReads:
        print("no document is read: systemctl status rooms-extract.socket", file=sys.stderr)
        return 1
    except FAULTS as fault:
        print(f"the copy can't be read: {fault}", file=sys.stderr)
        return 1
    print(f"{states.total()} documents, {night.read} read tonight, {night.scans} scans, "
          f"{states.total() - states[State.WHOLE]} without all of their text", flush=True)
    return 0
