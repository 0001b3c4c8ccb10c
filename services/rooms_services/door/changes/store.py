"""What is known of each object, as a tree in tables of SQLite's: a folder that moves is one row.

Nothing of what was removed is kept, nor what somebody did before the last change."""
import sqlite3
import time
from typing import NamedTuple

from ...room.paths import Names
from .order import Order
from .tables import need_own

ROOT = 0
# What is remembered of the last list of a night that was taken whole, which is its moment, and when
# it was last that a change may not have been seen, both in milliseconds.
COPY, GAP = "copy", "gap"
# A date that is this far in the future, in milliseconds, is that of a clock that was wrong.
AHEAD = 300_000
# How many folders are remembered, by their folder and name: their paths may be many times as long.
REMEMBERED = 20_000
# Of the tables: another one begins with nothing.
VERSION = 1
_TABLES = f"""
CREATE TABLE IF NOT EXISTS node(id INTEGER PRIMARY KEY, up INTEGER NOT NULL, name TEXT NOT NULL,
  folder INTEGER NOT NULL, size INTEGER, at INTEGER, who INTEGER, before INTEGER, sum BLOB,
  moved INTEGER, night INTEGER, copied INTEGER, UNIQUE(up, name)) STRICT;
CREATE INDEX IF NOT EXISTS node_folder ON node(up, name) WHERE folder = 1;
CREATE INDEX IF NOT EXISTS node_at ON node(up, at) WHERE folder = 0 AND at IS NOT NULL;
CREATE TABLE IF NOT EXISTS who(id INTEGER PRIMARY KEY, name TEXT NOT NULL UNIQUE) STRICT;
CREATE TABLE IF NOT EXISTS told(what TEXT PRIMARY KEY, value TEXT NOT NULL) STRICT;
CREATE TABLE IF NOT EXISTS begun(line BLOB NOT NULL) STRICT;
CREATE TABLE IF NOT EXISTS taken(ino INTEGER PRIMARY KEY, upto INTEGER NOT NULL) STRICT;
PRAGMA user_version = {VERSION};
"""


class Known(NamedTuple):
    """`at` in milliseconds; `before` says that it changed at some moment before that one."""
    is_folder: bool
    size: int | None
    at: int | None
    who: str | None
    before: int | None


class Newest(NamedTuple):
    id: int
    name: str
    known: Known


class Inside(NamedTuple):
    """A folder in a folder."""
    id: int
    name: str


class By(NamedTuple):
    """When something was done, in milliseconds, and by whom."""
    at: int
    user: str


class OfCopy(NamedTuple):
    """An object of a night's copy, by its numbers there; the folder `up` came before it."""
    number: int
    up: int
    name: str
    is_folder: bool
    size: int | None
    sum: bytes | None
    # When it changed, where a backup that was put back knows that.
    at: int | None = None


class AtNight(NamedTuple):
    """What is compared with it: `at` is 0 if no moment is known."""
    id: int
    folder: int
    size: int | None
    at: int
    is_undated: int
    sum: bytes | None


def ahead() -> int:
    """What is later than that was told by a clock that was wrong."""
    return int(time.time() * 1000) + AHEAD


class Store:
    """For one thread at a time. Where no names are shown, none is kept."""

    def __init__(self, file: str, has_names: bool) -> None:
        self._has_names = has_names
        self._folders: dict[tuple[int, str], int] = {}
        self._users: dict[str, int] = {}
        # By the number of a document, what was seen of its bytes, until they may have changed.
        self.seen: dict[int, object] = {}
        self.order = Order()
        self._db = sqlite3.connect(file, check_same_thread=False, isolation_level=None)
        try:
            self._prepare()
        except BaseException:
            self._db.close()
            raise

    def _prepare(self) -> None:
        self._db.execute("PRAGMA journal_mode=WAL")
        # What a power cut takes is read again, from the place in the journal that is left.
        self._db.execute("PRAGMA synchronous=NORMAL")
        self._db.execute("PRAGMA cache_size=-8000")
        # What was known of what is removed isn't left in the file.
        self._db.execute("PRAGMA secure_delete=ON")
        if self._db.execute("PRAGMA user_version").fetchone()[0] not in (0, VERSION):
            raise sqlite3.DatabaseError("it is of another version")
        self._db.executescript(_TABLES)
        need_own(self._db, _TABLES)
        if not self._has_names:
            self._db.execute("UPDATE node SET who = NULL WHERE who IS NOT NULL")
            self._db.execute("DELETE FROM who")
            self.settle()
        self.count()

    def close(self) -> None:
        self._db.close()

    def begin(self) -> None:
        self._db.execute("BEGIN IMMEDIATE")

    def commit(self) -> None:
        self._db.execute("COMMIT")
        self.order.keep()

    def give_up(self) -> None:
        self.give_up_remembered()
        self.order.take_back()
        if self._db.in_transaction:
            self._db.execute("ROLLBACK")

    def settle(self) -> None:
        """All of it is on the disk, and what was removed is in no file any more."""
        busy, _, _ = self._db.execute("PRAGMA wal_checkpoint(TRUNCATE)").fetchone()
        if busy:
            raise sqlite3.OperationalError("somebody else reads it")

    # How far files were read

    def taken(self) -> dict[int, int]:
        return dict(self._db.execute("SELECT ino, upto FROM taken"))

    def take(self, ino: int, upto: int) -> None:
        self._db.execute("INSERT OR REPLACE INTO taken VALUES(?, ?)", (ino, upto))

    def untake(self, ino: int) -> None:
        self._db.execute("DELETE FROM taken WHERE ino = ?", (ino,))

    def begun(self) -> bytes:
        """The line of what a door has begun and not ended, or nothing."""
        row = self._db.execute("SELECT line FROM begun").fetchone()
        return bytes(row[0]) if row else b""

    def keep_begun(self, line: bytes) -> None:
        self._db.execute("DELETE FROM begun")
        if line:
            self._db.execute("INSERT INTO begun VALUES(?)", (line,))

    def told(self, what: str) -> str:
        """What was taken last of what root tells, or nothing."""
        row = self._db.execute("SELECT value FROM told WHERE what = ?", (what,)).fetchone()
        return str(row[0]) if row else ""

    def keep_told(self, what: str, value: str) -> None:
        self._db.execute("INSERT OR REPLACE INTO told VALUES(?, ?)", (what, value))

    # Rows

    def _inside(self, up: int, name: str) -> tuple[int, bool] | None:
        """What is known of a name in a folder, and whether that is one; a folder is remembered
        until it moves or goes."""
        known = self._folders.get((up, name))
        if known is not None:
            return known, True
        row = self._db.execute("SELECT id, folder FROM node WHERE up = ? AND name = ?",
                               (up, name)).fetchone()
        if row is None:
            return None
        if row[1]:
            self._remember(up, name, int(row[0]))
        return int(row[0]), bool(row[1])

    def _remember(self, up: int, name: str, folder: int) -> None:
        if len(self._folders) > REMEMBERED:
            self._folders.clear()
        self._folders[up, name] = folder

    def find(self, names: Names) -> int | None:
        """What is known at a path."""
        found, is_folder = ROOT, True
        for name in names:
            one = self._inside(found, name) if is_folder else None
            if one is None:
                return None
            found, is_folder = one
        return found

    def is_folder(self, names: Names) -> bool:
        """Of what was found at this path."""
        return not names or (self.find(names[:-1]), names[-1]) in self._folders

    def folder(self, names: Names) -> int:
        """The folder at this path, which the room has, so that it is made here if it lacks, and so
        are those above it. (There may be two thousand: none is made inside the making of
        another.)"""
        found = ROOT
        for name in names:
            one = self._inside(found, name)
            if one and not one[1]:
                self.drop(one[0])
                one = None
            found = one[0] if one else self._made(found, name)
        return found

    def _made(self, up: int, name: str) -> int:
        made = self._db.execute("INSERT INTO node(up, name, folder) VALUES(?, ?, 1)",
                                (up, name)).lastrowid or ROOT
        self._remember(up, name, made)
        return made

    def drop(self, one: int) -> None:
        """With all that is below it: in the room nothing is, but a line may have been lost."""
        self._forget_place(one)
        if self._db.execute("SELECT 1 FROM node WHERE up = ?", (one,)).fetchone():
            # (the numbers of folders below it may become those of others)
            self._folders.clear()
            self.seen.clear()
        self.seen.pop(one, None)
        self._db.execute("WITH RECURSIVE below(id) AS (VALUES(?) UNION ALL SELECT node.id FROM "
                         "node, below WHERE node.up = below.id) DELETE FROM node WHERE id IN below",
                         (one,))

    def move(self, one: int, above: int, name: str, at: int) -> None:
        self._forget_place(one)
        self._db.execute("UPDATE node SET up = ?, name = ?, moved = ? WHERE id = ?",
                         (above, name, at, one))

    def _forget_place(self, one: int) -> None:
        """Of a folder. What is below it is remembered by its number: whoever moves a deep one
        again and again has no long way gone each time."""
        row = self._db.execute("SELECT up, name FROM node WHERE id = ?", (one,)).fetchone()
        if row:
            self._folders.pop((row[0], row[1]), None)

    def put(self, above: int, name: str, is_folder: bool, size: int | None, by: By) -> None:
        row = self._db.execute("SELECT id FROM node WHERE up = ? AND name = ?",
                               (above, name)).fetchone()
        if row:
            self.seen.pop(row[0], None)
        self._db.execute(
            "INSERT INTO node(up, name, folder, size, at, who) VALUES(?1, ?2, ?3, ?4, ?5, ?6) "
            "ON CONFLICT(up, name) DO UPDATE SET folder = ?3, size = ?4, at = ?5, who = ?6, "
            "before = NULL, sum = NULL, copied = NULL",
            (above, name, int(is_folder), size, by.at, self._user(by.user)))

    def size(self, above: int, name: str) -> int | None:
        row = self._db.execute("SELECT size FROM node WHERE up = ? AND name = ?",
                               (above, name)).fetchone()
        return row[0] if row else None

    def touch(self, folder: int, by: By) -> None:
        """A name came or went."""
        self._db.execute("UPDATE node SET at = ?, who = ?, before = NULL WHERE id = ?",
                         (by.at, self._user(by.user), folder))

    def unsure(self, one: int) -> None:
        """It may have changed: nothing is told of it until it changes again."""
        self.seen.pop(one, None)
        self._db.execute("UPDATE node SET size = NULL, at = NULL, who = NULL, before = NULL, "
                         "sum = NULL, copied = NULL WHERE id = ?", (one,))

    def doubt(self, at: int, top: int = ROOT) -> None:
        """Each at or below this one may have changed until then; what changed later has."""
        self.seen.clear()
        self._db.execute(
            "WITH RECURSIVE below(id) AS (VALUES(?) UNION ALL SELECT node.id FROM node, below "
            "WHERE node.up = below.id) UPDATE node SET at = NULL, who = NULL, size = NULL, "
            "sum = NULL, copied = NULL, before = iif(folder, NULL, ?) "
            "WHERE id IN below AND coalesce(at, 0) <= ?", (top, at, at))

    def go_back(self, at: int) -> None:
        """The room is what it was at that moment, or nobody knows at which, where that is 0."""
        self.give_up_remembered()
        self._db.execute("DELETE FROM begun")
        self._db.execute(
            "WITH RECURSIVE later(id) AS (SELECT id FROM node WHERE moved >= ?1 UNION "
            "SELECT node.id FROM node, later WHERE node.up = later.id) "
            "DELETE FROM node WHERE id IN later OR ?1 = 0", (at,))
        self._db.execute(
            "UPDATE node SET at = NULL, who = NULL, size = NULL, sum = NULL, "
            "before = iif(folder, NULL, ?1) WHERE at >= ?1 OR before >= ?1", (at,))
        self._db.execute("UPDATE node SET copied = NULL")
        self.forget_unused()

    def give_up_remembered(self) -> None:
        self._folders.clear()
        self._users.clear()
        self.seen.clear()

    # Names

    def _user(self, name: str) -> int | None:
        if not self._has_names:
            return None
        known = self._users.get(name)
        if known is None:
            self._db.execute("INSERT OR IGNORE INTO who(name) VALUES(?)", (name,))
            known = self._users[name] = int(self._db.execute(
                "SELECT id FROM who WHERE name = ?", (name,)).fetchone()[0])
        return known

    def forget(self, user: str, until: int) -> None:
        """Who did what until then, in milliseconds, by this name."""
        self._db.execute("UPDATE node SET who = NULL WHERE at <= ? AND "
                         "who = (SELECT id FROM who WHERE name = ?)", (until, user))
        self.forget_unused()

    def forget_old(self, until: int) -> None:
        self._db.execute("UPDATE node SET who = NULL WHERE at <= ? AND who IS NOT NULL", (until,))
        self.forget_unused()

    def forget_unused(self) -> None:
        """Names of those who changed nothing last."""
        self._users.clear()
        self._db.execute("DELETE FROM who WHERE id NOT IN (SELECT who FROM node "
                         "WHERE who IS NOT NULL)")

    # Nights

    def is_known_folder(self, one: int) -> bool:
        return one == ROOT or bool(self._db.execute(
            "SELECT 1 FROM node WHERE id = ? AND folder = 1", (one,)).fetchone())

    def at_night(self, up: int, name: str) -> AtNight | None:
        row = self._db.execute("SELECT id, folder, size, coalesce(at, 0), at IS NULL, sum "
                               "FROM node WHERE up = ? AND name = ?", (up, name)).fetchone()
        return AtNight(*row) if row else None

    def add_at_night(self, up: int, one: OfCopy, night: int) -> int:
        return self._db.execute(
            "INSERT INTO node(up, name, folder, size, before, sum, night, copied) "
            "VALUES(?,?,?,?,?,?,?,?)",
            (up, one.name, int(one.is_folder), one.size, None if one.is_folder else night,
             one.sum, night, one.number)).lastrowid or ROOT

    def note_night(self, one: int, night: int, copied: int | None) -> None:
        self._db.execute("UPDATE node SET night = ?, copied = ? WHERE id = ?",
                         (night, copied, one))

    def set_at_night(self, one: int, size: int | None, total: bytes | None) -> None:
        self.seen.pop(one, None)
        self._db.execute("UPDATE node SET size = ?, sum = ? WHERE id = ?", (size, total, one))

    def changed_before(self, one: int, night: int) -> None:
        """Nobody told of it."""
        self.seen.pop(one, None)
        self._db.execute("UPDATE node SET at = NULL, who = NULL, before = ? WHERE id = ?",
                         (night, one))

    def known_before(self, one: int, night: int) -> None:
        self._db.execute("UPDATE node SET before = coalesce(before, ?) WHERE id = ?", (night, one))

    def changed_at(self, one: int, at: int) -> None:
        """As a backup that was put back knows it; who did it isn't known."""
        self._db.execute("UPDATE node SET at = ?, before = NULL WHERE id = ?", (at, one))

    def drop_gone(self, night: int) -> None:
        """What the copy of that night didn't have, unless it changed or moved since, or came to its
        place with a folder that did, or has something in it that is kept."""
        self.give_up_remembered()
        self._db.execute(
            "WITH RECURSIVE later(id) AS (SELECT id FROM node WHERE moved > ?1 UNION "
            "SELECT node.id FROM node, later WHERE node.up = later.id), "
            "kept(id) AS (SELECT id FROM node WHERE night = ?1 OR at > ?1 OR id IN later UNION "
            "SELECT node.up FROM node, kept WHERE node.id = kept.id) "
            "DELETE FROM node WHERE id NOT IN kept", (night,))

    def in_copy(self, folder: Names, since: int) -> dict[str, int]:
        """Of documents in a folder: the numbers that they have in the copy of the last night whose
        list was taken whole. One lacks that is new or changed since, or that has moved since a
        moment, itself or with a folder."""
        found = self.find(folder)
        if found is None or self.has_moved(found, since):
            return {}
        return dict(self._db.execute(
            "SELECT name, copied FROM node WHERE up = ? AND folder = 0 AND night = ? AND "
            "copied IS NOT NULL AND coalesce(moved, 0) < ?", (found, self.told(COPY), since)))

    def has_moved(self, one: int, since: int) -> bool:
        """Itself or with a folder, since a moment in milliseconds: what the room was asked about
        there since then may have been something else."""
        return self._db.execute(
            "WITH RECURSIVE above(id) AS (VALUES(?) UNION SELECT node.up FROM node, above "
            "WHERE node.id = above.id) SELECT 1 FROM node WHERE id IN above AND moved >= ?",
            (one, since)).fetchone() is not None

    def vouched(self) -> int | None:
        """The moment of that copy, if each change since then is known. What a clock said that was
        wrong can't be compared."""
        copy, gap = self._moment(COPY), self._moment(GAP)
        return copy if gap < copy <= ahead() else None

    def _moment(self, what: str) -> int:
        return int(self.told(what) or 0)

    def note_gap(self, now: int) -> None:
        """A change may not have been seen. (The clock may have been set back a little.)"""
        copy = self._moment(COPY)
        self.keep_told(GAP, str(max(now, copy) if copy <= ahead() else now))

    def note_copy(self, at: int) -> None:
        """A list was taken whole. A gap that is ahead came before: until now, at the latest."""
        self.keep_told(COPY, str(at))
        self.keep_told(GAP, str(min(self._moment(GAP), int(time.time() * 1000))))

    def drop_ahead(self) -> None:
        """Dates of a clock that was wrong."""
        self._db.execute("UPDATE node SET at = NULL, who = NULL WHERE at > ?", (ahead(),))

    # What is asked

    def children(self, names: Names, since: int) -> dict[str, Known]:
        """Of what something is known, and hasn't moved since that moment."""
        folder, now = self.find(names), ahead()
        if folder is None or self.has_moved(folder, since):
            return {}
        return {name: _known(is_folder, size, at, who, before, now)
                for name, is_folder, size, at, who, before in self._db.execute(
                    "SELECT node.name, folder, size, at, who.name, before FROM node LEFT JOIN who "
                    "ON who.id = node.who WHERE up = ? AND coalesce(moved, 0) < ? AND "
                    "(size IS NOT NULL OR at IS NOT NULL OR before IS NOT NULL)",
                    (folder, since))}

    def folders(self, above: int, after: str, most: int) -> list[Inside]:
        """So many, by their names, behind this one."""
        return [Inside(one, name) for one, name in self._db.execute(
            "SELECT id, name FROM node WHERE up = ? AND folder = 1 AND name > ? ORDER BY name "
            "LIMIT ?", (above, after, most))]

    def newest(self, folder: int, after: tuple[int, int] | None, most: int) -> list[Newest]:
        """The documents in a folder, from the newest on, behind that moment and number."""
        now = ahead()
        at, last = after or (now, 0)
        return [Newest(one, name, _known(0, size, when, who, None, now))
                for one, name, size, when, who in self._db.execute(
                    "SELECT node.id, node.name, size, at, who.name FROM node LEFT JOIN who "
                    "ON who.id = node.who WHERE up = ? AND folder = 0 AND at IS NOT NULL AND "
                    "(at, node.id) < (?, ?) ORDER BY at DESC, node.id DESC LIMIT ?",
                    (folder, at, last, most))]

    def named(self, folder: int, begin: str, most: int) -> list[tuple[str, int | None]]:
        """Documents in a folder whose names begin so and go on by digits, with how large they
        are."""
        return list(self._db.execute(
            "SELECT name, size FROM node WHERE up = ? AND folder = 0 AND name > ? AND name < ? "
            "LIMIT ?", (folder, begin, f"{begin}:", most)))

    def count(self) -> int:
        return int(self._db.execute("SELECT count(*) FROM node").fetchone()[0])


def _known(folder: int, size: int | None, at: int | None, who: str | None, before: int | None,
           now: int) -> Known:
    if at is not None and at > now:
        return Known(bool(folder), size, None, None, None)
    return Known(bool(folder), size, at, who, before)
